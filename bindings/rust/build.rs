//! Links libtera.a: that of the package, or else of out/, where ./bindings/build makes it.
use std::env;
use std::path::PathBuf;

fn main() {
    let here = PathBuf::from(env::var("CARGO_MANIFEST_DIR").unwrap());
    let packaged = here.join("native");
    let folder = if packaged.is_dir() {
        packaged
    } else {
        here.join("../../out")
    };
    println!("cargo:rustc-link-search=native={}", folder.display());
    println!("cargo:rustc-link-lib=static=tera");
    let archive = folder.join("libtera.a");
    println!("cargo:rerun-if-changed={}", archive.display());
}
