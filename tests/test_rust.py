"""The crate for Rust (bindings/rust): its tests, its examples, and how it is laid out. Its tests put values in and have them come
out, and ask each call. What needs a tool that is not there is skipped."""
import shutil
import unittest

import built
from built import TOP, heard

CRATE = f"{TOP}/bindings/rust"
CARGO = {"CARGO_TARGET_DIR": f"{built.ROOM.name}/cargo", "CARGO_NET_OFFLINE": "true"}


@unittest.skipUnless(shutil.which("cargo"), "there is no `cargo`")
class Rust(unittest.TestCase):
    """The crate, over the library that ./bindings/build makes."""

    @classmethod
    def setUpClass(cls):
        built.library()

    def says(self, word, *words, **env):
        """What `cargo` prints of the crate; a test fails where its status is not 0."""
        done = heard("cargo", word, "--manifest-path", f"{CRATE}/Cargo.toml", *words, env={**CARGO, **env})
        self.assertEqual(done.status, 0, (done.out + done.err).decode())
        return done.out.decode()

    def test_tests(self):
        """its tests, a hundred thousand values at random among them, and the examples of its pages"""
        told = self.says("test", "--offline")
        self.assertIn("a_hundred_thousand_values_come_out_as_they_went_in ... ok", told)
        self.assertEqual(told.count("test result: ok"), 3)

    def test_example(self):
        """its example"""
        self.assertEqual(self.says("run", "-q", "--offline", "--example", "page"), "&lt;b&gt;A &amp; B&lt;/b&gt;\n")

    def test_warnings(self):
        """it and its pages are made without a warning"""
        self.says("check", "-q", "--offline", "--all-targets", RUSTFLAGS="-D warnings")
        self.says("doc", "-q", "--offline", "--no-deps", RUSTDOCFLAGS="-D warnings")

    @unittest.skipUnless(shutil.which("cargo-clippy"), "there is no `cargo clippy`")
    def test_clippy(self):
        """`cargo clippy` has nothing to say"""
        self.says("clippy", "-q", "--offline", "--all-targets", "--", "-D", "warnings")

    @unittest.skipUnless(shutil.which("rustfmt"), "there is no `rustfmt`")
    def test_layout(self):
        """it is laid out by `cargo fmt`"""
        self.says("fmt", "--check")


if __name__ == "__main__":
    unittest.main()
