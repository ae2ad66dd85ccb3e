//! The values of the template engine Tera: Rust's values go in and come out, and each call of the script language is a method.
//!
//! ```
//! use tera_values::{Session, Value};
//! let mut session = Session::new()?;
//! session.set("title", "<b>A & B</b>")?;
//! assert_eq!(session.get("title")?, Some(Value::from("<b>A & B</b>")));
//! assert_eq!(session.escape("title")?, "&lt;b&gt;A &amp; B&lt;/b&gt;");
//! assert_eq!(session.line("get title")?, r#"value "<b>A & B</b>""#);
//! assert_eq!(tera_values::escape("<b>")?, "&lt;b&gt;");
//! # Ok::<(), tera_values::Error>(())
//! ```
#![warn(missing_docs)]
use std::collections::hash_map::RandomState;
use std::hash::{BuildHasher, Hasher};

mod calls;
mod error;
mod interface;
mod literal;
mod session;
mod value;

pub use calls::{Integer, Keep};
pub use error::{Error, Mismatch};
pub use session::Session;
pub use value::{Key, Value};

use interface::{tera_escape, tera_replay_seeded, DONE, NO_MEMORY, SMALL};

#[cfg(doctest)]
#[doc = include_str!("../README.md")]
struct Readme;

/// Bytes that nobody knows who writes a line, by which names and keys are hashed: so none can make some that collide.
fn seed() -> [u8; 16] {
    let drawn = RandomState::new();
    let mut bytes = [0; 16];
    for (at, half) in bytes.chunks_mut(8).enumerate() {
        let mut hasher = drawn.build_hasher();
        hasher.write_usize(at);
        half.copy_from_slice(&hasher.finish().to_ne_bytes());
    }
    bytes
}

/// The status of a call that writes a text to a room, and the text. The room has this size, or that which the call asks for.
fn filled(size: usize, mut call: impl FnMut(*mut u8, usize, *mut usize) -> u8) -> (u8, String) {
    let mut room = vec![0; size];
    loop {
        let mut len = 0;
        let status = call(room.as_mut_ptr(), room.len(), &mut len);
        if status != SMALL {
            room.truncate(len);
            room.shrink_to_fit();
            return (
                status,
                String::from_utf8(room).expect("what is delivered is UTF-8"),
            );
        }
        room = vec![0; len];
    }
}

/// The text with `&`, `<`, `>`, `"` and `'` as entities.
pub fn escape(text: &str) -> Result<String, Error> {
    // few texts that are not short have an entity for every fifth byte
    let (status, escaped) = filled(2 * text.len() + 64, |room, room_len, len| unsafe {
        tera_escape(text.as_ptr(), text.len(), room, room_len, len)
    });
    match status {
        DONE => Ok(escaped),
        _ => Err(Error::NoMemory),
    }
}

/// What a script answers: its answers, the report of what ended it early, and the status of the program.
#[derive(Debug, Clone, PartialEq, Eq)]
pub struct Replayed {
    /// The answers, a line each.
    pub answers: Vec<u8>,
    /// The report of a bad line or of want of memory; else nothing.
    pub report: Vec<u8>,
    /// The status that the program ends with.
    pub status: u8,
}

/// Runs a whole script, from no names on.
///
/// ```
/// let replayed = tera_values::replay(b"set a 1u64\neq a a\n")?;
/// assert_eq!((replayed.answers, replayed.status), (b"ok\ntrue\n".to_vec(), 0));
/// assert_eq!(tera_values::replay(b"frob")?.status, 2);
/// # Ok::<(), tera_values::Error>(())
/// ```
pub fn replay(script: &[u8]) -> Result<Replayed, Error> {
    let (mut answers, mut report) = (vec![0; script.len() + 256], vec![0; 256]);
    loop {
        let (mut answers_len, mut report_len) = (0, 0);
        let status = unsafe {
            tera_replay_seeded(
                script.as_ptr(),
                script.len(),
                seed().as_ptr(),
                answers.as_mut_ptr(),
                answers.len(),
                &mut answers_len,
                report.as_mut_ptr(),
                report.len(),
                &mut report_len,
            )
        };
        answers.resize(answers_len, 0);
        report.resize(report_len, 0);
        match status {
            SMALL => {}
            NO_MEMORY => return Err(Error::NoMemory),
            _ => {
                return Ok(Replayed {
                    answers,
                    report,
                    status,
                })
            }
        }
    }
}

#[cfg(test)]
mod tests {
    use crate::interface::{tera_version, VERSION};

    #[test]
    fn the_archive_is_of_this_version() {
        assert_eq!(unsafe { tera_version() }, VERSION);
        let version = format!("{}.{}.{}", VERSION >> 16, VERSION >> 8 & 255, VERSION & 255);
        assert_eq!(version, env!("CARGO_PKG_VERSION"));
    }
}
