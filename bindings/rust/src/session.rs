use crate::interface::*;
use crate::literal::{literal_of, value_of};
use crate::{filled, seed, Error, Key, Value};
use std::ptr;

/// Names and what they mean. It stays on its thread.
///
/// The calls of the language are methods, which take names. A name that is not there reads as undefined. What a call finds is
/// given; behind [`Session::keep`] it is kept under a name instead.
///
/// ```
/// use tera_values::{Session, Value};
/// let mut session = Session::new()?;
/// session.set("cfg", Value::map([("title", Value::from("A & B")), ("ports", Value::from([80, 443]))]))?;
/// assert_eq!(session.path("cfg", "ports.1")?, Some(Value::from(443)));
/// assert!(session.keep("title").path("cfg", "title")?);
/// assert_eq!(session.escape("title")?, "A &amp; B");
/// assert_eq!(session.get("title")?, Some(Value::from("A & B")));
/// # Ok::<(), tera_values::Error>(())
/// ```
#[derive(Debug)]
pub struct Session {
    held: *mut Held,
}

/// Names: how they come in and go.
impl Session {
    /// No names.
    pub fn new() -> Result<Session, Error> {
        let mut held = ptr::null_mut();
        match unsafe { tera_open_seeded(&mut held, seed().as_ptr()) } {
            DONE => Ok(Session { held }),
            _ => Err(Error::NoMemory),
        }
    }

    /// Keeps a value under a name.
    pub fn set(&mut self, name: &str, value: impl Into<Value>) -> Result<(), Error> {
        let (name, value) = (name_of(name)?, value.into());
        match &value {
            Value::Text(text) => self.set_text(name, text, false),
            Value::Safe(text) => self.set_text(name, text, true),
            other => {
                let literal = literal_of(other)?;
                let (at, len) = (literal.as_ptr(), literal.len());
                let held = &mut self.held;
                let status = unsafe { tera_set(held, name.as_ptr(), name.len(), at, len) };
                self.changed(status)
            }
        }
    }

    /// Keeps a text under a name, marked safe or not.
    pub fn set_text(&mut self, name: &str, text: &str, safe: bool) -> Result<(), Error> {
        let name = name_of(name)?;
        let (at, len) = (text.as_ptr(), text.len());
        let (held, safe) = (&mut self.held, safe.into());
        let status = unsafe { tera_set_text(held, name.as_ptr(), name.len(), at, len, safe) };
        self.changed(status)
    }

    /// Keeps the value of a text of JSON: null as none, and integers alone of all numbers.
    ///
    /// ```
    /// # use tera_values::{Error, Session, Value};
    /// let mut session = Session::new()?;
    /// session.set_json("cfg", r#"{"ports": [80, 443]}"#)?;
    /// assert_eq!(session.path("cfg", "ports.0")?, Some(Value::from(80i64)));
    /// assert_eq!(session.get_json("cfg")?.as_deref(), Some(r#"{"ports":[80,443]}"#));
    /// assert!(matches!(session.set_json("cfg", "1.5"), Err(Error::Refused(_))));
    /// # Ok::<(), Error>(())
    /// ```
    pub fn set_json(&mut self, name: &str, json: &str) -> Result<(), Error> {
        let name = name_of(name)?;
        let (at, len) = (json.as_ptr(), json.len());
        let held = &mut self.held;
        let status = unsafe { tera_set_json(held, name.as_ptr(), name.len(), at, len) };
        self.changed(status)
    }

    /// Keeps each value under the text of its key, or none of them. The map counts as a level.
    pub fn extend<V: Into<Value>>(
        &mut self,
        values: impl IntoIterator<Item = (impl Into<String>, V)>,
    ) -> Result<(), Error> {
        let pairs = values
            .into_iter()
            .map(|(name, value)| (Key::Text(name.into()), value));
        self.ask(&format!("extend {}", literal_of(&Value::map(pairs))?))?;
        Ok(())
    }

    /// What a name holds, or nothing where it is not there.
    pub fn get(&mut self, name: &str) -> Result<Option<Value>, Error> {
        let literal = self.delivered(|held, room, room_len, len| unsafe {
            tera_get(held, name.as_ptr(), name.len(), room, room_len, len)
        })?;
        Ok(literal.map(|it| value_of(&it).expect("the library writes literals")))
    }

    /// The same as JSON. Refused where the value holds bytes or undefined, or where two keys would be one text.
    pub fn get_json(&mut self, name: &str) -> Result<Option<String>, Error> {
        self.delivered(|held, room, room_len, len| unsafe {
            tera_get_json(held, name.as_ptr(), name.len(), room, room_len, len)
        })
    }

    /// Whether a name is there, also where it holds undefined.
    pub fn has(&mut self, name: &str) -> bool {
        unsafe { tera_has(&mut self.held, name.as_ptr(), name.len()) == DONE }
    }

    /// Takes a name away, and gives what it held.
    pub fn remove(&mut self, name: &str) -> Result<Option<Value>, Error> {
        let held = self.get(name)?;
        self.forget(name);
        Ok(held)
    }

    /// The names, in the order of their bytes. Refused where one holds a line feed, as `extend` can bring them.
    pub fn names(&mut self) -> Result<Vec<String>, Error> {
        let names = self.delivered(|held, room, room_len, len| unsafe {
            tera_names(held, room, room_len, len)
        })?;
        let names = names.unwrap_or_default();
        Ok(names.split_terminator('\n').map(str::to_string).collect())
    }

    /// The session as a script, a line of `set` for each name, which [`Session::line`] takes one by one. Refused where `set` takes
    /// no such name.
    pub fn save(&mut self) -> Result<String, Error> {
        let script = self.delivered(|held, room, room_len, len| unsafe {
            tera_save(held, room, room_len, len)
        })?;
        Ok(script.unwrap_or_default())
    }

    /// Runs a line, and gives its reply, without a line feed; an empty one where the line says nothing. An end of line behind the
    /// line is taken away; a line feed anywhere else makes it bad.
    ///
    /// ```
    /// use tera_values::Error::{BadLine, Refused};
    /// let mut session = tera_values::Session::new()?;
    /// assert_eq!(session.line("# a comment\n")?, "");
    /// assert_eq!(session.line("cmp a b\r\n")?, "equal");
    /// let text = "Only numbers can be negated. This is a `undefined`";
    /// assert_eq!(session.line("negate a"), Err(Refused(text.to_string())));
    /// let report = "error: bad line\n --> line 1:1:1\n  |\n1 | frob\n  | ^^^^\n";
    /// assert_eq!(session.line("frob"), Err(BadLine(report.to_string())));
    /// let report = "error: bad line: a line feed stands inside it\n --> line 1:1:8\n  |\n1 | # hides\n  |        ^\n";
    /// assert_eq!(session.line("# hides\nset a 1"), Err(BadLine(report.to_string())));
    /// # Ok::<(), tera_values::Error>(())
    /// ```
    pub fn line(&mut self, line: &str) -> Result<String, Error> {
        let mut len = 0;
        let status = unsafe { tera_line(&mut self.held, line.as_ptr(), line.len(), &mut len) };
        match status {
            WANTED | NO_MEMORY => Err(Error::NoMemory),
            NO_REPLY => Err(Error::NoReply),
            BAD => Err(Error::BadLine(self.reply())),
            _ => answer(self.reply()),
        }
    }
}

/// How the library is asked.
impl Session {
    /// The answer to a call.
    pub(crate) fn ask(&mut self, line: &str) -> Result<String, Error> {
        self.line(line)
    }

    /// The answer to a call of names.
    pub(crate) fn said(&mut self, word: &str, names: &[&str]) -> Result<String, Error> {
        names.iter().try_for_each(|it| name_of(it).map(|_| ()))?;
        self.ask(&format!("{word} {}", names.join(" ")))
    }

    pub(crate) fn forget(&mut self, name: &str) {
        unsafe { tera_remove(&mut self.held, name.as_ptr(), name.len()) };
    }

    /// What a call says that sets a name, which is one.
    fn changed(&mut self, status: u8) -> Result<(), Error> {
        match status {
            DONE => Ok(()),
            REFUSED => Err(self.refusal()),
            NO_MEMORY => Err(Error::NoMemory),
            other => unreachable!("the library answers {other}"),
        }
    }

    /// What a call delivers, or nothing where there is no such name.
    fn delivered(
        &mut self,
        mut call: impl FnMut(*mut *mut Held, *mut u8, usize, *mut usize) -> u8,
    ) -> Result<Option<String>, Error> {
        let (status, text) = filled(256, |room, room_len, len| {
            call(&mut self.held, room, room_len, len)
        });
        match status {
            DONE => Ok(Some(text)),
            MISSING => Ok(None),
            REFUSED => Err(self.refusal()),
            NO_MEMORY => Err(Error::NoMemory),
            other => unreachable!("the library answers {other}"),
        }
    }

    /// Why the last call was refused.
    fn refusal(&mut self) -> Error {
        match answer(self.reply()) {
            Ok(text) => Error::Refused(text),
            Err(refusal) => refusal,
        }
    }

    /// The reply to the last line, as it is.
    fn reply(&mut self) -> String {
        let call = |room, room_len, len| unsafe { tera_reply(&mut self.held, room, room_len, len) };
        filled(256, call).1
    }
}

impl Drop for Session {
    fn drop(&mut self) {
        unsafe { tera_close(&mut self.held) }
    }
}

/// The answer of a reply, without its line feed.
fn answer(reply: String) -> Result<String, Error> {
    let answer = reply.strip_suffix('\n').unwrap_or(&reply);
    match answer.strip_prefix("error: ") {
        Some(text) => Err(Error::Refused(text.to_string())),
        None => Ok(answer.to_string()),
    }
}

/// The name, where a line can have it.
pub(crate) fn name_of(name: &str) -> Result<&str, Error> {
    let is_inside = |it: char| it == '_' || it.is_ascii_alphanumeric();
    if name.starts_with(|it: char| it == '_' || it.is_ascii_alphabetic())
        && name.chars().all(is_inside)
    {
        return Ok(name);
    }
    Err(Error::NotAName(name.to_string()))
}
