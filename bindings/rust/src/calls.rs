//! The calls of the language as methods.
use crate::literal::{quoted, value_of};
use crate::session::name_of;
use crate::{Error, Session, Value};
use std::cmp::Ordering;

/// An integer type that [`Session::read`] gives.
pub trait Integer: std::str::FromStr + sealed::Sealed {
    /// Its name.
    const NAME: &'static str;
}

mod sealed {
    pub trait Sealed {}
}

macro_rules! integer {
    ($($type:ident)*) => {
        $(
            impl sealed::Sealed for $type {}
            impl Integer for $type {
                const NAME: &'static str = stringify!($type);
            }
        )*
    };
}

integer!(u8 u16 u32 u64 u128 usize i8 i16 i32 i64 i128 isize);

/// What a call asks of names.
impl Session {
    /// Whether both mean the same: neither kinds of integers nor marks count, nor the order of pairs.
    pub fn eq(&mut self, left: &str, right: &str) -> Result<bool, Error> {
        self.is("eq", &[left, right])
    }

    /// The total order.
    pub fn cmp(&mut self, left: &str, right: &str) -> Result<Ordering, Error> {
        let answer = self.said("cmp", &[left, right])?;
        Ok(ordering(&answer).expect("the total order decides"))
    }

    /// The partial order, or nothing where it is undecided.
    pub fn try_cmp(&mut self, left: &str, right: &str) -> Result<Option<Ordering>, Error> {
        Ok(ordering(&self.said("try_cmp", &[left, right])?))
    }

    /// Whether an array has an item, a text a part, a map a key.
    pub fn contains(&mut self, name: &str, needle: &str) -> Result<bool, Error> {
        self.is("contains", &[name, needle])
    }

    /// The name of its kind, as [`Value::kind`] has it.
    pub fn kind(&mut self, name: &str) -> Result<String, Error> {
        self.shown("kind", name, "kind ")
    }

    /// Whether it counts as true.
    pub fn truthy(&mut self, name: &str) -> Result<bool, Error> {
        self.is("truthy", &[name])
    }

    /// Whether it is shown as it is.
    pub fn is_safe(&mut self, name: &str) -> Result<bool, Error> {
        self.is("is_safe", &[name])
    }

    /// The number of characters, items, pairs or bytes, or nothing where it has no length.
    pub fn len(&mut self, name: &str) -> Result<Option<usize>, Error> {
        let answer = self.said("len", &[name])?;
        let size = answer.strip_prefix("size ");
        Ok(size.map(|it| it.parse().expect("a length is a number")))
    }

    /// The text that it prints.
    pub fn print(&mut self, name: &str) -> Result<String, Error> {
        self.shown("print", name, "text ")
    }

    /// The same escaped for HTML, whatever its mark.
    pub fn escape(&mut self, name: &str) -> Result<String, Error> {
        self.shown("escape", name, "text ")
    }

    /// What the keys of a map print, each once and in the order of their bytes.
    pub fn fields(&mut self, name: &str) -> Result<Vec<String>, Error> {
        self.listed("fields", name, "fields ")
    }

    /// What the keys of a map print, one for each pair and in their order.
    pub fn walk(&mut self, name: &str) -> Result<Vec<String>, Error> {
        self.listed("walk", name, "walk ")
    }

    /// Marks a text safe in its place.
    pub fn mark_safe(&mut self, name: &str) -> Result<(), Error> {
        self.said("mark_safe", &[name])?;
        Ok(())
    }
}

/// What a call finds.
impl Session {
    /// What a path leads to, whose elements stand between dots: places of arrays, or text keys of maps.
    pub fn path(&mut self, name: &str, path: &str) -> Result<Option<Value>, Error> {
        self.found(|it| it.path(name, path))
    }

    /// What a map has at a text.
    pub fn attr(&mut self, name: &str, key: &str) -> Result<Option<Value>, Error> {
        self.found(|it| it.attr(name, key))
    }

    /// What a map has at a key, an array or a text at an index; below 0 from the end. Both are names.
    pub fn item(&mut self, name: &str, index: &str) -> Result<Value, Error> {
        self.always(|it| it.item(name, index))
    }

    /// The items or characters from a start up to an end, which is left out, by a step.
    ///
    /// ```
    /// # use tera_values::{Error, Session, Value};
    /// let mut session = Session::new()?;
    /// session.set("a", [1, 2, 3, 4])?;
    /// assert_eq!(session.slice("a", Some(1), None, Some(2))?, Value::from([2, 4]));
    /// assert_eq!(session.slice("a", None, None, Some(0)), Err(Error::Refused("Slicing step cannot be 0".to_string())));
    /// # Ok::<(), Error>(())
    /// ```
    pub fn slice(
        &mut self,
        name: &str,
        start: Option<i128>,
        end: Option<i128>,
        step: Option<i128>,
    ) -> Result<Value, Error> {
        self.always(|it| it.slice(name, start, end, step))
    }

    /// Items, characters or bytes in the opposite order.
    pub fn reverse(&mut self, name: &str) -> Result<Value, Error> {
        self.always(|it| it.reverse(name))
    }

    /// The sum of two integers, exactly.
    pub fn add(&mut self, left: &str, right: &str) -> Result<i128, Error> {
        self.number("add", &[left, right])
    }

    /// Their difference.
    pub fn sub(&mut self, left: &str, right: &str) -> Result<i128, Error> {
        self.number("sub", &[left, right])
    }

    /// Their product.
    pub fn mul(&mut self, left: &str, right: &str) -> Result<i128, Error> {
        self.number("mul", &[left, right])
    }

    /// The rest of the Euclidean division, which is never below 0.
    pub fn rem(&mut self, left: &str, right: &str) -> Result<i128, Error> {
        self.number("rem", &[left, right])
    }

    /// The quotient of the Euclidean division.
    pub fn floor_div(&mut self, left: &str, right: &str) -> Result<i128, Error> {
        self.number("floor_div", &[left, right])
    }

    /// The first to the power of the second.
    pub fn pow(&mut self, left: &str, right: &str) -> Result<i128, Error> {
        self.number("pow", &[left, right])
    }

    /// The integer with the other sign.
    pub fn negate(&mut self, name: &str) -> Result<i128, Error> {
        self.number("negate", &[name])
    }

    /// The integer, where the type holds it.
    ///
    /// ```
    /// # use tera_values::{Error, Session};
    /// let mut session = Session::new()?;
    /// session.set("a", 300)?;
    /// assert_eq!(session.read::<u16>("a")?, 300);
    /// assert_eq!(session.read::<u8>("a"), Err(Error::Refused("Value `300` is out of range for `u8`".to_string())));
    /// # Ok::<(), Error>(())
    /// ```
    pub fn read<T: Integer>(&mut self, name: &str) -> Result<T, Error> {
        self.number("read", &[T::NAME, name])
    }

    /// Keeps what the next call finds under this name.
    pub fn keep<'a>(&'a mut self, into: &'a str) -> Keep<'a> {
        Keep {
            session: self,
            into,
        }
    }
}

/// The calls that find something, which is kept under a name. Where nothing is found, or where a call is refused, nothing is kept.
#[derive(Debug)]
pub struct Keep<'a> {
    session: &'a mut Session,
    into: &'a str,
}

impl Keep<'_> {
    /// What a name holds; says whether it is there.
    pub fn get(self, name: &str) -> Result<bool, Error> {
        self.kept("get", &[name_of(name)?])
    }

    /// What a path leads to; says whether there is such.
    pub fn path(self, name: &str, path: &str) -> Result<bool, Error> {
        self.kept("path", &[name_of(name)?, &quoted(path)])
    }

    /// What a map has at a text; says whether there is such.
    pub fn attr(self, name: &str, key: &str) -> Result<bool, Error> {
        self.kept("attr", &[name_of(name)?, &quoted(key)])
    }

    /// As [`Session::item`].
    pub fn item(self, name: &str, index: &str) -> Result<(), Error> {
        self.always("item", &[name, index])
    }

    /// As [`Session::slice`].
    pub fn slice(
        self,
        name: &str,
        start: Option<i128>,
        end: Option<i128>,
        step: Option<i128>,
    ) -> Result<(), Error> {
        let bound = |it: Option<i128>| it.map_or("_".to_string(), |it| it.to_string());
        self.kept(
            "slice",
            &[name_of(name)?, &bound(start), &bound(end), &bound(step)],
        )?;
        Ok(())
    }

    /// As [`Session::reverse`].
    pub fn reverse(self, name: &str) -> Result<(), Error> {
        self.always("reverse", &[name])
    }

    /// As [`Session::add`].
    pub fn add(self, left: &str, right: &str) -> Result<(), Error> {
        self.always("add", &[left, right])
    }

    /// As [`Session::sub`].
    pub fn sub(self, left: &str, right: &str) -> Result<(), Error> {
        self.always("sub", &[left, right])
    }

    /// As [`Session::mul`].
    pub fn mul(self, left: &str, right: &str) -> Result<(), Error> {
        self.always("mul", &[left, right])
    }

    /// As [`Session::rem`].
    pub fn rem(self, left: &str, right: &str) -> Result<(), Error> {
        self.always("rem", &[left, right])
    }

    /// As [`Session::floor_div`].
    pub fn floor_div(self, left: &str, right: &str) -> Result<(), Error> {
        self.always("floor_div", &[left, right])
    }

    /// As [`Session::pow`].
    pub fn pow(self, left: &str, right: &str) -> Result<(), Error> {
        self.always("pow", &[left, right])
    }

    /// As [`Session::negate`].
    pub fn negate(self, name: &str) -> Result<(), Error> {
        self.always("negate", &[name])
    }

    /// As [`Session::read`], in the kind to which the type converts.
    pub fn read<T: Integer>(self, name: &str) -> Result<(), Error> {
        self.always("read", &[T::NAME, name])
    }

    /// A copy, marked safe where it is a text.
    pub fn mark_safe(self, name: &str) -> Result<(), Error> {
        self.always("mark_safe", &[name])
    }

    /// Keeps what a call of names finds.
    fn always(self, word: &str, names: &[&str]) -> Result<(), Error> {
        names.iter().try_for_each(|it| name_of(it).map(|_| ()))?;
        self.kept(word, names)?;
        Ok(())
    }

    /// Keeps what a call finds, and says whether it found something.
    fn kept(self, word: &str, operands: &[&str]) -> Result<bool, Error> {
        let line = format!("{word} {} -> {}", operands.join(" "), name_of(self.into)?);
        Ok(self.session.ask(&line)? == "ok")
    }
}

/// How they are asked.
impl Session {
    fn is(&mut self, word: &str, names: &[&str]) -> Result<bool, Error> {
        Ok(self.said(word, names)? == "true")
    }

    /// What stands behind the first word of an answer.
    fn shown(&mut self, word: &str, name: &str, before: &str) -> Result<String, Error> {
        let answer = self.said(word, &[name])?;
        Ok(answer.strip_prefix(before).unwrap_or_default().to_string())
    }

    fn listed(&mut self, word: &str, name: &str, before: &str) -> Result<Vec<String>, Error> {
        let list = value_of(&self.shown(word, name, before)?);
        let texts = list.and_then(|it| Vec::try_from(it).ok());
        Ok(texts.expect("the answer lists texts"))
    }

    fn number<T: std::str::FromStr>(&mut self, word: &str, names: &[&str]) -> Result<T, Error> {
        let answer = self.said(word, names)?;
        let number = answer.strip_prefix("value ").and_then(|it| it.parse().ok());
        Ok(number.expect("a call of integers gives one"))
    }

    /// What a call finds, which is kept under a name that is free until it is read.
    fn found(
        &mut self,
        call: impl FnOnce(Keep<'_>) -> Result<bool, Error>,
    ) -> Result<Option<Value>, Error> {
        let mut spare = "_".to_string();
        while self.has(&spare) {
            spare.push('_');
        }
        let value = match call(self.keep(&spare)) {
            Ok(true) => self.get(&spare),
            Ok(false) => Ok(None),
            Err(why) => Err(why),
        };
        // it is there also where no memory was found for the reply
        self.forget(&spare);
        value
    }

    /// The same of a call that finds something wherever it is not refused.
    fn always(&mut self, call: impl FnOnce(Keep<'_>) -> Result<(), Error>) -> Result<Value, Error> {
        let found = self.found(|it| call(it).map(|()| true))?;
        Ok(found.unwrap_or(Value::Undefined))
    }
}

fn ordering(word: &str) -> Option<Ordering> {
    match word {
        "less" => Some(Ordering::Less),
        "equal" => Some(Ordering::Equal),
        "greater" => Some(Ordering::Greater),
        _ => None,
    }
}
