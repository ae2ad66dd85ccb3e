//! Values go into a session and come out, and each call answers as the language says.
use std::borrow::Cow;
use std::cmp::Ordering;
use std::collections::{BTreeMap, HashMap};
use tera_values::{Error, Key, Mismatch, Session, Value};

const VALUES: usize = 100_000;

/// Values at random, from a seed, by splitmix64.
struct Drawn(u64);

impl Drawn {
    fn number(&mut self) -> u64 {
        self.0 = self.0.wrapping_add(0x9e37_79b9_7f4a_7c15);
        let mixed = (self.0 ^ (self.0 >> 30)).wrapping_mul(0xbf58_476d_1ce4_e5b9);
        let mixed = (mixed ^ (mixed >> 27)).wrapping_mul(0x94d0_49bb_1331_11eb);
        mixed ^ (mixed >> 31)
    }

    fn below(&mut self, end: u64) -> u64 {
        self.number() % end
    }

    /// A number whose bits are often few, so that the edges of all kinds come up.
    fn wide(&mut self) -> u128 {
        let bits = u128::from(self.number()) << 64 | u128::from(self.number());
        let shifted = bits >> self.below(128);
        match self.below(4) {
            0 => !shifted,
            1 => u128::MAX >> self.below(128),
            _ => shifted,
        }
    }

    fn text(&mut self) -> String {
        const CHARS: [char; 16] = [
            'a', 'u', '{', '"', '\\', '\n', '\r', '\t', '\0', '\x1f', '\x7f', '\u{80}', 'é',
            '\u{301}', '😀', ' ',
        ];
        (0..self.below(8))
            .map(|_| CHARS[self.below(16) as usize])
            .collect()
    }

    fn bytes(&mut self) -> Vec<u8> {
        (0..self.below(6)).map(|_| self.number() as u8).collect()
    }

    fn key(&mut self) -> Key {
        match self.below(7) {
            0 => Key::Bool(self.below(2) == 0),
            1 => Key::U64(self.wide() as u64),
            2 => Key::I64(self.wide() as i64),
            3 => Key::U128(self.wide()),
            4 => Key::I128(self.wide() as i128),
            _ => Key::Text(self.text()),
        }
    }

    fn value(&mut self, levels: u64) -> Value {
        match self.below(if levels == 0 { 10 } else { 14 }) {
            0 => Value::Undefined,
            1 => Value::None,
            2 => Value::Bool(self.below(2) == 0),
            3 => Value::U64(self.wide() as u64),
            4 => Value::I64(self.wide() as i64),
            5 => Value::U128(self.wide()),
            6 => Value::I128(self.wide() as i128),
            7 => Value::Text(self.text()),
            8 => Value::Safe(self.text()),
            9 => Value::Bytes(self.bytes()),
            10 | 11 => Value::Array((0..self.below(5)).map(|_| self.value(levels - 1)).collect()),
            _ => self.map(levels - 1),
        }
    }

    /// A map with no two equal keys.
    fn map(&mut self, levels: u64) -> Value {
        let mut pairs: Vec<(Key, Value)> = Vec::new();
        for _ in 0..self.below(5) {
            let (key, value) = (self.key(), self.value(levels));
            if pairs.iter().all(|(held, _)| !are_equal(held, &key)) {
                pairs.push((key, value));
            }
        }
        Value::Map(pairs)
    }
}

/// Whether the library takes two keys for equal: it does not count the kinds of integers.
fn are_equal(left: &Key, right: &Key) -> bool {
    let number = |key: &Key| {
        (
            i128::try_from(key.clone()).ok(),
            u128::try_from(key.clone()).ok(),
        )
    };
    match number(left) {
        (None, None) => left == right,
        found => found == number(right),
    }
}

fn nested(levels: usize) -> Value {
    (1..levels).fold(Value::Array(vec![]), |inner, _| Value::Array(vec![inner]))
}

#[test]
fn a_hundred_thousand_values_come_out_as_they_went_in() -> Result<(), Error> {
    let (mut session, mut drawn) = (Session::new()?, Drawn(1));
    for _ in 0..VALUES {
        let value = drawn.value(4);
        session.set("a", value.clone())?;
        assert_eq!(session.kind("a")?, value.kind());
        assert_eq!(session.get("a")?, Some(value));
    }
    Ok(())
}

#[test]
fn what_is_saved_is_had_again() -> Result<(), Error> {
    let (mut session, mut again, mut drawn) = (Session::new()?, Session::new()?, Drawn(2));
    for number in 0..50 {
        session.set(&format!("n{number}"), drawn.value(3))?;
    }
    for line in session.save()?.lines() {
        again.line(line)?;
    }
    assert_eq!(again.names()?, session.names()?);
    for name in session.names()? {
        assert_eq!(again.get(&name)?, session.get(&name)?);
    }
    Ok(())
}

#[test]
fn marks_and_large_texts_are_kept() -> Result<(), Error> {
    let mut session = Session::new()?;
    for (value, is_safe) in [
        (Value::from("<b>"), false),
        (Value::Safe("<b>".to_string()), true),
    ] {
        session.set("a", value.clone())?;
        assert_eq!(
            (session.is_safe("a")?, session.get("a")?),
            (is_safe, Some(value))
        );
    }
    for text in ["a".repeat(1_000_000), "é\n".repeat(100_000)] {
        session.set("a", text.clone())?;
        assert_eq!(session.get("a")?, Some(Value::Text(text)));
    }
    session.set("a", nested(64))?;
    assert_eq!(session.get("a")?, Some(nested(64)));
    Ok(())
}

#[test]
fn what_is_bad_is_told_apart_and_changes_nothing() -> Result<(), Error> {
    let mut session = Session::new()?;
    session.set("a", 1)?;
    assert_eq!(session.set("a", nested(65)), Err(Error::TooDeep));
    assert_eq!(session.extend([("a", nested(64))]), Err(Error::TooDeep));
    for name in ["", "1a", "a b", "a\n", "é", "a-b", "a b\nset a 2"] {
        let refused = Err(Error::NotAName(name.to_string()));
        assert_eq!(session.set(name, 2), refused);
        assert_eq!(session.set(name, [2]), refused);
        assert_eq!(session.set_text(name, "2", true), refused);
        assert_eq!(session.set_json(name, "2"), refused);
        assert_eq!(session.eq("a", name).map(|_| ()), refused);
        assert_eq!(session.reverse(name).map(|_| ()), refused);
        assert_eq!(session.path(name, "a").map(|_| ()), refused);
        assert_eq!(session.keep(name).get("a").map(|_| ()), refused);
        assert_eq!(session.keep("a").add("a", name), refused);
        assert_eq!(
            (session.get(name)?, session.has(name), session.remove(name)?),
            (None, false, None)
        );
    }
    for json in ["{", "1.5", "[1e3]"] {
        assert!(
            matches!(session.set_json("a", json), Err(Error::Refused(_))),
            "{json}"
        );
    }
    assert_eq!(
        (session.names()?, session.get("a")?),
        (vec!["a".to_string()], Some(Value::from(1)))
    );
    Ok(())
}

#[test]
fn json_goes_in_and_comes_out() -> Result<(), Error> {
    let mut session = Session::new()?;
    session.set_json("a", r#"{"b": [1, null, "\u00e9"]}"#)?;
    let held = Value::map([(
        "b",
        Value::Array(vec![1i64.into(), Value::None, "é".into()]),
    )]);
    assert_eq!(session.get("a")?, Some(held));
    assert_eq!(
        session.get_json("a")?.as_deref(),
        Some(r#"{"b":[1,null,"é"]}"#)
    );
    assert_eq!(session.get_json("b")?, None);
    session.set("a", Value::Bytes(vec![1]))?;
    assert!(matches!(session.get_json("a"), Err(Error::Refused(_))));
    Ok(())
}

#[test]
fn names_that_extend_brings_are_looked_up() -> Result<(), Error> {
    let mut session = Session::new()?;
    session.extend([("a b", 1), ("", 2)])?;
    assert_eq!(session.names()?, ["", "a b"]);
    assert!(matches!(session.save(), Err(Error::Refused(_))));
    assert_eq!(
        (session.remove("a b")?, session.has("a b")),
        (Some(Value::from(1)), false)
    );
    session.extend([("a\nb", 1)])?;
    assert!(matches!(session.names(), Err(Error::Refused(_))));
    Ok(())
}

#[test]
fn what_is_asked_is_answered() -> Result<(), Error> {
    let mut session = Session::new()?;
    session.extend([("a", 2), ("b", 3)])?;
    session.set(
        "m",
        Value::Map(vec![
            (Key::from("b"), 1.into()),
            (Key::from(1), Value::None),
            (Key::from("1"), "<".into()),
        ]),
    )?;
    session.set("t", "a\n<é")?;
    assert_eq!(
        (session.eq("a", "a")?, session.eq("a", "b")?),
        (true, false)
    );
    assert_eq!(
        (session.cmp("a", "b")?, session.cmp("m", "a")?),
        (Ordering::Less, Ordering::Greater)
    );
    assert_eq!(
        (session.try_cmp("a", "b")?, session.try_cmp("m", "a")?),
        (Some(Ordering::Less), None)
    );
    assert_eq!(
        (session.contains("t", "t")?, session.contains("m", "a")?),
        (true, false)
    );
    assert!(matches!(session.contains("a", "t"), Err(Error::Refused(_))));
    assert_eq!(
        (session.kind("m")?.as_str(), session.truthy("nothing")?),
        ("map/struct", false)
    );
    assert_eq!((session.len("t")?, session.len("a")?), (Some(4), None));
    assert_eq!(
        (session.print("t")?.as_str(), session.escape("t")?.as_str()),
        ("a\n<é", "a\n&lt;é")
    );
    assert_eq!(session.fields("m")?, ["1", "b"]);
    assert_eq!(session.walk("m")?, ["b", "1", "1"]);
    session.mark_safe("t")?;
    assert!(session.is_safe("t")?);
    Ok(())
}

#[test]
fn what_is_found_is_given_or_kept() -> Result<(), Error> {
    let mut session = Session::new()?;
    session.extend([("a", 7), ("b", -2), ("_", 0)])?;
    session.set(
        "l",
        Value::Array(vec![1.into(), Value::map([("k \" -> x", "é")])]),
    )?;
    assert_eq!(
        (
            session.add("a", "b")?,
            session.sub("a", "b")?,
            session.mul("a", "b")?
        ),
        (5, 9, -14)
    );
    assert_eq!(
        (
            session.rem("a", "b")?,
            session.floor_div("a", "b")?,
            session.pow("a", "a")?
        ),
        (1, -3, 823_543)
    );
    assert_eq!((session.negate("b")?, session.read::<i8>("b")?), (2, -2));
    assert_eq!(
        (session.path("l", "1.k \" -> x")?, session.path("l", "2")?),
        (Some("é".into()), None)
    );
    assert_eq!(
        (session.item("l", "_")?, session.item("l", "a")?),
        (1.into(), Value::Undefined)
    );
    assert_eq!(
        (
            session.slice("l", None, Some(1), None)?,
            session.reverse("a").is_err()
        ),
        ([1].into(), true)
    );
    assert!(session.keep("m").item("l", "nothing").is_err());
    assert!(session.keep("m").path("l", "1")? && !session.keep("x").path("l", "2")?);
    assert_eq!(
        (session.attr("m", "k \" -> x")?, session.attr("m", "k")?),
        (Some("é".into()), None)
    );
    assert!(
        session.keep("c").attr("m", "k \" -> x")?
            && session.keep("d").get("c")?
            && !session.keep("x").get("x")?
    );
    session.keep("e").mark_safe("d")?;
    assert_eq!(session.get("e")?, Some(Value::Safe("é".to_string())));
    session.keep("f").read::<u8>("a")?;
    session.keep("g").negate("a")?;
    assert_eq!(
        (session.get("f")?, session.get("g")?),
        (Some(Value::U64(7)), Some(Value::I128(-7)))
    );
    assert_eq!(
        session.names()?,
        ["_", "a", "b", "c", "d", "e", "f", "g", "l", "m"]
    );
    Ok(())
}

#[test]
fn each_operator_is_kept_too() -> Result<(), Error> {
    let mut session = Session::new()?;
    session.extend([("a", 7), ("b", 2)])?;
    session.keep("add").add("a", "b")?;
    session.keep("sub").sub("a", "b")?;
    session.keep("mul").mul("a", "b")?;
    session.keep("rem").rem("a", "b")?;
    session.keep("div").floor_div("a", "b")?;
    session.keep("pow").pow("a", "b")?;
    session.set("l", [1, 2])?;
    session.keep("tail").slice("l", Some(-1), None, None)?;
    session.keep("back").reverse("l")?;
    session.keep("item").item("l", "rem")?;
    let kept = ["add", "sub", "mul", "rem", "div", "pow"].map(|it| session.get(it));
    assert_eq!(kept, [9i128, 5, 14, 1, 3, 49].map(|it| Ok(Some(it.into()))));
    let kept = ["tail", "back", "item"].map(|it| session.get(it));
    assert_eq!(
        kept,
        [[2].into(), [2, 1].into(), Value::from(2)].map(|it| Ok(Some(it)))
    );
    Ok(())
}

#[test]
fn types_of_rust_are_values_and_back() -> Result<(), Mismatch> {
    let text = "a".to_string();
    assert_eq!(Value::from(Some("a")), Value::Text(text.clone()));
    assert_eq!(
        [Value::from(&text), Value::from(Cow::from("a"))],
        [text.clone().into(), Value::Text(text)]
    );
    assert_eq!(Value::from(None::<bool>), Value::None);
    assert_eq!(
        Value::from(vec![true]),
        Value::Array(vec![Value::Bool(true)])
    );
    assert_eq!(Value::from(&[1u8][..]), Value::Array(vec![Value::U64(1)]));
    let ports = BTreeMap::from([("http", vec![80u16, 8080]), ("https", vec![443])]);
    let back: HashMap<String, Vec<u64>> = Value::from(ports).try_into()?;
    assert_eq!(
        back,
        HashMap::from([
            ("http".to_string(), vec![80, 8080]),
            ("https".to_string(), vec![443])
        ])
    );
    let values: Vec<Value> = Value::from([1, 2]).try_into()?;
    assert_eq!(values, [Value::from(1), Value::from(2)]);
    assert_eq!(u8::try_from(Value::I128(255))?, 255);
    assert_eq!(i128::try_from(Value::U128(5))?, 5);
    let expected = Mismatch {
        expected: "u8",
        found: Value::I64(-1),
    };
    assert_eq!(
        Vec::<u8>::try_from(Value::from([1, -1])),
        Err(expected.clone())
    );
    assert_eq!(expected.to_string(), "expected u8, found i64 -1");
    assert!(bool::try_from(Value::None).is_err() && String::try_from(Value::from(1)).is_err());
    assert!(BTreeMap::<i64, bool>::try_from(Value::map([("a", true)])).is_err());
    Ok(())
}

#[test]
fn what_is_borrowed_is_a_value_and_back() -> Result<(), Mismatch> {
    let (numbers, array) = (vec![1u8, 2], [true, false]);
    assert_eq!(Value::from(&numbers), Value::from(numbers.clone()));
    assert_eq!(Value::from(&array), Value::from(array));
    let value = Value::map([("a", Value::from(&numbers)), ("b", "c".into())]);
    assert_eq!(Value::from(&value), value);
    let (a, b) = (value.get("a").unwrap(), value.get("b").unwrap());
    assert_eq!(Vec::<u16>::try_from(a)?, [1, 2]);
    assert_eq!(
        (<&str>::try_from(b)?, String::try_from(b)?.as_str()),
        ("c", "c")
    );
    assert!(bool::try_from(&Value::from(true))?);
    assert_eq!(
        (
            u8::try_from(&Value::U128(255))?,
            i8::try_from(&Value::from(-128))?
        ),
        (255, -128)
    );
    let back: BTreeMap<String, Value> = (&value).try_into()?;
    assert_eq!(back.keys().collect::<Vec<_>>(), ["a", "b"]);
    let back: HashMap<String, Value> = (&value).try_into()?;
    assert_eq!(back.len(), 2);
    Ok(())
}

#[test]
fn what_is_out_of_range_is_told() {
    for (value, told) in [
        (Value::from(256), "expected u8, found i64 256"),
        (Value::from(-1), "expected u8, found i64 -1"),
        (
            Value::from(u128::MAX),
            "expected u8, found u128 340282366920938463463374607431768211455",
        ),
        (Value::from("1"), "expected u8, found string"),
        (Value::None, "expected u8, found none"),
    ] {
        assert_eq!(u8::try_from(&value).unwrap_err().to_string(), told);
        assert_eq!(u8::try_from(value.clone()).unwrap_err().found, value);
        let deep = Value::map([("a", Value::from([Value::from(1), value.clone()]))]);
        let kept = deep.clone();
        let fault = HashMap::<String, Vec<u8>>::try_from(&deep).unwrap_err();
        assert_eq!((fault.found, deep), (value, kept));
    }
    assert!(i128::try_from(Value::from(u128::MAX)).is_err());
    assert!(
        u64::try_from(Value::from(-1)).is_err() && i64::try_from(Value::from(u64::MAX)).is_err()
    );
    assert!(<&str>::try_from(&Value::from(1)).is_err() && bool::try_from(&Value::from(1)).is_err());
    let told = Error::NotAName("a b".to_string()).to_string();
    assert_eq!(
        told,
        "\"a b\" is no name: a letter or _, and then letters, digits and _"
    );
}
