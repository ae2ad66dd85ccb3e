use crate::Mismatch;
use std::borrow::Cow;
use std::collections::{BTreeMap, HashMap};
use std::hash::Hash;

/// What a name may mean, as a template sees it.
///
/// `==` tells kinds of integers and the order of pairs apart; [`Session::eq`](crate::Session::eq) does not.
///
/// ```
/// use tera_values::Value;
/// let cfg = Value::map([("title", Value::from("A & B")), ("ports", Value::from([80, 443]))]);
/// assert_eq!(cfg.get("title").and_then(Value::as_str), Some("A & B"));
/// assert_eq!(cfg.get("ports").map(Vec::<u16>::try_from), Some(Ok(vec![80, 443])));
/// assert_eq!(u8::try_from(Value::from(300)).unwrap_err().to_string(), "expected u8, found i64 300");
/// ```
#[derive(Debug, Clone, PartialEq, Eq)]
pub enum Value {
    /// What is seen where nothing is.
    Undefined,
    /// None, as the null of other languages.
    None,
    /// A truth value.
    Bool(bool),
    /// An integer from 0 to 2^64 - 1.
    U64(u64),
    /// An integer from -2^63 to 2^63 - 1.
    I64(i64),
    /// An integer from 0 to 2^128 - 1.
    U128(u128),
    /// An integer from -2^127 to 2^127 - 1.
    I128(i128),
    /// A text, which is escaped where it is shown.
    Text(String),
    /// A text that is marked safe: it is shown as it is.
    Safe(String),
    /// Bytes.
    Bytes(Vec<u8>),
    /// An array.
    Array(Vec<Value>),
    /// A map, by its pairs in their order. Of equal keys the first stands in its place, with the last value.
    Map(Vec<(Key, Value)>),
}

/// A key of a map. Integers of two kinds are equal keys to the library where their numbers are; `==` tells them apart.
#[derive(Debug, Clone, PartialEq, Eq, Hash, PartialOrd, Ord)]
pub enum Key {
    /// A truth value.
    Bool(bool),
    /// An integer from 0 to 2^64 - 1.
    U64(u64),
    /// An integer from -2^63 to 2^63 - 1.
    I64(i64),
    /// An integer from 0 to 2^128 - 1.
    U128(u128),
    /// An integer from -2^127 to 2^127 - 1.
    I128(i128),
    /// A text.
    Text(String),
}

impl Value {
    /// A map of these pairs.
    pub fn map<K: Into<Key>, V: Into<Value>>(pairs: impl IntoIterator<Item = (K, V)>) -> Value {
        let pairs = pairs
            .into_iter()
            .map(|(key, value)| (key.into(), value.into()));
        Value::Map(pairs.collect())
    }

    /// What a map has at a key of this very kind.
    pub fn get(&self, key: impl Into<Key>) -> Option<&Value> {
        let Value::Map(pairs) = self else {
            return None;
        };
        let key = key.into();
        let found = pairs.iter().find(|(held, _)| *held == key);
        found.map(|(_, value)| value)
    }

    /// The text, whether it is marked safe or not.
    pub fn as_str(&self) -> Option<&str> {
        match self {
            Value::Text(text) | Value::Safe(text) => Some(text),
            _ => None,
        }
    }

    /// The name of its kind, as the language has it.
    pub fn kind(&self) -> &'static str {
        match self {
            Value::Undefined => "undefined",
            Value::None => "none",
            Value::Bool(_) => "bool",
            Value::U64(_) => "u64",
            Value::I64(_) => "i64",
            Value::U128(_) => "u128",
            Value::I128(_) => "i128",
            Value::Text(_) | Value::Safe(_) => "string",
            Value::Bytes(_) => "bytes",
            Value::Array(_) => "array",
            Value::Map(_) => "map/struct",
        }
    }
}

/// The integer, where the type holds it.
macro_rules! integer {
    ($of:ident, $given:ident, $type:ty) => {
        match $given {
            $of::U64(number) => <$type>::try_from(*number).ok(),
            $of::I64(number) => <$type>::try_from(*number).ok(),
            $of::U128(number) => <$type>::try_from(*number).ok(),
            $of::I128(number) => <$type>::try_from(*number).ok(),
            _ => None,
        }
    };
}

macro_rules! integers {
    ($($type:ident in $kind:ident as $wide:ident),*) => {
        $(
            impl From<$type> for Value {
                fn from(number: $type) -> Value {
                    Value::$kind(number as $wide)
                }
            }

            impl From<$type> for Key {
                fn from(number: $type) -> Key {
                    Key::$kind(number as $wide)
                }
            }

            impl TryFrom<Value> for $type {
                type Error = Mismatch;

                fn try_from(value: Value) -> Result<$type, Mismatch> {
                    let given = &value;
                    integer!(Value, given, $type).ok_or_else(|| mismatch(stringify!($type), value))
                }
            }

            impl TryFrom<&Value> for $type {
                type Error = Mismatch;

                fn try_from(value: &Value) -> Result<$type, Mismatch> {
                    integer!(Value, value, $type).ok_or_else(|| mismatch(stringify!($type), value.clone()))
                }
            }

            impl TryFrom<Key> for $type {
                type Error = Mismatch;

                fn try_from(key: Key) -> Result<$type, Mismatch> {
                    let given = &key;
                    integer!(Key, given, $type).ok_or_else(|| mismatch(stringify!($type), key.into()))
                }
            }
        )*
    };
}

integers!(
    u8 in U64 as u64,
    u16 in U64 as u64,
    u32 in U64 as u64,
    u64 in U64 as u64,
    usize in U64 as u64,
    i8 in I64 as i64,
    i16 in I64 as i64,
    i32 in I64 as i64,
    i64 in I64 as i64,
    isize in I64 as i64,
    u128 in U128 as u128,
    i128 in I128 as i128
);

fn mismatch(expected: &'static str, found: Value) -> Mismatch {
    Mismatch { expected, found }
}

impl From<Key> for Value {
    fn from(key: Key) -> Value {
        match key {
            Key::Bool(truth) => Value::Bool(truth),
            Key::U64(number) => Value::U64(number),
            Key::I64(number) => Value::I64(number),
            Key::U128(number) => Value::U128(number),
            Key::I128(number) => Value::I128(number),
            Key::Text(text) => Value::Text(text),
        }
    }
}

/// Texts and truth values, from and to values and keys alike.
macro_rules! plain {
    ($of:ident) => {
        impl From<bool> for $of {
            fn from(truth: bool) -> $of {
                $of::Bool(truth)
            }
        }

        impl From<&str> for $of {
            fn from(text: &str) -> $of {
                $of::Text(text.to_string())
            }
        }

        impl From<String> for $of {
            fn from(text: String) -> $of {
                $of::Text(text)
            }
        }

        impl From<&String> for $of {
            fn from(text: &String) -> $of {
                $of::Text(text.clone())
            }
        }

        impl From<Cow<'_, str>> for $of {
            fn from(text: Cow<'_, str>) -> $of {
                $of::Text(text.into_owned())
            }
        }

        impl TryFrom<$of> for bool {
            type Error = Mismatch;

            fn try_from(given: $of) -> Result<bool, Mismatch> {
                match given {
                    $of::Bool(truth) => Ok(truth),
                    other => Err(mismatch("bool", other.into())),
                }
            }
        }
    };
}

plain!(Value);
plain!(Key);

impl TryFrom<Value> for String {
    type Error = Mismatch;

    fn try_from(value: Value) -> Result<String, Mismatch> {
        match value {
            Value::Text(text) | Value::Safe(text) => Ok(text),
            other => Err(mismatch("String", other)),
        }
    }
}

impl<'a> TryFrom<&'a Value> for &'a str {
    type Error = Mismatch;

    fn try_from(value: &'a Value) -> Result<&'a str, Mismatch> {
        let text = value.as_str();
        text.ok_or_else(|| mismatch("&str", value.clone()))
    }
}

impl TryFrom<Key> for String {
    type Error = Mismatch;

    fn try_from(key: Key) -> Result<String, Mismatch> {
        match key {
            Key::Text(text) => Ok(text),
            other => Err(mismatch("String", other.into())),
        }
    }
}

/// The same of what is borrowed, which is cloned.
macro_rules! borrowed {
    ($($type:ty),*) => {
        $(
            impl TryFrom<&Value> for $type {
                type Error = Mismatch;

                fn try_from(value: &Value) -> Result<$type, Mismatch> {
                    <$type>::try_from(value.clone())
                }
            }
        )*
    };
}

borrowed!(bool, String);

impl From<&Value> for Value {
    fn from(value: &Value) -> Value {
        value.clone()
    }
}

impl<T: Into<Value>> From<Option<T>> for Value {
    fn from(given: Option<T>) -> Value {
        given.map_or(Value::None, T::into)
    }
}

impl<T: Into<Value>> From<Vec<T>> for Value {
    fn from(items: Vec<T>) -> Value {
        Value::Array(items.into_iter().map(T::into).collect())
    }
}

impl<T: Into<Value>, const N: usize> From<[T; N]> for Value {
    fn from(items: [T; N]) -> Value {
        Value::Array(items.into_iter().map(T::into).collect())
    }
}

impl<T: Into<Value> + Clone> From<&[T]> for Value {
    fn from(items: &[T]) -> Value {
        Value::Array(items.iter().cloned().map(T::into).collect())
    }
}

impl<T: Into<Value> + Clone, const N: usize> From<&[T; N]> for Value {
    fn from(items: &[T; N]) -> Value {
        Value::from(&items[..])
    }
}

impl<T: Into<Value> + Clone> From<&Vec<T>> for Value {
    fn from(items: &Vec<T>) -> Value {
        Value::from(&items[..])
    }
}

impl<T> TryFrom<Value> for Vec<T>
where
    T: TryFrom<Value>,
    Mismatch: From<T::Error>,
{
    type Error = Mismatch;

    fn try_from(value: Value) -> Result<Vec<T>, Mismatch> {
        match value {
            Value::Array(items) => items.into_iter().map(|it| Ok(T::try_from(it)?)).collect(),
            other => Err(mismatch("Vec", other)),
        }
    }
}

impl<T> TryFrom<&Value> for Vec<T>
where
    T: TryFrom<Value>,
    Mismatch: From<T::Error>,
{
    type Error = Mismatch;

    fn try_from(value: &Value) -> Result<Vec<T>, Mismatch> {
        value.clone().try_into()
    }
}

macro_rules! maps {
    ($($map:ident: $($bound:ident)*),*) => {
        $(
            impl<K: Into<Key>, V: Into<Value>> From<$map<K, V>> for Value {
                fn from(pairs: $map<K, V>) -> Value {
                    Value::map(pairs)
                }
            }

            impl<K, V> TryFrom<Value> for $map<K, V>
            where
                K: TryFrom<Key> $(+ $bound)*,
                V: TryFrom<Value>,
                Mismatch: From<K::Error> + From<V::Error>,
            {
                type Error = Mismatch;

                fn try_from(value: Value) -> Result<$map<K, V>, Mismatch> {
                    match value {
                        Value::Map(pairs) => pairs
                            .into_iter()
                            .map(|(key, value)| Ok((K::try_from(key)?, V::try_from(value)?)))
                            .collect(),
                        other => Err(mismatch(stringify!($map), other)),
                    }
                }
            }

            impl<K, V> TryFrom<&Value> for $map<K, V>
            where
                K: TryFrom<Key> $(+ $bound)*,
                V: TryFrom<Value>,
                Mismatch: From<K::Error> + From<V::Error>,
            {
                type Error = Mismatch;

                fn try_from(value: &Value) -> Result<$map<K, V>, Mismatch> {
                    value.clone().try_into()
                }
            }
        )*
    };
}

maps!(BTreeMap: Ord, HashMap: Eq Hash);
