//! Writes the document on the standard input anew without a tree: each value is passed from serde_json's deserializer to its serializer.
use serde::de::{DeserializeSeed, Deserializer, Error, MapAccess, SeqAccess, Visitor};
use serde::ser::{Error as _, Serialize, SerializeMap, SerializeSeq, Serializer};
use std::cell::Cell;
use std::fmt;
use std::io::{Read, Write};

/// Passes a value to a serializer.
struct Pass<S>(S);

impl<'de, S: Serializer> DeserializeSeed<'de> for Pass<S> {
    type Value = S::Ok;

    fn deserialize<D: Deserializer<'de>>(self, deserializer: D) -> Result<S::Ok, D::Error> {
        deserializer.deserialize_any(self)
    }
}

impl<'de, S: Serializer> Visitor<'de> for Pass<S> {
    type Value = S::Ok;

    fn expecting(&self, f: &mut fmt::Formatter<'_>) -> fmt::Result {
        f.write_str("a value")
    }

    fn visit_unit<E: Error>(self) -> Result<S::Ok, E> {
        self.0.serialize_unit().map_err(E::custom)
    }

    fn visit_bool<E: Error>(self, value: bool) -> Result<S::Ok, E> {
        self.0.serialize_bool(value).map_err(E::custom)
    }

    fn visit_u64<E: Error>(self, value: u64) -> Result<S::Ok, E> {
        self.0.serialize_u64(value).map_err(E::custom)
    }

    fn visit_i64<E: Error>(self, value: i64) -> Result<S::Ok, E> {
        self.0.serialize_i64(value).map_err(E::custom)
    }

    fn visit_f64<E: Error>(self, value: f64) -> Result<S::Ok, E> {
        self.0.serialize_f64(value).map_err(E::custom)
    }

    fn visit_str<E: Error>(self, value: &str) -> Result<S::Ok, E> {
        self.0.serialize_str(value).map_err(E::custom)
    }

    fn visit_seq<A: SeqAccess<'de>>(self, mut items: A) -> Result<S::Ok, A::Error> {
        let mut list = self.0.serialize_seq(None).map_err(A::Error::custom)?;
        while items.next_element_seed(Item(&mut list))?.is_some() {}
        list.end().map_err(A::Error::custom)
    }

    fn visit_map<A: MapAccess<'de>>(self, mut members: A) -> Result<S::Ok, A::Error> {
        let mut map = self.0.serialize_map(None).map_err(A::Error::custom)?;
        while members.next_key_seed(Key(&mut map))?.is_some() {
            members.next_value_seed(Member(&mut map))?;
        }
        map.end().map_err(A::Error::custom)
    }
}

/// What a deserializer has next, as a value to be serialized, once.
struct Next<D>(Cell<Option<D>>);

impl<'de, D: Deserializer<'de>> Serialize for Next<D> {
    fn serialize<S: Serializer>(&self, serializer: S) -> Result<S::Ok, S::Error> {
        let deserializer = self.0.take().expect("a value is serialized once");
        deserializer.deserialize_any(Pass(serializer)).map_err(S::Error::custom)
    }
}

macro_rules! part {
    ($name:ident, $bound:ident, $call:ident) => {
        struct $name<'s, S>(&'s mut S);

        impl<'de, S: $bound> DeserializeSeed<'de> for $name<'_, S> {
            type Value = ();

            fn deserialize<D: Deserializer<'de>>(self, deserializer: D) -> Result<(), D::Error> {
                self.0.$call(&Next(Cell::new(Some(deserializer)))).map_err(D::Error::custom)
            }
        }
    };
}

part!(Item, SerializeSeq, serialize_element);
part!(Key, SerializeMap, serialize_key);
part!(Member, SerializeMap, serialize_value);

fn main() -> std::io::Result<()> {
    let mut input = Vec::new();
    std::io::stdin().lock().read_to_end(&mut input)?;
    let mut text = Vec::new();
    let mut deserializer = serde_json::Deserializer::from_slice(&input);
    Pass(&mut serde_json::Serializer::new(&mut text)).deserialize(&mut deserializer)?;
    deserializer.end()?;
    std::io::stdout().lock().write_all(&text)
}
