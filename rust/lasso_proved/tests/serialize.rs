//! serde: what interners and keys are written as, and read from.
#![cfg(feature = "serialize")]

use lasso_proved::{
    Key, LargeSpur, MicroSpur, MiniSpur, Rodeo, RodeoReader, RodeoResolver, Spur, ThreadedRodeo,
};
use serde::de::value::{Error, MapDeserializer, SeqDeserializer};
use serde::de::{Deserialize, IntoDeserializer};
use serde::ser::{self, Error as _, Impossible, Serialize, SerializeMap, SerializeSeq, Serializer};
use std::fmt;

/// A number or a text, as serde writes it to a formatter.
struct Shown<'a, T: ?Sized>(&'a T);

impl<T: Serialize + ?Sized> fmt::Display for Shown<'_, T> {
    fn fmt(&self, f: &mut fmt::Formatter<'_>) -> fmt::Result {
        self.0.serialize(f)
    }
}

/// A sequence as it was written, or a map: the length that was announced, and the items, of a map
/// each key and its value.
struct Sequence(Option<usize>, Vec<String>);

impl SerializeMap for Sequence {
    type Ok = Self;
    type Error = Error;

    fn serialize_key<T: Serialize + ?Sized>(&mut self, key: &T) -> Result<(), Error> {
        self.1.push(Shown(key).to_string());
        Ok(())
    }

    fn serialize_value<T: Serialize + ?Sized>(&mut self, value: &T) -> Result<(), Error> {
        let entry = self.1.pop().unwrap() + " = " + &Shown(value).to_string();
        self.1.push(entry);
        Ok(())
    }

    fn end(self) -> Result<Self, Error> {
        Ok(self)
    }
}

impl SerializeSeq for Sequence {
    type Ok = Self;
    type Error = Error;

    fn serialize_element<T: Serialize + ?Sized>(&mut self, value: &T) -> Result<(), Error> {
        self.1.push(Shown(value).to_string());
        Ok(())
    }

    fn end(self) -> Result<Self, Error> {
        Ok(self)
    }
}

/// A serializer that takes a sequence or a map and nothing else.
struct Sequences;

macro_rules! refused {
    ($($name:ident($($type:ty),*) -> $result:ty;)*) => {
        $(fn $name(self $(, _: $type)*) -> Result<$result, Error> {
            Err(Error::custom(stringify!($name)))
        })*
    };
}

impl Serializer for Sequences {
    type Ok = Sequence;
    type Error = Error;
    type SerializeSeq = Sequence;
    type SerializeTuple = Impossible<Sequence, Error>;
    type SerializeTupleStruct = Impossible<Sequence, Error>;
    type SerializeTupleVariant = Impossible<Sequence, Error>;
    type SerializeMap = Sequence;
    type SerializeStruct = Impossible<Sequence, Error>;
    type SerializeStructVariant = Impossible<Sequence, Error>;

    fn serialize_seq(self, len: Option<usize>) -> Result<Sequence, Error> {
        Ok(Sequence(len, Vec::new()))
    }

    fn serialize_map(self, len: Option<usize>) -> Result<Sequence, Error> {
        Ok(Sequence(len, Vec::new()))
    }

    refused! {
        serialize_bool(bool) -> Sequence;
        serialize_i8(i8) -> Sequence;
        serialize_i16(i16) -> Sequence;
        serialize_i32(i32) -> Sequence;
        serialize_i64(i64) -> Sequence;
        serialize_u8(u8) -> Sequence;
        serialize_u16(u16) -> Sequence;
        serialize_u32(u32) -> Sequence;
        serialize_u64(u64) -> Sequence;
        serialize_f32(f32) -> Sequence;
        serialize_f64(f64) -> Sequence;
        serialize_char(char) -> Sequence;
        serialize_str(&str) -> Sequence;
        serialize_bytes(&[u8]) -> Sequence;
        serialize_none() -> Sequence;
        serialize_unit() -> Sequence;
        serialize_unit_struct(&'static str) -> Sequence;
        serialize_unit_variant(&'static str, u32, &'static str) -> Sequence;
        serialize_tuple(usize) -> Self::SerializeTuple;
        serialize_tuple_struct(&'static str, usize) -> Self::SerializeTupleStruct;
        serialize_tuple_variant(&'static str, u32, &'static str, usize) -> Self::SerializeTupleVariant;
        serialize_struct(&'static str, usize) -> Self::SerializeStruct;
        serialize_struct_variant(&'static str, u32, &'static str, usize) -> Self::SerializeStructVariant;
    }

    fn serialize_some<T: Serialize + ?Sized>(self, _: &T) -> Result<Sequence, Error> {
        Err(ser::Error::custom("serialize_some"))
    }

    fn serialize_newtype_struct<T: Serialize + ?Sized>(
        self,
        _: &'static str,
        _: &T,
    ) -> Result<Sequence, Error> {
        Err(ser::Error::custom("serialize_newtype_struct"))
    }

    fn serialize_newtype_variant<T: Serialize + ?Sized>(
        self,
        _: &'static str,
        _: u32,
        _: &'static str,
        _: &T,
    ) -> Result<Sequence, Error> {
        Err(ser::Error::custom("serialize_newtype_variant"))
    }
}

fn written(interner: &impl Serialize) -> Vec<String> {
    let Sequence(len, texts) = interner.serialize(Sequences).unwrap();
    assert_eq!(len, Some(texts.len()));
    texts
}

fn read<'de, T: Deserialize<'de>>(texts: &[impl AsRef<str>]) -> Result<T, String> {
    let texts = texts.iter().map(|text| text.as_ref().to_owned());
    let texts: SeqDeserializer<_, Error> = SeqDeserializer::new(texts);
    T::deserialize(texts).map_err(|error| error.to_string())
}

const TEXTS: [&str; 4] = ["red", "", "a text of more than fourteen bytes", "blue"];

#[test]
fn interners_are_written_as_their_texts() {
    let rodeo: Rodeo = TEXTS.into_iter().collect();
    assert_eq!(written(&rodeo), TEXTS);
    assert_eq!(written(&rodeo.clone().into_reader()), TEXTS);
    assert_eq!(written(&rodeo.into_resolver()), TEXTS);
    assert_eq!(written(&Rodeo::default()), [""; 0]);
    for (rodeo, texts) in [
        (TEXTS.into_iter().collect(), &TEXTS[..]),
        (ThreadedRodeo::default(), &[]),
    ] {
        let reader = rodeo.into_reader();
        assert_eq!(written(&reader), texts);
        assert_eq!(written(&reader.into_resolver()), texts);
    }
}

#[test]
fn interners_are_read_with_the_keys_of_positions() {
    let blue = Spur::try_from_usize(3).unwrap();
    let mut rodeo: Rodeo = read(&TEXTS).unwrap();
    assert_eq!((rodeo.get("blue"), rodeo.len()), (Some(blue), 4));
    assert_eq!(rodeo.max_memory_usage(), usize::MAX);
    assert_eq!(rodeo.get_or_intern("green").into_usize(), 4);
    let reader: RodeoReader = read(&TEXTS).unwrap();
    assert_eq!(
        (reader.get("blue"), reader.resolve(&blue)),
        (Some(blue), "blue")
    );
    let resolver: RodeoResolver = read(&TEXTS).unwrap();
    assert!(resolver == reader && resolver.strings().eq(TEXTS));
    let none = [""; 0];
    assert!(read::<Rodeo>(&none).unwrap().is_empty());
    assert!(read::<RodeoReader>(&none).unwrap().is_empty());
    assert!(read::<RodeoResolver>(&none).unwrap().is_empty());
}

#[test]
fn a_threaded_interner_is_a_map_of_texts_to_keys() {
    let rodeo: ThreadedRodeo = ["red", "", "blue"].into_iter().collect();
    assert_eq!(written(&rodeo), ["red = 1", " = 2", "blue = 3"]);
    assert_eq!(written(&ThreadedRodeo::default()), [""; 0]);

    fn read(entries: &[(&'static str, u32)]) -> Result<ThreadedRodeo, Error> {
        let entries = MapDeserializer::new(entries.iter().copied());
        ThreadedRodeo::deserialize(entries)
    }
    assert!(read(&[("blue", 3), ("red", 1), ("", 2)]).unwrap() == rodeo);
    assert_eq!(read(&[]).unwrap().len(), 0);
    assert_eq!(rodeo.get_or_intern("green").into_usize(), 3);
    for wrong in [
        &[("red", 2)][..],
        &[("red", 1), ("blue", 3)],
        &[("red", 1), ("blue", 1)],
        &[("red", 0)],
    ] {
        assert!(read(wrong).is_err(), "{wrong:?}");
    }
}

#[test]
fn what_is_read_has_one_bucket_of_its_bytes() {
    let long = "x".repeat(5000);
    let texts = ["red", "", &long];
    assert_eq!(read::<Rodeo>(&texts).unwrap().current_memory_usage(), 5003);
    let entries = MapDeserializer::new(texts.into_iter().zip(1u32..));
    let rodeo: Result<ThreadedRodeo, Error> = ThreadedRodeo::deserialize(entries);
    let rodeo = rodeo.unwrap();
    assert_eq!(rodeo.current_memory_usage(), 5003);
    assert_eq!(rodeo.get_or_intern("green").into_usize(), 3);
    assert!(rodeo.strings().eq(texts.into_iter().chain(["green"])));
}

#[test]
fn a_text_that_comes_twice_is_refused_but_by_a_resolver() {
    let doubled = ["red", "blue", "red", "green"];
    assert_eq!(
        read::<Rodeo>(&doubled),
        Err(r#"text 2 came before: "red""#.to_owned())
    );
    assert_eq!(
        read::<RodeoReader>(&doubled),
        Err(r#"text 2 came before: "red""#.to_owned())
    );
    assert!(read::<RodeoResolver>(&doubled)
        .unwrap()
        .strings()
        .eq(doubled));
}

#[test]
fn more_texts_than_keys_are_refused() {
    let texts: Vec<String> = (0..256).map(|it| it.to_string()).collect();
    assert!(read::<Rodeo<MicroSpur>>(&texts[..255]).is_ok());
    assert!(read::<Rodeo<MicroSpur>>(&texts)
        .unwrap_err()
        .contains("no key is left"));
}

#[test]
fn keys_are_their_positions_plus_one() {
    fn told<'de, K: Key + Serialize + Deserialize<'de>>(position: usize) -> String {
        let written = Shown(&K::try_from_usize(position).unwrap()).to_string();
        let number: u64 = written.parse().unwrap();
        let back: Result<K, Error> = K::deserialize(number.into_deserializer());
        assert_eq!(back.unwrap().into_usize(), position);
        written
    }
    assert_eq!(told::<MicroSpur>(254), "255");
    assert_eq!(told::<MiniSpur>(999), "1000");
    assert_eq!(told::<Spur>(0), "1");
    assert_eq!(told::<LargeSpur>(1 << 40), "1099511627777");
    let zero: Result<Spur, Error> = Spur::deserialize(0u32.into_deserializer());
    assert!(zero.is_err());
    let large: Result<MicroSpur, Error> = MicroSpur::deserialize(256u32.into_deserializer());
    assert!(large.is_err());
}
