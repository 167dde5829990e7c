//! serde: an interner is written as the sequence of its texts in the order of their keys, and read
//! from it. A `ThreadedRodeo` is a map of its texts to their keys, as lasso 0.7.3 has it.

use crate::{Capacity, Key, MemoryLimits, Rodeo, RodeoReader, RodeoResolver, ThreadedRodeo};
use serde::de::{Deserialize, Deserializer, Error};
use serde::ser::{Serialize, Serializer};
use std::collections::HashMap;
use std::hash::BuildHasher;
use std::num::NonZeroUsize;

impl<K, H> Serialize for Rodeo<K, H> {
    fn serialize<S: Serializer>(&self, serializer: S) -> Result<S::Ok, S::Error> {
        serializer.collect_seq(self.strings())
    }
}

impl<K, H> Serialize for RodeoReader<K, H> {
    fn serialize<S: Serializer>(&self, serializer: S) -> Result<S::Ok, S::Error> {
        serializer.collect_seq(self.strings())
    }
}

impl<K> Serialize for RodeoResolver<K> {
    fn serialize<S: Serializer>(&self, serializer: S) -> Result<S::Ok, S::Error> {
        serializer.collect_seq(self.strings())
    }
}

/// Each text has the key of its position. The interner has no limit. It is an error if a text comes
/// twice, if the key type has too few keys, and if memory is out.
impl<'de, K: Key, S: BuildHasher + Default> Deserialize<'de> for Rodeo<K, S> {
    fn deserialize<D: Deserializer<'de>>(deserializer: D) -> Result<Self, D::Error> {
        let texts = Vec::<String>::deserialize(deserializer)?;
        let capacity = room_for(texts.iter());
        let mut rodeo = Self::try_made(capacity, MemoryLimits::default(), S::default())
            .map_err(Error::custom)?;
        for (position, text) in texts.iter().enumerate() {
            rodeo.try_get_or_intern(text).map_err(Error::custom)?;
            if rodeo.len() == position {
                return Err(Error::custom(format_args!(
                    "text {position} came before: {text:?}"
                )));
            }
        }
        Ok(rodeo)
    }
}

/// Room for just these texts.
fn room_for<'a>(texts: impl ExactSizeIterator<Item = &'a String>) -> Capacity {
    let count = texts.len();
    let bytes = NonZeroUsize::new(texts.map(String::len).sum());
    Capacity::new(count, bytes.unwrap_or(Capacity::default().bytes()))
}

/// As a `Rodeo` is read.
impl<'de, K: Key, S: BuildHasher + Default> Deserialize<'de> for RodeoReader<K, S> {
    fn deserialize<D: Deserializer<'de>>(deserializer: D) -> Result<Self, D::Error> {
        Rodeo::deserialize(deserializer).map(Rodeo::into_reader)
    }
}

/// Each text has the key of its position. Equal texts are kept.
impl<'de, K: Key> Deserialize<'de> for RodeoResolver<K> {
    fn deserialize<D: Deserializer<'de>>(deserializer: D) -> Result<Self, D::Error> {
        let texts = Vec::<String>::deserialize(deserializer)?;
        Ok(Self::with_texts(texts.iter().map(String::as_str)))
    }
}

impl<K: Key + Serialize, H> Serialize for ThreadedRodeo<K, H> {
    fn serialize<S: Serializer>(&self, serializer: S) -> Result<S::Ok, S::Error> {
        serializer.collect_map(self.iter().map(|(key, text)| (text, key)))
    }
}

/// Each text has its key; of equal texts the last one counts. The interner has no limit. It is an
/// error if the keys are not those of the first positions, each once, and if memory is out.
impl<'de, K, S> Deserialize<'de> for ThreadedRodeo<K, S>
where
    K: Key + Deserialize<'de>,
    S: BuildHasher + Default,
{
    fn deserialize<D: Deserializer<'de>>(deserializer: D) -> Result<Self, D::Error> {
        let keys = HashMap::<String, K>::deserialize(deserializer)?;
        let mut texts: Vec<_> = keys.iter().collect();
        texts.sort_unstable_by_key(|(_, key)| key.into_usize());
        let capacity = room_for(keys.keys());
        let rodeo = Self::try_made(capacity, MemoryLimits::default(), S::default())
            .map_err(Error::custom)?;
        for (position, (text, key)) in texts.into_iter().enumerate() {
            if key.into_usize() != position {
                return Err(Error::custom(format_args!(
                    "no text has the key of position {position}, or two have the one before"
                )));
            }
            rodeo.try_get_or_intern(text).map_err(Error::custom)?;
        }
        Ok(rodeo)
    }
}
