//! Distinct texts in one vector of bytes, and a table of their keys alone. Each of these programs uses a part of it.
#![allow(dead_code)]

#[path = "../fold.rs"]
mod fold;

use hashbrown::hash_map::RawEntryMut;
use hashbrown::HashMap;
use std::hash::Hasher;
use std::marker::PhantomData;

/// A hash of a text.
pub trait TextHash {
    fn hash(text: &[u8]) -> u64;
}

/// The hash of `fxhash`.
pub struct Fx;

impl TextHash for Fx {
    #[inline(always)]
    fn hash(text: &[u8]) -> u64 {
        let mut hasher = fxhash::FxHasher::default();
        hasher.write(text);
        hasher.finish()
    }
}

/// The hash of `ahash`, with keys that are the same in each run.
pub struct A;

impl TextHash for A {
    #[inline(always)]
    fn hash(text: &[u8]) -> u64 {
        let mut hasher = ahash::AHasher::new_with_keys(0x243f_6a88_85a3_08d3, 0x1319_8a2e_0370_7344);
        hasher.write(text);
        hasher.finish()
    }
}

/// A hash by products of two words, each folded onto itself.
pub struct Fold;

impl TextHash for Fold {
    #[inline(always)]
    fn hash(text: &[u8]) -> u64 {
        fold::hash(text)
    }
}

/// A pool of distinct texts. A text's key is its position.
pub struct Pool<H> {
    keys: HashMap<u32, (), ()>,
    bytes: Vec<u8>,
    // where each text ends; it begins where the one before it ends
    ends: Vec<usize>,
    hash: PhantomData<H>,
}

#[inline(always)]
fn text<'a>(bytes: &'a [u8], ends: &[usize], key: u32) -> &'a [u8] {
    let at = key as usize;
    let start = if at == 0 { 0 } else { ends[at - 1] };
    &bytes[start..ends[at]]
}

impl<H: TextHash> Pool<H> {
    pub fn new() -> Self {
        Pool {
            keys: HashMap::with_hasher(()),
            bytes: Vec::new(),
            ends: Vec::new(),
            hash: PhantomData,
        }
    }

    pub fn len(&self) -> usize {
        self.ends.len()
    }

    pub fn bytes(&self) -> usize {
        self.bytes.len()
    }

    /// The key of the text, which joins the pool if it is not there.
    #[inline]
    pub fn intern(&mut self, new: &[u8]) -> u32 {
        let hash = H::hash(new);
        let (bytes, ends) = (&self.bytes, &self.ends);
        match self.keys.raw_entry_mut().from_hash(hash, |key| text(bytes, ends, *key) == new) {
            RawEntryMut::Occupied(entry) => *entry.key(),
            RawEntryMut::Vacant(entry) => {
                let key = u32::try_from(self.ends.len()).unwrap();
                self.bytes.extend_from_slice(new);
                self.ends.push(self.bytes.len());
                let (bytes, ends) = (&self.bytes, &self.ends);
                entry.insert_with_hasher(hash, key, (), |key| H::hash(text(bytes, ends, *key)));
                key
            }
        }
    }

    /// The key of the text, where it is there.
    #[inline]
    pub fn get(&self, wanted: &[u8]) -> Option<u32> {
        let hash = H::hash(wanted);
        self.keys
            .raw_entry()
            .from_hash(hash, |key| text(&self.bytes, &self.ends, *key) == wanted)
            .map(|(key, _)| *key)
    }

    /// The key's text, where there is one.
    #[inline]
    pub fn resolve(&self, key: u32) -> Option<&[u8]> {
        let at = key as usize;
        let end = *self.ends.get(at)?;
        let start = if at == 0 { 0 } else { self.ends[at - 1] };
        self.bytes.get(start..end)
    }
}
