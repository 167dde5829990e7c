//! How long single calls take in one round, over the same texts in the same order as in `tool_bench round`; with the word `sizes` as in
//! `tool_bench sizes`, with `few` as in `bench/baseline/proved`. The first word says which hash: `fx`, `ahash` or `fold`, of a pool
//! whose texts move when it grows; with `kept-` before it, of texts that stay where they are. Prints for each count of texts, and
//! each size, the nanoseconds of a call.
#[path = "../opaque.rs"]
mod opaque;
mod pool;
#[path = "../rounds.rs"]
mod rounds;

use hashbrown::hash_map::RawEntryMut;
use hashbrown::HashMap;
use pool::{Fold, Fx, Pool, TextHash, A};
use rounds::{round, round_of_sizes, Texts, ALL_SIZES, COUNTS, SIZES};
use std::marker::PhantomData;
use std::{slice, str};

const FIRST: usize = 4096;

/// Distinct texts that stay where they are, as an interner with lasso's interface has them: buckets of bytes that double, a list of the
/// texts, and a table of their keys alone. A text's key is its position.
pub struct Kept<H> {
    keys: HashMap<u32, (), ()>,
    texts: Vec<&'static str>,
    // none grows past its capacity, so no byte moves
    buckets: Vec<Vec<u8>>,
    hash: PhantomData<H>,
}

// Copies the text to the last bucket, or to a new one of twice its size. The copy must not be read once the buckets are gone.
#[inline]
fn store(buckets: &mut Vec<Vec<u8>>, text: &str) -> &'static str {
    let room = buckets.last().map_or(0, |bucket| bucket.capacity() - bucket.len());
    if room < text.len() {
        let size = buckets.last().map_or(FIRST, |bucket| 2 * bucket.capacity());
        buckets.push(Vec::with_capacity(size.max(text.len())));
    }
    let bucket = buckets.last_mut().unwrap();
    let start = bucket.len();
    bucket.extend_from_slice(text.as_bytes());
    // The bytes were just copied, from a text.
    unsafe { str::from_utf8_unchecked(slice::from_raw_parts(bucket.as_ptr().add(start), text.len())) }
}

impl<H: TextHash> Kept<H> {
    pub fn new() -> Self {
        Kept { keys: HashMap::with_hasher(()), texts: Vec::new(), buckets: Vec::new(), hash: PhantomData }
    }

    /// The key of the text, which joins the others if it is absent.
    #[inline]
    pub fn intern(&mut self, new: &str) -> u32 {
        let hash = H::hash(new.as_bytes());
        let texts = &self.texts;
        match self.keys.raw_entry_mut().from_hash(hash, |key| texts[*key as usize] == new) {
            RawEntryMut::Occupied(entry) => *entry.key(),
            RawEntryMut::Vacant(entry) => {
                let key = u32::try_from(self.texts.len()).unwrap();
                self.texts.push(store(&mut self.buckets, new));
                let texts = &self.texts;
                entry.insert_with_hasher(hash, key, (), |key| H::hash(texts[*key as usize].as_bytes()));
                key
            }
        }
    }

    /// The key of the text, or `None` if it is absent.
    #[inline]
    pub fn get(&self, wanted: &str) -> Option<u32> {
        let found = self.keys.raw_entry().from_hash(H::hash(wanted.as_bytes()), |key| self.texts[*key as usize] == wanted);
        found.map(|(key, _)| *key)
    }

    /// The key's text, if there is one.
    #[inline]
    pub fn resolve(&self, key: u32) -> Option<&str> {
        self.texts.get(key as usize).copied()
    }
}

impl<H: TextHash> Texts for Pool<H> {
    type Key = u32;

    fn new() -> Self {
        Pool::new()
    }

    #[inline]
    fn intern(&mut self, text: &str) -> u32 {
        self.intern(text.as_bytes())
    }

    #[inline]
    fn get(&self, text: &str) -> Option<u32> {
        self.get(text.as_bytes())
    }

    #[inline]
    fn last_byte(&self, key: u32) -> Option<u8> {
        self.resolve(key)?.last().copied()
    }

    #[inline]
    fn position(key: u32) -> usize {
        key as usize
    }
}

impl<H: TextHash> Texts for Kept<H> {
    type Key = u32;

    fn new() -> Self {
        Kept::new()
    }

    #[inline]
    fn intern(&mut self, text: &str) -> u32 {
        self.intern(text)
    }

    #[inline]
    fn get(&self, text: &str) -> Option<u32> {
        self.get(text)
    }

    #[inline]
    fn last_byte(&self, key: u32) -> Option<u8> {
        self.resolve(key)?.as_bytes().last().copied()
    }

    #[inline]
    fn position(key: u32) -> usize {
        key as usize
    }
}

fn measure<T: Texts>(word: Option<&str>) {
    match word {
        Some("sizes") => round_of_sizes::<T>(&ALL_SIZES),
        Some("few") => round_of_sizes::<T>(&SIZES),
        _ => {
            for count in COUNTS {
                round::<T>(count);
            }
        }
    }
}

fn main() {
    let words: Vec<String> = std::env::args().skip(1).collect();
    let second = words.get(1).map(String::as_str);
    match words.first().map(String::as_str) {
        Some("fx") => measure::<Pool<Fx>>(second),
        Some("ahash") => measure::<Pool<A>>(second),
        Some("fold") => measure::<Pool<Fold>>(second),
        Some("kept-fx") => measure::<Kept<Fx>>(second),
        Some("kept-ahash") => measure::<Kept<A>>(second),
        Some("kept-fold") => measure::<Kept<Fold>>(second),
        _ => panic!("usage: calls [kept-]fx|[kept-]ahash|[kept-]fold [sizes|few]"),
    }
}
