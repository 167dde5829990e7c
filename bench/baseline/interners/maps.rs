//! Two maps that threads share, from a text to its key and from a key to its text, with the texts in an arena.
use crate::arena::Arena;
use crate::Interner;
use dashmap::{DashMap, SharedValue};
use fxhash::FxHasher;
use hashbrown::hash_map::RawEntryMut;
use std::hash::BuildHasherDefault;
use std::sync::atomic::{AtomicU32, Ordering};

type Fx = BuildHasherDefault<FxHasher>;

/// The texts of both maps lie in the arena, which goes last.
pub struct Maps {
    keys: DashMap<&'static str, u32, Fx>,
    texts: DashMap<u32, &'static str, Fx>,
    next: AtomicU32,
    arena: Arena,
}

impl Maps {
    // The key of a text that was not there just now. Its shard stays locked until the text is in both maps.
    fn add(&self, text: &str) -> u32 {
        let hash = self.keys.hash_usize(&text);
        let mut shard = self.keys.shards()[self.keys.determine_shard(hash)].write();
        match shard.raw_entry_mut().from_key_hashed_nocheck(hash as u64, text) {
            RawEntryMut::Occupied(entry) => *entry.get().get(),
            RawEntryMut::Vacant(entry) => {
                let copy = self.arena.store(text);
                let key = self.next.fetch_add(1, Ordering::SeqCst);
                self.texts.insert(key, copy);
                entry.insert_hashed_nocheck(hash as u64, copy, SharedValue::new(key));
                key
            }
        }
    }
}

impl Interner for Maps {
    type Key = u32;

    fn new() -> Self {
        Maps {
            keys: DashMap::default(),
            texts: DashMap::default(),
            next: AtomicU32::new(0),
            arena: Arena::new(),
        }
    }

    #[inline]
    fn intern(&self, text: &str) -> u32 {
        if let Some(key) = self.keys.get(text) {
            return *key;
        }
        self.add(text)
    }

    #[inline]
    fn with_text<T>(&self, key: u32, look: impl FnOnce(&str) -> T) -> Option<T> {
        self.texts.get(&key).map(|text| look(&text))
    }

    fn count(&self) -> usize {
        self.texts.len()
    }

    #[inline]
    fn position(key: u32) -> usize {
        key as usize
    }
}
