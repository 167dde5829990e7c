//! One list of texts without gaps, and sixteen tables of their positions, each behind a lock of its own. Threads append to the list and read
//! it at once. A text is in its cell before it is counted, so every position below the count has its text.
use crate::Interner;
use crate::arena::{Arena, Measured};
use fxhash::FxHasher;
use hashbrown::HashMap;
use hashbrown::hash_map::RawEntryMut;
use std::alloc::{alloc_zeroed, dealloc, handle_alloc_error, Layout};
use std::hash::{Hash, Hasher};
use std::ptr;
use std::sync::atomic::{AtomicPtr, AtomicUsize, Ordering};
use std::sync::{Mutex, RwLock};

// The cells of the first row. Each further row has twice as many as the one before.
const FIRST: usize = 1024;

// Rows enough for every position of 32 bits.
const ROWS: usize = 23;

// The address of a text in the arena, or null.
type Cell = AtomicPtr<u8>;

// What changes with each text, on a line of the cache of its own: readers of the rows don't wait for it.
#[repr(align(64))]
struct End {
    count: AtomicUsize,
    lock: Mutex<()>,
}

/// A list whose end is `LOCKED` while a text is appended. Without the lock a thread claims the next cell, and whoever sees
/// that cell filled counts it.
pub struct Dense<const LOCKED: bool> {
    rows: [AtomicPtr<Cell>; ROWS],
    end: End,
}

// The row of a position, and the cell in that row.
#[inline]
fn place(position: usize) -> (usize, usize) {
    let from = position + FIRST;
    let row = (from / FIRST).leading_zeros() as usize ^ 63;
    (row, from - (FIRST << row))
}

fn layout(row: usize) -> Layout {
    Layout::array::<Cell>(FIRST << row).unwrap()
}

impl<const LOCKED: bool> Dense<LOCKED> {
    pub fn new() -> Self {
        Dense { rows: Default::default(), end: End { count: AtomicUsize::new(0), lock: Mutex::new(()) } }
    }

    /// How many texts there are.
    #[inline]
    pub fn count(&self) -> usize {
        self.end.count.load(Ordering::Acquire)
    }

    /// The text at a position that `append` returned.
    #[inline]
    pub fn text(&self, position: u32) -> &str {
        let text = self.cell(position as usize).load(Ordering::Acquire);
        // The cell is filled, and the arena lives as long as the list.
        unsafe { Measured::text_at(text) }
    }

    /// The text at the position, or `None` where there is none.
    #[inline]
    pub fn get(&self, position: u32) -> Option<&str> {
        if (position as usize) < self.count() {
            Some(self.text(position))
        } else {
            None
        }
    }

    /// Appends a text, and returns its position.
    #[inline]
    pub fn append(&self, text: Measured) -> u32 {
        let position = if LOCKED { self.append_locked(text) } else { self.append_claiming(text) };
        u32::try_from(position).unwrap()
    }

    fn append_locked(&self, text: Measured) -> usize {
        let _end = self.end.lock.lock().unwrap();
        let position = self.end.count.load(Ordering::Relaxed);
        self.cell(position).store(text.address(), Ordering::Release);
        self.end.count.store(position + 1, Ordering::Release);
        position
    }

    fn append_claiming(&self, text: Measured) -> usize {
        loop {
            let position = self.count();
            let cell = self.cell(position);
            let claimed = cell.compare_exchange(ptr::null_mut(), text.address(), Ordering::AcqRel, Ordering::Relaxed).is_ok();
            let _ = self.end.count.compare_exchange(position, position + 1, Ordering::AcqRel, Ordering::Relaxed);
            if claimed {
                return position;
            }
        }
    }

    #[inline]
    fn cell(&self, position: usize) -> &Cell {
        let (row, at) = place(position);
        let mut first = self.rows[row].load(Ordering::Acquire);
        if first.is_null() {
            first = self.make_row(row);
        }
        // The row has the cell, and lives as long as the list.
        unsafe { &*first.add(at) }
    }

    // Makes the row, unless another thread was faster.
    #[cold]
    fn make_row(&self, row: usize) -> *mut Cell {
        // The size is not 0, and a cell of zeros is null.
        let made = unsafe { alloc_zeroed(layout(row)) }.cast::<Cell>();
        if made.is_null() {
            handle_alloc_error(layout(row));
        }
        match self.rows[row].compare_exchange(ptr::null_mut(), made, Ordering::AcqRel, Ordering::Acquire) {
            Ok(_) => made,
            Err(other) => {
                unsafe { dealloc(made.cast(), layout(row)) };
                other
            }
        }
    }
}

impl<const LOCKED: bool> Drop for Dense<LOCKED> {
    fn drop(&mut self) {
        for (row, first) in self.rows.iter_mut().enumerate() {
            let first = *first.get_mut();
            if !first.is_null() {
                unsafe { dealloc(first.cast(), layout(row)) };
            }
        }
    }
}

// On a line of the cache of its own.
#[derive(Default)]
#[repr(align(64))]
struct Shard {
    keys: RwLock<HashMap<u32, (), ()>>,
}

/// A new text is copied into the arena, put into its cell of the list and counted, and then its position is put into its
/// table, whose lock is held all the time. The end of the list is `LOCKED` while the text is put there, or not.
pub struct Listed<const LOCKED: bool> {
    shards: [Shard; 16],
    list: Dense<LOCKED>,
    arena: Arena,
}

#[inline]
fn hash_of(text: &str) -> u64 {
    let mut hasher = FxHasher::default();
    text.hash(&mut hasher);
    hasher.finish()
}

impl<const LOCKED: bool> Listed<LOCKED> {
    // A table takes the upper seven bits of a hash as its tag, so the next four choose the shard.
    #[inline]
    fn shard(&self, hash: u64) -> &Shard {
        &self.shards[(hash << 7 >> 60) as usize]
    }

    // The key of a text that was absent just now.
    fn add(&self, hash: u64, text: &str) -> u32 {
        let mut keys = self.shard(hash).keys.write().unwrap();
        match keys.raw_entry_mut().from_hash(hash, |key| self.list.text(*key) == text) {
            RawEntryMut::Occupied(entry) => *entry.key(),
            RawEntryMut::Vacant(entry) => {
                let key = self.list.append(Measured::store(&self.arena, text));
                entry.insert_with_hasher(hash, key, (), |key| hash_of(self.list.text(*key)));
                key
            }
        }
    }
}

impl<const LOCKED: bool> Interner for Listed<LOCKED> {
    type Key = u32;

    fn new() -> Self {
        Listed { shards: Default::default(), list: Dense::new(), arena: Arena::new() }
    }

    #[inline]
    fn intern(&self, text: &str) -> u32 {
        let hash = hash_of(text);
        let keys = self.shard(hash).keys.read().unwrap();
        if let Some((key, _)) = keys.raw_entry().from_hash(hash, |key| self.list.text(*key) == text) {
            return *key;
        }
        drop(keys);
        self.add(hash, text)
    }

    #[inline]
    fn with_text<T>(&self, key: u32, look: impl FnOnce(&str) -> T) -> Option<T> {
        self.list.get(key).map(look)
    }

    fn count(&self) -> usize {
        self.list.count()
    }

    #[inline]
    fn position(key: u32) -> usize {
        key as usize
    }
}
