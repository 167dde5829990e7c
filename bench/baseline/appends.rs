//! How long threads take to intern texts by one list: with one hold of the list's lock for each new text, or one for 64.
//!
//! It is a model of the shared interner: 16 shards by a text's hash, each with a latch and an index with room, and cells
//! under one latch, the spine. A batch is copied to a bucket of its thread's own. Then all of its shards are locked, so that
//! a second look is enough, and the spine once. Prints for each input and number of threads the nanoseconds of a text, and
//! what batches take of that, the least of seven interleaved rounds. `rustc -O --edition 2021` builds it.
use std::cell::UnsafeCell;
use std::collections::HashSet;
use std::hint::{black_box, spin_loop};
use std::ptr;
use std::slice;
use std::sync::atomic::{AtomicU32, AtomicUsize, Ordering::*};
use std::thread;
use std::time::Instant;

const SHARDS: usize = 16;
const BATCH: usize = 64;
const ROUNDS: usize = 7;
const TEXTS: usize = 400_000;
const NONE: usize = usize::MAX;
const FREE: u64 = u64::MAX;

/// A lock for one writer or several readers, which looks a hundred times and then yields.
#[repr(align(128))]
struct Latch(AtomicU32);

impl Latch {
    fn pause(&self, is_open: impl Fn(u32) -> bool) {
        for _ in 0..100 {
            if is_open(self.0.load(Relaxed)) {
                return;
            }
            spin_loop();
        }
        thread::yield_now();
    }

    fn write(&self) {
        while self.0.compare_exchange(0, 1, Acquire, Relaxed).is_err() {
            self.pause(|word| word == 0);
        }
    }

    fn end_write(&self) {
        self.0.fetch_sub(1, Release);
    }

    fn read(&self) {
        while self.0.fetch_add(2, Acquire) & 1 != 0 {
            self.0.fetch_sub(2, Release);
            self.pause(|word| word & 1 == 0);
        }
    }

    fn end_read(&self) {
        self.0.fetch_sub(2, Release);
    }
}

#[derive(Clone, Copy)]
struct Cell {
    start: *const u8,
    len: usize,
    hash: u64,
}

struct Shard {
    latch: Latch,
    /// Upper half of a hash and position, or FREE.
    index: UnsafeCell<Vec<u64>>,
    /// How many texts the index has.
    count: UnsafeCell<usize>,
}

/// What the spine's latch guards.
struct Spine {
    len: usize,
    counts: [usize; SHARDS],
}

struct List {
    shards: Vec<Shard>,
    latch: Latch,
    spine: UnsafeCell<Spine>,
    cells: Box<[UnsafeCell<Cell>]>,
    /// How many cells may be read.
    len: AtomicUsize,
    /// The bucket that all threads share.
    bucket: Box<[UnsafeCell<u8>]>,
    used: AtomicUsize,
}

unsafe impl Sync for List {}

/// A text that waits for the end of its batch.
struct Waiting {
    cell: Cell,
    at: usize,
    is_new: bool,
}

#[derive(Clone, Copy)]
enum Way {
    Single,
    Batches,
}

const WAYS: [Way; 2] = [Way::Single, Way::Batches];

fn fold(word: u64) -> u64 {
    let product = u128::from(word) * 0xA076_1D64_78BD_642F;
    product as u64 ^ (product >> 64) as u64
}

fn hash(text: &[u8]) -> u64 {
    let mut hash = 0x9E37_79B9_7F4A_7C15 ^ text.len() as u64;
    for part in text.chunks(8) {
        let mut word = [0; 8];
        word[..part.len()].copy_from_slice(part);
        hash = fold(hash ^ u64::from_le_bytes(word));
    }
    fold(hash)
}

fn shard_of(hash: u64) -> usize {
    (hash >> 60) as usize
}

impl Cell {
    fn text(&self) -> &[u8] {
        unsafe { slice::from_raw_parts(self.start, self.len) }
    }
}

/// Copies the text to the end of a bucket with room for it.
fn copy_to(own: &mut Vec<u8>, text: &[u8]) -> *const u8 {
    let start = own.len();
    assert!(own.capacity() - start >= text.len());
    own.extend_from_slice(text);
    own[start..].as_ptr()
}

impl List {
    fn new(texts: usize, bytes: usize) -> Self {
        let slots = (texts / SHARDS * 4).next_power_of_two().max(64);
        let shard = |_| Shard {
            latch: Latch(AtomicU32::new(0)),
            index: UnsafeCell::new(vec![FREE; slots]),
            count: UnsafeCell::new(0),
        };
        let none = Cell {
            start: ptr::null(),
            len: 0,
            hash: 1,
        };
        List {
            shards: (0..SHARDS).map(shard).collect(),
            latch: Latch(AtomicU32::new(0)),
            spine: UnsafeCell::new(Spine {
                len: 0,
                counts: [0; SHARDS],
            }),
            cells: (0..texts).map(|_| UnsafeCell::new(none)).collect(),
            len: AtomicUsize::new(0),
            bucket: (0..bytes).map(|_| UnsafeCell::new(1)).collect(),
            used: AtomicUsize::new(0),
        }
    }

    fn cell(&self, at: usize) -> &Cell {
        // Nobody writes a cell once its position is known.
        unsafe { &*self.cells[at].get() }
    }

    /// The text's position, or its free slot. The shard is locked.
    fn find(&self, hash: u64, text: &[u8]) -> Result<usize, usize> {
        let index = unsafe { &*self.shards[shard_of(hash)].index.get() };
        let mut slot = hash as usize & (index.len() - 1);
        while index[slot] != FREE {
            let at = index[slot] as u32 as usize;
            if (index[slot] ^ hash) >> 32 == 0 && self.cell(at).text() == text {
                return Ok(at);
            }
            slot = (slot + 1) & (index.len() - 1);
        }
        Err(slot)
    }

    /// The text's position, if its shard has it.
    fn look_up(&self, hash: u64, text: &[u8]) -> Option<usize> {
        let latch = &self.shards[shard_of(hash)].latch;
        latch.read();
        let found = self.find(hash, text);
        latch.end_read();
        found.ok()
    }

    /// Enters a text that the shard lacks. The shard is locked.
    fn enter(&self, cell: &Cell, at: usize) {
        let slot = self
            .find(cell.hash, cell.text())
            .expect_err("a text came twice");
        let shard = &self.shards[shard_of(cell.hash)];
        unsafe {
            (&mut *shard.index.get())[slot] = cell.hash >> 32 << 32 | at as u64;
            *shard.count.get() += 1;
        }
    }

    fn copy_shared(&self, text: &[u8]) -> *const u8 {
        let mut at = self.used.load(Relaxed);
        while let Err(now) = self
            .used
            .compare_exchange(at, at + text.len(), AcqRel, Relaxed)
        {
            at = now;
        }
        let start = self.bucket[at..at + text.len()].as_ptr() as *mut u8;
        // Nobody else has these bytes.
        unsafe { ptr::copy_nonoverlapping(text.as_ptr(), start, text.len()) };
        start
    }

    /// Appends a text. The spine is locked.
    fn append(&self, cell: Cell) -> usize {
        let spine = unsafe { &mut *self.spine.get() };
        let at = spine.len;
        unsafe { *self.cells[at].get() = cell };
        spine.len += 1;
        spine.counts[shard_of(cell.hash)] += 1;
        self.len.swap(at + 1, AcqRel);
        at
    }

    /// Whether the shard's index has all of its texts. Shard and spine are locked.
    fn is_current(&self, shard: usize) -> bool {
        unsafe { (*self.spine.get()).counts[shard] == *self.shards[shard].count.get() }
    }

    fn intern_single(&self, text: &[u8]) -> usize {
        let hash = hash(text);
        if let Some(at) = self.look_up(hash, text) {
            return at;
        }
        let shard = shard_of(hash);
        self.shards[shard].latch.write();
        let at = self.find(hash, text).unwrap_or_else(|_| {
            let cell = Cell {
                start: self.copy_shared(text),
                len: text.len(),
                hash,
            };
            self.latch.write();
            assert!(self.is_current(shard));
            let at = self.append(cell);
            self.latch.end_write();
            self.enter(&cell, at);
            at
        });
        self.shards[shard].latch.end_write();
        at
    }

    /// Appends a batch: all of its shards are locked, so that a second look is enough.
    fn append_batch(&self, texts: &mut [Waiting]) {
        let has = texts
            .iter()
            .fold(0u32, |has, text| has | 1 << shard_of(text.cell.hash));
        let shards: Vec<_> = (0..SHARDS).filter(|shard| has >> shard & 1 == 1).collect();
        shards
            .iter()
            .for_each(|shard| self.shards[*shard].latch.write());
        for text in texts.iter_mut() {
            text.at = self.find(text.cell.hash, text.cell.text()).unwrap_or(NONE);
        }
        self.latch.write();
        append_new(self, texts);
        self.latch.end_write();
        for text in texts.iter().filter(|text| text.is_new) {
            self.enter(&text.cell, text.at);
        }
        shards
            .iter()
            .for_each(|shard| self.shards[*shard].latch.end_write());
    }
}

/// Appends the texts that were not found. The spine is locked.
fn append_new(list: &List, texts: &mut [Waiting]) {
    for text in texts.iter_mut().filter(|text| text.at == NONE) {
        text.at = list.append(text.cell);
        text.is_new = true;
    }
}

/// New texts, and where each is among them by its hash.
struct Batch {
    texts: Vec<Waiting>,
    places: [u8; 256],
}

impl Batch {
    fn new() -> Self {
        Batch {
            texts: Vec::with_capacity(BATCH),
            places: [u8::MAX; 256],
        }
    }

    /// The text's place in the batch, or the free slot for it.
    fn find(&self, hash: u64, text: &[u8]) -> Result<usize, usize> {
        let mut slot = (hash >> 20) as u8;
        while self.places[slot as usize] != u8::MAX {
            let place = self.places[slot as usize] as usize;
            if self.texts[place].cell.hash == hash && self.texts[place].cell.text() == text {
                return Ok(place);
            }
            slot = slot.wrapping_add(1);
        }
        Err(slot as usize)
    }
}

/// Interns the texts, and appends the new ones in batches.
fn intern_batched(list: &List, texts: &[&[u8]], own: &mut Vec<u8>) {
    let mut batch = Batch::new();
    for text in texts {
        let hash = hash(text);
        let Err(slot) = batch.find(hash, text) else {
            continue;
        };
        if let Some(at) = list.look_up(hash, text) {
            black_box(at);
            continue;
        }
        let start = copy_to(own, text);
        let len = text.len();
        batch.places[slot] = batch.texts.len() as u8;
        batch.texts.push(Waiting {
            cell: Cell { start, len, hash },
            at: NONE,
            is_new: false,
        });
        if batch.texts.len() == BATCH {
            list.append_batch(&mut batch.texts);
            batch = Batch::new();
        }
    }
    list.append_batch(&mut batch.texts);
}

/// Interns the texts this way, as a thread that has this bucket.
fn intern(list: &List, way: Way, texts: &[&[u8]], own: &mut Vec<u8>) {
    match way {
        Way::Single => {
            for text in texts {
                black_box(list.intern_single(text));
            }
        }
        Way::Batches => intern_batched(list, texts, own),
    }
}

/// The seconds in which these threads intern their parts. The list has to have this number of texts then.
fn time(way: Way, parts: &[Vec<&[u8]>], distinct: usize) -> f64 {
    let bytes: Vec<usize> = parts
        .iter()
        .map(|part| part.iter().map(|text| text.len()).sum())
        .collect();
    let list = List::new(distinct, bytes.iter().sum());
    let mut buckets: Vec<Vec<u8>> = bytes.iter().map(|bytes| vec![1; *bytes]).collect();
    let start = Instant::now();
    thread::scope(|scope| {
        for (part, own) in parts.iter().zip(&mut buckets) {
            let list = &list;
            own.clear();
            scope.spawn(move || intern(list, way, part, own));
        }
    });
    let took = start.elapsed().as_secs_f64();
    assert_eq!(list.len.load(Relaxed), distinct);
    let spine = unsafe { &*list.spine.get() };
    assert_eq!(spine.counts.iter().sum::<usize>(), distinct);
    assert!((0..SHARDS).all(|shard| list.is_current(shard)));
    took
}

/// The least seconds of each way.
fn least(parts: &[Vec<&[u8]>], distinct: usize) -> [f64; 2] {
    let mut least = [f64::MAX; WAYS.len()];
    for round in 0..ROUNDS {
        for turn in 0..WAYS.len() {
            let way = (round + turn) % WAYS.len();
            least[way] = least[way].min(time(WAYS[way], parts, distinct));
        }
    }
    least
}

/// Numbers that look random, the same ones each time.
fn random_numbers() -> impl FnMut() -> u64 {
    let mut state = 0x2545_F491_4F6C_DD1Du64;
    move || {
        state ^= state << 13;
        state ^= state >> 7;
        state ^= state << 17;
        state
    }
}

/// So many lines over the first tenth of the words, of which the n-th comes about 1/n as often as the first.
fn zipf<'a>(words: &[&'a [u8]], mut random: impl FnMut() -> u64) -> Vec<&'a [u8]> {
    let mut sums = vec![0.0];
    for rank in 1..=words.len() / 10 {
        sums.push(sums[rank - 1] + 1.0 / rank as f64);
    }
    let line = |_| {
        let at = random() as f64 / u64::MAX as f64 * sums[sums.len() - 1];
        words[sums
            .partition_point(|sum| *sum < at)
            .clamp(1, sums.len() - 1)
            - 1]
    };
    (0..words.len()).map(line).collect()
}

/// Line i goes to thread i modulo their number.
fn parts<'a>(lines: &[&'a [u8]], threads: usize) -> Vec<Vec<&'a [u8]>> {
    let part = |thread| {
        lines
            .iter()
            .skip(thread)
            .step_by(threads)
            .copied()
            .collect()
    };
    (0..threads).map(part).collect()
}

fn main() {
    let mut random = random_numbers();
    let word = |number| format!("{:x}{number}", random() % 0xF_FFFF);
    let words: Vec<String> = (0..TEXTS).map(word).collect();
    let distinct: Vec<&[u8]> = words.iter().map(|word| word.as_bytes()).collect();
    let zipf = zipf(&distinct, random_numbers());
    for (name, lines) in [("distinct", &distinct), ("zipf", &zipf)] {
        let count = lines.iter().collect::<HashSet<_>>().len();
        for threads in [1, 2, 4] {
            let [single, batches] = least(&parts(lines, threads), count);
            let nanoseconds = single * 1e9 / TEXTS as f64;
            let ratio = batches / single;
            println!("{name} {threads} {nanoseconds:.0} ns {ratio:.2}");
        }
    }
}
