//! One round of single calls of a pool of texts, over the same texts in the same order as in `tool_bench round`. The programs
//! that time calls share this file, and each uses a part of it.
#![allow(dead_code)]

use crate::opaque::black_box;
use std::time::Instant;

/// How many texts there are.
pub const COUNTS: [u32; 4] = [10_000, 90_000, 100_000, 1_000_000];

/// How many texts there are, and the bytes of each, when `lasso_proved` is measured.
pub const SIZES: [(u32, usize); 5] = [(100_000, 7), (100_000, 11), (100_000, 35), (100_000, 200), (10_000, 7)];

/// How many texts there are in `tool_bench sizes`, and the bytes of each.
pub const ALL_SIZES: [(u32, usize); 12] = [
    (10_000, 7),
    (10_000, 11),
    (10_000, 35),
    (10_000, 200),
    (100_000, 7),
    (100_000, 11),
    (100_000, 35),
    (100_000, 200),
    (1_000_000, 7),
    (1_000_000, 11),
    (1_000_000, 35),
    (1_000_000, 200),
];

const STRIDE: u32 = 7919;

/// A pool of distinct texts, with a key for each.
pub trait Texts {
    type Key: Copy;

    fn new() -> Self;

    /// The key of the text, which joins the pool if it is absent.
    fn intern(&mut self, text: &str) -> Self::Key;

    /// The key of the text, or `None` if it is absent.
    fn get(&self, text: &str) -> Option<Self::Key>;

    /// The last byte of the key's text, or `None` if there is none.
    fn last_byte(&self, key: Self::Key) -> Option<u8>;

    /// The position of the key's text, from 0.
    fn position(key: Self::Key) -> usize;
}

/// The text of this number.
pub fn numbered(number: u32) -> String {
    format!("text {number}")
}

// The text of this number, of that number of bytes, at least seven.
fn sized(number: u32, bytes: usize) -> String {
    format!("{:-<bytes$}", format!("{number:07}"))
}

// The number at a position of an order that jumps.
fn jumped(position: u32, count: u32) -> u32 {
    (u64::from(position) * u64::from(STRIDE) % u64::from(count)) as u32
}

#[inline(never)]
fn intern_all<T: Texts>(pool: &mut T, texts: &[String]) -> usize {
    let mut sum = 0usize;
    for text in texts {
        sum = sum.wrapping_add(T::position(pool.intern(text)));
    }
    sum
}

#[inline(never)]
fn count_absent<T: Texts>(pool: &T, texts: &[String]) -> usize {
    texts.iter().filter(|text| pool.get(text).is_none()).count()
}

#[inline(never)]
fn resolve_all<T: Texts>(pool: &T, keys: &[T::Key]) -> usize {
    let mut sum = 0usize;
    for key in keys {
        if let Some(last) = pool.last_byte(*key) {
            sum = sum.wrapping_add(usize::from(last));
        }
    }
    sum
}

// Prints the nanoseconds of a call of the work, which has to return `wanted`.
fn time(count: u32, call: &str, wanted: usize, work: impl FnOnce() -> usize) {
    let start = Instant::now();
    let answer = work();
    let elapsed = start.elapsed();
    assert_eq!(answer, wanted);
    println!("{count} {call} {:.1}", elapsed.as_secs_f64() * 1e9 / f64::from(count));
}

/// Prints for each call the count of texts, the call, and the nanoseconds that it takes.
pub fn round<T: Texts>(count: u32) {
    let texts: Vec<String> = (0..count).map(numbered).collect();
    let again: Vec<String> = (0..count).map(|position| numbered(jumped(position, count))).collect();
    let absent: Vec<String> = (count..2 * count).map(numbered).collect();
    let positions = (0..count as usize).sum();
    let last_bytes = again.iter().map(|text| usize::from(*text.as_bytes().last().unwrap())).sum();
    let mut pool = T::new();
    time(count, "new", positions, || intern_all(black_box(&mut pool), black_box(&texts)));
    time(count, "present", positions, || intern_all(black_box(&mut pool), black_box(&again)));
    time(count, "absent", absent.len(), || count_absent(black_box(&pool), black_box(&absent)));
    let keys: Vec<T::Key> = again.iter().filter_map(|text| pool.get(text)).collect();
    time(count, "try_resolve", last_bytes, || resolve_all(black_box(&pool), black_box(&keys)));
}

#[inline(never)]
fn get_all<T: Texts>(pool: &T, texts: &[String]) -> usize {
    texts.iter().filter_map(|text| pool.get(text)).map(T::position).fold(0, usize::wrapping_add)
}

/// Prints for each of these counts and sizes of texts, and for each call, the count, the bytes of a text, the call, and the
/// nanoseconds that it takes. Present texts come in an order that jumps.
pub fn round_of_sizes<T: Texts>(sizes: &[(u32, usize)]) {
    for (count, bytes) in sizes.iter().copied() {
        let texts: Vec<String> = (0..count).map(|number| sized(number, bytes)).collect();
        let again: Vec<String> = (0..count).map(|position| sized(jumped(position, count), bytes)).collect();
        let absent: Vec<String> = (count..2 * count).map(|number| sized(number, bytes)).collect();
        let positions = (0..count as usize).sum();
        let last_bytes = again.iter().map(|text| usize::from(*text.as_bytes().last().unwrap())).sum();
        let mut pool = T::new();
        let time = |call: &str, wanted, work: &mut dyn FnMut() -> usize| time(count, &format!("{bytes} {call}"), wanted, work);
        time("new", positions, &mut || intern_all(black_box(&mut pool), black_box(&texts)));
        time("present", positions, &mut || intern_all(black_box(&mut pool), black_box(&again)));
        time("absent", absent.len(), &mut || count_absent(black_box(&pool), black_box(&absent)));
        time("get", positions, &mut || get_all(black_box(&pool), black_box(&again)));
        let keys: Vec<T::Key> = again.iter().filter_map(|text| pool.get(text)).collect();
        time("resolve", last_bytes, &mut || resolve_all(black_box(&pool), black_box(&keys)));
    }
}
