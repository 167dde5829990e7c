//! How long single calls take in one round, as a Rust programmer writes an interner over std, and an index of a
//! `Vec<Box<str>>` at random positions, over the texts of `tool_bench round`, or with the word `sizes` the interner alone over those
//! of `tool_bench sizes`. Prints for each count of texts, and each size, the nanoseconds of a call.
mod opaque;
mod rounds;

use opaque::{black_box, random_positions};
use rounds::{numbered, round, round_of_sizes, Texts, ALL_SIZES, COUNTS};
use std::collections::HashMap;
use std::time::Instant;

// How often all positions are read. The least pass counts.
const PASSES: usize = 8;

struct Standard {
    keys: HashMap<Box<str>, u32>,
    texts: Vec<Box<str>>,
}

impl Texts for Standard {
    type Key = u32;

    fn new() -> Self {
        Standard { keys: HashMap::new(), texts: Vec::new() }
    }

    #[inline]
    fn intern(&mut self, text: &str) -> u32 {
        if let Some(key) = self.keys.get(text) {
            return *key;
        }
        let key = u32::try_from(self.texts.len()).unwrap();
        self.keys.insert(text.into(), key);
        self.texts.push(text.into());
        key
    }

    #[inline]
    fn get(&self, text: &str) -> Option<u32> {
        self.keys.get(text).copied()
    }

    #[inline]
    fn last_byte(&self, key: u32) -> Option<u8> {
        self.texts.get(key as usize)?.as_bytes().last().copied()
    }

    #[inline]
    fn position(key: u32) -> usize {
        key as usize
    }
}

// The text's last byte, or 0 where it has none.
fn last_byte(text: &str) -> usize {
    text.as_bytes().last().map_or(0, |byte| usize::from(*byte))
}

// The sum of the last bytes of the texts at these positions.
#[inline(never)]
fn read_all(texts: &[Box<str>], positions: &[u32]) -> usize {
    let mut sum = 0usize;
    for position in positions {
        sum = sum.wrapping_add(last_byte(&texts[*position as usize]));
    }
    sum
}

// The nanoseconds of an index in the least pass over random positions.
fn round_of_index(count: u32) {
    let texts: Vec<Box<str>> = (0..count).map(|number| numbered(number).into_boxed_str()).collect();
    let positions = random_positions(count, count);
    let wanted: usize = positions.iter().map(|position| last_byte(&numbered(*position))).sum();
    let mut least = f64::INFINITY;
    for _ in 0..PASSES {
        let start = Instant::now();
        let sum = read_all(black_box(&texts), black_box(&positions));
        let elapsed = start.elapsed();
        assert_eq!(sum, wanted);
        least = least.min(elapsed.as_secs_f64() * 1e9 / f64::from(count));
    }
    println!("{count} index {least:.1}");
}

fn main() {
    match std::env::args().nth(1).as_deref() {
        Some("sizes") => round_of_sizes::<Standard>(&ALL_SIZES),
        _ => {
            for count in COUNTS {
                round::<Standard>(count);
                round_of_index(count);
            }
        }
    }
}
