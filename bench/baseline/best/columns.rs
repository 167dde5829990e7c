//! A column at a time, as `tool_bench columns` does it, over the lines of standard input: the codes of all lines, from texts that were
//! cut before and from the bytes as they are, the texts of the codes, and the codes of one dictionary in another. The word says which
//! hash: `fx`, `ahash` or `fold`. Prints the nanoseconds of a text in one round.
#[path = "../opaque.rs"]
mod opaque;
mod pool;

use memchr::memchr_iter;
use opaque::black_box;
use pool::{Fold, Fx, Pool, TextHash, A};
use std::io::{self, Read};
use std::time::Instant;

// The lines of the bytes. A line feed at the end begins no line.
fn lines_of(bytes: &[u8]) -> Vec<&str> {
    let mut lines = Vec::new();
    let mut start = 0;
    for at in memchr_iter(b'\n', bytes) {
        lines.push(std::str::from_utf8(&bytes[start..at]).unwrap());
        start = at + 1;
    }
    if start < bytes.len() {
        lines.push(std::str::from_utf8(&bytes[start..]).unwrap());
    }
    lines
}

#[inline(never)]
fn encode<H: TextHash>(pool: &mut Pool<H>, texts: &[&str]) -> Vec<u32> {
    let mut codes = Vec::with_capacity(texts.len());
    codes.extend(texts.iter().map(|text| pool.intern(text.as_bytes())));
    codes
}

#[inline(never)]
fn encode_lines<H: TextHash>(pool: &mut Pool<H>, bytes: &[u8]) -> Vec<u32> {
    let bytes = std::str::from_utf8(bytes).unwrap().as_bytes();
    let mut codes = Vec::new();
    let mut start = 0;
    for at in memchr_iter(b'\n', bytes) {
        codes.push(pool.intern(&bytes[start..at]));
        start = at + 1;
    }
    if start < bytes.len() {
        codes.push(pool.intern(&bytes[start..]));
    }
    codes
}

#[inline(never)]
fn decode<'a, H: TextHash>(pool: &'a Pool<H>, codes: &[u32]) -> Vec<&'a [u8]> {
    let mut texts = Vec::with_capacity(codes.len());
    texts.extend(codes.iter().map(|code| pool.resolve(*code).unwrap()));
    texts
}

#[inline(never)]
fn merge<H: TextHash>(into: &mut Pool<H>, from: &Pool<H>) -> Vec<u32> {
    let mut codes = Vec::with_capacity(from.len());
    codes.extend((0..from.len() as u32).map(|code| into.intern(from.resolve(code).unwrap())));
    codes
}

// Prints the nanoseconds that the work takes, a text.
fn time<T>(what: &str, count: usize, work: impl FnOnce() -> T) -> T {
    let start = Instant::now();
    let answer = work();
    println!("{what} {:.1}", start.elapsed().as_secs_f64() * 1e9 / count as f64);
    answer
}

fn round<H: TextHash>(bytes: &[u8]) {
    let lines = lines_of(bytes);
    let count = lines.len();
    let mut pool = Pool::<H>::new();
    let codes = time("encode", count, || encode(black_box(&mut pool), black_box(&lines)));
    let mut again = Pool::<H>::new();
    let same = time("encode_lines", count, || encode_lines(black_box(&mut again), black_box(bytes)));
    assert!(codes == same);
    let texts = time("decode", count, || decode(black_box(&pool), black_box(&codes)));
    assert!(texts.iter().zip(&lines).all(|(text, line)| *text == line.as_bytes()));
    let mut half = Pool::<H>::new();
    encode(&mut half, &lines[..count / 2]);
    let merged = time("merge", pool.len(), || merge(black_box(&mut half), black_box(&pool)));
    assert!(merged.iter().enumerate().all(|(code, new)| half.resolve(*new) == pool.resolve(code as u32)));
}

fn main() -> io::Result<()> {
    let mut bytes = Vec::new();
    io::stdin().lock().read_to_end(&mut bytes)?;
    match std::env::args().nth(1).as_deref() {
        Some("fx") => round::<Fx>(&bytes),
        Some("ahash") => round::<A>(&bytes),
        Some("fold") => round::<Fold>(&bytes),
        _ => return Err(io::Error::new(io::ErrorKind::Other, "usage: columns fx|ahash|fold")),
    }
    Ok(())
}
