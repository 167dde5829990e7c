//! What is measured of an interner that threads share, and one round of its calls, over the lines of standard input, and what interning them has to answer.
use crate::opaque::black_box;
use std::collections::HashMap;
use std::io::{self, BufRead, BufReader};
use std::thread;
use std::time::{Duration, Instant};

/// An interner that threads share.
pub trait Interner: Sync {
    type Key: Copy + Send + Sync;

    fn new() -> Self;

    /// The key of the text, which joins the others if it is absent.
    fn intern(&self, text: &str) -> Self::Key;

    /// What `look` makes of the key's text, or `None` if the key stands for no text.
    fn with_text<T>(&self, key: Self::Key, look: impl FnOnce(&str) -> T) -> Option<T>;

    /// How many texts there are.
    fn count(&self) -> usize;

    /// The position of the key's text, from 0.
    fn position(key: Self::Key) -> usize;
}

const STRIDE: usize = 7919;

pub struct Lines {
    /// The lines, in their order.
    pub texts: Vec<String>,
    /// The same lines in another order.
    pub again: Vec<String>,
    /// The distinct lines, in the order in which each comes first.
    pub distinct: Vec<String>,
    /// The sum of the positions that the lines have among the distinct ones.
    pub positions: usize,
    /// The sum of the lengths of the lines.
    pub lengths: usize,
}

impl Lines {
    pub fn read(input: impl BufRead) -> io::Result<Lines> {
        let texts = input.lines().collect::<io::Result<Vec<String>>>()?;
        let again = (0..texts.len()).map(|at| texts[at * STRIDE % texts.len()].clone()).collect();
        let mut found: HashMap<&str, usize> = HashMap::new();
        let mut distinct = Vec::new();
        let mut positions = 0;
        for text in &texts {
            positions += *found.entry(text).or_insert_with(|| {
                distinct.push(text.clone());
                distinct.len() - 1
            });
        }
        let lengths = texts.iter().map(String::len).sum();
        drop(found);
        Ok(Lines { texts, again, distinct, positions, lengths })
    }
}

const THREADS: [usize; 3] = [1, 2, 4];

// Interns the texts, and returns the sum of their positions.
#[inline(never)]
fn intern_all<I: Interner>(interner: &I, texts: &[String]) -> usize {
    let mut sum = 0usize;
    for text in texts {
        sum = sum.wrapping_add(I::position(interner.intern(text)));
    }
    sum
}

// Resolves the keys, and returns the sum of their texts' lengths.
#[inline(never)]
fn resolve_all<I: Interner>(interner: &I, keys: &[I::Key]) -> usize {
    let mut sum = 0usize;
    for key in keys {
        if let Some(length) = interner.with_text(*key, str::len) {
            sum = sum.wrapping_add(length);
        }
    }
    sum
}

// What the threads' work returns in all, if each has one part of the work, and how long it takes until all have ended.
fn time<P: Sync>(parts: &[P], work: impl Fn(&P) -> usize + Sync) -> (usize, Duration) {
    let work = &work;
    let start = Instant::now();
    let sum = thread::scope(|scope| {
        let others: Vec<_> = parts[1..].iter().map(|part| scope.spawn(move || work(part))).collect();
        let mut sum = work(&parts[0]);
        for other in others {
            sum = sum.wrapping_add(other.join().unwrap());
        }
        sum
    });
    (sum, start.elapsed())
}

// The texts in as many parts as there are threads, or fewer if there are few texts.
fn parts(texts: &[String], threads: usize) -> Vec<&[String]> {
    texts.chunks((texts.len() + threads - 1) / threads).collect()
}

fn print(call: &str, threads: usize, elapsed: Duration, calls: usize) {
    println!("{call} {threads} {:.1}", elapsed.as_secs_f64() * 1e9 / calls as f64);
}

// One round: what a call takes each thread, in nanoseconds.
fn round<I: Interner>(lines: &Lines) {
    let filled = I::new();
    intern_all(&filled, &lines.distinct);
    let keys: Vec<I::Key> = lines.again.iter().map(|text| filled.intern(text)).collect();
    let count = lines.distinct.len();
    for threads in THREADS {
        let (sum, elapsed) = time(&vec![&filled; threads], |part| intern_all(black_box(*part), black_box(&lines.again)));
        assert_eq!(sum, threads * lines.positions);
        print("present", threads, elapsed, lines.again.len());

        let fresh = I::new();
        let shared = parts(&lines.distinct, threads);
        let (sum, elapsed) = time(&shared, |part| intern_all(black_box(&fresh), black_box(*part)));
        assert_eq!(sum, count * (count - 1) / 2);
        print("new", threads, elapsed, shared[0].len());
        drop(fresh);

        let (sum, elapsed) = time(&vec![&filled; threads], |part| resolve_all(black_box(*part), black_box(&keys)));
        assert_eq!(sum, threads * lines.lengths);
        print("resolve", threads, elapsed, keys.len());

        let fresh = I::new();
        let shared = parts(&lines.texts, threads);
        let (_, elapsed) = time(&shared, |part| intern_all(black_box(&fresh), black_box(*part)));
        assert_eq!(fresh.count(), count);
        print("intern", threads, elapsed, shared[0].len());
    }
}

// Interns each line as it is read, and returns how many texts there are.
fn fill<I: Interner>(mut input: impl BufRead) -> io::Result<usize> {
    let interner = I::new();
    let mut line = String::new();
    while input.read_line(&mut line)? > 0 {
        interner.intern(line.strip_suffix('\n').unwrap_or(&line));
        line.clear();
    }
    Ok(interner.count())
}

/// Does over standard input what the word names: `round` prints the nanoseconds that a call takes each thread in one round, `fill`
/// interns each line as it is read, and prints how many texts there are.
pub fn run<I: Interner>(what: &str) -> io::Result<()> {
    let input = BufReader::with_capacity(1 << 16, io::stdin().lock());
    match what {
        "round" => round::<I>(&Lines::read(input)?),
        "fill" => println!("{}", fill::<I>(input)?),
        _ => return Err(io::Error::new(io::ErrorKind::Other, "the second word is round or fill")),
    }
    Ok(())
}
