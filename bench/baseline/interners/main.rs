//! Interners that threads share, over the lines of standard input: the same work as `tool_bench interners` and `tool_bench fill`.
//! The first word says which interner: `maps` (two maps of `dashmap`), `locked` (a map and a list of std behind one lock), `list` (one
//! list behind one plain lock) or `lockless` (the same list without that lock). The second says what to do: `round` prints the
//! nanoseconds that a call takes each thread in one round, `fill` interns each line as it is read, and prints how many texts there are.
//! `maps columns` prints the nanoseconds of a text when 1 to 4 threads encode all lines, as `tool_bench columns` does by a
//! `ThreadedRodeo`.
#[cfg(feature = "maps")]
mod arena;
#[cfg(feature = "maps")]
mod listed;
#[cfg(feature = "maps")]
mod maps;
#[path = "../opaque.rs"]
mod opaque;
mod rounds;

use opaque::black_box;
use rounds::{run, Interner};
use std::collections::HashMap;
use std::io::{self, Read};
use std::sync::RwLock;
use std::thread;
use std::time::Instant;

const USAGE: &str = "usage: interners maps|locked|list|lockless round|fill, or maps columns";

fn main() -> io::Result<()> {
    let words: Vec<String> = std::env::args().skip(1).collect();
    match words.iter().map(String::as_str).collect::<Vec<_>>().as_slice() {
        #[cfg(feature = "maps")]
        ["maps", "columns"] => columns::<maps::Maps>(),
        #[cfg(feature = "maps")]
        ["maps", what] => run::<maps::Maps>(what),
        #[cfg(feature = "maps")]
        ["list", what] => run::<listed::Listed<true>>(what),
        #[cfg(feature = "maps")]
        ["lockless", what] => run::<listed::Listed<false>>(what),
        ["locked", what] => run::<Locked>(what),
        _ => Err(io::Error::new(io::ErrorKind::Other, USAGE)),
    }
}

// The codes of all lines by several threads over one interner.

const THREADS: [usize; 4] = [1, 2, 3, 4];

// The codes of the texts, each part of them by a thread.
#[inline(never)]
fn encode<I: Interner<Key = u32>>(interner: &I, texts: &[&str], threads: usize) -> Vec<u32> {
    let mut codes = vec![0; texts.len()];
    let length = ((texts.len() + threads - 1) / threads).max(1);
    thread::scope(|scope| {
        for (texts, codes) in texts.chunks(length).zip(codes.chunks_mut(length)) {
            scope.spawn(move || {
                for (text, code) in texts.iter().zip(codes) {
                    *code = interner.intern(text);
                }
            });
        }
    });
    codes
}

fn columns<I: Interner<Key = u32>>() -> io::Result<()> {
    let mut bytes = Vec::new();
    io::stdin().lock().read_to_end(&mut bytes)?;
    let lines: Vec<&str> = std::str::from_utf8(&bytes).unwrap().lines().collect();
    for threads in THREADS {
        let interner = I::new();
        let start = Instant::now();
        let codes = encode(black_box(&interner), black_box(&lines), threads);
        println!("encode_shared {threads} {:.1}", start.elapsed().as_secs_f64() * 1e9 / lines.len() as f64);
        assert!(codes.iter().zip(&lines).all(|(code, line)| interner.with_text(*code, |text| text == *line) == Some(true)));
        assert!(interner.count() <= codes.len());
    }
    Ok(())
}

// A map and a list of std behind one lock.

struct Texts {
    keys: HashMap<Box<str>, u32>,
    texts: Vec<Box<str>>,
}

pub struct Locked {
    texts: RwLock<Texts>,
}

impl Locked {
    // The key of a text that was not there just now.
    fn add(&self, text: &str) -> u32 {
        let mut texts = self.texts.write().unwrap();
        if let Some(key) = texts.keys.get(text) {
            return *key;
        }
        let key = u32::try_from(texts.texts.len()).unwrap();
        texts.keys.insert(text.into(), key);
        texts.texts.push(text.into());
        key
    }
}

impl Interner for Locked {
    type Key = u32;

    fn new() -> Self {
        Locked { texts: RwLock::new(Texts { keys: HashMap::new(), texts: Vec::new() }) }
    }

    #[inline]
    fn intern(&self, text: &str) -> u32 {
        if let Some(key) = self.texts.read().unwrap().keys.get(text) {
            return *key;
        }
        self.add(text)
    }

    #[inline]
    fn with_text<T>(&self, key: u32, look: impl FnOnce(&str) -> T) -> Option<T> {
        self.texts.read().unwrap().texts.get(key as usize).map(|text| look(text))
    }

    fn count(&self) -> usize {
        self.texts.read().unwrap().texts.len()
    }

    #[inline]
    fn position(key: u32) -> usize {
        key as usize
    }
}
