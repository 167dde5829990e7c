//! The same job as `lasso_lines --workers N`, as a Rust programmer writes it over std: the words are the number of threads and how
//! many maps the texts are shared out among by their hash, each behind a lock of its own.
use std::collections::hash_map::RandomState;
use std::collections::HashMap;
use std::hash::{BuildHasher, Hash, Hasher};
use std::io::{self, BufWriter, Read, Write};
use std::sync::Mutex;
use std::thread;

/// Maps from a text to its number among those of its map.
struct Texts {
    hasher: RandomState,
    maps: Vec<Mutex<HashMap<Box<str>, u32>>>,
}

impl Texts {
    fn new(maps: usize) -> Self {
        Texts { hasher: RandomState::new(), maps: (0..maps).map(|_| Mutex::new(HashMap::new())).collect() }
    }

    // The map that a text belongs to.
    fn map_of(&self, text: &str) -> &Mutex<HashMap<Box<str>, u32>> {
        if let [one] = self.maps.as_slice() {
            return one;
        }
        let mut hasher = self.hasher.build_hasher();
        text.hash(&mut hasher);
        &self.maps[hasher.finish() as usize % self.maps.len()]
    }

    fn intern(&self, text: &str) -> u32 {
        let mut map = self.map_of(text).lock().unwrap();
        if let Some(number) = map.get(text) {
            return *number;
        }
        let number = map.len() as u32;
        map.insert(text.into(), number);
        number
    }
}

// The first eight bytes as a number, the first one highest, with zeros behind a shorter text.
fn front_of(text: &str) -> u64 {
    let mut front = [0u8; 8];
    let length = text.len().min(8);
    front[..length].copy_from_slice(&text.as_bytes()[..length]);
    u64::from_be_bytes(front)
}

// Sorts the texts: each thread a part of them, and then the parts are merged.
fn sort(texts: &mut [(u64, &str)], threads: usize) {
    let size = ((texts.len() + threads - 1) / threads).max(1);
    thread::scope(|scope| {
        for part in texts.chunks_mut(size) {
            scope.spawn(move || part.sort_unstable());
        }
    });
    if threads > 1 {
        texts.sort();
    }
}

fn number(word: Option<String>) -> io::Result<usize> {
    match word.and_then(|word| word.parse().ok()) {
        Some(number) if number > 0 => Ok(number),
        _ => Err(io::Error::new(io::ErrorKind::Other, "usage: workers THREADS MAPS")),
    }
}

fn main() -> io::Result<()> {
    let mut words = std::env::args().skip(1);
    let threads = number(words.next())?;
    let texts = Texts::new(number(words.next())?);
    let mut input = String::new();
    io::stdin().lock().read_to_string(&mut input)?;
    let lines: Vec<&str> = input.split_terminator('\n').collect();
    thread::scope(|scope| {
        for worker in 0..threads {
            let (texts, lines) = (&texts, &lines);
            scope.spawn(move || {
                for line in lines.iter().skip(worker).step_by(threads) {
                    texts.intern(line);
                }
            });
        }
    });
    drop(lines);
    drop(input);
    let maps: Vec<_> = texts.maps.into_iter().map(|map| map.into_inner().unwrap()).collect();
    let mut distinct: Vec<(u64, &str)> =
        maps.iter().flat_map(|map| map.keys()).map(|text| (front_of(text), text.as_ref())).collect();
    sort(&mut distinct, threads);
    let mut writer = BufWriter::with_capacity(1 << 16, io::stdout().lock());
    for (_, text) in distinct {
        writer.write_all(text.as_bytes())?;
        writer.write_all(b"\n")?;
    }
    writer.flush()
}
