//! Counts the words of files, a thread a file: all threads intern into one interner, and count by its small keys.
//!
//! `threads FILE..` prints how many different words there are, and the ten most frequent ones. In a program of your own, name the
//! crate in Cargo.toml, as `lasso = { package = "lasso_proved", path = ".." }`.

use lasso_proved::{Spur, ThreadedRodeo};
use std::collections::HashMap;
use std::{env, fs, io, thread};

type Counts = HashMap<Spur, u64>;

/// How often each word comes in a file. The words are in the interner once, whichever thread met them first.
fn count(rodeo: &ThreadedRodeo, path: &str) -> io::Result<Counts> {
    let mut counts = Counts::new();
    for word in fs::read_to_string(path)?.split_whitespace() {
        *counts.entry(rodeo.get_or_intern(word)).or_default() += 1;
    }
    Ok(counts)
}

fn main() -> io::Result<()> {
    let paths: Vec<String> = env::args().skip(1).collect();
    let rodeo = ThreadedRodeo::default();
    // The threads share the interner by reference, and end before it goes.
    let parts: Vec<io::Result<Counts>> = thread::scope(|scope| {
        let rodeo = &rodeo;
        let threads: Vec<_> = paths.iter().map(|path| scope.spawn(move || count(rodeo, path))).collect();
        threads.into_iter().map(|thread| thread.join().expect("a thread panicked")).collect()
    });

    // A word has the same key in all threads, so the counts add up by keys alone.
    let mut sums = Counts::new();
    for part in parts {
        for (key, times) in part? {
            *sums.entry(key).or_default() += times;
        }
    }

    // Keys were given in the order in which threads came: sort by text what is to be the same in each run.
    let mut words: Vec<(&str, u64)> = sums.into_iter().map(|(key, times)| (rodeo.resolve(&key), times)).collect();
    words.sort_unstable_by_key(|(word, times)| (std::cmp::Reverse(*times), *word));
    println!("{} different words", rodeo.len());
    for (word, times) in words.iter().take(10) {
        println!("{times} {word}");
    }
    Ok(())
}
