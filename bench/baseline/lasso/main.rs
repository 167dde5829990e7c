//! lasso 0.7.3 with each hasher. The first word says what is done: `calls` prints how long single calls take in one round, over the texts
//! of `tool_bench sizes`, and `few` over those of `bench/baseline/proved`; `lines` does the job of `lasso_lines` without options; `round` and `fill` call the interner that threads
//! share, over the lines of standard input, as `bench/baseline/interners` calls others. The second says which hasher: `default`, `fx`,
//! `ahash` or `fold`.
mod hashers;
#[path = "../opaque.rs"]
mod opaque;
#[path = "../report.rs"]
mod report;
#[path = "../rounds.rs"]
mod rounds;
#[path = "../interners/rounds.rs"]
mod shared_rounds;

use hashers::{Fold, Fx, A};
use lasso::{Key, Rodeo, Spur, ThreadedRodeo};
use report::Numbers;
use rounds::{round_of_sizes, Texts, ALL_SIZES, SIZES};
use shared_rounds::Interner;
use std::hash::BuildHasher;
use std::io;

impl<S: BuildHasher + Default> Texts for Rodeo<Spur, S> {
    type Key = Spur;

    fn new() -> Self {
        Rodeo::with_hasher(S::default())
    }

    #[inline]
    fn intern(&mut self, text: &str) -> Spur {
        self.get_or_intern(text)
    }

    #[inline]
    fn get(&self, text: &str) -> Option<Spur> {
        Rodeo::get(self, text)
    }

    #[inline]
    fn last_byte(&self, key: Spur) -> Option<u8> {
        self.try_resolve(&key)?.as_bytes().last().copied()
    }

    #[inline]
    fn position(key: Spur) -> usize {
        key.into_usize()
    }
}

impl<S: BuildHasher + Default> Numbers for Rodeo<Spur, S> {
    fn new() -> Self {
        Rodeo::with_hasher(S::default())
    }

    #[inline]
    fn intern(&mut self, text: &str) -> usize {
        self.get_or_intern(text).into_usize()
    }

    fn len(&self) -> usize {
        self.len()
    }

    fn bytes(&self) -> usize {
        self.current_memory_usage()
    }
}

impl<S: BuildHasher + Clone + Default + Send + Sync> Interner for ThreadedRodeo<Spur, S> {
    type Key = Spur;

    fn new() -> Self {
        ThreadedRodeo::with_hasher(S::default())
    }

    #[inline]
    fn intern(&self, text: &str) -> Spur {
        self.get_or_intern(text)
    }

    #[inline]
    fn with_text<T>(&self, key: Spur, look: impl FnOnce(&str) -> T) -> Option<T> {
        self.try_resolve(&key).map(look)
    }

    fn count(&self) -> usize {
        self.len()
    }

    #[inline]
    fn position(key: Spur) -> usize {
        key.into_usize()
    }
}

fn run<S: BuildHasher + Clone + Default + Send + Sync>(what: &str) -> io::Result<()> {
    match what {
        "calls" => {
            round_of_sizes::<Rodeo<Spur, S>>(&ALL_SIZES);
            Ok(())
        }
        "few" => {
            round_of_sizes::<Rodeo<Spur, S>>(&SIZES);
            Ok(())
        }
        "lines" => report::run::<Rodeo<Spur, S>>(),
        _ => shared_rounds::run::<ThreadedRodeo<Spur, S>>(what),
    }
}

fn main() -> io::Result<()> {
    let words: Vec<String> = std::env::args().skip(1).collect();
    match words.iter().map(String::as_str).collect::<Vec<_>>().as_slice() {
        [what, "default"] => run::<hashers::Default>(what),
        [what, "fx"] => run::<Fx>(what),
        [what, "ahash"] => run::<A>(what),
        [what, "fold"] => run::<Fold>(what),
        _ => Err(io::Error::new(io::ErrorKind::Other, "usage: lasso calls|few|lines|round|fill default|fx|ahash|fold")),
    }
}
