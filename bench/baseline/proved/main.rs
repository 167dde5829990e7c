//! How long single calls of `lasso_proved` take in one round, over texts of given sizes. With the word `round`, those
//! of the `ThreadedRodeo` of `lasso_proved` over the lines of standard input, as `bench/baseline/interners` has others.
#[path = "../opaque.rs"]
mod opaque;
#[path = "../rounds.rs"]
mod rounds;
#[path = "../interners/rounds.rs"]
mod shared_rounds;

use interner::{Key, Rodeo, Spur};
use rounds::{round_of_sizes, Texts, SIZES};
use std::io;

impl Texts for Rodeo {
    type Key = Spur;

    fn new() -> Self {
        Rodeo::new()
    }

    #[inline]
    fn intern(&mut self, text: &str) -> Spur {
        self.get_or_intern(text)
    }

    #[inline]
    fn get(&self, text: &str) -> Option<Spur> {
        Rodeo::get(self, text)
    }

    #[inline]
    fn last_byte(&self, key: Spur) -> Option<u8> {
        self.try_resolve(&key)?.as_bytes().last().copied()
    }

    #[inline]
    fn position(key: Spur) -> usize {
        key.into_usize()
    }
}

impl shared_rounds::Interner for interner::ThreadedRodeo {
    type Key = Spur;

    fn new() -> Self {
        interner::ThreadedRodeo::new()
    }

    #[inline]
    fn intern(&self, text: &str) -> Spur {
        self.get_or_intern(text)
    }

    #[inline]
    fn with_text<T>(&self, key: Spur, look: impl FnOnce(&str) -> T) -> Option<T> {
        self.try_resolve(&key).map(look)
    }

    fn count(&self) -> usize {
        self.len()
    }

    #[inline]
    fn position(key: Spur) -> usize {
        key.into_usize()
    }
}

fn main() -> io::Result<()> {
    match std::env::args().nth(1).as_deref() {
                Some("round") => shared_rounds::run::<interner::ThreadedRodeo>("round"),
        None => {
            round_of_sizes::<Rodeo>(&SIZES);
            Ok(())
        }
        _ => Err(io::Error::new(io::ErrorKind::Other, "usage: proved [round]")),
    }
}
