//! Hashers for lasso: its default one, those of `fxhash` and `ahash`, and one that folds products.
#[path = "../fold.rs"]
mod fold;

use std::hash::{BuildHasher, BuildHasherDefault, Hasher};

/// The default hasher of lasso, which is that of std.
pub type Default = std::collections::hash_map::RandomState;

/// The hasher of `fxhash`.
pub type Fx = BuildHasherDefault<fxhash::FxHasher>;

/// The hasher of `ahash`, with keys that are the same in each run.
#[derive(Clone)]
pub struct A;

impl BuildHasher for A {
    type Hasher = ahash::AHasher;

    #[inline]
    fn build_hasher(&self) -> ahash::AHasher {
        ahash::AHasher::new_with_keys(0x243f_6a88_85a3_08d3, 0x1319_8a2e_0370_7344)
    }
}

impl std::default::Default for A {
    fn default() -> Self {
        A
    }
}

/// A hasher that folds products. It takes the bytes of one text, and not the mark that std writes after them.
#[derive(std::default::Default)]
pub struct FoldHasher(u64);

impl Hasher for FoldHasher {
    #[inline]
    fn write(&mut self, text: &[u8]) {
        self.0 = fold::hash(text);
    }

    #[inline]
    fn write_u8(&mut self, _: u8) {}

    // The keys of lasso's second map, which `ThreadedRodeo` has.
    #[inline]
    fn write_u32(&mut self, key: u32) {
        self.0 = fold::hash(&key.to_le_bytes());
    }

    #[inline]
    fn finish(&self) -> u64 {
        self.0
    }
}

/// Makes hashers that fold products.
pub type Fold = BuildHasherDefault<FoldHasher>;
