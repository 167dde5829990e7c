//! An interner that interns no more.

use crate::foreign::SharedHandle;
use crate::rodeo::key_of;
use crate::{Key, RodeoResolver, Spur};
use std::collections::hash_map::RandomState;
use std::hash::BuildHasher;
use std::marker::PhantomData;

/// The texts and keys of a [`Rodeo`](crate::Rodeo) or a [`ThreadedRodeo`](crate::ThreadedRodeo),
/// which change no more. It finds the keys of texts and the texts of keys.
///
/// Threads may share it. The text of a key is found without a lock; the key of a text takes a lock,
/// so threads that look for keys wait for each other: those of a `ThreadedRodeo`'s reader if they
/// are more than 32.
///
/// ```rust
/// use lasso_proved::Rodeo;
/// use std::thread;
///
/// let mut rodeo = Rodeo::default();
/// let key = rodeo.get_or_intern("red");
/// let reader = rodeo.into_reader();
/// thread::scope(|scope| {
///     scope.spawn(|| assert_eq!(reader.get("red"), Some(key)));
///     scope.spawn(|| assert_eq!(reader.resolve(&key), "red"));
/// });
/// ```
pub struct RodeoReader<K = Spur, S = RandomState> {
    pub(crate) handle: SharedHandle,
    hasher: S,
    key: PhantomData<K>,
}

impl<K, S> RodeoReader<K, S> {
    pub(crate) fn new(handle: SharedHandle, hasher: S) -> Self {
        Self {
            handle,
            hasher,
            key: PhantomData,
        }
    }

    /// The key of a text, or `None` if the text is absent. It takes a lock.
    pub fn get<T>(&self, val: T) -> Option<K>
    where
        T: AsRef<str>,
        S: BuildHasher,
        K: Key,
    {
        self.handle.get(val.as_ref()).map(key_of)
    }

    /// Whether the text is present. It takes a lock.
    pub fn contains<T>(&self, val: T) -> bool
    where
        T: AsRef<str>,
        S: BuildHasher,
        K: Key,
    {
        self.handle.get(val.as_ref()).is_some()
    }

    /// The hasher that the interner kept, and did not use.
    pub fn hasher(&self) -> &S {
        &self.hasher
    }

    /// Makes it what only resolves keys, as the interner's own `into_resolver` does: it copies the texts
    /// of a [`Rodeo`](crate::Rodeo), and those of a [`ThreadedRodeo`](crate::ThreadedRodeo) stay where
    /// they are.
    #[must_use]
    pub fn into_resolver(self) -> RodeoResolver<K> {
        if self.handle.is_of_many() {
            return RodeoResolver::with_handle(self.handle);
        }
        RodeoResolver::with_texts(self.strings())
    }
}
