//! An interner as a collection of texts, clones of an interner, and copies of one over another.

use super::Rodeo;
use crate::error::or_panic;
use crate::{Capacity, Iter, Key, LassoResult};
use std::hash::BuildHasher;
use std::marker::PhantomData;
use std::ops::Index;

/// Interns each item, in their order.
///
/// # Panics
///
/// If a text is refused.
///
/// ```rust
/// let rodeo: lasso_proved::Rodeo = ["red", "green", "red"].into_iter().collect();
/// assert_eq!(rodeo.len(), 2);
/// ```
impl<Str: AsRef<str>, K: Key, S: BuildHasher + Default> FromIterator<Str> for Rodeo<K, S> {
    fn from_iter<T: IntoIterator<Item = Str>>(iter: T) -> Self {
        let texts = iter.into_iter();
        let capacity = Capacity::for_items(texts.size_hint().0);
        let mut rodeo = Self::with_capacity_and_hasher(capacity, S::default());
        rodeo.extend(texts);
        rodeo
    }
}

/// Interns each item, in their order.
///
/// # Panics
///
/// If a text is refused. The items before it stay.
impl<K: Key, S: BuildHasher, T: AsRef<str>> Extend<T> for Rodeo<K, S> {
    fn extend<I: IntoIterator<Item = T>>(&mut self, iter: I) {
        for text in iter {
            self.get_or_intern(text);
        }
    }
}

/// The text of a key.
///
/// # Panics
///
/// If the interner has no text of this key.
impl<K: Key, S: BuildHasher> Index<K> for Rodeo<K, S> {
    type Output = str;

    fn index(&self, idx: K) -> &str {
        self.resolve(&idx)
    }
}

/// The keys and texts, in the order in which the texts were interned.
impl<'a, K: Key, S> IntoIterator for &'a Rodeo<K, S> {
    type Item = (K, &'a str);
    type IntoIter = Iter<'a, K>;

    fn into_iter(self) -> Self::IntoIter {
        self.iter()
    }
}

impl<K: Key, S: BuildHasher + Clone> Rodeo<K, S> {
    /// Another interner with the same texts under the same keys. Its limit is this one's, or the
    /// bytes of the texts if they are more.
    ///
    /// # Errors
    ///
    /// `FailedAllocation`, out of memory.
    ///
    /// ```rust
    /// use lasso_proved::Rodeo;
    ///
    /// let mut rodeo = Rodeo::default();
    /// let key = rodeo.get_or_intern("red");
    /// let copy = rodeo.try_clone().unwrap();
    /// drop(rodeo);
    /// assert_eq!(copy.resolve(&key), "red");
    /// ```
    pub fn try_clone(&self) -> LassoResult<Self> {
        Ok(Self {
            handle: self.handle.try_clone()?,
            hasher: self.hasher.clone(),
            key: PhantomData,
        })
    }

    /// Forgets all texts, as [`clear`](Self::clear) does, and copies those of `source` here, under
    /// the same keys. The limit stays this interner's own, and its buckets are filled again.
    ///
    /// # Errors
    ///
    /// If the limit has no room for a text, or memory is out. There is no text then.
    ///
    /// ```rust
    /// use lasso_proved::Rodeo;
    ///
    /// let source: Rodeo = ["red", "green"].into_iter().collect();
    /// let mut rodeo: Rodeo = ["blue"].into_iter().collect();
    /// rodeo.try_clone_from(&source).unwrap();
    /// assert_eq!(rodeo, source);
    /// ```
    pub fn try_clone_from(&mut self, source: &Self) -> LassoResult<()> {
        let hasher = source.hasher.clone();
        self.clear();
        self.hasher = hasher;
        for text in source.strings() {
            if let Err(error) = self.handle.intern(text) {
                self.clear();
                return Err(error);
            }
        }
        Ok(())
    }
}

impl<K: Key, S: BuildHasher + Clone> Clone for Rodeo<K, S> {
    /// # Panics
    ///
    /// Out of memory.
    fn clone(&self) -> Self {
        or_panic(self.try_clone())
    }

    /// # Panics
    ///
    /// If this interner's limit has no room for a text, or memory is out.
    fn clone_from(&mut self, source: &Self) {
        or_panic(self.try_clone_from(source))
    }
}
