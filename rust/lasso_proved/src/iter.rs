//! Walks over the texts of an interner, and interners that have equal texts.

use crate::{Key, Rodeo, RodeoReader, RodeoResolver, ThreadedRodeo};
use std::fmt;
use std::iter::FusedIterator;
use std::marker::PhantomData;
use std::ops::Range;

/// A list of texts that walks read.
pub(crate) trait TextList {
    /// How many texts there are.
    fn len(&self) -> usize;

    /// The text at a position, or `None` past the last one.
    fn text(&self, position: usize) -> Option<&str>;
}

/// A walk over the texts of an interner, in the order in which they were interned.
///
/// ```rust
/// let rodeo: lasso_proved::Rodeo = ["red", "green", "blue"].into_iter().collect();
/// let mut strings = rodeo.strings();
/// assert_eq!(strings.next(), Some("red"));
/// assert_eq!(strings.next_back(), Some("blue"));
/// assert_eq!(strings.len(), 1);
/// ```
#[must_use = "a walk does nothing until its items are asked for"]
pub struct Strings<'a, K> {
    texts: &'a dyn TextList,
    left: Range<usize>,
    key: PhantomData<K>,
}

impl<'a, K> Strings<'a, K> {
    pub(crate) fn new(texts: &'a dyn TextList) -> Self {
        Self {
            texts,
            left: 0..texts.len(),
            key: PhantomData,
        }
    }

    fn text(&self, position: usize) -> &'a str {
        self.texts
            .text(position)
            .expect("the list has a text at each position below its length")
    }
}

impl<K> Clone for Strings<'_, K> {
    fn clone(&self) -> Self {
        Self {
            left: self.left.clone(),
            ..*self
        }
    }
}

/// Shows the texts that are left.
impl<K> fmt::Debug for Strings<'_, K> {
    fn fmt(&self, f: &mut fmt::Formatter<'_>) -> fmt::Result {
        f.debug_list().entries(self.clone()).finish()
    }
}

impl<'a, K> Iterator for Strings<'a, K> {
    type Item = &'a str;

    fn next(&mut self) -> Option<Self::Item> {
        self.left.next().map(|position| self.text(position))
    }

    fn size_hint(&self) -> (usize, Option<usize>) {
        self.left.size_hint()
    }

    fn nth(&mut self, n: usize) -> Option<Self::Item> {
        self.left.nth(n).map(|position| self.text(position))
    }
}

impl<K> DoubleEndedIterator for Strings<'_, K> {
    fn next_back(&mut self) -> Option<Self::Item> {
        self.left.next_back().map(|position| self.text(position))
    }

    fn nth_back(&mut self, n: usize) -> Option<Self::Item> {
        self.left.nth_back(n).map(|position| self.text(position))
    }
}

impl<K> ExactSizeIterator for Strings<'_, K> {}

impl<K> FusedIterator for Strings<'_, K> {}

/// A walk over the keys and texts of an interner, in the order in which the texts were interned.
///
/// ```rust
/// use lasso_proved::Rodeo;
///
/// let mut rodeo = Rodeo::default();
/// let red = rodeo.get_or_intern("red");
/// let blue = rodeo.get_or_intern("blue");
/// assert_eq!(rodeo.iter().collect::<Vec<_>>(), [(red, "red"), (blue, "blue")]);
/// ```
#[must_use = "a walk does nothing until its items are asked for"]
pub struct Iter<'a, K> {
    strings: Strings<'a, K>,
}

impl<'a, K> Iter<'a, K> {
    pub(crate) fn new(texts: &'a dyn TextList) -> Self {
        Self {
            strings: Strings::new(texts),
        }
    }
}

impl<'a, K: Key> Iter<'a, K> {
    /// # Panics
    ///
    /// If the key type has no key for the position. Only a `RodeoResolver` that was deserialized
    /// can have such texts.
    fn entry(&self, position: usize) -> (K, &'a str) {
        let key = K::try_from_usize(position).expect("the key type has no key for this text");
        (key, self.strings.text(position))
    }
}

impl<K> Clone for Iter<'_, K> {
    fn clone(&self) -> Self {
        Self {
            strings: self.strings.clone(),
        }
    }
}

/// Shows the texts that are left.
impl<K> fmt::Debug for Iter<'_, K> {
    fn fmt(&self, f: &mut fmt::Formatter<'_>) -> fmt::Result {
        fmt::Debug::fmt(&self.strings, f)
    }
}

impl<'a, K: Key> Iterator for Iter<'a, K> {
    type Item = (K, &'a str);

    fn next(&mut self) -> Option<Self::Item> {
        self.strings
            .left
            .next()
            .map(|position| self.entry(position))
    }

    fn size_hint(&self) -> (usize, Option<usize>) {
        self.strings.size_hint()
    }

    fn nth(&mut self, n: usize) -> Option<Self::Item> {
        self.strings
            .left
            .nth(n)
            .map(|position| self.entry(position))
    }
}

impl<K: Key> DoubleEndedIterator for Iter<'_, K> {
    fn next_back(&mut self) -> Option<Self::Item> {
        self.strings
            .left
            .next_back()
            .map(|position| self.entry(position))
    }

    fn nth_back(&mut self, n: usize) -> Option<Self::Item> {
        self.strings
            .left
            .nth_back(n)
            .map(|position| self.entry(position))
    }
}

impl<K: Key> ExactSizeIterator for Iter<'_, K> {}

impl<K: Key> FusedIterator for Iter<'_, K> {}

// Two interners of any of the four types are equal if they have the same texts under the same keys.

fn same_texts(left: &dyn TextList, right: &dyn TextList) -> bool {
    left.len() == right.len() && (0..left.len()).all(|it| left.text(it) == right.text(it))
}

// `==` between two types, and the field in which each has its texts.
macro_rules! equal {
    ($([$($parameter:ident),+] $left:ty: $its:ident == $right:ty: $others:ident;)+) => {
        $(
            impl<$($parameter),+> PartialEq<$right> for $left {
                fn eq(&self, other: &$right) -> bool {
                    same_texts(&self.$its, &other.$others)
                }
            }
        )+
    };
}

equal! {
    [K, S] Rodeo<K, S>: handle == Rodeo<K, S>: handle;
    [K, S] Rodeo<K, S>: handle == RodeoReader<K, S>: handle;
    [K, S] Rodeo<K, S>: handle == RodeoResolver<K>: texts;
    [K, S] RodeoReader<K, S>: handle == RodeoReader<K, S>: handle;
    [K, S] RodeoReader<K, S>: handle == Rodeo<K, S>: handle;
    [K, S] RodeoReader<K, S>: handle == RodeoResolver<K>: texts;
    [K] RodeoResolver<K>: texts == RodeoResolver<K>: texts;
    [K, S] RodeoResolver<K>: texts == Rodeo<K, S>: handle;
    [K, S] RodeoResolver<K>: texts == RodeoReader<K, S>: handle;
    [K, S] ThreadedRodeo<K, S>: users == ThreadedRodeo<K, S>: users;
    [K, S] ThreadedRodeo<K, S>: users == Rodeo<K, S>: handle;
    [K, S] ThreadedRodeo<K, S>: users == RodeoReader<K, S>: handle;
    [K, S] ThreadedRodeo<K, S>: users == RodeoResolver<K>: texts;
    [K, S] Rodeo<K, S>: handle == ThreadedRodeo<K, S>: users;
    [K, S] RodeoReader<K, S>: handle == ThreadedRodeo<K, S>: users;
    [K, S] RodeoResolver<K>: texts == ThreadedRodeo<K, S>: users;
}

impl<K, S> Eq for Rodeo<K, S> {}

impl<K, S> Eq for RodeoReader<K, S> {}

impl<K> Eq for RodeoResolver<K> {}

impl<K, S> Eq for ThreadedRodeo<K, S> {}
