//! What the two forms of an interner that interns no more have by their texts.

use crate::iter::TextList;
use crate::rodeo::text_of;
use crate::{Iter, Key, RodeoReader, RodeoResolver, Strings};
use std::fmt;
use std::ops::Index;

// A type, and the field in which it has its texts.
macro_rules! resolve_keys {
    ($($name:ident<K $(, $other:ident)*>: $texts:ident;)+) => {
        $(
            impl<K $(, $other)*> $name<K $(, $other)*> {
                /// Whether there is a text of this key.
                pub fn contains_key(&self, key: &K) -> bool
                where
                    K: Key,
                {
                    key.into_usize() < self.len()
                }

                /// The text of a key.
                ///
                /// # Panics
                ///
                /// If there is no text of this key.
                #[track_caller]
                pub fn resolve<'a>(&'a self, key: &K) -> &'a str
                where
                    K: Key,
                {
                    text_of(&self.$texts, key)
                }

                /// The text of a key, or `None` if there is no text of this key.
                pub fn try_resolve<'a>(&'a self, key: &K) -> Option<&'a str>
                where
                    K: Key,
                {
                    self.$texts.text(key.into_usize())
                }

                /// The text of a key: the same call as [`resolve`](Self::resolve), with its test and its
                /// panic.
                ///
                /// # Safety
                ///
                /// There is a text of this key.
                pub unsafe fn resolve_unchecked<'a>(&'a self, key: &K) -> &'a str
                where
                    K: Key,
                {
                    self.resolve(key)
                }

                /// How many texts there are.
                pub fn len(&self) -> usize {
                    self.$texts.len()
                }

                /// Whether there are no texts.
                pub fn is_empty(&self) -> bool {
                    self.len() == 0
                }

                /// The keys and texts, in the order in which the texts were interned.
                pub fn iter(&self) -> Iter<'_, K> {
                    Iter::new(&self.$texts)
                }

                /// The texts, in the order in which they were interned.
                pub fn strings(&self) -> Strings<'_, K> {
                    Strings::new(&self.$texts)
                }
            }

            /// Shows the texts.
            impl<K $(, $other)*> fmt::Debug for $name<K $(, $other)*> {
                fn fmt(&self, f: &mut fmt::Formatter<'_>) -> fmt::Result {
                    f.debug_struct(stringify!($name))
                        .field("strings", &self.strings())
                        .finish()
                }
            }

            /// The keys and texts, in the order in which the texts were interned.
            impl<'a, K: Key $(, $other)*> IntoIterator for &'a $name<K $(, $other)*> {
                type Item = (K, &'a str);
                type IntoIter = Iter<'a, K>;

                fn into_iter(self) -> Self::IntoIter {
                    self.iter()
                }
            }

            /// The text of a key.
            ///
            /// # Panics
            ///
            /// If there is no text of this key.
            impl<K: Key $(, $other)*> Index<K> for $name<K $(, $other)*> {
                type Output = str;

                fn index(&self, idx: K) -> &str {
                    self.resolve(&idx)
                }
            }
        )+
    };
}

resolve_keys! {
    RodeoReader<K, S>: handle;
    RodeoResolver<K>: texts;
}
