//! The interfaces of interners, for code that serves any of them.

use crate::{Key, LassoResult, Rodeo, RodeoReader, RodeoResolver, Spur, ThreadedRodeo};
use std::hash::BuildHasher;

/// What resolves keys to texts.
///
/// ```rust
/// use lasso_proved::{Resolver, Rodeo, Spur};
///
/// fn joined(resolver: &impl Resolver<Spur>, keys: &[Spur]) -> String {
///     keys.iter().map(|key| resolver.resolve(key)).collect()
/// }
///
/// let mut rodeo = Rodeo::default();
/// let keys = ["a", "b", "a"].map(|text| rodeo.get_or_intern(text));
/// assert_eq!(joined(&rodeo, &keys), "aba");
/// assert_eq!(joined(&rodeo.into_resolver(), &keys), "aba");
/// ```
pub trait Resolver<K = Spur> {
    /// The text of a key.
    ///
    /// # Panics
    ///
    /// If there is no text of this key.
    fn resolve<'a>(&'a self, key: &K) -> &'a str;

    /// The text of a key, or `None` if there is no text of this key.
    fn try_resolve<'a>(&'a self, key: &K) -> Option<&'a str>;

    /// The text of a key, which need not be tested.
    ///
    /// # Safety
    ///
    /// There is a text of this key.
    unsafe fn resolve_unchecked<'a>(&'a self, key: &K) -> &'a str;

    /// Whether there is a text of this key.
    fn contains_key(&self, key: &K) -> bool;

    /// How many texts there are.
    fn len(&self) -> usize;

    /// Whether there are no texts.
    fn is_empty(&self) -> bool {
        self.len() == 0
    }
}

/// What finds the keys of texts too.
pub trait Reader<K = Spur>: Resolver<K> {
    /// The key of a text, or `None` if the text is absent.
    fn get(&self, val: &str) -> Option<K>;

    /// Whether the text is present.
    fn contains(&self, val: &str) -> bool;
}

/// What interns texts too.
pub trait Interner<K = Spur>: Reader<K> + Resolver<K> {
    /// The key of a text, which is interned first if it is absent.
    ///
    /// # Panics
    ///
    /// If an absent text is refused.
    fn get_or_intern(&mut self, val: &str) -> K;

    /// The key of a text, which is interned first if it is absent.
    ///
    /// # Errors
    ///
    /// If an absent text is refused.
    fn try_get_or_intern(&mut self, val: &str) -> LassoResult<K>;

    /// The key of a static text, which is interned first if it is absent.
    ///
    /// # Panics
    ///
    /// If an absent text is refused.
    fn get_or_intern_static(&mut self, val: &'static str) -> K;

    /// The key of a static text, which is interned first if it is absent.
    ///
    /// # Errors
    ///
    /// If an absent text is refused.
    fn try_get_or_intern_static(&mut self, val: &'static str) -> LassoResult<K>;
}

/// An interner that can be made a reader.
pub trait IntoReader<K = Spur>: Interner<K>
where
    K: Key,
{
    /// The reader that it becomes.
    type Reader: Reader<K>;

    /// Makes it a reader, with the same texts and keys.
    #[must_use]
    fn into_reader(self) -> Self::Reader
    where
        Self: 'static;

    /// The same for an interner in a box, of a type that need not be known.
    #[doc(hidden)]
    #[must_use]
    fn into_reader_boxed(self: Box<Self>) -> Self::Reader
    where
        Self: 'static;
}

/// A reader that can be made a resolver.
pub trait IntoResolver<K = Spur>: Reader<K>
where
    K: Key,
{
    /// The resolver that it becomes.
    type Resolver: Resolver<K>;

    /// Makes it a resolver, with the same texts and keys.
    #[must_use]
    fn into_resolver(self) -> Self::Resolver
    where
        Self: 'static;

    /// The same for a reader in a box, of a type that need not be known.
    #[doc(hidden)]
    #[must_use]
    fn into_resolver_boxed(self: Box<Self>) -> Self::Resolver
    where
        Self: 'static;
}

/// An interner that can be made a reader or a resolver.
///
/// ```rust
/// use lasso_proved::{IntoReaderAndResolver, Rodeo, RodeoReader, RodeoResolver, Spur};
///
/// type AnyInterner = dyn IntoReaderAndResolver<Spur, Reader = RodeoReader, Resolver = RodeoResolver>;
///
/// let mut interner: Box<AnyInterner> = Box::new(Rodeo::default());
/// let key = interner.get_or_intern("red");
/// let reader: RodeoReader = lasso_proved::IntoReader::into_reader(interner);
/// assert_eq!(reader.resolve(&key), "red");
/// ```
pub trait IntoReaderAndResolver<K = Spur>: IntoReader<K> + IntoResolver<K>
where
    K: Key,
{
}

// The interfaces of the four types, and of what is borrowed or boxed: each call is the type's own call of that
// name, or that of the interner behind.

macro_rules! resolves {
    ([$($parameter:ident),*] $name:ty) => {
        impl<K: Key $(, $parameter)*> Resolver<K> for $name {
            fn resolve<'a>(&'a self, key: &K) -> &'a str {
                self.resolve(key)
            }

            fn try_resolve<'a>(&'a self, key: &K) -> Option<&'a str> {
                self.try_resolve(key)
            }

            unsafe fn resolve_unchecked<'a>(&'a self, key: &K) -> &'a str {
                self.resolve(key)
            }

            fn contains_key(&self, key: &K) -> bool {
                self.contains_key(key)
            }

            fn len(&self) -> usize {
                self.len()
            }
        }
    };
}

resolves!([S] Rodeo<K, S>);
resolves!([S] ThreadedRodeo<K, S>);
resolves!([S] RodeoReader<K, S>);
resolves!([] RodeoResolver<K>);

macro_rules! reads {
    ($name:ident) => {
        impl<K: Key, S: BuildHasher> Reader<K> for $name<K, S> {
            fn get(&self, val: &str) -> Option<K> {
                self.get(val)
            }

            fn contains(&self, val: &str) -> bool {
                self.contains(val)
            }
        }

        impl<K: Key, S: BuildHasher> IntoResolver<K> for $name<K, S> {
            type Resolver = RodeoResolver<K>;

            fn into_resolver(self) -> Self::Resolver {
                self.into_resolver()
            }

            fn into_resolver_boxed(self: Box<Self>) -> Self::Resolver {
                (*self).into_resolver()
            }
        }
    };
}

reads!(Rodeo);
reads!(ThreadedRodeo);
reads!(RodeoReader);

macro_rules! interns {
    ($name:ty, $type:ident) => {
        impl<K: Key, S: BuildHasher> Interner<K> for $name {
            fn get_or_intern(&mut self, val: &str) -> K {
                $type::get_or_intern(self, val)
            }

            fn try_get_or_intern(&mut self, val: &str) -> LassoResult<K> {
                $type::try_get_or_intern(self, val)
            }

            fn get_or_intern_static(&mut self, val: &'static str) -> K {
                $type::get_or_intern_static(self, val)
            }

            fn try_get_or_intern_static(&mut self, val: &'static str) -> LassoResult<K> {
                $type::try_get_or_intern_static(self, val)
            }
        }
    };
}

interns!(Rodeo<K, S>, Rodeo);
interns!(ThreadedRodeo<K, S>, ThreadedRodeo);
interns!(&ThreadedRodeo<K, S>, ThreadedRodeo);

macro_rules! freezes {
    ($name:ident) => {
        impl<K: Key, S: BuildHasher> IntoReader<K> for $name<K, S> {
            type Reader = RodeoReader<K, S>;

            fn into_reader(self) -> Self::Reader {
                self.into_reader()
            }

            fn into_reader_boxed(self: Box<Self>) -> Self::Reader {
                (*self).into_reader()
            }
        }

        impl<K: Key, S: BuildHasher> IntoReaderAndResolver<K> for $name<K, S> {}
    };
}

freezes!(Rodeo);
freezes!(ThreadedRodeo);

// The calls of `Resolver`, of a type that dereferences to a resolver.
macro_rules! forward_resolver {
    () => {
        fn resolve<'a>(&'a self, key: &K) -> &'a str {
            (**self).resolve(key)
        }

        fn try_resolve<'a>(&'a self, key: &K) -> Option<&'a str> {
            (**self).try_resolve(key)
        }

        unsafe fn resolve_unchecked<'a>(&'a self, key: &K) -> &'a str {
            // SAFETY: the caller promises the same of this key.
            unsafe { (**self).resolve_unchecked(key) }
        }

        fn contains_key(&self, key: &K) -> bool {
            (**self).contains_key(key)
        }

        fn len(&self) -> usize {
            (**self).len()
        }

        fn is_empty(&self) -> bool {
            (**self).is_empty()
        }
    };
}

macro_rules! forward_reader {
    () => {
        fn get(&self, val: &str) -> Option<K> {
            (**self).get(val)
        }

        fn contains(&self, val: &str) -> bool {
            (**self).contains(val)
        }
    };
}

macro_rules! forward_interner {
    () => {
        fn get_or_intern(&mut self, val: &str) -> K {
            (**self).get_or_intern(val)
        }

        fn try_get_or_intern(&mut self, val: &str) -> LassoResult<K> {
            (**self).try_get_or_intern(val)
        }

        fn get_or_intern_static(&mut self, val: &'static str) -> K {
            (**self).get_or_intern_static(val)
        }

        fn try_get_or_intern_static(&mut self, val: &'static str) -> LassoResult<K> {
            (**self).try_get_or_intern_static(val)
        }
    };
}

impl<T: Resolver<K>, K> Resolver<K> for &T {
    forward_resolver!();
}

impl<T: Resolver<K>, K> Resolver<K> for &mut T {
    forward_resolver!();
}

impl<K: Key, I: Resolver<K> + ?Sized + 'static> Resolver<K> for Box<I> {
    forward_resolver!();
}

impl<T: Reader<K>, K> Reader<K> for &T {
    forward_reader!();
}

impl<T: Reader<K>, K> Reader<K> for &mut T {
    forward_reader!();
}

impl<K: Key, I: Reader<K> + ?Sized + 'static> Reader<K> for Box<I> {
    forward_reader!();
}

impl<T: Interner<K>, K> Interner<K> for &mut T {
    forward_interner!();
}

impl<K: Key, I: Interner<K> + ?Sized + 'static> Interner<K> for Box<I> {
    forward_interner!();
}

impl<K: Key, I: IntoReader<K> + ?Sized + 'static> IntoReader<K> for Box<I> {
    type Reader = I::Reader;

    fn into_reader(self) -> Self::Reader {
        I::into_reader_boxed(self)
    }

    fn into_reader_boxed(self: Box<Self>) -> Self::Reader {
        I::into_reader_boxed(*self)
    }
}

impl<K: Key, I: IntoResolver<K> + ?Sized + 'static> IntoResolver<K> for Box<I> {
    type Resolver = I::Resolver;

    fn into_resolver(self) -> Self::Resolver {
        I::into_resolver_boxed(self)
    }

    fn into_resolver_boxed(self: Box<Self>) -> Self::Resolver {
        I::into_resolver_boxed(*self)
    }
}
