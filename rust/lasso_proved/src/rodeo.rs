//! The interner.

mod collections;

use crate::error::or_panic;
use crate::foreign::{Handle, Seed, SharedHandle};
use crate::iter::TextList;
use crate::{
    Capacity, Iter, Key, LassoError, LassoErrorKind, LassoResult, MemoryLimits, RodeoReader,
    RodeoResolver, Spur, Strings,
};
use std::collections::hash_map::RandomState;
use std::fmt;
use std::hash::BuildHasher;
use std::marker::PhantomData;

/// An interner: each distinct text once, and a small key for each.
///
/// `K` is the type of its keys. The hasher `S` is kept, and not used: the library hashes texts on
/// its own, with a random seed for each interner, or that of [`with_seed`](Self::with_seed). A clone
/// has the seed of its source.
///
/// One thread at a time uses it. It may move to another thread, and is not `Sync`: a
/// [`RodeoReader`] is.
///
/// ```rust
/// use lasso_proved::Rodeo;
///
/// let mut rodeo = Rodeo::default();
/// let key = rodeo.get_or_intern("Hello, world!");
/// assert_eq!(rodeo.get_or_intern("Hello, world!"), key);
/// assert_eq!(rodeo.resolve(&key), "Hello, world!");
/// ```
///
/// ```compile_fail,E0277
/// fn share<T: Sync>(_: T) {}
/// share(lasso_proved::Rodeo::default());
/// ```
///
/// A text is not copied when it is resolved. It is borrowed from the interner, which can't change
/// meanwhile:
///
/// ```compile_fail,E0502
/// let mut rodeo = lasso_proved::Rodeo::default();
/// let key = rodeo.get_or_intern("red");
/// let red = rodeo.resolve(&key);
/// rodeo.clear();
/// assert_eq!(red, "red");
/// ```
pub struct Rodeo<K = Spur, S = RandomState> {
    pub(crate) handle: Handle,
    hasher: S,
    key: PhantomData<K>,
}

impl<K: Key> Rodeo<K, RandomState> {
    /// An interner without texts, of the default capacity and without a limit.
    ///
    /// # Panics
    ///
    /// Each maker panics out of memory.
    ///
    /// ```rust
    /// use lasso_proved::{MiniSpur, Rodeo};
    ///
    /// let mut rodeo: Rodeo<MiniSpur> = Rodeo::new();
    /// let key = rodeo.get_or_intern("red");
    /// assert_eq!(rodeo.resolve(&key), "red");
    /// ```
    pub fn new() -> Self {
        Self::with_capacity(Capacity::default())
    }

    /// An interner without texts, of this capacity and without a limit.
    ///
    /// ```rust
    /// use lasso_proved::{Capacity, Rodeo};
    ///
    /// let rodeo: Rodeo = Rodeo::with_capacity(Capacity::for_strings(10));
    /// assert!(rodeo.capacity() >= 10);
    /// ```
    pub fn with_capacity(capacity: Capacity) -> Self {
        Self::with_capacity_and_memory_limits(capacity, MemoryLimits::default())
    }

    /// An interner without texts, of the default capacity and with this limit.
    ///
    /// ```rust
    /// use lasso_proved::{MemoryLimits, Rodeo};
    ///
    /// let rodeo: Rodeo = Rodeo::with_memory_limits(MemoryLimits::for_memory_usage(10_000));
    /// assert_eq!(rodeo.max_memory_usage(), 10_000);
    /// ```
    pub fn with_memory_limits(memory_limits: MemoryLimits) -> Self {
        Self::with_capacity_and_memory_limits(Capacity::default(), memory_limits)
    }

    /// An interner without texts, of this capacity and with this limit. The first bucket is made
    /// whatever the limit.
    ///
    /// ```rust
    /// use lasso_proved::{Capacity, MemoryLimits, Rodeo};
    /// use std::num::NonZeroUsize;
    ///
    /// let ten = NonZeroUsize::new(10).unwrap();
    /// let mut rodeo: Rodeo = Rodeo::with_capacity_and_memory_limits(
    ///     Capacity::for_bytes(ten),
    ///     MemoryLimits::for_memory_usage(10),
    /// );
    /// rodeo.get_or_intern("0123456789");
    /// assert!(rodeo.try_get_or_intern("x").unwrap_err().kind().is_memory_limit());
    /// ```
    pub fn with_capacity_and_memory_limits(
        capacity: Capacity,
        memory_limits: MemoryLimits,
    ) -> Self {
        Self::with_capacity_memory_limits_and_hasher(capacity, memory_limits, RandomState::new())
    }

    /// An interner without texts, of the default capacity and without a limit, whose table hashes by
    /// this seed, so that each run takes the same steps. Whoever knows the seed can choose texts that
    /// collide. Keys don't depend on it.
    ///
    /// ```rust
    /// use lasso_proved::{Key, Rodeo};
    ///
    /// let mut rodeo: Rodeo = Rodeo::with_seed(7, 9);
    /// assert_eq!(rodeo.get_or_intern("red").into_usize(), 0);
    /// ```
    pub fn with_seed(seed0: u64, seed1: u64) -> Self {
        or_panic(Self::try_seeded(
            Capacity::default(),
            MemoryLimits::default(),
            RandomState::new(),
            Seed(seed0, seed1),
        ))
    }
}

impl<K: Key, S: BuildHasher> Rodeo<K, S> {
    /// An interner without texts, of the default capacity and without a limit, that keeps this
    /// hasher.
    ///
    /// ```rust
    /// use lasso_proved::{Rodeo, Spur};
    /// use std::collections::hash_map::RandomState;
    ///
    /// let rodeo: Rodeo<Spur, RandomState> = Rodeo::with_hasher(RandomState::new());
    /// assert!(rodeo.is_empty());
    /// ```
    pub fn with_hasher(hash_builder: S) -> Self {
        Self::with_capacity_and_hasher(Capacity::default(), hash_builder)
    }

    /// An interner without texts, of this capacity and without a limit, that keeps this hasher.
    pub fn with_capacity_and_hasher(capacity: Capacity, hash_builder: S) -> Self {
        Self::with_capacity_memory_limits_and_hasher(
            capacity,
            MemoryLimits::default(),
            hash_builder,
        )
    }

    /// An interner without texts, of this capacity and with this limit, that keeps this hasher.
    pub fn with_capacity_memory_limits_and_hasher(
        capacity: Capacity,
        memory_limits: MemoryLimits,
        hash_builder: S,
    ) -> Self {
        or_panic(Self::try_made(capacity, memory_limits, hash_builder))
    }

    /// The same with an error in place of the panic, which is `FailedAllocation`.
    pub(crate) fn try_made(
        capacity: Capacity,
        limits: MemoryLimits,
        hasher: S,
    ) -> LassoResult<Self> {
        Self::try_seeded(capacity, limits, hasher, Seed::random())
    }

    fn try_seeded(
        capacity: Capacity,
        limits: MemoryLimits,
        hasher: S,
        seed: Seed,
    ) -> LassoResult<Self> {
        let (texts, bytes) = (capacity.strings(), capacity.bytes().get());
        Ok(Self {
            handle: Handle::with_room(texts, bytes, limits.max_memory_usage(), seed)?,
            hasher,
            key: PhantomData,
        })
    }

    /// The key of a text. An absent text is copied into the interner first.
    ///
    /// # Panics
    ///
    /// If an absent text is refused, as [`try_get_or_intern`](Self::try_get_or_intern) refuses it.
    ///
    /// ```rust
    /// use lasso_proved::Rodeo;
    ///
    /// let mut rodeo = Rodeo::default();
    /// let key = rodeo.get_or_intern("red");
    /// assert_eq!(rodeo.get_or_intern(String::from("red")), key);
    /// assert_eq!(rodeo.len(), 1);
    /// ```
    #[track_caller]
    pub fn get_or_intern<T: AsRef<str>>(&mut self, val: T) -> K {
        or_panic(self.try_get_or_intern(val))
    }

    /// The key of a text. An absent text is copied into the interner first.
    ///
    /// # Errors
    ///
    /// An absent text is refused if no key is left, then if the limit has no room for it, and if
    /// memory is out. The interner is as it was then. A present text is never refused.
    ///
    /// ```rust
    /// use lasso_proved::{MicroSpur, Rodeo};
    ///
    /// let mut rodeo: Rodeo<MicroSpur> = Rodeo::new();
    /// for number in 0..255 {
    ///     assert!(rodeo.try_get_or_intern(number.to_string()).is_ok());
    /// }
    /// assert!(rodeo.try_get_or_intern("more").unwrap_err().kind().is_keyspace_exhaustion());
    /// assert!(rodeo.try_get_or_intern("254").is_ok());
    /// ```
    pub fn try_get_or_intern<T: AsRef<str>>(&mut self, val: T) -> LassoResult<K> {
        let text = val.as_ref();
        if self.lacks_a_key() {
            return self.get_or_exhausted(text);
        }
        self.handle.intern(text).map(key_of)
    }

    /// Whether the key type has no key for another text.
    fn lacks_a_key(&self) -> bool {
        // A key type with a key for the library's last position never asks how many texts there are.
        let has_all = K::try_from_usize(LAST_POSITION).is_some();
        !has_all && K::try_from_usize(self.len()).is_none()
    }

    /// The key of a present text, if no key is left for an absent one.
    fn get_or_exhausted(&self, text: &str) -> LassoResult<K> {
        let exhausted = LassoError::new(LassoErrorKind::KeySpaceExhaustion);
        self.get(text).ok_or(exhausted)
    }

    /// The key of a static text. An absent text is kept without a copy.
    ///
    /// # Panics
    ///
    /// If an absent text is refused, as [`try_get_or_intern_static`](Self::try_get_or_intern_static)
    /// refuses it.
    #[track_caller]
    pub fn get_or_intern_static(&mut self, string: &'static str) -> K {
        or_panic(self.try_get_or_intern_static(string))
    }

    /// The key of a static text. An absent text is kept without a copy, and takes none of the bytes
    /// that the limit is for.
    ///
    /// # Errors
    ///
    /// An absent text is refused if no key is left, and if memory is out. The interner is as it was
    /// then. A present text is never refused.
    ///
    /// ```rust
    /// use lasso_proved::{MemoryLimits, Rodeo};
    ///
    /// let mut rodeo = Rodeo::default();
    /// rodeo.set_memory_limits(MemoryLimits::for_memory_usage(0));
    /// let text = "a text that stays where it is";
    /// let key = rodeo.try_get_or_intern_static(text).unwrap();
    /// assert_eq!(rodeo.resolve(&key).as_ptr(), text.as_ptr());
    /// ```
    pub fn try_get_or_intern_static(&mut self, string: &'static str) -> LassoResult<K> {
        if self.lacks_a_key() {
            return self.get_or_exhausted(string);
        }
        self.handle.intern_static(string).map(key_of)
    }

    /// The key of a text, or `None` if the text is absent.
    ///
    /// ```rust
    /// use lasso_proved::Rodeo;
    ///
    /// let mut rodeo = Rodeo::default();
    /// let key = rodeo.get_or_intern("red");
    /// assert_eq!(rodeo.get("red"), Some(key));
    /// assert_eq!(rodeo.get("blue"), None);
    /// ```
    pub fn get<T: AsRef<str>>(&self, val: T) -> Option<K> {
        self.handle.get(val.as_ref()).map(key_of)
    }

    /// Whether the text is present.
    pub fn contains<T: AsRef<str>>(&self, val: T) -> bool {
        self.handle.get(val.as_ref()).is_some()
    }
}

/// The last position that a text of the library can have.
pub(crate) const LAST_POSITION: usize = u32::MAX as usize - 1;

/// The key of a text that is present.
///
/// # Panics
///
/// If the key type has a key for the position no more, and so breaks its promise.
pub(crate) fn key_of<K: Key>(code: u32) -> K {
    K::try_from_usize(code as usize).expect("the key type had a key for this position before")
}

/// The text of a key.
///
/// # Panics
///
/// If the list has none at the key's position.
#[track_caller]
pub(crate) fn text_of<'a, K: Key>(texts: &'a impl TextList, key: &K) -> &'a str {
    let position = key.into_usize();
    match texts.text(position) {
        Some(text) => text,
        None => panic!(
            "no text has the key of position {position}: there are {} texts",
            texts.len()
        ),
    }
}

impl<K: Key, S> Rodeo<K, S> {
    /// Whether the interner has a text of this key.
    pub fn contains_key(&self, key: &K) -> bool {
        key.into_usize() < self.len()
    }

    /// The text of a key, borrowed from the interner.
    ///
    /// # Panics
    ///
    /// If the interner has no text of this key.
    ///
    /// ```rust
    /// use lasso_proved::Rodeo;
    ///
    /// let mut rodeo = Rodeo::default();
    /// let key = rodeo.get_or_intern("red");
    /// assert_eq!(rodeo.resolve(&key), "red");
    /// assert_eq!(&rodeo[key], "red");
    /// ```
    #[track_caller]
    pub fn resolve<'a>(&'a self, key: &K) -> &'a str {
        text_of(&self.handle, key)
    }

    /// The text of a key, borrowed from the interner, or `None` if it has no text of this key.
    ///
    /// ```rust
    /// use lasso_proved::{Key, Rodeo, Spur};
    ///
    /// let mut rodeo = Rodeo::default();
    /// let key = rodeo.get_or_intern("red");
    /// assert_eq!(rodeo.try_resolve(&key), Some("red"));
    /// assert_eq!(rodeo.try_resolve(&Spur::try_from_usize(1).unwrap()), None);
    /// ```
    pub fn try_resolve<'a>(&'a self, key: &K) -> Option<&'a str> {
        self.handle.text(key.into_usize())
    }

    /// The text of a key: the same call as [`resolve`](Self::resolve), with its test and its panic.
    ///
    /// # Safety
    ///
    /// The interner has a text of this key.
    pub unsafe fn resolve_unchecked<'a>(&'a self, key: &K) -> &'a str {
        self.resolve(key)
    }
}

impl<K, S> Rodeo<K, S> {
    /// How many texts there are.
    pub fn len(&self) -> usize {
        self.handle.len()
    }

    /// Whether there are no texts.
    pub fn is_empty(&self) -> bool {
        self.len() == 0
    }

    /// Forgets all texts. Keys begin again from the first. The limit stays, and so does memory for
    /// new texts.
    ///
    /// ```rust
    /// use lasso_proved::Rodeo;
    ///
    /// let mut rodeo = Rodeo::default();
    /// let key = rodeo.get_or_intern("red");
    /// rodeo.clear();
    /// assert_eq!(rodeo.try_resolve(&key), None);
    /// assert_eq!(rodeo.get_or_intern("blue"), key);
    /// ```
    pub fn clear(&mut self) {
        self.handle.clear();
    }

    /// How many texts fit before the list of texts grows; at least `len()`.
    pub fn capacity(&self) -> usize {
        self.handle.capacity()
    }

    /// The keys and texts, in the order in which the texts were interned.
    pub fn iter(&self) -> Iter<'_, K> {
        Iter::new(&self.handle)
    }

    /// The texts, in the order in which they were interned.
    pub fn strings(&self) -> Strings<'_, K> {
        Strings::new(&self.handle)
    }

    /// Sets how many bytes the buckets of texts may take. With less than they take now no new
    /// bucket is made; texts still go where buckets have room.
    ///
    /// ```rust
    /// use lasso_proved::{MemoryLimits, Rodeo};
    ///
    /// let mut rodeo = Rodeo::default();
    /// rodeo.set_memory_limits(MemoryLimits::for_memory_usage(0));
    /// assert!(rodeo.try_get_or_intern("x".repeat(4097)).is_err());
    /// assert!(rodeo.try_get_or_intern("x".repeat(4096)).is_ok());
    /// ```
    pub fn set_memory_limits(&mut self, memory_limits: MemoryLimits) {
        self.handle.set_limit(memory_limits.max_memory_usage());
    }

    /// How many bytes the buckets of texts take.
    ///
    /// ```rust
    /// assert_eq!(lasso_proved::Rodeo::default().current_memory_usage(), 4096);
    /// ```
    pub fn current_memory_usage(&self) -> usize {
        self.handle.memory()
    }

    /// How many bytes the buckets of texts may take.
    pub fn max_memory_usage(&self) -> usize {
        self.handle.limit()
    }

    /// The hasher that the interner keeps, and does not use.
    pub fn hasher(&self) -> &S {
        &self.hasher
    }

    /// Makes it an interner that interns no more, and that threads may share. It takes memory of 16
    /// bytes for each text.
    ///
    /// ```rust
    /// use lasso_proved::Rodeo;
    ///
    /// let mut rodeo = Rodeo::default();
    /// let key = rodeo.get_or_intern("red");
    /// let reader = rodeo.into_reader();
    /// assert_eq!(reader.get("red"), Some(key));
    /// assert_eq!(reader.resolve(&key), "red");
    /// ```
    #[must_use]
    pub fn into_reader(self) -> RodeoReader<K, S> {
        RodeoReader::new(SharedHandle::new(self.handle), self.hasher)
    }

    /// Copies the texts into one piece of memory, and lets the interner go. What is made resolves
    /// keys, and threads may share it.
    ///
    /// ```rust
    /// use lasso_proved::Rodeo;
    ///
    /// let mut rodeo = Rodeo::default();
    /// let key = rodeo.get_or_intern("red");
    /// assert_eq!(rodeo.into_resolver().resolve(&key), "red");
    /// ```
    #[must_use]
    pub fn into_resolver(self) -> RodeoResolver<K> {
        RodeoResolver::with_texts(self.strings())
    }
}

/// An interner without texts, with keys of type [`Spur`], of the default capacity and without a
/// limit.
impl Default for Rodeo<Spur, RandomState> {
    fn default() -> Self {
        Self::new()
    }
}

/// Shows the texts, and the bytes that their buckets take and may take.
impl<K, S> fmt::Debug for Rodeo<K, S> {
    fn fmt(&self, f: &mut fmt::Formatter<'_>) -> fmt::Result {
        f.debug_struct("Rodeo")
            .field("strings", &self.strings())
            .field("current_memory_usage", &self.current_memory_usage())
            .field("max_memory_usage", &self.max_memory_usage())
            .finish()
    }
}
