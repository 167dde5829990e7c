//! The proved library: the calls that `lasso.h` declares, and the two types that make them.
//!
//! No other file calls C. `lasso.h` says what a caller owes, and these points say why it is so
//! here. Each `unsafe` block below names the points that it rests on.
//!
//! 1. *Pointers.* Each is made of a reference, a slice or a `str`: not null, aligned, and good for
//!    the length beside it. What a call writes is a handle, or a variable or slice of this file
//!    that nothing else passed overlaps.
//! 2. *One call at a time.* A [`Handle`] is not `Sync`, so two threads never call it at once, and
//!    the library never calls back, so no call begins within another. A [`SharedHandle`] is `Sync`,
//!    and locks its handle for each call.
//! 3. *Moves.* A handle may be moved as `memcpy` moves it, if what is left is not used: so Rust
//!    moves values. No call keeps a pointer to a handle.
//! 4. *Lent texts.* A text that `lasso_text` or `lasso_texts` lends stays where it is, with the
//!    same bytes, until the next call with its handle that is not a reading call. Each call that is
//!    none takes `&mut Handle` here, or drops the handle. A lent text is a `&str` that borrows the
//!    `Handle` or the `SharedHandle`, so the compiler refuses such a call for as long as the text
//!    is used. It is trusted that reading calls leave texts alone: what is proved of the library
//!    covers a lent text until the next call of any kind.
//! 5. *UTF-8.* The library lends the bytes that it was given, and here these were always a `str`.
//! 6. *Panics.* The library does not unwind. This file panics only after a call has returned, and
//!    the handle is good then.
//! 7. *Signals and forks.* The library must not be called in a signal handler, nor in the forked
//!    child of a process with threads. Safe Rust does neither.
//! 8. *Static texts.* A text that the library keeps without a copy is a `&'static str` here: its
//!    bytes stay where they are, unchanged, as long as the program runs.

use crate::error::or_panic;
use crate::foreign_shared::Users;
use crate::iter::TextList;
use crate::{LassoError, LassoErrorKind, LassoResult};
use std::cell::UnsafeCell;
use std::collections::hash_map::RandomState;
use std::ffi::c_void;
use std::hash::{BuildHasher, Hasher};
use std::panic::RefUnwindSafe;
use std::sync::{Mutex, PoisonError};
use std::{ptr, slice, str};

/// `struct lasso`: an interner or none.
#[repr(C)]
struct Lasso {
    at: *mut c_void,
    live: bool,
}

/// `struct lasso_text`: where a lent text begins, and how many bytes it has.
#[repr(C)]
#[derive(Clone, Copy)]
pub(crate) struct LassoText {
    bytes: *const u8,
    length: usize,
}

extern "C" {
    fn lasso_new_sized_seeded(
        lasso: *mut Lasso,
        texts: usize,
        bytes: usize,
        limit: usize,
        seed0: u64,
        seed1: u64,
    ) -> u32;
    fn lasso_intern(lasso: *mut Lasso, text: *const u8, text_length: usize, code: *mut u32) -> u32;
    fn lasso_intern_static(
        lasso: *mut Lasso,
        text: *const u8,
        text_length: usize,
        code: *mut u32,
    ) -> u32;
    fn lasso_set_limit(lasso: *mut Lasso, limit: usize) -> u32;
    fn lasso_clear(lasso: *mut Lasso) -> u32;
    fn lasso_free(lasso: *mut Lasso);

    // The reading calls. `lasso_clone` reads its first handle, and writes its second.
    fn lasso_clone(from: *mut Lasso, to: *mut Lasso) -> u32;
    fn lasso_get(lasso: *mut Lasso, text: *const u8, text_length: usize, code: *mut u32) -> u32;
    fn lasso_text(lasso: *mut Lasso, code: u32, text: *mut LassoText) -> u32;
    fn lasso_texts(lasso: *mut Lasso, from: usize, texts: *mut LassoText, room: usize) -> usize;
    fn lasso_len(lasso: *mut Lasso) -> usize;
    fn lasso_capacity(lasso: *mut Lasso) -> usize;
    fn lasso_memory(lasso: *mut Lasso) -> usize;
    fn lasso_limit(lasso: *mut Lasso) -> usize;
}

// Those of `enum lasso_status` that these calls return here.
const DONE: u32 = 0;
const NO_SUCH_CODE: u32 = 4;
const NO_MEMORY: u32 = 9;
const LIMIT_REACHED: u32 = 10;
const NO_CODE_LEFT: u32 = 11;
const NO_SUCH_TEXT: u32 = 13;

/// What the status of a call says that may be refused.
pub(crate) fn outcome(status: u32) -> LassoResult<()> {
    let kind = match status {
        DONE => return Ok(()),
        NO_MEMORY => LassoErrorKind::FailedAllocation,
        LIMIT_REACHED => LassoErrorKind::MemoryLimitReached,
        NO_CODE_LEFT => LassoErrorKind::KeySpaceExhaustion,
        other => unexpected(other),
    };
    Err(LassoError::new(kind))
}

/// A status that can't come: each text is UTF-8, and each handle has an interner once it is handed
/// out.
#[cold]
pub(crate) fn unexpected(status: u32) -> ! {
    panic!("liblasso returned the status {status}, which does not fit the call")
}

impl LassoText {
    /// No text: no bytes, at a pointer that is not null.
    pub(crate) const NONE: Self = Self {
        bytes: ptr::NonNull::<u8>::dangling().as_ptr(),
        length: 0,
    };

    /// The text.
    ///
    /// # Safety
    ///
    /// A handle has lent it, and the lifetime ends before that handle's next call that is not a
    /// reading call.
    pub(crate) unsafe fn as_str<'a>(self) -> &'a str {
        // SAFETY: the bytes stay for as long as the caller promises (4).
        let bytes = unsafe { slice::from_raw_parts(self.bytes, self.length) };
        // SAFETY: they are UTF-8 (5).
        unsafe { str::from_utf8_unchecked(bytes) }
    }
}

/// An interner of the library, for one thread at a time.
///
/// Its calls with `&self` are reading calls. C may write to the handle meanwhile, as to take the
/// interner out and put it back: hence the `UnsafeCell`, by which this type is not `Sync`.
pub(crate) struct Handle {
    lasso: UnsafeCell<Lasso>,
}

// SAFETY: calls may come from any thread, one at a time, if a lock or a thread's start or join
// comes between those of two threads. All that moves a value to another thread in safe Rust orders
// the two in that way.
unsafe impl Send for Handle {}

// A panic finds each handle good (6).
impl RefUnwindSafe for Handle {}

/// The seed by which an interner hashes: two numbers.
#[derive(Clone, Copy)]
pub(crate) struct Seed(pub(crate) u64, pub(crate) u64);

impl Seed {
    /// Two numbers that std's `RandomState` makes of random keys.
    pub(crate) fn random() -> Self {
        let number = || RandomState::new().build_hasher().finish();
        Self(number(), number())
    }
}

impl Handle {
    /// `LASSO_NONE`: no interner yet.
    fn none() -> Self {
        Self {
            lasso: UnsafeCell::new(Lasso {
                at: ptr::null_mut(),
                live: false,
            }),
        }
    }

    /// An interner without texts. It has room for `texts` texts before its list grows, and a first
    /// bucket of `bytes` bytes. Its buckets take at most `limit` bytes, or those of the first one.
    /// It hashes by the seed. The only error is `FailedAllocation`.
    pub(crate) fn with_room(
        texts: usize,
        bytes: usize,
        limit: usize,
        seed: Seed,
    ) -> LassoResult<Self> {
        let mut handle = Self::none();
        let lasso = handle.lasso.get_mut();
        // SAFETY: a handle of this function's (1, 2).
        let status = unsafe { lasso_new_sized_seeded(lasso, texts, bytes, limit, seed.0, seed.1) };
        outcome(status)?;
        Ok(handle)
    }

    /// Another interner with the same texts under the same codes. The only error is
    /// `FailedAllocation`.
    pub(crate) fn try_clone(&self) -> LassoResult<Self> {
        let mut copy = Self::none();
        // SAFETY: a handle, which is only read, and one of this function's (1, 2, 4).
        let status = unsafe { lasso_clone(self.lasso.get(), copy.lasso.get_mut()) };
        outcome(status)?;
        Ok(copy)
    }

    /// The code of a text, which is appended if it is absent. If an absent text is refused, nothing
    /// has changed.
    #[inline]
    pub(crate) fn intern(&mut self, text: &str) -> LassoResult<u32> {
        let (lasso, mut code) = (self.lasso.get_mut(), 0);
        // SAFETY: a handle that lends no text now, another's text, and a variable (1, 2, 4).
        let status = unsafe { lasso_intern(lasso, text.as_ptr(), text.len(), &mut code) };
        outcome(status)?;
        Ok(code)
    }

    /// The code of a static text, which is appended without a copy if it is absent. If an absent text
    /// is refused, nothing has changed.
    #[inline]
    pub(crate) fn intern_static(&mut self, text: &'static str) -> LassoResult<u32> {
        let (lasso, mut code) = (self.lasso.get_mut(), 0);
        // SAFETY: a handle that lends no text now, a static text, and a variable (1, 2, 4, 8).
        let status = unsafe { lasso_intern_static(lasso, text.as_ptr(), text.len(), &mut code) };
        outcome(status)?;
        Ok(code)
    }

    /// Sets how many bytes the buckets may take.
    pub(crate) fn set_limit(&mut self, limit: usize) {
        // SAFETY: a handle that lends no text now (1, 2, 4).
        match unsafe { lasso_set_limit(self.lasso.get_mut(), limit) } {
            DONE => (),
            other => unexpected(other),
        }
    }

    /// Forgets all texts.
    pub(crate) fn clear(&mut self) {
        // SAFETY: a handle that lends no text now (1, 2, 4).
        match unsafe { lasso_clear(self.lasso.get_mut()) } {
            DONE => (),
            other => unexpected(other),
        }
    }

    /// The code of a text, or `None` if it is absent.
    #[inline]
    pub(crate) fn get(&self, text: &str) -> Option<u32> {
        let (lasso, mut code) = (self.lasso.get(), 0);
        // SAFETY: a handle, a text, and a variable (1, 2). If this handle lends the text, it stays
        // through a reading call (4).
        match unsafe { lasso_get(lasso, text.as_ptr(), text.len(), &mut code) } {
            DONE => Some(code),
            NO_SUCH_TEXT => None,
            other => unexpected(other),
        }
    }

    /// How many texts fit before the list of texts grows; at least as many as there are.
    pub(crate) fn capacity(&self) -> usize {
        // SAFETY: a handle (1, 2, 4).
        unsafe { lasso_capacity(self.lasso.get()) }
    }

    /// How many bytes the buckets take.
    pub(crate) fn memory(&self) -> usize {
        // SAFETY: a handle (1, 2, 4).
        unsafe { lasso_memory(self.lasso.get()) }
    }

    /// How many bytes the buckets may take.
    pub(crate) fn limit(&self) -> usize {
        // SAFETY: a handle (1, 2, 4).
        unsafe { lasso_limit(self.lasso.get()) }
    }

    /// All texts, lent.
    fn lend_all(&self) -> Box<[LassoText]> {
        let (lasso, mut texts) = (self.lasso.get(), vec![LassoText::NONE; self.len()]);
        // SAFETY: a handle, and a slice of this function's, filled with good texts (1, 2, 4).
        let lent = unsafe { lasso_texts(lasso, 0, texts.as_mut_ptr(), texts.len()) };
        assert!(
            lent == texts.len(),
            "liblasso has lent too few texts: {lent}"
        );
        texts.into_boxed_slice()
    }
}

impl TextList for Handle {
    #[inline]
    fn len(&self) -> usize {
        // SAFETY: a handle (1, 2, 4).
        unsafe { lasso_len(self.lasso.get()) }
    }

    #[inline]
    fn text(&self, position: usize) -> Option<&str> {
        let code = u32::try_from(position).ok()?;
        let mut text = LassoText::NONE;
        // SAFETY: a handle, and a variable that holds a good text (1, 2, 4).
        match unsafe { lasso_text(self.lasso.get(), code, &mut text) } {
            // SAFETY: the handle has lent it, and is borrowed as long as the `str` is used (4).
            DONE => Some(unsafe { text.as_str() }),
            NO_SUCH_CODE => None,
            other => unexpected(other),
        }
    }
}

impl Drop for Handle {
    fn drop(&mut self) {
        // SAFETY: a handle that lends no text now, and is used no more (1, 2, 4).
        unsafe { lasso_free(self.lasso.get_mut()) }
    }
}

/// An interner of the library that changes no more, for any number of threads.
///
/// The text of a position comes without a lock, from a table of all texts. The position of a text
/// takes a lock.
pub(crate) struct SharedHandle {
    owner: Owner,
    texts: Box<[LassoText]>,
}

/// What has the texts.
enum Owner {
    // Nothing here calls it but `lasso_get`, and `lasso_free` when it is dropped.
    One(Mutex<Handle>),
    // They are frozen.
    Many(Users),
}

// SAFETY: only the constructors write the table. It leads to bytes that nobody writes before this
// value is dropped: `lasso_get` is a reading call (4), made by one thread at a time, under the lock
// (2), and texts of `Users` stay. So what threads share without a lock they only read.
unsafe impl Sync for SharedHandle {}
// SAFETY: the same, and the handle may be dropped in any thread.
unsafe impl Send for SharedHandle {}

impl SharedHandle {
    /// Takes an interner over. It moves, and its texts stay where they are (3, 4).
    pub(crate) fn new(handle: Handle) -> Self {
        Self {
            texts: handle.lend_all(),
            owner: Owner::One(Mutex::new(handle)),
        }
    }

    /// Takes the handles of a frozen interner over.
    pub(crate) fn of_many(users: Users) -> Self {
        Self {
            texts: users.lend_all(),
            owner: Owner::Many(users),
        }
    }

    /// Whether threads shared the interner before it was frozen.
    pub(crate) fn is_of_many(&self) -> bool {
        matches!(self.owner, Owner::Many(_))
    }

    /// The code of a text, or `None` if it is absent.
    #[inline]
    pub(crate) fn get(&self, text: &str) -> Option<u32> {
        match &self.owner {
            Owner::One(handle) => handle
                .lock()
                .unwrap_or_else(PoisonError::into_inner)
                .get(text),
            Owner::Many(users) => or_panic(users.get(text)),
        }
    }
}

impl TextList for SharedHandle {
    #[inline]
    fn len(&self) -> usize {
        self.texts.len()
    }

    #[inline]
    fn text(&self, position: usize) -> Option<&str> {
        let text = self.texts.get(position)?;
        // SAFETY: the handle has lent it, and this value is borrowed as long as the `str` is used:
        // so the handle is not dropped before, and no call but reading calls comes (4).
        Some(unsafe { text.as_str() })
    }
}

#[cfg(test)]
mod tests {
    use super::*;

    // The numbers are those that `lasso.h` gives the statuses.
    #[test]
    fn statuses_have_their_kinds() {
        let kind = |status| outcome(status).map_err(|error| error.kind());
        assert_eq!(kind(0), Ok(()));
        assert_eq!(kind(9), Err(LassoErrorKind::FailedAllocation));
        assert_eq!(kind(10), Err(LassoErrorKind::MemoryLimitReached));
        assert_eq!(kind(11), Err(LassoErrorKind::KeySpaceExhaustion));
    }

    #[test]
    #[should_panic(expected = "liblasso returned the status 3")]
    fn a_status_that_does_not_fit_panics() {
        let _ = outcome(3);
    }

    #[test]
    fn positions_past_the_codes_have_no_text() {
        let mut handle = Handle::with_room(0, 1, usize::MAX, Seed(1, 2)).unwrap();
        handle.intern("red").unwrap();
        assert_eq!(handle.text(0), Some("red"));
        assert_eq!(handle.text(1), None);
        assert_eq!(handle.text(u32::MAX as usize), None);
        assert_eq!(handle.text(1 << 32), None);
    }
}
