//! Texts that threads copy at once into few buckets, with no lock but where a bucket is full.
use std::alloc::{alloc, dealloc, handle_alloc_error, Layout};
use std::sync::atomic::{AtomicPtr, AtomicUsize, Ordering};
use std::sync::Mutex;
use std::{ptr, slice, str};

const FIRST: usize = 4096;

struct Bucket {
    start: *mut u8,
    size: usize,
    // how many bytes were asked for, which may be more than there are
    taken: AtomicUsize,
}

impl Bucket {
    fn new(size: usize) -> Box<Bucket> {
        let layout = Layout::array::<u8>(size).unwrap();
        // The size is not 0.
        let start = unsafe { alloc(layout) };
        if start.is_null() {
            handle_alloc_error(layout);
        }
        Box::new(Bucket { start, size, taken: AtomicUsize::new(0) })
    }

    // The address of bytes that nobody else has, or `None` where there is no room.
    #[inline]
    fn take(&self, bytes: usize) -> Option<*mut u8> {
        let at = self.taken.fetch_add(bytes, Ordering::Relaxed);
        if at + bytes > self.size {
            return None;
        }
        Some(unsafe { self.start.add(at) })
    }
}

impl Drop for Bucket {
    fn drop(&mut self) {
        unsafe { dealloc(self.start, Layout::array::<u8>(self.size).unwrap()) };
    }
}

/// Buckets of texts. A copy must not be read once the arena is gone.
pub struct Arena {
    current: AtomicPtr<Bucket>,
    // boxes, so that a bucket stays where it is while the list grows
    #[allow(clippy::vec_box)]
    buckets: Mutex<Vec<Box<Bucket>>>,
}

// A bucket's bytes are reached by its pointer alone, and each byte is written by one thread.
unsafe impl Send for Arena {}
unsafe impl Sync for Arena {}

impl Arena {
    pub fn new() -> Arena {
        let mut first = Bucket::new(FIRST);
        Arena { current: AtomicPtr::new(&mut *first), buckets: Mutex::new(vec![first]) }
    }

    /// A copy of the text.
    #[inline]
    pub fn store(&self, text: &str) -> &'static str {
        let to = self.take(text.len());
        // The text lives as long as the arena, and only what is beside it reads it.
        unsafe {
            ptr::copy_nonoverlapping(text.as_ptr(), to, text.len());
            str::from_utf8_unchecked(slice::from_raw_parts(to, text.len()))
        }
    }

    /// The address of bytes that nobody else has.
    #[inline]
    pub fn take(&self, bytes: usize) -> *mut u8 {
        loop {
            let current = self.current.load(Ordering::Acquire);
            // A bucket lives as long as the arena.
            if let Some(start) = unsafe { (*current).take(bytes) } {
                return start;
            }
            self.grow(current, bytes);
        }
    }

    // Makes a bucket twice as large the current one, with room for so many bytes, unless another thread was faster.
    #[cold]
    fn grow(&self, full: *mut Bucket, bytes: usize) {
        let mut buckets = self.buckets.lock().unwrap();
        if self.current.load(Ordering::Relaxed) == full {
            let size = unsafe { (*full).size };
            let mut next = Bucket::new((2 * size).max(bytes));
            self.current.store(&mut *next, Ordering::Release);
            buckets.push(next);
        }
    }
}

// Texts in the arena of which one address is all that is kept.

// The bytes of a length.
const LENGTH: usize = 4;

/// The address of a text's length, after which the text itself lies.
#[derive(Clone, Copy)]
#[allow(dead_code)]
pub struct Measured(*mut u8);

#[allow(dead_code)]
impl Measured {
    /// Copies the text into the arena.
    #[inline]
    pub fn store(arena: &Arena, text: &str) -> Measured {
        let length = u32::try_from(text.len()).unwrap();
        let to = arena.take(LENGTH + text.len());
        // Nobody else has these bytes.
        unsafe {
            to.cast::<u32>().write_unaligned(length);
            ptr::copy_nonoverlapping(text.as_ptr(), to.add(LENGTH), text.len());
        }
        Measured(to)
    }

    #[inline]
    pub fn address(self) -> *mut u8 {
        self.0
    }

    /// The text at the address.
    ///
    /// # Safety
    /// The address is that of a stored text, whose arena is not gone while the text is used.
    #[inline]
    pub unsafe fn text_at<'a>(address: *const u8) -> &'a str {
        let length = address.cast::<u32>().read_unaligned() as usize;
        str::from_utf8_unchecked(slice::from_raw_parts(address.add(LENGTH), length))
    }
}
