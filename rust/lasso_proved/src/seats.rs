//! Which handle a thread uses: the number of a seat, which no other thread has, as long as there are enough.

use std::sync::atomic::{AtomicU32, AtomicUsize, Ordering};

/// How many handles an interner has at most. Threads beyond that share them.
pub(crate) const SEATS: usize = 32;

/// The seats that threads have.
pub(crate) struct Seats {
    // A bit for each seat that a thread has for itself.
    owned: AtomicU32,
    // How many threads found no free seat.
    without: AtomicUsize,
}

impl Seats {
    pub(crate) const fn new() -> Self {
        Self {
            owned: AtomicU32::new(0),
            without: AtomicUsize::new(0),
        }
    }

    /// The first free seat; if there is none, a seat that another thread has too.
    pub(crate) fn take(&self) -> Place<'_> {
        let free = |owned: u32| (owned != u32::MAX).then(|| owned | (owned + 1));
        match self.owned.fetch_update(Ordering::Relaxed, Ordering::Relaxed, free) {
            Ok(owned) => Place {
                seats: self,
                number: owned.trailing_ones() as usize,
                is_own: true,
            },
            Err(_) => Place {
                seats: self,
                number: self.without.fetch_add(1, Ordering::Relaxed) % SEATS,
                is_own: false,
            },
        }
    }
}

/// A thread's seat. When the thread ends, the next one may have it.
pub(crate) struct Place<'a> {
    seats: &'a Seats,
    pub(crate) number: usize,
    is_own: bool,
}

impl Drop for Place<'_> {
    fn drop(&mut self) {
        if self.is_own {
            self.seats.owned.fetch_and(!(1 << self.number), Ordering::Relaxed);
        }
    }
}

#[cfg(test)]
mod tests {
    use super::*;

    #[test]
    fn a_seat_is_free_again_when_its_thread_has_ended() {
        let seats = Seats::new();
        let mut places: Vec<_> = (0..SEATS).map(|_| seats.take()).collect();
        let numbers: Vec<_> = places.iter().map(|place| place.number).collect();
        assert_eq!(numbers, (0..SEATS).collect::<Vec<_>>());
        // Two more share seats, and give none back.
        drop([seats.take(), seats.take()]);
        assert_eq!(seats.take().number, 2);
        drop(places.remove(5));
        assert_eq!(seats.take().number, 5);
        assert_eq!(seats.take().number, 5);
    }
}
