//! What an iterator says of its length: memory is taken for it when the interner is made, but not for far more than there
//! may be. It is one test, so that no other one takes memory meanwhile.

use lasso_proved::{Key, Rodeo, Spur, ThreadedRodeo};
use std::vec;

/// Items, of which it says that there are at least this number.
struct Hinted(vec::IntoIter<&'static str>, usize);

impl Iterator for Hinted {
    type Item = &'static str;

    fn next(&mut self) -> Option<Self::Item> {
        self.0.next()
    }

    fn size_hint(&self) -> (usize, Option<usize>) {
        (self.1, None)
    }
}

/// glibc's `struct mallinfo2`, from version 2.33 on.
#[repr(C)]
struct Info {
    numbers: [usize; 10],
}

extern "C" {
    fn mallinfo2() -> Info;
}

/// How many bytes are in use that malloc gave: in its arenas, and each mapped for itself.
fn in_use() -> usize {
    // SAFETY: it takes nothing, and returns ten numbers.
    let Info { numbers } = unsafe { mallinfo2() };
    numbers[7] + numbers[4]
}

/// How many bytes an interner takes that is made of three texts, by this hint.
fn taken<R: FromIterator<&'static str>>(hint: usize, texts: impl Fn(&R) -> Vec<&str>) -> usize {
    let before = in_use();
    let made: R = Hinted(vec!["red", "blue", "red"].into_iter(), hint).collect();
    let taken = in_use() - before;
    assert_eq!(texts(&made), ["red", "blue"]);
    taken
}

/// Whether malloc tells what is in use. Under valgrind, which has a malloc of its own, it doesn't.
fn is_told() -> bool {
    let before = in_use();
    let block = vec![1; 100_000];
    in_use() >= before + block.len()
}

#[test]
fn a_hint_is_room_and_no_more() {
    let threaded = |hint| taken::<ThreadedRodeo>(hint, |made| made.strings().collect());
    let single = |hint| taken::<Rodeo>(hint, |made| made.strings().collect());
    // What a first use makes, as a thread's own data, is there from now on.
    threaded(0);
    single(0);
    for taken in [&threaded as &dyn Fn(usize) -> usize, &single] {
        // An entry of the list says at least where a text is.
        assert!(!is_told() || taken(50_000) > taken(0) + 8 * 50_000);
        for hint in [1 << 30, u32::MAX as usize, 1 << 40, usize::MAX] {
            assert!(taken(hint) < 8 << 20, "{hint}");
        }
    }
    let many = || (0..70_000).map(|number| number.to_string());
    for rodeo in [
        many().collect::<ThreadedRodeo>(),
        many().filter(|_| true).collect(),
    ] {
        assert_eq!(
            (rodeo.len(), rodeo.get("69999")),
            (70_000, Spur::try_from_usize(69_999))
        );
    }
}
