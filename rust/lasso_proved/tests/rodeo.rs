//! The calls of a `Rodeo`, one by one; also with seeds of its own, on which no result depends, and with texts of 0
//! to 16 and of 5000 bytes, in lists that grow: texts of at most 14 bytes move then.

mod support;

use lasso_proved::{Capacity, Key, MemoryLimits, MiniSpur, Rodeo, Spur};
use std::collections::hash_map::RandomState;
use std::hash::{BuildHasherDefault, Hasher};
use std::num::NonZeroUsize;
use support::{text_of, LENGTHS};

fn key(position: usize) -> Spur {
    Spur::try_from_usize(position).unwrap()
}

fn colours() -> Rodeo {
    ["red", "green", "blue"].into_iter().collect()
}

#[test]
fn each_maker_makes_an_interner_without_texts() {
    let capacity = Capacity::new(3, NonZeroUsize::new(100).unwrap());
    let limits = MemoryLimits::for_memory_usage(1000);
    let made: [Rodeo; 8] = [
        Rodeo::new(),
        Rodeo::default(),
        Rodeo::with_capacity(capacity),
        Rodeo::with_memory_limits(limits),
        Rodeo::with_capacity_and_memory_limits(capacity, limits),
        Rodeo::with_hasher(RandomState::new()),
        Rodeo::with_capacity_and_hasher(capacity, RandomState::new()),
        Rodeo::with_capacity_memory_limits_and_hasher(capacity, limits, RandomState::new()),
    ];
    let bytes = [4096, 4096, 100, 4096, 100, 4096, 100, 100];
    let most = [
        usize::MAX,
        usize::MAX,
        usize::MAX,
        1000,
        1000,
        usize::MAX,
        usize::MAX,
        1000,
    ];
    for (number, mut rodeo) in made.into_iter().enumerate() {
        assert!(rodeo.is_empty(), "maker {number}");
        assert_eq!(
            rodeo.current_memory_usage(),
            bytes[number],
            "maker {number}"
        );
        assert_eq!(rodeo.max_memory_usage(), most[number], "maker {number}");
        assert_eq!(rodeo.get_or_intern("red"), key(0), "maker {number}");
    }
}

#[test]
#[should_panic(expected = "out of memory")]
fn a_maker_panics_out_of_memory() {
    let bytes = NonZeroUsize::new(isize::MAX as usize).unwrap();
    let _: Rodeo = Rodeo::with_capacity(Capacity::for_bytes(bytes));
}

#[test]
#[should_panic(expected = "out of memory")]
fn a_maker_panics_without_memory_for_its_list() {
    let _: Rodeo = Rodeo::with_capacity(Capacity::for_strings(isize::MAX as usize));
}

#[test]
fn equal_texts_have_one_key_and_keys_count_up() {
    let mut rodeo = Rodeo::default();
    assert_eq!(rodeo.get_or_intern("red"), key(0));
    assert_eq!(rodeo.get_or_intern(String::from("green")), key(1));
    assert_eq!(rodeo.get_or_intern(Box::<str>::from("red")), key(0));
    assert_eq!(rodeo.try_get_or_intern("blue"), Ok(key(2)));
    assert_eq!(rodeo.try_get_or_intern("green"), Ok(key(1)));
    assert_eq!(rodeo.len(), 3);
}

// A text of more than 14 bytes: a shorter one is kept in the list.
const STATIC: &str = "a static text that is kept where it is";

#[test]
fn a_static_text_stays_where_it_is() {
    let mut rodeo = Rodeo::default();
    let key = rodeo.get_or_intern_static(STATIC);
    for number in 0..1000 {
        rodeo.get_or_intern(number.to_string());
    }
    assert_eq!(rodeo.resolve(&key).as_ptr(), STATIC.as_ptr());
    let clone = rodeo.clone();
    assert_eq!(clone.resolve(&key), STATIC);
    assert_ne!(clone.resolve(&key).as_ptr(), STATIC.as_ptr());
    assert_eq!(rodeo.into_reader().resolve(&key).as_ptr(), STATIC.as_ptr());
}

#[test]
fn a_present_copy_of_a_static_text_stays() {
    let mut rodeo = Rodeo::default();
    let key = rodeo.get_or_intern(STATIC);
    let address = rodeo.resolve(&key).as_ptr();
    assert_eq!(rodeo.get_or_intern_static(STATIC), key);
    assert_eq!(rodeo.resolve(&key).as_ptr(), address);
    assert_ne!(address, STATIC.as_ptr());
}

#[test]
fn static_texts_have_the_keys_of_equal_texts() {
    let mut rodeo = colours();
    assert_eq!(rodeo.get_or_intern_static("blue"), key(2));
    assert_eq!(rodeo.try_get_or_intern_static("red"), Ok(key(0)));
    assert_eq!(rodeo.get_or_intern_static("pink"), key(3));
    assert_eq!(rodeo.try_get_or_intern_static("grey"), Ok(key(4)));
    assert_eq!(rodeo.resolve(&key(4)), "grey");
}

#[test]
fn lookups_tell_present_texts_from_absent_ones() {
    let rodeo = colours();
    assert_eq!(rodeo.get("green"), Some(key(1)));
    assert_eq!(rodeo.get(String::from("blue")), Some(key(2)));
    assert_eq!(rodeo.get("gree"), None);
    assert_eq!(rodeo.get(""), None);
    assert!(rodeo.contains("red"));
    assert!(!rodeo.contains("Red"));
    assert_eq!(rodeo.len(), 3);
}

#[test]
fn keys_resolve_to_their_texts() {
    let rodeo = colours();
    for (position, text) in ["red", "green", "blue"].into_iter().enumerate() {
        let key = key(position);
        assert!(rodeo.contains_key(&key));
        assert_eq!(rodeo.resolve(&key), text);
        assert_eq!(rodeo.try_resolve(&key), Some(text));
        assert_eq!(&rodeo[key], text);
        // SAFETY: the interner has a text of this key.
        assert_eq!(unsafe { rodeo.resolve_unchecked(&key) }, text);
    }
    assert!(!rodeo.contains_key(&key(3)));
    assert_eq!(rodeo.try_resolve(&key(3)), None);
    assert_eq!(rodeo.try_resolve(&key(u32::MAX as usize - 1)), None);
}

#[test]
#[should_panic(expected = "no text has the key of position 3")]
fn resolve_panics_past_the_texts() {
    colours().resolve(&key(3));
}

#[test]
#[should_panic(expected = "no text has the key of position 9")]
fn an_index_past_the_texts_panics() {
    let _ = &colours()[key(9)];
}

#[test]
fn texts_are_any_utf8() {
    let texts = [
        "",
        "\0",
        "\0\0",
        "é",
        "e\u{301}",
        "漢字",
        "\u{10ffff}",
        " ",
        "a\nb",
    ];
    let mut rodeo = Rodeo::default();
    for (position, text) in texts.into_iter().enumerate() {
        assert_eq!(rodeo.get_or_intern(text), key(position));
    }
    assert!(rodeo.strings().eq(texts));
}

#[test]
fn a_text_may_be_looked_up_by_what_the_interner_has_lent() {
    let mut rodeo = colours();
    let long = rodeo.get_or_intern("a text that does not lie in the list");
    for (position, text) in rodeo.strings().enumerate() {
        assert_eq!(rodeo.get(text), Some(key(position)));
    }
    assert_eq!(rodeo.get(rodeo.resolve(&long)), Some(long));
}

#[test]
fn several_lent_texts_are_good_at_once() {
    let rodeo = colours();
    let lent: Vec<&str> = (0..3)
        .map(|position| rodeo.resolve(&key(position)))
        .collect();
    assert_eq!(rodeo.len(), 3);
    assert!(rodeo.contains("red"));
    assert_eq!(lent, ["red", "green", "blue"]);
}

#[test]
fn clear_forgets_texts_and_begins_keys_again() {
    let mut rodeo = colours();
    rodeo.get_or_intern("x".repeat(10_000));
    rodeo.clear();
    assert!(rodeo.is_empty());
    assert_eq!(rodeo.iter().next(), None);
    assert_eq!(rodeo.get("red"), None);
    assert_eq!(rodeo.try_resolve(&key(0)), None);
    assert_eq!(rodeo.get_or_intern("blue"), key(0));
    assert_eq!(rodeo.get_or_intern("red"), key(1));
    rodeo.clear();
    rodeo.clear();
    assert_eq!(rodeo.get_or_intern("green"), key(0));
}

#[test]
fn capacity_is_at_least_what_was_asked_for_and_the_texts() {
    let mut rodeo: Rodeo = Rodeo::with_capacity(Capacity::for_strings(10));
    assert!(rodeo.capacity() >= 10);
    for number in 0..1000 {
        rodeo.get_or_intern(number.to_string());
        assert!(rodeo.capacity() >= rodeo.len());
    }
    let bare: Rodeo = Rodeo::with_capacity(Capacity::minimal());
    assert_eq!(bare.current_memory_usage(), 1);
}

#[test]
fn the_hasher_is_kept_and_not_asked() {
    #[derive(Default)]
    struct Refuses;
    impl Hasher for Refuses {
        fn finish(&self) -> u64 {
            panic!("the hasher was asked")
        }
        fn write(&mut self, _: &[u8]) {
            panic!("the hasher was asked")
        }
    }
    type Refusing = BuildHasherDefault<Refuses>;
    let mut rodeo: Rodeo<MiniSpur, Refusing> = Rodeo::with_hasher(Refusing::default());
    let key = rodeo.get_or_intern("red");
    assert_eq!(rodeo.get("red"), Some(key));
    let _: &Refusing = rodeo.hasher();
    let copy: Rodeo<MiniSpur, Refusing> = rodeo.clone();
    assert_eq!(copy.into_reader().get("red"), Some(key));
}

#[test]
fn a_clone_has_the_texts_and_is_its_own() {
    let mut rodeo = colours();
    rodeo.get_or_intern("a text that does not lie in the list");
    let mut copy = rodeo.clone();
    assert_eq!(copy, rodeo);
    assert_eq!(rodeo.try_clone().unwrap(), rodeo);
    copy.get_or_intern("pink");
    rodeo.clear();
    drop(rodeo);
    assert!(copy.strings().eq([
        "red",
        "green",
        "blue",
        "a text that does not lie in the list",
        "pink"
    ]));
    assert!(Rodeo::default().clone().is_empty());
}

#[test]
fn a_copy_over_another_replaces_its_texts() {
    let source = colours();
    let mut rodeo: Rodeo = ["one", "blue"].into_iter().collect();
    rodeo.clone_from(&source);
    assert_eq!(rodeo, source);
    assert_eq!(rodeo.get("one"), None);
    rodeo.try_clone_from(&Rodeo::default()).unwrap();
    assert!(rodeo.is_empty());
    assert!(source.strings().eq(["red", "green", "blue"]));
}

#[test]
fn a_collection_of_texts_is_interned_in_order() {
    let mut rodeo: Rodeo = vec!["a".to_owned(), "b".to_owned(), "a".to_owned()]
        .into_iter()
        .collect();
    rodeo.extend(&["b", "c"]);
    rodeo.extend(vec![String::from("d")]);
    assert!(rodeo.strings().eq(["a", "b", "c", "d"]));
    let from: Rodeo<MiniSpur> = Rodeo::from_iter(["x", "y"].iter());
    assert_eq!(from.len(), 2);
    let none: Rodeo = Vec::<&str>::new().into_iter().collect();
    assert!(none.is_empty());
}

#[test]
fn a_panic_of_the_callers_leaves_the_interner_good() {
    struct Panics;
    impl AsRef<str> for Panics {
        fn as_ref(&self) -> &str {
            panic!("no text")
        }
    }
    let mut rodeo = colours();
    let caught =
        std::panic::catch_unwind(std::panic::AssertUnwindSafe(|| rodeo.get_or_intern(Panics)));
    assert!(caught.is_err());
    assert!(std::panic::catch_unwind(|| rodeo.resolve(&key(7)).len()).is_err());
    assert_eq!(rodeo.get_or_intern("pink"), key(3));
    assert!(rodeo.strings().eq(["red", "green", "blue", "pink"]));
}

#[test]
fn debug_shows_the_texts_and_the_bytes() {
    let shown = format!("{:?}", colours());
    assert_eq!(
        shown,
        format!(
            r#"Rodeo {{ strings: ["red", "green", "blue"], current_memory_usage: 4096, max_memory_usage: {} }}"#,
            usize::MAX
        )
    );
}

#[test]
fn texts_have_the_lengths_that_are_meant() {
    for length in LENGTHS {
        assert_eq!(text_of(12345, length).len(), length);
    }
}

#[test]
fn a_text_of_each_length_comes_back() {
    let mut rodeo = Rodeo::default();
    let keys = LENGTHS.map(|length| rodeo.get_or_intern(text_of(7, length)));
    for (length, key) in LENGTHS.into_iter().zip(keys) {
        let text = text_of(7, length);
        assert_eq!(rodeo.resolve(&key), text);
        assert_eq!(rodeo.get(&text), Some(key));
        assert_eq!(rodeo.get(text + "y"), None);
    }
    assert_eq!(rodeo.len(), LENGTHS.len());
}

#[test]
fn texts_stay_the_same_while_the_list_grows() {
    for length in [4, 14, 15, 16, 100] {
        let text = |number| text_of(number, length);
        let mut rodeo = Rodeo::default();
        for number in 1000..4000 {
            let key = rodeo.get_or_intern(text(number));
            assert_eq!(key.into_usize(), number - 1000);
            if number % 500 == 499 {
                let expected = (1000..=number).map(text);
                assert!(rodeo.strings().eq(expected), "{length} bytes, {number}");
            }
        }
        let reader = rodeo.into_reader();
        assert!(reader.strings().eq((1000..4000).map(text)));
        assert_eq!(reader.get(text(3999)), Spur::try_from_usize(2999));
    }
}

#[test]
fn texts_with_a_common_beginning_are_told_apart() {
    let mut rodeo = Rodeo::default();
    for length in 0..200 {
        assert_eq!(rodeo.get_or_intern("x".repeat(length)).into_usize(), length);
    }
    for length in 0..200 {
        assert_eq!(
            rodeo.resolve(&Spur::try_from_usize(length).unwrap()).len(),
            length
        );
    }
}

fn keys(mut rodeo: Rodeo) -> Vec<usize> {
    (0..3000)
        .map(|number| {
            rodeo
                .get_or_intern(format!("text {}", number * number % 1009))
                .into_usize()
        })
        .collect()
}

#[test]
fn keys_do_not_depend_on_the_seed() {
    let fixed = keys(Rodeo::with_seed(0, 0));
    assert_eq!(fixed, keys(Rodeo::with_seed(u64::MAX, 1)));
    assert_eq!(fixed, keys(Rodeo::new()));
    assert_eq!(fixed, keys(Rodeo::with_seed(7, 9).clone()));
}
