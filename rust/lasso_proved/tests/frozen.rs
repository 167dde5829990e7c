//! Readers and resolvers of a `Rodeo` and of a `ThreadedRodeo`, in one thread and in several; walks; and equality of the three
//! types.

mod support;

use lasso_proved::{Iter, Key, Rodeo, RodeoReader, RodeoResolver, Spur, Strings, ThreadedRodeo};
use std::sync::{Arc, Barrier};
use std::thread;
use support::{text_of, LENGTHS};

const TEXTS: [&str; 4] = ["", "red", "fourteen bytes", "a text of more than that"];

fn key(position: usize) -> Spur {
    Spur::try_from_usize(position).unwrap()
}

fn rodeo() -> Rodeo {
    TEXTS.into_iter().collect()
}

fn threaded() -> ThreadedRodeo {
    TEXTS.into_iter().collect()
}

fn readers() -> [RodeoReader; 2] {
    [rodeo().into_reader(), threaded().into_reader()]
}

fn resolvers() -> [RodeoResolver; 4] {
    [
        rodeo().into_resolver(),
        rodeo().into_reader().into_resolver(),
        threaded().into_resolver(),
        threaded().into_reader().into_resolver(),
    ]
}

#[test]
fn a_reader_has_the_keys_and_texts() {
    for reader in readers() {
        for (position, text) in TEXTS.into_iter().enumerate() {
            let key = key(position);
            assert_eq!(reader.get(text), Some(key));
            assert!(reader.contains(text) && reader.contains_key(&key));
            assert_eq!(
                (reader.resolve(&key), reader.try_resolve(&key)),
                (text, Some(text))
            );
            assert_eq!(&reader[key], text);
            // SAFETY: the reader has a text of this key.
            assert_eq!(unsafe { reader.resolve_unchecked(&key) }, text);
        }
        assert_eq!((reader.get("blue"), reader.contains("blue")), (None, false));
        assert_eq!(
            (reader.try_resolve(&key(4)), reader.contains_key(&key(4))),
            (None, false)
        );
        assert_eq!((reader.len(), reader.is_empty()), (4, false));
        let _: &std::collections::hash_map::RandomState = reader.hasher();
    }
}

#[test]
fn a_resolver_has_the_texts() {
    for resolver in resolvers() {
        for (position, text) in TEXTS.into_iter().enumerate() {
            let key = key(position);
            assert!(resolver.contains_key(&key));
            assert_eq!(
                (resolver.resolve(&key), resolver.try_resolve(&key)),
                (text, Some(text))
            );
            assert_eq!(&resolver[key], text);
            // SAFETY: the resolver has a text of this key.
            assert_eq!(unsafe { resolver.resolve_unchecked(&key) }, text);
        }
        assert_eq!(
            (
                resolver.try_resolve(&key(4)),
                resolver.contains_key(&key(4))
            ),
            (None, false)
        );
        assert_eq!((resolver.len(), resolver.is_empty()), (4, false));
    }
}

#[test]
fn frozen_forms_of_no_texts_have_none() {
    for reader in [
        Rodeo::default().into_reader(),
        ThreadedRodeo::default().into_reader(),
    ] {
        assert!(reader.is_empty() && reader.get("").is_none() && reader.iter().next().is_none());
        let resolver = reader.into_resolver();
        assert!(resolver.is_empty() && resolver.try_resolve(&key(0)).is_none());
        assert_eq!(resolver.strings().len(), 0);
    }
}

#[test]
#[should_panic(expected = "no text has the key of position 4")]
fn a_reader_panics_past_its_texts() {
    rodeo().into_reader().resolve(&key(4));
}

#[test]
#[should_panic(expected = "no text has the key of position 4")]
fn a_reader_of_a_threaded_rodeo_panics_past_its_texts() {
    threaded().into_reader().resolve(&key(4));
}

#[test]
#[should_panic(expected = "no text has the key of position 4: there are 4 texts")]
fn a_resolver_panics_past_its_texts() {
    rodeo().into_resolver().resolve(&key(4));
}

#[test]
#[should_panic(expected = "no text has the key of position 4: there are 4 texts")]
fn a_resolver_of_a_threaded_rodeo_panics_past_its_texts() {
    threaded().into_resolver().resolve(&key(4));
}

// Both walks give all texts from both ends, and know how many are left.
fn walks_give_all(iter: Iter<'_, Spur>, strings: Strings<'_, Spur>) {
    let entries: Vec<(Spur, &str)> = TEXTS
        .into_iter()
        .enumerate()
        .map(|(at, text)| (key(at), text))
        .collect();
    assert_eq!((iter.len(), strings.size_hint()), (4, (4, Some(4))));
    assert_eq!(iter.clone().collect::<Vec<_>>(), entries);
    assert!(iter.clone().rev().eq(entries.iter().rev().copied()));
    assert!(strings.clone().eq(TEXTS) && strings.clone().rev().eq(TEXTS.into_iter().rev()));
    assert_eq!(
        format!("{:?} {:?}", iter, strings),
        format!("{TEXTS:?} {TEXTS:?}")
    );

    let (mut front, mut texts) = (iter.clone(), strings.clone());
    assert_eq!(
        (front.nth(1), texts.nth(1)),
        (Some(entries[1]), Some(TEXTS[1]))
    );
    assert_eq!(
        (front.nth_back(1), texts.nth_back(1)),
        (Some(entries[2]), Some(TEXTS[2]))
    );
    assert_eq!((front.len(), texts.len()), (0, 0));
    for _ in 0..2 {
        assert_eq!((front.next(), front.next_back()), (None, None));
        assert_eq!((texts.next(), texts.next_back()), (None, None));
    }
    assert_eq!((iter.clone().nth(4), strings.clone().nth(9)), (None, None));
    assert_eq!((iter.count(), strings.last()), (4, Some(TEXTS[3])));
}

#[test]
fn walks_give_all_texts_from_both_ends() {
    let rodeo = rodeo();
    walks_give_all(rodeo.iter(), rodeo.strings());
    walks_give_all((&rodeo).into_iter(), rodeo.strings());
    let threaded = threaded();
    walks_give_all(threaded.iter(), threaded.strings());
    for reader in readers() {
        walks_give_all(reader.iter(), reader.strings());
        walks_give_all((&reader).into_iter(), reader.strings());
    }
    for resolver in resolvers() {
        walks_give_all(resolver.iter(), resolver.strings());
        walks_give_all((&resolver).into_iter(), resolver.strings());
    }
}

#[test]
fn equality_is_that_of_texts_in_their_order() {
    let lists: [&[&str]; 6] = [
        &[],
        &["a"],
        &["b"],
        &["a", "b"],
        &["b", "a"],
        &["a", "b", ""],
    ];
    for (left, right) in lists
        .iter()
        .flat_map(|left| lists.iter().map(move |right| (left, right)))
    {
        let equal = left == right;
        let rodeos: [Rodeo; 2] = [left.iter().collect(), right.iter().collect()];
        let readers: [RodeoReader; 2] = rodeos.clone().map(Rodeo::into_reader);
        let resolvers: [RodeoResolver; 2] = rodeos.clone().map(Rodeo::into_resolver);
        // Their texts were not copied.
        let kept: [RodeoResolver; 2] = [left, right].map(|texts| {
            let rodeo: ThreadedRodeo = texts.iter().collect();
            rodeo.into_resolver()
        });
        let told = [
            rodeos[0] == rodeos[1],
            rodeos[0] == readers[1],
            rodeos[0] == resolvers[1],
            readers[0] == rodeos[1],
            readers[0] == readers[1],
            readers[0] == resolvers[1],
            resolvers[0] == rodeos[1],
            resolvers[0] == readers[1],
            resolvers[0] == resolvers[1],
            kept[0] == rodeos[1],
            readers[0] == kept[1],
            kept[0] == resolvers[1],
            resolvers[0] == kept[1],
            kept[0] == kept[1],
        ];
        assert_eq!(told, [equal; 14], "{left:?} {right:?}");
    }
}

#[test]
fn debug_shows_the_texts() {
    let rodeo: Rodeo = ["red", "blue"].into_iter().collect();
    let threaded: ThreadedRodeo = ["red", "blue"].into_iter().collect();
    for reader in [rodeo.into_reader(), threaded.into_reader()] {
        assert_eq!(
            format!("{reader:?}"),
            r#"RodeoReader { strings: ["red", "blue"] }"#
        );
        assert_eq!(
            format!("{:?}", reader.into_resolver()),
            r#"RodeoResolver { strings: ["red", "blue"] }"#
        );
    }
}

#[test]
fn what_threads_may_move_and_share() {
    fn moves<T: Send>() {}
    fn shares<T: Send + Sync>() {}
    moves::<Rodeo>();
    shares::<ThreadedRodeo>();
    shares::<RodeoReader>();
    shares::<RodeoResolver>();
    shares::<Spur>();
}

#[test]
fn a_rodeo_moves_from_thread_to_thread() {
    let mut rodeo = rodeo();
    for round in 0..4 {
        rodeo = thread::spawn(move || {
            rodeo.get_or_intern(format!("a text of round {round}"));
            rodeo
        })
        .join()
        .unwrap();
    }
    assert_eq!(rodeo.len(), 8);
    assert_eq!(rodeo.resolve(&key(7)), "a text of round 3");
}

#[test]
fn threads_share_a_reader() {
    let texts: Vec<String> = (0..400)
        .map(|it| text_of(1000 + it, [4, 14, 15, 16, 90][it % 5]))
        .collect();
    let rodeo: Rodeo = texts.iter().collect();
    let reader = Arc::new(rodeo.into_reader());
    let together = Arc::new(Barrier::new(4));
    let threads = [0, 1, 2, 3].map(|number| {
        let (reader, together, texts) = (Arc::clone(&reader), Arc::clone(&together), texts.clone());
        thread::spawn(move || {
            together.wait();
            for round in 0..20 {
                for (at, text) in texts.iter().enumerate().skip((number * 7 + round) % 50) {
                    assert_eq!(reader.get(text), Some(key(at)));
                    assert_eq!(reader.resolve(&key(at)), text);
                }
                assert_eq!(reader.get("no such text"), None);
                assert!(reader.strings().eq(texts.iter()));
            }
        })
    });
    drop(reader);
    for thread in threads {
        thread.join().unwrap();
    }
}

#[test]
fn threads_share_a_resolver() {
    let texts = || LENGTHS.iter().map(|length| text_of(7, *length));
    let rodeo: Rodeo = texts().collect();
    let threaded: ThreadedRodeo = texts().collect();
    for resolver in [rodeo.into_resolver(), threaded.into_resolver()] {
        thread::scope(|scope| {
            for _ in 0..4 {
                scope.spawn(|| {
                    for (position, text) in texts().enumerate() {
                        let key = key(position);
                        assert_eq!(resolver.resolve(&key), text);
                        assert_eq!(resolver.try_resolve(&key), Some(&text[..]));
                        // SAFETY: the resolver has a text of this key.
                        assert_eq!(unsafe { resolver.resolve_unchecked(&key) }, text);
                    }
                });
            }
        });
        thread::spawn(move || assert!(resolver.strings().eq(texts())))
            .join()
            .unwrap();
    }
}
