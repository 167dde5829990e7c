//! The interfaces: generic code, borrowed and boxed interners, and objects.

use lasso_proved::{
    Interner, IntoReader, IntoReaderAndResolver, IntoResolver, Key, LassoResult, Reader, Resolver,
    Rodeo, RodeoReader, RodeoResolver, Spur, ThreadedRodeo,
};

const TEXTS: [&str; 3] = ["red", "green", "a text of more than fourteen bytes"];

fn key(position: usize) -> Spur {
    Spur::try_from_usize(position).unwrap()
}

fn intern_all(mut interner: impl Interner) {
    assert!(interner.is_empty());
    assert_eq!(interner.get_or_intern(TEXTS[0]), key(0));
    assert_eq!(interner.try_get_or_intern(TEXTS[1]), Ok(key(1)));
    assert_eq!(interner.get_or_intern_static(TEXTS[2]), key(2));
    assert_eq!(interner.try_get_or_intern_static(TEXTS[0]), Ok(key(0)));
    read_all(&interner);
}

fn read_all(reader: impl Reader) {
    for (position, text) in TEXTS.into_iter().enumerate() {
        assert_eq!(reader.get(text), Some(key(position)));
        assert!(reader.contains(text));
    }
    assert_eq!((reader.get("blue"), reader.contains("blue")), (None, false));
    resolve_all(&reader);
}

fn resolve_all(resolver: impl Resolver) {
    for (position, text) in TEXTS.into_iter().enumerate() {
        let key = key(position);
        assert!(resolver.contains_key(&key));
        assert_eq!(
            (resolver.resolve(&key), resolver.try_resolve(&key)),
            (text, Some(text))
        );
        // SAFETY: there is a text of this key.
        assert_eq!(unsafe { resolver.resolve_unchecked(&key) }, text);
    }
    assert_eq!(
        (
            resolver.contains_key(&key(3)),
            resolver.try_resolve(&key(3))
        ),
        (false, None)
    );
    assert_eq!((resolver.len(), resolver.is_empty()), (3, false));
}

#[test]
fn an_interner_serves_as_itself_borrowed_and_boxed() {
    intern_all(Rodeo::default());
    intern_all(&mut Rodeo::default());
    intern_all(&mut &mut Rodeo::default());
    intern_all(Box::new(Rodeo::default()));
    intern_all(Box::new(Rodeo::default()) as Box<dyn Interner>);
    intern_all(ThreadedRodeo::default());
    intern_all(&ThreadedRodeo::default());
    intern_all(&mut &ThreadedRodeo::default());
    intern_all(Box::new(ThreadedRodeo::default()) as Box<dyn Interner>);
}

#[test]
fn a_reader_serves_as_itself_borrowed_and_boxed() {
    let rodeo: Rodeo = TEXTS.into_iter().collect();
    let mut reader = rodeo.into_reader();
    read_all(&reader);
    read_all(&mut reader);
    read_all(Box::new(reader));
    let rodeo: Rodeo = TEXTS.into_iter().collect();
    read_all(Box::new(rodeo.into_reader()) as Box<dyn Reader>);
}

#[test]
fn a_resolver_serves_as_itself_borrowed_and_boxed() {
    let rodeo: Rodeo = TEXTS.into_iter().collect();
    let mut resolver = rodeo.into_resolver();
    resolve_all(&resolver);
    resolve_all(&mut resolver);
    resolve_all(Box::new(resolver) as Box<dyn Resolver>);
}

fn freeze<I: IntoReader + 'static>(mut interner: I) -> I::Reader {
    for text in TEXTS {
        interner.get_or_intern(text);
    }
    interner.into_reader()
}

fn resolver_of<R: IntoResolver + 'static>(reader: R) -> R::Resolver {
    reader.into_resolver()
}

type AnyInterner = dyn IntoReaderAndResolver<Spur, Reader = RodeoReader, Resolver = RodeoResolver>;

fn boxed() -> [Box<AnyInterner>; 2] {
    [
        Box::new(Rodeo::default()),
        Box::new(ThreadedRodeo::default()),
    ]
}

#[test]
fn interners_become_readers_and_resolvers() {
    read_all(freeze(Rodeo::default()));
    read_all(freeze(Box::new(Rodeo::default())));
    read_all(freeze(Box::new(Box::new(Rodeo::default()))));
    read_all(freeze(ThreadedRodeo::default()));
    resolve_all(resolver_of(freeze(Box::new(ThreadedRodeo::default()))));
    for interner in boxed() {
        read_all(freeze(interner));
    }
    resolve_all(resolver_of(freeze(Rodeo::default())));
    resolve_all(resolver_of(Box::new(freeze(Rodeo::default()))));
    for mut interner in boxed() {
        for text in TEXTS {
            interner.get_or_intern_static(text);
        }
        resolve_all(resolver_of(interner));
    }
}

/// An interner of another crate. Each call gives another answer, so that none can stand for another.
struct Fixed;

impl Resolver for Fixed {
    fn resolve<'a>(&'a self, _: &Spur) -> &'a str {
        "checked"
    }
    fn try_resolve<'a>(&'a self, _: &Spur) -> Option<&'a str> {
        None
    }
    unsafe fn resolve_unchecked<'a>(&'a self, _: &Spur) -> &'a str {
        "unchecked"
    }
    fn contains_key(&self, _: &Spur) -> bool {
        true
    }
    fn len(&self) -> usize {
        7
    }
    fn is_empty(&self) -> bool {
        true
    }
}

impl Reader for Fixed {
    fn get(&self, _: &str) -> Option<Spur> {
        Some(key(1))
    }
    fn contains(&self, _: &str) -> bool {
        false
    }
}

impl Interner for Fixed {
    fn get_or_intern(&mut self, _: &str) -> Spur {
        key(2)
    }
    fn try_get_or_intern(&mut self, _: &str) -> LassoResult<Spur> {
        Ok(key(3))
    }
    fn get_or_intern_static(&mut self, _: &'static str) -> Spur {
        key(4)
    }
    fn try_get_or_intern_static(&mut self, _: &'static str) -> LassoResult<Spur> {
        Ok(key(5))
    }
}

fn each_call_is_the_inner_one(mut interner: impl Interner) {
    assert_eq!(
        (interner.resolve(&key(0)), interner.try_resolve(&key(0))),
        ("checked", None)
    );
    // SAFETY: this interner has a text for any key.
    assert_eq!(unsafe { interner.resolve_unchecked(&key(0)) }, "unchecked");
    assert_eq!(
        (
            interner.contains_key(&key(0)),
            interner.len(),
            interner.is_empty()
        ),
        (true, 7, true)
    );
    assert_eq!(
        (interner.get(""), interner.contains("")),
        (Some(key(1)), false)
    );
    assert_eq!(
        (interner.get_or_intern(""), interner.try_get_or_intern("")),
        (key(2), Ok(key(3)))
    );
    assert_eq!(
        (
            interner.get_or_intern_static(""),
            interner.try_get_or_intern_static("")
        ),
        (key(4), Ok(key(5)))
    );
}

#[test]
fn a_call_of_what_is_borrowed_or_boxed_is_the_inner_call() {
    each_call_is_the_inner_one(Fixed);
    each_call_is_the_inner_one(&mut Fixed);
    each_call_is_the_inner_one(Box::new(Fixed));
    each_call_is_the_inner_one(Box::new(Fixed) as Box<dyn Interner>);
    let by_reference: &dyn Reader = &&Fixed;
    assert_eq!(
        (by_reference.resolve(&key(0)), by_reference.get("")),
        ("checked", Some(key(1)))
    );
    assert_eq!(
        (by_reference.is_empty(), by_reference.contains("")),
        (true, false)
    );
}
