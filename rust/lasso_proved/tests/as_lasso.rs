//! A program that was written for lasso, with one line changed.

use lasso_proved as lasso;

use lasso::{
    Capacity, Interner, LassoResult, MemoryLimits, Resolver, Rodeo, RodeoReader, RodeoResolver,
    Spur,
};
use std::collections::HashMap;
use std::num::NonZeroUsize;
use std::sync::Mutex;

/// Names with the lines on which each was seen.
struct Names<'a> {
    rodeo: &'a mut Rodeo<Spur>,
    lines: HashMap<Spur, Vec<usize>>,
}

impl Names<'_> {
    fn see(&mut self, line: usize, name: &str) -> LassoResult<Spur> {
        let key = self.rodeo.try_get_or_intern(name)?;
        self.lines.entry(key).or_default().push(line);
        Ok(key)
    }
}

struct Compiler {
    names: RodeoReader,
    limits: MemoryLimits,
}

fn longest<'a>(strings: lasso::Strings<'a, Spur>) -> Option<&'a str> {
    strings.max_by_key(|text| text.len())
}

fn entries<'a>(resolver: &'a RodeoResolver) -> lasso::Iter<'a, Spur> {
    resolver.iter()
}

fn shown(resolver: &dyn Resolver, keys: impl IntoIterator<Item = Spur>) -> String {
    keys.into_iter()
        .map(|key| resolver.resolve(&key).to_owned() + ";")
        .collect()
}

fn intern_twice(interner: &mut dyn Interner, text: &str) -> bool {
    interner.get_or_intern(text) == interner.get_or_intern(text)
}

static SHARED: Mutex<Option<Rodeo>> = Mutex::new(None);

#[test]
fn a_program_for_lasso_runs() -> Result<(), Box<dyn std::error::Error>> {
    let capacity = Capacity::new(100, NonZeroUsize::new(1024).ok_or("0")?);
    let mut rodeo = Rodeo::with_capacity(capacity);
    let mut names = Names {
        rodeo: &mut rodeo,
        lines: HashMap::new(),
    };
    let main = names.see(1, "main")?;
    names.see(2, "print")?;
    assert_eq!(names.see(9, "main")?, main);
    assert_eq!(names.lines[&main], [1, 9]);

    assert!(intern_twice(&mut rodeo, "a rather long name"));
    assert_eq!(longest(rodeo.strings()), Some("a rather long name"));
    *SHARED.lock()? = Some(rodeo.clone());

    let compiler = Compiler {
        names: rodeo.into_reader(),
        limits: MemoryLimits::default(),
    };
    assert_eq!(compiler.limits.max_memory_usage(), usize::MAX);
    assert_eq!(shown(&compiler.names, [main, main]), "main;main;");
    let resolver = compiler.names.into_resolver();
    assert_eq!(
        entries(&resolver)
            .map(|(_, text)| text.len())
            .sum::<usize>(),
        27
    );
    assert!(SHARED.lock()?.as_ref().ok_or("none")? == &resolver);
    Ok(())
}
