//! The texts of an interner, for their keys.

use crate::foreign::SharedHandle;
use crate::iter::TextList;
use crate::Spur;
use std::marker::PhantomData;

/// The texts of a [`Rodeo`](crate::Rodeo) or a [`ThreadedRodeo`](crate::ThreadedRodeo), which change
/// no more. It finds the texts of keys, and not the keys of texts. Threads may share it.
///
/// One of a `Rodeo` or its reader has copied the texts into one piece of memory, and takes 8 bytes for
/// each besides. One of a `ThreadedRodeo` or its reader has copied none: it keeps the interner's memory,
/// and takes 16 bytes for each text besides.
///
/// ```rust
/// use lasso_proved::Rodeo;
///
/// let mut rodeo = Rodeo::default();
/// let key = rodeo.get_or_intern("red");
/// let resolver = rodeo.into_resolver();
/// assert_eq!(resolver.resolve(&key), "red");
/// assert_eq!(&resolver[key], "red");
/// ```
pub struct RodeoResolver<K = Spur> {
    pub(crate) texts: Texts,
    key: PhantomData<K>,
}

/// Texts that change no more.
pub(crate) enum Texts {
    // One after the other, and where each ends.
    Copied {
        joined: Box<str>,
        ends: Box<[usize]>,
    },
    // Where the interner has them.
    Kept(SharedHandle),
}

impl TextList for Texts {
    fn len(&self) -> usize {
        match self {
            Texts::Copied { ends, .. } => ends.len(),
            Texts::Kept(handle) => handle.len(),
        }
    }

    fn text(&self, position: usize) -> Option<&str> {
        match self {
            Texts::Copied { joined, ends } => {
                let end = *ends.get(position)?;
                let start = position.checked_sub(1).map_or(0, |before| ends[before]);
                Some(&joined[start..end])
            }
            Texts::Kept(handle) => handle.text(position),
        }
    }
}

impl<K> RodeoResolver<K> {
    /// Copies texts. Some may be equal.
    pub(crate) fn with_texts<'a>(texts: impl Iterator<Item = &'a str> + Clone) -> Self {
        let mut joined = String::with_capacity(texts.clone().map(str::len).sum());
        let ends = texts.map(|text| {
            joined.push_str(text);
            joined.len()
        });
        let ends = ends.collect();
        Self::of(Texts::Copied {
            ends,
            joined: joined.into_boxed_str(),
        })
    }

    /// Keeps the texts where they are.
    pub(crate) fn with_handle(handle: SharedHandle) -> Self {
        Self::of(Texts::Kept(handle))
    }

    fn of(texts: Texts) -> Self {
        Self {
            texts,
            key: PhantomData,
        }
    }
}
