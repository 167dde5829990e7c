//! Why an interner refuses a text.

use std::error::Error;
use std::fmt;

/// What a call returns that may be refused.
pub type LassoResult<T> = Result<T, LassoError>;

/// A refusal. The interner is as it was before the call, unless the call says otherwise.
///
/// ```rust
/// use lasso_proved::{Key, MicroSpur, Rodeo};
///
/// let mut rodeo: Rodeo<MicroSpur> = (0..255).map(|number| number.to_string()).collect();
/// let error = rodeo.try_get_or_intern("one more").unwrap_err();
/// assert!(error.kind().is_keyspace_exhaustion());
/// ```
#[derive(Debug, Clone, PartialEq, Eq, Hash)]
pub struct LassoError {
    kind: LassoErrorKind,
}

impl LassoError {
    pub(crate) const fn new(kind: LassoErrorKind) -> Self {
        Self { kind }
    }

    /// What was missing.
    pub const fn kind(&self) -> LassoErrorKind {
        self.kind
    }
}

/// What a call returns that panics if it is refused.
#[track_caller]
pub(crate) fn or_panic<T>(result: LassoResult<T>) -> T {
    match result {
        Ok(value) => value,
        Err(error) => panic!("{error}"),
    }
}

impl fmt::Display for LassoError {
    fn fmt(&self, f: &mut fmt::Formatter<'_>) -> fmt::Result {
        write!(f, "the interner refused the call: {}", self.kind)
    }
}

impl Error for LassoError {}

/// What was missing when a call was refused.
#[derive(Debug, Copy, Clone, PartialEq, Eq, Hash)]
pub enum LassoErrorKind {
    /// The limit on the bytes of texts leaves no room for the text.
    MemoryLimitReached,
    /// The key type has no key for the next position, or the interner has 2^32 - 1 texts.
    KeySpaceExhaustion,
    /// Out of memory.
    FailedAllocation,
}

impl LassoErrorKind {
    /// Whether it is [`MemoryLimitReached`](Self::MemoryLimitReached).
    pub fn is_memory_limit(self) -> bool {
        self == Self::MemoryLimitReached
    }

    /// Whether it is [`KeySpaceExhaustion`](Self::KeySpaceExhaustion).
    pub fn is_keyspace_exhaustion(self) -> bool {
        self == Self::KeySpaceExhaustion
    }

    /// Whether it is [`FailedAllocation`](Self::FailedAllocation).
    pub fn is_failed_alloc(self) -> bool {
        self == Self::FailedAllocation
    }
}

impl fmt::Display for LassoErrorKind {
    fn fmt(&self, f: &mut fmt::Formatter<'_>) -> fmt::Result {
        f.write_str(match self {
            Self::MemoryLimitReached => "its memory limit has no room for the text",
            Self::KeySpaceExhaustion => "no key is left",
            Self::FailedAllocation => "out of memory",
        })
    }
}

#[cfg(test)]
mod tests {
    use super::*;

    #[test]
    fn each_kind_is_told_apart_and_named() {
        use LassoErrorKind::{FailedAllocation, KeySpaceExhaustion, MemoryLimitReached};
        let limit = "its memory limit has no room for the text";
        for (kind, told, name) in [
            (MemoryLimitReached, [true, false, false], limit),
            (KeySpaceExhaustion, [false, true, false], "no key is left"),
            (FailedAllocation, [false, false, true], "out of memory"),
        ] {
            let is = [
                kind.is_memory_limit(),
                kind.is_keyspace_exhaustion(),
                kind.is_failed_alloc(),
            ];
            assert_eq!(is, told);
            assert_eq!(LassoError::new(kind).kind(), kind);
            let error: Box<dyn Error> = Box::new(LassoError::new(kind));
            assert!(error.to_string().ends_with(name));
        }
    }
}
