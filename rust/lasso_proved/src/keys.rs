//! Keys: small values that stand for positions in an interner's list of texts.

use std::fmt::{self, Debug};
use std::num::{NonZeroU16, NonZeroU32, NonZeroU8, NonZeroUsize};

/// A type whose values stand for positions, counted from 0.
///
/// ```rust
/// use lasso_proved::{Key, Rodeo};
///
/// /// Keys of one byte for the first hundred positions. The other values of the byte stay free.
/// #[derive(Copy, Clone, PartialEq, Eq, Debug)]
/// struct Hundred(u8);
///
/// // SAFETY: `into_usize` returns the number that `try_from_usize` was given.
/// unsafe impl Key for Hundred {
///     fn into_usize(self) -> usize {
///         self.0.into()
///     }
///
///     fn try_from_usize(int: usize) -> Option<Self> {
///         u8::try_from(int).ok().filter(|it| *it < 100).map(Self)
///     }
/// }
///
/// let mut rodeo: Rodeo<Hundred> = Rodeo::new();
/// assert_eq!(rodeo.get_or_intern("red"), Hundred(0));
/// assert_eq!(rodeo.resolve(&Hundred(0)), "red");
/// ```
///
/// # Safety
///
/// A key made from a position has to give that position back, each time. Code that uses keys may
/// rely on it.
pub unsafe trait Key: Copy + Eq {
    /// The position that the key stands for.
    fn into_usize(self) -> usize;

    /// The key of a position, or `None` if the type has none for it, nor for a later one.
    fn try_from_usize(int: usize) -> Option<Self>;
}

// Key types that hold their position plus one, so that `Option` of them takes no more room.
macro_rules! spurs {
    ($($(#[$doc:meta])* $name:ident($inner:ident, $number:ident);)+) => {$(
        $(#[$doc])*
        ///
        /// It holds the position plus one, so that an `Option` of it has the same size.
        #[derive(Copy, Clone, PartialEq, Eq, PartialOrd, Ord, Hash)]
        #[repr(transparent)]
        pub struct $name {
            key: $inner,
        }

        impl $name {
            /// The number in the key: its position plus one.
            pub const fn into_inner(self) -> $inner {
                self.key
            }
        }

        // SAFETY: one function adds one to the position, and the other takes it off again; no sum wraps.
        unsafe impl Key for $name {
            fn into_usize(self) -> usize {
                self.key.get() as usize - 1
            }

            fn try_from_usize(int: usize) -> Option<Self> {
                let after = $number::try_from(int).ok()?.checked_add(1)?;
                $inner::new(after).map(|key| Self { key })
            }
        }

        /// The key of position 0.
        impl Default for $name {
            fn default() -> Self {
                Self::try_from_usize(0).expect("each of these types has a key for position 0")
            }
        }

        impl Debug for $name {
            fn fmt(&self, f: &mut fmt::Formatter<'_>) -> fmt::Result {
                f.write_str(concat!(stringify!($name), "("))?;
                Debug::fmt(&self.key, f)?;
                f.write_str(")")
            }
        }

        #[cfg(feature = "serialize")]
        impl serde::Serialize for $name {
            fn serialize<S: serde::Serializer>(&self, serializer: S) -> Result<S::Ok, S::Error> {
                self.key.serialize(serializer)
            }
        }

        #[cfg(feature = "serialize")]
        impl<'de> serde::Deserialize<'de> for $name {
            fn deserialize<D: serde::Deserializer<'de>>(deserializer: D) -> Result<Self, D::Error> {
                $inner::deserialize(deserializer).map(|key| Self { key })
            }
        }
    )+};
}

spurs! {
    /// A key of 32 bits, for positions up to 2^32 - 2. It is the default key.
    Spur(NonZeroU32, u32);
    /// A key of 16 bits, for positions up to 65534.
    MiniSpur(NonZeroU16, u16);
    /// A key of 8 bits, for positions up to 254.
    MicroSpur(NonZeroU8, u8);
    /// A key as large as `usize`, for positions up to `usize::MAX - 1`.
    LargeSpur(NonZeroUsize, usize);
}
