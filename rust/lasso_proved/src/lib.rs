//! A string interner with the names and signatures of lasso 0.7.3, over a library that is proved.
//!
//! An interner stores each distinct text once and returns a small key for it. Equal texts have
//! equal keys, keys count up from 0, and a key resolves to its text. [`Rodeo`] interns in one
//! thread, [`ThreadedRodeo`] in many at once. [`RodeoReader`] and [`RodeoResolver`] are made from
//! either once all texts are interned; threads may share them.
//!
//! A program that uses lasso takes this crate in its place by one line of its `Cargo.toml`,
//! `lasso = { package = "lasso_proved", path = ".." }`, or by one line of Rust:
//!
//! ```rust
//! use lasso_proved as lasso;
//! use lasso::Rodeo;
//!
//! let mut rodeo = Rodeo::default();
//! let red = rodeo.get_or_intern("red");
//! let blue = rodeo.get_or_intern("blue");
//!
//! assert_eq!(rodeo.get_or_intern("red"), red);
//! assert_ne!(red, blue);
//! assert_eq!(rodeo.resolve(&blue), "blue");
//! assert_eq!(rodeo.get("green"), None);
//! ```
//!
//! What is proved is the library: which code a text gets, which text a code has, what a limit
//! refuses. This crate is ordinary Rust over it. Its README says what differs from lasso 0.7.3.

#![deny(missing_docs, missing_debug_implementations, unsafe_op_in_unsafe_fn)]
#![warn(clippy::undocumented_unsafe_blocks)]

mod error;
mod foreign;
mod foreign_shared;
mod frozen;
mod interface;
mod iter;
mod keys;
mod limits;
mod reader;
mod resolver;
mod rodeo;
mod seats;
#[cfg(feature = "serialize")]
mod serialize;
mod threaded;

pub use error::{LassoError, LassoErrorKind, LassoResult};
pub use interface::{Interner, IntoReader, IntoReaderAndResolver, IntoResolver, Reader, Resolver};
pub use iter::{Iter, Strings};
pub use keys::{Key, LargeSpur, MicroSpur, MiniSpur, Spur};
pub use limits::{Capacity, MemoryLimits};
pub use reader::RodeoReader;
pub use resolver::RodeoResolver;
pub use rodeo::Rodeo;
pub use threaded::ThreadedRodeo;
