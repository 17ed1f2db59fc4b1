//! The query engine for Rust programs, on x86-64 Linux. A call takes data, a question and a plan, and works in slices that
//! the caller lends. It allocates nothing and keeps nothing between calls. `docs/FORMATS.md` of the repository has the bytes
//! of the three, and what a question means.
//!
//! This question asks for all rows of a table that has one column and the rows 5 and 3; the plan reads it by file:
//!
#![cfg_attr(feature = "buffers", doc = "```")]
#![cfg_attr(not(feature = "buffers"), doc = "```ignore")]
//! let mut buffers = abe::Buffers::new();
//! let data = [1, 1, 2, 5, 3];
//! let question = b"BK\xffRW\0\x01\x02\0\0\0\0\0\0\0\0OL\x01\x02\0\0\0\0\0\0\0\0EN";
//! let answer = buffers.run(&data, question, b"PL\0\0", 100)?;
//! assert_eq!((answer.columns(), answer.trials()), (1, 2));
//! assert!(answer.rows().map(|row| row[0]).eq([abe::Value::whole(3), abe::Value::whole(5)]));
//! assert_eq!(buffers.run(&data, question, b"PL\0\0", 1), Err(abe::Refusal::OverBudget { budget: 1 }));
//! # Ok::<(), abe::Refusal>(())
//! ```
//!
//! | Item | What |
//! |---|---|
//! | [`Work`] | three slices to work in, lent by the caller; its [`run`](Work::run) is the base of all runs |
//! | `Buffers` | the same and the result on the heap, for convenience: cargo feature `buffers`, on by default |
//! | [`Answer`], [`Row`], [`Value`] | what an accepted question gives, read where it lies in the result |
//! | [`Refusal`] | every cause by which a call is refused |
//! | [`index`], [`chart`] | the index of a column; the chart of the operators |
//! | [`raw`] | the three calls as the archive has them: slices in, a number out |
//!
//! Without its features the crate needs `core` alone: no `std`, no allocator.
#![no_std]
#![deny(missing_docs)]

#[cfg(feature = "buffers")]
extern crate alloc;

mod answer;
#[cfg(feature = "buffers")]
mod buffers;
mod index;
mod operators;
pub mod raw;
mod refusal;
mod value;
mod work;

pub use answer::{Answer, Row, Rows};
#[cfg(feature = "buffers")]
pub use buffers::Buffers;
pub use index::index;
pub use operators::{chart, Operator, Relation};
pub use refusal::Refusal;
pub use value::Value;
pub use work::Work;

/// The least length of [`Work::sets`], in words.
pub const SETS_WORDS: usize = 8192;
/// The least length of [`Work::files`], in words.
pub const FILES_WORDS: usize = 8192;
/// The least length of [`Work::indexes`], in words.
pub const INDEXES_WORDS: usize = 1280;
/// The least length of a result, in words.
pub const RESULT_WORDS: usize = 2048;
/// The least length of the figures of [`raw::run`], in words.
pub const FIGURES_WORDS: usize = 4;
