use crate::{Answer, Refusal, Work, FILES_WORDS, INDEXES_WORDS, RESULT_WORDS, SETS_WORDS};
use alloc::{vec, vec::Vec};

/// The slices of [`Work`] and a result, on the heap. They may have any length: one that is shorter than its constant is
/// refused by [`Refusal::WorkTooShort`] or [`Refusal::ResultTooShort`].
///
/// ```
/// let mut buffers = abe::Buffers::new();
/// let refusal = buffers.run(&[], b"", b"", 100).unwrap_err();
/// assert_eq!(refusal, abe::Refusal::DataLayout);
/// ```
#[derive(Clone, Debug, PartialEq, Eq)]
pub struct Buffers {
    /// The sets under way: [`SETS_WORDS`] or more.
    pub sets: Vec<i64>,
    /// The aggregate files: [`FILES_WORDS`] or more.
    pub files: Vec<i64>,
    /// The indexes: [`INDEXES_WORDS`] or more.
    pub indexes: Vec<u16>,
    /// The result: [`RESULT_WORDS`] or more. The rows of the last run that was accepted stand in front.
    pub result: Vec<i64>,
}

impl Default for Buffers {
    fn default() -> Self {
        Self::new()
    }
}

impl Buffers {
    /// Buffers of the least lengths, all zero.
    pub fn new() -> Self {
        Buffers {
            sets: vec![0; SETS_WORDS],
            files: vec![0; FILES_WORDS],
            indexes: vec![0; INDEXES_WORDS],
            result: vec![0; RESULT_WORDS],
        }
    }

    /// [`Work::run`] in these buffers. The answer borrows them all; to keep one while the next runs, lend a result to
    /// [`Work::run`].
    ///
    /// # Errors
    ///
    /// The lowest number that applies, of all in [`Refusal`].
    pub fn run(&mut self, data: &[i32], question: &[u8], plan: &[u8], budget: u64) -> Result<Answer<'_>, Refusal> {
        let Buffers { sets, files, indexes, result } = self;
        Work { sets, files, indexes }.run(data, question, plan, budget, result)
    }
}
