//! The archive's three calls as they are, over slices: numbers of the caller's choice in, a number out. Every number, byte,
//! word and length may be given. `include/abe.h` says what each call leaves in its slices.
//!
//! The items at the head of the crate stand on these. [`Refusal::from_number`](crate::Refusal::from_number) names a number.

// Each slice as a pointer and its length in elements.
mod archive {
    extern "C" {
        pub fn abe_run(
            words: *const i32,
            words_len: usize,
            question: *const u8,
            question_len: usize,
            plan: *const u8,
            plan_len: usize,
            budget: u64,
            sets: *mut i64,
            sets_len: usize,
            files: *mut i64,
            files_len: usize,
            indexes: *mut u16,
            indexes_len: usize,
            result: *mut i64,
            result_len: usize,
            figures: *mut u64,
            figures_len: usize,
        ) -> u8;
        pub fn abe_index(words: *const i32, words_len: usize, table: u32, column: u32, out: *mut u16, out_len: usize) -> u8;
        pub fn abe_chart(operation: u32, relation: u32, met: *mut u8, met_len: usize) -> u8;
    }
}

/// A run. Gives its number, 0 to 13. The figures are number, rows, columns and trials; where fewer than four words are lent
/// for them the number is 1 and nothing is changed.
///
/// ```
/// let (mut sets, mut files) = ([0; abe::SETS_WORDS], [0; abe::FILES_WORDS]);
/// let (mut indexes, mut result) = ([0; abe::INDEXES_WORDS], [0; abe::RESULT_WORDS]);
/// let mut figures = [0; abe::FIGURES_WORDS];
/// // One table of one column with the rows 5 and 3; the question puts out the column.
/// let data = [1, 1, 2, 5, 3];
/// let question = b"BK\xffRW\0\x01\x02\0\0\0\0\0\0\0\0OL\x01\x02\0\0\0\0\0\0\0\0EN";
/// let number = abe::raw::run(
///     &data, question, b"PL\0\0", 100, &mut sets, &mut files, &mut indexes, &mut result, &mut figures,
/// );
/// assert_eq!((number, figures), (0, [0, 2, 1, 2]));
/// assert_eq!(result[..4], [3, 1, 5, 1]);
/// ```
#[allow(clippy::too_many_arguments)] // As many as the archive's function has.
pub fn run(
    data: &[i32],
    question: &[u8],
    plan: &[u8],
    budget: u64,
    sets: &mut [i64],
    files: &mut [i64],
    indexes: &mut [u16],
    result: &mut [i64],
    figures: &mut [u64],
) -> u8 {
    // SAFETY: every pointer and length are those of one live slice, and the slices that are written are borrowed mutably.
    unsafe {
        archive::abe_run(
            data.as_ptr(),
            data.len(),
            question.as_ptr(),
            question.len(),
            plan.as_ptr(),
            plan.len(),
            budget,
            sets.as_mut_ptr(),
            sets.len(),
            files.as_mut_ptr(),
            files.len(),
            indexes.as_mut_ptr(),
            indexes.len(),
            result.as_mut_ptr(),
            result.len(),
            figures.as_mut_ptr(),
            figures.len(),
        )
    }
}

/// The index of a column, its row numbers into `out`. Gives 0, or 3, 4, 7 (absent table or column) or 2 (`out` has fewer
/// words than the table has rows), in this order; a refusal keeps `out`.
///
/// ```
/// let mut out = [9; 3];
/// assert_eq!((abe::raw::index(&[1, 1, 2, 5, 3], 0, 0, &mut out), out), (0, [1, 0, 9]));
/// assert_eq!(abe::raw::index(&[1, 1, 2, 5, 3], 1, 0, &mut out), 7);
/// ```
pub fn index(data: &[i32], table: u32, column: u32, out: &mut [u16]) -> u8 {
    // SAFETY: both pointers and lengths are those of one live slice each, and `out` is borrowed mutably.
    unsafe { archive::abe_index(data.as_ptr(), data.len(), table, column, out.as_mut_ptr(), out.len()) }
}

/// The chart of the operators, by number: whether a condition of this operation is met by values that stand in this
/// relation, into `met[0]` as 1 or 0. Gives 0, or 2 (`met` has no byte) or 5 (operation over 5, relation over 3), in this
/// order; a refusal keeps `met`.
///
/// ```
/// let mut met = [7, 7];
/// assert_eq!(abe::raw::chart(3, 1, &mut met), 0);
/// assert_eq!(met, [1, 7]);
/// assert_eq!(abe::raw::chart(6, 1, &mut met), 5);
/// ```
pub fn chart(operation: u32, relation: u32, met: &mut [u8]) -> u8 {
    // SAFETY: the pointer and the length are those of one live slice, which is borrowed mutably.
    unsafe { archive::abe_chart(operation, relation, met.as_mut_ptr(), met.len()) }
}
