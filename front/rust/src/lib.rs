//! The query engine for Rust programs. `include/abe.h` has the meaning of the numbers; the scope paper the formats of data,
//! question and plan.
//!
//! ```
//! let mut buffers = abe::Buffers::new();
//! // One table of one column with the rows 5 and 3; block 0: RW table 0, variable 0; output variable 0; plan: file.
//! let data = [1, 1, 2, 5, 3];
//! let question = b"BK\xffRW\0\x01\x02\0\0\0\0\0\0\0\0OL\x01\x02\0\0\0\0\0\0\0\0EN";
//! let answer = buffers.run(&data, question, b"PL\0\0", 100);
//! assert_eq!((answer.number, answer.columns, answer.trials), (0, 1, 2));
//! assert_eq!(answer.rows, [[(3, 1)], [(5, 1)]]);
//! ```

/// Least lengths of the buffers, in elements.
pub const SETS_WORDS: usize = 8192;
pub const FILES_WORDS: usize = 8192;
pub const INDEXES_WORDS: usize = 1280;
pub const RESULT_WORDS: usize = 2048;

/// Operators of a condition: the byte after CD in a question, and the operation of `chart`.
pub const OPERATOR_EQUAL: u32 = 0;
pub const OPERATOR_NOT_EQUAL: u32 = 1;
pub const OPERATOR_LESS: u32 = 2;
pub const OPERATOR_LESS_EQUAL: u32 = 3;
pub const OPERATOR_GREATER: u32 = 4;
pub const OPERATOR_GREATER_EQUAL: u32 = 5;

/// How the first of two values stands to the second: the relation of `chart`. Absent: one of the two is, or both.
pub const RELATION_LESS: u32 = 0;
pub const RELATION_EQUAL: u32 = 1;
pub const RELATION_GREATER: u32 = 2;
pub const RELATION_ABSENT: u32 = 3;

// The archive's three functions: each slice as a pointer and its length.
mod archive {
    extern "C" {
        pub fn abe_run(
            words: *const i32,
            words_len: usize,
            question: *const u8,
            question_len: usize,
            plan: *const u8,
            plan_len: usize,
            budget: u64,
            sets: *mut i64,
            sets_len: usize,
            files: *mut i64,
            files_len: usize,
            indexes: *mut u16,
            indexes_len: usize,
            result: *mut i64,
            result_len: usize,
            figures: *mut u64,
            figures_len: usize,
        ) -> u8;
        pub fn abe_index(words: *const i32, words_len: usize, table: u32, column: u32, out: *mut u16, out_len: usize) -> u8;
        pub fn abe_chart(operation: u32, relation: u32, met: *mut u8, met_len: usize) -> u8;
    }
}

/// What a run answers. Rows and columns are none unless the number is 0; trials are 0 under 1 to 11, the budget under 12.
#[derive(Clone, Debug, PartialEq, Eq)]
pub struct Answer {
    /// 0 if accepted, else the cause of refusal.
    pub number: u8,
    /// The rows, each once, ascending by exact value, first column first and absent before every other value; the same for every
    /// plan, budget and buffers. A value is numerator and denominator, in lowest terms, the denominator positive; or `absent`.
    pub rows: Vec<Vec<(i64, i64)>>,
    pub columns: usize,
    pub trials: u64,
}

/// Whether a value is absent: 0 and 0, as min, max and ave of no values are. Its cross products are 0, so ask for it before
/// values are compared.
///
/// ```
/// assert!(abe::absent((0, 0)) && !abe::absent((0, 1)) && !abe::absent((1823, 2)));
/// ```
pub fn absent(value: (i64, i64)) -> bool {
    value == (0, 0)
}

/// The lent buffers of a run: three to work in and the result. They may have any length: shorter than the constants gets
/// number 1 (2 for the result). After every number but 1 the work buffers are zero in their named lengths; the result keeps
/// its words on refusal, and those past its rows when accepted.
#[derive(Clone, Debug, PartialEq, Eq)]
pub struct Buffers {
    pub sets: Vec<i64>,
    pub files: Vec<i64>,
    pub indexes: Vec<u16>,
    pub result: Vec<i64>,
}

impl Default for Buffers {
    fn default() -> Self {
        Self::new()
    }
}

impl Buffers {
    /// Buffers of the least lengths, all zero.
    pub fn new() -> Self {
        Buffers {
            sets: vec![0; SETS_WORDS],
            files: vec![0; FILES_WORDS],
            indexes: vec![0; INDEXES_WORDS],
            result: vec![0; RESULT_WORDS],
        }
    }

    /// The archive's call with these buffers and any number of words for the figures; gives the number.
    fn call(&mut self, data: &[i32], question: &[u8], plan: &[u8], budget: u64, figures: &mut [u64]) -> u8 {
        // SAFETY: every pointer and length are those of one live slice, and the mutable ones are of different vectors and a
        // slice that is borrowed mutably.
        unsafe {
            archive::abe_run(
                data.as_ptr(),
                data.len(),
                question.as_ptr(),
                question.len(),
                plan.as_ptr(),
                plan.len(),
                budget,
                self.sets.as_mut_ptr(),
                self.sets.len(),
                self.files.as_mut_ptr(),
                self.files.len(),
                self.indexes.as_mut_ptr(),
                self.indexes.len(),
                self.result.as_mut_ptr(),
                self.result.len(),
                figures.as_mut_ptr(),
                figures.len(),
            )
        }
    }

    /// Answers a question over the data's tables by a plan, with at most `budget` trials. Its rows stand in front of
    /// `self.result`, in the order of the answer: two plans that are accepted leave the same words there.
    pub fn run(&mut self, data: &[i32], question: &[u8], plan: &[u8], budget: u64) -> Answer {
        let mut figures = [0u64; 4];
        let number = self.call(data, question, plan, budget, &mut figures);
        debug_assert_eq!(figures[0], number as u64);
        let (rows, columns) = (figures[1] as usize, figures[2] as usize);
        let value = |place: usize| (self.result[2 * place], self.result[2 * place + 1]);
        let rows = (0..rows).map(|r| (0..columns).map(|c| value(r * columns + c)).collect()).collect();
        Answer { number, rows, columns, trials: figures[3] }
    }
}

/// The index of a column into `out`: the table's row numbers by value, then row number. Gives the number: 0, or 3, 4, 7
/// (absent table or column), 2 (`out` has fewer words than the table rows); a refusal keeps `out`.
pub fn index(data: &[i32], table: u32, column: u32, out: &mut [u16]) -> u8 {
    // SAFETY: both pointers and lengths are those of one live slice each, and `out` is borrowed mutably.
    unsafe { archive::abe_index(data.as_ptr(), data.len(), table, column, out.as_mut_ptr(), out.len()) }
}

/// The chart of the operators: whether a condition of this operation is met by two values that stand in this relation, into
/// `met[0]` as 1 or 0. Where one of them is absent, or both, none is met. Gives the number: 0, or 2 (`met` has no byte), 5
/// (operation over 5, relation over 3); a refusal keeps `met`.
///
/// ```
/// let mut met = [7, 7];
/// assert_eq!(abe::chart(abe::OPERATOR_LESS_EQUAL, abe::RELATION_EQUAL, &mut met), 0);
/// assert_eq!(met, [1, 7]);
/// assert_eq!(abe::chart(abe::OPERATOR_NOT_EQUAL, abe::RELATION_ABSENT, &mut met), 0);
/// assert_eq!(met, [0, 7]);
/// ```
pub fn chart(operation: u32, relation: u32, met: &mut [u8]) -> u8 {
    // SAFETY: the pointer and the length are those of one live slice, which is borrowed mutably.
    unsafe { archive::abe_chart(operation, relation, met.as_mut_ptr(), met.len()) }
}

#[cfg(test)]
mod tests {
    use super::*;

    /// The figures' buffer, which `run` always lends whole: fewer than four words are number 1 and change nothing; the words
    /// past the fourth are kept.
    #[test]
    fn figures() {
        let question = b"BK\xffRW\0\x01\x02\0\0\0\0\0\0\0\0OL\x01\x02\0\0\0\0\0\0\0\0EN";
        let (data, plan) = ([1, 1, 2, 5, 3], *b"PL\0\0");
        for length in 0..6 {
            let mut lent = Buffers {
                sets: vec![1; SETS_WORDS],
                files: vec![2; FILES_WORDS],
                indexes: vec![4; INDEXES_WORDS],
                result: vec![3; RESULT_WORDS],
            };
            let before = lent.clone();
            let mut figures = [9u64; 6];
            let number = lent.call(&data, question, &plan, 2, &mut figures[..length]);
            if length < 4 {
                assert_eq!((number, figures), (1, [9; 6]));
                assert!(lent == before);
            } else {
                assert_eq!((number, figures), (0, [0, 2, 1, 2, 9, 9]));
                assert_eq!(lent.result[..5], [3, 1, 5, 1, 3]);
                assert!(lent.sets.iter().chain(&lent.files).all(|w| *w == 0) && lent.indexes.iter().all(|w| *w == 0));
            }
        }
    }
}
