use crate::{raw, Answer, Refusal, FIGURES_WORDS};

/// Three slices that a run works in, lent by the caller. What stands in them before a run is of no matter, and they may be
/// longer than needed.
///
/// After a run the named lengths of the three are zero, whether it was accepted or refused, and the words past them are as
/// they were. [`Refusal::WorkTooShort`] alone changes none of them.
///
/// ```
/// let (mut sets, mut files) = ([0; abe::SETS_WORDS], [0; abe::FILES_WORDS]);
/// let (mut indexes, mut result) = ([0; abe::INDEXES_WORDS], [0; abe::RESULT_WORDS]);
/// let mut work = abe::Work { sets: &mut sets, files: &mut files, indexes: &mut indexes };
/// // One table of one column with the rows 5 and 3; block 0: RW table 0, variable 0; output variable 0; plan: file.
/// let data = [1, 1, 2, 5, 3];
/// let question = b"BK\xffRW\0\x01\x02\0\0\0\0\0\0\0\0OL\x01\x02\0\0\0\0\0\0\0\0EN";
/// let answer = work.run(&data, question, b"PL\0\0", 100, &mut result)?;
/// assert!(answer.rows().map(|row| row[0]).eq([abe::Value::whole(3), abe::Value::whole(5)]));
/// # Ok::<(), abe::Refusal>(())
/// ```
#[derive(Debug)]
pub struct Work<'a> {
    /// The sets under way: [`SETS_WORDS`](crate::SETS_WORDS) or more.
    pub sets: &'a mut [i64],
    /// The aggregate files: [`FILES_WORDS`](crate::FILES_WORDS) or more.
    pub files: &'a mut [i64],
    /// The indexes: [`INDEXES_WORDS`](crate::INDEXES_WORDS) or more.
    pub indexes: &'a mut [u16],
}

impl Work<'_> {
    /// Answers a question over the data's tables by a plan, with at most `budget` trials.
    ///
    /// The rows are put in front of `result`, of [`RESULT_WORDS`](crate::RESULT_WORDS) or more, and the answer reads them
    /// there. The words behind them are kept, and by a refusal all words of the result. The answer borrows the result alone,
    /// so that the next run may go into another result while this one is read.
    ///
    /// # Errors
    ///
    /// The lowest number that applies, of all in [`Refusal`].
    pub fn run<'r>(
        &mut self,
        data: &[i32],
        question: &[u8],
        plan: &[u8],
        budget: u64,
        result: &'r mut [i64],
    ) -> Result<Answer<'r>, Refusal> {
        let mut figures = [0; FIGURES_WORDS];
        let Work { sets, files, indexes } = self;
        let number = raw::run(data, question, plan, budget, sets, files, indexes, result, &mut figures);
        let [told, rows, columns, trials] = figures;
        debug_assert_eq!(told, u64::from(number));
        match Refusal::from_number(number, trials) {
            Some(refusal) => Err(refusal),
            None => Ok(Answer::over(result, rows as usize, columns as usize, trials)),
        }
    }
}
