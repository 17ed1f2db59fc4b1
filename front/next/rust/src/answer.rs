use crate::Value;
use core::fmt;
use core::iter::{Copied, FusedIterator};
use core::ops::Deref;
use core::slice::{ChunksExact, Iter};

/// What an accepted question gives. Its rows are read where they lie in the lent result, which it borrows.
///
/// Each row stands once, and the rows ascend by exact value, first column first, absent before every other value. They are
/// the same for every plan, budget and lent slices by which the question is accepted.
///
/// ```
/// # let (mut sets, mut files) = ([0; abe::SETS_WORDS], [0; abe::FILES_WORDS]);
/// # let (mut indexes, mut result) = ([0; abe::INDEXES_WORDS], [0; abe::RESULT_WORDS]);
/// # let mut work = abe::Work { sets: &mut sets, files: &mut files, indexes: &mut indexes };
/// // One table of one column with the rows 5, 3 and 5; the question puts out the column.
/// let data = [1, 1, 3, 5, 3, 5];
/// let question = b"BK\xffRW\0\x01\x02\0\0\0\0\0\0\0\0OL\x01\x02\0\0\0\0\0\0\0\0EN";
/// let answer = work.run(&data, question, b"PL\0\0", 100, &mut result)?;
/// assert_eq!((answer.rows().len(), answer.columns(), answer.trials()), (2, 1, 3));
/// let mut sum = 0;
/// for row in answer {
///     sum += row[0].integer().unwrap_or(0);
/// }
/// assert_eq!(sum, 8);
/// # Ok::<(), abe::Refusal>(())
/// ```
#[derive(Clone, Copy, Debug, PartialEq, Eq)]
pub struct Answer<'a> {
    values: &'a [Value],
    columns: usize,
    trials: u64,
}

impl<'a> Answer<'a> {
    /// The answer of so many rows and columns in front of a result.
    pub(crate) fn over(result: &'a [i64], rows: usize, columns: usize, trials: u64) -> Self {
        Answer { values: Value::over(&result[..2 * rows * columns]), columns, trials }
    }

    /// The rows, in their order.
    pub fn rows(&self) -> Rows<'a> {
        Rows(self.values.chunks_exact(self.columns))
    }

    /// How many columns each row has: the output columns of block 0, 1 to 4. It is told without rows too.
    pub fn columns(&self) -> usize {
        self.columns
    }

    /// The trials that the plan took.
    pub fn trials(&self) -> u64 {
        self.trials
    }
}

impl<'a> IntoIterator for Answer<'a> {
    type Item = Row<'a>;
    type IntoIter = Rows<'a>;

    fn into_iter(self) -> Rows<'a> {
        self.rows()
    }
}

impl<'a> IntoIterator for &Answer<'a> {
    type Item = Row<'a>;
    type IntoIter = Rows<'a>;

    fn into_iter(self) -> Rows<'a> {
        self.rows()
    }
}

/// The rows of an [`Answer`], first to last or from the back. Nothing is copied, and `nth` goes straight to a row.
#[derive(Clone, Debug)]
pub struct Rows<'a>(ChunksExact<'a, Value>);

impl<'a> Iterator for Rows<'a> {
    type Item = Row<'a>;

    fn next(&mut self) -> Option<Row<'a>> {
        self.0.next().map(Row)
    }

    fn nth(&mut self, n: usize) -> Option<Row<'a>> {
        self.0.nth(n).map(Row)
    }

    fn size_hint(&self) -> (usize, Option<usize>) {
        self.0.size_hint()
    }
}

impl<'a> DoubleEndedIterator for Rows<'a> {
    fn next_back(&mut self) -> Option<Row<'a>> {
        self.0.next_back().map(Row)
    }

    fn nth_back(&mut self, n: usize) -> Option<Row<'a>> {
        self.0.nth_back(n).map(Row)
    }
}

impl ExactSizeIterator for Rows<'_> {}
impl FusedIterator for Rows<'_> {}

/// A row of an [`Answer`]: a slice of its values, one for each column. Rows are ordered as the answer has them.
///
/// ```
/// # let (mut sets, mut files) = ([0; abe::SETS_WORDS], [0; abe::FILES_WORDS]);
/// # let (mut indexes, mut result) = ([0; abe::INDEXES_WORDS], [0; abe::RESULT_WORDS]);
/// # let mut work = abe::Work { sets: &mut sets, files: &mut files, indexes: &mut indexes };
/// // One table of two columns with the rows (2, 905), (1, 910), (2, 905); the question puts out both.
/// let data = [1, 2, 3, 2, 905, 1, 910, 2, 905];
/// let question = b"BK\xffRW\0\x02\x02\0\0\0\0\0\0\0\0\x02\x01\0\0\0\0\0\0\0\
///     OL\x02\x02\0\0\0\0\0\0\0\0\x02\x01\0\0\0\0\0\0\0EN";
/// let answer = work.run(&data, question, b"PL\0\0", 100, &mut result)?;
/// let mut rows = answer.rows();
/// let (first, last) = (rows.next().unwrap(), rows.next_back().unwrap());
/// assert!(rows.next().is_none() && first < last);
/// assert_eq!((first.len(), first[1]), (2, abe::Value::whole(910)));
/// assert_eq!(format!("{first}; {last}"), "1 910; 2 905");
/// assert_eq!(last.into_iter().filter_map(abe::Value::integer).sum::<i64>(), 907);
/// # Ok::<(), abe::Refusal>(())
/// ```
#[derive(Clone, Copy, Debug, PartialEq, Eq, PartialOrd, Ord, Hash)]
pub struct Row<'a>(&'a [Value]);

impl<'a> Row<'a> {
    /// The values as a slice that lives as long as the answer's result is borrowed.
    pub fn values(self) -> &'a [Value] {
        self.0
    }
}

impl Deref for Row<'_> {
    type Target = [Value];

    fn deref(&self) -> &[Value] {
        self.0
    }
}

impl<'a> IntoIterator for Row<'a> {
    type Item = Value;
    type IntoIter = Copied<Iter<'a, Value>>;

    fn into_iter(self) -> Self::IntoIter {
        self.0.iter().copied()
    }
}

impl fmt::Display for Row<'_> {
    /// As the program `listing` prints it: the values with one space between two.
    fn fmt(&self, f: &mut fmt::Formatter<'_>) -> fmt::Result {
        for (column, value) in self.iter().enumerate() {
            let before = if column == 0 { "" } else { " " };
            write!(f, "{before}{value}")?;
        }
        Ok(())
    }
}
