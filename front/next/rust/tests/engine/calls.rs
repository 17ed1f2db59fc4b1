//! One run on lent buffers: what it tells, by the crate's own calls and by the raw one, and every word of every buffer.
use crate::evaluator::{Expected, Fraction, Set};
use crate::{job::Job, order};
use abe::{Answer, Buffers, Refusal, Row, Value, FILES_WORDS, INDEXES_WORDS, RESULT_WORDS, SETS_WORDS};
use std::sync::OnceLock;

pub const BUDGET: u64 = 1_000_000_000;
/// Words past the named lengths, to see that they are kept.
pub const SPARE: usize = 5;

pub fn filled() -> Buffers {
    Buffers {
        sets: (0..SETS_WORDS + SPARE).map(|i| 7 + i as i64).collect(),
        files: (0..FILES_WORDS + SPARE).map(|i| -9 - i as i64).collect(),
        indexes: (0..INDEXES_WORDS + SPARE).map(|i| 3 + i as u16).collect(),
        result: (0..RESULT_WORDS + SPARE).map(|i| 1_000_003 * (i as i64 + 1)).collect(),
    }
}

/// Whether the named words are zero and the others as they were.
fn zeroed<T: Copy + Default + PartialEq>(words: &[T], before: &[T], named: usize) -> bool {
    words[..named].iter().all(|w| *w == T::default()) && words[named..] == before[named..]
}

pub fn work_zeroed(buffers: &Buffers, before: &Buffers) -> bool {
    zeroed(&buffers.sets, &before.sets, SETS_WORDS)
        && zeroed(&buffers.files, &before.files, FILES_WORDS)
        && zeroed(&buffers.indexes, &before.indexes, INDEXES_WORDS)
}

/// What a run tells, kept apart from the buffers. Rows and columns are none on refusal.
#[derive(Clone, Debug, PartialEq, Eq)]
pub struct Told {
    pub number: u8,
    pub rows: Vec<Vec<(i64, i64)>>,
    pub columns: usize,
    pub trials: u64,
}

impl Told {
    pub fn accepted(rows: Vec<Vec<(i64, i64)>>, columns: usize, trials: u64) -> Told {
        Told { number: 0, rows, columns, trials }
    }

    pub fn refused(number: u8, trials: u64) -> Told {
        Told { number, rows: vec![], columns: 0, trials }
    }

    pub fn of(told: Result<Answer, Refusal>) -> Told {
        match told {
            Ok(answer) => Told::accepted(rows_of(&answer), answer.columns(), answer.trials()),
            Err(refusal) => Told::refused(refusal.number(), refusal.trials()),
        }
    }

    /// How many words the rows have.
    pub fn words(&self) -> usize {
        2 * self.rows.len() * self.columns
    }

    /// The same as the evaluator gives it. The values must be in lowest terms, or absent.
    pub fn as_expected(&self) -> Expected {
        let fraction = |(n, d): &(i64, i64)| Fraction { top: *n as i128, bottom: *d as i128 };
        let rows: Vec<Vec<Fraction>> = self.rows.iter().map(|row| row.iter().map(fraction).collect()).collect();
        assert!(rows.iter().flatten().all(|v| v.is_absent() || (v.bottom > 0 && *v == Fraction::new(v.top, v.bottom))));
        let set: Set = rows.into_iter().collect();
        Expected { number: self.number, rows: set, columns: self.columns, trials: self.trials }
    }
}

/// The rows of an answer, read one by one; the iterator tells how many are left, and goes both ways.
fn rows_of(answer: &Answer) -> Vec<Vec<(i64, i64)>> {
    let pair = |value: &Value| (value.numerator(), value.denominator());
    let mut rows = answer.rows();
    let mut found: Vec<Row> = Vec::new();
    for left in (0..rows.len()).rev() {
        found.extend(rows.next());
        assert_eq!(rows.size_hint(), (left, Some(left)));
    }
    assert!(rows.next().is_none() && rows.next_back().is_none());
    assert!(answer.rows().rev().eq(found.iter().rev().copied()) && answer.into_iter().eq(found.iter().copied()));
    assert!(found.windows(2).all(|pair| pair[0] < pair[1]));
    for (r, row) in found.iter().enumerate() {
        assert!(answer.rows().nth(r) == Some(*row) && answer.rows().nth_back(found.len() - 1 - r) == Some(*row));
        assert!(row.len() == answer.columns() && row.into_iter().eq((0..row.len()).map(|c| row[c])));
    }
    found.iter().map(|row| row.values().iter().map(pair).collect()).collect()
}

/// The raw call beside a run: the same number and buffers, and figures that are what the run told.
fn raw_run(before: &Buffers, job: &Job, budget: u64, told: &Told, after: &Buffers) {
    let mut lent = before.clone();
    let mut figures = [99; 6];
    let Buffers { sets, files, indexes, result } = &mut lent;
    let number = abe::raw::run(&job.data, &job.question, &job.plan, budget, sets, files, indexes, result, &mut figures);
    assert_eq!(number, told.number);
    assert_eq!(figures, [number as u64, told.rows.len() as u64, told.columns as u64, told.trials, 99, 99]);
    assert!(lent == *after);
}

/// Runs on copies of these buffers and checks every word of them by what is told, and that the rows ascend; gives the
/// result's words besides.
pub fn run_on(before: &Buffers, job: &Job, budget: u64) -> (Told, Vec<i64>) {
    let mut buffers = before.clone();
    let told = Told::of(buffers.run(&job.data, &job.question, &job.plan, budget));
    assert_ne!(told.number, 1);
    assert!(work_zeroed(&buffers, before));
    let words = told.rows.iter().flatten().flat_map(|(n, d)| [*n, *d]);
    assert!(buffers.result.iter().copied().eq(words.chain(before.result[told.words()..].iter().copied())));
    assert!(order::ascend(&buffers.result, told.rows.len(), told.columns));
    raw_run(before, job, budget, &told, &buffers);
    (told, buffers.result)
}

/// The same on filled buffers; what is told alone.
pub fn run(job: &Job, budget: u64) -> Told {
    static BEFORE: OnceLock<Buffers> = OnceLock::new();
    run_on(BEFORE.get_or_init(filled), job, budget).0
}

/// A number that the environment gives, or another.
pub fn count_from(name: &str, otherwise: u64) -> u64 {
    std::env::var(name).ok().and_then(|v| v.parse().ok()).unwrap_or(otherwise)
}
