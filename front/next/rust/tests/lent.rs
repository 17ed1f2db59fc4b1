//! A run in slices that the caller lends, without the cargo feature `buffers`.
use abe::{Refusal, Value, Work, FILES_WORDS, INDEXES_WORDS, RESULT_WORDS, SETS_WORDS};

/// One table of one column with the rows 5, 3 and 5; the question puts out the column.
const DATA: [i32; 6] = [1, 1, 3, 5, 3, 5];
const QUESTION: &[u8] = b"BK\xffRW\0\x01\x02\0\0\0\0\0\0\0\0OL\x01\x02\0\0\0\0\0\0\0\0EN";

#[test]
fn arrays() {
    let (mut sets, mut files, mut indexes) = ([1; SETS_WORDS], [2; FILES_WORDS], [3; INDEXES_WORDS]);
    let mut result = [4; RESULT_WORDS];
    let mut work = Work { sets: &mut sets, files: &mut files, indexes: &mut indexes };
    let answer = work.run(&DATA, QUESTION, b"PL\0\0", 3, &mut result).unwrap();
    assert_eq!((answer.rows().len(), answer.columns(), answer.trials()), (2, 1, 3));
    assert!(answer.rows().flatten().eq([Value::whole(3), Value::whole(5)]));
    assert_eq!(result[..5], [3, 1, 5, 1, 4]);
    assert!(result[5..].iter().all(|word| *word == 4));
    assert!(sets.iter().chain(&files).all(|word| *word == 0) && indexes.iter().all(|word| *word == 0));
}

#[test]
fn refusals_keep_the_result() {
    let (mut sets, mut files, mut indexes) = ([1; SETS_WORDS], [2; FILES_WORDS], [3; INDEXES_WORDS]);
    let mut result = [4; RESULT_WORDS];
    let mut work = Work { sets: &mut sets, files: &mut files, indexes: &mut indexes };
    assert_eq!(work.run(&DATA, QUESTION, b"PL\0\0", 2, &mut result), Err(Refusal::OverBudget { budget: 2 }));
    assert_eq!(work.run(&DATA, QUESTION, b"PL\0\x01", 3, &mut result), Err(Refusal::PlanNotAdmitted));
    assert_eq!(work.run(&DATA, QUESTION, b"PL\0\0", 3, &mut result[1..]), Err(Refusal::ResultTooShort));
    let mut short = Work { sets: &mut [], files: &mut files, indexes: &mut indexes };
    assert_eq!(short.run(&DATA, QUESTION, b"PL\0\0", 3, &mut result), Err(Refusal::WorkTooShort));
    assert_eq!(result, [4; RESULT_WORDS]);
}
