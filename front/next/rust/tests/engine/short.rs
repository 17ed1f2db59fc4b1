//! Buffers that are too short, of the least lengths, or empty.
use crate::calls::{filled, work_zeroed, Told, BUDGET};
use crate::job::job_j;
use abe::{Buffers, FILES_WORDS, INDEXES_WORDS, RESULT_WORDS, SETS_WORDS};

#[test]
fn short_work() {
    let job = job_j();
    for short in 0..3 {
        for cut in [1, 2, 1000] {
            let mut buffers = filled();
            match short {
                0 => buffers.sets.truncate(SETS_WORDS - cut),
                1 => buffers.files.truncate(FILES_WORDS - cut),
                _ => buffers.indexes.truncate(INDEXES_WORDS - cut),
            }
            // A short result besides, data and question malformed besides: 1 is the lowest.
            for (result, data) in [(RESULT_WORDS, 21), (0, 21), (RESULT_WORDS, 3)] {
                buffers.result.truncate(result);
                let before = buffers.clone();
                let told = Told::of(buffers.run(&job.data[..data], &job.question, &job.plan, BUDGET));
                assert_eq!(told, Told::refused(1, 0));
                assert!(buffers == before);
            }
        }
    }
}

#[test]
fn short_result() {
    let job = job_j();
    for length in [RESULT_WORDS - 1, 12, 0] {
        for data in [21, 3] {
            let before = filled();
            let mut buffers = before.clone();
            buffers.result.truncate(length);
            let told = Told::of(buffers.run(&job.data[..data], &job.question, &job.plan, BUDGET));
            assert_eq!(told, Told::refused(2, 0));
            assert_eq!(buffers.result, before.result[..length]);
            assert!(work_zeroed(&buffers, &before));
        }
    }
}

#[test]
fn least_lengths() {
    let job = job_j();
    let mut buffers = Buffers::new();
    assert_eq!((buffers.sets.len(), buffers.files.len()), (SETS_WORDS, FILES_WORDS));
    assert_eq!((buffers.indexes.len(), buffers.result.len()), (INDEXES_WORDS, RESULT_WORDS));
    assert!(buffers == Buffers::default());
    assert_eq!(buffers.run(&job.data, &job.question, &job.plan, BUDGET).unwrap().rows().len(), 3);
    let mut refused = |data: &[i32], question: &[u8]| Told::of(buffers.run(data, question, &[], 0));
    assert_eq!(refused(&[], &[]), Told::refused(3, 0));
    assert_eq!(refused(&job.data, &[]), Told::refused(5, 0));
    assert_eq!(refused(&job.data, &job.question), Told::refused(11, 0));
}

/// The figures of the raw call: fewer than four words are number 1 and change nothing; the words past the fourth are kept.
#[test]
fn figures() {
    let job = job_j();
    for length in 0..6 {
        let before = filled();
        let mut lent = before.clone();
        let mut figures = [9u64; 6];
        let Buffers { sets, files, indexes, result } = &mut lent;
        let short = &mut figures[..length];
        let number = abe::raw::run(&job.data, &job.question, &job.plan, 8, sets, files, indexes, result, short);
        if length < 4 {
            assert_eq!((number, figures), (1, [9; 6]));
            assert!(lent == before);
        } else {
            assert_eq!((number, figures), (0, [0, 3, 2, 8, 9, 9]));
            assert_eq!(lent.result[..13], [1, 1, 1823, 2, 2, 1, 905, 1, 3, 1, 0, 0, before.result[12]]);
            assert!(work_zeroed(&lent, &before));
        }
    }
}
