//! The engine beside an independent evaluator: the answer, the rows, and every word of every buffer after each call.
mod chart;
mod draw;
mod evaluator;
mod job;
mod order;

use abe::{Answer, Buffers, FILES_WORDS, INDEXES_WORDS, RESULT_WORDS, SETS_WORDS};
use draw::Random;
use evaluator::{Element::*, Expected, Fraction, Set};
use job::{job_j, job_j_blocks, plan_bytes, question_bytes, Job};
use std::sync::OnceLock;

const BUDGET: u64 = 1_000_000_000;
const PATIENCE: u64 = 400_000;
/// Words past the named lengths, to see that they are kept.
const SPARE: usize = 5;

fn filled() -> Buffers {
    Buffers {
        sets: (0..SETS_WORDS + SPARE).map(|i| 7 + i as i64).collect(),
        files: (0..FILES_WORDS + SPARE).map(|i| -9 - i as i64).collect(),
        indexes: (0..INDEXES_WORDS + SPARE).map(|i| 3 + i as u16).collect(),
        result: (0..RESULT_WORDS + SPARE).map(|i| 1_000_003 * (i as i64 + 1)).collect(),
    }
}

/// Whether the named words are zero and the others as they were.
fn zeroed<T: Copy + Default + PartialEq>(words: &[T], before: &[T], named: usize) -> bool {
    words[..named].iter().all(|w| *w == T::default()) && words[named..] == before[named..]
}

fn work_zeroed(buffers: &Buffers, before: &Buffers) -> bool {
    zeroed(&buffers.sets, &before.sets, SETS_WORDS)
        && zeroed(&buffers.files, &before.files, FILES_WORDS)
        && zeroed(&buffers.indexes, &before.indexes, INDEXES_WORDS)
}

/// Runs on copies of these buffers and checks every word of them by the answer, and that the rows ascend; gives the result's
/// words besides.
fn run_on(before: &Buffers, job: &Job, budget: u64) -> (Answer, Vec<i64>) {
    let mut buffers = before.clone();
    let answer = buffers.run(&job.data, &job.question, &job.plan, budget);
    assert_ne!(answer.number, 1);
    assert!(work_zeroed(&buffers, before));
    let written = words_of_rows(&answer);
    assert!(buffers.result[written..] == before.result[written..]);
    if answer.number != 0 {
        assert!(answer.rows.is_empty() && answer.columns == 0);
    }
    assert!(order::ascend(&buffers.result, answer.rows.len(), answer.columns));
    (answer, buffers.result)
}

/// How many words the rows of an answer have: none on refusal.
fn words_of_rows(answer: &Answer) -> usize {
    2 * answer.rows.len() * answer.columns
}

/// The same on filled buffers; the answer alone.
fn run(job: &Job, budget: u64) -> Answer {
    static BEFORE: OnceLock<Buffers> = OnceLock::new();
    run_on(BEFORE.get_or_init(filled), job, budget).0
}

/// The answer as the evaluator gives it. The values must be in lowest terms, or absent.
fn told(answer: &Answer) -> Expected {
    let row = |row: &Vec<(i64, i64)>| -> Vec<Fraction> {
        row.iter().map(|(n, d)| Fraction { top: *n as i128, bottom: *d as i128 }).collect()
    };
    let rows: Vec<Vec<Fraction>> = answer.rows.iter().map(row).collect();
    assert!(rows.iter().flatten().all(|v| v.is_absent() || (v.bottom > 0 && *v == Fraction::new(v.top, v.bottom))));
    Expected { number: answer.number, rows: rows.into_iter().collect::<Set>(), columns: answer.columns, trials: answer.trials }
}

fn j_with(paths: [(u8, u8); 2]) -> Job {
    Job { plan: plan_bytes(&paths), ..job_j() }
}

#[test]
fn job_j_by_every_path() {
    let rows = vec![vec![(1, 1), (1823, 2)], vec![(2, 1), (905, 1)], vec![(3, 1), (0, 0)]];
    for (path, trials) in [((0, 0), 20), ((1, 1), 10), ((2, 1), 8)] {
        let job = j_with([(0, 0), path]);
        let wanted = Answer { number: 0, rows: rows.clone(), columns: 2, trials };
        assert_eq!(run(&job, BUDGET), wanted);
        assert_eq!(run(&job, trials), wanted);
        assert_eq!(run(&job, u64::MAX), wanted);
        for budget in 0..trials {
            assert_eq!(run(&job, budget), Answer { number: 12, rows: vec![], columns: 0, trials: budget });
        }
        assert_eq!(told(&wanted), evaluator::expected(&job.data, &job.question, &job.plan, BUDGET, PATIENCE).unwrap());
    }
}

/// Request No. 3: pan 3 has no sample, and its average, compared by each operator with 0, with itself, or 0 with it, leaves it
/// out; the pans 1 and 2 average 1823/2 and 905.
#[test]
fn absent_meets_no_comparison() {
    let average = Aggregate { function: 4, block: 1, column: 1 };
    let rows = [vec![(1, 1)], vec![(2, 1)]];
    for (left, right, holding) in
        [(average, Constant(0), [1, 4, 5]), (Constant(0), average, [1, 2, 3]), (average, average, [0, 3, 5])]
    {
        for operator in 0..6 {
            let mut blocks = job_j_blocks();
            blocks[0].conditions = vec![evaluator::Condition { operator, left, right }];
            blocks[0].outputs.truncate(1);
            for path in [(0, 0), (1, 1), (2, 1)] {
                let job = Job { question: question_bytes(&blocks), ..j_with([(0, 0), path]) };
                let wanted = if holding.contains(&operator) { &rows[..] } else { &[] };
                assert_eq!(run(&job, BUDGET).rows, wanted);
            }
        }
    }
}

#[test]
fn other_boils_of_the_paper() {
    let average = Aggregate { function: 4, block: 1, column: 1 };
    let mut job = job_j();
    for (least, rows) in [(911, vec![vec![(1, 1), (1823, 2)]]), (912, vec![])] {
        let mut blocks = job_j_blocks();
        blocks[0].conditions = vec![evaluator::Condition { operator: 5, left: average, right: Constant(least) }];
        job.question = question_bytes(&blocks);
        assert_eq!(run(&job, BUDGET), Answer { number: 0, rows, columns: 2, trials: 8 });
    }
    for (outputs, column, sum) in [(vec![Variable(2)], 0, 905), (vec![Variable(1), Variable(2)], 1, 1810)] {
        let mut blocks = job_j_blocks();
        blocks[1].outputs = outputs;
        blocks[0].outputs[1] = Aggregate { function: 1, block: 1, column };
        job.question = question_bytes(&blocks);
        assert_eq!(run(&job, BUDGET).rows[1], [(2, 1), (sum, 1)]);
    }
    for (pairs, number) in [(16, 0), (17, 13)] {
        let column = |n| (1, (0..n).map(|i| vec![i]).collect::<Vec<_>>());
        let block = evaluator::Block {
            parent: 255,
            relations: (0..2).map(|t| evaluator::Relation { table: t, entries: vec![Variable(t as i64)] }).collect(),
            conditions: vec![],
            outputs: vec![Variable(0), Variable(1)],
        };
        let job = Job {
            data: job::data_words(&[column(16), column(pairs)]),
            question: question_bytes(&[block]),
            plan: plan_bytes(&[(0, 0)]),
        };
        let answer = run(&job, BUDGET);
        assert_eq!((answer.number, answer.trials), (number, 16 + 16 * pairs as u64));
        assert_eq!(answer.rows.len(), if number == 0 { 256 } else { 0 });
    }
}

/// The greatest numerator and the least, in two rows, the greater met first: in 1,544 trials by merging.
#[test]
fn largest_numerators() {
    let runs = (1, (0..256).map(|run| vec![run]).collect());
    let signs = (2, vec![vec![1, 1_000_000], vec![2, -1_000_000]]);
    let sum = |block| Aggregate { function: 1, block, column: 1 };
    let each = |parent: u8, own: i64, value, output| evaluator::Block {
        parent,
        relations: vec![
            evaluator::Relation { table: 0, entries: vec![Fixed(0), value] },
            evaluator::Relation { table: 1, entries: vec![Variable(own)] },
        ],
        conditions: vec![],
        outputs: vec![Variable(own), output],
    };
    let top = evaluator::Block {
        parent: 255,
        relations: vec![evaluator::Relation { table: 0, entries: vec![Variable(0), Empty] }],
        conditions: vec![],
        outputs: vec![sum(1), Variable(0)],
    };
    let third = each(2, 3, Variable(4), Variable(4));
    let job = Job {
        data: job::data_words(&[signs, runs]),
        question: question_bytes(&[top, each(0, 1, Empty, sum(2)), each(1, 2, Empty, sum(3)), third]),
        plan: plan_bytes(&[(0, 0), (2, 0), (2, 0), (2, 0)]),
    };
    let (answer, words) = run_on(&filled(), &job, 1_544);
    assert_eq!((answer.number, answer.trials), (0, 1_544));
    assert_eq!(words[..8], [-16_777_216_000_000, 1, 2, 1, 16_777_216_000_000, 1, 1, 1]);
}

/// Request No. 2: under any admitted plan and any budget that is enough the rows of a question stand in the same words, and
/// over the same words before the whole results are the same. Questions of two rows and more.
#[test]
fn plans_leave_the_same_words() {
    let mut r = Random::new(count_from("ABE_SEED", 1) + 2);
    let before = filled();
    let other = Buffers { result: vec![-1; RESULT_WORDS + 3 * SPARE], ..filled() };
    let (mut questions, mut runs, mut rows, mut ratios, mut absents) = (0, 0, 0, 0, 0);
    while questions < 1500 {
        let (mut job, blocks) = draw::job(&mut r);
        let (first, words) = run_on(&before, &job, PATIENCE);
        if first.rows.len() < 2 {
            continue;
        }
        questions += 1;
        rows += first.rows.len();
        ratios += first.rows.iter().flatten().filter(|value| value.1 > 1).count();
        absents += first.rows.iter().flatten().filter(|value| abe::absent(**value)).count();
        for _ in 0..4 {
            job.plan = draw::plan(&mut r, &blocks);
            let (second, same) = run_on(&before, &job, BUDGET);
            assert_eq!((second.number, second.columns), (0, first.columns));
            assert!(same == words);
            let (third, others) = run_on(&other, &job, second.trials);
            assert_eq!((third.number, third.rows.len()), (0, first.rows.len()));
            assert!(others[..words_of_rows(&first)] == words[..words_of_rows(&first)]);
            runs += 2;
        }
    }
    assert!(ratios > 0 && absents > 0);
    println!("the same words: {questions} questions, {runs} runs; {rows} rows, {ratios} ratios, {absents} absent values");
}

#[test]
fn short_buffers() {
    let job = job_j();
    let empty = |number| Answer { number, rows: vec![], columns: 0, trials: 0 };
    for short in 0..3 {
        for cut in [1, 2, 1000] {
            let mut buffers = filled();
            match short {
                0 => buffers.sets.truncate(SETS_WORDS - cut),
                1 => buffers.files.truncate(FILES_WORDS - cut),
                _ => buffers.indexes.truncate(INDEXES_WORDS - cut),
            }
            // A short result besides, data and question malformed besides: 1 is the lowest.
            for (result, data) in [(RESULT_WORDS, 21), (0, 21), (RESULT_WORDS, 3)] {
                buffers.result.truncate(result);
                let before = buffers.clone();
                assert_eq!(buffers.run(&job.data[..data], &job.question, &job.plan, BUDGET), empty(1));
                assert_eq!(buffers.sets, before.sets);
                assert_eq!(buffers.files, before.files);
                assert_eq!(buffers.indexes, before.indexes);
                assert_eq!(buffers.result, before.result);
            }
        }
    }
    for length in [RESULT_WORDS - 1, 12, 0] {
        for data in [21, 3] {
            let before = filled();
            let mut buffers = before.clone();
            buffers.result.truncate(length);
            assert_eq!(buffers.run(&job.data[..data], &job.question, &job.plan, BUDGET), empty(2));
            assert_eq!(buffers.result, before.result[..length]);
            assert!(work_zeroed(&buffers, &before));
        }
    }
    // The least lengths are enough.
    assert_eq!(Buffers::new().run(&job.data, &job.question, &job.plan, BUDGET).number, 0);
    assert_eq!(Buffers::new().run(&[], &[], &[], 0), empty(3));
    assert_eq!(Buffers::new().run(&job.data, &[], &[], 0), empty(5));
    assert_eq!(Buffers::new().run(&job.data, &job.question, &[], 0), empty(11));
}

/// Every change of one byte of job J's question and plan, every cut of them, and every byte added at the end.
#[test]
fn damaged_bytes() {
    let j = job_j();
    let mut numbers = [0; 14];
    let mut check = |job: &Job| {
        let wanted = evaluator::expected(&job.data, &job.question, &job.plan, BUDGET, PATIENCE).unwrap();
        assert_eq!(told(&run(job, BUDGET)), wanted, "question {:?} plan {:?}", job.question, job.plan);
        numbers[wanted.number as usize] += 1;
    };
    for in_plan in [false, true] {
        let length = if in_plan { j.plan.len() } else { j.question.len() };
        for at in 0..=length {
            for byte in 0..=255 {
                let mut job = job_j();
                let bytes = if in_plan { &mut job.plan } else { &mut job.question };
                if at < length {
                    bytes[at] = byte;
                } else {
                    bytes.push(byte);
                }
                check(&job);
            }
            let mut job = job_j();
            if in_plan { &mut job.plan } else { &mut job.question }.truncate(at);
            check(&job);
        }
    }
    println!("damaged bytes: runs by number {numbers:?}");
}

fn count_from(name: &str, otherwise: u64) -> u64 {
    std::env::var(name).ok().and_then(|v| v.parse().ok()).unwrap_or(otherwise)
}

/// Random jobs, as many as ABE_JOBS says, from the seed ABE_SEED: each as drawn under several budgets and a second plan, with
/// bytes or words damaged, and with its blocks altered.
#[test]
fn random_jobs() {
    let (jobs, seed) = (count_from("ABE_JOBS", 6000), count_from("ABE_SEED", 1));
    let mut r = Random::new(seed);
    let (mut numbers, mut blocks_seen, mut paths_seen, mut left_out, mut rows_seen) = ([0; 14], [0; 6], [0; 3], 0, 0);
    let mut check = |job: &Job, budget: u64, what: &str| -> Option<Expected> {
        let Some(wanted) = evaluator::expected(&job.data, &job.question, &job.plan, budget, PATIENCE) else {
            left_out += 1;
            return None;
        };
        let answer = run(job, budget);
        assert_eq!(
            told(&answer),
            wanted,
            "{what}, budget {budget}: data {:?} question {:?} plan {:?}",
            job.data,
            job.question,
            job.plan
        );
        numbers[wanted.number as usize] += 1;
        rows_seen += wanted.rows.len();
        Some(wanted)
    };
    for n in 0..jobs {
        let (mut job, mut blocks) = draw::job(&mut r);
        let what = format!("job {n} of seed {seed}");
        let Some(first) = check(&job, u64::MAX, &what) else { continue };
        if matches!(first.number, 0 | 13) {
            blocks_seen[blocks.len()] += 1;
            job.plan.chunks(4).for_each(|record| paths_seen[record[2] as usize] += 1);
            check(&job, first.trials, &what);
            if first.trials > 0 {
                check(&job, first.trials - 1, &what);
                check(&job, r.below(first.trials as usize) as u64, &what);
            }
            job.plan = draw::plan(&mut r, &blocks);
            if let Some(second) = check(&job, u64::MAX, &what) {
                assert_eq!((second.number, second.rows), (first.number, first.rows));
            }
        }
        let mut damaged = job.clone();
        draw::damage(&mut r, &mut damaged);
        check(&damaged, BUDGET, &what);
        for _ in 0..1 + r.below(2) {
            draw::alter(&mut r, &mut blocks);
        }
        job.question = question_bytes(&blocks);
        check(&job, BUDGET, &what);
    }
    println!("random jobs: {jobs} from seed {seed}, runs by number {numbers:?}, rows {rows_seen}, left out {left_out};");
    println!("accepted as drawn, by blocks {blocks_seen:?}, by path (file, index, merging) {paths_seen:?}");
    if jobs >= 1000 {
        assert!(blocks_seen[1..].iter().chain(&paths_seen).chain(&numbers[3..]).all(|n| *n > 0));
    }
}

#[test]
fn indexes() {
    let mut r = Random::new(count_from("ABE_SEED", 1) + 77);
    let mut numbers = [0; 8];
    for _ in 0..4000 {
        let (mut job, _) = draw::job(&mut r);
        if r.percent(15) {
            draw::damage(&mut r, &mut job);
        }
        if r.percent(10) {
            let at = r.below(job.data.len().max(1));
            job.data.get_mut(at).map(|w| *w = r.next() as i32);
        }
        let (table, column) = (r.pick(&[0, 0, 0, 1, 1, 2, 8, 256, u32::MAX]), r.pick(&[0, 0, 0, 1, 1, 2, 8, 256, u32::MAX]));
        let before: Vec<u16> = (0..r.pick(&[0, 1, 3, 5, 30, 300])).map(|i| 40_000 + i).collect();
        let mut out = before.clone();
        let number = abe::index(&job.data, table, column, &mut out);
        let mut wanted = before.clone();
        match evaluator::index(&job.data, table, column, before.len()) {
            Ok(order) => {
                assert_eq!(number, 0);
                wanted[..order.len()].copy_from_slice(&order);
            }
            Err(cause) => assert_eq!(number, cause),
        }
        assert_eq!(out, wanted);
        numbers[number as usize] += 1;
    }
    println!("indexes: calls by number {numbers:?}");
}
