//! Damaged bytes and random jobs, each beside the evaluator; random plans, each beside another.
use crate::calls::{count_from, filled, run, run_on, BUDGET, SPARE};
use crate::evaluator::{self, Block, Expected};
use crate::job::{job_j, question_bytes, Job};
use crate::{draw, draw::Random};
use abe::{Buffers, RESULT_WORDS};

/// Steps of the evaluator before it gives up.
pub const PATIENCE: u64 = 400_000;

/// Request No. 2: under any admitted plan and any budget that is enough the rows of a question stand in the same words, and
/// over the same words before the whole results are the same. Questions of two rows and more.
#[test]
fn plans_leave_the_same_words() {
    let mut r = Random::new(count_from("ABE_SEED", 1) + 2);
    let before = filled();
    let other = Buffers { result: vec![-1; RESULT_WORDS + 3 * SPARE], ..filled() };
    let (mut questions, mut runs, mut rows, mut ratios, mut absents) = (0, 0, 0, 0, 0);
    while questions < 1500 {
        let (mut job, blocks) = draw::job(&mut r);
        let (first, words) = run_on(&before, &job, PATIENCE);
        if first.rows.len() < 2 {
            continue;
        }
        questions += 1;
        rows += first.rows.len();
        ratios += first.rows.iter().flatten().filter(|value| value.1 > 1).count();
        absents += first.rows.iter().flatten().filter(|value| **value == (0, 0)).count();
        for _ in 0..4 {
            job.plan = draw::plan(&mut r, &blocks);
            let (second, same) = run_on(&before, &job, BUDGET);
            assert_eq!((second.number, second.columns), (0, first.columns));
            assert!(same == words);
            let (third, others) = run_on(&other, &job, second.trials);
            assert_eq!((third.number, third.rows.len()), (0, first.rows.len()));
            assert!(others[..first.words()] == words[..first.words()]);
            runs += 2;
        }
    }
    assert!(ratios > 0 && absents > 0);
    println!("the same words: {questions} questions, {runs} runs; {rows} rows, {ratios} ratios, {absents} absent values");
}

/// Every change of one byte of job J's question and plan, every cut of them, and every byte added at the end.
#[test]
fn damaged_bytes() {
    let j = job_j();
    let mut numbers = [0; 14];
    let mut check = |job: &Job| {
        let wanted = evaluator::expected(&job.data, &job.question, &job.plan, BUDGET, PATIENCE).unwrap();
        assert_eq!(run(job, BUDGET).as_expected(), wanted, "question {:?} plan {:?}", job.question, job.plan);
        numbers[wanted.number as usize] += 1;
    };
    for in_plan in [false, true] {
        let length = if in_plan { j.plan.len() } else { j.question.len() };
        for at in 0..=length {
            for byte in 0..=255 {
                let mut job = job_j();
                let bytes = if in_plan { &mut job.plan } else { &mut job.question };
                if at < length {
                    bytes[at] = byte;
                } else {
                    bytes.push(byte);
                }
                check(&job);
            }
            let mut job = job_j();
            if in_plan { &mut job.plan } else { &mut job.question }.truncate(at);
            check(&job);
        }
    }
    println!("damaged bytes: runs by number {numbers:?}");
}

/// What the random jobs have met so far.
#[derive(Default)]
struct Met {
    numbers: [usize; 14],
    blocks: [usize; 6],
    paths: [usize; 3],
    rows: usize,
    left_out: usize,
}

impl Met {
    /// One run beside the evaluator; none where that would take too long.
    fn check(&mut self, job: &Job, budget: u64, what: &str) -> Option<Expected> {
        let Some(wanted) = evaluator::expected(&job.data, &job.question, &job.plan, budget, PATIENCE) else {
            self.left_out += 1;
            return None;
        };
        let told = run(job, budget).as_expected();
        let Job { data, question, plan } = job;
        assert_eq!(told, wanted, "{what}, budget {budget}: data {data:?} question {question:?} plan {plan:?}");
        self.numbers[wanted.number as usize] += 1;
        self.rows += wanted.rows.len();
        Some(wanted)
    }

    /// A job that is accepted or too large: at the budget that it takes, below it, and by a second plan.
    fn budgets_and_plans(&mut self, r: &mut Random, job: &mut Job, blocks: &[Block], first: Expected, what: &str) {
        self.blocks[blocks.len()] += 1;
        job.plan.chunks(4).for_each(|record| self.paths[record[2] as usize] += 1);
        self.check(job, first.trials, what);
        if first.trials > 0 {
            self.check(job, first.trials - 1, what);
            self.check(job, r.below(first.trials as usize) as u64, what);
        }
        job.plan = draw::plan(r, blocks);
        if let Some(second) = self.check(job, u64::MAX, what) {
            assert_eq!((second.number, second.rows), (first.number, first.rows));
        }
    }
}

/// Random jobs, as many as ABE_JOBS says, from the seed ABE_SEED: each as drawn under several budgets and a second plan,
/// with bytes or words damaged, and with its blocks altered.
#[test]
fn random_jobs() {
    let (jobs, seed) = (count_from("ABE_JOBS", 6000), count_from("ABE_SEED", 1));
    let mut r = Random::new(seed);
    let mut met = Met::default();
    for n in 0..jobs {
        let (mut job, mut blocks) = draw::job(&mut r);
        let what = format!("job {n} of seed {seed}");
        let Some(first) = met.check(&job, u64::MAX, &what) else { continue };
        if matches!(first.number, 0 | 13) {
            met.budgets_and_plans(&mut r, &mut job, &blocks, first, &what);
        }
        let mut damaged = job.clone();
        draw::damage(&mut r, &mut damaged);
        met.check(&damaged, BUDGET, &what);
        for _ in 0..1 + r.below(2) {
            draw::alter(&mut r, &mut blocks);
        }
        job.question = question_bytes(&blocks);
        met.check(&job, BUDGET, &what);
    }
    let Met { numbers, blocks, paths, rows, left_out } = met;
    println!("random jobs: {jobs} from seed {seed}, runs by number {numbers:?}, rows {rows}, left out {left_out};");
    println!("accepted as drawn, by blocks {blocks:?}, by path (file, index, merging) {paths:?}");
    if jobs >= 1000 {
        assert!(blocks[1..].iter().chain(&paths).chain(&numbers[3..]).all(|n| *n > 0));
    }
}
