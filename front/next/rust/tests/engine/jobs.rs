//! Jobs of the scope paper and the requests, by every path.
use crate::calls::{filled, run, run_on, Told, BUDGET};
use crate::evaluator::{self, Block, Condition, Element::*, Relation};
use crate::job::{data_words, job_j, job_j_blocks, plan_bytes, question_bytes, Job};
use crate::random::PATIENCE;

fn j_with(paths: [(u8, u8); 2]) -> Job {
    Job { plan: plan_bytes(&paths), ..job_j() }
}

#[test]
fn job_j_by_every_path() {
    let rows = vec![vec![(1, 1), (1823, 2)], vec![(2, 1), (905, 1)], vec![(3, 1), (0, 0)]];
    for (path, trials) in [((0, 0), 20), ((1, 1), 10), ((2, 1), 8)] {
        let job = j_with([(0, 0), path]);
        let wanted = Told::accepted(rows.clone(), 2, trials);
        assert_eq!(run(&job, BUDGET), wanted);
        assert_eq!(run(&job, trials), wanted);
        assert_eq!(run(&job, u64::MAX), wanted);
        for budget in 0..trials {
            assert_eq!(run(&job, budget), Told::refused(12, budget));
        }
        let by_evaluator = evaluator::expected(&job.data, &job.question, &job.plan, BUDGET, PATIENCE);
        assert_eq!(wanted.as_expected(), by_evaluator.unwrap());
    }
}

/// The lines of job J as the listing prints them.
#[test]
fn job_j_in_text() {
    let (job, mut buffers) = (job_j(), filled());
    let answer = buffers.run(&job.data, &job.question, &job.plan, BUDGET).unwrap();
    let lines: Vec<String> = answer.rows().map(|row| row.to_string()).collect();
    assert_eq!(lines, ["1 1823/2", "2 905", "3 -"]);
}

/// Two answers at once, by one work area: each in a result of its own.
#[test]
fn answers_side_by_side() {
    let job = job_j();
    let mut lent = filled();
    let mut other = lent.result.clone();
    let mut work = abe::Work { sets: &mut lent.sets, files: &mut lent.files, indexes: &mut lent.indexes };
    let first = work.run(&job.data, &job.question, &job.plan, BUDGET, &mut lent.result).unwrap();
    let by_file = plan_bytes(&[(0, 0), (0, 0)]);
    let second = work.run(&job.data, &job.question, &by_file, BUDGET, &mut other).unwrap();
    assert!(first.rows().eq(second.rows()) && (first.trials(), second.trials()) == (8, 20));
    assert_ne!(first, second);
}

/// Request No. 3: pan 3 has no sample, and its average, compared by each operator with 0, with itself, or 0 with it, leaves
/// it out; the pans 1 and 2 average 1823/2 and 905.
#[test]
fn absent_meets_no_comparison() {
    let average = Aggregate { function: 4, block: 1, column: 1 };
    let rows = [vec![(1, 1)], vec![(2, 1)]];
    for (left, right, holding) in
        [(average, Constant(0), [1, 4, 5]), (Constant(0), average, [1, 2, 3]), (average, average, [0, 3, 5])]
    {
        for operator in 0..6 {
            let mut blocks = job_j_blocks();
            blocks[0].conditions = vec![Condition { operator, left, right }];
            blocks[0].outputs.truncate(1);
            for path in [(0, 0), (1, 1), (2, 1)] {
                let job = Job { question: question_bytes(&blocks), ..j_with([(0, 0), path]) };
                let wanted = if holding.contains(&operator) { &rows[..] } else { &[] };
                let told = run(&job, BUDGET);
                assert_eq!((told.number, &told.rows[..]), (0, wanted));
            }
        }
    }
}

#[test]
fn other_boils_of_the_paper() {
    let average = Aggregate { function: 4, block: 1, column: 1 };
    let mut job = job_j();
    for (least, rows) in [(911, vec![vec![(1, 1), (1823, 2)]]), (912, vec![])] {
        let mut blocks = job_j_blocks();
        blocks[0].conditions = vec![Condition { operator: 5, left: average, right: Constant(least) }];
        job.question = question_bytes(&blocks);
        assert_eq!(run(&job, BUDGET), Told::accepted(rows, 2, 8));
    }
    for (outputs, column, sum) in [(vec![Variable(2)], 0, 905), (vec![Variable(1), Variable(2)], 1, 1810)] {
        let mut blocks = job_j_blocks();
        blocks[1].outputs = outputs;
        blocks[0].outputs[1] = Aggregate { function: 1, block: 1, column };
        job.question = question_bytes(&blocks);
        assert_eq!(run(&job, BUDGET).rows[1], [(2, 1), (sum, 1)]);
    }
}

/// 256 rows are given, and 272 are too many.
#[test]
fn sets_of_256_rows() {
    for (pairs, number) in [(16, 0), (17, 13)] {
        let column = |n| (1, (0..n).map(|i| vec![i]).collect::<Vec<_>>());
        let block = Block {
            parent: 255,
            relations: (0..2).map(|t| Relation { table: t, entries: vec![Variable(t as i64)] }).collect(),
            conditions: vec![],
            outputs: vec![Variable(0), Variable(1)],
        };
        let job = Job {
            data: data_words(&[column(16), column(pairs)]),
            question: question_bytes(&[block]),
            plan: plan_bytes(&[(0, 0)]),
        };
        let told = run(&job, BUDGET);
        assert_eq!((told.number, told.trials), (number, 16 + 16 * pairs as u64));
        assert_eq!(told.rows.len(), if number == 0 { 256 } else { 0 });
    }
}

/// The greatest numerator and the least, in two rows, the greater met first: in 1,544 trials by merging.
#[test]
fn largest_numerators() {
    let runs = (1, (0..256).map(|run| vec![run]).collect());
    let signs = (2, vec![vec![1, 1_000_000], vec![2, -1_000_000]]);
    let sum = |block| Aggregate { function: 1, block, column: 1 };
    let each = |parent: u8, own: i64, value, output| Block {
        parent,
        relations: vec![
            Relation { table: 0, entries: vec![Fixed(0), value] },
            Relation { table: 1, entries: vec![Variable(own)] },
        ],
        conditions: vec![],
        outputs: vec![Variable(own), output],
    };
    let top = Block {
        parent: 255,
        relations: vec![Relation { table: 0, entries: vec![Variable(0), Empty] }],
        conditions: vec![],
        outputs: vec![sum(1), Variable(0)],
    };
    let third = each(2, 3, Variable(4), Variable(4));
    let job = Job {
        data: data_words(&[signs, runs]),
        question: question_bytes(&[top, each(0, 1, Empty, sum(2)), each(1, 2, Empty, sum(3)), third]),
        plan: plan_bytes(&[(0, 0), (2, 0), (2, 0), (2, 0)]),
    };
    let (told, words) = run_on(&filled(), &job, 1_544);
    assert_eq!((told.number, told.trials), (0, 1_544));
    assert_eq!(words[..8], [-16_777_216_000_000, 1, 2, 1, 16_777_216_000_000, 1, 1, 1]);
}
