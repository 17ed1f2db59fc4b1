//! The index of a column beside the evaluator's, and every word of `out` after each call.
use crate::calls::count_from;
use crate::draw::{self, Random};
use crate::evaluator;

/// A call of both `index` and the raw one, over the same words before: they agree, and `out` is as wanted. Gives the number.
fn check(data: &[i32], table: u32, column: u32, before: &[u16]) -> u8 {
    let (mut out, mut raw) = (before.to_vec(), before.to_vec());
    let mut wanted = before.to_vec();
    let number = abe::raw::index(data, table, column, &mut raw);
    let found = abe::index(data, table, column, &mut out).map(<[u16]>::to_vec);
    match evaluator::index(data, table, column, before.len()) {
        Ok(order) => {
            wanted[..order.len()].copy_from_slice(&order);
            assert_eq!((number, found), (0, Ok(order)));
        }
        Err(cause) => {
            assert_eq!((number, found.map_err(|refusal| refusal.number())), (cause, Err(cause)));
        }
    }
    assert!(out == wanted && raw == wanted);
    number
}

#[test]
fn indexes() {
    let mut r = Random::new(count_from("ABE_SEED", 1) + 77);
    let mut numbers = [0; 8];
    for _ in 0..4000 {
        let (mut job, _) = draw::job(&mut r);
        if r.percent(15) {
            draw::damage(&mut r, &mut job);
        }
        if r.percent(10) {
            let at = r.below(job.data.len().max(1));
            if let Some(word) = job.data.get_mut(at) {
                *word = r.next() as i32;
            }
        }
        let (table, column) = (r.pick(&[0, 0, 0, 1, 1, 2, 8, 256, u32::MAX]), r.pick(&[0, 0, 0, 1, 1, 2, 8, 256, u32::MAX]));
        let before: Vec<u16> = (0..r.pick(&[0, 1, 3, 5, 30, 300])).map(|i| 40_000 + i).collect();
        numbers[check(&job.data, table, column, &before) as usize] += 1;
    }
    println!("indexes: calls by number {numbers:?}");
}

/// A table without rows has an index without words, in no words; one of 256 rows fills 256 words and needs them.
#[test]
fn least_and_longest() {
    let none = [1, 3, 0];
    assert_eq!(abe::index(&none, 0, 2, &mut []), Ok(&[][..]));
    assert_eq!((check(&none, 0, 0, &[]), check(&none, 0, 0, &[7]), check(&none, 0, 3, &[])), (0, 0, 7));
    let longest: Vec<i32> = [1, 1, 256].into_iter().chain((0..256).map(|row| row % 3)).collect();
    assert_eq!(
        (check(&longest, 0, 0, &[7; 256]), check(&longest, 0, 0, &[7; 257]), check(&longest, 0, 0, &[7; 255])),
        (0, 0, 2)
    );
}
