//! Requests No. 2 and 3 over the words of a result, as a program reads them.
use abe::absent;
use std::cmp::Ordering;

/// The value in row r, column c of n columns: numerator and denominator.
fn value(words: &[i64], n: usize, r: usize, c: usize) -> (i64, i64) {
    let at = 2 * (r * n + c);
    (words[at], words[at + 1])
}

/// The order of two values: absent before every other, and else by cross products. These are below 2^52 in size: no numerator
/// passes 16,777,216,000,000 and no denominator 256.
fn order(x: (i64, i64), y: (i64, i64)) -> Ordering {
    if absent(x) || absent(y) {
        return absent(y).cmp(&absent(x));
    }
    (x.0 * y.1).cmp(&(y.0 * x.1))
}

/// Whether a row is less than another: in some column, the words of the columns before it being equal.
fn precedes(words: &[i64], n: usize, r: usize, other: usize) -> bool {
    let differing = (0..n).find(|c| value(words, n, r, *c) != value(words, n, other, *c));
    differing.is_some_and(|c| order(value(words, n, r, c), value(words, n, other, c)) == Ordering::Less)
}

/// Whether of `rows` rows of n columns each is less than the next.
pub fn ascend(words: &[i64], rows: usize, n: usize) -> bool {
    (1..rows).all(|r| precedes(words, n, r - 1, r))
}

#[test]
fn tells_order_from_disorder() {
    let one_column = |values: &[(i64, i64)]| {
        let words: Vec<i64> = values.iter().flat_map(|(n, d)| [*n, *d]).collect();
        ascend(&words, values.len(), 1)
    };
    assert!(one_column(&[(-1, 2), (-1, 3), (0, 1), (1, 2), (2, 3), (2, 1), (5, 2), (3, 1), (9, 1), (10, 1)]));
    assert!(one_column(&[(-16_777_216_000_000, 1), (16_777_215_999_999, 256), (16_777_216_000_000, 1)]));
    assert!(one_column(&[(0, 0), (-16_777_216_000_000, 1), (-5, 1), (0, 1), (3, 1)]));
    for disorder in [[(2, 3), (1, 2)], [(-1, 3), (-1, 2)], [(10, 1), (9, 1)], [(3, 1), (5, 2)], [(905, 1), (905, 1)]] {
        assert!(!one_column(&disorder));
    }
    for disorder in [[(-5, 1), (0, 0)], [(0, 1), (0, 0)], [(1, 2), (0, 0)], [(0, 0), (0, 0)]] {
        assert!(!one_column(&disorder));
    }
    assert!(ascend(&[1, 1, 3, 1, 2, 1, 0, 0, 2, 1, -5, 1], 3, 2) && !ascend(&[2, 1, -5, 1, 2, 1, 0, 0], 2, 2));
    let row = |values: [i64; 2]| [values[0], 1, values[1], 1];
    assert!(ascend(&[row([1, 9]), row([2, 1]), row([2, 2])].concat(), 3, 2));
    assert!(!ascend(&[row([1, 9]), row([2, 2]), row([2, 1])].concat(), 3, 2));
    assert!(ascend(&[], 0, 2) && ascend(&row([7, 7]), 1, 2));
}
