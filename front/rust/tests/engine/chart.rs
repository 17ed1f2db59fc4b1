//! Request No. 7: the chart of the operators beside those of Rust, and every byte of `met` after each call.
use abe::*;

/// Each operator of a condition, and the same of Rust.
const OPERATORS: [(u32, fn(&i64, &i64) -> bool); 6] = [
    (OPERATOR_EQUAL, i64::eq),
    (OPERATOR_NOT_EQUAL, i64::ne),
    (OPERATOR_LESS, i64::lt),
    (OPERATOR_LESS_EQUAL, i64::le),
    (OPERATOR_GREATER, i64::gt),
    (OPERATOR_GREATER_EQUAL, i64::ge),
];
/// Ascending.
const VALUES: [i64; 8] = [i64::MIN, -1_000_000, -2, -1, 0, 1, 905, i64::MAX];
/// The bytes of `met` before a call.
const BEFORE: [u8; 5] = [6, 7, 8, 9, 10];

/// A call with so many of the bytes lent: its number, and all bytes after it.
fn call(operation: u32, relation: u32, lent: usize) -> (u8, [u8; 5]) {
    let mut met = BEFORE;
    let number = chart(operation, relation, &mut met[..lent]);
    (number, met)
}

/// Whether the chart says that values that stand so meet an operator; the bytes past the first are kept.
fn meets(operation: u32, relation: u32) -> bool {
    let (number, met) = call(operation, relation, 1);
    assert!(number == 0 && met[0] <= 1 && met[1..] == BEFORE[1..], "{operation} {relation}: {number} {met:?}");
    for lent in 2..=BEFORE.len() {
        assert_eq!(call(operation, relation, lent), (0, met));
    }
    met[0] == 1
}

#[test]
fn operators_of_rust() {
    for (operation, operator) in OPERATORS {
        for (i, x) in VALUES.iter().enumerate() {
            assert_eq!(meets(operation, RELATION_EQUAL), operator(x, x));
            for y in &VALUES[i + 1..] {
                assert_eq!(meets(operation, RELATION_LESS), operator(x, y), "{operation}: {x} {y}");
                assert_eq!(meets(operation, RELATION_GREATER), operator(y, x), "{operation}: {y} {x}");
            }
        }
        assert!(!meets(operation, RELATION_ABSENT), "{operation}");
    }
}

#[test]
fn no_operation_or_relation() {
    for (operation, relation) in [(6, 0), (0, 4), (u32::MAX, 3), (3, u32::MAX), (256, 0), (0, 256), (6, 4), (261, 259)] {
        for lent in 1..=BEFORE.len() {
            assert_eq!(call(operation, relation, lent), (5, BEFORE), "{operation} {relation}");
        }
        assert_eq!(call(operation, relation, 0), (2, BEFORE), "{operation} {relation}");
    }
}

#[test]
fn no_byte() {
    for operation in 0..6 {
        for relation in 0..4 {
            assert_eq!(call(operation, relation, 0), (2, BEFORE));
        }
    }
    assert_eq!(chart(0, 1, &mut []), 2);
}
