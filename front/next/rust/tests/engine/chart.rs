//! Request No. 7: the chart of the operators beside those of Rust, and every byte of `met` after each raw call.
use abe::{raw, Operator, Relation, Value};

type OfRust = fn(&i64, &i64) -> bool;

/// Each operator of a condition, and the same of Rust.
const OPERATORS: [(Operator, OfRust); 6] = [
    (Operator::Equal, i64::eq),
    (Operator::NotEqual, i64::ne),
    (Operator::Less, i64::lt),
    (Operator::LessEqual, i64::le),
    (Operator::Greater, i64::gt),
    (Operator::GreaterEqual, i64::ge),
];
/// Ascending.
const VALUES: [i64; 8] = [i64::MIN, -1_000_000, -2, -1, 0, 1, 905, i64::MAX];
/// The bytes of `met` before a call.
const BEFORE: [u8; 5] = [6, 7, 8, 9, 10];

/// A raw call with so many of the bytes lent: its number, and all bytes after it.
fn call(operation: u32, relation: u32, lent: usize) -> (u8, [u8; 5]) {
    let mut met = BEFORE;
    let number = raw::chart(operation, relation, &mut met[..lent]);
    (number, met)
}

/// Whether the chart says that values that stand so meet an operator; the bytes past the first are kept.
fn meets(operator: Operator, relation: Relation) -> bool {
    let (operation, related) = (operator as u32, relation as u32);
    let (number, met) = call(operation, related, 1);
    assert!(number == 0 && met[0] <= 1 && met[1..] == BEFORE[1..], "{operator:?} {relation:?}: {number} {met:?}");
    for lent in 2..=BEFORE.len() {
        assert_eq!(call(operation, related, lent), (0, met));
    }
    assert_eq!(abe::chart(operator, relation), met[0] == 1);
    met[0] == 1
}

#[test]
fn operators_of_rust() {
    for (at, (operator, of_rust)) in OPERATORS.into_iter().enumerate() {
        assert_eq!(operator as usize, at);
        for (i, x) in VALUES.iter().enumerate() {
            assert_eq!(meets(operator, Relation::Equal), of_rust(x, x));
            for y in &VALUES[i + 1..] {
                assert_eq!(meets(operator, Relation::Less), of_rust(x, y), "{operator:?}: {x} {y}");
                assert_eq!(meets(operator, Relation::Greater), of_rust(y, x), "{operator:?}: {y} {x}");
            }
        }
        assert!(!meets(operator, Relation::Absent), "{operator:?}");
    }
}

/// The relation between two values, of which Rust's own operators tell; with absent on either side or both.
#[test]
fn relations_between_values() {
    for x in VALUES {
        for y in VALUES {
            let relation = Relation::between(Value::whole(x), Value::whole(y));
            assert_eq!(relation as u8, if x < y { 0 } else { 1 + (x > y) as u8 });
        }
        assert_eq!(Relation::between(Value::whole(x), Value::ABSENT), Relation::Absent);
        assert_eq!(Relation::between(Value::ABSENT, Value::whole(x)), Relation::Absent);
    }
    assert_eq!(Relation::between(Value::ABSENT, Value::ABSENT), Relation::Absent);
    assert_eq!(Relation::Absent as u8, 3);
}

#[test]
fn no_operation_or_relation() {
    for (operation, relation) in [(6, 0), (0, 4), (u32::MAX, 3), (3, u32::MAX), (256, 0), (0, 256), (6, 4), (261, 259)] {
        for lent in 1..=BEFORE.len() {
            assert_eq!(call(operation, relation, lent), (5, BEFORE), "{operation} {relation}");
        }
        assert_eq!(call(operation, relation, 0), (2, BEFORE), "{operation} {relation}");
    }
}

#[test]
fn no_byte() {
    for operation in 0..6 {
        for relation in 0..4 {
            assert_eq!(call(operation, relation, 0), (2, BEFORE));
        }
    }
    assert_eq!(raw::chart(0, 1, &mut []), 2);
}
