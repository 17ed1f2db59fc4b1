//! Values: order, lowest terms, text.
use crate::evaluator::Fraction;
use crate::order;
use abe::Value;
use std::cmp::Ordering;

/// A value of the engine: within its bounds, in lowest terms.
fn value(numerator: i64, denominator: i64) -> Value {
    Value::ratio(numerator, denominator).unwrap()
}

/// Absent, small ratios of either sign, and the greatest numerators over the least and the greatest denominators.
fn values() -> Vec<Value> {
    let small = (-30..=30).flat_map(|n| [1, 2, 3, 7, 30, 255, 256].map(|d| value(n, d)));
    let large = [16_777_216_000_000, 16_777_215_999_999, -16_777_215_999_999, -16_777_216_000_000];
    let large = large.into_iter().flat_map(|n| [1, 2, 255, 256].map(|d| value(n, d)));
    [Value::ABSENT].into_iter().chain(small).chain(large).collect()
}

/// The order is that of cross products, absent first; values are equal where their words are.
#[test]
fn ordered_by_cross_products() {
    let words = |v: Value| (v.numerator(), v.denominator());
    let fraction = |v: Value| Fraction { top: v.numerator() as i128, bottom: v.denominator() as i128 };
    let (mut less, mut equal) = (0, 0);
    for x in values() {
        for y in values() {
            let told = x.cmp(&y);
            assert_eq!(told, order::order(words(x), words(y)), "{x} {y}");
            assert_eq!(told, fraction(x).cmp(&fraction(y)), "{x} {y}");
            assert_eq!((told == Ordering::Equal, told == Ordering::Less), (words(x) == words(y), x < y));
            assert_eq!((x == y, x.is_absent()), (words(x) == words(y), words(x) == (0, 0)));
            less += (told == Ordering::Less) as usize;
            equal += (told == Ordering::Equal) as usize;
        }
    }
    println!("values: {} by {}, {less} less, {equal} equal", values().len(), values().len());
    assert!(less > 0 && equal > values().len());
}

/// Past the engine's bounds the products would not fit 64 bits.
#[test]
fn ordered_past_64_bits() {
    let ascending = [
        Value::ABSENT,
        Value::whole(i64::MIN),
        value(i64::MIN, i64::MAX),
        Value::whole(-1),
        value(-1, i64::MAX),
        Value::whole(0),
        value(1, i64::MAX),
        value(1, i64::MAX - 1),
        value(i64::MAX - 2, i64::MAX),
        value(i64::MAX - 1, i64::MAX),
        Value::whole(1),
        value(i64::MAX, i64::MAX - 1),
        Value::whole(i64::MAX),
    ];
    for pair in ascending.windows(2) {
        assert_eq!((pair[0].cmp(&pair[1]), pair[1].cmp(&pair[0])), (Ordering::Less, Ordering::Greater), "{pair:?}");
    }
}

#[test]
fn lowest_terms() {
    for n in -60..=60 {
        for d in 1..=60 {
            let (told, wanted) = (value(n, d), Fraction::new(n as i128, d as i128));
            assert_eq!((told.numerator() as i128, told.denominator() as i128), (wanted.top, wanted.bottom));
            assert_eq!(told.integer(), (n % d == 0).then_some(n / d));
        }
        assert!(Value::ratio(n, 0).is_none() && Value::ratio(n, -1).is_none() && Value::ratio(n, i64::MIN).is_none());
        assert_eq!((Value::from(n), value(n, 1)), (Value::whole(n), Value::whole(n)));
    }
    assert_eq!(value(i64::MIN, 2), Value::whole(i64::MIN / 2));
    assert_eq!(value(i64::MIN, i64::MAX).denominator(), i64::MAX);
    assert_eq!((Value::ABSENT.numerator(), Value::ABSENT.denominator(), Value::ABSENT.integer()), (0, 0, None));
}

#[test]
fn text() {
    let texts = [
        (Value::ABSENT, "-"),
        (Value::whole(0), "0"),
        (Value::whole(905), "905"),
        (Value::whole(-3), "-3"),
        (value(1823, 2), "1823/2"),
        (value(-1, 3), "-1/3"),
        (Value::whole(i64::MIN), "-9223372036854775808"),
        (value(i64::MIN, i64::MAX), "-9223372036854775808/9223372036854775807"),
    ];
    for (value, text) in texts {
        assert_eq!(value.to_string(), text);
        assert_eq!(format!("{value:>50}|{value:<50}|{value:^9}"), format!("{text:>50}|{text:<50}|{text:^9}"));
    }
}
