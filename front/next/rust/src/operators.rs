use crate::{raw, Value};

/// The operators of a condition. `operator as u8` is the byte after CD in a question.
#[derive(Clone, Copy, Debug, PartialEq, Eq, Hash)]
#[repr(u8)]
pub enum Operator {
    /// `=`
    Equal = 0,
    /// `≠`
    NotEqual = 1,
    /// `<`
    Less = 2,
    /// `≤`
    LessEqual = 3,
    /// `>`
    Greater = 4,
    /// `≥`
    GreaterEqual = 5,
}

/// How the left of two values stands to the right one.
#[derive(Clone, Copy, Debug, PartialEq, Eq, Hash)]
#[repr(u8)]
pub enum Relation {
    /// The left value is less.
    Less = 0,
    /// They are equal.
    Equal = 1,
    /// The left value is greater.
    Greater = 2,
    /// One of the two is absent, or both.
    Absent = 3,
}

impl Relation {
    /// How two values stand, by exact value.
    ///
    /// ```
    /// use abe::{Relation, Value};
    /// assert_eq!(Relation::between(Value::whole(905), Value::whole(912)), Relation::Less);
    /// assert_eq!(Relation::between(Value::ABSENT, Value::ABSENT), Relation::Absent);
    /// ```
    pub fn between(left: Value, right: Value) -> Relation {
        if left.is_absent() || right.is_absent() {
            return Relation::Absent;
        }
        match left.cmp(&right) {
            core::cmp::Ordering::Less => Relation::Less,
            core::cmp::Ordering::Equal => Relation::Equal,
            core::cmp::Ordering::Greater => Relation::Greater,
        }
    }
}

/// The chart of the operators: whether a condition is met by two values that stand in this relation. Where one of them is
/// absent, or both, none is met, `≠` included.
///
/// ```
/// use abe::{chart, Operator, Relation};
/// assert!(chart(Operator::LessEqual, Relation::Equal));
/// assert!(!chart(Operator::Less, Relation::Equal));
/// assert!(!chart(Operator::NotEqual, Relation::Absent));
/// ```
pub fn chart(operator: Operator, relation: Relation) -> bool {
    let mut met = [0];
    let number = raw::chart(operator as u32, relation as u32, &mut met);
    debug_assert_eq!(number, 0);
    met[0] == 1
}
