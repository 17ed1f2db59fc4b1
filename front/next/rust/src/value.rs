use core::cmp::Ordering;
use core::fmt::{self, Write};

/// A value of a row: an exact ratio in lowest terms, its denominator positive and 1 for a whole; or absent, as min, max and
/// ave of no values are. It is the two words of the result in which it stands: numerator and denominator, 0 and 0 for
/// absent.
///
/// Values are ordered by exact value, absent before every other, as the rows of an answer are. Two absents are equal in this
/// order. In a question they meet no condition, `=` included: see [`chart`](crate::chart).
///
/// ```
/// use abe::Value;
/// let average = Value::ratio(9115, 10).unwrap();
/// assert_eq!((average.numerator(), average.denominator()), (1823, 2));
/// assert!(Value::ABSENT < Value::whole(-5) && Value::whole(905) < average && average < Value::whole(912));
/// assert_eq!((average.integer(), Value::whole(905).integer(), Value::ABSENT.integer()), (None, Some(905), None));
/// assert_eq!(format!("{average} {} {}", Value::whole(905), Value::ABSENT), "1823/2 905 -");
/// ```
#[derive(Clone, Copy, Debug, PartialEq, Eq, Hash)]
#[repr(C)]
pub struct Value {
    numerator: i64,
    denominator: i64,
}

impl Value {
    /// The absent value.
    pub const ABSENT: Value = Value { numerator: 0, denominator: 0 };

    /// A whole number.
    pub const fn whole(number: i64) -> Value {
        Value { numerator: number, denominator: 1 }
    }

    /// A ratio, brought to lowest terms. None where the denominator is not positive.
    pub const fn ratio(numerator: i64, denominator: i64) -> Option<Value> {
        if denominator <= 0 {
            return None;
        }
        // The greatest divisor of both is at most the denominator, so it fits.
        let (mut a, mut b) = (numerator.unsigned_abs(), denominator as u64);
        while b != 0 {
            (a, b) = (b, a % b);
        }
        Some(Value { numerator: numerator / a as i64, denominator: denominator / a as i64 })
    }

    /// The values that stand in these words, two words each.
    pub(crate) fn over(words: &[i64]) -> &[Value] {
        // SAFETY: a value is two i64 one behind the other (repr(C)) and aligned as one; any two words are a value; and the
        // slice has that many pairs.
        unsafe { core::slice::from_raw_parts(words.as_ptr().cast(), words.len() / 2) }
    }

    /// The numerator; 0 where the value is absent. Of an engine's value it is at most 16,777,216,000,000 in size.
    pub const fn numerator(self) -> i64 {
        self.numerator
    }

    /// The denominator, 1 for a whole number; 0 where the value is absent. Of an engine's value it is at most 256.
    pub const fn denominator(self) -> i64 {
        self.denominator
    }

    /// Whether the value is absent.
    pub const fn is_absent(self) -> bool {
        self.denominator == 0
    }

    /// The number where the value is whole. None where it is a ratio, or absent.
    pub const fn integer(self) -> Option<i64> {
        if self.denominator == 1 {
            Some(self.numerator)
        } else {
            None
        }
    }
}

impl From<i64> for Value {
    /// A whole number.
    fn from(number: i64) -> Value {
        Value::whole(number)
    }
}

impl Ord for Value {
    /// By exact value, absent before every other.
    fn cmp(&self, other: &Value) -> Ordering {
        if self.is_absent() || other.is_absent() {
            return other.is_absent().cmp(&self.is_absent());
        }
        let product = |x: &Value, y: &Value| i128::from(x.numerator) * i128::from(y.denominator);
        product(self, other).cmp(&product(other, self))
    }
}

impl PartialOrd for Value {
    fn partial_cmp(&self, other: &Value) -> Option<Ordering> {
        Some(self.cmp(other))
    }
}

impl fmt::Display for Value {
    /// As the program `listing` prints it: `905`, `-3`, `1823/2`, and `-` alone for absent. Width, fill and alignment are as
    /// for text.
    fn fmt(&self, f: &mut fmt::Formatter<'_>) -> fmt::Result {
        let mut text = Text { bytes: [0; 41], used: 0 };
        match self.denominator {
            0 => text.write_str("-")?,
            1 => write!(text, "{}", self.numerator)?,
            _ => write!(text, "{}/{}", self.numerator, self.denominator)?,
        }
        f.pad(core::str::from_utf8(&text.bytes[..text.used]).unwrap_or_default())
    }
}

/// The text of one value under way: at most two numbers of twenty characters and a stroke.
struct Text {
    bytes: [u8; 41],
    used: usize,
}

impl Write for Text {
    fn write_str(&mut self, more: &str) -> fmt::Result {
        let end = self.used + more.len();
        self.bytes.get_mut(self.used..end).ok_or(fmt::Error)?.copy_from_slice(more.as_bytes());
        self.used = end;
        Ok(())
    }
}
