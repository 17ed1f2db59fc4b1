use core::fmt;

/// Why a call is refused: a name for every number from 1 to 13. The lowest number that applies is told; of
/// [`index`](crate::index) the first in its own order. Section 5 of `docs/FORMATS.md` says what to do about each.
///
/// ```
/// use abe::Refusal;
/// let refusal = Refusal::OverBudget { budget: 7 };
/// assert_eq!((refusal.number(), refusal.trials()), (12, 7));
/// assert_eq!(refusal.to_string(), "the trials exceed the budget of 7");
/// assert_eq!(Refusal::from_number(7, 0), Some(Refusal::NotThere));
/// assert_eq!(Refusal::from_number(0, 0), None);
/// ```
#[derive(Clone, Copy, Debug, PartialEq, Eq, Hash)]
#[non_exhaustive]
pub enum Refusal {
    /// 1: `sets`, `files` or `indexes` is shorter than its constant; of [`raw::run`](crate::raw::run) also fewer than four
    /// words for the figures.
    WorkTooShort,
    /// 2: the result has under 2,048 words; of [`index`](crate::index), `out` has fewer words than the table has rows.
    ResultTooShort,
    /// 3: data: counts, length or layout.
    DataLayout,
    /// 4: data: a cell is not from -1,000,000 to 1,000,000.
    DataValue,
    /// 5: question: records or their order, kinds, codes, argument bytes that must be 0, a cut or a tail; of
    /// [`raw::chart`](crate::raw::chart), no such operation or relation.
    Malformed,
    /// 6: question: no block or output column, or too many blocks, output columns, relation rows, conditions of a block or
    /// aggregates that name one block.
    CountPastLimit,
    /// 7: question: a table, column or parent that is not there, an entry count that is not the table's columns, a variable
    /// that is not 0 to 15, a fifth level, an aggregate of a block that is no child; of [`index`](crate::index), no such
    /// table or column.
    NotThere,
    /// 8: question: a variable in two blocks or in no relation row of its block, or a fixed variable of no ancestor.
    VariableOutOfPlace,
    /// 9: question: sum or ave of a ratio column.
    RatioColumn,
    /// 10: question: a constant beyond 1,000,000,000,000,000 in size.
    ConstantTooLarge,
    /// 11: the plan is malformed or not admitted.
    PlanNotAdmitted,
    /// 12: the trials that the plan takes exceed the budget.
    OverBudget {
        /// The budget of the run.
        budget: u64,
    },
    /// 13: an evaluated set has over 256 rows.
    TooLarge {
        /// The trials that the plan takes, in full.
        trials: u64,
    },
    /// A number past 13: the archive that is linked is of a later version than this crate.
    Unnamed {
        /// The number.
        number: u8,
    },
}

impl Refusal {
    /// The refusal of a number and of the figure of trials that came with it. None of 0, which is accepted.
    pub const fn from_number(number: u8, trials: u64) -> Option<Refusal> {
        Some(match number {
            0 => return None,
            1 => Refusal::WorkTooShort,
            2 => Refusal::ResultTooShort,
            3 => Refusal::DataLayout,
            4 => Refusal::DataValue,
            5 => Refusal::Malformed,
            6 => Refusal::CountPastLimit,
            7 => Refusal::NotThere,
            8 => Refusal::VariableOutOfPlace,
            9 => Refusal::RatioColumn,
            10 => Refusal::ConstantTooLarge,
            11 => Refusal::PlanNotAdmitted,
            12 => Refusal::OverBudget { budget: trials },
            13 => Refusal::TooLarge { trials },
            _ => Refusal::Unnamed { number },
        })
    }

    /// The number, as C and the program `listing` tell it.
    pub const fn number(self) -> u8 {
        match self {
            Refusal::WorkTooShort => 1,
            Refusal::ResultTooShort => 2,
            Refusal::DataLayout => 3,
            Refusal::DataValue => 4,
            Refusal::Malformed => 5,
            Refusal::CountPastLimit => 6,
            Refusal::NotThere => 7,
            Refusal::VariableOutOfPlace => 8,
            Refusal::RatioColumn => 9,
            Refusal::ConstantTooLarge => 10,
            Refusal::PlanNotAdmitted => 11,
            Refusal::OverBudget { .. } => 12,
            Refusal::TooLarge { .. } => 13,
            Refusal::Unnamed { number } => number,
        }
    }

    /// The figure of trials: the budget of 12, the full count of 13, and 0 of every other.
    pub const fn trials(self) -> u64 {
        match self {
            Refusal::OverBudget { budget } => budget,
            Refusal::TooLarge { trials } => trials,
            _ => 0,
        }
    }
}

impl fmt::Display for Refusal {
    /// In the words of section 5 of `docs/FORMATS.md`, without the number.
    fn fmt(&self, f: &mut fmt::Formatter<'_>) -> fmt::Result {
        f.write_str(match self {
            Refusal::WorkTooShort => "sets, files or indexes too short, or fewer than four figures",
            Refusal::ResultTooShort => "the result is too short",
            Refusal::DataLayout => "data: counts, length or layout",
            Refusal::DataValue => "data: a cell is out of range",
            Refusal::Malformed => "question: the bytes are no question",
            Refusal::CountPastLimit => "question: a count is past its limit",
            Refusal::NotThere => "something named is not there",
            Refusal::VariableOutOfPlace => "question: a variable is out of place",
            Refusal::RatioColumn => "question: sum or ave of a ratio column",
            Refusal::ConstantTooLarge => "question: a constant is too large",
            Refusal::PlanNotAdmitted => "the plan is malformed or not admitted",
            Refusal::OverBudget { budget } => return write!(f, "the trials exceed the budget of {budget}"),
            Refusal::TooLarge { trials } => return write!(f, "a set has over 256 rows; the plan takes {trials} trials"),
            Refusal::Unnamed { number } => return write!(f, "refused by number {number}"),
        })
    }
}

impl core::error::Error for Refusal {}
