//! The names of the numbers, beside the header for C and the table of front/next/numbers.md.
use abe::Refusal;

const HEADER: &str = include_str!("../../../../../include/abe.h");
const FORMATS: &str = include_str!("../../../numbers.md");
const TRIALS: u64 = 20;

/// Every number with its constant in C, beginning with 1.
const NAMES: [(&str, Refusal); 13] = [
    ("ABE_WORK_SHORT", Refusal::WorkTooShort),
    ("ABE_RESULT_SHORT", Refusal::ResultTooShort),
    ("ABE_DATA_LAYOUT", Refusal::DataLayout),
    ("ABE_DATA_VALUE", Refusal::DataValue),
    ("ABE_MALFORMED", Refusal::Malformed),
    ("ABE_COUNT", Refusal::CountPastLimit),
    ("ABE_ABSENT", Refusal::NotThere),
    ("ABE_SCOPE", Refusal::VariableOutOfPlace),
    ("ABE_RATIO", Refusal::RatioColumn),
    ("ABE_CONSTANT", Refusal::ConstantTooLarge),
    ("ABE_PLAN", Refusal::PlanNotAdmitted),
    ("ABE_BUDGET", Refusal::OverBudget { budget: TRIALS }),
    ("ABE_LARGE", Refusal::TooLarge { trials: TRIALS }),
];

/// The constants that some text of the header defines.
fn defined(text: &str) -> Vec<(&str, usize)> {
    let words = text.lines().filter_map(|line| line.strip_prefix("#define ")).map(str::split_whitespace);
    words.filter_map(|mut words| Some((words.next()?, words.next()?.parse().ok()?))).collect()
}

#[test]
fn every_number_has_its_name() {
    assert_eq!(Refusal::from_number(0, TRIALS), None);
    for (number, (_, refusal)) in (1..).zip(NAMES) {
        assert_eq!((Refusal::from_number(number, TRIALS), refusal.number()), (Some(refusal), number));
        assert_eq!(refusal.trials(), if number < 12 { 0 } else { TRIALS });
    }
    for number in 14..=255 {
        let refusal = Refusal::from_number(number, TRIALS).unwrap();
        assert_eq!((refusal, refusal.number(), refusal.trials()), (Refusal::Unnamed { number }, number, 0));
    }
}

#[test]
fn numbers_of_the_header() {
    let numbers = &HEADER[HEADER.find("/* Numbers.").unwrap()..HEADER.find("/* Codes").unwrap()];
    let wanted: Vec<(&str, usize)> = NAMES.iter().map(|(name, refusal)| (*name, refusal.number() as usize)).collect();
    assert_eq!(defined(numbers), [&[("ABE_OK", 0)][..], &wanted].concat());
}

#[test]
fn constants_of_the_header() {
    use abe::{Operator, Relation};
    let wanted = [
        ("ABE_OPERATOR_EQUAL", Operator::Equal as usize),
        ("ABE_OPERATOR_NOT_EQUAL", Operator::NotEqual as usize),
        ("ABE_OPERATOR_LESS", Operator::Less as usize),
        ("ABE_OPERATOR_LESS_EQUAL", Operator::LessEqual as usize),
        ("ABE_OPERATOR_GREATER", Operator::Greater as usize),
        ("ABE_OPERATOR_GREATER_EQUAL", Operator::GreaterEqual as usize),
        ("ABE_RELATION_LESS", Relation::Less as usize),
        ("ABE_RELATION_EQUAL", Relation::Equal as usize),
        ("ABE_RELATION_GREATER", Relation::Greater as usize),
        ("ABE_RELATION_ABSENT", Relation::Absent as usize),
        ("ABE_SETS_WORDS", abe::SETS_WORDS),
        ("ABE_FILES_WORDS", abe::FILES_WORDS),
        ("ABE_INDEXES_WORDS", abe::INDEXES_WORDS),
        ("ABE_RESULT_WORDS", abe::RESULT_WORDS),
        ("ABE_FIGURES_WORDS", abe::FIGURES_WORDS),
    ];
    let defined = defined(HEADER);
    let missing: Vec<_> = wanted.iter().filter(|constant| !defined.contains(constant)).collect();
    assert!(missing.is_empty(), "{missing:?}");
}

/// A row of the table is number, constant, variant, words; a refusal's text is those words, with a figure behind them.
#[test]
fn words_of_the_table() {
    let rows = FORMATS.lines().filter(|line| line.contains("| `ABE_") && !line.contains("| `ABE_OK` |"));
    let rows: Vec<Vec<&str>> = rows.map(|line| line.split('|').map(str::trim).collect()).collect();
    assert_eq!(rows.len(), NAMES.len());
    for (row, (name, refusal)) in rows.iter().zip(NAMES) {
        let [_, number, constant, variant, words, ..] = row[..] else { panic!("{row:?}") };
        assert_eq!((number.parse(), constant), (Ok(refusal.number()), &*format!("`{name}`")));
        let (debug, text) = (format!("{refusal:?}"), refusal.to_string());
        assert_eq!(variant.trim_matches('`').split(' ').next(), debug.split(' ').next());
        assert!(if refusal.trials() == 0 { text == words } else { text.starts_with(words) }, "{text}: {words}");
    }
    assert!(NAMES[11].1.to_string().ends_with(" 20") && NAMES[12].1.to_string().contains(" 20 "));
}

/// By `?` a refusal becomes an error of the caller's.
#[test]
fn an_error_like_others() {
    let run = || -> Result<usize, Box<dyn std::error::Error>> { Ok(abe::index(&[1, 1, 0], 1, 0, &mut [])?.len()) };
    assert_eq!(run().unwrap_err().downcast_ref(), Some(&Refusal::NotThere));
}
