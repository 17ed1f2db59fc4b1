use crate::{raw, Refusal};

/// The index of a column: the table's row numbers by value, then by row number. They are put in front of `out` and given as
/// the part of it that they fill; the words behind them are kept, and by a refusal all. No table has over 256 rows.
///
/// ```
/// // One table of two columns with the rows (7, 30), (8, 10), (9, 20).
/// let data = [1, 2, 3, 7, 30, 8, 10, 9, 20];
/// let mut out = [0; 256];
/// assert_eq!(abe::index(&data, 0, 1, &mut out)?, [1, 2, 0]);
/// assert_eq!(abe::index(&data, 0, 2, &mut out), Err(abe::Refusal::NotThere));
/// assert_eq!(abe::index(&data, 0, 1, &mut out[..2]), Err(abe::Refusal::ResultTooShort));
/// # Ok::<(), abe::Refusal>(())
/// ```
///
/// # Errors
///
/// The first that applies of [`Refusal::DataLayout`], [`Refusal::DataValue`], [`Refusal::NotThere`] (no such table or
/// column) and [`Refusal::ResultTooShort`] (`out` has fewer words than the table has rows).
pub fn index<'o>(data: &[i32], table: u32, column: u32, out: &'o mut [u16]) -> Result<&'o [u16], Refusal> {
    let number = raw::index(data, table, column, out);
    match Refusal::from_number(number, 0) {
        Some(refusal) => Err(refusal),
        // The table is there, so its rows are the second of its two words in the directory.
        None => Ok(&out[..data[2 + 2 * table as usize] as usize]),
    }
}
