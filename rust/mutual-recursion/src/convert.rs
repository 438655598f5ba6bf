//! Sheets of the first form, made sheets of today.

use crate::lent;
use crate::refusal::Refusal;
use crate::{RESULT_BYTES, WORK_BYTES};

/// Makes a sheet of today of an old one, whose calls have a name and arguments, and no word for their precedence. It holds the
/// same, word for word, and each call has no precedence.
///
/// An old sheet is refused as [`join`](crate::join) refuses one of today, and by [`Refusal::ResultTooLarge`] where only the new
/// sheet is too long: it has four bytes more for each call. Nothing in a sheet says which form it has, and no reader can tell:
/// a sheet of the other form is often refused by [`Refusal::BadRecord`], but not always. So the caller must know which sheets
/// are old.
///
/// ```
/// use mutual_recursion::{Reading, Refusal, convert, join};
///
/// // e: a | INT;  a: e PLUS;    as it was written before calls had a precedence
/// let words: [u32; 61] = [
///     1, 1, 0, 2, 10, 0, 0, 0, 1, 20, 0, 3, 0, 0, 0, 2, 0, 11, 0, 0, 0, 1, 21, 0, 4, 0, 0, 0, 3,
///     2, 2, 0, 1, 12, 0, 0, 0, 2, 22, 0, 3, 0, 0, 0, 1, 0, 23, 0, 4, 0, 0, 0, 4,
///     2, 53, 0, 13, 24, 0, 0, 0,
/// ];
/// let old: Vec<u8> = words.iter().flat_map(|word| word.to_le_bytes()).collect();
///
/// assert_eq!(join(&old, Reading::Original), Err(Refusal::BadRecord));
/// let sheet = convert(&old)?;
/// assert_eq!(sheet.len(), old.len() + 2 * 4);
/// assert_eq!(join(&sheet, Reading::Original)?.plans, 1);
/// # Ok::<(), Refusal>(())
/// ```
pub fn convert(old: &[u8]) -> Result<Vec<u8>, Refusal> {
    let mut result = vec![0; RESULT_BYTES];
    let mut numbers = [0; 2];
    lent::convert(old, &mut result, &mut vec![0; WORK_BYTES], &mut numbers);
    let [refusal, length] = numbers;
    Refusal::none(refusal)?;
    result.truncate(length as usize);
    Ok(result)
}
