//! Decimal columns, and what the program `hits` prints.

use crate::{raw, Refusal};

/// The widest column.
///
/// ```
/// use hirtxonda::{right_justified, Refusal, WIDEST_COLUMN};
///
/// let mut line = [0; 32];
/// assert_eq!(right_justified(u64::MAX, WIDEST_COLUMN, &mut line), Ok(()));
/// assert_eq!(right_justified(0, WIDEST_COLUMN + 1, &mut line), Err(Refusal::Width));
/// ```
pub const WIDEST_COLUMN: usize = 20;

/// The most bytes of a report's input.
///
/// ```
/// use hirtxonda::{report, Refusal, LONGEST_INPUT};
///
/// assert_eq!(report(&[b'\n'; LONGEST_INPUT + 1]), Err(Refusal::Input));
/// ```
pub const LONGEST_INPUT: usize = 65_536;

/// The bytes of the longest report, and so of a page: no input has a longer one.
///
/// ```
/// use hirtxonda::{report, LONGEST_INPUT, LONGEST_REPORT};
///
/// // An empty needle stands at every position of the longest text, and after it.
/// assert_eq!(report(&[b'\n'; LONGEST_INPUT])?.len(), LONGEST_REPORT);
/// # Ok::<(), hirtxonda::Refusal>(())
/// ```
pub const LONGEST_REPORT: usize = 589_843;

/// Writes the number in decimal to the first `width` bytes of the buffer, right-justified with
/// spaces. The bytes after them stay; refused, all do.
///
/// ```
/// let mut line = *b"????????????";
/// hirtxonda::right_justified(1871, 8, &mut line)?;
/// assert_eq!(&line, b"    1871????");
/// # Ok::<(), hirtxonda::Refusal>(())
/// ```
///
/// # Errors
///
/// [`Refusal::Width`], [`Refusal::Buffer`].
pub fn right_justified(number: u64, width: usize, buffer: &mut [u8]) -> Result<(), Refusal> {
    // SAFETY: a slice with its length.
    Refusal::check(unsafe { raw::hx_right_justified(number, width, buffer.as_mut_ptr(), buffer.len()) })
}

/// The lines that the program `hits` prints for the input: the needle up to the first line feed,
/// the text all after it. For an input that is refused it prints a [`refusal_line`].
///
/// ```
/// use hirtxonda::{report, Refusal};
///
/// assert_eq!(report(b"AB\nABZAB")?, b"       0\n       3\n       2         3\n");
/// assert_eq!(report(b"no line feed"), Err(Refusal::Feed));
/// # Ok::<(), hirtxonda::Refusal>(())
/// ```
///
/// # Errors
///
/// [`Refusal::Input`], [`Refusal::Feed`], [`Refusal::Needle`], in this order.
pub fn report(input: &[u8]) -> Result<Vec<u8>, Refusal> {
    let mut page = vec![0; LONGEST_REPORT];
    let whole: &mut [u8; LONGEST_REPORT] = page.as_mut_slice().try_into().expect("the page has that many bytes");
    let written = report_into(input, whole)?;
    page.truncate(written);
    page.shrink_to_fit();
    Ok(page)
}

/// Writes the [`report`] to the front of the page, and gives how many bytes it has. The bytes after
/// them stay; refused, the whole page does.
///
/// ```
/// let mut page = [b'?'; hirtxonda::LONGEST_REPORT];
/// assert_eq!(hirtxonda::report_into(b"A\n", &mut page), Ok(19));
/// assert_eq!(&page[..21], b"       0         0\n??");
/// ```
///
/// # Errors
///
/// [`Refusal::Input`], [`Refusal::Feed`], [`Refusal::Needle`], in this order.
pub fn report_into(input: &[u8], page: &mut [u8; LONGEST_REPORT]) -> Result<usize, Refusal> {
    let mut written = 0;
    // SAFETY: a slice with its length, a page as long as the call asks for, and a local; both that
    // are written are lent alone.
    Refusal::check(unsafe { raw::hx_report(input.as_ptr(), input.len(), page.as_mut_ptr(), &mut written) })?;
    Ok(written)
}

/// The line that the program `hits` prints for an input that is refused.
///
/// ```
/// use hirtxonda::{refusal_line, Refusal};
///
/// assert_eq!(&refusal_line(Refusal::Feed), b"       6\n");
/// ```
pub fn refusal_line(refusal: Refusal) -> [u8; 9] {
    let mut line = [0; 9];
    // SAFETY: nine bytes, lent alone.
    unsafe { raw::hx_refusal_line(refusal.number(), line.as_mut_ptr()) };
    line
}
