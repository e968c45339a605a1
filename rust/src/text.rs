//! Texts in both widths: their elements, leading runs and orders.

use std::cmp::Ordering;

use crate::{raw, Refusal};

/// The most elements of a text.
///
/// ```
/// use hirtxonda::{matches, Refusal, LONGEST_TEXT};
///
/// assert!(matches(&vec![0u8; LONGEST_TEXT], &[1]).is_ok());
/// assert_eq!(matches(&vec![0u8; LONGEST_TEXT + 1], &[1]).err(), Some(Refusal::Text));
/// ```
pub const LONGEST_TEXT: usize = 1_048_576;

/// What a text is made of: `u8`, bytes, or `u16`, words. No other type can be one.
///
/// ```
/// use hirtxonda::{matches, Element, Refusal};
///
/// fn count<E: Element>(text: &[E], needle: &[E]) -> Result<usize, Refusal> {
///     Ok(matches(text, needle)?.count())
/// }
///
/// assert_eq!(count(b"ABZAB", b"AB"), Ok(2));
/// assert_eq!(count(&[1u16, 500, 1, 500], &[500]), Ok(2));
/// assert_eq!((u8::BLOCK, u16::BLOCK), (16, 8));
/// ```
pub trait Element: raw::Calls + Copy + Eq + 'static {
    /// The elements of a block, 16 bytes or 8 words; a set or a list of bounds has no more.
    const BLOCK: usize = 16 / std::mem::size_of::<Self>();
}

impl Element for u8 {}
impl Element for u16 {}

/// How elements are ordered.
///
/// ```
/// use hirtxonda::{compare, Signedness};
/// use std::cmp::Ordering;
///
/// assert_eq!(compare(&[0x80u8], &[0x7f], Signedness::Unsigned), Ok(Ordering::Greater));
/// assert_eq!(compare(&[0x80u8], &[0x7f], Signedness::Signed), Ok(Ordering::Less));
/// ```
#[derive(Clone, Copy, Debug, PartialEq, Eq, Hash)]
pub enum Signedness {
    /// As unsigned numbers.
    Unsigned,
    /// As numbers in two's complement.
    Signed,
}

/// The longest front of the text whose elements are all in the set.
///
/// ```
/// assert_eq!(hirtxonda::span(b"1871-03-02 Otis", b"0123456789-")?, b"1871-03-02");
/// # Ok::<(), hirtxonda::Refusal>(())
/// ```
///
/// # Errors
///
/// [`Refusal::Text`], [`Refusal::List`].
pub fn span<'a, E: Element>(text: &'a [E], set: &[E]) -> Result<&'a [E], Refusal> {
    let mut span = 0;
    // SAFETY: two slices with their lengths, and a local that is written.
    Refusal::check(unsafe { E::SPAN(text.as_ptr(), text.len(), set.as_ptr(), set.len(), &mut span) })?;
    Ok(&text[..span])
}

/// The longest front of the text whose elements each lie in one of the ranges. The bounds are in
/// pairs, low and high; a low bound above its high one makes an empty range.
///
/// ```
/// use hirtxonda::{range_span, Signedness};
///
/// assert_eq!(range_span(b"Otis, Elisha", b"AZaz", Signedness::Unsigned)?, b"Otis");
/// // From -1 to 1.
/// let run = range_span(&[0u16, 0xffff, 1, 2], &[0xffff, 1], Signedness::Signed)?;
/// assert_eq!(run, [0, 0xffff, 1]);
/// # Ok::<(), hirtxonda::Refusal>(())
/// ```
///
/// # Errors
///
/// [`Refusal::Text`], [`Refusal::List`], [`Refusal::Odd`].
pub fn range_span<'a, E: Element>(text: &'a [E], bounds: &[E], signedness: Signedness) -> Result<&'a [E], Refusal> {
    Ok(&text[..signed(E::RANGE_SPAN, text, bounds, signedness)?])
}

/// The order of two texts. At the first difference the smaller element decides; if one text is the
/// front of the other, the shorter is smaller.
///
/// ```
/// use hirtxonda::{compare, Signedness};
/// use std::cmp::Ordering;
///
/// assert_eq!(compare(b"SMITH", b"SMYTH", Signedness::Unsigned), Ok(Ordering::Less));
/// assert_eq!(compare(b"SMITHS", b"SMITH", Signedness::Unsigned), Ok(Ordering::Greater));
/// ```
///
/// # Errors
///
/// [`Refusal::Text`].
pub fn compare<E: Element>(first: &[E], second: &[E], signedness: Signedness) -> Result<Ordering, Refusal> {
    Ok(signed(E::COMPARE, first, second, signedness)?.cmp(&0))
}

/// The smaller of two texts, the first when they are equal.
///
/// ```
/// use hirtxonda::{lesser, Signedness};
///
/// assert_eq!(lesser(b"SMYTH", b"SMITH", Signedness::Unsigned)?, b"SMITH");
/// # Ok::<(), hirtxonda::Refusal>(())
/// ```
///
/// # Errors
///
/// [`Refusal::Text`].
pub fn lesser<'a, E: Element>(first: &'a [E], second: &'a [E], signedness: Signedness) -> Result<&'a [E], Refusal> {
    Ok(if signed(E::LESSER, first, second, signedness)? == 0 { first } else { second })
}

/// One of the three calls that know signed from unsigned elements.
fn signed<E: Element, Answer: Default>(
    call: raw::Signed<E, Answer>,
    first: &[E],
    second: &[E],
    signedness: Signedness,
) -> Result<Answer, Refusal> {
    let mut answer = Answer::default();
    let is_signed = u32::from(signedness == Signedness::Signed);
    // SAFETY: two slices with their lengths, and a local that is written.
    Refusal::check(unsafe {
        call(first.as_ptr(), first.len(), second.as_ptr(), second.len(), is_signed, &mut answer)
    })?;
    Ok(answer)
}
