//! The search: a cursor that goes from match to match or fills lists of them, and an iterator over
//! it.

use std::fmt;
use std::iter::FusedIterator;

use crate::{raw, Element, Refusal, LONGEST_TEXT};

/// The most elements of a needle.
///
/// ```
/// use hirtxonda::{matches, Refusal, LONGEST_NEEDLE};
///
/// assert!(matches(b"AB", &[65; LONGEST_NEEDLE]).is_ok());
/// assert_eq!(matches(b"AB", &[65; LONGEST_NEEDLE + 1]).err(), Some(Refusal::Needle));
/// ```
pub const LONGEST_NEEDLE: usize = 1024;

/// The most compares that a cursor may have behind it. No search that began with a fresh cursor
/// comes near.
///
/// ```
/// use hirtxonda::{Cursor, Refusal, MOST_COMPARES};
///
/// let cursor = Cursor { compares: MOST_COMPARES + 1, ..Cursor::fresh(2) };
/// assert_eq!(cursor.next(b"AB", b"B"), Err(Refusal::Compares));
/// ```
pub const MOST_COMPARES: u64 = 1_099_511_627_776;

/// Where a list of calls has got to, and where the search ends. Any numbers may stand here; each
/// cursor is answered or refused.
///
/// ```
/// use hirtxonda::{Cursor, Next};
///
/// let cursor = Cursor { position: 1, ..Cursor::fresh(5) };
/// assert!(matches!(cursor.next(b"ABZAB", b"AB"), Ok(Next::Match { position: 3, .. })));
///
/// // In the first four elements there is no more match.
/// let cursor = Cursor { stop: 4, ..cursor };
/// assert!(matches!(cursor.next(b"ABZAB", b"AB"), Ok(Next::Absent { .. })));
/// ```
#[derive(Clone, Copy, Debug, PartialEq, Eq, Hash)]
pub struct Cursor {
    /// Where the next call begins.
    pub position: u64,
    /// The compares of all calls so far.
    pub compares: u64,
    /// Whether a call has found no more match.
    pub exhausted: bool,
    /// Where the search ends: it is that of the text's first `stop` elements, and a text that has
    /// fewer is refused. No match ends past the stop, and what stands past it is not read. No call
    /// changes it.
    pub stop: u64,
}

/// The answer of [`Cursor::next`], with the cursor to go on with.
///
/// ```
/// use hirtxonda::{Cursor, Next};
///
/// let cursor = Cursor { position: 0, compares: 1, exhausted: true, stop: 5 };
/// assert_eq!(Cursor::fresh(5).next(b"ABZAB", b"ABC"), Ok(Next::Absent { cursor }));
/// ```
#[derive(Clone, Copy, Debug, PartialEq, Eq, Hash)]
pub enum Next {
    /// The needle stands at the position; the cursor goes on from the next one.
    Match {
        /// Where the needle stands.
        position: usize,
        /// The cursor to go on with.
        cursor: Cursor,
    },
    /// There is no more match up to the cursor's stop; the cursor is exhausted.
    Absent {
        /// The exhausted cursor.
        cursor: Cursor,
    },
}

/// The answer of [`Cursor::fill`], with the cursor to go on with.
///
/// ```
/// use hirtxonda::{Cursor, End, Filled};
///
/// let cursor = Cursor { position: 4, compares: 3, exhausted: true, stop: 5 };
/// let filled = Cursor::fresh(5).fill(b"ABZAB", b"AB", &mut [0; 8]);
/// assert_eq!(filled, Ok(Filled { count: 2, cursor, end: End::Absent }));
/// ```
#[derive(Clone, Copy, Debug, PartialEq, Eq, Hash)]
pub struct Filled {
    /// How many positions were put at the front of the list.
    pub count: usize,
    /// The cursor to go on with.
    pub cursor: Cursor,
    /// Why there are no more of them.
    pub end: End,
}

/// Why a fill ended.
///
/// ```
/// use hirtxonda::{Cursor, End, Refusal, MOST_COMPARES};
///
/// let mut list = [0; 2];
/// let mut end = |cursor: Cursor, needle| Ok(cursor.fill(b"ABZAB", needle, &mut list)?.end);
/// assert_eq!(end(Cursor::fresh(5), b"A"), Ok(End::Full));
/// assert_eq!(end(Cursor::fresh(5), b"Z"), Ok(End::Absent));
///
/// // The compare of the first match is one too many for a second.
/// let cursor = Cursor { compares: MOST_COMPARES, ..Cursor::fresh(5) };
/// assert_eq!(end(cursor, b"A"), Ok(End::Stopped(Refusal::Compares)));
///
/// // One too many before the first match: that is no end, the fill is refused.
/// let cursor = Cursor { compares: MOST_COMPARES + 1, ..Cursor::fresh(5) };
/// assert_eq!(end(cursor, b"A"), Err(Refusal::Compares));
/// ```
#[derive(Clone, Copy, Debug, PartialEq, Eq, Hash)]
pub enum End {
    /// The list is full. Whether there is one more match has not been looked at.
    Full,
    /// There is no more match up to the cursor's stop; the cursor is exhausted.
    Absent,
    /// After some matches the next was refused, always by [`Refusal::Compares`]: the cursor has
    /// more than [`MOST_COMPARES`] by then. Over one text and needle, no search that began with a
    /// fresh cursor comes to that.
    Stopped(Refusal),
}

impl Cursor {
    /// The cursor of a first call: 0, 0, not exhausted, and the stop. The text's length searches
    /// all of the text, a lower number its front alone.
    ///
    /// ```
    /// use hirtxonda::{Cursor, Next, Refusal};
    ///
    /// let cursor = Cursor { position: 0, compares: 0, exhausted: false, stop: 5 };
    /// assert_eq!(Cursor::fresh(5), cursor);
    ///
    /// // With the stop one element lower the needle's end is past it; above the text's length it
    /// // is refused, by the calls that search.
    /// assert!(matches!(cursor.next(b"ABZAB", b"ZAB"), Ok(Next::Match { position: 2, .. })));
    /// assert!(matches!(Cursor::fresh(4).next(b"ABZAB", b"ZAB"), Ok(Next::Absent { .. })));
    /// assert_eq!(Cursor::fresh(6).next(b"ABZAB", b"ZAB"), Err(Refusal::Stop));
    /// ```
    pub fn fresh(stop: u64) -> Cursor {
        Cursor { position: 0, compares: 0, exhausted: false, stop }
    }

    /// The next match of the needle in the text, from the cursor's position on and up to its stop.
    ///
    /// ```
    /// use hirtxonda::{Cursor, Next, Refusal};
    ///
    /// let text = b"ABZAB";
    /// let mut cursor = Cursor::fresh(text.len() as u64);
    /// let mut positions = Vec::new();
    /// while let Next::Match { position, cursor: following } = cursor.next(text, b"AB")? {
    ///     positions.push(position);
    ///     cursor = following;
    /// }
    /// assert_eq!(positions, [0, 3]);
    /// # Ok::<(), Refusal>(())
    /// ```
    ///
    /// # Errors
    ///
    /// [`Refusal::Text`], [`Refusal::Needle`], [`Refusal::Exhausted`], [`Refusal::Stop`],
    /// [`Refusal::Position`], [`Refusal::Compares`], tested in this order.
    pub fn next<E: Element>(self, text: &[E], needle: &[E]) -> Result<Next, Refusal> {
        let mut after = self.to_raw();
        let mut position = 0;
        // SAFETY: two slices with their lengths, and two locals that are written.
        let number =
            unsafe { E::NEXT(&mut after, text.as_ptr(), text.len(), needle.as_ptr(), needle.len(), &mut position) };
        let cursor = Cursor::from_raw(after);
        if number == raw::ABSENT {
            return Ok(Next::Absent { cursor });
        }
        Refusal::check(number)?;
        Ok(Next::Match { position: position as usize, cursor })
    }

    /// Puts the positions of the next matches into a list: [`Cursor::next`] repeated until the list
    /// is full or a call gives no match. They stand at its front, the least first; the rest of it
    /// stays as it was. An empty list is full at once, where the call is not refused.
    ///
    /// ```
    /// use hirtxonda::{Cursor, End, Refusal};
    ///
    /// let text = b"ABZAB";
    /// let mut cursor = Cursor::fresh(text.len() as u64);
    /// let mut list = [0; 256];
    /// let mut positions = Vec::new();
    /// loop {
    ///     let filled = cursor.fill(text, b"AB", &mut list)?;
    ///     positions.extend_from_slice(&list[..filled.count]);
    ///     match filled.end {
    ///         End::Full => cursor = filled.cursor,
    ///         End::Absent => break,
    ///         End::Stopped(refusal) => return Err(refusal),
    ///     }
    /// }
    /// assert_eq!(positions, [0, 3]);
    /// # Ok::<(), Refusal>(())
    /// ```
    ///
    /// # Errors
    ///
    /// [`Refusal::Text`], [`Refusal::Needle`], [`Refusal::Exhausted`], [`Refusal::Stop`],
    /// [`Refusal::Position`], [`Refusal::Compares`], tested in this order and each before the first
    /// match; the whole list is as it was. A number after it is no refusal: the fill is stopped,
    /// see [`End::Stopped`].
    pub fn fill<E: Element>(self, text: &[E], needle: &[E], positions: &mut [u64]) -> Result<Filled, Refusal> {
        let mut after = self.to_raw();
        let mut count = 0;
        // SAFETY: three slices with their lengths, one of them lent alone, and two locals that are
        // written.
        let number = unsafe {
            let (list, length) = (positions.as_mut_ptr(), positions.len());
            E::FILL(&mut after, text.as_ptr(), text.len(), needle.as_ptr(), needle.len(), list, length, &mut count)
        };
        let end = match number {
            raw::FULL => End::Full,
            raw::ABSENT => End::Absent,
            // Refused, the call has left `count` as it was; stopped, it has found a match at least.
            _ if count == 0 => return Err(Refusal::listed(number)),
            _ => End::Stopped(Refusal::listed(number)),
        };
        Ok(Filled { count, cursor: Cursor::from_raw(after), end })
    }

    fn to_raw(self) -> raw::Cursor {
        let Cursor { position, compares, exhausted, stop } = self;
        raw::Cursor { position, compares, exhausted: u64::from(exhausted), stop }
    }

    fn from_raw(cursor: raw::Cursor) -> Cursor {
        let raw::Cursor { position, compares, exhausted, stop } = cursor;
        Cursor { position, compares, exhausted: exhausted != 0, stop }
    }
}

/// Every position where the needle stands in the text, the least first.
///
/// ```
/// let positions: Vec<usize> = hirtxonda::matches(b"AAAA", b"AA")?.collect();
/// assert_eq!(positions, [0, 1, 2]);
/// # Ok::<(), hirtxonda::Refusal>(())
/// ```
///
/// # Errors
///
/// [`Refusal::Text`], [`Refusal::Needle`]. The iterator itself meets no refusal.
pub fn matches<'a, E: Element>(text: &'a [E], needle: &'a [E]) -> Result<Matches<'a, E>, Refusal> {
    matches_until(text, needle, text.len())
}

/// Every position where the needle stands in the text's first `stop` elements, the least first: the
/// [`matches()`] of `&text[..stop]`. No match ends past the stop, and what stands past it is not
/// read.
///
/// ```
/// use hirtxonda::{matches_until, Refusal};
///
/// // Two volumes bound in one register; the first has twelve bytes.
/// let register = b"SMITH JONES SMITHSON SMITH";
/// assert!(matches_until(register, b"SMITH", 12)?.eq([0]));
/// assert!(matches_until(register, b"SMITH", register.len())?.eq([0, 12, 21]));
///
/// // A name that goes on past the stop is no match.
/// assert!(matches_until(register, b"SMITH", 16)?.eq([0]));
/// assert!(matches_until(register, b"SMITH", 17)?.eq([0, 12]));
///
/// assert_eq!(matches_until(register, b"SMITH", 27).err(), Some(Refusal::Stop));
/// # Ok::<(), Refusal>(())
/// ```
///
/// # Errors
///
/// [`Refusal::Text`], [`Refusal::Needle`], [`Refusal::Stop`], tested in this order. The iterator
/// itself meets no refusal.
pub fn matches_until<'a, E: Element>(text: &'a [E], needle: &'a [E], stop: usize) -> Result<Matches<'a, E>, Refusal> {
    Matches::new(text, needle, stop, Cursor::fill)
}

/// [`Cursor::fill`], or the same by the instructions.
type FillCall<E> = fn(Cursor, &[E], &[E], &mut [u64]) -> Result<Filled, Refusal>;

/// The most positions of a list of the iterator's. Longer ones were a few hundredths faster, and
/// are more to hold and to clone.
const LONGEST_LIST: usize = 64;

/// The iterator that [`matches()`] and [`matches_until`] give.
///
/// It takes the positions in lists, as [`Cursor::fill`] does, and gives them one by one. The first
/// list has one position, and each later one twice as many as the last, up to 64. So it looks no
/// further than the first match before it is asked for the second, and later is never ahead by as
/// many matches as it has given.
///
/// ```
/// let mut matches = hirtxonda::matches(b"ABZAB", b"AB")?;
/// assert_eq!(matches.next(), Some(0));
/// assert_eq!(matches.next(), Some(3));
/// assert_eq!(matches.next(), None);
/// # Ok::<(), hirtxonda::Refusal>(())
/// ```
#[derive(Clone)]
pub struct Matches<'a, E: Element> {
    text: &'a [E],
    needle: &'a [E],
    fill: FillCall<E>,
    /// After the last list.
    cursor: Cursor,
    /// The last list, with `found` positions, of which `given` were given.
    list: [u64; LONGEST_LIST],
    found: usize,
    given: usize,
    /// The length of the next list. It begins with 1: many callers want the first match alone, and
    /// the walk to the second may be one through the whole text.
    wanted: usize,
}

impl<'a, E: Element> Matches<'a, E> {
    pub(crate) fn new(
        text: &'a [E],
        needle: &'a [E],
        stop: usize,
        fill: FillCall<E>,
    ) -> Result<Matches<'a, E>, Refusal> {
        let cursor = Cursor::fresh(stop as u64);
        accept_lengths(text, needle)?;
        accept_stop(cursor, text)?;
        Ok(Matches { text, needle, fill, cursor, list: [0; LONGEST_LIST], found: 0, given: 0, wanted: 1 })
    }

    /// The compares of all lists so far, and so also those for positions that are found and not yet
    /// given. After the first position they are those of the first match, and once the iterator has
    /// ended those of the whole search; in between they may be ahead.
    ///
    /// ```
    /// let mut matches = hirtxonda::matches(b"ABZAB", b"AB")?;
    /// assert_eq!(matches.compares(), 0);
    /// assert_eq!(matches.next(), Some(0));
    /// assert_eq!(matches.compares(), 1);
    /// assert_eq!(matches.by_ref().count(), 1);
    /// assert_eq!(matches.compares(), 3);
    /// # Ok::<(), hirtxonda::Refusal>(())
    /// ```
    pub fn compares(&self) -> u64 {
        self.cursor.compares
    }

    /// Takes the next list, which is empty where there is no more match.
    fn refill(&mut self) {
        (self.found, self.given) = (0, 0);
        if self.cursor.exhausted {
            return;
        }
        match (self.fill)(self.cursor, self.text, self.needle, &mut self.list[..self.wanted]) {
            Ok(filled) => (self.cursor, self.found) = (filled.cursor, filled.count),
            Err(refusal) => unreachable!("the lengths and the stop were accepted: {refusal}"),
        }
        self.wanted = LONGEST_LIST.min(2 * self.wanted);
    }

    /// What is found and not yet given.
    fn ahead(&self) -> &[u64] {
        &self.list[self.given..self.found]
    }
}

impl<E: Element> Iterator for Matches<'_, E> {
    type Item = usize;

    fn next(&mut self) -> Option<usize> {
        if self.ahead().is_empty() {
            self.refill();
        }
        let position = *self.ahead().first()?;
        self.given += 1;
        Some(position as usize)
    }
}

impl<E: Element> FusedIterator for Matches<'_, E> {}

impl<E: Element + fmt::Debug> fmt::Debug for Matches<'_, E> {
    fn fmt(&self, f: &mut fmt::Formatter<'_>) -> fmt::Result {
        f.debug_struct("Matches")
            .field("text", &self.text)
            .field("needle", &self.needle)
            .field("cursor", &self.cursor)
            .field("ahead", &self.ahead())
            .finish_non_exhaustive()
    }
}

/// Refuses a text or a needle that is too long.
pub(crate) fn accept_lengths<E>(text: &[E], needle: &[E]) -> Result<(), Refusal> {
    if text.len() > LONGEST_TEXT {
        Err(Refusal::Text)
    } else if needle.len() > LONGEST_NEEDLE {
        Err(Refusal::Needle)
    } else {
        Ok(())
    }
}

/// Refuses a stop above the text's length.
pub(crate) fn accept_stop<E>(cursor: Cursor, text: &[E]) -> Result<(), Refusal> {
    if cursor.stop > text.len() as u64 {
        Err(Refusal::Stop)
    } else {
        Ok(())
    }
}
