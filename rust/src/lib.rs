//! A proved software model of the processor's SSE4.2 string compares, and a search over it that
//! finds every position of a needle in a text.
//!
//! The calls are thin wrappers over the library's static archive, whose every function is proved
//! against its definition. A machine without the instructions gets the same index, mask and flags,
//! bit for bit. On x86-64 [`silicon`] has the four instructions and the search on the instructions
//! themselves.
//!
//! Texts are slices of bytes or of 16-bit words ([`Element`]). A [`Day`] has the services of a day
//! in their running order, and [`Day::page`] is its page for the wall. Bad input is refused by a
//! listed number, a [`Refusal`], and nothing is changed.
//!
//! # Example
//!
//! Where does `AB` stand in `ABZAB`, and where in its first four bytes? Where does `ABC` stand in
//! one block of sixteen bytes? Where do the letters of a line end? Which of two services at 10:30
//! is the first, and what is its line on the wall?
//!
//! ```
//! use hirtxonda::{matches, matches_until, pcmpestri, range_span, Day, Entry, Refusal, Signedness};
//!
//! # fn main() -> Result<(), Refusal> {
//! let mut found = matches(b"ABZAB", b"AB")?;
//! assert_eq!(found.by_ref().collect::<Vec<_>>(), [0, 3]);
//! assert_eq!(found.compares(), 3);
//! assert_eq!(matches_until(b"ABZAB", b"AB", 4)?.collect::<Vec<_>>(), [0]);
//!
//! // 0Ch: unsigned bytes, equal ordered, positive, least index.
//! let answer = pcmpestri(b"ABC\0\0\0\0\0\0\0\0\0\0\0\0\0", 3, b"ZZABZABCZZZZZZAB", 16, 0x0c)?;
//! assert_eq!(answer.index, 5);
//! assert!(answer.flags.carry && answer.flags.sign && !answer.flags.zero);
//!
//! assert_eq!(range_span(b"SMITH 1871", b"AZaz", Signedness::Unsigned)?, b"SMITH");
//!
//! let day = Day::of(&[Entry::new(3, 630, b"SMITH"), Entry::new(8, 630, b"JONES")])?;
//! assert_eq!(day.entries()[0].name(), b"JONES");
//! assert!(day.page().starts_with("         8 10:30 JONES   "));
//! # Ok(())
//! # }
//! ```

#![deny(missing_docs, clippy::undocumented_unsafe_blocks)]

mod refusal;
mod unit;
mod search;
mod text;
mod schedule;
mod wall_page;
mod report;
mod raw;
#[cfg(target_arch = "x86_64")]
pub mod silicon;

pub use refusal::Refusal;
pub use report::{refusal_line, report, report_into, right_justified, LONGEST_INPUT, LONGEST_REPORT, WIDEST_COLUMN};
pub use schedule::{Day, Entry, LAST_MINUTE, LONGEST_NAME, MOST_ENTRIES};
pub use search::{matches, matches_until, Cursor, End, Filled, Matches, Next, LONGEST_NEEDLE, MOST_COMPARES};
pub use text::{compare, lesser, range_span, span, Element, Signedness, LONGEST_TEXT};
pub use unit::{
    pcmpestri, pcmpestri_0c, pcmpestri_0d, pcmpestri_18, pcmpestri_19, pcmpestrm, pcmpistri, pcmpistrm, Flags,
    IndexAnswer, MaskAnswer,
};
pub use wall_page::{day_page, day_page_text, DAY_LINE};
