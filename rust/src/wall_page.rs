//! The page of a day that goes up on the wall: a line for each entry.

use crate::{raw, Day, Entry, Refusal, MOST_ENTRIES};

/// The bytes of an entry's line, with its line feed.
///
/// ```
/// use hirtxonda::{day_page_text, Entry, Refusal, DAY_LINE};
///
/// let entries = [Entry::new(8, 630, b"SMITH"), Entry::new(7, 545, b"OTWAY")];
/// assert_eq!(day_page_text(&entries)?.len(), 2 * DAY_LINE);
/// # Ok::<(), Refusal>(())
/// ```
pub const DAY_LINE: usize = 50;

/// Writes a line of [`DAY_LINE`] bytes for each entry to the front of the page, in the order in
/// which the entries are handed over. The bytes after the last line stay; refused, all do.
///
/// A line has the entry number, right-justified in 10 bytes, the time, the name in 32 bytes with
/// spaces after it, and a line feed. A byte of the name that is not in 32 to 126 prints as `?`.
/// Nothing is sorted, and a number may stand twice.
///
/// ```
/// use hirtxonda::{day_page, Entry, Refusal};
///
/// let mut page = [b'.'; 52];
/// day_page(&[Entry::new(7, 545, b"SMITH")], &mut page)?;
/// assert_eq!(&page, b"         7 09:05 SMITH                           \n..");
/// # Ok::<(), Refusal>(())
/// ```
///
/// # Errors
///
/// [`Refusal::Count`], [`Refusal::Entry`], [`Refusal::Page`], tested in this order.
///
/// ```
/// use hirtxonda::{day_page, Entry, Refusal};
///
/// let mut page = [b'.'; 99];
/// let (smith, ward) = (Entry::new(4, 630, b"SMITH"), Entry::new(4, 545, b"WARD"));
/// assert_eq!(day_page(&[smith, ward], &mut page), Err(Refusal::Page));
///
/// // The minute is looked at before the page.
/// assert_eq!(day_page(&[smith, Entry::new(4, 1440, b"WARD")], &mut page), Err(Refusal::Entry));
/// assert_eq!(page, [b'.'; 99]);
/// ```
pub fn day_page(entries: &[Entry], page: &mut [u8]) -> Result<(), Refusal> {
    // An `Entry` is a `raw::Entry`, and has its layout.
    let from = entries.as_ptr().cast();
    // SAFETY: two slices with their lengths, of which the second is written.
    Refusal::check(unsafe { raw::hx_day_page(from, entries.len(), page.as_mut_ptr(), page.len()) })
}

/// The lines of [`day_page`], and nothing after them.
///
/// ```
/// use hirtxonda::{day_page_text, Entry, Refusal};
///
/// let page = day_page_text(&[Entry::new(8, 630, b"SMITH"), Entry::new(1871, 545, b"ZO\xcb")])?;
/// let lines: Vec<&str> = page.lines().map(str::trim_end).collect();
/// assert_eq!(lines, ["         8 10:30 SMITH", "      1871 09:05 ZO?"]);
/// # Ok::<(), Refusal>(())
/// ```
///
/// # Errors
///
/// [`Refusal::Count`], [`Refusal::Entry`], tested in this order.
///
/// ```
/// use hirtxonda::{day_page_text, Entry, Refusal};
///
/// assert_eq!(day_page_text(&[Entry::new(7, 1440, b"SMITH")]), Err(Refusal::Entry));
/// ```
pub fn day_page_text(entries: &[Entry]) -> Result<String, Refusal> {
    // More entries are refused, and need no room.
    let mut page = vec![0; DAY_LINE * entries.len().min(MOST_ENTRIES)];
    day_page(entries, &mut page)?;
    Ok(String::from_utf8(page).expect("a page has bytes from 32 to 126 and line feeds"))
}

impl Day {
    /// The page of the day: the lines of [`day_page`] in the running order.
    ///
    /// ```
    /// use hirtxonda::{Day, Entry, Refusal};
    ///
    /// let day = Day::of(&[Entry::new(8, 630, b"SMITH"), Entry::new(7, 545, b"OTWAY")])?;
    /// let page = day.page();
    /// let lines: Vec<&str> = page.lines().map(str::trim_end).collect();
    /// assert_eq!(lines, ["         7 09:05 OTWAY", "         8 10:30 SMITH"]);
    /// # Ok::<(), Refusal>(())
    /// ```
    pub fn page(&self) -> String {
        day_page_text(self.entries()).expect("a day has entries that were accepted")
    }
}
