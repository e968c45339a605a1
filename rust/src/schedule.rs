//! The running order of a day: its services by minute, then name, then entry number.

use std::fmt;

use crate::{raw, Refusal};

/// The most entries of a day.
///
/// ```
/// use hirtxonda::{Day, Entry, Refusal, MOST_ENTRIES};
///
/// let entries: Vec<Entry> = (0..201).map(|number| Entry::new(number, 630, b"SMITH")).collect();
/// assert!(Day::of(&entries[..MOST_ENTRIES]).is_ok());
/// assert_eq!(Day::of(&entries), Err(Refusal::Count));
/// ```
pub const MOST_ENTRIES: usize = 200;

/// The last minute of a day, 23:59.
///
/// ```
/// use hirtxonda::{Day, Entry, Refusal, LAST_MINUTE};
///
/// assert!(Day::of(&[Entry::new(1, LAST_MINUTE, b"SMITH")]).is_ok());
/// assert_eq!(Day::of(&[Entry::new(1, LAST_MINUTE + 1, b"SMITH")]), Err(Refusal::Entry));
/// ```
pub const LAST_MINUTE: u16 = 1439;

/// The most bytes of an entry's name.
///
/// ```
/// use hirtxonda::{Day, Entry, Refusal, LONGEST_NAME};
///
/// assert!(Day::of(&[Entry::new(1, 630, &[b'A'; LONGEST_NAME])]).is_ok());
/// assert_eq!(Day::of(&[Entry::new(1, 630, &[b'A'; LONGEST_NAME + 1])]), Err(Refusal::Entry));
/// ```
pub const LONGEST_NAME: usize = 32;

/// A service: its entry number, the minute of the day, and a name of bytes. Any numbers and bytes
/// may stand here; [`Day::of`] and [`day_page`](crate::day_page) accept or refuse each entry.
///
/// Two entries are equal where all their bytes are, also those past the name's length. In a [`Day`]
/// these are zero.
///
/// ```
/// use hirtxonda::Entry;
///
/// let entry = Entry::new(7, 545, b"SMITH");
/// assert_eq!((entry.number(), entry.minute(), entry.name()), (7, 545, &b"SMITH"[..]));
/// ```
#[derive(Clone, Copy, PartialEq, Eq, Hash)]
#[repr(transparent)]
pub struct Entry(raw::Entry);

impl Entry {
    /// An entry with this name, and zeros after it.
    ///
    /// Of a name that is longer than [`LONGEST_NAME`], the first bytes are kept and the length, so
    /// that a day with this entry is refused and no name is cut.
    ///
    /// ```
    /// use hirtxonda::{Day, Entry, Refusal};
    ///
    /// let entry = Entry::new(7, 545, b"THE HONOURABLE MARGARET ANDERSEN OF HARTLEY");
    /// assert_eq!(entry.name(), b"THE HONOURABLE MARGARET ANDERSEN");
    /// assert_eq!(Day::of(&[entry]), Err(Refusal::Entry));
    /// ```
    pub fn new(number: u32, minute: u16, name: &[u8]) -> Entry {
        let mut bytes = [0; LONGEST_NAME];
        let kept = name.len().min(LONGEST_NAME);
        bytes[..kept].copy_from_slice(&name[..kept]);
        Entry::from_parts(number, minute, u16::try_from(name.len()).unwrap_or(u16::MAX), bytes)
    }

    /// An entry as it stands in memory: the length of its name, and 32 bytes of which the first are
    /// the name. The others decide nothing, and are zero in a day.
    ///
    /// ```
    /// use hirtxonda::{Day, Entry, Refusal};
    ///
    /// let entry = Entry::from_parts(7, 545, 5, *b"SMITH left over from another one");
    /// assert_eq!(entry.name(), b"SMITH");
    /// assert_eq!(Day::of(&[entry])?.entries(), [Entry::new(7, 545, b"SMITH")]);
    /// # Ok::<(), Refusal>(())
    /// ```
    pub fn from_parts(number: u32, minute: u16, length: u16, name: [u8; LONGEST_NAME]) -> Entry {
        Entry(raw::Entry { number, minute, length, name })
    }

    /// The entry number. No two entries of a day have the same.
    ///
    /// ```
    /// assert_eq!(hirtxonda::Entry::new(7, 545, b"SMITH").number(), 7);
    /// ```
    pub fn number(&self) -> u32 {
        self.0.number
    }

    /// The minute of the day: 545 is 09:05.
    ///
    /// ```
    /// assert_eq!(hirtxonda::Entry::new(7, 545, b"SMITH").minute(), 545);
    /// ```
    pub fn minute(&self) -> u16 {
        self.0.minute
    }

    /// The name: as many bytes as its length says, at most [`LONGEST_NAME`].
    ///
    /// ```
    /// assert_eq!(hirtxonda::Entry::new(7, 545, b"SMITH").name(), b"SMITH");
    /// ```
    pub fn name(&self) -> &[u8] {
        &self.0.name[..LONGEST_NAME.min(usize::from(self.0.length))]
    }
}

impl fmt::Debug for Entry {
    fn fmt(&self, f: &mut fmt::Formatter<'_>) -> fmt::Result {
        self.0.fmt(f)
    }
}

/// The services of a day in their running order. One set of entries makes one day, in whatever
/// order they are handed over.
///
/// ```
/// use hirtxonda::{Day, Entry, Refusal};
///
/// let (jones, smith) = (Entry::new(8, 630, b"JONES"), Entry::new(3, 630, b"SMITH"));
/// assert_eq!(Day::of(&[jones, smith])?, Day::of(&[smith, jones])?);
/// # Ok::<(), Refusal>(())
/// ```
#[derive(Clone, PartialEq, Eq, Hash)]
pub struct Day {
    places: [Entry; MOST_ENTRIES],
    count: u64,
}

impl Day {
    /// The day of these entries, sorted by minute, then name, then number. Of two names, at the
    /// first difference the smaller byte decides, as an unsigned number; if one is the front of the
    /// other, the shorter is smaller.
    ///
    /// ```
    /// use hirtxonda::{Day, Entry, Refusal};
    ///
    /// let entered = [
    ///     Entry::new(4, 630, b"SMITHE"),
    ///     Entry::new(9, 630, b"SMITH"),
    ///     Entry::new(6, 545, b"WARD"),
    ///     Entry::new(2, 630, b"SMITH"),
    /// ];
    /// let day = Day::of(&entered)?;
    /// assert!(day.entries().iter().map(Entry::number).eq([6, 2, 9, 4]));
    /// # Ok::<(), Refusal>(())
    /// ```
    ///
    /// # Errors
    ///
    /// [`Refusal::Count`], [`Refusal::Entry`], [`Refusal::Number`], tested in this order.
    ///
    /// ```
    /// use hirtxonda::{Day, Entry, Refusal};
    ///
    /// let (smith, ward) = (Entry::new(4, 630, b"SMITH"), Entry::new(4, 545, b"WARD"));
    /// assert_eq!(Day::of(&[smith, ward]), Err(Refusal::Number));
    ///
    /// // The minute is looked at before the number that stands twice.
    /// assert_eq!(Day::of(&[smith, Entry::new(4, 1440, b"WARD")]), Err(Refusal::Entry));
    /// ```
    pub fn of(entries: &[Entry]) -> Result<Day, Refusal> {
        let mut day = Day { places: [Entry::new(0, 0, b""); MOST_ENTRIES], count: 0 };
        // An `Entry` is a `raw::Entry`, and has its layout.
        let (from, places) = (entries.as_ptr().cast(), day.places.as_mut_ptr().cast());
        // SAFETY: a slice with its length, and two parts of a local that are written, the first
        // with as many places as the call asks for.
        Refusal::check(unsafe { raw::hx_day_of_parts(from, entries.len(), places, &mut day.count) })?;
        Ok(day)
    }

    /// The entries in their order. The bytes past each name are zero.
    ///
    /// ```
    /// use hirtxonda::{Day, Entry, Refusal};
    ///
    /// let (jones, smith) = (Entry::new(8, 630, b"JONES"), Entry::new(3, 630, b"SMITH"));
    /// assert_eq!(Day::of(&[smith, jones])?.entries(), [jones, smith]);
    /// assert_eq!(Day::of(&[])?.entries(), []);
    /// # Ok::<(), Refusal>(())
    /// ```
    pub fn entries(&self) -> &[Entry] {
        &self.places[..self.count as usize]
    }

    /// All places of the day: the entries, then zeros.
    ///
    /// ```
    /// use hirtxonda::{Day, Entry, Refusal, MOST_ENTRIES};
    ///
    /// let smith = Entry::new(3, 630, b"SMITH");
    /// let day = Day::of(&[smith])?;
    /// assert_eq!(day.places()[0], smith);
    /// assert_eq!(day.places()[1..], [Entry::new(0, 0, b""); MOST_ENTRIES - 1]);
    /// # Ok::<(), Refusal>(())
    /// ```
    pub fn places(&self) -> &[Entry; MOST_ENTRIES] {
        &self.places
    }
}

impl fmt::Debug for Day {
    fn fmt(&self, f: &mut fmt::Formatter<'_>) -> fmt::Result {
        f.debug_list().entries(self.entries()).finish()
    }
}
