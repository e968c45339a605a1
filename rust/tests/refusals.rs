//! The raw C calls: each number at its edge (those of a report: `report.rs`), the first in the
//! order of the tests where several apply, and nothing written by a refused call.

mod common;
#[allow(dead_code)]
#[path = "../src/raw.rs"]
mod raw;

use common::{in_both_widths, search_refusal};
use hirtxonda::{
    pcmpestri, pcmpestrm, pcmpistri, pcmpistrm, Cursor, Element, Refusal, LONGEST_NEEDLE, LONGEST_REPORT, LONGEST_TEXT,
    MOST_COMPARES,
};
use raw::*;

/// What stands behind each pointer before a call, whole or in bytes.
const SENTINEL: u64 = 0xa5a5_a5a5_a5a5_a5a5;
const BYTE: u8 = 0xa5;

/// Runs a call with a place to write, and gives its number and what stands there after it.
fn with_sentinel<T>(sentinel: T, call: impl FnOnce(*mut T) -> u32) -> (u32, T) {
    let mut place = sentinel;
    let number = call(&mut place);
    (number, place)
}

/// A call's number, and what it wrote; refused, it must have written nothing.
fn written<T: Copy + PartialEq + std::fmt::Debug>(sentinel: T, call: impl FnOnce(*mut T) -> u32) -> (u32, T) {
    let (number, place) = with_sentinel(sentinel, call);
    assert!(number == 0 || place == sentinel, "refused by {number}, and wrote {place:?}");
    (number, place)
}

#[test]
fn listed_numbers() {
    let listed: Vec<u32> = (0..1000).filter(|&number| Refusal::from_number(number).is_some()).collect();
    assert_eq!(listed, [1, 2, 3, 4, 5, 6, 7, 8, 21, 22, 23, 24, 31, 32, 33, 34, 35]);
    for number in listed {
        let refusal = Refusal::from_number(number).unwrap();
        assert_eq!(refusal.number(), number);
        assert!(refusal.to_string().starts_with(&format!("refused by number {number}: ")));
    }
}

/// The header's numbers are those of this crate.
#[test]
fn header() {
    let header = include_str!("../../include/hirtxonda.h");
    let defined = |name: &str| {
        let line = header.lines().find(|line| line.starts_with(&format!("#define HX_{name} "))).expect(name);
        let value = line.split_whitespace().nth(2).unwrap().trim_start_matches("UINT64_C(");
        value.trim_end_matches([')', 'u']).parse::<usize>().expect(name)
    };
    assert_eq!(header.lines().filter(|line| line.starts_with("#define HX_") && line.contains("_REFUSED ")).count(), 17);
    for number in (0..100).filter_map(Refusal::from_number) {
        let name = format!("{number:?}_REFUSED").to_uppercase();
        assert_eq!(defined(&name), number.number() as usize);
    }
    assert_eq!(defined("LONGEST_TEXT"), LONGEST_TEXT);
    assert_eq!(defined("LONGEST_NEEDLE"), LONGEST_NEEDLE);
    assert_eq!(defined("MOST_COMPARES") as u64, MOST_COMPARES);
    assert_eq!(defined("LONGEST_LIST_IN_BYTES"), u8::BLOCK);
    assert_eq!(defined("LONGEST_LIST_IN_WORDS"), u16::BLOCK);
    assert_eq!(defined("MOST_ENTRIES"), hirtxonda::MOST_ENTRIES);
    assert_eq!(defined("LAST_MINUTE"), usize::from(hirtxonda::LAST_MINUTE));
    assert_eq!(defined("LONGEST_NAME"), hirtxonda::LONGEST_NAME);
    assert_eq!(defined("DAY_LINE"), hirtxonda::DAY_LINE);
    assert_eq!(defined("WIDEST_COLUMN"), hirtxonda::WIDEST_COLUMN);
    assert_eq!(defined("LONGEST_INPUT"), hirtxonda::LONGEST_INPUT);
    assert_eq!(defined("LONGEST_REPORT"), hirtxonda::LONGEST_REPORT);
    assert_eq!(defined("ABSENT"), ABSENT as usize);
    assert_eq!(defined("FULL"), FULL as usize);
    assert_eq!(defined("MATCH"), 0);
}

#[test]
fn controls() {
    let (a, b) = ([0x41; 16], [0x41; 16]);
    type Answer = ([u8; 16], u32, u32);
    let before: Answer = ([BYTE; 16], SENTINEL as u32, SENTINEL as u32);
    for control in 0..=255u8 {
        // SAFETY: every pointer is to what the call asks for, here and in all tests below.
        let estri = written(before, |p| unsafe { hx_pcmpestri(&a, 3, &b, -3, control, &mut (*p).1, &mut (*p).2) });
        let istri = written(before, |p| unsafe { hx_pcmpistri(&a, &b, control, &mut (*p).1, &mut (*p).2) });
        let estrm = written(before, |p| unsafe { hx_pcmpestrm(&a, 3, &b, -3, control, &mut (*p).0, &mut (*p).2) });
        let istrm = written(before, |p| unsafe { hx_pcmpistrm(&a, &b, control, &mut (*p).0, &mut (*p).2) });
        for (number, (_, _, flags)) in [estri, istri, estrm, istrm] {
            assert_eq!(number, u32::from(control > 127), "control {control}");
            // Accepted, the bits of the register that are no flags of a compare are 0.
            assert!(number > 0 || flags & !0x8c1 == 0);
        }
        if control < 128 {
            // The whole of each answer is written.
            assert_eq!(estri.1 .1, pcmpestri(&a, 3, &b, -3, control).unwrap().index);
            assert_eq!(istri.1 .1, pcmpistri(&a, &b, control).unwrap().index);
            assert_eq!(estrm.1 .0, pcmpestrm(&a, 3, &b, -3, control).unwrap().mask);
            assert_eq!(istrm.1 .0, pcmpistrm(&a, &b, control).unwrap().mask);
        }
    }
}

#[test]
fn fresh_cursor() {
    for stop in [0, 1, LONGEST_TEXT as u64, 1 << 63, u64::MAX] {
        let mut cursor = raw::Cursor { position: SENTINEL, compares: SENTINEL, exhausted: SENTINEL, stop: SENTINEL };
        // SAFETY: see `controls`.
        unsafe { hx_cursor_fresh(&mut cursor, stop) };
        assert_eq!(cursor, raw::Cursor { position: 0, compares: 0, exhausted: 0, stop });
    }
}

/// The cursor that the numbers stand for.
fn cursor_of(numbers: raw::Cursor) -> Cursor {
    let raw::Cursor { position, compares, exhausted, stop } = numbers;
    Cursor { position, compares, exhausted: exhausted != 0, stop }
}

/// What refuses a search, in the order of the tests, and the sets of these conditions, a bit for
/// each.
const ORDER: [u32; 6] = [2, 3, 21, 31, 22, 23];
const SETS: std::ops::Range<usize> = 0..64;

/// Calls for which just these conditions hold, each one past its limit or at it: the lengths of
/// text and needle, and cursors. These have several numbers for exhausted and for a stop above n;
/// one that is accepted is n, one less or 0.
fn calls_for(conditions: usize) -> (usize, usize, Vec<raw::Cursor>) {
    let past = |condition: u32| conditions >> condition & 1;
    let (n, m) = (LONGEST_TEXT + past(0), LONGEST_NEEDLE + past(1));
    let compares = MOST_COMPARES + past(5) as u64;
    let exhausted = if past(2) == 1 { &[1, 2, 256, 1 << 32, u64::MAX][..] } else { &[0] };
    let end = n as u64;
    let stops = if past(3) == 1 { [end + 1, 1 << 63, u64::MAX] } else { [end, end - 1, 0] };
    let with = |stop: u64, exhausted| {
        let position = stop.wrapping_add(1 + past(4) as u64);
        raw::Cursor { position, compares, exhausted, stop }
    };
    (n, m, stops.into_iter().flat_map(|stop| exhausted.iter().map(move |&each| with(stop, each))).collect())
}

/// Every set of conditions: the first number is given. Where none holds, there is no more match.
fn next<E: Calls + Clone + Default>() {
    let text = vec![E::default(); LONGEST_TEXT + 1];
    let needle = vec![E::default(); LONGEST_NEEDLE + 1];
    for conditions in SETS {
        let (n, m, cursors) = calls_for(conditions);
        for cursor in cursors {
            // SAFETY: see `controls`.
            let (number, (after, place)) = with_sentinel((cursor, SENTINEL), |p| unsafe {
                E::NEXT(&mut (*p).0, text.as_ptr(), n, needle.as_ptr(), m, &mut (*p).1)
            });
            let expected = *ORDER.get(conditions.trailing_zeros() as usize).unwrap_or(&ABSENT);
            assert_eq!(number, expected, "conditions {conditions:06b}, {cursor:?}");
            let absent = raw::Cursor { exhausted: 1, ..cursor };
            assert_eq!(after, if expected == ABSENT { absent } else { cursor });
            assert_eq!(place, SENTINEL);
        }
    }
}

#[test]
fn next_in_bytes() {
    next::<u8>();
}

#[test]
fn next_in_words() {
    next::<u16>();
}

/// What a fill is given to write: the cursor, the count, and a list with places behind it.
#[derive(Clone, Copy, Debug, PartialEq)]
struct Places {
    cursor: raw::Cursor,
    count: usize,
    list: [u64; 8],
}

impl Places {
    fn with(cursor: raw::Cursor) -> Places {
        Places { cursor, count: SENTINEL as usize, list: [SENTINEL; 8] }
    }

    /// With what a fill wrote: so many positions from 0 on, and the cursor.
    fn filled(mut self, count: usize, cursor: raw::Cursor) -> Places {
        (self.cursor, self.count) = (cursor, count);
        self.list.iter_mut().zip(0..count as u64).for_each(|(place, position)| *place = position);
        self
    }
}

/// A fill of the first places of the list, so many of them.
fn fill<E: Calls>(
    places: Places,
    (text, n): (&[E], usize),
    (needle, m): (&[E], usize),
    length: usize,
) -> (u32, Places) {
    // SAFETY: see `controls`. The list has that many places and more.
    with_sentinel(places, |p| unsafe {
        let (cursor, list, count) = (&raw mut (*p).cursor, &raw mut (*p).list, &raw mut (*p).count);
        E::FILL(cursor, text.as_ptr(), n, needle.as_ptr(), m, list.cast(), length, count)
    })
}

/// The same sets of conditions for a fill, with an empty list and with others. Where none holds, it
/// is full or absent, and the count is written: 0.
fn fills<E: Calls + Clone + Default>() {
    let text = vec![E::default(); LONGEST_TEXT + 1];
    let needle = vec![E::default(); LONGEST_NEEDLE + 1];
    for (conditions, length) in SETS.flat_map(|conditions| [0, 1, 5].map(|length| (conditions, length))) {
        let (n, m, cursors) = calls_for(conditions);
        for cursor in cursors {
            let before = Places::with(cursor);
            let expected = match ORDER.get(conditions.trailing_zeros() as usize) {
                Some(&number) => (number, before),
                None if length == 0 => (FULL, before.filled(0, cursor)),
                None => (ABSENT, before.filled(0, raw::Cursor { exhausted: 1, ..cursor })),
            };
            let given = fill(before, (&text, n), (&needle, m), length);
            assert_eq!(given, expected, "conditions {conditions:06b}, {cursor:?}, list of {length}");
        }
    }
}

/// Five matches of one compare each up to the stop, whether or not the text ends there. Number 23
/// refuses a fill before the first of them, and then nothing is written; after some it stops it,
/// and then these are. A list that is full by then is full.
fn stopped_fills<E: Calls + Clone + Default>() {
    let text = vec![E::default(); 7];
    for left in -2i64..8 {
        for length in 0..=8 {
            let compares = MOST_COMPARES.wrapping_add_signed(-left);
            let before = Places::with(raw::Cursor { position: 0, compares, exhausted: 0, stop: 5 });
            let after = |count: usize, exhausted| {
                let (position, compares) = (count as u64, compares + count as u64);
                let cursor = raw::Cursor { position, compares, exhausted, stop: 5 };
                before.filled(count, cursor)
            };
            let accepted = (left + 1).max(0) as usize;
            let expected = match () {
                _ if accepted == 0 => (23, before),
                _ if length <= accepted.min(5) => (FULL, after(length, 0)),
                _ if accepted <= 5 => (23, after(accepted, 0)),
                _ => (ABSENT, after(5, 1)),
            };
            for n in 5..=7 {
                let given = fill(before, (&text, n), (&text, 1), length);
                assert_eq!(given, expected, "{left} compares left, n = {n}, list of {length}");
            }
        }
    }
}

/// Cursors that no list of calls gives, on short texts. Any number but 0 is exhausted; a refused
/// cursor stays as it was.
fn made_up_cursors<E: Calls + Clone + Default>() {
    let needle = vec![E::default(); LONGEST_NEEDLE + 1];
    for (n, m) in [0, 20, 40].into_iter().flat_map(|n| [0, 1, LONGEST_NEEDLE, LONGEST_NEEDLE + 1].map(|m| (n, m))) {
        for cursor in some_cursors(n as u64) {
            // SAFETY: see `controls`.
            let (number, (after, place)) = with_sentinel((cursor, SENTINEL), |p| unsafe {
                E::NEXT(&mut (*p).0, needle.as_ptr(), n, needle.as_ptr(), m, &mut (*p).1)
            });
            let refused = search_refusal(n, m, cursor_of(cursor));
            match refused {
                Some(refusal) => assert_eq!((number, after, place), (refusal.number(), cursor, SENTINEL)),
                None => {
                    assert!(number == 0 || number == ABSENT, "{cursor:?}, n = {n}, m = {m}: {number}");
                    assert_eq!(after.stop, cursor.stop);
                }
            }
            for length in [0, 1, 5] {
                let before = Places::with(cursor);
                let (number, after) = fill(before, (&needle, n), (&needle, m), length);
                match refused {
                    Some(refusal) => assert_eq!((number, after), (refusal.number(), before)),
                    None => {
                        assert!([FULL, ABSENT, 23].contains(&number), "{cursor:?}, n = {n}, m = {m}: {number}");
                        assert!(after.count <= length, "{cursor:?}, n = {n}, m = {m}: {after:?}");
                        assert_eq!(after.cursor.stop, cursor.stop);
                    }
                }
            }
        }
    }
}

fn some_cursors(n: u64) -> Vec<raw::Cursor> {
    let mut cursors = Vec::new();
    for stop in [0, n / 2, n, n + 1, 1 << 63, u64::MAX - 1, u64::MAX] {
        for position in [0, 1, n / 2 + 1, n / 2 + 2, n, n + 1, n + 2, 1 << 32, 1 << 63, u64::MAX] {
            for compares in [0, MOST_COMPARES - 1, MOST_COMPARES, MOST_COMPARES + 1, 1 << 63, u64::MAX] {
                let with = |exhausted| raw::Cursor { position, compares, exhausted, stop };
                cursors.extend([0, 1, 2, 1 << 32, u64::MAX].map(with));
            }
        }
    }
    cursors
}

in_both_widths! {
    fills
    stopped_fills
    made_up_cursors
}

/// Every set of conditions out of 2, 4, 5.
fn lists<E: Calls + Clone + Default>() {
    let text = vec![E::default(); LONGEST_TEXT + 1];
    let b = 16 / std::mem::size_of::<E>();
    let list = vec![E::default(); b + 2];
    for n in [0, 1, LONGEST_TEXT, LONGEST_TEXT + 1] {
        for m in 0..=b + 2 {
            let (too_long, too_many) = (n > LONGEST_TEXT, m > b);
            let of_set = [(too_long, 2), (too_many, 4), (true, 0)].into_iter().find(|c| c.0).unwrap().1;
            let of_bounds = if of_set == 0 && m % 2 == 1 { 5 } else { of_set };
            let sentinel = SENTINEL as usize;
            // SAFETY: see `controls`.
            let span = written(sentinel, |p| unsafe { E::SPAN(text.as_ptr(), n, list.as_ptr(), m, p) });
            assert_eq!(span.0, of_set);
            for is_signed in [0, 1, 2, u32::MAX] {
                let span =
                    written(sentinel, |p| unsafe { E::RANGE_SPAN(text.as_ptr(), n, list.as_ptr(), m, is_signed, p) });
                assert_eq!(span.0, of_bounds);
            }
        }
    }
}

#[test]
fn lists_in_bytes() {
    lists::<u8>();
}

#[test]
fn lists_in_words() {
    lists::<u16>();
}

fn orders<E: Calls + Clone + Default>() {
    let text = vec![E::default(); LONGEST_TEXT + 1];
    for n in [0, LONGEST_TEXT, LONGEST_TEXT + 1] {
        for m in [0, LONGEST_TEXT, LONGEST_TEXT + 1] {
            let expected = if n.max(m) > LONGEST_TEXT { 2 } else { 0 };
            // SAFETY: see `controls`.
            let order = written(SENTINEL as i32, |p| unsafe { E::COMPARE(text.as_ptr(), n, text.as_ptr(), m, 0, p) });
            let which = written(SENTINEL as u32, |p| unsafe { E::LESSER(text.as_ptr(), n, text.as_ptr(), m, 1, p) });
            assert_eq!((order.0, which.0), (expected, expected));
            assert!(expected > 0 || order.1 == n.cmp(&m) as i32 && which.1 == u32::from(n > m));
        }
    }
}

#[test]
fn orders_in_bytes() {
    orders::<u8>();
}

#[test]
fn orders_in_words() {
    orders::<u16>();
}

/// Any number but 0 is signed.
#[test]
fn signed_numbers() {
    let (first, second) = ([0x80u8], [0x7fu8]);
    for (is_signed, expected) in [(0, 1), (1, -1), (2, -1), (256, -1), (1 << 31, -1), (u32::MAX, -1)] {
        // SAFETY: see `controls`.
        let order = written(0, |p| unsafe { hx_compare_in_bytes(first.as_ptr(), 1, second.as_ptr(), 1, is_signed, p) });
        assert_eq!(order, (0, expected));
        let which = written(9, |p| unsafe { hx_lesser_in_bytes(first.as_ptr(), 1, second.as_ptr(), 1, is_signed, p) });
        assert_eq!(which, (0, u32::from(expected == 1)));
        // -128 to 127, or nothing.
        let bounds = [0x80u8, 0x7f];
        let span =
            written(9, |p| unsafe { hx_range_span_in_bytes(first.as_ptr(), 1, bounds.as_ptr(), 2, is_signed, p) });
        assert_eq!(span, (0, usize::from(is_signed != 0)));
    }
}

/// Every set of conditions out of 32, 33 and 34: the first number is given, and the day stays.
/// Where none holds, all of it is written.
#[test]
fn days() {
    const PLACES: usize = hirtxonda::MOST_ENTRIES;
    let place = raw::Entry { number: SENTINEL as u32, minute: 0xa5a5, length: 0xa5a5, name: [BYTE; 32] };
    let before = ([place; PLACES], SENTINEL);
    for conditions in 0..8u32 {
        let past = |condition: u32| (conditions >> condition & 1) as u16;
        let with = |number| raw::Entry { number, minute: hirtxonda::LAST_MINUTE, length: 32, name: [0x41; 32] };
        let good: Vec<raw::Entry> = (0..PLACES as u32 + 1).map(with).collect();
        for (minute, length) in [(past(1), 0), (0, past(1)), (past(1), past(1))] {
            let mut entries = good.clone();
            entries[PLACES - 1].minute += minute;
            entries[0].length += length;
            entries[PLACES - 2].number -= u32::from(past(2));
            let count = PLACES + usize::from(past(0));
            // SAFETY: see `controls`.
            let (number, day) = written(before, |p| unsafe {
                let (places, day_count) = (&raw mut (*p).0, &raw mut (*p).1);
                hx_day_of_parts(entries.as_ptr(), count, places.cast(), day_count)
            });
            let expected = *[32, 33, 34].get(conditions.trailing_zeros() as usize).unwrap_or(&0);
            assert_eq!(number, expected, "conditions {conditions:03b}");
            assert!(number > 0 || day.0[..] == good[..PLACES] && day.1 == PLACES as u64);
        }
    }
}

/// Every set of conditions out of 32, 33 and 35: the first number is given, and the page stays.
/// Where none holds, the lines are written and the byte after them stays. All entries have one
/// number, which refuses nothing.
#[test]
fn pages() {
    const LINES: usize = hirtxonda::MOST_ENTRIES;
    const PAGE: usize = LINES * hirtxonda::DAY_LINE;
    for conditions in 0..8u32 {
        let past = |condition: u32| (conditions >> condition & 1) as u16;
        let good = raw::Entry { number: 1, minute: hirtxonda::LAST_MINUTE, length: 32, name: [0x41; 32] };
        for (minute, length) in [(past(1), 0), (0, past(1)), (past(1), past(1))] {
            let mut entries = vec![good; LINES + 1];
            entries[LINES - 1].minute += minute;
            entries[0].length += length;
            let count = LINES + usize::from(past(0));
            // SAFETY: see `controls`.
            let (number, page) = written([BYTE; PAGE + 1], |p| unsafe {
                hx_day_page(entries.as_ptr(), count, p.cast(), PAGE - usize::from(past(2)))
            });
            let expected = *[32, 33, 35].get(conditions.trailing_zeros() as usize).unwrap_or(&0);
            assert_eq!(number, expected, "conditions {conditions:03b}");
            let lines = format!("         1 23:59 {}\n", "A".repeat(32)).repeat(LINES);
            assert!(number > 0 || page[..PAGE] == *lines.as_bytes());
            assert_eq!(page[PAGE], BYTE);
        }
    }
}

/// A length above its limit is refused before any element is read: here it is far longer than what
/// stands behind the pointer.
#[test]
fn refused_lengths_are_not_read() {
    let (byte, word) = ([1u8], [1u16]);
    let cursor = raw::Cursor { position: 0, compares: 0, exhausted: 0, stop: 1 };
    let entry = raw::Entry { number: 1, minute: 2, length: 3, name: [BYTE; 32] };
    for huge in [LONGEST_TEXT + 1, 1 << 32, 1 << 62, usize::MAX / 2, usize::MAX] {
        // SAFETY: the header allows it, since no element is read.
        unsafe {
            let next = |p: *mut (raw::Cursor, u64)| {
                hx_next_in_bytes(&mut (*p).0, byte.as_ptr(), huge, byte.as_ptr(), 1, &mut (*p).1)
            };
            assert_eq!(written((cursor, SENTINEL), next).0, 2);
            let next = |p: *mut (raw::Cursor, u64)| {
                hx_next_in_words(&mut (*p).0, word.as_ptr(), 1, word.as_ptr(), huge, &mut (*p).1)
            };
            assert_eq!(written((cursor, SENTINEL), next).0, 3);
            let before = Places::with(cursor);
            assert_eq!(fill(before, (&byte, huge), (&byte, 1), 5), (2, before));
            assert_eq!(fill(before, (&word, 1), (&word, huge), 5), (3, before));
            assert_eq!(written(7, |p| hx_span_in_bytes(byte.as_ptr(), huge, byte.as_ptr(), 1, p)).0, 2);
            assert_eq!(written(7, |p| hx_span_in_words(word.as_ptr(), 1, word.as_ptr(), huge, p)).0, 4);
            assert_eq!(written(7, |p| hx_range_span_in_bytes(byte.as_ptr(), 1, byte.as_ptr(), huge, 1, p)).0, 4);
            assert_eq!(written(7, |p| hx_compare_in_words(word.as_ptr(), 1, word.as_ptr(), huge, 1, p)).0, 2);
            assert_eq!(written(7, |p| hx_lesser_in_bytes(byte.as_ptr(), huge, byte.as_ptr(), 1, 0, p)).0, 2);
            let mut day = [entry; hirtxonda::MOST_ENTRIES];
            assert_eq!(written(7, |p| hx_day_of_parts(&entry, huge, day.as_mut_ptr(), p)).0, 32);
            assert!(day.iter().all(|&place| place == entry));
            let mut line = [BYTE; hirtxonda::DAY_LINE];
            assert_eq!(hx_day_page(&entry, huge, line.as_mut_ptr(), line.len()), 32);
            assert_eq!(line, [BYTE; hirtxonda::DAY_LINE]);
            let mut page = vec![BYTE; LONGEST_REPORT];
            assert_eq!(written(7, |p| hx_report(byte.as_ptr(), huge, page.as_mut_ptr(), p)).0, 7);
            assert!(page.iter().all(|&byte| byte == BYTE));
        }
    }
}

/// Every set of conditions out of 8 and 24. What is past the buffer's length stays too.
#[test]
fn columns() {
    for (number, digits) in [(0, 1), (9, 1), (10, 2), (9_999_999, 7), (10_000_000, 8), (u64::MAX, 20)] {
        for width in (0..24).chain([usize::MAX]) {
            for length in 0..24 {
                let before = [BYTE; 32];
                // SAFETY: see `controls`.
                let (refusal, after) =
                    written(before, |p| unsafe { hx_right_justified(number, width, p.cast::<u8>().add(4), length) });
                let expected = match () {
                    _ if width == 0 || width > 20 || digits > width => 8,
                    _ if length < width => 24,
                    _ => 0,
                };
                assert_eq!(refusal, expected, "{number} in {width} of {length}");
                let end = if expected == 0 { 4 + width } else { 4 };
                assert!(after[..4] == before[..4] && after[end..] == before[end..]);
            }
        }
    }
}
