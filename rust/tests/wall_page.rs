//! The page of a day against `format!` of the standard library, through the crate's calls and
//! through the raw C call.

mod common;
#[allow(dead_code)]
#[path = "../src/raw.rs"]
mod raw;

use std::collections::HashSet;

use common::Random;
use hirtxonda::{day_page, day_page_text, Day, Entry, Refusal, DAY_LINE, MOST_ENTRIES};
use raw::hx_day_page;

/// An entry, plain.
type Plain = raw::Entry;

/// What stands in a page before a call: a byte that no line has.
const BEFORE: u8 = 0xa5;

/// An entry with this name, and letters after it.
fn entry(number: u32, minute: u16, name: &[u8]) -> Plain {
    let mut bytes = *b"left over from another service..";
    bytes[..name.len()].copy_from_slice(name);
    Plain { number, minute, length: name.len() as u16, name: bytes }
}

fn public(entry: Plain) -> Entry {
    Entry::from_parts(entry.number, entry.minute, entry.length, entry.name)
}

/// The line of an entry.
fn line(entry: &Plain) -> String {
    let name = &entry.name[..entry.length.into()];
    let name: String =
        name.iter().map(|&byte| if (32..=126).contains(&byte) { char::from(byte) } else { '?' }).collect();
    format!("{:>10} {:02}:{:02} {:<32}\n", entry.number, entry.minute / 60, entry.minute % 60, name)
}

/// The lines of the entries for a page of this length, or the number that refuses them.
fn expected(entries: &[Plain], length: usize) -> Result<String, u32> {
    if entries.len() > 200 {
        return Err(32);
    }
    if entries.iter().any(|entry| entry.minute >= 24 * 60 || entry.length > 32) {
        return Err(33);
    }
    if length < 50 * entries.len() {
        return Err(35);
    }
    Ok(entries.iter().map(line).collect())
}

/// The raw call over the first entries, so many, and the page after it.
fn raw_page(entries: &[Plain], count: usize, length: usize) -> (u32, Vec<u8>) {
    let mut page = vec![BEFORE; length];
    // SAFETY: as many entries as the count says, or a count that is refused before one is read; and
    // a list with its length.
    let number = unsafe { hx_day_page(entries.as_ptr(), count, page.as_mut_ptr(), length) };
    (number, page)
}

/// The first entries, so many, on a page of this length, by every call. Accepted, the lines are
/// written and the bytes after them stay; refused, every byte stays.
fn check_front(entries: &[Plain], count: usize, length: usize) -> Result<String, u32> {
    let expected = expected(&entries[..count], length);
    let (number, after) = raw_page(entries, count, length);
    let list: Vec<Entry> = entries.iter().map(|&entry| public(entry)).collect();
    let mut page = vec![BEFORE; length];
    let result = day_page(&list[..count], &mut page);
    assert_eq!(result.map_err(Refusal::number).err().unwrap_or(0), number);
    assert_eq!(page, after);
    match &expected {
        Err(refusal) => {
            assert_eq!(number, *refusal, "{count} entries, {length} bytes: {:?}", &entries[..count]);
            assert!(after.iter().all(|&byte| byte == BEFORE), "refused by {number}, and written");
        }
        Ok(lines) => {
            assert_eq!(number, 0, "{count} entries, {length} bytes: {:?}", &entries[..count]);
            assert_eq!(lines.len(), count * DAY_LINE);
            assert_eq!(String::from_utf8_lossy(&after[..lines.len()]), *lines);
            assert!(after[lines.len()..].iter().all(|&byte| byte == BEFORE), "a byte after the lines is written");
        }
    }
    // A text has room for what it needs, and is refused for nothing else.
    let text = day_page_text(&list[..count]).map_err(Refusal::number);
    assert_eq!(text, expected.clone().or_else(|_| self::expected(&entries[..count], usize::MAX)));
    expected
}

/// On a page that has room for the lines and no more.
fn check(entries: &[Plain]) -> Result<String, u32> {
    check_front(entries, entries.len(), entries.len() * DAY_LINE)
}

// ---- worked cases

/// Entry 7, `SMITH`, at minute 545.
#[test]
fn smith() {
    let page = check(&[entry(7, 545, b"SMITH")]).unwrap();
    assert_eq!(page, "         7 09:05 SMITH                           \n");
    assert_eq!(page.len(), 50);
    let (number, raw) = raw_page(&[entry(7, 545, b"SMITH")], 1, 50);
    assert_eq!((number, &raw[..]), (0, &b"         7 09:05 SMITH                           \n"[..]));
}

/// No entry: no line, whatever the page has, also none.
#[test]
fn none() {
    for length in [0, 1, 49, 50, 1000] {
        assert_eq!(check_front(&[], 0, length), Ok(String::new()));
    }
    assert_eq!(day_page_text(&[]), Ok(String::new()));
    assert_eq!(Day::of(&[]).unwrap().page(), "");
}

/// Each column of the widest line, of the emptiest, and of one with every kind of byte.
#[test]
fn columns() {
    let widest = check(&[entry(u32::MAX, 1439, b"THE HONOURABLE MARGARET ANDERSEN")]).unwrap();
    assert_eq!(widest, "4294967295 23:59 THE HONOURABLE MARGARET ANDERSEN\n");
    let emptiest = check(&[entry(0, 0, b"")]).unwrap();
    assert_eq!(emptiest, "         0 00:00                                 \n");
    let mixed = check(&[entry(10, 600, b"\0\n\x1f ~\x7f\x80\xff")]).unwrap();
    assert_eq!(mixed, "        10 10:00 ??? ~???                        \n");
}

/// Line r is that of entry r: nothing is sorted, also where numbers stand twice.
#[test]
fn as_handed_over() {
    let (smith, jones, aaron) = (entry(9, 631, b"SMITH"), entry(3, 630, b"JONES"), entry(3, 5, b"AARON"));
    for entries in [[smith, jones, aaron], [aaron, smith, jones], [jones, jones, jones], [aaron, jones, smith]] {
        let page = check(&entries).unwrap();
        for (r, entry) in entries.iter().enumerate() {
            assert_eq!(page[50 * r..50 * (r + 1)], line(entry));
        }
    }
}

/// A day's page is that of its entries in their order.
#[test]
fn page_of_a_day() {
    let entered = [Entry::new(8, 630, b"SMITH"), Entry::new(7, 545, b"OTWAY"), Entry::new(5, 630, b"JONES")];
    let day = Day::of(&entered).unwrap();
    let sorted = [entry(7, 545, b"OTWAY"), entry(5, 630, b"JONES"), entry(8, 630, b"SMITH")];
    assert_eq!(day.page(), sorted.iter().map(line).collect::<String>());
    assert_eq!(Ok(day.page()), day_page_text(day.entries()));
    assert_ne!(Ok(day.page()), day_page_text(&entered));
    // The longest day.
    let numbered = |i: u32| Entry::new(i * 0x0147_0001, (i * 7 % 1440) as u16, &[i as u8; 32]);
    let day = Day::of(&(0..200).map(numbered).collect::<Vec<_>>()).unwrap();
    assert_eq!(Ok(day.page()), day_page_text(day.entries()));
    assert_eq!(day.page().len(), 200 * DAY_LINE);
}

// ---- each column

/// Every minute of the day, in the first line and in later ones.
#[test]
fn all_minutes() {
    let entries: Vec<Plain> = (0..1440).map(|minute| entry(7, minute, b"SMITH")).collect();
    for one in &entries {
        check(&[*one]).unwrap();
    }
    for many in entries.chunks(MOST_ENTRIES) {
        check(many).unwrap();
    }
}

/// Numbers of every count of digits: powers of ten and their neighbours, digits that are alike, and
/// powers of two.
#[test]
fn numbers() {
    let mut numbers = vec![0, 1, 7, u32::MAX, u32::MAX - 1, 1_234_567_890, 4_000_000_000];
    for power in (0..10).map(|digits| 10u32.pow(digits)) {
        numbers.extend([power - 1, power, power + 1, power.saturating_mul(2), power.saturating_mul(9)]);
    }
    numbers.extend((0..32).flat_map(|bit| [1u32 << bit, (1u32 << bit) - 1, u32::MAX << bit]));
    for &number in &numbers {
        check(&[entry(number, 545, b"SMITH")]).unwrap();
    }
    for many in numbers.chunks(MOST_ENTRIES) {
        check(&many.iter().map(|&number| entry(number, 545, b"SMITH")).collect::<Vec<_>>()).unwrap();
    }
}

/// Names of every length, with every byte at every place; and past the length every byte at every
/// place, which is not printed.
#[test]
fn names() {
    let mut entries = vec![];
    for byte in 0..=255u8 {
        for length in 0..=32usize {
            // Among letters, and a name of nothing else.
            let at = usize::from(byte) % 32;
            let mut name = *b"ABCDEFGHIJKLMNOPQRSTUVWXYZabcdef";
            name[at] = byte;
            entries.push(Plain { number: 7, minute: 545, length: length as u16, name });
            entries.push(Plain { number: 7, minute: 545, length: length as u16, name: [byte; 32] });
        }
        for at in 0..32 {
            let mut name = [b'A'; 32];
            name[at] = byte;
            entries.push(Plain { number: 7, minute: 545, length: 32, name });
            entries.push(Plain { number: 7, minute: 545, length: at as u16, name });
            entries.push(Plain { number: 7, minute: 545, length: at as u16 + 1, name });
        }
    }
    for many in entries.chunks(MOST_ENTRIES) {
        check(many).unwrap();
    }
}

/// What stands past a name's length changes no byte of its line.
#[test]
fn past_the_length() {
    for length in 0..=32u16 {
        let of = |byte: u8| {
            let mut name = [byte; 32];
            name[..length.into()].fill(b'S');
            check(&[Plain { number: 7, minute: 545, length, name }]).unwrap()
        };
        let page = of(0);
        assert_eq!(page[17..], format!("{:<32}\n", "S".repeat(length.into())));
        for byte in 1..=255 {
            assert_eq!(of(byte), page);
        }
    }
}

// ---- the page

/// Pages that have room for the lines, for one byte less and for more, for every count of entries.
#[test]
fn lengths_of_pages() {
    let entries: Vec<Plain> = (0..200).map(|i| entry(i * 12_345_678, i as u16 * 7, b"SMITH")).collect();
    for count in 0..=200 {
        let lines = 50 * count;
        for length in [lines, lines + 1, lines + 49, lines + 50, 10_000, 10_001, 65_536 + lines / 2] {
            assert_eq!(check_front(&entries, count, length.max(lines)).unwrap().len(), lines);
        }
        for length in [0, 1, lines / 2, lines.saturating_sub(50), lines.saturating_sub(49), lines.saturating_sub(1)] {
            assert_eq!(check_front(&entries, count, length).err(), (length < lines).then_some(35));
        }
    }
}

/// Every length of a page for a few entries.
#[test]
fn all_lengths_of_short_pages() {
    let entries: Vec<Plain> = (0..4).map(|i| entry(i, 545, b"SMITH")).collect();
    for count in 0..=4 {
        for length in 0..=260 {
            assert_eq!(check_front(&entries, count, length).err(), (length < 50 * count).then_some(35));
        }
    }
}

// ---- refusals

/// Number 33 for an entry within the count, at each place and at each edge, whatever the page has.
#[test]
fn entries_at_their_limits() {
    let good: Vec<Plain> = (0..200).map(|number| entry(number, 630, b"SMITH")).collect();
    let with = |at: usize, minute: u16, length: u16, count: usize, room: usize| {
        let mut entries = good[..count].to_vec();
        (entries[at].minute, entries[at].length) = (minute, length);
        check_front(&entries, count, room).err().unwrap_or(0)
    };
    for count in [1, 2, 3, 7, 8, 100, 199, 200] {
        for at in [0, 1, count / 2, count - 1].into_iter().filter(|&at| at < count) {
            let lines = 50 * count;
            for minute in [0, 1439] {
                assert_eq!(with(at, minute, 0, count, lines), 0);
                assert_eq!(with(at, minute, 32, count, lines), 0);
                assert_eq!(with(at, minute, 32, count, lines - 1), 35);
            }
            for room in [0, 50 * at, lines - 1, lines, lines + 100] {
                for minute in [1440, 1441, 1439 + 256, 2048, 0x8000, u16::MAX] {
                    assert_eq!(with(at, minute, 5, count, room), 33, "minute {minute} at {at} of {count}");
                }
                for length in [33, 34, 64, 256, 256 + 5, 0x8000, u16::MAX] {
                    assert_eq!(with(at, 630, length, count, room), 33, "length {length} at {at} of {count}");
                }
                assert_eq!(with(at, 1440, 33, count, room), 33);
            }
        }
    }
}

/// A number that stands twice refuses nothing.
#[test]
fn numbers_that_stand_twice() {
    for count in [2, 3, 8, 199, 200] {
        for number in [0, 5, u32::MAX] {
            let entries: Vec<Plain> = (0..count).map(|i| entry(number, 630 - i as u16, b"SMITH")).collect();
            assert_eq!(check(&entries).map(|page| page.len()), Ok(50 * count));
            assert_eq!(check_front(&entries, count, 50 * count - 1), Err(35));
            let list: Vec<Entry> = entries.iter().map(|&entry| public(entry)).collect();
            assert_eq!(Day::of(&list), Err(Refusal::Number));
        }
    }
}

/// A count above 200 is refused whatever the entries and the page are, also one that is 200 or less
/// when cut.
#[test]
fn counts() {
    let mut entries: Vec<Plain> = (0..400).map(|number| entry(number, 630, b"SMITH")).collect();
    for bad in [false, true] {
        if bad {
            entries.fill(Plain { number: 4, minute: 1440, length: 33, name: [0; 32] });
        }
        for length in [0, 50, 10_000, 10_050, 20_000] {
            for count in [201, 202, 255, 256, 257, 400] {
                assert_eq!(check_front(&entries, count, length), Err(32));
            }
            for count in [1 << 16, (1 << 32) + 1, 1 << 62, 1 << 63, usize::MAX] {
                assert_eq!(raw_page(&entries, count, length), (32, vec![BEFORE; length]));
            }
        }
        assert_eq!(check_front(&entries, 200, 10_000).err(), bad.then_some(33));
    }
}

/// What lies past the count refuses nothing, and stands in no line.
#[test]
fn past_the_count() {
    let bad = [
        entry(900, 1440, b"WARD"),
        entry(901, u16::MAX, b"WARD"),
        Plain { length: 33, ..entry(902, 0, b"WARD") },
        Plain { length: u16::MAX, ..entry(903, 0, b"WARD") },
    ];
    for first in bad {
        for count in [0, 1, 2, 5, 100, 194, 199, 200] {
            let mut entries: Vec<Plain> = (0..count).map(|i| entry(i as u32, 700 - i as u16, b"SMITH")).collect();
            entries.push(first);
            entries.extend(bad);
            for length in [50 * count, 50 * count + 50, 20_000] {
                assert_eq!(check_front(&entries, count, length).map(|lines| lines.len()), Ok(50 * count));
            }
        }
    }
}

// ---- pages against the standard library

/// Names of letters, of bytes at the edges, or of any; past each length stands anything.
fn draw_entry(random: &mut Random) -> Plain {
    let edges = [0x00, 0x0a, 0x1f, 0x20, 0x3f, 0x7e, 0x7f, 0x80, 0xfe, 0xff];
    let (kind, mut name) = (random.below(3), [0; 32]);
    name.fill_with(|| match kind {
        0 => b'A' + random.below(26) as u8,
        1 => random.pick(&edges),
        _ => random.draw() as u8,
    });
    let number = random.draw() as u32 >> random.below(32);
    let length = if random.one_in(4) { random.pick(&[0, 1, 31, 32]) } else { random.below(33) as u16 };
    Plain { number, minute: random.below(1440) as u16, length, name }
}

/// Pages of every count of entries, so many of each, with some room left or none.
fn pages_of_all_counts(random: &mut Random, pages: usize) {
    for count in 0..=MOST_ENTRIES {
        for _ in 0..pages {
            let entries: Vec<Plain> = (0..count).map(|_| draw_entry(random)).collect();
            let length = 50 * count + random.pick(&[0, 0, 1, 7, 50, 51, 1000]);
            assert_eq!(check_front(&entries, count, length).map(|lines| lines.len()), Ok(50 * count));
        }
    }
}

#[test]
fn drawn_pages() {
    pages_of_all_counts(&mut Random::for_test("drawn_pages"), 30);
}

/// The same pages in every run.
#[test]
fn fixed_pages() {
    pages_of_all_counts(&mut Random::fixed("fixed_pages"), 5);
}

/// Entries with up to three mistakes and pages that are often short, most of them refused; and
/// entries past the count.
#[test]
fn drawn_refusals() {
    let mut random = Random::for_test("drawn_refusals");
    let mut seen = HashSet::new();
    for _ in 0..20_000 {
        let count = if random.one_in(4) { random.below(203) } else { random.below(12) };
        let mut entries: Vec<Plain> = (0..count + random.below(4)).map(|_| draw_entry(&mut random)).collect();
        for _ in 0..random.below(4).min(entries.len()) {
            let at = random.below(entries.len());
            match random.below(2) {
                0 => entries[at].minute = random.pick(&[1440, 1441, 1439 + 256, u16::MAX]),
                _ => entries[at].length = random.pick(&[33, 34, 32 + 256, u16::MAX]),
            }
        }
        let length = match random.below(4) {
            0 => random.below(50 * count + 1),
            1 => (50 * count).saturating_sub(1),
            _ => 50 * count + random.below(100),
        };
        seen.insert(check_front(&entries, count, length).err());
    }
    assert_eq!(seen.len(), 4, "each number and none: {seen:?}");
}

// ---- the crate's own entries

/// A name that is longer than 32 bytes is refused and not cut.
#[test]
fn names_of_all_sizes() {
    for size in (0..100).chain([255, 256, 257, 65535, 65536, 65537, 65536 + 5, 200_000]) {
        let name: Vec<u8> = (0..size).map(|i| b'A' + (i % 26) as u8).collect();
        match day_page_text(&[Entry::new(7, 630, &name)]) {
            Ok(page) => assert!(size <= 32 && page.as_bytes()[17..].starts_with(&name)),
            Err(refusal) => assert!(size > 32 && refusal == Refusal::Entry, "{size}: {refusal}"),
        }
    }
}
