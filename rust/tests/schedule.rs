//! The running order of a day against `sort_by` of the standard library, through `Day` and through
//! the raw C call.

mod common;
#[allow(dead_code)]
#[path = "../src/raw.rs"]
mod raw;

use std::collections::HashSet;

use common::Random;
use hirtxonda::{Day, Entry, Refusal, MOST_ENTRIES};
use raw::hx_day_of_parts;

/// An entry, plain.
type Plain = raw::Entry;

/// A day, plain: what the C call writes, or leaves as it was.
#[derive(Clone, Copy, Debug, PartialEq)]
struct Places {
    day: [Plain; MOST_ENTRIES],
    count: u64,
}

const ZEROS: Plain = Plain { number: 0, minute: 0, length: 0, name: [0; 32] };

/// What stands in a day before a call.
const BEFORE: Places = {
    let entry = Plain { number: 0xa5a5_a5a5, minute: 0xa5a5, length: 0xa5a5, name: [0xa5; 32] };
    Places { day: [entry; MOST_ENTRIES], count: 0xa5a5_a5a5_a5a5_a5a5 }
};

/// An entry with this name, and letters after it.
fn entry(number: u32, minute: u16, name: &[u8]) -> Plain {
    let mut bytes = *b"left over from another service..";
    bytes[..name.len()].copy_from_slice(name);
    Plain { number, minute, length: name.len() as u16, name: bytes }
}

/// The same with zeros after the name.
fn cleared(entry: Plain) -> Plain {
    let mut name = [0; 32];
    let length = usize::from(entry.length);
    name[..length].copy_from_slice(&entry.name[..length]);
    Plain { name, ..entry }
}

fn public(entry: Plain) -> Entry {
    Entry::from_parts(entry.number, entry.minute, entry.length, entry.name)
}

/// The day that the entries make, or the number that refuses them.
fn expected(entries: &[Plain]) -> Result<Vec<Plain>, u32> {
    if entries.len() > 200 {
        return Err(32);
    }
    if entries.iter().any(|entry| entry.minute >= 24 * 60 || entry.length > 32) {
        return Err(33);
    }
    let numbers: HashSet<u32> = entries.iter().map(|entry| entry.number).collect();
    if numbers.len() < entries.len() {
        return Err(34);
    }
    let mut day: Vec<Plain> = entries.iter().map(|&entry| cleared(entry)).collect();
    day.sort_by(|a, b| {
        let (x, y) = (&a.name[..a.length.into()], &b.name[..b.length.into()]);
        a.minute.cmp(&b.minute).then(x.cmp(y)).then(a.number.cmp(&b.number))
    });
    Ok(day)
}

/// The raw call over the first entries, so many, and what stands in the day after it.
fn raw_day(entries: &[Plain], count: usize) -> (u32, Places) {
    let mut after = BEFORE;
    // SAFETY: as many entries as the count says, or a count that is refused before one is read; and
    // two parts of a local.
    let number = unsafe { hx_day_of_parts(entries.as_ptr(), count, after.day.as_mut_ptr(), &mut after.count) };
    (number, after)
}

/// The first entries, so many, both ways. Accepted, every byte of the day is written; refused,
/// every one stays.
fn check_front(entries: &[Plain], count: usize) -> Result<Vec<Plain>, u32> {
    let expected = expected(&entries[..count]);
    let (number, after) = raw_day(entries, count);
    let list: Vec<Entry> = entries.iter().map(|&entry| public(entry)).collect();
    let day = Day::of(&list[..count]);
    match &expected {
        Err(refusal) => {
            assert_eq!(number, *refusal, "{:?}", &entries[..count]);
            assert_eq!(after, BEFORE);
            assert_eq!(day.map_err(Refusal::number), Err(number));
        }
        Ok(sorted) => {
            assert_eq!(number, 0, "{:?}", &entries[..count]);
            assert_eq!(after.day[..count], sorted[..]);
            assert_eq!(after.day[count..], [ZEROS; MOST_ENTRIES][count..]);
            assert_eq!(after.count, count as u64);
            let day = day.expect("accepted by the raw call");
            assert!(day.entries().iter().copied().eq(sorted.iter().map(|&entry| public(entry))));
            assert!(day.places().iter().copied().eq(after.day.iter().map(|&entry| public(entry))));
            for (entry, plain) in day.entries().iter().zip(sorted) {
                let name = &plain.name[..plain.length.into()];
                assert_eq!((entry.number(), entry.minute(), entry.name()), (plain.number, plain.minute, name));
            }
        }
    }
    expected
}

fn check(entries: &[Plain]) -> Result<Vec<Plain>, u32> {
    check_front(entries, entries.len())
}

/// The names of a day's entries, where it is accepted.
fn names(entries: &[Plain]) -> Vec<Vec<u8>> {
    let day = check(entries).expect("accepted");
    day.iter().map(|entry| entry.name[..entry.length.into()].to_vec()).collect()
}

fn numbers(entries: &[Plain]) -> Vec<u32> {
    check(entries).expect("accepted").iter().map(|entry| entry.number).collect()
}

// ---- worked cases

/// No entry: no place is left as it was.
#[test]
fn none() {
    assert_eq!(raw_day(&[], 0), (0, Places { day: [ZEROS; MOST_ENTRIES], count: 0 }));
    assert_eq!(Day::of(&[]).unwrap().entries(), []);
    assert_eq!(check(&[]), Ok(vec![]));
}

#[test]
fn one() {
    let smith = entry(7, 545, b"SMITH");
    let mut day = Places { day: [ZEROS; MOST_ENTRIES], count: 1 };
    day.day[0] = Plain {
        number: 7,
        minute: 545,
        length: 5,
        name: *b"SMITH\0\0\0\0\0\0\0\0\0\0\0\0\0\0\0\0\0\0\0\0\0\0\0\0\0\0\0",
    };
    assert_eq!(raw_day(&[smith], 1), (0, day));
    assert_eq!(Day::of(&[public(smith)]).unwrap().entries(), [Entry::new(7, 545, b"SMITH")]);
}

/// Two services at 10:30, in both orders of entry: by name, and by number where the names are
/// equal.
#[test]
fn two_at_half_past_ten() {
    let (jones, smith) = (entry(8, 630, b"JONES"), entry(3, 630, b"SMITH"));
    assert_eq!(numbers(&[jones, smith]), [8, 3]);
    assert_eq!(numbers(&[smith, jones]), [8, 3]);
    let (first, second) = (entry(3, 630, b"SMITH"), entry(8, 630, b"SMITH"));
    assert_eq!(numbers(&[first, second]), [3, 8]);
    assert_eq!(numbers(&[second, first]), [3, 8]);
    // The minute comes before both.
    let late = entry(1, 631, b"AARON");
    assert_eq!(numbers(&[late, smith, jones]), [8, 3, 1]);
}

/// A name that is the front of another is the smaller one, whatever its number and the bytes past
/// it.
#[test]
fn a_front_of_a_name() {
    for past in [0u8, b'A', b'Z', 255] {
        let smith = Plain { length: 5, ..entry(9, 630, &[b"SMITH", &[past; 27][..]].concat()) };
        let smithe = entry(4, 630, b"SMITHE");
        assert_eq!(names(&[smith, smithe]), [&b"SMITH"[..], b"SMITHE"]);
        assert_eq!(names(&[smithe, smith]), [&b"SMITH"[..], b"SMITHE"]);
    }
    // A zero is a byte of the name.
    let (short, long) = (entry(9, 630, b"SMITH"), entry(4, 630, b"SMITH\0"));
    assert_eq!(names(&[long, short]), [&b"SMITH"[..], b"SMITH\0"]);
    let (without, with) = (entry(9, 630, b""), entry(4, 630, b"\0"));
    assert_eq!(names(&[with, without]), [&b""[..], b"\0"]);
    let (a, b) = (entry(9, 630, b"\0A"), entry(4, 630, b"\0B"));
    assert_eq!(numbers(&[b, a]), [9, 4]);
}

/// A byte above 127 is above every letter.
#[test]
fn a_byte_above_127() {
    for high in [128u8, 0xc9, 255] {
        let (accent, letter) = (entry(3, 630, &[b'S', high]), entry(8, 630, b"SZ"));
        assert_eq!(numbers(&[accent, letter]), [8, 3]);
        assert_eq!(numbers(&[letter, accent]), [8, 3]);
    }
}

// ---- refusals

/// Number 33 for an entry within the count, at each place, and at each edge.
#[test]
fn entries_at_their_limits() {
    let good: Vec<Plain> = (0..200).map(|number| entry(number, 630, b"SMITH")).collect();
    let with = |at: usize, minute: u16, length: u16, count: usize| {
        let mut entries = good[..count].to_vec();
        (entries[at].minute, entries[at].length) = (minute, length);
        check(&entries).err().unwrap_or(0)
    };
    for count in [1, 2, 3, 7, 8, 100, 199, 200] {
        for at in [0, 1, count / 2, count - 1].into_iter().filter(|&at| at < count) {
            for minute in [0, 1439] {
                assert_eq!(with(at, minute, 0, count), 0);
                assert_eq!(with(at, minute, 32, count), 0);
            }
            for minute in [1440, 1441, 1439 + 256, 2048, 0x8000, u16::MAX] {
                assert_eq!(with(at, minute, 5, count), 33, "minute {minute} at {at} of {count}");
            }
            for length in [33, 34, 64, 256, 256 + 5, 0x8000, u16::MAX] {
                assert_eq!(with(at, 630, length, count), 33, "length {length} at {at} of {count}");
            }
            assert_eq!(with(at, 1440, 33, count), 33);
        }
    }
}

/// Number 34 for each pair of places of small days, and for some of long ones.
#[test]
fn numbers_that_stand_twice() {
    for count in (2..=8).chain([199, 200]) {
        let few = count <= 8;
        for first in (0..count).filter(|&at| few || [0, 1, 100, count - 2].contains(&at)) {
            for second in (first + 1..count).filter(|&at| few || at < 3 || at > count - 3) {
                for number in [0, 5, u32::MAX] {
                    let mut entries: Vec<Plain> =
                        (0..count).map(|i| entry(1000 + i as u32, 630 - i as u16, b"SMITH")).collect();
                    assert_eq!(check(&entries).err(), None);
                    entries[first].number = number;
                    assert_eq!(check(&entries).err(), None);
                    entries[second].number = number;
                    assert_eq!(check(&entries), Err(34), "{first} and {second} of {count}");
                    // One bit is enough for another number.
                    for bit in [0, 8, 16, 31] {
                        entries[second].number = number ^ 1 << bit;
                        assert_eq!(check(&entries).err(), None);
                    }
                }
            }
        }
    }
}

/// Several at once: 32 before 33 before 34, wherever the entries stand.
#[test]
fn the_order_of_refusals() {
    for places in [[0, 1, 2], [2, 0, 1], [1, 2, 0], [200, 0, 100], [0, 200, 199]] {
        let [bad, first, second] = places;
        for conditions in 0..8 {
            let holds = |condition: u32| conditions >> condition & 1 == 1;
            let mut entries: Vec<Plain> = (0..201).map(|number| entry(number, 630, b"SMITH")).collect();
            if holds(1) {
                entries[bad].minute = 1440;
            }
            if holds(2) {
                entries[first].number = entries[second].number;
            }
            let count = if holds(0) { 201 } else { 200 };
            // In a day of 200 the last of 201 is not looked at.
            let within = |place: usize| place < count;
            let number = match () {
                _ if holds(0) => 32,
                _ if holds(1) && within(bad) => 33,
                _ if holds(2) && within(first) && within(second) => 34,
                _ => 0,
            };
            assert_eq!(check_front(&entries, count).err().unwrap_or(0), number, "{conditions:03b} at {places:?}");
        }
    }
    // Both in one entry.
    let (good, bad) = (entry(4, 630, b"SMITH"), entry(4, 1440, b"WARD"));
    assert_eq!(check(&[good, bad]), Err(33));
    assert_eq!(check(&[bad, good]), Err(33));
}

/// A count above 200 is refused whatever the entries are, also one that is 200 or less when cut.
#[test]
fn counts() {
    let mut entries: Vec<Plain> = (0..400).map(|number| entry(number, 630, b"SMITH")).collect();
    for bad in [false, true] {
        if bad {
            entries.fill(Plain { number: 4, minute: 1440, length: 33, name: [0; 32] });
        }
        for count in [201, 202, 255, 256, 257, 400] {
            assert_eq!(check_front(&entries, count), Err(32));
        }
        for count in [1 << 16, (1 << 32) + 1, 1 << 62, 1 << 63, usize::MAX] {
            assert_eq!(raw_day(&entries, count), (32, BEFORE));
        }
        assert_eq!(check_front(&entries, 200).err(), bad.then_some(33));
    }
}

/// What lies past the count refuses nothing, and stands in no place of the day.
#[test]
fn past_the_count() {
    let bad = [
        entry(900, 1440, b"WARD"),
        entry(901, u16::MAX, b"WARD"),
        Plain { length: 33, ..entry(902, 0, b"WARD") },
        Plain { length: u16::MAX, ..entry(903, 0, b"WARD") },
        entry(0, 0, b"A"),   // the number of the first
        entry(900, 0, b"A"), // a number that stands past the count twice
    ];
    for count in [0, 1, 2, 5, 100, 194, 199, 200] {
        let mut entries: Vec<Plain> = (0..count).map(|i| entry(i as u32, 700 - i as u16, b"SMITH")).collect();
        entries.extend(bad);
        entries.extend(bad);
        let day = check_front(&entries, count).expect("accepted");
        assert_eq!(day.len(), count);
    }
}

// ---- days against the standard library

/// Names from few: so that many are equal, fronts of another, or differ in the last byte alone.
/// Past each length stands anything.
fn name(random: &mut Random, kind: usize) -> (u16, [u8; 32]) {
    let edges = [0x00, 0x01, 0x41, 0x7f, 0x80, 0xff];
    let mut bytes = [0; 32];
    let length = match kind {
        0 => random.below(33),
        1 => random.below(3),
        2 => 30 + random.below(3),
        3 => random.pick(&[0, 15, 16, 17, 31, 32]),
        _ => 32,
    };
    for (i, byte) in bytes.iter_mut().enumerate() {
        *byte = match kind {
            0 => random.draw() as u8,
            1 => random.pick(&edges),
            _ if i + 1 < length => b'A',
            _ => random.pick(&edges),
        };
    }
    bytes[length..].fill_with(|| random.pick(&edges));
    (length as u16, bytes)
}

/// Numbers that differ, in no order or in one.
fn different_numbers(random: &mut Random, count: usize) -> Vec<u32> {
    let start = random.pick(&[0, 1, u32::MAX, 0x8000_0000, 0x7fff_ff80]);
    let step = random.pick(&[1, u32::MAX, 0x0001_0001, 0x8000_0001, 0x9e37_79b9]);
    let mut numbers: Vec<u32> = (0..count as u32).map(|i| start.wrapping_add(i.wrapping_mul(step))).collect();
    if random.one_in(2) {
        shuffle(random, &mut numbers);
    }
    numbers
}

fn shuffle<T>(random: &mut Random, list: &mut [T]) {
    for i in (1..list.len()).rev() {
        list.swap(i, random.below(i + 1));
    }
}

/// A day that is accepted.
fn draw_day(random: &mut Random, count: usize) -> Vec<Plain> {
    let (kind, minutes) = (random.below(5), random.pick(&[1, 2, 5, 1440]));
    let numbers = different_numbers(random, count);
    let with = |number| {
        let minute = random.pick(&[0, 1440 - minutes]) + random.below(minutes.into()) as u16;
        let (length, name) = name(random, kind);
        Plain { number, minute, length, name }
    };
    numbers.into_iter().map(with).collect()
}

/// All counts, each with some days.
fn days_of_all_counts(random: &mut Random, days: usize) {
    for count in 0..=MOST_ENTRIES {
        for _ in 0..days {
            assert_eq!(check(&draw_day(random, count)).map(|day| day.len()), Ok(count));
        }
    }
}

#[test]
fn drawn_days() {
    days_of_all_counts(&mut Random::for_test("drawn_days"), 60);
}

/// The same days in every run.
#[test]
fn fixed_days() {
    days_of_all_counts(&mut Random::fixed("fixed_days"), 10);
}

/// Days with up to three mistakes, most of them refused; and entries past the count.
#[test]
fn drawn_refusals() {
    let mut random = Random::for_test("drawn_refusals");
    let mut seen = HashSet::new();
    for _ in 0..20_000 {
        let count = if random.one_in(4) { random.below(203) } else { random.below(12) };
        let more = random.below(4);
        let mut entries = draw_day(&mut random, count + more);
        for _ in 0..random.below(4) {
            if entries.is_empty() {
                break;
            }
            let (at, other) = (random.below(entries.len()), random.below(entries.len()));
            match random.below(3) {
                0 => entries[at].minute = random.pick(&[1440, 1441, 1439 + 256, u16::MAX]),
                1 => entries[at].length = random.pick(&[33, 34, 32 + 256, u16::MAX]),
                _ => entries[at].number = entries[other].number,
            }
        }
        seen.insert(check_front(&entries, count).err());
    }
    assert_eq!(seen.len(), 4, "each number and none: {seen:?}");
}

/// The same entries drawn in another order make the same day.
#[test]
fn shuffled_days() {
    let mut random = Random::for_test("shuffled_days");
    for count in 0..=MOST_ENTRIES {
        let mut entries = draw_day(&mut random, count);
        let day = raw_day(&entries, count);
        assert_eq!(day.0, 0);
        for _ in 0..10 {
            shuffle(&mut random, &mut entries);
            assert_eq!(raw_day(&entries, count), day);
        }
    }
}

// ---- hostile days

/// All orders of entry that a day of 200 is tried in.
fn check_orders(sorted: &[Plain]) {
    let mut random = Random::fixed("check_orders");
    let day = check(sorted).expect("accepted");
    assert!(day.iter().copied().eq(sorted.iter().map(|&entry| cleared(entry))), "handed over sorted");
    let mut entries = sorted.to_vec();
    entries.reverse();
    assert_eq!(check(&entries), Ok(day.clone()));
    for turn in [1, 99, 199] {
        entries.clone_from_slice(sorted);
        entries.rotate_left(turn % sorted.len());
        assert_eq!(check(&entries), Ok(day.clone()));
    }
    // The first half and the second in turn; neighbours exchanged; then no order at all.
    let halves = sorted.chunks(sorted.len().div_ceil(2)).collect::<Vec<_>>();
    let mixed: Vec<Plain> = (0..sorted.len()).map(|i| halves[i % 2][i / 2]).collect();
    assert_eq!(check(&mixed), Ok(day.clone()));
    entries.clone_from_slice(sorted);
    entries.chunks_mut(2).for_each(|pair| pair.reverse());
    assert_eq!(check(&entries), Ok(day.clone()));
    for _ in 0..5 {
        shuffle(&mut random, &mut entries);
        assert_eq!(check(&entries), Ok(day.clone()));
    }
}

/// One minute, and names that agree in 31 bytes; the numbers go the other way.
#[test]
fn names_that_agree_in_31_bytes() {
    let named = |i: u32| {
        let mut name = [b'A'; 32];
        name[31] = i as u8 + 28;
        entry(u32::MAX - i, 630, &name)
    };
    check_orders(&(0..200).map(named).collect::<Vec<_>>());
}

/// One minute, and names that differ in one byte alone, at each place: the byte that comes sooner
/// decides.
#[test]
fn names_that_differ_in_one_byte() {
    let named = |i: u32| {
        let mut name = [b'M'; 32];
        // From the greatest byte at the last place to the greatest at the first.
        name[31 - i as usize] = 0xff;
        entry(u32::MAX - i, 630, &name)
    };
    check_orders(&(0..32).map(named).collect::<Vec<_>>());
}

/// One minute and one name: the number decides, as an unsigned one.
#[test]
fn one_name() {
    for name in [&b""[..], b"SMITH", &[0xff; 32]] {
        let numbered = |i: u32| entry(i.wrapping_mul(0x0148_0001), 630, name);
        check_orders(&(0..200).map(numbered).collect::<Vec<_>>());
        check_orders(&[
            entry(0, 0, name),
            entry(0x7fff_ffff, 0, name),
            entry(1 << 31, 0, name),
            entry(u32::MAX, 0, name),
        ]);
    }
}

/// Each name the front of the next: 33 lengths at one minute, and six more such minutes.
#[test]
fn names_that_are_fronts() {
    for byte in [0, b'A', 0x80, 0xff] {
        let named = |i: u32| entry(1000 - i, (i / 33 * 200) as u16, &[byte; 32][..i as usize % 33]);
        check_orders(&(0..200).map(named).collect::<Vec<_>>());
    }
}

/// Every byte as a name of one, in two days, and both bytes of minutes.
#[test]
fn all_bytes_and_minutes() {
    for from in [0, 56] {
        check_orders(&(from..from + 200).map(|i| entry(1000 - i, 630, &[i as u8])).collect::<Vec<_>>());
    }
    for from in 0..8 {
        check_orders(&(0..180).map(|i| entry(1000 - i, (i * 8 + from) as u16, b"SMITH")).collect::<Vec<_>>());
    }
}

// ---- every order of entry

/// Calls with every order of the list, each once.
fn every_order<T: Copy>(list: &mut Vec<T>, from: usize, call: &mut impl FnMut(&[T])) {
    if from >= list.len() {
        return call(list);
    }
    for i in from..list.len() {
        list.swap(from, i);
        every_order(list, from + 1, call);
        list.swap(from, i);
    }
}

/// Small days handed over in every order: one day, byte for byte.
#[test]
fn every_order_of_small_days() {
    let mut random = Random::for_test("every_order_of_small_days");
    for count in 0..=6 {
        for _ in 0..30 {
            let mut entries = draw_day(&mut random, count);
            let mut day = Places { day: [ZEROS; MOST_ENTRIES], count: count as u64 };
            day.day[..count].copy_from_slice(&expected(&entries).expect("accepted"));
            let mut orders = 0;
            every_order(&mut entries, 0, &mut |order| {
                assert_eq!(raw_day(order, count), (0, day));
                orders += 1;
            });
            assert_eq!(orders, (1..=count).product::<usize>());
        }
    }
}

/// The same for a day that has all there is: two minutes, names that are fronts, equal or above
/// 127, and numbers that go the other way. Its order is written here.
#[test]
fn every_order_of_one_day() {
    let day = [
        entry(9, 629, b"\xff"),
        entry(8, 630, b""),
        entry(7, 630, b"SMITH"),
        entry(6, 630, b"SMITHE"),
        entry(2, 630, b"SM\xcfTH"),
        entry(5, 630, b"SM\xcfTH"),
    ];
    every_order(&mut day.to_vec(), 0, &mut |order| assert_eq!(numbers(order), [9, 8, 7, 6, 2, 5]));
}

// ---- the crate's own entries

/// A name that is longer than 32 bytes keeps a length that is refused, also one that 16 bits can't
/// hold.
#[test]
fn names_of_all_sizes() {
    for size in (0..100).chain([255, 256, 257, 65535, 65536, 65537, 65536 + 5, 200_000]) {
        let name: Vec<u8> = (0..size).map(|i| i as u8 + 1).collect();
        let entry = Entry::new(7, 630, &name);
        assert_eq!(entry.name(), &name[..size.min(32)]);
        match Day::of(&[entry]) {
            Ok(day) => assert!(size <= 32 && day.entries()[0].name() == name),
            Err(refusal) => assert!(size > 32 && refusal == Refusal::Entry, "{size}: {refusal}"),
        }
    }
}

/// Entries and days are equal where all their bytes are.
#[test]
fn equal_entries() {
    let smith = Entry::new(7, 630, b"SMITH");
    let mut name = [0; 32];
    name[..5].copy_from_slice(b"SMITH");
    assert_eq!(smith, Entry::from_parts(7, 630, 5, name));
    for other in [Entry::new(8, 630, b"SMITH"), Entry::new(7, 631, b"SMITH"), Entry::new(7, 630, b"SMITHE")] {
        assert_ne!(smith, other);
        assert_ne!(Day::of(&[smith]), Day::of(&[other]));
    }
    for at in 0..32 {
        let mut other = name;
        other[at] ^= 1;
        let other = Entry::from_parts(7, 630, 5, other);
        assert_ne!(smith, other);
        assert_eq!(Day::of(&[smith]) == Day::of(&[other]), at >= 5);
    }
    assert_ne!(smith, Entry::from_parts(7, 630, 6, name));
    assert_ne!(Day::of(&[]), Day::of(&[Entry::new(0, 0, b"")]));
}
