//! The column writer at its edges, against plain Rust. The cases are the same in every run.

mod common;

use common::Random;
use hirtxonda::{right_justified, Refusal, WIDEST_COLUMN};

/// As many bytes as any test here writes to; a buffer is the front of them.
const BYTES: usize = 32;

fn digits(number: u64) -> usize {
    number.to_string().len()
}

/// The lowest number that applies: 8, then 24.
fn expected(number: u64, width: usize, room: usize) -> Result<(), Refusal> {
    if width == 0 || width > 20 || digits(number) > width {
        Err(Refusal::Width)
    } else if room < width {
        Err(Refusal::Buffer)
    } else {
        Ok(())
    }
}

/// A call on the first `room` of 32 bytes. All that it does not write are as they were.
fn check(number: u64, width: usize, room: usize) -> Result<(), Refusal> {
    let mut bytes = [b'#'; BYTES];
    let answer = right_justified(number, width, &mut bytes[..room]);
    assert_eq!(answer, expected(number, width, room), "{number} in {width} of {room}");
    let column = if answer.is_ok() { format!("{number:>width$}") } else { String::new() };
    assert_eq!(String::from_utf8_lossy(&bytes), format!("{column:#<BYTES$}"), "{number} in {width} of {room}");
    answer
}

/// 10^k has k + 1 digits, and one less has k; but 0 has one.
#[test]
fn powers_of_ten_and_their_neighbours() {
    for k in 0..20 {
        let power = 10u64.pow(k as u32);
        for (number, digits) in [(power - 1, k.max(1)), (power, k + 1), (power + 1, k + 1)] {
            assert_eq!(check(number, digits, BYTES), Ok(()));
            assert_eq!(check(number, digits - 1, BYTES), Err(Refusal::Width));
            (0..=22).for_each(|width| assert_eq!(check(number, width, BYTES).is_ok(), (digits..=20).contains(&width)));
        }
    }
}

/// Every digit in every place.
#[test]
fn every_digit_in_every_place() {
    for place in (0..20).map(|k| 10u64.pow(k)) {
        for number in (0..10).filter_map(|digit| place.checked_mul(digit)) {
            (1..=20).for_each(|width| {
                let _ = check(number, width, BYTES);
            });
        }
    }
}

#[test]
fn widths_about_the_least_and_the_widest() {
    for number in [0, 7, 10, u64::MAX] {
        (0..=22).for_each(|width| assert_eq!(check(number, width, BYTES), expected(number, width, BYTES)));
        assert_eq!(check(number, 0, BYTES), Err(Refusal::Width));
        assert_eq!(check(number, WIDEST_COLUMN, BYTES), Ok(()));
        for width in [21, 22, 255, 256, 276, 1 << 16, 1 << 32, (1 << 32) + 20, usize::MAX - 1, usize::MAX] {
            assert_eq!(check(number, width, BYTES), Err(Refusal::Width));
        }
    }
}

/// All twenty columns, and no fewer.
#[test]
fn the_largest_number() {
    for number in [u64::MAX, u64::MAX - 1, 10u64.pow(19)] {
        assert_eq!(check(number, 20, 20), Ok(()));
        assert_eq!(check(number, 19, 20), Err(Refusal::Width));
    }
    let mut column = [b'#'; 20];
    assert_eq!(right_justified(u64::MAX, 20, &mut column), Ok(()));
    assert_eq!(&column, b"18446744073709551615");
}

/// The widths of the program's lines, and numbers of about as many digits.
#[test]
fn columns_of_8_and_of_10() {
    for number in [0, 7, 10, 65_535, 65_536, 9_999_999, 10_000_000, 99_999_999, 100_000_000, 999_999_999] {
        assert_eq!(check(number, 8, BYTES).is_ok(), number < 100_000_000);
        assert_eq!(check(number, 10, BYTES), Ok(()));
    }
    assert_eq!(check(9_999_999_999, 10, BYTES), Ok(()));
    assert_eq!(check(10_000_000_000, 10, BYTES), Err(Refusal::Width));
}

/// No byte, one byte less than the width, as many, one more, and all.
#[test]
fn buffers_about_the_width() {
    for number in [0, 7, 65_536, u64::MAX] {
        for width in digits(number)..=20 {
            for room in [0, 1, width / 2, width - 1] {
                assert_eq!(check(number, width, room.min(width - 1)), Err(Refusal::Buffer));
            }
            for room in [width, width + 1, 24, BYTES] {
                assert_eq!(check(number, width, room), Ok(()));
            }
        }
    }
}

/// The lowest number is given: 8 before 24, whatever the reason for 8.
#[test]
fn both_refusals_at_once() {
    for (number, width) in [(0, 0), (0, 21), (100_000_000, 8), (10, 1), (u64::MAX, 19), (u64::MAX, 21), (0, usize::MAX)]
    {
        for room in 0..width.min(BYTES) {
            assert_eq!(check(number, width, room), Err(Refusal::Width));
        }
        assert_eq!(check(number, width, BYTES), Err(Refusal::Width));
    }
}

#[test]
fn drawn_columns() {
    let mut random = Random::fixed("drawn_columns");
    let mut seen = [0; 3];
    for _ in 0..300_000 {
        let number = random.draw() >> random.below(64);
        let answer = check(number, random.below(23), random.below(26));
        seen[[Ok(()), Err(Refusal::Width), Err(Refusal::Buffer)].iter().position(|a| *a == answer).unwrap()] += 1;
    }
    assert!(seen.iter().all(|&count| count > 1000), "{seen:?}");
}
