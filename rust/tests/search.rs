//! The proved search against the same walk on the processor's instructions, call by call, and
//! against brute force.

mod common;

use common::search::{check_call, check_list, needle_for, on_silicon, plant};
use common::{fresh, positions, silicon_available, text, Letter, Random, ALPHABETS};
use hirtxonda::{matches, Cursor, Next, Refusal, LONGEST_NEEDLE, LONGEST_TEXT, MOST_COMPARES};

fn lists<E: Letter>(test: &str, count: usize, longest_text: usize, longest_needle: usize) {
    let mut random = Random::for_test(test);
    let real = silicon_available(test);
    for _ in 0..count {
        let alphabet = random.below(ALPHABETS);
        let n = random.size(E::BLOCK, longest_text);
        let m = random.size(E::BLOCK, longest_needle.min(n + 2));
        let mut text: Vec<E> = text(&mut random, alphabet, n);
        let needle = needle_for(&mut random, &text, alphabet, m);
        plant(&mut random, &mut text, &needle);
        check_list(real, &text, &needle);
    }
}

#[test]
fn short_texts_in_bytes() {
    lists::<u8>("short_texts_in_bytes", 400_000, 100, 64);
}

#[test]
fn short_texts_in_words() {
    lists::<u16>("short_texts_in_words", 400_000, 100, 64);
}

#[test]
fn longer_texts_in_bytes() {
    lists::<u8>("longer_texts_in_bytes", 4_000, 4000, LONGEST_NEEDLE);
}

#[test]
fn longer_texts_in_words() {
    lists::<u16>("longer_texts_in_words", 4_000, 4000, LONGEST_NEEDLE);
}

/// Cursors that no list of calls gives, at every edge and at random, with stops of all sizes; and
/// another text or needle for a cursor on its way.
fn cursors<E: Letter>(test: &str) {
    let mut random = Random::for_test(test);
    let real = silicon_available(test);
    let mut refused = std::collections::HashMap::new();
    for _ in 0..400_000 {
        let alphabet = random.below(ALPHABETS);
        let n = random.size(E::BLOCK, 80);
        let m = if random.one_in(16) { LONGEST_NEEDLE + random.below(2) } else { random.size(E::BLOCK, 2 * E::BLOCK) };
        let text: Vec<E> = text(&mut random, alphabet, n);
        let needle = needle_for(&mut random, &text, alphabet, m);
        let stop = match random.below(16) {
            0 => u64::MAX - random.below(3) as u64,
            1 => random.draw(),
            2 => n as u64 + random.below(4) as u64,
            3..=8 => random.below(n + 1) as u64,
            _ => n as u64,
        };
        let position = match random.below(8) {
            0 => u64::MAX - random.below(3) as u64,
            1 => random.draw(),
            2 => stop.wrapping_add(random.below(4) as u64),
            _ => random.below(n + 2) as u64,
        };
        let compares = match random.below(4) {
            0 => (MOST_COMPARES + 2).wrapping_sub(random.below(4) as u64),
            1 => random.draw(),
            2 => u64::MAX - random.below(2) as u64,
            _ => random.draw() % (MOST_COMPARES + 1),
        };
        let cursor = Cursor { position, compares, exhausted: random.one_in(8), stop };
        let answer = check_call(real, cursor, &text, &needle);
        *refused.entry(answer.err()).or_insert(0) += 1;
    }
    for refusal in [Refusal::Needle, Refusal::Exhausted, Refusal::Stop, Refusal::Position, Refusal::Compares] {
        assert!(refused.contains_key(&Some(refusal)), "{refusal:?} never came up");
    }
}

#[test]
fn cursors_in_bytes() {
    cursors::<u8>("cursors_in_bytes");
}

#[test]
fn cursors_in_words() {
    cursors::<u16>("cursors_in_words");
}

/// Texts of the longest size and of one more, with the needle at their very end.
fn at_the_limits<E: Letter>(test: &str) {
    let mut random = Random::for_test(test);
    let real = silicon_available(test);
    for m in [0, 1, 2, E::BLOCK, E::BLOCK + 1, 64, LONGEST_NEEDLE] {
        let alphabet = random.pick(&[0, 2]);
        let mut text: Vec<E> = text(&mut random, alphabet, LONGEST_TEXT + 1);
        let needle = needle_for(&mut random, &text, alphabet, m);
        let longest = &mut text[..LONGEST_TEXT];
        longest[LONGEST_TEXT - m..].copy_from_slice(&needle);
        let mut found: Vec<usize> = Vec::new();
        let mut cursor = fresh(longest);
        while let Next::Match { position, cursor: following } = cursor.next(longest, &needle).expect("accepted") {
            if let Some(by_instructions) = on_silicon(real, cursor, longest, &needle) {
                assert_eq!(by_instructions, Ok(Next::Match { position, cursor: following }));
            }
            found.push(position);
            cursor = following;
        }
        if let Some(by_instructions) = on_silicon(real, cursor, longest, &needle) {
            assert_eq!(by_instructions, cursor.next(longest, &needle));
        }
        assert_eq!(found, positions(longest, &needle));
        assert_eq!(found.last(), Some(&(LONGEST_TEXT - m)));
        assert_eq!(check_call(real, cursor, &text, &needle), Err(Refusal::Text));
        assert_eq!(matches(&text, &needle).err(), Some(Refusal::Text));
    }
}

#[test]
fn at_the_limits_in_bytes() {
    at_the_limits::<u8>("at_the_limits_in_bytes");
}

#[test]
fn at_the_limits_in_words() {
    at_the_limits::<u16>("at_the_limits_in_words");
}

/// Document 01's specimens S1 to S5: the first match and the compares of the first call.
#[test]
fn specimens() {
    let first = |text: &[u8], needle: &[u8]| match fresh(text).next(text, needle) {
        Ok(Next::Match { position, cursor }) => (Some(position), cursor.compares),
        Ok(Next::Absent { cursor }) => (None, cursor.compares),
        Err(refusal) => panic!("{refusal}"),
    };
    assert_eq!(first(b"", b""), (Some(0), 0));
    assert_eq!(first(b"", b"A"), (None, 0));
    assert_eq!(first(b"ZZZZZZZZZZZZZZABCDZZ", b"ABCD"), (Some(14), 2));
    assert_eq!(first(b"ZZZZZZZZZZZZZZABXDZZ", b"ABCD"), (None, 2));
    assert_eq!(first(b"AAAAAAAAAAAAAAAAAB", b"AAAAAAAAAAAAAAAAB"), (Some(1), 4));
}
