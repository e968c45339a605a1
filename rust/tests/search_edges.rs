//! The search at its edges: each call against the same walk on the processor's instructions and
//! against brute force. The cases are the same in every run.

mod common;

use common::search::{check_call, check_list};
use common::{changed, fresh, in_both_widths, put, silicon_available, stands, text, Letter, Random};
use common::{ANY, ENDS, HALVES, ONE, TWO};
use hirtxonda::{Cursor, Next, Refusal, LONGEST_NEEDLE, LONGEST_TEXT, MOST_COMPARES};

in_both_widths! {
    every_size_up_to_35
    a_needle_at_each_offset_of_a_block
    a_front_of_the_needle_at_the_texts_end
    zeros_and_ones_at_the_texts_end
    a_later_piece_that_differs
    compares_up_to_the_piece_that_differs
    elements_alike_but_for_one_bit
    drawn_lists
    made_up_cursors
    positions_about_the_texts_end
    compares_that_grow_past_the_most
    the_longest_text_from_its_end
    the_limits_and_one_more
    several_refusals_at_once
}

/// Sizes of needles about the edges of a piece, and the largest.
fn sizes<E: Letter>() -> [usize; 10] {
    let b = E::BLOCK;
    [1, 2, b - 1, b, b + 1, 2 * b, 2 * b + 1, 3 * b - 1, 4 * b + 3, LONGEST_NEEDLE]
}

fn one_letter<E: Letter>(n: usize) -> Vec<E> {
    vec![E::cut(0x5a5a); n]
}

/// In a text of n elements.
fn match_at(position: usize, compares: u64, n: usize) -> Result<Next, Refusal> {
    let cursor = Cursor { position: position as u64 + 1, compares, exhausted: false, stop: n as u64 };
    Ok(Next::Match { position, cursor })
}

fn absent_from(position: usize, compares: u64, n: usize) -> Result<Next, Refusal> {
    Ok(Next::Absent { cursor: Cursor { position: position as u64, compares, exhausted: true, stop: n as u64 } })
}

/// Every n and m, with few letters: n = 0, m = 0, m = n, m > n, matches that overlap.
fn every_size_up_to_35<E: Letter>() {
    let mut random = Random::fixed("every_size_up_to_35");
    let real = silicon_available("every_size_up_to_35");
    for alphabet in [TWO, HALVES, ONE] {
        for n in 0..=35 {
            for m in 0..=35 {
                let needle: Vec<E> = text(&mut random, alphabet, m);
                let mut text = text(&mut random, alphabet, n);
                put(&mut text, random.below(36), &needle);
                check_list(real, &text, &needle);
            }
        }
    }
}

/// The text ends one element before the needle does, with it, or up to 16 after it.
fn a_needle_at_each_offset_of_a_block<E: Letter>() {
    let mut random = Random::fixed("a_needle_at_each_offset_of_a_block");
    let real = silicon_available("a_needle_at_each_offset_of_a_block");
    for m in sizes::<E>() {
        for offset in 0..32 {
            let needle: Vec<E> = text(&mut random, ANY, m);
            for n in offset + m - 1..=offset + m + 16 {
                let mut text: Vec<E> = one_letter(n);
                put(&mut text, offset, &needle);
                assert_eq!(stands(&text, &needle, offset), n >= offset + m);
                check_list(real, &text, &needle);
            }
        }
    }
}

/// A match that the text cuts short is none, wherever in a block it begins.
fn a_front_of_the_needle_at_the_texts_end<E: Letter>() {
    let real = silicon_available("a_front_of_the_needle_at_the_texts_end");
    let b = E::BLOCK;
    for m in [2, b - 1, b, b + 1, 2 * b + 1] {
        let needle: Vec<E> = (1..=m as u64).map(E::cut).collect();
        for offset in 0..2 * b {
            for front in 1..m {
                let text = [&one_letter(offset), &needle[..front]].concat();
                check_list(real, &text, &needle);
                check_list(real, &[&needle[..], &text].concat(), &needle);
            }
        }
    }
}

/// What fills an operand past an end is no element of the text nor of the needle.
fn zeros_and_ones_at_the_texts_end<E: Letter>() {
    let real = silicon_available("zeros_and_ones_at_the_texts_end");
    let b = E::BLOCK;
    for (letter, end) in [(1, 0), (0xffff, 0), (0, 0xffff), (0, 0)] {
        let part = |letters, ends| [vec![E::cut(letter); letters], vec![E::cut(end); ends]].concat();
        for letters in [0, 1, 2, b - 1, b, b + 1] {
            for ends in 0..=b + 1 {
                let text: Vec<E> = part(letters, ends);
                (0..=b + 2).for_each(|more| check_list(real, &text, &part(1, more)));
            }
        }
    }
}

/// A bit of the low half of an element, and one of the high half.
fn halves<E: Letter>() -> [u64; 2] {
    [1, 1 << (64 / E::BLOCK)]
}

/// Elements of a needle of several pieces, each to be changed in one half: the first and the last
/// of the second piece, the last of all, and the middle one.
fn flaws<E: Letter>(m: usize) -> Vec<(usize, u64)> {
    let b = E::BLOCK;
    let places = [b, (2 * b - 1).min(m - 1), m - 1, (m / 2).max(b)];
    places.into_iter().flat_map(|at| halves::<E>().map(|bits| (at, bits))).collect()
}

/// The first piece stands and a later one differs: before the needle itself, alone, or after it.
fn a_later_piece_that_differs<E: Letter>() {
    let mut random = Random::fixed("a_later_piece_that_differs");
    let real = silicon_available("a_later_piece_that_differs");
    for m in sizes::<E>().into_iter().filter(|&m| m > E::BLOCK) {
        for (at, bits) in flaws::<E>(m) {
            for (alphabet, flaw, whole) in [(ANY, 0, m), (TWO, 3, usize::MAX), (HALVES, m + 1, 1), (TWO, 0, m)] {
                let needle: Vec<E> = text(&mut random, alphabet, m);
                let mut text = text(&mut random, alphabet, 2 * m + 5);
                put(&mut text, flaw, &changed(&needle, at, bits));
                put(&mut text, whole, &needle);
                check_list(real, &text, &needle);
            }
        }
    }
}

/// One compare for the first piece, and one for each later piece up to the first that differs.
fn compares_up_to_the_piece_that_differs<E: Letter>() {
    let mut random = Random::fixed("compares_up_to_the_piece_that_differs");
    let real = silicon_available("compares_up_to_the_piece_that_differs");
    let b = E::BLOCK;
    for m in sizes::<E>() {
        let needle: Vec<E> = text(&mut random, ANY, m);
        let whole = check_call(real, fresh(&needle), &needle, &needle);
        assert_eq!(whole, match_at(0, m.div_ceil(b) as u64, m));
        for at in b..m {
            let text = changed(&needle, at, 1);
            assert_eq!(check_call(real, fresh(&text), &text, &needle), absent_from(0, 1 + (at / b) as u64, m));
        }
    }
}

/// A place where the needle stands but for one bit of one element, and then the needle itself. A
/// word is so alike in its low byte or in its high one.
fn elements_alike_but_for_one_bit<E: Letter>() {
    let mut random = Random::fixed("elements_alike_but_for_one_bit");
    let real = silicon_available("elements_alike_but_for_one_bit");
    for m in sizes::<E>().into_iter().filter(|&m| m < LONGEST_NEEDLE) {
        let needle: Vec<E> = text(&mut random, HALVES, m);
        for at in 0..m {
            for bit in 0..128 / E::BLOCK {
                let near = changed(&needle, at, 1 << bit);
                assert_ne!(near, needle);
                check_list(real, &[&near[..], &needle].concat(), &needle);
            }
        }
    }
}

/// Texts of every alphabet, with the needle whole at one place and flawed at another.
fn drawn_lists<E: Letter>() {
    let mut random = Random::fixed("drawn_lists");
    let real = silicon_available("drawn_lists");
    for number in 0..2_400 {
        let alphabet = number % common::ALPHABETS;
        let n = random.pick(&[40, 200, 1000, 4096]);
        let n = random.below(n + 1);
        let m = if random.one_in(2) { random.pick(&sizes::<E>()) } else { random.below(70) };
        let needle: Vec<E> = text(&mut random, alphabet, m);
        let mut text = text(&mut random, alphabet, n);
        if m > 0 {
            let flawed = changed(&needle, random.below(m), random.pick(&halves::<E>()));
            put(&mut text, random.below(n + 1), &flawed);
        }
        put(&mut text, random.below(n + 1), &needle);
        check_list(real, &text, &needle);
    }
}

/// Cursors on a text of n elements: positions about its ends, two that are refused and drawn ones;
/// compares about the most that are accepted and drawn ones; exhausted or not.
fn some_cursors(random: &mut Random, n: u64) -> Vec<Cursor> {
    let most = MOST_COMPARES;
    let positions = [0, 1, n / 2, n, n + 1, n + 2, random.draw() % (n + 2), random.draw(), u64::MAX];
    let compares = [0, most - 1, most, most + 1, random.draw() % (2 * most), random.draw(), u64::MAX];
    let pairs = positions.into_iter().flat_map(|position| compares.map(|compares| (position, compares)));
    let with = |(position, compares), exhausted| Cursor { position, compares, exhausted, stop: n };
    pairs.flat_map(|pair| [false, true].map(|exhausted| with(pair, exhausted))).collect()
}

/// A call, and the calls after it up to absent or a refusal.
fn check_calls_from<E: Letter>(real: bool, mut cursor: Cursor, text: &[E], needle: &[E]) {
    while let Ok(Next::Match { cursor: following, .. }) = check_call(real, cursor, text, needle) {
        cursor = following;
    }
}

fn made_up_cursors<E: Letter>() {
    let mut random = Random::fixed("made_up_cursors");
    let real = silicon_available("made_up_cursors");
    for n in [0, 20, 40] {
        for m in [0, 1, 3, E::BLOCK + 1, LONGEST_NEEDLE, LONGEST_NEEDLE + 1] {
            let text: Vec<E> = text(&mut random, TWO, n);
            let needle = common::text(&mut random, TWO, m);
            for cursor in some_cursors(&mut random, n as u64) {
                check_calls_from(real, cursor, &text, &needle);
            }
        }
    }
}

/// With a stop of n, positions n and n + 1 are accepted, n + 2 is not.
fn positions_about_the_texts_end<E: Letter>() {
    let real = silicon_available("positions_about_the_texts_end");
    for n in 0..=2 * E::BLOCK + 1 {
        let text: Vec<E> = one_letter(n);
        let at = |position: usize| Cursor { position: position as u64, compares: 7, ..fresh(&text) };
        assert_eq!(check_call(real, at(n), &text, &[]), match_at(n, 7, n));
        if n > 0 {
            assert_eq!(check_call(real, at(n), &text, &text[..1]), absent_from(n, 7, n));
            assert_eq!(check_call(real, at(n - 1), &text, &text[..1]), match_at(n - 1, 8, n));
        }
        for needle in [&[][..], &[E::cut(0x5a5a)], &[E::cut(0)]] {
            assert_eq!(check_call(real, at(n + 1), &text, needle), absent_from(n + 1, 7, n));
            assert_eq!(check_call(real, at(n + 2), &text, needle), Err(Refusal::Position));
        }
    }
}

/// The most compares are accepted before a call. One that counts past them still answers; the call
/// after it is refused.
fn compares_that_grow_past_the_most<E: Letter>() {
    let real = silicon_available("compares_that_grow_past_the_most");
    let text: Vec<E> = one_letter(4);
    let call = |position, compares| {
        let cursor = Cursor { position, compares, ..fresh(&text) };
        check_call(real, cursor, &text, &text[..2])
    };
    assert_eq!(call(0, MOST_COMPARES - 1), match_at(0, MOST_COMPARES, 4));
    assert_eq!(call(1, MOST_COMPARES), match_at(1, MOST_COMPARES + 1, 4));
    assert_eq!(call(2, MOST_COMPARES + 1), Err(Refusal::Compares));
}

/// The last match of the longest text, asked for from before it, from where it stands and from
/// after it.
fn the_longest_text_from_its_end<E: Letter>() {
    let mut random = Random::fixed("the_longest_text_from_its_end");
    let real = silicon_available("the_longest_text_from_its_end");
    let mut text: Vec<E> = text(&mut random, ENDS, LONGEST_TEXT);
    let whole = fresh(&text);
    let back = |back: usize, compares| Cursor { position: (LONGEST_TEXT - back) as u64, compares, ..whole };
    for m in [0, 1, 3, E::BLOCK, E::BLOCK + 1, LONGEST_NEEDLE] {
        let needle: Vec<E> = common::text(&mut random, ANY, m);
        put(&mut text, LONGEST_TEXT - m, &needle);
        for far in [0, 1, m / 2, m, m + 1, m + E::BLOCK, m + 100] {
            check_calls_from(real, back(far, MOST_COMPARES), &text, &needle);
            check_calls_from(real, back(far, 0), &text, &needle);
        }
        let last = check_call(real, back(m, 0), &text, &needle);
        assert_eq!(last, match_at(LONGEST_TEXT - m, m.div_ceil(E::BLOCK) as u64, LONGEST_TEXT));
    }
}

/// Each limit of the search is accepted, and one more refused, for no other reason.
fn the_limits_and_one_more<E: Letter>() {
    let real = silicon_available("the_limits_and_one_more");
    let text: Vec<E> = one_letter(LONGEST_TEXT + 1);
    let call = |n: usize, m: usize| check_call(real, fresh(&text[..n]), &text[..n], &text[..m]);
    assert_eq!(call(LONGEST_TEXT, 1), match_at(0, 1, LONGEST_TEXT));
    assert_eq!(call(LONGEST_TEXT + 1, 1), Err(Refusal::Text));
    assert_eq!(call(LONGEST_TEXT + 1, 0), Err(Refusal::Text));
    for n in [0, 1, LONGEST_NEEDLE, LONGEST_NEEDLE + 1, LONGEST_TEXT] {
        assert!(call(n, LONGEST_NEEDLE).is_ok());
        assert_eq!(call(n, LONGEST_NEEDLE + 1), Err(Refusal::Needle));
    }
}

/// Every set of conditions, each one past its limit: the first in the order of the tests is given.
fn several_refusals_at_once<E: Letter>() {
    let real = silicon_available("several_refusals_at_once");
    let text: Vec<E> = one_letter(LONGEST_TEXT + 1);
    for conditions in 1..64usize {
        let (n, m, cursor, first) = common::search::refused_for(conditions);
        assert_eq!(check_call(real, cursor, &text[..n], &text[..m]), Err(first), "conditions {conditions:06b}");
    }
}
