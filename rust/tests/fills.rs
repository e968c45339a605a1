//! Fills, the next matches into one list: each against the same fill on the processor's
//! instructions and against brute force, and mixed with next matches. `refusals.rs` has the raw
//! calls.

mod common;

use common::fills::{check_fill, mixed, next_matches, Tally};
use common::search::{needle_for, plant, refused_for};
use common::{fresh, in_both_widths, list_compares, positions, put, silicon_available, text, walk_compares};
use common::{Letter, Random, ALPHABETS, ANY, ONE, TWO};
use hirtxonda::{matches, Cursor, End, Filled, Refusal, LONGEST_NEEDLE, LONGEST_TEXT, MOST_COMPARES};

in_both_widths! {
    every_size_up_to_16
    endings_about_the_most_compares
    a_list_as_long_as_the_matches
    an_empty_list
    positions_about_the_texts_end
    the_longest_text
    the_limits_and_one_more
    several_refusals_at_once
    the_iterator_in_lists
}

// ---- the same cases in every run

fn one_letter<E: Letter>(n: usize) -> Vec<E> {
    vec![E::cut(0x5a5a); n]
}

/// Every n up to 16 and short needles, and a needle of two pieces in texts of two blocks; every
/// cursor's position, and lists of every length up to one that is too long for the matches.
fn every_size_up_to_16<E: Letter>() {
    let mut random = Random::fixed("every_size_up_to_16");
    let real = silicon_available("every_size_up_to_16");
    for alphabet in [TWO, ONE] {
        let short = (0..=16).flat_map(|n| [0, 1, 2, 3].map(|m| (n, m)));
        let two_pieces = (E::BLOCK..=2 * E::BLOCK + 1).map(|n| (n, E::BLOCK + 1));
        for (n, m) in short.chain(two_pieces) {
            let needle: Vec<E> = text(&mut random, alphabet, m);
            let mut text = text(&mut random, alphabet, n);
            put(&mut text, random.below(n + 1), &needle);
            for position in 0..=n as u64 + 1 {
                for length in 0..=n + 2 {
                    let cursor = Cursor { position, ..fresh(&text) };
                    let (answer, _) = check_fill(real, cursor, (&text, &needle), length);
                    assert!(answer.is_ok());
                }
            }
        }
    }
}

/// A needle that stands at each of the first `matches` positions, each at the cost of a compare for
/// each of its pieces. The fill ends by what comes first: the list's end, one compare too many, the
/// last match.
fn endings_about_the_most_compares<E: Letter>() {
    let real = silicon_available("endings_about_the_most_compares");
    for (m, each) in [(1, 1), (2, 1), (E::BLOCK, 1), (E::BLOCK + 1, 2), (3 * E::BLOCK, 3)] {
        for (matches, left) in (1..=5).flat_map(|matches| (0..=20).map(move |left| (matches, left))) {
            let text: Vec<E> = one_letter(m - 1 + matches);
            let over = (&text[..], &text[..m]);
            let accepted = left / each + 1;
            for length in 0..=matches + 2 {
                let cursor = Cursor { compares: MOST_COMPARES - left as u64, ..fresh(&text) };
                let (count, end) = match () {
                    _ if length <= accepted.min(matches) => (length, End::Full),
                    _ if accepted <= matches => (accepted, End::Stopped(Refusal::Compares)),
                    _ => (matches, End::Absent),
                };
                let compares = cursor.compares + (count * each) as u64;
                let (position, exhausted) = (count as u64, end == End::Absent);
                let cursor_after = Cursor { position, compares, exhausted, ..cursor };
                let (answer, found) = check_fill(real, cursor, over, length);
                assert_eq!(answer, Ok(Filled { count, cursor: cursor_after, end }));
                assert!(found.iter().copied().eq(0..count as u64));
                if compares > MOST_COMPARES {
                    for length in 0..3 {
                        let (answer, _) = check_fill(real, cursor_after, over, length);
                        assert_eq!(answer, Err(Refusal::Compares));
                    }
                }
            }
        }
    }
}

/// A list that has just enough places is full, and nothing is looked at behind the last match. The
/// next call finds no more.
fn a_list_as_long_as_the_matches<E: Letter>() {
    let mut random = Random::fixed("a_list_as_long_as_the_matches");
    let real = silicon_available("a_list_as_long_as_the_matches");
    for number in 0..400 {
        let (n, m) = (random.below(200), random.below(4));
        let mut text: Vec<E> = text(&mut random, number % ALPHABETS, n);
        let needle = needle_for(&mut random, &text, number % ALPHABETS, m);
        plant(&mut random, &mut text, &needle);
        let (over, all) = ((&text[..], &needle[..]), positions(&text, &needle));
        let (answer, found) = check_fill(real, fresh(&text), over, all.len());
        let Ok(Filled { count, cursor, end: End::Full }) = answer else { panic!("{answer:?}") };
        assert_eq!(count, all.len());
        assert!(found.iter().map(|&position| position as usize).eq(all.iter().copied()));
        assert_eq!(cursor.position, all.last().map_or(0, |&last| last as u64 + 1));

        let after_all = Cursor { compares: list_compares(&text, &needle), exhausted: true, ..cursor };
        let ended = |count| Ok(Filled { count, cursor: after_all, end: End::Absent });
        assert_eq!(check_fill(real, cursor, over, 0).0, Ok(Filled { count: 0, cursor, end: End::Full }));
        assert_eq!(check_fill(real, cursor, over, 1).0, ended(0));
        assert_eq!(check_fill(real, fresh(&text), over, all.len() + 1).0, ended(all.len()));
    }
}

/// An empty list is full, and the cursor stays; a cursor that is refused is refused with it too.
fn an_empty_list<E: Letter>() {
    let real = silicon_available("an_empty_list");
    for n in [0, 1, E::BLOCK, 40] {
        let text: Vec<E> = one_letter(n);
        let n = n as u64;
        for needle in [&[][..], &[E::cut(0x5a5a)], &[E::cut(0)]] {
            let fill = |cursor| check_fill(real, cursor, (&text, needle), 0).0;
            for (position, compares) in [0, n, n + 1].into_iter().flat_map(|p| [0, 1, MOST_COMPARES].map(|c| (p, c))) {
                let cursor = Cursor { position, compares, ..fresh(&text) };
                assert_eq!(fill(cursor), Ok(Filled { count: 0, cursor, end: End::Full }));
                assert_eq!(fill(Cursor { exhausted: true, ..cursor }), Err(Refusal::Exhausted));
                assert_eq!(fill(Cursor { position: n + 2, ..cursor }), Err(Refusal::Position));
                assert_eq!(fill(Cursor { compares: MOST_COMPARES + 1, ..cursor }), Err(Refusal::Compares));
            }
        }
    }
}

/// With a stop of n, positions n and n + 1 are accepted, n + 2 is not. Absent leaves the position
/// after the last match, or where the call began.
fn positions_about_the_texts_end<E: Letter>() {
    let real = silicon_available("positions_about_the_texts_end");
    for n in 1..=2 * E::BLOCK + 1 {
        let text: Vec<E> = one_letter(n);
        let fill = |needle: &[E], position: usize| {
            let cursor = Cursor { position: position as u64, compares: 7, ..fresh(&text) };
            check_fill(real, cursor, (&text, needle), 3).0
        };
        let absent = |count, position: usize, compares| {
            let cursor = Cursor { position: position as u64, compares, exhausted: true, ..fresh(&text) };
            Ok(Filled { count, cursor, end: End::Absent })
        };
        assert_eq!(fill(&[], n - 1), absent(2, n + 1, 7));
        assert_eq!(fill(&[], n), absent(1, n + 1, 7));
        assert_eq!(fill(&text[..1], n - 1), absent(1, n, 8));
        assert_eq!(fill(&text[..1], n), absent(0, n, 7));
        for needle in [&[][..], &text[..1]] {
            assert_eq!(fill(needle, n + 1), absent(0, n + 1, 7));
            assert_eq!(fill(needle, n + 2), Err(Refusal::Position));
        }
    }
}

/// The longest text in one list that has a place for each of its positions, and one more.
fn the_longest_text<E: Letter>() {
    let mut random = Random::fixed("the_longest_text");
    let real = silicon_available("the_longest_text");
    let one: Vec<E> = one_letter(LONGEST_TEXT);
    for m in [0, 1, E::BLOCK + 1] {
        let matches = LONGEST_TEXT + 1 - m;
        let compares = (matches * m.div_ceil(E::BLOCK)) as u64;
        let cursor = Cursor { position: matches as u64, compares, exhausted: true, ..fresh(&one) };
        let (answer, found) = check_fill(real, fresh(&one), (&one, &one[..m]), LONGEST_TEXT + 2);
        assert_eq!(answer, Ok(Filled { count: matches, cursor, end: End::Absent }));
        assert!(found.into_iter().eq(0..matches as u64));
    }

    let mut drawn: Vec<E> = text(&mut random, TWO, LONGEST_TEXT);
    let needle: Vec<E> = text(&mut random, ANY, LONGEST_NEEDLE);
    let last = LONGEST_TEXT - LONGEST_NEEDLE;
    put(&mut drawn, 12_345, &needle);
    put(&mut drawn, last, &needle);
    let (answer, found) = check_fill(real, fresh(&drawn), (&drawn, &needle), 3);
    assert_eq!(found, [12_345, last as u64]);
    assert_eq!(answer.map(|filled| filled.end), Ok(End::Absent));
}

/// Each limit is accepted, and one more refused, for no other reason and for every length of list.
fn the_limits_and_one_more<E: Letter>() {
    let real = silicon_available("the_limits_and_one_more");
    let text: Vec<E> = one_letter(LONGEST_TEXT + 1);
    for length in [0, 1, 5] {
        let fill = |n: usize, m: usize| {
            let (answer, _) = check_fill(real, fresh(&text[..n]), (&text[..n], &text[..m]), length);
            answer.map(|filled| (filled.count, filled.end))
        };
        assert_eq!(fill(LONGEST_TEXT, 1), Ok((length, End::Full)));
        assert_eq!(fill(LONGEST_TEXT + 1, 1), Err(Refusal::Text));
        assert_eq!(fill(LONGEST_TEXT + 1, 0), Err(Refusal::Text));
        assert_eq!(fill(LONGEST_TEXT, LONGEST_NEEDLE), Ok((length, End::Full)));
        for n in [0, 1, LONGEST_NEEDLE, LONGEST_NEEDLE + 1, LONGEST_TEXT] {
            assert!(fill(n, LONGEST_NEEDLE).is_ok());
            assert_eq!(fill(n, LONGEST_NEEDLE + 1), Err(Refusal::Needle));
        }
    }
}

/// Every set of conditions, each one past its limit: the first in the order of the tests is given.
fn several_refusals_at_once<E: Letter>() {
    let real = silicon_available("several_refusals_at_once");
    let text: Vec<E> = one_letter(LONGEST_TEXT + 1);
    for (conditions, length) in (1..64usize).flat_map(|conditions| [0, 1, 5].map(|length| (conditions, length))) {
        let (n, m, cursor, first) = refused_for(conditions);
        let (answer, _) = check_fill(real, cursor, (&text[..n], &text[..m]), length);
        assert_eq!(answer, Err(first), "conditions {conditions:06b}, list of {length}");
    }
}

/// The iterator that takes its positions in lists: the first match costs its own compares alone;
/// later the lists are ahead by fewer matches than were given; at the end it is the whole search.
fn the_iterator_in_lists<E: Letter>() {
    let mut random = Random::fixed("the_iterator_in_lists");
    for number in 0..200 {
        let n = random.below(600);
        let mut text: Vec<E> = text(&mut random, number % ALPHABETS, n);
        let m = random.below(4);
        let needle = needle_for(&mut random, &text, number % ALPHABETS, m);
        plant(&mut random, &mut text, &needle);

        let all = positions(&text, &needle);
        let begins = std::iter::once(0).chain(all.iter().map(|position| position + 1));
        let walks: Vec<u64> = begins.map(|p| walk_compares(&text, &needle, p)).collect();
        let compares_of = |calls: usize| walks.iter().take(calls).sum::<u64>();

        let mut found = matches(&text, &needle).expect("accepted");
        assert_eq!(found.compares(), 0);
        for (given, &position) in all.iter().enumerate() {
            assert_eq!(found.next(), Some(position));
            let given = given + 1;
            assert!(found.compares() >= compares_of(given));
            assert!(found.compares() <= compares_of(2 * given - 1), "{} after {given}", found.compares());
            assert!(found.clone().eq(all[given..].iter().copied()));
        }
        for _ in 0..3 {
            assert_eq!(found.next(), None);
            assert_eq!(found.compares(), list_compares(&text, &needle));
        }
    }
}

#[test]
fn the_iterator_shows_what_is_ahead() {
    let mut found = matches(b"AAAA", b"A").expect("accepted");
    assert!(format!("{found:?}").contains("ahead: []"));
    assert_eq!((found.next(), found.next()), (Some(0), Some(1)));
    assert!(format!("{found:?}").contains("ahead: [2]"));
}

// ---- drawn cases

/// A fresh cursor, or one that no list of calls gives; often one whose compares come to be too many
/// before the last match.
fn draw_cursor<E: Letter>(random: &mut Random, text: &[E], needle: &[E]) -> Cursor {
    if random.one_in(3) {
        return fresh(text);
    }
    let n = text.len() as u64;
    let position = match random.below(16) {
        0 => u64::MAX - random.below(3) as u64,
        1 => random.draw(),
        2 => n + random.below(4) as u64,
        3..=7 => random.draw() % (n + 2),
        _ => 0,
    };
    let compares = match random.below(8) {
        0 => random.draw(),
        1 => u64::MAX - random.below(2) as u64,
        2 => MOST_COMPARES + 1,
        3 => random.draw() % (MOST_COMPARES + 1),
        4 => 0,
        _ => MOST_COMPARES - random.draw() % (list_compares(text, needle) + 2),
    };
    Cursor { position, compares, exhausted: random.one_in(16), stop: n }
}

/// Mixtures beside next matches alone, from fresh cursors and from made-up ones.
fn mixtures<E: Letter>(test: &str, count: usize, longest_text: usize) -> Tally {
    let mut random = Random::for_test(test);
    let mut tally = Tally::new();
    let real = silicon_available(test);
    for _ in 0..count {
        let alphabet = random.below(ALPHABETS);
        let n = random.size(E::BLOCK, longest_text);
        let m = if random.one_in(64) { LONGEST_NEEDLE + random.below(2) } else { random.size(E::BLOCK, 3 * E::BLOCK) };
        let m = if random.one_in(2) { random.below(4) } else { m };
        let mut text: Vec<E> = text(&mut random, alphabet, n);
        let needle = needle_for(&mut random, &text, alphabet, m);
        plant(&mut random, &mut text, &needle);
        let cursor = draw_cursor(&mut random, &text, &needle);
        let alone = next_matches(cursor, &text, &needle);
        let together = mixed((&mut random, &mut tally), real, cursor, (&text, &needle));
        assert!(together == alone, "{cursor:?}, {text:02x?}, needle {needle:02x?}: {together:?}, not {alone:?}");

        // After its end a list of calls is refused for ever.
        let (_, cursor, ended) = alone;
        for length in [0, 1, 4] {
            let (answer, _) = check_fill(real, cursor, (&text, &needle), length);
            assert_eq!(answer, Err(ended.err().unwrap_or(Refusal::Exhausted)));
        }
    }
    tally
}

fn each_ending_came_up(tally: &Tally) {
    let refusals = [Refusal::Needle, Refusal::Exhausted, Refusal::Position, Refusal::Compares];
    let refused = refusals.map(Err).into_iter().flat_map(|ended| [("an empty list", ended), ("a list", ended)]);
    let accepted = [End::Full, End::Absent, End::Stopped(Refusal::Compares)].map(|end| ("a list", Ok(end)));
    for (size, ended) in refused.chain(accepted).chain([("an empty list", Ok(End::Full))]) {
        assert!(tally.contains_key(&format!("{size}: {ended:?}")), "{size}: {ended:?} never came up");
    }
}

#[test]
fn short_texts_in_bytes() {
    each_ending_came_up(&mixtures::<u8>("short_texts_in_bytes", 100_000, 100));
}

#[test]
fn short_texts_in_words() {
    each_ending_came_up(&mixtures::<u16>("short_texts_in_words", 100_000, 100));
}

#[test]
fn longer_texts_in_bytes() {
    mixtures::<u8>("longer_texts_in_bytes", 4_000, 2000);
}

#[test]
fn longer_texts_in_words() {
    mixtures::<u16>("longer_texts_in_words", 4_000, 2000);
}
