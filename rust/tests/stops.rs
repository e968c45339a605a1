//! Stops: the search is that of the text's first `stop` elements. Each call is held to the same on
//! the processor's instructions and to brute force over these elements; and to the call itself over
//! the text cut at the stop, and over texts that go on in another way. `refusals.rs` has the raw
//! calls.

mod common;

use common::fills::{check_fill, mixed, next_matches, run, Tally};
use common::search::{check_call, check_list_until, needle_for, on_silicon, plant};
use common::{fresh, in_both_widths, list_compares, positions, put, silicon_available, text, up_to_stop};
use common::{Letter, Random, ALPHABETS, ENDS, ONE, TWO};
use hirtxonda::{matches, matches_until, Cursor, End, Filled, Matches, Next, Refusal};
use hirtxonda::{LONGEST_NEEDLE, LONGEST_TEXT, MOST_COMPARES};

in_both_widths! {
    every_stop_of_short_texts
    a_needle_over_the_stop
    compares_up_to_the_stop
    positions_about_the_stop
    stops_about_the_texts_length
    endings_about_the_most_compares
    stops_of_the_longest_text
    another_text_for_a_cursor
    a_stop_that_is_raised
    matches_up_to_a_stop
    refusals_of_matches_up_to_a_stop
}

fn one_letter<E: Letter>(n: usize) -> Vec<E> {
    vec![E::cut(0x5a5a); n]
}

/// Sizes of needles about the edges of a piece.
fn sizes<E: Letter>() -> [usize; 9] {
    let b = E::BLOCK;
    [1, 2, 3, b - 1, b, b + 1, 2 * b, 2 * b + 1, 3 * b - 1]
}

// ---- one call over texts that are alike up to the stop

/// Texts that begin so. After it comes nothing; the needle's rest, for the longest of its fronts
/// that stands there, and the needle again; bits that are all zero, or all one.
fn that_begin<E: Letter>(front: &[E], needle: &[E]) -> Vec<Vec<E>> {
    let stands = (0..needle.len()).rev().find(|&k| front.ends_with(&needle[..k])).unwrap_or(0);
    let alike = |bits: u64| vec![E::cut(bits); 2 * E::BLOCK + 1];
    let rests = [Vec::new(), [&needle[stands..], needle].concat(), alike(0), alike(u64::MAX)];
    rests.map(|rest| [front, &rest].concat()).into()
}

/// A next match and fills of several lengths, each three ways; and the same over the other texts.
/// No call changes the stop.
fn check_calls<E: Letter>(real: bool, cursor: Cursor, (text, needle): (&[E], &[E]), others: &[Vec<E>]) {
    let answer = check_call(real, cursor, text, needle);
    let after = match answer.expect("accepted") {
        Next::Match { cursor, .. } | Next::Absent { cursor } => cursor,
    };
    assert_eq!(after.stop, cursor.stop);
    for other in others {
        assert_eq!(cursor.next(other, needle), answer, "{cursor:?}, {other:02x?}, needle {needle:02x?}");
        assert!(on_silicon(real, cursor, other, needle).is_none_or(|by_instructions| by_instructions == answer));
    }
    for length in [0, 1, 2, text.len() + 2] {
        let given = check_fill(real, cursor, (text, needle), length);
        assert_eq!(given.0.expect("accepted").cursor.stop, cursor.stop);
        for other in others {
            let over_other = run(Cursor::fill, cursor, (other, needle), length);
            assert_eq!(over_other, given, "{cursor:?}, {other:02x?}, needle {needle:02x?}, list of {length}");
        }
    }
}

// ---- the same cases in every run

/// Every stop up to n, with every position that is accepted: a stop inside a needle that stands
/// there, inside a block, at its edges, at 0 and at n.
fn every_stop_of_short_texts<E: Letter>() {
    let mut random = Random::fixed("every_stop_of_short_texts");
    let real = silicon_available("every_stop_of_short_texts");
    let b = E::BLOCK;
    let sizes = [0, 1, 2, 5, b - 1, b, b + 1, 2 * b - 1, 2 * b, 2 * b + 1];
    for (n, m) in sizes.into_iter().flat_map(|n| [0, 1, 2, 3, b - 1, b, b + 1].map(|m| (n, m))) {
        let alphabet = random.pick(&[TWO, ONE, ENDS]);
        let needle: Vec<E> = text(&mut random, alphabet, m);
        let mut text = text(&mut random, alphabet, n);
        put(&mut text, random.below(n + 1), &needle);
        for stop in 0..=n {
            let others = that_begin(&text[..stop], &needle);
            assert_eq!(check_list_until(real, &text, &needle, stop), positions(&text[..stop], &needle));
            for position in 0..=stop as u64 + 1 {
                let cursor = Cursor { position, ..Cursor::fresh(stop as u64) };
                check_calls(real, cursor, (&text, &needle), &others);
            }
        }
    }
}

/// A needle at each offset of a block, alone or after a first one, and every stop inside it. It is
/// a match from the stop on that is its end.
fn a_needle_over_the_stop<E: Letter>() {
    let real = silicon_available("a_needle_over_the_stop");
    for (m, offset) in sizes::<E>().into_iter().flat_map(|m| (0..2 * E::BLOCK).map(move |offset| (m, offset))) {
        let needle: Vec<E> = (1..=m as u64).map(E::cut).collect();
        for before in [&[][..], &needle] {
            let at = before.len() + offset;
            let text = [before, &one_letter(offset), &needle, &one_letter(3)].concat();
            let first = (!before.is_empty()).then_some(0);
            for stop in at..=at + m + 1 {
                let second = (stop >= at + m).then_some(at);
                let wanted: Vec<usize> = first.into_iter().chain(second).collect();
                assert_eq!(check_list_until(real, &text, &needle, stop), wanted, "m = {m} at {at}, stop {stop}");
            }
        }
    }
}

/// Where each place is a match, a compare for each of its pieces; where none is, a compare for each
/// block up to the stop.
fn compares_up_to_the_stop<E: Letter>() {
    let real = silicon_available("compares_up_to_the_stop");
    let text: Vec<E> = one_letter(4 * E::BLOCK);
    let compares = |needle: &[E], stop: usize, list: usize| {
        let (answer, found) = check_fill(real, Cursor::fresh(stop as u64), (&text, needle), list);
        let cursor = answer.expect("accepted").cursor;
        assert!(cursor.exhausted);
        (found.len(), cursor.compares)
    };
    for stop in 0..=text.len() {
        for m in sizes::<E>() {
            let places = (stop + 1).saturating_sub(m);
            let wanted = (places, (places * m.div_ceil(E::BLOCK)) as u64);
            assert_eq!(compares(&text[..m], stop, text.len() + 2), wanted, "m = {m}, stop {stop}");
        }
        assert_eq!(compares(&[], stop, text.len() + 2), (stop + 1, 0));
        assert_eq!(compares(&[E::cut(0)], stop, 1), (0, stop.div_ceil(E::BLOCK) as u64), "stop {stop}");
    }
}

/// Positions stop and stop + 1 are accepted, stop + 2 is not, however long the text.
fn positions_about_the_stop<E: Letter>() {
    let real = silicon_available("positions_about_the_stop");
    for (stop, more) in (1..=2 * E::BLOCK + 1).flat_map(|stop| [0, 1, 2, E::BLOCK].map(|more| (stop, more))) {
        let text: Vec<E> = one_letter(stop + more);
        let at = |position: usize| Cursor { position: position as u64, compares: 7, ..Cursor::fresh(stop as u64) };
        let next = |needle, position| check_call(real, at(position), &text, needle);
        let fill = |needle, position, length| check_fill(real, at(position), (&text, needle), length);
        let match_at = |position, compares| {
            let cursor = Cursor { position: position as u64 + 1, compares, ..at(0) };
            Ok(Next::Match { position, cursor })
        };
        let absent = |position, compares| Cursor { compares, exhausted: true, ..at(position) };
        let absent_from = |position, compares| Ok(Next::Absent { cursor: absent(position, compares) });
        let filled =
            |count, position, compares| Ok(Filled { count, cursor: absent(position, compares), end: End::Absent });
        let one = &text[..1];
        assert_eq!(next(&[], stop), match_at(stop, 7));
        assert_eq!(next(one, stop - 1), match_at(stop - 1, 8));
        assert_eq!(next(one, stop), absent_from(stop, 7));
        assert_eq!(fill(&[], stop - 1, 3).0, filled(2, stop + 1, 7));
        assert_eq!(fill(one, stop - 1, 3).0, filled(1, stop, 8));
        for needle in [&[][..], one] {
            assert_eq!(next(needle, stop + 1), absent_from(stop + 1, 7));
            assert_eq!(next(needle, stop + 2), Err(Refusal::Position));
            assert_eq!(fill(needle, stop + 1, 3).0, filled(0, stop + 1, 7));
            for length in [0, 1, 3] {
                assert_eq!(fill(needle, stop + 2, length).0, Err(Refusal::Position));
            }
        }
    }
}

/// A stop of n is accepted, and every higher one refused: before a position and compares that are
/// refused too, and after an exhausted cursor. None of them wraps.
fn stops_about_the_texts_length<E: Letter>() {
    let real = silicon_available("stops_about_the_texts_length");
    for n in [0, 1, E::BLOCK, 40] {
        let text: Vec<E> = one_letter(n);
        let check = |cursor, needle: &[E], refusal| {
            assert_eq!(check_call(real, cursor, &text, needle).err(), refusal, "{cursor:?}, n = {n}");
            for length in [0, 1, 5] {
                let (answer, _) = check_fill(real, cursor, (&text, needle), length);
                assert_eq!(answer.err(), refusal, "{cursor:?}, n = {n}, list of {length}");
            }
        };
        let n = n as u64;
        for needle in [&[][..], &[E::cut(0x5a5a)], &[E::cut(0)]] {
            for stop in 0..=n {
                check(Cursor::fresh(stop), needle, None);
                check(Cursor { position: stop + 1, ..Cursor::fresh(stop) }, needle, None);
                for position in [stop + 2, n + 2, 1 << 63, u64::MAX] {
                    check(Cursor { position, ..Cursor::fresh(stop) }, needle, Some(Refusal::Position));
                }
            }
            for stop in [n + 1, n + 2, 1 << 32, 1 << 63, u64::MAX - 1, u64::MAX] {
                let about = [0, 1, 2, 3].map(|more| stop.wrapping_add(more));
                for position in [0, n, n + 1, n + 2, u64::MAX].into_iter().chain(about) {
                    for compares in [0, MOST_COMPARES + 1] {
                        let cursor = Cursor { position, compares, ..Cursor::fresh(stop) };
                        check(cursor, needle, Some(Refusal::Stop));
                        check(Cursor { exhausted: true, ..cursor }, needle, Some(Refusal::Exhausted));
                    }
                }
            }
        }
    }
}

/// A needle that stands at each place, also past the stop. A fill ends by what comes first: the
/// list's end, one compare too many, the last match before the stop.
fn endings_about_the_most_compares<E: Letter>() {
    let real = silicon_available("endings_about_the_most_compares");
    for (m, each) in [(1, 1), (E::BLOCK, 1), (E::BLOCK + 1, 2)] {
        let text: Vec<E> = one_letter(m + 9);
        for (matches, left) in (1..=4).flat_map(|matches| (0..=9).map(move |left| (matches, left))) {
            let fresh = Cursor::fresh((m - 1 + matches) as u64);
            let cursor = Cursor { compares: MOST_COMPARES - left as u64, ..fresh };
            let accepted = left / each + 1;
            for length in 0..=matches + 2 {
                let (count, end) = match () {
                    _ if length <= accepted.min(matches) => (length, End::Full),
                    _ if accepted <= matches => (accepted, End::Stopped(Refusal::Compares)),
                    _ => (matches, End::Absent),
                };
                let (position, compares) = (count as u64, cursor.compares + (count * each) as u64);
                let after = Cursor { position, compares, exhausted: end == End::Absent, ..cursor };
                let (answer, _) = check_fill(real, cursor, (&text, &text[..m]), length);
                assert_eq!(answer, Ok(Filled { count, cursor: after, end }));
            }
        }
    }
}

/// Stops at both ends of the longest text, in one list that has a place for each position.
fn stops_of_the_longest_text<E: Letter>() {
    let real = silicon_available("stops_of_the_longest_text");
    let text: Vec<E> = one_letter(LONGEST_TEXT);
    for m in [0, 1, E::BLOCK + 1] {
        for stop in [0, 1, E::BLOCK, LONGEST_TEXT - 1, LONGEST_TEXT] {
            let places = (stop + 1).saturating_sub(m);
            let compares = (places * m.div_ceil(E::BLOCK)) as u64;
            let cursor = Cursor::fresh(stop as u64);
            let (answer, found) = check_fill(real, cursor, (&text, &text[..m]), LONGEST_TEXT + 2);
            let after = Cursor { position: places as u64, compares, exhausted: true, ..cursor };
            assert_eq!(answer, Ok(Filled { count: places, cursor: after, end: End::Absent }));
            assert!(found.into_iter().eq(0..places as u64));
        }
    }
    for stop in [LONGEST_TEXT as u64 + 1, u64::MAX] {
        assert_eq!(check_call(real, Cursor::fresh(stop), &text, &text[..1]), Err(Refusal::Stop));
    }
}

/// A cursor on its way over another text: one that is shorter than the stop is refused, in one that
/// is longer the stop still holds.
fn another_text_for_a_cursor<E: Letter>() {
    let real = silicon_available("another_text_for_a_cursor");
    let text: Vec<E> = one_letter(3 * E::BLOCK);
    for stop in 1..2 * E::BLOCK {
        let Ok(Next::Match { cursor, .. }) = fresh(&text[..stop]).next(&text[..stop], &text[..1]) else { panic!() };
        for n in 0..=text.len() {
            let over = (&text[..n], &text[..1]);
            let (next, (fill, _)) = (check_call(real, cursor, over.0, over.1), check_fill(real, cursor, over, n + 1));
            assert_eq!(next.err(), (n < stop).then_some(Refusal::Stop), "n = {n}, {cursor:?}");
            match fill {
                Ok(filled) => assert_eq!((filled.count, filled.end), (stop - 1, End::Absent)),
                Err(refusal) => assert_eq!((refusal, n < stop), (Refusal::Stop, true)),
            }
        }
    }
}

/// After absent, the same cursor with a higher stop goes on: from volume to volume every position
/// is found, in order and once, also where the needle stands over a stop.
fn a_stop_that_is_raised<E: Letter>() {
    let mut random = Random::fixed("a_stop_that_is_raised");
    let real = silicon_available("a_stop_that_is_raised");
    for number in 0..200 {
        let (n, m) = (random.below(100), random.below(4));
        let mut text: Vec<E> = text(&mut random, number % ALPHABETS, n);
        let needle = needle_for(&mut random, &text, number % ALPHABETS, m);
        plant(&mut random, &mut text, &needle);
        let mut cursor = Cursor::fresh(0);
        let mut found = Vec::new();
        let steps: Vec<usize> = (0..=n).filter(|_| random.one_in(1 + number % 20)).chain([n]).collect();
        for stop in steps {
            cursor = Cursor { stop: stop as u64, exhausted: false, ..cursor };
            let (answer, more) = check_fill(real, cursor, (&text, &needle), n + 2);
            found.extend(more.into_iter().map(|position| position as usize));
            assert_eq!(found, positions(&text[..stop], &needle));
            cursor = answer.expect("accepted").cursor;
            assert!(cursor.exhausted);
        }
    }
}

/// Two iterators that must give the same, with the same compares at each step.
fn alike<E: Letter>(mut one: Matches<'_, E>, mut other: Matches<'_, E>) {
    let mut ended = false;
    while !ended {
        let given = one.next();
        assert_eq!(given, other.next());
        assert_eq!(one.compares(), other.compares());
        ended = given.is_none();
    }
}

/// The iterator up to a stop is that over the cut text.
fn matches_up_to_a_stop<E: Letter>() {
    let mut random = Random::fixed("matches_up_to_a_stop");
    let real = silicon_available("matches_up_to_a_stop");
    for number in 0..300 {
        let (n, m) = (random.below(300), random.below(4));
        let mut text: Vec<E> = text(&mut random, number % ALPHABETS, n);
        let needle = needle_for(&mut random, &text, number % ALPHABETS, m);
        plant(&mut random, &mut text, &needle);
        for stop in [0, random.below(n + 1), random.below(n + 1), n] {
            let cut = &text[..stop];
            let until = || matches_until(&text, &needle, stop).expect("accepted");
            assert!(until().eq(positions(cut, &needle)));
            alike(until(), matches(cut, &needle).expect("accepted"));
            #[cfg(target_arch = "x86_64")]
            if real {
                alike(until(), hirtxonda::silicon::matches_until(&text, &needle, stop).expect("accepted"));
            }
        }
    }
}

/// 2, 3 and 31 in this order, before the first position is asked for.
fn refusals_of_matches_up_to_a_stop<E: Letter>() {
    let real = silicon_available("refusals_of_matches_up_to_a_stop");
    let text: Vec<E> = one_letter(LONGEST_TEXT + 1);
    let refusal = |n: usize, m: usize, stop: usize| {
        let given = matches_until(&text[..n], &text[..m], stop).err();
        #[cfg(target_arch = "x86_64")]
        if real {
            assert_eq!(hirtxonda::silicon::matches_until(&text[..n], &text[..m], stop).err(), given);
        }
        given
    };
    for n in [0, 1, 40, LONGEST_TEXT] {
        for m in [0, 1, LONGEST_NEEDLE] {
            for stop in [0, n / 2, n] {
                assert_eq!(refusal(n, m, stop), None);
            }
            for stop in [n + 1, n + 2, 1 << 63, usize::MAX] {
                assert_eq!(refusal(n, m, stop), Some(Refusal::Stop));
            }
        }
        for stop in [0, n, n + 1, usize::MAX] {
            assert_eq!(refusal(n, LONGEST_NEEDLE + 1, stop), Some(Refusal::Needle));
        }
    }
    for (m, stop) in [0, LONGEST_NEEDLE + 1].into_iter().flat_map(|m| [0, LONGEST_TEXT + 2].map(|stop| (m, stop))) {
        assert_eq!(refusal(LONGEST_TEXT + 1, m, stop), Some(Refusal::Text));
    }
}

// ---- drawn cases

/// A stop: mostly within the text; also above its length, and any number.
fn draw_stop(random: &mut Random, n: usize) -> u64 {
    match random.below(32) {
        0 => u64::MAX - random.below(3) as u64,
        1 => random.draw(),
        2 => n as u64 + random.below(4) as u64,
        3..=5 => n as u64,
        6 => 0,
        _ => random.below(n + 1) as u64,
    }
}

/// A fresh cursor with this stop, or one that no list of calls gives.
fn draw_cursor<E: Letter>(random: &mut Random, (text, needle): (&[E], &[E]), stop: u64) -> Cursor {
    if random.one_in(3) {
        return Cursor::fresh(stop);
    }
    let position = match random.below(8) {
        0 => random.draw(),
        1 => stop.wrapping_add(random.below(4) as u64),
        2..=4 => random.below(text.len() + 2) as u64,
        _ => 0,
    };
    let compares = match random.below(4) {
        0 => random.draw() % (2 * MOST_COMPARES),
        1 => MOST_COMPARES - random.draw() % (list_compares(text, needle) + 2),
        _ => 0,
    };
    Cursor { position, compares, exhausted: random.one_in(16), stop }
}

/// Next matches and fills mixed, beside next matches alone; beside these over the text cut at the
/// stop, and with another rest.
fn mixtures<E: Letter>(test: &str, count: usize, longest_text: usize) -> Tally {
    let mut random = Random::for_test(test);
    let mut tally = Tally::new();
    let real = silicon_available(test);
    for _ in 0..count {
        let alphabet = random.below(ALPHABETS);
        let n = random.size(E::BLOCK, longest_text);
        let m = if random.one_in(64) { LONGEST_NEEDLE + random.below(2) } else { random.size(E::BLOCK, 3 * E::BLOCK) };
        let m = if random.one_in(2) { random.below(4) } else { m };
        let mut text: Vec<E> = text(&mut random, alphabet, n);
        let needle = needle_for(&mut random, &text, alphabet, m);
        plant(&mut random, &mut text, &needle);
        let stop = draw_stop(&mut random, n);
        if stop <= n as u64 && random.one_in(2) {
            put(&mut text, (stop as usize).saturating_sub(random.below(m + 1)), &needle);
        }
        let cursor = draw_cursor(&mut random, (&text, &needle), stop);
        let alone = next_matches(cursor, &text, &needle);
        let together = mixed((&mut random, &mut tally), real, cursor, (&text, &needle));
        assert!(together == alone, "{cursor:?}, {text:02x?}, needle {needle:02x?}: {together:?}, not {alone:?}");
        assert_eq!(alone.1.stop, stop);
        if stop <= n as u64 {
            let cut = up_to_stop(cursor, &text);
            let more = random.below(3 * E::BLOCK);
            let other = [cut, &common::text(&mut random, alphabet, more)].concat();
            for changed in [cut, &other] {
                let given = next_matches(cursor, changed, &needle);
                assert!(given == alone, "{cursor:?}, {text:02x?}, then {changed:02x?}, needle {needle:02x?}");
            }
        }
    }
    tally
}

fn each_ending_came_up(tally: &Tally) {
    let refusals = [Refusal::Needle, Refusal::Exhausted, Refusal::Stop, Refusal::Position, Refusal::Compares];
    let refused = refusals.map(Err).into_iter().flat_map(|ended| [("an empty list", ended), ("a list", ended)]);
    let accepted = [End::Full, End::Absent, End::Stopped(Refusal::Compares)].map(|end| ("a list", Ok(end)));
    for (size, ended) in refused.chain(accepted).chain([("an empty list", Ok(End::Full))]) {
        assert!(tally.contains_key(&format!("{size}: {ended:?}")), "{size}: {ended:?} never came up");
    }
}

#[test]
fn short_texts_in_bytes() {
    each_ending_came_up(&mixtures::<u8>("short_texts_in_bytes", 100_000, 100));
}

#[test]
fn short_texts_in_words() {
    each_ending_came_up(&mixtures::<u16>("short_texts_in_words", 100_000, 100));
}

#[test]
fn longer_texts_in_bytes() {
    mixtures::<u8>("longer_texts_in_bytes", 4_000, 2000);
}

#[test]
fn longer_texts_in_words() {
    mixtures::<u16>("longer_texts_in_words", 4_000, 2000);
}
