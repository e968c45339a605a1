//! Texts and needles to search; a call of the search and a list of calls, held to the same walk on
//! the processor's instructions and to brute force.

use hirtxonda::{matches, matches_until, Cursor, Next, Refusal, LONGEST_NEEDLE, LONGEST_TEXT, MOST_COMPARES};

use super::{positions, search_refusal, stands, up_to_stop, walk_compares, Letter, Random};

/// A needle of m elements: drawn alone, or a part of the text, perhaps with one bit of one element
/// changed.
pub fn needle_for<E: Letter>(random: &mut Random, text: &[E], alphabet: usize, m: usize) -> Vec<E> {
    let mut needle = super::text(random, alphabet, m);
    if m > 0 && m <= text.len() && !random.one_in(4) {
        let at = random.below(text.len() - m + 1);
        needle.copy_from_slice(&text[at..at + m]);
        if random.one_in(3) {
            flip(random, &mut needle);
        }
    }
    needle
}

/// Another value for one element, alike in all bits but one.
fn flip<E: Letter>(random: &mut Random, part: &mut [E]) {
    let element = random.pick(&(0..part.len()).collect::<Vec<_>>());
    let bits = 1u64 << random.below(8 * std::mem::size_of::<E>());
    part[element] = E::cut(part[element].unsigned() as u64 ^ bits);
}

/// Copies of the needle in the text, some with a flaw in one element; half of these flaws stand
/// after the first piece, so that later pieces are compared.
pub fn plant<E: Letter>(random: &mut Random, text: &mut [E], needle: &[E]) {
    if needle.is_empty() || needle.len() > text.len() {
        return;
    }
    for _ in 0..random.below(4) {
        let at = random.below(text.len() - needle.len() + 1);
        let place = &mut text[at..at + needle.len()];
        place.copy_from_slice(needle);
        if random.one_in(2) {
            let from = if random.one_in(2) { 0 } else { (place.len() - 1).min(E::BLOCK) };
            flip(random, &mut place[from..]);
        }
    }
}

/// What a call must answer, by comparing elements one by one.
pub fn expected<E: Letter>(cursor: Cursor, text: &[E], needle: &[E]) -> Result<Next, Refusal> {
    if let Some(refusal) = search_refusal(text.len(), needle.len(), cursor) {
        return Err(refusal);
    }
    let text = up_to_stop(cursor, text);
    let from = cursor.position as usize;
    let compares = cursor.compares + walk_compares(text, needle, from);
    Ok(match (from..=text.len()).find(|&position| stands(text, needle, position)) {
        Some(position) => {
            Next::Match { position, cursor: Cursor { position: position as u64 + 1, compares, ..cursor } }
        }
        None => Next::Absent { cursor: Cursor { compares, exhausted: true, ..cursor } },
    })
}

/// The same call by the instructions, where the processor has them.
pub fn on_silicon<E: Letter>(real: bool, cursor: Cursor, text: &[E], needle: &[E]) -> Option<Result<Next, Refusal>> {
    #[cfg(target_arch = "x86_64")]
    return real.then(|| hirtxonda::silicon::next(cursor, text, needle));
    #[cfg(not(target_arch = "x86_64"))]
    return None;
}

/// One call, three ways.
pub fn check_call<E: Letter>(real: bool, cursor: Cursor, text: &[E], needle: &[E]) -> Result<Next, Refusal> {
    let next = cursor.next(text, needle);
    let what = || format!("{cursor:?}, n = {}, needle {needle:02x?}", text.len());
    if let Some(by_instructions) = on_silicon(real, cursor, text, needle) {
        assert_eq!(next, by_instructions, "against the instructions: {}", what());
    }
    assert_eq!(next, expected(cursor, text, needle), "against brute force: {}", what());
    next
}

/// A whole list of calls from a fresh cursor, and the iterators over the same text and needle.
pub fn check_list<E: Letter>(real: bool, text: &[E], needle: &[E]) {
    let (found, compares) = calls_until(real, text, needle, text.len());
    check_iterator(matches(text, needle), &found, compares);
    #[cfg(target_arch = "x86_64")]
    if real {
        check_iterator(hirtxonda::silicon::matches(text, needle), &found, compares);
    }
}

/// The same up to a stop. Gives the positions.
pub fn check_list_until<E: Letter>(real: bool, text: &[E], needle: &[E], stop: usize) -> Vec<usize> {
    let (found, compares) = calls_until(real, text, needle, stop);
    check_iterator(matches_until(text, needle, stop), &found, compares);
    #[cfg(target_arch = "x86_64")]
    if real {
        check_iterator(hirtxonda::silicon::matches_until(text, needle, stop), &found, compares);
    }
    found
}

/// A list of calls from a fresh cursor with this stop: the positions, and the compares in all.
fn calls_until<E: Letter>(real: bool, text: &[E], needle: &[E], stop: usize) -> (Vec<usize>, u64) {
    let mut cursor = Cursor::fresh(stop as u64);
    let mut found = Vec::new();
    while let Next::Match { position, cursor: following } = check_call(real, cursor, text, needle).expect("accepted") {
        found.push(position);
        cursor = following;
    }
    let Ok(Next::Absent { cursor }) = cursor.next(text, needle) else { panic!("a list ends with absent") };
    assert_eq!(check_call(real, cursor, text, needle), Err(Refusal::Exhausted));
    let front = &text[..stop];
    assert_eq!(found, positions(front, needle));
    assert!(cursor.compares <= most_compares(front, needle), "{} compares", cursor.compares);
    (found, cursor.compares)
}

/// Document 01's bound of a list's compares.
fn most_compares<E: Letter>(text: &[E], needle: &[E]) -> u64 {
    let places = (text.len() + 1).saturating_sub(needle.len());
    (places * needle.len().div_ceil(E::BLOCK)) as u64
}

fn check_iterator<E: Letter>(matches: Result<hirtxonda::Matches<'_, E>, Refusal>, found: &[usize], compares: u64) {
    let mut matches = matches.expect("accepted");
    assert!(matches.by_ref().eq(found.iter().copied()));
    assert_eq!(matches.next(), None);
    assert_eq!(matches.compares(), compares);
}

/// A call that is refused for each condition whose bit is set, in the order of the tests: 2, 3, 21,
/// 31, 22, 23. Gives the lengths of text and needle, the cursor, and the first of the numbers. A
/// position is refused where the text's length would accept it, if the stop allows that.
pub fn refused_for(conditions: usize) -> (usize, usize, Cursor, Refusal) {
    let order =
        [Refusal::Text, Refusal::Needle, Refusal::Exhausted, Refusal::Stop, Refusal::Position, Refusal::Compares];
    let holds = |refusal| order.iter().position(|&each| each == refusal).is_some_and(|bit| conditions >> bit & 1 == 1);
    let n = if holds(Refusal::Text) { LONGEST_TEXT + 1 } else { 20 };
    let m = if holds(Refusal::Needle) { LONGEST_NEEDLE + 1 } else { 1 };
    let stop = if holds(Refusal::Stop) { n + 1 } else { n / 2 } as u64;
    let cursor = Cursor {
        position: if holds(Refusal::Position) { stop + 2 } else { 0 },
        compares: if holds(Refusal::Compares) { MOST_COMPARES + 1 } else { 0 },
        exhausted: holds(Refusal::Exhausted),
        stop,
    };
    (n, m, cursor, order[conditions.trailing_zeros() as usize])
}
