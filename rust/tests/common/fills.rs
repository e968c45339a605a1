//! A fill of a list, held to the same fill on the processor's instructions and to brute force; and
//! lists of calls in which fills and next matches are mixed.

use std::collections::HashMap;

use hirtxonda::{Cursor, End, Filled, Next, Refusal, MOST_COMPARES};

use super::search::check_call;
use super::{search_refusal, stands, up_to_stop, walk_compares, Letter, Random};

/// What stands in each place of a list before a call.
const BEFORE: u64 = 0xa5a5_a5a5_a5a5_a5a5;

/// [`Cursor::fill`], or the same by the instructions.
pub type Fill<E> = fn(Cursor, &[E], &[E], &mut [u64]) -> Result<Filled, Refusal>;

/// The answer of a fill, and the positions that it found.
pub type Answer = (Result<Filled, Refusal>, Vec<u64>);

/// A fill of a list of so many places. The rest of the list, and the places beside it, must be as
/// they were.
pub fn run<E: Letter>(fill: Fill<E>, cursor: Cursor, (text, needle): (&[E], &[E]), length: usize) -> Answer {
    let mut places = vec![BEFORE; length + 2];
    let answer = fill(cursor, text, needle, &mut places[1..=length]);
    let found = answer.map_or(0, |filled| filled.count);
    assert!(found <= length, "{found} positions in a list of {length}");
    assert_eq!(places[0], BEFORE, "before the list");
    let changed = places[1 + found..].iter().position(|&place| place != BEFORE);
    assert_eq!(changed, None, "after {found} positions in a list of {length}");
    (answer, places[1..=found].to_vec())
}

/// What a fill must answer and find, by comparing elements one by one. The compares of each match
/// are added up; with too many of them no further match is looked for.
pub fn expected<E: Letter>(cursor: Cursor, (text, needle): (&[E], &[E]), length: usize) -> Answer {
    if let Some(refusal) = search_refusal(text.len(), needle.len(), cursor) {
        return (Err(refusal), Vec::new());
    }
    let text = up_to_stop(cursor, text);
    let mut cursor = cursor;
    let mut found = Vec::new();
    let compares_from = |cursor: Cursor| walk_compares(text, needle, cursor.position as usize);
    for position in (cursor.position as usize..=text.len()).filter(|&p| stands(text, needle, p)).take(length) {
        if cursor.compares > MOST_COMPARES {
            break;
        }
        cursor.compares += compares_from(cursor);
        cursor.position = position as u64 + 1;
        found.push(position as u64);
    }
    let end = if found.len() == length {
        End::Full
    } else if cursor.compares > MOST_COMPARES {
        End::Stopped(Refusal::Compares)
    } else {
        cursor.compares += compares_from(cursor);
        cursor.exhausted = true;
        End::Absent
    };
    (Ok(Filled { count: found.len(), cursor, end }), found)
}

pub fn check_fill<E: Letter>(real: bool, cursor: Cursor, over: (&[E], &[E]), length: usize) -> Answer {
    let given = run(Cursor::fill, cursor, over, length);
    let check = |wanted: Answer, whose: &str| {
        let what = || format!("{cursor:?}, n = {}, needle {:02x?}, list of {length}", over.0.len(), over.1);
        assert_eq!(given.0, wanted.0, "against {whose}: {}", what());
        let differs = given.1.iter().zip(&wanted.1).position(|(given, wanted)| given != wanted);
        assert_eq!(differs, None, "against {whose}: {}", what());
    };
    #[cfg(target_arch = "x86_64")]
    if real {
        check(run(hirtxonda::silicon::fill, cursor, over, length), "the instructions");
    }
    check(expected(cursor, over, length), "brute force");
    given
}

/// How a list of calls over one text and needle ended: with no more match, or refused.
pub type Ended = Result<(), Refusal>;

/// Next matches alone, up to the call that gives none: their positions, the last cursor, the end.
pub fn next_matches<E: Letter>(mut cursor: Cursor, text: &[E], needle: &[E]) -> (Vec<u64>, Cursor, Ended) {
    let mut found = Vec::new();
    loop {
        match cursor.next(text, needle) {
            Ok(Next::Match { position, cursor: following }) => {
                found.push(position as u64);
                cursor = following;
            }
            Ok(Next::Absent { cursor }) => return (found, cursor, Ok(())),
            Err(refusal) => return (found, cursor, Err(refusal)),
        }
    }
}

/// How often a call has ended so.
pub type Tally = HashMap<String, usize>;

/// The same with next matches and fills mixed, each with the cursor of the last and each held to
/// brute force and to the instructions.
pub fn mixed<E: Letter>(
    (random, tally): (&mut Random, &mut Tally),
    real: bool,
    mut cursor: Cursor,
    (text, needle): (&[E], &[E]),
) -> (Vec<u64>, Cursor, Ended) {
    let mut found = Vec::new();
    loop {
        let length = match random.below(4) {
            0 => random.pick(&[0, 1]),
            1 => random.below(12),
            2 => random.below(text.len() + 3),
            _ => {
                match check_call(real, cursor, text, needle) {
                    Ok(Next::Match { position, cursor: following }) => {
                        found.push(position as u64);
                        cursor = following;
                    }
                    Ok(Next::Absent { cursor }) => return (found, cursor, Ok(())),
                    Err(refusal) => return (found, cursor, Err(refusal)),
                }
                continue;
            }
        };
        let (answer, more) = check_fill(real, cursor, (text, needle), length);
        let size = if length == 0 { "an empty list" } else { "a list" };
        *tally.entry(format!("{size}: {:?}", answer.map(|filled| filled.end))).or_insert(0) += 1;
        found.extend(more);
        match answer {
            Ok(Filled { cursor: following, end: End::Full, .. }) => cursor = following,
            Ok(Filled { cursor, end: End::Absent, .. }) => return (found, cursor, Ok(())),
            Ok(Filled { cursor, end: End::Stopped(refusal), .. }) => return (found, cursor, Err(refusal)),
            Err(refusal) => return (found, cursor, Err(refusal)),
        }
    }
}
