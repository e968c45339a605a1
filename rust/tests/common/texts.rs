//! Leading runs and the order of two texts in plain Rust, and the calls held to them.

use std::cmp::Ordering;

use hirtxonda::{compare, lesser, range_span, span, Signedness};

use super::Letter;

pub const BOTH: [Signedness; 2] = [Signedness::Unsigned, Signedness::Signed];

pub fn front<E: Letter>(text: &[E], belongs: impl Fn(E) -> bool) -> &[E] {
    &text[..text.iter().position(|&element| !belongs(element)).unwrap_or(text.len())]
}

pub fn in_ranges<E: Letter>(element: E, bounds: &[E], signedness: Signedness) -> bool {
    let value = |element: E| element.value(signedness == Signedness::Signed);
    bounds.chunks(2).any(|pair| value(pair[0]) <= value(element) && value(element) <= value(pair[1]))
}

pub fn order<E: Letter>(first: &[E], second: &[E], signedness: Signedness) -> Ordering {
    let values = |text: &[E]| text.iter().map(|e| e.value(signedness == Signedness::Signed)).collect::<Vec<_>>();
    values(first).cmp(&values(second))
}

/// The very part of the caller's memory, not only equal elements.
pub fn same<E: Letter>(a: &[E], b: &[E]) -> bool {
    a.as_ptr() == b.as_ptr() && a.len() == b.len()
}

pub fn check_span<E: Letter>(text: &[E], set: &[E]) {
    let expected = front(text, |element| set.contains(&element));
    assert!(same(span(text, set).expect("accepted"), expected), "{text:02x?} set {set:02x?}");
}

pub fn check_range_span<E: Letter>(text: &[E], bounds: &[E]) {
    for signedness in BOTH {
        let expected = front(text, |element| in_ranges(element, bounds, signedness));
        let given = range_span(text, bounds, signedness).expect("accepted");
        assert!(
            same(given, expected),
            "{signedness:?} {text:02x?} bounds {bounds:02x?}: {} {}",
            given.len(),
            expected.len()
        );
    }
}

pub fn check_order<E: Letter>(first: &[E], second: &[E]) {
    for signedness in BOTH {
        let expected = order(first, second, signedness);
        assert_eq!(compare(first, second, signedness), Ok(expected), "{signedness:?} {first:02x?} {second:02x?}");
        let smaller = lesser(first, second, signedness).expect("accepted");
        assert!(same(smaller, if expected == Ordering::Greater { second } else { first }));
    }
}
