//! Leading runs and orders at their edges, against plain Rust. The cases are the same in every run.

mod common;

use std::cmp::Ordering;

use common::texts::{check_order, check_range_span, check_span, front, in_ranges, order, same, BOTH};
use common::{changed, in_both_widths, text, Letter, Random, ALPHABETS};
use hirtxonda::{compare, lesser, range_span, span, Refusal, Signedness, LONGEST_TEXT};

in_both_widths! {
    runs_that_end_at_each_place
    texts_that_belong_as_a_whole
    sets_of_each_size
    zero_as_a_member
    bounds_of_each_count
    ranges_in_and_out_of_order
    several_ranges
    zero_in_a_range
    ranges_across_the_sign
    members_alike_but_for_one_bit
    texts_that_differ_at_each_place
    a_text_and_its_fronts
    equal_and_empty_texts
    orders_across_the_sign
    orders_by_one_bit
    the_longest_texts
    several_refusals_at_once
    drawn_runs
    drawn_orders
}

fn a<E: Letter>() -> E {
    E::cut(0x6161)
}

/// An element that no list here has.
fn z<E: Letter>() -> E {
    E::cut(0x7a7a)
}

/// As many elements as are asked for, from one on.
fn row<E: Letter>(first: u64, size: usize) -> Vec<E> {
    (first..).take(size).map(E::cut).collect()
}

/// A text of one element, with another at a place.
fn with_one<E: Letter>(n: usize, element: E, place: usize, other: E) -> Vec<E> {
    let mut text = vec![element; n];
    text[place] = other;
    text
}

/// Places about the edges of the first blocks in both widths, and all between them.
const PLACES: std::ops::RangeInclusive<usize> = 0..=39;

// ---- leading runs

/// The length that a set and bounds of `a` to `c` must give.
fn assert_run<E: Letter>(text: &[E], length: usize) {
    let (set, bounds) = (row(0x6161, 3), [a(), E::cut(0x6163)]);
    assert_eq!(span(text, &set).map(<[E]>::len), Ok(length));
    for signedness in BOTH {
        assert_eq!(range_span(text, &bounds, signedness).map(<[E]>::len), Ok(length));
    }
    check_span(text, &set);
    check_range_span(text, &bounds);
}

/// Before, at and after the end of a block; and the text goes on, or ends with what does not
/// belong.
fn runs_that_end_at_each_place<E: Letter>() {
    for k in PLACES {
        for stranger in [z::<E>(), E::cut(0), E::cut(0xffff), E::cut(0x6160), E::cut(0x6164)] {
            assert_run(&with_one(40, a(), k, stranger), k);
            assert_run(&with_one(k + 1, a(), k, stranger), k);
        }
    }
}

fn texts_that_belong_as_a_whole<E: Letter>() {
    for n in 0..=4 * E::BLOCK + 1 {
        assert_run(&vec![E::cut(0x6162); n], n);
        assert_run(&vec![E::cut(0x6163); n], n);
    }
}

/// No member up to b of them, and one or two more. The text is of the last member.
fn sets_of_each_size<E: Letter>() {
    let set: Vec<E> = row(0x6161, E::BLOCK + 2);
    for m in 0..=E::BLOCK {
        let last = set[m.max(1) - 1];
        let text = with_one(20, last, 19, set[m]);
        assert_eq!(span(&text, &set[..m]).map(<[E]>::len), Ok(if m == 0 { 0 } else { 19 }));
        check_span(&text, &set[..m]);
        check_span(&[], &set[..m]);
    }
    for m in E::BLOCK + 1..=E::BLOCK + 2 {
        assert_eq!(span(&[set[0]; 20], &set[..m]), Err(Refusal::List));
    }
}

/// What fills an operand past the set's end, or the text's, is no member.
fn zero_as_a_member<E: Letter>() {
    let zero = E::cut(0);
    for m in 0..=E::BLOCK {
        let mut set: Vec<E> = row(0x6161, m);
        check_span(&[zero; 20], &set);
        PLACES.for_each(|k| check_span(&with_one(40, a(), k, zero), &set));
        for at in 0..m {
            let member = std::mem::replace(&mut set[at], zero);
            assert_eq!(span(&[zero; 20], &set).map(<[E]>::len), Ok(20));
            check_span(&with_one(20, set[m - 1], 3, zero), &set);
            set[at] = member;
        }
    }
}

/// Ranges with gaps between them, no bound up to b of them, and two more. The text is of the last
/// bound.
fn bounds_of_each_count<E: Letter>() {
    let bounds: Vec<E> = (0..E::BLOCK as u64 + 2).map(|i| E::cut(0x6101 + i / 2 * 16 + i % 2)).collect();
    for m in (0..=E::BLOCK).step_by(2) {
        let last = bounds[m.max(1) - 1];
        check_range_span(&with_one(20, last, 19, z()), &bounds[..m]);
        check_range_span(&[bounds[E::BLOCK - 1]; 20], &bounds[..m]);
        check_range_span(&[], &bounds[..m]);
    }
    for m in 0..=E::BLOCK + 2 {
        let expected = [(m > E::BLOCK, Refusal::List), (m % 2 == 1, Refusal::Odd)].into_iter().find(|c| c.0);
        let given = BOTH.map(|signedness| range_span(&[a::<E>(); 20], &bounds[..m], signedness).err());
        assert_eq!(given, [expected.map(|c| c.1); 2]);
    }
}

/// A low bound above its high one has nothing in its range, the same twice has one element.
fn ranges_in_and_out_of_order<E: Letter>() {
    let [b, c] = [0x6162, 0x6163].map(E::cut);
    for text in [a(), b, c, z()].map(|element| with_one(20, b, 5, element)) {
        for bounds in [[c, a()], [b, b], [a(), c], [a(), a()]] {
            check_range_span(&text, &bounds);
        }
    }
}

/// An element of each range, and one of the gap between them, one after the other.
fn several_ranges<E: Letter>() {
    let bounds = [0x6161, 0x6163, 0x6171, 0x6173].map(E::cut);
    for first in 0x6160..=0x6174 {
        for other in 0x6160..=0x6174 {
            check_range_span(&with_one(20, E::cut(first), 9, E::cut(other)), &bounds);
        }
    }
}

fn zero_in_a_range<E: Letter>() {
    let [zero, one, c] = [0, 1, 0x6163].map(E::cut);
    for bounds in [&[a(), c][..], &[a(), c, zero, zero], &[zero, zero], &[zero, one, a(), c], &[one, c], &[]] {
        check_range_span(&[zero; 20], bounds);
        PLACES.for_each(|k| check_range_span(&with_one(40, a(), k, zero), bounds));
    }
}

/// Elements at the ends of the signed and of the unsigned range, and in words of each byte of them.
fn extremes<E: Letter>() -> Vec<E> {
    let ends = [0x00, 0x01, 0x7f, 0x80, 0x81, 0xfe, 0xff];
    let mut extremes: Vec<E> = ends.iter().flat_map(|high| ends.map(|low| E::cut(high << 8 | low))).collect();
    extremes.sort();
    extremes.dedup();
    extremes
}

fn ranges_across_the_sign<E: Letter>() {
    let extremes = extremes::<E>();
    for &low in &extremes {
        for &high in &extremes {
            check_range_span(&extremes, &[low, high]);
            extremes.iter().for_each(|&element| check_range_span(&[element], &[low, high]));
        }
    }
}

/// An element that differs in one bit from a member, or from a range of one element, at each place.
/// A word is so alike in its low byte or in its high one.
fn members_alike_but_for_one_bit<E: Letter>() {
    for k in PLACES {
        for bit in 0..128 / E::BLOCK {
            let text = changed(&[a::<E>(); 40], k, 1 << bit);
            assert_eq!(span(&text, &[a()]).map(<[E]>::len), Ok(k));
            check_span(&text, &row(0x6161, 3));
            check_range_span(&text, &[a(), a()]);
            check_range_span(&text, &[a(), E::cut(0x6163)]);
        }
    }
}

// ---- orders

/// Before, at and after the end of a block.
fn texts_that_differ_at_each_place<E: Letter>() {
    let smaller = [a::<E>(); 40];
    for k in PLACES {
        let greater = with_one(40, a(), k, E::cut(0x6162));
        for (n, m) in [(40, 40), (k + 1, k + 1), (40, k + 1), (k + 1, 40)] {
            assert_eq!(BOTH.map(|s| compare(&greater[..n], &smaller[..m], s)), [Ok(Ordering::Greater); 2]);
            check_order(&greater[..n], &smaller[..m]);
            check_order(&smaller[..m], &greater[..n]);
        }
    }
}

fn a_text_and_its_fronts<E: Letter>() {
    for element in [0, 0x6161, 0x7fff, 0x8080, 0xffff].map(E::cut) {
        let text = vec![element; 40];
        for k in PLACES {
            assert_eq!(BOTH.map(|s| compare(&text[..k], &text, s)), [Ok(Ordering::Less); 2]);
            for m in [k + 1, 40] {
                check_order(&text[..k], &text[..m]);
                check_order(&text[..m], &text[..k]);
            }
        }
    }
}

/// Of two equal texts the first is given back.
fn equal_and_empty_texts<E: Letter>() {
    for n in 0..=40 {
        let (first, second) = (row::<E>(0x6161, n), row::<E>(0x6161, n));
        for signedness in BOTH {
            assert_eq!(compare(&first, &second, signedness), Ok(Ordering::Equal));
            assert!(same(lesser(&first, &second, signedness).unwrap(), &first));
        }
    }
    check_order(&[], &[E::cut(0)]);
    check_order(&[E::cut(0)], &[]);
}

fn orders_across_the_sign<E: Letter>() {
    let extremes = extremes::<E>();
    for &first in &extremes {
        for &second in &extremes {
            check_order(&[first], &[second]);
            for k in [E::BLOCK - 1, E::BLOCK, 18] {
                check_order(&with_one(20, a(), k, first), &with_one(20, a(), k, second));
            }
        }
    }
}

/// In words the first difference is in the high byte alone, or in the low one; and one of each, of
/// which the high byte decides.
fn orders_by_one_bit<E: Letter>() {
    for k in PLACES {
        let text = vec![a::<E>(); 40];
        for bit in 0..128 / E::BLOCK {
            check_order(&changed(&text, k, 1 << bit), &text);
            check_order(&text, &changed(&text, k, 1 << bit));
        }
    }
    for (first, second) in [(0x01ff, 0x0200), (0x617f, 0x6180), (0x00ff, 0xff00), (0x7fff, 0x8000)] {
        check_order(&with_one(20, a(), 9, E::cut(first)), &with_one(20, a(), 9, E::cut(second)));
    }
}

// ---- limits

/// The longest text is accepted, with what decides in its last element, and one more is refused.
fn the_longest_texts<E: Letter>() {
    let long = with_one(LONGEST_TEXT + 1, a::<E>(), LONGEST_TEXT, z());
    let (flat, ends_in_z, too_long) = (&long[..LONGEST_TEXT], &long[1..], &long[..]);
    let (set, bounds) = (row::<E>(0x6161, 3), [a(), E::cut(0x6163)]);

    for (text, length) in [(flat, LONGEST_TEXT), (ends_in_z, LONGEST_TEXT - 1)] {
        assert!(same(span(text, &set).unwrap(), &text[..length]));
        BOTH.iter().for_each(|&s| assert!(same(range_span(text, &bounds, s).unwrap(), &text[..length])));
    }
    for signedness in BOTH {
        assert_eq!(compare(ends_in_z, flat, signedness), Ok(Ordering::Greater));
        assert_eq!(compare(flat, &flat[1..], signedness), Ok(Ordering::Greater));
        assert_eq!(compare(flat, flat, signedness), Ok(Ordering::Equal));
        assert!(same(lesser(ends_in_z, flat, signedness).unwrap(), flat));
        assert_eq!(span(too_long, &set), Err(Refusal::Text));
        assert_eq!(range_span(too_long, &bounds, signedness), Err(Refusal::Text));
        for (first, second) in [(too_long, &flat[..1]), (&flat[..1], too_long), (too_long, too_long)] {
            assert_eq!(compare(first, second, signedness), Err(Refusal::Text));
            assert_eq!(lesser(first, second, signedness), Err(Refusal::Text));
        }
    }
}

/// The lowest number is given: 2 before 4 and 5, 4 before 5.
fn several_refusals_at_once<E: Letter>() {
    let text = vec![a::<E>(); LONGEST_TEXT + 1];
    let list: Vec<E> = row(0x6161, E::BLOCK + 2);
    assert_eq!(span(&text, &list), Err(Refusal::Text));
    for signedness in BOTH {
        for m in [3, E::BLOCK + 1, E::BLOCK + 2] {
            assert_eq!(range_span(&text, &list[..m], signedness), Err(Refusal::Text));
        }
        assert_eq!(range_span(&text[..20], &list[..E::BLOCK + 1], signedness), Err(Refusal::List));
        assert_eq!(range_span(&text[..20], &list[..3], signedness), Err(Refusal::Odd));
    }
}

// ---- drawn cases

/// How often each of these events must occur at least, so that the cases are those that are meant.
const OFTEN: usize = 5;

/// Texts of members, of one, two or all of them; half have one element put at a drawn place.
fn drawn_runs<E: Letter>() {
    let mut random = Random::fixed("drawn_runs");
    let mut seen = [0; 8];
    for number in 0..12_000 {
        let alphabet = number % ALPHABETS;
        let m = random.below(E::BLOCK + 1);
        let list: Vec<E> = text(&mut random, alphabet, m);
        let n = random.below(81);
        let mut text: Vec<E> = text(&mut random, alphabet, n);
        let among = random.pick(&[1, 2, E::BLOCK]).min(m);
        if among > 0 {
            text.iter_mut().for_each(|element| *element = list[random.below(among)]);
        }
        if n > 0 && random.one_in(2) {
            text[random.below(n)] = common::text(&mut random, alphabet, 1)[0];
        }
        check_span(&text, &list);
        check_range_span(&text, &list[..m / 2 * 2]);
        note_run(&mut seen, &text, &list);
    }
    assert!(seen.iter().all(|&count| count >= OFTEN), "{seen:?}");
}

/// A run that ends before, at or after a block's end, a text that belongs as a whole, within a
/// block and to its end, a zero in the run and one that ends it, bounds that signs decide.
fn note_run<E: Letter>(seen: &mut [usize], text: &[E], list: &[E]) {
    let (n, b, k) = (text.len(), E::BLOCK, front(text, |element| list.contains(&element)).len());
    let in_bounds =
        |signedness| front(text, |element| in_ranges(element, &list[..list.len() / 2 * 2], signedness)).len();
    let events = [
        k < n && k % b == b - 1,
        k < n && k > 0 && k % b == 0,
        k < n && k > b && k % b == 1,
        k == n && n > b && n % b != 0,
        k == n && n > 0 && n % b == 0,
        text[..k].contains(&E::cut(0)),
        0 < k && k < n && text[k] == E::cut(0),
        in_bounds(Signedness::Signed) != in_bounds(Signedness::Unsigned),
    ];
    events.iter().zip(seen).for_each(|(&event, count)| *count += usize::from(event));
}

/// A text, and the same or a longer or shorter one, mostly with one element put at a drawn place.
fn drawn_orders<E: Letter>() {
    let mut random = Random::fixed("drawn_orders");
    let mut seen = [0; 9];
    for number in 0..12_000 {
        let alphabet = number % ALPHABETS;
        let long: Vec<E> = text(&mut random, alphabet, 82);
        let n = random.below(81);
        let m = [n, n + 1, random.below(81)][number / ALPHABETS % 3];
        let (first, mut second) = (&long[..n], long[..m].to_vec());
        if m > 0 && !random.one_in(4) {
            second[random.below(m)] = text(&mut random, alphabet, 1)[0];
        }
        check_order(first, &second);
        check_order(&second, first);
        note_order(&mut seen, first, &second);
    }
    assert!(seen.iter().all(|&count| count >= OFTEN), "{seen:?}");
}

/// Equal texts, each the front of the other, also up to a block's end, a first difference before,
/// at and after a block's end, a shorter text that is greater, an order that signs decide.
fn note_order<E: Letter>(seen: &mut [usize], first: &[E], second: &[E]) {
    let (n, m, b) = (first.len(), second.len(), E::BLOCK);
    let k = first.iter().zip(second).take_while(|(x, y)| x == y).count();
    let differ = k < n && k < m;
    let unsigned = order(first, second, Signedness::Unsigned);
    let events = [
        n == m && k == n && n > 0,
        k == n && 0 < n && n < m,
        k == m && 0 < m && m < n,
        n != m && k == n.min(m) && k > 0 && k % b == 0,
        differ && k % b == b - 1,
        differ && k > 0 && k % b == 0,
        differ && k > b && k % b == 1,
        differ && (n < m && unsigned == Ordering::Greater || m < n && unsigned == Ordering::Less),
        unsigned != order(first, second, Signedness::Signed),
    ];
    events.iter().zip(seen).for_each(|(&event, count)| *count += usize::from(event));
}
