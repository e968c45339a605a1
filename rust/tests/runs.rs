//! Leading runs and the order of two texts against plain Rust.

mod common;

use std::cmp::Ordering;

use common::texts::{check_order, check_range_span, check_span, order, same};
use common::{text, Letter, Random, ALPHABETS};
use hirtxonda::{compare, lesser, range_span, span, Refusal, Signedness, LONGEST_TEXT};

/// A text that mostly belongs: drawn from the list, with a few strangers.
fn run<E: Letter>(random: &mut Random, list: &[E], alphabet: usize, n: usize) -> Vec<E> {
    let mut run: Vec<E> = text(random, alphabet, n);
    let strangers = random.pick(&[0, 1, 30, 300]);
    for element in run.iter_mut() {
        if !list.is_empty() && (strangers == 0 || !random.one_in(strangers)) {
            *element = random.pick(list);
        }
    }
    run
}

fn runs<E: Letter>(test: &str) {
    let mut random = Random::for_test(test);
    for number in 0..400_000 {
        let alphabet = random.below(ALPHABETS);
        let longest = if number % 100 == 0 { 3000 } else { 70 };
        let n = random.size(E::BLOCK, longest);
        let size = random.below(E::BLOCK + 1);
        let list: Vec<E> = text(&mut random, alphabet, size);
        check_span(&run(&mut random, &list, alphabet, n), &list);
        // Bounds in any order: a range whose low bound is above its high bound has nothing.
        check_range_span(&run(&mut random, &list, alphabet, n), &list[..size / 2 * 2]);
    }
}

#[test]
fn runs_in_bytes() {
    runs::<u8>("runs_in_bytes");
}

#[test]
fn runs_in_words() {
    runs::<u16>("runs_in_words");
}

/// Every byte against every pair of bounds out of these, in both orders.
#[test]
fn ranges_at_the_edges() {
    let edges = [0x00, 0x01, 0x7e, 0x7f, 0x80, 0x81, 0xfe, 0xff];
    for low in edges {
        for high in edges {
            (0..=255u8).for_each(|byte| check_range_span(&[byte], &[low, high]));
        }
    }
}

fn orders<E: Letter>(test: &str) {
    let mut random = Random::for_test(test);
    let mut seen = [0; 3];
    for number in 0..400_000 {
        let alphabet = random.below(ALPHABETS);
        let longest = if number % 100 == 0 { 3000 } else { 70 };
        let n = random.size(E::BLOCK, longest);
        let first: Vec<E> = text(&mut random, alphabet, n);
        let mut second = first.clone();
        if random.one_in(2) {
            let end = random.below(n + 1);
            second.truncate(end);
        }
        let extra = random.pick(&[0, 0, 1, 2, E::BLOCK]);
        second.extend(text::<E>(&mut random, alphabet, extra));
        if random.one_in(2) && !second.is_empty() {
            let at = random.below(second.len());
            second[at] = text::<E>(&mut random, 4, 1)[0];
        }
        seen[(order(&first, &second, Signedness::Signed) as i8 + 1) as usize] += 1;
        check_order(&first, &second);
        check_order(&second, &first);
        check_order(&first, &first);
    }
    assert!(seen.iter().all(|&count| count > 100), "{seen:?}");
}

#[test]
fn orders_in_bytes() {
    orders::<u8>("orders_in_bytes");
}

#[test]
fn orders_in_words() {
    orders::<u16>("orders_in_words");
}

/// The longest text is accepted, one more element refused; the same for lists.
fn limits<E: Letter>() {
    let (a, z) = (E::cut(0x41), E::cut(0x5a));
    let long = vec![a; LONGEST_TEXT + 1];
    let (longest, short) = (&long[..LONGEST_TEXT], &long[..1]);
    let full = vec![a; E::BLOCK + 1];
    let unsigned = Signedness::Unsigned;

    assert!(same(span(longest, &full[1..]).unwrap(), longest));
    assert!(same(range_span(longest, &[a, z], unsigned).unwrap(), longest));
    assert_eq!(compare(longest, longest, unsigned), Ok(Ordering::Equal));
    assert!(same(lesser(longest, &longest[1..], unsigned).unwrap(), &longest[1..]));

    assert_eq!(span(&long, &full), Err(Refusal::Text));
    assert_eq!(range_span(&long, &full, unsigned), Err(Refusal::Text));
    for (first, second) in [(&long[..], short), (short, &long[..]), (&long[..], &long[..])] {
        assert_eq!(compare(first, second, unsigned), Err(Refusal::Text));
        assert_eq!(lesser(first, second, unsigned), Err(Refusal::Text));
    }
    assert_eq!(span(short, &full), Err(Refusal::List));
    assert_eq!(range_span(short, &full, unsigned), Err(Refusal::List));
    for odd in (1..E::BLOCK).step_by(2) {
        assert_eq!(range_span(short, &full[..odd], unsigned), Err(Refusal::Odd));
    }
}

#[test]
fn limits_in_bytes() {
    limits::<u8>();
}

#[test]
fn limits_in_words() {
    limits::<u16>();
}
