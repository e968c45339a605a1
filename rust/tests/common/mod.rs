//! What the tests share: a generator, texts to draw, and the definitions in plain Rust.
#![allow(dead_code, unused_macros, unused_imports)]

pub mod fills;
pub mod search;
pub mod texts;

use std::io::Write;
use std::time::{SystemTime, UNIX_EPOCH};

use hirtxonda::{Cursor, Element, Refusal, LONGEST_NEEDLE, LONGEST_TEXT, MOST_COMPARES};

/// A line that the test runner does not hold back.
pub fn say(line: &str) {
    let _ = std::io::stderr().write_all(format!("{line}\n").as_bytes());
}

/// Whether the processor has the instructions. Where it lacks them, says what is left out.
pub fn silicon_available(test: &str) -> bool {
    #[cfg(target_arch = "x86_64")]
    let available = hirtxonda::silicon::available();
    #[cfg(not(target_arch = "x86_64"))]
    let available = false;
    if !available {
        say(&format!("{test}: SKIPPED against the instructions: the processor lacks SSE4.2"));
    }
    available
}

/// A generator, splitmix64.
pub struct Random(u64);

impl Random {
    /// The generator of a test, from `HIRTXONDA_SEED` or else from the clock.
    pub fn for_test(test: &str) -> Random {
        let seed = match std::env::var("HIRTXONDA_SEED") {
            Ok(seed) => seed.parse().expect("HIRTXONDA_SEED is a decimal number"),
            Err(_) => SystemTime::now().duration_since(UNIX_EPOCH).expect("a clock").as_nanos() as u64,
        };
        say(&format!("{test}: HIRTXONDA_SEED={seed}"));
        Random::named(test, seed)
    }

    /// The generator of a test that draws the same cases in every run.
    pub fn fixed(test: &str) -> Random {
        Random::named(test, 0)
    }

    fn named(test: &str, seed: u64) -> Random {
        Random(test.bytes().fold(seed, |state, byte| Random(state ^ u64::from(byte)).draw()))
    }

    pub fn draw(&mut self) -> u64 {
        self.0 = self.0.wrapping_add(0x9e37_79b9_7f4a_7c15);
        let mut z = self.0;
        z = (z ^ (z >> 30)).wrapping_mul(0xbf58_476d_1ce4_e5b9);
        z = (z ^ (z >> 27)).wrapping_mul(0x94d0_49bb_1331_11eb);
        z ^ (z >> 31)
    }

    /// A number below the bound.
    pub fn below(&mut self, bound: usize) -> usize {
        (self.draw() >> 32) as usize % bound
    }

    pub fn one_in(&mut self, count: usize) -> bool {
        self.below(count) == 0
    }

    pub fn pick<T: Copy>(&mut self, from: &[T]) -> T {
        from[self.below(from.len())]
    }

    /// A size of texts: near a multiple of b, or any up to the most.
    pub fn size(&mut self, b: usize, most: usize) -> usize {
        let size = match self.below(3) {
            0 => self.below(3 * b),
            1 => (b * self.below(most / b + 1) + self.below(5)).saturating_sub(2),
            _ => self.below(most + 1),
        };
        size.min(most)
    }
}

/// An element as the tests draw and read it.
pub trait Letter: Element + std::fmt::Debug + Default + Ord {
    fn cut(number: u64) -> Self;
    fn signed(self) -> i32;
    fn unsigned(self) -> i32;

    /// In the order that is asked for.
    fn value(self, signed: bool) -> i32 {
        if signed {
            self.signed()
        } else {
            self.unsigned()
        }
    }
}

impl Letter for u8 {
    fn cut(number: u64) -> u8 {
        number as u8
    }
    fn signed(self) -> i32 {
        i32::from(self as i8)
    }
    fn unsigned(self) -> i32 {
        i32::from(self)
    }
}

impl Letter for u16 {
    fn cut(number: u64) -> u16 {
        number as u16
    }
    fn signed(self) -> i32 {
        i32::from(self as i16)
    }
    fn unsigned(self) -> i32 {
        i32::from(self)
    }
}

/// Alphabets: any elements; two letters; one letter; words that are alike in their low byte, in
/// their high byte or in neither; all bits zero or all one.
pub const ANY: usize = 0;
pub const TWO: usize = 1;
pub const ONE: usize = 3;
pub const HALVES: usize = 6;
pub const ENDS: usize = 7;
/// Beside these, few letters, bytes at the edges, and mostly one letter.
pub const ALPHABETS: usize = 8;

/// A text over an alphabet.
pub fn text<E: Letter>(random: &mut Random, alphabet: usize, size: usize) -> Vec<E> {
    let edges = [0x00, 0x01, 0x7e, 0x7f, 0x80, 0x81, 0xfe, 0xff];
    let letter = |random: &mut Random| match alphabet {
        ANY => random.draw() >> 32,
        TWO => 0x4141 + random.below(2) as u64,
        2 => 0x4141 + random.below(5) as u64,
        ONE => 0x4141,
        4 => random.pick(&edges) << 8 | random.pick(&edges),
        HALVES => random.pick(&[0x6261, 0x6262, 0x6361, 0x6362]),
        ENDS => random.pick(&[0, 0xffff]),
        _ => 0x4141 + u64::from(random.one_in(40)) * 0x0101,
    };
    (0..size).map(|_| E::cut(letter(random))).collect()
}

/// One element changed in these bits.
pub fn changed<E: Letter>(part: &[E], at: usize, bits: u64) -> Vec<E> {
    let mut changed = part.to_vec();
    changed[at] = E::cut(part[at].unsigned() as u64 ^ bits);
    changed
}

/// A part put into a text at a place, as far as the text goes.
pub fn put<E: Copy>(text: &mut [E], place: usize, part: &[E]) {
    for (at, element) in text.iter_mut().skip(place).zip(part) {
        *at = *element;
    }
}

/// A test in both widths, from a function over the element.
macro_rules! in_both_widths {
    ($($name:ident)*) => { $(
        mod $name {
            #[test]
            fn in_bytes() {
                super::$name::<u8>();
            }

            #[test]
            fn in_words() {
                super::$name::<u16>();
            }
        }
    )* };
}
pub(crate) use in_both_widths;

// ---- the definitions, element by element

pub fn stands<E: Eq>(text: &[E], needle: &[E], position: usize) -> bool {
    text.get(position..).is_some_and(|rest| rest.starts_with(needle))
}

/// Every position where the needle stands.
pub fn positions<E: Eq>(text: &[E], needle: &[E]) -> Vec<usize> {
    (0..=text.len()).filter(|&position| stands(text, needle, position)).collect()
}

/// The cursor of a first call over the whole text.
pub fn fresh<E>(text: &[E]) -> Cursor {
    Cursor::fresh(text.len() as u64)
}

/// The text's first `stop` elements: all that an accepted search with this cursor looks at.
pub fn up_to_stop<E>(cursor: Cursor, text: &[E]) -> &[E] {
    &text[..cursor.stop as usize]
}

/// The number that applies to a call of the search, the first in the order of the tests.
pub fn search_refusal(n: usize, m: usize, cursor: Cursor) -> Option<Refusal> {
    if n > LONGEST_TEXT {
        Some(Refusal::Text)
    } else if m > LONGEST_NEEDLE {
        Some(Refusal::Needle)
    } else if cursor.exhausted {
        Some(Refusal::Exhausted)
    } else if cursor.stop > n as u64 {
        Some(Refusal::Stop)
    } else if cursor.position > cursor.stop + 1 {
        Some(Refusal::Position)
    } else if cursor.compares > MOST_COMPARES {
        Some(Refusal::Compares)
    } else {
        None
    }
}

/// The compares of a walk from p on, up to its end in a match or in absent.
pub fn walk_compares<E: Element>(text: &[E], needle: &[E], mut p: usize) -> u64 {
    let (n, m, b) = (text.len(), needle.len(), E::BLOCK);
    let mut compares = 0;

    while m > 0 && p + m <= n {
        let part = &text[p..n.min(p + b)];
        compares += 1;
        match (0..b).find(|&k| maybe_stands(part, &needle[..m.min(b)], k, b)) {
            None => p += part.len(),
            Some(0) => {
                let later = (b..m).step_by(b);
                let differs = later.clone().position(|at| needle[at..m.min(at + b)] != text[p + at..p + m.min(at + b)]);
                compares += differs.map_or(later.len(), |piece| piece + 1) as u64;
                match differs {
                    None => return compares,
                    Some(_) => p += 1,
                }
            }
            Some(k) => p += k,
        }
    }
    compares
}

/// Whether the piece stands at k as far as the block goes; the part is shorter than a block only at
/// the text's end.
fn maybe_stands<E: Eq>(part: &[E], piece: &[E], k: usize, b: usize) -> bool {
    piece.iter().take(b - k).enumerate().all(|(i, element)| part.get(k + i) == Some(element))
}

/// The compares of the calls that find every match, and of the one after them.
pub fn list_compares<E: Element>(text: &[E], needle: &[E]) -> u64 {
    let after_each = positions(text, needle).into_iter().map(|position| position + 1);
    std::iter::once(0).chain(after_each).map(|p| walk_compares(text, needle, p)).sum()
}
