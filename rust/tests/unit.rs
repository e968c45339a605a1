//! The proved unit against the processor's own instructions: all 128 controls, explicit and
//! implicit lengths, index and mask, all six flags; and each wide mask against its narrow one.
//! Explicit lengths have 64 bits, and the instructions are those with REX.W.
#![cfg(target_arch = "x86_64")]

mod common;

use common::{say, silicon_available, text, Random, ALPHABETS};
use hirtxonda::{pcmpestri, pcmpestri_0c, pcmpestri_0d, pcmpestri_18, pcmpestri_19, pcmpestrm, pcmpistri, pcmpistrm};
use hirtxonda::{silicon, Flags, IndexAnswer, MaskAnswer, Refusal};
use std::arch::x86_64::{_mm_cmpestrc, _mm_cmpestri, _mm_cmpestro, _mm_cmpestrs, _mm_cmpestrz, _mm_loadu_si128};

/// Blocks that a test draws.
const BLOCKS: usize = 1 << 20;

/// Controls at which a block is tried. They go round, so that every control gets as many blocks.
const CONTROLS: usize = 32;

struct Block {
    operand1: [u8; 16],
    length1: i64,
    operand2: [u8; 16],
    length2: i64,
}

impl std::fmt::Display for Block {
    fn fmt(&self, f: &mut std::fmt::Formatter<'_>) -> std::fmt::Result {
        write!(f, "{:02x?} ({}), {:02x?} ({})", self.operand1, self.length1, self.operand2, self.length2)
    }
}

fn operand(random: &mut Random, alphabet: usize) -> [u8; 16] {
    text(random, alphabet, 16).try_into().expect("sixteen")
}

/// A length: small, at an edge of a block, of 32 bits or of 64, or small but for a multiple of
/// 2^32, so that its low half is another length.
fn length(random: &mut Random) -> i64 {
    const EDGES: [i64; 16] = [0, 1, -1, 7, -7, 8, -8, 9, -9, 15, -15, 16, -16, 17, -17, i64::MIN];
    const ENDS: [i64; 8] = [i64::MIN, 1 << 31, 1 << 32, -1 << 31, -1 << 32, i64::MAX, 256, -256];
    match random.below(8) {
        0 => random.draw() as i64,
        1 => random.below(41) as i64 - 20,
        2 => random.pick(&ENDS).wrapping_add(random.below(5) as i64 - 2),
        3 => ((random.draw() as i64) << 32) + random.pick(&EDGES[..15]),
        _ => random.pick(&EDGES),
    }
}

/// Makes one to three elements zero, bytes or words.
fn put_zeros(random: &mut Random, operand: &mut [u8; 16]) {
    for _ in 0..random.below(3) + 1 {
        let at = random.below(16);
        operand[at] = 0;
        if random.one_in(2) {
            operand[at ^ 1] = 0;
        }
    }
}

/// Operand 1 is drawn alone, or is operand 2 with some bits changed or none, or a part of it with
/// another end.
fn block(random: &mut Random) -> Block {
    let alphabet = random.below(ALPHABETS);
    let mut operand2 = operand(random, alphabet);
    if random.one_in(3) {
        put_zeros(random, &mut operand2);
    }
    let mut operand1 = operand2;
    match random.below(4) {
        0 => operand1 = operand(random, alphabet),
        1 => {}
        2 => {
            for _ in 0..random.below(3) + 1 {
                operand1[random.below(16)] ^= 1 << random.below(8);
            }
        }
        _ => {
            operand1.rotate_left(random.below(16));
            let end = random.below(17);
            let filling = if random.one_in(2) { [0; 16] } else { operand(random, alphabet) };
            operand1[end..].copy_from_slice(&filling[end..]);
        }
    }
    if random.one_in(3) {
        put_zeros(random, &mut operand1);
    }
    Block { operand1, length1: length(random), operand2, length2: length(random) }
}

fn agree<A: PartialEq + std::fmt::Debug>(test: &str, proved: impl Fn(&Block, u8) -> A, real: impl Fn(&Block, u8) -> A) {
    let mut random = Random::for_test(test);
    if !silicon_available(test) {
        return;
    }
    for number in 0..BLOCKS {
        let block = block(&mut random);
        for step in 0..CONTROLS {
            let control = ((number * CONTROLS + step) % 128) as u8;
            assert_eq!(proved(&block, control), real(&block, control), "control {control:02x}h, {block}");
        }
    }
    say(&format!("{test}: {BLOCKS} blocks, each at {CONTROLS} of 128 controls"));
}

#[test]
fn explicit_index() {
    agree(
        "explicit_index",
        |b, control| pcmpestri(&b.operand1, b.length1, &b.operand2, b.length2, control),
        |b, control| silicon::pcmpestri(&b.operand1, b.length1, &b.operand2, b.length2, control),
    );
}

#[test]
fn explicit_mask() {
    agree(
        "explicit_mask",
        |b, control| pcmpestrm(&b.operand1, b.length1, &b.operand2, b.length2, control),
        |b, control| silicon::pcmpestrm(&b.operand1, b.length1, &b.operand2, b.length2, control),
    );
}

#[test]
fn implicit_index() {
    agree(
        "implicit_index",
        |b, control| pcmpistri(&b.operand1, &b.operand2, control),
        |b, control| silicon::pcmpistri(&b.operand1, &b.operand2, control),
    );
}

#[test]
fn implicit_mask() {
    agree(
        "implicit_mask",
        |b, control| pcmpistrm(&b.operand1, &b.operand2, control),
        |b, control| silicon::pcmpistrm(&b.operand1, &b.operand2, control),
    );
}

/// The mask of elements that a mask of bits stands for: element j is all ones where bit j is set.
fn widened(bits: &[u8; 16], words: bool) -> [u8; 16] {
    std::array::from_fn(|byte| {
        let j = if words { byte / 2 } else { byte };
        if bits[j / 8] >> (j % 8) & 1 == 1 {
            255
        } else {
            0
        }
    })
}

/// Two mask calls alike but for bit 6 of the control (document 02, request 3): the wide mask is the
/// narrow one widened, flags and refusals are equal. The processor's are held to the same.
fn masks_widen(test: &str, call: impl Fn(&Block, u8) -> Result<MaskAnswer, Refusal>) {
    let mut random = Random::for_test(test);
    for number in 0..BLOCKS / 4 {
        let block = block(&mut random);
        for step in 0..CONTROLS / 2 {
            let control = ((number * CONTROLS / 2 + step) % 64) as u8;
            let (narrow, wide) = (call(&block, control).unwrap(), call(&block, control | 0x40).unwrap());
            assert_eq!(wide.mask, widened(&narrow.mask, control & 1 == 1), "control {control:02x}h, {block}");
            assert_eq!(wide.flags, narrow.flags, "control {control:02x}h, {block}");
            if number % 1024 == 0 {
                assert_eq!(call(&block, control | 0x80), Err(Refusal::Control));
                assert_eq!(call(&block, control | 0xc0), Err(Refusal::Control));
            }
        }
    }
}

#[test]
fn explicit_masks_widen() {
    masks_widen("explicit_masks_widen", |b, control| {
        pcmpestrm(&b.operand1, b.length1, &b.operand2, b.length2, control)
    });
}

#[test]
fn implicit_masks_widen() {
    masks_widen("implicit_masks_widen", |b, control| pcmpistrm(&b.operand1, &b.operand2, control));
}

#[test]
fn masks_of_the_processor_widen() {
    if silicon_available("masks_of_the_processor_widen") {
        masks_widen("masks_of_the_processor_widen", |b, control| {
            silicon::pcmpestrm(&b.operand1, b.length1, &b.operand2, b.length2, control)
        });
        masks_widen("masks_of_the_processor_widen, implicit", |b, control| {
            silicon::pcmpistrm(&b.operand1, &b.operand2, control)
        });
    }
}

/// Sixteen bytes, zero past those given.
fn padded(text: &[u8]) -> [u8; 16] {
    let mut operand = [0; 16];
    operand[..text.len()].copy_from_slice(text);
    operand
}

/// The worked masks M1 to M4 of docs/SCOPE.md, narrow and wide.
#[test]
fn worked_masks() {
    let (smith, smyth) = (padded(b"SMITH"), padded(b"SMYTH"));
    let answer = |length: i64, control: u8| pcmpestrm(&smith, length, &smyth, length, control);
    let mask = |length: i64, control: u8| answer(length, control).map(|a| a.mask);
    assert_eq!(mask(5, 0x18), Ok(padded(&[0x04])));
    assert_eq!(mask(5, 0x58), Ok(padded(&[0, 0, 255])));
    assert!(answer(5, 0x18).unwrap().flags.carry && answer(5, 0x58).unwrap().flags.carry);
    let mut wide = [255; 16];
    wide[2..4].fill(0);
    assert_eq!(mask(2, 0x09), Ok(padded(&[0xfd])));
    assert_eq!(mask(2, 0x49), Ok(wide));
    let implicit = |control: u8| pcmpistrm(&padded(b"AZ"), &padded(b"a-B"), control).map(|a| a.mask);
    assert_eq!(implicit(0x04), Ok(padded(&[0x04])));
    assert_eq!(implicit(0x44), Ok(padded(&[0, 0, 255])));
    assert_eq!(mask(5, 0x98), Err(Refusal::Control));
    assert_eq!(mask(5, 0xd8), Err(Refusal::Control));
}

/// The four calls at one control, with lengths up to the largest `usize`.
#[test]
fn one_control() {
    type Call = fn(&[u8; 16], usize, &[u8; 16], usize) -> u32;
    const CALLS: [(Call, u8); 4] =
        [(pcmpestri_0c, 0x0c), (pcmpestri_0d, 0x0d), (pcmpestri_18, 0x18), (pcmpestri_19, 0x19)];
    let mut random = Random::for_test("one_control");
    if !silicon_available("one_control") {
        return;
    }
    for number in 0..BLOCKS {
        let block = block(&mut random);
        let mut length = || match random.below(9) {
            0 => usize::MAX - random.below(20),
            1 => 1 << random.below(64),
            _ => random.below(19),
        };
        let (length1, length2) = (length(), length());
        let (call, control) = CALLS[number % 4];
        let cut = |length: usize| length.min(100) as i64;
        let real = silicon::pcmpestri(&block.operand1, cut(length1), &block.operand2, cut(length2), control);
        let proved = call(&block.operand1, length1, &block.operand2, length2);
        assert_eq!(Ok(proved), real.map(|r| r.index), "control {control:02x}h, {block}, lengths {length1} {length2}");
    }
}

#[test]
fn controls_above_127_are_refused() {
    let (a, b) = (&[65; 16], &[66; 16]);
    for control in 128..=255 {
        assert_eq!(pcmpestri(a, 3, b, 16, control), Err(Refusal::Control));
        assert_eq!(pcmpestrm(a, 3, b, 16, control), Err(Refusal::Control));
        assert_eq!(pcmpistri(a, b, control), Err(Refusal::Control));
        assert_eq!(pcmpistrm(a, b, control), Err(Refusal::Control));
    }
}

/// Document 01's specimens U1 to U9: the bits of the result, the index and the flags.
#[test]
fn specimens() {
    fn bits(a: &[u8], length1: i64, b: &[u8], length2: i64, control: u8) -> (u16, u32, Flags) {
        let (a, b) = (padded(a), padded(b));
        let answer = pcmpestrm(&a, length1, &b, length2, control & 0x3f).unwrap();
        let index = pcmpestri(&a, length1, &b, length2, control).unwrap();
        assert_eq!(answer.flags, index.flags);
        (u16::from_le_bytes([answer.mask[0], answer.mask[1]]), index.index, answer.flags)
    }
    let text = b"ZZABZABCZZZZZZAB";
    let flags = Flags { carry: true, sign: true, ..Flags::default() };
    assert_eq!(bits(b"ABC", 3, text, 16, 0x0c), (0x4020, 5, flags));
    assert_eq!(bits(b"ABC", 3, text, 16, 0x4c), (0x4020, 14, flags));
    let flags = Flags { zero: true, ..flags };
    assert_eq!(bits(b"ABC", 3, text, 15, 0x0c), (0x0020, 5, flags));
    assert_eq!(bits(b"", 0, b"", 0, 0x0c), (0xffff, 0, Flags { overflow: true, ..flags }));
    assert_eq!(bits(b"", 0, b"", 0, 0x00), (0, 16, Flags { carry: false, ..flags }));
    assert_eq!(bits(b"SMITH", 5, b"SMYTH", 5, 0x08), (0xfffb, 0, Flags { overflow: true, ..flags }));
    assert_eq!(bits(b"SMITH", 5, b"SMYTH", 5, 0x18), (0x0004, 2, flags));
    assert_eq!(bits(b"SMITH", 5, b"SMYTH", 5, 0x38), (0xffe4, 2, flags));
    assert_eq!(bits(b"SMITH", 5, b"SMYTH", 5, 0x78), (0xffe4, 15, flags));
    assert_eq!(bits(b"AZ", 2, b"a-B", 3, 0x04), (0x0004, 2, flags));
    assert_eq!(bits(b"AZ", 1, b"a-B", 3, 0x04).0, 0);
    assert_eq!(bits(b"\xff\x01", 2, b"\x00\x80", 2, 0x06), (0x0001, 0, Flags { overflow: true, ..flags }));
    assert_eq!(bits(b"\xff\x01", 2, b"\x00\x80", 2, 0x04).0, 0);
    assert_eq!(bits(b"", 0, b"", 0, 0x19), (0, 8, Flags { carry: false, ..flags }));
}

/// The worked lengths W1 to W4 of docs/SCOPE.md, by the proved calls and, where there is one, by
/// the processor: the index, ZF and SF, and the mask's. Each time the low 32 bits alone would be
/// another length.
#[test]
fn worked_lengths() {
    type Call<Answer> = fn(&[u8; 16], i64, &[u8; 16], i64, u8) -> Result<Answer, Refusal>;
    let mut calls: Vec<(Call<IndexAnswer>, Call<MaskAnswer>)> = vec![(pcmpestri, pcmpestrm)];
    if silicon_available("worked_lengths") {
        calls.push((silicon::pcmpestri, silicon::pcmpestrm));
    }
    for (by_index, by_mask) in calls {
        let answer = |a: &[u8], length1: i64, b: &[u8], length2: i64, control: u8| {
            let (a, b) = (padded(a), padded(b));
            let IndexAnswer { index, flags } = by_index(&a, length1, &b, length2, control).unwrap();
            let masked = by_mask(&a, length1, &b, length2, control).unwrap();
            let bits = u32::from(u16::from_le_bytes([masked.mask[0], masked.mask[1]]));
            let none = if control & 1 == 1 { 8 } else { 16 };
            assert_eq!((bits.trailing_zeros().min(none), masked.flags), (index, flags));
            (index, flags.zero, flags.sign)
        };
        let text = b"ZZABZABCZZZZZZAB";
        assert_eq!(answer(b"SMITH", i64::MIN, b"SMYTH", i64::MIN, 0x18), (2, false, false));
        assert_eq!(answer(b"SMITH", i64::MIN, b"SMYTH", i64::MIN, 0x19), (1, false, false));
        assert_eq!(answer(b"SMITH", 0, b"SMYTH", 0, 0x18), (16, true, true));
        assert_eq!(answer(b"SMITH", 0, b"SMYTH", 0, 0x19), (8, true, true));
        assert_eq!(answer(b"AZ", i64::MAX, b"a-B", 3, 0x04), (2, true, false));
        assert_eq!(answer(b"AZ", -1, b"a-B", 3, 0x04), (16, true, true));
        assert_eq!(answer(b"ABC", (1 << 32) + 3, text, 16, 0x0c), (14, false, false));
        assert_eq!(answer(b"ABC", 3, text, 16, 0x0c), (5, false, true));
        assert_eq!(answer(b"ABC", 3, text, -(1 << 32) - 3, 0x0c), (5, false, true));
        assert_eq!(answer(b"ABC", 3, text, -3, 0x0c), (16, true, true));
    }
}

/// PCMPESTRI without REX.W, which takes lengths of 32 bits: the index, and CF, ZF, SF and OF.
#[target_feature(enable = "sse4.2")]
fn narrow<const CONTROL: i32>(block: &Block, length1: i32, length2: i32) -> (u32, [bool; 4]) {
    // SAFETY: both loads are of sixteen bytes.
    let (a, b) =
        unsafe { (_mm_loadu_si128(block.operand1.as_ptr().cast()), _mm_loadu_si128(block.operand2.as_ptr().cast())) };
    let flags = [
        _mm_cmpestrc::<CONTROL>(a, length1, b, length2),
        _mm_cmpestrz::<CONTROL>(a, length1, b, length2),
        _mm_cmpestrs::<CONTROL>(a, length1, b, length2),
        _mm_cmpestro::<CONTROL>(a, length1, b, length2),
    ];
    (_mm_cmpestri::<CONTROL>(a, length1, b, length2) as u32, flags.map(|flag| flag == 1))
}

/// A length of 32 bits is passed by its value, sign kept: the proved call, whose lengths have 64
/// bits, then answers as the processor's form for 32. With the sign lost it would not.
#[test]
fn lengths_of_32_bits_by_their_value() {
    const LENGTHS: [i32; 20] = [0, 1, -1, 2, -2, 3, -3, 7, -7, 8, -8, 9, -9, 15, -15, 16, -16, 17, i32::MIN, i32::MAX];
    type Narrow = unsafe fn(&Block, i32, i32) -> (u32, [bool; 4]);
    const CALLS: [(Narrow, u8); 6] = [
        (narrow::<0x00>, 0x00),
        (narrow::<0x0c>, 0x0c),
        (narrow::<0x0d>, 0x0d),
        (narrow::<0x18>, 0x18),
        (narrow::<0x19>, 0x19),
        (narrow::<0x64>, 0x64),
    ];
    let mut random = Random::for_test("lengths_of_32_bits_by_their_value");
    if !silicon_available("lengths_of_32_bits_by_their_value") {
        return;
    }
    let (mut tried, mut lost) = (0, 0);
    for _ in 0..1 << 8 {
        let block = block(&mut random);
        for (length1, length2) in LENGTHS.iter().flat_map(|&a| LENGTHS.map(|b| (a, b))) {
            for (narrow, control) in CALLS {
                let proved = |length1: i64, length2: i64| {
                    let IndexAnswer { index, flags } =
                        pcmpestri(&block.operand1, length1, &block.operand2, length2, control).unwrap();
                    (index, [flags.carry, flags.zero, flags.sign, flags.overflow])
                };
                // SAFETY: the processor has the instructions.
                let real = unsafe { narrow(&block, length1, length2) };
                let kept = proved(length1.into(), length2.into());
                assert_eq!(kept, real, "control {control:02x}h, {block}, lengths {length1} {length2}");
                tried += 1;
                lost += usize::from(proved((length1 as u32).into(), (length2 as u32).into()) != real);
            }
        }
    }
    assert!(lost > tried / 4, "with the sign lost {lost} of {tried} answers are others");
}
