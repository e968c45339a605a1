//! The unit's four calls and the search on the processor's own instructions, where it has them.
//!
//! Nothing here comes from the proved library. The answers must be the same; the tests hold the two
//! against each other. Of the explicit instructions the forms with REX.W are run, whose lengths are
//! RAX and RDX.
//!
//! ```
//! use hirtxonda::{matches, silicon};
//!
//! if silicon::available() {
//!     let real: Vec<usize> = silicon::matches(b"ABZAB", b"AB")?.collect();
//!     let proved: Vec<usize> = matches(b"ABZAB", b"AB")?.collect();
//!     assert_eq!(real, proved);
//! }
//! # Ok::<(), hirtxonda::Refusal>(())
//! ```
//!
//! # Panics
//!
//! Every call but [`available`] panics where the processor lacks the instructions.

use std::arch::asm;
use std::arch::x86_64::{__m128i, _mm_loadu_si128};
use std::mem::size_of_val;

use crate::search::{accept_lengths, accept_stop};
use crate::{Cursor, Element, End, Filled, Flags, IndexAnswer, MaskAnswer, Matches, Next, Refusal, MOST_COMPARES};

/// Whether the processor has the instructions.
///
/// ```
/// println!("SSE4.2: {}", hirtxonda::silicon::available());
/// ```
pub fn available() -> bool {
    is_x86_feature_detected!("sse4.2")
}

fn demand() {
    assert!(available(), "the processor lacks SSE4.2");
}

// ---- the unit

/// The operands of an instruction.
struct Operands {
    operand1: __m128i,
    length1: i64,
    operand2: __m128i,
    length2: i64,
}

/// One instruction at one control, which is part of the instruction. Gives ECX or XMM0, and EFLAGS.
type Instruction<Output> = unsafe fn(&Operands) -> (Output, u64);

/// PCMPESTRI or PCMPESTRM with REX.W, by its opcode, of XMM1 and XMM2: byte by byte, since the
/// assembler has no name for this form.
macro_rules! wide {
    ($opcode:literal) => {
        concat!(".byte 0x66, 0x48, 0x0f, 0x3a, ", $opcode, ", 0xca, {control}")
    };
}

/// An instruction as a function over the control. Before it, 10h - 01h sets AF and PF, so that it
/// is seen to reset them.
macro_rules! instruction {
    ($name:ident, $instruction:expr, $place:tt $output:ty) => {
        #[target_feature(enable = "sse4.2")]
        fn $name<const CONTROL: u8>(operands: &Operands) -> ($output, u64) {
            let (output, flags);
            // SAFETY: the instruction reads and writes these registers and the flags alone; pushfq
            // uses the stack as asm may.
            unsafe {
                asm!(
                    "mov {flags:l}, 16",
                    "sub {flags:l}, 1",
                    $instruction,
                    "pushfq",
                    "pop {flags}",
                    in("xmm1") operands.operand1,
                    in("xmm2") operands.operand2,
                    in("rax") operands.length1,
                    in("rdx") operands.length2,
                    lateout($place) output,
                    flags = out(reg) flags,
                    control = const CONTROL,
                    options(pure, nomem),
                );
            }
            (output, flags)
        }
    };
}

instruction!(estri, wide!("0x61"), "ecx" u32);
instruction!(estrm, wide!("0x60"), "xmm0" __m128i);
instruction!(istri, "pcmpistri xmm1, xmm2, {control}", "ecx" u32);
instruction!(istrm, "pcmpistrm xmm1, xmm2, {control}", "xmm0" __m128i);

/// A table of one instruction at all 128 controls.
macro_rules! all_controls {
    ($name:ident) => {
        all_controls!($name:
            0x00 0x01 0x02 0x03 0x04 0x05 0x06 0x07 0x08 0x09 0x0a 0x0b 0x0c 0x0d 0x0e 0x0f
            0x10 0x11 0x12 0x13 0x14 0x15 0x16 0x17 0x18 0x19 0x1a 0x1b 0x1c 0x1d 0x1e 0x1f
            0x20 0x21 0x22 0x23 0x24 0x25 0x26 0x27 0x28 0x29 0x2a 0x2b 0x2c 0x2d 0x2e 0x2f
            0x30 0x31 0x32 0x33 0x34 0x35 0x36 0x37 0x38 0x39 0x3a 0x3b 0x3c 0x3d 0x3e 0x3f
            0x40 0x41 0x42 0x43 0x44 0x45 0x46 0x47 0x48 0x49 0x4a 0x4b 0x4c 0x4d 0x4e 0x4f
            0x50 0x51 0x52 0x53 0x54 0x55 0x56 0x57 0x58 0x59 0x5a 0x5b 0x5c 0x5d 0x5e 0x5f
            0x60 0x61 0x62 0x63 0x64 0x65 0x66 0x67 0x68 0x69 0x6a 0x6b 0x6c 0x6d 0x6e 0x6f
            0x70 0x71 0x72 0x73 0x74 0x75 0x76 0x77 0x78 0x79 0x7a 0x7b 0x7c 0x7d 0x7e 0x7f)
    };
    ($name:ident: $($control:literal)*) => { [$($name::<$control>),*] };
}

static ESTRI: [Instruction<u32>; 128] = all_controls!(estri);
static ESTRM: [Instruction<__m128i>; 128] = all_controls!(estrm);
static ISTRI: [Instruction<u32>; 128] = all_controls!(istri);
static ISTRM: [Instruction<__m128i>; 128] = all_controls!(istrm);

fn run<Output>(
    table: &[Instruction<Output>; 128],
    (operand1, length1): (&[u8; 16], i64),
    (operand2, length2): (&[u8; 16], i64),
    control: u8,
) -> Result<(Output, Flags), Refusal> {
    demand();
    let instruction = table.get(usize::from(control)).ok_or(Refusal::Control)?;
    // SAFETY: the processor has the instructions, and both loads are of sixteen bytes.
    let (output, flags) = unsafe {
        let (operand1, operand2) =
            (_mm_loadu_si128(operand1.as_ptr().cast()), _mm_loadu_si128(operand2.as_ptr().cast()));
        instruction(&Operands { operand1, length1, operand2, length2 })
    };
    Ok((output, Flags::from_register(flags as u32)))
}

impl IndexAnswer {
    fn from((index, flags): (u32, Flags)) -> IndexAnswer {
        IndexAnswer { index, flags }
    }
}

impl MaskAnswer {
    fn from((mask, flags): (__m128i, Flags)) -> MaskAnswer {
        // SAFETY: both are sixteen bytes, and every byte is allowed in each.
        MaskAnswer { mask: unsafe { std::mem::transmute::<__m128i, [u8; 16]>(mask) }, flags }
    }
}

macro_rules! calls {
    ($($name:ident($($length1:ident, $length2:ident)?) $table:ident $answer:ident $arguments:literal;)*) => { $(
        #[doc = concat!(
            "[`", stringify!($name), "`](crate::", stringify!($name), ") by the instruction."
        )]
        ///
        /// ```
        /// use hirtxonda::silicon;
        ///
        /// let (a, b) = (b"ABC\0\0\0\0\0\0\0\0\0\0\0\0\0", b"ZZABZABCZZZZZZAB");
        /// if silicon::available() {
        #[doc = concat!("    let proved = hirtxonda::", stringify!($name), $arguments, ";")]
        #[doc = concat!("    assert_eq!(silicon::", stringify!($name), $arguments, ", proved);")]
        /// }
        /// ```
        pub fn $name(
            operand1: &[u8; 16],
            $($length1: i64,)?
            operand2: &[u8; 16],
            $($length2: i64,)?
            control: u8,
        ) -> Result<$answer, Refusal> {
            let (length1, length2) = (0 $(+ $length1)?, 0 $(+ $length2)?);
            run(&$table, (operand1, length1), (operand2, length2), control).map($answer::from)
        }
    )* };
}

calls! {
    pcmpestri(length1, length2) ESTRI IndexAnswer "(a, 3, b, 16, 0x0c)";
    pcmpestrm(length1, length2) ESTRM MaskAnswer "(a, 3, b, 16, 0x0c)";
    pcmpistri() ISTRI IndexAnswer "(a, b, 0x0c)";
    pcmpistrm() ISTRM MaskAnswer "(a, b, 0x0c)";
}

// ---- the walk of document 01 (docs/SCOPE.md)

/// [`Cursor::next`] by the instructions: the same walk, the same compares, the same refusals.
///
/// ```
/// use hirtxonda::{silicon, Cursor};
///
/// if silicon::available() {
///     let cursor = Cursor::fresh(5);
///     assert_eq!(silicon::next(cursor, b"ABZAB", b"AB"), cursor.next(b"ABZAB", b"AB"));
/// }
/// ```
pub fn next<E: Element>(cursor: Cursor, text: &[E], needle: &[E]) -> Result<Next, Refusal> {
    demand();
    let front = accept(cursor, text, needle)?;
    // SAFETY: the processor has the instructions.
    Ok(unsafe { walk(cursor, front, needle) })
}

/// [`Cursor::fill`] by the instructions: [`next`] repeated.
///
/// ```
/// use hirtxonda::{silicon, Cursor};
///
/// if silicon::available() {
///     let (cursor, mut real, mut proved) = (Cursor::fresh(5), [0; 8], [0; 8]);
///     let by_instructions = silicon::fill(cursor, b"ABZAB", b"AB", &mut real);
///     assert_eq!(by_instructions, cursor.fill(b"ABZAB", b"AB", &mut proved));
///     assert_eq!(real, proved);
/// }
/// ```
pub fn fill<E: Element>(
    mut cursor: Cursor,
    text: &[E],
    needle: &[E],
    positions: &mut [u64],
) -> Result<Filled, Refusal> {
    demand();
    accept(cursor, text, needle)?;
    for (count, place) in positions.iter_mut().enumerate() {
        match next(cursor, text, needle) {
            Ok(Next::Match { position, cursor: following }) => (*place, cursor) = (position as u64, following),
            Ok(Next::Absent { cursor }) => return Ok(Filled { count, cursor, end: End::Absent }),
            Err(refusal) => return Ok(Filled { count, cursor, end: End::Stopped(refusal) }),
        }
    }
    Ok(Filled { count: positions.len(), cursor, end: End::Full })
}

/// [`matches`](crate::matches) by the instructions.
///
/// ```
/// use hirtxonda::silicon;
///
/// if silicon::available() {
///     let mut matches = silicon::matches(b"ABZAB", b"AB")?;
///     assert_eq!(matches.by_ref().collect::<Vec<_>>(), [0, 3]);
///     assert_eq!(matches.compares(), 3);
/// }
/// # Ok::<(), hirtxonda::Refusal>(())
/// ```
pub fn matches<'a, E: Element>(text: &'a [E], needle: &'a [E]) -> Result<Matches<'a, E>, Refusal> {
    matches_until(text, needle, text.len())
}

/// [`matches_until`](crate::matches_until) by the instructions.
///
/// ```
/// use hirtxonda::silicon;
///
/// if silicon::available() {
///     let mut matches = silicon::matches_until(b"ABZAB", b"AB", 4)?;
///     assert_eq!(matches.by_ref().collect::<Vec<_>>(), [0]);
///     assert_eq!(matches.compares(), 2);
/// }
/// # Ok::<(), hirtxonda::Refusal>(())
/// ```
pub fn matches_until<'a, E: Element>(text: &'a [E], needle: &'a [E], stop: usize) -> Result<Matches<'a, E>, Refusal> {
    demand();
    Matches::new(text, needle, stop, fill)
}

/// Refuses what the search refuses, in its order. Accepted, it gives the text up to the stop: all
/// that is searched.
fn accept<'a, E>(cursor: Cursor, text: &'a [E], needle: &[E]) -> Result<&'a [E], Refusal> {
    accept_lengths(text, needle)?;
    if cursor.exhausted {
        return Err(Refusal::Exhausted);
    }
    accept_stop(cursor, text)?;
    if cursor.position > cursor.stop + 1 {
        return Err(Refusal::Position);
    }
    if cursor.compares > MOST_COMPARES {
        return Err(Refusal::Compares);
    }
    Ok(&text[..cursor.stop as usize])
}

/// One call's walk over the text up to the stop.
#[target_feature(enable = "sse4.2")]
fn walk<E: Element>(mut cursor: Cursor, text: &[E], needle: &[E]) -> Next {
    let (n, m) = (text.len(), needle.len());
    let first = operand(&needle[..m.min(E::BLOCK)]);
    let mut p = cursor.position as usize;

    while p + m <= n {
        let part = &text[p..n.min(p + E::BLOCK)];
        if m > 0 {
            cursor.compares += 1;
            match ordered::<E>(first, operand(part)) {
                0 if later_pieces_stand(&text[p..p + m], needle, &mut cursor.compares) => {}
                0 => {
                    p += 1;
                    continue;
                }
                k => {
                    p += if k == E::BLOCK { part.len() } else { k };
                    continue;
                }
            }
        }
        cursor.position = p as u64 + 1;
        return Next::Match { position: p, cursor };
    }
    cursor.exhausted = true;
    Next::Absent { cursor }
}

/// Compares the needle's pieces after the first, each with as many elements of the text, up to the
/// first that differs.
#[target_feature(enable = "sse4.2")]
fn later_pieces_stand<E: Element>(text: &[E], needle: &[E], compares: &mut u64) -> bool {
    let pieces = needle.chunks(E::BLOCK).zip(text.chunks(E::BLOCK)).skip(1);

    for (piece, part) in pieces {
        *compares += 1;
        if differ_at::<E>(operand(piece), operand(part)) < E::BLOCK {
            return false;
        }
    }
    true
}

/// A part of a text in a register, zero past its end, and its length.
#[target_feature(enable = "sse4.2")]
fn operand<E: Element>(part: &[E]) -> (__m128i, i64) {
    let size = size_of_val(part);
    let mut bytes = [0u8; 16];
    assert!(size <= 16);
    // SAFETY: the part has `size` bytes, at most sixteen. A word's low byte comes first, as in an
    // operand.
    let operand = unsafe {
        if size == 16 {
            _mm_loadu_si128(part.as_ptr().cast())
        } else {
            std::ptr::copy_nonoverlapping(part.as_ptr().cast(), bytes.as_mut_ptr(), size);
            _mm_loadu_si128(bytes.as_ptr().cast())
        }
    };
    (operand, part.len() as i64)
}

/// The index of PCMPESTRI at a control.
#[target_feature(enable = "sse4.2")]
fn index<const CONTROL: u8>((a, length_a): (__m128i, i64), (b, length_b): (__m128i, i64)) -> usize {
    let index: u64;
    // SAFETY: the instruction reads and writes these registers and the flags alone.
    unsafe {
        asm!(
            wide!("0x61"),
            in("xmm1") a,
            in("xmm2") b,
            in("rax") length_a,
            in("rdx") length_b,
            lateout("rcx") index,
            control = const CONTROL,
            options(pure, nomem, nostack),
        );
    }
    index as usize
}

/// Equal ordered, positive, least index: where the first operand stands in the second, as far as
/// the block goes.
#[target_feature(enable = "sse4.2")]
fn ordered<E: Element>(a: (__m128i, i64), b: (__m128i, i64)) -> usize {
    if E::BLOCK == 16 {
        index::<0x0c>(a, b)
    } else {
        index::<0x0d>(a, b)
    }
}

/// Equal each, negative, least index: where the two operands first differ.
#[target_feature(enable = "sse4.2")]
fn differ_at<E: Element>(a: (__m128i, i64), b: (__m128i, i64)) -> usize {
    if E::BLOCK == 16 {
        index::<0x18>(a, b)
    } else {
        index::<0x19>(a, b)
    }
}
