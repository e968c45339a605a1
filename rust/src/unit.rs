//! The string compare unit: the four instructions as calls.

use crate::{raw, Refusal};

/// The flags after a compare. `AF` and `PF` are always 0.
///
/// ```
/// let (a, b) = (b"SMITH\0\0\0\0\0\0\0\0\0\0\0", b"SMYTH\0\0\0\0\0\0\0\0\0\0\0");
/// let flags = hirtxonda::pcmpistri(a, b, 0x18)?.flags;
/// assert!(flags.carry && flags.zero && flags.sign && !flags.overflow);
/// # Ok::<(), hirtxonda::Refusal>(())
/// ```
#[derive(Clone, Copy, Debug, Default, PartialEq, Eq, Hash)]
pub struct Flags {
    /// CF: some bit of the result is set.
    pub carry: bool,
    /// ZF: operand 2 is shorter than a block.
    pub zero: bool,
    /// SF: operand 1 is shorter than a block.
    pub sign: bool,
    /// OF: bit 0 of the result.
    pub overflow: bool,
    /// AF.
    pub auxiliary: bool,
    /// PF.
    pub parity: bool,
}

impl Flags {
    /// The flags in the places that they have in the register EFLAGS.
    pub(crate) fn from_register(bits: u32) -> Flags {
        let bit = |place: u32| bits >> place & 1 == 1;
        Flags { carry: bit(0), zero: bit(6), sign: bit(7), overflow: bit(11), auxiliary: bit(4), parity: bit(2) }
    }
}

/// The answer of the index calls.
///
/// ```
/// use hirtxonda::{pcmpestri, Flags, IndexAnswer};
///
/// // Two empty operands, equal any: no bit is set, and both are shorter than a block.
/// let flags = Flags { zero: true, sign: true, ..Flags::default() };
/// assert_eq!(pcmpestri(&[0; 16], 0, &[0; 16], 0, 0x00), Ok(IndexAnswer { index: 16, flags }));
/// ```
#[derive(Clone, Copy, Debug, PartialEq, Eq, Hash)]
pub struct IndexAnswer {
    /// The least set bit of the result, with control bit 6 the greatest; where none is set, 16 in
    /// bytes and 8 in words.
    pub index: u32,
    /// The flags.
    pub flags: Flags,
}

/// The answer of the mask calls.
///
/// ```
/// // 59h: words, equal each, negative, a mask of elements: where do two texts of three words
/// // differ?
/// let (a, b) = (b"A\0B\0C\0\0\0\0\0\0\0\0\0\0\0", b"A\0X\0C\0\0\0\0\0\0\0\0\0\0\0");
/// let answer = hirtxonda::pcmpestrm(a, 3, b, 3, 0x59)?;
/// assert_eq!(answer.mask, [0, 0, 255, 255, 0, 0, 0, 0, 0, 0, 0, 0, 0, 0, 0, 0]);
/// # Ok::<(), hirtxonda::Refusal>(())
/// ```
#[derive(Clone, Copy, Debug, PartialEq, Eq, Hash)]
pub struct MaskAnswer {
    /// The bits of the result in the first two bytes, low byte first, the others 0; with control
    /// bit 6 each bit fills its element.
    pub mask: [u8; 16],
    /// The flags.
    pub flags: Flags,
}

/// PCMPESTRI: compares operands of explicit length, and gives an index.
///
/// The control byte is that of the instruction: bits 1:0 the elements, 3:2 the aggregation, 5:4 the
/// polarity, 6 the output. A length counts by its absolute value, cut to 16 bytes or 8 words; all
/// its 64 bits count, as for the instruction with REX.W. A length of 32 bits is passed by its
/// value, sign kept, as `i64::from` does.
///
/// ```
/// use hirtxonda::pcmpestri;
///
/// // 18h: bytes, equal each, negative, least index: where do the two first differ?
/// let answer = pcmpestri(b"SMITH...........", 5, b"SMYTH***********", 5, 0x18)?;
/// assert_eq!(answer.index, 2);
///
/// // A length of 32 bits by its value, here -5, which counts as 5.
/// let length: i32 = -5;
/// let same = pcmpestri(b"SMITH...........", length.into(), b"SMYTH***********", 5, 0x18)?;
/// assert_eq!(same, answer);
/// # Ok::<(), hirtxonda::Refusal>(())
/// ```
///
/// # Errors
///
/// [`Refusal::Control`] for a control above 127; the same for the other three.
pub fn pcmpestri(
    operand1: &[u8; 16],
    length1: i64,
    operand2: &[u8; 16],
    length2: i64,
    control: u8,
) -> Result<IndexAnswer, Refusal> {
    // SAFETY: four references; the two that are written are to locals.
    index_answer(|index, flags| unsafe {
        raw::hx_pcmpestri(operand1, length1, operand2, length2, control, index, flags)
    })
}

/// PCMPISTRI: compares operands that end before their first zero element, and gives an index.
///
/// ```
/// // 4Ch: bytes, equal ordered, positive, greatest index. The last AB may go on in the next block.
/// let answer = hirtxonda::pcmpistri(b"ABC\0\0\0\0\0\0\0\0\0\0\0\0\0", b"ZZABZABCZZZZZZAB", 0x4c)?;
/// assert_eq!(answer.index, 14);
/// # Ok::<(), hirtxonda::Refusal>(())
/// ```
pub fn pcmpistri(operand1: &[u8; 16], operand2: &[u8; 16], control: u8) -> Result<IndexAnswer, Refusal> {
    // SAFETY: as for `pcmpestri`.
    index_answer(|index, flags| unsafe { raw::hx_pcmpistri(operand1, operand2, control, index, flags) })
}

/// PCMPESTRM: as [`pcmpestri`], and gives a mask.
///
/// ```
/// // 04h: unsigned bytes, ranges, positive, a mask of bits. B alone lies in A to Z.
/// let answer = hirtxonda::pcmpestrm(b"AZ..............", 2, b"a-B.............", 3, 0x04)?;
/// assert_eq!(answer.mask, [4, 0, 0, 0, 0, 0, 0, 0, 0, 0, 0, 0, 0, 0, 0, 0]);
/// # Ok::<(), hirtxonda::Refusal>(())
/// ```
pub fn pcmpestrm(
    operand1: &[u8; 16],
    length1: i64,
    operand2: &[u8; 16],
    length2: i64,
    control: u8,
) -> Result<MaskAnswer, Refusal> {
    // SAFETY: as for `pcmpestri`.
    mask_answer(|mask, flags| unsafe { raw::hx_pcmpestrm(operand1, length1, operand2, length2, control, mask, flags) })
}

/// PCMPISTRM: as [`pcmpistri`], and gives a mask.
///
/// ```
/// // 40h: bytes, equal any, positive, a mask of elements: which letters are vowels?
/// let (vowels, name) = (b"AEIOU\0\0\0\0\0\0\0\0\0\0\0", b"OTIS\0\0\0\0\0\0\0\0\0\0\0\0");
/// let answer = hirtxonda::pcmpistrm(vowels, name, 0x40)?;
/// assert_eq!(answer.mask, [255, 0, 255, 0, 0, 0, 0, 0, 0, 0, 0, 0, 0, 0, 0, 0]);
/// # Ok::<(), hirtxonda::Refusal>(())
/// ```
pub fn pcmpistrm(operand1: &[u8; 16], operand2: &[u8; 16], control: u8) -> Result<MaskAnswer, Refusal> {
    // SAFETY: as for `pcmpestri`.
    mask_answer(|mask, flags| unsafe { raw::hx_pcmpistrm(operand1, operand2, control, mask, flags) })
}

fn index_answer(call: impl FnOnce(&mut u32, &mut u32) -> u32) -> Result<IndexAnswer, Refusal> {
    let (mut index, mut flags) = (0, 0);
    Refusal::check(call(&mut index, &mut flags))?;
    Ok(IndexAnswer { index, flags: Flags::from_register(flags) })
}

fn mask_answer(call: impl FnOnce(&mut [u8; 16], &mut u32) -> u32) -> Result<MaskAnswer, Refusal> {
    let (mut mask, mut flags) = ([0; 16], 0);
    Refusal::check(call(&mut mask, &mut flags))?;
    Ok(MaskAnswer { mask, flags: Flags::from_register(flags) })
}

macro_rules! at_one_control {
    ($($name:ident $raw:ident $control:literal $what:literal $example:literal;)*) => { $(
        #[doc = concat!(
            "The index of [`pcmpestri`] at control ", $control, ": ", $what,
            ". The lengths are not negative, and nothing is refused."
        )]
        ///
        /// ```
        #[doc = $example]
        /// ```
        pub fn $name(operand1: &[u8; 16], length1: usize, operand2: &[u8; 16], length2: usize) -> u32 {
            // SAFETY: two references to sixteen bytes, which are only read.
            unsafe { raw::$raw(operand1, length1, operand2, length2) }
        }
    )* };
}

at_one_control! {
    pcmpestri_0c hx_pcmpestri_0c "0Ch" "where operand 1 first stands in operand 2, in bytes"
        r#"assert_eq!(hirtxonda::pcmpestri_0c(b"AB..............", 2, b"ZZAB............", 4), 2);"#;
    pcmpestri_0d hx_pcmpestri_0d "0Dh" "the same in words"
        r#"assert_eq!(hirtxonda::pcmpestri_0d(b"ABCD............", 2, b"ZZABCD..........", 3), 1);"#;
    pcmpestri_18 hx_pcmpestri_18 "18h" "where the two first differ, in bytes"
        r#"assert_eq!(hirtxonda::pcmpestri_18(b"SMITH...........", 5, b"SMYTH...........", 5), 2);"#;
    pcmpestri_19 hx_pcmpestri_19 "19h" "the same in words"
        r#"assert_eq!(hirtxonda::pcmpestri_19(b"SMITHS..........", 3, b"SMYTHS..........", 3), 1);"#;
}

#[cfg(test)]
#[test]
fn places_in_the_register() {
    let none = Flags::default();
    assert_eq!(Flags::from_register(0), none);
    assert_eq!(Flags::from_register(0x001), Flags { carry: true, ..none });
    assert_eq!(Flags::from_register(0x004), Flags { parity: true, ..none });
    assert_eq!(Flags::from_register(0x010), Flags { auxiliary: true, ..none });
    assert_eq!(Flags::from_register(0x040), Flags { zero: true, ..none });
    assert_eq!(Flags::from_register(0x080), Flags { sign: true, ..none });
    assert_eq!(Flags::from_register(0x800), Flags { overflow: true, ..none });
}
