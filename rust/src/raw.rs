//! The C interface as it is. include/hirtxonda.h says what each call asks of its pointers.

/// `hx_cursor`.
#[repr(C)]
#[derive(Clone, Copy, Debug, PartialEq, Eq)]
pub struct Cursor {
    pub position: u64,
    pub compares: u64,
    pub exhausted: u64,
    pub stop: u64,
}

/// `hx_entry`.
#[repr(C)]
#[derive(Clone, Copy, Debug, PartialEq, Eq, Hash)]
pub struct Entry {
    pub number: u32,
    pub minute: u16,
    pub length: u16,
    pub name: [u8; 32],
}

// The library takes an entry as these bytes, each number with its low byte first.
const _: () = assert!(std::mem::size_of::<Entry>() == 40 && cfg!(target_endian = "little"));

/// What an accepted search returns where there is no more match.
pub const ABSENT: u32 = 256;

/// What a fill returns where its list is full.
pub const FULL: u32 = 257;

type Block = *const [u8; 16];
pub type NextMatch<E> = unsafe extern "C" fn(*mut Cursor, *const E, usize, *const E, usize, *mut u64) -> u32;
pub type Fill<E> =
    unsafe extern "C" fn(*mut Cursor, *const E, usize, *const E, usize, *mut u64, usize, *mut usize) -> u32;
pub type Span<E> = unsafe extern "C" fn(*const E, usize, *const E, usize, *mut usize) -> u32;
pub type Signed<E, Answer> = unsafe extern "C" fn(*const E, usize, *const E, usize, u32, *mut Answer) -> u32;

macro_rules! declarations {
    ($($e:ty: $next:ident $fill:ident $span:ident $range_span:ident $compare:ident $lesser:ident;)*) => {
        extern "C" { $(
            pub fn $next(c: *mut Cursor, text: *const $e, n: usize, needle: *const $e, m: usize, p: *mut u64) -> u32;
            pub fn $fill(
                c: *mut Cursor, text: *const $e, n: usize, needle: *const $e, m: usize, list: *mut u64, length: usize,
                count: *mut usize,
            ) -> u32;
            pub fn $span(text: *const $e, n: usize, set: *const $e, m: usize, span: *mut usize) -> u32;
            pub fn $range_span(text: *const $e, n: usize, bounds: *const $e, m: usize, s: u32, span: *mut usize) -> u32;
            pub fn $compare(first: *const $e, n: usize, second: *const $e, m: usize, s: u32, order: *mut i32) -> u32;
            pub fn $lesser(first: *const $e, n: usize, second: *const $e, m: usize, s: u32, which: *mut u32) -> u32;
        )* }

        $(impl Calls for $e {
            const NEXT: NextMatch<$e> = $next;
            const FILL: Fill<$e> = $fill;
            const SPAN: Span<$e> = $span;
            const RANGE_SPAN: Signed<$e, usize> = $range_span;
            const COMPARE: Signed<$e, i32> = $compare;
            const LESSER: Signed<$e, u32> = $lesser;
        })*
    };
}

/// The calls that there are for each width.
pub trait Calls: Sized {
    const NEXT: NextMatch<Self>;
    const FILL: Fill<Self>;
    const SPAN: Span<Self>;
    const RANGE_SPAN: Signed<Self, usize>;
    const COMPARE: Signed<Self, i32>;
    const LESSER: Signed<Self, u32>;
}

declarations! {
    u8: hx_next_in_bytes hx_fill_in_bytes hx_span_in_bytes hx_range_span_in_bytes hx_compare_in_bytes
        hx_lesser_in_bytes;
    u16: hx_next_in_words hx_fill_in_words hx_span_in_words hx_range_span_in_words hx_compare_in_words
        hx_lesser_in_words;
}

extern "C" {
    pub fn hx_pcmpestri(
        operand1: Block,
        length1: i64,
        operand2: Block,
        length2: i64,
        control: u8,
        index: *mut u32,
        flags: *mut u32,
    ) -> u32;
    pub fn hx_pcmpestrm(
        operand1: Block,
        length1: i64,
        operand2: Block,
        length2: i64,
        control: u8,
        mask: *mut [u8; 16],
        flags: *mut u32,
    ) -> u32;
    pub fn hx_pcmpistri(operand1: Block, operand2: Block, control: u8, index: *mut u32, flags: *mut u32) -> u32;
    pub fn hx_pcmpistrm(operand1: Block, operand2: Block, control: u8, mask: *mut [u8; 16], flags: *mut u32) -> u32;
    pub fn hx_pcmpestri_0c(operand1: Block, length1: usize, operand2: Block, length2: usize) -> u32;
    pub fn hx_pcmpestri_0d(operand1: Block, length1: usize, operand2: Block, length2: usize) -> u32;
    pub fn hx_pcmpestri_18(operand1: Block, length1: usize, operand2: Block, length2: usize) -> u32;
    pub fn hx_pcmpestri_19(operand1: Block, length1: usize, operand2: Block, length2: usize) -> u32;
    #[allow(dead_code)] // a fresh cursor needs no call
    pub fn hx_cursor_fresh(cursor: *mut Cursor, stop: u64);
    pub fn hx_day_of_parts(entries: *const Entry, count: usize, day: *mut Entry, day_count: *mut u64) -> u32;
    pub fn hx_day_page(entries: *const Entry, count: usize, page: *mut u8, page_length: usize) -> u32;
    pub fn hx_right_justified(number: u64, width: usize, buffer: *mut u8, buffer_length: usize) -> u32;
    pub fn hx_report(input: *const u8, input_length: usize, page: *mut u8, written: *mut usize) -> u32;
    pub fn hx_refusal_line(number: u32, line: *mut u8);
}
