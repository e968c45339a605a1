/*
 * Hirtxonda for C and C++: a proved software model of the processor's SSE4.2 string compares, a
 * search over it, leading runs, the order of two texts, the running order of a day and its page for
 * the wall, and decimal columns.
 *
 * Link with crates/capi/out/libcapi.a, which `rt lib` in crates/capi proves and builds. The library
 * needs memcpy and memset and nothing else. It has no state, takes no memory but the stack, and may
 * be called from several threads at once.
 *
 * What is the same for all calls:
 *
 * - An accepted call returns 0. Only a search has other answers: HX_ABSENT, 256, says that there is
 *   no more match, and HX_FULL, 257, that the list of a fill is full. A fill never returns 0.
 * - A refused call returns the number of the refusal, one of HX_.._REFUSED below
 *   (docs/REFUSALS.md). It writes nothing: what stood behind each pointer still stands there.
 *   Where several numbers apply, it returns the lowest; only hx_report tests 7, 6, 3, and the
 *   searches test 31 before 22 and 23.
 * - A fill alone may return one of them and yet have written: HX_COMPARES_REFUSED, 23, can stop it
 *   after some matches. It is not refused then; by *count a caller sees which it was.
 * - Six functions refuse nothing and return no such number: hx_pcmpestri_0c and its three siblings
 *   return an index, hx_cursor_fresh and hx_refusal_line return nothing.
 * - The caller owns all memory. The library keeps no pointer after a call, and frees nothing.
 * - A pointer must not be null, also where its length is 0, and must be aligned for its type. A
 *   length is in elements: bytes, words of 16 bits, positions of 64, or the entries of a day, whose
 *   length is their count.
 * - What is written (cursor, index, flags, mask, positions, day, buffer, page, ..) must overlap
 *   nothing else that the call is handed. That holds for a day too, though its entries are all read
 *   before it is written.
 * - Every value is allowed for every number, and every byte in every buffer: each is answered or
 *   refused. A length above its limit is refused before any element is read. Any other length must
 *   be true: then nothing is read or written outside the buffers.
 */
#ifndef HIRTXONDA_H
#define HIRTXONDA_H

#include <stddef.h>
#include <stdint.h>

#ifdef __cplusplus
extern "C" {
#endif

/* ---- the numbers of refusals ---- */

#define HX_CONTROL_REFUSED 1u    /* a control above 127 */
#define HX_TEXT_REFUSED 2u       /* a text above 1,048,576 elements */
#define HX_NEEDLE_REFUSED 3u     /* a needle above 1,024 elements */
#define HX_LIST_REFUSED 4u       /* a set or a list of bounds above 16 bytes or 8 words */
#define HX_ODD_REFUSED 5u        /* a list of bounds with an odd count */
#define HX_FEED_REFUSED 6u       /* a report's input without a line feed */
#define HX_INPUT_REFUSED 7u      /* a report's input above 65,536 bytes */
#define HX_WIDTH_REFUSED 8u      /* a column's width of 0, above 20, or below the count of digits */
#define HX_EXHAUSTED_REFUSED 21u /* the cursor is exhausted */
#define HX_POSITION_REFUSED 22u  /* the cursor's position is above its stop + 1 */
#define HX_COMPARES_REFUSED 23u  /* the cursor has more than 1,099,511,627,776 compares */
#define HX_BUFFER_REFUSED 24u    /* a buffer shorter than the column's width */
#define HX_STOP_REFUSED 31u      /* the cursor's stop is above the text's length; before 22 */
#define HX_COUNT_REFUSED 32u     /* a day of more than 200 entries */
#define HX_ENTRY_REFUSED 33u     /* an entry with a minute above 1,439 or a name above 32 bytes */
#define HX_NUMBER_REFUSED 34u    /* a day with an entry number that stands twice */
#define HX_PAGE_REFUSED 35u      /* a day's page shorter than 50 bytes for each entry */

/* ---- limits ---- */

#define HX_LONGEST_TEXT 1048576u /* elements */
#define HX_LONGEST_NEEDLE 1024u  /* elements */
#define HX_MOST_COMPARES UINT64_C(1099511627776)
#define HX_LONGEST_LIST_IN_BYTES 16u /* of a set or of bounds */
#define HX_LONGEST_LIST_IN_WORDS 8u
#define HX_MOST_ENTRIES 200u /* of a day */
#define HX_LAST_MINUTE 1439u /* of an entry */
#define HX_LONGEST_NAME 32u  /* bytes, of an entry */
#define HX_DAY_LINE 50u      /* the bytes of an entry's line on the page of a day */
#define HX_WIDEST_COLUMN 20u
#define HX_LONGEST_INPUT 65536u
#define HX_LONGEST_REPORT 589843u /* the bytes of a report's page: enough for every input */
#define HX_NUMBER_LINE 9u         /* the bytes of a line with one number and its line feed */

/* ---- the string compare unit ----
 *
 * An operand is sixteen bytes: 16 elements of a byte, or 8 words with the low byte first. Below,
 * 16 (8) is 16 in bytes and 8 in words.
 *
 * The control byte is that of the instruction: bits 1:0 say what the elements are, 3:2 the
 * aggregation, 5:4 the polarity, 6 which index or mask is wanted. The result has a bit for each
 * element of operand 2.
 *
 * An explicit length has 64 bits, as in the forms of the instructions with REX.W. It counts by its
 * absolute value, and as 16 (8) where that is more; INT64_MIN counts as 16 (8) too. A length of 32
 * bits is passed by its value, sign kept: as an int32_t, not as a uint32_t. An implicit length is
 * the number of elements before the first zero.
 *
 * *flags is written with the flags in the places that they have in the register EFLAGS. Its other
 * bits are 0, and so are AF and PF.
 */

#define HX_CF 0x001u /* some bit of the result is set */
#define HX_PF 0x004u
#define HX_AF 0x010u
#define HX_ZF 0x040u /* operand 2 is shorter than 16 (8) elements */
#define HX_SF 0x080u /* operand 1 is */
#define HX_OF 0x800u /* bit 0 of the result */

/* PCMPESTRI has explicit lengths, PCMPISTRI implicit ones. They write *index and *flags. *index is
 * the least set bit of the result, with control bit 6 the greatest, or 16 (8) where none is set.
 * They return 0, or HX_CONTROL_REFUSED. */
uint32_t hx_pcmpestri(const uint8_t operand1[16], int64_t length1, const uint8_t operand2[16],
                      int64_t length2, uint8_t control, uint32_t *index, uint32_t *flags);
uint32_t hx_pcmpistri(const uint8_t operand1[16], const uint8_t operand2[16], uint8_t control,
                      uint32_t *index, uint32_t *flags);

/* PCMPESTRM has explicit lengths, PCMPISTRM implicit ones. They write mask and *flags. mask has the
 * bits of the result in its first two bytes, low byte first, and 0 in the others; with control bit
 * 6 it has elements, each with all bits set or none, as its bit of the result says. *flags is the
 * same with bit 6 and without. docs/PERFORMANCE.md says how much stack they take.
 * They return 0, or HX_CONTROL_REFUSED. */
uint32_t hx_pcmpestrm(const uint8_t operand1[16], int64_t length1, const uint8_t operand2[16],
                      int64_t length2, uint8_t control, uint8_t mask[16], uint32_t *flags);
uint32_t hx_pcmpistrm(const uint8_t operand1[16], const uint8_t operand2[16], uint8_t control,
                      uint8_t mask[16], uint32_t *flags);

/* The index that hx_pcmpestri writes at one control, for loops of a search. The lengths are not
 * negative; one above 16 (8) counts as 16 (8). They return the index, write nothing and refuse
 * nothing. 16 (8) stands for nowhere.
 *   0Ch in bytes, 0Dh in words: where operand 1 first stands in operand 2. At the end of an operand
 *     2 that is full, the front of operand 1 that fits is enough.
 *   18h in bytes, 19h in words: where the two first differ. */
uint32_t hx_pcmpestri_0c(const uint8_t operand1[16], size_t length1, const uint8_t operand2[16],
                         size_t length2);
uint32_t hx_pcmpestri_0d(const uint8_t operand1[16], size_t length1, const uint8_t operand2[16],
                         size_t length2);
uint32_t hx_pcmpestri_18(const uint8_t operand1[16], size_t length1, const uint8_t operand2[16],
                         size_t length2);
uint32_t hx_pcmpestri_19(const uint8_t operand1[16], size_t length1, const uint8_t operand2[16],
                         size_t length2);

/* ---- the search ----
 *
 * One match a call:
 *
 *     hx_cursor cursor;
 *     uint64_t position;
 *     uint32_t status;
 *     hx_cursor_fresh(&cursor, n);
 *     while ((status = hx_next_in_bytes(&cursor, text, n, needle, m, &position)) == HX_MATCH)
 *         printf("%" PRIu64 "\n", position);
 *     if (status != HX_ABSENT)
 *         printf("refused with number %" PRIu32 "\n", status);
 *
 * The same in lists of up to 256 matches, each by one call, a fill:
 *
 *     uint64_t positions[256];
 *     size_t count;
 *     hx_cursor_fresh(&cursor, n);
 *     do {
 *         count = 0; // a refused call leaves it as it is
 *         status = hx_fill_in_bytes(&cursor, text, n, needle, m, positions, 256, &count);
 *         for (size_t i = 0; i < count; i++)
 *             printf("%" PRIu64 "\n", positions[i]);
 *     } while (status == HX_FULL);
 *     if (status != HX_ABSENT)
 *         printf("refused or stopped with number %" PRIu32 "\n", status);
 *
 * A list of calls over one text and needle gives every position where the needle stands, the least
 * first, none skipped or repeated, then HX_ABSENT once, then HX_EXHAUSTED_REFUSED. An empty needle
 * stands at 0 up to the text's length. Next matches and fills of any size may be mixed, each with
 * the cursor of the last: they give the same positions in the same order.
 *
 * A cursor carries its stop, given when it is made: the search is that of the text's first stop
 * elements. With a stop of n it is that of the whole text, as above. With a lower one no match ends
 * past it, the text from there on is not read, and nothing there changes an answer: what is said
 * of the text's end then holds for the stop.
 */

/* Where a list of calls has got to. Any numbers may stand here; each cursor is answered or
 * refused. */
typedef struct hx_cursor {
    uint64_t position;  /* where the next call begins */
    uint64_t compares;  /* the compares of all calls so far */
    uint64_t exhausted; /* 0: not exhausted. A call writes 0 or 1; any number but 0 is read as 1. */
    uint64_t stop;      /* where the search ends; no call changes it */
} hx_cursor;

#define HX_MATCH 0u
#define HX_ABSENT 256u /* above every refusal's number */
#define HX_FULL 257u   /* the list of a fill is full */

/* Writes the cursor of a first call: 0, 0, 0 and the stop, at most the length of the text that is
 * to be searched. It refuses nothing: the calls that search do. */
void hx_cursor_fresh(hx_cursor *cursor, uint64_t stop);

/* Looks for the next match, from cursor->position on. An accepted call adds its compares to the
 * cursor's. They return
 *   HX_MATCH: *position is where the needle stands, and the cursor's position is the next one;
 *   HX_ABSENT: there is no more match; the cursor is exhausted, its position and *position stay;
 *   a refusal, tested in this order: HX_TEXT_REFUSED, HX_NEEDLE_REFUSED, HX_EXHAUSTED_REFUSED,
 *     HX_STOP_REFUSED, HX_POSITION_REFUSED, HX_COMPARES_REFUSED; all of *cursor and *position
 *     stay. */
uint32_t hx_next_in_bytes(hx_cursor *cursor, const uint8_t *text, size_t text_length,
                          const uint8_t *needle, size_t needle_length, uint64_t *position);
uint32_t hx_next_in_words(hx_cursor *cursor, const uint16_t *text, size_t text_length,
                          const uint16_t *needle, size_t needle_length, uint64_t *position);

/* A fill: next match repeated until the list is full or a call gives no match, and nothing else.
 * The positions found stand at the front of the list, in their order; the rest of the list stays as
 * it was, whatever is returned. There is room for positions_length of them, which has no limit.
 * What a next match is refused for is tested before each match, and once where the list is empty.
 * They return
 *   HX_FULL: the list is full; *count is positions_length. It is returned as soon as the last place
 *     is filled, with no further test or compare: there may be more matches or none. An empty list
 *     is full at once: *count is 0, and the cursor stays;
 *   HX_ABSENT: there is no more match; *count were found, perhaps 0. The cursor is exhausted; its
 *     position is the one after the last of them, or stays where there is none;
 *   HX_COMPARES_REFUSED after some matches: stopped, as the cursor has too many compares by then.
 *     *count were found, and *cursor is the one after them;
 *   a refusal, before the first match: HX_TEXT_REFUSED, HX_NEEDLE_REFUSED, HX_EXHAUSTED_REFUSED,
 *     HX_STOP_REFUSED, HX_POSITION_REFUSED or HX_COMPARES_REFUSED, as of next match; all of
 *     *cursor, *count and the list stay.
 * So HX_COMPARES_REFUSED means stopped or refused. Set *count to 0 before the call: stopped, it is
 * above 0 after it; refused, it still is 0. Calls over one text and needle that began with a fresh
 * cursor never come to so many compares. */
uint32_t hx_fill_in_bytes(hx_cursor *cursor, const uint8_t *text, size_t text_length,
                          const uint8_t *needle, size_t needle_length, uint64_t *positions,
                          size_t positions_length, size_t *count);
uint32_t hx_fill_in_words(hx_cursor *cursor, const uint16_t *text, size_t text_length,
                          const uint16_t *needle, size_t needle_length, uint64_t *positions,
                          size_t positions_length, size_t *count);

/* ---- leading runs ----
 *
 * A leading run is the longest front of the text whose elements all belong. */

/* Writes to *span how many elements the run has whose elements are all in the set.
 * They return 0, or HX_TEXT_REFUSED or HX_LIST_REFUSED. */
uint32_t hx_span_in_bytes(const uint8_t *text, size_t text_length, const uint8_t *set,
                          size_t set_length, size_t *span);
uint32_t hx_span_in_words(const uint16_t *text, size_t text_length, const uint16_t *set,
                          size_t set_length, size_t *span);

/* Writes to *span how many elements the run has whose elements each lie in one of the ranges. The
 * bounds stand in pairs, low and high, and belong to their range; a low bound above its high one
 * makes an empty range. is_signed: 0 for unsigned elements, any other number for two's complement.
 * They return 0, or HX_TEXT_REFUSED, HX_LIST_REFUSED or HX_ODD_REFUSED. */
uint32_t hx_range_span_in_bytes(const uint8_t *text, size_t text_length, const uint8_t *bounds,
                                size_t bounds_length, uint32_t is_signed, size_t *span);
uint32_t hx_range_span_in_words(const uint16_t *text, size_t text_length, const uint16_t *bounds,
                                size_t bounds_length, uint32_t is_signed, size_t *span);

/* ---- the order of two texts ----
 *
 * At the first difference the smaller element decides; if one text is the front of the other, the
 * shorter is smaller. is_signed: 0 for unsigned elements, any other number for two's complement. */

/* Writes to *order -1 where the first text is smaller, 0 where they are equal, else 1.
 * They return 0, or HX_TEXT_REFUSED. */
uint32_t hx_compare_in_bytes(const uint8_t *first, size_t first_length, const uint8_t *second,
                             size_t second_length, uint32_t is_signed, int32_t *order);
uint32_t hx_compare_in_words(const uint16_t *first, size_t first_length, const uint16_t *second,
                             size_t second_length, uint32_t is_signed, int32_t *order);

/* Writes to *which 1 where the second text is smaller, else 0: the first, also when they are equal.
 * They return 0, or HX_TEXT_REFUSED. */
uint32_t hx_lesser_in_bytes(const uint8_t *first, size_t first_length, const uint8_t *second,
                            size_t second_length, uint32_t is_signed, uint32_t *which);
uint32_t hx_lesser_in_words(const uint16_t *first, size_t first_length, const uint16_t *second,
                            size_t second_length, uint32_t is_signed, uint32_t *which);

/* ---- the running order of a day ----
 *
 * The services of a day, sorted by minute, then by name, then by entry number. One set of entries
 * makes one day, byte for byte, in whatever order they are handed over:
 *
 *     hx_entry entries[3] = {{8, 630, 5, "SMITH"}, {3, 545, 5, "OTWAY"}, {5, 630, 5, "JONES"}};
 *     hx_day day;
 *     uint32_t status = hx_day_of(entries, 3, &day);
 *     if (status != 0)
 *         printf("refused with number %" PRIu32 "\n", status);
 *     for (size_t i = 0; status == 0 && i < day.count; i++)
 *         printf("%" PRIu32 "\n", day.entries[i].number); // 3, 5, 8
 *
 * Of two names, at the first difference the smaller byte decides, as an unsigned number; if one is
 * the front of the other, the shorter is smaller. A zero is a byte like any other. What stands past
 * a name's length is no part of it, and decides nothing.
 */

/* A service. Any numbers and bytes may stand here; each entry is accepted or refused. */
typedef struct hx_entry {
    uint32_t number;               /* no two entries of a day have the same */
    uint16_t minute;               /* of the day, at most HX_LAST_MINUTE */
    uint16_t length;               /* of the name, in bytes, at most HX_LONGEST_NAME */
    uint8_t name[HX_LONGEST_NAME]; /* the bytes past the length may be any */
} hx_entry;

/* A day: its entries in their order, then zeros up to the last place. */
typedef struct hx_day {
    hx_entry entries[HX_MOST_ENTRIES];
    uint64_t count;
} hx_day;

/* The library takes an entry as 40 bytes, each number with its low byte first. */
#if defined(__BYTE_ORDER__) && __BYTE_ORDER__ != __ORDER_LITTLE_ENDIAN__
#error "hirtxonda.h: this machine does not have the low byte first"
#endif
typedef char hx_entry_has_40_bytes[sizeof(hx_entry) == 40 ? 1 : -1];
typedef char hx_day_has_8008_bytes[sizeof(hx_day) == 8008 ? 1 : -1];

/* The library's own call, for hx_day_of below: the places of a day and its count, each apart. */
uint32_t hx_day_of_parts(const hx_entry *entries, size_t count, hx_entry day[HX_MOST_ENTRIES],
                         uint64_t *day_count);

/* Writes to *day the running order of the first `count` entries, the whole of it: these entries
 * sorted, the bytes of each name past its length zero; all zeros in the places past the count; and
 * the count. No entry past the count is read.
 * It returns 0, or, tested in this order,
 *   HX_COUNT_REFUSED: the count is above HX_MOST_ENTRIES; no entry is read;
 *   HX_ENTRY_REFUSED: an entry has a minute above HX_LAST_MINUTE or a length above HX_LONGEST_NAME;
 *   HX_NUMBER_REFUSED: two entries have the same number. */
static inline uint32_t hx_day_of(const hx_entry *entries, size_t count, hx_day *day)
{
    return hx_day_of_parts(entries, count, day->entries, &day->count);
}

/* ---- the page of a day ----
 *
 * The page that goes up on the wall: a line for each entry, in the order in which the entries are
 * handed over. Of a day that is its running order:
 *
 *     hx_entry entries[2] = {{8, 630, 5, "SMITH"}, {7, 545, 5, "OTWAY"}};
 *     hx_day day;
 *     uint8_t page[HX_MOST_ENTRIES * HX_DAY_LINE];
 *     uint32_t status = hx_day_of(entries, 2, &day);
 *     if (status == 0)
 *         status = hx_day_page(day.entries, day.count, page, sizeof page);
 *     if (status == 0)
 *         fwrite(page, HX_DAY_LINE, day.count, stdout);
 *     else
 *         printf("refused with number %" PRIu32 "\n", status);
 *
 * It prints, with spaces after each name:
 *
 *              7 09:05 OTWAY
 *              8 10:30 SMITH
 *
 * A line has the entry number in decimal, right-justified in 10 bytes, a space, the time as two
 * digits, a colon and two digits, a space, the name in 32 bytes with spaces after it, and a line
 * feed. A byte of the name that is not in 32 to 126 prints as a question mark.
 */

/* Writes to the page the lines of the first `count` entries, that of entry r from byte
 * HX_DAY_LINE * r on; the bytes after the last line stay. Nothing is sorted, and a number may stand
 * twice. What stands past a name's length is not printed, and no entry past the count is read.
 * It returns 0, or, tested in this order,
 *   HX_COUNT_REFUSED: the count is above HX_MOST_ENTRIES; no entry is read;
 *   HX_ENTRY_REFUSED: an entry has a minute above HX_LAST_MINUTE or a length above HX_LONGEST_NAME;
 *   HX_PAGE_REFUSED: the page is shorter than HX_DAY_LINE * count. */
uint32_t hx_day_page(const hx_entry *entries, size_t count, uint8_t *page, size_t page_length);

/* ---- columns and the report ---- */

/* Writes the number in decimal to the first `width` bytes of the buffer, right-justified with
 * spaces; the bytes after them stay.
 * It returns 0, or HX_WIDTH_REFUSED or HX_BUFFER_REFUSED. */
uint32_t hx_right_justified(uint64_t number, size_t width, uint8_t *buffer, size_t buffer_length);

/* Writes to the front of the page the lines that the program `hits` prints for this input (needle,
 * line feed, text), and to *written how many bytes they are; the bytes of the page after them stay.
 * It returns 0, or, tested in this order, HX_INPUT_REFUSED, HX_FEED_REFUSED, HX_NEEDLE_REFUSED. */
uint32_t hx_report(const uint8_t *input, size_t input_length, uint8_t page[HX_LONGEST_REPORT],
                   size_t *written);

/* Writes the line that the program `hits` prints for an input that is refused by this number: the
 * number in 8 columns, and a line feed. A number of more than 8 digits, which no refusal has, gets
 * 8 spaces. It refuses nothing. */
void hx_refusal_line(uint32_t number, uint8_t line[HX_NUMBER_LINE]);

#ifdef __cplusplus
}
#endif

#endif
