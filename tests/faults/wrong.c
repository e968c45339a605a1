/*
 * Wrong versions of the library's functions, to see that faults.c finds them. Linked with
 * -Wl,--wrap=NAME for each function here: a call of NAME gets __wrap_NAME, and the library's own is
 * __real_NAME. The environment variable WRONG has the number of the mistake; without it, every call
 * does what the library does.
 */
#include <inttypes.h>
#include <stdio.h>
#include <stdlib.h>
#include <string.h>

#include "hirtxonda.h"

static volatile uint8_t sink;

static int wrong(int number)
{
    static int chosen = -1;
    if (chosen < 0)
        chosen = getenv("WRONG") != NULL ? atoi(getenv("WRONG")) : 0;
    return chosen == number;
}

#define WRAPPED(type, name, parameters)                                                                                \
    type __real_##name parameters;                                                                                     \
    type __wrap_##name parameters;                                                                                     \
    type __wrap_##name parameters

WRAPPED(uint32_t, hx_pcmpestri,
        (const uint8_t *operand1, int64_t length1, const uint8_t *operand2, int64_t length2, uint8_t control,
         uint32_t *index, uint32_t *flags))
{
    if (wrong(82)) { /* a length is cut to its low 32 bits */
        length1 = (int32_t)length1;
        length2 = (int32_t)length2;
    }
    /* a length of 32 bits is widened without its sign */
    if (wrong(83) && length1 == (int32_t)length1)
        length1 = (uint32_t)length1;
    uint32_t r = __real_hx_pcmpestri(operand1, length1, operand2, length2, control, index, flags);
    if (wrong(1)) /* reads behind operand 1 */
        sink = operand1[16];
    if (wrong(2) && r == 0) /* bit 1 of EFLAGS, which is no flag */
        *flags |= 2;
    if (wrong(3) && r == 0 && *index == 8) /* 16 for none, also in words */
        *index = 16;
    return r;
}

WRAPPED(uint32_t, hx_pcmpistri,
        (const uint8_t *operand1, const uint8_t *operand2, uint8_t control, uint32_t *index, uint32_t *flags))
{
    uint32_t r = __real_hx_pcmpistri(operand1, operand2, control, index, flags);
    if (wrong(4) && r != 0) /* a refused call writes */
        *index = 0;
    if (wrong(5)) /* a control above 127 is taken for the one 128 below */
        return __real_hx_pcmpistri(operand1, operand2, control & 127, index, flags);
    return r;
}

WRAPPED(uint32_t, hx_pcmpestrm,
        (const uint8_t *operand1, int64_t length1, const uint8_t *operand2, int64_t length2, uint8_t control,
         uint8_t *mask, uint32_t *flags))
{
    /* a length of 32 bits is widened without its sign */
    if (wrong(84) && length2 == (int32_t)length2)
        length2 = (uint32_t)length2;
    if (wrong(85) && length1 == INT64_MIN) /* the least length stays negative, and counts as none */
        length1 = 0;
    if (wrong(86)) /* a length is cut to its low 32 bits */
        length2 = (int32_t)length2;
    uint32_t r = __real_hx_pcmpestrm(operand1, length1, operand2, length2, control, mask, flags);
    if (wrong(6)) /* writes behind the mask */
        mask[16] = (uint8_t)~mask[16];
    if (wrong(7) && r == 0) /* writes far from it */
        mask[1000] = (uint8_t)~mask[1000];
    return r;
}

WRAPPED(uint32_t, hx_pcmpistrm,
        (const uint8_t *operand1, const uint8_t *operand2, uint8_t control, uint8_t *mask, uint32_t *flags))
{
    if (wrong(8)) /* reads before operand 2 */
        sink = operand2[-1];
    return __real_hx_pcmpistrm(operand1, operand2, control, mask, flags);
}

WRAPPED(uint32_t, hx_pcmpestri_0d, (const uint8_t *operand1, size_t length1, const uint8_t *operand2, size_t length2))
{
    if (wrong(9)) /* a length above 32 bits is cut */
        return __real_hx_pcmpestri_0d(operand1, (uint32_t)length1, operand2, (uint32_t)length2);
    return __real_hx_pcmpestri_0d(operand1, length1, operand2, length2);
}

WRAPPED(void, hx_cursor_fresh, (hx_cursor * cursor, uint64_t stop))
{
    hx_cursor old = *cursor;
    __real_hx_cursor_fresh(cursor, stop);
    if (wrong(10)) /* one number stays */
        cursor->exhausted = old.exhausted;
    if (wrong(60)) /* the stop stays */
        cursor->stop = old.stop;
    if (wrong(61) && stop > HX_LONGEST_TEXT) /* another stop, the longest text's */
        cursor->stop = HX_LONGEST_TEXT;
}

WRAPPED(uint32_t, hx_next_in_bytes,
        (hx_cursor * cursor, const uint8_t *text, size_t text_length, const uint8_t *needle, size_t needle_length,
         uint64_t *position))
{
    if (wrong(11)) /* reads a text of any length */
        sink = text_length != 0 ? text[0] : 0;
    uint64_t from = cursor->position, stop = cursor->stop;
    if (wrong(62) && stop < text_length) /* the stop is not looked at */
        cursor->stop = text_length;
    if (wrong(63) && stop < text_length && from <= stop) /* a match may end one past the stop */
        cursor->stop++;
    uint32_t r = __real_hx_next_in_bytes(cursor, text, text_length, needle, needle_length, position);
    if (wrong(62) || wrong(63))
        cursor->stop = stop;
    if (wrong(64) && r == HX_POSITION_REFUSED && from <= text_length + 1) { /* 22 is tested by n */
        cursor->exhausted = 1;
        return HX_ABSENT;
    }
    if (wrong(65) && r == HX_STOP_REFUSED && from > text_length + 1) /* 31 after 22 */
        return HX_POSITION_REFUSED;
    /* reads past the stop */
    if (wrong(66) && (r == HX_MATCH || r == HX_ABSENT) && stop < text_length)
        sink = text[stop];
    if (wrong(12) && r == HX_MATCH) /* reads behind the text */
        sink = text[text_length];
    if (wrong(13) && r == HX_ABSENT) /* tells a position with absent */
        *position = from;
    /* the higher number first */
    if (wrong(14) && r == HX_EXHAUSTED_REFUSED && from > text_length + 1)
        return HX_POSITION_REFUSED;
    if (wrong(15) && r == HX_COMPARES_REFUSED) /* a number that is none */
        return 25;
    return r;
}

WRAPPED(uint32_t, hx_next_in_words,
        (hx_cursor * cursor, const uint16_t *text, size_t text_length, const uint16_t *needle, size_t needle_length,
         uint64_t *position))
{
    hx_cursor old = *cursor, whole = old;
    uint64_t ahead;
    whole.stop = text_length;
    /* a stop of n is refused */
    if (wrong(68) && text_length <= HX_LONGEST_TEXT && needle_length <= HX_LONGEST_NEEDLE && old.exhausted == 0 &&
        old.stop == text_length)
        return HX_STOP_REFUSED;
    if (wrong(72) && old.stop == UINT64_MAX) /* the greatest number is no stop */
        cursor->stop = text_length;
    uint32_t r = __real_hx_next_in_words(cursor, text, text_length, needle, needle_length, position);
    if (wrong(72))
        cursor->stop = old.stop;
    if (wrong(67) && r == HX_EXHAUSTED_REFUSED && old.stop > text_length) /* 31 before 21 */
        return HX_STOP_REFUSED;
    if (wrong(69) && r == HX_MATCH) /* loses the stop after a match */
        cursor->stop = text_length;
    if (wrong(70) && r == HX_ABSENT) /* and after absent */
        cursor->stop = text_length;
    if (wrong(71) && r == HX_ABSENT) { /* blocks reach past the stop, and no match does */
        __real_hx_next_in_words(&whole, text, text_length, needle, needle_length, &ahead);
        cursor->compares = whole.compares;
    }
    if (wrong(16) && r == HX_EXHAUSTED_REFUSED) /* a refused call writes 1 for what is not 0 */
        cursor->exhausted = 1;
    if (wrong(17) && r == HX_MATCH && needle_length != 0) /* reads before the needle */
        sink = (uint8_t)needle[-1];
    if (wrong(18) && r == HX_MATCH) /* skips a position */
        cursor->position++;
    return r;
}

static int same(const hx_cursor *a, const hx_cursor *b) { return memcmp(a, b, sizeof *a) == 0; }

WRAPPED(uint32_t, hx_fill_in_bytes,
        (hx_cursor * cursor, const uint8_t *text, size_t text_length, const uint8_t *needle, size_t needle_length,
         uint64_t *positions, size_t positions_length, size_t *count))
{
    hx_cursor old = *cursor, ahead;
    size_t old_count = *count;
    uint64_t position;
    if (wrong(39) && positions_length == 0) { /* an empty list is full, and nothing is tested */
        *count = 0;
        return HX_FULL;
    }
    if (wrong(73) && old.stop < text_length) /* the stop is not looked at */
        cursor->stop = text_length;
    uint32_t r = __real_hx_fill_in_bytes(cursor, text, text_length, needle, needle_length, positions, positions_length,
                                         count);
    if (wrong(73))
        cursor->stop = old.stop;
    /* 31 is not tested for an empty list */
    if (wrong(75) && r == HX_STOP_REFUSED && positions_length == 0) {
        *count = 0;
        return HX_FULL;
    }
    if (wrong(77) && r == HX_STOP_REFUSED && old.compares > HX_MOST_COMPARES) /* 31 after 23 */
        return HX_COMPARES_REFUSED;
    if (wrong(76) && r >= HX_ABSENT && old.stop < text_length) /* reads past the stop */
        sink = text[old.stop];
    int refused = r < HX_ABSENT && same(cursor, &old), stopped = r < HX_ABSENT && !refused;
    if (wrong(40) && r == HX_FULL) /* writes behind the list */
        positions[positions_length] = 0;
    /* ends the positions by a number that is none */
    if (wrong(41) && r == HX_ABSENT && *count < positions_length)
        positions[*count] = UINT64_MAX;
    if (wrong(42) && refused) /* a refused call tells 0 matches */
        *count = 0;
    ahead = *cursor;
    /* looks for one more match where the list is full */
    if (wrong(43) && r == HX_FULL &&
        __real_hx_next_in_bytes(&ahead, text, text_length, needle, needle_length, &position) == HX_ABSENT) {
        *cursor = ahead;
        return HX_ABSENT;
    }
    if (wrong(44) && stopped) { /* stopped, it leaves cursor and count as if it were refused */
        *cursor = old;
        *count = old_count;
    }
    if (wrong(45) && stopped) /* stopped, it tells that there is no more match */
        return HX_ABSENT;
    /* lets the next call find the last match again */
    if (wrong(46) && r == HX_FULL && positions_length != 0)
        cursor->position--;
    if (wrong(47) && r == HX_FULL && text_length != 0) /* reads behind the text */
        sink = text[text_length];
    if (wrong(74) && r == HX_FULL) /* loses the stop where the list is full */
        cursor->stop = text_length;
    return r;
}

WRAPPED(uint32_t, hx_fill_in_words,
        (hx_cursor * cursor, const uint16_t *text, size_t text_length, const uint16_t *needle, size_t needle_length,
         uint64_t *positions, size_t positions_length, size_t *count))
{
    hx_cursor old = *cursor;
    size_t old_count = *count;
    /* tests the compares before the first match alone */
    if (wrong(48) && old.compares <= HX_MOST_COMPARES)
        cursor->compares = 0;
    /* a match may end one past the stop */
    if (wrong(78) && old.stop < text_length && old.position <= old.stop)
        cursor->stop++;
    uint32_t r = __real_hx_fill_in_words(cursor, text, text_length, needle, needle_length, positions, positions_length,
                                         count);
    if (wrong(78))
        cursor->stop = old.stop;
    /* 22 is tested by n */
    if (wrong(80) && r == HX_POSITION_REFUSED && old.position <= text_length + 1) {
        *count = 0;
        cursor->exhausted = positions_length != 0;
        return positions_length != 0 ? HX_ABSENT : HX_FULL;
    }
    if (wrong(48) && old.compares <= HX_MOST_COMPARES)
        cursor->compares += old.compares;
    int refused = r < HX_ABSENT && same(cursor, &old), stopped = r < HX_ABSENT && !refused;
    /* tests once more where the list is full */
    if (wrong(49) && r == HX_FULL && cursor->compares > HX_MOST_COMPARES)
        return HX_COMPARES_REFUSED;
    if (wrong(50) && r == HX_FULL) /* skips a position between two lists */
        cursor->position++;
    if (wrong(51) && r == HX_ABSENT) /* absent puts the position behind the text */
        cursor->position = text_length + 1;
    if (wrong(52) && r == HX_ABSENT && cursor->compares > old.compares) /* a compare too few */
        cursor->compares--;
    if (wrong(53) && r == HX_ABSENT && *count == 0) /* leaves a count of 0 unwritten */
        *count = old_count;
    if (wrong(54) && r >= HX_ABSENT && *count > 1) { /* the greatest first */
        uint64_t first = positions[0];
        positions[0] = positions[*count - 1];
        positions[*count - 1] = first;
    }
    if (wrong(55) && refused && positions_length != 0) /* a refused call writes into the list */
        positions[0] = 0;
    if (wrong(56) && r == HX_EXHAUSTED_REFUSED) /* and 1 for what is not 0 */
        cursor->exhausted = 1;
    if (wrong(57) && stopped) /* stopped, it tells one match less */
        --*count;
    if (wrong(58) && r == HX_FULL && positions_length == 0) /* writes nothing for an empty list */
        *count = old_count;
    if (wrong(59)) /* reads before the list */
        sink = (uint8_t)positions[-1];
    if (wrong(79) && r == HX_ABSENT) /* loses the stop where there is no more match */
        cursor->stop = text_length;
    if (wrong(81) && r == HX_STOP_REFUSED) /* a refused call writes the stop that it would take */
        cursor->stop = text_length;
    return r;
}

WRAPPED(uint32_t, hx_span_in_bytes,
        (const uint8_t *text, size_t text_length, const uint8_t *set, size_t set_length, size_t *span))
{
    uint32_t r = __real_hx_span_in_bytes(text, text_length, set, set_length, span);
    if (wrong(19) && r == 0) /* reads a block of sixteen from the set */
        for (int i = 0; i < 16; i++)
            sink = set[i];
    if (wrong(20) && r == 0 && *span == text_length) /* one more than there are */
        ++*span;
    return r;
}

WRAPPED(uint32_t, hx_range_span_in_words,
        (const uint16_t *text, size_t text_length, const uint16_t *bounds, size_t bounds_length, uint32_t is_signed,
         size_t *span))
{
    uint32_t r = __real_hx_range_span_in_words(text, text_length, bounds, bounds_length, is_signed, span);
    if (wrong(21) && r == HX_LIST_REFUSED && bounds_length % 2 != 0) /* the higher number first */
        return HX_ODD_REFUSED;
    if (wrong(22)) /* only 1 is true */
        return __real_hx_range_span_in_words(text, text_length, bounds, bounds_length, is_signed == 1, span);
    return r;
}

WRAPPED(uint32_t, hx_compare_in_bytes,
        (const uint8_t *first, size_t first_length, const uint8_t *second, size_t second_length, uint32_t is_signed,
         int32_t *order))
{
    uint32_t r = __real_hx_compare_in_bytes(first, first_length, second, second_length, is_signed, order);
    if (wrong(23) && r == 0 && first_length != 0) /* changes an input */
        ((uint8_t *)(uintptr_t)first)[first_length - 1] ^= 1;
    if (wrong(24) && r == 0 && *order == 1) /* an order that is none */
        *order = 2;
    return r;
}

WRAPPED(uint32_t, hx_lesser_in_words,
        (const uint16_t *first, size_t first_length, const uint16_t *second, size_t second_length, uint32_t is_signed,
         uint32_t *which))
{
    uint32_t r = __real_hx_lesser_in_words(first, first_length, second, second_length, is_signed, which);
    if (wrong(25) && r == 0) /* 2 for the second */
        *which *= 2;
    if (wrong(26) && r == HX_TEXT_REFUSED) /* a refused call writes */
        *which = 0;
    return r;
}

/* The entry with this number, which one of them has. */
static const hx_entry *entry_of(const hx_entry *entries, uint32_t number)
{
    while (entries->number != number)
        entries++;
    return entries;
}

/* The order of two entries of a day, with a mistake. */
static int wrongly_before(const hx_entry *entries, const hx_entry *x, const hx_entry *y)
{
    if (x->minute != y->minute)
        return x->minute < y->minute;
    if (wrong(87)) /* the number before the name */
        return x->number < y->number;
    if (wrong(114)) { /* the bytes past a name decide, before they are cleared */
        int order = memcmp(entry_of(entries, x->number)->name, entry_of(entries, y->number)->name, HX_LONGEST_NAME);
        if (order != 0)
            return order < 0;
    }
    for (int i = 0; i < x->length && i < y->length; i++)
        if (x->name[i] != y->name[i])
            /* names are signed */
            return wrong(88) ? (int8_t)x->name[i] < (int8_t)y->name[i] : x->name[i] < y->name[i];
    if (x->length != y->length)
        /* the longer is smaller */
        return wrong(89) ? x->length > y->length : x->length < y->length;
    /* the greater number first */
    return wrong(90) ? x->number > y->number : x->number < y->number;
}

/* Sorts a day once more, by that order. */
static void sort_wrongly(const hx_entry *entries, size_t count, hx_entry *day)
{
    for (size_t i = 1; i < count; i++)
        for (size_t j = i; j > 0 && wrongly_before(entries, &day[j], &day[j - 1]); j--) {
            hx_entry other = day[j];
            day[j] = day[j - 1];
            day[j - 1] = other;
        }
}

/* How many pairs of entries have one number. */
static size_t doubled(const hx_entry *entries, size_t count)
{
    size_t found = 0;
    for (size_t i = 0; i < count; i++)
        for (size_t j = 0; j < i; j++)
            found += entries[i].number == entries[j].number;
    return found;
}

/* How many entries are refused by 33. */
static size_t bad(const hx_entry *entries, size_t count)
{
    size_t found = 0;
    for (size_t i = 0; i < count; i++)
        found += entries[i].minute > HX_LAST_MINUTE || entries[i].length > HX_LONGEST_NAME;
    return found;
}

/* An accepted day, made wrong. */
static void spoil_day(const hx_entry *entries, size_t count, hx_entry *day, uint64_t *day_count, const hx_entry *old,
                      uint64_t old_count)
{
    if (wrong(87) || wrong(88) || wrong(89) || wrong(90) || wrong(114))
        sort_wrongly(entries, count, day);
    /* the bytes past a name stay */
    for (size_t i = 0; wrong(91) && i < count; i++)
        memcpy(day[i].name, entry_of(entries, day[i].number)->name, sizeof day[i].name);
    if (wrong(92)) /* the places past the count stay */
        memcpy(day + count, old + count, (HX_MOST_ENTRIES - count) * sizeof *day);
    if (wrong(93) && count < HX_MOST_ENTRIES) /* or the last of them alone */
        day[HX_MOST_ENTRIES - 1] = old[HX_MOST_ENTRIES - 1];
    if (wrong(94) && count > 1) /* one entry twice, and one lost */
        day[count - 1] = day[count - 2];
    if (wrong(95) && count > 2) { /* the last but two and the last are exchanged */
        hx_entry other = day[count - 3];
        day[count - 3] = day[count - 1];
        day[count - 1] = other;
    }
    if (wrong(96) && count == 0) /* a count of 0 is not written */
        *day_count = old_count;
    if (wrong(97) && count == HX_MOST_ENTRIES) /* a count of one less */
        --*day_count;
    if (wrong(98)) /* reads the entry past the count */
        sink = (uint8_t)entries[count].minute;
    if (wrong(99)) /* reads before the entries */
        sink = (uint8_t)entries[-1].minute;
    if (wrong(100)) /* writes before the day */
        day[-1].minute = 0;
    if (wrong(101)) /* sorts the entries where they are */
        memcpy((hx_entry *)(uintptr_t)entries, day, count * sizeof *day);
    if (wrong(102)) /* writes behind the count, or behind the day */
        day_count[1] = 0;
}

WRAPPED(uint32_t, hx_day_of_parts, (const hx_entry *entries, size_t count, hx_entry *day, uint64_t *day_count))
{
    static hx_entry old[HX_MOST_ENTRIES];
    uint64_t old_count = *day_count;
    memcpy(old, day, sizeof old);
    if (wrong(103)) /* a count is cut to its low 32 bits */
        count = (uint32_t)count;
    if (wrong(104) && count > HX_MOST_ENTRIES) /* reads an entry before it refuses the count */
        sink = (uint8_t)entries->minute;
    uint32_t r = __real_hx_day_of_parts(entries, count, day, day_count);
    if (r == 0)
        spoil_day(entries, count, day, day_count, old, old_count);
    /* the last entry is not tested */
    if (wrong(105) && r == HX_ENTRY_REFUSED && bad(entries, count - 1) == 0)
        return 0;
    /* the first is not */
    if (wrong(106) && r == HX_ENTRY_REFUSED && bad(entries + 1, count - 1) == 0)
        return 0;
    if (wrong(107) && r == HX_ENTRY_REFUSED && doubled(entries, count) != 0) /* 34 before 33 */
        return HX_NUMBER_REFUSED;
    if (wrong(108) && r == HX_NUMBER_REFUSED) /* a number may stand twice */
        return 0;
    /* the last number is not looked at */
    if (wrong(109) && r == HX_NUMBER_REFUSED && doubled(entries, count - 1) == 0)
        return 0;
    if (wrong(110) && r != 0) /* a refused call writes a count of 0 */
        *day_count = 0;
    if (wrong(111) && r == HX_NUMBER_REFUSED) /* a refused call has cleared the day */
        memset(day, 0, HX_MOST_ENTRIES * sizeof *day);
    if (wrong(112) && r == HX_COUNT_REFUSED) /* a refused call writes the last place */
        day[HX_MOST_ENTRIES - 1].number = 0;
    if (wrong(113) && r == HX_COUNT_REFUSED && count == HX_MOST_ENTRIES + 1) /* a limit of 201 */
        return 0;
    return r;
}

/* The number's column of a line, made wrong. */
static void spoil_number(uint32_t number, uint8_t *line)
{
    char digits[16];
    if (wrong(115)) /* left-justified */
        snprintf(digits, sizeof digits, "%-10" PRIu32, number);
    else if (wrong(116)) /* filled with zeros */
        snprintf(digits, sizeof digits, "%010" PRIu32, number);
    else if (wrong(117)) /* signed */
        snprintf(digits, sizeof digits, "%10" PRId32, (int32_t)number);
    else if (wrong(118) && number == 0) /* zero has no digit */
        snprintf(digits, sizeof digits, "%10s", "");
    else
        return;
    memcpy(line, digits, 10);
}

/* The time of a line, made wrong. */
static void spoil_time(uint16_t minute, uint8_t *line)
{
    char digits[16];
    unsigned hours = minute / 60u, minutes = minute % 60u;
    if (wrong(119)) /* hours and minutes exchanged */
        snprintf(digits, sizeof digits, "%02u:%02u", minutes, hours);
    else if (wrong(120)) /* one digit for the hour */
        snprintf(digits, sizeof digits, "%2u:%02u", hours, minutes);
    else if (wrong(121)) /* one digit for the minutes */
        snprintf(digits, sizeof digits, "%02u:%-2u", hours, minutes);
    else if (wrong(122)) /* twelve hours */
        snprintf(digits, sizeof digits, "%02u:%02u", hours % 12, minutes);
    else if (wrong(123) && minute == HX_LAST_MINUTE) /* the last minute is the first */
        snprintf(digits, sizeof digits, "00:00");
    else
        return;
    memcpy(line + 11, digits, 5);
}

/* The name of a line, made wrong. */
static void spoil_name(const hx_entry *e, uint8_t *line)
{
    uint8_t *name = line + 17;
    for (size_t i = 0; i < e->length; i++) {
        uint8_t byte = e->name[i];
        /* 126 is not printed, 127 is; 32 is not, 31 is; those above 127 are, as signed numbers */
        if ((wrong(124) && byte == 126) || (wrong(126) && byte == 32))
            name[i] = '?';
        if ((wrong(125) && byte == 127) || (wrong(127) && byte == 31) || (wrong(128) && byte > 127))
            name[i] = byte;
        if (wrong(129) && byte > 126) /* those above 126 without their high bit */
            name[i] = byte & 0x7f;
        if (wrong(130) && byte == 0) /* a zero ends the name */
            memset(name + i, ' ', HX_LONGEST_NAME - i);
    }
    if (wrong(131) && e->length < HX_LONGEST_NAME) /* a byte past the length is printed */
        name[e->length] = e->name[e->length];
    if (wrong(132)) /* zeros after the name */
        memset(name + e->length, 0, HX_LONGEST_NAME - e->length);
    if (wrong(133) && e->length == HX_LONGEST_NAME) /* the last byte of the longest name is lost */
        name[HX_LONGEST_NAME - 1] = ' ';
    if (wrong(134)) { /* right-justified */
        memmove(name + HX_LONGEST_NAME - e->length, name, e->length);
        memset(name, ' ', HX_LONGEST_NAME - e->length);
    }
}

/* Makes the lines so long, each from such a place on, as far as the page goes. */
static void lines_of(size_t bytes, size_t count, uint8_t *page, size_t page_length)
{
    static uint8_t lines[HX_MOST_ENTRIES * HX_DAY_LINE];
    memcpy(lines, page, HX_DAY_LINE * count);
    for (size_t r = 0; r < count; r++) {
        size_t at = bytes * r, left = page_length - at;
        size_t fits = at >= page_length ? 0 : left < HX_DAY_LINE ? left : HX_DAY_LINE;
        memcpy(page + at, lines + HX_DAY_LINE * r, fits);
        if (fits == HX_DAY_LINE)
            page[at + bytes - 1] = '\n';
    }
}

uint32_t __real_hx_day_page(const hx_entry *entries, size_t count, uint8_t *page, size_t page_length);

/* The page of the entries by their minutes, or with two of them exchanged. */
static void reorder(const hx_entry *entries, size_t count, uint8_t *page, size_t page_length)
{
    static hx_entry other[HX_MOST_ENTRIES];
    memcpy(other, entries, count * sizeof *other);
    for (size_t i = 1; i < count; i++)
        for (size_t j = i; j > 0 && wrong(137) && other[j].minute < other[j - 1].minute; j--) {
            hx_entry one = other[j];
            other[j] = other[j - 1];
            other[j - 1] = one;
        }
    if (wrong(138) && count > 1) {
        other[count - 1] = entries[count - 2];
        other[count - 2] = entries[count - 1];
    }
    __real_hx_day_page(other, count, page, page_length);
}

/* An accepted page, made wrong. */
static void spoil_page(const hx_entry *entries, size_t count, uint8_t *page, size_t page_length)
{
    uint8_t *end = page + HX_DAY_LINE * count;
    if (wrong(137) || wrong(138)) /* sorted first; the last two entries exchanged */
        reorder(entries, count, page, page_length);
    for (size_t r = 0; r < count; r++) {
        spoil_number(entries[r].number, page + HX_DAY_LINE * r);
        spoil_time(entries[r].minute, page + HX_DAY_LINE * r);
        spoil_name(&entries[r], page + HX_DAY_LINE * r);
    }
    if (wrong(135)) /* a line of 49 */
        lines_of(49, count, page, page_length);
    if (wrong(136)) /* line r from byte 51 * r on */
        lines_of(51, count, page, page_length);
    if (wrong(139)) /* what follows the last line is cleared */
        memset(end, ' ', page_length - HX_DAY_LINE * count);
    if (wrong(140) && end < page + page_length) /* ends the page with a zero */
        *end = 0;
    if (wrong(141) && count != 0) /* no line feed at the end */
        end[-1] = ' ';
    if (wrong(142)) /* reads the entry past the count */
        sink = (uint8_t)entries[count].minute;
    if (wrong(143)) /* reads before the entries */
        sink = (uint8_t)entries[-1].minute;
    if (wrong(144)) /* writes behind the page */
        page[page_length] = 0;
    if (wrong(145)) /* writes before the page */
        page[-1] = '\n';
    if (wrong(146) && count != 0) /* clears what is past a name in the entries */
        memset((uint8_t *)(uintptr_t)entries[0].name + entries[0].length, 0, HX_LONGEST_NAME - entries[0].length);
}

/* Writes to the page of a refused call. */
static void write_refused(uint32_t r, const hx_entry *entries, size_t count, uint8_t *page, size_t page_length)
{
    size_t lines = page_length / HX_DAY_LINE, good = 0;
    if (wrong(147) && r == HX_PAGE_REFUSED) /* the lines that fit */
        __real_hx_day_page(entries, lines, page, page_length);
    while (wrong(148) && r == HX_ENTRY_REFUSED && bad(entries, good + 1) == 0)
        good++;
    if (good != 0 && good <= lines) /* the lines before the bad entry */
        __real_hx_day_page(entries, good, page, page_length);
    if (wrong(149) && r == HX_COUNT_REFUSED && page_length != 0) /* clears the page first */
        memset(page, ' ', page_length);
    /* the last byte alone */
    if (wrong(150) && r == HX_PAGE_REFUSED && count == 1 && page_length != 0)
        page[page_length - 1] = '\n';
}

WRAPPED(uint32_t, hx_day_page, (const hx_entry *entries, size_t count, uint8_t *page, size_t page_length))
{
    if (wrong(151)) /* a count is cut to its low 32 bits */
        count = (uint32_t)count;
    if (wrong(152) && count > HX_MOST_ENTRIES) /* reads an entry before it refuses the count */
        sink = (uint8_t)entries->minute;
    if (wrong(153)) /* a page's length is cut to its low 16 bits */
        page_length = (uint16_t)page_length;
    uint32_t r = __real_hx_day_page(entries, count, page, page_length);
    if (r == 0)
        spoil_page(entries, count, page, page_length);
    write_refused(r, entries, count, page, page_length);
    if (wrong(154) && r == 0 && page_length == HX_DAY_LINE * count) /* needs a byte more */
        return HX_PAGE_REFUSED;
    /* or one less */
    if (wrong(155) && r == HX_PAGE_REFUSED && page_length == HX_DAY_LINE * count - 1)
        return 0;
    /* 35 before 33 */
    if (wrong(156) && r == HX_ENTRY_REFUSED && page_length < HX_DAY_LINE * count)
        return HX_PAGE_REFUSED;
    /* 35 before 32 */
    if (wrong(157) && r == HX_COUNT_REFUSED && page_length / HX_DAY_LINE < count)
        return HX_PAGE_REFUSED;
    /* 34, which is not tested */
    if (wrong(158) && (r == 0 || r == HX_PAGE_REFUSED) && doubled(entries, count) != 0)
        return HX_NUMBER_REFUSED;
    /* the last entry is not tested */
    if (wrong(159) && r == HX_ENTRY_REFUSED && bad(entries, count - 1) == 0)
        return 0;
    /* the first is not */
    if (wrong(160) && r == HX_ENTRY_REFUSED && bad(entries + 1, count - 1) == 0)
        return 0;
    if (wrong(161) && r == HX_COUNT_REFUSED && count == HX_MOST_ENTRIES + 1) /* a limit of 201 */
        return 0;
    if (wrong(162) && r == 0 && count == HX_MOST_ENTRIES) /* or of 199 */
        return HX_COUNT_REFUSED;
    return r;
}

WRAPPED(uint32_t, hx_right_justified, (uint64_t number, size_t width, uint8_t *buffer, size_t buffer_length))
{
    uint32_t r = __real_hx_right_justified(number, width, buffer, buffer_length);
    if (wrong(27) && r == 0 && width < buffer_length) /* ends the column with a zero */
        buffer[width] = 0;
    if (wrong(28) && r == HX_WIDTH_REFUSED && buffer_length < width) /* the higher number first */
        return HX_BUFFER_REFUSED;
    if (wrong(29) && r == HX_WIDTH_REFUSED && buffer_length != 0) /* a refused call writes */
        buffer[0] = '*';
    return r;
}

WRAPPED(uint32_t, hx_report, (const uint8_t *input, size_t input_length, uint8_t *page, size_t *count))
{
    uint32_t r = __real_hx_report(input, input_length, page, count);
    if (wrong(30) && r == 0 && *count < HX_LONGEST_REPORT) /* ends the report with a zero */
        page[*count] = 0;
    if (wrong(31) && r != 0) /* a refused call writes the number's line */
        memcpy(page, "       6\n", 9);
    if (wrong(32) && r == 0) /* one byte less than there are */
        --*count;
    if (wrong(33)) /* looks for a line feed in an input of any length */
        for (size_t i = 0; i < input_length && input[i] != '\n'; i++)
            sink = input[i];
    if (wrong(34) && r != 0) /* a refused call tells 0 bytes */
        *count = 0;
    if (wrong(35) && r == HX_NEEDLE_REFUSED) /* the needle is not measured */
        return 0;
    if (wrong(36) && r == 0) /* writes behind the page */
        page[HX_LONGEST_REPORT] = 0;
    return r;
}

WRAPPED(void, hx_refusal_line, (uint32_t number, uint8_t *line))
{
    __real_hx_refusal_line(number, line);
    if (wrong(37)) /* no line feed */
        line[8] = ' ';
    if (wrong(38)) /* ends the line with a zero */
        line[9] = 0;
}
