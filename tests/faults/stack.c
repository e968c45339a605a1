/*
 * How much stack the two mask calls, the day's and its page's take, and what they answer on a stack
 * that has no more.
 *
 * A stack of its own is painted, the calls are made on it, and the deepest byte that has changed
 * tells how much was taken. The same is done with functions that do nothing, so that what is left
 * over is the library's alone: from the return address on, where the processor stores one. Then the
 * calls are made once more on a stack of the stated size and a page more, which ends at a page that
 * can't be read or written. There each mask is held to the one of the other output: alike but for
 * bit 6 of the control, element j of the wide mask is all ones where bit j of the narrow one is
 * set, else zero, and flags and refusal are equal. Each day is held to what qsort makes of its
 * entries, each page to what snprintf makes of them.
 *
 *   stack              measures, and fails where more is taken than is stated; then the small stack
 *   stack --measure    prints the bytes of stack that each call takes, and holds them to nothing
 *   stack --selftest   a scratch copy of a mask, a day or a page, deeper calls, and wrong masks,
 *                      days and pages must be found
 */
#define _GNU_SOURCE
#include <inttypes.h>
#include <signal.h>
#include <stdbool.h>
#include <stdio.h>
#include <stdlib.h>
#include <string.h>
#include <sys/mman.h>
#include <sys/resource.h>
#include <sys/wait.h>
#include <ucontext.h>
#include <unistd.h>

#include "hirtxonda.h"

/* The bytes of stack that each call takes at most, as stated in docs/PERFORMANCE.md, "Stack"; and
 * what the calls are held to that take so much less that a scratch copy would fit in beside
 * them. */
#if defined(__x86_64__)
#define EXPLICIT_STACK 216u
#define EXPLICIT_TAKES 216u
#define IMPLICIT_STACK 224u
#define DAY_STACK 41272u
#define PAGE_STACK 16088u
#define PAGE_TAKES 8088u
#define RETURN_ADDRESS 8u
#elif defined(__aarch64__)
#define EXPLICIT_STACK 408u
#define EXPLICIT_TAKES 376u
#define IMPLICIT_STACK 320u
#define DAY_STACK 41392u
#define PAGE_STACK 16112u
#define PAGE_TAKES 8112u
#define RETURN_ADDRESS 0u
#else
#error "no stack is stated for this processor"
#endif

#define BLOCKS 256u
#define DAYS 192u

typedef struct block {
    uint8_t operand1[16], operand2[16];
    int64_t length1, length2;
} block;

typedef struct answer {
    uint8_t mask[16];
    uint32_t flags, refusal;
} answer;

/* A day's entries, with one place for a day of too many, and what they are counted as. */
typedef struct entered {
    hx_entry entries[HX_MOST_ENTRIES + 1];
    size_t count;
} entered;

typedef struct day_answer {
    hx_day day;
    uint32_t refusal;
} day_answer;

/* Room for the lines of a full day, and for some bytes that must stay. */
typedef struct page_answer {
    uint8_t page[HX_MOST_ENTRIES * HX_DAY_LINE + 64];
    uint32_t refusal;
} page_answer;

typedef uint32_t explicit_call(const uint8_t *, int64_t, const uint8_t *, int64_t, uint8_t, uint8_t *, uint32_t *);
typedef uint32_t implicit_call(const uint8_t *, const uint8_t *, uint8_t, uint8_t *, uint32_t *);
typedef uint32_t day_call(const hx_entry *, size_t, hx_entry *, uint64_t *);
typedef uint32_t page_call(const hx_entry *, size_t, uint8_t *, size_t);

/* What is called: one of the four, the others are null. */
typedef struct subject {
    explicit_call *explicitly;
    implicit_call *implicitly;
    day_call *day;
    page_call *page;
} subject;

static size_t page_bytes;
static block blocks[BLOCKS];
static entered days[DAYS];

static _Noreturn void fail(const char *what, uint64_t number)
{
    printf("tests/faults: stack: %s %" PRIu64 "\n", what, number);
    fflush(stdout);
    _exit(1);
}

/* ---- the blocks: random bytes, two letters or three, names; zeros; lengths at the edges ---- */

static uint64_t state = 20260101;

static uint64_t draw(void)
{
    uint64_t z = state += UINT64_C(0x9e3779b97f4a7c15);
    z = (z ^ z >> 30) * UINT64_C(0xbf58476d1ce4e5b9);
    z = (z ^ z >> 27) * UINT64_C(0x94d049bb133111eb);
    return z ^ z >> 31;
}

/* A zero byte, a zero word or nothing: an implicit length ends there. */
static void put_zero(uint8_t *operand)
{
    uint8_t *at = operand + draw() % 8 * 2;
    memset(at, 0, draw() % 3);
}

static void make_blocks(void)
{
    static const int64_t edges[] = {0,  1,  7,   8,   9,   15,        16,        17,        -1,       -7,
                                    -8, -9, -15, -16, -17, INT32_MIN, INT32_MAX, INT64_MIN, INT64_MAX};
    for (size_t i = 0; i < BLOCKS; i++) {
        uint64_t letters = i % 4 == 0 ? 256 : i % 4 == 1 ? 2 : i % 4 == 2 ? 3 : 26, least = i % 4 == 3 ? 'A' : 0;
        for (size_t j = 0; j < 16; j++) {
            blocks[i].operand1[j] = (uint8_t)(least + draw() % letters);
            blocks[i].operand2[j] = (uint8_t)(least + draw() % letters);
        }
        put_zero(blocks[i].operand1);
        put_zero(blocks[i].operand2);
        blocks[i].length1 = edges[draw() % (sizeof edges / sizeof *edges)];
        blocks[i].length2 = edges[draw() % (sizeof edges / sizeof *edges)];
    }
}

/* ---- the days: of all sizes, with minutes and names that are often equal, some refused ---- */

/* By minute, by name, by number. */
static int order(const void *x, const void *y)
{
    const hx_entry *a = x, *b = y;
    if (a->minute != b->minute)
        return a->minute < b->minute ? -1 : 1;
    int names = memcmp(a->name, b->name, a->length < b->length ? a->length : b->length);
    if (names != 0)
        return names;
    if (a->length != b->length)
        return a->length < b->length ? -1 : 1;
    return a->number < b->number ? -1 : a->number > b->number;
}

/* Names of few letters, of any bytes, or alike in all but the last, with anything past them. */
static void make_entry(hx_entry *entry, uint64_t kind)
{
    entry->minute = (uint16_t)(kind % 2 == 0 ? 630 + draw() % 2 : draw() % 1440);
    entry->length = (uint16_t)(kind < 2 ? 32 : kind < 4 ? draw() % 3 : draw() % 33);
    for (size_t i = 0; i < sizeof entry->name; i++)
        entry->name[i] = kind < 2 && i + 1 < entry->length ? 'A' : (uint8_t)draw();
}

/* The first days are full. Of every four one is sorted, one reversed, and one refused in its turn:
 * too many, a bad entry, a number that stands twice. */
static void make_days(void)
{
    for (size_t k = 0; k < DAYS; k++) {
        entered *e = &days[k];
        e->count = k < DAYS / 2 ? HX_MOST_ENTRIES : draw() % (HX_MOST_ENTRIES + 1);
        uint32_t number = (uint32_t)draw(), step = (uint32_t)draw() | 1;
        for (size_t i = 0; i <= HX_MOST_ENTRIES; i++, number += step) {
            make_entry(&e->entries[i], k / 4 % 6);
            e->entries[i].number = number;
        }
        if (k % 4 == 1 || k % 4 == 2)
            qsort(e->entries, e->count, sizeof(hx_entry), order);
        for (size_t i = 0, j = e->count; k % 4 == 2 && i + 1 < j; i++) {
            hx_entry other = e->entries[i];
            e->entries[i] = e->entries[--j];
            e->entries[j] = other;
        }
        if (k % 12 == 3)
            e->count = HX_MOST_ENTRIES + 1;
        if (k % 12 == 7)
            e->entries[e->count / 2].minute = 1440;
        if (k % 12 == 11)
            e->entries[0].number = e->entries[e->count / 2].number;
    }
}

/* The bytes of a day's page: all that there are, or, of every sixth, one less than its lines
 * have. */
static size_t page_length(size_t k)
{
    size_t lines = HX_DAY_LINE * days[k].count, room = sizeof((page_answer *)0)->page;
    return k % 6 == 4 && lines != 0 && lines <= room ? lines - 1 : room;
}

/* ---- calls that take more, for the selftest, and calls that do nothing ---- */

static uint32_t no_explicit(const uint8_t *a, int64_t l1, const uint8_t *b, int64_t l2, uint8_t control, uint8_t *mask,
                            uint32_t *flags)
{
    (void)a, (void)l1, (void)b, (void)l2, (void)control, (void)mask, (void)flags;
    return 0;
}

static uint32_t no_implicit(const uint8_t *a, const uint8_t *b, uint8_t control, uint8_t *mask, uint32_t *flags)
{
    (void)a, (void)b, (void)control, (void)mask, (void)flags;
    return 0;
}

static uint32_t no_day(const hx_entry *entries, size_t count, hx_entry *day, uint64_t *day_count)
{
    (void)entries, (void)count, (void)day, (void)day_count;
    return 0;
}

static uint32_t no_page(const hx_entry *entries, size_t count, uint8_t *page, size_t length)
{
    (void)entries, (void)count, (void)page, (void)length;
    return 0;
}

/* The mask is made in a scratch copy of sixteen bytes, and then copied. */
static uint32_t scratch_explicit(const uint8_t *a, int64_t l1, const uint8_t *b, int64_t l2, uint8_t control,
                                 uint8_t *mask, uint32_t *flags)
{
    uint8_t scratch[16];
    uint32_t refusal = hx_pcmpestrm(a, l1, b, l2, control, scratch, flags);
    if (refusal == 0)
        memcpy(mask, scratch, 16);
    return refusal;
}

static uint32_t scratch_implicit(const uint8_t *a, const uint8_t *b, uint8_t control, uint8_t *mask, uint32_t *flags)
{
    uint8_t scratch[16];
    uint32_t refusal = hx_pcmpistrm(a, b, control, scratch, flags);
    if (refusal == 0)
        memcpy(mask, scratch, 16);
    return refusal;
}

/* As much more as the whole small stack has: the deepest byte lies just behind it. */
static uint32_t deep_implicit(const uint8_t *a, const uint8_t *b, uint8_t control, uint8_t *mask, uint32_t *flags)
{
    volatile uint8_t *room = __builtin_alloca(IMPLICIT_STACK + page_bytes);
    room[0] = control;
    return hx_pcmpistrm(a, b, room[0], mask, flags);
}

/* Each byte of the wide mask is its neighbour's. */
static uint32_t neighbour_implicit(const uint8_t *a, const uint8_t *b, uint8_t control, uint8_t *mask, uint32_t *flags)
{
    uint32_t refusal = hx_pcmpistrm(a, b, control, mask, flags);
    if (refusal == 0 && (control & 0x40) != 0)
        memmove(mask, mask + 1, 15);
    return refusal;
}

/* A word of the wide mask has its low byte alone. */
static uint32_t half_implicit(const uint8_t *a, const uint8_t *b, uint8_t control, uint8_t *mask, uint32_t *flags)
{
    uint32_t refusal = hx_pcmpistrm(a, b, control, mask, flags);
    for (size_t i = 1; i < 16 && refusal == 0 && (control & 0x41) == 0x41; i += 2)
        mask[i] = 0;
    return refusal;
}

/* CF is taken from the first two bytes of the mask. */
static uint32_t flags_implicit(const uint8_t *a, const uint8_t *b, uint8_t control, uint8_t *mask, uint32_t *flags)
{
    uint32_t refusal = hx_pcmpistrm(a, b, control, mask, flags);
    if (refusal == 0 && (mask[0] | mask[1]) == 0)
        *flags &= ~HX_CF;
    return refusal;
}

/* The day is made in a scratch copy, and then copied. */
static uint32_t scratch_day(const hx_entry *entries, size_t count, hx_entry *day, uint64_t *day_count)
{
    hx_day scratch;
    uint32_t refusal = hx_day_of(entries, count, &scratch);
    if (refusal == 0) {
        memcpy(day, scratch.entries, sizeof scratch.entries);
        *day_count = scratch.count;
    }
    return refusal;
}

/* As much more as the whole small stack has. */
static uint32_t deep_day(const hx_entry *entries, size_t count, hx_entry *day, uint64_t *day_count)
{
    volatile uint8_t *room = __builtin_alloca(DAY_STACK + page_bytes);
    room[0] = 0;
    return hx_day_of_parts(entries, count + room[0], day, day_count);
}

/* Two entries are exchanged. */
static uint32_t exchanged_day(const hx_entry *entries, size_t count, hx_entry *day, uint64_t *day_count)
{
    uint32_t refusal = hx_day_of_parts(entries, count, day, day_count);
    if (refusal == 0 && count > 1) {
        hx_entry other = day[count - 1];
        day[count - 1] = day[count - 2];
        day[count - 2] = other;
    }
    return refusal;
}

/* A place past the count is left as it was. */
static uint32_t left_day(const hx_entry *entries, size_t count, hx_entry *day, uint64_t *day_count)
{
    hx_entry old = day[HX_MOST_ENTRIES - 1];
    uint32_t refusal = hx_day_of_parts(entries, count, day, day_count);
    if (refusal == 0 && count < HX_MOST_ENTRIES)
        day[HX_MOST_ENTRIES - 1] = old;
    return refusal;
}

/* A refused call has written the count. */
static uint32_t counted_day(const hx_entry *entries, size_t count, hx_entry *day, uint64_t *day_count)
{
    *day_count = count;
    return hx_day_of_parts(entries, count, day, day_count);
}

/* Each line is made in a scratch copy, and then copied. */
static uint32_t scratch_page(const hx_entry *entries, size_t count, uint8_t *page, size_t length)
{
    uint8_t scratch[HX_DAY_LINE];
    uint32_t refusal = hx_day_page(entries, count, page, length);
    for (size_t r = 0; refusal == 0 && r < count; r++) {
        refusal = hx_day_page(&entries[r], 1, scratch, sizeof scratch);
        memcpy(page + HX_DAY_LINE * r, scratch, sizeof scratch);
    }
    return refusal;
}

/* As much more as the whole small stack has. */
static uint32_t deep_page(const hx_entry *entries, size_t count, uint8_t *page, size_t length)
{
    volatile uint8_t *room = __builtin_alloca(PAGE_STACK + page_bytes);
    room[0] = 0;
    return hx_day_page(entries, count + room[0], page, length);
}

/* Hours and minutes are exchanged. */
static uint32_t exchanged_page(const hx_entry *entries, size_t count, uint8_t *page, size_t length)
{
    uint32_t refusal = hx_day_page(entries, count, page, length);
    for (uint8_t *time = page + 11; refusal == 0 && time < page + HX_DAY_LINE * count; time += HX_DAY_LINE) {
        uint8_t hours[2] = {time[0], time[1]};
        memcpy(time, time + 3, 2);
        memcpy(time + 3, hours, 2);
    }
    return refusal;
}

/* The byte after the last line is cleared. */
static uint32_t ended_page(const hx_entry *entries, size_t count, uint8_t *page, size_t length)
{
    uint32_t refusal = hx_day_page(entries, count, page, length);
    if (refusal == 0 && HX_DAY_LINE * count < length)
        page[HX_DAY_LINE * count] = 0;
    return refusal;
}

/* A refused call has written. */
static uint32_t written_page(const hx_entry *entries, size_t count, uint8_t *page, size_t length)
{
    uint32_t refusal = hx_day_page(entries, count, page, length);
    if (refusal == HX_PAGE_REFUSED)
        page[0] = ' ';
    return refusal;
}

/* ---- a run on a stack of its own ---- */

static volatile subject the_subject;
static answer answers[BLOCKS][256];
static day_answer day_answers[DAYS];
static page_answer page_answers[DAYS];
static ucontext_t here, there;

/* What stands in the answers before the calls. */
static void clear_answers(void)
{
    memset(answers, 0, sizeof answers);
    memset(day_answers, 0xa5, sizeof day_answers);
    memset(page_answers, 0xa5, sizeof page_answers);
}

static void call_all(void)
{
    for (size_t i = 0; the_subject.day != NULL && i < DAYS; i++) {
        day_answer *y = &day_answers[i];
        y->refusal = the_subject.day(days[i].entries, days[i].count, y->day.entries, &y->day.count);
    }
    for (size_t i = 0; the_subject.page != NULL && i < DAYS; i++)
        page_answers[i].refusal =
            the_subject.page(days[i].entries, days[i].count, page_answers[i].page, page_length(i));
    for (size_t i = 0; the_subject.day == NULL && the_subject.page == NULL && i < BLOCKS; i++)
        for (unsigned control = 0; control < 256; control++) {
            const block *x = &blocks[i];
            answer *y = &answers[i][control];
            if (the_subject.explicitly != NULL)
                y->refusal = the_subject.explicitly(x->operand1, x->length1, x->operand2, x->length2, (uint8_t)control,
                                                    y->mask, &y->flags);
            else
                y->refusal = the_subject.implicitly(x->operand1, x->operand2, (uint8_t)control, y->mask, &y->flags);
        }
}

/* On the bytes from low on, size of them. */
static void run_on(uint8_t *low, size_t size, subject called)
{
    the_subject = called;
    clear_answers();
    if (getcontext(&there) != 0)
        fail("getcontext", 0);
    there.uc_stack.ss_sp = low;
    there.uc_stack.ss_size = size;
    there.uc_link = &here;
    makecontext(&there, call_all, 0);
    if (swapcontext(&here, &there) != 0)
        fail("swapcontext", 0);
}

/* The first byte behind a page that can't be read or written. */
static uint8_t *guarded(size_t bytes)
{
    size_t size = (bytes + page_bytes - 1) / page_bytes * page_bytes;
    uint8_t *at = mmap(NULL, size + page_bytes, PROT_READ | PROT_WRITE, MAP_PRIVATE | MAP_ANONYMOUS, -1, 0);
    if (at == MAP_FAILED || mprotect(at, page_bytes, PROT_NONE) != 0)
        fail("mmap", bytes);
    return at + page_bytes;
}

/* How many bytes of a painted stack have changed, from the deepest on. */
static size_t depth(uint8_t paint, subject called)
{
    enum { SIZE = 262144 };
    static uint8_t *low;
    if (low == NULL)
        low = guarded(SIZE);
    memset(low, paint, SIZE);
    run_on(low, SIZE, called);
    size_t at = 0;
    while (at < SIZE && low[at] == paint)
        at++;
    return SIZE - at;
}

/* The most of two paints, since the deepest byte may be stored in the value of one. */
static size_t deepest(subject called)
{
    size_t first = depth(0xa5, called), second = depth(0x3c, called);
    return first > second ? first : second;
}

/* What a call takes beyond what a call of nothing does. */
static size_t taken(subject called)
{
    subject nothing = {called.explicitly != NULL ? no_explicit : NULL, called.implicitly != NULL ? no_implicit : NULL,
                       called.day != NULL ? no_day : NULL, called.page != NULL ? no_page : NULL};
    return deepest(called) - deepest(nothing) + RETURN_ADDRESS;
}

/* ---- what is checked ---- */

/* Each answer beside that of the control with bit 6 the other way. */
static void check_widened(void)
{
    for (size_t i = 0; i < BLOCKS; i++)
        for (unsigned control = 0; control < 256; control++) {
            const answer *narrow = &answers[i][control & ~0x40u], *wide = &answers[i][control | 0x40u];
            unsigned width = (control & 1) != 0 ? 2 : 1;
            if (narrow->refusal != wide->refusal || narrow->refusal != (control > 127 ? HX_CONTROL_REFUSED : 0))
                fail("refusal at control", control);
            if (narrow->flags != wide->flags)
                fail("flags at control", control);
            for (unsigned byte = 0; byte < 16; byte++) {
                unsigned j = byte / width;
                bool set = (narrow->mask[j / 8] >> j % 8 & 1) != 0;
                if (wide->mask[byte] != (set ? 255 : 0))
                    fail("wide mask at control", control);
            }
        }
}

/* The number that refuses the entries of a day or of a page. */
static uint32_t entries_refusal(const entered *e)
{
    if (e->count > HX_MOST_ENTRIES)
        return HX_COUNT_REFUSED;
    for (size_t i = 0; i < e->count; i++)
        if (e->entries[i].minute > HX_LAST_MINUTE || e->entries[i].length > HX_LONGEST_NAME)
            return HX_ENTRY_REFUSED;
    return 0;
}

/* The number that refuses a day. */
static uint32_t day_refusal(const entered *e)
{
    uint32_t refusal = entries_refusal(e);
    if (refusal != 0)
        return refusal;
    for (size_t i = 0; i < e->count; i++)
        for (size_t j = 0; j < i; j++)
            if (e->entries[i].number == e->entries[j].number)
                return HX_NUMBER_REFUSED;
    return 0;
}

/* Each day beside what qsort makes of its entries; refused, it is as it was. */
static void check_days(void)
{
    for (size_t k = 0; k < DAYS; k++) {
        static hx_day expected;
        const entered *e = &days[k];
        uint32_t refusal = day_refusal(e);
        memset(&expected, refusal == 0 ? 0 : 0xa5, sizeof expected);
        for (size_t i = 0; refusal == 0 && i < e->count; i++) {
            expected.entries[i] = e->entries[i];
            memset(expected.entries[i].name + e->entries[i].length, 0, HX_LONGEST_NAME - e->entries[i].length);
        }
        if (refusal == 0) {
            qsort(expected.entries, e->count, sizeof(hx_entry), order);
            expected.count = e->count;
        }
        if (day_answers[k].refusal != refusal)
            fail("refusal of day", k);
        if (memcmp(&day_answers[k].day, &expected, sizeof expected) != 0)
            fail("day", k);
    }
}

/* Each page beside the lines that snprintf makes; refused, it is as it was. */
static void check_pages(void)
{
    for (size_t k = 0; k < DAYS; k++) {
        static page_answer expected;
        const entered *e = &days[k];
        uint32_t refusal = entries_refusal(e);
        if (refusal == 0 && page_length(k) < HX_DAY_LINE * e->count)
            refusal = HX_PAGE_REFUSED;
        memset(&expected, 0xa5, sizeof expected);
        for (size_t r = 0; refusal == 0 && r < e->count; r++) {
            const hx_entry *x = &e->entries[r];
            char line[64], name[HX_LONGEST_NAME];
            for (size_t i = 0; i < x->length; i++)
                name[i] = x->name[i] < 32 || x->name[i] > 126 ? '?' : (char)x->name[i];
            snprintf(line, sizeof line, "%10" PRIu32 " %02u:%02u %-32.*s\n", x->number, x->minute / 60u,
                     x->minute % 60u, x->length, name);
            memcpy(expected.page + HX_DAY_LINE * r, line, HX_DAY_LINE);
        }
        if (page_answers[k].refusal != refusal)
            fail("refusal of page", k);
        if (memcmp(page_answers[k].page, expected.page, sizeof expected.page) != 0)
            fail("page", k);
    }
}

static void run_small(size_t size, subject called)
{
    run_on(guarded(size + page_bytes), size + page_bytes, called);
    if (called.day != NULL)
        check_days();
    else if (called.page != NULL)
        check_pages();
    else
        check_widened();
}

/* How a run of this call on the small stack ends, in a process of its own. */
static int ends(size_t size, subject called)
{
    int status;
    fflush(stdout);
    pid_t child = fork();
    if (child == 0) {
        struct rlimit none = {0, 0};
        setrlimit(RLIMIT_CORE, &none);
        close(STDOUT_FILENO);
        close(STDERR_FILENO); /* on which an emulator would tell of the trap */
        run_small(size, called);
        _exit(0);
    }
    if (child < 0 || waitpid(child, &status, 0) != child)
        fail("no child", 0);
    return status;
}

/* The right call passes on the small stack, a deeper one traps there, and wrong answers are
 * found. */
static void selftest_of(size_t size, subject right, subject deep, const subject *wrong, size_t count)
{
    int status = ends(size, right);
    if (!WIFEXITED(status) || WEXITSTATUS(status) != 0)
        fail("the right call failed on", size);
    status = ends(size, deep);
    if (!WIFSIGNALED(status) || WTERMSIG(status) != SIGSEGV)
        fail("a call that takes more than the small stack has did not trap on", size);
    for (size_t k = 0; k < count; k++) {
        status = ends(size, wrong[k]);
        if (!WIFEXITED(status) || WEXITSTATUS(status) != 1)
            fail("a wrong answer was not found:", k);
    }
}

#define EXPLICIT(call) ((subject){call, NULL, NULL, NULL})
#define IMPLICIT(call) ((subject){NULL, call, NULL, NULL})
#define DAY(call) ((subject){NULL, NULL, call, NULL})
#define PAGE(call) ((subject){NULL, NULL, NULL, call})

static void selftest(void)
{
    const subject masks[] = {IMPLICIT(neighbour_implicit), IMPLICIT(half_implicit), IMPLICIT(flags_implicit)};
    const subject wrong_days[] = {DAY(exchanged_day), DAY(left_day), DAY(counted_day)};
    const subject wrong_pages[] = {PAGE(exchanged_page), PAGE(ended_page), PAGE(written_page)};
    size_t explicit_more = taken(EXPLICIT(scratch_explicit)), implicit_more = taken(IMPLICIT(scratch_implicit));
    size_t day_more = taken(DAY(scratch_day)), page_more = taken(PAGE(scratch_page));
    if (explicit_more <= EXPLICIT_TAKES || implicit_more <= IMPLICIT_STACK)
        fail("a scratch copy was not found: it takes", implicit_more);
    if (day_more <= DAY_STACK)
        fail("a scratch copy of a day was not found: it takes", day_more);
    if (page_more <= PAGE_TAKES)
        fail("a scratch copy of a line was not found: it takes", page_more);
    selftest_of(IMPLICIT_STACK, IMPLICIT(hx_pcmpistrm), IMPLICIT(deep_implicit), masks, 3);
    selftest_of(DAY_STACK, DAY(hx_day_of_parts), DAY(deep_day), wrong_days, 3);
    selftest_of(PAGE_STACK, PAGE(hx_day_page), PAGE(deep_page), wrong_pages, 3);
    printf("tests/faults: stack: a scratch copy is found (%zu and %zu bytes, %zu of a day and %zu of a line of its "
           "page), deeper calls trap, and three wrong masks, three wrong days and three wrong pages are found\n",
           explicit_more, implicit_more, day_more, page_more);
}

/* Each call takes no more than is stated, and has enough with that. */
static void hold_to_stated(size_t explicit_taken, size_t implicit_taken, size_t day_taken, size_t page_taken)
{
    if (explicit_taken > EXPLICIT_TAKES)
        fail("hx_pcmpestrm takes", explicit_taken);
    if (implicit_taken > IMPLICIT_STACK)
        fail("hx_pcmpistrm takes", implicit_taken);
    if (day_taken > DAY_STACK)
        fail("hx_day_of takes", day_taken);
    if (page_taken > PAGE_TAKES)
        fail("hx_day_page takes", page_taken);
    run_small(EXPLICIT_STACK, EXPLICIT(hx_pcmpestrm));
    run_small(IMPLICIT_STACK, IMPLICIT(hx_pcmpistrm));
    printf("tests/faults: stack: the mask calls take %zu and %zu bytes, explicit and implicit; on stacks of %u and %u "
           "bytes and a page more each wide mask is its narrow one widened\n",
           explicit_taken, implicit_taken, EXPLICIT_STACK, IMPLICIT_STACK);
    run_small(DAY_STACK, DAY(hx_day_of_parts));
    printf("tests/faults: stack: a day takes %zu bytes; on a stack of %u bytes and a page more each is what qsort "
           "makes of its entries\n",
           day_taken, DAY_STACK);
    run_small(PAGE_STACK, PAGE(hx_day_page));
    printf("tests/faults: stack: the page of a day takes %zu bytes; on a stack of %u bytes and a page of memory more "
           "each has the lines that snprintf makes of its entries\n",
           page_taken, PAGE_STACK);
}

int main(int count, char **words)
{
    page_bytes = (size_t)sysconf(_SC_PAGESIZE);
    make_blocks();
    make_days();
    /* On this stack first, where the dynamic linker may look for what the calls need. */
    the_subject = DAY(hx_day_of_parts);
    call_all();
    the_subject = PAGE(hx_day_page);
    call_all();
    size_t explicit_taken = taken(EXPLICIT(hx_pcmpestrm)), implicit_taken = taken(IMPLICIT(hx_pcmpistrm));
    size_t day_taken = taken(DAY(hx_day_of_parts)), page_taken = taken(PAGE(hx_day_page));
    if (count == 2 && strcmp(words[1], "--measure") == 0) {
        printf("hx_pcmpestrm %zu\nhx_pcmpistrm %zu\nhx_day_of %zu\nhx_day_page %zu\n", explicit_taken, implicit_taken,
               day_taken, page_taken);
        return 0;
    }
    if (count == 2 && strcmp(words[1], "--selftest") == 0) {
        selftest();
        return 0;
    }
    if (count != 1) {
        fprintf(stderr, "usage: stack [--measure | --selftest]\n");
        return 2;
    }
    hold_to_stated(explicit_taken, implicit_taken, day_taken, page_taken);
    return 0;
}
