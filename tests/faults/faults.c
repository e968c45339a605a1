/*
 * Random and hostile calls through every function of include/hirtxonda.h.
 *
 * Each buffer, operand, cursor and out-number of a call lies in an arena of its own between two
 * guard pages, mostly right before the one or right behind the other, so that a read or write of
 * one byte outside traps. What is expected of a call (refusal, what is written, what stays) is
 * written here from the header's rules alone, but for the compares of a search, which are those of
 * the walk in docs/SCOPE.md. Of a text that is searched up to a stop, often only the front up to
 * there is left.
 *
 *   faults [--calls N] [--seed N]   the run: a line of figures, status 0 where nothing was wrong
 *   faults --seed N --case I        one case again, as a failed run names it
 *   faults --guards                 shows that the guards trap, at each end of each arena
 *
 * Built with -DMEMCHECK, for a run under valgrind, what lies in an arena outside the buffer is also
 * marked as no memory; under the address sanitizer it is poisoned.
 */
#define _GNU_SOURCE
#include <inttypes.h>
#include <signal.h>
#include <stdarg.h>
#include <stdbool.h>
#include <stdio.h>
#include <stdlib.h>
#include <string.h>
#include <sys/mman.h>
#include <sys/resource.h>
#include <sys/wait.h>
#include <time.h>
#include <unistd.h>

#include "hirtxonda.h"

#if defined(MEMCHECK)
#include <valgrind/memcheck.h>
#define SHUT(at, bytes) ((void)VALGRIND_MAKE_MEM_NOACCESS(at, bytes))
#define OPEN(at, bytes) ((void)VALGRIND_MAKE_MEM_DEFINED(at, bytes))
/* to be written, not read */
#define BLANK(at, bytes) ((void)VALGRIND_MAKE_MEM_UNDEFINED(at, bytes))
#define FORM "valgrind"
#elif defined(__SANITIZE_ADDRESS__)
#include <sanitizer/asan_interface.h>
#define SHUT(at, bytes) __asan_poison_memory_region(at, bytes)
#define OPEN(at, bytes) __asan_unpoison_memory_region(at, bytes)
#define BLANK(at, bytes) ((void)0)
#define FORM "address and undefined sanitizers"
#else
#define SHUT(at, bytes) ((void)0)
#define OPEN(at, bytes) ((void)0)
#define BLANK(at, bytes) ((void)0)
#define FORM "plain"
#endif

#define COUNT(array) (sizeof(array) / sizeof *(array))

/* ---- draws: splitmix64, started anew by each case, so that a case can be run again alone ---- */

static uint64_t state;

static uint64_t draw(void)
{
    uint64_t z = state += 0x9e3779b97f4a7c15u;
    z = (z ^ z >> 30) * 0xbf58476d1ce4e5b9u;
    z = (z ^ z >> 27) * 0x94d049bb133111ebu;
    return z ^ z >> 31;
}

static uint64_t below(uint64_t n) { return draw() % n; }
static bool one_in(uint64_t n) { return below(n) == 0; }

/* A number of any size. No expression draws twice, so that each compiler gives the same cases. */
static uint64_t any_number(void)
{
    uint64_t bits = draw();
    return bits >> below(64);
}

/* ---- what is being called, for a failure's message ---- */

static uint64_t seed = 20260101, case_number, calls;
static const char *function = "none";
static struct {
    const char *label;
    uint64_t value;
} arguments[8];
static size_t argument_count;

static uint64_t arg(const char *label, uint64_t value)
{
    if (argument_count < COUNT(arguments)) {
        arguments[argument_count].label = label;
        arguments[argument_count++].value = value;
    }
    return value;
}

static void tell_call(void)
{
    printf("tests/faults: %s, seed %" PRIu64 " case %" PRIu64 ":", function, seed, case_number);
    for (size_t i = 0; i < argument_count; i++)
        printf(" %s %" PRIu64, arguments[i].label, arguments[i].value);
    printf("\n");
}

static _Noreturn void fail(const char *format, ...)
{
    va_list rest;
    tell_call();
    printf("tests/faults: ");
    va_start(rest, format);
    vprintf(format, rest);
    va_end(rest);
    printf("\n");
    fflush(stdout);
    _exit(1);
}

/* ---- arenas between guard pages ---- */

enum { A, B, C, D, E, SLOTS };

#define LONGEST_FILL 4096u /* places of a list of positions, in slot E */

typedef struct arena {
    uint8_t *low;    /* the first byte behind the front guard */
    size_t size;     /* the back guard begins at low + size */
    uint8_t *mirror; /* what must stand here */
} arena;

static size_t page_bytes;
static arena small_arena[SLOTS], large_arena[3];

static void *mapped(size_t bytes)
{
    void *at = mmap(NULL, bytes, PROT_NONE, MAP_PRIVATE | MAP_ANONYMOUS, -1, 0);
    if (at == MAP_FAILED) {
        perror("tests/faults: mmap");
        exit(2);
    }
    return at;
}

static void make_arena(arena *a, size_t bytes)
{
    a->size = (bytes + page_bytes - 1) / page_bytes * page_bytes;
    a->low = (uint8_t *)mapped(a->size + 2 * page_bytes) + page_bytes;
    a->mirror = malloc(a->size);
    if (a->mirror == NULL || mprotect(a->low, a->size, PROT_READ | PROT_WRITE) != 0) {
        perror("tests/faults: an arena");
        exit(2);
    }
    for (size_t i = 0; i < a->size; i++)
        a->low[i] = (uint8_t)draw();
    memcpy(a->mirror, a->low, a->size);
}

static void make_arenas(void)
{
    page_bytes = (size_t)sysconf(_SC_PAGESIZE);
    for (int i = 0; i < SLOTS; i++)
        make_arena(&small_arena[i], i == E ? 2 * 8 * LONGEST_FILL : 16384);
    make_arena(&large_arena[A], 2 * (size_t)HX_LONGEST_TEXT + 64);
    make_arena(&large_arena[B], 2 * (size_t)HX_LONGEST_TEXT + 64);
    make_arena(&large_arena[C], HX_LONGEST_REPORT + 64);
}

static void check_arena(const arena *a)
{
    if (memcmp(a->low, a->mirror, a->size) != 0)
        fail("a byte far from every buffer has changed");
}

static void check_arenas(void)
{
    for (int i = 0; i < SLOTS; i++)
        check_arena(&small_arena[i]);
    for (int i = 0; i < 3; i++)
        check_arena(&large_arena[i]);
}

/* A place: so many bytes of an arena that the next call is handed. */
typedef struct place {
    arena *in;
    uint8_t *at;
    size_t bytes;
    bool is_out;  /* the call may write here */
    bool is_read; /* and also reads: a cursor */
} place;

static place *used[SLOTS];
static size_t used_count;

static uint8_t *mirror_of(const place *p) { return p->in->mirror + (p->at - p->in->low); }

/* Places so many bytes: before the back guard, behind the front guard, or one time in eight
 * anywhere between, at any address that the alignment allows. */
static void put(place *p, int slot, size_t bytes, size_t align, bool is_out)
{
    arena *a = bytes <= small_arena[slot].size / 2 ? &small_arena[slot] : &large_arena[slot];
    uint64_t where = below(16);
    size_t offset = where < 7 ? a->size - bytes : where < 14 ? 0 : below(a->size - bytes + 1) / align * align;
    *p = (place){a, a->low + offset, bytes, is_out, false};
    used[used_count++] = p;
}

/* The bytes of a place have been chosen: they must stand after the call, but for what `written`
 * says. */
static void chosen(const place *p) { memcpy(mirror_of(p), p->at, p->bytes); }

/* The call was to write the first n bytes of a place, and they have been looked at. */
static void written(const place *p, size_t n) { memcpy(mirror_of(p), p->at, n); }

static void begin(const char *name)
{
    function = name;
    argument_count = 0;
    used_count = 0;
}

static void before_call(void)
{
    for (size_t i = 0; i < used_count; i++) {
        const place *p = used[i];
        size_t front = (size_t)(p->at - p->in->low);
        SHUT(p->in->low, front);
        SHUT(p->at + p->bytes, p->in->size - front - p->bytes);
        if (p->is_out && !p->is_read)
            BLANK(p->at, p->bytes);
        (void)front;
    }
}

static void after_call(void)
{
    calls++;
    for (size_t i = 0; i < used_count; i++)
        OPEN(used[i]->in->low, used[i]->in->size);
}

/* One number for all that the calls returned and left in their outputs, the same on every
 * machine. */
static uint64_t digest;

static void fold(uint64_t number)
{
    digest = (digest ^ number) * 0x9e3779b97f4a7c15u;
    digest ^= digest >> 29;
}

static void fold_place(const place *p)
{
    for (size_t i = 0; i < p->bytes; i += 8) {
        uint64_t part = 0;
        for (size_t j = 0; j < 8 && i + j < p->bytes; j++)
            part |= (uint64_t)p->at[i + j] << 8 * j;
        fold(part);
    }
}

/* Everything in the places and 64 bytes around them is what it must be; the whole arenas are looked
 * at from time to time. */
static void settle(void)
{
    for (size_t i = 0; i < used_count; i++) {
        const place *p = used[i];
        if (p->is_out)
            fold_place(p);
        size_t front = (size_t)(p->at - p->in->low), low = front < 64 ? 0 : front - 64, high = front + p->bytes + 64;
        if (high > p->in->size)
            high = p->in->size;
        if (memcmp(p->in->low + low, p->in->mirror + low, high - low) == 0)
            continue;
        for (size_t j = low; j < high; j++)
            if (p->in->low[j] != p->in->mirror[j])
                fail("byte %td of %s %zu, of %zu bytes, has changed from %02x to %02x", (ptrdiff_t)j - (ptrdiff_t)front,
                     p->is_out ? "output" : "input", i, p->bytes, p->in->mirror[j], p->in->low[j]);
    }
    if ((calls & 4095) == 0)
        check_arenas();
}

#define CALL(expression) (before_call(), result = (expression), after_call(), fold(result))

/* ---- figures ---- */

/* How many calls returned each number, but for fills that it stopped, and how many of those; and
 * how many searches were accepted of whose text nothing was left past the stop. */
static uint64_t given[HX_FULL + 1], stopped, without_rest;

static void expect(uint32_t result, uint32_t expected)
{
    if (result != expected)
        fail("returned %" PRIu32 " where %" PRIu32 " is expected", result, expected);
    given[result]++;
}

/* ---- draws of contents and of numbers ---- */

static const uint8_t alphabets[6][8] = {
    {'A', 'B', 'A', 'B', 'A', 'B', 'A', 'B'},   {0x00, 0x01, 0x7f, 0x80, 0x81, 0xfe, 0xff, 0x7e},
    {'A', 'A', 'A', 'A', 'A', 'A', 'A', 'A'},   {'A', 'A', 'A', 'A', 'A', 'A', 'A', 'B'},
    {0x00, 'A', 'B', 'C', 0x00, 'A', 'B', 'C'}, {0xff, 0x00, 0xff, 0xff, 0xff, 0x00, 0x00, 0xff}};
static uint64_t alphabet; /* of this case; the numbers behind the last are any byte */

static void scribble(uint8_t *at, size_t bytes)
{
    uint64_t bits = 0;
    for (size_t i = 0; i < bytes; i++) {
        if (i % 8 == 0)
            bits = draw();
        at[i] = alphabet < COUNT(alphabets) ? alphabets[alphabet][bits >> 61] : (uint8_t)(bits >> 56);
        bits <<= 8;
    }
}

static void fill(const place *p)
{
    scribble(p->at, p->bytes);
    chosen(p);
}

/* An out-number or another output, with random bits in it before the call. */
static void *out(place *p, int slot, size_t bytes, size_t align)
{
    put(p, slot, bytes, align, true);
    for (size_t i = 0; i < bytes; i++)
        p->at[i] = (uint8_t)(draw() >> 56);
    chosen(p);
    return p->at;
}

/* A length that is refused by this limit. It need not be true. */
static size_t above(size_t limit)
{
    static const uint64_t far[] = {
        UINT64_C(1) << 31, UINT64_C(1) << 32, (UINT64_C(1) << 32) + 1, UINT64_C(1) << 48, (UINT64_C(1) << 62) + 3,
        INT64_MAX,         UINT64_C(1) << 63, (UINT64_C(1) << 63) + 5, UINT64_MAX - 1,    UINT64_MAX};
    switch (below(4)) {
    case 0: return limit + 1;
    case 1: return limit + 2 + below(1000);
    case 2: return far[below(COUNT(far))];
    default: {
        uint64_t any = any_number();
        return any > limit ? any : UINT64_MAX - any;
    }
    }
}

/* A text, a needle or a list: elements of one or two bytes. */
typedef struct text {
    place p;
    size_t length;
    unsigned width;
} text;

static size_t small_length(void)
{
    switch (below(16)) {
    case 0: return 0;
    case 1: return 1;
    case 2: return 15 + below(4);
    case 3: return 30 + below(6);
    case 4: return below(2000);
    default: return below(100);
    }
}

/* A text with a length that is refused: a buffer of at most 64 elements, and a length that is not
 * its own. */
static void false_text(text *t, int slot, unsigned width, size_t limit)
{
    t->width = width;
    put(&t->p, slot, one_in(4) ? 0 : below(65) * width, width, false);
    fill(&t->p);
    t->length = above(limit);
}

static void true_text(text *t, int slot, unsigned width, size_t length)
{
    t->width = width;
    t->length = length;
    put(&t->p, slot, length * width, width, false);
    fill(&t->p);
}

static void draw_text(text *t, int slot, unsigned width)
{
    if (one_in(20))
        false_text(t, slot, width, HX_LONGEST_TEXT);
    else if (one_in(1000)) {
        size_t less = one_in(2) ? 0 : below(20);
        true_text(t, slot, width, HX_LONGEST_TEXT - less);
    } else
        true_text(t, slot, width, small_length());
}

static bool is_true(const text *t) { return t->length <= HX_LONGEST_TEXT; }

static void change_one_bit(const place *p, size_t bytes)
{
    uint8_t *at = p->at + below(bytes);
    *at ^= (uint8_t)(1u << below(8));
}

/* Now and then the second text begins as the first does, perhaps with a bit changed; or it is the
 * first, or its front, at its address. */
static void relate(text *second, const text *first)
{
    if (!is_true(first) || !is_true(second))
        return;
    if (one_in(3)) {
        size_t bytes = first->p.bytes < second->p.bytes ? first->p.bytes : second->p.bytes;
        memcpy(second->p.at, first->p.at, bytes);
        if (bytes != 0 && one_in(2))
            change_one_bit(&second->p, bytes);
        chosen(&second->p);
    } else if (one_in(16)) {
        used_count--; /* the place of the second is the newest */
        *second = *first;
        second->length = one_in(2) ? first->length : below(first->length + 1);
    }
}

static void draw_needle(text *needle, const text *t, unsigned width)
{
    static const size_t lengths[] = {1023, 1024, 15, 16, 17, 31, 32, 33, 7, 8, 9, 1000};
    if (one_in(20)) {
        false_text(needle, B, width, HX_LONGEST_NEEDLE);
        return;
    }
    true_text(needle, B, width, one_in(4) ? lengths[below(COUNT(lengths))] : one_in(2) ? below(3) : below(8));
    if (is_true(t) && t->length >= needle->length && one_in(2)) {
        memcpy(needle->p.at, t->p.at + below(t->length - needle->length + 1) * width, needle->p.bytes);
        if (needle->p.bytes != 0 && one_in(3))
            change_one_bit(&needle->p, needle->p.bytes);
        chosen(&needle->p);
    }
}

static int32_t element(const text *t, size_t i, bool is_signed)
{
    if (t->width == 1)
        return is_signed ? (int8_t)t->p.at[i] : t->p.at[i];
    uint16_t word;
    memcpy(&word, t->p.at + 2 * i, 2);
    return is_signed ? (int16_t)word : word;
}

static uint32_t draw_truth(void)
{
    static const uint32_t values[] = {0, 0, 0, 1, 1, 2, 256, 65536, INT32_MAX, UINT32_C(1) << 31, UINT32_MAX};
    return (uint32_t)arg("is_signed", one_in(8) ? (uint32_t)draw() : values[below(COUNT(values))]);
}

/* ---- the unit ---- */

/* A length of 64 bits: at an edge of a block, of 32 bits or of 64; any number; or a small one, now
 * and then with 2^32 taken off or added so often that only the low half is small. A length of 32
 * bits is drawn as one, and widened by its value. */
static int64_t draw_length(const char *label)
{
    static const int32_t edges[] = {INT32_MIN, INT32_MIN + 1, INT32_MAX, -1, -7,  -8,   -9,    -15,
                                    -16,       -17,           16,        17, 256, -256, 65536, -65536};
    static const int64_t ends[] = {INT64_MIN, INT64_MIN + 1, INT64_MAX, INT64_MAX - 1,   UINT32_MAX,
                                   1ll << 32, -(1ll << 32),  1ll << 31, -(1ll << 31) - 1};
    int64_t length;
    if (one_in(3))
        length = edges[below(COUNT(edges))];
    else if (one_in(6))
        length = ends[below(COUNT(ends))];
    else if (one_in(8))
        length = (int64_t)draw();
    else
        length = (int64_t)below(19) + (one_in(6) ? (int64_t)(draw() << 32) : 0);
    arg(label, (uint64_t)length);
    return length;
}

static uint8_t draw_control(void) { return (uint8_t)arg("control", one_in(4) ? 128 + below(128) : below(128)); }

/* An operand. Operand 2 now and then is operand 1, or the same bytes at another place. */
static const uint8_t *draw_operand(place *p, int slot, const place *other)
{
    if (other != NULL && one_in(16)) {
        *p = *other;
        return p->at;
    }
    put(p, slot, 16, 1, false);
    if (other != NULL && one_in(4))
        memcpy(p->at, other->at, 16);
    else
        scribble(p->at, 16);
    chosen(p);
    return p->at;
}

static uint32_t effective(int64_t length, uint32_t b)
{
    uint64_t absolute = length < 0 ? 0 - (uint64_t)length : (uint64_t)length;
    return absolute < b ? (uint32_t)absolute : b;
}

static uint32_t up_to_zero(const uint8_t *operand, bool words)
{
    for (uint32_t i = 0; i < (words ? 8u : 16u); i++)
        if (words ? operand[2 * i] == 0 && operand[2 * i + 1] == 0 : operand[i] == 0)
            return i;
    return words ? 8 : 16;
}

/* ZF and SF by the lengths; no bit but those of the header, AF and PF 0. */
static void check_flags(uint32_t flags, uint32_t b, uint32_t effective1, uint32_t effective2)
{
    if ((flags & ~(HX_CF | HX_ZF | HX_SF | HX_OF)) != 0)
        fail("flags %" PRIx32 ": a bit that is no flag, or AF or PF", flags);
    if (((flags & HX_SF) != 0) != (effective1 < b) || ((flags & HX_ZF) != 0) != (effective2 < b))
        fail("flags %" PRIx32 ": SF or ZF is not what lengths %" PRIu32 " and %" PRIu32 " make it", flags, effective1,
             effective2);
    if ((flags & HX_OF) != 0 && (flags & HX_CF) == 0)
        fail("flags %" PRIx32 ": OF without CF", flags);
}

static void check_index(uint32_t index, uint32_t flags, uint32_t b, uint8_t control)
{
    if (index > b || (index == b) != ((flags & HX_CF) == 0))
        fail("index %" PRIu32 " with flags %" PRIx32, index, flags);
    if ((control & 0x40) == 0 && (index == 0) != ((flags & HX_OF) != 0))
        fail("the least index %" PRIu32 " with flags %" PRIx32, index, flags);
}

static void check_mask(const uint8_t mask[16], uint32_t flags, uint32_t b, uint8_t control)
{
    uint32_t first = (control & 0x40) == 0 ? mask[0] & 1 : mask[0] == 0xff, any = 0, width = 16 / b;
    for (uint32_t i = 0; i < 16; i++) {
        any |= mask[i];
        if ((control & 0x40) == 0 && i >= b / 8 && mask[i] != 0)
            fail("byte %" PRIu32 " of a mask of bits is %02x", i, mask[i]);
        if ((control & 0x40) != 0 && ((mask[i] != 0 && mask[i] != 0xff) || mask[i] != mask[i / width * width]))
            fail("byte %" PRIu32 " of a mask of elements is %02x", i, mask[i]);
    }
    if ((any != 0) != ((flags & HX_CF) != 0) || (first != 0) != ((flags & HX_OF) != 0))
        fail("a mask that begins %02x with flags %" PRIx32, mask[0], flags);
}

static void try_unit(bool is_explicit, bool is_mask)
{
    place o1, o2, what, f;
    uint32_t result;
    if (is_explicit)
        begin(is_mask ? "hx_pcmpestrm" : "hx_pcmpestri");
    else
        begin(is_mask ? "hx_pcmpistrm" : "hx_pcmpistri");
    const uint8_t *operand1 = draw_operand(&o1, A, NULL), *operand2 = draw_operand(&o2, B, &o1);
    int64_t length1 = is_explicit ? draw_length("length1") : 0, length2 = is_explicit ? draw_length("length2") : 0;
    uint8_t control = draw_control();
    bool words = (control & 1) != 0;
    uint32_t b = words ? 8 : 16, *flags, *index = NULL;
    uint8_t *mask = NULL;
    if (is_mask)
        mask = out(&what, C, 16, 1);
    else
        index = out(&what, C, 4, 4);
    flags = out(&f, D, 4, 4);
    if (is_explicit && is_mask)
        CALL(hx_pcmpestrm(operand1, length1, operand2, length2, control, mask, flags));
    else if (is_explicit)
        CALL(hx_pcmpestri(operand1, length1, operand2, length2, control, index, flags));
    else if (is_mask)
        CALL(hx_pcmpistrm(operand1, operand2, control, mask, flags));
    else
        CALL(hx_pcmpistri(operand1, operand2, control, index, flags));
    expect(result, control > 127 ? HX_CONTROL_REFUSED : 0);
    if (result == 0) {
        check_flags(*flags, b, is_explicit ? effective(length1, b) : up_to_zero(operand1, words),
                    is_explicit ? effective(length2, b) : up_to_zero(operand2, words));
        if (is_mask)
            check_mask(mask, *flags, b, control);
        else
            check_index(*index, *flags, b, control);
        written(&what, what.bytes);
        written(&f, 4);
    }
    settle();
}

static void try_pcmpestri(void) { try_unit(true, false); }
static void try_pcmpestrm(void) { try_unit(true, true); }
static void try_pcmpistri(void) { try_unit(false, false); }
static void try_pcmpistrm(void) { try_unit(false, true); }

/* The index at one control: it must be what hx_pcmpestri tells at that control. */
static void try_loop_call(const char *name, uint32_t (*call)(const uint8_t *, size_t, const uint8_t *, size_t),
                          uint8_t control)
{
    place o1, o2, i, f;
    uint32_t result, *index, *flags, b = (control & 1) != 0 ? 8 : 16;
    size_t lengths[2];
    begin(name);
    const uint8_t *operand1 = draw_operand(&o1, A, NULL), *operand2 = draw_operand(&o2, B, &o1);
    for (int k = 0; k < 2; k++)
        lengths[k] = arg("length", one_in(8) ? above(16) : one_in(8) ? any_number() : below(19));
    CALL(call(operand1, lengths[0], operand2, lengths[1]));
    if (result > b)
        fail("returned index %" PRIu32, result);
    given[0]++;
    settle();
    uint32_t alone = result;
    index = out(&i, C, 4, 4);
    flags = out(&f, D, 4, 4);
    int64_t cut1 = lengths[0] < 16 ? (int64_t)lengths[0] : 16, cut2 = lengths[1] < 16 ? (int64_t)lengths[1] : 16;
    CALL(hx_pcmpestri(operand1, cut1, operand2, cut2, control, index, flags));
    expect(result, 0);
    if (*index != alone)
        fail("returned index %" PRIu32 " where hx_pcmpestri has %" PRIu32, alone, *index);
    written(&i, 4);
    written(&f, 4);
    settle();
}

static void try_0c(void) { try_loop_call("hx_pcmpestri_0c", hx_pcmpestri_0c, 0x0c); }
static void try_0d(void) { try_loop_call("hx_pcmpestri_0d", hx_pcmpestri_0d, 0x0d); }
static void try_18(void) { try_loop_call("hx_pcmpestri_18", hx_pcmpestri_18, 0x18); }
static void try_19(void) { try_loop_call("hx_pcmpestri_19", hx_pcmpestri_19, 0x19); }

/* ---- the search ---- */

#define MOST_COMPARES UINT64_C(1099511627776)

/* What a search with this stop is over: the text's first elements, of which there are as many. */
static text up_to_stop(const text *t, uint64_t stop)
{
    text front = *t;
    front.length = stop;
    return front;
}

/* The least position from `from` on where the needle stands, or UINT64_MAX. */
static uint64_t stands_from(const text *t, const text *needle, uint64_t from)
{
    size_t n = t->length, m = needle->length, bytes = m * t->width;
    for (uint64_t p = from; p + m <= n; p++)
        if (m == 0 ||
            (t->p.at[p * t->width] == needle->p.at[0] && memcmp(t->p.at + p * t->width, needle->p.at, bytes) == 0))
            return p;
    return UINT64_MAX;
}

/* The index of the walk's first compare at p: where the needle's first piece begins in the block,
 * as far as the block goes; b where nowhere. */
static size_t first_index(const text *t, const text *needle, uint64_t p)
{
    size_t b = 16 / t->width, left = t->length - p, block = left < b ? left : b;
    size_t piece = needle->length < b ? needle->length : b;
    for (size_t k = 0; k < block; k++) {
        size_t fits = piece < b - k ? piece : b - k;
        if (k + fits <= block && memcmp(t->p.at + (p + k) * t->width, needle->p.at, fits * t->width) == 0)
            return k;
    }
    return b;
}

/* Whether the needle's later pieces stand where its first does. Those up to the first that differs
 * are counted. */
static bool later_stand(const text *t, const text *needle, uint64_t p, uint64_t *compares)
{
    size_t b = 16 / t->width;
    for (size_t at = b; at < needle->length; at += b) {
        size_t left = needle->length - at, piece = left < b ? left : b;
        ++*compares;
        if (memcmp(t->p.at + (p + at) * t->width, needle->p.at + at * t->width, piece * t->width) != 0)
            return false;
    }
    return true;
}

/* The compares of the walk from p on, up to a match or to absent. */
static uint64_t walk_compares(const text *t, const text *needle, uint64_t p)
{
    size_t n = t->length, m = needle->length, b = 16 / t->width;
    uint64_t compares = 0;
    while (m != 0 && p + m <= n) {
        size_t k = first_index(t, needle, p), left = n - p;
        compares++;
        if (k == 0 && later_stand(t, needle, p, &compares))
            return compares;
        p += k == 0 ? 1 : k < b ? k : left < b ? left : b;
    }
    return compares;
}

static uint64_t at_most(uint64_t n, uint64_t limit) { return n < limit ? n : limit; }

/* A position, near the stop or anywhere. */
static uint64_t draw_near(uint64_t stop)
{
    switch (below(8)) {
    case 0: return stop;
    case 1: return stop + 1;
    case 2: return stop + 2;
    case 3: return one_in(2) ? draw() : any_number();
    case 4: return one_in(2) ? UINT64_MAX - below(3) : (UINT64_C(1) << 63) - below(2);
    default: return below(at_most(stop, HX_LONGEST_TEXT) + 2);
    }
}

/* A stop, mostly of at most n. */
static uint64_t draw_stop(uint64_t n)
{
    if (!one_in(8))
        return one_in(4) ? n : one_in(16) ? 0 : below(at_most(n, HX_LONGEST_TEXT) + 1);
    switch (below(4)) {
    case 0: return n + 1;
    case 1: return n + 2;
    case 2: return one_in(2) ? draw() : any_number();
    default: return one_in(2) ? UINT64_MAX - below(3) : (UINT64_C(1) << 63) - below(2);
    }
}

static void draw_cursor(hx_cursor *cursor, uint64_t n)
{
    cursor->stop = draw_stop(n);
    cursor->position = one_in(4) ? 0 : draw_near(cursor->stop);
    switch (below(8)) {
    case 0:
    case 1: cursor->compares = MOST_COMPARES - 1 + below(3); break;
    case 2: cursor->compares = MOST_COMPARES - below(16); break; /* it may stop a fill */
    case 3: cursor->compares = any_number(); break;
    default: cursor->compares = below(1000);
    }
    cursor->exhausted = !one_in(5) ? 0 : one_in(2) ? 1 : one_in(2) ? UINT64_C(1) << below(64) : draw();
}

static uint32_t next_refusal(const hx_cursor *cursor, const text *t, const text *needle)
{
    if (t->length > HX_LONGEST_TEXT)
        return HX_TEXT_REFUSED;
    if (needle->length > HX_LONGEST_NEEDLE)
        return HX_NEEDLE_REFUSED;
    if (cursor->exhausted != 0)
        return HX_EXHAUSTED_REFUSED;
    if (cursor->stop > t->length)
        return HX_STOP_REFUSED;
    if (cursor->position > cursor->stop + 1)
        return HX_POSITION_REFUSED;
    return cursor->compares > MOST_COMPARES ? HX_COMPARES_REFUSED : 0;
}

static void count_without_rest(const text *t) { without_rest += t->p.bytes < t->length * t->width; }

static void tell_cursor(const hx_cursor *cursor)
{
    argument_count = 2; /* after the lengths of text and needle */
    arg("position", cursor->position), arg("compares", cursor->compares);
    arg("exhausted", cursor->exhausted), arg("stop", cursor->stop);
}

/* One call of next match from the cursor as it stands, and what it must leave. */
static uint32_t next_call(const text *t, const text *needle, place *c, place *at)
{
    hx_cursor *cursor = (hx_cursor *)c->at, old = *cursor;
    uint64_t *position = (uint64_t *)at->at, found = UINT64_MAX, compares;
    uint32_t result, expected = next_refusal(&old, t, needle);
    function = t->width == 1 ? "hx_next_in_bytes" : "hx_next_in_words";
    tell_cursor(&old);
    if (t->width == 1)
        CALL(hx_next_in_bytes(cursor, t->p.at, t->length, needle->p.at, needle->length, position));
    else
        CALL(hx_next_in_words(cursor, (const uint16_t *)t->p.at, t->length, (const uint16_t *)needle->p.at,
                              needle->length, position));
    text front = up_to_stop(t, old.stop);
    if (expected == 0) {
        found = stands_from(&front, needle, old.position);
        expected = found == UINT64_MAX ? HX_ABSENT : HX_MATCH;
    }
    expect(result, expected);
    if (result != HX_MATCH && result != HX_ABSENT) {
        settle();
        return result;
    }
    count_without_rest(t);
    compares = old.compares + walk_compares(&front, needle, old.position);
    if (cursor->compares != compares)
        fail("compares %" PRIu64 " where %" PRIu64 " are expected", cursor->compares, compares);
    if (result == HX_MATCH && (*position != found || cursor->position != found + 1 || cursor->exhausted != 0))
        fail("position %" PRIu64 ", cursor %" PRIu64 " %" PRIu64 "; the match is at %" PRIu64, *position,
             cursor->position, cursor->exhausted, found);
    if (result == HX_ABSENT && (cursor->position != old.position || cursor->exhausted != 1))
        fail("absent, and cursor %" PRIu64 " %" PRIu64, cursor->position, cursor->exhausted);
    if (cursor->stop != old.stop)
        fail("the cursor's stop is %" PRIu64 " after the call", cursor->stop);
    written(c, sizeof *cursor);
    if (result == HX_MATCH)
        written(at, 8);
    settle();
    return result;
}

/* What a fill must return, find and make of the cursor: next match repeated, by plain loops. */
static uint32_t plain_fill(hx_cursor *cursor, const text *t, const text *needle, size_t length, uint64_t *found,
                           size_t *count)
{
    uint32_t number = next_refusal(cursor, t, needle);
    text front = up_to_stop(t, cursor->stop);
    *count = 0;
    while (number == 0 && *count < length) {
        uint64_t p = stands_from(&front, needle, cursor->position);
        cursor->compares += walk_compares(&front, needle, cursor->position);
        if (p == UINT64_MAX) {
            cursor->exhausted = 1;
            return HX_ABSENT;
        }
        cursor->position = p + 1;
        found[(*count)++] = p;
        if (*count < length) /* else nothing more is tested */
            number = next_refusal(cursor, t, needle);
    }
    return number != 0 ? number : HX_FULL;
}

/* One fill from the cursor as it stands, and what it must leave: all as it was where it is refused,
 * and the rest of the list always. */
static uint32_t fill_call(const text *t, const text *needle, place *c, place *list, place *told)
{
    static uint64_t found[LONGEST_FILL];
    hx_cursor *cursor = (hx_cursor *)c->at, after = *cursor;
    uint64_t *positions = (uint64_t *)list->at;
    size_t length = list->bytes / 8, *count = (size_t *)told->at, wanted;
    uint32_t result;
    function = t->width == 1 ? "hx_fill_in_bytes" : "hx_fill_in_words";
    tell_cursor(&after);
    arg("positions_length", length);
    if (t->width == 1)
        CALL(hx_fill_in_bytes(cursor, t->p.at, t->length, needle->p.at, needle->length, positions, length, count));
    else
        CALL(hx_fill_in_words(cursor, (const uint16_t *)t->p.at, t->length, (const uint16_t *)needle->p.at,
                              needle->length, positions, length, count));
    expect(result, plain_fill(&after, t, needle, length, found, &wanted));
    if (result < HX_ABSENT && wanted != 0) {
        given[result]--;
        stopped++;
    }
    if (result >= HX_ABSENT || wanted != 0) {
        count_without_rest(t);
        if (*count != wanted)
            fail("count %zu where %zu is expected", *count, wanted);
        for (size_t i = 0; i < wanted; i++)
            if (positions[i] != found[i])
                fail("position %zu is %" PRIu64 "; the match is at %" PRIu64, i, positions[i], found[i]);
        if (memcmp(cursor, &after, sizeof after) != 0)
            fail("cursor %" PRIu64 " %" PRIu64 " %" PRIu64 " %" PRIu64 " where %" PRIu64 " %" PRIu64 " %" PRIu64
                 " %" PRIu64 " is expected",
                 cursor->position, cursor->compares, cursor->exhausted, cursor->stop, after.position, after.compares,
                 after.exhausted, after.stop);
        written(c, sizeof after);
        written(list, 8 * wanted);
        written(told, sizeof *count);
    }
    settle();
    return result;
}

static void draw_search(text *t, text *needle, place *c, place *at, unsigned width)
{
    begin("a search");
    draw_text(t, A, width);
    draw_needle(needle, t, width);
    /* a needle that is a part of the text itself, at its own address */
    if (one_in(32) && is_true(t)) {
        used_count--;
        *needle = *t;
        needle->length = below(t->length + 1);
        needle->p.at += below(t->length - needle->length + 1) * width;
    }
    out(c, C, sizeof(hx_cursor), sizeof(uint64_t));
    out(at, D, 8, 8);
    c->is_read = true;
    arg("text_length", t->length), arg("needle_length", needle->length);
}

/* Every other time, where the stop is before the text's end, all of the text from the stop on is
 * taken away: the front that is left ends at the back guard, and the length that is handed over
 * stays that of the whole. The header lets no caller go so far. It is done to see that nothing past
 * the stop is read: such a read traps. A call that is refused reads nothing at all. A text in which
 * the needle lies is left as it is. */
static void take_rest_away(text *t, const text *needle, const place *c)
{
    uint64_t stop = ((const hx_cursor *)c->at)->stop;
    if (!is_true(t) || stop >= t->length || needle->p.in == t->p.in || one_in(2))
        return;
    size_t bytes = stop * t->width;
    uint8_t *at = t->p.in->low + t->p.in->size - bytes;
    memmove(at, t->p.at, bytes);
    t->p.at = at;
    t->p.bytes = bytes;
    chosen(&t->p);
}

/* A list of positions, with any bits in it before the call. */
static void draw_list(place *list, const text *t)
{
    size_t length;
    switch (below(8)) {
    case 0: length = 0; break;
    case 1: length = 1; break;
    case 2: length = 2 + below(3); break;
    case 3: length = below(one_in(16) ? LONGEST_FILL + 1 : 200); break;
    case 4: length = below(at_most(t->length, 100) + 3); break;
    default: length = below(20);
    }
    put(list, E, 8 * length, 8, true);
    for (size_t i = 0; i < length; i++) {
        uint64_t bits = draw();
        memcpy(list->at + 8 * i, &bits, 8);
    }
    chosen(list);
}

static void try_next(unsigned width)
{
    text t, needle;
    place c, at;
    draw_search(&t, &needle, &c, &at, width);
    if (!one_in(16)) /* else any bits */
        draw_cursor((hx_cursor *)c.at, t.length);
    chosen(&c);
    take_rest_away(&t, &needle, &c);
    next_call(&t, &needle, &c, &at);
}

static void try_fill(unsigned width)
{
    text t, needle;
    place c, list, count;
    draw_search(&t, &needle, &c, &count, width);
    draw_list(&list, &t);
    hx_cursor *cursor = (hx_cursor *)c.at;
    if (!one_in(16)) /* else any bits */
        draw_cursor(cursor, t.length);
    if (one_in(2)) /* so that more are accepted */
        cursor->position = cursor->exhausted = 0;
    chosen(&c);
    take_rest_away(&t, &needle, &c);
    fill_call(&t, &needle, &c, &list, &count);
}

static void check_fresh(place *c, uint64_t stop)
{
    hx_cursor *cursor = (hx_cursor *)c->at, fresh = {0, 0, 0, stop};
    bool kept = c->is_read;
    function = "hx_cursor_fresh";
    arg("stop", stop);
    c->is_read = false;
    before_call();
    hx_cursor_fresh(cursor, stop);
    after_call();
    c->is_read = kept;
    given[0]++;
    if (memcmp(cursor, &fresh, sizeof fresh) != 0)
        fail("a fresh cursor that is not 0, 0, 0 and the stop");
    written(c, sizeof fresh);
    settle();
}

static void try_fresh(void)
{
    place c;
    begin("hx_cursor_fresh");
    out(&c, C, sizeof(hx_cursor), sizeof(uint64_t));
    check_fresh(&c, draw_stop(any_number()));
}

/* A list of calls from a fresh cursor: every position up to the stop, absent, then refused. It ends
 * after forty matches. */
static void try_list(unsigned width)
{
    text t, needle;
    place c, at;
    draw_search(&t, &needle, &c, &at, width);
    check_fresh(&c, draw_stop(t.length));
    take_rest_away(&t, &needle, &c);
    uint32_t last = HX_MATCH;
    for (int i = 0; i < 40 && last == HX_MATCH; i++)
        last = next_call(&t, &needle, &c, &at);
    if (last == HX_ABSENT && next_call(&t, &needle, &c, &at) != HX_EXHAUSTED_REFUSED)
        fail("a call after absent was not refused");
}

/* Fills and next matches mixed, each with the cursor of the last; after absent a fill is refused.
 * It ends after twenty calls. */
static void try_mixture(unsigned width)
{
    text t, needle;
    place c, at, list;
    draw_search(&t, &needle, &c, &at, width);
    if (one_in(2))
        check_fresh(&c, draw_stop(t.length));
    else
        draw_cursor((hx_cursor *)c.at, t.length);
    chosen(&c);
    take_rest_away(&t, &needle, &c);
    uint32_t last = HX_FULL;
    size_t others = used_count;
    for (int i = 0; i < 20 && (last == HX_MATCH || last == HX_FULL); i++) {
        used_count = others;
        if (one_in(3)) {
            last = next_call(&t, &needle, &c, &at);
        } else {
            draw_list(&list, &t);
            last = fill_call(&t, &needle, &c, &list, &at);
        }
    }
    used_count = others;
    draw_list(&list, &t);
    if (last == HX_ABSENT && fill_call(&t, &needle, &c, &list, &at) != HX_EXHAUSTED_REFUSED)
        fail("a fill after absent was not refused");
}

static void try_next_bytes(void) { one_in(8) ? try_list(1) : try_next(1); }
static void try_next_words(void) { one_in(8) ? try_list(2) : try_next(2); }
static void try_fill_bytes(void) { one_in(8) ? try_mixture(1) : try_fill(1); }
static void try_fill_words(void) { one_in(8) ? try_mixture(2) : try_fill(2); }

/* ---- leading runs ---- */

static bool belongs(const text *list, bool ranges, bool is_signed, int32_t e)
{
    for (size_t i = 0; i < list->length; i += ranges ? 2 : 1)
        if (ranges ? element(list, i, is_signed) <= e && e <= element(list, i + 1, is_signed)
                   : element(list, i, is_signed) == e)
            return true;
    return false;
}

static void try_span(unsigned width, bool ranges)
{
    text t, list;
    place s;
    uint32_t result, expected = 0, is_signed = 0;
    size_t most = 16 / width, *span, n = 0;
    if (ranges)
        begin(width == 1 ? "hx_range_span_in_bytes" : "hx_range_span_in_words");
    else
        begin(width == 1 ? "hx_span_in_bytes" : "hx_span_in_words");
    draw_text(&t, A, width);
    if (one_in(8))
        false_text(&list, B, width, most);
    else
        true_text(&list, B, width, below(most + 1));
    if (ranges)
        is_signed = draw_truth();
    span = out(&s, D, sizeof(size_t), sizeof(size_t));
    arg("text_length", t.length), arg("list_length", list.length);
    const uint16_t *words = (const uint16_t *)t.p.at, *word_list = (const uint16_t *)list.p.at;
    if (width == 1)
        CALL(ranges ? hx_range_span_in_bytes(t.p.at, t.length, list.p.at, list.length, is_signed, span)
                    : hx_span_in_bytes(t.p.at, t.length, list.p.at, list.length, span));
    else
        CALL(ranges ? hx_range_span_in_words(words, t.length, word_list, list.length, is_signed, span)
                    : hx_span_in_words(words, t.length, word_list, list.length, span));
    if (t.length > HX_LONGEST_TEXT)
        expected = HX_TEXT_REFUSED;
    else if (list.length > most)
        expected = HX_LIST_REFUSED;
    else if (ranges && list.length % 2 != 0)
        expected = HX_ODD_REFUSED;
    expect(result, expected);
    if (result == 0) {
        while (n < t.length && belongs(&list, ranges, is_signed != 0, element(&t, n, is_signed != 0)))
            n++;
        if (*span != n)
            fail("span %zu of %zu elements where %zu is expected", *span, t.length, n);
        written(&s, sizeof(size_t));
    }
    settle();
}

static void try_span_bytes(void) { try_span(1, false); }
static void try_span_words(void) { try_span(2, false); }
static void try_ranges_bytes(void) { try_span(1, true); }
static void try_ranges_words(void) { try_span(2, true); }

/* ---- the order of two texts ---- */

static int32_t order_of(const text *first, const text *second, bool is_signed)
{
    for (size_t i = 0; i < first->length && i < second->length; i++) {
        int32_t x = element(first, i, is_signed), y = element(second, i, is_signed);
        if (x != y)
            return x < y ? -1 : 1;
    }
    return first->length < second->length ? -1 : first->length > second->length;
}

static void try_order(unsigned width, bool lesser)
{
    text first, second;
    place o;
    uint32_t result, *which;
    int32_t *order;
    if (lesser)
        begin(width == 1 ? "hx_lesser_in_bytes" : "hx_lesser_in_words");
    else
        begin(width == 1 ? "hx_compare_in_bytes" : "hx_compare_in_words");
    draw_text(&first, A, width);
    if (is_true(&first) && one_in(2))
        true_text(&second, B, width, first.length);
    else
        draw_text(&second, B, width);
    relate(&second, &first);
    uint32_t is_signed = draw_truth();
    order = out(&o, D, 4, 4);
    which = (uint32_t *)order;
    arg("first_length", first.length), arg("second_length", second.length);
    const uint16_t *words1 = (const uint16_t *)first.p.at, *words2 = (const uint16_t *)second.p.at;
    if (width == 1)
        CALL(lesser ? hx_lesser_in_bytes(first.p.at, first.length, second.p.at, second.length, is_signed, which)
                    : hx_compare_in_bytes(first.p.at, first.length, second.p.at, second.length, is_signed, order));
    else
        CALL(lesser ? hx_lesser_in_words(words1, first.length, words2, second.length, is_signed, which)
                    : hx_compare_in_words(words1, first.length, words2, second.length, is_signed, order));
    expect(result, is_true(&first) && is_true(&second) ? 0 : HX_TEXT_REFUSED);
    if (result == 0) {
        int32_t expected = order_of(&first, &second, is_signed != 0);
        if (lesser ? *which != (expected > 0) : *order != expected)
            fail("answered %" PRId32 "; the order is %" PRId32, *order, expected);
        written(&o, 4);
    }
    settle();
}

static void try_compare_bytes(void) { try_order(1, false); }
static void try_compare_words(void) { try_order(2, false); }
static void try_lesser_bytes(void) { try_order(1, true); }
static void try_lesser_words(void) { try_order(2, true); }

/* ---- the running order of a day ---- */

/* A name of up to 32 bytes, and any bytes past its length. Now and then it is that of an entry
 * before, or its front, with what is past it drawn anew or a bit changed. */
static void draw_name(hx_entry *entries, size_t i)
{
    static const uint16_t lengths[] = {0, 1, 15, 16, 17, 31, 32, 32};
    uint8_t name[HX_LONGEST_NAME];
    size_t length = one_in(2) ? lengths[below(COUNT(lengths))] : below(HX_LONGEST_NAME + 1);
    scribble(name, sizeof name);
    if (i != 0 && !one_in(4)) {
        const hx_entry *other = &entries[below(i)];
        length = one_in(2) ? other->length : below(HX_LONGEST_NAME + 1);
        memcpy(name, other->name, length);
        if (length != 0 && one_in(3)) {
            size_t at = one_in(2) ? length - 1 : below(length);
            name[at] ^= (uint8_t)(1u << below(8));
        }
    }
    entries[i].length = (uint16_t)length;
    memcpy(entries[i].name, name, sizeof name);
}

/* Numbers that all differ: a step that is odd gives none twice. */
static void draw_numbers(hx_entry *entries, size_t count)
{
    static const uint32_t starts[] = {0, 1, UINT32_MAX, INT32_MAX, UINT32_C(1) << 31};
    static const uint32_t steps[] = {1, UINT32_MAX, 65537, (UINT32_C(1) << 31) + 1};
    uint32_t number = one_in(2) ? starts[below(COUNT(starts))] : (uint32_t)draw();
    uint32_t step = one_in(2) ? steps[below(COUNT(steps))] : (uint32_t)draw() | 1;
    for (size_t i = 0; i < count; i++, number += step)
        entries[i].number = number;
}

/* One mistake: a minute or a length above its limit, or a number that stands twice, mostly in the
 * first entry or the last. */
static void spoil(hx_entry *entries, size_t count)
{
    static const uint16_t minutes[] = {1440, 1441, 1439 + 256, 32768, UINT16_MAX};
    static const uint16_t lengths[] = {33, 34, 256, 256 + 5, 32768, UINT16_MAX};
    size_t at = one_in(3) ? 0 : one_in(2) ? count - 1 : below(count);
    switch (below(3)) {
    case 0: entries[at].minute = one_in(4) ? (uint16_t)draw() : minutes[below(COUNT(minutes))]; break;
    case 1: entries[at].length = one_in(4) ? (uint16_t)draw() : lengths[below(COUNT(lengths))]; break;
    default: entries[at].number = entries[below(count)].number;
    }
}

static void draw_entries(hx_entry *entries, size_t count)
{
    static const uint16_t minutes[] = {0, 629, 630, 1439};
    uint64_t few = below(5);
    draw_numbers(entries, count);
    for (size_t i = 0; i < count; i++) {
        entries[i].minute = few < COUNT(minutes) ? minutes[below(few + 1)] : (uint16_t)below(HX_LAST_MINUTE + 1);
        draw_name(entries, i);
    }
    for (uint64_t mistakes = one_in(3) ? 1 + below(3) : 0; count != 0 && mistakes > 0; mistakes--)
        spoil(entries, count);
}

/* The number that refuses the entries of a day or of a page: 32 is tested before 33. */
static uint32_t entries_refusal(const hx_entry *entries, size_t count)
{
    if (count > HX_MOST_ENTRIES)
        return HX_COUNT_REFUSED;
    for (size_t i = 0; i < count; i++)
        if (entries[i].minute > HX_LAST_MINUTE || entries[i].length > HX_LONGEST_NAME)
            return HX_ENTRY_REFUSED;
    return 0;
}

/* The number that refuses a day: 34 comes last. */
static uint32_t day_refusal(const hx_entry *entries, size_t count)
{
    uint32_t refusal = entries_refusal(entries, count);
    if (refusal != 0)
        return refusal;
    for (size_t i = 0; i < count; i++)
        for (size_t j = 0; j < i; j++)
            if (entries[i].number == entries[j].number)
                return HX_NUMBER_REFUSED;
    return 0;
}

/* Whether one entry stands before the other: by minute, by name, by number. */
static bool stands_before(const hx_entry *x, const hx_entry *y)
{
    if (x->minute != y->minute)
        return x->minute < y->minute;
    for (size_t i = 0; i < x->length && i < y->length; i++)
        if (x->name[i] != y->name[i])
            return x->name[i] < y->name[i];
    if (x->length != y->length)
        return x->length < y->length;
    return x->number < y->number;
}

/* Each entry of an accepted day stands at the place that the number of those before it says, with
 * zeros past its name; the places past the count are zeros. */
static void check_day(const hx_entry *entries, size_t count, const hx_entry *day)
{
    static const hx_entry zeros;
    for (size_t i = 0; i < count; i++) {
        hx_entry cleared = entries[i];
        size_t before = 0;
        memset(cleared.name + cleared.length, 0, HX_LONGEST_NAME - cleared.length);
        for (size_t j = 0; j < count; j++)
            before += stands_before(&entries[j], &entries[i]);
        if (memcmp(&day[before], &cleared, sizeof cleared) != 0)
            fail("place %zu of the day has not entry %zu, number %" PRIu32 ", cleared", before, i, cleared.number);
    }
    for (size_t i = count; i < HX_MOST_ENTRIES; i++)
        if (memcmp(&day[i], &zeros, sizeof zeros) != 0)
            fail("place %zu of the day, past the count, is not zeros", i);
}

/* A count, and as many entries; above the limit it is not true, and there are four at most. */
static size_t draw_count(size_t *held)
{
    if (one_in(10)) {
        *held = below(5);
        return above(HX_MOST_ENTRIES);
    }
    static const size_t counts[] = {0, 1, 2, 3, 199, 200};
    return *held = one_in(4) ? counts[below(COUNT(counts))] : one_in(12) ? below(HX_MOST_ENTRIES + 1) : below(12);
}

/* The day as one output, by hx_day_of, or its places and its count as two, by hx_day_of_parts. */
static void try_day(bool parts)
{
    place e, d, c;
    uint32_t result;
    size_t held;
    uint64_t *day_count;
    begin(parts ? "hx_day_of_parts" : "hx_day_of");
    size_t count = draw_count(&held);
    put(&e, A, held * sizeof(hx_entry), _Alignof(hx_entry), false);
    hx_entry *entries = (hx_entry *)e.at;
    draw_entries(entries, held);
    chosen(&e);
    arg("count", count);
    if (parts) {
        hx_entry *places = out(&d, C, HX_MOST_ENTRIES * sizeof(hx_entry), _Alignof(hx_entry));
        day_count = out(&c, D, sizeof *day_count, sizeof *day_count);
        CALL(hx_day_of_parts(entries, count, places, day_count));
    } else {
        hx_day *day = out(&d, C, sizeof *day, _Alignof(hx_day));
        day_count = &day->count;
        CALL(hx_day_of(entries, count, day));
    }
    expect(result, day_refusal(entries, count));
    if (result == 0) {
        check_day(entries, count, (const hx_entry *)d.at);
        if (*day_count != count)
            fail("the day's count is %" PRIu64 ", not %zu", *day_count, count);
        written(&d, d.bytes);
        if (parts)
            written(&c, c.bytes);
    }
    settle();
}

static void try_day_of(void) { try_day(false); }
static void try_day_of_parts(void) { try_day(true); }

/* ---- the page of a day ---- */

/* Numbers of every count of digits, that may stand twice, and names with the bytes around those
 * that are printed; the minutes as they are. */
static void draw_lines(hx_entry *entries, size_t count)
{
    static const uint8_t edges[] = {0, '\n', 31, 32, 126, 127, 128, 255};
    for (size_t i = 0; i < count; i++) {
        uint64_t power = 1;
        for (uint64_t digits = below(10); digits > 0; digits--)
            power *= 10;
        entries[i].number = (uint32_t)(one_in(16) ? UINT32_MAX - below(2) : power + below(3) - 1);
        for (uint64_t k = below(4); k > 0; k--) {
            size_t at = below(HX_LONGEST_NAME);
            entries[i].name[at] = edges[below(COUNT(edges))];
        }
    }
}

/* The bytes of a page: mostly enough for the lines or some less; now and then many more. Of a count
 * that is refused, up to those of the longest. */
static size_t draw_page_length(size_t count)
{
    size_t lines = HX_DAY_LINE * (count > HX_MOST_ENTRIES ? below(HX_MOST_ENTRIES + 2) : count);
    switch (below(8)) {
    case 0: return lines == 0 ? 0 : lines - 1;
    case 1: return below(lines + 1);
    case 2: return lines + 1 + below(100);
    case 3: return one_in(16) ? UINT16_MAX + 1 + lines / 2 : lines + below(2000);
    default: return lines;
    }
}

/* The line of an entry: number, time, name, line feed. */
static void print_line(const hx_entry *e, char line[HX_DAY_LINE + 1])
{
    char name[HX_LONGEST_NAME + 1];
    for (size_t i = 0; i < HX_LONGEST_NAME; i++)
        name[i] = (char)(i >= e->length ? ' ' : e->name[i] < 32 || e->name[i] > 126 ? '?' : e->name[i]);
    name[HX_LONGEST_NAME] = 0;
    int bytes = snprintf(line, HX_DAY_LINE + 1, "%10" PRIu32 " %02u:%02u %s\n", e->number, e->minute / 60u,
                         e->minute % 60u, name);
    if (bytes != (int)HX_DAY_LINE)
        fail("the test's own line has %d bytes", bytes);
}

static void try_day_page(void)
{
    place e, p;
    uint32_t result;
    size_t held;
    char line[HX_DAY_LINE + 1];
    begin("hx_day_page");
    size_t count = draw_count(&held);
    put(&e, A, held * sizeof(hx_entry), _Alignof(hx_entry), false);
    hx_entry *entries = (hx_entry *)e.at;
    draw_entries(entries, held);
    if (one_in(2))
        draw_lines(entries, held);
    chosen(&e);
    arg("count", count);
    size_t length = arg("page_length", draw_page_length(count));
    uint8_t *page = out(&p, C, length, 1);
    CALL(hx_day_page(entries, count, page, length));
    uint32_t refusal = entries_refusal(entries, count);
    expect(result, refusal != 0 ? refusal : length < HX_DAY_LINE * count ? HX_PAGE_REFUSED : 0);
    for (size_t r = 0; result == 0 && r < count; r++) {
        print_line(&entries[r], line);
        if (memcmp(page + HX_DAY_LINE * r, line, HX_DAY_LINE) != 0)
            fail("line %zu of the page is %.49s", r, (const char *)page + HX_DAY_LINE * r);
    }
    if (result == 0)
        written(&p, HX_DAY_LINE * count);
    settle();
}

/* ---- columns and the report ---- */

static uint64_t draw_number(void)
{
    uint64_t power = 1;
    if (one_in(2))
        return one_in(16) ? UINT64_MAX - below(2) : any_number();
    for (uint64_t i = below(20); i > 0; i--)
        power *= 10;
    return power - 1 + below(3);
}

static void try_column(void)
{
    place p;
    char digits[24];
    uint32_t result, expected = 0;
    begin("hx_right_justified");
    uint64_t number = arg("number", draw_number());
    size_t width = arg("width", one_in(8) ? above(20) : one_in(8) ? 0 : 1 + below(20));
    size_t count = (size_t)snprintf(digits, sizeof digits, "%" PRIu64, number);
    size_t length = one_in(4) ? below(21) : one_in(64) ? 4096 : width < 4096 ? width + below(12) : below(100);
    if (length > 2 && one_in(4))
        length -= 1 + below(2);
    arg("buffer_length", length);
    uint8_t *buffer = out(&p, C, length, 1);
    CALL(hx_right_justified(number, width, buffer, length));
    if (width == 0 || width > 20 || count > width)
        expected = HX_WIDTH_REFUSED;
    else if (length < width)
        expected = HX_BUFFER_REFUSED;
    expect(result, expected);
    if (result == 0) {
        for (size_t i = 0; i < width; i++)
            if (buffer[i] != (i < width - count ? ' ' : digits[i - (width - count)]))
                fail("column %zu is %02x", i, buffer[i]);
        written(&p, width);
    }
    settle();
}

/* The input of a report: mostly a small needle, a line feed and a text; also no line feed, needles
 * around 1,024, and lengths at and above 65,536. */
static void draw_input(text *input)
{
    uint64_t kind = below(4096);
    if (kind < 256) {
        false_text(input, A, 1, HX_LONGEST_INPUT);
        return;
    }
    size_t length = kind < 260 ? HX_LONGEST_INPUT - below(3) : small_length();
    size_t feed = one_in(8) ? length : one_in(8) ? 1022 + below(5) : below(12);
    if (one_in(64))
        length += feed;
    true_text(input, A, 1, length);
    for (size_t i = 0; i < length; i++)
        if (input->p.at[i] == '\n')
            input->p.at[i] = 'A';
    if (feed < length) {
        input->p.at[feed] = '\n';
        size_t rest = length - feed - 1;
        if (rest >= feed && one_in(2))
            memcpy(input->p.at + feed + 1 + below(rest - feed + 1), input->p.at, feed);
    }
    chosen(&input->p);
}

/* The number that refuses the input of a report: 7, 6 and 3 are tested in this order. */
static uint32_t report_refusal(const text *input)
{
    if (input->length > HX_LONGEST_INPUT)
        return HX_INPUT_REFUSED;
    const uint8_t *feed = memchr(input->p.at, '\n', input->length);
    if (feed == NULL)
        return HX_FEED_REFUSED;
    return feed - input->p.at > (ptrdiff_t)HX_LONGEST_NEEDLE ? HX_NEEDLE_REFUSED : 0;
}

/* The line of totals: how many matches, and the compares, which are a number in 10 columns. */
static void check_totals(const uint8_t *page, uint64_t count, bool empty_needle)
{
    char line[32];
    uint64_t compares = 0;
    snprintf(line, sizeof line, "%8" PRIu64, count);
    if (memcmp(page, line, 8) != 0 || page[18] != '\n')
        fail("the report's last line is not one of %" PRIu64 " matches", count);
    for (size_t i = 8; i < 18; i++)
        compares = page[i] == ' ' && compares == 0 ? 0 : compares * 10 + (uint64_t)(page[i] - '0');
    snprintf(line, sizeof line, "%10" PRIu64, compares);
    if (memcmp(page + 8, line, 10) != 0 || (empty_needle && compares != 0))
        fail("the report's column of compares is no number, or not 0 for an empty needle");
}

/* The lines of an accepted input, but for the compares. Returns how many bytes they are. */
static size_t check_report(const text *input, const uint8_t *page)
{
    char line[32];
    size_t bytes = 0, m = (size_t)((uint8_t *)memchr(input->p.at, '\n', input->length) - input->p.at);
    uint64_t count = 0;
    text needle = {{input->p.in, input->p.at, m, false, false}, m, 1};
    text t = {{input->p.in, input->p.at + m + 1, input->length - m - 1, false, false}, input->length - m - 1, 1};
    for (uint64_t p = stands_from(&t, &needle, 0); p != UINT64_MAX;
         p = stands_from(&t, &needle, p + 1), count++, bytes += 9) {
        snprintf(line, sizeof line, "%8" PRIu64 "\n", p);
        if (memcmp(page + bytes, line, 9) != 0)
            fail("line %" PRIu64 " of the report is not position %" PRIu64, count, p);
    }
    check_totals(page + bytes, count, m == 0);
    return bytes + 19;
}

/* A page is long, so its bytes are those that earlier reports left, and only those around the lines
 * are looked at here; the others are with the arenas, from time to time. */
static void try_report(void)
{
    text input;
    place p, q;
    uint32_t result;
    begin("hx_report");
    draw_input(&input);
    put(&p, C, HX_LONGEST_REPORT, 1, true);
    size_t *count = out(&q, D, sizeof *count, sizeof *count);
    arg("input_length", input.length);
    CALL(hx_report(input.p.at, input.length, p.at, count));
    expect(result, report_refusal(&input));
    p.bytes = 0;
    if (result == 0) {
        p.bytes = check_report(&input, p.at);
        if (*count != p.bytes)
            fail("the report has %zu bytes, not %zu", p.bytes, *count);
        written(&p, p.bytes);
        written(&q, sizeof *count);
    }
    settle();
}

static void try_refusal_line(void)
{
    place p;
    uint32_t result = 0, number = one_in(2) ? (uint32_t)below(300) : (uint32_t)any_number();
    char line[32];
    begin("hx_refusal_line");
    uint8_t *at = out(&p, C, HX_NUMBER_LINE, 1);
    arg("number", number);
    CALL((hx_refusal_line(number, at), 0u));
    if (number < 100000000)
        snprintf(line, sizeof line, "%8" PRIu32 "\n", number);
    else
        snprintf(line, sizeof line, "%8s\n", "");
    if (memcmp(at, line, HX_NUMBER_LINE) != 0)
        fail("the line of %" PRIu32 " is not %s", number, line);
    written(&p, HX_NUMBER_LINE);
    expect(result, 0);
    settle();
}

/* ---- the run ---- */

static void (*const tries[])(void) = {
    /* the unit */
    try_pcmpestri, try_pcmpestrm, try_pcmpistri, try_pcmpistrm, try_0c, try_0d, try_18, try_19,
    /* the search */
    try_fresh, try_next_bytes, try_next_words, try_fill_bytes, try_fill_words,
    /* leading runs */
    try_span_bytes, try_span_words, try_ranges_bytes, try_ranges_words,
    /* orders */
    try_compare_bytes, try_compare_words, try_lesser_bytes, try_lesser_words,
    /* the running order of a day */
    try_day_of, try_day_of_parts,
    /* its page */
    try_day_page,
    /* columns and the report */
    try_column, try_report, try_refusal_line,
};

static void try_case(uint64_t number)
{
    case_number = number;
    state = seed * 0xd1342543de82ef95u + number * 0x2545f4914f6cdd1du;
    draw();
    alphabet = below(COUNT(alphabets) + 2);
    tries[below(COUNT(tries))]();
}

static void tell_address(const uint8_t *at)
{
    for (size_t i = 0; i < used_count; i++) {
        const place *p = used[i];
        const uint8_t *low = p->in->low - page_bytes, *high = p->in->low + p->in->size + page_bytes;
        if (at >= low && at < high)
            printf("tests/faults: the address is byte %td of %s %zu, of %zu bytes\n", at - p->at,
                   p->is_out ? "output" : "input", i, p->bytes);
    }
}

static void trapped(int number, siginfo_t *info, void *context)
{
    (void)context;
    signal(number, SIG_DFL); /* a fault while it is told ends the run */
    tell_call();
    if (number == SIGALRM)
        printf("tests/faults: the call does not return\n");
    else
        printf("tests/faults: a trap%s\n",
               number == SIGFPE || number == SIGILL ? "" : ": a read or write outside the buffers");
    if (number != SIGALRM)
        tell_address(info->si_addr);
    fflush(stdout);
    _exit(3);
}

static void catch_traps(void)
{
    static const int numbers[] = {SIGSEGV, SIGBUS, SIGILL, SIGFPE, SIGALRM};
    struct sigaction action;
    memset(&action, 0, sizeof action);
    action.sa_sigaction = trapped;
    action.sa_flags = SA_SIGINFO;
    for (size_t i = 0; i < COUNT(numbers); i++)
        sigaction(numbers[i], &action, NULL);
}

static double seconds(void)
{
    struct timespec now;
    clock_gettime(CLOCK_MONOTONIC, &now);
    return (double)now.tv_sec + (double)now.tv_nsec / 1e9;
}

static double percent(uint64_t part) { return 100.0 * (double)part / (double)calls; }

static void tell_figures(double took)
{
    printf("tests/faults: %" PRIu64 " calls in %.1f s, %.0f a second, none wrong (seed %" PRIu64 ", digest %016" PRIx64
           ", " FORM "); accepted %.2f %%, absent %.2f %%, full %.2f %%, stopped %.2f %%, nothing past the stop "
           "%.2f %%, refused by",
           calls, took, (double)calls / took, seed, digest, percent(given[0]), percent(given[HX_ABSENT]),
           percent(given[HX_FULL]), percent(stopped), percent(without_rest));
    for (uint32_t i = 1; i < HX_ABSENT; i++)
        if (given[i] != 0)
            printf(" %" PRIu32 ": %.2f %%", i, percent(given[i]));
    printf("\n");
}

/* A child reads or writes one byte in a guard page; it must end by SIGSEGV. */
static void check_guard(volatile uint8_t *at, bool write)
{
    int status;
    pid_t child = fork();
    if (child == 0) {
        struct rlimit none = {0, 0};
        setrlimit(RLIMIT_CORE, &none);
        close(STDERR_FILENO); /* on which an emulator would tell of the trap */
        signal(SIGSEGV, SIG_DFL);
        if (write)
            *at = 1;
        else
            (void)*at;
        _exit(0);
    }
    if (child < 0 || waitpid(child, &status, 0) != child || !WIFSIGNALED(status) || WTERMSIG(status) != SIGSEGV)
        fail("a guard page did not trap");
}

static void check_guards(void)
{
    int traps = 0;
    for (int i = 0; i < SLOTS + 3; i++) {
        const arena *a = i < SLOTS ? &small_arena[i] : &large_arena[i - SLOTS];
        for (int write = 0; write < 2; write++, traps += 2) {
            check_guard(a->low - 1, write);
            check_guard(a->low + a->size, write);
        }
    }
    printf("tests/faults: %d reads and writes of one byte in a guard page, each ended by SIGSEGV (" FORM ")\n", traps);
}

int main(int count, char **words)
{
    uint64_t wanted = 500000, only = UINT64_MAX;
    bool guards = false;
    for (int i = 1; i < count; i++) {
        if (strcmp(words[i], "--guards") == 0)
            guards = true;
        else if (i + 1 < count && strcmp(words[i], "--calls") == 0)
            wanted = strtoull(words[++i], NULL, 10);
        else if (i + 1 < count && strcmp(words[i], "--seed") == 0)
            seed = strtoull(words[++i], NULL, 10);
        else if (i + 1 < count && strcmp(words[i], "--case") == 0)
            only = strtoull(words[++i], NULL, 10);
        else {
            fprintf(stderr, "usage: faults [--calls N] [--seed N] [--case I] [--guards]\n");
            return 2;
        }
    }
    make_arenas();
    if (guards) {
        check_guards();
        return 0;
    }
    catch_traps();
    double began = seconds();
    if (only != UINT64_MAX)
        try_case(only);
    for (uint64_t i = 0; only == UINT64_MAX && calls < wanted; i++) {
        if (i % 1024 == 0)
            alarm(300);
        try_case(i);
    }
    check_arenas();
    tell_figures(seconds() - began);
    return 0;
}
