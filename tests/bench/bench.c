// Times the proved search and the proved unit beside the processor's own instructions, the C
// library's memmem and a plain loop, the proved running order of a day beside the C library's
// qsort, and its proved page beside snprintf. tests/bench/run builds it, runs it and makes the
// tables.
//
//   bench search ROUNDS      a line for each case: all contenders, in turn, in one process
//   bench real ROUNDS        a line for each case: the real walk alone, for a run under an emulator
//   bench stops ROUNDS       a line for each case: a stop at half the text beside one at its end
//   bench growth ROUNDS      the proved search over texts of 64 KiB to 1 MiB elements
//   bench unit ROUNDS        a line for each call and control: the model and the instruction, the
//                            explicit ones with REX.W
//   bench real-unit ROUNDS   the instructions alone, without REX.W; controls that an emulator lacks
//                            are left out
//   bench entries ROUNDS     one compare at 0Ch and at 18h, block after block
//   bench day ROUNDS         a line for each kind of day: the proved call and qsort
//   bench page ROUNDS        a line for each kind of page: the proved call and snprintf
//
// Times are the least of the rounds, in nanoseconds. In `search` each contender's matches are
// checked against the proved search's, and so are the compares of every walk, in `stops` too. There
// the lines have ratios. In `day` both must give the same entries in the same order, in `page` the
// same bytes.
#define _GNU_SOURCE
#include <immintrin.h>
#include <inttypes.h>
#include <setjmp.h>
#include <signal.h>
#include <stdint.h>
#include <stdio.h>
#include <stdlib.h>
#include <string.h>
#include <time.h>

#include "../../include/hirtxonda.h"

#define MIB 1048576u

static double now(void) {
    struct timespec t;
    clock_gettime(CLOCK_MONOTONIC, &t);
    return (double)t.tv_sec * 1e9 + (double)t.tv_nsec;
}

static uint64_t state = 0x9e3779b97f4a7c15u;

static uint32_t draw(uint32_t below) {
    state ^= state << 13;
    state ^= state >> 7;
    state ^= state << 17;
    return (uint32_t)((state >> 32) * below >> 32);
}

// ---- a made-up register: surname, given name, year, plot

static const char *surnames[] = {
    "SMITH", "JONES", "TAYLOR", "BROWN", "WILLIAMS", "WILSON", "JOHNSON", "DAVIES", "PATEL", "ROBINSON", "WRIGHT", "THOMPSON", "EVANS", "WALKER", "WHITE",
    "ROBERTS", "GREEN", "HALL", "WOOD", "HARRIS", "MARTIN", "JACKSON", "CLARKE", "CLARK", "TURNER", "HILL", "SCOTT", "COOPER", "MORRIS", "WARD", "MOORE",
    "KING", "WATSON", "BAKER", "HARRISON", "MORGAN", "YOUNG", "ALLEN", "ANDERSON", "MITCHELL", "SMYTHE", "PHILLIPS", "JAMES", "CAMPBELL", "BELL", "LEE", "KELLY",
    "PARKER", "DAVIS", "BENNETT", "MILLER", "COOK", "SHAW", "PRICE", "COLLINS", "MURPHY", "HUGHES", "EDWARDS", "GRIFFITHS", "HARTLEY", "HARDING", "HARPER",
    "SMITHSON", "STEWART", "STEVENS", "SIMPSON"};
static const char *given[] = {"ANN", "MARY", "MARGARET", "ELIZABETH", "JOHN", "WILLIAM", "THOMAS", "GEORGE", "JAMES", "HENRY", "CHARLES", "SARAH", "ALICE", "EDITH",
                              "FLORENCE", "ARTHUR", "ALBERT", "ROBERT", "JOSEPH", "EMMA", "ETHEL", "DORIS", "HAROLD", "FRANK", "ERNEST", "WALTER"};
#define COUNT(a) (sizeof(a) / sizeof(*(a)))

static void make_register(uint8_t *text, size_t n) {
    size_t at = 0;
    while (at < n) {
        char line[96];
        int k = snprintf(line, sizeof line, "%s, %s %u %c-%03u\n", surnames[draw(COUNT(surnames))], given[draw(COUNT(given))], 1850 + draw(170), 'A' + (int)draw(12),
                         draw(400));
        for (int i = 0; i < k && at < n; i++) text[at++] = (uint8_t)line[i];
    }
}

// ---- the real walk: that of document 01, "The walk", with the processor's own instructions. They
// stand without REX.W: the lengths are 16 at most, and emulators lack the other form.

static inline uint32_t refusal(const hx_cursor *c, size_t n, size_t m) {
    if (n > HX_LONGEST_TEXT) return HX_TEXT_REFUSED;
    if (m > HX_LONGEST_NEEDLE) return HX_NEEDLE_REFUSED;
    if (c->exhausted) return HX_EXHAUSTED_REFUSED;
    if (c->stop > n) return HX_STOP_REFUSED;
    if (c->position > c->stop + 1) return HX_POSITION_REFUSED;
    if (c->compares > HX_MOST_COMPARES) return HX_COMPARES_REFUSED;
    return 0;
}

// the needle's first piece as an operand
static inline __m128i first_in_bytes(const uint8_t *needle, int l) {
    uint8_t front[16] = {0};
    memcpy(front, needle, (size_t)l);
    return _mm_loadu_si128((const __m128i *)front);
}

// the walk from an accepted cursor on; `first` is the needle's first piece, of l elements
static inline uint32_t real_walk_in_bytes(hx_cursor *c, const uint8_t *text, size_t n, const uint8_t *needle, size_t m, __m128i first, int l, uint64_t *position) {
    size_t p = c->position;
    uint64_t compares = c->compares;
    while (p + m <= n) {
        if (m == 0) goto found;
        size_t left = n - p;
        int k;
        compares++;
        if (left >= 16) {
            k = _mm_cmpestri(first, l, _mm_loadu_si128((const __m128i *)(text + p)), 16, 0x0c);
            left = 16;
        } else {
            uint8_t block[16] = {0};
            memcpy(block, text + p, left);
            k = _mm_cmpestri(first, l, _mm_loadu_si128((const __m128i *)block), (int)left, 0x0c);
        }
        if (k == 16) {
            p += left;
            continue;
        }
        if (k) {
            p += (size_t)k;
            continue;
        }
        size_t i = 16;
        for (; i < m; i += 16) {
            size_t piece = m - i < 16 ? m - i : 16;
            int d;
            compares++;
            if (piece == 16) {
                d = _mm_cmpestri(_mm_loadu_si128((const __m128i *)(needle + i)), 16, _mm_loadu_si128((const __m128i *)(text + p + i)), 16, 0x18);
            } else {
                uint8_t x[16] = {0}, y[16] = {0};
                memcpy(x, needle + i, piece);
                memcpy(y, text + p + i, piece);
                d = _mm_cmpestri(_mm_loadu_si128((const __m128i *)x), (int)piece, _mm_loadu_si128((const __m128i *)y), (int)piece, 0x18);
            }
            if (d < 16) break;
        }
        if (i < m) {
            p++;
            continue;
        }
    found:
        c->position = p + 1;
        c->compares = compares;
        *position = p;
        return HX_MATCH;
    }
    c->compares = compares;
    c->exhausted = 1;
    return HX_ABSENT;
}

__attribute__((noinline)) static uint32_t real_next_in_bytes(hx_cursor *c, const uint8_t *text, size_t n, const uint8_t *needle, size_t m, uint64_t *position) {
    uint32_t number = refusal(c, n, m);
    if (number) return number;
    int l = m < 16 ? (int)m : 16;
    return real_walk_in_bytes(c, text, c->stop, needle, m, first_in_bytes(needle, l), l, position);
}

__attribute__((noinline)) static uint32_t real_fill_in_bytes(hx_cursor *cursor, const uint8_t *text, size_t n, const uint8_t *needle, size_t m, uint64_t *positions, size_t length, size_t *count) {
    hx_cursor c = *cursor;
    uint32_t number = refusal(&c, n, m);
    if (number) return number;
    int l = m < 16 ? (int)m : 16;
    __m128i first = first_in_bytes(needle, l);
    size_t k = 0;
    uint32_t end = HX_FULL;
    while (k < length) {
        end = refusal(&c, n, m);
        if (end) break;
        end = real_walk_in_bytes(&c, text, c.stop, needle, m, first, l, &positions[k]);
        if (end) break;
        k++;
        end = HX_FULL;
    }
    *cursor = c;
    *count = k;
    return end;
}

// the needle's first piece as an operand
static inline __m128i first_in_words(const uint16_t *needle, int l) {
    uint16_t front[8] = {0};
    memcpy(front, needle, (size_t)l * 2);
    return _mm_loadu_si128((const __m128i *)front);
}

// the walk from an accepted cursor on; `first` is the needle's first piece, of l elements
static inline uint32_t real_walk_in_words(hx_cursor *c, const uint16_t *text, size_t n, const uint16_t *needle, size_t m, __m128i first, int l, uint64_t *position) {
    size_t p = c->position;
    uint64_t compares = c->compares;
    while (p + m <= n) {
        if (m == 0) goto found;
        size_t left = n - p;
        int k;
        compares++;
        if (left >= 8) {
            k = _mm_cmpestri(first, l, _mm_loadu_si128((const __m128i *)(text + p)), 8, 0x0d);
            left = 8;
        } else {
            uint16_t block[8] = {0};
            memcpy(block, text + p, left * 2);
            k = _mm_cmpestri(first, l, _mm_loadu_si128((const __m128i *)block), (int)left, 0x0d);
        }
        if (k == 8) {
            p += left;
            continue;
        }
        if (k) {
            p += (size_t)k;
            continue;
        }
        size_t i = 8;
        for (; i < m; i += 8) {
            size_t piece = m - i < 8 ? m - i : 8;
            int d;
            compares++;
            if (piece == 8) {
                d = _mm_cmpestri(_mm_loadu_si128((const __m128i *)(needle + i)), 8, _mm_loadu_si128((const __m128i *)(text + p + i)), 8, 0x19);
            } else {
                uint16_t x[8] = {0}, y[8] = {0};
                memcpy(x, needle + i, piece * 2);
                memcpy(y, text + p + i, piece * 2);
                d = _mm_cmpestri(_mm_loadu_si128((const __m128i *)x), (int)piece, _mm_loadu_si128((const __m128i *)y), (int)piece, 0x19);
            }
            if (d < 8) break;
        }
        if (i < m) {
            p++;
            continue;
        }
    found:
        c->position = p + 1;
        c->compares = compares;
        *position = p;
        return HX_MATCH;
    }
    c->compares = compares;
    c->exhausted = 1;
    return HX_ABSENT;
}

__attribute__((noinline)) static uint32_t real_next_in_words(hx_cursor *c, const uint16_t *text, size_t n, const uint16_t *needle, size_t m, uint64_t *position) {
    uint32_t number = refusal(c, n, m);
    if (number) return number;
    int l = m < 8 ? (int)m : 8;
    return real_walk_in_words(c, text, c->stop, needle, m, first_in_words(needle, l), l, position);
}

__attribute__((noinline)) static uint32_t real_fill_in_words(hx_cursor *cursor, const uint16_t *text, size_t n, const uint16_t *needle, size_t m, uint64_t *positions, size_t length, size_t *count) {
    hx_cursor c = *cursor;
    uint32_t number = refusal(&c, n, m);
    if (number) return number;
    int l = m < 8 ? (int)m : 8;
    __m128i first = first_in_words(needle, l);
    size_t k = 0;
    uint32_t end = HX_FULL;
    while (k < length) {
        end = refusal(&c, n, m);
        if (end) break;
        end = real_walk_in_words(&c, text, c.stop, needle, m, first, l, &positions[k]);
        if (end) break;
        k++;
        end = HX_FULL;
    }
    *cursor = c;
    *count = k;
    return end;
}

// ---- what is searched

enum { BYTES, WORDS };

typedef struct {
    const char *name;
    int width;
    const void *text, *needle;
    size_t n, m, stop;
} search_case;

typedef struct {
    uint64_t hits, sum, compares;
} outcome;

enum { PROVED, REAL, FILL, REAL_FILL, MEMMEM, LOOP, CONTENDERS };

static outcome walk_all(const search_case *s, int real) {
    outcome o = {0, 0, 0};
    hx_cursor c;
    uint64_t p;
    hx_cursor_fresh(&c, s->stop);
    if (s->width == BYTES) {
        uint32_t (*next)(hx_cursor *, const uint8_t *, size_t, const uint8_t *, size_t, uint64_t *) = real ? real_next_in_bytes : hx_next_in_bytes;
        while (next(&c, s->text, s->n, s->needle, s->m, &p) == HX_MATCH) o.hits++, o.sum += p;
    } else {
        uint32_t (*next)(hx_cursor *, const uint16_t *, size_t, const uint16_t *, size_t, uint64_t *) = real ? real_next_in_words : hx_next_in_words;
        while (next(&c, s->text, s->n, s->needle, s->m, &p) == HX_MATCH) o.hits++, o.sum += p;
    }
    o.compares = c.compares;
    return o;
}

// how many positions a list has
#define LIST 256

static outcome fill_all(const search_case *s, int real) {
    outcome o = {0, 0, 0};
    hx_cursor c;
    uint64_t list[LIST];
    size_t count;
    uint32_t end;
    hx_cursor_fresh(&c, s->stop);
    do {
        if (s->width == BYTES) end = (real ? real_fill_in_bytes : hx_fill_in_bytes)(&c, s->text, s->n, s->needle, s->m, list, LIST, &count);
        else end = (real ? real_fill_in_words : hx_fill_in_words)(&c, s->text, s->n, s->needle, s->m, list, LIST, &count);
        o.hits += count;
        for (size_t i = 0; i < count; i++) o.sum += list[i];
    } while (end == HX_FULL);
    o.compares = c.compares;
    return o;
}

static outcome memmem_all(const search_case *s) {
    outcome o = {0, 0, 0};
    const uint8_t *text = s->text, *at = text, *end = text + s->n;
    while ((at = memmem(at, (size_t)(end - at), s->needle, s->m)) != NULL) {
        o.hits++;
        o.sum += (uint64_t)(at - text);
        at++;
    }
    return o;
}

__attribute__((noinline)) static outcome loop_all(const search_case *s) {
    outcome o = {0, 0, 0};
    if (s->width == BYTES) {
        const uint8_t *x = s->text, *y = s->needle;
        for (size_t p = 0; p + s->m <= s->n; p++) {
            size_t i = 0;
            while (i < s->m && x[p + i] == y[i]) i++;
            if (i == s->m) o.hits++, o.sum += p;
        }
    } else {
        const uint16_t *x = s->text, *y = s->needle;
        for (size_t p = 0; p + s->m <= s->n; p++) {
            size_t i = 0;
            while (i < s->m && x[p + i] == y[i]) i++;
            if (i == s->m) o.hits++, o.sum += p;
        }
    }
    return o;
}

static outcome run(const search_case *s, int contender) {
    switch (contender) {
    case PROVED: return walk_all(s, 0);
    case REAL: return walk_all(s, 1);
    case FILL: return fill_all(s, 0);
    case REAL_FILL: return fill_all(s, 1);
    case MEMMEM: return memmem_all(s);
    default: return loop_all(s);
    }
}

static search_case cases[64];
static size_t case_count;

static void add(const char *name, int width, const void *text, size_t n, const void *needle, size_t m) {
    search_case s = {name, width, text, needle, n, m, n};
    cases[case_count++] = s;
}

static void *fresh(size_t bytes) {
    void *at = malloc(bytes + 64);
    if (!at) abort();
    return at;
}

static const uint16_t *widened(const uint8_t *x, size_t n) {
    uint16_t *y = fresh(n * 2);
    for (size_t i = 0; i < n; i++) y[i] = x[i];
    return y;
}

// A text of n - 1 A and a B, a needle of m - 1 A and a B: the most compares for these sizes
// (document 02 [7]).
static void add_worst(const char *name, int width, size_t n, size_t m) {
    uint8_t *text = fresh(n), *needle = fresh(m);
    memset(text, 'A', n);
    memset(needle, 'A', m);
    text[n - 1] = needle[m - 1] = 'B';
    if (width == BYTES) add(name, BYTES, text, n, needle, m);
    else add(name, WORDS, widened(text, n), n, widened(needle, m), m);
}

static void make_cases(size_t n) {
    uint8_t *text = fresh(n);
    make_register(text, n);
    const uint16_t *wide = widened(text, n);
    static const char *names[] = {"E", "AN", "LEE", "SMITH", "JONES", "QUIRK", "HARTE", "MARGARET", "ANDERSEN"};
    for (int width = BYTES; width <= WORDS; width++) {
        for (size_t i = 0; i < COUNT(names); i++) {
            const uint8_t *needle = (const uint8_t *)names[i];
            size_t m = strlen(names[i]);
            if (width == BYTES) add(names[i], BYTES, text, n, needle, m);
            else add(names[i], WORDS, wide, n, widened(needle, m), m);
        }
        // longer needles are taken from the register's middle, from the start of an entry
        size_t at = n / 2;
        while (text[at - 1] != '\n') at++;
        static const size_t lengths[] = {16, 17, 61, 1024};
        static const char *labels[] = {"16 letters", "17 letters", "61 letters", "1,024 letters"};
        for (size_t i = 0; i < COUNT(lengths); i++) {
            if (width == BYTES) add(labels[i], BYTES, text, n, text + at, lengths[i]);
            else add(labels[i], WORDS, wide, n, wide + at, lengths[i]);
        }
        add_worst("worst case, 16", width, n, 16);
        add_worst("worst case, 61", width, n / 4, 61);
        add_worst("worst case, 1,024", width, n / 16, 1024);
    }
}

static void check(const search_case *s, int contender, outcome a, outcome b) {
    if (a.hits != b.hits || a.sum != b.sum || (contender < MEMMEM && a.compares != b.compares)) {
        fprintf(stderr, "bench: %s: contender %d differs\n", s->name, contender);
        exit(1);
    }
}

static void time_search(int rounds) {
    for (size_t i = 0; i < case_count; i++) {
        const search_case *s = &cases[i];
        double best[CONTENDERS];
        outcome o = run(s, PROVED);
        for (int k = 0; k < CONTENDERS; k++) best[k] = 1e300;
        for (int r = 0; r < rounds; r++)
            for (int k = 0; k < CONTENDERS; k++) {
                if (k == MEMMEM && s->width == WORDS) continue;
                if (k >= MEMMEM && r >= 5) continue;
                double t = now();
                outcome q = run(s, k);
                t = now() - t;
                check(s, k, q, o);
                if (t < best[k]) best[k] = t;
            }
        printf("%s\t%d\t%zu\t%zu\t%llu\t%llu", s->name, s->width, s->n, s->m, (unsigned long long)o.hits, (unsigned long long)o.compares);
        for (int k = 0; k < CONTENDERS; k++) printf("\t%.0f", best[k] > 1e299 ? 0.0 : best[k]);
        printf("\n");
        fflush(stdout);
    }
}

static void time_real(int rounds) {
    for (size_t i = 0; i < case_count; i++) {
        double best = 1e300;
        outcome o = {0, 0, 0};
        for (int r = 0; r < rounds; r++) {
            double t = now();
            o = run(&cases[i], REAL);
            t = now() - t;
            if (t < best) best = t;
        }
        printf("%s\t%d\t%llu\t%.0f\n", cases[i].name, cases[i].width, (unsigned long long)o.compares, best);
        fflush(stdout);
    }
}

static void time_growth(int rounds) {
    static const char *names[] = {"SMITH", "61 letters", "worst case, 16"};
    for (size_t n = MIB / 16; n <= MIB; n *= 2) {
        case_count = 0;
        state = 0x9e3779b97f4a7c15u;
        make_cases(n);
        for (size_t i = 0; i < case_count; i++)
            for (size_t k = 0; k < COUNT(names); k++) {
                if (strcmp(cases[i].name, names[k])) continue;
                double best = 1e300;
                outcome o = {0, 0, 0};
                for (int r = 0; r < rounds; r++) {
                    double t = now();
                    o = run(&cases[i], PROVED);
                    t = now() - t;
                    if (t < best) best = t;
                }
                printf("%s\t%d\t%zu\t%llu\t%.0f\n", cases[i].name, cases[i].width, n, (unsigned long long)o.compares, best);
            }
    }
}

// next matches and fills, proved and real, with a stop at half the text beside the whole of it
static void time_stops(int rounds) {
    for (size_t i = 0; i < case_count; i++) {
        search_case s[2] = {cases[i], cases[i]};
        double best[2][MEMMEM];
        uint64_t compares[2];
        s[1].stop = s[1].n / 2;
        for (int h = 0; h < 2; h++) {
            compares[h] = run(&s[h], PROVED).compares;
            for (int k = 0; k < MEMMEM; k++) best[h][k] = 1e300;
        }
        for (int r = 0; r < rounds; r++)
            for (int k = 0; k < MEMMEM; k++)
                for (int h = 0; h < 2; h++) {
                    double t = now();
                    outcome q = run(&s[h], k);
                    t = now() - t;
                    if (q.compares != compares[h]) {
                        fprintf(stderr, "bench: %s: contender %d differs\n", s[h].name, k);
                        exit(1);
                    }
                    if (t < best[h][k]) best[h][k] = t;
                }
        printf("%s\t%d\t%.4f", s[0].name, s[0].width, (double)compares[1] / (double)compares[0]);
        for (int k = 0; k < MEMMEM; k++) printf("\t%.4f", best[1][k] / best[0][k]);
        printf("\n");
        fflush(stdout);
    }
}

// ---- the unit

#define BLOCKS 256

typedef struct {
    uint8_t a[16], b[16];
    int64_t l1, l2;
} block;

static block blocks[BLOCKS];

static void make_blocks(void) {
    for (int i = 0; i < BLOCKS; i++) {
        block *x = &blocks[i];
        uint32_t letters = i % 3 == 0 ? 256 : i % 3 == 1 ? 3 : 26;
        for (int j = 0; j < 16; j++) {
            x->a[j] = (uint8_t)(draw(letters) + (letters == 26 ? 'A' : 0));
            x->b[j] = (uint8_t)(draw(letters) + (letters == 26 ? 'A' : 0));
        }
        x->l1 = draw(18);
        x->l2 = draw(18);
    }
}

// Each call of the real unit with its answer and the four flags that intrinsics give, at a constant
// control: the explicit ones with REX.W, byte by byte, since there is no intrinsic; then without.
enum { ESTRI, ESTRM, ISTRI, ISTRM, NARROW_ESTRI, NARROW_ESTRM };

#define WIDE(OPCODE, K, OUTPUT)                                                                            \
    __asm__(".byte 0x66, 0x48, 0x0f, 0x3a, " OPCODE ", 0xca, %c[k]"                                        \
            : OUTPUT, "=@ccc"(c), "=@ccz"(z), "=@ccs"(s), "=@cco"(o)                                       \
            : "a"(x->l1), "d"(x->l2), "x"(a), "x"(b), [k] "i"(K))
#define WIDE_FLAGS (uint32_t)(c | z << 6 | s << 7 | o << 11)
#define FLAGS(K) \
    (uint32_t)(_mm_cmpestrc(a, l1, b, l2, K) | _mm_cmpestrz(a, l1, b, l2, K) << 6 | _mm_cmpestrs(a, l1, b, l2, K) << 7 | _mm_cmpestro(a, l1, b, l2, K) << 11)
#define IFLAGS(K) (uint32_t)(_mm_cmpistrc(a, b, K) | _mm_cmpistrz(a, b, K) << 6 | _mm_cmpistrs(a, b, K) << 7 | _mm_cmpistro(a, b, K) << 11)
#define REAL_UNIT(K)                                                                                       \
    static void real_##K(const block *x, int call, uint32_t *index, uint8_t *mask, uint32_t *flags) {      \
        register __m128i a __asm__("xmm1") = _mm_loadu_si128((const __m128i *)x->a);                       \
        register __m128i b __asm__("xmm2") = _mm_loadu_si128((const __m128i *)x->b);                       \
        int l1 = (int)x->l1, l2 = (int)x->l2, c, z, s, o;                                                  \
        __m128i m;                                                                                         \
        switch (call) {                                                                                    \
        case ESTRI: WIDE("0x61", K, "=c"(*index)); *flags = WIDE_FLAGS; break;                             \
        case ESTRM: WIDE("0x60", K, "=Yz"(m)); _mm_storeu_si128((__m128i *)mask, m); *flags = WIDE_FLAGS; break; \
        case ISTRI: *index = (uint32_t)_mm_cmpistri(a, b, K); *flags = IFLAGS(K); break;                   \
        case ISTRM: _mm_storeu_si128((__m128i *)mask, _mm_cmpistrm(a, b, K)); *flags = IFLAGS(K); break;   \
        case NARROW_ESTRI: *index = (uint32_t)_mm_cmpestri(a, l1, b, l2, K); *flags = FLAGS(K); break;     \
        default: _mm_storeu_si128((__m128i *)mask, _mm_cmpestrm(a, l1, b, l2, K)); *flags = FLAGS(K);      \
        }                                                                                                  \
    }
#define SIXTEEN(M, D) M(D##0) M(D##1) M(D##2) M(D##3) M(D##4) M(D##5) M(D##6) M(D##7) M(D##8) M(D##9) M(D##a) M(D##b) M(D##c) M(D##d) M(D##e) M(D##f)
#define ALL(M) SIXTEEN(M, 0x0) SIXTEEN(M, 0x1) SIXTEEN(M, 0x2) SIXTEEN(M, 0x3) SIXTEEN(M, 0x4) SIXTEEN(M, 0x5) SIXTEEN(M, 0x6) SIXTEEN(M, 0x7)
ALL(REAL_UNIT)
#define NAME(K) real_##K,
static void (*const real_unit[128])(const block *, int, uint32_t *, uint8_t *, uint32_t *) = {ALL(NAME)};

__attribute__((noinline)) static void proved_unit(const block *x, int call, uint8_t control, uint32_t *index, uint8_t *mask, uint32_t *flags) {
    switch (call) {
    case ESTRI: hx_pcmpestri(x->a, x->l1, x->b, x->l2, control, index, flags); break;
    case ESTRM: hx_pcmpestrm(x->a, x->l1, x->b, x->l2, control, mask, flags); break;
    case ISTRI: hx_pcmpistri(x->a, x->b, control, index, flags); break;
    default: hx_pcmpistrm(x->a, x->b, control, mask, flags);
    }
}

static sigjmp_buf no_such_control;

static void on_illegal(int signal) {
    (void)signal;
    siglongjmp(no_such_control, 1);
}

static double time_blocks(int control, int call, int real, uint64_t *digest) {
    uint32_t index = 0, flags = 0;
    uint8_t mask[16] = {0};
    uint64_t sum = 0;
    double t = now();
    for (int i = 0; i < BLOCKS; i++) {
        if (real) real_unit[control](&blocks[i], call, &index, mask, &flags);
        else proved_unit(&blocks[i], call, (uint8_t)control, &index, mask, &flags);
        uint64_t low;
        memcpy(&low, mask, 8);
        sum = sum * 31 + index + flags * 64u + low;
    }
    t = now() - t;
    *digest = sum;
    return t / BLOCKS;
}

// the least time of a call at a control, the model's and the instruction's; false where this
// processor, or its emulator, has no such control
static int time_control(int rounds, int call, int control, int both, double best[2]) {
    if (sigsetjmp(no_such_control, 1)) return 0;
    for (int r = 0; r < rounds; r++) {
        uint64_t digest[2] = {0, 0};
        for (int real = both ? 0 : 1; real < 2; real++) {
            double t = time_blocks(control, call, real, &digest[real]);
            if (t < best[real]) best[real] = t;
        }
        if (both && digest[0] != digest[1]) {
            fprintf(stderr, "bench: control %d, call %d: model and instruction differ\n", control, call);
            exit(1);
        }
    }
    return 1;
}

static void time_unit(int rounds, int both) {
    make_blocks();
    struct sigaction act = {0};
    act.sa_handler = on_illegal;
    act.sa_flags = SA_NODEFER;
    sigaction(SIGILL, &act, NULL);
    for (int call = ESTRI; call <= ISTRM; call++)
        for (int control = 0; control < 128; control++) {
            double best[2] = {1e300, 1e300};
            int form = both || call >= ISTRI ? call : call + NARROW_ESTRI;
            if (time_control(rounds, form, control, both, best)) printf("%d\t%d\t%.3f\t%.3f\n", call, control, both ? best[0] : 0.0, best[1]);
        }
}

// ---- one compare, block after block

static void time_entries(int rounds) {
    size_t n = MIB;
    uint8_t *text = fresh(n);
    make_register(text, n);
    static const char *names[] = {"SMITH", "JONES", "QUIRK", "HARTE"};
    for (size_t i = 0; i < COUNT(names); i++) {
        uint8_t front[16] = {0};
        memcpy(front, names[i], 5);
        __m128i first = _mm_loadu_si128((const __m128i *)front);
        double best[2] = {1e300, 1e300};
        for (int r = 0; r < rounds; r++) {
            uint64_t sums[2] = {0, 0};
            double t = now();
            for (size_t p = 0; p + 16 <= n; p += 16) sums[0] += hx_pcmpestri_0c(front, 5, text + p, 16);
            t = now() - t;
            if (t < best[0]) best[0] = t;
            t = now();
            for (size_t p = 0; p + 16 <= n; p += 16) sums[1] += (uint64_t)_mm_cmpestri(first, 5, _mm_loadu_si128((const __m128i *)(text + p)), 16, 0x0c);
            t = now() - t;
            if (t < best[1]) best[1] = t;
            if (sums[0] != sums[1]) exit(1);
        }
        printf("0Ch %s\t%.3f\t%.3f\n", names[i], best[0] / (n / 16), best[1] / (n / 16));
    }
    uint8_t *other = fresh(n);
    memcpy(other, text, n);
    for (size_t p = 0; p < n; p += 1 + draw(200)) other[p] ^= 1;
    double best[2] = {1e300, 1e300};
    for (int r = 0; r < rounds; r++) {
        uint64_t sums[2] = {0, 0};
        double t = now();
        for (size_t p = 0; p + 16 <= n; p += 16) sums[0] += hx_pcmpestri_18(other + p, 16, text + p, 16);
        t = now() - t;
        if (t < best[0]) best[0] = t;
        t = now();
        for (size_t p = 0; p + 16 <= n; p += 16)
            sums[1] += (uint64_t)_mm_cmpestri(_mm_loadu_si128((const __m128i *)(other + p)), 16, _mm_loadu_si128((const __m128i *)(text + p)), 16, 0x18);
        t = now() - t;
        if (t < best[1]) best[1] = t;
        if (sums[0] != sums[1]) exit(1);
    }
    printf("18h whole blocks\t%.3f\t%.3f\n", best[0] / (n / 16), best[1] / (n / 16));
}

// ---- the running order of a day

// Several days of each kind in turn, so that no branch of theirs is learnt by heart.
#define DAYS 32

enum { RANDOM, SORTED, REVERSED, ONE_MINUTE, KINDS };

static hx_entry days[DAYS][HX_MOST_ENTRIES];

// minute, name, number: what a programmer would hand to qsort
static int order(const void *x, const void *y) {
    const hx_entry *a = x, *b = y;
    if (a->minute != b->minute) return a->minute < b->minute ? -1 : 1;
    int names = memcmp(a->name, b->name, a->length < b->length ? a->length : b->length);
    if (names) return names;
    if (a->length != b->length) return a->length < b->length ? -1 : 1;
    return a->number < b->number ? -1 : a->number > b->number;
}

// Minutes on the five from 08:00 to 18:00, the register's surnames and given names; or one minute,
// and names that agree in 31 bytes. The numbers are in no order but that of a step.
static void make_day(hx_entry *day, int kind) {
    uint32_t number = draw(1000000), step = 2 * draw(500000) + 1;
    for (uint32_t i = 0; i < HX_MOST_ENTRIES; i++) {
        hx_entry *e = &day[i];
        memset(e, 0, sizeof *e);
        e->number = number += step;
        if (kind == ONE_MINUTE) {
            e->minute = 630;
            e->length = HX_LONGEST_NAME;
            memset(e->name, 'A', HX_LONGEST_NAME);
            e->name[HX_LONGEST_NAME - 1] = (uint8_t)draw(256);
        } else {
            char name[64];
            e->minute = (uint16_t)(480 + 5 * draw(120));
            e->length = (uint16_t)snprintf(name, sizeof name, "%s, %s", surnames[draw(COUNT(surnames))], given[draw(COUNT(given))]);
            memcpy(e->name, name, e->length);
        }
    }
    if (kind == SORTED || kind == REVERSED) qsort(day, HX_MOST_ENTRIES, sizeof *day, order);
    for (uint32_t i = 0, j = HX_MOST_ENTRIES - 1; kind == REVERSED && i < j; i++, j--) {
        hx_entry other = day[i];
        day[i] = day[j];
        day[j] = other;
    }
}

static void time_day(int rounds) {
    static const char *names[KINDS] = {"random", "sorted", "reversed", "one minute, names alike in 31 bytes"};
    static hx_day proved[DAYS], sorted[DAYS];
    for (int kind = RANDOM; kind < KINDS; kind++) {
        double best[2] = {1e300, 1e300};
        for (int k = 0; k < DAYS; k++) make_day(days[k], kind);
        for (int r = 0; r < rounds; r++) {
            double t = now();
            uint32_t refused = 0;
            for (int k = 0; k < DAYS; k++) refused |= hx_day_of(days[k], HX_MOST_ENTRIES, &proved[k]);
            t = now() - t;
            if (t < best[0]) best[0] = t;
            t = now();
            for (int k = 0; k < DAYS; k++) {
                memcpy(sorted[k].entries, days[k], sizeof days[k]);
                qsort(sorted[k].entries, HX_MOST_ENTRIES, sizeof(hx_entry), order);
                sorted[k].count = HX_MOST_ENTRIES;
            }
            t = now() - t;
            if (t < best[1]) best[1] = t;
            if (refused || memcmp(proved, sorted, sizeof sorted)) {
                fprintf(stderr, "bench: %s: the day is refused, or not what qsort makes\n", names[kind]);
                exit(1);
            }
        }
        printf("%s\t%.0f\t%.0f\n", names[kind], best[0] / DAYS, best[1] / DAYS);
    }
}

// ---- the page of a day

enum { LETTERS, LONGEST, UNPRINTABLE, NAMELESS, PAGES };

// names of 5 to 20 letters, of 32, of 5 to 20 bytes of which some print as a question mark, or none
static void make_entries(hx_entry *day, int kind) {
    for (uint32_t i = 0; i < HX_MOST_ENTRIES; i++) {
        hx_entry *e = &day[i];
        e->number = draw(1000000);
        e->minute = (uint16_t)draw(HX_LAST_MINUTE + 1);
        e->length = (uint16_t)(kind == NAMELESS ? 0 : kind == LONGEST ? HX_LONGEST_NAME : 5 + draw(16));
        for (uint32_t j = 0; j < HX_LONGEST_NAME; j++) e->name[j] = (uint8_t)(kind == UNPRINTABLE ? draw(256) : 'A' + draw(26));
    }
}

// What a programmer would write: a call a line. The zero after each line is where the next one
// begins, so the page has a byte more. Where all names are printable, they are handed over as they
// are.
__attribute__((noinline)) static void print_page(const hx_entry *day, int printable, char *page, size_t room) {
    for (uint32_t r = 0; r < HX_MOST_ENTRIES; r++, page += HX_DAY_LINE, room -= HX_DAY_LINE) {
        const hx_entry *e = &day[r];
        const uint8_t *name = e->name;
        uint8_t seen[HX_LONGEST_NAME];
        if (!printable) {
            for (int j = 0; j < e->length; j++) seen[j] = name[j] >= 32 && name[j] <= 126 ? name[j] : '?';
            name = seen;
        }
        snprintf(page, room, "%10" PRIu32 " %02u:%02u %-32.*s\n", e->number, e->minute / 60u, e->minute % 60u, e->length, (const char *)name);
    }
}

static void time_page(int rounds) {
    static const char *names[PAGES] = {"names of 5 to 20 letters", "names of 32 letters", "names of 5 to 20 bytes, any", "no names"};
    static uint8_t proved[DAYS][HX_MOST_ENTRIES * HX_DAY_LINE];
    static char printed[DAYS][HX_MOST_ENTRIES * HX_DAY_LINE + 1];
    for (int kind = LETTERS; kind < PAGES; kind++) {
        double best[2] = {1e300, 1e300};
        for (int k = 0; k < DAYS; k++) make_entries(days[k], kind);
        for (int r = 0; r < rounds; r++) {
            double t = now();
            uint32_t wrong = 0;
            for (int k = 0; k < DAYS; k++) wrong |= hx_day_page(days[k], HX_MOST_ENTRIES, proved[k], sizeof proved[k]);
            t = now() - t;
            if (t < best[0]) best[0] = t;
            t = now();
            for (int k = 0; k < DAYS; k++) print_page(days[k], kind != UNPRINTABLE, printed[k], sizeof printed[k]);
            t = now() - t;
            if (t < best[1]) best[1] = t;
            for (int k = 0; k < DAYS; k++) wrong |= memcmp(proved[k], printed[k], sizeof proved[k]) != 0;
            if (wrong) {
                fprintf(stderr, "bench: %s: the page is refused, or not what snprintf makes\n", names[kind]);
                exit(1);
            }
        }
        printf("%s\t%.0f\t%.0f\n", names[kind], best[0] / DAYS, best[1] / DAYS);
    }
}

int main(int argc, char **argv) {
    if (argc != 3) {
        fprintf(stderr, "usage: bench search|real|stops|growth|unit|real-unit|entries|day|page ROUNDS\n");
        return 2;
    }
    int rounds = atoi(argv[2]);
    if (!strcmp(argv[1], "growth")) time_growth(rounds);
    else if (!strcmp(argv[1], "unit")) time_unit(rounds, 1);
    else if (!strcmp(argv[1], "real-unit")) time_unit(rounds, 0);
    else if (!strcmp(argv[1], "entries")) time_entries(rounds);
    else if (!strcmp(argv[1], "day")) time_day(rounds);
    else if (!strcmp(argv[1], "page")) time_page(rounds);
    else {
        make_cases(MIB);
        if (!strcmp(argv[1], "search")) time_search(rounds);
        else if (!strcmp(argv[1], "stops")) time_stops(rounds);
        else time_real(rounds);
    }
    return 0;
}
