/* Prints what the program `vectors` must print, from the processor's own SSE4.2 instructions; the
 * explicit ones in the form with REX.W, whose lengths are RAX and RDX.
 *
 * A line for each of the four instructions and each control from 00h to 7Fh, with a digest of the
 * answers over 256 generated blocks. The generator, the blocks and the digest are those of
 * crates/vectors/src/main.rt, under the same names. Nothing here computes what an instruction
 * answers: index, mask and flags are read from the processor.
 */
#include <emmintrin.h>
#include <stdint.h>
#include <stdio.h>
#include <string.h>

static const uint64_t SEED = 0x9e3779b97f4a7c15;

static const uint8_t EDGES[8] = {0x00, 0x01, 0x7e, 0x7f, 0x80, 0x81, 0xfe, 0xff};

static const int64_t LENGTHS[32] = {
    0, 1, -1, 2, 3, 5, 7, -7, 8, -8, 9, -9, 12, 15, -15, 16, -16, 17, -17, 100, -100, INT32_MAX, INT32_MIN,
    INT64_C(0x80000000), INT64_C(-0x80000001), INT64_C(0xffffffff), INT64_C(0x100000000), INT64_C(-0x100000000),
    INT64_C(0x100000003), INT64_C(-0x100000003), INT64_MAX, INT64_MIN,
};

enum call { PCMPESTRI, PCMPESTRM, PCMPISTRI, PCMPISTRM };

static const char *const NAMES[4] = {"pcmpestri", "pcmpestrm", "pcmpistri", "pcmpistrm"};

struct block {
    uint8_t operand1[16], operand2[16];
    int64_t length1, length2;
};

/* What an instruction left: ECX or XMM0, LAHF's byte, and OF. */
struct answer {
    uint32_t index;
    uint8_t mask[16];
    uint8_t ah, overflow;
};

/* The four instructions. The control is part of the instruction, so each control has code of its
 * own, a case of a switch. Before it, 10h - 01h sets AF and PF, so that the instruction is seen to
 * reset them. After it, LAHF copies SF, ZF, AF, PF and CF to AH, and SETO copies OF to AL. Operand
 * 1 is the destination, which AT&T syntax writes last. The explicit ones are written byte by byte,
 * since some assemblers have no name for the form with REX.W: 66h, 48h for REX.W, 0Fh 3Ah, 61h or
 * 60h, a ModRM byte for XMM1 and XMM2, the control. tests/vectors/run looks for these bytes in the
 * program. */
#define PREPARE "movb $0x10, %%sil\n\tsubb $1, %%sil\n\t"
#define TAKE_FLAGS "\n\tlahf\n\tseto %%al"

#define CASE_PCMPESTRI(n)                                                                            \
    case n:                                                                                          \
        __asm__(PREPARE ".byte 0x66, 0x48, 0x0f, 0x3a, 0x61, 0xca, %c[control]" TAKE_FLAGS           \
                : "=a"(flags), "=c"(index)                                                           \
                : "a"(length1), "d"(length2), [a] "x"(a), [b] "x"(b), [control] "i"(n)               \
                : "rsi", "cc");                                                                      \
        break;

#define CASE_PCMPESTRM(n)                                                                            \
    case n:                                                                                          \
        __asm__(PREPARE ".byte 0x66, 0x48, 0x0f, 0x3a, 0x60, 0xca, %c[control]" TAKE_FLAGS           \
                : "=a"(flags), "=Yz"(mask)                                                           \
                : "a"(length1), "d"(length2), [a] "x"(a), [b] "x"(b), [control] "i"(n)               \
                : "rsi", "cc");                                                                      \
        break;

#define CASE_PCMPISTRI(n)                                                                            \
    case n:                                                                                          \
        __asm__(PREPARE "pcmpistri %[control], %[b], %[a]" TAKE_FLAGS                                \
                : "=a"(flags), "=c"(index)                                                           \
                : [a] "x"(a), [b] "x"(b), [control] "i"(n)                                           \
                : "rsi", "cc");                                                                      \
        break;

#define CASE_PCMPISTRM(n)                                                                            \
    case n:                                                                                          \
        __asm__(PREPARE "pcmpistrm %[control], %[b], %[a]" TAKE_FLAGS                                \
                : "=a"(flags), "=Yz"(mask)                                                           \
                : [a] "x"(a), [b] "x"(b), [control] "i"(n)                                           \
                : "rsi", "cc");                                                                      \
        break;

#define FOUR(CASE, n) CASE(n) CASE(n + 1) CASE(n + 2) CASE(n + 3)
#define SIXTEEN(CASE, n) FOUR(CASE, n) FOUR(CASE, n + 4) FOUR(CASE, n + 8) FOUR(CASE, n + 12)
#define SIXTY_FOUR(CASE, n) SIXTEEN(CASE, n) SIXTEEN(CASE, n + 16) SIXTEEN(CASE, n + 32) SIXTEEN(CASE, n + 48)
#define ALL_CONTROLS(CASE) SIXTY_FOUR(CASE, 0) SIXTY_FOUR(CASE, 64)

static struct answer run(enum call call, const struct block *block, unsigned control)
{
    register const __m128i a __asm__("xmm1") = _mm_loadu_si128((const __m128i *)block->operand1);
    register const __m128i b __asm__("xmm2") = _mm_loadu_si128((const __m128i *)block->operand2);
    const int64_t length1 = block->length1, length2 = block->length2;
    __m128i mask = _mm_setzero_si128();
    uint32_t index = 0, flags = 0;
    struct answer answer;

    switch (call) {
    case PCMPESTRI:
        switch (control) { ALL_CONTROLS(CASE_PCMPESTRI) }
        break;
    case PCMPESTRM:
        switch (control) { ALL_CONTROLS(CASE_PCMPESTRM) }
        break;
    case PCMPISTRI:
        switch (control) { ALL_CONTROLS(CASE_PCMPISTRI) }
        break;
    case PCMPISTRM:
        switch (control) { ALL_CONTROLS(CASE_PCMPISTRM) }
        break;
    }
    answer.index = index;
    _mm_storeu_si128((__m128i *)answer.mask, mask);
    answer.ah = flags >> 8 & 0xff;
    answer.overflow = flags & 1;
    return answer;
}

static uint64_t next(uint64_t state)
{
    state ^= state << 13;
    state ^= state >> 7;
    state ^= state << 17;
    return state;
}

static uint64_t fold(uint64_t digest, uint64_t number)
{
    return next(digest ^ number);
}

static uint64_t fold_flags(uint64_t digest, const struct answer *answer)
{
    digest = fold(digest, answer->ah & 1);      /* CF */
    digest = fold(digest, answer->ah >> 6 & 1); /* ZF */
    digest = fold(digest, answer->ah >> 7 & 1); /* SF */
    digest = fold(digest, answer->overflow);    /* OF */
    digest = fold(digest, answer->ah >> 4 & 1); /* AF */
    return fold(digest, answer->ah >> 2 & 1);   /* PF */
}

/* The processor refuses no control, so the refusal number is 0. */
static uint64_t fold_answer(uint64_t digest, enum call call, const struct block *block, unsigned control)
{
    const struct answer answer = run(call, block, control);

    digest = fold(digest, 0);
    if (call == PCMPESTRI || call == PCMPISTRI) {
        digest = fold(digest, answer.index);
    } else {
        for (int i = 0; i < 16; i++)
            digest = fold(digest, answer.mask[i]);
    }
    return fold_flags(digest, &answer);
}

static uint8_t letter(uint64_t alphabet, uint64_t draw)
{
    switch (alphabet) {
    case 0:
        return draw % 256;
    case 1:
        return 0x62 + draw % 2;
    case 2:
        return EDGES[draw % 8];
    default:
        return draw % 4 == 0 ? 0 : 0x61 + draw / 4 % 4;
    }
}

static uint64_t operand(uint64_t alphabet, uint64_t state, uint8_t bytes[16])
{
    for (int i = 0; i < 16; i++) {
        state = next(state);
        bytes[i] = letter(alphabet, state >> 32);
    }
    return state;
}

static void near(const uint8_t text[16], uint64_t draw, uint8_t bytes[16])
{
    memcpy(bytes, text, 16);
    bytes[draw % 16] ^= 1;
}

static void needle(const uint8_t text[16], uint64_t draw, uint8_t bytes[16])
{
    const unsigned at = draw % 16, size = draw / 16 % 8 + 1;

    memset(bytes, 0, 16);
    for (unsigned i = 0; i < size; i++)
        bytes[i] = text[(at + i) % 16];
}

static void related(uint64_t relation, const uint8_t text[16], const uint8_t other[16], uint64_t draw, uint8_t bytes[16])
{
    switch (relation) {
    case 0:
        memcpy(bytes, other, 16);
        break;
    case 1:
        memcpy(bytes, text, 16);
        break;
    case 2:
        near(text, draw, bytes);
        break;
    default:
        needle(text, draw, bytes);
    }
}

static int64_t length(uint64_t draw)
{
    return LENGTHS[draw % 32];
}

static uint64_t generate(uint64_t number, uint64_t state, struct block *block)
{
    uint8_t other[16];

    state = operand(number % 4, state, block->operand2);
    state = operand(number % 4, state, other);
    state = next(state);
    related(number / 4 % 4, block->operand2, other, state >> 32, block->operand1);
    state = next(state);
    block->length1 = length(state >> 32);
    state = next(state);
    block->length2 = length(state >> 32);
    return state;
}

static uint64_t digest_of(enum call call, unsigned control)
{
    uint64_t digest = SEED, state = next(SEED ^ control);

    for (uint64_t number = 0; number < 256; number++) {
        struct block block;
        state = generate(number, state, &block);
        digest = fold_answer(digest, call, &block, control);
    }
    return digest;
}

int main(void)
{
    for (int call = PCMPESTRI; call <= PCMPISTRM; call++)
        for (unsigned control = 0; control < 128; control++)
            printf("%s %02x %016llx\n", NAMES[call], control, (unsigned long long)digest_of(call, control));
    return fflush(stdout) == 0 ? 0 : 1;
}
