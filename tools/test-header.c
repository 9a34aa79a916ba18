/* The header as C11 and C++17 read it, against the archive: types, widths, constants, empty buffers, each answer, and
   where there are <sys/mman.h>, <ucontext.h> and <pthread.h> what is only read, threads that read it at once, and the
   stack. No other header than its own is asked for, so that the kit's compiler, which has no C library's, compiles it
   too. */
#define _DEFAULT_SOURCE
#include "lamptassel.h"
#include "lamptassel.h"
#if __has_include(<sys/mman.h>) && __has_include(<ucontext.h>) && __has_include(<pthread.h>)
#include <pthread.h>
#include <sys/mman.h>
#include <ucontext.h>
#define WITH_SYSTEM
#endif
#if defined(__SANITIZE_ADDRESS__) || defined(__SANITIZE_THREAD__)
#define SANITIZED 1
#else
#define SANITIZED 0
#endif

#ifdef __cplusplus
#define ALWAYS(condition) static_assert(condition, #condition)
extern "C" {
#else
#define ALWAYS(condition) _Static_assert(condition, #condition)
#endif
int printf(const char *format, ...);
int memcmp(const void *one, const void *other, size_t length);
void *memcpy(void *to, const void *from, size_t length);
void *memset(void *to, int byte, size_t length);
#ifdef __cplusplus
}
#endif

#define DESCRIPTION uint64_t, uint64_t, uint64_t, uint64_t, uint64_t, uint64_t
#define BEYOND_32_BITS (UINT64_C(1) << 32)
#define ENTRIES(list) (sizeof(list) / sizeof((list)[0]))

ALWAYS(sizeof(size_t) == 8);
ALWAYS(sizeof(lamptassel_guard(NULL, 0)) == 2);
ALWAYS(sizeof(lamptassel_guard_by_division(NULL, 0)) == 2);
ALWAYS(sizeof(lamptassel_sense(0)) == 4);
ALWAYS(sizeof(lamptassel_list(NULL, 0, NULL, 0)) == 8);
ALWAYS(LAMPTASSEL_KEY_OF(LAMPTASSEL_SENSE_REFERENCE) == 0x0B);
ALWAYS(LAMPTASSEL_CODE_OF(LAMPTASSEL_SENSE_REFERENCE) == 0x10);
ALWAYS(LAMPTASSEL_QUALIFIER_OF(LAMPTASSEL_SENSE_REFERENCE) == 0x03);

/* Each function through a pointer of its own type, so that a declaration of another type does not compile. */
static uint64_t (*const execute)(DESCRIPTION, uint8_t *, size_t, const uint8_t *, size_t, uint8_t *, size_t, uint64_t *,
                                 uint64_t *) = lamptassel_execute;
static uint64_t (*const format_choice)(uint64_t, uint64_t, uint64_t, uint64_t, uint64_t *) = lamptassel_format_choice;
static uint64_t (*const fill)(DESCRIPTION, uint8_t *, size_t) = lamptassel_fill;
static uint64_t (*const scrub)(DESCRIPTION, const uint8_t *, size_t, uint64_t, uint64_t, uint64_t *, uint64_t *,
                               uint64_t *, uint64_t *) = lamptassel_scrub;
static uint64_t (*const parity)(DESCRIPTION, uint64_t, const uint8_t *, size_t, uint8_t *, size_t) = lamptassel_parity;
static uint64_t (*const rebuild)(DESCRIPTION, uint64_t, uint64_t, const uint8_t *, size_t, uint8_t *,
                                 size_t) = lamptassel_rebuild;
static uint64_t (*const correct)(DESCRIPTION, const uint8_t *, size_t, const uint8_t *, size_t, uint8_t *,
                                 size_t) = lamptassel_correct;
static uint16_t (*const guard)(const uint8_t *, size_t) = lamptassel_guard;
static uint16_t (*const guard_by_division)(const uint8_t *, size_t) = lamptassel_guard_by_division;
static uint64_t (*const guards)(const uint8_t *, size_t, size_t, uint8_t *, size_t) = lamptassel_guards;
static size_t (*const list)(const uint8_t *, size_t, uint8_t *, size_t) = lamptassel_list;
static uint32_t (*const sense)(uint64_t) = lamptassel_sense;

/* Document 01's table, and behind it the answers of document 02. */
static const struct {
    uint64_t constant, number;
    uint32_t sense_constant, sense;
} ANSWERS[] = {
    {LAMPTASSEL_GOOD, 0, 0, 0},
    {LAMPTASSEL_DESCRIPTION_BAD, 1, 0, 0},
    {LAMPTASSEL_SEGMENT_LENGTH_WRONG, 2, 0, 0},
    {LAMPTASSEL_COMMAND_LENGTH_WRONG, 3, 0, 0},
    {LAMPTASSEL_BUFFER_LENGTH_WRONG, 4, 0, 0},
    {LAMPTASSEL_OPERATION_INVALID, 5, LAMPTASSEL_SENSE_OPERATION, 0x052000},
    {LAMPTASSEL_FIELD_INVALID, 6, LAMPTASSEL_SENSE_FIELD, 0x052400},
    {LAMPTASSEL_ADDRESS_OUT_OF_RANGE, 7, LAMPTASSEL_SENSE_ADDRESS, 0x052100},
    {LAMPTASSEL_GUARD_CHECK_FAILED, 8, LAMPTASSEL_SENSE_GUARD, 0x0B1001},
    {LAMPTASSEL_APPLICATION_CHECK_FAILED, 9, LAMPTASSEL_SENSE_APPLICATION, 0x0B1002},
    {LAMPTASSEL_REFERENCE_CHECK_FAILED, 10, LAMPTASSEL_SENSE_REFERENCE, 0x0B1003},
    {LAMPTASSEL_STRIPE_SHAPE_BAD, 11, 0, 0},
    {LAMPTASSEL_PARAMETER_INVALID, 12, LAMPTASSEL_SENSE_PARAMETER, 0x052600},
    {LAMPTASSEL_LISTING_RECORD_BAD, 13, 0, 0},
    {LAMPTASSEL_TRANSFER_TOO_LARGE, 14, 0, 0},
    {LAMPTASSEL_BLOCK_DIFFERS, 15, LAMPTASSEL_SENSE_BLOCK, 0x0E1D00},
};

/* Segment M of document 01: type 1, block 8, exponent 0, first 7, count 3. */
static const uint8_t M[48] = {0, 0, 0, 0, 0, 0, 0, 1, 0x8B, 0xB7, 0, 0, 0, 0, 0, 7, 0, 0, 0,    0,    0, 0, 0, 2,
                              0x9C, 0xD9, 0, 0, 0, 0, 0, 7, 0, 0, 0, 0, 0, 0, 0, 3, 0, 0, 0xFF, 0xFF, 0, 0, 0, 0};

struct description {
    uint64_t kind, block, exponent, first, count, ato;
};
#define TOLD(d) (d)->kind, (d)->block, (d)->exponent, (d)->first, (d)->count, (d)->ato

static const struct description OF_M = {1, 8, 0, 7, 3, 0};
static const struct description OF_ONE_BLOCK = {1, 8, 0, 7, 1, 0};
/* Each number of M's description in turn out of range, and in range if it was cut to 32 bits. */
static const struct description TOO_WIDE[] = {
    {BEYOND_32_BITS + 1, 8, 0, 7, 3, 0}, {1, BEYOND_32_BITS + 8, 0, 7, 3, 0}, {1, 8, BEYOND_32_BITS, 7, 3, 0},
    {1, 8, 0, (UINT64_C(1) << 63) + 7, 3, 0}, {1, 8, 0, 7, BEYOND_32_BITS + 3, 0}, {1, 8, 0, 7, 3, BEYOND_32_BITS},
};

static int faults = 0;

#define CHECK(condition) check(condition, #condition, __LINE__)
static void check(int holds, const char *condition, int line) {
    if (!holds) {
        printf("test-header.c, line %d: not so: %s\n", line, condition);
        faults++;
    }
}

/* What one command on M leaves. */
struct done {
    uint64_t number, address, place;
    int segment_changed, buffer_changed;
    uint8_t buffer[64];
};

static struct done on_m(const struct description *d, const uint8_t *command, size_t command_length, const uint8_t *data,
                        size_t length) {
    struct done done;
    uint8_t segment[sizeof M], before[sizeof done.buffer];
    memcpy(segment, M, sizeof M);
    memset(before, 0xAA, sizeof before);
    if (data != NULL)
        memcpy(before, data, length);
    memcpy(done.buffer, before, sizeof before);
    done.address = done.place = UINT64_MAX;
    done.number = execute(TOLD(d), segment, sizeof segment, command, command_length, done.buffer, length, &done.address,
                          &done.place);
    done.segment_changed = memcmp(segment, M, sizeof M) != 0;
    done.buffer_changed = memcmp(done.buffer, before, sizeof before) != 0;
    return done;
}

static int leaves_all(struct done done, uint64_t number, uint64_t address, uint64_t place) {
    return done.number == number && done.address == address && done.place == place && !done.segment_changed &&
           !done.buffer_changed;
}

static const uint8_t READ_TWO[11] = {0x28, 0x20, 0, 0, 0, 7, 0, 0, 2, 0, 0};
static const uint8_t READ_UNCHECKED[10] = {0x28, 0x60, 0, 0, 0, 7, 0, 0, 2, 0};
static const uint8_t READ_NOTHING[10] = {0x28, 0, 0, 0, 0, 10, 0, 0, 0, 0};
static const uint8_t READ_PAST[10] = {0x28, 0, 0, 0, 0, 10, 0, 0, 1, 0};
static const uint8_t READ_CODE_110[10] = {0x28, 0xC0, 0, 0, 0, 7, 0, 0, 1, 0};
static const uint8_t NO_OPERATION[10] = {0};
static const uint8_t VERIFY_ONE[10] = {0x2F, 0, 0, 0, 0, 7, 0, 0, 1, 0};
static const uint8_t COMPARE_DATA[10] = {0x2F, 0x02, 0, 0, 0, 7, 0, 0, 1, 0};
static const uint8_t COMPARE_NOTHING[10] = {0x2F, 0x22, 0, 0, 0, 10, 0, 0, 0, 0};
static const uint8_t WRITE_THIRD[10] = {0x2A, 0x20, 0, 0, 0, 9, 0, 0, 1, 0};
static const uint8_t WRITE_DATA[10] = {0x2A, 0, 0, 0, 0, 9, 0, 0, 1, 0};

static void commands(void) {
    struct done done = on_m(&OF_M, READ_UNCHECKED, 10, NULL, 32);
    CHECK(done.number == LAMPTASSEL_GOOD && done.address == 0 && done.place == 0 && !done.segment_changed);
    CHECK(memcmp(done.buffer, M, 32) == 0);
    done = on_m(&OF_M, WRITE_DATA, 10, M, 8);
    CHECK(done.number == LAMPTASSEL_GOOD && done.address == 0 && done.place == 0 && done.segment_changed);
    CHECK(!done.buffer_changed);
    CHECK(on_m(&OF_M, VERIFY_ONE, 10, NULL, 0).number == LAMPTASSEL_GOOD);
    CHECK(leaves_all(on_m(&OF_M, READ_TWO, 11, NULL, 32), LAMPTASSEL_COMMAND_LENGTH_WRONG, 0, 0));
    CHECK(leaves_all(on_m(&OF_M, READ_TWO, 10, NULL, 31), LAMPTASSEL_BUFFER_LENGTH_WRONG, 0, 0));
    CHECK(leaves_all(on_m(&OF_M, NO_OPERATION, 10, NULL, 0), LAMPTASSEL_OPERATION_INVALID, 0, 0));
    CHECK(leaves_all(on_m(&OF_M, READ_CODE_110, 10, NULL, 16), LAMPTASSEL_FIELD_INVALID, 0, 0));
    CHECK(leaves_all(on_m(&OF_M, READ_PAST, 10, NULL, 8), LAMPTASSEL_ADDRESS_OUT_OF_RANGE, 0, 0));
    CHECK(leaves_all(on_m(&OF_M, WRITE_THIRD, 10, M + 32, 16), LAMPTASSEL_GUARD_CHECK_FAILED, 9, 0));
    CHECK(leaves_all(on_m(&OF_M, READ_TWO, 10, NULL, 32), LAMPTASSEL_REFERENCE_CHECK_FAILED, 8, 1));
}

/* Bits of a VERIFY's protect byte: byte-check bits 01b, 10b and 11b, and codes. */
enum { COMPARING = 0x02, BYTE_CHECK_10 = 0x04, BYTE_CHECK_11 = 0x06, CODE_001 = 0x20, CODE_011 = 0x60 };

/* VERIFY (10) on M. */
static struct done verify(const struct description *d, uint8_t bits, uint8_t from, uint8_t blocks, const uint8_t *sent,
                          size_t length) {
    const uint8_t command[10] = {0x2F, bits, 0, 0, 0, from, 0, 0, blocks, 0};
    return on_m(d, command, 10, sent, length);
}

/* M's first two blocks against what is sent of them, `size` bytes of each, under a code that checks nothing in that. */
static void compares(const struct description *d, uint8_t code, const uint8_t *sent, size_t size) {
    const uint8_t bits = code | COMPARING;
    const size_t length = 2 * size;
    uint8_t other[32];
    CHECK(leaves_all(verify(d, bits, 7, 2, sent, length), LAMPTASSEL_GOOD, 0, 0));
    memcpy(other, sent, length);
    for (size_t i = 0; i < length; i++) {
        other[i] ^= 1;
        CHECK(leaves_all(verify(d, bits, 7, 2, other, length), LAMPTASSEL_BLOCK_DIFFERS, 7 + i / size, 0));
        other[i] ^= 1;
    }
    other[size - 1] ^= 1;
    other[size] ^= 1;
    CHECK(leaves_all(verify(d, bits, 7, 2, other, length), LAMPTASSEL_BLOCK_DIFFERS, 7, 0));
    CHECK(leaves_all(verify(d, bits, 7, 2, sent, length - 1), LAMPTASSEL_BUFFER_LENGTH_WRONG, 0, 0));
    CHECK(leaves_all(verify(d, bits, 7, 2, sent, length + 1), LAMPTASSEL_BUFFER_LENGTH_WRONG, 0, 0));
    CHECK(leaves_all(verify(d, bits, 7, 2, sent, 0), LAMPTASSEL_BUFFER_LENGTH_WRONG, 0, 0));
    CHECK(leaves_all(verify(d, code, 7, 2, sent, length), LAMPTASSEL_BUFFER_LENGTH_WRONG, 0, 0));
    CHECK(leaves_all(verify(d, code | BYTE_CHECK_10, 7, 2, sent, length), LAMPTASSEL_FIELD_INVALID, 0, 0));
    CHECK(leaves_all(verify(d, code | BYTE_CHECK_11, 7, 2, sent, length), LAMPTASSEL_FIELD_INVALID, 0, 0));
}

static void comparisons(void) {
    /* Type 3 judges no reference tag, so that M's first two blocks pass; those that a WRITE would insert are others. */
    static const struct description TYPE_0 = {0, 16, 0, 7, 3, 0}, TYPE_3 = {3, 8, 0, 7, 3, 0};
    uint8_t data[24], mended[32];
    for (size_t i = 0; i < 3; i++)
        memcpy(data + 8 * i, M + 16 * i, 8);
    memcpy(mended, M, sizeof mended);
    mended[31] = 8;
    compares(&TYPE_0, 0, M, 16);
    compares(&TYPE_3, 0, data, 8);
    compares(&OF_M, CODE_011, M, 16);
    /* The second block's reference tag is wrong in M and right in `mended`. With 000 what is stored is checked, with
       001 what is sent, and a check that fails comes before a block that differs, also before an earlier one. */
    CHECK(leaves_all(verify(&OF_M, COMPARING, 7, 2, data + 8, 16), LAMPTASSEL_REFERENCE_CHECK_FAILED, 8, 1));
    CHECK(leaves_all(verify(&OF_M, CODE_001 | COMPARING, 7, 2, M, 32), LAMPTASSEL_REFERENCE_CHECK_FAILED, 8, 1));
    CHECK(leaves_all(verify(&OF_M, CODE_001 | COMPARING, 7, 2, mended, 32), LAMPTASSEL_BLOCK_DIFFERS, 8, 0));
    CHECK(leaves_all(verify(&TYPE_3, CODE_001 | COMPARING, 7, 2, M, 32), LAMPTASSEL_GOOD, 0, 0));
    CHECK(leaves_all(verify(&OF_M, CODE_001 | COMPARING, 7, 1, M + 16, 16), LAMPTASSEL_BLOCK_DIFFERS, 7, 0));
    /* The third block has the escape and a wrong guard: stored it is not checked but compared, sent it is checked. */
    CHECK(leaves_all(verify(&OF_M, COMPARING, 9, 1, data + 16, 8), LAMPTASSEL_GOOD, 0, 0));
    CHECK(leaves_all(verify(&OF_M, COMPARING, 9, 1, data, 8), LAMPTASSEL_BLOCK_DIFFERS, 9, 0));
    CHECK(leaves_all(verify(&OF_M, CODE_001 | COMPARING, 7, 2, M + 16, 32), LAMPTASSEL_GUARD_CHECK_FAILED, 8, 1));
}

/* READ (32), code 001, of M's first two blocks as type 2 with ATO 1: first tag 7, application tag 0001h, mask FFFFh.
   VERIFY (32) of the first against itself and against the second: application tag 0000h. */
static void long_command(void) {
    static const struct description TYPE_2 = {2, 8, 0, 7, 3, 1};
    static const uint8_t READ_32[32] = {0x7F, 0, 0, 0, 0, 0, 0, 0x18, 0, 9, 0x20, 0, 0, 0,    0,    0,
                                        0,    0, 0, 7, 0, 0, 0, 7,    0, 1, 0xFF, 0xFF, 0, 0, 0, 2};
    static const uint8_t COMPARE_32[32] = {0x7F, 0, 0, 0, 0, 0, 0, 0x18, 0, 10, 0x22, 0, 0, 0,    0,    0,
                                           0,    0, 0, 7, 0, 0, 0, 7,    0, 0,  0xFF, 0xFF, 0, 0, 0, 1};
    CHECK(leaves_all(on_m(&TYPE_2, COMPARE_32, 32, M, 16), LAMPTASSEL_GOOD, 0, 0));
    CHECK(leaves_all(on_m(&TYPE_2, COMPARE_32, 32, M + 16, 16), LAMPTASSEL_BLOCK_DIFFERS, 7, 0));
    CHECK(leaves_all(on_m(&TYPE_2, READ_32, 32, NULL, 32), LAMPTASSEL_APPLICATION_CHECK_FAILED, 7, 0));
    CHECK(leaves_all(on_m(&OF_M, READ_32, 32, NULL, 32), LAMPTASSEL_OPERATION_INVALID, 0, 0));
}

/* The address that comes back is not cut either. */
static void wide_address(void) {
    static const struct description FAR = {1, 8, 0, (UINT64_C(1) << 40) + 7, 3, 0};
    static const uint8_t READ_16[16] = {0x88, 0x20, 0, 0, 1, 0, 0, 0, 0, 7, 0, 0, 0, 2, 0, 0};
    static const uint8_t COMPARE_16[16] = {0x8F, 0x62, 0, 0, 1, 0, 0, 0, 0, 7, 0, 0, 0, 2, 0, 0};
    CHECK(leaves_all(on_m(&FAR, COMPARE_16, 16, NULL, 32), LAMPTASSEL_BLOCK_DIFFERS, (UINT64_C(1) << 40) + 7, 0));
    CHECK(leaves_all(on_m(&FAR, READ_16, 16, NULL, 32), LAMPTASSEL_REFERENCE_CHECK_FAILED, (UINT64_C(1) << 40) + 8, 1));
}

/* What a scrub hands back. */
struct scrubbed {
    uint64_t number, next, judged, faults, first_fault;
};

/* Of a segment of one block, at address 7. */
static const struct scrubbed ONE_RIGHT = {LAMPTASSEL_GOOD, 1, 1, 0, 0}, ONE_WRONG = {LAMPTASSEL_GOOD, 1, 1, 1, 7};

static struct scrubbed scrub_of(const struct description *d, const uint8_t *segment, size_t length, uint64_t place,
                                uint64_t blocks, uint64_t held) {
    struct scrubbed s = {0, held, held, held, held};
    s.number = scrub(TOLD(d), segment, length, place, blocks, &s.next, &s.judged, &s.faults, &s.first_fault);
    return s;
}

static int same(struct scrubbed one, struct scrubbed other) {
    return memcmp(&one, &other, sizeof one) == 0;
}

/* A scrub of a segment's bytes hands this back, whatever stood in the four places before. */
static int hands_back(const struct description *d, const uint8_t *segment, size_t length, uint64_t place,
                      uint64_t blocks, struct scrubbed wanted) {
    return same(scrub_of(d, segment, length, place, blocks, 0), wanted) &&
           same(scrub_of(d, segment, length, place, blocks, UINT64_MAX), wanted);
}

static int scrubs(const struct description *d, uint64_t place, uint64_t blocks, uint64_t judged, uint64_t wrong,
                  uint64_t first_wrong) {
    const struct scrubbed wanted = {LAMPTASSEL_GOOD, place + judged, judged, wrong, first_wrong};
    return hands_back(d, M, sizeof M, place, blocks, wanted);
}

static int scrub_refused(const struct description *d, const uint8_t *segment, size_t length, uint64_t place,
                         uint64_t blocks, uint64_t number) {
    const struct scrubbed wanted = {number, place, 0, 0, 0};
    return hands_back(d, segment, length, place, blocks, wanted);
}

/* M in steps, as a server scrubs it: faults added up, and the first of all. The last call begins at the end. */
static int scrubs_in_steps(const struct description *d, uint64_t blocks, uint64_t wrong, uint64_t first_wrong) {
    const struct scrubbed wanted = {LAMPTASSEL_GOOD, 3, 3, wrong, first_wrong};
    struct scrubbed all = {LAMPTASSEL_GOOD, 0, 0, 0, 0};
    for (int calls = 0; calls <= 3; calls++) {
        const struct scrubbed s = scrub_of(d, M, sizeof M, all.next, blocks, UINT64_MAX);
        if (all.faults == 0)
            all.first_fault = s.first_fault;
        all.number |= s.number;
        all.next = s.next;
        all.judged += s.judged;
        all.faults += s.faults;
    }
    return same(all, wanted);
}

/* M's second block has another's reference tag, its third the escape. */
static void scrubbings(void) {
    static const uint64_t STEPS[] = {1, 2, 3, 4, BEYOND_32_BITS, BEYOND_32_BITS + 1, UINT64_MAX};
    CHECK(scrubs(&OF_M, 0, 3, 3, 1, 8));
    CHECK(scrubs(&OF_M, 0, 1, 1, 0, 0));
    CHECK(scrubs(&OF_M, 1, 1, 1, 1, 8));
    CHECK(scrubs(&OF_M, 2, 1, 1, 0, 0));
    CHECK(scrubs(&OF_M, 0, 2, 2, 1, 8));
    CHECK(scrubs(&OF_M, 0, BEYOND_32_BITS, 3, 1, 8));
    CHECK(scrubs(&OF_M, 0, UINT64_MAX, 3, 1, 8));
    CHECK(scrubs(&OF_M, 1, UINT64_MAX, 2, 1, 8));
    CHECK(scrubs(&OF_M, 2, UINT64_MAX, 1, 0, 0));
    CHECK(scrubs(&OF_M, 3, UINT64_MAX, 0, 0, 0));
    CHECK(scrubs(&OF_M, 3, 1, 0, 0, 0));
    for (uint64_t place = 0; place <= 3; place++)
        CHECK(scrubs(&OF_M, place, 0, 0, 0, 0));
    for (size_t i = 0; i < ENTRIES(STEPS); i++)
        CHECK(scrubs_in_steps(&OF_M, STEPS[i], 1, 8));
}

static void scrubbings_refused(void) {
    static const uint64_t ABOVE_N[] = {4, BEYOND_32_BITS, BEYOND_32_BITS + 1, (UINT64_C(1) << 63) + 1, UINT64_MAX};
    static const struct description NO_SEGMENT = {4, 8, 0, 7, 3, 0};
    for (size_t i = 0; i < ENTRIES(ABOVE_N); i++) {
        CHECK(scrub_refused(&OF_M, M, 48, ABOVE_N[i], 0, LAMPTASSEL_ADDRESS_OUT_OF_RANGE));
        CHECK(scrub_refused(&OF_M, M, 48, ABOVE_N[i], 1, LAMPTASSEL_ADDRESS_OUT_OF_RANGE));
        CHECK(scrub_refused(&OF_M, M, 47, ABOVE_N[i], 1, LAMPTASSEL_SEGMENT_LENGTH_WRONG));
        CHECK(scrub_refused(&NO_SEGMENT, M, 47, ABOVE_N[i], 1, LAMPTASSEL_DESCRIPTION_BAD));
    }
    /* All that is asked for is there, or nothing is asked for, and the length is wrong. */
    CHECK(scrub_refused(&OF_M, M, 32, 1, 1, LAMPTASSEL_SEGMENT_LENGTH_WRONG));
    CHECK(scrub_refused(&OF_ONE_BLOCK, M, 48, 1, 0, LAMPTASSEL_SEGMENT_LENGTH_WRONG));
}

/* M's bytes by other descriptions, and blocks of two intervals. */
static void scrubbings_by_type(void) {
    static const struct description FROM_0 = {1, 8, 0, 0, 3, 0}, FAR = {1, 8, 0, (UINT64_C(1) << 40) + 7, 3, 0};
    static const struct description TYPE_0 = {0, 16, 0, 7, 3, 0}, TYPE_2 = {2, 8, 0, 7, 3, 0};
    static const struct description TYPE_3 = {3, 8, 0, 7, 3, 0}, TWO_INTERVALS = {3, 16, 1, 7, 1, 0};
    uint8_t with_tag[16], first_wrong[32], both_wrong[32];
    memcpy(with_tag, M, sizeof with_tag);
    with_tag[10] = 0x12;
    memcpy(first_wrong, M + 32, 16);
    memcpy(first_wrong + 16, M, 16);
    memset(both_wrong, 0x11, sizeof both_wrong);
    /* The first fault is at address 0. */
    CHECK(scrubs(&FROM_0, 0, 3, 3, 2, 0));
    CHECK(scrubs(&FROM_0, 1, 2, 2, 1, 1));
    CHECK(scrubs_in_steps(&FROM_0, 1, 2, 0));
    CHECK(scrubs(&FAR, 0, 3, 3, 1, (UINT64_C(1) << 40) + 8));
    CHECK(scrubs(&TYPE_0, 0, 3, 3, 0, 0));
    CHECK(scrubs(&TYPE_2, 0, 3, 3, 0, 0));
    /* The third block's guard is wrong, and its reference tag not that of type 3's escape. */
    CHECK(scrubs(&TYPE_3, 0, 3, 3, 1, 9));
    CHECK(hands_back(&TWO_INTERVALS, M, 32, 0, 1, ONE_RIGHT));
    CHECK(hands_back(&TWO_INTERVALS, M + 16, 32, 0, 1, ONE_WRONG));
    CHECK(hands_back(&TWO_INTERVALS, first_wrong, 32, 0, 1, ONE_WRONG));
    CHECK(hands_back(&TWO_INTERVALS, both_wrong, 32, 0, 1, ONE_WRONG));
    /* The application tag is not judged. */
    CHECK(hands_back(&OF_ONE_BLOCK, with_tag, 16, 0, 1, ONE_RIGHT));
}

static void descriptions(void) {
    uint8_t members[2 * sizeof M], parts[3 * sizeof M], out[sizeof M], before[sizeof M];
    memset(members, 0x11, sizeof members);
    memset(parts, 0x22, sizeof parts);
    memset(out, 0x33, sizeof out);
    memcpy(before, out, sizeof out);
    for (size_t i = 0; i < ENTRIES(TOO_WIDE); i++) {
        const struct description *d = &TOO_WIDE[i];
        CHECK(leaves_all(on_m(d, READ_NOTHING, 10, NULL, 0), LAMPTASSEL_DESCRIPTION_BAD, 0, 0));
        CHECK(fill(TOLD(d), out, sizeof out) == LAMPTASSEL_DESCRIPTION_BAD);
        CHECK(scrub_refused(d, M, sizeof M, 2, 1, LAMPTASSEL_DESCRIPTION_BAD));
        CHECK(parity(TOLD(d), 2, members, sizeof members, out, sizeof out) == LAMPTASSEL_DESCRIPTION_BAD);
        CHECK(rebuild(TOLD(d), 2, 0, parts, sizeof parts, out, sizeof out) == LAMPTASSEL_DESCRIPTION_BAD);
        CHECK(correct(TOLD(d), members, sizeof M, parts, sizeof M, out, sizeof out) == LAMPTASSEL_DESCRIPTION_BAD);
    }
    CHECK(memcmp(out, before, sizeof out) == 0);
}

static void formats(void) {
    uint64_t kind = UINT64_MAX;
    CHECK(format_choice(3, 1, 3, 1, &kind) == LAMPTASSEL_GOOD && kind == 3);
    CHECK(format_choice(1, 1, 3, 1, &kind) == LAMPTASSEL_PARAMETER_INVALID && kind == 0);
    CHECK(format_choice(0, 1, 2, 0, &kind) == LAMPTASSEL_GOOD && kind == 1);
    CHECK(format_choice(0, 1, 1, 0, &kind) == LAMPTASSEL_FIELD_INVALID && kind == 0);
    for (int i = 0; i < 4; i++) {
        kind = UINT64_MAX;
        CHECK(format_choice(0 + (i == 0) * BEYOND_32_BITS, 1 + (i == 1) * BEYOND_32_BITS, 2 + (i == 2) * BEYOND_32_BITS,
                            0 + (i == 3) * BEYOND_32_BITS, &kind) == LAMPTASSEL_FIELD_INVALID);
        CHECK(kind == 0);
    }
}

static void fillings(void) {
    static const uint8_t FRESH[16] = {0, 0, 0, 0, 0, 0, 0, 0, 0xFF, 0xFF, 0xFF, 0xFF, 0xFF, 0xFF, 0xFF, 0xFF};
    uint8_t segment[17];
    memset(segment, 0x55, sizeof segment);
    CHECK(fill(TOLD(&OF_ONE_BLOCK), segment, 17) == LAMPTASSEL_SEGMENT_LENGTH_WRONG && segment[0] == 0x55);
    CHECK(fill(TOLD(&OF_ONE_BLOCK), segment, 16) == LAMPTASSEL_GOOD);
    CHECK(memcmp(segment, FRESH, 16) == 0 && segment[16] == 0x55);
}

/* Document 01's stripe: M's first two blocks as members. */
static void stripes(void) {
    static const uint8_t PARITY[16] = {0, 0, 0, 0, 0, 0, 0, 3, 0x17, 0x6E, 0, 0, 0, 0, 0, 0};
    uint8_t parts[48], out[16];
    memcpy(parts, M, 32);
    memset(out, 0x55, 16);
    CHECK(parity(TOLD(&OF_ONE_BLOCK), BEYOND_32_BITS + 2, M, 32, out, 16) == LAMPTASSEL_STRIPE_SHAPE_BAD);
    CHECK(rebuild(TOLD(&OF_ONE_BLOCK), BEYOND_32_BITS + 2, 0, parts, 48, out, 16) == LAMPTASSEL_STRIPE_SHAPE_BAD);
    CHECK(rebuild(TOLD(&OF_ONE_BLOCK), 2, BEYOND_32_BITS, parts, 48, out, 16) == LAMPTASSEL_STRIPE_SHAPE_BAD);
    CHECK(out[0] == 0x55 && memcmp(out, out + 1, 15) == 0);
    CHECK(parity(TOLD(&OF_ONE_BLOCK), 2, M, 32, out, 16) == LAMPTASSEL_GOOD && memcmp(out, PARITY, 16) == 0);
    memcpy(parts + 32, PARITY, 16);
    memset(parts, 0x55, 16);
    CHECK(rebuild(TOLD(&OF_ONE_BLOCK), 2, 0, parts, 48, out, 16) == LAMPTASSEL_GOOD && memcmp(out, M, 16) == 0);
    memcpy(out, PARITY, 16);
    CHECK(correct(TOLD(&OF_ONE_BLOCK), M, 16, M, 16, out, 16) == LAMPTASSEL_GOOD && memcmp(out, PARITY, 16) == 0);
    CHECK(correct(TOLD(&OF_ONE_BLOCK), M, 16, M + 16, 16, out, 16) == LAMPTASSEL_GOOD);
    CHECK(out[7] == 0 && memcmp(out, out + 1, 15) == 0);
}

static void guards_of_document(void) {
    uint8_t data[64], out[4] = {0x55, 0x55, 0x55, 0x55};
    static const uint8_t BOTH[4] = {0x02, 0x24, 0xA0, 0xB7};
    for (int i = 0; i < 32; i++) {
        data[i] = (uint8_t)i;
        data[32 + i] = (uint8_t)(255 - i);
    }
    CHECK(guard(data, 32) == 0x0224);
    CHECK(guard_by_division(data + 32, 32) == 0xA0B7);
    CHECK(guards(data, 64, 32, out, 3) == LAMPTASSEL_BUFFER_LENGTH_WRONG);
    CHECK(guards(data, 64, 0, out, 4) == LAMPTASSEL_BUFFER_LENGTH_WRONG);
    CHECK(guards(data, 64, BEYOND_32_BITS + 32, out, 4) == LAMPTASSEL_BUFFER_LENGTH_WRONG);
    CHECK(out[0] == 0x55 && memcmp(out, out + 1, 3) == 0);
    CHECK(guards(data, 64, 32, out, 4) == LAMPTASSEL_GOOD && memcmp(out, BOTH, 4) == 0);
}

static const char TYPE_0_LISTED[] = "lba interval guard app ref state\nintervals 0 faults 0 skipped 0\n";

static void listings(void) {
    /* One block of type 0. */
    static const uint8_t RECORD[27] = {0, 0, 0, 23, 1, 0, 0, 0, 8, 0, 0, 0, 0, 0, 0, 0, 7, 0, 1};
    const size_t whole = sizeof TYPE_0_LISTED - 1;
    uint8_t out[sizeof TYPE_0_LISTED];
    memset(out, 0x55, sizeof out);
    CHECK(list(RECORD, sizeof RECORD, out, 4) == whole && memcmp(out, "lba U", 5) == 0);
    CHECK(list(RECORD, sizeof RECORD, out, sizeof out) == whole);
    CHECK(memcmp(out, TYPE_0_LISTED, whole) == 0 && out[whole] == 0x55);
}

/* Null pointers with length 0. */
static void empty_buffers(void) {
    uint8_t bytes[48];
    uint64_t address = 1, place = 1;
    memcpy(bytes, M, sizeof bytes);
    CHECK(execute(TOLD(&OF_M), NULL, 0, READ_NOTHING, 10, NULL, 0, &address, &place) == LAMPTASSEL_SEGMENT_LENGTH_WRONG);
    CHECK(execute(TOLD(&OF_M), bytes, 48, NULL, 0, NULL, 0, &address, &place) == LAMPTASSEL_COMMAND_LENGTH_WRONG);
    CHECK(execute(TOLD(&OF_M), bytes, 48, READ_TWO, 10, NULL, 0, &address, &place) == LAMPTASSEL_BUFFER_LENGTH_WRONG);
    CHECK(execute(TOLD(&OF_M), bytes, 48, READ_NOTHING, 10, NULL, 0, &address, &place) == LAMPTASSEL_GOOD);
    CHECK(execute(TOLD(&OF_M), bytes, 48, VERIFY_ONE, 10, NULL, 0, &address, &place) == LAMPTASSEL_GOOD);
    CHECK(execute(TOLD(&OF_M), bytes, 48, COMPARE_NOTHING, 10, NULL, 0, &address, &place) == LAMPTASSEL_GOOD);
    CHECK(execute(TOLD(&OF_M), bytes, 48, COMPARE_DATA, 10, NULL, 0, &address, &place) ==
          LAMPTASSEL_BUFFER_LENGTH_WRONG);
    CHECK(fill(TOLD(&OF_M), NULL, 0) == LAMPTASSEL_SEGMENT_LENGTH_WRONG);
    CHECK(scrub_refused(&OF_M, NULL, 0, 1, 2, LAMPTASSEL_SEGMENT_LENGTH_WRONG));
    CHECK(parity(TOLD(&OF_M), 1, NULL, 0, bytes, 48) == LAMPTASSEL_STRIPE_SHAPE_BAD);
    CHECK(parity(TOLD(&OF_M), 1, M, 48, NULL, 0) == LAMPTASSEL_STRIPE_SHAPE_BAD);
    CHECK(rebuild(TOLD(&OF_ONE_BLOCK), 1, 0, NULL, 0, bytes, 16) == LAMPTASSEL_STRIPE_SHAPE_BAD);
    CHECK(rebuild(TOLD(&OF_ONE_BLOCK), 1, 0, M, 32, NULL, 0) == LAMPTASSEL_STRIPE_SHAPE_BAD);
    CHECK(correct(TOLD(&OF_M), NULL, 0, M, 48, bytes, 48) == LAMPTASSEL_STRIPE_SHAPE_BAD);
    CHECK(correct(TOLD(&OF_M), M, 48, NULL, 0, bytes, 48) == LAMPTASSEL_STRIPE_SHAPE_BAD);
    CHECK(correct(TOLD(&OF_M), M, 48, M, 48, NULL, 0) == LAMPTASSEL_STRIPE_SHAPE_BAD);
    CHECK(guard(NULL, 0) == 0);
    CHECK(guard_by_division(NULL, 0) == 0);
    CHECK(guards(NULL, 0, 8, NULL, 0) == LAMPTASSEL_GOOD);
    CHECK(guards(NULL, 0, 8, bytes, 2) == LAMPTASSEL_BUFFER_LENGTH_WRONG);
    CHECK(guards(M, 8, 8, NULL, 0) == LAMPTASSEL_BUFFER_LENGTH_WRONG);
    CHECK(memcmp(bytes, M, sizeof bytes) == 0);
    CHECK(list(NULL, 0, NULL, 0) == 11);
    CHECK(list(NULL, 0, bytes, 48) == 11 && memcmp(bytes, "refused 13\n", 11) == 0);
}

static void senses(void) {
    for (size_t i = 0; i < ENTRIES(ANSWERS); i++) {
        CHECK(ANSWERS[i].constant == ANSWERS[i].number);
        CHECK(ANSWERS[i].sense_constant == ANSWERS[i].sense);
        CHECK(sense(ANSWERS[i].number) == ANSWERS[i].sense);
        CHECK(sense(ANSWERS[i].number + BEYOND_32_BITS) == 0);
    }
    CHECK(sense(ANSWERS[ENTRIES(ANSWERS) - 1].number + 1) == 0);
}

#ifdef WITH_SYSTEM
/* One block of 4,088 bytes in each page. */
static const struct description OF_A_PAGE = {1, 4088, 0, 7, 1, 0};
enum { PAGE = 4096 };

static uint8_t *page(void) {
    void *at = mmap(NULL, PAGE, PROT_READ | PROT_WRITE, MAP_PRIVATE | MAP_ANONYMOUS, -1, 0);
    CHECK(at != MAP_FAILED);
    return at == MAP_FAILED ? NULL : (uint8_t *)at;
}

static void on_page(uint8_t *segment, const uint8_t *command, uint8_t *buffer, size_t length, uint64_t number) {
    uint64_t address, place;
    CHECK(execute(TOLD(&OF_A_PAGE), segment, PAGE, command, 10, buffer, length, &address, &place) == number);
}

static const uint8_t READ_BARE[10] = {0x28, 0, 0, 0, 0, 7, 0, 0, 1, 0};
static const uint8_t READ_WHOLE[10] = {0x28, 0x20, 0, 0, 0, 7, 0, 0, 1, 0};
static const uint8_t COMPARE_WHOLE[10] = {0x2F, 0x22, 0, 0, 0, 7, 0, 0, 1, 0};

/* A thread that READs, VERIFYs and scrubs two segments in read-only memory, a right one and one of the same data with a
   wrong guard, and compares each with the other. */
struct reader {
    uint8_t *right, *wrong, *buffer;
    int faults;
};

static int answers(uint8_t *segment, const uint8_t *command, uint8_t *buffer, size_t length, uint64_t number) {
    uint64_t address, place, given;
    given = execute(TOLD(&OF_A_PAGE), segment, PAGE, command, 10, buffer, length, &address, &place);
    return given == number && address == (number == LAMPTASSEL_GOOD ? 0 : 7) && place == 0;
}

static void *reads(void *told) {
    enum { ROUNDS = 500, UNTOUCHED = 0xA5 };
    struct reader *r = (struct reader *)told;
    for (int i = 0; i < ROUNDS; i++) {
        memset(r->buffer, UNTOUCHED, PAGE);
        r->faults += !answers(r->wrong, READ_WHOLE, r->buffer, PAGE, LAMPTASSEL_GUARD_CHECK_FAILED);
        r->faults += r->buffer[0] != UNTOUCHED || memcmp(r->buffer, r->buffer + 1, PAGE - 1) != 0;
        r->faults += !answers(r->right, READ_WHOLE, r->buffer, PAGE, LAMPTASSEL_GOOD);
        r->faults += memcmp(r->buffer, r->right, PAGE) != 0;
        r->faults += !answers(r->right, COMPARE_WHOLE, r->buffer, PAGE, LAMPTASSEL_GOOD);
        memset(r->buffer, UNTOUCHED, PAGE);
        r->faults += !answers(r->right, READ_BARE, r->buffer, 4088, LAMPTASSEL_GOOD);
        r->faults += memcmp(r->buffer, r->right, 4088) != 0;
        r->faults += !answers(r->right, VERIFY_ONE, NULL, 0, LAMPTASSEL_GOOD);
        r->faults += !answers(r->wrong, VERIFY_ONE, NULL, 0, LAMPTASSEL_GUARD_CHECK_FAILED);
        r->faults += !hands_back(&OF_A_PAGE, r->right, PAGE, 0, 1, ONE_RIGHT);
        r->faults += !hands_back(&OF_A_PAGE, r->wrong, PAGE, 0, 1, ONE_WRONG);
        r->faults += !answers(r->right, COMPARE_DATA, r->wrong, 4088, LAMPTASSEL_GOOD);
        r->faults += !answers(r->wrong, COMPARE_WHOLE, r->right, PAGE, LAMPTASSEL_BLOCK_DIFFERS);
    }
    return NULL;
}

static void side_by_side(uint8_t *right, uint8_t *wrong) {
    enum { THREADS = 4 };
    struct reader readers[THREADS];
    pthread_t threads[THREADS];
    int begun = 0;
    for (; begun < THREADS; begun++) {
        readers[begun].right = right;
        readers[begun].wrong = wrong;
        readers[begun].buffer = page();
        readers[begun].faults = 0;
        if (readers[begun].buffer == NULL || pthread_create(&threads[begun], NULL, reads, &readers[begun]) != 0)
            break;
    }
    CHECK(begun == THREADS);
    while (begun-- > 0) {
        CHECK(pthread_join(threads[begun], NULL) == 0);
        CHECK(readers[begun].faults == 0);
        munmap(readers[begun].buffer, PAGE);
    }
}

/* A write to what is only read ends the test at once. */
static void read_only_memory(void) {
    static const uint8_t WRITE_BARE[10] = {0x2A, 0, 0, 0, 0, 7, 0, 0, 1, 0};
    static const uint8_t WRITE_WHOLE[10] = {0x2A, 0x20, 0, 0, 0, 7, 0, 0, 1, 0};
    uint8_t *lent = page(), *stored = page(), *other = page();
    if (lent == NULL || stored == NULL || other == NULL)
        return;
    memset(lent, 0x5A, PAGE);
    CHECK(mprotect(lent, PAGE, PROT_READ) == 0);
    on_page(stored, WRITE_BARE, lent, 4088, LAMPTASSEL_GOOD);
    on_page(stored, WRITE_WHOLE, lent, PAGE, LAMPTASSEL_GUARD_CHECK_FAILED);
    CHECK(mprotect(stored, PAGE, PROT_READ) == 0);
    on_page(other, WRITE_WHOLE, stored, PAGE, LAMPTASSEL_GOOD);
    CHECK(memcmp(other, stored, PAGE) == 0);
    on_page(stored, READ_BARE, other, 4088, LAMPTASSEL_GOOD);
    on_page(stored, READ_WHOLE, other, PAGE, LAMPTASSEL_GOOD);
    on_page(stored, VERIFY_ONE, NULL, 0, LAMPTASSEL_GOOD);
    on_page(lent, READ_BARE, other, 4088, LAMPTASSEL_GUARD_CHECK_FAILED);
    on_page(lent, VERIFY_ONE, NULL, 0, LAMPTASSEL_GUARD_CHECK_FAILED);
    CHECK(hands_back(&OF_A_PAGE, stored, PAGE, 0, 1, ONE_RIGHT));
    CHECK(hands_back(&OF_A_PAGE, lent, PAGE, 0, 1, ONE_WRONG));
    on_page(stored, COMPARE_DATA, lent, 4088, LAMPTASSEL_GOOD);
    on_page(lent, COMPARE_WHOLE, stored, PAGE, LAMPTASSEL_BLOCK_DIFFERS);
    CHECK(mprotect(other, PAGE, PROT_READ) == 0);
    on_page(stored, COMPARE_WHOLE, other, PAGE, LAMPTASSEL_GOOD);
    side_by_side(stored, lent);
    munmap(lent, PAGE);
    munmap(stored, PAGE);
    munmap(other, PAGE);
}

/* The deepest calls: numbers of 19 digits are listed, a command judges and stores, or judges and compares, a scrub meets
   a right block, a wrong one and one with the escape. */
static void deep_calls(void) {
    static const uint8_t RECORD[35] = {0,    0,    0,    31,   1,    1,    0,    0, 8, 0x7F,
                                       0xFF, 0xFF, 0xFF, 0xFF, 0xFF, 0xFF, 0xFE, 0, 1};
    static uint8_t out[256], segment[48], sent[16];
    static uint64_t address, place, next, judged, wrong, first_wrong;
    memcpy(segment, M, sizeof M);
    memcpy(sent, M, sizeof sent);
    list(RECORD, sizeof RECORD, out, sizeof out);
    execute(TOLD(&OF_M), segment, 48, WRITE_DATA, 10, out, 8, &address, &place);
    execute(TOLD(&OF_M), segment, 48, WRITE_THIRD, 10, out, 16, &address, &place);
    execute(TOLD(&OF_M), segment, 48, READ_TWO, 10, out, 32, &address, &place);
    execute(TOLD(&OF_M), segment, 48, COMPARE_DATA, 10, sent, 8, &address, &place);
    execute(TOLD(&OF_M), segment, 48, COMPARE_WHOLE, 10, sent, 16, &address, &place);
    fill(TOLD(&OF_M), segment, 48);
    scrub(TOLD(&OF_M), M, 48, 0, 3, &next, &judged, &wrong, &first_wrong);
    parity(TOLD(&OF_ONE_BLOCK), 2, M, 32, out, 16);
    rebuild(TOLD(&OF_ONE_BLOCK), 2, 0, M, 48, out, 16);
    correct(TOLD(&OF_ONE_BLOCK), M, 16, M + 16, 16, out, 16);
    guards(M, 48, 8, out, 12);
    guard(M, 48);
}

static uint8_t of_known_bytes[65536];

static void call_deep_on_known_bytes(void) {
    static ucontext_t here, there;
    CHECK(getcontext(&there) == 0);
    there.uc_stack.ss_sp = of_known_bytes;
    there.uc_stack.ss_size = sizeof of_known_bytes;
    there.uc_link = &here;
    makecontext(&there, deep_calls, 0);
    CHECK(swapcontext(&here, &there) == 0);
}

/* The header's 4 KB, seen by the known bytes that are left of a stack. */
static void stack(void) {
    enum { KNOWN = 0x5A };
    size_t left = 0;
    deep_calls(); /* what is bound at a first call is bound here */
    memset(of_known_bytes, KNOWN, sizeof of_known_bytes);
    call_deep_on_known_bytes();
    while (left < sizeof of_known_bytes && of_known_bytes[left] == KNOWN)
        left++;
    CHECK(left < sizeof of_known_bytes && sizeof of_known_bytes - left < 4096);
}
#endif

int main(void) {
#ifdef WITH_SYSTEM
    read_only_memory();
    if (!SANITIZED) /* whose own frames are large */
        stack();
#endif
    commands();
    comparisons();
    long_command();
    wide_address();
    scrubbings();
    scrubbings_refused();
    scrubbings_by_type();
    descriptions();
    formats();
    fillings();
    stripes();
    guards_of_document();
    listings();
    empty_buffers();
    senses();
    return faults != 0;
}
