/* Cases beside the stored lines: see cases.h. */
#include "cases.h"

#include <stdio.h>
#include <string.h>

#include "../../include/fulandewu.h"
#include "ask.h"
#include "lent.h"

enum { ROOM = 530000, TOO_LONG = FULANDEWU_LONGEST + 1 };

static uint8_t zeros[ROOM];

static const struct bytes TOO_LONG_BLOB = {zeros, TOO_LONG};

/* Small vectors of two dims each, and what is refused in one way or another. */
static const uint8_t DENSE[] = {0, 0, 0x70, 0x42, 0, 0, 0xa0, 0x42};
static const uint8_t NO_NUMBERS[] = {0, 0, 0xc0, 0x7f, 0, 0, 0xc0, 0x7f};
static const uint8_t ONE_BIT[] = {0x03, 0x0e, FULANDEWU_FLOAT1BIT};
static const uint8_t SPARSE[] = {2, 0, 0, 0, FULANDEWU_FLOAT32_SPARSE};
static const uint8_t LONGER[] = {0, 0, 0x70, 0x42, 0, 0, 0xa0, 0x42, 0, 0, 0xa0, 0x42};

/* Sparse vectors of three dims: HOLDING[n] holds n readings. These are 160; 60 and 80; 60, a stored 0 and 80. */
static const uint8_t HOLDING_0[] = {3, 0, 0, 0, 9};
static const uint8_t HOLDING_1[] = {0, 0, 0x20, 0x43, 1, 0, 0, 0, 3, 0, 0, 0, 9};
static const uint8_t HOLDING_2[] = {0, 0, 0x70, 0x42, 0, 0, 0xa0, 0x42, 0, 0, 0, 0, 2, 0, 0, 0, 3, 0, 0, 0, 9};
static const uint8_t HOLDING_3[] = {0, 0, 0x70, 0x42, 0, 0, 0, 0, 0, 0, 0xa0, 0x42, 0, 0, 0, 0, 1, 0, 0, 0,
                                    2, 0, 0, 0, 3, 0, 0, 0, 9};
static const struct bytes HOLDING[4] = {{HOLDING_0, 5}, {HOLDING_1, 13}, {HOLDING_2, 21}, {HOLDING_3, 29}};

/* Of one dim: no reading, and two, which are more than dims. */
static const uint8_t NONE_OF_1[] = {1, 0, 0, 0, 9};
static const uint8_t TWICE[] = {0, 0, 0x80, 0x3f, 0, 0, 0x80, 0x3f, 0, 0, 0, 0, 0, 0, 0, 0, 1, 0, 0, 0, 9};

#define BYTES(array) ((struct bytes){array, sizeof array})

/* A blob refused by each of the reader's numbers but 1; in that of 8, entry 1 is wrong. */
static const uint8_t REFUSED_2[] = {5}, REFUSED_3[] = {7}, REFUSED_4[] = {3}, REFUSED_5[] = {0xaa, 0x11, 3},
                     REFUSED_6[] = {0xaa, 7, 3}, REFUSED_7[] = {0xaa, 0x10, 3},
                     REFUSED_8[] = {0, 0, 0x80, 0x3f, 0, 0, 0x80, 0x3f, 1, 0, 0, 0, 5, 0, 0, 0, 2, 0, 0, 0, 9},
                     REFUSED_9[] = {1, 0, 1, 0, 9};
static const struct bytes REFUSED[10] = {
    {NULL, 0},         {zeros, TOO_LONG}, {REFUSED_2, 1}, {REFUSED_3, 1},  {REFUSED_4, 1},
    {REFUSED_5, 3},    {REFUSED_6, 3},    {REFUSED_7, 3}, {REFUSED_8, 21}, {REFUSED_9, 5},
};

/* A refusal; one that names an entry names entry 1. */
static struct answer expect_refused(struct request request, uint32_t refusal) {
    struct answer a = expect(request, refusal);
    if (names_an_entry(refusal)) expect_field(&a, ENTRY, 1);
    return a;
}

/* An answer with these counts; one that it does not have is 0. */
static struct answer expect_readings(struct request request, uint64_t readings, uint64_t other_readings) {
    struct answer a = expect(request, FULANDEWU_ANSWERED);
    expect_field(&a, READINGS, readings);
    expect_field(&a, OTHER_READINGS, other_readings);
    return a;
}

static void expect_which(struct request request, uint32_t refusal, uint64_t which) {
    struct answer a = expect_refused(request, refusal);
    expect_field(&a, WHICH, which);
}

static struct request on(enum export export, struct bytes a, struct bytes b, struct bytes c) {
    return (struct request){.export = export, .bytes = {a, b, c}};
}

static struct request reading(unsigned mode, struct bytes blob) {
    return (struct request){.export = READ, .mode = (uint8_t)mode, .bytes = {blob}};
}

/* Each of the reader's refusals, of every blob of every export, in each mode and by a byte that names none. */
static void reader_refusals(void) {
    const struct bytes good = BYTES(DENSE);
    now_from = "what the reader refuses";
    for (uint32_t n = 1; n <= 9; n++) {
        struct bytes bad = REFUSED[n];
        struct request convert = {.export = CONVERT, .bytes = {bad}, .kind = FULANDEWU_FLOAT32_DENSE};
        struct request append = {.export = FVECS_APPEND, .bytes = {bad}, .out = ROOM};
        for (unsigned mode = 0; mode <= 2; mode++) expect_refused(reading(mode, bad), n);
        expect_refused(convert, n);
        expect_refused(append, n);
        for (enum export e = DISTANCE_COS; e <= DISTANCE_JACCARD; e++) {
            expect_which(on(e, bad, good, REFUSED[0]), n, FULANDEWU_FIRST);
            expect_which(on(e, good, bad, REFUSED[0]), n, FULANDEWU_SECOND);
            expect_which(on(e, bad, REFUSED[3], REFUSED[0]), n, FULANDEWU_FIRST);
        }
        for (enum export e = NEARER_COS; e <= NEARER_JACCARD; e++) {
            expect_which(on(e, bad, good, good), n, FULANDEWU_PROBE);
            expect_which(on(e, good, bad, good), n, FULANDEWU_FIRST);
            expect_which(on(e, good, good, bad), n, FULANDEWU_SECOND);
            expect_which(on(e, bad, REFUSED[3], REFUSED[2]), n, FULANDEWU_PROBE);
        }
    }
}

/* All 256 bytes as a mode: 0 is the plain one, and every other byte reads strictly. */
static void mode_bytes(void) {
    static const uint8_t falling[] = {0, 0, 0x80, 0x3f, 0, 0, 0x80, 0x3f, 1, 0, 0, 0, 0, 0, 0, 0, 2, 0, 0, 0, 9};
    static const uint8_t in_place_0[] = {0, 0, 0x80, 0x3f, 0, 0, 0, 0, 1, 0, 0, 0, 9};
    static const uint8_t unused_set[] = {0xff, 0x09, FULANDEWU_FLOAT1BIT};
    now_from = "the bytes that name modes";
    for (unsigned byte = 0; byte < 256; byte++) {
        int strict = byte != FULANDEWU_PLAIN;
        expect_refused(reading(byte, BYTES(falling)), strict ? FULANDEWU_SPARSE_ORDER : FULANDEWU_ANSWERED);
        expect_refused(reading(byte, BYTES(TWICE)), strict ? FULANDEWU_SPARSE_ORDER : FULANDEWU_ANSWERED);
        expect(reading(byte, BYTES(in_place_0)), FULANDEWU_ANSWERED);
        expect(reading(byte, BYTES(unused_set)), strict ? FULANDEWU_UNUSED_BIT_SET : FULANDEWU_ANSWERED);
        struct answer a = expect(reading(byte, BYTES(ONE_BIT)), FULANDEWU_ANSWERED);
        expect_field(&a, DIMS, 2);
    }
}

/* The refusals of pairs, which are about neither blob. */
static void pair_refusals(void) {
    const struct bytes dense = BYTES(DENSE), bits = BYTES(ONE_BIT), none = BYTES(NO_NUMBERS);
    now_from = "what pairs are refused";
    for (int d = 0; d < 4; d++) {
        enum export distance = (enum export)(DISTANCE_COS + d), nearer = (enum export)(NEARER_COS + d);
        expect_which(on(distance, dense, BYTES(LONGER), REFUSED[0]), FULANDEWU_DIMS_DIFFER, FULANDEWU_NEITHER);
        expect_which(on(distance, dense, BYTES(SPARSE), REFUSED[0]), FULANDEWU_KINDS_DIFFER, FULANDEWU_NEITHER);
        expect_which(on(nearer, dense, dense, BYTES(LONGER)), FULANDEWU_DIMS_DIFFER, FULANDEWU_NEITHER);
        expect_which(on(nearer, dense, BYTES(SPARSE), dense), FULANDEWU_KINDS_DIFFER, FULANDEWU_NEITHER);
    }
    for (int d = 0; d < 3; d++)
        expect_which(on((enum export)(NEARER_COS + d), dense, none, none), FULANDEWU_BOTH_DISTANCES_NAN,
                     FULANDEWU_NEITHER);
    expect_which(on(NEARER_JACCARD, BYTES(SPARSE), BYTES(SPARSE), BYTES(SPARSE)), FULANDEWU_BOTH_DISTANCES_NAN,
                 FULANDEWU_NEITHER);
    expect_which(on(DISTANCE_L2, bits, bits, REFUSED[0]), FULANDEWU_L2_OF_FLOAT1BIT, FULANDEWU_NEITHER);
    expect_which(on(NEARER_L2, bits, bits, bits), FULANDEWU_L2_OF_FLOAT1BIT, FULANDEWU_NEITHER);
}

static int names_a_kind(unsigned byte) { return (byte >= 1 && byte <= 4) || byte == 9; }

/* All 256 bytes as a kind. One that names none is refused before anything else is looked at. */
static void kind_bytes(void) {
    now_from = "the bytes that name kinds";
    for (unsigned byte = 0; byte < 256; byte++) {
        uint32_t refusal = byte == 5 || byte == 6 ? FULANDEWU_TYPE_BYTE_5_OR_6 : FULANDEWU_TYPE_BYTE_UNKNOWN;
        struct request write = {.export = WRITE, .kind = (uint8_t)byte, .dims = SIZE_MAX, .out = 9};
        struct request convert = {.export = CONVERT, .bytes = {TOO_LONG_BLOB}, .kind = (uint8_t)byte, .out = 9};
        expect(write, names_a_kind(byte) ? FULANDEWU_DIMS_OVER_LIMIT : refusal);
        expect(convert, names_a_kind(byte) ? FULANDEWU_LENGTH_OVER_LIMIT : refusal);
    }
}

/* What the writer refuses, each tested before the next. */
static void writer_refusals(void) {
    static const uint8_t stray[] = {0, 0, 0x80, 0x3f, 0, 0, 0x80, 0x3f, 1, 0, 0, 0, 2, 0, 0, 0};
    const struct bytes empty = {zeros, 0}, odd = {zeros, 3}, endless = {zeros, 8 * 65537}, eight = {zeros, 8};
    struct request r = {.export = WRITE, .kind = FULANDEWU_FLOAT32_SPARSE, .dims = 65537, .bytes = {odd}};
    now_from = "what the writer refuses";
    expect(r, FULANDEWU_DIMS_OVER_LIMIT);
    r.dims = 2;
    expect(r, FULANDEWU_BODY_LENGTH_UNFIT);
    r.bytes[0] = endless;
    r.dims = 0;
    expect(r, FULANDEWU_LENGTH_OVER_LIMIT);
    r.bytes[0] = BYTES(stray);
    r.dims = 2;
    expect_refused(r, FULANDEWU_INDEX_NOT_BELOW_DIMS);
    r = (struct request){.export = WRITE, .kind = FULANDEWU_FLOAT1BIT, .bytes = {empty}};
    expect(r, FULANDEWU_WRITER_DIMS_0);
    r = (struct request){.export = WRITE, .kind = FULANDEWU_FLOAT8, .bytes = {eight}};
    expect(r, FULANDEWU_WRITER_DIMS_0);
    r = (struct request){.export = WRITE, .kind = FULANDEWU_FLOAT64_DENSE, .dims = 1, .bytes = {eight}, .out = 8};
    struct answer a = expect(r, FULANDEWU_OUTPUT_TOO_SHORT);
    expect_field(&a, NEEDED, 9);
}

/* The body of a sparse blob makes the blob again. */
static void writes_back(struct bytes sparse, size_t dims) {
    struct request write = {.export = WRITE, .kind = FULANDEWU_FLOAT32_SPARSE, .dims = dims,
                            .bytes = {{sparse.at, sparse.length - 5}}, .out = sparse.length};
    struct answer a = expect_readings(write, 0, 0);
    expect_output(&a, sparse.at, sparse.length);
}

/* How long the body of a vector of so many elements, all in entries, is in each kind. */
static uint64_t body_length(unsigned kind, uint64_t dims) {
    return kind == FULANDEWU_FLOAT32_DENSE ? 4 * dims
           : kind == FULANDEWU_FLOAT1BIT   ? dims / 8
           : kind == FULANDEWU_FLOAT8      ? dims + 8
                                           : 8 * dims;
}

/* The longest blob: 65,536 entries of 1.0, and as many dims. */
static struct bytes longest_blob(void) {
    static uint8_t longest[FULANDEWU_LONGEST];
    for (uint32_t i = 0; i < FULANDEWU_MOST_DIMS; i++) {
        uint8_t *value = longest + 4 * i, *index = longest + 4 * (FULANDEWU_MOST_DIMS + i);
        value[2] = 0x80, value[3] = 0x3f;
        index[0] = (uint8_t)(i & 255), index[1] = (uint8_t)(i >> 8);
    }
    longest[FULANDEWU_LONGEST - 3] = 1;
    longest[FULANDEWU_LONGEST - 1] = FULANDEWU_FLOAT32_SPARSE;
    return BYTES(longest);
}

/* The longest blob read, written, converted and measured. */
static void at_the_limits(void) {
    /* cosine, L2, dot and Jaccard of the blob and itself: 0.0, 0.0, -65,536.0 and 0.0 */
    static const uint64_t distances[] = {0, 0, 0xc0f0000000000000u, 0};
    const struct bytes sparse = longest_blob();
    now_from = "blobs at the limits";
    struct answer a = expect_readings(reading(FULANDEWU_STRICT, sparse), FULANDEWU_MOST_DIMS, 0);
    expect_field(&a, KIND, FULANDEWU_FLOAT32_SPARSE);
    expect_field(&a, DIMS, FULANDEWU_MOST_DIMS);
    expect_field(&a, LENGTH, FULANDEWU_LONGEST - 5);
    writes_back(sparse, FULANDEWU_MOST_DIMS);
    for (unsigned kind = 1; kind <= 9; kind++) {
        struct request convert = {.export = CONVERT, .bytes = {sparse}, .kind = (uint8_t)kind,
                                  .scratch = 4 * FULANDEWU_MOST_DIMS, .out = FULANDEWU_LONGEST};
        if (!names_a_kind(kind)) continue;
        a = expect_readings(convert, FULANDEWU_MOST_DIMS, 0);
        expect_field(&a, DIMS, FULANDEWU_MOST_DIMS);
        expect_field(&a, LENGTH, body_length(kind, FULANDEWU_MOST_DIMS));
    }
    for (int d = 0; d < 4; d++) {
        struct request distance = on((enum export)(DISTANCE_COS + d), sparse, sparse, REFUSED[0]);
        a = expect_readings(distance, FULANDEWU_MOST_DIMS, FULANDEWU_MOST_DIMS);
        expect_field(&a, DISTANCE, distances[d]);
        a = expect_readings(on((enum export)(NEARER_COS + d), sparse, sparse, sparse), FULANDEWU_MOST_DIMS, 0);
        expect_field(&a, DISTANCE, distances[d]);
        expect_field(&a, NEARER, FULANDEWU_FIRST);
    }
}

/* One blob lent as both of a pair, which its places in `ask` never show, by the names of the header. */
static void the_same_blob_twice(void) {
    struct fulandewu_answer answer;
    uint64_t pattern;
    memset(&answer, 0xff, sizeof answer);
    now_from = "one blob lent twice";
    now_calling = EXPORT_NAMES[NEARER_L2];
    if (fulandewu_nearer_l2(DENSE, sizeof DENSE, DENSE, sizeof DENSE, DENSE, sizeof DENSE, &answer) != 0
        || answer.nearer != FULANDEWU_FIRST || answer.distance != 0 || answer.readings != 2)
        fail("a tie does not give the first, of 2 readings, at 0.0");
    if (answer.other_readings != UINT64_MAX) fail("a field of a distance is written");
    now_calling = EXPORT_NAMES[DISTANCE_DOT];
    if (fulandewu_distance_dot(DENSE, sizeof DENSE, DENSE, sizeof DENSE, &answer) != 0 || answer.distance != -10000)
        fail("dot of 60, 80 and itself is not -10,000.0");
    now_calling = EXPORT_NAMES[DISTANCE_COS];
    if (fulandewu_distance_cos(SPARSE, sizeof SPARSE, SPARSE, sizeof SPARSE, &answer) != 0)
        fail("no reading is refused");
    if (answer.readings != 0 || answer.other_readings != 0) fail("a reading is counted where there is none");
    memcpy(&pattern, &answer.distance, sizeof pattern);
    if (pattern != 0x7ff8000000000000u) fail("NaN has the pattern %016llx", (unsigned long long)pattern);
    if (answer.which != UINT64_MAX || answer.nearer != FULANDEWU_FIRST) fail("a field of another answer is written");
    calls += 3;
}

/* The readings of one blob, read and converted to each kind. To sparse zeros are dropped, but the least f64
 * stays, as a stored 0. */
static void readings_of_one(void) {
    static const uint8_t gappy[] = {0, 0, 0x70, 0x42, 0, 0, 0, 0, 0, 0, 0xa0, 0x42};
    static const uint8_t doubles[] = {0, 0, 0, 0, 0, 0, 0, 0x80, 1, 0, 0, 0, 0, 0, 0, 0, FULANDEWU_FLOAT64_DENSE};
    static const uint8_t float8[] = {0, 2, 0, 0, 0, 0, 0x80, 0x3f, 0, 0, 0, 0, 0, 2, FULANDEWU_FLOAT8};
    const struct {
        struct bytes blob;
        uint64_t dims, readings, made_sparse;
    } counted[] = {
        {HOLDING[0], 3, 0, 0},     {HOLDING[1], 3, 1, 1},     {HOLDING[2], 3, 2, 2},    {HOLDING[3], 3, 3, 3},
        {BYTES(TWICE), 1, 2, 2},   {BYTES(gappy), 3, 3, 2},   {BYTES(doubles), 2, 2, 1}, {BYTES(float8), 2, 2, 1},
        {BYTES(ONE_BIT), 2, 2, 2}, {{NULL, 0}, 0, 0, 0},
    };
    now_from = "the readings of one blob";
    for (size_t c = 0; c < sizeof counted / sizeof *counted; c++) {
        struct answer a = expect_readings(reading(FULANDEWU_PLAIN, counted[c].blob), counted[c].readings, 0);
        expect_field(&a, DIMS, counted[c].dims);
        for (unsigned kind = 1; kind <= 9; kind++) {
            struct request convert = {.export = CONVERT, .bytes = {counted[c].blob}, .kind = (uint8_t)kind,
                                      .scratch = 12, .out = 24};
            int sparse = kind == FULANDEWU_FLOAT32_SPARSE;
            if (names_a_kind(kind)) expect_readings(convert, sparse ? counted[c].made_sparse : counted[c].dims, 0);
        }
    }
}

/* The readings of pairs, both ways round: the counts are exchanged, and the distance keeps its bits. */
static void readings_of_pairs(void) {
    now_from = "the readings of pairs";
    for (enum export e = DISTANCE_COS; e <= DISTANCE_JACCARD; e++) {
        for (unsigned n = 0; n < 4; n++)
            for (unsigned m = 0; m <= n; m++) {
                struct answer a = expect_readings(on(e, HOLDING[n], HOLDING[m], REFUSED[0]), n, m);
                struct answer b = expect_readings(on(e, HOLDING[m], HOLDING[n], REFUSED[0]), m, n);
                expect_field(&b, DISTANCE, a.field[DISTANCE]);
            }
        expect_readings(on(e, BYTES(TWICE), BYTES(NONE_OF_1), REFUSED[0]), 2, 0);
        expect_readings(on(e, BYTES(NONE_OF_1), BYTES(TWICE), REFUSED[0]), 0, 2);
    }
}

/* The nearer candidate has these readings, as the first and as the second. */
static void expect_nearer(enum export e, struct bytes probe, struct bytes near, struct bytes far,
                          uint64_t readings) {
    struct answer a = expect_readings(on(e, probe, near, far), readings, 0);
    expect_field(&a, NEARER, FULANDEWU_FIRST);
    a = expect_readings(on(e, probe, far, near), readings, 0);
    expect_field(&a, NEARER, FULANDEWU_SECOND);
}

static void readings_of_the_nearer(void) {
    now_from = "the readings of the nearer";
    for (enum export e = NEARER_COS; e <= NEARER_JACCARD; e++) {
        expect_nearer(e, HOLDING[2], HOLDING[3], HOLDING[1], 3);
        expect_nearer(e, HOLDING[3], HOLDING[2], HOLDING[1], 2);
        expect_nearer(e, BYTES(TWICE), BYTES(TWICE), BYTES(NONE_OF_1), 2);
    }
    expect_nearer(NEARER_L2, HOLDING[1], HOLDING[0], HOLDING[2], 0);
    expect_nearer(NEARER_L2, HOLDING[0], HOLDING[2], HOLDING[1], 2);
}

/* The same blobs where no count is written: by the writer, on append, and on a refusal. */
static void readings_not_told(void) {
    now_from = "readings that are not told";
    for (int n = 0; n < 4; n++) {
        struct request append = {.export = FVECS_APPEND, .bytes = {HOLDING[n]}, .out = 64};
        struct request convert = {.export = CONVERT, .bytes = {HOLDING[n]}, .kind = FULANDEWU_FLOAT1BIT};
        writes_back(HOLDING[n], 3);
        expect(append, FULANDEWU_KINDS_DIFFER);
        expect(convert, FULANDEWU_SCRATCH_TOO_SHORT);
        convert.scratch = 12;
        expect(convert, FULANDEWU_OUTPUT_TOO_SHORT);
        expect(on(DISTANCE_COS, HOLDING[n], BYTES(TWICE), REFUSED[0]), FULANDEWU_DIMS_DIFFER);
        expect(on(NEARER_L2, HOLDING[n], HOLDING[n], BYTES(TWICE)), FULANDEWU_DIMS_DIFFER);
    }
    writes_back(BYTES(TWICE), 1);
    expect(reading(FULANDEWU_STRICT, BYTES(TWICE)), FULANDEWU_SPARSE_ORDER);
}

void try_cases(void) {
    try_files();
    reader_refusals();
    mode_bytes();
    pair_refusals();
    kind_bytes();
    writer_refusals();
    at_the_limits();
    the_same_blob_twice();
    readings_of_one();
    readings_of_pairs();
    readings_of_the_nearer();
    readings_not_told();
}

/* The refusals' numbers that an export can give, as a set, 0 among them. */
static uint32_t can_give(enum export export) {
    const uint32_t every_mode = 0x3ff; /* 0 to 9 */
    const uint32_t pairs = every_mode | 1u << 12 | 1u << 13;
    uint32_t l2 = export == DISTANCE_L2 || export == NEARER_L2 ? 1u << 14 : 0;
    if (export == READ) return every_mode | 1u << 10 | 1u << 11;
    if (export == WRITE) return 1u | 1u << 1 | 1u << 2 | 1u << 3 | 1u << 7 | 1u << 8 | 1u << 9 | 1u << 15 | 1u << 16;
    if (export == CONVERT) return every_mode | 1u << 15 | 1u << 17;
    if (export == FVECS_READ) return 1u | 1u << 9 | 1u << 19;
    if (export == BVECS_READ) return 1u | 1u << 9 | 1u << 15 | 1u << 19;
    if (export == FVECS_APPEND) return every_mode | 1u << 13 | 1u << 15;
    return export <= DISTANCE_JACCARD ? pairs | l2 : pairs | l2 | 1u << 18;
}

void all_refusals_seen(void) {
    now_from = "all of the run";
    for (int e = 0; e < EXPORTS; e++) {
        now_calling = EXPORT_NAMES[e];
        printf("%s:", EXPORT_NAMES[e]);
        for (unsigned n = 0; n < REFUSALS; n++) {
            if ((can_give((enum export)e) >> n & 1) != (seen[e][n] > 0))
                fail("%u was %s", n, seen[e][n] ? "given, and cannot be" : "never given");
            if (seen[e][n]) printf(" %u (%lu)", n, seen[e][n]);
        }
        putchar('\n');
    }
}
