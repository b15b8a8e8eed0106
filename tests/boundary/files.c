/* Cases of files of vectors: see cases.h. */
#include <string.h>

#include "../../include/fulandewu.h"
#include "ask.h"
#include "cases.h"
#include "lent.h"

enum { VECTORS = 4, MOST_BYTES = 4 * FULANDEWU_MOST_DIMS };

/* Four rides, 60 with 80, none, 120 and 255, as an fvecs and as a bvecs file, and where their vectors start. */
static const uint8_t FVECS[] = {2, 0, 0, 0, 0, 0, 0x70, 0x42, 0, 0, 0xa0, 0x42, 0, 0, 0, 0,
                                1, 0, 0, 0, 0, 0, 0xf0, 0x42, 1, 0, 0, 0, 0, 0, 0x7f, 0x43};
static const uint8_t BVECS[] = {2, 0, 0, 0, 60, 80, 0, 0, 0, 0, 1, 0, 0, 0, 120, 1, 0, 0, 0, 255};
static const size_t DIMS_OF[VECTORS] = {2, 0, 1, 1};
static const size_t FVECS_PLACES[VECTORS + 1] = {0, 12, 16, 24, sizeof FVECS};
static const size_t BVECS_PLACES[VECTORS + 1] = {0, 6, 10, 15, sizeof BVECS};

/* A count and room for the most elements. */
static uint8_t large[4 + MOST_BYTES + 1];

static struct request read_at(enum export export, const uint8_t *file, size_t length, size_t place) {
    return (struct request){.export = export, .bytes = {{file, length}}, .place = place, .out = 9};
}

static struct answer expect_vector(struct request r, size_t dims, size_t next) {
    struct answer a = expect(r, FULANDEWU_ANSWERED);
    expect_field(&a, FOUND, 1);
    expect_field(&a, DIMS, dims);
    expect_field(&a, START, r.place + 4);
    expect_field(&a, NEXT, next);
    return a;
}

static void expect_end(struct request r) {
    struct answer a = expect(r, FULANDEWU_ANSWERED);
    expect_field(&a, FOUND, 0);
}

static void expect_cut(struct request r) {
    struct answer a = expect(r, FULANDEWU_FILE_ENDS_INSIDE);
    expect_field(&a, PLACE, r.place);
}

static void expect_needed(struct request r, size_t needed) {
    struct answer a = expect(r, FULANDEWU_OUTPUT_TOO_SHORT);
    expect_field(&a, NEEDED, needed);
}

/* A file from vector to vector, and cut at every length: what stands before a cut vector is still shown. */
static void walks(enum export export, const uint8_t *file, const size_t *places) {
    now_from = "a file of four vectors, whole and cut";
    for (size_t length = 0; length <= places[VECTORS]; length++) {
        for (int v = 0; v < VECTORS; v++) {
            struct request r = read_at(export, file, length, places[v]);
            if (places[v] >= length) expect_end(r);
            else if (places[v + 1] > length) expect_cut(r);
            else {
                struct answer a = expect_vector(r, DIMS_OF[v], places[v + 1]);
                if (export == BVECS_READ) expect_output(&a, FVECS + FVECS_PLACES[v] + 4, 4 * DIMS_OF[v]);
            }
        }
        for (size_t past = 0; past < 3; past++) expect_end(read_at(export, file, length, length + past));
        expect_end(read_at(export, file, length, SIZE_MAX - 3));
        expect_end(read_at(export, file, length, SIZE_MAX));
    }
}

/* Counts at and over the limit, as all of a file, with a byte after them, and at another place than 0. */
static void counts(enum export export) {
    static const uint8_t over[3][9] = {
        {0, 0, 0, 0, 1, 0, 1, 0, 9}, {0, 0, 0, 0, 0, 0, 0, 0x80, 9}, {0, 0, 0, 0, 0xff, 0xff, 0xff, 0xff, 9}};
    static const uint8_t most[] = {0, 0, 1, 0, 9};
    now_from = "counts at and over the limit";
    for (int c = 0; c < 3; c++) {
        expect(read_at(export, over[c] + 4, 4, 0), FULANDEWU_DIMS_OVER_LIMIT);
        expect(read_at(export, over[c] + 4, 5, 0), FULANDEWU_DIMS_OVER_LIMIT);
        expect(read_at(export, over[c], 9, 4), FULANDEWU_DIMS_OVER_LIMIT);
        expect_cut(read_at(export, over[c], 7, 4));
    }
    expect_cut(read_at(export, most, 4, 0));
    expect_cut(read_at(export, most, 5, 0));
    /* a place inside a vector: the pattern of 60 as a count */
    expect(read_at(export, FVECS, sizeof FVECS, 4), FULANDEWU_DIMS_OVER_LIMIT);
}

/* The most elements: all there, and a byte short. */
static void the_most_elements(void) {
    const size_t floats = 4 + MOST_BYTES, bytes = 4 + FULANDEWU_MOST_DIMS;
    now_from = "vectors of the most elements";
    memset(large, 0x3f, sizeof large);
    large[0] = 0, large[1] = 0, large[2] = 1, large[3] = 0;
    expect_vector(read_at(FVECS_READ, large, floats, 0), FULANDEWU_MOST_DIMS, floats);
    expect_vector(read_at(FVECS_READ, large, floats + 1, 0), FULANDEWU_MOST_DIMS, floats);
    expect_cut(read_at(FVECS_READ, large, floats - 1, 0));
    struct request r = read_at(BVECS_READ, large, bytes, 0);
    r.out = MOST_BYTES;
    expect_vector(r, FULANDEWU_MOST_DIMS, bytes);
    r.out = MOST_BYTES - 1;
    expect_needed(r, MOST_BYTES);
    r.bytes[0].length = bytes - 1;
    expect_cut(r);
    struct request append = {.export = FVECS_APPEND, .bytes = {{large + 4, MOST_BYTES}}, .out = floats};
    struct answer a = expect(append, FULANDEWU_ANSWERED);
    expect_field(&a, FILL, floats);
    expect_output(&a, large, floats);
    append.fill = 1;
    expect_needed(append, floats);
}

/* Each byte becomes the f32 of its number; a short buffer is refused last. */
static void bytes_as_floats(void) {
    uint8_t file[4 + 256] = {0, 1, 0, 0};
    float floats[256];
    now_from = "every byte as a float";
    for (int b = 0; b < 256; b++) file[4 + b] = (uint8_t)b, floats[b] = (float)b;
    struct request r = {.export = BVECS_READ, .bytes = {{file, sizeof file}}, .out = sizeof floats + 5};
    struct answer a = expect_vector(r, 256, sizeof file);
    expect_output(&a, (const uint8_t *)floats, sizeof floats);
    r.out = sizeof floats;
    expect_vector(r, 256, sizeof file);
    for (r.out = 0; r.out < 3; r.out++) expect_needed(r, sizeof floats);
    r.out = sizeof floats - 1;
    expect_needed(r, sizeof floats);
    /* the other answers do not look at the buffer */
    r = read_at(BVECS_READ, BVECS, sizeof BVECS, 6);
    r.out = 0;
    expect_vector(r, 0, 10);
    r.place = sizeof BVECS;
    expect_end(r);
    r.bytes[0].length = 5;
    r.place = 0;
    expect_cut(r);
    r.bytes[0] = (struct bytes){FVECS, 8};
    r.place = 4;
    expect(r, FULANDEWU_DIMS_OVER_LIMIT);
}

static struct answer expect_fill(struct request r, size_t fill) {
    struct answer a = expect(r, FULANDEWU_ANSWERED);
    expect_field(&a, FILL, fill);
    return a;
}

/* Appending: with and without type byte, other kinds, and fills at, past and far past the end. */
static void appends(void) {
    static const uint8_t typed[] = {0, 0, 0x70, 0x42, 0, 0, 0xa0, 0x42, FULANDEWU_FLOAT32_DENSE};
    static const uint8_t double_1[] = {0, 0, 0, 0, 0, 0, 0xf0, 0x3f, FULANDEWU_FLOAT64_DENSE};
    static const uint8_t bits[] = {0x03, 0x0e, FULANDEWU_FLOAT1BIT};
    static const uint8_t float8[] = {1, 2, 0, 0, 0, 0, 0x80, 0x3f, 0, 0, 0, 0, 0, 2, FULANDEWU_FLOAT8};
    static const uint8_t sparse[] = {2, 0, 0, 0, FULANDEWU_FLOAT32_SPARSE};
    const struct bytes others[] = {{double_1, 9}, {bits, 3}, {float8, 15}, {sparse, 5}};
    const size_t past[] = {9, 20, 21, 1000, SIZE_MAX - 11, SIZE_MAX};
    struct request r = {.export = FVECS_APPEND, .out = 20};
    now_from = "blobs appended";
    for (int has_type = 0; has_type < 2; has_type++) {
        r.bytes[0] = (struct bytes){typed, 8 + (size_t)has_type};
        for (r.fill = 0; r.fill <= 8; r.fill++) {
            struct answer a = expect_fill(r, r.fill + 12);
            expect_output(&a, FVECS, 12);
        }
        for (int p = 0; p < 6; p++) {
            r.fill = past[p];
            expect_needed(r, 12);
        }
    }
    for (int k = 0; k < 4; k++) {
        r.bytes[0] = others[k];
        for (int p = 0; p < 6; p++) {
            r.fill = past[p];
            expect(r, FULANDEWU_KINDS_DIFFER);
        }
    }
    r = (struct request){.export = FVECS_APPEND, .out = 4};
    struct answer a = expect_fill(r, 4);
    expect_output(&a, FVECS + 12, 4);
    r.out = 0;
    expect_needed(r, 4);
}

/* The bodies of a file appended one by one make the same file. */
static void read_back(void) {
    uint8_t made[sizeof FVECS];
    size_t fill = 0;
    now_from = "a file made anew";
    for (int v = 0; v < VECTORS; v++) {
        struct answer a = expect_vector(read_at(FVECS_READ, FVECS, sizeof FVECS, FVECS_PLACES[v]), DIMS_OF[v],
                                        FVECS_PLACES[v + 1]);
        struct request append = {.export = FVECS_APPEND, .out = sizeof made, .fill = fill};
        append.bytes[0] = (struct bytes){FVECS + a.field[START], a.field[NEXT] - a.field[START]};
        a = expect_fill(append, FVECS_PLACES[v + 1]);
        memcpy(made + fill, a.out.at, a.out.length);
        fill = a.field[FILL];
    }
    if (fill != sizeof made || memcmp(made, FVECS, sizeof made) != 0) fail("another file");
}

void try_files(void) {
    walks(FVECS_READ, FVECS, FVECS_PLACES);
    walks(BVECS_READ, BVECS, BVECS_PLACES);
    counts(FVECS_READ);
    counts(BVECS_READ);
    the_most_elements();
    bytes_as_floats();
    appends();
    read_back();
}
