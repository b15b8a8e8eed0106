/* Fulandewu: vector blobs read, written, converted, measured and compared, and files of vectors read and
 * filled, each by a proved function.
 *
 * Link with libfulandewu.a. There is one for 64-bit Linux on x86-64 (`embed/build x86-64` makes it) and one on
 * aarch64 (`embed/build aarch64`):
 *
 *     cc -I include program.c target/staticlib/libfulandewu.a
 *     cc -I include program.c target/aarch64/libfulandewu.a
 *
 * What every function keeps to:
 *
 * - The result is 0 for an answer, else the number of a refusal (below). No call ends the program,
 *   allocates, keeps a pointer or has a state: calls may run side by side on buffers of their own.
 * - Values are handed out in one struct that the caller lends, `struct fulandewu_answer`. A call writes
 *   the fields that its answer or its refusal has, as its function says, and leaves every bit of the
 *   others: look at the result first. No refusal changes a byte of `out` or `scratch`.
 * - A blob, body, file or buffer is a pointer and a length in bytes. Bytes need no alignment; the answer needs
 *   that of its type. Where the length is 0 nothing is read or written through the pointer, and it may
 *   be NULL. `answer` may never be NULL.
 *
 * What every caller keeps to. Else nothing is promised, and memory may be corrupted:
 *
 * - A length is that of real memory: all of these bytes may be read or, of `out` and `scratch`, written.
 * - Nothing that is lent changes until the call returns, by a thread, a signal handler or a device:
 *   indices are tested, and then used.
 * - What is written (`out`, `scratch`, `answer`) overlaps nothing else that the same call is lent. What
 *   is only read (blobs, a body, a file) may overlap or be the same.
 * - The floating-point environment is the default one: rounding to nearest, subnormals kept, exceptions
 *   masked. A program that is linked with -ffast-math, or loads a library that is, may not have it: the
 *   start-up code then flushes subnormals to zero.
 *
 * What is only written (`out`, `scratch`, `answer`) may be uninitialised.
 *
 * Three mistakes that lose sessions:
 *
 * - An absent reading is not a reading of 0: a sparse vector without entries has cosine NaN; made dense
 *   it is a vector of zeros, and the difference is gone. And after a refusal there is no distance,
 *   whatever the field holds.
 * - Distance zero is not likeness: cosine is 0.0 for two vectors of zeros, and for vectors that only
 *   point the same way. NaN is an answer too, always the pattern 7ff8000000000000, and says that there
 *   is no likeness to measure: test `x != x` before comparing, since every comparison with it is false.
 * - A blob's length is not its dims: ask fulandewu_read. Nor are dims readings: a sparse vector of dims 360
 *   may hold four. `readings` counts them; made dense it is 360, and nothing tells which four were read.
 */
#ifndef FULANDEWU_H
#define FULANDEWU_H

#include <stddef.h>
#include <stdint.h>

#ifdef __cplusplus
extern "C" {
#endif

/* The kinds, by the type byte that ends a blob. A blob of even length has none: Float32Dense. */
enum fulandewu_kind {
    FULANDEWU_FLOAT32_DENSE = 1,
    FULANDEWU_FLOAT64_DENSE = 2,
    FULANDEWU_FLOAT1BIT = 3,
    FULANDEWU_FLOAT8 = 4,
    FULANDEWU_FLOAT32_SPARSE = 9
};

/* How a blob is read. Strict asks besides that each sparse index is above the one before it and
 * that unused bits are zero.
 * Conversions, distances, nearer of two and fulandewu_fvecs_append read plainly. */
enum fulandewu_mode {
    FULANDEWU_PLAIN = 0,
    FULANDEWU_STRICT = 1
};

/* Refusals, each given exactly when its line says. L is a blob's length, n = L - 1, and t the byte
 * before the last. Of several the first in the order of the function's own list is given. */
enum fulandewu_refusal {
    FULANDEWU_ANSWERED = 0,
    FULANDEWU_LENGTH_OVER_LIMIT = 1,        /* L, read or to be written, over 524,293 */
    FULANDEWU_TYPE_BYTE_5_OR_6 = 2,         /* type byte 5 or 6 */
    FULANDEWU_TYPE_BYTE_UNKNOWN = 3,        /* any other type byte that names no kind */
    FULANDEWU_NO_TRAILING_COUNT = 4,        /* 1-bit or Float8 and n = 0 */
    FULANDEWU_TRAILING_COUNT_TOO_LARGE = 5, /* 1-bit and t > 8n; Float8 and t > n - 10, or n < 10 */
    FULANDEWU_TRAILING_BITS_TOO_FEW = 6,    /* 1-bit and ceil((8n - t) / 8) >= n */
    FULANDEWU_BODY_LENGTH_UNFIT = 7,        /* body length unfit for kind and dims; read: or dims 0 in
                                               1-bit or Float8 */
    FULANDEWU_INDEX_NOT_BELOW_DIMS = 8,     /* a sparse index not below dims */
    FULANDEWU_DIMS_OVER_LIMIT = 9,          /* dims over 65,536 */
    FULANDEWU_SPARSE_ORDER = 10,            /* strict: a sparse index not above the one before it */
    FULANDEWU_UNUSED_BIT_SET = 11,          /* strict: an unused bit of the last 1-bit byte is set */
    FULANDEWU_DIMS_DIFFER = 12,             /* the two vectors' dims differ */
    FULANDEWU_KINDS_DIFFER = 13,            /* the two vectors' kinds differ; append: the blob is not
                                               Float32Dense */
    FULANDEWU_L2_OF_FLOAT1BIT = 14,         /* L2 of 1-bit vectors */
    FULANDEWU_OUTPUT_TOO_SHORT = 15,        /* output buffer shorter than needed */
    FULANDEWU_WRITER_DIMS_0 = 16,           /* writer: dims 0 in 1-bit or Float8 */
    FULANDEWU_SCRATCH_TOO_SHORT = 17,       /* scratch shorter than needed */
    FULANDEWU_BOTH_DISTANCES_NAN = 18,      /* nearer of two: both distances NaN */
    FULANDEWU_FILE_ENDS_INSIDE = 19         /* a file of vectors ends inside one, its count included */
};

/* Which blob a refusal is about, and which candidate is the nearer. */
enum fulandewu_which {
    FULANDEWU_NEITHER = 0,
    FULANDEWU_FIRST = 1,
    FULANDEWU_SECOND = 2,
    FULANDEWU_PROBE = 3
};

/* The longest blob, and the most dims, which are also the most readings. */
#define FULANDEWU_LONGEST 524293
#define FULANDEWU_MOST_DIMS 65536

/* What the functions hand out: 32 fields of 8 bytes, whose order and number never change. Those that no
 * function below names are for later ones; today none is written. */
struct fulandewu_answer {
    double distance; /* NaN is always the pattern 7ff8000000000000 */
    uint64_t kind;   /* an enum fulandewu_kind */
    uint64_t dims;   /* the number of elements */
    uint64_t length; /* of a body, or of a blob that is written, in bytes */
    uint64_t needed; /* how long a buffer has to be that is too short, in bytes; append: after the fill */
    uint64_t which;  /* an enum fulandewu_which: the blob that a refusal is about */
    uint64_t nearer; /* FULANDEWU_FIRST or FULANDEWU_SECOND: the nearer candidate */
    uint64_t entry;  /* of a sparse vector, counted from 0: the first whose index is not below dims (refusal 8)
                        or not above the one before it (refusal 10) */
    uint64_t readings;       /* how many there are: the stored entries of a sparse vector, repeats and zeros
                                among them, so there may be more than dims; dims of every other kind */
    uint64_t other_readings; /* of a distance: those of the second blob */
    uint64_t start; /* of a vector in a file: where its elements start */
    uint64_t next;  /* of a vector in a file: where its elements end and the next vector starts */
    uint64_t place; /* where the vector starts inside which a file ends */
    uint64_t found; /* 1 for a vector in a file, 0 at the end of the file */
    uint64_t fill;  /* up to where a buffer is filled with vectors, in bytes */
    uint64_t reserved[17];
};

/* Where this does not compile, no archive is for the target: they are for 64-bit Linux on x86-64 and aarch64. */
typedef char fulandewu_answer_has_256_bytes[sizeof(struct fulandewu_answer) == 256 ? 1 : -1];
typedef char fulandewu_lengths_have_8_bytes[sizeof(size_t) == 8 ? 1 : -1];

/* Reads a blob in a mode, an enum fulandewu_mode. No refusal is about the mode: a byte that names none
 * reads strictly, so a wrong one never accepts more than a right one. No byte is copied: the body is the
 * first `length` bytes of the caller's own blob. A sparse body is its values (f32) in the first half and
 * its indices (u32) in the second; numbers are little-endian. Both modes show the same of a blob that
 * both accept.
 * An answer writes `kind`, `dims`, `length` and `readings`, refusals 8 and 10 `entry`, another refusal
 * nothing.
 * Refusals: plain 1 to 9, strict 1 to 11, in that order. */
uint32_t fulandewu_read(uint8_t mode, const uint8_t *blob, size_t blob_length, struct fulandewu_answer *answer);

/* Writes the blob of a kind, dims and body (a sparse body: values, then indices, without dims) to the
 * first `length` bytes of `out`, and changes no byte past them. It reads back plainly as the same kind,
 * dims and body. `out` may have length 0, to ask how long it has to be.
 * An answer writes `length`, refusal 8 `entry`, refusal 15 `needed`, another refusal nothing.
 * Refusals: 2 or 3 where `kind` names no kind, then 9, 7, 1, 8, 16, 15, in that order. */
uint32_t fulandewu_write(uint8_t kind, size_t dims, const uint8_t *body, size_t body_length,
                         uint8_t *out, size_t out_length, struct fulandewu_answer *answer);

/* Converts a blob to another kind, or the same: the new body (not a blob: fulandewu_write makes one of
 * it) goes to the first `length` bytes of `out`, and no byte past them changes. `scratch` is used only
 * from sparse to 1-bit or Float8: 4 * dims bytes, where the dense body is left; else it may have
 * length 0.
 * An answer writes `dims`, `length` and `readings`, which are the new vector's: a zero that is dropped on the
 * way to sparse lowers the count, sparse made another kind has dims of them, and the same kind keeps its count.
 * Refusal 8 writes `entry`, refusals 17 (of `scratch`) and 15 (of `out`) `needed`, another refusal nothing.
 * Refusals: 2 or 3 where `kind` names no kind, then the reader's 1 to 9, then 17, 15. */
uint32_t fulandewu_convert(const uint8_t *blob, size_t blob_length, uint8_t kind,
                           uint8_t *scratch, size_t scratch_length, uint8_t *out, size_t out_length,
                           struct fulandewu_answer *answer);

/* The distance of two blobs. Dot is the negated dot product; cosine of 1-bit vectors is the count of
 * differing bits.
 * An answer writes `distance`, which may be NaN, `readings` of the first blob and `other_readings` of the
 * second; a refusal writes `which`: FULANDEWU_FIRST or FULANDEWU_SECOND, from 12 on FULANDEWU_NEITHER;
 * refusal 8 writes `entry` too.
 * Refusals: the reader's 1 to 9 of the first blob, then of the second; 12, 13; L2 of 1-bit vectors:
 * 14. */
uint32_t fulandewu_distance_cos(const uint8_t *first, size_t first_length,
                                const uint8_t *second, size_t second_length,
                                struct fulandewu_answer *answer);
uint32_t fulandewu_distance_l2(const uint8_t *first, size_t first_length,
                               const uint8_t *second, size_t second_length,
                               struct fulandewu_answer *answer);
uint32_t fulandewu_distance_dot(const uint8_t *first, size_t first_length,
                                const uint8_t *second, size_t second_length,
                                struct fulandewu_answer *answer);
uint32_t fulandewu_distance_jaccard(const uint8_t *first, size_t first_length,
                                    const uint8_t *second, size_t second_length,
                                    struct fulandewu_answer *answer);

/* The nearer of two candidates to a probe, which is the first vector of each pair. A tie (0.0 against
 * -0.0 too) gives the first, and NaN loses to all else.
 * An answer writes `nearer`, `distance`, which is never NaN, and `readings` of the nearer candidate, not of
 * the probe; a refusal writes `which`: FULANDEWU_PROBE, FULANDEWU_FIRST or FULANDEWU_SECOND, from 12 on
 * FULANDEWU_NEITHER; refusal 8 writes `entry` too.
 * Refusals: the reader's 1 to 9 of the probe, the first and the second; 12, 13 of the first pair, then
 * of the second; 14; 18. */
uint32_t fulandewu_nearer_cos(const uint8_t *probe, size_t probe_length,
                              const uint8_t *first, size_t first_length,
                              const uint8_t *second, size_t second_length,
                              struct fulandewu_answer *answer);
uint32_t fulandewu_nearer_l2(const uint8_t *probe, size_t probe_length,
                             const uint8_t *first, size_t first_length,
                             const uint8_t *second, size_t second_length,
                             struct fulandewu_answer *answer);
uint32_t fulandewu_nearer_dot(const uint8_t *probe, size_t probe_length,
                              const uint8_t *first, size_t first_length,
                              const uint8_t *second, size_t second_length,
                              struct fulandewu_answer *answer);
uint32_t fulandewu_nearer_jaccard(const uint8_t *probe, size_t probe_length,
                                  const uint8_t *first, size_t first_length,
                                  const uint8_t *second, size_t second_length,
                                  struct fulandewu_answer *answer);

/* Files of vectors: each vector is its count, 4 bytes, and then as many elements: f32 in an fvecs file,
 * bytes in a bvecs file. Numbers are little-endian, and a count is unsigned. A file may be of any length.
 * To walk a file start at `place` 0 and go on at each `next`, until `found` is 0 or a call is refused.
 * Nothing is kept between calls: what is shown of a vector does not depend on what follows it. A place
 * inside a vector is taken as given: its bytes are read as a count.
 *
 * Shows the vector at a place of an fvecs file. No byte is copied: its elements, a Float32Dense body, are
 * the bytes of the caller's own file from `start` up to `next`.
 * A vector writes `found` (1), `dims`, `start` and `next`. At or past the end of the file there is none,
 * which is no refusal: the result is 0, and only `found` (0) is written. Refusal 19 writes `place`, which
 * is the place asked for, another refusal nothing.
 * Refusals: 19 where fewer than 4 bytes are left, then 9, then 19 where the elements are cut. */
uint32_t fulandewu_fvecs_read(const uint8_t *file, size_t file_length, size_t place,
                              struct fulandewu_answer *answer);

/* Shows the vector at a place of a bvecs file, and puts each of its bytes as the f32 of that number, a
 * Float32Dense body, to the first 4 * `dims` bytes of `out`; no byte past them changes, and none at the end
 * of the file. The bytes themselves are those of the file from `start` up to `next`.
 * A vector, the end and refusal 19 write what they write above; refusal 15 writes `needed`.
 * Refusals: those above in their order, then 15. */
uint32_t fulandewu_bvecs_read(const uint8_t *file, size_t file_length, size_t place,
                              uint8_t *out, size_t out_length, struct fulandewu_answer *answer);

/* Appends a Float32Dense blob, with or without type byte, as a vector to an fvecs file in `out`: its count
 * and its body go to the bytes from `fill` on, 4 + 4 * dims of them, bit for bit, and no other byte
 * changes. Start with `fill` 0 and go on with each `fill` that is answered: the first so many bytes of
 * `out` are then a file that shows the bodies in order. A `fill` past the end of `out` counts as no room.
 * An answer writes `fill`, the new one. Refusal 15 writes `needed`: how many bytes there have to be after
 * the fill, not how long `out` has to be. Refusal 8 writes `entry`, another refusal nothing.
 * Refusals: the reader's 1 to 9, then 13, 15. */
uint32_t fulandewu_fvecs_append(const uint8_t *blob, size_t blob_length, uint8_t *out, size_t out_length,
                                size_t fill, struct fulandewu_answer *answer);

#ifdef __cplusplus
}
#endif

#endif
