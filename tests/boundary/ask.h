/* An export called on guarded buffers, at three places, with all that holds of every call checked. */
#ifndef ASK_H
#define ASK_H

#include <stddef.h>
#include <stdint.h>

enum export {
    READ, WRITE, CONVERT,
    DISTANCE_COS, DISTANCE_L2, DISTANCE_DOT, DISTANCE_JACCARD,
    NEARER_COS, NEARER_L2, NEARER_DOT, NEARER_JACCARD,
    FVECS_READ, BVECS_READ, FVECS_APPEND,
    EXPORTS
};

extern const char *const EXPORT_NAMES[EXPORTS];

/* The fields of `struct fulandewu_answer` by their places; the others are never written. */
enum field {
    DISTANCE, KIND, DIMS, LENGTH, NEEDED, WHICH, NEARER, ENTRY,
    READINGS, OTHER_READINGS, START, NEXT, PLACE, FOUND, FILL,
    FIELDS = 32
};

struct bytes {
    const uint8_t *at;
    size_t length;
};

/* What is asked. The blobs, the body or the file are those of the export's signature, in its order; of
 * the others an export takes what its signature has. */
struct request {
    enum export export;
    struct bytes bytes[3];
    uint8_t mode, kind;
    size_t dims, scratch, out, place, fill;
};

/* What is answered: a refusal or 0, the fields that were written (a double by its pattern, 0 for one
 * that was not), and the bytes of out and scratch that it is about, good until the next call. */
struct answer {
    uint32_t refusal;
    uint64_t field[FIELDS];
    struct bytes out, scratch;
};

struct answer ask(struct request request);

/* The same; fails unless the result is this one. */
struct answer expect(struct request request, uint32_t refusal);

/* Whether a refusal names an entry of a sparse vector. */
int names_an_entry(uint32_t refusal);

/* Fails unless a field has this value. */
void expect_field(const struct answer *a, enum field field, uint64_t value);

/* Fails unless these bytes, and no others, are written to out. */
void expect_output(const struct answer *a, const uint8_t *bytes, size_t length);

enum { REFUSALS = 20 };

/* How often exports were called, how many fields were looked at, and how many requests were answered how. */
extern unsigned long calls, fields_seen;
extern unsigned long seen[EXPORTS][REFUSALS];

#endif
