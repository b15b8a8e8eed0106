/* Guarded calls: see ask.h. */
#include "ask.h"

#include <string.h>

#include "../../include/fulandewu.h"
#include "lent.h"

const char *const EXPORT_NAMES[EXPORTS] = {
    "fulandewu_read", "fulandewu_write", "fulandewu_convert",
    "fulandewu_distance_cos", "fulandewu_distance_l2", "fulandewu_distance_dot", "fulandewu_distance_jaccard",
    "fulandewu_nearer_cos", "fulandewu_nearer_l2", "fulandewu_nearer_dot", "fulandewu_nearer_jaccard",
    "fulandewu_fvecs_read", "fulandewu_bvecs_read", "fulandewu_fvecs_append",
};

unsigned long calls, fields_seen;
unsigned long seen[EXPORTS][REFUSALS];

static const char *const FIELD_NAMES[FIELDS] = {
    "distance", "kind", "dims", "length", "needed", "which", "nearer",
    "entry", "readings", "other_readings", "start", "next", "place", "found", "fill",
    "reserved[0]", "reserved[1]", "reserved[2]", "reserved[3]", "reserved[4]", "reserved[5]", "reserved[6]",
    "reserved[7]", "reserved[8]", "reserved[9]", "reserved[10]", "reserved[11]", "reserved[12]", "reserved[13]",
    "reserved[14]", "reserved[15]", "reserved[16]",
};

/* The places of the fields, which never change. */
#define STANDS_AT(field, place) \
    typedef char field##_stands_at_##place[offsetof(struct fulandewu_answer, field) == 8 * place ? 1 : -1]
STANDS_AT(distance, 0);
STANDS_AT(kind, 1);
STANDS_AT(dims, 2);
STANDS_AT(length, 3);
STANDS_AT(needed, 4);
STANDS_AT(which, 5);
STANDS_AT(nearer, 6);
STANDS_AT(entry, 7);
STANDS_AT(readings, 8);
STANDS_AT(other_readings, 9);
STANDS_AT(start, 10);
STANDS_AT(next, 11);
STANDS_AT(place, 12);
STANDS_AT(found, 13);
STANDS_AT(fill, 14);
STANDS_AT(reserved, 15);

/* The three ways in which everything is lent: against either guarded page, and at an odd address with
 * NULL for what is empty. What is to be written holds another byte each time; 0xff makes a field a NaN. */
static const struct way {
    enum place bytes, answer;
    uint8_t fill;
    int empty_is_null;
} WAYS[3] = {{AT_START, AT_START, 0xa5, 0}, {AT_END, AT_END, 0xff, 0}, {ODD, AT_START, 0x3c, 1}};

struct call {
    const uint8_t *bytes[3];
    uint8_t *scratch, *out;
    struct fulandewu_answer *answer;
};

typedef uint32_t measure(const uint8_t *, size_t, const uint8_t *, size_t, struct fulandewu_answer *);
typedef uint32_t chooser(const uint8_t *, size_t, const uint8_t *, size_t, const uint8_t *, size_t,
                         struct fulandewu_answer *);

static measure *const MEASURES[] = {fulandewu_distance_cos, fulandewu_distance_l2, fulandewu_distance_dot,
                                    fulandewu_distance_jaccard};
static chooser *const CHOOSERS[] = {fulandewu_nearer_cos, fulandewu_nearer_l2, fulandewu_nearer_dot,
                                    fulandewu_nearer_jaccard};

static uint32_t call_export(const struct request *r, const struct call *c) {
    const uint8_t *const *b = c->bytes;
    const struct bytes *l = r->bytes;
    calls++;
    if (r->export == READ) return fulandewu_read(r->mode, b[0], l[0].length, c->answer);
    if (r->export == WRITE)
        return fulandewu_write(r->kind, r->dims, b[0], l[0].length, c->out, r->out, c->answer);
    if (r->export == CONVERT)
        return fulandewu_convert(b[0], l[0].length, r->kind, c->scratch, r->scratch, c->out, r->out, c->answer);
    if (r->export <= DISTANCE_JACCARD)
        return MEASURES[r->export - DISTANCE_COS](b[0], l[0].length, b[1], l[1].length, c->answer);
    if (r->export <= NEARER_JACCARD)
        return CHOOSERS[r->export - NEARER_COS](b[0], l[0].length, b[1], l[1].length, b[2], l[2].length, c->answer);
    if (r->export == FVECS_READ) return fulandewu_fvecs_read(b[0], l[0].length, r->place, c->answer);
    if (r->export == BVECS_READ)
        return fulandewu_bvecs_read(b[0], l[0].length, r->place, c->out, r->out, c->answer);
    return fulandewu_fvecs_append(b[0], l[0].length, c->out, r->out, r->fill, c->answer);
}

/* Whether the place asked for is at or past the end of its file. */
static int at_end(const struct request *r) { return r->place >= r->bytes[0].length; }

/* The fields that an answer writes, as a set. */
static uint32_t answer_fields(const struct request *r) {
    if (r->export == READ) return 1u << KIND | 1u << DIMS | 1u << LENGTH | 1u << READINGS;
    if (r->export == WRITE) return 1u << LENGTH;
    if (r->export == CONVERT) return 1u << DIMS | 1u << LENGTH | 1u << READINGS;
    if (r->export <= DISTANCE_JACCARD) return 1u << DISTANCE | 1u << READINGS | 1u << OTHER_READINGS;
    if (r->export <= NEARER_JACCARD) return 1u << NEARER | 1u << DISTANCE | 1u << READINGS;
    if (r->export == FVECS_APPEND) return 1u << FILL;
    return at_end(r) ? 1u << FOUND : 1u << FOUND | 1u << DIMS | 1u << START | 1u << NEXT;
}

int names_an_entry(uint32_t refusal) {
    return refusal == FULANDEWU_INDEX_NOT_BELOW_DIMS || refusal == FULANDEWU_SPARSE_ORDER;
}

/* The fields that a refusal writes, as a set. */
static uint32_t refusal_fields(enum export export, uint32_t refusal) {
    uint32_t which = export >= DISTANCE_COS && export <= NEARER_JACCARD ? 1u << WHICH : 0;
    if (names_an_entry(refusal)) return which | 1u << ENTRY;
    if (refusal == FULANDEWU_OUTPUT_TOO_SHORT || refusal == FULANDEWU_SCRATCH_TOO_SHORT) return 1u << NEEDED;
    return refusal == FULANDEWU_FILE_ENDS_INSIDE ? 1u << PLACE : which;
}

/* From where up to where an answer writes the output. */
struct span {
    size_t from, to;
};
static struct span output_of(const struct request *r, const struct answer *a) {
    if (a->refusal) return (struct span){0, 0};
    if (r->export == WRITE || r->export == CONVERT) return (struct span){0, a->field[LENGTH]};
    if (r->export == BVECS_READ) return (struct span){0, 4 * a->field[DIMS]};
    if (r->export == FVECS_APPEND) return (struct span){r->fill, a->field[FILL]};
    return (struct span){0, 0};
}

/* How many first bytes of the scratch an answer writes. */
static size_t scratch_of(const struct request *r, const struct answer *a) {
    struct bytes blob = r->bytes[0];
    int sparse = blob.length % 2 == 1 && blob.at[blob.length - 1] == FULANDEWU_FLOAT32_SPARSE;
    int packed = r->kind == FULANDEWU_FLOAT1BIT || r->kind == FULANDEWU_FLOAT8;
    return r->export == CONVERT && !a->refusal && sparse && packed ? 4 * a->field[DIMS] : 0;
}

static struct call lend_all(const struct request *r, const struct way *way) {
    struct call c;
    for (int i = 0; i < 3; i++) {
        c.bytes[i] = lend_bytes((enum room)(BYTES_1 + i), way->bytes, r->bytes[i].at, r->bytes[i].length);
        if (way->empty_is_null && r->bytes[i].length == 0) c.bytes[i] = NULL;
    }
    c.scratch = lend_buffer(SCRATCH, way->bytes, r->scratch, way->fill);
    c.out = lend_buffer(OUTPUT, way->bytes, r->out, way->fill);
    if (way->empty_is_null && r->scratch == 0) c.scratch = NULL;
    if (way->empty_is_null && r->out == 0) c.out = NULL;
    c.answer = (struct fulandewu_answer *)(void *)lend_buffer(ANSWER, way->answer, sizeof *c.answer, way->fill);
    return c;
}

/* Looks at every field: one that is to be written holds another value than before, and every other one
 * all of its bits. */
static void look_at_fields(struct answer *a, const struct call *c, uint32_t written, uint8_t fill) {
    uint64_t before, now[FIELDS];
    memset(&before, fill, sizeof before);
    memcpy(now, c->answer, sizeof now);
    for (int f = 0; f < FIELDS; f++) {
        int is_written = written >> f & 1;
        if (is_written && now[f] == before) fail("%s is not written", FIELD_NAMES[f]);
        if (!is_written && now[f] != before) fail("%s is written", FIELD_NAMES[f]);
        a->field[f] = is_written ? now[f] : 0;
        fields_seen++;
    }
}

static struct answer ask_one_way(const struct request *r, const struct way *way, uint8_t *kept) {
    struct answer a;
    struct call c = lend_all(r, way);
    memset(&a, 0, sizeof a);
    a.refusal = call_export(r, &c);
    if (a.refusal >= REFUSALS) fail("the result is %lu, no refusal's number", (unsigned long)a.refusal);
    look_at_fields(&a, &c, a.refusal ? refusal_fields(r->export, a.refusal) : answer_fields(r), way->fill);
    struct span written = output_of(r, &a);
    untouched_but(OUTPUT, written.from, written.to);
    a.out.length = written.to - written.from;
    a.scratch.length = scratch_of(r, &a);
    untouched_but(SCRATCH, 0, a.scratch.length);
    a.out.at = kept;
    a.scratch.at = kept + a.out.length;
    if (a.out.length) memcpy(kept, c.out + written.from, a.out.length);
    if (a.scratch.length) memcpy(kept + a.out.length, c.scratch, a.scratch.length);
    take_back();
    return a;
}

static int equal(struct bytes a, struct bytes b) {
    return a.length == b.length && (a.length == 0 || memcmp(a.at, b.at, a.length) == 0);
}

struct answer ask(struct request request) {
    static uint8_t kept[2][1200000];
    struct answer first;
    now_calling = EXPORT_NAMES[request.export];
    first = ask_one_way(&request, &WAYS[0], kept[0]);
    for (int way = 1; way < 3; way++) {
        struct answer again = ask_one_way(&request, &WAYS[way], kept[1]);
        if (again.refusal != first.refusal) fail("another result at another place");
        if (memcmp(again.field, first.field, sizeof first.field) != 0) fail("other fields at another place");
        if (!equal(again.out, first.out) || !equal(again.scratch, first.scratch))
            fail("other bytes at another place");
    }
    seen[request.export][first.refusal]++;
    return first;
}

struct answer expect(struct request request, uint32_t refusal) {
    struct answer a = ask(request);
    if (a.refusal != refusal) fail("the result is %u and not %u", (unsigned)a.refusal, (unsigned)refusal);
    return a;
}

void expect_field(const struct answer *a, enum field field, uint64_t value) {
    if (a->field[field] != value)
        fail("%s is %llx and not %llx", FIELD_NAMES[field], (unsigned long long)a->field[field],
             (unsigned long long)value);
}

void expect_output(const struct answer *a, const uint8_t *bytes, size_t length) {
    if (!equal(a->out, (struct bytes){bytes, length})) fail("other bytes are written");
}
