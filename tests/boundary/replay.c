/* Replays: see replay.h. A line is put to an export, its answer is spelled as the program spells it,
 * and the two spellings are compared. */
#include "replay.h"

#include <stdio.h>
#include <stdlib.h>
#include <string.h>

#include "../../include/fulandewu.h"
#include "ask.h"
#include "lent.h"

enum { PARTS = 6, LONGEST_REPLY = 2200000 };

/* A text of a known length: a line may have any byte in it. */
struct text {
    const char *at;
    size_t length;
};

static char reply[LONGEST_REPLY];
static size_t replied;

static struct text contents(const char *folder, const char *name) {
    char path[4096];
    snprintf(path, sizeof path, "%s/%s", folder, name);
    FILE *file = fopen(path, "rb");
    if (file == NULL || fseek(file, 0, SEEK_END) != 0) fail("cannot read %s", path);
    size_t length = (size_t)ftell(file);
    char *at = malloc(length + 1);
    rewind(file);
    if (at == NULL || fread(at, 1, length, file) != length) fail("cannot read %s", path);
    fclose(file);
    return (struct text){at, length};
}

/* Cuts a text up to a byte, which goes too, off the front of another. */
static struct text cut(struct text *from, char end) {
    const char *found = memchr(from->at, end, from->length);
    struct text front = {from->at, found ? (size_t)(found - from->at) : from->length};
    size_t gone = front.length + (found ? 1 : 0);
    from->at += gone;
    from->length -= gone;
    return front;
}

static int is(struct text text, const char *word) {
    return text.length == strlen(word) && memcmp(text.at, word, text.length) == 0;
}

static unsigned nibble(char digit) {
    const char *digits = "0123456789abcdef", *found = digit ? strchr(digits, digit) : NULL;
    if (found == NULL) fail("no lower-case hexadecimal, but an answer is stored");
    return (unsigned)(found - digits);
}

static struct bytes unhex(struct text text, uint8_t *room) {
    if (text.length % 2) fail("half a byte, but an answer is stored");
    for (size_t i = 0; i < text.length / 2; i++)
        room[i] = (uint8_t)(nibble(text.at[2 * i]) * 16 + nibble(text.at[2 * i + 1]));
    return (struct bytes){room, text.length / 2};
}

static uint64_t decimal(struct text text) {
    uint64_t value = 0;
    for (size_t i = 0; i < text.length; i++) value = value * 10 + nibble(text.at[i]);
    return value;
}

static void answer_text(const char *text) {
    size_t length = strlen(text);
    if (replied + length > LONGEST_REPLY) fail("too long an answer");
    memcpy(reply + replied, text, length);
    replied += length;
}

static void answer_hex(struct bytes bytes) {
    const char *digits = "0123456789abcdef";
    if (replied + 2 * bytes.length > LONGEST_REPLY) fail("too long an answer");
    for (size_t i = 0; i < bytes.length; i++) {
        reply[replied++] = digits[bytes.at[i] / 16];
        reply[replied++] = digits[bytes.at[i] % 16];
    }
}

static void answer_further(uint64_t number) {
    char text[32];
    snprintf(text, sizeof text, "\t%llu", (unsigned long long)number);
    answer_text(text);
}

/* A vector of a kind and a body, with its dims and its readings. */
static void answer_view(char letter, uint64_t kind, const struct answer *a, struct bytes body) {
    char text[64];
    snprintf(text, sizeof text, "%c\t%llu\t%llu\t", letter, (unsigned long long)kind,
             (unsigned long long)a->field[DIMS]);
    answer_text(text);
    answer_hex(body);
    answer_further(a->field[READINGS]);
}

/* A refusal, the blob that it is about where there are several, and what it carries. */
static void answer_refusal(const struct answer *a, const char *which) {
    char text[32];
    if (a->field[WHICH] > FULANDEWU_PROBE) fail("which is no blob");
    snprintf(text, sizeof text, which ? "R\t%u\t%c" : "R\t%u", (unsigned)a->refusal,
             which ? which[a->field[WHICH]] : 0);
    answer_text(text);
    if (names_an_entry(a->refusal)) answer_further(a->field[ENTRY]);
    if (a->refusal == FULANDEWU_OUTPUT_TOO_SHORT) answer_further(a->field[NEEDED]);
    if (a->refusal == FULANDEWU_FILE_ENDS_INSIDE) answer_further(a->field[PLACE]);
}

static void replay_read(enum fulandewu_mode mode, struct text *part) {
    static uint8_t blob[600000];
    struct request r = {.export = READ, .mode = (uint8_t)mode, .bytes = {unhex(part[1], blob)}};
    struct answer a = ask(r);
    if (a.refusal) {
        answer_refusal(&a, NULL);
        return;
    }
    if (a.field[LENGTH] > r.bytes[0].length) fail("a body longer than its blob");
    answer_view('V', a.field[KIND], &a, (struct bytes){blob, a.field[LENGTH]});
}

/* Asks with empty buffers, then with each as long as was said to be needed: one byte less than that is
 * refused with the same need, and a few more change nothing. */
static struct answer ask_for_room(struct request *r) {
    struct answer a = ask(*r);
    while (a.refusal == FULANDEWU_OUTPUT_TOO_SHORT || a.refusal == FULANDEWU_SCRATCH_TOO_SHORT) {
        size_t *room = a.refusal == FULANDEWU_OUTPUT_TOO_SHORT ? &r->out : &r->scratch;
        if (a.field[NEEDED] <= *room) fail("what is needed was there");
        *room = a.field[NEEDED] - 1;
        struct answer less = ask(*r);
        if (less.refusal != a.refusal || less.field[NEEDED] != a.field[NEEDED]) fail("needed, but not always");
        *room = a.field[NEEDED];
        a = ask(*r);
    }
    if (a.refusal) return a;
    r->out += 5;
    r->scratch += 3;
    return ask(*r);
}

static void replay_write(struct text *part) {
    static uint8_t body[600000];
    struct request r = {.export = WRITE, .kind = (uint8_t)decimal(part[1]), .dims = decimal(part[2])};
    r.bytes[0] = unhex(part[3], body);
    struct answer a = ask_for_room(&r);
    if (a.refusal) {
        answer_refusal(&a, NULL);
        return;
    }
    answer_text("W\t");
    answer_hex(a.out);
}

/* The scratch of a conversion holds the dense body. */
static void check_scratch(struct request r, struct bytes left) {
    static uint8_t kept[300000];
    memcpy(kept, left.at, left.length);
    r.kind = FULANDEWU_FLOAT32_DENSE;
    r.scratch = 0;
    r.out = left.length;
    struct answer dense = ask(r);
    if (dense.refusal || dense.out.length != left.length) fail("scratch is not the length of the dense body");
    if (memcmp(dense.out.at, kept, left.length) != 0) fail("scratch is not the dense body");
}

static void replay_convert(struct text *part) {
    static uint8_t blob[600000];
    struct request r = {.export = CONVERT, .kind = (uint8_t)decimal(part[1])};
    r.bytes[0] = unhex(part[2], blob);
    struct answer a = ask_for_room(&r);
    if (a.refusal) {
        answer_refusal(&a, NULL);
        return;
    }
    answer_view('C', r.kind, &a, a.out);
    if (a.scratch.length) check_scratch(r, a.scratch);
}

static int distance_of(struct text name) {
    static const char *const names[] = {"cos", "l2", "dot", "jac"};
    for (int d = 0; d < 4; d++)
        if (is(name, names[d])) return d;
    return -1;
}

static void answer_distance(const struct answer *a) {
    char text[32];
    snprintf(text, sizeof text, "%016llx", (unsigned long long)a->field[DISTANCE]);
    answer_text(text);
}

/* The counts of a distance, which no reply has, are those that the reader gives of its blobs. */
static void check_readings(const struct request *r, const struct answer *a) {
    uint64_t readings[2];
    for (int i = 0; i < 2; i++) {
        struct request read = {.export = READ, .mode = FULANDEWU_PLAIN, .bytes = {r->bytes[i]}};
        readings[i] = expect(read, FULANDEWU_ANSWERED).field[READINGS];
    }
    now_calling = EXPORT_NAMES[r->export];
    expect_field(a, READINGS, readings[0]);
    expect_field(a, OTHER_READINGS, readings[1]);
}

static void replay_distance(struct text *part) {
    static uint8_t blobs[2][600000];
    struct request r = {.export = (enum export)(DISTANCE_COS + distance_of(part[0]))};
    for (int i = 0; i < 2; i++) r.bytes[i] = unhex(part[1 + i], blobs[i]);
    struct answer a = ask(r);
    if (a.refusal) {
        answer_refusal(&a, "-ab?");
        return;
    }
    answer_text("D\t");
    answer_distance(&a);
    check_readings(&r, &a);
}

static void replay_nearer(struct text *part) {
    static uint8_t blobs[3][600000];
    int distance = distance_of(part[1]);
    if (distance < 0) fail("no distance, but an answer is stored");
    struct request r = {.export = (enum export)(NEARER_COS + distance)};
    for (int i = 0; i < 3; i++) r.bytes[i] = unhex(part[2 + i], blobs[i]);
    struct answer a = ask(r);
    if (a.refusal) {
        answer_refusal(&a, "-abp");
        return;
    }
    if (a.field[NEARER] != FULANDEWU_FIRST && a.field[NEARER] != FULANDEWU_SECOND) fail("nearer is no candidate");
    answer_text(a.field[NEARER] == FULANDEWU_FIRST ? "N\t1\t" : "N\t2\t");
    answer_distance(&a);
    answer_further(a.field[READINGS]);
}

static void replay_vector(enum export export, struct text *part) {
    static uint8_t file[600000];
    char text[64];
    struct request r = {.export = export, .bytes = {unhex(part[2], file)}, .place = decimal(part[1])};
    struct answer a = ask_for_room(&r);
    if (a.refusal) {
        answer_refusal(&a, NULL);
        return;
    }
    if (a.field[FOUND] == 0) {
        answer_text("E");
        return;
    }
    if (a.field[START] > a.field[NEXT] || a.field[NEXT] > r.bytes[0].length) fail("a vector outside its file");
    snprintf(text, sizeof text, "I\t%llu\t%llu\t", (unsigned long long)a.field[NEXT],
             (unsigned long long)a.field[DIMS]);
    answer_text(text);
    answer_hex(export == BVECS_READ
                   ? a.out
                   : (struct bytes){file + a.field[START], a.field[NEXT] - a.field[START]});
}

/* The buffer of the line with the bytes that are written; the others are seen to stay as they are lent. */
static void replay_append(struct text *part) {
    static uint8_t buffer[600000], blob[600000];
    char text[32];
    struct bytes before = unhex(part[2], buffer);
    struct request r = {.export = FVECS_APPEND, .bytes = {unhex(part[3], blob)}, .out = before.length};
    r.fill = decimal(part[1]);
    struct answer a = ask(r);
    if (a.refusal) {
        answer_refusal(&a, NULL);
        return;
    }
    memcpy(buffer + r.fill, a.out.at, a.out.length);
    snprintf(text, sizeof text, "A\t%llu\t", (unsigned long long)a.field[FILL]);
    answer_text(text);
    answer_hex(before);
}

/* Puts a line to its export; false for one about rounding. */
static int replay_line(struct text line) {
    struct text part[PARTS];
    for (int f = 0; f < PARTS; f++) part[f] = cut(&line, '\t');
    replied = 0;
    if (is(part[0], "read")) replay_read(FULANDEWU_PLAIN, part);
    else if (is(part[0], "strict")) replay_read(FULANDEWU_STRICT, part);
    else if (is(part[0], "write")) replay_write(part);
    else if (is(part[0], "conv")) replay_convert(part);
    else if (is(part[0], "near")) replay_nearer(part);
    else if (is(part[0], "fvecs")) replay_vector(FVECS_READ, part);
    else if (is(part[0], "bvecs")) replay_vector(BVECS_READ, part);
    else if (is(part[0], "append")) replay_append(part);
    else if (distance_of(part[0]) >= 0) replay_distance(part);
    else return 0;
    return 1;
}

struct replayed replay(const char *folder) {
    struct replayed counts = {0, 0, 0};
    struct text asked = contents(folder, "stdin"), stored = contents(folder, "stdout");
    char from[64];
    snprintf(from, sizeof from, "%.60s", folder);
    now_from = from;
    for (unsigned long number = 1; asked.length > 0; number++) {
        struct text line = cut(&asked, '\n'), answer = cut(&stored, '\n');
        snprintf(from, sizeof from, "line %lu of %.40s", number, folder);
        if (decimal(cut(&answer, '\t')) != number) fail("the stored answer has another number");
        if (is(answer, "X")) counts.shapeless++;
        else if (!replay_line(line)) counts.rounding++;
        else if (answer.length != replied || memcmp(answer.at, reply, replied) != 0)
            fail("answered '%.*s', stored '%.*s'", (int)replied, reply, (int)answer.length, answer.at);
        else counts.lines++;
    }
    if (stored.length > 0) fail("more answers than lines");
    if (counts.lines == 0) fail("no line was replayed");
    now_from = "no input";
    return counts;
}
