/* Guarded buffers: see lent.h. */
#define _GNU_SOURCE
#include "lent.h"

#include <signal.h>
#include <stdarg.h>
#include <stdio.h>
#include <stdlib.h>
#include <string.h>
#include <sys/mman.h>
#include <unistd.h>

#define PAGE 65536u /* the largest page of any machine that this runs on */
#define LARGE (9 * PAGE) /* more than the longest blob, and than the longest body tried */
#define CANARIES 64u

struct lent {
    uint8_t *start; /* of the room */
    size_t size;    /* of the room */
    uint8_t *at;    /* the buffer, or NULL if none is lent */
    size_t length;
    uint8_t fill, canary;
    int guarded; /* its pages may not be written */
};

static struct lent rooms[ROOMS];

const char *now_calling = "no call";
const char *now_from = "no input";

void fail(const char *format, ...) {
    va_list arguments;
    fflush(stdout);
    fprintf(stderr, "boundary: %s, %s: ", now_calling, now_from);
    va_start(arguments, format);
    vfprintf(stderr, format, arguments);
    va_end(arguments);
    fputc('\n', stderr);
    exit(1);
}

static void say(const char *text) {
    ssize_t ignored = write(2, text, strlen(text));
    (void)ignored;
}

/* A touched page: no stream may be used here. */
static void fault(int signal) {
    (void)signal;
    say("boundary: ");
    say(now_calling);
    say(", ");
    say(now_from);
    say(": a byte outside the lent buffers was touched, or a blob written\n");
    _exit(1);
}

static void protect(uint8_t *start, size_t size, int how) {
    if (mprotect(start, size, how) != 0) fail("mprotect failed");
}

/* What may be done to the pages that a buffer stands on. */
static void allow(struct lent *room, int how) {
    uint8_t *from = room->at - (uintptr_t)room->at % PAGE;
    size_t covered = (size_t)(room->at - from) + room->length;
    protect(from, (covered + PAGE - 1) / PAGE * PAGE, how);
    room->guarded = how == PROT_READ;
}

static void open_room(struct lent *room, size_t size) {
    uint8_t *all = mmap(NULL, size + 3 * PAGE, PROT_NONE, MAP_PRIVATE | MAP_ANONYMOUS, -1, 0);
    if (all == MAP_FAILED) fail("mmap failed");
    room->start = all + PAGE + (PAGE - (uintptr_t)all % PAGE) % PAGE;
    room->size = size;
    protect(room->start, size, PROT_READ | PROT_WRITE);
}

void open_rooms(void) {
    for (int r = 0; r < ROOMS; r++) open_room(&rooms[r], r < ANSWER ? LARGE : PAGE);
    signal(SIGSEGV, fault);
    signal(SIGBUS, fault);
}

static size_t least(size_t a, size_t b) { return a < b ? a : b; }

/* The canaries before and after a buffer. */
static size_t before(const struct lent *room) { return least((size_t)(room->at - room->start), CANARIES); }
static size_t after(const struct lent *room) {
    return least((size_t)(room->start + room->size - room->at) - room->length, CANARIES);
}

static struct lent *lend(enum room which, enum place place, size_t length, uint8_t fill) {
    struct lent *room = &rooms[which];
    if (room->at != NULL || length + 1 > room->size) fail("the test lends a room twice, or too much");
    room->at = room->start + (place == AT_END ? room->size - length : place == ODD ? 1 : 0);
    room->length = length;
    room->fill = fill;
    room->canary = (uint8_t)~fill;
    memset(room->at, fill, length);
    memset(room->at - before(room), room->canary, before(room));
    memset(room->at + length, room->canary, after(room));
    return room;
}

uint8_t *lend_buffer(enum room which, enum place place, size_t length, uint8_t fill) {
    return lend(which, place, length, fill)->at;
}

const uint8_t *lend_bytes(enum room which, enum place place, const uint8_t *bytes, size_t length) {
    struct lent *room = lend(which, place, length, 0);
    if (length > 0) {
        memcpy(room->at, bytes, length);
        allow(room, PROT_READ);
    }
    return room->at;
}

static void same(const uint8_t *bytes, size_t count, uint8_t value, const char *what) {
    for (size_t i = 0; i < count; i++)
        if (bytes[i] != value) fail("%s changed", what);
}

void take_back(void) {
    for (int r = 0; r < ROOMS; r++) {
        struct lent *room = &rooms[r];
        if (room->at == NULL) continue;
        same(room->at - before(room), before(room), room->canary, "a byte before a lent buffer");
        same(room->at + room->length, after(room), room->canary, "a byte after a lent buffer");
        if (room->guarded) allow(room, PROT_READ | PROT_WRITE);
        room->at = NULL;
    }
}

void untouched_but(enum room which, size_t from, size_t to) {
    const struct lent *room = &rooms[which];
    const char *what = "a lent byte that no answer is about";
    if (from > to || to > room->length) fail("more is answered than was lent");
    same(room->at, from, room->fill, what);
    same(room->at + to, room->length - to, room->fill, what);
}
