/* Buffers that are lent to a call: each stands between pages that nobody may touch, with canary bytes
 * on both sides as far as there is room. */
#ifndef LENT_H
#define LENT_H

#include <stddef.h>
#include <stdint.h>

/* Where in its room a buffer stands. An answer keeps its alignment: it is never at ODD. */
enum place { AT_START, AT_END, ODD };

/* The rooms: three blobs or bodies, scratch, output, and the answer. */
enum room { BYTES_1, BYTES_2, BYTES_3, SCRATCH, OUTPUT, ANSWER, ROOMS };

/* Prints what went wrong, in which call, and ends the program. */
void fail(const char *format, ...);

/* What a failure or a fault names: the export, and where its input comes from. */
extern const char *now_calling;
extern const char *now_from;

void open_rooms(void);

/* A copy of bytes that may be read and not written until it is taken back. */
const uint8_t *lend_bytes(enum room room, enum place place, const uint8_t *bytes, size_t length);

/* A buffer full of one byte. */
uint8_t *lend_buffer(enum room room, enum place place, size_t length, uint8_t fill);

/* Takes every buffer back, and fails if a byte beside one is not what it was. */
void take_back(void);

/* Fails unless all bytes of a buffer, but those from one up to another, are as they were lent. */
void untouched_but(enum room room, size_t from, size_t to);

#endif
