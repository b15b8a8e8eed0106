/* The stored samples of the programs, put to the exports. */
#ifndef REPLAY_H
#define REPLAY_H

/* How many lines were replayed, were about rounding, which has no export, or were of no shape. */
struct replayed {
    unsigned long lines, rounding, shapeless;
};

/* Replays a program's lines from folder/stdin; fails unless each answer is that of folder/stdout, and
 * where no line was replayed. */
struct replayed replay(const char *folder);

#endif
