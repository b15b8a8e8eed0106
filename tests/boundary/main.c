/* boundary FOLDER..: calls every export of libfulandewu.a on good and bad input, and replays the stored
 * samples of the programs whose folders are named. It ends with 0 if all is as it should be. */
#include <stdio.h>

#include "ask.h"
#include "cases.h"
#include "lent.h"
#include "replay.h"

int main(int count, char **folders) {
    unsigned long lines = 0;
    if (count < 2) fail("no folder is named whose lines are to be replayed");
    open_rooms();
    try_cases(); /* before the lines, of which there are many: they see most wrong exports */
    for (int f = 1; f < count; f++) {
        struct replayed r = replay(folders[f]);
        printf("%s: %lu lines replayed; %lu about rounding and %lu of no shape left out\n", folders[f], r.lines,
               r.rounding, r.shapeless);
        lines += r.lines;
    }
    printf("refusals by number, 0 an answer (requests):\n");
    all_refusals_seen();
    printf("boundary: %lu lines replayed, %lu calls of %d exports, %lu fields looked at, all as they should be\n",
           lines, calls, EXPORTS, fields_seen);
    return 0;
}
