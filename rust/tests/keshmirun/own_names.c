/* A program over keshmirun.h and over a library that has `check`, `start`, `step` .. of its own. Ends with 0 if each call reaches the one that is meant, else
 * with the line that doesn't hold. */
#include "keshmirun.h"
#include "other_library.h"

/* One initial node, one action, and the control edge between them. */
static const uint8_t table[] = {0, 15, 1, 2, 1, 1, 255, 0, 0, 2, 255, 0, 0, 0, 0, 1, 0};
static const uint8_t guards[] = {1};
static const uint8_t choice[] = {0};

#define TERMS guards, sizeof guards, keshmirun_no_bounds, sizeof keshmirun_no_bounds
#define HOLDS(test) if (!(test)) return __LINE__

int main(void) {
    uint8_t marking[6], next[6], after[6], ends[KESHMIRUN_ROOM_SHEET], picked[KESHMIRUN_ROOM_CHOICE];
    HOLDS(keshmirun_check(table, sizeof table) == 0);
    HOLDS(keshmirun_start(table, sizeof table, guards, 0, marking, sizeof marking) == 6 && marking[5] == 1);
    HOLDS(keshmirun_sheet(table, sizeof table, marking, 6, TERMS, ends, sizeof ends) == 13 && ends[3] == 1);
    HOLDS(keshmirun_pick(table, sizeof table, marking, 6, TERMS, 1, picked, sizeof picked) == 1 && picked[0] == 0);
    HOLDS(keshmirun_why(table, sizeof table, marking, 6, TERMS, 0, picked, sizeof picked) == 1 && picked[0] == KESHMIRUN_WHY_NO_END);
    HOLDS(keshmirun_step(table, sizeof table, marking, 6, TERMS, choice, sizeof choice, next, sizeof next) == 6 && next[4] == 1);
    HOLDS(keshmirun_finish(table, sizeof table, next, 6, 1, guards, 0, after, sizeof after) == 6 && after[4] == 0);
    HOLDS(check(1) == 2 && start() == 2 && sheet() == 3 && pick() == 4 && step(6) == 5 && finish() == 6 && why() == 7);
    return 0;
}
