/* Every operation of keshmirun.h with NULL and 0 for each slice that may be empty, one at a time and all at once. Ends with 0 if every answer is the
 * paper's, else with the line that is not; there are fewer than 256, so that a status can say it. */
#include "keshmirun.h"

#include <string.h>

/* One initial node, one action, and the control edge between them: no parameter and no pin, so no value lists. */
static const uint8_t table[] = {0, 15, 1, 2, 1, 1, 255, 0, 0, 2, 255, 0, 0, 0, 0, 1, 0};
static const uint8_t marking[] = {0, 4, 1, 0, 0, 1};
static const uint8_t running[] = {0, 4, 1, 0, 1, 0};
static const uint8_t idle[] = {0, 4, 1, 0, 0, 0};
static const uint8_t guards[] = {1};
static const uint8_t first_end[] = {0};
/* A flow final alone, without an edge: no guards are its guards, and it has no end. */
static const uint8_t edgeless[] = {0, 7, 1, 1, 0, 12, 255, 0, 0};
static const uint8_t bare[] = {0, 2, 1, 0};

static uint8_t out[KESHMIRUN_ROOM];

static int refused(uint64_t answer, unsigned number) {
    return KESHMIRUN_REFUSAL(answer) == number && KESHMIRUN_PLACE(answer) == 0 && KESHMIRUN_LENGTH(answer) == 0;
}

static int wrote(uint64_t answer, const uint8_t *reply, size_t length) {
    return answer == length && memcmp(out, reply, length) == 0;
}

#define NONE NULL, 0
#define ALL(slice) slice, sizeof slice
#define OUT ALL(out)
#define TERMS ALL(guards), ALL(keshmirun_no_bounds)
#define HOLDS(test) if (!(test)) return __LINE__

static int no_table(void) {
    HOLDS(refused(keshmirun_check(NONE), KESHMIRUN_REFUSED_TABLE));
    HOLDS(refused(keshmirun_start(NONE, NONE, OUT), KESHMIRUN_REFUSED_TABLE));
    HOLDS(refused(keshmirun_sheet(NONE, ALL(marking), TERMS, OUT), KESHMIRUN_REFUSED_TABLE));
    HOLDS(refused(keshmirun_pick(NONE, ALL(marking), TERMS, 1, OUT), KESHMIRUN_REFUSED_TABLE));
    HOLDS(refused(keshmirun_why(NONE, ALL(marking), TERMS, 1, OUT), KESHMIRUN_REFUSED_TABLE));
    HOLDS(refused(keshmirun_step(NONE, ALL(marking), TERMS, ALL(first_end), OUT), KESHMIRUN_REFUSED_TABLE));
    HOLDS(refused(keshmirun_finish(NONE, ALL(running), 1, NONE, OUT), KESHMIRUN_REFUSED_TABLE));
    return 0;
}

static int no_marking(void) {
    HOLDS(refused(keshmirun_sheet(ALL(table), NONE, TERMS, OUT), KESHMIRUN_REFUSED_MARKING));
    HOLDS(refused(keshmirun_pick(ALL(table), NONE, TERMS, 1, OUT), KESHMIRUN_REFUSED_MARKING));
    HOLDS(refused(keshmirun_why(ALL(table), NONE, TERMS, 1, OUT), KESHMIRUN_REFUSED_MARKING));
    HOLDS(refused(keshmirun_step(ALL(table), NONE, TERMS, ALL(first_end), OUT), KESHMIRUN_REFUSED_MARKING));
    HOLDS(refused(keshmirun_finish(ALL(table), NONE, 1, NONE, OUT), KESHMIRUN_REFUSED_MARKING));
    return 0;
}

static int no_guards(void) {
    HOLDS(refused(keshmirun_sheet(ALL(table), ALL(marking), NONE, ALL(keshmirun_no_bounds), OUT), KESHMIRUN_REFUSED_GUARDS));
    HOLDS(refused(keshmirun_pick(ALL(table), ALL(marking), NONE, ALL(keshmirun_no_bounds), 1, OUT), KESHMIRUN_REFUSED_GUARDS));
    HOLDS(refused(keshmirun_why(ALL(table), ALL(marking), NONE, ALL(keshmirun_no_bounds), 1, OUT), KESHMIRUN_REFUSED_GUARDS));
    HOLDS(refused(keshmirun_step(ALL(table), ALL(marking), NONE, ALL(keshmirun_no_bounds), ALL(first_end), OUT), KESHMIRUN_REFUSED_GUARDS));
    return 0;
}

/* An empty slice is no list: the one that bars nothing has four bytes. */
static int no_bounds(void) {
    HOLDS(refused(keshmirun_sheet(ALL(table), ALL(marking), ALL(guards), NONE, OUT), KESHMIRUN_REFUSED_BOUNDS));
    HOLDS(refused(keshmirun_pick(ALL(table), ALL(marking), ALL(guards), NONE, 1, OUT), KESHMIRUN_REFUSED_BOUNDS));
    HOLDS(refused(keshmirun_why(ALL(table), ALL(marking), ALL(guards), NONE, 1, OUT), KESHMIRUN_REFUSED_BOUNDS));
    HOLDS(refused(keshmirun_step(ALL(table), ALL(marking), ALL(guards), NONE, ALL(first_end), OUT), KESHMIRUN_REFUSED_BOUNDS));
    return 0;
}

/* No value lists and no choice are good ones. */
static int no_values_and_no_choice(void) {
    HOLDS(wrote(keshmirun_start(ALL(table), NONE, OUT), marking, sizeof marking));
    HOLDS(wrote(keshmirun_finish(ALL(table), ALL(running), 1, NONE, OUT), idle, sizeof idle));
    HOLDS(wrote(keshmirun_step(ALL(table), ALL(marking), TERMS, NONE, OUT), marking, sizeof marking));
    return 0;
}

/* A choice of no ends alone fits. */
static int no_room(void) {
    HOLDS(refused(keshmirun_start(ALL(table), NONE, NONE), KESHMIRUN_REFUSED_ROOM));
    HOLDS(refused(keshmirun_sheet(ALL(table), ALL(marking), TERMS, NONE), KESHMIRUN_REFUSED_ROOM));
    HOLDS(refused(keshmirun_pick(ALL(table), ALL(marking), TERMS, 1, NONE), KESHMIRUN_REFUSED_ROOM));
    HOLDS(keshmirun_pick(ALL(table), ALL(idle), TERMS, KESHMIRUN_NO_NODE, NONE) == 0);
    HOLDS(refused(keshmirun_why(ALL(table), ALL(marking), TERMS, 1, NONE), KESHMIRUN_REFUSED_ROOM));
    HOLDS(refused(keshmirun_step(ALL(table), ALL(marking), TERMS, ALL(first_end), NONE), KESHMIRUN_REFUSED_ROOM));
    HOLDS(refused(keshmirun_finish(ALL(table), ALL(running), 1, NONE, NONE), KESHMIRUN_REFUSED_ROOM));
    return 0;
}

static int none_of_all(void) {
    HOLDS(refused(keshmirun_start(NONE, NONE, NONE), KESHMIRUN_REFUSED_TABLE));
    HOLDS(refused(keshmirun_sheet(NONE, NONE, NONE, NONE, NONE), KESHMIRUN_REFUSED_TABLE));
    HOLDS(refused(keshmirun_pick(NONE, NONE, NONE, NONE, KESHMIRUN_NO_NODE, NONE), KESHMIRUN_REFUSED_TABLE));
    HOLDS(refused(keshmirun_why(NONE, NONE, NONE, NONE, KESHMIRUN_NO_NODE, NONE), KESHMIRUN_REFUSED_TABLE));
    HOLDS(refused(keshmirun_step(NONE, NONE, NONE, NONE, NONE, NONE), KESHMIRUN_REFUSED_TABLE));
    HOLDS(refused(keshmirun_finish(NONE, NONE, 0, NONE, NONE), KESHMIRUN_REFUSED_TABLE));
    return 0;
}

static int no_edges(void) {
    HOLDS(wrote(keshmirun_start(ALL(edgeless), NONE, OUT), bare, sizeof bare));
    HOLDS(wrote(keshmirun_sheet(ALL(edgeless), ALL(bare), NONE, ALL(keshmirun_no_bounds), OUT), bare, sizeof bare));
    HOLDS(keshmirun_pick(ALL(edgeless), ALL(bare), NONE, ALL(keshmirun_no_bounds), KESHMIRUN_NO_NODE, NONE) == 0);
    HOLDS(wrote(keshmirun_step(ALL(edgeless), ALL(bare), NONE, ALL(keshmirun_no_bounds), NONE, OUT), bare, sizeof bare));
    return 0;
}

int main(void) {
    int (*const tests[])(void) = {no_table, no_marking, no_guards, no_bounds, no_values_and_no_choice, no_room, none_of_all, no_edges};
    for (size_t test = 0; test < sizeof tests / sizeof tests[0]; test++) {
        int line = tests[test]();
        if (line != 0) return line;
    }
    return 0;
}
