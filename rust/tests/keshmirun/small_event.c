/* The paper's small event by the seven calls of keshmirun.h, without bounds and under some. Ends with 0 if every answer is the paper's, else with the line
 * that is not. */
#include "keshmirun.h"

#include <string.h>

#if KESHMIRUN_VERSION != 5
#error "these are the calls of version 5"
#endif

static const uint8_t table[] = {0, 0x33, 1, 7, 5, 1, 255, 0, 0, 6, 255, 0, 4, 8, 255, 0, 0, 11, 255, 0, 0, 3, 5, 1, 1, 2, 255, 0, 0, 5, 255, 0, 2,
                                0, 0,    3, 0, 1, 1, 2,   0, 1, 2, 3,   1, 1, 2, 6,   1, 1, 3,  4,   0};
static const uint8_t values[] = {2, 0, 0, 0, 7, 0, 0, 0, 9};
static const uint8_t guards[] = {1, 1, 1, 1, 1};
static const uint8_t started[] = {0, 15, 1, 0, 2, 0, 0, 0, 7, 0, 0, 0, 9, 0, 0, 0, 1};
/* by target: the end on edge 4, to the pin, node 4, and then the one on edge 3, to the buffer, node 6 */
static const uint8_t ends[] = {0, 26, 1, 2, 4, 1, 0, 0, 0, 7, 2, 2, 0, 4, 3, 1, 2, 4, 3, 1, 0, 0, 0, 7, 1, 2, 1, 3};
static const uint8_t stepped[] = {0, 15, 1, 0, 1, 0, 0, 0, 9, 1, 0, 0, 0, 7, 1, 0, 0};
static const uint8_t finished[] = {0, 11, 1, 0, 1, 0, 0, 0, 9, 0, 0, 0, 0};
static const uint8_t first_end[] = {0};
static const uint8_t second_end[] = {1};
/* edge 4, to the pin, is for 8 and 9, which bars 7: the end on edge 3 is left, and it is the first */
static const uint8_t from_8_to_9[] = {0, 11, 1, 1, 4, 0, 0, 0, 8, 0, 0, 0, 9};
static const uint8_t ends_left[] = {0, 12, 1, 1, 3, 1, 0, 0, 0, 7, 1, 2, 1, 3};
static const uint8_t stepped_to_buffer[] = {0, 15, 1, 0, 1, 0, 0, 0, 9, 0, 0, 1, 0, 0, 0, 7, 1};
static const uint8_t on_a_control_edge[] = {0, 11, 1, 1, 0, 0, 0, 0, 8, 0, 0, 0, 9};
/* the buffer holds two, which is all that it may */
static const uint8_t full[] = {0, 23, 1, 0, 2, 0, 0, 0, 7, 0, 0, 0, 9, 0, 0, 2, 0, 0, 0, 1, 0, 0, 0, 2, 1};

static uint8_t out[KESHMIRUN_ROOM];

static int wrote(uint64_t answer, const uint8_t *reply, size_t length) {
    return KESHMIRUN_REFUSAL(answer) == 0 && KESHMIRUN_PLACE(answer) == 0 && KESHMIRUN_LENGTH(answer) == length && memcmp(out, reply, length) == 0;
}

static int reason(uint64_t answer, unsigned byte) {
    return answer == 1 && out[0] == byte;
}

static int refused(uint64_t answer, unsigned number, unsigned place) {
    return KESHMIRUN_REFUSAL(answer) == number && KESHMIRUN_PLACE(answer) == place && KESHMIRUN_LENGTH(answer) == 0;
}

#define EVENT(marking) table, sizeof table, marking, sizeof marking
#define UNDER(bounds) guards, sizeof guards, bounds, sizeof bounds
#define HOLDS(test) if (!(test)) return __LINE__

int main(void) {
    HOLDS(keshmirun_check(table, sizeof table) == 0);
    HOLDS(refused(keshmirun_check(table, sizeof table - 1), 1, 0));
    HOLDS(wrote(keshmirun_start(table, sizeof table, values, sizeof values, out, sizeof out), started, sizeof started));
    HOLDS(wrote(keshmirun_sheet(EVENT(started), UNDER(keshmirun_no_bounds), out, sizeof out), ends, sizeof ends));
    HOLDS(wrote(keshmirun_pick(EVENT(started), UNDER(keshmirun_no_bounds), 5, out, KESHMIRUN_ROOM_CHOICE), first_end, sizeof first_end));
    HOLDS(wrote(keshmirun_pick(EVENT(started), UNDER(keshmirun_no_bounds), 6, out, KESHMIRUN_ROOM_CHOICE), second_end, sizeof second_end));
    HOLDS(refused(keshmirun_pick(EVENT(started), UNDER(keshmirun_no_bounds), 2, out, KESHMIRUN_ROOM_CHOICE), 13, 2));
    HOLDS(wrote(keshmirun_pick(EVENT(started), UNDER(keshmirun_no_bounds), KESHMIRUN_NO_NODE, out, KESHMIRUN_ROOM_CHOICE), first_end, sizeof first_end));
    HOLDS(reason(keshmirun_why(EVENT(started), UNDER(keshmirun_no_bounds), 5, out, sizeof out), KESHMIRUN_WHY_ACCEPTABLE));
    HOLDS(reason(keshmirun_why(EVENT(started), UNDER(keshmirun_no_bounds), 2, out, 1), KESHMIRUN_WHY_NO_END));
    HOLDS(reason(keshmirun_why(EVENT(full), UNDER(keshmirun_no_bounds), 6, out, 1), KESHMIRUN_WHY_OWN_DESTINATION));
    HOLDS(reason(keshmirun_why(EVENT(full), UNDER(keshmirun_no_bounds), KESHMIRUN_NO_NODE, out, 1), KESHMIRUN_WHY_ACCEPTABLE));
    HOLDS(refused(keshmirun_why(EVENT(started), UNDER(keshmirun_no_bounds), 5, out, 0), 17, 0));
    HOLDS(wrote(keshmirun_step(EVENT(started), UNDER(keshmirun_no_bounds), first_end, sizeof first_end, out, sizeof out), stepped, sizeof stepped));
    HOLDS(wrote(keshmirun_sheet(EVENT(started), UNDER(from_8_to_9), out, sizeof out), ends_left, sizeof ends_left));
    HOLDS(wrote(keshmirun_pick(EVENT(started), UNDER(from_8_to_9), 6, out, KESHMIRUN_ROOM_CHOICE), first_end, sizeof first_end));
    HOLDS(refused(keshmirun_pick(EVENT(started), UNDER(from_8_to_9), 5, out, KESHMIRUN_ROOM_CHOICE), 13, 5));
    HOLDS(reason(keshmirun_why(EVENT(started), UNDER(from_8_to_9), 5, out, 1), KESHMIRUN_WHY_NO_END));
    HOLDS(wrote(keshmirun_step(EVENT(started), UNDER(from_8_to_9), first_end, sizeof first_end, out, sizeof out), stepped_to_buffer, sizeof stepped_to_buffer));
    HOLDS(refused(keshmirun_step(EVENT(started), UNDER(from_8_to_9), second_end, sizeof second_end, out, sizeof out), 9, 0));
    HOLDS(refused(keshmirun_sheet(EVENT(started), UNDER(on_a_control_edge), out, sizeof out), 18, 0));
    HOLDS(refused(keshmirun_pick(EVENT(started), guards, sizeof guards, from_8_to_9, sizeof from_8_to_9 - 1, 5, out, KESHMIRUN_ROOM_CHOICE), 18, 0));
    HOLDS(refused(keshmirun_why(EVENT(started), UNDER(on_a_control_edge), 5, out, 1), 18, 0));
    HOLDS(refused(keshmirun_step(EVENT(started), guards, sizeof guards, keshmirun_no_bounds, 0, first_end, sizeof first_end, out, sizeof out), 18, 0));
    HOLDS(wrote(keshmirun_finish(EVENT(stepped), 5, values, 0, out, sizeof out), finished, sizeof finished));
    return 0;
}
