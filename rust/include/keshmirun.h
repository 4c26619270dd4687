/* The seven operations of the Keshmirun engine, for C. All names begin with `keshmirun_`, so that none clashes with a name of yours. A program is
 * linked with the archive of the processor that it is built for, here of the machine's own, x86_64 or aarch64, in the repository's folder:
 *
 *     cc app.c -Irust/include target/archive/$(uname -m)-unknown-linux-gnu/libkeshmirun.a
 *
 * A slice is a pointer and a length; one of length 0 may have any pointer, NULL too. An operation reads its inputs and writes its reply to the front
 * of `out`; a refused call changes no byte. Inputs and `out` must not overlap.
 *
 * Stack and state: any call takes less than KESHMIRUN_STACK bytes of stack, 32 KiB (tested and not proved; the deepest known takes 28,139). Give a
 * thread that calls the engine 64 KiB at least. Nothing is allocated, nothing is kept between calls, and there are no globals, so any number of
 * threads may call at once.
 *
 * What stands in the bytes is in docs/FORMATS.md of Keshmirun's repository. It is the paper's, "Token flow, tables and markings", with the wishes
 * "Guards that read the result" (bounds), "One round token for all tables" (which ends compete), "Why can't we pair?" (reasons), "Group the sheet by
 * destination" (the order of ends) and "Larger events" (how large tables may be). */
#ifndef KESHMIRUN_H
#define KESHMIRUN_H

#include <stddef.h>
#include <stdint.h>

#ifdef __cplusplus
extern "C" {
#endif

/* The version of these calls; header and archive must be of the same. 1 had sheet, pick and step without bounds; those forms are gone. 2 had no why; what it
 * had is the same in 3. 4 has the calls of 3, but numbers ends by target node first: a choice that was written down with 3 may name other ends. 5 has the
 * calls of 4 and their answers, but takes larger tables, which 4 refused with 1, and whose markings may be longer than 4's KESHMIRUN_ROOM. */
#define KESHMIRUN_VERSION 5

/* Every operation answers one word: refusal * 2^48 + place * 2^32 + length. The refusal is 0 if there is none, and its place and the length are
 * then 0 and what was written. */
#define KESHMIRUN_REFUSAL(answer) ((unsigned)((answer) >> 48))
#define KESHMIRUN_PLACE(answer) ((unsigned)((answer) >> 32) & 0xffffu)
#define KESHMIRUN_LENGTH(answer) ((size_t)((answer) & 0xffffffffu))

/* The refusals. Where no place is said, it is 0. */
#define KESHMIRUN_REFUSED_TABLE 1        /* the table's frame, version or counts */
#define KESHMIRUN_REFUSED_NODE 2         /* a node's fields; the place is the lowest such node */
#define KESHMIRUN_REFUSED_EDGE 3         /* an edge's fields or ends; the lowest such edge */
#define KESHMIRUN_REFUSED_SHAPE 4        /* the diagram's shape; the lowest node that breaks it */
#define KESHMIRUN_REFUSED_MARKING 5      /* the marking is not one of this table */
#define KESHMIRUN_REFUSED_ENDED 6        /* the marking is ended */
#define KESHMIRUN_REFUSED_GUARDS 7       /* the guards: their number or their values */
#define KESHMIRUN_REFUSED_SIZES 8        /* too many offers, paths in an offer, or ends */
#define KESHMIRUN_REFUSED_CHOICE 9       /* the choice is not strictly rising, or names no end */
#define KESHMIRUN_REFUSED_COMPETING 10   /* two taken ends compete; the lowest taken end that does */
#define KESHMIRUN_REFUSED_FORK 11        /* a fork is not passed whole; the lowest such node */
#define KESHMIRUN_REFUSED_DESTINATION 12 /* a destination doesn't agree; the lowest such node, an action for its pins */
#define KESHMIRUN_REFUSED_NO_CHOICE 13   /* no acceptable choice has an end of the node named; that node */
#define KESHMIRUN_REFUSED_NOT_RUNNING 14 /* not a running action */
#define KESHMIRUN_REFUSED_VALUES 15      /* the value lists are cut, have a count over 16, or have bytes left */
#define KESHMIRUN_REFUSED_FULL 16        /* a stock would pass its upper, or an edge is at 255 */
#define KESHMIRUN_REFUSED_ROOM 17        /* `out` is shorter than the reply */
#define KESHMIRUN_REFUSED_BOUNDS 18      /* the bounds list: its frame, an edge, their order, or low above high; judged after 7 and before 8 */

/* The kinds of nodes, and those of edges. */
#define KESHMIRUN_KIND_INITIAL 1
#define KESHMIRUN_KIND_ACTION 2
#define KESHMIRUN_KIND_INPUT_PIN 3
#define KESHMIRUN_KIND_OUTPUT_PIN 4
#define KESHMIRUN_KIND_CENTRAL_BUFFER 5
#define KESHMIRUN_KIND_INCOMING_PARAMETER 6
#define KESHMIRUN_KIND_OUTGOING_PARAMETER 7
#define KESHMIRUN_KIND_DECISION 8
#define KESHMIRUN_KIND_MERGE 9
#define KESHMIRUN_KIND_FORK 10
#define KESHMIRUN_KIND_JOIN 11
#define KESHMIRUN_KIND_FLOW_FINAL 12
#define KESHMIRUN_KIND_ACTIVITY_FINAL 13
#define KESHMIRUN_EDGE_CONTROL 0
#define KESHMIRUN_EDGE_OBJECT 1

/* The node for pick and why that names none. */
#define KESHMIRUN_NO_NODE 255

/* The reasons that why writes: the first level at which no choice for a node is left, that is, none with an end of it. */
#define KESHMIRUN_WHY_ACCEPTABLE 0      /* an acceptable one exists, or no node is named */
#define KESHMIRUN_WHY_NO_END 1          /* no end belongs to the node, or it doesn't exist */
#define KESHMIRUN_WHY_OWN_DESTINATION 2 /* none satisfies its own destination rule, a pin's being its action's */
#define KESHMIRUN_WHY_COMPETING 3       /* none that does so is free of competing ends */
#define KESHMIRUN_WHY_FORKS 4           /* none of those passes all forks whole */
#define KESHMIRUN_WHY_DESTINATIONS 5    /* none of those satisfies all destinations */

/* How large things may be. */
#define KESHMIRUN_MOST_NODES 120   /* of a table; more are refused with 1 */
#define KESHMIRUN_MOST_EDGES 200   /* of a table; more are refused with 1 */
#define KESHMIRUN_MOST_VALUES 16   /* in a stock, whose upper is at most that, and in one value list */
#define KESHMIRUN_MOST_TOKENS 255  /* on an edge */
#define KESHMIRUN_LONGEST_CHAIN 15 /* of control nodes, which are decisions, merges, forks and joins; a longer one is refused with 4 */
#define KESHMIRUN_LONGEST_PATH 16  /* in edges */
#define KESHMIRUN_MOST_OFFERS 64   /* at a time; more are refused with 8 */
#define KESHMIRUN_MOST_PATHS 8     /* of an offer, and so of an end; more are refused with 8 */
#define KESHMIRUN_MOST_ENDS 20     /* on a sheet; more are refused with 8 */

/* Room for any marking, which start, step and finish write, for any sheet and for any choice; and for any reply. */
#define KESHMIRUN_ROOM_MARKING 8192
#define KESHMIRUN_ROOM_SHEET 4096
#define KESHMIRUN_ROOM_CHOICE KESHMIRUN_MOST_ENDS
#define KESHMIRUN_ROOM 8192

/* More stack than any call takes, in bytes. */
#define KESHMIRUN_STACK 32768

/* The bounds list of no edge: hand it on as `keshmirun_no_bounds, sizeof keshmirun_no_bounds` where values aren't bounded. An empty slice is no list. */
#ifdef __GNUC__
__attribute__((unused))
#endif
static const uint8_t keshmirun_no_bounds[4] = {0, 2, 1, 0};

/* Checks a diagram table. Refusals 1 to 4. */
uint64_t keshmirun_check(const uint8_t *table, size_t table_len);

/* Writes the marking with which an activity begins; `values`: per incoming parameter a count and 4-byte values. Refusals 1 to 4, 15 to 17. */
uint64_t keshmirun_start(const uint8_t *table, size_t table_len, const uint8_t *values, size_t values_len, uint8_t *out, size_t out_len);

/* Writes the sheet of offered ends, by target node (for a pin the pin's own number), then by last edge, then by paths; `guards`: per edge 1 or 0; `bounds`:
 * length (2 bytes), 1, a count, then per object edge that is listed, rising, its number and the least and the greatest value, 4 bytes each, that may go over
 * it. Refusals 1 to 8, 17, 18 (the bounds list, judged after 7 and before 8). */
uint64_t keshmirun_sheet(const uint8_t *table, size_t table_len, const uint8_t *marking, size_t marking_len, const uint8_t *guards, size_t guards_len,
                         const uint8_t *bounds, size_t bounds_len, uint8_t *out, size_t out_len);

/* Writes the first acceptable choice of ends; with a node named, the first that has an end of it. All results that wait at a join with one token may be in
 * it. Refusals 1 to 8, 13, 17, 18. */
uint64_t keshmirun_pick(const uint8_t *table, size_t table_len, const uint8_t *marking, size_t marking_len, const uint8_t *guards, size_t guards_len,
                        const uint8_t *bounds, size_t bounds_len, uint8_t node, uint8_t *out, size_t out_len);

/* Writes one byte, the reason for which no acceptable choice has an end of the node named; it is KESHMIRUN_WHY_ACCEPTABLE exactly if pick isn't refused with 13.
 * Refusals 1 to 8, 17, 18. */
uint64_t keshmirun_why(const uint8_t *table, size_t table_len, const uint8_t *marking, size_t marking_len, const uint8_t *guards, size_t guards_len,
                       const uint8_t *bounds, size_t bounds_len, uint8_t node, uint8_t *out, size_t out_len);

/* Writes the marking after a choice of ends is taken; `choice`: rising numbers of the sheet's ends, under the same guards and bounds. Results that wait at a
 * join with the same tokens may be taken together, and spend them once. Refusals 1 to 12, 17, 18. */
uint64_t keshmirun_step(const uint8_t *table, size_t table_len, const uint8_t *marking, size_t marking_len, const uint8_t *guards, size_t guards_len,
                        const uint8_t *bounds, size_t bounds_len, const uint8_t *choice, size_t choice_len, uint8_t *out, size_t out_len);

/* Writes the marking after an action ends; `values`: per output pin a count and 4-byte values. Refusals 1 to 6, 14 to 17. */
uint64_t keshmirun_finish(const uint8_t *table, size_t table_len, const uint8_t *marking, size_t marking_len, uint8_t action, const uint8_t *values,
                          size_t values_len, uint8_t *out, size_t out_len);

#ifdef __cplusplus
}
#endif

#endif
