/* Prints the numbers of keshmirun.h that the crate has too, under their names there, and then the kinds of nodes and edges and the refusals. */
#include "keshmirun.h"

#include <stdio.h>

#define PRINT(name, number) printf("%s %d\n", name, number)

static void print_limits(void) {
    PRINT("MOST_NODES", KESHMIRUN_MOST_NODES);
    PRINT("MOST_EDGES", KESHMIRUN_MOST_EDGES);
    PRINT("MOST_VALUES", KESHMIRUN_MOST_VALUES);
    PRINT("MOST_TOKENS", KESHMIRUN_MOST_TOKENS);
    PRINT("LONGEST_CHAIN", KESHMIRUN_LONGEST_CHAIN);
    PRINT("LONGEST_PATH", KESHMIRUN_LONGEST_PATH);
    PRINT("MOST_OFFERS", KESHMIRUN_MOST_OFFERS);
    PRINT("MOST_PATHS", KESHMIRUN_MOST_PATHS);
    PRINT("MOST_ENDS", KESHMIRUN_MOST_ENDS);
    PRINT("Room::MARKING", KESHMIRUN_ROOM_MARKING);
    PRINT("Room::SHEET", KESHMIRUN_ROOM_SHEET);
    PRINT("Room::CHOICE", KESHMIRUN_ROOM_CHOICE);
    PRINT("Room::STACK", KESHMIRUN_STACK);
    PRINT("any reply", KESHMIRUN_ROOM);
    PRINT("NO_NODE", KESHMIRUN_NO_NODE);
}

static void print_kinds(void) {
    PRINT("initial", KESHMIRUN_KIND_INITIAL);
    PRINT("action", KESHMIRUN_KIND_ACTION);
    PRINT("input pin", KESHMIRUN_KIND_INPUT_PIN);
    PRINT("output pin", KESHMIRUN_KIND_OUTPUT_PIN);
    PRINT("central buffer", KESHMIRUN_KIND_CENTRAL_BUFFER);
    PRINT("incoming parameter", KESHMIRUN_KIND_INCOMING_PARAMETER);
    PRINT("outgoing parameter", KESHMIRUN_KIND_OUTGOING_PARAMETER);
    PRINT("decision", KESHMIRUN_KIND_DECISION);
    PRINT("merge", KESHMIRUN_KIND_MERGE);
    PRINT("fork", KESHMIRUN_KIND_FORK);
    PRINT("join", KESHMIRUN_KIND_JOIN);
    PRINT("flow final", KESHMIRUN_KIND_FLOW_FINAL);
    PRINT("activity final", KESHMIRUN_KIND_ACTIVITY_FINAL);
    PRINT("control", KESHMIRUN_EDGE_CONTROL);
    PRINT("object", KESHMIRUN_EDGE_OBJECT);
}

/* Each with what its place is. */
static void print_refusals(void) {
    PRINT("no place", KESHMIRUN_REFUSED_TABLE);
    PRINT("node 0", KESHMIRUN_REFUSED_NODE);
    PRINT("edge 0", KESHMIRUN_REFUSED_EDGE);
    PRINT("node 0", KESHMIRUN_REFUSED_SHAPE);
    PRINT("no place", KESHMIRUN_REFUSED_MARKING);
    PRINT("no place", KESHMIRUN_REFUSED_ENDED);
    PRINT("no place", KESHMIRUN_REFUSED_GUARDS);
    PRINT("no place", KESHMIRUN_REFUSED_SIZES);
    PRINT("no place", KESHMIRUN_REFUSED_CHOICE);
    PRINT("end 0", KESHMIRUN_REFUSED_COMPETING);
    PRINT("node 0", KESHMIRUN_REFUSED_FORK);
    PRINT("node 0", KESHMIRUN_REFUSED_DESTINATION);
    PRINT("node 0", KESHMIRUN_REFUSED_NO_CHOICE);
    PRINT("no place", KESHMIRUN_REFUSED_NOT_RUNNING);
    PRINT("no place", KESHMIRUN_REFUSED_VALUES);
    PRINT("no place", KESHMIRUN_REFUSED_FULL);
    PRINT("no place", KESHMIRUN_REFUSED_ROOM);
    PRINT("no place", KESHMIRUN_REFUSED_BOUNDS);
}

int main(void) {
    print_limits();
    print_kinds();
    print_refusals();
    return 0;
}
