/* Prints the numbers of keshmirun.h that the crate has too, under their names there. */
#include "keshmirun.h"

#include <stdio.h>

#define PRINT(name, number) printf("%s %d\n", name, number)

int main(void) {
    PRINT("MOST_NODES", KESHMIRUN_MOST_NODES);
    PRINT("MOST_EDGES", KESHMIRUN_MOST_EDGES);
    PRINT("Room::CHOICE", KESHMIRUN_MOST_ENDS);
    PRINT("Room::MARKING", KESHMIRUN_ROOM_MARKING);
    PRINT("Room::SHEET", KESHMIRUN_ROOM_SHEET);
    PRINT("Room::CHOICE", KESHMIRUN_ROOM_CHOICE);
    PRINT("any reply", KESHMIRUN_ROOM);
    PRINT("NO_NODE", KESHMIRUN_NO_NODE);
    return 0;
}
