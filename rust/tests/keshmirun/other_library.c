/* A library that has functions of the paper's names, and answers as no engine would. Used by own_names.c. */
#include "other_library.h"

int check(int value) { return value + 1; }
int start(void) { return 2; }
int sheet(void) { return 3; }
int pick(void) { return 4; }
int step(int value) { return value - 1; }
int finish(void) { return 6; }
int why(void) { return 7; }
