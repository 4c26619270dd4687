/* An app's own code in C, which calls the engine too. */
#include "keshmirun.h"

unsigned refusal_of_nothing(void) { return KESHMIRUN_REFUSAL(keshmirun_check(NULL, 0)); }
