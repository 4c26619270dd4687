/* Ends with 0 if the Rust library apps/no_standard_library.rs says that all holds. */
#include <stdbool.h>

bool holds(void);

int main(void) { return holds() ? 0 : 1; }
