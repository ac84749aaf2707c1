// The library with growths of memory that can be refused, for the tests of the Rust and Python wrappers: embed/build
// links this file with it.
#include "testing.h"

// Has the library's growth behind `before` others be refused.
void refuse_after_growths(unsigned long before);
void refuse_after_growths(unsigned long before) {
    refuse_after(before);
}

// From here on no growth is refused. Whether one was since.
bool refuse_no_growth(void);
bool refuse_no_growth(void) {
    return refuse_none();
}
