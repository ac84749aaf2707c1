/* A program that is built with this before its own text never closes a database. `refused-by-tests` beside this builds
   one, in which a leak has to be found. */
#include "ripsawbean.h"
#define ripsawbean_close(handle) ((void)(handle))
