// A program on a processor that can't run the library, and is told so. `embed/test` runs it under an emulator.
#include "ripsawbean.h"
int main(void) {
    ripsawbean db = RIPSAWBEAN_INITIALIZER;
    ripsawbean_replica replica = RIPSAWBEAN_REPLICA_INITIALIZER;
    const uint8_t line[] = "0 open - - 0\n";
    if (ripsawbean_open(&db, 0) != RIPSAWBEAN_PROCESSOR || db.is_open) return 1;
    if (ripsawbean_replica_open(&replica, line, sizeof line - 1) != RIPSAWBEAN_PROCESSOR || replica.is_open) return 2;
    uint8_t begun = ripsawbean_replica_begin(&replica, line, sizeof line - 1, line, 0);
    return begun == RIPSAWBEAN_PROCESSOR && !replica.is_open ? 0 : 3;
}
