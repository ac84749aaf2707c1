// The first call of a program in C, over the installed library. in_fresh beside this folder builds it.
#include <ripsawbean.h>
#include <stdio.h>
#include <string.h>
int main(void) {
    ripsawbean db = RIPSAWBEAN_INITIALIZER;
    uint8_t out[4096];
    size_t length;
    const char *line = "0 begin 10\n";
    if (ripsawbean_open(&db, 1024) != RIPSAWBEAN_OK) return 1;
    if (ripsawbean_call(&db, (const uint8_t *)line, strlen(line), out, sizeof out, &length) != RIPSAWBEAN_OK) return 2;
    fwrite(out, 1, length, stdout);
    ripsawbean_close(&db);
}
