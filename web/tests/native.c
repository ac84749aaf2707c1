// native RING: makes the call of each line of standard input by the native library, and writes its text or `status N`.
// The tests compare the module with it.
#include "ripsawbean.h"

#include <stdio.h>
#include <stdlib.h>
#include <string.h>

static uint8_t out[1 << 24];

int main(int count, char **words) {
    ripsawbean db = RIPSAWBEAN_INITIALIZER;
    char *line = NULL;
    size_t room = 0;
    if (count != 2 || ripsawbean_open(&db, (uint32_t)atoi(words[1])) != RIPSAWBEAN_OK) return 1;
    for (ssize_t length; (length = getline(&line, &room, stdin)) > 0;) {
        size_t told;
        uint8_t status = ripsawbean_call(&db, (const uint8_t *)line, (size_t)length, out, sizeof out, &told);
        if (status != RIPSAWBEAN_OK) printf("status %d\n", status);
        else if (told > sizeof out || fwrite(out, 1, told, stdout) != told) return 1;
    }
    ripsawbean_close(&db);
    free(line);
    return 0;
}
