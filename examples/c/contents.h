/* What the examples that read files share. */
#ifndef CONTENTS_H
#define CONTENTS_H

#include <stdint.h>
#include <stdio.h>
#include <stdlib.h>

/* The bytes of a file and their number, or NULL. */
static uint8_t *contents(const char *name, size_t *length) {
    FILE *f = fopen(name, "rb");
    uint8_t *bytes = NULL;
    size_t room = 0, n = 0;
    if (!f) return NULL;
    do {
        uint8_t *more = (uint8_t *)realloc(bytes, room += 65536);
        if (!more) break;
        bytes = more;
        n += fread(bytes + n, 1, room - n, f);
    } while (n == room);
    if (n == room || ferror(f)) {
        free(bytes);
        bytes = NULL;
    }
    fclose(f);
    *length = n;
    return bytes;
}

#endif
