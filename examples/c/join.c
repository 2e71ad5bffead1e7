/*
 * Joins the two design files named first on the command line, the first applied first, and writes the joined file to the
 * third name; where they do not join nothing is written, and the reason is told on standard error.
 * The exit status is 0 when the file is written, 1 when the designs are refused, 2 when a file or memory cannot be had.
 */
#include "contents.h"
#include "jestrunas.h"
#include <stdio.h>
#include <stdlib.h>

/* Whether a file of these bytes is written. */
static int written(const char *name, const uint8_t *bytes, size_t length) {
    FILE *f = fopen(name, "wb");
    if (!f) return 0;
    size_t n = fwrite(bytes, 1, length, f);
    return fclose(f) == 0 && n == length;
}

int main(int argc, char **argv) {
    size_t first_len = 0, second_len = 0;
    uint8_t *first = argc == 4 ? contents(argv[1], &first_len) : NULL;
    uint8_t *second = first ? contents(argv[2], &second_len) : NULL;
    /* always enough */
    size_t room = first_len + second_len;
    uint8_t *output = room ? (uint8_t *)malloc(room) : NULL;
    int status = 2;
    if (!second) {
        fprintf(stderr, "usage: join FIRST SECOND JOINED\n");
    } else if (room && !output) {
        fprintf(stderr, "join: no %zu bytes of memory\n", room);
    } else {
        jestrunas_produced_t made = jestrunas_join(first, first_len, second, second_len, output, room);
        if (made.reason != JESTRUNAS_OK) {
            fprintf(stderr, "join: refused with %zu\n", made.reason);
            status = 1;
        } else if (!written(argv[3], output, made.length)) {
            fprintf(stderr, "join: %s cannot be written\n", argv[3]);
        } else {
            status = 0;
        }
    }
    free(output);
    free(second);
    free(first);
    return status;
}
