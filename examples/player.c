/*
 * A player's side in small: reads a load from a file (or standard input), has it listed, and prints the listing. The buffer is lent
 * small at first and doubled as long as the answer is BELGWYTH_NO_SPACE. Exit status 1 where reading, memory or writing fails.
 */
#include <stdio.h>
#include <stdlib.h>
#include <string.h>

#include "belgwyth.h"

/* One byte more than a load may have, so that a longer file is told as too long. */
#define LOAD_BUFFER (BELGWYTH_LOAD_MAX + 1)

int main(int argc, char **argv)
{
    static uint8_t load[LOAD_BUFFER];
    FILE *in = stdin;
    size_t length, room = 4096, written;
    uint8_t *out;

    if (argc > 2) {
        fprintf(stderr, "usage: %s [LOAD]\n", argv[0]);
        return 2;
    }
    if (argc == 2 && (in = fopen(argv[1], "rb")) == NULL) {
        perror(argv[1]);
        return 1;
    }
    length = fread(load, 1, sizeof load, in);
    if (ferror(in)) {
        perror(argc == 2 ? argv[1] : "standard input");
        return 1;
    }

    for (;;) {
        out = malloc(room);
        if (out == NULL) {
            fprintf(stderr, "no memory for a listing of %zu bytes\n", room);
            return 1;
        }
        written = belgwyth_listing(load, length, out, room);
        if (written != BELGWYTH_NO_SPACE)
            break;
        fprintf(stderr, "listing is longer than %zu bytes, trying %zu\n", room, 2 * room);
        free(out);
        room *= 2;
    }
    if (fwrite(out, 1, written, stdout) != written || fflush(stdout) != 0) {
        perror("standard output");
        return 1;
    }
    free(out);
    return 0;
}
