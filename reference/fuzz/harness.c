/*
 * Fuzzes the player's call against the reference. The load and the buffer end at a page that may not be touched, so that a read or
 * write behind them stops the program. What the listing says is walked by instrumented code, so that new answers count as new paths.
 */
#include <stdio.h>
#include <stdlib.h>
#include <string.h>
#include <sys/mman.h>
#include <unistd.h>

#include "belgwyth.h"

size_t reference_listing(const uint8_t *load, size_t load_length, uint8_t *out, size_t out_length);

#define LOAD_ROOM (80 * 1024)
#define OUT_ROOM (1024 * 1024)

static volatile unsigned seen;

/* So many bytes that end where a guarded page begins. */
static uint8_t *guarded(size_t room)
{
    size_t page = (size_t)sysconf(_SC_PAGESIZE), whole = (room + page - 1) / page * page;
    uint8_t *at = mmap(NULL, whole + page, PROT_READ | PROT_WRITE, MAP_PRIVATE | MAP_ANONYMOUS, -1, 0);
    if (at == MAP_FAILED || mprotect(at + whole, page, PROT_NONE) != 0)
        abort();
    return at + whole;
}

/* Counts what the lines say: each answer and stop number, and grants, is a branch of its own. */
static void walk(const uint8_t *text, size_t length)
{
    size_t i = 0, column = 0;
    unsigned number = 0, grants = 0;
    int word = 0;
    for (; i < length; i++) {
        if (text[i] >= '0' && text[i] <= '9') {
            number = number * 10 + (unsigned)(text[i] - '0');
            continue;
        }
        if (text[i] == 'o')
            word = 1, grants++;
        if (text[i] == 's' && column == 0)
            word = 2;
        if (text[i] != ' ' && text[i] != '\n')
            continue;
        if ((word == 0 && column == 1) || (word == 2 && column == 1)) {
            switch (number) {
            case 0: seen += 1; break;
            case 1: seen += 2; break;
            case 2: seen += 3; break;
            case 3: seen += 4; break;
            case 4: seen += 5; break;
            case 5: seen += 6; break;
            case 6: seen += 7; break;
            case 8: seen += 8; break;
            case 9: seen += 9; break;
            case 10: seen += 10; break;
            case 11: seen += 11; break;
            case 12: seen += 12; break;
            case 13: seen += 13; break;
            case 14: seen += 14; break;
            case 16: seen += 17; break;
            case 21: seen += 18; break;
            default: seen += 15; break;
            }
        }
        column++;
        number = 0;
        if (text[i] == '\n') {
            if (grants > 1)
                seen += 16;
            if (word == 0)
                grants = 0;
            column = 0, word = 0;
        }
    }
}

int main(void)
{
    static uint8_t input[LOAD_ROOM], expected[OUT_ROOM];
    uint8_t *load_end = guarded(LOAD_ROOM), *out_end = guarded(OUT_ROOM);
    size_t length = fread(input, 1, sizeof input, stdin), count, want, i;
    uint8_t *load = load_end - length, *out = out_end - OUT_ROOM;

    memcpy(load, input, length);
    want = reference_listing(load, length, expected, OUT_ROOM);
    count = belgwyth_listing(load, length, out, OUT_ROOM);
    if (count != want || memcmp(out, expected, want) != 0)
        abort();

    /* Exactly enough room, and a byte too little. */
    out = out_end - want;
    memset(out, 0xA5, want);
    if (belgwyth_listing(load, length, out, want) != want || memcmp(out, expected, want) != 0)
        abort();
    out = out_end - (want - 1);
    memset(out, 0xA5, want - 1);
    if (belgwyth_listing(load, length, out, want - 1) != BELGWYTH_NO_SPACE)
        abort();
    for (i = 0; i < want - 1; i++)
        if (out[i] != 0xA5)
            abort();
    walk(expected, want);
    return 0;
}
