/*
 * What the calls for C need of stack: each runs on a stack of its own that was filled with one byte before, and the bytes from the lowest
 * that differs on are counted. Prints a line for each call; exit status 1 where one needs more than include/belgwyth.h says, or was not
 * tried.
 *
 * usage: stack LOAD.. -- SHOW..
 */
#include <stdio.h>
#include <stdlib.h>
#include <string.h>
#include <ucontext.h>

#include "belgwyth.h"

#define STACK (1 << 20)
#define FILL 0xA5

static uint8_t stack[STACK], in[1 << 20], out[1 << 22];
static size_t length;
static ucontext_t here, there;

static void nothing(void) {}
static void listing(void) { (void)belgwyth_listing(in, length, out, sizeof out); }
static void listing_short(void) { (void)belgwyth_listing(in, length, out, 0); }
static void beat(void) { (void)belgwyth_beat(in, length, out, sizeof out); }
static void beat_short(void) { (void)belgwyth_beat(in, length, out, 0); }
static void workload(void) { (void)belgwyth_workload(1, BELGWYTH_WORKLOAD_MAX_COUNT, out, sizeof out); }

/* The bytes of stack that a call touches. */
static size_t touched(void (*call)(void))
{
    size_t i = 0;

    memset(stack, FILL, sizeof stack);
    if (getcontext(&there) != 0)
        exit(2);
    there.uc_stack.ss_sp = stack;
    there.uc_stack.ss_size = sizeof stack;
    there.uc_link = &here;
    makecontext(&there, call, 0);
    if (swapcontext(&here, &there) != 0)
        exit(2);
    while (i < sizeof stack && stack[i] == FILL)
        i++;
    return sizeof stack - i;
}

static size_t larger(size_t a, size_t b) { return a < b ? b : a; }

/* One file into `in`. */
static void take(const char *name)
{
    FILE *file = fopen(name, "rb");

    if (file == NULL) {
        perror(name);
        exit(2);
    }
    length = fread(in, 1, sizeof in, file);
    fclose(file);
}

static int told(const char *name, size_t most, size_t said)
{
    printf("%s: %zu bytes of stack, %zu said\n", name, most, said);
    return most == 0 || said < most;
}

int main(int argc, char **argv)
{
    size_t base = touched(nothing), listings = 0, beats = 0;
    int i, wrong;

    for (i = 1; i < argc && strcmp(argv[i], "--") != 0; i++) {
        take(argv[i]);
        listings = larger(listings, larger(touched(listing), touched(listing_short)) - base);
    }
    for (i++; i < argc; i++) {
        take(argv[i]);
        beats = larger(beats, larger(touched(beat), touched(beat_short)) - base);
    }
    wrong = told("belgwyth_listing", listings, BELGWYTH_LISTING_STACK);
    wrong |= told("belgwyth_beat", beats, BELGWYTH_BEAT_STACK);
    wrong |= told("belgwyth_workload", touched(workload) - base, BELGWYTH_WORKLOAD_STACK);
    return wrong;
}
