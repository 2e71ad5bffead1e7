/*
 * Measures the stack that each published operation needs: calls it on a stack of its own, filled with a pattern before, and
 * looks for the lowest byte that changed. Prints a line for each operation: its name and the most bytes of all its calls.
 * The designs are the files named on the command line, also cut short at every byte; each is joined with the one named
 * before it and with itself.
 */
#define _GNU_SOURCE
#include "jestrunas.h"
#include <stdio.h>
#include <stdlib.h>
#include <string.h>
#include <ucontext.h>

enum { ROOM = 1 << 16, PATTERN = 0xa5 };

static uint8_t stack[ROOM] __attribute__((aligned(4096)));
static uint8_t file[1 << 20], other[sizeof file], workspace[JESTRUNAS_WORKSPACE_MAX], output[JESTRUNAS_PRODUCED_MAX], table[64];
static const uint8_t *placement;
static size_t file_len, other_len, width, shares, table_len, placement_len;
static jestrunas_shares_t given;
static ucontext_t here, there;

static void call_nothing(void) { __asm__ volatile("" ::: "memory"); }
static void call_read(void) { jestrunas_read(file, file_len); }
static void call_forecast(void) { jestrunas_forecast(file, file_len); }
static void call_judge(void) { jestrunas_judge(file, file_len, workspace, sizeof workspace); }
static void call_run(void) { jestrunas_run(file, file_len, given); }
static void call_produce(void) {
    jestrunas_produce(width, shares, table, table_len, placement, placement_len, output, sizeof output);
}
static void call_join(void) { jestrunas_join(file, file_len, other, other_len, output, sizeof output); }
static void call_transform(void) { jestrunas_transform(width, table, table_len, output, sizeof output); }

/* How many bytes of the stack a call changes, from the top down. */
static size_t changed(void (*call)(void)) {
    size_t lowest = 0;
    memset(stack, PATTERN, sizeof stack);
    getcontext(&there);
    there.uc_stack.ss_sp = stack;
    there.uc_stack.ss_size = sizeof stack;
    there.uc_link = &here;
    makecontext(&there, call, 0);
    swapcontext(&here, &there);
    while (lowest < sizeof stack && stack[lowest] == PATTERN) lowest++;
    return sizeof stack - lowest;
}

static struct {
    const char *name;
    void (*call)(void);
    size_t most;
} operations[] = {
    {"read", call_read, 0},
    {"forecast", call_forecast, 0},
    {"judge", call_judge, 0},
    {"run", call_run, 0},
    {"produce", call_produce, 0},
    {"join", call_join, 0},
    {"transform", call_transform, 0},
};
enum { READ, FORECAST, JUDGE, RUN, PRODUCE, JOIN, TRANSFORM, COUNT };

static void measure(int i) {
    size_t bytes = changed(operations[i].call);
    if (bytes > operations[i].most) operations[i].most = bytes;
}

/* A file, and its cuts. The other file is the one before and, at the end, this one. */
static void measure_file(const char *name) {
    FILE *f = fopen(name, "rb");
    if (!f) {
        fprintf(stderr, "stack: no file %s\n", name);
        exit(1);
    }
    size_t whole = fread(file, 1, sizeof file, f);
    fclose(f);
    for (file_len = 0; file_len <= whole; file_len++) {
        measure(READ);
        measure(FORECAST);
        measure(JUDGE);
        measure(RUN);
        measure(JOIN);
    }
    memcpy(other, file, whole);
    file_len = whole;
    for (size_t cut = 0; cut <= whole; cut++) {
        other_len = cut;
        measure(JOIN);
    }
}

/* The table that adds the product of its lowest bits, as many as `degree`, to the bit after them, by the published placements. */
static void measure_table(size_t degree) {
    const uint8_t *placements[] = {jestrunas_placement_3, jestrunas_placement_4, jestrunas_placement_5};
    table_len = (size_t)1 << width;
    for (size_t x = 0; x < table_len; x++) {
        size_t all = ((size_t)1 << degree) - 1;
        table[x] = (uint8_t)((x & all) == all ? x ^ (all + 1) : x);
    }
    for (shares = JESTRUNAS_SHARES_MIN; shares <= JESTRUNAS_SHARES_MAX; shares++) {
        placement = placements[shares - JESTRUNAS_SHARES_MIN];
        placement_len = ((size_t)1 << shares) - 2;
        measure(PRODUCE);
    }
    measure(TRANSFORM);
}

int main(int argc, char **argv) {
    for (int i = 1; i < argc; i++) measure_file(argv[i]);
    for (width = 1; width <= JESTRUNAS_WIDTH_MAX; width++)
        for (size_t degree = 0; degree < width; degree++) measure_table(degree);
    size_t nothing = changed(call_nothing);
    for (int i = 0; i < COUNT; i++) printf("%s %zu\n", operations[i].name, operations[i].most - nothing);
    return 0;
}
