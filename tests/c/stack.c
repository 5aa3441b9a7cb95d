/*
 * How much stack a call touches: each call runs on a stack of its own that was filled with one byte before. The header's
 * CROSSBAR_STACK must be enough. Prints the largest number.
 */
#define _XOPEN_SOURCE 700
#include "crossbar.h"

#include <stdio.h>
#include <stdlib.h>
#include <string.h>
#include <ucontext.h>

#define STACK_ROOM (1 << 20)
#define FILL 0x5a

static uint8_t *stack;
static ucontext_t here, there;
static uint8_t text[65536], listing[CROSSBAR_MAX_LISTING];
static uint8_t record[CROSSBAR_RECORD_BYTES], full_record[CROSSBAR_RECORD_BYTES], out_record[CROSSBAR_RECORD_BYTES];
static uint8_t cells[CROSSBAR_MAX_CELLS], full[CROSSBAR_MAX_CELLS], stair[CROSSBAR_MAX_CELLS], out_cells[CROSSBAR_MAX_CELLS];
static uint8_t first_rounds[CROSSBAR_MAX_FIRST_ROUNDS_BYTES], setting[CROSSBAR_MAX_SWITCHES];
static size_t text_length, listing_length;
static uint64_t answer;

static void nothing(void) { answer = 0; }
static void map(void) { answer = crossbar_map(text, text_length, record, sizeof record, cells, sizeof cells); }
static void walk(void) { answer = crossbar_walk(text, text_length, setting, sizeof setting, 0); }
static void print(void) { answer = crossbar_print(full_record, sizeof full_record, full, sizeof full, listing, sizeof listing); }
static void load(void)
{
    answer = crossbar_load(listing, listing_length, out_record, sizeof out_record, out_cells, sizeof out_cells);
}
static void light(void)
{
    answer = crossbar_light(full_record, sizeof full_record, stair, sizeof stair, setting, sizeof setting, first_rounds,
                            sizeof first_rounds);
}
static void refuse(void) { answer = crossbar_map(text, text_length - 1, record, sizeof record, cells, sizeof cells); }

/* The number of bytes between the lowest one that was touched and the top. */
static long touched(void (*call)(void))
{
    long low = 0;
    memset(stack, FILL, STACK_ROOM);
    getcontext(&there);
    there.uc_stack.ss_sp = stack;
    there.uc_stack.ss_size = STACK_ROOM;
    there.uc_link = &here;
    makecontext(&there, call, 0);
    swapcontext(&here, &there);
    while (low < STACK_ROOM && stack[low] == FILL)
        low++;
    return STACK_ROOM - low;
}

static char *node(char *at, int id, int level, int low, int high)
{
    return at + sprintf(at, "(node %d %d (%d %d) %c)\n", id, level, low, high, level % 2 ? 'v' : 'h');
}

/*
 * The parity of 64 switches, so that a walk from the top passes every switch, and more nodes on each level: 254 nodes, 32 outputs, 128
 * rows and 127 columns.
 */
static void make_job(void)
{
    char *at = (char *)text;
    int level, id = 2, odd = 0, even = 1, top = 0, j;
    at += sprintf(at, "(job 64 254 32)\n(one h)\n");
    for (level = 63; level >= 0; level--) {
        top = id;
        at = node(at, id++, level, odd, even);
        at = node(at, id++, level, even, odd);
        if (level < 63)
            at = node(at, id++, level, 0, odd);
        if (level < 63 && level > 0)
            at = node(at, id++, level, odd, 0);
        if (level == 1)
            at = node(at, id++, level, 0, even);
        odd = top;
        even = top + 1;
    }
    for (j = 0; j < 32; j++)
        at += sprintf(at, "(out %d %d)\n", j, top);
    at += sprintf(at, "(end)\n");
    text_length = (size_t)(at - (char *)text);
}

/* 128 by 128: every cell `yes 63`, and a stair through every wire. */
static void make_crossbar(void)
{
    size_t i;
    crossbar_start_record(full_record, 128, 128, 64, 32);
    memset(full, 128, sizeof full);
    for (i = 0; i < 128; i++) {
        stair[i * 128 + i] = 1;
        if (i > 0)
            stair[i * 128 + i - 1] = 1;
    }
}

int main(void)
{
    static const struct {
        const char *name;
        void (*call)(void);
        uint64_t number;
        uint64_t value;
    } calls[] = {
        {"map", map, 0, 128 * 127},    {"walk", walk, 0, 1},          {"print", print, 0, 0},
        {"load", load, 0, 128 * 128}, {"light", light, 0, 255},      {"refusal", refuse, 1, 289},
    };
    size_t i;
    long own, most = 0;
    int failed = 0;
    stack = (uint8_t *)malloc(STACK_ROOM);
    if (stack == NULL)
        return 1;
    make_job();
    make_crossbar();
    setting[0] = 1;
    touched(nothing);
    own = touched(nothing);
    for (i = 0; i < sizeof calls / sizeof calls[0]; i++) {
        long used = touched(calls[i].call) - own;
        if (calls[i].call == print)
            listing_length = (size_t)CROSSBAR_VALUE(answer);
        else if (CROSSBAR_VALUE(answer) != calls[i].value)
            failed = 1;
        if (CROSSBAR_NUMBER(answer) != calls[i].number)
            failed = 1;
        if (used > CROSSBAR_STACK || failed) {
            printf("%s: %ld bytes of stack, refused %u, value %lu\n", calls[i].name, used, CROSSBAR_NUMBER(answer),
                   (unsigned long)CROSSBAR_VALUE(answer));
            failed = 1;
        }
        if (used > most)
            most = used;
    }
    printf("at most %ld bytes of stack\n", most);
    free(stack);
    return failed;
}
