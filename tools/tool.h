/*
 * What the files of the command `crossbar` share. The command is a C program over the library: the five calls that it makes are
 * proved, the command itself is tested and not proved.
 */
#ifndef TOOL_H
#define TOOL_H

#include "crossbar.h"

#include <stdio.h>

/* Exit statuses: done; refused by a call, or a reading that is not the walk's value; bad usage, or input or output failed. */
enum { DONE = 0, REFUSED = 1, FAILED = 2 };

/* The most files that a subcommand takes. */
#define MAX_FILES 2

/* What a subcommand's file may be, as bits. */
enum { TAKES_JOB = 1, TAKES_LISTING = 2 };

/*
 * What was asked for: the subcommand's name, what its file may be, the words that are no options, the options' values, NULL where not
 * given, and whether --help is among the words.
 */
struct request {
    const char *command;
    unsigned takes;
    const char *words[MAX_FILES];
    size_t word_count;
    const char *set;
    const char *output;
    const char *title;
    int help;
};

/* A whole file: its name for messages, its bytes with a NUL after them, and their number. */
struct text {
    const char *name;
    uint8_t *bytes;
    size_t length;
};

struct crossbar {
    uint8_t record[CROSSBAR_RECORD_BYTES];
    uint8_t cells[CROSSBAR_MAX_CELLS];
};

/* One byte more than a setting may have, so that a longer one reaches the call and is refused by it. */
struct setting {
    uint8_t bytes[CROSSBAR_MAX_SWITCHES + 1];
    size_t length;
};

/* explain.c */
void explain_number(FILE *to, unsigned number);
int explain(const struct request *request);

/* input.c: each answers an exit status and says on standard error what went wrong. */
int failed(const struct request *request, const char *name, const char *why);
int refused(const struct request *request, const struct text *text, uint64_t answer);
int read_text(const struct request *request, size_t place, struct text *text);
void free_text(struct text *text);
int read_setting(const struct request *request, struct setting *setting);
int read_output(const struct request *request, uint32_t *output);
int map_text(const struct request *request, const struct text *text, struct crossbar *crossbar);
int take_crossbar(const struct request *request, struct text *text, struct crossbar *crossbar);

/* The subcommands. */
int run_map(const struct request *request);
int run_walk(const struct request *request);
int run_light(const struct request *request);
int run_print(const struct request *request);
int run_load(const struct request *request);
int run_table(const struct request *request);
int run_draw(const struct request *request);
int run_dot(const struct request *request);

#endif
