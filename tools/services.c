/* The subcommands that show one call's answer: map, walk, light, print, load. */
#include "tool.h"

#include <stdlib.h>

/* Writes the listing of a crossbar to standard output. */
static int write_listing(const struct request *request, const struct text *text, const struct crossbar *crossbar)
{
    uint8_t *listing = (uint8_t *)malloc(CROSSBAR_MAX_LISTING);
    uint64_t answer;

    if (listing == NULL)
        return failed(request, text->name, "not enough memory");
    answer = crossbar_print(crossbar->record, sizeof crossbar->record, crossbar->cells, sizeof crossbar->cells, listing,
                            CROSSBAR_MAX_LISTING);
    if (CROSSBAR_NUMBER(answer) == 0)
        fwrite(listing, 1, (size_t)CROSSBAR_VALUE(answer), stdout);
    free(listing);
    return CROSSBAR_NUMBER(answer) == 0 ? DONE : refused(request, text, answer);
}

int run_map(const struct request *request)
{
    struct text text;
    struct crossbar crossbar;
    int status = read_text(request, 0, &text);

    if (status != DONE)
        return status;
    status = map_text(request, &text, &crossbar);
    if (status == DONE)
        status = write_listing(request, &text, &crossbar);
    free_text(&text);
    return status;
}

int run_print(const struct request *request)
{
    struct text text;
    struct crossbar crossbar;
    int status = take_crossbar(request, &text, &crossbar);

    if (status != DONE)
        return status;
    status = write_listing(request, &text, &crossbar);
    free_text(&text);
    return status;
}

int run_load(const struct request *request)
{
    struct text text;
    struct crossbar crossbar;
    unsigned row, column, used = 0;
    int status = take_crossbar(request, &text, &crossbar);

    if (status != DONE)
        return status;
    for (row = 0; row < crossbar_rows(crossbar.record); row++)
        for (column = 0; column < crossbar_columns(crossbar.record); column++)
            used += crossbar_cell(crossbar.record, crossbar.cells, row, column) != CROSSBAR_OFF;
    printf("rows %u, columns %u, switches %u, outputs %u, cells that are not off %u\n", crossbar_rows(crossbar.record),
           crossbar_columns(crossbar.record), crossbar_switches(crossbar.record), crossbar_outputs(crossbar.record), used);
    free_text(&text);
    return DONE;
}

/* The walk of one output, printed. */
static int walk_one(const struct request *request, const struct text *text, const struct setting *setting, uint32_t output)
{
    uint64_t answer = crossbar_walk(text->bytes, text->length, setting->bytes, setting->length, output);

    if (CROSSBAR_NUMBER(answer) != 0)
        return refused(request, text, answer);
    printf("output %lu: %u\n", (unsigned long)output, (unsigned)CROSSBAR_VALUE(answer));
    return DONE;
}

/* The walks of the output that --output names, or of all outputs of the job. */
static int walk_outputs(const struct request *request, const struct text *text, const struct setting *setting)
{
    struct crossbar crossbar;
    uint32_t output = 0;
    int status;

    if (request->output != NULL) {
        status = read_output(request, &output);
        return status == DONE ? walk_one(request, text, setting, output) : status;
    }
    status = map_text(request, text, &crossbar);
    for (; status == DONE && output < crossbar_outputs(crossbar.record); output++)
        status = walk_one(request, text, setting, output);
    return status;
}

int run_walk(const struct request *request)
{
    struct text text;
    struct setting setting;
    int status = read_setting(request, &setting);

    if (status == DONE)
        status = read_text(request, 0, &text);
    if (status != DONE)
        return status;
    status = walk_outputs(request, &text, &setting);
    free_text(&text);
    return status;
}

/* When a lit wire was first lit. Row 0 is lit before the first round, and its number is 1. */
static void say_when(unsigned first_round)
{
    if (first_round == 1)
        printf("lit before round 1");
    else
        printf("first lit in round %u", first_round - 1);
}

/* A line with the wires that have this first round: one at least, since every round lights a wire. */
static void say_round(const uint8_t *record, const uint8_t *first_rounds, unsigned first_round)
{
    const char *before = ":";
    unsigned i;

    say_when(first_round);
    for (i = 0; i < crossbar_rows(record); i++)
        if (crossbar_row_first_round(first_rounds, i) == first_round) {
            printf("%s row %u", before, i);
            before = ",";
        }
    for (i = 0; i < crossbar_columns(record); i++)
        if (crossbar_column_first_round(record, first_rounds, i) == first_round) {
            printf("%s column %u", before, i);
            before = ",";
        }
    printf("\n");
}

/* What light answered, in words. */
static void say_light(const uint8_t *record, const uint8_t *first_rounds, unsigned rounds)
{
    unsigned i, row;

    printf("rounds: %u\n", rounds);
    for (i = 0; i <= rounds; i++)
        say_round(record, first_rounds, i + 1);
    for (i = 0; i < crossbar_outputs(record); i++) {
        row = crossbar_output_row(record, i);
        printf("output %u on row %u reads %u", i, row, crossbar_reads(record, first_rounds, i));
        if (crossbar_row_lit(first_rounds, row)) {
            printf(", ");
            say_when(crossbar_row_first_round(first_rounds, row));
        }
        printf("\n");
    }
}

int run_light(const struct request *request)
{
    struct text text;
    struct crossbar crossbar;
    struct setting setting;
    uint8_t first_rounds[CROSSBAR_MAX_FIRST_ROUNDS_BYTES];
    uint64_t answer;
    int status = read_setting(request, &setting);

    if (status == DONE)
        status = take_crossbar(request, &text, &crossbar);
    if (status != DONE)
        return status;
    answer = crossbar_light(crossbar.record, sizeof crossbar.record, crossbar.cells, sizeof crossbar.cells, setting.bytes,
                            setting.length, first_rounds, sizeof first_rounds);
    if (CROSSBAR_NUMBER(answer) == 0)
        say_light(crossbar.record, first_rounds, (unsigned)CROSSBAR_VALUE(answer));
    else
        status = refused(request, &text, answer);
    free_text(&text);
    return status;
}
