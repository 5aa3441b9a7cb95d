/*
 * A host program: maps a job, lights its crossbar under every setting of its switches, and prints each output's reading beside the
 * value that the diagram itself gives, and at the end how late each output's row can be lit, from which a sense delay can be set:
 *
 *     cc -std=c99 -Iinclude examples/host.c target/staticlib/libcrossbar.a -o host
 *     ./host [job file]
 *
 * Without a file it takes the half adder below. The exit status is 1 where a job is refused or a reading is not the diagram's.
 */
#include "crossbar.h"

#include <stdio.h>
#include <string.h>

/* Switch 0 is A, switch 1 is B. Output 0 is the sum, output 1 the carry. */
static const char half_adder[] =
    "(job 2 4 2)\n"
    "(one h)\n"
    "(node 2 1 (0 1) v)\n" /* B */
    "(node 3 1 (1 0) v)\n" /* not B */
    "(node 4 0 (2 3) h)\n" /* A and B differ */
    "(node 5 0 (0 2) h)\n" /* A and B */
    "(out 0 4)\n"
    "(out 1 5)\n"
    "(end)\n";

/* More bytes than any job has, and the most switches for which every setting is tried. */
#define MAX_TEXT 65536
#define MAX_TRIED 16

static uint8_t text[MAX_TEXT];
static uint8_t record[CROSSBAR_RECORD_BYTES];
static uint8_t cells[CROSSBAR_MAX_CELLS];
static uint8_t first_rounds[CROSSBAR_MAX_FIRST_ROUNDS_BYTES];
static uint8_t listing[CROSSBAR_MAX_LISTING];

/* Says why a call was refused. */
static int refused(const char *call, uint64_t answer)
{
    fprintf(stderr, "%s: refused %u, line %u\n", call, CROSSBAR_NUMBER(answer), (unsigned)CROSSBAR_LINE(answer));
    return 1;
}

/* The job: of the file, or the half adder. 1 where the file cannot be opened, which is said. */
static int read_job(const char *name, size_t *length)
{
    FILE *file;

    if (name == NULL) {
        *length = strlen(half_adder);
        memcpy(text, half_adder, *length);
        return 0;
    }
    file = fopen(name, "rb");
    if (file == NULL) {
        perror(name);
        return 1;
    }
    *length = fread(text, 1, sizeof text, file);
    fclose(file);
    return 0;
}

/*
 * Lights the crossbar under one setting: a line for each output. Raises each output's latest first round, and counts the readings that
 * are not the diagram's value.
 */
static int show(size_t length, const uint8_t *setting, unsigned *latest, unsigned *wrong)
{
    unsigned switches = crossbar_switches(record), output, i;
    uint64_t answer = crossbar_light(record, sizeof record, cells, sizeof cells, setting, switches, first_rounds, sizeof first_rounds);

    if (CROSSBAR_NUMBER(answer) != 0)
        return refused("light", answer);
    for (output = 0; output < crossbar_outputs(record); output++) {
        unsigned reading = crossbar_reads(record, first_rounds, output);
        unsigned first_round = crossbar_row_first_round(first_rounds, crossbar_output_row(record, output));
        uint64_t value = crossbar_walk(text, length, setting, switches, output);
        if (CROSSBAR_NUMBER(value) != 0)
            return refused("walk", value);
        printf("setting ");
        for (i = 0; i < switches; i++)
            putchar('0' + setting[i]);
        printf(", %u rounds, output %u: reads %u, walks %u\n", (unsigned)CROSSBAR_VALUE(answer), output, reading,
               (unsigned)CROSSBAR_VALUE(value));
        *wrong += reading != CROSSBAR_VALUE(value);
        if (first_round > latest[output])
            latest[output] = first_round;
    }
    return 0;
}

/* Every setting, and then the latest round in which each output's row was first lit. A first round is 1 plus the round. */
static int show_all(size_t length)
{
    unsigned latest[CROSSBAR_MAX_OUTPUTS] = {0}, switches = crossbar_switches(record), output, i, wrong = 0;
    uint8_t setting[CROSSBAR_MAX_SWITCHES];
    uint32_t number;

    if (switches > MAX_TRIED) {
        printf("%u switches have too many settings to try them all\n", switches);
        return 0;
    }
    for (number = 0; number < (uint32_t)1 << switches; number++) {
        for (i = 0; i < switches; i++)
            setting[i] = (uint8_t)(number >> i & 1);
        if (show(length, setting, latest, &wrong) != 0)
            return 1;
    }
    for (output = 0; output < crossbar_outputs(record); output++)
        if (latest[output] == 0)
            printf("output %u: never lit\n", output);
        else
            printf("output %u: lit after %u rounds at the latest\n", output, latest[output] - 1);
    return wrong != 0;
}

int main(int argc, char **argv)
{
    size_t length;
    uint64_t answer;

    if (read_job(argc > 1 ? argv[1] : NULL, &length) != 0)
        return 1;

    /* Its crossbar: a record and cells. The cells' buffer is longer than they are, and zeros past them are right. */
    answer = crossbar_map(text, length, record, sizeof record, cells, sizeof cells);
    if (CROSSBAR_NUMBER(answer) != 0)
        return refused("map", answer);

    /* The listing. */
    answer = crossbar_print(record, sizeof record, cells, sizeof cells, listing, sizeof listing);
    if (CROSSBAR_NUMBER(answer) != 0)
        return refused("print", answer);
    fwrite(listing, 1, (size_t)CROSSBAR_VALUE(answer), stdout);

    /* The readings. */
    return show_all(length);
}
