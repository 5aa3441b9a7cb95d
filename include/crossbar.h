/*
 * The COMPACT crossbar mapper and the test of its crossbars: map, walk, light, print and load on byte slices.
 *
 * A slice is a pointer and then its length in bytes. A pointer may be NULL only where its length is 0. A call reads and writes
 * nothing outside its slices; an output slice must not overlap any other slice of the same call. While a call runs, nothing else
 * may write to its slices or read its output slices. No call allocates, keeps a pointer, or has state of its own, so calls in
 * several threads on slices of their own need no lock. CROSSBAR_STACK bytes of stack are enough for every call at the largest
 * sizes; that is measured by a test and not proved.
 *
 * Every call answers one number. Its highest byte is the refusal's number, 0 where nothing is refused; the rest is then the value
 * that the call's comment names, and after a refusal the line, 0 where the ground has none. After a refusal every output slice
 * holds zeros. Otherwise the bytes past the answer are 0. What an output slice held before never matters.
 *
 * What the library needs of the host: the two functions memcpy and memset of the C standard, and nothing else: no allocator, no
 * input or output, no start-up code. A host without a C library has to give these two. The code is for x86-64 with the calling
 * convention of Linux (System V), and it is position independent.
 *
 * The five calls are proved. The macros and the small functions of this file are C; they are tested and not proved.
 */
#ifndef CROSSBAR_H
#define CROSSBAR_H

#include <stddef.h>
#include <stdint.h>

#ifdef __cplusplus
extern "C" {
#endif

/*
 * The version of this header and of the library that belongs to it. The first figure rises where a host has to change: a call, a
 * text, a record or an answer means something else than before. The second rises where something is added.
 */
#define CROSSBAR_VERSION_MAJOR 2
#define CROSSBAR_VERSION_MINOR 0
#define CROSSBAR_VERSION_PATCH 0
#define CROSSBAR_VERSION "2.0.0"

/* Limits. */
#define CROSSBAR_MAX_ROWS 128
#define CROSSBAR_MAX_COLUMNS 128
#define CROSSBAR_MAX_SWITCHES 64
#define CROSSBAR_MAX_NODES 254
#define CROSSBAR_MAX_OUTPUTS 32

/* Sizes that are always enough for a slice, in bytes. A record takes CROSSBAR_RECORD_BYTES. */
#define CROSSBAR_RECORD_BYTES 72
#define CROSSBAR_MAX_CELLS (CROSSBAR_MAX_ROWS * CROSSBAR_MAX_COLUMNS)
#define CROSSBAR_MAX_FIRST_ROUNDS_BYTES (2 * (CROSSBAR_MAX_ROWS + CROSSBAR_MAX_COLUMNS))
#define CROSSBAR_MAX_LISTING 393728
#define CROSSBAR_STACK 24576

/* The parts of an answer: the number of refusal, the value where it is 0, the line where it is not. */
#define CROSSBAR_NUMBER(answer) ((unsigned)((uint64_t)(answer) >> 56))
#define CROSSBAR_VALUE(answer) ((uint64_t)(answer) & (((uint64_t)1 << 56) - 1))
#define CROSSBAR_LINE(answer) CROSSBAR_VALUE(answer)

/* The numbers of refusal. */
#define CROSSBAR_NOT_THE_FORM 1        /* the line is missing or not the form due */
#define CROSSBAR_OUT_OF_RANGE 2        /* a figure of the first line is outside its range */
#define CROSSBAR_NOT_NEXT 3            /* a node's or an output's number is not the next in turn */
#define CROSSBAR_SWITCH 4              /* a node's switch is not below V */
#define CROSSBAR_CHILD 5               /* a child is not below its node, or an output names an id above N + 1 */
#define CROSSBAR_ORDER 6               /* a child other than 0 and 1 has a switch not above its parent's */
#define CROSSBAR_SAME_CHILDREN 7       /* both children are the same */
#define CROSSBAR_DOUBLED 8             /* an earlier node has the same switch and children */
#define CROSSBAR_LABEL 9               /* terminal 1 or an output's node is `v`, or a node and a child other than 0 are both
                                          `h` or both `v` */
#define CROSSBAR_AFTER_END 10          /* bytes follow `(end)` */
#define CROSSBAR_TOO_LARGE 11          /* more than 128 rows or columns */
#define CROSSBAR_BAD_CROSSBAR 12       /* a listing's cell, switch or output row is out of place; in a record also a size, a
                                          code, a slice too short, a byte past the record or the cells, an unused output row */
#define CROSSBAR_SETTING 13            /* the setting is not V bytes of 0 or 1, or the output number is not below K */
#define CROSSBAR_SHORT_BUFFER 14       /* an output slice is shorter than the answer */
#define CROSSBAR_UNSETTLED 15          /* the light is not at rest after R + C - 1 rounds; proved never to come */
#define CROSSBAR_LAST_NUMBER 15

/* The codes of the cells that have no switch, and of those that have one; x is below CROSSBAR_MAX_SWITCHES. */
#define CROSSBAR_OFF 0
#define CROSSBAR_ON 1
#define CROSSBAR_YES(x) ((uint8_t)(2 + 2 * (x))) /* passes when switch x is 1 */
#define CROSSBAR_NO(x) ((uint8_t)(3 + 2 * (x)))  /* passes when switch x is 0 */

/*
 * A record is CROSSBAR_RECORD_BYTES bytes: 36 numbers of two bytes each, low byte first: R rows, C columns, V switches, K outputs,
 * and 32 output rows, the unused ones 0. Cells are R * C bytes, row by row: 0 off, 1 on, 2 + 2 * x passes when switch x is 1,
 * 3 + 2 * x passes when it is 0. A setting is V bytes, each 0 or 1, switch 0 first. A slice of a record or of cells may be longer
 * than these, with zeros past them. The functions after the calls read and write these bytes, so that a host need not count them.
 */

/* Job text in; record and cells out. Value: R * C. Refuses 1 to 11, then 14 for a record slice or a cell slice too short. */
uint64_t crossbar_map(const uint8_t *text, size_t text_length,
                      uint8_t *record, size_t record_length,
                      uint8_t *cells, size_t cells_length);

/* Job text, setting and output number in. Value: the diagram's value, 0 or 1. Refuses 1 to 11, then 13. */
uint64_t crossbar_walk(const uint8_t *text, size_t text_length,
                       const uint8_t *setting, size_t setting_length,
                       uint32_t output);

/*
 * Record, cells and setting in; first rounds out: for each wire, rows and then columns, a number of two bytes, low byte first, 0 if
 * the wire is dark, otherwise 1 plus the round in which it was first lit. Row 0 is lit before round 1, so its number is 1. Value: the
 * count of rounds; the largest number is 1 more. Refuses 12 (also a record slice that is shorter than a record, or has a byte past it
 * other than 0), 13, 14 for fewer than 2 * (R + C) bytes, 15.
 */
uint64_t crossbar_light(const uint8_t *record, size_t record_length,
                        const uint8_t *cells, size_t cells_length,
                        const uint8_t *setting, size_t setting_length,
                        uint8_t *first_rounds, size_t first_rounds_length);

/* Record and cells in; listing text out. Value: the text's length. Refuses 12 (as light does), 14. */
uint64_t crossbar_print(const uint8_t *record, size_t record_length,
                        const uint8_t *cells, size_t cells_length,
                        uint8_t *text, size_t text_length);

/* Listing text in; record and cells out. Value: R * C. Refuses 1, 2, 3, 12 by line, then 10, then 14. */
uint64_t crossbar_load(const uint8_t *text, size_t text_length,
                       uint8_t *record, size_t record_length,
                       uint8_t *cells, size_t cells_length);

/*
 * The number at a place of a record or of first rounds, two bytes a number, low byte first. In a record: 0 rows, 1 columns, 2 switches,
 * 3 outputs, 4 + j the row of output j. In first rounds: r row r, R + c column c.
 */
static inline unsigned crossbar_number_at(const uint8_t *bytes, unsigned place)
{
    return bytes[2 * place] + 256u * bytes[2 * place + 1];
}

static inline void crossbar_put_number(uint8_t *record, unsigned place, unsigned number)
{
    record[2 * place] = (uint8_t)(number % 256);
    record[2 * place + 1] = (uint8_t)(number / 256);
}

/* What a record says. An output is below CROSSBAR_MAX_OUTPUTS. */
static inline unsigned crossbar_rows(const uint8_t *record)
{
    return crossbar_number_at(record, 0);
}

static inline unsigned crossbar_columns(const uint8_t *record)
{
    return crossbar_number_at(record, 1);
}

static inline unsigned crossbar_switches(const uint8_t *record)
{
    return crossbar_number_at(record, 2);
}

static inline unsigned crossbar_outputs(const uint8_t *record)
{
    return crossbar_number_at(record, 3);
}

static inline unsigned crossbar_output_row(const uint8_t *record, unsigned output)
{
    return crossbar_number_at(record, 4 + output);
}

/* A record of these sizes, each of its outputs on row 0. */
static inline void crossbar_start_record(uint8_t *record, unsigned rows, unsigned columns, unsigned switches, unsigned outputs)
{
    unsigned output;

    crossbar_put_number(record, 0, rows);
    crossbar_put_number(record, 1, columns);
    crossbar_put_number(record, 2, switches);
    crossbar_put_number(record, 3, outputs);
    for (output = 0; output < CROSSBAR_MAX_OUTPUTS; output++)
        crossbar_put_number(record, 4 + output, 0);
}

static inline void crossbar_put_output_row(uint8_t *record, unsigned output, unsigned row)
{
    crossbar_put_number(record, 4 + output, row);
}

/* The cell where a row and a column meet: its code, read and written. */
static inline uint8_t crossbar_cell(const uint8_t *record, const uint8_t *cells, unsigned row, unsigned column)
{
    return cells[(size_t)row * crossbar_columns(record) + column];
}

static inline void crossbar_put_cell(const uint8_t *record, uint8_t *cells, unsigned row, unsigned column, uint8_t code)
{
    cells[(size_t)row * crossbar_columns(record) + column] = code;
}

/* A code: has it a switch, which one, and does it pass when that switch is 1 (else when it is 0)? */
static inline int crossbar_has_switch(uint8_t code)
{
    return code > CROSSBAR_ON;
}

static inline unsigned crossbar_switch_of(uint8_t code)
{
    return (code - 2u) / 2u;
}

static inline int crossbar_passes_at_one(uint8_t code)
{
    return code % 2 == 0;
}

/*
 * What light gave: a row's or a column's first round, 0 if it is dark, otherwise 1 plus the round in which it was first lit. The round
 * is the number less 1.
 */
static inline unsigned crossbar_row_first_round(const uint8_t *first_rounds, unsigned row)
{
    return crossbar_number_at(first_rounds, row);
}

static inline unsigned crossbar_column_first_round(const uint8_t *record, const uint8_t *first_rounds, unsigned column)
{
    return crossbar_number_at(first_rounds, crossbar_rows(record) + column);
}

/* And what follows from it: 1 where a row, a column or an output's row is lit, else 0. */
static inline unsigned crossbar_row_lit(const uint8_t *first_rounds, unsigned row)
{
    return crossbar_row_first_round(first_rounds, row) != 0;
}

static inline unsigned crossbar_column_lit(const uint8_t *record, const uint8_t *first_rounds, unsigned column)
{
    return crossbar_column_first_round(record, first_rounds, column) != 0;
}

static inline unsigned crossbar_reads(const uint8_t *record, const uint8_t *first_rounds, unsigned output)
{
    return crossbar_row_lit(first_rounds, crossbar_output_row(record, output));
}

#ifdef __cplusplus
}
#endif

#endif
