/*
 * The header by itself: it needs no other header before it, may be included twice, declares the five calls as they are linked, and
 * its small functions read and write what the calls do. C99 and C++.
 */
#include "crossbar.h"
#include "crossbar.h"

#ifdef CROSSBAR_MAX_WIRES
#error "the size of an answer that light does not give is still named"
#endif

typedef char record_bytes[CROSSBAR_RECORD_BYTES == 72 ? 1 : -1];
typedef char max_rows[CROSSBAR_MAX_ROWS == 128 ? 1 : -1];
typedef char max_columns[CROSSBAR_MAX_COLUMNS == 128 ? 1 : -1];
typedef char max_switches[CROSSBAR_MAX_SWITCHES == 64 ? 1 : -1];
typedef char max_nodes[CROSSBAR_MAX_NODES == 254 ? 1 : -1];
typedef char max_outputs[CROSSBAR_MAX_OUTPUTS == 32 ? 1 : -1];
typedef char max_cells[CROSSBAR_MAX_CELLS == 16384 ? 1 : -1];
typedef char max_listing[CROSSBAR_MAX_LISTING == 393728 ? 1 : -1];
typedef char max_first_rounds[CROSSBAR_MAX_FIRST_ROUNDS_BYTES == 512 ? 1 : -1];
typedef char last_number[CROSSBAR_LAST_NUMBER == CROSSBAR_UNSETTLED ? 1 : -1];

/* The numbers of document 01, in its order. */
static const int numbers[] = {
    CROSSBAR_NOT_THE_FORM, CROSSBAR_OUT_OF_RANGE, CROSSBAR_NOT_NEXT,  CROSSBAR_SWITCH,       CROSSBAR_CHILD,
    CROSSBAR_ORDER,        CROSSBAR_SAME_CHILDREN, CROSSBAR_DOUBLED,  CROSSBAR_LABEL,        CROSSBAR_AFTER_END,
    CROSSBAR_TOO_LARGE,    CROSSBAR_BAD_CROSSBAR,  CROSSBAR_SETTING,  CROSSBAR_SHORT_BUFFER, CROSSBAR_UNSETTLED,
};

static uint64_t (*const map)(const uint8_t *, size_t, uint8_t *, size_t, uint8_t *, size_t) = crossbar_map;
static uint64_t (*const walk)(const uint8_t *, size_t, const uint8_t *, size_t, uint32_t) = crossbar_walk;
static uint64_t (*const light)(const uint8_t *, size_t, const uint8_t *, size_t, const uint8_t *, size_t, uint8_t *,
                               size_t) = crossbar_light;
static uint64_t (*const print)(const uint8_t *, size_t, const uint8_t *, size_t, uint8_t *, size_t) = crossbar_print;
static uint64_t (*const load)(const uint8_t *, size_t, uint8_t *, size_t, uint8_t *, size_t) = crossbar_load;

/* Is the answer this refusal? */
static int is(uint64_t answer, unsigned number, uint64_t line)
{
    return CROSSBAR_NUMBER(answer) == number && CROSSBAR_LINE(answer) == line;
}

/* Document 004's half adder, written by the header's functions: r0: B, not B; r1: A, off; r2: not A, A; A is switch 0. */
static void write_adder(uint8_t *record, uint8_t *cells)
{
    crossbar_start_record(record, 3, 2, 2, 2);
    crossbar_put_output_row(record, 0, 2);
    crossbar_put_output_row(record, 1, 1);
    crossbar_put_cell(record, cells, 0, 0, CROSSBAR_YES(1));
    crossbar_put_cell(record, cells, 0, 1, CROSSBAR_NO(1));
    crossbar_put_cell(record, cells, 1, 0, CROSSBAR_YES(0));
    crossbar_put_cell(record, cells, 1, 1, CROSSBAR_OFF);
    crossbar_put_cell(record, cells, 2, 0, CROSSBAR_NO(0));
    crossbar_put_cell(record, cells, 2, 1, CROSSBAR_YES(0));
}

/* The small functions read back what was written, and light reads it the same way: the sum and the carry under all settings. */
static int functions_agree(void)
{
    uint8_t record[CROSSBAR_RECORD_BYTES], cells[6], first_rounds[10], setting[2];
    unsigned a, b;

    write_adder(record, cells);
    if (crossbar_rows(record) != 3 || crossbar_columns(record) != 2 || crossbar_switches(record) != 2 || crossbar_outputs(record) != 2)
        return 0;
    if (crossbar_output_row(record, 0) != 2 || crossbar_output_row(record, 1) != 1 || crossbar_output_row(record, 31) != 0)
        return 0;
    if (crossbar_cell(record, cells, 2, 1) != 2 || crossbar_has_switch(CROSSBAR_ON) || !crossbar_has_switch(CROSSBAR_YES(0)))
        return 0;
    if (crossbar_switch_of(CROSSBAR_YES(63)) != 63 || crossbar_switch_of(CROSSBAR_NO(63)) != 63 || CROSSBAR_NO(63) != 129)
        return 0;
    if (!crossbar_passes_at_one(CROSSBAR_YES(7)) || crossbar_passes_at_one(CROSSBAR_NO(7)))
        return 0;
    for (a = 0; a < 2; a++)
        for (b = 0; b < 2; b++) {
            setting[0] = (uint8_t)a;
            setting[1] = (uint8_t)b;
            if (CROSSBAR_NUMBER(light(record, sizeof record, cells, sizeof cells, setting, 2, first_rounds, sizeof first_rounds)) != 0)
                return 0;
            if (crossbar_reads(record, first_rounds, 0) != (a ^ b) || crossbar_reads(record, first_rounds, 1) != (a & b))
                return 0;
            if (crossbar_row_lit(first_rounds, 0) != 1 || crossbar_column_lit(record, first_rounds, 0) != b)
                return 0;
            /* Row 0 before round 1, column 0 in round 1, row 1 in round 2. */
            if (crossbar_row_first_round(first_rounds, 0) != 1 || crossbar_column_first_round(record, first_rounds, 0) != 2 * b ||
                crossbar_row_first_round(first_rounds, 1) != 3 * (a & b))
                return 0;
        }
    crossbar_put_number(record, 0, 513);
    return crossbar_number_at(record, 0) == 513;
}

/* First rounds are read low byte first. Light gives no row of so late a round; the functions read it all the same. */
static int two_bytes(void)
{
    static const uint8_t first_rounds[] = {0, 1, 0x34, 0x12, 0, 0};
    uint8_t record[CROSSBAR_RECORD_BYTES];

    crossbar_start_record(record, 2, 1, 0, 2);
    crossbar_put_output_row(record, 1, 1);
    return crossbar_row_first_round(first_rounds, 0) == 256 && crossbar_row_first_round(first_rounds, 1) == 0x1234 &&
           crossbar_column_first_round(record, first_rounds, 0) == 0 && crossbar_row_lit(first_rounds, 0) == 1 &&
           crossbar_column_lit(record, first_rounds, 0) == 0 && crossbar_reads(record, first_rounds, 0) == 1 &&
           crossbar_reads(record, first_rounds, 1) == 1;
}

/* A record slice may be longer than the record with zeros past it; a shorter one and another byte past it are 12. */
static int longer_record(void)
{
    uint8_t record[CROSSBAR_RECORD_BYTES + 1] = {0}, cells[6], text[200];

    write_adder(record, cells);
    if (CROSSBAR_NUMBER(print(record, sizeof record, cells, sizeof cells, text, sizeof text)) != 0)
        return 0;
    if (!is(print(record, CROSSBAR_RECORD_BYTES - 1, cells, sizeof cells, text, sizeof text), CROSSBAR_BAD_CROSSBAR, 0))
        return 0;
    record[CROSSBAR_RECORD_BYTES] = 1;
    return is(print(record, sizeof record, cells, sizeof cells, text, sizeof text), CROSSBAR_BAD_CROSSBAR, 0);
}

static int all_zero(const uint8_t *bytes, size_t length)
{
    size_t i;

    for (i = 0; i < length; i++)
        if (bytes[i] != 0)
            return 0;
    return 1;
}

/* The largest crossbar with cells on along a stair, so that each round lights one wire: row 0, column 0, row 1, column 1 and so on. */
static uint64_t light_stair(uint8_t *record, uint8_t *first_rounds, size_t length)
{
    static uint8_t cells[CROSSBAR_MAX_CELLS];
    unsigned i;

    crossbar_start_record(record, CROSSBAR_MAX_ROWS, CROSSBAR_MAX_COLUMNS, 0, 1);
    for (i = 0; i < CROSSBAR_MAX_ROWS; i++) {
        crossbar_put_cell(record, cells, i, i, CROSSBAR_ON);
        if (i > 0)
            crossbar_put_cell(record, cells, i, i - 1, CROSSBAR_ON);
    }
    return light(record, CROSSBAR_RECORD_BYTES, cells, sizeof cells, NULL, 0, first_rounds, length);
}

/* Every number of the stair, low byte first: the last one is 256, so its low byte is 0 and the wire is lit all the same. */
static int numbers_of_stair(const uint8_t *record, const uint8_t *first_rounds)
{
    unsigned i;

    for (i = 0; i < CROSSBAR_MAX_ROWS; i++)
        if (crossbar_row_first_round(first_rounds, i) != 2 * i + 1 || crossbar_column_first_round(record, first_rounds, i) != 2 * i + 2)
            return 0;
    for (i = 0; i < CROSSBAR_MAX_ROWS; i++)
        if (!crossbar_row_lit(first_rounds, i) || !crossbar_column_lit(record, first_rounds, i))
            return 0;
    return first_rounds[CROSSBAR_MAX_FIRST_ROUNDS_BYTES - 2] == 0 && first_rounds[CROSSBAR_MAX_FIRST_ROUNDS_BYTES - 1] == 1;
}

/*
 * CROSSBAR_MAX_FIRST_ROUNDS_BYTES bytes are enough for the largest crossbar, and one byte less is 14 and leaves zeros. Bytes past the answer
 * are 0, an odd last one too. The slice held other bytes before, and the byte after it stays.
 */
static int enough_for_first_rounds(void)
{
    enum { MOST = CROSSBAR_MAX_FIRST_ROUNDS_BYTES };
    uint8_t record[CROSSBAR_RECORD_BYTES], first_rounds[MOST + 4];
    size_t length, i;
    uint64_t answer;

    for (length = MOST - 1; length <= MOST + 3; length++) {
        for (i = 0; i < sizeof first_rounds; i++)
            first_rounds[i] = 0xa5;
        answer = light_stair(record, first_rounds, length);
        if (first_rounds[length] != 0xa5)
            return 0;
        if (length < MOST && (!is(answer, CROSSBAR_SHORT_BUFFER, 0) || !all_zero(first_rounds, length)))
            return 0;
        if (length >= MOST && (answer != 255 || !numbers_of_stair(record, first_rounds) || !all_zero(first_rounds + MOST, length - MOST)))
            return 0;
    }
    return 1;
}

int main(void)
{
    size_t i;
    for (i = 0; i < sizeof numbers / sizeof numbers[0]; i++)
        if (numbers[i] != (int)i + 1)
            return 1;
    if (CROSSBAR_NUMBER((uint64_t)15 << 56 | 7) != 15 || CROSSBAR_VALUE((uint64_t)15 << 56 | 7) != 7)
        return 2;

    /* A pointer may be NULL where its length is 0. */
    if (!is(map(NULL, 0, NULL, 0, NULL, 0), CROSSBAR_NOT_THE_FORM, 1))
        return 3;
    if (!is(walk(NULL, 0, NULL, 0, 0), CROSSBAR_NOT_THE_FORM, 1))
        return 4;
    if (!is(light(NULL, 0, NULL, 0, NULL, 0, NULL, 0), CROSSBAR_BAD_CROSSBAR, 0))
        return 5;
    if (!is(print(NULL, 0, NULL, 0, NULL, 0), CROSSBAR_BAD_CROSSBAR, 0))
        return 6;
    if (!is(load(NULL, 0, NULL, 0, NULL, 0), CROSSBAR_NOT_THE_FORM, 1))
        return 7;
    if (!functions_agree())
        return 8;
    if (!longer_record())
        return 9;
    if (!two_bytes())
        return 10;
    if (!enough_for_first_rounds())
        return 11;
    return 0;
}
