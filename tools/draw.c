/*
 * The subcommand draw: a crossbar as SVG. Rows and columns are lines; a cell that is not off stands where they cross, with the
 * switch that it tests; outputs stand at the right of their rows. With a setting, lit wires are thick and coloured, and so is the
 * edge of a cell that conducts; beside each lit wire stands the round in which it was first lit.
 */
#include "tool.h"

#include <string.h>

/*
 * Lengths in the drawing: between two wires, left of the columns, above the rows, of a row before its first cell (a round of three
 * figures has room there), of a column above its first cell, about the width of a letter, a line of the legend.
 */
#define STEP 56
#define LEFT 168
#define TOP 120
#define ROW_START 48
#define COLUMN_START 28
#define LETTER 8
#define LEGEND_LINE 32
#define LEGEND_WIDTH 580

/* The colours: of a drawing without a setting, of what is lit or conducts, of what does not. */
#define PLAIN "#333333"
#define LIT "#c2410c"
#define DARK "#9a9a9a"

struct drawing {
    const struct crossbar *crossbar;
    const struct setting *setting;
    const char *title;
    int known; /* is there a setting? */
    unsigned rounds;
    uint8_t first_rounds[CROSSBAR_MAX_FIRST_ROUNDS_BYTES];
};

/* Where a row or a column stands. */
static unsigned row_at(unsigned row)
{
    return TOP + STEP * row;
}

static unsigned column_at(unsigned column)
{
    return LEFT + STEP * column;
}

/* The ends of the wires. */
static unsigned right_of(const struct drawing *drawing)
{
    return column_at(crossbar_columns(drawing->crossbar->record)) - STEP / 4;
}

static unsigned bottom_of(const struct drawing *drawing)
{
    return row_at(crossbar_rows(drawing->crossbar->record)) - STEP / 4;
}

static const char *colour(const struct drawing *drawing, int lit)
{
    return drawing->known ? (lit ? LIT : DARK) : PLAIN;
}

/* Words in XML: three signs are escaped, and control characters, which XML does not allow, are left out. */
static void write_escaped(const char *words)
{
    for (; *words != '\0'; words++) {
        if (*words == '&')
            printf("&amp;");
        else if (*words == '<')
            printf("&lt;");
        else if (*words == '>')
            printf("&gt;");
        else if ((unsigned char)*words >= 32)
            putchar(*words);
    }
}

static void draw_line(unsigned x1, unsigned y1, unsigned x2, unsigned y2, const char *stroke, int thick)
{
    printf("<line x1=\"%u\" y1=\"%u\" x2=\"%u\" y2=\"%u\" stroke=\"%s\" stroke-width=\"%s\"/>\n", x1, y1, x2, y2, stroke,
           thick ? "5" : "1.5");
}

static void begin_words(unsigned x, unsigned y, const char *anchor)
{
    printf("<text x=\"%u\" y=\"%u\" text-anchor=\"%s\">", x, y, anchor);
}

static void write_words(unsigned x, unsigned y, const char *words)
{
    begin_words(x, y, "start");
    printf("%s</text>\n", words);
}

/* Does a cell that is not off conduct? On always, else by its switch. */
static int conducts(const struct drawing *drawing, uint8_t code)
{
    if (!drawing->known || !crossbar_has_switch(code))
        return 1;
    return drawing->setting->bytes[crossbar_switch_of(code)] == crossbar_passes_at_one(code);
}

/* A cell at a point: a disc for on, else a box with its switch, after the sign for "not" where it passes at 0. */
static void draw_cell(unsigned x, unsigned y, uint8_t code, const char *stroke, int thick)
{
    if (!crossbar_has_switch(code)) {
        printf("<circle cx=\"%u\" cy=\"%u\" r=\"8\" fill=\"%s\"/>\n", x, y, stroke);
        return;
    }
    printf("<rect x=\"%u\" y=\"%u\" width=\"40\" height=\"26\" rx=\"13\" fill=\"white\" stroke=\"%s\" stroke-width=\"%s\"/>\n", x - 20,
           y - 13, stroke, thick ? "3" : "1.5");
    begin_words(x, y + 5, "middle");
    printf("%sx%u</text>\n", crossbar_passes_at_one(code) ? "" : "&#172;", crossbar_switch_of(code));
}

/* The round in which a wire was first lit, in figures; nothing where it is dark or there is no setting. */
static void draw_round(unsigned x, unsigned y, unsigned first_round)
{
    if (first_round != 0)
        printf("<text x=\"%u\" y=\"%u\" font-size=\"12\" fill=\"%s\">%u</text>\n", x, y, LIT, first_round - 1);
}

/* Without a setting every first round is 0 here. */
static void draw_wires(const struct drawing *drawing)
{
    const uint8_t *record = drawing->crossbar->record;
    unsigned i, first, row_start = LEFT - ROW_START, column_start = TOP - COLUMN_START;

    for (i = 0; i < crossbar_rows(record); i++) {
        first = crossbar_row_first_round(drawing->first_rounds, i);
        draw_line(row_start, row_at(i), right_of(drawing), row_at(i), colour(drawing, first != 0), first != 0);
        begin_words(row_start - 8, row_at(i) + 5, "end");
        printf("%srow %u</text>\n", i == 0 ? "power, " : "", i);
        draw_round(row_start + 2, row_at(i) - 6, first);
    }
    for (i = 0; i < crossbar_columns(record); i++) {
        first = crossbar_column_first_round(record, drawing->first_rounds, i);
        draw_line(column_at(i), column_start, column_at(i), bottom_of(drawing), colour(drawing, first != 0), first != 0);
        begin_words(column_at(i), column_start - 8, "middle");
        printf("col %u</text>\n", i);
        draw_round(column_at(i) + 6, column_start + 10, first);
    }
}

static void draw_cells(const struct drawing *drawing)
{
    const struct crossbar *crossbar = drawing->crossbar;
    unsigned row, column;
    uint8_t code;

    for (row = 0; row < crossbar_rows(crossbar->record); row++)
        for (column = 0; column < crossbar_columns(crossbar->record); column++) {
            code = crossbar_cell(crossbar->record, crossbar->cells, row, column);
            if (code != CROSSBAR_OFF)
                draw_cell(column_at(column), row_at(row), code, colour(drawing, conducts(drawing, code)),
                          drawing->known && conducts(drawing, code));
        }
}

/* How many letters the label of a row's outputs has; where `print` is set, writes it too: "out 0, 4: reads 1". */
static unsigned output_label(const struct drawing *drawing, unsigned row, int print)
{
    const uint8_t *record = drawing->crossbar->record;
    unsigned output, letters = 0;

    for (output = 0; output < crossbar_outputs(record); output++) {
        if (crossbar_output_row(record, output) != row)
            continue;
        if (print)
            printf("%s%u", letters == 0 ? "out " : ", ", output);
        letters += 4;
    }
    if (letters != 0 && drawing->known) {
        if (print)
            printf(": reads %u", crossbar_row_lit(drawing->first_rounds, row));
        letters += 9;
    }
    return letters;
}

static void draw_outputs(const struct drawing *drawing)
{
    unsigned row, lit;

    for (row = 0; row < crossbar_rows(drawing->crossbar->record); row++) {
        if (output_label(drawing, row, 0) == 0)
            continue;
        lit = crossbar_row_lit(drawing->first_rounds, row);
        printf("<path d=\"M %u %u l 0 14 l 12 -7 z\" fill=\"%s\"/>\n", right_of(drawing), row_at(row) - 7, colour(drawing, (int)lit));
        begin_words(right_of(drawing) + 18, row_at(row) + 5, "start");
        output_label(drawing, row, 1);
        printf("</text>\n");
    }
}

/* The setting in words: switch by switch where they are few, else as figures. */
static void write_setting(const struct drawing *drawing)
{
    size_t i, count = drawing->setting->length;

    if (!drawing->known) {
        printf("no setting");
        return;
    }
    printf(count > 8 ? "setting, switch 0 first: " : count == 0 ? "no switches" : "setting: ");
    for (i = 0; i < count; i++)
        if (count > 8)
            printf("%u", drawing->setting->bytes[i]);
        else
            printf("%sx%u = %u", i == 0 ? "" : ", ", (unsigned)i, drawing->setting->bytes[i]);
    printf("; rounds: %u", drawing->rounds);
}

/* What the signs mean, a line each, below the wires. */
static void draw_legend(const struct drawing *drawing, unsigned y)
{
    const char *edge = drawing->known ? DARK : PLAIN;

    draw_cell(44, y, CROSSBAR_YES(0), edge, 0);
    write_words(76, y + 5, "passes when switch 0 is 1; the other switches likewise");
    draw_cell(44, y + LEGEND_LINE, CROSSBAR_NO(0), edge, 0);
    write_words(76, y + LEGEND_LINE + 5, "passes when switch 0 is 0");
    draw_cell(44, y + 2 * LEGEND_LINE, CROSSBAR_ON, drawing->known ? LIT : PLAIN, 0);
    write_words(76, y + 2 * LEGEND_LINE + 5, "on, passes always; where wires cross with no sign: off, passes never");
    if (!drawing->known)
        return;
    draw_line(24, y + 3 * LEGEND_LINE, 64, y + 3 * LEGEND_LINE, LIT, 1);
    write_words(76, y + 3 * LEGEND_LINE + 5, "lit; a cell with this edge conducts");
    draw_line(24, y + 4 * LEGEND_LINE, 64, y + 4 * LEGEND_LINE, DARK, 0);
    write_words(76, y + 4 * LEGEND_LINE + 5, "dark; a cell with this edge does not conduct");
    draw_round(40, y + 5 * LEGEND_LINE + 5, 3);
    write_words(76, y + 5 * LEGEND_LINE + 5, "beside a wire: the round in which it was first lit; 0: before round 1");
}

static unsigned larger(unsigned a, size_t b)
{
    return b > a ? (unsigned)b : a;
}

/* The width of the whole: of the title, the setting, the legend, and the wires with the longest label beside them. */
static unsigned width_of(const struct drawing *drawing)
{
    size_t count = drawing->known ? drawing->setting->length : 0;
    unsigned row, width = larger(LEGEND_WIDTH, 40 + 10 * strlen(drawing->title));

    width = larger(width, 40 + LETTER * (count > 8 ? 40 + count : 24 + 8 * count));
    for (row = 0; row < crossbar_rows(drawing->crossbar->record); row++)
        width = larger(width, right_of(drawing) + 38 + LETTER * output_label(drawing, row, 0));
    return width;
}

static void draw(const struct drawing *drawing)
{
    unsigned width = width_of(drawing), legend = bottom_of(drawing) + 36;
    unsigned height = legend + LEGEND_LINE * (drawing->known ? 6u : 3u);

    printf("<svg xmlns=\"http://www.w3.org/2000/svg\" width=\"%u\" height=\"%u\" viewBox=\"0 0 %u %u\" font-family=\"sans-serif\" "
           "font-size=\"14\">\n<title>",
           width, height, width, height);
    write_escaped(drawing->title);
    printf("</title>\n<rect width=\"%u\" height=\"%u\" fill=\"white\"/>\n", width, height);
    printf("<text x=\"20\" y=\"30\" font-size=\"17\" font-weight=\"bold\">");
    write_escaped(drawing->title);
    printf("</text>\n");
    begin_words(20, 52, "start");
    write_setting(drawing);
    printf("</text>\n");
    draw_wires(drawing);
    draw_cells(drawing);
    draw_outputs(drawing);
    draw_legend(drawing, legend);
    printf("</svg>\n");
}

/* The file's name without its folders, where no title is given. */
static const char *title_of(const struct request *request, const struct text *text)
{
    const char *slash = strrchr(text->name, '/');

    if (request->title != NULL)
        return request->title;
    return slash == NULL ? text->name : slash + 1;
}

int run_draw(const struct request *request)
{
    struct text text;
    struct crossbar crossbar;
    struct setting setting;
    struct drawing drawing = {&crossbar, &setting, "", request->set != NULL, 0, {0}};
    uint64_t answer = 0;
    int status = read_setting(request, &setting);

    if (status == DONE)
        status = take_crossbar(request, &text, &crossbar);
    if (status != DONE)
        return status;
    if (drawing.known)
        answer = crossbar_light(crossbar.record, sizeof crossbar.record, crossbar.cells, sizeof crossbar.cells, setting.bytes,
                                setting.length, drawing.first_rounds, sizeof drawing.first_rounds);
    drawing.title = title_of(request, &text);
    drawing.rounds = (unsigned)CROSSBAR_VALUE(answer);
    if (CROSSBAR_NUMBER(answer) == 0)
        draw(&drawing);
    else
        status = refused(request, &text, answer);
    free_text(&text);
    return status;
}
