/* The subcommand table: what each output reads under every setting, beside the walk's value. */
#include "tool.h"

#include <time.h>

/* The most switches for which every setting is tried. */
#define MOST_SWITCHES 16

/* A table in the making. */
struct work {
    const struct request *request;
    const struct text *text;
    struct crossbar crossbar;
    struct setting setting;
    time_t began;
    time_t said;
    unsigned long different;
};

/* On long work a line on standard error: after 2 seconds, and then every 10. */
static void say_progress(struct work *work, unsigned long done, unsigned long all)
{
    time_t now = time(NULL);
    time_t due = work->said == work->began ? work->began + 2 : work->said + 10;

    if (now < due)
        return;
    work->said = now;
    fprintf(stderr, "crossbar table: %lu of %lu settings after %ld seconds\n", done, all, (long)(now - work->began));
}

/* Settings are numbered as binary figures, switch 0 the most significant. */
static void set_switches(struct setting *setting, unsigned long number)
{
    size_t i;

    for (i = 0; i < setting->length; i++)
        setting->bytes[i] = (uint8_t)(number >> (setting->length - 1 - i) & 1);
}

static void print_heading(const struct work *work)
{
    unsigned output;

    printf("Each output: what it reads / the walk's value.\n%-*s rounds", work->setting.length < 7 ? 7 : (int)work->setting.length,
           "setting");
    for (output = 0; output < crossbar_outputs(work->crossbar.record); output++)
        printf("  out %2u", output);
    printf("\n");
}

/* One line: the setting, the rounds, and for each output both values, `!` before them where they differ. */
static int print_line(struct work *work)
{
    const uint8_t *record = work->crossbar.record;
    const struct setting *setting = &work->setting;
    uint8_t first_rounds[CROSSBAR_MAX_FIRST_ROUNDS_BYTES];
    uint64_t walked, answer = crossbar_light(record, CROSSBAR_RECORD_BYTES, work->crossbar.cells, sizeof work->crossbar.cells,
                                             setting->bytes, setting->length, first_rounds, sizeof first_rounds);
    unsigned i, reads;

    if (CROSSBAR_NUMBER(answer) != 0)
        return refused(work->request, work->text, answer);
    for (i = 0; i < setting->length; i++)
        putchar('0' + setting->bytes[i]);
    printf("%*s %6u", setting->length < 7 ? 7 - (int)setting->length : 0, "", (unsigned)CROSSBAR_VALUE(answer));
    for (i = 0; i < crossbar_outputs(record); i++) {
        walked = crossbar_walk(work->text->bytes, work->text->length, setting->bytes, setting->length, i);
        if (CROSSBAR_NUMBER(walked) != 0)
            return refused(work->request, work->text, walked);
        reads = crossbar_reads(record, first_rounds, i);
        work->different += reads != CROSSBAR_VALUE(walked);
        printf("  %s%u/%u", reads == CROSSBAR_VALUE(walked) ? "   " : "  !", reads, (unsigned)CROSSBAR_VALUE(walked));
    }
    printf("\n");
    return DONE;
}

static int print_table(struct work *work)
{
    unsigned long number, all = 1ul << work->setting.length;
    int status = DONE;

    print_heading(work);
    for (number = 0; status == DONE && number < all && !ferror(stdout); number++) {
        set_switches(&work->setting, number);
        status = print_line(work);
        say_progress(work, number + 1, all);
    }
    if (status != DONE)
        return status;
    if (work->different == 0)
        printf("settings: %lu; every reading is the walk's value\n", all);
    else
        printf("settings: %lu; readings that are not the walk's value: %lu\n", all, work->different);
    return work->different == 0 ? DONE : REFUSED;
}

int run_table(const struct request *request)
{
    struct work work;
    struct text text;
    int status = read_text(request, 0, &text);

    if (status != DONE)
        return status;
    work.request = request;
    work.text = &text;
    work.began = work.said = time(NULL);
    work.different = 0;
    status = map_text(request, &text, &work.crossbar);
    if (status == DONE) {
        work.setting.length = crossbar_switches(work.crossbar.record);
        if (work.setting.length > MOST_SWITCHES)
            status = failed(request, text.name, "more than 16 switches have too many settings for a table; take walk and light");
        else
            status = print_table(&work);
    }
    free_text(&text);
    return status;
}
