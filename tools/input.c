/* Files, settings and output numbers from the command line, and the crossbar that a file gives. */
#include "tool.h"

#include <ctype.h>
#include <errno.h>
#include <stdlib.h>
#include <string.h>

/* A file is read in steps of this many bytes, and refused above the limit, so that an endless input ends. */
#define STEP 65536
#define MAX_BYTES (256 * (size_t)STEP)

int failed(const struct request *request, const char *name, const char *why)
{
    fprintf(stderr, "crossbar %s: %s: %s\n", request->command, name, why);
    return FAILED;
}

/* Shows a line of the text, the first being 1, cut to the width of a page; bytes that are no printable ASCII show as `?`. */
static void show_line(const struct text *text, uint64_t line)
{
    size_t at = 0, i;

    while (line > 1 && at < text->length)
        line -= text->bytes[at++] == '\n';
    if (at >= text->length) {
        fprintf(stderr, "    (the text ends before this line)\n");
        return;
    }
    fprintf(stderr, "    ");
    for (i = at; i < text->length && text->bytes[i] != '\n' && i < at + 100; i++)
        fputc(isprint(text->bytes[i]) ? text->bytes[i] : '?', stderr);
    fprintf(stderr, i == text->length ? "   (no line feed at its end)\n" : "\n");
}

static int begins_with(const struct text *text, const char *words)
{
    return text->length >= strlen(words) && memcmp(text->bytes, words, strlen(words)) == 0;
}

/* Where the first line is refused as a whole, perhaps the file is of another kind than the subcommand takes. */
static void say_kind(const struct request *request, const struct text *text)
{
    if ((request->takes & TAKES_LISTING) == 0 && begins_with(text, "(crossbar "))
        fprintf(stderr, "This file is a listing; a job is due here.\n");
    if ((request->takes & TAKES_JOB) == 0 && begins_with(text, "(job "))
        fprintf(stderr, "This file is a job; a listing is due here, as crossbar map prints it.\n");
    if (begins_with(text, "(set"))
        fprintf(stderr, "This file begins with a set line; here a setting is given by --set, and the file is the listing alone.\n");
}

int refused(const struct request *request, const struct text *text, uint64_t answer)
{
    unsigned long line = (unsigned long)CROSSBAR_LINE(answer);

    fprintf(stderr, "crossbar %s: %s: refused %u", request->command, text->name, CROSSBAR_NUMBER(answer));
    if (line != 0) {
        fprintf(stderr, ", line %lu\n", line);
        show_line(text, CROSSBAR_LINE(answer));
    } else {
        fprintf(stderr, "\n");
    }
    if (CROSSBAR_NUMBER(answer) == CROSSBAR_NOT_THE_FORM && line == 1)
        say_kind(request, text);
    if (CROSSBAR_NUMBER(answer) == CROSSBAR_SETTING && request->set == NULL)
        fprintf(stderr, "No --set was given; it gives the setting, as --set 10.\n");
    explain_number(stderr, CROSSBAR_NUMBER(answer));
    return REFUSED;
}

void free_text(struct text *text)
{
    free(text->bytes);
    text->bytes = NULL;
}

/* Makes room for another step and the NUL. */
static int grow(struct text *text, size_t *room)
{
    uint8_t *more = (uint8_t *)realloc(text->bytes, *room + STEP + 1);

    if (more == NULL)
        return 0;
    text->bytes = more;
    *room += STEP;
    return 1;
}

static int read_file(const struct request *request, FILE *file, struct text *text)
{
    size_t room = 0, got;

    do {
        if (text->length > MAX_BYTES)
            return failed(request, text->name, "longer than 16 MiB, which no job and no listing is");
        if (!grow(text, &room))
            return failed(request, text->name, "not enough memory");
        got = fread(text->bytes + text->length, 1, room - text->length, file);
        text->length += got;
    } while (text->length == room);
    text->bytes[text->length] = 0;
    return ferror(file) ? failed(request, text->name, strerror(errno)) : DONE;
}

/* The file of that place among the words, or standard input. */
int read_text(const struct request *request, size_t place, struct text *text)
{
    const char *name = place < request->word_count ? request->words[place] : "-";
    FILE *file = stdin;
    int status;

    text->name = name;
    text->bytes = NULL;
    text->length = 0;
    if (strcmp(name, "-") == 0)
        text->name = "standard input";
    else
        file = fopen(name, "rb");
    if (file == NULL)
        return failed(request, name, strerror(errno));
    status = read_file(request, file, text);
    if (file != stdin && fclose(file) != 0 && status == DONE)
        status = failed(request, name, strerror(errno));
    if (status != DONE)
        free_text(text);
    return status;
}

/* The figures of --set: 10, or 1 0, or (set 1 0). A figure above 1 and a wrong count are left to the call, which refuses them. */
int read_setting(const struct request *request, struct setting *setting)
{
    const char *at = request->set == NULL ? "" : request->set;

    setting->length = 0;
    if (strncmp(at, "(set", 4) == 0)
        at += 4;
    for (; *at != '\0'; at++) {
        if (*at == ' ' || (*at == ')' && at[1] == '\0'))
            continue;
        if (!isdigit((unsigned char)*at))
            return failed(request, request->set, "a setting is a figure 0 or 1 for each switch, switch 0 first, as 10");
        if (setting->length < sizeof setting->bytes)
            setting->bytes[setting->length++] = (uint8_t)(*at - '0');
    }
    return DONE;
}

/* The number of --output. */
int read_output(const struct request *request, uint32_t *output)
{
    const char *at = request->output;
    uint32_t number = 0;

    if (*at == '\0' || strlen(at) > 5)
        return failed(request, at, "an output number has 1 to 5 digits");
    for (; *at != '\0'; at++) {
        if (!isdigit((unsigned char)*at))
            return failed(request, request->output, "an output number has digits only");
        number = 10 * number + (uint32_t)(*at - '0');
    }
    *output = number;
    return DONE;
}

int map_text(const struct request *request, const struct text *text, struct crossbar *crossbar)
{
    uint64_t answer = crossbar_map(text->bytes, text->length, crossbar->record, sizeof crossbar->record, crossbar->cells,
                                   sizeof crossbar->cells);

    return CROSSBAR_NUMBER(answer) == 0 ? DONE : refused(request, text, answer);
}

/*
 * The crossbar of a file: of its listing, or of its job where it begins as one and the subcommand takes jobs. The text is freed by the
 * caller where this is DONE.
 */
int take_crossbar(const struct request *request, struct text *text, struct crossbar *crossbar)
{
    uint64_t answer;
    int status = read_text(request, 0, text);

    if (status != DONE)
        return status;
    if ((request->takes & TAKES_JOB) != 0 && begins_with(text, "(job")) {
        status = map_text(request, text, crossbar);
    } else {
        answer = crossbar_load(text->bytes, text->length, crossbar->record, sizeof crossbar->record, crossbar->cells,
                               sizeof crossbar->cells);
        status = CROSSBAR_NUMBER(answer) == 0 ? DONE : refused(request, text, answer);
    }
    if (status != DONE)
        free_text(text);
    return status;
}
