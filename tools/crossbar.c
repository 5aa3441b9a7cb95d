/*
 * The command `crossbar`: maps jobs, lights crossbars, and shows and explains what the library answers. See man/crossbar.1.
 */
#include "tool.h"

#include <errno.h>
#include <signal.h>
#include <string.h>

/* The options that take a value, as bits. */
enum { SET = 1, OUTPUT = 2, TITLE = 4 };

/* A subcommand: its name, what its file may be, the options and the number of words that it takes, its usage, and what it does. */
struct command {
    const char *name;
    unsigned takes;
    unsigned options;
    size_t most_words;
    const char *usage;
    const char *summary;
    int (*run)(const struct request *request);
};

/* A new service gets a line here, a function in a file of its own, and an entry in man/crossbar.1. */
static const struct command commands[] = {
    {"map", TAKES_JOB, 0, 1, "[JOB]", "print the listing of a job's crossbar", run_map},
    {"walk", TAKES_JOB, SET | OUTPUT, 1, "[--set FIGURES] [--output J] [JOB]", "the diagram's value for each output, or for output J",
     run_walk},
    {"light", TAKES_JOB | TAKES_LISTING, SET, 1, "[--set FIGURES] [JOB or LISTING]",
     "the rounds, the round in which each wire was first lit, and what each output reads", run_light},
    {"print", TAKES_JOB | TAKES_LISTING, 0, 1, "[JOB or LISTING]", "print the listing of a crossbar", run_print},
    {"load", TAKES_LISTING, 0, 1, "[LISTING]", "check a listing and say its sizes", run_load},
    {"table", TAKES_JOB, 0, 1, "[JOB]", "every setting's readings beside the walk's values, up to 16 switches", run_table},
    {"draw", TAKES_JOB | TAKES_LISTING, SET | TITLE, 1, "[--set FIGURES] [--title WORDS] [JOB or LISTING]",
     "draw a crossbar as SVG, with its lit wires and the round of each", run_draw},
    {"dot", TAKES_JOB, 0, 1, "[JOB]", "write a job's diagram for Graphviz", run_dot},
    {"explain", 0, 0, 1, "[NUMBER]", "what a number of refusal means and what to do about it", explain},
};
#define COMMANDS (sizeof commands / sizeof commands[0])

static int usage_error(const char *command, const char *word, const char *why)
{
    fprintf(stderr, "crossbar%s%s: %s: %s; crossbar --help says more\n", command == NULL ? "" : " ", command == NULL ? "" : command,
            word, why);
    return FAILED;
}

static void help_command(const struct command *command)
{
    printf("usage: crossbar %s %s\n\n%s\n", command->name, command->usage, command->summary);
}

static void help(void)
{
    size_t i;

    printf("usage: crossbar SUBCOMMAND [OPTION..] [FILE]\n       crossbar --help, crossbar --version\n\n");
    for (i = 0; i < COMMANDS; i++)
        printf("  %-8s %s\n           %s\n", commands[i].name, commands[i].usage, commands[i].summary);
    printf("\n"
           "FILE may be - or left out: then standard input is read. --set FIGURES gives each switch 0 or 1, switch 0 first, as 10.\n"
           "Where a job or a listing is taken, a file that begins with (job is mapped first. SUBCOMMAND --help tells of one.\n"
           "Exit status: 0 done; 1 refused, with the reason on standard error; 2 bad usage, or input or output failed.\n"
           "The calls behind map, walk, light, print and load are proved; this command is tested and not proved.\n");
}

static const struct command *find_command(const char *name)
{
    size_t i;

    for (i = 0; i < COMMANDS; i++)
        if (strcmp(commands[i].name, name) == 0)
            return &commands[i];
    return NULL;
}

/* Where the value of an option goes, NULL where the subcommand does not take it. */
static const char **option_place(const struct command *command, struct request *request, const char *word)
{
    if (strcmp(word, "--set") == 0 && (command->options & SET) != 0)
        return &request->set;
    if (strcmp(word, "--output") == 0 && (command->options & OUTPUT) != 0)
        return &request->output;
    if (strcmp(word, "--title") == 0 && (command->options & TITLE) != 0)
        return &request->title;
    return NULL;
}

/* The words after the subcommand. */
static int read_words(const struct command *command, struct request *request, int count, char **words)
{
    int i;

    for (i = 0; i < count; i++) {
        if (strcmp(words[i], "--help") == 0) {
            request->help = 1;
        } else if (words[i][0] == '-' && words[i][1] != '\0') {
            const char **place = option_place(command, request, words[i]);
            if (place == NULL)
                return usage_error(command->name, words[i], "no such option here");
            if (i + 1 == count)
                return usage_error(command->name, words[i], "its value is missing");
            *place = words[++i];
        } else if (request->word_count == command->most_words) {
            return usage_error(command->name, words[i], "one word too many");
        } else {
            request->words[request->word_count++] = words[i];
        }
    }
    return DONE;
}

static int run(int count, char **words)
{
    struct request request = {NULL, 0, {NULL, NULL}, 0, NULL, NULL, NULL, 0};
    const struct command *command;
    int status;

    if (count < 2) {
        fprintf(stderr, "usage: crossbar SUBCOMMAND [OPTION..] [FILE]; crossbar --help says more\n");
        return FAILED;
    }
    if (strcmp(words[1], "--version") == 0) {
        printf("crossbar %s\n", CROSSBAR_VERSION);
        return DONE;
    }
    if (strcmp(words[1], "--help") == 0) {
        help();
        return DONE;
    }
    command = find_command(words[1]);
    if (command == NULL)
        return usage_error(NULL, words[1], "no such subcommand");
    request.command = command->name;
    request.takes = command->takes;
    status = read_words(command, &request, count - 2, words + 2);
    if (status != DONE)
        return status;
    if (request.help) {
        help_command(command);
        return DONE;
    }
    return command->run(&request);
}

int main(int count, char **words)
{
    int status;

    /* A closed pipe is then a write that fails, and it is said in words. */
#ifdef SIGPIPE
    signal(SIGPIPE, SIG_IGN);
#endif
    status = run(count, words);
    errno = 0;
    if (fflush(stdout) != 0 || ferror(stdout)) {
        fprintf(stderr, "crossbar: standard output: not all of it was written%s%s\n", errno == 0 ? "" : ": ",
                errno == 0 ? "" : strerror(errno));
        return FAILED;
    }
    return status;
}
