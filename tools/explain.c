/* The numbers of refusal in words, and what to do about each. docs/TERMS.md says in the same words what to do; a test compares them. */
#include "tool.h"

#include <ctype.h>
#include <string.h>

struct ground {
    const char *condition;
    const char *line;
    const char *calls;
    const char *remedy;
};

/* In the order of the numbers, from 1 on. */
static const struct ground grounds[] = {
    {"The line is missing or not the form due.", "that line", "map, walk, load",
     "Write the line as docs/FORMATS.md and crossbar(5) have it: one blank between items and none elsewhere, figures of at most 5 digits "
     "without a leading zero, small letters, a line feed at the end of every line. Look for a tab, for a carriage return before the line "
     "feed and for a missing last line feed, and count that there are N node lines and K output lines. A set line has at most 64 "
     "figures, each 0 or 1."},
    {"A figure of the first line is outside its range.", "that line", "map, walk, load",
     "Bring the figure into its range: V 0 to 64, N 0 to 254, K 1 to 32; in a listing also R 1 to 128 and C 0 to 128. Divide a larger "
     "job into several jobs, with some of the outputs in each."},
    {"A node's or an output's number is not the next in turn.", "that line", "map, walk; load on an output line",
     "Number the nodes 2, 3, 4 and so on and the outputs 0, 1, 2 and so on, without a gap."},
    {"A node's switch is not below V.", "the node's line", "map, walk",
     "Name a switch from 0 to V - 1, or raise V in the first line."},
    {"A child is not below its node, or an output names an id above N + 1.", "the node's or the output's line", "map, walk",
     "Write children before their parents, so that each child has a lower id than its parent, and let outputs name ids up to N + 1."},
    {"A child other than 0 and 1 has a switch not above its parent's.", "the parent's line", "map, walk",
     "Use one order of the switches on every path of the diagram, and number the switches in that order, so that they rise from the "
     "output to the terminals."},
    {"A node's two children are the same.", "the node's line", "map, walk",
     "Leave the node out, let its parents and outputs name its child, and number the nodes again."},
    {"An earlier node has the same switch and children.", "the later node's line", "map, walk",
     "Leave the later node out, let its parents and outputs name the earlier one, and number the nodes again."},
    {"Terminal 1 or an output's node is labelled v, or a node and a child of it other than 0 are both h or both v.",
     "the line of (one T), the output's line, or the parent's line", "map, walk",
     "Label terminal 1 and each node that an output names h or b. Where a node and its child have the same letter, change one of the two "
     "to the other letter, or to b: b always passes this condition and costs one wire more."},
    {"Bytes follow (end).", "the line after it", "map, walk, load", "Remove everything after the line (end), an empty line too."},
    {"There would be more than 128 rows or more than 128 columns.", "the line of (end)", "map, walk",
     "Use fewer b labels, or exchange h and v labels where only one of the two counts is too high, or divide the outputs over several "
     "jobs."},
    {"In a listing: a cell is outside R and C, not after the cell before it, or names a switch not below V; or an output row is not "
     "below R. In a record: a size out of range, a cell slice shorter than R times C or with a byte past it other than 0, a code above "
     "1 + 2 times V, an output row not below R, or an unused output row other than 0; from C also a record slice shorter than a record or "
     "with a byte past it other than 0.",
     "that line of a listing; 0 for a record", "load; light and print",
     "In a listing, write the cells row by row and in a row by rising column, each place once, with rows and output rows below R, columns "
     "below C and switches below V; or have it made again by map or print. From C, hand on the record and the cells as map or load left "
     "them, in a slice of their own with zeros past them."},
    {"The setting is not V bytes of 0 or 1, or walk's output number is not below K.", "0", "walk, light",
     "Give one figure 0 or 1 for each of the V switches, switch 0 first, and an output number from 0 to K - 1."},
    {"An output buffer is shorter than the answer. In the two programs: the input is longer than 65,535 bytes.", "0",
     "map, light, print, load; the two programs",
     "From C, lend CROSSBAR_RECORD_BYTES for a record and CROSSBAR_MAX_CELLS, CROSSBAR_MAX_FIRST_ROUNDS_BYTES and CROSSBAR_MAX_LISTING for "
     "the rest, which is always enough. With the two programs: no accepted job is that long, so look for what else is in the file; for "
     "a longer listing take the command crossbar or the C calls."},
    {"After R + C - 1 rounds a further round would still add a wire.", "0", "light",
     "It is proved that this never comes. Where it is seen, the program or the machine is not what was proved: check the file and the "
     "machine, and tell the seller."},
};
#define GROUNDS (sizeof grounds / sizeof grounds[0])

/* The table has an entry for each number of the header. */
typedef char every_number[GROUNDS == CROSSBAR_LAST_NUMBER ? 1 : -1];

void explain_number(FILE *to, unsigned number)
{
    if (number < 1 || number > GROUNDS)
        return;
    fprintf(to, "Number %u: %s\nWhat to do: %s\n", number, grounds[number - 1].condition, grounds[number - 1].remedy);
}

static void explain_whole(unsigned number)
{
    explain_number(stdout, number);
    printf("Line: %s.\nGiven by: %s.\n", grounds[number - 1].line, grounds[number - 1].calls);
}

/* The number that is asked for, or all of them. A whole answer of a program, as "(refused 9 4)", is taken too. */
int explain(const struct request *request)
{
    unsigned number = 0;
    const char *at = request->word_count == 0 ? "" : request->words[0];

    if (request->word_count == 0) {
        for (number = 1; number <= GROUNDS; number++) {
            explain_whole(number);
            printf(number < GROUNDS ? "\n" : "");
        }
        return DONE;
    }
    if (strncmp(at, "(refused ", 9) == 0)
        at += 9;
    while (isdigit((unsigned char)*at) && number < 1000)
        number = 10 * number + (unsigned)(*at++ - '0');
    if ((*at != '\0' && *at != ' ') || number < 1 || number > GROUNDS)
        return failed(request, request->words[0], "no such number of refusal: they are 1 to 15");
    explain_whole(number);
    return DONE;
}
