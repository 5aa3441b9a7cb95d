/* The subcommand dot: a job's diagram for Graphviz. Only an accepted job is written, so its lines have the forms that are read here. */
#include "tool.h"

#include <string.h>

struct node {
    unsigned id;
    unsigned test;
    unsigned low;
    unsigned high;
    char label;
};

/* The start of the next line. */
static const char *next_line(const char *at)
{
    return strchr(at, '\n') + 1;
}

static int read_node(const char *line, struct node *node)
{
    return sscanf(line, "(node %u %u (%u %u) %c)", &node->id, &node->test, &node->low, &node->high, &node->label) == 5;
}

/* A node with its switch, its id and its label, and its two edges: dashed where the switch is 0. */
static void write_node(const struct node *node)
{
    printf("    n%u [label=\"x%u\\nnode %u, %c\"]\n", node->id, node->test, node->id, node->label);
    printf("    n%u -> n%u [style=dashed label=\"0\"]\n", node->id, node->low);
    printf("    n%u -> n%u [label=\"1\"]\n", node->id, node->high);
}

/* The nodes that test one switch stand at one height. */
static void write_rank(const char *first, unsigned test)
{
    struct node node;
    const char *line;
    int any = 0;

    for (line = first; read_node(line, &node); line = next_line(line)) {
        if (node.test != test)
            continue;
        printf(any ? " n%u" : "    { rank=same n%u", node.id);
        any = 1;
    }
    printf(any ? " }\n" : "");
}

/* Terminal 0 is drawn where something leads to it. */
static int leads_to_zero(const char *line)
{
    struct node node;
    unsigned output, id;

    for (; read_node(line, &node); line = next_line(line))
        if (node.low == 0 || node.high == 0)
            return 1;
    for (; sscanf(line, "(out %u %u)", &output, &id) == 2; line = next_line(line))
        if (id == 0)
            return 1;
    return 0;
}

static void write_diagram(const char *text, unsigned switches)
{
    const char *one = next_line(text), *first = next_line(one), *line;
    struct node node;
    unsigned output, id, test;

    printf("digraph job {\n    node [shape=circle]\n    n1 [shape=box label=\"1\\nterminal, %c\"]\n", one[5]);
    if (leads_to_zero(first))
        printf("    n0 [shape=box label=\"0\\nterminal\"]\n");
    for (line = first; read_node(line, &node); line = next_line(line))
        write_node(&node);
    for (; sscanf(line, "(out %u %u)", &output, &id) == 2; line = next_line(line))
        printf("    out%u [shape=plaintext label=\"out %u\"]\n    out%u -> n%u\n", output, output, output, id);
    for (test = 0; test < switches; test++)
        write_rank(first, test);
    printf("}\n");
}

int run_dot(const struct request *request)
{
    struct text text;
    struct crossbar crossbar;
    int status = read_text(request, 0, &text);

    if (status != DONE)
        return status;
    status = map_text(request, &text, &crossbar);
    if (status == DONE)
        write_diagram((const char *)text.bytes, crossbar_switches(crossbar.record));
    free_text(&text);
    return status;
}
