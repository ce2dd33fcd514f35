#include "graph.h"
#include "naming.h"
#include <errno.h>
#include <stdlib.h>
#include <string.h>

#define SENT_COLOUR "#cfe8cf"
#define LOST_COLOUR "#f6c9c0"

FILE *open_graph(const char *file_name)
{
    FILE *file = file_name ? fopen(file_name, "w") : NULL;
    if (file_name && !file)
        refuse("cannot write %s: %s", file_name, strerror(errno));
    return file;
}

/* A name in quotes, with the bytes that do not print, quotes and backslashes as \xNN; a long one in two lines. */
static void draw_name(FILE *file, const uint8_t *name, uint64_t length)
{
    uint64_t i;
    fprintf(file, "\\\"");
    for (i = 0; i < length; i++) {
        if (i == WB_NAME_BYTES / 2)
            fprintf(file, "\\n");
        if (name[i] < 32 || name[i] > 126 || name[i] == '"' || name[i] == '\\')
            fprintf(file, "\\\\x%02x", name[i]);
        else
            putc(name[i], file);
    }
    fprintf(file, "\\\"");
}

static void draw_names(FILE *file, const struct operation *operation)
{
    draw_name(file, operation->name, operation->name_length);
    fprintf(file, " in %d", (int)operation->parent);
    if (operation->kind != RENAME)
        return;
    fprintf(file, "\\nto ");
    draw_name(file, operation->second_name, operation->second_name_length);
    fprintf(file, " in %d", (int)operation->second_parent);
    if (operation->displaced)
        fprintf(file, "\\ndisplacing object %d", (int)operation->displaced);
}

/* What the operation does to what; the first line, and further ones where there is more to say. */
static void draw_deed(FILE *file, const struct issued *issued)
{
    const struct operation *operation = &issued->operation;
    uint64_t i;
    fprintf(file, "%lu: %s ", (unsigned long)operation->sequence, kind_text(operation->kind));
    if (operation->kind <= RENAME)
        draw_names(file, operation);
    else if (operation->kind == FORDER)
        for (i = 0; i < operation->list_length; i++)
            fprintf(file, "%s%d", i ? ", " : "of objects ", (int)operation->list[i]);
    else
        draw_name(file, issued->called.bytes, issued->called.length);
    if (operation->kind == SET_LENGTH)
        fprintf(file, " to %lu", (unsigned long)operation->offset);
    if (operation->data_length > 0)
        fprintf(file, "\\n%lu bytes at %lu", (unsigned long)operation->data_length, (unsigned long)operation->offset);
}

static void draw_operation(FILE *file, const struct issued *issued)
{
    const struct operation *operation = &issued->operation;
    fprintf(file, "    o%lu [fillcolor=\"%s\", label=\"", (unsigned long)operation->sequence,
            issued->state == SENT ? SENT_COLOUR : LOST_COLOUR);
    draw_deed(file, issued);
    fprintf(file, "\\n%s", who(operation->program));
    if (operation->kind != FORDER)
        fprintf(file, ", object %d", (int)operation->object);
    fprintf(file, "\"];\n");
}

/* Whether a third one of the burst lies between the two. */
static int through_third(const uint8_t *direct, uint64_t count, uint64_t from, uint64_t to)
{
    uint64_t i;
    for (i = from + 1; i < to; i++)
        if (direct[from * count + i] && direct[i * count + to])
            return 1;
    return 0;
}

/* An arrow for each pair of which the earlier directly precedes the later; pale where a third one shows the order already. */
static void draw_arrows(FILE *file, const struct host *host, const struct burst *burst)
{
    uint64_t i, j, count = burst->count;
    uint8_t *direct = calloc(count * count + 1, 1);
    if (!direct)
        refuse("there is no memory for the graph");
    for (i = 0; i < count * count; i++)
        direct[i] = (uint8_t)directly_precedes(&issued_as(host, burst->sequences[i / count])->operation,
                                               &issued_as(host, burst->sequences[i % count])->operation);
    for (i = 0; i < count; i++)
        for (j = i + 1; j < count; j++)
            if (direct[i * count + j])
                fprintf(file, "    o%lu -> o%lu%s;\n", (unsigned long)burst->sequences[i], (unsigned long)burst->sequences[j],
                        through_third(direct, count, i, j) ? " [color=\"#c8c8c8\"]" : "");
    free(direct);
}

static void draw_burst(FILE *file, const struct host *host, const struct burst *burst, uint64_t which)
{
    uint64_t i;
    fprintf(file, "  subgraph cluster_%d {\n    label=\"What waited at broken link %d\"; color=\"#a0a0a0\";\n", (int)which,
            (int)which);
    for (i = 0; i < burst->count; i++)
        draw_operation(file, issued_as(host, burst->sequences[i]));
    draw_arrows(file, host, burst);
    fprintf(file, "  }\n");
}

static void draw_legend(FILE *file)
{
    fprintf(file, "  subgraph cluster_legend {\n    color=\"#a0a0a0\"; fontsize=10;\n"
            "    label=\"An arrow leads from an operation to one that it directly precedes.\\l"
            "It is pale where one in between shows the order already.\\l\";\n"
            "    sent [fillcolor=\"%s\", label=\"sent before the link broke\"];\n"
            "    lost [fillcolor=\"%s\", label=\"lost\"];\n    sent -> lost [style=invis];\n  }\n", SENT_COLOUR, LOST_COLOUR);
}

/* Graphviz lays what comes later above what comes earlier: so the legend is at the bottom and the first link at the top. */
void draw_graph(FILE *file, const char *file_name, const struct host *host, const struct burst *bursts, uint64_t count)
{
    uint64_t i;
    int failed;
    fprintf(file, "digraph lesson {\n"
            "  rankdir=LR; nodesep=0.15; ranksep=0.4; fontname=\"Helvetica\"; fontsize=13; labeljust=l;\n"
            "  node [shape=box, style=\"filled,rounded\", fontname=\"Helvetica\", fontsize=10, margin=\"0.12,0.06\"];\n"
            "  edge [color=\"#404040\", arrowsize=0.6];\n");
    draw_legend(file);
    for (i = count; i-- > 0;)
        draw_burst(file, host, &bursts[i], i + 1);
    fprintf(file, "}\n");
    failed = ferror(file);
    if (fclose(file) != 0 || failed)
        refuse("cannot write %s: %s", file_name, strerror(errno));
    printf("The graph is in %s; this draws it: dot -Tsvg %s >lesson.svg\n", file_name, file_name);
}
