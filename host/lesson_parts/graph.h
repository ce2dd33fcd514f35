/* A picture of what waited when a link broke, in the language of graphviz. */
#ifndef GRAPH_H
#define GRAPH_H

#include "link.h"

/* Opens the file; NULL if there is no name for one. Ends the program with 2 if it cannot be written. */
FILE *open_graph(const char *file_name);

/* Draws, for each broken link, what waited when the last sends before it began: what was sent then, and what was lost. */
void draw_graph(FILE *file, const char *file_name, const struct host *host, const struct burst *bursts, uint64_t count);

#endif
