/* What the command line of the lesson asks for. */
#ifndef OPTIONS_H
#define OPTIONS_H

#include <stdint.h>

struct options {
    uint64_t seed, operations;
    const char *server; /* the file of the server volume, or NULL */
    const char *graph;  /* the file for the graph, or NULL */
    int quiet;          /* single losses are not printed */
};

/* Ends the program with 0 after --help, and with 2 where an option is not as the help says. */
struct options read_options(int count, char **words);

/* Ends the program with 2 and a message: what was asked cannot be done. */
void refuse(const char *format, ...);

#endif
