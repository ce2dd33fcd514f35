#include "options.h"
#include <stdarg.h>
#include <stdio.h>
#include <stdlib.h>
#include <string.h>

#define MOST_OPERATIONS 1000000

static const char *const help =
"usage: host/lesson [--seed S] [--operations N] [--server FILE] [--graph FILE.dot] [--quiet] [--help]\n"
"\n"
"A lesson on a write-behind volume of full size (256 objects, 64 blocks a file, 1,024 slots): a class of 32 programs saves its\n"
"work, a link carries the operations to the server in random order, and breaks twice.\n"
"\n"
"  --seed S          another lesson; the same S gives the same one (default 1)\n"
"  --operations N    how many operations the class issues, 1 to 1000000 (default 20000; under 320 the class is smaller);\n"
"                    one more where the last write goes across the end of a file\n"
"  --server FILE     keeps the server volume in FILE (16.8 MB); a second run goes on with what the first left there\n"
"  --graph FILE.dot  writes what waited when the link broke, with an arrow where one operation directly precedes another;\n"
"                    the picture: dot -Tsvg FILE.dot >FILE.svg (for a small one --operations 40; for a large one, without the\n"
"                    arrows that others show already: tred FILE.dot | dot -Tsvg >FILE.svg)\n"
"  --quiet           leaves out the lines of single losses\n"
"\n"
"How to read the output:\n"
"  An operation has a sequence number, given as it is issued; it waits until the link has sent it. A write across the end of a\n"
"  file is two: an overwrite of the bytes up to the end, then an append. A broken link may lose the append alone.\n"
"  Names that differ only in A to Z against a to z are the same name. After the first 50 operations pupils at times type a name\n"
"  in another spelling; a loss record has it as typed.\n"
"  At each broken link: how many operations are lost, which programs are marked (each that issued a lost one or had seen what\n"
"  it did), and for each marked program the loss records that it fetches, a line each: sequence number, program, kind, object.\n"
"  `object 37, \"essay 2\" in 5` is object 37 with this name in directory 5; a name in brackets is what the object was called.\n"
"  At the end the server volume is compared with the host's own replay of all operations but the lost ones. Every answer of the\n"
"  library was compared before with what the host expected. The summary has the calls, the refusals and the times; the floor\n"
"  is the time of a plain | over all bytes of server volume, view and log.\n"
"\n"
"It ends with 0 if all is as expected, with 1 at the first difference, and with 2 if an option or a file is unfit.\n";

void refuse(const char *format, ...)
{
    va_list values;
    va_start(values, format);
    fprintf(stderr, "lesson: ");
    vfprintf(stderr, format, values);
    fprintf(stderr, " (--help tells more)\n");
    va_end(values);
    exit(2);
}

/* The decimal number that is the whole word, and not above the greatest. */
static uint64_t number_of(const char *option, const char *word, uint64_t greatest)
{
    uint64_t number = 0;
    const char *digit;
    for (digit = word; *digit >= '0' && *digit <= '9' && number <= (greatest - (uint64_t)(*digit - '0')) / 10; digit++)
        number = 10 * number + (uint64_t)(*digit - '0');
    if (digit == word || *digit != '\0')
        refuse("%s takes a whole number of at most %llu, not \"%s\"", option, (unsigned long long)greatest, word);
    return number;
}

/* Takes one option, with its value if it has one; tells how many words that were. */
static int take_option(struct options *options, const char *word, const char *value)
{
    if (strcmp(word, "--quiet") == 0) {
        options->quiet = 1;
        return 1;
    }
    if (strcmp(word, "--seed") != 0 && strcmp(word, "--operations") != 0 && strcmp(word, "--server") != 0
        && strcmp(word, "--graph") != 0)
        refuse("there is no option \"%s\"", word);
    if (!value || *value == '\0')
        refuse("%s needs a value", word);
    if (strcmp(word, "--seed") == 0)
        options->seed = number_of(word, value, UINT64_MAX);
    else if (strcmp(word, "--operations") == 0)
        options->operations = number_of(word, value, MOST_OPERATIONS);
    else if (strcmp(word, "--server") == 0)
        options->server = value;
    else
        options->graph = value;
    return 2;
}

struct options read_options(int count, char **words)
{
    struct options options = {1, 20000, NULL, NULL, 0};
    int i = 1;
    while (i < count) {
        if (strcmp(words[i], "--help") == 0) {
            fputs(help, stdout);
            exit(0);
        }
        i += take_option(&options, words[i], i + 1 < count ? words[i + 1] : NULL);
    }
    if (options.operations == 0)
        refuse("--operations takes a number of at least 1");
    return options;
}
