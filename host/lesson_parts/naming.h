/* The names of the pupils, their folders and their files. */
#ifndef NAMING_H
#define NAMING_H

#include "calls.h"

/* The first name of the pupil whose program this is. */
const char *first_name(uint64_t program);

/* The program with the first name, in words that stay until the next call. */
const char *who(uint64_t program);

/* The ending of a word for things of this number. */
const char *plural(uint64_t number);

/* Prints a line: what became of the name that the program asked for, and why. */
void say_name(uint64_t program, struct name name, const char *what, const char *why);

struct name folder_name(uint64_t program);
struct name shared_name(uint64_t group);

/* A name for a file at random, now and then of exactly 60 bytes. */
struct name file_name(struct chance *chance);

/* A name for a directory at random. */
struct name subfolder_name(struct chance *chance);

/* The name of a file that is to take the place of another. */
struct name save_name(struct chance *chance);
int is_save_name(struct name name);

/* A name that is longer by one byte than a name may be. */
struct name long_name(struct chance *chance);

/* Whether a pupil does not mind the spelling of a name, once in so many times. In the first operations of a lesson all do mind. */
int careless(struct host *host, uint64_t times);

/* A name in another spelling, and a name as a pupil types it: mostly as it is, now and then in another spelling. */
struct name respelt(struct host *host, struct name name);
struct name typed(struct host *host, struct name name);

/* The path of an object by the host's own view, and the path of a name in a directory. */
struct path path_of(const struct host *host, uint64_t object);
struct path path_in(const struct host *host, uint64_t directory, struct name name);

/* A path as a pupil types it. */
struct path typed_path(struct host *host, struct path path);

#endif
