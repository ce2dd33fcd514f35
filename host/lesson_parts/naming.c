#include "naming.h"
#include <string.h>
#include "spelling.h"

#define TYPED_WITH_CARE 50 /* the first operations of a lesson */

static const char being_saved[] = "being saved";

const char *first_name(uint64_t program)
{
    static const char *const names[WB_PROGRAMS] = {"Ada", "Ben", "Cleo", "Dan", "Eva", "Finn", "Gita", "Hugo", "Ida", "Jon",
        "Kim", "Leo", "Mia", "Ned", "Ola", "Pia", "Quinn", "Rosa", "Sam", "Tess", "Uma", "Vera", "Will", "Xenia", "Yan", "Zoe",
        "Amir", "Bea", "Carl", "Dora", "Emil", "Fay"};
    return names[program];
}

const char *who(uint64_t program)
{
    static char words[32];
    snprintf(words, sizeof words, "program %d (%s)", (int)program, first_name(program));
    return words;
}

const char *plural(uint64_t number) { return number == 1 ? "" : "s"; }

void say_name(uint64_t program, struct name name, const char *what, const char *why)
{
    printf("%s creates \"", who(program));
    print_name(stdout, name.bytes, name.length);
    printf("\": %s%s.\n", what, why);
}

static void add(struct name *name, const char *text)
{
    uint64_t length = strlen(text), left = sizeof name->bytes - name->length;
    if (length > left)
        length = left;
    memcpy(name->bytes + name->length, text, length);
    name->length += length;
}

/* A text and a number from 1 on. */
static struct name numbered(const char *text, uint64_t number)
{
    struct name name = {0, {0}};
    char digits[24];
    snprintf(digits, sizeof digits, " %d", (int)number);
    add(&name, text);
    add(&name, digits);
    return name;
}

static struct name stretched(struct name name, uint64_t length)
{
    while (name.length < length)
        add(&name, ", and what happened then");
    name.length = length;
    return name;
}

struct name folder_name(uint64_t program)
{
    struct name name = {0, {0}};
    add(&name, first_name(program));
    return name;
}

struct name shared_name(uint64_t group) { return numbered("group", group + 1); }

/* Now and then one with bytes that are not shown as they are. */
static struct name short_name(struct chance *chance)
{
    static const char *const words[] = {"essay", "sums", "notes", "poem", "map", "drawing", "letter", "list", "homework", "diary",
                                        "song", "plan"};
    static const char *const odd[] = {"\"my cat\"", "caf\xc3\xa9", "a\\b"};
    return numbered(one_in(chance, 25) ? odd[below(chance, sizeof odd / sizeof odd[0])]
                                       : words[below(chance, sizeof words / sizeof words[0])], 1 + below(chance, 9));
}

struct name file_name(struct chance *chance)
{
    struct name name = short_name(chance);
    return one_in(chance, 12) ? stretched(name, WB_NAME_BYTES) : name;
}

struct name subfolder_name(struct chance *chance) { return numbered("box", 1 + below(chance, 4)); }
struct name save_name(struct chance *chance) { return numbered(being_saved, 1 + below(chance, 99)); }
int is_save_name(struct name name) { return memcmp(name.bytes, being_saved, sizeof being_saved - 1) == 0; }
struct name long_name(struct chance *chance) { return stretched(short_name(chance), WB_NAME_BYTES + 1); }

/* Each letter in the other case, as of one who left the capitals on, or only the first one, or only the last. */
static void change_case(struct chance *chance, uint8_t *bytes, uint64_t length)
{
    uint64_t i, first = length, last = length, habit = below(chance, 3);
    for (i = 0; i < length; i++)
        if (other_case(bytes[i]) != bytes[i]) {
            first = first < i ? first : i;
            last = i;
        }
    for (i = 0; i < length; i++)
        if (habit == 0 || i == (habit == 1 ? first : last))
            bytes[i] = other_case(bytes[i]);
}

int careless(struct host *host, uint64_t times)
{
    return host->issued_count >= TYPED_WITH_CARE && one_in(&host->typing, times);
}

struct name respelt(struct host *host, struct name name)
{
    change_case(&host->typing, name.bytes, name.length);
    return name;
}

struct name typed(struct host *host, struct name name) { return careless(host, 5) ? respelt(host, name) : name; }

struct path typed_path(struct host *host, struct path path)
{
    if (careless(host, 5))
        change_case(&host->typing, path.bytes, path.length);
    return path;
}

static void add_component(struct path *path, struct name name)
{
    path->bytes[path->length++] = '/';
    memcpy(path->bytes + path->length, name.bytes, name.length);
    path->length += name.length;
}

struct path path_of(const struct host *host, uint64_t object)
{
    struct path path = {1, {'/'}};
    return object == 0 ? path : path_in(host, parent_at(&host->own, object), name_of(host, object));
}

/* Directories of the class lie at most two below the root, so that a path has room. */
struct path path_in(const struct host *host, uint64_t directory, struct name name)
{
    struct path path = {0, {0}};
    if (directory != 0)
        path = path_of(host, directory);
    add_component(&path, name);
    return path;
}
