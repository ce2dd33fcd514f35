/* Random calls through the library with every buffer beside an unreadable page, each compared with the second program: its
 * answer, and every byte of the buffers (of one above 2 MiB the first and the last 128 KiB). A touch outside a buffer, or a
 * write to one that is lent for reading, ends the run by a signal. Run it with ./guard. */
#include <inttypes.h>
#include <stdio.h>
#include <stdlib.h>
#include <string.h>
#include <time.h>
#include "guard.h"

/* ---- The entries ---- */
#define GEOMETRY (BIT(N) | BIT(B) | BIT(M))
#define ASKED (GEOMETRY | BIT(PROGRAM))
#define THREE (BIT(SERVER) | BIT(VIEW) | BIT(LOG))
#define GIVES_BEGUN (BIT(WB_ACCEPTED) | BIT(WB_WRONG_BUFFER) | BIT(WB_DAMAGED))
#define GIVES_ASKED (GIVES_BEGUN | BIT(WB_BAD_PROGRAM) | BIT(WB_MARKED))
#define GIVES_TEXT (BIT(WB_BAD_NAME) | BIT(WB_LONG_NAME))
#define GIVES_OBJECT (GIVES_ASKED | BIT(WB_BAD_NUMBER) | BIT(WB_NO_OBJECT))
#define GIVES_KIND (GIVES_OBJECT | BIT(WB_WRONG_KIND))
#define GIVES_ISSUED (BIT(WB_LOG_FULL) | BIT(WB_SPENT))
#define GIVES_NAMED (GIVES_KIND | GIVES_TEXT | GIVES_ISSUED)
#define GIVES_MADE (GIVES_NAMED | BIT(WB_TAKEN))
#define GIVES_EMPTIED (GIVES_NAMED | BIT(WB_NOT_EMPTY))
#define GIVES_WRITTEN (GIVES_KIND | GIVES_ISSUED | BIT(WB_BAD_RANGE))
/* The second sense of 2, an operation being sent does not apply, is counted as a number of its own. */
#define DOES_NOT_APPLY 21
#define RETURNED 22

const struct shape shapes[ENTRY_COUNT] = {
    [FORMAT] = {"format", GEOMETRY, BIT(SERVER), BIT(WB_ACCEPTED) | BIT(WB_WRONG_BUFFER)},
    [MOUNT] = {"mount", GEOMETRY, THREE, GIVES_BEGUN},
    [LOOKUP] = {"lookup", ASKED, THREE | BIT(OWN), GIVES_ASKED | GIVES_TEXT | BIT(WB_NO_OBJECT) | BIT(WB_WRONG_KIND)},
    [LIST] = {"list", ASKED | BIT(OBJECT), THREE | BIT(OWN), GIVES_KIND | BIT(WB_SHORT_BUFFER)},
    [STAT] = {"stat", ASKED | BIT(OBJECT), THREE, GIVES_OBJECT},
    [READ] = {"read", ASKED | BIT(OBJECT) | BIT(OFFSET), THREE | BIT(OWN), GIVES_KIND | BIT(WB_BAD_RANGE)},
    [CREATE] = {"create", ASKED | BIT(PARENT) | BIT(OBJECT), THREE | BIT(OWN), GIVES_MADE},
    [MKDIR] = {"mkdir", ASKED | BIT(PARENT) | BIT(OBJECT), THREE | BIT(OWN), GIVES_MADE},
    [REMOVE_FILE] = {"remove_file", ASKED | BIT(PARENT), THREE | BIT(OWN), GIVES_NAMED},
    [REMOVE_DIRECTORY] = {"remove_directory", ASKED | BIT(PARENT), THREE | BIT(OWN), GIVES_EMPTIED},
    [RENAME] = {"rename", ASKED | BIT(PARENT) | BIT(SECOND_PARENT), THREE | BIT(OWN) | BIT(SECOND_NAME), GIVES_EMPTIED},
    [WRITE] = {"write", ASKED | BIT(OBJECT) | BIT(OFFSET), THREE | BIT(OWN), GIVES_WRITTEN},
    [SETLEN] = {"setlen", ASKED | BIT(OBJECT) | BIT(LENGTH), THREE, GIVES_WRITTEN},
    [FORDER] = {"forder", ASKED, THREE | BIT(OWN), GIVES_OBJECT | GIVES_ISSUED},
    [PUSH] = {"push", GEOMETRY | BIT(SEQUENCE), THREE, GIVES_BEGUN | BIT(WB_NOT_FIRST) | BIT(WB_NONE) | BIT(DOES_NOT_APPLY)},
    [FSYNC] = {"fsync", ASKED | BIT(OBJECT) | BIT(SENDS), THREE, GIVES_OBJECT | BIT(WB_LINK_LOST) | BIT(DOES_NOT_APPLY)},
    [CUT] = {"cut", GEOMETRY, THREE, GIVES_BEGUN},
    [TAKE] = {"take", ASKED, THREE | BIT(OWN), GIVES_BEGUN | BIT(WB_BAD_PROGRAM) | BIT(WB_NONE) | BIT(WB_SHORT_BUFFER)},
    [RENEW] = {"renew", ASKED, THREE, GIVES_BEGUN | BIT(WB_BAD_PROGRAM) | BIT(WB_LOSSES_LEFT)},
    [RECORD] = {"record", BIT(AT), BIT(OWN), BIT(WB_ACCEPTED) | BIT(WB_BAD_RECORD)},
};
const char *const number_names[NUMBERS] = {"n", "b", "m", "program", "object", "parent", "second parent", "offset", "length",
    "sequence", "sends", "at"};
const char *const buffer_names[BUFFERS] = {"server volume", "view", "log", "call's own buffer", "second name"};

union answer {
    uint64_t field[sizeof(struct wb_loss) / sizeof(uint64_t)];
    struct wb_code code;
    struct wb_value value;
    struct wb_status status;
    struct wb_loss loss;
};

/* The library and the second program: their entries. */
#define MEMBER(NAME, name) __typeof__(wb_##name) *name;
struct calls {
    ENTRIES(MEMBER)
};
#define OF_LIBRARY(NAME, name) wb_##name,
#define OF_SECOND(NAME, name) second_##name,
static const struct calls programs[] = {{ENTRIES(OF_LIBRARY)}, {ENTRIES(OF_SECOND)}};

/* One function an entry, that makes its call with the arguments told. */
#define FOR_READING(buffer) lent[buffer].read, lent[buffer].length
#define FOR_WRITING(buffer) lent[buffer].write, lent[buffer].length
#define GIVEN number[N], number[B], number[M]
#define ASKING GIVEN, FOR_READING(SERVER), FOR_READING(VIEW), FOR_WRITING(LOG), number[PROGRAM]
#define CHANGED GIVEN, FOR_READING(SERVER), FOR_WRITING(VIEW), FOR_WRITING(LOG)
#define CHANGING CHANGED, number[PROGRAM]
#define SENDING GIVEN, FOR_WRITING(SERVER), FOR_WRITING(VIEW), FOR_WRITING(LOG), number[PROGRAM]
#define CALL(name, form, ...) \
    static void call_##name(const struct calls *by, const uint64_t *number, const struct lent *lent, union answer *answer) \
    { \
        answer->form = by->name(__VA_ARGS__); \
    }
CALL(format, code, GIVEN, FOR_WRITING(SERVER))
CALL(mount, code, CHANGED)
CALL(lookup, value, ASKING, FOR_READING(OWN))
CALL(list, value, ASKING, number[OBJECT], FOR_WRITING(OWN))
CALL(stat, status, ASKING, number[OBJECT])
CALL(read, value, ASKING, number[OBJECT], number[OFFSET], FOR_WRITING(OWN))
CALL(create, value, CHANGING, number[PARENT], FOR_READING(OWN), number[OBJECT])
CALL(mkdir, value, CHANGING, number[PARENT], FOR_READING(OWN), number[OBJECT])
CALL(remove_file, value, CHANGING, number[PARENT], FOR_READING(OWN))
CALL(remove_directory, value, CHANGING, number[PARENT], FOR_READING(OWN))
CALL(rename, value, CHANGING, number[PARENT], FOR_READING(OWN), number[SECOND_PARENT], FOR_READING(SECOND_NAME))
CALL(write, value, CHANGING, number[OBJECT], number[OFFSET], FOR_READING(OWN))
CALL(setlen, value, CHANGING, number[OBJECT], number[LENGTH])
CALL(forder, value, ASKING, FOR_READING(OWN))
CALL(push, code, GIVEN, FOR_WRITING(SERVER), FOR_READING(VIEW), FOR_WRITING(LOG), number[SEQUENCE])
CALL(fsync, value, SENDING, number[OBJECT], number[SENDS])
CALL(cut, code, CHANGED)
CALL(take, value, ASKING, FOR_WRITING(OWN))
CALL(renew, code, ASKING)
CALL(record, loss, number[AT], FOR_READING(OWN))
#define FUNCTION(NAME, name) call_##name,
static void (*const functions[])(const struct calls *, const uint64_t *, const struct lent *, union answer *) = {
    ENTRIES(FUNCTION)
};

static union answer answered(const struct call *call, enum side side)
{
    struct lent lent[BUFFERS];
    union answer answer;
    int buffer;
    memset(&answer, 0, sizeof answer);
    for (buffer = SERVER; buffer < BUFFERS; buffer++)
        lent[buffer] = lend(call, (enum buffer)buffer, side);
    progress.turn = side;
    functions[call->entry](&programs[side], call->number, lent, &answer);
    progress.turn = NEITHER;
    return answer;
}

/* ---- The comparison ---- */
struct progress progress = {1, 5000000, 0, {FORMAT, {0}, {0}, {0}}, NEITHER};
static uint64_t counts[ENTRY_COUNT][RETURNED];

static void say_call(const struct call *call)
{
    int i;
    uint64_t at;
    printf("seed %" PRIu64 ", call %" PRIu64 " of %" PRIu64 " (buffers %s an unreadable page): wb_%s\n",
           progress.seed, progress.made, progress.calls, placement == ENDS ? "end at" : "begin after", shapes[call->entry].name);
    for (i = 0; i < NUMBERS; i++)
        if (HAS(shapes[call->entry].numbers, i))
            printf("  %s %" PRIu64 "\n", number_names[i], call->number[i]);
    for (i = 0; i < BUFFERS; i++)
        if (HAS(shapes[call->entry].buffers, i))
            printf("  %s: %" PRIu64 " bytes%s\n", buffer_names[i], call->length[i],
                   call->length[i] == 0 && call->null[i] ? ", null" : "");
    for (i = OWN; i < BUFFERS; i++)
        if (call->length[i] > 0) {
            printf("  %s now:", buffer_names[i]);
            for (at = 0; at < call->length[i] && at < 80; at++)
                printf(" %d", copy_of((enum buffer)i, call->length[i])[at]);
            printf("\n");
        }
}

static void say_answer(const char *by, const union answer *answer)
{
    size_t i;
    printf("  %s:", by);
    for (i = 0; i < sizeof answer->field / sizeof *answer->field; i++)
        printf(" %" PRIu64, answer->field[i]);
    printf("\n");
}

static void stop(const struct call *call, const union answer answers[2], const char *what)
{
    say_call(call);
    say_answer("the library answers", &answers[PROVED]);
    say_answer("the second program answers", &answers[SECOND]);
    printf("%s\n", what);
    exit(1);
}

/* Compares a buffer, as long as it was lent and as long as it is. */
static void compare(const struct call *call, const union answer answers[2], enum buffer buffer)
{
    const uint64_t lent = call->length[buffer], held = buffer <= LOG ? present_length(buffer) : 0;
    const uint64_t length = lent > held ? lent : held;
    uint64_t at;
    uint8_t bytes[2];
    char what[160];
    if (!differs(buffer, length, &at, bytes))
        return;
    snprintf(what, sizeof what, "the %s differs: byte %" PRId64 " is %d for the library and %d for the second program",
             buffer_names[buffer], (int64_t)(placement == ENDS ? at + lent - length : at), bytes[PROVED], bytes[SECOND]);
    stop(call, answers, what);
}

/* The returned number as it is counted: the second sense of 2 is told by another call, which finds the forms good. */
static uint64_t sense(const struct call *call, uint64_t returned)
{
    struct call again = *call;
    if (returned != WB_DAMAGED || (call->entry != PUSH && call->entry != FSYNC))
        return returned;
    again.entry = RENEW;
    again.number[PROGRAM] = WB_PROGRAMS;
    return answered(&again, SECOND).code.returned == WB_BAD_PROGRAM ? DOES_NOT_APPLY : WB_DAMAGED;
}

/* Makes the call that is told, on both sides, and compares. */
static void make(void)
{
    const struct call *const call = &progress.call;
    const struct across across = across_of(call);
    const struct removal removal = removal_of(call);
    const struct spelt spelt = spelt_of(call);
    union answer answers[2];
    uint64_t returned;
    int buffer;
    progress.made++;
    answers[PROVED] = answered(call, PROVED);
    answers[SECOND] = answered(call, SECOND);
    if (memcmp(&answers[PROVED], &answers[SECOND], sizeof *answers) != 0)
        stop(call, answers, "the answers differ");
    for (buffer = SERVER; buffer < BUFFERS; buffer++)
        compare(call, answers, (enum buffer)buffer);
    returned = sense(call, answers[PROVED].code.returned);
    if (returned >= RETURNED || !HAS(shapes[call->entry].returned, returned))
        stop(call, answers, "the entry cannot return this number");
    counts[call->entry][returned]++;
    count_across(across, returned);
    count_removal(removal, call, returned);
    count_spelt(spelt, call, returned);
    note_answer(call, answers[PROVED].code.returned);
}

/* ---- The run ---- */

/* Mostly a small geometry, now and then one of the extremes. Gives the calls to be made with it. */
static uint64_t choose_geometry(void)
{
    static const struct geometry extremes[] = {{256, 1, 1}, {256, 1, 8}, {256, 1, 1024}, {2, 64, 1}, {3, 64, 5}, {2, 1, 1},
        {3, 1, 1024}, {8, 1, 1024}, {40, 1, 20}, {12, 2, 30}, {16, 16, 16}, {255, 2, 3}};
    if (chance(1, 20)) {
        present = PICK(extremes);
        return 60 + below(200);
    }
    present.n = chance(1, 12) ? 8 + below(5) : chance(1, 3) ? 2 + below(5) : 4 + below(3);
    present.b = chance(3, 4) ? 1 : 2;
    present.m = chance(1, 8) ? 7 + below(12) : 1 + below(6);
    return 500 + below(3000);
}

static void begin_volume(void)
{
    lend_present(&progress.call, FORMAT);
    make();
    if (chance(1, 2))
        make_volume();
    lend_present(&progress.call, MOUNT);
    make();
    begin_moments();
}

const char *commas(uint64_t number)
{
    static char rooms[4][32];
    static unsigned turn;
    char *at = rooms[turn = (turn + 1) % 4] + 31;
    int digits = 0;
    do {
        if (digits > 0 && digits % 3 == 0)
            *--at = ',';
        *--at = (char)('0' + number % 10);
        digits++;
    } while ((number /= 10) != 0);
    return at;
}

/* Says every few seconds how far the run is. */
static void say_progress(void)
{
    static time_t begun, said;
    const time_t now = time(NULL);
    if (begun == 0)
        begun = said = now;
    if (now - said < 10)
        return;
    said = now;
    fprintf(stderr, "%s calls, %s a second\n", commas(progress.made), commas(progress.made / (uint64_t)(now - begun)));
}

static void run(enum placement chosen, uint64_t until)
{
    uint64_t left = 0;
    placement = chosen;
    set_seed(progress.seed * 2 + chosen);
    while (progress.made < until) {
        if (left-- == 0) {
            left = choose_geometry();
            begin_volume();
        }
        disturb();
        choose(&progress.call);
        if (chance(1, 5))
            make_wild(&progress.call);
        make();
        if (progress.made % 64 == 0)
            say_progress();
    }
}

/* Prints how often each entry returned what, and gives how many possible answers were never seen. */
static unsigned say_counts(void)
{
    unsigned entry, number, missing = 0;
    uint64_t accepted = 0;
    for (entry = 0; entry < ENTRY_COUNT; entry++) {
        printf("wb_%-16s", shapes[entry].name);
        for (number = 0; number < RETURNED; number++)
            if (HAS(shapes[entry].returned, number)) {
                printf("  %u%s: %s", number == DOES_NOT_APPLY ? WB_DAMAGED : number, number == DOES_NOT_APPLY ? "b" : "",
                       commas(counts[entry][number]));
                missing += counts[entry][number] == 0;
            }
        printf("\n");
        accepted += counts[entry][WB_ACCEPTED];
    }
    missing += say_across() + say_removal() + say_spelt();
    printf("%s calls, %s of them accepted\n", commas(progress.made), commas(accepted));
    return missing;
}

static uint64_t number_of(const char *text)
{
    char *end;
    const uint64_t number = strtoull(text ? text : "", &end, 10);
    if (!text || *text < '0' || *text > '9' || *end != 0) {
        fprintf(stderr, "guard: %s is not a number\n", text ? text : "nothing");
        exit(2);
    }
    return number;
}

int main(int count, char **given)
{
    unsigned missing;
    int i;
    for (i = 1; i < count; i += 2) {
        if (strcmp(given[i], "--seed") == 0)
            progress.seed = number_of(given[i + 1]);
        else if (strcmp(given[i], "--calls") == 0)
            progress.calls = number_of(given[i + 1]);
        else {
            printf("guard [--seed S] [--calls N]\n"
                   "Makes N random calls (5,000,000), half with every buffer before an unreadable page, half behind one,\n"
                   "and compares each with the second program. It ends with 1 at the first difference.\n");
            return strcmp(given[i], "--help") == 0 ? 0 : 2;
        }
    }
    setvbuf(stdout, NULL, _IOLBF, 0);
    open_areas();
    catch_signals();
    run(ENDS, progress.calls / 2);
    run(BEGINS, progress.calls);
    missing = say_counts();
    if (missing > 0) {
        printf("%u possible answers were never seen\n", missing);
        return 1;
    }
    printf("%s calls, no difference; nothing was touched outside the lent buffers\n", commas(progress.made));
    return 0;
}
