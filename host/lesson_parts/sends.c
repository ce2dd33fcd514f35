/* Sends, the cut of the link, and losses. */
#include "calls.h"
#include <string.h>

void check_answer(const char *asked, uint64_t program, uint64_t object, struct wb_value answer, struct wb_value expected)
{
    if (answer.returned != expected.returned || answer.value != expected.value)
        fault("%s by program %d of object %d: returned %d, %s, with value %llu; expected was %d, %s, with value %llu", asked,
              (int)program, (int)object, (int)answer.returned, wb_text(answer.returned), (unsigned long long)answer.value,
              (int)expected.returned, wb_text(expected.returned), (unsigned long long)expected.value);
}

uint64_t holder(const struct host *host, uint64_t place)
{
    uint64_t i;
    for (i = 0; i < place; i++)
        if (directly_precedes(host->waiting[i], host->waiting[place]))
            break;
    return i;
}

uint64_t do_push(struct host *host, uint64_t place)
{
    const struct operation *operation = host->waiting[place];
    uint64_t first = holder(host, place), expected = first == place ? WB_ACCEPTED : WB_NOT_FIRST;
    uint8_t chosen[WB_MOST_SLOTS] = {0};
    struct wb_code answer;
    CALL(host, ENTRY_PUSH, answer, wb_push(LENT(host), operation->sequence));
    if (answer.returned != expected) {
        fflush(stdout);
        fprintf(stderr, "\nlesson: push of operation ");
        print_operation(stderr, operation);
        fprintf(stderr, "\nlesson: the first that waits and directly precedes it, or itself, is ");
        print_operation(stderr, host->waiting[first]);
        fault("the push returned %d, %s; expected was %d, %s", (int)answer.returned, wb_text(answer.returned), (int)expected,
              wb_text(expected));
    }
    if (answer.returned != WB_ACCEPTED)
        return answer.returned;
    chosen[place] = 1;
    now_sent(host, chosen);
    host->pushed++;
    host->overtaking += place > 0;
    return answer.returned;
}

/* Of the chosen ones only so many stay chosen, the first. */
static void keep_first(uint8_t *chosen, uint64_t count, uint64_t most)
{
    uint64_t i;
    for (i = 0; i < count; i++) {
        chosen[i] = chosen[i] && most > 0;
        most -= chosen[i];
    }
}

uint64_t do_fsync(struct host *host, uint64_t program, uint64_t object, uint64_t sends)
{
    uint8_t chosen[WB_MOST_SLOTS], objects[WB_MOST_OBJECTS] = {0};
    uint64_t needed = choose_needed(host, object, chosen);
    struct wb_value answer, expected = {needed <= sends ? WB_ACCEPTED : WB_LINK_LOST, needed <= sends ? needed : sends};
    CALL(host, ENTRY_FSYNC, answer, wb_fsync(LENT(host), program, object, sends));
    check_answer("fsync", program, object, answer, expected);
    objects[object] = 1;
    note_dependence(host, program, objects);
    keep_first(chosen, host->waiting_count, expected.value);
    now_sent(host, chosen);
    if (answer.returned == WB_LINK_LOST)
        now_lost(host);
    return answer.returned;
}

uint64_t do_cut(struct host *host)
{
    struct wb_code answer;
    CALL(host, ENTRY_CUT, answer, wb_cut(LENT(host)));
    if (answer.returned != WB_ACCEPTED)
        fault("wb_cut returned %d, %s", (int)answer.returned, wb_text(answer.returned));
    now_lost(host);
    return answer.returned;
}

/* The place of the program's earliest loss that is not yet fetched; the number of all if it has none. */
static uint64_t earliest_loss(const struct host *host, uint64_t program)
{
    uint64_t i;
    for (i = 0; i < host->lost_count && host->lost[i]->program != program; i++)
        ;
    return i;
}

/* The record is that of the lost operation, which is now fetched. */
static void now_fetched(struct host *host, uint64_t place, const struct operation *fetched)
{
    if (!same_operation(fetched, host->lost[place])) {
        fflush(stdout);
        fprintf(stderr, "\nlesson: fetched ");
        print_operation(stderr, fetched);
        fprintf(stderr, "\nlesson: the host expected ");
        print_operation(stderr, host->lost[place]);
        fault("the loss record is not the operation that was issued");
    }
    issued_as(host, fetched->sequence)->state = FETCHED;
    host->fetched_count++;
    host->lost_count--;
    memmove(host->lost + place, host->lost + place + 1, (host->lost_count - place) * sizeof host->lost[0]);
}

uint64_t do_take(struct host *host, uint64_t program, struct operation *fetched)
{
    uint8_t buffer[WB_RECORD_BYTES];
    uint64_t place = earliest_loss(host, program), expected = place == host->lost_count ? WB_NONE : WB_ACCEPTED;
    struct wb_value answer;
    CALL(host, ENTRY_TAKE, answer, wb_take(LENT(host), program, buffer, sizeof buffer));
    if (answer.returned != expected)
        fault("take by program %d returned %d, %s; expected was %d, %s", (int)program, (int)answer.returned,
              wb_text(answer.returned), (int)expected, wb_text(expected));
    if (expected == WB_NONE)
        return expected;
    if (!operation_of_record(buffer, answer.value, fetched))
        fault("what program %d fetched is no loss record", (int)program);
    now_fetched(host, place, fetched);
    return expected;
}

uint64_t do_renew(struct host *host, uint64_t program)
{
    uint64_t expected = earliest_loss(host, program) < host->lost_count ? WB_LOSSES_LEFT : WB_ACCEPTED;
    struct wb_code answer;
    CALL(host, ENTRY_RENEW, answer, wb_renew(LENT(host), program));
    if (answer.returned != expected)
        fault("renew by program %d returned %d, %s; expected was %d, %s", (int)program, (int)answer.returned,
              wb_text(answer.returned), (int)expected, wb_text(expected));
    if (expected == WB_ACCEPTED)
        host->marked &= ~(UINT64_C(1) << program);
    return expected;
}
