/* Bounded and exhaustive: all sequences of up to 4 operations from a small alphabet on 3 objects, every closed set of them sent
 * by pushes in every order, then a cut. A write across the end of a file is two operations of a sequence. Names come in several
 * spellings, and each object is also given to the wrong one of the two removals. Run it with ./exhaustive. What buffers, answers,
 * marks and losses have to be is reckoned by the host alone, in exhaustive_parts/trial.c. It stops with 1 at the first
 * difference. */
#include <string.h>
#include <time.h>
#include "removal.h"
#include "spellings.h"

static const struct assignment assignments[] = {
    {"0, 1, 2, 3; 5 asks before each cut", 5, {0, 1, 2, 3, 4}, BEFORE_CUT},
    {"0, 1, 0, 1; 5 asks after the last call", 2, {0, 1, 0, 1, 0}, AFTER_LAST},
    {"0, 0, 1, 1; 5 asks after the first call", 2, {0, 0, 1, 1, 0}, AFTER_FIRST},
};
enum { ASSIGNMENTS = sizeof assignments / sizeof assignments[0] };

/* ---- Losses ---- */

/* The program's next loss is the operation, in every field, or there is none if none is wanted. The rest of the buffer stays. */
static void take(struct buffers *lent, uint64_t program, const struct operation *wanted)
{
    uint8_t record[WB_RECORD_BYTES], filled[WB_RECORD_BYTES];
    struct operation got;
    struct wb_value taken;
    memset(record, 170, sizeof record);
    memset(filled, 170, sizeof filled);
    taken = wb_take(LENT(lent), program, record, sizeof record);
    answered("take", taken.returned, wanted ? WB_ACCEPTED : WB_NONE);
    equal("the length of the record", taken.value, wb_record(0, record, counted(sizeof record)).next);
    same("the buffer past the record", record + taken.value, filled, sizeof record - taken.value);
    if (!wanted || (operation_of_record(record, counted(taken.value), &got) && same_operation(&got, wanted)))
        return;
    printf("the loss taken is ");
    print_operation(stdout, &got);
    fail("\nand should be operation %d", (int)wanted->sequence);
}

/* What a cut leaves: both volumes, the losses not yet taken, and the marks. */
struct remains {
    uint8_t volume[VOLUME];
    unsigned losses;
    uint32_t marks;
};

/* The program is marked or not; it takes its losses, each once and in issue order, and can renew only then. */
static void recover(struct buffers *lent, uint64_t program, struct remains *left)
{
    int marked = left->marks >> program & 1;
    uint64_t i;
    answered("the root's status after the cut", wb_stat(LENT(lent), program, 0).returned, marked ? WB_MARKED : WB_ACCEPTED);
    for (i = 0; i < now.issued; i++)
        if (in(left->losses, i) && now.operations[i].program == program) {
            answered("renew with losses left", wb_renew(LENT(lent), program).returned, WB_LOSSES_LEFT);
            take(lent, program, &now.operations[i]);
            left->losses &= ~(1u << i);
            check_lost(lent, left->volume, left->losses, left->marks);
            counts.losses++;
        }
    take(lent, program, NULL);
    answered("renew after the last loss", wb_renew(LENT(lent), program).returned, WB_ACCEPTED);
    left->marks &= ~(UINT32_C(1) << program);
    check_lost(lent, left->volume, left->losses, left->marks);
    answered("the root's status after renewing", wb_stat(LENT(lent), program, 0).returned, WB_ACCEPTED);
}

/* What a cut with the set sent leaves of each write across the end: perhaps the overwrite without the append, never the reverse.
 * This is asked of the sends alone, whatever order the host reckons. */
static void check_across(unsigned sent)
{
    uint64_t i;
    for (i = 1; i < now.issued; i++) {
        if (!in(now.rests, i))
            continue;
        if (in(sent, i) && !in(sent, i - 1))
            fail("operation %d, an append, was sent without the overwrite of the same write", (int)i + 1);
        counts.both += (uint64_t)in(sent, i);
        counts.overwrite_alone += in(sent, i - 1) && !in(sent, i);
        counts.neither += !in(sent, i - 1);
    }
}

/* After a cut with the set sent: the dependents of all others are marked. The programs that issue, one that does nothing and the
 * asker recover, and then the log is empty and looking up notes no dependence. */
static void check_recovery(struct buffers *lent, unsigned sent, const uint32_t dependents[MOST])
{
    struct remains left;
    uint64_t program;
    check_across(sent);
    check_spellings(lent, sent);
    outcome(sent, left.volume);
    left.losses = all() & ~sent;
    left.marks = dependents_of(left.losses, dependents);
    check_lost(lent, left.volume, left.losses, left.marks);
    for (program = 0; program <= now.assignment->count && program < ASKER; program++)
        recover(lent, program, &left);
    recover(lent, ASKER, &left);
    look_up_all(lent);
    check_lost(lent, left.volume, 0, 0);
}

/* ---- Pushes, then a cut ---- */

/* The asker asks for the status of object 1. If the object is used, it depends on what leads to it. */
static void ask(struct buffers *lent, uint32_t dependents[MOST])
{
    const uint64_t object = 1;
    const struct volume view = volume_of(stage()->view);
    const struct wb_status status = wb_stat(LENT(lent), ASKER, object);
    answered("the status of object 1", status.returned, kind_at(&view, object) == FREE ? WB_NO_OBJECT : WB_ACCEPTED);
    equal("the kind of object 1", status.kind, kind_at(&view, object));
    equal("the length of object 1", status.length, length_at(&view, object));
    if (status.returned == WB_ACCEPTED)
        depend(dependents, ASKER, &object, 1);
}

static void try_cut(const struct buffers *lent, unsigned sent)
{
    struct buffers copy = *lent;
    uint32_t dependents[MOST];
    memcpy(dependents, stage()->dependents, sizeof dependents);
    if (now.assignment->asks == BEFORE_CUT)
        ask(&copy, dependents);
    answered("cut", wb_cut(LENT(&copy)).returned, WB_ACCEPTED);
    check_recovery(&copy, sent, dependents);
    counts.cuts++;
}

static uint64_t answer_to_push(uint64_t i, unsigned sent)
{
    return in(sent, i) ? WB_NONE : now.preceding[i] & ~sent ? WB_NOT_FIRST : WB_ACCEPTED;
}

/* The set is sent. Tries a cut there, and a push of each operation; where it is accepted, goes on from there. */
static void push_on(const struct buffers *lent, unsigned sent, uint8_t *reached)
{
    static struct buffers copies[MOST + 1];
    struct buffers *copy = &copies[now.pushes];
    uint64_t i;
    check_waiting(lent, sent, stage()->dependents);
    try_cut(lent, sent);
    reached[sent] = 1;
    counts.orders++;
    counts.whole += sent == all();
    for (i = 0; i < now.issued; i++) {
        *copy = *lent;
        now.pushed[now.pushes++] = i + 1;
        answered("the last push", wb_push(LENT(copy), i + 1).returned, answer_to_push(i, sent));
        if (answer_to_push(i, sent) == WB_ACCEPTED)
            push_on(copy, sent | 1u << i, reached);
        else
            unchanged("the last push, which is refused,", copy, lent);
        now.pushes--;
    }
}

/* All orders of pushes, and that the sets reached are the closed ones. */
static void try_pushes(const struct buffers *lent)
{
    uint8_t reached[1 << MOST] = {0};
    unsigned set;
    reckon_order();
    push_on(lent, 0, reached);
    for (set = 0; set <= all(); set++) {
        equal("whether a set of operations can be sent", reached[set], (uint64_t)closed(set));
        counts.sets += reached[set];
    }
}

/* ---- Fsync ---- */

static uint64_t size_of(unsigned set) { return set ? (set & 1) + size_of(set >> 1) : 0; }

static unsigned without_last(unsigned set)
{
    unsigned last = 1u << MOST;
    while (last && !(set & last))
        last >>= 1;
    return set & ~last;
}

/* Fsync of the object, which needs a set of operations, over a link that carries those sent. */
static void try_fsync(uint64_t object, unsigned needs, unsigned sent)
{
    struct buffers copy = stage()->lent;
    uint32_t dependents[MOST];
    struct wb_value got;
    now.fsyncs = 1;
    now.object = object;
    now.sends = size_of(sent);
    got = wb_fsync(LENT(&copy), ASKER, object, now.sends);
    memcpy(dependents, stage()->dependents, sizeof dependents);
    depend(dependents, ASKER, &object, 1);
    answered("fsync", got.returned, sent == needs ? WB_ACCEPTED : WB_LINK_LOST);
    equal("the sends of fsync", got.value, now.sends);
    if (sent == needs)
        check_waiting(&copy, sent, dependents);
    else
        check_recovery(&copy, sent, dependents);
    now.fsyncs = 0;
    counts.fsyncs++;
    counts.links += sent != needs;
}

/* Every object in use, with the sends that it needs and with one too few. */
static void try_fsyncs(void)
{
    const struct volume view = volume_of(stage()->view);
    uint64_t object;
    unsigned needs;
    for (object = 0; object < N; object++) {
        needs = needed(object);
        if (kind_at(&view, object) == FREE)
            continue;
        try_fsync(object, needs, needs);
        if (needs)
            try_fsync(object, needs, without_last(needs));
    }
}

/* ---- Sequences ---- */

/* A remove goes to the call for the kind that its object has in the view. */
static struct wb_value call(struct buffers *lent, const struct operation *given)
{
    const struct volume view = volume_of(stage()->view);
    uint8_t list[2 * WB_LIST_OBJECTS] = {0};
    uint64_t i;
    switch (given->kind) {
    case CREATE_FILE:
        return wb_create(LENT(lent), given->program, given->parent, given->name, given->name_length, given->object);
    case MAKE_DIRECTORY:
        return wb_mkdir(LENT(lent), given->program, given->parent, given->name, given->name_length, given->object);
    case REMOVE:
        return call_removal(lent, given, kind_at(&view, given->object));
    case RENAME:
        return wb_rename(LENT(lent), given->program, given->parent, given->name, given->name_length,
                         given->second_parent, given->second_name, given->second_name_length);
    case SET_LENGTH:
        return wb_setlen(LENT(lent), given->program, given->object, given->offset);
    case FORDER:
        for (i = 0; i < given->list_length; i++)
            list[2 * i] = (uint8_t)given->list[i];
        return wb_forder(LENT(lent), given->program, list, 2 * given->list_length);
    default:
        return wb_write(LENT(lent), given->program, given->object, given->offset, given->data, given->data_length);
    }
}

/* The letter as the operations of a call that comes next, a write across the end as two. Gives the one that the call asks for. */
static struct operation ask_for(const struct letter *letter)
{
    const struct volume view = volume_of(stage()->view);
    struct operation whole;
    spell(letter, &view, now.issued + 1, &whole);
    whole.program = now.assignment->programs[now.issued];
    now.asked = divide(&view, &whole, &now.operations[now.issued]);
    now.rests &= ~(3u << now.issued);
    now.rests |= now.asked == 2 ? 2u << now.issued : 0;
    return whole;
}

/* The next of the operations asked for is issued: what the host reckons at a stage after it. */
static void note_issued(struct stage *next)
{
    const struct operation *operation = &now.operations[now.issued];
    struct volume view = volume_of(next->view);
    uint64_t objects[WB_LIST_OBJECTS];
    depend(next->dependents, operation->program, objects, operands(operation, objects));
    next->dependents[now.issued] = UINT32_C(1) << operation->program;
    count_spellings(&view, operation);
    equal("whether an accepted operation applies to the view", (uint64_t)replay(&view, operation), 1);
    now.issued++;
    now.asked--;
    counts.kinds[operation->kind]++;
}

/* The call is refused and changes nothing. One that only lacks a slot is refused for that, one that would make an object is for a
 * name that is there in another spelling, and a remove is for a free number or for children. */
static void check_refused(struct wb_value got, const struct buffers *lent, int lacks_slot)
{
    const struct volume view = volume_of(stage()->view);
    const int taken = taken_otherwise(&view, &now.operations[now.issued]);
    equal("whether the call is refused", got.returned != WB_ACCEPTED && got.value == 0, 1);
    if (lacks_slot)
        answered("a write across the end with one slot free", got.returned, WB_LOG_FULL);
    if (taken)
        answered("making an object whose name is there in another spelling", got.returned, WB_TAKEN);
    if (now.operations[now.issued].kind == REMOVE)
        check_refused_removal(got, &now.operations[now.issued]);
    unchanged("the refused call", lent, &stage()->lent);
    now.asked = 0;
    counts.refused++;
    counts.one_slot += (uint64_t)lacks_slot;
    counts.taken_other += (uint64_t)taken;
}

/* Issues the letter in a copy of the present stage. Tells how many operations that are; none if it is refused, as it is if the
 * host reckons so. */
static uint64_t issue(const struct letter *letter)
{
    const struct operation whole = ask_for(letter), *first = &now.operations[now.issued];
    const struct volume view = volume_of(stage()->view);
    const uint64_t count = now.asked;
    const int fits = now.issued + count <= now.most, sound = acceptable(&view, first);
    struct stage *next = stage() + count;
    struct wb_value got;
    *next = *stage();
    got = call(&next->lent, &whole);
    if (!sound || !fits) {
        check_refused(got, &next->lent, sound);
        return 0;
    }
    answered("the call", got.returned, WB_ACCEPTED);
    equal("the sequence number given", got.value, first->sequence);
    while (now.asked > 0)
        note_issued(next);
    check_waiting(&next->lent, 0, next->dependents);
    counts.across += count == 2;
    return count;
}

static void show_progress(void)
{
    static time_t shown;
    if (!shown)
        shown = time(NULL);
    if (time(NULL) < shown + 5)
        return;
    shown = time(NULL);
    fprintf(stderr, "starting volume %d of %d, programs %d of %d: %lu cuts, %lu calls so far\n", (int)(now.start - starts) + 1,
            (int)start_count, (int)(now.assignment - assignments) + 1, ASSIGNMENTS, (unsigned long)counts.cuts,
            (unsigned long)counts.calls);
}

/* The sequence that is issued. */
static void try_sequence(void)
{
    struct stage kept = *stage();
    if (now.assignment->asks == AFTER_LAST)
        ask(&stage()->lent, stage()->dependents);
    try_pushes(&stage()->lent);
    try_fsyncs();
    *stage() = kept;
    counts.sequences[now.issued]++;
    show_progress();
}

/* The sequence that is issued, and all that begin with it. */
static void try_all(void)
{
    uint64_t letter, count;
    if (now.assignment->asks == AFTER_FIRST && first_call())
        ask(&stage()->lent, stage()->dependents);
    try_sequence();
    try_removals();
    if (now.issued == now.most)
        return;
    for (letter = 0; letter < letter_count; letter++) {
        count = issue(&alphabet[letter]);
        if (count == 0)
            continue;
        try_all();
        now.issued -= count;
    }
}

/* Makes the starting volume by calls and pushes, and mounts it anew. */
static void prepare(void)
{
    struct buffers *lent = &now.stages[0].lent;
    struct volume view = volume_of(now.stages[0].view);
    struct operation operation;
    uint64_t i;
    memset(&now.stages[0], 0, sizeof now.stages[0]);
    answered("format", wb_format(counted(N), B, SLOTS, lent->server, VOLUME).returned, WB_ACCEPTED);
    answered("mount", wb_mount(LENT(lent)).returned, WB_ACCEPTED);
    memcpy(view.bytes, lent->server, VOLUME);
    for (i = 0; i < now.start->count; i++) {
        spell(&now.start->letters[i], &view, MOST + 1, &operation);
        replay(&view, &operation);
        answered("a call for the starting volume", call(lent, &operation).returned, WB_ACCEPTED);
        answered("a push for the starting volume", wb_push(LENT(lent), i + 1).returned, WB_ACCEPTED);
    }
    same("the starting volume", lent->server, view.bytes, VOLUME);
    answered("mount", wb_mount(LENT(lent)).returned, WB_ACCEPTED);
    try_twice(lent);
}

static void print_count(uint64_t count, const char *text) { printf("%12lu %s\n", (unsigned long)count, text); }

/* How often each kind was issued, and under which rule of order the pairs of a sequence fall. */
static void print_alphabet(void)
{
    uint64_t kind;
    printf("%d letters; %d starting volumes and programs in %d ways, for each of which a sequence counts anew\n",
           (int)letter_count, (int)start_count, ASSIGNMENTS);
    for (kind = CREATE_FILE; kind <= FORDER; kind++)
        printf("%12lu operations issued: %s\n", (unsigned long)counts.kinds[kind], kind_text(kind));
    print_count(counts.apart, "pairs of operations without a shared operand");
    print_count(counts.touching, "pairs that share one and are not two overwrites");
    print_count(counts.loose, "pairs of overwrites of a file without a common byte");
    print_count(counts.common, "pairs of overwrites with a common byte");
    print_count(counts.across, "writes across the end, an overwrite and an append each");
    print_count(counts.one_slot, "writes across the end refused with one slot free");
    print_count(counts.by_other, "removes and renames that found their object by another spelling");
    print_count(counts.case_alone, "renames that change only the case");
    print_count(counts.displacing_other, "renames that displace an object with the name in another spelling");
    print_count(counts.taken_other, "objects not made, since their name was there in another spelling");
    print_count(counts.wrong_files, "files given to remove directory, all refused");
    print_count(counts.wrong_empty, "empty directories given to remove file, all refused");
    print_count(counts.wrong_filled, "directories with children given to remove file, all refused for their kind");
    print_count(counts.wrong_full, "of these three with no slot free");
    print_count(counts.not_empty, "directories with children given to remove directory, all refused for these");
    print_count(counts.twice, "volumes with two spellings of a name in a directory, all refused");
}

static void print_counts(void)
{
    uint64_t i, sequences = 0;
    for (i = 0; i <= now.most; sequences += counts.sequences[i++])
        printf("%12lu sequences of length %d\n", (unsigned long)counts.sequences[i], (int)i);
    print_count(sequences, "sequences tried");
    print_count(counts.refused, "sequences refused at their last operation");
    print_count(counts.sets, "closed sets");
    print_count(counts.orders, "orders of pushes of a closed set");
    print_count(counts.whole, "of them with the whole sequence sent");
    print_count(counts.cuts, "cuts after pushes");
    print_count(counts.fsyncs, "fsyncs");
    print_count(counts.links, "of them with too few sends");
    print_count(counts.both, "writes across the end sent whole when the link broke");
    print_count(counts.overwrite_alone, "with the overwrite sent and the append lost; none the other way round");
    print_count(counts.neither, "lost whole");
    print_count(counts.new_spelling, "renames that change only the case with the new spelling on the server when the link broke");
    print_count(counts.old_spelling, "with the old spelling there");
    print_count(counts.no_spelling, "with neither, the object being gone, not yet there or under another name");
    print_count(counts.looked, "objects then looked up by another spelling");
    print_count(counts.losses, "losses fetched");
    print_count(counts.calls, "calls");
    printf("all %lu sequences held\n", (unsigned long)sequences);
}

static void usage(FILE *file)
{
    fprintf(file, "usage: exhaustive [--operations K]\n"
            "Tries all sequences of up to K operations, 0 to %d; 4 if not given.\n", MOST);
}

/* The number after --operations; over MOST if it is none. */
static uint64_t operations_given(const char *text)
{
    return text[0] >= '0' && text[0] <= '9' && !text[1] ? (uint64_t)(text[0] - '0') : MOST + 1;
}

int main(int count, char **arguments)
{
    uint64_t i;
    now.most = count == 1 ? 4 : MOST + 1;
    if (count == 2 && strcmp(arguments[1], "--help") == 0) {
        usage(stdout);
        return 0;
    }
    if (count == 3 && strcmp(arguments[1], "--operations") == 0)
        now.most = operations_given(arguments[2]);
    if (now.most > MOST) {
        usage(stderr);
        return 2;
    }
    for (i = 0; i < start_count * ASSIGNMENTS; i++) {
        now.start = &starts[i / ASSIGNMENTS];
        now.assignment = &assignments[i % ASSIGNMENTS];
        prepare();
        try_all();
    }
    print_alphabet();
    print_counts();
    return 0;
}
