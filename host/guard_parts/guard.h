/* What guard and its parts share: guard.c makes the calls and compares, memory.c lends the buffers, state.c reads what
 * they hold, calls.c chooses sensible calls, wild.c makes arguments wild, disturb.c changes the buffers, across.c counts the
 * answers to writes across the end of a file, removal.c those to the two removals, spelling.c spells names in other ways and
 * counts the answers to them. */
#ifndef GUARD_H
#define GUARD_H

#include <stddef.h>
#include "numbers.h"
#include "second_calls.h"

#define ENTRIES(DO) \
    DO(FORMAT, format) DO(MOUNT, mount) DO(LOOKUP, lookup) DO(LIST, list) DO(STAT, stat) DO(READ, read) DO(CREATE, create) \
    DO(MKDIR, mkdir) DO(REMOVE_FILE, remove_file) DO(REMOVE_DIRECTORY, remove_directory) DO(RENAME, rename) DO(WRITE, write) \
    DO(SETLEN, setlen) DO(FORDER, forder) DO(PUSH, push) DO(FSYNC, fsync) DO(CUT, cut) DO(TAKE, take) DO(RENEW, renew) \
    DO(RECORD, record)
#define CONSTANT(NAME, name) NAME,
enum entry { ENTRIES(CONSTANT) ENTRY_COUNT };

/* The numbers that calls are given, and the buffers that they are lent. OWN is the call's name, path, data, list or buffer. */
enum number { N, B, M, PROGRAM, OBJECT, PARENT, SECOND_PARENT, OFFSET, LENGTH, SEQUENCE, SENDS, AT, NUMBERS };
enum buffer { SERVER, VIEW, LOG, OWN, SECOND_NAME, BUFFERS };
#define BIT(place) (UINT32_C(1) << (place))
#define HAS(bits, place) ((bits) >> (place) & 1)

struct call {
    enum entry entry;
    uint64_t number[NUMBERS];
    uint64_t length[BUFFERS];
    int null[BUFFERS]; /* a length of 0 is lent with a null pointer */
};

/* The numbers and buffers of an entry, and the returned numbers that it can give, as bits. */
struct shape {
    const char *name;
    uint32_t numbers, buffers, returned;
};
extern const struct shape shapes[ENTRY_COUNT];
extern const char *const number_names[NUMBERS];
extern const char *const buffer_names[BUFFERS];

/* ---- Random numbers, from a seed ---- */
void set_seed(uint64_t seed);
uint64_t any(void);
uint64_t below(uint64_t limit);
int chance(uint64_t in, uint64_t of);
#define PICK(from) (from)[below(sizeof(from) / sizeof *(from))]
/* One of several numbers; none of them may itself be random, since C leaves open which is reckoned first. */
#define ONE_OF(...) PICK(((const uint64_t[]){__VA_ARGS__}))

/* ---- The memory. Each area lies between unreadable pages, is mapped a second time for reading only, and has a copy for the
 *      second program. Copy and area hold the same bytes between calls. ---- */
enum placement { ENDS, BEGINS };  /* buffers end at an unreadable page, or begin after one */
enum side { PROVED, SECOND, NEITHER };
struct lent {
    const uint8_t *read; /* for a parameter of type const uint8_t * */
    uint8_t *write;
    uint64_t length;
};
#define WIDE (UINT64_C(1) << 32)
#define ROOM (WIDE + (UINT64_C(1) << 22)) /* the bytes of an area */
extern enum placement placement;
void open_areas(void);
struct lent lend(const struct call *call, enum buffer buffer, enum side side);
const uint8_t *copy_of(enum buffer buffer, uint64_t length);
/* Changes bytes of a buffer of that length on both sides. */
void put(enum buffer buffer, uint64_t length, uint64_t at, const void *bytes, uint64_t count);
void fill(enum buffer buffer, uint64_t length, uint8_t byte);
/* Whether the two sides differ in a buffer of that length; if so, at which byte first, and in what. */
int differs(enum buffer buffer, uint64_t length, uint64_t *at, uint8_t bytes[2]);
/* What a signal finds: the seed, the calls to be made, those made, the call that is being made and by which side. */
struct progress {
    uint64_t seed, calls, made;
    struct call call;
    volatile enum side turn;
};
extern struct progress progress;
void catch_signals(void);
const char *commas(uint64_t number); /* the number with commas, in one of a few rooms by turns */

/* ---- What the buffers hold ---- */
struct geometry {
    uint64_t n, b, m;
};
extern struct geometry present;
enum kind { FREE, FILE_KIND, DIRECTORY };
#define ENTRY_BYTES (WB_ENTRY_HEAD_BYTES + WB_BLOCK_BYTES * present.b)
uint64_t present_length(enum buffer buffer);
int is_usual(const struct call *call); /* it is given n, b and m as they are, and buffers of the lengths that go with them */
const uint8_t *entry_at(enum buffer volume, uint64_t object);
const uint8_t *object_at(uint64_t object); /* an entry of the view */
const uint8_t *slot_at(uint64_t slot);
uint64_t parent_of(uint64_t object);
uint64_t length_of(uint64_t object);
uint64_t listing_of(uint64_t directory); /* the bytes of a listing */
uint64_t slots_used(void);
uint64_t slots_lost(void);
uint64_t sequence_of(uint64_t slot);
uint64_t issuer_of(uint64_t slot);
uint64_t next_sequence(void);
uint64_t marks(void);
int marked(uint64_t program);
int has_object(uint32_t kinds);
/* An object of the view of one of these kinds (bits); if there is none any number up to n. */
uint64_t object_of(uint32_t kinds);

/* ---- Choosing ---- */
#define LONGEST_TEXT 66000
void text(struct call *call, enum buffer buffer, const void *bytes, uint64_t length); /* lends the call these bytes */
uint64_t a_name(uint8_t *name);
void lend_present(struct call *call, enum entry entry); /* a call with the three buffers as they are */
void choose(struct call *call);
void make_wild(struct call *call); /* one or more arguments of a chosen call */

/* ---- Writes across the end of a file, which are two operations ---- */
struct across {
    int is;               /* the call is one, as far as offset, length and the file tell */
    uint64_t free, left;  /* the slots that are free and the sequence numbers that are left before it */
};
struct across across_of(const struct call *call);
void count_across(struct across across, uint64_t returned);
unsigned say_across(void); /* prints how often each answer came, and gives how many never did */

/* ---- The two removals, remove file and remove directory, on objects of either kind ---- */
int is_removal(enum entry entry);
struct removal {
    enum { NO_REMOVAL, A_FILE, AN_EMPTY_DIRECTORY, A_FILLED_DIRECTORY, NO_NAME, IN_A_FILE, IN_NOTHING, PLACES } place;
    enum { ROOM_LEFT, NO_SLOT, NO_NUMBER, ROOMS } room; /* whether one more operation can wait */
};
struct removal removal_of(const struct call *call); /* what stands where the call is to remove, as far as name and view tell */
void count_removal(struct removal removal, const struct call *call, uint64_t returned);
unsigned say_removal(void); /* prints how often each answer came, and gives how many never did */

/* ---- Names that differ in A to Z against a to z, which are the same, and names that nearly do, which are not ---- */
/* The object of the view that a name leads to, in whatever spelling; n if there is none. */
uint64_t sought(uint64_t directory, const uint8_t *name, uint64_t length);
void respell(uint8_t *text, uint64_t length); /* the case of some letters changes */
void shift(uint8_t *text, uint64_t length);   /* a byte changes by 32, mostly to one that is another */
enum spelling {
    FOUND,              /* lookup, the removals, rename, push: an object is found by another spelling */
    THERE,              /* create, mkdir: the name is there in another spelling, and the number is free */
    CASE_OF_FILE,       /* rename: only the case of the stored name changes */
    CASE_OF_DIRECTORY,  /* the same of a directory with children */
    STORED,             /* rename: found by another spelling, to the stored one, which changes nothing */
    DISPLACED           /* rename: onto an object that has the second name in another spelling */
};
struct spelt {
    uint32_t is;        /* bits of enum spelling, as far as names and the view tell, or of a push the server volume */
    int made;           /* create, mkdir, rename: the new name is absent, and one is there that differs in such a pair of bytes */
    int not_found;      /* lookup, the removals: the same of the name sought */
    enum buffer twice;  /* the volume in which two spellings of a name stand in one directory; LOG if there is none */
};
struct spelt spelt_of(const struct call *call);
void count_spelt(struct spelt spelt, const struct call *call, uint64_t returned);
unsigned say_spelt(void); /* prints how often each answer came, and gives how many never did */

/* ---- Changing the buffers between calls ---- */
enum buffer name_twice(void); /* the volume that was changed so that two spellings of a name are in one directory; LOG if none was */
void make_record(uint8_t *record, uint64_t sequence, uint64_t n, uint64_t longest);
void make_volume(void);   /* a server volume with content */
void begin_moments(void); /* forgets what was before */
void disturb(void);
void note_answer(const struct call *call, uint64_t returned);

#endif
