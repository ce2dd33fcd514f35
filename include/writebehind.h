/*
 * An ordered write-behind volume. This header is the manual of the library libwritebehind.a.
 *
 * Programs, numbered 0 to 31, work on a view that answers at once. Each change waits in a log, as an operation or as two,
 * until it is sent to a server volume. Sends keep an order. So at whatever moment the link to the server breaks, the server
 * volume holds a possible outcome, what was lost is known, and each program that depended on something lost is marked.
 *
 * THE BUFFERS. The caller chooses n objects, b blocks of 1,024 bytes a file and m log slots, and lends three byte buffers:
 * the server volume and the view, of WB_VOLUME_BYTES(n, b) bytes each, and the log, of WB_LOG_BYTES(m) bytes. They hold
 * everything that lasts from one call to the next: the library has no heap and no variables of its own. wb_format makes a
 * server volume, wb_mount the view and the log that go with one. A host that has kept all three may go on with them and not
 * mount, since mounting drops the log. Every call checks the form of what it relies on; any bytes may be lent.
 *
 * CALLING. A buffer is given as a pointer and its length in bytes. The pointer leads to that many bytes, of any alignment.
 * With length 0 it may be null: nothing is read or written there. The buffers of one call do not overlap. The host makes one
 * call at a time. A call takes at most WB_STACK_BYTES of stack. Of the C library it needs at most memcpy, memmove, memset and
 * memcmp, which gcc asks of a freestanding program too. The archive is for x86-64.
 *
 * NUMBERS. All numbers are uint64_t and are taken whole: program 4,294,967,296 is refused and is not taken for program 0.
 *
 * RESULTS. Each call answers by value with a struct whose first field, returned, is 0 (WB_ACCEPTED) or says why the call is
 * refused. With a refusal the other fields are 0 and no byte of any buffer is changed; only wb_fsync has exceptions. Where
 * several refusals hold, the one that is named first in the call's list below is the answer: the lowest number, but for a
 * path, which goes by component, and for the second sense of WB_DAMAGED (an operation being sent does not apply to the server
 * volume), which comes late. The lists begin with WB_WRONG_BUFFER (n, b or m out of range, or the length of the server
 * volume, view or log is not as above) and WB_DAMAGED (the form of one of the three is broken).
 *
 * OBJECTS AND NAMES. An object is a number below n. Object 0 is the root directory; the others are free, files or directories.
 * The caller chooses a free number for what it creates. A name has 1 to 60 bytes, none of them 0 or a slash, and is neither
 * "." nor "..". A text that is no name is WB_LONG_NAME if its length over 60 is its only fault, else WB_BAD_NAME.
 *
 * SPELLING. Names that differ only in A to Z against a to z are the same name; all other bytes have to agree. Where a name is
 * sought, any spelling finds it: with "Task" in a directory "task" leads to it, and cannot be created beside it. A name is stored
 * as it was typed, and an operation keeps its names as they were typed in the call. A volume with two names in one directory that
 * are the same is WB_DAMAGED.
 *
 * OPERATIONS AND THEIR ORDER. Each accepted change (create, make directory, remove file or directory, rename, write, set
 * length) is made in the view at once, gets the next sequence number, from 1 on, and waits in a slot of the log. So does an
 * accepted forder, which changes nothing in a volume. Only a write across the end of a file is two operations, an overwrite and
 * an append: it gets two numbers and waits in two slots. The operands of an operation are its object and every parent,
 * displaced or listed object. Of two waiting operations that share an operand the earlier precedes the later, unless both are
 * overwrites without a common byte. An operation precedes another also through a third and further ones. It is sent only after
 * all that precede it. So a forder stands between the earlier and the later operations on the objects of its list, and the
 * append of a write across the end is sent only after its overwrite.
 *
 * DEPENDENCE. The log keeps, for each waiting operation, the programs that depend on it: the one that issued it, and each that
 * afterwards had an accepted call on one of its operands, or on an operand of a later operation to which a chain leads, each
 * operation of the chain sharing an operand with the one before. So the questions (lookup, list, stat, read) write to the log
 * too: a program that has seen what may yet be lost is one of the dependents. A refused call brings no dependence, but for
 * wb_fsync refused with WB_LINK_LOST.
 *
 * MARKS. When waiting operations are lost, by wb_cut or by wb_fsync refused with WB_LINK_LOST, each program that depends on one
 * of them is marked. A marked program is refused with WB_MARKED by every call that takes a program, but for wb_take and
 * wb_renew. It fetches the losses of its own operations with wb_take, until that answers WB_NONE, and then wb_renew clears
 * the mark. A program that was marked over the operations of others alone has nothing to fetch and renews at once.
 *
 * LOSSES. A lost operation keeps its slot of the log until its program takes it, and such a slot is not free for another. A cut
 * leaves older losses as they are. wb_take writes a loss as a loss record of at most WB_RECORD_BYTES bytes, which tells the
 * whole operation, data and names included; wb_record reads it. So the program knows what to do again or to report.
 *
 *     static uint8_t server[WB_VOLUME_BYTES(64, 4)], view[WB_VOLUME_BYTES(64, 4)], slots[WB_LOG_BYTES(32)];
 *
 *     wb_format(64, 4, 32, server, sizeof server);
 *     wb_mount(64, 4, 32, server, sizeof server, view, sizeof view, slots, sizeof slots);
 *     struct wb_value made = wb_create(64, 4, 32, server, sizeof server, view, sizeof view, slots, sizeof slots,
 *                                      0, 0, (const uint8_t *)"task", 4, 1);
 *     if (made.returned != WB_ACCEPTED)
 *         puts(wb_text(made.returned));
 *     else
 *         wb_push(64, 4, 32, server, sizeof server, view, sizeof view, slots, sizeof slots, made.value);
 */
#ifndef WRITEBEHIND_H
#define WRITEBEHIND_H

#include <stdint.h>

#ifdef __cplusplus
extern "C" {
#endif

/* Limits. */
#define WB_LEAST_OBJECTS 2              /* n */
#define WB_MOST_OBJECTS 256
#define WB_LEAST_BLOCKS 1               /* b */
#define WB_MOST_BLOCKS 64
#define WB_LEAST_SLOTS 1                /* m */
#define WB_MOST_SLOTS 1024
#define WB_BLOCK_BYTES 1024             /* a block of a file; a file has at most b of them */
#define WB_PROGRAMS 32                  /* programs are 0 to 31 */
#define WB_NAME_BYTES 60                /* the longest name */
#define WB_PATH_BYTES 1023              /* the longest path */
#define WB_LIST_OBJECTS 8               /* the most objects of a forder */
#define WB_RECORD_BYTES 1040            /* the longest loss record; the least buffer for wb_take */
#define WB_LAST_SEQUENCE 4294967294     /* the greatest sequence number */
#define WB_STACK_BYTES 40960            /* the most that a call takes; measured: 13,160 (host/stack) */

/* The stored form: a volume is n entries, a log is a head and m slots. The bytes of a field stand in brackets. */
#define WB_ENTRY_HEAD_BYTES 68  /* an entry up to its data: kind (1), name length (1), parent (2), name (60), file length (4) */
#define WB_LOG_HEAD_BYTES 8     /* next sequence number (4), marked programs (4) */
#define WB_SLOT_BYTES 1048      /* state (1), 3 zero bytes, dependents (4), a loss record, zeros */

/* The bytes of a volume (server volume or view) of n objects and b blocks a file, and of a log of m slots. They are constant
 * expressions where their arguments are. */
#define WB_VOLUME_BYTES(n, b) (UINT64_C(1) * (n) * (WB_ENTRY_HEAD_BYTES + UINT64_C(1) * WB_BLOCK_BYTES * (b)))
#define WB_LOG_BYTES(m) (WB_LOG_HEAD_BYTES + UINT64_C(1) * WB_SLOT_BYTES * (m))

/* A buffer of so many bytes holds every listing of a directory: of a child number (2), kind (1), length of the name (1), name. */
#define WB_LISTING_BYTES(n) ((UINT64_C(4) + WB_NAME_BYTES) * ((n) - 1))

/* The returned numbers. */
enum wb_returned {
    WB_ACCEPTED = 0,
    WB_WRONG_BUFFER = 1,  /* n, b or m is out of range, or the length of the server volume, view or log is wrong */
    WB_DAMAGED = 2,       /* a stored form is broken; or an operation being sent does not apply to the server volume */
    WB_BAD_PROGRAM = 3,   /* the program is 32 or more */
    WB_MARKED = 4,        /* the program is marked */
    WB_BAD_NAME = 5,      /* the text of a name or path is bad, other than by a name of over 60 bytes */
    WB_LONG_NAME = 6,     /* a name or a component of a path has over 60 bytes */
    WB_BAD_NUMBER = 7,    /* an object or parent is n or more; the object to be created is 0; a bad forder list */
    WB_NO_OBJECT = 8,     /* an object or parent is free, or a name to be found is absent */
    WB_WRONG_KIND = 9,    /* a file where a directory is needed, or the reverse; a directory would leave its parent */
    WB_TAKEN = 10,        /* the name, in whatever spelling, or the number of the new object is in use */
    WB_NOT_EMPTY = 11,    /* a directory to be removed or displaced has children */
    WB_BAD_RANGE = 12,    /* a write, a new length or an offset to read from is not as the call needs it */
    WB_LOG_FULL = 13,     /* too few of the m slots are free: each waiting and each lost operation uses one */
    WB_SPENT = 14,        /* too few sequence numbers are left */
    WB_NOT_FIRST = 15,    /* an operation that precedes this one waits */
    WB_NONE = 16,         /* no operation of that number waits; the program has no loss to take */
    WB_LINK_LOST = 17,    /* the link carries fewer sends than are needed */
    WB_LOSSES_LEFT = 18,  /* the program has not yet taken all losses of its own operations */
    WB_SHORT_BUFFER = 19, /* the listing does not fit; a buffer for take has fewer than 1,040 bytes */
    WB_BAD_RECORD = 20    /* no valid loss record begins at the place */
};

/* A short text for a returned number. */
static inline const char *wb_text(uint64_t number)
{
    switch (number) {
    case WB_ACCEPTED: return "accepted";
    case WB_WRONG_BUFFER: return "wrong buffer: n, b, m or a buffer length";
    case WB_DAMAGED: return "damaged: a stored form is broken, or an operation does not apply";
    case WB_BAD_PROGRAM: return "bad program: 32 or more";
    case WB_MARKED: return "marked: the program must take its losses and renew";
    case WB_BAD_NAME: return "bad name or path";
    case WB_LONG_NAME: return "long name: over 60 bytes";
    case WB_BAD_NUMBER: return "bad object number or list";
    case WB_NO_OBJECT: return "no such object or name";
    case WB_WRONG_KIND: return "wrong kind: file or directory";
    case WB_TAKEN: return "taken: the name or number is in use";
    case WB_NOT_EMPTY: return "directory not empty";
    case WB_BAD_RANGE: return "bad range: offset or length";
    case WB_LOG_FULL: return "log full";
    case WB_SPENT: return "spent: too few sequence numbers left";
    case WB_NOT_FIRST: return "not first: a preceding operation waits";
    case WB_NONE: return "none: nothing of that number waits, or no loss to take";
    case WB_LINK_LOST: return "link lost: fewer sends than needed";
    case WB_LOSSES_LEFT: return "losses left: take them before renewing";
    case WB_SHORT_BUFFER: return "short buffer";
    case WB_BAD_RECORD: return "bad record";
    default: return "not a returned number";
    }
}

/* The returned number alone: of wb_format, wb_mount, wb_push, wb_cut and wb_renew. */
struct wb_code {
    uint64_t returned;
};

/* The returned number and one other number. */
struct wb_value {
    uint64_t returned;
    uint64_t value;
};

/* What wb_stat tells of an object. */
struct wb_status {
    uint64_t returned;
    uint64_t kind;   /* 1 file, 2 directory */
    uint64_t length; /* in bytes; 0 of a directory */
    uint64_t usage;  /* length / 1,024 to the nearest whole number, half upwards */
};

/* What wb_record tells of a loss record. A field that the record does not have is 0. Names, data and list are told by the place
 * in the buffer where they begin, counted from its start, and their length in bytes; they are read from there. Names are as they
 * were typed in the call. */
struct wb_loss {
    uint64_t returned;
    uint64_t next;            /* the place after the record */
    uint64_t sequence;        /* the sequence number that the operation was issued with */
    uint64_t program;         /* the program that issued it */
    uint64_t kind;            /* see wb_record */
    uint64_t map;             /* which fields the record has: bit 0 object, 1 parent, 2 second parent, 3 displaced object, */
    uint64_t object;          /* 4 name, 5 second name, 6 offset, 7 data, 8 list */
    uint64_t parent;
    uint64_t second_parent;
    uint64_t displaced;
    uint64_t name_at;
    uint64_t name_len;
    uint64_t second_name_at;
    uint64_t second_name_len;
    uint64_t offset;          /* of a set length the new length */
    uint64_t data_at;
    uint64_t data_len;
    uint64_t list_at;
    uint64_t list_len;        /* 2 bytes an object, low byte first */
};

/* ---- To begin ---- */

/*
 * Makes a server volume with only a root.
 *   n, b, m         the three numbers
 *   server          written whole, whatever it held
 * Answers nothing else. Refused with, in this order: WB_WRONG_BUFFER.
 */
struct wb_code wb_format(uint64_t n, uint64_t b, uint64_t m, uint8_t *server, uint64_t server_length);

/*
 * Copies the server volume to the view and begins an empty log: next sequence number 1, no marks. What the view and the log
 * held is dropped unseen, losses too.
 *   n, b, m         the three numbers, here and in every call below
 *   server          read
 *   view, log       written whole
 * Answers nothing else. Refused with, in this order: WB_WRONG_BUFFER, WB_DAMAGED (the form of the server volume; two names of a
 * directory that are the same break it too).
 */
struct wb_code wb_mount(uint64_t n, uint64_t b, uint64_t m, const uint8_t *server, uint64_t server_length,
                        uint8_t *view, uint64_t view_length, uint8_t *log, uint64_t log_length);

/* ---- Questions: they answer from the view ---- */

/*
 * Finds the object that a path leads to.
 *   server, view    read
 *   log             dependence is noted: on the root, the directories searched and the object found
 *   program         the program that asks
 *   path            read: 1 to 1,023 bytes, a slash first. "/" is the root; any other has a name after each slash, in whatever
 *                   spelling
 * Answers in value the object. Refused with, in this order: WB_WRONG_BUFFER, WB_DAMAGED, WB_BAD_PROGRAM, WB_MARKED, WB_BAD_NAME
 * (the length of the path, or no slash first); then for each component in turn, before the next: WB_BAD_NAME (an empty one too,
 * from a doubled or last slash), WB_LONG_NAME, WB_NO_OBJECT (absent from the directory reached), WB_WRONG_KIND (a file reached).
 */
struct wb_value wb_lookup(uint64_t n, uint64_t b, uint64_t m, const uint8_t *server, uint64_t server_length,
                          const uint8_t *view, uint64_t view_length, uint8_t *log, uint64_t log_length,
                          uint64_t program, const uint8_t *path, uint64_t path_length);

/*
 * Lists the children of a directory.
 *   server, view    read
 *   log             dependence is noted on the directory
 *   program         the program that asks
 *   object          the directory
 *   buffer          written from its start, the rest stays: for each child, by rising number, its number (2 bytes, low byte
 *                   first), kind (1; 1 file, 2 directory), length of the name (1) and name as stored
 * Answers in value the bytes written. Refused with, in this order: WB_WRONG_BUFFER, WB_DAMAGED, WB_BAD_PROGRAM, WB_MARKED,
 * WB_BAD_NUMBER, WB_NO_OBJECT, WB_WRONG_KIND (a file), WB_SHORT_BUFFER (the whole listing does not fit).
 */
struct wb_value wb_list(uint64_t n, uint64_t b, uint64_t m, const uint8_t *server, uint64_t server_length,
                        const uint8_t *view, uint64_t view_length, uint8_t *log, uint64_t log_length,
                        uint64_t program, uint64_t object, uint8_t *buffer, uint64_t buffer_length);

/*
 * Tells kind, length and usage of an object.
 *   server, view    read
 *   log             dependence is noted on the object
 *   program         the program that asks
 *   object          a file or directory
 * Answers kind, length and usage. Refused with, in this order: WB_WRONG_BUFFER, WB_DAMAGED, WB_BAD_PROGRAM, WB_MARKED,
 * WB_BAD_NUMBER, WB_NO_OBJECT.
 */
struct wb_status wb_stat(uint64_t n, uint64_t b, uint64_t m, const uint8_t *server, uint64_t server_length,
                         const uint8_t *view, uint64_t view_length, uint8_t *log, uint64_t log_length,
                         uint64_t program, uint64_t object);

/*
 * Reads bytes of a file.
 *   server, view    read
 *   log             dependence is noted on the file
 *   program         the program that asks
 *   object          the file
 *   offset          where to begin; at the length of the file 0 bytes are read
 *   buffer          written from its start, the rest stays: the bytes from the offset on, as many as the buffer has room for
 *                   and the file has
 * Answers in value the bytes copied. Refused with, in this order: WB_WRONG_BUFFER, WB_DAMAGED, WB_BAD_PROGRAM, WB_MARKED,
 * WB_BAD_NUMBER, WB_NO_OBJECT, WB_WRONG_KIND (a directory), WB_BAD_RANGE (an offset beyond the length).
 */
struct wb_value wb_read(uint64_t n, uint64_t b, uint64_t m, const uint8_t *server, uint64_t server_length,
                        const uint8_t *view, uint64_t view_length, uint8_t *log, uint64_t log_length,
                        uint64_t program, uint64_t object, uint64_t offset, uint8_t *buffer, uint64_t buffer_length);

/* ---- Changes, and forder. The server volume is read and stays as it is; the conditions are asked of the view ---- */

/*
 * Creates an empty file; wb_mkdir likewise makes an empty directory.
 *   server          read
 *   view            the new object is put in
 *   log             dependence on object and parent is noted; the operation is put into a slot
 *   program         the program that issues the operation
 *   parent          the directory
 *   name            read: the name of the new object, stored as typed
 *   object          a free number for it, 1 to n - 1
 * Answers in value the sequence number. Refused with, in this order: WB_WRONG_BUFFER, WB_DAMAGED, WB_BAD_PROGRAM, WB_MARKED,
 * WB_BAD_NAME, WB_LONG_NAME, WB_BAD_NUMBER (parent or object n or more, object 0), WB_NO_OBJECT (the parent is free),
 * WB_WRONG_KIND (the parent is a file), WB_TAKEN (the name, in whatever spelling, or the number is in use), WB_LOG_FULL,
 * WB_SPENT.
 */
struct wb_value wb_create(uint64_t n, uint64_t b, uint64_t m, const uint8_t *server, uint64_t server_length,
                          uint8_t *view, uint64_t view_length, uint8_t *log, uint64_t log_length,
                          uint64_t program, uint64_t parent, const uint8_t *name, uint64_t name_length, uint64_t object);

struct wb_value wb_mkdir(uint64_t n, uint64_t b, uint64_t m, const uint8_t *server, uint64_t server_length,
                         uint8_t *view, uint64_t view_length, uint8_t *log, uint64_t log_length,
                         uint64_t program, uint64_t parent, const uint8_t *name, uint64_t name_length, uint64_t object);

/*
 * Removes a file, and nothing else; wb_remove_directory likewise removes an empty directory, and nothing else.
 *   server          read
 *   view            the object becomes free
 *   log             dependence on object and parent is noted; the operation is put into a slot
 *   program         the program that issues the operation
 *   parent          the directory
 *   name            read: the name to be found in it, in whatever spelling
 * Answers in value the sequence number. Refused with, in this order: WB_WRONG_BUFFER, WB_DAMAGED, WB_BAD_PROGRAM, WB_MARKED,
 * WB_BAD_NAME, WB_LONG_NAME, WB_BAD_NUMBER, WB_NO_OBJECT (the parent is free, or the name absent), WB_WRONG_KIND (the parent is
 * a file; or the object is of the other kind: for wb_remove_file a directory, empty or not, for wb_remove_directory a file),
 * WB_NOT_EMPTY (wb_remove_directory alone), WB_LOG_FULL, WB_SPENT. Either call issues an operation of kind 3, remove.
 */
struct wb_value wb_remove_file(uint64_t n, uint64_t b, uint64_t m, const uint8_t *server, uint64_t server_length,
                               uint8_t *view, uint64_t view_length, uint8_t *log, uint64_t log_length,
                               uint64_t program, uint64_t parent, const uint8_t *name, uint64_t name_length);

struct wb_value wb_remove_directory(uint64_t n, uint64_t b, uint64_t m, const uint8_t *server, uint64_t server_length,
                                    uint8_t *view, uint64_t view_length, uint8_t *log, uint64_t log_length,
                                    uint64_t program, uint64_t parent, const uint8_t *name, uint64_t name_length);

/*
 * Gives an object another name, and a file another parent too if wanted. The second name is stored as typed. Another object that
 * already has it, in whatever spelling, is displaced and becomes free: a file by a file, an empty directory by a directory. A
 * rename that changes only the case of the object's own name displaces nothing, and changes the stored spelling. In the same
 * parent only the stored spelling itself changes nothing in the view. Each is an operation as any other.
 *   server          read
 *   view            the object is renamed, a displaced one freed
 *   log             dependence on object, both parents and a displaced object is noted; the operation is put into a slot
 *   program         the program that issues the operation
 *   parent          the directory that the object is in
 *   name            read: its name there, in whatever spelling
 *   second_parent   the directory that it comes into; for a directory the same as parent
 *   second_name     read: its name there, stored as typed
 * Answers in value the sequence number. Refused with, in this order: WB_WRONG_BUFFER, WB_DAMAGED, WB_BAD_PROGRAM, WB_MARKED,
 * WB_BAD_NAME (either name), WB_LONG_NAME (either name), WB_BAD_NUMBER (either parent), WB_NO_OBJECT (either parent is free, or
 * the first is a directory without the name), WB_WRONG_KIND (either parent is a file, a directory would leave its parent, or
 * the displaced object is of the other kind), WB_NOT_EMPTY (the displaced directory), WB_LOG_FULL, WB_SPENT. Never WB_TAKEN.
 */
struct wb_value wb_rename(uint64_t n, uint64_t b, uint64_t m, const uint8_t *server, uint64_t server_length,
                          uint8_t *view, uint64_t view_length, uint8_t *log, uint64_t log_length,
                          uint64_t program, uint64_t parent, const uint8_t *name, uint64_t name_length,
                          uint64_t second_parent, const uint8_t *second_name, uint64_t second_name_length);

/*
 * Writes bytes of a file, all in one block. Wholly inside the length they are an overwrite; beginning at the length they are an
 * append. Beginning inside the length and ending beyond it they are both: an overwrite of the bytes up to the length, and then
 * an append of the rest at the length. These two operations have consecutive sequence numbers and are both the program's; each
 * takes a slot, and each that is lost is fetched as a loss of its own. When the link breaks, the overwrite may have been sent
 * and the append be lost, never the reverse.
 *   server          read
 *   view            the bytes are put in; an append makes the file longer by them
 *   log             dependence on the file is noted and the operation put into a slot, for each operation in turn
 *   program         the program that issues the operation or both
 *   object          the file
 *   offset          where the bytes go
 *   data            read: the bytes
 * Answers in value the sequence number; of two operations that of the overwrite, and the append has the next. Refused with, in
 * this order: WB_WRONG_BUFFER, WB_DAMAGED, WB_BAD_PROGRAM, WB_MARKED, WB_BAD_NUMBER, WB_NO_OBJECT, WB_WRONG_KIND (a directory),
 * WB_BAD_RANGE (0 bytes, across two blocks, beginning beyond the length, or ending beyond b blocks), WB_LOG_FULL (for two
 * operations: fewer than two slots are free), WB_SPENT (for two operations: fewer than two sequence numbers are left).
 */
struct wb_value wb_write(uint64_t n, uint64_t b, uint64_t m, const uint8_t *server, uint64_t server_length,
                         uint8_t *view, uint64_t view_length, uint8_t *log, uint64_t log_length,
                         uint64_t program, uint64_t object, uint64_t offset, const uint8_t *data, uint64_t data_length);

/*
 * Gives a file another length. What this adds is zeros.
 *   server          read
 *   view            the file gets the length
 *   log             dependence on the file is noted; the operation is put into a slot
 *   program         the program that issues the operation
 *   object          the file
 *   length          the new length, at most 1,024 * b
 * Answers in value the sequence number. Refused with, in this order: WB_WRONG_BUFFER, WB_DAMAGED, WB_BAD_PROGRAM, WB_MARKED,
 * WB_BAD_NUMBER, WB_NO_OBJECT, WB_WRONG_KIND (a directory), WB_BAD_RANGE (over 1,024 * b), WB_LOG_FULL, WB_SPENT.
 */
struct wb_value wb_setlen(uint64_t n, uint64_t b, uint64_t m, const uint8_t *server, uint64_t server_length,
                          uint8_t *view, uint64_t view_length, uint8_t *log, uint64_t log_length,
                          uint64_t program, uint64_t object, uint64_t length);

/*
 * Puts an operation between the earlier and the later operations on 1 to 8 objects.
 *   server, view    read
 *   log             dependence on the objects is noted; the operation is put into a slot
 *   program         the program that issues the operation
 *   list            read: the objects, files or directories, the root too; 2 bytes each, low byte first; each once
 * Answers in value the sequence number. Refused with, in this order: WB_WRONG_BUFFER, WB_DAMAGED, WB_BAD_PROGRAM, WB_MARKED,
 * WB_BAD_NUMBER (0 bytes, an odd number or over 16; an object twice, or one of n or more), WB_NO_OBJECT, WB_LOG_FULL, WB_SPENT.
 */
struct wb_value wb_forder(uint64_t n, uint64_t b, uint64_t m, const uint8_t *server, uint64_t server_length,
                          const uint8_t *view, uint64_t view_length, uint8_t *log, uint64_t log_length,
                          uint64_t program, const uint8_t *list, uint64_t list_length);

/* ---- Sends and the link ---- */

/*
 * Sends one waiting operation.
 *   server          the operation is applied to it
 *   view            read
 *   log             the operation's slot is freed
 *   sequence        its sequence number
 * Answers nothing else. Refused with, in this order: WB_WRONG_BUFFER, WB_DAMAGED (a form), WB_NOT_FIRST, WB_NONE (no operation of
 * that number waits; WB_NOT_FIRST is then not asked), WB_DAMAGED (it does not apply to the server volume).
 */
struct wb_code wb_push(uint64_t n, uint64_t b, uint64_t m, uint8_t *server, uint64_t server_length,
                       const uint8_t *view, uint64_t view_length, uint8_t *log, uint64_t log_length, uint64_t sequence);

/*
 * Sends what an object needs: all waiting operations with it as operand, and all that precede them, in issue order; d in all.
 *   server          the operations are applied to it
 *   view            read; with WB_LINK_LOST it becomes a copy of the server volume
 *   log             dependence on the object is noted; the slots of what is sent are freed
 *   program         the program that asks
 *   object          a file or directory, the root too
 *   sends           k, the sends that the link still carries
 * Answers in value the sends made: d if accepted. Refused with, in this order: WB_WRONG_BUFFER, WB_DAMAGED (a form),
 * WB_BAD_PROGRAM, WB_MARKED, WB_BAD_NUMBER, WB_NO_OBJECT, WB_DAMAGED (one of the first k does not apply to the server volume),
 * WB_LINK_LOST (k below d). Only here do refusals change buffers, and have a value:
 * - WB_DAMAGED over an operation: those before it are sent and value is their number. Nothing is lost, no dependence noted.
 * - WB_LINK_LOST: dependence is noted, the first k are sent, then all that waits is lost as by wb_cut. value is k. So the program
 *   that called is always marked.
 */
struct wb_value wb_fsync(uint64_t n, uint64_t b, uint64_t m, uint8_t *server, uint64_t server_length,
                         uint8_t *view, uint64_t view_length, uint8_t *log, uint64_t log_length,
                         uint64_t program, uint64_t object, uint64_t sends);

/*
 * The link is cut: all waiting operations become lost ones. It may be called with nothing waiting.
 *   server          read
 *   view            becomes a copy of the server volume
 *   log             the dependents of the waiting operations are marked, these become lost
 * Answers nothing else. Refused with, in this order: WB_WRONG_BUFFER, WB_DAMAGED.
 */
struct wb_code wb_cut(uint64_t n, uint64_t b, uint64_t m, const uint8_t *server, uint64_t server_length,
                      uint8_t *view, uint64_t view_length, uint8_t *log, uint64_t log_length);

/* ---- Losses ---- */

/*
 * Fetches the earliest loss among a program's own operations. The program need not be marked.
 *   server, view    read
 *   log             the slot of the loss is freed
 *   program         the program
 *   buffer          written from its start, the rest stays: the loss record. At least WB_RECORD_BYTES, however short the record
 * Answers in value the bytes written. Refused with, in this order: WB_WRONG_BUFFER, WB_DAMAGED, WB_BAD_PROGRAM, WB_NONE,
 * WB_SHORT_BUFFER.
 */
struct wb_value wb_take(uint64_t n, uint64_t b, uint64_t m, const uint8_t *server, uint64_t server_length,
                        const uint8_t *view, uint64_t view_length, uint8_t *log, uint64_t log_length,
                        uint64_t program, uint8_t *buffer, uint64_t buffer_length);

/*
 * Clears a program's mark. The program need not be marked.
 *   server, view    read
 *   log             the mark is cleared
 *   program         the program
 * Answers nothing else. Refused with, in this order: WB_WRONG_BUFFER, WB_DAMAGED, WB_BAD_PROGRAM, WB_LOSSES_LEFT.
 */
struct wb_code wb_renew(uint64_t n, uint64_t b, uint64_t m, const uint8_t *server, uint64_t server_length,
                        const uint8_t *view, uint64_t view_length, uint8_t *log, uint64_t log_length, uint64_t program);

/*
 * Reads the loss record that begins at a place of a buffer. Records may stand one behind the other: next is the place of the
 * one that follows. It is lent none of the three buffers and knows neither n nor b; what follows the record is not looked at.
 *   at              the place, counted in bytes from the start of the buffer
 *   buffer          read
 * Answers the fields of struct wb_loss. Kinds with their maps and fields:
 *   1 create file, 2 make directory, 3 remove    19      object, parent, name
 *   4 rename                                     55      object, parent, second parent, name, second name
 *     rename that displaces an object            63      the same and the displaced object
 *   5 overwrite, 6 append                        193     object, offset, data
 *   7 set length                                 65      object, offset (the new length)
 *   8 forder                                     256     list
 * Refused with WB_BAD_RECORD alone: no valid record begins at the place, or it is at or past the end.
 */
struct wb_loss wb_record(uint64_t at, const uint8_t *buffer, uint64_t buffer_length);

#ifdef __cplusplus
}
#endif

#endif
