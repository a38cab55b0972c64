/* Rapyheo: two-phase commit over the records themselves. What the engine exports, for C11 and C++17 on x86-64.
 *
 * A client keeps a list of up to 16 transactions, all zeros at first, and asks by place: rapyheo_begin_at, .._read_at, .._put_at, .._advance_at,
 * .._close_at and .._abort_at take the transaction at a place of the list and leave there the one that comes back. rapyheo_visit needs no list: it
 * finishes or undoes what a dead client has left on a line.
 *
 * What is proved. Each call does what the specification says, for every input: whatever the bytes and numbers are, it returns, and a refused one
 * changes no byte of any slice. Of whole orders: clients that keep their lists and change them by these calls only, each list lost at a crash,
 * make a legal history, whatever they ask and in whatever order (theorem `clients-legal`, crates/theorems), so that demand 3 holds of everything
 * done so (`clients-recovered`). Once every line has been visited twice, an undecided one at readings where every line of its owner has expired,
 * the record sheet is byte for byte what the committed orders wrote, none lost and none half done. It rests on the duties that follow, which no
 * contract of the engine can see.
 *
 * Duties towards the orders:
 *   - hand on what the last call left, the list and both sheets. The first sheets are accepted ones without a PREPARED line, and nothing but
 *     these calls, visits, adding and removing changes them: they are no target of rapyheo_write_records or .._write_coordinator;
 *   - after a crash never hand in a saved list. Begin anew with one of zeros; what the old one had done stands on the sheets, and visits finish
 *     or undo it. A list need not be saved at all;
 *   - never fill in or change an entry or a field by hand: a list is for reading. Each call judges what it is given, but an entry added in the
 *     phase decide, or a state handed in twice, can break an order with every call answering 0;
 *   - what a call wrote stands whole or not at all after a crash, and writes stand in the order in which they were made. A call writes the
 *     lines of one unit, or the coordinator sheet, or nothing, never both: rapyheo_written tells which, and every line of the range that it
 *     tells is of that unit. rapyheo_add and rapyheo_remove write one line, and the lines that shift by it don't count as written: the store has to
 *     put a line in, or take one out, as a whole. A client that saves bytes saves from that line to the end of the sheet at once. A close makes as many such writes as its limit allows. Above 1 the range may span several units and both sheets
 *     may differ, so that only a client which saves both sheets at once may close like that. One that saves unit by unit closes with limit 1
 *     again and again, and saves after each, until the phase is done.
 *
 * Duties towards the machine:
 *   - a slice passes as a pointer and then a length, counted in elements; the pointer is not null, is aligned for its element and is valid
 *     for the whole length, even where the length is 0;
 *   - slices of one call do not overlap, and nobody else reads or writes them until it returns;
 *   - one caller at a time for one pair of sheets, whoever has the list: there is no lock. Calls on different sheets and lists are independent,
 *     in any threads, since the library holds no data of its own;
 *   - a call finds RAPYHEO_STACK_BYTES of stack, and one on two sheets RAPYHEO_TWO_STACK_BYTES, since it joins them in an area of its own.
 *     `make stack` measures what each needs, its arguments among it: 12032 at most, and 112296 on two sheets, to which some 2000 come where
 *     the loader binds memcpy or memset in the middle of the first call (not so with -Wl,-z,now). A call allocates nothing.
 *
 * Record sheet: 1 to 500 lines of 108 bytes, the last byte LF. Figures are decimal, right-justified, filled with spaces, without leading zeros.
 *
 *   bytes  0- 1  storage, 1-9                 bytes 40-48  column 1, 0-99999999
 *          2- 4  namespace, 1-99                    49-57  column 2
 *          5- 7  table, 1-99                        58-67  before state: ABSENT, COMMITTED or `-`
 *          8-13  partition, 0-99999                 68-73  before version
 *         14-19  clustering, 0-99999                74-77  before TxID
 *         20-29  ABSENT, COMMITTED or PREPARED      78-86  before column 1
 *         30-35  version, 0-99999                   87-95  before column 2
 *         36-39  TxID, 0-999                       96-106  prepare clock, 0-4294967295
 *                                                     107  LF
 *
 * Keys, the first five fields, rise strictly down the sheet. It may end in spare lines, 107 spaces and LF, counted in the 500, or be all spares.
 * rapyheo_add uses one up and rapyheo_remove makes one; every other call leaves them where they are. A key without a line counts as an ABSENT line
 * of version 0, except that it can't be read, put or visited (6); a transaction may hold one whose line was removed.
 *
 * Coordinator sheet: lines of 15 bytes, the last byte LF. The head has the count of numbers issued (4 columns), a space and the unit letters
 * of storages 1 to 9: R, P, T, N or S. Then come 1 to 999 lines: k (4 columns) and COMMITTED, ABORTED or `-` (10 columns).
 *
 * Two sheets instead of the record sheet, for a store whose own lines may not be widened: a plain sheet and a bookkeeping sheet with the same
 * keys in the same order, figures and words set as above. The functions rapyheo_two_.. take both, and each gives the answer that the joined sheet
 * would get; what was said of the record sheet holds of the two, an atomic write going to both within one unit. A spare is spaces to each width
 * and LF; one beside a record line on the other sheet, or different numbers of lines, is 13.
 *
 *   plain, 39 bytes a line                    bookkeeping, 90 bytes a line
 *          0-19  key, as bytes 0-19 above            0-39  key, state, version, TxID, as bytes 0-39 above
 *         20-28  column 1                           40-49  before state
 *         29-37  column 2                           50-55  before version
 *            38  LF                                 56-59  before TxID
 *                                                   60-68  before column 1
 *                                                   69-77  before column 2
 *                                                   78-88  prepare clock
 *                                                      89  LF
 *
 * On two sheets only, a small unit letter (r, p, t, n or s) marks a storage that can't be read consistently: its columns may be from before a
 * change and its bookkeeping from after it. There a read of a new key takes two calls. The first answers the columns of the plain sheet and
 * changes nothing, not even the list; the second is handed these columns and holds them with the version that it finds then. Whether they belong
 * together is checked before they are relied on. A client that stops between the two leaves nothing behind.
 *
 * As numbers, a record is sixteen in the order of its columns, both states among them; a coordinator is its count, the nine units and one number
 * for each line, whose own number is its place. Words and letters have the numbers of RAPYHEO_STATE_.., RAPYHEO_BEFORE_..,
 * RAPYHEO_UNIT_.. and RAPYHEO_DECISION_..
 */
#ifndef RAPYHEO_H
#define RAPYHEO_H

#include <stddef.h>
#include <stdint.h>

#ifdef __cplusplus
extern "C" {
#endif

/* Version of this header. rapyheo_version() is the library's: the same major and at least the same minor will do. */
#define RAPYHEO_VERSION_MAJOR 3
#define RAPYHEO_VERSION_MINOR 0
#define RAPYHEO_VERSION_PATCH 0
#define RAPYHEO_VERSION (10000 * RAPYHEO_VERSION_MAJOR + 100 * RAPYHEO_VERSION_MINOR + RAPYHEO_VERSION_PATCH)

/* An answer that nobody looks at may be a refusal: the compiler warns of it where it can. */
#if defined(__cplusplus) && __cplusplus >= 201703L
#define RAPYHEO_ANSWER [[nodiscard]]
#elif !defined(__cplusplus) && defined(__STDC_VERSION__) && __STDC_VERSION__ >= 202311L
#define RAPYHEO_ANSWER [[nodiscard]]
#elif defined(__GNUC__)
#define RAPYHEO_ANSWER __attribute__((warn_unused_result))
#else
#define RAPYHEO_ANSWER
#endif

enum {
    RAPYHEO_RECORD_BYTES = 108,
    RAPYHEO_PLAIN_BYTES = 39,
    RAPYHEO_BOOKKEEPING_BYTES = 90,
    RAPYHEO_COORDINATOR_BYTES = 15,
    RAPYHEO_RECORD_NUMBERS = 16, /* numbers of one record */
    RAPYHEO_HEAD_NUMBERS = 10,   /* numbers of a coordinator before those of its lines */
    RAPYHEO_ENTRIES = 8,         /* entries of a transaction */
    RAPYHEO_LIST = 16,           /* transactions in a list */
    RAPYHEO_CLOSE_WRITES = 17,   /* writes that a close makes at most */
    RAPYHEO_REFUSED = 1000,      /* an answer above this is 1000 + the refusal */
    RAPYHEO_STACK_BYTES = 16384, /* enough stack for any call on a record sheet */
    RAPYHEO_TWO_STACK_BYTES = 131072 /* enough for any on two sheets */
};

/* Refusals. The first that applies is given, in the order of the numbers but that 13 comes after 2 and 14 to 16 after 6, and a call gives only those
 * that its comment names. */
enum {
    RAPYHEO_BAD_RECORDS = 1,     /* the record sheet, or records in numbers, break a rule, or a target has another length than needed */
    RAPYHEO_BAD_COORDINATOR = 2, /* the coordinator sheet does, or its numbers do, or a record names a number that is not issued */
    RAPYHEO_BAD_TRANSACTION = 3, /* the one named is not well formed, the list is over 16, or there is no such place or call */
    RAPYHEO_WRONG_PHASE = 4,     /* not for this phase, or the own coordinator line forbids the step */
    RAPYHEO_BAD_KEY = 5,         /* a key field is out of range */
    RAPYHEO_NO_SUCH_KEY = 6,     /* no line has the key */
    RAPYHEO_BAD_COLUMNS = 7,     /* a put column is over 99999999 */
    RAPYHEO_NUMBERS_SPENT = 8,   /* the issued count equals the coordinator's lines */
    RAPYHEO_ENTRIES_SPENT = 9,   /* a read of a new key where 8 are held */
    RAPYHEO_NOT_HELD = 10,       /* a put of a key that was not read */
    RAPYHEO_VERSIONS_SPENT = 11, /* a put over version 99999 */
    RAPYHEO_BUSY = 12,           /* the line is undecided, and not every line of its owner has expired */
    RAPYHEO_SHEETS_DIFFER = 13,  /* the plain and the bookkeeping sheet differ in number of lines or in a key */
    RAPYHEO_HAS_LINE = 14,       /* a key to be added has a line */
    RAPYHEO_NO_SPARE = 15,       /* there is no spare for a line to be added */
    RAPYHEO_NOT_BLANK = 16       /* a line to be removed isn't ABSENT of version 0 */
};

/* What is asked by place. */
enum {
    RAPYHEO_CALL_BEGIN = 0,
    RAPYHEO_CALL_BEGIN_CHECKED = 1,
    RAPYHEO_CALL_READ = 2,
    RAPYHEO_CALL_PUT = 3,
    RAPYHEO_CALL_ADVANCE = 4,
    RAPYHEO_CALL_ABORT = 5,
    RAPYHEO_CALL_CLOSE = 6,
    RAPYHEO_CALL_SECOND = 7 /* on two sheets only */
};

/* What a read saw. */
enum {
    RAPYHEO_READ_ABSENT = 0,
    RAPYHEO_READ_COLUMNS = 1, /* rapyheo_columns_held has them */
    RAPYHEO_READ_AGAIN = 2    /* the line's owner is now ABORTED, and the key is not held: read once more */
};

/* What a call wrote, of copies from before it. */
enum {
    RAPYHEO_WROTE_NOTHING = 0,
    RAPYHEO_WROTE_COORDINATOR = 1,
    RAPYHEO_WROTE_LINES = 2,
    RAPYHEO_WROTE_BOTH = 3 /* on accepted sheets only a close with a limit above 1 does that */
};

/* What a visit made of a line. */
enum {
    RAPYHEO_STAYS = 0,
    RAPYHEO_FORWARD = 1,
    RAPYHEO_BACK = 2,
    RAPYHEO_AGAIN = 3 /* its owner is now ABORTED: visit the line once more */
};

/* Phases of a transaction, in the order of the step table. */
enum {
    RAPYHEO_OPEN = 0,
    RAPYHEO_PREPARE = 1,
    RAPYHEO_CHECK = 2,
    RAPYHEO_DECIDE = 3,
    RAPYHEO_WITHDRAW = 4,
    RAPYHEO_FINISH = 5,
    RAPYHEO_UNDO = 6,
    RAPYHEO_DONE = 7
};

enum { RAPYHEO_NO_VERDICT = 0, RAPYHEO_COMMITTED = 1, RAPYHEO_ABORTED = 2 };

/* Words and letters of the sheets in lists of numbers. */
enum { RAPYHEO_STATE_ABSENT = 0, RAPYHEO_STATE_COMMITTED = 1, RAPYHEO_STATE_PREPARED = 2 };
enum { RAPYHEO_BEFORE_NOTHING = 0, RAPYHEO_BEFORE_ABSENT = 1, RAPYHEO_BEFORE_COMMITTED = 2 }; /* not those of the state word */
enum { RAPYHEO_UNIT_RECORD = 0, RAPYHEO_UNIT_PARTITION = 1, RAPYHEO_UNIT_TABLE = 2, RAPYHEO_UNIT_NAMESPACE = 3, RAPYHEO_UNIT_STORAGE = 4 };
enum { RAPYHEO_DECISION_NONE = 0, RAPYHEO_DECISION_COMMITTED = 1, RAPYHEO_DECISION_ABORTED = 2 };

/* The namespace is spelled `name_space`, since C++ keeps the other word. */
typedef struct rapyheo_key {
    uint32_t storage;
    uint32_t name_space;
    uint32_t table;
    uint32_t partition;
    uint32_t clustering;
} rapyheo_key;

typedef struct rapyheo_image {
    uint32_t version;
    uint32_t txid;
    uint32_t column1;
    uint32_t column2;
} rapyheo_image;

typedef struct rapyheo_columns {
    uint32_t column1;
    uint32_t column2;
} rapyheo_columns;

/* A record that a transaction holds: what was read (columns 0 of an ABSENT line), whether it was ABSENT (1 or 0), and what is put if `wrote` is 1. */
typedef struct rapyheo_entry {
    rapyheo_key key;
    rapyheo_image seen;
    uint32_t absent;
    uint32_t wrote;
    rapyheo_columns put;
} rapyheo_entry;

/* A transaction as its client keeps it: an unused one is all zeros, and a begin by place fills it. `serializable` is 1 if what was only read is
 * checked too. `place` counts groups or entries within a phase. Entries from `count` on mean nothing and are kept. */
typedef struct rapyheo_transaction {
    uint32_t number;
    uint32_t serializable;
    uint32_t phase;
    uint32_t place;
    uint32_t verdict;
    uint32_t count;
    rapyheo_entry entries[RAPYHEO_ENTRIES];
} rapyheo_transaction;

/* How the engine lays out what is lent to it: sizes alone would let two fields change places. */
#ifdef __cplusplus
#define RAPYHEO_SIZE(type, bytes) static_assert(sizeof(type) == (bytes), #type)
#define RAPYHEO_AT(type, field, byte) static_assert(offsetof(type, field) == (byte), #type "." #field)
#else
#define RAPYHEO_SIZE(type, bytes) _Static_assert(sizeof(type) == (bytes), #type)
#define RAPYHEO_AT(type, field, byte) _Static_assert(offsetof(type, field) == (byte), #type "." #field)
#endif
RAPYHEO_SIZE(size_t, 8);
RAPYHEO_SIZE(rapyheo_key, 20);
RAPYHEO_AT(rapyheo_key, storage, 0);
RAPYHEO_AT(rapyheo_key, name_space, 4);
RAPYHEO_AT(rapyheo_key, table, 8);
RAPYHEO_AT(rapyheo_key, partition, 12);
RAPYHEO_AT(rapyheo_key, clustering, 16);
RAPYHEO_SIZE(rapyheo_image, 16);
RAPYHEO_AT(rapyheo_image, version, 0);
RAPYHEO_AT(rapyheo_image, txid, 4);
RAPYHEO_AT(rapyheo_image, column1, 8);
RAPYHEO_AT(rapyheo_image, column2, 12);
RAPYHEO_SIZE(rapyheo_columns, 8);
RAPYHEO_AT(rapyheo_columns, column1, 0);
RAPYHEO_AT(rapyheo_columns, column2, 4);
RAPYHEO_SIZE(rapyheo_entry, 52);
RAPYHEO_AT(rapyheo_entry, key, 0);
RAPYHEO_AT(rapyheo_entry, seen, 20);
RAPYHEO_AT(rapyheo_entry, absent, 36);
RAPYHEO_AT(rapyheo_entry, wrote, 40);
RAPYHEO_AT(rapyheo_entry, put, 44);
RAPYHEO_SIZE(rapyheo_transaction, 440);
RAPYHEO_AT(rapyheo_transaction, number, 0);
RAPYHEO_AT(rapyheo_transaction, serializable, 4);
RAPYHEO_AT(rapyheo_transaction, phase, 8);
RAPYHEO_AT(rapyheo_transaction, place, 12);
RAPYHEO_AT(rapyheo_transaction, verdict, 16);
RAPYHEO_AT(rapyheo_transaction, count, 20);
RAPYHEO_AT(rapyheo_transaction, entries, 24);
#undef RAPYHEO_SIZE
#undef RAPYHEO_AT

/* The library's version: 10000 * major + 100 * minor + patch. */
uint32_t rapyheo_version(void);

/* 0 where both sheets are accepted, else the refusal itself: 1 or 2. */
RAPYHEO_ANSWER uint32_t rapyheo_check(const uint8_t *records, size_t records_length, const uint8_t *coordinator, size_t coordinator_length);

/* Asks the transaction at a place of the list, counted from 0, and leaves there the one that comes back; the others stay. Numbers that a call
 * does not use are ignored. The functions with names of their own, below, are the calls one by one. */
RAPYHEO_ANSWER uint32_t rapyheo_call_at(rapyheo_transaction *list, size_t list_length, size_t place, uint8_t *records, size_t records_length,
                                        uint8_t *coordinator, size_t coordinator_length, uint32_t call, uint32_t storage, uint32_t name_space,
                                        uint32_t table, uint32_t partition, uint32_t clustering, uint32_t column1, uint32_t column2,
                                        uint32_t clock, uint32_t limit);

/* Finishes, undoes or leaves the line of a key: RAPYHEO_STAYS to RAPYHEO_AGAIN, or 1000 + 1, 2, 5, 6 or 12. */
RAPYHEO_ANSWER uint32_t rapyheo_visit(uint8_t *records, size_t records_length, uint8_t *coordinator, size_t coordinator_length, uint32_t storage,
                                      uint32_t name_space, uint32_t table, uint32_t partition, uint32_t clustering, uint32_t clock);

/* Adds a line for a key that has none: ABSENT of version 0, in key order, those below it one further down and the last spare gone. Answers 0, or the
 * refusal itself: 1, 2, 5, 14 or 15. */
RAPYHEO_ANSWER uint32_t rapyheo_add(uint8_t *records, size_t records_length, const uint8_t *coordinator, size_t coordinator_length, uint32_t storage,
                                    uint32_t name_space, uint32_t table, uint32_t partition, uint32_t clustering);

/* Removes the line of a key, which is ABSENT of version 0: those below it one further up, and a spare last. Answers 0, or the refusal itself: 1, 2, 5,
 * 6 or 16. */
RAPYHEO_ANSWER uint32_t rapyheo_remove(uint8_t *records, size_t records_length, const uint8_t *coordinator, size_t coordinator_length, uint32_t storage,
                                       uint32_t name_space, uint32_t table, uint32_t partition, uint32_t clustering);

/* Issues a number and no transaction, so that the number stays unused: 1 to 999, or 1000 + 1, 2 or 8. An order begins by rapyheo_begin_at. */
RAPYHEO_ANSWER uint32_t rapyheo_begin(const uint8_t *records, size_t records_length, uint8_t *coordinator, size_t coordinator_length);

/* The index of the key's line, from 0, or 1000 + 1, 5 or 6. */
RAPYHEO_ANSWER uint32_t rapyheo_lookup(const uint8_t *records, size_t records_length, uint32_t storage, uint32_t name_space, uint32_t table,
                                       uint32_t partition, uint32_t clustering);

/* Where a key stands on the sheet, or would stand: rank[0] is how many lines have smaller keys, and rank[1] is 1 if the key has a line itself, whose
 * index rank[0] then is, else 0; two keys without lines may share a place. Answers 0, or 1000 + 1 (also for a rank_length other than 2) or 5. */
RAPYHEO_ANSWER uint32_t rapyheo_rank(const uint8_t *records, size_t records_length, uint32_t storage, uint32_t name_space, uint32_t table,
                                     uint32_t partition, uint32_t clustering, uint32_t *rank, size_t rank_length);

/* What a call wrote, of copies of both sheets from before it and the sheets after it: RAPYHEO_WROTE_NOTHING to RAPYHEO_WROTE_BOTH. lines[0] is
 * the index of the first record line that differs and lines[1] how many there are from it to the last that does, both 0 where none does. Or
 * 1000 + 1 (record sheets of different lengths, not of whole lines or of 2^32 lines or more, or a lines_length other than 2), or 1000 + 2
 * (coordinator sheets of different lengths). */
RAPYHEO_ANSWER uint32_t rapyheo_written(const uint8_t *records_before, size_t records_before_length, const uint8_t *records, size_t records_length,
                                        const uint8_t *coordinator_before, size_t coordinator_before_length, const uint8_t *coordinator,
                                        size_t coordinator_length, uint32_t *lines, size_t lines_length);

/* Sheets to numbers and back. Each answers 0, or the refusal itself, as the check does; which numbers records name is not looked at. A target is
 * exactly as long as whole lines or records need, else 1 is answered, before 2. A refused one stays as it was. */

/* Record sheet to numbers, 16 for each line, all 0 for a spare: 0 or 1. */
RAPYHEO_ANSWER uint32_t rapyheo_read_records(const uint8_t *records, size_t records_length, uint32_t *numbers, size_t numbers_length);

/* Numbers to record sheet, 108 bytes for each record; records of zeros, which stand last, are spares: 0 or 1. */
RAPYHEO_ANSWER uint32_t rapyheo_write_records(const uint32_t *numbers, size_t numbers_length, uint8_t *records, size_t records_length);

/* Coordinator sheet to numbers, 10 for the head and one for each line: 0, 1 or 2. */
RAPYHEO_ANSWER uint32_t rapyheo_read_coordinator(const uint8_t *coordinator, size_t coordinator_length, uint32_t *numbers, size_t numbers_length);

/* Numbers to coordinator sheet, 15 bytes for the head and for each line: 0, 1 or 2. */
RAPYHEO_ANSWER uint32_t rapyheo_write_coordinator(const uint32_t *numbers, size_t numbers_length, uint8_t *coordinator, size_t coordinator_length);

/* The calls by place, each with what it needs only. All give 1000 + 1, 2 or 3 where the sheets, the list or the place are not as they should be. */

/* A new transaction instead of whatever stands at the place, with the next number; `checked` 1 if what it only reads is to be checked too, else
 * 0: 0 or 1000 + 8. One that is replaced before it is done is left as if its client had died. */
RAPYHEO_ANSWER static inline uint32_t rapyheo_begin_at(rapyheo_transaction *list, size_t list_length, size_t place, uint8_t *records,
                                                       size_t records_length, uint8_t *coordinator, size_t coordinator_length, uint32_t checked) {
    return rapyheo_call_at(list, list_length, place, records, records_length, coordinator, coordinator_length,
                           checked ? RAPYHEO_CALL_BEGIN_CHECKED : RAPYHEO_CALL_BEGIN, 0, 0, 0, 0, 0, 0, 0, 0, 0);
}

/* What the transaction sees of a key, which it holds from then on: RAPYHEO_READ_ABSENT to RAPYHEO_READ_AGAIN, or 1000 + 4, 5, 6, 9 or 12. The
 * line of a new key is visited first. */
RAPYHEO_ANSWER static inline uint32_t rapyheo_read_at(rapyheo_transaction *list, size_t list_length, size_t place, uint8_t *records,
                                                      size_t records_length, uint8_t *coordinator, size_t coordinator_length, rapyheo_key key,
                                                      uint32_t clock) {
    return rapyheo_call_at(list, list_length, place, records, records_length, coordinator, coordinator_length, RAPYHEO_CALL_READ, key.storage,
                           key.name_space, key.table, key.partition, key.clustering, 0, 0, clock, 0);
}

/* What is to be written to a key that was read, in place of an earlier put: 0 or 1000 + 4, 5, 6, 7, 10 or 11. */
RAPYHEO_ANSWER static inline uint32_t rapyheo_put_at(rapyheo_transaction *list, size_t list_length, size_t place, uint8_t *records,
                                                     size_t records_length, uint8_t *coordinator, size_t coordinator_length, rapyheo_key key,
                                                     rapyheo_columns columns) {
    return rapyheo_call_at(list, list_length, place, records, records_length, coordinator, coordinator_length, RAPYHEO_CALL_PUT, key.storage,
                           key.name_space, key.table, key.partition, key.clustering, columns.column1, columns.column2, 0, 0);
}

/* One step towards done: 0 or 1000 + 4. The verdict stands in the list. */
RAPYHEO_ANSWER static inline uint32_t rapyheo_advance_at(rapyheo_transaction *list, size_t list_length, size_t place, uint8_t *records,
                                                         size_t records_length, uint8_t *coordinator, size_t coordinator_length,
                                                         uint32_t clock) {
    return rapyheo_call_at(list, list_length, place, records, records_length, coordinator, coordinator_length, RAPYHEO_CALL_ADVANCE, 0, 0, 0, 0, 0,
                           0, 0, clock, 0);
}

/* Steps towards done, one after another at one clock reading: how many writes they made, 0 to 17, or 1000 + 4. Before a step that would write
 * beyond the limit the transaction is left as it stands: RAPYHEO_CLOSE_WRITES or more closes the order, and 0 makes only the steps that come before
 * its next write. Whatever the limit, list and sheets are those of advances made one after another up to there; but 4 is given, before any
 * write, also where the own line is COMMITTED in a phase before finish. The duties above say what is saved after it. */
RAPYHEO_ANSWER static inline uint32_t rapyheo_close_at(rapyheo_transaction *list, size_t list_length, size_t place, uint8_t *records,
                                                       size_t records_length, uint8_t *coordinator, size_t coordinator_length, uint32_t clock,
                                                       uint32_t limit) {
    return rapyheo_call_at(list, list_length, place, records, records_length, coordinator, coordinator_length, RAPYHEO_CALL_CLOSE, 0, 0, 0, 0, 0, 0, 0,
                           clock, limit);
}

/* Turns it to withdraw, which it may until it is decided; advances, or a close, then undo it: 0 or 1000 + 4. */
RAPYHEO_ANSWER static inline uint32_t rapyheo_abort_at(rapyheo_transaction *list, size_t list_length, size_t place, uint8_t *records,
                                                       size_t records_length, uint8_t *coordinator, size_t coordinator_length) {
    return rapyheo_call_at(list, list_length, place, records, records_length, coordinator, coordinator_length, RAPYHEO_CALL_ABORT, 0, 0, 0, 0, 0, 0, 0,
                           0, 0);
}

/* The columns of a key that the transaction holds, as last put, else as read; zeros where it was absent or is not held. */
static inline rapyheo_columns rapyheo_columns_held(const rapyheo_transaction *transaction, rapyheo_key key) {
    rapyheo_columns columns = {0, 0};
    for (uint32_t i = 0; i < transaction->count && i < RAPYHEO_ENTRIES; i++) {
        const rapyheo_entry *entry = &transaction->entries[i];
        if (entry->key.storage == key.storage && entry->key.name_space == key.name_space && entry->key.table == key.table &&
            entry->key.partition == key.partition && entry->key.clustering == key.clustering) {
            columns.column1 = entry->wrote ? entry->put.column1 : entry->seen.column1;
            columns.column2 = entry->wrote ? entry->put.column2 : entry->seen.column2;
        }
    }
    return columns;
}

/* The calls on a plain and a bookkeeping sheet. Each gives 13 (1000 + 13 where its like above has 1000 + the
 * refusal) where these differ, after 2, besides the refusals of its like above; 1 is for
 * either of them alone and for both joined. */

/* 0 where all three sheets are accepted, else the refusal itself: 1, 2 or 13. */
RAPYHEO_ANSWER uint32_t rapyheo_two_check(const uint8_t *plain, size_t plain_length, const uint8_t *bookkeeping, size_t bookkeeping_length,
                                          const uint8_t *coordinator, size_t coordinator_length);

/* As rapyheo_visit. */
RAPYHEO_ANSWER uint32_t rapyheo_two_visit(uint8_t *plain, size_t plain_length, uint8_t *bookkeeping, size_t bookkeeping_length,
                                          uint8_t *coordinator, size_t coordinator_length, uint32_t storage, uint32_t name_space, uint32_t table,
                                          uint32_t partition, uint32_t clustering, uint32_t clock);

/* As rapyheo_add and rapyheo_remove, on both sheets: 0, or the refusal itself, 13 among them. */
RAPYHEO_ANSWER uint32_t rapyheo_two_add(uint8_t *plain, size_t plain_length, uint8_t *bookkeeping, size_t bookkeeping_length, const uint8_t *coordinator,
                                        size_t coordinator_length, uint32_t storage, uint32_t name_space, uint32_t table, uint32_t partition,
                                        uint32_t clustering);
RAPYHEO_ANSWER uint32_t rapyheo_two_remove(uint8_t *plain, size_t plain_length, uint8_t *bookkeeping, size_t bookkeeping_length,
                                           const uint8_t *coordinator, size_t coordinator_length, uint32_t storage, uint32_t name_space,
                                           uint32_t table, uint32_t partition, uint32_t clustering);

/* The index of the key's line, from 0, the same on both sheets, or 1000 + 1, 13, 5 or 6. */
RAPYHEO_ANSWER uint32_t rapyheo_two_lookup(const uint8_t *plain, size_t plain_length, const uint8_t *bookkeeping, size_t bookkeeping_length,
                                           uint32_t storage, uint32_t name_space, uint32_t table, uint32_t partition, uint32_t clustering);

/* As rapyheo_rank, on both sheets: 0 or 1000 + 1, 13 or 5. */
RAPYHEO_ANSWER uint32_t rapyheo_two_rank(const uint8_t *plain, size_t plain_length, const uint8_t *bookkeeping, size_t bookkeeping_length,
                                         uint32_t storage, uint32_t name_space, uint32_t table, uint32_t partition, uint32_t clustering,
                                         uint32_t *rank, size_t rank_length);

/* As rapyheo_call_at, and RAPYHEO_CALL_SECOND besides. Where a read takes two calls, the first answers RAPYHEO_FIRST + 100000000 * column 1 +
 * column 2, which rapyheo_first_columns takes apart; no other answer is so large. */
RAPYHEO_ANSWER uint64_t rapyheo_two_call_at(rapyheo_transaction *list, size_t list_length, size_t place, uint8_t *plain, size_t plain_length,
                                            uint8_t *bookkeeping, size_t bookkeeping_length, uint8_t *coordinator, size_t coordinator_length,
                                            uint32_t call, uint32_t storage, uint32_t name_space, uint32_t table, uint32_t partition,
                                            uint32_t clustering, uint32_t column1, uint32_t column2, uint32_t clock, uint32_t limit);

enum { RAPYHEO_FIRST = 10000 };

/* The answer is that of the first of a read's two calls, and the columns in it. */
static inline int rapyheo_is_first(uint64_t answer) { return answer >= RAPYHEO_FIRST; }

static inline rapyheo_columns rapyheo_first_columns(uint64_t answer) {
    const uint64_t both = answer - RAPYHEO_FIRST;
    const rapyheo_columns columns = {(uint32_t)(both / 100000000), (uint32_t)(both % 100000000)};
    return columns;
}

/* The sheets that the functions below take. */
typedef struct rapyheo_two_sheets {
    uint8_t *plain;
    size_t plain_length;
    uint8_t *bookkeeping;
    size_t bookkeeping_length;
    uint8_t *coordinator;
    size_t coordinator_length;
} rapyheo_two_sheets;

/* A call by place with the numbers in structs, for those with names of their own. */
RAPYHEO_ANSWER static inline uint64_t rapyheo_two_ask(rapyheo_transaction *list, size_t list_length, size_t place, rapyheo_two_sheets sheets,
                                                      uint32_t call, rapyheo_key key, rapyheo_columns columns, uint32_t clock,
                                                      uint32_t limit) {
    return rapyheo_two_call_at(list, list_length, place, sheets.plain, sheets.plain_length, sheets.bookkeeping, sheets.bookkeeping_length,
                               sheets.coordinator, sheets.coordinator_length, call, key.storage, key.name_space, key.table, key.partition,
                               key.clustering, columns.column1, columns.column2, clock, limit);
}

static const rapyheo_key rapyheo_no_key = {0, 0, 0, 0, 0};
static const rapyheo_columns rapyheo_no_columns = {0, 0};

/* As rapyheo_begin_at. */
RAPYHEO_ANSWER static inline uint64_t rapyheo_two_begin_at(rapyheo_transaction *list, size_t list_length, size_t place, rapyheo_two_sheets sheets,
                                                           uint32_t checked) {
    return rapyheo_two_ask(list, list_length, place, sheets, checked ? RAPYHEO_CALL_BEGIN_CHECKED : RAPYHEO_CALL_BEGIN, rapyheo_no_key,
                           rapyheo_no_columns, 0, 0);
}

/* As rapyheo_read_at; or the first of two calls, whose answer rapyheo_is_first tells and which is never refused with 12. */
RAPYHEO_ANSWER static inline uint64_t rapyheo_two_read_at(rapyheo_transaction *list, size_t list_length, size_t place, rapyheo_two_sheets sheets,
                                                          rapyheo_key key, uint32_t clock) {
    return rapyheo_two_ask(list, list_length, place, sheets, RAPYHEO_CALL_READ, key, rapyheo_no_columns, clock, 0);
}

/* The second call of a read, with the columns that the first answered: it visits the line and holds them, 0 where the line is ABSENT. Answers and
 * refusals are those of rapyheo_read_at, and 1000 + 7 where a column is over 99999999. Of a read that takes one call this is the whole one, and the
 * columns are ignored. */
RAPYHEO_ANSWER static inline uint64_t rapyheo_two_second_at(rapyheo_transaction *list, size_t list_length, size_t place, rapyheo_two_sheets sheets,
                                                            rapyheo_key key, uint32_t clock, rapyheo_columns columns) {
    return rapyheo_two_ask(list, list_length, place, sheets, RAPYHEO_CALL_SECOND, key, columns, clock, 0);
}

/* As rapyheo_put_at. */
RAPYHEO_ANSWER static inline uint64_t rapyheo_two_put_at(rapyheo_transaction *list, size_t list_length, size_t place, rapyheo_two_sheets sheets,
                                                         rapyheo_key key, rapyheo_columns columns) {
    return rapyheo_two_ask(list, list_length, place, sheets, RAPYHEO_CALL_PUT, key, columns, 0, 0);
}

/* As rapyheo_advance_at. */
RAPYHEO_ANSWER static inline uint64_t rapyheo_two_advance_at(rapyheo_transaction *list, size_t list_length, size_t place,
                                                             rapyheo_two_sheets sheets, uint32_t clock) {
    return rapyheo_two_ask(list, list_length, place, sheets, RAPYHEO_CALL_ADVANCE, rapyheo_no_key, rapyheo_no_columns, clock, 0);
}

/* As rapyheo_close_at. */
RAPYHEO_ANSWER static inline uint64_t rapyheo_two_close_at(rapyheo_transaction *list, size_t list_length, size_t place, rapyheo_two_sheets sheets,
                                                           uint32_t clock, uint32_t limit) {
    return rapyheo_two_ask(list, list_length, place, sheets, RAPYHEO_CALL_CLOSE, rapyheo_no_key, rapyheo_no_columns, clock, limit);
}

/* As rapyheo_abort_at. */
RAPYHEO_ANSWER static inline uint64_t rapyheo_two_abort_at(rapyheo_transaction *list, size_t list_length, size_t place,
                                                           rapyheo_two_sheets sheets) {
    return rapyheo_two_ask(list, list_length, place, sheets, RAPYHEO_CALL_ABORT, rapyheo_no_key, rapyheo_no_columns, 0, 0);
}

/* A refusal in words. It may be given as itself or as an answer, 1000 + the refusal. */
static inline const char *rapyheo_refusal_text(uint32_t refusal) {
    static const char *const texts[] = {
        "no such refusal",
        "the record sheet, or records to be written, break a rule, or a target has another length than needed",
        "the coordinator sheet breaks a rule, or a record names a number that is not issued",
        "the transaction is not well formed, the list is over 16, or there is no such place or call",
        "the call is not for this phase, or the own coordinator line forbids the step",
        "a key field is out of range",
        "no line has the key",
        "a put column is over 99999999",
        "every number of the coordinator sheet is issued",
        "the key is new, and 8 are held",
        "the key is not held: read it before the put",
        "the version read is 99999, and no put can follow it",
        "the line is undecided, and not every line of its owner has expired",
        "the plain and the bookkeeping sheet differ in number of lines or in a key",
        "the key to be added has a line",
        "there is no spare for the line to be added",
        "the line to be removed is not ABSENT of version 0",
    };
    if (refusal > RAPYHEO_REFUSED)
        refusal -= RAPYHEO_REFUSED;
    return texts[refusal <= RAPYHEO_NOT_BLANK ? refusal : 0];
}

#undef RAPYHEO_ANSWER

#ifdef __cplusplus
}
#endif

#endif
