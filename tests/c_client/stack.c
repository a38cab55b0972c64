/* How much stack each exported function needs. It is called on a stack of its own that was painted before, and the bytes whose paint is gone are
 * counted, the caller's arguments among them. The sheets are the largest, and orders of eight entries go through every phase, on the record sheet
 * and on two sheets. Prints a line for each function and the most of either kind, which must leave room for the loader in what the header says. */
#define _XOPEN_SOURCE 700
#include <stdint.h>
#include <stdio.h>
#include <string.h>
#include <ucontext.h>

#include "rapyheo.h"

enum { LINES = 500, NUMBERS = 999, PLACES = RAPYHEO_LIST, PLACE = PLACES - 1, PAINT = 0xA5, STACK = 1 << 20, BINDING = 2000 };
enum { RECORDS = LINES * RAPYHEO_RECORD_BYTES, COORDINATOR = (1 + NUMBERS) * RAPYHEO_COORDINATOR_BYTES };
enum { PLAIN = LINES * RAPYHEO_PLAIN_BYTES, BOOKKEEPING = LINES * RAPYHEO_BOOKKEEPING_BYTES };
enum { ROWS = LINES * RAPYHEO_RECORD_NUMBERS, DECISIONS = RAPYHEO_HEAD_NUMBERS + NUMBERS };

static uint8_t records[RECORDS], coordinator[COORDINATOR], records_before[RECORDS], coordinator_before[COORDINATOR];
static uint8_t plain[PLAIN], bookkeeping[BOOKKEEPING];
static uint32_t rows[ROWS], decisions[DECISIONS], lines[2], answer, column1 = 7, clock_now = 1000, asked;
static size_t place = PLACE;
static rapyheo_transaction list[PLACES];
static rapyheo_key key;

static uint8_t stack[STACK];
static ucontext_t here, there;

/* The bytes of the stack that a function has used. */
static size_t used(void (*function)(void)) {
    memset(stack, PAINT, sizeof stack);
    getcontext(&there);
    there.uc_stack.ss_sp = stack;
    there.uc_stack.ss_size = sizeof stack;
    there.uc_link = &here;
    makecontext(&there, function, 0);
    swapcontext(&here, &there);
    size_t clean = 0;
    while (clean < sizeof stack && stack[clean] == PAINT)
        clean++;
    return sizeof stack - clean;
}

static void none(void) { answer = 0; }
static void version(void) { answer = rapyheo_version(); }
static void check(void) { answer = rapyheo_check(records, RECORDS, coordinator, COORDINATOR); }
static void begin(void) { answer = rapyheo_begin(records, RECORDS, coordinator, COORDINATOR); }
static void call_at(void) {
    answer = rapyheo_call_at(list, PLACES, place, records, RECORDS, coordinator, COORDINATOR, asked, key.storage, key.name_space, key.table,
                             key.partition, key.clustering, column1, 7, clock_now, RAPYHEO_CLOSE_WRITES);
}
static void visit(void) {
    answer = rapyheo_visit(records, RECORDS, coordinator, COORDINATOR, key.storage, key.name_space, key.table, key.partition, key.clustering,
                           clock_now);
}
static void lookup(void) {
    answer = rapyheo_lookup(records, RECORDS, key.storage, key.name_space, key.table, key.partition, key.clustering);
}
static void rank(void) {
    answer = rapyheo_rank(records, RECORDS, key.storage, key.name_space, key.table, key.partition, key.clustering, lines, 2);
}
static void add(void) {
    answer = rapyheo_add(records, RECORDS, coordinator, COORDINATOR, key.storage, key.name_space, key.table, key.partition, key.clustering);
}
static void remove_line(void) {
    answer = rapyheo_remove(records, RECORDS, coordinator, COORDINATOR, key.storage, key.name_space, key.table, key.partition, key.clustering);
}
static void two_add(void) {
    answer = rapyheo_two_add(plain, PLAIN, bookkeeping, BOOKKEEPING, coordinator, COORDINATOR, key.storage, key.name_space, key.table, key.partition,
                             key.clustering);
}
static void two_remove(void) {
    answer = rapyheo_two_remove(plain, PLAIN, bookkeeping, BOOKKEEPING, coordinator, COORDINATOR, key.storage, key.name_space, key.table,
                                key.partition, key.clustering);
}
static void written(void) {
    answer = rapyheo_written(records_before, RECORDS, records, RECORDS, coordinator_before, COORDINATOR, coordinator, COORDINATOR, lines, 2);
}
static void two_check(void) { answer = rapyheo_two_check(plain, PLAIN, bookkeeping, BOOKKEEPING, coordinator, COORDINATOR); }
static void two_call_at(void) {
    answer = (uint32_t)rapyheo_two_call_at(list, PLACES, place, plain, PLAIN, bookkeeping, BOOKKEEPING, coordinator, COORDINATOR, asked, key.storage,
                                           key.name_space, key.table, key.partition, key.clustering, column1, 7, clock_now, RAPYHEO_CLOSE_WRITES);
}
static void two_visit(void) {
    answer = rapyheo_two_visit(plain, PLAIN, bookkeeping, BOOKKEEPING, coordinator, COORDINATOR, key.storage, key.name_space, key.table,
                               key.partition, key.clustering, clock_now);
}
static void two_lookup(void) {
    answer = rapyheo_two_lookup(plain, PLAIN, bookkeeping, BOOKKEEPING, key.storage, key.name_space, key.table, key.partition, key.clustering);
}
static void two_rank(void) {
    answer = rapyheo_two_rank(plain, PLAIN, bookkeeping, BOOKKEEPING, key.storage, key.name_space, key.table, key.partition, key.clustering, lines, 2);
}
static void read_records(void) { answer = rapyheo_read_records(records, RECORDS, rows, ROWS); }
static void write_records(void) { answer = rapyheo_write_records(rows, ROWS, records, RECORDS); }
static void read_coordinator(void) { answer = rapyheo_read_coordinator(coordinator, COORDINATOR, decisions, DECISIONS); }
static void write_coordinator(void) { answer = rapyheo_write_coordinator(decisions, DECISIONS, coordinator, COORDINATOR); }

static struct measured {
    const char *name;
    void (*function)(void);
    size_t most;
} table[] = {
    {"version", version, 0},
    {"check", check, 0},
    {"begin", begin, 0},
    {"call_at", call_at, 0},
    {"visit", visit, 0},
    {"lookup", lookup, 0},
    {"rank", rank, 0},
    {"add", add, 0},
    {"remove", remove_line, 0},
    {"written", written, 0},
    {"read_records", read_records, 0},
    {"write_records", write_records, 0},
    {"read_coordinator", read_coordinator, 0},
    {"write_coordinator", write_coordinator, 0},
    {"two_check", two_check, 0},
    {"two_call_at", two_call_at, 0},
    {"two_visit", two_visit, 0},
    {"two_lookup", two_lookup, 0},
    {"two_rank", two_rank, 0},
    {"two_add", two_add, 0},
    {"two_remove", two_remove, 0},
};
enum { FUNCTIONS = sizeof table / sizeof *table, ON_TWO = 7, ON_ONE = FUNCTIONS - ON_TWO };

/* What the orders below ask: on the record sheet, or on two. */
static void (*call_by_place)(void) = call_at, (*visit_line)(void) = visit, (*look_up)(void) = lookup, (*tell_rank)(void) = rank;
static void (*add_line)(void) = add, (*take_line)(void) = remove_line;

static size_t unmeasured; /* what an empty function uses */

static uint32_t measure(void (*function)(void)) {
    const size_t bytes = used(function) - unmeasured;
    for (size_t i = 0; i < FUNCTIONS; i++)
        if (table[i].function == function && table[i].most < bytes)
            table[i].most = bytes;
    return answer;
}

static uint32_t ask(uint32_t call) {
    asked = call;
    return measure(call_by_place);
}

/* Lines of all storages, the first and the last ABSENT, and every number but one of a kind that a begin can issue. */
static void lay_out(void) {
    for (uint32_t i = 0; i < LINES; i++) {
        const uint32_t there = i > 0 && i + 1 < LINES;
        const uint32_t row[RAPYHEO_RECORD_NUMBERS] = {1 + i * 9 / LINES, 99, 99, 99000 + i, 99999, there, there, 0, there, 5 * there, 0, 0, 0, 0, 0, 0};
        memcpy(rows + i * RAPYHEO_RECORD_NUMBERS, row, sizeof row);
    }
    memset(decisions, 0, sizeof decisions);
    measure(write_records);
    measure(write_coordinator);
    measure(read_records);
    measure(read_coordinator);
}

/* The record sheet as two. */
static void split(void) {
    for (size_t i = 0; i < LINES; i++) {
        const uint8_t *line = records + i * RAPYHEO_RECORD_BYTES;
        uint8_t *columns = plain + i * RAPYHEO_PLAIN_BYTES, *rest = bookkeeping + i * RAPYHEO_BOOKKEEPING_BYTES;
        memcpy(columns, line, 20);
        memcpy(columns + 20, line + 40, 18);
        columns[38] = '\n';
        memcpy(rest, line, 40);
        memcpy(rest + 40, line + 58, 50);
    }
    call_by_place = two_call_at;
    visit_line = two_visit;
    look_up = two_lookup;
    tell_rank = two_rank;
    add_line = two_add;
    take_line = two_remove;
}

static void key_of(uint32_t line) { memcpy(&key, rows + line * RAPYHEO_RECORD_NUMBERS, sizeof key); }

static void open_order(uint32_t call, uint32_t puts) {
    ask(call);
    for (uint32_t i = 0; i < RAPYHEO_ENTRIES; i++) {
        key_of(i * 60);
        ask(RAPYHEO_CALL_READ);
        if (i < puts)
            ask(RAPYHEO_CALL_PUT);
    }
}

/* An order through so many advances. Then visits come to its lines, twice to each. */
static void order(uint32_t call, uint32_t puts, int advances) {
    open_order(call, puts);
    for (int i = 0; i < advances && ask(RAPYHEO_CALL_ADVANCE) == 0; i++) {
    }
    clock_now += 15000;
    for (uint32_t i = 0; i < 2 * RAPYHEO_ENTRIES; i++) {
        key_of(i / 2 * 60);
        measure(visit_line);
    }
    measure(look_up);
    measure(tell_rank);
    measure(written);
    memcpy(records_before, records, RECORDS);
    memcpy(coordinator_before, coordinator, COORDINATOR);
}

/* Orders through every phase, by advances, given up and closed. */
static void orders(void) {
    for (int advances = 0; advances < 30; advances++) {
        order(RAPYHEO_CALL_BEGIN, RAPYHEO_ENTRIES, advances);
        order(RAPYHEO_CALL_BEGIN_CHECKED, RAPYHEO_ENTRIES / 2, advances);
        order(RAPYHEO_CALL_BEGIN, 1, advances);
    }
    open_order(RAPYHEO_CALL_BEGIN, RAPYHEO_ENTRIES);
    ask(RAPYHEO_CALL_ABORT);
    while (ask(RAPYHEO_CALL_ADVANCE) == 0) {
    }
    for (uint32_t puts = 0; puts <= RAPYHEO_ENTRIES; puts++) {
        open_order(RAPYHEO_CALL_BEGIN_CHECKED, puts);
        ask(RAPYHEO_CALL_CLOSE);
    }
    open_order(RAPYHEO_CALL_BEGIN, RAPYHEO_ENTRIES);
    ask(RAPYHEO_CALL_ADVANCE);
    ask(RAPYHEO_CALL_ABORT);
    ask(RAPYHEO_CALL_CLOSE);
    key_of(LINES - 1); /* no order puts it */
    measure(take_line);
    measure(add_line);
    place = PLACES; /* the list has no such place: the sheets are looked at all the same */
    ask(RAPYHEO_CALL_ADVANCE);
    place = PLACE;
}

/* The most of some functions, each printed. */
static size_t most_of(const struct measured *functions, size_t count) {
    size_t most = 0;
    for (size_t i = 0; i < count; i++) {
        printf("rapyheo_%-18s%6zu\n", functions[i].name, functions[i].most);
        most = functions[i].most > most ? functions[i].most : most;
    }
    return most;
}

int main(void) {
    /* The loader binds memcpy where it is first called. What it needs for that is counted apart, as BINDING. */
    memcpy(records, records_before, RECORDS);
    unmeasured = used(none);
    lay_out();
    measure(version);
    if (measure(check) != 0) /* a refused sheet would be looked at no further */
        return !!puts("the record sheet is refused");
    measure(begin);
    orders();
    lay_out();
    split();
    if (measure(two_check) != 0)
        return !!puts("the two sheets are refused");
    orders();
    const size_t on_one = most_of(table, ON_ONE), on_two = most_of(table + ON_ONE, ON_TWO);
    printf("most bytes of stack %7zu, on two sheets %zu\n", on_one, on_two);
    return on_one + BINDING > RAPYHEO_STACK_BYTES || on_two + BINDING > RAPYHEO_TWO_STACK_BYTES;
}
