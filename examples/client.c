/* A client in C, which closes orders over three records in two stores by the calls by place. One order goes through in two phases and one in one
 * phase, one is closed write by write, calls are refused and an order is given up, and twice a client dies in the middle: visits undo what it had
 * prepared, or finish what it had decided. Every call is printed with what it answered and what it wrote. client.py and client.rs are the same
 * walk. */
#include <inttypes.h>
#include <stdio.h>
#include <string.h>

#include "rapyheo.h"

enum { LINES = 3, NUMBERS = 7, PLACES = 2 };
enum { ROWS = LINES * RAPYHEO_RECORD_NUMBERS, DECISIONS = RAPYHEO_HEAD_NUMBERS + NUMBERS };

/* Stock, account, and a delivery note that does not exist yet. A store is written as a whole (unit S), so an order over both has two groups. */
static uint8_t records[LINES * RAPYHEO_RECORD_BYTES + 1] =
    " 1  1  1     1     1 COMMITTED     1   0      500      250         -     0   0        0        0          0\n"
    " 2  1  1     1     1 COMMITTED     4   0      900        0         -     0   0        0        0          0\n"
    " 2  1  1     1     2    ABSENT     0   0        0        0         -     0   0        0        0          0\n";

static uint8_t coordinator[(1 + NUMBERS) * RAPYHEO_COORDINATOR_BYTES + 1] =
    "   0 SSSSSSSSS\n"
    "   1         -\n"
    "   2         -\n"
    "   3         -\n"
    "   4         -\n"
    "   5         -\n"
    "   6         -\n"
    "   7         -\n";

/* Without the zero that ends a string in C. */
static const size_t records_length = sizeof records - 1;
static const size_t coordinator_length = sizeof coordinator - 1;

/* The client's own transactions. An unused one is all zeros, and only calls change one. */
static rapyheo_transaction list[PLACES];

typedef struct named_key {
    const char *name;
    rapyheo_key key;
} named_key;

static const named_key stock = {"stock", {1, 1, 1, 1, 1}};
static const named_key account = {"account", {2, 1, 1, 1, 1}};
static const named_key note = {"note", {2, 1, 1, 1, 2}};
static const named_key nothing = {"nothing", {2, 1, 1, 1, 3}};

/* Both sheets as they were before a call, for rapyheo_written. */
static uint8_t records_before[sizeof records], coordinator_before[sizeof coordinator];

static void keep(void) {
    memcpy(records_before, records, sizeof records);
    memcpy(coordinator_before, coordinator, sizeof coordinator);
}

/* What must stand whole or not at all after a crash. A client with sheets on a disk saves just that. */
static void say_written(void) {
    uint32_t lines[2];
    const uint32_t wrote = rapyheo_written(records_before, records_length, records, records_length, coordinator_before, coordinator_length,
                                           coordinator, coordinator_length, lines, 2);
    if (wrote == RAPYHEO_WROTE_NOTHING)
        puts("; wrote nothing");
    else if (wrote == RAPYHEO_WROTE_COORDINATOR)
        printf("; wrote the coordinator sheet\n%s", (const char *)coordinator);
    else
        printf("; wrote lines %" PRIu32 " to %" PRIu32 "\n%.*s", lines[0], lines[0] + lines[1] - 1, (int)lines[1] * RAPYHEO_RECORD_BYTES,
               (const char *)records + lines[0] * RAPYHEO_RECORD_BYTES);
}

static int refused(uint32_t answer) {
    if (answer <= RAPYHEO_REFUSED)
        return 0;
    printf("refused %" PRIu32 ", %s", answer - RAPYHEO_REFUSED, rapyheo_refusal_text(answer));
    return 1;
}

static void begin(size_t place, uint32_t checked) {
    keep();
    printf("begin%s: ", checked ? " checked" : "");
    if (!refused(rapyheo_begin_at(list, PLACES, place, records, records_length, coordinator, coordinator_length, checked)))
        printf("number %" PRIu32, list[place].number);
    say_written();
}

static void read_key(size_t place, named_key what, uint32_t clock) {
    keep();
    printf("read %s at %" PRIu32 ": ", what.name, clock);
    const uint32_t answer = rapyheo_read_at(list, PLACES, place, records, records_length, coordinator, coordinator_length, what.key, clock);
    const rapyheo_columns columns = rapyheo_columns_held(&list[place], what.key);
    if (answer == RAPYHEO_READ_COLUMNS)
        printf("columns %" PRIu32 " %" PRIu32, columns.column1, columns.column2);
    else if (!refused(answer))
        printf("%s", answer == RAPYHEO_READ_AGAIN ? "again" : "absent");
    say_written();
}

static void put(size_t place, named_key what, uint32_t column1, uint32_t column2) {
    const rapyheo_columns columns = {column1, column2};
    keep();
    printf("put %s %" PRIu32 " %" PRIu32 ": ", what.name, column1, column2);
    if (!refused(rapyheo_put_at(list, PLACES, place, records, records_length, coordinator, coordinator_length, what.key, columns)))
        printf("held");
    say_written();
}

/* Where a call has led: phase, place in it and verdict. */
static void say_step(const rapyheo_transaction *order) {
    static const char *const phases[] = {"open", "prepare", "check", "decide", "withdraw", "finish", "undo", "done"};
    static const char *const verdicts[] = {"none", "committed", "aborted"};
    printf("%s, place %" PRIu32 ", verdict %s", phases[order->phase], order->place, verdicts[order->verdict]);
}

static void advance(size_t place, uint32_t clock) {
    keep();
    printf("advance at %" PRIu32 ": ", clock);
    if (!refused(rapyheo_advance_at(list, PLACES, place, records, records_length, coordinator, coordinator_length, clock)))
        say_step(&list[place]);
    say_written();
}

static void close_order(size_t place, uint32_t clock, uint32_t limit) {
    keep();
    printf("close at %" PRIu32 ", limit %" PRIu32 ": ", clock, limit);
    const uint32_t answer = rapyheo_close_at(list, PLACES, place, records, records_length, coordinator, coordinator_length, clock, limit);
    if (!refused(answer)) {
        printf("%" PRIu32 " written, ", answer);
        say_step(&list[place]);
    }
    say_written();
}

static void abort_order(size_t place) {
    keep();
    printf("abort: ");
    if (!refused(rapyheo_abort_at(list, PLACES, place, records, records_length, coordinator, coordinator_length)))
        say_step(&list[place]);
    say_written();
}

static void visit(named_key what, uint32_t clock) {
    static const char *const replies[] = {"stays", "forward", "back", "again"};
    keep();
    printf("visit %s at %" PRIu32 ": ", what.name, clock);
    const uint32_t answer = rapyheo_visit(records, records_length, coordinator, coordinator_length, what.key.storage, what.key.name_space,
                                          what.key.table, what.key.partition, what.key.clustering, clock);
    if (!refused(answer))
        printf("%s", replies[answer]);
    say_written();
}

/* A list is never saved: after a crash the client has one of zeros, and what it left stands on the sheets. */
static void die(void) {
    memset(list, 0, sizeof list);
    puts("the client dies, and its list with it");
}

static void show(void) {
    printf("version %" PRIu32 " with header %d, check %" PRIu32 "\n", rapyheo_version(), RAPYHEO_VERSION,
           rapyheo_check(records, records_length, coordinator, coordinator_length));
    printf("%s%s", (const char *)coordinator, (const char *)records);
}

/* Each of the two groups is prepared, the decision is written, and each group is finished. */
static void two_phases(void) {
    puts("\nan order over two stores");
    begin(0, 0);
    read_key(0, stock, 1000);
    read_key(0, account, 1000);
    read_key(0, note, 1000);
    put(0, stock, 499, 250);
    put(0, account, 950, 0);
    put(0, note, 1, 1);
    for (uint32_t clock = 1001; list[0].phase != RAPYHEO_DONE; clock++)
        advance(0, clock);
}

/* All puts are in one group: one write does it, and no COMMITTED is written for its number. */
static void one_phase(void) {
    puts("\nan order over one store");
    begin(0, 0);
    read_key(0, account, 2000);
    put(0, account, 1000, 0);
    read_key(0, account, 2000);
    advance(0, 2001);
}

/* A call for each write, so that each can be saved before the next: steps that write nothing go with one that does. */
static void write_by_write(void) {
    puts("\nan order over two stores, closed write by write");
    begin(0, 0);
    read_key(0, stock, 2500);
    read_key(0, account, 2500);
    put(0, stock, 498, 250);
    put(0, account, 1050, 0);
    for (uint32_t clock = 2501; list[0].phase != RAPYHEO_DONE; clock++)
        close_order(0, clock, 1);
}

static void given_up(void) {
    puts("\nrefused calls, and an order that is given up");
    begin(1, 0);
    put(1, stock, 1, 1);
    read_key(1, nothing, 3000);
    read_key(1, stock, 3000);
    put(1, stock, 100000000, 0);
    put(1, stock, 497, 250);
    abort_order(1);
    while (list[1].phase != RAPYHEO_DONE)
        advance(1, 3001);
    advance(1, 3002);
}

/* One of its two groups is prepared. Nobody may undo that before it has expired, and then ABORTED is written first. */
static void dies_undecided(void) {
    puts("\na client that dies between its two prepares");
    begin(0, 0);
    read_key(0, stock, 4000);
    read_key(0, account, 4000);
    put(0, stock, 497, 250);
    put(0, account, 1100, 0);
    advance(0, 4001);
    advance(0, 4002);
    die();
    visit(stock, 19001);
    visit(stock, 19002);
    visit(stock, 19003);
    visit(account, 19004);
}

/* Both groups are prepared and the decision is written: whoever meets a line finishes it, a read as well as a visit. The note is only read, and
 * since the order is checked it must not have changed either. At the end all numbers are issued. */
static void dies_decided(void) {
    puts("\na client that dies after its decision");
    begin(0, 1);
    read_key(0, stock, 20000);
    read_key(0, note, 20000);
    read_key(0, account, 20000);
    put(0, stock, 497, 250);
    put(0, account, 1100, 0);
    for (uint32_t clock = 20001; list[0].phase != RAPYHEO_FINISH; clock++)
        advance(0, clock);
    die();
    visit(account, 20010);
    begin(0, 0);
    read_key(0, stock, 20011);
    advance(0, 20012);
    begin(0, 0);
}

static void say_numbers(const uint32_t *numbers, size_t length) {
    for (size_t i = 0; i < length; i++)
        printf(" %" PRIu32, numbers[i]);
    puts("");
}

/* The line of a key as numbers, and other memory written from those of both sheets: no byte is another. */
static void as_numbers(void) {
    uint32_t rows[ROWS], decisions[DECISIONS];
    const uint32_t line = rapyheo_lookup(records, records_length, 2, 1, 1, 1, 2);
    puts("\nsheets as numbers");
    if (refused(line))
        return;
    printf("note is line %" PRIu32 ", both sheets to numbers: %" PRIu32, line, rapyheo_read_records(records, records_length, rows, ROWS));
    printf(" %" PRIu32 "\n", rapyheo_read_coordinator(coordinator, coordinator_length, decisions, DECISIONS));
    say_numbers(rows + line * RAPYHEO_RECORD_NUMBERS, RAPYHEO_RECORD_NUMBERS);
    say_numbers(decisions, DECISIONS);
    memset(records_before, 0, sizeof records_before);
    memset(coordinator_before, 0, sizeof coordinator_before);
    printf("numbers to other sheets: %" PRIu32, rapyheo_write_records(rows, ROWS, records_before, records_length));
    printf(" %" PRIu32, rapyheo_write_coordinator(decisions, DECISIONS, coordinator_before, coordinator_length));
    say_written();
}

int main(void) {
    puts("at first");
    show();
    two_phases();
    one_phase();
    write_by_write();
    given_up();
    dies_undecided();
    dies_decided();
    as_numbers();
    puts("\nat the end");
    show();
    return 0;
}
