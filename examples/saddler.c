/* A saddler's client in C, whose fitting sheet may not be widened: key and columns stand on the plain sheet, everything else on a bookkeeping
 * sheet. Storage 1 can't be read consistently (a small unit letter), so that a new key there is read in two calls. One order goes through; then a
 * client dies with a line prepared, another reads the columns that it left there, a visitor undoes them in between, and the order that holds them
 * is withdrawn. Every call is printed with what it answered, and both sheets where a call may have written. */
#include <inttypes.h>
#include <stdio.h>

#include "rapyheo.h"

enum { LINES = 2, NUMBERS = 3, PLACES = 1 };

/* A fitting, and the stock of blanks in another store. */
static uint8_t plain[LINES * RAPYHEO_PLAIN_BYTES + 1] =
    " 1  1  1     1     1      500      250\n"
    " 2  1  1     1     1       40        0\n";
static uint8_t bookkeeping[LINES * RAPYHEO_BOOKKEEPING_BYTES + 1] =
    " 1  1  1     1     1 COMMITTED     3   0         -     0   0        0        0          0\n"
    " 2  1  1     1     1 COMMITTED     1   0         -     0   0        0        0          0\n";
static uint8_t coordinator[(1 + NUMBERS) * RAPYHEO_COORDINATOR_BYTES + 1] =
    "   0 sSSSSSSSS\n"
    "   1         -\n"
    "   2         -\n"
    "   3         -\n";

/* Without the zero that ends a string in C. */
static const rapyheo_two_sheets sheets = {plain,       sizeof plain - 1,      bookkeeping, sizeof bookkeeping - 1,
                                          coordinator, sizeof coordinator - 1};

static rapyheo_transaction list[PLACES];

static const rapyheo_key fitting = {1, 1, 1, 1, 1}, stock = {2, 1, 1, 1, 1};

static int refused(uint64_t answer) {
    if (answer <= RAPYHEO_REFUSED || rapyheo_is_first(answer))
        return 0;
    printf("refused %" PRIu64 ", %s\n", answer - RAPYHEO_REFUSED, rapyheo_refusal_text((uint32_t)answer));
    return 1;
}

static void show(void) { printf("%s%s%s", (const char *)coordinator, (const char *)plain, (const char *)bookkeeping); }

static void begin(void) {
    printf("begin: ");
    if (!refused(rapyheo_two_begin_at(list, PLACES, 0, sheets, 0)))
        printf("number %" PRIu32 "\n", list[0].number);
}

static void say_read(uint64_t answer, rapyheo_key key) {
    const rapyheo_columns held = rapyheo_columns_held(&list[0], key);
    if (answer == RAPYHEO_READ_COLUMNS)
        printf("columns %" PRIu32 " %" PRIu32 "\n", held.column1, held.column2);
    else if (!refused(answer))
        puts(answer == RAPYHEO_READ_AGAIN ? "again" : "absent");
}

/* A read, or the first of its two calls; the columns that the second is to be handed. */
static rapyheo_columns read_key(const char *name, rapyheo_key key, uint32_t clock) {
    const uint64_t answer = rapyheo_two_read_at(list, PLACES, 0, sheets, key, clock);
    printf("read %s at %" PRIu32 ": ", name, clock);
    if (!rapyheo_is_first(answer)) {
        say_read(answer, key);
        return rapyheo_no_columns;
    }
    const rapyheo_columns first = rapyheo_first_columns(answer);
    printf("first, columns %" PRIu32 " %" PRIu32 "; %" PRIu32 " held\n", first.column1, first.column2, list[0].count);
    return first;
}

static void read_again(const char *name, rapyheo_key key, uint32_t clock, rapyheo_columns first) {
    printf("second reading of %s at %" PRIu32 ": ", name, clock);
    say_read(rapyheo_two_second_at(list, PLACES, 0, sheets, key, clock, first), key);
}

static void put(const char *name, rapyheo_key key, uint32_t column1, uint32_t column2) {
    const rapyheo_columns columns = {column1, column2};
    printf("put %s %" PRIu32 " %" PRIu32 ": ", name, column1, column2);
    if (!refused(rapyheo_two_put_at(list, PLACES, 0, sheets, key, columns)))
        puts("held");
}

static void say_step(void) {
    static const char *const phases[] = {"open", "prepare", "check", "decide", "withdraw", "finish", "undo", "done"};
    static const char *const verdicts[] = {"none", "committed", "aborted"};
    printf("%s, verdict %s\n", phases[list[0].phase], verdicts[list[0].verdict]);
}

static void advance(uint32_t clock) {
    printf("advance at %" PRIu32 ": ", clock);
    if (!refused(rapyheo_two_advance_at(list, PLACES, 0, sheets, clock)))
        say_step();
    show();
}

static void close_order(uint32_t clock) {
    const uint64_t answer = rapyheo_two_close_at(list, PLACES, 0, sheets, clock, RAPYHEO_CLOSE_WRITES);
    printf("close at %" PRIu32 ": ", clock);
    if (!refused(answer)) {
        printf("%" PRIu64 " written, ", answer);
        say_step();
    }
    show();
}

static void visit(const char *name, rapyheo_key key, uint32_t clock) {
    static const char *const replies[] = {"stays", "forward", "back", "again"};
    const uint32_t answer =
        rapyheo_two_visit(plain, sheets.plain_length, bookkeeping, sheets.bookkeeping_length, coordinator, sheets.coordinator_length, key.storage,
                          key.name_space, key.table, key.partition, key.clustering, clock);
    printf("visit %s at %" PRIu32 ": ", name, clock);
    if (!refused(answer))
        puts(replies[answer]);
    show();
}

/* A list is never saved: after a crash the client has one of zeros. */
static void crash(void) {
    const rapyheo_transaction unused = {0, 0, 0, 0, 0, 0, {{{0, 0, 0, 0, 0}, {0, 0, 0, 0}, 0, 0, {0, 0}}}};
    list[0] = unused;
    puts("the client dies");
}

int main(void) {
    if (rapyheo_two_check(plain, sheets.plain_length, bookkeeping, sheets.bookkeeping_length, coordinator, sheets.coordinator_length) != 0)
        return 1;
    puts("an order over both stores");
    begin();
    rapyheo_columns first = read_key("fitting", fitting, 1000);
    read_again("fitting", fitting, 1001, first);
    read_key("stock", stock, 1002);
    put("fitting", fitting, 520, 250);
    put("stock", stock, 39, 0);
    close_order(1003);

    puts("\nan order whose client dies with the fitting prepared");
    begin();
    first = read_key("fitting", fitting, 2000);
    read_again("fitting", fitting, 2001, first);
    put("fitting", fitting, 99, 99);
    advance(2002);
    advance(2003);
    crash();

    puts("\nan order that reads while a visitor undoes it");
    begin();
    first = read_key("fitting", fitting, 3000);
    visit("fitting", fitting, 17003);
    visit("fitting", fitting, 17004);
    read_again("fitting", fitting, 17005, first);
    put("fitting", fitting, 100, 100);
    close_order(17006);
    return 0;
}
