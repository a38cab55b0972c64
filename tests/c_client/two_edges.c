/* The calls on a plain and a bookkeeping sheet where examples/saddler.c doesn't come: refusal 13 and its place in the order, lengths that are no
 * whole lines, no such call, a column too large, the look-up, and what the header makes of a first call's answer. Prints each that is otherwise,
 * and how many there are. */
#include <inttypes.h>
#include <stdio.h>
#include <string.h>

#include "rapyheo.h"

enum { LINES = 2, NUMBERS = 1, PLAIN = LINES * RAPYHEO_PLAIN_BYTES, BOOKKEEPING = LINES * RAPYHEO_BOOKKEEPING_BYTES };
enum { COORDINATOR = (1 + NUMBERS) * RAPYHEO_COORDINATOR_BYTES };

static uint8_t plain[PLAIN + 1] =
    " 1  1  1     1     1 99999999       25\n"
    " 2  1  1     1     1        0        0\n";
static uint8_t bookkeeping[BOOKKEEPING + 1] =
    " 1  1  1     1     1 COMMITTED     7   0         -     0   0        0        0          0\n"
    " 2  1  1     1     1    ABSENT     0   0         -     0   0        0        0          0\n";
static uint8_t coordinator[COORDINATOR + 1] = "   0 sSSSSSSSS\n   1         -\n";
static rapyheo_transaction list[RAPYHEO_LIST + 1];
static const rapyheo_two_sheets sheets = {plain, PLAIN, bookkeeping, BOOKKEEPING, coordinator, COORDINATOR};
static const rapyheo_key small = {1, 1, 1, 1, 1}, capital = {2, 1, 1, 1, 1};
static int cases, wrong;

static void expect(const char *what, uint64_t is, uint64_t should) {
    cases++;
    if (is != should) {
        wrong++;
        printf("%s: %" PRIu64 ", not %" PRIu64 "\n", what, is, should);
    }
}

static uint64_t ask(size_t length, size_t place, rapyheo_two_sheets on, uint32_t call) {
    return rapyheo_two_ask(list, length, place, on, call, small, rapyheo_no_columns, 1000, 17);
}

static uint32_t check(size_t plain_length, size_t bookkeeping_length, size_t coordinator_length) {
    return rapyheo_two_check(plain, plain_length, bookkeeping, bookkeeping_length, coordinator, coordinator_length);
}

static uint32_t lookup(rapyheo_key key) {
    return rapyheo_two_lookup(plain, PLAIN, bookkeeping, BOOKKEEPING, key.storage, key.name_space, key.table, key.partition, key.clustering);
}

static uint32_t place[2];

static uint32_t stands(rapyheo_key key, size_t bookkeeping_length) {
    return rapyheo_two_rank(plain, PLAIN, bookkeeping, bookkeeping_length, key.storage, key.name_space, key.table, key.partition, key.clustering,
                            place, 2);
}

static uint32_t visit(rapyheo_key key) {
    return rapyheo_two_visit(plain, PLAIN, bookkeeping, BOOKKEEPING, coordinator, COORDINATOR, key.storage, key.name_space, key.table, key.partition,
                             key.clustering, 1000);
}

/* One line less on the plain sheet. */
static rapyheo_two_sheets differing(void) {
    rapyheo_two_sheets on = sheets;
    on.plain_length = RAPYHEO_PLAIN_BYTES;
    return on;
}

static void lengths(void) {
    rapyheo_two_sheets on = differing();
    expect("accepted", check(PLAIN, BOOKKEEPING, COORDINATOR), 0);
    expect("half a plain line", check(PLAIN - 1, BOOKKEEPING, COORDINATOR), RAPYHEO_BAD_RECORDS);
    expect("half a bookkeeping line", check(PLAIN, BOOKKEEPING - 1, COORDINATOR), RAPYHEO_BAD_RECORDS);
    expect("no line", check(0, BOOKKEEPING, COORDINATOR), RAPYHEO_BAD_RECORDS);
    expect("a line less", check(RAPYHEO_PLAIN_BYTES, BOOKKEEPING, COORDINATOR), RAPYHEO_SHEETS_DIFFER);
    expect("13 after 2", check(RAPYHEO_PLAIN_BYTES, BOOKKEEPING, COORDINATOR - 1), RAPYHEO_BAD_COORDINATOR);
    expect("13 before 3", ask(1, 1, on, RAPYHEO_CALL_ADVANCE), RAPYHEO_REFUSED + RAPYHEO_SHEETS_DIFFER);
    expect("of the look-up too", rapyheo_two_lookup(plain, RAPYHEO_PLAIN_BYTES, bookkeeping, BOOKKEEPING, 0, 1, 1, 1, 1),
           RAPYHEO_REFUSED + RAPYHEO_SHEETS_DIFFER);
}

static void by_place(void) {
    const uint64_t ill = RAPYHEO_REFUSED + RAPYHEO_BAD_TRANSACTION;
    expect("an unused one advances", ask(2, 0, sheets, RAPYHEO_CALL_ADVANCE), ill);
    expect("list over 16", ask(RAPYHEO_LIST + 1, 0, sheets, RAPYHEO_CALL_BEGIN), ill);
    expect("no such place", ask(2, 2, sheets, RAPYHEO_CALL_BEGIN), ill);
    expect("no such call", ask(2, 0, sheets, RAPYHEO_CALL_SECOND + 1), ill);
    expect("begin", rapyheo_two_begin_at(list, 2, 0, sheets, 1), 0);
    expect("checked", list[0].serializable, 1);
    expect("numbers are spent", rapyheo_two_begin_at(list, 2, 1, sheets, 0), RAPYHEO_REFUSED + RAPYHEO_NUMBERS_SPENT);
}

static void readings(void) {
    const rapyheo_columns large = {100000000, 0}, columns = {99999999, 25};
    const uint64_t first = rapyheo_two_read_at(list, 2, 0, sheets, small, 1000);
    expect("a first call", rapyheo_is_first(first), 1);
    expect("column 1", rapyheo_first_columns(first).column1, 99999999);
    expect("column 2", rapyheo_first_columns(first).column2, 25);
    expect("nothing is held", list[0].count, 0);
    expect("a refusal is no first call", rapyheo_is_first(RAPYHEO_REFUSED + RAPYHEO_SHEETS_DIFFER), 0);
    expect("a column too large", rapyheo_two_second_at(list, 2, 0, sheets, small, 1000, large), RAPYHEO_REFUSED + RAPYHEO_BAD_COLUMNS);
    expect("the second call", rapyheo_two_second_at(list, 2, 0, sheets, small, 1000, columns), RAPYHEO_READ_COLUMNS);
    expect("holds them", rapyheo_columns_held(&list[0], small).column1, 99999999);
    expect("held, the columns are ignored", rapyheo_two_second_at(list, 2, 0, sheets, small, 1000, large), RAPYHEO_READ_COLUMNS);
    expect("a capital letter, too", rapyheo_two_second_at(list, 2, 0, sheets, capital, 1000, large), RAPYHEO_READ_ABSENT);
    expect("put", rapyheo_two_put_at(list, 2, 0, sheets, small, large), RAPYHEO_REFUSED + RAPYHEO_BAD_COLUMNS);
    expect("put", rapyheo_two_put_at(list, 2, 0, sheets, capital, columns), 0);
    expect("two groups and no one-phase", rapyheo_two_close_at(list, 2, 0, sheets, 1000, 17), 3);
    expect("committed", list[0].verdict, RAPYHEO_COMMITTED);
    expect("on the plain sheet", memcmp(plain + RAPYHEO_PLAIN_BYTES + 20, " 99999999       25\n", 19) == 0, 1);
    expect("and the other", memcmp(bookkeeping + RAPYHEO_BOOKKEEPING_BYTES + 20, " COMMITTED     1   1", 20) == 0, 1);
    expect("closed", rapyheo_two_abort_at(list, 2, 0, sheets), RAPYHEO_REFUSED + RAPYHEO_WRONG_PHASE);
    expect("nor advanced", rapyheo_two_advance_at(list, 2, 0, sheets, 1000), RAPYHEO_REFUSED + RAPYHEO_WRONG_PHASE);
}

static void keys(void) {
    const rapyheo_key missing = {2, 1, 1, 1, 2}, outside = {0, 1, 1, 1, 1};
    expect("found", lookup(capital), 1);
    expect("not found", lookup(missing), RAPYHEO_REFUSED + RAPYHEO_NO_SUCH_KEY);
    expect("no key", lookup(outside), RAPYHEO_REFUSED + RAPYHEO_BAD_KEY);
    expect("where it would stand", stands(missing, BOOKKEEPING), 0);
    expect("behind both, and it has none", 10 * place[0] + place[1], 20);
    expect("where a line stands", stands(capital, BOOKKEEPING), 0);
    expect("second", 10 * place[0] + place[1], 11);
    expect("sheets that differ", stands(capital, RAPYHEO_BOOKKEEPING_BYTES), RAPYHEO_REFUSED + RAPYHEO_SHEETS_DIFFER);
    expect("no key to stand", stands(outside, BOOKKEEPING), RAPYHEO_REFUSED + RAPYHEO_BAD_KEY);
    expect("stays", visit(small), RAPYHEO_STAYS);
    expect("no line to visit", visit(missing), RAPYHEO_REFUSED + RAPYHEO_NO_SUCH_KEY);
    expect("no key to visit", visit(outside), RAPYHEO_REFUSED + RAPYHEO_BAD_KEY);
}

static uint32_t add(rapyheo_key key, size_t plain_length) {
    return rapyheo_two_add(plain, plain_length, bookkeeping, BOOKKEEPING, coordinator, COORDINATOR, key.storage, key.name_space, key.table,
                           key.partition, key.clustering);
}
static uint32_t remove_line(rapyheo_key key) {
    return rapyheo_two_remove(plain, PLAIN, bookkeeping, BOOKKEEPING, coordinator, COORDINATOR, key.storage, key.name_space, key.table,
                              key.partition, key.clustering);
}

static void lines_come_and_go(void) {
    const rapyheo_key missing = {2, 1, 1, 1, 2}, outside = {0, 1, 1, 1, 1};
    uint8_t first_plain[PLAIN], first_bookkeeping[BOOKKEEPING];
    memcpy(first_plain, plain, PLAIN);
    memcpy(first_bookkeeping, bookkeeping, BOOKKEEPING);
    expect("a key that has a line", add(capital, PLAIN), RAPYHEO_HAS_LINE);
    expect("no spare", add(missing, PLAIN), RAPYHEO_NO_SPARE);
    expect("no key to add", add(outside, PLAIN), RAPYHEO_BAD_KEY);
    expect("sheets that differ", add(missing, RAPYHEO_PLAIN_BYTES), RAPYHEO_SHEETS_DIFFER);
    expect("a COMMITTED line", remove_line(small), RAPYHEO_NOT_BLANK);
    expect("no line to remove", remove_line(missing), RAPYHEO_NO_SUCH_KEY);
    expect("removed", remove_line(capital), 0);
    expect("a plain spare", plain[RAPYHEO_PLAIN_BYTES] == ' ' && plain[PLAIN - 1] == '\n' && plain[PLAIN - 2] == ' ', 1);
    expect("and one beside it", bookkeeping[RAPYHEO_BOOKKEEPING_BYTES + 1] == ' ' && bookkeeping[BOOKKEEPING - 1] == '\n', 1);
    expect("accepted", check(PLAIN, BOOKKEEPING, COORDINATOR), 0);
    expect("added again", add(capital, PLAIN), 0);
    expect("as they were", (uint64_t)!!memcmp(plain, first_plain, PLAIN) + !!memcmp(bookkeeping, first_bookkeeping, BOOKKEEPING), 0);
}

int main(void) {
    lengths();
    lines_come_and_go();
    by_place();
    readings();
    keys();
    printf("edges of two sheets: %d cases, %d wrong\n", cases, wrong);
    return wrong != 0;
}
