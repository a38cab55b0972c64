/* What the clients of examples/ don't meet: refusals of lists, places and calls, of the look-up and of what a call wrote, of sheets whose lines have
 * no before state, and the header's own texts, numbers and versions. Prints each that is otherwise, and how many there are. */
#include <inttypes.h>
#include <stdio.h>
#include <string.h>

#include "rapyheo.h"

enum { LINES = 2, NUMBERS = 1, RECORDS = LINES * RAPYHEO_RECORD_BYTES, COORDINATOR = (1 + NUMBERS) * RAPYHEO_COORDINATOR_BYTES };

static uint8_t records[RECORDS + 1] =
    " 1  1  1     1     1 COMMITTED 99999   0      500      250         -     0   0        0        0          0\n"
    " 2  1  1     1     1    ABSENT     0   0        0        0         -     0   0        0        0          0\n";
static uint8_t coordinator[COORDINATOR + 1] = "   0 SSSSSSSSS\n   1         -\n";
static rapyheo_transaction list[RAPYHEO_LIST + 1];
static int cases, wrong;

static void expect(const char *what, uint32_t is, uint32_t should) {
    cases++;
    if (is != should) {
        wrong++;
        printf("%s: %" PRIu32 ", not %" PRIu32 "\n", what, is, should);
    }
}

static uint32_t ask(size_t length, size_t place, uint32_t call) {
    return rapyheo_call_at(list, length, place, records, RECORDS, coordinator, COORDINATOR, call, 1, 1, 1, 1, 1, 7, 7, 1000, 17);
}

/* Of the order at the last place. */
static const size_t last = RAPYHEO_LIST - 1;

static uint32_t read_key(rapyheo_key key) {
    return rapyheo_read_at(list, RAPYHEO_LIST, last, records, RECORDS, coordinator, COORDINATOR, key, 1000);
}

static uint32_t put_key(rapyheo_key key) {
    const rapyheo_columns columns = {7, 8};
    return rapyheo_put_at(list, RAPYHEO_LIST, last, records, RECORDS, coordinator, COORDINATOR, key, columns);
}

static void by_place(void) {
    const rapyheo_key full = {1, 1, 1, 1, 1}, absent = {2, 1, 1, 1, 1}, outside = {0, 1, 1, 1, 1};
    expect("an unused one advances", ask(2, 0, RAPYHEO_CALL_ADVANCE), RAPYHEO_REFUSED + RAPYHEO_BAD_TRANSACTION);
    expect("list over 16", ask(RAPYHEO_LIST + 1, 0, RAPYHEO_CALL_BEGIN), RAPYHEO_REFUSED + RAPYHEO_BAD_TRANSACTION);
    expect("no such place", ask(2, 2, RAPYHEO_CALL_BEGIN), RAPYHEO_REFUSED + RAPYHEO_BAD_TRANSACTION);
    expect("an empty list", ask(0, 0, RAPYHEO_CALL_BEGIN), RAPYHEO_REFUSED + RAPYHEO_BAD_TRANSACTION);
    expect("no such call", ask(2, 0, 7), RAPYHEO_REFUSED + RAPYHEO_BAD_TRANSACTION);
    expect("sheets come first", rapyheo_advance_at(list, 2, 2, records, RECORDS - 1, coordinator, COORDINATOR, 0),
           RAPYHEO_REFUSED + RAPYHEO_BAD_RECORDS);
    expect("and the coordinator's", rapyheo_advance_at(list, 2, 2, records, RECORDS, coordinator, COORDINATOR - 1, 0),
           RAPYHEO_REFUSED + RAPYHEO_BAD_COORDINATOR);
    expect("begin at the last place", ask(RAPYHEO_LIST, last, RAPYHEO_CALL_BEGIN_CHECKED), 0);
    expect("its number", list[last].number, 1);
    expect("checked", list[last].serializable, 1);
    expect("numbers are spent", ask(2, 1, RAPYHEO_CALL_BEGIN), RAPYHEO_REFUSED + RAPYHEO_NUMBERS_SPENT);
    expect("a key out of range", read_key(outside), RAPYHEO_REFUSED + RAPYHEO_BAD_KEY);
    expect("a line that is full", read_key(full), RAPYHEO_READ_COLUMNS);
    expect("its column", rapyheo_columns_held(&list[last], full).column2, 250);
    expect("is not put", put_key(full), RAPYHEO_REFUSED + RAPYHEO_VERSIONS_SPENT);
    expect("an absent line", read_key(absent), RAPYHEO_READ_ABSENT);
    expect("has no columns", rapyheo_columns_held(&list[last], absent).column2, 0);
    expect("is held as absent", list[last].entries[1].absent, 1);
    expect("the other is not", list[last].entries[0].absent, 0);
    expect("is put", put_key(absent), 0);
    expect("and read as put", rapyheo_columns_held(&list[last], absent).column2, 8);
    expect("a key that is not held", rapyheo_columns_held(&list[last], outside).column1, 0);
    expect("the other place stays", list[0].number, 0);
}

static uint32_t close_order(uint32_t limit) {
    return rapyheo_close_at(list, RAPYHEO_LIST, last, records, RECORDS, coordinator, COORDINATOR, 1000, limit);
}

/* The order that is open at the last place, closed from there with each limit. It prepares, decides and finishes one line, and checks the other. */
static void closes(void) {
    const uint32_t limits[] = {0, 1, 2, 3, RAPYHEO_CLOSE_WRITES, 4294967295u}, writes[] = {0, 1, 2, 3, 3, 3};
    const uint32_t phases[] = {RAPYHEO_PREPARE, RAPYHEO_DECIDE, RAPYHEO_FINISH, RAPYHEO_DONE, RAPYHEO_DONE, RAPYHEO_DONE};
    const rapyheo_transaction opened = list[last];
    uint8_t first_records[RECORDS], first_coordinator[COORDINATOR];
    memcpy(first_records, records, RECORDS);
    memcpy(first_coordinator, coordinator, COORDINATOR);
    for (size_t i = 0; i < sizeof limits / sizeof *limits; i++) {
        list[last] = opened;
        memcpy(records, first_records, RECORDS);
        memcpy(coordinator, first_coordinator, COORDINATOR);
        expect("writes of a close", close_order(limits[i]), writes[i]);
        expect("the phase after it", list[last].phase, phases[i]);
        expect("the sheet after it", memcmp(records, first_records, RECORDS) != 0, writes[i] > 0);
    }
    expect("committed", list[last].verdict, RAPYHEO_COMMITTED);
    expect("closed before", close_order(RAPYHEO_CLOSE_WRITES), RAPYHEO_REFUSED + RAPYHEO_WRONG_PHASE);
    expect("and with no write", close_order(0), RAPYHEO_REFUSED + RAPYHEO_WRONG_PHASE);
}

static uint32_t lines[2] = {9, 9}, place[2];

/* Where a key of the first partition of a storage stands, or would stand, told in a target of this length. */
static uint32_t stands(uint32_t storage, uint32_t clustering, size_t length) {
    return rapyheo_rank(records, RECORDS, storage, 1, 1, 1, clustering, place, length);
}

/* What other sheets differ in from those here, as rapyheo_written has it. */
static uint32_t wrote(const uint8_t *other_records, size_t records_length, const uint8_t *other_coordinator, size_t coordinator_length) {
    return rapyheo_written(records, RECORDS, other_records, records_length, coordinator, COORDINATOR, other_coordinator, coordinator_length, lines, 2);
}

static void sheets(void) {
    uint8_t same_records[RECORDS], same_coordinator[COORDINATOR], other_records[RECORDS], other_coordinator[COORDINATOR];
    memcpy(same_records, records, RECORDS);
    memcpy(same_coordinator, coordinator, COORDINATOR);
    memcpy(other_records, records, RECORDS);
    memcpy(other_coordinator, coordinator, COORDINATOR);
    expect("found", rapyheo_lookup(records, RECORDS, 2, 1, 1, 1, 1), 1);
    expect("not found", rapyheo_lookup(records, RECORDS, 2, 1, 1, 1, 2), RAPYHEO_REFUSED + RAPYHEO_NO_SUCH_KEY);
    expect("no key", rapyheo_lookup(records, RECORDS, 2, 100, 1, 1, 2), RAPYHEO_REFUSED + RAPYHEO_BAD_KEY);
    expect("no sheet", rapyheo_lookup(records, 0, 2, 1, 1, 1, 2), RAPYHEO_REFUSED + RAPYHEO_BAD_RECORDS);
    expect("a line", stands(2, 1, 2), 0);
    expect("stands second", 10 * place[0] + place[1], 11);
    expect("a key without one", stands(1, 7, 2), 0);
    expect("would stand there too", 10 * place[0] + place[1], 10);
    expect("and another", stands(2, 0, 2), 0);
    expect("at the same place", 10 * place[0] + place[1], 10);
    expect("no key to stand", stands(0, 1, 2), RAPYHEO_REFUSED + RAPYHEO_BAD_KEY);
    expect("a target too short", stands(2, 7, 1), RAPYHEO_REFUSED + RAPYHEO_BAD_RECORDS);
    expect("is left", 10 * place[0] + place[1], 10);
    expect("nothing written", wrote(same_records, RECORDS, same_coordinator, COORDINATOR), RAPYHEO_WROTE_NOTHING);
    expect("no first line", lines[0] + lines[1], 0);
    other_records[RECORDS - 2] ^= 1;
    expect("a line written", wrote(other_records, RECORDS, same_coordinator, COORDINATOR), RAPYHEO_WROTE_LINES);
    expect("the second", 10 * lines[0] + lines[1], 11);
    other_records[0] ^= 1;
    other_coordinator[0] ^= 1;
    expect("both written", wrote(other_records, RECORDS, other_coordinator, COORDINATOR), RAPYHEO_WROTE_BOTH);
    expect("two lines", 10 * lines[0] + lines[1], 2);
    expect("the coordinator", wrote(same_records, RECORDS, other_coordinator, COORDINATOR), RAPYHEO_WROTE_COORDINATOR);
    expect("no line", lines[0] + lines[1], 0);
    lines[0] = 9;
    expect("other lengths", wrote(same_records, RECORDS - RAPYHEO_RECORD_BYTES, same_coordinator, 15), RAPYHEO_REFUSED + RAPYHEO_BAD_RECORDS);
    expect("other decisions", wrote(same_records, RECORDS, same_coordinator, 15), RAPYHEO_REFUSED + RAPYHEO_BAD_COORDINATOR);
    expect("no whole lines", rapyheo_written(records, 107, same_records, 107, coordinator, COORDINATOR, same_coordinator, 15, lines, 2),
           RAPYHEO_REFUSED + RAPYHEO_BAD_RECORDS);
    expect("one number", rapyheo_written(records, RECORDS, same_records, RECORDS, coordinator, COORDINATOR, same_coordinator, 15, lines, 1),
           RAPYHEO_REFUSED + RAPYHEO_BAD_RECORDS);
    expect("and the numbers stay", lines[0], 9);
    expect("spent", rapyheo_begin(records, RECORDS, coordinator, COORDINATOR), RAPYHEO_REFUSED + RAPYHEO_NUMBERS_SPENT);
}

/* A line for a key of the second storage, added to a sheet of so many bytes, and removed. */
static uint32_t add(uint8_t *sheet, size_t length, uint32_t name_space, uint32_t clustering) {
    return rapyheo_add(sheet, length, coordinator, COORDINATOR, 2, name_space, 1, 1, clustering);
}
static uint32_t remove_line(uint8_t *sheet, size_t length, uint32_t storage, uint32_t clustering) {
    return rapyheo_remove(sheet, length, coordinator, COORDINATOR, storage, 1, 1, 1, clustering);
}

static void lines_come_and_go(void) {
    uint8_t sheet[RECORDS], first[RECORDS], spared[RECORDS];
    const uint8_t *added = (const uint8_t *)" 2  1  1     1     0    ABSENT     0   0        0        0         -     0   0        0        0          0\n";
    memcpy(sheet, records, RECORDS);
    memcpy(first, records, RECORDS);
    memcpy(spared, records, RECORDS);
    memset(spared + RAPYHEO_RECORD_BYTES, ' ', RAPYHEO_RECORD_BYTES - 1);
    expect("a key that has a line", add(sheet, RECORDS, 1, 1), RAPYHEO_HAS_LINE);
    expect("no spare", add(sheet, RECORDS, 1, 0), RAPYHEO_NO_SPARE);
    expect("no key to add", add(sheet, RECORDS, 0, 0), RAPYHEO_BAD_KEY);
    expect("no whole lines to add to", add(sheet, RECORDS - 1, 1, 0), RAPYHEO_BAD_RECORDS);
    expect("no decisions", rapyheo_add(sheet, RECORDS, coordinator, 15, 2, 1, 1, 1, 0), RAPYHEO_BAD_COORDINATOR);
    expect("a COMMITTED line", remove_line(sheet, RECORDS, 1, 1), RAPYHEO_NOT_BLANK);
    expect("no line to remove", remove_line(sheet, RECORDS, 2, 0), RAPYHEO_NO_SUCH_KEY);
    expect("no key to remove", remove_line(sheet, RECORDS, 0, 0), RAPYHEO_BAD_KEY);
    expect("nothing changed", (uint32_t)memcmp(sheet, first, RECORDS), 0);
    expect("removed", remove_line(sheet, RECORDS, 2, 1), 0);
    expect("a spare came", (uint32_t)memcmp(sheet, spared, RECORDS), 0);
    expect("added again", add(sheet, RECORDS, 1, 1), 0);
    expect("as it was", (uint32_t)memcmp(sheet, first, RECORDS), 0);
    expect("to the spare", add(spared, RECORDS, 1, 0), 0);
    expect("the line", (uint32_t)memcmp(spared + RAPYHEO_RECORD_BYTES, added, RAPYHEO_RECORD_BYTES), 0);
    expect("the other stays", (uint32_t)memcmp(spared, first, RAPYHEO_RECORD_BYTES), 0);
}

/* Sheets as they were before lines had a before state: 54 of those lines are as long as 49 of today's. */
static void lines_of_98_bytes(void) {
    enum { OLD = 98, OLD_LINES = 54 };
    static uint8_t old[OLD * OLD_LINES];
    for (int i = 0; i < OLD_LINES; i++) {
        char line[OLD + 1];
        snprintf(line, sizeof line, " 1  1  1     1%6d    ABSENT     0   0        0        0     0   0        0        0          0\n", i);
        memcpy(old + i * OLD, line, OLD);
    }
    expect("of a length that fits", sizeof old, 49 * RAPYHEO_RECORD_BYTES);
    expect("are refused", rapyheo_check(old, sizeof old, coordinator, COORDINATOR), RAPYHEO_BAD_RECORDS);
    expect("one of them too", rapyheo_check(old, OLD, coordinator, COORDINATOR), RAPYHEO_BAD_RECORDS);
}

static void header(void) {
    const char *none = rapyheo_refusal_text(0);
    expect("version", rapyheo_version(), RAPYHEO_VERSION);
    expect("no refusal", strcmp(none, "no such refusal") == 0, 1);
    for (uint32_t n = 1; n <= RAPYHEO_NOT_BLANK; n++) {
        expect("a text", strcmp(rapyheo_refusal_text(n), none) != 0, 1);
        expect("of its own", strcmp(rapyheo_refusal_text(n), rapyheo_refusal_text(n - 1)) != 0, 1);
        expect("of the answer too", strcmp(rapyheo_refusal_text(RAPYHEO_REFUSED + n), rapyheo_refusal_text(n)) == 0, 1);
    }
    for (uint32_t i = 0; i < 4; i++) {
        const uint32_t others[] = {17, 1000, 1017, 4294967295u};
        expect("no other text", strcmp(rapyheo_refusal_text(others[i]), none) == 0, 1);
    }
}

int main(void) {
    lines_of_98_bytes();
    lines_come_and_go();
    by_place();
    closes();
    sheets();
    header();
    printf("edges: %d cases, %d wrong\n", cases, wrong);
    return wrong != 0;
}
