/* A client that is killed. It keeps both sheets in a file and closes an order over two stores, by advances or write by write, and kills itself by
 * SIGKILL just after a call, before what the call wrote is saved or after it. Every such point of the order is tried, and with each of them
 * every point of the recovery, which is killed too and begun anew. In the end no line is PREPARED, and all lines are old or all are new. Both must
 * have been seen.
 *
 * killed FILE: the file is made or overwritten. */
#define _POSIX_C_SOURCE 200809L
#include <signal.h>
#include <stdio.h>
#include <stdlib.h>
#include <string.h>
#include <sys/wait.h>
#include <unistd.h>

#include "rapyheo.h"

enum { LINES = 3, NUMBERS = 2, RECORDS = LINES * RAPYHEO_RECORD_BYTES, COORDINATOR = (1 + NUMBERS) * RAPYHEO_COORDINATOR_BYTES };
enum { NOW = 1000, LATER = NOW + 15000, NEVER = -1, STATE = 5, COLUMN1 = 8 };
enum { OLD, NEW, MIXED, OUTCOMES, KILLED, FAILED };

static const char first_sheets[RECORDS + COORDINATOR + 1] =
    " 1  1  1     1     1 COMMITTED     1   0      500      250         -     0   0        0        0          0\n"
    " 2  1  1     1     1 COMMITTED     4   0      900        0         -     0   0        0        0          0\n"
    " 2  1  1     1     2    ABSENT     0   0        0        0         -     0   0        0        0          0\n"
    "   0 SSSSSSSSS\n"
    "   1         -\n"
    "   2         -\n";

static const rapyheo_key keys[LINES] = {{1, 1, 1, 1, 1}, {2, 1, 1, 1, 1}, {2, 1, 1, 1, 2}};
static const uint32_t old_columns[LINES] = {500, 900, 0}, new_columns[LINES] = {499, 950, 1};

/* Both sheets as a process has them in memory, and as it last loaded or saved them. */
static uint8_t sheets[RECORDS + COORDINATOR], saved[RECORDS + COORDINATOR];
static uint8_t *const records = sheets, *const coordinator = sheets + RECORDS;

static const char *path;
static char path_new[4096];
static int points_left;

static void need(int holds, const char *what) {
    if (holds)
        return;
    fprintf(stderr, "killed: %s\n", what);
    exit(FAILED); /* no outcome of a child */
}

static void point(void) {
    if (points_left-- == 0)
        raise(SIGKILL);
}

/* The file is the old one or the new one, whole: a rename is atomic. (A client that must outlive the machine too calls fsync before it.) */
static void save(void) {
    FILE *file = fopen(path_new, "wb");
    need(file != NULL && fwrite(sheets, sizeof sheets, 1, file) == 1 && fclose(file) == 0, "can't write");
    need(rename(path_new, path) == 0, "can't rename");
    memcpy(saved, sheets, sizeof sheets);
}

static void load(void) {
    FILE *file = fopen(path, "rb");
    need(file != NULL && fread(sheets, sizeof sheets, 1, file) == 1 && fclose(file) == 0, "can't read");
    memcpy(saved, sheets, sizeof sheets);
}

/* After a call: what it wrote is saved, if it wrote anything, with a point on either side. */
static void called(uint32_t answer) {
    uint32_t lines[2];
    need(answer < RAPYHEO_REFUSED, rapyheo_refusal_text(answer));
    const uint32_t wrote = rapyheo_written(saved, RECORDS, records, RECORDS, saved + RECORDS, COORDINATOR, coordinator, COORDINATOR, lines, 2);
    need(wrote < RAPYHEO_WROTE_BOTH, "a call wrote to both sheets");
    point();
    if (wrote != RAPYHEO_WROTE_NOTHING) {
        save();
        point();
    }
}

static int order(int by_advances) {
    rapyheo_transaction list[1];
    memset(list, 0, sizeof list);
    called(rapyheo_begin_at(list, 1, 0, records, RECORDS, coordinator, COORDINATOR, 0));
    for (size_t i = 0; i < LINES; i++) {
        const rapyheo_columns columns = {new_columns[i], 7};
        called(rapyheo_read_at(list, 1, 0, records, RECORDS, coordinator, COORDINATOR, keys[i], NOW));
        called(rapyheo_put_at(list, 1, 0, records, RECORDS, coordinator, COORDINATOR, keys[i], columns));
    }
    while (list[0].phase != RAPYHEO_DONE)
        called(by_advances ? rapyheo_advance_at(list, 1, 0, records, RECORDS, coordinator, COORDINATOR, NOW)
                           : rapyheo_close_at(list, 1, 0, records, RECORDS, coordinator, COORDINATOR, NOW, 1));
    return list[0].verdict == RAPYHEO_COMMITTED ? NEW : MIXED;
}

static int by_advances(void) { return order(1); }
static int write_by_write(void) { return order(0); }

/* How many lines have these columns 1 and are not PREPARED. */
static int lines_with(const uint32_t *columns) {
    uint32_t rows[LINES * RAPYHEO_RECORD_NUMBERS];
    int count = 0;
    need(rapyheo_read_records(records, RECORDS, rows, LINES * RAPYHEO_RECORD_NUMBERS) == 0, "bad records");
    for (size_t i = 0; i < LINES; i++) {
        const uint32_t *row = rows + i * RAPYHEO_RECORD_NUMBERS;
        count += row[STATE] != RAPYHEO_STATE_PREPARED && row[COLUMN1] == columns[i];
    }
    return count;
}

static int outcome(void) {
    need(rapyheo_check(records, RECORDS, coordinator, COORDINATOR) == 0, "sheets that the check refuses");
    return lines_with(old_columns) == LINES ? OLD : lines_with(new_columns) == LINES ? NEW : MIXED;
}

/* Every line is visited until its visit says that it stays. */
static int recovery(void) {
    for (size_t i = 0; i < LINES; i++) {
        uint32_t answer;
        do {
            answer = rapyheo_visit(records, RECORDS, coordinator, COORDINATOR, keys[i].storage, keys[i].name_space, keys[i].table,
                                   keys[i].partition, keys[i].clustering, LATER);
            called(answer);
        } while (answer != RAPYHEO_STAYS);
    }
    return outcome();
}

/* A job in a process of its own, which has the file only, up to so many points: what it came to, or that it was killed. */
static int run(int (*job)(void), int points) {
    const pid_t child = fork();
    need(child >= 0, "can't fork");
    if (child == 0) {
        points_left = points;
        load();
        _exit(job());
    }
    int status;
    need(waitpid(child, &status, 0) == child, "can't wait");
    if (WIFSIGNALED(status) && WTERMSIG(status) == SIGKILL)
        return KILLED;
    need(WIFEXITED(status) && WEXITSTATUS(status) < OUTCOMES, "a process failed");
    return WEXITSTATUS(status);
}

/* The first sheets, the order killed at one point and its recovery at another, and a last one that nobody kills. */
static int one_try(int (*order)(void), int at, int recovery_at, int *order_ended, int *recovery_ended) {
    memcpy(sheets, first_sheets, sizeof sheets);
    save();
    const int ended = run(order, at);
    need(ended == KILLED || ended == NEW, "the order was not committed");
    *order_ended = ended != KILLED;
    *recovery_ended = run(recovery, recovery_at) != KILLED;
    const int came_to = run(recovery, NEVER);
    need(came_to == NEW || ended == KILLED, "an order that was done is lost");
    return came_to;
}

int main(int argc, char **argv) {
    int tries = 0, seen[OUTCOMES] = {0, 0, 0};
    need(argc == 2, "one file is named");
    path = argv[1];
    need((size_t)snprintf(path_new, sizeof path_new, "%s.new", path) < sizeof path_new, "the file's name is too long");
    for (int kind = 0; kind < 2; kind++)
        for (int at = 0, done = 0; !done; at++)
            for (int recovery_at = 0, recovered = 0; !recovered; recovery_at++, tries++)
                seen[one_try(kind == 0 ? by_advances : write_by_write, at, recovery_at, &done, &recovered)]++;
    printf("killed client: %d tries, %d times all old, %d times all new, %d times mixed\n", tries, seen[OLD], seen[NEW], seen[MIXED]);
    return seen[MIXED] == 0 && seen[OLD] > 0 && seen[NEW] > 0 ? EXIT_SUCCESS : EXIT_FAILURE;
}
