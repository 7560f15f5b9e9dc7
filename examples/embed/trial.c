/* trial: calls that are wrong, handles that move, and calls made again after out of memory. It prints what was wrong, and ends with status 1. */
#include "bohm.h"
#include <pthread.h>
#include <stdio.h>
#include <stdlib.h>
#include <string.h>

static uint8_t out[64];
static size_t used, made;
static int wrong;

static void expect(int holds, const char *what) {
    if (holds) return;
    wrong = 1;
    fprintf(stderr, "trial: %s\n", what);
}

static int32_t step(bohm *b, const char *log, size_t room) {
    memset(out, '#', sizeof out);
    used = made = 99;
    return bohm_step(b, (const uint8_t *)log, strlen(log), out, room, &used, &made);
}

static int32_t finish(bohm *b) {
    memset(out, '#', sizeof out);
    used = 0;
    made = 99;
    return bohm_finish(b, out, sizeof out, &made);
}

/* Whether the last call used so many bytes, wrote this text and touched nothing after it. */
static int gave(size_t count, const char *text) {
    for (size_t at = strlen(text); at < sizeof out; at++)
        if (out[at] != '#') return 0;
    return used == count && made == strlen(text) && memcmp(out, text, made) == 0;
}

static int32_t explain(bohm *b, uint64_t place, size_t room) {
    memset(out, '#', sizeof out);
    used = 0;
    made = 99;
    return bohm_explain(b, place, out, room, &made);
}

static int32_t rows(bohm *b, const char *table, size_t room) {
    memset(out, '#', sizeof out);
    used = 0;
    made = 99;
    return bohm_rows(b, (const uint8_t *)table, strlen(table), out, room, &made);
}

static int32_t holders(bohm *b, const char *kind, const char *table, size_t room) {
    memset(out, '#', sizeof out);
    used = 0;
    made = 99;
    return bohm_holders(b, (const uint8_t *)kind, strlen(kind), (const uint8_t *)table, strlen(table), out, room, &made);
}

static void try_closed(bohm *b, const char *what) {
    expect(step(b, "a CREATE t 1\n", sizeof out) == BOHM_CLOSED && gave(0, ""), what);
    expect(finish(b) == BOHM_CLOSED && gave(0, ""), what);
    expect(bohm_lines(b) == 0 && bohm_places(b) == 0, what);
    expect(bohm_set(b, BOHM_KEEP, 1) == BOHM_CLOSED, what);
    expect(explain(b, 0, sizeof out) == BOHM_CLOSED && gave(0, ""), what);
    expect(rows(b, "", sizeof out) == BOHM_CLOSED && gave(0, ""), what);
    expect(holders(b, "READ", "t", sizeof out) == BOHM_CLOSED && gave(0, ""), what);
    bohm_close(b);
    expect(!b->is_open, what);
}

static void *feed_elsewhere(void *handle) {
    expect(step(handle, "ATE u 1\n", sizeof out) == BOHM_DONE && gave(8, "1 created\n"), "a handle that has moved, on another thread");
    return NULL;
}

static void try_misuse(void) {
    bohm first = BOHM_CLOSED_HANDLE, b = BOHM_CLOSED_HANDLE, other = BOHM_CLOSED_HANDLE;
    pthread_t thread;
    try_closed(&first, "a handle of zero bytes");
    expect(bohm_open(&first) == BOHM_DONE && bohm_open(&other) == BOHM_DONE, "open");
    expect(step(&first, "a CREATE t 1\na CRE", sizeof out) == BOHM_DONE && gave(18, "0 created\n"), "step");
    expect(bohm_open(&first) == BOHM_OPENED, "open of an open handle");
    memcpy(&b, &first, sizeof b);
    memset(&first, 0, sizeof first);
    if (pthread_create(&thread, NULL, feed_elsewhere, &b) == 0) pthread_join(thread, NULL);
    expect(step(&other, "a CREATE v 1\n", sizeof out) == BOHM_DONE && gave(13, "0 created\n"), "a second run beside it");
    expect(step(&b, "", 0) == BOHM_DONE && gave(0, ""), "no input and no room");
    expect(step(&b, "\n\n", 0) == BOHM_DONE && gave(2, ""), "no room");
    expect(step(&b, "\n", 4) == BOHM_DONE && gave(0, "line"), "little room");
    expect(bohm_lines(&b) == 4 && bohm_places(&b) == 2, "lines and places");
    expect(finish(&b) == BOHM_DONE && used == 0 && made > 0 && out[made - 1] == '\n', "finish");
    expect(step(&b, "a CREATE w 1\n", sizeof out) == BOHM_ENDED && gave(0, ""), "step after finish");
    expect(finish(&b) == BOHM_DONE && gave(0, ""), "finish after finish");
    bohm_close(&b);
    try_closed(&b, "a handle that was closed");
    expect(bohm_open(&b) == BOHM_DONE && bohm_lines(&b) == 0, "open of a handle that was closed");
    expect(step(&b, "a CREATE t 1\n", sizeof out) == BOHM_DONE && gave(13, "0 created\n"), "a new run");
    bohm_close(&b);
    bohm_close(&other);
}

/* Of so many places, and with so many to be kept, the last are explained, and how many of the others are isn't told. */
static void try_kept(uint64_t keep, uint64_t places) {
    bohm b = BOHM_CLOSED_HANDLE;
    char text[64];
    expect(bohm_open(&b) == BOHM_DONE && bohm_set(&b, BOHM_KEEP, keep) == BOHM_DONE, "keep");
    expect(step(&b, "a CREATE t 1\n", sizeof out) == BOHM_DONE, "keep");
    for (uint64_t place = 1; place < places; place++) expect(step(&b, "a RUN t:1:R\n", sizeof out) == BOHM_DONE, "keep");
    for (uint64_t place = 1; place < places; place++) {
        int32_t status = explain(&b, place, sizeof out);
        snprintf(text, sizeof text, "%llu done\nneed READ t owner\n", (unsigned long long)place);
        expect((status == BOHM_DONE && gave(0, text)) || (status == BOHM_FORGOTTEN && gave(0, "") && place + keep < places), "what is kept");
        if (keep == 0 && places > 128 && place == 1) expect(status == BOHM_FORGOTTEN, "what isn't kept");
    }
    bohm_close(&b);
}

static void try_explanations(void) {
    bohm b = BOHM_CLOSED_HANDLE;
    expect(bohm_open(&b) == BOHM_DONE, "open");
    expect(bohm_set(&b, 0, 1) == BOHM_OPTION && bohm_set(&b, 77, 1) == BOHM_OPTION, "no such option");
    expect(bohm_set(&b, BOHM_KEEP, UINT64_MAX) == BOHM_DONE && bohm_set(&b, BOHM_KEEP, 100) == BOHM_DONE, "an option");
    expect(explain(&b, 0, sizeof out) == BOHM_NO_PLACE && gave(0, ""), "a place of no line");
    expect(step(&b, "a", sizeof out) == BOHM_DONE, "a byte");
    expect(bohm_set(&b, BOHM_KEEP, 1) == BOHM_BEGUN && bohm_set(&b, 77, 1) == BOHM_OPTION, "an option once the log has begun");
    expect(step(&b, " CREATE t 1\nb RUN t:0:R\n", sizeof out) == BOHM_DONE && used == 24, "step");
    expect(explain(&b, 1, sizeof out) == BOHM_DONE && gave(0, "1 denied READ t never\nneed READ t never\n"), "an explanation");
    size_t whole = made;
    expect(explain(&b, 1, whole) == BOHM_DONE && made == whole, "as much room as is needed");
    expect(explain(&b, 1, whole - 1) == BOHM_ROOM && made == whole && out[0] == '#', "too little room");
    expect(explain(&b, 1, 0) == BOHM_ROOM && made == whole && out[0] == '#', "no room");
    expect(explain(&b, 2, sizeof out) == BOHM_NO_PLACE && explain(&b, UINT64_MAX, sizeof out) == BOHM_NO_PLACE, "the next place");
    expect(finish(&b) == BOHM_DONE && bohm_set(&b, BOHM_KEEP, 1) == BOHM_BEGUN, "an option once the log has ended");
    expect(explain(&b, 1, sizeof out) == BOHM_DONE, "an explanation after the end");
    bohm_close(&b);
    try_kept(0, 300);
    try_kept(1, 300);
    try_kept(100, 1000);
    try_kept(UINT64_MAX, 1000);
}

static void try_rows(void) {
    bohm b = BOHM_CLOSED_HANDLE;
    expect(bohm_open(&b) == BOHM_DONE, "open");
    expect(rows(&b, "", sizeof out) == BOHM_DONE && gave(0, ""), "the rows of no line");
    expect(rows(&b, "t", sizeof out) == BOHM_NO_TABLE && gave(0, ""), "a table of no line");
    expect(step(&b, "a CREATE t 1\na CREATE u 2\na CREATE v", sizeof out) == BOHM_DONE && used == 36, "step");
    expect(rows(&b, "t", sizeof out) == BOHM_DONE && gave(0, ""), "a table without rows");
    expect(rows(&b, "v", sizeof out) == BOHM_NO_TABLE && gave(0, ""), "a table of a line that has begun");
    expect(rows(&b, "a", sizeof out) == BOHM_NO_TABLE && rows(&b, "\xff", sizeof out) == BOHM_NO_TABLE && gave(0, ""), "what is no table");
    expect(step(&b, " 1\na RUN u:3:I | CONST 0 5 | INSERT u 3 0 0\na RUN t:1:I | INSERT t 1 0\n", sizeof out) == BOHM_DONE, "step");
    expect(rows(&b, "", sizeof out) == BOHM_DONE && gave(0, "t:1 0\nu:3 5 5\n"), "all rows");
    expect(rows(&b, "u", sizeof out) == BOHM_DONE && gave(0, "u:3 5 5\n"), "the rows of a table");
    size_t whole = made;
    expect(rows(&b, "u", whole) == BOHM_DONE && made == whole, "as much room as is needed");
    expect(rows(&b, "u", whole - 1) == BOHM_ROOM && made == whole && out[0] == '#', "too little room");
    expect(rows(&b, "u", 0) == BOHM_ROOM && made == whole && out[0] == '#', "no room");
    expect(step(&b, "a RUN u:3:D | DELETE u 3", sizeof out) == BOHM_DONE, "step");
    expect(rows(&b, "u", sizeof out) == BOHM_DONE && gave(0, "u:3 5 5\n"), "the rows where a line has begun");
    expect(finish(&b) == BOHM_DONE && rows(&b, "u", sizeof out) == BOHM_DONE && gave(0, ""), "the rows after the end");
    bohm_close(&b);
}

static void try_holders(void) {
    bohm b = BOHM_CLOSED_HANDLE;
    expect(bohm_open(&b) == BOHM_DONE, "open");
    expect(holders(&b, "READ", "t", sizeof out) == BOHM_NO_TABLE && gave(0, ""), "holders on a table of no line");
    expect(holders(&b, "WRITE", "t", sizeof out) == BOHM_NO_KIND && gave(0, ""), "holders of no kind on a table of no line");
    expect(step(&b, "a CREATE t 1\na GRANT READ t b OPTION\na GRANT INSERT t PUBLIC\nb GRANT READ t c", sizeof out) == BOHM_DONE, "step");
    expect(holders(&b, "READ", "t", sizeof out) == BOHM_DONE && gave(0, "a owner\nb option grants 1\nb grants 1\n"), "holders where a line has begun");
    size_t whole = made;
    expect(holders(&b, "READ", "t", whole) == BOHM_DONE && made == whole, "as much room as is needed");
    expect(holders(&b, "READ", "t", whole - 1) == BOHM_ROOM && made == whole && out[0] == '#', "too little room");
    expect(holders(&b, "READ", "t", 0) == BOHM_ROOM && made == whole && out[0] == '#', "no room");
    expect(holders(&b, "INSERT", "t", sizeof out) == BOHM_DONE && gave(0, "a owner\nPUBLIC grants 2\n"), "holders where PUBLIC is one");
    expect(holders(&b, "UPDATE", "t", sizeof out) == BOHM_DONE && gave(0, "a owner\n"), "holders of UPDATE");
    expect(holders(&b, "DELETE", "t", sizeof out) == BOHM_DONE && gave(0, "a owner\n"), "holders of DELETE");
    const char *words[] = {"", "read", "READ,INSERT", "READS", "PUBLIC", "\xff"};
    for (size_t at = 0; at < sizeof words / sizeof *words; at++)
        expect(holders(&b, words[at], "t", sizeof out) == BOHM_NO_KIND && gave(0, ""), "what is no kind");
    const char *names[] = {"", "T", "a", "tt", "\xff"};
    for (size_t at = 0; at < sizeof names / sizeof *names; at++)
        expect(holders(&b, "READ", names[at], sizeof out) == BOHM_NO_TABLE && gave(0, ""), "what is no table");
    expect(finish(&b) == BOHM_DONE && holders(&b, "READ", "t", sizeof out) == BOHM_DONE, "holders after the end");
    expect(gave(0, "a owner\nb option grants 1\nb grants 1\nc grants 1 3\n"), "holders after the end");
    bohm_close(&b);
}

static void try_texts(void) {
    uint8_t none[64], text[64];
    size_t length = bohm_status_text(77, none, sizeof none);
    expect(bohm_status_text(-1, text, sizeof text) == length && memcmp(text, none, length) == 0, "the text of no status");
    for (int32_t status = BOHM_DONE; status <= BOHM_NO_KIND; status++) {
        size_t whole = bohm_status_text(status, text, sizeof text);
        expect(whole > 3 && (whole != length || memcmp(text, none, length) != 0), "the text of a status");
        memset(none + 32, '#', 32);
        expect(bohm_status_text(status, none + 32, 3) == whole && none[35] == '#' && memcmp(none + 32, text, 3) == 0, "a text with room for 3");
        expect(bohm_status_text(status, none + 32, 0) == whole, "a text with no room");
    }
    expect(bohm_version() / 100 == BOHM_VERSION / 100, "the version");
}

/* Writes the report of a log, by calls that are made again after out of memory. */
static void report_again(void) {
    static uint8_t input[100], room[7];
    size_t count;
    int32_t status;
    bohm b = BOHM_CLOSED_HANDLE;
    while ((status = bohm_open(&b)) == BOHM_MEMORY) expect(!b.is_open, "open when out of memory");
    expect(status == BOHM_DONE, "open");
    while ((count = fread(input, 1, sizeof input, stdin)) > 0)
        for (size_t at = 0; at < count; at += used) {
            status = bohm_step(&b, input + at, count - at, room, sizeof room, &used, &made);
            fwrite(room, 1, made, stdout);
            expect(status == BOHM_DONE || status == BOHM_MEMORY, "step");
            if (status == BOHM_DONE) continue;
            status = bohm_rows(&b, input, 0, room, 0, &made);
            expect(status == BOHM_DONE || status == BOHM_ROOM || status == BOHM_WAITING, "rows when out of memory");
            status = bohm_holders(&b, (const uint8_t *)"READ", 4, (const uint8_t *)"t", 1, room, 0, &made);
            expect(status == BOHM_ROOM || status == BOHM_NO_TABLE || status == BOHM_WAITING, "holders when out of memory");
        }
    do {
        status = bohm_finish(&b, room, sizeof room, &made);
        fwrite(room, 1, made, stdout);
        expect(status == BOHM_DONE || status == BOHM_MEMORY, "finish");
    } while (status == BOHM_MEMORY || made == sizeof room);
    while ((status = bohm_rows(&b, input, 0, room, 0, &made)) == BOHM_MEMORY) expect(made == 0, "rows when out of memory");
    expect(status == BOHM_DONE || (status == BOHM_ROOM && made > 0), "rows");
    while ((status = bohm_holders(&b, (const uint8_t *)"READ", 4, (const uint8_t *)"t", 1, room, 0, &made)) == BOHM_MEMORY)
        expect(made == 0, "holders when out of memory");
    expect(status == BOHM_ROOM && made > 0, "holders");
    bohm_close(&b);
}

/* Writes the explanation of each place of a log. */
static void explain_all(void) {
    static uint8_t input[1 << 16], room[1 << 16];
    size_t count;
    bohm b = BOHM_CLOSED_HANDLE;
    expect(bohm_open(&b) == BOHM_DONE && bohm_set(&b, BOHM_KEEP, UINT64_MAX) == BOHM_DONE, "open");
    while ((count = fread(input, 1, sizeof input, stdin)) > 0)
        for (size_t at = 0; at < count; at += used)
            expect(bohm_step(&b, input + at, count - at, room, sizeof room, &used, &made) == BOHM_DONE, "step");
    expect(bohm_finish(&b, room, sizeof room, &made) == BOHM_DONE, "finish");
    for (uint64_t place = 0; place < bohm_places(&b); place++) {
        expect(bohm_explain(&b, place, room, sizeof room, &made) == BOHM_DONE, "an explanation");
        fwrite(room, 1, made, stdout);
    }
    bohm_close(&b);
}

static uint8_t listed[1 << 16];

/* Takes a log to its end. */
static void take_all(bohm *b) {
    static uint8_t input[1 << 16];
    size_t count;
    expect(bohm_open(b) == BOHM_DONE, "open");
    while ((count = fread(input, 1, sizeof input, stdin)) > 0)
        for (size_t at = 0; at < count; at += used)
            expect(bohm_step(b, input + at, count - at, listed, sizeof listed, &used, &made) == BOHM_DONE, "step");
    expect(bohm_finish(b, listed, sizeof listed, &made) == BOHM_DONE, "finish");
}

/* Writes the rows at the end of a log: of all tables, or of one. */
static void list_rows(const char *table) {
    bohm b = BOHM_CLOSED_HANDLE;
    take_all(&b);
    expect(bohm_rows(&b, (const uint8_t *)table, strlen(table), listed, sizeof listed, &made) == BOHM_DONE, "rows");
    fwrite(listed, 1, made, stdout);
    bohm_close(&b);
}

/* Writes who holds each kind on a table at the end of a log. */
static void list_holders(const char *table) {
    static const char *kinds[] = {"READ", "INSERT", "UPDATE", "DELETE"};
    bohm b = BOHM_CLOSED_HANDLE;
    take_all(&b);
    for (size_t at = 0; at < sizeof kinds / sizeof *kinds; at++) {
        const uint8_t *kind = (const uint8_t *)kinds[at], *name = (const uint8_t *)table;
        expect(bohm_holders(&b, kind, strlen(kinds[at]), name, strlen(table), listed, sizeof listed, &made) == BOHM_DONE, "holders");
        fwrite(listed, 1, made, stdout);
    }
    bohm_close(&b);
}

/* trial again: a log on standard input to its report; trial explain: to the explanations of its places; trial rows [TABLE]: to the rows at
 * its end; trial holders TABLE: to who holds each kind on a table there. trial: the rest. */
int main(int argc, char **argv) {
    if (argc > 1 && strcmp(argv[1], "rows") == 0) {
        list_rows(argc > 2 ? argv[2] : "");
        return fflush(stdout) != 0 || wrong;
    }
    if (argc > 2 && strcmp(argv[1], "holders") == 0) {
        list_holders(argv[2]);
        return fflush(stdout) != 0 || wrong;
    }
    if (argc > 1 && strcmp(argv[1], "explain") == 0) {
        explain_all();
        return fflush(stdout) != 0 || wrong;
    }
    if (argc > 1 && strcmp(argv[1], "again") == 0) {
        report_again();
        return fflush(stdout) != 0 || wrong;
    }
    try_misuse();
    try_explanations();
    try_rows();
    try_holders();
    try_texts();
    return wrong;
}
