/* bohm.h: a deterministic transaction executor in your own process. Bytes of a log go in, bytes of its report come out.
 *
 *   bohm b = BOHM_CLOSED_HANDLE;
 *   bohm_open(&b);
 *   for each piece of the log: call bohm_step until the piece is used, and write out what it made
 *   call bohm_finish until it makes less than there was room for, and write out what it made
 *   bohm_close(&b);
 *
 * The report is the same bytes however the log is cut into pieces, and however little room there is.
 *
 * Ownership. The handle is yours: one of zero bytes is closed. Keep it where you like and move it, but never use a copy of it. What it
 * keeps is allocated by malloc and freed by bohm_close. Input and output are your buffers; no call keeps a pointer to them.
 * Pointers. None may be NULL, not even for no bytes, and no two that a call writes through may overlap each other or the input.
 * Threads. A handle takes one call at a time, from any thread, if calls are ordered by a lock or a join. Two handles share nothing. No
 * call starts a thread, waits, prints, or reads a clock or a file. Don't call from a signal handler, nor in the child of a fork of a
 * process that has threads.
 * Errors. A call returns BOHM_DONE or says what was wrong. A misuse (BOHM_CLOSED, BOHM_OPENED, BOHM_ENDED,
 * BOHM_BEGUN, BOHM_OPTION, BOHM_NO_PLACE, BOHM_FORGOTTEN, BOHM_ROOM, BOHM_NO_TABLE, BOHM_WAITING, BOHM_NO_KIND) changes nothing. After
 * BOHM_MEMORY *used and *made are set, the report so far ends in a whole line, and nothing is lost: call again with the rest, or close the
 * handle.
 */
#ifndef BOHM_H
#define BOHM_H
#include <stdbool.h>
#include <stddef.h>
#include <stdint.h>
#ifdef __cplusplus
extern "C" {
#endif

#define BOHM_VERSION 100u /* major * 10000 + minor * 100 + patch: 0.1.0 */

typedef struct bohm {
    void *run; /* not yours to read or write */
    bool is_open;
} bohm;

#define BOHM_CLOSED_HANDLE { 0, false }

enum {
    BOHM_DONE = 0,
    BOHM_MEMORY = 1, /* out of memory */
    BOHM_FULL = 2,   /* there are as many lines as can be counted */
    BOHM_CLOSED = 3, /* the handle is closed */
    BOHM_OPENED = 4, /* bohm_open: it is open already */
    BOHM_ENDED = 5,  /* bohm_step: bohm_finish was called before */
    BOHM_BEGUN = 6,  /* bohm_set: bytes were given before, or the log was ended */
    BOHM_OPTION = 7, /* bohm_set: there is no such option */
    BOHM_NO_PLACE = 8,  /* bohm_explain: no such place was reported yet */
    BOHM_FORGOTTEN = 9, /* bohm_explain: the statement of the place isn't kept */
    BOHM_ROOM = 10,     /* bohm_explain, bohm_rows, bohm_holders: there is too little room; *made says how many bytes are needed */
    BOHM_NO_TABLE = 11, /* bohm_rows, bohm_holders: no accepted statement creates the table */
    BOHM_WAITING = 12,  /* bohm_rows, bohm_holders: lines wait to be run, after BOHM_MEMORY or BOHM_FULL: make that call again first */
    BOHM_NO_KIND = 13   /* bohm_holders: the word isn't READ, INSERT, UPDATE or DELETE */
};

enum { BOHM_KEEP = 1 }; /* of how many of the last places bohm_explain can tell at least; 0 where it isn't set */

/* The version of the library, as BOHM_VERSION is that of the header. They fit where all but the last two digits are the same. */
uint32_t bohm_version(void);

/* Opens a closed handle, with no row, no table and no grant. DONE, MEMORY (it stays closed), OPENED. */
int32_t bohm_open(bohm *handle);

/* Sets an option, before the first byte is given. DONE, CLOSED, BEGUN, OPTION. */
int32_t bohm_set(bohm *handle, uint32_t option, uint64_t value);

/* Takes bytes of the log from input, *used of them, and writes bytes of the report to out, *made of them. It returns once all of input is
 * used or out is full, so where *used < input_len, *made is out_len: call again with the rest. Lines are run up to 64 at once,
 * and their lines of the report are made before more is used. DONE, MEMORY, FULL, CLOSED, ENDED. */
int32_t bohm_step(bohm *handle, const uint8_t *input, size_t input_len, uint8_t *out, size_t out_len, size_t *used, size_t *made);

/* Ends the log: bytes after its last LF are a line too. Writes the rest of the report to out; where *made is below
 * out_len, that was all and the report is whole. Call it again while it fills out. DONE, MEMORY, FULL, CLOSED. */
int32_t bohm_finish(bohm *handle, uint8_t *out, size_t out_len, size_t *made);

/* How many lines were reported, with the heading of version 2, which has no line of the report; and how many statements were accepted,
 * which is the next place. 0 where the handle is closed. */
uint64_t bohm_lines(bohm *handle);
uint64_t bohm_places(bohm *handle);

/* Writes to out why the statement of a place was admitted or denied, as `bohm explain` does. DONE, MEMORY (the run goes on), CLOSED,
 * NO_PLACE, FORGOTTEN, ROOM. */
int32_t bohm_explain(bohm *handle, uint64_t place, uint8_t *out, size_t out_len, size_t *made);

/* Writes to out the rows that are there after the bohm_places() places so far, of the table of a name, or of all where table_len is 0, as
 * `bohm rows` does: a line that has begun and lines still to come don't count. A name that isn't UTF-8 is that of no table. The work is
 * that of all rows that are there. DONE, MEMORY (the run goes on), CLOSED, ROOM, NO_TABLE, WAITING. */
int32_t bohm_rows(bohm *handle, const uint8_t *table, size_t table_len, uint8_t *out, size_t out_len, size_t *made);

/* Writes to out who holds the kind that a word names, READ, INSERT, UPDATE or DELETE, on the table of a name, after the bohm_places() places so
 * far, as `bohm holders` does. The work is a pass over all grants, and a path for each line. DONE, MEMORY (the run goes on), CLOSED, ROOM,
 * NO_KIND, NO_TABLE, WAITING. */
int32_t bohm_holders(bohm *handle, const uint8_t *kind, size_t kind_len, const uint8_t *table, size_t table_len, uint8_t *out,
                     size_t out_len, size_t *made);

/* Writes the English of a status to out, at most out_len bytes and no NUL, and returns how many bytes it has in all. */
size_t bohm_status_text(int32_t status, uint8_t *out, size_t out_len);

/* Frees what the handle keeps, and leaves it closed; a closed one stays closed. Bytes of the report that wait are dropped. */
void bohm_close(bohm *handle);

#ifdef __cplusplus
}
#endif
#endif
