/* report: reads a log on standard input and writes its report to standard output. */
#include "bohm.h"
#include <stdio.h>
#include <stdlib.h>

static uint8_t input[1 << 18], out[1 << 18];

static void check(int32_t status) {
    if (status == BOHM_DONE) return;
    fflush(stdout);
    size_t length = bohm_status_text(status, out, sizeof out);
    fprintf(stderr, "bohm: %.*s\n", (int)length, (const char *)out);
    exit(1);
}

static void put(size_t count) {
    if (fwrite(out, 1, count, stdout) != count) exit(1);
}

/* report [IN [OUT]]: IN bytes of the log at a time, with room for OUT bytes of the report, each from 1 to 262144. */
int main(int argc, char **argv) {
    size_t most_in = argc > 1 ? strtoul(argv[1], 0, 10) : sizeof input;
    size_t room = argc > 2 ? strtoul(argv[2], 0, 10) : sizeof out;
    size_t count, used, made;
    if (most_in < 1 || most_in > sizeof input || room < 1 || room > sizeof out) return 2;
    bohm b = BOHM_CLOSED_HANDLE;
    check(bohm_open(&b));
    while ((count = fread(input, 1, most_in, stdin)) > 0)
        for (size_t at = 0; at < count; at += used) {
            int32_t status = bohm_step(&b, input + at, count - at, out, room, &used, &made);
            put(made);
            check(status);
        }
    do {
        int32_t status = bohm_finish(&b, out, room, &made);
        put(made);
        check(status);
    } while (made == room);
    bohm_close(&b);
    return fflush(stdout) != 0;
}
