/* Whether a run of bytes may go to a controller where a client allows asking and never switching:
     ./quiet run && cat run > /dev/ttyS0
   The run is in a file, or, with no argument, on standard input. It ends with 0 where each byte belongs to a request inside the quiet profile; with 1
   where not, and names the first item that does not; with 2 where the run cannot be read. */
#include <stdio.h>
#include <stdlib.h>
#include "wickanchor.h"

static const char *reason(struct wick_quiet q) {
    if (q.item == 0) return "its command is outside the profile";
    if (q.item == 1) return "the run ends inside a request";
    if (q.item == 2) return "no request begins here";
    if (q.item == WICK_UNKNOWN_COMMAND) return "the command is unknown";
    if (q.item == WICK_BAD_LENGTH_BYTE) return "no such length byte or colour type";
    if (q.item == WICK_BAD_SUM) return "the sum is wrong";
    return "an argument is out of range";
}

int main(int argc, char **argv) {
    FILE *file = argc > 1 ? fopen(argv[1], "rb") : stdin;
    uint8_t *run = NULL;
    size_t used = 0, room = 0, got = 1;
    if (argc > 2 || !file) {
        fprintf(stderr, argc > 2 ? "quiet: one file is wanted, or none\n" : "quiet: %s cannot be opened\n", argv[1]);
        return 2;
    }
    while (got) {
        if (used == room) run = realloc(run, room = 2 * room + 65536);
        if (!run) break;
        got = fread(run + used, 1, room - used, file);
        used += got;
    }
    if (!run || ferror(file)) {
        fprintf(stderr, "quiet: the run cannot be read\n");
        return 2;
    }

    struct wick_quiet q = wick_quiet(run, used);
    if (q.passes) {
        printf("yes\n");
        return 0;
    }
    printf("no: item %u at byte %llu,", q.item, (unsigned long long)q.place);
    for (uint64_t i = 0; i < q.count; i++) printf(" %02X", run[q.place + i]);
    printf(": %s\n", reason(q));
    return 1;
}
