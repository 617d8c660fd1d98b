/* Keeps events in a capture that is a file: opens what is there of it, also where a crash tore the last record, and appends the events that
   lines tell of, or a run of datagrams. What stands behind the last good record is no longer in it then, and is kept in FILE.torn.

       capture [-2] FILE [LINES]
       capture [-2] FILE -r SECONDS [RUN]

   LINES and RUN are files, or standard input where none is named. A line has seconds and the bytes of a datagram, in hexadecimal:
       1700000000 5A 43 54 4E 40 00 00 01 00 00 40 06 02 05 01 02
   A run has datagrams as bytes, each behind its length in two, high byte first; all go in under SECONDS, in one call.
   Behind -2 a FILE that is not there yet becomes a capture of events whose targets have two bytes, not three.

   Exit status: 0; 1 where a file cannot be used, or a line, a datagram or the whole run was not taken; 2 where the words are none of the
   above. */
#include <stdio.h>
#include <stdlib.h>
#include <string.h>
#include "wickanchor.h"

#define ROOM 67108864
static uint8_t buf[ROOM];

static int fails(const char *path, const char *what) {
    fprintf(stderr, "capture: %s: %s\n", path, what);
    return 1;
}

static const char *name(uint8_t kind, uint8_t number) {
    static uint8_t text[WICK_NAME_MOST + 1];
    text[wick_name(kind, number, text, WICK_NAME_MOST).count] = 0;
    return (const char *)text;
}

/* The file beside another whose name has this end; its own name stays in `other` */
static char other[4096];

static FILE *beside(const char *path, const char *end, const char *mode) {
    int size = snprintf(other, sizeof other, "%s%s", path, end);
    return size > 0 && size < (int)sizeof other ? fopen(other, mode) : NULL;
}

/* Writes some bytes and closes the file. 0 where that fails. */
static int put(FILE *f, const uint8_t *s, uint64_t n) {
    if (!f) return 0;
    int well = fwrite(s, 1, n, f) == n;
    return !fclose(f) && well;
}

/* Seconds at the front of a text, and where they end. 0 where there are none. */
static int timed(char *text, char **end, uint32_t *seconds) {
    unsigned long t = strtoul(text, end, 10);
    *seconds = (uint32_t)t;
    return *end != text && t <= 4294967295;
}

/* Takes a line apart: how many bytes the datagram has. 0 where it is no such line. */
static uint64_t taken(char *line, uint32_t *seconds, uint8_t *d, uint64_t most) {
    uint64_t n = 0;
    char *end;
    if (!timed(line, &end, seconds)) return 0;
    for (char *w = strtok(end, " \n"); w; w = strtok(NULL, " \n")) {
        unsigned long b = strtoul(w, &end, 16);
        if (*end || b > 255 || n == most) return 0;
        d[n++] = (uint8_t)b;
    }
    return n;
}

static const char *records(uint32_t n) { return n == 1 ? "record" : "records"; }

static void say(struct wick_summary x) {
    printf("%u %s", x.records, records(x.records));
    if (x.has_first) printf(" from %u to %u", x.first, x.last);
    for (uint8_t i = 0; i < WICK_COUNTS; i++)
        if (x.counts[i]) printf(", %u %s", x.counts[i], i < WICK_COUNTS - 1 ? name(WICK_KIND_EVENT_TYPE, i) : "other");
    printf("\n");
}

/* The file, open for what is appended, and what is kept of the capture beside its bytes */
static const char *path;
static FILE *out;
static struct wick_capture k;

/* Puts what a call appended into the file, and goes on with the mark and the summary that it handed back */
static void keep(struct wick_mark mark, struct wick_summary summary) {
    fwrite(buf + k.mark.used, 1, mark.used - k.mark.used, out);
    fflush(out);
    k.mark = mark;
    k.summary = summary;
}

/* Each event at the mark that the one before handed back, and in the file before the next is read */
static int appended(FILE *lines) {
    static char line[4096];
    uint8_t d[256];
    int refused = 0;
    for (unsigned at = 1; !ferror(out) && fgets(line, sizeof line, lines); at++) {
        uint32_t seconds;
        uint64_t size = taken(line, &seconds, d, sizeof d);
        struct wick_capture r = k;
        if (size) r = wick_capture_append_at(buf, ROOM, k.mark, k.summary, seconds, d, size);
        if (!size || r.refusal) {
            printf("line %u: %s\n", at, size ? name(WICK_KIND_REFUSAL, r.refusal) : "not seconds and bytes");
            refused = 1;
        } else {
            keep(r.mark, r.summary);
        }
    }
    return refused;
}

/* All events of a run in one call; none of a run that is cut short */
static int ran(FILE *from, uint32_t seconds) {
    static uint8_t run[ROOM];
    uint64_t size = fread(run, 1, ROOM, from);
    if (ferror(from)) return fails("the run", "cannot be read");
    if (size == ROOM) return fails("the run", "is too long for this example");
    struct wick_ran_at r = wick_capture_run_at(buf, ROOM, k.mark, k.summary, seconds, run, size);
    if (r.refusal) printf("the run: %s\n", name(WICK_KIND_REFUSAL, r.refusal));
    else printf("%llu went in, %llu refused\n", (unsigned long long)r.entered, (unsigned long long)r.refused);
    keep(r.mark, r.summary);
    return r.refusal || r.refused;
}

int main(int argc, char **argv) {
    int two = argc > 1 && strcmp(argv[1], "-2") == 0;
    char **words = argv + 1 + two, *end;
    int run = words[0] && words[1] && strcmp(words[1], "-r") == 0;
    char **from = words + (run ? 3 : 1);
    uint32_t seconds = 0;
    if (!words[0] || words[0][0] == '-' || (run && (!words[2] || !timed(words[2], &end, &seconds) || *end)) || (*from && from[1])) {
        fprintf(stderr, "capture [-2] FILE [LINES]: appends events to the capture in FILE, a line of seconds and hexadecimal bytes each\n"
                        "capture [-2] FILE -r SECONDS [RUN]: appends a run of datagrams, each led by its length in two bytes\n");
        return 2;
    }
    path = words[0];
    FILE *given = *from ? fopen(*from, "rb") : stdin;
    if (!given) return fails(*from, "cannot be read");

    /* What is there: nothing, or a capture and perhaps a torn record behind it */
    out = fopen(path, "ab");
    FILE *in = fopen(path, "rb");
    if (!out || !in) return fails(path, "cannot be read and written");
    uint64_t there = fread(buf, 1, ROOM, in);
    if (ferror(in)) return fails(path, "cannot be read");
    if (there == ROOM) return fails(path, "is too long for this example");
    fclose(in);
    k = there ? wick_capture_prefix(buf, ROOM, there) : wick_capture_empty(two ? WICK_CAPTURE_TWO : WICK_CAPTURE_THREE, buf, ROOM);
    if (k.refusal) return fails(path, name(WICK_KIND_REFUSAL, k.refusal));
    uint64_t used = k.mark.used;
    if (there > used && !put(beside(path, ".torn", "ab"), buf + used, there - used)) return fails(other, "cannot be written");
    if (there != used) {
        /* It is the old file or the new one, and never half of either */
        fclose(out);
        out = put(beside(path, ".new", "wb"), buf, used) && !rename(other, path) ? fopen(path, "ab") : NULL;
        if (!out) return fails(path, "cannot be made anew");
    }
    uint32_t n = k.summary.records;
    if (!there) printf("%s: a new capture\n", path);
    else if (there == used) printf("%s: %u %s\n", path, n, records(n));
    else printf("%s: %u %s; the %llu bytes behind are kept in %s.torn\n", path, n, records(n), (unsigned long long)(there - used), path);

    int refused = run ? ran(given, seconds) : appended(given);
    if (ferror(out)) return fails(path, "cannot be written");
    say(k.summary);
    return fclose(out) ? fails(path, "cannot be written") : refused;
}
