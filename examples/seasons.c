/* Reports one corridor through four seasons, of a capture that is a file of any length: a line for each season. The file is read part by part.

       seasons FILE MAC TARGET INSTANCE B1 B2 B3

   FILE may be -, for standard input. MAC is a controller's, as 54:4E:40:00:00:01; all else is decimal. B1, B2 and B3 are the seconds with which
   the second, the third and the fourth season begin. A mean is told in whole seconds, rounded down. A file whose last record is torn is no
   capture; examples/capture.c mends it.

   Exit status: 0; 1 where the file cannot be used or is no capture, the boundaries do not rise, or the lines cannot be written; 2 where the
   words are none of the above. */
#include <stdio.h>
#include <stdlib.h>
#include <string.h>
#include "wickanchor.h"

static uint8_t buf[65536];

static int fails(const char *which, const char *what, int status) {
    fprintf(stderr, "seasons: %s: %s\n", which, what);
    return status;
}

static const char *name(uint8_t refusal) {
    static uint8_t text[WICK_NAME_MOST + 1];
    text[wick_name(WICK_KIND_REFUSAL, refusal, text, WICK_NAME_MOST).count] = 0;
    return (const char *)text;
}

/* Six bytes in two hexadecimal digits each, a colon between them. 0 where a word is no such address. */
static int address(const char *word, struct wick_mac *mac) {
    for (int i = 0; i < 6; i++, word += 3) {
        if (strspn(word, "0123456789ABCDEFabcdef") != 2 || word[2] != (i < 5 ? ':' : 0)) return 0;
        mac->bytes[i] = (uint8_t)strtoul(word, NULL, 16);
    }
    return 1;
}

/* A decimal number up to `most`. 0 where a word is none. */
static int decimal(const char *word, uint32_t most, uint32_t *number) {
    size_t digits = strspn(word, "0123456789");
    unsigned long n = strtoul(word, NULL, 10);
    *number = (uint32_t)n;
    return digits && !word[digits] && n <= most;
}

static void counted(uint64_t n, const char *one, const char *many) { printf("%llu %s", (unsigned long long)n, n == 1 ? one : many); }

static void say(int number, struct wick_season x) {
    printf("season %d: %llu occupied, ", number, (unsigned long long)x.occupied);
    counted(x.presses, "press, ", "presses, ");
    counted(x.holds, "hold, ", "holds, ");
    if (x.has_longest) {
        printf("longest gap %u s, mean %llu s over ", x.longest, (unsigned long long)(x.total / x.gaps));
        counted(x.gaps, "gap\n", "gaps\n");
    } else {
        printf("no gap\n");
    }
}

/* Hands in the parts of a file, up to its end or to where it is refused. 0 where it cannot be read. */
static int take(FILE *in, struct wick_seasons_state *x) {
    size_t n;
    while (x->stage < WICK_STAGE_REFUSED && (n = fread(buf, 1, sizeof buf, in)) > 0) *x = wick_seasons_part(*x, buf, n);
    return !ferror(in);
}

/* Why a capture is refused, and for a record which and where */
static int refused(const char *which, struct wick_seasons_state x, uint8_t refusal) {
    char text[128];
    if (refusal == WICK_NOT_RISING) return fails("the boundaries", name(refusal), 1);
    if (refusal != WICK_BAD_RECORD || x.stage == WICK_STAGE_FRESH) return fails(which, name(refusal), 1);
    snprintf(text, sizeof text, "%s: record %llu at byte %llu%s", name(refusal), (unsigned long long)x.records + 1, (unsigned long long)x.bytes + 1,
             x.stage < WICK_STAGE_REFUSED ? " is cut short" : "");
    return fails(which, text, 1);
}

int main(int argc, char **argv) {
    struct wick_corridor who;
    uint32_t instance, b[3];
    if (argc != 8) {
        fprintf(stderr, "seasons FILE MAC TARGET INSTANCE B1 B2 B3: reports one corridor through four seasons, of the capture in FILE\n");
        return 2;
    }
    if (!address(argv[2], &who.mac)) return fails(argv[2], "not a MAC address as 54:4E:40:00:00:01", 2);
    if (!decimal(argv[3], 4294967295, &who.target)) return fails(argv[3], "not a target", 2);
    if (!decimal(argv[4], 255, &instance)) return fails(argv[4], "not an instance", 2);
    who.instance = (uint8_t)instance;
    for (int i = 0; i < 3; i++)
        if (!decimal(argv[5 + i], 4294967295, &b[i])) return fails(argv[5 + i], "not seconds", 2);

    FILE *in = strcmp(argv[1], "-") ? fopen(argv[1], "rb") : stdin;
    struct wick_seasons_state x = wick_seasons_begin(who, (struct wick_boundaries){b[0], b[1], b[2]});
    if (!in || !take(in, &x)) return fails(argv[1], "cannot be read", 1);
    struct wick_seasons r = wick_seasons_end(x);
    if (r.refusal) return refused(argv[1], x, r.refusal);
    for (int i = 0; i < WICK_SEASONS; i++) say(i + 1, r.seasons[i]);
    return fflush(NULL) ? fails("the lines", "cannot be written", 1) : 0;
}
