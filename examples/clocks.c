/* When a clock of a Domintell site runs on a day:
     ./clocks '20:38:49 7F 00/00/00 00:30:00' 2026 3 1 0
   Its text, as source 000 has it from the time field on, then year, month, day and the weekday, 0 to 6 from Sunday. A text of more than 20 bytes is that of
   an astronomical clock, which has an offset. It ends with 0 where the clock runs, with 1 where not, with 2 where the words are refused. */
#include <stdio.h>
#include <stdlib.h>
#include <string.h>
#include "wickanchor.h"

#define DAY 86400

/* A decimal number up to `most`, or one more, where a word is none. */
static unsigned long number(const char *word, unsigned long most) {
    size_t digits = strspn(word, "0123456789");
    unsigned long n = strtoul(word, NULL, 10);
    return digits && !word[digits] && n <= most ? n : most + 1;
}

static int fails(uint8_t refusal) {
    uint8_t name[WICK_NAME_MOST];
    struct wick_wrote w = wick_name(WICK_KIND_REFUSAL, refusal, name, sizeof name);
    fprintf(stderr, "clocks: %.*s\n", (int)w.count, (const char *)name);
    return 2;
}

int main(int argc, char **argv) {
    if (argc != 6) {
        fprintf(stderr, "clocks TEXT YEAR MONTH DAY WEEKDAY: when a clock runs on a day\n");
        return 2;
    }
    const char *text = argv[1];
    unsigned long year = number(argv[2], 9999), month = number(argv[3], 99), day = number(argv[4], 99), weekday = number(argv[5], 9);
    struct wick_clock_runs r = wick_clock_runs(strlen(text) > WICK_CLOCK_BYTES, (uint16_t)year, (uint8_t)month, (uint8_t)day, (uint8_t)weekday,
                                               (const uint8_t *)text, strlen(text));
    if (r.refusal) return fails(r.refusal);
    if (!r.runs) {
        printf("idle\n");
        return 1;
    }
    int32_t at = r.second < 0 ? r.second + DAY : r.second % DAY;
    printf("runs at second %ld: %s %02ld:%02ld:%02ld\n", (long)r.second, r.second < 0 ? "the day before at" : r.second < DAY ? "at" : "the day after at",
           (long)at / 3600, (long)at / 60 % 60, (long)at % 60);
    return 0;
}
