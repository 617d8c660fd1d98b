/* The report of one corridor over a capture in plain C, as a measure for the program corridor (docs/SHEET.md): the same arguments, without an
 * option and with boundaries in seconds alone; the same checks of every record; the same CSV, and the same lines where a capture is refused.
 * It reads parts of 65,536 bytes, and keeps what is left of a record in front of the next. bench/speed compares the two. Exit status: 0, or
 * 1 where there is no sheet. */
#include <stdint.h>
#include <stdio.h>
#include <stdlib.h>
#include <string.h>

int open(const char *path, int flags, ...);
long read(int fd, void *buf, size_t n);
void perror(const char *text);
int memcmp(const void *a, const void *b, size_t size);
void *memmove(void *to, const void *from, size_t size);

enum { PART = 65536, RECORD_MOST = 68, DATA_MOST = 48, SEASONS = 4 };
enum { PRESS = 0, HOLD = 1, INPUT = 2, OCCUPIED = 6, UNOCCUPIED = 7 };

static uint8_t buf[RECORD_MOST + PART];

struct season {
    uint64_t occupied, presses, holds, total, gaps;
    uint32_t longest;
};

struct report {
    uint8_t mac[6], instance;
    uint32_t target, boundaries[SEASONS - 1];
    unsigned width;                 /* of a target; 0 before the version byte */
    uint64_t records, bytes;        /* good ones, and where the next begins */
    uint32_t last;                  /* seconds of the last record */
    int before;                     /* the season of the last occupied event, -1 where there is none, and its seconds */
    uint32_t occupied;
    struct season seasons[SEASONS];
};

static uint32_t wide(const uint8_t *s, unsigned n)
{
    uint32_t x = 0;
    while (n--)
        x = x << 8 | *s++;
    return x;
}

static int has_instance(uint8_t kind)
{
    return kind <= INPUT || kind == OCCUPIED || kind == UNOCCUPIED;
}

/* Whether n bytes are an event of w target bytes. */
static int is_event(const uint8_t *d, unsigned n, unsigned w)
{
    uint8_t sum = 0;
    if (n < 11 + w || d[0] != 0x5A || d[1] != 0x43 || d[9 + w] > DATA_MOST || n != 11 + w + d[9 + w])
        return 0;
    for (unsigned i = 0; i < n; i++)
        sum ^= d[i];
    return sum == 0 && (d[9 + w] > 0 || !has_instance(d[8 + w]));
}

static int season_of(const struct report *r, uint32_t seconds)
{
    int i = 0;
    while (i < SEASONS - 1 && seconds >= r->boundaries[i])
        i++;
    return i;
}

/* Counts an event of the corridor. */
static void count(struct report *r, uint32_t seconds, uint8_t kind)
{
    int i = season_of(r, seconds);
    struct season *s = &r->seasons[i];
    if (kind == PRESS)
        s->presses++;
    if (kind == HOLD)
        s->holds++;
    if (kind != OCCUPIED)
        return;
    s->occupied++;
    if (r->before == i) {
        uint32_t gap = seconds - r->occupied;
        if (s->longest < gap)
            s->longest = gap;
        s->total += gap;
        s->gaps++;
    }
    r->before = i;
    r->occupied = seconds;
}

/* Takes the record at the front of some bytes: how many it has, 0 where it is not there whole, -1 where it is bad. */
static int take(struct report *r, const uint8_t *s, size_t there)
{
    unsigned w = r->width;
    if (there < 2)
        return 0;
    unsigned n = wide(s, 2);
    if (n > 4 + 11 + w + DATA_MOST)
        return -1;
    if (there < 2 + n)
        return 0;
    if (n < 4)
        return -1;
    uint32_t seconds = wide(s + 2, 4);
    const uint8_t *d = s + 6;
    if (seconds < r->last || !is_event(d, n - 4, w))
        return -1;
    r->last = seconds;
    r->records++;
    r->bytes += 2 + n;
    if (has_instance(d[8 + w]) && d[10 + w] == r->instance && wide(d + 8, w) == r->target && !memcmp(d + 2, r->mac, 6))
        count(r, seconds, d[8 + w]);
    return (int)(2 + n);
}

static int fails(const char *text)
{
    fprintf(stderr, "corridor: %s\n", text);
    return 1;
}

static int argument(const char *name, const char *text, const char *word)
{
    fprintf(stderr, "corridor: %s is %s: %s\n", name, text, word);
    return 1;
}

static int broken(const char *does, const char *file)
{
    fprintf(stderr, "corridor: %s", does);
    perror(file);
    return 1;
}

static int bad(const struct report *r, const char *text)
{
    fprintf(stderr, "corridor: 15 BAD_RECORD: record %lu, which begins at byte %lu, %s\n", r->records + 1, r->bytes, text);
    return 1;
}

/* Takes a whole capture, part by part: 0, or 1 where it was told what is wrong. */
static int capture(struct report *r, int fd, const char *file)
{
    size_t held = 0;
    long n;
    while ((n = read(fd, buf + held, PART)) > 0) {
        size_t end = held + (size_t)n, at = 0;
        int size;
        if (r->width == 0) {
            if (buf[0] != 1 && buf[0] != 2)
                return fails("14 UNKNOWN_VERSION: the first byte (byte 0) is neither 01 nor 02: no capture, or one of another version");
            r->width = buf[0] == 1 ? 3 : 2;
            r->bytes = at = 1;
        }
        while ((size = take(r, buf + at, end - at)) > 0)
            at += (size_t)size;
        if (size < 0)
            return bad(r, "has a length, a time or a datagram that cannot be");
        held = end - at;
        memmove(buf, buf + at, held);
    }
    if (n < 0)
        return broken("reading ", file);
    if (r->width == 0)
        return fails("15 BAD_RECORD: no byte at all (byte 0): a capture begins with its version");
    return held ? bad(r, "is cut short by the end") : 0;
}

static int digit(char c)
{
    return c >= '0' && c <= '9' ? c - '0' : c >= 'A' && c <= 'F' ? c - 'A' + 10 : c >= 'a' && c <= 'f' ? c - 'a' + 10 : -1;
}

/* Six bytes in two hexadecimal digits each. 0 where a word is no such address. */
static int address(const char *word, uint8_t *mac)
{
    for (int i = 0; i < 6; i++, word += 3) {
        if (digit(word[0]) < 0 || digit(word[1]) < 0 || (i < 5 ? word[2] != ':' && word[2] != '-' : word[2] != 0))
            return 0;
        mac[i] = (uint8_t)(digit(word[0]) * 16 + digit(word[1]));
    }
    return 1;
}

/* A decimal number up to `most`. 0 where a word is none. */
static int decimal(const char *word, uint32_t most, uint32_t *number)
{
    uint64_t n = 0;
    do {
        if (*word < '0' || *word > '9')
            return 0;
        n = n * 10 + (uint64_t)(*word - '0');
        if (n > most)
            return 0;
    } while (*++word);
    *number = (uint32_t)n;
    return 1;
}

static void field(int there, uint64_t n)
{
    if (there)
        printf(",%lu", n);
    else
        printf(",");
}

static void sheet(const struct report *r)
{
    printf("season,from,to,occupied,presses,holds,longest gap,total,gaps\n");
    for (int i = 0; i < SEASONS; i++) {
        const struct season *s = &r->seasons[i];
        printf("%d", i + 1);
        field(i > 0, i > 0 ? r->boundaries[i - 1] : 0);
        field(i < SEASONS - 1, i < SEASONS - 1 ? r->boundaries[i] : 0);
        field(1, s->occupied);
        field(1, s->presses);
        field(1, s->holds);
        field(s->gaps > 0, s->longest);
        field(1, s->total);
        field(1, s->gaps);
        printf("\n");
    }
}

int main(int argc, char **argv)
{
    static const char *const names[] = {"FIRST", "SECOND", "THIRD"};
    static struct report r = {.before = -1};
    const uint32_t *b = r.boundaries;
    uint32_t instance;
    if (argc != 8)
        return fails("7 arguments are wanted: FILE MAC TARGET INSTANCE FIRST SECOND THIRD");
    if (!address(argv[2], r.mac))
        return argument("MAC", "not six bytes in hexadecimal, as in 7C:BA:CC:2F:40:2E", argv[2]);
    if (!decimal(argv[3], 4294967295, &r.target))
        return argument("TARGET", "not a number from 0 to 4294967295", argv[3]);
    if (!decimal(argv[4], 255, &instance))
        return argument("INSTANCE", "not a number from 0 to 255", argv[4]);
    r.instance = (uint8_t)instance;
    for (int i = 0; i < SEASONS - 1; i++)
        if (!decimal(argv[5 + i], 4294967295, &r.boundaries[i]))
            return argument(names[i], "not seconds, 0 to 4294967295", argv[5 + i]);

    int fd = strcmp(argv[1], "-") ? open(argv[1], 0) : 0;
    if (fd < 0)
        return broken("", argv[1]);
    if (capture(&r, fd, argv[1]))
        return 1;
    if (b[0] >= b[1] || b[1] >= b[2]) {
        fprintf(stderr, "corridor: 20 NOT_RISING: the boundaries do not rise: %u, %u, %u\n", b[0], b[1], b[2]);
        return 1;
    }
    sheet(&r);
    return fflush(NULL) ? fails("writing standard output failed") : 0;
}
