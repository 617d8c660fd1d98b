/* The report of seasons as a program in C takes it (include/wickanchor.h), and a plain C function of the same report: bench/speed counts what a
 * record takes. Of standard input the first byte says what is done with a capture of occupied events whose target has three bytes, or where it
 * is odd two: 0 nothing; 2 it is opened; 4 the seasons are taken of a corridor that none of them is of, 6 of the one that all are of; 8 and 10
 * the same by the plain function. The second says how many data bytes an event has, one at least; the third is not looked at. Each byte behind
 * them makes one event. It prints what was answered. */
#include "wickanchor.h"

long read(int fd, void *buf, unsigned long n);
int printf(const char *format, ...);

static uint8_t input[65536], data[WICK_EVENT_DATA_MOST], buf[1 << 22], frame[WICK_EVENT_MOST];
static const struct wick_mac mac = {{0x7C, 0xBA, 0xCC, 0x2F, 0x40, 0x2E}};

static uint32_t wide(const uint8_t *s, int n)
{
    uint32_t x = 0;
    for (int i = 0; i < n; i++) x = x << 8 | s[i];
    return x;
}

/* Whether an event is of a corridor; it has w target bytes, and carries an instance */
static int is_of(struct wick_corridor who, const uint8_t *d, int w)
{
    for (int i = 0; i < 6; i++)
        if (d[2 + i] != who.mac.bytes[i]) return 0;
    return wide(d + 8, w) == who.target && d[10 + w] == who.instance;
}

/* Whether `size` bytes are an event of w target bytes */
static int is_event(const uint8_t *d, uint64_t size, int w)
{
    uint8_t sum = 0;
    if (size < 11u + w || d[0] != 0x5A || d[1] != 0x43 || d[9 + w] > WICK_EVENT_DATA_MOST || size != 11u + w + d[9 + w]) return 0;
    for (uint64_t i = 0; i < size; i++) sum ^= d[i];
    return sum == 0 && (d[9 + w] || (d[8 + w] > 2 && d[8 + w] != 6 && d[8 + w] != 7));
}

static struct wick_seasons refused(uint8_t refusal)
{
    static const struct wick_seasons none;
    struct wick_seasons r = none;
    r.refusal = refusal;
    return r;
}

__attribute__((noinline)) static struct wick_seasons plain(const uint8_t *b, uint64_t used, struct wick_corridor who, struct wick_boundaries bounds)
{
    struct wick_seasons r = refused(WICK_OK);
    uint32_t last = 0, occupied = 0;
    int before = -1, w = b[0] == WICK_CAPTURE_THREE ? 3 : 2;
    if (used < 1) return refused(WICK_BAD_RECORD);
    if (b[0] != WICK_CAPTURE_THREE && b[0] != WICK_CAPTURE_TWO) return refused(WICK_UNKNOWN_VERSION);
    for (uint64_t at = 1; at < used;) {
        if (used - at < 2) return refused(WICK_BAD_RECORD);
        uint64_t n = wide(b + at, 2);
        if (used - at - 2 < n || n < 4) return refused(WICK_BAD_RECORD);
        uint32_t t = wide(b + at + 2, 4);
        const uint8_t *d = b + at + 6;
        if (!is_event(d, n - 4, w) || t < last) return refused(WICK_BAD_RECORD);
        last = t;
        at += 2 + n;
        uint8_t kind = d[8 + w];
        if ((kind != 0 && kind != 1 && kind != 6) || !is_of(who, d, w)) continue;
        int season = t < bounds.first ? 0 : t < bounds.second ? 1 : t < bounds.third ? 2 : 3;
        struct wick_season *s = &r.seasons[season];
        if (kind == 0) s->presses++;
        if (kind == 1) s->holds++;
        if (kind != 6) continue;
        s->occupied++;
        if (before == season) {
            if (!s->has_longest || s->longest < t - occupied) s->longest = t - occupied;
            s->has_longest = 1;
            s->total += t - occupied;
            s->gaps++;
        }
        before = season;
        occupied = t;
    }
    return bounds.first < bounds.second && bounds.second < bounds.third ? r : refused(WICK_NOT_RISING);
}

int main(void)
{
    long size = read(0, input, sizeof input);
    int two = input[0] % 2, how = input[0] / 2;
    uint64_t n = (two ? wick_write_event_two : wick_write_event)(mac, 64, WICK_IS_OCCUPIED, data, input[1], frame, sizeof frame).count;
    struct wick_capture k = wick_capture_empty(two ? WICK_CAPTURE_TWO : WICK_CAPTURE_THREE, buf, sizeof buf);
    for (long i = 3; i < size; i++) k = wick_capture_append_at(buf, sizeof buf, k.mark, k.summary, (uint32_t)i, frame, n);

    struct wick_corridor who = {mac, how % 2 ? 64 : 65, 0};
    struct wick_boundaries b = {2500, 5000, 7500};
    if (how == 1) printf("%lu bytes in use\n", (unsigned long)wick_capture_open(buf, sizeof buf, k.mark.used).mark.used);
    if (how > 1) {
        struct wick_seasons r = how < 4 ? wick_capture_seasons(buf, sizeof buf, k.mark.used, who, b) : plain(buf, k.mark.used, who, b);
        for (int i = 0; i < WICK_SEASONS; i++)
            printf("%u: %lu occupied, longest %u, %lu in %lu gaps\n", r.refusal, (unsigned long)r.seasons[i].occupied, r.seasons[i].longest,
                   (unsigned long)r.seasons[i].total, (unsigned long)r.seasons[i].gaps);
    }
    return 0;
}
