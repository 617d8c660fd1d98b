/* A filter plan checked as a program in C checks it (include/wickanchor.h), and beside it the same check in plain C: bench/speed counts what a request
 * takes. Of standard input the first byte says by whom: 0 the library, 1 plain C; the second how often; what is behind them is the plan. The events
 * wanted are three of one corridor. Plain C tells 31 and 33 apart from all others, which it answers with 18 where their lead and sum are good. It prints
 * the answer. */
#include "wickanchor.h"

long read(int fd, void *buf, unsigned long n);
int printf(const char *format, ...);

static uint8_t input[1 << 20];

struct filters {
    unsigned count;
    struct wick_plan_filter at[WICK_PLAN_FILTERS_MOST];
};

static unsigned place_of(const struct filters *f, uint8_t address, uint8_t instance)
{
    unsigned i = 0;

    while (i < f->count && (f->at[i].address != address || f->at[i].instance != instance)) i++;
    return i;
}

/* The refusal of a request, 0 where it is good. */
static int taken(struct filters *f, const uint8_t *r)
{
    uint8_t sum = 0, address = r[3], instance = r[4];
    uint16_t mask = (uint16_t)(r[5] << 8 | r[6]);
    unsigned i;

    if (r[0] != 0x04) return 2;
    for (i = 0; i < 8; i++) sum ^= r[i];
    if (sum) return 6;
    if (r[2] != 0x31 && r[2] != 0x33) return 18;
    if (address < 64 ? instance != 255 : address > 127 || instance > 31) return 7;
    i = place_of(f, address, instance);
    if (r[2] == 0x31) {
        if (i < f->count) {
            f->at[i].mask |= mask;
        } else if (mask) {
            if (i == WICK_PLAN_FILTERS_MOST) return 19;
            f->at[f->count++] = (struct wick_plan_filter){address, instance, mask};
        }
    } else if (i < f->count) {
        f->at[i].mask &= (uint16_t)~mask;
        if (!f->at[i].mask) {
            f->count--;
            for (; i < f->count; i++) f->at[i] = f->at[i + 1];
        }
    }
    return 0;
}

static struct wick_plan plain_plan(const uint8_t *plan, uint64_t length, const uint8_t *wanted, uint64_t n)
{
    struct filters f;
    uint64_t i;

    f.count = 0;
    for (i = 0; i < length; i += 8) {
        int refusal = length - i < 8 ? 1 : taken(&f, plan + i);
        if (refusal) return (struct wick_plan){WICK_PLAN_REQUEST, (uint8_t)refusal, i / 8};
    }
    for (i = 0; i + 3 <= n; i += 3) {
        unsigned at = place_of(&f, wanted[i], wanted[i + 1]);
        if (at < f.count && wanted[i + 2] < 16 && f.at[at].mask >> wanted[i + 2] & 1) return (struct wick_plan){WICK_PLAN_HIDDEN, 0, i / 3};
    }
    return (struct wick_plan){WICK_PLAN_YES, 0, 0};
}

int main(void)
{
    static const uint8_t wanted[] = {68, 3, 6, 68, 3, 0, 68, 3, 1};
    long size = 0, more;
    struct wick_plan (*volatile check)(const uint8_t *, uint64_t, const uint8_t *, uint64_t);
    struct wick_plan r = {0, 0, 0};

    while ((more = read(0, input + size, sizeof input - (unsigned long)size)) > 0) size += more;
    check = input[0] ? plain_plan : wick_plan;
    for (int i = 0; i < input[1]; i++) r = check(input + 2, (uint64_t)size - 2, wanted, sizeof wanted);
    printf("%u %u %lu\n", r.answer, r.refusal, (unsigned long)r.place);
    return 0;
}
