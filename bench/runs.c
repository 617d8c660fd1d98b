/* Events appended to a capture in runs of a hundred as a program in C does (include/wickanchor.h): bench/speed counts what a datagram takes. Of
 * standard input the first byte says how events whose target has three bytes, or where it is odd two, go in: 0 each by itself, by a mark; 2 each
 * hundred in one call, by a mark; 4 by the letter. The second says how many data bytes an event has, the third how many hundreds of records stand
 * there before; each byte behind them is a target, and makes one event. It prints how many bytes are in use, and how many events were refused. */
#include "wickanchor.h"

#define RUN 100

long read(int fd, void *buf, unsigned long n);
int printf(const char *format, ...);

static uint8_t input[65536], data[WICK_EVENT_DATA_MOST], buf[1 << 23], run[RUN * (WICK_RUN_DATAGRAM_AT + WICK_EVENT_MOST)];
static const struct wick_mac mac = {{0x7C, 0xBA, 0xCC, 0x2F, 0x40, 0x2E}};

int main(void)
{
    long size = read(0, input, sizeof input), refused = 0;
    int two = input[0] % 2, how = input[0] / 2;
    uint8_t *first = run + WICK_RUN_DATAGRAM_AT;
    uint64_t n = (two ? wick_write_event_two : wick_write_event)(mac, 0, WICK_LEVEL_CHANGE, data, input[1], first, WICK_EVENT_MOST).count;
    uint64_t each = WICK_RUN_DATAGRAM_AT + n;
    struct wick_capture kept = wick_capture_empty(two ? WICK_CAPTURE_TWO : WICK_CAPTURE_THREE, buf, sizeof buf);

    for (long i = 0; i < input[2] * 100L; i++) kept = wick_capture_append_at(buf, sizeof buf, kept.mark, kept.summary, 0, first, n);
    run[1] = (uint8_t)n;
    for (uint64_t i = each; i < RUN * each; i++) run[i] = run[i - each];
    for (long i = 3; i < size; i++) {
        uint8_t *d = first + (i - 3) % RUN * each;
        d[n - 1] ^= d[9] ^ input[i];
        d[9] = input[i];
        if (how == 0) {
            kept = wick_capture_append_at(buf, sizeof buf, kept.mark, kept.summary, (uint32_t)i, d, n);
            refused += kept.refusal != 0;
        } else if ((i - 2) % RUN == 0 && how == 1) {
            struct wick_ran_at r = wick_capture_run_at(buf, sizeof buf, kept.mark, kept.summary, (uint32_t)i, run, RUN * each);
            kept.mark = r.mark;
            kept.summary = r.summary;
            refused += RUN - (long)r.entered;
        } else if ((i - 2) % RUN == 0) {
            struct wick_ran r = wick_capture_run(buf, sizeof buf, kept.mark.used, kept.summary, (uint32_t)i, run, RUN * each);
            kept.mark.used = r.used;
            kept.summary = r.summary;
            refused += RUN - (long)r.entered;
        }
    }
    printf("%lu bytes in use, %ld events refused\n", (unsigned long)kept.mark.used, refused);
    return 0;
}
