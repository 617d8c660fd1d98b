/* A capture kept as a program in C does (include/wickanchor.h): bench/speed counts what a record takes. Of standard input the first byte says
 * what is done with events whose target has three bytes, or where it is odd two: 0 each is appended by a mark; 2 that, and then the capture is
 * opened; 4 counted; 6 its longest good prefix found. The second says how many data bytes an event has, the third how many hundreds of records
 * stand there before; each byte behind them is a target, and makes one event. It prints how many bytes are in use, and how many calls were
 * refused. */
#include "wickanchor.h"

long read(int fd, void *buf, unsigned long n);
int printf(const char *format, ...);

static uint8_t input[65536], data[WICK_EVENT_DATA_MOST], frame[WICK_EVENT_MOST], buf[1 << 23];
static const struct wick_mac mac = {{0x7C, 0xBA, 0xCC, 0x2F, 0x40, 0x2E}};

int main(void)
{
    long size = read(0, input, sizeof input), refused = 0;
    int two = input[0] % 2;
    uint64_t n = input[1];
    uint64_t length = (two ? wick_write_event_two : wick_write_event)(mac, 0, WICK_LEVEL_CHANGE, data, n, frame, sizeof frame).count;
    struct wick_capture (*volatile appends)(uint8_t *, uint64_t, struct wick_mark, struct wick_summary, uint32_t, const uint8_t *, uint64_t) =
        wick_capture_append_at;
    struct wick_capture kept = wick_capture_empty(two ? WICK_CAPTURE_TWO : WICK_CAPTURE_THREE, buf, sizeof buf);

    for (long i = 0; i < input[2] * 100L; i++) kept = appends(buf, sizeof buf, kept.mark, kept.summary, 0, frame, length);
    for (long i = 3; i < size; i++) {
        frame[length - 1] ^= frame[9] ^ input[i];
        frame[9] = input[i];
        kept = appends(buf, sizeof buf, kept.mark, kept.summary, (uint32_t)i, frame, length);
        refused += kept.refusal != 0;
    }
    if (input[0] / 2 == 1) refused += wick_capture_open(buf, sizeof buf, kept.mark.used).refusal != 0;
    if (input[0] / 2 == 2) refused += wick_capture_count(buf, sizeof buf, kept.mark.used).refusal != 0;
    if (input[0] / 2 == 3) refused += wick_capture_prefix(buf, sizeof buf, kept.mark.used).refusal != 0;
    printf("%lu bytes in use, %ld calls refused\n", (unsigned long)kept.mark.used, refused);
    return 0;
}
