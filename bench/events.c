/* Events read and written as a program in C does (include/wickanchor.h), in either layout: bench/speed counts what a call takes. Of standard
 * input the first byte says what is done with an event whose target has three bytes, or where it is odd two: 0 read, 2 written, 4 read with a
 * wrong sum. The second says how many data bytes it has; each byte behind them is a target, and makes one call. It prints how many calls were
 * refused. */
#include "wickanchor.h"

long read(int fd, void *buf, unsigned long n);
int printf(const char *format, ...);

static uint8_t input[65536], data[WICK_EVENT_DATA_MOST], frame[WICK_EVENT_MOST];
static const struct wick_mac mac = {{0x7C, 0xBA, 0xCC, 0x2F, 0x40, 0x2E}};

int main(void)
{
    long size = read(0, input, sizeof input), refused = 0;
    struct wick_event (*volatile reads)(const uint8_t *, uint64_t) = input[0] % 2 ? wick_event_two : wick_event;
    struct wick_wrote (*volatile writes)(struct wick_mac, uint32_t, uint8_t, const uint8_t *, uint64_t, uint8_t *, uint64_t) =
        input[0] % 2 ? wick_write_event_two : wick_write_event;
    uint64_t n = input[1], length = writes(mac, 0, WICK_LEVEL_CHANGE, data, n, frame, sizeof frame).count;

    if (input[0] / 2 == 1) {
        for (long i = 2; i < size; i++) refused += writes(mac, input[i], WICK_LEVEL_CHANGE, data, n, frame, sizeof frame).refusal != 0;
    } else {
        frame[length - 1] ^= input[0] / 2;
        for (long i = 2; i < size; i++) {
            frame[length - 1] ^= frame[9] ^ input[i];
            frame[9] = input[i];
            refused += reads(frame, length).refusal != 0;
        }
    }
    printf("%ld calls refused\n", refused);
    return 0;
}
