/* Sums taken, and replies read and written, as a program in C does (include/wickanchor.h): bench/speed counts what a call takes. Of standard input the
 * first byte says what is done: 0 the sum of a run, 1 a reply read, 2 a reply written, 3 a reply read with a wrong sum. The second says how many bytes
 * the run has, or the reply in all (4 to 68). Each byte behind them stands in the run's first place, or is the reply's sequence number, and makes one
 * call. It prints how many calls gave 0, or were not refused. */
#include "wickanchor.h"

long read(int fd, void *buf, unsigned long n);
int printf(const char *format, ...);

static uint8_t input[65536], data[64], run[256];

int main(void)
{
    long size = read(0, input, sizeof input), none = 0;
    uint8_t (*volatile sums)(const uint8_t *, uint64_t) = wick_sum;
    struct wick_reply (*volatile reads)(const uint8_t *, uint64_t) = wick_reply;
    struct wick_wrote (*volatile writes)(uint8_t, uint8_t, const uint8_t *, uint64_t, uint8_t *, uint64_t) = wick_write_reply;
    uint64_t n = input[1];

    if (input[0] == 0) {
        for (long i = 2; i < size; i++) {
            run[0] = input[i];
            none += sums(run, n) == 0;
        }
    } else if (input[0] == 2) {
        for (long i = 2; i < size; i++) none += writes(WICK_REPLY_OK, input[i], data, n - 4, run, n).refusal == 0;
    } else {
        writes(WICK_REPLY_OK, 0, data, n - 4, run, n);
        run[n - 1] ^= input[0] / 2;
        for (long i = 2; i < size; i++) {
            run[n - 1] ^= run[1] ^ input[i];
            run[1] = input[i];
            none += reads(run, n).refusal == 0;
        }
    }
    printf("%ld calls\n", none);
    return 0;
}
