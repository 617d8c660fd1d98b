/* Requests read and written as a program in C does (include/wickanchor.h): bench/speed counts what a call takes. Of standard input the first
 * byte says which request: 0 a scene call (A1), 1 request 40, 2, 3 and 4 a colour request of type XY, TC and RGBWAF, 5 a query of a level (AA), 6 the
 * same written under the quiet profile. The second says what is done with it: 0 read, 1 written, 2 read with a wrong sum. Each byte behind them is a sequence number, and makes one call. It prints how many calls
 * were refused. */
#include "wickanchor.h"

long read(int fd, void *buf, unsigned long n);
int printf(const char *format, ...);

static uint8_t input[65536], frame[WICK_REQUEST_MOST];
static const struct wick_address address = {{192, 168, 10, 10}};

static struct wick_wrote written(uint8_t which, uint8_t sequence)
{
    switch (which) {
    case 0:
        return wick_write_basic(sequence, WICK_DALI_SCENE, 255, 0, 0, 15, frame, sizeof frame);
    case 1:
        return wick_write_unicast(sequence, 8811, address, frame, sizeof frame);
    case 2:
        return wick_write_colour_xy(sequence, 127, 254, 4660, 22136, frame, sizeof frame);
    case 3:
        return wick_write_colour_tc(sequence, 127, 254, 370, frame, sizeof frame);
    case 5:
        return wick_write_basic(sequence, WICK_DALI_QUERY_LEVEL, 3, 0, 0, 0, frame, sizeof frame);
    case 6:
        return wick_write_basic_quiet(sequence, WICK_DALI_QUERY_LEVEL, 3, 0, 0, 0, frame, sizeof frame);
    default:
        return wick_write_colour_rgbwaf(sequence, 127, 254, 255, 129, 66, 35, 20, 5, frame, sizeof frame);
    }
}

int main(void)
{
    long size = read(0, input, sizeof input), refused = 0;
    struct wick_request (*volatile reads)(const uint8_t *, uint64_t) = wick_request;
    struct wick_wrote (*volatile writes)(uint8_t, uint8_t) = written;
    uint64_t length = writes(input[0], 0).count;

    if (input[1] == 1) {
        for (long i = 2; i < size; i++) refused += writes(input[0], input[i]).refusal != 0;
    } else {
        frame[length - 1] ^= input[1];
        for (long i = 2; i < size; i++) {
            frame[length - 1] ^= frame[1] ^ input[i];
            frame[1] = input[i];
            refused += reads(frame, length).refusal != 0;
        }
    }
    printf("%ld calls refused\n", refused);
    return 0;
}
