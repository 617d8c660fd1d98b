/* Command numbers asked as a program in C does (include/wickanchor.h): bench/speed counts what a call takes. Of standard input the first byte says
 * what is asked: 0 whether a command is known, 1 its entry in the table. The second is not looked at. Each byte behind them is
 * a command, and makes one call. It prints how many of them are known. */
#include "wickanchor.h"

long read(int fd, void *buf, unsigned long n);
int printf(const char *format, ...);

static uint8_t input[65536];

int main(void)
{
    long size = read(0, input, sizeof input), known = 0;
    uint8_t (*volatile knows)(uint8_t) = wick_known;
    struct wick_entry (*volatile looks)(uint8_t) = wick_table;

    if (input[0]) {
        for (long i = 2; i < size; i++) known += looks(input[i]).shape != 0;
    } else {
        for (long i = 2; i < size; i++) known += knows(input[i]) != 0;
    }
    printf("%ld commands known\n", known);
    return 0;
}
