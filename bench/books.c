/* Books of unanswered requests as a program in C keeps them (include/wickanchor.h), and beside them the same book in plain C: bench/speed counts
 * what a call takes. Of standard input the first byte says what is done: 0 asks and takes the reply, of a book whose next number is free; 1 asks of
 * a full book; 2 gives up in a full book in which no request is old enough, 3 in one in which all are. The second says by whom: 0 the library, 1
 * plain C. Each byte behind them is one such call, or one of each. It prints how many were refused and how many requests were given up. */
#include "wickanchor.h"

long read(int fd, void *buf, unsigned long n);
int printf(const char *format, ...);

static uint8_t input[65536];

/* Plain C: which commands are known, 2 where one is retired, from a table. */
static const uint8_t known[256] = {
    [0x01] = 1, [0x08] = 1, [0x09] = 1, [0x0A] = 2, [0x0B] = 1, [0x0C] = 1, [0x0E] = 1, [0x1A] = 1, [0x1B] = 1, [0x1C] = 1, [0x1D] = 1,
    [0x20] = 1, [0x31] = 1, [0x32] = 1, [0x33] = 1, [0x34] = 1, [0x40] = 1, [0x41] = 1, [0xA0] = 1, [0xA1] = 1, [0xA2] = 1, [0xA3] = 1,
    [0xA4] = 1, [0xA5] = 1, [0xA6] = 1, [0xA7] = 1, [0xA8] = 1, [0xA9] = 1, [0xAA] = 1, [0xAB] = 1, [0xAC] = 1, [0xAD] = 1, [0xAE] = 1,
};

static struct wick_booked plain_ask(uint8_t *asked, uint8_t *last, uint32_t *ticks, uint8_t command, uint32_t tick)
{
    uint8_t n = *last;

    if (!known[command]) return (struct wick_booked){3, 0};
    if (known[command] == 2) return (struct wick_booked){17, 0};
    for (int i = 0; i < 256; i++) {
        n++;
        if (known[asked[n]]) continue;
        asked[n] = command;
        ticks[n] = tick;
        *last = n;
        return (struct wick_booked){0, n};
    }
    return (struct wick_booked){9, 0};
}

static struct wick_booked plain_answer(uint8_t *asked, uint8_t number)
{
    uint8_t command = asked[number];

    if (!known[command]) return (struct wick_booked){10, 0};
    asked[number] = 0;
    return (struct wick_booked){0, command};
}

static uint16_t plain_give_up(uint8_t *asked, const uint32_t *ticks, uint32_t now, uint32_t limit)
{
    uint16_t count = 0;

    for (int n = 0; n < 256; n++)
        if (known[asked[n]] && now - ticks[n] > limit) {
            asked[n] = 0;
            count++;
        }
    return count;
}

static void fill(struct wick_book *book)
{
    for (int i = 0; i < 256; i++) book->asked[i] = WICK_DALI_SCENE;
}

int main(void)
{
    static const uint8_t commands[] = {WICK_QUERY_GROUP_NUMBERS, WICK_DALI_SCENE, WICK_DALI_ADD_TPI_EVENT_FILTER, WICK_DALI_QUERY_LEVEL};
    long size = read(0, input, sizeof input), refused = 0, given_up = 0;
    int plain = input[1];
    struct wick_booked (*volatile ask)(uint8_t *, uint8_t *, uint32_t *, uint8_t, uint32_t) = plain ? plain_ask : wick_ask;
    struct wick_booked (*volatile answer)(uint8_t *, uint8_t) = plain ? plain_answer : wick_answer;
    uint16_t (*volatile give_up)(uint8_t *, const uint32_t *, uint32_t, uint32_t) = plain ? plain_give_up : wick_give_up;
    struct wick_book book = wick_book();

    if (input[0]) fill(&book);
    for (long i = 2; i < size; i++) {
        if (input[0] == 0) {
            struct wick_booked a = ask(book.asked, &book.last, book.ticks, commands[i % 4], (uint32_t)i);
            refused += a.refusal || answer(book.asked, a.answer).refusal;
        } else if (input[0] == 1) {
            refused += ask(book.asked, &book.last, book.ticks, WICK_QUERY_GROUP_NUMBERS, (uint32_t)i).refusal != 0;
        } else {
            given_up += give_up(book.asked, book.ticks, 10, input[0] == 2 ? 10 : 9);
            if (input[0] == 3) fill(&book);
        }
    }
    printf("%ld calls refused, %ld requests given up\n", refused, given_up);
    return 0;
}
