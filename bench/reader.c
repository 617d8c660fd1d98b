/* The reader of a reply line as a program in C uses it (include/wickanchor.h): standard input in parts of 64 KiB, each fed until there is
 * nothing yet, then closed until it is empty. It prints how many items there were and how many bytes they have; bench/speed counts what that
 * takes, and holds the items to those that reply_line prints. */
#include "wickanchor.h"

long read(int fd, void *buf, unsigned long n);
int printf(const char *format, ...);

static uint8_t part[65536];
static unsigned long items, bytes;

static int taken(struct wick_given *given)
{
    items += given->has_item;
    bytes += given->count;
    return given->has_item;
}

int main(void)
{
    struct wick_given given = { .reader = wick_reader() };
    long size;

    while ((size = read(0, part, sizeof part)) > 0) {
        long at = 0;
        do {
            given = wick_feed(WICK_REPLY_LINE, given.reader, part + at, (uint64_t)(size - at));
            at += (long)given.taken;
        } while (taken(&given));
    }
    do {
        given = wick_close(WICK_REPLY_LINE, given.reader);
    } while (taken(&given));
    printf("%lu items of %lu bytes\n", items, bytes);
    return 0;
}
