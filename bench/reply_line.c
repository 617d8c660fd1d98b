/* The rule of a reply line in plain C, as a measure for the program reply_line: it reads standard input to its end and prints
 * one line for each item. Document 01, "Reading a line" and "A small program". It is compiled with -O2 for the same
 * instruction set. It asks no header, so that any x86-64 C compiler will do. */
typedef unsigned char byte;
typedef unsigned long size;

long read(int fd, void *buf, size n);
long write(int fd, const void *buf, size n);

enum { HELD = 67, LONGEST_LINE = 142, IN = 65536, OUT = 65536 };

static byte in[HELD + IN];
static byte out[OUT];

static void put(const byte *s, size n)
{
    while (n > 0) {
        long done = write(1, s, n);
        if (done <= 0)
            return;
        s += done;
        n -= done;
    }
}

/* The number of the item at s, and its length; -1 where more bytes are needed. */
static int settle(const byte *s, size len, size *length)
{
    size i, n;
    byte sum = 0;

    *length = 1;
    if (s[0] < 0xA0 || s[0] > 0xA3)
        return 2;
    if (len < 3)
        return -1;
    if (s[2] > 64)
        return 4;
    n = s[2] + 4;
    if (len < n)
        return -1;
    for (i = 0; i < n; i++)
        sum ^= s[i];
    if (sum != 0)
        return 6;
    *length = n;
    return 0;
}

/* Prints the line of an item at p, and answers the place behind it. */
static byte *print(byte *p, int number, const byte *s, size n)
{
    static const char digits[] = "0123456789ABCDEF";
    size i;

    *p++ = '0' + number;
    *p++ = ' ';
    if (n >= 10)
        *p++ = '0' + n / 10;
    *p++ = '0' + n % 10;
    *p++ = ' ';
    for (i = 0; i < n; i++) {
        *p++ = digits[s[i] >> 4];
        *p++ = digits[s[i] & 15];
    }
    *p++ = '\n';
    return p;
}

int main(void)
{
    byte *p = out;
    size held = 0;
    int closed = 0;

    while (!closed) {
        long got = read(0, in + held, IN);
        size end = held + (got > 0 ? got : 0);
        size at = 0, length;

        closed = got <= 0;
        while (at < end) {
            int number = settle(in + at, end - at, &length);
            if (number < 0) {
                if (!closed)
                    break;
                number = 1;
            }
            if (out + OUT - p < LONGEST_LINE) {
                put(out, p - out);
                p = out;
            }
            p = print(p, number, in + at, length);
            at += length;
        }
        for (held = 0; at < end; at++)
            in[held++] = in[at];
    }
    put(out, p - out);
    return 0;
}
