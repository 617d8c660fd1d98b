/* Says what a datagram is. Its bytes are the arguments, in hexadecimal:  datagram A3 07 01 B1 14
   Behind -2 events have targets of two bytes, not of three:  datagram -2 5A 43 7C BA CC 2F 40 2E 00 3B 00 01 05 6D */
#include <stdio.h>
#include <stdlib.h>
#include <string.h>
#include "wickanchor.h"

static void bytes(const uint8_t *data, uint64_t n) {
    for (uint64_t i = 0; i < n; i++) printf(" %02X", data[i]);
}

static const char *name(uint8_t kind, uint8_t number) {
    static uint8_t text[WICK_NAME_MOST + 1];
    text[wick_name(kind, number, text, WICK_NAME_MOST).count] = 0;
    return (const char *)text;
}

static void colour(struct wick_colour c) {
    if (c.kind == WICK_COLOUR_XY) printf(" x %u y %u", c.x, c.y);
    else if (c.kind == WICK_COLOUR_TC) printf(" temperature %u", c.tc);
    else printf(" red %u green %u blue %u white %u amber %u free %u", c.red, c.green, c.blue, c.white, c.amber, c.free);
}

int main(int argc, char **argv) {
    uint8_t d[256];
    uint64_t n = 0;
    int two = argc > 1 && strcmp(argv[1], "-2") == 0;
    for (int i = 1 + two; i < argc && n < sizeof d; i++) d[n++] = (uint8_t)strtoul(argv[i], NULL, 16);

    struct wick_request q = wick_request(d, n);
    struct wick_reply r = wick_reply(d, n);
    struct wick_event v = two ? wick_event_two(d, n) : wick_event(d, n);
    if (!q.refusal && q.command == WICK_DALI_COLOUR) {
        printf("request %u: %s of target %u, level %u,", q.sequence, name(WICK_KIND_COMMAND, q.command), q.colour.target, q.colour.level);
        colour(q.colour);
    } else if (!q.refusal) {
        printf("request %u: %s, arguments %u %u %u %u", q.sequence, name(WICK_KIND_COMMAND, q.command), q.a, q.b, q.c, q.d);
        if (q.retired) printf(", retired");
    } else if (!r.refusal) {
        struct wick_code e = wick_error_code(d, n);
        printf("reply %u: %s, data", r.sequence, name(WICK_KIND_REPLY_TYPE, r.kind));
        bytes(d + r.data_at, r.n);
        if (e.has_code) printf(", error %s", name(WICK_KIND_ERROR, e.code));
    } else if (!v.refusal) {
        printf("event: %s of target %u, data", name(WICK_KIND_EVENT_TYPE, v.kind), (unsigned)v.target);
        bytes(d + v.data_at, v.n);
    } else {
        printf("refused: %u as a request, %u as a reply, %u as an event", q.refusal, r.refusal, v.refusal);
    }
    printf("\n");
    return q.refusal && r.refusal && v.refusal;
}
