/* A year of thirty million events kept as a program in C does (include/wickanchor.h): each is written, and appended by the mark that the one
 * before handed back. Then the capture is opened, counted afresh and found as a prefix, whole and cut by one byte. It prints how many records
 * and bytes there are, how many calls were refused, and whether the three agree with what was handed back at the end. bench/speed runs it. */
#include "wickanchor.h"

int printf(const char *format, ...);

static uint8_t buf[700000000], data[1], frame[WICK_EVENT_MOST];
static const struct wick_mac mac = {{0x7C, 0xBA, 0xCC, 0x2F, 0x40, 0x2E}};

static const char *same(struct wick_summary a, struct wick_summary b)
{
    int s = a.records == b.records && a.has_first == b.has_first && a.has_last == b.has_last && a.first == b.first && a.last == b.last;
    for (int i = 0; i < WICK_COUNTS; i++) s = s && a.counts[i] == b.counts[i];
    return s ? "agrees" : "DIFFERS";
}

int main(void)
{
    struct wick_capture k = wick_capture_empty(WICK_CAPTURE_THREE, buf, sizeof buf);
    long refused = 0;
    for (uint32_t i = 0; i < 30000000; i++) {
        uint64_t n = wick_write_event(mac, i % 65536, (uint8_t)(i % 13), data, sizeof data, frame, sizeof frame).count;
        k = wick_capture_append_at(buf, sizeof buf, k.mark, k.summary, i, frame, n);
        refused += k.refusal != 0;
    }
    uint64_t used = k.mark.used;
    struct wick_mark m = wick_capture_open(buf, sizeof buf, used).mark;
    printf("%u records, %lu bytes, %ld refused\n", k.summary.records, (unsigned long)used, refused);
    printf("opened: %s\n", m.used == used && m.last == k.mark.last ? "agrees" : "DIFFERS");
    printf("counted: %s\n", same(wick_capture_count(buf, sizeof buf, used).summary, k.summary));
    printf("prefix: %s\n", same(wick_capture_prefix(buf, sizeof buf, used).summary, k.summary));
    printf("prefix, cut by a byte: %u records\n", wick_capture_prefix(buf, sizeof buf, used - 1).summary.records);
    return 0;
}
