/* Answers calls of docs/BENCH.md by the functions of include/wickanchor.h: a line of standard input, a line of standard output. Only calls
   that are whole are handed to it (checks/c sees to that). With any argument it lists the calls that it knows. */
#include <stdio.h>
#include <stdlib.h>
#include <string.h>
#include "wickanchor.h"

struct group {
    uint8_t *bytes;
    uint64_t n;
};

static struct group g[3];
static struct wick_book book;
static struct wick_reader readers[2];

/* The capture: its buffer in memory of its own size, how many bytes are in use, summary and mark */
static struct group kept;
static uint64_t used;
static struct wick_summary summary;
static struct wick_mark mark;

/* The report between two parts: zeros are one that was begun with zeros */
static struct wick_seasons_state so_far;

/* Answers are made of these */
static void hex(const uint8_t *bytes, uint64_t n) {
    for (uint64_t i = 0; i < n; i++) printf(" %02X", bytes[i]);
}

static void number(const char *word, uint64_t n) { printf(" %s %llu", word, (unsigned long long)n); }

static uint64_t high_first(const uint8_t *bytes, int n) {
    uint64_t x = 0;
    for (int i = 0; i < n; i++) x = x * 256 + bytes[i];
    return x;
}

static uint32_t four(const uint8_t *bytes) { return (uint32_t)high_first(bytes, 4); }

static void numbered(const char *word, struct wick_number r) {
    printf("%u", r.refusal);
    if (!r.refusal) number(word, r.number);
    else if (r.number) printf(" NOT 0");
}

static void aim(struct wick_aim a) {
    static const char *const words[] = {" NONE", " gear", " group", " broadcast", " no target"};
    printf("%s", words[a.kind]);
    if (a.kind == WICK_AIM_GEAR || a.kind == WICK_AIM_GROUP) printf(" %u", a.number);
}

/* A lent buffer: a copy of the last group, in memory of its own size, NULL where it has none */
static uint8_t *lent(struct group b) {
    uint8_t *out = b.n ? malloc(b.n) : NULL;
    if (b.n) memcpy(out, b.bytes, b.n);
    return out;
}

static void wrote(struct wick_wrote w, struct group b, uint8_t *out) {
    printf("%u", w.refusal);
    if (!w.refusal) number("count", w.count);
    else if (w.count) printf(" NOT 0");
    printf(" before");
    hex(b.bytes, b.n);
    printf(" after");
    hex(out, b.n);
    free(out);
}

static void type_name(uint8_t kind) {
    uint8_t text[WICK_NAME_MOST];
    struct wick_wrote w = wick_name(WICK_KIND_EVENT_TYPE, kind, text, sizeof text);
    printf("%.*s", w.refusal ? 5 : (int)w.count, w.refusal ? "OTHER" : (const char *)text);
}

static void name(void) {
    uint8_t *out = lent(g[1]);
    wrote(wick_name(g[0].bytes[0], g[0].bytes[1], out, g[1].n), g[1], out);
}

static void meaning(struct wick_meaning m) {
    switch (m.kind) {
    case WICK_MEANS_NOTHING: printf(" nothing"); break;
    case WICK_MEANS_GROUP: number("group", m.first); break;
    case WICK_MEANS_EMIT: number("emit", m.first); break;
    case WICK_MEANS_TIMERS: number("device", m.first); number("instance", m.second); break;
    case WICK_MEANS_GROUP_SCENE: number("group", m.first); number("scene", m.second); break;
    case WICK_MEANS_CHANNEL: number("universe", m.first); number("channel", m.wide); break;
    case WICK_MEANS_FILTER: number("address", m.first); number("instance", m.second); number("mask", m.wide); break;
    case WICK_MEANS_QUERY: number("address", m.first); number("start", m.second); number("instance", m.third); break;
    case WICK_MEANS_GEAR: number("gear", m.first); break;
    case WICK_MEANS_INHIBIT: aim(m.aim); number("seconds", m.wide); break;
    case WICK_MEANS_SCENE: aim(m.aim); number("scene", m.first); break;
    case WICK_MEANS_LEVEL: aim(m.aim); number("level", m.first); break;
    case WICK_MEANS_LIT: aim(m.aim); break;
    case WICK_MEANS_TARGET: aim(m.aim); break;
    default: printf(" NO MEANING");
    }
}

/* Whether the channels of types other than this are 0 */
static void other_channels(struct wick_colour c, uint8_t kind) {
    if (kind != WICK_COLOUR_XY && (c.x | c.y)) printf(" NOT 0");
    if (kind != WICK_COLOUR_TC && c.tc) printf(" NOT 0");
    if (kind != WICK_COLOUR_RGBWAF && (c.red | c.green | c.blue | c.white | c.amber | c.free)) printf(" NOT 0");
}

/* Of a request that is no colour request all is 0 */
static void colourless(struct wick_colour c) {
    if (c.kind | c.target | c.aim.kind | c.aim.number | c.level) printf(" NOT 0");
    other_channels(c, WICK_COLOUR_NONE);
}

static void colour(struct wick_colour c) {
    number("target", c.target);
    aim(c.aim);
    number("level", c.level);
    other_channels(c, c.kind);
    switch (c.kind) {
    case WICK_COLOUR_XY: printf(" xy %u %u", c.x, c.y); break;
    case WICK_COLOUR_TC: number("tc", c.tc); break;
    case WICK_COLOUR_RGBWAF: printf(" rgbwaf %u %u %u %u %u %u", c.red, c.green, c.blue, c.white, c.amber, c.free); break;
    default: printf(" NO COLOUR");
    }
}

/* Whether a struct is 0 behind its first byte, the refusal. Only for structs without gaps. */
static void cleared(const void *r, size_t size) {
    for (size_t i = 1; i < size; i++)
        if (((const uint8_t *)r)[i]) printf(" NOT 0");
}

/* Datagrams */
static void contents(struct wick_request r) {
    if (r.command == WICK_DALI_COLOUR) {
        if (r.a | r.b | r.c | r.d | r.port | r.meaning.kind | r.address.bytes[0]) printf(" NOT 0");
        colour(r.colour);
        return;
    }
    colourless(r.colour);
    if (r.command == WICK_SET_TPI_EVENT_UNICAST_ADDRESS) {
        number("port", r.port);
        printf(" address %u %u %u %u", r.address.bytes[0], r.address.bytes[1], r.address.bytes[2], r.address.bytes[3]);
        return;
    }
    printf(" arguments %02X %02X %02X %02X", r.a, r.b, r.c, r.d);
    meaning(r.meaning);
}

static void request(void) {
    struct wick_request r = wick_request(g[0].bytes, g[0].n);
    printf("%u", r.refusal);
    if (r.refusal) {
        if (r.sequence | r.command | r.a | r.b | r.c | r.d | r.retired | r.port | r.meaning.kind | r.address.bytes[0]) printf(" NOT 0");
        colourless(r.colour);
        return;
    }
    number("sequence", r.sequence);
    printf(" command %02X", r.command);
    contents(r);
    if (r.retired) printf(r.retired == 1 ? " retired" : " NO MARK");
}

static void write_basic(void) {
    const uint8_t *b = g[0].bytes;
    uint8_t *out = lent(g[1]);
    wrote(wick_write_basic(b[0], b[1], b[2], b[3], b[4], b[5], out, g[1].n), g[1], out);
}

static void write_unicast(void) {
    const uint8_t *b = g[0].bytes;
    struct wick_address a = {{b[3], b[4], b[5], b[6]}};
    uint8_t *out = lent(g[1]);
    wrote(wick_write_unicast(b[0], (uint16_t)high_first(b + 1, 2), a, out, g[1].n), g[1], out);
}

static void write_colour_xy(void) {
    const uint8_t *b = g[0].bytes;
    uint8_t *out = lent(g[1]);
    wrote(wick_write_colour_xy(b[0], b[1], b[2], (uint16_t)high_first(b + 3, 2), (uint16_t)high_first(b + 5, 2), out, g[1].n), g[1], out);
}

static void write_colour_tc(void) {
    const uint8_t *b = g[0].bytes;
    uint8_t *out = lent(g[1]);
    wrote(wick_write_colour_tc(b[0], b[1], b[2], (uint16_t)high_first(b + 3, 2), out, g[1].n), g[1], out);
}

static void write_colour_rgbwaf(void) {
    const uint8_t *b = g[0].bytes;
    uint8_t *out = lent(g[1]);
    wrote(wick_write_colour_rgbwaf(b[0], b[1], b[2], b[3], b[4], b[5], b[6], b[7], b[8], out, g[1].n), g[1], out);
}

static void write_basic_quiet(void) {
    const uint8_t *b = g[0].bytes;
    uint8_t *out = lent(g[1]);
    wrote(wick_write_basic_quiet(b[0], b[1], b[2], b[3], b[4], b[5], out, g[1].n), g[1], out);
}

static void write_unicast_quiet(void) {
    const uint8_t *b = g[0].bytes;
    struct wick_address a = {{b[3], b[4], b[5], b[6]}};
    uint8_t *out = lent(g[1]);
    wrote(wick_write_unicast_quiet(b[0], (uint16_t)high_first(b + 1, 2), a, out, g[1].n), g[1], out);
}

static void write_colour_xy_quiet(void) {
    const uint8_t *b = g[0].bytes;
    uint8_t *out = lent(g[1]);
    wrote(wick_write_colour_xy_quiet(b[0], b[1], b[2], (uint16_t)high_first(b + 3, 2), (uint16_t)high_first(b + 5, 2), out, g[1].n), g[1], out);
}

static void write_colour_tc_quiet(void) {
    const uint8_t *b = g[0].bytes;
    uint8_t *out = lent(g[1]);
    wrote(wick_write_colour_tc_quiet(b[0], b[1], b[2], (uint16_t)high_first(b + 3, 2), out, g[1].n), g[1], out);
}

static void write_colour_rgbwaf_quiet(void) {
    const uint8_t *b = g[0].bytes;
    uint8_t *out = lent(g[1]);
    wrote(wick_write_colour_rgbwaf_quiet(b[0], b[1], b[2], b[3], b[4], b[5], b[6], b[7], b[8], out, g[1].n), g[1], out);
}

static void relay(struct wick_wrote (*f)(const uint8_t *, uint64_t, uint8_t *, uint64_t)) {
    uint8_t *out = lent(g[1]);
    wrote(f(g[0].bytes, g[0].n, out, g[1].n), g[1], out);
}

static void relay_request(void) { relay(wick_relay_request); }
static void relay_reply(void) { relay(wick_relay_reply); }
static void relay_event(void) { relay(wick_relay_event); }
static void relay_event_two(void) { relay(wick_relay_event_two); }

static void reply(void) {
    struct wick_reply r = wick_reply(g[0].bytes, g[0].n);
    printf("%u", r.refusal);
    if (r.refusal) {
        if (r.kind || r.sequence || r.data_at || r.n) printf(" NOT 0");
        return;
    }
    printf(" type %02X", r.kind);
    number("sequence", r.sequence);
    number("n", r.n);
}

static void reply_data(void) {
    struct wick_reply r = wick_reply(g[0].bytes, g[0].n);
    printf("0 data");
    if (r.n) hex(g[0].bytes + r.data_at, r.n);
}

static void error_code(void) {
    struct wick_code r = wick_error_code(g[0].bytes, g[0].n);
    printf("%u", r.refusal);
    if (r.refusal) {
        cleared(&r, sizeof r);
        return;
    }
    if (!r.has_code) printf(" absent");
    else printf(" code %02X", r.code);
    if (r.name) number("name", r.name);
}

static void write_reply(void) {
    uint8_t *out = lent(g[2]);
    wrote(wick_write_reply(g[0].bytes[0], g[0].bytes[1], g[1].bytes, g[1].n, out, g[2].n), g[2], out);
}

static void told(struct wick_event e) {
    printf("%u", e.refusal);
    if (e.refusal) {
        if (e.kind || e.instance || e.has_instance || e.mac.bytes[0] || e.target || e.data_at || e.n) printf(" NOT 0");
        return;
    }
    printf(" mac");
    hex(e.mac.bytes, 6);
    number("target", e.target);
    number("type", e.kind);
    putchar(' ');
    type_name(e.kind);
    number("n", e.n);
    if (e.has_instance) number("instance", e.instance);
    else printf(" instance absent");
}

static void part(struct wick_event e) {
    printf("0 data");
    if (e.n) hex(g[0].bytes + e.data_at, e.n);
}

static void event(void) { told(wick_event(g[0].bytes, g[0].n)); }
static void event_two(void) { told(wick_event_two(g[0].bytes, g[0].n)); }
static void event_data(void) { part(wick_event(g[0].bytes, g[0].n)); }
static void event_two_data(void) { part(wick_event_two(g[0].bytes, g[0].n)); }

static void event_by(struct wick_wrote (*f)(struct wick_mac, uint32_t, uint8_t, const uint8_t *, uint64_t, uint8_t *, uint64_t)) {
    struct wick_mac mac;
    memcpy(mac.bytes, g[0].bytes, 6);
    uint8_t *out = lent(g[2]);
    wrote(f(mac, (uint32_t)high_first(g[0].bytes + 6, 4), g[0].bytes[10], g[1].bytes, g[1].n, out, g[2].n), g[2], out);
}

static void write_event(void) { event_by(wick_write_event); }
static void write_event_two(void) { event_by(wick_write_event_two); }

static void sum(void) { printf("0 sum %02X", wick_sum(g[0].bytes, g[0].n)); }
static void known(void) { printf(wick_known(g[0].bytes[0]) ? "0 known" : "0 unknown"); }
static void inside(void) { printf(wick_inside(g[0].bytes[0]) ? "0 inside" : "0 outside"); }

static void table(void) {
    struct wick_entry e = wick_table(g[0].bytes[0]);
    printf("0 shape %u rule %u", e.shape, e.rule);
}

static void event_type(void) {
    printf("0 type %u ", g[0].bytes[0]);
    type_name(g[0].bytes[0]);
}

static void error_name(void) {
    uint8_t n = wick_error_name(g[0].bytes[0]);
    printf("0");
    if (n) number("name", n);
    else printf(" none");
}

/* Targets and reply data */
static void group_target(void) { numbered("target", wick_group_target(g[0].bytes[0])); }
static void device(void) { numbered("device", wick_device(g[0].bytes[0])); }
static void device_number(void) { numbered("number", wick_device_number(g[0].bytes[0])); }

static void lights(void) {
    printf("0");
    aim(wick_lights(g[0].bytes[0]));
}

static void status(void) {
    printf("0");
    aim(wick_status(g[0].bytes[0]));
}

static void mask(void) { numbered("bits", wick_mask(g[0].bytes, g[0].n)); }
static void scenes(void) { numbered("bits", wick_scenes(g[0].bytes, g[0].n)); }
static void gear(void) { numbered("bits", wick_gear(g[0].bytes, g[0].n)); }
static void types(void) { numbered("bits", wick_types(g[0].bytes, g[0].n)); }

static void count_types(void) {
    printf("0");
    number("count", wick_count_types((uint16_t)high_first(g[0].bytes, 2)));
}

static void count_gear(void) {
    printf("0");
    number("count", wick_count_gear(high_first(g[0].bytes, 8)));
}

static void lowest_type(void) { numbered("lowest", wick_lowest_type((uint16_t)high_first(g[0].bytes, 2))); }
static void lowest_gear(void) { numbered("lowest", wick_lowest_gear(high_first(g[0].bytes, 8))); }

static void filters(void) {
    struct wick_filters r = wick_filters(g[0].bytes, g[0].n);
    printf("%u", r.refusal);
    if (r.refusal) {
        if (r.mode || r.entries) printf(" NOT 0");
        return;
    }
    number("mode", r.mode);
    number("entries", r.entries);
}

static void filter(void) {
    struct wick_filter r = wick_filter(g[1].bytes, g[1].n, high_first(g[0].bytes, 8));
    printf("%u", r.refusal);
    if (r.refusal) {
        if (r.address || r.instance || r.mask) printf(" NOT 0");
        return;
    }
    number("address", r.address);
    number("instance", r.instance);
    number("mask", r.mask);
}

/* The book */
static void book_fresh(void) {
    book = wick_book();
    printf("0");
}

static void book_set(void) {
    memset(&book, 0, sizeof book);
    if (g[1].n) memcpy(book.asked, g[1].bytes, g[1].n);
    book.last = g[0].bytes[0];
    for (uint64_t i = 0; i < g[2].n; i++) book.ticks[i / 4] |= (uint32_t)g[2].bytes[i] << (8 * (3 - i % 4));
    printf("0");
}

static void book_show(void) {
    printf("0 last %u held", book.last);
    for (int i = 0; i < 256; i++)
        if (book.asked[i]) printf(" %02X %02X %lu", i, book.asked[i], (unsigned long)book.ticks[i]);
}

static void ask(void) {
    struct wick_booked r = wick_ask(book.asked, &book.last, book.ticks, g[0].bytes[0], four(g[0].bytes + 1));
    printf("%u", r.refusal);
    if (!r.refusal) number("number", r.answer);
    else if (r.answer) printf(" NOT 0");
}

static void answer(void) {
    struct wick_booked r = wick_answer(book.asked, g[0].bytes[0]);
    printf("%u", r.refusal);
    if (!r.refusal) printf(" command %02X", r.answer);
    else if (r.answer) printf(" NOT 0");
}

static void give_up(void) {
    printf("0 freed %u", wick_give_up(book.asked, book.ticks, four(g[0].bytes), four(g[0].bytes + 4)));
}

/* Lines */
static void fresh(int line) {
    readers[line] = wick_reader();
    printf("0");
}

static void hold(int line) {
    memset(&readers[line], 0, sizeof readers[line]);
    if (g[1].n) memcpy(readers[line].bytes, g[1].bytes, g[1].n);
    readers[line].len = high_first(g[0].bytes, 8);
    printf("0");
}

static void item(struct wick_given r) {
    number("item", r.item);
    number("count", r.count);
    printf(" bytes");
    hex(r.bytes, r.count);
    for (uint64_t i = r.count; i < sizeof r.bytes; i++)
        if (r.bytes[i]) printf(" NOT 0");
}

static void feed(int line) {
    struct wick_given r = wick_feed((uint8_t)line, readers[line], g[0].bytes, g[0].n);
    readers[line] = r.reader;
    printf("0");
    number("taken", r.taken);
    if (r.has_item) item(r);
    else printf(" nothing");
}

static void close_(int line) {
    struct wick_given r = wick_close((uint8_t)line, readers[line]);
    readers[line] = r.reader;
    printf("0");
    if (r.has_item) item(r);
    else printf(" empty");
}

static void show(int line) {
    uint64_t n = readers[line].len;
    printf("0");
    number("held", n);
    printf(" bytes");
    hex(readers[line].bytes, n < sizeof readers[line].bytes ? n : sizeof readers[line].bytes);
}

static void item_at(int line) {
    struct wick_item r = wick_item_at((uint8_t)line, g[0].bytes[0], g[1].bytes, g[1].n);
    printf("0");
    if (r.has_item) {
        number("item", r.item);
        number("count", r.count);
    } else printf(" nothing");
}

/* Where a run does not pass, what is before the item that is named passes, and that item stands there. */
static void quiet(void) {
    struct wick_quiet r = wick_quiet(g[0].bytes, g[0].n);
    struct wick_item at = {0, 0, 0};
    if (!r.passes && r.place < g[0].n) at = wick_item_at(WICK_REQUEST_LINE, 1, g[0].bytes + r.place, g[0].n - r.place);
    printf(r.passes ? "0 yes" : "0 no");
    if (r.passes ? r.passes != 1 || r.item || r.place || r.count
                 : !wick_quiet(g[0].bytes, r.place).passes || !at.has_item || at.item != r.item || at.count != r.count)
        printf(" NO SUCH ITEM");
}

/* Whether a plan's filters hide an event. */
static int hides(const struct wick_plan_left *left, const uint8_t *event) {
    for (uint64_t i = 0; i < left->count; i++)
        if (left->filters[i].address == event[0] && left->filters[i].instance == event[1])
            return event[2] <= WICK_PLAN_TYPE_MOST && left->filters[i].mask >> event[2] & 1;
    return 0;
}

/* The answer is that of the filters that the plan leaves, and an event is hidden since a request exactly where a filter hides it; up to that request it is
   not, and with it it is. */
static void plan(void) {
    struct wick_plan r = wick_plan(g[0].bytes, g[0].n, g[1].bytes, g[1].n);
    struct wick_plan_left left = wick_plan_left(g[0].bytes, g[0].n);
    uint64_t first = 0;
    while (first < g[1].n / WICK_PLAN_WANTED_BYTES && !hides(&left, g[1].bytes + WICK_PLAN_WANTED_BYTES * first)) first++;
    printf("%u", r.refusal);
    if (r.answer == WICK_PLAN_YES) printf(" yes");
    else number(r.answer == WICK_PLAN_REQUEST ? "request" : "hidden", r.place);
    if (r.refusal != left.refusal || (r.refusal ? r.answer != WICK_PLAN_REQUEST || r.place != left.request : left.request != 0)
        || (!r.refusal && (first < g[1].n / WICK_PLAN_WANTED_BYTES ? r.answer != WICK_PLAN_HIDDEN || r.place != first : r.answer || r.place)))
        printf(" NO SUCH ANSWER");
    for (uint64_t i = 0; i < WICK_PLAN_FILTERS_MOST; i++) {
        const struct wick_plan_filter f = left.filters[i];
        if (i < left.count ? !f.mask : f.address || f.instance || f.mask) printf(" NO SUCH FILTER");
    }
    if (left.count > WICK_PLAN_FILTERS_MOST) printf(" TOO MANY");
    for (uint64_t j = 0; !r.refusal && j < g[1].n / WICK_PLAN_WANTED_BYTES; j++) {
        const uint8_t *e = g[1].bytes + WICK_PLAN_WANTED_BYTES * j;
        struct wick_plan_since s = wick_plan_since(g[0].bytes, g[0].n, e[0], e[1], e[2]);
        if (s.hidden != hides(&left, e) || (!s.hidden && s.request)) printf(" NO SUCH TRACE");
        if (s.hidden) {
            const uint64_t before = WICK_PLAN_REQUEST_BYTES * s.request;
            struct wick_plan_left until = wick_plan_left(g[0].bytes, before), with = wick_plan_left(g[0].bytes, before + WICK_PLAN_REQUEST_BYTES);
            if (hides(&until, e) || !hides(&with, e)) printf(" NOT SINCE");
        }
    }
}

/* Clocks. One that was read is written as it stood, in no byte more or less. */
static void clock(void) {
    struct wick_clock_read r = wick_clock(g[0].bytes[0], g[1].bytes, g[1].n);
    const struct wick_clock c = r.clock;
    uint8_t text[WICK_CLOCK_MOST];
    struct wick_wrote w = wick_write_clock(c, text, sizeof text);
    printf("%u", r.refusal);
    if (r.refusal) {
        cleared(&r, sizeof r);
        return;
    }
    printf(" time %u %u %u weekdays %02X day %u month %u year %u offset ", c.hour, c.minute, c.second, c.weekdays, c.day, c.month, c.year);
    if (c.offset == WICK_OFFSET_NONE) printf("absent");
    else printf("%s %u %u %u", c.offset == WICK_OFFSET_LATER ? "later" : "earlier", c.offset_hour, c.offset_minute, c.offset_second);
    if (c.offset > WICK_OFFSET_EARLIER || (!c.offset && (c.offset_hour | c.offset_minute | c.offset_second))) printf(" NO SUCH OFFSET");
    if (w.refusal || w.count != g[1].n || memcmp(text, g[1].bytes, w.count)) printf(" NOT THE SAME");
}

static int32_t seconds_in(uint8_t hour, uint8_t minute, uint8_t second) { return (hour * 60 + minute) * 60 + second; }

/* Where a clock runs, it is at its time with its offset. */
static void clock_runs(void) {
    const uint8_t *b = g[0].bytes;
    struct wick_clock_runs r = wick_clock_runs(b[0], (uint16_t)high_first(b + 1, 2), b[3], b[4], b[5], g[1].bytes, g[1].n);
    const struct wick_clock c = wick_clock(b[0], g[1].bytes, g[1].n).clock;
    const int32_t by = seconds_in(c.offset_hour, c.offset_minute, c.offset_second);
    const int32_t at = seconds_in(c.hour, c.minute, c.second) + (c.offset == WICK_OFFSET_EARLIER ? -by : by);
    printf("%u", r.refusal);
    if (r.runs) printf(" second %ld", (long)r.second);
    else if (!r.refusal) printf(" idle");
    if (r.runs ? r.runs != 1 || r.refusal || r.second != at : r.second) printf(" NO SUCH SECOND");
}

/* What was written is read as the clock that was handed in: without a span where it has no offset, and every number of an offset but 0 and 1 as 2. */
static void write_clock(void) {
    const uint8_t *b = g[0].bytes;
    struct wick_clock c = {b[0], b[1], b[2], b[3], b[4], b[5], b[6], b[7], b[8], b[9], b[10]};
    uint8_t *out = lent(g[1]);
    struct wick_wrote w = wick_write_clock(c, out, g[1].n);
    struct wick_clock_read r = wick_clock(c.offset, out, w.count);
    if (c.offset > WICK_OFFSET_EARLIER) c.offset = WICK_OFFSET_EARLIER;
    if (!c.offset) c.offset_hour = c.offset_minute = c.offset_second = 0;
    wrote(w, g[1], out);
    if (!w.refusal && (r.refusal || memcmp(&r.clock, &c, sizeof c))) printf(" NOT THE SAME");
}

static void fresh_request(void) { fresh(WICK_REQUEST_LINE); }
static void fresh_reply(void) { fresh(WICK_REPLY_LINE); }
static void hold_request(void) { hold(WICK_REQUEST_LINE); }
static void hold_reply(void) { hold(WICK_REPLY_LINE); }
static void feed_request(void) { feed(WICK_REQUEST_LINE); }
static void feed_reply(void) { feed(WICK_REPLY_LINE); }
static void close_request(void) { close_(WICK_REQUEST_LINE); }
static void close_reply(void) { close_(WICK_REPLY_LINE); }
static void show_request(void) { show(WICK_REQUEST_LINE); }
static void show_reply(void) { show(WICK_REPLY_LINE); }
static void item_request(void) { item_at(WICK_REQUEST_LINE); }
static void item_reply(void) { item_at(WICK_REPLY_LINE); }

/* The capture */
static void time_(const char *word, uint8_t has, uint32_t seconds) {
    if (has) number(word, seconds);
    else printf(" %s absent", word);
}

static void summary_(struct wick_summary x) {
    number("records", x.records);
    time_("first", x.has_first, x.first);
    time_("last", x.has_last, x.last);
    printf(" counts");
    for (int i = 0; i < WICK_COUNTS; i++) printf(" %u", x.counts[i]);
}

/* What an answer hands over: a flag is 0 or 1, and an absent time 0; a refused call hands over what came in, or nothing at all */
static const struct wick_summary no_summary;
static const struct wick_mark no_mark;

static void plain(uint8_t has, uint32_t seconds) {
    if (has > 1 || (!has && seconds)) printf(" NOT PLAIN");
}

static void same_time(uint8_t a_has, uint32_t a, uint8_t b_has, uint32_t b) {
    if (!a_has != !b_has || (a_has && a != b)) printf(" NOT THE SAME");
}

static void plain_summary(struct wick_summary x) {
    plain(x.has_first, x.first);
    plain(x.has_last, x.last);
}

static void same_summary(struct wick_summary a, struct wick_summary b) {
    plain_summary(a);
    same_time(a.has_first, a.first, b.has_first, b.first);
    same_time(a.has_last, a.last, b.has_last, b.last);
    if (a.records != b.records) printf(" NOT THE SAME");
    for (int i = 0; i < WICK_COUNTS; i++)
        if (a.counts[i] != b.counts[i]) printf(" NOT THE SAME");
}

static void same_mark(struct wick_mark a, struct wick_mark b) {
    plain(a.has_last, a.last);
    same_time(a.has_last, a.last, b.has_last, b.last);
    if (a.used != b.used) printf(" NOT THE SAME");
}

static void capture_set(void) {
    free(kept.bytes);
    kept.n = g[1].n;
    kept.bytes = lent(g[1]);
    used = high_first(g[0].bytes, 8);
    printf("0");
}

static void summary_set(void) {
    const uint8_t *b = g[0].bytes;
    summary = (struct wick_summary){four(b), b[4], b[9], four(b + 5), four(b + 10), {0}};
    for (int i = 0; i < WICK_COUNTS; i++) summary.counts[i] = four(b + 14 + 4 * i);
    printf("0");
}

static void mark_set(void) {
    const uint8_t *b = g[0].bytes;
    mark = (struct wick_mark){high_first(b, 8), b[8], four(b + 9)};
    printf("0");
}

/* Mark and summary that a call hands over are carried on, beside the bytes in use */
static int carry_at(struct wick_capture r, struct wick_mark m, struct wick_summary x) {
    if (r.refusal) {
        same_mark(r.mark, m);
        same_summary(r.summary, x);
        return 0;
    }
    plain(r.mark.has_last, r.mark.last);
    plain_summary(r.summary);
    used = r.mark.used;
    mark = r.mark;
    summary = r.summary;
    number("used", used);
    return 1;
}

static int carried(struct wick_capture r, struct wick_mark m, struct wick_summary x) {
    printf("%u", r.refusal);
    return carry_at(r, m, x);
}

/* Bytes in use and summary, by the letter */
static void carry(struct wick_appended r) {
    if (r.refusal) {
        if (r.used != used) printf(" NOT THE SAME");
        same_summary(r.summary, summary);
        return;
    }
    plain_summary(r.summary);
    used = r.used;
    summary = r.summary;
    number("used", used);
}

/* How many datagrams of a run went in, and how many were refused */
static void ran(uint8_t refusal, uint64_t entered, uint64_t refused) {
    printf("%u", refusal);
    if (!refusal) {
        number("in", entered);
        number("refused", refused);
    } else if (entered || refused) {
        printf(" NOT 0");
    }
}

static void capture_empty(void) { carried(wick_capture_empty(g[0].bytes[0], kept.bytes, kept.n), no_mark, no_summary); }

static void capture_append(void) {
    struct wick_appended r = wick_capture_append(kept.bytes, kept.n, used, summary, four(g[0].bytes), g[1].bytes, g[1].n);
    printf("%u", r.refusal);
    carry(r);
}

static void capture_append_at(void) {
    carried(wick_capture_append_at(kept.bytes, kept.n, mark, summary, four(g[0].bytes), g[1].bytes, g[1].n), mark, summary);
}

static void capture_run(void) {
    struct wick_ran r = wick_capture_run(kept.bytes, kept.n, used, summary, four(g[0].bytes), g[1].bytes, g[1].n);
    ran(r.refusal, r.entered, r.refused);
    carry((struct wick_appended){r.refusal, r.used, r.summary});
}

static void capture_run_at(void) {
    struct wick_ran_at r = wick_capture_run_at(kept.bytes, kept.n, mark, summary, four(g[0].bytes), g[1].bytes, g[1].n);
    ran(r.refusal, r.entered, r.refused);
    carry_at((struct wick_capture){r.refusal, r.mark, r.summary}, mark, summary);
}

static void capture_open(void) {
    struct wick_opened r = wick_capture_open(kept.bytes, kept.n, used);
    printf("%u", r.refusal);
    if (r.refusal) {
        same_mark(r.mark, no_mark);
        return;
    }
    plain(r.mark.has_last, r.mark.last);
    mark = r.mark;
    number("used", mark.used);
    time_("last", mark.has_last, mark.last);
}

static void capture_count(void) {
    struct wick_counted r = wick_capture_count(kept.bytes, kept.n, used);
    printf("%u", r.refusal);
    if (r.refusal) same_summary(r.summary, no_summary);
    else summary_(r.summary);
}

static void capture_prefix(void) {
    if (carried(wick_capture_prefix(kept.bytes, kept.n, used), no_mark, no_summary)) summary_(summary);
}

static void capture_record(void) {
    struct wick_record r = wick_capture_record(kept.bytes, kept.n, used, high_first(g[0].bytes, 8));
    printf("%u", r.refusal);
    if (r.refusal) {
        if (r.seconds || r.datagram_at || r.n || r.next) printf(" NOT 0");
        return;
    }
    number("seconds", r.seconds);
    printf(" datagram");
    hex(kept.bytes + r.datagram_at, r.n);
    number("next", r.next);
}

static void capture_show(void) {
    printf("0");
    number("used", used);
    printf(" bytes");
    hex(kept.bytes, kept.n);
    summary_(summary);
    number("mark", mark.used);
    time_("last", mark.has_last, mark.last);
}

/* All fields of a season, none of which a refused call may set */
static void season_clear(struct wick_season x) {
    if (x.occupied || x.presses || x.holds || x.has_longest || x.longest || x.total || x.gaps) printf(" NOT 0");
}

static void season(int i, struct wick_season x) {
    plain(x.has_longest, x.longest);
    number("season", (uint64_t)i + 1);
    number("occupied", x.occupied);
    number("presses", x.presses);
    number("holds", x.holds);
    time_("longest", x.has_longest, x.longest);
    number("total", x.total);
    number("gaps", x.gaps);
}

static struct wick_corridor corridor(const uint8_t *b) {
    struct wick_corridor who = {{{0}}, four(b + 6), b[10]};
    memcpy(who.mac.bytes, b, 6);
    return who;
}

static struct wick_boundaries boundaries(const uint8_t *b) { return (struct wick_boundaries){four(b + 11), four(b + 15), four(b + 19)}; }

static void reported(struct wick_seasons r) {
    printf("%u", r.refusal);
    for (int i = 0; i < WICK_SEASONS; i++) {
        if (r.refusal) season_clear(r.seasons[i]);
        else season(i, r.seasons[i]);
    }
}

static void same_season(struct wick_season a, struct wick_season b) {
    same_time(a.has_longest, a.longest, b.has_longest, b.longest);
    if (a.occupied != b.occupied || a.presses != b.presses || a.holds != b.holds || a.total != b.total || a.gaps != b.gaps) printf(" NOT THE SAME");
}

static void same_report(struct wick_seasons a, struct wick_seasons b) {
    if (a.refusal != b.refusal) printf(" NOT THE SAME");
    for (int i = 0; i < WICK_SEASONS; i++) same_season(a.seasons[i], b.seasons[i]);
}

/* A report behind some bytes, in parts of one length */
static struct wick_seasons_state in_parts(struct wick_seasons_state x, const uint8_t *s, uint64_t n, uint64_t length) {
    for (uint64_t at = 0; at < n; at += length) x = wick_seasons_part(x, s + at, n - at < length ? n - at : length);
    return x;
}

/* Whether good records and their bytes are those of the longest good capture at the front */
static void same_place(struct wick_seasons_state x, struct wick_capture front) {
    uint64_t good = front.refusal ? 0 : front.mark.used - WICK_CAPTURE_RECORDS_AT;
    if (x.records != front.summary.records || x.bytes != good) printf(" NOT THE SAME");
    same_time(x.has_last, x.last, front.mark.has_last, front.mark.last);
}

/* The carried capture part by part: in parts of many lengths, and where it is short cut in two at every place */
static void cut(struct wick_corridor who, struct wick_boundaries b, struct wick_seasons whole) {
    static const uint64_t lengths[] = {1, 2, 3, 5, 7, 20, 66, 67, 68, 69, 1000, 1000000};
    struct wick_seasons_state begun = wick_seasons_begin(who, b);
    struct wick_capture front = wick_capture_prefix(kept.bytes, kept.n, used);
    for (size_t i = 0; i < sizeof lengths / sizeof *lengths; i++) {
        struct wick_seasons_state x = in_parts(begun, kept.bytes, used, lengths[i]);
        same_report(wick_seasons_end(x), whole);
        same_place(x, front);
    }
    for (uint64_t at = 0; used < 200 && at <= used && used; at++) {
        struct wick_seasons_state x = wick_seasons_part(wick_seasons_part(begun, kept.bytes, at), kept.bytes + at, used - at);
        same_report(wick_seasons_end(x), whole);
        same_place(x, front);
    }
}

static void seasons(void) {
    struct wick_corridor who = corridor(g[0].bytes);
    struct wick_boundaries b = boundaries(g[0].bytes);
    struct wick_seasons r = wick_capture_seasons(kept.bytes, kept.n, used, who, b);
    reported(r);
    if (used <= kept.n) cut(who, b, r);
}

/* What a call hands back of a report: flags are 0 or 1, an absent time is 0, a refusal stands beside its stage alone, and behind the bytes held
   stand zeros */
static void plain_state(struct wick_seasons_state x) {
    plain(x.has_last, x.last);
    plain(x.has_occupied, x.occupied);
    for (int i = 0; i < WICK_SEASONS; i++) plain(x.seasons[i].has_longest, x.seasons[i].longest);
    if (x.stage > WICK_STAGE_REFUSED || (x.stage == WICK_STAGE_REFUSED) != (x.refusal != 0)) printf(" NOT PLAIN");
    if (x.len > (x.stage == WICK_STAGE_TWO ? WICK_RECORD_TWO_MOST : WICK_RECORD_MOST) - 1u) printf(" NOT PLAIN");
    for (uint64_t i = x.len; i < WICK_SEASONS_HELD; i++)
        if (x.held[i]) printf(" NOT PLAIN");
}

static void same_state(struct wick_seasons_state a, struct wick_seasons_state b) {
    if (a.stage != b.stage || a.refusal != b.refusal || a.records != b.records || a.bytes != b.bytes) printf(" NOT THE SAME");
    same_time(a.has_last, a.last, b.has_last, b.last);
    same_time(a.has_occupied, a.occupied, b.has_occupied, b.occupied);
    for (int i = 0; i < WICK_SEASONS; i++) same_season(a.seasons[i], b.seasons[i]);
    same_report(wick_seasons_end(a), wick_seasons_end(b));
}

static void strange_time(uint8_t *has, uint32_t *seconds, int i) {
    if (*has) *has = (uint8_t)(255 - i);
    else *seconds = 4294967295u - (uint32_t)i;
}

/* The same state as a caller may have made it up: other flags, stages and refusals of the same meaning, noise behind what is held, and where
   nothing is held more than can be, or (by i) a length that no record has */
static struct wick_seasons_state strange(struct wick_seasons_state x, int i) {
    strange_time(&x.has_last, &x.last, i);
    strange_time(&x.has_occupied, &x.occupied, i);
    for (int k = 0; k < WICK_SEASONS; k++) strange_time(&x.seasons[k].has_longest, &x.seasons[k].longest, i);
    if (x.stage == WICK_STAGE_REFUSED) x.stage = (uint8_t)(4 + 251 * (i % 2));
    else x.refusal = (uint8_t)(255 - i);
    memset(x.held + x.len, 0xA5, WICK_SEASONS_HELD - x.len);
    if (!x.len) x.len = i == 0 ? 68 : i == 1 ? 18446744073709551615u : 2;
    return x;
}

static void seasons_begin(void) {
    so_far = wick_seasons_begin(corridor(g[0].bytes), boundaries(g[0].bytes));
    printf("0");
    plain_state(so_far);
    for (int i = 0; i < 3; i++) same_state(wick_seasons_part(strange(so_far, i), NULL, 0), so_far);
}

static void seasons_part(void) {
    struct wick_seasons_state next = wick_seasons_part(so_far, g[0].bytes, g[0].n);
    printf("0");
    plain_state(next);
    for (int i = 0; i < 3; i++) same_state(wick_seasons_part(strange(so_far, i), g[0].bytes, g[0].n), next);
    so_far = next;
}

static void seasons_end(void) {
    struct wick_seasons r = wick_seasons_end(so_far);
    reported(r);
    for (int i = 0; i < 3; i++) same_report(wick_seasons_end(strange(so_far, i)), r);
}

#define CALL(name) {#name, name}
static const struct {
    const char *name;
    void (*call)(void);
} calls[] = {
    CALL(request), CALL(write_basic), CALL(write_unicast), CALL(write_colour_xy), CALL(write_colour_tc), CALL(write_colour_rgbwaf),
    CALL(write_basic_quiet), CALL(write_unicast_quiet), CALL(write_colour_xy_quiet), CALL(write_colour_tc_quiet), CALL(write_colour_rgbwaf_quiet),
    CALL(relay_request), CALL(relay_reply), CALL(relay_event), CALL(relay_event_two),
    CALL(reply), CALL(reply_data), CALL(error_code), CALL(write_reply), CALL(event), CALL(event_data), CALL(write_event),
    CALL(event_two), CALL(event_two_data), CALL(write_event_two),
    CALL(sum), CALL(known), CALL(inside), CALL(table), CALL(error_name), CALL(event_type), CALL(group_target), CALL(device), CALL(device_number), CALL(name),
    CALL(lights), CALL(status), CALL(mask), CALL(scenes), CALL(gear), CALL(types), CALL(count_types), CALL(count_gear),
    CALL(lowest_type), CALL(lowest_gear), CALL(filters), CALL(filter), CALL(book_fresh), CALL(book_set), CALL(book_show), CALL(ask), CALL(answer), CALL(give_up),
    CALL(fresh_request), CALL(fresh_reply), CALL(hold_request), CALL(hold_reply), CALL(feed_request), CALL(feed_reply),
    CALL(close_request), CALL(close_reply), CALL(show_request), CALL(show_reply), CALL(item_request), CALL(item_reply), CALL(quiet),
    CALL(capture_set), CALL(summary_set), CALL(mark_set), CALL(capture_empty), CALL(capture_append), CALL(capture_append_at),
    CALL(capture_run), CALL(capture_run_at), CALL(capture_open), CALL(capture_count), CALL(capture_prefix), CALL(capture_record), CALL(capture_show),
    CALL(seasons), CALL(seasons_begin), CALL(seasons_part), CALL(seasons_end), CALL(plan), CALL(clock), CALL(clock_runs), CALL(write_clock),
};
#define CALLS (sizeof calls / sizeof *calls)

/* The groups of a line, each in memory of its own size, so that a tool that watches memory sees a byte too many */
static void groups(char *words) {
    static uint8_t bytes[4096];
    uint64_t n = 0;
    int k = 0;
    for (char *w = strtok(words, " "); ; w = strtok(NULL, " ")) {
        if (w && *w != '/') {
            bytes[n++] = (uint8_t)strtoul(w, NULL, 16);
            continue;
        }
        g[k].n = n;
        g[k].bytes = n ? malloc(n) : NULL;
        if (n) memcpy(g[k].bytes, bytes, n);
        n = 0;
        k++;
        if (!w || k == 3) return;
    }
}

int main(int argc, char **argv) {
    static char line[8192];
    (void)argv;
    if (argc > 1) {
        for (size_t i = 0; i < CALLS; i++) puts(calls[i].name);
        return 0;
    }
    book = wick_book();
    readers[0] = readers[1] = wick_reader();
    while (fgets(line, sizeof line, stdin)) {
        line[strcspn(line, "\n")] = 0;
        size_t begin = strspn(line, " ");
        size_t end = begin + strcspn(line + begin, " ");
        char more = line[end];
        line[end] = 0;
        memset(g, 0, sizeof g);
        groups(more ? line + end + 1 : line + end);
        size_t i = 0;
        while (i < CALLS && strcmp(calls[i].name, line + begin)) i++;
        if (i < CALLS) calls[i].call();
        else printf("NO SUCH CALL");
        putchar('\n');
        for (int k = 0; k < 3; k++) free(g[k].bytes);
    }
    return 0;
}
