// The header in C++: it compiles, its functions link, the scenes that it names are the last that requests take, colour requests have the
// sizes and fields that it names and none is longer, what it calls retired is read, marked and not written, 18 commands are
// inside the quiet profile and a run of them passes, a filter plan with a swapped mask is found out, clocks are as long as it names and run when arithmetic
// says, the table of commands has the shapes that it names, the sizes and targets that it names for each layout of events are the ends of theirs, and
// captures, runs of datagrams and seasons, whole and part by part, are as it says.
#include "wickanchor.h"

// What writing a request with these arguments is refused with.
static int refused(uint8_t command, uint8_t a, uint8_t b, uint8_t d) {
    uint8_t out[WICK_BASIC_BYTES];
    return wick_write_basic(0, command, a, b, 0, d, out, sizeof out).refusal;
}

static bool scenes() {
    return refused(WICK_DALI_SCENE, 0xFF, 0, WICK_DALI_SCENE_MOST) == WICK_OK
        && refused(WICK_DALI_SCENE, 0xFF, 0, WICK_DALI_SCENE_MOST + 1) == WICK_BAD_ARGUMENT
        && refused(WICK_QUERY_SCENE_LABEL_FOR_GROUP, 0, WICK_LABELLED_SCENE_MOST, 0) == WICK_OK
        && refused(WICK_QUERY_SCENE_LABEL_FOR_GROUP, 0, WICK_LABELLED_SCENE_MOST + 1, 0) == WICK_BAD_ARGUMENT;
}

// Whether a request line gives a frame of all bytes at its last one, having held all before it.
static bool whole(const uint8_t *frame, uint64_t n) {
    const struct wick_given held = wick_feed(WICK_REQUEST_LINE, wick_reader(), frame, n - 1);
    const struct wick_given last = wick_feed(WICK_REQUEST_LINE, held.reader, frame + n - 1, 1);
    return !held.has_item && held.reader.len == n - 1 && held.reader.len <= WICK_REQUEST_LINE_HELD && last.has_item && last.item == 0
        && last.count == n;
}

// Each type of colour, of group 1 and of both broadcasts: as long as the header says and not longer than its most, with one byte less no
// room, and its fields come back. The longest leaves a line holding the most. 80 is no lighting target, an unlisted type is refused, and
// the writer of basic requests does not take the command.
static bool colours() {
    uint8_t xy[WICK_COLOUR_XY_BYTES], tc[WICK_COLOUR_TC_BYTES], six[WICK_COLOUR_RGBWAF_BYTES], other[WICK_REQUEST_MOST] = {};
    const bool sizes = wick_write_colour_xy(7, 65, 254, 0x1234, 0x5678, xy, sizeof xy).count == sizeof xy
        && wick_write_colour_tc(7, 127, 254, 370, tc, sizeof tc).count == sizeof tc
        && wick_write_colour_rgbwaf(7, 255, 254, 1, 2, 3, 4, 5, 6, six, sizeof six).count == sizeof six
        && sizeof six == WICK_REQUEST_MOST && sizeof six - 1 == WICK_REQUEST_LINE_HELD;
    const bool rooms = wick_write_colour_xy(7, 65, 254, 0, 0, other, sizeof xy - 1).refusal == WICK_NO_ROOM
        && wick_write_colour_tc(7, 127, 254, 0, other, sizeof tc - 1).refusal == WICK_NO_ROOM
        && wick_write_colour_rgbwaf(7, 255, 254, 0, 0, 0, 0, 0, 0, other, sizeof six - 1).refusal == WICK_NO_ROOM
        && wick_write_colour_tc(7, 80, 254, 0, other, sizeof other).refusal == WICK_BAD_ARGUMENT && !other[0];
    const struct wick_colour x = wick_request(xy, sizeof xy).colour, t = wick_request(tc, sizeof tc).colour;
    const struct wick_request r = wick_request(six, sizeof six);
    const struct wick_colour f = r.colour;
    tc[5] = WICK_COLOUR_NONE;
    return sizes && rooms && whole(xy, sizeof xy) && whole(six, sizeof six)
        && x.kind == WICK_COLOUR_XY && x.target == 65 && x.aim.kind == WICK_AIM_GROUP && x.aim.number == 1 && x.x == 0x1234 && x.y == 0x5678
        && t.kind == WICK_COLOUR_TC && t.target == 127 && t.aim.kind == WICK_AIM_BROADCAST && t.level == 254 && t.tc == 370 && !t.x && !t.free
        && r.refusal == WICK_OK && r.sequence == 7 && r.command == WICK_DALI_COLOUR && r.meaning.kind == WICK_MEANS_NONE
        && f.kind == WICK_COLOUR_RGBWAF && f.target == 255 && f.aim.kind == WICK_AIM_BROADCAST && f.red == 1 && f.green == 2 && f.blue == 3
        && f.white == 4 && f.amber == 5 && f.free == 6 && !f.tc
        && wick_request(tc, sizeof tc).refusal == WICK_BAD_LENGTH_BYTE && refused(WICK_DALI_COLOUR, 0, 0, 0) == WICK_UNKNOWN_COMMAND;
}

// The retired command is refused in writing, behind an unknown one and before a bad argument or no room, and in asking; what was written before
// is read and marked, its neighbours are not, and a book that holds it takes its reply.
static bool retired() {
    const uint8_t scenes[] = {0x04, 0x07, WICK_QUERY_SCENE_NUMBERS, 0, 0, 0, 0, 0x04 ^ 0x07 ^ WICK_QUERY_SCENE_NUMBERS};
    uint8_t groups[WICK_BASIC_BYTES], out[WICK_BASIC_BYTES] = {};
    const struct wick_request r = wick_request(scenes, sizeof scenes);
    struct wick_book book = wick_book();
    const struct wick_booked fresh = wick_ask(book.asked, &book.last, book.ticks, WICK_QUERY_SCENE_NUMBERS, 5);
    const bool same = book.last == 255 && !book.ticks[0];
    for (int i = 0; i < 256; i++) book.asked[i] = WICK_QUERY_SCENE_NUMBERS;
    const struct wick_booked none = wick_ask(book.asked, &book.last, book.ticks, WICK_QUERY_SCENE_NUMBERS, 5),
        full = wick_ask(book.asked, &book.last, book.ticks, WICK_QUERY_GROUP_NUMBERS, 5), freed = wick_answer(book.asked, 7);
    return refused(WICK_QUERY_SCENE_NUMBERS, 0, 0, 0) == WICK_RETIRED && refused(WICK_QUERY_SCENE_NUMBERS, 1, 2, 3) == WICK_RETIRED
        && wick_write_basic(0, WICK_QUERY_SCENE_NUMBERS, 1, 0, 0, 0, out, 0).refusal == WICK_RETIRED
        && wick_relay_request(scenes, sizeof scenes, out, sizeof out).refusal == WICK_RETIRED && !out[0]
        && wick_write_basic(7, WICK_QUERY_GROUP_NUMBERS, 0, 0, 0, 0, groups, sizeof groups).count == sizeof groups
        && r.refusal == WICK_OK && r.command == WICK_QUERY_SCENE_NUMBERS && r.sequence == 7 && r.retired == 1 && r.meaning.kind == WICK_MEANS_NOTHING
        && wick_request(groups, sizeof groups).refusal == WICK_OK && wick_request(groups, sizeof groups).retired == 0
        && whole(scenes, sizeof scenes) && wick_known(WICK_QUERY_SCENE_NUMBERS)
        && fresh.refusal == WICK_RETIRED && same && none.refusal == WICK_RETIRED && full.refusal == WICK_NO_NUMBER_FREE
        && freed.refusal == WICK_OK && freed.answer == WICK_QUERY_SCENE_NUMBERS && wick_answer(book.asked, 7).refusal == WICK_NOT_AWAITED;
}

// A request is kept as long as it is no older than the limit, round the end of the clock too, and given up one tick later; so is one that by a
// clock gone back is from tomorrow. Its number is free then, and no other changes. A full book is given up whole, and its last number stays.
static bool given_up() {
    const uint32_t end = 0xFFFFFFFF;
    struct wick_book book = wick_book();
    const struct wick_booked first = wick_ask(book.asked, &book.last, book.ticks, WICK_QUERY_GROUP_NUMBERS, end - 1),
        second = wick_ask(book.asked, &book.last, book.ticks, WICK_QUERY_GROUP_LABEL, 9);
    const bool kept = first.answer == 0 && second.answer == 1 && wick_give_up(book.asked, book.ticks, 9, 11) == 0 && book.asked[0];
    const bool gone = wick_give_up(book.asked, book.ticks, 10, 11) == 1 && !book.asked[0] && book.asked[1] == WICK_QUERY_GROUP_LABEL
        && book.last == 1 && book.ticks[0] == end - 1 && book.ticks[1] == 9 && wick_answer(book.asked, 0).refusal == WICK_NOT_AWAITED;
    const bool back = wick_give_up(book.asked, book.ticks, 8, end) == 0 && wick_give_up(book.asked, book.ticks, 8, end - 1) == 1;
    for (int i = 0; i < 256; i++) book.asked[i] = WICK_QUERY_GROUP_NUMBERS;
    return kept && gone && back && wick_give_up(book.asked, book.ticks, 20, 0) == 256 && book.last == 1 && !book.asked[255];
}

// Under the quiet profile a query is written as without it, and a command that switches is refused behind a bad argument and before no room; a run
// of two queries passes, and the second, where it switches, is named with its place. 18 commands are inside.
static bool quiet() {
    uint8_t run[2 * WICK_BASIC_BYTES], out[WICK_REQUEST_MOST] = {};
    uint8_t *second = run + WICK_BASIC_BYTES;
    const struct wick_address address = {{10, 0, 0, 1}};
    const bool written = wick_write_basic_quiet(7, WICK_QUERY_GROUP_NUMBERS, 0, 0, 0, 0, run, WICK_BASIC_BYTES).count == WICK_BASIC_BYTES
        && wick_write_basic_quiet(8, WICK_QUERY_SCENE_LABEL_FOR_GROUP, 1, 2, 0, 0, second, WICK_BASIC_BYTES).count == WICK_BASIC_BYTES;
    const struct wick_quiet yes = wick_quiet(run, sizeof run), cut = wick_quiet(run, sizeof run - 1), none = wick_quiet(nullptr, 0);
    const bool refuses = wick_write_basic_quiet(7, WICK_DALI_SCENE, 0, 0, 0, WICK_DALI_SCENE_MOST, out, 0).refusal == WICK_OUTSIDE_PROFILE
        && wick_write_basic_quiet(7, WICK_DALI_SCENE, 0, 0, 0, WICK_DALI_SCENE_MOST + 1, out, 0).refusal == WICK_BAD_ARGUMENT
        && wick_write_basic_quiet(7, WICK_QUERY_SCENE_NUMBERS, 0, 0, 0, 0, out, 0).refusal == WICK_RETIRED
        && wick_write_basic_quiet(7, WICK_DALI_COLOUR, 0, 0, 0, 0, out, 0).refusal == WICK_UNKNOWN_COMMAND
        && wick_write_unicast_quiet(7, 5110, address, out, 0).refusal == WICK_OUTSIDE_PROFILE
        && wick_write_colour_xy_quiet(7, 65, 254, 0, 0, out, 0).refusal == WICK_OUTSIDE_PROFILE
        && wick_write_colour_tc_quiet(7, 80, 254, 0, out, 0).refusal == WICK_BAD_ARGUMENT
        && wick_write_colour_rgbwaf_quiet(7, 255, 254, 0, 0, 0, 0, 0, 0, out, sizeof out).refusal == WICK_OUTSIDE_PROFILE && !out[0];
    const bool switches = wick_write_basic(8, WICK_DALI_SCENE, 0, 0, 0, WICK_DALI_SCENE_MOST, second, WICK_BASIC_BYTES).count == WICK_BASIC_BYTES;
    const struct wick_quiet no = wick_quiet(run, sizeof run);
    int inside = 0;
    for (int command = 0; command < 256; command++) inside += wick_inside((uint8_t)command);
    return written && refuses && switches && inside == 18 && wick_inside(WICK_QUERY_SCENE_NUMBERS) && !wick_inside(WICK_DALI_OFF)
        && yes.passes && none.passes && !no.passes && no.item == 0 && no.place == WICK_BASIC_BYTES && no.count == WICK_BASIC_BYTES
        && !cut.passes && cut.item == 1 && cut.place == WICK_BASIC_BYTES && cut.count == 1;
}

// A plan that hides level and colour changes of a corridor passes; with the bytes of its mask swapped it hides presses, since its second request, and
// leaves types 0 and 11. As many filters as the header names fit in, one more does not, and the last type that it names is the last that can be hidden.
static bool plans() {
    uint8_t plan[(WICK_PLAN_FILTERS_MOST + 1) * WICK_PLAN_REQUEST_BYTES];
    const uint8_t wanted[] = {68, 3, 6, 68, 3, 0, 68, 3, 1, 68};
    bool written = wick_write_basic(0, WICK_DALI_ADD_TPI_EVENT_FILTER, 12, 255, 0, 8, plan, 8).count == WICK_PLAN_REQUEST_BYTES
        && wick_write_basic(1, WICK_DALI_ADD_TPI_EVENT_FILTER, 68, 3, 1, 8, plan + 8, 8).count == WICK_PLAN_REQUEST_BYTES;
    const struct wick_plan meant = wick_plan(plan, 16, wanted, sizeof wanted), cut = wick_plan(plan, 15, wanted, sizeof wanted);
    plan[13] = 8;
    plan[14] = 1;
    const struct wick_plan slipped = wick_plan(plan, 16, wanted, sizeof wanted), none = wick_plan(nullptr, 0, nullptr, 0);
    const struct wick_plan_left left = wick_plan_left(plan, 16);
    const struct wick_plan_since since = wick_plan_since(plan, 16, 68, 3, 0), never = wick_plan_since(plan, 16, 68, 3, 3);
    for (unsigned i = 0; i <= WICK_PLAN_FILTERS_MOST; i++)
        written = written && wick_write_basic(0, WICK_DALI_ADD_TPI_EVENT_FILTER, i < 64 ? (uint8_t)i : 64, i < 64 ? 255 : 0, 0x80, 0, plan + 8 * i, 8).count == 8;
    const uint8_t last[] = {0, 255, WICK_PLAN_TYPE_MOST}, beyond[] = {0, 255, WICK_PLAN_TYPE_MOST + 1};
    const struct wick_plan most = wick_plan(plan, sizeof plan - 8, beyond, sizeof beyond), hidden = wick_plan(plan, sizeof plan - 8, last, sizeof last),
        over = wick_plan(plan, sizeof plan, last, sizeof last);
    written = written && wick_write_basic(0, WICK_QUERY_GROUP_NUMBERS, 0, 0, 0, 0, plan, 8).count == 8;
    const struct wick_plan other = wick_plan(plan, 16, last, sizeof last);
    return written && meant.answer == WICK_PLAN_YES && !meant.place && cut.answer == WICK_PLAN_REQUEST && cut.refusal == WICK_TOO_SHORT && cut.place == 1
        && slipped.answer == WICK_PLAN_HIDDEN && !slipped.refusal && slipped.place == 1 && none.answer == WICK_PLAN_YES
        && !left.refusal && left.count == 2 && left.filters[1].address == 68 && left.filters[1].instance == 3 && left.filters[1].mask == 0x0801
        && !left.filters[2].mask && since.hidden == 1 && since.request == 1 && !never.hidden && most.answer == WICK_PLAN_YES
        && hidden.answer == WICK_PLAN_HIDDEN && hidden.place == 0 && over.refusal == WICK_FILTERS_FULL && over.place == WICK_PLAN_FILTERS_MOST
        && other.refusal == WICK_NOT_A_FILTER && other.place == 0;
}

// The bytes of a clock's text.
static const uint8_t *text(const char *words) { return reinterpret_cast<const uint8_t *>(words); }

static uint64_t length(const char *words) {
    uint64_t n = 0;
    while (words[n]) n++;
    return n;
}

// Whether a clock of so many bytes is read, written as it stood where there is just room and not at all with a byte less, and is none with the other flag.
static bool kept(uint8_t astronomical, const char *words, uint64_t n) {
    const struct wick_clock_read r = wick_clock(astronomical, text(words), n);
    uint8_t out[WICK_CLOCK_MOST] = {};
    const bool no_room = wick_write_clock(r.clock, out, n - 1).refusal == WICK_NO_ROOM && !out[0];
    const struct wick_wrote w = wick_write_clock(r.clock, out, n);
    for (uint64_t i = 0; i < n; i++)
        if (out[i] != text(words)[i]) return false;
    return length(words) == n && r.refusal == WICK_OK && no_room && w.refusal == WICK_OK && w.count == n
        && wick_clock(!astronomical, text(words), n).refusal == WICK_NOT_A_CLOCK;
}

// What a clock does on a day of 2026; whether it runs on 1 March, a Sunday, at this second; and whether it does not run then.
static struct wick_clock_runs on(uint8_t month, uint8_t day, uint8_t weekday, uint8_t astronomical, const char *words) {
    return wick_clock_runs(astronomical, 2026, month, day, weekday, text(words), length(words));
}

static bool runs_at(int32_t second, uint8_t astronomical, const char *words) {
    const struct wick_clock_runs r = on(3, 1, 0, astronomical, words);
    return r.refusal == WICK_OK && r.runs == 1 && r.second == second;
}

static bool idle(const char *words) {
    const struct wick_clock_runs r = on(3, 1, 0, 0, words);
    return r.refusal == WICK_OK && !r.runs && !r.second;
}

// The three clocks of the source are as long as the header says and run when arithmetic says; offsets carry others into the day before and the day after, and
// of one of Mondays and one that is switched off no second is told. Small letters are no clock. There is no -00:00:00, and no weekday 7 and no 29 February,
// also where the clock is switched off; a year over 99 is out of range before there is no room. Every number of an offset but 0 and 1 is an earlier one.
static bool clocks() {
    const char *const plain = "14:00:00 7F 01/00/00", *const sunset = "20:38:49 7F 00/00/00 00:30:00", *const sunrise = "07:14:23 41 00/00/00 -00:10:00";
    const char *const off = "14:00:00 FF 00/00/00";
    const struct wick_clock c = wick_clock(1, text(sunrise), WICK_CLOCK_EARLIER_BYTES).clock;
    struct wick_clock other = c, over = c;
    uint8_t out[WICK_CLOCK_MOST];
    other.offset = 200;
    over.year = 100;
    return kept(0, plain, WICK_CLOCK_BYTES) && kept(1, sunset, WICK_CLOCK_LATER_BYTES) && kept(255, sunrise, WICK_CLOCK_EARLIER_BYTES)
        && c.hour == 7 && c.minute == 14 && c.second == 23 && c.weekdays == 0x41 && !c.day && !c.month && !c.year && c.offset == WICK_OFFSET_EARLIER
        && !c.offset_hour && c.offset_minute == 10 && !c.offset_second
        && wick_clock(1, text(sunset), WICK_CLOCK_LATER_BYTES).clock.offset == WICK_OFFSET_LATER
        && runs_at(50400, 0, plain) && runs_at(76129, 1, sunset) && runs_at(25463, 1, sunrise)
        && runs_at(86400, 1, "23:50:00 01 01/03/26 00:10:00") && runs_at(-300, 1, "00:05:00 01 01/03/26 -00:10:00")
        && idle("14:00:00 02 00/00/00") && idle(off) && wick_clock(0, text(off), WICK_CLOCK_BYTES).clock.weekdays & WICK_CLOCK_OFF
        && on(3, 1, 0, 0, "14:00:00 7f 00/00/00").refusal == WICK_NOT_A_CLOCK && on(3, 1, 0, 1, "14:00:00 7F 00/00/00 -00:00:00").refusal == WICK_OUT_OF_RANGE
        && on(3, 1, 7, 0, off).refusal == WICK_OUT_OF_RANGE && on(2, 29, 0, 0, off).refusal == WICK_OUT_OF_RANGE
        && wick_write_clock(other, out, sizeof out).count == WICK_CLOCK_EARLIER_BYTES && out[21] == '-'
        && wick_write_clock(over, out, 0).refusal == WICK_OUT_OF_RANGE;
}

// An event without data is as long as the least that the header names, one of all its data as long as the most and with its data where
// the header says; the header's last target is written and comes back, the next is refused.
struct layout {
    struct wick_event (*read)(const uint8_t *, uint64_t);
    struct wick_wrote (*write)(struct wick_mac, uint32_t, uint8_t, const uint8_t *, uint64_t, uint8_t *, uint64_t);
    uint64_t least, most, data_at;
    uint32_t target;
};

static bool events(const layout &l) {
    const struct wick_mac mac = {{0x7C, 0xBA, 0xCC, 0x2F, 0x40, 0x2E}};
    const uint8_t data[WICK_EVENT_DATA_MOST] = {};
    uint8_t out[WICK_EVENT_MOST];
    const bool least = l.write(mac, l.target, WICK_LEVEL_CHANGE, data, 0, out, sizeof out).count == l.least
        && l.read(out, l.least).refusal == WICK_OK && l.read(out, l.least - 1).refusal == WICK_TOO_SHORT;
    const bool most = l.write(mac, l.target, WICK_LEVEL_CHANGE, data, sizeof data, out, sizeof out).count == l.most;
    const struct wick_event e = l.read(out, l.most);
    return least && most && e.refusal == WICK_OK && e.target == l.target && e.n == sizeof data && e.data_at == l.data_at
        && l.write(mac, l.target + 1, WICK_LEVEL_CHANGE, data, 0, out, sizeof out).refusal == WICK_BAD_ARGUMENT;
}

// The longest event makes the longest record, which stands where the header says, as its datagram does; a type above 9 counts last. Behind
// it a lower time is refused, without its last byte it is bad and lost, and of the next version there is no capture.
static bool captures(const layout &l, uint8_t version, uint64_t most) {
    const struct wick_mac mac = {{0x7C, 0xBA, 0xCC, 0x2F, 0x40, 0x2E}};
    const uint8_t data[WICK_EVENT_DATA_MOST] = {};
    uint8_t event[WICK_EVENT_MOST], buf[WICK_CAPTURE_RECORDS_AT + 2 * WICK_RECORD_MOST];
    const uint64_t n = l.write(mac, l.target, 10, data, sizeof data, event, sizeof event).count;
    const struct wick_capture e = wick_capture_empty(version, buf, sizeof buf);
    const struct wick_capture a = wick_capture_append_at(buf, sizeof buf, e.mark, e.summary, 7, event, n);
    const struct wick_record r = wick_capture_record(buf, sizeof buf, a.mark.used, WICK_CAPTURE_RECORDS_AT);
    return e.refusal == WICK_OK && buf[0] == version && e.mark.used == WICK_CAPTURE_RECORDS_AT && !e.mark.has_last
        && a.refusal == WICK_OK && a.mark.used == WICK_CAPTURE_RECORDS_AT + most && a.mark.has_last && a.mark.last == 7
        && a.summary.records == 1 && a.summary.counts[WICK_COUNTS - 1] == 1
        && r.refusal == WICK_OK && r.datagram_at == WICK_CAPTURE_RECORDS_AT + WICK_RECORD_DATAGRAM_AT && r.n == n && r.next == a.mark.used
        && wick_capture_record(buf, sizeof buf, a.mark.used, r.next).refusal == WICK_NONE_THERE
        && wick_capture_append_at(buf, sizeof buf, a.mark, a.summary, 6, event, n).refusal == WICK_EARLIER_TIME
        && wick_capture_open(buf, sizeof buf, a.mark.used - 1).refusal == WICK_BAD_RECORD
        && wick_capture_prefix(buf, sizeof buf, a.mark.used - 1).mark.used == WICK_CAPTURE_RECORDS_AT
        && wick_capture_empty(WICK_CAPTURE_TWO + 1, buf, sizeof buf).refusal == WICK_UNKNOWN_VERSION;
}

// A run of the longest event and of a length 0: the one goes in, the other is refused, by a mark and by the letter. Without its last byte it
// is refused whole.
static bool runs(const layout &l, uint8_t version, uint64_t most) {
    const struct wick_mac mac = {{0x7C, 0xBA, 0xCC, 0x2F, 0x40, 0x2E}};
    const uint8_t data[WICK_EVENT_DATA_MOST] = {};
    uint8_t run[2 * WICK_RUN_DATAGRAM_AT + WICK_EVENT_MOST] = {}, buf[WICK_CAPTURE_RECORDS_AT + 2 * WICK_RECORD_MOST];
    const uint64_t n = l.write(mac, l.target, 10, data, sizeof data, run + WICK_RUN_DATAGRAM_AT, WICK_EVENT_MOST).count;
    const uint64_t length = n + 2 * WICK_RUN_DATAGRAM_AT;
    run[WICK_RUN_DATAGRAM_AT - 1] = uint8_t(n);
    const struct wick_capture e = wick_capture_empty(version, buf, sizeof buf);
    const struct wick_ran_at a = wick_capture_run_at(buf, sizeof buf, e.mark, e.summary, 7, run, length);
    const struct wick_ran b = wick_capture_run(buf, sizeof buf, a.mark.used, a.summary, 7, run, length);
    return a.refusal == WICK_OK && a.entered == 1 && a.refused == 1 && a.mark.used == WICK_CAPTURE_RECORDS_AT + most && a.mark.has_last
        && a.mark.last == 7 && a.summary.records == 1
        && b.refusal == WICK_OK && b.entered == 1 && b.refused == 1 && b.used == a.mark.used + most && b.summary.records == 2
        && wick_capture_run_at(buf, sizeof buf, a.mark, a.summary, 7, run, length - 1).refusal == WICK_BAD_RECORD;
}

// Whether a season has these counts, and one gap of these seconds, or none.
static bool season(const struct wick_season &s, uint64_t occupied, uint64_t presses, uint64_t holds, bool has_gap, uint32_t gap) {
    return s.occupied == occupied && s.presses == presses && s.holds == holds && s.has_longest == has_gap && s.longest == gap && s.total == gap
        && s.gaps == has_gap;
}

// Occupied events below a boundary, equal to it, above it, and equal to the next: each boundary is the first time of the later season, and
// the one gap that lies in a season goes over a press. A hold lies above all boundaries. Another controller, target or instance has
// nothing. Equal boundaries do not rise, and a capture cut short is refused before them.
static bool seasons(const layout &l, uint8_t version) {
    const struct wick_mac mac = {{0x7C, 0xBA, 0xCC, 0x2F, 0x40, 0x2E}}, other = {{0x7C, 0xBA, 0xCC, 0x2F, 0x40, 0x2F}};
    const struct wick_corridor who = {mac, l.target, 5}, others[] = {{other, l.target, 5}, {mac, l.target - 1, 5}, {mac, l.target, 4}};
    const struct wick_boundaries rise = {20, 30, 40}, low = {20, 20, 40}, high = {20, 40, 40};
    const uint8_t kinds[] = {WICK_IS_OCCUPIED, WICK_IS_OCCUPIED, WICK_BUTTON_PRESS, WICK_IS_OCCUPIED, WICK_IS_OCCUPIED, WICK_BUTTON_HOLD};
    const uint32_t seconds[] = {19, 20, 21, 27, 30, 41};
    uint8_t event[WICK_EVENT_MOST], buf[WICK_CAPTURE_RECORDS_AT + sizeof kinds * WICK_RECORD_MOST];
    struct wick_capture k = wick_capture_empty(version, buf, sizeof buf);
    for (unsigned i = 0; i < sizeof kinds; i++) {
        const uint64_t n = l.write(mac, l.target, kinds[i], &who.instance, 1, event, sizeof event).count;
        k = wick_capture_append_at(buf, sizeof buf, k.mark, k.summary, seconds[i], event, n);
    }
    for (const struct wick_corridor &c : others) {
        const struct wick_seasons none = wick_capture_seasons(buf, sizeof buf, k.mark.used, c, rise);
        for (const struct wick_season &s : none.seasons)
            if (none.refusal != WICK_OK || !season(s, 0, 0, 0, false, 0)) return false;
    }
    const struct wick_seasons r = wick_capture_seasons(buf, sizeof buf, k.mark.used, who, rise);
    return k.refusal == WICK_OK && r.refusal == WICK_OK && season(r.seasons[0], 1, 0, 0, false, 0) && season(r.seasons[1], 2, 1, 0, true, 7)
        && season(r.seasons[2], 1, 0, 0, false, 0) && season(r.seasons[WICK_SEASONS - 1], 0, 0, 1, false, 0)
        && wick_capture_seasons(buf, sizeof buf, k.mark.used, who, low).refusal == WICK_NOT_RISING
        && wick_capture_seasons(buf, sizeof buf, k.mark.used, who, high).refusal == WICK_NOT_RISING
        && wick_capture_seasons(buf, sizeof buf, k.mark.used - 1, who, low).refusal == WICK_BAD_RECORD;
}

// Two of the longest record: all but a byte of the second is held, and tells where it is cut short; with its sum changed it is bad, and tells
// where. Parts behind that change nothing. Of another version it is refused at its first byte, and no byte is no capture. A made-up stage is
// one refused with the number beside it; with 0 nothing is counted.
static bool parts(const layout &l, uint8_t version, uint64_t most) {
    const struct wick_mac mac = {{0x7C, 0xBA, 0xCC, 0x2F, 0x40, 0x2E}};
    const struct wick_corridor who = {mac, l.target, 0};
    const struct wick_boundaries rise = {7, 8, 9};
    const uint8_t data[WICK_EVENT_DATA_MOST] = {}, other = WICK_CAPTURE_TWO + 1;
    uint8_t event[WICK_EVENT_MOST], buf[WICK_CAPTURE_RECORDS_AT + 2 * WICK_RECORD_MOST];
    const uint64_t n = l.write(mac, l.target, WICK_IS_OCCUPIED, data, sizeof data, event, sizeof event).count;
    struct wick_capture k = wick_capture_empty(version, buf, sizeof buf);
    k = wick_capture_append_at(buf, sizeof buf, k.mark, k.summary, 7, event, n);
    const uint64_t second = k.mark.used;
    k = wick_capture_append_at(buf, sizeof buf, k.mark, k.summary, 7, event, n);
    const struct wick_seasons_state fresh = wick_seasons_begin(who, rise);
    const struct wick_seasons_state cut = wick_seasons_part(fresh, buf, k.mark.used - 1);
    const struct wick_seasons_state whole = wick_seasons_part(cut, buf + k.mark.used - 1, 1);
    const uint8_t wrong = uint8_t(buf[k.mark.used - 1] + 1);
    const struct wick_seasons_state bad = wick_seasons_part(cut, &wrong, 1), more = wick_seasons_part(bad, buf, k.mark.used);
    const struct wick_seasons_state none = wick_seasons_part(fresh, &other, 1);
    struct wick_seasons_state nine = whole, zero = whole;
    nine.stage = zero.stage = 200;
    nine.refusal = 9;
    return fresh.stage == WICK_STAGE_FRESH && wick_seasons_end(fresh).refusal == WICK_BAD_RECORD
        && cut.stage == version && cut.records + 1 == 2 && 1 + cut.bytes == second && cut.len == most - 1 && cut.len <= WICK_SEASONS_HELD
        && cut.has_last && cut.last == 7 && wick_seasons_end(cut).refusal == WICK_BAD_RECORD
        && whole.stage == version && whole.records == 2 && whole.len == 0 && wick_seasons_end(whole).refusal == WICK_OK
        && season(wick_seasons_end(whole).seasons[1], 2, 0, 0, true, 0) && whole.has_occupied && whole.occupied == 7
        && bad.stage == WICK_STAGE_REFUSED && bad.refusal == WICK_BAD_RECORD && bad.records == 1 && 1 + bad.bytes == second && bad.len == 0
        && more.stage == WICK_STAGE_REFUSED && more.records == 1 && more.bytes == bad.bytes && wick_seasons_end(more).refusal == WICK_BAD_RECORD
        && none.stage == WICK_STAGE_REFUSED && wick_seasons_end(none).refusal == WICK_UNKNOWN_VERSION && none.records == 0 && none.bytes == 0
        && wick_seasons_end(nine).refusal == 9 && wick_seasons_part(nine, buf, 1).stage == WICK_STAGE_REFUSED
        && wick_seasons_end(zero).refusal == WICK_OK && season(wick_seasons_end(zero).seasons[1], 0, 0, 0, false, 0)
        && wick_seasons_end(wick_seasons_part(wick_seasons_begin(who, {7, 7, 9}), buf, k.mark.used)).refusal == WICK_NOT_RISING;
}

static bool layouts() {
    const layout three = {wick_event, wick_write_event, WICK_EVENT_LEAST, WICK_EVENT_MOST, WICK_EVENT_DATA_AT, WICK_EVENT_TARGET_MOST};
    const layout two = {wick_event_two, wick_write_event_two, WICK_EVENT_TWO_LEAST, WICK_EVENT_TWO_MOST, WICK_EVENT_TWO_DATA_AT,
                        WICK_EVENT_TWO_TARGET_MOST};
    return events(three) && events(two) && captures(three, WICK_CAPTURE_THREE, WICK_RECORD_MOST)
        && captures(two, WICK_CAPTURE_TWO, WICK_RECORD_TWO_MOST) && runs(three, WICK_CAPTURE_THREE, WICK_RECORD_MOST)
        && runs(two, WICK_CAPTURE_TWO, WICK_RECORD_TWO_MOST) && seasons(three, WICK_CAPTURE_THREE) && seasons(two, WICK_CAPTURE_TWO)
        && parts(three, WICK_CAPTURE_THREE, WICK_RECORD_MOST) && parts(two, WICK_CAPTURE_TWO, WICK_RECORD_TWO_MOST);
}

// How many commands the table has with a shape.
static int shaped(uint8_t shape) {
    int n = 0;
    for (int command = 0; command < 256; command++) n += wick_table((uint8_t)command).shape == shape;
    return n;
}

// Of the 256 entries 31 are basic, one is 40 and one colour, and the rest unknown; an entry has a rule exactly if its command is known, and the two
// commands that set filters share one.
static bool table() {
    for (int command = 0; command < 256; command++) {
        const struct wick_entry e = wick_table((uint8_t)command);
        if (wick_known((uint8_t)command) != (e.rule != 0) || (e.shape == WICK_SHAPE_UNKNOWN) != (e.rule == 0)) return false;
    }
    return shaped(WICK_SHAPE_BASIC) == 31 && shaped(WICK_SHAPE_UNICAST) == 1 && shaped(WICK_SHAPE_COLOUR) == 1 && shaped(WICK_SHAPE_UNKNOWN) == 223
        && wick_table(WICK_SET_TPI_EVENT_UNICAST_ADDRESS).shape == WICK_SHAPE_UNICAST && wick_table(WICK_DALI_COLOUR).shape == WICK_SHAPE_COLOUR
        && wick_table(WICK_DALI_ADD_TPI_EVENT_FILTER).rule == wick_table(WICK_DALI_CLEAR_TPI_EVENT_FILTERS).rule
        && wick_table(WICK_DALI_ARC_LEVEL).rule != wick_table(WICK_DALI_OFF).rule;
}

int main() {
    const uint8_t frame[] = {0xA1, 0x00, 0x02, 0x07, 0x0F, 0xAB};
    uint8_t out[WICK_REPLY_MOST];
    const struct wick_reply r = wick_reply(frame, sizeof frame);
    const struct wick_wrote w = wick_write_reply(WICK_REPLY_ANSWER, r.sequence, frame + r.data_at, r.n, out, sizeof out);
    const struct wick_given v = wick_feed(WICK_REPLY_LINE, wick_reader(), out, w.count);
    return r.refusal == WICK_OK && w.count == sizeof frame && v.has_item && v.item == 0 && v.count == w.count && scenes() && colours() && retired() && given_up() && quiet() && plans() && clocks() && table() && layouts()
        ? 0 : 1;
}
