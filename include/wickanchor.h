/* The functions of libwickanchor.a (rt lib in crates/wickanchor; x86-64): a codec for TPI Advanced.

   What is asked of a caller:
   - A run of bytes is a pointer and a length, and so many bytes can be read there. NULL with length 0 is an empty run.
   - A lent buffer, `out` or `buf`, has `room` bytes that can be written, and shares no byte with any other run of the same call. (A `const`
     one is only read.)
   - The parts of a book that are lent are there whole: 256 bytes, 256 ticks, which lie where a uint32_t may, and the last number. They share no
     byte, as in a struct wick_book. (A `const` one is only read.)
   - No run and no part of a book lies in the variable that the call's answer is assigned to. (Other structs go by value:
     `reader = wick_feed(line, reader, part, length).reader` is fine.)
   - Nothing is asked of the bytes, numbers and structs that are handed in. Functions keep nothing between calls, and may run at once, but for two that
     are lent the same buffer or book.

   `refusal` is 0 where a call is not refused; then the fields count. Else it is one of enum wick_refusal, and all other fields are 0 (but
   for mark, summary and bytes in use of an append or of a run of datagrams, which are handed back as they were), and a book that was lent is
   as it was; wick_plan and wick_plan_left name the request that is refused, the first bad one of the plan, and the second hands over the filters before it.
   The lowest number that applies is given, but for 17, which comes right behind 3, 13, which comes right before 8, and 22, which comes before 8 where a
   clock is written; calls of a capture give the first in the order in which their refusals stand below. A refused writer writes no byte; one that is not refused writes
   `count` bytes, and leaves those behind them. */
#ifndef WICKANCHOR_H
#define WICKANCHOR_H

#include <stdint.h>

/* Grows with each change of what is declared here, or of what the functions answer. 2: wick_name; names as text were a header of their own.
   3: command A1 takes scenes 13 to 15 (W-201). 4: events whose target has two bytes (W-206): wick_event_two, wick_write_event_two,
   wick_relay_event_two. 5: captures (W-207): the functions whose names begin with wick_capture, and refusals 14 to 16, which have names.
   6: runs of datagrams (W-208): wick_capture_run, wick_capture_run_at. 7: seasons of one corridor (W-213): wick_capture_seasons, and refusal
   20, which has a name. 8: the same part by part: wick_seasons_begin, wick_seasons_part, wick_seasons_end. 9: colour requests (W-202): the
   functions whose names begin with wick_write_colour, command 0E, which has a name, and the colour in struct wick_request, which is longer; a
   reader of a request line holds up to 12 bytes. 10: command 0A is retired (W-210): refusal 17, which has a name, and `retired` in struct
   wick_request, in the place of a byte that said nothing, so that no other field moves. 11: the quiet profile (W-203): the functions whose names
   end in _quiet, wick_inside, wick_quiet, and refusal 13, which has a name. 12: the table of commands (W-209): wick_table. 13: ticks in the book
   (W-205): wick_give_up; struct wick_book is longer, its parts are lent to wick_ask and wick_answer, which hand no book back, and wick_ask takes
   a tick. 14: a contractor's filter plan (W-212): wick_plan, wick_plan_left, wick_plan_since, and refusals 18 and 19, which have names.
   15: clocks of Domintell sites (W-214): wick_clock, wick_clock_runs, wick_write_clock, and refusals 21 and 22, which have names. */
#define WICKANCHOR_VERSION 15

#ifdef __cplusplus
extern "C" {
#define WICK_SIZE(type, size) static_assert(sizeof(type) == (size), "the layout of " #type)
#else
#define WICK_SIZE(type, size) _Static_assert(sizeof(type) == (size), "the layout of " #type)
#endif

/* Sizes in bytes: of frames, of data, and where data begin in a frame */
#define WICK_BASIC_BYTES 8
#define WICK_UNICAST_BYTES 11
#define WICK_COLOUR_XY_BYTES 11
#define WICK_COLOUR_TC_BYTES 9
#define WICK_COLOUR_RGBWAF_BYTES 13
#define WICK_REQUEST_MOST 13
#define WICK_REPLY_LEAST 4
#define WICK_REPLY_MOST 68
#define WICK_REPLY_DATA_MOST 64
#define WICK_REPLY_DATA_AT 3
#define WICK_EVENT_LEAST 14
#define WICK_EVENT_MOST 62
#define WICK_EVENT_DATA_MOST 48
#define WICK_EVENT_DATA_AT 13
#define WICK_EVENT_TARGET_MOST 0xFFFFFF
#define WICK_EVENT_TWO_LEAST 13
#define WICK_EVENT_TWO_MOST 61
#define WICK_EVENT_TWO_DATA_AT 12
#define WICK_EVENT_TWO_TARGET_MOST 0xFFFF
#define WICK_FILTERS_MOST 15
#define WICK_NAME_MOST 33

/* Of a filter plan: the bytes of a request and of a wanted event, the filters that a controller keeps, and the last event type that one can hide */
#define WICK_PLAN_REQUEST_BYTES 8
#define WICK_PLAN_WANTED_BYTES 3
#define WICK_PLAN_FILTERS_MOST 64
#define WICK_PLAN_TYPE_MOST 15

/* Of a clock: the bytes of its text without an offset, with one that is later and with one that is earlier, which is the longest; and the bit of the weekdays
   that switches it off */
#define WICK_CLOCK_BYTES 20
#define WICK_CLOCK_LATER_BYTES 29
#define WICK_CLOCK_EARLIER_BYTES 30
#define WICK_CLOCK_MOST 30
#define WICK_CLOCK_OFF 0x80

/* Of captures: where the first record begins, the bytes of a record in front of its datagram, the most bytes of a record in each layout of
   events, how many counts a summary has, the bytes in front of each datagram of a run, how many seasons there are, and the most bytes that a
   report holds between two parts of a capture */
#define WICK_CAPTURE_RECORDS_AT 1
#define WICK_RECORD_DATAGRAM_AT 6
#define WICK_RECORD_MOST 68
#define WICK_RECORD_TWO_MOST 67
#define WICK_COUNTS 11
#define WICK_RUN_DATAGRAM_AT 2
#define WICK_SEASONS 4
#define WICK_SEASONS_HELD 67

/* The last scene of WICK_DALI_SCENE, which takes all that DALI has, and of WICK_QUERY_SCENE_LABEL_FOR_GROUP */
#define WICK_DALI_SCENE_MOST 15
#define WICK_LABELLED_SCENE_MOST 12

/* The most bytes that a reader of a line holds */
#define WICK_REQUEST_LINE_HELD 12
#define WICK_REPLY_LINE_HELD 67

enum wick_refusal {
    WICK_OK = 0,
    WICK_TOO_SHORT = 1,             /* shorter than the least of its family */
    WICK_BAD_LEAD = 2,              /* the first bytes are not those of its family; the type given to a writer of replies */
    WICK_UNKNOWN_COMMAND = 3,       /* also 40 and 0E given to the writer of basic requests */
    WICK_BAD_LENGTH_BYTE = 4,       /* also an unlisted colour type; more data than a frame carries, in writing */
    WICK_BAD_LENGTH = 5,            /* the datagram's length is not the one that its frame states */
    WICK_BAD_SUM = 6,
    WICK_BAD_ARGUMENT = 7,          /* outside the table; no lighting target, for a colour; an instance event without data; an event target too
                                       large */
    WICK_NO_ROOM = 8,               /* the buffer is shorter than the frame, or than the capture with the record; a count of 32 bits is full */
    WICK_NO_NUMBER_FREE = 9,        /* all 256 sequence numbers are unanswered */
    WICK_NOT_AWAITED = 10,          /* a reply's sequence number */
    WICK_BAD_DATA_SIZE = 11,        /* of reply data */
    WICK_NONE_THERE = 12,           /* lowest of an empty map; no such filter entry; no record behind the last */
    WICK_OUTSIDE_PROFILE = 13,      /* a command outside the quiet profile, in writing under it; it comes behind 7 and before 8 */
    WICK_UNKNOWN_VERSION = 14,      /* of a capture */
    WICK_BAD_RECORD = 15,           /* cut short, of length under 4, of seconds below the one before, or whose datagram its layout refuses;
                                       also a capture of no version byte, or with more bytes in use than there are; also a run of
                                       datagrams that is cut short */
    WICK_EARLIER_TIME = 16,         /* seconds lower than the last record's */
    WICK_RETIRED = 17,              /* command 0A, in writing and asking only; it comes behind 3 and before every other */
    WICK_NOT_A_FILTER = 18,         /* a request of a filter plan with a command other than 31 and 33 */
    WICK_FILTERS_FULL = 19,         /* one that needs a 65th filter */
    WICK_NOT_RISING = 20,           /* a boundary of seasons that is not above the one before */
    WICK_NOT_A_CLOCK = 21,          /* a text that is not of a clock's form */
    WICK_OUT_OF_RANGE = 22          /* a field of a clock; a given date or weekday. In writing it comes before 8 */
};

/* The 33 commands, by the maker's names */
enum wick_command {
    WICK_QUERY_GROUP_LABEL = 0x01,
    WICK_ENABLE_TPI_EVENT_EMIT = 0x08,
    WICK_QUERY_GROUP_NUMBERS = 0x09,
    WICK_QUERY_SCENE_NUMBERS = 0x0A, /* retired: its reply does not say which group it means; 1A asks for a group's */
    WICK_QUERY_PROFILE_NUMBERS = 0x0B,
    WICK_QUERY_OCCUPANCY_INSTANCE_TIMERS = 0x0C,
    WICK_DALI_COLOUR = 0x0E,
    WICK_QUERY_SCENE_NUMBERS_FOR_GROUP = 0x1A,
    WICK_QUERY_SCENE_LABEL_FOR_GROUP = 0x1B,
    WICK_QUERY_CONTROLLER_VERSION_NUMBER = 0x1C,
    WICK_QUERY_CONTROL_GEAR_DALI_ADDRESSES = 0x1D,
    WICK_QUERY_DMX_DEVICE_LABEL_BY_NUMBER = 0x20,
    WICK_DALI_ADD_TPI_EVENT_FILTER = 0x31,
    WICK_QUERY_DALI_TPI_EVENT_FILTERS = 0x32,
    WICK_DALI_CLEAR_TPI_EVENT_FILTERS = 0x33,
    WICK_QUERY_DALI_COLOUR = 0x34,
    WICK_SET_TPI_EVENT_UNICAST_ADDRESS = 0x40,
    WICK_QUERY_TPI_EVENT_UNICAST_ADDRESS = 0x41,
    WICK_DALI_INHIBIT = 0xA0,
    WICK_DALI_SCENE = 0xA1,
    WICK_DALI_ARC_LEVEL = 0xA2,
    WICK_DALI_ON_STEP_UP = 0xA3,
    WICK_DALI_STEP_DOWN_OFF = 0xA4,
    WICK_DALI_UP = 0xA5,
    WICK_DALI_DOWN = 0xA6,
    WICK_DALI_RECALL_MAX = 0xA7,
    WICK_DALI_RECALL_MIN = 0xA8,
    WICK_DALI_OFF = 0xA9,
    WICK_DALI_QUERY_LEVEL = 0xAA,
    WICK_DALI_QUERY_CONTROL_GEAR_STATUS = 0xAB,
    WICK_DALI_QUERY_CG_TYPE = 0xAC,
    WICK_DALI_QUERY_LAST_SCENE = 0xAD,
    WICK_DALI_QUERY_LAST_SCENE_IS_CURRENT = 0xAE
};

enum wick_reply_type {
    WICK_REPLY_OK = 0xA0,
    WICK_REPLY_ANSWER = 0xA1,
    WICK_REPLY_NO_ANSWER = 0xA2,
    WICK_REPLY_ERROR = 0xA3
};

/* Error codes, by the maker's names; beside each the number of its name */
enum wick_error {
    WICK_ERROR_CHECKSUM = 0x01,             /* 1 */
    WICK_ERROR_SHORT_CIRCUIT = 0x02,        /* 2 */
    WICK_ERROR_RECEIVE_ERROR = 0x03,        /* 3 */
    WICK_ERROR_UNKNOWN_CMD = 0x04,          /* 4 */
    WICK_ERROR_PAID_FEATURE = 0xB0,         /* 5 */
    WICK_ERROR_INVALID_ARGS = 0xB1,         /* 6 */
    WICK_ERROR_CMD_REFUSED = 0xB2,          /* 7 */
    WICK_ERROR_QUEUE_FAILURE = 0xB3,        /* 8 */
    WICK_ERROR_RESPONSE_UNAVAIL = 0xB4,     /* 9 */
    WICK_ERROR_OTHER_DALI_ERROR = 0xB5,     /* 10 */
    WICK_ERROR_MAX_LIMIT = 0xB6,            /* 11 */
    WICK_ERROR_UNEXPECTED_RESULT = 0xB7,    /* 12 */
    WICK_ERROR_UNKNOWN_TARGET = 0xB8        /* 13 */
};

/* Event types, by the maker's names. A type above 9 is accepted and keeps its number. Types 0, 1, 2, 6 and 7 carry an instance number as
   their first data byte. */
enum wick_event_type {
    WICK_BUTTON_PRESS = 0,
    WICK_BUTTON_HOLD = 1,
    WICK_ABSOLUTE_INPUT = 2,
    WICK_LEVEL_CHANGE = 3,
    WICK_GROUP_LEVEL_CHANGE = 4,
    WICK_SCENE_CHANGE = 5,
    WICK_IS_OCCUPIED = 6,
    WICK_IS_UNOCCUPIED = 7,
    WICK_COLOUR_CHANGED = 8,
    WICK_PROFILE_CHANGED = 9
};

/* What a target names */
enum wick_aim_kind {
    WICK_AIM_NONE = 0,              /* no target is meant */
    WICK_AIM_GEAR = 1,              /* number: its address */
    WICK_AIM_GROUP = 2,             /* number: of the group, 0 to 15 */
    WICK_AIM_BROADCAST = 3,
    WICK_AIM_NOTHING = 4            /* the byte is no target */
};

struct wick_aim {
    uint8_t kind, number;
};

/* What the arguments of a basic request mean; beside each kind the fields that it has. Every other field is 0. */
enum wick_meaning_kind {
    WICK_MEANS_NONE = 0,            /* refused, or command 40 or 0E */
    WICK_MEANS_NOTHING = 1,         /* no argument */
    WICK_MEANS_GROUP = 2,           /* first: the group's number */
    WICK_MEANS_EMIT = 3,            /* first: the mode's bits */
    WICK_MEANS_TIMERS = 4,          /* first: control device address, second: instance */
    WICK_MEANS_GROUP_SCENE = 5,     /* first: the group's number, second: scene, 0 to 12 */
    WICK_MEANS_CHANNEL = 6,         /* first: universe, wide: channel */
    WICK_MEANS_FILTER = 7,          /* first: address, second: instance, wide: mask */
    WICK_MEANS_QUERY = 8,           /* first: address, second: start, third: instance */
    WICK_MEANS_GEAR = 9,            /* first: the gear's address */
    WICK_MEANS_INHIBIT = 10,        /* aim, wide: seconds */
    WICK_MEANS_SCENE = 11,          /* aim, first: scene, 0 to 15 */
    WICK_MEANS_LEVEL = 12,          /* aim, first: level */
    WICK_MEANS_LIT = 13,            /* aim: what is lit */
    WICK_MEANS_TARGET = 14          /* aim: what is asked about */
};

struct wick_meaning {
    uint8_t kind;
    struct wick_aim aim;
    uint8_t first, second, third;
    uint16_t wide;
};

/* What a colour request says; beside each type of colour the channels that it has. Those of the other types are 0. */
enum wick_colour_type {
    WICK_COLOUR_NONE = 0,           /* refused, or another command: every field is 0 */
    WICK_COLOUR_XY = 0x10,          /* x, y */
    WICK_COLOUR_TC = 0x20,          /* tc: a colour temperature */
    WICK_COLOUR_RGBWAF = 0x80       /* red, green, blue, white, amber, free */
};

struct wick_colour {
    uint8_t kind;                   /* one of enum wick_colour_type */
    uint8_t target;                 /* the address byte as it stands: 127 and 255 are both broadcast */
    struct wick_aim aim;            /* what it lights */
    uint8_t level;
    uint8_t red, green, blue, white, amber, free;
    uint16_t x, y, tc;
};

/* An IPv4 address and a MAC address, in the order in which they are written */
struct wick_address {
    uint8_t bytes[4];
};

struct wick_mac {
    uint8_t bytes[6];
};

struct wick_number {
    uint8_t refusal;
    uint64_t number;
};

struct wick_wrote {
    uint8_t refusal;
    uint64_t count;
};

struct wick_request {
    uint8_t refusal, sequence, command;
    uint8_t a, b, c, d;             /* the arguments; 0 for commands 40 and 0E */
    struct wick_address address;    /* of command 40, else 0 */
    uint8_t retired;                /* 1 where the command is retired, else 0 */
    uint16_t port;                  /* of command 40, else 0 */
    struct wick_meaning meaning;    /* of the arguments */
    struct wick_colour colour;      /* of command 0E, else 0 */
};

struct wick_reply {
    uint8_t refusal, kind, sequence;
    uint64_t data_at, n;            /* the data are the n bytes of the datagram from data_at on */
};

struct wick_code {
    uint8_t refusal;
    uint8_t has_code;               /* 0: the reply has none */
    uint8_t code;
    uint8_t name;                   /* the number of its name, 0 where it has none */
};

struct wick_event {
    uint8_t refusal, kind;
    uint8_t instance, has_instance; /* 0 and 0 where the type carries none */
    struct wick_mac mac;
    uint32_t target;
    uint64_t data_at, n;            /* the data are the n bytes of the datagram from data_at on, the instance included */
};

struct wick_filters {
    uint8_t refusal, mode;
    uint64_t entries;
};

struct wick_filter {
    uint8_t refusal, address, instance;
    uint16_t mask;
};

/* What the table of commands has of a command (docs/COMMANDS.md) */
enum wick_shape {
    WICK_SHAPE_UNKNOWN = 0,
    WICK_SHAPE_BASIC = 1,
    WICK_SHAPE_UNICAST = 2,         /* that of command 40 */
    WICK_SHAPE_COLOUR = 3
};

struct wick_entry {
    uint8_t shape;                  /* of the frame, one of enum wick_shape */
    uint8_t rule;                   /* of the arguments: 0 none, 1 to 15 in document 01's order, 16 for command 40, 17 for colour */
};

/* The book of unanswered requests: the command asked under each sequence number (a number that is no known command counts as nothing
   asked), the last number given, and the tick at which each was asked (where nothing is, it says nothing). A caller keeps it, and lends each
   call what it needs of it; what a call is not lent stays as it is. */
struct wick_book {
    uint8_t asked[256];
    uint8_t last;
    uint32_t ticks[256];
};

struct wick_booked {
    uint8_t refusal;
    uint8_t answer;                 /* the sequence number, or the command */
};

/* The kinds of numbers that have names as text */
enum wick_kind {
    WICK_KIND_REFUSAL = 0,
    WICK_KIND_COMMAND = 1,
    WICK_KIND_REPLY_TYPE = 2,
    WICK_KIND_ERROR = 3,
    WICK_KIND_EVENT_TYPE = 4
};

enum wick_line {
    WICK_REQUEST_LINE = 0,
    WICK_REPLY_LINE = 1             /* as is every other number */
};

/* A reader of a line between two calls: it holds the first len of its bytes. A caller keeps it, hands it in by value, and goes on with the
   one handed back. One that claims more than its line's most (WICK_.._LINE_HELD) is taken as one that holds nothing. */
struct wick_reader {
    uint8_t bytes[67];
    uint64_t len;
};

/* Numbers of items: 0 a frame; 7 a whole frame with an argument outside the table, or a colour for no lighting target; else one byte that
   begins none: 1 cut off by the line's end, 2 no lead, 3 unknown command, 4 bad length byte or unlisted colour type, 6 bad sum. */
struct wick_given {
    struct wick_reader reader;      /* afterwards */
    uint64_t taken;                 /* bytes of the part */
    uint8_t has_item;               /* 0: nothing yet (feeding), or empty (closing) */
    uint8_t item;                   /* its number */
    uint64_t count;                 /* of its bytes */
    uint8_t bytes[68];              /* these, and zeros behind them */
};

struct wick_item {
    uint8_t has_item;               /* 0: nothing, or not yet */
    uint8_t item;
    uint64_t count;
};

/* The quiet profile applied to a finished run of requests. Where it does not pass: the first item that is not 0 with a command inside the
   profile */
struct wick_quiet {
    uint8_t passes;                 /* 1 or 0; where it is 1, all other fields are 0 */
    uint8_t item;                   /* its number: 0 for a request whose command is outside */
    uint64_t place;                 /* where it begins: how many bytes of the run stand in front of it */
    uint64_t count;                 /* how many bytes it has */
};

/* What the check of a filter plan answers */
enum wick_plan_answer {
    WICK_PLAN_YES = 0,
    WICK_PLAN_REQUEST = 1,          /* a request is bad: the first such */
    WICK_PLAN_HIDDEN = 2            /* every request is good, and a wanted event is hidden after the last: the first such */
};

struct wick_plan {
    uint8_t answer;                 /* of enum wick_plan_answer */
    uint8_t refusal;                /* of the bad request; else 0 */
    uint64_t place;                 /* of the bad request among the requests, or of the hidden event among the wanted ones, from 0; else 0 */
};

/* A filter: the events of an address and an instance whose type's bit stands in the mask are hidden */
struct wick_plan_filter {
    uint8_t address, instance;
    uint16_t mask;                  /* bit k stands for event type k; never 0 in a filter */
};

/* The filters that a plan leaves, in the order in which they were made: the first `count` of them; behind them stand zeros. Where a request is bad,
   `refusal` is not 0, `request` is its place, and the filters are those that stood before it */
struct wick_plan_left {
    uint8_t refusal;
    uint64_t request;
    uint64_t count;
    struct wick_plan_filter filters[WICK_PLAN_FILTERS_MOST];
};

struct wick_plan_since {
    uint8_t hidden;                 /* 1 or 0 */
    uint64_t request;               /* the first from which on the event is hidden to the end; 0 where it is not */
};

/* The offset of an astronomical clock: by how much it runs later or earlier than its time */
enum wick_offset {
    WICK_OFFSET_NONE = 0,
    WICK_OFFSET_LATER = 1,
    WICK_OFFSET_EARLIER = 2         /* as is every other number */
};

/* A clock of a Domintell site. A caller may make one up, and hands it in by value. */
struct wick_clock {
    uint8_t hour, minute, second;
    uint8_t weekdays;               /* bit k stands for weekday k, 0 to 6 from Sunday; with WICK_CLOCK_OFF it never runs */
    uint8_t day, month, year;       /* its restriction, each 0 for none; year 1 to 99 is 2001 to 2099 */
    uint8_t offset;                 /* one of enum wick_offset; not WICK_OFFSET_NONE exactly where the clock is astronomical */
    uint8_t offset_hour, offset_minute, offset_second;  /* where there is no offset: handed back 0, handed in not looked at */
};

struct wick_clock_read {
    uint8_t refusal;
    struct wick_clock clock;
};

struct wick_clock_runs {
    uint8_t refusal;
    uint8_t runs;                   /* 1 or 0 */
    int32_t second;                 /* from the midnight with which the date begins: an offset may carry it below 0, or past 86,399; 0 where it does not run */
};

/* The version byte of a capture: the layout of its events */
enum wick_capture_version {
    WICK_CAPTURE_THREE = 1,         /* the target has three bytes */
    WICK_CAPTURE_TWO = 2            /* it has two */
};

/* A summary of a capture's records, and a mark, with which the next record is appended in the time of one datagram. A caller keeps them,
   hands them in by value, and goes on with those handed back. Beside a time stands a flag: handed in, 0 says that the time is absent,
   whatever its number, and every other flag that it is there; handed back, a flag is 0 or 1, and an absent time 0. */
struct wick_summary {
    uint32_t records;
    uint8_t has_first, has_last;
    uint32_t first, last;           /* seconds of the first and the last record */
    uint32_t counts[WICK_COUNTS];   /* records of event type 0 to 9, and of all others */
};

struct wick_mark {
    uint64_t used;                  /* how many bytes of the buffer are in use */
    uint8_t has_last;
    uint32_t last;                  /* seconds of the last record */
};

struct wick_capture {
    uint8_t refusal;
    struct wick_mark mark;
    struct wick_summary summary;
};

struct wick_appended {
    uint8_t refusal;
    uint64_t used;                  /* afterwards */
    struct wick_summary summary;    /* afterwards */
};

struct wick_ran {
    uint8_t refusal;
    uint64_t entered, refused;      /* how many datagrams went in, and how many were refused */
    uint64_t used;                  /* afterwards */
    struct wick_summary summary;    /* afterwards */
};

struct wick_ran_at {
    uint8_t refusal;
    uint64_t entered, refused;      /* how many datagrams went in, and how many were refused */
    struct wick_mark mark;          /* afterwards */
    struct wick_summary summary;    /* afterwards */
};

struct wick_opened {
    uint8_t refusal;
    struct wick_mark mark;
};

struct wick_counted {
    uint8_t refusal;
    struct wick_summary summary;
};

struct wick_record {
    uint8_t refusal;
    uint32_t seconds;
    uint64_t datagram_at, n;        /* the datagram is the n bytes of the buffer from datagram_at on */
    uint64_t next;                  /* the place of the next record */
};

/* A corridor: the events of this controller, of this target and with this instance. No number is refused: where there are no such events, as
   with a target too large for the capture's layout, all counts are 0. */
struct wick_corridor {
    struct wick_mac mac;
    uint32_t target;
    uint8_t instance;
};

/* Where the second, the third and the fourth season begin, in seconds. A time equal to a boundary belongs to the later season. */
struct wick_boundaries {
    uint32_t first, second, third;
};

/* One season of a corridor. A gap goes from one of its occupied events to the next, both in the season, whatever other events stand between
   them; it may have 0 seconds. There is one gap less than there are occupied events, and none where there is no such event. The numbers of 64
   bits never overflow: no capture has so many records. */
struct wick_season {
    uint64_t occupied;              /* events of type WICK_IS_OCCUPIED, whatever their data behind the instance */
    uint64_t presses, holds;        /* events of type WICK_BUTTON_PRESS, and of type WICK_BUTTON_HOLD */
    uint8_t has_longest;            /* 0: there is no gap, and longest is 0; else 1 */
    uint32_t longest;               /* the longest gap, in seconds */
    uint64_t total, gaps;           /* seconds of all gaps, and how many there are: the mean gap is total / gaps where gaps is not 0 */
};

struct wick_seasons {
    uint8_t refusal;
    struct wick_season seasons[WICK_SEASONS];
};

/* What is known of a capture between two parts of it */
enum wick_stage {
    WICK_STAGE_FRESH = 0,           /* no byte has come */
    WICK_STAGE_THREE = 1,           /* its version, WICK_CAPTURE_THREE, and only good records */
    WICK_STAGE_TWO = 2,             /* its version, WICK_CAPTURE_TWO, and only good records */
    WICK_STAGE_REFUSED = 3          /* that it is refused, and with what; as is every other number */
};

/* A report between two parts of a capture. A caller keeps it, hands it in by value, and goes on with the one handed back.
   Where a capture is refused can be read off it. `records` good records were passed, and behind them stands record `records` + 1, counted
   from 1, at byte 1 + `bytes`, counted from 0: the version byte stands in front. That record is bad where the stage is WICK_STAGE_REFUSED and
   `refusal` is WICK_BAD_RECORD; it is cut short where the stage is that of a version and `len` is not 0, and no more parts come.
   A state that no call handed back has a meaning too. All zeros are a report that was begun with zeros. A stage above 3 is WICK_STAGE_REFUSED;
   `refusal` is looked at beside that stage alone, and is handed on as it is (with 0 the end is not refused, and counts nothing). What is held is
   looked at beside the stage of a version alone, and where it cannot be, nothing is held: `len` is above WICK_SEASONS_HELD, or the bytes have all
   of a record, good or bad, or begin with a length above that of the longest. A flag of 0 says that its time is absent, every other that it is
   there. Numbers are taken at their word; a number of 64 bits that is full stays so. */
struct wick_seasons_state {
    struct wick_corridor who;
    struct wick_boundaries boundaries;
    uint8_t stage;                  /* one of enum wick_stage */
    uint8_t refusal;                /* 14 or 15 where the capture is refused, else 0 */
    uint64_t records, bytes;        /* good records, and how many bytes they have; the version byte is not counted */
    uint8_t has_last;
    uint32_t last;                  /* seconds of the last of them */
    struct wick_season seasons[WICK_SEASONS];   /* of these records */
    uint8_t has_occupied;
    uint32_t occupied;              /* seconds of the corridor's last occupied event, from which the next gap goes */
    uint8_t held[WICK_SEASONS_HELD];
    uint64_t len;                   /* the next record begins with the first len bytes held; behind them stand zeros */
};

WICK_SIZE(struct wick_aim, 2);
WICK_SIZE(struct wick_meaning, 8);
WICK_SIZE(struct wick_colour, 18);
WICK_SIZE(struct wick_address, 4);
WICK_SIZE(struct wick_mac, 6);
WICK_SIZE(struct wick_number, 16);
WICK_SIZE(struct wick_wrote, 16);
WICK_SIZE(struct wick_request, 40);
WICK_SIZE(struct wick_reply, 24);
WICK_SIZE(struct wick_code, 4);
WICK_SIZE(struct wick_event, 32);
WICK_SIZE(struct wick_filters, 16);
WICK_SIZE(struct wick_filter, 6);
WICK_SIZE(struct wick_entry, 2);
WICK_SIZE(struct wick_book, 1284);
WICK_SIZE(struct wick_booked, 2);
WICK_SIZE(struct wick_reader, 80);
WICK_SIZE(struct wick_given, 176);
WICK_SIZE(struct wick_item, 16);
WICK_SIZE(struct wick_quiet, 24);
WICK_SIZE(struct wick_plan, 16);
WICK_SIZE(struct wick_plan_filter, 4);
WICK_SIZE(struct wick_plan_left, 280);
WICK_SIZE(struct wick_plan_since, 16);
WICK_SIZE(struct wick_clock, 11);
WICK_SIZE(struct wick_clock_read, 12);
WICK_SIZE(struct wick_clock_runs, 8);
WICK_SIZE(struct wick_summary, 60);
WICK_SIZE(struct wick_mark, 16);
WICK_SIZE(struct wick_capture, 88);
WICK_SIZE(struct wick_appended, 80);
WICK_SIZE(struct wick_ran, 96);
WICK_SIZE(struct wick_ran_at, 104);
WICK_SIZE(struct wick_opened, 24);
WICK_SIZE(struct wick_counted, 64);
WICK_SIZE(struct wick_record, 32);
WICK_SIZE(struct wick_corridor, 16);
WICK_SIZE(struct wick_boundaries, 12);
WICK_SIZE(struct wick_season, 48);
WICK_SIZE(struct wick_seasons, 200);
WICK_SIZE(struct wick_seasons_state, 336);

/* Reads a request datagram. A retired command is read as every other, and marked. Refusals 1, 2, 3, 4, 5, 6, 7. */
struct wick_request wick_request(const uint8_t *bytes, uint64_t length);

/* Writes a basic request. Refusals 3, 17, 7, 8, in this order. */
struct wick_wrote wick_write_basic(uint8_t sequence, uint8_t command, uint8_t a, uint8_t b, uint8_t c, uint8_t d, uint8_t *out, uint64_t room);

/* Writes request 40. Refusal 8. */
struct wick_wrote wick_write_unicast(uint8_t sequence, uint16_t port, struct wick_address address, uint8_t *out, uint64_t room);

/* Writes a colour request, by the type of its colour. `target` is a lighting target: 0 to 63 a gear, 64 to 79 a group (wick_group_target), 127
   or 255 broadcast. Level and colour are any. Refusals 7 (every other target), 8. */
struct wick_wrote wick_write_colour_xy(uint8_t sequence, uint8_t target, uint8_t level, uint16_t x, uint16_t y, uint8_t *out, uint64_t room);
struct wick_wrote wick_write_colour_tc(uint8_t sequence, uint8_t target, uint8_t level, uint16_t tc, uint8_t *out, uint64_t room);
struct wick_wrote wick_write_colour_rgbwaf(uint8_t sequence, uint8_t target, uint8_t level, uint8_t red, uint8_t green, uint8_t blue,
                                           uint8_t white, uint8_t amber, uint8_t free, uint8_t *out, uint64_t room);

/* The same under the quiet profile, for clients who allow asking and never switching: only commands for which wick_inside is 1 are written. Refusal
   13 behind 7 and before 8: so request 40 is always 13, and a colour request 7 or 13. */
struct wick_wrote wick_write_basic_quiet(uint8_t sequence, uint8_t command, uint8_t a, uint8_t b, uint8_t c, uint8_t d, uint8_t *out, uint64_t room);
struct wick_wrote wick_write_unicast_quiet(uint8_t sequence, uint16_t port, struct wick_address address, uint8_t *out, uint64_t room);
struct wick_wrote wick_write_colour_xy_quiet(uint8_t sequence, uint8_t target, uint8_t level, uint16_t x, uint16_t y, uint8_t *out, uint64_t room);
struct wick_wrote wick_write_colour_tc_quiet(uint8_t sequence, uint8_t target, uint8_t level, uint16_t tc, uint8_t *out, uint64_t room);
struct wick_wrote wick_write_colour_rgbwaf_quiet(uint8_t sequence, uint8_t target, uint8_t level, uint8_t red, uint8_t green, uint8_t blue,
                                                 uint8_t white, uint8_t amber, uint8_t free, uint8_t *out, uint64_t room);

/* Reads a datagram of its family and writes it again, byte for byte. Refusals of the reader; then 17, for a request that is marked as
   retired; then 8. */
struct wick_wrote wick_relay_request(const uint8_t *bytes, uint64_t length, uint8_t *out, uint64_t room);
struct wick_wrote wick_relay_reply(const uint8_t *bytes, uint64_t length, uint8_t *out, uint64_t room);
struct wick_wrote wick_relay_event(const uint8_t *bytes, uint64_t length, uint8_t *out, uint64_t room);
struct wick_wrote wick_relay_event_two(const uint8_t *bytes, uint64_t length, uint8_t *out, uint64_t room);

/* Reads a reply datagram. Refusals 1, 2, 4, 5, 6. */
struct wick_reply wick_reply(const uint8_t *bytes, uint64_t length);

/* The error code of a reply datagram: the first data byte of one of type ERROR. Refusals as wick_reply. */
struct wick_code wick_error_code(const uint8_t *bytes, uint64_t length);

/* The number of an error code's name, 0 where it has none. */
uint8_t wick_error_name(uint8_t code);

/* Writes a reply with n data bytes. Refusals 2, 4, 8. `data` and `out` must not overlap. */
struct wick_wrote wick_write_reply(uint8_t kind, uint8_t sequence, const uint8_t *data, uint64_t n, uint8_t *out, uint64_t room);

/* Events come in two layouts, and no byte of a datagram says which: know your controller. The maker's table has a target of three bytes;
   the functions whose names end in _two are for controllers that send it in two, so that all behind it stands one place earlier (the maker's
   own examples are such). Some datagrams are events of both layouts, and then of different targets and types. */

/* Reads an event datagram. Refusals 1, 2, 4, 5, 6, 7. */
struct wick_event wick_event(const uint8_t *bytes, uint64_t length);
struct wick_event wick_event_two(const uint8_t *bytes, uint64_t length);

/* Writes an event with n data bytes, the instance included. Refusals 4, 7, 8; 7 for a target over WICK_EVENT_TARGET_MOST, or over
   WICK_EVENT_TWO_TARGET_MOST. `data` and `out` must not overlap. */
struct wick_wrote wick_write_event(struct wick_mac mac, uint32_t target, uint8_t kind, const uint8_t *data, uint64_t n, uint8_t *out, uint64_t room);
struct wick_wrote wick_write_event_two(struct wick_mac mac, uint32_t target, uint8_t kind, const uint8_t *data, uint64_t n, uint8_t *out, uint64_t room);

/* Puts the name of a number as text, without a zero byte behind it: no name has more than WICK_NAME_MOST bytes. `kind` is one of enum
   wick_kind. Refusals 7 where it has none (an event type above 9 has none), 8. */
struct wick_wrote wick_name(uint8_t kind, uint8_t number, uint8_t *out, uint64_t room);

/* The exclusive-or of some bytes: 0 for a whole frame. */
uint8_t wick_sum(const uint8_t *bytes, uint64_t length);

/* 1 where the command is one of the 33, else 0. */
uint8_t wick_known(uint8_t command);

/* 1 where the command is inside the quiet profile, else 0: 18 of the 33 are, all queries. WICK_QUERY_SCENE_NUMBERS is one, though it is retired. */
uint8_t wick_inside(uint8_t command);

/* The entry of a command in the table of commands: shape and rule, 0 and 0 for an unknown one. */
struct wick_entry wick_table(uint8_t command);

/* Maps in reply data, as one number whose bit k stands for event type, scene, gear or gear type k. Refusal 11 where there are not 2, 2, 8 or 4
   bytes. */
struct wick_number wick_mask(const uint8_t *bytes, uint64_t length);
struct wick_number wick_scenes(const uint8_t *bytes, uint64_t length);
struct wick_number wick_gear(const uint8_t *bytes, uint64_t length);
struct wick_number wick_types(const uint8_t *bytes, uint64_t length);

/* How many event types a mask names, and how many gear are present. */
uint32_t wick_count_types(uint16_t mask);
uint32_t wick_count_gear(uint64_t gear);

/* The lowest of them. Refusal 12 where there is none. */
struct wick_number wick_lowest_type(uint16_t mask);
struct wick_number wick_lowest_gear(uint64_t gear);

/* The filters in the reply to 32: mode and number of entries, and entry i, from 0. Refusal 11 where there are not 1 + 4k bytes with k at most
   15; 12 where there are not so many entries. */
struct wick_filters wick_filters(const uint8_t *bytes, uint64_t length);
struct wick_filter wick_filter(const uint8_t *bytes, uint64_t length, uint64_t i);

/* The target on the line of a group 0 to 15; the address of a control device by its own number 0 to 63, and back. Refusal 7. */
struct wick_number wick_group_target(uint8_t group);
struct wick_number wick_device(uint8_t number);
struct wick_number wick_device_number(uint8_t address);

/* What a lighting command with this target lights, and what a query of gear status (AB) with it asks about. */
struct wick_aim wick_lights(uint8_t target);
struct wick_aim wick_status(uint8_t target);

/* A book in which nothing is asked, and whose first number is 0. */
struct wick_book wick_book(void);

/* The sequence number for a request with this command at this tick, which is awaited from then on: `wick_ask(book.asked, &book.last, book.ticks,
   command, tick)`. A tick is any number of the caller's clock, of 32 bits, which runs round past its end. Refusals 3, 17, 9, in this order. */
struct wick_booked wick_ask(uint8_t asked[256], uint8_t *last, uint32_t ticks[256], uint8_t command, uint32_t tick);

/* The command that was asked under a reply's sequence number, which is free from then on; a retired one too: `wick_answer(book.asked, number)`.
   Refusal 10. */
struct wick_booked wick_answer(uint8_t asked[256], uint8_t number);

/* Gives up each request that is older than a limit, and says how many these were, 0 to 256: their numbers are free from then on, no other
   changes. A request's age is the tick now less the tick at which it was asked, round the end, so that a clock that has gone back gives a great
   age; one that is just as old as the limit is kept. `wick_give_up(book.asked, book.ticks, now, limit)`. */
uint16_t wick_give_up(uint8_t asked[256], const uint32_t ticks[256], uint32_t now, uint32_t limit);

/* A reader that holds nothing. */
struct wick_reader wick_reader(void);

/* Takes the fewest bytes of a part that settle the next item, and gives it; or takes all, where none is settled. `line` is one of enum
   wick_line. Feed the rest of the part, from `taken` on, until there is no item. */
struct wick_given wick_feed(uint8_t line, struct wick_reader reader, const uint8_t *part, uint64_t length);

/* The next item of the bytes held, as if the line ended behind them; without an item, the reader holds nothing. */
struct wick_given wick_close(uint8_t line, struct wick_reader reader);

/* What stands at a position of a line from which on these bytes are there. `closed` is not 0 where no more come. */
struct wick_item wick_item_at(uint8_t line, uint8_t closed, const uint8_t *bytes, uint64_t length);

/* The quiet profile applied to a finished run of bytes, before it goes to a controller: it passes where it is requests one behind the other and
   nothing else, each accepted and inside the profile (also one with a retired command). A run of no bytes passes. */
struct wick_quiet wick_quiet(const uint8_t *bytes, uint64_t length);

/* Checks a contractor's filter plan before it goes to a controller that has no filters: requests of 8 bytes one behind the other (a short end is a bad
   request, refusal 1), each an accepted 31 or 33. 31 joins its mask to the filter of its address and instance, or makes one; 33 takes the bits of its
   mask out, and a filter whose mask becomes 0 is dropped. `wanted` has address, instance and event type of each event that is wanted, three bytes each;
   one or two bytes at its end are passed over. The first bad request is refused with 1 to 7 as wick_request refuses it, then 18, then 19; it comes before every
   hidden event. */
struct wick_plan wick_plan(const uint8_t *plan, uint64_t length, const uint8_t *wanted, uint64_t n);

/* The filters that a plan leaves. */
struct wick_plan_left wick_plan_left(const uint8_t *plan, uint64_t length);

/* Since which request of a plan an event is hidden to its end: one that adds its type to its address and instance, such that none behind it clears that
   type there, and before which it was not hidden. Ask it of plans that are good: of others, requests that are refused with 1 to 7 or 18 are passed over, and whether
   there is room for a filter is not judged. */
struct wick_plan_since wick_plan_since(const uint8_t *plan, uint64_t length, uint8_t address, uint8_t instance, uint8_t kind);

/* Reads the text of a clock of a Domintell site, from its time field to its end: HH:MM:SS WD DD/MM/YY, and where it is astronomical (not 0) a blank and its
   offset behind it, HH:MM:SS, which is later, or -HH:MM:SS, which is earlier. WD are the weekdays, two hexadecimal digits in capitals; all others are decimal.
   Refusals 21; 22 for hours over 23, minutes or seconds over 59, of the time or of the offset, a day over 31, a month over 12 or an offset of -00:00:00. */
struct wick_clock_read wick_clock(uint8_t astronomical, const uint8_t *text, uint64_t length);

/* Whether the clock of such a text runs on a day, and at which second. The weekday is 0 to 6 from Sunday, as given: it is not compared with the date. A clock
   runs where it is not switched off, the bit of the weekday stands, and day, month and year of its restriction are each none or the date's, also where an
   offset carries the second to the day before or after. Refusals 21, 22 as wick_clock; then 22 for a weekday over 6, a date that does not exist or one outside
   of the years 2000 to 2099, whether the clock is switched off or not. */
struct wick_clock_runs wick_clock_runs(uint8_t astronomical, uint16_t year, uint8_t month, uint8_t day, uint8_t weekday, const uint8_t *text, uint64_t length);

/* Writes a clock as its text, without a zero byte behind it; what was read is written as it stood. Refusals 22 (as in reading, or a year over 99), 8. */
struct wick_wrote wick_write_clock(struct wick_clock clock, uint8_t *out, uint64_t room);

/* A capture is the first `used` bytes of a buffer: a version byte, then records one behind the other, each a length in two bytes, which
   counts what follows it, seconds in four, and an event's datagram; all numbers high byte first. Seconds never fall.

   How a year is kept. A capture begins with wick_capture_empty. Each event goes in with wick_capture_append_at and the mark and the summary
   that the call before handed back; as long as nothing else writes the bytes in use, that answers what wick_capture_append answers, which
   walks the whole capture each time. Events that were collected go in together, with wick_capture_run_at. Nothing but the bytes has to outlive
   the program: wick_capture_prefix finds mark and summary again, also where a write was torn, and loses only what was torn; what it lost are
   the bytes behind its mark. examples/capture.c does all this with a file. */

/* Empties a capture: writes the version byte, one of enum wick_capture_version, and no other. Refusals 8 (a buffer of no bytes), 14. */
struct wick_capture wick_capture_empty(uint8_t version, uint8_t *buf, uint64_t room);

/* Appends an event of n bytes behind the bytes in use. First seconds become these where the summary has none, last seconds become these,
   the number of records and the count of the event's type go up by one. The summary is not compared with the records. Refusals 14, 15;
   those of reading the event; 16; 8 (no room in the buffer, or in one of the two counts). Then no byte is written, and bytes in use (or
   mark) and summary are those handed in. `datagram` and `buf` must not overlap.
   The first judges the whole capture. The second, by a mark, judges the version byte and that so many bytes are there, takes the mark's
   seconds at its word, and looks at no record: its time does not depend on the capture. It writes the record at the mark, whatever stood
   there. */
struct wick_appended wick_capture_append(uint8_t *buf, uint64_t room, uint64_t used, struct wick_summary summary, uint32_t seconds,
                                         const uint8_t *datagram, uint64_t n);
struct wick_capture wick_capture_append_at(uint8_t *buf, uint64_t room, struct wick_mark mark, struct wick_summary summary, uint32_t seconds,
                                           const uint8_t *datagram, uint64_t n);

/* Appends a run of datagrams, all under these seconds. In front of each stands its length in two bytes, high byte first, which counts the
   datagram only; `length` counts all bytes of the run. Bytes, summary, and bytes in use (or mark) end as if each had been appended singly, in
   their order, by the call above that judges the capture alike. A datagram that would be refused there (as an event, with 16, or with 8) is
   passed over and only counts in `refused`: the call goes on, and one behind it may still go in. A length of 0 is an empty datagram, which is
   refused and counted. An empty run gives 0 and 0. A mark's seconds become these where at least one datagram went in, and stay otherwise.
   Refusals 14, 15 of the capture; then 15 where the run ends inside a length, or where its last length reaches past its end. Both are judged
   before anything is appended: no byte is written then, `entered` and `refused` are 0, and bytes in use (or mark) and summary are those handed
   in. `run` and `buf` must not overlap.
   The first walks the whole capture, once for the run. The second, by a mark, looks at no record: its time does not depend on the capture. */
struct wick_ran wick_capture_run(uint8_t *buf, uint64_t room, uint64_t used, struct wick_summary summary, uint32_t seconds,
                                 const uint8_t *run, uint64_t length);
struct wick_ran_at wick_capture_run_at(uint8_t *buf, uint64_t room, struct wick_mark mark, struct wick_summary summary, uint32_t seconds,
                                       const uint8_t *run, uint64_t length);

/* Opens a capture: walks it once, and hands out its mark. Refusals 14, 15. */
struct wick_opened wick_capture_open(const uint8_t *buf, uint64_t room, uint64_t used);

/* Counts a capture afresh. Refusals 14, 15; then 8 where it has more records than 32 bits count. */
struct wick_counted wick_capture_count(const uint8_t *buf, uint64_t room, uint64_t used);

/* The longest good capture at the front of the bytes in use: the version byte, and all records before the first that is bad. Bytes in use
   beyond the buffer's end count as not there. Refusals 14, 15 (no version byte). */
struct wick_capture wick_capture_prefix(const uint8_t *buf, uint64_t room, uint64_t used);

/* The record that begins at a place, in bytes from the front of the buffer: the first at WICK_CAPTURE_RECORDS_AT, the others where the one
   before says `next`. The records before it are not looked at. Refusals 14, 15 (no version byte, or more in use than there is); 12 at the
   end of the bytes in use; 15 where no good record begins there. */
struct wick_record wick_capture_record(const uint8_t *buf, uint64_t room, uint64_t used, uint64_t place);

/* The four seasons of one corridor: the first has all times below `first`, the last all from `third` on. What is counted as occupied, presses
   or holds adds up, over the four, to all such events of the corridor in the capture. One pass over the bytes in use, whatever the corridor
   and the boundaries. Refusals 14, 15; then 20 where `first` is not below `second`, or `second` not below `third`. */
struct wick_seasons wick_capture_seasons(const uint8_t *buf, uint64_t room, uint64_t used, struct wick_corridor who,
                                         struct wick_boundaries boundaries);

/* The same of a capture that comes in parts, as a long file does: begin, hand in part behind part, and end. A part has any number of bytes,
   none too, and the capture may be cut anywhere, also inside a record. The end gives what wick_capture_seasons gives of all parts put together,
   with the same refusals. It changes nothing: it may be asked after any part, and more may follow. From WICK_STAGE_REFUSED on no part changes
   anything. Nothing of a part is looked at after its call, and the time of a call does not depend on the parts before. examples/seasons.c
   prints the seasons of a file. */
struct wick_seasons_state wick_seasons_begin(struct wick_corridor who, struct wick_boundaries boundaries);
struct wick_seasons_state wick_seasons_part(struct wick_seasons_state state, const uint8_t *part, uint64_t length);
struct wick_seasons wick_seasons_end(struct wick_seasons_state state);

#ifdef __cplusplus
}
#endif

#endif
