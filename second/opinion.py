"""TPI Advanced as documents 01 and 02 have it, and the answers to the calls of docs/BENCH.md.

    python3 second/opinion.py < calls > answers

Written from the documents alone and in document 01's order; its words stand above what they state.
"""

import sys
from collections import namedtuple


class Refusal(Exception):
    """A refused call, by its number in document 01."""

    def __init__(self, number):
        Exception.__init__(self, number)
        self.number = number


def refuse(number, applies):
    """Refuses with the number where it applies. Asked in rising order, so that the lowest that applies is given, but where
    document 02 states another order."""
    if applies:
        raise Refusal(number)


def span(first, last):
    """The values from first to last, both included."""
    return frozenset(range(first, last + 1))


def high_first(run):
    """The run of bytes as a number, high byte first."""
    return int.from_bytes(run, "big")


def low_first(run):
    """The run of bytes as a number, low byte first."""
    return int.from_bytes(run, "little")


# Frames

REQUEST_LEAD = 0x04
BASIC_SIZE = 8

UNICAST = 0x40  # "the one dynamic request 40"
UNICAST_LENGTH = 6  # its length byte: port in 2, address in 4
UNICAST_SIZE = 11

# Document 02, W-202: "that frame as source 002 gives it under "DALI Colour Request Frame", with every colour type there". Behind the command
# stand address, arc level, colour type and colour data.
COLOUR = 0x0E
COLOUR_SIZE = 7  # and the colour data
XY = 0x10  # "[X Hi byte] [X Lo byte] [Y Hi byte] [Y Lo byte]"
TC = 0x20  # "[TC Hi byte] [TC Lo byte]"
RGBWAF = 0x80  # "[Red] [Green] [Blue] [White] [Amber] [Free colour]"
COLOUR_DATA_SIZES = {XY: 4, TC: 2, RGBWAF: 6}

REPLY_TYPES = span(0xA0, 0xA3)  # OK, ANSWER, NO_ANSWER, ERROR
ERROR_REPLY = 0xA3
REPLY_SIZE = 4  # and n data bytes
REPLY_DATA_MOST = 64

EVENT_LEAD = b"\x5A\x43"
EVENT_MAC = slice(2, 8)
EVENT_DATA_MOST = 48

# How many bytes an event's target has: three in source 002's table, two in the layout of document 02, W-206. "The caller says which
# applies."
THREE = 3
TWO = 2


def exclusive_or(run):
    """The exclusive-or of all bytes of the run."""
    total = 0
    for byte in run:
        total ^= byte
    return total


def write_frame(head, data, buffer):
    """Writes head, data and their sum into the lent buffer; gives the count. Bytes after the frame stay."""
    frame = bytes(head) + bytes(data)
    frame += bytes([exclusive_or(frame)])
    refuse(8, len(buffer) < len(frame))
    buffer[:len(frame)] = frame
    return len(frame)


# Requests and their argument ranges: the targets

GEAR = span(0, 63)
GROUP = span(0, 15)
GROUP_OFFSET = 64  # "group number + 64"
DEVICE_NUMBER = span(0, 63)
DEVICE_OFFSET = 64  # "a control device address, its own number + 64"
GROUP_TARGET = span(64, 79)
DEVICE = span(64, 127)
BROADCAST = frozenset([127, 255])
STATUS_BROADCAST = frozenset([81])  # of command AB alone

GEAR_OR_GROUP = GEAR | GROUP_TARGET
LIGHTING_TARGET = GEAR_OR_GROUP | BROADCAST
STATUS_TARGET = GEAR_OR_GROUP | STATUS_BROADCAST


def target_words(target, broadcast):
    """What a line target names, where these values stand for all."""
    if target in GEAR:
        return ["gear", target]
    if target in GROUP_TARGET:
        return ["group", target - GROUP_OFFSET]
    if target in broadcast:
        return ["broadcast"]
    return ["no target"]


def lights(target):
    """What a lighting target names."""
    return target_words(target, BROADCAST)


def status(target):
    """What a target of command AB names."""
    return target_words(target, STATUS_BROADCAST)


def group_target(group):
    """The line target of a bare group number."""
    refuse(7, group not in GROUP)
    return group + GROUP_OFFSET


def device_address(number):
    """The control device address of a device's own number."""
    refuse(7, number not in DEVICE_NUMBER)
    return number + DEVICE_OFFSET


def device_number(address):
    """The own number of the device with this control device address."""
    refuse(7, address not in DEVICE)
    return address - DEVICE_OFFSET


# Requests and their argument ranges: the table

ZERO = span(0, 0)  # "every argument place not named is 0"
ANY = span(0, 255)
ALL_INSTANCES = frozenset([255])
INSTANCE = span(0, 31)
LABELLED_SCENE = span(0, 12)  # of 1B
DALI_SCENE = span(0, 15)  # of A1; W-201: "A1 takes D 0-15; 1B keeps 0-12"
START = span(0, 63)
EMIT = frozenset(bits for bits in range(256) if bits & 0xC3 == bits)  # "no bits outside C3"
ALL_ADDRESSES = frozenset([255])

# A rule is a list of cases, each with the values it lets stand in A, B, C and D. Arguments fit where one case lets
# them stand. Beside the cases: the words for what the arguments mean.
Rule = namedtuple("Rule", "cases meaning")

RULES = {
    "group": Rule([(GROUP, ZERO, ZERO, ZERO)], lambda a, b, c, d: ["group", a]),
    "emit": Rule([(EMIT, ZERO, ZERO, ZERO)], lambda a, b, c, d: ["emit", a]),
    "bare": Rule([(ZERO, ZERO, ZERO, ZERO)], lambda a, b, c, d: ["nothing"]),
    "timers": Rule([(DEVICE, ZERO, ZERO, INSTANCE)], lambda a, b, c, d: ["device", a, "instance", d]),
    "group_scene": Rule([(GROUP, LABELLED_SCENE, ZERO, ZERO)], lambda a, b, c, d: ["group", a, "scene", b]),
    "channel": Rule([(ZERO, ANY, ANY, ANY)],
                    lambda a, b, c, d: ["universe", b, "channel", high_first([c, d])]),
    "filter": Rule([(GEAR, ALL_INSTANCES, ANY, ANY), (DEVICE, INSTANCE, ANY, ANY)],
                   lambda a, b, c, d: ["address", a, "instance", b, "mask", high_first([c, d])]),
    "query": Rule([(GEAR | ALL_ADDRESSES, START, ZERO, ALL_INSTANCES), (DEVICE, START, ZERO, INSTANCE | ALL_INSTANCES)],
                  lambda a, b, c, d: ["address", a, "start", b, "instance", d]),
    "gear": Rule([(GEAR, ZERO, ZERO, ZERO)], lambda a, b, c, d: ["gear", a]),
    "inhibit": Rule([(LIGHTING_TARGET, ZERO, ANY, ANY)],
                    lambda a, b, c, d: lights(a) + ["seconds", high_first([c, d])]),
    "scene": Rule([(LIGHTING_TARGET, ZERO, ZERO, DALI_SCENE)], lambda a, b, c, d: lights(a) + ["scene", d]),
    "level": Rule([(LIGHTING_TARGET, ZERO, ZERO, ANY)], lambda a, b, c, d: lights(a) + ["level", d]),
    "lights": Rule([(LIGHTING_TARGET, ZERO, ZERO, ZERO)], lambda a, b, c, d: lights(a)),
    "address": Rule([(GEAR_OR_GROUP, ZERO, ZERO, ZERO)], lambda a, b, c, d: lights(a)),
    "status": Rule([(STATUS_TARGET, ZERO, ZERO, ZERO)], lambda a, b, c, d: status(a)),
}

# The commands of basic shape. "With 40 these are 32 commands; each other number is unknown." With 0E of W-202 they are 33.
BASIC = {
    0x01: "group",
    0x08: "emit",
    0x09: "bare", 0x0A: "bare", 0x0B: "bare", 0x1C: "bare", 0x1D: "bare", 0x41: "bare",
    0x0C: "timers",
    0x1A: "group",
    0x1B: "group_scene",
    0x20: "channel",
    0x31: "filter", 0x33: "filter",
    0x32: "query",
    0x34: "gear", 0xAC: "gear",
    0xA0: "inhibit",
    0xA1: "scene",
    0xA2: "level",
    0xA3: "lights", 0xA4: "lights", 0xA5: "lights", 0xA6: "lights", 0xA7: "lights", 0xA8: "lights", 0xA9: "lights",
    0xAA: "address", 0xAD: "address", 0xAE: "address",
    0xAB: "status",
}


def known(command):
    """Whether the command is one of the 33."""
    return command in [UNICAST, COLOUR] or command in BASIC


# Document 02, W-203: "The set is a decision over the command number: 08, 31, 33, 40, A0-A9 and colour requests are outside it, each other known
# command inside." Colour requests are those of W-202: 34 asks for a colour and is inside.
OUTSIDE = frozenset([0x08, COLOUR, 0x31, 0x33, UNICAST]) | span(0xA0, 0xA9)


def inside(command):
    """Whether the command is inside the quiet profile. An unknown number is not."""
    return known(command) and command not in OUTSIDE


# Document 02, W-209: "for each command number its frame shape and a number for its argument rule". docs/BENCH.md: "Shapes: 0 unknown, 1 basic, 2 that
# of request 40, 3 colour. Rules: 0 none, 1 to 15 in the order of document 01's table (01 and 1A are 1, 08 is 2, .. AB is 15), 16 for 40, 17 for
# colour". BASIC has the rows in that order. A rule is numbered where a row states it first: "A group 0-15" is said of 01 and, four rows on, of 1A.
RULES_IN_ORDER = list(dict.fromkeys(BASIC.values()))


def table_entry(command):
    """The command's entry in the table: the numbers of its shape and of its rule."""
    if command in BASIC:
        return 1, 1 + RULES_IN_ORDER.index(BASIC[command])
    return {UNICAST: (2, 16), COLOUR: (3, 17)}.get(command, (0, 0))


# Document 02, W-210: "The source calls 0A legacy, since its reply does not say which group it means." It stays a known command. The source says
# the same of 02 and 13, which are unknown.
SCENE_LIST = 0x0A


# "New requests with 0A are no longer written."
def retired(command):
    """Whether the command is retired."""
    return command == SCENE_LIST


# "The length of a request now depends on the colour type as well as the command."
def request_sizes(command):
    """The place of the byte that says how long the frame of a known command is, and the frame's size for each value it may have there: the
    length byte of request 40, the colour type of a colour request, and of a basic one the command itself."""
    if command == UNICAST:
        return 3, {UNICAST_LENGTH: UNICAST_SIZE}
    if command == COLOUR:
        return 5, {type_: COLOUR_SIZE + size for type_, size in COLOUR_DATA_SIZES.items()}
    return 2, {command: BASIC_SIZE}


# "Request 40 takes any port and address." Of a colour request (W-202): "its address is a lighting target, its other values any".
def fits(command, arguments):
    """Whether the arguments of a known command lie in the table."""
    if command == UNICAST:
        return True
    if command == COLOUR:
        return arguments[0] in LIGHTING_TARGET
    return any(all(argument in place for argument, place in zip(arguments, case))
               for case in RULES[BASIC[command]].cases)


# Requests: behind the command stand the four arguments, or of request 40 the length byte, the port and the address, or of a colour request the
# address, the level, the colour type and the colour data. W-210, of 0A: "Request lines and stored byte runs that contain it still read as before,
# marked as retired": the mark stands in the reading of a request, since the items of a line are numbers and bytes.

Request = namedtuple("Request", "sequence command arguments retired")


def read_request(datagram):
    """Reads a request datagram."""
    refuse(1, len(datagram) < BASIC_SIZE)
    refuse(2, datagram[0] != REQUEST_LEAD)
    command = datagram[2]
    refuse(3, not known(command))
    place, sizes = request_sizes(command)
    refuse(4, datagram[place] not in sizes)
    refuse(5, len(datagram) != sizes[datagram[place]])
    refuse(6, exclusive_or(datagram) != 0)
    arguments = datagram[3:-1]
    refuse(7, not fits(command, arguments))
    return Request(datagram[1], command, arguments, retired(command))


# W-203: "a profile, chosen when a writer is called: only commands that query may be written". "13, outside the profile, comes after 7 and
# before 8." Readers know no profile: "Readers still read everything."
def write_request(quiet, sequence, command, content, buffer):
    """Writes a request that has been judged but for the profile into the lent buffer, the command's content behind it; gives the count."""
    refuse(13, quiet and not inside(command))
    return write_frame([REQUEST_LEAD, sequence, command], content, buffer)


# W-210: "17, retired, comes after 3 and before 4, in writing and asking only".
def write_basic(sequence, command, arguments, buffer, quiet=False):
    """Writes a basic request into the lent buffer; gives the count."""
    refuse(3, command not in BASIC)
    refuse(17, retired(command))
    refuse(7, not fits(command, arguments))
    return write_request(quiet, sequence, command, arguments, buffer)


def write_unicast(sequence, port_and_address, buffer, quiet=False):
    """Writes a request 40 into the lent buffer; gives the count."""
    return write_request(quiet, sequence, UNICAST, bytes([UNICAST_LENGTH]) + port_and_address, buffer)


# The colour type is the caller's choice among the three, so no 4 is given here.
def write_colour(type_, sequence, address, level, data, buffer, quiet=False):
    """Writes a colour request of this type into the lent buffer; gives the count."""
    refuse(7, not fits(COLOUR, [address]))
    return write_request(quiet, sequence, COLOUR, bytes([address, level, type_]) + data, buffer)


# Replies

Reply = namedtuple("Reply", "type sequence data")

# Source 002, "Error Codes", in the table's order.
ERROR_CODES = [0x01, 0x02, 0x03, 0x04, 0xB0, 0xB1, 0xB2, 0xB3, 0xB4, 0xB5, 0xB6, 0xB7, 0xB8]


def read_reply(datagram):
    """Reads a reply datagram."""
    refuse(1, len(datagram) < REPLY_SIZE)
    refuse(2, datagram[0] not in REPLY_TYPES)
    refuse(4, datagram[2] > REPLY_DATA_MOST)
    refuse(5, len(datagram) != REPLY_SIZE + datagram[2])
    refuse(6, exclusive_or(datagram) != 0)
    return Reply(datagram[0], datagram[1], datagram[3:-1])


def write_reply(type_, sequence, data, buffer):
    """Writes a reply into the lent buffer; gives the count."""
    refuse(2, type_ not in REPLY_TYPES)
    refuse(4, len(data) > REPLY_DATA_MOST)
    return write_frame([type_, sequence, len(data)], data, buffer)


def error_name(code):
    """The place of an error code in source 002's table, from 1; None for a code without a name."""
    return ERROR_CODES.index(code) + 1 if code in ERROR_CODES else None


def error_code(reply):
    """The code of a reply: the first data byte of an ERROR reply that has one, else None."""
    return reply.data[0] if reply.type == ERROR_REPLY and reply.data else None


# Events

Event = namedtuple("Event", "mac target type data")

# Source 002, "TPI Event Types", 0 to 9, as docs/BENCH.md writes them.
EVENT_NAMES = ["BUTTON_PRESS", "BUTTON_HOLD", "ABSOLUTE_INPUT", "LEVEL_CHANGE", "GROUP_LEVEL_CHANGE", "SCENE_CHANGE",
               "IS_OCCUPIED", "IS_UNOCCUPIED", "COLOUR_CHANGED", "PROFILE_CHANGED"]

# "Event types 0, 1, 2, 6, 7 carry an instance number as first data byte, so they need n of at least 1."
INSTANCE_EVENTS = frozenset([0, 1, 2, 6, 7])


def event_size(width):
    """The bytes of an event without data: "14 + n", and "the least event length in 1 is 13" where the target has two."""
    return 11 + width


def read_event(width, datagram):
    """Reads an event datagram whose target has so many bytes."""
    refuse(1, len(datagram) < event_size(width))
    refuse(2, datagram[:2] != EVENT_LEAD)
    target, (type_, n), rest = datagram[8:8 + width], datagram[8 + width:10 + width], datagram[10 + width:]
    refuse(4, n > EVENT_DATA_MOST)
    refuse(5, len(datagram) != event_size(width) + n)
    refuse(6, exclusive_or(datagram) != 0)
    event = Event(datagram[EVENT_MAC], high_first(target), type_, rest[:n])
    refuse(7, event.type in INSTANCE_EVENTS and not event.data)
    return event


def write_event(width, mac, target, type_, data, buffer):
    """Writes an event whose target has so many bytes into the lent buffer; gives the count."""
    refuse(4, len(data) > EVENT_DATA_MOST)
    refuse(7, target >= 256 ** width)
    refuse(7, type_ in INSTANCE_EVENTS and not data)
    head = EVENT_LEAD + mac + target.to_bytes(width, "big") + bytes([type_, len(data)])
    return write_frame(head, data, buffer)


def event_name(type_):
    """The name of an event type."""
    return EVENT_NAMES[type_] if type_ < len(EVENT_NAMES) else "OTHER"


def event_instance(event):
    """The instance number of an event that carries one, else None."""
    return event.data[0] if event.type in INSTANCE_EVENTS else None


# Four orders in reply data

FILTER_ENTRY_SIZE = 4  # address, instance, mask high, mask low
FILTER_ENTRIES_MOST = 15


# "Event mask: high byte first. Bit k stands for event type k."
def read_mask(data):
    """The mask as a number."""
    refuse(11, len(data) != 2)
    return high_first(data)


# "Scenes of a group: 2 bytes, scenes 8-15 first, then 0-7."
def read_scenes(data):
    """The scenes as a number, whose bit k stands for scene k."""
    refuse(11, len(data) != 2)
    return high_first(data)


# "Gear present: 8 bytes, byte 0 holds gear 0-7, lowest gear in the lowest bit."
def read_gear(data):
    """The gear as a number, whose bit k stands for gear k."""
    refuse(11, len(data) != 8)
    return low_first(data)


# "Gear types: 4 bytes, low byte first."
def read_types(data):
    """The types as a number, whose bit k stands for type k."""
    refuse(11, len(data) != 4)
    return low_first(data)


def count_bits(bits):
    """How many the mask or map names."""
    return bin(bits).count("1")


def lowest_bit(bits):
    """The lowest that the mask or map names."""
    refuse(12, bits == 0)
    lowest = 0
    while not bits >> lowest & 1:
        lowest += 1
    return lowest


# "Filters: a mode byte, then k entries of address, instance, mask high, mask low; k is 0 to 15."
def read_filters(data):
    """The mode and the entries."""
    refuse(11, len(data) not in [1 + FILTER_ENTRY_SIZE * k for k in range(FILTER_ENTRIES_MOST + 1)])
    return data[0], [data[at:at + FILTER_ENTRY_SIZE] for at in range(1, len(data), FILTER_ENTRY_SIZE)]


def read_filter(data, number):
    """The entry with this number, from 0: address, instance and mask."""
    entries = read_filters(data)[1]
    refuse(12, number >= len(entries))
    entry = entries[number]
    return entry[0], entry[1], high_first(entry[2:])


# The book of unanswered requests

SEQUENCE_NUMBERS = 256

# Document 02, W-205: "The book of unanswered requests must also hold the tick (32 bits, given by the caller, running round past its end) at which
# each was asked."
TICK_SIZE = 4
TICKS = 256 ** TICK_SIZE


# "Age is the tick now less the tick asked, taken round the end, so a clock that has gone back gives a great age."
def age(now, asked):
    """How many ticks it is from the tick asked to the tick now."""
    return (now - asked) % TICKS


class Book:
    """Under each sequence number the command asked and the tick at which it was; an entry that is no known command is nothing held. Handed in, the
    ticks are bytes, high byte first."""

    def __init__(self, last=255, held=b"", ticks=b""):
        self.last = last
        self.held = bytearray(held) + bytes(SEQUENCE_NUMBERS - len(held))
        filled = ticks + bytes(SEQUENCE_NUMBERS * TICK_SIZE - len(ticks))
        self.ticks = [high_first(filled[place:place + TICK_SIZE]) for place in range(0, len(filled), TICK_SIZE)]

    # "Takes the first free number after the last one given, counting past 255 to 0 and trying the last one itself at
    # the end; it becomes the last." W-210: "17, retired, comes after 3 and before 4", so before 9 too. W-205: "The record changes for asking and
    # replying as well; their numbers, order and refusals stay."
    def ask(self, command, tick):
        """Writes the command and the tick down; gives their number."""
        refuse(3, not known(command))
        refuse(17, retired(command))
        in_turn = [(self.last + step) % SEQUENCE_NUMBERS for step in range(1, SEQUENCE_NUMBERS + 1)]
        free = [number for number in in_turn if not known(self.held[number])]
        refuse(9, not free)
        self.last = free[0]
        self.held[self.last] = command
        self.ticks[self.last] = tick
        return self.last

    # "A reply with an awaited number frees it and returns its command." W-210: "a book entry already asked with 0A still takes its reply".
    def answer(self, number):
        """Strikes the number out; gives its command."""
        command = self.held[number]
        refuse(10, not known(command))
        self.held[number] = 0
        return command

    # W-205: "Add giving up all requests older than a limit: every such number is freed, no other changes, and the count freed is returned." Where
    # nothing is held there is no request. The last number given stays.
    def give_up(self, now, limit):
        """Strikes out the numbers of the requests that are older than the limit; gives how many they are."""
        older = [number for number in range(SEQUENCE_NUMBERS) if known(self.held[number]) and age(now, self.ticks[number]) > limit]
        for number in older:
            self.held[number] = 0
        return len(older)


# Reading a line

LEADS = {"request": frozenset([REQUEST_LEAD]), "reply": REPLY_TYPES}
HELD_MOST = {"request": 12, "reply": 67}  # one less than the longest frame; W-202: "the line reader's most held bytes included"
STORE_SIZE = 67


def settle(line, run):
    """Rules 1 to 3 at the front of the run: the item and its byte count; None where a rule needs more bytes."""
    if len(run) < 1:
        return None
    if run[0] not in LEADS[line]:
        return 2, 1
    if len(run) < 3:
        return None
    if line == "request":
        if not known(run[2]):
            return 3, 1
        place, sizes = request_sizes(run[2])
        if len(run) <= place:
            return None
        if run[place] not in sizes:
            return 4, 1
        size = sizes[run[place]]
    else:
        if run[2] > REPLY_DATA_MOST:
            return 4, 1
        size = REPLY_SIZE + run[2]
    if len(run) < size:
        return None
    if exclusive_or(run[:size]) != 0:
        return 6, 1
    if line == "request" and not fits(run[2], run[3:size - 1]):
        return 7, size
    return 0, size


def settle_by(line, held, part):
    """The fewest bytes of the part that, behind those held, settle the next item, and that item; None where none do."""
    for taken in range(len(part) + 1):
        item = settle(line, held + part[:taken])
        if item is not None:
            return taken, item
    return None


def items(line, stream):
    """The rule for the whole stream, closed at its end: each item's number and its bytes."""
    while stream:
        number, count = settle(line, stream) or (1, 1)
        yield number, stream[:count]
        stream = stream[count:]


# W-203: "the profile applied to a finished outgoing byte run: yes exactly if, read as a request line and closed, it gives only items 0 and each is
# inside the profile". 0A is inside, so a run with it passes, though it may be written no more.
def is_quiet(run):
    """Whether the run passes the quiet profile. One of no bytes gives no item, and does."""
    return all(number == 0 and inside(item[2]) for number, item in items("request", run))


class Reader:
    """A reader of a line: how many bytes it claims to hold, and its store."""

    def __init__(self, line, claim=0, store=b""):
        self.line = line
        self.claim = claim
        self.store = store + bytes(STORE_SIZE - len(store))

    # "One handed in that claims more is taken as a fresh reader; any other bytes held are read by the rules as they
    # stand."
    def held(self):
        """The bytes held."""
        return b"" if self.claim > HELD_MOST[self.line] else self.store[:self.claim]

    def hold(self, run):
        """Holds these bytes from now on."""
        self.claim = len(run)
        self.store = run + bytes(STORE_SIZE - len(run))

    def feed(self, part):
        """One feeding call: how many bytes of the part it takes, and the item, or None for "nothing yet"."""
        held = self.held()
        settled = settle_by(self.line, held, part)
        if settled is None:
            self.hold(held + part)
            return len(part), None
        taken, (number, count) = settled
        run = held + part[:taken]
        self.hold(run[count:])
        return taken, (number, run[:count])

    def close(self):
        """One closing call: the first item of the bytes held as the stream ends there, or None for "empty"."""
        held = self.held()
        item = next(items(self.line, held), None)
        self.hold(held[len(item[1]):] if item else b"")
        return item


# The year's capture (document 02, W-207): "a version byte at the front (1 for three target bytes, 2 for two), then records, each a
# two-byte length first, then seconds in four bytes, then the datagram, all big-endian"

VERSIONS = {1: THREE, 2: TWO}
VERSION_SIZE = 1
LENGTH_SIZE = 2
SECONDS_SIZE = 4

# "A count for each event type 0 to 9 and one for all others, in 32 bits each."
OTHERS = 10
COUNT_MOST = 2 ** 32 - 1

Record = namedtuple("Record", "seconds datagram type next")  # next: the place behind it, where another may begin
Summary = namedtuple("Summary", "records first last counts")
Mark = namedtuple("Mark", "used last")  # bytes in use, and the last record's seconds

# "Freshly emptied, all counts are 0 and the two times are absent." An absent time is None.
EMPTY_SUMMARY = Summary(0, None, None, (0,) * (OTHERS + 1))
EMPTY_MARK = Mark(VERSION_SIZE, None)


def version_width(buffer, used):
    """The width of the targets, by the version byte. "15 also for no version byte": where the buffer or its use has no byte."""
    refuse(15, len(buffer) == 0 or used == 0)
    refuse(14, buffer[0] not in VERSIONS)
    return VERSIONS[buffer[0]]


def claimed_width(buffer, used):
    """The width of the targets, where no more is in use than there is."""
    width = version_width(buffer, used)
    refuse(15, used > len(buffer))
    return width


# "A record cut short, of length under 4, .. or whose datagram its layout refuses." "The length counts what follows it."
def record_at(width, run, place):
    """The good record that begins at this place of the bytes in use."""
    begin = place + LENGTH_SIZE
    refuse(15, begin > len(run))
    length = high_first(run[place:begin])
    refuse(15, length < SECONDS_SIZE)
    end = begin + length
    refuse(15, end > len(run))
    datagram = run[begin + SECONDS_SIZE:end]
    try:
        event = read_event(width, datagram)
    except Refusal:
        raise Refusal(15)
    return Record(high_first(run[begin:begin + SECONDS_SIZE]), datagram, event.type, end)


def walked(width, run):
    """The records one by one from the version byte on; at the first bad one, 15, also for "seconds below the one before"."""
    place, last = VERSION_SIZE, 0
    while place < len(run):
        record = record_at(width, run, place)
        refuse(15, record.seconds < last)
        yield record
        place, last = record.next, record.seconds


def records_in(buffer, used):
    """All records of a capture: 14 and 15 on it."""
    return list(walked(claimed_width(buffer, used), buffer[:used]))


# "Bytes claimed beyond the buffer's end count as not there."
def good_records(buffer, used):
    """The records of the longest prefix that is a good capture: all before the first bad one."""
    width = version_width(buffer, used)
    records = []
    try:
        for record in walked(width, buffer[:used]):
            records.append(record)
    except Refusal:
        pass
    return records


def mark_behind(records):
    """The mark behind these records."""
    return Mark(records[-1].next, records[-1].seconds) if records else EMPTY_MARK


def count_place(type_):
    """The place of a type's count among the eleven."""
    return min(type_, OTHERS)


def counted(records):
    """The summary counted afresh from these records."""
    refuse(8, len(records) > COUNT_MOST)
    if not records:
        return EMPTY_SUMMARY
    places = [count_place(record.type) for record in records]
    counts = tuple(places.count(place) for place in range(OTHERS + 1))
    return Summary(len(records), records[0].seconds, records[-1].seconds, counts)


# "8 for no room .. in a count": the number of records and the count of this type alone.
def raised(summary, seconds, type_):
    """The summary with one more record."""
    place = count_place(type_)
    refuse(8, summary.records == COUNT_MOST or summary.counts[place] == COUNT_MOST)
    first = seconds if summary.first is None else summary.first
    counts = tuple(count + (at == place) for at, count in enumerate(summary.counts))
    return Summary(summary.records + 1, first, seconds, counts)


def record_bytes(seconds, datagram):
    """A record as it stands in the buffer."""
    content = seconds.to_bytes(SECONDS_SIZE, "big") + datagram
    return len(content).to_bytes(LENGTH_SIZE, "big") + content


# A morning's datagrams in one call (document 02, W-208): "a run of event datagrams, each led by a two-byte big-endian length". "A run that
# ends inside a length or whose last length reaches past its end is refused whole with 15."
def datagrams_in(run):
    """The datagrams of a run, in order. The length counts the datagram alone, so 0 leads an empty one."""
    datagrams, place = [], 0
    while place < len(run):
        begin = place + LENGTH_SIZE
        refuse(15, begin > len(run))
        end = begin + high_first(run[place:begin])
        refuse(15, end > len(run))
        datagrams.append(run[begin:end])
        place = end
    return datagrams


# "As if each had been appended singly in order, refused ones skipped, and the call returns how many went in and how many were refused."
def appended_singly(append, seconds, datagrams):
    """Appends each under the one time; gives how many went in and how many were refused."""
    refused = 0
    for datagram in datagrams:
        try:
            append(seconds, datagram)
        except Refusal:
            refused += 1
    return len(datagrams) - refused, refused


# Four seasons of one corridor (document 02, W-213): "From a capture, one controller MAC, one target and one instance, plus three rising
# season boundaries in seconds, report for each of the four seasons: occupied events (type 6), button presses (0), holds (1), and the
# longest gap in seconds".

PRESS = 0
HOLD = 1
OCCUPIED = 6

TIMES_END = 2 ** 32  # seconds in four bytes

Corridor = namedtuple("Corridor", "mac target instance")
Season = namedtuple("Season", "occupied presses holds longest total gaps")  # gaps: how many; longest: None where there is none


# "For each of the three the seasons' counts add up to that instance's over the whole capture." The target is compared as a number, so one
# too large for the layout is no event's. So is the instance: document 01 gives an event's instance no range, and one over 31 is counted
# where events carry it.
def times_in(width, records, corridor, type_):
    """The times of the corridor's events of this type, in order."""
    events = [(record.seconds, read_event(width, record.datagram)) for record in records if record.type == type_]
    return [seconds for seconds, event in events if (event.mac, event.target, event_instance(event)) == corridor]


# "A time equal to a boundary belongs to the later season."
def stretches(boundaries):
    """The times of each of the four seasons."""
    edges = [0] + boundaries + [TIMES_END]
    return [range(first, end) for first, end in zip(edges, edges[1:])]


# "From one occupied event to the next, both lying in it (absent if there are fewer than two)." "The mean gap is given as two whole numbers,
# total and count of gaps (0 and 0 if none)." A gap of 0 seconds is one.
def season_in(stretch, occupied, presses, holds):
    """One season of the corridor, of all its times."""
    occupied, presses, holds = ([seconds for seconds in times if seconds in stretch] for times in [occupied, presses, holds])
    gaps = [later - earlier for earlier, later in zip(occupied, occupied[1:])]
    return Season(len(occupied), len(presses), len(holds), max(gaps) if gaps else None, sum(gaps), len(gaps))


# "Refusals: 14 and 15 as before, then 20 for boundaries that do not rise." Equal ones do not rise.
def seasons_in(buffer, used, corridor, boundaries):
    """The four seasons of a corridor, from all records of a capture."""
    records = records_in(buffer, used)
    refuse(20, any(later <= earlier for earlier, later in zip(boundaries, boundaries[1:])))
    times = [times_in(VERSIONS[buffer[0]], records, corridor, type_) for type_ in [OCCUPIED, PRESS, HOLD]]
    return [season_in(stretch, *times) for stretch in stretches(boundaries)]


# Part by part: "all parts since `seasons_begin` put together, all in use".
class Parts:
    """A corridor and its boundaries, and the bytes of the parts that came."""

    def __init__(self, corridor, boundaries):
        self.corridor = corridor
        self.boundaries = boundaries
        self.run = b""

    def take(self, part):
        """Takes one part more, whatever it is."""
        self.run += part

    def seasons(self):
        """The four seasons of all parts put together. Nothing moves."""
        return seasons_in(self.run, len(self.run), self.corridor, self.boundaries)


class Capture:
    """A buffer, its bytes in use as they are claimed, a summary and a mark. At first, a buffer of no bytes."""

    def __init__(self):
        self.buffer = b""
        self.used = 0
        self.summary = EMPTY_SUMMARY
        self.mark = Mark(0, None)

    # "Emptying gives 14, or 8 for a buffer of no bytes": the lower where both apply.
    def empty(self, version):
        """Writes the version byte and no other; gives the bytes in use."""
        refuse(8, len(self.buffer) == 0)
        refuse(14, version not in VERSIONS)
        self.buffer = bytes([version]) + self.buffer[VERSION_SIZE:]
        self.used, self.summary, self.mark = VERSION_SIZE, EMPTY_SUMMARY, EMPTY_MARK
        return self.used

    def append(self, seconds, datagram):
        """Appends by the letter, looking at all records; gives the bytes in use. The mark stays."""
        return self.append_behind(mark_behind(records_in(self.buffer, self.used)), seconds, datagram)

    def append_at(self, seconds, datagram):
        """Appends at the mark, which is taken at its word; gives the bytes in use. The mark moves behind the record."""
        claimed_width(self.buffer, self.mark.used)
        self.append_behind(self.mark, seconds, datagram)
        self.mark = Mark(self.used, seconds)
        return self.used

    # "In appending, 14 and 15 .. on the capture come first, then 1 to 7 for the datagram, then 16, then 8 for no room in the
    # buffer or in a count."
    def append_behind(self, mark, seconds, datagram):
        """Appends behind a mark of a capture that has been judged; gives the bytes in use."""
        event = read_event(VERSIONS[self.buffer[0]], datagram)
        refuse(16, mark.last is not None and seconds < mark.last)
        record = record_bytes(seconds, datagram)
        end = mark.used + len(record)
        refuse(8, end > len(self.buffer))
        self.summary = raised(self.summary, seconds, event.type)
        self.buffer = self.buffer[:mark.used] + record + self.buffer[end:]
        self.used = end
        return self.used

    # "A capture that gives 14 or 15 refuses the call with that": capture and run are judged "before anything is appended", the capture
    # first, so that the lower is given where both apply.
    def append_run(self, seconds, run):
        """Appends a run's datagrams by the letter; gives how many went in and how many were refused. The mark stays."""
        records_in(self.buffer, self.used)
        return appended_singly(self.append, seconds, datagrams_in(run))

    # "Bytes in use and the mark's become N, the mark's last becomes the seconds where at least one went in and stays otherwise."
    def append_run_at(self, seconds, run):
        """Appends a run's datagrams from the mark on; gives how many went in and how many were refused."""
        claimed_width(self.buffer, self.mark.used)
        counts = appended_singly(self.append_at, seconds, datagrams_in(run))
        self.used = self.mark.used
        return counts

    def open(self):
        """Looks at all records; gives the mark behind them, which becomes the capture's."""
        self.mark = mark_behind(records_in(self.buffer, self.used))
        return self.mark

    def count(self):
        """The summary counted afresh."""
        return counted(records_in(self.buffer, self.used))

    def keep_prefix(self):
        """Keeps the longest prefix that is a good capture, whatever follows it: bytes in use, summary and mark become its own."""
        records = good_records(self.buffer, self.used)
        self.summary, self.mark = counted(records), mark_behind(records)
        self.used = self.mark.used
        return self.used

    def record(self, place):
        """The record that begins at the place. Those before it are not looked at."""
        width = claimed_width(self.buffer, self.used)
        refuse(12, place == self.used)
        refuse(15, place < VERSION_SIZE)
        return record_at(width, self.buffer[:self.used], place)

    def seasons(self, corridor, boundaries):
        """The four seasons of a corridor, from all records. Nothing moves."""
        return seasons_in(self.buffer, self.used, corridor, boundaries)


# The contractor's filter plan (document 02, W-212): "Contractors bring a plan, a run of 31 and 33 requests made by their own tool."

ADD_FILTER = 0x31
CLEAR_FILTER = 0x33
FILTERS_MOST = 64  # "at most 64 entries"
MASK_BITS = 16
WANTED_SIZE = 3  # "three bytes each"

Change = namedtuple("Change", "adds key mask")  # adds, or else clears; key: address and instance


# "The plan is cut every 8 bytes, a short end being 1."
def cut_plan(plan):
    """The requests of a plan as they come."""
    return [plan[place:place + BASIC_SIZE] for place in range(0, len(plan), BASIC_SIZE)]


# "1 to 7 for a plan's request, 18 for a command other than 31 or 33, 19 for a 65th entry, in that order". So 8 bytes of a request 40 or of a
# colour request are 4 or 5, and not 18.
def read_change(request):
    """Reads one request of a plan: what it changes in the filters."""
    command, arguments = read_request(request)[1:3]
    refuse(18, command not in [ADD_FILTER, CLEAR_FILTER])
    return Change(command == ADD_FILTER, (arguments[0], arguments[1]), high_first(arguments[2:]))


# "Model the controller's filters, empty at first: at most 64 entries, one for each address and instance, mask never 0."
class Filters:
    """The masks by address and instance, in the order in which the entries were made."""

    def __init__(self):
        self.masks = {}

    def take(self, change):
        """Makes a change."""
        if change.adds:
            self.add(change.key, change.mask)
        else:
            self.clear(change.key, change.mask)

    # "Adding joins the mask to the entry or makes one; adding mask 0 changes nothing." So mask 0 never needs a 65th entry.
    def add(self, key, mask):
        if mask != 0:
            refuse(19, key not in self.masks and len(self.masks) == FILTERS_MOST)
            self.masks[key] = self.masks.get(key, 0) | mask

    # "Clearing takes bits out and drops an entry that becomes 0; clearing where no entry is changes nothing."
    def clear(self, key, mask):
        if key in self.masks:
            self.masks[key] &= ~mask
            if self.masks[key] == 0:
                del self.masks[key]

    # "An event is hidden when its type's bit stands in its entry; types above 15 never are." Its entry is that of its address and its instance, both
    # as they stand: 255 is an instance like any other.
    def hides(self, address, instance, type_):
        return type_ < MASK_BITS and self.masks.get((address, instance), 0) >> type_ & 1 == 1


# "Our list of wanted address, instance and event type (three bytes each, a short end passed over)."
def wanted_in(run):
    """The wanted events of the run."""
    return [tuple(run[place:place + WANTED_SIZE]) for place in range(0, len(run) - WANTED_SIZE + 1, WANTED_SIZE)]


# "A failing plan names its first bad request, or else the first wanted event hidden."
def filters_left(plan):
    """The filters behind the last good request, and of the first bad one its refusal and its place; None where all are good."""
    filters = Filters()
    for place, request in enumerate(cut_plan(plan)):
        try:
            filters.take(read_change(request))
        except Refusal as refusal:
            return filters, (refusal.number, place)
    return filters, None


def first_hidden(filters, events):
    """The place of the first event that is hidden; None where none is."""
    return next((place for place, event in enumerate(events) if filters.hides(*event)), None)


# Clocks at Domintell sites (document 02, W-214): "Read the legacy clock text of source document 000, section 4.5.b, from its time field on: time, two
# hexadecimal weekday symbols, day/month/year with 00 for no restriction, and an offset for astronomical clocks, which may be negative."

Clock = namedtuple("Clock", "time weekdays day month year offset")  # time: hour, minute, second; year: 0 to 99; offset: None where there is none
Offset = namedtuple("Offset", "earlier time")  # earlier, or else later

# "HH:MM:SS WD DD/MM/YY", and behind it a blank and "HH:MM:SS" or "-HH:MM:SS". d is a decimal digit, h one of the two weekday symbols, and every
# other character itself. "Weekday symbols are capitals"; blanks for zeros are not taken: "The leading zero is always present for each field."
CLOCK_FORM = b"dd:dd:dd hh dd/dd/dd"
LATER_FORM = CLOCK_FORM + b" dd:dd:dd"
EARLIER_FORM = CLOCK_FORM + b" -dd:dd:dd"
DIGITS = b"0123456789"
SYMBOLS = b"0123456789ABCDEF"

HOUR = span(0, 23)
MINUTE = SECOND = span(0, 59)
CLOCK_DAY = span(0, 31)  # "00 for no restriction"
CLOCK_MONTH = span(0, 12)
CLOCK_YEAR = span(0, 99)
YEARS = span(2000, 2099)  # "years mean 2000 to 2099"
CENTURY = 2000

WEEKDAY = span(0, 6)  # "0 to 6 from Sunday, as given"
SWITCHED_OFF = 0x80  # "Bit 80 switches a clock off."

# The Gregorian calendar.
MONTH_DAYS = [31, 28, 31, 30, 31, 30, 31, 31, 30, 31, 30, 31]
FEBRUARY = 2


def is_leap(year):
    return year % 400 == 0 or year % 4 == 0 and year % 100 != 0


def days_in(year, month):
    """How many days a month, 1 to 12, has."""
    return MONTH_DAYS[month - 1] + (month == FEBRUARY and is_leap(year))


def date_exists(year, month, day):
    return 1 <= month <= len(MONTH_DAYS) and 1 <= day <= days_in(year, month)


def has_form(text, form):
    """Whether the text has this form, and nothing behind it."""
    wanted = {ord("d"): DIGITS, ord("h"): SYMBOLS}
    return len(text) == len(form) and all(byte in wanted.get(sign, [sign]) for byte, sign in zip(text, form))


def is_time(time):
    """Whether hour, minute and second are in their ranges."""
    return all(value in place for value, place in zip(time, [HOUR, MINUTE, SECOND]))


# "Hours reach 23, minutes and seconds 59, days 31, months 12, years mean 2000 to 2099, and -00:00:00 .. is out of range." An offset has the ranges of
# a time. A clock's own date need not exist: one that no day has is read and written, and never runs.
def is_in_range(clock):
    """Whether all fields of a clock are in their ranges."""
    if not is_time(clock.time) or clock.day not in CLOCK_DAY or clock.month not in CLOCK_MONTH or clock.year not in CLOCK_YEAR:
        return False
    return clock.offset is None or is_time(clock.offset.time) and not (clock.offset.earlier and clock.offset.time == (0, 0, 0))


def time_in(text, place):
    """Hour, minute and second of the text HH:MM:SS that begins at the place."""
    return tuple(int(text[at:at + 2]) for at in range(place, place + 9, 3))


# "An offset stands exactly where the clock is astronomical." "21 text not of this form, 22 a field out of range, in that order".
def read_clock(astronomical, text):
    """Reads the text of a clock."""
    forms = [LATER_FORM, EARLIER_FORM] if astronomical else [CLOCK_FORM]
    refuse(21, not any(has_form(text, form) for form in forms))
    offset = None
    if astronomical:
        earlier = has_form(text, EARLIER_FORM)
        offset = Offset(earlier, time_in(text, 22 if earlier else 21))
    clock = Clock(time_in(text, 0), int(text[9:11], 16), int(text[12:14]), int(text[15:17]), int(text[18:20]), offset)
    refuse(22, not is_in_range(clock))
    return clock


# "Write clocks back too, and get the same text." "Refusals: .. 22 .., then 8."
def write_clock(clock, buffer):
    """Writes the text of a clock into the lent buffer; gives the count."""
    refuse(22, not is_in_range(clock))
    written = "%02d:%02d:%02d %02X %02d/%02d/%02d" % (*clock.time, clock.weekdays, clock.day, clock.month, clock.year)
    if clock.offset is not None:
        written += " %s%02d:%02d:%02d" % ("-" if clock.offset.earlier else "", *clock.offset.time)
    refuse(8, len(buffer) < len(written))
    buffer[:len(written)] = written.encode("ascii")
    return len(written)


def seconds_of(time):
    """The seconds from midnight to the time."""
    hour, minute, second = time
    return hour * 3600 + minute * 60 + second


# "Given a date, its weekday .. and whether the clock is astronomical, say whether it runs that day and at which second from midnight; an offset may
# carry it below 0 or past 86,399, and it is reported so." The restrictions are tested on the given date, wherever the offset carries the second, and the
# weekday is not compared with the date. "A weekday over 6 or a given date that does not exist or lies outside those years is out of range", also where the
# clock is switched off.
def run_of_clock(astronomical, date, weekday, text):
    """The second from midnight at which the clock runs on this date, year, month and day; None where it does not."""
    clock = read_clock(astronomical, text)
    year, month, day = date
    refuse(22, weekday not in WEEKDAY or year not in YEARS or not date_exists(year, month, day))
    restrictions = [(clock.day, day), (clock.month, month), (clock.year, year - CENTURY)]
    if clock.weekdays & SWITCHED_OFF or not clock.weekdays >> weekday & 1 or any(named not in [0, given] for named, given in restrictions):
        return None
    second = seconds_of(clock.time)
    if clock.offset is None:
        return second
    return second - seconds_of(clock.offset.time) if clock.offset.earlier else second + seconds_of(clock.offset.time)


# The calls of docs/BENCH.md: words and groups

LINE_MOST = 4095
HEX_DIGITS = frozenset(b"0123456789ABCDEFabcdef")

SOME = range(LINE_MOST)  # "any number of bytes, none too": no line holds more


def exactly(size):
    """The one size of a group."""
    return range(size, size + 1)


def at_most(size):
    """The sizes of a group from none."""
    return range(size + 1)


def text(fields):
    """The fields of an answer: numbers in decimal, bytes as two capital hexadecimal digits each, words as they are."""
    words = []
    for field in fields:
        if isinstance(field, (bytes, bytearray)):
            words.extend("%02X" % byte for byte in field)
        else:
            words.append(str(field))
    return " ".join(words)


# The fields of the answers

def request_fields(datagram):
    request = read_request(datagram)
    fields = ["sequence", request.sequence, "command", bytes([request.command])]
    if request.command == UNICAST:
        return fields + ["port", high_first(request.arguments[1:3]), "address"] + list(request.arguments[3:])
    if request.command == COLOUR:
        target, level, type_ = request.arguments[:3]
        return fields + ["target", target] + lights(target) + ["level", level] + colour_fields(type_, request.arguments[3:])
    meaning = RULES[BASIC[request.command]].meaning
    return fields + ["arguments", request.arguments] + meaning(*request.arguments) + (["retired"] if request.retired else [])


def colour_fields(type_, data):
    if type_ == XY:
        return ["xy", high_first(data[:2]), high_first(data[2:])]
    if type_ == TC:
        return ["tc", high_first(data)]
    return ["rgbwaf"] + list(data)


def reply_fields(datagram):
    reply = read_reply(datagram)
    return ["type", bytes([reply.type]), "sequence", reply.sequence, "n", len(reply.data)]


def error_code_fields(datagram):
    code = error_code(read_reply(datagram))
    if code is None:
        return ["absent"]
    return ["code", bytes([code])] + (error_name_fields(code) if error_name(code) else [])


def error_name_fields(code):
    return ["name", error_name(code)] if error_name(code) else ["none"]


def event_fields(width, datagram):
    event = read_event(width, datagram)
    instance = event_instance(event)
    return (["mac", event.mac, "target", event.target] + event_type_fields(event.type)
            + ["n", len(event.data), "instance", "absent" if instance is None else instance])


def event_type_fields(type_):
    return ["type", type_, event_name(type_)]


def data_fields(read):
    """The data part that a reader of datagrams gives; "asked of a refused datagram", it is empty."""
    def fields(datagram):
        try:
            return ["data", read(datagram).data]
        except Refusal:
            return ["data"]
    return fields


def shape_fields(command):
    if command in BASIC:
        return ["basic", BASIC[command]]
    return [{UNICAST: "unicast", COLOUR: "colour"}.get(command, "unknown")]


def fits_fields(command, arguments):
    if command not in BASIC:
        return ["no rule"]
    return ["fits" if fits(command, arguments) else "outside"]


def table_fields(command):
    shape, rule = table_entry(command)
    return ["shape", shape, "rule", rule]


def filters_fields(data):
    mode, entries = read_filters(data)
    return ["mode", mode, "entries", len(entries)]


def filter_fields(number, data):
    address, instance, mask = read_filter(data, high_first(number))
    return ["address", address, "instance", instance, "mask", mask]


def settle_fields(line, run):
    settled = settle_by(line, b"", run)
    if settled is None:
        return ["more"]
    taken, (number, count) = settled
    return ["item", number, "count", count, "by", taken]


# "Fewer bytes than a rule needs: wait. At close: item 1, one byte."
def item_at_fields(line, closed, run):
    """The item at a position, by number and count, where these bytes are all that is there so far, or all that comes."""
    item = settle(line, run) or ((1, 1) if closed and run else None)
    return ["item", item[0], "count", item[1]] if item else ["nothing"]


def item_fields(item):
    number, run = item
    return ["item", number, "count", len(run), "bytes", run]


def time_field(seconds):
    return "absent" if seconds is None else seconds


def summary_fields(summary):
    return ["records", summary.records, "first", time_field(summary.first), "last", time_field(summary.last),
            "counts"] + list(summary.counts)


def mark_fields(mark):
    return [mark.used, "last", time_field(mark.last)]


def record_fields(record):
    return ["seconds", record.seconds, "datagram", record.datagram, "next", record.next]


def season_fields(number, season):
    return ["season", number, "occupied", season.occupied, "presses", season.presses, "holds", season.holds,
            "longest", time_field(season.longest), "total", season.total, "gaps", season.gaps]


def seasons_fields(seasons):
    return [field for number, season in enumerate(seasons, 1) for field in season_fields(number, season)]


# "It is the one call whose refusal has a field."
def plan_fields(plan, wanted):
    """The fields of the whole answer, its number too."""
    filters, bad = filters_left(plan)
    if bad:
        number, place = bad
        return [number, "request", place]
    hidden = first_hidden(filters, wanted_in(wanted))
    return [0, "yes"] if hidden is None else [0, "hidden", hidden]


def offset_fields(offset):
    return ["absent"] if offset is None else ["earlier" if offset.earlier else "later", *offset.time]


def clock_fields(flag, text):
    clock = read_clock(flag[0] != 0, text)
    return (["time", *clock.time, "weekdays", bytes([clock.weekdays]), "day", clock.day, "month", clock.month, "year", clock.year, "offset"]
            + offset_fields(clock.offset))


def clock_runs_fields(given, text):
    second = run_of_clock(given[0] != 0, (high_first(given[1:3]), given[3], given[4]), given[5], text)
    return ["idle"] if second is None else ["second", second]


# The groups of the calls on the capture

CAPTURE_BUFFER_MOST = 1300
SUMMARY_SIZE = 58  # records in 4; flag and first in 4; flag and last in 4; eleven counts in 4
MARK_SIZE = 13  # bytes in use in 8; flag and last in 4
SEASONS_SIZE = 23  # MAC in 6, target in 4, instance, three boundaries in 4 each


# "A flag byte: 00 is no (absent), every other byte is yes. What stands behind a flag of 00 counts for nothing."
def time_of(group):
    """The time of a flag and four bytes."""
    return high_first(group[1:]) if group[0] != 0 else None


def summary_of(group):
    """The summary of its 58 bytes."""
    counts = tuple(high_first(group[at:at + 4]) for at in range(14, SUMMARY_SIZE, 4))
    return Summary(high_first(group[:4]), time_of(group[4:9]), time_of(group[9:14]), counts)


def mark_of(group):
    """The mark of its 13 bytes."""
    return Mark(high_first(group[:8]), time_of(group[8:]))


def corridor_of(group):
    """The corridor of the first 11 of the 23 bytes."""
    return Corridor(group[:6], high_first(group[6:10]), group[10])


def boundaries_of(group):
    """The three boundaries behind it."""
    return [high_first(group[at:at + 4]) for at in range(11, SEASONS_SIZE, 4)]


def parts_of(group):
    """No part yet, of the corridor and the boundaries of these 23 bytes."""
    return Parts(corridor_of(group), boundaries_of(group))


# The group of the call that writes a clock: "hour, minute, second, weekdays, day, month, year, kind, hour, minute, second". "Kind 00 is no offset (the
# three behind it count for nothing), 01 later, every other byte earlier."

CLOCK_SIZE = 11


def clock_of(group):
    """The clock of its 11 bytes."""
    kind = group[7]
    return Clock(tuple(group[:3]), *group[3:7], Offset(kind != 1, tuple(group[8:])) if kind != 0 else None)


# "Reading a written frame gives its fields back; writing a frame that was read gives its bytes back": a relay reads a
# datagram and writes what it read. W-210: "Demand 2's writing half leaves 0A out", so that a request with 0A is read and then refused with 17.

def relay_request(datagram, buffer):
    request = read_request(datagram)
    if request.command == UNICAST:
        return write_unicast(request.sequence, request.arguments[1:], buffer)
    if request.command == COLOUR:
        address, level, type_ = request.arguments[:3]
        return write_colour(type_, request.sequence, address, level, request.arguments[3:], buffer)
    return write_basic(request.sequence, request.command, request.arguments, buffer)


def relay_reply(datagram, buffer):
    reply = read_reply(datagram)
    return write_reply(reply.type, reply.sequence, reply.data, buffer)


def relay_event(width, datagram, buffer):
    event = read_event(width, datagram)
    return write_event(width, event.mac, event.target, event.type, event.data, buffer)


# Names of numbers as text, by kind: refusals (ours, docs/BENCH.md), commands, types of replies, error codes and types of events
# (source 002, "Commands", "TPI Advanced Response", "Error Codes", "TPI Event Types").

COMMAND_NAMES = {
    0x01: "QUERY_GROUP_LABEL", 0x08: "ENABLE_TPI_EVENT_EMIT", 0x09: "QUERY_GROUP_NUMBERS", 0x0A: "QUERY_SCENE_NUMBERS",
    0x0B: "QUERY_PROFILE_NUMBERS", 0x0C: "QUERY_OCCUPANCY_INSTANCE_TIMERS", 0x0E: "DALI_COLOUR", 0x1A: "QUERY_SCENE_NUMBERS_FOR_GROUP",
    0x1B: "QUERY_SCENE_LABEL_FOR_GROUP", 0x1C: "QUERY_CONTROLLER_VERSION_NUMBER", 0x1D: "QUERY_CONTROL_GEAR_DALI_ADDRESSES",
    0x20: "QUERY_DMX_DEVICE_LABEL_BY_NUMBER", 0x31: "DALI_ADD_TPI_EVENT_FILTER", 0x32: "QUERY_DALI_TPI_EVENT_FILTERS",
    0x33: "DALI_CLEAR_TPI_EVENT_FILTERS", 0x34: "QUERY_DALI_COLOUR", 0x40: "SET_TPI_EVENT_UNICAST_ADDRESS",
    0x41: "QUERY_TPI_EVENT_UNICAST_ADDRESS", 0xA0: "DALI_INHIBIT", 0xA1: "DALI_SCENE", 0xA2: "DALI_ARC_LEVEL",
    0xA3: "DALI_ON_STEP_UP", 0xA4: "DALI_STEP_DOWN_OFF", 0xA5: "DALI_UP", 0xA6: "DALI_DOWN", 0xA7: "DALI_RECALL_MAX",
    0xA8: "DALI_RECALL_MIN", 0xA9: "DALI_OFF", 0xAA: "DALI_QUERY_LEVEL", 0xAB: "DALI_QUERY_CONTROL_GEAR_STATUS",
    0xAC: "DALI_QUERY_CG_TYPE", 0xAD: "DALI_QUERY_LAST_SCENE", 0xAE: "DALI_QUERY_LAST_SCENE_IS_CURRENT",
}

ERROR_CODE_NAMES = {
    0x01: "CHECKSUM", 0x02: "SHORT_CIRCUIT", 0x03: "RECEIVE_ERROR", 0x04: "UNKNOWN_CMD", 0xB0: "PAID_FEATURE", 0xB1: "INVALID_ARGS",
    0xB2: "CMD_REFUSED", 0xB3: "QUEUE_FAILURE", 0xB4: "RESPONSE_UNAVAIL", 0xB5: "OTHER_DALI_ERROR", 0xB6: "MAX_LIMIT",
    0xB7: "UNEXPECTED_RESULT", 0xB8: "UNKNOWN_TARGET",
}

REFUSAL_NAMES = {
    0: "OK", 1: "TOO_SHORT", 2: "BAD_LEAD", 3: "UNKNOWN_COMMAND", 4: "BAD_LENGTH_BYTE", 5: "BAD_LENGTH", 6: "BAD_SUM",
    7: "BAD_ARGUMENT", 8: "NO_ROOM", 9: "NO_NUMBER_FREE", 10: "NOT_AWAITED", 11: "BAD_DATA_SIZE", 12: "NONE_THERE",
    13: "OUTSIDE_PROFILE", 14: "UNKNOWN_VERSION", 15: "BAD_RECORD", 16: "EARLIER_TIME", 17: "RETIRED", 18: "NOT_A_FILTER",
    19: "FILTERS_FULL", 20: "NOT_RISING", 21: "NOT_A_CLOCK", 22: "OUT_OF_RANGE",
}

KIND_NAMES = [
    REFUSAL_NAMES,
    COMMAND_NAMES,
    {0xA0: "OK", 0xA1: "ANSWER", 0xA2: "NO_ANSWER", 0xA3: "ERROR"},
    ERROR_CODE_NAMES,
    dict(enumerate(EVENT_NAMES)),
]


def write_name(kind, number, buffer):
    """Writes the name of a number into the lent buffer; gives the count."""
    refuse(7, kind >= len(KIND_NAMES) or number not in KIND_NAMES[kind])
    name = KIND_NAMES[kind][number].encode("ascii")
    refuse(8, len(buffer) < len(name))
    buffer[:len(name)] = name
    return len(name)


# The calls, by name: the sizes of their groups, and the answer

def plain(fields):
    """A call that lends no buffer: the fields of its answer from its groups."""
    def answer(*groups):
        try:
            return text([0] + fields(*groups))
        except Refusal as refusal:
            return text([refusal.number])
    return answer


def lent(write):
    """A call whose last group is a lent buffer: the count, or the refusal, and the buffer before and after."""
    def answer(*groups):
        buffer = bytearray(groups[-1])
        try:
            fields = [0, "count", write(*(groups[:-1] + (buffer,)))]
        except Refusal as refusal:
            fields = [refusal.number]
        return text(fields + ["before", groups[-1], "after", buffer])
    return answer


def by(width, asked):
    """The calls of events, of one layout."""
    return lambda *groups: asked(width, *groups)


def write_colour_by(type_, quiet=False):
    """The writer's call of one colour type: sequence, address and level, then the colour data, whose numbers stand high byte first in the
    frame too."""
    return lambda head, buffer: write_colour(type_, head[0], head[1], head[2], head[3:], buffer, quiet)


def write_event_by(width, head, data, buffer):
    return write_event(width, head[:6], high_first(head[6:10]), head[10], data, buffer)


DATAGRAM_CALLS = {
    "request": ([SOME], plain(request_fields)),
    "write_basic": ([exactly(6), SOME],
                    lent(lambda head, buffer: write_basic(head[0], head[1], head[2:], buffer))),
    "write_unicast": ([exactly(7), SOME],
                      lent(lambda head, buffer: write_unicast(head[0], head[1:], buffer))),
    "write_colour_xy": ([exactly(7), SOME], lent(write_colour_by(XY))),
    "write_colour_tc": ([exactly(5), SOME], lent(write_colour_by(TC))),
    "write_colour_rgbwaf": ([exactly(9), SOME], lent(write_colour_by(RGBWAF))),
    "write_basic_quiet": ([exactly(6), SOME],
                          lent(lambda head, buffer: write_basic(head[0], head[1], head[2:], buffer, quiet=True))),
    "write_unicast_quiet": ([exactly(7), SOME],
                            lent(lambda head, buffer: write_unicast(head[0], head[1:], buffer, quiet=True))),
    "write_colour_xy_quiet": ([exactly(7), SOME], lent(write_colour_by(XY, quiet=True))),
    "write_colour_tc_quiet": ([exactly(5), SOME], lent(write_colour_by(TC, quiet=True))),
    "write_colour_rgbwaf_quiet": ([exactly(9), SOME], lent(write_colour_by(RGBWAF, quiet=True))),
    "reply": ([SOME], plain(reply_fields)),
    "reply_data": ([SOME], plain(data_fields(read_reply))),
    "error_code": ([SOME], plain(error_code_fields)),
    "write_reply": ([exactly(2), SOME, SOME],
                    lent(lambda head, data, buffer: write_reply(head[0], head[1], data, buffer))),
    "event": ([SOME], plain(by(THREE, event_fields))),
    "event_data": ([SOME], plain(data_fields(by(THREE, read_event)))),
    "write_event": ([exactly(11), SOME, SOME], lent(by(THREE, write_event_by))),
    "event_two": ([SOME], plain(by(TWO, event_fields))),
    "event_two_data": ([SOME], plain(data_fields(by(TWO, read_event)))),
    "write_event_two": ([exactly(11), SOME, SOME], lent(by(TWO, write_event_by))),
    "relay_request": ([SOME, SOME], lent(relay_request)),
    "relay_reply": ([SOME, SOME], lent(relay_reply)),
    "relay_event": ([SOME, SOME], lent(by(THREE, relay_event))),
    "relay_event_two": ([SOME, SOME], lent(by(TWO, relay_event))),
}

PART_CALLS = {
    "sum": ([SOME], plain(lambda run: ["sum", bytes([exclusive_or(run)])])),
    "frame": ([SOME, SOME, SOME], lent(write_frame)),
    "known": ([exactly(1)], plain(lambda command: ["known" if known(command[0]) else "unknown"])),
    "shape": ([exactly(1)], plain(lambda command: shape_fields(command[0]))),
    "fits": ([exactly(5)], plain(lambda run: fits_fields(run[0], run[1:]))),
    "inside": ([exactly(1)], plain(lambda command: ["inside" if inside(command[0]) else "outside"])),
    "table": ([exactly(1)], plain(lambda command: table_fields(command[0]))),
    "error_name": ([exactly(1)], plain(lambda code: error_name_fields(code[0]))),
    "event_type": ([exactly(1)], plain(lambda number: event_type_fields(number[0]))),
    "group_target": ([exactly(1)], plain(lambda group: ["target", group_target(group[0])])),
    "lights": ([exactly(1)], plain(lambda target: lights(target[0]))),
    "status": ([exactly(1)], plain(lambda target: status(target[0]))),
    "device": ([exactly(1)], plain(lambda number: ["device", device_address(number[0])])),
    "device_number": ([exactly(1)], plain(lambda address: ["number", device_number(address[0])])),
    "name": ([exactly(2), SOME], lent(lambda number, buffer: write_name(number[0], number[1], buffer))),
}

REPLY_DATA_CALLS = {
    "high_first": ([exactly(2)], plain(lambda run: ["number", high_first(run)])),
    "mask": ([SOME], plain(lambda data: ["bits", read_mask(data)])),
    "count_types": ([exactly(2)], plain(lambda mask: ["count", count_bits(high_first(mask))])),
    "lowest_type": ([exactly(2)], plain(lambda mask: ["lowest", lowest_bit(high_first(mask))])),
    "scenes": ([SOME], plain(lambda data: ["bits", read_scenes(data)])),
    "gear": ([SOME], plain(lambda data: ["bits", read_gear(data)])),
    "count_gear": ([exactly(8)], plain(lambda gear: ["count", count_bits(high_first(gear))])),
    "lowest_gear": ([exactly(8)], plain(lambda gear: ["lowest", lowest_bit(high_first(gear))])),
    "types": ([SOME], plain(lambda data: ["bits", read_types(data)])),
    "filters": ([SOME], plain(filters_fields)),
    "filter": ([exactly(8), SOME], plain(filter_fields)),
}


# The finished run is the call's own: the reader of the request line that is carried has no part in it.
RUN_CALLS = {
    "quiet": ([SOME], plain(lambda run: ["yes" if is_quiet(run) else "no"])),
}

# "Nothing is carried, and nothing carried is read." So it is with the clocks.
PLAN_CALLS = {
    "plan": ([SOME, SOME], lambda plan, wanted: text(plan_fields(plan, wanted))),
}


CLOCK_CALLS = {
    "clock": ([exactly(1), SOME], plain(clock_fields)),
    "clock_runs": ([exactly(6), SOME], plain(clock_runs_fields)),
    "write_clock": ([exactly(CLOCK_SIZE), SOME], lent(lambda group, buffer: write_clock(clock_of(group), buffer))),
}


class Bench:
    """One run of the bench, with the book, the two readers, the capture and the parts of another that it carries."""

    def __init__(self):
        self.book = Book()
        self.readers = {}
        self.capture = Capture()
        self.parts = parts_of(bytes(SEASONS_SIZE))
        self.calls = {}
        self.calls.update(DATAGRAM_CALLS)
        self.calls.update(PART_CALLS)
        self.calls.update(REPLY_DATA_CALLS)
        self.calls.update(self.book_calls())
        for line in ["request", "reply"]:
            self.readers[line] = Reader(line)
            self.calls.update(self.line_calls(line))
        self.calls.update(RUN_CALLS)
        self.calls.update(self.capture_calls())
        self.calls.update(self.parts_calls())
        self.calls.update(PLAN_CALLS)
        self.calls.update(CLOCK_CALLS)
        self.calls["help"] = ([exactly(0)], plain(lambda none: ["calls"] + list(self.calls)))

    def book_calls(self):
        """The calls on the book that is carried."""
        def set_book(last=b"\xFF", held=b"", ticks=b""):
            self.book = Book(last[0], held, ticks)
            return []

        # "Ticks of entries 00 are not shown."
        def show():
            book = self.book
            held = [[bytes([number, book.held[number]]), book.ticks[number]] for number in range(SEQUENCE_NUMBERS) if book.held[number]]
            return ["last", book.last, "held"] + [field for entry in held for field in entry]

        return {
            "book_fresh": ([exactly(0)], plain(lambda none: set_book())),
            "book_set": ([exactly(1), at_most(SEQUENCE_NUMBERS), at_most(SEQUENCE_NUMBERS * TICK_SIZE)], plain(set_book)),
            "ask": ([exactly(1 + TICK_SIZE)], plain(lambda run: ["number", self.book.ask(run[0], high_first(run[1:]))])),
            "answer": ([exactly(1)], plain(lambda number: ["command", bytes([self.book.answer(number[0])])])),
            "give_up": ([exactly(2 * TICK_SIZE)],
                        plain(lambda run: ["freed", self.book.give_up(high_first(run[:TICK_SIZE]), high_first(run[TICK_SIZE:]))])),
            "book_show": ([exactly(0)], plain(lambda none: show())),
        }

    def line_calls(self, line):
        """The calls on the reader of this line that is carried."""
        def set_reader(claim=b"", store=b""):
            self.readers[line] = Reader(line, high_first(claim), store)
            return []

        def feed(part):
            taken, item = self.readers[line].feed(part)
            return ["taken", taken] + (item_fields(item) if item else ["nothing"])

        def close():
            item = self.readers[line].close()
            return item_fields(item) if item else ["empty"]

        def show():
            reader = self.readers[line]
            return ["held", reader.claim, "bytes", reader.store[:reader.claim]]

        return {
            "fresh_" + line: ([exactly(0)], plain(lambda none: set_reader())),
            "hold_" + line: ([exactly(8), at_most(STORE_SIZE)], plain(set_reader)),
            "feed_" + line: ([SOME], plain(feed)),
            "close_" + line: ([exactly(0)], plain(lambda none: close())),
            "show_" + line: ([exactly(0)], plain(lambda none: show())),
            "settle_" + line: ([SOME], plain(lambda run: settle_fields(line, run))),
            "item_" + line: ([exactly(1), SOME], plain(lambda flag, run: item_at_fields(line, flag[0] != 0, run))),
        }

    def capture_calls(self):
        """The calls on the capture that is carried."""
        capture = self.capture

        def set_capture(used, buffer):
            capture.used, capture.buffer = high_first(used), buffer
            return []

        def set_summary(group):
            capture.summary = summary_of(group)
            return []

        def set_mark(group):
            capture.mark = mark_of(group)
            return []

        def keep_prefix():
            used = capture.keep_prefix()
            return ["used", used] + summary_fields(capture.summary)

        def run_fields(append_run):
            def fields(seconds, run):
                went_in, refused = append_run(high_first(seconds), run)
                return ["in", went_in, "refused", refused, "used", capture.used]
            return fields

        def show():
            return (["used", capture.used, "bytes", capture.buffer] + summary_fields(capture.summary)
                    + ["mark"] + mark_fields(capture.mark))

        def seasons(group):
            return seasons_fields(capture.seasons(corridor_of(group), boundaries_of(group)))

        return {
            "capture_set": ([exactly(8), at_most(CAPTURE_BUFFER_MOST)], plain(set_capture)),
            "summary_set": ([exactly(SUMMARY_SIZE)], plain(set_summary)),
            "mark_set": ([exactly(MARK_SIZE)], plain(set_mark)),
            "capture_empty": ([exactly(1)], plain(lambda version: ["used", capture.empty(version[0])])),
            "capture_append": ([exactly(4), SOME],
                               plain(lambda seconds, datagram: ["used", capture.append(high_first(seconds), datagram)])),
            "capture_append_at": ([exactly(4), SOME],
                                  plain(lambda seconds, datagram: ["used", capture.append_at(high_first(seconds), datagram)])),
            "capture_run": ([exactly(4), SOME], plain(run_fields(capture.append_run))),
            "capture_run_at": ([exactly(4), SOME], plain(run_fields(capture.append_run_at))),
            "capture_open": ([exactly(0)], plain(lambda none: ["used"] + mark_fields(capture.open()))),
            "capture_count": ([exactly(0)], plain(lambda none: summary_fields(capture.count()))),
            "capture_prefix": ([exactly(0)], plain(lambda none: keep_prefix())),
            "capture_record": ([exactly(8)], plain(lambda place: record_fields(capture.record(high_first(place))))),
            "capture_show": ([exactly(0)], plain(lambda none: show())),
            "seasons": ([exactly(SEASONS_SIZE)], plain(seasons)),
        }

    # "Before the first `seasons_begin` the state is as begun with 23 bytes 00. The carried capture is not touched by these three."
    def parts_calls(self):
        """The calls on the parts that are carried."""
        def begin(group):
            self.parts = parts_of(group)
            return []

        def take(part):
            self.parts.take(part)
            return []

        return {
            "seasons_begin": ([exactly(SEASONS_SIZE)], plain(begin)),
            "seasons_part": ([SOME], plain(take)),
            "seasons_end": ([exactly(0)], plain(lambda none: seasons_fields(self.parts.seasons()))),
        }

    def answer(self, line):
        """The answer to a line, by the first row of "What is no call" that applies, or the call's own."""
        words = [word for word in line.split(b" ") if word]
        if not words:
            return ""
        if len(line) > LINE_MOST:
            return "? line too long"
        name = words[0].decode("latin-1")
        if name not in self.calls:
            return "? no such call"
        if not all(word == b"/" or is_byte(word) for word in words[1:]):
            return "? not a byte"
        groups = grouped(words[1:])
        sizes, answer = self.calls[name]
        if len(groups) != len(sizes):
            return "? wrong number of groups"
        if not all(len(group) in size for group, size in zip(groups, sizes)):
            return "? wrong number of bytes"
        return answer(*groups)


def is_byte(word):
    """Whether the word is two hexadecimal digits."""
    return len(word) == 2 and all(digit in HEX_DIGITS for digit in word)


def grouped(words):
    """The groups of bytes; each "/" ends one and begins the next."""
    groups = [bytearray()]
    for word in words:
        if word == b"/":
            groups.append(bytearray())
        else:
            groups[-1].append(int(word, 16))
    return [bytes(group) for group in groups]


def lines(run):
    """The lines of the input: each ends at a line feed, or at the end of the input."""
    parts = run.split(b"\n")
    return parts if parts[-1] else parts[:-1]


def main():
    bench = Bench()
    for line in lines(sys.stdin.buffer.read()):
        sys.stdout.buffer.write(bench.answer(line).encode("ascii") + b"\n")


if __name__ == "__main__":
    main()
