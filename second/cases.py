"""The cases: calls of docs/BENCH.md, written to standard output, the same bytes on every run and every machine.

    python3 second/cases.py > calls
    python3 second/cases.py count      (how many lines of each kind)
    python3 second/cases.py run > run  (the bytes that the program quiet is run on)
    python3 second/cases.py plan > plan, and wanted > wanted  (the plan and the text that the program plan is run on)
    python3 second/cases.py clocks > clocks  (the lines that the program clock is run on)
"""

import os
import sys
from collections import namedtuple
from itertools import combinations

import opinion

FRAMES = os.path.join(os.path.dirname(os.path.abspath(__file__)), "frames.txt")
COMMANDS = os.path.join(os.path.dirname(os.path.abspath(__file__)), "commands.txt")


# Writing calls

def call(name, *groups):
    """The line of a call."""
    words = [name]
    for place, group in enumerate(groups):
        if place > 0:
            words.append("/")
        words.extend("%02X" % byte for byte in group)
    return " ".join(words)


def wide(number, size):
    """The number in so many bytes, high byte first."""
    return number.to_bytes(size, "big")


def summed(run):
    """The run and its sum."""
    return bytes(run) + bytes([opinion.exclusive_or(run)])


def resummed(frame):
    """The frame with its last byte put right."""
    return summed(frame[:-1])


def replaced(run, place, value):
    """The run with another byte at the place."""
    return run[:place] + bytes([value]) + run[place + 1:]


def pattern(size):
    """What a lent buffer holds before the call: no two neighbours alike."""
    return bytes((0x91 + 7 * place) % 256 for place in range(size))


# Frames with their right sums; whether the fields are good is not asked.

MAC = bytes([0x7C, 0xBA, 0xCC, 0x2F, 0x40, 0x2E])


def basic(sequence, command, arguments):
    return summed(bytes([0x04, sequence, command]) + bytes(arguments))


def unicast(sequence, port_and_address):
    return summed(bytes([0x04, sequence, 0x40, 0x06]) + port_and_address)


def colour(type_, data, sequence=0, address=1, level=254):
    return summed(bytes([0x04, sequence, 0x0E, address, level, type_]) + data)


def reply(type_, sequence, data):
    return summed(bytes([type_, sequence, len(data)]) + data)


def event(target, type_, data, width=3, mac=MAC):
    return summed(b"\x5A\x43" + mac + wide(target, width) + bytes([type_, len(data)]) + data)


# Numbers by chance

class Chance:
    """Numbers that look random and are the same everywhere, from a seed."""

    def __init__(self, seed):
        self.state = seed

    def below(self, end):
        """A number from 0 to end - 1."""
        self.state = (self.state * 6364136223846793005 + 1442695040888963407) % 2 ** 64
        return (self.state >> 33) * end >> 31

    def one_in(self, count):
        """True once in so many times."""
        return self.below(count) == 0

    def pick(self, choices):
        """One of the choices."""
        return choices[self.below(len(choices))]

    def run(self, size):
        """So many bytes."""
        return bytes(self.below(256) for _ in range(size))


# The bench cases of document 01, and the example of docs/BENCH.md

BENCH_CASES = """\
request 04 00 01 0A 00 00 00 0F
request 04 00 40 06 22 6B C0 A8 0A 0A 63
request 04 00 31 00 FF 01 08 C3
request 04 00 31 00 FF 01 08 CB
mask 01 08
mask 08 01
high_first 01 08
count_types 01 08
lowest_type 01 08
request 04 00 0C 40 00 00 01 49
request 04 00 0C 40 00 00 01 48
request 04 00 A1 FF 00 00 01 5B
reply A0 00 00 A0
reply_data A0 00 00 A0
reply A1 00 02 07 0F AB
reply_data A1 00 02 07 0F AB
reply A1 00 03 46 6F 6F E4
reply_data A1 00 03 46 6F 6F E4
reply A1 00 03 46 6F 6F 8B
reply_data A1 00 03 46 6F 6F 8B
gear FF 03 00 00 00 00 00 00
count_gear 00 00 00 00 00 00 03 FF
lowest_gear 00 00 00 00 00 00 03 FF
scenes 00 04
request 04 00 A9 50 00 00 00 FD
request 04 00 A9 4F 00 00 00 E2
request
reply
reply_data
error_code
event
event_data
write_reply A1 00 / 07 0F / FF FF FF FF FF FF FF
feed_reply A0 00
feed_reply 00 A0 FF
close_reply""".split("\n")

SMALL_PROGRAM_INPUT = bytes([0xA0, 0x00, 0x00, 0xA0, 0xFF, 0xA0, 0x05, 0x00, 0xA4, 0xA0, 0x00])


def bench_cases():
    yield from BENCH_CASES
    yield from fed_and_closed("reply", [SMALL_PROGRAM_INPUT])
    for size in [67, 68, 69]:
        yield call("reply", summed(bytes([0xA1, 0x00, 64]) + pattern(size - 4)))
        yield call("reply", summed(bytes([0xA1, 0x00, 65]) + pattern(size - 4)))
        yield call("reply", bytes([0xA1, 0x00, 65]) + pattern(size - 3))
    for size in [61, 62, 63]:
        for n in [48, 49]:
            yield call("event", summed(b"\x5A\x43" + MAC + bytes([0, 0, 59, 3, n]) + pattern(size - 14)))


# The frames that source 002 prints

def printed_frames():
    """The frames of frames.txt, as printed."""
    with open(FRAMES, encoding="ascii") as file:
        return [bytes(int(word, 16) for word in line.split("\t")[2].split()) for line in file]


def source_frames():
    for printed in printed_frames():
        for frame in [printed, resummed(printed)]:
            for name in ["request", "reply", "reply_data", "error_code", "event", "event_data",
                         "settle_request", "settle_reply"]:
                yield call(name, frame)
    corrected = [resummed(printed) for printed in printed_frames()]
    for frame in corrected:
        yield from source_frame_written(frame)
    for line in ["request", "reply"]:
        yield from fed_and_closed(line, printed_frames())
        yield from fed_and_closed(line, corrected)


def source_frame_written(frame):
    """The writer's call for a frame of the source, an event's target in three bytes, and the reading of its data."""
    if frame[0] == 0x04:
        yield call("write_basic", frame[1:7], pattern(9))
        if frame[2] == 0x40:
            yield call("write_unicast", frame[1:2] + frame[4:10], pattern(12))
    elif frame[0] == 0x5A:
        longer = event(opinion.high_first(frame[8:10]), frame[10], frame[12:-1])
        yield call("event", longer)
        yield call("event_data", longer)
        yield call("write_event", MAC + bytes(2) + frame[8:11], frame[12:-1], pattern(len(longer) + 1))
    else:
        yield call("write_reply", frame[:2], frame[3:-1], pattern(len(frame) + 1))
        for name in ["mask", "scenes", "gear", "types", "filters"]:
            yield call(name, frame[3:-1])


# The ranges of the table

# Both sides of every edge that the table has anywhere, and the bits of C3 and their neighbours.
EDGES = [0, 1, 2, 3, 4, 8, 12, 13, 15, 16, 31, 32, 60, 63, 64, 79, 80, 81, 82, 126, 127, 128, 192, 194, 195, 196, 254,
         255]


def good_arguments(command, choose):
    """The arguments of each case of the command's rule that stand at the end that is chosen, min or max."""
    return [bytes(choose(place) for place in case) for case in opinion.RULES[opinion.BASIC[command]].cases]


def with_each_place(arguments, values):
    """The arguments with each place in turn at each of the values."""
    return [replaced(arguments, place, value) for place in range(4) for value in values]


def edge_arguments(command):
    """The arguments to try with the command: each place at each edge, the other places at a good value. Of unknown commands, and of 0E, which
    W-202 has made a known one without arguments like these: each place at 0 and 255."""
    if command in opinion.BASIC:
        good = good_arguments(command, min) + good_arguments(command, max)
        return [arguments for start in good for arguments in with_each_place(start, EDGES)]
    if command == 0x40:
        return with_each_place(bytes([0x06, 0, 0, 0]), EDGES)
    return with_each_place(bytes(4), [0, 255])


def ranges():
    for command in range(256):
        for arguments in sorted(set(edge_arguments(command))):
            yield call("request", basic(0, command, arguments))
            yield call("write_basic", bytes([0, command]) + arguments, pattern(9))
            yield call("fits", bytes([command]) + arguments)
    for sequence in range(256):
        yield call("request", basic(sequence, 0x01, [0, 0, 0, 0]))
    for command in sorted(opinion.BASIC):
        for arguments in good_arguments(command, min):
            for value in range(256):
                yield call("fits", bytes([command]) + replaced(arguments, 0, value))


# Damaged datagrams

SHORT_FRAMES = [
    ("request", basic(0x00, 0x01, [10, 0, 0, 0])),
    ("request", basic(0x7F, 0x1D, [0, 0, 0, 0])),
    ("request", basic(0x80, 0x31, [0x40, 0x1F, 0x01, 0x08])),
    ("request", basic(0xFF, 0xA1, [255, 0, 0, 15])),
    ("request", unicast(0x05, bytes([0x22, 0x6B, 0xC0, 0xA8, 0x0A, 0x0A]))),
    ("reply", reply(0xA0, 0x00, b"")),
    ("reply", reply(0xA3, 0x11, bytes([0xB1]))),
    ("reply", reply(0xA1, 0xFE, bytes([0x07, 0x0F, 0x00]))),
    ("event", event(0, 3, b"")),
    ("event", event(59, 0, bytes([0x05]))),
    ("event", event(2 ** 24 - 1, 9, bytes([0x00, 0x0F]))),
]

LONG_FRAMES = [
    ("reply", reply(0xA1, 0x22, pattern(64))),
    ("event", event(256, 8, pattern(48))),
]

DATA_CALLS = {"request": [], "reply": ["reply_data", "error_code"], "event": ["event_data"]}


def read_calls(family, datagram):
    """The calls that read a datagram of the family."""
    for name in [family] + DATA_CALLS[family]:
        yield call(name, datagram)


def byte_changes(frame, places):
    """The frame with each of the places changed, with its sum as it was and put right."""
    for place in places:
        for value in [frame[place] ^ 0x01, frame[place] ^ 0x80, frame[place] ^ 0xFF]:
            changed = replaced(frame, place, value)
            yield changed
            if place < len(frame) - 1:
                yield resummed(changed)


def size_changes(frame):
    """The frame cut at every length and longer by 1 and 2, as it comes and with its last byte put right."""
    for size in range(len(frame)):
        yield frame[:size]
        if size > 0:
            yield resummed(frame[:size])
    for more in [b"\x00", b"\x01", b"\x00\x00", b"\x01\x02"]:
        yield frame + more
        yield resummed(frame + more)


def subsets(things):
    """Every choice among the things, in their order."""
    for choice in range(2 ** len(things)):
        yield [thing for place, thing in enumerate(things) if choice >> place & 1]


def faulty(frame, wrong_bytes):
    """The frame with every choice among the wrong bytes, each at its place, and its sum put right."""
    for wrong in subsets(wrong_bytes):
        datagram = frame
        for place, value in wrong:
            datagram = replaced(datagram, place, value)
        yield resummed(datagram)


# For each frame: its family, wrong bytes and their places, and sizes too short for the family or the frame.
FAULTS = [
    ("request", basic(0, 0xA9, [1, 0, 0, 0]), [(0, 0xA0), (2, 0x02), (3, 80)], [0, 7]),
    ("request", basic(0, 0x1B, [15, 12, 0, 0]), [(0, 0x05), (2, 0xFF), (6, 1)], [3, 7]),
    ("request", unicast(0, bytes([1, 2, 3, 4, 5, 6])), [(0, 0x03), (2, 0x3F), (3, 7)], [7, 8, 9, 10]),
    ("reply", reply(0xA1, 0, bytes([1, 2])), [(0, 0x9F), (2, 65)], [0, 3, 4, 5]),
    ("reply", reply(0xA3, 0, bytes([0xB0])), [(0, 0xA4), (2, 255)], [1, 3, 4]),
    ("event", event(59, 0, b""), [(0, 0x5B), (12, 49)], [0, 13]),
    ("event", event(59, 7, b""), [(1, 0x42), (12, 1)], [2, 13]),
    ("event", event(59, 2, bytes([1])), [(1, 0x44), (12, 0)], [13, 14]),
]


def fault_calls():
    """Each frame of FAULTS with every choice of its faults at once, its sum right or not, and of every size."""
    for family, frame, wrong_bytes, sizes in FAULTS:
        for datagram in faulty(frame, wrong_bytes):
            spoilt = replaced(datagram, len(frame) - 1, datagram[-1] ^ 0x55)
            for size in sizes + [len(frame), len(frame) + 1]:
                yield from read_calls(family, (datagram + b"\x00")[:size])
                yield from read_calls(family, (spoilt + b"\x00")[:size])


def damaged():
    for family, frame in SHORT_FRAMES:
        for datagram in list(byte_changes(frame, range(len(frame)))) + list(size_changes(frame)):
            yield from read_calls(family, datagram)
    for family, frame in LONG_FRAMES:
        places = [0, 1, 2, 3, 11, 12, 13, len(frame) - 1]
        for datagram in list(byte_changes(frame, places)) + list(size_changes(frame)):
            yield call(family, datagram)
    yield from fault_calls()
    for lead in range(256):
        yield call("request", resummed(replaced(basic(0, 0x01, [0, 0, 0, 0]), 0, lead)))
        yield call("reply", resummed(replaced(reply(0xA0, 0, b""), 0, lead)))
        yield call("event", resummed(replaced(event(0, 3, b""), lead % 2, lead)))
    for n in list(range(67)) + [127, 128, 129, 192, 254, 255]:
        for size in [4, 3 + n, 4 + n, 5 + n]:
            datagram = summed(bytes([0xA1, 0, n]) + pattern(max(size - 4, 0)))
            yield call("reply", datagram)
            yield call("reply", replaced(datagram, len(datagram) - 1, datagram[-1] ^ 0x10))
    for n in list(range(51)) + [64, 128, 255]:
        for size in [14, 13 + n, 14 + n, 15 + n]:
            for type_ in [3, 6]:
                head = b"\x5A\x43" + MAC + bytes([0, 0, 1, type_, n])
                yield call("event", summed(head + pattern(max(size - 14, 0))))


# Writers

TARGETS = [0, 1, 255, 256, 65535, 65536, 2 ** 24 - 1, 2 ** 24, 2 ** 24 + 1, 2 ** 31, 2 ** 32 - 1]


def write_event_call(target, type_, data, buffer, name="write_event"):
    return call(name, MAC + wide(target, 4) + bytes([type_]), data, buffer)


def writers():
    for head in [[0, 0x01, 10, 0, 0, 0], [255, 0xA2, 127, 0, 0, 254], [1, 0x20, 0, 1, 2, 7],
                 [0, 0xA9, 80, 0, 0, 0], [0, 0x40, 6, 0, 0, 0], [0, 0x02, 0, 0, 0, 0], [0, 0x00, 1, 1, 1, 1]]:
        for size in range(11):
            yield call("write_basic", head, pattern(size))
    for port, address in [(8811, [192, 168, 10, 10]), (0, [0, 0, 0, 0]), (65535, [255, 255, 255, 255])]:
        for size in range(14):
            yield call("write_unicast", b"\x09" + wide(port, 2) + bytes(address), pattern(size))
    for type_ in [0xA1, 0xA3, 0x9F, 0xA4]:
        for n in [0, 1, 2, 8]:
            for size in range(n + 7):
                yield call("write_reply", [type_, 0x33], pattern(n), pattern(size))
        for n in [63, 64, 65, 256]:
            for size in [0, 66, 67, 68, 69, 70, n + 4]:
                yield call("write_reply", [type_, 0], pattern(n), pattern(size))
    for type_ in [0, 3, 7, 255]:
        for n in [0, 1, 2]:
            for size in range(n + 17):
                yield write_event_call(59, type_, pattern(n), pattern(size))
        for n in [47, 48, 49, 256]:
            for size in [0, 60, 61, 62, 63, 64, n + 14]:
                yield write_event_call(2 ** 24 - 1, type_, pattern(n), pattern(size))
    for target in TARGETS:
        for type_, n in [(0, 0), (0, 1), (9, 0), (9, 2), (0, 49), (9, 49)]:
            for size in [0, 13 + n, 14 + n, 16 + n]:
                yield write_event_call(target, type_, pattern(n), pattern(size))
    for value in range(256):
        yield call("write_reply", [value, value], b"", pattern(5))
        yield write_event_call(value, value, b"", pattern(14))
        yield write_event_call(value, value, bytes([value]), pattern(15))
        yield call("write_unicast", bytes([value] * 7), pattern(11))
    for head in range(4):
        for data in range(4):
            for size in range(head + data + 4):
                yield call("frame", pattern(head), pattern(data)[::-1], pattern(size))


# All values of a byte, and the sum

def all_values():
    for name in ["known", "shape", "error_name", "event_type", "group_target", "lights", "status", "device",
                 "device_number"]:
        for value in range(256):
            yield call(name, [value])
    for value in range(256):
        for type_ in [0xA3, 0xA0 + value % 3]:
            yield call("error_code", reply(type_, 0, bytes([value])))
        yield call("error_code", reply(0xA3, 0, bytes([value, 0x01])))
        yield call("event", event(value, value, b""))
        yield call("event", event(value << 16, value, bytes([value])))
        yield call("error_code", reply(0xA0 + value % 4, value, b""))
        yield call("sum", [value])
    chance = Chance(1)
    for size in range(80):
        yield call("sum", chance.run(size))


# Masks, maps and filters

# About the last entry there can be, and far beyond: the place of some, four times the number, passes 64 bits.
ENTRY_NUMBERS = [14, 15, 16, 17, 256, 2 ** 32, 2 ** 62, 2 ** 62 + 1, 2 ** 63, 2 ** 64 - 1]


def reply_data():
    chance = Chance(2)
    for size in range(10):
        for data in [bytes(size), b"\xFF" * size, pattern(size), chance.run(size), chance.run(size)]:
            for name in ["mask", "scenes", "gear", "types", "filters"]:
                yield call(name, data)
    for bits in [0, 2 ** 16 - 1] + [1 << k for k in range(16)] + [chance.below(2 ** 16) for _ in range(100)]:
        for name in ["high_first", "mask", "count_types", "lowest_type", "scenes"]:
            yield call(name, wide(bits, 2))
    maps = [bytes(8), b"\xFF" * 8] + [wide(1 << k, 8) for k in range(64)]
    thinned = [bytes(byte & chance.below(256) & chance.below(256) for byte in chance.run(8)) for _ in range(50)]
    for map_ in maps + [chance.run(8) for _ in range(50)] + thinned:
        for name in ["gear", "count_gear", "lowest_gear"]:
            yield call(name, map_)
    for bits in [0, 2 ** 32 - 1] + [1 << k for k in range(32)]:
        yield call("types", wide(bits, 4))
    for _ in range(50):
        yield call("types", chance.run(4))
    for size in range(71):
        data = chance.run(size)
        yield call("filters", data)
        k = max(size - 1, 0) // 4
        numbers = range(k + 1) if size % 4 == 1 else [0, k]
        for number in sorted(set(numbers).union(ENTRY_NUMBERS)):
            yield call("filter", wide(number, 8), data)


# The book

# The 32 commands of document 01. The one of W-202, 0E, has cases of its own, so that what is picked by chance among these stays.
KNOWN = sorted(list(opinion.BASIC) + [opinion.UNICAST])


# The ticks of W-205: all of 32 bits.
ROUND = 2 ** 32


class Ticks:
    """The ticks of the cases that are older than W-205, by a rule of their own, so that what these pick by chance stays: with the ticks taken away
    they are the lines that they were. A kind begins the count anew, so that it has the same lines wherever it is made."""

    ENDS = [0, 1, 2 ** 31 - 1, 2 ** 31, ROUND - 2, ROUND - 1]

    # How many bytes of ticks a book handed in has, in turn: none, some, some and a part of one, and (None) those of all its entries.
    SIZES = [None, 0, 4, 7, 1, 12, 2, 30]

    def __init__(self):
        self.begin()

    def begin(self):
        self.asked = self.books = 0

    def next(self, command):
        """The tick of the next request: some that look random, and now and then one of the ends."""
        self.asked += 1
        if self.asked % 8 == 0:
            return self.ENDS[self.asked // 8 % len(self.ENDS)]
        return (0x9E3779B1 * self.asked + 0x01000193 * command) % ROUND

    def group(self, held):
        """The ticks of the next book that is handed in."""
        size = self.SIZES[self.books % len(self.SIZES)]
        self.books += 1
        size = 4 * len(held) if size is None else size
        commands = (bytes(held) + bytes(8))[:(size + 3) // 4]
        return b"".join(wide(self.next(command), 4) for command in commands)[:size]


TICKS = Ticks()


def ask(command, tick=None):
    return call("ask", bytes([command]) + wide(TICKS.next(command) if tick is None else tick % ROUND, 4))


def answered(number):
    return call("answer", [number])


def book_set(last, held, ticks=None):
    return call("book_set", [last], held, TICKS.group(held) if ticks is None else ticks)


def full_book():
    """A full book, its refusals, and numbers used again in their turn. Since W-210 the asks of 0A are refused, and as many numbers stay free:
    filled_by_asking has a full one."""
    yield "book_fresh"
    yield "book_show"
    for number in range(256):
        yield ask(KNOWN[number % len(KNOWN)])
    yield from ["book_show", ask(0x01), ask(0x40), ask(0x00), ask(0x02), ask(0xFF), "book_show"]
    for number in [7, 255, 0, 7, 128, 6, 127]:
        yield answered(number)
    for _ in range(8):
        yield ask(0xA9)
    yield "book_show"
    for number in list(range(255, -1, -2)) + list(range(0, 256, 2)) + [0, 255]:
        yield answered(number)
    yield "book_show"


def books_handed_in():
    """Books with each value as an entry, with entries that are no known command, and each place for the last number."""
    every = bytes(range(256))
    for last in [0, 127, 255]:
        yield book_set(last, every)
        yield "book_show"
        for number in range(256):
            yield answered(number)
        yield "book_show"
        yield book_set(last, every)
        for _ in range(6):
            yield ask(0x09)
        yield "book_show"
    for last in [0, 1, 127, 128, 254, 255]:
        full = bytes([0xA1] * 256)
        for free in [last, (last + 1) % 256, (last + 255) % 256]:
            for nothing in [0x00, 0x02, 0xFF]:
                yield book_set(last, replaced(full, free, nothing))
                yield from [answered(free), ask(0x02), ask(0x40), ask(0x40), answered(free), answered(free), ask(0x01)]
        yield book_set(last, full)
        yield from [ask(0x03), ask(0x41), answered(last), ask(0x41), "book_show"]
        yield book_set(last, b"")
        yield from [answered(0), ask(0x0C), ask(0x0D), ask(0x0C), answered(last), "book_show"]
    for command in range(256):
        yield from ["book_fresh", ask(command), answered(0), answered(0), ask(0x01)]


def book_runs():
    """Asks and replies as they come, on fresh books and on books handed in."""
    chance = Chance(3)
    for _ in range(40):
        last = chance.pick([0, 127, 255, chance.below(256)])
        crowded = chance.one_in(2)
        held = bytes(chance.pick(KNOWN) if crowded and not chance.one_in(40) else chance.below(256)
                     for _ in range(chance.pick([0, 5, 254, 255, 256])))
        yield book_set(last, held)
        for _ in range(60):
            if chance.one_in(3):
                yield answered(chance.pick([last, last - 1 & 255, last + 1 & 255, chance.below(256)]))
            else:
                yield ask(chance.pick(KNOWN) if not chance.one_in(8) else chance.below(256))
        yield "book_show"


def book():
    TICKS.begin()
    for part in [full_book(), books_handed_in(), book_runs()]:
        yield from part


# Streams

def some_request(chance):
    """A good request frame."""
    command = chance.pick(KNOWN)
    sequence = chance.below(256)
    if command == opinion.UNICAST:
        return unicast(sequence, chance.run(6))
    case = chance.pick(opinion.RULES[opinion.BASIC[command]].cases)
    return basic(sequence, command, [chance.pick(sorted(place)) for place in case])


def some_reply(chance):
    """A good reply frame, seldom a long one."""
    size = chance.pick([62, 63, 64]) if chance.one_in(40) else chance.below(7)
    return reply(0xA0 + chance.below(4), chance.below(256), chance.run(size))


def damaged_frame(chance, frame):
    """The frame with another byte somewhere."""
    return replaced(frame, chance.below(len(frame)), chance.below(256))


def request_piece(chance):
    """A piece of a request line."""
    frame = some_request(chance)
    return chance.pick([
        frame,
        frame,
        resummed(damaged_frame(chance, frame)),
        damaged_frame(chance, frame),
        some_request(chance)[:3 + chance.below(5)] + frame,
        bytes([0x04, chance.below(256), chance.below(256)]) + chance.run(chance.below(6)),
        bytes([0x04, chance.below(256), 0x40, chance.pick([0, 5, 6, 7, 255])]) + chance.run(chance.below(8)),
        bytes(chance.pick([0x04, 0x00, 0x40, 0x06, chance.below(256)]) for _ in range(1 + chance.below(4))),
        frame[:chance.below(len(frame))],
    ])


def reply_piece(chance):
    """A piece of a reply line."""
    frame = some_reply(chance)
    inner = some_reply(chance)[:24]
    return chance.pick([
        frame,
        frame,
        damaged_frame(chance, frame),
        replaced(reply(0xA1, chance.below(256), inner), len(inner) + 3, chance.below(256)),
        bytes([0xA0 + chance.below(4), chance.below(256), len(inner) + chance.below(4)]) + inner,
        bytes([0xA0 + chance.below(4), chance.below(256), chance.pick([63, 64, 65, 66, 127, 128, 255])]),
        bytes(chance.pick([0xA0, 0xA3, 0x00, 0x9F, 0xA4, chance.below(256)]) for _ in range(1 + chance.below(4))),
        frame[:chance.below(len(frame))],
    ])


PIECES = {"request": request_piece, "reply": reply_piece}


def stream_of(piece, chance):
    """A short stream of such pieces."""
    return b"".join(piece(chance) for _ in range(1 + chance.below(4)))


def some_stream(line, chance):
    """A short stream of the line."""
    return stream_of(PIECES[line], chance)


def cut(stream, chance):
    """The stream in parts, cut by chance; parts may be empty."""
    places = sorted(chance.below(len(stream) + 1) for _ in range(chance.below(5)))
    return [stream[first:last] for first, last in zip([0] + places, places + [len(stream)])]


class EarlierReader:
    """A reader of a line by document 01 alone: 0E is an unknown command, and at most 10 bytes of a request line are held.

    What is fed next is what was left before, and these kinds keep their lines from before W-202, so that answers can be compared line by line. Where
    0E stands on a request line, the reader of today takes other bytes than this one: there it is handed some bytes twice and others never,
    and what it holds at the end stays for the next line. The kinds of W-202 ask that reader itself."""

    MOST = {"request": 10, "reply": 67}

    def __init__(self, line, claim=0, store=b""):
        self.line = line
        self.held = (store + bytes(67 - len(store)))[:claim] if claim <= self.MOST[line] else b""

    def settle(self, run):
        """The item at the front of the run and its byte count; None where a rule needs more bytes."""
        if self.line == "request" and run[:1] == b"\x04" and run[2:3] == b"\x0E":
            return 3, 1
        return opinion.settle(self.line, run)

    def feed(self, part):
        """One feeding call: how many bytes of the part it takes, and the item, or None for "nothing yet"."""
        for taken in range(len(part) + 1):
            run = self.held + part[:taken]
            item = self.settle(run)
            if item:
                self.held = run[item[1]:]
                return taken, item
        self.held += part
        return len(part), None

    def close(self):
        """One closing call: the item, or None for "empty"."""
        item = self.settle(self.held) or ((1, 1) if self.held else None)
        self.held = self.held[item[1]:] if item else b""
        return item


def fed(reader, part):
    """Feeds the part until "nothing", each further call with the rest of it."""
    item = True
    while item:
        yield call("feed_" + reader.line, part)
        taken, item = reader.feed(part)
        part = part[taken:]


def closed(reader):
    """Closes the reader until "empty"."""
    item = True
    while item:
        yield call("close_" + reader.line)
        item = reader.close()


def fed_and_closed(line, parts, reader_of=EarlierReader):
    """A fresh reader, fed part by part and then closed."""
    reader = reader_of(line)
    yield call("fresh_" + line)
    for part in parts:
        yield from fed(reader, part)
    yield from closed(reader)


def stream_calls(line, chance, piece, reader_of=EarlierReader):
    """The calls of one stream of such pieces: fed in parts, looked at here and there, closed, at times fed again in between."""
    reader = reader_of(line)
    if chance.one_in(8):
        yield "fresh_" + line
    for part in cut(stream_of(piece, chance), chance):
        yield from fed(reader, part)
        if chance.one_in(8):
            yield "show_" + line
    item = True
    while item:
        yield "close_" + line
        item = reader.close()
        if item and chance.one_in(6):
            yield from fed(reader, chance.pick([b"", piece(chance)]))
    if chance.one_in(8):
        yield "show_" + line


def streams():
    chance = Chance(4)
    for _ in range(1500):
        waiting = [list(stream_calls(line, chance, PIECES[line])) for line in ["request", "reply"]]
        while waiting[0] or waiting[1]:
            calls = chance.pick([calls for calls in waiting if calls])
            yield calls.pop(0)


# Readers handed in, and what the rule says of bytes

CLAIMS = [0, 1, 3, 4, 7, 8, 9, 10, 11, 12, 66, 67, 68, 2 ** 64 - 1]
GREAT_CLAIMS = [69, 255, 256, 2 ** 32, 2 ** 63]

NOISE = bytes([0xFF, 0x00, 0x9F, 0xA4, 0x03, 0x05]) * 11

# What a reader handed in may hold: whole frames, one with an argument outside the table, a bad sum around a good frame,
# an unknown command, bad lengths, a frame begun, noise, and nothing but zeros.
STORES = {
    "request": [
        basic(2, 0x09, [0, 0, 0, 0]) + bytes([0x04, 0x07]),
        basic(3, 0xA9, [80, 0, 0, 0]) + bytes([0x04, 0x07]),
        bytes([0x04, 0x00, 0x01]) + basic(2, 0x09, [0, 0, 0, 0]),
        bytes([0x04, 0x00, 0x02, 0x04, 0x00, 0x40, 0x07, 0x04, 0x00, 0x40]),
        bytes([0x04, 0x01, 0x40, 0x06]) + pattern(6),
        NOISE,
        b"",
    ],
    "reply": [
        reply(0xA0, 2, b"") * 3 + reply(0xA3, 3, bytes([0xB8])) * 11,
        bytes([0xA1, 0x00, 9]) + reply(0xA1, 0, pattern(7)),
        bytes([0xA0, 0x00, 65, 0xA3, 0xFF, 0xFF, 0xA2, 0xA2, 0xA2]),
        bytes([0xA1, 0x01, 64]) + pattern(64),
        NOISE,
        b"",
    ],
}


def held_calls(line, claim, store, parts, reader_of=EarlierReader):
    """A reader handed in: looked at, fed, looked at again and closed."""
    reader = reader_of(line, claim, store)
    yield call("hold_" + line, wide(claim, 8), store)
    yield "show_" + line
    for part in parts:
        yield from fed(reader, part)
        yield "show_" + line
    yield from closed(reader)
    yield "show_" + line


def handed_in():
    chance = Chance(5)
    for line in ["request", "reply"]:
        for claim in CLAIMS:
            for store in STORES[line]:
                yield from held_calls(line, claim, store, [])
                yield from held_calls(line, claim, store, [b"", PIECES[line](chance)])
        for claim in GREAT_CLAIMS:
            yield from held_calls(line, claim, STORES[line][0], [PIECES[line](chance)])
        for _ in range(100):
            store = (some_stream(line, chance) + some_stream(line, chance))[:chance.below(68)]
            claim = chance.below(EarlierReader.MOST[line] + 2)
            yield from held_calls(line, claim, store, cut(some_stream(line, chance), chance)[:2])


def settling():
    chance = Chance(6)
    for line in ["request", "reply"]:
        for lead in range(256):
            yield call("settle_" + line, [lead])
            yield call("settle_" + line, [0x04, 0xA0, lead])
            yield call("settle_" + line, [0xA0, 0x04, lead])
            yield call("settle_" + line, [0x04, 0x00, 0x40, lead])
        for _ in range(60):
            stream = some_stream(line, chance)[:16]
            for size in range(len(stream) + 1):
                yield call("settle_" + line, stream[:size])
        for _ in range(300):
            yield call("settle_" + line, some_stream(line, chance))


def items_at():
    """What stands at a position, where more may come and where nothing does. A flag of 00 is no, every other byte is yes."""
    chance = Chance(7)
    for line in ["request", "reply"]:
        for flag in [0, 1, 0x80, 0xFF]:
            yield call("item_" + line, [flag], b"")
        for flag in [0, 1]:
            for lead in range(256):
                yield call("item_" + line, [flag], [lead])
                yield call("item_" + line, [flag], [0x04, 0xA0, lead])
                yield call("item_" + line, [flag], [0x04, 0x00, 0x40, lead])
            for _ in range(60):
                stream = some_stream(line, chance)[:16]
                for size in range(len(stream) + 1):
                    yield call("item_" + line, [flag], stream[:size])


def relays():
    """Datagrams read and written again: good, damaged and cut, into buffers of every size about theirs."""
    for family, frame in SHORT_FRAMES + LONG_FRAMES:
        for size in [0, 1, len(frame) - 1, len(frame), len(frame) + 1, len(frame) + 5]:
            yield call("relay_" + family, frame, pattern(size))
        for datagram in list(byte_changes(frame, [0, 1, 2, 3, len(frame) - 1])) + list(size_changes(frame))[-12:]:
            yield call("relay_" + family, datagram, pattern(len(frame) + 1))
            yield call("relay_" + family, datagram, pattern(3))
    for printed in printed_frames():
        for frame in [printed, resummed(printed)]:
            for family in ["request", "reply", "event"]:
                yield call("relay_" + family, frame, pattern(len(frame)))
    for family, frame, wrong_bytes, _ in FAULTS:
        for datagram in faulty(frame, wrong_bytes):
            yield call("relay_" + family, datagram, pattern(len(frame) - 1))
            yield call("relay_" + family, datagram, pattern(len(frame) + 2))


def names():
    """Every number of every kind, with room; and the names of some into buffers of every size about theirs."""
    for kind in range(6):
        for number in range(256):
            yield call("name", [kind, number], pattern(35))
    for kind, number in [(0, 0), (0, 8), (1, 0x1D), (2, 0xA3), (3, 0xB1), (4, 6), (5, 0), (255, 255)]:
        for size in range(36):
            yield call("name", [kind, number], pattern(size))
    yield "help"


# W-201: the scenes of A1 and those of 1B

def scene_call(target, scene):
    return [0xA1, target, 0, 0, scene]


def scene_label(group, scene):
    return [0x1B, group, scene, 0, 0]


def scene_frames():
    """Command and arguments of requests: scenes about both ends, targets and groups in and outside their ranges."""
    for scene in range(11, 18):
        for target in [0, 63, 64, 79, 80, 81, 126, 127, 128, 254, 255]:
            yield scene_call(target, scene)
        for group in [0, 15, 16, 64]:
            yield scene_label(group, scene)


def scenes():
    """Every scene by its range; about the ends as datagrams, in writing, relayed and on the line, in any two parts."""
    for scene in range(256):
        for target in [0, 79, 127]:
            yield call("fits", scene_call(target, scene))
        yield call("fits", scene_label(15, scene))
    for words in scene_frames():
        frame = basic(0, words[0], words[1:])
        spoilt = replaced(frame, 7, frame[7] ^ 0x0F)
        for datagram in [frame, spoilt, frame[:7], frame + b"\x00"]:
            yield call("request", datagram)
            yield call("settle_request", datagram)
            yield call("item_request", [1], datagram)
        for size in [7, 8, 9]:
            yield call("write_basic", [0] + words, pattern(size))
            yield call("relay_request", frame, pattern(size))
    for made, first in [(scene_call, 255), (scene_label, 15)]:
        requests = [made(first, scene) for scene in range(12, 17)]
        stream = b"".join(basic(sequence, words[0], words[1:]) for sequence, words in enumerate(requests))
        for place in range(len(stream) + 1):
            yield from fed_and_closed("request", [stream[:place], stream[place:]])
    for words in [scene_call(79, 15), scene_call(79, 16), scene_label(15, 12), scene_label(15, 13)]:
        yield from held_calls("request", 10, basic(7, words[0], words[1:]) + bytes([0x04, 0x00]), [b""])


# W-206: events whose target has two bytes

LAYOUTS = [("event", 3), ("event_two", 2)]


def event_calls(datagram):
    """The calls that read a datagram, in both layouts."""
    for name, _ in LAYOUTS:
        yield call(name, datagram)
        yield call(name + "_data", datagram)


def printed_events():
    """The events that source 002 prints, all with two target bytes: in both layouts, as printed and with their sums put right."""
    for printed in printed_frames():
        if printed[0] != 0x5A:
            continue
        frame = resummed(printed)
        target, type_, data = opinion.high_first(frame[8:10]), frame[10], frame[12:-1]
        for datagram in [printed, frame]:
            yield from event_calls(datagram)
            for name, _ in LAYOUTS:
                yield call("relay_" + name, datagram, pattern(len(frame) + 1))
        for size in range(len(frame) + 3):
            for name, _ in LAYOUTS:
                yield write_event_call(target, type_, data, pattern(size), "write_" + name)
        yield from byte_by_byte(frame)


def byte_by_byte(frame):
    """A frame with each byte changed, as it comes and with its sum put right, and cut and longer: in both layouts."""
    for datagram in list(byte_changes(frame, range(len(frame)))) + list(size_changes(frame)):
        yield from event_calls(datagram)


# Frames of both layouts, which say two things: type k with k - 1 data bytes behind three target bytes is k data bytes behind two.
BOTH = [event(0x010203, 7, bytes([6, 1, 2, 3, 4, 5])), event(0x3B0002, 9, bytes([8, 0, 0, 0, 0, 0, 0, 0]))]
LONG_BOTH = [event(0x000A0C, 48, pattern(47)), event(0xFFFF09, 48, pattern(47))]


def two_byte_targets():
    """Both layouts side by side: the printed events, sizes, lengths, targets, types, every fault alone and with others, and relays."""
    yield from printed_events()
    short = [event(0, 3, b"", 2), event(59, 0, bytes([0x05]), 2), event(2 ** 16 - 1, 9, bytes([0x00, 0x0F]), 2)] + BOTH
    for frame in short:
        yield from byte_by_byte(frame)
    for frame in short + LONG_BOTH:
        yield from event_calls(frame)
        for size in [0, 1, len(frame) - 1, len(frame), len(frame) + 1]:
            for name, _ in LAYOUTS:
                yield call("relay_" + name, frame, pattern(size))
    # sizes 11 to 16 with the length byte of either layout from 0 to 3, types with and without an instance
    for size in range(11, 17):
        for n in range(4):
            for type_ in [0, 3]:
                for name, width in LAYOUTS:
                    head = b"\x5A\x43" + MAC + wide(0x0102, width) + bytes([type_, n])
                    datagram = summed((head + pattern(size))[:size - 1])
                    yield from event_calls(datagram)
                    yield from event_calls(replaced(datagram, size - 1, datagram[-1] ^ 0x20))
    # lengths about 48 and everywhere, with their data, one byte less and one more
    for n in list(range(51)) + [64, 127, 128, 255]:
        for size in [13, 12 + n, 13 + n, 14 + n]:
            for type_ in [3, 6]:
                head = b"\x5A\x43" + MAC + bytes([0, 1, type_, n])
                datagram = summed(head + pattern(max(size - 13, 0)))
                yield call("event_two", datagram)
                yield call("event_two", replaced(datagram, len(datagram) - 1, datagram[-1] ^ 0x10))
    for size in [60, 61, 62, 63]:
        for n in [47, 48, 49]:
            yield from event_calls(summed(b"\x5A\x43" + MAC + bytes([0, 59, 3, n]) + pattern(size - 13)))
    # each byte of the target and the type by itself, read and written
    for value in range(256):
        for target in [value, value << 8]:
            yield call("event_two", event(target, value, b"", 2))
            yield call("event_two", event(target, value, bytes([value]), 2))
            yield call("relay_event_two", event(target, value, bytes([value]), 2), pattern(14))
            yield write_event_call(target, value, b"", pattern(13), "write_event_two")
            yield write_event_call(target, value, bytes([value]), pattern(14), "write_event_two")
    for target in TARGETS + [65534, 65537, 2 ** 17, 2 ** 24 + 59]:
        for type_, n in [(0, 0), (0, 1), (9, 0), (9, 2), (0, 49), (9, 49)]:
            for size in [0, 12 + n, 13 + n, 15 + n]:
                yield write_event_call(target, type_, pattern(n), pattern(size), "write_event_two")
    for type_ in [0, 3, 7, 255]:
        for n in [0, 1, 2]:
            for size in range(n + 16):
                yield write_event_call(59, type_, pattern(n), pattern(size), "write_event_two")
        for n in [47, 48, 49, 256]:
            for size in [0, 59, 60, 61, 62, 63, n + 13]:
                yield write_event_call(2 ** 16 - 1, type_, pattern(n), pattern(size), "write_event_two")
    # several faults at once, and each lead
    for type_, data in [(0, b""), (7, b""), (2, bytes([1])), (3, bytes([1]))]:
        frame = event(59, type_, data, 2)
        for datagram in faulty(frame, [(0, 0x5B), (1, 0x42), (11, 49), (11, 1 - len(data))]):
            for size in [0, 2, 12, 13, 14, 15]:
                for given in [datagram, replaced(datagram, len(frame) - 1, datagram[-1] ^ 0x55)]:
                    yield call("event_two", (given + b"\x00\x00")[:size])
                    yield call("relay_event_two", (given + b"\x00\x00")[:size], pattern(size))
    for lead in range(256):
        yield call("event_two", resummed(replaced(event(0, 3, b"", 2), lead % 2, lead)))


# W-207: the year's capture, and both ways of appending to it

COUNT_MOST = 2 ** 32 - 1
USE_MOST = 2 ** 64 - 1

VERSIONS = [(1, 3), (2, 2)]  # with the bytes of a target
UNKNOWN_VERSIONS = [0, 3, 255]


def record(seconds, datagram):
    """A record with its right length; whether the datagram is good is not asked."""
    content = wide(seconds, 4) + datagram
    return wide(len(content), 2) + content


def spare(run, size):
    """A buffer: the run, and so many bytes behind it."""
    return run + pattern(size)


def flagged(seconds, flag=1):
    """A flag and a time; for None a flag of 00, and bytes behind it that count for nothing."""
    return bytes([0, 0xDE, 0xAD, 0xBE, 0xEF]) if seconds is None else bytes([flag]) + wide(seconds, 4)


def capture_set(used, buffer):
    return call("capture_set", wide(used, 8), buffer)


def summary_set(records, first, last, counts):
    return call("summary_set", wide(records, 4) + flagged(first) + flagged(last) + b"".join(wide(count, 4) for count in counts))


def mark_set(used, last):
    return call("mark_set", wide(used, 8) + flagged(last))


def capture_empty(version):
    return call("capture_empty", [version])


def append(seconds, datagram):
    return call("capture_append", wide(seconds, 4), datagram)


def append_at(seconds, datagram):
    return call("capture_append_at", wide(seconds, 4), datagram)


def record_from(place):
    return call("capture_record", wide(place, 8))


APPENDS = [append, append_at]

# A summary that belongs to no capture here.
SOME_COUNTS = [11, 22, 33, 44, 55, 66, 77, 88, 99, 110, 121]
SOME_SUMMARY = summary_set(726, 5, 6, SOME_COUNTS)

TIMES = [0x01020304, 0x01020304, 0x01020405]  # two of them equal


def small_events(width):
    """Three good datagrams: without data, with an instance and with more."""
    return [event(59, 3, b"", width), event(0x0102, 6, bytes([5]), width), event(2 ** 16 - 1, 12, bytes([1, 2]), width)]


def small_records(width):
    """Three good records."""
    return [record(seconds, datagram) for seconds, datagram in zip(TIMES, small_events(width))]


def small_capture(version, width, count=3):
    """A good capture of the first of these records."""
    return bytes([version]) + b"".join(small_records(width)[:count])


def starts(records):
    """Where each of a capture's records begins, and where the last ends."""
    places = [1]
    for run in records:
        places.append(places[-1] + len(run))
    return places


# Faults of captures

def refused_datagrams(width):
    """A datagram for each of 1, 2, 4, 5, 6 and 7."""
    good = event(59, 3, b"", width)
    n = 9 + width
    return [good[:-1], resummed(replaced(good, 1, 0x42)), resummed(replaced(good, n, 49)), resummed(replaced(good, n, 1)),
            replaced(good, len(good) - 1, good[-1] ^ 0x55), event(59, 0, b"", width)]


def other_layout(width):
    """A datagram that is good in the other layout alone."""
    return event(0x0102, 4, bytes([7, 7]), 5 - width)


def bad_records(width, seconds, before):
    """Bytes that are no good record: one left over, each length under 4, no datagram, lengths too great, refused datagrams, the other
    layout's; and as the last of them, seconds below the one before."""
    datagram = event(59, 3, b"", width)
    good = record(seconds, datagram)
    yield good[:1]
    for length in range(4):
        yield wide(length, 2) + wide(seconds, 4)[:length]
    yield record(seconds, b"")
    yield replaced(good, 1, good[1] + 1)
    yield b"\xFF\xFF" + good[2:]
    for refused in refused_datagrams(width) + [other_layout(width)]:
        yield record(seconds, refused)
    yield record(before - 1, datagram)


def judged(used, buffer, width, places):
    """A capture handed in, and the calls that judge it; then on from its good prefix."""
    yield capture_set(used, buffer)
    yield from ["capture_open", "capture_count", append(COUNT_MOST, event(1, 9, b"", width)), "capture_show"]
    yield from [record_from(place) for place in places]
    yield from ["capture_prefix", append_at(COUNT_MOST, event(1, 8, b"", width)), "capture_show"]


def claims():
    """What is carried at first; then no buffer, none in use, unknown versions, and more in use than there is."""
    yield from ["capture_show", "capture_open", "capture_count", "capture_prefix", record_from(0), record_from(1), capture_empty(1)]
    yield from [way(0, event(1, 3, b"")) for way in APPENDS] + ["capture_show", SOME_SUMMARY]
    for used in [0, 1, 2 ** 63, USE_MOST]:
        yield from judged(used, b"", 3, [0, 1, used])
    for version, width in VERSIONS + [(version, 3) for version in UNKNOWN_VERSIONS]:
        for count, more in [(0, 0), (2, 30)]:
            run = small_capture(version, width, count)
            buffer = spare(run, more)
            for used in [0, len(run), len(buffer) + 1, len(buffer) + 2 ** 63, USE_MOST]:
                yield from judged(used, buffer, width, [1, used])


def record_faults():
    """Each bad record in each of three places; seconds that fall in the second or third; and bad records with no use, with an unknown
    version and with more in use than there is."""
    yield SOME_SUMMARY
    for version, width in VERSIONS:
        for place in range(3):
            bads = list(bad_records(width, TIMES[place], TIMES[0]))
            for bad in bads if place > 0 else bads[:-1]:
                records = small_records(width)[:2]
                records.insert(place, bad)
                run = bytes([version]) + b"".join(records)
                yield from judged(len(run), spare(run, 30), width, starts(records)[place:place + 2])
    for number, times in enumerate([(5, 9, 7), (9, 5, 9), (5, 9, 5), (7, 7, 6), (0, COUNT_MOST, COUNT_MOST - 1), (1, 0, 0),
                                     (0, 0, 0)]):
        version, width = VERSIONS[number % 2]
        records = [record(seconds, datagram) for seconds, datagram in zip(times, small_events(width))]
        run = bytes([version]) + b"".join(records)
        yield from judged(len(run), spare(run, 30), width, starts(records)[:3])
    # a length with a wrong high byte, and one low byte first
    for version, width in VERSIONS:
        good = small_records(width)[0]
        for bad in [b"\x01" + good[1:], good[1::-1] + good[2:]]:
            run = bytes([version]) + bad
            yield from judged(len(run), spare(run, 30), width, [1])
    for number, bad in enumerate(bad_records(3, TIMES[1], TIMES[0])):
        run = small_capture(1, 3, 1) + bad
        unknown = bytes([UNKNOWN_VERSIONS[number % 3]]) + run[1:]
        for used, buffer in [(0, spare(run, 30)), (len(run) + 31, spare(run, 30)), (len(run), spare(unknown, 30)),
                             (len(run) + 31, spare(unknown, 30))]:
            yield capture_set(used, buffer)
            yield from [append(COUNT_MOST, event(1, 9, b"")), "capture_count", "capture_prefix", "capture_show"]


def fault_pairs():
    """Two bad records in one capture, next to each other or with a good one between them."""
    for number, first in enumerate(bad_records(3, TIMES[1], TIMES[0])):
        for place, second in enumerate(bad_records(3, TIMES[2], TIMES[1])):
            between = small_records(3)[1] if (number + place) % 2 else b""
            run = small_capture(1, 3, 1) + first + between + second
            yield from [capture_set(len(run), spare(run, 25)), append(COUNT_MOST, event(1, 9, b"")), "capture_prefix"]
        yield "capture_show"


def order_of_refusals():
    """Capture faults, datagram faults, an earlier time, no room and full counts together: 14, 15, 1 to 7, 16, 8."""
    turn = 0
    for way in APPENDS:
        for fault in ["none", "version", "record", "claim"]:
            for short in [0, 1]:
                for full in [None, "records", "type"]:
                    version, width = VERSIONS[turn % 2]
                    turn += 1
                    run = small_capture(3 if fault == "version" else version, width, 2)
                    run += b"\x00\x03\x00\x00\x00" if fault == "record" else b""
                    datagrams = refused_datagrams(width) + [event(1, 3, b"", width)]
                    buffer = spare(run, len(record(0, datagrams[-1])) - short)
                    used = len(buffer) + 1 if fault == "claim" else len(run)
                    counts = replaced_number(SOME_COUNTS, 3, COUNT_MOST) if full == "type" else SOME_COUNTS
                    yield summary_set(COUNT_MOST if full == "records" else 726, 5, 6, counts)
                    yield from [capture_set(used, buffer), mark_set(used, TIMES[1])]
                    for seconds in [TIMES[1] - 1, TIMES[1]]:
                        yield from [way(seconds, datagram) for datagram in datagrams]
                    yield "capture_show"


def replaced_number(numbers, place, value):
    """The numbers with another one at the place."""
    return numbers[:place] + [value] + numbers[place + 1:]


# Appending

def times_and_types():
    """Equal, later and earlier seconds; a summary's two times there or not; every type that has a count, and others."""
    for version, width in VERSIONS:
        for way in APPENDS:
            yield from [capture_set(0, pattern(150)), capture_empty(version), "capture_show"]
            yield from [way(seconds, event(1, 3, b"", width)) for seconds in [7, 7, 6, 8, 0, 8, COUNT_MOST, COUNT_MOST, COUNT_MOST - 1, 0]]
            yield from ["capture_show", "capture_count", capture_set(0, pattern(200)), capture_empty(version)]
            for first in [None, 0, COUNT_MOST]:
                for last in [None, 0, COUNT_MOST]:
                    yield from [summary_set(1, first, last, SOME_COUNTS), way(TIMES[2], event(1, 9, b"", width)), "capture_show"]
            yield capture_set(9, pattern(90))
            for type_ in list(range(13)) + [127, 128, 255]:
                yield from [capture_empty(version), way(type_, event(1, type_, bytes([4]), width)), "capture_show"]
            # frames of both layouts, which have another type in each
            for frame in BOTH + LONG_BOTH:
                yield from [capture_empty(version), way(1, frame), "capture_show"]


def full_counts():
    """The number of records and each count at its end and one below it; for a type of its own, one of the others, and another type."""
    for place in range(12):
        version, width = VERSIONS[place % 2]
        run = small_capture(version, width, 1)
        for most, times in [(COUNT_MOST, 1), (COUNT_MOST - 1, 2)]:
            numbers = replaced_number([7, 0, 1, 2, 3, 4, 5, 6, 7, 8, 9, 10], place, most)
            for type_ in sorted(set([max(place - 1, 0), place % 10, 255])):
                yield from [capture_set(len(run), spare(run, 42)), mark_set(len(run), None)]
                for way in APPENDS:
                    yield summary_set(numbers[0], None, TIMES[1], numbers[1:])
                    yield from [way(TIMES[2], event(1, type_, bytes([1]), width))] * times + ["capture_show"]


def rooms():
    """Buffers too short, just long enough and longer."""
    for version, width in VERSIONS:
        for way in APPENDS:
            for count, n in [(0, 0), (1, 1), (1, 48)]:
                run = small_capture(version, width, count)
                datagram = event(1, 3, pattern(n), width)
                size = len(record(0, datagram))
                for room in [0, 1, size - 1, size, size + 1]:
                    yield from [capture_set(len(run), spare(run, room)), mark_set(len(run), None)]
                    yield from [way(TIMES[2], datagram), "capture_show"]


def marks():
    """Marks of every kind: over good records, over bytes that are none, over an unknown version and over no buffer."""
    for version, width in VERSIONS:
        run = small_capture(version, width, 2)
        buffer = spare(run, 30)
        datagram = event(1, 9, b"", width)
        size = len(record(0, datagram))
        places = [0, 2, len(run) - 1, len(run) + 1, len(buffer) - size, len(buffer) - size + 1, len(buffer) - 1, len(buffer),
                  len(buffer) + 1, 2 ** 32, 2 ** 63, USE_MOST]
        lasts = [None, 0, TIMES[1] - 1, TIMES[1], TIMES[1] + 1, COUNT_MOST]
        for used, last in ([(used, last) for used in places for last in [None, TIMES[1] + 1]]
                           + [(used, last) for used in [1, len(run)] for last in lasts]):
            yield from [capture_set(len(run), buffer), mark_set(used, last), append_at(TIMES[1], datagram), "capture_show"]
    for first in UNKNOWN_VERSIONS + [1, 2]:
        for used in [0, 1, 3, 40, 41, USE_MOST]:
            yield from [capture_set(USE_MOST, bytes([first]) + b"\xFF" * 39), mark_set(used, None)]
            yield from [append_at(0, datagram) for datagram in [b"", event(1, 9, b"", 3), event(1, 9, b"", 2)]] + ["capture_show"]
    for used in [0, 1, USE_MOST]:
        yield from [capture_set(0, b""), mark_set(used, None), append_at(0, event(1, 9, b"")), "capture_show"]


def stale_marks():
    """Marks that stayed behind: appended at, opened afresh, inside a record, and over a capture that has become another."""
    for version, width in VERSIONS:
        datagrams = small_events(width)
        yield from [capture_set(0, pattern(120)), capture_empty(version), append_at(10, datagrams[0]), "capture_show"]
        yield from [append(20, datagrams[1]), "capture_show", append_at(15, datagrams[2]), "capture_show", "capture_count"]
        yield from [append(15, datagrams[0]), append(14, datagrams[0]), "capture_show", "capture_open", "capture_show"]
        yield from [append_at(14, datagrams[0]), append_at(15, datagrams[0]), "capture_show", "capture_count", "capture_prefix"]
        yield from [mark_set(5, None), append_at(0, datagrams[1]), "capture_show", "capture_count", append(99, datagrams[0])]
        yield from ["capture_open", "capture_show", append_at(99, datagrams[0]), "capture_prefix", "capture_show"]
        run = small_capture(version, width)
        yield from [capture_set(len(run), spare(run, 40)), "capture_open", capture_set(1, bytes([3 - version]) + spare(run[1:], 40))]
        yield from [append_at(COUNT_MOST, datagrams[0]), append_at(COUNT_MOST, other_layout(width)), "capture_show"]


def emptying():
    """Buffers of no byte, one and more; known and unknown versions; whatever was in use, counted and marked before."""
    for size in [0, 1, 5, 40]:
        for version in [0, 1, 2, 3, 255]:
            yield from [SOME_SUMMARY, mark_set(USE_MOST, 77), capture_set([0, 1, USE_MOST][version % 3], pattern(size))]
            yield from [capture_empty(version), "capture_show", "capture_open", "capture_count"]
            yield from [append(3, event(1, 3, b"")), append_at(3, event(1, 3, b"", 2)), "capture_show"]
    for version in range(256):
        if version & version - 1 == 0:
            yield capture_empty(version)
    yield "capture_show"


def handed_summaries():
    """Summaries and marks with each flag; and summaries by chance, which do not belong to the records."""
    run = small_capture(1, 3, 2)
    counts = b"".join(wide(count, 4) for count in SOME_COUNTS)
    flags = [0x00, 0x01, 0x02, 0xFF]
    for first in flags:
        for last in flags:
            yield from [capture_set(len(run), spare(run, 50)), mark_set(len(run), None)]
            yield call("summary_set", wide(2, 4) + flagged(COUNT_MOST, first) + flagged(1, last) + counts)
            yield from ["capture_show"] + [way(TIMES[2], event(1, 10, b"")) for way in APPENDS] + ["capture_show"]
    for last in flags:
        for seconds in [0, 9]:
            yield from [capture_set(len(run), spare(run, 30)), call("mark_set", wide(len(run), 8) + flagged(seconds, last))]
            yield from ["capture_show", append_at(8, event(1, 3, b"")), "capture_show"]
    chance = Chance(8)
    for _ in range(20):
        yield from [capture_set(len(run), spare(run, 50)), "capture_open", call("summary_set", chance.run(58)), "capture_show"]
        yield from [chance.pick(APPENDS)(TIMES[2], event(1, chance.below(14), bytes([1]))), "capture_count", "capture_show"]


# Reading

def torn_tails():
    """Good captures cut after every byte, and with noise behind them: the good prefix, and on from there, both ways."""
    for version, width in VERSIONS:
        run = small_capture(version, width)
        for size in range(len(run) + 1):
            way = APPENDS[(size + version) % 2]
            yield from [capture_set(size, spare(run, 24)), "capture_prefix", way(TIMES[2], event(1, 8, b"", width)), "capture_show"]
            yield from [capture_set([size, size + 1, USE_MOST][size % 3], run[:size]), "capture_prefix"]
    chance = Chance(9)
    for number in range(32):
        version, width = VERSIONS[number % 2]
        run = small_capture(version, width, number % 4)
        noise = chance.pick([chance.run(1 + chance.below(30)), wide(chance.below(30), 2) + chance.run(20), bytes(25),
                             damaged_frame(chance, small_records(width)[2]), run[1:] + b"\x00"])
        used = USE_MOST if number % 3 == 0 else len(run) + len(noise)
        yield from [capture_set(used, spare(run + noise, 24)), "capture_prefix"]
        yield from [APPENDS[number // 4 % 2](TIMES[2], event(1, 8, b"", width)), "capture_show"]


def single_records():
    """One record from every place of a small capture; out of their order; and a walk from the first to the end."""
    for version, width in VERSIONS:
        run = small_capture(version, width)
        yield capture_set(len(run), spare(run, 30))
        yield from [record_from(place) for place in list(range(len(run) + 5)) + [len(run) + 30, 2 ** 32, 2 ** 63, USE_MOST - 1, USE_MOST]]
        yield "capture_show"
        for used in [1, 2, starts(small_records(width))[1], starts(small_records(width))[1] + 1]:
            yield capture_set(used, run)
            yield from [record_from(place) for place in [0, 1, used - 1, used, used + 1, USE_MOST]]
        records = [record(seconds, datagram) for seconds, datagram in zip([9, 8, 0], small_events(width))]
        run = bytes([version]) + b"".join(records)
        yield capture_set(len(run), run)
        yield from [record_from(place) for place in starts(records)] + ["capture_count", "capture_open"]
        records = [record(5 * type_, event(type_, type_, pattern(type_ + 1), width)) for type_ in range(13)]
        run = bytes([version]) + b"".join(records)
        yield capture_set(len(run), run)
        yield from [record_from(place) for place in starts(records)] + ["capture_count"]


# Whole years in small

def some_event(chance, width):
    """A good event of the layout."""
    return event(chance.below(256 ** width), chance.pick(list(range(13)) + [6, 6, 255]), chance.run(1 + chance.below(3)), width)


def some_appends(chance, width):
    """Seconds and datagrams, most of them good and in time."""
    seconds = chance.below(1000)
    for _ in range(20 + chance.below(41)):
        seconds += chance.pick([0, 0, 1, 60, 3600])
        given = max(0, seconds - 1 - chance.below(100)) if chance.one_in(8) else seconds
        good = some_event(chance, width)
        bad = chance.pick([damaged_frame(chance, good), resummed(damaged_frame(chance, good)), good[:chance.below(len(good))],
                           some_event(chance, 5 - width), event(1, chance.pick([0, 1, 2, 6, 7]), b"", width)])
        yield given, bad if chance.one_in(4) else good


def years():
    """Runs of appends by chance from an empty capture: the same ones by the letter and by marks, and others by both in turn."""
    chance = Chance(10)
    for number in range(12):
        version, width = VERSIONS[number % 2]
        buffer = pattern(chance.pick([150, 600, 1000]))
        appends = list(some_appends(chance, width))
        for way in APPENDS:
            yield from [capture_set(0, buffer), capture_empty(version)]
            yield from [way(seconds, datagram) for seconds, datagram in appends]
            yield from ["capture_show", "capture_count", "capture_prefix", "capture_show"]
    for number in range(12):
        version, width = VERSIONS[number % 2]
        yield from [capture_set(0, pattern(chance.pick([100, 150, 400]))), capture_empty(version)]
        for seconds, datagram in some_appends(chance, width):
            yield chance.pick(APPENDS)(seconds, datagram)
            if chance.one_in(5):
                yield chance.pick(["capture_open", "capture_show", "capture_count", "capture_prefix"])
        yield "capture_show"


def longest_buffers():
    """Buffers of 1300 bytes, filled until there is no more room."""
    for (version, width), way, n, count in zip(VERSIONS, APPENDS, [20, 48], [36, 22]):
        yield from [capture_set(USE_MOST, pattern(1300)), capture_empty(version)]
        yield from [way(1000 + number, event(number, number % 12, pattern(n), width)) for number in range(count)]
        yield from ["capture_show", "capture_count", "capture_open", "capture_prefix", "capture_show"]
    run = b"\x02" + record(1, event(1, 3, pattern(36), 2)) * 23 + record(1, event(1, 3, pattern(15), 2))
    for used in [1299, 1300, 1301]:
        yield from [capture_set(used, run), "capture_open", "capture_count", record_from(1266), record_from(1300), "capture_prefix"]
        yield from [append(2, event(1, 3, b"", 2)), "capture_show"]


def refusal_names():
    """The names of the refusals of captures, into buffers of every size about theirs."""
    for number in range(13, 18):
        for size in range(9, 17):
            yield call("name", [0, number], pattern(size))


def captures():
    for part in [claims(), record_faults(), fault_pairs(), order_of_refusals(), times_and_types(), full_counts(), rooms(), marks(),
                 stale_marks(), emptying(), handed_summaries(), torn_tails(), single_records(), years(), longest_buffers(),
                 refusal_names()]:
        yield from part


# W-208: a morning's datagrams in one call, and both ways of appending them

def led(datagrams):
    """A run: each datagram behind its length."""
    return b"".join(wide(len(datagram), 2) + datagram for datagram in datagrams)


def append_run(seconds, run):
    return call("capture_run", wide(seconds, 4), run)


def append_run_at(seconds, run):
    return call("capture_run_at", wide(seconds, 4), run)


# With each way of appending a run, the way of appending one datagram.
RUN_WAYS = [(append_run, append), (append_run_at, append_at)]
RUNS = [way for way, _ in RUN_WAYS]


def capture_handed_in(run, room, last):
    """A good capture in a buffer with room behind it, and its mark."""
    return [capture_set(len(run), spare(run, room)), mark_set(len(run), last)]


def fresh_capture(version, size):
    return [capture_set(0, pattern(size)), capture_empty(version)]


# Runs that are whole

def mixed_runs():
    """No datagram, one and more; each refused one, the other layout's and the empty one, alone, first, last, between and twice."""
    for version, width in VERSIONS:
        goods = small_events(width)
        for way in RUNS:
            yield from fresh_capture(version, 330) + [SOME_SUMMARY]
            for count in range(4):
                yield from [way(TIMES[0], led(goods[:count])), "capture_show"]
            for bad in refused_datagrams(width) + [other_layout(width), b""]:
                yield from fresh_capture(version, 110)
                for datagrams in [[bad], [bad, goods[0]], [goods[1], bad, bad], [goods[2], bad, goods[0]]]:
                    yield way(TIMES[0], led(datagrams))
                yield "capture_show"
            # every refusal in one run, good ones between; then lengths 0 only
            several = [datagram for bad in refused_datagrams(width) + [b""] for datagram in [bad, goods[0]]]
            yield from fresh_capture(version, 200) + [way(TIMES[0], led(several)), "capture_show"]
            for count in [1, 2, 3, 200]:
                yield way(TIMES[0], led([b""] * count))
            yield from ["capture_show", "capture_count", "capture_open"]
            # frames of both layouts, which have another type in each, and every type in one run
            yield from fresh_capture(version, 250) + [way(TIMES[0], led(BOTH + LONG_BOTH)), "capture_show"]
            types = [event(1, type_, bytes([4]), width) for type_ in list(range(13)) + [127, 255]]
            yield from fresh_capture(version, 350) + [way(0, led(types)), "capture_show", "capture_count"]


def great_lengths():
    """Datagrams longer than any layout takes, most of 255 bytes or more: alone, before and behind a good one, with good ones inside."""
    for number, size in enumerate([63, 128, 255, 256, 257, 512, 1290]):
        version, width = VERSIONS[number % 2]
        good = event(59, 3, b"", width)
        head = b"\x5A\x43" + MAC + wide(59, width) + bytes([3, size % 49])
        begun = summed((head + pattern(size))[:size - 1])
        inside = (led([good]) * (size // (len(good) + 2) + 1))[:size]
        for way in RUNS:
            yield from fresh_capture(version, 100)
            for datagrams in [[begun], [begun, good], [good, inside], [pattern(size), good]]:
                yield way(5, led(datagrams))
            yield "capture_show"


def low_first():
    """Lengths low byte first, which reach past the end or lead other parts: 256 low byte first is 1."""
    for version, width in VERSIONS:
        good = event(59, 3, b"", width)
        backward = bytes([len(good), 0]) + good
        yield from capture_handed_in(small_capture(version, width, 1), 60, TIMES[0])
        for run in [backward, led([good]) + backward, backward + led([good]), backward + bytes(600), b"\x00\x01" + bytes(256),
                    b"\x01\x00" + bytes(256), b"\x00\x02" + bytes(512), b"\x01\x00" + bytes(255)]:
            yield from [way(TIMES[0], run) for way in RUNS]
        yield "capture_show"


# Runs that are refused whole

def cut_runs():
    """Runs cut after every byte, of good datagrams alone and with refused and empty ones; shown where a cut leaves a whole run."""
    for number, way in enumerate(RUNS + RUNS[::-1]):
        version, width = VERSIONS[number % 2]
        goods = small_events(width)
        datagrams = goods if number < 2 else [b"", refused_datagrams(width)[4], b"", goods[0], b""]
        run = led(datagrams)
        ends = [len(led(datagrams[:count])) for count in range(len(datagrams) + 1)]
        yield from capture_handed_in(small_capture(version, width, 1), 150, TIMES[0]) + [SOME_SUMMARY]
        for size in range(len(run) + 1):
            yield way(TIMES[1], run[:size])
            if size in ends:
                yield "capture_show"


def wrong_ends():
    """Bytes behind a whole run: part of a length, lengths with too few bytes behind them, and lengths 0."""
    for version, width in VERSIONS:
        goods = small_events(width)
        for way in RUNS:
            yield from fresh_capture(version, 190)
            for end in [b"\x00", b"\x01", b"\xFF", b"\x00\x01", b"\x00\x02\x5A", b"\x01\x00", b"\x80\x00", b"\xFF\xFF" + goods[0],
                        b"\x00\x00", b"\x00\x00\x00", b"\x00\x01\x5A", b"\x00\x00\x00\x00"]:
                yield from [way(TIMES[0], end), way(TIMES[0], led(goods[:1]) + end)]
            yield "capture_show"


def wrong_lengths():
    """Each length of three, one too great and one too small, twice as great, and with a high byte; and lengths whose wrong end still leaves
    a whole run."""
    for version, width in VERSIONS:
        goods = small_events(width)
        yield from capture_handed_in(small_capture(version, width, 1), 200, TIMES[0])
        for place in range(3):
            before, behind = led(goods[:place]), led(goods[place + 1:])
            length = len(goods[place])
            for wrong in [length - 1, length + 1, 2 * length, 0, 1, length + 256, 0x8000, 0xFFFF]:
                run = before + wide(wrong, 2) + goods[place] + behind
                yield from [way(TIMES[0], run) for way in RUNS]
            # a length that leads all that follows
            run = before + wide(length + len(behind), 2) + goods[place] + behind
            yield from [way(TIMES[0], run) for way in RUNS] + ["capture_show"]
        # a sum of 00 is the first byte of the length behind a datagram that was led by one byte too few
        nought = event(59, 3, bytes([event(59, 3, bytes(1), width)[-1]]), width)
        short = wide(len(nought) - 1, 2) + nought
        longer = led([nought + b"\x00"])
        for run in [short, short + b"\x00", short + b"\x01\x5A", short + b"\x00" + led(goods[:1]), short + led(goods[:1])[1:],
                    longer, longer + led(goods[:1]), longer[:-1] + led(goods[:1])]:
            yield from [way(TIMES[0], run) for way in RUNS]
        yield "capture_show"


# Runs over captures of every kind

def judged_runs(used, buffer, width):
    """A capture handed in, its bytes in use also as a mark: a run, none, and one that is not whole, by the letter and from the mark."""
    whole = led([b""] + small_events(width)[:1])
    yield from [capture_set(used, buffer), mark_set(used, None)]
    yield from [append_run(COUNT_MOST, run) for run in [whole, b"", whole[:-1]]]
    yield from [append_run_at(COUNT_MOST, run) for run in [whole[:-1], b"", whole]] + ["capture_show"]


def runs_over_claims():
    """No buffer, none in use, unknown versions, more in use than there is; with whole runs and with runs that are not."""
    yield SOME_SUMMARY
    for used in [0, 1, 2 ** 63, USE_MOST]:
        yield from judged_runs(used, b"", 3)
    for version, width in VERSIONS + [(version, 3) for version in UNKNOWN_VERSIONS]:
        run = small_capture(version, width, 1)
        buffer = spare(run, 25)
        for used in [0, len(run), len(buffer) + 1, USE_MOST] + ([1, len(buffer)] if version in [1, 2] else []):
            yield from judged_runs(used, buffer, width)


def runs_over_bad_records():
    """Captures with a bad record; by the letter every run is refused, from a mark behind it whole ones are not."""
    yield SOME_SUMMARY
    for version, width in VERSIONS:
        whole = led(small_events(width)[:1])
        for number, bad in enumerate(bad_records(width, TIMES[1], TIMES[0])):
            run = small_capture(version, width, 1) + bad
            used = len(run)
            if number % 3 == 0:
                run += small_records(width)[1]
            for first in [version] if number % 5 else [version, UNKNOWN_VERSIONS[number // 5 % 3]]:
                yield from [capture_set(len(run), bytes([first]) + spare(run[1:], 30)), mark_set(used, TIMES[1])]
                yield from [append_run(COUNT_MOST, given) for given in [whole, [b"", whole[:-1]][number % 2]]]
                yield from [append_run_at(TIMES[2], given) for given in [whole + b"\x00", whole]] + ["capture_show"]


# Times, room, counts

def times_of_runs():
    """One time below, at and above the last record's; over an empty capture; and runs one behind the other."""
    for version, width in VERSIONS:
        run = small_capture(version, width, 2)
        given = led([event(59, 3, b"", width), b"", event(1, 9, bytes([1]), width)])
        for way in RUNS:
            for seconds in [TIMES[1] - 1, TIMES[1], TIMES[1] + 1, COUNT_MOST]:
                yield from capture_handed_in(run, 60, TIMES[1]) + [way(seconds, given), "capture_show"]
            for seconds in [0, COUNT_MOST]:
                yield from fresh_capture(version, 60) + [way(seconds, given), way(COUNT_MOST - seconds, given), "capture_show"]
            yield from fresh_capture(version, 300)
            yield from [way(seconds, given) for seconds in [7, 7, 6, 9, 8, 0, 9]] + ["capture_show", "capture_count"]


def some_data(width):
    """Events whose records have three sizes, none of them the sum of two others."""
    return [event(59, 3, pattern(n), width) for n in [30, 5, 0]]


def rooms_for_runs():
    """Rooms about the size of each choice among three records, the longest first and the shortest first."""
    for number, (version, width) in enumerate(VERSIONS + VERSIONS):
        datagrams = some_data(width) if number < 2 else some_data(width)[::-1]
        sizes = set(sum(len(record(0, datagram)) for datagram in choice) for choice in subsets(datagrams))
        rooms = sorted(set(size - short for size in sizes for short in [0, 1] if size >= short) | {1, max(sizes) + 1})
        for room in rooms if number < 2 else rooms[::3]:
            yield from capture_handed_in(small_capture(version, width, 1), room, TIMES[0])
            yield from [RUNS[number % 2](TIMES[1], led(datagrams)), "capture_show"]
    # room for none, for one and for some of many that are alike, refused ones between them
    for version, width in VERSIONS:
        good = event(59, 3, b"", width)
        size = len(record(0, good))
        for way in RUNS:
            for room in [size - 1, size, 3 * size - 1, 3 * size]:
                yield from capture_handed_in(bytes([version]), room, None)
                yield from [way(TIMES[1], led([good, event(59, 3, pattern(48), width), good, b"", good, good])), "capture_show"]


def full_counts_of_runs():
    """The number of records and each count at its end and one below it; a run of that type, of another, and of that type again."""
    for place in range(12):
        version, width = VERSIONS[place % 2]
        run = small_capture(version, width, 1)
        own, other = (255 if place == 11 else max(place - 1, 0)), place % 10
        given = led([event(1, type_, bytes([1]), width) for type_ in [own, other, own, other, own]])
        for way, most in [(append_run, COUNT_MOST), (append_run_at, COUNT_MOST), (RUNS[place // 2 % 2], COUNT_MOST - 1)]:
            numbers = replaced_number([7, 0, 1, 2, 3, 4, 5, 6, 7, 8, 9, 10], place, most)
            yield from capture_handed_in(run, 110, TIMES[0]) + [summary_set(numbers[0], None, TIMES[1], numbers[1:])]
            yield from [way(TIMES[2], given), "capture_show"]


def summaries_of_runs():
    """Summaries whose two times are there or not, which do not belong to the records; runs of which none, one and two go in."""
    for version, width in VERSIONS:
        for first in [None, COUNT_MOST]:
            for last in [None, 9]:
                yield from capture_handed_in(bytes([version]), 90, None) + [summary_set(1, first, last, SOME_COUNTS)]
                yield from [way(count, led([b""] + small_events(width)[:count])) for count in range(3) for way in RUNS[::-1]]
                yield "capture_show"


# Marks

def marks_for_runs():
    """Marks of every kind: runs of which none goes in, so that bytes in use become the mark's and its last stays, and then some that do."""
    for version, width in VERSIONS:
        run = small_capture(version, width, 2)
        buffer = spare(run, 50)
        goods = small_events(width)[:2]
        size = len(led(goods)) + 8
        places = [0, 2, len(run) + 1, len(buffer) - size, len(buffer) - size + 1, len(buffer), len(buffer) + 1, USE_MOST]
        none_goes_in = [b"", led([b""]), led(refused_datagrams(width))]
        for number, (used, last) in enumerate([(used, last) for used in places for last in [None, TIMES[1] + 1][:3 - version]]
                                              + [(len(run), last) for last in [None, 0, TIMES[1], TIMES[1] + 1, COUNT_MOST]]):
            yield from [capture_set(len(run), buffer), mark_set(used, last)]
            yield from [append_run_at(TIMES[1], none_goes_in[number % 3]), "capture_show"]
            yield from [append_run_at(TIMES[1], led([goods[0], b"", goods[1]])), "capture_show"]
    for first in UNKNOWN_VERSIONS + [1, 2]:
        for used in [0, 1, 60, 61]:
            yield from [capture_set(USE_MOST, bytes([first]) + b"\xFF" * 59), mark_set(used, None)]
            yield from [append_run_at(0, run) for run in [b"\x00", led([event(1, 9, b"", 3), event(1, 9, b"", 2)])]] + ["capture_show"]


def stale_marks_of_runs():
    """Marks that a run by the letter leaves behind: then runs from them, single ones, opened afresh, and the prefix."""
    for version, width in VERSIONS:
        goods = small_events(width)
        whole, mixed = led(goods), led([goods[0], b"", other_layout(width), goods[1]])
        yield from fresh_capture(version, 260) + [append_run(10, mixed), "capture_show", append_run_at(20, b""), "capture_show"]
        yield from [append_run(10, mixed), "capture_open", append_run_at(20, mixed), "capture_show", append_run(20, mixed), "capture_show"]
        yield from [append_run_at(19, mixed), "capture_show", "capture_count", append_run_at(25, whole), "capture_show", "capture_count"]
        yield from [append_run(24, whole), append_run(25, led(goods[:1])), "capture_show", append_at(25, goods[0]), "capture_show"]
        yield from [append(26, goods[1]), append_run_at(26, mixed), "capture_show", "capture_prefix", "capture_show"]
        yield from [mark_set(5, None), append_run_at(0, mixed), "capture_show", append_run(99, whole), append_run(99, b"")]
        yield from ["capture_open", "capture_prefix", append_run(99, whole), "capture_show", "capture_count"]
        run = small_capture(version, width)
        yield from [capture_set(len(run), spare(run, 60)), "capture_open", capture_set(1, bytes([3 - version]) + spare(run[1:], 60))]
        yield from [append_run_at(COUNT_MOST, led(goods + [other_layout(width)])), "capture_show"]


# Whole mornings

def some_datagrams(chance, width, count):
    """Datagrams, most of them good, some empty."""
    for _ in range(count):
        good = some_event(chance, width)
        bad = chance.pick([damaged_frame(chance, good), resummed(damaged_frame(chance, good)), good[:chance.below(len(good))], b"",
                           some_event(chance, 5 - width), event(1, chance.pick([0, 1, 2, 6, 7]), b"", width), chance.run(chance.below(80))])
        yield bad if chance.one_in(3) else good


def parted(datagrams, chance):
    """The datagrams in parts, one behind the other; the first has some, others may have none."""
    places = sorted(1 + chance.below(len(datagrams)) for _ in range(chance.below(5)))
    return [datagrams[first:last] for first, last in zip([0] + places, places + [len(datagrams)])]


def singly_and_at_once():
    """The same datagrams singly and in one call or several, both ways, from an empty capture."""
    chance = Chance(11)
    for number in range(8):
        version, width = VERSIONS[number % 2]
        size = chance.pick([60, 150, 400])
        parts = parted(list(some_datagrams(chance, width, 4 + chance.below(8))), chance)
        times = [chance.below(1000) for _ in parts] if chance.one_in(3) else sorted(chance.below(1000) for _ in parts)
        for way, single in RUN_WAYS:
            yield from fresh_capture(version, size)
            yield from [single(seconds, datagram) for seconds, part in zip(times, parts) for datagram in part] + ["capture_show"]
            yield from fresh_capture(version, size)
            yield from [way(seconds, led(part)) for seconds, part in zip(times, parts)] + ["capture_show"]


def damaged_run(chance, run):
    """The run with another byte somewhere, a byte more, or cut."""
    place = chance.below(len(run) + 1)
    return chance.pick([run[:place] + chance.run(1) + run[place + 1:], run[:place] + chance.run(1) + run[place:], run[:place],
                        run[:place] + b"\x00\x00" + run[place:], run[:place] + run[place + 1:]])


def mornings():
    """Runs by chance on what is carried: whole, damaged and of any bytes, both ways in turn, with other calls between."""
    chance = Chance(12)
    for number in range(10):
        version, width = VERSIONS[number % 2]
        yield from fresh_capture(version, chance.pick([80, 200, 500]))
        seconds = chance.below(1000)
        for _ in range(14):
            seconds += chance.pick([0, 0, 1, 60])
            given = max(0, seconds - 1 - chance.below(100)) if chance.one_in(6) else seconds
            run = led(list(some_datagrams(chance, width, chance.below(5))))
            if chance.one_in(4):
                run = chance.pick([damaged_run(chance, run), damaged_run(chance, run), chance.run(chance.below(12)),
                                   bytes(chance.below(6)), b"".join(wide(chance.below(4), 2) + chance.run(2) for _ in range(5))])
            yield chance.pick(RUNS)(given, run)
            if chance.one_in(4):
                yield chance.pick(["capture_open", "capture_show", "capture_count", "capture_prefix",
                                   chance.pick(APPENDS)(given, some_event(chance, width))])
        yield from ["capture_show", "capture_count"]


def longest_runs():
    """Runs as long as a line can be, into the longest buffers: more records than there is room for, lengths 0, and one byte short."""
    for (version, width), way in zip(VERSIONS + VERSIONS, RUNS + RUNS[::-1]):
        most = (opinion.LINE_MOST - len(way(0, b""))) // 3
        good = event(59, 3, b"", width)
        many = led([good] * (most // (len(good) + 2)))
        rest = most - len(many)
        yield from [capture_set(USE_MOST, pattern(1300)), capture_empty(version)]
        yield from [way(9, many + bytes(rest - rest % 2)), "capture_show"]
        yield from [way(9, bytes(most - most % 2)), way(9, bytes(most - 1 + most % 2)), capture_empty(version), way(9, many + b"\x00\x01")]
        for run in [led([pattern(most - 2)]), led([event(59, 3, pattern(48), width)] * 21)]:
            yield from [way(9, run[:-1]), way(9, run), "capture_show"]
        yield "capture_count"
    # a whole capture's datagrams, put over into another
    for version, width in VERSIONS:
        records = small_records(width) * 7
        yield from fresh_capture(version, 500) + [append_run(1, led([run[6:] for run in records])), "capture_show", "capture_count"]
        yield from [append_run(1, b"".join(records)), append_run_at(1, small_capture(version, width)), "capture_show"]


def runs():
    for part in [mixed_runs(), great_lengths(), low_first(), cut_runs(), wrong_ends(), wrong_lengths(), runs_over_claims(),
                 runs_over_bad_records(), times_of_runs(), rooms_for_runs(), full_counts_of_runs(), summaries_of_runs(), marks_for_runs(),
                 stale_marks_of_runs(), singly_and_at_once(), mornings(), longest_runs()]:
        yield from part


# W-213: four seasons of one corridor

PRESS, HOLD, OCCUPIED = 0, 1, 6
COUNTED = [OCCUPIED, PRESS, HOLD]

# The corridor, and three boundaries. The target's bytes differ, in both layouts.
INSTANCE = 5
RISING = (1000, 2000, 3000)


def corridor_target(width):
    return 0x0A0B0C % 256 ** width


def seasons(target, boundaries=RISING, mac=MAC, instance=INSTANCE):
    return call("seasons", mac + wide(target, 4) + bytes([instance]) + b"".join(wide(boundary, 4) for boundary in boundaries))


def happened(width, seconds, type_=OCCUPIED, mac=MAC, target=None, data=bytes([INSTANCE])):
    """A record of the corridor, or of a neighbour that differs in what is given."""
    return record(seconds, event(corridor_target(width) if target is None else target, type_, data, width, mac))


def occupied_at(width, times):
    return [happened(width, seconds) for seconds in times]


def year_handed_in(version, records, room=0):
    """A capture of these records, all in use, with so many bytes behind it."""
    run = bytes([version]) + b"".join(records)
    return capture_set(len(run), spare(run, room))


def asked(version, width, records, boundaries=RISING):
    """A capture of these records, and its corridor's seasons."""
    return [year_handed_in(version, records), seasons(corridor_target(width), boundaries)]


def in_order(records):
    """The records by their seconds; those of equal seconds stay as they come."""
    return sorted(records, key=lambda run: run[2:6])


def rising_of(values):
    """Every three of the values that rise, the values rising too."""
    return [three for three in subsets(values) if len(three) == 3]


def flipped(run, place, bits):
    """The run with these bits of one byte turned."""
    return replaced(run, place, run[place] ^ bits)


# Times and boundaries

def times_about_boundaries():
    """Each counted type: one event below, at and above each boundary; then all nine in one capture, and boundaries moved by one."""
    for version, width in VERSIONS:
        target = corridor_target(width)
        for type_ in COUNTED:
            yield year_handed_in(version, [happened(width, 2000, type_)])
            for about in [1999, 2000, 2001]:
                yield from [seasons(target, three) for three in [(about, 3000, 4000), (1000, about, 3000), (0, 1000, about)]]
            yield year_handed_in(version, [happened(width, boundary + step, type_) for boundary in RISING for step in [-1, 0, 1]], 9)
            for moved in range(27) if type_ == OCCUPIED else [0, 8, 13, 18, 26]:
                steps = [moved // 9 - 1, moved // 3 % 3 - 1, moved % 3 - 1]
                yield seasons(target, [boundary + step for boundary, step in zip(RISING, steps)])


# The boundaries of the longest first, second, third and fourth season.
ENDS = [(COUNT_MOST - 2, COUNT_MOST - 1, COUNT_MOST), (0, COUNT_MOST - 1, COUNT_MOST), (0, 1, COUNT_MOST), (0, 1, 2)]


def times_at_the_ends():
    """Times and boundaries at both ends of 32 bits; the longest gap that three rising boundaries leave in one season is 4294967293."""
    most = COUNT_MOST
    values = [0, 1, 3, 2 ** 31, most - 1, most]
    for number, times in enumerate([[0], [most], [0, most], [0, 0, most, most], [0, 1, 2, most - 2, most - 1, most],
                                    [0, most - 3, most - 2], [1, most - 1], [2, 2 ** 31 - 1, 2 ** 31, most]]):
        version, width = VERSIONS[number % 2]
        types = COUNTED if number < 2 else [OCCUPIED]
        yield year_handed_in(version, [happened(width, seconds, type_) for seconds in times for type_ in types])
        yield from [seasons(corridor_target(width), three) for three in rising_of(values)[number % 3::3] + ENDS]


def wide_boundaries():
    """Boundaries and times whose order hangs on one byte: high byte first and low byte first, with and without a sign."""
    rises = [(255, 256, 65536), (0xFF, 0x0100, 0x0201), (0x00FFFFFF, 0x01000000, 0x02000000), (0x7FFFFFFF, 0x80000000, 0xFFFFFFFF),
             (0x01000002, 0x02000001, 0x03000000), (0x00010000, 0x00010001, 0x00010100), (5, 0x80000000, 0x80000001)]
    for number, three in enumerate(rises):
        version, width = VERSIONS[number % 2]
        times = sorted(boundary + step for boundary in three for step in [-1, 0])
        yield year_handed_in(version, occupied_at(width, times))
        yield from [seasons(corridor_target(width), order) for order in
                    [three, three[::-1], (three[0], three[2], three[1]), (three[1], three[0], three[2]), (three[1], three[2], three[0])]]


# Occupied events and their gaps

def few_occupied():
    """Six occupied events with gaps that are all different: growing, shrinking, the longest in the middle; every three boundaries that part
    them, on a time and between two."""
    for number, times in enumerate([[100, 102, 106, 114, 130, 162], [100, 132, 148, 156, 160, 162], [100, 104, 120, 184, 192, 194]]):
        version, width = VERSIONS[number % 2]
        edges = [seconds + 1 if place % 2 == version - 1 else seconds for place, seconds in enumerate(times)]
        yield year_handed_in(version, occupied_at(width, times), 5)
        yield from [seasons(corridor_target(width), three) for three in rising_of(edges + [200])]


def counts_in_seasons():
    """Each season with 0, 1, 2 and 3 occupied events, the others with other counts."""
    for number in range(0, 64, 3):
        counts = [number // 16, number // 4 % 4, number % 4, (number + number // 4 + number // 16) % 4]
        version, width = VERSIONS[(number + number // 4) % 2]
        times = [1000 * season + place * (place + season + 1) for season, count in enumerate(counts) for place in range(count)]
        yield from asked(version, width, occupied_at(width, times))


def equal_times():
    """Gaps of 0 seconds, alone and beside others; the longest is 0, and absent where there is none."""
    for number, times in enumerate([[2000], [2000, 2000], [2000] * 3, [2000, 2000, 2001], [1999, 2000, 2000], [1999, 1999, 2000, 2000],
                                    [1999, 2000, 2000, 2007, 2007], [0, 0], [COUNT_MOST] * 2]):
        version, width = VERSIONS[number % 2]
        yield year_handed_in(version, occupied_at(width, times))
        yield from [seasons(corridor_target(width), three) for three in
                    [(1999, 3000, 4000), (1000, 2000, 3000), (500, 1000, 2001), (10, 20, 30), (2000, 2001, 2002)]]


def gaps_across_boundaries():
    """An occupied event in one season and the next in the same one or a later one; alone, and with one more before or behind."""
    begins = [0, 1000, 2000, 3000]
    turn = 0
    for first in range(4):
        for last in range(first, 4):
            for near in [True, False]:
                version, width = VERSIONS[turn % 2]
                turn += 1
                if near and first < last:
                    times = [begins[first + 1] - 1, begins[last]]
                else:
                    times = [begins[first] + 3, begins[last] + 988]
                for more in [[], [[max(begins[first], times[0] - 7)], [times[1] + 5]][turn // 2 % 2]]:
                    yield from asked(version, width, occupied_at(width, sorted(times + more)))


def longest_gaps():
    """The longest gap first, in the middle and last, and twice, in each season; and a longer one in the season before or behind."""
    for season in range(4):
        for number, gaps in enumerate([[9, 5, 1], [5, 9, 1], [1, 5, 9], [5, 1, 9], [9, 1, 9], [9, 9, 1], [0, 9, 0], [1, 1, 1]]):
            version, width = VERSIONS[(season + number) % 2]
            times = [1000 * season + 100 + sum(gaps[:place]) for place in range(len(gaps) + 1)]
            other = 1000 * (season + 1 if season < 3 else 0) + 100
            yield from asked(version, width, occupied_at(width, sorted(times + ([other, other + 50 + number] if number % 2 else []))))


# What is not the corridor's

def other_types_between():
    """Events of the corridor of each type between its occupied ones, at their times and between them: gaps stay, types 0 and 1 count."""
    for version, width in VERSIONS:
        for type_ in [0, 1, 2, 3, 4, 5, 7, 8, 9, 10, 70, 134, 255]:
            others = [happened(width, seconds, type_) for seconds in [1990, 2000, 2005, 2010, 2020, 3500]]
            ours = occupied_at(width, [1990, 2000, 2010, 2030])
            for records in [in_order(others + ours), in_order(ours + others) if type_ % 2 == version - 1 else others]:
                yield from asked(version, width, records)
        # every type, without data too where the type may have none, and one occupied event before and behind
        types = [happened(width, 1500 + type_, type_) for type_ in range(20) if type_ != OCCUPIED]
        types += [happened(width, 1600, type_, data=b"") for type_ in [3, 4, 5, 8, 9, 10, 255]]
        yield from asked(version, width, types)
        yield from asked(version, width, occupied_at(width, [1400]) + types + occupied_at(width, [1700]))


def neighbours(width):
    """What differs from the corridor in one place: MAC, target, instance, each byte in one bit or another, and bytes exchanged."""
    target = corridor_target(width)
    for place in range(6):
        yield from [(flipped(MAC, place, bits), target, INSTANCE) for bits in ([0x01, 0x80] if width == 3 else [0x10])]
    yield from [(MAC[::-1], target, INSTANCE), (MAC[1:] + MAC[:1], target, INSTANCE), (MAC[:4] + MAC[5:] + MAC[4:5], target, INSTANCE)]
    for place in range(width):
        yield from [(MAC, target ^ bit << 8 * place, INSTANCE) for bit in [0x01, 0x80]]
    yield (MAC, opinion.low_first(wide(target, width)), INSTANCE)
    yield from [(MAC, target, INSTANCE ^ bit) for bit in [0x01, 0x02, 0x04, 0x08, 0x10]]


def neighbours_between():
    """Each neighbour's events of the three types between the corridor's; both are asked for."""
    for version, width in VERSIONS:
        target = corridor_target(width)
        for mac, other, instance in neighbours(width):
            theirs = [happened(width, seconds, type_, mac, other, bytes([instance]))
                      for seconds, type_ in [(1003, 6), (1010, 0), (1011, 1), (1017, 6), (2500, 6), (2501, 0), (2504, 6)]]
            ours = occupied_at(width, [1000, 1008, 1030, 2000, 2502]) + [happened(width, 1012, 1), happened(width, 2600, 0)]
            yield year_handed_in(version, in_order(theirs + ours))
            yield from [seasons(target), seasons(other, RISING, mac, instance)]
        # all of them in one capture, at one time each
        crowd = [happened(width, 1010 + place, [6, 0, 1][place % 3], mac, other, bytes([instance]))
                 for place, (mac, other, instance) in enumerate(neighbours(width))]
        yield year_handed_in(version, occupied_at(width, [1000]) + crowd + occupied_at(width, [1100, 1200]))
        yield seasons(target)
        yield from [seasons(other, RISING, mac, instance) for mac, other, instance in list(neighbours(width))[::version]]


def strangers():
    """A corridor that nothing in the capture is of: each byte of MAC, target and instance changed in the call; and an empty capture."""
    for version, width in VERSIONS:
        yield year_handed_in(version, [happened(width, seconds, type_) for seconds in [999, 1000, 2222, 3000, 3001] for type_ in COUNTED])
        corridor = MAC + wide(corridor_target(width), 4) + bytes([INSTANCE])
        for asked_for in [corridor] + [flipped(corridor, place, bits) for place in range(11) for bits in [0x01, 0x80]]:
            yield seasons(opinion.high_first(asked_for[6:10]), RISING, asked_for[:6], asked_for[10])
        yield from asked(version, width, []) + [seasons(0, (0, 1, 2), bytes(6), 0)]


def targets_of_corridors():
    """Targets at the ends of each layout and beyond it, where a part of the number is an event's."""
    for version, width in VERSIONS:
        most = 256 ** width - 1
        kept = [0, 59, 255, 256, most - 255, most]
        yield year_handed_in(version, [happened(width, 500 * number, [6, 6, 0, 6, 1][number % 5], target=target)
                                       for number in range(9) for place, target in enumerate(kept) if number < 3 + place])
        over = [most + 1, most + 1 + 59, 2 * most + 1, 2 ** 31, 2 ** 32 - 1, 59 << 8, 59 << 16, 59 << 24, 0xFF00 << 16, 2 ** 24, 2 ** 16]
        yield from [seasons(target) for target in kept + [1, 58] + over]


def instances_of_corridors():
    """Each instance up to 31, and instances over 31, of which a part of the number is an event's."""
    for version, width in VERSIONS:
        yield year_handed_in(version, [happened(width, 60 * instance + 7 * number, [6, 0, 1][instance % 3], data=bytes([instance]))
                                       for instance in range(32) for number in range(1 + (instance + version) % 2)])
        asked_for = list(range(0, 32, version)) + [30, 31, 32, 33, 63, 64, 95, 127, 128, 159, 224, 254, 255]
        yield from [seasons(corridor_target(width), instance=instance) for instance in asked_for]


def instances_over_31():
    """Events that carry a number over 31 where the instance stands: they are that instance's, and no other's."""
    for version, width in VERSIONS:
        carried = [31, 32, 37, 64, 128, 133, 255]
        yield year_handed_in(version, [happened(width, 1000 + 10 * place + 100 * number, type_, data=bytes([instance]))
                                       for number in range(2) for place, instance in enumerate(carried) for type_ in [6, [0, 1][number]]])
        yield from [seasons(corridor_target(width), instance=instance) for instance in carried + [0, 5]]


def longer_data():
    """Data behind the instance, also where it looks like one; "occupied" counts whatever the byte behind says."""
    for version, width in VERSIONS:
        own = [bytes([INSTANCE]) + more for more in [b"", b"\x00", b"\x01", b"\xFF", bytes([INSTANCE]), pattern(9), pattern(47)]]
        others = [bytes([INSTANCE ^ 1]) + more for more in [b"", bytes([INSTANCE]), bytes([INSTANCE] * 3), pattern(9), pattern(47)]]
        for type_ in COUNTED:
            yield year_handed_in(version, [happened(width, 1000 + place ** 2, type_, data=data) for place, data in enumerate(own + others)])
            yield from [seasons(corridor_target(width), instance=instance) for instance in [INSTANCE, INSTANCE ^ 1, 0, 1, 2, 8]]


def both_layouts():
    """Frames that are occupied events in both layouts, of another target and instance in each."""
    frames = [event(0x0B0C06, 6, bytes([instance, 1, 2, 3, 4])) for instance in [5, 5, 4, 5]]
    for version, width in VERSIONS:
        yield year_handed_in(version, [record(1500 + 7 * place * place, frame) for place, frame in enumerate(frames)])
        yield from [seasons(target, instance=instance) for target in [0x0B0C06, 0x0B0C, 0x0C06] for instance in [5, 4, 1]]


# Refusals

# Every order that three numbers can have.
ORDERS = [(10, 20, 30), (10, 30, 20), (20, 10, 30), (20, 30, 10), (30, 10, 20), (30, 20, 10), (10, 10, 20), (20, 20, 10), (10, 20, 20),
          (20, 10, 10), (10, 20, 10), (20, 10, 20), (10, 10, 10)]


def boundaries_of_every_order():
    """Over good captures: every order, one second apart, and three of a few values."""
    for version, width in VERSIONS:
        target = corridor_target(width)
        yield year_handed_in(version, occupied_at(width, [5, 9, 10, 11, 19, 20, 29, 30, 31, 40]))
        yield from [seasons(target, order) for order in ORDERS]
        yield from [seasons(target, [9 + number // 10 for number in order]) for order in ORDERS]
        yield from [seasons(target, order, bytes(6), 255) for order in ORDERS[::4]]
        ends = [0, 20, COUNT_MOST] if version == 1 else [COUNT_MOST - 1, COUNT_MOST]
        yield from [seasons(target, (first, second, third)) for first in ends for second in ends for third in ends]
        yield year_handed_in(version, [])
        yield from [seasons(target, order) for order in ORDERS[::3]]


def refused_claims():
    """No buffer, none in use, unknown versions and more in use than there is, with boundaries of every order."""
    turn = 0
    for version, width in VERSIONS + [(version, 3) for version in UNKNOWN_VERSIONS]:
        run = bytes([version]) + b"".join(occupied_at(width, [5, 15, 25]))
        more = len(run) + 1
        for used, buffer in [(0, run), (more, run), (USE_MOST, run), (len(run), run), (1, run), (0, b""), (1, b"")]:
            turn += 1
            every = (version, used) in [(1, 0), (1, more), (3, len(run))] and buffer
            yield capture_set(used, buffer)
            yield from [seasons(corridor_target(width), order) for order in (ORDERS if every else [ORDERS[0], ORDERS[turn % 12 + 1]])]


def refused_records():
    """Each bad record, first, between and last in turn, with boundaries that rise and that do not; and with an unknown version."""
    for version, width in VERSIONS:
        good = occupied_at(width, [12, 15])
        bads = list(bad_records(width, 12, 12)) + [replaced(good[0], len(good[0]) - 1, good[0][-1] ^ 0x01), happened(width, 12, data=b"")]
        for number, bad in enumerate(bads):
            place = 1 + number % 2 if version == 1 else [0, 2][number % 2]
            yield year_handed_in(version, good[:place] + [bad] + good[place:], 4)
            orders = ORDERS if number % 2 == version - 1 else [ORDERS[0], ORDERS[1 + number % 12]]
            yield from [seasons(corridor_target(width), order) for order in orders]
            if number % 3 == version:
                yield year_handed_in(UNKNOWN_VERSIONS[number // 3 % 3], [bad])
                yield from [seasons(corridor_target(width), order) for order in [ORDERS[0], ORDERS[1 + number % 12]]]


def torn_records():
    """A capture whose last record is cut after every byte: what is in use, or what there is."""
    for version, width in VERSIONS:
        run = bytes([version]) + b"".join(occupied_at(width, [12, 15, 22]))
        size = len(happened(width, 0))
        for cut in range(len(run) - size, len(run) + 1):
            yield capture_set(cut, [run[:cut], run][cut % 2])
            yield from [seasons(corridor_target(width), order) for order in [ORDERS[0], ORDERS[1 + cut % 12]]]


# What is in use, and what is carried

def parts_in_use():
    """Bytes in use that end at each record, where others of the corridor stand behind; summaries and marks of every kind beside them."""
    for version, width in VERSIONS:
        records = [happened(width, 900 + 90 * place, [6, 6, 0, 6, 1, 7][place % 6]) for place in range(30)]
        run = bytes([version]) + b"".join(records)
        yield SOME_SUMMARY
        for number, end in enumerate(starts(records)[::3]):
            yield from [capture_set(end, run), mark_set([1, len(run), USE_MOST][number % 3], [None, 0, COUNT_MOST][number // 3 % 3])]
            yield seasons(corridor_target(width))
            if number % 5 == 0:
                yield from ["capture_show", seasons(corridor_target(width), (990, 1350, 1351)), seasons(1, (3, 2, 1)), "capture_show"]


def nothing_moves():
    """Captures that grow: the seasons asked for behind each append and each run, of both ways; and shown before and behind."""
    for (version, width), way, run_way in zip(VERSIONS, APPENDS, RUNS[::-1]):
        target = corridor_target(width)
        yield from fresh_capture(version, 330) + [seasons(target)]
        for place, seconds in enumerate([0, 998, 999, 999, 1000, 1500, 1400, 2000, 2999, 2999, 3000, COUNT_MOST]):
            type_ = [6, 6, 0, 6, 1][place % 5]
            yield from [way(seconds, event(target, type_, bytes([INSTANCE]), width)), seasons(target)]
        yield from ["capture_show", seasons(target, (2000, 1000, 3000)), seasons(target, (1, 2, 3)), "capture_show", "capture_count"]
        yield from fresh_capture(version, 260)
        for seconds in [7, 1000, 999, 1600, 3000]:
            datagrams = [event(target, type_, bytes([INSTANCE]), width) for type_ in [6, 0, 7]] + [b"", other_layout(width)]
            yield from [run_way(seconds, led(datagrams)), seasons(target)]
        yield from ["capture_show", "capture_prefix", seasons(target), "capture_open", seasons(target), "capture_show"]


def prefixes():
    """A capture with a torn end: refused, and counted once its prefix is kept."""
    for version, width in VERSIONS:
        run = bytes([version]) + b"".join(occupied_at(width, [100, 700, 1001, 2001, 2900]))
        for cut in [1, 20, 45]:
            yield from [capture_set(len(run), run[:-cut] + pattern(cut)), seasons(corridor_target(width)), "capture_show", "capture_prefix"]
            yield from [seasons(corridor_target(width)), "capture_show"]


# Whole years

def some_year(chance, width, count):
    """Seconds, MAC, target, type and data of events, among few corridors, most of them of the types that count."""
    target = corridor_target(width)
    macs, targets = [MAC, flipped(MAC, chance.below(6), 1 << chance.below(8))], [target, target ^ 1 << chance.below(8 * width)]
    instances = [INSTANCE, chance.below(32)]
    seconds = chance.pick([0, 1, 1000, 2 ** 31 - 100, COUNT_MOST - 60000])
    for _ in range(count):
        seconds = min(COUNT_MOST, seconds + chance.pick([0, 0, 1, 1, 2, 7, 60, 61, 3600]))
        mac, other, instance = (choices[chance.one_in(6)] for choices in [macs, targets, instances])
        type_ = chance.pick([6, 6, 6, 6, 0, 1, 7, 2, chance.below(13), chance.below(256)])
        yield seconds, mac, other, type_, bytes([instance]) + chance.run(chance.pick([0, 0, 0, 1, 2]))


def year_records(width, year):
    return [happened(width, seconds, type_, mac, target, data) for seconds, mac, target, type_, data in year]


def some_boundaries(chance, year):
    """Three boundaries that rise, most of them at or beside a time of the year."""
    found = set()
    while len(found) < 3:
        seconds = chance.pick(year)[0] + chance.pick([0, 0, 0, 1, -1, 2, 30, -30, 3600])
        found.add(min(COUNT_MOST, max(0, seconds + chance.pick([0, 0, chance.below(5)]))))
    return sorted(found)


def some_corridor(chance, year):
    """MAC, target and instance of an event of the year."""
    _, mac, target, _, data = chance.pick(year)
    return mac, target, data[0]


def years_in_seasons():
    """Years by chance, each asked for several of its corridors and boundaries, some of which do not rise."""
    chance = Chance(13)
    for number in range(36):
        version, width = VERSIONS[number % 2]
        year = list(some_year(chance, width, 12 + chance.below(40)))
        yield year_handed_in(version, year_records(width, year), chance.below(8))
        for place in range(8):
            mac, target, instance = (MAC, corridor_target(width), INSTANCE) if place < 4 else some_corridor(chance, year)
            boundaries = some_boundaries(chance, year)
            if chance.one_in(12):
                boundaries = [chance.pick(boundaries) for _ in range(3)]
            yield seasons(target, boundaries, mac, instance)


def longest_years():
    """As many records as the longest buffer holds: of one corridor, and of two in turn."""
    for version, width in VERSIONS:
        target = corridor_target(width)
        most = 1299 // len(happened(width, 0))
        alone = occupied_at(width, [place * (place + 1) for place in range(most)])
        turns = [happened(width, 50 * place, target=target ^ place % 2) for place in range(most)]
        for records in [alone, turns, [happened(width, 7, type_) for type_ in (COUNTED * most)[:most]], [happened(width, 2500)] * most]:
            yield year_handed_in(version, records, 1299 - most * len(records[0]))
            yield from [seasons(target), seasons(target ^ 1), seasons(target, (100, 150, 2450)), seasons(target, (7, 8, 2501)), seasons(0)]


def name_of_not_rising():
    """The name of the refusal, and of the numbers beside it, into buffers of every size about it."""
    for number in range(19, 22):
        for size in range(8, 13):
            yield call("name", [0, number], pattern(size))


def four_seasons():
    for part in [times_about_boundaries(), times_at_the_ends(), wide_boundaries(), few_occupied(), counts_in_seasons(), equal_times(),
                 gaps_across_boundaries(), longest_gaps(), other_types_between(), neighbours_between(), strangers(), targets_of_corridors(),
                 instances_of_corridors(), instances_over_31(), longer_data(), both_layouts(), boundaries_of_every_order(),
                 refused_claims(), refused_records(), torn_records(), parts_in_use(), nothing_moves(), prefixes(), years_in_seasons(),
                 longest_years(), name_of_not_rising()]:
        yield from part


# W-213: the seasons of a capture that comes part by part. What is asked at the end is asked of all parts put together, so most of these
# cases cut one capture in many ways, and ask behind every part.

END = "seasons_end"
PART_MOST = 1361  # the bytes of the longest part that a line holds


def begin(target, boundaries=RISING, mac=MAC, instance=INSTANCE):
    return seasons(target, boundaries, mac, instance).replace("seasons", "seasons_begin", 1)


def part(run):
    return call("seasons_part", run)


def came(width, parts, boundaries=RISING):
    """The corridor's seasons begun anew, and each part, the seasons asked for behind it."""
    yield begin(corridor_target(width), boundaries)
    for run in parts:
        yield from [part(run), END]


def mixed_records(width):
    """Few records that leave no season as another: three occupied events with two gaps, a press, a hold, and one of another type."""
    kinds = [(999, OCCUPIED), (1000, OCCUPIED), (1000, PRESS), (1700, OCCUPIED), (2000, 3), (3000, HOLD)]
    return [happened(width, seconds, type_) for seconds, type_ in kinds]


def pieces(run, size):
    """The run in parts of this size; the last may be shorter."""
    return [run[at:at + size] for at in range(0, len(run), size)]


def before_the_first_begin():
    """As begun with 23 bytes 00: boundaries that do not rise. This has to stand before every other call of the three."""
    yield from [END, part(b""), END, part(b"\x01"), END]
    ours = record(0, event(0, OCCUPIED, bytes(1), 3, bytes(6)))
    yield from [part(ours), END, part(ours[:7]), END, part(ours[7:]), END, "capture_show"]
    # and 23 bytes 00 handed in
    yield from [begin(0, (0, 0, 0), bytes(6), 0), END, part(b"\x01" + ours), END, begin(0, (0, 1, 2), bytes(6), 0), part(b"\x01" + ours), END]


def cut_everywhere():
    """A small capture in two parts, cut at every place; asked for behind both."""
    for version, width in VERSIONS:
        run = bytes([version]) + b"".join(mixed_records(width)[1:4])
        for place in range(len(run) + 1):
            yield from came(width, [run[:place], run[place:]], (1000, 1700, 1701) if place % 2 else RISING)


def single_bytes():
    """One byte each, and two, three and more, with empty parts between them."""
    for version, width in VERSIONS:
        yield from came(width, pieces(bytes([version]) + b"".join(mixed_records(width)[1:4]), 1))
        run = bytes([version]) + b"".join(mixed_records(width))
        for size in [2, 21, 64] if version == 1 else [5, 20, 22]:
            yield from came(width, [given for piece in pieces(run, size) for given in ([b"", piece] if size % 2 else [piece])])
        # not asked for before the end, and then twice
        yield begin(corridor_target(width))
        yield from [part(piece) for piece in pieces(run, 4)] + [END, END, part(b""), END]


def record_by_record():
    """Parts that end with each record; a gap from one part to the next, with a neighbour's part between; seasons that change there."""
    for version, width in VERSIONS:
        front = bytes([version])
        times = [0, 999, 1000, 1001, 1999, 1999, 2000, 2999, 3000, COUNT_MOST]
        for type_ in COUNTED:
            yield from came(width, [front] + [happened(width, seconds, type_) for seconds in times])
        strange = [happened(width, seconds, mac=MAC[::-1]) for seconds in times]
        turns = [run for ours, theirs in zip(occupied_at(width, times), strange) for run in [ours, theirs]]
        yield from came(width, [front] + turns)
        yield from came(width, [front + turns[0]] + [before[9:] + behind[:9] for before, behind in zip(turns, turns[1:])])
        # the longest gap in each of the parts
        for gaps in [[9, 5, 1], [5, 9, 1], [1, 5, 9], [9, 9, 0]]:
            sums = [1100 + sum(gaps[:count]) for count in range(4)]
            yield from came(width, [front] + occupied_at(width, sums))


def parts_of_no_capture():
    """No byte at all; unknown versions, with good bytes behind them; boundaries that do not rise stand behind both."""
    for order in ORDERS:
        yield from [begin(corridor_target(3), order), END, part(b""), END, part(b""), END]
        yield from [part([3, 0, 255, 0x5A][order[0] // 10 - 1:][:1]), END]
    for version in UNKNOWN_VERSIONS:
        for good, width in VERSIONS:
            run = bytes([good]) + b"".join(occupied_at(width, [12, 15]))
            yield from came(width, [b"", bytes([version]), run[1:], run])
            yield from came(width, [bytes([version]) + run])


def parts_of_every_order():
    """Boundaries that do not rise, over parts that are good, cut short and good again, and bad."""
    for number, order in enumerate(ORDERS):
        version, width = VERSIONS[number % 2]
        run = bytes([version]) + b"".join(occupied_at(width, [9, 10, 20, 30]))
        yield from came(width, [run[:1], run[1:30], run[30:], run[1:]], order)


def bad_parts():
    """Each bad record at the end of the first part, in a part of its own, and cut itself; then good bytes: what was bad stays so."""
    for version, width in VERSIONS:
        good = occupied_at(width, [12, 15])
        front = bytes([version]) + good[0]
        behind = good[1] * 4
        bads = list(bad_records(width, 12, 12)) + [replaced(good[0], len(good[0]) - 1, good[0][-1] ^ 0x01), happened(width, 12, data=b"")]
        for number, bad in enumerate(bads):
            order = ORDERS[0] if number % 4 else ORDERS[1 + number % 12]
            yield from came(width, [bytes([version]) + bad, behind], order)
            yield from came(width, [front, bad, behind], order)
            middle = 1 + number % max(1, len(bad) - 1)
            yield from came(width, [front + bad[:middle], bad[middle:] + behind], order)


def lengths_of_records():
    """Every length about the least and the longest record, and great ones; few bytes behind it, and more than it counts."""
    for version, width in VERSIONS:
        longest = 4 + 11 + width + 48
        front = bytes([version]) + happened(width, 5)
        whole = happened(width, 7, data=bytes([INSTANCE]) + pattern(47))
        for length in [0, 1, 2, 3, 4, 5, 11 + width, 14 + width, 15 + width, longest - 1, longest, longest + 1, longest + 2, 255, 256, 0x4200, 32768, 65535]:
            given = wide(length, 2) + whole[2:]
            yield from came(width, [front + given[:2], given[2:] + b"\x00", whole * 3])
        # as long as they say: a datagram with a byte more, and one of 49 data bytes
        for datagram in [whole[6:] + b"\x00", event(corridor_target(width), OCCUPIED, bytes([INSTANCE]) + pattern(48), width), bytes(300)]:
            yield from came(width, [front, record(7, datagram), whole])


def longest_records():
    """The longest record of each layout, cut at every place near its ends, and asked for at the cut."""
    for version, width in VERSIONS:
        front = bytes([version]) + happened(width, 1000)
        whole = happened(width, 1007, data=bytes([INSTANCE]) + pattern(47))
        for place in list(range(9)) + [20, 40] + list(range(len(whole) - 4, len(whole))):
            yield from came(width, [front + whole[:place], whole[place:], happened(width, 1010)])
        yield from came(width, [front + whole[:-9]] + pieces(whole[-9:] + whole[:9], 1) + [whole[9:]])
        yield from came(width, [bytes([version]), whole[:-1], whole[-1:] + whole[:-1], whole[-1:]])


def times_between_parts():
    """Seconds that fall, stay and rise from one part to the next, and in one part; cut inside the seconds too."""
    pairs = [(100, 99), (100, 100), (100, 101), (0, 0), (1, 0), (256, 255), (255, 256), (65536, 65535), (COUNT_MOST, COUNT_MOST),
             (COUNT_MOST, COUNT_MOST - 1), (COUNT_MOST, 0), (2 ** 31, 2 ** 31 - 1), (2 ** 31 - 1, 2 ** 31), (1000, 1000), (1000, 999)]
    for number, (first, second) in enumerate(pairs):
        version, width = VERSIONS[number % 2]
        runs = [happened(width, first), happened(width, second), happened(width, COUNT_MOST, HOLD)]
        yield from came(width, [bytes([version]) + runs[0], runs[1], runs[2]])
        yield from came(width, [bytes([version]) + runs[0] + runs[1][:4], runs[1][4:] + runs[2]])
        # a neighbour's time counts too
        strange = happened(width, first, 3, MAC[::-1], 1, b"")
        yield from came(width, [bytes([version]) + strange, runs[1]])


def begun_anew():
    """Begun anew inside a record, behind a bad one, behind another version, behind good ones; other corridors, boundaries and layouts."""
    for number in range(2):
        (version, width), (other, other_width) = VERSIONS[number], VERSIONS[1 - number]
        target = corridor_target(width)
        run = bytes([version]) + b"".join(mixed_records(width))
        otherwise = bytes([other]) + b"".join(mixed_records(other_width))
        for before in [b"", b"\x03", run[:1], run[:30], run[:-1], run, run + run, otherwise, otherwise[:1], otherwise[:50], b"\x01\x00\x00"]:
            yield from [begin(target, (5, 4, 3)), part(before), begin(target), END, part(run), END]
            yield from [begin(target), part(before), END, begin(target, (999, 1000, 1700)), part(run[:40]), part(run[40:]), END]
        yield from [begin(target), begin(target), part(run), begin(target), begin(target + 1), part(run), END]
        # the part behind is a record of the one before
        yield from [begin(target), part(run[:1]), begin(target), part(run[1:]), END, begin(target), part(run), part(run[1:]), END]


def corridors_of_parts():
    """Neighbours, targets too large for the layout, and instances over 31: the same parts for each."""
    for version, width in VERSIONS:
        target = corridor_target(width)
        carried = [INSTANCE, 31, 32, 37, 64, 133, 255]
        run = bytes([version]) + b"".join(happened(width, 1000 + 100 * number + place, type_, data=bytes([instance]))
                                          for number, type_ in enumerate([6, 0, 6, 1]) for place, instance in enumerate(carried))
        asked_for = [(MAC, target, instance) for instance in carried + [0, 69]] + list(neighbours(width))[::3]
        asked_for += [(MAC, target + 256 ** width, INSTANCE), (MAC, target + 2 ** 31, INSTANCE), (MAC, 2 ** 32 - 1, INSTANCE)]
        for mac, other, instance in asked_for:
            yield begin(other, RISING, mac, instance)
            yield from [part(run[:100]), part(run[100:101]), part(run[101:]), END]
        crowd = [happened(width, 1010 + place, [6, 0, 1][place % 3], mac, other, bytes([instance]))
                 for place, (mac, other, instance) in enumerate(neighbours(width))]
        yield from came(width, [bytes([version]) + happened(width, 1000)] + crowd[::2] + [happened(width, 1100)])


def captures_beside_parts():
    """Parts between the calls on the carried capture, of another layout, and those calls between parts: neither touches the other."""
    for number, (way, run_way) in enumerate(zip(APPENDS, RUNS)):
        (version, width), (other, other_width) = VERSIONS[number], VERSIONS[1 - number]
        target, other_target = corridor_target(width), corridor_target(other_width)
        run = bytes([version]) + b"".join(mixed_records(width))
        parts = pieces(run, 17)
        yield from fresh_capture(other, 200) + [begin(target)]
        for place, piece in enumerate(parts):
            yield from [part(piece), way(990 + 40 * place, event(other_target, [6, 0, 1][place % 3], bytes([INSTANCE]), other_width))]
            yield from [END, seasons(other_target), "capture_show"]
        yield from [run_way(3000, led([event(other_target, 6, bytes([INSTANCE]), other_width)] * 2)), END, seasons(other_target)]
        # handed in, emptied, opened, counted and cut back between parts; seasons of other boundaries asked of it
        yield from [begin(target, (999, 1000, 2000)), part(run[:33]), capture_set(len(run), run), seasons(target), part(run[33:70])]
        yield from ["capture_open", "capture_count", part(run[70:]), capture_set(40, run), "capture_prefix", END, seasons(target), "capture_show"]
        yield from [part(b"\x00"), END, seasons(target), "capture_show", capture_empty(other), END, seasons(target, (3, 2, 1)), "capture_show"]
        yield from [begin(target, (3, 2, 1)), seasons(target), END, part(run), seasons(target), END, "capture_show"]
        # no buffer, and one that claims too much, are the capture's affair
        yield from [capture_set(0, b""), END, capture_set(USE_MOST, run), begin(target), part(run), END, seasons(target), "capture_show"]


def years_in_parts():
    """Years by chance, cut by chance; some damaged. Asked for at the end, and of some behind every part."""
    chance = Chance(14)
    for number in range(40):
        version, width = VERSIONS[number % 2]
        year = list(some_year(chance, width, 8 + chance.below(30)))
        run = bytes([version]) + b"".join(year_records(width, year))
        if chance.one_in(4):
            run = damaged_run(chance, run)
        mac, target, instance = (MAC, corridor_target(width), INSTANCE) if chance.below(3) else some_corridor(chance, year)
        yield begin(target, some_boundaries(chance, year), mac, instance)
        for piece in cut(run, chance) + cut(b"", chance):
            yield part(piece)
            if number % 3 == 0:
                yield END
        yield END


def long_captures():
    """Captures longer than any buffer here: parts as long as a line holds, and of odd sizes; then a record more, and one cut short."""
    for version, width in VERSIONS:
        target = corridor_target(width)
        kinds = [6, 7, 0, 6, 3, 1, 6, 6, 2, 0]
        records = [happened(width, 30 * place + place % 7, kinds[place % 10], target=target ^ (place % 4 == 3)) for place in range(140)]
        run = bytes([version]) + b"".join(records)
        for size in [PART_MOST, 1000, 257]:
            yield begin(target)
            yield from [part(piece) for piece in pieces(run, size)]
            yield from [END, part(happened(width, 4300)), END, part(happened(width, 4300)[:-1]), END]
        yield from came(width, pieces(run, 700), (900, 2100, 4000))


def seasons_in_parts():
    for kind in [before_the_first_begin(), cut_everywhere(), single_bytes(), record_by_record(), parts_of_no_capture(), parts_of_every_order(),
                 bad_parts(), lengths_of_records(), longest_records(), times_between_parts(), begun_anew(), corridors_of_parts(),
                 captures_beside_parts(), years_in_parts(), long_captures()]:
        yield from kind


# Lines that are no call

def filled(line, size):
    """The line, with blanks behind it up to the size."""
    return line + " " * (size - len(line))


# About the longest line: calls, lines that are none, and lines without a word.
LONG_LINES = [
    " " * 4095, " " * 4096, " " * 9000,
    filled("sum 01 02", 4095), filled("sum 01 02", 4096), filled("sum 01 02", 4097), filled("sum 01 02", 8192),
    "sum" + " 01" * 1364, "sum" + " 01" * 1365, "sum" + " 01" * 3000,
    " " * 4086 + "sum 01 02", " " * 4087 + "sum 01 02",
    filled("nothing", 4095), filled("nothing", 4096), filled("sum 0", 4095), filled("sum 0", 4096),
    "x" * 4095, "x" * 4096, "frame" + " 11" * 700 + " / / " + "22 " * 660, "reply" + " A0" * 1363,
    "feed_reply" + " 00" * 1361, "close_reply",
    filled("capture_run 00 00 00 07 /" + " 00" * 1356, 4095), filled("capture_run 00 00 00 07 /" + " 00" * 1356, 4096),
    filled("capture_run_at 00 00 00 07 /" + " 00" * 1355, 4096),
    filled("seasons" + " 00" * 23, 4095), filled("seasons" + " 00" * 23, 4096),
    filled("seasons_begin" + " 00" * 23, 4095), "seasons_part 01", filled("seasons_begin" + " 00" * 23, 4096), filled(END, 4095), filled(END, 4096), END,
    filled("seasons_part" + " 00" * 1362, 4097), END, filled("seasons_part" + " 00" * 1361, 4096), END, "seasons_part" + " 00" * 1361, END,
]

# By the rows of the table, from its first.
NO_CALLS = [
    "", " ", "    ",

    "nothing", "Request", "REQUEST 04", "request\r", "\r", "\t", "/", "/ 01", "04", "sum: 01", "sum/ 01", "feed_",
    "feed", "feed_line 01", "fresh", "close_event", "settle", "requests", "reques", "\x00", "\xFF\xFE",
    "nothing zz / /",

    "request 4", "request 004", "request 0G", "request G0", "request 0x04", "request 04,00", "request 04/",
    "request /04", "request // 01", "request 04 00 \r", "sum 01\r", "sum 01\t02", "sum \t", "sum +1", "sum -1",
    "sum 1_", "sum 0\x00", "sum \xFF\xFF", "sum \xB2\xB3", "known zz zz", "known / zz", "frame zz", "frame // /",
    "book_fresh zz", "sum 01 02 03 0",

    "request /", "request 04 / 00", "known /", "known / /", "known 01 / 02", "frame", "frame 01", "frame 01 / 02",
    "frame / / /", "write_basic 00 01 00 00 00 00", "write_basic 00 01 00 00 00 00 / 00 / 00", "write_basic",
    "write_reply A0 00 / 00", "write_event / /  / ", "filter 00 00 00 00 00 00 00 00", "book_fresh /",
    "book_show / 01", "book_set 00", "book_set", "fresh_reply /", "hold_reply 00 00 00 00 00 00 00 00",
    "close_request /", "feed_reply /", "show_request /", "settle_reply / 01",

    "known", "known 01 02", "shape", "fits 01 00 00 00", "fits 01 00 00 00 00 00", "error_name 01 02", "event_type",
    "group_target 01 02", "lights", "status 00 00", "device", "device_number 40 41", "high_first 01",
    "high_first 01 02 03", "count_types", "lowest_type 01 02 03", "count_gear 00 00 00 00 00 00 00",
    "lowest_gear 00 00 00 00 00 00 00 00 00", "filter / 00", "filter 00 / 00",
    "filter 00 00 00 00 00 00 00 00 00 / 00", "write_basic /", "write_basic 00 01 00 00 00 /",
    "write_basic 00 01 00 00 00 00 00 / 00", "write_unicast 00 22 6B C0 A8 0A / 00", "write_reply A0 / / 00",
    "write_reply A0 00 00 / / 00", "write_event 00 00 00 00 00 00 00 00 00 00 / / 00", "ask", "ask 01 01 00 00 00 07", "answer",
    "answer 00 00", "book_fresh 00", "book_show 00", "book_set / 01 / 00 00 00 07",
    "book_set 00 00 / 01 /", "book_set 00 /" + " 01" * 257 + " / 00 00 00 07", "fresh_request 00", "close_reply 00", "show_reply 00", "hold_reply 00 / 01",
    "hold_reply / 01", "hold_reply 00 00 00 00 00 00 00 01 /" + " A0" * 68,
    "hold_request 00 00 00 00 00 00 00 01 /" + " 04" * 68,
    "event_two /", "event_two_data 00 / 00", "write_event_two 00 00 00 00 00 00 00 00 00 00 / / 00",
    "write_event_two 00 00 00 00 00 00 00 00 00 00 00 /", "relay_event_two 00", "event_two_two", "event_twodata", "event_three",
    "capture", "capture_", "capture_shows", "Capture_show", "captureshow", "summary", "summary_show", "mark", "mark_show",
    "capture_show zz", "capture_set 0", "capture_append 00 00 00 0 /",
    "capture_set", "capture_set" + " 00" * 8, "capture_set" + " 00" * 8 + " / 01 / 01", "summary_set /", "summary_set / /",
    "summary_set" + " 00" * 54 + " /", "mark_set /", "mark_set" + " 00" * 8 + " / 00 00 00 00 00", "capture_empty /",
    "capture_empty 01 / 00", "capture_append", "capture_append 00 00 00 01", "capture_append 00 00 00 01 / 5A / 43",
    "capture_append_at", "capture_append_at 00 00 00 01", "capture_append_at / /", "capture_open /", "capture_count /",
    "capture_prefix / 01", "capture_record" + " 00" * 8 + " /", "capture_show /",
    "capture_set /", "capture_set / 01", "capture_set" + " 00" * 7 + " / 01", "capture_set" + " 00" * 9 + " / 01",
    "capture_set" + " 00" * 8 + " /" + " 01" * 1301, "capture_set" + " 00" * 8 + " /" + " 01" * 1352,
    "capture_set" + " 00" * 8 + " /" + " 01" * 1353, "summary_set", "summary_set" + " 01" * 57, "summary_set" + " 01" * 59,
    "mark_set", "mark_set" + " 01" * 12, "mark_set" + " 01" * 14, "capture_empty", "capture_empty 01 02",
    "capture_append /", "capture_append 00 00 01 / 5A", "capture_append 00 00 00 00 01 /", "capture_append_at / 5A",
    "capture_append_at 00 00 01 / 5A", "capture_append_at 00 00 00 00 01 /", "capture_open 00", "capture_count 00",
    "capture_prefix 01", "capture_record", "capture_record" + " 00" * 7, "capture_record" + " 00" * 9, "capture_show 00",
    "capture_ru", "capture_run_", "capture_runs", "Capture_run", "capture_run_at_", "capture_runat", "append_run", "run",
    "capture_run 00 00 00 0 /", "capture_run 00 00 00 07 / 00 0", "capture_run_at 00 00 00 07 / 000E",
    "capture_run", "capture_run 00 00 00 01", "capture_run 00 00 00 01 / 00 00 / 00 00", "capture_run / /",
    "capture_run_at", "capture_run_at 00 00 00 01", "capture_run_at 00 00 00 01 / 00 00 / 00 00", "capture_run_at / /",
    "capture_run /", "capture_run / 00 00", "capture_run 00 00 01 / 00 00", "capture_run 00 00 00 00 01 /",
    "capture_run_at /", "capture_run_at / 00 00", "capture_run_at 00 00 01 / 00 00", "capture_run_at 00 00 00 00 01 /",
    "season", "Seasons", "SEASONS" + " 00" * 23, "seasonss", "capture_seasons", "seasons_", "four_seasons",
    "seasons" + " 00" * 22 + " 0", "seasons" + " 00" * 22 + " zz", "seasons 7C:BA:CC:2F:40:2E",
    "seasons /", "seasons" + " 00" * 23 + " /", "seasons" + " 00" * 11 + " /" + " 00" * 12, "seasons" + " 00" * 23 + " /" + " 00" * 23,
    "seasons", "seasons 00", "seasons" + " 00" * 11, "seasons" + " 00" * 22, "seasons" + " 00" * 24, "seasons" + " 00" * 46,
    "seasons_begi", "seasons_begins", "Seasons_begin" + " 00" * 23, "seasons_parts", "season_part", "seasons_ends", "seasons_en", "begin", "part", "end",
    "seasonsbegin", "seasons_part_", "seasons_begin" + " 00" * 22 + " 0", "seasons_part 1", "seasons_part 001", "seasons_part 01 zz", "seasons_end zz",
    "seasons_begin /", "seasons_begin" + " 00" * 23 + " /", "seasons_begin" + " 00" * 11 + " /" + " 00" * 12, "seasons_part /", "seasons_part 03 /",
    "seasons_part / 03", "seasons_part 03 / 03", "seasons_end /", "seasons_end / 00",
    "seasons_begin", "seasons_begin 00", "seasons_begin" + " 00" * 22, "seasons_begin" + " 00" * 24, "seasons_begin" + " 00" * 46, "seasons_end 00",
    "seasons_end" + " 00" * 23,
    "help 00", "help /", "help zz", "Help", "helps", "name 01 01", "name 01 / 00", "name 01 01 01 / 00",
]

# Calls with several blanks and small letters.
CALLS_SET_OTHERWISE = [
    "   sum   01    02  ", "sum aa Bb cC", "request 04 00 01 0a 00 00 00 0f", "  frame  01  /  02  /  03  04  05  ",
    "frame  /  /  ", " frame / / 00", "hold_reply 00 00 00 00 00 00 00 03 / a0 00 00", " show_reply", "book_set 07 / /",
    " book_show ", "book_set 07 /" + " a9" * 256 + " / 0a bB  Cc 0d", "ask a9 0a  bB Cc 0d", "book_fresh   ",
    " capture_set  00 00 00 00 00 00 00 01  /  01  0a ff  ", "  capture_show  ", "capture_open   ", "capture_set 00 00 00 00 00 00 00 00 /",
    "capture_empty  02", "capture_append 00 00 00 07 /", "capture_set 00 00 00 00 00 00 00 01 /" + " 02" * 1300, " capture_empty 01 ",
    "capture_append_at 00 00 00 07 / 5a 43 7c ba cc 2f 40 2e 00 00 3b 03 00 6a", "capture_prefix", "capture_record 00 00 00 00 00 00 00 01",
    "  capture_run  00 00 00 07  /  00 0e  5a 43 7c ba cc 2f 40 2e 00 00 3b 03 00 6a  00 00 ", "capture_run 00 00 00 07 /", "capture_open",
    " capture_run_at  00 00 00 08 / 00 0e 5a 43 7C bA Cc 2f 40 2e 00 00 3b 03 00 6A", "capture_run_at 00 00 00 07 / ", "capture_show",
    "  seasons  7c ba cc 2f 40 2e  00 00 00 3b  05  00 00 00 07  00 00 00 08  00 00 00 0a  ",
    " seasons 7C bA Cc 2f 40 2e 00 00 00 3b 05 00 00 00 0a 00 00 00 0A 00 00 00 0b",
    "  seasons_begin  7c ba Cc 2F 40 2e  00 00 00 3b  05  00 00 00 07  00 00 00 08  00 00 00 0a  ", " seasons_end ", "seasons_part  ",
    "  seasons_part  01  00 13 00 00 00 07 5a 43 7C ba CC 2f 40 2E  00 00 3b 06 01 05 6b ", "seasons_part 00", " seasons_part 13 00 00 00 07 5A 43 ",
    "seasons_end", "seasons_part 7c ba cc 2f 40 2e 00 00 3b 06 01 05 6b", "  seasons_end  ",
]

# What the run carries, set before the lines that are no call and shown behind them.
CARRIED = ["fresh_request", "fresh_reply", "feed_request 04 00", "feed_reply A1 00 02", "book_fresh", "ask 40 01 02 03 04",
           capture_set(0, pattern(30)), SOME_SUMMARY, capture_empty(1), append_at(7, event(59, 3, b"")), append(7, b""),
           begin(59), part(b"\x01" + happened(3, 7, target=59) + happened(3, 1007, target=59)[:9])]
CARRIED_SHOWN = ["show_request", "show_reply", "book_show", "capture_show", part(happened(3, 1007, target=59)[9:]), END]


def no_calls():
    yield from LONG_LINES + CARRIED + NO_CALLS + CARRIED_SHOWN + CALLS_SET_OTHERWISE
    yield "sum 04 00 01 0A 00 00 00 0F"


# W-202: colour requests

# The colour types by name, with some colour data of each: no two bytes alike.
COLOURS = [("xy", 0x10, bytes([0x12, 0x34, 0x56, 0x78])), ("tc", 0x20, bytes([0x01, 0x72])),
           ("rgbwaf", 0x80, bytes([0xFF, 0x81, 0x42, 0x23, 0x14, 0x05]))]
COLOUR_FRAMES = [colour(type_, data) for _, type_, data in COLOURS]

LISTED_TYPES = [0x10, 0x20, 0x80]
UNLISTED_TYPES = [0x00, 0x01, 0x0F, 0x11, 0x7F, 0x81, 0xFF]

# Both sides of every edge of the lighting targets.
COLOUR_ADDRESSES = [0, 63, 64, 79, 80, 81, 126, 127, 128, 254, 255]

# The example of source 002, line 2462: the type 00 is none of its list.
PRINTED_COLOUR = bytes([0x04, 0x00, 0x0E, 0x01, 0xFE, 0x00, 0xFF, 0x00, 0x00, 0x00, 0x00, 0x00, 0x0A])


def spoilt(frame):
    """The frame with a wrong sum."""
    return replaced(frame, len(frame) - 1, frame[-1] ^ 0x55)


def write_colour(name, data, buffer, sequence=0, address=1, level=254):
    return call("write_colour_" + name, bytes([sequence, address, level]) + data, buffer)


def of_size(type_, size):
    """A datagram of so many bytes that is as far a colour request of the type as they go, its sum right."""
    return summed((bytes([0x04, 0x00, 0x0E, 0x01, 0xFE, type_]) + pattern(9))[:size - 1])


# Datagrams

def printed_colour():
    """The printed example, with another type, and with the sum that belongs to it."""
    for type_ in [0x00] + LISTED_TYPES:
        frame = replaced(PRINTED_COLOUR, 5, type_)
        for datagram in [frame, resummed(frame)]:
            yield from [call("request", datagram), call("settle_request", datagram), call("relay_request", datagram, pattern(13))]


def colour_sizes():
    """Each type in datagrams of every size to 15, the sum right and wrong; below 7 as far as the bytes go."""
    for _, type_, _ in COLOURS:
        for size in range(7):
            yield call("request", of_size(type_, 7)[:size])
        for size in range(7, 16):
            yield call("request", of_size(type_, size))
            yield call("request", spoilt(of_size(type_, size)))


def colour_bytes():
    """Each byte of a frame of each type changed, with the sum as it was and put right."""
    for frame in COLOUR_FRAMES:
        for datagram in byte_changes(frame, range(len(frame))):
            yield call("request", datagram)


def colour_types():
    """Every colour type in datagrams of 8 bytes and of each type's own size."""
    for type_ in range(256):
        for size in [8, 9, 11, 13]:
            yield call("request", of_size(type_, size))


def colour_addresses():
    """Every address with one of the types; those about the edges with each: as datagrams, in writing, relayed and on the line."""
    for address in range(256):
        _, type_, data = COLOURS[address % 3]
        yield call("request", colour(type_, data, 0, address))
    for address in COLOUR_ADDRESSES:
        for name, type_, data in COLOURS:
            frame = colour(type_, data, 7, address, 128)
            yield from [call("request", frame), call("request", spoilt(frame)), call("request", resummed(frame[:-1]))]
            yield call("settle_request", frame)
            for size in [len(frame) - 1, len(frame)]:
                yield write_colour(name, data, pattern(size), 7, address, 128)
            yield call("relay_request", frame, pattern(len(frame) + 1))


def colour_faults():
    """Lead, command, type and address wrong in every choice, the sum right or not, in sizes too short, of another type and its own."""
    for frame in COLOUR_FRAMES:
        for datagram in faulty(frame, [(0, 0x05), (2, 0x0F), (5, 0x00), (3, 80)]):
            for size in sorted(set([7, 8, 9, len(frame)])):
                yield call("request", datagram[:size])
            yield call("request", spoilt(datagram))
            yield call("relay_request", datagram, pattern(len(frame) - 1))


WIDE_VALUES = [0, 1, 255, 256, 370, 0x7201, 32767, 32768, 65534, 65535]


def colour_values():
    """Colour data whose bytes and numbers are told apart: X from Y, the high byte from the low one, each channel from the others; and the ends."""
    for x in [0, 1, 256, 65535]:
        for y in [0, 1, 256, 65535]:
            yield "xy", wide(x, 2) + wide(y, 2)
    for value in WIDE_VALUES:
        yield "tc", wide(value, 2)
        yield "xy", wide(value, 2) + wide(65535 - value, 2)
    for place in range(6):
        yield "rgbwaf", replaced(bytes(6), place, 255)
        yield "rgbwaf", replaced(b"\xFF" * 6, place, place + 1)
    for size in [0, 1, 255]:
        yield "rgbwaf", bytes([size] * 6)


def colours_read_and_written():
    """These values, levels and sequence numbers, read and written; and relays into buffers of every size about the frame's."""
    types = {name: type_ for name, type_, _ in COLOURS}
    for number, (name, data) in enumerate(colour_values()):
        frame = colour(types[name], data, number, [0, 79, 127, 255][number % 4], 37 * number % 256)
        yield call("request", frame)
        yield write_colour(name, data, pattern(len(frame)), frame[1], frame[3], frame[4])
    for value in [0, 1, 4, 14, 127, 128, 254, 255]:
        for name, type_, data in COLOURS:
            for sequence, level in [(value, 0), (0, value)]:
                yield call("request", colour(type_, data, sequence, 64, level))
                yield write_colour(name, data, pattern(13), sequence, 64, level)
    for frame in COLOUR_FRAMES:
        for size in [0, 1, len(frame) - 1, len(frame), len(frame) + 1, len(frame) + 5]:
            yield call("relay_request", frame, pattern(size))


def colours_into_buffers():
    """Buffers of every size to some beyond the frame, the address good and not; and 0E handed to the writer of basic requests."""
    for name, type_, data in COLOURS:
        for address in [1, 80]:
            for size in list(range(len(colour(type_, data)) + 3)) + [40]:
                yield write_colour(name, data, pattern(size), 0, address)
    for arguments in [bytes(4), bytes([1, 254, 0x10, 0]), bytes([1, 254, 0x20, 1]), bytes([80, 254, 0x80, 0]), bytes([255, 0, 0, 255])]:
        for command in [0x0D, 0x0E, 0x0F]:
            for size in [0, 7, 8, 13]:
                yield call("write_basic", bytes([9, command]) + arguments, pattern(size))


def colour_command():
    """0E between its neighbours, which are unknown, and the types as commands: of the three, 20 is one."""
    for command in [0x0C, 0x0D, 0x0E, 0x0F] + LISTED_TYPES:
        yield from [call("known", [command]), call("shape", [command]), call("name", [1, command], pattern(12))]
        for arguments in [bytes(4), bytes([1, 254, 0x10, 0]), bytes([80, 0, 0, 0]), bytes([64, 0, 0, 31]), b"\xFF" * 4]:
            yield call("fits", bytes([command]) + arguments)
    for size in [0, 10, 11]:
        yield call("name", [1, 0x0E], pattern(size))
    yield "help"


def colour_books():
    """0E asked and answered, in fresh books, full ones and books handed in; its neighbours are nothing held."""
    yield from ["book_fresh", ask(0x0E), "book_show", answered(0), answered(0), ask(0x0D), ask(0x0F), ask(0x0E), ask(0x40), ask(0x0E), "book_show"]
    yield from [answered(1), answered(2), answered(3), answered(3), "book_show"]
    for last in [0, 127, 255]:
        full = bytes([0x0E] * 256)
        yield from [book_set(last, full), ask(0x0E), ask(0x01), ask(0x0D), ask(0x0F), answered(last), ask(0x0E), answered(9), ask(0x0E), "book_show"]
        for nothing in [0x0D, 0x0E, 0x0F]:
            for free in [last, (last + 1) % 256]:
                yield from [book_set(last, replaced(full, free, nothing)), ask(0x0E), answered(free), ask(0x09), answered(free)]
        yield from [book_set(last, bytes([0x0D, 0x0E, 0x0F, 0x0E])), "book_show"]
        yield from [answered(number) for number in range(4)] + [ask(0x0E), ask(0x0E), ask(0x0E), "book_show"]


def colours():
    TICKS.begin()
    for part in [printed_colour(), colour_sizes(), colour_bytes(), colour_types(), colour_addresses(), colour_faults(), colours_read_and_written(),
                 colours_into_buffers(), colour_command(), colour_books()]:
        yield from part


# Lines

def single(run):
    """The run byte by byte."""
    return [run[place:place + 1] for place in range(len(run))]


def request_line(parts):
    """A request line, fed part by part as its reader takes the bytes, and then closed."""
    return fed_and_closed("request", parts, opinion.Reader)


def cut_colour_lines():
    """A frame of each type alone, and one between noise that begins like a colour request: in any two parts, and byte by byte."""
    for number, (_, type_, data) in enumerate(COLOURS):
        # a 04 in front makes the sequence number the command, and the level the colour type: a listed one for the first and the last
        trap = bytes([0xFF, 0x04]) + colour(type_, data, 0x0E, 79, [0x20, 0x21, 0x10][number]) + bytes([0x04, 0x00])
        for stream in [colour(type_, data, 3, 255, 0), trap]:
            for place in range(len(stream) + 1):
                yield from request_line([stream[:place], stream[place:]])
            yield from request_line(single(stream))


def targets_on_colour_lines():
    """The addresses about the edges, with each type, one behind the other; then a good basic request, which shows where reading goes on."""
    for address in COLOUR_ADDRESSES:
        frames = [colour(type_, data, 1, address, 4) for _, type_, data in COLOURS]
        yield from request_line([b"".join(frames) + basic(2, 0x09, [0, 0, 0, 0])])


def unlisted_types_on_lines():
    """Types of no list: settled by the sixth byte, one byte long; a good frame behind it, or from the sixth byte on, is not lost."""
    good = basic(5, 0x09, [0, 0, 0, 0])
    for type_ in UNLISTED_TYPES:
        head = bytes([0x04, 0x00, 0x0E, 0x01, 0xFE, type_])
        for size in range(5, 8):
            yield call("settle_request", (head + good)[:size])
        yield from request_line([head + good])
    for type_ in [0x00, 0x7F]:
        yield from request_line(single(bytes([0x04, 0x00, 0x0E, 0x01, 0xFE, type_]) + good))
    yield from request_line([bytes([0x04, 0x00, 0x0E, 0x01, 0xFE]) + good])
    yield from request_line(single(bytes([0x04, 0x00, 0x0E, 0x01, 0xFE]) + good))
    for frame in [PRINTED_COLOUR, resummed(replaced(PRINTED_COLOUR, 5, 0x80))]:
        yield from request_line([basic(1, 0x0B, [0, 0, 0, 0]) + frame + good])


def frames_inside():
    """Wrong sums around good frames: behind the colour type; and from the address on, where the level is a sequence number and the type a command."""
    inner = [basic(5, 0xA9, [79, 0, 0, 0]), unicast(6, bytes([0x22, 0x6B, 0x04, 0x00, 0x0E, 0x01])), colour(0x20, bytes([1, 0x72]), 7)]
    for _, type_, _ in COLOURS:
        for frame in inner:
            yield from request_line([bytes([0x04, 0x00, 0x0E, 0x02, 0xFD, type_]) + frame])
    for level in [0, 0x0E]:
        stream = bytes([0x04, 0x00, 0x0E]) + basic(level, 0x20, [0, 1, 2, 3]) + bytes([0x04])
        yield from request_line([stream])
        yield from request_line(single(stream))
    # the same with a right sum around it: the outer frame stands
    around = basic(7, 0x20, [0, 1, 0, 0])
    yield from request_line([summed(bytes([0x04, 0x00, 0x0E]) + around[:5]) + around])
    # frames of one type whose bytes are right for another: the type alone says how long they are
    for _, type_, _ in COLOURS:
        for size in [9, 11, 13]:
            yield from request_line([of_size(type_, size) + basic(5, 0x09, [0, 0, 0, 0])])


def closed_colour_lines():
    """A frame of each type closed at every length, and what stands at each, open and closed."""
    for frame in COLOUR_FRAMES:
        for size in range(len(frame) + 1):
            yield from request_line([frame[:size]])
            for flag in [0, 1]:
                yield call("item_request", [flag], frame[:size])
            yield call("settle_request", frame[:size])
        # closed once and fed on from what is still held
        reader = opinion.Reader("request")
        yield "fresh_request"
        yield from fed(reader, frame[:6])
        for part in [frame, frame[:7], frame]:
            yield "close_request"
            reader.close()
            yield from fed(reader, part)
        yield from closed(reader)


# What a reader of the request line may hold since W-202, in 14 bytes each: a good frame of each type and the beginning of another, a type of no
# list, a wrong sum around a good frame, one around the beginning of another, an address that is none, and a longer frame that has begun.
COLOUR_STORES = [
    colour(0x10, bytes([1, 2, 3, 4]), 2) + bytes([0x04, 0x07, 0x0E]),
    colour(0x20, bytes([1, 0x72]), 3) + bytes([0x04, 0x07, 0x0E, 0x01, 0xFE]),
    colour(0x80, bytes([1, 2, 3, 4, 5, 6]), 4) + bytes([0x04]),
    bytes([0x04, 0x00, 0x0E, 0x01, 0xFE, 0x00]) + basic(2, 0x09, [0, 0, 0, 0]),
    bytes([0x04, 0x00, 0x0E, 0x01, 0xFE, 0x80]) + basic(2, 0x09, [0, 0, 0, 0]),
    bytes([0x04, 0x00, 0x0E]) + colour(0x10, bytes([5, 6, 7, 8]), 0x20),
    colour(0x20, bytes([1, 0x72]), 5, 80) + bytes([0x04, 0x00, 0x40, 0x06, 0x01]),
    unicast(6, bytes([1, 2, 3, 4, 5, 6])) + bytes([0xFF, 0x04, 0x00]),
]


def colour_readers_handed_in():
    """Claims about 10 and 12 over these bytes, closed at once, or fed what is missing and a good frame; 11 and 12 over those of document 01."""
    for claim in range(9, 15):
        for number, store in enumerate(COLOUR_STORES):
            if claim in [11, 12] or (claim + number) % 2:
                yield from held_calls("request", claim, store, [], opinion.Reader)
            if claim in [11, 12] or (claim + number) % 2 == 0:
                yield from held_calls("request", claim, store, [store[claim:] + COLOUR_FRAMES[1]], opinion.Reader)
    for number, store in enumerate(STORES["request"]):
        yield from held_calls("request", 11 + number % 2, store, [COLOUR_FRAMES[1]], opinion.Reader)
    for claim in [5, 6, 255, 2 ** 64 - 1]:
        yield from held_calls("request", claim, COLOUR_STORES[2], [COLOUR_STORES[2]], opinion.Reader)


def some_colour(chance):
    """A colour request, seldom with an address that is no lighting target."""
    _, type_, data = chance.pick(COLOURS)
    address = chance.below(256) if chance.one_in(6) else chance.pick(sorted(opinion.LIGHTING_TARGET))
    return colour(type_, chance.run(len(data)), chance.below(256), address, chance.below(256))


def colour_piece(chance):
    """A piece of a request line with colour requests on it."""
    frame = some_colour(chance)
    head = bytes([0x04, chance.below(256), 0x0E, chance.below(256), chance.below(256)])
    return chance.pick([
        frame,
        frame,
        resummed(damaged_frame(chance, frame)),
        damaged_frame(chance, frame),
        frame[:3 + chance.below(9)] + some_colour(chance),
        head + bytes([chance.pick(LISTED_TYPES)]) + some_request(chance),
        head + bytes([chance.below(256)]) + chance.run(chance.below(8)),
        bytes(chance.pick([0x04, 0x0E, 0x10, 0x20, 0x80, chance.below(256)]) for _ in range(1 + chance.below(8))),
        request_piece(chance),
    ])


def colour_streams():
    """Streams by chance with colour requests on them."""
    chance = Chance(15)
    for _ in range(25):
        yield from stream_calls("request", chance, colour_piece, opinion.Reader)


def colours_on_lines():
    for part in [cut_colour_lines(), targets_on_colour_lines(), unlisted_types_on_lines(), frames_inside(), closed_colour_lines(),
                 colour_readers_handed_in(), colour_streams()]:
        yield from part


# Lines that are no call of colour requests, by the rows of the table, from its second.
COLOUR_NO_CALLS = [
    filled("write_colour_tc 00 01 FE 01 72 /" + " 00" * 1354, 4095), filled("write_colour_tc 00 01 FE 01 72 /" + " 00" * 1354, 4096),

    "write_colour", "write_colour_", "write_colour_x", "write_colour_xyz", "write_colour_XY 00 01 FE 12 34 56 78 /", "Write_colour_tc",
    "write_color_tc", "write_colour_rgb", "write_colour_rgbw", "write_colour_rgbwa", "write_colourxy", "write_colour xy", "write_tc", "write_rgbwaf", "colour",
    "colour_xy", "colour_tc 00 01 FE 01 72 /", "request_colour", "relay_colour", "rgbwaf",

    "write_colour_xy 00 01 FE 12 34 56 7 /", "write_colour_xy 00 01 FE 1234 5678 / 00", "write_colour_xy 0.3 0.3 /", "write_colour_tc 00 01 FE 0172 /",
    "write_colour_tc 00 01 FE 01 72/", "write_colour_tc 00 01 FE 01 72 / 0", "write_colour_tc 370", "write_colour_rgbwaf zz",
    "write_colour_rgbwaf #FF0000 /", "write_colour_rgbwaf 00 01 FE 01 02 03 04 05 06 /00",

    "write_colour_xy", "write_colour_xy 00 01 FE 12 34 56 78", "write_colour_xy 00 01 FE 12 34 56 78 / 00 / 00",
    "write_colour_xy 00 01 FE / 12 34 56 78 / 00", "write_colour_xy / /", "write_colour_tc", "write_colour_tc 00 01 FE 01 72", "write_colour_tc 00 01 FE 01 72 / 00 /",
    "write_colour_tc / /", "write_colour_rgbwaf", "write_colour_rgbwaf 00 01 FE 01 02 03 04 05 06", "write_colour_rgbwaf 00 01 FE 01 02 03 04 05 06 / / 00",
    "write_colour_rgbwaf 00 / 01 / FE",

    "write_colour_xy /", "write_colour_xy / 00", "write_colour_xy 00 01 FE 12 34 56 /", "write_colour_xy 00 01 FE 12 34 56 78 9A / 00",
    "write_colour_xy 00 01 FE 10 12 34 56 78 /", "write_colour_xy 00 01 FE 01 72 /", "write_colour_tc /", "write_colour_tc / 00",
    "write_colour_tc 00 01 FE 01 / 00", "write_colour_tc 00 01 FE 01 72 00 /", "write_colour_tc 00 01 FE 20 01 72 / 00", "write_colour_rgbwaf /",
    "write_colour_rgbwaf / 00", "write_colour_rgbwaf 00 01 FE 01 02 03 04 05 /", "write_colour_rgbwaf 00 01 FE 01 02 03 04 05 06 07 / 00",
    "write_colour_rgbwaf 00 01 FE 01 02 03 /",
]

COLOUR_CALLS_SET_OTHERWISE = [
    "  write_colour_xy  00 4f fE 12 34 56 78  /  aa bb cc dd ee ff 00 11 22 33 44 55  ", "write_colour_xy 00 4F FE 12 34 56 78 /",
    "write_colour_tc 0a 7f fe 01 72 /", " write_colour_tc 0a 7f fe 01 72 / 00 00 00 00 00 00 00 00 00", "write_colour_tc 0A 7F FE 01 72 / ",
    "write_colour_rgbwaf  ff ff ff ff ff ff ff ff ff /" + " 00" * 13, "write_colour_rgbwaf FF fe FF 01 02 03 04 05 06 /",
    " request  04 0a 0e 7f fe 20 01 72 d2 ", "feed_request 04 0a 0e 7f fe 20 01 72 d2", "close_request", " ask 0e  0a bB Cc 0d ", "book_show",
]


def no_colour_calls():
    """Lines that are no call, between what the run carries, set before them and shown behind them."""
    yield from ["fresh_request", "feed_request 04 00 0E 01 FE", "book_fresh", "ask 0E 01 02 03 04"]
    yield from COLOUR_NO_CALLS + ["show_request", "book_show", "feed_request 20 01 72 A6", "close_request"] + COLOUR_CALLS_SET_OTHERWISE
    yield "request 04 00 0E 7F FE 20 01 72 D8"


# W-210: the retired command

# The retired command between its neighbours, which like it take no arguments.
BESIDE = [0x09, 0x0A, 0x0B]

# The source says of these what it says of 0A, and they are unknown.
LEGACY = [0x02, 0x13]

# All that may still be asked: the known commands but 0A.
ASKED = sorted(set(KNOWN + [0x0E]) - set([0x0A]))


def plain(sequence, command):
    """A frame of basic shape whose arguments are 0."""
    return basic(sequence, command, bytes(4))


def frame_of(command, sequence):
    """A frame of the command, a good one where the command is known."""
    if command == 0x40:
        return unicast(sequence, pattern(6))
    if command == 0x0E:
        return colour(0x20, bytes([1, 0x72]), sequence)
    return basic(sequence, command, good_arguments(command, max)[-1]) if command in opinion.BASIC else plain(sequence, command)


# Datagrams

def retired_datagrams():
    """Frames of 0A: sequence numbers, each byte changed, cut and longer; every known command; and 0A in the other places of a frame."""
    for sequence in [0, 1, 4, 9, 10, 11, 17, 127, 128, 254, 255]:
        yield call("request", plain(sequence, 0x0A))
    frame = plain(3, 0x0A)
    for datagram in list(byte_changes(frame, range(len(frame)))) + list(size_changes(frame)):
        yield call("request", datagram)
    for command in ASKED + LEGACY + [0x0A]:
        yield call("request", frame_of(command, 255 - command))
    # as a sequence number, as arguments, in port and address, in all of a colour request, and as the sum
    for datagram in [plain(10, 0x09), plain(10, 0x1A), basic(10, 0x01, [10, 0, 0, 0]), basic(10, 0x20, [0, 10, 10, 10]),
                     basic(10, 0xA2, [10, 0, 0, 10]), unicast(10, bytes([10] * 6)), colour(0x20, bytes([10, 10]), 10, 10, 10), plain(7, 0x09)]:
        yield call("request", datagram)


def retired_faults():
    """Lead and arguments wrong in every choice, the sum right or not, too long and too short: read, and of 0A relayed."""
    for command in BESIDE:
        for datagram in faulty(plain(0, command), [(0, 0x05), (3, 0xFF), (6, 1)]):
            given = [datagram, datagram + b"\x00", spoilt(datagram), spoilt(datagram) + b"\x00", datagram[:7]]
            yield from [call("request", run) for run in given]
            if command == 0x0A:
                yield from [call("relay_request", run, pattern(9)) for run in given] + [call("relay_request", datagram, pattern(7))]


def retired_relays():
    """Good frames of 0A and its neighbours into buffers of several sizes, and of every known command into one that is long enough."""
    for command in BESIDE:
        for size in [0, 7, 8, 9]:
            yield call("relay_request", plain(5, command), pattern(size))
    for command in ASKED + [0x0A]:
        yield call("relay_request", frame_of(command, command), pattern(11))


def retired_writing():
    """Good and bad arguments into buffers too short and long enough; then every command byte, with arguments in range and outside."""
    for command in BESIDE:
        for arguments in [bytes(4)] + with_each_place(bytes(4), [1]):
            for size in [0, 7, 8, 9]:
                yield call("write_basic", bytes([6, command]) + arguments, pattern(size))
    for sequence in [0, 10, 17, 255]:
        yield call("write_basic", [sequence, 0x0A, 0, 0, 0, 0], pattern(8))
    for command in range(256):
        yield call("write_basic", frame_of(command, command)[1:7], pattern(8))
        yield call("write_basic", bytes([0, command]) + b"\xFF" * 4, pattern(command % 9))


def retired_values():
    """What stays: 0A is known, of the basic shape, without arguments, and has its name. Then the name of 17."""
    for command in BESIDE + [0x1A] + LEGACY:
        yield from [call("known", [command]), call("shape", [command]), call("name", [1, command], pattern(30))]
        for arguments in [bytes(4)] + with_each_place(bytes(4), [1, 255]):
            yield call("fits", bytes([command]) + arguments)
    for size in range(10):
        yield call("name", [0, 17], pattern(size))
    # its neighbours, 17 read as hexadecimal, and as a number of the other kinds
    for kind, number in [(0, 16), (0, 18), (0, 0x17), (1, 17), (2, 17), (3, 17), (4, 17)]:
        yield call("name", [kind, number], pattern(12))


# The book

def refused_asks():
    """0A asked of fresh books, of books with a number free and without, and with entries 0A: nothing moves."""
    yield from ["book_fresh", ask(0x0A), "book_show", ask(0x09), ask(0x0A), "book_show", ask(0x0B), ask(0x0A), ask(0x0A), ask(0x1A), "book_show"]
    yield from [answered(1), ask(0x0A), answered(1), answered(3), ask(0x02), ask(0x13), ask(0x0E), "book_show"]
    for last in [0, 255]:
        for held in [b"", bytes([0x09, 0x0A, 0x0B, 0x0D]), bytes([0x0A] * 255), bytes([0x0A] * 256), bytes([0xA1] * 256)]:
            yield from [book_set(last, held), ask(0x0A), ask(0x0D), "book_show", ask(0x09), ask(0x0A), "book_show"]


def asks_of_a_full_book():
    """Every command byte asked of a full book, in which 0A stands in every other place."""
    yield book_set(9, bytes([0x0A, 0xA1] * 128))
    for command in range(256):
        yield ask(command)
    yield "book_show"


def replies_to_retired():
    """Entries 0A take their replies, once; the numbers are given again in their turn, and not to 0A."""
    yield book_set(100, bytes([0x0A] * 256))
    for number in range(0, 256, 51):
        yield from [answered(number), answered(number)]
    yield from ["book_show"] + [ask(command) for command in BESIDE * 4] + ["book_show"]
    for last in [0, 127, 255]:
        yield from [book_set(last, bytes([0x0A] * 256)), ask(0x09), ask(0x0A), ask(0x0D), answered(last), answered(last), ask(0x0A), ask(0x09)]
        yield from [ask(0x09), ask(0x0A), answered(last), answered(last), ask(0x0A), ask(0x40), "book_show"]


def numbers_held_by_retired():
    """Numbers that 0A holds are passed over, past 255 too; where it holds all but one, this one is given, be it the last."""
    for last in [0, 254, 255]:
        for count in [1, 3]:
            held = bytes(256)
            for step in range(1, count + 1):
                held = replaced(held, (last + step) % 256, 0x0A)
            yield from [book_set(last, held.rstrip(b"\x00")), ask(0x0A), ask(0x09), ask(0x0A), ask(0x0B), answered((last + 1) % 256), "book_show"]
        for free, nothing in [(last, 0x00), ((last + 255) % 256, 0x0D)]:
            yield book_set(last, replaced(bytes([0x0A] * 256), free, nothing))
            yield from [ask(0x0A), answered(free), ask(0x09), ask(0x09), ask(0x0A), answered(free), answered(free)]


def filled_by_asking():
    """A book filled with all that may still be asked, 0A tried here and there; its refusals, and numbers used again in their turn."""
    yield "book_fresh"
    for number in range(256):
        yield ask(ASKED[number % len(ASKED)])
        if number % 32 == 9:
            yield ask(0x0A)
    yield from ["book_show", ask(0x01), ask(0x40), ask(0x0A), ask(0x00), ask(0x02), ask(0xFF), "book_show"]
    for number in [7, 255, 0, 7, 128, 6, 127]:
        yield answered(number)
    for command in [0x0A, 0xA9, 0xA9, 0xA9, 0x0A, 0xA9, 0xA9, 0xA9, 0xA9, 0x0A]:
        yield ask(command)
    yield "book_show"


def retired_book_runs():
    """Asks and replies as they come on books handed in, with 0A in both."""
    chance = Chance(16)
    for _ in range(3):
        last = chance.pick([0, 127, 255, chance.below(256)])
        held = bytes(chance.pick([0x0A, 0x0A, chance.pick(ASKED), chance.below(256)]) for _ in range(chance.pick([5, 254, 255, 256])))
        yield book_set(last, held)
        for _ in range(36):
            if chance.one_in(2):
                yield answered(chance.pick([last, (last + 1) % 256, chance.below(256)]))
            else:
                yield ask(chance.pick([0x0A, chance.pick(ASKED), chance.pick(ASKED)]))
        yield "book_show"


def retired_command():
    TICKS.begin()
    for part in [retired_datagrams(), retired_faults(), retired_relays(), retired_writing(), retired_values(), refused_asks(), asks_of_a_full_book(),
                 replies_to_retired(), numbers_held_by_retired(), filled_by_asking(), retired_book_runs()]:
        yield from part


# Lines

def read_from_line(stream):
    """A request line fed whole and closed; then its longer items read as datagrams, where those of 0A are marked."""
    yield from request_line([stream])
    for _, run in opinion.items("request", stream):
        if len(run) > 1:
            yield call("request", run)


def cut_retired_lines():
    """A frame alone, and one with a 04 in front that makes its sequence number the command: in any two parts, and byte by byte."""
    for stream in [plain(3, 0x0A), bytes([0x04]) + plain(0x0A, 0x0A) + bytes([0x0A])]:
        for place in range(len(stream) + 1):
            yield from request_line([stream[:place], stream[place:]])
        yield from request_line(single(stream))


# Lines with 0A on them: good ones among all shapes, neighbours and unknown commands; wrong sums, around good frames too; arguments that are not 0;
# noise around, and frames that begin and do not end.
RETIRED_LINES = [
    plain(1, 0x0A) + plain(2, 0x0A) + plain(3, 0x09) + plain(4, 0x0A) + basic(5, 0x1A, [15, 0, 0, 0]) + plain(6, 0x0A),
    plain(1, 0x0A) + unicast(2, bytes([10] * 6)) + plain(3, 0x0A) + colour(0x10, bytes([10] * 4), 4) + plain(5, 0x0A) + colour(0x80, bytes(6), 6),
    plain(1, 0x02) + plain(2, 0x0A) + plain(3, 0x13) + plain(4, 0x0B),
    spoilt(plain(1, 0x0A)) + plain(2, 0x0A),
    bytes([0x04, 0x00, 0x0A]) + plain(5, 0x0A) + bytes([0x04, 0x00, 0x0A, 0x00]) + plain(6, 0x09) + bytes([0x04, 0x00, 0x09]) + plain(7, 0x0A),
    bytes([0x04, 0x00, 0x0E, 0x01, 0xFE, 0x80]) + plain(5, 0x0A) + bytes([0x04, 0x00, 0x40, 0x06]) + plain(6, 0x0A),
    basic(1, 0x0A, [1, 0, 0, 0]) + basic(2, 0x0A, [0, 0, 0, 0x80]) + basic(3, 0x09, [0, 1, 0, 0]) + basic(4, 0x0A, [0, 0, 0xFF, 0]) + plain(5, 0x0A),
    bytes([0x0A, 0xFF, 0x00]) + plain(1, 0x0A) + bytes([0x0A, 0x0A, 0x03]) + plain(2, 0x0A) + bytes([0x04, 0x0A, 0x0A, 0x00]),
    plain(0x04, 0x0A)[1:] + plain(0x0A, 0x0A) + bytes([0x04]) + plain(0x0A, 0x09) + bytes([0x04]) + plain(0x0A, 0x0A),
    frame_of(0x0E, 0x0A) + plain(0x0E, 0x0A) + plain(0x0E, 0x0A)[:7],
]


def settled_retired():
    """What the rule says of a frame at every length, with its sum, with another, and with an argument that is not 0."""
    for frame in [plain(9, 0x0A), spoilt(plain(9, 0x0A)), basic(9, 0x0A, [0, 0, 0, 1])]:
        for size in range(len(frame) + 1):
            yield call("settle_request", frame[:size])
            yield call("item_request", [size % 2], frame[:size])
        yield call("settle_request", frame + b"\x04")


def closed_retired_lines():
    """A frame closed before its command, behind it and before its sum; and closed once and fed on from what is still held."""
    for size in [2, 3, 7]:
        yield from request_line([plain(3, 0x0A)[:size]])
    reader = opinion.Reader("request")
    yield "fresh_request"
    yield from fed(reader, bytes([0x04, 0x04, 0x0A]))
    for part in [bytes(5), plain(3, 0x0A)[:5], plain(3, 0x0A)]:
        yield "close_request"
        reader.close()
        yield from fed(reader, part)
    yield from closed(reader)


# What a reader of the request line may hold, in 12 bytes each: a good frame of 0A and the beginning of another, one with an argument that is not 0,
# a wrong sum around a good one, and one that begins behind noise.
RETIRED_STORES = [
    plain(2, 0x0A) + bytes([0x04, 0x07, 0x0A, 0x00]),
    basic(3, 0x0A, [0, 2, 0, 0]) + bytes([0x04, 0x07, 0x09, 0x00]),
    bytes([0x04, 0x00, 0x0A]) + plain(4, 0x0A) + bytes([0x0A]),
    bytes([0x0A, 0x00, 0xFF, 0x04, 0x0A]) + plain(5, 0x0A)[:7],
]


def retired_readers_handed_in():
    """Claims about the frame's length and the most that is held, closed at once or fed what is missing and a good frame."""
    for number, store in enumerate(RETIRED_STORES):
        yield from held_calls("request", [8, 12][number % 2], store, [], opinion.Reader)
        yield from held_calls("request", 7, store, [store[7:] + plain(6, 0x0A)], opinion.Reader)
    yield from held_calls("request", 13, plain(2, 0x0A), [plain(6, 0x0A)], opinion.Reader)


def retired_piece(chance):
    """A piece of a request line with 0A on it."""
    frame = plain(chance.below(256), 0x0A)
    return chance.pick([
        frame,
        frame,
        damaged_frame(chance, frame),
        resummed(damaged_frame(chance, frame)),
        frame[:1 + chance.below(7)] + plain(chance.below(256), 0x0A),
        bytes([0x04, chance.below(256), 0x0A]) + some_request(chance),
        bytes(chance.pick([0x04, 0x0A, 0x0A, 0x00, chance.below(256)]) for _ in range(1 + chance.below(8))),
        some_request(chance),
        colour_piece(chance),
    ])


def retired_streams():
    """Streams by chance with 0A on them."""
    chance = Chance(17)
    for _ in range(8):
        yield from stream_calls("request", chance, retired_piece, opinion.Reader)


def retired_on_lines():
    """Lines of 0A, and at the end a request with it."""
    for part in [cut_retired_lines(), settled_retired(), closed_retired_lines(), retired_readers_handed_in(), retired_streams()]:
        yield from part
    for stream in RETIRED_LINES:
        yield from read_from_line(stream)
    yield call("request", plain(0, 0x0A))


# W-203: the quiet profile

# The known commands inside it and outside it.
INSIDE = [command for command in sorted(KNOWN + [0x0E]) if opinion.inside(command)]
OUTSIDE = [command for command in sorted(KNOWN + [0x0E]) if not opinion.inside(command)]


def with_and_without(name, head, buffer):
    """The writer's call without the profile and under it."""
    return [call(name, head, buffer), call(name + "_quiet", head, buffer)]


# Writing

def commands_and_the_profile():
    """Every command byte: inside or outside."""
    for command in range(256):
        yield call("inside", [command])


def quiet_and_plain():
    """Every command byte with arguments in range and outside, into buffers long enough, one byte short and of no bytes: every choice of faults."""
    for command in range(256):
        good = frame_of(command, command)[1:7]
        for head in [good, good[:2] + b"\xFF" * 4]:
            for size in [8 + command % 2, 7, 0]:
                yield from with_and_without("write_basic", head, pattern(size))


# Both sides of the edges that each place has in the table.
PLACE_EDGES = [
    [0, 1, 15, 16, 63, 64, 79, 80, 81, 126, 127, 128, 195, 196, 254, 255],
    [1, 12, 13, 31, 32, 63, 64, 255],
    [1, 255],
    [1, 15, 16, 31, 32, 254, 255],
]


def quiet_arguments():
    """Each basic command with each place at its edges, the others good: into a buffer that is long enough, and one byte short where the value is odd."""
    for command in sorted(opinion.BASIC):
        for arguments in good_arguments(command, min):
            for place, values in enumerate(PLACE_EDGES):
                for value in values:
                    yield call("write_basic_quiet", bytes([place, command]) + replaced(arguments, place, value), pattern(8 - value % 2))


def quiet_buffers():
    """Some commands into buffers of every size about the frame's, and sequence numbers that are commands too."""
    for command in [0x01, 0x20, 0xAE, 0x0A, 0x08, 0xA9]:
        for size in range(11):
            yield call("write_basic_quiet", frame_of(command, 5)[1:7], pattern(size))
    for sequence in [0, 1, 4, 8, 9, 10, 0x31, 0x40, 127, 128, 0xA0, 0xA9, 254, 255]:
        for command in [0x09, 0xA9]:
            yield call("write_basic_quiet", frame_of(command, sequence)[1:7], pattern(9))


def quiet_unicasts():
    """Request 40: always outside, whatever the buffer."""
    for port, address in [(8811, [192, 168, 10, 10]), (0, [0, 0, 0, 0]), (65535, [255, 255, 255, 255])]:
        for size in range(14):
            yield call("write_unicast_quiet", b"\x09" + wide(port, 2) + bytes(address), pattern(size))
    for value in range(0, 256, 17):
        yield from with_and_without("write_unicast", bytes([value] * 7), pattern(10 + value % 2))


def quiet_colours():
    """Colour requests: every address with one of the types, and those about the edges with each, into buffers of several sizes."""
    for address in range(256):
        name, _, data = COLOURS[address % 3]
        yield write_colour(name + "_quiet", data, pattern(13), address, address)
    for address in COLOUR_ADDRESSES:
        for name, _, data in COLOURS:
            for size in [0, len(data) + 6, len(data) + 7, len(data) + 8]:
                yield write_colour(name + "_quiet", data, pattern(size), 7, address, 128)


def name_of_outside():
    """The name of 13 into buffers of every size about it; its neighbours, 13 read as hexadecimal, and as a number of the other kinds."""
    for size in range(18):
        yield call("name", [0, 13], pattern(size))
    for kind, number in [(0, 12), (0, 14), (0, 0x13), (1, 13), (2, 13), (3, 13), (4, 13), (5, 13)]:
        yield call("name", [kind, number], pattern(17))


def quiet_writing():
    for part in [commands_and_the_profile(), quiet_and_plain(), quiet_arguments(), quiet_buffers(), quiet_unicasts(), quiet_colours(),
                 name_of_outside()]:
        yield from part


# Lines that are no call of the profile, by the rows of the table, from its second; and the longest run that a line holds.
QUIET_NO_CALLS = [
    filled("quiet" + " 04" * 1363, 4095), filled("quiet", 4095), filled("inside 09", 4095),
    filled("write_basic_quiet 00 09 00 00 00 00 /" + " 00" * 1352, 4095),

    "Quiet", "QUIET 04", "quiets", "quie", "quiet_", "quiet_request 04", "quiet_reply", "is_quiet", "Inside 01", "insides 01", "insid 01", "outside 01",
    "in 01", "profile", "write_quiet", "write_basic_quiet_", "write_basic_quie 00 09 00 00 00 00 /", "write_basicquiet", "write_basic_Quiet",
    "quiet_write_basic", "write_colour_quiet", "write_colour_quiet_xy", "write_colour_xyz_quiet", "write_reply_quiet A0 00 / / 00", "write_event_quiet",
    "relay_request_quiet /", "ask_quiet 01", "fits_quiet 01 00 00 00 00", "write_unicast_quiet_quiet",

    "quiet 4", "quiet 04 0", "quiet 0400", "quiet 0x04", "quiet //", "quiet zz", "quiet 04 00 \r", "inside 1", "inside 009", "inside zz", "inside / zz",
    "write_basic_quiet 00 09 00 00 00 0 /", "write_unicast_quiet 00 22 6B C0 A8 0A 0A /00", "write_colour_tc_quiet 00 01 FE 01 7 /",

    "quiet /", "quiet / /", "quiet 04 / 00", "quiet / 04 00 09 00 00 00 00 0D", "quiet 04 00 09 00 00 00 00 0D /", "inside /", "inside 01 / 09", "inside / 01",
    "write_basic_quiet", "write_basic_quiet 00 09 00 00 00 00", "write_basic_quiet 00 09 00 00 00 00 / 00 / 00", "write_basic_quiet / /",
    "write_unicast_quiet", "write_unicast_quiet 00 22 6B C0 A8 0A 0A", "write_unicast_quiet 00 / 22 6B / C0 A8 0A 0A",
    "write_colour_xy_quiet", "write_colour_xy_quiet 00 01 FE 12 34 56 78", "write_colour_tc_quiet 00 01 FE / 01 72 / 00",
    "write_colour_tc_quiet 00 01 FE 01 72", "write_colour_rgbwaf_quiet", "write_colour_rgbwaf_quiet 00 01 FE / 01 02 03 04 05 06 /",

    "inside", "inside 01 09", "inside 01 02 03 04", "write_basic_quiet /", "write_basic_quiet / 00", "write_basic_quiet 00 09 00 00 00 /",
    "write_basic_quiet 00 A9 00 00 00 00 00 / 00", "write_unicast_quiet /", "write_unicast_quiet 00 22 6B C0 A8 0A / 00",
    "write_unicast_quiet 00 22 6B C0 A8 0A 0A 0A / 00", "write_colour_xy_quiet /", "write_colour_xy_quiet 00 01 FE 12 34 56 / 00",
    "write_colour_xy_quiet 00 01 FE 12 34 56 78 9A / 00", "write_colour_tc_quiet / 00", "write_colour_tc_quiet 00 01 FE 01 /",
    "write_colour_tc_quiet 00 01 FE 01 72 00 / 00", "write_colour_rgbwaf_quiet /", "write_colour_rgbwaf_quiet 00 01 FE 01 02 03 04 05 /",
    "write_colour_rgbwaf_quiet 00 01 FE 01 02 03 04 05 06 07 / 00",
]

# With several blanks and small letters.
QUIET_CALLS_SET_OTHERWISE = [
    "  quiet  ", " quiet  04 00  09  00 00 00 00 0d ", "quiet 04 00 ab 4f 00 00 00 e0", "quiet 04 00 a9 4f 00 00 00 e2", " inside  aE ", "inside a9",
    "  write_basic_quiet  00 aa 4f 00 00 00  /  00 00 00 00 00 00 00 fF ", "write_basic_quiet 00 a9 4f 00 00 00 /",
    " write_unicast_quiet 00 22 6b c0 a8 0a 0a  /  ff", "write_colour_tc_quiet 00 7f fe 01 72 /  ", " write_colour_xy_quiet 00 fe fe 12 34 56 78 / aa",
]


def no_quiet_calls():
    yield from QUIET_NO_CALLS + QUIET_CALLS_SET_OTHERWISE


# Runs

def quiet(*pieces):
    """The call with the pieces of a run one behind the other."""
    return call("quiet", b"".join(pieces))


# A good frame of every command inside; and every kind of good frame outside, of all colour types too.
INSIDE_FRAMES = [frame_of(command, 255 - command) for command in INSIDE]
OUTSIDE_FRAMES = [frame_of(command, command) for command in OUTSIDE if command != 0x0E] + COLOUR_FRAMES

# Six frames inside, of as many rules; among their bytes leads, commands that are outside and unknown ones.
SIX = [plain(0xA9, 0x09), basic(4, 0x20, [0, 4, 0, 0x40]), basic(0x40, 0x1B, [15, 12, 0, 0]), basic(8, 0x32, [64, 63, 0, 31]),
       basic(0x0E, 0xAB, [81, 0, 0, 0]), basic(0, 0x0C, [127, 0, 0, 4])]


def at_each_end(piece, frames=SIX):
    """The piece alone, in front of the frames, in their middle and behind them."""
    middle = len(frames) // 2
    return [quiet(piece), quiet(piece, *frames), quiet(*frames[:middle] + [piece] + frames[middle:]), quiet(*frames + [piece])]


def frames_alone():
    """No byte; a frame of every command byte, of every sequence number, and every byte alone."""
    yield quiet()
    for command in range(256):
        yield quiet(frame_of(command, 0))
    for sequence in range(256):
        yield quiet(plain(sequence, INSIDE[1 + sequence % 3]))
    for byte in [0, 1, 3, 4, 5, 9, 0x40, 0x7F, 0x80, 0x9F, 0xA0, 0xA3, 0xA4, 0xFF]:
        yield quiet(bytes([byte]))


def good_runs():
    """So many good frames inside, to the most that a line holds; then with a frame outside behind them, in their middle and in front."""
    for count in list(range(1, 41)) + [100, 127, 128, 168, 170]:
        frames = [INSIDE_FRAMES[place * 5 % 18] for place in range(count)]
        yield quiet(*frames)
        frame = OUTSIDE_FRAMES[count % 14]
        yield quiet(*frames[:-1] + [frame])
        yield quiet(*frames[:count // 2] + [frame] + frames[count // 2 + 1:])
        yield quiet(*[frame] + frames[1:])
    yield quiet(*INSIDE_FRAMES)
    for frame in INSIDE_FRAMES:
        yield quiet(frame, frame)


def one_frame_among_them():
    """Each kind of good frame, inside and outside, alone, in front, in the middle and at the end; and two of them."""
    for frame in INSIDE_FRAMES[1::2] + OUTSIDE_FRAMES:
        yield from at_each_end(frame)
    for frame in OUTSIDE_FRAMES:
        yield quiet(frame, frame)


def cut_quiet_runs():
    """A run of all commands inside cut at every place; and a frame of each size that is outside, cut at every place behind a good one."""
    run = b"".join(INSIDE_FRAMES)
    for place in range(len(run)):
        yield quiet(run[:place])
    for place in range(1, 48):
        yield quiet(b"".join(SIX)[place:])
    for frame in [unicast(3, pattern(6))] + COLOUR_FRAMES:
        for place in range(len(frame)):
            yield quiet(SIX[0], frame[:place])


def one_byte_of_noise():
    """Six frames with one byte more at every place, one less, and one changed, with the frame's sum as it was and put right."""
    run = b"".join(SIX)
    for place in range(len(run) + 1):
        for byte in [0x00, 0x04, 0xA0, 0xFF]:
            yield quiet(run[:place], bytes([byte]), run[place:])
    for place in range(len(run)):
        yield quiet(run[:place], run[place + 1:])
    for number, frame in enumerate(SIX):
        for changed in byte_changes(frame, range(len(frame))):
            yield quiet(*SIX[:number] + [changed] + SIX[number + 1:])


def damaged_and_quiet():
    """Frames of each command inside with a wrong sum and with arguments about their ranges; alone, before and behind a good one."""
    for frame in INSIDE_FRAMES:
        for run in [spoilt(frame), frame[:-1] + bytes([frame[-1] ^ 0x80])]:
            yield from [quiet(run), quiet(run, SIX[0]), quiet(SIX[0], run)]
        for arguments in with_each_place(frame[3:7], [0, 1, 255]):
            yield quiet(SIX[2], basic(frame[1], frame[2], arguments))
        yield quiet(basic(frame[1], frame[2], b"\xFF" * 4), SIX[0])


def unknown_and_quiet():
    """Unknown commands, length bytes of 40, colour types of no list, addresses that are none: alone, in front, in the middle and at the end."""
    pieces = [plain(1, command) for command in [0x00, 0x02, 0x0D, 0x0F, 0x13, 0x21, 0x30, 0x35, 0x3F, 0x42, 0x9F, 0xAF, 0xFF]]
    pieces += [resummed(replaced(unicast(2, pattern(6)), 3, length)) for length in [0, 5, 7, 8, 255]]
    pieces += [colour(type_, pattern(2), 3) for type_ in UNLISTED_TYPES] + [PRINTED_COLOUR]
    pieces += [colour(type_, data, 4, address) for _, type_, data in COLOURS for address in [0, 79, 80, 255]]
    pieces += [spoilt(frame) for frame in COLOUR_FRAMES + [unicast(5, pattern(6))]]
    for piece in pieces:
        yield from at_each_end(piece)


def retired_and_quiet():
    """0A is inside: alone, among others and many times; with a wrong sum, with arguments that are not 0, cut, and beside a frame outside."""
    frame = plain(10, 0x0A)
    yield from at_each_end(frame) + at_each_end(spoilt(frame)) + at_each_end(basic(0, 0x0A, [0, 0, 0, 1]))
    yield from [quiet(*[frame] * count) for count in range(2, 12)]
    yield from [quiet(frame, frame[:size]) for size in range(8)]
    yield from [quiet(frame, outside) for outside in OUTSIDE_FRAMES] + [quiet(outside, frame) for outside in OUTSIDE_FRAMES]


def replies_and_quiet():
    """Replies and events in a run, whole and cut: no request begins there. Bytes of theirs inside a frame are its arguments."""
    others = [reply(0xA0, 0, b""), reply(0xA1, 0, bytes([7, 15])), reply(0xA2, 4, b""), reply(0xA3, 4, bytes([0xB1])), reply(0xA1, 0, SIX[0]),
              event(59, 3, b""), event(59, 0, bytes([5]), 2), bytes(8), b"\xFF" * 8, b"\x04" * 8, b"\n", b"\r\n"]
    for run in others:
        yield from at_each_end(run)
    for arguments in [[0, 0xA0, 0, 0], [0, 0xA1, 0, 2], [0, 0x5A, 0x43, 4], [0, 4, 0, 0xA9], [0, 4, 0, 0x40], [0, 4, 0, 0x0E], [0, 0x0A, 0x0A, 0x0A]]:
        yield from [quiet(basic(4, 0x20, arguments)), quiet(basic(0xA0, 0x20, arguments), plain(0, 0x41))]


# Two frames of 20 each, between whose bytes, from the fifth on, a good frame outside lies: a request 40, and a colour request. Read from the first
# byte both are inside.
def first_of_two(command, fourth):
    """A frame of 20 with 04, a sequence number and the command as its last arguments, and the wanted byte behind it as its sum."""
    return bytes([0x04, 0x20 ^ command ^ fourth, 0x20, 0x00, 0x04, 0x00, command, fourth])


def second_of_two(sequence, hidden, place):
    """A frame of 20 whose argument at the place ends the frame that lies hidden, of which these bytes stand before."""
    head = bytes([0x04, sequence, 0x20, 0x00, 0x11, 0x22, 0x33])[:3 + place]
    return summed((head + bytes([opinion.exclusive_or(hidden + head)]) + bytes(3))[:7])


HIDING = [
    first_of_two(0x40, 0x06) + second_of_two(9, bytes([0x04, 0x00, 0x40, 0x06]), 3),
    first_of_two(0x0E, 0x7F) + second_of_two(0x20, bytes([0x04, 0x00, 0x0E, 0x7F]), 1),
]


def frames_that_lie_hidden():
    """A frame outside between the bytes of two inside; with bytes in front taken away; and outside and inside frames within a wrong sum."""
    for run in HIDING:
        yield from [quiet(run), quiet(run, SIX[0]), quiet(SIX[0], run), quiet(run, run)]
        for place in range(1, 9):
            yield quiet(run[place:])
    for frame in [SIX[0], plain(0, 0x0A)] + OUTSIDE_FRAMES[-5:]:
        for front in [bytes([0x04]), bytes([0x04, 0x00, 0x01]), bytes([0x04, 0x00, 0x0E, 0x01, 0xFE, 0x80]), bytes([0x04, 0x00, 0x40, 0x06])]:
            yield quiet(front, frame)


def some_inside(chance):
    """A good frame of a command inside."""
    command = chance.pick(INSIDE)
    case = chance.pick(opinion.RULES[opinion.BASIC[command]].cases)
    return basic(chance.below(256), command, [chance.pick(sorted(place)) for place in case])


def some_outside(chance):
    """A good frame of a command outside."""
    command = chance.pick(OUTSIDE)
    if command == 0x40:
        return unicast(chance.below(256), chance.run(6))
    if command == 0x0E:
        return some_colour(chance)
    case = chance.pick(opinion.RULES[opinion.BASIC[command]].cases)
    return basic(chance.below(256), command, [chance.pick(sorted(place)) for place in case])


def nearly_quiet(chance, count):
    """So many good frames inside, and mostly one thing more among them."""
    frames = [some_inside(chance) for _ in range(count)]
    frame = some_inside(chance)
    thing = chance.pick([
        b"", b"", frame,
        some_outside(chance),
        damaged_frame(chance, frame),
        resummed(damaged_frame(chance, frame)),
        chance.run(1),
        frame[:chance.below(8)],
        request_piece(chance),
        some_reply(chance)[:12],
    ])
    place = chance.pick([0, chance.below(count + 1), count])
    return b"".join(frames[:place] + [thing] + frames[place:])


def quiet_runs_by_chance():
    """Runs of frames inside with one thing more, cut here and there; and streams of every kind of piece."""
    chance = Chance(18)
    for _ in range(420):
        run = nearly_quiet(chance, chance.below(chance.pick([3, 12])))
        yield quiet(run[:chance.below(len(run) + 1)] if chance.one_in(12) else run)
    for piece in [request_piece, colour_piece, retired_piece]:
        for _ in range(30):
            yield quiet(stream_of(piece, chance))


def quiet_beside_the_readers():
    """The reader of the request line that is carried stays as it is, and its bytes have no part in a run."""
    yield from ["fresh_request", "fresh_reply", call("feed_request", SIX[0][:5]), call("feed_reply", [0xA1, 0])]
    yield from [quiet(SIX[0][5:]), quiet(SIX[0]), quiet(), quiet(OUTSIDE_FRAMES[0]), "show_request", "show_reply"]
    yield from [call("feed_request", SIX[0][5:]), quiet(SIX[0][:3]), call("feed_request", SIX[1][:2]), quiet(SIX[1][2:]), "close_request", "close_request"]
    yield from [quiet(SIX[1]), "close_request", "close_reply", "close_reply", "close_reply"]


# What the program quiet is run on: every command inside, some twice, and then one that is outside.
QUIET_RUN = b"".join(INSIDE_FRAMES + [SIX[1], SIX[3], SIX[4]]) + basic(21, 0xA1, [79, 0, 0, 15])


def quiet_runs():
    """Runs of every kind, and at the end one with 0A."""
    for part in [frames_alone(), good_runs(), one_frame_among_them(), cut_quiet_runs(), one_byte_of_noise(), damaged_and_quiet(), unknown_and_quiet(),
                 retired_and_quiet(), replies_and_quiet(), frames_that_lie_hidden(), quiet_runs_by_chance(), quiet_beside_the_readers()]:
        yield from part
    yield from [quiet(QUIET_RUN), quiet(QUIET_RUN[:-8]), quiet(SIX[0], plain(0, 0x0A))]


# W-209: the table of commands

def listed_commands():
    """The maker's list, in its order: each command's number, its name and the type of its frame."""
    with open(COMMANDS, encoding="ascii") as file:
        rows = [line.rstrip("\n").split("\t") for line in file]
    return [(int(number, 16), name, frame_type) for _, number, name, frame_type in rows]


def table(command):
    return call("table", [command])


def all_entries():
    """Every command byte, in order."""
    for command in range(256):
        yield table(command)


def entries_of_the_list():
    """The maker's list, in its order: each entry with the name beside it."""
    for command, _, _ in listed_commands():
        yield from [table(command), call("name", [1, command], pattern(35))]


def entries_beside_the_decision():
    """Each known command and the numbers next to it: the entry beside what the other calls say of it."""
    known = KNOWN + [0x0E]
    for command in sorted(set(known + [beside for own in known for beside in [own - 1, own + 1]])):
        yield from [table(command), call("known", [command]), call("shape", [command])]
        for arguments in [bytes(4), b"\xFF" * 4]:
            yield call("fits", bytes([command]) + arguments)


# Arguments that tell the rules with nearly the same ranges apart: within one of them, outside the next.
TOLD_APART = [
    (0x01, [15, 12, 0, 0]), (0x1A, [15, 12, 0, 0]), (0x1B, [15, 12, 0, 0]), (0x34, [64, 0, 0, 0]), (0xAC, [64, 0, 0, 0]), (0xAA, [64, 0, 0, 0]),
    (0xAA, [81, 0, 0, 0]), (0xAB, [81, 0, 0, 0]), (0xA1, [81, 0, 0, 0]), (0xA1, [127, 0, 0, 15]), (0xA1, [127, 0, 0, 16]), (0xA2, [127, 0, 0, 16]),
    (0xA3, [127, 0, 0, 16]), (0xA0, [127, 0, 1, 16]), (0xA2, [127, 0, 1, 16]),
]


def entries_of_one_rule():
    """The commands of one rule, one behind the other, with arguments at both ends of its ranges; and rules that are nearly the same."""
    for rule in opinion.RULES:
        for command in [command for command in sorted(opinion.BASIC) if opinion.BASIC[command] == rule]:
            yield table(command)
            for arguments in sorted(set(good_arguments(command, min) + good_arguments(command, max))):
                yield call("fits", bytes([command]) + arguments)
    for command, arguments in TOLD_APART:
        yield from [table(command), call("fits", bytes([command]) + bytes(arguments))]


def entries_beside_what_is_carried():
    """The book and the readers stay as they are, and the entry does too, whatever they hold."""
    yield from ["book_fresh", ask(0x09), "fresh_request", "fresh_reply", "feed_request 04 00 40", "feed_reply A1 00 02"]
    for command in [0x0A, 0x09, 0x0E, 0x40, 0x00, 0xFF]:
        yield from [table(command), ask(command), table(command), "book_show", answered(0), table(command)]
    yield from ["show_request", "feed_request 06 00 00 00 00 00 00 42", table(0x40), "show_reply", "feed_reply 07 0F AB", table(0xA1)]
    yield from ["close_request", "close_reply", "book_show"]


def table_of_commands():
    TICKS.begin()
    for part in [all_entries(), entries_of_the_list(), entries_beside_the_decision(), entries_of_one_rule(), entries_beside_what_is_carried()]:
        yield from part
    yield "help"


# Lines that are no call of the table, by the rows of "What is no call", from its second; some are so by several rows.
TABLE_NO_CALLS = [
    filled("table 01", 4096), filled("table 01", 4097), " " * 4088 + "table 01", "table" + " " * 4089 + "01", filled("table", 4096),
    filled("tables 01", 4096), filled("table zz", 4096), "table" + " 01" * 1364,

    "tables 01", "tabl 01", "Table 01", "TABLE 01", "tablE 01", "table_ 01", "_table 01", "table01", "table_01", "table: 01", "table/ 01",
    "/table 01", "table\t01", "table\r", "table\x00 01", "tab 01", "able 01", "t 01", "table_shape 01", "table_rule 01", "table_show", "table_set 01",
    "table_quiet 01", "shape_table 01", "command_table 01", "commands 01", "command 01", "rule 01", "rules", "shapes 01", "entry 01", "tables",
    "tabl zz", "Table / /", "01 table", "/ table 01",

    "table 1", "table 001", "table 0001", "table 0G", "table G0", "table 0x01", "table 01h", "table zz", "table 1_", "table +1", "table -1",
    "table 1.", "table 256", "table 01,", "table 01/", "table /01", "table //", "table 01 /08", "table 01\r", "table 01 \r", "table \t", "table 01\t",
    "table 0\x00", "table \xFF\xFE", "table \xB2\xB3", "table 01 zz", "table zz 01", "table / zz", "table zz /", "table 01 08 zz", "table table",
    "table shape 01", "table help",

    "table /", "table / /", "table 01 /", "table / 01", "table 01 / 08", "table 01 / 08 / 09", "table 01 08 /", "table / 01 08", "table / / / /",

    "table", "table ", "table 01 08", "table 00 01", "table 01 01", "table 01 00 00 00 00", "table 01 02 03 04 05 06 07 08",
    "table" + " 0A" * 255, "table" + " 0A" * 256, "table" + " 40" * 1363,
]

# The longest line, blanks before, between and behind the words, and small letters.
TABLE_CALLS_SET_OTHERWISE = [
    filled("table 01", 4095), " " * 4087 + "table 1A", "table" + " " * 4088 + "08", filled("table", 4095), filled("tables 01", 4095),
    filled("table zz", 4095), "table" + " 01" * 1363 + " ",
    " table 01", "table 01 ", "  table   1a  ", "table  0b", "table 0a", "table 0A", "table 0e", "table ab", "table aB", "table Ab", "  table  ff  ",
    "table af", " table aF", "table   40   ", "table a9", "table aC", "table 1c",
]


def no_table_calls():
    """Lines that are no call, between what the run carries; the last of them is the last row of document 01's table."""
    TICKS.begin()
    yield from ["fresh_request", "feed_request 04 00 0A", "book_fresh", ask(0x41)]
    yield from TABLE_NO_CALLS + ["show_request", "book_show"] + ["close_request"] * 4 + TABLE_CALLS_SET_OTHERWISE
    yield table(0xAB)


# W-211: what a changed byte can do

# The frames whose bytes are changed, all accepted: one of each known command, and of 0E one of each colour type; one of each type of replies; one of
# each named type of events and one of another, in each layout. What is not bound to be 0 is not 0, so that fields are told apart, but in the reply
# without data, which is document 01's. Two frames of one call and one length differ in three bytes or more: no change of one byte makes the same
# datagram of both.

# By command; the sequence numbers rise in steps of 7.
BASIC_ARGUMENTS = {
    0x01: [10, 0, 0, 0],
    0x08: [0x42, 0, 0, 0],
    0x09: [0, 0, 0, 0], 0x0A: [0, 0, 0, 0], 0x0B: [0, 0, 0, 0],
    0x0C: [69, 0, 0, 18],
    0x1A: [9, 0, 0, 0],
    0x1B: [13, 7, 0, 0],
    0x1C: [0, 0, 0, 0], 0x1D: [0, 0, 0, 0],
    0x20: [0, 2, 1, 0x2C],
    0x31: [70, 27, 0x01, 0x08],
    0x32: [103, 42, 0, 21],
    0x33: [25, 255, 0x20, 0x43],
    0x34: [43, 0, 0, 0],
    0x41: [0, 0, 0, 0],
    0xA0: [75, 0, 0x0E, 0x10],
    0xA1: [127, 0, 0, 15],
    0xA2: [255, 0, 0, 254],
    0xA3: [1, 0, 0, 0], 0xA4: [63, 0, 0, 0], 0xA5: [64, 0, 0, 0], 0xA6: [79, 0, 0, 0], 0xA7: [127, 0, 0, 0], 0xA8: [255, 0, 0, 0], 0xA9: [42, 0, 0, 0],
    0xAA: [77, 0, 0, 0],
    0xAB: [81, 0, 0, 0],
    0xAC: [62, 0, 0, 0],
    0xAD: [7, 0, 0, 0],
    0xAE: [72, 0, 0, 0],
}
CHANGED_BASIC = {command: basic(0x15 + 7 * place, command, arguments) for place, (command, arguments) in enumerate(BASIC_ARGUMENTS.items())}

CHANGED_UNICAST = unicast(0x05, bytes([0x22, 0x6B, 0xC0, 0xA8, 0x0A, 0x15]))

# By colour type: of a gear, a group and all lights.
CHANGED_COLOURS = {
    0x10: colour(0x10, bytes([0x12, 0x34, 0x56, 0x78]), 0x61, 3, 254),
    0x20: colour(0x20, bytes([0x01, 0x72]), 0x52, 71, 128),
    0x80: colour(0x80, bytes([0xFF, 0x81, 0x42, 0x23, 0x14, 0x05]), 0x43, 127, 99),
}

# By type: no data, three bytes, two, and an error code.
CHANGED_REPLIES = {
    0xA0: reply(0xA0, 0x00, b""),
    0xA1: reply(0xA1, 0x2D, bytes([0x07, 0x0F, 0x46])),
    0xA2: reply(0xA2, 0x81, bytes([0x05, 0xFE])),
    0xA3: reply(0xA3, 0x11, bytes([0xB1])),
}

# By type; the targets rise in each of their bytes.
EVENT_DATA = {
    0: [5],
    1: [6, 1],
    2: [7, 0x01, 0x2C],
    3: [],
    4: [254],
    5: [12, 2],
    6: [3],
    7: [4, 30],
    8: [0x20, 0x01, 0x72, 0x99],
    9: [1, 15],
    200: [],
}


def changed_events(first, step, width):
    """The events of one layout, by type."""
    return {type_: event(first + step * place, type_, bytes(data), width) for place, (type_, data) in enumerate(EVENT_DATA.items())}


CHANGED_EVENTS = changed_events(0x0A3B44, 0x010101, 3)
CHANGED_EVENTS_TWO = changed_events(0x3B44, 0x0101, 2)

# The families, each by a word, in words, with the call that reads its frames.
Family = namedtuple("Family", "word words call frames")

CHANGED = [
    Family("basic", "basic requests", "request", list(CHANGED_BASIC.values())),
    Family("40", "request 40", "request", [CHANGED_UNICAST]),
    Family("colour", "colour requests", "request", list(CHANGED_COLOURS.values())),
    Family("reply", "replies", "reply", list(CHANGED_REPLIES.values())),
    Family("event", "events with three target bytes", "event", list(CHANGED_EVENTS.values())),
    Family("event_two", "events with two target bytes", "event_two", list(CHANGED_EVENTS_TWO.values())),
]


def single_changes(frame):
    """The frame with one byte changed: each place, each of its 255 other values."""
    for place, byte in enumerate(frame):
        for value in range(256):
            if value != byte:
                yield replaced(frame, place, value)


def one_byte_changed(name):
    """Each frame that this call reads, and behind it each of its single changes."""
    for family in CHANGED:
        if family.call == name:
            for frame in family.frames:
                yield call(name, frame)
                for datagram in single_changes(frame):
                    yield call(name, datagram)


def turned(frame, places, bits):
    """The frame with the same bits of several bytes turned."""
    for place in places:
        frame = flipped(frame, place, bits)
    return frame


def pairs_of_places(frame):
    """Each two places of the frame."""
    return list(combinations(range(len(frame)), 2))


def same_bits_turned(frame):
    """The frame with two bytes changed by the same bits: each two places, all bits."""
    for pair in pairs_of_places(frame):
        for bits in range(1, 256):
            yield turned(frame, pair, bits)


def exchanged(frame):
    """The frame with two bytes exchanged that are not the same: each such pair of places."""
    for one, other in pairs_of_places(frame):
        if frame[one] != frame[other]:
            yield turned(frame, [one, other], frame[one] ^ frame[other])


# Each bit, and some at once, which make other known commands and other colour types of those of the frames below.
SAME_BITS = [0x01, 0x02, 0x04, 0x08, 0x10, 0x20, 0x40, 0x80, 0x03, 0x0F, 0x30, 0x81, 0xA0, 0xFF]
DIFFERING_BITS = [(0x01, 0x02), (0x80, 0x01), (0x10, 0x30), (0xFF, 0xFE)]


def several_changes(frame, places):
    """The frame with several bytes changed: any two exchanged, and at these places two turned by the same bits and by differing ones, and three
    and four in one bit. In range and outside it."""
    yield from exchanged(frame)
    for pair in combinations(places, 2):
        for bits in SAME_BITS:
            yield turned(frame, pair, bits)
        for first, second in DIFFERING_BITS:
            yield flipped(flipped(frame, pair[0], first), pair[1], second)
    for count in [3, 4]:
        for some in combinations(places, count):
            for bit in [0x01, 0x10]:
                yield turned(frame, some, bit)


# Two accepted datagrams, by the call that reads them, that differ in two bytes: another sequence number, and the mask of a request 31 with its bytes
# exchanged, 264 and 2049.
WORKED_PAIRS = [
    ("reply", bytes([0xA0, 0x00, 0x00, 0xA0]), bytes([0xA0, 0x01, 0x00, 0xA1])),
    ("request", bytes([0x04, 0x00, 0x31, 0x00, 0xFF, 0x01, 0x08, 0xC3]), bytes([0x04, 0x00, 0x31, 0x00, 0xFF, 0x08, 0x01, 0xC3])),
]

# Some of the frames, with the places where several bytes are changed: all of them, but of events some, the type, the length byte and the sum among
# them. In each layout an event without data and one with an instance.
SEVERAL_CHANGED = [
    ("reply", CHANGED_REPLIES[0xA0], range(4)),
    ("request", CHANGED_BASIC[0x31], range(8)),
    ("request", CHANGED_COLOURS[0x20], range(9)),
    ("event", CHANGED_EVENTS[3], [0, 1, 5, 8, 10, 11, 12, 13]),
    ("event", CHANGED_EVENTS[6], [10, 11, 12, 13, 14]),
    ("event_two", CHANGED_EVENTS_TWO[3], [9, 10, 11, 12]),
    ("event_two", CHANGED_EVENTS_TWO[6], [0, 1, 5, 9, 10, 11, 12, 13]),
]


def several_bytes_changed():
    """The worked pairs; each of these frames, and behind it changes of several bytes, of the reply without data all double changes by the same
    bits. No line stands here twice."""
    lines = [call(name, datagram) for name, one, other in WORKED_PAIRS for datagram in [one, other]]
    for name, frame, places in SEVERAL_CHANGED:
        changes = list(same_bits_turned(frame)) if frame == CHANGED_REPLIES[0xA0] else []
        lines += [call(name, datagram) for datagram in [frame] + changes + list(several_changes(frame, places))]
    yield from dict.fromkeys(lines)


# The sum in words of eight (document 02, W-204)

def one_changed(chance, frame):
    """The frame, and for each place the frame with one bit there turned and its sum left as it was."""
    return [frame] + [replaced(frame, place, frame[place] ^ 1 << chance.below(8)) for place in range(len(frame))]


def sums_in_words():
    """Nothing that the sum promises may change. Runs of every length: without a rule, of one value, with one byte alone at every place, so that none
    can be left out or taken twice; frames of such lengths written; replies and events of every length, as they are and with a bit turned at every place."""
    chance = Chance(204)
    lines = []
    for size in range(161):
        lines += [call("sum", run) for run in [chance.run(size), chance.run(size), b"\xFF" * size, pattern(size)]]
    for size in range(73):
        lines += [call("sum", replaced(bytes(size), place, 1 + chance.below(255))) for place in range(size)]
    for size in [255, 256, 257, 1023, 1024, 1025, 1363]:
        run = chance.run(size)
        lines += [call("sum", changed) for changed in [run, replaced(run, 0, 0), replaced(run, size - 1, 0)]]
    for size in range(73):
        run = chance.run(size)
        for head in sorted({0, min(size, 3), min(size, 8), size // 2, size}):
            lines += [call("frame", run[:head], run[head:], pattern(room)) for room in [size, size + 1]]
    for n in range(65):
        lines += [call("reply", datagram) for datagram in one_changed(chance, reply(0xA0 + n % 4, chance.below(256), chance.run(n)))]
    for n in range(49):
        for name, width in [("event", 3), ("event_two", 2)]:
            frame = event(chance.below(256 ** width), chance.below(10), chance.run(n), width)
            lines += [call(name, datagram) for datagram in one_changed(chance, frame)]
    yield from dict.fromkeys(lines)


# Unanswered for how long (document 02, W-205)

def give_up(now, limit):
    return call("give_up", wide(now % ROUND, 4) + wide(limit % ROUND, 4))


def in_bytes(ticks):
    """The ticks as a book handed in has them."""
    return b"".join(wide(tick % ROUND, 4) for tick in ticks)


# Ticks, times and limits about the ends of 32 bits and of 31, of one byte and of two, and some whose bytes are told apart.
TICK_EDGES = [0, 1, 2, 255, 256, 65535, 0x01020304, 2 ** 31 - 1, 2 ** 31, 2 ** 31 + 1, 0xFCFDFEFF, ROUND - 2, ROUND - 1]

# All known commands, 0A too: a book handed in may hold it.
ALL_KNOWN = sorted(KNOWN + [0x0E])
FULL = bytes((ALL_KNOWN * 8)[:256])


def ages_about_limits():
    """For each time and each limit: requests one tick older than the limit, as old as it and one tick younger, of the ages 1 and 0, and one asked a
    tick from now, for which the clock has gone back. What is kept is what the book shows."""
    for now in TICK_EDGES:
        for limit in TICK_EDGES:
            asked = [now - limit - 1, now - limit, now - limit + 1, now - 1, now, now + 1]
            yield from [book_set(5, bytes([0x01, 0x40, 0x0E, 0x0A, 0xA9, 0x32]), in_bytes(asked)), give_up(now, limit), "book_show"]


def ages_of_edges():
    """For each time and each limit: requests asked at all these ticks, round the end too."""
    for now in TICK_EDGES:
        for limit in TICK_EDGES:
            yield from [book_set(0, FULL[3:3 + len(TICK_EDGES)], in_bytes(TICK_EDGES)), give_up(now, limit), "book_show"]


def ages_of_one_bit():
    """Each bit alone as a time, as a tick and as a limit: one tick more than the limit, and one less."""
    for bit in range(32):
        one = 1 << bit
        for asked, now in [(0, one), (one, 0), (one, one << 1), (ROUND - one, 0), (0x5A5A5A5A, 0x5A5A5A5A + one)]:
            age = (now - asked) % ROUND
            yield from ["book_fresh", ask(0x09, asked), give_up(now, age), give_up(now, age - 1), "book_show"]


def ticks_asked():
    """Ticks of every kind as asks write them down, one behind the other."""
    bits, bytes_ = [1 << bit for bit in range(32)], [byte << 8 * place for place in range(4) for byte in [0x0A, 0x80, 0xFF]]
    for ticks in [TICK_EDGES, bits, [ROUND - 1 - bit for bit in bits], bytes_]:
        yield "book_fresh"
        for place, tick in enumerate(ticks):
            yield ask(ASKED[place % len(ASKED)], tick)
        yield "book_show"


def each_number_alone():
    """Each number alone: asked, kept as long as it is no older than the limit, given up one tick later, no more awaited; and the number behind it is
    the next."""
    for number in range(256):
        tick, limit = 0x9E3779B1 * number, 1 + 0x00FEDCBA * number % (ROUND - 2)
        yield from [book_set((number + 255) % 256, b"", b""), ask(ASKED[number % len(ASKED)], tick), give_up(tick + limit, limit)]
        yield from ["book_show", give_up(tick + limit + 1, limit), "book_show", answered(number), ask(0x09, tick)]


def one_after_another():
    """Full books in which one request after the other becomes too old, in several orders, so that each number is once the only one; not awaited then."""
    for step, start, limit, last in [(1, 0, 255, 255), (255, ROUND - 128, 1000, 0), (77, 2 ** 31 - 100, ROUND - 300, 200)]:
        order = [(step * (place + 1) - 1) % 256 for place in range(256)]
        asked = [start + order.index(number) for number in range(256)]
        yield from [book_set(last, FULL, in_bytes(asked)), give_up(start + limit, limit)]
        for place, number in enumerate(order):
            yield from [give_up(start + limit + place + 1, limit), answered(number)]
            if place % 100 == 49:
                yield "book_show"
        yield "book_show"


def full_books_given_up():
    """Full books: none too old, then all 256, then none any more; all but one, and one alone."""
    for held, tick, limit in [(bytes([0xA1] * 256), 0, 0), (bytes([0x0A] * 256), ROUND - 3, 5), (FULL, 0x01020304, ROUND - 2)]:
        yield from [book_set(77, held, in_bytes([tick] * 256)), give_up(tick + limit, limit), "book_show", give_up(tick + limit + 1, limit)]
        yield from ["book_show", give_up(tick + limit + 1, limit), give_up(tick, 0), ask(0x40, 7), answered(77), answered(78), "book_show"]
    for number in [0, 1, 127, 128, 254, 255]:
        for own, others in [(1, 0), (0, 1)]:
            asked = [others] * 256
            asked[number] = own
            yield from [book_set(number, FULL, in_bytes(asked)), ask(0x09, 3), give_up(ROUND - 1, ROUND - 2), "book_show", answered(number)]
            yield from [answered((number + 1) % 256), ask(0x09, ROUND - 1), ask(0x41, ROUND - 1), give_up(ROUND - 1, ROUND - 2), "book_show"]


def filled_and_given_up():
    """A book filled by asking at one tick after the other: 9 then, the older half given up, its numbers given again in their turn, and 9 again."""
    for start in [0, ROUND - 100]:
        yield "book_fresh"
        for place in range(256):
            yield ask(ASKED[place % len(ASKED)], start + place)
        yield from [ask(0x09, start + 256), give_up(start + 256, 256), give_up(start + 256, 128), "book_show", answered(127), answered(128)]
        for place in range(130):
            yield ask(0xA9, start + 300 + place)
        yield from ["book_show", give_up(start + 500, 499), give_up(start + 500, 200), ask(0x0E, start), "book_show"]


def each_value_alone():
    """Each value as the one entry of a book, as old as the limit and older: what is no known command is nothing held, and stays as it is."""
    for value in range(256):
        yield from [book_set(9, [value], wide(value * 0x01010101, 4)), give_up(value * 0x01010101 + 6, 6), "book_show", give_up(value * 0x01010101 + 7, 6)]
        yield from ["book_show", answered(0)]


def each_value_in_one_book():
    """Books that have each value as an entry: none too old, some, all that are held; replies to all; and asks, which go over what is nothing held."""
    every = bytes(range(256))
    for last, held, asked in [(0, every, [1000] * 256), (255, every[::-1], range(256)), (100, every, range(2560, 0, -10)), (31, every, [])]:
        now, limit = 1001, 1000 if not asked else 1001 - max(asked)
        yield from [book_set(last, held, in_bytes(asked)), "book_show", give_up(now, limit + 1), give_up(now, 1000), "book_show", give_up(now, 500)]
        yield from ["book_show", give_up(now, 0), give_up(now, 0), "book_show"]
    for number in range(256):
        yield answered(number)
    yield from ["book_show", book_set(255, every, in_bytes([5] * 256)), give_up(7, 1)]
    for place in range(300):
        yield ask(ASKED[place % len(ASKED)], 100 + place)
    yield from ["book_show", give_up(400, 200), "book_show"]


# Entries of every kind: nothing, unknown, retired, of each shape.
SOME_ENTRIES = [0x00, 0x02, 0x09, 0x0A, 0x0D, 0x0E, 0x0F, 0x13, 0x40, 0xA9, 0xAF, 0xFF]


def held_and_nothing_held():
    """Entries of every kind beside one another, each older than the limit or not in every choice of two; and shown before and behind."""
    for first in SOME_ENTRIES:
        for second in SOME_ENTRIES:
            asked = [(50, 49), (49, 50), (49, 49)][(first + second) % 3]
            yield from [book_set(255, [0x01, first, second, 0xAE], in_bytes([50, *asked, 50])), "book_show", give_up(60, 10), "book_show"]
            yield from [answered(1), answered(2), ask(0x20, 60), ask(0x1D, 61), "book_show"]


def asks_after_giving_up():
    """Numbers given up on both sides of 255 and in the middle: those in turn behind the last one are given, then 9. The last one does not move before."""
    old = [0, 1, 2, 3, 100, 101, 253, 254, 255]
    for last in [0, 2, 3, 99, 101, 252, 255]:
        asked = [ROUND - 20 if number in old else ROUND - 10 for number in range(256)]
        yield from [book_set(last, FULL, in_bytes(asked)), ask(0x09, 5), give_up(ROUND - 1, 10), answered(100)]
        yield from [ask(command, place) for place, command in enumerate([0x01, 0x0A, 0x02, 0x40, 0x0E, 0xA0])]
        yield from [answered(2), answered(4), give_up(3, 12), give_up(3, 3)]
        yield from [ask(0x32, 4 + place) for place in range(7)] + [give_up(11, 12), "book_show", give_up(12, 5), "book_show"]


def replies_after_giving_up():
    """Replies to what was given up are 10; to what was kept, its command, once; then neither is given up again."""
    asked = [7 * number % 256 for number in range(256)]
    yield from [book_set(8, FULL, in_bytes(asked)), give_up(256, 128), "book_show"]
    for number in range(256):
        yield answered(number)
    yield from ["book_show", give_up(1000, 0), answered(3), ask(0x0C, 1000), give_up(1000, 0), answered(9), answered(9), give_up(2000, 0), "book_show"]
    for number in [0, 128, 255]:
        given = book_set(number, replaced(bytes(256), number, 0x31), in_bytes([9] * 256))
        yield from [given, answered(number), give_up(10, 0), answered(number), given, give_up(10, 0), answered(number), give_up(10, 0), "book_show"]


def given_up_again():
    """One time and limit twice; then a lower limit, a later time, and an earlier one."""
    asked = [ROUND - 3, 0, 3, 6, 9, 12]
    for now, limit in [(12, 9), (12, 12), (15, 3), (0, 2), (0, 3), (0, ROUND - 13), (ROUND - 3, 0), (5, 5), (12, ROUND - 1)]:
        yield from [book_set(5, bytes([0x01, 0x08, 0x09, 0x0A, 0x0B, 0x0C]), in_bytes(asked)), give_up(now, limit), give_up(now, limit), "book_show"]
        for later, other in [(now, limit // 2), (now + 1, limit), (now - 10, 3), (12, 0)]:
            yield from [give_up(later, other), "book_show"]


def refused_asks_and_ticks():
    """Asks refused with 3, 17 and 9, in books with room and without: no tick is written, whichever number would have been the next."""
    for last, held, asked in [(255, b"", []), (0, [0x09, 0x02, 0x0A], [7, 8, 9]), (2, [0x0D, 0xFF, 0x40], [ROUND - 1, 1, 0x01020304]),
                              (9, FULL, [3 * number for number in range(256)]), (255, replaced(FULL, 0, 0x0D), [5] * 256)]:
        yield from [book_set(last, held, in_bytes(asked)), "book_show"]
        for command in [0x00, 0x02, 0x0A, 0x0D, 0x13, 0xFF]:
            yield ask(command, 0x11223344)
        yield from ["book_show", ask(0x09, 0x0A0B0C0D), ask(0x0A, 0x55667788), ask(0x03, 0x55667788), "book_show", ask(0xA1, 0x99AABBCC), "book_show"]


def asks_over_nothing_held():
    """Unknown entries with ticks: an ask writes command and tick where its turn is, the others stay; a reply and giving up leave their ticks too."""
    held, asked = [0x02, 0xFF, 0x09, 0x0D, 0x0F, 0x13], [10, 20, 30, 40, 50, 60]
    for last in [0, 1, 2, 4, 5, 255]:
        yield from [book_set(last, held, in_bytes(asked)), "book_show", answered(last), ask(0x40, 1000), "book_show", ask(0x0E, 1001), "book_show"]
        yield from [answered(2), answered(0), answered(1), "book_show", give_up(1001, 0), "book_show", ask(0x41, 1002), give_up(1002, 0), "book_show"]


def ticks_handed_in():
    """Ticks of every size about their places: a short end is filled with bytes 00. Entries with and without ticks, and ticks without entries."""
    for size in list(range(13)) + [511, 512, 1019, 1020, 1021, 1022, 1023, 1024]:
        yield from [book_set(7, FULL, pattern(size)), "book_show", give_up(opinion.high_first(pattern(4)) + 1, 0x01020304), "book_show"]
    for count in [0, 1, 2, 3, 255]:
        for size in [0, 3, 6, 1024]:
            yield from [book_set(255, FULL[:count], pattern(size)), "book_show", ask(0x09, 1), ask(0x0B, 2 ** 31), "book_show", give_up(1, 0), "book_show"]
    # what stood there before is gone: another book, and a fresh one
    before = book_set(3, FULL[:5], b"\xFF" * 20)
    yield from [before, book_set(3, FULL[:5], b"\xFE"), "book_show", book_set(3, FULL[:5], b""), "book_show", give_up(0, 0), give_up(1, 0)]
    yield from [before, "book_fresh", "book_show", ask(0x09, 0), "book_show", give_up(0, 0), give_up(1, 0), "book_show"]


def giving_up_beside_what_is_carried():
    """Fresh books have nothing to give up; the readers and the capture stay as they are."""
    yield from ["fresh_request", "fresh_reply", "feed_request 04 00 40", "feed_reply A1 00 02", capture_set(0, pattern(30)), capture_empty(1)]
    yield from ["book_fresh", give_up(0, 0), give_up(ROUND - 1, 0), "book_show", ask(0x40, 3), ask(0x41, 4), give_up(5, 1), "book_show"]
    yield from ["show_request", "show_reply", "capture_show", "feed_request 06 00 00 00 00 00 00 42", "feed_reply 07 0F AB", "close_request"]
    yield from ["close_reply", answered(0), answered(1), "book_show", "help"]


def clock_runs():
    """Asks, replies and giving up as they come, by a clock that runs on, from ticks about the ends too, and in some runs goes back now and then."""
    chance = Chance(205)
    for _ in range(72):
        now = chance.pick([0, ROUND - 200, 2 ** 31 - 100, chance.below(ROUND)])
        pace, goes_back = chance.pick([1, 10, 1000, 2 ** 26]), chance.one_in(3)
        last = chance.pick([0, 127, 255, chance.below(256)])
        size = chance.pick([0, 3, 12, 40, 254 if chance.one_in(2) else 25, 256 if chance.one_in(2) else 60])
        held = bytes(chance.pick(ALL_KNOWN) if not chance.one_in(6) else chance.below(256) for _ in range(size))
        asked = in_bytes(now - chance.below(20 * pace) for _ in range(size))
        yield book_set(last, held, asked[:chance.below(len(asked) + 1)] if chance.one_in(4) else asked)
        asks = 0
        for _ in range(80):
            now += chance.below(2 * pace)
            if goes_back and chance.one_in(10):
                now -= chance.below(12 * pace)
            act = chance.below(20)
            if act < 10:
                asks += 1
                yield ask(chance.pick(ASKED) if not chance.one_in(10) else chance.pick([0x0A, chance.below(256)]), now)
            elif act < 15:
                lately = (last + 1 + chance.below(asks + 1)) % 256
                yield answered(chance.pick([lately, lately, lately, chance.below(size + 1) % 256, chance.below(256)]))
            elif act < 18:
                yield give_up(now, chance.pick([chance.below(20 * pace), chance.below(20 * pace), 8 * pace, pace, ROUND - 1 - chance.below(pace)]))
            else:
                yield "book_show"
        yield from ["book_show", give_up(now, chance.pick([0, pace, 2 ** 31])), "book_show"]


def crowded_runs():
    """Full books, or nearly, from which a few at a time are given up by a limit that falls: their numbers are given again, until 9."""
    chance = Chance(206)
    for _ in range(12):
        now, limit = chance.pick([100, ROUND - 10, chance.below(ROUND)]), 203
        last = chance.pick([0, 127, 255, chance.below(256)])
        held = bytes(chance.pick(ALL_KNOWN) if not chance.one_in(80) else chance.below(256) for _ in range(256))
        yield book_set(last, held, in_bytes(now - chance.below(200) for _ in range(256)))
        for _ in range(10):
            now, limit = now + chance.below(3), limit - chance.below(5)
            yield from [give_up(now, limit), answered(chance.below(256))]
            yield from [ask(chance.pick(ASKED), now + place) for place in range(chance.below(9))]
        yield "book_show"


def giving_up():
    for part in [ages_about_limits(), ages_of_edges(), ages_of_one_bit(), ticks_asked(), each_number_alone(), one_after_another(), full_books_given_up(),
                 filled_and_given_up(), each_value_alone(), each_value_in_one_book(), held_and_nothing_held(), asks_after_giving_up(),
                 replies_after_giving_up(), given_up_again(), refused_asks_and_ticks(), asks_over_nothing_held(), ticks_handed_in(),
                 giving_up_beside_what_is_carried(), clock_runs(), crowded_runs()]:
        yield from part


# The largest book that can be handed in: 256 commands and all their ticks.
LARGEST_BOOK = "book_set 07 /" + " A9" * 256 + " /" + " 0A" * 1024

# Lines that are no call of asking, giving up and books with ticks, by the rows of "What is no call", from its second; some are so by several rows.
GIVING_UP_NO_CALLS = [
    filled("give_up 00 00 00 09 00 00 00 01", 4096), filled("ask 09 00 00 00 07", 4096), filled(LARGEST_BOOK, 4096), "give_up" + " 00" * 1363,
    " " * 4065 + "give_up 00 00 00 09 00 00 00 01", filled("give_ups 00", 4096), filled("give_up zz", 4096),
    "book_set 07 /" + " A9" * 256 + " /" + " 0A" * 1105,

    "give", "give_", "give_u", "give_ups 00 00 00 09 00 00 00 01", "Give_up 00 00 00 09 00 00 00 01", "GIVE_UP", "giveup 00 00 00 09 00 00 00 01",
    "give_up_ 00 00 00 09 00 00 00 01", "give-up", "give up 00 00 00 09 00 00 00 01", "give_up: 00", "give_up/ 00", "_give_up", "give_up\t00", "give_up\r",
    "give_up\x00 00", "up", "gave_up", "given_up", "give_up_all", "give_up_quiet 00 00 00 09 00 00 00 01", "book_give_up", "book_age 00", "age 00",
    "free 00", "tick 00", "ticks", "tick_set", "ticks_set /", "ask_at 09 00 00 00 07", "ask_tick", "asks 09 00 00 00 07", "Ask 09 00 00 00 07",
    "as 09", "forget",
    "book_sets 00 / /", "book_tick", "book_ticks", "book", "Give_up / zz", "00 give_up",

    "give_up 0", "give_up 00 00 00 09 00 00 00 1", "give_up 00 00 00 09 00 00 00 001", "give_up 0000000900000001", "give_up 00000009 00000001",
    "give_up 9 1", "give_up zz", "give_up 00 00 00 09 00 00 00 0G", "give_up 00 00 00 09 00 00 00 zz 00", "give_up 00 00 00 09 / 00 00 00 zz",
    "give_up 00 00 00 09/00 00 00 01", "give_up 00 00 00 09 // 00 00 00 01", "give_up 00 00 00 09 00 00 00 01\r", "give_up 00 00 00 09\t00 00 00 01",
    "give_up 00 00 00 09 00 00 00 -1", "give_up 00 00 00 09 00 00 00 \xB9\xB2", "give_up all", "ask 09 7", "ask 09 00000007", "ask 09 00 00 00 7",
    "ask 09 00 00 00 0x07", "ask 09 00 00 00 zz", "ask zz 00 00 00 07", "ask 09 / zz", "ask 09 00 00 00 07 now", "book_set 00 / 09 / 7",
    "book_set 00 / 09 / 00 00 00 zz", "book_set 00 / 09 / 00000007", "book_set 00 / 09 /00 00 00 07", "book_set 00 / 09 // 07", "book_set zz",

    "give_up /", "give_up / /", "give_up 00 00 00 09 / 00 00 00 01", "give_up 00 00 00 09 00 00 00 01 /", "give_up / 00 00 00 09 00 00 00 01",
    "give_up 00 00 00 09 00 00 00 01 / 00", "give_up 00 00 00 / 09 00 / 00 00 01", "ask /", "ask 09 /", "ask 09 / 00 00 00 07", "ask / 09 00 00 00 07",
    "ask 09 00 00 00 07 /", "ask 09 00 00 / 00 07", "answer 00 / 00 00 00 07", "answer 00 /", "book_set 00 00 00 07", "book_set /", "book_set 00 /",
    "book_set 00 / 09", "book_set 00 / 09 00 00 00 07", "book_set 00 /" + " 09" * 256, "book_set 00 / 09 / 00 00 00 07 /", "book_set 00 / / /",
    "book_set / / / /", "book_set 00 / 09 / 00 00 00 07 / 00", "book_set 00 / 09 / 00 00 / 00 07", "book_set 00 /" + " 09" * 257,
    "book_set 00 / 09 / 00 00 00 07 / 0B / 00 00 00 08", "book_fresh / /", "book_show /",

    "give_up", "give_up ", "give_up 00", "give_up 00 00 00 09", "give_up 00 00 00 09 01", "give_up 00 00 00 09 00 00 00",
    "give_up 00 00 00 09 00 00 00 01 00", "give_up 00 00 00 00 09 00 00 00 01", "give_up" + " 00" * 16, "give_up" + " 00" * 256,
    "ask 09", "ask 09 07", "ask 09 00 07", "ask 09 00 00 07",
    "ask 00 00 00 07", "ask 09 00 00 00 00 07", "ask 09 00 00 00 07 00", "ask 0A", "ask 02", "ask 09 0B 00 00 00 07", "ask 09 00 00 00 00 00 00 00 07",
    "ask 09 00 00 00 07 0B 00 00 00 08", "answer 00 00 00 00 07", "answer 00 00 00 00", "book_set / /", "book_set / 09 /", "book_set / / 00 00 00 07",
    "book_set 00 00 / /", "book_set 00 07 / 09 / 00 00 00 07", "book_set 00 00 00 07 / 09 / 00 00 00 07", "book_set 00 /" + " 09" * 257 + " /",
    "book_set 00 /" + " 09" * 257 + " / 00 00 00 07", "book_set 00 /" + " 09" * 300 + " / 00", "book_set 00 / /" + " 07" * 1025,
    "book_set 00 / 09 /" + " 07" * 1025, "book_set 00 /" + " 09" * 256 + " /" + " 07" * 1025, "book_set 00 / /" + " 07" * 1028,
    "book_set 00 /" + " 09" * 257 + " /" + " 07" * 1025, "book_set 00 /" + " 09" * 256 + " /" + " 07" * 1100, "book_set 00 / /" + " 07" * 1350,
    "book_fresh 00 00 00 07", "book_show 00 00 00 07",
]

# The longest lines, blanks before, between and behind the words, small letters, and groups without bytes.
GIVING_UP_CALLS_SET_OTHERWISE = [
    "  ask  09  0a bB  Cc 0d  ", "ask a9 00 00 00 0f", " ask 0e ff Ff fF fe ", "book_show", "give_up   00 00 00 0F   ff 00 00 00",
    "give_up 0a bb cc 1c 00 00 00 0f", " book_show  ", "  give_up  0A Bb  cC 1d  00 00 00 0F ", "book_show ", filled("ask a0 00 00 00 01", 4095),
    " " * 4077 + "ask A0 00 00 00 02", "ask" + " " * 4078 + "a1 00 00 00 03", filled("give_up 00 00 00 09 00 00 00 07", 4095),
    " " * 4064 + "give_up 00 00 00 09 00 00 00 06", "give_up" + " " * 4065 + "00 00 00 09 00 00 00 06", "book_show", filled(LARGEST_BOOK, 4095),
    "book_show", "give_up 0a 0a 0a 0b 00 00 00 00", "book_set 07 /" + " a9" * 256 + " /" + " 0a" * 1024, "give_up 0a 0a 0a 0b 00 00 00 01",
    "give_up 0a 0a 0a 0b 00 00 00 00",
    "book_set 07 / /", " book_set  07  /  / ", "book_show", "book_set 07 / aE / fF", "  book_show", "book_set 07 / / 00 00 00 07", "book_show",
    " book_set  07  /  ae  02  /  00 00 00 0a  0B  ", "book_show", "give_up 00 00 00 0b 00 00 00 00", "book_show", "answer  01", "answer 00",
]


def no_giving_up_calls():
    """Lines that are no call, between what the run carries: a book with ticks that they neither ask nor free nor set."""
    yield from ["book_fresh", ask(0x41, 2), ask(0x40, 0x01020304), ask(0x0E, ROUND - 1), "book_show"]
    yield from GIVING_UP_NO_CALLS + ["book_show"] + GIVING_UP_CALLS_SET_OTHERWISE
    yield from ["book_fresh", ask(0x09, 1), give_up(2, 1), give_up(2, 0), "book_show"]


# The contractor's filter plan (document 02, W-212)

def added(address, instance, mask, sequence=0):
    """A request 31."""
    return basic(sequence, 0x31, bytes([address, instance]) + wide(mask, 2))


def cleared(address, instance, mask, sequence=0):
    """A request 33."""
    return basic(sequence, 0x33, bytes([address, instance]) + wide(mask, 2))


def plan(requests, *events):
    return call("plan", b"".join(requests), b"".join(bytes(event) for event in events))


# Both requests, and keys of both kinds: a gear, and an instance of a control device.
CHANGES = [added, cleared]
GEAR_KEY, DEVICE_KEY = (5, 255), (68, 3)

# Types 3 and 8 are meant; with the bytes of the mask exchanged they are 0 and 11.
MEANT, SWAPPED = 0x0108, 0x0801

# What the program plan is run on, and the case of last March. The corridor is instance 3 of device 68, and its mask is swapped in the plan.
MARCH = [
    added(12, 255, 0x0308, 1), added(13, 255, 0x0308, 2), added(68, 2, 0x0108, 3), added(68, 3, SWAPPED, 4), added(68, 4, 0x0104, 5),
    cleared(13, 255, 0x0200, 6), added(69, 0, 0x0080, 7), cleared(70, 1, 0xFFFF, 8), added(69, 0, 0x8000, 9), cleared(69, 0, 0x8080, 10),
    added(71, 31, 0x0080, 11),
]
MARCH_WANTED = """\
# The corridor and its neighbours: address, instance, type
68 3 6
68 3 0
68 3 1

68 2 6
68 4 6
69 0 7
71 31 6
12 255 5
"""
MARCH_EVENTS = [bytes(int(word) for word in line.split()) for line in MARCH_WANTED.split("\n") if line and line[0] != "#"]


def march():
    """The plan as it came and as it was meant, request by request, each wanted event alone, and all of them from each on."""
    meant = MARCH[:3] + [added(68, 3, MEANT, 4)] + MARCH[4:]
    for requests in [MARCH, meant]:
        for count in range(len(requests) + 1):
            yield plan(requests[:count], *MARCH_EVENTS)
        for place, event in enumerate(MARCH_EVENTS):
            yield from [plan(requests, event), plan(requests, *MARCH_EVENTS[place:])]
        yield plan(requests)


# One filter and one event

def plans_without_requests():
    """No request: whatever is wanted, nothing is hidden."""
    for size in list(range(1, 10)) + [255, 256]:
        for run in [bytes(size), pattern(size), b"\xFF" * size]:
            yield call("plan", b"", run)
    yield from [call("plan", b"", b""), call("plan", b"", pattern(1363))]


ABOVE = [16, 17, 24, 31, 32, 47, 64, 128, 240, 255]


def one_bit_filters():
    """Each bit alone and each type; each type beside a full mask; and types above 15 beside the bit that their low bits name."""
    for key in [GEAR_KEY, DEVICE_KEY]:
        for bit in range(16):
            for type_ in list(range(16)) + ABOVE[bit % 2::2]:
                yield plan([added(*key, 1 << bit)], [*key, type_])
    for type_ in range(256):
        key = [GEAR_KEY, DEVICE_KEY][type_ % 2]
        yield plan([added(*key, 0xFFFF)], [*key, type_])
        yield plan([added(*key, 1 << type_ % 16)], [*key, type_])
        yield plan([added(*key, 0xFFFF - (1 << type_ % 16))], [*key, type_])


def types_of(key, order=1):
    """All types up to 15 of a key as wanted events, the lowest first or the highest."""
    return [[*key, type_] for type_ in range(16)][::order]


PLAN_MASKS = [0x0000, 0x0001, 0x8000, 0x0108, 0x0801, 0x0101, 0x00FF, 0xFF00, 0x1234, 0xFFFF]


def swapped_masks():
    """Masks whose two bytes are told apart, each with its bytes exchanged: the lowest and the highest type that they hide, and each alone."""
    for mask in [0x0108, 0x0001, 0x0080, 0x00FF, 0x0304, 0x1248, 0x0101, 0x8080, 0x7F80, 0x0FF0]:
        for given in [mask, mask % 256 * 256 + mask // 256]:
            for key in [GEAR_KEY, DEVICE_KEY]:
                yield from [plan([added(*key, given)], *types_of(key, order)) for order in [1, -1]]
            yield from [plan([added(*DEVICE_KEY, given)], event) for event in types_of(DEVICE_KEY)]
            yield plan([added(*DEVICE_KEY, 0xFFFF), cleared(*DEVICE_KEY, given)], *types_of(DEVICE_KEY))


def pairs_of_masks():
    """Two requests for one filter, and three: bits that join, bits that go, bits that are not there, mask 0 and all of them."""
    for first in PLAN_MASKS:
        for second in PLAN_MASKS:
            for change in CHANGES:
                key = [GEAR_KEY, DEVICE_KEY][(first + second) % 2]
                yield from [plan([added(*key, first), change(*key, second)], *types_of(key, order)) for order in [1, -1]]
    some = PLAN_MASKS[1:7:2] + PLAN_MASKS[2:7:2]
    for first in some:
        for second in some:
            for third in some:
                order = 1 if first < third else -1
                yield plan([added(*GEAR_KEY, first), cleared(*GEAR_KEY, second), added(*GEAR_KEY, third)], *types_of(GEAR_KEY, order))
                yield plan([added(*DEVICE_KEY, first), added(*DEVICE_KEY, second), cleared(*DEVICE_KEY, third)], *types_of(DEVICE_KEY, order))


# Keys that are near to each other, and address and instance of events that no filter can have.
NEAR_KEYS = [(68, 3), (68, 2), (68, 4), (68, 19), (67, 3), (69, 3), (100, 3), (67, 4), (4, 255), (5, 255), (3, 255), (64, 0), (64, 31), (127, 0), (127, 31),
             (0, 255), (63, 255)]
NO_KEYS = [(4, 3), (68, 255), (67, 255), (64, 255), (127, 255), (5, 0), (5, 3), (5, 31), (0, 0), (63, 31), (132, 3), (196, 3), (128, 0), (68, 35), (68, 131),
           (68, 67), (3, 68), (255, 5), (255, 68), (255, 3), (255, 0), (255, 255), (128, 255), (64, 32)]


def filters_beside_each_other():
    """A filter hides the events of its own address and instance and no others, and is cleared by them alone."""
    for key in NEAR_KEYS:
        for other in NEAR_KEYS + NO_KEYS:
            yield plan([added(*key, 0xFFFF)], [*other, 0], [*other, 15])
    for key in NEAR_KEYS:
        for other in NEAR_KEYS:
            yield plan([added(*key, SWAPPED), added(*other, MEANT), cleared(*other, 0xFFFF)], [*other, 3], [*key, 3], [*key, 0])
    everything = [added(*key, 0xFFFF) for key in NEAR_KEYS]
    for other in NO_KEYS:
        yield plan(everything, [*other, 0])


def clears_where_nothing_is():
    """Nothing there to clear: before the first request, of another filter, of one that was dropped; what is added later stands."""
    for key in [GEAR_KEY, DEVICE_KEY]:
        for mask in PLAN_MASKS:
            events = types_of(key)
            yield from [plan([cleared(*key, mask)], *events), plan([cleared(*key, mask), added(*key, mask)], *events)]
            yield plan([added(*key, mask), cleared(*key, mask)], *events)
            yield plan([added(*key, mask), cleared(*key, mask), cleared(*key, mask), added(*key, 0x0400), cleared(*key, mask)], *events)
            yield plan([added(*key, mask), cleared(*key, 0xFFFF), added(*key, 0), cleared(*key, mask)], *events)
            yield plan([added(*key, 0), added(*key, mask), added(*key, 0)], *events)


# Wanted lists

def wanted_lists():
    """Which event is named: the first, by its place among the threes; one and two bytes at the end count for nothing."""
    filters = [added(*DEVICE_KEY, SWAPPED), added(*GEAR_KEY, MEANT), added(64, 0, 0x0001), added(0, 255, 0x0001)]
    hidden, shown = [[68, 3, 0], [5, 255, 8], [64, 0, 0], [0, 255, 0]], [[68, 3, 3], [5, 255, 0], [68, 4, 0], [6, 255, 8], [68, 3, 27]]
    for count in list(range(20)) + [84, 85, 86, 170, 254, 255, 256, 257]:
        before = [shown[(count + place) % len(shown)] for place in range(count)]
        yield plan(filters, *before)
        yield plan(filters, *before, hidden[count % 4])
        yield plan(filters, *before, hidden[count % 4], hidden[(count + 1) % 4], shown[0])
    # an end that would be hidden, were it filled up, or were its bytes read from another place
    for size in [1, 2]:
        for event in hidden + shown:
            for before in [[], [shown[0]], [shown[1], shown[2]]]:
                yield plan(filters, *before, event[:size])
        for event in hidden:
            yield plan(filters, event, event[:size])
    for front in [[0], [0, 0], [68], [68, 3], [0, 255], [9, 9]]:
        for event in hidden:
            yield plan(filters, front, event)
            yield plan(filters, front, event, event, event)
            yield plan(filters, shown[0], front, event, shown[1])


def orders_of_requests():
    """The same requests in every order: what is left depends on it, where one of them clears."""
    three = [added(*DEVICE_KEY, 0x0109), cleared(*DEVICE_KEY, 0x0801), added(*DEVICE_KEY, SWAPPED), added(*GEAR_KEY, MEANT), cleared(*GEAR_KEY, MEANT)]
    for first in three:
        for second in three:
            for third in three:
                yield plan([first, second, third], [5, 255, 3], [68, 3, 8], [68, 3, 0], [68, 3, 11])


# Bad requests

# A plan that is good, with what it hides and what it does not.
GOOD_PLAN = [added(*DEVICE_KEY, MEANT, 1), added(0, 255, 0xFFFF, 2), cleared(0, 255, 0x8000, 3), added(127, 31, 0x0001, 4)]
HIDDEN_THERE = [68, 3, 3]
SHOWN_THERE = [68, 3, 0]

# By their numbers, from 2: 1 is an end, and 19 needs 64 filters.
BAD_REQUESTS = {
    2: [resummed(replaced(added(*DEVICE_KEY, MEANT), 0, lead)) for lead in [0x00, 0x03, 0x05, 0x14, 0x5A, 0x84, 0xA0, 0xFF]]
       + [replaced(added(*DEVICE_KEY, MEANT), 0, 0x05), b"\x05" + pattern(7), bytes(8), b"\xFF" * 8],
    3: [basic(7, command, [68, 3, 1, 8]) for command in [0x00, 0x02, 0x13, 0x30, 0x35, 0x3F, 0x42, 0x9F, 0xAF, 0xB3, 0xFF]]
       + [spoilt(basic(7, 0x30, [68, 3, 1, 8])), b"\x04" * 8],
    4: [basic(7, 0x40, [length, 34, 107, 192]) for length in [0, 5, 7, 70, 255]] + [basic(7, 0x0E, [1, 254, type_, 9]) for type_ in UNLISTED_TYPES]
       + [spoilt(basic(7, 0x40, [7, 34, 107, 192])), spoilt(basic(7, 0x0E, [80, 254, 0, 9])), b"\x04\x00\x40" + bytes(5), b"\x04\x00\x0E" + bytes(5)],
    5: [basic(7, 0x40, [6, 34, 107, 192]), spoilt(basic(7, 0x40, [6, 34, 107, 192])), spoilt(basic(7, 0x0E, [80, 254, 0x20, 9]))]
       + [basic(7, 0x0E, [1, 254, type_, 9]) for type_ in LISTED_TYPES] + [frame[:8] for frame in [unicast(9, pattern(6))] + COLOUR_FRAMES],
    6: [spoilt(added(*DEVICE_KEY, MEANT)), spoilt(cleared(*GEAR_KEY, MEANT)), added(*DEVICE_KEY, MEANT)[:7] + b"\x00", spoilt(added(64, 255, MEANT)),
        spoilt(added(*DEVICE_KEY, 0)), spoilt(plain(7, 0x0A)), spoilt(frame_of(0x32, 7)), spoilt(frame_of(0xA9, 7)), spoilt(basic(7, 0xA9, [80, 0, 0, 0]))],
    7: [change(*key, MEANT) for change in CHANGES for key in [(64, 255), (127, 255), (63, 0), (0, 31), (64, 32), (127, 254), (128, 0), (128, 255), (255, 255)]]
       + [added(63, 254, 0), cleared(255, 3, 0), basic(7, 0xA9, [80, 0, 0, 0]), basic(7, 0x32, [68, 64, 0, 3]), basic(7, 0x0A, [0, 0, 0, 1]),
          basic(7, 0x01, [68, 3, 1, 8])],
    18: [frame_of(command, 7) for command in KNOWN if command not in [0x31, 0x33, 0x40]] + [basic(7, 0x32, [68, 3, 0, 8]), basic(7, 0x20, [0, 255, 1, 8])],
}


def bad_requests():
    """Each alone, first, between and last, with an event that is hidden and one that is not; and behind two of them that are good."""
    for requests in BAD_REQUESTS.values():
        for bad in requests:
            yield plan([bad], SHOWN_THERE)
            for place in [0, 2, 4]:
                yield plan(GOOD_PLAN[:place] + [bad] + GOOD_PLAN[place:], [SHOWN_THERE, HIDDEN_THERE][place // 2 % 2])
            yield plan(GOOD_PLAN[:1] + [bad], HIDDEN_THERE)


def first_of_several():
    """Two bad requests, of every two numbers in both orders: the first is named, whatever its number is. And one of each, from each on."""
    some = [requests[0] for requests in BAD_REQUESTS.values()] + [BAD_REQUESTS[18][-1]]
    for one in some:
        for other in some:
            yield from [plan([one, other]), plan([GOOD_PLAN[0], one, GOOD_PLAN[1], other, GOOD_PLAN[2]], HIDDEN_THERE)]
        yield plan([GOOD_PLAN[0], one, GOOD_PLAN[1][:5]], HIDDEN_THERE)
    for place in range(len(some) + 1):
        yield from [plan(GOOD_PLAN + some[place:]), plan(GOOD_PLAN + some[place:][::-1], HIDDEN_THERE)]


# Frames of 8 bytes, with wrong bytes and their places.
PLAN_FAULTS = [
    (added(*DEVICE_KEY, MEANT), [(0, 0x05), (2, 0x30), (3, 128)]),
    (cleared(*GEAR_KEY, MEANT), [(0, 0x00), (2, 0x40), (4, 0)]),
    (added(*GEAR_KEY, MEANT), [(0, 0xA1), (2, 0x0E), (4, 31), (5, 0x10)]),
    (basic(0, 0xA9, [79, 0, 0, 0]), [(0, 0x06), (2, 0x9F), (3, 80)]),
    (basic(0, 0x40, [6, 0, 255, 1]), [(0, 0x44), (2, 0x31), (3, 7)]),
    (basic(0, 0x0E, [127, 31, 0x20, 1]), [(0, 0x0E), (2, 0x33), (5, 0x21), (3, 128)]),
    (basic(0, 0x32, [64, 0, 0, 255]), [(2, 0x31), (6, 32), (5, 1)]),
]


def several_faults():
    """Several faults in one request: the lowest number is given. Its sum is right or not, it is whole, cut, or a byte too long."""
    for frame, wrong_bytes in PLAN_FAULTS:
        for request in faulty(frame, wrong_bytes):
            for run in [request, spoilt(request)]:
                yield from [plan([run], HIDDEN_THERE), plan([GOOD_PLAN[0], run, GOOD_PLAN[1]])]
            yield from [plan([GOOD_PLAN[0], request[:7]], HIDDEN_THERE), plan([request + b"\x04", GOOD_PLAN[0]], SHOWN_THERE)]


def every_command():
    """Every command number in a request of 8 bytes with the arguments of a filter and without, alone and between good ones; and frames of more bytes."""
    for command in range(256):
        for arguments in [[0, 0, 0, 0], [68, 3, 1, 8], [5, 255, 1, 8]]:
            yield plan([basic(command, command, arguments)], [68, 3, 3], [5, 255, 3])
        yield plan([GOOD_PLAN[0], frame_of(command, 255 - command), GOOD_PLAN[1]], SHOWN_THERE)
        yield plan([GOOD_PLAN[3], basic(0, command, [5, 255, 1, 8])], [127, 31, 0])
    for frame in [unicast(9, pattern(6))] + COLOUR_FRAMES:
        for bad in [frame, spoilt(frame)]:
            yield from [plan([bad]), plan([bad, GOOD_PLAN[0]]), plan(GOOD_PLAN + [bad, GOOD_PLAN[0]]), plan(GOOD_PLAN + [bad], HIDDEN_THERE)]


def printed_plans():
    """The frames that source 002 prints, as they are and with their sums put right, each as a plan; its filters in both orders, and all its requests."""
    for frame in printed_frames():
        yield from [plan([frame], [0, 255, 3]), plan([resummed(frame)], [0, 255, 3])]
    requests = [resummed(frame) for frame in printed_frames() if len(frame) == 8 and frame[0] == 0x04]
    filters = [frame for frame in requests if frame[2] in [0x31, 0x33]]
    yield from [plan(filters, [0, 255, 8]), plan(filters[::-1], [0, 255, 8]), plan(filters + requests), plan(requests)]


PLAN_EDGES = [0, 1, 30, 31, 32, 62, 63, 64, 65, 126, 127, 128, 129, 254, 255]


def ranges_of_filters():
    """Every address and every instance, and both about the ends of their ranges. Where the request is good, its event is hidden, or shown again."""
    for value in range(256):
        for address, instance in [(value, 0), (value, 255), (63, value), (64, value)]:
            yield plan([added(address, instance, 0x0010)], [address, instance, 4])
    for address in PLAN_EDGES:
        for instance in PLAN_EDGES:
            yield plan([added(*DEVICE_KEY, MEANT), cleared(address, instance, 0xFFFF)], [address, instance, 4])
            yield plan([added(*GEAR_KEY, MEANT), added(address, instance, 0)], [address, instance, 0], [5, 255, 8])
    for sequence in range(256):
        yield plan([added(*DEVICE_KEY, MEANT, sequence), cleared(*DEVICE_KEY, 0x0100, 255 - sequence)], [68, 3, 3 + 5 * (sequence % 2)])


def short_ends():
    """An end of 1 to 7 bytes is 1, behind good requests, bad ones and none, and whatever its bytes are."""
    for size in range(1, 8):
        for end in [added(*DEVICE_KEY, MEANT)[:size], bytes(size), b"\xFF" * size, pattern(size), plain(0, 0x09)[:size]]:
            for count in range(5):
                yield plan(GOOD_PLAN[:count] + [end], [HIDDEN_THERE, SHOWN_THERE][count % 2])
            yield plan([end])
            for number in [2, 3, 6, 7, 18]:
                yield plan([GOOD_PLAN[0], BAD_REQUESTS[number][0], end])
    whole = b"".join(GOOD_PLAN)
    for size in range(len(whole) + 1):
        yield from [plan([whole[:size]], HIDDEN_THERE), plan([whole[size:]], SHOWN_THERE), plan([whole[:size], whole], HIDDEN_THERE)]


# Full tables

def some_keys(chance, count):
    """So many filters' addresses and instances, no two the same."""
    keys = []
    while len(keys) < count:
        key = (chance.below(64), 255) if chance.one_in(3) else (64 + chance.below(64), chance.below(32))
        if key not in keys:
            keys.append(key)
    return keys


# 64 keys, and one more.
FULL_TABLES = [
    ([(address, 255) for address in range(64)], (64, 0)),
    ([(address, 31 - address % 32) for address in range(127, 63, -1)], (0, 255)),
    ([(68 + place // 32, place % 32) for place in range(64)], (70, 0)),
    (some_keys(Chance(64), 64), (63, 255)),
]


def full_tables():
    """64 filters are kept, and a 65th is 19, at the request that needs it. Mask 0 needs no room, nor does a filter that is there."""
    for number, (keys, more) in enumerate(FULL_TABLES):
        full = [added(*key, MEANT, place) for place, key in enumerate(keys)]
        first, last = keys[0], keys[-1]
        for count in [63, 64]:
            yield plan(full[:count], [*more, 3], [*last, 3])
            yield plan(full[:count] + [added(*more, SWAPPED)], [*more, 3], [*last, 0])
        yield from [plan(full), plan(full, [*keys[31], 0], [*keys[32], 3])]
        # a 65th, and behind it what would make room or is bad; and the others behind it
        for behind in [[], [cleared(*more, 0xFFFF)], [cleared(*first, 0xFFFF)], [spoilt(full[0])], [full[0][:4]], [added(*more, MEANT)]]:
            yield plan(full + [added(*more, 1 << number)] + behind, [*first, 3])
        for mask in [0x8000, 0xFFFF]:
            yield from [plan(full + [added(*more, 0), added(*more, mask)], [*first, 3]), plan([added(*more, mask)] + full)]
        # what the 65th request is instead
        for bad in [spoilt(added(*more, 1)), added(*more, 1)[:7], added(128, 0, 1), frame_of(0x32, 1), basic(0, 0x40, [6, 1, 1, 1]),
                    resummed(replaced(full[0], 0, 5))]:
            yield plan(full + [bad, added(*more, 1)], [*first, 3])
        # mask 0, and filters that are there
        yield from [plan(full + [added(*more, 0)], [*more, 0]), plan(full + [added(*more, 0)] * 3 + [cleared(*more, 0xFFFF)], [*first, 8])]
        # nothing there to clear makes no room
        yield plan(full + [cleared(*more, 0xFFFF), added(*more, 1)])
        for place in [0, 20 + 7 * number, 63]:
            key = keys[place]
            yield plan(full + [added(*key, SWAPPED)], [*key, 1], [*key, 11])
            yield plan(full + [added(*key, SWAPPED), added(*more, 1)], [*key, 11])
            # bits that stay, bits that are not there, mask 0: no room; all bits, at once and in two steps: room for one
            for clearing in [[0x0100], [SWAPPED], [0]]:
                yield plan(full + [cleared(*key, mask) for mask in clearing] + [added(*more, 1)], [*key, 3])
            for clearing in [[MEANT], [0xFFFF], [0x0909, MEANT]]:
                yield plan(full + [cleared(*key, mask) for mask in clearing] + [added(*more, 1)], [*key, 3], [*more, 0])
            yield plan(full + [cleared(*key, MEANT), added(*more, 1), added(*key, 1)], [*more, 0])
            yield plan(full + [cleared(*key, MEANT), added(*more, 1), cleared(*more, 1), added(*key, 2)], [*key, 3], [*more, 0], [*key, 1])


def each(change, keys, mask):
    """The same request for each of the keys."""
    return [change(*key, mask) for key in keys]


def long_plans():
    """As many requests as a line holds: filters of mask 0, filters made and dropped, each made twice, and one of every kind about 64."""
    keys = some_keys(Chance(65), 170)
    full = each(added, keys[:64], MEANT)
    yield plan(each(added, keys, 0), [*keys[0], 0])
    yield plan(each(added, keys[64:164], 0) + full, [*keys[100], 0], [*keys[63], 8])
    yield plan(each(added, keys[:100], 0) + full + each(added, keys[64:65], MEANT))
    yield plan([change(*key, MEANT) for key in keys[:85] for change in CHANGES], [*keys[84], 3])
    yield plan([change(*key, MEANT) for key in keys[:85] for change in CHANGES[::-1]])
    yield plan(full * 2, [*keys[64], 3], [*keys[5], 3])
    yield plan(full + each(cleared, keys[:64], MEANT), *[[*key, 3] for key in keys[:64]])
    yield plan(full + each(cleared, keys[:64], 0x0100) + each(added, keys[:21], 2), *[[*key, 8] for key in keys[:57]])
    for count in [104, 105]:
        yield plan(full + each(cleared, keys[:40], MEANT) + each(added, keys[64:count], MEANT), [*keys[103], 3])
    yield plan(full[:60] + [change(*key, mask) for key in keys[60:115] for change, mask in [(added, 1), (cleared, 0xFFFF)]], [*keys[99], 0])
    turns = [added(*DEVICE_KEY, 1 << place % 16, place) for place in range(170)]
    yield from [plan(turns, [68, 3, 15]), plan(turns[1:] + [cleared(*DEVICE_KEY, 0xFFFF)], [68, 3, 15])]
    same = [added(*DEVICE_KEY, 1)]
    yield from [plan(same * 169 + [spoilt(same[0])], [68, 3, 0]), plan(same * 170 + [same[0][:3]])]
    others = [[68, 3, 1 + place % 255] for place in range(451)]
    yield from [plan(same, *others[1:], [68, 3, 0]), plan(same, *others, [68, 3])]


# Plans by chance

PLAN_KEYS = [(0, 255), (5, 255), (63, 255), (64, 0), (68, 3), (68, 4), (69, 3), (127, 31)]


def some_mask(chance):
    """A mask of one bit, of two, of a byte, of any bits, of none or of all."""
    bits = [1 << chance.below(16), 1 << chance.below(16) | 1 << chance.below(16), 0xFF << chance.pick([0, 8]), chance.below(65536), 0, 0xFFFF]
    return bits[chance.pick([0, 0, 0, 1, 1, 1, 2, 3, 3, 4, 5])]


def some_change(chance, keys):
    """A good request for one of the keys."""
    return chance.pick([added, added, cleared])(*chance.pick(keys), some_mask(chance), chance.below(256))


def some_bad_request(chance, keys):
    """A bad one: of the kinds above, or a good one with one byte changed, its sum put right or not."""
    if chance.one_in(2):
        return chance.pick(BAD_REQUESTS[chance.pick([2, 3, 4, 5, 6, 7, 7, 18, 18])])
    request = damaged_frame(chance, some_change(chance, keys))
    return request if chance.one_in(2) else resummed(request)


def some_wanted(chance, keys):
    """An event, most often of one of the keys and of a type up to 15."""
    if chance.one_in(12):
        return chance.run(3)
    key = chance.pick(keys) if not chance.one_in(6) else chance.pick(PLAN_KEYS)
    return bytes([*key, chance.below(16) if not chance.one_in(10) else chance.below(256)])


def plans_by_chance():
    """Few filters, many changes: joined, cleared, dropped and made again."""
    chance = Chance(212)
    for _ in range(4600):
        keys = [chance.pick(PLAN_KEYS) for _ in range(1 + chance.below(3))]
        requests = [some_change(chance, keys) for _ in range(chance.below(8))]
        if chance.one_in(4):
            requests.insert(chance.below(len(requests) + 1), some_bad_request(chance, keys))
        if chance.one_in(16):
            requests.append(some_change(chance, keys)[:1 + chance.below(7)])
        events = [some_wanted(chance, keys) for _ in range(chance.below(8))]
        yield plan(requests, *events, chance.run(chance.pick([0, 0, 0, 1, 2])))


def crowded_plans():
    """About 64 filters, of which some are dropped now and then: 19 early, late and never."""
    chance = Chance(213)
    for _ in range(90):
        keys, requests = some_keys(chance, 60 + chance.below(24)), []
        drops = chance.pick([0, 0, 3, 6, 12])
        for place, key in enumerate(keys):
            mask = some_mask(chance)
            requests.append(added(*key, mask if chance.one_in(30) else mask or 1, chance.below(256)))
            if drops and place > 20 and chance.one_in(drops):
                requests.append(cleared(*keys[chance.below(place)], chance.pick([0xFFFF, 0xFFFF, some_mask(chance)])))
            if chance.one_in(20):
                requests.append(some_change(chance, keys[:place + 1]))
        if chance.one_in(12):
            requests.insert(chance.below(len(requests)), some_bad_request(chance, keys))
        events = [some_wanted(chance, keys) for _ in range(chance.pick([0, 1, 3, 20]))]
        yield plan(requests[:160], *events)


def names_of_plan_refusals():
    """The names of 18 and 19 into buffers of every size about theirs; their neighbours, and the same numbers of the other kinds and as hexadecimal."""
    for number in [18, 19]:
        for size in range(15):
            yield call("name", [0, number], pattern(size))
    for kind, number in [(0, 17), (0, 20), (0, 21), (0, 0x18), (0, 0x19), (1, 18), (1, 19), (2, 18), (3, 19), (4, 18), (5, 19)]:
        yield call("name", [kind, number], pattern(13))


def plans_beside_what_is_carried():
    """The book, the readers, the capture and the seasons in parts stay as they are, and a plan is judged the same whatever they hold."""
    yield from CARRIED + CARRIED_SHOWN[:4]
    for requests in [GOOD_PLAN, GOOD_PLAN[:2] + [GOOD_PLAN[2][:5]], [BAD_REQUESTS[18][0]], MARCH, []]:
        yield from [plan(requests, HIDDEN_THERE, [68, 3, 0])] + CARRIED_SHOWN[:4]
    yield from CARRIED_SHOWN + [plan(GOOD_PLAN, HIDDEN_THERE)]
    # a filter that one plan makes is not there for the next
    for requests in [[added(*DEVICE_KEY, 1)], [], [cleared(*DEVICE_KEY, 1)], [added(*DEVICE_KEY, 2)]]:
        yield plan(requests, [68, 3, 0])
    for keys, more in FULL_TABLES[:2]:
        yield from [plan([added(*key, 1) for key in keys]), plan([added(*more, 1)], [*keys[0], 0], [*more, 0])]
    yield "help"


def filter_plans():
    for part in [march(), plans_without_requests(), one_bit_filters(), swapped_masks(), pairs_of_masks(), filters_beside_each_other(), clears_where_nothing_is(),
                 wanted_lists(), orders_of_requests(), bad_requests(), first_of_several(), several_faults(), every_command(), printed_plans(),
                 ranges_of_filters(), short_ends(), names_of_plan_refusals(), plans_beside_what_is_carried()]:
        yield from part


def crowded_filter_plans():
    for part in [full_tables(), long_plans(), plans_by_chance(), crowded_plans()]:
        yield from part


# Lines that are no call of plans, by the rows of "What is no call", from its second; some are so by several rows.
PLAN_NO_CALLS = [
    filled("plan /", 4096), " " * 4090 + "plan /", "plan" + " 00" * 1364 + " /", "plan /" + " 00" * 1364, "plan" + " 00" * 680 + " /" + " 00" * 684,
    filled("plans /", 4096), filled("plan zz", 4096), filled("plan", 4096),

    "Plan /", "PLAN /", "plans /", "pla /", "plan_ /", "_plan /", "plan/", "plan/ /", "plan: /", "plan\t/", "plan\r", "plan\x00 /", "plan_show", "plan_set /",
    "plan_quiet /", "plan_begin", "plan_part 04", "plan_end", "filter_plan /", "filters_plan /", "check_plan /", "check /", "planned /", "wanted /",
    "hidden 44 03 00", "is_hidden", "judge /", "add 44 03 01 08", "add_filter 44 03 01 08", "clear 44 03 01 08", "clear_filter", "filters_fresh", "filters_show",
    "filters_set", "hides /", "plann / zz", "/ plan", "04 plan /", "Plan zz / /",

    "plan 4 /", "plan 04 / 4", "plan 004 /", "plan / 044", "plan 040031440301087B /", "plan / 440306", "plan 0x04 /", "plan / 68 3 6", "plan / 255", "plan 04/",
    "plan /44", "plan 04 /44", "plan //", "plan // 44", "plan zz", "plan zz / /", "plan / zz", "plan / / zz", "plan 04 00 31 44 03 01 08 7B / 44 03 0G",
    "plan /\r", "plan / 44\r", "plan \t04 /", "plan / \t", "plan - /", "plan / -", "plan --list /", "plan / 44,03,06", "plan \xFF\xFE /", "plan / \xB2\xB3", "plan +4 /",
    "plan 1_ /",

    "plan", "plan ", "plan 04", "plan 04 00 31 44 03 01 08 7B", "plan 04 00 31 44 03 01 08 7B 44 03 06", "plan / /", "plan / / /", "plan 04 / 44 / 03",
    "plan 04 00 31 / 44 03 01 08 / 7B", "plan 04 00 31 44 03 01 08 7B / 44 03 06 /", "plan / 44 03 06 / 44 03 00", "plan" + " 00" * 1363,
]

# The longest lines, blanks before, between and behind the words, small letters, and groups without bytes.
PLAN_CALLS_SET_OTHERWISE = [
    "plan /", "  plan  /  ", "plan / ", " plan / 44 03 00", "plan  04 00 31 44 03 08 01  7b  /  44 03 06  44 03 00  ",
    "plan 04 00 31 44 03 01 08 7b / 44 03 06 44 03 00", "plan 04 0a 31 05 fF fF Ff c5 /  05 Ff 0f", "plan 04 0A 31 05 FF FF FF C5 / 05 ff 10", "plan a4 /",
    "plan 04 00 0e 01 fe 20 01 72 d8 / 01", "plan 04 00 aE 4f 00 00 00 e5 /",
    filled("plan /", 4095), filled("plan 04 00 31 44 03 08 01 7B / 44 03 00", 4095), " " * 4089 + "plan /", "plan" + " " * 4090 + "/",
    "plan" + " 04" * 1363 + " /", "plan /" + " 04" * 1363, filled("plans /", 4095), filled("plan zz", 4095), filled("plan", 4095),
]


def no_plan_calls():
    """Lines that are no call, between what the run carries; the last line is the plan of last March."""
    yield from CARRIED + PLAN_NO_CALLS + CARRIED_SHOWN + PLAN_CALLS_SET_OTHERWISE
    yield plan(MARCH, *MARCH_EVENTS)


# Clocks at Domintell sites (document 02, W-214)

def as_bytes(text):
    return text if isinstance(text, bytes) else text.encode("latin-1")


def clock(flag, text):
    return call("clock", [flag], as_bytes(text))


def runs_on(flag, date, weekday, text):
    """Date: year, month and day, whether it exists or not."""
    return call("clock_runs", [flag, *wide(date[0], 2), date[1], date[2], weekday], as_bytes(text))


def write_clock(fields, buffer):
    """Fields: hour, minute, second, weekdays, day, month, year, kind, and hour, minute and second of the offset."""
    return call("write_clock", fields, buffer)


# The examples of source 000, section 4.5.b, "Clocks (from v43.0)": 20, 29 and 30 bytes; and three in which no two fields are alike.
SOURCE_CLOCKS = ["14:00:00 7F 01/00/00", "20:38:49 7F 00/00/00 00:30:00", "07:14:23 41 00/00/00 -00:10:00"]
OWN_CLOCKS = ["13:59:27 6B 28/11/31", "03:17:46 2C 09/05/68 12:53:28", "19:42:35 5A 26/10/87 -21:06:54"]
CLOCK_TEXTS = SOURCE_CLOCKS + OWN_CLOCKS

# Where the numbers of two digits begin.
TIME_PLACES, DATE_PLACES = [0, 3, 6], [12, 15, 18]
LATER_PLACES, EARLIER_PLACES = [21, 24, 27], [22, 25, 28]

# "00 is no, every other byte is yes."
FLAGS = [0x00, 0x01, 0x02, 0xFF]


def number_places(text):
    """Where the decimal numbers of a good text begin."""
    return TIME_PLACES + DATE_PLACES + {20: [], 29: LATER_PLACES, 30: EARLIER_PLACES}[len(text)]


def put(text, place, part):
    """The text with this part in its place."""
    return text[:place] + part + text[place + len(part):]


def own_flag(text, turn=0):
    """A flag that says of a good text what it is."""
    return 0x00 if len(text) == 20 else FLAGS[1 + turn % 3]


def taken_out(text, place):
    return text[:place] + text[place + 1:]


SUNDAY = (2026, 3, 1)

# What the program clock is run on, for that Sunday: the source's three examples; switched off; carried into the day before and into the day after; a
# date that fits, one that does not, and an empty line; other weekdays; a date that no day has; small letters; an hour out of range; and a line with a
# carriage return.
CLOCKS_OF_A_SITE = """\
14:00:00 7F 01/00/00
20:38:49 7F 00/00/00 00:30:00
07:14:23 41 00/00/00 -00:10:00
14:00:00 FF 00/00/00
00:05:00 7F 00/00/00 -00:10:00
23:45:00 01 00/00/00 00:30:00
06:30:00 01 01/03/26
06:30:00 7F 01/03/27

22:15:00 3E 00/00/00
09:00:00 7F 31/02/00
20:38:49 7f 00/00/00 00:30:00
24:00:00 7F 00/00/00
08:05:00 7F 00/00/00\r
"""


def printed_clocks():
    """What source 000 prints of clocks in sections 4.4, 4.5.b, 4.5.c and 4.5.d, with and without what stands before the time field and behind the last
    one; its patterns; other texts of it."""
    bare = SOURCE_CLOCKS + ["14:00:00 FF 00/00/00", "00:22:00 7F 00/05/09", "00:22:00 FF 00/05/09", "01:22:00 08 00/00/00", "00:00:00 7F 00/00/00",
                            "08:05:00 7F 00/00/00", "08:30:00 7F 00/00/00", "18:02:00 7F 00/00/00", "00:38:00 7F 04/01/00",
                            "14:00:00 7F 00/00/23", "14:00:00 7F 00/10/23", "14:00:00 7F 00/01/00", "21:08:49 7F 00/00/00", "20:48:49 7F 00/00/00"]
    more = ["00:00:00 7F 00/00/00 -600", "00:00:00 7F 00/00/00 600", "00:00:00 7F 00/00/00 -00:10:00", "08:05:00 7F 00/00/00 Clock[SUNRISE]",
            "08:05:00 7F 00/00/00 Clock[SUNRISE] [READONLY]", "08:05:00 7F 00/00/00 Clock[SUNRISE][READONLY]", "18:02:00 7F 00/00/00 Clock[SUNSET]",
            "08:30:00 7F 00/00/00 NAME[House|||]", "00:38:00 7F 04/01/00 Clock", "00:00:00 7F 00/00/00 Clock[RESET]",
            "20:38:49 7F 00/00/00 00:30:00 Clock[SUNSET]", "20:38:49 7F 00/00/00 00:30:00[SUNSET]",
            "07:14:23 41 00/00/00 -00:10:00 Clock[SUNRISE] [READONLY]", "HH:MM:SS WD DD/MM/YY", "HH:MM:SS WD DD/MM/YY HH':MM':ss'",
            "HH:MM:SS WD DD/MM/YY HH:MM:SS", "12:32:00 21.6", "14:34 29/12/22", "14:34 29/12/2022",
            "00/00/23", "01/00/00", "15.5-02:45:00", "08:05", "14h00m00", "7F", "20h38m49 + 30 min = 20h48m49"]
    for turn, text in enumerate(bare + more):
        for flag in [0x00, FLAGS[1 + turn % 3]]:
            yield from [clock(flag, text), runs_on(flag, SUNDAY, 0, text)]
    for text in SOURCE_CLOCKS + more[:3]:
        for front in ["K", "%K", "CLK000001%K", "CLK000004%K", "CLK 2K", "CLK     2K", " ", "\t"]:
            yield clock(0 if len(text) == 20 else 1, front + text)
        for end in [" ", "\r", "\n", "\r\n", "\x00", "\t", " Clock", "[SUNRISE]", " [READONLY]", ";"]:
            yield clock(0 if len(text) == 20 else 1, text + end)


def clock_fields():
    """Each number of a text on both sides of every edge; all weekdays in capitals, and with small letters."""
    for text in OWN_CLOCKS:
        for place in number_places(text):
            for value in [0, 1, 9, 10, 11, 12, 13, 19, 20, 22, 23, 24, 25, 29, 30, 31, 32, 33, 39, 40, 58, 59, 60, 61, 69, 70, 89, 90, 98, 99]:
                if len(text) == 20 or place > 20 or value in [0, 12, 13, 23, 24, 31, 32, 59, 60, 99]:
                    yield clock(own_flag(text, value), put(text, place, "%02d" % value))
    for weekdays in range(256):
        text = CLOCK_TEXTS[weekdays % 6]
        capitals = "%02X" % weekdays
        yield clock(own_flag(text, weekdays), put(text, 9, capitals))
        smalls = [small for small in [capitals.lower(), capitals[0].lower() + capitals[1], capitals[0] + capitals[1].lower()] if small != capitals]
        yield from [clock(own_flag(text), put(text, 9, small)) for small in smalls[weekdays % 3:][:1]]


# Beside digits, hexadecimal symbols, separators and signs, and what stands next to them.
TELLING_BYTES = bytes([0x00, 0x09, 0x20, 0x2B, 0x2D, 0x2F, 0x30, 0x33, 0x39, 0x3A, 0x40, 0x41, 0x46, 0x47, 0x61, 0xB0, 0xFF])


def other_clock_bytes():
    """Every byte of good texts with telling other values; each byte twice, and two neighbours exchanged."""
    for turn, text in enumerate(as_bytes(text) for text in OWN_CLOCKS):
        for place in range(len(text)):
            for value in TELLING_BYTES:
                if value != text[place]:
                    yield clock(own_flag(text, turn + place), replaced(text, place, value))
            yield clock(own_flag(text, turn + place), text[:place + 1] + text[place:])
            if place and text[place] != text[place - 1]:
                yield clock(own_flag(text, place), text[:place - 1] + text[place:place + 1] + text[place - 1:place] + text[place + 1:])


def clock_lengths():
    """Texts of every length from none to 40: cut in front and behind, filled up with digits, blanks, offsets and text; a byte taken out, and one put in."""
    for text in SOURCE_CLOCKS:
        for size in range(len(text)):
            yield from [clock(own_flag(text, size), text[:size]), clock(own_flag(text, size), text[-size:] if size else "")]
            yield from [clock(0 if own_flag(text) else 1, text[:size]), clock(own_flag(text, size), taken_out(text, size))]
        for size in range(len(text) + 1, 41):
            more = size - len(text)
            for filling in ["0" * 20, " " * 20, " 00:30:00 -00:10:00 ", " -00:10:00 00:30:00 ", "\x00" * 20]:
                yield clock(own_flag(text, size), text + filling[:more])
            yield from [clock(0 if own_flag(text) else 1, text + " 00:30:00 -00:10:00 "[:more]), clock(own_flag(text, size), "0" * more + text)]
            yield runs_on(own_flag(text, size), SUNDAY, 0, text + " 00:30:00 00:30:00 00"[:more])
        for place in range(len(text) + 1):
            for sign in "0 -:":
                yield clock(own_flag(text, place), text[:place] + sign + text[place:])
    for size in range(41):
        for flag in [0x00, FLAGS[1 + size % 3]]:
            yield from [clock(flag, "0" * size), clock(flag, [" ", "-", "\x00", "7"][size % 4] * size)]
        yield runs_on(size % 2, SUNDAY, 0, pattern(size))
    # 256 bytes more than a text has, and the longest that a line holds
    for text in SOURCE_CLOCKS:
        for size in [256, 512, 1024]:
            yield clock(own_flag(text, size), text + text[:1] * size)
    yield from [clock(0, "0" * 1350), clock(1, " " * 1350)]


def clock_flags():
    """Every flag beside texts of both kinds: "an offset stands exactly where the clock is astronomical"."""
    for flag in range(256):
        yield [clock(flag, CLOCK_TEXTS[flag % 5]), runs_on(flag, SUNDAY, 0, SOURCE_CLOCKS[flag // 2 % 3])][flag % 2]
    for flag in FLAGS:
        for text in CLOCK_TEXTS:
            yield from [clock(flag, text), runs_on(flag, (2031, 11, 28), 3, text), runs_on(flag, SUNDAY, 0, text)]
        for text in SOURCE_CLOCKS:
            yield from [clock(flag, text[:20]), clock(flag, text[:20] + " "), clock(flag, text[:20] + " -"), clock(flag, text[:20] + " 00:00:00")]


def clock_signs():
    """Blanks for zeros, other signs in front of the offset, of the numbers and of the whole, both signs, other minus signs; separators exchanged throughout."""
    for text in OWN_CLOCKS[1:] + ["00:00:00 00 00/00/00", "00:00:00 00 00/00/00 00:00:00", "00:00:01 01 01/01/01 -00:00:01"]:
        flag = own_flag(text)
        for place in number_places(text) + [9]:
            for part in [" " + text[place + 1], text[place] + " ", "  ", "+" + text[place + 1], "-" + text[place + 1]]:
                yield clock(flag, put(text, place, part))
        for one, other in [(":", "."), (":", "h"), (":", " "), ("/", "-"), ("/", "."), ("/", ":"), (":", "/"), (" ", "\t"), (" ", "T"), (" ", ""), (" ", "  "),
                           (":", ""), ("/", ""), (" ", "_"), (" ", "\xA0"), ("/", "\\"), (":", ";"), ("-", "+"), ("-", "~"), ("-", "\xAD"), ("-", "\x96"),
                           ("-", "--"), ("-", "- "), ("-", " -")]:
            if one in text:
                yield clock(flag, text.replace(one, other))
        yield from [clock(flag, sign + text) for sign in "+- 0"]
        yield from [clock(flag, text.lower()), clock(flag, text.swapcase()), clock(flag, text[::-1]), clock(flag, text.encode("utf-16-le")),
                    clock(flag, text.encode("utf-16-be"))]
    for front in SOURCE_CLOCKS[0][:20], OWN_CLOCKS[1][:20], OWN_CLOCKS[2][:20]:
        for offset in ["00:00:00", "-00:00:00", "+00:00:00", "+00:30:00", "+00:30:0", "--0:30:00", "-+0:30:00", "+-0:30:00", "- 0:30:00", " 00:30:00",
                       " -0:30:00", "0-:30:00", "00:-30:00", "00:30:-0", "-0:30:00", "-00:30:0", "-000:30:00", "-00:030:00", "00:30:00-", "-00:30:00-",
                       "00:30:00+", "30:00", "-30:00", "00:30", "-00:30", "1800", "-1800", "-600", "0", "-0", "-", "", " ", "00:30:00 ", "0:30:00", "00:0:00",
                       "00.30.00", "\u221200:30:00".encode("utf-8"), "(00:30:00)", "-00:30:00.0", "000:30:00", "00:30:000", "0A:30:00", "-0a:30:00"]:
            for flag in [0, 1]:
                yield clock(flag, as_bytes(front + " ") + as_bytes(offset))


OFFSETS = ["00:00:00", "00:00:01", "00:00:59", "00:01:00", "00:59:00", "00:59:59", "01:00:00", "12:34:56", "23:00:00", "23:59:59", "10:00:00", "00:10:00",
           "24:00:00", "23:60:00", "23:59:60", "00:60:00", "00:00:60", "24:59:59", "99:99:99", "99:00:00", "00:99:00", "00:00:99", "29:00:00", "00:69:00",
           "00:00:70"]


def clock_offsets():
    """Offsets at their edges, later and earlier, read and run."""
    for turn, text in enumerate(["00:00:00 7F 00/00/00", "23:59:59 7F 00/00/00", "12:00:00 FF 31/12/99"]):
        for sign in ["", "-"]:
            for offset in OFFSETS:
                whole = text[:20] + " " + sign + offset
                yield from [clock(FLAGS[1 + turn], whole), runs_on(FLAGS[1 + turn], SUNDAY, 0, whole)][turn // 2:]


# Texts that are not of the form, of one that is.
FORM_FAULTS = [
    lambda text: put(text, 9, "7f"), lambda text: text[:-1], lambda text: text + "0", lambda text: text + "\n", lambda text: put(text, 2, "."),
    lambda text: put(text, 14, ":"), lambda text: " " + text, lambda text: put(text, 8, "\t"), lambda text: put(text, 7, " "), lambda text: put(text, 9, " 7"),
    lambda text: put(text, 19, "A"), lambda text: put(text, len(text) - 1, "\x00"),
]


def out_of_range_texts(text):
    """The text with each of its numbers out of range."""
    ends = [24, 60, 60, 32, 13, None, 24, 60, 60]
    for place, end in zip(number_places(text), ends):
        if end is not None:
            yield put(text, place, "%02d" % end)
    if len(text) == 30:
        yield put(text, 21, "-00:00:00")


def clock_faults_at_once():
    """21 beside 22: in one text, and in a text beside the date; 22 in both; several fields out of range."""
    for turn, text in enumerate(SOURCE_CLOCKS[:2] + OWN_CLOCKS[2:]):
        flag = own_flag(text, turn)
        for number, wrong in enumerate(out_of_range_texts(text)):
            yield from [clock(flag, wrong), clock(0 if flag else 1, wrong), runs_on(flag, SUNDAY, 0, wrong)]
            for fault in FORM_FAULTS[number % 3::3]:
                yield clock(flag, fault(wrong))
            yield runs_on(flag, SUNDAY, 0, FORM_FAULTS[number % len(FORM_FAULTS)](wrong))
            for date, weekday in [((2026, 2, 29), 0), ((2100, 1, 1), 0), (SUNDAY, 7)]:
                yield runs_on(flag, date, weekday, wrong)
        for number, fault in enumerate(FORM_FAULTS):
            yield from [clock(flag, fault(text)), runs_on(flag, SUNDAY, 0, fault(text))]
            for date, weekday in [((2026, 2, 29), 0), ((1999, 12, 31), 5), (SUNDAY, 7), ((0, 0, 0), 255)]:
                yield runs_on(flag, date, weekday, fault(text))
        # the other flag: 21, whatever the date is
        for date, weekday in [(SUNDAY, 0), ((2026, 13, 1), 0), ((2026, 3, 0), 0), (SUNDAY, 255)]:
            yield from [runs_on(0 if flag else 1, date, weekday, text), runs_on(flag, date, weekday, text)]
    yield from [clock(0, "99:99:99 FF 99/99/99"), clock(1, "99:99:99 FF 99/99/99 99:99:99"), clock(1, "99:99:99 FF 99/99/99 -99:99:99"),
                clock(1, "24:00:00 7F 00/00/00 -00:00:00"), clock(0, "24:00:00 7F 00/00/00 -00:00:00"), clock(1, "24:00:00 7f 00/00/00 -00:00:00")]


def clock_texts():
    for part in [printed_clocks(), clock_fields(), clock_lengths(), clock_flags(), clock_signs(), clock_offsets(), clock_faults_at_once(), other_clock_bytes()]:
        yield from part


def clocks_with_one_byte_changed():
    """The source's three examples, each of their bytes with all of its 255 other values."""
    for turn, text in enumerate(as_bytes(text) for text in SOURCE_CLOCKS):
        for place in range(len(text)):
            for value in range(256):
                if value != text[place]:
                    yield clock(own_flag(text, turn + place), replaced(text, place, value))


# Clocks on a day

EVERY_DAY = "06:07:08 7F 00/00/00"


def midnights():
    """Seconds about both midnights, by the hour, the minute and the second; the greatest and the lowest; and the time without an offset about both."""
    ends = [("00:00:00", "00:00:00"), ("00:00:00", "00:00:01"), ("00:00:01", "00:00:01"), ("00:00:01", "00:00:02"), ("00:00:59", "00:01:00"),
            ("00:01:00", "00:00:59"), ("00:10:00", "00:10:00"), ("00:05:00", "00:10:00"), ("00:59:59", "01:00:00"), ("01:00:00", "00:59:59"),
            ("01:00:00", "01:00:01"), ("00:00:00", "23:59:59"), ("23:59:59", "23:59:59"), ("12:00:00", "12:00:00"), ("12:00:00", "12:00:01"),
            ("12:00:01", "12:00:00"), ("23:59:59", "00:00:00"), ("23:59:59", "00:00:01"), ("23:59:58", "00:00:01"), ("23:59:59", "00:00:02"),
            ("23:59:00", "00:01:00"), ("23:59:00", "00:00:59"), ("23:00:00", "01:00:00"), ("23:00:00", "00:59:59"), ("11:59:59", "12:00:00"),
            ("00:00:00", "23:00:00"), ("22:22:22", "01:37:37"), ("22:22:22", "01:37:38"), ("22:22:22", "01:37:39"), ("20:38:49", "00:30:00"),
            ("07:14:23", "00:10:00"), ("18:12:15", "18:12:16"), ("18:12:15", "05:47:45"), ("09:06:07", "09:06:08"), ("18:12:16", "00:00:00"),
            ("09:06:08", "00:00:00"), ("16:00:00", "02:12:15"), ("16:00:00", "02:12:16"), ("16:00:00", "02:12:17")]
    for turn, (time, offset) in enumerate(ends):
        for sign in ["", "-"]:
            for restriction in ["00/00/00", ["01/03/26", "28/02/26", "02/03/26"][turn % 3]]:
                yield runs_on(FLAGS[1 + turn % 3], SUNDAY, 0, "%s 7F %s %s%s" % (time, restriction, sign, offset))
        yield from [runs_on(0, SUNDAY, 0, time + " 01 00/00/00"), runs_on(1, SUNDAY, 0, time + " 7F 00/00/00 " + time)]
    # each field of the time and of the offset by itself
    for value in [0, 1, 2, 9, 10, 11, 18, 19, 20, 22, 23, 24, 29, 31, 39, 47, 58, 59]:
        if value < 24:
            yield from [runs_on(0, SUNDAY, 0, "%02d:00:00 7F 00/00/00" % value), runs_on(1, SUNDAY, 0, "00:00:00 7F 00/00/00 %02d:00:00" % value)]
            yield runs_on(2, SUNDAY, 0, "12:30:30 7F 00/00/00 -%02d:00:01" % value)
        yield from [runs_on(0, SUNDAY, 0, "00:%02d:00 7F 00/00/00" % value), runs_on(0, SUNDAY, 0, "00:00:%02d 7F 00/00/00" % value)]
        yield from [runs_on(1, SUNDAY, 0, "00:00:00 7F 00/00/00 00:%02d:00" % value), runs_on(1, SUNDAY, 0, "00:00:00 7F 00/00/00 00:00:%02d" % value)]
        yield from [runs_on(255, SUNDAY, 0, "00:30:00 7F 00/00/00 -00:%02d:01" % value), runs_on(255, SUNDAY, 0, "00:00:30 7F 00/00/00 -00:01:%02d" % value)]


def weekdays_of_clocks():
    """Every bit alone and every bit but it, with and without bit 80, beside each weekday and what is none; all weekdays of a clock; and a weekday that is
    not the date's."""
    for bit in range(8):
        for weekdays in [1 << bit, 0xFF - (1 << bit), 0x7F & ~(1 << bit), 0x80 | 1 << bit]:
            for weekday in [0, 1, 2, 3, 4, 5, 6, 7, 8, 255]:
                yield runs_on(0, SUNDAY, weekday, put(EVERY_DAY, 9, "%02X" % weekdays))
    for weekdays in range(256):
        for weekday in [weekdays % 7, (weekdays >> 4) % 7]:
            yield runs_on(weekdays % 2, (2026, 3, 1 + weekday), weekday, put(EVERY_DAY, 9, "%02X" % weekdays) + " -00:07:08" * (weekdays % 2))
    for weekday in range(256):
        yield runs_on(0, SUNDAY, weekday, put(EVERY_DAY, 9, ["7F", "7F", "FF", "01"][weekday // 8 % 4]))
    for day in range(1, 8):
        for weekday in range(7):
            yield runs_on(0, (2024, 2, 15 + day), weekday, put(EVERY_DAY, 9, "%02X" % (1 << (day + 4) % 7)))


def dates_given():
    """All days of a leap year and of a common one, and what is none; all values of the day and the month; years and their last of February."""
    for year in [2023, 2024]:
        for month in range(14):
            for day in range(33):
                fits = "%02d/%02d/%02d" % (day, month, year % 100) if month < 13 and day < 32 else "00/00/00"
                yield runs_on(0, (year, month, day), (day + month) % 7, put(EVERY_DAY, 12, fits))
    for value in range(256):
        yield [runs_on(0, (2024, value, 1 + value % 28), 3, EVERY_DAY), runs_on(0, (2024, 1 + value % 12, value), 3, EVERY_DAY)][value % 2]
        yield runs_on(0, [(256 * value + 0xE8, 2, 29), (0x0700 + value, 2, 28 + value // 2 % 2)][value % 2], 3, EVERY_DAY)
    years = [0, 1, 24, 99, 100, 400, 1000, 1582, 1600, 1700, 1899, 1900, 1996, 1998, 1999, 2000, 2001, 2002, 2003, 2004, 2005, 2095, 2096, 2097, 2098, 2099,
             2100, 2101, 2104, 2200, 2400, 4000, 9999, 10000, 0x7FFF, 0x8000, 0x8000 + 2024, 0xE807, 0xFFFF]
    for year in years:
        for month, day in [(1, 1), (2, 28), (2, 29), (2, 30), (4, 31), (12, 31)]:
            yield runs_on(0, (year, month, day), 6, put(EVERY_DAY, 18, "%02d" % (year % 100)))
    for month in list(range(14)) + [16, 128, 255]:
        for day in [0, 28, 29, 30, 31, 32, 128, 255]:
            for year in [2000, 2099]:
                yield runs_on(1, (year, month, day), 5, "06:07:08 20 00/00/00 00:00:01")
    for year in range(2000, 2100):
        yield runs_on(0, (year, 2, 29), year % 7, "06:07:08 7F 29/02/00")
        yield from [runs_on(0, (year, 3, 1), 6, "06:07:08 40 00/00/%02d" % (year % 100)),
                    runs_on(0, (year, 12, 31), 6, "06:07:08 40 00/00/%02d" % ((year + 1) % 100))]


def restrictions():
    """Day, month and year each not named, the date's, and another's, in all combinations; the year 2000, which no clock can name; dates whose numbers are
    alike."""
    for year, month, day in [(2026, 3, 15), (2012, 12, 12), (2000, 2, 29), (2099, 12, 31)]:
        days = [0, day, day % 28 + 1, month, year % 100 % 32, 31]
        months = [0, month, month % 12 + 1, day % 13, year % 100 % 13]
        years = [0, year % 100, (year + 1) % 100, (year + 99) % 100, month, day, year // 100]
        named = [(one, two, three) for one in dict.fromkeys(days) for two in dict.fromkeys(months) for three in dict.fromkeys(years)]
        for number, restriction in enumerate(named):
            text = "06:07:08 7F %02d/%02d/%02d" % restriction
            yield runs_on(number % 2, (year, month, day), number % 7, text + " -06:07:09" * (number % 2))
    for value in range(100):
        yield runs_on(0, ([2000, 2026][value % 2], 6, 6), 0, "06:07:08 7F 00/00/%02d" % value)
        yield [runs_on(0, (2026, 1 + value % 12, 6), 0, "06:07:08 7F 00/%02d/00" % (value % 14)),
               runs_on(0, (2026, 7, 1 + value % 31), 0, "06:07:08 7F %02d/00/00" % (value % 33))][value % 2]
    # the bit of the weekday, and the restriction: each alone, both and none
    for weekdays in ["01", "7E", "81", "FF", "00", "80"]:
        for restriction in ["00/00/00", "01/03/26", "01/03/25", "02/03/26", "01/04/26"]:
            yield runs_on(0, SUNDAY, 0, "06:07:08 %s %s" % (weekdays, restriction))


# Dates of clocks that no day has.
IMPOSSIBLE = ["31/02/00", "30/02/00", "29/02/23", "29/02/25", "30/02/24", "31/04/00", "31/06/00", "31/09/00", "31/11/00", "31/04/24", "31/02/24", "29/02/99",
              "31/11/99"]


def impossible_dates():
    """They are read, written and never run; and dates near them, which are possible."""
    for restriction in IMPOSSIBLE + ["29/02/00", "29/02/24", "29/02/96", "28/02/23", "31/00/00", "30/00/00", "29/00/00", "00/02/00", "31/12/99", "31/01/00",
                                     "00/00/99"]:
        day, month, year = (int(number) for number in restriction.split("/"))
        for turn, offset in enumerate(["", " 00:00:00", " -12:00:00"]):
            text = "06:07:08 7F " + restriction + offset
            yield clock(FLAGS[turn], text)
            dates = [(2000 + year, month or 5, min(day or 1, 28)), (2023, 2, 28), (2024, 2, 29), (2000, 2, 29), (2023, 3, 1), (2024, 3, 2), (2024, 4, 30),
                     (2024, 5, 1), (2023, 12, 31)]
            for date in [(2000 + year, month or 5, day or 1)] + dates[turn::3]:
                yield runs_on(FLAGS[turn], date, 3, text)
        yield write_clock([6, 7, 8, 0x7F, day, month, year, 0, 0, 0, 0], pattern(22))


def switched_off():
    """Bit 80: idle on every day, and 22 of a day that is none."""
    for turn, weekdays in enumerate([0x80, 0x81, 0xC0, 0xFF, 0xBE, 0x00]):
        for text in [OWN_CLOCKS[0], "06:07:08 7F 00/00/00", "06:07:08 7F 00/00/00 -00:00:01"]:
            whole = put(text, 9, "%02X" % weekdays)
            yield clock(own_flag(text), whole)
            for date, weekday in [(SUNDAY, 0), ((2031, 11, 28), 6), ((2023, 2, 29), 0), ((2100, 1, 1), 5), ((1999, 12, 31), 5), (SUNDAY, 7), (SUNDAY, 255),
                                  ((2026, 0, 1), 0), ((2026, 3, 0), 7), ((2000, 1, 1), 6)]:
                yield runs_on(own_flag(text, turn), date, weekday, whole)


def clocks_on_days():
    for part in [midnights(), weekdays_of_clocks(), dates_given(), restrictions(), impossible_dates(), switched_off()]:
        yield from part


# Clocks written

WRITTEN_CLOCKS = [[14, 0, 0, 0x7F, 1, 0, 0, 0, 0, 0, 0], [20, 38, 49, 0x7F, 0, 0, 0, 1, 0, 30, 0], [7, 14, 23, 0x41, 0, 0, 0, 2, 0, 10, 0],
                  [13, 59, 27, 0x6B, 28, 11, 31, 0, 21, 6, 54], [3, 17, 46, 0x2C, 9, 5, 68, 1, 12, 53, 28], [19, 42, 35, 0x5A, 26, 10, 87, 0xFF, 21, 6, 54]]
OVER_RANGE = {0: 24, 1: 60, 2: 60, 4: 32, 5: 13, 6: 100, 8: 24, 9: 60, 10: 60}  # by place; weekdays may be any, and the kind is one


def with_field(fields, place, value):
    return fields[:place] + [value] + fields[place + 1:]


def fields_written():
    """Every field about its edges in clocks of every kind; all weekdays, all kinds."""
    edges = [0, 9, 10, 12, 13, 23, 24, 31, 32, 59, 60, 99, 100, 128, 255]
    for turn, fields in enumerate(WRITTEN_CLOCKS):
        for place, end in OVER_RANGE.items():
            for value in edges if turn > 2 else [0, end - 1, end, end + 1, 255]:
                yield write_clock(with_field(fields, place, value), pattern(31 + value % 3))
    for value in range(256):
        yield write_clock(with_field(WRITTEN_CLOCKS[value % 6], 3, value), pattern(30))
        yield write_clock(with_field([WRITTEN_CLOCKS[5], [6, 7, 8, 9, 10, 11, 12, 0, 0, 0, 0]][value // 2 % 2], 7, value), pattern(30))
    # kind 00: the three behind it count for nothing; earlier by nothing: 22, and later by nothing is an offset
    for kind in [0x00, 0x01, 0x02, 0x7F, 0x80, 0xFE, 0xFF]:
        for offset in [[0, 0, 0], [0, 0, 1], [0, 1, 0], [1, 0, 0], [23, 59, 59], [24, 0, 0], [23, 60, 59], [23, 59, 60], [255, 255, 255], [0, 0, 60],
                       [0, 60, 0], [99, 99, 99]]:
            yield from [write_clock([6, 7, 8, 0x89, 10, 11, 12, kind] + offset, pattern(size)) for size in [30, 20]]


def clock_buffers():
    """Buffers of every length about the text's; 22 beside a buffer that is too short."""
    for fields in WRITTEN_CLOCKS:
        for size in range(35):
            yield write_clock(fields, pattern(size))
            places = [place for place in OVER_RANGE if place < 7 or fields[7]]
            place = places[size % len(places)]
            yield write_clock(with_field(fields, place, OVER_RANGE[place] + size % 2), pattern(size))
        for size in [64, 255, 256, 300]:
            yield write_clock(fields, pattern(size))
    for size in [0, 19, 20, 28, 29, 30, 31]:
        for kind in [0x01, 0x02, 0xFF]:
            yield write_clock([6, 7, 8, 9, 10, 11, 12, kind, 0, 0, 0], bytes([0x41]) * size)
        yield from [write_clock([24, 60, 60, 0xFF, 32, 13, 100, 2, 0, 0, 0], pattern(size)), write_clock([255] * 11, pattern(size)),
                    write_clock([0] * 11, pattern(size)), write_clock([0] * 7 + [1, 0, 0, 0], bytes(size)), write_clock([0] * 10 + [1], b"\xFF" * size),
                    write_clock([0] * 7 + [3, 0, 0, 1], b"\xFF" * size)]


def some_fields(chance):
    """The fields of a good clock."""
    kind = chance.pick([0, 1, 2, 1 + chance.below(255)])
    offset = [chance.below(24), chance.below(60), chance.below(60)]
    if kind > 1 and offset == [0, 0, 0]:
        offset = [0, 0, 1]
    restriction = [chance.pick([0, chance.below(end)]) for end in [32, 13, 100]]
    return [chance.below(24), chance.below(60), chance.below(60), chance.pick([0x7F, chance.below(128), chance.below(256)]), *restriction, kind, *offset]


def text_of_fields(fields):
    buffer = bytearray(30)
    return bytes(buffer[:opinion.write_clock(opinion.clock_of(bytes(fields)), buffer)])


def some_date(chance):
    """A date, which need not exist, and a weekday."""
    if chance.one_in(6):
        return (chance.pick([1999, 2000, 2001, 2096, 2099, 2100, chance.below(65536)]), chance.below(15), chance.below(34)), chance.below(9)
    return (2000 + chance.below(100), 1 + chance.below(12), 1 + chance.below(28)), chance.below(7)


def clocks_there_and_back():
    """Clocks by chance, written and their texts read; texts read and their fields written; both asked for a day that their restriction names, and for
    another."""
    chance = Chance(214)
    for text in CLOCK_TEXTS:
        yield clock(own_flag(text), text)
    for fields in WRITTEN_CLOCKS:
        yield write_clock(fields, pattern(33))
    for number in range(150):
        fields = some_fields(chance)
        text = text_of_fields(fields)
        flag = 0 if fields[7] == 0 else FLAGS[1 + number % 3]
        yield from [write_clock(fields, pattern(len(text) + chance.pick([0, 0, 1, 3]))), clock(flag, text)]
        (year, month, day), weekday = some_date(chance)
        yield runs_on(flag, (year, month, day), weekday, text)
        named = (2000 + (fields[6] or year % 100), fields[5] or (1 if month > 12 else month), fields[4] or min(day, 28))
        yield runs_on(flag, named, chance.below(7), text)


def clocks_by_chance():
    """Texts by chance, of which most are spoilt in one place or two, and days by chance."""
    chance = Chance(215)
    for _ in range(400):
        text = text_of_fields(some_fields(chance))
        flag = own_flag(text, chance.below(3)) if not chance.one_in(8) else chance.below(256)
        for _ in range(chance.pick([0, 1, 1, 2])):
            place, change = chance.below(len(text)), chance.below(5)
            if change < 2:
                text = replaced(text, place, chance.pick(b"0123456789ABCDEFabcdef :/-+"))
            elif change == 2:
                text = replaced(text, place, chance.below(256))
            elif change == 3:
                text = text[:place] + text[place + 1:]
            else:
                text = text[:place] + bytes([chance.pick(b"0123456789 :/-")]) + text[place:]
        yield clock(flag, text)
        yield runs_on(flag, *some_date(chance), text)
    for _ in range(200):
        fields = some_fields(chance)
        if chance.one_in(3):
            fields[chance.below(11)] = chance.below(256)
        yield write_clock(fields, pattern(chance.pick([0, 19, 20, 28, 29, 30, 31, chance.below(40)])))


def names_of_clock_refusals():
    """The names of 21 and 22 into buffers of every size about theirs; their neighbours, and the same numbers of the other kinds and as hexadecimal."""
    for number in [21, 22]:
        for size in range(15):
            yield call("name", [0, number], pattern(size))
    for kind, number in [(0, 19), (0, 20), (0, 23), (0, 24), (0, 0x21), (0, 0x22), (1, 21), (1, 22), (2, 21), (3, 22), (4, 21), (5, 22), (0, 255)]:
        yield call("name", [kind, number], pattern(13))


def clocks_beside_what_is_carried():
    """The book, the readers, the capture and the seasons in parts stay as they are, whether a clock is read, refused or written."""
    yield from CARRIED + CARRIED_SHOWN[:4]
    for line in [clock(0, SOURCE_CLOCKS[0]), clock(1, SOURCE_CLOCKS[0]), runs_on(1, SUNDAY, 0, SOURCE_CLOCKS[1]), runs_on(1, SUNDAY, 7, SOURCE_CLOCKS[1]),
                 write_clock(WRITTEN_CLOCKS[2], pattern(30)), write_clock(WRITTEN_CLOCKS[2], pattern(29)), write_clock([255] * 11, pattern(30))]:
        yield from [line] + CARRIED_SHOWN[:4]
    yield from CARRIED_SHOWN + [clock(0, SOURCE_CLOCKS[0]), "help"]


def clocks_written():
    for part in [fields_written(), clock_buffers(), clocks_there_and_back(), clocks_by_chance(), names_of_clock_refusals(), clocks_beside_what_is_carried()]:
        yield from part


# Lines that are no call of clocks, by the rows of "What is no call", from its second; some are so by several rows.
CLOCK_LINE, CLOCK_RUNS_LINE, WRITE_CLOCK_LINE = clock(0, SOURCE_CLOCKS[0]), runs_on(0, SUNDAY, 0, SOURCE_CLOCKS[0]), write_clock(WRITTEN_CLOCKS[0], pattern(20))

CLOCK_NO_CALLS = [
    filled(CLOCK_LINE, 4096), " " * 4090 + "clock 00 /", "clock 00 /" + " 00" * 1363, "clock_runs" + " 00" * 1362 + " /", "write_clock 00 /" + " 00" * 1361,
    filled("clock zz", 4096), filled("clocks /", 4096), filled("clock", 4096),

    "Clock 00 /", "CLOCK 00 /", "clocks 00 /", "cloc 00 /", "clock_ 00 /", "_clock 00 /", "clock/", "clock: 00 /", "clock\t00 /", "clock\r", "clock\x00 00 /",
    "clock_run 00 07 EA 03 01 00 /", "clocks_run 00 /", "runs /", "clockruns 00 07 EA 03 01 00 /", "clock_write /", "write_clocks /", "writeclock /",
    "write_Clock /", "clock_runs_ /", "clock_text 00 /", "read_clock 00 /", "clock_show", "clock_set", "weekday 07 EA 03 01", "date 07 EA 03 01",
    "/ clock 00", "00 clock /", "clock_quiet 00 /", "write_clock_quiet /", "Clock_runs zz / /",

    "clock 0 /", "clock 000 /", "clock 00 / 1", "clock 00 / 14:00:00 7F 01/00/00", "clock 00 / 14:00:00", "clock 00/", "clock 00 /31", "clock 00 //",
    "clock zz", "clock zz / /", "clock 00 / zz", "clock / / zz", "clock 0x00 /", "clock 00 / 31\r", "clock 00 / \t", "clock -1 /", "clock \xFF /",
    "clock_runs 00 2026 03 01 00 /", "clock_runs 00 2026-03-01 00 /", "clock_runs 0 07 EA 03 01 00 /", "clock_runs 00 07 EA 3 1 0 /", "clock_runs zz / /",
    "write_clock 14 0 0 7F 1 0 0 0 0 0 0 /", "write_clock 0E 00 00 7F 01 00 00 00 00 00 0G /", "write_clock zz", "write_clock / / zz",

    "clock", "clock 00", "clock 00 / / ", "clock / /", "clock 00 / 31 / 34", CLOCK_LINE + " /", CLOCK_LINE.replace(" / ", " "), "clock 00 31 34 3A 30 30",
    "clock / 00 / / 00", "clock_runs", "clock_runs 00 07 EA 03 01 00", "clock_runs 00 / 07 EA / 03 / 01 / 00 /",
    "clock_runs 00 / 07 EA 03 01 00 /", CLOCK_RUNS_LINE + " /", CLOCK_RUNS_LINE.replace(" / ", " "), "write_clock",
    "write_clock 0E 00 00 7F 01 00 00 00 00 00 00", "write_clock 0E 00 00 / 7F / 01 00 00 / 00 00 00 00 /", WRITE_CLOCK_LINE + " /",
    WRITE_CLOCK_LINE.replace(" / ", " "), "write_clock / /",

    "clock /", "clock 00 00 /", "clock / 31", "clock / " + CLOCK_LINE[11:], "clock 00 00 / " + CLOCK_LINE[11:], "clock 01 02 03 04 05 06 /", "clock_runs /",
    "clock_runs 00 /", "clock_runs 00 07 EA 03 01 /", "clock_runs 00 07 EA 03 01 00 00 /", "clock_runs 07 EA 03 01 00 /", "clock_runs 00 EA 03 01 00 /",
    "clock_runs 00 00 07 EA 03 01 00 / 31", "clock_runs" + " 00" * 11 + " /", "clock_runs" + " 00" * 600 + " /", "write_clock /",
    "write_clock 0E 00 00 7F 01 00 00 /", "write_clock 0E 00 00 7F 01 00 00 00 /", "write_clock 0E 00 00 7F 01 00 00 00 00 00 /",
    "write_clock 0E 00 00 7F 01 00 00 00 00 00 00 00 /", "write_clock 0E 00 00 7F 01 00 07 D0 00 00 00 00 / 00",
    "write_clock" + " 00" * 10 + " /" + " 00" * 20, "write_clock" + " 00" * 12 + " /" + " 00" * 30,
]

# The longest lines, blanks before, between and behind the words, small letters, and groups without bytes.
CLOCK_CALLS_SET_OTHERWISE = [
    "clock 00 /", "  clock  00  /  ", "clock ff /", "clock Ff / 31", CLOCK_LINE.lower(), CLOCK_LINE.replace(" ", "  "), "   " + CLOCK_LINE + "   ",
    "clock_runs 00 07 ea 03 01 00 /", CLOCK_RUNS_LINE.lower(), CLOCK_RUNS_LINE.replace(" ", "   "), "clock_runs 00 00 00 00 00 00 /",
    WRITE_CLOCK_LINE.lower(), WRITE_CLOCK_LINE.replace(" ", "  "), "write_clock 0e 00 00 7f 01 00 00 00 00 00 00 /",
    "write_clock 18 00 00 7F 01 00 00 00 00 00 00 /", "write_clock" + " 00" * 11 + " /", filled(CLOCK_LINE, 4095), filled(CLOCK_RUNS_LINE, 4095),
    filled(WRITE_CLOCK_LINE, 4095), "clock 00 /" + " 30" * 1361, "clock_runs 00 07 EA 03 01 00 /" + " 20" * 1355,
    "write_clock 0E 00 00 7F 01 00 00 00 00 00 00 /" + " 00" * 1350, filled("clocks /", 4095), filled("clock zz", 4095), filled("clock", 4095),
]


def no_clock_calls():
    """Lines that are no call, between what the run carries; the last line is the source's second example."""
    yield from CARRIED + CLOCK_NO_CALLS + CARRIED_SHOWN + CLOCK_CALLS_SET_OTHERWISE
    yield runs_on(1, SUNDAY, 0, SOURCE_CLOCKS[1])


KINDS = [
    ("bench cases of document 01", bench_cases),
    ("frames of source 002", source_frames),
    ("ranges", ranges),
    ("damaged datagrams", damaged),
    ("writers", writers),
    ("all values of a byte", all_values),
    ("reply data", reply_data),
    ("book", book),
    ("streams", streams),
    ("readers handed in", handed_in),
    ("settling", settling),
    ("items at a position", items_at),
    ("relays", relays),
    ("names", names),
    ("scenes of A1 and 1B (W-201)", scenes),
    ("events of two target bytes (W-206)", two_byte_targets),
    ("captures (W-207)", captures),
    ("runs of datagrams (W-208)", runs),
    ("seasons of corridors (W-213)", four_seasons),
    ("seasons part by part (W-213)", seasons_in_parts),
    ("lines that are no call", no_calls),
    ("colour requests (W-202)", colours),
    ("colour requests on the line (W-202)", colours_on_lines),
    ("lines that are no call of colour requests (W-202)", no_colour_calls),
    ("the retired command (W-210)", retired_command),
    ("the retired command on the line (W-210)", retired_on_lines),
    ("the quiet profile in writing (W-203)", quiet_writing),
    ("lines that are no call of the quiet profile (W-203)", no_quiet_calls),
    ("the quiet profile of runs (W-203)", quiet_runs),
    ("the table of commands (W-209)", table_of_commands),
    ("lines that are no call of the table of commands (W-209)", no_table_calls),
    ("requests with one byte changed (W-211)", lambda: one_byte_changed("request")),
    ("replies with one byte changed (W-211)", lambda: one_byte_changed("reply")),
    ("events with one byte changed (W-211)", lambda: one_byte_changed("event")),
    ("events of two target bytes with one byte changed (W-211)", lambda: one_byte_changed("event_two")),
    ("several bytes changed (W-211)", several_bytes_changed),
    ("the sum in words of eight (W-204)", sums_in_words),
    ("asking, replying and giving up (W-205)", giving_up),
    ("lines that are no call of giving up (W-205)", no_giving_up_calls),
    ("filter plans (W-212)", filter_plans),
    ("filter plans of many filters and by chance (W-212)", crowded_filter_plans),
    ("lines that are no call of filter plans (W-212)", no_plan_calls),
    ("texts of clocks (W-214)", clock_texts),
    ("texts of clocks with one byte changed (W-214)", clocks_with_one_byte_changed),
    ("clocks on a day (W-214)", clocks_on_days),
    ("clocks written, there and back, and by chance (W-214)", clocks_written),
    ("lines that are no call of clocks (W-214)", no_clock_calls),
]


def main(arguments):
    if arguments == ["count"]:
        for name, kind in KINDS:
            calls = list(kind())
            print("%7d lines %8d bytes  %s" % (len(calls), sum(len(line) + 1 for line in calls), name))
    elif arguments == ["run"]:
        sys.stdout.buffer.write(QUIET_RUN)
    elif arguments == ["plan"]:
        sys.stdout.buffer.write(b"".join(MARCH))
    elif arguments == ["wanted"]:
        sys.stdout.buffer.write(MARCH_WANTED.encode("ascii"))
    elif arguments == ["clocks"]:
        sys.stdout.buffer.write(CLOCKS_OF_A_SITE.encode("ascii"))
    else:
        # An empty line between the kinds; the last line ends with the input.
        calls = "\n\n".join("\n".join(kind()) for _, kind in KINDS)
        sys.stdout.buffer.write(calls.encode("latin-1"))


if __name__ == "__main__":
    main(sys.argv[1:])
