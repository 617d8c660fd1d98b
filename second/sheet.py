"""The sheet of docs/SHEET.md: what the program `corridor` prints, from the documents alone.

    python3 second/sheet.py [--text | --svg] FILE MAC TARGET INSTANCE FIRST SECOND THIRD

Captures and seasons are opinion.py's; arguments, dates, lines and drawings are written here, in the page's order.
"""

import datetime
import errno
import functools
import os
import re
import sys

import opinion

HELP = b"""\
corridor [--text | --svg] FILE MAC TARGET INSTANCE FIRST SECOND THIRD

The report of document 02, W-213, over a capture: docs/SHEET.md.
"""

ARGUMENT_MOST = 4095
TARGET_MOST = 2 ** 32 - 1
INSTANCE_MOST = 255
SECONDS_MOST = 2 ** 32 - 1
PROGRESS = 67108864

EPOCH = datetime.datetime(1970, 1, 1)


class Wrong(Exception):
    """No sheet: the line that is said instead, without what it begins with."""

    def __init__(self, *parts):
        Exception.__init__(self)
        self.line = b"".join(part if isinstance(part, bytes) else str(part).encode("ascii") for part in parts)


def line_of(text):
    """A line on standard error."""
    return b"corridor: " + text + b"\n"


# Arguments

# "Six bytes of two hexadecimal digits each, capitals or not, a `:` or a `-` between two of them."
def mac_of(word):
    if not re.fullmatch(rb"[0-9A-Fa-f]{2}([:-][0-9A-Fa-f]{2}){5}", word):
        raise Wrong("MAC is not six bytes in hexadecimal, as in 7C:BA:CC:2F:40:2E: ", word)
    return bytes(int(word[at:at + 2], 16) for at in range(0, 18, 3))


# "Decimal digits only." "Leading zeros of a number do not matter."
def number_of(word, most):
    """The number, or None where the word is none up to the most."""
    if not re.fullmatch(rb"[0-9]+", word):
        return None
    digits = word.lstrip(b"0")
    if len(digits) > len(str(most)):
        return None
    number = int(digits or b"0")
    return number if number <= most else None


def named_number(name, word, most):
    number = number_of(word, most)
    if number is None:
        raise Wrong(name, " is not a number from 0 to %d: " % most, word)
    return number


# The Gregorian calendar, carried back to a year 0000 that has a 29th of February.
def exists(year, month, day):
    leap = year % 4 == 0 and (year % 100 != 0 or year % 400 == 0)
    days = [31, 29 if leap else 28, 31, 30, 31, 30, 31, 31, 30, 31, 30, 31]
    return 1 <= month <= 12 and 1 <= day <= days[month - 1]


def boundary_of(name, word):
    """The seconds of a boundary."""
    date = re.fullmatch(rb"([0-9]{4})-([0-9]{2})-([0-9]{2})", word)
    if not date:
        seconds = number_of(word, SECONDS_MOST)
        if seconds is None:
            raise Wrong(name, " is neither seconds, 0 to 4294967295, nor a date, as in 2026-03-01: ", word)
        return seconds
    year, month, day = (int(digits) for digits in date.groups())
    if not exists(year, month, day):
        raise Wrong(name, " is a date that does not exist: ", word)
    outside = Wrong(name, " is a date before 1970-01-01 or behind 2106-02-07: ", word)
    if year < 1970:
        raise outside
    seconds = int((datetime.datetime(year, month, day) - EPOCH).total_seconds())
    if seconds > SECONDS_MOST:
        raise outside
    return seconds


def whole(word):
    """The argument, where it is not too long."""
    if len(word) > ARGUMENT_MOST:
        raise Wrong("an argument is too long")
    return word


def arguments_of(words):
    """The option, the file, the corridor and the boundaries."""
    option = words[0] if words[0] in [b"--text", b"--svg"] else b""
    if whole(words[0]).startswith(b"--") and not option:
        raise Wrong("no such option: ", words[0])
    rest = words[1:] if option else words
    if len(rest) != 7:
        raise Wrong("7 arguments are wanted behind the option, if there is one; corridor --help names them")
    file = whole(rest[0])
    mac = mac_of(whole(rest[1]))
    target = named_number("TARGET", whole(rest[2]), TARGET_MOST)
    instance = named_number("INSTANCE", whole(rest[3]), INSTANCE_MOST)
    boundaries = [boundary_of(name, whole(word)) for name, word in zip(["FIRST", "SECOND", "THIRD"], rest[4:])]
    return option, file, opinion.Corridor(mac, target, instance), boundaries


# The file

def word_of(error):
    """The system's word for it."""
    return os.strerror(error.errno)


def opened(name):
    """A file, opened. Its name has to be text in UTF-8: of other bytes the system's word is that they are no such text."""
    try:
        name.decode("utf-8")
    except UnicodeDecodeError:
        raise OSError(errno.EILSEQ, "")
    return os.open(name, os.O_RDONLY)


def all_of(number):
    """All bytes of an open file."""
    parts = []
    part = os.read(number, 1 << 20)
    while part:
        parts.append(part)
        part = os.read(number, 1 << 20)
    return b"".join(parts)


def bytes_in(name, standard_input):
    """All bytes of a file, or of standard input, which is asked for them."""
    try:
        number = None if name == b"-" else opened(name)
    except OSError as error:
        raise Wrong(name, ": ", word_of(error))
    try:
        return standard_input() if number is None else all_of(number)
    except OSError as error:
        raise Wrong("reading ", name, ": ", word_of(error))
    finally:
        if number is not None:
            os.close(number)


# The records. A length over the longest record's is bad at once; all else is judged when the record is there whole.

read_event = functools.lru_cache(maxsize=1 << 16)(opinion.read_event)


class Progress:
    """"While it reads: a line behind each 67,108,864 bytes." """

    def __init__(self, said):
        self.said = said
        self.records = 0
        self.due = PROGRESS

    def reach(self, place):
        """The lines of all that lies before this place."""
        while self.due < place:
            self.said.append(line_of(b"read %d bytes, %d records" % (self.due, self.records)))
            self.due += PROGRESS

    def record(self, end):
        """One good record more, which ends here."""
        self.reach(end)
        self.records += 1


def events_in(run, said):
    """The seconds and the event of each record; at what is no capture, the line for it."""
    if not run:
        raise Wrong("15 BAD_RECORD: no byte at all (byte 0): a capture begins with its version")
    if run[0] not in opinion.VERSIONS:
        raise Wrong("14 UNKNOWN_VERSION: the first byte (byte 0) is neither 01 nor 02: no capture, or one of another version")
    width = opinion.VERSIONS[run[0]]
    longest = opinion.SECONDS_SIZE + opinion.event_size(width) + opinion.EVENT_DATA_MOST
    place, last, progress = 1, 0, Progress(said)
    while place < len(run):
        here = "15 BAD_RECORD: record %d, which begins at byte %d, " % (progress.records + 1, place)
        begin = place + 2
        length = opinion.high_first(run[place:begin])
        known = begin <= len(run)
        if known and longest < length:
            progress.reach(begin)
            raise Wrong(here, "has a length, a time or a datagram that cannot be")
        end = begin + length
        if not known or end > len(run):
            progress.reach(len(run) + 1)
            raise Wrong(here, "is cut short by the end")
        seconds = opinion.high_first(run[begin:begin + 4])
        try:
            event = read_event(width, run[begin + 4:end])
        except opinion.Refusal:
            event = None
        if event is None or seconds < last:
            progress.reach(end)
            raise Wrong(here, "has a length, a time or a datagram that cannot be")
        yield seconds, event
        progress.record(end)
        place, last = end, seconds
    progress.reach(len(run) + 1)


def seasons_of(run, corridor, boundaries, said):
    """The four seasons. "14 and 15 as before, then 20 for boundaries that do not rise." """
    times = {opinion.OCCUPIED: [], opinion.PRESS: [], opinion.HOLD: []}
    for seconds, event in events_in(run, said):
        if event.type in times and (event.mac, event.target, event.data[0]) == corridor:
            times[event.type].append(seconds)
    if not boundaries[0] < boundaries[1] < boundaries[2]:
        raise Wrong("20 NOT_RISING: the boundaries do not rise: %d, %d, %d" % tuple(boundaries))
    return [opinion.season_in(stretch, times[opinion.OCCUPIED], times[opinion.PRESS], times[opinion.HOLD])
            for stretch in opinion.stretches(boundaries)]


# What all forms share

def time_text(seconds):
    """"A time is written `2026-03-01 00:00:00` .., and one that is not there `-`." """
    if seconds is None:
        return "-"
    time = EPOCH + datetime.timedelta(seconds=seconds)
    return "%04d-%02d-%02d %02d:%02d:%02d" % (time.year, time.month, time.day, time.hour, time.minute, time.second)


def span_text(seconds):
    """"Whole hours and, with two digits, whole minutes, both rounded down"."""
    return "-" if seconds is None else "%d h %02d min" % (seconds // 3600, seconds // 60 % 60)


def share(count, parts, most):
    """"n times k divided by `most`, rounded down; 0 where `most` is 0"."""
    if most == 0:
        return 0
    if most >= 2 ** 56:
        count, most = count // 256, most // 256
    return min(count, most) * parts // most


def title(corridor):
    mac = ":".join("%02X" % byte for byte in corridor.mac)
    return "Corridor %s, target %d, instance %d, times in UTC" % (mac, corridor.target, corridor.instance)


def edges(boundaries):
    """Where each season begins and ends."""
    return list(zip([None] + boundaries, boundaries + [None]))


NAMES = ["occupied", "presses", "holds"]  # the first three fields of a season


# CSV

def csv(corridor, boundaries, seasons):
    yield "season,from,to,occupied,presses,holds,longest gap,total,gaps"
    for number, (edge, season) in enumerate(zip(edges(boundaries), seasons), 1):
        fields = [number, *edge, *season]
        yield ",".join("" if field is None else str(field) for field in fields)


# --text

def right(field, width):
    """"Behind so many blanks that it is w wide, and behind one at least." """
    return " " + str(field).rjust(width - 1)


def mean(season):
    return season.total // season.gaps if season.gaps else None


def row(number):
    return "     %d" % number


def text(corridor, boundaries, seasons):
    yield title(corridor)
    yield ""
    yield "season  " + "from".ljust(19) + "  " + "to".ljust(19) + "".join(right(name, 11) for name in NAMES)
    for number, ((first, end), season) in enumerate(zip(edges(boundaries), seasons), 1):
        yield (row(number) + "  " + time_text(first).ljust(19) + "  " + time_text(end).ljust(19)
               + "".join(right(count, 11) for count in season[:3]))
    yield ""
    yield "season" + right("longest gap", 19) + right("mean gap", 19) + right("total seconds", 21) + right("gaps", 11)
    for number, season in enumerate(seasons, 1):
        yield (row(number) + right(span_text(season.longest), 19) + right(span_text(mean(season)), 19)
               + right(season.total, 21) + right(season.gaps, 11))
    for place, name in enumerate(NAMES):
        yield ""
        yield name
        counts = [season[place] for season in seasons]
        for number, count in enumerate(counts, 1):
            marks = max(share(count, 40, max(counts)), 1 if count else 0)
            yield row(number) + "  " + ("#" * marks).ljust(40) + "  " + str(count)


# --svg

COLOURS = ["#1f77b4", "#ff7f0e", "#2ca02c", "#7f7f7f"]

SVG_HEAD = """\
<svg xmlns="http://www.w3.org/2000/svg" width="820" height="370" viewBox="0 0 820 370" font-family="sans-serif" font-size="12">
<rect width="820" height="370" fill="#ffffff"/>
<text x="60" y="24" font-size="14">{title}</text>
<rect x="60" y="34" width="12" height="12" fill="#1f77b4"/><text x="76" y="44">occupied</text>
<rect x="180" y="34" width="12" height="12" fill="#ff7f0e"/><text x="196" y="44">presses</text>
<rect x="300" y="34" width="12" height="12" fill="#2ca02c"/><text x="316" y="44">holds</text>
<rect x="420" y="34" width="12" height="12" fill="#7f7f7f"/><text x="436" y="44">longest gap (right axis)</text>
<path d="M60 70H700M60 190H700" stroke="#cccccc"/>
<text x="54" y="74" text-anchor="end">{most}</text>
<text x="54" y="314" text-anchor="end">0</text>
<text x="706" y="74">{longest}</text>
<text x="706" y="314">0</text>"""

SVG_BAR = ('<rect x="{x}" y="{y}" width="28" height="{h}" fill="{colour}"/>'
           '<text x="{c}" y="{v}" text-anchor="middle" font-size="10">{value}</text>')

SVG_SEASON = """\
<text x="{c}" y="328" text-anchor="middle">season {number}</text>
<text x="{c}" y="344" text-anchor="middle" font-size="10">from {first}</text>
<text x="{c}" y="358" text-anchor="middle" font-size="10">to {end}</text>"""

SVG_END = """\
<path d="M60 70V310H700V70" fill="none" stroke="#000000"/>
</svg>"""


def svg(corridor, boundaries, seasons):
    most = max(count for season in seasons for count in season[:3])
    gaps = [season.longest for season in seasons if season.longest is not None]
    longest = max(gaps) if gaps else None
    yield SVG_HEAD.format(title=title(corridor), most=most, longest=span_text(longest))
    for g, ((first, end), season) in enumerate(zip(edges(boundaries), seasons)):
        hours = "-" if season.longest is None else "%d h" % (season.longest // 3600)
        heights = [share(count, 240, most) for count in season[:3]] + [share(season.longest or 0, 240, longest or 0)]
        for step, colour, h, value in zip([12, 46, 80, 114], COLOURS, heights, [*season[:3], hours]):
            x, y = 60 + 160 * g + step, 310 - h
            yield SVG_BAR.format(x=x, y=y, h=h, colour=colour, c=x + 14, v=y - 4, value=value)
        yield SVG_SEASON.format(c=60 + 160 * g + 77, number=g + 1, first=time_text(first), end=time_text(end))
    yield SVG_END


FORMS = {b"": csv, b"--text": text, b"--svg": svg}


def printed(words, standard_input):
    """The sheet, empty where there is none, and all that is said on standard error. Standard input is a call that gives its bytes."""
    said = []
    if not words or words[0] == b"--help":
        return b"", HELP
    try:
        option, file, corridor, boundaries = arguments_of(words)
        seasons = seasons_of(bytes_in(file, standard_input), corridor, boundaries, said)
        sheet = "".join(line + "\n" for line in FORMS[option](corridor, boundaries, seasons)).encode("ascii")
    except Wrong as wrong:
        sheet = b""
        said.append(line_of(wrong.line))
    return sheet, b"".join(said)


NOT_WRITTEN = line_of(b"writing standard output failed")


def main(words):
    sheet, said = printed(words, lambda: all_of(0))
    try:
        while sheet:
            sheet = sheet[os.write(1, sheet):]
    except OSError:
        said += NOT_WRITTEN
    sys.stderr.buffer.write(said)


if __name__ == "__main__":
    main([os.fsencode(word) for word in sys.argv[1:]])
