"""The rows of docs/CLOCK.md: what the program `clock` prints, from the documents alone.

    python3 second/clock.py DATE < clocks

Clocks, the calendar and names are opinion.py's; the argument, weekdays, the lines and the rows are written here, in the page's order.
"""

import functools
import os
import re
import sys

import opinion
from sheet import Wrong

HELP = b"""\
Usage: clock DATE

Says of the clocks of a Domintell site whether each of them runs on a day, and when, document 02, W-214: docs/CLOCK.md.
"""

ARGUMENT_MOST = 4095
INPUT_MOST = 1048576
DAY_SECONDS = 86400
FIRST_WEEKDAY = 6  # 2000-01-01 is a Saturday
BASIC_MOST = 20  # "A line of more than 20 bytes, its carriage return not counted, is read as that of an astronomical clock"

HEADER = b"line,answer,second,at,clock\n"

# Behind a row with a refusal, by its number.
REASONS = {
    21: b"a clock is HH:MM:SS WD DD/MM/YY, WD in capitals, and where it is astronomical behind a blank HH:MM:SS or -HH:MM:SS",
    22: b"hours reach 23, minutes and seconds 59, days 31 and months 12, and no offset is -00:00:00",
}


def line_of(text):
    """A line on standard error."""
    return b"clock: " + text + b"\n"


# The date: "four digits, `-`, two digits, `-`, two digits: a date of the Gregorian calendar, 2000-01-01 to 2099-12-31". What is wrong with the
# arguments is judged in the order of the page's lines; one that is too long is no option.

def date_of(words):
    """Year, month and day of the one argument."""
    if words[0].startswith(b"--") and len(words[0]) <= ARGUMENT_MOST:
        raise Wrong("no such option: ", words[0])
    if len(words) != 1:
        raise Wrong("1 argument is wanted, a date as in 2026-03-02; clock --help says more")
    word = words[0]
    if len(word) > ARGUMENT_MOST:
        raise Wrong("the argument is too long")
    form = re.fullmatch(rb"([0-9]{4})-([0-9]{2})-([0-9]{2})", word)
    if not form:
        raise Wrong("DATE is not a date as in 2026-03-02: ", word)
    date = tuple(int(digits) for digits in form.groups())
    if not opinion.date_exists(*date):
        raise Wrong("DATE is a date that does not exist: ", word)
    if date[0] not in opinion.YEARS:
        raise Wrong("DATE is a date before 2000-01-01 or behind 2099-12-31: ", word)
    return date


# "Its weekday is reckoned from it."
def weekday_of(date):
    """The weekday of a date in 2000 to 2099, 0 to 6 from Sunday."""
    year, month, day = date
    before = [opinion.days_in(earlier, each) for earlier in range(opinion.CENTURY, year) for each in range(1, 13)]
    before += [opinion.days_in(year, each) for each in range(1, month)]
    return (FIRST_WEEKDAY + sum(before) + day - 1) % 7


def day_before(date):
    year, month, day = date
    if day > 1:
        return year, month, day - 1
    year, month = (year, month - 1) if month > 1 else (year - 1, 12)
    return year, month, opinion.days_in(year, month)


def day_after(date):
    year, month, day = date
    if day < opinion.days_in(year, month):
        return year, month, day + 1
    return (year, month + 1, 1) if month < 12 else (year + 1, 1, 1)


# Lines

# "The input is cut at each line feed; behind the last line feed stands another line only if there is a byte. A carriage return at the end of a line (one, the
# byte 0D) is no part of it. A line without a byte is passed over. Lines are counted from 1, those that are passed over too."
def lines_of(run):
    """The lines that are not passed over, with their numbers."""
    for number, line in enumerate(opinion.lines(run), 1):
        line = line[:-1] if line.endswith(b"\r") else line
        if line:
            yield number, line


# The rows

# "Of the date itself, of the day before or of the day after."
def at_text(date, second):
    """The date and the time of a second, counted from the midnight with which the date begins."""
    if second < 0:
        date, second = day_before(date), second + DAY_SECONDS
    elif second >= DAY_SECONDS:
        date, second = day_after(date), second - DAY_SECONDS
    return "%04d-%02d-%02d %02d:%02d:%02d" % (*date, second // 3600, second // 60 % 60, second % 60)


@functools.lru_cache(maxsize=1 << 12)
def judged(date, weekday, line):
    """Of a line its refusal, 0 where it is a clock, and what stands in its row behind the number."""
    try:
        second = opinion.run_of_clock(len(line) > BASIC_MOST, date, weekday, line)
    except opinion.Refusal as refusal:
        return refusal.number, b"%d %s,,," % (refusal.number, opinion.REFUSAL_NAMES[refusal.number].encode("ascii"))
    if second is None:
        return 0, b"idle,,," + line
    return 0, b"runs,%d,%s,%s" % (second, at_text(date, second).encode("ascii"), line)


def rows_of(date, run):
    """The rows, and the lines on standard error that stand behind some of them."""
    weekday, rows, said = weekday_of(date), [HEADER], []
    for number, line in lines_of(run):
        refusal, row = judged(date, weekday, line)
        rows.append(b"%d,%s\n" % (number, row))
        if refusal:
            said.append(line_of(b"line %d: %d %s: %s" % (number, refusal, opinion.REFUSAL_NAMES[refusal].encode("ascii"), REASONS[refusal])))
    return b"".join(rows), b"".join(said)


# "The input has at most 1,048,576 bytes."
def input_of(standard_input):
    """The bytes of standard input, which is asked for them."""
    try:
        run = standard_input()
    except OSError:
        raise Wrong("reading standard input failed")
    if len(run) > INPUT_MOST:
        raise Wrong("standard input has more than %d bytes" % INPUT_MOST)
    return run


def printed(words, standard_input):
    """The rows, empty where there are none, and what is said on standard error. Standard input is a call that gives its bytes."""
    if not words or words[0] == b"--help":
        return b"", HELP
    try:
        return rows_of(date_of(words), input_of(standard_input))
    except Wrong as wrong:
        return b"", line_of(wrong.line)


NOT_WRITTEN = line_of(b"writing standard output failed")


def front_of(number):
    """The bytes of an open file, and of a longer one as many as tell that it is too long."""
    run, part = bytearray(), b"more"
    while part and len(run) <= INPUT_MOST:
        part = os.read(number, INPUT_MOST + 1 - len(run))
        run += part
    return bytes(run)


def main(words):
    rows, said = printed(words, lambda: front_of(0))
    try:
        while rows:
            rows = rows[os.write(1, rows):]
    except OSError:
        said += NOT_WRITTEN
    sys.stderr.buffer.write(said)


if __name__ == "__main__":
    main([os.fsencode(word) for word in sys.argv[1:]])
