"""The line that the program `quiet` has to print of a run of bytes (docs/BENCH.md, "The program quiet").

    python3 second/quiet.py < run

Document 02, W-203: "a finished outgoing byte run: yes exactly if, read as a request line and closed, it gives only items 0 and each is inside the
profile".
"""

import sys

import opinion

# More bytes than these settle no item of a request line: one more than a reader of it holds.
ITEM_MOST = opinion.HELD_MOST["request"] + 1

# By the item's number. Of item 0 the command is named.
REASONS = {
    0: "command %02X is outside the profile",
    1: "the run ends inside a request",
    2: "no request begins here",
    3: "the command is unknown",
    4: "no such length byte or colour type",
    6: "the sum is wrong",
    7: "an argument is out of range",
}

HELP = """\
quiet.py < RUN
reads a run of bytes to its end and says whether it passes the quiet profile: yes, or its first item that does not
"""


def first_outside(run):
    """The place, the number and the bytes of the first item that is not 0 with a command inside the profile; None where there is none."""
    place = 0
    while place < len(run):
        number, count = opinion.settle("request", run[place:place + ITEM_MOST]) or (1, 1)
        if number != 0 or not opinion.inside(run[place + 2]):
            return place, number, run[place:place + count]
        place += count
    return None


def line_of(run):
    """The line, with its line feed."""
    found = first_outside(run)
    if found is None:
        return "yes\n"
    place, number, item = found
    reason = REASONS[number] % item[2] if number == 0 else REASONS[number]
    return "no: item %d at byte %d, %s: %s\n" % (number, place, item.hex().upper(), reason)


def main(arguments):
    if arguments:
        sys.stderr.write(HELP)
    else:
        sys.stdout.write(line_of(sys.stdin.buffer.read()))


if __name__ == "__main__":
    main(sys.argv[1:])
