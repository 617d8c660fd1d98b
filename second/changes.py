"""What changes of one byte and of two do to accepted frames (document 02, W-211), counted.

    python3 second/changes.py               (prints the table of docs/EXCLUDED.md)
    python3 second/changes.py all FAMILY    (tries every double change of the family's shortest frame)

"Take an accepted datagram and change exactly one byte to another value, and the result is refused." "Two changed bytes may pass." The frames are
those of second/cases.py, CHANGED.
"""

import sys
from collections import namedtuple

import cases
import opinion

HELP = """\
changes.py [all FAMILY]
counts the changes of one byte and of two bytes of the frames in second/cases.py, and how many of them are accepted
without arguments it prints a table, which stands in docs/EXCLUDED.md
with all it tries every double change of the shortest frame of one family, one by one, and holds the quick count of the
table to it; how far it is stands on standard error, and the exit status is 1 where they differ
FAMILY is one of: %s
""" % ", ".join(family.word for family in cases.CHANGED)

OTHER_VALUES = 255  # that a byte may be changed to


# Readers by the call that reads: a datagram is accepted where they do not refuse.

READERS = {
    "request": opinion.read_request,
    "reply": opinion.read_reply,
    "event": opinion.by(opinion.THREE, opinion.read_event),
    "event_two": opinion.by(opinion.TWO, opinion.read_event),
}


def accepted(name, datagrams):
    """How many of the datagrams the call accepts."""
    read = READERS[name]
    count = 0
    for datagram in datagrams:
        try:
            read(datagram)
            count += 1
        except opinion.Refusal:
            pass
    return count


# Counting

Counts = namedtuple("Counts", "frames singles singles_accepted doubles doubles_accepted")


def doubles_of(frame):
    """How many double changes a frame has: each two places, each of the other values at both."""
    return len(cases.pairs_of_places(frame)) * OTHER_VALUES ** 2


# The quick count. A datagram whose exclusive-or is not 0 is refused (document 01, 6: if no lower number applies, this one does). That of an accepted
# frame is 0. Change two of its bytes, and the exclusive-or is that of the bits that were turned in one byte and of those turned in the other. It is 0
# where these are the same bits and nowhere else. So of the 255 x 255 changes of two places those 255 alone may be accepted in which both bytes are
# changed by the same bits. These are read, each of them, and no other one can add to the count.
def doubles_accepted(name, frame):
    """How many double changes of an accepted frame are accepted."""
    return accepted(name, cases.same_bits_turned(frame))


def changes_of_two_places(frame, one, other):
    """The frame with both of these bytes changed, each to each of its other values."""
    for first in range(1, 256):
        changed = cases.flipped(frame, one, first)
        for second in range(1, 256):
            yield cases.flipped(changed, other, second)


def every_double_tried(name, frame, progress=lambda line: None):
    """How many double changes of a frame there are and how many are accepted, each of them tried."""
    tried, count = 0, 0
    pairs = cases.pairs_of_places(frame)
    for number, pair in enumerate(pairs, 1):
        datagrams = list(changes_of_two_places(frame, *pair))
        tried += len(datagrams)
        count += accepted(name, datagrams)
        progress("%d of %d pairs of places: %s tried, %s accepted" % (number, len(pairs), whole(tried), whole(count)))
    return tried, count


def counts_of(family):
    """The counts of all frames of a family."""
    singles = [list(cases.single_changes(frame)) for frame in family.frames]
    return Counts(len(family.frames),
                  sum(len(datagrams) for datagrams in singles),
                  sum(accepted(family.call, datagrams) for datagrams in singles),
                  sum(doubles_of(frame) for frame in family.frames),
                  sum(doubles_accepted(family.call, frame) for frame in family.frames))


# The table

HEAD = ["What", "Frames", "Single changes", "Of which accepted", "Double changes", "Of which accepted", "Share of those"]


def whole(number):
    """The number with commas for thousands."""
    return "{:,}".format(number)


def nearest(number, divisor):
    """The quotient as the nearest whole number; a half goes up."""
    return (2 * number + divisor) // (2 * divisor)


def share(count, total):
    """Which share of the total the count is: 1 in so many, and in percent with three digits."""
    if count == 0:
        return "none"
    thousandths = nearest(100 * 1000 * count, total)
    return "1 in %s (%d.%03d%%)" % (whole(nearest(total, count)), thousandths // 1000, thousandths % 1000)


def row(fields):
    return "| " + " | ".join(fields) + " |"


def row_of(words, counts):
    return row([words] + [whole(number) for number in counts] + [share(counts.doubles_accepted, counts.doubles)])


def table():
    """The lines of the table: a row for each family, and one for all of them."""
    families = [counts_of(family) for family in cases.CHANGED]
    yield row(HEAD)
    yield "|---" + "|---:" * (len(HEAD) - 1) + "|"
    for family, counts in zip(cases.CHANGED, families):
        yield row_of(family.words, counts)
    yield row_of("all together", Counts(*map(sum, zip(*families))))


# The program

def try_every_double(family):
    """Every double change of the family's shortest frame, and the quick count beside it; gives the exit status."""
    frame = min(family.frames, key=len)
    tried, count = every_double_tried(family.call, frame, lambda line: print(line, file=sys.stderr, flush=True))
    quick = doubles_of(frame), doubles_accepted(family.call, frame)
    print("%s, %s: %s double changes tried, %s accepted, %s; the quick count has %s and %s: %s"
          % (family.words, opinion.text([frame]), whole(tried), whole(count), share(count, tried), whole(quick[0]), whole(quick[1]),
             "the same" if quick == (tried, count) else "they differ"))
    return 0 if quick == (tried, count) else 1


def wrong(line):
    """Says what is wrong with the arguments; gives the exit status."""
    print("changes.py: " + line, file=sys.stderr)
    return 2


def main(arguments):
    words = ", ".join(family.word for family in cases.CHANGED)
    if not arguments:
        print("\n".join(table()))
        return 0
    if arguments[0] == "--help":
        print(HELP, end="")
        return 0
    if arguments[0] != "all":
        return wrong("no such argument: %a; --help says what there is" % arguments[0])
    if len(arguments) != 2:
        return wrong("all takes one family: " + words)
    families = [family for family in cases.CHANGED if family.word == arguments[1]]
    return try_every_double(families[0]) if families else wrong("no such family: %a; there are %s" % (arguments[1], words))


if __name__ == "__main__":
    sys.exit(main(sys.argv[1:]))
