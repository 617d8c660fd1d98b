"""The answer of docs/PLAN.md: what the program `plan` prints, from the documents alone.

    python3 second/plan.py [--list] PLAN WANTED

Requests, filters and names are opinion.py's; arguments, the wanted list and the lines are written here, in the page's order.
"""

import functools
import os
import sys

import opinion
from sheet import Wrong, number_of, opened, word_of

HELP = b"""\
plan [--list] PLAN WANTED

Checks a contractor's filter plan, document 02, W-212: docs/PLAN.md.
"""

OPTION = b"--list"
ARGUMENT_MOST = 4095
FILE_MOST = 1048576
BYTE_MOST = 255
STANDARD_INPUT = b"-"


def line_of(text):
    """A line on standard error."""
    return b"plan: " + text + b"\n"


# Arguments. "What is wrong is judged in this order"; one that is too long is no option.

def arguments_of(words):
    """Whether the filters are listed, and the names of the two files."""
    listed = words[0] == OPTION
    if words[0].startswith(b"--") and not listed and len(words[0]) <= ARGUMENT_MOST:
        raise Wrong("no such option: ", words[0])
    files = words[1:] if listed else words
    if len(files) != 2:
        raise Wrong("2 arguments are wanted behind the option, if there is one; plan --help names them")
    if any(len(file) > ARGUMENT_MOST for file in files):
        raise Wrong("an argument is too long")
    if files == [STANDARD_INPUT] * 2:
        raise Wrong("only one of the two files can be standard input")
    return listed, files


# Files

def front_of(number):
    """The bytes of an open file, and of a longer one as many as tell that it is too long."""
    run, part = bytearray(), b"more"
    while part and len(run) <= FILE_MOST:
        part = os.read(number, FILE_MOST + 1 - len(run))
        run += part
    return bytes(run)


def bytes_in(name, standard_input):
    """The bytes of a file, or of standard input, which is asked for them. "Each has at most 1,048,576 bytes." """
    try:
        number = None if name == STANDARD_INPUT else opened(name)
    except OSError as error:
        raise Wrong(name, ": ", word_of(error))
    try:
        run = standard_input() if number is None else front_of(number)
    except OSError as error:
        raise Wrong("reading ", name, ": ", word_of(error))
    finally:
        if number is not None:
            os.close(number)
    if len(run) > FILE_MOST:
        raise Wrong(name, ": more than %d bytes" % FILE_MOST)
    return run


# "A blank is a space, a tab or a carriage return (the bytes 20, 09, 0D); a word is a longest run of other bytes."
def words_of(line):
    return [word for word in line.replace(b"\t", b" ").replace(b"\r", b" ").split(b" ") if word]


# "A line without a word, and one whose first word begins with `#`, is passed over. Every other line has three words, `address instance type`, each
# of decimal digits only that say 0 to 255."
def events_of(name, text):
    """The wanted events of a text. Its lines are those of the bench: behind a last line feed there is no further one."""
    events = []
    for number, line in enumerate(opinion.lines(text), 1):
        words = words_of(line)
        if words and not words[0].startswith(b"#"):
            event = tuple(number_of(word, BYTE_MOST) for word in words)
            if len(event) != opinion.WANTED_SIZE or None in event:
                raise Wrong(name, ", line %d: an address, an instance and a type are wanted, each a number from 0 to 255" % number)
            events.append(event)
    return events


# The words of an answer

def hexadecimal(run):
    return run.hex().upper()


# "A *type* is its number, and behind it a blank and its name where it has one (0 to 9)."
def type_text(type_):
    return " ".join([str(type_)] + opinion.EVENT_NAMES[type_:type_ + 1])


# "address A, instance I, mask MMMM, types TYPE, TYPE, .." "with the types whose bits stand in the mask, lowest first".
def filter_text(key, mask):
    types = [type_text(type_) for type_ in range(opinion.MASK_BITS) if mask >> type_ & 1]
    return "address %d, instance %d, mask %04X, types %s" % (*key, mask, ", ".join(types))


def request_text(place, request):
    return "request %d at byte %d, %s" % (place, opinion.BASIC_SIZE * place, hexadecimal(request))


def added_text(place, key, mask):
    return "request %d adds %s" % (place, filter_text(key, mask))


def exchanged(mask):
    """The mask with its two bytes exchanged."""
    return opinion.low_first(mask.to_bytes(2, "big"))


OTHER_LENGTH = "command {command:02X} has another length, and sets no filter"

# By the refusal's number; of 7 by the command too.
REASONS = {
    1: "the plan ends inside it, a request has 8 bytes",
    2: "a request begins with 04",
    3: "we know no command {command:02X}",
    4: OTHER_LENGTH,
    5: OTHER_LENGTH,
    6: "its last byte has to be {sum:02X}, the exclusive-or of those before it",
    18: "command {command:02X} {word} sets no filter, a plan has 31 and 33 only",
    19: "a 65th filter is needed, and a controller keeps 64",
}
FILTER_ARGUMENT = "address {address} with instance {instance}: a filter is of address 0 to 63 with instance 255, or of 64 to 127 with 0 to 31"
OTHER_ARGUMENT = "an argument of command {command:02X} is out of its range"


def reason(number, request):
    """The reason beside a refusal of a request."""
    if number == 1:
        return REASONS[number]
    command, address, instance = request[2:5]
    if number == 7:
        text = FILTER_ARGUMENT if command in [opinion.ADD_FILTER, opinion.CLEAR_FILTER] else OTHER_ARGUMENT
    else:
        text = REASONS[number]
    return text.format(command=command, address=address, instance=instance, sum=opinion.exclusive_or(request[:-1]),
                       word=opinion.COMMAND_NAMES.get(command))


# The answer

read_change = functools.lru_cache(maxsize=1 << 16)(opinion.read_change)


class Judged:
    """A plan walked to its first bad request, or to its end: the changes of the good ones, and the filters behind them."""

    def __init__(self, plan):
        self.requests = opinion.cut_plan(plan)
        self.filters = opinion.Filters()
        self.changes = []
        self.refusal = None  # of the request behind the last change
        try:
            for request in self.requests:
                change = read_change(request)
                self.filters.take(change)
                self.changes.append(change)
        except opinion.Refusal as refusal:
            self.refusal = refusal.number


# "K is the first request from which on the event stays hidden to the end".
def hidden_since(changes, event):
    """The place of that request, of an event that is hidden behind all of them."""
    filters, was_hidden, since = opinion.Filters(), False, None
    for place, change in enumerate(changes):
        filters.take(change)
        is_hidden = filters.hides(*event)
        if is_hidden and not was_hidden:
            since = place
        was_hidden = is_hidden
    return since


def bad_lines(judged):
    """The first bad request. "Where it is 19, a second line says what the request adds." """
    place = len(judged.changes)
    request = judged.requests[place]
    name = opinion.REFUSAL_NAMES[judged.refusal]
    yield "no: %s: %d %s: %s" % (request_text(place, request), judged.refusal, name, reason(judged.refusal, request))
    if judged.refusal == 19:
        change = read_change(request)
        yield added_text(place, change.key, change.mask)


def hidden_lines(judged, number, event):
    """The first wanted event hidden, and the request since which it is."""
    address, instance, type_ = event
    place = hidden_since(judged.changes, event)
    change = judged.changes[place]
    yield ("no: wanted event %d, address %d, instance %d, type %s, is hidden since %s"
           % (number, address, instance, type_text(type_), request_text(place, judged.requests[place])))
    yield added_text(place, change.key, change.mask)
    if not exchanged(change.mask) >> type_ & 1:
        yield "with the two bytes of its mask exchanged it adds %s: were they swapped?" % filter_text(change.key, exchanged(change.mask))


def answer_lines(judged, events):
    """The answer without the list."""
    if judged.refusal is not None:
        return bad_lines(judged)
    number = opinion.first_hidden(judged.filters, events)
    if number is not None:
        return hidden_lines(judged, number, events[number])
    return ["yes: no wanted event is hidden (requests %d, filters left %d, wanted events %d)"
            % (len(judged.requests), len(judged.filters.masks), len(events))]


# "Behind the answer the filters that the plan leaves, in the order in which they were made." "Where a request is bad, those that stood before it."
def list_lines(judged):
    masks = judged.filters.masks
    yield ("filters left: %d" % len(masks) if judged.refusal is None else "filters before request %d: %d" % (len(judged.changes), len(masks)))
    for key, mask in masks.items():
        yield filter_text(key, mask)


def printed(words, standard_input):
    """The answer, empty where there is none, and what is said on standard error. Standard input is a call that gives its bytes."""
    if not words or words[0] == b"--help":
        return b"", HELP
    try:
        listed, (plan, wanted) = arguments_of(words)
        judged = Judged(bytes_in(plan, standard_input))
        events = events_of(wanted, bytes_in(wanted, standard_input))
    except Wrong as wrong:
        return b"", line_of(wrong.line)
    lines = [*answer_lines(judged, events), *(list_lines(judged) if listed else [])]
    return "".join(line + "\n" for line in lines).encode("ascii"), b""


NOT_WRITTEN = line_of(b"writing standard output failed")


def main(words):
    answer, said = printed(words, lambda: front_of(0))
    try:
        while answer:
            answer = answer[os.write(1, answer):]
    except OSError:
        said += NOT_WRITTEN
    sys.stderr.buffer.write(said)


if __name__ == "__main__":
    main([os.fsencode(word) for word in sys.argv[1:]])
