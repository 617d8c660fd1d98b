"""Runs of the program `plan`: files, arguments and standard inputs that tell wrong programs apart. checks/plan walks them, and second/plan.py
says what each has to print.

    python3 second/plans.py      (lists them)
"""

import errno
import os

import cases
import plan
from cases import DEVICE_KEY, FULL_TABLES, GEAR_KEY, MEANT, SWAPPED, added, cleared
from sheets import FOLDER, run

# A standard input that cannot be read, beside the folder.
WRITE_ONLY = object()

LIST = "--list"
MOST = 1048576
DIGITS = 1000000

LINES = b"68 3 6\n68 3 0\n"


def text_of(events):
    """The events as a wanted list."""
    return b"".join(b"%d %d %d\n" % tuple(event) for event in events)


# Plans

def good_plans():
    """Plans whose requests are good, by name, each with events to ask for one by one: what is hidden since when, and what is not."""
    gear, device = GEAR_KEY, DEVICE_KEY
    yield "march", cases.MARCH, cases.MARCH_EVENTS
    yield "meant", cases.MARCH[:3] + [added(*device, MEANT)] + cases.MARCH[4:], []
    # masks whose exchange does not have the type, and masks whose exchange has it too: no word of a slip then
    yield "high", [added(*gear, 0x0800, 9)], [[*gear, 11], [*gear, 3]]
    yield "both", [added(*device, 0x0103)], [[*device, 0], [*device, 1], [*device, 8]]
    yield "equal", [added(*device, 0x8181)], [[*device, 0], [*device, 15]]
    yield "every", [added(*gear, 0xFFFF), added(*device, 0xFFFF)], [[*gear, type_] for type_ in [9, 10, 15, 16, 255]]
    yield "nearly", [added(*gear, 0xFFFE)], [[*gear, 8], [*gear, 1]]
    # added twice, cleared and added again, cleared in other bits and of other keys, joined, and cleared before
    yield "turns", [cleared(*device, 1), added(*device, 1), added(*device, 2), cleared(*device, 1), added(*device, 3), added(*device, 1), cleared(68, 4, 1),
                    cleared(*device, 0x8000), added(*device, 0)], [[*device, 0], [*device, 1], [*device, 2]]
    yield "often", [added(*gear, 8, 7), added(*gear, 8, 8), cleared(*gear, 0xFFF7), added(*gear, 0x0F08, 9)], [[*gear, 3], [*gear, 11]]
    # made, dropped and made again: the order
    yield "again", [added(0, 255, 1), added(1, 255, 2), added(64, 0, 4), cleared(0, 255, 1), added(2, 255, 8), added(0, 255, 0x10), cleared(1, 255, 1),
                    added(1, 255, 0x20), added(64, 0, 0), cleared(2, 255, 0xFFFF), cleared(3, 255, 0xFFFF)], [[0, 255, 4], [0, 255, 0]]
    yield "dropped", [added(*gear, MEANT), cleared(*gear, 0x0100), cleared(*gear, 0x0008)], [[*gear, 3]]
    for number, (keys, more) in enumerate(FULL_TABLES):
        full = [added(*key, 0x8001 << place % 3 & 0xFFFF or 1, place) for place, key in enumerate(keys)]
        yield "full%d" % number, full + [added(*more, 0), added(*keys[5], 0x0402)], [[*keys[63], 15], [*keys[5], 10]][number % 2:][:1]
    keys, more = FULL_TABLES[2]
    full = [added(*key, MEANT) for key in keys]
    yield "remade", full + [request for key in keys[::3] for request in [cleared(*key, MEANT), added(*key, SWAPPED)]], [[*keys[3], 0]]
    yield "room", full + [cleared(*keys[7], 0xFFFF), added(*more, 0x0200)], [[*more, 9]]


# One request for each reason, by the refusal's number; of 18 all that there are, since their names are said.
BAD_REQUESTS = {
    2: cases.BAD_REQUESTS[2][1:12:3] + cases.BAD_REQUESTS[2][-1:],
    3: cases.BAD_REQUESTS[3][::4],
    4: cases.BAD_REQUESTS[4][1:-1:4],
    5: cases.BAD_REQUESTS[5][::3],
    6: cases.BAD_REQUESTS[6][::2] + [added(*DEVICE_KEY, MEANT)[:7] + b"\x0A"],
    7: cases.BAD_REQUESTS[7][::5] + cases.BAD_REQUESTS[7][-4:],
    18: cases.BAD_REQUESTS[18],
}


def bad_plans():
    """Plans with a bad request: each reason, at every place in turn; ends of 1 to 7 bytes; a 65th filter; and several that are bad."""
    good = cases.GOOD_PLAN
    for number, requests in BAD_REQUESTS.items():
        for turn, bad in enumerate(requests):
            place = turn % (len(good) + 1)
            yield "bad%d-%d" % (number, turn), good[:place] + [bad] + good[place:]
    for size in range(1, 8):
        yield "end%d" % size, good[:size - 1] + [cases.pattern(8)[:size] if size % 2 else good[0][:size]]
    for number, (keys, more) in enumerate(FULL_TABLES):
        full = [added(*key, MEANT, place) for place, key in enumerate(keys)]
        yield "over%d" % number, full + [added(*more, [SWAPPED, 0x8000, 0xFFFF, 0x0240][number]), cleared(*keys[0], 0xFFFF), b"\x04"][:1 + number]
    yield "frames", [good[0], cases.unicast(9, cases.pattern(6)), good[1]]
    yield "colours", [good[0], cases.COLOUR_FRAMES[2], good[1]]
    yield "text", [b"68 3 6\n68 3 0\n"]
    yield "several", [good[0], cases.BAD_REQUESTS[18][3], cases.BAD_REQUESTS[2][0], b"\x04"]


def large_plans():
    """The longest plan: hidden since the last request, and since the first; its end cut; its last request bad; and a byte too many."""
    pair = cleared(*DEVICE_KEY, 1) + added(*DEVICE_KEY, 1)
    yield "last", pair * (MOST // 16)
    yield "first", added(*DEVICE_KEY, 1) + added(*GEAR_KEY, 1) * (MOST // 8 - 1)
    yield "cut", (pair * (MOST // 16))[:-1]
    yield "sum", (pair * (MOST // 16))[:-1] + b"\x00"
    yield "long", pair * (MOST // 16) + b"\x04"


# Wanted lists

GOOD_TEXTS = {
    "nothing": b"",
    "feed": b"\n",
    "feeds": b"\n" * 70000,
    "blank": b" ",
    "blanks": b" \t\r\n\t \n\r\n \r",
    "unended": b"68 3 6\n68 3 0",
    "tabs": b"68\t3\t6\n\t\t68 \t3\t0\t\n",
    "returns": b"68 3 6\r\n\r\n68 3 0\r\n",
    "inside": b"68\r3\r6\n\r68\r\r3 0",
    "wide": b"  68   3     6  \n     68 3 0",
    "zeros": b"068 003 00006\n" + b"0" * 5000 + b"68 " + b"0" * 5000 + b"3 000\n",
    "ends": b"0 0 0\n255 255 255\n00255 000 0255\n68 3 255",
    "comments": b"# 68 3 0\n#68 3 0\n#\n  # a b\n\t#68 3 0\n\r#\n## #\n68 3 6\n#",
    "letters": b"#\xC3\xA4\xFF\xFE\x00\x0B\x0C\x7F\n# caf\xC3\xA9 256 256\n68 3 6\n",
    "same": LINES * 3,
    "digits": b"0" * DIGITS + b" 0 0\n" + b"68 3 6\n",
    "hidden": b"# " + b"x" * 90000 + b"\n\n" + b"1 2 3\n" * 300 + b"68 3 6\n68 3 0\n68 3 1\n",
    "events": b"0 0 0\n" * (MOST // 6),
}

# Each is one line; some lines are set before it and behind it.
BAD_LINES = [
    b"256 3 6", b"68 256 6", b"68 3 256", b"00256 3 6", b"68 3 1000", b"68 3 65536", b"4294967364 3 6", b"18446744073709551684 3 6", b"-1 3 6", b"+68 3 6",
    b"68 3 -0", b"68", b"68 3", b"68 3 6 0", b"68 3 6 #", b"68 3 6#", b"68 # 3 6", b"68,3,6", b"68:3:6", b"0x44 3 6", b"68 3 0A", b"68 three 6",
    b"68.0 3 6", b"6e1 3 6", b"1_0 3 6", b"; 68 3 6", b"-", b"\x00", b"68\x003 6", b"68\x0B3 6", b"68 3 6\x0C", b"68\xA03 6", b"68 3 \xB2",
    "68 3 \uFF16".encode("utf-8"), b"\xEF\xBB\xBF# a comment", b"68 3 6\x1A", b"\xFF", b"/68 3 6", b"68 3 :", b"9" * DIGITS, b"0" * (DIGITS - 4) + b"256 0 0",
]

FRONTS = [b"", b"68 3 6\n", b"\n\n# a comment\n", b"68 3 6\r\n\r\n", b"#\n68 3 0\n\t\n"]
BEHINDS = [b"", b"\n", b"\n68 3 0\n", b"\nwrong too\n"]


def bad_texts():
    """Each bad line at several places, and a text of a good one whose last line is bad."""
    for number, line in enumerate(BAD_LINES):
        yield "line%d" % number, FRONTS[number % len(FRONTS)] + line + BEHINDS[number % len(BEHINDS)]
    yield "late", b"68 3 6\n" * 1500 + b"68 3"


def large_texts():
    """The longest list, with its last event hidden, and a byte too many: of blanks, of a comment, of what is no list."""
    event = b"\n68 3 0"
    yield "longest", b"#" * (MOST - len(event)) + event
    yield "longer", b"#" * (MOST - len(event)) + event + b"\n"
    yield "wrong", b"x" * (MOST + 1)


def contents():
    """All files, by name."""
    found = {name: b"".join(requests) for name, requests, _ in good_plans()}
    found.update((name, b"".join(requests)) for name, requests in bad_plans())
    found.update(large_plans())
    found.update(GOOD_TEXTS)
    found.update(bad_texts())
    found.update(large_texts())
    found.update([("wanted", cases.MARCH_WANTED.encode("ascii")), ("none", b""), ("lines", LINES)])
    return found


# Arguments. A name that begins with the option's mark is no option behind an option, nor in the second place.

def options():
    """The option, and how many arguments stand behind it."""
    words = ["march", "wanted"]
    for front in [[], [LIST]]:
        yield run(*front, *words)
        for count in [0, 1]:
            if front or count:
                yield run(*front, *words[:count])
        yield from [run(*front, *words, LIST), run(*front, *words, "")]
    for word in ["--", "---", "--lis", "--lists", "--LIST", "--list=", "--helper", b"--\xFF"]:
        yield run(word, *words)
    yield from [run("--"), run("--lists"), run("--lists", *words, "wanted"), run("--lists", "-", "-")]
    # files of such names, of which some are there
    for word in ["-", "-l", "-list", "help", ""]:
        yield run(word, "wanted", given=b"")
    yield from [run(LIST, LIST, "wanted"), run("march", LIST), run("march", "--help"), run(LIST, "march", "--"), run("march", "--text"), run(LIST, "--help"),
                run(LIST, LIST, *words), run("", "")]


def long_arguments():
    """4,095 bytes are no fault of an argument, 4,096 are one, of the first and of the second; which of several faults is named."""
    def name(size, file):
        return "./" * ((size - len(file)) // 2) + "/" * ((size - len(file)) % 2) + file
    for size in [4095, 4096]:
        yield from [run(name(size, "march"), "wanted"), run(LIST, "march", name(size, "wanted")), run("f" * size, "wanted")]
    yield from [run("nowhere", "f" * 9000), run("-", "f" * 4096), run("f" * 4096), run("march", "wanted", "f" * 4096), run("--" + "f" * 4093, "wanted"),
                run("--" + "f" * 4094, "wanted"), run(LIST, "--" + "f" * 4094, "wanted"), run("--" + "f" * 9000)]


NO_FILES = ["nowhere", "march/march", "folder", "folder/", "folder/nowhere", "loop", "closed", "n" * 255, "n" * 256]
ODD_FILES = ["./march", "folder/../march", "link", "with blank", "é", b"\xFF\xFE", "a\nb"]


def files():
    """What the files are: good, not there, no file, and what the system says of them; and which of several faults is named."""
    for number, name in enumerate(NO_FILES):
        yield run(*[LIST] * (number % 2), name, "wanted")
        yield run(*[LIST] * (number % 2), "march", name)
    for number, name in enumerate(ODD_FILES):
        yield run(name, "wanted") if number % 2 else run(LIST, name, "lines")
        yield run("march", name)
    # the plan's fault stands before the list's, what is read before what is wrong with a line, and all of them before the answer
    faults = ["nowhere", "folder", "long", "end3"], ["nowhere", "folder", "wrong", "line0"]
    for turn in [0, 1, 3]:
        yield from [run(faults[0][place], faults[1][(place + turn) % 4]) for place in range(4)]
    yield from [run("/dev/null", "/dev/null"), run(LIST, "/dev/null", "lines"), run("/dev/zero", "nowhere"), run("march", "/dev/zero"), run("march", "march")]


def wanted_lists():
    """Texts of every kind, good and bad."""
    for number, name in enumerate(GOOD_TEXTS):
        yield run(*[LIST] * (number // 2 % 2), ["march", "every"][number % 2], name)
    for name, _ in bad_texts():
        yield run("march", name)
    yield run(LIST, "none", "line3")


def judged_plans():
    """Good plans with each of their events, and with none; bad ones with events that are hidden and without."""
    for number, (name, _, events) in enumerate(good_plans()):
        yield run(LIST, name, "nothing")
        if name == "march":
            yield from [run(name, "wanted"), run(name, "lines")]
            events = []
        for place, event in enumerate(events):
            yield run(*[LIST] * (number % 2), name, "-", given=text_of([[1, 2, 3]] * place + [event]), size=1 + place)
    for number, (name, _) in enumerate(bad_plans()):
        yield run(*[LIST] * (number % 2), name, ["nothing", "lines", "hidden"][number % 3])


def standard_inputs(found):
    """Plans and lists through a pipe, in pieces of every size; a folder, and nothing; and a standard input that is not asked."""
    for size in [1, 7, 8, 61]:
        yield run(*[LIST] * (size % 2), "-", "wanted", given=found["march"], size=size)
        yield run(*[LIST] * (size % 2), "march", "-", given=found["wanted"], size=size)
    for name in ["full1", "over2", "end5", "none"]:
        yield run(LIST, "-", "lines", given=found[name], size=13)
    for name in ["unended", "inside", "comments", "line2", "nothing", "late"]:
        yield run("march", "-", given=found[name], size=5)
    for words in [["-", "-"], [LIST, "-", "-"]]:
        yield run(*words, given=found["march"])
    for unreadable in [FOLDER, WRITE_ONLY]:
        for words in [["-", "wanted"], ["march", "-"], [LIST, "-", "nowhere"], ["nowhere", "-"]]:
            yield run(*words, given=unreadable)
    yield from [run("-", "nowhere", given=found["march"]), run("-", "line0", given=found["end3"]), run("nowhere", "-", given=LINES)]
    yield from [run("march", "wanted", given=found["full0"]), run("march", "./-", given=LINES)]


def large_files(found):
    """1,048,576 bytes and one more, of both kinds, from files and through a pipe."""
    for name in ["last", "first", "cut", "sum", "long"]:
        yield run(LIST, name, "lines")
    yield from [run("march", "longest"), run("march", "longer"), run("march", "wrong"), run("long", "longer"), run("nowhere", "longer")]
    yield from [run("-", "lines", given=found["last"], size=65536), run("-", "lines", given=found["long"], size=65521), run("-", "longer", given=found["march"]),
                run("march", "-", given=found["longest"], size=100000), run("march", "-", given=found["longer"], size=4096)]


def full_outputs():
    """A standard output without room: said where there is an answer, and where there is none the fault alone."""
    for words in [["meant", "wanted"], ["march", "wanted"], [LIST, "full0", "nothing"], ["bad18-0", "wanted"], [LIST, "over1", "wanted"], ["nowhere", "wanted"],
                  ["march", "line0"], ["--lists", "march"]]:
        yield run(*words, full=True)


def plans_by_chance():
    """Few filters and many changes, and the events with blanks, zeros and comments between them."""
    chance = cases.Chance(214)
    for _ in range(24):
        keys = [chance.pick(cases.PLAN_KEYS) for _ in range(1 + chance.below(3))]
        requests = [cases.some_change(chance, keys) for _ in range(chance.below(30))]
        if chance.one_in(5):
            requests.insert(chance.below(len(requests) + 1), cases.some_bad_request(chance, keys))
        lines = []
        for _ in range(chance.below(8)):
            event = [b"%0*d" % (1 + chance.below(4), value) for value in cases.some_wanted(chance, keys)]
            lines += [b"# " + chance.run(5).replace(b"\n", b"")] * chance.below(2) + [chance.pick([b" ", b"\t", b"  ", b" \t "]).join(event)]
        yield b"".join(requests), chance.pick([b"\n", b"\r\n", b" \n"]).join(lines)


def runs_by_chance():
    for number, (requests, _) in enumerate(plans_by_chance()):
        yield run(*[LIST] * (number % 3 > 0), "-", "chance%d" % number, given=requests, size=1 + number)


def runs(found):
    """All runs over these files."""
    for kind in [options(), long_arguments(), files(), wanted_lists(), judged_plans(), standard_inputs(found), large_files(found), full_outputs(),
                 runs_by_chance()]:
        yield from kind


def laid_out(folder, found):
    """Writes the files to a folder, with what is none of them."""
    def write(name, content):
        path = os.path.join(os.fsencode(folder), os.fsencode(name))
        with open(path, "wb") as file:
            file.write(content)
        return path
    for name, content in found.items():
        write(name, content)
    for number, (_, text) in enumerate(plans_by_chance()):
        write("chance%d" % number, text)
    os.mkdir(os.path.join(folder, "folder"))
    os.symlink("march", os.path.join(folder, "link"))
    os.symlink("loop", os.path.join(folder, "loop"))
    for name in ["with blank", "é", b"\xFF\xFE", "a\nb", LIST]:
        write(name, found["march"])
    for name in ["--help", "--", "-"]:
        write(name, found["wanted"])
    os.chmod(write("closed", found["march"]), 0)


def expected(run_):
    """What the run prints on standard output and on standard error, where the files are laid out in this folder."""
    def standard_input():
        if run_.given in [FOLDER, WRITE_ONLY]:
            raise OSError(errno.EISDIR if run_.given is FOLDER else errno.EBADF, "")
        return run_.given
    out, said = plan.printed(run_.words, standard_input)
    return (b"", said + plan.NOT_WRITTEN) if run_.full and out else (out, said)


def main():
    for number, run_ in enumerate(runs(contents()), 1):
        given = {FOLDER: "a folder", WRITE_ONLY: "nothing to read"}.get(run_.given) or "%d bytes" % len(run_.given)
        words = " ".join(repr(word[:60])[1:] for word in run_.words)
        print("%4d %s%s" % (number, words, "  < %s in pieces of %d" % (given, run_.size) if b"-" in run_.words[-2:] else ""))


if __name__ == "__main__":
    main()
