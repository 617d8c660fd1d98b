"""Runs of the program `corridor`: files, arguments and standard inputs that tell wrong programs apart. checks/corridor walks them, and
second/sheet.py says what each has to print.

    python3 second/sheets.py      (lists them)
"""

import os
import sys
from collections import namedtuple

import cases
import sheet

# A run: the words behind the program's name, and its standard input: bytes with the size of the pieces in which they are written, or
# FOLDER. `full` says that standard output is a device without room.
Run = namedtuple("Run", "words given size full")
FOLDER = None

MAC = "7C:BA:CC:2F:40:2E"
TARGET, INSTANCE = 68, 3
DATES = ["2026-03-02", "2026-03-23", "2026-04-13"]
SECONDS = ["1000", "2000", "3000"]
FORMS = [[], ["--text"], ["--svg"]]

MOST = 2 ** 32 - 1
PRESS, HOLD, OCCUPIED = 0, 1, 6


def run(*words, given=b"", size=4096, full=False):
    return Run([word if isinstance(word, bytes) else word.encode("utf-8") for word in words], given, size, full)


def over(file, *boundaries, form=(), mac=MAC, target=str(TARGET), instance=str(INSTANCE)):
    """The words of a run over a file."""
    return [*form, file, mac, target, instance, *(boundaries or SECONDS)]


# Captures

def seen(width, seconds, type_=OCCUPIED, mac=cases.MAC, target=TARGET, data=bytes([INSTANCE])):
    """A record of the corridor, or of a neighbour that differs in what is given."""
    return cases.record(seconds, cases.event(target, type_, data, width, mac))


def good(width=3):
    """Three records."""
    return [seen(width, 900), seen(width, 1000, PRESS), seen(width, 1000)]


def capture(records, version=1):
    return bytes([version]) + b"".join(records)


def bad_files():
    """Each bad record first, between and last, in both layouts; and captures cut after every byte."""
    for version, width in cases.VERSIONS:
        bads = list(cases.bad_records(width, 1000, 1000)) + [seen(width, 1000, data=b"")]
        for number, bad in enumerate(bads):
            for place in [0, 1, 3]:
                records = good(width)
                yield "bad%d-%d-%d" % (version, number, place), capture(records[:place] + [bad] + records[place:], version)
        # every length about the least and the longest, with few bytes behind it and with many
        longest = 4 + 11 + width + 48
        for length in [0, 3, 4, 5, longest - 1, longest, longest + 1, 255, 256, 65535]:
            for many in [0, 3, 70000]:
                yield "length%d-%d-%d" % (version, length, many), capture(good(width), version) + cases.wide(length, 2) + bytes(many)
        # times that fall and stay
        for first, second in [(1000, 999), (256, 255), (MOST, 0), (MOST, MOST), (1, 0), (0, 0)]:
            yield "times%d-%d-%d" % (version, first, second), capture([seen(width, first), seen(width, second, 3, target=1, data=b"")], version)
        whole = capture(good(width) + [seen(width, 2500, data=bytes([INSTANCE]) + cases.pattern(47))], version)
        for end in list(range(1, 24)) + list(range(60, len(whole), 7)) + [len(whole) - 1]:
            yield "cut%d-%d" % (version, end), whole[:end]


def good_files():
    """Captures of few records: what stands where no gap is, gaps of every size, counts that leave short bars, neighbours."""
    for version, width in cases.VERSIONS:
        yield "none%d" % version, capture([], version)
        yield "few%d" % version, capture(good(width), version)
        yield "longest%d" % version, capture([seen(width, 5, data=bytes([INSTANCE]) + cases.pattern(47))] * 3, version)
        yield "gaps%d" % version, capture([seen(width, seconds) for seconds in [0, 59, 1000, 1060, 1119, 2000, 2000, 3000, 6600, 10199, 53399]], version)
        yield "ends%d" % version, capture([seen(width, 0), seen(width, MOST - 2), seen(width, MOST - 1), seen(width, MOST)], version)
        yield "last%d" % version, capture([seen(width, 2), seen(width, MOST)], version)
        strange = [seen(width, 1500 + place, type_, *neighbour) for type_ in range(12)
                   for place, neighbour in enumerate([(cases.MAC[::-1],), (cases.MAC, 69), (cases.MAC, TARGET, bytes([35])), (cases.MAC, TARGET, bytes([4, 3]))])]
        yield "strange%d" % version, capture([seen(width, 1400)] + cases.in_order(strange) + [seen(width, 1600)], version)
    for number, counts in enumerate([[1, 1000, 0, 0], [39, 40, 41, 1], [0, 0, 0, 7], [3, 0, 2, 1], [9999, 10000, 249, 250]]):
        turned = [counts[-place:] + counts[:-place] for place in range(3)]
        yield "bars%d" % number, capture([seen(3, 1000 * season, type_) * given[season] for season in range(4)
                                          for type_, given in zip([OCCUPIED, PRESS, HOLD], turned)])
        yield "one%d" % number, capture([seen(3, 1000 * season, number % 2) * count for season, count in enumerate(counts)])


def odd_files():
    """What is no capture."""
    yield "empty", b""
    yield from [("version%d" % version, bytes([version])) for version in [0, 3, 90, 255]]
    yield "unknown", b"\x03" + capture(good())[1:]
    yield "text", b"season,from,to\n"
    yield "zeros", bytes(70000)
    yield "noise", b"\x01" + cases.Chance(16).run(3000)


def large_file():
    """"A line behind each 67,108,864 bytes": twice these, with a record across the first end and the second; in records of 68 bytes."""
    return "large", capture([seen(3, 1000, data=bytes([INSTANCE]) + cases.pattern(47)) * (2 * 67108864 // 68 + 1)])


# Arguments. A name that begins with the option's mark is no option behind an option.

MACS = ["7c:ba:cc:2f:40:2e", "7C-BA-CC-2F-40-2E", "7c-bA:Cc-2F:40-2e"]
BAD_MACS = ["", "7C", "7C:BA:CC:2F:40", "7C:BA:CC:2F:40:2E:00", "7C:BA:CC:2F:40:2", "7C:BA:CC:2F:40:2EE", "7C:BA:CC:2F:40:2G", "7CBACC2F402E",
            "7C.BA.CC.2F.40.2E", "7C BA CC 2F 40 2E", ":7C:BA:CC:2F:40:2E", "7C:BA:CC:2F:40:2E:", " 7C:BA:CC:2F:40:2E", "7C:BA:CC:2F:40:2E ",
            "7C::BA:CC:2F:40:2E", "7:C:BA:CC:2F:40:2E", "0x:BA:CC:2F:40:2E", "+C:BA:CC:2F:40:2E", "7C:BA:CC:2F:40:2E\n", "é:BA:CC:2F:40:2E",
            "7C:BA:CC:2F:40/2E", "7C:BA:CC:2F;40:2E", "@C:BA:CC:2F:40:2E", "`C:BA:CC:2F:40:2E", b"\xFF\xFE:BA:CC:2F:40:2E", "A" * 4095]

NUMBERS = ["0", "00", "68", "068", "000000000000000000000068", "4294967295", "0004294967295", "0" * 4093 + "68", "67", "324", "65604", "16777284"]
BAD_NUMBERS = ["", " ", "-1", "+1", "1 ", " 1", "1.0", "0x44", "4294967296", "4294967364", "99999999999", "18446744073709551616", "18446744073709551684",
               "340282366920938463463374607431768211524", "9" * 4095, "68a", "a", ":", "/", "6:8", "１", "68\n", "1_0", "1e3", b"\xB2"]

INSTANCES = ["0", "3", "03", "0000000000003", "31", "32", "35", "255", "0255"]
BAD_INSTANCES = ["", "256", "259", "-3", "+3", "3 ", "0x3", "4294967299", "18446744073709551619", "three", "1000", "300"]

# Each is the third boundary; the two before it are 5 and 6.
BOUNDARIES = ["7", "007", "0" * 4094 + "7", "4294967295", "0004294967295", "1970-01-02", "1972-02-29", "1999-12-31", "2000-02-29", "2000-03-01", "2026-02-28",
              "2028-02-29", "2028-12-31", "2099-12-31", "2100-02-28", "2100-03-01", "2104-02-29", "2106-01-31", "2106-02-06", "2106-02-07"]
MISSING_DATES = ["2027-02-29", "2100-02-29", "2026-13-01", "2026-00-10", "2026-04-31", "2026-06-31", "2026-09-31", "2026-11-31", "2026-01-00", "2026-01-32",
                 "2026-12-32", "2026-02-30", "2028-02-30", "2026-99-99", "2026-00-00", "1900-02-29", "2200-02-29", "0000-00-00", "9999-13-01", "1969-02-29"]
DATES_OUTSIDE = ["1969-12-31", "1969-01-01", "1900-01-01", "1968-02-29", "0001-01-01", "0000-01-01", "0000-02-29", "2106-02-08", "2106-02-28", "2106-03-01", "2107-01-01",
                 "2200-02-28", "2400-02-29", "9999-12-31"]
NO_BOUNDARIES = ["", "4294967296", "99999999999999999999999", "-1", "-5", "+7", "7 ", "2026", "2026-03", "2026-03-1", "2026-3-01", "26-03-01", "02026-03-01",
                 "2026-03-011", "2026/03/01", "2026-03-01T00:00:00", "2026-03-01 ", " 2026-03-01", "2026-03-0a", "2026-0a-01", "202a-03-01", "2026:03:01",
                 "2026--3-01", "2026-03--1", "20260301x", "----------", "2026-03-", "tomorrow", "2026-03-01Z", "8" * 4095, "２026-03-01"]


def options():
    """The option, and how many arguments stand behind it."""
    words = over("few1")
    for form in FORMS:
        yield run(*form, *words)
        for count in [0, 1, 6]:
            if form or count:
                yield run(*form, *words[:count])
        yield run(*form, *words, "7")
        yield run(*form, *words, "")
        yield run(*form, *words, *words)
    for word in ["--csv", "--", "--TEXT", "--texts", "--tex", "--text=", "--svgs", "---", "--helper", "-- text", "--\xE9"]:
        yield run(word, *words)
    yield from [run("--csv"), run("--"), run("--csv", "few1")]
    # files of such names, which are not there
    for word in ["-", "-t", "-text", "-h", "text", ""]:
        yield run(word, *words[1:])
    yield from [run("--text", "--svg", *words[1:]), run("--svg", "--text", *words[1:]), run("--text", "--csv", *words[1:]), run("--text", "--text", *words)]


def arguments():
    """Good and bad ones of each, in turn and together."""
    for file in ["few1", "few2"]:
        for mac in MACS:
            yield run(*over(file, mac=mac, form=["--text"]))
    for mac in BAD_MACS:
        yield run(*over("few1", mac=mac))
    for target in NUMBERS:
        yield run(*over("few1", target=target, form=FORMS[len(target) % 3]))
    for target in BAD_NUMBERS:
        yield run(*over("few2", target=target))
    for instance in INSTANCES:
        yield run(*over("strange1", instance=instance))
    for instance in BAD_INSTANCES:
        yield run(*over("few1", instance=instance))
    for number, word in enumerate(BOUNDARIES):
        yield run(*over("few1", "5", "6", word, form=FORMS[number % 3]))
    for number, word in enumerate(MISSING_DATES + DATES_OUTSIDE + NO_BOUNDARIES):
        three = ["5", "6", "7"]
        three[number % 3] = word
        yield run(*over("few1", *three, form=FORMS[number % 2]))
    for word in ["1969-12-31", "2026-02-29", "x"]:
        for place in range(3):
            yield run(*over("few1", *[word if at >= place else "5" for at in range(3)]))
    # which of several is named
    wrong = ["nowhere", "7C", "-1", "256", "x", "2026-02-29", "1969-12-31"]
    right = over("few1")
    for place in range(1, 8):
        yield run(*right[:place], *wrong[place:])
        yield run(*wrong[:1], *right[1:place], *wrong[place:])
    # dates and seconds beside each other; 1970-01-01 is 0
    for three in [("1970-01-01", "1", "2"), ("0", "1970-01-02", "1970-01-03"), ("1970-01-01", "86399", "1970-01-02"), ("2106-02-06", "2106-02-07", "4294967295")]:
        yield from [run(*over("ends1", *three, form=form)) for form in FORMS]


def long_arguments():
    """4,095 bytes are no fault of an argument, 4,096 are one."""
    words = over("few1")
    for size in [4095, 4096, 4097, 9000]:
        yield run(*over("./" * ((size - 4) // 2) + "/" * (size % 2) + "few1"))
        yield run(*over("f" * size))
        for place in range(1, 7):
            yield run(*words[:place], words[place].rjust(size, "0"), *words[place + 1:])


def names(kind):
    return [name for name, _ in kind]


def files():
    """What the file is: good, bad, not there, no file, and what the system says of it."""
    for name in ["year", "year2"]:
        for form in FORMS:
            yield run(*over(name, *DATES, form=form))
            yield run(*over(name, "1780000000", "2026-08-01", "2026-09-01", form=form, instance="35"))
            yield run(*over(name, *DATES, form=form, mac="7C:BA:CC:2F:40:2F"))
        yield run(*over(name, *DATES, target="65604"))
        yield run(*over(name, *DATES, target="324"))
    for name in names(good_files()):
        yield from [run(*over(name, form=form)) for form in FORMS]
        yield run(*over(name, "0", "1", "2", form=["--text"]))
        yield run(*over(name, "4294967293", "4294967294", "4294967295", form=["--svg"]))
    for number, name in enumerate(names(bad_files()) + names(odd_files())):
        yield run(*over(name, form=FORMS[number % 3]))
    for name in ["nowhere", "few1/few1", "folder", "folder/", "folder/nowhere", "loop", "./few1", "folder/../few1", "link", "closed", "n" * 255, "n" * 256,
                 "with blank", "é", b"\xFF\xFE", "a\nb"]:
        yield run(*over(name))
    # boundaries that do not rise stand behind what is wrong with the file
    for three in [("3", "2", "1"), ("5", "5", "6"), ("4", "5", "5"), ("0", "0", "0"), ("2026-03-02", "2026-03-02", "2026-03-03"), ("2026-03-02", "1", "2026-03-01"),
                  ("4294967295", "4294967294", "2106-02-07"), ("0002", "02", "2")]:
        for name in ["few1", "none2", "empty", "version3", "cut1-20", "bad1-9-1", "nowhere", "folder"]:
            yield run(*over(name, *three, form=FORMS[len(name) % 3]))
    for form in FORMS:
        yield run(*over("few1", form=form), full=True)
    yield from [run(*over("nowhere"), full=True), run(*over("empty"), full=True)]


def standard_inputs(contents):
    """Captures through a pipe, in pieces of every size; a folder, and nothing."""
    for size in [1, 7, 61, 4096, 65536, 100000]:
        for name in ["year", "year2"]:
            yield run(*over("-", *DATES, form=FORMS[size % 3]), given=contents[name], size=size)
    for name in ["few1", "few2", "longest1", "longest2", "cut1-20", "cut2-60", "bad1-9-1", "bad2-14-3", "length1-65535-3", "empty", "version3", "none1", "noise",
                 "length2-65535-70000", "zeros", "bars4"]:
        for size in [1, 3, 70, 4096] if len(contents[name]) < 4096 else [4093]:
            yield run(*over("-"), given=contents[name], size=size)
    # a bad record and a torn end behind a year
    for tail in [b"\0", b"\0\3", seen(3, 0), contents["year"]]:
        yield run(*over("-", *DATES), given=contents["year"] + tail, size=4096)
    yield from [run(*over("-", form=form), given=FOLDER) for form in FORMS]
    yield run(*over("-", "3", "2", "1"), given=FOLDER)
    # standard input is not asked where a file is named
    yield run(*over("few1"), given=contents["year"])


def contents(year, year_two):
    """All files, by name."""
    found = dict([("year", year), ("year2", year_two)])
    for kind in [good_files(), bad_files(), odd_files()]:
        found.update(kind)
    return found


def runs(found):
    """All runs over these files."""
    for kind in [options(), arguments(), long_arguments(), files(), standard_inputs(found)]:
        yield from kind


def laid_out(folder, found):
    """Writes the files to a folder, with what is none of them."""
    for name, run_ in found.items():
        with open(os.path.join(folder, name), "wb") as file:
            file.write(run_)
    os.mkdir(os.path.join(folder, "folder"))
    os.symlink("few1", os.path.join(folder, "link"))
    os.symlink("loop", os.path.join(folder, "loop"))
    for name in ["closed", "with blank", "é", b"\xFF\xFE", "a\nb"]:
        path = os.path.join(os.fsencode(folder), os.fsencode(name))
        with open(path, "wb") as file:
            file.write(found["few1"])
        if name == "closed":
            os.chmod(path, 0)


def expected(run_):
    """What the run prints on standard output and on standard error, where the files are laid out in this folder."""
    def standard_input():
        if run_.given is FOLDER:
            raise IsADirectoryError(21, "")
        return run_.given
    out, said = sheet.printed(run_.words, standard_input)
    return (b"", said + sheet.NOT_WRITTEN) if run_.full and out else (out, said)


def main():
    found = contents(b"\x01", b"\x02")
    for number, run_ in enumerate(runs(found), 1):
        given = "a folder" if run_.given is FOLDER else "%d bytes" % len(run_.given)
        words = " ".join(repr(word[:60])[1:] for word in run_.words)
        print("%4d %s%s" % (number, words, "  < %s in pieces of %d" % (given, run_.size) if b"-" in run_.words[:2] else ""))


if __name__ == "__main__":
    main()
