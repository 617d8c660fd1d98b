"""Runs of the program `clock`: arguments and standard inputs that tell wrong programs apart. checks/clock walks them, and second/clock.py says what each
has to print.

    python3 second/clocks.py      (lists them)
"""

import errno

import cases
import clock
from cases import CLOCK_TEXTS, CLOCKS_OF_A_SITE, FORM_FAULTS, IMPOSSIBLE, OFFSETS, OWN_CLOCKS, SOURCE_CLOCKS, as_bytes, out_of_range_texts, own_flag, put
from plans import WRITE_ONLY
from sheets import FOLDER, run

DATE = "2026-03-01"
MOST = 1048576

SITE = CLOCKS_OF_A_SITE.encode("ascii")

# On any day: one of the seven runs, and so do the three behind them: on the day before, on the day itself and on the day after.
WEEK = b"".join(b"06:07:08 %02X 00/00/00\n" % (1 << weekday) for weekday in range(7)) + b"""\
00:00:00 7F 00/00/00 -00:00:01
23:59:59 7F 00/00/00 00:00:00
23:59:59 7F 00/00/00 00:00:01
"""

# Of good clocks alone, so that nothing is said of them.
GOOD = b"".join(line + b"\n" for line in SITE.split(b"\n") if b"7f" not in line and not line.startswith(b"24"))


def text_of(lines):
    return b"".join(as_bytes(line) + b"\n" for line in lines)


# Arguments

def options():
    """What begins with the option's mark, and how many arguments there are."""
    for word in ["--", "---", "--h", "--hel", "--helper", "--HELP", "--help=", "--help ", "--list", "--date", "--" + DATE, b"--\xFF", "--\n"]:
        yield from [run(word, given=SITE), run(word, DATE, given=SITE)]
    yield from [run("--date", DATE, DATE), run("--", "--help"), run(DATE, "--help", given=SITE), run(DATE, "--", given=SITE), run(DATE, DATE, given=SITE),
                run(DATE, "", given=SITE),
                run("", DATE), run("", ""), run(DATE, DATE, DATE), run("nothing", "at all"), run("2026-02-29", DATE), run("-", DATE), run("2026", "03", "01")]
    for word in ["-", "-h", "-help", "help", "", " ", "-" + DATE]:
        yield run(word, given=SITE)


def long_arguments():
    """4,095 bytes are no fault of an argument, 4,096 are one; which of several faults is named."""
    for size in [4095, 4096]:
        yield from [run("2" * size, given=SITE), run(DATE + "0" * (size - len(DATE)), given=SITE), run("--" + "h" * (size - 2), given=SITE), run("-" * size),
                    run(DATE, "2" * size),
                    run("2" * size, DATE), run("--" + "h" * (size - 2), DATE)]
    yield from [run("2" * 100000), run("--help" + "p" * 4090), run("2" * 4094), run("2" * 9000, "2" * 9000), run("--" + "h" * 9000, DATE)]


NO_DATES = [
    "2026-3-1", "2026-03-1", "2026-3-01", "2026/03/01", "2026.03.01", "2026 03 01", "20260301", "26-03-01", "2026-03-01 ", " 2026-03-01", "2026-03-01\n",
    "\n2026-03-01", "2026-03-01\r", "2026-03-0a", "+026-03-01", "-026-03-01", "-2026-03-01", "2026-03-001", "02026-03-01", "2026--3-01", "2026-03--1",
    "2026-03- 1", "2026-+3-01", "2026-03", "2026", "2026-03-", "2026-03-01-", "today", "2026-03-01T00:00:00", "2026-03-01 00:00:00", "2026-0x-01",
    "202A-03-01", "2026-03-0:", "2026-03-0/", "2026-0:-01", "202/-03-01", "01-03-2026", "01/03/26", "YYYY-MM-DD", "2026_03_01", "2026-03-01,", "2_26-03-01",
    "1e10-03-01", "２０２６-03-01", "2026‐03‐01", "2026\u221203\u221201", b"2026-03-\xB2\xB2", b"2026-03-0\xB1", b"\xEF\xBB\xBF2026-03-01", b"2026\xAD03\xAD01",
    "0", "99999-01-01", "2026-13-", "9999-99-990",
]
NO_DAYS = [
    "2026-02-29", "2023-02-29", "2025-02-29", "2024-02-30", "2000-02-30", "2026-00-01", "2026-13-01", "2026-01-00", "2026-01-32", "2026-02-31", "2026-03-32",
    "2026-04-31", "2026-05-32", "2026-06-31", "2026-07-32", "2026-08-32", "2026-09-31", "2026-10-32", "2026-11-31", "2026-12-32", "2100-02-29", "1900-02-29",
    "1999-02-29", "0000-00-00", "0000-01-00", "0000-02-30", "9999-99-99", "2026-99-01", "2026-01-99", "2000-00-00", "1999-12-32", "1999-13-01", "2100-00-01",
    "2100-04-31", "0001-02-29", "0100-02-29", "2200-02-29", "9999-02-29", "2001-02-29", "2099-02-29", "2098-02-29",
]
OUTSIDE = ["1999-12-31", "2100-01-01", "0000-01-01", "0000-02-29", "0004-02-29", "0400-02-29", "0001-01-01", "9999-12-31", "1970-01-01", "1996-02-29",
           "2104-02-29", "2400-02-29", "1600-02-29", "2100-02-28", "2100-12-31", "1900-02-28", "1999-01-01", "0026-03-01", "6202-03-01", "2999-12-31",
           "9996-02-29", "1926-03-01", "2126-03-01", "3026-03-01"]
DAYS = ["2000-01-01", "2000-01-02", "2000-02-28", "2000-02-29", "2000-03-01", "2000-12-31", "2001-01-01", "2001-02-28", "2001-03-01", "2003-12-31",
        "2004-02-29", "2004-03-01", "2004-12-31", "2005-01-01", "2023-02-28", "2023-03-01", "2024-01-01", "2024-02-28", "2024-02-29", "2024-03-01",
        "2024-12-30", "2024-12-31", "2025-01-01", "2026-01-31", "2026-02-01", "2026-02-28", "2026-03-01", "2026-03-02", "2026-03-03", "2026-03-04",
        "2026-03-05", "2026-03-06", "2026-03-07", "2026-03-08", "2026-03-31", "2026-04-01", "2026-04-30", "2026-05-01", "2026-05-31", "2026-06-01",
        "2026-06-30", "2026-07-01", "2026-07-31", "2026-08-01", "2026-08-31", "2026-09-01", "2026-09-30", "2026-10-01", "2026-10-31", "2026-11-01",
        "2026-11-30", "2026-12-01", "2026-12-31", "2027-01-01", "2048-02-29", "2068-02-29", "2088-02-29", "2095-12-31", "2096-02-28", "2096-02-29",
        "2096-03-01", "2097-01-01", "2099-01-01", "2099-02-28", "2099-03-01", "2099-12-30", "2099-12-31"]


def dates():
    """Dates in another form, such as the calendar lacks, outside, and good: their weekdays, and the days beside them."""
    for number, word in enumerate(NO_DATES + NO_DAYS + OUTSIDE):
        yield run(word, given=[WEEK, b"", SITE][number % 3])
    for word in DAYS:
        yield run(word, given=WEEK)


# Standard inputs, of which some are lines and some are none.

GOOD_LINES = CLOCK_TEXTS + ["00:00:00 00 00/00/00", "23:59:59 FF 31/12/99", "23:59:59 7F 00/00/00 23:59:59", "00:00:00 7F 00/00/00 -23:59:59",
                            "00:00:00 7F 00/00/00 00:00:00", "00:10:00 7F 00/00/00 -00:10:00", "23:50:00 7F 00/00/00 00:09:59",
                            "23:50:00 7F 00/00/00 00:10:00", "12:00:00 01 01/03/26", "12:00:00 01 01/03/00", "12:00:00 01 00/03/26", "12:00:00 01 01/00/26",
                            "12:00:00 01 01/00/00", "12:00:00 01 00/03/00", "12:00:00 01 00/00/26", "12:00:00 7F 02/03/26", "12:00:00 7F 01/02/26",
                            "12:00:00 7F 01/03/25", "12:00:00 7E 00/00/00", "12:00:00 81 00/00/00", "12:00:00 80 00/00/00", "00:00:01 7F 28/02/26 -00:00:02",
                            "00:00:01 7F 01/03/26 -00:00:02", "23:59:59 7F 02/03/26 00:00:02",
                            "23:59:59 7F 01/03/26 00:00:02"] + ["12:00:00 7F " + date for date in IMPOSSIBLE[:5]]

# Texts that are no clock, beside those with form faults; several would spoil a row.
BAD_LINES = [" ", "\t", "x", ",", "\"", ",,,,", "\"14:00:00 7F 01/00/00\"", "14:00:00,7F,01/00/00", "14:00:00 7F 01/00/00,", "#14:00:00 7F 01/00/00",
             "# a remark", "line,answer,second,at,clock", "\x00", "\x00" * 20, "\xFF" * 20, "\xEF\xBB\xBF14:00:00 7F 01/00/00", "14:00:00 7F 01/00/00 ",
             "14:00:00 7F 01/00/00\t", "14:00:00 7F 01/00/00\x0B", "14:00:00 7F 01/00/00\x0C14:00:00 7F 01/00/00", "14:00:00 7F 01/00/00\x1C",
             "14:00:00 7F 01/00/00\x85", "14:00:00 7F 01/00/00\x00", "14:00:00 7F 01/00/00\x1A", "14:00:00 7F 01/00/00 -600",
             "14:00:00 7F 01/00/00 Clock[SUNRISE]", "14:00:00 7F 01/00/00 Clock[SUNRISE] [READONLY]", "CLK000001%K00:22:00 7F 00/05/09",
             "K14:00:00 7F 01/00/00", " 4:00:00 7F 01/00/00", "14:00:00 7F  1/00/00", "14:00:00 7F 01/00/00 +00:30:00", "14:00:00 7F 01/00/00  00:30:00",
             "14:00:00 7F 01/00/00 00:30:00 ", "14:00:00 7F 01/00/00 --00:30:00", "14:00:00 7F 01/00/00 00:30:000", "14:00:00 7F 01/00/0",
             "4:00:00 7F 01/00/00", "14:00 7F 01/00/00", "14:00:00 7F", "14:00:00 7F 01/00/2026", "14:00:00 ff 01/00/00", "14:00:00 7f 01/00/00 -00:30:00",
             "14\r00:00 7F 01/00/00", "\r14:00:00 7F 01/00/00", "14:00:00 7F 01/00/00\rx", "14:00:00 7F 01/00/00\r00:30:00", "2026-03-01", "0" * 20, "0" * 21,
             "0" * 29, "0" * 30, "x" * 255, "x" * 256, "0" * 65536, "14:00:00 7F 01/00/00" * 500]

INPUTS = {
    "none": b"",
    "feed": b"\n",
    "feeds": b"\n" * 1000,
    "return": b"\r",
    "returns": b"\r\n\r\n\r\n",
    "return and end": b"\n\r",
    "two returns": b"\r\r\n\r\r",
    "one": b"14:00:00 7F 01/00/00",
    "one behind a mark": b"\xEF\xBB\xBF14:00:00 7F 01/00/00\n14:00:00 7F 01/00/00\n",
    "one with a return": b"14:00:00 7F 01/00/00\r",
    "one with two returns": b"14:00:00 7F 01/00/00\r\r\n14:00:00 7F 01/00/00\r\r",
    "one with three returns": b"14:00:00 7F 01/00/00\r\r\r\n",
    "all with returns": SITE.replace(b"\r", b"").replace(b"\n", b"\r\n"),
    "returns for feeds": SITE.replace(b"\r", b"").replace(b"\n", b"\r"),
    "returns behind feeds": SITE.replace(b"\r", b"").replace(b"\n", b"\n\r"),
    "unended": SITE.rstrip(b"\r\n"),
    "feed more": SITE + b"\n",
    "feeds between": SITE.replace(b"\n", b"\n\n\r\n"),
    "late": b"\n" * 99998 + b"14:00:00 7F 01/00/00\n\nx\n24:00:00 7F 01/00/00\n",
    "the same": b"20:38:49 7F 00/00/00 00:30:00\n" * 12,
    "bad alone": b"x",
    "out of range alone": b"23:60:00 7F 00/00/00",
    "bad and good": b"x\n14:00:00 7F 01/00/00\n24:00:00 7F 01/00/00\n20:38:49 7F 00/00/00 00:30:00\ny\nz\n",
    "a return before an offset": b"14:00:00 7F 01/00/00\r 00:30:00\n20:38:49 7F 00/00/00 00:30:00\r\r\n07:14:23 41 00/00/00 -00:10:00\r\n",
    "a feed before an offset": b"14:00:00 7F 01/00/00\n 00:30:00\n20:38:49 7F 00/00/00 \n00:30:00\n",
    "nothing but zeros": bytes(5000),
}

FRONTS_AND_BEHINDS = [(b"", b"\n"), (b"\n", b""), (b"14:00:00 7F 01/00/00\n", b"\r\n"), (b"\r\n\n", b"\n14:00:00 7F 01/00/00\n")]


def inputs():
    """Lines good and bad, and how they end."""
    for given in INPUTS.values():
        yield run(DATE, given=given)
    for date in [DATE, "2024-02-29", "2031-11-28", "2000-01-01"]:
        yield run(date, given=text_of(GOOD_LINES))
    yield run(DATE, given=text_of(BAD_LINES))
    for number, line in enumerate(BAD_LINES):
        front, behind = FRONTS_AND_BEHINDS[number % len(FRONTS_AND_BEHINDS)]
        yield run(DATE, given=front + as_bytes(line) + behind)
    yield run(DATE, given=text_of(fault(text) for text in CLOCK_TEXTS for fault in FORM_FAULTS))
    yield run(DATE, given=text_of(wrong for text in CLOCK_TEXTS for wrong in out_of_range_texts(text)))
    yield run(DATE, given=text_of(fault(wrong) for text in OWN_CLOCKS for wrong in out_of_range_texts(text) for fault in FORM_FAULTS[::5]))
    for time in ["00:00:00", "12:34:56", "23:59:59"]:
        yield run(DATE, given=text_of("%s 7F 00/00/00 %s%s" % (time, sign, offset) for sign in ["", "-"] for offset in OFFSETS))
    yield run(DATE, given=text_of(put(SOURCE_CLOCKS[0], 9, "%02X" % weekdays) for weekdays in range(256)))
    for text in SOURCE_CLOCKS:
        yield run(DATE, given=text_of(text[:size] for size in range(len(text) + 1)))
        yield run(DATE, given=text_of(text + " 00:30:00 -00:10"[:size] for size in range(16)))


def pieces():
    """A pipe in pieces of every size."""
    for size in [1, 2, 7, 20, 21, 29, 61, 4096]:
        yield run(DATE, given=SITE, size=size)
    yield from [run(DATE, given=text_of(GOOD_LINES + BAD_LINES), size=997), run(DATE, given=INPUTS["late"], size=513)]


def unreadable():
    """A standard input that cannot be read, and what is wrong before it is."""
    for given in [FOLDER, WRITE_ONLY]:
        for words in [[DATE], ["2026-02-29"], ["2100-01-01"], ["today"], ["--date"], [DATE, DATE], ["2" * 4096]]:
            yield run(*words, given=given)


def large_inputs():
    """1,048,576 bytes, and one more: of clocks, of line feeds, of one line, with the last line bad and without its end; and many more."""
    line = b"20:38:49 7F 00/00/00 00:30:00\n"
    clocks = line * (MOST // len(line))
    rest = MOST - len(clocks)
    yield from [run(DATE, given=clocks + b"\n" * rest, size=65536), run(DATE, given=clocks + b"\n" * rest + b"\n", size=65536),
                run(DATE, given=b"\n" * rest + clocks + b"x", size=65521)]
    yield from [run(DATE, given=(b"\n" * rest + clocks)[:-1] + b"x", size=65536), run(DATE, given=b"\n" * rest + clocks[:-1], size=100000),
                run(DATE, given=b"\n" * (rest + 1) + clocks[:-1], size=4096)]
    yield from [run(DATE, given=b"\n" * MOST, size=65536), run(DATE, given=b"\n" * MOST + b"\n", size=65536),
                run(DATE, given=b"\n" * (MOST - 20) + line[:20], size=65536)]
    yield from [run(DATE, given=b"x" * MOST, size=65536), run(DATE, given=b"x" * MOST + b"\n", size=65536),
                run(DATE, given=b"x" * (MOST - 2) + b"\r\n", size=65536), run(DATE, given=b"\r" * MOST, size=65536)]
    yield from [run(DATE, given=b"\r\n" * (MOST // 2), size=65536), run("2026-02-29", given=b"x" * (MOST + 1), size=65536),
                run(DATE, given=bytes(3 * MOST), size=65536)]


def full_outputs():
    """A standard output without room: said where there are rows, and else the fault alone. Nothing is said of a clock there: whether that stands before it, the
    page leaves open."""
    for words, given in [([DATE], GOOD), ([DATE], b""), ([DATE], GOOD * 900), (["2000-01-01"], WEEK), (["2026-02-29"], SITE), (["today"], SITE),
                         ([DATE, DATE], SITE), (["--date"], SITE), ([DATE], b"x" * (MOST + 1)),
                         ([DATE], FOLDER), ([DATE], WRITE_ONLY)]:
        yield run(*words, given=given, full=True, size=65536)


def by_chance():
    """Days and clocks by chance, of which some are spoilt, with line feeds, carriage returns and empty lines between them."""
    chance = cases.Chance(216)
    for number in range(40):
        lines = []
        for _ in range(chance.below(25)):
            text = cases.text_of_fields(cases.some_fields(chance))
            if chance.one_in(5):
                text = cases.replaced(text, chance.below(len(text)), chance.pick(b"0123456789ABCDEFabcdef :/-+\r"))
            if chance.one_in(12):
                text = b"" if own_flag(text) else text + b"\r"
            lines.append(text + chance.pick([b"\n", b"\n", b"\n", b"\r\n", b"\n\n"]))
        date = "%04d-%02d-%02d" % (2000 + chance.below(100), 1 + chance.below(12), 1 + chance.below(28))
        yield run(date, given=b"".join(lines) + chance.pick([b"", b"", b"14:00:00 7F 00/00/00", b"\r"]), size=1 + chance.below(300))


def runs():
    """All runs."""
    for kind in [options(), long_arguments(), dates(), inputs(), pieces(), unreadable(), large_inputs(), full_outputs(), by_chance()]:
        yield from kind


def expected(run_):
    """What the run prints on standard output and on standard error."""
    def standard_input():
        if run_.given in [FOLDER, WRITE_ONLY]:
            raise OSError(errno.EISDIR if run_.given is FOLDER else errno.EBADF, "")
        return run_.given
    out, said = clock.printed(run_.words, standard_input)
    return (b"", said + clock.NOT_WRITTEN) if run_.full and out else (out, said)


def main():
    for number, run_ in enumerate(runs(), 1):
        given = {FOLDER: "a folder", WRITE_ONLY: "nothing to read"}.get(run_.given) or "%d bytes" % len(run_.given)
        words = " ".join(repr(word[:60])[1:] for word in run_.words)
        print("%4d %s  < %s in pieces of %d%s" % (number, words, given, run_.size, "  > no room" if run_.full else ""))


if __name__ == "__main__":
    main()
