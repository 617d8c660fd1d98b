"""Self-checks of the second program: what the documents state, asked of second/opinion.py, second/sheet.py, second/quiet.py, second/plan.py,
second/clock.py and second/changes.py.

    python3 second/selftest.py
"""

import bisect
import contextlib
import datetime
import functools
import io
import os
import re
import subprocess
import sys
import tempfile
import unittest

import cases
import changes
import clock
import clocks
import opinion
import plan
import plans
import quiet
import sheet

# The bench cases of document 01 with the results that it states, and the example of docs/BENCH.md.
STATED = [
    ("request 04 00 01 0A 00 00 00 0F", "0 sequence 0 command 01 arguments 0A 00 00 00 group 10"),
    ("request 04 00 40 06 22 6B C0 A8 0A 0A 63", "0 sequence 0 command 40 port 8811 address 192 168 10 10"),
    ("request 04 00 31 00 FF 01 08 C3",
     "0 sequence 0 command 31 arguments 00 FF 01 08 address 0 instance 255 mask 264"),
    ("count_types 01 08", "0 count 2"),
    ("lowest_type 01 08", "0 lowest 3"),
    ("request 04 00 31 00 FF 01 08 CB", "6"),
    ("request 04 00 0C 40 00 00 01 49", "0 sequence 0 command 0C arguments 40 00 00 01 device 64 instance 1"),
    ("request 04 00 0C 40 00 00 01 48", "6"),
    ("request 04 00 A1 FF 00 00 01 5B", "0 sequence 0 command A1 arguments FF 00 00 01 broadcast scene 1"),
    ("reply A0 00 00 A0", "0 type A0 sequence 0 n 0"),
    ("reply_data A0 00 00 A0", "0 data"),
    ("reply A1 00 02 07 0F AB", "0 type A1 sequence 0 n 2"),
    ("reply_data A1 00 02 07 0F AB", "0 data 07 0F"),
    ("reply A1 00 03 46 6F 6F E4", "0 type A1 sequence 0 n 3"),
    ("reply A1 00 03 46 6F 6F 8B", "6"),
    ("gear FF 03 00 00 00 00 00 00", "0 bits 1023"),
    ("count_gear 00 00 00 00 00 00 03 FF", "0 count 10"),
    ("lowest_gear 00 00 00 00 00 00 03 FF", "0 lowest 0"),
    ("scenes 00 04", "0 bits 4"),
    ("request 04 00 A9 50 00 00 00 FD", "7"),
    ("request 04 00 A9 4F 00 00 00 E2", "0 sequence 0 command A9 arguments 4F 00 00 00 group 15"),
    ("request", "1"),
    ("reply", "1"),
    ("event", "1"),
    ("write_reply A1 00 / 07 0F / FF FF FF FF FF FF FF",
     "0 count 6 before FF FF FF FF FF FF FF after A1 00 02 07 0F AB FF"),
    ("feed_reply A0 00", "0 taken 2 nothing"),
    ("feed_reply 00 A0 FF", "0 taken 2 item 0 count 4 bytes A0 00 00 A0"),
]

# An event of three target bytes and no data, with a wrong sum, with a data byte, with two target bytes; and a summary in which nothing is
# counted.
LEVEL_CHANGE = "5A 43 7C BA CC 2F 40 2E 00 00 3B 03 00 6A"
LEVEL_CHANGE_DAMAGED = LEVEL_CHANGE[:-2] + "6B"
LEVEL_CHANGE_LONGER = "5A 43 7C BA CC 2F 40 2E 00 00 3B 03 01 FE 95"
LEVEL_CHANGE_TWO = "5A 43 7C BA CC 2F 40 2E 00 3B 03 00 6A"
NOTHING_COUNTED = "records 0 first absent last absent counts 0 0 0 0 0 0 0 0 0 0 0"

# Of a corridor: an occupied event, a press, a hold and one of type 7; the corridor in a call, and boundaries at 16, 32 and 48 seconds.
OCCUPIED = "5A 43 7C BA CC 2F 40 2E 00 00 3B 06 01 05 6B"
PRESS = "5A 43 7C BA CC 2F 40 2E 00 00 3B 00 01 05 6D"
HOLD = "5A 43 7C BA CC 2F 40 2E 00 00 3B 01 01 05 6C"
UNOCCUPIED = "5A 43 7C BA CC 2F 40 2E 00 00 3B 07 01 05 6A"
CORRIDOR = "7C BA CC 2F 40 2E 00 00 00 3B 05"
BOUNDARIES = " 00 00 00 10 00 00 00 20 00 00 00 30"


def record_at(seconds, datagram):
    """A record of a datagram of 15 bytes, at a time below 256."""
    return " 00 13 00 00 00 %02X %s" % (seconds, datagram)


def capture_of(count, records, version="01"):
    """The call that hands in a capture of so many of these records."""
    return "capture_set 00 00 00 00 00 00 %02X %02X / %s%s" % ((1 + 21 * count) // 256, (1 + 21 * count) % 256, version, records)


def four(*seasons):
    """The answer that has these four seasons."""
    return "0 " + " ".join("season %d %s" % place for place in enumerate(seasons, 1))


def plan_of(count, *more):
    """The call whose plan adds so many filters, of gear 0, 1, .. with mask 0108, and then has these requests; type 3 of gear 0 is wanted."""
    filters = ["04 00 31 %02X FF 01 08 %02X" % (gear, 0xC3 ^ gear) for gear in range(count)]
    return " ".join(["plan", *filters, *more, "/ 00 FF 03"])


def letters(text):
    """The bytes of a text, in hexadecimal."""
    return ["%02X" % byte for byte in text.encode("ascii")]


def clock_call(name, head, text):
    """The call of a clock's text behind the bytes of its first group."""
    return " ".join([name, head, "/"] + letters(text))


def clock_read(flag, text):
    return clock_call("clock", flag, text)


def clock_runs(flag, date, weekday, text):
    """The date as in 2026-03-01, whether it exists or not."""
    year, month, day = (int(number) for number in date.split("-"))
    return clock_call("clock_runs", "%s %02X %02X %02X %02X %02X" % (flag, year // 256, year % 256, month, day, weekday), text)


def clock_written(fields, size):
    """The call that writes a clock of these bytes into so many bytes 00."""
    return " ".join(["write_clock", *("%02X" % field for field in fields), "/"] + ["00"] * size)


def written(text, size):
    """The answer that has this text in front of so many bytes 00."""
    return " ".join(["0 count", str(len(text)), "before"] + ["00"] * size + ["after"] + letters(text) + ["00"] * (size - len(text)))


def not_written(number, size):
    return " ".join([str(number), "before"] + ["00"] * size + ["after"] + ["00"] * size)


NOTHING_IN_IT = "occupied 0 presses 0 holds 0 longest absent total 0 gaps 0"
ONE_IN_IT = "occupied 1 presses 0 holds 0 longest absent total 0 gaps 0"

# Document 02: what its requests state.
STATED_LATER = [
    # W-201: "A1 takes D 0-15; 1B keeps 0-12"
    ("request 04 00 A1 FF 00 00 0C 56", "0 sequence 0 command A1 arguments FF 00 00 0C broadcast scene 12"),
    ("request 04 00 A1 FF 00 00 0D 57", "0 sequence 0 command A1 arguments FF 00 00 0D broadcast scene 13"),
    ("request 04 00 A1 FF 00 00 0F 55", "0 sequence 0 command A1 arguments FF 00 00 0F broadcast scene 15"),
    ("request 04 00 A1 FF 00 00 10 4A", "7"),
    ("request 04 00 1B 02 0C 00 00 11", "0 sequence 0 command 1B arguments 02 0C 00 00 group 2 scene 12"),
    ("request 04 00 1B 02 0D 00 00 10", "7"),
    ("write_basic 00 A1 4F 00 00 0F / FF FF FF FF FF FF FF FF",
     "0 count 8 before FF FF FF FF FF FF FF FF after 04 00 A1 4F 00 00 0F E5"),
    ("write_basic 00 A1 4F 00 00 10 /", "7 before after"),
    ("write_basic 00 1B 0F 0D 00 00 / FF", "7 before FF after FF"),
    ("feed_request 04 00 A1 FF 00 00 0F 55", "0 taken 8 item 0 count 8 bytes 04 00 A1 FF 00 00 0F 55"),
    ("feed_request 04 00 A1 FF 00 00 10 4A", "0 taken 8 item 7 count 8 bytes 04 00 A1 FF 00 00 10 4A"),
    ("feed_request 04 00 1B 02 0D 00 00 10", "0 taken 8 item 7 count 8 bytes 04 00 1B 02 0D 00 00 10"),
    # W-202: "reading and writing of that frame as source 002 gives it under "DALI Colour Request Frame""
    ("request 04 00 0E 7F FE 20 01 72 D8", "0 sequence 0 command 0E target 127 broadcast level 254 tc 370"),
    ("request 04 05 0E 4F 00 10 12 34 56 78 58", "0 sequence 5 command 0E target 79 group 15 level 0 xy 4660 22136"),
    ("request 04 00 0E FF 01 80 01 02 03 04 05 06 73", "0 sequence 0 command 0E target 255 broadcast level 1 rgbwaf 1 2 3 4 5 6"),
    # its own example has colour type 00, of no list; with 80 it is another frame, and has another sum
    ("request 04 00 0E 01 FE 00 FF 00 00 00 00 00 0A", "4"),
    ("request 04 00 0E 01 FE 80 FF 00 00 00 00 00 0A", "6"),
    ("request 04 00 0E 01 FE 80 FF 00 00 00 00 00 8A", "0 sequence 0 command 0E target 1 gear 1 level 254 rgbwaf 255 0 0 0 0 0"),
    # "its address is a lighting target, its other values any"
    ("request 04 00 0E 3F 00 20 00 00 15", "0 sequence 0 command 0E target 63 gear 63 level 0 tc 0"),
    ("request 04 00 0E 40 FF 20 FF FF 95", "0 sequence 0 command 0E target 64 group 0 level 255 tc 65535"),
    ("request 04 00 0E 50 FE 20 01 72 F7", "7"),
    ("request 04 00 0E 51 FE 20 01 72 F6", "7"),
    ("request 04 00 0E 80 FE 20 01 72 27", "7"),
    # 1, 2, 3, "an unlisted colour type is 4, after 3", 5, 6, 7 in this order; "least of its family (8 request)"
    ("request 04 00 0E 7F FE 20 01", "1"),
    ("request 05 00 0E 50 FE 21 01 72", "2"),
    ("request 04 00 0F 50 FE 21 01 72", "3"),
    ("request 04 00 0E 50 FE 21 01 72", "4"),
    ("request 04 00 0E 50 FE 20 01 72", "5"),
    ("request 04 00 0E 7F FE 20 01 AA", "5"),
    ("request 04 00 0E 7F FE 10 01 72 E8", "5"),
    ("request 04 00 0E 7F FE 20 01 72 D8 00", "5"),
    ("request 04 00 0E 50 FE 20 01 72 F6", "6"),
    # writing: 7, then 8
    ("write_colour_tc 00 7F FE 01 72 / FF FF FF FF FF FF FF FF FF FF",
     "0 count 9 before FF FF FF FF FF FF FF FF FF FF after 04 00 0E 7F FE 20 01 72 D8 FF"),
    ("write_colour_xy 05 4F 00 12 34 56 78 / 00 00 00 00 00 00 00 00 00 00 00",
     "0 count 11 before 00 00 00 00 00 00 00 00 00 00 00 after 04 05 0E 4F 00 10 12 34 56 78 58"),
    ("write_colour_rgbwaf 00 01 FE FF 00 00 00 00 00 / 00 00 00 00 00 00 00 00 00 00 00 00 00",
     "0 count 13 before 00 00 00 00 00 00 00 00 00 00 00 00 00 after 04 00 0E 01 FE 80 FF 00 00 00 00 00 8A"),
    ("write_colour_xy 00 50 FE 12 34 56 78 / FF", "7 before FF after FF"),
    ("write_colour_tc 00 50 FE 01 72 /", "7 before after"),
    ("write_colour_rgbwaf 00 FE FE 01 02 03 04 05 06 /", "7 before after"),
    ("write_colour_tc 00 4F FE 01 72 / FF FF FF FF FF FF FF FF", "8 before FF FF FF FF FF FF FF FF after FF FF FF FF FF FF FF FF"),
    ("write_colour_xy 00 4F FE 12 34 56 78 /", "8 before after"),
    ("relay_request 04 00 0E 7F FE 20 01 72 D8 / 00 00 00 00 00 00 00 00 00 00",
     "0 count 9 before 00 00 00 00 00 00 00 00 00 00 after 04 00 0E 7F FE 20 01 72 D8 00"),
    # "its command given to the writer of basic requests is 3"
    ("write_basic 00 0E 01 FE 20 01 /", "3 before after"),
    ("write_basic 00 0E 50 00 00 00 / 00 00 00 00 00 00 00 00", "3 before 00 00 00 00 00 00 00 00 after 00 00 00 00 00 00 00 00"),
    ("known 0E", "0 known"),
    ("known 0D", "0 unknown"),
    ("known 0F", "0 unknown"),
    ("shape 0E", "0 colour"),
    ("shape 40", "0 unicast"),
    ("shape 0F", "0 unknown"),
    ("fits 0E 01 00 00 00", "0 no rule"),
    ("name 01 0E / 00 00 00 00 00 00 00 00 00 00 00",
     "0 count 11 before 00 00 00 00 00 00 00 00 00 00 00 after 44 41 4C 49 5F 43 4F 4C 4F 55 52"),
    # the book takes it as a known command, asked and handed in
    ("ask 0E 00 00 00 07", "0 number 0"),
    ("ask 0F 00 00 00 07", "3"),
    ("answer 00", "0 command 0E"),
    ("answer 00", "10"),
    ("book_set 00 / 00 0E 0D 0E / 00 00 00 01 00 00 00 02 00 00 00 03", "0"),
    ("ask 01 00 00 01 00", "0 number 2"),
    ("answer 03", "0 command 0E"),
    ("book_show", "0 last 2 held 01 0E 2 02 01 256"),
    # "the items follow the same numbers": 0 by the last byte of the frame, 4 by the sixth byte of the line, and 1 where it does not come
    ("feed_request 04 00 0E 7F FE", "0 taken 5 nothing"),
    ("feed_request 20 01 72 D8 04", "0 taken 4 item 0 count 9 bytes 04 00 0E 7F FE 20 01 72 D8"),
    ("feed_request 04 00 0E 01 FE 00 FF", "0 taken 6 item 4 count 1 bytes 04"),
    ("show_request", "0 held 5 bytes 00 0E 01 FE 00"),
    ("fresh_request", "0"),
    ("feed_request 04 00 0E 01 FE", "0 taken 5 nothing"),
    ("close_request", "0 item 1 count 1 bytes 04"),
    ("fresh_request", "0"),
    ("feed_request 04 00 0E 50 FE 20 01 72 F7 00", "0 taken 9 item 7 count 9 bytes 04 00 0E 50 FE 20 01 72 F7"),
    ("feed_request 04 00 0E 7F FE 20 01 72 D9 00", "0 taken 9 item 6 count 1 bytes 04"),
    ("show_request", "0 held 8 bytes 00 0E 7F FE 20 01 72 D9"),
    # "the line reader's most held bytes included": 12
    ("hold_request 00 00 00 00 00 00 00 0C / 04 00 0E 01 FE 80 FF 00 00 00 00 00", "0"),
    ("feed_request 8A", "0 taken 1 item 0 count 13 bytes 04 00 0E 01 FE 80 FF 00 00 00 00 00 8A"),
    ("hold_request 00 00 00 00 00 00 00 0B / 04 05 0E 4F 00 10 12 34 56 78 58", "0"),
    ("feed_request", "0 taken 0 item 0 count 11 bytes 04 05 0E 4F 00 10 12 34 56 78 58"),
    ("hold_request 00 00 00 00 00 00 00 0D / 04 00 0E 01 FE 80 FF 00 00 00 00 00 8A", "0"),
    ("close_request", "0 empty"),
    # W-203: "08, 31, 33, 40, A0-A9 and colour requests are outside it, each other known command inside"
    ("inside 01", "0 inside"),
    ("inside 08", "0 outside"),
    ("inside 09", "0 inside"),
    ("inside 0A", "0 inside"),
    ("inside 0E", "0 outside"),
    ("inside 31", "0 outside"),
    ("inside 32", "0 inside"),
    ("inside 33", "0 outside"),
    ("inside 34", "0 inside"),
    ("inside 40", "0 outside"),
    ("inside 41", "0 inside"),
    ("inside 9F", "0 outside"),
    ("inside A0", "0 outside"),
    ("inside A9", "0 outside"),
    ("inside AA", "0 inside"),
    ("inside AE", "0 inside"),
    ("inside AF", "0 outside"),
    ("inside 02", "0 outside"),
    # "only commands that query may be written"
    ("write_basic_quiet 00 01 0A 00 00 00 / FF FF FF FF FF FF FF FF FF",
     "0 count 8 before FF FF FF FF FF FF FF FF FF after 04 00 01 0A 00 00 00 0F FF"),
    ("write_basic_quiet 00 A9 4F 00 00 00 / FF FF FF FF FF FF FF FF", "13 before FF FF FF FF FF FF FF FF after FF FF FF FF FF FF FF FF"),
    ("write_basic 00 A9 4F 00 00 00 / FF FF FF FF FF FF FF FF", "0 count 8 before FF FF FF FF FF FF FF FF after 04 00 A9 4F 00 00 00 E2"),
    # 3, 17, 7, 13, 8: "13, outside the profile, comes after 7 and before 8"
    ("write_basic_quiet 00 02 FF FF FF FF /", "3 before after"),
    ("write_basic_quiet 00 40 06 22 6B C0 /", "3 before after"),
    ("write_basic_quiet 00 0E 01 FE 20 01 /", "3 before after"),
    ("write_basic_quiet 00 0A 00 00 00 00 / FF FF FF FF FF FF FF FF", "17 before FF FF FF FF FF FF FF FF after FF FF FF FF FF FF FF FF"),
    ("write_basic_quiet 00 0A FF 00 00 00 /", "17 before after"),
    ("write_basic_quiet 00 A9 50 00 00 00 /", "7 before after"),
    ("write_basic_quiet 00 AA 50 00 00 00 /", "7 before after"),
    ("write_basic_quiet 00 A9 4F 00 00 00 /", "13 before after"),
    ("write_basic_quiet 00 08 C3 00 00 00 / FF", "13 before FF after FF"),
    ("write_basic_quiet 00 AA 4F 00 00 00 / FF FF FF FF FF FF FF", "8 before FF FF FF FF FF FF FF after FF FF FF FF FF FF FF"),
    # "`write_unicast_quiet` is always 13, a colour one 7 or 13"
    ("write_unicast_quiet 00 22 6B C0 A8 0A 0A /", "13 before after"),
    ("write_unicast_quiet 00 22 6B C0 A8 0A 0A / 01 02 03 04 05 06 07 08 09 0A 0B",
     "13 before 01 02 03 04 05 06 07 08 09 0A 0B after 01 02 03 04 05 06 07 08 09 0A 0B"),
    ("write_colour_xy_quiet 00 50 FE 12 34 56 78 /", "7 before after"),
    ("write_colour_xy_quiet 00 4F FE 12 34 56 78 /", "13 before after"),
    ("write_colour_tc_quiet 00 7F FE 01 72 / 01 02 03 04 05 06 07 08 09", "13 before 01 02 03 04 05 06 07 08 09 after 01 02 03 04 05 06 07 08 09"),
    ("write_colour_rgbwaf_quiet 00 FE FE 01 02 03 04 05 06 / FF", "7 before FF after FF"),
    ("write_colour_rgbwaf_quiet 00 FF FE 01 02 03 04 05 06 / FF", "13 before FF after FF"),
    # "Readers still read everything"
    ("request 04 00 A9 4F 00 00 00 E2", "0 sequence 0 command A9 arguments 4F 00 00 00 group 15"),
    ("relay_request 04 00 A9 4F 00 00 00 E2 / 00 00 00 00 00 00 00 00",
     "0 count 8 before 00 00 00 00 00 00 00 00 after 04 00 A9 4F 00 00 00 E2"),
    # "yes exactly if, read as a request line and closed, it gives only items 0 and each is inside the profile"
    ("quiet", "0 yes"),
    ("quiet 04 00 09 00 00 00 00 0D", "0 yes"),
    ("quiet 04 00 0A 00 00 00 00 0E", "0 yes"),
    ("quiet 04 00 34 00 00 00 00 30 04 00 01 0A 00 00 00 0F", "0 yes"),
    ("quiet 04 00 A9 4F 00 00 00 E2", "0 no"),
    ("quiet 04 00 09 00 00 00 00 0D 04 00 A9 4F 00 00 00 E2", "0 no"),
    ("quiet 04 00 40 06 22 6B C0 A8 0A 0A 63", "0 no"),
    ("quiet 04 00 0E 7F FE 20 01 72 D8", "0 no"),
    ("quiet 04 00 09 00 00 00 00 0D 04", "0 no"),
    ("quiet 04 00 09 00 00 00 00 0D 00", "0 no"),
    ("quiet 04 00 09 00 00 00 00 0C", "0 no"),
    ("quiet 04 00 09 01 00 00 00 0C", "0 no"),
    ("quiet 04 00 02 00 00 00 00 06", "0 no"),
    ("name 00 0D / FF FF FF FF FF FF FF FF FF FF FF FF FF FF FF",
     "0 count 15 before FF FF FF FF FF FF FF FF FF FF FF FF FF FF FF after 4F 55 54 53 49 44 45 5F 50 52 4F 46 49 4C 45"),
    # W-205: "must also hold the tick (32 bits, given by the caller, ..) at which each was asked"; "a fresh book has all ticks 0"
    ("book_fresh", "0"),
    ("give_up FF FF FF FF 00 00 00 00", "0 freed 0"),
    ("ask 09 01 02 03 04", "0 number 0"),
    ("ask 0E FF FF FF FE", "0 number 1"),
    ("ask 40 00 00 00 03", "0 number 2"),
    ("ask 41 00 00 00 04", "0 number 3"),
    ("book_show", "0 last 3 held 00 09 16909060 01 0E 4294967294 02 40 3 03 41 4"),
    # "running round past its end": at tick 4 the second is 6 ticks old, and "a clock that has gone back gives a great age": the first is
    # 4278058240 ticks old; 6 is not "older than a limit" of 6, and is of 5
    ("give_up 00 00 00 04 FE FD FD 00", "0 freed 0"),
    ("give_up 00 00 00 04 FE FD FC FF", "0 freed 1"),
    ("give_up 00 00 00 04 00 00 00 06", "0 freed 0"),
    ("book_show", "0 last 3 held 01 0E 4294967294 02 40 3 03 41 4"),
    ("give_up 00 00 00 04 00 00 00 05", "0 freed 1"),
    ("book_show", "0 last 3 held 02 40 3 03 41 4"),
    ("give_up 00 00 00 04 00 00 00 05", "0 freed 0"),
    # a number given up is no more awaited, one that is kept is
    ("answer 01", "10"),
    ("answer 02", "0 command 40"),
    ("give_up 00 00 00 04 00 00 00 00", "0 freed 0"),
    # "their numbers, order and refusals stay": the last number has not moved
    ("ask 0B 00 00 00 05", "0 number 4"),
    # one tick before it was asked, a request is 4294967295 ticks old, which is older than every limit but that one
    ("give_up 00 00 00 04 FF FF FF FF", "0 freed 0"),
    ("give_up 00 00 00 04 FF FF FF FE", "0 freed 1"),
    ("book_show", "0 last 4 held 03 41 4"),
    ("give_up 00 00 00 03 7F FF FF FF", "0 freed 1"),
    # "ticks of 0, 1, .., in 4 each; bytes 00 behind them, so a short end is filled up"; an entry that is no known command is shown, and is
    # neither given up nor counted; 0A is a known one
    ("book_set 07 / 0A 02 FF A9 / 00 00 00 01 00 00 00 02 00 00 00 03 04", "0"),
    ("book_show", "0 last 7 held 00 0A 1 01 02 2 02 FF 3 03 A9 67108864"),
    ("give_up 00 00 00 0A 00 00 00 08", "0 freed 2"),
    ("book_show", "0 last 7 held 01 02 2 02 FF 3"),
    ("answer 01", "10"),
    ("answer 00", "10"),
    # an ask writes command and tick over one that is nothing held, and leaves the other
    ("book_set 00 / 0A 02 FF / 00 00 00 01 00 00 00 02 00 00 00 03", "0"),
    ("ask A0 80 00 00 00", "0 number 1"),
    ("book_show", "0 last 1 held 00 0A 1 01 A0 2147483648 02 FF 3"),
    # "a refused call changes nothing that is carried": 3 and 17, then 9 of a full book
    ("ask 02 00 00 00 09", "3"),
    ("ask 0A 00 00 00 09", "17"),
    ("book_show", "0 last 1 held 00 0A 1 01 A0 2147483648 02 FF 3"),
    ("book_set FE /" + " A1" * 256 + " /" + " 00 00 01 00" * 256, "0"),
    ("ask 09 00 00 00 09", "9"),
    ("book_show", "0 last 254 held " + " ".join("%02X A1 256" % number for number in range(256))),
    # "every such number is freed", 255 and 0 too; the next number is the first one behind the last
    ("give_up 00 00 02 00 00 00 01 00", "0 freed 0"),
    ("give_up 00 00 02 01 00 00 01 00", "0 freed 256"),
    ("book_show", "0 last 254 held"),
    ("ask 09 00 00 00 09", "0 number 255"),
    ("ask 09 00 00 00 0A", "0 number 0"),
    ("book_show", "0 last 0 held 00 09 10 FF 09 9"),
    ("give_up 00 00 00 0A 00 00 00 00", "0 freed 1"),
    ("book_show", "0 last 0 held 00 09 10"),
    # the groups: 5, 8, and 1 / at most 256 / at most 1024
    ("ask 09", "? wrong number of bytes"),
    ("ask 09 00 00 0A", "? wrong number of bytes"),
    ("ask 09 00 00 00 0A 00", "? wrong number of bytes"),
    ("ask 09 / 00 00 00 0A", "? wrong number of groups"),
    ("give_up", "? wrong number of bytes"),
    ("give_up 00 00 00 0A 00 00 00", "? wrong number of bytes"),
    ("give_up 00 00 00 0A / 00 00 00 00", "? wrong number of groups"),
    ("book_set 00 / 09", "? wrong number of groups"),
    ("book_set 00 / 09 / 00 / 00", "? wrong number of groups"),
    ("book_set 00 /" + " 09" * 257 + " /", "? wrong number of bytes"),
    ("book_set 00 / /" + " 09" * 1025, "? wrong number of bytes"),
    ("book_show", "0 last 0 held 00 09 10"),
    ("book_set 00 / /" + " 09" * 1024, "0"),
    ("book_show", "0 last 0 held"),
    # W-206: "two target bytes"; source 002's own examples have them, with what it says of each byte
    ("event_two 5A 43 7C BA CC 2F 40 2E 00 3B 00 01 05 6D",
     "0 mac 7C BA CC 2F 40 2E target 59 type 0 BUTTON_PRESS n 1 instance 5"),
    ("event_two_data 5A 43 7C BA CC 2F 40 2E 00 3B 00 01 05 6D", "0 data 05"),
    ("event_two 5A 43 7C BA CC 2F 40 2E 00 3B 08 07 80 FF 00 00 00 00 00 19",
     "0 mac 7C BA CC 2F 40 2E target 59 type 8 COLOUR_CHANGED n 7 instance absent"),
    ("event_two_data 5A 43 7C BA CC 2F 40 2E 00 3B 08 07 80 FF 00 00 00 00 00 19", "0 data 80 FF 00 00 00 00 00"),
    ("event_two 5A 43 7C BA CC 2F 40 2E 00 3B 03 01 FE 95",
     "0 mac 7C BA CC 2F 40 2E target 59 type 3 LEVEL_CHANGE n 1 instance absent"),
    ("event_two 5A 43 7C BA CC 2F 40 2E 00 00 09 02 00 0F 59", "6"),
    ("event_two_data 5A 43 7C BA CC 2F 40 2E 00 00 09 02 00 0F 59", "0 data"),
    ("event_two 5A 43 7C BA CC 2F 40 2E 00 00 09 02 00 0F 56",
     "0 mac 7C BA CC 2F 40 2E target 0 type 9 PROFILE_CHANGED n 2 instance absent"),
    # "the least event length in 1 is 13 for this layout"
    ("event_two 5A 43 7C BA CC 2F 40 2E 00 3B 03 00", "1"),
    ("event_two 5A 43 7C BA CC 2F 40 2E 00 3B 03 00 6A",
     "0 mac 7C BA CC 2F 40 2E target 59 type 3 LEVEL_CHANGE n 0 instance absent"),
    ("event 5A 43 7C BA CC 2F 40 2E 00 3B 03 00 6A", "1"),
    ("event_two 5A 43 7C BA CC 2F 40 2E 00 3B 00 00 69", "7"),
    # document 01: "in writing, an event target too large for its bytes"
    ("write_event_two 7C BA CC 2F 40 2E 00 00 FF FF 03 / / 00 00 00 00 00 00 00 00 00 00 00 00 00",
     "0 count 13 before 00 00 00 00 00 00 00 00 00 00 00 00 00 after 5A 43 7C BA CC 2F 40 2E FF FF 03 00 51"),
    ("write_event_two 7C BA CC 2F 40 2E 00 01 00 00 03 / / 00", "7 before 00 after 00"),
    ("write_event_two 7C BA CC 2F 40 2E 00 00 FF FF 03 / / 00", "8 before 00 after 00"),
    ("write_event_two 7C BA CC 2F 40 2E 00 01 00 00 03 /" + " 00" * 49 + " / 00", "4 before 00 after 00"),
    # W-207: "emptying gives 14, or 8 for a buffer of no bytes"
    ("capture_show", "0 used 0 bytes " + NOTHING_COUNTED + " mark 0 last absent"),
    ("capture_empty 01", "8"),
    ("capture_empty 03", "8"),
    ("capture_set 00 00 00 00 00 00 00 03 /" + " FF" * 45, "0"),
    ("capture_empty 03", "14"),
    ("capture_append 00 00 00 07 / " + LEVEL_CHANGE, "14"),
    ("capture_empty 00", "14"),
    ("capture_empty 01", "0 used 1"),
    # "freshly emptied, all counts are 0 and the two times are absent"
    ("capture_count", "0 " + NOTHING_COUNTED),
    ("capture_show", "0 used 1 bytes 01" + " FF" * 44 + " " + NOTHING_COUNTED + " mark 1 last absent"),
    # "a two-byte length first, then seconds in four bytes, then the datagram, all big-endian"; "the length counts what follows it"
    ("capture_append 00 00 01 07 / " + LEVEL_CHANGE, "0 used 21"),
    ("capture_show", "0 used 21 bytes 01 00 12 00 00 01 07 " + LEVEL_CHANGE + " FF" * 24
     + " records 1 first 263 last 263 counts 0 0 0 1 0 0 0 0 0 0 0 mark 1 last absent"),
    ("capture_open", "0 used 21 last 263"),
    # "16 seconds lower than the last record's"; equal ones are not
    ("capture_append 00 00 01 06 / " + LEVEL_CHANGE, "16"),
    ("capture_append_at 00 00 01 07 / " + LEVEL_CHANGE, "0 used 41"),
    # "then 1 to 7 for the datagram, then 16, then 8 for no room"
    ("capture_append 00 00 01 06 / " + LEVEL_CHANGE, "16"),
    ("capture_append 00 00 01 07 / " + LEVEL_CHANGE, "8"),
    ("capture_append 00 00 01 06 / " + LEVEL_CHANGE + " 00", "5"),
    ("capture_append_at 00 00 01 06 /", "1"),
    ("capture_show", "0 used 41 bytes 01" + (" 00 12 00 00 01 07 " + LEVEL_CHANGE) * 2 + " FF" * 4
     + " records 2 first 263 last 263 counts 0 0 0 2 0 0 0 0 0 0 0 mark 41 last 263"),
    ("capture_count", "0 records 2 first 263 last 263 counts 0 0 0 2 0 0 0 0 0 0 0"),
    # one record from a place
    ("capture_record 00 00 00 00 00 00 00 01", "0 seconds 263 datagram " + LEVEL_CHANGE + " next 21"),
    ("capture_record 00 00 00 00 00 00 00 15", "0 seconds 263 datagram " + LEVEL_CHANGE + " next 41"),
    ("capture_record 00 00 00 00 00 00 00 29", "12"),
    ("capture_record 00 00 00 00 00 00 00 2A", "15"),
    ("capture_record 00 00 00 00 00 00 00 00", "15"),
    ("capture_record 00 00 00 00 00 00 00 02", "15"),
    # "a record cut short"; the good prefix loses that one alone
    ("capture_set 00 00 00 00 00 00 00 28 / 01" + (" 00 12 00 00 01 07 " + LEVEL_CHANGE) * 2, "0"),
    ("capture_count", "15"),
    ("capture_append 00 00 01 07 /", "15"),
    ("capture_prefix", "0 used 21 records 1 first 263 last 263 counts 0 0 0 1 0 0 0 0 0 0 0"),
    # "of length under 4, of seconds below the one before or whose datagram its layout refuses"
    ("capture_set 00 00 00 00 00 00 00 06 / 01 00 03 00 00 00", "0"),
    ("capture_open", "15"),
    ("capture_set 00 00 00 00 00 00 00 29 / 01 00 12 00 00 01 07 " + LEVEL_CHANGE + " 00 12 00 00 01 06 " + LEVEL_CHANGE, "0"),
    ("capture_open", "15"),
    ("capture_set 00 00 00 00 00 00 00 15 / 02 00 12 00 00 01 07 " + LEVEL_CHANGE, "0"),
    ("capture_open", "15"),
    ("capture_set 00 00 00 00 00 00 00 14 / 02 00 11 00 00 01 07 5A 43 7C BA CC 2F 40 2E 00 3B 03 00 6A", "0"),
    ("capture_open", "0 used 20 last 263"),
    # "15 also for no version byte or more in use than there is"; 14 comes first where a version byte is in use
    ("capture_set 00 00 00 00 00 00 00 00 / 03", "0"),
    ("capture_count", "15"),
    ("capture_set 00 00 00 00 00 00 00 02 / 01", "0"),
    ("capture_count", "15"),
    ("capture_prefix", "0 used 1 " + NOTHING_COUNTED),
    ("capture_set 00 00 00 00 00 00 00 02 / 03", "0"),
    ("capture_count", "14"),
    # "8 for no room .. in a count": of this type, not of another
    ("capture_set 00 00 00 00 00 00 00 01 / 01" + " 00" * 20, "0"),
    ("mark_set 00 00 00 00 00 00 00 01 00 FF FF FF FF", "0"),
    ("summary_set 00 00 00 05 02 00 00 00 09 00 FF FF FF FF" + " 00" * 12 + " FF FF FF FF" + " 00" * 28, "0"),
    ("capture_append_at 00 00 00 01 / " + LEVEL_CHANGE, "8"),
    ("summary_set 00 00 00 05 02 00 00 00 09 00 FF FF FF FF" + " 00" * 16 + " FF FF FF FF" + " 00" * 24, "0"),
    ("capture_append_at 00 00 00 01 / " + LEVEL_CHANGE, "0 used 21"),
    ("capture_show", "0 used 21 bytes 01 00 12 00 00 00 01 " + LEVEL_CHANGE
     + " records 6 first 9 last 1 counts 0 0 0 1 4294967295 0 0 0 0 0 0 mark 21 last 1"),
    # W-208: "a run of event datagrams, each led by a two-byte big-endian length"; the mark stays
    ("capture_set 00 00 00 00 00 00 00 00 /" + " FF" * 61, "0"),
    ("capture_empty 01", "0 used 1"),
    ("capture_run 00 00 01 07 / 00 0E " + LEVEL_CHANGE, "0 in 1 refused 0 used 21"),
    ("capture_show", "0 used 21 bytes 01 00 12 00 00 01 07 " + LEVEL_CHANGE + " FF" * 40
     + " records 1 first 263 last 263 counts 0 0 0 1 0 0 0 0 0 0 0 mark 1 last absent"),
    # "refused ones skipped, and the call returns how many went in and how many were refused"
    ("capture_run 00 00 01 07 / 00 0E " + LEVEL_CHANGE_DAMAGED + " 00 0E " + LEVEL_CHANGE, "0 in 1 refused 1 used 41"),
    # a length 0 leads an empty datagram; an empty run has none
    ("capture_run 00 00 01 07 / 00 00", "0 in 0 refused 1 used 41"),
    ("capture_run 00 00 01 07 / 00 00 00 00 00 00", "0 in 0 refused 3 used 41"),
    ("capture_run 00 00 01 07 /", "0 in 0 refused 0 used 41"),
    # "a run that ends inside a length"
    ("capture_run 00 00 01 07 / 00", "15"),
    ("capture_run 00 00 01 07 / 00 0E " + LEVEL_CHANGE + " 00", "15"),
    # "or whose last length reaches past its end": one too great, counted with itself, low byte first, with nothing behind it
    ("capture_run 00 00 01 07 / 00 0F " + LEVEL_CHANGE, "15"),
    ("capture_run 00 00 01 07 / 00 10 " + LEVEL_CHANGE, "15"),
    ("capture_run 00 00 01 07 / 0E 00 " + LEVEL_CHANGE, "15"),
    ("capture_run 00 00 01 07 / 00 0E " + LEVEL_CHANGE + " 00 01", "15"),
    ("capture_run 00 00 01 07 / 00 0E " + LEVEL_CHANGE[:-3], "15"),
    # a time below the last record's: counted as refused
    ("capture_run 00 00 01 06 / 00 0E " + LEVEL_CHANGE + " 00 0E " + LEVEL_CHANGE, "0 in 0 refused 2 used 41"),
    ("capture_show", "0 used 41 bytes 01" + (" 00 12 00 00 01 07 " + LEVEL_CHANGE) * 2 + " FF" * 20
     + " records 2 first 263 last 263 counts 0 0 0 2 0 0 0 0 0 0 0 mark 1 last absent"),
    # no room; a later, shorter one still goes in
    ("capture_run 00 00 01 08 / 00 0F " + LEVEL_CHANGE_LONGER + " 00 0E " + LEVEL_CHANGE + " 00 0E " + LEVEL_CHANGE,
     "0 in 1 refused 2 used 61"),
    ("capture_count", "0 records 3 first 263 last 264 counts 0 0 0 3 0 0 0 0 0 0 0"),
    # from the mark: bytes in use become its own, also where none went in; its last stays then
    ("capture_run_at 00 00 01 07 /", "0 in 0 refused 0 used 1"),
    ("capture_show", "0 used 1 bytes 01" + (" 00 12 00 00 01 07 " + LEVEL_CHANGE) * 2 + " 00 12 00 00 01 08 " + LEVEL_CHANGE
     + " records 3 first 263 last 264 counts 0 0 0 3 0 0 0 0 0 0 0 mark 1 last absent"),
    ("capture_run_at 00 00 00 09 / 00 00 00 0E " + LEVEL_CHANGE, "0 in 1 refused 1 used 21"),
    ("capture_run_at 00 00 00 08 / 00 0E " + LEVEL_CHANGE, "0 in 0 refused 1 used 21"),
    ("capture_run_at 00 00 00 09 / 00 0E " + LEVEL_CHANGE + " 00", "15"),
    ("capture_run_at 00 00 00 09 / 00 0F " + LEVEL_CHANGE, "15"),
    ("capture_show", "0 used 21 bytes 01 00 12 00 00 00 09 " + LEVEL_CHANGE + " 00 12 00 00 01 07 " + LEVEL_CHANGE
     + " 00 12 00 00 01 08 " + LEVEL_CHANGE + " records 4 first 263 last 9 counts 0 0 0 4 0 0 0 0 0 0 0 mark 21 last 9"),
    # "8 for no room .. in a count": the second of a type is refused, the third is of another
    ("summary_set 00 00 00 05 00 00 00 00 00 00 00 00 00 00" + " 00" * 12 + " FF FF FF FE" + " 00" * 28, "0"),
    ("capture_run_at 00 00 00 09 / 00 0E " + LEVEL_CHANGE + " 00 0E " + LEVEL_CHANGE + " 00 0E " + LEVEL_CHANGE[:-8] + "04 00 6D",
     "0 in 2 refused 1 used 61"),
    ("capture_show", "0 used 61 bytes 01" + (" 00 12 00 00 00 09 " + LEVEL_CHANGE) * 2 + " 00 12 00 00 00 09 " + LEVEL_CHANGE[:-8]
     + "04 00 6D records 7 first 9 last 9 counts 0 0 0 4294967295 1 0 0 0 0 0 0 mark 61 last 9"),
    # the other layout
    ("capture_set 00 00 00 00 00 00 00 00 /" + " FF" * 40, "0"),
    ("capture_empty 02", "0 used 1"),
    ("capture_run 00 00 01 07 / 00 0E " + LEVEL_CHANGE + " 00 0D " + LEVEL_CHANGE_TWO, "0 in 1 refused 1 used 20"),
    ("capture_open", "0 used 20 last 263"),
    ("capture_run_at 00 00 01 08 / 00 0E " + LEVEL_CHANGE + " 00 0D " + LEVEL_CHANGE_TWO, "0 in 1 refused 1 used 39"),
    ("capture_show", "0 used 39 bytes 02 00 11 00 00 01 07 " + LEVEL_CHANGE_TWO + " 00 11 00 00 01 08 " + LEVEL_CHANGE_TWO
     + " FF records 2 first 263 last 264 counts 0 0 0 2 0 0 0 0 0 0 0 mark 39 last 264"),
    # "a capture that gives 14 or 15 refuses the call with that"; 14 is lower than a bad run's 15
    ("capture_set 00 00 00 00 00 00 00 01 / 03" + " FF" * 40, "0"),
    ("mark_set 00 00 00 00 00 00 00 01 00 00 00 00 00", "0"),
    ("capture_run 00 00 01 07 /", "14"),
    ("capture_run 00 00 01 07 / 00", "14"),
    ("capture_run_at 00 00 01 07 /", "14"),
    ("capture_run_at 00 00 01 07 / 00", "14"),
    ("capture_set 00 00 00 00 00 00 00 00 / 03", "0"),
    ("mark_set 00 00 00 00 00 00 00 00 00 00 00 00 00", "0"),
    ("capture_run 00 00 01 07 /", "15"),
    ("capture_run_at 00 00 01 07 /", "15"),
    ("capture_set 00 00 00 00 00 00 00 02 / 01", "0"),
    ("mark_set 00 00 00 00 00 00 00 02 00 00 00 00 00", "0"),
    ("capture_run 00 00 01 07 /", "15"),
    ("capture_run_at 00 00 01 07 /", "15"),
    # records are looked at by the letter, and not from a mark
    ("capture_set 00 00 00 00 00 00 00 06 / 01 00 03 00 00 00", "0"),
    ("mark_set 00 00 00 00 00 00 00 06 01 00 00 00 05", "0"),
    ("capture_run 00 00 01 07 /", "15"),
    ("capture_run_at 00 00 01 07 / 00 00", "0 in 0 refused 1 used 6"),
    ("capture_show", "0 used 6 bytes 01 00 03 00 00 00 records 2 first 263 last 264 counts 0 0 0 2 0 0 0 0 0 0 0 mark 6 last 5"),
    # W-209: "for each command number its frame shape and a number for its argument rule"; 1 is basic, and the rules are numbered "in the order of
    # document 01's table (01 and 1A are 1, 08 is 2, .. AB is 15)": "A group 0-15" stands in the row of 01 and again in that of 1A
    ("table 01", "0 shape 1 rule 1"),
    ("table 1A", "0 shape 1 rule 1"),
    # "A has no bits outside C3"
    ("table 08", "0 shape 1 rule 2"),
    # "09, 0A, 0B, 1C, 1D, 41 | none": a rule too; 0A is retired and keeps it
    ("table 09", "0 shape 1 rule 3"),
    ("table 0A", "0 shape 1 rule 3"),
    ("table 0B", "0 shape 1 rule 3"),
    ("table 1C", "0 shape 1 rule 3"),
    ("table 1D", "0 shape 1 rule 3"),
    ("table 41", "0 shape 1 rule 3"),
    # "0C occupancy timers", "1B scene label", "20 DMX label"
    ("table 0C", "0 shape 1 rule 4"),
    ("table 1B", "0 shape 1 rule 5"),
    ("table 20", "0 shape 1 rule 6"),
    # "31 add, 33 clear filter", "32 query filters", "34 colour, AC gear type"
    ("table 31", "0 shape 1 rule 7"),
    ("table 33", "0 shape 1 rule 7"),
    ("table 32", "0 shape 1 rule 8"),
    ("table 34", "0 shape 1 rule 9"),
    ("table AC", "0 shape 1 rule 9"),
    # "A0 inhibit", "A1 scene", whose range W-201 has mended, "A2 arc level", "A3 to A9"
    ("table A0", "0 shape 1 rule 10"),
    ("table A1", "0 shape 1 rule 11"),
    ("table A2", "0 shape 1 rule 12"),
    ("table A3", "0 shape 1 rule 13"),
    ("table A9", "0 shape 1 rule 13"),
    # "AA, AD, AE", "AB gear status"
    ("table AA", "0 shape 1 rule 14"),
    ("table AD", "0 shape 1 rule 14"),
    ("table AE", "0 shape 1 rule 14"),
    ("table AB", "0 shape 1 rule 15"),
    # "2 that of request 40, 3 colour", "16 for 40, 17 for colour"
    ("table 40", "0 shape 2 rule 16"),
    ("table 0E", "0 shape 3 rule 17"),
    # "0 unknown", "0 none": also what the maker's list has and document 01 has not
    ("table 00", "0 shape 0 rule 0"),
    ("table 02", "0 shape 0 rule 0"),
    ("table 0D", "0 shape 0 rule 0"),
    ("table 10", "0 shape 0 rule 0"),
    ("table AF", "0 shape 0 rule 0"),
    ("table FF", "0 shape 0 rule 0"),
    # W-210: what contains 0A is "still read as before, marked as retired"; the sequence numbers 0 and 255
    ("request 04 00 0A 00 00 00 00 0E", "0 sequence 0 command 0A arguments 00 00 00 00 nothing retired"),
    ("request 04 FF 0A 00 00 00 00 F1", "0 sequence 255 command 0A arguments 00 00 00 00 nothing retired"),
    # its neighbours, the one that says the group, and 0A in other places: not marked
    ("request 04 00 09 00 00 00 00 0D", "0 sequence 0 command 09 arguments 00 00 00 00 nothing"),
    ("request 04 00 0B 00 00 00 00 0F", "0 sequence 0 command 0B arguments 00 00 00 00 nothing"),
    ("request 04 0A 1A 0A 00 00 00 1E", "0 sequence 10 command 1A arguments 0A 00 00 00 group 10"),
    ("request 04 0A 40 06 0A 0A 0A 0A 0A 0A 48", "0 sequence 10 command 40 port 2570 address 10 10 10 10"),
    ("request 04 0A 0E 0A 0A 20 0A 0A 20", "0 sequence 10 command 0E target 10 gear 10 level 10 tc 2570"),
    # the source says the same of 02 and 13, which are unknown
    ("request 04 00 02 0A 00 00 00 0C", "3"),
    ("request 04 00 13 01 00 00 00 16", "3"),
    # reading never gives 17: 1, 2, 5, 6, 7 in this order, and without a mark
    ("request 05 00 0A 01 00 00 00", "1"),
    ("request 05 00 0A 01 00 00 00 00 00", "2"),
    ("request 04 00 0A 01 00 00 00 00 00", "5"),
    ("request 04 00 0A 00 00 00 00 0E 00", "5"),
    ("request 04 00 0A 01 00 00 00 0E", "6"),
    ("request 04 00 0A 00 00 00 00 0F", "6"),
    ("request 04 00 0A 01 00 00 00 0F", "7"),
    ("request 04 00 0A 00 00 00 80 8E", "7"),
    # "New requests with 0A are no longer written": 17, "after 3 and before 4", so before 7 and 8
    ("write_basic 00 0A 00 00 00 00 / FF FF FF FF FF FF FF FF", "17 before FF FF FF FF FF FF FF FF after FF FF FF FF FF FF FF FF"),
    ("write_basic 00 0A 00 00 00 00 /", "17 before after"),
    ("write_basic FF 0A 01 00 00 00 / FF FF FF FF FF FF FF FF", "17 before FF FF FF FF FF FF FF FF after FF FF FF FF FF FF FF FF"),
    ("write_basic 0A 0A FF FF FF FF / FF", "17 before FF after FF"),
    ("write_basic 00 02 0A 00 00 00 /", "3 before after"),
    ("write_basic 00 13 01 00 00 00 /", "3 before after"),
    ("write_basic 0A 09 00 00 00 00 / FF FF FF FF FF FF FF FF", "0 count 8 before FF FF FF FF FF FF FF FF after 04 0A 09 00 00 00 00 07"),
    ("write_basic 00 0B 01 00 00 00 /", "7 before after"),
    ("write_basic 00 0B 00 00 00 00 /", "8 before after"),
    # a relay reads, and then writes: 17 stands behind the refusals of reading and before 8
    ("relay_request 04 00 0A 00 00 00 00 0E / FF FF FF FF FF FF FF FF", "17 before FF FF FF FF FF FF FF FF after FF FF FF FF FF FF FF FF"),
    ("relay_request 04 00 0A 00 00 00 00 0E /", "17 before after"),
    ("relay_request 04 00 0A 00 00 00 00 /", "1 before after"),
    ("relay_request 04 00 0A 00 00 00 00 0F /", "6 before after"),
    ("relay_request 04 00 0A 01 00 00 00 0F /", "7 before after"),
    ("relay_request 04 00 0B 00 00 00 00 0F /", "8 before after"),
    ("relay_request 04 00 0B 00 00 00 00 0F / FF FF FF FF FF FF FF FF", "0 count 8 before FF FF FF FF FF FF FF FF after 04 00 0B 00 00 00 00 0F"),
    # asking: 17, and nothing moves
    ("book_fresh", "0"),
    ("ask 0A 00 00 00 01", "17"),
    ("book_show", "0 last 255 held"),
    ("ask 09 00 00 00 02", "0 number 0"),
    ("ask 0A 00 00 00 03", "17"),
    ("ask 02 00 00 00 04", "3"),
    ("ask 13 00 00 00 05", "3"),
    ("ask 0B 00 00 00 06", "0 number 1"),
    ("book_show", "0 last 1 held 00 09 2 01 0B 6"),
    # "a book entry already asked with 0A still takes its reply", once; until then its number is held
    ("book_set 00 / 0A 0A 09 0A 00 0A / 00 00 00 09", "0"),
    ("ask 0A 00 00 00 01", "17"),
    ("ask 0B 00 00 00 02", "0 number 4"),
    ("answer 01", "0 command 0A"),
    ("answer 01", "10"),
    ("ask 09 00 00 00 03", "0 number 6"),
    ("answer 03", "0 command 0A"),
    ("ask 0A 00 00 00 04", "17"),
    ("book_show", "0 last 6 held 00 0A 9 02 09 0 04 0B 2 05 0A 0 06 09 3"),
    # a full book: 17 before 9
    ("book_set 07 /" + " 0A" * 256 + " /", "0"),
    ("ask 0A 00 00 00 01", "17"),
    ("ask 09 00 00 00 02", "9"),
    ("ask 02 00 00 00 03", "3"),
    ("answer 08", "0 command 0A"),
    ("ask 0A 00 00 00 04", "17"),
    ("ask 09 00 00 00 05", "0 number 8"),
    ("ask 0A 00 00 00 06", "17"),
    ("ask 09 00 00 00 07", "9"),
    # `known 0A`, `shape 0A`, `fits` with 0A and lines are as before; so is its name
    ("known 0A", "0 known"),
    ("shape 0A", "0 basic bare"),
    ("fits 0A 00 00 00 00", "0 fits"),
    ("fits 0A 00 00 00 01", "0 outside"),
    ("name 01 0A /" + " 00" * 19, "0 count 19 before" + " 00" * 19 + " after 51 55 45 52 59 5F 53 43 45 4E 45 5F 4E 55 4D 42 45 52 53"),
    ("fresh_request", "0"),
    ("feed_request 04 00 0A", "0 taken 3 nothing"),
    ("feed_request 00 00 00 00 0E 04", "0 taken 5 item 0 count 8 bytes 04 00 0A 00 00 00 00 0E"),
    ("feed_request 04 00 0A 01 00 00 00 0F 04", "0 taken 8 item 7 count 8 bytes 04 00 0A 01 00 00 00 0F"),
    ("feed_request 04 00 0A 00 00 00 00 0F 04", "0 taken 8 item 6 count 1 bytes 04"),
    ("show_request", "0 held 7 bytes 00 0A 00 00 00 00 0F"),
    ("fresh_request", "0"),
    ("settle_request 04 00 0A 00 00 00 00 0E 04", "0 item 0 count 8 by 8"),
    ("settle_request 04 00 0A 00 00 00 00", "0 more"),
    ("item_request 00 / 04 00 0A 00 00 00 00 0E", "0 item 0 count 8"),
    ("item_request 01 / 04 00 0A 00 00 00 00", "0 item 1 count 1"),
    # the name of 17, whose byte is 11; 23 and 24 have none
    ("name 00 11 / 00 00 00 00 00 00 00 00", "0 count 7 before 00 00 00 00 00 00 00 00 after 52 45 54 49 52 45 44 00"),
    ("name 00 11 / 00 00 00 00 00 00", "8 before 00 00 00 00 00 00 after 00 00 00 00 00 00"),
    ("name 00 17 /", "7 before after"),
    ("name 00 18 /", "7 before after"),
    # W-211: "take an accepted datagram and change exactly one byte to another value, and the result is refused"
    ("reply A0 00 00 A0", "0 type A0 sequence 0 n 0"),
    ("reply A4 00 00 A0", "2"),
    ("reply A1 00 00 A0", "6"),
    ("reply A0 01 00 A0", "6"),
    ("reply A0 00 41 A0", "4"),
    ("reply A0 00 01 A0", "5"),
    ("reply A0 00 00 A1", "6"),
    # "with a worked pair, that two changed bytes may pass"; other two do not
    ("reply A0 01 00 A1", "0 type A0 sequence 1 n 0"),
    ("reply A0 01 00 A2", "6"),
    ("reply A0 00 01 A1", "5"),
    # the mask bytes exchanged: a slip that the sum lets pass
    ("request 04 00 31 00 FF 01 08 C3", "0 sequence 0 command 31 arguments 00 FF 01 08 address 0 instance 255 mask 264"),
    ("request 04 00 31 00 FF 08 08 C3", "6"),
    ("request 04 00 31 00 FF 01 01 C3", "6"),
    ("request 04 00 31 00 FF 08 01 C3", "0 sequence 0 command 31 arguments 00 FF 08 01 address 0 instance 255 mask 2049"),
    ("request 04 00 31 40 FF 01 48 C3", "7"),
    # a colour request: the colour data exchanged, and another colour type
    ("request 04 00 0E 7F FE 20 01 72 D8", "0 sequence 0 command 0E target 127 broadcast level 254 tc 370"),
    ("request 04 00 0E 7F FE 20 72 72 D8", "6"),
    ("request 04 00 0E 7F FE 20 72 01 D8", "0 sequence 0 command 0E target 127 broadcast level 254 tc 29185"),
    ("request 04 00 0E 7F FE 10 01 72 D8", "5"),
    ("request 04 00 0E 7F FE 10 01 72 E8", "5"),
    # "in both event layouts": the type and the sum
    ("event 5A 43 7C BA CC 2F 40 2E 00 00 3B 04 00 6A", "6"),
    ("event 5A 43 7C BA CC 2F 40 2E 00 00 3B 04 00 6D", "0 mac 7C BA CC 2F 40 2E target 59 type 4 GROUP_LEVEL_CHANGE n 0 instance absent"),
    ("event 5A 43 7C BA CC 2F 40 2E 00 00 3B 02 00 6B", "7"),
    ("event_two 5A 43 7C BA CC 2F 40 2E 00 3B 04 00 6A", "6"),
    ("event_two 5A 43 7C BA CC 2F 40 2E 00 3B 04 00 6D", "0 mac 7C BA CC 2F 40 2E target 59 type 4 GROUP_LEVEL_CHANGE n 0 instance absent"),
    ("event_two 5A 43 7C BA CC 2F 40 2E 00 3B 02 00 6B", "7"),
    # W-212: "the controller's filters, empty at first"
    ("plan /", "0 yes"),
    ("plan / 44 03 00", "0 yes"),
    ("plan / 44", "0 yes"),
    # last March: 01 08 was meant, types 3 and 8; 08 01 are types 0 and 11
    ("plan 04 00 31 44 03 01 08 7B / 44 03 06 44 03 00 44 03 01", "0 yes"),
    ("plan 04 00 31 44 03 08 01 7B / 44 03 06 44 03 00 44 03 01", "0 hidden 1"),
    ("plan 04 00 31 44 03 01 08 7B / 44 03 0B 44 03 07 44 03 08 44 03 03", "0 hidden 2"),
    # "adding joins the mask to the entry or makes one; adding mask 0 changes nothing"
    ("plan 04 00 31 44 03 00 01 73 04 01 31 44 03 01 00 72 / 44 03 08", "0 hidden 0"),
    ("plan 04 00 31 44 03 00 01 73 04 01 31 44 03 01 00 72 / 44 03 01 44 03 00", "0 hidden 1"),
    ("plan 04 00 31 44 03 00 01 73 04 01 31 44 03 00 00 73 / 44 03 00", "0 hidden 0"),
    ("plan 04 00 31 44 03 00 00 72 / 44 03 00", "0 yes"),
    # "clearing takes bits out and drops an entry that becomes 0; clearing where no entry is changes nothing"
    ("plan 04 00 31 44 03 01 08 7B 04 00 33 44 03 01 01 70 / 44 03 00 44 03 08 44 03 03", "0 hidden 2"),
    ("plan 04 00 31 44 03 01 08 7B 04 00 33 44 03 01 08 79 / 44 03 08 44 03 03", "0 yes"),
    ("plan 04 00 33 44 03 FF FF 70 04 00 31 44 03 01 08 7B / 44 03 08", "0 hidden 0"),
    ("plan 04 00 33 44 03 FF FF 70 / 44 03 08", "0 yes"),
    # "when its type's bit stands in its entry; types above 15 never are"; 255 is no instance but its own
    ("plan 04 00 31 05 FF FF FF CF / 05 FF 10 05 FF 1F 05 FF FF 05 FF 0F", "0 hidden 3"),
    ("plan 04 00 31 05 FF FF FF CF / 05 00 00 05 FE 00 04 FF 00 45 FF 00 45 00 00", "0 yes"),
    ("plan 04 00 31 44 03 FF FF 72 / 44 FF 00 44 02 00 04 03 00 44 23 00", "0 yes"),
    # "three bytes each, a short end passed over"
    ("plan 04 00 31 44 03 00 01 73 / 44 03", "0 yes"),
    ("plan 04 00 31 44 03 00 01 73 / 00 44 03 00 00 00", "0 yes"),
    ("plan 04 00 31 44 03 00 01 73 / 00 44 03 44 03 00 44 03", "0 hidden 1"),
    # "the plan is cut every 8 bytes, a short end being 1", also where an event is hidden
    ("plan 04 /", "1 request 0"),
    ("plan 04 00 31 44 03 00 01 73 04 00 31 44 03 00 01 / 44 03 00", "1 request 1"),
    ("plan 04 00 31 44 03 00 01 73 FF / 44 03 00", "1 request 1"),
    # "1 to 7 for a plan's request, 18 for a command other than 31 or 33": 8 bytes of 40 and 0E are 4 and 5
    ("plan 05 00 31 44 03 00 01 72 /", "2 request 0"),
    ("plan 04 00 30 44 03 00 01 72 /", "3 request 0"),
    ("plan 04 00 40 07 00 00 00 43 /", "4 request 0"),
    ("plan 04 00 0E 01 FE 00 00 F5 /", "4 request 0"),
    ("plan 04 00 40 06 22 6B C0 A8 0A 0A 63 /", "5 request 0"),
    ("plan 04 00 0E 7F FE 20 01 72 D8 /", "5 request 0"),
    ("plan 04 00 31 44 03 08 01 7F /", "6 request 0"),
    ("plan 04 00 A9 4F 00 00 00 E3 /", "6 request 0"),
    ("plan 04 00 31 44 20 00 01 50 /", "7 request 0"),
    ("plan 04 00 33 44 FF 00 01 8D /", "7 request 0"),
    ("plan 04 00 31 3F 00 00 01 0B /", "7 request 0"),
    ("plan 04 00 A9 50 00 00 00 FD /", "7 request 0"),
    ("plan 04 00 A9 4F 00 00 00 E2 /", "18 request 0"),
    ("plan 04 00 32 44 00 00 03 71 /", "18 request 0"),
    ("plan 04 00 0A 00 00 00 00 0E /", "18 request 0"),
    # "names its first bad request, or else the first wanted event hidden"
    ("plan 04 00 31 44 03 00 01 73 04 00 A9 4F 00 00 00 E2 05 00 31 44 03 00 01 72 / 44 03 00", "18 request 1"),
    # "19 for a 65th entry": not for mask 0 (63 is gear, 64 a device), nor for an entry that is there, and not behind a dropped one
    (plan_of(64), "0 hidden 0"),
    (plan_of(64, "04 00 31 40 00 00 01 74"), "19 request 64"),
    (plan_of(64, "04 00 31 40 00 00 01 74", "04 00 33 40 00 00 01 76"), "19 request 64"),
    (plan_of(64, "04 00 31 40 00 00 00 75"), "0 hidden 0"),
    (plan_of(64, "04 00 31 40 00 00 00 75", "04 00 31 40 00 00 01 74"), "19 request 65"),
    (plan_of(64, "04 00 31 3F FF 00 01 F4"), "0 hidden 0"),
    (plan_of(64, "04 00 33 00 FF 01 00 C9", "04 00 31 40 00 00 01 74"), "19 request 65"),
    (plan_of(64, "04 00 33 00 FF 01 08 C1", "04 00 31 40 00 00 01 74"), "0 yes"),
    (plan_of(64, "04 00 33 40 00 FF FF 77", "04 00 31 40 00 00 01 74"), "19 request 65"),
    (plan_of(64, "04 00 31 40 00 00 01 75"), "6 request 64"),
    (plan_of(64, "04 00 32 40 00 00 FF 89"), "18 request 64"),
    ("name 00 12 / FF FF FF FF FF FF FF FF FF FF FF FF",
     "0 count 12 before FF FF FF FF FF FF FF FF FF FF FF FF after 4E 4F 54 5F 41 5F 46 49 4C 54 45 52"),
    ("name 00 13 / FF FF FF FF FF FF FF FF FF FF FF FF",
     "0 count 12 before FF FF FF FF FF FF FF FF FF FF FF FF after 46 49 4C 54 45 52 53 5F 46 55 4C 4C"),
    # W-213: "occupied events (type 6), button presses (0), holds (1)"; gaps of 4 and 7 in the first season, none with two in the others
    (capture_of(9, record_at(1, OCCUPIED) + record_at(2, PRESS) + record_at(5, OCCUPIED) + record_at(5, HOLD) + record_at(6, UNOCCUPIED)
                + record_at(12, OCCUPIED) + record_at(33, HOLD) + record_at(33, HOLD) + record_at(60, OCCUPIED)), "0"),
    ("seasons " + CORRIDOR + BOUNDARIES,
     four("occupied 3 presses 1 holds 1 longest 7 total 11 gaps 2", NOTHING_IN_IT,
          "occupied 0 presses 0 holds 2 longest absent total 0 gaps 0", ONE_IN_IT)),
    # "a time equal to a boundary belongs to the later season": boundaries at 1, 5 and 12
    ("seasons " + CORRIDOR + " 00 00 00 01 00 00 00 05 00 00 00 0C",
     four(NOTHING_IN_IT, "occupied 1 presses 1 holds 0 longest absent total 0 gaps 0",
          "occupied 1 presses 0 holds 1 longest absent total 0 gaps 0", "occupied 2 presses 0 holds 2 longest 48 total 48 gaps 1")),
    # "both lying in it": from 5 to 12 is across the boundary 6, from 12 to 60 across 13 and 33
    ("seasons " + CORRIDOR + " 00 00 00 06 00 00 00 0D 00 00 00 21",
     four("occupied 2 presses 1 holds 1 longest 4 total 4 gaps 1", ONE_IN_IT, NOTHING_IN_IT,
          "occupied 1 presses 0 holds 2 longest absent total 0 gaps 0")),
    # another MAC, another target, another instance, a target too large for the layout, and an instance over 31
    ("seasons 7C BA CC 2F 40 2F" + CORRIDOR[17:] + BOUNDARIES, four(*[NOTHING_IN_IT] * 4)),
    ("seasons " + CORRIDOR[:-5] + "3A 05" + BOUNDARIES, four(*[NOTHING_IN_IT] * 4)),
    ("seasons " + CORRIDOR[:-2] + "04" + BOUNDARIES, four(*[NOTHING_IN_IT] * 4)),
    ("seasons 7C BA CC 2F 40 2E 01 00 00 3B 05" + BOUNDARIES, four(*[NOTHING_IN_IT] * 4)),
    ("seasons " + CORRIDOR[:-2] + "25" + BOUNDARIES, four(*[NOTHING_IN_IT] * 4)),
    # "20 for boundaries that do not rise": equal, and falling
    ("seasons " + CORRIDOR + " 00 00 00 10 00 00 00 10 00 00 00 30", "20"),
    ("seasons " + CORRIDOR + " 00 00 00 10 00 00 00 30 00 00 00 30", "20"),
    ("seasons " + CORRIDOR + " 00 00 00 20 00 00 00 10 00 00 00 30", "20"),
    ("seasons " + CORRIDOR + " 00 00 00 10 00 00 00 30 00 00 00 20", "20"),
    # a gap of 0 seconds is one: the longest is 0, not absent
    (capture_of(2, record_at(32, OCCUPIED) * 2), "0"),
    ("seasons " + CORRIDOR + BOUNDARIES,
     four(NOTHING_IN_IT, NOTHING_IN_IT, "occupied 2 presses 0 holds 0 longest 0 total 0 gaps 1", NOTHING_IN_IT)),
    # a neighbour's occupied event between two of the corridor's: one gap of 9, none of the neighbour's
    (capture_of(3, record_at(17, OCCUPIED) + record_at(20, OCCUPIED[:-5] + "04 6A") + record_at(26, OCCUPIED)), "0"),
    ("seasons " + CORRIDOR + BOUNDARIES,
     four(NOTHING_IN_IT, "occupied 2 presses 0 holds 0 longest 9 total 9 gaps 1", NOTHING_IN_IT, NOTHING_IN_IT)),
    ("seasons " + CORRIDOR[:-2] + "04" + BOUNDARIES, four(NOTHING_IN_IT, ONE_IN_IT, NOTHING_IN_IT, NOTHING_IN_IT)),
    # an instance over 31 is counted where events carry it: "the seasons' counts add up to that instance's over the whole capture"
    (capture_of(2, record_at(17, OCCUPIED) + record_at(20, OCCUPIED[:-5] + "25 4B")), "0"),
    ("seasons " + CORRIDOR[:-2] + "25" + BOUNDARIES, four(NOTHING_IN_IT, ONE_IN_IT, NOTHING_IN_IT, NOTHING_IN_IT)),
    # bytes in use before the last record: it does not count
    (capture_of(2, record_at(17, OCCUPIED) + record_at(20, OCCUPIED) + record_at(26, OCCUPIED)), "0"),
    ("seasons " + CORRIDOR + BOUNDARIES,
     four(NOTHING_IN_IT, "occupied 2 presses 0 holds 0 longest 3 total 3 gaps 1", NOTHING_IN_IT, NOTHING_IN_IT)),
    # two target bytes, and a target too large for them
    ("capture_set 00 00 00 00 00 00 00 29 / 02 00 12 00 00 00 0F 5A 43 7C BA CC 2F 40 2E 00 3B 06 01 05 6B"
     " 00 12 00 00 00 10 5A 43 7C BA CC 2F 40 2E 00 3B 06 01 05 6B", "0"),
    ("seasons " + CORRIDOR + BOUNDARIES, four(ONE_IN_IT, ONE_IN_IT, NOTHING_IN_IT, NOTHING_IN_IT)),
    ("seasons 7C BA CC 2F 40 2E 00 01 00 3B 05" + BOUNDARIES, four(*[NOTHING_IN_IT] * 4)),
    # "14 and 15 as before, then 20"
    (capture_of(1, record_at(17, OCCUPIED), "02"), "0"),
    ("seasons " + CORRIDOR + BOUNDARIES, "15"),
    ("seasons " + CORRIDOR + " 00" * 12, "15"),
    (capture_of(1, record_at(17, OCCUPIED), "03"), "0"),
    ("seasons " + CORRIDOR + BOUNDARIES, "14"),
    ("seasons " + CORRIDOR + " 00" * 12, "14"),
    (capture_of(2, record_at(17, OCCUPIED) + record_at(16, OCCUPIED)), "0"),
    ("seasons " + CORRIDOR + " 00" * 12, "15"),
    ("capture_set 00 00 00 00 00 00 00 00 / 01", "0"),
    ("seasons " + CORRIDOR + " 00" * 12, "15"),
    ("capture_set 00 00 00 00 00 00 00 02 / 01", "0"),
    ("seasons " + CORRIDOR + BOUNDARIES, "15"),
    ("capture_set 00 00 00 00 00 00 00 01 / 01", "0"),
    ("seasons " + CORRIDOR + BOUNDARIES, four(*[NOTHING_IN_IT] * 4)),
    ("seasons " + CORRIDOR + " 00" * 12, "20"),
    # the longest gap that there is, and nothing has moved
    ("capture_set 00 00 00 00 00 00 00 2B / 01 00 13 00 00 00 02 " + OCCUPIED + " 00 13 FF FF FF FF " + OCCUPIED, "0"),
    ("seasons " + CORRIDOR + " 00 00 00 00 00 00 00 01 00 00 00 02",
     four(NOTHING_IN_IT, NOTHING_IN_IT, NOTHING_IN_IT, "occupied 2 presses 0 holds 0 longest 4294967293 total 4294967293 gaps 1")),
    ("capture_show", "0 used 43 bytes 01 00 13 00 00 00 02 " + OCCUPIED + " 00 13 FF FF FF FF " + OCCUPIED
     + " records 2 first 263 last 264 counts 0 0 0 2 0 0 0 0 0 0 0 mark 6 last 5"),
    ("name 00 14 / FF FF FF FF FF FF FF FF FF FF",
     "0 count 10 before FF FF FF FF FF FF FF FF FF FF after 4E 4F 54 5F 52 49 53 49 4E 47"),
    # W-213 part by part: "before the first `seasons_begin` the state is as begun with 23 bytes 00", whose boundaries do not rise
    ("seasons_end", "15"),
    ("seasons_part", "0"),
    ("seasons_end", "15"),
    ("seasons_part 01", "0"),
    ("seasons_end", "20"),
    # "what `seasons` would answer of all parts since `seasons_begin` put together", "so that it may be asked after every part"
    ("seasons_begin " + CORRIDOR + BOUNDARIES, "0"),
    ("seasons_end", "15"),
    ("seasons_part 01 00 13", "0"),
    ("seasons_end", "15"),
    ("seasons_part 00 00 00 10 " + OCCUPIED, "0"),
    ("seasons_end", four(NOTHING_IN_IT, ONE_IN_IT, NOTHING_IN_IT, NOTHING_IN_IT)),
    ("seasons_part" + record_at(19, OCCUPIED) + record_at(48, PRESS), "0"),
    ("seasons_end", four(NOTHING_IN_IT, "occupied 2 presses 0 holds 0 longest 3 total 3 gaps 1", NOTHING_IN_IT,
                         "occupied 0 presses 1 holds 0 longest absent total 0 gaps 0")),
    # a time that falls is 15, whatever stands behind it; "the carried capture is not touched"
    ("seasons_part" + record_at(47, PRESS), "0"),
    ("seasons_end", "15"),
    ("seasons_part" + record_at(50, PRESS), "0"),
    ("seasons_end", "15"),
    ("seasons_begin " + CORRIDOR + " 00" * 12, "0"),
    ("seasons_end", "15"),
    ("seasons_part 03", "0"),
    ("seasons_end", "14"),
    ("seasons_part 01", "0"),
    ("seasons_end", "14"),
    ("seasons " + CORRIDOR + " 00 00 00 00 00 00 00 01 00 00 00 02",
     four(NOTHING_IN_IT, NOTHING_IN_IT, NOTHING_IN_IT, "occupied 2 presses 0 holds 0 longest 4294967293 total 4294967293 gaps 1")),
    # W-214: "time, two hexadecimal weekday symbols, day/month/year with 00 for no restriction, and an offset for astronomical clocks, which may be negative"
    (clock_read("00", "14:00:00 7F 01/00/00"), "0 time 14 0 0 weekdays 7F day 1 month 0 year 0 offset absent"),
    (clock_read("01", "20:38:49 7F 00/00/00 00:30:00"), "0 time 20 38 49 weekdays 7F day 0 month 0 year 0 offset later 0 30 0"),
    (clock_read("FF", "07:14:23 41 00/00/00 -00:10:00"), "0 time 7 14 23 weekdays 41 day 0 month 0 year 0 offset earlier 0 10 0"),
    (clock_read("00", "23:59:59 FF 31/12/99"), "0 time 23 59 59 weekdays FF day 31 month 12 year 99 offset absent"),
    # "a flag byte: 00 is no .., every other byte is yes"; "an offset stands exactly where the clock is astronomical"
    (clock_read("02", "20:38:49 7F 00/00/00 00:30:00"), "0 time 20 38 49 weekdays 7F day 0 month 0 year 0 offset later 0 30 0"),
    (clock_read("00", "20:38:49 7F 00/00/00 00:30:00"), "21"),
    (clock_read("01", "14:00:00 7F 01/00/00"), "21"),
    (clock_read("01", ""), "21"),
    (clock_read("00", ""), "21"),
    # "weekday symbols are capitals"; "the leading zero is always present"; no other sign, and nothing behind the last field
    (clock_read("00", "14:00:00 7f 01/00/00"), "21"),
    (clock_read("00", " 4:00:00 7F 01/00/00"), "21"),
    (clock_read("00", "14:00:00 7F  1/00/00"), "21"),
    (clock_read("01", "20:38:49 7F 00/00/00 +00:30:00"), "21"),
    (clock_read("01", "20:38:49 7F 00/00/00  0:30:00"), "21"),
    (clock_read("01", "00:00:00 7F 00/00/00 -600"), "21"),
    (clock_read("01", "08:05:00 7F 00/00/00 Clock[SUNRISE]"), "21"),
    (clock_read("00", "14:00:00 7F 01/00/00\n"), "21"),
    (clock_read("00", "CLK000001%K00:22:00 7F 00/05/09"), "21"),
    (clock_read("00", "00:22:00 7F 00/05/09"), "0 time 0 22 0 weekdays 7F day 0 month 5 year 9 offset absent"),
    # "hours reach 23, minutes and seconds 59, days 31, months 12": of the offset too
    (clock_read("00", "24:00:00 7F 01/00/00"), "22"),
    (clock_read("00", "23:60:00 7F 01/00/00"), "22"),
    (clock_read("00", "23:59:60 7F 01/00/00"), "22"),
    (clock_read("00", "23:59:59 7F 32/00/00"), "22"),
    (clock_read("00", "23:59:59 7F 31/13/00"), "22"),
    (clock_read("01", "00:00:00 7F 00/00/00 24:00:00"), "22"),
    (clock_read("01", "00:00:00 7F 00/00/00 -24:00:00"), "22"),
    (clock_read("01", "00:00:00 7F 00/00/00 -23:60:00"), "22"),
    (clock_read("01", "00:00:00 7F 00/00/00 23:59:60"), "22"),
    (clock_read("01", "00:00:00 7F 00/00/00 -23:59:59"), "0 time 0 0 0 weekdays 7F day 0 month 0 year 0 offset earlier 23 59 59"),
    (clock_read("01", "00:00:00 7F 00/00/00 -00:00:00"), "22"),
    (clock_read("01", "00:00:00 7F 00/00/00 00:00:00"), "0 time 0 0 0 weekdays 7F day 0 month 0 year 0 offset later 0 0 0"),
    # a clock's own date need not exist
    (clock_read("00", "06:07:08 7F 31/02/00"), "0 time 6 7 8 weekdays 7F day 31 month 2 year 0 offset absent"),
    (clock_read("00", "06:07:08 7F 29/02/23"), "0 time 6 7 8 weekdays 7F day 29 month 2 year 23 offset absent"),
    (clock_runs("00", "2024-02-29", 4, "06:07:08 7F 31/02/00"), "0 idle"),
    (clock_runs("00", "2024-03-02", 6, "06:07:08 7F 31/02/00"), "0 idle"),
    # "21 text not of this form, 22 a field out of range, in that order"
    (clock_read("00", "24:00:00 7f 01/00/00"), "21"),
    (clock_read("00", "24:00:00 7F 01/00/00 "), "21"),
    (clock_read("00", "24:00:00 7F 01/00/00 -00:00:00"), "21"),
    (clock_runs("00", "2026-02-29", 7, "14:00:00 7f 01/00/00"), "21"),
    (clock_runs("00", "2026-02-29", 7, "24:00:00 7F 01/00/00"), "22"),
    # "whether it runs that day and at which second from midnight"; "arithmetic decides, 21:08:49"
    (clock_runs("00", "2026-03-01", 0, "14:00:00 7F 01/00/00"), "0 second 50400"),
    (clock_runs("01", "2026-03-01", 0, "20:38:49 7F 00/00/00 00:30:00"), "0 second 76129"),
    (clock_runs("01", "2026-03-01", 0, "07:14:23 41 00/00/00 -00:10:00"), "0 second 25463"),
    (clock_runs("00", "2026-03-01", 0, "14:00:00 7F 02/00/00"), "0 idle"),
    (clock_runs("01", "2026-03-02", 1, "07:14:23 41 00/00/00 -00:10:00"), "0 idle"),
    # "an offset may carry it below 0 or past 86,399, and it is reported so"; the restriction is that of the date given
    (clock_runs("01", "2026-03-01", 0, "00:05:00 7F 00/00/00 -00:10:00"), "0 second -300"),
    (clock_runs("01", "2026-03-01", 0, "00:05:00 7F 01/03/26 -00:05:00"), "0 second 0"),
    (clock_runs("01", "2026-03-01", 0, "00:05:00 7F 01/03/26 -00:05:01"), "0 second -1"),
    (clock_runs("01", "2026-03-01", 0, "00:05:00 7F 28/02/26 -00:05:01"), "0 idle"),
    (clock_runs("01", "2026-03-01", 0, "00:00:00 7F 00/00/00 -23:59:59"), "0 second -86399"),
    (clock_runs("01", "2026-03-01", 0, "23:59:59 7F 00/00/00 00:00:00"), "0 second 86399"),
    (clock_runs("01", "2026-03-01", 0, "23:59:59 7F 01/03/26 00:00:01"), "0 second 86400"),
    (clock_runs("01", "2026-03-01", 0, "23:59:59 7F 02/03/26 00:00:01"), "0 idle"),
    (clock_runs("01", "2026-03-01", 0, "23:59:59 7F 00/00/00 23:59:59"), "0 second 172798"),
    # "bit 80 switches a clock off", also with other bits; 00 is no weekday
    (clock_runs("00", "2026-03-01", 0, "14:00:00 FF 00/00/00"), "0 idle"),
    (clock_runs("00", "2026-03-01", 0, "14:00:00 81 00/00/00"), "0 idle"),
    (clock_runs("00", "2026-03-01", 0, "14:00:00 00 00/00/00"), "0 idle"),
    # weekdays "0 to 6 from Sunday, as given": 1 March 2026 is a Sunday, and is not asked
    (clock_runs("00", "2026-03-01", 0, "14:00:00 01 00/00/00"), "0 second 50400"),
    (clock_runs("00", "2026-03-01", 1, "14:00:00 01 00/00/00"), "0 idle"),
    (clock_runs("00", "2026-03-01", 1, "14:00:00 02 00/00/00"), "0 second 50400"),
    (clock_runs("00", "2026-03-01", 6, "14:00:00 40 00/00/00"), "0 second 50400"),
    # "a weekday over 6 or a given date that does not exist or lies outside those years is out of range", of a clock switched off too
    (clock_runs("00", "2026-03-01", 7, "14:00:00 7F 00/00/00"), "22"),
    (clock_runs("00", "2026-03-01", 7, "14:00:00 FF 00/00/00"), "22"),
    (clock_runs("00", "2026-02-29", 0, "14:00:00 7F 00/00/00"), "22"),
    (clock_runs("00", "2026-02-29", 0, "14:00:00 80 00/00/00"), "22"),
    (clock_runs("00", "2024-02-29", 0, "14:00:00 7F 00/00/00"), "0 second 50400"),
    (clock_runs("00", "2000-02-29", 0, "14:00:00 7F 29/02/00"), "0 second 50400"),
    (clock_runs("00", "2026-04-31", 0, "14:00:00 7F 00/00/00"), "22"),
    (clock_runs("00", "2026-00-01", 0, "14:00:00 7F 00/00/00"), "22"),
    (clock_runs("00", "2026-13-01", 0, "14:00:00 7F 00/00/00"), "22"),
    (clock_runs("00", "2026-01-00", 0, "14:00:00 7F 00/00/00"), "22"),
    (clock_runs("00", "1999-12-31", 5, "14:00:00 7F 00/00/00"), "22"),
    (clock_runs("00", "2000-01-01", 6, "14:00:00 7F 00/00/00"), "0 second 50400"),
    (clock_runs("00", "2099-12-31", 4, "14:00:00 7F 00/00/99"), "0 second 50400"),
    (clock_runs("00", "2100-01-01", 5, "14:00:00 7F 00/00/00"), "22"),
    # the year 00 is no restriction, and so 2000 cannot be named
    (clock_runs("00", "2026-01-01", 4, "14:00:00 7F 00/00/00"), "0 second 50400"),
    (clock_runs("00", "2000-01-01", 6, "14:00:00 7F 00/00/01"), "0 idle"),
    (clock_runs("00", "2023-10-05", 4, "14:00:00 7F 00/10/23"), "0 second 50400"),
    (clock_runs("00", "2024-10-05", 6, "14:00:00 7F 00/10/23"), "0 idle"),
    (clock_runs("00", "2023-11-05", 0, "14:00:00 7F 00/10/23"), "0 idle"),
    # "write clocks back too, and get the same text"; kind 00, 01 and every other
    (clock_written([14, 0, 0, 0x7F, 1, 0, 0, 0, 99, 99, 99], 22), written("14:00:00 7F 01/00/00", 22)),
    (clock_written([20, 38, 49, 0x7F, 0, 0, 0, 1, 0, 30, 0], 29), written("20:38:49 7F 00/00/00 00:30:00", 29)),
    (clock_written([7, 14, 23, 0x41, 0, 0, 0, 2, 0, 10, 0], 30), written("07:14:23 41 00/00/00 -00:10:00", 30)),
    (clock_written([7, 14, 23, 0xAB, 31, 2, 99, 255, 0, 10, 0], 31), written("07:14:23 AB 31/02/99 -00:10:00", 31)),
    (clock_written([0, 0, 0, 0, 0, 0, 0, 1, 0, 0, 0], 29), written("00:00:00 00 00/00/00 00:00:00", 29)),
    # "22 a field out of range .., then 8"
    (clock_written([0, 0, 0, 0, 0, 0, 0, 2, 0, 0, 0], 30), not_written(22, 30)),
    (clock_written([24, 0, 0, 0, 0, 0, 0, 0, 0, 0, 0], 20), not_written(22, 20)),
    (clock_written([0, 0, 0, 0, 32, 0, 0, 0, 0, 0, 0], 0), not_written(22, 0)),
    (clock_written([0, 0, 0, 0, 0, 0, 100, 0, 0, 0, 0], 20), not_written(22, 20)),
    (clock_written([0, 0, 0, 0, 0, 0, 0, 1, 24, 0, 0], 5), not_written(22, 5)),
    (clock_written([14, 0, 0, 0x7F, 1, 0, 0, 0, 0, 0, 0], 19), not_written(8, 19)),
    (clock_written([20, 38, 49, 0x7F, 0, 0, 0, 1, 0, 30, 0], 28), not_written(8, 28)),
    (clock_written([7, 14, 23, 0x41, 0, 0, 0, 2, 0, 10, 0], 29), not_written(8, 29)),
    ("name 00 15 / FF FF FF FF FF FF FF FF FF FF FF", "0 count 11 before FF FF FF FF FF FF FF FF FF FF FF after 4E 4F 54 5F 41 5F 43 4C 4F 43 4B"),
    ("name 00 16 / FF FF FF FF FF FF FF FF FF FF FF FF",
     "0 count 12 before FF FF FF FF FF FF FF FF FF FF FF FF after 4F 55 54 5F 4F 46 5F 52 41 4E 47 45"),
    ("name 00 17 /", "7 before after"),
]

# docs/BENCH.md, "The program quiet": a run, and the line by the row of its item.
STATED_LINES = [
    ("", "yes"),
    ("04 00 09 00 00 00 00 0D 04 00 0A 00 00 00 00 0E", "yes"),
    ("04 00 09 00 00 00 00 0D 04 00 A9 4F 00 00 00 E2 FF", "no: item 0 at byte 8, 0400A94F000000E2: command A9 is outside the profile"),
    ("04 00 40 06 22 6B C0 A8 0A 0A 63", "no: item 0 at byte 0, 04004006226BC0A80A0A63: command 40 is outside the profile"),
    ("04 00 0E 7F FE 20 01 72 D8", "no: item 0 at byte 0, 04000E7FFE200172D8: command 0E is outside the profile"),
    ("04 00 09 00 00 00 00 0D 04 00 09 00 00 00 00", "no: item 1 at byte 8, 04: the run ends inside a request"),
    ("04", "no: item 1 at byte 0, 04: the run ends inside a request"),
    ("04 00 09 00 00 00 00 0D FF 04", "no: item 2 at byte 8, FF: no request begins here"),
    ("04 00 02", "no: item 3 at byte 0, 04: the command is unknown"),
    ("04 00 40 07", "no: item 4 at byte 0, 04: no such length byte or colour type"),
    ("04 00 0E 01 FE 00", "no: item 4 at byte 0, 04: no such length byte or colour type"),
    ("04 00 09 00 00 00 00 0C", "no: item 6 at byte 0, 04: the sum is wrong"),
    ("04 00 A9 4F 00 00 00 E3", "no: item 6 at byte 0, 04: the sum is wrong"),
    ("04 00 09 00 00 00 00 0D 04 00 09 00 00 00 01 0C", "no: item 7 at byte 8, 040009000000010C: an argument is out of range"),
    ("04 00 A9 50 00 00 00 FD", "no: item 7 at byte 0, 0400A950000000FD: an argument is out of range"),
    ("04 00 0E 50 FE 20 01 72 F7", "no: item 7 at byte 0, 04000E50FE200172F7: an argument is out of range"),
]

# docs/PLAN.md: a plan, a wanted list, and the answer with its list, by the page's rules.
ADDS, CLEARS = "04 00 31 44 03 01 08 7B ", "04 00 33 44 03 01 08 79 "
STATED_PLANS = [
    ("", "", "yes: no wanted event is hidden (requests 0, filters left 0, wanted events 0)\nfilters left: 0\n"),
    (ADDS + "04 00 31 05 FF 00 01 CE " + CLEARS + ADDS + "04 00 31 05 FF 80 00 4F", "68 3 0\n",
     "yes: no wanted event is hidden (requests 5, filters left 2, wanted events 1)\nfilters left: 2\n"
     "address 5, instance 255, mask 8001, types 0 BUTTON_PRESS, 15\naddress 68, instance 3, mask 0108, types 3 LEVEL_CHANGE, 8 COLOUR_CHANGED\n"),
    (ADDS + CLEARS + "04 09 31 44 03 08 01 72", "# the corridor\r\n\r\n68\t3 06\r\n  068 003 0",
     "no: wanted event 1, address 68, instance 3, type 0 BUTTON_PRESS, is hidden since request 2 at byte 16, 0409314403080172\n"
     "request 2 adds address 68, instance 3, mask 0801, types 0 BUTTON_PRESS, 11\n"
     "with the two bytes of its mask exchanged it adds address 68, instance 3, mask 0108, types 3 LEVEL_CHANGE, 8 COLOUR_CHANGED: were they swapped?\n"
     "filters left: 1\naddress 68, instance 3, mask 0801, types 0 BUTTON_PRESS, 11\n"),
    ("04 00 31 44 03 04 04 72 " + ADDS, "68 3 10\n",
     "no: wanted event 0, address 68, instance 3, type 10, is hidden since request 0 at byte 0, 0400314403040472\n"
     "request 0 adds address 68, instance 3, mask 0404, types 2 ABSOLUTE_INPUT, 10\n"
     "filters left: 1\naddress 68, instance 3, mask 050C, types 2 ABSOLUTE_INPUT, 3 LEVEL_CHANGE, 8 COLOUR_CHANGED, 10\n"),
    (ADDS + "04 00 31", "68 3 3",
     "no: request 1 at byte 8, 040031: 1 TOO_SHORT: the plan ends inside it, a request has 8 bytes\n"
     "filters before request 1: 1\naddress 68, instance 3, mask 0108, types 3 LEVEL_CHANGE, 8 COLOUR_CHANGED\n"),
    ("05 00 31 44 03 01 08 7A", "", "no: request 0 at byte 0, 050031440301087A: 2 BAD_LEAD: a request begins with 04\nfilters before request 0: 0\n"),
    ("04 00 AF 44 03 01 08 E5", "", "no: request 0 at byte 0, 0400AF44030108E5: 3 UNKNOWN_COMMAND: we know no command AF\nfilters before request 0: 0\n"),
    ("04 00 0E 01 FE 00 00 F5", "",
     "no: request 0 at byte 0, 04000E01FE0000F5: 4 BAD_LENGTH_BYTE: command 0E has another length, and sets no filter\nfilters before request 0: 0\n"),
    ("04 00 40 06 22 6B C0 A8 0A 0A 63", "",
     "no: request 0 at byte 0, 04004006226BC0A8: 5 BAD_LENGTH: command 40 has another length, and sets no filter\nfilters before request 0: 0\n"),
    ("04 00 31 44 03 01 08 7A", "",
     "no: request 0 at byte 0, 040031440301087A: 6 BAD_SUM: its last byte has to be 7B, the exclusive-or of those before it\nfilters before request 0: 0\n"),
    ("04 00 33 3F 1F 01 08 1E", "",
     "no: request 0 at byte 0, 0400333F1F01081E: 7 BAD_ARGUMENT: address 63 with instance 31: a filter is of address 0 to 63 with instance 255, "
     "or of 64 to 127 with 0 to 31\nfilters before request 0: 0\n"),
    ("04 00 A9 50 00 00 00 FD", "",
     "no: request 0 at byte 0, 0400A950000000FD: 7 BAD_ARGUMENT: an argument of command A9 is out of its range\nfilters before request 0: 0\n"),
    (CLEARS + "04 00 A9 4F 00 00 00 E2", "",
     "no: request 1 at byte 8, 0400A94F000000E2: 18 NOT_A_FILTER: command A9 DALI_OFF sets no filter, a plan has 31 and 33 only\n"
     "filters before request 1: 0\n"),
    (plan_of(64)[5:-10] + "04 00 31 44 03 01 08 7B", "0 255 3\n",
     "no: request 64 at byte 512, 040031440301087B: 19 FILTERS_FULL: a 65th filter is needed, and a controller keeps 64\n"
     "request 64 adds address 68, instance 3, mask 0108, types 3 LEVEL_CHANGE, 8 COLOUR_CHANGED\nfilters before request 64: 64\n"
     + "".join("address %d, instance 255, mask 0108, types 3 LEVEL_CHANGE, 8 COLOUR_CHANGED\n" % gear for gear in range(64))),
]

# Arguments that get no answer, with a standard input of no bytes.
NOT_A_LINE = "an address, an instance and a type are wanted, each a number from 0 to 255"
STATED_FAULTS = [
    (["--lists", "-", "-", "-"], "no such option: --lists"),
    (["--" + "l" * 4093], "no such option: --" + "l" * 4093),
    (["--" + "l" * 4094], "2 arguments are wanted behind the option, if there is one; plan --help names them"),
    (["--list", "-"], "2 arguments are wanted behind the option, if there is one; plan --help names them"),
    (["l" * 4096], "2 arguments are wanted behind the option, if there is one; plan --help names them"),
    (["-", "l" * 4096], "an argument is too long"),
    (["--list", "-", "-"], "only one of the two files can be standard input"),
    (["/nowhere/plan", "/nowhere/wanted"], "/nowhere/plan: No such file or directory"),
    (["/", "/nowhere/wanted"], "reading /: Is a directory"),
    (["-", "/nowhere/wanted"], "/nowhere/wanted: No such file or directory"),
]

# docs/CLOCK.md: a date, the clocks, the rows and what is said, by the page's rules.
NOT_A_CLOCK = "21 NOT_A_CLOCK: a clock is HH:MM:SS WD DD/MM/YY, WD in capitals, and where it is astronomical behind a blank HH:MM:SS or -HH:MM:SS\n"
OUT_OF_RANGE = "22 OUT_OF_RANGE: hours reach 23, minutes and seconds 59, days 31 and months 12, and no offset is -00:00:00\n"
ROWS = "line,answer,second,at,clock\n"
STATED_CLOCKS = [
    ("2026-03-01", "", ROWS, ""),
    ("2026-03-01", "\n\r\n\n", ROWS, ""),
    ("2026-03-01", "20:38:49 7F 00/00/00 00:30:00\n", ROWS + "1,runs,76129,2026-03-01 21:08:49,20:38:49 7F 00/00/00 00:30:00\n", ""),
    ("2026-03-02", "20:38:49 7F 00/00/00 00:30:00", ROWS + "1,runs,76129,2026-03-02 21:08:49,20:38:49 7F 00/00/00 00:30:00\n", ""),
    # a carriage return is no part of a line, and lines that are passed over count
    ("2026-03-01", "\n14:00:00 7F 01/00/00\r\n\r\n14:00:00 FF 00/00/00\r",
     ROWS + "2,runs,50400,2026-03-01 14:00:00,14:00:00 7F 01/00/00\n4,idle,,,14:00:00 FF 00/00/00\n", ""),
    ("2026-03-01", "14:00:00 7F 01/00/00\r\r\n", ROWS + "1,21 NOT_A_CLOCK,,,\n", "clock: line 1: " + NOT_A_CLOCK),
    # the day before, and the day after: of a month, of a leap year, of a year, and outside of 2000 to 2099
    ("2026-03-01", "00:05:00 7F 00/00/00 -00:10:00\n", ROWS + "1,runs,-300,2026-02-28 23:55:00,00:05:00 7F 00/00/00 -00:10:00\n", ""),
    ("2024-03-01", "00:05:00 7F 00/00/00 -00:10:00\n", ROWS + "1,runs,-300,2024-02-29 23:55:00,00:05:00 7F 00/00/00 -00:10:00\n", ""),
    ("2000-01-01", "00:00:00 7F 00/00/00 -00:00:01\n", ROWS + "1,runs,-1,1999-12-31 23:59:59,00:00:00 7F 00/00/00 -00:00:01\n", ""),
    ("2024-02-28", "23:59:59 7F 00/00/00 23:59:59\n", ROWS + "1,runs,172798,2024-02-29 23:59:58,23:59:59 7F 00/00/00 23:59:59\n", ""),
    ("2023-02-28", "23:59:59 7F 00/00/00 00:00:01\n", ROWS + "1,runs,86400,2023-03-01 00:00:00,23:59:59 7F 00/00/00 00:00:01\n", ""),
    ("2099-12-31", "23:59:59 7F 00/00/00 00:00:01\n", ROWS + "1,runs,86400,2100-01-01 00:00:00,23:59:59 7F 00/00/00 00:00:01\n", ""),
    # "its weekday is reckoned from it": a Sunday, a Monday, a Saturday and a Thursday
    ("2026-03-01", "14:00:00 01 00/00/00\n14:00:00 7E 00/00/00\n",
     ROWS + "1,runs,50400,2026-03-01 14:00:00,14:00:00 01 00/00/00\n2,idle,,,14:00:00 7E 00/00/00\n", ""),
    ("2026-03-02", "14:00:00 02 00/00/00\n14:00:00 7D 00/00/00\n",
     ROWS + "1,runs,50400,2026-03-02 14:00:00,14:00:00 02 00/00/00\n2,idle,,,14:00:00 7D 00/00/00\n", ""),
    ("2000-01-01", "14:00:00 40 00/00/00\n14:00:00 BF 00/00/00\n",
     ROWS + "1,runs,50400,2000-01-01 14:00:00,14:00:00 40 00/00/00\n2,idle,,,14:00:00 BF 00/00/00\n", ""),
    ("2099-12-31", "14:00:00 10 31/12/99\n14:00:00 10 31/12/98\n",
     ROWS + "1,runs,50400,2099-12-31 14:00:00,14:00:00 10 31/12/99\n2,idle,,,14:00:00 10 31/12/98\n", ""),
    # refused lines have rows too, and what is said of them their numbers
    ("2026-03-01", "14:00:00 7f 01/00/00\n\n24:00:00 7F 00/00/00\nx,y\n00:00:00 7F 00/00/00 -00:00:00\n14:00:00 7F 00/00/00 ",
     ROWS + "1,21 NOT_A_CLOCK,,,\n3,22 OUT_OF_RANGE,,,\n4,21 NOT_A_CLOCK,,,\n5,22 OUT_OF_RANGE,,,\n6,21 NOT_A_CLOCK,,,\n",
     "clock: line 1: " + NOT_A_CLOCK + "clock: line 3: " + OUT_OF_RANGE + "clock: line 4: " + NOT_A_CLOCK + "clock: line 5: " + OUT_OF_RANGE
     + "clock: line 6: " + NOT_A_CLOCK),
]

# Arguments that get no rows; standard input is not asked for.
ONE_WANTED = "1 argument is wanted, a date as in 2026-03-02; clock --help says more"
STATED_DATE_FAULTS = [
    (["--date"], "no such option: --date"),
    (["--"], "no such option: --"),
    (["--date", "2026-03-01", "x"], "no such option: --date"),
    (["--" + "d" * 4093], "no such option: --" + "d" * 4093),
    (["--" + "d" * 4094], "the argument is too long"),
    (["--" + "d" * 4094, "2026-03-01"], ONE_WANTED),
    (["2026-03-01", "2026-03-01"], ONE_WANTED),
    (["2026-03-01", "--help"], ONE_WANTED),
    (["2" * 4096, "2026-03-01"], ONE_WANTED),
    (["2" * 4096], "the argument is too long"),
    (["2" * 4095], "DATE is not a date as in 2026-03-02: " + "2" * 4095),
    ([""], "DATE is not a date as in 2026-03-02: "),
    (["-"], "DATE is not a date as in 2026-03-02: -"),
    (["2026-3-1"], "DATE is not a date as in 2026-03-02: 2026-3-1"),
    (["2026-03-01\n"], "DATE is not a date as in 2026-03-02: 2026-03-01\n"),
    (["2026-02-29"], "DATE is a date that does not exist: 2026-02-29"),
    (["2100-02-29"], "DATE is a date that does not exist: 2100-02-29"),
    (["1999-02-29"], "DATE is a date that does not exist: 1999-02-29"),
    (["0000-00-00"], "DATE is a date that does not exist: 0000-00-00"),
    (["1999-12-31"], "DATE is a date before 2000-01-01 or behind 2099-12-31: 1999-12-31"),
    (["2100-01-01"], "DATE is a date before 2000-01-01 or behind 2099-12-31: 2100-01-01"),
    (["0000-02-29"], "DATE is a date before 2000-01-01 or behind 2099-12-31: 0000-02-29"),
]

# The commands inside the quiet profile: those of document 01's table but 08, 31, 33, 40 and A0 to A9.
QUERIES = {0x01, 0x09, 0x0A, 0x0B, 0x0C, 0x1A, 0x1B, 0x1C, 0x1D, 0x20, 0x32, 0x34, 0x41, 0xAA, 0xAB, 0xAC, 0xAD, 0xAE}

# What a change of one byte may be refused with, by the call: the length stays, so no 1, and the exclusive-or is not 0, so 6 where nothing lower
# applies, and no 7.
REFUSED_CHANGES = {"request": {"2", "3", "4", "5", "6"}, "reply": {"2", "4", "5", "6"}, "event": {"2", "4", "5", "6"}, "event_two": {"2", "4", "5", "6"}}

# Of the shortest frame of each family, by its word: how many double changes are accepted, counted out by hand. Two places whose bytes may be any:
# 255. Such a place and one whose byte may be one of k others: k.
DOUBLES_BY_HAND = {
    # sequence and sum; one of these and the group (15) or the command (18: 1A, 1B, 34 and A0 to AE); the command and the group (08, 0B and 34), C
    # (A0) or D (A0 and A2)
    "basic": 255 + 2 * 15 + 2 * 18 + 3 + 1 + 2,
    # any two of sequence, port, address and sum
    "40": 28 * 255,
    # any two of sequence, level, colour data and sum, or one of these and the address (81)
    "colour": 10 * 255 + 5 * 81,
    # sequence and sum; one of these and the type (3)
    "reply": 255 + 2 * 3,
    # any two of MAC, target and sum, or one of these and the type (all others but the five that need data)
    "event": 45 * 255 + 10 * 250,
    "event_two": 36 * 255 + 9 * 250,
}

# The requests that source 002 prints, by the number that reading gives: as printed, and with the sum put right. The one with 4 is DALI_COLOUR.
PRINTED_REQUESTS = {"0": 26, "3": 44, "4": 1, "6": 6}
MENDED_REQUESTS = {"0": 32, "3": 44, "4": 1}

# Source 002's list of commands: how many it has, the one whose frame is not of the type that it says, and the shapes of its types.
COMMANDS_LISTED = 77
LISTED_OTHERWISE = [0x40]
LISTED_SHAPES = {"Basic": 1, "DALI Colour": 3}

# The events that source 002 prints, in the layout of its table: document 01 keeps to the table.
PRINTED_EVENTS = ["5", "4", "5", "4", "5"]

SMALL_PROGRAM_OUTPUT = """\
0 4 A00000A0
2 1 FF
6 1 A0
2 1 05
2 1 00
2 1 A4
1 1 A0
2 1 00
"""

# Source 002's examples: how many frames they print, and how many of these with a wrong sum.
FRAMES_PRINTED = 160
WRONG_SUMS = 42


def items_call_by_call(line, parts):
    """The items of a fresh reader, fed part by part until "nothing" and closed until "empty"."""
    reader = opinion.Reader(line)
    for part in parts:
        taken, item = reader.feed(part)
        while item:
            yield item
            part = part[taken:]
            taken, item = reader.feed(part)
    item = reader.close()
    while item:
        yield item
        item = reader.close()


def read_as_request(datagram):
    """Whether a datagram is accepted as a request."""
    try:
        return bool(opinion.read_request(datagram))
    except opinion.Refusal:
        return False


def places_that_differ(one, other):
    """How many places two datagrams of one length differ in."""
    assert len(one) == len(other)
    return sum(first != second for first, second in zip(one, other))


def frames_read_by(name):
    """The frames that are changed and that this call reads."""
    return [frame for family in cases.CHANGED if family.call == name for frame in family.frames]


def quiet_in_eights(run):
    """Whether a run passes the quiet profile, cut every 8 bytes: all commands inside have the basic shape."""
    eights = [run[place:place + 8] for place in range(0, len(run), 8)]
    return all(read_as_request(eight) and eight[2] in QUERIES for eight in eights)


def runs_for_the_profile():
    """The runs of the cases, and some by chance."""
    chance = cases.Chance(25)
    for line in cases.quiet_runs():
        if line.split(" ")[0] == "quiet":
            yield bytes.fromhex(line[5:])
    for _ in range(1000):
        yield cases.nearly_quiet(chance, chance.below(8))


def empty_capture(version, size):
    """A capture just emptied, in a buffer of so many bytes."""
    capture = opinion.Capture()
    capture.buffer = cases.pattern(size)
    capture.empty(version)
    return capture


def answered(asked, *given):
    """The number of an answer, and what it gives: the bytes in use of an append, the number or the command of a book."""
    try:
        return 0, asked(*given)
    except opinion.Refusal as refusal:
        return refusal.number, None


def runs_of_appends(chance):
    """Appends by chance in both layouts, with a version and the size of a buffer for each run."""
    for _ in range(60):
        for version, width in cases.VERSIONS:
            yield version, chance.pick([60, 300, 2000]), list(cases.some_appends(chance, width))


# In appending, of a capture that gives neither 14 nor 15: "1 to 7 for the datagram, then 16, then 8"; 3 is none of an event's.
REFUSED_SINGLY = {1, 2, 4, 5, 6, 7, 8, 16}


def mornings(chance):
    """Datagrams by chance in both layouts, some of them empty, with a version and the size of a buffer for each run."""
    for version, size, appends in runs_of_appends(chance):
        datagrams = [b"" if chance.one_in(20) else datagram for _, datagram in appends]
        yield version, size, cases.parted(datagrams, chance)


def years(chance):
    """Years by chance in both layouts, as events and as a capture, with three boundaries and a corridor that the year has."""
    for number in range(600):
        version, width = cases.VERSIONS[number % 2]
        year = list(cases.some_year(chance, width, 3 + chance.below(49)))
        capture = opinion.Capture()
        capture.buffer = bytes([version]) + b"".join(cases.year_records(width, year))
        capture.used = len(capture.buffer)
        yield year, capture, cases.some_boundaries(chance, year), cases.some_corridor(chance, year)


def seasons_event_by_event(year, boundaries, corridor):
    """The seasons told event by event, by the search for a time among the boundaries; a gap is counted when it ends."""
    seasons = [[0, 0, 0, None, 0, 0] for _ in range(4)]
    before = [None] * 4
    for seconds, mac, target, type_, data in year:
        place = bisect.bisect_right(boundaries, seconds)
        if (mac, target, data[0]) != corridor or type_ not in [6, 0, 1]:
            continue
        season = seasons[place]
        season[[6, 0, 1].index(type_)] += 1
        if type_ == 6:
            if before[place] is not None:
                gap = seconds - before[place]
                season[3] = gap if season[3] is None or gap > season[3] else season[3]
                season[4] += gap
                season[5] += 1
            before[place] = seconds
    return [tuple(season) for season in seasons]


@functools.lru_cache(maxsize=None)
def asked_plans():
    """The plans of the cases with their wanted lists and the lines that ask for them."""
    asked = [line for kind in [cases.filter_plans, cases.crowded_filter_plans] for line in kind() if line.split(" ")[0] == "plan"]
    groups = [line[5:].split("/") for line in asked]
    return [(bytes.fromhex(requests), bytes.fromhex(wanted), line) for line, (requests, wanted) in zip(asked, groups)]


def in_eights(run):
    """The requests of a plan."""
    return [run[place:place + 8] for place in range(0, len(run), 8)]


def told_bit_by_bit(run, wanted):
    """The answer to a plan without a table of masks: for each address, instance and type whether the last request that has this bit adds. The
    filters are the addresses and instances for which one does."""
    last, keys = {}, set()
    for place, request in enumerate(in_eights(run)):
        number, _ = answered(opinion.read_request, request)
        if number == 0 and request[2] not in [0x31, 0x33]:
            number = 18
        if number == 0:
            bits = [bit for bit in range(16) if request[5 + (bit < 8)] >> bit % 8 & 1]
            key = request[3:5]
            if request[2] == 0x31 and bits and key not in keys:
                keys = {own[:2] for own, adds in last.items() if adds}
                number = 19 if key not in keys and len(keys) > 63 else 0
                keys.add(key)
            last.update((key + bytes([bit]), request[2] == 0x31) for bit in bits)
        if number != 0:
            return "%d request %d" % (number, place)
    for place in range(len(wanted) // 3):
        if last.get(wanted[3 * place:3 * place + 3]):
            return "0 hidden %d" % place
    return "0 yes"


def masks_left(run):
    """The filters that a plan leaves, or that stand before its first bad request, in their order."""
    return list(opinion.filters_left(run)[0].masks.items())


def plan_printed(words, files):
    """What the program plan prints, where these are the bytes of the files."""
    with tempfile.TemporaryDirectory() as folder:
        for name, run in files.items():
            with open(os.path.join(folder, name), "wb") as file:
                file.write(run)
        named = [os.fsencode(os.path.join(folder, word) if word in files else word) for word in words]
        return plan.printed(named, lambda: b"")


@functools.lru_cache(maxsize=None)
def asked_clocks():
    """The calls of the cases of clocks that have their groups: the name, both groups, and the line."""
    asked = [line for kind in [cases.clock_texts, cases.clocks_with_one_byte_changed, cases.clocks_on_days, cases.clocks_written] for line in kind()]
    asked = [line for line in asked if line.split(" ")[0] in ["clock", "clock_runs", "write_clock"]]
    groups = [line.split(" ", 1)[1].split("/") for line in asked]
    return [(line.split(" ")[0], bytes.fromhex(head), bytes.fromhex(text), line) for line, (head, text) in zip(asked, groups)]


TEXT_OF_CLOCK = re.compile(rb"(\d\d):(\d\d):(\d\d) ([0-9A-F]{2}) (\d\d)/(\d\d)/(\d\d)(?: (-?)(\d\d):(\d\d):(\d\d))?", re.ASCII)


def told_by_pattern(astronomical, text):
    """The number that a text gets and, where it is 0, the time, the weekdays, day, month and year, and the offset in seconds, None where there is none: by
    a pattern, and by what a clock of the day can show."""
    match = TEXT_OF_CLOCK.fullmatch(text)
    if not match or (match.group(9) is not None) != astronomical:
        return 21, None
    hour, minute, second, day, month, year = (int(match.group(place)) for place in [1, 2, 3, 5, 6, 7])
    offset = None
    try:
        time = datetime.time(hour, minute, second)
        if astronomical:
            span = datetime.time(*(int(part) for part in match.groups()[8:]))
            offset = span.hour * 3600 + span.minute * 60 + span.second
            if match.group(8):
                offset = -offset
    except ValueError:
        return 22, None
    if day > 31 or month > 12 or astronomical and match.group(8) and offset == 0:
        return 22, None
    return 0, (time, int(match.group(4), 16), day, month, year, offset)


def told_of_day(astronomical, year, month, day, weekday, text):
    """The answer to `clock_runs`, by that pattern and the calendar of the library."""
    number, told = told_by_pattern(astronomical, text)
    if number:
        return str(number)
    try:
        date = datetime.date(year, month, day)
    except ValueError:
        return "22"
    if not 2000 <= year <= 2099 or weekday > 6:
        return "22"
    time, weekdays, *named, offset = told
    fits = all(name in ["00", part] for name, part in zip(("%02d" % name for name in named), date.strftime("%d %m %y").split(" ")))
    if not fits or weekdays > 127 or weekdays % 2 ** (weekday + 1) < 2 ** weekday:
        return "0 idle"
    moment = datetime.datetime(2000, 1, 2, time.hour, time.minute, time.second) + datetime.timedelta(seconds=offset or 0)
    return "0 second %d" % (moment - datetime.datetime(2000, 1, 2)).total_seconds()


def clock_printed(words, given=None):
    """What the program clock prints, where standard input has these bytes; where it has none, it must not be asked."""
    return clock.printed([os.fsencode(word) for word in words], lambda: given)


YEAR = os.path.join(os.path.dirname(os.path.abspath(__file__)), os.pardir, "bench", "year")


def made_up_year(*words):
    """What bench/year writes."""
    return subprocess.run([sys.executable, "-B", YEAR, *words], stdout=subprocess.PIPE, check=True).stdout


# docs/SHEET.md: a sheet by its rules, each line counted out by hand.
SHEET_TEXT = """\
Corridor 7C:BA:CC:2F:40:2E, target 59, instance 5, times in UTC

season  from                 to                    occupied    presses      holds
     1  -                    1970-01-01 00:00:16          0          0          0
     2  1970-01-01 00:00:16  1970-01-01 12:05:00          3          1          0
     3  1970-01-01 12:05:00  2026-03-01 00:00:00          1          0         41
     4  2026-03-01 00:00:00  -                            0          0          1

season        longest gap           mean gap        total seconds       gaps
     1                  -                  -                    0          0
     2        10 h 59 min         5 h 59 min                43120          2
     3                  -                  -                    0          0
     4                  -                  -                    0          0

occupied
     1                                            0
     2  ########################################  3
     3  #############                             1
     4                                            0

presses
     1                                            0
     2  ########################################  1
     3                                            0
     4                                            0

holds
     1                                            0
     2                                            0
     3  ########################################  41
     4  #                                         1
"""


class Taker:
    """The same told part by part, in few bytes: what is held of a record, the last time, four seasons and the last occupied event."""

    def __init__(self, corridor, boundaries):
        self.corridor, self.boundaries = corridor, boundaries
        self.width, self.refused, self.held = None, None, b""
        self.last = 0
        self.seasons = [[0, 0, 0, None, 0, 0] for _ in range(4)]
        self.occupied = None  # the season and the time of the last one

    def take(self, part):
        for place in range(len(part)):
            if self.refused is None:
                self.take_byte(part[place:place + 1])

    def take_byte(self, byte):
        if self.width is None:
            self.width = {1: 3, 2: 2}.get(byte[0])
            self.refused = None if self.width else 14
            return
        self.held += byte
        if len(self.held) < 2:
            return
        length = self.held[0] * 256 + self.held[1]
        if not 4 <= length <= 63 + self.width:
            self.refused = 15
        elif len(self.held) == 2 + length:
            self.take_record(opinion.high_first(self.held[2:6]), self.held[6:])
            self.held = b""

    def take_record(self, seconds, datagram):
        try:
            event = opinion.read_event(self.width, datagram)
        except opinion.Refusal:
            self.refused = 15
            return
        if seconds < self.last:
            self.refused = 15
            return
        self.last = seconds
        if event.type in [6, 0, 1] and (event.mac, event.target, event.data[0]) == self.corridor:
            number = bisect.bisect_right(self.boundaries, seconds)
            season = self.seasons[number]
            season[[6, 0, 1].index(event.type)] += 1
            if event.type == 6:
                if self.occupied and self.occupied[0] == number:
                    gap = seconds - self.occupied[1]
                    season[3:] = [max(gap, season[3] or 0), season[4] + gap, season[5] + 1]
                self.occupied = number, seconds

    def answer(self):
        """The number, and the seasons where it is 0."""
        if self.refused is None and (self.width is None or self.held):
            return 15, None
        if self.refused is None and not self.boundaries[0] < self.boundaries[1] < self.boundaries[2]:
            return 20, None
        return self.refused or 0, None if self.refused else [tuple(season) for season in self.seasons]


def asked_for_seasons(run, corridor, boundaries):
    """The number of the answer of `seasons` on a capture of these bytes, all in use, and the seasons."""
    try:
        return 0, [tuple(season) for season in opinion.seasons_in(run, len(run), opinion.Corridor(*corridor), boundaries)]
    except opinion.Refusal as refusal:
        return refusal.number, None


class SelfTest(unittest.TestCase):

    def test_stated_answers(self):
        bench = opinion.Bench()
        for call, answer in STATED + STATED_LATER:
            self.assertEqual(bench.answer(call.encode("ascii")), answer, call)

    def test_longest_datagrams(self):
        bench = opinion.Bench()
        for family, datagram, answer in [
                ("reply", cases.reply(0xA1, 0, bytes(64)), "0 type A1 sequence 0 n 64"),
                ("reply", cases.reply(0xA1, 0, bytes(65)), "4"),
                ("reply", bytes([0xA1, 0, 65, 1]), "4"),
                ("event", cases.event(1, 3, bytes(48)),
                 "0 mac 7C BA CC 2F 40 2E target 1 type 3 LEVEL_CHANGE n 48 instance absent"),
                ("event", cases.event(1, 3, bytes(49)), "4")]:
            self.assertEqual(bench.answer(cases.call(family, datagram).encode("ascii")), answer)

    def test_small_program(self):
        found = opinion.items("reply", cases.SMALL_PROGRAM_INPUT)
        lines = ["%d %d %s\n" % (number, len(run), opinion.text([run]).replace(" ", "")) for number, run in found]
        self.assertEqual("".join(lines), SMALL_PROGRAM_OUTPUT)

    def test_commands(self):
        self.assertEqual(sum(opinion.known(command) for command in range(256)), 33)
        self.assertEqual([command for command in range(256) if opinion.known(command) and command not in cases.KNOWN], [0x0E])

    def test_streams_cut_anywhere(self):
        chance = cases.Chance(7)
        for line in ["request", "reply"]:
            for _ in range(500):
                stream = cases.some_stream(line, chance)
                found = list(items_call_by_call(line, cases.cut(stream, chance)))
                self.assertEqual(found, list(opinion.items(line, stream)))
                self.assertEqual(b"".join(run for _, run in found), stream)

    def test_readers_without_colour(self):
        chance = cases.Chance(17)
        for line in ["request", "reply"]:
            for _ in range(300):
                stream = cases.some_stream(line, chance).replace(b"\x0E", b"\x0D")
                readers = opinion.Reader(line), cases.EarlierReader(line)
                for part in cases.cut(stream, chance):
                    self.assertEqual(*[list(cases.fed(reader, part)) for reader in readers])
                self.assertEqual(*[list(cases.closed(reader)) for reader in readers])

    def test_colours_written_and_read(self):
        chance = cases.Chance(18)
        bench = opinion.Bench()
        for number in range(600):
            name, type_, data = cases.COLOURS[number % 3]
            fields = chance.run(3 + len(data))
            address = fields[1]
            answer = bench.answer(cases.call("write_colour_" + name, fields, cases.pattern(14)).encode("ascii")).split()
            if not (address < 80 or address in [127, 255]):
                self.assertEqual(answer[0], "7")
                continue
            frame = bytes.fromhex("".join(answer[answer.index("after") + 1:]))
            count = int(answer[2])
            self.assertEqual((count, frame[count:]), (len(data) + 7, cases.pattern(14)[count:]))
            self.assertEqual(frame[:count], cases.colour(type_, fields[3:], *fields[:3]))
            first, last = fields[3] * 256 + fields[4], fields[-2] * 256 + fields[-1]
            values = {"xy": [first, last], "tc": [first], "rgbwaf": list(fields[3:])}
            lights = "broadcast" if address > 79 else "group %d" % (address - 64) if address > 63 else "gear %d" % address
            self.assertEqual(bench.answer(cases.call("request", frame[:count]).encode("ascii")),
                             " ".join(["0 sequence %d command 0E target %d %s level %d %s" % (fields[0], address, lights, fields[2], name)]
                                      + [str(value) for value in values[name]]))
            relayed = bench.answer(cases.call("relay_request", frame[:count], bytes(count)).encode("ascii"))
            self.assertEqual(relayed.split(" after ")[1], opinion.text([frame[:count]]))

    def test_colour_lines_cut_anywhere(self):
        chance = cases.Chance(19)
        seen, most = set(), 0
        for _ in range(300):
            stream = cases.stream_of(cases.colour_piece, chance)
            found = list(opinion.items("request", stream))
            self.assertEqual(b"".join(run for _, run in found), stream)
            for parts in [[stream[:place], stream[place:]] for place in range(len(stream) + 1)] + [cases.single(stream), cases.cut(stream, chance)]:
                self.assertEqual(list(items_call_by_call("request", parts)), found)
            reader = opinion.Reader("request")
            for byte in cases.single(stream):
                list(cases.fed(reader, byte))
                most = max(most, reader.claim)
            seen.update(number for number, _ in found)
            # a datagram is accepted exactly where a line that has nothing else on it gives it back
            for _, run in found + [(None, stream)]:
                self.assertEqual(read_as_request(run), list(opinion.items("request", run)) == [(0, run)])
        self.assertEqual((seen, most), ({0, 1, 2, 3, 4, 6, 7}, 12))

    def test_retired_is_marked(self):
        bench = opinion.Bench()
        for command in range(256):
            for sequence in [0, 10, 255]:
                words = bench.answer(cases.call("request", cases.frame_of(command, sequence)).encode("ascii")).split()
                self.assertEqual(words[0], "0" if opinion.known(command) else "3")
                self.assertEqual("retired" in words, command == 0x0A)
        # but for the mark, 0A reads as 09 does, whatever the bytes
        chance = cases.Chance(20)
        read = 0
        for _ in range(500):
            frame = cases.basic(chance.below(256), 0x0A, [chance.pick([0, 0, 0, 0, 0, 0, 0, 1, 255]) for _ in range(4)])
            if chance.one_in(3):
                frame = chance.pick([frame[:-1], frame + b"\x00", cases.spoilt(frame), cases.replaced(frame, 0, 0x05)])
            neighbour = frame[:2] + b"\x09" + frame[3:7] + bytes(byte ^ 0x03 for byte in frame[7:8]) + frame[8:]
            answer = bench.answer(cases.call("request", frame).encode("ascii"))
            before = bench.answer(cases.call("request", neighbour).encode("ascii"))
            self.assertEqual(answer, before.replace("command 09", "command 0A") + (" retired" if before[0] == "0" else ""))
            read += before[0] == "0"
        self.assertGreater(read, 50)

    def test_retired_is_not_written(self):
        chance = cases.Chance(21)
        bench = opinion.Bench()
        written = set()
        for number in range(10000):
            command = 0x0A if number % 5 == 0 else chance.pick(cases.KNOWN) if number % 5 > 1 else chance.below(256)
            arguments = chance.pick(cases.good_arguments(command, max) if command in opinion.BASIC else [bytes(4)])
            if chance.one_in(4):
                arguments = cases.damaged_frame(chance, arguments)
            buffer = cases.pattern(chance.pick([0, 7, 8, 8, 8, 9]))
            words = bench.answer(cases.call("write_basic", bytes([chance.below(256), command]) + arguments, buffer).encode("ascii")).split()
            self.assertEqual(words[0] == "17", command == 0x0A)
            if words[0] == "0":
                frame = bytes.fromhex("".join(words[words.index("after") + 1:]))[:8]
                reading = bench.answer(cases.call("request", frame).encode("ascii"))
                self.assertEqual((reading[:2], "retired" in reading), ("0 ", False))
                written.add(command)
            else:
                self.assertEqual(words[words.index("after") + 1:], opinion.text([buffer]).split())
        self.assertEqual(written, set(opinion.BASIC) - {0x0A})
        for command in range(256):
            frame = cases.frame_of(command, command)
            number = bench.answer(cases.call("relay_request", frame, bytes(len(frame))).encode("ascii")).split()[0]
            self.assertEqual(number, "17" if command == 0x0A else "0" if opinion.known(command) else "3")

    def test_retired_is_not_asked(self):
        chance = cases.Chance(22)
        known = {0x01, 0x08, 0x09, 0x0A, 0x0B, 0x0C, 0x0E, 0x1A, 0x1B, 0x1C, 0x1D, 0x20, 0x31, 0x32, 0x33, 0x34, 0x40, 0x41} | set(range(0xA0, 0xAF))
        seen = set()
        for _ in range(200):
            few = chance.one_in(2)
            held = bytearray(chance.pick([0x0A, 0x09, chance.below(256) if few else 0x40]) for _ in range(256))
            last = chance.below(256)
            book = opinion.Book(last, bytes(held))
            for _ in range(30):
                command, number = chance.pick([0x0A, 0x09, chance.below(256)]), chance.below(256)
                asked = answered(book.ask, command, 0)
                free = [place for place in list(range(last + 1, 256)) + list(range(last + 1)) if held[place] not in known]
                if command not in known:
                    self.assertEqual(asked, (3, None))
                elif command == 0x0A:
                    self.assertEqual(asked, (17, None))
                elif not free:
                    self.assertEqual(asked, (9, None))
                else:
                    self.assertEqual(asked, (0, free[0]))
                    last, held[free[0]] = free[0], command
                self.assertEqual(answered(book.answer, number), (0, held[number]) if held[number] in known else (10, None))
                held[number] = 0 if held[number] in known else held[number]
                self.assertEqual((book.last, book.held), (last, held))
                seen.add(asked[0])
        self.assertEqual(seen, {0, 3, 9, 17})

    def test_retired_lines_cut_anywhere(self):
        chance = cases.Chance(23)
        bench = opinion.Bench()
        marked = 0
        for stream in cases.RETIRED_LINES + [cases.stream_of(cases.retired_piece, chance) for _ in range(200)]:
            found = list(opinion.items("request", stream))
            for parts in [[stream[:place], stream[place:]] for place in range(len(stream) + 1)] + [cases.single(stream)]:
                self.assertEqual(list(items_call_by_call("request", parts)), found)
            for number, run in found:
                answer = bench.answer(cases.call("request", run).encode("ascii"))
                self.assertEqual(answer[:2] == "0 ", number == 0)
                self.assertEqual(answer.endswith(" retired"), number == 0 and run[2] == 0x0A)
                marked += answer.endswith(" retired")
        self.assertGreater(marked, 100)

    def test_ages_tick_by_tick(self):
        # from the tick asked, one is added until it is now, 4294967295 and one more being 0: so often is the age
        for start in [0, 1, 2 ** 31 - 30, 2 ** 32 - 60, 2 ** 32 - 1]:
            for steps in range(60):
                now = start
                for _ in range(steps):
                    now = 0 if now == 4294967295 else now + 1
                self.assertEqual(opinion.age(now, start), steps)
                # back again it is the rest of the round, but for no step at all
                self.assertEqual(opinion.age(start, now), 2 ** 32 - steps if steps else 0)
                for limit in [steps - 1, steps, steps + 1]:
                    if limit >= 0:
                        book = opinion.Book()
                        book.ask(0x09, start)
                        self.assertEqual((book.give_up(now, limit), book.held[0]), (1, 0) if limit < steps else (0, 0x09))

    def test_giving_up_counted(self):
        # a book kept beside it as pairs, on which giving up is one walk over the numbers
        chance = cases.Chance(27)
        freed, numbers = set(), set()
        for _ in range(300):
            now = chance.pick([0, 50, 2 ** 31, 2 ** 32 - 50, chance.below(2 ** 32)])
            strange = chance.pick([1, 4, 100])
            held = [(chance.below(256) if chance.one_in(strange) else chance.pick(cases.ALL_KNOWN), (now - chance.below(100)) % 2 ** 32)
                    for _ in range(256)]
            last = chance.below(256)
            book = opinion.Book(last, bytes(command for command, _ in held), cases.in_bytes(tick for _, tick in held))
            for _ in range(12):
                now = (now + chance.below(30) - chance.pick([0, 0, 0, 40])) % 2 ** 32
                limit = chance.pick([0, 10, 50, 99, 120, 2 ** 32 - 41, 2 ** 32 - 1, chance.below(2 ** 32)])
                count = 0
                for number, (command, tick) in enumerate(held):
                    since = now - tick if now >= tick else now + 2 ** 32 - tick
                    if command in cases.ALL_KNOWN and since > limit:
                        held[number] = 0, tick
                        count += 1
                self.assertEqual(book.give_up(now, limit), count)
                self.assertEqual(book.give_up(now, limit), 0)
                freed.add(count)
                command, number = chance.below(256) if chance.one_in(5) else chance.pick(cases.ALL_KNOWN), chance.below(256)
                asked = answered(book.ask, command, now)
                if asked[0] == 0:
                    last = asked[1]
                    held[last] = command, now
                if answered(book.answer, number)[0] == 0:
                    held[number] = 0, held[number][1]
                numbers.add(asked[0])
                self.assertEqual((book.last, list(zip(book.held, book.ticks))), (last, held))
        self.assertEqual(numbers, {0, 3, 9, 17})
        self.assertTrue({0, 1, 256} < freed and len(freed) > 50)

    def test_asking_and_replying_without_ticks(self):
        # "their numbers, order and refusals stay": whatever the ticks are
        chance = cases.Chance(28)
        for _ in range(60):
            held, last = bytes(chance.pick([0x0A, 0x40, 0x40, chance.below(256)]) for _ in range(256)), chance.below(256)
            books = opinion.Book(last, held), opinion.Book(last, held, chance.run(chance.below(1025)))
            for _ in range(60):
                command, number = chance.pick([0x09, chance.below(256)]), chance.below(256)
                self.assertEqual(*[answered(book.ask, command, tick) for book, tick in zip(books, [0, chance.below(2 ** 32)])])
                self.assertEqual(*[answered(book.answer, number) for book in books])
                self.assertEqual(*[(book.last, book.held) for book in books])

    def test_kinds_with_ticks(self):
        # the same lines, wherever and how often a kind is made
        for kind in [cases.book, cases.colours, cases.retired_command, cases.table_of_commands, cases.no_table_calls, cases.giving_up]:
            self.assertEqual(list(kind()), list(kind()))
        # ticks of every size, and not all of them 0
        lines = list(cases.book())
        asked = {line.split(" ", 2)[2] for line in lines if line[:4] == "ask "}
        self.assertGreater(len(asked), 1000)
        sizes = {len(opinion.grouped(line.encode("ascii").split()[1:])[2]) for line in lines if line[:8] == "book_set"}
        self.assertTrue({0, 1, 2, 4, 7, 12, 30, 1024} <= sizes)
        # giving up is asked of every number alone, and of all of them
        bench = opinion.Bench()
        answers = [bench.answer(line.encode("ascii")) for line in cases.giving_up()]
        self.assertTrue({"0 freed %d" % count for count in [0, 1, 2, 3, 33, 255, 256]} <= set(answers))

    def test_commands_inside(self):
        self.assertEqual({command for command in range(256) if opinion.inside(command)}, QUERIES)
        known = {command for command in range(256) if opinion.known(command)}
        self.assertEqual((len(known), len(QUERIES), len(known - QUERIES)), (33, 18, 15))
        # "only commands that query": so the source's names say too
        self.assertEqual({command for command, name in opinion.COMMAND_NAMES.items() if "QUERY" in name}, QUERIES)

    def test_table_of_commands(self):
        bench = opinion.Bench()
        entries, words = [], []
        for command in range(256):
            known, shape, entry = (bench.answer(cases.call(name, [command]).encode("ascii")).split() for name in ["known", "shape", "table"])
            self.assertEqual((entry[:2], entry[3]), (["0", "shape"], "rule"))
            self.assertEqual(int(entry[2]), ["unknown", "basic", "unicast", "colour"].index(shape[1]))
            self.assertEqual(entry[2] == "0", known[1] == "unknown")
            entries.append((int(entry[2]), int(entry[4])))
            words.append(shape[2:])
        self.assertEqual(sum(entry != (0, 0) for entry in entries), 33)
        self.assertEqual({rule for _, rule in entries}, set(range(18)))
        # a rule is one shape's; of basic commands, the call `shape` has a word for it
        self.assertEqual(set(entries), {(0, 0), (2, 16), (3, 17)} | {(1, rule) for rule in range(1, 16)})
        basic = [command for command in range(256) if entries[command][0] == 1]
        for one in basic:
            for other in basic:
                self.assertEqual(entries[one][1] == entries[other][1], words[one] == words[other])
        # the call stands behind `inside`
        names = list(bench.calls)
        self.assertEqual(names[names.index("table") - 1], "inside")

    def test_rules_are_told_apart(self):
        # two basic commands have one rule exactly where the same arguments fit them
        basic = sorted(opinion.BASIC)
        tried = {cases.replaced(arguments, place, value) for command in basic for choose in [min, max]
                 for arguments in cases.good_arguments(command, choose) for place, values in enumerate(cases.PLACE_EDGES) for value in values}
        fitting = {command: {arguments for arguments in tried if opinion.fits(command, arguments)} for command in basic}
        for one in basic:
            for other in basic:
                self.assertEqual(opinion.table_entry(one) == opinion.table_entry(other), fitting[one] == fitting[other])

    def test_listed_commands(self):
        listed = cases.listed_commands()
        names = {command: name for command, name, _ in listed}
        self.assertEqual((len(listed), len(names), len(set(names.values()))), (COMMANDS_LISTED,) * 3)
        self.assertEqual({command: names[command] for command in range(256) if opinion.known(command)}, opinion.COMMAND_NAMES)
        # "The following commands all use the Basic frame type": 40 stands among them
        known = [(command, frame_type) for command, _, frame_type in listed if opinion.known(command)]
        self.assertEqual([command for command, frame_type in known if opinion.table_entry(command)[0] != LISTED_SHAPES[frame_type]], LISTED_OTHERWISE)
        # each has an example under its name, with its number; but that of 06 prints 05
        with open(cases.FRAMES, encoding="ascii") as file:
            sections = [line.split("\t")[1] for line in file]
        printed = [(frame[2], section) for section, frame in zip(sections, cases.printed_frames()) if frame[:1] == b"\x04"]
        self.assertEqual(sorted(section for _, section in printed), sorted(names.values()))
        self.assertEqual([request for request in printed if names.get(request[0]) != request[1]], [(0x05, "TRIGGER_SDDP_IDENTIFY")])

    def test_quiet_writing(self):
        bench = opinion.Bench()
        seen, written = set(), set()
        for line in cases.quiet_writing():
            name, _, groups = line.partition(" ")
            if not name.endswith("_quiet"):
                continue
            plain = bench.answer((name[:-6] + " " + groups).encode("ascii"))
            answer = bench.answer(line.encode("ascii"))
            head, buffer = opinion.grouped(groups.encode("ascii").split())
            command = head[1] if name == "write_basic_quiet" else 0x40 if name == "write_unicast_quiet" else 0x0E
            number = plain.split(" ")[0]
            seen.add((number, answer.split(" ")[0]))
            if number in ["0", "8"] and command not in QUERIES:
                self.assertEqual(answer, opinion.text([13, "before", buffer, "after", buffer]))
            else:
                self.assertEqual(answer, plain)
            if number == "0" and command in QUERIES:
                written.add(command)
                words = answer.split(" ")
                self.assertTrue(opinion.is_quiet(bytes.fromhex("".join(words[words.index("after") + 1:]))[:8]))
        self.assertEqual(seen, {("0", "0"), ("0", "13"), ("3", "3"), ("7", "7"), ("8", "8"), ("8", "13"), ("17", "17")})
        self.assertEqual(written, QUERIES - {0x0A})

    def test_quiet_runs(self):
        passed, refused = [], []
        for run in runs_for_the_profile():
            self.assertEqual(opinion.is_quiet(run), quiet_in_eights(run))
            (passed if opinion.is_quiet(run) else refused).append(run)
        self.assertGreater(min(len(passed), len(refused)), 500)
        # a run that passes before another changes nothing, so passing runs may be put together
        for number, front in enumerate(passed):
            self.assertTrue(opinion.is_quiet(front + passed[-number]))
            self.assertFalse(opinion.is_quiet(front + refused[number]))

    def test_stated_lines(self):
        for run, line in STATED_LINES:
            self.assertEqual(quiet.line_of(bytes.fromhex(run)), line + "\n")
        self.assertEqual({line.split(" ")[2] for _, line in STATED_LINES if line != "yes"}, {str(number) for number in quiet.REASONS})

    def test_lines_of_runs(self):
        chance = cases.Chance(26)
        seen = set()
        for run in runs_for_the_profile():
            place, line = 0, "yes\n"
            for number, item in items_call_by_call("request", cases.cut(run, chance)):
                if number != 0 or item[2] not in QUERIES:
                    line = "no: item %d at byte %d, %s: " % (number, place, "".join("%02X" % byte for byte in item))
                    break
                place += len(item)
            found = quiet.line_of(run)
            self.assertEqual(found[:len(line)], line)
            self.assertEqual(found == "yes\n", opinion.is_quiet(run))
            if found != "yes\n":
                seen.add(number)
                self.assertTrue(quiet_in_eights(run[:place]))
                self.assertEqual(found[len(line):-1], "command %02X is outside the profile" % item[2] if number == 0 else quiet.REASONS[number])
                # what is settled stays, whatever comes behind it
                if number != 1:
                    self.assertEqual(quiet.line_of(run + chance.run(3)), found)
        self.assertEqual(seen, {0, 1, 2, 3, 4, 6, 7})

    def test_run_of_the_program(self):
        self.assertEqual(len(cases.QUIET_RUN), 22 * 8)
        self.assertTrue(opinion.is_quiet(cases.QUIET_RUN[:-8]))
        self.assertEqual({cases.QUIET_RUN[place + 2] for place in range(0, 21 * 8, 8)}, QUERIES)
        self.assertEqual(quiet.line_of(cases.QUIET_RUN), "no: item 0 at byte 168, 0415A14F00000FF0: command A1 is outside the profile\n")

    def test_frames_that_are_changed(self):
        frames = {family.word: family.frames for family in cases.CHANGED}
        self.assertEqual([frame[2] for frame in frames["basic"]], sorted(opinion.BASIC))
        self.assertEqual([frame[2] for frame in frames["40"]], [0x40])
        self.assertEqual([(frame[2], frame[5]) for frame in frames["colour"]], [(0x0E, type_) for type_ in cases.LISTED_TYPES])
        bare = [frame[2] for frame in frames["basic"] if not any(frame[3:7])]
        self.assertEqual(bare, [command for command in sorted(opinion.BASIC) if opinion.BASIC[command] == "bare"])
        self.assertEqual([frame[0] for frame in frames["reply"]], [0xA0, 0xA1, 0xA2, 0xA3])
        self.assertEqual(sorted(frame[2] for frame in frames["reply"]), [0, 1, 2, 3])
        self.assertIn(opinion.error_code(opinion.read_reply(frames["reply"][3])), opinion.ERROR_CODES)
        for word, place in [("event", 11), ("event_two", 10)]:
            types, sizes = [frame[place] for frame in frames[word]], {frame[place + 1] for frame in frames[word]}
            self.assertEqual((types[:10], len(types)), (list(range(10)), 11))
            self.assertGreater(types[10], 9)
            self.assertEqual(sizes & {0, 1, 2}, {0, 1, 2})
            self.assertGreater(max(sizes), 2)
        # three bytes apart or more, so that no line of theirs comes twice
        for name in changes.READERS:
            own = frames_read_by(name)
            for one in own:
                near = [other for other in own if other is not one and len(other) == len(one) and places_that_differ(one, other) < 3]
                self.assertFalse(near, "%s %s is near to another frame" % (name, opinion.text([one])))

    def test_one_changed_byte(self):
        bench = opinion.Bench()
        for name, allowed in REFUSED_CHANGES.items():
            lines, seen = iter(cases.one_byte_changed(name)), set()
            for frame in frames_read_by(name):
                line = next(lines)
                self.assertEqual(line, cases.call(name, frame))
                self.assertEqual(bench.answer(line.encode("ascii"))[:2], "0 ", line + " is not accepted")
                given = [next(lines) for _ in range(255 * len(frame))]
                self.assertEqual(len(set(given)), len(given))
                for line in given:
                    datagram, answer = bytes.fromhex(line[len(name) + 1:]), bench.answer(line.encode("ascii"))
                    if places_that_differ(datagram, frame) != 1:
                        self.fail("%s is no single change of %s" % (line, opinion.text([frame])))
                    if answer not in allowed:
                        self.fail("%s, changed in one byte from %s, gives %s" % (line, opinion.text([frame]), answer))
                    seen.add(answer)
            self.assertEqual((list(lines), seen), ([], allowed))

    def test_two_changed_bytes(self):
        bench = opinion.Bench()
        given = list(cases.several_bytes_changed())
        for name, one, other in cases.WORKED_PAIRS:
            self.assertEqual(places_that_differ(one, other), 2)
            answers = []
            for datagram in [one, other]:
                line = cases.call(name, datagram)
                self.assertIn(line, given)
                answers.append(bench.answer(line.encode("ascii")))
                self.assertEqual(answers[-1][:2], "0 ", line + " is not accepted")
            self.assertNotEqual(*answers)
        (_, *replies), (_, *requests) = cases.WORKED_PAIRS
        self.assertEqual(replies, [bytes.fromhex("A00000A0"), bytes.fromhex("A00100A1")])
        self.assertEqual([request[:5] + request[6:4:-1] + request[7:] for request in requests], requests[::-1])
        # of the frame that is changed too: another mask, and all else as it was
        frame = cases.CHANGED_BASIC[0x31]
        exchanged = frame[:5] + frame[6:4:-1] + frame[7:]
        self.assertIn(cases.call("request", exchanged), given)
        one, other = opinion.read_request(frame), opinion.read_request(exchanged)
        self.assertEqual(other, one._replace(arguments=one.arguments[:2] + one.arguments[:1:-1]))
        self.assertNotEqual(other.arguments, one.arguments)

    def test_several_changed_bytes(self):
        bench = opinion.Bench()
        given = list(cases.several_bytes_changed())
        self.assertEqual(len(set(given)), len(given))
        self.assertLess(len(given), 6000)
        single = {line for name in changes.READERS for line in cases.one_byte_changed(name)}
        self.assertEqual(single & set(given), {cases.call(name, frame) for name, frame, _ in cases.SEVERAL_CHANGED})
        seen = {name: set() for name in changes.READERS}
        for line in given:
            name, _, datagram = line.partition(" ")
            number = bench.answer(line.encode("ascii")).split(" ")[0]
            if opinion.exclusive_or(bytes.fromhex(datagram)) != 0:
                self.assertIn(number, REFUSED_CHANGES[name], line)
            else:
                self.assertIn(number, REFUSED_CHANGES[name] - {"6"} | {"0", "7"}, line)
            seen[name].add(number)
        # of all numbers there are some; a reply has nothing that 7 is about
        self.assertEqual(seen, {name: allowed | {"0"} | ({"7"} if name != "reply" else set()) for name, allowed in REFUSED_CHANGES.items()})

    def test_double_changes_counted(self):
        for family in cases.CHANGED:
            frame = min(family.frames, key=len)
            self.assertEqual(changes.doubles_accepted(family.call, frame), DOUBLES_BY_HAND[family.word], opinion.text([frame]))
        # the quick count against every one tried
        frame = cases.CHANGED_REPLIES[0xA0]
        quick = changes.doubles_of(frame), changes.doubles_accepted("reply", frame)
        self.assertEqual(changes.every_double_tried("reply", frame), quick)
        self.assertEqual(quick, (390150, 261))

    def test_shares_of_changes(self):
        self.assertEqual([changes.share(*given) for given in [(0, 5), (5, 5), (2, 5), (261, 390150), (1, 2000000), (1, 200000), (1, 200001)]],
                         ["none", "1 in 1 (100.000%)", "1 in 3 (40.000%)", "1 in 1,495 (0.067%)", "1 in 2,000,000 (0.000%)", "1 in 200,000 (0.001%)",
                          "1 in 200,001 (0.000%)"])

    def test_arguments_of_changes(self):
        for words, status in [(["--help"], 0), (["one"], 2), ([""], 2), (["all"], 2), (["all", "one"], 2), (["all", "reply", "event"], 2), (["a\nb"], 2)]:
            with contextlib.redirect_stdout(io.StringIO()) as out, contextlib.redirect_stderr(io.StringIO()) as said:
                self.assertEqual(changes.main(words), status)
            if status == 0:
                self.assertEqual((out.getvalue(), said.getvalue()), (changes.HELP, ""))
            else:
                self.assertEqual((out.getvalue(), said.getvalue().count("\n")), ("", 1))

    def test_appends_by_the_letter_and_by_marks(self):
        for version, size, appends in runs_of_appends(cases.Chance(8)):
            letter, marked = empty_capture(version, size), empty_capture(version, size)
            for seconds, datagram in appends:
                self.assertEqual(answered(letter.append, seconds, datagram), answered(marked.append_at, seconds, datagram))
                self.assertEqual((letter.buffer, letter.used, letter.summary), (marked.buffer, marked.used, marked.summary))
                self.assertEqual(marked.mark, letter.open())

    def test_summary_beside_the_records(self):
        for version, size, appends in runs_of_appends(cases.Chance(9)):
            capture, kept = empty_capture(version, size), []
            for seconds, datagram in appends:
                before, used, summary = capture.buffer, capture.used, capture.summary
                number, _ = answered(capture.append, seconds, datagram)
                self.assertEqual(capture.buffer[:used], before[:used])
                if number == 0:
                    kept.append((seconds, datagram))
                else:
                    self.assertEqual((capture.buffer, capture.used, capture.summary), (before, used, summary))
                self.assertEqual(capture.buffer[capture.used:], before[capture.used:])
                self.assertEqual(capture.summary, capture.count())
            records = opinion.records_in(capture.buffer, capture.used)
            self.assertEqual([(record.seconds, record.datagram) for record in records], kept)
            self.assertEqual(capture.summary.records, sum(capture.summary.counts))
            appended = capture.used, capture.summary
            self.assertEqual((capture.keep_prefix(), capture.summary), appended)

    def test_torn_tails(self):
        chance = cases.Chance(10)
        for version, width in cases.VERSIONS:
            capture = empty_capture(version, 200)
            ends = [capture.used]
            for number in range(5):
                ends.append(capture.append(number, cases.some_event(chance, width)))
            whole, records = capture.buffer, opinion.records_in(capture.buffer, capture.used)
            for cut in range(1, ends[-1] + 1):
                for tail in [b"", b"\x00", bytes(30), b"\xFF" * 30]:
                    torn = opinion.Capture()
                    torn.buffer = whole[:cut] + tail
                    torn.used = len(torn.buffer)
                    kept = sum(torn.buffer[:end] == whole[:end] for end in ends) - 1
                    self.assertEqual(torn.keep_prefix(), ends[kept])
                    self.assertEqual(torn.summary, opinion.counted(records[:kept]))
                    self.assertEqual(torn.mark, torn.open())

    def test_runs_are_singles(self):
        chance = cases.Chance(11)
        seen = set()
        for version, size, parts in mornings(chance):
            single, whole, marked_single, marked_whole = (empty_capture(version, size) for _ in range(4))
            for datagrams in parts:
                seconds = chance.below(30)
                numbers = [answered(single.append, seconds, datagram)[0] for datagram in datagrams]
                for datagram in datagrams:
                    answered(marked_single.append_at, seconds, datagram)
                counts = numbers.count(0), len(numbers) - numbers.count(0)
                run = cases.led(datagrams)
                self.assertEqual(whole.append_run(seconds, run), counts)
                self.assertEqual(marked_whole.append_run_at(seconds, run), counts)
                self.assertEqual(vars(whole), vars(single))
                self.assertEqual(vars(marked_whole), vars(marked_single))
                self.assertEqual((whole.buffer, whole.used, whole.summary),
                                 (marked_whole.buffer, marked_whole.used, marked_whole.summary))
                self.assertEqual(whole.summary, whole.count())
                self.assertEqual(marked_whole.mark, opinion.mark_behind(opinion.records_in(whole.buffer, whole.used)))
                seen.update(numbers)
        self.assertEqual(seen, REFUSED_SINGLY | {0})

    def test_runs_cut_anywhere(self):
        chance = cases.Chance(12)
        for version, size, parts in list(mornings(chance))[:20]:
            datagrams = parts[0][:6]
            run = cases.led(datagrams)
            ends = {len(cases.led(datagrams[:count])): datagrams[:count] for count in range(len(datagrams) + 1)}
            for cut in range(len(run) + 1):
                for append_run in [opinion.Capture.append_run, opinion.Capture.append_run_at]:
                    capture = empty_capture(version, size)
                    before = dict(vars(capture))
                    if cut in ends:
                        self.assertEqual(sum(append_run(capture, 5, run[:cut])), len(ends[cut]))
                    else:
                        self.assertEqual(answered(lambda *given: append_run(capture, *given), 5, run[:cut]), (15, None))
                        self.assertEqual(vars(capture), before)

    def test_seasons_event_by_event(self):
        with_gaps = 0
        for year, capture, boundaries, corridor in years(cases.Chance(13)):
            before = dict(vars(capture))
            found = capture.seasons(opinion.Corridor(*corridor), boundaries)
            self.assertEqual([tuple(season) for season in found], seasons_event_by_event(year, boundaries, corridor))
            self.assertEqual(vars(capture), before)
            with_gaps += sum(season.gaps > 1 for season in found)
        self.assertGreater(with_gaps, 300)

    def test_seasons_add_up(self):
        for year, capture, boundaries, corridor in years(cases.Chance(14)):
            found = capture.seasons(opinion.Corridor(*corridor), boundaries)
            own = [(seconds, type_) for seconds, mac, target, type_, data in year if (mac, target, data[0]) == corridor]
            for place, type_ in enumerate([6, 0, 1]):
                self.assertEqual(sum(season[place] for season in found), [of for _, of in own].count(type_))
            for number, season in enumerate(found):
                times = [seconds for seconds, type_ in own if type_ == 6 and sum(seconds >= boundary for boundary in boundaries) == number]
                gaps = [times[place] - times[place - 1] for place in range(1, len(times))]
                self.assertEqual((season.total, season.gaps), (times[-1] - times[0] if times else 0, max(0, season.occupied - 1)))
                self.assertEqual((season.total, season.longest), (sum(gaps), sorted(gaps)[-1] if gaps else None))

    def test_seasons_part_by_part(self):
        chance = cases.Chance(15)
        seen = set()
        for _, capture, boundaries, corridor in years(chance):
            run = capture.buffer
            if chance.one_in(3):
                run = cases.damaged_run(chance, run)
            if chance.one_in(30):
                run = bytes([chance.pick(cases.UNKNOWN_VERSIONS)]) + run[1:]
            if chance.one_in(20):
                boundaries = [chance.pick(boundaries) for _ in range(3)]
            bench, taker = opinion.Bench(), Taker(corridor, boundaries)
            mac, target, instance = corridor
            bench.answer(cases.begin(target, boundaries, mac, instance).encode("ascii"))
            so_far = b""
            for part in cases.cut(run, chance):
                self.assertEqual(bench.answer(cases.part(part[:cases.PART_MOST]).encode("ascii")), "0")
                taker.take(part[:cases.PART_MOST])
                so_far += part[:cases.PART_MOST]
                number, found = asked_for_seasons(so_far, corridor, boundaries)
                seen.add(number)
                self.assertEqual(taker.answer(), (number, found))
                fields = opinion.seasons_fields([opinion.Season(*season) for season in found]) if number == 0 else []
                self.assertEqual(bench.answer(b"seasons_end"), opinion.text([number] + fields))
                if len(so_far) <= opinion.CAPTURE_BUFFER_MOST:
                    bench.answer(cases.capture_set(len(so_far), so_far).encode("ascii"))
                    self.assertEqual(bench.answer(cases.seasons(target, boundaries, mac, instance).encode("ascii")), bench.answer(b"seasons_end"))
        self.assertEqual(seen, {0, 14, 15, 20})

    def test_cases_part_by_part(self):
        taker, asked = Taker((bytes(6), 0, 0), [0, 0, 0]), 0
        bench = opinion.Bench()
        for line in cases.seasons_in_parts():
            answer = bench.answer(line.encode("ascii"))
            name, _, words = line.partition(" ")
            if name == "seasons_begin":
                group = bytes.fromhex(words)
                taker = Taker((group[:6], opinion.high_first(group[6:10]), group[10]), opinion.boundaries_of(group))
            elif name == "seasons_part":
                taker.take(bytes.fromhex(words))
            elif name == "seasons_end":
                asked += 1
                number, found = taker.answer()
                fields = opinion.seasons_fields([opinion.Season(*season) for season in found]) if number == 0 else []
                self.assertEqual(answer, opinion.text([number] + fields))
        self.assertGreater(asked, 1000)

    def test_dates(self):
        day, end = datetime.date(1968, 1, 1), datetime.date(2108, 12, 31)
        first, last = datetime.date(1970, 1, 1), datetime.date(2106, 2, 7)
        while day <= end:
            word = day.isoformat().encode("ascii")
            if first <= day <= last:
                seconds = sheet.boundary_of("FIRST", word)
                self.assertEqual(seconds, (day - first).days * 86400)
                self.assertEqual(sheet.time_text(seconds), day.isoformat() + " 00:00:00")
            else:
                self.assertRaises(sheet.Wrong, sheet.boundary_of, "FIRST", word)
            day += datetime.timedelta(1)
        self.assertEqual(sheet.time_text(2 ** 32 - 1), "2106-02-07 06:28:15")
        for year in range(1, 2500):
            for month in range(14):
                for number in [0, 1, 28, 29, 30, 31, 32]:
                    try:
                        found = bool(datetime.date(year, month, number))
                    except ValueError:
                        found = False
                    self.assertEqual(sheet.exists(year, month, number), found)

    def test_sheet(self):
        events = [(16, 6), (20, 0), (39600, 6), (43136, 6), (43500, 6)] + [(50000, 1)] * 41 + [(2 ** 32 - 1, 1)]
        run = b"\x01" + b"".join(cases.record(seconds, cases.event(59, type_, bytes([5]))) for seconds, type_ in events)
        words = b"- 7c-ba-cc-2f-40-2e 059 5 16 43500 2026-03-01".split()
        self.assertEqual(sheet.printed([b"--text"] + words, lambda: run), (SHEET_TEXT.encode("ascii"), b""))
        self.assertEqual(sheet.printed(words, lambda: run)[0], b"season,from,to,occupied,presses,holds,longest gap,total,gaps\n"
                         b"1,,16,0,0,0,,0,0\n2,16,43500,3,1,0,39584,43120,2\n3,43500,1772323200,1,0,41,,0,0\n4,1772323200,,0,0,1,,0,0\n")
        bars = [line for line in sheet.printed([b"--svg"] + words, lambda: run)[0].split(b"\n") if b"width=\"28\"" in line]
        self.assertEqual([line.split(b"height=\"")[1].split(b"\"")[0] for line in bars],
                         b"0 0 0 0 17 5 0 240 5 0 240 0 0 0 5 0".split())

    def test_shares(self):
        self.assertEqual([sheet.share(*given) for given in [(0, 40, 0), (0, 40, 7), (7, 40, 7), (1, 40, 41), (41, 40, 41), (40, 40, 41), (9, 40, 7)]],
                         [0, 0, 40, 0, 40, 39, 40])
        self.assertEqual([sheet.share(count, 240, 2 ** 56) for count in [0, 255, 2 ** 55, 2 ** 56]], [0, 0, 120, 240])

    def test_made_up_year(self):
        corridor = bytes.fromhex("7CBACC2F402E"), 68, 3
        for count in [0, 1, 999, 2000, 40000]:
            for layout, width in [("three", 3), ("two", 2)]:
                run = made_up_year("7", str(count), "--layout", layout)
                records = opinion.records_in(run, len(run))
                self.assertEqual((run[0], len(records)), (4 - width, count))
                self.assertTrue(all(1767225600 <= record.seconds < 1798761600 for record in records))
                occupied, presses = (opinion.times_in(width, records, corridor, type_) for type_ in [6, 0])
                seam = range(1772409600, 1774224000)
                self.assertFalse([seconds for seconds in presses if seconds in seam])
                if count >= 40000:
                    self.assertGreater(len([seconds for seconds in occupied if seconds in seam]), 100)
                    self.assertEqual(len([seconds for seconds in occupied if seconds % 86400 == 10033]), 365)
        self.assertEqual(made_up_year("7", "2000"), made_up_year("7", "2000"))
        self.assertNotEqual(made_up_year("7", "2000"), made_up_year("8", "2000"))

    def test_plans_bit_by_bit(self):
        bench, seen = opinion.Bench(), set()
        for run, wanted, line in asked_plans():
            answer = bench.answer(line.encode("ascii"))
            self.assertEqual(answer, told_bit_by_bit(run, wanted), line)
            seen.add(answer if answer[0] == "0" else answer.split(" ")[0])
        self.assertLessEqual({str(number) for number in [*range(1, 8), 18, 19]} | {"0 yes"} | {"0 hidden %d" % place for place in range(12)}, seen)

    def test_last_march(self):
        bench = opinion.Bench()
        swapped = [request for request in cases.MARCH if request[3:7] == bytes([68, 3, 8, 1])]
        meant = [cases.added(68, 3, 0x0108) if request in swapped else request for request in cases.MARCH]
        self.assertEqual(len(swapped), 1)
        self.assertEqual(cases.MARCH_EVENTS[:3], [bytes([68, 3, type_]) for type_ in [6, 0, 1]])
        answers = [bench.answer(cases.plan(requests, *cases.MARCH_EVENTS).encode("ascii")) for requests in [cases.MARCH, meant]]
        self.assertEqual(answers, ["0 hidden 1", "0 yes"])

    def test_bad_requests_by_number(self):
        bench = opinion.Bench()
        for number, requests in cases.BAD_REQUESTS.items():
            for request in requests:
                self.assertEqual(len(request), 8)
                self.assertEqual(bench.answer(cases.plan([request]).encode("ascii")), "%d request 0" % number)
        # of 18 every known command but 31 and 33, and 40 and 0E, of which 8 bytes are 4 or 5
        self.assertEqual({request[2] for request in cases.BAD_REQUESTS[18]}, set(opinion.BASIC) - {0x31, 0x33})

    def test_filters_of_any_plan(self):
        most = 0
        for run, _, _ in asked_plans():
            filters = opinion.Filters()
            for request in in_eights(run):
                before = list(filters.masks.items())
                number, change = answered(opinion.read_change, request)
                number = number or answered(filters.take, change)[0]
                masks = list(filters.masks.items())
                if number:
                    self.assertEqual(masks, before)
                    break
                self.assertLessEqual(len(masks), 64)
                self.assertTrue(all(0 < mask < 65536 for _, mask in masks))
                self.assertTrue(all(instance == 255 if address < 64 else address < 128 and instance < 32 for (address, instance), _ in masks))
                # what stood keeps its order, and what is made stands behind it
                stays = [key for key, _ in before if key in filters.masks]
                self.assertEqual([key for key, _ in masks][:len(stays)], stays)
                self.assertLessEqual(len(masks) - len(stays), 1)
                most = max(most, len(masks))
            self.assertEqual(masks_left(run), list(filters.masks.items()))
        self.assertEqual(most, 64)

    def test_first_bad_request(self):
        seen = set()
        for run, _, line in asked_plans():
            bad = opinion.filters_left(run)[1]
            requests = in_eights(run)
            if bad is None:
                self.assertTrue(all(len(request) == 8 for request in requests))
                continue
            number, place = bad
            seen.add(number)
            self.assertIsNone(opinion.filters_left(run[:8 * place])[1])
            # whatever stands behind it
            short = run[:8 * place] + requests[place]
            self.assertEqual(opinion.filters_left(short)[1], bad, line)
            if len(requests[place]) == 8:
                self.assertEqual(opinion.filters_left(short + bytes(9))[1], bad, line)
        self.assertEqual(seen, {*range(1, 8), 18, 19})

    def test_adding_twice(self):
        chance = cases.Chance(215)
        for run, wanted, _ in asked_plans():
            requests = in_eights(run)
            if not requests or not chance.one_in(3):
                continue
            # a request that comes twice changes nothing more, where it adds and where it clears; nor do adding and clearing mask 0
            place = chance.below(len(requests))
            again = chance.pick([requests[place], cases.added(*chance.pick(cases.PLAN_KEYS), 0), cases.cleared(*chance.pick(cases.PLAN_KEYS), 0)])
            twice = b"".join(requests[:place + 1] + [again] + requests[place + 1:])
            bad = opinion.filters_left(run)[1]
            if bad and bad[1] <= place:
                continue
            self.assertEqual(masks_left(twice), masks_left(run))
            self.assertEqual(opinion.filters_left(twice)[1], bad and (bad[0], bad[1] + 1))
            if not bad:
                self.assertEqual(opinion.plan_fields(twice, wanted), opinion.plan_fields(run, wanted))

    def test_hidden_since(self):
        found = 0
        for run, wanted, _ in asked_plans():
            fields = opinion.plan_fields(run, wanted)
            if fields[:2] != [0, "hidden"] or len(run) > 200:
                continue
            event = opinion.wanted_in(wanted)[fields[2]]
            requests, key, bit = in_eights(run), event[:2], 1 << event[2]
            hidden = [opinion.filters_left(run[:8 * count])[0].hides(*event) for count in range(len(requests) + 1)]
            since = plan.hidden_since([opinion.read_change(request) for request in requests], event)
            # the first request from which on the event stays hidden to the end
            self.assertEqual(since, next(place for place in range(len(requests)) if all(hidden[place + 1:])))
            # "before which the event was not hidden", it "adds its type to its address and instance", "no request behind it clears that type there"
            self.assertFalse(hidden[since])
            change = opinion.read_change(requests[since])
            self.assertTrue(change.adds and change.key == key and change.mask & bit)
            later = [opinion.read_change(request) for request in requests[since + 1:]]
            self.assertFalse([change for change in later if not change.adds and change.key == key and change.mask & bit])
            found += since > 0
        self.assertGreater(found, 500)

    def test_plans_of_the_page(self):
        for requests, text, answer in STATED_PLANS:
            files = {"plan": bytes.fromhex(requests), "wanted": text.encode("ascii")}
            self.assertEqual(plan_printed(["--list", "plan", "wanted"], files), (answer.encode("ascii"), b""))
            short = answer[:answer.index("filters left: " if "filters left: " in answer else "filters before ")]
            self.assertEqual(plan_printed(["plan", "wanted"], files), (short.encode("ascii"), b""))
        for words, line in STATED_FAULTS:
            self.assertEqual(plan_printed(words, {}), (b"", b"plan: " + line.encode("ascii") + b"\n"))
        self.assertEqual(plan_printed([], {}), plan_printed(["--help", "plan"], {}))

    def test_wanted_lists(self):
        def events(text):
            try:
                return plan.events_of(b"W", text)
            except plan.Wrong as wrong:
                return wrong.line.decode("ascii")
        for text, found in [
                (b"", []), (b"\n", []), (b" \t\r\n# 1\n\t#2 3 4\n", []), (b"1 2 3", [(1, 2, 3)]), (b"01\r002\t 0003\n255 0 255\n", [(1, 2, 3), (255, 0, 255)]),
                (b"1 2", "W, line 1: " + NOT_A_LINE), (b"1 2 3\n\n#\n1 2 3 4\n1", "W, line 4: " + NOT_A_LINE), (b"1 2 256", "W, line 1: " + NOT_A_LINE),
                (b"\n+1 2 3", "W, line 2: " + NOT_A_LINE), (b"1 2 3#", "W, line 1: " + NOT_A_LINE), (b"1\x0B2 3", "W, line 1: " + NOT_A_LINE)]:
            self.assertEqual(events(text), found)
        # each bad line alone; the good texts of the runs, as events written in the plainest way
        for line in plans.BAD_LINES:
            self.assertEqual(events(b"#\n" + line + b"\n"), "W, line 2: " + NOT_A_LINE)
        for text in plans.GOOD_TEXTS.values():
            self.assertEqual(events(plans.text_of(events(text))), events(text))

    def test_files_of_runs(self):
        found = plans.contents()
        kinds = [plans.good_plans(), plans.bad_plans(), plans.large_plans(), plans.GOOD_TEXTS, plans.bad_texts(), plans.large_texts()]
        self.assertEqual(len(found), 3 + sum(len(list(kind)) for kind in kinds))
        sizes = [len(run) for run in found.values()]
        self.assertTrue(sizes.count(1048576) > 1 and sizes.count(1048577) > 1)
        numbers = {opinion.filters_left(b"".join(requests))[1][0] for _, requests in plans.bad_plans()}
        self.assertEqual(numbers, {*range(1, 8), 18, 19})
        self.assertFalse([name for name, requests, _ in plans.good_plans() if opinion.filters_left(b"".join(requests))[1]])

    def test_clocks_by_pattern(self):
        bench, seen = opinion.Bench(), set()
        for name, head, text, line in asked_clocks():
            if name == "write_clock":
                continue
            answer = bench.answer(line.encode("ascii"))
            if name == "clock":
                number, told = told_by_pattern(head[0] != 0, text)
                self.assertEqual(answer.split(" ")[0], str(number), line)
                if number == 0:
                    time, weekdays, day, month, year, offset = told
                    words = "0 time %d %d %d weekdays %02X day %d month %d year %d offset " % (time.hour, time.minute, time.second, weekdays, day, month, year)
                    if offset is None:
                        words += "absent"
                    else:
                        words += "%s %d %d %d" % ("earlier" if offset < 0 else "later", abs(offset) // 3600, abs(offset) // 60 % 60, abs(offset) % 60)
                    self.assertEqual(answer, words, line)
            else:
                self.assertEqual(answer, told_of_day(head[0] != 0, 256 * head[1] + head[2], *head[3:], text), line)
            seen.add(name + " " + " ".join(answer.split(" ")[:2 if name == "clock_runs" else 1]))
        self.assertEqual(seen, {"clock 0", "clock 21", "clock 22", "clock_runs 0 second", "clock_runs 0 idle", "clock_runs 21", "clock_runs 22"})

    def test_clocks_there_and_back(self):
        texts, fields = set(), set()
        for name, head, text, _ in asked_clocks():
            if name == "write_clock":
                fields.add(head)
            else:
                texts.add(text)
        # "write clocks back too, and get the same text": of every text that is read, into just its bytes, and none of one byte less
        read = 0
        for text in texts:
            number, found = answered(opinion.read_clock, len(text) > 20, text)
            if number == 0:
                read += 1
                buffer = bytearray(len(text) + 2)
                self.assertEqual((opinion.write_clock(found, buffer), bytes(buffer)), (len(text), text + bytes(2)))
                self.assertEqual(answered(opinion.write_clock, found, bytearray(len(text) - 1))[0], 8)
                # and no text is read as both kinds
                self.assertEqual(answered(opinion.read_clock, len(text) <= 20, text)[0], 21)
        self.assertGreater(read, 1500)
        # of every clock that is written, the text is read as that clock
        for head in fields:
            buffer = bytearray(30)
            number, count = answered(opinion.write_clock, opinion.clock_of(head), buffer)
            if number == 0:
                self.assertEqual(opinion.read_clock(head[7] != 0, bytes(buffer[:count])), opinion.clock_of(head))
            else:
                self.assertEqual((number, buffer), (22, bytearray(30)))

    def test_every_time_and_offset(self):
        # later and earlier: "+ 30 min" of 20:38:49 is 21:08:49, and so is each of the others by arithmetic
        for offset in range(0, 86400, 61):
            words = "%02d:%02d:%02d" % (offset // 3600, offset // 60 % 60, offset % 60)
            for sign, second in [("", 43200 + offset), ("-", 43200 - offset)]:
                text = ("12:00:00 7F 00/00/00 " + sign + words).encode("ascii")
                if sign and offset == 0:
                    self.assertEqual(answered(opinion.run_of_clock, True, (2026, 3, 1), 0, text), (22, None))
                else:
                    self.assertEqual(opinion.run_of_clock(True, (2026, 3, 1), 0, text), second)
            self.assertEqual(opinion.run_of_clock(False, (2026, 3, 1), 0, words.encode("ascii") + b" 01 00/00/00"), offset)

    def test_calendar(self):
        days, date = [], datetime.date(2000, 1, 1)
        while date.year < 2100:
            days.append((date.year, date.month, date.day))
            date += datetime.timedelta(days=1)
        self.assertEqual(len(days), 36525)
        found = [(year, month, day) for year in range(2000, 2100) for month in range(14) for day in range(256) if opinion.date_exists(year, month, day)]
        self.assertEqual(found, days)
        self.assertFalse([month for month in range(13, 256) if opinion.date_exists(2024, month, 1)])
        # weekdays, 0 to 6 from Sunday, and the days beside each
        reckoned = [clock.weekday_of(day) for day in days]
        self.assertEqual(reckoned, [datetime.date(*day).isoweekday() % 7 for day in days])
        self.assertEqual(reckoned, [(6 + place) % 7 for place in range(36525)])
        self.assertEqual([clock.day_after(day) for day in days], days[1:] + [(2100, 1, 1)])
        self.assertEqual([clock.day_before(day) for day in days], [(1999, 12, 31)] + days[:-1])
        for year in list(range(1, 2500)) + [4000, 9999]:
            self.assertEqual(opinion.is_leap(year), datetime.date(year, 3, 1) - datetime.date(year, 2, 28) == datetime.timedelta(days=2))
        self.assertTrue(opinion.is_leap(0))

    def test_weeks_of_clocks(self):
        # a clock of one weekday runs every seventh day, one of all every day, and one that is switched off on none
        days = [(2024, month, day) for month in range(1, 13) for day in range(1, 32) if opinion.date_exists(2024, month, day)]
        for weekdays in [1, 8, 64, 0x7F, 0x80, 0xFF, 0]:
            text = b"06:07:08 %02X 00/00/00" % weekdays
            ran = [place for place, day in enumerate(days) if opinion.run_of_clock(False, day, clock.weekday_of(day), text) is not None]
            self.assertEqual(len(ran), {1: 52, 8: 52, 64: 52, 0x7F: 366}.get(weekdays, 0))
        # restricted to a day of the month, to a month, to both, and to one that no year has
        for date, count in [("01/00/00", 12), ("31/00/00", 7), ("30/00/00", 11), ("29/00/00", 12), ("00/02/00", 29), ("29/02/00", 1), ("29/02/24", 1),
                            ("29/02/23", 0), ("30/02/00", 0), ("00/00/24", 366), ("00/00/23", 0)]:
            ran = [day for day in days if opinion.run_of_clock(False, day, 0, b"06:07:08 7F " + date.encode("ascii")) is not None]
            self.assertEqual(len(ran), count, date)

    def test_calls_of_clocks(self):
        self.assertEqual(opinion.Bench().answer(b"help").split(" ")[-5:], ["plan", "clock", "clock_runs", "write_clock", "help"])
        self.assertEqual([number for number in range(256) if number in opinion.REFUSAL_NAMES], list(range(23)))

    def test_clocks_of_the_page(self):
        for date, text, rows, said in STATED_CLOCKS:
            self.assertEqual(clock_printed([date], text.encode("ascii")), (rows.encode("ascii"), said.encode("ascii")))
        for words, line in STATED_DATE_FAULTS:
            self.assertEqual(clock_printed(words), (b"", b"clock: " + line.encode("ascii") + b"\n"))
        out, said = clock_printed([])
        self.assertEqual((out, said.split(b"\n")[0]), (b"", b"Usage: clock DATE"))
        self.assertEqual(clock_printed(["--help", "2026-03-01"]), (out, said))
        self.assertEqual(clock_printed(["2026-03-01"], b"\n" * 1048576), (ROWS.encode("ascii"), b""))
        self.assertEqual(clock_printed(["2026-03-01"], b"\n" * 1048577), (b"", b"clock: standard input has more than 1048576 bytes\n"))
        # every `at` is the second counted from the date's midnight
        for date in ["2000-01-01", "2024-02-29", "2024-03-01", "2026-12-31", "2099-12-31"]:
            midnight = datetime.datetime.strptime(date, "%Y-%m-%d")
            for second in list(range(-86399, 172799, 997)) + [-1, 0, 1, 86399, 86400, 86401, 172798]:
                moment = (midnight + datetime.timedelta(seconds=second)).strftime("%Y-%m-%d %H:%M:%S")
                self.assertEqual(clock.at_text(tuple(int(part) for part in date.split("-")), second), moment)

    def test_clocks_of_runs(self):
        runs = list(clocks.runs())
        sizes = [len(run.given) for run in runs if isinstance(run.given, bytes)]
        self.assertTrue(sizes.count(1048576) > 1 and sizes.count(1048577) > 1)
        answers, faults = set(), set()
        for run in runs:
            out, said = clocks.expected(run)
            answers.update(row.split(b",")[1] for row in out[:100000].split(b"\n")[1:-1])
            if not out:
                faults.add(said.split(b": ")[1].rstrip(b"\n"))
            # where it cannot be written, nothing else is said
            self.assertFalse(run.full and said.count(b"\n") > 1)
        self.assertEqual(answers, {b"runs", b"idle", b"21 NOT_A_CLOCK", b"22 OUT_OF_RANGE"})
        self.assertEqual(faults, {b"no such option", ONE_WANTED.encode("ascii"), b"the argument is too long", b"DATE is not a date as in 2026-03-02",
                                  b"DATE is a date that does not exist",
                                  b"DATE is a date before 2000-01-01 or behind 2099-12-31", b"reading standard input failed",
                                  b"standard input has more than 1048576 bytes",
                                  b"writing standard output failed"})

    def test_cases_of_clocks(self):
        asked = {name: [call[1:3] for call in asked_clocks() if call[0] == name] for name in ["clock", "clock_runs", "write_clock"]}
        lengths = {len(text) for _, text in asked["clock"]}
        self.assertLessEqual(set(range(41)), lengths)
        self.assertEqual({head[0] for head, _ in asked["clock"] + asked["clock_runs"]}, set(range(256)))
        texts = {text for _, text in asked["clock"]}
        for text in (text.encode("ascii") for text in cases.SOURCE_CLOCKS):
            self.assertLessEqual({cases.replaced(text, place, value) for place in range(len(text)) for value in range(256)}, texts)
        dates = {(256 * head[1] + head[2], head[3], head[4]) for head, _ in asked["clock_runs"]}
        self.assertLessEqual({(year, month, day) for year in [2023, 2024] for month in range(14) for day in range(33)}, dates)
        self.assertLessEqual({(year, 2, 29) for year in [0, 65535, *range(1998, 2102)]}, dates)
        days = {(text[9:11], head[5]) for head, text in asked["clock_runs"] if head[0] == 0 and len(text) == 20}
        self.assertLessEqual({(b"%02X" % (1 << bit), weekday) for bit in range(8) for weekday in [*range(9), 255]}, days)
        seconds = {answered(opinion.clock_runs_fields, *given)[1][-1] for given in asked["clock_runs"] if answered(opinion.clock_runs_fields, *given)[0] == 0}
        self.assertLessEqual({"idle", -86399, -1, 0, 1, 86399, 86400, 172798}, seconds)
        sizes = {(head[7] and min(head[7], 2), len(buffer)) for head, buffer in asked["write_clock"]}
        self.assertLessEqual({(kind, size) for kind in range(3) for size in range(35)}, sizes)

    def test_boundaries_that_do_not_rise(self):
        capture = empty_capture(1, 30)
        for boundaries in [[first, second, third] for first in range(4) for second in range(4) for third in range(4)]:
            rising = len(set(boundaries)) == 3 and sorted(boundaries) == boundaries
            number = answered(lambda *given: capture.seasons(*given), opinion.Corridor(cases.MAC, 1, 2), boundaries)[0]
            self.assertEqual(number, 0 if rising else 20)

    def test_printed_requests(self):
        bench = opinion.Bench()
        printed = [frame for frame in cases.printed_frames() if frame[:1] == b"\x04"]
        for frames, counts in [(printed, PRINTED_REQUESTS), ([cases.resummed(frame) for frame in printed], MENDED_REQUESTS)]:
            numbers = [bench.answer(cases.call("request", frame).encode("ascii")).split()[0] for frame in frames]
            self.assertEqual({number: numbers.count(number) for number in numbers}, counts)
        self.assertIn(cases.PRINTED_COLOUR, printed)

    def test_printed_events(self):
        bench = opinion.Bench()
        printed = [frame for frame in cases.printed_frames() if frame[:1] == b"\x5A"]
        for frames in [printed, [cases.resummed(frame) for frame in printed]]:
            self.assertEqual([bench.answer(cases.call("event", frame).encode("ascii")) for frame in frames], PRINTED_EVENTS)
        for frame in frames:
            self.assertEqual(bench.answer(cases.call("event_two", frame).encode("ascii"))[:2], "0 ")

    def test_printed_frames(self):
        frames = cases.printed_frames()
        self.assertEqual(len(frames), FRAMES_PRINTED)
        self.assertEqual(sum(frame != cases.resummed(frame) for frame in frames), WRONG_SUMS)


if __name__ == "__main__":
    unittest.main()
