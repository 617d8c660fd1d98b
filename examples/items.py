#!/usr/bin/env python3
"""The items of a reply line, by the codec's reader. items.py LIBRARY reads standard input; LIBRARY is libwickanchor.so (README, "To link it")."""
import ctypes
import sys


class Reader(ctypes.Structure):
    _fields_ = [('bytes', ctypes.c_uint8 * 67), ('len', ctypes.c_uint64)]


class Given(ctypes.Structure):
    _fields_ = [('reader', Reader), ('taken', ctypes.c_uint64), ('has_item', ctypes.c_uint8), ('item', ctypes.c_uint8),
                ('count', ctypes.c_uint64), ('bytes', ctypes.c_uint8 * 68)]


wick = ctypes.CDLL(sys.argv[1])
wick.wick_reader.restype = Reader
wick.wick_feed.argtypes, wick.wick_feed.restype = [ctypes.c_uint8, Reader, ctypes.c_char_p, ctypes.c_uint64], Given
wick.wick_close.argtypes, wick.wick_close.restype = [ctypes.c_uint8, Reader], Given
REPLY_LINE = 1


def say(given):
    print(given.item, given.count, bytes(given.bytes[:given.count]).hex().upper())


reader, part = wick.wick_reader(), sys.stdin.buffer.read()
while True:
    given = wick.wick_feed(REPLY_LINE, reader, part, len(part))
    reader, part = given.reader, part[given.taken:]
    if not given.has_item:
        break
    say(given)
while (given := wick.wick_close(REPLY_LINE, reader)).has_item:
    reader = given.reader
    say(given)
