"""Makes the streams of the benchmark in a folder, the same bytes on every run: python3 bench/streams.py FOLDER

clean   replies of 0 to 64 data bytes, each with its sum
noise   bytes without a rule
long    a lead at every other place, each with a length of 64 and a sum that fails, so that the reader sums 68 bytes again and again
odd     the same with a length of 59, so that it sums 63
queries requests for the levels of gear, a run that passes the quiet profile
lead-NN leads at every other place with a length of NN and a sum that fails, for each NN from 0 to 64; these have only 16,000 bytes
"""
import pathlib
import sys

SIZE = 1000000


def numbers(seed):
    """Bytes of a linear congruential generator."""
    x = seed
    while True:
        x = (x * 1103515245 + 12345) & 0x7FFFFFFF
        yield (x >> 16) & 0xFF


def clean():
    source = numbers(1)
    stream = bytearray()
    while len(stream) < SIZE:
        n = next(source) % 65
        frame = bytearray([0xA0 + next(source) % 4, next(source), n])
        frame += bytearray(next(source) for _ in range(n))
        total = 0
        for byte in frame:
            total ^= byte
        frame.append(total)
        stream += frame
    return bytes(stream)


def noise():
    source = numbers(2)
    return bytes(next(source) for _ in range(SIZE))


def long():
    return bytes([0xA0, 0xA1, 0x40, 0x40]) * (SIZE // 4)


def odd():
    return bytes([0xA0, 0xA1, 0x3B, 0x3B]) * (SIZE // 4)


def leads(n):
    """Pairs of leads with a pair of lengths behind each. One lead in as many as a frame that begins a pair has is A1, the others A0: so no sum is 0."""
    stream = bytearray()
    turn = (n + 4) // 4 * 2 + (n + 4) % 4
    for i in range(0, 8000, 2):
        stream += bytes([0xA0 + ((i + j) % turn == 0) for j in range(2)] + [n, n])
    return bytes(stream)


def queries():
    stream = bytearray()
    for i in range(SIZE // 8):
        stream += bytes([0x04, i % 256, 0xAA, i % 64, 0, 0, 0, 0x04 ^ (i % 256) ^ 0xAA ^ (i % 64)])
    return bytes(stream)


folder = pathlib.Path(sys.argv[1])
for make in (clean, noise, long, odd, queries):
    (folder / make.__name__).write_bytes(make())
for n in range(65):
    (folder / f'lead-{n:02}').write_bytes(leads(n))
