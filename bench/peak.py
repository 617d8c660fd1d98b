"""The most memory that a program has resident while it reads a file through a pipe, in KiB: python3 bench/peak.py FILE PROGRAM WORDS...

It is asked of the system (VmHWM in /proc) when the program has read all bytes and waits for more; then the pipe is closed. Where the system
does not say, or the program ends before, it prints `?`.
"""
import array
import fcntl
import re
import shutil
import subprocess
import sys
import termios
import time


def left(pipe):
    """How many bytes of a pipe are not read yet."""
    count = array.array('i', [0])
    fcntl.ioctl(pipe, termios.FIONREAD, count)
    return count[0]


def status(program):
    """What the system says of a program that runs."""
    with open(f'/proc/{program.pid}/status', encoding='ascii', errors='replace') as page:
        return page.read()


def peak(program, file):
    with open(file, 'rb') as given:
        shutil.copyfileobj(given, program.stdin)
    program.stdin.flush()
    while program.poll() is None and (left(program.stdin) or not re.search(r'^State:\s+S', status(program), flags=re.M)):
        time.sleep(0.01)
    return re.search(r'^VmHWM:\s+(\d+) kB', status(program), flags=re.M)


def main(words):
    if len(words) < 2:
        print(__doc__.strip(), file=sys.stderr)
        return 2
    with subprocess.Popen(words[1:], stdin=subprocess.PIPE, stdout=subprocess.DEVNULL, stderr=subprocess.DEVNULL) as program:
        try:
            found = peak(program, words[0])
        except OSError:
            found = None
        try:
            program.stdin.close()
        except OSError:
            pass
    print(found.group(1) if found else '?')
    return 0


sys.exit(main(sys.argv[1:]))
