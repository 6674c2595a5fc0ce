"""Pages kept in a mapped file of 4 MiB, as bindings/c/mapped_example.c does it: starts as page_index says; then a line
`key value` of standard input puts a page, and `key` alone removes it. The key is printed when that is done: from then
on the page is as it was told, also if the process is killed. What is refused is said on standard error.

    python3 bindings/python/example.py FILE
    python3 bindings/python/example.py --version
"""
import fcntl
import mmap
import os
import stat
import sys

import page_index
from page_index import Refusal, Refused

DEPTH, SEGMENTS = 12, 4032
BYTES = 8 * page_index.words_for(DEPTH, SEGMENTS)
LONGEST = 255


def open_locked(path):
    """Opens the file, or makes it, for this process alone. A FIFO is not waited for, and what is no regular file is
    left alone."""
    file = os.fdopen(os.open(path, os.O_RDWR | os.O_CREAT | os.O_NONBLOCK, 0o666), "r+b", buffering=0)
    if not stat.S_ISREG(os.fstat(file.fileno()).st_mode):
        sys.exit(f"{path}: no regular file")
    try:
        fcntl.flock(file, fcntl.LOCK_EX | fcntl.LOCK_NB)
    except BlockingIOError:
        sys.exit(f"{path}: another process has locked it")
    if os.fstat(file.fileno()).st_nlink == 0:
        sys.exit(f"{path}: another process has removed it just now")
    return file


def take_space(path, file):
    """Gives a file of no bytes its length, and takes the space of every file. Stops where it has another length than
    ours, and where the disk is full: that is said here, since a store into memory cannot say it."""
    length = os.fstat(file.fileno()).st_size
    if length not in (0, BYTES):
        sys.exit(f"{path}: it has {length} bytes, and an index of this shape {BYTES}")
    # A file made just now has no bytes, nor has one whose maker was killed here. The new bytes are 0.
    file.truncate(BYTES)
    try:
        os.posix_fallocate(file.fileno(), 0, BYTES)
    except OSError:
        # A new file is new again.
        file.truncate(length)
        raise


def say(text):
    print(text, file=sys.stderr)


def start(words):
    """Formats a new file, whose words are all 0, and mends every other one. What the mend refuses is not formatted."""
    if page_index.is_new(words):
        page_index.format(words, DEPTH, SEGMENTS)
        say("formatted")
    else:
        say(f"mended: {page_index.mend(words)} stores")


def merges(words, key):
    """Whether a merge at the key is done."""
    try:
        page_index.merge(words, key)
        return True
    except Refused as refused:
        if refused.refusal in (Refusal.NO_BUDDY, Refusal.BOTH_LIVE):
            return False
        raise


def merge_all(words):
    """Merges until nothing merges, and answers how many segments came free."""
    merged, more = 0, 1
    while more:
        more = sum(merges(words, 16 * i + 1) for i in range(2**DEPTH))
        merged += more
    say(f"merged: {merged} segments came free")
    return merged


def change(words, key, value):
    """A put, or a remove where there is no value; whether the page was there."""
    if value is None:
        return page_index.remove(words, key) is not None
    page_index.put(words, key, value)
    return True


def change_surely(words, key, value):
    """The same, with what a refusal asks for: behind 4 and 7 a mend, behind 6 merges, and the call once more."""
    try:
        return change(words, key, value)
    except Refused as refused:
        if refused.refusal in (Refusal.UNMENDED, Refusal.CUT_OFF):
            page_index.mend(words)
        elif refused.refusal != Refusal.NO_SEGMENT or merge_all(words) == 0:
            raise
    return change(words, key, value)


def number_of(field):
    """The number of a field, or None where it is none below 2^64."""
    digits = field.lstrip(b"0") or b"0"
    number = int(digits) if field.isdigit() and len(digits) <= 20 else 2**64
    return number if number < 2**64 else None


def call_of(line):
    """The key of a line, and its value or None; None where the line is neither `key value` nor `key`."""
    numbers = [number_of(field) for field in line.split()]
    if None in numbers or len(numbers) not in (1, 2):
        return None
    return (*numbers, None)[:2]


def lines_of(text):
    """The lines of a text. Of one that is longer than every call the rest is passed over: it may have no end."""
    while line := text.readline(LONGEST):
        if len(line) == LONGEST and not line.endswith(b"\n"):
            line, rest = b"?", line
            while rest and not rest.endswith(b"\n"):
                rest = text.readline(LONGEST)
        yield line


def run_line(words, number, line):
    """Makes the call of a line, and says how it ended. A damaged index ends the program."""
    call = call_of(line)
    if call is None:
        return say(f"line {number}: neither `key value` nor `key`")
    try:
        done = change_surely(words, *call)
    except Refused as refused:
        if refused.refusal in (Refusal.NO_STORE, Refusal.BROKEN):
            raise
        return say(f"line {number}: {refused}")
    if not done:
        return say(f"line {number}: absent")
    # From here on the caller may count on it.
    print(call[0], flush=True)


def main(path):
    with open_locked(path) as file:
        take_space(path, file)
        with mmap.mmap(file.fileno(), BYTES) as words:
            start(words)
            for number, line in enumerate(lines_of(sys.stdin.buffer), 1):
                run_line(words, number, line)
            print(sum(len(block) for block in page_index.blocks(words)), "pages")


if __name__ == "__main__":
    if len(sys.argv) != 2:
        sys.exit("usage: example.py FILE")
    if sys.argv[1] == "--version":
        print("example.py", page_index.__version__)
        sys.exit()
    try:
        main(sys.argv[1])
    except (Refused, OSError) as error:
        sys.exit(f"{sys.argv[1]}: {error}")
