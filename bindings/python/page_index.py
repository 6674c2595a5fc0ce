"""The page index: image numbers (keys) and the places of their scans (values) in an array of 64-bit
words that keeps its contents when the power goes.

It calls the library of bindings/c/page_index.h by ctypes, and needs the folder bindings/python in
PYTHONPATH and the library as libpage_index.so. `tools/archive` writes the archive of the library.
This command, at the root of the repository, makes libpage_index.so of it, and is run again whenever the
archive was written anew:

    gcc -shared -o target/staticlib/libpage_index.so -Wl,--whole-archive target/staticlib/libpage_index.a -Wl,--no-whole-archive

The variable PAGE_INDEX_LIB names another folder to load it from than target/staticlib.

Words. Every function takes the array of words as its first argument: an array('Q'), a bytearray, an
mmap, or any other writable contiguous buffer that begins at a multiple of eight bytes. It is lent to the
library for one call and no longer: in between a bytearray can be resized and an mmap closed. Words are in
the byte order of the machine; bytes behind the last whole word are not lent. Nobody else may write the
words during a call. For the threads of a process the interpreter's lock sees to that (a Python built
without that lock leaves it to the caller); processes that share a file take turns with fcntl.flock.

Answers. Every array and every argument gets an answer; no call touches a word outside the array or keeps
state. A refusal is raised as Refused. Numbers are ints from 0 to 2^64 - 1, an allowance of stores one
from 0 to 2^32 - 1: OverflowError is raised for any other int, TypeError for what is no int.

Sizes and keys. An index of largest directory depth D (2 to 12) with S segments (1 to 2^D) takes
2^(D+1) + 128 * S words, words_for. For 4 MiB, 524,288 words: D = 12, S = 4,032. Every number but 0 is a
key. Where it goes is taken from the low 4 + D bits of its folded key, key ^ key // 1024; no other bits
count. So number pages so that the low bits change: running numbers are good. page_index.h says how many
pages fit, and what to do about TOO_DEEP and NO_SEGMENT.

At start. Format only what is new: in a file, where all words are 0 (is_new). They are in a file made just
now, and stay so to the last store of its first format. Mend all else. Where the mend is refused, stop and
do not format: NO_STORE also means a damaged word 0, one that became 0 too, or too short a length, and
format empties an index. Pass the whole memory, with the same length at each start. (Memory that is no file
may hold anything when it is new: who installs it formats it, once. If its word 0 is 0, a format was cut
off.)

Power cuts. A call makes its stores one word at a time in a fixed order, so that a power cut leaves the
array as an allowance of so many stores would. After a put, a remove, a merge or a mend that was cut off,
by the power or with CUT_OFF, lookups are right at once: get finds every page that was put and
acknowledged, and says of every key what it says after the mending. put, remove, merge, list and
list_block wait: mend until it is done. While an entry of the directory awaits that, they are refused with
UNMENDED and change nothing; where they are not, there was nothing to mend.

Files and power. A mapped file survives a process that is killed at any instruction. A power cut is
survived by memory that takes the stores in program order and keeps them. A file on a disk is not such
memory: the system writes its pages back in any order. To only look at a file, read it into a bytearray, or
map it with mmap.ACCESS_COPY, whose writes never reach the file (of a mapped file with holes a look may need
space on the disk, and end the process where there is none). Nobody may shorten a file while it is mapped. There is
no checksum: NO_STORE and BROKEN tell a word 0 that no index has, and a directory that does not fit
together. Other damage is not noticed, or looks like a split that was cut off; pages may be lost then.

Allowances. Pass none. One that is less than ALL does what a power cut after so many stores does, for
tests: the call is refused with CUT_OFF where more are due. mend then, and make the put or the remove again;
a merge the mend may have finished.

A store of before keys were folded has the mark 0x50414745 in the upper half of word 0, in place of
0x50414746: every call but format refuses it with NO_STORE and changes nothing. It is entered anew: listed
by the library that made it, formatted, and every record put again. What was not listed is lost.

>>> import page_index
>>> from array import array
>>> words = array("Q", bytes(8 * page_index.words_for(depth=2, segments=2)))
>>> page_index.format(words, depth=2, segments=2)
67
>>> page_index.put(words, 7, 70)
2
>>> page_index.get(words, 7)
70

A put that is allowed one store too few is cut off, and the page keeps its place. Lookups may come before
the mend, other calls wait for it.

>>> try:
...     page_index.put(words, 7, 71, allowance=0)
... except page_index.Refused as refused:
...     print(refused)
refused (7: CUT_OFF) after 0 stores
>>> page_index.get(words, 7)
70
>>> page_index.mend(words)
0
>>> page_index.list(words)
[(7, 70)]
>>> page_index.remove(words, 7)
1
>>> page_index.remove(words, 7) is None
True

A seventeenth page for sixteen slots takes a second segment. A merge gives it back.

>>> [page_index.put(words, 7 + 16 * i, i) for i in range(17)][-1]
79
>>> [len(block) for block in page_index.blocks(words)]
[9, 8]
>>> page_index.remove(words, 263)
1
>>> page_index.merge(words, 7)
18
>>> page_index.get(words, 247)
15
"""
import ctypes
import enum
import operator
import os

# The version of this module; the header, the Rust crate and tools/page-index say the same.
__version__ = "0.1.0"

# An allowance that cuts no call off.
ALL = 2**32 - 1

# The words that the records of one block need at most: key and value of 64 slots.
BLOCK_WORDS = 128

_SEGMENT_WORDS = 128
_DONE = 0
_ABSENT = 255


class Refusal(enum.IntEnum):
    """The replies that say no, with their numbers. Bad year, month and number are given by the board alone."""

    # Word 0 is not that of an index, or has the old mark, or the array is too short for it.
    NO_STORE = 1
    # The key is 0.
    NO_KEY = 2
    # The directory is damaged.
    BROKEN = 3
    # A split or a merge was cut off: mend first.
    UNMENDED = 4
    # The key's slots are full, and its segment has the largest depth.
    TOO_DEEP = 5
    # The key's slots are full, and no segment is free.
    NO_SEGMENT = 6
    # More stores were due than allowed.
    CUT_OFF = 7
    # The depth is not 2 to 12, or the number of segments not 1 to 2 to the power of the depth.
    BAD_SHAPE = 8
    # The array has too few words for this shape.
    TOO_SHORT = 9
    # The list array or the board's buffer is too short. These functions lend enough, and never raise it.
    SHORT_LIST = 10
    # The year is not 1 to 9999.
    BAD_YEAR = 11
    # The month is not 1 to 12.
    BAD_MONTH = 12
    # The number of the job is not 0 to 4095.
    BAD_NUMBER = 13
    # One block fills the directory, or the other half of the block one depth shallower is split further.
    NO_BUDDY = 14
    # Some slot has a page in both segments.
    BOTH_LIVE = 15
    # No block begins at this index of the directory.
    NO_LEADER = 16


class Refused(Exception):
    """A refusal, and the number of stores that the call made before it: 0 but for TOO_DEEP, NO_SEGMENT
    and CUT_OFF."""

    def __init__(self, refusal, stores):
        super().__init__(refusal, stores)
        self.refusal = refusal
        self.stores = stores

    def __str__(self):
        return f"refused ({self.refusal:d}: {self.refusal.name}) after {self.stores} stores"


class _Reply(ctypes.Structure):
    """C's `struct page_index_reply`."""

    _fields_ = [("code", ctypes.c_uint32), ("stores", ctypes.c_uint32), ("value", ctypes.c_uint64)]


_Word = ctypes.c_uint64
_Words = ctypes.POINTER(_Word)
_Stores = ctypes.c_uint32
_Length = ctypes.c_size_t


def _load():
    """Loads the library. PyDLL holds the interpreter's lock during a call, so that no other Python thread
    writes the words meanwhile; CDLL would give it up."""
    here = os.path.dirname(os.path.abspath(__file__))
    folder = os.environ.get("PAGE_INDEX_LIB") or os.path.join(here, "..", "..", "target", "staticlib")
    path = os.path.join(os.path.abspath(folder), "libpage_index.so")
    try:
        return ctypes.PyDLL(path)
    except OSError as error:
        raise ImportError(
            f"page_index cannot load {path}, which two commands at the root of the repository make, "
            "`tools/archive` and then `gcc -shared -o target/staticlib/libpage_index.so "
            "-Wl,--whole-archive target/staticlib/libpage_index.a -Wl,--no-whole-archive`, "
            "and which is looked for in another folder where PAGE_INDEX_LIB names one."
        ) from error


_library = _load()


def _function(name, *arguments):
    """A function of the library. The words and their length come first, then these arguments."""
    function = getattr(_library, name)
    function.restype = _Reply
    function.argtypes = [ctypes.c_void_p, _Length, *arguments]
    return function


_format = _function("page_index_format", _Word, _Word, _Stores)
_get = _function("page_index_get", _Word)
_put = _function("page_index_put", _Word, _Word, _Stores)
_remove = _function("page_index_remove", _Word, _Stores)
_mend = _function("page_index_mend", _Stores)
_merge = _function("page_index_merge", _Word, _Stores)
_list = _function("page_index_list", _Words, _Length)
_list_block = _function("page_index_list_block", _Word, _Words, _Length, _Words)

# An array of no words has room in every buffer: it stands for the place where the buffer begins.
_Start = _Word * 0
# Lent in place of a buffer without a whole word, which may have no address.
_spare = _Word()


def _call(function, words, *arguments):
    """Lends the words for one call, and answers its reply, or None for absent; raises the refusal.

    An exception keeps the local variables of this function alive, so the view is given up before any is
    raised: else an mmap could not be closed while the exception is held."""
    view = start = None
    try:
        view = memoryview(words)
        length = view.nbytes // 8
        start = _Start.from_buffer(view)
        address = ctypes.addressof(start if length else _spare)
        if address % 8:
            raise ValueError("the words begin at an address that is not a multiple of 8")
        reply = function(address, length, *arguments)
    finally:
        view = start = None
    if reply.code == _DONE:
        return reply
    if reply.code == _ABSENT:
        return None
    raise Refused(Refusal(reply.code), reply.stores)


def _number(number, name, bits=64):
    """The number as an int of so many bits; ctypes would cut off the others silently."""
    number = operator.index(number)
    if 0 <= number < 1 << bits:
        return number
    raise OverflowError(f"the {name} is not 0 to 2^{bits} - 1")


def _allowance(allowance):
    return _number(allowance, "allowance", 32)


def _records(listed, count):
    """The first records of a list array, as pairs of key and value."""
    numbers = listed[: 2 * count]
    return [*zip(numbers[::2], numbers[1::2])]


def words_for(depth, segments):
    """The words that an index of largest directory depth `depth` with `segments` segments takes:
    2^(depth + 1) + 128 * segments. Refused with BAD_SHAPE where format is."""
    depth, segments = _number(depth, "depth"), _number(segments, "number of segments")
    if not (2 <= depth <= 12 and 1 <= segments <= 2**depth):
        raise Refused(Refusal.BAD_SHAPE, 0)
    return 2 ** (depth + 1) + _SEGMENT_WORDS * segments


def is_new(words):
    """Whether all words are 0, as they are in a file made just now. Such a file is formatted, every other one
    mended. Bytes behind the last whole word do not count."""
    with memoryview(words) as view, view.cast("B") as bytes_of_words:
        length = bytes_of_words.nbytes // 8 * 8
        with bytes_of_words[:length] as whole:
            return whole == bytes(length)


def format(words, depth, segments, allowance=ALL):
    """Makes an empty index of largest directory depth `depth` (2 to 12) with `segments` segments (1 to
    2^depth) of up to 64 pages each, and answers the number of stores, 67.

    Refused with CUT_OFF, BAD_SHAPE, TOO_SHORT."""
    depth, segments = _number(depth, "depth"), _number(segments, "number of segments")
    return _call(_format, words, depth, segments, _allowance(allowance)).stores


def get(words, key):
    """The value of the key, or None where it has none. It need not wait for a mend.

    Refused with NO_STORE, NO_KEY, BROKEN."""
    reply = _call(_get, words, _number(key, "key"))
    return None if reply is None else reply.value


def put(words, key, value, allowance=ALL):
    """Gives the key this value, whether it had one or not, and answers the number of stores: usually 1 or
    2, where segments are split up to 9,764. A new key takes an empty slot; only where none of its sixteen
    slots is empty, one whose record belongs to another segment: a split has copied it there, or a merge
    that was cut off has copied it from there.

    Refused with NO_STORE, NO_KEY, BROKEN, UNMENDED, TOO_DEEP, NO_SEGMENT, CUT_OFF. After TOO_DEEP and
    NO_SEGMENT the stores of splits already made stay, and no page has changed."""
    key, value = _number(key, "key"), _number(value, "value")
    return _call(_put, words, key, value, _allowance(allowance)).stores


def remove(words, key, allowance=ALL):
    """Takes the key's value away, and answers the number of stores, 1, or None where it had none.

    Refused with NO_STORE, NO_KEY, BROKEN, UNMENDED, CUT_OFF."""
    reply = _call(_remove, words, _number(key, "key"), _allowance(allowance))
    return None if reply is None else reply.stores


def mend(words, allowance=ALL):
    """Takes back what a split that was cut off has left in the entries of the directory (one that it
    doubled stays doubled), finishes a merge that was cut off with its first entry stored, and answers the
    number of stores: 0 where there was nothing to do, at most 4,096. A merge that was cut off before that
    has left the directory as it was. No lookup's answer changes, whether the mend is whole or cut off, if
    the words are not damaged.

    Refused with NO_STORE, BROKEN, CUT_OFF."""
    return _call(_mend, words, _allowance(allowance)).stores


def merge(words, key, allowance=ALL):
    """Makes one block of the key's block and its buddy, the other half of the block one depth shallower,
    and answers the number of stores, at most 4,224. The pages of both are in the left segment then, and
    later splits can take the right one. The key, any but 0, stands for its block and need not be stored.
    No page changes, whether the merge is whole or cut off.

    Refused with NO_STORE, NO_KEY, BROKEN, UNMENDED, CUT_OFF, with NO_BUDDY where the block has no buddy of
    its own depth, and then with BOTH_LIVE where some slot has a page in both segments, neither with a
    store. One call joins one pair: after a merge the new block may have a buddy too, so it is called again,
    for this key and for others, until these two are all that it answers. The keys 16 * i + 1 with i in
    range(2**depth), where depth is the largest directory depth, lead to all entries."""
    return _call(_merge, words, _number(key, "key"), _allowance(allowance)).stores


def list(words):
    """Every record as a pair of key and value. Records come block by block from the left of the directory,
    and by rising slot number within a segment; two listings of one untouched index are equal.

    Refused with NO_STORE, BROKEN, UNMENDED."""
    # As many words as the array has are always enough: an index has at most 64 records for each segment of
    # 128 words, and each of them takes two words of the list.
    room = memoryview(words).nbytes // 8
    listed = (_Word * room)()
    reply = _call(_list, words, listed, room)
    return _records(listed, reply.value)


def list_block(words, index):
    """Lists one block, the one that begins at this index of the directory: answers its records as list
    does, and the index at which the next block begins, or None where this was the last. From index 0 on, to
    the last, the records are those of list, in its order, if nobody changes the index in between; blocks
    does that.

    It reads the whole directory. Refused as list is, and then with NO_LEADER where no block begins at the
    index, be it within a block or behind the directory's end."""
    listed, following = (_Word * BLOCK_WORDS)(), _Word()
    place = ctypes.byref(following)
    reply = _call(_list_block, words, _number(index, "index"), listed, BLOCK_WORDS, place)
    # The library names 0 behind the last block.
    return _records(listed, reply.value), following.value or None


def blocks(words):
    """Lists the index block by block, from the left of the directory, each block as a list of its records.
    Joined, the blocks are the records of list, in its order, if nobody changes the index in between; after
    a change blocks may begin elsewhere, and the listing is begun anew.

    Where list_block refuses, that refusal is raised, and the listing ends."""
    index = 0
    while index is not None:
        records, index = list_block(words, index)
        yield records
