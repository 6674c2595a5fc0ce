"""The month board: the pages scanned for each job, in an array of its own. It is an index whose keys are
year * 65536 + month * 4096 + number, so page_index.format makes the array, page_index.mend mends it, and
page_index.merge with a job's key gives a segment back. After a cut read and print are right at once, and
say what they say after the mending; set and remove wait for the mend.

What page_index says of words, answers, the start, power cuts and files holds for the board. Every job gets
an answer: ahead of all other refusals come BAD_YEAR, BAD_MONTH and BAD_NUMBER, in this order, with no
store made and nothing changed.

How many jobs. In 4 MiB (D = 12, S = 4,032), with the numbers 0 to n - 1 in every month from January 2026
on, in rising order: the jobs until a set is refused for the first time, the number of the refusal, and when
that is. Then for how many whole years an array is enough, with 2026, 2027, 2028 or 2029 as the first, and
with the jobs of each year in rising or in random order; more than 64 were not tried. bench/board.cpp works it
out.

          n       jobs  code  refused   years
         50    115,229     5  Jan 2218      64
        100    104,515     5  Feb 2113      64
        128    196,736     5  Feb 2154      64
        200    154,000     5  Mar 2090       3
        256    197,120     5  Mar 2090       3
        300     14,714     5  Feb 2030       3
        500     18,520     5  Feb 2029       3
      1,000     40,541     5  May 2029       3
      2,000     96,000     5  Jan 2030       3
      4,096    196,608     5  Jan 2030       3

Where a job goes is taken from 16 bits of its folded key, and there are four slots for each value of these
bits. Folding lays bit 0 of the year over bit 6 of the number, and so on, bit 5 over bit 11. With up to 64
numbers each of 64 years has places of its own; with up to 128 two years share their places, with up to 256
four, and with more than 256 eight or more. Four years fill four slots, and only jobs that come in rising
order find each its own. So take another array every three years; or every 64, where no month has other
numbers than 0 to 127.

>>> import month_board, page_index
>>> from month_board import Job
>>> job = Job(year=2026, month=3, number=7)
>>> words = bytearray(8 * page_index.words_for(depth=2, segments=4))
>>> page_index.format(words, depth=2, segments=4)
67
>>> month_board.set(words, job, 250)
2
>>> month_board.set(words, Job(2026, 1, 4095), 0)
2
>>> month_board.set(words, Job(2027, 3, 7), 99)
2
>>> month_board.read(words, job)
250
>>> page_index.get(words, 2026 * 65536 + 3 * 4096 + 7)
250
>>> month_board.print(words, 2026)
b'Jan\\t4095\\t0\\nMar\\t7\\t250\\n'
>>> month_board.remove(words, job)
1
>>> month_board.remove(words, job) is None
True
>>> month_board.print(words, 2028)
b''
>>> month_board.read(words, Job(2026, 13, 4096))
Traceback (most recent call last):
page_index.Refused: refused (12: BAD_MONTH) after 0 stores
"""
import ctypes
import typing

from page_index import ALL, _allowance, _call, _function, _Length, _number, _Stores, _Word

# A year has 12 * 4,096 jobs, and a line at most 3 + 1 + 4 + 1 + 20 + 1 bytes: month, tab, number, tab,
# pages, line feed. A buffer of so many bytes is always enough.
_YEAR_BYTES = 12 * 4096 * 30


class Job(typing.NamedTuple):
    """A job: its year (1 to 9999), its month (1 to 12) and its number (0 to 4095)."""

    year: int
    month: int
    number: int


_set = _function("month_board_set", _Word, _Word, _Word, _Word, _Stores)
_read = _function("month_board_read", _Word, _Word, _Word)
_remove = _function("month_board_remove", _Word, _Word, _Word, _Stores)
_print = _function("month_board_print", _Word, ctypes.POINTER(ctypes.c_char), _Length)


def _checked(job):
    """The three numbers of the job."""
    year, month, number = job
    return _number(year, "year"), _number(month, "month"), _number(number, "number of the job")


def set(words, job, pages, allowance=ALL):
    """Sets the pages of the job, as page_index.put does with its key, and answers the number of stores.

    Refused with BAD_YEAR, BAD_MONTH, BAD_NUMBER, NO_STORE, BROKEN, UNMENDED, TOO_DEEP, NO_SEGMENT, CUT_OFF."""
    return _call(_set, words, *_checked(job), _number(pages, "number of pages"), _allowance(allowance)).stores


def read(words, job):
    """The pages of the job, or None where there is no such job. It need not wait for a mend.

    Refused with BAD_YEAR, BAD_MONTH, BAD_NUMBER, NO_STORE, BROKEN."""
    reply = _call(_read, words, *_checked(job))
    return None if reply is None else reply.value


def remove(words, job, allowance=ALL):
    """Takes the job away, and answers the number of stores, 1, or None where there was no such job.

    Refused with BAD_YEAR, BAD_MONTH, BAD_NUMBER, NO_STORE, BROKEN, UNMENDED, CUT_OFF."""
    reply = _call(_remove, words, *_checked(job), _allowance(allowance))
    return None if reply is None else reply.stores


def print(words, year):
    """The jobs of the year as bytes. Each job that read finds is a line: the month's name (Jan to Dec), a
    tab, the number, a tab, the pages, a line feed; months rise, and numbers rise within a month. It need
    not wait for a mend.

    Refused with BAD_YEAR, NO_STORE, BROKEN."""
    lines = (ctypes.c_char * _YEAR_BYTES)()
    reply = _call(_print, words, _number(year, "year"), lines, _YEAR_BYTES)
    return lines[: reply.value]
