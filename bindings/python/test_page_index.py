"""Tests of the Python bindings, run at the root of the repository:

    python3 -m unittest discover -s bindings/python
"""
import contextlib
import ctypes
import doctest
import io
import mmap
import os
import pathlib
import pickle
import random
import subprocess
import sys
import tempfile
import unittest
from array import array
from unittest import mock

import example
import month_board
import page_index
from month_board import Job
from page_index import Refusal, Refused

HERE = pathlib.Path(__file__).resolve().parent
C_BINDINGS = HERE.parent / "c"
MOST = 2**64 - 1


def new_index(depth, segments):
    words = array("Q", bytes(8 * page_index.words_for(depth, segments)))
    page_index.format(words, depth, segments)
    return words


def put_all(words, keys):
    for key in keys:
        page_index.put(words, key, 10 * key)


def refused(call, *arguments):
    """The exception of a call that is refused; None where it is done."""
    try:
        call(*arguments)
    except Refused as exception:
        return exception
    return None


def refusal(call, *arguments):
    exception = refused(call, *arguments)
    return exception and exception.refusal


def cut_split():
    """An index of one block of four entries, in which a put of key 267 was cut off within its entries."""
    words = new_index(2, 4)
    put_all(words, range(7, 1030, 64))
    # A key too many doubles the directory twice before it is refused; two merges join the blocks.
    refused(page_index.put, words, 1030, 1)
    page_index.merge(words, 7)
    page_index.merge(words, 7)
    put_all(words, range(11, 267, 16))
    refused(page_index.put, words, 267, 6, 74)
    return words


class Folder(unittest.TestCase):
    """A test with a folder of its own."""

    def setUp(self):
        folder = tempfile.TemporaryDirectory()
        self.addCleanup(folder.cleanup)
        self.folder = pathlib.Path(folder.name)

    def mapped(self, length, access=mmap.ACCESS_WRITE, name="words"):
        """A map of a file of this length, which is made where there is none."""
        path = self.folder / name
        if not path.exists():
            path.write_bytes(bytes(length))
        with open(path, "r+b") as file:
            return mmap.mmap(file.fileno(), length, access=access)


class Report:
    """Writes a line for each call, as bindings/c/example.c does."""

    def __init__(self, words):
        self.words = words
        self.text = ""

    def line(self, call, code=0, stores=0, value=0):
        self.text += f"{call}: code {code}, stores {stores}, value {value}\n"

    def call(self, name, function, *arguments, found=None):
        """Makes a call and writes its line. `found` takes the value from the result, which else is stores."""
        try:
            result = function(self.words, *arguments)
        except Refused as exception:
            self.line(name, exception.refusal.value, exception.stores)
            return None
        if result is None:
            self.line(name, code=255)
        elif found:
            self.line(name, value=found(result))
        else:
            self.line(name, stores=result)
        return result


def the_value(result):
    return result


def list_short(words, room):
    """A list into fewer words than page_index.list lends."""
    return page_index._call(page_index._list, words, (ctypes.c_uint64 * 6)(), room)


def list_block_short(words, index):
    with mock.patch.object(page_index, "BLOCK_WORDS", 6):
        return page_index.list_block(words, index)


def print_short(words, year):
    with mock.patch.object(month_board, "_YEAR_BYTES", 8):
        return month_board.print(words, year)


class Documents(unittest.TestCase):
    """The calls of the examples in C, with their figures."""

    def first_calls(self, report):
        report.call("format", page_index.format, 2, 2)
        report.call("put 7", page_index.put, 7, 70)
        report.call("put 8", page_index.put, 8, 80)
        report.call("put 9, one store allowed", page_index.put, 9, 90, 1)
        report.call("get 9, before the mend", page_index.get, 9, found=the_value)
        report.call("get 7, before the mend", page_index.get, 7, found=the_value)
        report.call("mend", page_index.mend)
        report.call("put 9", page_index.put, 9, 90)
        report.call("get 8", page_index.get, 8, found=the_value)
        report.call("get 10", page_index.get, 10, found=the_value)
        for key, value in report.call("list", page_index.list, found=len):
            report.text += f"key {key}, value {value}\n"
        report.call("remove 8", page_index.remove, 8)
        report.call("get 8", page_index.get, 8, found=the_value)
        report.call("list into no words", list_short, 0)

    def calls_with_two_blocks(self, report):
        for i in range(16):
            page_index.put(report.words, 1 + 16 * i, i)
        report.call("put 257, with a split", page_index.put, 257, 16)
        index = 0
        while index is not None:
            name = f"at index {index}, list block"
            _, index = report.call(name, page_index.list_block, index, found=lambda result: len(result[0]))
        report.call("list block at index 2, behind the last", page_index.list_block, 2)
        report.call("list block into six words", list_block_short, 0)
        report.call("merge 1, 257 in the way", page_index.merge, 1)
        report.call("remove 257", page_index.remove, 257)
        report.call("merge 1", page_index.merge, 1)
        report.call("merge 1, one block left", page_index.merge, 1)

    def test_the_example_in_c(self):
        report = Report(array("Q", bytes(8 * 264)))
        self.first_calls(report)
        self.calls_with_two_blocks(report)
        self.assertEqual(report.text, (C_BINDINGS / "example.out").read_text())

    def print_year(self, report, year):
        lines = report.call(f"print {year}", month_board.print, year, found=len)
        report.text += lines.decode()

    def set_calls(self, report):
        report.call("format", page_index.format, 2, 4)
        report.call("set Dec 4095", month_board.set, Job(2026, 12, 4095), 1200)
        report.call("set Mar 7", month_board.set, Job(2026, 3, 7), 250)
        report.call("set Mar 0", month_board.set, Job(2026, 3, 0), 0)
        report.call("set Mar 7 of 2027", month_board.set, Job(2027, 3, 7), 99)
        report.call("set Jan 10, one store allowed", month_board.set, Job(2026, 1, 10), 64, 1)
        report.call("mend", page_index.mend)
        report.call("set Jan 10", month_board.set, Job(2026, 1, 10), 64)

    def test_the_example_of_the_board_in_c(self):
        report = Report(array("Q", bytes(8 * 520)))
        self.set_calls(report)
        report.call("read Mar 7", month_board.read, Job(2026, 3, 7), found=the_value)
        report.call("read Mar 8", month_board.read, Job(2026, 3, 8), found=the_value)
        self.print_year(report, 2026)
        report.call("remove Mar 7", month_board.remove, Job(2026, 3, 7))
        self.print_year(report, 2026)
        self.print_year(report, 2028)
        report.call("set, year 10000", month_board.set, Job(10000, 13, 4096), 1)
        report.call("read, month 13", month_board.read, Job(2026, 13, 4096))
        report.call("remove, number 4096", month_board.remove, Job(2026, 12, 4096))
        report.call("print into 8 bytes", print_short, 2026)
        self.assertEqual(report.text, (C_BINDINGS / "board_example.out").read_text())

    def test_the_examples_of_the_modules(self):
        for module in (page_index, month_board):
            failed, attempted = doctest.testmod(module, globs={})
            self.assertEqual(failed, 0)
            self.assertGreater(attempted, 10)


class Refusals(unittest.TestCase):
    """Every refusal, once."""

    def check(self, number, stores, call, *arguments):
        exception = refused(call, *arguments)
        self.assertIsNotNone(exception, f"{number} is not raised")
        self.assertIsInstance(exception.refusal, Refusal)
        self.assertEqual((exception.refusal, exception.stores), (number, stores))

    def test_refusals_of_an_array_that_is_none_or_damaged(self):
        self.check(1, 0, page_index.get, array("Q", bytes(8 * 264)), 7)
        words = new_index(2, 2)
        self.check(1, 0, page_index.mend, words[:263])
        self.check(2, 0, page_index.get, words, 0)
        words[1] = 3 << 32
        self.check(3, 0, page_index.list, words)
        for call in (page_index.remove, page_index.merge):
            self.check(4, 0, call, cut_split(), 7)

    def test_refusals_of_a_put(self):
        words = new_index(2, 4)
        put_all(words, range(7, 1030, 64))
        self.check(5, 140, page_index.put, words, 1030, 1)
        words = new_index(2, 1)
        put_all(words, range(7, 263, 16))
        self.check(6, 0, page_index.put, words, 263, 1)
        words = new_index(2, 2)
        put_all(words, range(7, 263, 16))
        self.check(7, 78, page_index.put, words, 263, 1, 78)

    def test_refusals_of_a_format(self):
        words = array("Q", bytes(8 * 264))
        for shape in [(1, 1), (13, 1), (2, 0), (2, 5), (MOST, MOST)]:
            self.check(8, 0, page_index.format, words, *shape)
            self.check(8, 0, page_index.words_for, *shape)
        self.check(9, 0, page_index.format, words[:263], 2, 2)
        self.assertEqual(page_index.words_for(12, 4032), 524288)

    def test_refusals_of_lists_and_merges(self):
        words = new_index(2, 2)
        self.check(14, 0, page_index.merge, words, 7)
        put_all(words, range(1, 258, 16))
        self.check(10, 0, list_short, words, 2)
        self.check(10, 0, list_block_short, words, 0)
        self.check(15, 0, page_index.merge, words, 1)
        self.check(16, 0, page_index.list_block, words, 2)
        self.check(16, 0, page_index.list_block, words, 2**32)

    def test_refusals_of_the_board(self):
        words = new_index(2, 4)
        for call, more in ((month_board.set, (5,)), (month_board.read, ()), (month_board.remove, ())):
            for year in (0, 10000, MOST):
                self.check(11, 0, call, words, Job(year, 0, 4096), *more)
            for month in (0, 13, MOST):
                self.check(12, 0, call, words, Job(2026, month, 4096), *more)
            for number in (4096, MOST):
                self.check(13, 0, call, words, Job(2026, 12, number), *more)
        self.check(11, 0, month_board.print, words, 0)

    def test_what_a_refusal_says(self):
        exception = refused(page_index.put, new_index(2, 2), 7, 70, 1)
        self.assertEqual(str(exception), "refused (7: CUT_OFF) after 1 stores")
        again = pickle.loads(pickle.dumps(exception))
        self.assertEqual((again.refusal, again.stores, str(again)), (7, 1, str(exception)))

    def test_a_refusal_ends_the_blocks(self):
        blocks = page_index.blocks(cut_split())
        self.assertEqual(refusal(next, blocks), Refusal.UNMENDED)
        self.assertIsNone(next(blocks, None))


class Words(Folder):
    """Buffers of all kinds, and what stays of them behind a call."""

    def test_every_kind_of_buffer_holds_the_same_words(self):
        size = 8 * page_index.words_for(2, 2)
        kinds = [array("Q", bytes(size)), array("B", bytes(size)), bytearray(size), self.mapped(size),
                 memoryview(bytearray(size + 8))[8:], (ctypes.c_uint64 * 264)()]
        for words in kinds:
            page_index.format(words, 2, 2)
            put_all(words, range(7, 264, 16))
            self.assertEqual(page_index.get(words, 263), 2630)
            self.assertEqual(bytes(words), bytes(kinds[0]))
        kinds[3].close()

    def test_a_file_is_read_through_another_map(self):
        words = self.mapped(8 * 520)
        page_index.format(words, 2, 4)
        put_all(words, [7, 8, MOST // 10])
        words.close()
        again = self.mapped(8 * 520)
        self.assertEqual(sorted(page_index.list(again)), [(7, 70), (8, 80), (MOST // 10, MOST // 10 * 10)])
        self.assertEqual(page_index.remove(again, 8), 1)
        again.close()
        self.assertEqual(page_index.get(bytearray((self.folder / "words").read_bytes()), 8), None)

    def test_a_full_index_is_listed(self):
        words = new_index(2, 1)
        put_all(words, range(1, 65))
        records = [(key, 10 * key) for key in range(1, 65)]
        self.assertEqual(sorted(page_index.list(words)), records)
        self.assertEqual(page_index.list_block(words, 0), (page_index.list(words), None))

    def test_a_copied_map_leaves_the_file(self):
        self.mapped(8 * 264).close()
        words = self.mapped(8 * 264, mmap.ACCESS_COPY)
        page_index.format(words, 2, 2)
        self.assertEqual(page_index.put(words, 7, 70), 2)
        words.close()
        self.assertEqual((self.folder / "words").read_bytes(), bytes(8 * 264))

    def test_bytes_behind_the_last_word_are_not_lent(self):
        self.assertEqual(refusal(page_index.format, bytearray(8 * 264 - 1), 2, 2), Refusal.TOO_SHORT)
        words = bytearray(b"\xff" * (8 * 264 + 7))
        self.assertEqual(page_index.format(words, 2, 2), 67)
        put_all(words, range(1, 258, 16))
        self.assertEqual(words[8 * 264:], b"\xff" * 7)

    def test_an_empty_buffer_is_no_store(self):
        for words in (bytearray(), array("Q"), bytearray(7), memoryview(bytearray(16))[1:8]):
            for call, more in ((page_index.get, (7,)), (page_index.put, (7, 70)), (page_index.list, ()),
                               (page_index.list_block, (0,)), (month_board.print, (2026,))):
                self.assertEqual(refusal(call, words, *more), Refusal.NO_STORE)
            self.assertEqual(refusal(page_index.format, words, 2, 2), Refusal.TOO_SHORT)

    def test_words_that_are_not_aligned_are_refused(self):
        room = bytearray(8 * 264 + 8)
        shifted = bytearray(8 * 264 + 8)
        del shifted[:1]
        for words in [shifted] + [memoryview(room)[start:] for start in range(1, 8)]:
            with self.assertRaisesRegex(ValueError, "^the words begin at .* multiple of 8$"):
                page_index.format(words, 2, 2)
            self.assertEqual(bytes(words), bytes(len(words)))

    def test_what_cannot_be_written_is_refused(self):
        words = bytes(new_index(2, 2))
        self.mapped(8 * 264).close()
        for readonly in (words, b"", memoryview(words), self.mapped(8 * 264, mmap.ACCESS_READ)):
            with self.assertRaisesRegex(TypeError, "not writable"):
                page_index.get(readonly, 7)
        with self.assertRaisesRegex(TypeError, "not C contiguous"):
            page_index.get(memoryview(array("Q", words))[::2], 7)
        for other in (None, 7, [0] * 264, "words"):
            with self.assertRaises(TypeError):
                page_index.get(other, 7)

    def test_a_bytearray_is_resized_between_calls(self):
        words = bytearray(8 * 264)
        page_index.format(words, 2, 2)
        held = [refused(page_index.merge, words, 7)]
        for call in (page_index.get, page_index.remove):
            words.extend(bytes(8))
            self.assertIsNone(call(words, 7))
        for call, more in ((page_index.get, (0,)), (page_index.list_block, (1,)), (month_board.print, (0,))):
            held.append(refused(call, words, *more))
            words.extend(bytes(8))
        blocks = page_index.blocks(words)
        self.assertEqual(next(blocks), [])
        del words[8 * 263:]
        held.append(refused(page_index.list, words))
        words.clear()
        self.assertNotIn(None, held)

    def test_a_map_is_closed_while_a_refusal_is_held(self):
        calls = [(page_index.get, 7), (page_index.put, 7, 70), (page_index.list,), (page_index.list_block, 0),
                 (month_board.read, Job(2026, 1, 0)), (month_board.print, 2026), (page_index.format, 1, 1)]
        for call, *more in calls:
            words = self.mapped(8 * 264)
            exception = refused(call, words, *more)
            words.close()
            self.assertIsNotNone(exception.__traceback__)
            with self.assertRaises(ValueError):
                call(words, *more)

    def test_a_map_is_closed_while_another_exception_is_held(self):
        self.mapped(8 * 264).close()
        for access, arguments in ((mmap.ACCESS_READ, (7,)), (mmap.ACCESS_WRITE, (-1,)),
                                  (mmap.ACCESS_WRITE, (1.5,))):
            words = self.mapped(8 * 264, access)
            try:
                page_index.get(words, *arguments)
            except (TypeError, OverflowError) as exception:
                held = exception
            words.close()
            self.assertIsNotNone(held.__traceback__)
            del held

    def test_an_unaligned_buffer_is_given_up_while_its_exception_is_held(self):
        words = bytearray(8 * 264)
        del words[:1]
        try:
            page_index.get(words, 7)
        except ValueError as exception:
            held = exception
        words.clear()
        self.assertIsNotNone(held.__traceback__)

    def test_no_other_thread_of_python_runs_during_a_call(self):
        self.assertIs(type(page_index._library), ctypes.PyDLL)


class Arguments(unittest.TestCase):
    """Numbers are taken as they are or refused, never cut."""

    def calls(self):
        """A call for each number that is to be less than 2^64, as a function of it."""
        words = new_index(2, 4)
        return [
            lambda number: page_index.format(words, number, 2),
            lambda number: page_index.format(words, 2, number),
            lambda number: page_index.words_for(number, 2),
            lambda number: page_index.words_for(2, number),
            lambda number: page_index.get(words, number),
            lambda number: page_index.put(words, number, 70),
            lambda number: page_index.put(words, 7, number),
            lambda number: page_index.remove(words, number),
            lambda number: page_index.merge(words, number),
            lambda number: page_index.list_block(words, number),
            lambda number: month_board.set(words, Job(2026, 1, 1), number),
            lambda number: month_board.print(words, number),
            *self.job_calls(words),
        ]

    def job_calls(self, words):
        jobs = [lambda number: Job(number, 1, 1), lambda number: Job(2026, number, 1),
                lambda number: Job(2026, 1, number)]
        for job in jobs:
            yield lambda number, job=job: month_board.set(words, job(number), 5)
            yield lambda number, job=job: month_board.read(words, job(number))
            yield lambda number, job=job: month_board.remove(words, job(number))

    def allowance_calls(self):
        words, job = new_index(2, 4), Job(2026, 1, 1)
        return [
            lambda number: page_index.format(words, 2, 4, number),
            lambda number: page_index.put(words, 7, 70, number),
            lambda number: page_index.remove(words, 7, number),
            lambda number: page_index.mend(words, number),
            lambda number: page_index.merge(words, 7, number),
            lambda number: month_board.set(words, job, 5, number),
            lambda number: month_board.remove(words, job, number),
        ]

    def check(self, calls, bits):
        for place, call in enumerate(calls):
            for number in (-1, 2**bits, 2**bits + 2, 2**200, 10**5000):
                with self.subTest(place=place, bits=bits), self.assertRaisesRegex(OverflowError, f"2.{bits} - 1$"):
                    call(number)
            for number in (1.5, 2.0, "2", None, b"2"):
                with self.subTest(place=place, number=number), self.assertRaises(TypeError):
                    call(number)
            with contextlib.suppress(Refused):
                call(2**bits - 1)

    def test_numbers_out_of_range(self):
        self.check(self.calls(), 64)
        self.check(self.allowance_calls(), 32)

    def test_whole_numbers_reach_the_library(self):
        words = new_index(2, 4)
        self.assertEqual(page_index.put(words, MOST, MOST), 2)
        self.assertEqual(page_index.put(words, 2**63, 2**63), 2)
        self.assertEqual(page_index.put(words, True, False), 2)
        self.assertEqual(sorted(page_index.list(words)), [(1, 0), (2**63, 2**63), (MOST, MOST)])
        self.assertEqual(page_index.get(words, MOST), MOST)

    def test_what_stands_for_an_int_is_one(self):
        class Seven:
            def __index__(self):
                return 7

        words = new_index(2, 4)
        page_index.put(words, Seven(), Seven())
        self.assertEqual(page_index.list(words), [(7, 7)])


class Run:
    """A random run against a dict: each call is cut off at random, then mended and made again."""

    def __init__(self, test, seed, depth, segments):
        self.test, self.random = test, random.Random(seed)
        self.words, self.pages = new_index(depth, segments), {}
        # Keys of two buckets, so that splits are many. A key is its folded key folded, while below 2^20.
        folded = [16 * i + bucket for i in range(15 * segments) for bucket in (7, 9)]
        self.keys = [number ^ number >> 10 for number in folded]
        self.met = set()

    def found(self):
        return {key: page_index.get(self.words, key) for key in self.keys}

    def mend_in_parts(self):
        """Mends, a few stores at a time; lookups say the same before, in between and after."""
        told = self.found()
        self.test.assertEqual(told, {key: self.pages.get(key) for key in self.keys})
        while True:
            try:
                self.met.add("mended" if page_index.mend(self.words, self.random.randrange(3)) else "whole")
                break
            except Refused as exception:
                self.test.assertEqual(exception.refusal, Refusal.CUT_OFF)
                self.test.assertEqual(self.found(), told)
        self.test.assertEqual(self.found(), told)

    def allowance(self, call, *arguments):
        """Of the stores that are due any number, often all but a few, or an allowance that is enough."""
        copy = self.words[:]
        try:
            due = call(copy, *arguments) or 0
        except Refused as exception:
            due = exception.stores
        few = max(0, due - self.random.randint(1, 6))
        return self.random.choice([self.random.randint(0, due), few, page_index.ALL])

    def attempt(self, call, *arguments):
        """Makes a call with a random allowance until it is not cut off. Answers whether it was done."""
        while True:
            allowance = self.allowance(call, *arguments)
            try:
                call(self.words, *arguments, allowance)
                return True
            except Refused as exception:
                self.met.add(exception.refusal)
                if exception.refusal != Refusal.CUT_OFF:
                    return False
                self.test.assertEqual(exception.stores, allowance)
            self.mend_in_parts()

    def step(self):
        key, value = self.random.choice(self.keys), self.random.getrandbits(64)
        kind = self.random.random()
        if kind < 0.6:
            if self.attempt(page_index.put, key, value):
                self.pages[key] = value
        elif kind < 0.9:
            if self.attempt(page_index.remove, key):
                self.pages.pop(key, None)
        else:
            self.attempt(page_index.merge, key)

    def check(self):
        records = page_index.list(self.words)
        self.test.assertEqual(set(records), set(self.pages.items()))
        self.test.assertEqual(len(records), len(self.pages))
        blocks = [*page_index.blocks(self.words)]
        self.test.assertEqual(sum(blocks, []), records)
        self.met.add(len(blocks) > 1)


class RandomRuns(unittest.TestCase):
    def test_pages_against_a_dict(self):
        met = set()
        for seed, (depth, segments) in enumerate([(2, 1), (2, 4), (3, 5), (4, 12), (5, 20)]):
            run = Run(self, seed, depth, segments)
            for _ in range(250):
                run.step()
                run.check()
            met |= run.met
        # The runs are of use only if they come by all of these.
        self.assertLessEqual({"mended", "whole", True, Refusal.TOO_DEEP, Refusal.NO_SEGMENT, Refusal.CUT_OFF,
                              Refusal.NO_BUDDY, Refusal.BOTH_LIVE}, met)

    def test_jobs_against_a_dict(self):
        draw, words, jobs = random.Random(7), new_index(6, 40), {}
        for _ in range(600):
            job = Job(draw.choice([1, 2026, 9999]), draw.randint(1, 12), draw.choice([0, 9, 4095]))
            if draw.random() < 0.7:
                pages = draw.getrandbits(draw.choice([1, 64]))
                self.assertIn(month_board.set(words, job, pages), (1, 2, *range(70, 1000)))
                jobs[job] = pages
            else:
                self.assertEqual(month_board.remove(words, job), 1 if jobs.pop(job, None) is not None else None)
            self.assertEqual(month_board.read(words, job), jobs.get(job))
            key = job.year * 65536 + job.month * 4096 + job.number
            self.assertEqual(page_index.get(words, key), jobs.get(job))
        for year in (1, 2026, 9999):
            self.assertEqual(month_board.print(words, year), lines_of(jobs, year))

    def test_a_print_of_a_full_year(self):
        words = new_index(12, 4096)
        jobs = {Job(2026, month, number): MOST for month in range(1, 13) for number in range(4096)}
        for job, pages in jobs.items():
            month_board.set(words, job, pages)
        self.assertEqual(month_board.print(words, 2026), lines_of(jobs, 2026))


def lines_of(jobs, year):
    """What a print of the year is to be."""
    names = "Jan Feb Mar Apr May Jun Jul Aug Sep Oct Nov Dec".split()
    return b"".join(
        f"{names[job.month - 1]}\t{job.number}\t{pages}\n".encode()
        for job, pages in sorted(jobs.items()) if job.year == year
    )


class Start(Folder):
    """The library at import, and an index at start."""

    def test_a_missing_library_is_named(self):
        command = [sys.executable, "-B", "-c", "import page_index"]
        environment = {**os.environ, "PAGE_INDEX_LIB": str(self.folder), "PYTHONPATH": str(HERE)}
        done = subprocess.run(command, env=environment, stderr=subprocess.PIPE, text=True)
        said = done.stderr.splitlines()[-1]
        make = ("gcc -shared -o target/staticlib/libpage_index.so -Wl,--whole-archive "
                "target/staticlib/libpage_index.a -Wl,--no-whole-archive")
        self.assertEqual(done.returncode, 1)
        self.assertTrue(said.startswith("ImportError: "), said)
        for part in (str(self.folder / "libpage_index.so"), "`tools/archive`", make, "PAGE_INDEX_LIB"):
            self.assertIn(part, said)
        self.assertIn(f"\n    {make}\n", page_index.__doc__)

    def test_a_library_in_another_folder_is_loaded(self):
        source = pathlib.Path(page_index._library._name)
        (self.folder / "libpage_index.so").write_bytes(source.read_bytes())
        command = [sys.executable, "-B", "-c", "import page_index; print(page_index._library._name)"]
        environment = {**os.environ, "PAGE_INDEX_LIB": str(self.folder), "PYTHONPATH": str(HERE)}
        told = subprocess.run(command, env=environment, stdout=subprocess.PIPE, text=True, check=True).stdout
        self.assertEqual(told, f"{self.folder / 'libpage_index.so'}\n")

    def test_a_format_that_was_cut_off_is_begun_anew_at_start(self):
        for allowance in range(1, 67):
            words = new_index(2, 2)
            self.assertEqual(refusal(page_index.format, words, 2, 2, allowance), Refusal.CUT_OFF)
            self.assertEqual(words[0], 0)
            self.assertEqual(refusal(page_index.mend, words), Refusal.NO_STORE)

    def test_words_that_are_all_0_are_new_and_no_others(self):
        words = new_index(2, 2)
        self.assertFalse(page_index.is_new(words))
        page_index.put(words, 7, 70)
        words[0] = 0
        self.assertFalse(page_index.is_new(words))
        for length in (0, 1, 8, 4096, 4099):
            self.assertTrue(page_index.is_new(bytearray(length)))
        self.assertTrue(page_index.is_new(bytearray(8) + b"1234567"), "bytes behind the last word are not lent")
        for word in (0, 1, 511):
            words = array("Q", bytes(4096))
            words[word] = 1
            self.assertFalse(page_index.is_new(words))
            with self.mapped(4096, name=f"word {word}") as mapped:
                self.assertTrue(page_index.is_new(mapped))
                mapped[8 * word + 7] = 1
                self.assertFalse(page_index.is_new(mapped))

    def test_a_start_formats_new_words_alone(self):
        words = bytearray(example.BYTES)
        with contextlib.redirect_stderr(io.StringIO()):
            example.start(words)
            page_index.put(words, 7, 70)
            example.start(words)
            self.assertEqual(page_index.get(words, 7), 70)
            words[:8] = bytes(8)
            before = bytes(words)
            self.assertEqual(refusal(example.start, words), Refusal.NO_STORE)
            self.assertEqual(words, before)


if __name__ == "__main__":
    unittest.main()
