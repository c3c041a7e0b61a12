"""The library called from Python. Usage: python3 bindings/python/test_shaydhoqel.py"""

import ctypes
import doctest
import os
import pickle
import random
import re
import shutil
import subprocess
import sys
import tempfile
import threading
import unittest
from dataclasses import FrozenInstanceError, replace
from itertools import cycle
from pathlib import Path

import shaydhoqel
from shaydhoqel import COMPANY_RECORD, ENTITIES, FILE_LIMIT, MOTIVES, RECORD, TEXT, TRAY_RECORD
from shaydhoqel import Cell, Currency, Fault, Opening, Reason, Refusal, company, company_into

HERE = Path(__file__).resolve().parent
ROOT = HERE.parent.parent


def sample(name):
    return (ROOT / "samples" / name).read_bytes()


L = sample("case-l.txt")
HEADER, TRAY, EXTRACT = sample("header.txt"), sample("tray.txt"), sample("extract-402.txt")
ZERO_AMOUNT = sample("zero-amount.txt")
LISTING = b"ENTITY SENT RECEIVED NET\n401 2 1 60000\n402 0 1 -12500\n403 1 1 -47500\nSUM 3 3 0\n"
OPENING = Opening(250630, Currency.PESOS, (401, 402, 403))
DOLLARS = replace(OPENING, currency="dollars")
# A character that no record may hold.
JUNK = b"\xa5"
# The longest file that can be built: 9,997 records of a tray, three that building adds.
LONGEST_TRAY = TRAY[:TRAY_RECORD] + 9996 * TRAY[TRAY_RECORD : 2 * TRAY_RECORD]
# The line of each R number is that number, in all its bytes.
LINES = b"".join(bytes([number]) * TEXT for number in range(100))
# An LO body, and that of the same entity in dollars.
LO = TRAY[2:TRAY_RECORD]
LO_DOLLARS = LO[:79] + b"0901" + LO[83:]
# What details of 125 and 400 become under each.
COMPANY_TRAY = (
    b"LO" + LO + b"IN637040200010000020513429100560000012500RECIBO 0001    PEREZ JUAN            000040100010000000"
    b"IN637040300020000000000000000000000040000RECIBO 0002    GOMEZ ANA             000040100010000000"
)
COMPANY_TRAY_DOLLARS = (
    b"LO" + LO_DOLLARS + b"IN637090200010000020513429100560000012500RECIBO 0001    PEREZ JUAN            000090100010000000"
    b"IN637090300020000000000000000000000040000RECIBO 0002    GOMEZ ANA             000090100010000000"
)


def changed(file, place, position, text, length=COMPANY_RECORD):
    """The file with another text, at a record of so many bytes, from 0, and a position from 1."""
    start = place * length + position - 1
    return file[:start] + text + file[start + len(text) :]


def company_file(currency, *amounts):
    """A company's file with a detail for each amount, to 402 and 403 in turn, and closed by their number and sum. Fields as source 004's
    table has them."""
    payers = (
        (b"40200013", b"02051342910056", b"PEREZ JUAN", b"RECIBO 0001"),
        (b"40300028", b"00000000000000", b"GOMEZ ANA", b"RECIBO 0002"),
    )
    code = {"pesos": b"80", "dollars": b"82"}[currency]
    details = (
        b"D%24b30062025%b000%b%-22b%8b%-15b%010d%b%135b" % (b"", block_1, block_2, client, b"", reference, amount, code, b"")
        for (block_1, block_2, client, reference), amount in zip(cycle(payers), amounts)
    )
    closing = b"T%010d%07d%07d%78b%010d%137b" % (len(amounts), len(amounts), 0, b"", sum(amounts), b"")
    return b"".join(details) + closing


COMPANY, COMPANY_DOLLARS = company_file("pesos", 12500, 40000), company_file("dollars", 12500, 40000)


def identified(identifier, file=L):
    return file[:33] + identifier + file[34:]


def rejection(code, number, text):
    """Two records of a tray, the individual and its additional: case L's first debit comes back to 402."""
    first = TRAY[TRAY_RECORD : 2 * TRAY_RECORD]
    return first[:3] + code + first[5:80] + b"1" + first[81:] + b"AD799R%02d%015d      04010001%-44s040100010000000" % (number, 1, text)


def returned(*rejections):
    """What 402 is handed out of a file that case L's first batch and these in a second make."""
    tray = TRAY[: 3 * TRAY_RECORD] + TRAY[:TRAY_RECORD] + b"".join(rejections)
    return OPENING.extract(402, OPENING.build(HEADER, tray))


# Of eleven records; the additional records of its rejections are at 6, with a text, and at 8.
RETURNED = returned(rejection(b"36", 10, b"SIN FONDOS"), rejection(b"31", 29, b""))


class Case(unittest.TestCase):
    def refused(self, fault, place, job, *arguments):
        with self.assertRaises(Refusal) as caught:
            job(*arguments)
        self.assertEqual(caught.exception, Refusal(fault, place))


class Jobs(Case):
    def test_read(self):
        self.assertEqual(OPENING.read(L), 10)
        self.assertEqual(Opening(250630, "pesos", iter([403, 401, 402, 401])).read(L), 10)
        self.refused(Fault.CURRENCY, 0, DOLLARS.read, L)
        self.refused(Fault.ROSTER, 3, replace(OPENING, entities=[401, 402]).read, L)
        self.refused(Fault.AMOUNT, 2, OPENING.read, ZERO_AMOUNT)

    def test_day(self):
        day = OPENING.day([ZERO_AMOUNT, L, L, identified(b"B"), b""])
        refusals = (Refusal(19, 2), None, Refusal(209, 0), None, Refusal(201, 0))
        self.assertEqual(day.answers, refusals)
        self.assertIsInstance(day.answers[2].number, Fault)
        cells = [Cell()] * ENTITIES
        cells[401:404] = Cell(120000, 4, 2), Cell(-25000, 0, 2), Cell(-95000, 2, 2)
        self.assertEqual(day.cells, tuple(cells))

    def test_day_without_files(self):
        day = OPENING.day([])
        self.assertEqual((day.answers, set(day.cells), len(day.cells)), ((), {Cell()}, ENTITIES))
        self.assertEqual(OPENING.day_listing([]), b"ENTITY SENT RECEIVED NET\nSUM 0 0 0\n")

    def test_listings(self):
        self.assertEqual(OPENING.day_listing([L, ZERO_AMOUNT, L]), LISTING)
        self.assertEqual(shaydhoqel.listing(L), LISTING)
        self.assertEqual(shaydhoqel.listing(ZERO_AMOUNT), b"REFUSED 19 AT 2\n")
        self.assertEqual(shaydhoqel.listing(b""), b"REFUSED 201 AT 0\n")

    def test_extract(self):
        self.assertEqual(OPENING.extract(402, L), EXTRACT)
        for entity in 0, 404, 500, 2**64 - 1:
            self.refused(Fault.ENTITY, 0, OPENING.extract, entity, L)
        self.refused(Fault.AMOUNT, 2, OPENING.extract, 402, ZERO_AMOUNT)
        self.refused(Fault.LENGTH, 0, OPENING.extract, 402, bytes(FILE_LIMIT + RECORD))

    def test_strip_and_build(self):
        self.assertEqual(OPENING.strip(L), TRAY)
        self.assertEqual(OPENING.build(HEADER, TRAY), L)
        self.refused(Fault.FORMAT, 9, OPENING.strip, L[:-RECORD])
        self.refused(Fault.TRAY, 0, OPENING.build, HEADER[1:], TRAY)
        self.refused(Fault.TRAY, 3, OPENING.build, HEADER, changed(TRAY, 3, 1, b"XX", TRAY_RECORD))
        self.refused(Fault.LENGTH, 0, OPENING.build, HEADER, LONGEST_TRAY + TRAY[-TRAY_RECORD:])

    def test_company(self):
        self.assertEqual(company("pesos", LO, COMPANY), COMPANY_TRAY)
        self.assertEqual(company(Currency.DOLLARS, LO_DOLLARS, COMPANY_DOLLARS), COMPANY_TRAY_DOLLARS)
        for currency in "pesos", "dollars":
            self.assertEqual(company(currency, LO, company_file(currency)), b"LO" + LO)
        self.assertEqual(OPENING.strip(OPENING.build(HEADER, COMPANY_TRAY)), COMPANY_TRAY)

    def test_company_refused(self):
        # 201 before 207, and that before the details
        for file in b"", COMPANY[: COMPANY_RECORD - 1], COMPANY[1:], COMPANY + b" ":
            self.refused(Fault.LENGTH, 0, company, "pesos", b"", file)
        for lo in b"", LO[1:], LO + b" ", b"6" + LO[1:], LO[:-1] + b"1":
            self.refused(Fault.TRAY, 0, company, "pesos", lo, b"T" + COMPANY[1:])
        self.refused(Fault.CURRENCY, 0, company, "dollars", LO, COMPANY)
        self.refused(Fault.CURRENCY, 0, company, "pesos", LO, COMPANY_DOLLARS)
        for place, position, text, fault in (
            (1, 1, b"T", Fault.FORMAT),
            (1, 41, b" ", Fault.FORMAT),
            (1, 58, b"X", Fault.FORMAT),
            (1, 34, b"000", Fault.FORMAT),
            (1, 34, b"500", Fault.FORMAT),
            (1, 89, b" " * 15, Fault.FORMAT),
            (1, 59, b" " * 22, Fault.FORMAT),
            (1, 80, JUNK, Fault.FORMAT),
            (1, 114, b"82", Fault.CURRENCY),
            (1, 104, b"0" * 10, Fault.AMOUNT),
            (1, 104, b" ", Fault.AMOUNT),
            (1, 26, b"31062025", Fault.DATE),
            (1, 26, b"30061925", Fault.DATE),
            (2, 1, b"D", Fault.FORMAT),
            (2, 11, b"3", Fault.FORMAT),
            (2, 18, b"3", Fault.FORMAT),
            (2, 25, b"1", Fault.FORMAT),
            (2, 113, b"1", Fault.FORMAT),
        ):
            with self.subTest(place=place, position=position):
                out = bytearray(JUNK * len(COMPANY_TRAY))
                self.refused(fault, place, company_into, "pesos", LO, changed(COMPANY, place, position, text), out)
                self.assertEqual(out, JUNK * len(COMPANY_TRAY))

    def test_receive(self):
        self.assertEqual(OPENING.receive(402, EXTRACT), 5)
        self.assertEqual(OPENING.receive(402, RETURNED), 11)
        for entity in 0, 404, 500, 2**64 - 1:
            self.refused(Fault.ENTITY, 0, OPENING.receive, entity, EXTRACT)
        self.refused(Fault.FORMAT, 0, OPENING.receive, 401, EXTRACT)
        self.refused(Fault.FORMAT, 0, OPENING.receive, 402, L)
        self.refused(Fault.FORMAT, 0, OPENING.read, EXTRACT)
        foreign, other_batch = changed(EXTRACT, 2, 7, b"3", RECORD), changed(EXTRACT, 1, 94, b"2", RECORD)
        self.refused(Fault.FORMAT, 2, OPENING.receive, 402, foreign)
        self.refused(Fault.FORMAT, 1, OPENING.receive, 402, other_batch)

    def test_show(self):
        self.assertEqual(OPENING.show(402, RETURNED, LINES, 6), b"SIN FONDOS".ljust(TEXT))
        self.assertEqual(OPENING.show(402, RETURNED, LINES, 8), bytes([29]) * TEXT)
        for record in 0, 1, 2, 3, 4, 5, 7, 9, 10, 11, 2**32, 2**64 - 1:
            self.refused(Fault.REASON, 0, OPENING.show, 402, RETURNED, LINES, record)
        cut = RETURNED[:-RECORD]
        for motives in b"", LINES[1:], LINES + b" ":
            self.refused(Fault.ENTITY, 0, OPENING.show, 404, cut, motives, 0)
            self.refused(Fault.TRAY, 0, OPENING.show, 402, cut, motives, 0)
        self.refused(Fault.FORMAT, 10, OPENING.show, 402, cut, LINES, 0)

    def test_reasons(self):
        reasons = Reason(6, 10, b"SIN FONDOS".ljust(TEXT)), Reason(8, 29, bytes([29]) * TEXT)
        self.assertEqual(OPENING.reasons(402, RETURNED, LINES), reasons)
        self.assertEqual(OPENING.reasons(402, EXTRACT, LINES), ())
        self.refused(Fault.ENTITY, 0, OPENING.reasons, 404, b"", b"")
        self.refused(Fault.TRAY, 0, OPENING.reasons, 402, b"", b"")
        self.refused(Fault.LENGTH, 0, OPENING.reasons, 402, b"", LINES)
        self.refused(Fault.FORMAT, 0, OPENING.reasons, 403, RETURNED, LINES)

    def test_the_longest_file(self):
        file = OPENING.build(HEADER, LONGEST_TRAY)
        self.assertEqual(len(file), FILE_LIMIT)
        self.assertEqual(OPENING.read(file), 10000)
        self.assertEqual(OPENING.strip(file), LONGEST_TRAY)
        self.assertEqual(OPENING.extract(403, file), OPENING.extract(403, OPENING.build(HEADER, b"")))
        self.assertEqual(OPENING.day([file]).cells[402], Cell(-9996 * 12500, 0, 9996))


class Refusals(Case):
    def test_shown(self):
        self.assertEqual(str(Refusal(19, 2)), "refused 19 at 2: amount not ten digits, or zero")
        self.assertEqual(str(Refusal(75, None)), "opening refused 75: date wrong")

    def test_told_apart(self):
        self.assertEqual(Refusal(75, 0), Refusal(Fault.DATE, 0))
        self.assertEqual(len({Refusal(75, 0), Refusal(75, 1), Refusal(75, None), Refusal(19, 0), Refusal(75, 0)}), 4)
        self.assertNotEqual(Refusal(75, 0), (75, 0))

    def test_pickled(self):
        for refusal in Refusal(209, 0), Refusal(208, None):
            again = pickle.loads(pickle.dumps(refusal))
            self.assertEqual((again, again.number, again.opening), (refusal, refusal.number, refusal.opening))

    def test_a_number_of_another_version(self):
        with self.assertRaisesRegex(RuntimeError, "another version: .* number 210"):
            shaydhoqel._refusal(210, 0)


class Openings(Case):
    def test_refused_by_every_job(self):
        for change, fault in (
            ({"date": 250631}, Fault.DATE),
            ({"date": 2**64 - 1, "entities": [500]}, Fault.DATE),
            ({"entities": [401, 402, 403, 500]}, Fault.ENTITY),
            ({"entities": [0]}, Fault.ENTITY),
        ):
            bad, out = replace(OPENING, **change), bytearray(10 * JUNK)
            for job, *arguments in (
                (bad.read, L),
                (bad.day, [L]),
                (bad.day, []),
                (bad.day_listing, [L]),
                (bad.extract, 402, L),
                (bad.build, HEADER, TRAY),
                (bad.strip, L),
                (bad.receive, 402, EXTRACT),
                (bad.show, 402, RETURNED, LINES, 6),
                (bad.reasons, 402, RETURNED, LINES),
                (bad.extract_into, 402, L, out),
                (bad.build_into, HEADER, TRAY, out),
                (bad.strip_into, L, out),
            ):
                with self.subTest(job=job.__name__, **change):
                    self.refused(fault, None, job, *arguments)
                    self.assertEqual(out, 10 * JUNK)
        self.assertTrue(Refusal(fault, None).opening)
        self.assertFalse(Refusal(fault, 0).opening)

    def test_an_answer_of_a_file_is_no_refused_opening(self):
        (refusal,) = replace(OPENING, date=250629).day([L]).answers
        self.assertEqual((refusal.number, refusal.place, refusal.opening), (75, 0, False))

    def test_nobody_on_the_roster(self):
        self.refused(Fault.ROSTER, 0, replace(OPENING, entities=[]).read, L)

    def test_a_value(self):
        self.assertEqual(OPENING, Opening(250630, "pesos", [401, 402, 403]))
        self.assertEqual(len({OPENING, DOLLARS, replace(OPENING)}), 2)
        with self.assertRaises(FrozenInstanceError):
            OPENING.date = 250701

    def test_what_does_not_fit(self):
        for wrong, opening in (
            (OverflowError, (-1, "pesos", [])),
            (OverflowError, (2**64, "pesos", [])),
            (OverflowError, (250630, "pesos", [401, -1])),
            (OverflowError, (250630, "pesos", [2**64])),
            (TypeError, ("250630", "pesos", [])),
            (TypeError, (250630.0, "pesos", [])),
            (TypeError, (250630, "pesos", ["401"])),
            (TypeError, (250630, "pesos", 401)),
            (ValueError, (250630, "euros", [])),
            (ValueError, (250630, None, [])),
        ):
            with self.subTest(opening=opening), self.assertRaises(wrong):
                Opening(*opening)


class Buffers(Case):
    def test_of_every_kind(self):
        every_other = memoryview(bytes(byte for pair in zip(L, L) for byte in pair))[::2]
        for file in bytearray(L), memoryview(L), memoryview(b"x" + L)[1:], every_other, memoryview(L).cast("H"):
            self.assertEqual(OPENING.read(file), 10)
            self.assertEqual(OPENING.extract(402, file), EXTRACT)
            self.assertEqual(OPENING.day([file, L]).answers, (None, Refusal(209, 0)))
        for kind in bytearray, memoryview:
            self.assertEqual(company("pesos", kind(LO), kind(COMPANY)), COMPANY_TRAY)
            extract, motives = kind(RETURNED), kind(LINES)
            self.assertEqual(OPENING.receive(402, extract), 11)
            self.assertEqual(OPENING.show(402, extract, motives, 8), bytes([29]) * TEXT)
            self.assertEqual([type(reason.text) for reason in OPENING.reasons(402, extract, motives)], [bytes, bytes])

    def test_the_rest_stays(self):
        for job, *arguments, expected in (
            (OPENING.extract_into, 402, L, EXTRACT),
            (OPENING.build_into, HEADER, TRAY, L),
            (OPENING.strip_into, L, TRAY),
            (company_into, "pesos", LO, COMPANY, COMPANY_TRAY),
            (company_into, "dollars", LO_DOLLARS, COMPANY_DOLLARS, COMPANY_TRAY_DOLLARS),
        ):
            length = len(expected)
            out = bytearray(JUNK * (length + 7))
            self.assertEqual(job(*arguments, memoryview(out)[3:-3]), length)
            self.assertEqual(out, JUNK * 3 + expected + JUNK * 4)
            for room in 0, 1, length - 1:
                out = bytearray(JUNK * room)
                self.refused(Fault.ROOM, 0, job, *arguments, out)
                self.assertEqual(out, JUNK * room)
            self.assertEqual(job(*arguments, bytearray(length)), length)

    def test_spaces_where_the_reading_refuses(self):
        out = bytearray(JUNK * (len(L) + 5))
        zero = changed(TRAY, 1, 32, b"0" * 10, TRAY_RECORD)
        self.refused(Fault.AMOUNT, 2, OPENING.build_into, HEADER, zero, out)
        self.assertEqual(out, b" " * len(L) + JUNK * 5)

    def test_that_are_none(self):
        for wrong in None, 5, "text", [L]:
            for job in OPENING.read, OPENING.strip, shaydhoqel.listing:
                self.assertRaises(TypeError, job, wrong)
            self.assertRaises(TypeError, OPENING.extract, 402, wrong)
            self.assertRaises(TypeError, OPENING.build, HEADER, wrong)
            self.assertRaises(TypeError, OPENING.day, [wrong])
            self.assertRaises(TypeError, OPENING.receive, 402, wrong)
            self.assertRaises(TypeError, OPENING.show, 402, RETURNED, wrong, 6)
            self.assertRaises(TypeError, OPENING.reasons, 402, wrong, LINES)
            self.assertRaises(TypeError, company, "pesos", wrong, COMPANY)
            self.assertRaises(TypeError, company, "pesos", LO, wrong)
        self.assertRaises(TypeError, OPENING.day, L)
        self.assertRaises(TypeError, OPENING.strip_into, L, bytes(1000))
        self.assertRaises(TypeError, company_into, "pesos", LO, COMPANY, bytes(1000))
        self.assertRaises(ValueError, company, "euros", LO, COMPANY)
        self.assertRaises(TypeError, OPENING.extract, "402", L)
        self.assertRaises(OverflowError, OPENING.extract, -1, L)
        self.assertRaises(OverflowError, OPENING.extract, 2**64, L)
        self.assertRaises(OverflowError, OPENING.show, 402, RETURNED, LINES, 2**64)
        self.assertRaises(TypeError, OPENING.show, 402, RETURNED, LINES, "6")

    def test_let_go_after_a_refusal(self):
        out = bytearray(1)
        with self.assertRaises(Refusal) as caught:
            OPENING.strip_into(L, out)
        out.extend(L)
        self.assertEqual(caught.exception.number, Fault.ROOM)

    def test_file_and_output_in_one(self):
        both = bytearray(L)
        self.assertEqual(OPENING.strip_into(both, both), len(TRAY))
        self.assertEqual(both, TRAY + L[len(TRAY) :])


class Junk(Case):
    def test_ends_in_an_answer(self):
        chance = random.Random(17)
        for _ in range(300):
            texts = L, TRAY, HEADER, EXTRACT, RETURNED, COMPANY, bytes(188), chance.randbytes(chance.randrange(1000))
            file = bytearray(chance.choice(texts))
            for _ in range(chance.randrange(4)):
                if file:
                    file[chance.randrange(len(file))] = chance.randrange(256)
            file = bytes(file[: chance.randrange(len(file) + 1)]) if chance.random() < 0.3 else bytes(file)
            (answer,) = OPENING.day([file]).answers
            for job, *arguments in (OPENING.read, file), (OPENING.strip, file), (OPENING.extract, 402, file):
                if answer is None:
                    job(*arguments)
                else:
                    self.refused(answer.number, answer.place, job, *arguments)
            try:
                self.assertEqual(OPENING.strip(OPENING.build(HEADER, file)), file)
            except Refusal as refusal:
                self.assertFalse(refusal.opening)
            self.shown_alike(file, LINES[: chance.choice([MOTIVES, MOTIVES, 0])])
            self.taken_whole(file)

    def taken_whole(self, file):
        """A company's tray has the LO and a record for each detail; else the refusal stands at a record of the file."""
        try:
            tray = company("pesos", LO, file)
            self.assertEqual(tray[:TRAY_RECORD], b"LO" + LO)
            self.assertEqual(len(tray) // TRAY_RECORD, len(file) // COMPANY_RECORD)
        except Refusal as refusal:
            self.assertLess(refusal.place, max(len(file) // COMPANY_RECORD, 1))

    def shown_alike(self, file, motives):
        """Where the file is received, all reasons are those that are shown one by one; else both are refused alike."""
        try:
            reasons = OPENING.reasons(402, file, motives)
            self.assertEqual(OPENING.receive(402, file), len(file) // RECORD)
        except Refusal as refusal:
            self.refused(refusal.number, refusal.place, OPENING.show, 402, file, motives, 6)
            return
        texts = {reason.record: reason.text for reason in reasons}
        for record in range(len(file) // RECORD + 1):
            if record in texts:
                self.assertEqual(OPENING.show(402, file, motives, record), texts[record])
            else:
                self.refused(Fault.REASON, 0, OPENING.show, 402, file, motives, record)


def on_thread(stack, job):
    """What a job gives on a thread with so much stack."""
    given = []
    before = threading.stack_size(stack)
    try:
        thread = threading.Thread(target=lambda: given.append(job()))
        thread.start()
    finally:
        threading.stack_size(before)
    thread.join()
    return given[0]


class Threads(Case):
    @classmethod
    def setUpClass(cls):
        cls.file = OPENING.build(HEADER, LONGEST_TRAY)
        cls.returned = returned(2498 * rejection(b"36", 10, b"SIN FONDOS"), 2498 * rejection(b"31", 29, b""))
        cls.details = company_file("pesos", *range(1, 10000))
        cls.jobs = {
            "READ": lambda: OPENING.read(cls.file),
            "DAY": lambda: OPENING.day([cls.file, L, identified(b"Z", cls.file)]),
            "DAY_LISTING": lambda: OPENING.day_listing([cls.file, identified(b"Z")]),
            "LISTING": lambda: shaydhoqel.listing(L),
            "EXTRACT": lambda: OPENING.extract(402, cls.file),
            "BUILD": lambda: OPENING.build(HEADER, LONGEST_TRAY),
            "STRIP": lambda: OPENING.strip(cls.file),
            "COMPANY": lambda: company("pesos", LO, cls.details),
            "RECEIVE": lambda: OPENING.receive(402, cls.returned),
            "SHOW": lambda: OPENING.show(402, cls.returned, LINES, 9996),
            "REASONS": lambda: OPENING.reasons(402, cls.returned, LINES),
        }
        cls.alone = {name: job() for name, job in cls.jobs.items()}

    def test_with_the_stack_that_a_call_needs(self):
        for name, job in self.jobs.items():
            with self.subTest(job=name):
                self.assertEqual(on_thread(getattr(shaydhoqel, f"STACK_{name}"), job), self.alone[name])

    def test_side_by_side(self):
        names = list(self.jobs)
        wrong = []

        def turns(first):
            for turn in range(2 * len(names)):
                name = names[(first + turn) % len(names)]
                if self.jobs[name]() != self.alone[name]:
                    wrong.append(name)

        threads = [threading.Thread(target=turns, args=[first]) for first in range(8)]
        for thread in threads:
            thread.start()
        for thread in threads:
            thread.join()
        self.assertEqual(wrong, [])


# The types of C, as they are declared for ctypes; of what is lent, by what it points to.
C_TYPES = {
    "uint64_t": ctypes.c_uint64,
    "bool": ctypes.c_bool,
    "size_t": ctypes.c_size_t,
    "struct shaydhoqel_spoken": shaydhoqel._Spoken,
    "struct shaydhoqel_shown": shaydhoqel._Shown,
    "const uint64_t *": ctypes.POINTER(ctypes.c_uint64),
    "uint64_t *": ctypes.POINTER(ctypes.c_uint64),
    "int64_t *": ctypes.POINTER(ctypes.c_int64),
    "const uint8_t *": ctypes.c_char_p,
    "uint8_t *": ctypes.POINTER(ctypes.c_uint8),
    "uint8_t [SHAYDHOQEL_LISTING]": ctypes.POINTER(ctypes.c_uint8 * shaydhoqel.LISTING),
}


class Header(Case):
    header = re.sub(r"/\*.*?\*/", " ", (ROOT / "include/desk.h").read_text(), flags=re.DOTALL)

    def test_functions(self):
        functions = re.findall(r"^(\w[\w ]*?) shaydhoqel_(\w+)\((.*?)\);", self.header, flags=re.DOTALL | re.MULTILINE)
        self.assertEqual(len(functions), self.header.count(");"))
        for result, job, parameters in functions:
            with self.subTest(job=job):
                function = getattr(shaydhoqel._LIBRARY, f"shaydhoqel_{job}")
                self.assertIs(function.restype, C_TYPES[result])
                types = [re.sub(r"\b\w+(\[\w+\])?$", r"\1", part.strip()).strip() for part in parameters.split(",")]
                self.assertEqual(list(function.argtypes), [C_TYPES[name] for name in types])

    def test_structs(self):
        structs = re.findall(r"(struct \w+) \{(.*?)\}", self.header, flags=re.DOTALL)
        self.assertEqual([C_TYPES[name] for name, _ in structs], [shaydhoqel._Spoken, shaydhoqel._Shown])
        for struct, fields in structs:
            fields = [field.split() for field in fields.split(";") if field.strip()]
            self.assertEqual(C_TYPES[struct]._fields_, [(name, C_TYPES[kind]) for kind, name in fields])


class Found(Case):
    """The module looks for its library in four places, in order."""

    def setUp(self):
        folder = tempfile.TemporaryDirectory()
        self.addCleanup(folder.cleanup)
        self.prefix = Path(folder.name).resolve()
        self.module = self.prefix / "share/shaydhoqel/python"
        self.module.mkdir(parents=True)
        shutil.copy(HERE / "shaydhoqel.py", self.module)

    def imported(self, **environment):
        """The library that a new interpreter finds, or what it says."""
        text = "import shaydhoqel; print(shaydhoqel._LIBRARY._name)"
        environment = {**os.environ, "PYTHONPATH": str(self.module), "SHAYDHOQEL_LIBRARY": "", **environment}
        run = subprocess.run([sys.executable, "-c", text], env=environment, cwd="/", capture_output=True, text=True)
        return (run.stdout or run.stderr).strip().splitlines()[-1]

    def test_in_order(self):
        said = self.imported()
        self.assertRegex(said, "^FileNotFoundError: .*lib.*: `bash bindings/library` writes it, or SHAYDHOQEL_LIBRARY names it$")
        for folder in "lib", "share/shaydhoqel/target/library", "share/shaydhoqel/python":
            library = self.prefix / folder / "libshaydhoqel.so"
            library.parent.mkdir(parents=True, exist_ok=True)
            shutil.copy(shaydhoqel._LIBRARY._name, library)
            self.assertEqual(os.path.realpath(self.imported()), str(library))
        named = self.prefix / "named.so"
        shutil.copy(library, named)
        self.assertEqual(self.imported(SHAYDHOQEL_LIBRARY=str(named)), str(named))
        self.assertRegex(self.imported(SHAYDHOQEL_LIBRARY="/nowhere.so"), "^OSError: /nowhere.so: ")


def load_tests(loader, tests, pattern):
    tests.addTests(doctest.DocTestSuite(shaydhoqel))
    return tests


if __name__ == "__main__":
    unittest.main()
