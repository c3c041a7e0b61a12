"""Does the calls of a plan on the files of this folder, and prints each with its answer.
Usage: python3 reach.py < PLAN"""

import sys
from pathlib import Path

sys.path.insert(0, str(Path(__file__).resolve().parent.parent / "python"))
from shaydhoqel import Cell, Opening, Refusal, company_into, listing


def digest(text):
    """FNV-1a, in 64 bits."""
    number = 0xCBF29CE484222325
    for byte in text:
        number = (number ^ byte) * 0x100000001B3 % 2**64
    return f"{number:016x}"


def said(refusal):
    return "0@0" if refusal is None else f"{refusal.number:d}@{refusal.place}"


def written(job, *arguments):
    """The answer, and what the buffer then holds; the last argument is its length."""
    *arguments, room = arguments
    out = bytearray(b"\xa5" * int(room))
    try:
        answer = f"0 {job(*arguments, out)}"
    except Refusal as refusal:
        answer = refused(refusal)
    return f"{answer} {digest(out)}"


def refused(refusal):
    return f"{refusal.number:d} {'opening' if refusal.opening else refusal.place}"


def answers(opening, files):
    day = opening.day(files)
    cells = [f"{entity}:{c.position}/{c.sent}/{c.received}" for entity, c in enumerate(day.cells) if c != Cell()]
    return " ".join(["0 0", *map(said, day.answers), *cells])


def listed(text):
    return f"0 {len(text)} {digest(text)}"


def explained(reasons):
    return " ".join([f"0 {len(reasons)}", *(f"{reason.record}:R{reason.number:02} {digest(reason.text)}" for reason in reasons)])


def done(job, words):
    """The answer to one call."""
    file = lambda name: Path(name).read_bytes()
    if job == "listing":
        return listed(listing(file(words[0])))
    if job == "company":
        return written(company_into, words[0], file(words[1]), file(words[2]), words[3])
    date, currency, entities, *rest = words
    opening = Opening(int(date), currency, [] if entities == "nobody" else map(int, entities.split(",")))
    if job == "extract":
        return written(opening.extract_into, int(rest[0]), file(rest[1]), rest[2])
    if job == "build":
        return written(opening.build_into, file(rest[0]), file(rest[1]), rest[2])
    if job == "strip":
        return written(opening.strip_into, file(rest[0]), rest[1])
    try:
        if job == "read":
            return f"0 {opening.read(file(rest[0]))}"
        if job == "day":
            return answers(opening, map(file, rest))
        if job == "receive":
            return f"0 {opening.receive(int(rest[0]), file(rest[1]))}"
        if job == "show":
            return listed(opening.show(int(rest[0]), file(rest[1]), file(rest[2]), int(rest[3])))
        if job == "reasons":
            return explained(opening.reasons(int(rest[0]), file(rest[1]), file(rest[2])))
        return listed(opening.day_listing(map(file, rest)))
    except Refusal as refusal:
        return refused(refusal)


for line in map(str.strip, sys.stdin):
    job, *words = line.split(" ")
    print(line, "=", done(job, words))
