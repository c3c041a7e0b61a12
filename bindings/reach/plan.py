"""Writes files, and to standard output a plan: calls on them, one a line, as reach.c, reach.rs and reach.py do them.
Usage: python3 plan.py FOLDER"""

import sys
from pathlib import Path

SAMPLES = Path(__file__).resolve().parents[2] / "samples"
RECORD, TRAY_RECORD, COMPANY_RECORD = 94, 96, 250


def sample(name):
    return (SAMPLES / name).read_bytes()


def changed(file, *changes, record=RECORD):
    """The file with other texts, each at a record, from 0, and a position in it, from 1."""
    file = bytearray(file)
    for place, position, text in changes:
        start = place * record + position - 1
        file[start : start + len(text)] = text
    return bytes(file)


def in_dollars(file):
    """Case L among the same entities in dollars, who add 500; so do the sums of destinations in its controls."""
    entities = [(0, 15), (1, 80), (2, 4), (2, 80), (3, 4), (3, 80), (4, 80), (5, 80), (6, 4), (6, 80), (8, 80)]
    entities = [(place, position, b"%04d" % (500 + int(file[place * RECORD + position - 1 :][:4]))) for place, position in entities]
    return changed(file, *entities, (4, 11, b"0018050003"), (8, 11, b"0009010001"), (9, 22, b"0027060004"))


def twenty():
    """By name. What is said is the answer on reading among 401, 402 and 403 in pesos, or, of a tray, on building."""
    l, tray = sample("case-l.txt"), sample("tray.txt")
    return {
        "case-l": l,  # accepted, and the next too
        "identifier-b": changed(l, (0, 34, b"B")),
        "dollars": in_dollars(l),  # 203 at 0, and accepted in dollars
        "zero-amount": sample("zero-amount.txt"),  # 19 at 2
        "other-date": changed(l, (0, 24, b"250629")),  # 75 at 0
        "reserved": changed(l, (2, 12, b"1")),  # 77 at 2
        "account": changed(l, (2, 13, b" ")),  # 78 at 2
        "reference": changed(l, (3, 40, b" " * 15)),  # 79 at 3
        "information": changed(l, (6, 77, b"02")),  # 87 at 6
        "additional": l[: 7 * RECORD] + l[8 * RECORD :],  # 25 at 7
        "counter": changed(l, (3, 88, b"0000001")),  # 27 at 3
        "off-roster": changed(l, (2, 4, b"0404")),  # 204 at 2
        "unclosed": l[: -RECORD],  # 17 at 9
        "empty": b"",  # 201 at 0, and the next too
        "too-long": 1000 * l + l[:RECORD],
        "junk": bytes(range(256)) * 3 + bytes(172),  # 17 at 0
        "tray": tray,  # accepted
        "tray-mark": changed(tray, (3, 1, b"X"), record=TRAY_RECORD),  # 207 at 3
        "tray-zero": changed(tray, (1, 32, b"0" * 10), record=TRAY_RECORD),  # 19 at 2
        "tray-long": tray + 9992 * tray[-TRAY_RECORD:],  # 201 at 0
    }


def rejections(extract, dollars=0):
    """The extract of one debit of 125 pesos, with two that come back in its place: a 36 with a reason, and a 31 without."""
    header, batch, debit, control, file_control = (extract[start : start + RECORD] for start in range(0, len(extract), RECORD))
    reason = b"799R%02d%015d      04010001%-44s0401000100000%02d"
    entity, sender = b"%04d" % (402 + dollars), b"%04d" % (401 + dollars)
    totals = b"%010d%012d%012d" % (2 * int(entity + b"0001"), 12500, 12500)
    return changed(
        header + batch + debit + reason % (10, 1, b"SIN FONDOS", 1) + debit + reason % (29, 2, b"", 2) + control + file_control,
        *((0, 5, entity), (1, 80, sender), (6, 80, sender)),
        *((2, 2, b"36"), (2, 4, entity), (2, 79, b"1"), (2, 80, sender), (3, 80, sender)),
        *((4, 2, b"31"), (4, 4, entity), (4, 79, b"1"), (4, 80, sender), (4, 94, b"2"), (5, 80, sender)),
        *((6, 5, b"000004" + totals), (7, 8, b"000001%08d" % 4 + totals)),
    )


def handed_out():
    """By name. What is said is the answer on receiving by 402 in pesos."""
    extract = sample("extract-402.txt")
    returned = rejections(extract)
    return {
        "extract": extract,  # accepted, and the next too
        "returned": returned,
        "returned-dollars": rejections(extract, dollars=500),  # 17 at 0, and accepted in dollars
        "foreign": changed(returned, (4, 4, b"0403")),  # 17 at 4
        "second-batch": changed(returned, (1, 94, b"2")),  # 17 at 1
        "no-reason": changed(returned, (5, 4, b" ")),  # 17 at 5
        "last-byte": changed(returned, (5, 79, b".")),  # accepted, and the reason is that byte alone
    }


def motive_lists():
    lines = b"".join(b"%-44s" % (b"R%02d, MOTIVO %d" % (number, number * number)) for number in range(100))
    return {"motives": lines, "motives-short": lines[1:], "motives-long": lines + b" ", "motives-none": b""}


def lo_bodies():
    lo = sample("tray.txt")[2:TRAY_RECORD]
    return {
        "lo": lo,
        "lo-dollars": changed(lo, (0, 80, b"0901")),
        "lo-short": lo[1:],  # 207 at 0, and the next too
        "lo-numbered": changed(lo, (0, 94, b"1")),
    }


def company_file(code):
    """A company's file of two details, of 125 and 400. Fields as source 004's table has them."""
    blank = b" " * COMPANY_RECORD
    return changed(
        3 * blank,
        *((0, 1, b"D"), (0, 26, b"30062025"), (0, 34, b"40200013"), (0, 42, b"000"), (0, 45, b"02051342910056")),
        *((0, 59, b"PEREZ JUAN"), (0, 89, b"RECIBO 0001"), (0, 104, b"0000012500"), (0, 114, code)),
        *((1, 1, b"D"), (1, 26, b"30062025"), (1, 34, b"40300028"), (1, 42, b"000"), (1, 45, b"0" * 14)),
        *((1, 59, b"GOMEZ ANA"), (1, 89, b"RECIBO 0002"), (1, 104, b"0000040000"), (1, 114, code)),
        *((2, 1, b"T"), (2, 2, b"0000000002"), (2, 12, b"0000002"), (2, 19, b"0000000"), (2, 104, b"0000052500")),
        record=COMPANY_RECORD,
    )


def companies():
    """By name. What is said is the answer in pesos under `lo`."""
    file = company_file(b"80")
    other = lambda *change: changed(file, change, record=COMPANY_RECORD)
    closing = changed(file[-COMPANY_RECORD:], (0, 11, b"0"), (0, 18, b"0"), (0, 104, b"0" * 10))
    return {
        "company": file,  # accepted, and the next too
        "company-closing": closing,
        "company-dollars": company_file(b"82"),  # 203 at 0, and accepted in dollars
        "company-cut": file[:-1],  # 201 at 0
        "company-kind": other(1, 1, b"T"),  # 17 at 1, and the next four too
        "company-block": other(1, 45, b" "),
        "company-entity": other(1, 34, b"500"),
        "company-reference": other(1, 89, b" " * 15),
        "company-client": other(1, 59, b"\n"),
        "company-currency": other(1, 114, b"82"),  # 203 at 1
        "company-amount": other(1, 104, b"0" * 10),  # 19 at 1
        "company-due": other(1, 26, b"01072025"),  # 75 at 1
        "company-count": other(2, 11, b"3"),  # 17 at 2, and the next too
        "company-sum": other(2, 113, b"1"),
    }


OPENINGS = (
    "250630 pesos 401,402,403",
    "250630 dollars 403,402,401,401",
    "250630 pesos nobody",
    "250631 pesos 401,402,403",  # no date
    "250630 pesos 401,402,403,500",
    "18446744073709551615 dollars 0",
)
ENTITIES = (401, 402, 404, 0, 500, 18446744073709551615)


def member_plan(names, handed, lists):
    for opening in OPENINGS:
        for name in names + handed:
            for entity in ENTITIES:
                yield f"receive {opening} {entity} {name}"
        for name in handed + ["case-l", "empty"]:
            for record in (*range(9), 18446744073709551615):
                yield f"show {opening} 402 {name} motives {record}"
            for motives in lists:
                yield f"show {opening} 402 {name} {motives} 5"
                for entity in 401, 402, 404:
                    yield f"reasons {opening} {entity} {name} {motives}"


def company_plan(bodies, names):
    for currency in "pesos", "dollars":
        for lo in bodies:
            for name in names:
                # too short by a byte for what two details give, and no buffer at all
                for room in 1000, 287, 0:
                    yield f"company {currency} {lo} {name} {room}"


def plan(names):
    for name in names:
        yield f"listing {name}"
    for opening in OPENINGS:
        for files in names, ["case-l", "case-l", "identifier-b"], ["dollars", "dollars"], []:
            yield " ".join(["day", opening, *files])
            yield " ".join(["day_listing", opening, *files])
        for name in names:
            yield f"read {opening} {name}"
            for entity in ENTITIES:
                yield f"extract {opening} {entity} {name} 1000"
            # too short by a byte for what case L gives, and no buffer at all
            for room in 469, 0:
                yield f"extract {opening} 402 {name} {room}"
            for room in 1000, 575, 0:
                yield f"strip {opening} {name} {room}"
            for header in "header", "dollars-header":
                yield f"build {opening} {header} {name} 1000"
            for room in 939, 0:
                yield f"build {opening} header {name} {room}"
            yield f"build {opening} {name} tray 1000"


if __name__ == "__main__":
    folder = Path(sys.argv[1])
    files, handed, lists = twenty(), handed_out(), motive_lists()
    bodies, details = lo_bodies(), companies()
    headers = {"header": sample("header.txt"), "dollars-header": files["dollars"][:RECORD]}
    for name, text in {**files, **headers, **handed, **lists, **bodies, **details}.items():
        (folder / name).write_bytes(text)
    names = list(files)
    lines = *plan(names), *member_plan(names, list(handed), list(lists)), *company_plan(list(bodies), [*details, "empty", "case-l"])
    print(*lines, sep="\n")
