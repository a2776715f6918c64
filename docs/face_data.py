#!/usr/bin/env python3
# Writes what the programs crates/face_* are run on, and what they are to print, by the rules of documents 01 and 02: data/ and stdout of face_list,
# stdin and stdout of face_import and face_load, and data/ and stdout of face_cases, which goes over the sets below. Run it in the repository's root; the gate needs no Python.
import os
import re
from struct import pack

NAMES = "record body_start body_len span_start span_len spans\n"


def area(data, published=None):
    """Eight bytes that nobody reads, the published length, the data."""
    return bytes(8) + pack("<Q", 16 + len(data) if published is None else published) + data


def face(records):
    """The three areas of a list of (body length, span count), and their lines."""
    slots = rows = checkpoints = b""
    body = span = 16
    lines = []
    for number, (length, spans) in enumerate(records, 1):
        strides = length // 8
        low, high = (v if v <= 255 else 0 for v in (strides, spans))
        slots += bytes([low, high])
        if low == 0 or high == 0:
            rows += pack("<QII", number, strides, spans)
        lines.append(f"{number} {body} {length} {span} {8 * spans} {spans}\n")
        body += length
        span += 8 * spans
        if number % 1024 == 0:
            checkpoints += pack("<QQ", body, span)
    return slots, rows, checkpoints, lines


cases = []


def write(path, content):
    os.makedirs(os.path.dirname(path), exist_ok=True)
    with open(path, "wb") as out:
        out.write(content)


def case(name, files, text):
    """Files of face_cases, and what is printed of them after their name."""
    for file, content in files:
        if content is not None:
            write(f"crates/face_cases/data/{file}", content)
    cases.append(f"{name}\n{text}")


def area_case(name, slots, rows, checkpoints, text):
    case(f"{name}.loc", ((f"{name}.loc", slots), (f"{name}.loc.ovf", rows), (f"{name}.off", checkpoints)), text)


def areas(records):
    slots, rows, checkpoints, lines = face(records)
    return area(slots), area(rows), area(checkpoints), NAMES + "".join(lines)


# a small corpus: document 01's two records, values on either side of a byte's limit, and rows
*files, text = areas([(40, 3), (2048, 1), (2040, 255), (2048, 256), (8, 300), (800000, 70000), (16, 2)])
for file, content in zip(("face.loc", "face.loc.ovf", "face.off"), files):
    write(f"crates/face_list/data/{file}", content)
write("crates/face_list/stdout", text.encode())

# document 01's example
area_case("two", *areas([(40, 3), (2048, 1)]))
# one record past the first window, with rows before and after its edge
area_case("windows", *areas([(8 * (1 + i % 300), 1 + i % 7) for i in range(1026)]))
# no records
area_case("empty", *areas([]))

empty = area(b"")
two = face([(40, 3), (2048, 1)])
area_case("small", empty, empty[:15], empty, "refused 1\n")
area_case("odd_slots", area(b"\5\3\1"), empty, empty, "refused 2\n")
area_case("ragged_checkpoints", area(two[0]), area(two[1]), area(bytes(8)), "refused 3\n")
area_case("ragged_rows", area(two[0]), area(two[1] + bytes(8)), empty, "refused 4\n")
area_case("row_order", area(two[0]), area(two[1] + two[1]), empty, "refused 5\n")

# the row of record 1,025 is missing: window 0 is listed, then 17
slots, rows, checkpoints, lines = face([(8, 1)] * 1024 + [(2048, 1)])
area_case("row_missing", area(slots), empty, area(checkpoints), NAMES + "".join(lines[:1024]) + "refused 17\n")

# the row of record 1,024 stands past byte 16,384 and is not read
slots, rows, checkpoints, lines = face([(2048, 1)] * 1024)
area_case("long", area(slots), area(rows), area(checkpoints), NAMES + "refused 17\n")

# no files, and two of three
area_case("missing", None, None, None, "refused 1\n")
area_case("one_file", area(two[0]), None, None, "refused 1\n")


# ---- listings on standard input


def refusal(text):
    """The number of a text for an empty index with room for 1,024 records, 0 where it is accepted; and its lines' numbers."""
    if not text.startswith(NAMES):
        return 18, []
    records = []
    for line in text[len(NAMES) :].splitlines(keepends=True):
        if len(records) == 1024 or not re.fullmatch("((0|[1-9][0-9]*) ){5}(0|[1-9][0-9]*)\n", line):
            return 18, []
        record = [int(field) for field in line.split(" ")]
        if max(record) >= 2**64 or record[5] >= 2**32:
            return 18, []
        if record[0] != len(records) + 1:
            return 19, []
        if record[4] != 8 * record[5]:
            return 20, []
        records.append(record)
    if records and records[0][1] != 16:
        return 23, []
    if records and records[0][3] != 16:
        return 24, []
    for record, after in zip(records, records[1:] + [None]):
        _, start, length, span, span_len, spans = record
        if spans == 0:
            return 8, []
        if length == 0:
            return 22, []
        if length % 8:
            return 9, []
        if length // 8 >= 2**32:
            return 10, []
        if after and after[1] != min(start + length, 2**64 - 1):
            return 11, []
        if after and after[3] != min(span + span_len, 2**64 - 1):
            return 12, []
    return 0, records


def answered(name, text, number, records):
    """An input, and what is printed of it: the listing of these records, or its refusal. Of a program's own name it is the program's sample."""
    printed = f"refused {number}\n" if number else listing(records)
    if "." in name:
        case(name, ((name, text.encode()),), printed)
    else:
        write(f"crates/{name}/stdin", text.encode())
        write(f"crates/{name}/stdout", printed.encode())


def imported(name, text):
    """The records that are listed are those of the index that holds the text's."""
    number, records = refusal(text)
    answered(name, text, number, [(length, spans) for _, _, length, _, _, spans in records])


def listing(records):
    return NAMES + "".join(face(records)[3])


# document 01's two records, then the largest of a byte with a row, and the largest strides and span count
imported("face_import", listing([(40, 3), (2048, 1), (2040, 256), (8 * (2**32 - 1), 2**32 - 1)]))
# as many lines as a listing may have, one more, and far more bytes than the program reads
many = [(8 * (1 + 7 * i % 300), 1 + 11 * i % 300) for i in range(4096)]
imported("full.listing", listing(many[:1024]))
imported("over.listing", listing(many[:1025]))
imported("long.listing", listing(many))
# no records, and no input
imported("names.listing", NAMES)
imported("empty.listing", "")

# 18: a zero in front, 2^64, no last line feed; each after a right line
two = listing([(40, 3), (2048, 1)])
imported("zero.listing", two.replace("2 56", "2 056"))
imported("wide.listing", two.replace("2 56", f"2 {2**64}"))
imported("unended.listing", two[:-1])
# 19 before 20, 20 before append's 11, append's 11, and an empty body, which is 22 before 11
imported("number.listing", two.replace("2 56 2048 40 8 1", "3 56 2048 40 16 1"))
imported("length.listing", two.replace("2 56 2048 40 8 1", "2 64 2048 40 16 1"))
imported("break.listing", two.replace("2 56", "2 64"))
imported("blank.listing", two.replace("1 16 40", "1 16 0"))


# ---- loads, from a seed and a number of records on standard input


def step(x):
    x ^= x << 13 & 2**64 - 1
    x ^= x >> 7
    return x ^ x << 17 & 2**64 - 1


def loaded(name, text):
    """The records that are listed are drawn, strides and then spans."""
    form = re.fullmatch("(0|[1-9][0-9]*)\n(0|[1-9][0-9]*)\n", text)
    state, count = map(int, form.groups()) if form else (2**64, 0)
    number = 18 if max(state, count) >= 2**64 else 25 if state == 0 else 26 if count > 1024 else 0
    draws = []
    for _ in range(0 if number else 2 * count):
        state = step(state)
        draws.append(1 + state % 300)
    answered(name, text, number, [(8 * strides, spans) for strides, spans in zip(draws[::2], draws[1::2])])


# seed 88172645463325252: some records, as many as a load may have, none, and one too many
loaded("face_load", "88172645463325252\n40\n")
loaded("full.seed", "88172645463325252\n1024\n")
loaded("none.seed", "88172645463325252\n0\n")
loaded("over.seed", "88172645463325252\n1025\n")
# seed 0 before the number of records, and the largest seed
loaded("zero.seed", "0\n1025\n")
loaded("last.seed", f"{2**64 - 1}\n3\n")

# 18: 2^64, a zero in front, no last line feed (before seed 0), and a third line feed
loaded("wide.seed", f"{2**64}\n40\n")
loaded("front.seed", "88172645463325252\n040\n")
loaded("unended.seed", "0\n40")
loaded("more.seed", "88172645463325252\n40\n\n")

write("crates/face_cases/stdout", "".join(cases).encode())
