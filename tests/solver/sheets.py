"""Sheets as bytes from readable text, the worked sheets C1 to C10, S1 to S9 and L1 to L7, and families of sheets that
more than one test is run on."""
import struct
from itertools import combinations
from typing import NamedTuple

from planner import record_length


class Case(NamedTuple):
    """A sheet with its name and, where there is one, the answer by hand: the whole listing, or the answer in words or
    its beginning."""

    name: str
    by_hand: str
    sheet: bytes


def begins(answer, by_hand):
    """Whether an answer in words is the one by hand, or begins with its words."""
    return not by_hand or f"{answer} ".startswith(f"{by_hand} ")


def lines_of(table):
    """The lines of a table, each cut into its columns, without the lines of comment."""
    for line in table.splitlines():
        if line and line[0] != "#":
            yield [column.strip() for column in line.split("|")]


# The worked sheets (T11.2), and by hand what batchplan prints for each. A slash ends a line of the listing.
TABLE = """
C1  | n=2 m=1 D=8 k=4 0:3 1:1 128:10 129:10 192:-2 193:-1 194:-12 \
    | steps 4/mat 0 10/mat 1 20/lim 0 12 8/low 104/gap -16/
C2  | n=2 m=1 D=8 k=1 0:3 1:1 128:10 129:10 192:-2 193:-1 194:-12 \
    | steps 1/mat 0 0/mat 1 0/lim 0 12 12/low 104/gap -104/
C3  | n=1 m=1 k=2 0:1 128:1 192:-1 193:-5 | refused 9 1/
C4  | n=1 m=1 k=1 0:1 128:1 192:-1 193:-5 | refused 9 1/
C5  | n=1 m=1 p=1024 193:-1048577         | refused 10 0/
C6  | n=1 m=1 p=1024 193:-1048576         | refused 9 1/
C7  | n=1 m=0                             | steps 1/mat 0 0/low 0/gap 0/
C8  | n=1 m=0 k=2 0:-2 128:3              | steps 2/mat 0 6/low -6/gap 0/
C9  | n=1 m=0 0:5 64:4 128:4              | steps 1/mat 0 4/low 20/gap 0/
C10 | n=1 m=0 64:4 128:3                  | refused 7 0/
"""
# The worked sheets with starting multipliers (T11.3), in the same form.
STARTED_TABLE = """
S1  | n=2 m=1 D=8 k=4 0:3 1:1 128:10 129:10 192:-2 193:-1 194:-12 195:12 \
    | steps 4/mat 0 10/mat 1 30/lim 0 14 -2/low 104/gap 64/
S2  | n=1 m=1 0:1 128:1 192:-1 193:-5 194:5 | refused 9 0/
S3  | n=1 m=1 D=2 k=2 0:1 64:1 128:3 192:1 193:3 194:10 | steps 2/mat 0 2/lim 0 6 -4/low 2/gap 0/
S4  | n=1 m=1 194:1073741824                | steps 1/mat 0 0/lim 0 1073741824 0/low 0/gap 0/
S5  | n=1 m=1 194:1073741825                | refused 6 0/
S6  | n=32 m=16 31:5 159:1 1183:-1 1184:-1 1185:7 \
    | steps 1/mat 0 0/mat 1 0/mat 2 0/mat 3 0/mat 4 0/mat 5 0/mat 6 0/mat 7 0/mat 8 0/mat 9 0/mat 10 0/mat 11 0/\
mat 12 0/mat 13 0/mat 14 0/mat 15 0/mat 16 0/mat 17 0/mat 18 0/mat 19 0/mat 20 0/mat 21 0/mat 22 0/mat 23 0/\
mat 24 0/mat 25 0/mat 26 0/mat 27 0/mat 28 0/mat 29 0/mat 30 0/mat 31 1/lim 0 0 0/lim 1 0 0/lim 2 0 0/lim 3 0 0/\
lim 4 0 0/lim 5 0 0/lim 6 0 0/lim 7 0 0/lim 8 0 0/lim 9 0 0/lim 10 0 0/lim 11 0 0/lim 12 0 0/lim 13 0 0/lim 14 0 0/\
lim 15 7 0/low 5/gap 0/
S7  | n=1 m=1 p=4 D=6 0:1 128:2 192:-2 193:-3 194:12 | steps 1/mat 0 2/lim 0 8 -1/low 4/gap 8/
S8  | n=1 m=1 p=1024 D=1024 0:10000 64:1000 128:1000 192:-1000 193:32000000 194:1073741824 \
    | steps 1/mat 0 1000/lim 0 0 -33000000/low 10240000000/gap 0/
S9  | n=1 m=1 0:1 64:1 128:1 192:1 193:1 194:1 195:1 | refused 2 0/
"""
# The worked sheets of the closing look (T11.5), in the same form. L1 is C1 with another k, L4 is C2 with another p, and
# L3 is L2 with a step more.
CLOSING_TABLE = """
L1  | n=2 m=1 D=8 k=3 0:3 1:1 128:10 129:10 192:-2 193:-1 194:-12 \
    | steps 3/mat 0 10/mat 1 20/lim 0 0 -4/low 104/gap 88/
L2  | n=1 m=1 k=2 0:8 128:1 192:-1 193:-2 | steps 2/mat 0 0/lim 0 4 4/low 8/gap -16/
L3  | n=1 m=1 k=3 0:8 128:1 192:-1 193:-2 | refused 9 3/
L4  | n=2 m=1 p=2 D=8 k=1 0:3 1:1 128:10 129:10 192:-2 193:-1 194:-12 \
    | steps 1/mat 0 0/mat 1 0/lim 0 24 12/low 0/gap 0/
L5  | n=1 m=1 p=4 D=6 k=2 0:3 128:2 192:-3 193:-3 | steps 2/mat 0 2/lim 0 0 0/low 0/gap 36/
L6  | n=1 m=1 p=2 D=6 k=1 0:1 128:2 192:-2 193:-3 194:4 | steps 1/mat 0 2/lim 0 2 -1/low 8/gap 4/
L7  | n=1 m=1 D=1024 0:10000 128:1000 193:-1 194:1073741823 \
    | steps 1/mat 0 0/lim 0 1073741824 1/low 1073741824/gap -1073741824/
"""
MARKED = {name: sheet for name, sheet, _ in lines_of(TABLE)}
STARTED = {name: sheet for name, sheet, _ in lines_of(STARTED_TABLE)}
CLOSING = {name: sheet for name, sheet, _ in lines_of(CLOSING_TABLE)}
WORKED = {**MARKED, **STARTED, **CLOSING}
LISTINGS = {name: text.replace("/", "\n").encode() for name, _, text in lines_of(TABLE + STARTED_TABLE + CLOSING_TABLE)}


def words_of(text):
    """The words of a sheet's text. The name of a worked sheet stands for its words."""
    for word in text.split():
        yield from WORKED.get(word, word).split()


def packed(sizes, entries):
    """The bytes of a sheet with six sizes and with entries of a key and a value."""
    keys, values = zip(*entries) if entries else ((), ())
    return struct.pack(f"<6H{len(keys)}H{len(keys)}i", *sizes, *keys, *values)


def bytes_of(text):
    """The bytes of a sheet. Its text has sizes, as n=2; entries, as key:value or row.column:value; and last by how many
    bytes the sheet is made longer or shorter, as +1. Unnamed p, D, k are 1, m is 0, and e is the number of entries; of
    a size named twice the last counts."""
    sizes, entries, change = {"m": 0, "p": 1, "D": 1, "k": 1}, [], 0
    for word in words_of(text):
        if "=" in word:
            name, size = word.split("=")
            sizes[name] = int(size)
        elif ":" in word:
            key, value = word.split(":")
            row, _, column = key.rpartition(".")
            entries.append((64 * int(row or 0) + int(column), int(value)))
        else:
            change = int(word)
    sizes.setdefault("e", len(entries))
    whole = packed([sizes[name] for name in "nmepDk"], entries)
    return whole[: len(whole) + change] + bytes(max(change, 0))


def text_of(sizes, rows):
    """The text of a sheet with the rows of its figures. A figure of 0 has no entry."""
    figures = [(row, column, value) for row, values in enumerate(rows) for column, value in enumerate(values)]
    return f"{sizes} " + " ".join(f"{row}.{column}:{value}" for row, column, value in figures if value != 0)


def framed(part):
    """A frame of the programs of the gate: the length of a sheet in 2 bytes, and its bytes."""
    return struct.pack("<H", len(part)) + part


def frames_in(content, after):
    """The frames of a standard input: each sheet, and the bytes after it that belong to its frame. The last may be cut
    short."""
    at = 0
    while at + 2 <= len(content):
        end = at + 2 + struct.unpack_from("<H", content, at)[0]
        yield content[at + 2 : end], content[end : end + after]
        at = end + after


def record_length_of(sheet):
    """The length of the record of a sheet. Sizes that are out of range or missing count as the largest."""
    n, m = struct.unpack_from("<2H", sheet) if len(sheet) >= 4 else (32, 16)
    return record_length(min(n, 32), min(m, 16))


def lent(length):
    """A buffer as the program `gate_plan` lends it."""
    return bytes((7 * i + 3) % 256 for i in range(length))


def full(n, m, sizes="p=7 D=512 k=300"):
    """A sheet with every entry that n and m allow. No two figures of a kind are equal, and those that may be negative
    have both signs. A start is small where b is below 0: with the residual above 0 a large one would be refused."""
    rows = [[key * 611 % 20_001 - 10_000 for key in range(n)]]
    rows += [[key * 7 % 500 + 1 for key in range(64, 64 + n)], [key * 11 % 500 + 501 for key in range(128, 128 + n)]]
    for first in range(192, 64 * (m + 3), 64):
        a = [key * 611 % 2_001 - 1_000 for key in range(first, first + n)]
        b = (first + n) * 54_321 % 64_000_001 - 32_000_000
        rows.append([*a, b, first // 64 if b < 0 else 2**30 - first * 876_543])
    return text_of(f"n={n} m={m} {sizes}", rows)


# A figure, a sheet with its value left open, the ends of the range of that value, and the place of its entry.
OPEN = [
    ("cost", "n=2 m=2 0.1:{}", -10_000, 10_000, 0),
    ("least amount", "n=2 m=2 1.1:{} 2.1:1000", 1, 1_000, 0),
    ("most amount", "n=2 m=2 0.0:5 2.1:{}", 1, 1_000, 1),
    ("a", "n=2 m=2 0.0:5 4.1:{}", -1_000, 1_000, 1),
    ("b", "n=2 m=2 0.0:5 4.1:5 4.2:{}", -32_000_000, 32_000_000, 2),
    ("start", "n=2 m=2 0.0:5 4.1:5 4.3:{}", 1, 1_073_741_824, 2),
]


def ends_of_figures():
    """The last values inside the range of each kind of figure, and then the first outside it, 0, and -1 where that is
    outside: a name, whether the value is inside, its entry, and the sheet."""
    for name, text, least, greatest, entry in OPEN:
        for value in least, greatest:
            yield f"{name} {value}", True, entry, bytes_of(text.format(value))
        for value in sorted({least - 1, 0, min(least - 1, -1), greatest + 1}):
            yield f"{name} {value}", False, entry, bytes_of(text.format(value))


# A sound sheet, and a damage to it for each of refusals 1 to 7, with its place. The first leaves 11 bytes, which is a
# wrong length too.
PARTS = "n={n} m=1 p={p} 0.0:{value} 1.0:{least} 2.0:10 {key}:5 {change}"
SOUND = {"n": 2, "p": 1, "value": 3, "least": 4, "key": "3.0", "change": 0}
DAMAGES = [
    (1, 0, {"change": -25}),
    (2, 0, {"n": 33}),
    (3, 0, {"change": 1}),
    (4, 0, {"p": 0}),
    (5, 3, {"key": "1023.63"}),
    (6, 0, {"value": 0}),
    (7, 0, {"least": 11}),
]


def damaged_sheets():
    """The sound sheet with each damage alone, and with each two of them, of which the first is named."""
    for number, place, damage in DAMAGES:
        alone = PARTS.format(**{**SOUND, **damage})
        yield Case(f"refusal {number} alone", f"refused {number} {place}", bytes_of(alone))
    for (number, place, damage), (other, _, later) in combinations(DAMAGES, 2):
        both = PARTS.format(**{**SOUND, **later, **damage})
        yield Case(f"refusals {number} and {other}", f"refused {number} {place}", bytes_of(both))
