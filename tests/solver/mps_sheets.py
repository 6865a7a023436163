"""Sheets for the tests of free MPS: some with their texts by hand (docs/TASK.md, T14), the one with the longest text,
fixed ones, and random ones by stated seeds; and which figures a linear program has that a text says."""
from typing import NamedTuple

from documents import EXAMPLES
from edges import edges, framed_sheets, without_repeats
from generator import Generator
from mps_reader import NoMps
from programs import ROOT
from random_arrays import large, random_tables, wide
from random_sheets import random_cases
from sheets import Case, bytes_of, lines_of, text_of
from writer import encoded, have_lengths

# W2 of T11.4.
W2 = "n=2 m=2 p=5 D=6 k=7 0:3 1:-1 64:1 128:4 129:5 192:6 194:8 256:2 257:-7 258:-9 259:10"

# Sheets that have one text, parted by semicolons, and the text or the refusal. A slash ends a line.
TABLE = f"""
# The worked sheets, and of each what differs from it in the steps and the starts alone. L7 has a coefficient of 0, and
# S4 a right-hand side of 0 too.
C1; C2; S1; L1; L4; C1 p=1024 D=1024 k=4096 \
    | NAME SHEET/ROWS/ N COST/ L L0/COLUMNS/ X0 COST 3/ X0 L0 -2/ X1 COST 1/ X1 L0 -1/RHS/ RHS L0 -12/\
BOUNDS/ LO BND X0 0/ UP BND X0 10/ LO BND X1 0/ UP BND X1 10/ENDATA/
C3; C4; S2 | NAME SHEET/ROWS/ N COST/ L L0/COLUMNS/ X0 COST 1/ X0 L0 -1/RHS/ RHS L0 -5/\
BOUNDS/ LO BND X0 0/ UP BND X0 1/ENDATA/
C5; C5 p=1; C5 3.2:1 | NAME SHEET/ROWS/ N COST/ L L0/COLUMNS/ X0 COST 0/RHS/ RHS L0 -1048577/\
BOUNDS/ LO BND X0 0/ UP BND X0 0/ENDATA/
C6 | NAME SHEET/ROWS/ N COST/ L L0/COLUMNS/ X0 COST 0/RHS/ RHS L0 -1048576/BOUNDS/ LO BND X0 0/ UP BND X0 0/ENDATA/
C7; C7 p=7 D=9 k=99 | NAME SHEET/ROWS/ N COST/COLUMNS/ X0 COST 0/RHS/BOUNDS/ LO BND X0 0/ UP BND X0 0/ENDATA/
C8 | NAME SHEET/ROWS/ N COST/COLUMNS/ X0 COST -2/RHS/BOUNDS/ LO BND X0 0/ UP BND X0 3/ENDATA/
C9 | NAME SHEET/ROWS/ N COST/COLUMNS/ X0 COST 5/RHS/BOUNDS/ LO BND X0 4/ UP BND X0 4/ENDATA/
S3 | NAME SHEET/ROWS/ N COST/ L L0/COLUMNS/ X0 COST 1/ X0 L0 1/RHS/ RHS L0 3/BOUNDS/ LO BND X0 1/ UP BND X0 3/ENDATA/
S4; n=1 m=1; n=1 m=1 p=9 3.2:5 \
    | NAME SHEET/ROWS/ N COST/ L L0/COLUMNS/ X0 COST 0/RHS/BOUNDS/ LO BND X0 0/ UP BND X0 0/ENDATA/
S7; L6 | NAME SHEET/ROWS/ N COST/ L L0/COLUMNS/ X0 COST 1/ X0 L0 -2/RHS/ RHS L0 -3/\
BOUNDS/ LO BND X0 0/ UP BND X0 2/ENDATA/
S8 | NAME SHEET/ROWS/ N COST/ L L0/COLUMNS/ X0 COST 10000/ X0 L0 -1000/RHS/ RHS L0 32000000/\
BOUNDS/ LO BND X0 1000/ UP BND X0 1000/ENDATA/
L2; L3 | NAME SHEET/ROWS/ N COST/ L L0/COLUMNS/ X0 COST 8/ X0 L0 -1/RHS/ RHS L0 -2/\
BOUNDS/ LO BND X0 0/ UP BND X0 1/ENDATA/
L5 | NAME SHEET/ROWS/ N COST/ L L0/COLUMNS/ X0 COST 3/ X0 L0 -3/RHS/ RHS L0 -3/BOUNDS/ LO BND X0 0/ UP BND X0 2/ENDATA/
L7 | NAME SHEET/ROWS/ N COST/ L L0/COLUMNS/ X0 COST 10000/RHS/ RHS L0 -1/BOUNDS/ LO BND X0 0/ UP BND X0 1000/ENDATA/
{W2} \
    | NAME SHEET/ROWS/ N COST/ L L0/ L L1/COLUMNS/ X0 COST 3/ X0 L0 6/ X0 L1 2/ X1 COST -1/ X1 L1 -7/\
RHS/ RHS L0 8/ RHS L1 -9/BOUNDS/ LO BND X0 1/ UP BND X0 4/ LO BND X1 0/ UP BND X1 5/ENDATA/
C10 | refused 7 0/
S5 | refused 6 0/
S9 | refused 2 0/

# Each kind of figure alone, at the first and at the last place.
n=2 m=2 0.0:7 | NAME SHEET/ROWS/ N COST/ L L0/ L L1/COLUMNS/ X0 COST 7/ X1 COST 0/RHS/\
BOUNDS/ LO BND X0 0/ UP BND X0 0/ LO BND X1 0/ UP BND X1 0/ENDATA/
n=2 m=2 0.1:-7 | NAME SHEET/ROWS/ N COST/ L L0/ L L1/COLUMNS/ X0 COST 0/ X1 COST -7/RHS/\
BOUNDS/ LO BND X0 0/ UP BND X0 0/ LO BND X1 0/ UP BND X1 0/ENDATA/
n=2 m=2 2.0:7 | NAME SHEET/ROWS/ N COST/ L L0/ L L1/COLUMNS/ X0 COST 0/ X1 COST 0/RHS/\
BOUNDS/ LO BND X0 0/ UP BND X0 7/ LO BND X1 0/ UP BND X1 0/ENDATA/
n=2 m=2 1.1:6 2.1:7 | NAME SHEET/ROWS/ N COST/ L L0/ L L1/COLUMNS/ X0 COST 0/ X1 COST 0/RHS/\
BOUNDS/ LO BND X0 0/ UP BND X0 0/ LO BND X1 6/ UP BND X1 7/ENDATA/
n=2 m=2 3.0:7 | NAME SHEET/ROWS/ N COST/ L L0/ L L1/COLUMNS/ X0 COST 0/ X0 L0 7/ X1 COST 0/RHS/\
BOUNDS/ LO BND X0 0/ UP BND X0 0/ LO BND X1 0/ UP BND X1 0/ENDATA/
n=2 m=2 3.1:7 | NAME SHEET/ROWS/ N COST/ L L0/ L L1/COLUMNS/ X0 COST 0/ X1 COST 0/ X1 L0 7/RHS/\
BOUNDS/ LO BND X0 0/ UP BND X0 0/ LO BND X1 0/ UP BND X1 0/ENDATA/
n=2 m=2 4.0:-7 | NAME SHEET/ROWS/ N COST/ L L0/ L L1/COLUMNS/ X0 COST 0/ X0 L1 -7/ X1 COST 0/RHS/\
BOUNDS/ LO BND X0 0/ UP BND X0 0/ LO BND X1 0/ UP BND X1 0/ENDATA/
n=2 m=2 4.1:-7 | NAME SHEET/ROWS/ N COST/ L L0/ L L1/COLUMNS/ X0 COST 0/ X1 COST 0/ X1 L1 -7/RHS/\
BOUNDS/ LO BND X0 0/ UP BND X0 0/ LO BND X1 0/ UP BND X1 0/ENDATA/
n=2 m=2 3.2:7 | NAME SHEET/ROWS/ N COST/ L L0/ L L1/COLUMNS/ X0 COST 0/ X1 COST 0/RHS/ RHS L0 7/\
BOUNDS/ LO BND X0 0/ UP BND X0 0/ LO BND X1 0/ UP BND X1 0/ENDATA/
n=2 m=2 4.2:-7 | NAME SHEET/ROWS/ N COST/ L L0/ L L1/COLUMNS/ X0 COST 0/ X1 COST 0/RHS/ RHS L1 -7/\
BOUNDS/ LO BND X0 0/ UP BND X0 0/ LO BND X1 0/ UP BND X1 0/ENDATA/
n=2 m=2; n=2 m=2 3.3:7; n=2 m=2 4.3:7 \
    | NAME SHEET/ROWS/ N COST/ L L0/ L L1/COLUMNS/ X0 COST 0/ X1 COST 0/RHS/\
BOUNDS/ LO BND X0 0/ UP BND X0 0/ LO BND X1 0/ UP BND X1 0/ENDATA/

# Every figure, each another.
n=2 m=3 p=2 D=3 k=4 0.0:5 0.1:6 1.0:7 1.1:8 2.0:9 2.1:10 3.0:11 3.1:12 3.2:17 3.3:20 4.0:13 4.1:14 4.2:18 4.3:21 \
5.0:15 5.1:16 5.2:19 5.3:22 \
    | NAME SHEET/ROWS/ N COST/ L L0/ L L1/ L L2/COLUMNS/ X0 COST 5/ X0 L0 11/ X0 L1 13/ X0 L2 15/ X1 COST 6/ X1 L0 12/\
 X1 L1 14/ X1 L2 16/RHS/ RHS L0 17/ RHS L1 18/ RHS L2 19/BOUNDS/ LO BND X0 7/ UP BND X0 9/ LO BND X1 8/ UP BND X1 10/\
ENDATA/
# More limits than materials, and more materials than limits, with zeros among the figures.
n=1 m=3 0.0:-1 2.0:1 4.0:-1 5.1:-1 | NAME SHEET/ROWS/ N COST/ L L0/ L L1/ L L2/COLUMNS/ X0 COST -1/ X0 L1 -1/\
RHS/ RHS L2 -1/BOUNDS/ LO BND X0 0/ UP BND X0 1/ENDATA/
n=3 m=1 0.1:4 1.0:2 2.0:2 2.2:1 3.0:-3 3.2:3 | NAME SHEET/ROWS/ N COST/ L L0/COLUMNS/ X0 COST 0/ X0 L0 -3/\
 X1 COST 4/ X2 COST 0/ X2 L0 3/RHS/BOUNDS/ LO BND X0 2/ UP BND X0 2/ LO BND X1 0/ UP BND X1 0/ LO BND X2 0/\
 UP BND X2 1/ENDATA/
# Numbers of one digit more or less.
n=4 m=2 0.0:9 0.1:-10 0.2:99 0.3:-100 2.0:9 2.1:10 2.2:99 2.3:100 3.0:-9 3.1:10 3.2:-99 3.3:100 3.4:999 4.0:-999 \
4.1:1000 4.2:-1000 4.4:-1000 \
    | NAME SHEET/ROWS/ N COST/ L L0/ L L1/COLUMNS/ X0 COST 9/ X0 L0 -9/ X0 L1 -999/ X1 COST -10/ X1 L0 10/ X1 L1 1000/\
 X2 COST 99/ X2 L0 -99/ X2 L1 -1000/ X3 COST -100/ X3 L0 100/RHS/ RHS L0 999/ RHS L1 -1000/BOUNDS/ LO BND X0 0/\
 UP BND X0 9/ LO BND X1 0/ UP BND X1 10/ LO BND X2 0/ UP BND X2 99/ LO BND X3 0/ UP BND X3 100/ENDATA/
n=2 m=5 0.0:9999 0.1:-10000 1.0:99 1.1:999 2.0:101 2.1:1000 3.2:9999 4.2:-10000 5.2:999999 6.2:-9999999 7.2:-32000000 \
    | NAME SHEET/ROWS/ N COST/ L L0/ L L1/ L L2/ L L3/ L L4/COLUMNS/ X0 COST 9999/ X1 COST -10000/RHS/ RHS L0 9999/\
 RHS L1 -10000/ RHS L2 999999/ RHS L3 -9999999/ RHS L4 -32000000/BOUNDS/ LO BND X0 99/ UP BND X0 101/ LO BND X1 999/\
 UP BND X1 1000/ENDATA/
"""


class Export(NamedTuple):
    """A sheet and by hand what batchmps prints for it: the text, or the line of a refusal."""

    name: str
    sheet: bytes
    printed: bytes


def with_names_of_two_digits():
    """A sheet of 12 materials and 11 limits: X10 comes after X9, and L10 after L9."""
    figures = "0.2:5 0.10:-6 2.10:8 3.1:1 3.10:2 5.1:3 5.10:4 5.12:13 13.1:7 13.10:-9 13.12:11"
    rows = "".join(f" L L{i}\n" for i in range(11))
    columns = " X0 COST 0\n X1 COST 0\n X1 L0 1\n X1 L2 3\n X1 L10 7\n X2 COST 5\n"
    columns += "".join(f" X{j} COST 0\n" for j in range(3, 10))
    columns += " X10 COST -6\n X10 L0 2\n X10 L2 4\n X10 L10 -9\n X11 COST 0\n"
    bounds = "".join(f" LO BND X{j} 0\n UP BND X{j} {8 if j == 10 else 0}\n" for j in range(12))
    text = f"NAME SHEET\nROWS\n N COST\n{rows}COLUMNS\n{columns}RHS\n RHS L2 13\n RHS L10 11\nBOUNDS\n{bounds}ENDATA\n"
    return Export("names of two digits", bytes_of(f"n=12 m=11 {figures}"), text.encode())


def with_the_longest_text():
    """The sheet of the largest sizes in which every figure has as many characters as it can (T14.7). 11, 5, 8, 102 and
    8 bytes to COLUMNS, 534 for the costs and 7,200 for the coefficients, 4 and 294 for the right-hand sides, 7 and
    1,068 for the bounds, and 7 make 9,248."""
    limit = [-1_000] * 32 + [-32_000_000, 2**30]
    sheet = bytes_of(text_of("n=32 m=16 p=1024 D=1024 k=1", [[-10_000] * 32, *[[1_000] * 32] * 2, *[limit] * 16]))
    rows = "".join(f" L L{i}\n" for i in range(16))
    columns = ""
    for j in range(32):
        columns += f" X{j} COST -10000\n" + "".join(f" X{j} L{i} -1000\n" for i in range(16))
    rhs = "".join(f" RHS L{i} -32000000\n" for i in range(16))
    bounds = "".join(f" LO BND X{j} 1000\n UP BND X{j} 1000\n" for j in range(32))
    text = f"NAME SHEET\nROWS\n N COST\n{rows}COLUMNS\n{columns}RHS\n{rhs}BOUNDS\n{bounds}ENDATA\n"
    return Export("the longest text", sheet, text.encode())


def exports():
    """The sheets with their texts by hand."""
    for sheets, text in lines_of(TABLE):
        for sheet in sheets.split(";"):
            yield Export(sheet.strip(), bytes_of(sheet), text.replace("/", "\n").encode())
    yield with_names_of_two_digits()
    yield with_the_longest_text()


def sheets_by_hand():
    """Of these the sheets alone."""
    return without_repeats([Case(export.name, "", export.sheet) for export in exports()])


def other_fixed_sheets():
    """Fixed sheets without texts by hand: those at the edges of the rules, those that the programs of the gate are run
    on, and those of examples/."""
    cases = [*edges(), *framed_sheets("gate_mps", after=2)]
    for file in sorted(EXAMPLES.glob("*.sheet")):
        cases.append(Case(str(file.relative_to(ROOT)), "", file.read_bytes()))
    by_hand = {export.sheet for export in exports()}
    return [case for case in without_repeats(cases) if case.sheet not in by_hand]


# The seeds of the random sheets that tests/mps compares and tests/mps_solvers loads.
EXPORT_SEEDS = range(71, 95)


def random_exports(seed):
    """Random sheets of a seed, sound and damaged: 100 of those that are planned, and some of 35 tables of any figures,
    with few zeros or with many, as far as bytes can be made of them."""
    yield from random_cases(seed)
    generator = Generator(seed)
    tables = [*random_tables(generator, 25), *((f"wide table {number}", *wide(generator)) for number in range(9))]
    for name, sizes, arrays in [*tables, ("large table", *large(generator))]:
        if max(sizes) < 2**16 and have_lengths(sizes, arrays):
            yield Case(f"seed {seed}, {name}", "", encoded(sizes, arrays))


class Figures(NamedTuple):
    """What a text carries of a sheet (T14.1)."""

    n: int
    m: int
    c: tuple
    l: tuple
    u: tuple
    a: tuple
    b: tuple


def figures_of(s):
    """Those of a sheet as it is read."""
    return Figures(s.n, s.m, s.c, s.l, s.u, s.a, s.b)


def figures_in(program):
    """The figures of a linear program, by the names of T14.2. Their order does not count. The error of any other linear
    program names no line."""
    materials = [f"X{j}" for j in range(len(program.columns))]
    limits = [f"L{i}" for i in range(len(program.kinds))]
    words = program.name, program.objective, {*program.columns}, program.kinds
    if words != ("SHEET", "COST", {*materials}, dict.fromkeys(limits, "L")):
        raise NoMps(0, f"the names are others, or the rows: {words}")
    l, u = zip(*(program.bounds[name] for name in materials))
    c = tuple(program.costs.get(name, 0) for name in materials)
    a = tuple(tuple(program.coefficients.get((limit, name), 0) for name in materials) for limit in limits)
    return Figures(len(materials), len(limits), c, l, u, a, tuple(program.rhs.get(name, 0) for name in limits))
