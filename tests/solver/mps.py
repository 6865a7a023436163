"""A writer of sheets as free MPS, written from the rules of the task alone (docs/TASK.md, T2, T3, T7 and T14, and
request M-104), never from the code. It shares nothing with the project's code or definitions, nor with the reader of
mps_reader.py.

    write_mps(sheet, buffer)    the answer in words, and the buffer after
    printed_mps(sheet)          what batchmps prints
    text_of(s)                  the text of a sheet as it is read
"""
from typing import Callable, NamedTuple

from planner import Refused, read, read_but_bounds

# The length of the longest text (T14.7): a buffer as long takes every one.
LONGEST_TEXT = 9_248


class Rules(NamedTuple):
    """The rules of a text and of its buffer. A test puts a wrong one in place of one, to see that it finds it."""

    # The first line, the sections in their order, the line of a section with those under it, and the last line.
    heading: Callable = lambda s: "NAME SHEET"
    order: tuple = ("ROWS", "COLUMNS", "RHS", "BOUNDS")
    section: Callable = lambda word, lines: [word, *lines]
    closing: tuple = ("ENDATA",)
    # How a line, its end, a number and a name are written, and the sign of a limit.
    line: Callable = lambda fields: "".join(f" {field}" for field in fields)
    end: str = "\n"
    number: Callable = str
    name: Callable = lambda letter, number: f"{letter}{number}"
    limit: str = "L"
    # Which figures have a line.
    has_cost: Callable = lambda cost: True
    has_coefficient: Callable = lambda a: a != 0
    has_rhs: Callable = lambda b: b != 0
    # The figures themselves: a coefficient, a right-hand side, the bounds of a material with their words, and what is
    # carried besides as right-hand sides.
    coefficient: Callable = lambda s, i, j: s.a[i][j]
    rhs: Callable = lambda b: b
    bounds: Callable = lambda least, most: [("LO", least), ("UP", most)]
    besides: Callable = lambda s: []
    # What comes first: of the limits under ROWS and RHS; of the lines under COLUMNS by material and limit, where the
    # cost counts as limit -1; and under BOUNDS by material and which of its bounds it is.
    limits_by: Callable = lambda i: i
    columns_by: Callable = lambda j, i: (j, i)
    bounds_by: Callable = lambda j, which: (j, which)
    # What is refused and with which place, and what is left in the buffer: after the text, and after refusals.
    reader: Callable = read
    is_short: Callable = lambda room, length: room < length
    wanted: Callable = lambda room, length: length
    rest: Callable = lambda lent: lent
    untouched: Callable = lambda lent: lent
    at_eleven: Callable = lambda text, lent: lent


RULES = Rules()


def rows(s, rules):
    """The lines of the rows: the cost, and the limits."""
    yield "N", "COST"
    for i in sorted(range(s.m), key=rules.limits_by):
        yield rules.limit, rules.name("L", i)


def columns(s, rules):
    """The lines of the columns: of each material its cost, and its coefficients in the limits."""
    figures = [(j, -1, s.c[j]) for j in range(s.n) if rules.has_cost(s.c[j])]
    for j in range(s.n):
        coefficients = [(i, rules.coefficient(s, i, j)) for i in range(s.m)]
        figures += [(j, i, a) for i, a in coefficients if rules.has_coefficient(a)]
    for j, i, value in sorted(figures, key=lambda figure: rules.columns_by(*figure[:2])):
        yield rules.name("X", j), "COST" if i < 0 else rules.name("L", i), rules.number(value)


def right_hand_sides(s, rules):
    """The lines of the right-hand sides."""
    for i in sorted(range(s.m), key=rules.limits_by):
        if rules.has_rhs(s.b[i]):
            yield "RHS", rules.name("L", i), rules.number(rules.rhs(s.b[i]))
    yield from rules.besides(s)


def bounds(s, rules):
    """The lines of the bounds."""
    found = [(j, *each) for j in range(s.n) for each in enumerate(rules.bounds(s.l[j], s.u[j]))]
    for j, _, (word, value) in sorted(found, key=lambda bound: rules.bounds_by(*bound[:2])):
        yield word, "BND", rules.name("X", j), rules.number(value)


SECTIONS = {"ROWS": rows, "COLUMNS": columns, "RHS": right_hand_sides, "BOUNDS": bounds}


def text_of(s, rules=RULES):
    """The text of a sheet as it is read (T14.2 to T14.4)."""
    lines = [rules.heading(s)]
    for word in rules.order:
        lines += rules.section(word, [rules.line(fields) for fields in SECTIONS[word](s, rules)])
    return "".join(f"{line}{rules.end}" for line in [*lines, *rules.closing]).encode()


def write_mps(sheet, buffer, rules=RULES):
    """The answer to a sheet and a buffer in words, and the buffer after: with the text at its start, or as it was lent
    (T14.5, T14.6)."""
    try:
        s = rules.reader(sheet)
    except Refused as refusal:
        return str(refusal), rules.untouched(buffer)
    text = text_of(s, rules)
    if rules.is_short(len(buffer), len(text)):
        place = rules.wanted(len(buffer), len(text))
        return str(Refused(11, place)), rules.at_eleven(text, rules.untouched(buffer))
    try:
        # Here a sheet is refused by the rules alone whose reader leaves 7 out.
        read(sheet)
    except Refused as refusal:
        return str(refusal), rules.untouched(buffer)
    return f"wrote {len(text)}", (text + rules.rest(buffer[len(text) :]))[: len(buffer)]


def printed_mps(sheet, rules=RULES):
    """What batchmps prints for a sheet: its text, or the line of its refusal (T14.8). Its buffer takes every text."""
    answer, buffer = write_mps(sheet, bytes(2 * LONGEST_TEXT), rules)
    word, number, *_ = answer.split()
    return buffer[: int(number)] if word == "wrote" else f"{answer}\n".encode()


def by_letters(number):
    """Puts numbers in the order of their digits, so that 10 comes before 2. That of the cost stays the first."""
    return str(number) if number >= 0 else ""


def transposed(s, i, j):
    """The coefficient that stands in the place of another where they are kept material by material."""
    return sum(s.a, ())[s.m * j + i]


def starts_of(s):
    """The starts as right-hand sides of their own."""
    return [("START", f"L{i}", str(start)) for i, start in enumerate(s.starts) if start != 0]


def without_least_of_0(least, most):
    """No line for a least amount of 0, which is what a reader of MPS takes then."""
    return [("LO", least), ("UP", most)] if least != 0 else [("UP", most)]


def as_one_where_equal(least, most):
    """One line for bounds that are equal."""
    return [("FX", least)] if least == most else [("LO", least), ("UP", most)]


# Writers whose texts are wrong in one rule.
IN_TEXTS = {
    "a cost of 0 left out": Rules(has_cost=lambda cost: cost != 0),
    "a coefficient of 0 written": Rules(has_coefficient=lambda a: True),
    "a right-hand side of 0 written": Rules(has_rhs=lambda b: True),
    "a coefficient below 0 left out": Rules(has_coefficient=lambda a: a > 0),
    "a right-hand side below 0 left out": Rules(has_rhs=lambda b: b > 0),
    "costs after limits": Rules(columns_by=lambda j, i: (j, i < 0, i)),
    "limits before materials": Rules(columns_by=lambda j, i: (i, j)),
    "limits falling in a column": Rules(columns_by=lambda j, i: (j, i >= 0, -i)),
    "limits falling": Rules(limits_by=lambda i: -i),
    "materials falling in columns": Rules(columns_by=lambda j, i: (-j, i)),
    "materials falling in bounds": Rules(bounds_by=lambda j, which: (-j, which)),
    "limits in the order of letters": Rules(limits_by=by_letters, columns_by=lambda j, i: (j, by_letters(i))),
    "materials in the order of letters": Rules(columns_by=lambda j, i: (by_letters(j), i)),
    "coefficients transposed": Rules(coefficient=transposed),
    "LO after UP": Rules(bounds=lambda least, most: [("UP", most), ("LO", least)]),
    "every LO before every UP": Rules(bounds_by=lambda j, which: (which, j)),
    "least and most exchanged": Rules(bounds=lambda least, most: [("LO", most), ("UP", least)]),
    "a least amount of 0 left out": Rules(bounds=without_least_of_0),
    "equal bounds as FX": Rules(bounds=as_one_where_equal),
    "RHS and BOUNDS exchanged": Rules(order=("ROWS", "COLUMNS", "BOUNDS", "RHS")),
    "COLUMNS and ROWS exchanged": Rules(order=("COLUMNS", "ROWS", "RHS", "BOUNDS")),
    "no header without lines": Rules(section=lambda word, lines: [word, *lines] if lines else []),
    "no header RHS at all": Rules(section=lambda word, lines: lines if word == "RHS" else [word, *lines]),
    "starts carried": Rules(besides=starts_of),
    "steps carried": Rules(heading=lambda s: f"NAME SHEET {s.p}/{s.D} {s.k}"),
    "right-hand sides turned round": Rules(rhs=lambda b: -b),
    "limits from below": Rules(limit="G"),
    "limits as equations": Rules(limit="E"),
    "names from 1": Rules(name=lambda letter, number: f"{letter}{number + 1}"),
    "names of two digits": Rules(name=lambda letter, number: f"{letter}{number:02}"),
    "a sign before every number": Rules(number=lambda value: f"{value:+}"),
    "signs lost": Rules(number=lambda value: str(abs(value))),
    "numbers with a point": Rules(number=lambda value: f"{value}.0"),
    "numbers of seven digits": Rules(number=lambda value: str(value)[:7]),
    "another name": Rules(heading=lambda s: "NAME sheet"),
    "no name": Rules(heading=lambda s: "NAME"),
    "FREE in the first line": Rules(heading=lambda s: "NAME SHEET FREE"),
    "fields parted by two spaces": Rules(line=lambda fields: "".join(f"  {field}" for field in fields)),
    "no space before a line": Rules(line=" ".join),
    "a space after a line": Rules(line=lambda fields: " " + "".join(f"{field} " for field in fields)),
    "two bytes at the end of a line": Rules(end="\r\n"),
    "no ENDATA": Rules(closing=()),
    "an empty line at the end": Rules(closing=("ENDATA", "")),
}
# Writers whose answers or buffers are wrong in one rule. The program batchmps, whose buffer takes every text, does not
# show it.
IN_BUFFERS = {
    "11 before 7": Rules(reader=read_but_bounds),
    "11 where it just fits": Rules(is_short=lambda room, length: room <= length),
    "11 not where a byte is missing": Rules(is_short=lambda room, length: room + 1 < length),
    "11 not where the buffer is empty": Rules(is_short=lambda room, length: 0 < room < length),
    "the place one short": Rules(wanted=lambda room, length: length - 1),
    "the place one too many": Rules(wanted=lambda room, length: length + 1),
    "the bytes that are missing as place": Rules(wanted=lambda room, length: length - room),
    "the longest text as place": Rules(wanted=lambda room, length: LONGEST_TEXT),
    "a byte beyond the text": Rules(rest=lambda lent: bytes(1) + lent[1:]),
    "a byte at the end of the buffer": Rules(rest=lambda lent: lent[:-1] + bytes(1) if lent else lent),
    "a byte at a refusal": Rules(untouched=lambda lent: bytes(1) + lent[1:] if lent else lent),
    "a cut text at 11": Rules(at_eleven=lambda text, lent: text[: len(lent)]),
}
FAULTS = {**IN_TEXTS, **IN_BUFFERS}
