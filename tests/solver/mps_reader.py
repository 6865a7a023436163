"""A reader of free MPS texts, written from the format alone and not from the writer of mps.py: it shares nothing with
it, nor with the project's code.

    read_mps(text)    the linear program of a text; a text that breaks the form is an error, which names the line

The form is that of the common descriptions of MPS, with fields that are parted by white space. What readers take in
different ways is an error here, so that what is read is what every reader would read.

    A line that begins with `*` is a comment, and so is what stands from a third or later field on that begins with
    `$`; a line of white space alone counts for nothing. A line that begins without white space opens a section, every
    other is an entry of the section that is open.
    NAME                      may have the name of the problem after it, and then the word FREE
    ROWS                      kind and name: N for the objective, of which there is one; L, G and E for rows that are
                              at most, at least and equal to their right-hand sides
    COLUMNS                   column, row and value, and perhaps a further row and value. The entries of a column stand
                              together, and no row comes twice in it
    RHS                       the name of the set, row and value, and perhaps a further row and value. There is one set
    BOUNDS                    kind, the name of the set, column and, but for FR, MI, PL and BV, a value
    ENDATA                    ends the text

The sections stand in this order; RHS and BOUNDS may be missing. A row without a right-hand side has 0. A column without
bounds goes from 0 up without end. Sections and kinds that no sheet needs (RANGES, OBJSENSE, integer columns) are
errors.
"""
import re
from fractions import Fraction
from typing import NamedTuple

ORDER = ["NAME", "ROWS", "COLUMNS", "RHS", "BOUNDS", "ENDATA"]
NEEDED = {"NAME", "ROWS", "COLUMNS", "ENDATA"}
ASCII = re.compile(r"[\t -~]*")
NUMBER = re.compile(r"[+-]?(?:\d+\.?\d*|\.\d+)(?:[eE][+-]?\d+)?")


class NoMps(Exception):
    """A text that breaks the form: the number of a line, and what is wrong there."""

    def __str__(self):
        return "line {}: {}".format(*self.args)


class Program(NamedTuple):
    """A linear program: its name, that of its objective, the kinds of the rows, the columns in their order, the
    coefficients of the objective and, by row and column, of the rows; the right-hand sides that have an entry; and the
    bounds of every column, of which None is none."""

    name: str
    objective: str
    kinds: dict
    columns: list
    costs: dict
    coefficients: dict
    rhs: dict
    bounds: dict


def without_comment(fields):
    """The fields of an entry before a comment."""
    return [field for place, field in enumerate(fields) if not any(each[0] == "$" for each in fields[2 : place + 1])]


class Reader:
    """What is read so far, line by line."""

    def __init__(self):
        self.section, self.number = None, 0
        self.name, self.objective, self.kinds = "", None, {}
        self.columns, self.costs, self.coefficients = [], {}, {}
        self.sets, self.rhs, self.lows, self.highs = {}, {}, {}, {}

    def need(self, condition, fault):
        if not condition:
            raise NoMps(self.number, fault)

    def value(self, field):
        self.need(NUMBER.fullmatch(field), f"{field} is no number")
        return Fraction(field)

    def open(self, fields):
        """A line that opens a section."""
        word, *others = fields
        self.need(word in ORDER, f"there is no section {word}")
        before = -1 if self.section is None else ORDER.index(self.section)
        self.need(ORDER.index(word) > before, f"{word} comes after {self.section}")
        skipped = NEEDED & set(ORDER[before + 1 : ORDER.index(word)])
        self.need(not skipped, f"{word} comes before {', '.join(sorted(skipped))}")
        if word == "NAME":
            self.need(len(others) <= 2 and others[1:] in ([], ["FREE"]), "the line of the name has other words")
            self.name = others[0] if others else ""
        else:
            self.need(not others, f"{word} has other words after it")
        self.need(word != "COLUMNS" or self.objective is not None, "there is no objective")
        self.section = word

    def row(self, fields):
        """An entry of ROWS."""
        self.need(len(fields) == 2, "a row has two fields")
        kind, name = fields
        self.need(kind in ("N", "L", "G", "E"), f"there are no rows of the kind {kind}")
        self.need(name not in self.kinds and name != self.objective, f"the row {name} comes twice")
        if kind == "N":
            self.need(self.objective is None, "there is a second objective")
            self.objective = name
        else:
            self.kinds[name] = kind

    def pairs(self, fields):
        """One row with its value, or two."""
        self.need(len(fields) in (2, 4), "there is a row without a value, or there are too many fields")
        for name, field in zip(fields[::2], fields[1::2]):
            self.need(name in self.kinds or name == self.objective, f"there is no row {name}")
            yield name, self.value(field)

    def column(self, fields):
        """An entry of COLUMNS."""
        column, *others = fields
        self.need("'MARKER'" not in others, "there are integer columns")
        if column not in self.columns[-1:]:
            self.need(column not in self.columns, f"the column {column} comes in two parts")
            self.columns.append(column)
        for row, value in self.pairs(others):
            into, key = (self.costs, column) if row == self.objective else (self.coefficients, (row, column))
            self.need(key not in into, f"the row {row} comes twice in the column {column}")
            into[key] = value

    def one_set(self, name):
        """The name of the set of an entry, which is that of the others in its section."""
        self.need(self.sets.setdefault(self.section, name) == name, f"there is a second set, {name}")

    def right_hand_side(self, fields):
        """An entry of RHS. One of the objective is read as a constant of either sign, and so it is an error."""
        self.need(len(fields) in (3, 5), "a right-hand side has a set, and then rows with their values")
        self.one_set(fields[0])
        for row, value in self.pairs(fields[1:]):
            self.need(row != self.objective, "the objective has a right-hand side")
            self.need(row not in self.rhs, f"the right-hand side of {row} comes twice")
            self.rhs[row] = value

    def bound(self, fields):
        """An entry of BOUNDS. Some readers take away the bound from below where that from above is less than 0 and
        comes first, and so this is an error."""
        kind, *others = fields
        ends = {"LO": 1, "UP": 1, "FX": 1, "FR": 0, "MI": 0, "PL": 0, "BV": 0}
        self.need(kind in ends, f"there are no bounds of the kind {kind}")
        self.need(len(others) == 2 + ends[kind], f"a bound {kind} has {3 + ends[kind]} fields")
        self.one_set(others[0])
        column = others[1]
        self.need(column in self.columns, f"there is no column {column}")
        value = self.value(others[2]) if ends[kind] else None
        low = {"LO": value, "FX": value, "FR": None, "MI": None, "BV": Fraction(0)}
        high = {"UP": value, "FX": value, "FR": None, "PL": None, "BV": Fraction(1)}
        self.need(kind != "UP" or value >= 0 or column in self.lows, "a bound UP below 0 has no LO before it")
        for into, given in (self.lows, low), (self.highs, high):
            if kind in given:
                self.need(column not in into, f"the bound {kind} of {column} comes twice")
                into[column] = given[kind]

    def line(self, line):
        """One line of the text."""
        self.number += 1
        self.need(ASCII.fullmatch(line), "there is a sign that is no ASCII text")
        if line.startswith("*") or not line.split():
            return
        self.need(self.section != "ENDATA", "something comes after ENDATA")
        if line[0] not in " \t":
            self.open(line.split())
            return
        entries = {"ROWS": self.row, "COLUMNS": self.column, "RHS": self.right_hand_side, "BOUNDS": self.bound}
        self.need(self.section in entries, "an entry comes before the sections")
        entries[self.section](without_comment(line.split()))

    def program(self):
        """What the whole text says."""
        self.need(self.section == "ENDATA", "there is no ENDATA")
        bounds = {column: (self.lows.get(column, 0), self.highs.get(column)) for column in self.columns}
        for column, (low, high) in bounds.items():
            self.need(None in (low, high) or low <= high, f"the bounds of {column} are crossed")
        parts = self.columns, self.costs, self.coefficients, self.rhs
        return Program(self.name, self.objective, self.kinds, *parts, bounds)


def read_mps(text):
    """The linear program of the bytes of a text."""
    reader = Reader()
    *lines, rest = text.decode("latin-1").split("\n")
    for line in lines:
        reader.line(line)
    reader.need(not rest, "the last line has no end")
    return reader.program()
