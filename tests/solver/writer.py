"""A writer of sheets from plain arrays, in exact integers, written from the rules of the task alone (docs/TASK.md, T2,
T3 and T7, and request M-101), never from the code. It shares nothing with the project's code or definitions.

    write(sizes, arrays, buffer)    the answer in words, and the buffer after
    encoded(sizes, arrays)          the bytes of sizes and figures, whether or not they are refused
    arrays_of(sheet)                the sizes and the arrays of a sheet that is read
"""
from typing import Callable, NamedTuple

from planner import AMOUNT, COST, START, A, B, Refused, read
from sheets import packed


class Sizes(NamedTuple):
    """The sizes of a sheet without e, which follows from the figures (T3.5)."""

    n: int
    m: int
    p: int
    D: int
    k: int


class Arrays(NamedTuple):
    """The figures of a sheet: costs, least and most amounts by materials; a by limits, and by materials in each; b and
    starts by limits."""

    c: tuple
    l: tuple
    u: tuple
    a: tuple
    b: tuple
    s: tuple


class Rules(NamedTuple):
    """The rules of writing. A test puts a wrong one in place of one, to see that it finds it."""

    # The ranges (T2.6, T3.2), the arrays of which the length is tested, and the order of the refusals.
    sizes: Sizes = Sizes((1, 32), (0, 16), (1, 1_024), (1, 1_024), (1, 4_096))
    figures: Arrays = Arrays(COST, AMOUNT, AMOUNT, A, B, START)
    measured: tuple = Arrays._fields
    order: tuple = (2, 4, 6, 7, 8)
    # When each refusal is given, and its place.
    is_allowed: Callable = lambda value, least, greatest: value == 0 or least <= value <= greatest
    place_of_figure: Callable = lambda number: 0
    is_crossed: Callable = lambda least, most: least > most
    named: Callable = min
    is_short: Callable = lambda room, length: room < length
    wanted: Callable = lambda length: length
    # What is written: the arrays, how many columns further on, which figures, and in which order.
    as_written: Callable = lambda arrays: arrays
    further: Arrays = Arrays(0, 0, 0, 0, 0, 0)
    is_written: Callable = lambda value: value != 0
    in_order: Callable = sorted
    # The bytes of the buffer after the sheet, and those of a buffer after a refusal.
    rest: Callable = lambda lent: lent
    untouched: Callable = lambda lent: lent


RULES = Rules()


def places_of(n, m):
    """The rows and columns of the figures (T3.2), array by array."""
    limits = range(3, m + 3)
    of_limits = [(row, j) for row in limits for j in range(n)], [(row, n) for row in limits]
    return Arrays(*([(row, j) for j in range(n)] for row in range(3)), *of_limits, [(row, n + 1) for row in limits])


def encoded(sizes, arrays, rules=RULES):
    """The bytes of sizes that fit their two bytes and of figures (T2, T3.5). A key or an e that does not fit is cut to
    its two bytes: there is none where n and m are in their ranges."""
    entries = []
    for places, array, further in zip(places_of(sizes.n, sizes.m), rules.as_written(arrays), rules.further):
        figures = [(64 * row + column + further, value) for (row, column), value in zip(places, array)]
        entries += [(key % 2**16, value) for key, value in figures if rules.is_written(value)]
    n, m, *others = sizes
    return packed([n, m, len(entries) % 2**16, *others], rules.in_order(entries))


def length_of(arrays):
    """The length of a sheet with the figures of some arrays (T2.5, T3.5)."""
    return 12 + 6 * sum(value != 0 for array in arrays for value in array)


def outside(sizes, ranges):
    """Whether one of some sizes is not in its range."""
    return not all(least <= size <= greatest for size, (least, greatest) in zip(sizes, ranges))


def have_lengths(sizes, arrays, measured=Arrays._fields):
    """Whether those arrays that are measured have the lengths that the sizes say."""
    n, m = sizes.n, sizes.m
    due = Arrays(n, n, n, n * m, m, m)
    return all(len(getattr(arrays, name)) == getattr(due, name) for name in measured)


def wrong_dimensions(sizes, arrays, room, rules):
    """The place of refusal 2, where it is given."""
    if outside(sizes[:2], rules.sizes[:2]) or not have_lengths(sizes, arrays, rules.measured):
        yield 0


def wrong_parameters(sizes, arrays, room, rules):
    """The place of refusal 4, where it is given."""
    if outside(sizes[2:], rules.sizes[2:]):
        yield 0


def wrong_figures(sizes, arrays, room, rules):
    """The places of refusal 6, one for each figure that it could be given for."""
    figures = [(value, ends) for array, ends in zip(arrays, rules.figures) for value in array]
    for number, (value, ends) in enumerate(figures):
        if not rules.is_allowed(value, *ends):
            yield rules.place_of_figure(number)


def crossed_bounds(sizes, arrays, room, rules):
    """The places of refusal 7, one for each material that it could be given for."""
    for j, bounds in enumerate(zip(arrays.l, arrays.u)):
        if rules.is_crossed(*bounds):
            yield j


def short_buffer(sizes, arrays, room, rules):
    """The place of refusal 8, where it is given."""
    length = len(encoded(sizes, arrays, rules))
    if rules.is_short(room, length):
        yield rules.wanted(length)


REFUSALS = {2: wrong_dimensions, 4: wrong_parameters, 6: wrong_figures, 7: crossed_bounds, 8: short_buffer}


def write(sizes, arrays, buffer, rules=RULES):
    """The answer to sizes, arrays and a buffer in words, and the buffer after: with a sheet at its start, or as it was
    lent (T7.2). The refusals are tested one after the other, each over everything (T7.3)."""
    for number in rules.order:
        places = [*REFUSALS[number](sizes, arrays, len(buffer), rules)]
        if places:
            return str(Refused(number, rules.named(places))), rules.untouched(buffer)
    sheet = encoded(sizes, arrays, rules)
    return f"wrote {len(sheet)}", (sheet + rules.rest(buffer[len(sheet) :]))[: len(buffer)]


def arrays_of(sheet):
    """The sizes and the arrays of a sheet that is read."""
    s = read(sheet)
    return Sizes(s.n, s.m, s.p, s.D, s.k), Arrays(s.c, s.l, s.u, sum(s.a, ()), s.b, s.starts)


def further_faults():
    """Writers that put the figures of one array a column further on."""
    for name in Arrays._fields:
        yield f"{name} a column further on", Rules(further=RULES.further._replace(**{name: 1}))


def unmeasured_faults():
    """Writers that do not test the length of one array. Figures that are missing count as 0, and others too many are
    not written."""
    for name in Arrays._fields:
        measured = tuple(each for each in Arrays._fields if each != name)
        yield f"the length of {name} not tested", Rules(measured=measured)


# Writers that are wrong in one rule.
FAULTS = {
    **dict(further_faults()),
    "zeros written": Rules(is_written=lambda value: True),
    "keys falling": Rules(in_order=lambda entries: sorted(entries, reverse=True)),
    "starts left out": Rules(as_written=lambda arrays: arrays._replace(s=())),
    "least and most exchanged": Rules(as_written=lambda arrays: arrays._replace(l=arrays.u, u=arrays.l)),
    "a byte beyond": Rules(rest=lambda lent: bytes(1) + lent[1:]),
    "a byte at a refusal": Rules(untouched=lambda lent: lent[:-1] + bytes(1) if lent else lent),
    "4 before 2": Rules(order=(4, 2, 6, 7, 8)),
    "6 before 4": Rules(order=(2, 6, 4, 7, 8)),
    "7 before 6": Rules(order=(2, 4, 7, 6, 8)),
    "8 before 7": Rules(order=(2, 4, 6, 8, 7)),
    **dict(unmeasured_faults()),
    "0 refused where it is outside": Rules(is_allowed=lambda value, least, greatest: least <= value <= greatest),
    "6 at the figure": Rules(place_of_figure=lambda number: number),
    "7 where they are equal": Rules(is_crossed=lambda least, most: 0 < most <= least),
    "7 not where most is 0": Rules(is_crossed=lambda least, most: 0 < most < least),
    "7 at the last": Rules(named=max),
    "8 where it just fits": Rules(is_short=lambda room, length: room <= length),
    "8 not where a byte is missing": Rules(is_short=lambda room, length: room + 1 < length),
    "the wrong length wanted": Rules(wanted=lambda length: length + 6),
}
