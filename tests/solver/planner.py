"""A planner in exact integers, written from the rules of the task alone (docs/TASK.md, T1 to T8), never from the code.
It shares nothing with the project's code or definitions.

    plan(sheet, buffer)     the answer in words, the figures of a plan, and the buffer after
    listing(sheet)          what batchplan prints
    read_listing(text)      the answer and the figures that a listing shows
    reading(sheet)          the figures that are read, in a line, as the program `gate_read` prints them

Of a sheet as it is read:

    closing_look(s, M)      what a step at its closing multipliers would give, with the closing value as dual value
    low_of_steps(s)         low without the closing value
"""
import struct
from functools import lru_cache
from operator import mul
from typing import Callable, NamedTuple


class Refused(Exception):
    """A refusal: its number and its place."""

    def __str__(self):
        return "refused {} {}".format(*self.args)


class Sheet(NamedTuple):
    """The sizes of a sheet, and its figures: one that has no entry is 0 (T3.3). a has a row for each limit; b and
    starts have a figure for each. A start is the multiplier that a limit begins with."""

    n: int
    m: int
    p: int
    D: int
    k: int
    c: tuple
    l: tuple
    u: tuple
    a: tuple
    b: tuple
    starts: tuple


class Step(NamedTuple):
    """What a step gives (T4.3 to T4.5), with the multipliers that it hands on (T4.7)."""

    amounts: tuple
    residuals: tuple
    dual_value: int
    multipliers: tuple


class Plan(NamedTuple):
    """The figures of a plan (T5)."""

    k: int
    low: int
    gap: int
    sums: tuple
    multipliers: tuple
    residual_totals: tuple


class StepRules(NamedTuple):
    """The rules T4.1, T4.3, T4.6 and T4.8. A test puts a wrong one in place of one, to see that it finds it."""

    first_multiplier: Callable = lambda start, D: start
    amount: Callable = lambda reduced_cost, least, most: most if reduced_cost < 0 else least
    is_infeasible: Callable = lambda t, dual_value, greatest: dual_value > greatest
    divergence: Callable = lambda s, t, multipliers: Refused(10, t)


STEP_RULES = StepRules()


class Rules(NamedTuple):
    """The rules of the steps, and refusal 5's place; what the sums, the residual totals and the closing multipliers are
    taken from (T5.1, T5.2, T5.5); the closing value, and refusal 9 there (T5.8); T5.3 and T5.4. A test puts a wrong one
    in place of one here too."""

    of_steps: StepRules = STEP_RULES
    place_of_key: Callable = lambda entry: entry
    in_sums: Callable = lambda steps, look: steps
    in_totals: Callable = lambda steps, look: steps
    closing_multipliers: Callable = lambda k, last, look: last.multipliers
    closing_value: Callable = lambda last, look: look.dual_value
    is_infeasible: Callable = lambda closing_value, greatest: closing_value > greatest
    closing_place: Callable = lambda k: k
    low_of_steps: Callable = lambda least_value, dual_values: max(least_value, *dual_values)
    low: Callable = lambda low_of_steps, closing_value: max(low_of_steps, closing_value)
    gap: Callable = lambda cost, k, low, low_of_steps: cost - k * low


RULES = Rules()

# The greatest multiplier (T4.8), and so the greatest that a limit can begin with.
GREATEST_MULTIPLIER = 1_073_741_824
# The ranges of the figures (T3.2). What a figure is follows from its row and, in the row of a limit, from its column.
COST, AMOUNT, A, B = (-10_000, 10_000), (1, 1_000), (-1_000, 1_000), (-32_000_000, 32_000_000)
START = 1, GREATEST_MULTIPLIER


def range_of(n, key):
    """The least and the greatest value of the figure under a key."""
    row, column = divmod(key, 64)
    if row <= 2:
        return COST if row == 0 else AMOUNT
    return {n: B, n + 1: START}.get(column, A)


def is_bad_key(n, m, key, before):
    """Whether a key names no figure, or is not above the one before. Columns n and n+1 are those of limits alone."""
    row, column = divmod(key, 64)
    return row > m + 2 or column > n + 1 or (column >= n and row <= 2) or key <= before


def test_entries(n, m, keys, values, rules):
    """Refusals 5 and 6, each over all entries (T7.3). The first entry has no key before it."""
    for entry, (key, before) in enumerate(zip(keys, (-1, *keys))):
        if is_bad_key(n, m, key, before):
            raise Refused(5, rules.place_of_key(entry))
    for entry, (key, value) in enumerate(zip(keys, values)):
        least, greatest = range_of(n, key)
        if value == 0 or not least <= value <= greatest:
            raise Refused(6, entry)


def read_but_bounds(sheet, rules=RULES):
    """The sheet of some bytes (T2), whose bounds may be crossed. Refusals 1 to 6 are tested in rising order (T7.3)."""
    if len(sheet) < 12:
        raise Refused(1, 0)
    n, m, e, p, D, k = struct.unpack_from("<6H", sheet)
    if not (1 <= n <= 32 and m <= 16 and e <= n * (m + 3) + 2 * m):
        raise Refused(2, 0)
    if len(sheet) != 12 + 6 * e:
        raise Refused(3, 0)
    if not (1 <= p <= 1_024 and 1 <= D <= 1_024 and 1 <= k <= 4_096):
        raise Refused(4, 0)
    keys = struct.unpack_from(f"<{e}H", sheet, 12)
    values = struct.unpack_from(f"<{e}i", sheet, 12 + 2 * e)
    test_entries(n, m, keys, values, rules)
    figures = dict(zip(keys, values))
    rows = [tuple(figures.get(64 * row + column, 0) for column in range(n + 2)) for row in range(m + 3)]
    (c, l, u), limits = (row[:n] for row in rows[:3]), rows[3:]
    a, (b, starts) = tuple(row[:n] for row in limits), (tuple(row[column] for row in limits) for column in (n, n + 1))
    return Sheet(n, m, p, D, k, c, l, u, a, b, starts)


def read(sheet, rules=RULES):
    """The sheet of some bytes, unless it is refused with one of 1 to 7. Refusal 7 is tested last."""
    s = read_but_bounds(sheet, rules)
    for j in range(s.n):
        if s.l[j] > s.u[j]:
            raise Refused(7, j)
    return s


def is_read(sheet):
    """Whether a sheet is read."""
    try:
        return bool(read(sheet))
    except Refused:
        return False


def dot(xs, ys):
    return sum(map(mul, xs, ys))


def greatest_cost(s):
    """The greatest cost that the bounds leave (T4.6)."""
    return dot(s.c, [u if c > 0 else l for c, l, u in zip(s.c, s.l, s.u)])


def least_cost(s):
    """The least cost that the bounds leave (T5.3)."""
    return dot(s.c, [u if c < 0 else l for c, l, u in zip(s.c, s.l, s.u)])


def columns(s):
    """For each material its coefficients, by limits."""
    return tuple(zip(*s.a)) or ((),) * s.n


def greatest_value(s):
    """The greatest dual value that is not refused (T4.6)."""
    return s.D * greatest_cost(s)


def step(s, by_material, multipliers, rules=STEP_RULES):
    """The step at given multipliers (T4.2 to T4.5), with the moved ones (T4.7)."""
    reduced_costs = [s.D * c + dot(multipliers, column) for c, column in zip(s.c, by_material)]
    amounts = tuple(map(rules.amount, reduced_costs, s.l, s.u))
    residuals = tuple(dot(row, amounts) - b for row, b in zip(s.a, s.b))
    dual_value = s.D * dot(s.c, amounts) + dot(multipliers, residuals)
    moved = tuple(max(0, M + s.p * residual) for M, residual in zip(multipliers, residuals))
    return Step(amounts, residuals, dual_value, moved)


def steps_of(s, rules=STEP_RULES):
    """The steps 0 to k−1, one after the other (T5), unless one is refused (T4.6, T4.8). The first begins with the
    starts of the sheet (T4.1)."""
    multipliers = tuple(rules.first_multiplier(start, s.D) for start in s.starts)
    by_material, greatest = columns(s), greatest_value(s)
    for t in range(s.k):
        done = step(s, by_material, multipliers, rules)
        if rules.is_infeasible(t, done.dual_value, greatest):
            raise Refused(9, t)
        if any(M > GREATEST_MULTIPLIER for M in done.multipliers):
            raise rules.divergence(s, t, done.multipliers)
        yield done
        multipliers = done.multipliers


def totals(rows):
    """The total of each place over some rows."""
    return tuple(map(sum, zip(*rows)))


@lru_cache(maxsize=3)
def steps_or_refusal(s, rules):
    """The steps of a sheet together, or the refusal of one. The last are kept, because a test asks for a plan and then
    for its steps, and plans a sheet by several rules, some of which differ after the steps."""
    try:
        return tuple(steps_of(s, rules))
    except Refused as refusal:
        return refusal


def all_steps(s, rules=STEP_RULES):
    """The steps of a sheet together, unless one is refused."""
    steps = steps_or_refusal(s, rules)
    if isinstance(steps, Refused):
        raise Refused(*steps.args)
    return steps


def closing_look(s, multipliers, rules=STEP_RULES):
    """What a step at the closing multipliers would give. It is not taken: its dual value is the closing value, and
    nothing else of it counts (T5.8)."""
    return step(s, columns(s), multipliers, rules)


def low_of_steps(s, rules=RULES):
    """The greatest of D times the least cost and the dual values of the steps (T5.3), without the closing value."""
    return rules.low_of_steps(s.D * least_cost(s), [each.dual_value for each in all_steps(s, rules.of_steps)])


@lru_cache(maxsize=1)
def run(s, rules=RULES):
    """The plan after k steps (T5), unless the closing look is refused. The last is kept, because a test plans a sheet
    with several buffers."""
    steps = all_steps(s, rules.of_steps)
    look = closing_look(s, steps[-1].multipliers, rules.of_steps)
    closing_value = rules.closing_value(steps[-1], look)
    if rules.is_infeasible(closing_value, greatest_value(s)):
        raise Refused(9, rules.closing_place(s.k))
    before = low_of_steps(s, rules)
    low = rules.low(before, closing_value)
    sums = totals(each.amounts for each in rules.in_sums(steps, look))
    residual_totals = totals(each.residuals for each in rules.in_totals(steps, look))
    gap = rules.gap(s.D * dot(s.c, sums), s.k, low, before)
    return Plan(s.k, low, gap, sums, rules.closing_multipliers(s.k, steps[-1], look), residual_totals)


def record_length(n, m):
    return 22 + 4 * n + 12 * m


LONGEST_RECORD = record_length(32, 16)


def record_of(figures):
    """The bytes of a plan's record (T6.1)."""
    n, m = len(figures.sums), len(figures.multipliers)
    arrays = *figures.sums, *figures.multipliers, *figures.residual_totals
    return struct.pack(f"<3H2q{n}I{m}i{m}q", n, m, figures.k, figures.low, figures.gap, *arrays)


def plan(sheet, buffer, rules=RULES):
    """The answer to a sheet in words, the figures of a plan or None, and the buffer after (T6, T7)."""
    try:
        s = read(sheet, rules)
        if len(buffer) < record_length(s.n, s.m):
            raise Refused(8, record_length(s.n, s.m))
        figures = run(s, rules)
    except Refused as refusal:
        return str(refusal), None, buffer
    record = record_of(figures)
    return f"plan {figures.low} {figures.gap}", figures, record + buffer[len(record) :]


def in_words(answer, figures):
    """The answer to a sheet and the arrays of a plan, in a line."""
    arrays = (*figures.sums, *figures.multipliers, *figures.residual_totals) if figures else ()
    return " ".join(map(str, [answer, *arrays]))


def listing_of(answer, figures):
    """The listing of an answer (T8)."""
    if figures is None:
        return f"{answer}\n".encode()
    lines = [f"steps {figures.k}"]
    lines += [f"mat {j} {total}" for j, total in enumerate(figures.sums)]
    limits = zip(figures.multipliers, figures.residual_totals)
    lines += [f"lim {i} {M} {total}" for i, (M, total) in enumerate(limits)]
    lines += [f"low {figures.low}", f"gap {figures.gap}"]
    return "".join(f"{line}\n" for line in lines).encode()


def listing(sheet, rules=RULES):
    """What batchplan prints for a sheet: its buffer is long enough for any record (T10.2)."""
    answer, figures, _ = plan(sheet, bytes(LONGEST_RECORD), rules)
    return listing_of(answer, figures)


def read_listing(text):
    """The answer and the figures that a listing shows. Any other text is an error."""
    lines = [line.split() for line in text.decode().splitlines()]
    if lines[0][0] == "refused":
        return " ".join(lines[0]), None
    (k,), (low,), (gap,) = (map(int, lines[place][1:]) for place in (0, -2, -1))
    sums = tuple(int(words[2]) for words in lines if words[0] == "mat")
    limits = [(int(words[2]), int(words[3])) for words in lines if words[0] == "lim"]
    multipliers, residual_totals = zip(*limits) if limits else ((), ())
    answer, figures = f"plan {low} {gap}", Plan(k, low, gap, sums, multipliers, residual_totals)
    if listing_of(answer, figures) != text:
        raise ValueError(f"no listing: {text}")
    return answer, figures


def reading(sheet):
    """What is read of a sheet: a refusal, or the sizes and the figures that are not 0."""
    try:
        s = read(sheet)
    except Refused as refusal:
        return str(refusal)
    figures = [(f"{letter}{j}", value) for letter, row in zip("clu", (s.c, s.l, s.u)) for j, value in enumerate(row)]
    figures += [(f"a{i},{j}", value) for i, row in enumerate(s.a) for j, value in enumerate(row)]
    figures += [(f"{letter}{i}", value) for letter, row in zip("bs", (s.b, s.starts)) for i, value in enumerate(row)]
    listed = [f"{name}={value}" for name, value in figures if value != 0]
    return " ".join(["accepted", *map(str, (s.n, s.m, s.p, s.D, s.k)), *listed])
