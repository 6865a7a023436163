"""Random sheets by stated seeds, sound and damaged."""
import struct
from typing import NamedTuple

from generator import Generator
from planner import GREATEST_MULTIPLIER, START, Refused, dot, read, run
from sheets import Case, bytes_of, packed, text_of


class Ranges(NamedTuple):
    """The ranges of a random sheet's figures. `spare` is what a recipe inside the bounds leaves of a limit."""

    n: tuple
    p: tuple
    most: tuple
    a: tuple
    spare: tuple
    D: tuple = (1, 40)
    k: tuple = (1, 40)
    cost: tuple = (-9, 40)


SMALL = [
    # Limits that can be kept, mostly; limits that are missed by a little; and limits that cannot be kept, mostly.
    Ranges(n=(1, 5), p=(1, 6), most=(0, 20), a=(-9, 4), spare=(-1, 4)),
    Ranges(n=(1, 5), p=(1, 2), most=(0, 9), a=(-9, 4), spare=(-9, -1)),
    Ranges(n=(1, 5), p=(1, 6), most=(0, 9), a=(-9, 4), spare=(-40, 5)),
    # Long steps, by which some multipliers diverge after a while, or at once.
    Ranges(n=(6, 9), p=(1_000, 1_024), most=(1_000, 1_000), a=(-1_000, 1_000), spare=(-200_000, 0)),
    Ranges(n=(1, 4), p=(700, 1_024), most=(0, 1_000), a=(-1_000, 1_000), spare=(-2_000_000, 200_000)),
]

# Figures that make ties.
TIES = Ranges(n=(1, 6), p=(1, 2), D=(1, 2), k=(2, 60), cost=(-2, 3), most=(0, 6), a=(-2, 1), spare=(-1, 2))
# Short steps, and many of them.
MANY_STEPS = Ranges(
    n=(2, 6), p=(1, 3), D=(64, 1_024), k=(1_000, 4_096), cost=(1, 90), most=(1, 12), a=(-5, 3), spare=(-1, 9)
)
# Sheets of a middle size.
MIDDLE = Ranges(
    n=(6, 14), p=(1, 8), D=(1, 1_024), k=(20, 200), cost=(-500, 900), most=(0, 300), a=(-60, 60), spare=(-10, 500)
)
# Figures over the whole of their ranges.
WIDE = Ranges(
    n=(1, 32),
    p=(1, 1_024),
    D=(1, 1_024),
    k=(1, 30),
    cost=(-10_000, 10_000),
    most=(0, 1_000),
    a=(-1_000, 1_000),
    spare=(0, 999_999),
)


def random_starts(generator, m, D, ranges):
    """The starts of m limits. Half of the sheets have none. Of the others two thirds have starts of about the size that
    multipliers come to, D times a cost over a coefficient; the rest has them at the top of their range, or anywhere in
    it. A fourth of these starts is 0."""
    usual = 1, 2 * D * max(map(abs, ranges.cost)) // max(map(abs, ranges.a)) + 1
    kinds = [None] * 6 + [usual] * 4 + [(GREATEST_MULTIPLIER - 9, GREATEST_MULTIPLIER), START]
    ends = generator.one_of(kinds)
    return [generator.between(*ends) * min(generator.between(0, 3), 1) if ends else 0 for _ in range(m)]


def random_sheet(generator, n, m, ranges):
    """The text of a sheet of n materials and m limits. About half of the least amounts and a fourth of a are 0. The
    starts are drawn last."""
    p, D, k = (generator.between(*ends) for ends in (ranges.p, ranges.D, ranges.k))
    costs = [generator.between(*ranges.cost) for _ in range(n)]
    most = [generator.between(*ranges.most) for _ in range(n)]
    least = [generator.between(0, each) * generator.between(0, 1) for each in most]
    recipe = [generator.between(*each) for each in zip(least, most)]
    rows = [[generator.between(*ranges.a) * min(generator.between(0, 3), 1) for _ in range(n)] for _ in range(m)]
    limits = [[*row, dot(row, recipe) + generator.between(*ranges.spare)] for row in rows]
    starts = random_starts(generator, m, D, ranges)
    limits = [[*limit, start] for limit, start in zip(limits, starts)]
    return text_of(f"n={n} m={m} p={p} D={D} k={k}", [costs, least, most, *limits])


def small_sheet(generator, ranges):
    """The text of a sheet of few materials, and of 4 limits at most."""
    n, m = generator.between(*ranges.n), generator.between(1, 9) // 2
    return random_sheet(generator, n, m, ranges)


def large_sheet(generator, sizes, b, starts=None):
    """The text of a sheet of the largest sizes, with every entry, or with every one but the starts. Costs and a are at
    the ends of their ranges, and the amounts at or near them; the ranges of b and of the starts are given."""
    ends = [[generator.between(0, 1) for _ in range(32)] for _ in range(19)]
    costs = [20_000 * end - 10_000 for end in ends[0]]
    least, most = [1 + 9 * end for end in ends[1]], [1_000 - end for end in ends[2]]
    limits = [[*(2_000 * end - 1_000 for end in row), generator.between(*b)] for row in ends[3:]]
    if starts:
        limits = [[*limit, generator.between(*starts)] for limit in limits]
    return text_of(f"n=32 m=16 {sizes}", [costs, least, most, *limits])


def small(generator):
    """A small sheet: limits that can be kept, that cannot, and multipliers that diverge."""
    return bytes_of(small_sheet(generator, generator.one_of(SMALL)))


def ties(generator):
    """A small sheet in which reduced costs of 0 are common."""
    return bytes_of(small_sheet(generator, TIES))


def with_many_steps(generator):
    """A small sheet with many steps."""
    return bytes_of(small_sheet(generator, MANY_STEPS))


def middle(generator):
    """A sheet of a middle size, with up to 8 limits."""
    return bytes_of(random_sheet(generator, generator.between(*MIDDLE.n), generator.between(3, 8), MIDDLE))


def wide(generator):
    """A sheet of any size, with figures of any magnitude."""
    return bytes_of(random_sheet(generator, generator.between(*WIDE.n), generator.between(0, 16), WIDE))


def large(generator):
    """A sheet of the largest sizes, with every entry, or with every one but the starts."""
    sizes = f"p={generator.between(1, 40)} D={generator.between(1, 1_024)} k={generator.between(1, 200)}"
    b = generator.one_of([-1_000_000, 0]), 32_000_000
    return bytes_of(large_sheet(generator, sizes, b, generator.one_of([None, (1, 9_999), START])))


def parts_of(sheet):
    """The sizes and the entries of a sound sheet."""
    sizes = struct.unpack_from("<6H", sheet)
    e = sizes[2]
    keys = struct.unpack_from(f"<{e}H", sheet, 12)
    return list(sizes), list(zip(keys, struct.unpack_from(f"<{e}i", sheet, 12 + 2 * e)))


def stopped_at_the_end(generator):
    """A small sheet that its steps refuse, with another number of them: 9 comes at the closing look, 10 comes in the
    last, or 10 would come in one more."""
    wanted, more = generator.one_of([(9, 0), (10, 1), (10, 0)])
    while True:
        sheet = small(generator)
        try:
            run(read(sheet))
        except Refused as refusal:
            number, place = refusal.args
            sizes, entries = parts_of(sheet)
            if number == wanted and place + more > 0:
                return packed([*sizes[:5], place + more], entries)


def sound(generator):
    """A sheet with two entries or more, to be damaged."""
    while True:
        sheet = generator.one_of([small, ties, wide])(generator)
        if len(sheet) >= 24:
            return sheet


def random_bytes(generator):
    """Random bytes alone."""
    return generator.bytes(generator.between(0, 120))


def cut(generator):
    """A sheet that ends anywhere too soon."""
    sheet = sound(generator)
    return sheet[: generator.between(0, len(sheet) - 1)]


def cut_in_the_sizes(generator):
    """A sheet that ends within its sizes or right after them."""
    return sound(generator)[: generator.between(0, 12)]


def overlong(generator):
    """A sheet with some bytes after it."""
    return sound(generator) + generator.bytes(generator.between(1, 12))


def with_random_bytes(generator):
    """Random bytes from some place after the sizes on."""
    sheet = sound(generator)
    place = generator.between(12, len(sheet) - 1)
    return sheet[:place] + generator.bytes(len(sheet) - place)


def with_a_changed_byte(generator):
    """One byte is another, anywhere."""
    sheet = bytearray(sound(generator))
    sheet[generator.between(0, len(sheet) - 1)] ^= generator.between(1, 255)
    return bytes(sheet)


def with_swapped_entries(generator):
    """Two entries have changed places."""
    sizes, entries = parts_of(sound(generator))
    here, there = (generator.between(0, len(entries) - 1) for _ in range(2))
    entries[here], entries[there] = entries[there], entries[here]
    return packed(sizes, entries)


def with_another_size(generator):
    """One of n, m and e is a number near the end of its range, or any number."""
    sizes, entries = parts_of(sound(generator))
    sizes[generator.between(0, 2)] = generator.one_of([0, 1, 2, 15, 16, 17, 31, 32, 33, generator.between(0, 65_535)])
    return packed(sizes, entries)


def with_another_parameter(generator):
    """One of p, D and k is a number at the end of a range, or any number."""
    sizes, entries = parts_of(sound(generator))
    ends = [0, 1, 1_024, 1_025, 4_096, 4_097]
    sizes[generator.between(3, 5)] = generator.one_of([*ends, generator.between(0, 65_535)])
    return packed(sizes, entries)


def with_another_value(generator):
    """One value is 0, a number at the end of a range, or any number."""
    sizes, entries = parts_of(sound(generator))
    ends = [0, 1, 1_000, 1_001, 10_000, 10_001, 32_000_000, 32_000_001, GREATEST_MULTIPLIER, GREATEST_MULTIPLIER + 1]
    value = generator.one_of([*ends, generator.between(0, 2**31 - 1)])
    place = generator.between(0, len(entries) - 1)
    entries[place] = entries[place][0], value * generator.one_of([1, -1])
    return packed(sizes, entries)


def with_a_raised_least_amount(generator):
    """A least amount of 1,000, which the most amount is mostly below."""
    sizes, entries = parts_of(sound(generator))
    entries = sorted({**dict(entries), 64 + generator.between(0, sizes[0] - 1): 1_000}.items())
    sizes[2] = len(entries)
    return packed(sizes, entries)


def with_an_entry_at_the_edge(generator):
    """An entry in one of the columns n to n+2, of any row from 0 to m+3."""
    sizes, entries = parts_of(sound(generator))
    row, column = generator.between(0, sizes[1] + 3), sizes[0] + generator.between(0, 2)
    entries = sorted({**dict(entries), 64 * row + column: generator.between(1, 9)}.items())
    sizes[2] = len(entries)
    return packed(sizes, entries)


# How many sheets of a seed each function makes. They come in this order.
MAKERS = [
    (26, small),
    (4, stopped_at_the_end),
    (13, ties),
    (6, middle),
    (5, wide),
    (1, with_many_steps),
    (1, large),
    (3, random_bytes),
    (3, cut),
    (3, cut_in_the_sizes),
    (3, overlong),
    (4, with_random_bytes),
    (4, with_a_changed_byte),
    (4, with_swapped_entries),
    (4, with_another_size),
    (4, with_another_parameter),
    (4, with_another_value),
    (4, with_a_raised_least_amount),
    (4, with_an_entry_at_the_edge),
]

SHEETS_OF_A_SEED = sum(number for number, _ in MAKERS)


def random_cases(seed, count=SHEETS_OF_A_SEED):
    """The first sheets of a seed."""
    generator = Generator(seed)
    makers = [make for number, make in MAKERS for _ in range(number)]
    for number, make in enumerate(makers[:count], 1):
        yield Case(f"seed {seed}, sheet {number} ({make.__name__})", "", make(generator))
