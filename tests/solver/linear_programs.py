"""Random sheets by stated seeds that solvers of linear programs are tried on: of many kinds, with feasible recipes and
without."""
from generator import Generator
from random_sheets import Ranges, random_sheet
from sheets import bytes_of

# The ranges of the random sheets: short steps, many of them, and limits that can be kept; the same with dear materials
# and many limits; figures of any magnitude.
CLOSE = Ranges(
    n=(2, 12), p=(1, 1), D=(512, 1_024), k=(2_000, 4_096), cost=(1, 90), most=(1, 12), a=(-5, 3), spare=(0, 9)
)
BROAD = Ranges(
    n=(16, 32), p=(1, 1), D=(1_024, 1_024), k=(3_000, 4_096), cost=(50, 999), most=(1, 30), a=(-9, 6), spare=(0, 40)
)
WIDE = Ranges(
    n=(2, 32),
    p=(1, 9),
    D=(1, 1_024),
    k=(1, 900),
    cost=(-10_000, 10_000),
    most=(0, 1_000),
    a=(-1_000, 1_000),
    spare=(0, 99_999),
)
# Limits that are missed by a little, and limits that cannot be kept, with many steps and with few.
SCARCE = Ranges(n=(1, 9), p=(1, 2), D=(1, 60), k=(1, 400), cost=(1, 90), most=(0, 9), a=(-9, 2), spare=(-9, 2))
SHORT = Ranges(n=(1, 20), p=(1, 9), D=(1, 9), k=(200, 900), cost=(1, 40), most=(0, 9), a=(-9, 4), spare=(-90, -5))
BRIEF = Ranges(n=(1, 20), p=(1, 2), D=(20, 60), k=(1, 9), cost=(1, 40), most=(0, 9), a=(-9, 4), spare=(-90, -5))

# Each of the ranges, with its numbers of limits.
RANGES = [(CLOSE, (1, 6)), (BROAD, (4, 16)), (WIDE, (1, 16)), (SCARCE, (1, 4)), (SHORT, (1, 8)), (BRIEF, (1, 8))]


def random_linear_programs(seeds):
    """For each seed a random sheet by each of the ranges."""
    for seed in seeds:
        generator = Generator(seed)
        for ranges, limits in RANGES:
            n, m = generator.between(*ranges.n), generator.between(*limits)
            yield bytes_of(random_sheet(generator, n, m, ranges))
