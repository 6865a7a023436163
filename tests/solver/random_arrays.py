"""Random sizes and arrays by stated seeds, sound and damaged, that sheets are to be written from."""
from planner import AMOUNT, COST, GREATEST_MULTIPLIER, START, A, B
from writer import Arrays, Sizes


def random_figures(generator, count, ends, zeros):
    """Figures at the ends of their range, near 0 or anywhere in it, and for every four of these so many zeros."""
    least, greatest = ends
    near = max(least, -9), min(greatest, 9)
    draws = [lambda: 0] * zeros + [lambda: least, lambda: greatest]
    draws += [lambda: generator.between(*near), lambda: generator.between(*ends)]
    return tuple(generator.one_of(draws)() for _ in range(count))


def table(generator, n, m):
    """Sizes and arrays that are not refused, with few zeros or with many."""
    zeros = generator.one_of([0, 2, 9])
    c, l, u, a, b, s = (
        random_figures(generator, count, ends, zeros)
        for count, ends in ((n, COST), (n, AMOUNT), (n, AMOUNT), (n * m, A), (m, B), (m, START))
    )
    sizes = Sizes(n, m, *(generator.between(1, greatest) for greatest in (1_024, 1_024, 4_096)))
    return sizes, Arrays(c, tuple(map(min, l, u)), u, a, b, s)


def small(generator):
    """A table of few materials and limits."""
    return table(generator, generator.between(1, 3), generator.between(0, 3))


def wide(generator):
    """A table of any sizes."""
    return table(generator, generator.between(1, 32), generator.between(0, 16))


def large(generator):
    """A table of the largest sizes."""
    return table(generator, 32, 16)


def with_another_parameter(generator):
    """One of p, D and k is a number at the end of a range, one whose low two bytes are in its range, or any number."""
    sizes, arrays = small(generator)
    name = generator.one_of("pDk")
    ends = [0, 1, 1_024, 1_025, 4_096, 4_097, 65_535, 65_536 + getattr(sizes, name), 2**31 - 1]
    return sizes._replace(**{name: generator.one_of([*ends, generator.between(0, 2**31 - 1)])}), arrays


def with_another_dimension(generator):
    """n or m is another, while the arrays stay."""
    sizes, arrays = small(generator)
    name = generator.one_of("nm")
    ends = [0, 1, 2, 16, 17, 32, 33, 65_535, 65_536 + getattr(sizes, name), 2**31 - 1]
    return sizes._replace(**{name: generator.one_of([*ends, generator.between(0, 2**31 - 1)])}), arrays


def beyond_the_ranges(generator):
    """n or m is outside its range, and the arrays are as long as both say. Some have a bad k too."""
    sizes, arrays = table(generator, *generator.one_of([(0, 0), (0, 2), (1, 17), (33, 0)]))
    return sizes._replace(k=generator.one_of([1, 4_097])), arrays


def with_another_length(generator):
    """One array is longer or shorter."""
    sizes, arrays = small(generator)
    name = generator.one_of(Arrays._fields)
    array, more = getattr(arrays, name), generator.between(1, 3)
    changed = array[:-more] if array and generator.between(0, 1) else array + (generator.between(0, 1),) * more
    return sizes, arrays._replace(**{name: changed})


def with_another_figure(table_of, generator):
    """One figure of a table is a number at the end of a range, or any number."""
    sizes, arrays = table_of(generator)
    ends = [0, 1, 1_000, 1_001, 10_000, 10_001, 65_537, 32_000_000, 32_000_001, GREATEST_MULTIPLIER]
    ends += [GREATEST_MULTIPLIER + 1, 2**31 - 1, generator.between(0, 2**31 - 1)]
    value = generator.one_of([-(2**31), *(end * generator.one_of([1, -1]) for end in ends)])
    name = generator.one_of([name for name, array in zip(Arrays._fields, arrays) if array])
    changed = [*getattr(arrays, name)]
    changed[generator.between(0, len(changed) - 1)] = value
    return sizes, arrays._replace(**{name: tuple(changed)})


def with_a_bad_figure(generator):
    """A small table with another figure, mostly outside its range."""
    return with_another_figure(small, generator)


def with_crossed_bounds(generator):
    """Bounds that are mostly crossed, at several materials."""
    sizes, arrays = small(generator)
    return sizes, arrays._replace(l=random_figures(generator, sizes.n, AMOUNT, zeros=2))


def with_two_damages(generator):
    """Bounds that are mostly crossed, with another figure or another parameter."""
    sizes, arrays = with_another_figure(with_crossed_bounds, generator)
    return sizes._replace(k=generator.one_of([1, 4_096, 4_097])), arrays


# How many tables of every 25 each function makes. They come in this order.
MAKERS = [
    (9, small),
    (2, with_another_parameter),
    (2, with_another_dimension),
    (1, beyond_the_ranges),
    (3, with_another_length),
    (4, with_a_bad_figure),
    (2, with_crossed_bounds),
    (2, with_two_damages),
]


def random_tables(generator, count):
    """Small tables, sound and damaged, with the name of each."""
    makers = [make for number, make in MAKERS for _ in range(number)]
    for number in range(count):
        make = makers[number % len(makers)]
        yield f"table {number} ({make.__name__})", *make(generator)
