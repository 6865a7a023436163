"""The least cost of a feasible recipe of a sheet (docs/TASK.md, T1), in exact fractions, by the dual simplex method.

    optimum(s)    of a sheet as it is read: an Optimum or an Infeasible, each with what shows it

What is found is shown in a few exact sums, so that the method need not be believed (`faults_of`). With multipliers that
are at least 0 no feasible recipe costs less than their dual value: the least that costs and overstepped limits, each
limit times its multiplier, come to together inside the bounds. So a feasible recipe that costs just that is cheapest.
And where the overstepped limits alone come to more than 0 everywhere inside the bounds, no recipe is feasible.
"""
from fractions import Fraction
from typing import NamedTuple

from planner import columns, dot


class Optimum(NamedTuple):
    """A feasible recipe of the least cost, and multipliers whose dual value is that cost."""

    cost: Fraction
    recipe: tuple
    multipliers: tuple


class Infeasible(NamedTuple):
    """Multipliers that show that no recipe is feasible."""

    multipliers: tuple


def dual_value(s, costs, multipliers):
    """The least of costs and overstepped limits, each times its multiplier, inside the bounds."""
    reduced = [c + dot(multipliers, column) for c, column in zip(costs, columns(s))]
    return sum(min(r * l, r * u) for r, l, u in zip(reduced, s.l, s.u)) - dot(multipliers, s.b)


def faults_of(s, found):
    """What is wrong in what was found of a sheet."""
    if len(found.multipliers) != s.m or min(found.multipliers, default=0) < 0:
        yield f"{found.multipliers} are not {s.m} multipliers of at least 0"
    if isinstance(found, Infeasible):
        if dual_value(s, [0] * s.n, found.multipliers) <= 0:
            yield f"{found.multipliers} do not show that there is no feasible recipe"
        return
    if not all(l <= x <= u for l, x, u in zip(s.l, found.recipe, s.u, strict=True)):
        yield f"{found.recipe} does not keep the bounds"
    if not all(dot(row, found.recipe) <= b for row, b in zip(s.a, s.b)):
        yield f"{found.recipe} does not keep the limits"
    if not dot(s.c, found.recipe) == found.cost == dual_value(s, s.c, found.multipliers):
        yield f"{found.recipe} does not cost {found.cost}, or the multipliers show another cost"


class Tableau:
    """The limits as equations. Number j below n is the amount of a material, and number n + i what is left of limit i:
    at least 0, without a most. Each row gives one number, the basic one, by those that are at a bound:

        basic number + the sum of row entry times number = constant

    The reduced costs of the numbers at a bound are at least 0 where they are at their least, and at most 0 where they
    are at their most. So the costs of their values are the dual value of some multipliers, in every step."""

    def __init__(self, s):
        self.low, self.high = [*s.l, *[0] * s.m], [*s.u, *[None] * s.m]
        self.basic = [s.n + i for i in range(s.m)]
        self.at_bound = [*range(s.n)]
        # The value of each number that is at a bound, by its column.
        self.values = [u if c < 0 else l for c, l, u in zip(s.c, s.l, s.u)]
        self.rows = [[Fraction(a) for a in row] for row in s.a]
        self.constants = [Fraction(b) for b in s.b]
        self.reduced = [Fraction(c) for c in s.c]

    def value_of(self, row):
        """The value of the basic number of a row."""
        return self.constants[row] - dot(self.rows[row], self.values)

    def outside(self):
        """The row of the first number that is outside its bounds, and the bound that it must come to; or None."""
        for number, row in sorted((number, row) for row, number in enumerate(self.basic)):
            value, low, high = self.value_of(row), self.low[number], self.high[number]
            if value < low:
                return row, low
            if high is not None and value > high:
                return row, high
        return None

    def can_move(self, column, down):
        """Whether the number of a column can go down, or up, from the bound at which it is."""
        number = self.at_bound[column]
        return self.low[number] != self.high[number] and down == (self.values[column] == self.high[number])

    def entering(self, row, down):
        """The column whose number can bring that of a row down, or up, with the least change of the reduced costs. Of
        several it is that with the first number (Bland's rule). None where no number can."""
        found = []
        for column, entry in enumerate(self.rows[row]):
            if entry != 0 and self.can_move(column, down=down == (entry < 0)):
                found.append((abs(self.reduced[column] / entry), self.at_bound[column], column))
        return min(found)[2] if found else None

    def exchange(self, row, column, bound):
        """The number of a row goes to a bound, and that of a column becomes basic."""
        pivot = self.rows[row][column]
        scaled = [entry / pivot for entry in self.rows[row]]
        scaled[column] = 1 / pivot
        constant = self.constants[row] / pivot
        for other, entries in enumerate(self.rows):
            if other != row and (factor := entries[column]):
                self.rows[other] = [entry - factor * more for entry, more in zip(entries, scaled)]
                self.rows[other][column] = -factor * scaled[column]
                self.constants[other] -= factor * constant
        if factor := self.reduced[column]:
            self.reduced = [entry - factor * more for entry, more in zip(self.reduced, scaled)]
            self.reduced[column] = -factor * scaled[column]
        self.rows[row], self.constants[row], self.values[column] = scaled, constant, bound
        self.basic[row], self.at_bound[column] = self.at_bound[column], self.basic[row]


def solved(s):
    """What the dual simplex method finds. It ends by Bland's rule."""
    tableau = Tableau(s)
    while (found := tableau.outside()) is not None:
        row, bound = found
        down = tableau.value_of(row) > bound
        column = tableau.entering(row, down)
        if column is None:
            # The row is the limits times multipliers: its entries at what is left of each, with the sign turned where
            # the number cannot go down.
            entries = {**dict(zip(tableau.at_bound, tableau.rows[row])), tableau.basic[row]: 1}
            sign = -1 if down else 1
            return Infeasible(tuple(sign * entries.get(s.n + i, 0) for i in range(s.m)))
        tableau.exchange(row, column, bound)
    values = {number: tableau.value_of(row) for row, number in enumerate(tableau.basic)}
    values |= dict(zip(tableau.at_bound, tableau.values))
    reduced = dict(zip(tableau.at_bound, tableau.reduced))
    recipe = tuple(values[j] for j in range(s.n))
    return Optimum(dot(s.c, recipe), recipe, tuple(reduced.get(s.n + i, 0) for i in range(s.m)))


def optimum(s):
    """The least cost of a feasible recipe of a sheet, or that there is none. What is found is shown."""
    found = solved(s)
    if faults := [*faults_of(s, found)]:
        raise RuntimeError(f"the simplex method of tests/solver is wrong: {faults} of {s}")
    return found
