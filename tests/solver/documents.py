"""What the tests of examples/ and of the documents share: how they run and end, the parts of a document, the figures
that it states, how good a plan is, and the least cost of the glass examples."""
import argparse
import re
import sys
from decimal import Decimal
from fractions import Fraction
from math import ceil

from planner import dot, read, read_listing
from programs import BATCHPLAN, ROOT, printed, program_at

EXAMPLES, MAKE = ROOT / "examples", ROOT / "examples" / "make"


def program_of(description):
    """The program that a test is called to try."""
    parser = argparse.ArgumentParser(description=description, formatter_class=argparse.RawDescriptionHelpFormatter)
    parser.add_argument("--program", default=BATCHPLAN)
    return program_at(parser.parse_args().program)


def close(summary, *tests):
    """Ends a program of the gate: prints the faults that its tests find, or a summary where there are none."""
    faults = []
    for test in tests:
        try:
            faults.extend(test)
        except Exception as error:
            faults.append(f"a test ends early: {type(error).__name__}: {error}")
    print("\n".join(faults) or summary)
    sys.exit(bool(faults))


def output_of(program, content, *arguments):
    """What a program prints for a standard input. Any other end is an error."""
    status, output, errors = printed(program, content, arguments)
    if status != 0 or errors:
        raise RuntimeError(f"{program} ends with status {status} and {errors.decode()} for the input {content}")
    return output


def example(name):
    """The sheet of an example as it is read, and the figures of its listing."""
    sheet, listing = ((EXAMPLES / f"{name}.{kind}").read_bytes() for kind in ("sheet", "listing"))
    return read(sheet), read_listing(listing)[1]


def plain(text):
    """A text in one line, with its numbers as a program writes them."""
    text = re.sub(r"(?<=\d),(?=\d{3})", "", " ".join(text.replace("−", "-").split()))
    return re.sub(r"(\d+)\^(\d+)", lambda power: str(int(power[1]) ** int(power[2])), text)


def decimal(value, places=0, whole=round):
    """A number in decimal, made whole in its last place: rounded, or by ceil where it is the most that may be, and by
    floor where it is the least."""
    return f"{Decimal(whole(value * 10**places)).scaleb(-places):f}"


def figures_in(text):
    """The numbers of a text with the minus signs before them, where they stand, and the text. A number that belongs to
    a name, as in SiO2 and T9.3, is none."""
    text = re.sub(r"- (?=\d)", "-", plain(text))
    return [(place[0], place.end()) for place in re.finditer(r"(?<![\w.])-?\d+(?:\.\d+)?", text)], text


# An equation between numbers: what stands on its left, and on its right.
EQUATION = re.compile(r"(?<![\w·(])((?:max\()?[\d(-][\d(),/·+ -]*(?<=[\d)])) = (-?[\d/]*\d)")


def faults_of_figures(where, text, due):
    """The equations of a text that do not hold, and its first number that is not the one due in its place. The words
    are free."""
    figures, text = figures_in(text)
    for left, right in EQUATION.findall(text):
        if eval(left.replace("·", "*")) != eval(right):
            yield f"{where}: {left} is not {right}"
    for (stated, end), figure in zip([*figures, ("none", len(text))], [*map(str, due), "none"]):
        if stated != figure:
            yield f"{where}: '..{text[max(0, end - 60) : end]}' has {stated} last; due is {figure}"
            return


def plans_until_kept(program, sheet_of):
    """Plans, each with its cost, until an average keeps the limits of the first sheet. `sheet_of` gives the sheet with
    limits that are tighter by some whole numbers: by what the averages before overstep, rounded up."""
    tighter = [0] * 6
    for _ in range(6):
        sheet = sheet_of(tighter)
        _, got = read_listing(output_of(program, sheet))
        yield got, Fraction(dot(read(sheet).c, got.sums), got.k)
        over = [ceil(Fraction(total, got.k)) - less for total, less in zip(got.residual_totals, tighter)]
        if max(over) <= 0:
            return
        tighter = [less + max(0, more) for less, more in zip(tighter, over)]
    raise RuntimeError(f"after 6 plans a limit is still overstepped; the last is that of the sheet {sheet.hex()}")


def measures_of(program, sheet_of, crowns=Fraction(1, 1_000), grams=10):
    """How good the plan of a sheet is, as the table of docs/SCALING.md says it: low, gap, what is overstepped of the
    worst limit, and the excess. A unit of cost is so many crowns, and a unit of a limit so many grams."""
    plans = [*plans_until_kept(program, sheet_of)]
    (got, _), (_, cost), D = plans[0], plans[-1], read(sheet_of([0] * 6)).D
    low, gap, over = Fraction(got.low, D), Fraction(got.gap, got.k * D), Fraction(max(0, *got.residual_totals), got.k)
    return decimal(low * crowns, 2), decimal(gap * crowns, 2), decimal(over * grams), decimal((cost - low) * crowns, 2)


# The cheapest feasible recipe of the glass examples.
RECIPE = [Fraction(509_110, 1_089), Fraction(4_275, 29), Fraction(1_070, 11), 40, 20, 330]


def prices_of_glass(s):
    """The prices of its limits that show it: those at which sand, soda ash and limestone have no reduced cost."""
    silica, soda = Fraction(s.c[0], -s.a[0][0]), Fraction(s.c[1], -s.a[2][1])
    return [silica, 0, soda, 0, (s.c[2] + silica * s.a[0][2]) / -s.a[4][2], 0]


def least_cost_of_glass(name="glass"):
    """The least cost of a feasible recipe of a glass example: the recipe costs that, and the dual value at the prices
    is the same, so that none costs less (T9.3)."""
    s, _ = example(name)
    prices = prices_of_glass(s)
    reduced = [c + dot(prices, column) for c, column in zip(s.c, zip(*s.a))]
    dual = sum(min(r * l, r * u) for r, l, u in zip(reduced, s.l, s.u)) - dot(prices, s.b)
    kept = [l <= x <= u for l, x, u in zip(s.l, RECIPE, s.u)] + [dot(a, RECIPE) <= b for a, b in zip(s.a, s.b)]
    if not all(kept) or min(prices) < 0 or dual != dot(s.c, RECIPE):
        raise RuntimeError(f"the recipe for {name}.txt that tests/solver/documents.py has is not the cheapest")
    return dual
