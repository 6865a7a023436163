"""Fixed sheets at the edges of the rules (docs/TASK.md), with names, and most with an answer by hand."""
from generator import Generator
from planner import START
from programs import ROOT
from random_sheets import large_sheet
from sheets import LISTINGS, WORKED, Case, bytes_of, damaged_sheets, ends_of_figures, frames_in, full, lines_of, text_of

# The fixed sheets: a name, the answer by hand or its beginning, and the sheet.
EDGES = """
# Lengths.
empty input                         | refused 1 0       | n=1 -12
1 byte                              | refused 1 0       | n=1 -11
11 bytes                            | refused 1 0       | n=1 -1
12 bytes                            | plan 0 0 0        | n=1
C1 less a byte                      | refused 3 0       | C1 -1
C1 and a byte                       | refused 3 0       | C1 +1
C1 and two bytes                    | refused 3 0       | C1 +2
C1 and the bytes of an entry        | refused 3 0       | C1 +6
C7 and two bytes                    | refused 3 0       | C7 +2
an entry named and missing          | refused 3 0       | n=1 e=1
an entry there and not named        | refused 3 0       | n=1 e=0 0:3
12 bytes of 0                       | refused 2 0       | n=0 m=0 p=0 D=0 k=0

# Which refusal comes first, and which entry is named.
too many entries for the bytes      | refused 2 0       | n=1 e=4
too many entries, a bad one last    | refused 2 0       | n=1 0.0:1 1.0:1 2.0:1 1023.63:0
bad value, then bad key             | refused 5 1       | n=2 0.0:0 0.2:1
bad key, then bad value             | refused 5 0       | n=2 0.2:1 1.0:0
bad key and value in one entry      | refused 5 0       | n=1 0.1:0
bad keys at entries 1, 2 and 3      | refused 5 1       | n=2 m=1 0.0:1 0.2:1 1.2:1 0.3:1
bad values at entries 1 and 2       | refused 6 1       | n=2 0.0:1 0.1:0 2.0:0
crossed bounds, then bad key        | refused 5 2       | n=2 m=1 1.0:4 2.0:3 3.4:1
crossed bounds, then a start        | refused 7 0       | n=2 m=1 1.0:4 2.0:3 3.3:1
crossed bounds, then a bad start    | refused 6 2       | n=2 m=1 1.0:4 2.0:3 3.3:-1
crossed bounds, then bad value      | refused 6 2       | n=2 m=1 1.0:4 2.0:3 3.2:0
crossed bounds at materials 1 and 2 | refused 7 1       | n=3 1.0:1 1.1:4 1.2:5 2.0:1 2.1:3 2.2:4
a least amount and no most amount   | refused 7 1       | n=2 1.1:1 2.0:1
a key twice                         | refused 5 1       | n=2 1:1 1:1
key 0 twice                         | refused 5 1       | n=2 0:1 0:1
keys that fall                      | refused 5 1       | n=2 m=2 256:1 193:1
the last key again                  | refused 5 6       | n=2 m=1 0:3 1:1 128:10 129:10 192:-2 193:-1 193:-12
a start before its b                | refused 5 1       | n=1 m=1 3.2:5 3.1:1
a start twice                       | refused 5 1       | n=1 m=1 3.2:5 3.2:5
a start and no limit                | refused 5 0       | n=1 3.2:1

# The ends of 4 bytes, and values of which the low two bytes alone would do.
cost 2147483647                     | refused 6 0       | n=1 0.0:2147483647
cost -2147483648                    | refused 6 0       | n=1 0.0:-2147483648
b -2147483648                       | refused 6 0       | n=1 m=1 3.1:-2147483648
cost 65537                          | refused 6 0       | n=1 0.0:65537
a -65535                            | refused 6 0       | n=1 m=1 3.0:-65535
start 1073741829                    | refused 6 0       | n=1 m=1 3.2:1073741829
start 2147483647                    | refused 6 0       | n=1 m=1 3.2:2147483647
start -2147483648                   | refused 6 0       | n=1 m=1 3.2:-2147483648
start -65531                        | refused 6 0       | n=1 m=1 3.2:-65531
start 65536, with low bytes of 0    | plan 0 0 0 65536 0 | n=1 m=1 3.2:65536

# A reduced cost of 0 takes the least amount: by costs of 0; at multiplier 2, in step 2; and at one material, then at
# two.
ties in every step                  | plan 0 0 2 0 6    | n=3 k=2 1.0:1 1.2:3 2.0:4 2.1:5 2.2:3
tie in step 2                       | plan 2 -2 3 1 1   | n=1 m=1 k=4 0.0:2 2.0:3 3.0:-1 3.1:-1
ties at several materials           | plan 1 2 5 0 0 0 -2 \
    | n=3 m=1 k=3 0.0:1 0.1:2 2.0:5 2.1:5 2.2:5 3.0:-1 3.1:-1 3.3:-1

# No limits; a low below 0; a gap below 0, as C1 has it too.
no limits                           | plan -5 0 6 2 2   | n=3 D=5 k=2 0.0:-1 0.1:2 1.0:1 1.1:1 1.2:1 2.0:3 2.1:3 2.2:3
no limits, 4,096 steps              | plan -21 0 28672 4096 | n=2 D=3 k=4096 0.0:-1 1.0:7 1.1:1 2.0:7 2.1:9
negative low and gap                | plan -3 -9 8 3 3  | n=1 m=1 k=5 0.0:-3 1.0:1 2.0:2 3.0:1 3.1:1

# No feasible recipe: step t has the dual value 4 t, over a greatest cost of 100. The closing look at k 26 is refused as
# step 26 is, after an equal value in step 25, and at k 25 it is equal itself.
no recipe at step 26                | refused 9 26      | n=1 m=1 k=4096 0.0:100 2.0:1 3.0:-1 3.1:-2
no recipe at the closing look       | refused 9 26      | n=1 m=1 k=26 0.0:100 2.0:1 3.0:-1 3.1:-2
as long as a dual value is equal    | plan 100 -2500 0 50 50 | n=1 m=1 k=25 0.0:100 2.0:1 3.0:-1 3.1:-2
no recipe, a greatest cost of 0     | refused 9 1       | n=1 m=1 k=2 3.1:-1
9 and 10 in one step                | refused 9 1       | n=1 m=1 p=1024 k=2 3.1:-1000000
10 in step 0, 9 would be in step 1  | refused 10 0      | C5 k=2
9 in step 1, after the greatest M   | refused 9 1       | C6 k=2
divergence at the last limit alone  | refused 10 0      | n=1 m=16 p=1024 18.1:-1048577

# Many steps: the multipliers of C1 go 0, 12, 14 and again, and those of S1 go 12, 14, 0.
C1 with 4,096 steps                 | plan 104 120016 13650 27300 12 -5448 | C1 k=4096
C1 with 4,097 steps                 | refused 4 0       | C1 k=4097
S1 with 4,096 steps                 | plan 104 120096 13650 27310 14 -5458 | S1 k=4096

# A start that a residual of -5 brings down to 1, to 0, and below 0, which counts as 0.
from 6 to 1                         | plan 0 0 0 1 -5   | n=1 m=1 3.1:5 3.2:6
from 5 to 0                         | plan 0 0 0 0 -5   | n=1 m=1 3.1:5 3.2:5
from 4 to 0                         | plan 0 0 0 0 -5   | n=1 m=1 3.1:5 3.2:4
# The greatest start: it falls by 1; it would rise by 1; and the greatest that can, where a step more would be refused
# with 10, and the closing look is not.
from the greatest start down        | plan 0 0 0 1073741823 -1 | n=1 m=1 3.1:1 3.2:1073741824
from the greatest start up          | refused 10 0 \
    | n=1 m=1 D=1024 0.0:10000 2.0:1000 3.1:-1 3.2:1073741824
up to the greatest multiplier       | plan 1073741824 -1073741824 0 1073741824 1 \
    | n=1 m=1 D=1024 0.0:10000 2.0:1000 3.1:-1 3.2:1073741823

# Refusal 9 at step 0. The dual value at a tie is 1 and then 2, over a greatest cost of 1; then the dual values of a
# start of 5 are 10 and 14, and that of 6 is 12, over 10.
equal in step 0, with a tie         | plan 1 -1 0 2 1   | n=1 m=1 0.0:1 2.0:1 3.0:-1 3.1:-1 3.2:1
no recipe in step 0, by 1           | refused 9 0       | n=1 m=1 0.0:1 2.0:1 3.0:-1 3.1:-2 3.2:1
no recipe in step 1, after a start  | refused 9 1       | n=1 m=1 k=9 0.0:10 2.0:1 3.0:-1 3.1:-2 3.2:5
no recipe in step 0, after a start  | refused 9 0       | n=1 m=1 k=9 0.0:10 2.0:1 3.0:-1 3.1:-2 3.2:6
9 and 10 in step 0                  | refused 9 0       | C5 3.2:1
10 in step 0, a start elsewhere     | refused 10 0      | n=1 m=2 p=1024 3.1:-1048577 4.2:5

# Two limits with starts: the reduced cost is 2 - 1 - 2, so that each alone would leave the amount 0. Exchanged, they
# give another dual value.
starts of two limits                | plan 6 14 10 0 0 -6 -4 \
    | n=1 m=2 0.0:2 2.0:10 3.0:-1 3.1:-4 3.2:1 4.0:-1 4.1:-6 4.2:2
the same starts, exchanged          | plan 4 16 10 0 0 -6 -4 \
    | n=1 m=2 0.0:2 2.0:10 3.0:-1 3.1:-4 3.2:2 4.0:-1 4.1:-6 4.2:1
the start of the second limit alone | plan 12 -12 0 4 8 4 6 \
    | n=1 m=2 0.0:2 2.0:10 3.0:-1 3.1:-4 4.0:-1 4.1:-6 4.2:2

# Low is D times the least cost of the bounds, where no dual value is above it: -24 over -50 and a closing value of -29,
# and 6 over -516 and a closing value of 6. In the third the dual values are -34, 2 and 0, the closing value is -4, and
# the least cost is 0.
low of a cost below 0               | plan -24 24 0 5 -5 | n=1 m=1 D=2 0.0:-3 2.0:4 3.0:1 3.1:5 3.2:10
low of costs of both signs          | plan 6 18 1 2 0 -27 \
    | n=2 m=1 D=3 0.0:-2 0.1:5 1.0:1 1.1:2 2.0:4 2.1:6 3.0:1 3.1:1 3.2:30 3.3:20
low of a later step                 | plan 2 34 20 4 -8 | n=1 m=1 k=3 0.0:2 2.0:10 3.0:-1 3.1:-4 3.2:9

# Both claims on the steps (T9.5, T9.6) are equations: no multiplier is cut off at 0, every dual value is low, and the
# closing value is not above it. 2·(-1) + 2² = 1² + (1² + 0²), and 2·2·3 + 2² + 3² = 4² + 1² + 2²·(1² + 1²).
equations of two steps              | plan 1 -1 1 2 1   | n=1 m=1 k=2 0.0:1 2.0:1 3.0:-1 3.1:-1 3.2:1
equations of two limits             | plan 9 3 2 2 3 -1 1 \
    | n=1 m=2 p=2 D=6 0.0:1 2.0:2 3.0:-2 3.1:-3 3.2:4 4.1:-1 4.2:1

# Refusal 9 at the closing look. The dual values are 0, 1, 2 and so on, over greatest costs of 4,095 and 4,096; then of
# the starts 12 and 11 they are 12 and 13, and 11 and 12, over 3 times a greatest cost of 4.
closing 9 after 4,096 steps         | refused 9 4096    | n=1 m=1 k=4096 0.0:4095 2.0:1 3.1:-1
closing value equal, 4,096 steps    | plan 4096 -16777216 0 4096 4096 | n=1 m=1 k=4096 0.0:4096 2.0:1 3.1:-1
closing 9 by 1, after a start       | refused 9 1       | n=1 m=1 D=3 0.0:4 2.0:1 3.1:-1 3.2:12
closing value equal, after a start  | plan 12 -12 0 12 1 | n=1 m=1 D=3 0.0:4 2.0:1 3.1:-1 3.2:11
# The dual values of a start of 2 are 4, 8 and 12, and those of 1 are 2, 6 and 10, over 10.
closing 9 after two steps           | refused 9 2       | n=1 m=1 k=2 0.0:10 2.0:1 3.0:-1 3.1:-2 3.2:2
closing value equal, two steps      | plan 10 -20 0 5 4 | n=1 m=1 k=2 0.0:10 2.0:1 3.0:-1 3.1:-2 3.2:1
# A greatest cost below 0, -3: the closing values are -2, and with a tie -3.
closing 9 over a cost below 0       | refused 9 1       | n=1 m=1 0.0:-3 1.0:1 2.0:2 3.0:1
closing value equal, below 0        | plan -3 -3 2 3 1  | n=1 m=1 0.0:-3 1.0:1 2.0:2 3.0:1 3.1:1 3.2:2
# 10 in the last step, where the closing look would be refused too: with a dual value of 2^30 + 1, over 1,024 times a
# greatest cost of 2^20. With a step less it is 2^30.
10 in step 1, 9 would be after it   | refused 10 1 \
    | n=3 m=1 D=1024 k=2 0.0:1000 0.1:48 0.2:576 2.0:1000 2.1:1000 2.2:1 3.3:-1 3.4:1073741823
closing value equal, greatest M     | plan 1073741824 -1073741824 0 0 0 1073741824 1 \
    | n=3 m=1 D=1024 k=1 0.0:1000 0.1:48 0.2:576 2.0:1000 2.1:1000 2.2:1 3.3:-1 3.4:1073741823

# A closing value that is above the dual values by 1; equal to the last, at another multiplier; below it; and one of
# ties, of which either end gives the same.
closing value above low             | plan 2 -4 0 2 2   | n=1 m=1 k=2 0.0:9 2.0:1 3.1:-1
closing value equal to low          | plan 1 -2 0 2 2   | n=1 m=1 k=2 0.0:1 2.0:1 3.0:-1 3.1:-1
closing value below low             | plan 2 -6 0 3 3   | n=1 m=1 k=3 0.0:2 2.0:3 3.0:-1 3.1:-1
closing value of ties               | plan 4 -4 0 0 0 2 2 \
    | n=3 m=1 0.0:2 0.1:4 0.2:6 2.0:5 2.1:5 2.2:5 3.0:-1 3.1:-2 3.2:-3 3.3:-2

# The least and the greatest b. Their shares of the closing value, at equal multipliers, cancel.
b at both ends of its range         | plan 0 0 0 32000000 32000000 32000000 -32000000 \
    | n=1 m=2 3.1:-32000000 4.1:32000000 4.2:64000000
"""

# A size, the ends of its range, and the refusal outside it.
SIZES = [("n", 1, 32, 2), ("m", 0, 16, 2), ("p", 1, 1_024, 4), ("D", 1, 1_024, 4), ("k", 1, 4_096, 4)]


def ends_of_sizes():
    """The last values inside the range of each size, the first outside it, and the greatest of 2 bytes."""
    for name, least, greatest, number in SIZES:
        for size in least, greatest:
            yield Case(f"{name} {size}", "plan", bytes_of(f"n=1 {name}={size}"))
        for size in sorted({least - 1, greatest + 1, greatest + 256, 65_535} - {-1}):
            yield Case(f"{name} {size}", f"refused {number} 0", bytes_of(f"n=1 {name}={size}"))
    for n, m in (1, 0), (1, 16), (32, 0), (5, 3), (5, 9), (32, 16):
        # With the greatest scale the residuals do not outweigh the costs, and none is refused in its step. All limits
        # of n 5, m 3 are far from being kept, and so it is refused at the closing look.
        every = full(n, m, "p=1 D=1024 k=1")
        yield Case(f"all entries of n {n}, m {m}", "refused 9 1" if m == 3 else "plan", bytes_of(every))
        yield Case(f"one entry more than n {n}, m {m} has", "refused 2 0", bytes_of(f"{every} 65535:1"))
    yield Case("e 65535", "refused 2 0", bytes_of("n=32 m=16 e=65535"))


def ends_of_keys():
    """The last rows and columns that have a figure, and the first that have none. Limits have two columns more."""
    for n, m in (1, 0), (2, 1), (32, 0), (32, 16):
        inside = [(row, n - 1) for row in (0, 2, m + 2)]
        inside += [(row, column) for row in (3, m + 2) if 3 <= row <= m + 2 for column in (n, n + 1)]
        outside = [(row, column) for row in (0, 1, 2) for column in (n, n + 1)]
        outside += [(row, n + 2) for row in (0, 2, 3, m + 2)] + [(m + 3, column) for column in (0, n, n + 1)]
        outside += [(1_023, 63), (0, 63), (m + 2, 63)]
        for row, column in dict.fromkeys(inside):
            yield Case(f"n {n}, m {m}, key {row}.{column}", "plan", bytes_of(f"n={n} m={m} {row}.{column}:1"))
        for row, column in dict.fromkeys(outside):
            yield Case(f"n {n}, m {m}, key {row}.{column}", "refused 5 0", bytes_of(f"n={n} m={m} {row}.{column}:1"))


def largest_sheets():
    """Sheets of the largest sizes with every entry, and one in which a multiplier is at its greatest, or passes it,
    after many steps."""
    longest = large_sheet(Generator(seed=1), "p=1 D=1024 k=4096", (0, 32_000_000), START)
    without = large_sheet(Generator(seed=1), "p=1 D=1024 k=400", (0, 32_000_000))
    no_recipe = large_sheet(Generator(seed=2), "D=1 k=99", (-9_000_000, 9_000_000), (1, 9))
    divergence = large_sheet(Generator(seed=3), "p=1024 D=1024 k=99", (-32_000_000, 32_000_000), (1, 99))
    yield Case("longest sheet, 4,096 steps", "plan", bytes_of(longest))
    yield Case("longest sheet without starts", "plan", bytes_of(without))
    yield Case("longest sheet and a byte", "refused 3 0", bytes_of(f"{longest} +1"))
    yield Case("longest sheet less a byte", "refused 3 0", bytes_of(f"{longest} -1"))
    yield Case("longest sheet, no recipe", "refused 9", bytes_of(no_recipe))
    yield Case("longest sheet, divergence", "refused 10", bytes_of(divergence))
    # Dear materials that no limit uses. Each step moves the multiplier by 1,024 times -b, and its dual value is -b
    # times the multiplier. At the closing look the one is 2^30, and the other 2^38.
    for b, answer in (-256, f"plan {2**38} {-(2**50)} 0"), (-257, "refused 10 4080"):
        text = text_of("n=32 m=1 p=1024 D=1024 k=4096", [[10_000] * 32, [], [1_000] * 32, [0] * 32 + [b]])
        yield Case(f"4,096 steps with a residual of {-b}", answer, bytes_of(text))


def framed_sheets(crate, after):
    """The sheets of a crate's standard input. Each frame has some bytes after its sheet."""
    content = (ROOT / "crates" / crate / "stdin").read_bytes()
    for number, (sheet, _) in enumerate(frames_in(content, after), 1):
        yield Case(f"{crate} {number}", "", sheet)


def without_repeats(cases):
    """Each sheet once, with its first name."""
    return list({case.sheet: case for case in reversed(cases)}.values())[::-1]


def named_edges():
    """The fixed sheets with names."""
    cases = [Case(name, LISTINGS[name].decode(), bytes_of(name)) for name in WORKED]
    cases += [Case(name, answer, bytes_of(text)) for name, answer, text in lines_of(EDGES)]
    cases += damaged_sheets()
    for name, inside, entry, sheet in ends_of_figures():
        # The least b is read too, but its limit cannot be kept: the closing value is 32,000,000 squared.
        answer = "refused 9 1" if name == "b -32000000" else "plan"
        cases.append(Case(name, answer if inside else f"refused 6 {entry}", sheet))
    return without_repeats([*cases, *ends_of_sizes(), *ends_of_keys(), *largest_sheets()])


def edges():
    """The fixed sheets: those with names, and those that the programs `gate_plan` and `gate_read` are run on."""
    framed = *framed_sheets("gate_plan", after=2), *framed_sheets("gate_read", after=0)
    return without_repeats([*named_edges(), *framed])
