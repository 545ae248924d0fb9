"""Edge cases that are taken: a name, the bytes of a file, and the listing that is expected of it."""

from records import *

TAKEN = []
TEN_TEXT = "judged 3\nstair 0\nstair 1\nrel 2 : 2 8\nscore 200\n"
SQUARE_TEXT = (
    "judged 6\nstair 0 0\nstair 0 1\nrel 0 2 : 10 0 0 0\nstair 1 0\nstair 1 1\nrel 2 0 : 10 0 0 0\nscore 1000\n"
)


def taken(name, expected, records):
    TAKEN.append((f"taken-{name}", b"".join(records), expected))


ZERO = "judged 1\nrel {} :\nscore 0\n"
for m in range(1, 5):
    cells = grid(([2] * m + [1] * 3)[:4], lambda *_: 0)
    for field, name in ((modulus(7), "modulus-7"), (degree(3), "degree-3")):
        taken(f"zeros-{m}-axes-{name}", ZERO.format(" ".join("0" * m)), [field, GRADED, period(*[2] * m)] + cells)
taken("zeros-64-cells", ZERO.format("0 0"), [degree(8), GRADED, period(8, 8)] + grid((8, 8, 1, 1), lambda *_: 0))
taken("one-cell", "judged 2\nstair 0\nrel 1 : 1\nscore 1000\n", [modulus(2), LEXICOGRAPHIC, period(1), cell(1)])
ONE = "judged 5\nstair 0 0 0 0\nrel 0 0 0 1 : {0}\nrel 0 0 1 0 : {0}\nrel 0 1 0 0 : {0}\nrel 1 0 0 0 : {0}\nscore {1}\n"
for order, name in ((LEXICOGRAPHIC, "lexicographic"), (GRADED, "graded"), (weighted(), "weighted-0")):
    taken(f"1-by-1-by-1-by-1-{name}", ONE.format(36, 1000), [modulus(37), order, period(1, 1, 1, 1), cell(36)])
taken("1-by-1-by-1-by-1-zero", ZERO.format("0 0 0 0"), [modulus(37), GRADED, period(1, 1, 1, 1), cell(0)])
taken("8-by-8-ones-degree-8", "judged 3\nstair 0 0\nrel 0 1 : 1\nrel 1 0 : 1\nscore 15\n",
      [degree(8), LEXICOGRAPHIC, period(8, 8)] + grid((8, 8, 1, 1), lambda *_: 1))
STAIRS = "".join(f"stair {a} {b}\n" + ("rel 0 8 : 1" + " 0" * 63 + "\n") * ((a, b) == (0, 7)) for a in range(8) for b in range(8))
taken("8-by-8-one-code-degree-8", f"judged 66\n{STAIRS}rel 8 0 : 1{' 0' * 63}\nscore 1000\n",
      [degree(8), LEXICOGRAPHIC, period(8, 8)] + grid((8, 8, 1, 1), lambda a, b, c, d: 255 * ((a, b) == (0, 0))))
taken("67-records", "judged 2\nstair 0\nrel 1 : 3\nscore 15\n", FULL)
taken("67-records-backward", "judged 2\nstair 0\nrel 1 : 3\nscore 15\n", FULL[::-1])
taken("64-by-1", "judged 3\nstair 0 0\nrel 0 1 : 4\nrel 1 0 : 3\nscore 15\n", put(FULL, (2, period(64, 1))))
taken("1-by-64", "judged 3\nstair 0 0\nrel 0 1 : 3\nrel 1 0 : 4\nscore 15\n",
      FULL[:2] + [period(1, 64)] + [cell((1, 2, 4, 3)[c % 4], 0, c) for c in range(64)])
FOUR = "judged 5\nstair 0 0 0 0\n{}score 15\n"
taken("2-by-2-by-4-by-4", FOUR.format("rel 0 0 0 1 : 2\nrel 0 0 1 0 : 3\nrel 0 1 0 0 : 4\nrel 1 0 0 0 : 1\n"),
      [modulus(5), GRADED, period(2, 2, 4, 4)] + grid((2, 2, 4, 4), lambda a, b, c, d: 4**a * 2**c * 3**d % 5))
taken("2-by-2-by-4-by-4-weighted", FOUR.format("rel 1 0 0 0 : 1\nrel 0 1 0 0 : 4\nrel 0 0 1 0 : 3\nrel 0 0 0 1 : 2\n"),
      [modulus(5), weighted(1, 2, 3, 255), period(2, 2, 4, 4)] + grid((2, 2, 4, 4), lambda a, b, c, d: 4**a * 2**c * 3**d % 5))
taken("modulus-65521", "judged 2\nstair 0\nrel 1 : 1\nscore 500\n", [modulus(65521), GRADED, period(2), cell(1), cell(65520, 1)])
taken("modulus-65521-largest", "judged 2\nstair 0\nrel 1 : 65520\nscore 333\n",
      [modulus(65521), GRADED, period(3)] + line([65520] * 3))
taken("modulus-2-sums-of-two", "judged 3\nstair 0\nstair 1\nrel 2 : 1 1\nscore 666\n", [modulus(2), GRADED, period(3)] + line([0, 1, 1]))
for k, reduced_by, size, score in ((2, 0b111, 3, 333), (3, 0b1011, 7, 142), (4, 0b10011, 15, 66), (8, 0b100011011, 51, 19)):
    powers = [1]
    while len(powers) < size:
        powers.append(min(powers[-1] * 2, powers[-1] * 2 ^ reduced_by))
    taken(f"powers-degree-{k}", f"judged 2\nstair 0\nrel 1 : 2\nscore {score}\n", [degree(k), GRADED, period(size)] + line(powers))
for weights in ((0, 0, 0, 0), (1, 2, 3, 255), (255, 255, 255, 255), (0, 0, 0, 255)):
    words = "-".join(map(str, weights))
    taken(f"weights-{words}-of-one-axis", TEN_TEXT, put(TEN, (1, weighted(*weights))))

# ---- the order of the records is free
taken("square", SQUARE_TEXT, SQUARE)
for name, start, step in (("backward", 0, -1), ("each-third", 0, 3), ("each-fifth", 2, 5), ("heads-last", 3, 1)):
    taken(f"ten-{name}", TEN_TEXT, [TEN[(start + step * i) % 13] for i in range(13)])
    taken(f"square-{name}", SQUARE_TEXT, [SQUARE[(start + step * i) % 7] for i in range(7)])
