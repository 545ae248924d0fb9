"""Refusals: a name, the bytes of a file, and the line that is expected of it. Records are counted from 0."""

from itertools import combinations

from records import *

REFUSED = []


def refused(ground, place, name, records):
    REFUSED.append((f"refused-{ground:02}-{name}", b"".join(records), f"refused {ground} at {place}\n"))


# ---- 1: not whole records, or more than 67
for count in (1, 11, 13):
    refused(1, 0, f"{count}-bytes", [b"\1" * count])
refused(1, 0, "one-byte-long", SQUARE + [b"\0"])
refused(1, 0, "one-byte-short", [b"".join(SQUARE)[:-1]])
refused(1, 0, "half-a-record-more", SQUARE + [bytes(6)])
refused(1, 0, "803-bytes", [b"".join(FULL)[:-1]])
refused(1, 0, "805-bytes", FULL + [b"\0"])
refused(1, 0, "68-records", FULL + [cell(1)])
refused(1, 0, "68-records-of-65-cells", [modulus(5), GRADED, period(65)] + line([1] * 65))
refused(1, 0, "68-records-of-zeros", [bytes(12 * 68)])
refused(1, 0, "69-records", FULL + [cell(1)] * 2)
refused(1, 0, "256-records", [modulus(11)] * 256)
refused(1, 0, "263-records", SQUARE + [cell(1)] * 256)
refused(1, 0, "1000-records", TEN * 100)

# ---- 2: a kind or subkind that is not listed, or a number that is not used
for kind in (0, 5, 6, 128, 255):
    for place in (0, 3, 6):
        refused(2, place, f"kind-{kind}-at-{place}", put(SQUARE, (place, record(kind, 0))))
    refused(2, 0, f"kind-{kind}-alone", [record(kind, 1)])
for sub in (2, 3, 255):
    refused(2, 0, f"field-subkind-{sub}", put(SQUARE, (0, record(1, sub, 11))))
for sub in (3, 4, 255):
    refused(2, 1, f"order-subkind-{sub}", put(SQUARE, (1, record(2, sub))))
for sub in (0, 5, 255):
    refused(2, 2, f"period-subkind-{sub}", put(SQUARE, (2, record(3, sub, 2, 2))))
for sub in (1, 2, 255):
    refused(2, 4, f"cell-subkind-{sub}", put(SQUARE, (4, record(4, sub, 1, 0, 0, 0, 5))))


def one_more(kind, sub, used, place, name):
    """Each number that is not used in turn, by its low byte and by its high byte."""
    for number in range(len(used), 5):
        for extra in (1, 256):
            numbers = put(list(used) + [0] * (5 - len(used)), (number, extra))
            refused(2, place, f"{name}-number-{number + 1}-is-{extra}", put(SQUARE, (place, record(kind, sub, *numbers))))


one_more(1, 0, [11], 0, "modulus")
one_more(1, 1, [4], 0, "degree")
one_more(2, 0, [], 1, "lexicographic")
one_more(2, 1, [], 1, "graded")
one_more(2, 2, [1, 1, 0, 0], 1, "weighted")
one_more(3, 1, [4], 2, "one-period")
one_more(3, 2, [2, 2], 2, "two-periods")
one_more(3, 3, [2, 2, 1], 2, "three-periods")
one_more(3, 4, [2, 2, 1, 1], 2, "four-periods")
refused(2, 2, "kind-before-number", put(SQUARE, (2, record(9, 2)), (5, record(4, 7))))
refused(2, 1, "number-before-kind", put(SQUARE, (1, record(2, 0, 1)), (4, record(9, 0))))
refused(2, 6, "record-6-of-67", put(FULL[:7], (6, record(5, 0))) + FULL[7:])
refused(2, 66, "record-66", put(FULL, (66, record(4, 1, 63, 0, 0, 0, 3))))

# ---- 3: a record twice, or none
for name, new in (("field", modulus(11)), ("order", LEXICOGRAPHIC), ("period", period(2, 2))):
    refused(3, 7, f"{name}-twice", SQUARE + [new])
    refused(3, 3, f"{name}-twice-early", SQUARE[:3] + [new] + SQUARE[3:])
    refused(3, 5, f"{name}-three-times", SQUARE[:5] + [new] + SQUARE[5:] + [new])
refused(3, 1, "modulus-then-degree", [modulus(11), degree(4)] + SQUARE[1:])
refused(3, 7, "degree-after-modulus", SQUARE + [degree(2)])
refused(3, 7, "another-order", SQUARE + [weighted(1, 2)])
refused(3, 7, "another-period", SQUARE + [period(4)])
refused(3, 3, "order-then-field-twice", SQUARE[:3] + [LEXICOGRAPHIC, modulus(11)] + SQUARE[3:])
refused(3, 3, "period-then-order-twice", SQUARE[:3] + [period(2, 2), GRADED] + SQUARE[3:])
refused(3, 1, "pairs", [modulus(11)] * 2 + [GRADED] * 2 + [period(1)] * 2)
refused(3, 2, "seconds-not-neighbours", [GRADED, modulus(11), GRADED, modulus(11), period(1), cell(1)])
for place, name in enumerate(("field", "order", "period")):
    refused(3, 6, f"no-{name}", without(SQUARE, place))
    refused(3, 5, f"only-{name}-of-the-three", [SQUARE[place]] + SQUARE[3:])
    refused(3, 1, f"{name}-alone", [SQUARE[place]])
refused(3, 4, "only-cells", SQUARE[3:])
refused(3, 0, "empty", [])
refused(3, 66, "no-order-in-66-records", without(FULL, 1))
refused(3, 67, "no-order-in-67-records", put(FULL, (1, cell(1))))
refused(3, 1, "field-twice-and-no-order", [modulus(11)] * 2 + without(SQUARE, 0, 1))
refused(3, 6, "period-twice-and-no-field", without(SQUARE, 0) + [period(2, 2)])

# ---- 4: a modulus or degree that is not listed
for number in (0, 1, 4, 6, 8, 9, 16, 41, 255, 256, 65520, 65535):
    refused(4, 0, f"modulus-{number}", put(SQUARE, (0, modulus(number))))
for number in (0, 1, 5, 6, 7, 9, 11, 16, 256, 258, 65521):
    refused(4, 0, f"degree-{number}", put(SQUARE, (0, degree(number))))
refused(4, 6, "field-last", put(LATE, (6, modulus(12))))
refused(4, 3, "field-in-the-middle", SQUARE[1:4] + [degree(1)] + SQUARE[4:])

# ---- 5: a weight above 255
for axis in range(4):
    for weight in (256, 65535):
        order = weighted(*put([0] * 4, (axis, weight)))
        refused(5, 1, f"weight-{axis + 1}-is-{weight}", put(SQUARE, (1, order)))
    order = weighted(*put([1] * 4, (axis, 256)))
    refused(5, 1, f"weight-{axis + 1}-of-one-axis", put(TEN, (1, order)))
refused(5, 5, "order-late", put(LATE, (5, weighted(255, 255, 255, 257))))
refused(5, 0, "order-first", [weighted(1000, 1)] + without(SQUARE, 1))
refused(5, 6, "order-last", without(SQUARE, 1) + [weighted(256, 256, 256, 256)])

# ---- 7: a period 0, or more than 64 cells
for periods in ((0,), (0, 2), (2, 0), (0, 1, 1), (1, 0, 1), (1, 1, 0), (0, 1, 1, 1), (1, 0, 1, 1), (1, 1, 0, 1), (1, 1, 1, 0),
                (0, 0, 0, 0), (65, 0), (0, 65), (65,), (66,), (128,), (256,), (320,), (65535,), (13, 5), (5, 13), (2, 33), (1, 65),
                (8, 8, 2), (2, 8, 8), (1, 1, 65), (1, 1, 1, 65), (4, 4, 4, 2), (64, 64, 64, 64), (256, 256), (64, 1024),
                (32768, 2), (2, 32768), (4, 16384), (65535, 65535), (65535, 65535, 65535, 65535), (256, 256, 256, 256),
                (32768, 32768, 4), (65535, 65535, 1, 0)):
    refused(7, 2, "periods-" + "-by-".join(map(str, periods)), put(SQUARE, (2, period(*periods))))
refused(7, 0, "period-first", [period(0)] + without(SQUARE, 2))
refused(7, 6, "period-last", without(SQUARE, 2) + [period(3, 22)])
refused(7, 4, "period-late", put(LATE, (4, period(5, 13))))

# ---- 8: a cell outside, twice or missing
for axis in range(4):
    for m in range(1, 5):
        for coordinate in (1, 256, 65535) if axis >= m else (2, 258, 65535):
            at = put([0] * 4, (axis, coordinate))
            word = "beyond" if axis >= m else "outside"
            base = [modulus(11), GRADED, period(*[2] * m)] + grid(([2] * m + [1] * 3)[:4], lambda *_: 1)
            refused(8, 4, f"{m}-axes-{word}-{axis + 1}-is-{coordinate}", put(base, (4, cell(1, *at))))
refused(8, 7, "outside-besides-all-cells", SQUARE + [cell(1, 2, 0)])
refused(8, 0, "outside-first", [cell(1, 0, 2)] + SQUARE[:6])
refused(8, 5, "outside-in-place-of-another", put(SQUARE, (5, cell(9, 2, 0))))
refused(8, 3, "outside-then-another", put(SQUARE, (3, cell(3, 2, 0))))
refused(8, 4, "outside-then-beyond", put(SQUARE, (4, cell(5, 7, 0)), (5, cell(9, 0, 1, 1))))
refused(8, 4, "beyond-then-outside", put(SQUARE, (4, cell(5, 1, 0, 0, 1)), (5, cell(9, 0, 7))))
refused(8, 5, "twice-then-outside", put(SQUARE, (5, cell(9, 1, 0)), (6, cell(6, 0, 7))))
refused(8, 4, "outside-then-twice", put(SQUARE, (4, cell(5, 7, 0)), (6, cell(9, 0, 1))))
refused(8, 6, "twice", put(SQUARE, (6, cell(3))))
refused(8, 6, "twice-with-another-code", put(SQUARE, (6, cell(4))))
refused(8, 7, "twice-besides-all-cells", SQUARE + [cell(5, 1)])
refused(8, 6, "twice-around-another", put(SQUARE, (6, cell(5, 1))))
refused(8, 5, "three-times", put(SQUARE, (5, cell(5, 1)), (6, cell(5, 1))))
refused(8, 5, "two-cells-twice", SQUARE[:5] + [cell(5, 1), cell(3)])
refused(8, 6, "second-of-the-later-first", SQUARE[:6] + [cell(9, 0, 1), cell(3)])
refused(8, 1, "twice-before-the-period", [cell(3), cell(3)] + SQUARE[:3] + SQUARE[4:])
refused(8, 4, "two-cells-for-one", [modulus(2), GRADED, period(1), cell(1), cell(1)])
for place in range(3, 7):
    refused(8, 6, f"no-cell-{place - 3}", without(SQUARE, place))
refused(8, 3, "no-cells", SQUARE[:3])
refused(8, 66, "no-last-cell-of-64", FULL[:66])
refused(8, 66, "second-at-66", put(FULL, (66, cell(1))))
refused(8, 66, "outside-at-66", put(FULL, (66, cell(3, 64))))

# ---- 10: a code that is not below the field's order
for field, order, name in (
    (modulus(2), 2, "modulus-2"), (modulus(11), 11, "modulus-11"), (modulus(251), 251, "modulus-251"),
    (modulus(257), 257, "modulus-257"), (modulus(65521), 65521, "modulus-65521"),
    (degree(2), 4, "degree-2"), (degree(3), 8, "degree-3"), (degree(4), 16, "degree-4"), (degree(8), 256, "degree-8"),
):
    for code in (order, order + 1, 65535):
        refused(10, 4, f"{name}-code-{code}", [field, GRADED, period(2), cell(1), cell(code, 1)])
for place in range(3, 7):
    corner = place - 3
    refused(10, place, f"cell-{corner}", put(SQUARE, (place, cell(11, corner % 2, corner // 2))))
for place in range(4):
    refused(10, place, f"cell-{place}-late", put(LATE, (place, cell(300, place % 2, place // 2))))
refused(10, 6, "first-by-cell-order", SQUARE[:3] + [cell(99, 1, 1), cell(99, 0, 1), cell(99, 1, 0), cell(99, 0, 0)])
refused(10, 5, "first-coordinate-fastest", SQUARE[:3] + [cell(3), cell(99, 0, 1), cell(99, 1, 0), cell(6, 1, 1)])
refused(10, 6, "third-before-fourth",
        [modulus(3), GRADED, period(1, 1, 2, 2), cell(1), cell(1, 0, 0, 1, 1), cell(3, 0, 0, 0, 1), cell(3, 0, 0, 1)])
refused(10, 1, "cells-before-the-heads", line([1, 11, 11])[::-1] + [modulus(11), GRADED, period(3)])
refused(10, 66, "record-66", put(FULL, (66, cell(5, 63))))
refused(10, 66, "record-66-of-64-backward", FULL[:3] + line([5] * 64)[::-1])

# ---- of two grounds the lower one is named, also where its record is the later one
PLACES = {1: 0, 2: 7, 3: 7, 4: 6, 5: 5, 7: 4, 8: 3, 10: 0}


def at_once(grounds):
    """Faults of several grounds in one file: the lower the ground, the later the record."""
    changes = {4: (6, modulus(4)), 5: (5, weighted(1, 256)), 7: (4, period(13, 5)), 8: (3, cell(6, 0, 1)), 10: (0, cell(65535))}
    more = {3: [modulus(11)], 2: [record(5, 0)], 1: [b"\0"]}
    records = put(LATE, *(changes[g] for g in grounds if g in changes))
    return records + [r for g in more if g in grounds for r in more[g]]


for first, second in combinations(PLACES, 2):
    place = 8 if (first, second) == (2, 3) else PLACES[first]
    refused(first, place, f"before-{second}", at_once((first, second)))
for start in range(6):
    grounds = list(PLACES)[start:]
    place = 8 if grounds[0] == 2 else PLACES[grounds[0]]
    refused(grounds[0], place, "before-all", at_once(grounds))
refused(1, 0, "68-records-before-all", at_once([3, 2, 4, 5, 7, 8, 10]) + [cell(1)] * 59)
refused(2, 66, "before-all-in-67-records", (at_once([3, 4, 5, 7, 8, 10]) + [cell(1)] * 58 + [record(0, 0)]))
refused(3, 6, "no-order-before-4", put(without(LATE, 5), (5, modulus(4))))
refused(3, 6, "no-period-before-4", put(without(LATE, 4), (5, modulus(4))))
refused(3, 6, "no-field-before-5", put(without(LATE, 6), (5, weighted(256))))
refused(3, 6, "no-period-before-5", put(without(LATE, 4), (4, weighted(256))))
refused(3, 6, "no-field-before-7", put(without(LATE, 6), (4, period(0))))
refused(3, 6, "no-order-before-7", put(without(LATE, 5), (4, period(65))))
refused(3, 5, "no-field-before-8", without(LATE, 3, 6))
refused(3, 5, "no-order-before-8", without(LATE, 3, 5))
refused(3, 6, "no-field-before-10", put(without(LATE, 6), (1, cell(65535, 1))))
refused(3, 6, "no-order-before-10", put(without(LATE, 5), (1, cell(11, 1))))
refused(3, 6, "no-period-before-10", put(without(LATE, 4), (1, cell(11, 1))))
refused(4, 5, "before-missing-cell", put(without(LATE, 3), (5, degree(1))))
refused(5, 4, "before-missing-cell", put(without(LATE, 3), (4, weighted(0, 0, 0, 256))))
refused(7, 3, "before-missing-cell", put(without(LATE, 3), (3, period(0, 2))))
refused(8, 6, "missing-before-10", put(without(LATE, 3), (0, cell(11))))
refused(8, 3, "outside-before-10", put(LATE, (0, cell(11)), (3, cell(1, 0, 0, 1))))
refused(8, 3, "twice-before-10", put(LATE, (0, cell(11)), (3, cell(11))))
