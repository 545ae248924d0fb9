"""Files of records: the records one by one, and some files to start from."""

import struct


def record(kind, sub, *numbers):
    return struct.pack("<BB5H", kind, sub, *numbers, *[0] * (5 - len(numbers)))


def modulus(*numbers):
    return record(1, 0, *numbers)


def degree(*numbers):
    return record(1, 1, *numbers)


def weighted(*weights):
    return record(2, 2, *weights)


def period(*periods):
    return record(3, len(periods), *periods)


def cell(code, c1=0, c2=0, c3=0, c4=0):
    return record(4, 0, c1, c2, c3, c4, code)


def line(codes):
    """The cells of an array with one axis."""
    return [cell(code, c) for c, code in enumerate(codes)]


def grid(periods, code):
    """The cells of an array with four axes, by a function of the coordinates."""
    n1, n2, n3, n4 = periods
    return [
        cell(code(a, b, c, d), a, b, c, d)
        for d in range(n4) for c in range(n3) for b in range(n2) for a in range(n1)
    ]


def put(records, *changes):
    """The records with some replaced: pairs of a place and a record."""
    records = list(records)
    for place, new in changes:
        records[place] = new
    return records


def without(records, *places):
    return [r for place, r in enumerate(records) if place not in places]


LEXICOGRAPHIC, GRADED = record(2, 0), record(2, 1)
CORNERS = [cell(3), cell(5, 1), cell(9, 0, 1), cell(6, 1, 1)]
# The field first and the cells last; the other way round; one axis; as many records as are taken.
SQUARE = [modulus(11), LEXICOGRAPHIC, period(2, 2)] + CORNERS
LATE = CORNERS + [period(2, 2), weighted(1, 1), modulus(11)]
TEN = [modulus(11), GRADED, period(10)] + line([3, 5, 9, 6, 0, 10, 8, 4, 7, 2])
FULL = [modulus(5), GRADED, period(64)] + line([1, 2, 4, 3] * 16)
