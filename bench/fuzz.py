"""Runs `relations` on random, valid and damaged files, some of them handed over in pieces, and holds what it prints to reference.py.

    python3 bench/fuzz.py [PROGRAM] [--count N] [--seed S]

Prints how many files of each outcome there were. Files that differ are saved to a temporary folder, and the exit status is then 1.
"""

import argparse
import random
import subprocess
import sys
import tempfile
import time
from collections import Counter
from pathlib import Path

from records import *
from reference import LINES, MODULI, MOST_CELLS, REDUCED_BY, USED, printout

PROGRAM = Path(__file__).resolve().parent.parent / "crates" / "relations" / "out" / "relations"
EDGES = (0, 1, 2, 3, 4, 5, 8, 63, 64, 65, 255, 256, 257, 65520, 65521, 65535)
SAVED, SECONDS, PIECES = 10, 60, 20


# ---- files
def random_bytes(rng):
    length = rng.choice((rng.randrange(40), rng.randrange(900), 12 * rng.randrange(70)))
    if rng.random() < 0.5:
        return rng.randbytes(length)
    # Mostly small bytes, so that kinds and subkinds are often listed.
    return bytes(rng.choice((0, 0, 0, 0, 1, 1, 2, 3, 4, rng.randrange(256))) for _ in range(length))


def some_periods(rng):
    m, most = rng.randint(1, 4), rng.choice((4, 12, 24, MOST_CELLS))
    periods = []
    for _ in range(m):
        periods.append(rng.randint(1, most))
        most //= periods[-1]
    rng.shuffle(periods)
    return periods


def some_codes(rng, order, periods):
    """The code at a cell: of full rank, few, repeated, of a linear form, or products along the axes."""
    kind = rng.randrange(5)
    steps = [rng.randrange(4) for _ in periods]
    table = [rng.randrange(order) for _ in range(256)]
    shorter = [rng.randint(1, n) for n in periods]
    bases = [[rng.randrange(order) for _ in periods] for _ in range(rng.randint(1, 3))]

    def code(*at):
        if kind == 0:
            return rng.randrange(order)
        if kind == 1:
            return rng.randrange(order) if rng.random() < 0.2 else 0
        if kind == 2:
            return table[sum(c % n * 16 ** i for i, (c, n) in enumerate(zip(at, shorter))) % 256]
        if kind == 3:
            return table[sum(c * s for c, s in zip(at, steps)) % shorter[0]]
        total = 0
        for base in bases:
            product = 1
            for b, c in zip(base, at):
                product *= b**c
            total += product
        return total % order

    return code


def valid(rng):
    """The records of a file that is taken, in any order."""
    if rng.random() < 0.6:
        order = rng.choice(MODULI)
        field = modulus(order)
    else:
        exponent = rng.choice(list(REDUCED_BY))
        field, order = degree(exponent), 1 << exponent
    weights = [rng.choice((0, 1, 2, 3, 255, rng.randrange(256))) for _ in range(4)]
    periods = some_periods(rng)
    cells = grid((periods + [1] * 3)[:4], some_codes(rng, order, periods))
    records = [field, rng.choice((LEXICOGRAPHIC, GRADED, weighted(*weights))), period(*periods)] + cells
    if rng.random() < 0.7:
        rng.shuffle(records)
    return records


def with_byte(r, at, byte):
    return r[:at] + bytes([byte]) + r[at + 1:]


def with_edge(rng, r):
    """A number that the record uses becomes one at the edge of what is taken."""
    if r[0] == 2:
        r = with_byte(r, 1, 2)
    used = USED.get((r[0], r[1]), 5)
    at = 10 if r[0] == 4 and rng.random() < 0.5 else 2 + 2 * rng.randrange(max(used, 1))
    return r[:at] + rng.choice(EDGES).to_bytes(2, "little") + r[at + 2:]


def damage(rng, records):
    """One record is changed, dropped, repeated or exchanged."""
    heads = [place for place, r in enumerate(records) if r[0] != 4]
    place = rng.choice(heads) if heads and rng.random() < 0.5 else rng.randrange(len(records))
    r = records[place]
    way = rng.randrange(10)
    if way < 4:
        records[place] = with_edge(rng, r)
    elif way == 4:
        at = rng.randrange(12)
        records[place] = with_byte(r, at, r[at] ^ 1 << rng.randrange(8))
    elif way == 5:
        records[place] = with_byte(r, rng.randrange(2), rng.choice((0, 1, 2, 3, 4, 5, 255)))
    elif way == 6:
        records[place] = rng.choice(valid(rng))
    elif way == 7:
        records[rng.randrange(len(records))] = r
    elif way == 8:
        records.insert(rng.randint(0, len(records)), r)
    elif len(records) > 1:
        del records[place]


def damaged(rng):
    records = valid(rng)
    for _ in range(rng.choice((0, 1, 1, 1, 2, 2, 3))):
        damage(rng, records)
    data = b"".join(records)
    way = rng.randrange(14)
    if way == 0:
        return data[:rng.randint(0, len(data))]
    if way == 1:
        return data + rng.randbytes(rng.randint(1, 24))
    return data


def files(rng, count):
    yield "large", b"".join(TEN) + cell(1) * 65536
    yield "large", bytes(1 << 20)
    for _ in range(PIECES):
        yield "in pieces", b"".join(valid(rng))
    for number in range(count):
        share = number % 10
        if share < 1:
            yield "random", random_bytes(rng)
        elif share < 4:
            yield "valid", b"".join(valid(rng))
        else:
            yield "damaged", damaged(rng)


# ---- runs
def run_in_pieces(program, data):
    """The file is handed over in parts, with a rest between them, as a pipe may."""
    with subprocess.Popen([program], stdin=subprocess.PIPE, stdout=subprocess.PIPE, stderr=subprocess.DEVNULL) as done:
        step = len(data) // 3 + 1
        for start in range(0, len(data), step):
            done.stdin.write(data[start:start + step])
            done.stdin.flush()
            time.sleep(0.05)
        found, _ = done.communicate(timeout=SECONDS)
    return found, done.returncode


def run(program, kind, data):
    if kind == "in pieces":
        return run_in_pieces(program, data)
    try:
        done = subprocess.run([program], input=data, stdout=subprocess.PIPE, stderr=subprocess.DEVNULL, timeout=SECONDS)
    except subprocess.TimeoutExpired:
        return b"", "no end"
    return done.stdout, done.returncode


def outcome(text):
    return " ".join(text.split()[:2]) if text.startswith("refused") else "taken"


def save(folder, number, data, expected, found, status):
    (folder / f"{number}.bin").write_bytes(data)
    (folder / f"{number}.expected").write_bytes(expected)
    (folder / f"{number}.found").write_bytes(found)
    print(f"file {number} differs, exit status {status}: {folder / str(number)}.bin")


def main():
    options = argparse.ArgumentParser()
    options.add_argument("program", nargs="?", default=PROGRAM)
    options.add_argument("--count", type=int, default=3000)
    options.add_argument("--seed", type=int, default=1)
    given = options.parse_args()
    if not Path(given.program).is_file():
        sys.exit(f"no program {given.program}: rt run in crates/relations builds it")
    kinds, outcomes, most, differences, folder = Counter(), Counter(), 0, 0, None
    for number, (kind, data) in enumerate(files(random.Random(given.seed), given.count)):
        text = printout(data)
        kinds[kind] += 1
        outcomes[outcome(text)] += 1
        if text.startswith("judged"):
            most = max(most, int(text.split()[1]))
        found, status = run(given.program, kind, data)
        if found != text.encode() or status != 0:
            differences += 1
            if differences <= SAVED:
                folder = folder or Path(tempfile.mkdtemp(prefix="relations-"))
                save(folder, number, data, text.encode(), found, status)
    print(", ".join(f"{kind} {kinds[kind]}" for kind in kinds))
    print(", ".join(f"{name}: {outcomes[name]}" for name in sorted(outcomes, key=lambda n: (len(n), n))))
    print(f"most lines {most} of {LINES}")
    print(f"{differences} differences")
    return differences != 0


if __name__ == "__main__":
    sys.exit(main())
