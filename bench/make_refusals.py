"""Writes the refusals and edge cases beside the published patterns, and the index of all of them.

    python3 bench/make_refusals.py

The expected texts stand in refusal_cases.py and taken_cases.py; where reference.py says otherwise nothing is written.
"""

import sys
from collections import Counter
from pathlib import Path

from reference import printout
from refusal_cases import REFUSED
from taken_cases import TAKEN

CASES = REFUSED + TAKEN
CRATE = Path(__file__).resolve().parent.parent / "crates" / "pattern_vectors"
DATA = CRATE / "data"


def check():
    names = Counter(name for name, _, _ in CASES)
    faults = [f"{name}: {count} cases of this name" for name, count in names.items() if count > 1]
    for name, data, expected in CASES:
        found = printout(data)
        if found != expected:
            faults.append(f"{name}: expected {expected!r}, reference {found!r}")
    return faults


def write():
    for old in [*DATA.glob("refused-*"), *DATA.glob("taken-*")]:
        old.unlink()
    for name, data, expected in CASES:
        (DATA / f"{name}.bin").write_bytes(data)
        (DATA / f"{name}.txt").write_text(expected)
    names = sorted(path.stem for path in DATA.glob("*.bin"))
    (DATA / "names").write_text("".join(name + "\n" for name in names))
    (CRATE / "stdout").write_text(f"{len(names)} of {len(names)} match\n")
    return len(names)


if __name__ == "__main__":
    faults = check()
    if faults:
        sys.exit("\n".join(faults))
    print(f"{len(CASES)} refusals and edge cases, {write()} cases in all")
