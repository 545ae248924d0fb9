"""Counts the places in src/ that docs/DESIGN-PASS.md speaks of, by their text.

    python3 tools/places.py [FOLDER] [--list]

FOLDER is a checkout (this one, if none is named). A count by text finds candidates; the page says of each what it is.
"""

import collections
import glob
import os
import re
import sys


def sources(folder):
    """Each source file of the crates with its text."""
    return {
        os.path.relpath(path, folder): open(path).read()
        for path in sorted(glob.glob(os.path.join(folder, "crates/*/src/*.rt")))
    }


def matches(files, pattern):
    """The places where a pattern stands, as file and text."""
    return [(name, found.group(0).strip()) for name, text in files.items() for found in re.finditer(pattern, text, re.M)]


def option_shaped(files):
    """Enums of two cases, one with values and one without."""
    found = []
    for name, text in files.items():
        for enum in re.finditer(r"enum (\w+)(?:<[^>]*>)? \{\n(.*?)\n\}", text, re.S):
            cases = re.findall(r"^    (\w+)(\(|,| \{)", enum.group(2), re.M)
            if len(cases) == 2 and sorted(mark == "," for _, mark in cases) == [False, True]:
                found.append((name, "enum " + enum.group(1)))
    return found


def bodies(files):
    """Each function with its body."""
    for name, text in files.items():
        for head in re.finditer(r"^( *)(?:pub(?:\(crate\))? )?(?:extern \"C\" )?fn (\w+)", text, re.M):
            begin = text.find("\n" + head.group(1) + "{\n", head.start())
            end = text.find("\n" + head.group(1) + "}\n", head.start())
            inline = text.find("{\n", head.start())
            start = begin if 0 <= begin < end else inline
            if 0 <= start < end:
                yield name, head.group(2), text[start:end]


def twins(files):
    """Groups of functions whose bodies of three lines and more differ only in names and numbers."""
    shapes = collections.defaultdict(list)
    for name, function, body in bodies(files):
        if body.count("\n") < 4 or "#[test]" in body:
            continue
        seen = {}
        shape = re.sub(r"[A-Za-z_]\w*|\d+", lambda word: str(seen.setdefault(word.group(0), len(seen))), body)
        shapes[shape].append((name, "fn " + function))
    return [place for group in shapes.values() if len(group) > 1 for place in group]


def counted(files):
    """Loops that index by a number that they count, searches written as loops, and counters raised by hand."""
    found = [(name, "+= 1") for name, text in files.items() for _ in re.finditer(r"\+= 1[;,]", text)]
    for name, function, body in bodies(files):
        if re.search(r"\bfor .*\{(?:.|\n)*return (?:Some|Ok|true|false)\b", body):
            found.append((name, "a search in fn " + function))
        for loop in re.finditer(r"for (\w+) in [^{]*\.\.[^{]*\{", body):
            rest = body[loop.end():]
            if re.search(r"\[[^\]]*\b" + loop.group(1) + r"\b[^\]]*\]", rest):
                found.append((name, loop.group(0)))
    return found


def by_hand(files):
    """Equality, conversion and printing written by hand."""
    return matches(files, r"impl (?:std::|fmt::)?(?:PartialEq|Eq|PartialOrd|Ord|Clone|Debug|Hash)\b[^{]*\{") + matches(
        files, r"fn (?:(?:from|to|of)_\w+|low|high|number_at|agree|same|words|wanted|verdict_number)\("
    )


def repeated_facts(files):
    """Facts that stand in the requires of three functions of a crate, and functions of six parameters and more.

    A fact inside an ensures, and a pair of two parameters, are found by reading alone."""
    facts = collections.defaultdict(list)
    for name, text in files.items():
        for clause in re.finditer(r"requires(?: \w+)? \{ (.*) \}", text):
            for part in clause.group(1).split(" × "):
                fact = re.sub(r"\b(?:old|new|now)\b", "_", part.strip("() "))
                facts[(name.split("/")[1], fact)].append(name)
    found = [(crate, fact) for (crate, fact), places in facts.items() if len(places) >= 3]
    for name, text in files.items():
        for head in re.finditer(r"fn (\w+)(?:<[^(]*>)?\(([^)]*)\)", text, re.S):
            if len([part for part in head.group(2).split(",") if part.strip()]) >= 6:
                found.append((name, "fn " + head.group(1)))
    return found


def buffers(files):
    """Structs that hold an array beside a length, or two arrays of one length."""
    found = []
    for name, text in files.items():
        for struct in re.finditer(r"struct (\w+)(?:<[^>]*>)? \{\n(.*?)\n\}", text, re.S):
            arrays = re.findall(r": \[.*; (\w+)\],", struct.group(2))
            length = re.search(r"\b(?:count|used|len\w*): usize", struct.group(2))
            if arrays and (length or len(arrays) != len(set(arrays))):
                found.append((name, "struct " + struct.group(1)))
    return found


def switches(files):
    """Enums without values that choose a step by a match, and traits that are one closure."""
    return matches(files, r"match (?:task|awaited|said) \{") + matches(files, r"^(?:pub )?trait Pieces")


POINTS = [
    ("1 shapes of Option, flags, numbers", lambda files: option_shaped(files)
        + matches(files, r"^ *(?:return 0;|.*=> (?:return )?0,)$") + matches(files, r": (?:\[bool; .*\]|bool),$")),
    ("2 twins", twins),
    ("3 counted loops, searches written as loops", counted),
    ("4 by hand", by_hand),
    ("5 repeated facts, long parameter lists", repeated_facts),
    ("6 buffers with a length, parallel arrays", buffers),
    ("7 switches on a step", switches),
]


def main():
    words = [word for word in sys.argv[1:] if word != "--list"]
    files = sources(words[0] if words else ".")
    for point, count in POINTS:
        places = count(files)
        print(f"{point}: {len(places)}")
        if "--list" in sys.argv:
            for name, text in places:
                print(f"    {name}: {text}")


main()
