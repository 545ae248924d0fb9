#!/usr/bin/env python3
"""Brings the repository's own names of specs/ and proofs/ to one spelling: types in camel case, all else in snake case.

    python3 tools/respell.py            at the top of the repository, once, after the toolchain's own port

It renames definitions, lemmas, fields and local names that hold a dash, wherever they stand in .antt files, in the clauses and
`ghost use` lines of .rt files, and between backticks in README.md and docs/. Names of the library, names that the prover makes,
and names in code, strings, inputs and outputs stay. tools/respelled.txt has a line 'OLD NEW' for each name.
"""
import glob
import os
import re

TABLE = os.path.join(os.path.dirname(os.path.abspath(__file__)), 'respelled.txt')
NAME = re.compile(r"[A-Za-zΑ-Ωα-κμ-ωℕ_][\w₀-₉'⁻¹ℕ]*(?:-[\w₀-₉'⁻¹]+)*")
IMPORT = re.compile(r"^\s*use\s+(\S+?)\.\{")
MADE = re.compile(r"\.(?:Goals|Given|Needs)$")
CLAUSE = re.compile(r"\s*(?:pub\s+)?(?:ghost\b|requires\b|ensures\b)")


def files(*patterns):
    return sorted(f for p in patterns for f in glob.glob(p, recursive=True) if '/out/' not in f)


def own(path):
    parts = path.split('.')
    return parts[0] == 'Rattle' and len(parts) > 1 and os.path.isdir(os.path.join('crates', parts[1]))


def turned(text, table):
    return NAME.sub(lambda m: table.get(m.group(0), m.group(0)), text)


def stays(line):
    """A comment, or an import of names that are not the repository's own."""
    found = IMPORT.match(line)
    return line.lstrip().startswith('--') or (found and (MADE.search(found.group(1)) or not own(found.group(1))))


def turn_proof(text, table):
    return '\n'.join(line if stays(line) else turned(line, table) for line in text.split('\n'))


def turn_source(text, table):
    return '\n'.join(turned(line, table) if CLAUSE.match(line) else line for line in text.split('\n'))


def turn_page(text, table):
    return re.sub(r"`[^`\n]+`", lambda m: turned(m.group(0), table), text)


def rewrite(paths, turn, table):
    for path in paths:
        with open(path, encoding='utf-8') as f:
            text = f.read()
        new = turn(text, table)
        if new != text:
            with open(path, 'w', encoding='utf-8') as f:
                f.write(new)


def main():
    with open(TABLE, encoding='utf-8') as f:
        table = dict(line.split() for line in f)
    rewrite(files('crates/*/specs/**/*.antt', 'crates/*/proofs/**/*.antt'), turn_proof, table)
    rewrite(files('crates/*/src/**/*.rt'), turn_source, table)
    rewrite(files('README.md', 'docs/*.md'), turn_page, table)


main()
