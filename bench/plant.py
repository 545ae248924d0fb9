#!/usr/bin/env python3
"""Plants bugs one at a time and says which of them the prover refuses.

    python3 bench/plant.py [--results FILE] [--logs DIR] [NAME..]

A bug is a file bench/planted/CRATE/LABEL.edit: a line 'file: src/..', then 'old: TEXT' (standing once in that file) and
'new: TEXT'; more lines of the same kinds add further replacements. In a text, \\n is a line break and \\\\ a backslash.
A line 'why: TEXT' says of an edit why no contract refuses it, though the proof that stands may.
NAME is a crate, a label or CRATE/LABEL; none means all. Each bug is planted in a copy of the repository, where the crate
is checked with its tests left aside, and one line is printed: crate, label, and

    refused    with the place of the first error, and the need that is not shown
    survived   the crate is proved with the bug: the contracts let it through
    invalid    the edit does not apply, or does not compile: it shows nothing
    timeout    neither within the time

The lines are added to FILE, and a bug that has one there is passed over; what the prover said is left in DIR.
Run 'rt check' in each crate first, so that only what the bug touches is checked again.
"""
import os
import re
import shutil
import signal
import subprocess
import sys
import tempfile
import time

ROOT = os.path.dirname(os.path.dirname(os.path.abspath(__file__)))
PLANTED = os.path.join(ROOT, "bench", "planted")
SECONDS = 300
AT = r"((?:src|proofs|specs)/[^\s:]+:\d+):\d+"


def order_of_crates():
    with open(os.path.join(ROOT, "crates.txt")) as lines:
        return [line.split(":")[0].split()[0] for line in lines if ":" in line and not line.startswith("#")]


def bugs(names):
    found = []
    for crate in order_of_crates():
        folder = os.path.join(PLANTED, crate)
        for file in sorted(os.listdir(folder)) if os.path.isdir(folder) else []:
            label, ending = os.path.splitext(file)
            if ending == ".edit" and (not names or names & {crate, label, crate + "/" + label}):
                found.append((crate, label))
    return found


def unescaped(text):
    return re.sub(r"\\(.)", lambda m: "\n" if m[1] == "n" else m[1], text)


def edited(crate, label):
    """The files that the edit changes, with their new texts; why no contract refuses it; and why it does not apply."""
    texts, file, old, why = {}, None, None, ""
    with open(os.path.join(PLANTED, crate, label + ".edit")) as lines:
        for line in lines.read().split("\n"):
            if line.startswith("file: "):
                file = line[6:]
                with open(os.path.join(ROOT, "crates", crate, file)) as source:
                    texts.setdefault(file, source.read())
            elif line.startswith("why: "):
                why = line[5:]
            elif line.startswith("old: "):
                old = unescaped(line[5:])
            elif line.startswith("new:"):
                times = texts[file].count(old)
                if times != 1:
                    return None, None, "old text occurs %d times" % times
                texts[file] = texts[file].replace(old, unescaped(line[4:].removeprefix(" ")))
    return texts, why, None


def first_error(log):
    where = re.search(r"^(?:note: )?\S*?" + AT + r": (?!note|warning)(.*)$", log, re.M)
    if where:
        needs = re.search(r"\(`([^`]+)`\)", where[2])
        return where[1] + " " + (needs[1] if needs else where[2][:110])
    left = re.search(r"^(fn|impl|struct) (\S+): (?:no proof|not proved)[:;] (.*)$", log, re.M)
    return left[2] + " " + re.sub(r"\S*/crates/", "", left[3])[:110] if left else "?"


def copied(work):
    """A copy of the repository with what is proved of it, in the out/ of each crate."""
    shutil.copytree(os.path.join(ROOT, "crates"), os.path.join(work, "crates"))
    shutil.copy(os.path.join(ROOT, "crates.txt"), work)


def try_bug(work, crate, label, logs):
    texts, why, amiss = edited(crate, label)
    if amiss:
        return "invalid", amiss
    for file, text in texts.items():
        with open(os.path.join(work, "crates", crate, file), "w") as out:
            out.write(text)
    run = subprocess.Popen(
        ["nice", "rt", "check"], cwd=os.path.join(work, "crates", crate), stdout=subprocess.PIPE, stderr=subprocess.STDOUT, text=True, start_new_session=True
    )
    try:
        log = run.communicate(timeout=SECONDS)[0]
    except subprocess.TimeoutExpired:
        os.killpg(run.pid, signal.SIGKILL)
        log = run.communicate()[0]
        return "timeout", first_error(log)
    finally:
        for file in texts:
            shutil.copy(os.path.join(ROOT, "crates", crate, file), os.path.join(work, "crates", crate, file))
    if logs:
        os.makedirs(logs, exist_ok=True)
        with open(os.path.join(logs, crate + "." + label), "w") as out:
            out.write(log)
    if re.search(r"^logic=proved ", log, re.M) and run.returncode == 0:
        return "survived", why or "no reason is given"
    if re.search(r"^logic=not-proved", log, re.M) and "the borrow checker does not cover" not in log:
        return "refused", first_error(log) + (why and "; by this proof only: " + why)
    said = re.search(r"^.*(?:error|does not cover).*$", log, re.M)
    return "invalid", said[0][-160:] if said else log[-160:].replace("\n", " ")


def main():
    words, results, logs = sys.argv[1:], None, None
    while words and words[0] in ("--results", "--logs"):
        if words[0] == "--results":
            results = words[1]
        else:
            logs = words[1]
        words = words[2:]
    known = set()
    if results and os.path.exists(results):
        with open(results) as lines:
            known = {tuple(line.split()[:2]) for line in lines}
    todo = [bug for bug in bugs(set(words)) if bug not in known]
    counts = {}
    with tempfile.TemporaryDirectory(prefix="plant.") as work:
        copied(work)
        for crate, label in todo:
            began = time.time()
            outcome, detail = try_bug(work, crate, label, logs)
            counts[outcome] = counts.get(outcome, 0) + 1
            line = "%s %s %s %s (%d s)" % (crate, label, outcome, detail, time.time() - began)
            print(line, flush=True)
            if results:
                with open(results, "a") as out:
                    out.write(line + "\n")
    print(", ".join("%d %s" % (number, outcome) for outcome, number in sorted(counts.items())))
    return 1 if counts.get("invalid") or counts.get("timeout") else 0


if __name__ == "__main__":
    sys.exit(main())
