#!/usr/bin/env python3
"""Proof documents of the examples, and what the program answers to those that somebody changed.

    tools/documents.py PROGRAM [--large]

For each text of `examples` of which all is true: its document, the check of it, the document behind a comment and an old one, both under `--steps 1`; then the document with two sets exchanged, with its first set
taken from another design, with each line of a set turned (its two branches exchanged; some of them where there are many), with a variable past its problem, with a set left out and with one more, and behind another
design. For each other text `proof` has to answer as `prove` does. With `--large` also documents of the greatest length and of one byte more, with the time and the memory that they take.
It ends with status 1 where an answer is not what it has to be, and prints how often each one came.
"""
import collections
import os
import random
import re
import subprocess
import sys
import tempfile
from pathlib import Path

TOP = Path(__file__).resolve().parent.parent
LIMIT = 67_108_864
TURNED = 12
told = collections.Counter()


def run(program, given, *words):
    """Returns the status, the answer, the seconds of processor time and the peak of memory in MB."""
    with tempfile.TemporaryFile() as source, tempfile.TemporaryFile() as sink:
        source.write(given.encode())
        source.seek(0)
        child = subprocess.Popen([program, *words], stdin=source, stdout=sink)
        _, status, usage = os.wait4(child.pid, 0)
        child.returncode = os.waitstatus_to_exitcode(status)
        sink.seek(0)
        return child.returncode, sink.read().decode(), usage.ru_utime + usage.ru_stime, usage.ru_maxrss / 1024


def expect(kind, found, *due):
    """Counts an answer of a kind, and ends where it is none of those that are due."""
    status, answer = found[:2]
    if (status, answer) not in due:
        sys.exit(f"{kind}: status {status}, {answer[:300]!r}, and not one of {[(s, a[:300]) for s, a in due]}")
    told[f"{kind}: {re.sub(r'[0-9]+', 'N', answer) if len(answer) < 40 else 'the document'}".strip()] += 1


def sets_of(lines):
    """Returns the lines of each set."""
    sets = []
    for line in lines:
        if line.startswith("set "):
            sets.append([])
        sets[-1].append(line)
    return sets


def document(text, sets):
    head = f"smv proof 1\ndesign {len(text.encode())}\n{text}\n"
    return head + "".join(line + "\n" for one in sets for line in one)


def turned(line):
    var, low, high = line.split(" ")
    return f"{var} {high} {low}"


REJECTED = (9, "rejected form\n")


def failed(sets):
    return [(9, f"rejected set {k}\n") for k in range(1, len(sets) + 1)]


def one_text(program, text, other):
    """Tries the document of a text. `other` is a text and its sets, of another design."""
    written = run(program, text, "proof")
    if not written[1].startswith("smv proof 1\n"):
        expect("not proved", written, run(program, text, "prove")[:2])
        return None
    status, whole = written[:2]
    sets = sets_of(whole[len(document(text, [])):].splitlines())
    yes = (0, f"checked {len(sets)}\n")
    expect("written", written, (0, document(text, sets)))
    expect("checked", run(program, whole, "check"), yes)
    for new in (text, text + "-- more\n"):
        given = f"old {len(whole.encode())}\n{whole}\n{new}"
        expect("resumed", run(program, given, "resume", "--steps", "1"), (0, document(new, sets)))
    for at in range(len(sets) - 1):
        changed = sets[:at] + [sets[at + 1], sets[at]] + sets[at + 2:]
        expect("two sets exchanged", run(program, document(text, changed), "check"), REJECTED)
    expect("a set left out", run(program, document(text, sets[:-1]), "check"), REJECTED)
    expect("one set more", run(program, document(text, sets + [sets[-1]]), "check"), REJECTED)
    if other:
        foreign = [sets[0][0].rsplit(" ", 2)[0] + " " + " ".join(other[1][0][0].split(" ")[3:])] + other[1][0][1:]
        expect("a set of another design", run(program, document(text, [foreign, *sets[1:]]), "check"), REJECTED, *failed(sets), yes)
        expect("another design", run(program, document(other[0], sets), "check"), REJECTED, *failed(sets))
    lines = [(k, at) for k, one in enumerate(sets) for at in range(1, len(one))]
    for k, at in random.sample(lines, min(TURNED, len(lines))):
        changed = [list(one) for one in sets]
        changed[k][at] = turned(changed[k][at])
        expect("a line turned", run(program, document(text, changed), "check"), REJECTED, (9, f"rejected set {k + 1}\n"), yes)
    for k in range(len(sets)):
        words = sets[k][0].split(" ")
        past = [" ".join([*words[:3], "2", "1"]), "2046 0 1"]
        expect("a variable past its problem", run(program, document(text, [*sets[:k], past, *sets[k + 1:]]), "check"), REJECTED)
        none = [" ".join([*words[:3], "0", "0"])]
        expect("no state", run(program, document(text, [*sets[:k], none, *sets[k + 1:]]), "check"), (9, f"rejected set {k + 1}\n"))
    return text, sets


def wide_text(bits):
    """Returns a text with one case of so many state bits."""
    names = [f"x{i}" for i in range(bits)]
    return f"module main() {{ {', '.join(names)} : boolean; p : assert G ({' & '.join(f'({n} | ~{n})' for n in names)}); }}"


def large(program):
    """Tries documents of the greatest length."""
    bits = 1_000
    text = wide_text(bits)
    places = [2 * i for i in reversed(range(bits))]
    lines, size, earlier, number = [], 0, [0, 1], 2
    most = LIMIT - len(text) - 120
    each = 3_300_000 // bits + 200
    for var in places:
        level, seen = [], set()
        for _ in range(each):
            low, high = (earlier[random.randrange(max(0, len(earlier) - 20_000), len(earlier))] for _ in range(2))
            line = f"{var} {low} {high}"
            if low == high or (low, high) in seen or size + len(line) + 1 > most:
                continue
            seen.add((low, high))
            lines.append(line)
            size += len(line) + 1
            level.append(number)
            number += 1
        earlier += level
    for root, due in [(1, (0, "checked 1\n")), (0, (9, "rejected set 1\n"))]:
        whole = document(text, [[f"set p 0 {root} {len(lines)}", *lines]])
        padded = document(text + " " * (LIMIT - len(whole)), [[f"set p 0 {root} {len(lines)}", *lines]])
        padded = document(text + " " * (LIMIT - len(whole) - (len(padded) - LIMIT)), [[f"set p 0 {root} {len(lines)}", *lines]])
        found = run(program, padded, "check")
        print(f"check, {len(padded):,} bytes, {len(lines):,} lines, root {root}: {found[0]} {found[1].strip()}, {found[2]:.2f} s, {found[3]:.0f} MB")
        expect("a document of 64 MB", found, due)
        for part in (2, 4, 8):
            short = document(text, [[f"set p 0 {root} {len(lines) // part}", *lines[:len(lines) // part]]])
            found = run(program, short, "check")
            print(f"check, {len(short):,} bytes: {found[2]:.2f} s, {found[3]:.0f} MB")
            expect("a part of it", found, due)
    found = run(program, padded + "x", "check")
    print(f"check, {len(padded) + 1:,} bytes: {found[0]} {found[1].strip()}, {found[2]:.2f} s, {found[3]:.0f} MB")
    expect("one byte more", found, (3, "fault 33 at line 1 column 1\n"))
    found = run(program, padded[:-1] + "x", "check")
    print(f"check, the last line without its end: {found[0]} {found[1].strip()}, {found[2]:.2f} s, {found[3]:.0f} MB")
    expect("a last line without its end", found, REJECTED)
    old = f"old {len(padded)}\n{padded}\n{text}"
    found = run(program, old, "resume")
    print(f"resume behind it: {found[0]}, {len(found[1]):,} bytes, {found[2]:.2f} s, {found[3]:.0f} MB")
    old += " " * (69_206_017 - len(old))
    found = run(program, old, "resume")
    expect("one byte more to resume", found, (3, "fault 33 at line 1 column 1\n"))


def main(words):
    if not words:
        print(__doc__)
        return 2
    random.seed(1)
    if "--large" in words:
        large(words[0])
    else:
        other = None
        for text in sorted((TOP / "examples").glob("*.smv")):
            other = one_text(words[0], text.read_text(), other) or other
    for kind, count in sorted(told.items()):
        print(f"{count:6}  {kind}")
    return 0


if __name__ == "__main__":
    sys.exit(main(sys.argv[1:]))
