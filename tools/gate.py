#!/usr/bin/env python3
"""Runs the gate, or watches one that runs, and tells where its time goes.

    tools/gate.py [-o TABLE] [--] [rt ci's words]   runs rt ci at the top of this checkout
    tools/gate.py [-o TABLE] --remember             the same by tools/ci.py
    tools/gate.py [-o TABLE] --watch PID            watches a run of rt ci until it ends

Of each crate: processor seconds of its proof, of its tests' proof, of the check that its must-fail edits begin with (the seed; kits in which the first edit
does that work have none, and count it there), and of its edits, with the dearest of each. Then the sum, and the longest chain of crates by the seconds of their proofs. It reads /proc once a second, so a task's last
second may be missing. The table is Markdown.
"""
import argparse
import collections
import glob
import os
import re
import subprocess
import sys
import time

TOP = os.path.dirname(os.path.dirname(os.path.abspath(__file__)))
TICK = os.sysconf("SC_CLK_TCK")
KINDS = ["proof", "tests", "seed", "edits"]


def processes():
    """Returns the processes that run, by their ids: parent, name, and processor seconds of it and of its children that have ended."""
    found = {}
    for pid in filter(str.isdigit, os.listdir("/proc")):
        try:
            with open(f"/proc/{pid}/stat", encoding="utf-8", errors="replace") as it:
                name, rest = re.match(r"\d+ \((.*)\) (.*)", it.read(), re.S).groups()
        except (OSError, AttributeError):
            continue
        words = rest.split()
        found[int(pid)] = int(words[1]), name, sum(map(int, words[11:15])) / TICK, words[19]
    return found


def words_of(pid):
    try:
        with open(f"/proc/{pid}/cmdline", "rb") as it:
            return it.read().decode(errors="replace").split("\0")[:-1]
    except OSError:
        return []


def task_of(words, pid):
    """Returns the crate and the kind of a prover's task, and of an edit what it is told by: its folder, or its process where a crate's edits share one."""
    if "--crate-name" not in words or len(words) < 2:
        return None
    crate = words[words.index("--crate-name") + 1]
    kept = words[words.index("--incremental") + 1] if "--incremental" in words else ""
    if "/rt-edits-" in kept:
        last = os.path.basename(kept)
        return (crate, "seed", "") if last == "seed" else (crate, "edits", pid if last.startswith("rt-edits-") else last)
    if "--test" in words or words[1] == "test":
        return crate, "tests", ""
    return (crate, "proof", "") if words[1] == "build" else (crate, "edits", "anew")


def watch(root, seen):
    """Notes what each prover below the process root has used, and returns whether that process still runs."""
    now = processes()
    below = collections.defaultdict(list)
    for pid, (parent, *_) in now.items():
        below[parent].append(pid)

    def used(pid):
        return now[pid][2] + sum(map(used, below[pid]))

    def walk(pid):
        for child in below[pid]:
            if now[child][1].startswith("rattle"):
                task = task_of(words_of(child), child)
                if task:
                    seen[child, now[child][3]] = task, max(used(child), seen.get((child, now[child][3]), (0, 0))[1])
            else:
                walk(child)

    if root in now:
        walk(root)
    return root in now and os.path.exists(f"/proc/{root}/exe")


def libraries():
    """Returns the libraries that each crate of the repository names."""
    with open(f"{TOP}/crates.txt", encoding="utf-8") as it:
        lines = [line.split("#")[0].strip() for line in it]
    named = {line.split(":")[0].split()[0]: line.split(":")[1].split() for line in lines if line}
    return {name: [it for it in below if it in named] for name, below in named.items()}


def edits_of(crate):
    """Returns how many must-fail edits a crate has."""
    return len(glob.glob(f"{TOP}/crates/{crate}/must-fail/*.edit"))


def table(seen, wall):
    spent = collections.defaultdict(lambda: collections.defaultdict(float))
    for (crate, kind, number), seconds in seen.values():
        spent[crate, kind][number] += seconds
    below, chain = libraries(), {}

    def behind(crate):
        if crate not in chain:
            own = sum(spent[crate, "proof"].values())
            longest = max((behind(it) for it in below[crate]), default=(0, []))
            chain[crate] = longest[0] + own, [*longest[1], crate]
        return chain[crate]

    rows, sums = [], collections.Counter()
    for crate in below:
        row = {kind: sum(spent[crate, kind].values()) for kind in KINDS}
        sums.update(row)
        edits = spent[crate, "edits"]
        rows.append((sum(row.values()), crate, row, edits_of(crate), max(edits.values(), default=0)))
    yield "| crate | proof | tests | seed | edits | number of edits | dearest edit | all |"
    yield "|---|---|---|---|---|---|---|---|"
    for total, crate, row, number, most in sorted(rows, reverse=True):
        if total >= 0.5:
            yield f"| `{crate}` | " + " | ".join(f"{row[it]:.0f}" for it in KINDS) + f" | {number} | {most:.0f} | {total:.0f} |"
    yield "| all | " + " | ".join(f"{sums[it]:.0f}" for it in KINDS) + f" | | | {sum(sums.values()):.0f} |"
    yield ""
    most, names = max(map(behind, below))
    yield f"In all {sum(sums.values()) / 60:.0f} processor minutes, {wall / 60:.0f} minutes by the clock on {os.cpu_count()} processors."
    yield f"The longest chain of proofs, {most / 60:.1f} processor minutes: {', '.join(f'`{it}`' for it in names)} ({len(names)} crates)."


def main():
    parser = argparse.ArgumentParser(description=__doc__, formatter_class=argparse.RawDescriptionHelpFormatter)
    parser.add_argument("-o", metavar="TABLE", help="the file to write the table to, and no longer standard output")
    parser.add_argument("--watch", metavar="PID", type=int, help="a run of rt ci to watch")
    parser.add_argument("--remember", action="store_true", help="run tools/ci.py in place of a plain rt ci")
    given, words = parser.parse_known_args()
    command = [sys.executable, f"{TOP}/tools/ci.py"] if given.remember else ["rt", "ci", *[it for it in words if it != "--"]]
    run = None if given.watch else subprocess.Popen(command, cwd=TOP)
    seen, begun, told = {}, time.time(), 0

    def tell():
        lines = "\n".join(table(seen, time.time() - begun)) + "\n"
        if given.o:
            with open(given.o, "w", encoding="utf-8") as out:
                out.write(lines)
        return lines

    while watch(given.watch or run.pid, seen) and (not run or run.poll() is None):
        time.sleep(1)
        if given.o and time.time() - told > 60:
            told = time.time()
            tell()
    lines = tell()
    if not given.o:
        sys.stdout.write(lines)
    return run.wait() if run else 0


if __name__ == "__main__":
    sys.exit(main())
