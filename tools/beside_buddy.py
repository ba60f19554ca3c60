#!/usr/bin/env python3
"""Runs bdd_client and BuDDy on the same lists of operations, in turn, and prints the ratios of their times as a Markdown table.

    python3 tools/beside_buddy.py [--program PATH] [--runs N] [--nodes N] [LIST ..]

A LIST is a name of tools/diagrams.py; without one all of docs/MEASURED.md are run. --program is the built client (crates/bdd_client/out/bdd_client, as `rt run` in its folder makes it). The C side is tools/buddy.c, built here with
cc -O2 and -lbdd: BuDDy 2.4 as a library, Debian's libbdd-dev. Its table of nodes begins with --nodes places (1,000,000), and of its caches of 10,000, 100,000 and 1,000,000 entries the best counts, list by list.
Times are processor times of whole processes, or of BuDDy's operations alone; each round runs the client once and BuDDy once with each cache. The answers must agree line by line, or the script ends with status 1.
Memory below some 16 MB is that of this script before the program starts.
"""

import argparse
import os
import pathlib
import statistics
import subprocess
import sys
import tempfile

sys.path.insert(0, str(pathlib.Path(__file__).resolve().parent))

from diagrams import made, packed  # noqa: E402

TOOLS = pathlib.Path(__file__).resolve().parent
PROGRAM = TOOLS.parent / "crates" / "bdd_client" / "out" / "bdd_client"
LISTS = ["queens8", "queens9", "adder60", "counter12", "shift24", "mult9", "mult10"]
CACHES = [10_000, 100_000, 1_000_000]


class Run:
    """One run: its answer, its processor time, the time that it tells on standard error, and its peak memory in MB."""

    def __init__(self, command, path):
        with open(path, "rb") as text, tempfile.TemporaryFile() as out, tempfile.TemporaryFile() as told:
            child = subprocess.Popen(command, stdin=text, stdout=out, stderr=told)
            _, status, usage = os.wait4(child.pid, 0)
            child.returncode = os.waitstatus_to_exitcode(status)
            out.seek(0)
            told.seek(0)
            self.answer = out.read()
            told = told.read()
        if child.returncode != 0:
            sys.exit(f"{command[0]} ended with status {child.returncode} on {path}")
        self.seconds = usage.ru_utime + usage.ru_stime
        self.operations = float(told) if told else None
        self.memory = usage.ru_maxrss / 1024


def built(folder):
    program = folder / "buddy"
    subprocess.run(["cc", "-O2", "-o", program, TOOLS / "buddy.c", "-lbdd"], check=True)
    return program


def rounds(client, buddy, nodes, path, count):
    """The runs of the client, and those of BuDDy by the size of its caches."""
    ours, theirs = [], {cache: [] for cache in CACHES}
    for _ in range(count):
        ours.append(Run([client], path))
        for cache in CACHES:
            theirs[cache].append(Run([buddy, str(nodes), str(cache)], path))
            if theirs[cache][-1].answer != ours[0].answer or ours[-1].answer != ours[0].answer:
                sys.exit(f"the answers differ on {path}")
    return ours, theirs


def best(theirs, time, of):
    return min(of([time(run) for run in runs]) for runs in theirs.values())


def row(name, ours, theirs):
    def ratio(time, of):
        return of([run.seconds for run in ours]) / best(theirs, time, of)

    least = min(run.seconds for run in ours)
    fastest = min(theirs, key=lambda cache: min(run.seconds for run in theirs[cache]))
    ratios = [ratio(time, of) for time in (lambda run: run.seconds, lambda run: run.operations) for of in (min, statistics.median)]
    memory = [max(run.memory for run in runs) for runs in (ours, theirs[fastest])]
    cells = [f"`{name}`", f"{least:.3f}", f"{best(theirs, lambda run: run.seconds, min):.3f}"] + [f"{value:.2f}" for value in ratios] + [f"{value:.1f}" for value in memory]
    return "| " + " | ".join(cells) + " |"


def main():
    parser = argparse.ArgumentParser(description="Runs bdd_client and BuDDy on the same lists of operations.")
    parser.add_argument("--program", type=pathlib.Path, default=PROGRAM)
    parser.add_argument("--runs", type=int, default=11)
    parser.add_argument("--nodes", type=int, default=1_000_000)
    parser.add_argument("lists", nargs="*", default=LISTS)
    words = parser.parse_args()
    print("| list | client, s | BuDDy, s | least times | medians | to operations alone, least | the same, medians | client, MB | BuDDy, MB |")
    print("|---|---|---|---|---|---|---|---|---|")
    with tempfile.TemporaryDirectory() as folder:
        folder = pathlib.Path(folder)
        buddy = built(folder)
        for name in words.lists:
            path = folder / name
            path.write_bytes(packed(made(name)))
            ours, theirs = rounds(words.program.resolve(), buddy, words.nodes, path, words.runs)
            print(row(name, ours, theirs), flush=True)


if __name__ == "__main__":
    main()
