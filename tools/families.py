#!/usr/bin/env python3
"""Runs `prove` on families of designs under one setting or two, and prints a Markdown table.

    tools/families.py PROGRAM [--words "--bits near"] [--beside PROGRAM] [--beside-words "--bits declared"]
                      [--only WORD] [--up-to N] [--seconds N] [--peaks] [--look PROGRAM] [--write FOLDER] [--examples]

For each text of tools/texts_families.py and size, under the first setting and, where `--beside` or `--beside-words` is given, under the second one: what is told of its units (t true, f false, u unknown; more than one letter
where there are more units), the seconds of processor time and the memory in MB. With --peaks the least budget of nodes, within three in a hundred, under which the same is told: the greatest count of a search.
With --look, which is a `smv_look`, the bits of the first case of the largest unit. --examples takes the texts of examples/ too. --write keeps the texts in a folder.
It ends with status 1 where the two settings tell different verdicts, or paths of different lengths; unknown is neither.
"""
import argparse
import os
import pathlib
import re
import resource
import subprocess
import sys
import tempfile

sys.path.insert(0, str(pathlib.Path(__file__).resolve().parent))

from texts_families import FAMILIES  # noqa: E402

REPOSITORY = pathlib.Path(__file__).resolve().parent.parent
MOST_MEMORY = 6 << 30
MOST_NODES = 1_000_000


def run(program, words, path, seconds):
    """What one run writes, its status (none where it was ended), its seconds of processor time and its memory in MB."""

    def limits():
        resource.setrlimit(resource.RLIMIT_AS, (MOST_MEMORY, MOST_MEMORY))
        resource.setrlimit(resource.RLIMIT_CPU, (seconds, seconds + 1))

    with open(path, "rb") as text, tempfile.TemporaryFile() as out:
        child = subprocess.Popen([program, "prove", *words], stdin=text, stdout=out, stderr=subprocess.DEVNULL, preexec_fn=limits)
        _, status, usage = os.wait4(child.pid, 0)
        child.returncode = os.waitstatus_to_exitcode(status)
        out.seek(0)
        told = out.read().decode(errors="replace")
    status = child.returncode if child.returncode >= 0 else None
    return told, status, usage.ru_utime + usage.ru_stime, usage.ru_maxrss / 1024


def verdicts(told):
    """The verdict of each unit of a report: its name, and true, false at so many steps, or unknown."""
    return re.findall(r"^(\S+): (true|false at \d+|unknown \w+)", told, re.MULTILINE)


def letters(told, status):
    if status is None:
        return "time"
    if status not in (0, 1, 2):
        return f"status {status}"
    found = [verdict[0] for _, verdict in verdicts(told)]
    return "".join(found) if len(found) < 6 else " ".join(f"{found.count(x)}{x}" for x in "tfu" if x in found)


def with_nodes(words, nodes):
    """The words with this budget of nodes."""
    kept = list(words)
    if "--nodes" in kept:
        place = kept.index("--nodes")
        del kept[place : place + 2]
    return [*kept, "--nodes", str(nodes)]


def peak(program, words, path, seconds, told):
    """The least budget of nodes, within three in a hundred, under which the same is told."""
    wanted = verdicts(told)
    if not wanted or any(verdict.startswith("unknown") for _, verdict in wanted):
        return "-"

    def holds(nodes):
        found, status, _, _ = run(program, with_nodes(words, nodes), path, seconds)
        return status is not None and verdicts(found) == wanted

    high = 64
    while high < MOST_NODES and not holds(high):
        high *= 4
    low = high // 4
    while high - low > max(1, high * 3 // 100):
        middle = (low + high) // 2
        if holds(middle):
            high = middle
        else:
            low = middle
    return f"{high:,}"


def bits(look, path):
    """The bits of the first case of the unit that has most."""
    with open(path, "rb") as text:
        units = re.findall(r"^(\S+): ", subprocess.run([look, "list"], stdin=text, capture_output=True).stdout.decode(), re.MULTILINE)
    most = 0
    for unit in units:
        with open(path, "rb") as text:
            told = subprocess.run([look, "cone", unit], stdin=text, capture_output=True).stdout.decode()
        most = max([most, *map(int, re.findall(r"\bbits (\d+)", told))])
    return most


def differ(one, other):
    """Whether two reports tell something of a unit that cannot both be so."""
    second = dict(verdicts(other))
    return [name for name, verdict in verdicts(one) if not verdict.startswith("unknown") and not second.get(name, "unknown").startswith("unknown") and second[name] != verdict]


def texts(asked, folder):
    """The name of each text that is asked for, and where it lies."""
    for name, text_of, sizes in FAMILIES:
        for size in sizes:
            if asked.only in name and size <= asked.up_to:
                path = folder / f"{name.replace(', ', '_').replace(' ', '_')}_{size}.smv"
                path.write_text(text_of(size))
                yield f"{name} {size}", path
    if asked.examples:
        for path in sorted((REPOSITORY / "examples").glob("*.smv")):
            if asked.only in path.stem:
                yield f"example {path.stem}", path


def asked_for():
    words = argparse.ArgumentParser(description=__doc__.split("\n")[0])
    words.add_argument("program")
    words.add_argument("--words", default="")
    words.add_argument("--beside", default=None)
    words.add_argument("--beside-words", default=None)
    words.add_argument("--only", default="")
    words.add_argument("--up-to", type=int, default=1 << 30)
    words.add_argument("--seconds", type=int, default=20)
    words.add_argument("--peaks", action="store_true")
    words.add_argument("--look", default=None)
    words.add_argument("--write", default=None)
    words.add_argument("--examples", action="store_true")
    return words.parse_args()


def main():
    asked = asked_for()
    settings = [(asked.program, asked.words.split())]
    if asked.beside is not None or asked.beside_words is not None:
        settings.append((asked.beside or asked.program, (asked.beside_words or "").split()))
    columns = ["told", *(["peak"] if asked.peaks else []), "s", "MB"]
    print("| text |" + (" bits |" if asked.look else "") + "".join(f" {column} |" for _ in settings for column in columns))
    print("|---|" + ("---|" if asked.look else "") + "---|" * (len(settings) * len(columns)))
    wrong = []
    with tempfile.TemporaryDirectory() as made:
        folder = pathlib.Path(asked.write or made)
        folder.mkdir(parents=True, exist_ok=True)
        for name, path in texts(asked, folder):
            line, reports = f"| {name} |" + (f" {bits(asked.look, path)} |" if asked.look else ""), []
            for program, words in settings:
                told, status, seconds, memory = run(program, words, path, asked.seconds)
                reports.append(told if status is not None else "")
                line += f" {letters(told, status)} |"
                if asked.peaks:
                    line += f" {peak(program, words, path, asked.seconds, told)} |"
                line += f" {seconds:.2f} | {memory:.0f} |"
            print(line, flush=True)
            if len(reports) == 2:
                wrong += [f"{name}: {unit}" for unit in differ(*reports)]
    for unit in wrong:
        print(f"differs: {unit}")
    return 1 if wrong else 0


if __name__ == "__main__":
    sys.exit(main())
