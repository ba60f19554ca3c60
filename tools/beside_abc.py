#!/usr/bin/env python3
"""Compares Berkeley ABC's `pdr` with the prover, on texts that are given and on random designs.

    tools/beside_abc.py PROGRAM LOOK [--seconds 60] [--abc berkeley-abc] [--random COUNT] [--seed N] [--times] [TEXT ..]

PROGRAM is the prover, LOOK is `smv_look`. Every case of every unit is given to the engine (tools/with_abc.py). A unit is true where each of its cases has a set, and false at the time at which its first case without one is.
Where `prove` says true or false, the engine has to say the same, at the same time; and where all units are true the document that is made of its sets has to be checked.
Random designs are those of tools/random_designs.py, every second one a wide one. It prints a line for each text, and of random designs how many there were. It ends with status 1 where something differs.
With --times a line also has the processor seconds (of the user and of the system) of `prove`, and how many units it leaves unknown; of the engine, alone and with all around it, and of what its clauses come to;
the lines and the bytes of the sets; and the processor seconds and the megabytes of `check`. --seconds is what ABC gets by its own clock for each case, and what `prove` and `check` get of a processor.
"""
import argparse
import os
import pathlib
import random
import re
import resource
import subprocess
import sys
import tempfile

import random_designs

TOOLS = pathlib.Path(__file__).resolve().parent


def run(words, given=b"", seconds=None):
    """What a command writes, its processor seconds, with those of what it called, and the megabytes that it took at most; nothing where these seconds are over."""
    limit = (lambda: resource.setrlimit(resource.RLIMIT_CPU, (seconds, seconds))) if seconds else None
    with tempfile.TemporaryFile() as source, tempfile.TemporaryFile() as sink:
        source.write(given)
        source.seek(0)
        child = subprocess.Popen(words, stdin=source, stdout=sink, preexec_fn=limit)
        _, status, usage = os.wait4(child.pid, 0)
        child.returncode = os.waitstatus_to_exitcode(status)
        sink.seek(0)
        return sink.read().decode(errors="replace"), usage.ru_utime + usage.ru_stime, usage.ru_maxrss // 1024


def told_by(folder):
    """What the engine says of each unit, by the files of its cases."""
    told = {}
    for line, case in enumerate((folder / "cases").read_text().splitlines(), 1):
        name = case.split()[0]
        if told.get(name, "true") == "true":
            shown = folder / f"{line}.open"
            found = re.match(r"\S+: (false at \d+)\n", shown.read_text()) if shown.exists() else None
            told[name] = "true" if (folder / f"{line}.set").exists() else found[1] if found else "undecided"
    return told


def clauses_of(lines):
    """The processor seconds of the engine alone, and how many clauses, literals and bytes there are, of all cases together."""
    found = re.findall(r": ([\d.]+) s, (\d+) clauses, (\d+) literals, (\d+) bytes", lines)
    return [sum(map(float, column)) for column in zip(*found)] or [0.0] * 4


def compare(asked, text):
    """What differs in a text, what the engine says of its units, whether a document was checked, and what all took."""
    with tempfile.TemporaryDirectory() as made:
        folder = pathlib.Path(made)
        os.environ["SMV_LOOK"] = asked.look
        run([TOOLS / "sets.sh", "list", text, folder])
        # A text that is refused has no cases.
        (folder / "cases").touch()
        lines, sought, _ = run([TOOLS / "with_abc.py", text, folder, "--told", "--look", asked.look, "--abc", asked.abc, "--seconds", str(asked.seconds)])
        engine, clauses, literals, size = clauses_of(lines)
        told, wrong, answer = told_by(folder), [], ""
        report, proved, _ = run([asked.program, "prove"], text.read_bytes(), asked.seconds)
        for name, verdict in re.findall(r"^(\S+): (true|false at \d+|unknown \w+)", report, re.M):
            if not verdict.startswith("unknown") and told.get(name, "true") not in (verdict, "undecided"):
                wrong.append(f"{name}: {verdict}, and by the engine {told.get(name)}")
        unknown = len(re.findall(r"^\S+: unknown ", report, re.M))
        took = f"; prove {proved:.2f} s{f' ({unknown} unknown)' if unknown else '' if report else ' (no answer)'}, engine {engine:.2f} s, with all around it {sought:.2f} s"
        if told and set(told.values()) == {"true"}:
            document, _, _ = run([TOOLS / "sets.sh", "join", text, folder])
            answer, checked, most = run([asked.program, "check"], document.encode(), asked.seconds)
            if not answer.startswith("checked ") and answer:
                wrong.append(f"check: {answer}")
            sets = [file.read_bytes() for file in folder.glob("*.set")]
            count, length = sum(part.count(b"\n") - 1 for part in sets), sum(map(len, sets))
            took += f"; {clauses:.0f} clauses, {literals:.0f} literals, {size:.0f} bytes; {count} lines, {length} bytes"
            took += f"; check {checked:.2f} s{'' if answer else ' (no answer)'}, {most} MB"
    return wrong, told, bool(answer), took


def random_texts(count, folder):
    """Random designs as files; those that the program refuses have no units."""
    for number in range(count):
        text = random_designs.wide_design() if number % 2 else random_designs.design()[0]
        file = folder / f"{number}.smv"
        file.write_text(text)
        yield file


def main():
    words = argparse.ArgumentParser(description=__doc__.split("\n")[0])
    words.add_argument("program")
    words.add_argument("look")
    words.add_argument("texts", type=pathlib.Path, nargs="*")
    words.add_argument("--seconds", type=int, default=60)
    words.add_argument("--abc", default="berkeley-abc")
    words.add_argument("--random", type=int, default=0)
    words.add_argument("--seed", type=int, default=1)
    words.add_argument("--times", action="store_true")
    asked = words.parse_intermixed_args()
    bad = 0
    for text in asked.texts:
        wrong, told, _, took = compare(asked, text)
        bad += bool(wrong)
        print(f"{text.name}: {', '.join(told.values()) or 'no units'}{took if asked.times else ''}" + "".join(f"\n  {what}" for what in wrong), flush=True)
    random.seed(asked.seed)
    units, documents, verdicts = 0, 0, {}
    with tempfile.TemporaryDirectory() as made:
        for text in random_texts(asked.random, pathlib.Path(made)):
            wrong, told, checked, _ = compare(asked, text)
            bad += bool(wrong)
            units += len(told)
            documents += checked
            for verdict in told.values():
                verdicts[verdict] = verdicts.get(verdict, 0) + 1
            if wrong:
                print(text.read_text() + "".join(f"  {what}\n" for what in wrong), flush=True)
    if asked.random:
        print(f"{asked.random} random designs, {units} units: " + ", ".join(f"{count} {verdict}" for verdict, count in sorted(verdicts.items())) + f"; {documents} documents checked")
    return 1 if bad else 0


if __name__ == "__main__":
    sys.exit(main())
