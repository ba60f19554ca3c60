#!/usr/bin/env python3
"""Seeks the sets of a text's cases by another engine, Berkeley ABC's `pdr`.

    tools/with_abc.py TEXT FOLDER [LINE ..] [--look smv_look] [--abc berkeley-abc] [--seconds 60] [--told]

FOLDER is one that `tools/sets.sh list TEXT FOLDER` made: its file `cases` has a case on each line. Each case, or those on the LINEs that are given, is written as a circuit (`smv_look aiger`) and handed over.
Where the engine finds an invariant, FOLDER/N.set gets it as the lines that a proof document has of a set; where it finds a path, FOLDER/N.open gets the path as a report has it, a shortest one; and else the words
`unknown seconds`. What is there and is newer than TEXT is not sought again. `tools/sets.sh join TEXT FOLDER` makes the document, which `check` judges: nothing that is done here has to be believed.
With --told it prints a line for each case that it seeks: the processor seconds of ABC alone, and of the clauses of the invariant how many there are, their literals, and the bytes of them as lines of numbers.
It ends as `tools/sets.sh one` does: with status 0 where each case has its set, 1 where one is false, 2 where one is unknown.
"""
import argparse
import pathlib
import re
import resource
import subprocess
import sys
import tempfile

# More recursion than a case has bits.
sys.setrecursionlimit(10_000)


class Diagrams:
    """Decision diagrams over bits: 0 is the set of no state, 1 that of all, and each other one is a bead (bit, low, high)."""

    def __init__(self):
        self.beads = [None, None]
        self.numbers = {}
        self.products = {}

    def bead(self, bit, low, high):
        if low == high:
            return low
        number = self.numbers.setdefault((bit, low, high), len(self.beads))
        if number == len(self.beads):
            self.beads.append((bit, low, high))
        return number

    def clause(self, cube):
        """The states outside a cube, which has a value for each of some bits."""
        outside = 0
        for bit in sorted(cube, reverse=True):
            outside = self.bead(bit, outside, 1) if cube[bit] == 0 else self.bead(bit, 1, outside)
        return outside

    def both(self, one, other):
        """The states that are in two sets."""
        if one == other or other == 1:
            return one
        if one == 1:
            return other
        if one == 0 or other == 0:
            return 0
        key = (one, other) if one < other else (other, one)
        if key not in self.products:
            top = min(self.beads[one][0], self.beads[other][0])
            (low, high), (left, right) = self.parts(one, top), self.parts(other, top)
            self.products[key] = self.bead(top, self.both(low, left), self.both(high, right))
        return self.products[key]

    def parts(self, one, bit):
        own, low, high = self.beads[one]
        return (low, high) if own == bit else (one, one)

    def all_of(self, sets):
        """The states that are in all of these sets: neighbours are multiplied first."""
        while len(sets) > 1:
            sets = [self.both(*sets[k:k + 2]) if k + 1 < len(sets) else sets[k] for k in range(0, len(sets), 2)]
            self.products.clear()
        return sets[0] if sets else 1

    def lines(self, root):
        """The root and the lines that a document has of a set: for each bead those of its low branch, those of its high branch that do not stand there yet, and its own."""
        places, lines = {0: 0, 1: 1}, []

        def put(one):
            if one not in places:
                bit, low, high = self.beads[one]
                put(low)
                put(high)
                places[one] = len(lines) + 2
                lines.append(f"{2 * bit} {places[low]} {places[high]}\n")

        put(root)
        return places[root], lines


def cubes(text):
    """The cubes that an invariant excludes, where there is an old state."""
    names, found = [], []
    for line in text.splitlines():
        if line.startswith(".ilb"):
            names = line.split()[1:]
        elif line and line[0] in "01-":
            letters = line.split()[0]
            cube = {name: int(value) for name, value in zip(names, letters) if value != "-"}
            if cube.pop("started", 1) == 1:
                found.append({int(name[1:]): value for name, value in cube.items()})
    return sorted(found, key=sorted)


def set_lines(name, case, excluded):
    """The lines of the set of the states outside these cubes."""
    diagrams = Diagrams()
    root, lines = diagrams.lines(diagrams.all_of([diagrams.clause(cube) for cube in excluded]))
    return f"set {name} {case - 1} {root} {len(lines)}\n" + "".join(lines)


def clause_lines(excluded):
    """A line for each clause: its literals, each the number of a variable, and one more where it is negated."""
    return [" ".join(str(2 * bit + cube[bit]) for bit in sorted(cube)) + "\n" for cube in excluded]


def states(text):
    """The new states of the frames of a path, each as the values of its bits."""
    frames = []
    for name, time, value in re.findall(r"(\w+)@(\d+)=([01])", text):
        if name[0] == "n":
            time = int(time)
            frames += [{} for _ in range(len(frames), time + 1)]
            frames[time][int(name[1:])] = value
    return frames


def comment_of(circuit):
    """The lines of the comment behind the names of a circuit. Its gates, two numbers each, are bytes of any value, also those of an end of line: they are passed over one by one."""
    _, _, latches, outputs, gates, *others = map(int, circuit.split(b"\n", 1)[0].split()[1:])
    place = 0
    for _ in range(1 + latches + outputs + sum(others)):
        place = circuit.index(b"\n", place) + 1
    for _ in range(2 * gates):
        while circuit[place] & 128:
            place += 1
        place += 1
    return circuit[place:].split(b"\nc\n", 1)[1].decode().splitlines()


def codes(comment):
    """For each code what each element is where its bits spell it."""
    told = [line.split(":", 1)[1].strip() for line in comment if line.startswith(" time ")]
    return [re.split(r", (?=[^ ]+ = )", line) if line else [] for line in told]


def path_lines(name, comment, widths, frames):
    """The lines of a report of a case that is false by such a path."""
    told, shown = codes(comment), f"{name}: false at {len(frames) - 1}\n"
    shown += "".join(f"{line}\n" for line in comment if line.startswith(" case"))
    for time, frame in enumerate(frames):
        place, values = 0, []
        for element, width in enumerate(widths):
            code = int("".join(frame.get(bit, "0") for bit in range(place, place + width)), 2)
            values.append(told[code][element] if code < len(told) else f"{told[0][element].split(' = ')[0]} = code {code}")
            place += width
        shown += f" time {time}:{' ' if values else ''}{', '.join(values)}\n"
    return shown


def processor_seconds():
    """What all programs took that were called so far."""
    usage = resource.getrusage(resource.RUSAGE_CHILDREN)
    return usage.ru_utime + usage.ru_stime


class Engine:
    """The programs that are called, and how long each call of ABC may take."""

    def __init__(self, asked):
        self.asked = asked
        self.took = 0.0
        self.excluded = []

    def look(self, *words):
        return subprocess.run([self.asked.look, *words], input=self.asked.text.read_bytes(), capture_output=True, check=True).stdout

    def abc(self, circuit, *words):
        """What ABC says, with a little time beyond what it was given."""
        call, before = "; ".join([f"read_aiger {circuit}", *words]), processor_seconds()
        try:
            ran = subprocess.run([self.asked.abc, "-q", call], capture_output=True, timeout=self.asked.seconds + 20)
        except subprocess.TimeoutExpired:
            return ""
        finally:
            self.took += processor_seconds() - before
        return ran.stdout.decode(errors="replace")

    def told(self, name, case):
        """What a case took, and what its clauses come to."""
        lines = clause_lines(self.excluded)
        literals = sum(map(len, self.excluded))
        return f"{name} {case}: {self.took:.2f} s, {len(lines)} clauses, {literals} literals, {sum(map(len, lines))} bytes"

    def sought(self, name, case, made):
        """The lines of a set under status 0, or those of what is open under 1 or 2."""
        circuit, seconds = made / "case.aig", self.asked.seconds
        circuit.write_bytes(self.look("aiger", name, str(case)))
        said = self.abc(circuit, "dc2", "dc2", f"pdr -d -I {made}/case.pla -T {seconds}")
        if "Property proved" in said:
            self.excluded = cubes((made / "case.pla").read_text())
            return 0, set_lines(name, case, self.excluded)
        found = re.search(r"was asserted in frame (\d+)", said)
        path = self.path(name, case, circuit, int(found[1]), made) if found else None
        return (1, path) if path else (2, f"{name}: unknown seconds {seconds}\n")

    def path(self, name, case, circuit, depth, made):
        """A shortest path that violates the case, of which there is one of this length: it does not begin anew. None where the time is over."""
        cex = made / "case.cex"
        self.abc(circuit, "dc2", f"bmc3 -F {depth + 1} -T {self.asked.seconds}", f"write_cex -n {cex}")
        if not cex.exists():
            return None
        comment = comment_of(circuit.read_bytes())
        widths = [int(width) for width in re.findall(r"^ .*? bits (\d+)", self.look("cone", name, str(case)).decode(), re.M)]
        frames = states(cex.read_text())
        frames += [{} for _ in range(len(frames), depth + 1)]
        return path_lines(name, comment, widths, frames)


def is_done(asked, line):
    """The status of a case that was tried since the text was written, if it was."""
    written = asked.text.stat().st_mtime
    for end in ("set", "open"):
        file = asked.folder / f"{line}.{end}"
        if file.exists() and file.stat().st_mtime > written:
            return 0 if end == "set" else 1 if ": false at " in file.read_text().split("\n", 1)[0] else 2
    return None


def one(asked, line, case):
    """The status of the case on a line, which is sought if it is not done."""
    status = is_done(asked, line)
    if status is None:
        name, number = case.split()
        engine = Engine(asked)
        with tempfile.TemporaryDirectory() as made:
            status, lines = engine.sought(name, int(number), pathlib.Path(made))
        if asked.told:
            print(engine.told(name, int(number)), flush=True)
        part = asked.folder / f"{line}.part"
        part.write_text(lines)
        part.rename(asked.folder / f"{line}.{'open' if status else 'set'}")
    return status


def main():
    words = argparse.ArgumentParser(description=__doc__.split("\n")[0])
    words.add_argument("text", type=pathlib.Path)
    words.add_argument("folder", type=pathlib.Path)
    words.add_argument("lines", type=int, nargs="*")
    words.add_argument("--look", default="smv_look")
    words.add_argument("--abc", default="berkeley-abc")
    words.add_argument("--seconds", type=int, default=60)
    words.add_argument("--told", action="store_true")
    asked = words.parse_intermixed_args()
    cases = (asked.folder / "cases").read_text().splitlines()
    told = {one(asked, line, cases[line - 1]) for line in asked.lines or range(1, len(cases) + 1)}
    return 1 if 1 in told else 2 if 2 in told else 0


if __name__ == "__main__":
    sys.exit(main())
