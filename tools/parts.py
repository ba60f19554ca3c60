#!/usr/bin/env python3
"""tools/parts.py PROGRAM: where the instructions of `prove` go, part by part, as the table in docs/MEASURED.md.

PROGRAM is a build with names (`tools/unproved_build.sh`). It runs under callgrind (valgrind, a package of Debian's) on four texts: the Tomasulo machine,
`generated 200`, a counter of 8 values and the toggle. The shares are of the instructions of the whole process: calls from the function that decides a case
count for the part that they belong to, with all that they call.
"""
import collections
import os
import re
import subprocess
import sys
import tempfile

TOP = os.path.dirname(os.path.dirname(os.path.abspath(__file__)))
COUNTER = b"module main() { x : 0..7; init(x) := 0; next(x) := (x + 1) mod 8; p : assert G (x <= 7); }"
PARTS = [
    "start of the process, words, bytes in and out",
    "reading: tokens and tree (and the text that is made)",
    "the passes, from the tree to the plan",
    "cones and problems of the cases",
    "encoding: cells, functions of the lists, what is broken",
    "the search: the plan of images, images, rings, sweeps, counts",
    "other work in deciding",
    "answers, and what is made once for a plan",
]
DECIDES = "smv_decide::decide_case"


def example(name):
    """Returns the bytes of an example."""
    with open(os.path.join(TOP, "examples", name), "rb") as it:
        return it.read()


def load(path):
    """Returns the instructions of each function itself, and of each call, from a file of callgrind's."""
    names, own, calls = {}, collections.Counter(), collections.Counter()

    def name_of(field):
        number, name = re.match(r"\((\d+)\)(?: (.*))?$", field).groups()
        return names.setdefault(number, name)

    function = callee = None
    of_call = False
    with open(path, encoding="utf-8", errors="replace") as lines:
        for line in lines:
            line = line.rstrip("\n")
            if line.startswith("fn="):
                function = name_of(line[3:])
            elif line.startswith("cfn="):
                callee = name_of(line[4:])
            elif line.startswith("calls="):
                of_call = True
            elif line and line[0] in "0123456789+-*":
                count = int(line.split()[1])
                if of_call:
                    calls[function, callee] += count
                else:
                    own[function] += count
                of_call = False
    return own, calls


def parts_of(own, calls):
    """Returns the instructions of the whole process, and of each part."""
    total = sum(own.values())

    def within(name):
        return sum(n for (caller, callee), n in calls.items() if caller != callee and callee.startswith(name) and not callee.endswith("'2"))

    def from_to(name, *others):
        return sum(n for (caller, callee), n in calls.items() if caller.startswith(name) and callee.startswith(others))

    start = total - within("smv_top::answers::answer_to")
    reading = from_to("smv_prove::plan_of", "smv_parse::parse", "smv_core::tree::Top::drop")
    passes = within("smv_prove::plan_of") - reading
    cones = from_to(DECIDES, "smv_cone", "smv_obligations")
    encoding = from_to(DECIDES, "smv_walks", "smv_encode")
    search = from_to(DECIDES, "smv_search", "smv_rings", "bdd_store::Store::sweep", "bdd_ops")
    deciding = within("smv_plan_reports::units::result_at") - cones - encoding - search
    parts = [start, reading, passes, cones, encoding, search, deciding]
    return total, parts + [total - sum(parts)]


def measured(program, words, text):
    """Runs the program under callgrind, and returns what its parts took."""
    with tempfile.TemporaryDirectory() as folder:
        out = os.path.join(folder, "out")
        subprocess.run(
            ["valgrind", "--tool=callgrind", f"--callgrind-out-file={out}", program, *words],
            input=text, stdout=subprocess.DEVNULL, stderr=subprocess.DEVNULL, check=False,
        )
        return parts_of(*load(out))


def main():
    """Prints the table."""
    program = os.path.abspath(sys.argv[1])
    columns = [
        measured(program, ["prove"], example("tomasulo.smv")),
        measured(program, ["generated", "200"], b""),
        measured(program, ["prove"], COUNTER),
        measured(program, ["prove"], example("toggle.smv")),
    ]
    print("| part | the Tomasulo machine, six cases | `generated 200`, 201 cases | the counter of 8 values | the toggle |")
    print("|---|---|---|---|---|")
    print("| instructions, millions |", " | ".join(f"{total / 1e6:.2f}" for total, _ in columns), "|")
    for place, part in enumerate(PARTS):
        print(f"| {part} |", " | ".join(f"{parts[place] / total * 100:.1f}%" for total, parts in columns), "|")


if __name__ == "__main__":
    main()
