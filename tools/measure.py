#!/usr/bin/env python3
"""Measures `smv_main prove` on the texts of tools/texts.py, and prints a Markdown table.

    python3 tools/measure.py [--program PATH] [--runs N] [--only WORD] [--write FOLDER] [--last design|plan|none]

For each text and size: bytes, the least processor time of the runs, the peak memory and the exit status. The last column is the growth from the
second size to the third: the power of the size by which the time grows, so 1 is in proportion and 2 is the square. Times below 0.02 s say nothing,
and memory below some 12 MB is that of this script before the program starts.
--only takes the rows whose name has the word; --write keeps the texts in a folder.
Behind all it says each text gets one fault more, so that no case is decided: with --last design fault 20, the last one of the design, so the passes up to there are run; with --last plan fault 30, the last one of all, before which
the cases of each leaf and their cones are looked at too; with --last none nothing, and the whole of `prove` is measured.
"""

import argparse
import math
import os
import pathlib
import resource
import subprocess
import sys
import tempfile

sys.path.insert(0, str(pathlib.Path(__file__).resolve().parent))

from texts import ROWS  # noqa: E402

REPOSITORY = pathlib.Path(__file__).resolve().parent.parent
PROGRAM = REPOSITORY / "crates" / "smv_main" / "out" / "smv_main"
# More memory than this ends a run, so that no row takes the machine.
MOST_MEMORY = 8 << 30
MOST_SECONDS = 300


# A fault that is looked for last, behind all that a text says: of the design, an abstract signal that is assigned outside layers; of the plan, a case with too many state bits.
LAST = {
    "design": "abstract zz_bit : boolean;\nnext(zz_bit) := 0;\n",
    "plan": "zz_bits : array 0..255 of 0..255;\nzz_claim : assert G &[ zz_bits[i] = 0 : i in 0..255 ];\n",
    "none": "",
}


def with_last_fault(text, last):
    """The text with this fault at the end of its last module, which is `main`."""
    end = text.rindex("}")
    return text[:end] + LAST[last] + text[end:]


def limits():
    resource.setrlimit(resource.RLIMIT_AS, (MOST_MEMORY, MOST_MEMORY))
    resource.setrlimit(resource.RLIMIT_CPU, (MOST_SECONDS, MOST_SECONDS))


def run(program, path):
    """The processor time in seconds, the peak memory in MB and the exit status of one run."""
    with open(path, "rb") as text:
        child = subprocess.Popen([str(program), "prove"], stdin=text, stdout=subprocess.DEVNULL, stderr=subprocess.DEVNULL, preexec_fn=limits)
        _, status, usage = os.wait4(child.pid, 0)
        child.returncode = os.waitstatus_to_exitcode(status)
    return usage.ru_utime + usage.ru_stime, usage.ru_maxrss / 1024, child.returncode


def measured(program, path, runs):
    """The least time, its memory and the status, of some runs."""
    return min(run(program, path) for _ in range(runs))


def size_of(count):
    return f"{count / 1024:.0f} KB" if count < 1 << 20 else f"{count / (1 << 20):.2f} MB"


def growth(sizes, times):
    """The power of the size by which the time grows from the second size to the third."""
    if len(times) < 3 or times[1] < 0.02 or times[2] <= 0:
        return "-"
    return f"{math.log(times[2] / times[1]) / math.log(sizes[2] / sizes[1]):.1f}"


def row(program, folder, name, text_of, sizes, words):
    """A line of the table."""
    texts = [text_of(size) for size in sizes]
    texts = [with_last_fault(text, words.last) for text in texts]
    results = []
    for size, text in zip(sizes, texts):
        path = pathlib.Path(folder) / f"{text_of.__name__}_{size}.smv"
        path.write_text(text)
        results.append(measured(program, path, words.runs))
    cells = [
        name,
        ", ".join(f"{size:,}" for size in sizes),
        ", ".join(size_of(len(text)) for text in texts),
        ", ".join(f"{time:.2f}" for time, _, _ in results),
        ", ".join(f"{memory:.0f}" for _, memory, _ in results),
        ", ".join(str(status) for _, _, status in results),
        growth(sizes, [time for time, _, _ in results]),
    ]
    return "| " + " | ".join(cells) + " |"


def main():
    parser = argparse.ArgumentParser(description="Measures the program on texts of three sizes.")
    parser.add_argument("--program", type=pathlib.Path, default=PROGRAM)
    parser.add_argument("--runs", type=int, default=3)
    parser.add_argument("--only", default="")
    parser.add_argument("--write")
    parser.add_argument("--last", choices=sorted(LAST), default="design")
    words = parser.parse_args()
    if not words.program.exists():
        sys.exit(f"{words.program} is not there: build it by `rt run` in crates/smv_main")
    print("| text | how many | bytes | seconds | MB | status | growth |")
    print("|---|---|---|---|---|---|---|")
    with tempfile.TemporaryDirectory() as scratch:
        folder = words.write or scratch
        pathlib.Path(folder).mkdir(parents=True, exist_ok=True)
        for name, text_of, sizes in ROWS:
            if words.only in name or words.only in text_of.__name__:
                print(row(words.program, folder, name, text_of, sizes, words), flush=True)


if __name__ == "__main__":
    main()
