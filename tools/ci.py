#!/usr/bin/env python3
"""Runs the kit's own `rt ci` at the top of this checkout, and remembers what it works out of one crate again and again.

    tools/ci.py                                 tools/gate.py --remember -o TABLE runs it, and writes where the time goes

Kit 13b sums a crate's files, and lists the crates below it, anew for each path of crates.txt that leads there (`tools/sums.py` tells how often): a quarter of an hour of one processor here.
Here each crate's sum and list are made once for a run. Nothing else differs: every proof, edit, test and program is what a plain `rt ci` runs. The gate's
judge is a plain `rt ci` all the same.
"""
import functools
import importlib.machinery
import importlib.util
import os
import shutil
import sys

TOP = os.path.dirname(os.path.dirname(os.path.abspath(__file__)))


def remembered(method):
    """Returns the method, whose answer is kept for each crate by its folder."""
    answers = {}

    @functools.wraps(method)
    def ask(crate):
        if crate.folder not in answers:
            answers[crate.folder] = method(crate)
        answer = answers[crate.folder]
        return [*answer] if isinstance(answer, list) else answer

    return ask


def main():
    path = os.path.realpath(shutil.which("rt"))
    sys.path.insert(0, os.path.dirname(path))
    loader = importlib.machinery.SourceFileLoader("rt", path)
    kit = importlib.util.module_from_spec(importlib.util.spec_from_loader("rt", loader))
    loader.exec_module(kit)
    kit.rtlib.Crate.stamp = remembered(kit.rtlib.Crate.stamp)
    kit.rtlib.Crate.below = remembered(kit.rtlib.Crate.below)
    os.chdir(TOP)
    return kit.main(["ci"])


if __name__ == "__main__":
    sys.exit(main())
