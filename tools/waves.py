#!/usr/bin/env python3
"""Reads dumps of `smv_wave` back by readers that are not ours: GTKWave's `vcd2fst` and `fst2vcd`, and GTKWave itself.

    tools/waves.py PROGRAM WAVE              compares each value of the paths below, at each time, with what the report says
    tools/waves.py --picture PROGRAM WAVE    makes docs/path.png anew: what GTKWave shows of the path of docs/METHOD.md

PROGRAM is `deodarwrench`, WAVE is `smv_wave` (`tools/unproved_build.sh` makes both without proof). It ends with status 1 where a value differs, and
says so and ends with 0 where the readers are missing (Debian: gtkwave; for the picture xvfb and imagemagick too).
"""
import os
import re
import shutil
import subprocess
import sys
import tempfile
import time
from pathlib import Path

import pages

TOP = pages.TOP
SHOWN = ["issue", r"\ex.valid", r"\wb.valid", r"\r[#0]", r"\reg[#0]", r"\wb.val", "opa", "operand"]
# The part of the window that has the names and the waves.
PART = "810x214+2+97"
# Every sort of value, name and length of path that the texts of the pages do not have.
MADE = """p: false at 2
 case #1, 3
 time 0: even[0] = 1, even[1] = 0, even[2] = 1, level = 5, mode = idle, box.n[#0][2] = 300, t[#0] = *0, m[1] = 3, m[2] = 65535
 time 1: even[0] = 0, even[1] = 1, even[2] = 1, level = 6, mode = busy, box.n[#0][2] = 511, t[#0] = #0, m[1] = 2, m[2] = 0
 time 2: even[0] = 1, even[1] = 1, even[2] = 0, level = 0, mode = busy, box.n[#0][2] = 0, t[#0] = *1, m[1] = 3, m[2] = 7
q: true
u.v.p: false at 0
 time 0: u.x = 1
x//spec: unknown steps
w: false at 0
 time 0:
proved 1 of 5
"""


def reports(program):
    """Returns the reports whose dumps are read: of each text of the method and each example that has a false unit, and the one that is made."""
    texts = dict(pages.read_page("docs/METHOD.md")[0])
    for text in sorted((TOP / "examples").glob("*.smv")):
        texts[f"examples/{text.name}"] = text.read_text()
    for name, text in texts.items():
        report = subprocess.run([program, "prove"], input=text, capture_output=True, text=True).stdout
        if re.search(r"^\S+: false at ", report, re.M):
            yield name, report
    yield "a report of every sort", MADE


def paths(report):
    """Returns the false units of a report: the name, and for each element its name and its values from time 0 on."""
    units = []
    for name, body in re.findall(r"^(\S+): false at \d+\n((?: .*\n)+)", report, re.M):
        states = [
            [one.split(" = ") for one in state.split(", ") if one]
            for state in re.findall(r"^ time \d+: ?(.*)$", body, re.M)
        ]
        units.append((name, [(element, [state[at][1] for state in states]) for at, (element, _) in enumerate(states[0])], len(states)))
    return units


def dumped(vcd):
    """Returns the scopes of a dump with their variables, each with the values that it gets, by time; and the last time."""
    head, body = re.split(r"\$enddefinitions\s+\$end", vcd)
    scopes, values = [], {}
    for kind, words in re.findall(r"\$(\w+)\s+(.*?)\s*\$end", head, re.S):
        if kind == "scope":
            scopes.append((words.split()[1], []))
        elif kind == "var":
            sort, _, code, name = words.split(maxsplit=3)
            values[code] = {}
            scopes[-1][1].append((name, sort, values[code]))
    now, words = 0, iter(re.sub(r"\$\w+", "", body).split())
    for word in words:
        if word[0] == "#":
            now = int(word[1:])
        elif word[0] in "bs":
            values[next(words)][now] = str(int(word[1:], 2)) if word[0] == "b" else word[1:]
        else:
            values[word[1:]][now] = word[0]
    return scopes, now


def bare(name):
    """Returns an identifier without the mark of an escape."""
    return name.removeprefix("\\")


def differences(report, vcd):
    """Returns what a dump tells otherwise than its report."""
    units, (scopes, last), found = paths(report), dumped(vcd), []
    if [bare(name) for name, _ in scopes] != [name for name, _, _ in units]:
        return [f"scopes {[name for name, _ in scopes]}"]
    if last != max(length for _, _, length in units):
        found.append(f"the last time is {last}")
    for (unit, elements, _), (_, variables) in zip(units, scopes):
        if [bare(name) for name, _, _ in variables] != [name for name, _ in elements]:
            found.append(f"{unit} has {[name for name, _, _ in variables]}")
        for (element, path), (_, sort, values) in zip(elements, variables):
            if (sort == "wire") != all(value.isdigit() for value in path):
                found.append(f"{unit}: {element} is a {sort}")
            shown = None
            for at, value in enumerate(path):
                shown = values.get(at, shown)
                if shown != value:
                    found.append(f"{unit}: {element} at {at} is {shown} and not {value}")
    return found


def compare(program, wave):
    """Reads every dump back and returns how many values differ."""
    wrong = 0
    with tempfile.TemporaryDirectory() as folder:
        for name, report in reports(program):
            vcd, fst = f"{folder}/path.vcd", f"{folder}/path.fst"
            Path(vcd).write_text(subprocess.run([wave], input=report, capture_output=True, text=True, check=True).stdout)
            count = sum(len(elements) * length for _, elements, length in paths(report))
            if count == 0:
                print(f"{name}: no path has an element, and GTKWave says so")
                continue
            subprocess.run(["vcd2fst", vcd, fst], check=True, capture_output=True)
            read = subprocess.run(["fst2vcd", fst], check=True, capture_output=True, text=True).stdout
            found = differences(report, read)
            print(f"{name}: {count} values", *found, sep="\n  ")
            wrong += len(found)
    return wrong


def picture(program, wave):
    """Lets GTKWave draw the path of step9.smv on a display of its own, and writes docs/path.png."""
    text = pages.read_page("docs/METHOD.md")[0]["step9.smv"]
    report = subprocess.run([program, "prove"], input=text, capture_output=True, text=True).stdout
    with tempfile.TemporaryDirectory() as folder:
        vcd = subprocess.run([wave], input=report, capture_output=True, text=True, check=True).stdout
        Path(folder, "paths.vcd").write_text(vcd)
        names = " ".join("{\\opa//arch." + name + "}" for name in SHOWN)
        Path(folder, "show.tcl").write_text(f"gtkwave::addSignalsFromList [list {names}]\ngtkwave::/Time/Zoom/Zoom_Full\nputs shown\n")
        Path(folder, "rc").write_text("hide_sst 1\nsplash_disable 1\n")
        there = {**os.environ, "DISPLAY": ":78"}
        screen = subprocess.Popen(["Xvfb", ":78", "-screen", "0", "1010x330x24"], stderr=subprocess.DEVNULL)
        time.sleep(3)
        words = ["gtkwave", "--rcfile=rc", "--script=show.tcl", "paths.vcd"]
        viewer = subprocess.Popen(words, cwd=folder, env=there, stdout=subprocess.PIPE, stderr=subprocess.DEVNULL, text=True)
        for line in viewer.stdout:
            if line.strip() == "shown":
                break
        time.sleep(5)
        subprocess.run(["import", "-window", "root", "-crop", PART, "+repage", "+dither", "-colors", "32", str(TOP / "docs/path.png")], env=there, check=True)
        viewer.terminate()
        screen.terminate()
    return 0


def main(words):
    wanted = ["vcd2fst", "fst2vcd"] + (["gtkwave", "Xvfb", "import"] if words[:1] == ["--picture"] else [])
    absent = [name for name in wanted if shutil.which(name) is None]
    if absent:
        print(f"skipped: {', '.join(absent)} not found")
        return 0
    if len(words) == 2:
        return int(compare(*words) > 0)
    if len(words) == 3 and words[0] == "--picture":
        return picture(*words[1:])
    print(__doc__)
    return 2


if __name__ == "__main__":
    sys.exit(main(sys.argv[1:]))
