#!/usr/bin/env python3
"""Keeps the users' pages true: runs each command that they show, and compares what is written.

    tools/pages.py PROGRAM [WAVE [LOOK]]    runs PROGRAM as `deodarwrench`, WAVE as `smv_wave` and LOOK as `smv_look`, on every page and example, and compares answers and statuses;
                                     LOOK explains each text of docs/FAULTS.md too, and looks at each example
    tools/pages.py --tests           writes the tables of crates/smv_top_tests, crates/smv_document_tests, crates/smv_wave_tests and crates/smv_look_tests from the pages
    tools/pages.py                   looks whether these tables are what the pages give
    tools/pages.py --answers PROGRAM    writes examples/*.answer; read what changed before it is kept
    tools/pages.py --texts FOLDER       writes the texts of the pages, to try them

It ends with status 1 where something differs. The pages also run make, sed, seq and xargs. On the users' pages it takes these sorts of fenced blocks:

    ```smv NAME       a whole text, the file NAME; so is ```make NAME and ```sh NAME
    ```diff NAME OLD  the file NAME: the file OLD with some lines changed. A line begins with a blank (it is there), `-` (it goes) or `+` (it comes);
                      a line `@@` parts one change from the next. The lines with blanks and `-` of a change stand together in OLD, at one place.
    ```console        lines `$ COMMAND`, each with what it writes behind it. The folder has the files of the page, those that earlier commands wrote, `examples` and `tools`.
    ```marked         texts of one line, each with a line below it that has `^ fault N` under the place, and perhaps more words: what `prove` answers.
                      Before it `^ first` may stand under the other place, which `smv_look explain` tells. They stand in no table of tests of the prover.

Each examples/NAME.smv has an examples/NAME.answer beside it: exactly what `deodarwrench prove < examples/NAME.smv` writes, or `ltl` where a claim is a formula over several times. `smv_look` reads no such text.
The exit status of an answer is the one that README.md states for it, and for `smv_look` docs/LOOK.md; no command's block repeats it. A command with `sh` or `make` in it ends with 0 where all is true.
In the tables a text stands in one line and without its comments, unless it has a fault or `smv_look` tells places in it: a test costs by its bytes.
"""
import os
import re
import subprocess
import sys
import tempfile
from pathlib import Path

TOP = Path(__file__).resolve().parent.parent
PAGES = ["README.md", "docs/METHOD.md", "docs/DOCUMENTS.md", "docs/FAULTS.md", "docs/COMING-FROM.md", "docs/LOOK.md"]
# The module of tests that the prover's commands of each page stand in: pages of short texts have one together, since each function of a test costs.
MODULES = {"README.md": "short_pages", "docs/METHOD.md": "page_method", "docs/FAULTS.md": "short_pages", "docs/COMING-FROM.md": "short_pages", "examples": "page_examples"}
TABLES = TOP / "crates/smv_top_tests/src"
DOCUMENTS = TOP / "crates/smv_document_tests/src/pages.rt"
DUMPS = TOP / "crates/smv_wave_tests/src/pages.rt"
LOOKS = TOP / "crates/smv_look_tests/src/pages.rt"
MISTAKES = TOP / "crates/smv_look_tests/src/mistakes.rt"
FAULTS = "docs/FAULTS.md"
# A fault's number and its rule, in a heading.
RULE = re.compile(r"^### Fault (\d+): (.*)$", re.M)
# The number of the fault below which stands what could stand at its place.
UNEXPECTED = "5"
# The answer that a text with a fault has.
FAULT = re.compile(r"fault (\d+) at line (\d+) column (\d+)\n")
FENCED = re.compile(r"^```(smv|make|sh|diff|console|marked)(?: (\S+))?(?: (\S+))?\n(.*?)^```$", re.M | re.S)
FENCES = re.compile(r"^```(?:smv|make|sh|diff|console|marked)", re.M)
# The programs beside the prover, in the order in which they are given.
BESIDE = ["smv_wave", "smv_look"]
# The line below a text that says where it has which fault, and where the other place of the fault is.
MARK = re.compile(r"(?: *\^ first\b)? *\^ fault (\d+)\b.*")
# What `smv_look explain` says of the other place of a fault of this number.
OTHERS = {"8": "declared first here", "15": "the other assignment is here", "16": "the other assignment is here", "27": "chosen first here"}
# About how many bytes of rows a test has at most, if it has more than one row.
PART = 9_200
# Commands that a test can give the program as words and a text: that of a file, one that is written out, so many blanks.
PLAIN = re.compile(r"deodarwrench ([^<|]+?) < (\S+)")
ECHO = re.compile(r"echo '([^']*)' \| deodarwrench (\w+)")
SCRIPT = re.compile(r"\b(?:sh|make)\b")
# One whose text has a fault: that of a file, or one that is written out.
MISTAKE = re.compile(r"deodarwrench prove < (\S+)|echo \"([^\"]*)\" \| deodarwrench prove")
BLANKS = re.compile(r"printf '%(\d+)s' '' \| deodarwrench (\w+)")
# One whose report a test can give the program of waveforms.
WAVE = re.compile(r"(deodarwrench prove < \S+) \| smv_wave( table)?")
# One that a test can give the program that looks at a text.
LOOK = re.compile(r"smv_look ([^<|]+?) < (\S+)")
# One that stands on that program.
NEEDS_LOOK = re.compile(r"\btools/sets\b|\bsets\.proof\b")
# A command of which only the first lines are shown.
HEAD = re.compile(r"\| head -n \d+$")
# Words of the commands on documents, on units at given sizes, by induction and over several times, which have tests of their own.
APART = re.compile(r"(?:proof|check|resume|confirm|induct|ltl)\b")
# How a claim over several times begins.
FORMULA = re.compile(r"\bassert G (?:if|X|W)\b")
# What that program answers where a unit has no case of the number that is asked for.
NO_CASE = re.compile(r"\S+: cases \d+\n")


def all_true(answer):
    """Returns whether the last line of a report says that every unit is true."""
    return bool(re.search(r"^proved (\d+) of \1\n\Z", answer, re.M))


def weak_units(answer):
    """Returns the lines of the units that are not true, and the last line."""
    return [line for line in answer.splitlines() if not line.startswith(" ") and not line.endswith(": true")]


def status(command, answer):
    """Returns the exit status that stands beside an answer."""
    if HEAD.search(command) or WAVE.search(command):
        return 0
    if answer.startswith("fault "):
        return 3
    if answer.startswith("usage: "):
        return 4
    if command.startswith("smv_look explain"):
        return int(not all_true(answer))
    if re.search(r"^\S+: false at \d+$", answer, re.M):
        return 1
    if re.search(r"^\S+: unknown (steps|nodes \d+)$", answer, re.M):
        return 2
    if answer.startswith("rejected "):
        return 9
    if re.fullmatch(r"\S+: holds\n", answer):
        return 10
    if re.match(r"\S+: real at \d+\n", answer):
        return 11
    if NO_CASE.fullmatch(answer) or command.startswith("smv_look lint") and answer:
        return 1
    return 8 if " only " in command and not SCRIPT.search(command) else 0


def changed(text, block):
    """Returns the text with the changes of a `diff` block."""
    for change in re.split(r"^@@\n", block, flags=re.M):
        lines = change.splitlines(keepends=True)
        if any(line[0] not in " -+" for line in lines):
            raise ValueError(f"a line without its mark:\n{change}")
        old = "".join(line[1:] for line in lines if line[0] in " -")
        new = "".join(line[1:] for line in lines if line[0] in " +")
        if ("\n" + text).count("\n" + old) != 1:
            raise ValueError(f"not at one place of the old text:\n{old}")
        text = ("\n" + text).replace("\n" + old, "\n" + new)[1:]
    return text


def texts_and_marks(block):
    """Returns the texts of a `marked` block, each with the line below it."""
    lines = [line for line in block.splitlines() if line]
    return list(zip(lines[::2], lines[1::2], strict=True))


def marked(block):
    """Returns the commands that give `prove` the texts of a `marked` block, with their answers."""
    commands = []
    for text, below in texts_and_marks(block):
        mark = MARK.fullmatch(below)
        if not mark or set(text) & set('"$`\\'):
            raise ValueError(f"no mark, or a sign of the shell:\n{text}\n{below}")
        commands.append((f'echo "{text}" | deodarwrench prove', f"fault {mark[1]} at line 1 column {below.index('^ fault') + 1}\n"))
    return commands


def firsts(page):
    """Returns the column of the other place of the fault of each text of the page's `marked` blocks that shows one."""
    blocks = [block for kind, _, _, block in FENCED.findall((TOP / page).read_text()) if kind == "marked"]
    return {text + "\n": below.index("^") + 1 for block in blocks for text, below in texts_and_marks(block) if "^ first" in below}


def read_page(page):
    """Returns a page's files by their names, and its commands with their answers, in order."""
    files, commands = {}, []
    lines = (TOP / page).read_text()
    blocks = FENCED.findall(lines)
    if len(blocks) != len(FENCES.findall(lines)):
        raise ValueError(f"{page} has a block of another form")
    for kind, name, old, block in blocks:
        if kind == "console":
            for piece in re.split(r"^\$ ", block, flags=re.M)[1:]:
                commands.append(tuple(piece.split("\n", 1)))
        elif kind == "marked":
            commands += marked(block)
        else:
            if name in files:
                raise ValueError(f"{page} has {name} twice")
            files[name] = changed(files[old], block) if kind == "diff" else block
    return files, commands


def deciding(text):
    """Returns the word of the command that decides a text of the examples."""
    return "ltl" if FORMULA.search(bare(text)) else "prove"


def example_commands():
    """Returns the commands on the examples with the answers that stand beside them."""
    commands = []
    for text in sorted((TOP / "examples").glob("*.smv")):
        commands.append((f"deodarwrench {deciding(text.read_text())} < examples/{text.name}", text.with_suffix(".answer").read_text()))
    return commands


def everything():
    """Returns each page, and the examples, with its files and its commands."""
    return [(page, *read_page(page)) for page in PAGES] + [("examples", {}, example_commands())]


def pointed(text, line, column, words):
    """Returns a line of a text, and below it a mark under the column with these words."""
    there = text.split("\n")[line - 1]
    mark = "".join("\t" if sign == "\t" else " " for sign in there[: column - 1])
    return f"  | {there}\n  | {mark}^ {words}\n"


def mistakes():
    """Returns the texts of the page of faults, each with what `smv_look explain` answers: the line of `prove`, the line of the text and a mark below it with the rule, and the same of the
    other place of the fault; and whether that is all, or what could stand there follows. Texts of which the page shows that itself are left out."""
    rules = dict(RULE.findall((TOP / FAULTS).read_text()))
    files, commands = read_page(FAULTS)
    others = firsts(FAULTS)
    shown_whole = {files[shown[2]] for command, _ in commands if (shown := LOOK.fullmatch(command)) and shown[1] == "explain"}
    found = []
    for command, answer in commands:
        fault, shown = FAULT.fullmatch(answer), MISTAKE.fullmatch(command)
        if fault and shown:
            text = files[shown[1]] if shown[1] else shown[2] + "\n"
            number, line, column = fault.groups()
            lines = answer + pointed(text, int(line), int(column), rules[number])
            if text in shown_whole:
                continue
            if number in OTHERS:
                lines += pointed(text, 1, others[text], f"{OTHERS[number]}, at line 1 column {others[text]}")
            found.append((text, lines, number != UNEXPECTED))
    return found


def run_looks(look):
    """Runs `smv_look` on the mistakes and on every example, and returns how many answers are not as they should be."""

    def ran(words, text):
        it = subprocess.run([Path(look).resolve(), *words], input=text, capture_output=True, text=True)
        return it.stdout, it.returncode

    wrong = []
    for text, answer, is_all in mistakes():
        told, code = ran(["explain"], text)
        if code != 3 or not (told == answer if is_all else told.startswith(f"{answer}  | here may stand: ")):
            wrong.append(f"explain of\n{text}")
    for example in sorted((TOP / "examples").glob("*.smv")):
        text = example.read_text()
        if deciding(text) != "prove":
            continue
        lines, units = ran(["list"], text)
        wrong += [f"list of {example.name}"] if units else []
        for line in lines.splitlines():
            if not line.startswith(" ") and ran(["cone", line.split(":")[0]], text)[1]:
                wrong.append(f"cone of {example.name}: {line}")
        # What is shown of verdicts speaks of the units that are not true, and of those that lean on them.
        report, (told, code) = example.with_suffix(".answer").read_text(), ran(["explain"], text)
        wrong += [f"explain of {example.name}"] if weak_units(told) != weak_units(report) or code != int(not all_true(report)) else []
        warned, code = ran(["lint"], text)
        wrong += [f"lint of {example.name}"] if code != int(warned != "") else []
    print("\n".join([*wrong, f"smv_look: {len(mistakes())} mistakes, and each example"]))
    return len(wrong)


def run_all(program, *more):
    """Runs every command and returns how many answers differ. Those with a program that is not given are left out."""
    beside = dict(zip(BESIDE, more))
    wrong = run_looks(beside["smv_look"]) if "smv_look" in beside else 0
    for page, files, commands in everything():
        with tempfile.TemporaryDirectory() as folder:
            os.symlink(Path(program).resolve(), f"{folder}/deodarwrench")
            os.symlink(TOP / "examples", f"{folder}/examples")
            os.symlink(TOP / "tools", f"{folder}/tools")
            for name, place in beside.items():
                os.symlink(Path(place).resolve(), f"{folder}/{name}")
            for name, text in files.items():
                Path(folder, name).write_text(text)
            there = {**os.environ, "PATH": f"{folder}:{os.environ['PATH']}"}
            for command, answer in commands:
                if any(name in command and name not in beside for name in BESIDE) or NEEDS_LOOK.search(command) and "smv_look" not in beside:
                    print(f"{page}: not run: {command}")
                    continue
                ran = subprocess.run(command, shell=True, cwd=folder, env=there, capture_output=True, text=True)
                if (ran.stdout, ran.returncode) != (answer, status(command, answer)):
                    wrong += 1
                    print(f"{page}: $ {command}\n{ran.stdout}{ran.stderr}status {ran.returncode}, and not\n{answer}status {status(command, answer)}\n")
        print(f"{page}: {len(files)} texts, {len(commands)} commands")
    return wrong


def write_texts(folder):
    """Writes the texts of the pages."""
    for _, files, _ in everything():
        for name, text in files.items():
            Path(folder, name).write_text(text)


def write_answers(program):
    """Writes the answer beside each example."""
    for text in sorted((TOP / "examples").glob("*.smv")):
        with open(text, "rb") as source, open(text.with_suffix(".answer"), "wb") as sink:
            subprocess.run([Path(program).resolve(), deciding(text.read_text())], stdin=source, stdout=sink)


def quoted(text):
    """Returns a text as a string of Rattle."""
    marks = {"\\": "\\\\", '"': '\\"', "\n": "\\n"}
    return '"' + "".join(marks.get(sign, sign) for sign in text) + '"'


def bare(text):
    """Returns a text in one line, without its comments."""
    return " ".join(re.sub(r"/\*.*?\*/|--[^\n]*", " ", text, flags=re.S).split())


def row(values):
    """Returns the lines of a row of a table, as `rt fmt` lays it out."""
    line = ", ".join(values)
    return [f"    ({line}),"] if len(line) <= 60 else ["    (", *(f"        {value}," for value in values), "    ),"]


def parts(rows):
    """Returns rows in parts whose texts together stay so short that the check of a test with them ends."""
    cut, size = [[]], 0
    for lines in rows:
        size += sum(map(len, lines))
        if cut[-1] and size > PART:
            cut.append([])
            size = sum(map(len, lines))
        cut[-1].append(lines)
    return cut


def constant(name, part):
    """Returns the lines of the constant with the rows of a part, as `rt fmt` lays it out."""
    if len(part) == 1 and len(part[0]) > 1:
        return [f"const {name} = &[(", *(line[4:] for line in part[0][1:-1]), ")];"]
    return [f"const {name} = &[", *(line for one in part for line in one), "];"]


def given(command, files):
    """Returns the words and the text of a command that has the text of a file or one that is written out, or None."""
    plain, echo = PLAIN.fullmatch(command), ECHO.fullmatch(command)
    if plain:
        words, file = plain.groups()
        if file in files:
            return words, files[file]
        # What an earlier command wrote is no file of the page.
        return (words, (TOP / file).read_text()) if (TOP / file).exists() else None
    return (echo[2], echo[1] + "\n") if echo else None


def given_row(command, answer, words_and_text):
    """Returns the lines of the row of a command with these words and this text."""
    words, text = words_and_text
    return row([quoted(words), quoted(text if answer.startswith("fault ") else bare(text)), str(status(command, answer)), quoted(answer)])


def apart():
    """Returns the module of tests of what the pages show of documents and of units at given sizes: its file and its lines."""
    rows = []
    for _, files, commands in everything():
        for command, answer in commands:
            row_given = given(command, files)
            if row_given and APART.match(row_given[0]):
                rows.append(given_row(command, answer, row_given))
    lines = [
        "//! What the pages show of documents and of units at given sizes, with the texts. Written by `tools/pages.py --tests`.",
        "",
        "use crate::calls::{Row, all_are_answered};",
        "use std::test::Fail;",
    ]
    for number, part in enumerate(parts(rows), 1):
        lines += ["", *constant(f"ROWS_{number}: &[Row]", part)]
        lines += ["", "#[test]", f"fn answers_of_the_pages_{number}(rt: HostRuntime) -> Result<(), Fail> {{"]
        lines += [f"    all_are_answered(rt.alloc(), ROWS_{number})", "}"]
    return DOCUMENTS, "\n".join([*lines, ""])


def table(module, pages):
    """Returns the module of tests of the pages that stand together: its file and its lines. Pages show examples, which have a table of their own."""
    rows, blanks = [], []
    for page, files, commands in pages:
        for command, answer in commands:
            row_given, many = given(command, files), BLANKS.fullmatch(command)
            if row_given and not APART.match(row_given[0]) and not (page != "examples" and " examples/" in command):
                rows.append(given_row(command, answer, row_given))
            if many:
                blanks.append([quoted(many[2]), f"{int(many[1]):_}", str(status(command, answer)), quoted(answer)])
    used = ["Row", "all_are_answered", *(["blanks_are_answered"] if blanks else [])]
    names = " and ".join(f"`{page}`" for page, _, _ in pages)
    lines = [
        f"//! The commands of {names}, with their texts, exit statuses and answers. Written by `tools/pages.py --tests`.",
        "",
        f"use crate::calls::{{{', '.join(used)}}};",
        "use std::test::Fail;",
    ]
    for number, part in enumerate(parts(rows), 1):
        lines += ["", *constant(f"ROWS_{number}: &[Row]", part)]
        lines += ["", "#[test]", f"fn answers_{number}(rt: HostRuntime) -> Result<(), Fail> {{"]
        lines += [f"    all_are_answered(rt.alloc(), ROWS_{number})", "}"]
    for number, values in enumerate(blanks, 1):
        lines += ["", "#[test]", f"fn answers_to_blanks_{number}(rt: HostRuntime) -> Result<(), Fail> {{"]
        lines += ["    blanks_are_answered("]
        lines += [f"        {value}," for value in ["rt.alloc()", *values]]
        lines += ["    )", "}"]
    return TABLES / f"{module}.rt", "\n".join([*lines, ""])


def dumps():
    """Returns the module of tests of the dumps and tables that the pages show: its file and its lines. The report of each is the answer of an earlier command."""
    rows = []
    for _, _, commands in everything():
        answers = dict(commands)
        for command, dump in commands:
            shown = WAVE.fullmatch(command)
            if shown:
                words = (shown[2] or "").strip()
                rows.append(row([quoted(words), quoted(answers[shown[1]]), "0", quoted(dump), '""']))
    lines = [
        "//! The dumps and tables that the pages show, beside the reports that they are made from. Written by `tools/pages.py --tests`.",
        "",
        "use crate::rows::{Row, all_are_answered};",
        "use std::test::Fail;",
        "",
        *constant("ROWS: &[Row]", rows),
        "",
        "#[test]",
        "fn answers_are_those_of_the_pages(rt: HostRuntime) -> Result<(), Fail> {",
        "    all_are_answered(rt.alloc(), ROWS)",
        "}",
    ]
    return DUMPS, "\n".join([*lines, ""])


def looks():
    """Returns the module of tests of what the pages show of `smv_look`: its file and its lines. A text stands as it is, since places in it are told."""
    rows = []
    for _, files, commands in everything():
        for command, answer in commands:
            shown = LOOK.fullmatch(command)
            if shown:
                words, file = shown.groups()
                text = files[file] if file in files else (TOP / file).read_text()
                rows.append(row([quoted(words), quoted(text), str(status(command, answer)), quoted(answer)]))
    lines = [
        "//! What the pages show of `smv_look`, with the texts. Written by `tools/pages.py --tests`.",
        "",
        "use crate::rows::{Row, all_are_answered};",
        "use std::test::Fail;",
    ]
    for number, part in enumerate(parts(rows), 1):
        lines += ["", *constant(f"ROWS_{number}: &[Row]", part)]
        lines += ["", "#[test]", f"fn looks_are_those_of_the_pages_{number}(rt: HostRuntime) -> Result<(), Fail> {{"]
        lines += [f"    all_are_answered(rt.alloc(), ROWS_{number})", "}"]
    return LOOKS, "\n".join([*lines, ""])


def explained():
    """Returns the module of tests of the mistakes that are explained: its file and its lines."""
    rows = [row(['"explain"', quoted(text), "3", quoted(answer)]) for text, answer, is_all in mistakes() if is_all]
    lines = [
        f"//! The texts of `{FAULTS}`, which have a fault each, with what `explain` says of it. Written by `tools/pages.py --tests`.",
        "",
        "use crate::rows::{Row, all_are_answered};",
        "use std::test::Fail;",
    ]
    for number, part in enumerate(parts(rows), 1):
        lines += ["", *constant(f"ROWS_{number}: &[Row]", part)]
        lines += ["", "#[test]", f"fn mistakes_are_explained_{number}(rt: HostRuntime) -> Result<(), Fail> {{"]
        lines += [f"    all_are_answered(rt.alloc(), ROWS_{number})", "}"]
    return MISTAKES, "\n".join([*lines, ""])


def tables():
    """Returns the modules of tests: their files and lines."""
    together = {}
    for page in everything():
        if page[0] in MODULES:
            together.setdefault(MODULES[page[0]], []).append(page)
    return [*(table(*pages) for pages in together.items()), apart(), dumps(), looks(), explained()]


def main(words):
    if len(words) == 2 and words[0] == "--answers":
        write_answers(words[1])
        return 0
    if len(words) == 2 and words[0] == "--texts":
        write_texts(words[1])
        return 0
    if words == ["--tests"]:
        for file, lines in tables():
            file.write_text(lines)
        return 0
    if not words:
        stale = [file for file, lines in tables() if not file.exists() or file.read_text() != lines]
        for file in stale:
            print(f"{file} is not what the pages give: tools/pages.py --tests")
        return int(bool(stale))
    if len(words) <= 3 and not words[0].startswith("-"):
        return int(run_all(*words) > 0)
    print(__doc__)
    return 2


if __name__ == "__main__":
    sys.exit(main(sys.argv[1:]))
