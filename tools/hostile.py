#!/usr/bin/env python3
"""Hostile use: the program on strangers' texts, on machines that refuse it memory, room, or more than a byte at a time.

    tools/hostile.py PROGRAM [--seed N] [--count N] [--calls N] [TRY ..]      TRY is growth, rooms, bytes, prefixes, random, changes or long; all without one

growth     each call for memory is refused in turn (of more than --calls so many, spread over the run): status 7 and nothing written, or the usual status and answer
rooms      standard output takes so many bytes and no more: status 6 and those bytes alone
bytes      a byte at a time is read, and written: the usual answer
prefixes   each nonempty proper prefix of the toggle and of the Tomasulo machine: a fault with its place inside the text
random     random bytes, under a stack of 1 MiB and 200 MB of addresses: an exit status of the table, and no signal
changes    the Tomasulo machine with some words changed, dropped or doubled, under the same limits
long       rows of many operands, blanks at the limit of the text and past it, deep nests

hostile.c is compiled beside the program and loaded before it. It prints a line for each try and ends with status 1 where one failed.
"""
import argparse
import os
import random
import re
import resource
import subprocess
import sys
import tempfile

TOP = os.path.dirname(os.path.dirname(os.path.abspath(__file__)))
MODULE = b"module main() { "
TOGGLE = MODULE + b"x : boolean; init(x) := 0; next(x) := ~x; p : assert G (x | ~x); }"
TOGGLE_FALSE = MODULE + b"x : boolean; init(x) := 0; next(x) := ~x; p : assert G ~x; }"
BOTH = MODULE + b"x : boolean; p : assert G x; q : assert G x; using q prove p; using p prove q; }"
MUTEX = b"scalarset P undefined; module main() { tok : P; crit : array P of boolean; forall (i in P) crit[i] := tok = i; forall (i in P) forall (j in P) mutex[i][j] : assert G (crit[i] & crit[j] -> i = j); }"
CLOSE = b"module main(){x:boolean;p:assert G (x|(~x));}"
SPLIT = MODULE + b"n : 0..3; init(n) := 0; next(n) := n + 1 mod 4; p : assert G (n < 4); forall (i in 0..3) subcase q[i] of p for n = i; }"
STATUSES = range(8)
LARGEST = 1 << 20


def example(name):
    with open(f"{TOP}/examples/{name}", "rb") as it:
        return it.read()


class Program:
    """The program, and the library that is loaded before it."""

    def __init__(self, path, folder):
        self.path, self.count = os.path.abspath(path), f"{folder}/count"
        self.library = f"{folder}/hostile.so"
        subprocess.run(["cc", "-O1", "-shared", "-fPIC", "-o", self.library, f"{TOP}/tools/hostile.c", "-ldl"], check=True)

    def answer(self, words, text=b"", limits=None, seconds=120, **hostile):
        """Returns the exit status (of a signal its number below 0) and what was written."""
        preload = {"LD_PRELOAD": self.library, "HOSTILE_COUNT": self.count} | {f"HOSTILE_{it.upper()}": str(number) for it, number in hostile.items()}

        def limit():
            for which, most in (limits or {}).items():
                resource.setrlimit(which, (most, most))

        ran = subprocess.run([self.path, *words.split()], input=text, capture_output=True, check=False, env={**os.environ, **(preload if hostile else {})}, preexec_fn=limit, timeout=seconds)
        return ran.returncode, ran.stdout

    def counted(self, words, text):
        """Returns the answer and how many calls for memory it took."""
        answer = self.answer(words, text, growth=0)
        with open(self.count, encoding="ascii") as it:
            return answer, int(it.read())


def cases():
    machine = example("tomasulo.smv")
    broken = machine.replace(b"st[i].ta = bt", b"1", 1)
    yield from [("prove", TOGGLE), ("prove", TOGGLE_FALSE), ("prove", SPLIT), ("prove", machine), ("prove", broken), ("print", machine), ("generated 2", b"")]
    yield from [("prove", BOTH), ("prove", MUTEX), ("print", CLOSE)]
    yield from [("only p", TOGGLE_FALSE), ("only q", TOGGLE), ("prove", MODULE), ("prove --nodes 0", TOGGLE)]


def growth(program, given):
    for words, text in cases():
        usual, calls = program.counted(words, text)
        places = range(1, calls + 1) if calls <= given.calls else sorted({1 + n * calls // given.calls for n in range(given.calls)})
        other = [n for n in places for got in [program.answer(words, text, growth=n)] if got not in ((7, b""), usual)]
        yield f"growth: {words}, {len(text)} bytes: status {usual[0]}, {len(places)} of {calls} calls for memory refused in turn", [f"call {n}" for n in other]


def rooms(program, _):
    for words, text in cases():
        status, answer = program.answer(words, text)
        places = sorted({*range(min(len(answer), 64)), *range(0, len(answer), 1 + len(answer) // 64)})
        other = [n for n in places if program.answer(words, text, room=n) != (6, answer[:n])]
        if program.answer(words, text, room=len(answer)) != (status, answer):
            other.append(len(answer))
        yield f"rooms: {words}, {len(text)} bytes: {len(places)} rooms below {len(answer)} and that one", [f"room {n}" for n in other]


def bytes_alone(program, _):
    for words, text in cases():
        usual = program.answer(words, text)
        other = [f"{hostile}" for hostile in ({"read": 1}, {"write": 1}, {"read": 1, "write": 1}) if program.answer(words, text, **hostile) != usual]
        yield f"bytes: {words}, {len(text)} bytes: a byte at a time", other


def is_fault_inside(text, got):
    """Returns whether the answer is a fault of 1 to 31 at a place inside the text."""
    found = re.fullmatch(rb"fault (\d+) at line (\d+) column (\d+)\n", got[1])
    if got[0] != 3 or not found:
        return False
    number, line, column = map(int, found.groups())
    lines = text.split(b"\n")
    return 1 <= number <= 31 and 1 <= line <= len(lines) and 1 <= column <= len(lines[line - 1]) + 1


def prefixes(program, _):
    for name, text in [("the toggle", TOGGLE), ("the Tomasulo machine", example("tomasulo.smv").rstrip())]:
        other = [end for end in range(1, len(text)) for got in [program.answer("prove", text[:end])] if not is_fault_inside(text[:end], got)]
        yield f"prefixes: each of {len(text) - 1} of {name}", [f"{end} bytes" for end in other]


SMALL = {resource.RLIMIT_STACK: 1 << 20, resource.RLIMIT_AS: 200 << 20}


def is_well(text, got):
    return got[0] in STATUSES and (got[0] != 3 or is_fault_inside(text, got))


def random_bytes(program, given):
    other, told = [], {}
    for number in range(given.count):
        text = bytes(random.choice([random.randrange(256), *b"module main() { x : boolean ; }"]) for _ in range(random.randrange(1, 400)))
        got = program.answer("prove", text, SMALL)
        told[got[0]] = told.get(got[0], 0) + 1
        if not is_well(text, got):
            other.append(f"number {number}: status {got[0]}")
    yield f"random: {given.count} texts of random bytes: statuses {dict(sorted(told.items()))}", other


def changed(words):
    """Returns the words with one to four of them changed, dropped, doubled or exchanged."""
    words = list(words)
    for _ in range(random.randrange(1, 5)):
        at, other = random.randrange(len(words)), random.randrange(len(words))
        kind = random.randrange(4)
        if kind == 0:
            words[at] = words[other]
        elif kind == 1:
            del words[at]
        elif kind == 2:
            words.insert(at, words[other])
        else:
            words[at], words[other] = words[other], words[at]
    return words


def changes(program, given):
    words, other, told = re.findall(rb"\w+|\s+|[:<\-~>]?=|\.\.|->|<->|//|.", example("tomasulo.smv")), [], {}
    for number in range(given.count):
        text = b"".join(changed(words))
        got = program.answer("prove --nodes 100000", text, SMALL)
        told[got[0]] = told.get(got[0], 0) + 1
        if not is_well(text, got):
            other.append(f"number {number}: status {got[0]}")
    yield f"changes: {given.count} changes of the Tomasulo machine: statuses {dict(sorted(told.items()))}", other


def long_texts(program, _):
    true = (0, b"p: true\nproved 1 of 1\n")
    for sign in ["&", "|", "->"]:
        for count in [1_000, 100_000, (LARGEST - 64) // (len(sign) + 3)]:
            text = MODULE + b"p : assert G (" + f" {sign} ".encode().join([b"1"] * count) + b"); }"
            got = program.answer("prove", text)
            yield f"long: {count} operands of {sign}", [] if got == true else [f"status {got[0]}"]
    for count in [1_000, 100_000]:
        text = MODULE + b"x : boolean; x := {" + b", ".join([b"0"] * count) + b"}; p : assert G (x = 0); }"
        got = program.answer("prove", text)
        yield f"long: {count} members of a set", [] if got == true else [f"status {got[0]}"]
        text = MODULE + b"x : boolean; p : assert G (x in {" + b"0, " * count + b"1}); }"
        got = program.answer("prove", text)
        yield f"long: in {count + 1} members", [] if got == true else [f"status {got[0]}"]
    for count, want in [(LARGEST, b"fault 9"), (LARGEST + 1, b"fault 31")]:
        got = program.answer("prove", b" " * count)
        yield f"long: {count} blanks", [] if got[0] == 3 and got[1].startswith(want + b" ") else [f"{got}"]
    for depth in [63, 64]:
        text = MODULE + b"p : assert G " + b"(" * depth + b"1" + b")" * depth + b"; }"
        got = program.answer("prove", text)
        yield f"long: {depth} signs of opening", [] if got == (true if depth == 63 else (3, b"fault 6 at line 1 column 93\n")) else [f"{got}"]


TRIES = {"growth": growth, "rooms": rooms, "bytes": bytes_alone, "prefixes": prefixes, "random": random_bytes, "changes": changes, "long": long_texts}


def main():
    parser = argparse.ArgumentParser(description=__doc__, formatter_class=argparse.RawDescriptionHelpFormatter)
    parser.add_argument("program")
    parser.add_argument("--seed", type=int, default=1)
    parser.add_argument("--count", type=int, default=1000)
    parser.add_argument("--calls", type=int, default=2000)
    parser.add_argument("tries", nargs="*", metavar="TRY", help=", ".join(TRIES))
    given = parser.parse_args()
    random.seed(given.seed)
    failed = 0
    with tempfile.TemporaryDirectory() as folder:
        program = Program(given.program, folder)
        for name in given.tries or TRIES:
            for line, other in TRIES[name](program, given):
                failed += bool(other)
                print(line + (f"; NOT SO at {', '.join(other[:8])}{' and more' if len(other) > 8 else ''} ({len(other)})" if other else ""), flush=True)
    return 1 if failed else 0


if __name__ == "__main__":
    sys.exit(main())
