#!/usr/bin/env python3
"""Random designs, decided by the program under several settings: those of three bits by brute force too, wider ones by the settings alone.

    tools/random_designs.py PROGRAM [--seed N] [--count N] [--words WORDS ..] [--wide | --formulas]

Each design of three bits has boolean signals a, b and c, each with a value of now, or with `init` and `next` (some under an `if`, some without one), right sides with sets and
conditionals, some of them Undefined, and one claim. All eight states are gone through from the definitions of the language alone; the verdict and the length of a shortest path have to be
those that PROGRAM writes, under each of the WORDS that are given (`--words "--bits declared" "--bits near --nodes 40"`; none where there are none).
With --formulas the claims are formulas over several times, which `ltl` decides: `formula_designs.py` says of which designs.
With --wide designs have booleans, numbers, arrays and a scalarset, and two claims; what PROGRAM writes under each of the words has to be the same for each claim, verdicts and lengths.
A claim that is unknown under some words is compared under the others alone. Designs that the program refuses are left out. It ends with status 1 where an answer differs.
"""
import argparse
import itertools
import random
import re
import subprocess
import sys

NAMES = ["a", "b", "c"]


def truth(x):
    """What an outcome is in logic: 0, 1, or None, which is Undefined."""
    return x if x in (0, 1) else None


def negation(x):
    return None if truth(x) is None else 1 - x


def conjunction(x, y):
    x, y = truth(x), truth(y)
    return 0 if 0 in (x, y) else None if None in (x, y) else 1


def disjunction(x, y):
    return negation(conjunction(negation(x), negation(y)))


def strict(value):
    """An operator of values that is Undefined where one of its sides is."""
    return lambda x, y: None if x is None or y is None else value(x, y)


SIGNS = {
    "&": conjunction,
    "|": disjunction,
    "->": lambda x, y: disjunction(negation(x), y),
    "<->": lambda x, y: strict(lambda x, y: int(x == y))(truth(x), truth(y)),
    "=": strict(lambda x, y: int(x == y)),
    "~=": strict(lambda x, y: int(x != y)),
    "+": strict(lambda x, y: x + y),
    "-": strict(lambda x, y: x - y if x >= y else None),
}
# Those that give truth values; sums and differences are few, since much is Undefined beside them.
LOGIC = ["&", "|", "->", "<->", "=", "~="]


def expression(depth, names):
    """Returns an expression as text, each part of it in parentheses."""
    kind = random.random()
    if depth == 0 or kind < 0.25:
        return random.choice(names + ["0", "1"]) if kind < 0.97 else "2"
    if kind < 0.4:
        return f"(~({expression(depth - 1, names)}))"
    if kind < 0.9:
        sign = random.choice(LOGIC) if random.random() < 0.9 else random.choice(["+", "-"])
        return f"({expression(depth - 1, names)} {sign} {expression(depth - 1, names)})"
    return f"({expression(depth - 1, names)} ? {expression(depth - 1, names)} : {expression(depth - 1, names)})"


def value_of(text):
    """Returns the function from a state to the outcome of such an expression."""
    signs = re.findall(r"<->|->|~=|[()&|=~?:+-]|\w+", text)
    place = 0

    def part():
        nonlocal place
        sign = signs[place]
        place += 1
        if sign == "(":
            inner = whole()
            place += 1
            return inner
        if sign == "~":
            inner = part()
            return lambda s: negation(inner(s))
        if sign.isdigit():
            return lambda s: int(sign)
        return lambda s: s[sign]

    def whole():
        nonlocal place
        left = part()
        if place == len(signs) or signs[place] not in [*SIGNS, "?"]:
            return left
        sign = signs[place]
        place += 1
        if sign != "?":
            right = part()
            return lambda s: SIGNS[sign](left(s), right(s))
        yes = part()
        place += 1
        no = part()
        return lambda s: {1: yes, 0: no, None: lambda s: None}[truth(left(s))](s)

    return whole()


def right_side(names):
    """Returns a right side as text, and the function from a state to the values that it allows: each, where it rules out nothing."""
    kind = random.random()
    if kind < 0.15:
        return "{0, 1}", lambda s: {0, 1}
    if kind < 0.4:
        condition, (yes, left), (no, other) = expression(1, names), right_side(names), right_side(names)
        holds = value_of(condition)
        return f"({condition}) ? ({yes}) : ({no})", lambda s: {1: left, 0: other, None: lambda s: {0, 1}}[truth(holds(s))](s)
    text = expression(2, names)
    value = value_of(text)
    return text, lambda s: {0, 1} if truth(value(s)) is None else {value(s)}


class Machine:
    """Bits with what defines each: now by name; or at first and later, the latter under a condition."""

    def __init__(self):
        self.now, self.first, self.later, self.names = {}, {}, {}, []

    def define(self, name, earlier, known):
        """Returns statements that define one more bit, by some that come earlier and, one step later, by those that are known."""
        self.names.append(name)
        kind, text = random.random(), ""
        if kind < 0.3:
            side, self.now[name] = right_side(earlier)
            text += f" {name} := {side};"
        elif kind < 0.9:
            if random.random() < 0.8:
                side, self.first[name] = right_side(earlier)
                text += f" init({name}) := {side};"
            if random.random() < 0.9:
                side, gives = right_side(known)
                condition = expression(1, known) if random.random() < 0.3 else "1"
                self.later[name] = value_of(condition), gives
                text += f" if ({condition}) next({name}) := {side};"
        return text

    def follow(self, name, text):
        """Has a bit that is the value of an expression."""
        self.names.append(name)
        value = value_of(text)
        self.now[name] = lambda s: {0, 1} if truth(value(s)) is None else {value(s)}

    def states(self):
        """The states in which each bit has a value that is allowed now."""
        every = (dict(zip(self.names, bits)) for bits in itertools.product((0, 1), repeat=len(self.names)))
        return [s for s in every if all(s[name] in gives(s) for name, gives in self.now.items())]

    def begins(self, s):
        return all(s[name] in gives(s) for name, gives in self.first.items())

    def follows(self, s, t):
        # Where no assignment is made to a signal with a `next`, it keeps its value; where it cannot be told, it may have any.
        for name, (holds, gives) in self.later.items():
            assigned = truth(holds(s))
            if assigned is not None and t[name] not in (gives(s) if assigned else {s[name]}):
                return False
        return True

    def runs(self):
        """The states, the places among them of first ones, and the places of those that follow each."""
        states = self.states()
        first = [place for place, s in enumerate(states) if self.begins(s)]
        return states, first, [[place for place, t in enumerate(states) if self.follows(s, t)] for s in states]


def design():
    """Returns a text of three bits, the machine that it is, and the value of its claim."""
    machine, order = Machine(), random.sample(NAMES, len(NAMES))
    text = "module main() { " + " ".join(f"{name} : boolean;" for name in NAMES)
    text += "".join(machine.define(name, order[:place], NAMES) for place, name in enumerate(order))
    claim = expression(3, NAMES)
    return text + f" p : assert G ({claim}); }}", machine, value_of(claim)


def by_brute_force(machine, claim):
    """The verdict of an expression that holds at each time."""
    states, ring, follow = machine.runs()
    seen, time = set(), 0
    while ring:
        if not all(claim(states[place]) == 1 for place in ring):
            return f"false at {time}"
        seen |= set(ring)
        ring, time = {other for place in ring for other in follow[place]} - seen, time + 1
    return "true"


BITS = ["p0", "p1", "p2", "f[0]", "f[1]", "f[2]"]
NUMBERS = ["n0", "n1", "g[0]", "g[1]"]
WIDE = """scalarset P undefined;
module main() {
  p0, p1, p2 : boolean;
  g : array 0..1 of 0..3;
  f : array 0..2 of boolean;
  n0, n1 : 0..3;
  d : P;
  x : array P of boolean;
"""


def bit_value(depth, known):
    """Returns a truth value as text, of the elements that are known."""
    bits = [name for name in BITS if name in known]
    kind = random.random()
    if depth == 0 or kind < 0.15:
        return random.choice([*bits, *bits, "0", "1"])
    if kind < 0.3:
        return f"~({bit_value(depth - 1, known)})"
    if kind < 0.55:
        return f"({bit_value(depth - 1, known)} {random.choice(LOGIC)} {bit_value(depth - 1, known)})"
    if kind < 0.75:
        return f"({number_value(depth - 1, known)} {random.choice(['=', '~=', '<', '<=', '>'])} {number_value(depth - 1, known)})"
    if kind < 0.85 and all(name in known for name in BITS[3:]):
        return random.choice([f"f[{number_value(depth - 1, known)} mod 3]", "&[ f[i] : i in 0..2 ]", f"|[ f[i] & n0 = i : i in 0..2 ]" if "n0" in known else "|[ f[i] : i in 0..2 ]"])
    if kind < 0.9 and "x" in known:
        return "x[d]" if "d" in known else "0"
    return f"({bit_value(depth - 1, known)} ? {bit_value(depth - 1, known)} : {bit_value(depth - 1, known)})"


def number_value(depth, known):
    """Returns a number as text, most often below 4."""
    numbers = [name for name in NUMBERS if name in known]
    kind = random.random()
    if depth == 0 or kind < 0.2:
        return random.choice([*numbers, *numbers, str(random.randrange(4))])
    if kind < 0.5:
        return f"(({number_value(depth - 1, known)} + {number_value(depth - 1, known)}) mod 4)"
    if kind < 0.7:
        return f"(({bit_value(0, known)} ? 1 : 0) + ({bit_value(0, known)} ? 2 : 0))"
    if kind < 0.8 and all(name in known for name in NUMBERS[2:]):
        return f"g[{number_value(depth - 1, known)} mod 2]"
    return f"({bit_value(depth - 1, known)} ? {number_value(depth - 1, known)} : {number_value(depth - 1, known)})"


def wide_design():
    """Returns a text with numbers, arrays, a scalarset and two claims."""
    names = [*BITS, *NUMBERS, "d", "x"]
    order = random.sample(names, len(names))
    text = WIDE
    for place, name in enumerate(order):
        value = bit_value if name in BITS else number_value
        kind = random.random()
        if name == "x":
            text += random.choice(["", "  forall (i in P) { init(x[i]) := 0; if (d = i) next(x[i]) := ~x[i]; }\n", "  next(x[d]) := 1;\n", "  forall (i in P) x[i] := d = i;\n" if "d" in order[:place] else ""])
        elif name == "d":
            text += random.choice(["", "  next(d) := d;\n"])
        elif kind < 0.45:
            text += f"  {name} := {value(2, order[:place])};\n"
        elif kind < 0.9:
            if random.random() < 0.8:
                text += f"  init({name}) := {value(1, order[:place])};\n"
            guard = f"if ({bit_value(1, names)}) " if random.random() < 0.3 else ""
            text += f"  {guard}next({name}) := {value(2, names)};\n"
    return text + f"  p : assert G ({bit_value(3, names)});\n  q : assert G ({bit_value(3, names)});\n}}\n"


def answered(program, command, words, text):
    """What a run writes, or its first line where the text is refused."""
    run = subprocess.run([program, command, *words.split()], input=text.encode(), capture_output=True)
    if run.returncode not in (0, 1, 2, 3):
        sys.exit(f"{text}\nstatus {run.returncode} under '{words}'")
    return run.returncode, run.stdout.decode()


def verdicts(program, command, words, text):
    """The verdict of each unit that a run tells, or none where the text is refused."""
    status, told = answered(program, command, words, text)
    return None if status == 3 else dict(re.findall(r"^([\w.]+): (true|false at \d+|unknown)", told, re.MULTILINE))


def compare(text, answers):
    """Ends where two answers tell a unit two ways; unknown is none of them."""
    for (words, one), (others, other) in itertools.combinations(answers, 2):
        for unit, told in one.items():
            if "unknown" not in (told, other.get(unit, "unknown")) and told != other[unit]:
                sys.exit(f"{text}\n{unit}: {told} by '{words}'\n{unit}: {other[unit]} by '{others}'")


def main():
    words = argparse.ArgumentParser(description=__doc__.split("\n")[0])
    words.add_argument("program")
    words.add_argument("--seed", type=int, default=1)
    words.add_argument("--count", type=int, default=500)
    words.add_argument("--words", nargs="+", default=[""])
    words.add_argument("--wide", action="store_true")
    words.add_argument("--formulas", action="store_true")
    asked = words.parse_args()
    random.seed(asked.seed)
    if asked.formulas:
        import formula_designs

        return formula_designs.compared(asked.program, asked.count, asked.words)
    compared, told = 0, [0] * len(asked.words)
    for _ in range(asked.count):
        text, *tests = (wide_design(),) if asked.wide else design()
        answers = [(setting, verdicts(asked.program, "prove", setting, text)) for setting in asked.words]
        if answers[0][1] is None:
            continue
        compared += 1
        told = [count + sum(verdict != "unknown" for verdict in found.values()) for count, (_, found) in zip(told, answers)]
        compare(text, answers if asked.wide else [*answers, ("brute force", {"p": by_brute_force(*tests)})])
    counts = ", ".join(f"{count} claims decided" + (f" under '{setting}'" if setting else "") for setting, count in zip(asked.words, told))
    print(f"{compared} designs compared, {asked.count - compared} refused; {counts}")


if __name__ == "__main__":
    main()
