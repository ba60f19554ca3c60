"""Random designs whose claims are formulas over several times, for `random_designs.py --formulas`.

A design has two bits in `main`, and a module with an input, a bit y and an array x of bits over a set type or a range, of which `main` has two instances; or it is one of three bits.
Claims stand in several modules, with none, one and two parameters. A formula has up to nine X, with conditions before each, and ends in an expression or a W.
Some names are those that monitors would have, some words stand apart by comments and ends of lines, and some designs have fault 37 or a name within a formula that is not declared.
What a formula asks of later times is carried along each run, state by state, with no monitors: the verdict and the length of a shortest path have to be those that PROGRAM writes, and the faults too.
Where one claim is used for another, or split, all have to hold by brute force where the program finds all true.
"""
import random
import re
import sys

from random_designs import NAMES, Machine, answered, expression, value_of

# It stands in a text before an X that is the ninth of its formula.
NINTH = "@"


def last_part(names):
    """Returns an expression or a W as text, and the function from a state to what it asks of the next one: functions as it is, or None where it is broken in this state."""
    if random.random() < 0.6:
        text = expression(2, names)
        value = value_of(text)
        return text, lambda s: [] if value(s) == 1 else None
    first, second = expression(2, names), expression(1, names)
    holds, ends = value_of(first), value_of(second)

    def unless(s):
        return [] if ends(s) == 1 else [unless] if holds(s) == 1 else None

    return f"W ({first}, {second})", unless


def conditional(names, text, asks):
    """The same formula under a condition, which only 0 puts out."""
    condition = expression(2, names)
    holds = value_of(condition)
    return f"if ({condition}) {text}", lambda s: [] if holds(s) == 0 else asks(s)


def formula(names):
    """Returns a formula as text, with the mark before a ninth X, and what it asks of the next state."""
    text, asks = last_part(names)
    count = random.choice([0, 0, 1, 1, 1, 2, 2, 3, 3, 4, 5, 8, 8] if random.random() < 0.98 else [9, 9, 10])
    for later in range(count, -1, -1):
        for _ in range(random.choice([0, 1, 1, 2])):
            text, asks = conditional(names, text, asks)
        if later:
            mark = NINTH if later == 9 else ""
            text, asks = f"{mark}X ({text})", lambda s, asks=asks: [asks]
    return text, asks


def along_runs(runs, asks):
    """The verdict of a formula that holds at each time: states are gone through with what was asked of them before."""
    states, first, follow = runs
    seen, ring, time = set(), {(place, frozenset()) for place in first}, 0
    while ring:
        later = set()
        for place, due in ring:
            more = [one(states[place]) for one in [*due, asks]]
            if None in more:
                return f"false at {time}"
            asked = frozenset(one for some in more for one in some)
            later |= {(other, asked) for other in follow[place]}
        seen |= ring
        ring, time = later - seen, time + 1
    return "true"


def seen_as(names, asks):
    """What a formula asks, where its names are others in the states of a machine."""
    def at(s):
        return {**s, **{name: s[other] for name, other in names.items()}}

    def translated(one):
        if one not in kept:
            kept[one] = lambda s: (lambda more: None if more is None else [translated(other) for other in more])(one(at(s)))
        return kept[one]

    kept = {}
    return translated(asks)


class Design:
    """A text, and the verdict of each of its claims by brute force: a function, since it takes time."""

    def __init__(self):
        self.text, self.claims, self.exact = "", {}, True

    def claim(self, name, names, spelled=lambda text: text):
        """Adds a claim with a formula of these names, and returns what it asks."""
        text, asks = formula(names)
        self.text += f" {name} : assert G {spelled(text)};"
        return asks

    def split_or_used(self, names, signals):
        """Adds perhaps a use of one claim for another, or a split by a signal: what is told of each is then of other cases."""
        kind = random.random()
        if kind < 0.1:
            one, other = random.sample(names, 2)
            self.text += f" using {random.choice([one, f'({one})'])} prove {other};"
        elif kind < 0.2:
            self.text += f" forall (k0 in 0..1) subcase s0[k0] of {random.choice(names)} for {random.choice(signals)} = k0;"
        self.exact = self.exact and kind >= 0.2


def three_bits():
    """A design of one module with one to three claims."""
    design, machine = Design(), Machine()
    order = random.sample(NAMES, len(NAMES))
    design.text = "module main() { " + " ".join(f"{name} : boolean;" for name in NAMES)
    design.text += "".join(machine.define(name, order[:place], NAMES) for place, name in enumerate(order))
    runs = machine.runs()
    claims = ["p", "q", "r"][: random.choice([1, 2, 3])]
    for name in claims:
        asks = design.claim(name, NAMES)
        design.claims[name] = lambda asks=asks: along_runs(runs, asks)
    if len(claims) > 1:
        design.split_or_used(claims, NAMES)
    design.text += " }"
    return design


def indexed(text, elements):
    """The text of an expression with an index at each element of an array."""
    for name, element in elements.items():
        text = re.sub(rf"\b{name}\b", element, text)
    return text


def instances():
    """A design with two instances of a module, whose claims have parameters."""
    design, cell = Design(), Machine()
    kind = random.choice(["scalarset P undefined;", "ordset P undefined;", "scalarset P 0..1;", "typedef P 0..1;"])
    # The module: y by its input, and each x by both.
    y = cell.define("y", ["e"], ["e", "y"])
    x = cell.define("x", ["e", "y"], ["e", "y", "x"])
    design.text = f"{kind} module cell(e) {{ input e : boolean; y : boolean; x : array P of boolean;{y} forall (i in P) {{{indexed(x, {'x': 'x[i]'})} }}"
    asked = {"q": design.claim("q", ["e", "y"])}
    design.text += " forall (i in P) {"
    asked["p"] = design.claim("p[i]", ["e", "y", "x"], lambda text: indexed(text, {"x": "x[i]"}))
    design.text += " forall (j in P)"
    asked["t"] = design.claim("t[i][j]", ["e", "x", "z"], lambda text: indexed(text, {"x": "x[i]", "z": "x[j]"}))
    design.text += " } }"
    main = " module main() { a, b : boolean;"
    outer = Machine()
    main += outer.define("a", [], ["a", "b"]) + outer.define("b", ["a"], ["a", "b"])
    claims, runs = Design(), {}
    for name in ["one", "two"]:
        argument = expression(1, ["a", "b"])
        main += f" {name} : cell({argument});"
        single, double = together(outer, cell, argument, ["x"]), together(outer, cell, argument, ["x", "z"])
        same = seen_as({"z": "x"}, asked["t"])
        design.claims[f"{name}.q"] = lambda runs=single: along_runs(runs, asked["q"])
        design.claims[f"{name}.p"] = lambda runs=single: along_runs(runs, asked["p"])
        design.claims[f"{name}.t"] = lambda one=single, two=double, same=same: first_false(along_runs(one, same), along_runs(two, asked["t"]))
        runs[name] = single
    r = claims.claim("r", ["a", "b", "y"], lambda text: indexed(text, {"y": "one.y"}))
    design.claims["r"] = lambda: along_runs(runs["one"], r)
    claims.split_or_used(["one.q", "two.q", "r"], ["a", "b"])
    design.exact = claims.exact
    design.text += main + claims.text + " }"
    return design


def together(outer, cell, argument, elements):
    """The runs of the bits of `main` and of an instance, with so many elements of its array."""
    machine = Machine()
    machine.names = [*outer.names]
    machine.now, machine.first, machine.later = {**outer.now}, {**outer.first}, {**outer.later}
    machine.follow("e", argument)
    for name, own in [("y", "y"), *((element, "x") for element in elements)]:
        machine.names.append(name)
        at = lambda s, name=name, own=own: {**s, own: s[name]}
        for there, here in [(cell.now, machine.now), (cell.first, machine.first)]:
            if own in there:
                here[name] = lambda s, gives=there[own], at=at: gives(at(s))
        if own in cell.later:
            holds, gives = cell.later[own]
            machine.later[name] = (lambda s, holds=holds, at=at: holds(at(s))), (lambda s, gives=gives, at=at: gives(at(s)))
    return machine.runs()


def first_false(one, other):
    """The verdict of a claim of two cases."""
    return other if one == "true" else one


def renamed(design):
    """The design where some of its names are those that monitors would have."""
    words = [word for word in ["a", "b", "c", "e", "x", "y", "p", "q", "r", "t", "i", "j", "P", "cell", "one"] if re.search(rf"\b{word}\b", design.text)]
    given = dict(zip(random.sample(words, random.choice([0, 0, 1, 2, 3])), random.sample(["m0", "m1", "m2", "m3", "m00"], 3)))
    design.text = indexed(design.text, given)
    design.claims = {indexed(name, given): verdict for name, verdict in design.claims.items()}


def spread(text):
    """The text with other blanks, ends of lines and comments between its words."""
    if random.random() < 0.5:
        return text
    blanks = [" "] * 12 + ["  ", "\t", "\n", "\r\n", " -- } ; ) m0\r\n", " -- (\n", "/* ; } */", " /* { , */ "]
    return "".join(random.choice(blanks) if letter == " " else letter for letter in text)


def place_of(text, at):
    """The line and the column of an offset."""
    return f"line {text.count(chr(10), 0, at) + 1} column {at - text.rfind(chr(10), 0, at)}"


def with_faults(text):
    """The text without marks, and the first line of the answer where it has a fault; some texts get one."""
    if NINTH in text:
        at = text.index(NINTH)
        plain = text.replace(NINTH, "")
        return plain, f"fault 37 at {place_of(plain, at)}\n"
    claims = [] if re.search(r"--|/\*", text) else list(re.finditer(r"\b(\w+)(?:\[\w+\])*[^\w\[]*:[^\w=]*assert\s+G\s+(?:if|X|W)\b", text))
    if claims and random.random() < 0.2:
        claim = random.choice(claims)
        inside = re.compile(r"\b[01]\b").search(text, claim.end(), text.index(";", claim.end()))
        if inside:
            return text[: inside.start()] + "nil" + text[inside.end() :], f"fault 7 at {place_of(text, claim.start())}\n"
    return text, None


def compared(program, count, settings):
    """Compares so many designs, and ends with their number, or where an answer differs."""
    exact, sound, refused, told = 0, 0, 0, 0
    for _ in range(count):
        design = random.choice([three_bits, instances])()
        renamed(design)
        text, fault = with_faults(spread(design.text))
        for words in settings:
            status, answer = answered(program, "ltl", words, text)
            found = dict(re.findall(r"^([\w.]+): (true|false at \d+|unknown)", answer, re.MULTILINE))
            if fault or status == 3:
                refused += 1
                if answer != fault:
                    sys.exit(f"{text}\n{answer}by '{words}', and not\n{fault}")
                continue
            if not design.exact and status != 0:
                continue
            wanted = {name: verdict() for name, verdict in design.claims.items()}
            if design.exact and {name for name in found} != set(wanted):
                sys.exit(f"{text}\nunits {sorted(found)} for {sorted(wanted)}")
            for name, verdict in wanted.items():
                if found.get(name, "unknown") not in (verdict, "unknown") or not design.exact and verdict != "true":
                    sys.exit(f"{text}\n{name}: {found.get(name)} by '{words}'\n{name}: {verdict} by brute force")
            told += sum(verdict != "unknown" for verdict in found.values())
            exact, sound = exact + design.exact, sound + (not design.exact)
    print(f"{exact} texts compared with {told} claims, {sound} with splits or uses where all is true, {refused} with a fault")
