#!/usr/bin/env python3
"""Random designs over set types, decided at given sizes by `confirm` and by brute force; the proof documents of those that are proved are checked and resumed.

    tools/random_sizes.py PROGRAM [--seed N] [--count N] [--texts FOLDER]

A design has one or two undeclared set types (scalarsets, ordsets), signals and arrays over them, over numbers and booleans, assignments of each kind (under `if`, under `forall`, to an element that a signal
names, with sets and comprehensions), maybe a layer with an abstract signal and a map, claims with parameters, splits and uses. All its states at the given sizes are gone through from the definitions of the
language alone. What is looked at:

- `confirm`, over bits of either kind: the status, the case and the time of each unit at each of some sizes; the path has to be the part of a run, which breaks that instance at its last time; another number of sizes is fault 34;
- `prove`: a design of which all is true holds at these sizes;
- `proof`: the answer of `prove` where not all is true; otherwise a document that `check` takes, with a set for each case, and that `resume --steps 1` gives again, also behind a comment;
- documents with something changed: `check` takes none whose design is broken at some of the sizes, and `resume` answers as `prove` does.

Designs that the program refuses are left out, and so are sizes with too many states. It ends with status 1 where an answer differs.
"""
import argparse
import itertools
import random
import re
import subprocess
import sys
from pathlib import Path

MOST_STATES = 300
COMPARISONS = {
    "=": lambda x, y: int(x == y),
    "~=": lambda x, y: int(x != y),
    "<": lambda x, y: int(x < y),
    "<=": lambda x, y: int(x <= y),
    ">": lambda x, y: int(x > y),
    ">=": lambda x, y: int(x >= y),
}
EVERY = None
NUMBERS = 3


def both(x, y):
    return 0 if 0 in (x, y) else 1 if (x, y) == (1, 1) else None


def either(x, y):
    return 1 if 1 in (x, y) else 0 if (x, y) == (0, 0) else None


def denied(x):
    return None if x is None else 1 - x


def alike(x, y):
    return None if x is None or y is None else int(x == y)


SIGNS = {"&": both, "|": either, "->": lambda x, y: either(denied(x), y), "<->": alike}


class Design:
    """A design: its text, the families with their definitions, and the units, each as functions of states."""

    def __init__(self):
        self.types = {"P": random.choice(["scalarset", "ordset"])}
        if random.random() < 0.4:
            self.types["Q"] = random.choice(["scalarset", "ordset"])
        self.families, self.lines, self.order, self.units = {}, [], [], []
        self.layer, self.variables = [], 0
        self.declare()
        self.define()
        self.specify()
        self.claim()

    # ---- what is there

    def declare(self):
        kinds = ["boolean"] * 3 + ["number"] + list(self.types) * 2
        for name in "abcde"[: random.randint(2, 4)]:
            over = random.choice([None, None, *self.types, "P"])
            self.families[name] = over, random.choice(kinds), random.random() < 0.12
        self.families["z"] = None, "P", False

    def values(self, kind, sizes):
        return range(sizes[kind] if kind in self.types else NUMBERS if kind == "number" else 2)

    def elements(self, family, sizes):
        over = self.families[family][0]
        return [(family,)] if over is None else [(family, i) for i in self.values(over, sizes)]

    def fresh(self):
        self.variables += 1
        return f"i{self.variables}"

    # ---- expressions: each a text and a function of sizes, values of variables and a state

    def read(self, kind, depth, bound, names):
        """Returns a reference to a family with such values, or None."""
        there = [name for name in names if self.families[name][1] == kind]
        random.shuffle(there)
        for name in there:
            over = self.families[name][0]
            if over is None:
                return name, lambda sizes, env, s: s[(name,)]
            index = self.term(over, depth - 1, bound, names) if depth > -2 else None
            if index:
                text, at = index
                return f"{name}[{text}]", lambda sizes, env, s: s[(name, at(sizes, env, s))]
        return None

    def term(self, kind, depth, bound, names):
        """Returns a number or a value of a set type, or None where none can be named."""
        choices = [(name, lambda sizes, env, s, name=name: env[name]) for name, over in bound if over == kind]
        if kind == "number":
            number = random.randrange(NUMBERS)
            choices.append((str(number), lambda sizes, env, s: number))
            if depth > 0 and random.random() < 0.3:
                text, value = self.term(kind, depth - 1, bound, names)
                sign = random.choice("+-")

                def moved(sizes, env, s):
                    x = value(sizes, env, s)
                    y = None if x is None else x + 1 if sign == "+" else x - 1
                    return None if y is None or y < 0 else y

                return f"({text}) {sign} 1", moved
        read = self.read(kind, depth, bound, names)
        if read:
            choices.append(read)
        return random.choice(choices) if choices else None

    def truth(self, depth, bound, names):
        kind = random.random()
        if depth == 0 or kind < 0.15:
            return self.read("boolean", depth, bound, names) or (lambda n: (str(n), lambda sizes, env, s: n))(random.randrange(2))
        if kind < 0.25:
            text, value = self.truth(depth - 1, bound, names)
            return f"~({text})", lambda sizes, env, s: denied(value(sizes, env, s))
        if kind < 0.5:
            (left, x), (right, y) = self.truth(depth - 1, bound, names), self.truth(depth - 1, bound, names)
            sign = random.choice(list(SIGNS))
            return f"(({left}) {sign} ({right}))", lambda sizes, env, s: SIGNS[sign](x(sizes, env, s), y(sizes, env, s))
        if kind < 0.8:
            return self.comparison(depth, bound, names)
        if kind < 0.87:
            (test, c), (left, x), (right, y) = (self.truth(depth - 1, bound, names) for _ in range(3))

            def chosen(sizes, env, s):
                holds = c(sizes, env, s)
                return None if holds is None else x(sizes, env, s) if holds else y(sizes, env, s)

            return f"(({test}) ? ({left}) : ({right}))", chosen
        return self.quantifier(depth, bound, names)

    def comparison(self, depth, bound, names):
        kind = random.choice(["number", *self.types, *self.types])
        left, right = self.term(kind, depth - 1, bound, names), self.term(kind, depth - 1, bound, names)
        if not left or not right:
            return self.truth(0, bound, names)
        signs = list(COMPARISONS) if self.types.get(kind) != "scalarset" else ["=", "~="]
        sign = random.choice(signs)

        def compared(sizes, env, s):
            x, y = left[1](sizes, env, s), right[1](sizes, env, s)
            return None if x is None or y is None else COMPARISONS[sign](x, y)

        return f"({left[0]} {sign} {right[0]})", compared

    def quantifier(self, depth, bound, names):
        name, over, sign = self.fresh(), random.choice(list(self.types)), random.choice("&|")
        text, value = self.truth(depth - 1, [*bound, (name, over)], names)

        def joined(sizes, env, s):
            found = 1 if sign == "&" else 0
            for v in self.values(over, sizes):
                found = (both if sign == "&" else either)(found, value(sizes, {**env, name: v}, s))
            return found

        return f"{sign}[ {text} : {name} in {over} ]", joined

    # ---- right sides: each a text and a function to the allowed values, or to EVERY

    def right_side(self, kind, bound, names):
        chance = random.random()
        if chance < 0.15:
            test, c = self.truth(1, bound, names)
            (left, x), (right, y) = self.right_side(kind, bound, names), self.right_side(kind, bound, names)

            def chosen(sizes, env, s):
                holds = c(sizes, env, s)
                return EVERY if holds is None else x(sizes, env, s) if holds else y(sizes, env, s)

            return f"({test}) ? ({left}) : ({right})", chosen
        if kind == "boolean":
            if chance < 0.35:
                return "{0, 1}", lambda sizes, env, s: {0, 1}
            text, value = self.truth(2, bound, names)
            return text, lambda sizes, env, s: EVERY if value(sizes, env, s) is None else {value(sizes, env, s)}
        if kind != "number" and chance < 0.35:
            name = self.fresh()
            test, c = self.truth(1, [*bound, (name, kind)], names)

            def those(sizes, env, s):
                return {v for v in self.values(kind, sizes) if c(sizes, {**env, name: v}, s) == 1} or EVERY

            return f"{{{name} : {name} in {kind}, {test}}}", those
        terms = [t for t in (self.term(kind, 1, bound, names) for _ in range(random.choice([1, 1, 2]))) if t]
        if not terms:
            name = self.fresh()
            return f"{{{name} : {name} in {kind}}}", lambda sizes, env, s: EVERY

        def listed(sizes, env, s):
            found = {value(sizes, env, s) for _, value in terms}
            return EVERY if None in found or any(v not in self.values(kind, sizes) for v in found) else found

        texts = [text for text, _ in terms]
        return (texts[0] if len(texts) == 1 else "{" + ", ".join(texts) + "}"), listed

    # ---- statements: a text, and the result for an element: None where it gives nothing, and otherwise allowed values

    def assignment(self, family, word, names, conditional):
        """Returns the text of an assignment to a family, and a function of sizes, an element and a state to its result."""
        over, kind, _ = self.families[family]
        addressed = over is not None and word == "next" and random.random() < 0.35
        variable = None if over is None or addressed else self.fresh()
        bound = [(variable, over)] if variable else []
        test, c = self.truth(2, bound, names) if conditional else ("1", lambda sizes, env, s: 1)
        side, gives = self.right_side(kind, bound, names)
        index = self.term(over, 1, bound, names) if addressed else None
        if addressed and not index:
            return self.assignment(family, word, names, conditional)
        place = family if over is None else f"{family}[{index[0] if index else variable}]"
        left = place if word == "" else f"{word}({place})"
        text = f"{left} := {side};"
        if conditional:
            text = f"if ({test}) {text}"
        if variable:
            text = f"forall ({variable} in {over}) {text}"

        def result(sizes, element, s):
            env = {variable: element[1]} if variable else {}
            holds = c(sizes, env, s)
            if holds == 0 or (index and index[1](sizes, env, s) != element[1]):
                return "nothing"
            return EVERY if holds is None else gives(sizes, env, s)

        return text, result

    def definition(self, family, names, every, least=0.0):
        """Returns the lines of a definition, and its parts: those of now, of the beginning and of each step."""
        kind = random.random()
        if kind < least:
            kind = least
        if kind < 0.12:
            return [], {}
        if kind < 0.4:
            text, now = self.assignment(family, "", names, random.random() < 0.25)
            return [text], {"now": now}
        lines, parts = [], {}
        if random.random() < 0.85:
            text, parts["init"] = self.assignment(family, "init", names, random.random() < 0.15)
            lines.append(text)
        if random.random() < 0.92 or not parts:
            text, parts["next"] = self.assignment(family, "next", every, random.random() < 0.5)
            lines.append(text)
        return lines, parts

    def define(self):
        """Gives each family its base definition. What is read at the same time is a family before it."""
        self.bases = {}
        concrete = [name for name, (_, _, abstract) in self.families.items() if not abstract]
        abstracts = [name for name, (_, _, abstract) in self.families.items() if abstract]
        random.shuffle(concrete)
        for place, name in enumerate(concrete):
            lines, self.bases[name] = self.definition(name, concrete[:place], concrete)
            self.lines += lines
        for place, name in enumerate(abstracts):
            lines, self.bases[name] = self.definition(name, concrete + abstracts[:place], concrete + abstracts, 0.13)
            self.layer += lines
        self.order = concrete + abstracts

    def specify(self):
        """Maybe adds a map of a family that is not abstract."""
        if random.random() < 0.4:
            name = random.choice([name for name in self.order if not self.families[name][2]])
            lines, parts = self.definition(name, [n for n in self.order if n != name], self.order, 0.13)
            self.layer += lines
            over = self.families[name][0]

            def broken(sizes, instance, before, s):
                element = (name, *instance)
                return s[element] not in self.allowed(parts, sizes, element, before, s)

            self.units.append((f"{name}//spec", [over] if over else [], broken))

    def claim(self):
        for number in range(random.choice([1, 1, 2])):
            parameters = [(self.fresh(), random.choice(list(self.types))) for _ in range(random.choice([0, 0, 1, 1, 2]))]
            text, value = self.truth(3, parameters, self.order)
            binders = "".join(f"forall ({name} in {over}) " for name, over in parameters)
            brackets = "".join(f"[{name}]" for name, _ in parameters)
            unit = f"p{number}"
            self.lines.append(f"{binders}{unit}{brackets} : assert G ({text});")

            def broken(sizes, instance, before, s, value=value, parameters=parameters):
                return value(sizes, dict(zip([name for name, _ in parameters], instance)), s) != 1

            self.units.append((unit, [over for _, over in parameters], broken))
            if random.random() < 0.25:
                self.lines.append(f"{binders}forall (w in P) subcase s{number}[w] of {unit}{brackets} for z = w;")
        claims = [unit for unit, _, _ in self.units if unit.startswith("p")]
        if len(self.units) > 1 and random.random() < 0.4:
            one, other = random.sample([unit for unit, _, _ in self.units], 2)
            split = one.replace("p", "s") if any(f"subcase {one.replace('p', 's')}[" in line for line in self.lines) else one
            self.lines.append(f"using {other} prove {split};")
        self.claims = claims

    def text(self):
        lines = [f"{word} {name} undefined;" for name, word in self.types.items()] + ["module main() {"]
        for name, (over, kind, abstract) in self.families.items():
            value = f"0..{NUMBERS - 1}" if kind == "number" else kind
            lines.append(f"{'abstract ' * abstract}{name} : {f'array {over} of ' if over else ''}{value};")
        lines += self.lines
        if self.layer:
            lines.append("layer spec : { " + " ".join(self.layer) + " }")
        return " ".join([*lines, "}"])

    # ---- runs

    def allowed(self, parts, sizes, element, before, s):
        """Returns the values that a definition allows an element, by the state before, if there is one, and the part of the state that is there already."""
        kind = self.families[element[0]][1]
        every = set(self.values(kind, sizes))
        if "now" in parts:
            given = parts["now"](sizes, element, s)
        elif before is None:
            given = parts["init"](sizes, element, s) if "init" in parts else "nothing"
        elif "next" in parts:
            given = parts["next"](sizes, element, before)
            if given == "nothing":
                return {before[element]}
        else:
            given = "nothing"
        return every if given in ("nothing", EVERY) else given

    def states(self, sizes, before=None):
        """Yields each first state, or each state behind another one."""
        places = [element for name in self.order for element in self.elements(name, sizes)]

        def go_on(at, s):
            if at == len(places):
                yield dict(s)
                return
            element = places[at]
            for value in sorted(self.allowed(self.bases[element[0]], sizes, element, before, s)):
                s[element] = value
                yield from go_on(at + 1, s)
            s.pop(element, None)

        yield from go_on(0, {})

    def count(self, sizes):
        number = 1
        for name in self.order:
            number *= len(self.values(self.families[name][1], sizes)) ** len(self.elements(name, sizes))
        return number

    def instances(self, over, sizes):
        return list(itertools.product(*(self.values(kind, sizes) for kind in over)))

    def broken_at(self, sizes):
        """Returns for each unit the first of its instances that is broken, with the least time, or None; by all runs of these sizes."""
        least = {unit: {} for unit, _, _ in self.units}

        def look(before, s, time):
            for unit, over, broken in self.units:
                for instance in self.instances(over, sizes):
                    if instance not in least[unit] and broken(sizes, instance, before, s):
                        least[unit][instance] = time

        seen, ring, time = set(), [], 0
        for s in self.states(sizes):
            look(None, s, 0)
            key = tuple(sorted(s.items()))
            if key not in seen:
                seen.add(key)
                ring.append(s)
        while ring:
            time, behind = time + 1, []
            for before in ring:
                for s in self.states(sizes, before):
                    look(before, s, time)
                    key = tuple(sorted(s.items()))
                    if key not in seen:
                        seen.add(key)
                        behind.append(s)
            ring = behind
        return {unit: min(found.items(), default=None) for unit, found in least.items()}

    def follows(self, sizes, path, unit, instance):
        """Whether a path is the part of a run that breaks the instance at its last time."""
        broken = next(test for name, _, test in self.units if name == unit)

        def fits(s, part):
            return all(s.get(element) == value for element, value in part.items())

        ring = [(None, s) for s in self.states(sizes) if fits(s, path[0])]
        for part in path[1:]:
            before = {tuple(sorted(s.items())): s for _, s in ring}.values()
            ring = [(b, s) for b in before for s in self.states(sizes, b) if fits(s, part)]
        return any(broken(sizes, instance, before, s) for before, s in ring)


class Different(Exception):
    pass


class Program:
    def __init__(self, program):
        self.program, self.seconds = program, 0.0

    def __call__(self, text, *words):
        run = subprocess.run([self.program, *words], input=text.encode() if isinstance(text, str) else text, capture_output=True)
        return run.returncode, run.stdout.decode()


def expect(holds, *told):
    if not holds:
        raise Different("\n".join(map(str, told)))


def number(text):
    return int(text.lstrip("#"))


def path_of(lines):
    """Returns the states of the time lines of an answer."""
    states = []
    for line in lines:
        part = {}
        for name, index, value in re.findall(r"(\w+)(?:\[(#?\d+)\])? = (#?\d+)", line.split(":", 1)[1]):
            part[(name, number(index)) if index else (name,)] = number(value)
        states.append(part)
    return states


def confirmed(program, design, text, sizes, found, counts):
    """Compares `confirm` with what was found for each unit at these sizes."""
    given = [str(sizes[name]) for name in design.types]
    for unit, over, _ in design.units:
        words = [unit, *given, "--bits", random.choice(("near", "declared"))]
        status, answer = program(text, "confirm", *words)
        told = text, f"confirm {' '.join(words)}", f"found {found[unit]}", f"status {status}", answer
        if found[unit] is None:
            expect((status, answer) == (10, f"{unit}: holds\n"), *told)
            counts["holds"] += 1
            continue
        instance, time = found[unit]
        lines = answer.splitlines()
        expect(status == 11 and lines[0] == f"{unit}: real at {time}", *told)
        if over:
            expect(lines[1] == " case " + ", ".join(f"#{v}" for v in instance), *told)
        path = path_of(lines[2 if over else 1:])
        expect(len(path) == time + 1 and design.follows(sizes, path, unit, instance), *told)
        counts["real"] += 1
    status, answer = program(text, "confirm", design.units[0][0], *given, "1")
    expect((status, answer) == (3, "fault 34 at line 1 column 1\n"), text, "one size too many", status, answer)


def changed(lines):
    """Returns the lines of sets with something changed: roots, branches, numbers, whole sets."""
    lines = list(lines)
    if not lines:
        return lines
    kind, at = random.random(), random.randrange(len(lines))
    parts = lines[at].split(" ")
    if kind < 0.2:
        other = random.randrange(len(lines))
        lines[at], lines[other] = lines[other], lines[at]
    elif kind < 0.3:
        del lines[at]
    elif parts[0] == "set":
        parts[random.choice([2, 3, 4])] = str(random.randrange(4))
        lines[at] = " ".join(parts)
    elif kind < 0.6:
        lines[at] = " ".join([parts[0], parts[2], parts[1]])
    else:
        parts[random.randrange(3)] = str(random.choice([0, 1, 2, 3, 4, 6, 2046]))
        lines[at] = " ".join(parts)
    return lines


def documented(program, design, text, broken, counts):
    """Looks at the document of a text, at what is made of it, and at those that somebody changed."""
    proved = program(text, "prove")
    expect(proved[0] != 0 or not broken, text, "proved, and broken at some sizes", proved[1])
    status, document = program(text, "proof")
    head = f"smv proof 1\ndesign {len(text)}\n{text}\n"
    if proved[0] != 0:
        expect((status, document) == proved, text, "proof", status, document)
        # No document shows a false design: neither one with every state nor one with none.
        lines = [f"set {unit} {case} {root} 0" for unit, _, _ in design.units for case in range(1) for root in [random.randrange(2)]]
        document = head + "".join(line + "\n" for line in lines)
    else:
        expect(status == 0 and document.startswith(head), text, "proof", status, document)
        lines = document[len(head):].splitlines()
        sets = sum(line.startswith("set ") for line in lines)
        expect(program(document, "check") == (0, f"checked {sets}\n"), text, "check", document)
        for new, comment in [(text, ""), (text + " -- more", " -- more")]:
            given = f"old {len(document)}\n{document}\n{new}"
            due = f"smv proof 1\ndesign {len(new)}\n{new}\n" + document[len(head):]
            expect(program(given, "resume", "--steps", "1") == (0, due), text, "resume", comment)
        counts["documents"] += 1
    for _ in range(3):
        lines = changed(lines)
        other = head + "".join(line + "\n" for line in lines)
        status, answer = program(other, "check")
        expect(status in (0, 9), text, other, status, answer)
        expect(status == 9 or not broken, text, "checked, and broken at some sizes", other)
        expect(status == 9 or proved[0] != 1, text, "checked, and false", other)
        counts["taken" if status == 0 else "rejected"] += 1
        status, answer = program(f"old {len(other)}\n{other}\n{text}", "resume")
        if answer != "rejected form\n":
            expect((status == 0 and answer.startswith(head)) if proved[0] == 0 else status == 0 or (status, answer) == proved, text, "resume", other, status, answer)
            expect(status != 0 or (not broken and program(answer, "check")[0] == 0), text, "resumed", other, answer)
            counts["resumed"] += 1


def main():
    words = argparse.ArgumentParser(description=__doc__.split("\n")[0])
    words.add_argument("program")
    words.add_argument("--seed", type=int, default=1)
    words.add_argument("--count", type=int, default=200)
    words.add_argument("--texts")
    asked = words.parse_args()
    program = Program(asked.program)
    counts = dict.fromkeys(["designs", "refused", "sizes", "holds", "real", "documents", "taken", "rejected", "resumed"], 0)
    for turn in range(asked.count):
        random.seed(f"{asked.seed} {turn}")
        design = Design()
        text = design.text()
        if asked.texts:
            Path(asked.texts, f"{asked.seed}_{turn}.smv").write_text(text)
        if program(text, "prove")[0] == 3:
            counts["refused"] += 1
            continue
        counts["designs"] += 1
        broken = False
        try:
            for given in random.sample(list(itertools.product((1, 2, 3), repeat=len(design.types))), 3):
                sizes = dict(zip(design.types, given))
                if design.count(sizes) > MOST_STATES:
                    continue
                found = design.broken_at(sizes)
                broken = broken or any(found.values())
                confirmed(program, design, text, sizes, found, counts)
                counts["sizes"] += 1
            documented(program, design, text, broken, counts)
        except Different as told:
            sys.exit(f"seed {asked.seed}, design {turn}:\n{told}")
    print(", ".join(f"{count} {what}" for what, count in counts.items()))


if __name__ == "__main__":
    main()
