"""Texts of the language, each by a size, for tools/measure.py.

ROWS lists them: what a text is, the function that writes it, and its sizes, each twice the one before.
Where texts_design.py, texts_loops.py and texts_uses.py are beside this file, their rows come too.
"""

import importlib.util
import pathlib

TOMASULO = pathlib.Path(__file__).resolve().parent.parent / "examples" / "tomasulo.smv"


def main_module(lines):
    """A text with one module."""
    return "module main() {\n" + "\n".join(lines) + "\n}\n"


# ---- ordinary texts


def registers(n):
    """n registers, each set from the one before."""
    lines = [f"r{k} : boolean;" for k in range(n)]
    lines += [f"init(r{k}) := 0; next(r{k}) := ~r{(k - 1) % n};" for k in range(n)]
    return main_module(lines)


def memories(n):
    """n memories of 256 bits, each assigned in a forall from the one before."""
    lines = [f"m{k} : array 0..255 of boolean;" for k in range(n)]
    lines += [f"forall (i in 0..255) next(m{k}[i]) := m{k - 1}[i];" for k in range(1, n)]
    return main_module(lines)


def tomasulo(n):
    """n instances of the Tomasulo machine, each of a module of its own."""
    head, body = TOMASULO.read_text().split("module main() {", 1)
    modules = [f"module m{k}() {{{body}" for k in range(n)]
    return head + "\n".join(modules) + main_module(f"n{k} : m{k}();" for k in range(n))


def elements(n):
    """n assignments one by one to all elements of families of 256."""
    lines = [f"x{f} : array 0..255 of boolean;" for f in range((n + 255) // 256)]
    lines += [f"next(x{k // 256}[{k % 256}]) := 0;" for k in range(n)]
    return main_module(lines)


# ---- long and deep texts


def conjunction(n):
    """One claim, a conjunction of n."""
    return main_module(["x : boolean;", "p : assert G " + "&".join(["x"] * n) + ";"])


def blocks(n):
    """n times 60 blocks, each inside the one before."""
    return main_module(["{" * 60 + "}" * 60] * n)


# ---- claims about a long enumeration


def enumerated(n):
    """n claims `z = c`, where z has 4,000 constants."""
    constants = ", ".join(f"c{k}" for k in range(4000))
    return main_module([f"z : {{{constants}}};"] + [f"p{k}:assert G z=c0;" for k in range(n)])


# ---- copies


def deep_claims(n):
    """n claims in the innermost of n / 10 instances, each inside the one before, with names of 40 bytes."""
    depth = n // 10
    inner = "module m0() {\n" + "\n".join(f"p{k}:assert G 1;" for k in range(n)) + "\n}\n"
    around = "".join(f"module m{k}() {{ {'n' * 40} : m{k - 1}(); }}\n" for k in range(1, depth))
    return inner + around + main_module([f"{'n' * 40} : m{depth - 1}();"])


def unrolled_sum(n):
    """A `for` of 256 turns around a sum of n."""
    return main_module(["x : array 0..255 of 0..255;", "for (i = 0; i < 256; i = i + 1) next(x[i]) := " + "+".join(["1"] * n) + ";"])


def long_claims(n):
    """2,000 instances of one claim, a conjunction of n."""
    module = "module m() {\n x : boolean;\n p : assert G " + "&".join(["x"] * n) + ";\n}\n"
    return module + main_module(f"n{k} : m();" for k in range(2000))


# ---- types and switches


def flat_types(n):
    """n `typedef`s of ranges."""
    return "".join(f"typedef t{k} 0..1;\n" for k in range(n)) + main_module(["x : t0;"])


def flat_arrays(n):
    """n `typedef`s of arrays."""
    return "".join(f"typedef t{k} array 0..1 of boolean;\n" for k in range(n)) + main_module(["x : t0;"])


def chain_of_types(n):
    """n `typedef`s, each of the one before."""
    return "typedef t0 0..1;\n" + "".join(f"typedef t{k} t{k - 1};\n" for k in range(1, n)) + main_module([f"x : t{n - 1};"])


def chain_of_structs(n):
    """n structs, each in the one before, and a claim that reads the innermost."""
    structs = "typedef t0 0..1;\n" + "".join(f"typedef t{k} struct {{ f : t{k - 1}; }};\n" for k in range(1, n))
    return structs + main_module([f"x : t{n - 1};", "p : assert G x" + ".f" * (n - 1) + " = 0;"])


def arms(n):
    """A `switch` of n arms."""
    return main_module(["s : 0..255;", "x : boolean;", "switch (s) {"] + [f"{k % 256} : next(x) := {k % 2};" for k in range(n)] + ["}"])


ROWS = [
    ("registers, each set from the one before", registers, (1000, 2000, 4000)),
    ("memories of 256 bits, each assigned in a `forall` from the one before", memories, (1000, 2000, 4000)),
    ("instances of the Tomasulo machine", tomasulo, (40, 80, 160)),
    ("assignments one by one to all elements of families of 256", elements, (12000, 24000, 48000)),
    ("`x & x & ..`", conjunction, (125000, 250000, 500000)),
    ("60 nested blocks, many times", blocks, (2000, 4000, 8000)),
    ("claims `z = c`, where `z` has 4,000 constants", enumerated, (10000, 20000, 40000)),
    ("claims in the innermost of a tenth as many instances", deep_claims, (5000, 10000, 20000)),
    ("`for` of 256 turns around a sum", unrolled_sum, (12500, 25000, 50000, 100000)),
    ("2,000 instances of a claim, a conjunction", long_claims, (1000, 2000, 4000, 8000, 16000)),
    ("flat `typedef`s", flat_types, (10001, 20002, 40004)),
    ("flat `typedef`s of arrays", flat_arrays, (5001, 10002, 20004)),
    ("`typedef`s, each of the one before", chain_of_types, (2500, 5000, 10000)),
    ("structs, each in the one before", chain_of_structs, (1250, 2500, 5000)),
    ("arms of a `switch`", arms, (250, 500, 1000)),
]


# Names and sizes for the texts of texts_loops.py, where it has no ROWS of its own.
LOOPS = [
    ("one assignment that reads `x[n]` often, in a `for` of 256 turns", "many_reads", (250, 500, 1000)),
    ("`if` on 50 reads `a[n]` around assignments", "wide_condition", (1000, 2000, 4000)),
]


def more_rows(name, known):
    """The rows of a module beside this one, if it is there: its own, or those that are known by the names of their functions."""
    path = pathlib.Path(__file__).resolve().parent / f"{name}.py"
    if not path.exists():
        return []
    spec = importlib.util.spec_from_file_location(name, path)
    module = importlib.util.module_from_spec(spec)
    spec.loader.exec_module(module)
    if hasattr(module, "ROWS"):
        return list(module.ROWS)
    return [(says, getattr(module, text_of), sizes) for says, text_of, sizes in known if hasattr(module, text_of)]


ROWS += more_rows("texts_design", []) + more_rows("texts_loops", LOOPS) + more_rows("texts_uses", [])
