"""Texts that are dear to the look at loops: python3 texts_loops.py NAME SIZE prints one."""
import sys


def many_reads(reads, turns=256):
    """One assignment in a `for` that reads `x[n]` so many times."""
    terms = " & ".join(["x[n]"] * reads)
    return (
        "module main () {\n  x : array 0..255 of boolean;\n  y : array 0..255 of boolean;\n  n : 0..255;\n"
        f"  for (i = 0; i < {turns}; i = i + 1) {{ y[i] := {terms}; }}\n}}\n"
    )


def wide_condition(assignments, reads=50):
    """A condition that reads `a[n]` so many times around so many assignments."""
    cond = " & ".join(["a[n]"] * reads)
    names = "".join(f"  z{k} : boolean;\n" for k in range(assignments))
    body = " ".join(f"z{k} := 0;" for k in range(assignments))
    return (
        "module main () {\n  a : array 0..255 of boolean;\n  n : 0..255;\n"
        f"{names}  if ({cond}) {{ {body} }}\n}}\n"
    )


def rows_of_a_table(assignments):
    """Assignments that each read all of a table of 65,536 cells, and a row of it."""
    names = "".join(f"  z{k} : boolean;\n" for k in range(assignments))
    body = "".join(f"  z{k} := t[n][n] & t[{k % 256}][n] & t[n][{k % 256}];\n" for k in range(assignments))
    return f"module main () {{\n  t : array 0..255 of array 0..255 of boolean;\n  n : 0..255;\n{names}{body}}}\n"


def nested_conditions(depth, assignments):
    """Conditions inside one another, with assignments in the innermost."""
    names = "".join(f"  z{k} : boolean;\n" for k in range(assignments))
    body = " ".join(f"z{k} := 0;" for k in range(assignments))
    return (
        "module main () {\n  a : array 0..255 of boolean;\n  n : 0..255;\n"
        f"{names}  {'if (a[n]) { ' * depth}{body}{' }' * depth}\n}}\n"
    )


TEXTS = {
    "many_reads": many_reads,
    "wide_condition": wide_condition,
    "rows_of_a_table": rows_of_a_table,
    "nested_conditions": nested_conditions,
}

if __name__ == "__main__":
    sys.stdout.write(TEXTS[sys.argv[1]](*map(int, sys.argv[2:])))
