"""Texts that cost the gathering of a design and the rules of single assignment most: each function gives a text of the given size."""


def reset_block(families):
    """One `if` around an assignment to each of so many families."""
    names = [f"z{k}" for k in range(families)]
    lines = "".join(f"    {name} := 0;\n" for name in names)
    return f"module main() {{\n  c : boolean;\n  {', '.join(names)} : boolean;\n  if (c) {{\n{lines}  }}\n}}\n"


def reset_block_in_for(families, turns=16):
    """Each turn of a `for` assigns an element of each of so many families, under one `if`."""
    names = [f"z{k}" for k in range(families)]
    lines = "".join(f"    {name}[i] := 0;\n" for name in names)
    declared = f"  {', '.join(names)} : array 0..{turns - 1} of boolean;\n"
    return f"module main() {{\n  c : boolean;\n{declared}  for (i = 0; i <= {turns - 1}; i = i + 1) if (c) {{\n{lines}  }}\n}}\n"


def reset_block_in_switch(families, arms=16):
    """Each arm of a `switch` assigns each of so many families."""
    names = [f"z{k}" for k in range(families)]
    block = "".join(f"{name} := 0; " for name in names)
    lines = "".join(f"    {arm} : {{ {block}}}\n" for arm in range(arms))
    return f"module main() {{\n  c : 0..{arms - 1};\n  {', '.join(names)} : boolean;\n  switch (c) {{\n{lines}  }}\n}}\n"


def branches_under_forall(leaves):
    """A tree of `if`s under one `forall`, whose leaves assign `x[i][i][n]`, `x[n][i][i]` and `x[i][n][i]` in turn."""
    lefts = ("x[i][i][n]", "x[n][i][i]", "x[i][n][i]")

    def tree(first, count):
        if count == 1:
            return f"{lefts[first % 3]} := 0;"
        half = count // 2
        return f"if (c) {{ {tree(first, half)} }} else {{ {tree(first + half, count - half)} }}"

    body = tree(0, leaves)
    return f"module main() {{\n  c : boolean;\n  n : 0..3;\n  x : array 0..3 of array 0..3 of array 0..3 of boolean;\n  forall (i in 0..3) {body}\n}}\n"


# each row: what it is, its function, and three sizes
ROWS = (
    ("a reset block", reset_block, (1000, 2000, 4000)),
    ("the same in a `for` of 16 turns", reset_block_in_for, (1000, 2000, 4000)),
    ("the same in a `switch` of 16 arms", reset_block_in_switch, (250, 500, 1000)),
    ("branches under one `forall`", branches_under_forall, (4096, 8192, 16384)),
)
