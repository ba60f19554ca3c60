"""Texts of splits, uses and claims, each by a size, for tools/measure.py and by themselves: the rules of proof.

    python3 tools/texts_uses.py NAME SIZE
"""

import sys

FAMILIES = 4000


def main_module(lines, head=""):
    """A text with one module."""
    return f"{head}module main() {{\n" + "\n".join(lines) + "\n}\n"


def claims(n):
    return [f"p{k}:assert G x;" for k in range(n)]


# ---- splits


def claims_alone(n):
    """n claims."""
    return main_module(["x : boolean;"] + claims(n))


def split_claims(n):
    """n claims, each split once."""
    return main_module(["x : boolean;"] + claims(n) + [f"forall (i in 0..1) subcase s{k}[i] of p{k} for x = i;" for k in range(n)])


def split_chain(n):
    """n splits, each of the one before, with no new parameter and no equation that fits (fault 24)."""
    return main_module(["x : boolean;"] + claims(1) + [f"forall (i in 0..1) subcase s{k}[i] of {'p0' if k == 0 else f's{k - 1}'} for x = i;" for k in range(n)])


def split_maps(n):
    """n maps of arrays over a set type, each split once by its own index."""
    lines = [f"x{k} : array T of boolean;" for k in range(n)] + ["y : T;"]
    lines += ["layer L : {"] + [f"forall (i in T) x{k}[i] := 0;" for k in range(n)] + ["}"]
    lines += [f"forall (i in T) forall (j in T) subcase s{k}[j] of x{k}[i]//L for y = j;" for k in range(n)]
    return main_module(lines, "scalarset T undefined;\n")


# ---- uses of claims


def earlier_claims(n):
    """n claims, each proved with the one before it."""
    return main_module(["x : boolean;"] + claims(n) + [f"using p{k - 1} prove p{k};" for k in range(1, n)])


def later_claims(n):
    """n claims, each proved with the one behind it."""
    return main_module(["x : boolean;"] + claims(n) + [f"using p{k + 1} prove p{k};" for k in range(n - 1)])


def ring_of_claims(n):
    """n claims, each proved with the one behind it, and the last with the first."""
    return main_module(["x : boolean;"] + claims(n) + [f"using p{(k + 1) % n} prove p{k};" for k in range(n)])


def clique(n):
    """One `using` of n claims that proves all of them."""
    all_of_them = ", ".join(f"p{k}" for k in range(n))
    return main_module(["x : boolean;"] + claims(n) + [f"using {all_of_them} prove {all_of_them};"])


def all_for_one(n):
    """One `using` of n claims that proves the first."""
    return main_module(["x : boolean;"] + claims(n) + ["using " + ", ".join(f"p{k}" for k in range(1, n)) + " prove p0;"])


def one_for_all(n):
    """One `using` of the last of n claims that proves all others."""
    return main_module(["x : boolean;"] + claims(n) + [f"using p{n - 1} prove " + ", ".join(f"p{k}" for k in range(n - 1)) + ";"])


def twenty_each(n):
    """n claims, each proved with the twenty behind it."""
    lines = [f"using {', '.join(f'p{(k + d) % n}' for d in range(1, 21))} prove p{k};" for k in range(n)]
    return main_module(["x : boolean;"] + claims(n) + lines)


# ---- uses of maps


def maps(n):
    return [f"x{k} : boolean;" for k in range(n)] + ["layer L : {"] + [f"x{k} := x{k - 1};" for k in range(1, n)] + ["}"]


def maps_in_turn(n):
    """n maps, each of which reads the family before and is proved with its map."""
    return main_module(maps(n) + [f"using x{k - 1}//L prove x{k}//L;" for k in range(2, n)])


def maps_for_claims(n):
    """n claims beside 4,000 families in a chain of maps, each proved with one of the maps."""
    lines = [f"p{k}:assert G x{k % FAMILIES};" for k in range(n)]
    lines += [f"using x{k % (FAMILIES - 1) + 1}//L prove p{k};" for k in range(n)]
    return main_module(maps(FAMILIES) + lines)


def free_for_claims(n):
    """n claims beside 4,000 families, each proved with one family free."""
    lines = [f"x{k} : boolean;" for k in range(FAMILIES)] + [f"p{k}:assert G x{k % FAMILIES};" for k in range(n)]
    return main_module(lines + [f"using x{k % FAMILIES}//free prove p{k};" for k in range(n)])


def claims_beside_families(n):
    """n claims beside 4,000 families, of which none is used."""
    return main_module([f"x{k} : boolean;" for k in range(FAMILIES)] + [f"p{k}:assert G x{k % FAMILIES};" for k in range(n)])


def maps_for_one(n):
    """One claim, proved with n maps."""
    return main_module(maps(n) + ["p : assert G x0;", "using " + ", ".join(f"x{k}//L" for k in range(1, n)) + " prove p;"])


# ---- parameters


def kept_parameters(n):
    """n claims over two values of a set type, each proved with one of them kept."""
    lines = [f"forall (i in T) forall (j in T) p{k}[i][j] : assert G y = i;" for k in range(n)]
    return main_module(["y : T;"] + lines + [f"using T->{{i}} prove p{k}[i][j];" for k in range(n)], "scalarset T undefined;\n")


def kept_names(n):
    """n claims over two values of a set type, all proved by one `using`, whose braces write one name ten times as often."""
    lines = [f"forall (i in T) forall (j in T) p{k}[i][j] : assert G y = i;" for k in range(n)]
    proved = ", ".join(f"p{k}[i][j]" for k in range(n))
    using = f"forall (i in T) forall (j in T) using T->{{{','.join(['j'] * (10 * n))}}} prove {proved};"
    return main_module(["y : T;"] + lines + [using], "scalarset T undefined;\n")


def proved_again(n):
    """A map that one `using` proves n times, with the map itself, its family free, and another family free n times: the second of these is fault 27."""
    lines = ["x : boolean;", "y : boolean;", "layer L : { y := x; }"]
    proved = ", ".join(["y//L"] * n)
    return main_module(lines + ["using y//L, y//free, " + ", ".join(["x//free"] * n) + f" prove {proved};"])


def many_cases(n):
    """n claims of 4,096 cases each."""
    lines = [f"forall (i in 0..15) forall (j in 0..255) p{k}[i][j] : assert G x;" for k in range(n)]
    return main_module(["x : boolean;"] + lines)


def cases_beside_families(n):
    """One claim of 4,096 cases beside n families that it does not read."""
    lines = ["x : boolean;"] + [f"y{k} : boolean;" for k in range(n)]
    return main_module(lines + ["forall (i in 0..15) forall (j in 0..255) p[i][j] : assert G (x | ~x);"])


ROWS = [
    ("claims", claims_alone, (15000, 30000, 60000)),
    ("claims, each split once", split_claims, (2000, 4000, 8000)),
    ("splits of splits, in one chain (fault 24)", split_chain, (4000, 8000, 12000)),
    ("maps over a set type, each split once", split_maps, (1000, 2000, 4000)),
    ("claims, each proved with the one before it", earlier_claims, (4000, 8000, 16000)),
    ("claims, each proved with the one behind it", later_claims, (4000, 8000, 16000)),
    ("claims in a ring, each proved with the one behind it", ring_of_claims, (4000, 8000, 16000)),
    ("claims, each proved with the twenty behind it", twenty_each, (1000, 2000, 4000)),
    ("one `using` of all claims that proves all of them", clique, (200, 400, 800, 1600)),
    ("one `using` of all claims but the first that proves the first", all_for_one, (10000, 20000, 40000)),
    ("one `using` of the last claim that proves all others", one_for_all, (10000, 20000, 40000)),
    ("maps, each proved with that of the family that it reads", maps_in_turn, (1000, 2000, 4000)),
    ("claims beside 4,000 families, each proved with a map", maps_for_claims, (4000, 8000, 16000)),
    ("claims beside 4,000 families, each proved with one free", free_for_claims, (4000, 8000, 16000)),
    ("claims beside 4,000 families", claims_beside_families, (10000, 20000, 40000)),
    ("one claim, proved with all maps", maps_for_one, (1000, 2000, 4000)),
    ("claims over two parameters, each proved with one of them kept", kept_parameters, (2000, 4000, 8000)),
    ("one `using` that proves all claims, with ten times as many names in its braces", kept_names, (1000, 2000, 4000)),
    ("one `using` that proves a map as often as it uses a family freely (fault 27)", proved_again, (8000, 16000, 32000)),
    ("claims of 4,096 cases each", many_cases, (100, 200, 400)),
    ("one claim of 4,096 cases beside families that it does not read", cases_beside_families, (1000, 2000, 4000)),
]

TEXTS = {text_of.__name__: text_of for _, text_of, _ in ROWS}

if __name__ == "__main__":
    sys.stdout.write(TEXTS[sys.argv[1]](int(sys.argv[2])))
