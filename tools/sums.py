#!/usr/bin/env python3
"""Tells how often kit 13b's rt ci sums the files of a crate for its stamps, and which entries of crates.txt cost most.

    tools/sums.py [N]     the N dearest entries that another entry of the same crate leads to anyway (20 without N)

That kit sums a crate's files anew for each path of crates.txt that leads to it, twice for each library above. So the number of paths is what counts: an
entry that is left out, since what it was listed for is passed on by another (`pub use`), saves all sums below it, once for each path from above.
"""
import functools
import os
import sys

TOP = os.path.dirname(os.path.dirname(os.path.abspath(__file__)))
# What one sum takes, by files and by bytes, in seconds of a quick processor.
FILE, BYTE = 25e-6, 18e-9


def libraries():
    """Returns the repository's own libraries that each crate names."""
    with open(f"{TOP}/crates.txt", encoding="utf-8") as it:
        lines = [line.split("#")[0].strip() for line in it]
    named = {line.split(":")[0].split()[0]: line.split(":")[1].split() for line in lines if line}
    return {name: [it for it in below if it in named] for name, below in named.items()}


def own(crate):
    """Returns the seconds of one sum of a crate's own files."""
    files = [f"{at}/{name}" for part in ("src", "specs", "proofs") for at, _, names in os.walk(f"{TOP}/crates/{crate}/{part}") for name in names]
    return FILE * len(files) + BYTE * sum(map(os.path.getsize, files))


def main():
    below = libraries()
    alone = {it: own(it) for it in below}

    @functools.lru_cache(None)
    def paths(crate):
        return 1 + sum(map(paths, below[crate]))

    @functools.lru_cache(None)
    def cost(crate):
        return alone[crate] + sum(map(cost, below[crate]))

    @functools.lru_cache(None)
    def all_below(crate):
        return frozenset(below[crate]).union(*map(all_below, below[crate]))

    above = {it: [] for it in below}
    for crate, names in below.items():
        for it in names:
            above[it].append(crate)

    @functools.lru_cache(None)
    def visits(crate):
        return 1 + sum(map(visits, above[crate]))

    print(f"{len(below)} crates, {sum(map(len, below.values()))} entries; {sum(map(paths, below))} sums, {sum(map(cost, below)):.0f} s, and twice that in a run")
    entries = [
        (visits(crate) * cost(it), crate, it)
        for crate, names in below.items()
        for it in names
        if any(it in all_below(other) for other in names if other != it)
    ]
    for seconds, crate, it in sorted(entries, reverse=True)[: int(sys.argv[1]) if len(sys.argv) > 1 else 20]:
        print(f"{seconds:7.1f} s  {crate}: {it}")


if __name__ == "__main__":
    main()
