#!/usr/bin/env python3
"""Ranks functions by what the prover makes of their code, without a check: bench/costs.py [COUNT].

It reads the libraries that stand built in crates/NAME/out (after ./build or rt check) and prints the COUNT functions (60, if none is
given) with the largest transition systems, in kilobytes, and then the crates. What a function costs to prove grows with that size.
"""
import glob
import json
import os
import re
import sys

TOP = os.path.dirname(os.path.dirname(os.path.abspath(__file__)))
SYSTEM = re.compile(r"proofs/(.*)/Lts([^/]*)$")


def sizes(file):
    """Returns the size of each module that the file holds, by its name."""
    found, name = {}, None
    with open(file, encoding="utf-8") as lines:
        for line in lines:
            if line.startswith('"'):
                name = json.loads(line)
                found[name] = 0
            elif name is not None:
                found[name] += len(line)
    return found


def main(count=60):
    functions, crates = [], []
    for file in sorted(glob.glob(f"{TOP}/crates/*/out/rlib/*.rlib/lang/antt/made.json")):
        crate = os.path.basename(file.split("/lang/")[0])[: -len(".rlib")]
        made = sizes(file)
        own = [(size, crate, "".join(found.groups())) for name, size in made.items() if (found := SYSTEM.match(name))]
        functions += own
        crates.append((sum(size for size, _, _ in own), len(own), crate))
    whole = sum(size for size, _, _ in functions)
    print(f"{len(functions)} functions of {len(crates)} crates: {whole // 1000} KB")
    for size, crate, name in sorted(functions, reverse=True)[:count]:
        print(f"{size // 1000:6} KB  {crate:24} {name}")
    print()
    for size, number, crate in sorted(crates, reverse=True)[: count // 2]:
        print(f"{size // 1000:6} KB in {number:3} functions of {crate}")


if __name__ == "__main__":
    main(*(int(word) for word in sys.argv[1:2]))
