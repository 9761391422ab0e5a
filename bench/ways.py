#!/usr/bin/env python3
"""Counts the ways that lead down from each crate of crates.txt to the libraries below it.

usage: bench/ways.py [MANY]

`rt` walks all of them whenever it asks what is below a crate: once for each source file and for each name that a clause
imports, before any proof begins. A library that is listed beside another which stands on it doubles ways. So a crate
lists what it names, and takes a name from the crate between where that passes it on. Printed are the crates with most
ways, MANY or ten, each with how many libraries it lists and has below; the longest chain; and the sum over all crates.
"""
import functools
import os
import sys

TOP = os.path.dirname(os.path.dirname(os.path.abspath(__file__)))


def listed():
    with open(os.path.join(TOP, "crates.txt"), encoding="utf-8") as it:
        lines = [line.partition("#")[0].partition(":") for line in it]
    return {name.split()[0]: libraries.split() for name, mark, libraries in lines if mark}


def main():
    crates = listed()
    own = {name: [it for it in libraries if it in crates] for name, libraries in crates.items()}
    ways = functools.lru_cache(None)(lambda name: sum(1 + ways(it) for it in own[name]))
    below = functools.lru_cache(None)(lambda name: frozenset(own[name]).union(*map(below, own[name])))
    chain = functools.lru_cache(None)(lambda name: 1 + max(map(chain, own[name]), default=0))
    most = sorted(own, key=ways, reverse=True)[: int(sys.argv[1]) if sys.argv[1:] else 10]
    for name in most:
        print(f"{name}: {ways(name)} ways, lists {len(own[name])}, has {len(below(name))} below")
    print(f"{len(own)} crates, the longest chain {max(map(chain, own))}, {sum(map(ways, own))} ways in all")


if __name__ == "__main__":
    sys.exit(main())
