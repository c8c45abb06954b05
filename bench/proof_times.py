#!/usr/bin/env python3
"""Tells what took a proof its time, by the files that a check with one job leaves in out/incremental: each module is written when it
is done, so the time since the one before is what it took, with what was loaded for it.

proof_times.py CRATE..   of each crate the seconds by kind of module, and by function, the dearest first. Make them anew before:
                         rm -rf crates/CRATE/out/incremental, then rt check --jobs 1 in its folder"""
import collections
import os
import re
import sys

TREE = os.path.dirname(os.path.dirname(os.path.realpath(__file__)))
# What is made of a function: its states, its code, its goals and their answers, and what is cited of it.
KINDS = "Lts View Given Mir Code Kinds Layout Named Tie Goals Reads Answers Invariants Proof Statement Met Key Symbol TheLink".split()
MOST = 12


def modules(crate):
    """The modules of a check, in the order in which they were done, each with its seconds."""
    written = []
    for folder, _, names in os.walk(f"{TREE}/crates/{crate}/out/incremental"):
        written += [(os.stat(f"{folder}/{name}").st_mtime, name) for name in names if name.endswith(".oantt")]
    written.sort()
    for (before, _), (after, name) in zip(written, written[1:]):
        module = name.removesuffix(".oantt").removesuffix(".decls")
        yield re.sub(rf"^Rattle-{crate}([-.](proofs|specs))?\.?", "", module) or "what is loaded first", after - before


def tell(crate):
    kinds, functions = collections.Counter(), collections.Counter()
    for module, seconds in modules(crate):
        path = module.split(".")
        kinds[path[-1] if path[-1] in KINDS else "definitions and lemmas"] += seconds
        while len(path) > 1 and path[-1] in KINDS:
            path.pop()
        functions[".".join(path)] += seconds
    print(f"{crate}: {sum(kinds.values()):.0f} s; " + ", ".join(f"{kind} {seconds:.0f}" for kind, seconds in kinds.most_common(6)))
    for function, seconds in functions.most_common(MOST):
        print(f"{seconds:8.1f}  {function}")


if len(sys.argv) < 2:
    sys.exit(__doc__)
for name in sys.argv[1:]:
    tell(name)
