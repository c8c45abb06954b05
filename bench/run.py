#!/usr/bin/env python3
"""Times what docs/SPEED.md tells, each thing in turns with its peer (OpenSSL, C, the other format, an earlier program), and tells
the least, the median and the greatest of the rounds and the ratio.

run.py [quick] [--earlier TREE] [PART..]
  quick      few rounds, to see that all runs; the figures of docs/SPEED.md are those of a full run
  TREE       a checkout of an earlier state, built, whose library and programs are timed beside
  PART       ciphers reading turns codes events audits lines files commands compaction mirror spool; all of them, if none is named

First build, each in its folder: crates/bench_c by `rt lib`; crates/cases and crates/x917 by `rt run`. It wants GCC,
OpenSSL's headers (Debian: libssl-dev) and strace. TMPDIR should lie on a disk. Where the machine has other work to do, run it by
`chrt -f 50`."""
import os
import shutil
import subprocess
import sys
import tempfile

sys.dont_write_bytecode = True

import commands
import events
import measure


def library(tree):
    path = f"{tree}/crates/bench_c/out/libbench_c.a"
    if not os.path.exists(path):
        sys.exit(f"{path} isn't built: run `rt lib` in {tree}/crates/bench_c")
    return path


def harness(name):
    """The part that a C harness times: the same harness with each tree's library, some rounds by one and some by the other."""
    def part(rounds, earlier):
        kit = os.path.dirname(os.path.dirname(os.path.realpath(shutil.which("rt"))))
        with tempfile.TemporaryDirectory() as folder:
            programs = {}
            for way, tree in {"x917": measure.TREE, **({"earlier program": earlier} if earlier else {})}.items():
                programs[way] = measure.compiled(f"{name}.c", folder, library(tree), f"{kit}/c/liblibc_c.a", "-lcrypto")
                os.rename(programs[way], f"{folder}/{len(programs)}")
                programs[way] = f"{folder}/{len(programs)}"
            figures = {}
            for _ in range(max(1, rounds // 5)):
                for way, program in programs.items():
                    written = subprocess.run([program, str(min(rounds, 5))], stdout=subprocess.PIPE, check=True, text=True).stdout
                    for line in written.splitlines():
                        figure, told, took = line.split("\t")
                        if way != "x917":
                            told = way if told == "x917" else f"{told}, beside the earlier"
                        figures.setdefault(figure, {}).setdefault(told, []).append(float(took))
            for figure, times in figures.items():
                measure.told(figure, "ns", times)
    return part


def codes(rounds, earlier):
    """Error detection codes in plain C, made in several ways."""
    with tempfile.TemporaryDirectory() as folder:
        program = measure.compiled("codes.c", folder)
        written = subprocess.run([program, str(rounds)], stdout=subprocess.PIPE, check=True, text=True).stdout
    times = {}
    for line in written.splitlines():
        way, took = line.split("\t")
        times.setdefault(way, []).append(float(took))
    measure.told("block of many error detection codes, in C", "ns", times)


# Each part with its rounds, in a full run and in a quick one.
PARTS = {
    "ciphers": (harness("des"), 100, 10),
    "reading": (harness("reading"), 100, 10),
    "turns": (harness("turns"), 60, 5),
    "codes": (codes, 200, 20),
    "events": (events.events, 9, 1),
    "audits": (events.audits, 9, 1),
    "lines": (events.lines, 9, 2),
    "files": (events.files, 9, 1),
    "commands": (commands.turns, 100, 5),
    "compaction": (commands.compaction, 100, 5),
    "mirror": (commands.mirror, 60, 5),
    "spool": (commands.spool, 9, 2),
}


def main(words):
    quick = "quick" in words
    earlier = os.path.realpath(words[words.index("--earlier") + 1]) if "--earlier" in words else None
    named = [word for word in words if word in PARTS]
    others = [word for word in words if word not in (*PARTS, "quick", "--earlier") and (not earlier or os.path.realpath(word) != earlier)]
    if others:
        sys.exit(__doc__)
    for name in named or PARTS:
        part, full, few = PARTS[name]
        print(f"\n== {name}: {few if quick else full} rounds", flush=True)
        part(few if quick else full, earlier)


if __name__ == "__main__":
    main(sys.argv[1:])
