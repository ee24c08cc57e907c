#!/usr/bin/env python3
"""How long edits take, with their commands read and answered: `mx run` over generated scripts.

    tools/model_bench.py            after `tools/build` has built the program
    tools/model_bench.py --edges    the two limits that take too long for the gate: 4,000 spaces and 1,000,000 inputs

Each line gives the seconds of a workload's edits: the time of its script less that of the part that only sets it up. The best of
three runs counts. An edge is right where exactly the last edit is refused, for its limit.
"""
import os
import string
import subprocess
import sys
import time

HERE = os.path.dirname(os.path.abspath(__file__))
PROGRAM = os.path.join(HERE, "..", "crates", "mx_cli", "out", "mx_cli")


def seconds(lines):
    script = "\n".join(lines) + "\n"
    best, ok = None, 0
    for _ in range(3):
        start = time.perf_counter()
        out = subprocess.run([PROGRAM, "run"], input=script, capture_output=True, text=True, check=True).stdout
        took = time.perf_counter() - start
        best = took if best is None else min(best, took)
        ok = out.count("ok\n")
    assert ok == len(lines), f"{len(lines) - ok} edits were refused"
    return best


def edge(name, lines):
    """Whether all edits but the last are accepted, and the last is refused."""
    out = subprocess.run([PROGRAM, "run"], input="\n".join(lines) + "\n", capture_output=True, text=True, check=True).stdout
    answers = out.splitlines()
    is_right = answers.count("ok") == len(lines) - 1 and answers[-1] == f"refused: TooMany {name}"
    print(f"{name}: {'right' if is_right else 'WRONG'} ({len(lines) - 1:,} accepted, then: {answers[-1]})", flush=True)
    return is_right


def edges():
    spaces = [f"space s{i}" for i in range(4000)]
    # short names and numbers, since a script has 16 MiB at most
    names = string.ascii_letters
    cells = [f"cells {name}(t) = t" for name in names]
    inputs = [f"input {names[n % len(names)]}({n // len(names)})=1" for n in range(1_000_001)]
    return [edge("Spaces", spaces), edge("Inputs", cells + inputs)]


def main():
    spaces = [f"space s{i}" for i in range(1000)]
    cells = [f"cells s{i}.c{n}(t) = {n}" for n in range(10) for i in range(1000)]
    bare = seconds(spaces)
    print(f"1,000 spaces: {bare:.2f} s", flush=True)
    print(f"10,000 cells in 1,000 spaces: {seconds(spaces + cells) - bare:.2f} s", flush=True)
    print(f"the same, twenty times: {seconds(spaces + 20 * cells) - bare:.2f} s", flush=True)
    one = [f"cells c{n}(t) = {n}" for n in range(10000)]
    print(f"10,000 cells in one space: {seconds(one):.2f} s", flush=True)
    based = [line for i in range(50, 2050) for line in (f"space s{i}", f"bases s{i}: s{i % 50}")]
    print(f"2,000 spaces with a base each: {seconds(spaces[:50] + based) - seconds(spaces[:50]):.2f} s", flush=True)
    inputs = ["cells c(t) = t"] + [f"input c({n}) = 1" for n in range(10000)]
    print(f"10,000 inputs: {seconds(inputs):.2f} s", flush=True)
    inputs = ["cells c(t) = t"] + [f"input c({n}) = 1" for n in range(100000)]
    print(f"100,000 inputs: {seconds(inputs):.2f} s", flush=True)


if __name__ == "__main__":
    if sys.argv[1:] == ["--edges"]:
        sys.exit(0 if all(edges()) else 1)
    main()
