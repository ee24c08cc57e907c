#!/usr/bin/env python3
"""How fast the engine is, beside the same formulas in Python, in one run on one machine.

    tools/bench.py [--mx PATH] [--only NAME] [--repeat 9]

Each workload is a script. It is run by `PATH run` (the built program, as tools/build leaves it, where none is named) and,
where Python can run it, by tools/baseline.py with and without --traced. A line gives the best time of each, the formula
runs a second, the greatest memory of the engine's own process, and the ratios: above 1.0 the engine is the faster. A
ratio comes only where the values are the same. `parse`, `crowded` and `written` only read formulas: in many spaces, in one,
and 16 MB of them. `policies`, `beside` and `derived` have spaces, item spaces and decimal numbers, `series` keeps 150,000 values, `deep`
is one chain of calls, `loops` one loop, and `million` sums over generators. Machines are noisy: read the ratios, not the
times. The last lines, `--only operators`, give the nanoseconds of an operator on its own, as mx_ops_bench measures them, and
`--only memo` the times and the bytes of a million kept nodes, as mx_memo_rows makes them.
"""
import argparse
import os
import re
import subprocess
import sys
import tempfile
import time

HERE = os.path.dirname(os.path.abspath(__file__))
CRATES = os.path.join(os.path.dirname(HERE), "crates")
PROGRAM = os.path.join(CRATES, "mx_cli", "out", "mx_cli")
OPERATORS = os.path.join(CRATES, "mx_ops_bench", "out", "mx_ops_bench")
MEMO = os.path.join(CRATES, "mx_memo_rows", "out", "mx_memo_rows")


def grid(cells, depth, rounds):
    """Cells over cells of one parameter; each round redefines the lowest, so that all is computed again."""
    lines = ["cells c0(n) = 1 if n < 1 else 0 if c0(n - 1) > 1000 else c0(n - 1) + 1"]
    for i in range(1, cells):
        lines.append(f"cells c{i}(n) = 1 if n < 1 else 0 if c{i}(n - 1) > 1000 else c{i}(n - 1) + c{i - 1}(n - 1)")
    for r in range(rounds):
        lines.append(f"cells c0(n) = {r + 1} if n < 1 else 0 if c0(n - 1) > 1000 else c0(n - 1) + 1")
        for i in range(cells):
            lines.append(f"eval c{i}({depth})")
    return "\n".join(lines) + "\n"


def kept(times):
    """One value, asked again and again: the cost of a command and of finding a kept value."""
    return "cells fib(n) = n if n < 2 else fib(n-1) + fib(n-2)\n" + "eval fib(80)\n" * times


def parse(spaces, cells):
    """Formulas to read: cells are defined in each of some spaces, and none is run."""
    return "".join(f"space S{s}\n" for s in range(spaces)) + "".join(
        f"cells S{s}.g{i}(n) = {i} if n < {i + 1} else g{i}(n - 1) * 3 + (n - {i}) * (g{i}(n - 2) + 7)\n"
        for s in range(spaces)
        for i in range(cells)
    )


def written(spaces, cells, times):
    """About the longest script: cells over spaces, each defined so many times with another formula, and one of them asked."""
    lines = [f"space s{i}" for i in range(spaces)]
    for turn in range(times):
        lines += [
            f"cells s{i % spaces}.g{i}(n) = {i} if n < 1 else g{i}(n-1) * 3 + g{i}(n-2) * (n + {turn})" for i in range(cells)
        ]
    return "\n".join(lines) + "\neval s7.g7(9)\n"


def policies(count, term):
    """A term product in decimal numbers over item spaces, one for each policy, with their assumptions in another space."""
    head = f"""space Basis
ref Basis.interest = 0.02
cells Basis.death_rate(age) = 0.0005 + 0.00002 * (age - 20) ** 2
cells Basis.discount(t) = 1.0 if t == 0 else discount(t - 1) / (1 + interest)
space Term
ref Term.basis = to Basis
params Term(entry_age, insured)
cells Term.lives(t) = 1.0 if t == 0 else lives(t - 1) - deaths(t - 1)
cells Term.deaths(t) = lives(t) * basis.death_rate(entry_age + t)
cells Term.pv_lives() = sum(lives(t) * basis.discount(t) for t in range({term}))
cells Term.pv_claims() = sum(insured * deaths(t) * basis.discount(t + 1) for t in range({term}))
cells Term.premium() = round(pv_claims() / pv_lives(), 2)
"""
    return head + "".join(f"eval Term[{20 + i % 50}, {1000 * (1 + i)}].premium()\n" for i in range(count))


def beside(projection, edits):
    """Edits on which nothing of a long kept projection rests, which is then asked again."""
    lines = [f"limit {projection + 10}", "space S", "params S(x)", "cells S.f(t) = x if t == 0 else f(t - 1)"]
    lines.append(f"eval S[1].f({projection})")
    lines += [f"cells z() = {i}" for i in range(edits)]
    lines.append(f"eval S[1].f({projection})")
    return "\n".join(lines) + "\n"


def derived(spaces, depth, rounds):
    """Spaces with one base; each round changes one of them, and all are asked: the others stay as they are."""
    lines = ["space B", "cells B.g(t) = t", "cells B.f(t) = 1 if t < 1 else (f(t - 1) * 3 + g(t)) % 1009"]
    for i in range(spaces):
        lines += [f"space S{i}", f"bases S{i}: B"]
    for r in range(rounds):
        lines.append(f"cells S{r % spaces}.g(t) = t + {r}")
        lines += [f"eval S{i}.f({depth})" for i in range(spaces)]
    return "\n".join(lines) + "\n"


def series(values, step):
    """A chain of values that is computed in short steps: the memory is that of what is kept."""
    asks = [f"eval f({n})" for n in range(step, values + 1, step)]
    return "\n".join(["cells f(n) = 0 if n == 0 else f(n - 1) + 1", *asks]) + "\n"


def deep(calls):
    """One chain of so many calls, each of which waits for the next."""
    return f"limit {calls}\ncells f(n) = 0 if n == 0 else f(n - 1) + 1\neval f({calls - 1})\n"


def loops(turns):
    """One loop of so many turns, which asks nothing."""
    body = ["def s(n):", "  x = 0", "  for i in range(n):", "    x += i % 7", "  return x"]
    return "\n".join([*body, f"eval s({turns})"]) + "\n"


def million():
    """One evaluation that computes a million nodes of one short formula, and a thousand that sum them."""
    lines = ["limit 100000", "cells h(i) = i", "cells g(k) = sum(h(k * 1000 + i) for i in range(1000))"]
    return "\n".join(lines + ["cells t() = sum(g(k) for k in range(1000))", "eval t()"]) + "\n"


# name, script, whether the baseline can run it
WORKLOADS = [
    ("grid", lambda: grid(48, 150, 20), True),
    ("kept", lambda: kept(100_000), True),
    ("parse", lambda: parse(90, 100), False),
    ("crowded", lambda: parse(1, 2_000), False),
    ("written", lambda: written(200, 10_000, 20), False),
    ("policies", lambda: policies(1_000, 30), False),
    ("beside", lambda: beside(90_000, 10_000), False),
    ("derived", lambda: derived(200, 100, 20), False),
    ("series", lambda: series(150_000, 150), True),
    ("deep", lambda: deep(100_000), False),
    ("loops", lambda: loops(900_000), False),
    ("million", million, False),
]


# Runs a command and tells its time, its status and its greatest memory. It is a process of its own, and a small one: a process
# that is begun counts the memory of the one that begins it, and this one holds whole scripts.
BESIDE = """
import os, subprocess, sys, time
script, out, *command = sys.argv[1:]
with open(script, "rb") as stdin, open(out, "wb") as stdout:
    start = time.perf_counter()
    child = subprocess.Popen(command, stdin=stdin, stdout=stdout, stderr=subprocess.DEVNULL)
    _, status, usage = os.wait4(child.pid, 0)
    print(time.perf_counter() - start, os.waitstatus_to_exitcode(status), usage.ru_maxrss)
"""


def run_beside(command, script, out):
    """The seconds that a command takes with a script as input, its status, and its greatest memory in KB: some 10,000 where it is
    less, which is that of the small process."""
    beside = [sys.executable, "-S", "-c", BESIDE, script, out, *command]
    told = subprocess.run(beside, cwd=os.path.dirname(out), capture_output=True, text=True, check=True).stdout.split()
    return float(told[0]), int(told[1]), int(told[2])


def timed(command, script, folder, repeat):
    """The best time of some runs, what the last wrote, and the greatest memory in KB of these processes alone."""
    best, text, memory = None, None, 0
    out = os.path.join(folder, "out")
    for _ in range(repeat):
        took, status, used = run_beside(command, script, out)
        memory = max(memory, used)
        best = took if best is None else min(best, took)
        with open(out, encoding="latin-1") as f:
            text = f.read()
        if status != 0:
            return None, text, memory
    return best, text, memory


def measure(name, script_text, comparable, mx, repeat):
    """The line of one workload."""
    with tempfile.TemporaryDirectory() as folder:
        script = os.path.join(folder, "script")
        with open(script, "w") as f:
            f.write(script_text)
        took, text, memory = timed([mx, "run"], script, folder, repeat)
        if took is None:
            return f"{name}: the engine did not end with status 0"
        runs = sum(int(n) for n in re.findall(r" runs (\d+)$", text, re.M))
        line = f"{name}: {took:.2f} s, {runs} runs, {runs / took / 1e6:.2f} M runs/s, {memory // 1024} MB"
        if not comparable:
            return line
        values = re.findall(r"^= (\S+)", text, re.M)
        for label, flags in (("dicts", []), ("traced", ["--traced"])):
            command = [sys.executable, os.path.join(HERE, "baseline.py"), *flags]
            base, other, _ = timed(command, script, folder, repeat)
            if base is None:
                line += f", Python {label} failed"
            elif re.findall(r"^= (\S+)", other, re.M) != values:
                line += f", Python {label} DIFFERS"
            else:
                line += f", Python {label} {base:.2f} s ({base / took:.2f}x)"
        return line


def operators(runs):
    """The best time of each operator less that of the loop around it, over runs too short to be broken off often."""
    whole, loop = {}, {}
    for _ in range(runs):
        text = subprocess.run([OPERATORS, "20000"], capture_output=True, text=True, check=True).stdout
        for name, each, nanos in re.findall(r"^(.+): (\d+) ns of (\d+) ", text, re.M):
            whole[name] = min(int(nanos), whole.get(name, sys.maxsize))
            loop[name] = min(int(nanos) - int(each), loop.get(name, sys.maxsize))
    return "".join(f"{name}: {nanos - loop[name]} ns\n" for name, nanos in whole.items())


def memo(count):
    """What mx_memo_rows prints for so many nodes, and the memory that a node takes, some bytes of it the program's own."""
    with tempfile.TemporaryDirectory() as folder:
        out = os.path.join(folder, "out")
        _, status, memory = run_beside([MEMO, str(count)], os.devnull, out)
        if status != 0:
            return f"memo: it ended with status {status}\n"
        with open(out, encoding="ascii") as f:
            return f"{f.read()}memory: {memory * 1024 // count} bytes a node\n"


def main():
    parser = argparse.ArgumentParser(description=__doc__.splitlines()[0])
    parser.add_argument("--mx", default=PROGRAM)
    parser.add_argument("--only")
    parser.add_argument("--repeat", type=int, default=9)
    args = parser.parse_args()
    mx = os.path.abspath(args.mx)
    if args.only not in ("operators", "memo") and not os.access(mx, os.X_OK):
        sys.exit("the program is not built: tools/build")
    for name, make, comparable in WORKLOADS:
        if args.only in (None, name):
            print(measure(name, make(), comparable, mx, args.repeat), flush=True)
    if args.only in (None, "operators"):
        if os.access(OPERATORS, os.X_OK):
            print(operators(40 * args.repeat), end="")
        else:
            print("operators: not built: rt run in crates/mx_ops_bench")
    if args.only in (None, "memo"):
        if os.access(MEMO, os.X_OK):
            print(memo(1_000_000), end="")
        else:
            print("memo: not built: rt run in crates/mx_memo_rows")


if __name__ == "__main__":
    main()
