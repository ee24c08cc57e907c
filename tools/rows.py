#!/usr/bin/env python3
"""The rows of scripts: what `mx run` answers to each command, in groups that begin with a new model.

    tools/rows.py [--mx PATH] [--only WORDS]      runs all groups, or those whose names have the words, through the program, which is
                                                  crates/mx_cli/out/mx_cli as `rt ci` builds it, and ends with 1 where an answer differs

No answer is taken from the program. Those of tools/rows/*.txt are worked by hand from the rules of the language and of the engine.
There `# NAME` begins a group. A row is a line with the lines behind it that begin with a space. Its answer stands behind ` | `, with
`; ` between the answer's lines; a row without one answers `ok` (tools/row_runner.py tells the words that rows have beside those of
scripts, and how a group gives its files). The other groups are drawn with fixed seeds and computed by Python: formulas, numbers, hierarchies of spaces and both
products, and random formulas and scripts by a second reading of the rules.
"""
import argparse
import os
import pathlib
import sys

import formula_rows
import hierarchy_rows
import number_rows
import product_rows
import random_formulas
import random_rows
from row_runner import PROGRAM, apart, difference

WORKED = pathlib.Path(__file__).resolve().parent / "rows"
COMPUTED = (number_rows, hierarchy_rows, formula_rows, product_rows, random_formulas, random_rows)


def worked(path):
    """The groups of a file."""
    groups, row = [], []

    def end_row():
        if row:
            command, mark, answer = "\n".join(row).rpartition(" | ")
            groups[-1][1].append((command, answer) if mark else (answer, "ok"))
            row.clear()

    for line in path.read_text().splitlines():
        if line.startswith("# "):
            end_row()
            groups.append((line[2:], []))
        else:
            if line and not line.startswith(" "):
                end_row()
            row.append(line)
    end_row()
    return groups


def nested_items():
    """Items in one another: an address has 64 segments at most."""
    paths = [".".join("p" * depth) for depth in range(1, 34)]
    rows = [(f"space {path}", "ok") for path in paths]
    rows += [(f"params {path}(x)", "ok") for path in paths]
    rows += [(f"cells {paths[31]}.c() = x", "ok"), (f"cells {paths[32]}.c() = x", "ok"), ("ref r = to p", "ok")]
    most, subscripts = ".".join(["p[1]"] * 32), ".".join(["r[1]"] + ["p[1]"] * 31)
    rows += [
        (f"eval {most}.c()", "= 1 runs 33"),
        (f"eval {most}.p.c()", "no such node"),
        (f"eval {most}.p[1].c()", "no such node"),
        (f"cells a() = {subscripts}", "ok"),
        ("eval a()", f"= <space {most}> runs 1"),
        ("cells b() = a().c()", "ok"),
        ("eval b()", "= 1 runs 1"),
        ("cells d() = a().p", "ok"),
        ("eval d()", "fault TooLarge at Main.d() line 1"),
        (f"cells e() = {subscripts}.p[1]", "ok"),
        ("eval e()", "fault TooLarge at Main.e() line 1"),
        ("held", "held 35"),
    ]
    return [("items in one another have addresses of sixty four segments at most", rows)]


def all_groups():
    groups = [group for path in sorted(WORKED.glob("*.txt")) for group in worked(path)] + nested_items()
    return groups + [group for subject in COMPUTED for group in subject.groups()]


def main():
    asked = argparse.ArgumentParser()
    asked.add_argument("--mx", default=PROGRAM)
    asked.add_argument("--only", default="")
    asked = asked.parse_args()
    if not os.access(asked.mx, os.X_OK):
        print(f"{asked.mx} is not built", file=sys.stderr)
        return 1
    groups, differing = all_groups(), 0
    names = [name for name, _ in groups]
    assert len(names) == len(set(names)), [name for name in names if names.count(name) > 1]
    groups = [(name, rows) for name, rows in groups if asked.only in name]
    for name, rows in groups:
        why = difference(rows, asked.mx)
        if why is not None:
            print(f"# {name}\n{why}", file=sys.stderr)
            differing += 1
    print(f"{sum(len(apart(rows)[1]) for _, rows in groups)} rows in {len(groups)} groups, {differing} of which differ")
    return 1 if differing else 0


if __name__ == "__main__":
    sys.exit(main())
