#!/usr/bin/env python3
"""Rows for what is held: what a memo tells after each of its calls.

    tools/memo_rows.py      writes crates/mx_memo_rows/stdin and crates/mx_memo_rows/stdout

The first rows are worked by hand. The scripts behind them are drawn at random with a fixed seed: nodes are held with keys and asks,
rolled back, dropped, begun and numbered anew. Their answers come from a plain list of what is held, by the rule alone: what goes
takes with it all that reaches it.
"""
import os

WORKED = """\
# an address leads where the held items lead
new
put 1 |
put 2 |
remove 2 |
item 1 | held
space 1 . | there there there
space 2 . | not held at 1 not held at 1 not held at 1
space 1 A | there there there
space 2 A | not held at 1 not held at 1 not held at 1
drop_all | 1 | 0 1 | 0[0:] 1[0:] 2[0:] 3[0:] 4[0:] | 0:
space 1 . | there there not held at 1
"""

NODES = 10
KEYS = 5
NAMES = "abcde"


class Draws:
    """The linear congruential generator of Knuth's MMIX."""

    def __init__(self):
        self.state = 1

    def below(self, bound):
        self.state = (self.state * 6364136223846793005 + 1442695040888963407) % 2**64
        return (self.state >> 33) % bound


class Held:
    """A plain list of what is held: for a node its value, its stamp, the keys that it looked up and the nodes that it asked."""

    def __init__(self):
        self.nodes = {}
        self.last = 0

    def hold(self, n, value, keys, asks):
        self.last += 1
        self.nodes[n] = [value, self.last, keys, [m for m in asks if m in self.nodes]]

    def drop(self, gone):
        """Drops these and all that reach one of them, and gives their number."""
        gone = {n for n in gone if n in self.nodes}
        while more := {n for n, (_, _, _, asks) in self.nodes.items() if n not in gone and gone & set(asks)}:
            gone |= more
        for n in gone:
            del self.nodes[n]
        return len(gone)

    def renumber(self):
        for stamp, n in enumerate(sorted(self.nodes, key=lambda n: self.nodes[n][1]), 1):
            self.nodes[n][1] = stamp
        self.last = len(self.nodes)

    def told(self):
        parts = [f"{len(self.nodes)} {self.last}"]
        for n in sorted(self.nodes):
            value, stamp, keys, asks = self.nodes[n]
            held_with = "".join(NAMES[k] for k in keys)
            looked = (f"S.c({n})" if n % 2 == 0 else "") + held_with
            askers = [m for m in sorted(self.nodes) if n in self.nodes[m][3]]
            own = f"1:{n}" if n % 2 == 0 else "0:"
            asked = "".join(map(str, asks))
            parts.append(f"{n}={value}@{stamp}[{looked}][{held_with}][{asked}][{numbered(askers)}][{own}]")
        parts.append("|")
        for k in range(KEYS):
            readers = [n for n in sorted(self.nodes) if k in self.nodes[n][2]]
            parts.append(f"{k}[{numbered(readers)}]")
        all_keys = [NAMES[k] for k in range(KEYS) if any(k in keys for _, _, keys, _ in self.nodes.values())]
        parts += ["|", numbered(all_keys)]
        return " ".join(parts)


def numbered(items):
    return f"{len(items)}:{''.join(map(str, items))}"


def listed(numbers):
    return ",".join(map(str, numbers)) or "."


def hold(held, draws):
    n = draws.below(10)
    if n in held.nodes:
        return f"hold {n} 0 . .", "standing"
    asks = [m for m in range(NODES) if m != n and draws.below(3) == 0]
    keys = [k for k in range(KEYS) if draws.below(3) == 0]
    value = draws.below(1000)
    held.hold(n, value, keys, asks)
    return f"hold {n} {value} {listed(keys)} {listed(asks)}", "held"


def roll_back(held, draws):
    back = draws.below(4)
    stamp = max(held.last - back, 0)
    held.drop([n for n in held.nodes if held.nodes[n][1] > stamp])
    return f"back {back}", None


def edit(held, draws):
    changed, node = draws.below(5), draws.below(20)
    gone = [n for n in held.nodes if changed in held.nodes[n][2] or n == node and n % 2 == 0]
    return f"edit {changed} {node}", str(held.drop(gone))


def clear(held, draws):
    n = draws.below(10)
    if draws.below(8) == 0:
        return "drop_all", str(held.drop(list(held.nodes)))
    return f"drop {n}", str(held.drop([n]))


def begin(held, draws):
    n = draws.below(10)
    return f"begin {n}", "standing" if n in held.nodes else "begun ended new none"


def renumber(held, draws):
    held.renumber()
    return "renumber", None


def drawn():
    """The rows of 300 scripts of 12 calls, with their answers."""
    steps = {8: renumber, 9: begin, 0: roll_back, 1: edit, 2: clear}
    draws = Draws()
    yield "# random scripts", None
    for _ in range(300):
        held = Held()
        yield "new", None
        for _ in range(12):
            row, told = steps.get(draws.below(10), hold)(held, draws)
            yield row, f"{told} | {held.told()}" if told else f"| {held.told()}"


def worked():
    for line in WORKED.splitlines():
        row, mark, told = line.partition(" |")
        yield row, told.strip() if mark else None


def main():
    home = os.path.join(os.path.dirname(__file__), "..", "crates", "mx_memo_rows")
    with open(os.path.join(home, "stdin"), "w") as rows, open(os.path.join(home, "stdout"), "w") as answers:
        for row, told in [*worked(), *drawn()]:
            print(row, file=rows)
            if row != "new":
                print(row if told is None else f"{row} => {told}" if told else f"{row} =>", file=answers)


main()
