#!/usr/bin/env python3
"""A stand-in for what a user would otherwise pick: the same cells as Python functions that keep their values.

    tools/baseline.py [--traced] < SCRIPT      reads `cells NAME(PARAMS) = EXPR` and `eval NAME(ARGS)`, prints the values

A value is kept under its arguments. With --traced each call is also entered in a graph of precedents and a
call stack is kept, as modelx does, and a redefinition clears the values that rest on the cells; without it,
the values are kept in bare dicts and a redefinition clears all of them.
"""
import re
import sys
import threading
import time

TRACED = "--traced" in sys.argv
if TRACED:
    import networkx


class Cells:
    def __init__(self, model, name):
        self.model, self.name, self.kept, self.function = model, name, {}, None

    def define(self, params, expr):
        self.function = eval(f"lambda {params}: {expr}", self.model.names)

    if TRACED:

        def __call__(self, *args):
            model = self.model
            node = (self.name, args)
            if model.stack:
                model.graph.add_edge(node, model.stack[-1])
            kept = self.kept
            if args in kept:
                return kept[args]
            model.stack.append(node)
            try:
                model.runs += 1
                value = kept[args] = self.function(*args)
                model.graph.add_node(node)
            finally:
                model.stack.pop()
            return value
    else:

        def __call__(self, *args):
            kept = self.kept
            if args in kept:
                return kept[args]
            self.model.runs += 1
            value = kept[args] = self.function(*args)
            return value


class Model:
    def __init__(self):
        self.names, self.runs, self.stack = {}, 0, []
        self.graph = networkx.DiGraph() if TRACED else None

    def cells(self, name, params, expr):
        old = self.names.get(name)
        if old is None:
            self.names[name] = old = Cells(self, name)
        elif TRACED:
            for args in list(old.kept):
                node = (name, args)
                if node in self.graph:
                    gone = networkx.descendants(self.graph, node) | {node}
                    for other, key in gone:
                        self.names[other].kept.pop(key, None)
                    self.graph.remove_nodes_from(gone)
        else:
            for cells in self.names.values():
                if isinstance(cells, Cells):
                    cells.kept.clear()
        old.define(params, expr)

    def eval(self, name, args):
        before = self.runs
        value = self.names[name](*args)
        return value, self.runs - before


def main():
    model = Model()
    out = []
    start = time.perf_counter()
    for line in sys.stdin:
        line = line.strip()
        found = re.fullmatch(r"cells (\w+)\(([^)]*)\) = (.*)", line)
        if found:
            model.cells(*found.groups())
            out.append("ok")
            continue
        found = re.fullmatch(r"eval (\w+)\(([^)]*)\)", line)
        if found:
            args = tuple(int(a) for a in found.group(2).split(",") if a.strip())
            value, runs = model.eval(found.group(1), args)
            out.append(f"= {value} runs {runs}")
    took = time.perf_counter() - start
    sys.stdout.write("\n".join(out) + "\n")
    print(f"{took:.3f} s, {model.runs} runs", file=sys.stderr)


if __name__ == "__main__":
    sys.setrecursionlimit(1_000_000)
    threading.stack_size(1 << 29)
    thread = threading.Thread(target=main)
    thread.start()
    thread.join()
