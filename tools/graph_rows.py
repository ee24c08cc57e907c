#!/usr/bin/env python3
"""Rows for the graph of reads: which nodes live and are marked after each of its calls.

    tools/graph_rows.py     writes crates/mx_graph_rows/stdin and crates/mx_graph_rows/stdout

The first rows are worked by hand. The graphs behind them are drawn at random with a fixed seed, and their answers come from a plain
list of edges: a mark goes to all that reach the node, and what is removed takes its edges with it.
"""
import os

WORKED = """\
# lists are in order of adding
new
room 2 3 |
node | .
node | ..
edges 0>1 1>1 0>0 | ..
reads 0 | 0>1 0>0
readers 1 | 0>1 1>1
remove | 0 ..
# an edge added behind a mark is marked by the next call
new
room 3 3 |
node | .
node | ..
node | ...
edges 1>0 | ...
mark 1 | .*.
edges 2>1 | .*.
mark 1 | .**
remove | 2 .--
"""

NODES = 8


class Draws:
    """The linear congruential generator of Knuth's MMIX."""

    def __init__(self):
        self.state = 1

    def node(self):
        self.state = (self.state * 6364136223846793005 + 1442695040888963407) % 2**64
        return (self.state >> 33) % NODES


class Graph:
    def __init__(self):
        self.live = set(range(NODES))
        self.marked = set()
        self.edges = []

    def add(self, edges):
        self.edges += [(reader, read) for reader, read in edges if {reader, read} <= self.live]

    def mark(self, node):
        if node in self.live:
            reached = {node}
            while more := {reader for reader, read in self.edges if read in reached} - reached:
                reached |= more
            self.marked |= reached

    def remove(self):
        count = len(self.marked)
        self.live -= self.marked
        self.edges = [edge for edge in self.edges if set(edge) <= self.live]
        self.marked = set()
        return count

    def told(self):
        return "".join("-" if n not in self.live else "*" if n in self.marked else "." for n in range(NODES))


def step(graph, draws):
    edges = [(draws.node(), draws.node()) for _ in range(4)]
    graph.add(edges)
    yield "edges " + " ".join(f"{reader}>{read}" for reader, read in edges), graph.told()
    node = draws.node()
    graph.mark(node)
    yield f"mark {node}", graph.told()


def remove(graph):
    count = graph.remove()
    yield "remove", f"{count} {graph.told()}"


def drawn():
    """The rows of 100 graphs, with their answers."""
    draws = Draws()
    yield "# random graphs", None
    for _ in range(100):
        graph = Graph()
        yield "new", None
        for n in range(1, NODES + 1):
            yield "node", "." * n
        yield from step(graph, draws)
        yield from step(graph, draws)
        yield from remove(graph)
        yield from step(graph, draws)
        yield from remove(graph)


def worked():
    for line in WORKED.splitlines():
        row, mark, told = line.partition(" |")
        yield row, told.strip() if mark else None


def main():
    home = os.path.join(os.path.dirname(__file__), "..", "crates", "mx_graph_rows")
    with open(os.path.join(home, "stdin"), "w") as rows, open(os.path.join(home, "stdout"), "w") as answers:
        for row, told in [*worked(), *drawn()]:
            print(row, file=rows)
            if row != "new":
                print(row if told is None else f"{row} => {told}", file=answers)


main()
