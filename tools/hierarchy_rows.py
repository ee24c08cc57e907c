"""Spaces with their bases, and the layers that Python gives for every static path, for the rows that tools/rows.py runs.

The hierarchies are drawn at random with a fixed seed. The order of a space is the `__mro__` of a class with its bases, and a refusal of
Python's is NoOrder. The layers of a child, derived or not, are those of a class whose bases are the defined children of the layers of
its parent, in their order. The limits on names, paths, layers and texts are tried at both sides.
"""
import random

def many_names():
    path = "p"
    yield f"space {path}", "ok"
    for _ in range(63):
        path += ".p"
        yield f"space {path}", "ok"
    yield f"space {path}.p", "refused: TooMany Depth"


def many_layers():
    yield "space l0", "ok"
    for i in range(1, 64):
        yield f"space l{i}", "ok"
        yield f"bases l{i}: l{i - 1}", "ok"
    yield "space l64", "ok"
    yield "bases l64: l63", "refused: TooMany Layers"
    yield "order l64", "order l64"


def many_paths():
    yield "space L0", "ok"
    for i in range(1, 13):
        yield f"space L{i}", "ok"
        for child in "XY":
            yield f"space L{i}.{child}", "ok"
            yield f"bases L{i}.{child}: L{i - 1}", "ok"
    yield "space L13", "ok"
    yield "space L13.X", "ok"
    yield "bases L13.X: L12", "refused: TooMany Paths"
    yield "order L13.X", "order L13.X"


def quoted(length):
    return f'"{"a" * (length - 2)}"'


def long_reference():
    yield "space S", "ok"
    yield f"ref S.r = {quoted(60001)}", "refused: BadValue"
    yield "unref S.r", "refused: NoSuchMember"
    yield f"ref S.r = {quoted(60000)}", "ok"


def long_input():
    node = "S.c(1)"
    yield "space S", "ok"
    yield "cells S.c(t) = t", "ok"
    yield f"input {node} = {quoted(60001 - len(node))}", "refused: BadValue"
    yield f"uninput {node}", "refused: BadValue"
    yield f"input {node} = {quoted(60000 - len(node))}", "ok"


def long_bases():
    paths = [".".join(["b" * 64] * count) for count in range(1, 65)]
    bases = [paths[count - 1] for count in (*range(64, 48, -1), 18)]
    room = 60000 - len(", ".join(bases + [""]))
    for path in [*paths, "c" * room, "d" * (room + 1), "S"]:
        yield f"space {path}", "ok"
    yield f"bases S: {', '.join(bases + ['d' * (room + 1)])}", "refused: BadValue"
    yield "order S", "order S"
    yield f"bases S: {', '.join(bases + ['c' * room])}", "ok"


def limits():
    yield "the length of a name", [(f"space {'a' * 64}", "ok"), (f"space {'a' * 65}", "refused: BadName")]
    yield "the number of names of a path", list(many_names())
    yield "the number of layers", list(many_layers())
    yield "the number of static paths", list(many_paths())
    yield "the length of the text of a reference's value", list(long_reference())
    yield "the length of the texts of an input's node and value together", list(long_input())
    yield "the length of the text of a list of bases", list(long_bases())
    yield "the nesting of a value", [(f"global r = {'(' * 64}{')' + ',)' * 63}", "ok")]


class Reference:
    """Spaces with their bases, in order of creation."""

    def __init__(self):
        self.spaces = {"Main": []}

    def classes(self):
        made = {}

        def build(path, on):
            if path in made:
                return made[path]
            assert path not in on
            bases = [build(b, on | {path}) for b in self.spaces[path]]
            if None in bases:
                made[path] = None
                return None
            try:
                made[path] = type(path, tuple(bases), {})
            except TypeError:
                made[path] = None
            return made[path]

        for path in self.spaces:
            build(path, frozenset())
        return made

    def has_ring(self):
        leads = {p: list(b) for p, b in self.spaces.items()}
        for p in self.spaces:
            if "." in p:
                leads[p.rpartition(".")[0]].append(p)
        state = {}

        def visit(p):
            if state.get(p) == 1:
                return True
            if state.get(p) == 2:
                return False
            state[p] = 1
            if any(visit(q) for q in leads[p]):
                return True
            state[p] = 2
            return False

        return any(visit(p) for p in self.spaces)

    def walk(self):
        """The layers of each static path, and the first path without an order."""
        made = self.classes()
        layers, trouble = {}, None
        level = sorted(p for p in self.spaces if "." not in p)
        orders = {p: (None if made[p] is None else [c.__name__ for c in made[p].__mro__[:-1]]) for p in level}
        while level:
            following = {}
            for path in level:
                if orders[path] is None:
                    return layers, path
                layers[path] = orders[path]
                children = sorted({q.rpartition(".")[2] for s in layers[path] for q in self.spaces if q.rpartition(".")[0] == s})
                for name in children:
                    defined = [f"{s}.{name}" for s in layers[path] if f"{s}.{name}" in self.spaces]
                    bases = [made[d] for d in defined]
                    order = None
                    if None not in bases:
                        try:
                            order = [c.__name__ for c in type("derived", tuple(bases), {}).__mro__[1:-1]]
                        except TypeError:
                            order = None
                    following[f"{path}.{name}"] = order
            level, orders = sorted(following), following
        return layers, trouble

    def attempt(self, change):
        before = {p: list(b) for p, b in self.spaces.items()}
        change(self.spaces)
        if self.has_ring():
            self.spaces = before
            return "refused: Cycle"
        _, trouble = self.walk()
        if trouble:
            self.spaces = before
            return f"refused: NoOrder {trouble}"
        return "ok"


def hierarchy(draw):
    rows, reference = [], Reference()
    tops = [f"S{i}" for i in range(draw.randint(3, 7))]
    for top in tops:
        rows.append((f"space {top}", "ok"))
        reference.spaces[top] = []
    for _ in range(draw.randint(0, 8)):
        parent = draw.choice([p for p in reference.spaces if p.count(".") < 2 and p != "Main"])
        child = f"{parent}.{draw.choice('BCD')}"
        if child not in reference.spaces:
            answer = reference.attempt(lambda spaces: spaces.__setitem__(child, []))
            rows.append((f"space {child}", answer))
    for _ in range(draw.randint(3, 12)):
        path = draw.choice([p for p in reference.spaces if p != "Main"])
        others = [p for p in reference.spaces if p != path]
        if draw.random() < 0.8:
            place = list(reference.spaces).index(path)
            others = [p for p in list(reference.spaces)[1:place] if not p.startswith(path)] or others
        bases = draw.sample(others, min(len(others), draw.choice([1, 1, 2, 2, 3])))
        answer = reference.attempt(lambda spaces: spaces.__setitem__(path, bases))
        rows.append((f"bases {path}: {', '.join(bases)}", answer))
    layers, trouble = reference.walk()
    assert trouble is None
    shown = sorted(layers, key=lambda p: (p.count("."), p))
    rows += [(f"order {p}", f"order {', '.join(layers[p])}") for p in shown[:40]]
    for p in draw.sample(shown, min(3, len(shown))):
        if f"{p}.Q" not in layers:
            rows.append((f"order {p}.Q", "refused: NoSuchSpace"))
    return rows


def groups():
    draw = random.Random(20)
    return [*limits(), *((f"hierarchy {number}", hierarchy(draw)) for number in range(1, 201))]
