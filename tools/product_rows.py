"""Whole models, and what Python gives for them, for the rows of scripts: the two sample products, which read tables, and generated
models of many spaces.

Nothing here stands on the engine. A formula is read by Python's own parser, its operators are those of
tools/operator_vectors.py, and each value is kept by its address, name and arguments, so that the number of runs is told too.
"""
import ast
import sys

from life_files import DISC, MORT, files
from operator_vectors import CALLS, d, fixed_points, text

BINARY = {ast.Add: "Add", ast.Sub: "Sub", ast.Mult: "Mul", ast.Div: "Div", ast.FloorDiv: "FloorDiv", ast.Mod: "Rem"}
COMPARED = {ast.Eq: "Eq", ast.LtE: "Le"}
sys.setrecursionlimit(20_000)


def call(op, *operands):
    return fixed_points(CALLS[op](*operands))


class Model:
    """Spaces with at most one base each. Addresses are a space and the arguments of its item, where it is one."""

    def __init__(self):
        self.bases, self.cells, self.refs, self.params, self.held = {}, {}, {}, {}, {}

    def layers(self, space):
        while space is not None:
            yield space
            space = self.bases.get(space)

    def first(self, members, space, name):
        """The first layer that has a member of this name."""
        return next((layer for layer in self.layers(space) if (layer, name) in members), None)

    def define(self, space, source):
        name, rest = source.split("(", 1)
        params, formula = rest.split(") = ", 1)
        names = tuple(p.strip() for p in params.split(",") if p)
        self.cells[space, name] = names, formula, ast.parse(formula, mode="eval").body

    def value(self, at, name, args):
        return self.node((at, name, args))

    def node(self, node):
        if node not in self.held:
            at, name, args = node
            run = Run(self, at, node)
            if at[1] is not None and name is not None:
                run.ask((at, None, ()))
            value = None
            if name is not None:
                layer = self.first(self.cells, at[0], name)
                names, formula, tree = self.cells[layer, name]
                run.keys.add((at[0], name))
                assert len(names) == len(args), node
                value = run.of(tree, formula, dict(zip(names, args)))
            self.held[node] = value, run.keys, run.asks
        return self.held[node][0]

    def redefine(self, space, source):
        """How many nodes are dropped."""
        name = source.split("(", 1)[0]
        changed = {(s, name) for s in self.all_spaces() if self.first(self.cells, s, name) == space}
        self.define(space, source)
        dropped, grows = set(), True
        while grows:
            more = {n for n, (_, keys, asks) in self.held.items() if n not in dropped and (keys & changed or asks & dropped)}
            dropped |= more
            grows = bool(more)
        for node in dropped:
            del self.held[node]
        return len(dropped)

    def all_spaces(self):
        return {space for space, _ in self.cells} | set(self.bases)

    def row(self, node, at, name, args):
        before = len(self.held)
        value = self.value(at, name, args)
        return f"eval {node}", f"= {text(value)} runs {len(self.held) - before}"


class Run:
    """The run of one node: the cells that it looked up, and the nodes that it asked."""

    def __init__(self, model, at, node):
        self.model, self.at, self.keys, self.asks = model, at, set(), set()

    def ask(self, node):
        self.asks.add(node)
        return self.model.node(node)

    def of(self, tree, source, local):
        def sub(t):
            return self.of(t, source, local)

        match tree:
            case ast.Constant():
                written = ast.get_source_segment(source, tree)
                return d(written) if isinstance(tree.value, float) else tree.value
            case ast.Tuple():
                return tuple(map(sub, tree.elts))
            case ast.BinOp():
                left = sub(tree.left)
                return call(BINARY[type(tree.op)], left, sub(tree.right))
            case ast.Compare():
                return call(COMPARED[type(tree.ops[0])], sub(tree.left), sub(tree.comparators[0]))
            case ast.IfExp():
                return sub(tree.body) if sub(tree.test) else sub(tree.orelse)
            case ast.Subscript():
                key, column = sub(tree.slice)
                return sub(tree.value)[key, column]
            case ast.GeneratorExp():
                loop = tree.generators[0]
                return tuple(self.of(tree.elt, source, local | {loop.target.id: x}) for x in sub(loop.iter))
            case ast.Name():
                return self.name(tree.id, local)
            case ast.Call():
                return self.called(tree.func.id, tuple(map(sub, tree.args)))
        raise NotImplementedError(ast.dump(tree))

    def name(self, name, local):
        if name in local:
            return local[name]
        space, args = self.at
        if args is not None and name in self.model.params[space]:
            return args[self.model.params[space].index(name)]
        return self.model.refs[self.model.first(self.model.refs, space, name), name]

    def called(self, name, args):
        if self.model.first(self.model.cells, self.at[0], name) is None:
            return call(name.capitalize(), *args)
        self.keys.add((self.at[0], name))
        return self.ask((self.at, name, args))


def table_of(csv):
    head, *records = (line.split(",") for line in csv.splitlines())
    return head, [(int(key), *entries) for key, *entries in records]


def literal(written):
    return d(written) if "." in written else int(written)


def product(sample, space, items):
    """The edits that make a sample, and its values for some months and items."""
    model, rows = Model(), [("space Base", "ok"), (f"space {space}", "ok"), (f"bases {space}: Base", "ok")]
    model.bases[space] = "Base"
    tables = {}
    for name, csv in (("mort", MORT), ("disc", DISC)):
        head, records = table_of(csv)
        rows += [(f"file {name}.csv {'; '.join(csv.splitlines())}", "ok"), (f"table {name} {name}.csv", "ok")]
        tables[name] = {(r[0], head[1]): literal(r[1]) for r in records}
    for name, contents in files(sample):
        for line in contents.splitlines() if name.endswith(".mx") and name != "model.mx" else ():
            rows.append((line, "ok"))
            word, rest = line.split(" ", 1)
            owner, member = rest.split(".", 1) if word != "params" else ("", "")
            if word == "cells":
                model.define(owner, member)
            elif word == "ref":
                name, written = member.split(" = ")
                model.refs[owner, name] = tables[written[6:]] if written.startswith("table ") else literal(written)
            else:
                model.params[space] = [p.split("=")[0].strip() for p in rest.split("(")[1].rstrip(")").split(",")]
    return rows + answers(model, space, items)


def answers(model, space, items):
    rows = []
    for args in (None, *items):
        at = space, args
        address = space if args is None else f"{space}[{', '.join(map(text, args[:-1]))}]"
        months = 12 * (10 if args is None else args[1]) + 1
        asked = [("pols_if", (1,)), ("claims", (0,)), ("mort_rate", (0,)), ("proj_len", ())]
        asked += [("result_cf", (t,)) for t in (0, 1, 11, 12, 59, months - 2, months - 1)]
        asked += [("result_pv", ()), ("policy", ()), ("result_pv", ())]
        for name, given in asked:
            rows.append(model.row(f"{address}.{name}({', '.join(map(text, given))})", at, name, given))
    return rows + [("held", f"held {len(model.held)}")]


def generated(count, seed):
    """The edits of a generated model, its values, and its values after one formula was changed."""
    x, model, rows = seed, Model(), []

    def draw(k):
        nonlocal x
        x = (x * 6364136223846793005 + 1442695040888963407) % 2**64
        return x // 2**33 % k

    def cells(space, source):
        model.define(space, source)
        rows.append((f"cells {space}.{source}", "ok"))

    for i in range(count):
        rows.append((f"space S{i}", "ok"))
        if i > 0:
            model.bases[f"S{i}"] = f"S{draw(min(i, 50))}"
            rows.append((f"bases S{i}: {model.bases[f'S{i}']}", "ok"))
        if i % 2 == 0:
            cells(f"S{i}", f"f(t) = {draw(1000)} if t <= 0 else f(t - 1) + g(t - 1)")
        if i == 0:
            cells("S0", "g(t) = f(t) * 3 % 1009")
        elif i % 2 == 1:
            cells(f"S{i}", f"g(t) = f(t) * {2 + draw(7)} % 1009")
    for source in ("", "g(t) = f(t) * 5 % 1009"):
        if source:
            rows.append((f"cells S0.{source}", f"ok {model.redefine('S0', source)}"))
        rows += [model.row(f"S{i}.f(20)", (f"S{i}", None), "f", (20,)) for i in range(count)]
        rows.append(("held", f"held {len(model.held)}"))
    return rows


def groups():
    """The name of each group, and its rows."""
    return [
        ("the term product gives what Python gives", product("term_s", "Term", [(40, 10, 200000, 1), (35, 2, 50000, 1)])),
        ("the savings product gives what Python gives", product("savings_s", "Savings", [(50, 3, 300000, 280000, 1)])),
        ("a generated model of one space gives what Python gives", generated(1, 0)),
        ("a generated model of two hundred spaces gives what Python gives", generated(200, 7)),
    ]


if __name__ == "__main__":
    for name, rows in groups():
        print("#", name)
        for row in rows[-30:]:
            print(*row, sep=" | ")
