"""Random scripts, and what tools/reference.py gives for them, for the rows that tools/rows.py runs.

A script makes a small model whose names meet often (a child, cells and a reference of one name, parameters over references), with tables
from files of a few lines, and then edits, evaluates and clears it in turn. Every call of a formula counts down or has arguments from a
few, so that each evaluation ends.
A script that the reference would run too deep for Python is left out.

    tools/random_rows.py [SCRIPTS [SEED]]      runs so many others through `mx run`, the built program, and compares
"""
import random
import sys

from row_runner import apart, difference
from reference import (Cells, CellsAt, Engine, Formula, Item, NoOrder, Node, Record, Refused, Space, TableValue, Target, key, literal,
                       table_of, text)

TOPS, CHILDREN, PARAMETERS = ("A", "B", "C", "D"), ("x", "y", "A", "f"), ("n", "m")
CELLS, REFERENCES = ("f", "g", "h", "x", "p"), ("p", "q", "r", "f", "x")
LITERALS = ("0", "1", "2", "3", "-1", "True", "None", '"s"', "1.0", "1.5", "(1, 2)", "()")
TABLES, COLUMNS = ("t", "u", "p"), ("key", "a", "b")
NUMBERS, NO_NUMBERS = ("0", "1", "2", "-1", "1.0", "1.5", "-0.25"), ("", "x", "01", " 1", "1.", ".5", "1e2", "True")
DEEPEST = 20_000


def dotted(path):
    return ".".join(path)


class Formulas:
    """Random formulas over what a space can see."""

    def __init__(self, draw, model, path):
        self.draw, self.model = draw, model
        layers = layers_of(model, path)
        self.own = [(name, cells) for layer in layers for name, cells in model.spaces[layer].cells.items()]
        seen = [*(ref for layer in layers for ref in model.spaces[layer].refs.items()), *model.globals.items()]
        self.references = [name for name, _ in seen]
        self.tables = [name for name, value in seen if isinstance(value, TableValue)]
        self.others = [(found, name, cells) for found, found_layers in model.static_paths() for layer in found_layers or ()
                       for name, cells in model.spaces[layer].cells.items()]

    def literal(self):
        return self.draw.choice(LITERALS)

    def argument(self, names):
        chance = self.draw.random()
        if names and chance < 0.65:
            name = self.draw.choice(names)
            return f"{name} - 1" if chance < 0.5 else name
        return self.draw.choice(("0", "1", "2")) if chance < 0.9 else self.literal()

    def arguments(self, names, count):
        return ", ".join(self.argument(names) for _ in range(count))

    def space(self, depth, names):
        """An expression that often gives a space."""
        chance = self.draw.random()
        if depth == 0 or chance < 0.35:
            return self.draw.choice(TOPS + CHILDREN + REFERENCES)
        if chance < 0.6:
            return f"{self.space(depth - 1, names)}.{self.draw.choice(CHILDREN + REFERENCES)}"
        opening, closing = self.draw.choice(("[]", "()"))
        return f"{self.space(depth - 1, names)}{opening}{self.arguments(names, self.draw.choice((1, 1, 1, 2)))}{closing}"

    def own_call(self, names):
        name, count = self.draw.choice(CELLS), self.draw.choice((0, 1, 1, 1, 1, 2))
        if self.own and self.draw.random() < 0.85:
            name, cells = self.draw.choice(self.own)
            count = len(cells.formula.params)
        if count and self.draw.random() < 0.3:
            return f"{name}[{self.arguments(names, count)}]"
        return f"{name}({self.arguments(names, count)})"

    def other_call(self, names):
        """A call of cells through a space."""
        if not self.others or self.draw.random() < 0.4:
            return f"{self.space(1, names)}.{self.draw.choice(CELLS)}({self.arguments(names, self.draw.choice((0, 1, 1, 1, 2)))})"
        path, name, cells = self.draw.choice(self.others)
        way = ""
        for place, part in enumerate(path):
            way += ("." if place else "") + part
            params = self.model.params(path[:place + 1])
            if params is not None and self.draw.random() < 0.6:
                way += f"[{self.arguments(names, len(params.params))}]"
        if self.references and self.draw.random() < 0.3:
            way = self.draw.choice(self.references)
        return f"{way}.{name}({self.arguments(names, len(cells.formula.params))})"

    def entry(self, names):
        """A table with subscripts, mostly a whole number and the name of a column."""
        subscripts = [self.argument(names), f'"{self.draw.choice(COLUMNS[1:])}"']
        if self.draw.random() < 0.15:
            self.draw.choice((subscripts.pop, subscripts.reverse, lambda: subscripts.append("0")))()
        return f"{self.draw.choice(self.tables)}[{', '.join(subscripts)}]"

    def expression(self, depth, names):
        draw, chance = self.draw, self.draw.random()
        inner = lambda: self.expression(depth - 1, names)
        if self.tables and draw.random() < 0.25:
            return self.entry(names)
        if depth == 0 or chance < 0.15:
            pool = names if names and draw.random() < 0.6 else self.references if self.references and draw.random() < 0.4 else LITERALS
            return draw.choice(pool)
        if chance < 0.36:
            return self.own_call(names)
        if chance < 0.58:
            return self.other_call(names)
        if chance < 0.66:
            return f"{self.space(2, names)}.{draw.choice(REFERENCES + CELLS)}"
        if chance < 0.78:
            return f"({inner()} {draw.choice('+-*')} {inner()})"
        if chance < 0.83:
            return f"({inner()} if {inner()} else {inner()})"
        if chance < 0.87:
            return f"({inner()} is None)" if draw.random() < 0.3 else f"({inner()} {draw.choice(('<', '==', 'in'))} {inner()})"
        if chance < 0.90:
            return f"({inner()}, {inner()})"
        if chance < 0.93:
            each = self.expression(depth - 1, names + ["k"])
            return f"{draw.choice(('any', 'sum', 'len', 'tuple'))}({each} for k in ({inner()}, {inner()}))"
        if chance < 0.97:
            return f"{draw.choice(('sum', 'len', 'max', 'str', 'abs'))}({inner()})"
        return self.space(2, names)

    def params(self, least):
        names = list(PARAMETERS[:max(least, self.draw.choice((0, 1, 1, 1, 1, 2)))])
        written = list(names)
        if names and self.draw.random() < 0.3:
            written[-1] += "=" + self.draw.choice(("0", "1", "2.0", '"s"'))
        return names, f"({', '.join(written)})"

    def cells(self):
        names, params = self.params(0)
        value = self.expression(self.draw.choice((1, 2, 2, 3)), names)
        if names:
            lowest = self.draw.choice(("0", "1", "5", "None", "0.5"))
            value = f"{lowest} if {names[0]} == 0 else 7 if {names[0]} in (-1, -2, -3, -4) else {value}"
        if self.draw.random() < 0.75:
            return f"{params} = {value}"
        lines = [f"    u = {value}", f"    if u == {self.draw.choice('01')}:", "        return 3"]
        if self.draw.random() < 0.4:
            lines += ["    for k in (1, 2):", "        u += k"]
        return "\n".join([f"{params}:", *lines, *["    return u"] * (self.draw.random() < 0.8)])

    def item(self):
        """The parameters of a space, often with a formula of its items."""
        names, params = self.params(1)
        if self.draw.random() < 0.45:
            return params
        if self.draw.random() < 0.1:
            return f"{params} = {self.expression(1, names)}"
        parts = []
        if self.draw.random() < 0.7:
            refs = self.draw.sample(REFERENCES + ("n",), self.draw.choice((1, 1, 2)))
            parts.append('"refs": {' + ", ".join(f'"{name}": {self.expression(1, names)}' for name in refs) + "}")
        if self.draw.random() < 0.6:
            parts.append(f'"base": {self.space(1, names) if self.draw.random() < 0.3 else self.draw.choice(TOPS)}')
        return f"{params} = {{{', '.join(parts)}}}"


def layers_of(model, path):
    try:
        return model.layers(path) or []
    except NoOrder:
        return []


def tested(model):
    """What an edit is refused for once it was made."""
    on_the_way, done = set(), set()

    def descends(path):
        if path in on_the_way:
            raise Refused("Cycle")
        if path in done:
            return
        on_the_way.add(path)
        for below in [path + (child,) for child in model.children(path)] + list(model.spaces[path].bases):
            descends(below)
        on_the_way.remove(path)
        done.add(path)

    for path in model.spaces:
        descends(path)
    for path, layers in model.static_paths():
        if layers is None:
            raise Refused(f"NoOrder {dotted(path)}")


def space_of(model, path):
    if path not in model.spaces:
        raise Refused("NoSuchSpace")
    return model.spaces[path]


class Script:
    """A script that is drawn and answered command by command."""

    def __init__(self, draw):
        self.draw, self.engine, self.rows, self.files = draw, Engine(), [], 0
        for _ in range(draw.randint(3, 8)):
            self.new_space()
        for _ in range(draw.randint(1, 3)):
            self.set_table()
            self.set_reference(self.table())
        for _ in range(draw.randint(4, 12)):
            self.set_cells()
        for _ in range(4):
            draw.choice((self.set_reference, self.set_params, self.set_bases))()

    def add(self, command, lines):
        self.rows.append((command, "; ".join(lines)))

    def edit(self, command, change):
        self.add(command, self.engine.edit(change))

    # What is drawn

    def path(self):
        draw, paths = self.draw, list(self.engine.model.spaces) or [("Main",)]
        chance = draw.random()
        if chance < 0.75:
            return draw.choice(paths)
        return draw.choice(paths) + (draw.choice(CHILDREN),) if chance < 0.95 else (draw.choice(TOPS), draw.choice(CHILDREN))

    def static_path(self):
        paths = [path for path, _ in self.engine.model.static_paths()]
        return self.draw.choice(paths) if paths and self.draw.random() < 0.85 else self.path()

    def formulas(self, path):
        return Formulas(self.draw, self.engine.model, path)

    def values(self, count):
        return tuple(literal(self.draw.choice(LITERALS)) if self.draw.random() < 0.1 else self.draw.randint(0, 2) for _ in range(count))

    def node(self):
        draw, model, path = self.draw, self.engine.model, self.static_path()
        at = ()
        for place, name in enumerate(path):
            at += (name,)
            if model.params(path[:place + 1]) is not None and draw.random() < 0.7:
                at += (Item(self.values(draw.choice((1, 1, 1, 1, 2)))),)
        if isinstance(at[-1], Item) and draw.random() < 0.35:
            return Node(at[:-1], None, at[-1].args)
        names = [name for layer in layers_of(model, path) for name in model.spaces[layer].cells]
        name = draw.choice(names) if names and draw.random() < 0.93 else draw.choice(CELLS)
        cells = model.cells(path, name)
        return Node(at, name, self.values(len(cells.formula.params) if cells and draw.random() < 0.93 else draw.randint(0, 2)))

    def held_node(self):
        runs = list(self.engine.held.values())
        return self.draw.choice(runs).node if runs else self.node()

    # Edits

    def new_space(self):
        parent = self.draw.choice([()] * 3 + list(self.engine.model.spaces))
        path = parent + (self.draw.choice(CHILDREN if parent else TOPS),)

        def change(model):
            taken = {p[0] for p in model.spaces} | model.globals.keys()
            if parent:
                record = space_of(model, parent)
                taken = record.cells.keys() | record.refs.keys() | set(model.children(parent))
            if path[-1] in taken:
                raise Refused("NameTaken")
            model.spaces[path] = Record()
            tested(model)

        self.edit(f"space {dotted(path)}", change)

    def delete_space(self):
        path = self.path()

        def change(model):
            space_of(model, path)
            gone = {p for p in model.spaces if p[:len(path)] == path}
            for other, record in model.spaces.items():
                if other not in gone and not gone.isdisjoint(record.bases):
                    raise Refused(f"InUse {dotted(other)}")
            model.spaces = {p: record for p, record in model.spaces.items() if p not in gone}
            tested(model)

        self.edit(f"unspace {dotted(path)}", change)

    def set_bases(self):
        path, bases = self.path(), tuple(self.path() for _ in range(self.draw.choice((0, 1, 1, 1, 2, 2, 3))))

        def change(model):
            for p in (path, *bases):
                space_of(model, p)
            if len(set(bases)) < len(bases):
                raise Refused("BadValue")
            model.spaces[path].bases = bases
            tested(model)

        self.edit(f"bases {dotted(path)}" + (": " + ", ".join(map(dotted, bases)) if bases else ""), change)

    def set_cells(self):
        path, name = self.path(), self.draw.choice(CELLS)
        written = self.formulas(path).cells()

        def change(model):
            record = space_of(model, path)
            if name in record.refs or name in model.children(path):
                raise Refused("NameTaken")
            record.cells[name] = Cells(Formula.of(written), name in record.cells and record.cells[name].allows_none)

        self.edit(f"{self.draw.choice(('cells', 'def'))} {dotted(path)}.{name}{written}", change)

    def own_cells(self, word, then):
        path, name = self.path(), self.draw.choice(CELLS)

        def change(model):
            record = space_of(model, path)
            if name not in record.cells:
                raise Refused("NoSuchMember")
            then(record.cells, name)

        self.edit(f"{word} {dotted(path)}.{name}", change)

    def delete_cells(self):
        self.own_cells("uncells", lambda cells, name: cells.pop(name))

    def allow(self):
        word = self.draw.choice(("allow", "allow", "disallow"))
        self.own_cells(word, lambda cells, name: cells.update({name: Cells(cells[name].formula, word == "allow")}))

    def target(self):
        path = self.static_path() + ((self.draw.choice(CELLS + CHILDREN),) if self.draw.random() < 0.3 else ())
        return Target(path, self.draw.random() < 0.4)

    def table(self):
        tables = [*self.engine.model.tables]
        return TableValue(self.draw.choice(tables if tables and self.draw.random() < 0.9 else TABLES))

    def set_reference(self, value=None):
        draw, name = self.draw, self.draw.choice(REFERENCES)
        path = () if draw.random() < 0.25 else self.path()
        chance = draw.random()
        if value is None:
            value = literal(draw.choice(LITERALS)) if chance < 0.35 else self.table() if chance < 0.5 else self.target()
        written = (f"table {value.name}" if isinstance(value, TableValue) else text(value) if not isinstance(value, Target)
                   else f"{'abs' if value.fixed else 'to'} {dotted(value.path)}")

        def change(model):
            record = path and space_of(model, path)
            if isinstance(value, Target) and model.layers(value.path) is None and (
                    len(value.path) < 2 or model.cells(value.path[:-1], value.path[-1]) is None):
                raise Refused("NoSuchMember")
            if isinstance(value, TableValue) and value.name not in model.tables:
                raise Refused("NoSuchMember")
            if name in (record.cells.keys() | set(model.children(path)) if path else {p[0] for p in model.spaces}):
                raise Refused("NameTaken")
            (record.refs if path else model.globals)[name] = value

        self.edit(f"ref {dotted(path)}.{name} = {written}" if path else f"global {name} = {written}", change)

    def delete_reference(self):
        name, path = self.draw.choice(REFERENCES), () if self.draw.random() < 0.3 else self.path()

        def change(model):
            refs = space_of(model, path).refs if path else model.globals
            if name not in refs:
                raise Refused("NoSuchMember")
            del refs[name]

        self.edit(f"unref {dotted(path)}.{name}" if path else f"unglobal {name}", change)

    def table_lines(self):
        """The lines of a table's file, at times with something wrong in them."""
        draw = self.draw
        records = [[str(number), draw.choice(NUMBERS), draw.choice(NUMBERS)] for number in draw.sample(range(-1, 4), draw.randint(2, 5))]
        lines, chance = [list(COLUMNS), *records], draw.random()
        if chance < 0.1:
            draw.choice(lines)[draw.randrange(3)] = draw.choice(NO_NUMBERS)
        elif chance < 0.2:
            lines.insert(draw.randrange(len(lines) + 1), draw.choice(lines)[:draw.randint(2, 3)])
        return [",".join(fields) for fields in lines]

    def set_table(self):
        name, lines, self.files = self.draw.choice(TABLES), self.table_lines(), self.files + 1
        file = f"{self.files}.csv"
        if self.draw.random() < 0.05:
            return self.add(f"table {name} {file}", [f"refused: missing {file}"])
        self.rows.append((f"file {file} {'; '.join(lines)}", "ok"))
        table = "".join(f"{line}\n" for line in lines).encode()
        self.edit(f"table {name} {file}", lambda model: model.tables.update({name: table_of(table)}))

    def set_params(self):
        path = self.path()
        written = self.formulas(path).item() if self.draw.random() < 0.85 else None

        def change(model):
            record = space_of(model, path)
            if written is None and record.params is None:
                raise Refused("NoSuchMember")
            record.params = written and Formula.of(written)

        self.edit(f"params {dotted(path)}{written}" if written else f"unparams {dotted(path)}", change)

    def set_input(self):
        node = self.node()
        if node.name is None:
            return
        value = literal(self.draw.choice(LITERALS)) if self.draw.random() < 0.7 else ...

        def change(model):
            bound = node
            if all(isinstance(segment, str) for segment in node.at):
                if model.layers(node.at) is None:
                    raise Refused("NoSuchSpace")
                cells = model.cells(node.at, node.name)
                if cells is None:
                    raise Refused("NoSuchMember")
                args = cells.formula.bind(node.args)
                if args is None:
                    raise Refused("WrongCount")
                bound = Node(node.at, node.name, args)
            else:
                raise Refused("ItemAddress")
            if value is None or value is ... and key(bound) not in model.inputs:
                raise Refused("BadValue")
            if value is ...:
                del model.inputs[key(bound)]
            else:
                model.inputs[key(bound)] = bound, value

        self.edit(f"uninput {text(node)}" if value is ... else f"input {text(node)} = {text(value)}", change)

    # What is asked

    def clear(self):
        node, chance = self.held_node(), self.draw.random()
        if chance < 0.15:
            command, goes = "clear all", lambda run: True
        elif chance < 0.4:
            command, goes = f"clear node {text(node)}", lambda run: key(run.node) == key(node)
        elif chance < 0.7:
            whole = node.at + ((Item(node.args),) if node.name is None else ())
            at = whole[:self.draw.randint(1, len(whole))]
            command = "clear space " + text(Space(at))[len("<space "):-1]
            goes = lambda run: key((run.node.at + ((Item(run.node.args),) if run.node.name is None else ()))[:len(at)]) == key(at)
        elif node.name is None:
            return
        else:
            command = "clear cells " + text(CellsAt(node.at, node.name))[len("<cells "):-1]
            goes = lambda run: run.node.name == node.name and key(run.node.at) == key(node.at)
        self.add(command, [f"cleared {self.engine.dropped(goes)}"])

    def ask(self):
        node, chance, engine = self.node(), self.draw.random(), self.engine
        if chance < 0.7:
            self.add(f"eval {text(node)}", engine.eval(node))
        elif chance < 0.85:
            self.add(f"precedents {text(node)}", engine.precedents(node))
        elif chance < 0.93:
            node = self.held_node()
            self.add(f"succs {text(node)}", engine.succs(node))
        else:
            self.add(f"held {text(node)}", ["held" if key(node) in engine.held else "not held"])

    def order(self):
        path = self.static_path()
        layers = self.engine.model.layers(path)
        self.add(f"order {dotted(path)}", ["refused: NoSuchSpace"] if layers is None else ["order " + ", ".join(map(dotted, layers))])

    def set_limit(self):
        limit = self.draw.choice((0, 1, 2, 3, 4, 6, 5_000, 5_000, 100_001))
        if 1 <= limit <= 100_000:
            self.engine.limit = limit
        self.add(f"limit {limit}", ["ok" if 1 <= limit <= 100_000 else "refused: BadLimit"])

    def go_on(self, steps):
        kinds = {self.set_cells: 14, self.delete_cells: 2, self.allow: 2, self.set_table: 4, self.new_space: 4, self.delete_space: 1.5,
                 self.set_bases: 6, self.set_reference: 9, self.delete_reference: 1.5, self.set_params: 6, self.set_input: 4, self.clear: 4,
                 self.ask: 45, self.order: 3, self.set_limit: 2}
        for _ in range(steps):
            self.draw.choices(list(kinds), kinds.values())[0]()
            if self.draw.random() < 0.25:
                self.add("held", [f"held {len(self.engine.held)}"])


def scripts(count, steps, seed):
    """So many scripts with their answers."""
    sys.setrecursionlimit(DEEPEST)
    draw, made = random.Random(seed), []
    while len(made) < count:
        script = Script(random.Random(draw.random()))
        try:
            script.go_on(steps)
        except RecursionError:
            continue
        made.append(script.rows)
    return made


def groups():
    return [(f"a random script, the {number}th", rows) for number, rows in enumerate(scripts(24, 90, 2026), 1)]


def main():
    """Runs other scripts through the program."""
    count, seed = (int(word) for word in (sys.argv[1:] + ["100", "1"][len(sys.argv) - 1:])[:2])
    made = scripts(count, 120, seed)
    for rows in made:
        why = difference(rows)
        if why is not None:
            print(why)
            return 1
    print(f"{sum(len(apart(rows)[1]) for rows in made)} blocks of {count} scripts agree")
    return 0


if __name__ == "__main__":
    sys.exit(main())
