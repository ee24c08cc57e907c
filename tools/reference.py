"""The rules of the engine, read a second time: model texts, tables from files, what nodes mean with nothing kept, and which stay held.

Nothing here stands on the engine. It follows the rules of docs/SPECIFICATION.md as plainly as it can: a node's value is computed by running
its formula, layers are merged anew for each path, and what an edit drops is found by asking every key of every held node in both
texts. A formula is read by Python's own parser, a file of a table by Python's own reader of comma-separated values, and operators are
those of tools/operator_vectors.py. It has no limits on sizes and counts but that on chains and those of a table.
"""
import ast
import csv
import io
import re
import warnings
from dataclasses import dataclass, field, replace
from fractions import Fraction

from operator_vectors import CALLS, Fault, d, fixed_points, is_number
from operator_vectors import text as plain_text

# Python warns of a call of a number.
warnings.filterwarnings("ignore", category=SyntaxWarning)

OPERATORS = {ast.Add: "Add", ast.Sub: "Sub", ast.Mult: "Mul", ast.Div: "Div", ast.FloorDiv: "FloorDiv", ast.Mod: "Rem", ast.Pow: "Pow",
             ast.USub: "Neg", ast.UAdd: "Plus", ast.Eq: "Eq", ast.NotEq: "Ne", ast.Lt: "Lt", ast.LtE: "Le", ast.Gt: "Gt", ast.GtE: "Ge",
             ast.In: "In", ast.NotIn: "NotIn"}
BUILTINS = {"abs", "min", "max", "sum", "len", "round", "int", "fixed", "nroot", "any", "all", "tuple", "str", "range"}
MISSING = ("missing",)


class Refused(Exception):
    pass


# Values and nodes


@dataclass(frozen=True)
class Item:
    """The segment of an address that an item space adds."""
    args: tuple


@dataclass(frozen=True)
class Space:
    at: tuple


@dataclass(frozen=True)
class CellsAt:
    at: tuple
    name: str


@dataclass(frozen=True)
class TableValue:
    """A table as formulas hand it on."""
    name: str


@dataclass(frozen=True)
class Builtin:
    name: str


@dataclass(frozen=True)
class Node:
    """Cells with arguments, or an item of a space where there is no name."""
    at: tuple
    name: str
    args: tuple


@dataclass(frozen=True)
class Namespace:
    at: tuple
    source: tuple
    overlay: tuple


def key(thing):
    """By what two values, addresses or nodes are told apart: `True` and `1` are different keys."""
    match thing:
        case tuple():
            return tuple(map(key, thing))
        case Item() | Space():
            return type(thing).__name__, key(thing.args if isinstance(thing, Item) else thing.at)
        case Node():
            return key(thing.at), thing.name, key(thing.args)
        case CellsAt():
            return "CellsAt", key(thing.at), thing.name
    return type(thing).__name__, thing


def address_text(at):
    names = [segment if isinstance(segment, str) else f"[{', '.join(map(text, segment.args))}]" for segment in at]
    return "".join(f".{name}" if place and not name.startswith("[") else name for place, name in enumerate(names))


def text(value):
    match value:
        case Space():
            return f"<space {address_text(value.at)}>"
        case CellsAt():
            return f"<cells {address_text(value.at)}.{value.name}>"
        case TableValue():
            return f"<table {value.name}>"
        case tuple():
            return f"({', '.join(map(text, value))}{',' * (len(value) == 1)})"
        case Node():
            at = address_text(value.at)
            args = ", ".join(map(text, value.args))
            return f"{at}[{args}]" if value.name is None else f"{at}.{value.name}({args})"
    return plain_text(value)


def is_plain(value):
    return all(map(is_plain, value)) if isinstance(value, tuple) else not isinstance(value, (Space, CellsAt, TableValue))


def normal(value):
    """A whole decimal number is passed as the whole number."""
    if isinstance(value, tuple):
        return tuple(map(normal, value))
    return int(value) if is_number(value) and not isinstance(value, bool) and value == int(value) else value


def truth(value):
    if isinstance(value, (Space, CellsAt, TableValue)):
        raise Fault("TypeMismatch")
    return bool(value)


def applied(op, *operands):
    """What an operator or builtin gives, by its name there."""
    if op in ("Any", "All") and len(operands) == 1 and isinstance(operands[0], tuple):
        return next((op == "Any" for item in operands[0] if truth(item) == (op == "Any")), op == "All")
    if op == "Str" and len(operands) == 1 and not is_plain(operands[0]):
        raise Fault("TypeMismatch")
    try:
        return fixed_points(CALLS[op](*operands))
    except TypeError:
        raise Fault("TypeMismatch") from None


def literal(source):
    """A value as a script writes it."""
    return literal_of(ast.parse(source, mode="eval").body, source)


def literal_of(tree, source):
    match tree:
        case ast.Tuple():
            return tuple(literal_of(item, source) for item in tree.elts)
        case ast.UnaryOp():
            return applied("Neg", literal_of(tree.operand, source))
    return d(ast.get_source_segment(source, tree)) if isinstance(tree.value, float) else tree.value


# Tables

INT, DECIMAL = re.compile(r"-?(?:0|[1-9]\d*)"), re.compile(r"-?(?:0|[1-9]\d*)\.\d{1,9}")


def number(field):
    """The number that a field says, or None."""
    if INT.fullmatch(field):
        return int(field) if -2**63 <= int(field) < 2**63 else None
    return d(field) if DECIMAL.fullmatch(field) and abs(Fraction(field)) <= 10**10 else None


def records_of(file):
    """The records of a file, which is given as its bytes."""
    lines = io.StringIO(file.removeprefix(b"\xef\xbb\xbf").decode("latin-1"), newline=None)
    return [record for record in csv.reader(lines) if record]


def table_of(file):
    """The columns of the table that a file says, and its rows by their keys."""
    head, *records = records_of(file) or [[]]
    if len(head) > 120 or len(records) > 10_000:
        raise Refused("too big")
    if len(head) < 2 or len(set(head)) < len(head) or not all(re.fullmatch(r"[ -~]{1,64}", name) for name in head):
        raise Refused("bad row 0")
    rows = {}
    for at, record in enumerate(records, 1):
        if len(record) != len(head):
            raise Refused(f"bad row {at}")
        numbers = [number(field) for field in record]
        if None in numbers[1:]:
            raise Refused(f"bad number {at} {numbers.index(None, 1)}")
        if not isinstance(numbers[0], int) or numbers[0] in rows:
            raise Refused(f"bad row {at}")
        rows[numbers[0]] = tuple(numbers[1:])
    return tuple(head[1:]), tuple(rows.items())


# Formulas and model texts


@dataclass(frozen=True)
class Formula:
    """`(n, m=1) = EXPR`, or `(n):` with statements in lines of their own, or parameters alone."""
    written: str
    params: tuple = field(compare=False)
    source: str = field(compare=False)
    body: tuple = field(compare=False)
    in_lines: bool = field(compare=False)

    @staticmethod
    def of(written):
        head, lines, block = written.partition(":\n")
        params, equals, value = (head, "", "") if lines else written.partition(" = ")
        source = f"def f{head}:\n{block}" if lines else f"def f{params}: return {value}" if equals else f"def f{params}: pass"
        tree = ast.parse(source).body[0]
        names, defaults = [arg.arg for arg in tree.args.args], tree.args.defaults
        given = [MISSING] * (len(names) - len(defaults)) + [literal_of(default, source) for default in defaults]
        body = tuple(tree.body) if lines or equals else ()
        in_lines = bool(lines) and not (len(body) == 1 and isinstance(body[0], ast.Return))
        return Formula(written, tuple(zip(names, given)), source, body, in_lines)

    def locals(self):
        """The names that the body binds outside generators."""
        trees = [tree for statement in self.body for tree in ast.walk(statement)]
        bound = [tree.targets[0] if isinstance(tree, ast.Assign) else tree.target
                 for tree in trees if isinstance(tree, (ast.Assign, ast.AugAssign, ast.For))]
        return [name for name, _ in self.params] + [name.id for name in bound]

    def bind(self, args):
        """Full arguments, or None where they do not bind."""
        full = list(args) + [default for _, default in self.params[len(args):]]
        return None if len(args) > len(self.params) or MISSING in full else tuple(map(normal, full))


@dataclass(frozen=True)
class Cells:
    formula: Formula
    allows_none: bool


@dataclass(frozen=True)
class Target:
    path: tuple
    fixed: bool


@dataclass
class Record:
    """A defined space."""
    bases: tuple = ()
    params: Formula = None
    cells: dict = field(default_factory=dict)
    refs: dict = field(default_factory=dict)

    def copy(self):
        return Record(self.bases, self.params, dict(self.cells), dict(self.refs))


def merged(lists):
    """The C3 merge of some lists, or None."""
    lists, order = [list(items) for items in lists], []
    while lists := [items for items in lists if items]:
        head = next((items[0] for items in lists if not any(items[0] in other[1:] for other in lists)), None)
        if head is None:
            return None
        order.append(head)
        lists = [items[1:] if items[0] == head else items for items in lists]
    return order


class NoOrder(Exception):
    pass


class ModelText:
    def __init__(self):
        self.spaces, self.globals, self.inputs, self.tables = {("Main",): Record()}, {}, {}, {}

    def copy(self):
        other = ModelText()
        other.spaces = {path: record.copy() for path, record in self.spaces.items()}
        other.globals, other.inputs, other.tables = dict(self.globals), dict(self.inputs), dict(self.tables)
        return other

    def children(self, path):
        return [p[-1] for p in self.spaces if p[:-1] == path and len(p) == len(path) + 1]

    def linearised(self, path):
        bases = self.spaces[path].bases
        order = merged([*map(self.linearised, bases), bases])
        if order is None:
            raise NoOrder
        return [path] + order

    def layers(self, path):
        """The defined spaces that a static path is made of. None for another path."""
        if len(path) <= 1:
            return self.linearised(path) if path in self.spaces else None
        above = self.layers(path[:-1]) or ()
        children = [layer + path[-1:] for layer in above if layer + path[-1:] in self.spaces]
        if not children:
            return None
        order = merged([*map(self.linearised, children), children])
        if order is None:
            raise NoOrder
        return order

    def static_paths(self):
        """All of them, by length and then by the bytes of their texts. Each with its layers, None where they have no order."""
        found, paths = [], [path for path in self.spaces if len(path) == 1]
        while paths:
            further = set()
            for path in sorted(paths, key=lambda path: ".".join(path).encode()):
                try:
                    layers = self.layers(path)
                except NoOrder:
                    layers = None
                found.append((path, layers))
                further |= {path + (child,) for layer in layers or () for child in self.children(layer)}
            paths = further
        return found

    def member(self, path, name):
        """What a path binds a name to: cells, a reference with the space that defines it, or a child."""
        for layer in self.layers(path) or ():
            record = self.spaces[layer]
            if name in record.cells:
                return "cells", record.cells[name]
            if name in record.refs:
                return "reference", record.refs[name], layer
            if layer + (name,) in self.spaces:
                return ("child",)
        return MISSING

    def cells(self, path, name):
        found = self.member(path, name)
        return found[1] if found[0] == "cells" else None

    def params(self, path):
        own = [self.spaces[layer].params for layer in self.layers(path) or ()]
        return next((params for params in own if params is not None), None)

    def found(self, looked):
        """What a key leads to."""
        match looked:
            case "Name", path, name:
                member = self.member(path, name)
                return ("cells",) if member[0] == "cells" else key_of_member(member)
            case "Global", name:
                return key_of_value(self.globals[name]) if name in self.globals else MISSING
            case "Cells", path, name:
                return self.cells(path, name)
            case "Params", path:
                return self.params(path)
            case "Exists", path:
                return self.layers(path) is not None
            case "Input", node:
                return key(self.inputs[node][1]) if node in self.inputs else MISSING
            case "Table", name:
                return key(self.tables.get(name, MISSING))


def key_of_value(value):
    return value if isinstance(value, Target) else key(value)


def key_of_member(member):
    return (member[0], key_of_value(member[1]), member[2]) if member[0] == "reference" else member


# What nodes mean


class Ended(Exception):
    """A run ended without a value: `no such node`, `wrong count` or a fault, in the words of the answer."""


class Ring(Exception):
    pass


class Returned(Exception):
    pass


class Meaning:
    """What nodes mean by a model text. Each is run once here, since its meaning stays the same as long as the text does."""

    def __init__(self, model):
        self.model, self.runs, self.open = model, {}, {}

    def run(self, node):
        """The run of a node, with its value or how it ended. Raises Ring where it comes to none of these."""
        name = key(node)
        if name in self.open:
            nodes = [run.node for run in self.open.values()]
            raise Ring(nodes[list(self.open).index(name):])
        if name not in self.runs:
            run = self.open[name] = Run(self, node)
            try:
                run.go()
                self.runs[name] = run
            except Ring:
                run.is_stuck = True
                self.stuck[name] = run
                raise
            finally:
                del self.open[name]
        return self.runs[name]

    def answer(self, node):
        """The run of a node, and the ring that it came to, where it did."""
        self.stuck = {}
        try:
            return self.run(node), None
        except Ring as ring:
            return self.stuck[key(node)], ring.args[0]

    def bound(self, node):
        """The bound form of a node, or the node where it has none. The items on its way are asked."""
        self.stuck = {}
        walker = Run(self, node)
        try:
            namespace = walker.walk(node.at)
        except (Ended, Ring):
            return node
        formula = self.model.params(namespace.source) if node.name is None else self.model.cells(namespace.source, node.name)
        if formula is None:
            return node
        args = (formula if node.name is None else formula.formula).bind(node.args)
        return node if args is None else Node(namespace.at, node.name, args)

    def reached(self, node):
        """Each node that a node reaches, with its run."""
        found, left = {}, [node]
        while left:
            run = self.runs.get(key(left[-1])) or self.stuck[key(left[-1])]
            name = key(left.pop())
            if name not in found:
                found[name] = run
                left += run.asked.values()
        return found


class Run:
    """The run of one node: what it asked, looked up and read, each once and in order."""

    def __init__(self, meaning, node):
        self.meaning, self.model, self.node = meaning, meaning.model, node
        self.asked, self.looked, self.read, self.line = {}, [], {}, 1
        self.value = self.ending = self.namespace = self.home = None
        self.is_input = self.is_stuck = False

    def has_value(self):
        return not self.is_stuck and self.ending is None

    def look(self, *looked):
        if looked not in self.looked:
            self.looked.append(looked)

    def ask(self, node):
        self.asked.setdefault(key(node), node)
        self.read.setdefault(key(node), text(node))
        run = self.meaning.run(node)
        if run.ending is not None:
            raise Ended(run.ending)
        return run

    def fault(self, kind, line=None):
        return Ended(f"fault {kind} at {text(self.node)} line {line or self.line}")

    def go(self):
        try:
            self.value = self.item() if self.node.name is None else self.cells()
        except Ended as ending:
            self.ending = ending.args[0]
        except Fault as fault:
            self.ending = self.fault(fault.args[0]).args[0]

    def walk(self, at):
        """The namespace that an address leads to."""
        namespace = Namespace((), (), ())
        for segment in at:
            if isinstance(segment, str):
                namespace = replace(namespace, at=namespace.at + (segment,), source=namespace.source + (segment,))
                continue
            formula = self.model.params(namespace.source)
            if formula is None or not isinstance(namespace.at[-1], str):
                raise Ended("no such node")
            args = formula.bind(segment.args)
            if args is None:
                raise Ended("wrong count")
            namespace = self.ask(Node(namespace.at, None, args)).namespace
        return namespace

    def begin(self, formula, args):
        if formula is None:
            raise Ended("no such node")
        bound = formula.bind(args)
        if bound is None:
            raise Ended("wrong count")
        return bound

    def cells(self):
        node = self.node
        if all(isinstance(segment, str) for segment in node.at):
            self.look("Input", key(node))
            if key(node) in self.model.inputs:
                self.is_input = True
                return self.model.inputs[key(node)][1]
        self.home = self.walk(node.at)
        self.look("Cells", self.home.source, node.name)
        found = self.model.cells(self.home.source, node.name)
        args = self.begin(found and found.formula, node.args)
        value = self.returned(found.formula, args)
        if value is None and not found.allows_none:
            raise self.fault("NoneReturned", 1)
        return value

    def item(self):
        self.home = home = self.walk(self.node.at)
        self.look("Params", home.source)
        formula = self.model.params(home.source) if isinstance(home.at[-1], str) else None
        args = self.begin(formula, self.node.args)
        overlay, source = dict(home.overlay) | {name: value for (name, _), value in zip(formula.params, args)}, home.source
        display = self.returned(formula, args)
        if isinstance(display, dict):
            overlay |= display.get("refs", {})
            if "base" in display:
                base = display["base"]
                if not isinstance(base, Space) or not all(isinstance(segment, str) for segment in base.at):
                    raise self.fault("BadItem", 1)
                source = base.at
        elif display is not None:
            raise self.fault("BadItem", 1)
        self.namespace = Namespace(home.at + (Item(args),), source, tuple(overlay.items()))
        return Space(self.namespace.at)

    # Names

    def sought(self, space, name):
        """What a namespace has under a name."""
        if name in dict(space.overlay):
            return dict(space.overlay)[name]
        self.look("Name", space.source, name)
        member = self.model.member(space.source, name)
        match member[0]:
            case "cells":
                return CellsAt(space.at, name)
            case "child":
                return Space(space.at + (name,))
            case "reference":
                self.read.setdefault(("ref", key(space.at), name), f"ref {address_text(space.at)}.{name}")
                return self.referred(member[1], member[2], space)
        return MISSING

    def referred(self, value, owner, space):
        """The value of a reference."""
        if not isinstance(value, Target):
            return value
        at = tested = value.path
        if owner and not value.fixed and value.path[:len(owner)] == owner:
            at, tested = (place + value.path[len(owner):] for place in (space.at, space.source))
        self.look("Exists", tested)
        if self.model.layers(tested) is not None:
            return Space(at)
        if len(tested) >= 2:
            self.look("Name", tested[:-1], tested[-1])
            if self.model.cells(tested[:-1], tested[-1]) is not None:
                return CellsAt(at[:-1], tested[-1])
        raise Fault("NoName")

    def name(self, name, local, is_called=False):
        if name in local:
            if local[name] is MISSING:
                raise Fault("UnsetLocal")
            return local[name]
        value = self.sought(self.home, name)
        if value is not MISSING:
            return value
        self.look("Global", name)
        if name in self.model.globals:
            self.read.setdefault(("global", name), f"global {name}")
            return self.referred(self.model.globals[name], (), self.home)
        if is_called and name in BUILTINS:
            return Builtin(name)
        raise Fault("NoName")

    def called(self, what, args):
        if isinstance(what, Builtin):
            return applied(what.name.capitalize(), *args)
        if not isinstance(what, (Space, CellsAt)):
            raise Fault("NotCallable")
        space, name = self.walk(what.at), getattr(what, "name", None)
        self.look(*(("Params", space.source) if name is None else ("Cells", space.source, name)))
        if name is None:
            formula = self.model.params(space.source) if isinstance(space.at[-1], str) else None
        else:
            found = self.model.cells(space.source, name)
            formula = found and found.formula
        if formula is None:
            raise Fault("NotCallable")
        if not is_plain(args):
            raise Fault("TypeMismatch")
        bound = formula.bind(args)
        if bound is None:
            raise Fault("WrongCountInside")
        return self.ask(Node(space.at, name, bound)).value

    # Statements and expressions

    def returned(self, formula, args):
        """What a formula gives: None where its body ends, a dict where it gives a display."""
        local = dict.fromkeys(formula.locals(), MISSING) | {name: value for (name, _), value in zip(formula.params, args)}
        self.formula = formula
        try:
            self.does(formula.body, local)
        except Returned as returned:
            return returned.args[0]
        return None

    def does(self, statements, local):
        for statement in statements:
            self.line = statement.lineno if self.formula.in_lines else 1
            match statement:
                case ast.Return():
                    value = self.display if isinstance(statement.value, ast.Dict) else self.of
                    raise Returned(value(statement.value, local))
                case ast.Assign():
                    local[statement.targets[0].id] = self.of(statement.value, local)
                case ast.AugAssign():
                    before = self.name(statement.target.id, local)
                    local[statement.target.id] = applied(OPERATORS[type(statement.op)], before, self.of(statement.value, local))
                case ast.If():
                    self.does(statement.body if truth(self.of(statement.test, local)) else statement.orelse, local)
                case ast.For():
                    for item in self.items(statement.iter, local):
                        local[statement.target.id] = item
                        self.does(statement.body, local)

    def display(self, tree, local):
        parts = {}
        for name, part in zip(tree.keys, tree.values):
            entries = isinstance(part, ast.Dict) and zip(part.keys, part.values)
            parts[name.value] = {k.value: self.of(v, local) for k, v in entries} if entries else self.of(part, local)
            if isinstance(part, ast.Dict) and not part.keys:
                parts[name.value] = {}
        return parts

    def items(self, tree, local):
        value = self.of(tree, local)
        if not isinstance(value, tuple):
            raise Fault("TypeMismatch")
        return value

    def each(self, tree, local):
        """The items of a generator, one after the other."""
        loop = tree.generators[0]
        for item in self.items(loop.iter, local):
            inner = local | {loop.target.id: item}
            if all(truth(self.of(test, inner)) for test in loop.ifs):
                yield self.of(tree.elt, inner)

    def of(self, tree, local):
        """The value of an expression."""
        match tree:
            case ast.Constant():
                return d(ast.get_source_segment(self.formula.source, tree)) if isinstance(tree.value, float) else tree.value
            case ast.Name():
                return self.name(tree.id, local)
            case ast.Tuple():
                return tuple(self.of(item, local) for item in tree.elts)
            case ast.BinOp():
                left = self.of(tree.left, local)
                return applied(OPERATORS[type(tree.op)], left, self.of(tree.right, local))
            case ast.UnaryOp() if isinstance(tree.op, ast.Not):
                return not truth(self.of(tree.operand, local))
            case ast.UnaryOp():
                return applied(OPERATORS[type(tree.op)], self.of(tree.operand, local))
            case ast.BoolOp():
                return self.decided(tree, local)
            case ast.Compare():
                return self.compared(tree, local)
            case ast.IfExp():
                return self.of(tree.body if truth(self.of(tree.test, local)) else tree.orelse, local)
            case ast.Attribute():
                return self.attribute(tree, local)
            case ast.Subscript():
                what = self.of(tree.value, local)
                args = tuple(self.of(part, local) for part in subscripts(tree.slice))
                if isinstance(what, TableValue):
                    return self.entry(what, args)
                if isinstance(what, (tuple, str)):
                    if len(args) != 1 or not is_plain(args):
                        raise Fault("TypeMismatch")
                    return applied("Index", what, args[0])
                return self.called(what, args)
            case ast.Call():
                return self.call(tree, local)
        raise NotImplementedError(ast.dump(tree))

    def entry(self, table, args):
        """The entry of a table, at a whole number and the name of a column."""
        self.look("Table", table.name)
        self.read.setdefault(("table", table.name), f"table {table.name}")
        columns, rows = self.model.tables[table.name]
        if len(args) != 2 or not is_number(args[0]) or not isinstance(args[1], str) or args[0] != int(args[0]):
            raise Fault("TypeMismatch")
        if int(args[0]) not in dict(rows) or args[1] not in columns:
            raise Fault("NoIndex")
        return dict(rows)[int(args[0])][columns.index(args[1])]

    def decided(self, tree, local):
        for part in tree.values:
            value = self.of(part, local)
            if truth(value) == isinstance(tree.op, ast.Or):
                break
        return value

    def compared(self, tree, local):
        left = self.of(tree.left, local)
        for op, part in zip(tree.ops, tree.comparators):
            if isinstance(op, (ast.Is, ast.IsNot)):
                holds, left = (left is None) == isinstance(op, ast.Is), None
            else:
                right = self.of(part, local)
                holds, left = applied(OPERATORS[type(op)], left, right), right
            if not holds:
                return False
        return True

    def attribute(self, tree, local):
        space = self.of(tree.value, local)
        if not isinstance(space, Space):
            raise Fault("TypeMismatch")
        value = self.sought(self.walk(space.at), tree.attr)
        if value is MISSING:
            raise Fault("NoName")
        return value

    def call(self, tree, local):
        what = self.name(tree.func.id, local, is_called=True) if isinstance(tree.func, ast.Name) else self.of(tree.func, local)
        if len(tree.args) != 1 or not isinstance(tree.args[0], ast.GeneratorExp):
            return self.called(what, tuple(self.of(arg, local) for arg in tree.args))
        items = self.each(tree.args[0], local)
        if isinstance(what, Builtin) and what.name in ("any", "all"):
            return next((what.name == "any" for item in items if truth(item) == (what.name == "any")), what.name == "all")
        return self.called(what, (tuple(items),))


def subscripts(tree):
    """The subscripts between two brackets: a tuple in parentheses is one."""
    in_parentheses = isinstance(tree, ast.Tuple) and (not tree.elts or tree.elts[0].col_offset > tree.col_offset)
    return tree.elts if isinstance(tree, ast.Tuple) and not in_parentheses else [tree]


# The engine


class Engine:
    """A model, what is held of it, and the limit on chains. Each call gives the lines of its answer."""

    def __init__(self):
        self.model, self.held, self.limit = ModelText(), {}, 5_000
        self.meaning = Meaning(self.model)

    def too_deep(self, node, reached):
        """The node with which a chain of runs that wait for one another passes the limit, where one does."""
        seen = set()

        def further(node, depth):
            name = key(node)
            if name in self.held or name in seen or reached[name].is_input:
                return None
            if depth > self.limit:
                return node
            seen.add(name)
            return next((deep for asked in reached[name].asked.values() if (deep := further(asked, depth + 1))), None)

        return further(node, 1)

    def evaluated(self, node):
        """The run of a node that is asked from outside, how many nodes are newly held, and the answer where it is no value."""
        node = self.meaning.bound(node)
        run, ring = self.meaning.answer(node)
        reached = self.meaning.reached(node)
        deep = self.too_deep(node, reached)
        if deep is not None:
            return run, 0, f"too deep at {text(deep)}"
        if run.ending in ("no such node", "wrong count"):
            return run, 0, run.ending
        new = {name: other for name, other in reached.items() if other.has_value() and not other.is_input and name not in self.held}
        self.held |= new
        if ring is not None:
            return run, 0, "ring " + " -> ".join(map(text, ring + ring[:1]))
        return run, len(new), run.ending

    def eval(self, node):
        run, new, ending = self.evaluated(node)
        return [ending or f"= {text(run.value)} runs {new}"]

    def precedents(self, node):
        run, _, ending = self.evaluated(node)
        return [ending] if ending else [f"reads {len(run.read)}", *run.read.values()]

    def succs(self, node):
        nodes = sorted((text(run.node) for run in self.held.values() if key(node) in run.asked), key=str.encode)
        return [f"succs {len(nodes)}", *nodes]

    def dropped(self, goes):
        """Drops the held nodes of these runs and all that reach one. Tells how many."""
        gone, grows = {name for name, run in self.held.items() if goes(run)}, True
        while grows:
            more = {name for name, run in self.held.items() if name not in gone and not gone.isdisjoint(run.asked)}
            gone, grows = gone | more, bool(more)
        self.held = {name: run for name, run in self.held.items() if name not in gone}
        return len(gone)

    def edit(self, change):
        """An edit: a function that changes a text or raises Refused."""
        model = self.model.copy()
        try:
            change(model)
        except Refused as refused:
            return [f"refused: {refused}"]
        for name, (node, _) in list(model.inputs.items()):
            cells = model.cells(node.at, node.name)
            if cells is None or len(cells.formula.params) != len(node.args):
                del model.inputs[name]

        before, known = self.model, {}

        def is_changed(looked):
            if looked not in known:
                known[looked] = before.found(looked) != model.found(looked)
            return known[looked]

        inputs = {name for name in before.inputs.keys() | model.inputs.keys() if is_changed(("Input", name))}
        dropped = self.dropped(lambda run: any(map(is_changed, run.looked)) or not inputs.isdisjoint(run.asked))
        self.model, self.meaning = model, Meaning(model)
        for name, run in self.held.items():
            again = self.held[name] = self.meaning.answer(run.node)[0]
            assert key(again.value) == key(run.value), text(run.node)
        return ["ok" if dropped == 0 else f"ok {dropped}"]
