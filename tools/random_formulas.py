"""Random formulas of one space, and what tools/reference.py gives for them, for the rows that tools/rows.py runs.

Each has every kind of value, operator, builtin and statement to draw from, with parentheses only where they are needed, and is run on
two arguments. So the rows show precedence, the order in which parts are computed, each fault and its line.
"""
import random

from reference import Cells, Engine, Formula, Node, literal, text

ARGUMENTS = ("0", "1", "-1", "2", "7", "9223372036854775807", "-9223372036854775808", "10000000001", "0.5", "-2.5", "1.0", "0.000000001",
             "10000000000.0", '"ab"', '""', "True", "None", "(1, 2.5, True)", '("a", (1,))', "()")
LITERALS = ("0", "1", "2", "3", "10", "63", "9223372036854775807", "0.5", "2.5", "1.0", "0.333333333", "10000000000.0",
            '"ab"', '"b\\"c"', "'q'", "True", "False", "None", "()", "(1,)", "(2, 0.5)")
CONDITION, OR, AND, NOT, COMPARISON, SUM, PRODUCT, SIGN, POWER, POST = range(10)
NAMES, LOCALS = ("a", "b"), ("u", "v", "w")
HOME = ("Main",)


class Writer:
    """A formula in the making. A part is its text with how tightly it binds."""

    def __init__(self, draw):
        self.draw = draw

    def part(self, depth, names, least):
        """A part that may stand where something that binds so tightly has to."""
        written, level = self.any(depth, names)
        return written if level >= least else f"({written})"

    def parts(self, depth, names, least, counts):
        return [self.part(depth, names, least) for _ in range(self.draw.choice(counts))]

    def any(self, depth, names):
        if depth <= 0 or self.draw.random() < 0.15:
            return self.draw.choice(names if self.draw.random() < 0.45 else LITERALS), POST
        kinds = {self.sum: 22, self.product: 14, self.sign: 6, self.power: 6, self.negation: 4, self.connective: 7, self.condition: 7,
                 self.comparison: 13, self.tuple: 7, self.subscript: 7, self.call: 13, self.generator: 9}
        return self.draw.choices(list(kinds), kinds.values())[0](depth - 1, names)

    def sum(self, depth, names):
        return f"{self.part(depth, names, SUM)} {self.draw.choice('+-')} {self.part(depth, names, PRODUCT)}", SUM

    def product(self, depth, names):
        op = self.draw.choice(("*", "/", "//", "%"))
        return f"{self.part(depth, names, PRODUCT)} {op} {self.part(depth, names, SIGN)}", PRODUCT

    def sign(self, depth, names):
        return f"{self.draw.choice('-+-')}{self.part(depth, names, SIGN)}", SIGN

    def power(self, depth, names):
        return f"{self.part(depth, names, POST)} ** {self.part(depth, names, SIGN)}", POWER

    def negation(self, depth, names):
        return f"not {self.part(depth, names, NOT)}", NOT

    def connective(self, depth, names):
        word, level = self.draw.choice((("or", OR), ("and", AND)))
        return f" {word} ".join(self.parts(depth, names, level + 1, (2, 2, 3))), level

    def condition(self, depth, names):
        value, test, other = self.part(depth, names, OR), self.part(depth, names, OR), self.part(depth, names, CONDITION)
        return f"{value} if {test} else {other}", CONDITION

    def comparison(self, depth, names):
        written = self.part(depth, names, SUM)
        for _ in range(self.draw.choice((1, 1, 1, 2, 3))):
            op = self.draw.choice(("<", "<=", ">", ">=", "==", "!=", "in", "not in", "is None", "is not None"))
            written += f" {op}" if op.startswith("is") else f" {op} {self.part(depth, names, SUM)}"
        return written, COMPARISON

    def tuple(self, depth, names):
        items = self.parts(depth, names, CONDITION, (0, 1, 2, 3))
        return f"({', '.join(items)}{',' * (len(items) == 1)})", POST

    def subscript(self, depth, names):
        return f"{self.part(depth, names, POST)}[{', '.join(self.parts(depth, names, CONDITION, (1, 1, 1, 1, 2)))}]", POST

    def call(self, depth, names):
        name = self.draw.choice(("abs", "min", "max", "sum", "len", "round", "int", "fixed", "any", "all", "tuple", "str", "range"))
        return f"{name}({', '.join(self.parts(depth, names, CONDITION, (1, 1, 1, 2, 2, 0, 3)))})", POST

    def generator(self, depth, names):
        name, variable = self.draw.choice(("sum", "min", "max", "len", "any", "all", "tuple")), self.draw.choice(("g", "a"))
        inner = names + (variable,)
        items = f"range({self.draw.randint(0, 5)})" if self.draw.random() < 0.4 else self.part(depth, names, OR)
        test = f" if {self.part(depth - 1, inner, OR)}" if self.draw.random() < 0.4 else ""
        return f"{name}({self.part(depth, inner, CONDITION)} for {variable} in {items}{test})", POST

    def statements(self, depth, loops, indent):
        lines, space = [], "    " * indent
        for _ in range(self.draw.randint(1, 3)):
            chance, name = self.draw.random(), self.draw.choice(LOCALS)
            value = self.part(2, NAMES + LOCALS, CONDITION)
            if depth == 0 or chance < 0.35:
                lines.append(f"{space}{name} = {value}")
            elif chance < 0.5:
                lines.append(f"{space}{name} {self.draw.choice('+-*')}= {value}")
            elif chance < 0.65 and loops < 2:
                items = f"range({self.draw.randint(0, 4)})" if self.draw.random() < 0.5 else value
                lines += [f"{space}for {name} in {items}:", *self.statements(depth - 1, loops + 1, indent + 1)]
            elif chance < 0.87:
                for word in ("if", "elif")[:self.draw.choice((1, 1, 2))]:
                    lines += [f"{space}{word} {self.part(2, NAMES + LOCALS, CONDITION)}:", *self.statements(depth - 1, loops, indent + 1)]
                if self.draw.random() < 0.5:
                    lines += [f"{space}else:", *self.statements(depth - 1, loops, indent + 1)]
            else:
                lines.append(f"{space}return {value}" if self.draw.random() < 0.6 else f"{space}pass")
        return lines

    def formula(self):
        if self.draw.random() < 0.6:
            return f"(a, b) = {self.part(4, NAMES, CONDITION)}"
        return "\n".join(["(a, b):", *self.statements(2, 0, 1)])


def rows(count, seed):
    """Formulas, each defined anew under one name and asked once."""
    draw, made = random.Random(seed), []
    while len(made) < 2 * count:
        written = Writer(draw).formula()
        node = Node(HOME, "c", tuple(literal(draw.choice(ARGUMENTS)) for _ in range(2)))
        engine = Engine()
        engine.model.spaces[HOME].cells["c"] = Cells(Formula.of(written), False)
        answer = engine.eval(node)[0]
        if len(written) + len(answer) < 600:
            made += [(f"cells c{len(made)}{written}", "ok"), (f"eval {text(Node(HOME, f'c{len(made)}', node.args))}",
                     answer.replace("at Main.c(", f"at Main.c{len(made)}("))]
    return made


def groups():
    return [(f"random formulas from {seed} on", rows(250, seed)) for seed in range(1, 4)]
