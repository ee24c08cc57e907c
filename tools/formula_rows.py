#!/usr/bin/env python3
"""Formulas, and what Python gives for them, for the rows that tools/rows.py runs.

Nothing here stands on the engine: each formula is run by Python itself, as the same text, with its values kept by
name and arguments, so that the number of runs is told too. Formulas have whole numbers, flags, texts and tuples alone,
since decimal numbers are none of Python's.
"""
import random


def text(value):
    """A value as the program writes it."""
    if isinstance(value, str):
        return '"' + value.replace("\\", "\\\\").replace('"', '\\"') + '"'
    if isinstance(value, tuple):
        return "(" + ", ".join(map(text, value)) + ("," if len(value) == 1 else "") + ")"
    return repr(value)


def key(value):
    """`True` and `1` are different keys."""
    return tuple(map(key, value)) if isinstance(value, tuple) else (type(value).__name__, value)


class Model:
    """Cells by name: each value is computed once."""

    def __init__(self):
        self.scope, self.held = {}, {}

    def define(self, source):
        word, rest = source.split(" ", 1)
        name = rest.split("(", 1)[0]
        if word == "cells":
            head, value = rest.split(" = ", 1)
            source = f"def {head}:\n    return {value}"
        made = {}
        exec(source, self.scope, made)
        self.scope[name] = self.keeping(name, made[name])

    def keeping(self, name, formula):
        def run(*args):
            args += formula.__defaults__[len(args) - formula.__code__.co_argcount:] if len(args) < formula.__code__.co_argcount else ()
            at = name, key(args)
            if at not in self.held:
                try:
                    self.held[at] = formula(*args)
                except ZeroDivisionError as fault:
                    fault.node = getattr(fault, "node", f"Main.{name}({', '.join(map(text, args))})")
                    raise
            return self.held[at]

        return run

    def answer(self, name, args):
        before = len(self.held)
        try:
            value = self.scope[name](*args)
        except ZeroDivisionError as fault:
            return f"fault ZeroDivision at {fault.node} line 1"
        return f"= {text(value)} runs {len(self.held) - before}"


class Draw:
    """Expressions over the whole numbers a, b and c, written with few brackets."""

    def __init__(self, seed):
        self.random = random.Random(seed)

    def one_of(self, *makers):
        return self.random.choice(makers)()

    def atom(self):
        return self.one_of(lambda: str(self.random.randrange(10)), lambda: self.random.choice("abc"))

    def bracketed(self, depth):
        return f"({self.number(depth)})"

    def items(self, depth, count):
        return ", ".join(self.number(depth) for _ in range(count))

    def number(self, depth):
        if depth <= 0:
            return self.atom()
        deeper = depth - 1
        return self.one_of(
            lambda: f"{self.number(deeper)} {self.random.choice('+-*')} {self.number(deeper)}",
            lambda: f"{self.number(deeper)} {self.random.choice(('//', '%'))} {self.atom()}",
            lambda: f"{self.bracketed(deeper)} {self.random.choice(('+', '-', '*', '//', '%'))} {self.bracketed(deeper)}",
            lambda: f"-{self.atom()} {self.random.choice('+-*')} +{self.atom()}",
            lambda: f"{self.atom()} ** {self.random.randrange(4)}",
            lambda: f"-{self.atom()} ** 2",
            lambda: f"abs({self.number(deeper)})",
            lambda: f"{self.random.choice(('min', 'max'))}({self.items(deeper, self.random.randrange(2, 4))})",
            lambda: f"({self.items(deeper, 3)})[{self.random.randrange(-3, 3)}]",
            lambda: f"sum(({self.items(deeper, 3)}))",
            lambda: f"sum(i * {self.atom()} for i in range({self.random.randrange(5)}))",
            lambda: f"({self.number(deeper)} if {self.test(deeper)} else {self.number(deeper)})",
            lambda: f"({self.test(deeper)}) + {self.atom()}",
            lambda: f"({self.number(deeper)} or {self.number(deeper)})",
        )

    def test(self, depth):
        if depth <= 0:
            return f"{self.atom()} {self.random.choice(('<', '<=', '>', '>=', '==', '!='))} {self.atom()}"
        deeper = depth - 1
        return self.one_of(
            lambda: self.test(0),
            lambda: f"{self.atom()} < {self.number(deeper)} <= {self.atom()}",
            lambda: f"{self.test(deeper)} and {self.test(deeper)}",
            lambda: f"{self.test(deeper)} or {self.test(deeper)}",
            lambda: f"not {self.test(deeper)}",
            lambda: f"{self.atom()} {self.random.choice(('in', 'not in'))} ({self.items(0, 3)})",
            lambda: f"any(i == {self.atom()} for i in ({self.items(0, 3)}))",
            lambda: f"all(i < {self.atom()} for i in ({self.items(0, 3)}) if i > 2)",
        )


# single expressions over other kinds of values
PICKED = """
(t=("a", "bc")) = t[0] + t[1] * (1 == 1) if False else t[0] + t[1]
(s="abc") = s[0] + s[-1]
(s="abc") = len(s) + len(s + s)
(s="b") = s < "c" and s >= "ab"
(s="") = not s and s == ""
(s="x") = (s, s + "y", (s,))
(n=3) = str(n) + "," + str(n + 1)
(n=0) = str(n == 0) + str(None)
(n=5) = (n, n + 1) + (n + 2,)
(n=5) = (n, (n, n)) == (5, (5, 5))
(n=5) = (1, n) < (1, 6) < (2,)
(n=5) = len(()) + len((n,)) + len((n, n))
(n=5) = tuple(range(n))
(n=5) = tuple(range(n, 0, -2))
(n=5) = tuple(i * i for i in range(n) if i % 2 == 1)
(n=5) = tuple((i, i + n) for i in (1, 2))
(n=4) = sum(i for i in range(n + 1))
(n=4) = max(i % 3 for i in range(1, n))
(n=4) = min((n, -n)) + max((n, -n, 7))
(n=4) = any(i > n for i in (1, 5, 9)) and all(i > n for i in (5, 9))
(n=4) = any(1 // (i - n) > 0 for i in (5, 4))
(n=4) = all(1 // (i - n) < 0 for i in (5, 4))
(n=4) = any(()) or all(())
(n=4) = n in (1, 4) and "a" in ("a", "b") and n not in ()
(n=4) = (n, None)[1] is None and n is not None
(n=4) = None is None
(n=4) = int(n) + round(n) + abs(-n)
(n=-7) = (n // 2, n % 2, -n // 2, -n % 2)
(n=7) = (n // -2, n % -2)
(n=2) = 2 ** n ** 2
(n=2) = (2 ** n) ** 3
(n=2) = -n ** 2 + (-n) ** 2
(n=2) = - - n - -n
(n=2) = not not n
(n=2) = not n == 2
(n=0) = n and 1 // n
(n=0) = n or "none"
(n=0) = 0 or () or "" or n
(n=0) = (1, 2) and "a"
(n=1) = True + n + (n == 1)
(n=1) = n == True and 0 == False
(n=1) = (n, True) == (True, n)
(n=1) = "a" if n else "b" if n + 1 else "c"
(n=1) = ("a", "b")[n] + ("a", "b")[-n]
(n=1) = ((1, 2), (3, 4))[n][n]
(n=1) = ("ab", "cd")[n][0]
(n=1) = 1 < 2 > n != 0 == False
(n=1) = (1, n / 1 == 1)[0]
(n=1) = 5 - 3 - n
(n=1) = 2 * 3 % 4 // 1
(n=1) = 100 // 7 // 2 * 3
(n=1) = n < 2 in (True, False)
(n=1) = (n,)
(n=1) = ()
(n=1) = ((), ((),), (n, ()))
(n=1) = "it's" + '"' + "\\\\"
"""

# several definitions, and the questions to them
STATEMENTS = [
    ("def NAME(n):\n    s = 0\n    for i in range(n):\n        s += i\n    return s", [(0,), (1,), (10,)]),
    ("def NAME(n):\n    s = 1\n    for i in range(1, n + 1):\n        s *= i\n    return s", [(0,), (5,), (15,)]),
    ("def NAME(n):\n    s = 0\n    for i in range(n):\n        if i % 3 == 0 or i % 5 == 0:\n            s += i\n    return s", [(10,), (100,)]),
    ("def NAME(n):\n    for i in range(2, n):\n        if n % i == 0:\n            return i\n    return n", [(2,), (9,), (91,), (97,)]),
    ("def NAME(n):\n    s = ()\n    for i in range(n):\n        for j in range(i):\n            s = s + ((i, j),)\n    return s", [(0,), (3,)]),
    ("def NAME(t):\n    best = t[0]\n    for x in t:\n        if x > best: best = x\n    return best", [((3, 9, 2),), ((5,),)]),
    ("def NAME(t):\n    s = \"\"\n    for x in t:\n        s = x + s\n    return s", [(("a", "b", "c"),), ((),)]),
    ("def NAME(n):\n    if n < 0:\n        return \"minus\"\n    elif n == 0:\n        return \"null\"\n    elif n < 10: return \"digit\"\n    else:\n        return \"many\"", [(-1,), (0,), (5,), (50,)]),
    ("def NAME(n):\n    a = n\n    a += 1\n    a *= a\n    a -= n\n    return a", [(0,), (4,)]),
    ("def NAME(n):\n    n -= 1\n    n = n * 2\n    return n", [(1,), (6,)]),
    ("def NAME(n):\n    pass\n    if n:\n        pass\n    else:\n        return 0\n    return n", [(0,), (3,)]),
    ("def NAME(n):\n    i = 5\n    t = tuple(i for i in range(n))\n    return (i, t)", [(0,), (3,)]),
    ("def NAME(n):\n    for i in range(n):\n        pass\n    return i", [(1,), (4,)]),
    ("def NAME(n):\n    s = 0\n    for i in range(n):\n        i += 10\n        s += i\n    return s", [(3,)]),
    ("def NAME(t):\n    s = 0\n    for x in t:\n        for y in x:\n            s += y\n    return s", [(((1, 2), (3,), ()),)]),
    ("def NAME(n):\n    while_ = 1\n    s = 0\n    for i in range(n):\n        while_ += i\n        s += while_\n    return (s, while_)", [(4,)]),
    ("def NAME(n, m=3, k=2):\n    return n * m - k", [(1,), (1, 1), (1, 1, 1)]),
    ("def NAME(n):\n    x = 0\n    for i in range(n):\n        if i > 3:\n            return x\n        x = i\n    return -1", [(3,), (9,)]),
    ("def NAME(n):\n    y = n if n > 2 else 2\n    z = y > n and y or n\n    return (y, z)", [(1,), (3,)]),
    ("cells NAME(n) = n if n < 2 else NAME(n - 1) + NAME(n - 2)", [(1,), (10,), (12,), (50,)]),
    ("cells NAME(n) = 0 if n == 0 else NAME(n - 1) + n", [(5,), (5,), (20,)]),
    ("cells NAME(n) = n == 0 or not NAME(n - 1)", [(3,), (4,), (9,)]),
    ("def NAME(n):\n    if n == 0:\n        return ()\n    return NAME(n - 1) + (n,)", [(3,), (6,)]),
    ("def NAME(n, k):\n    if k == 0 or k == n:\n        return 1\n    return NAME(n - 1, k - 1) + NAME(n - 1, k)", [(4, 2), (10, 5), (30, 15)]),
    ("def NAME(m, n):\n    if n == 0: return m\n    return NAME(n, m % n)", [(12, 18), (1071, 462)]),
    ("def NAME(n):\n    s = 0\n    for i in range(n):\n        s += NAME(i)\n    return s + 1", [(3,), (10,)]),
    ("cells NAME(n) = sum(NAME(i) for i in range(n)) + 1", [(4,), (12,)]),
    ("cells NAME(n) = n <= 1 and 1 or n * NAME(n - 1)", [(1,), (12,)]),
    ("cells NAME(s, n) = \"\" if n == 0 else NAME(s, n - 1) + s", [("ab", 3), ("", 4)]),
    ("cells NAME(t) = 0 if t == () else t[0] + NAME(tuple(t[i] for i in range(1, len(t))))", [((1, 2, 3),)]),
    ("def NAME(n):\n    t = ()\n    for i in range(n):\n        t = t + (i // (i - 2 or 1),)\n    return t", [(5,)]),
    ("def NAME(n):\n    s = 0\n    for d in (1, 2, n):\n        s += 10 // d\n    return s", [(5,)]),
    ("def NAME(n):\n    # a note\n\n    return n + 1  # and another", [(1,)]),
    ("def NAME(n):\n    total = 0\n    for i in range(n):\n        if i == 2:\n            total += 100\n        elif i == 4:\n            total += 1000\n        else:\n            total += 1\n    return total", [(6,)]),
]


def expressions():
    rows, model, number = [], Model(), 0

    def ask(formula, arguments):
        nonlocal number
        number += 1
        name = f"f{number}"
        source = f"cells {name}{formula}"
        model.define(source)
        rows.append((source, "ok"))
        for args in arguments:
            rows.append((f"eval {name}({', '.join(map(text, args))})", model.answer(name, args)))

    for formula in PICKED.strip().split("\n"):
        ask(formula, [()])
    draws = Draw(20)
    while number < 330:
        formula = draws.number(3) if draws.random.random() < 0.7 else draws.test(3)
        if len(formula) < 150:
            ask(f"(a, b, c) = {formula}", [tuple(draws.random.randrange(-6, 12) for _ in "abc")])
    return rows


def statements():
    rows, model = [], Model()
    for number, (source, arguments) in enumerate(STATEMENTS, 1):
        name = f"g{number}"
        source = source.replace("NAME", name)
        model.define(source)
        rows.append((source, "ok"))
        for args in arguments:
            rows.append((f"eval {name}({', '.join(map(text, args))})", model.answer(name, args)))
    return rows


def groups():
    """The name of each group, and its rows."""
    return [
        ("expressions give what Python gives", expressions()),
        ("formulas of several lines give what Python gives", statements()),
    ]
