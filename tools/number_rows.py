"""Decimal numbers, names and C3 linearisation by Python, for the rows that tools/rows.py runs.

The numbers are computed exactly, with `fractions`, and then rounded half to even by `round`, or down by `//` and `%`. A root is the
greatest number whose power, rounded in each step, is at most the radicand. All numbers are raw: 1.0 is 10^9. The order of classes is the
`__mro__` of Python's without `object`, and where Python refuses the bases there is none. Names are those of Python without underscores
in front that are no keywords of it and have 64 bytes at most.
"""
import keyword
from fractions import Fraction

UNIT = 10**9

PRODUCTS = [
    (0, 500000000), (1, 500000000), (-1, 500000000), (2, 500000000), (-2, 500000000), (3, 500000000), (-3, 500000000),
    (4, 500000000), (-4, 500000000), (5, 500000000), (-5, 500000000), (1, -500000000), (-1, -500000000), (3, -500000000),
    (-3, -500000000), (5, -500000000), (-5, -500000000), (1, 499999999), (1, 500000001), (3, 499999999), (3, 500000001),
    (7, 500000000), (1000000000, 1000000000), (1500000000, 1500000000), (2718281828, 3141592653), (-2718281828, 3141592653),
    (123456789012345678, -987654), (10000000000000000000, 1000000000), (-10000000000000000000, 1000000000),
    (10000000000000000000, -1000000000), (3162277660168, 3162277660168), (1000000001, 9999999990000000000),
    (100000000000000, 100000000000000), (10000000000000000000, 500000000), (25, 20000000), (35, -100000000),
    (12345678905, 100000000),
]
QUOTIENTS = [
    (1000000000, 3000000000), (2000000000, 3000000000), (-1000000000, 3000000000), (1000000000, -3000000000),
    (-2000000000, -3000000000), (7500000000, -2000000000), (7000000000, -2000000000), (-7000000000, 2000000000),
    (1, 2000000000), (3, 2000000000), (5, 2000000000), (-1, 2000000000), (-3, 2000000000), (5, -2000000000),
    (1, -2000000000), (-7, -2000000000), (1000000000, 7000000000), (22000000000, 7000000000),
    (10000000000000000000, 1000000000), (-10000000000000000000, 1000000000), (10000000000000000000, 3000000000),
    (1, 10000000000000000000), (1000000000, 2000000000000000000), (10000000000, 10000000000000000000),
    (3000000000, 2000000000000000000), (1000000000, 1024000000), (1, 3), (2, 3), (10, 3), (-10, 3), (10, -4),
    (9999999999, 1000000001), (999999999, 1000000001), (1010000000, 12000000000), (60000000000, 12000000000),
    (145000, 12000000000), (9, 8000000000), (3, 8000000000), (4, 8000000000), (12, 8000000000), (20, 8000000000),
]
FLOORS = [
    (7500000000, -2000000000), (7000000000, -2000000000), (-7000000000, 2000000000), (-7000000000, -2000000000),
    (7000000000, 2000000000), (1, 3), (-1, 3), (1, -3), (-1, -3), (6000000000, 3000000000), (-6000000000, 3000000000),
    (6000000000, -3000000000), (0, -5), (5, 10000000000000000000), (-5, 10000000000000000000), (5, -10000000000000000000),
    (10000000000000000000, 1000000000), (-10000000000000000000, 1000000000), (10000000000000000000, -1000000000),
    (123456789012, -3456789),
]
POWERS = [
    (2000000000, 10), (-2000000000, 3), (1500000000, 2), (1010000000, 12), (999000000, 1000), (1000000001, 10000),
    (2000000000, -3), (3000000000, -1), (-3000000000, -1), (1100000000, -5), (0, 0), (0, 5), (500000000, 1), (500000000, 30),
    (500000000, 31), (10000000000, 10), (-10000000000, 10), (333333333, 3), (1, 2), (31622, 2), (1002466270, -12),
    (3162277660168, 2),
]
ROOTS = [
    (2000000000, 2), (1010000000, 12), (1005000000, 12), (1033000000, 12), (3000000000, 2), (2000000000, 3), (0, 1), (0, 5),
    (1, 1), (1, 2), (2, 3), (1000000000, 10000), (10000000000000000000, 1), (10000000000000000000, 2),
    (10000000000000000000, 10000), (10000000000, 3), (999999999, 2), (500000000, 2), (125000000, 3), (100000000000, 2),
    (1000000001, 2), (2000000000, 365),
]

# each word is a class with the places of its bases, `.` for none; the first eleven are the known examples, the others were drawn at
# random, and kept where each class but the last has an order
GRAPHS = """\
.
. 0
. 0 0 1,2
. 0 0 1,2 2 3,4
. . . 0,1 0,2 3,4
. . . 2,0 2,1 4,3
. . 0,1 1,0 2,3
. 0 0,1
. 0 1,0
. 0 0 1 1,2 3,4
. . . . . 0,1,2 3,1,4 3,0 5,6,7
. 0 0 2,1 . 0 1,2 1,4 . 4,2,0,8
. . 0 1 2 3 4,0 5,2 1,6,5,0
. 0 . . 0,2,3 1,4,0
. 0 1,0 1,0 . 2,3,4 4,3 1,4,6,0
. . 1 . 2 3 2,3,1,5
. 0 . 0 2 1,2 4,1,2
. 0 1,0 1,0,2
. . . 2 0 3,0 0,4,1,3
. 0 1 1,0 0 3,4 5 3,2
. 0 . 2 1,3,2
. 0 1 0,1,2
. 0 1,0 2 1,0 4 . 3 4,6
. 0 0 . . 0 3 . 3,7 4,6,0
. . 0 . . 4 1,0 4 7 4,0 9,5
. 0 0 1 . 1,0 3,2,1
. 0 1 0 1,0 . 3,1 1 7,2
. 0 . 1,0 . . 5,0 1 4,6,1
. 0 . . . 2,4 . 2,4 6 4,2 5,7
. . . 0,1,2 . 0 1,2,4,5
. . 1,0 2,0 3 3,2,4
. 0 1,0 1,2,0
. 0 1,0 2 2 0 5,4 6 0,6,1,4
. . 1 . 0,3 4 5,3,0,4
. 0 0 1,2 0 2,1,4 . 6,4 2,3,0
. 0 0 0 1,2,3,0
. 0 . . 1,3,0,2
. 0 . . 2,0,1,3
. 0 0 2,1 3,0 1 2 2,3,6,4
. 0 1,0 0 1 3 0,2
. . 0 2 0 2 1,4 3,1,5
. 0 . 1 3,2,0
. 0 . . 0 4,2,1
"""

NAMES = ["a", "Z", "x1", "term_life_S", "none", "true", "print", "match", "Class", "ifs", "", "_a", "_", "1a", "a b", "a-b", "a.b", 'a"',
         *keyword.kwlist, "n" * 64, "n" * 65]


def text(raw):
    """A decimal number as it is written."""
    whole, rest = divmod(abs(raw), UNIT)
    return f"{'-' if raw < 0 else ''}{whole}.{f'{rest:09}'.rstrip('0') or '0'}"


def power(x, n):
    product = UNIT
    for _ in range(abs(n)):
        product = round(Fraction(product * x, UNIT))
    return product if n >= 0 else round(Fraction(UNIT**2, product))


def root(x, n):
    low, high = 0, 10**19 + 1
    while high - low > 1:
        middle = (low + high) // 2
        low, high = (middle, high) if is_at_most(middle, n, x) else (low, middle)
    return low


def is_at_most(base, n, x):
    """Whether a power is at most x; one that is out of range is not."""
    product = UNIT
    for _ in range(n):
        product = round(Fraction(product * base, UNIT))
        if product > 10**19:
            return False
    return product <= x


def order(graph):
    """The rows that define the classes of a graph, and the order of the last."""
    classes = []
    for place, word in enumerate(graph.split()):
        bases = [int(base) for base in word.split(",") if base != "."]
        yield f"space c{place}", "ok"
        try:
            classes.append(type(f"c{place}", tuple(classes[base] for base in bases), {}))
        except TypeError:
            yield f"bases c{place}: {', '.join(f'c{base}' for base in bases)}", f"refused: NoOrder c{place}"
            yield f"order c{place}", f"order c{place}"
            return
        if bases:
            yield f"bases c{place}: {', '.join(f'c{base}' for base in bases)}", "ok"
    yield f"order c{place}", f"order {', '.join(base.__name__ for base in classes[-1].__mro__[:-1])}"


def computed(formulas):
    """Rows that define cells with these formulas, each with the number that it gives, and evaluate them."""
    for place, (formula, raw) in enumerate(formulas):
        yield f"cells r{place}() = {formula}", "ok"
        yield f"eval r{place}()", f"= {text(raw)} runs 1"


def named():
    yield "space S", "ok"
    for name in NAMES:
        written = name.replace('"', '\\"')
        is_name = name.isidentifier() and not name.startswith("_") and not keyword.iskeyword(name) and len(name) <= 64
        yield f'params S(x) = {{"refs": {{"{written}": 1}}}}', "ok" if is_name else "formula: unexpected at 16"


def groups():
    """The name of each group, and its rows."""
    found = {
        "products": [(f"{text(x)} * {text(y)}", round(Fraction(x * y, UNIT))) for x, y in PRODUCTS],
        "quotients": [(f"{text(x)} / {text(y)}", round(Fraction(x * UNIT, y))) for x, y in QUOTIENTS],
        "floors": [(f"{text(x)} // {text(y)}", x // y * UNIT) for x, y in FLOORS],
        "rests": [(f"{text(x)} % {text(y)}", x % y) for x, y in FLOORS],
        "powers": [(f"({text(x)}) ** {n}", power(x, n)) for x, n in POWERS],
        "roots": [(f"nroot({text(x)}, {n})", root(x, n)) for x, n in ROOTS],
    }
    made = [(f"{subject} of decimal numbers are rounded as by Python", list(computed(rows))) for subject, rows in found.items()]
    made.append(("names are those of Python", list(named())))
    return made + [(f"the order of the classes {graph}", list(order(graph))) for graph in GRAPHS.splitlines()]
