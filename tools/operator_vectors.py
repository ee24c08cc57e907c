#!/usr/bin/env python3
"""Rows of operators: compares what `mx run` answers with what Python computes.

Nothing here stands on the engine: what is wanted comes from Python's own `int`, `fractions` and
`decimal`, and from its comparisons, `in`, subscripts, `min`, `max`, `range` and `round`. Each row
names which. A decimal number is a `Fraction` of 10^9, kept in range by hand.

    tools/operator_vectors.py [--mx PATH]      through the program, which is crates/mx_cli/out/mx_cli as `rt ci` builds it, or another one
"""
import argparse
import math
import os
import pathlib
import subprocess
import sys
from decimal import ROUND_HALF_EVEN, Decimal, getcontext
from fractions import Fraction

getcontext().prec = 120
UNIT = 10**9
LEAST, MOST = -(2**63), 2**63 - 1
PROGRAM = pathlib.Path(__file__).resolve().parent.parent / "crates" / "mx_cli" / "out" / "mx_cli"


class Fault(Exception):
    pass


class Fix(Fraction):
    """A decimal number: a multiple of 10^-9."""


def fix(value):
    """The decimal number nearest to an exact one, half to even: Python's `round`."""
    raw = round(value * UNIT)
    if abs(raw) > 10**19:
        raise Fault("Overflow")
    return Fix(raw, UNIT)


def d(text):
    return fix(Fraction(text))


def whole(n):
    if not LEAST <= n <= MOST:
        raise Fault("Overflow")
    return int(n)


def is_number(v):
    return isinstance(v, (int, Fix))


def is_whole(v):
    return isinstance(v, int)


def exact(v):
    """A number as a decimal one."""
    if is_whole(v) and abs(v) > 10**10:
        raise Fault("Overflow")
    return Fraction(v)


def numbers(*values):
    if not all(is_number(v) for v in values):
        raise Fault("TypeMismatch")


def arithmetic(name, a, b):
    numbers(a, b)
    both = is_whole(a) and is_whole(b)
    if name in ("Div", "FloorDiv", "Rem") and b == 0:
        raise Fault("ZeroDivision")
    if name == "Pow":
        return power(a, b)
    if both and name != "Div":
        a, b = int(a), int(b)
        return whole({"Add": a + b, "Sub": a - b, "Mul": a * b,
                      "FloorDiv": b and a // b, "Rem": b and a % b}[name])
    x, y = (Fraction(a), Fraction(b)) if both else (exact(a), exact(b))
    return fix({"Add": x + y, "Sub": x - y, "Mul": x * y, "Div": y and x / y,
                "FloorDiv": y and Fraction(x // y), "Rem": y and x % y}[name])


def decimal_product(x, y):
    """By `decimal`, half to even at 9 decimals."""
    z = (x * y).quantize(Decimal("1e-9"), ROUND_HALF_EVEN)
    if abs(z) > Decimal(10**10):
        raise Fault("Overflow")
    return z


def repeated(x, n):
    """1.0 multiplied n times by x, each product rounded."""
    z, base = Decimal(1), Decimal(x.numerator) / Decimal(x.denominator)
    for _ in range(n):
        z = decimal_product(z, base)
    return Fraction(z)


def power(a, b):
    if is_whole(a) and is_whole(b) and b >= 0:
        if abs(a) > 1 and b > 64:
            raise Fault("Overflow")
        return whole(int(a) ** int(b) if abs(a) > 1 or b < 100 else int(a) ** (int(b) % 2 + 2))
    x = exact(a)
    if not is_whole(b) and b.denominator != 1:
        raise Fault("Domain")
    n = int(b)
    if abs(n) > 10_000:
        raise Fault("Domain")
    z = repeated(x, abs(n))
    if n < 0:
        if z == 0:
            raise Fault("ZeroDivision")
        return fix(1 / z)
    return fix(z)


def root(x, n):
    numbers(x, n)
    if not is_whole(n):
        raise Fault("TypeMismatch")
    x = exact(x)
    if x < 0 or not 1 <= n <= 10_000:
        raise Fault("Domain")
    low, high = 0, 10**19 + 1
    while high - low > 1:
        middle = (low + high) // 2
        try:
            fits = repeated(Fraction(middle, UNIT), n) <= x
        except Fault:
            fits = False
        low, high = (middle, high) if fits else (low, middle)
    return Fix(low, UNIT)


def python(call):
    """What Python gives; its refusals as faults."""
    try:
        return call()
    except TypeError:
        raise Fault("TypeMismatch") from None
    except IndexError:
        raise Fault("NoIndex") from None
    except ValueError:
        raise Fault("Domain") from None


def rounded(x, *places):
    numbers(x, *places)
    if not places:
        return round(Fraction(x))
    if len(places) > 1 or not is_whole(places[0]):
        raise Fault("TypeMismatch")
    if not 0 <= places[0] <= 9:
        raise Fault("Domain")
    if is_whole(x):
        return int(x)
    exactly = Decimal(x.numerator) / Decimal(x.denominator)
    return fix(Fraction(exactly.quantize(Decimal(1).scaleb(-int(places[0])), ROUND_HALF_EVEN)))


def total(items):
    z = 0
    for item in items:
        z = arithmetic("Add", z, item)
    return z


def tuples_alone(call, *values):
    if len(values) == 1 and not isinstance(values[0], tuple):
        raise Fault("TypeMismatch")
    return python(lambda: call(*values))


def numbered(*bounds):
    if not all(is_whole(b) for b in bounds):
        raise Fault("TypeMismatch")
    numbers_of = python(lambda: range(*(int(b) for b in bounds)))
    try:
        few = len(numbers_of) <= 999_999
    except OverflowError:  # more than Python counts
        few = False
    if not few:
        raise Fault("TooLarge")
    return tuple(numbers_of)


def text(v):
    """How a value is written."""
    if v is None or isinstance(v, bool):
        return str(v)
    if isinstance(v, int):
        return str(v)
    if isinstance(v, Fix):
        raw = abs(v.numerator * UNIT // v.denominator)
        decimals = f"{raw % UNIT:09d}".rstrip("0") or "0"
        return f"{'-' if v < 0 else ''}{raw // UNIT}.{decimals}"
    if isinstance(v, str):
        return '"' + v.replace("\\", "\\\\").replace('"', '\\"') + '"'
    inside = ", ".join(text(x) for x in v)
    return f"({inside},)" if len(v) == 1 else f"({inside})"


def fixed_points(v):
    """Fractions that Python made of decimal numbers are decimal numbers."""
    return Fix(v) if type(v) is Fraction else v


CALLS = {name: (lambda name: lambda a, b: arithmetic(name, a, b))(name)
         for name in ("Add", "Sub", "Mul", "Div", "FloorDiv", "Rem", "Pow")}


def add(a, b):
    for kind in (str, tuple):
        if isinstance(a, kind) and isinstance(b, kind):
            return a + b
    return arithmetic("Add", a, b)


def ordered(compare):
    def call(a, b):
        if not (is_number(a) and is_number(b)) and not any(
            isinstance(a, k) and isinstance(b, k) for k in (str, tuple)
        ):
            raise Fault("TypeMismatch")
        return python(lambda: compare(a, b))
    return call


def among(a, t):
    if not isinstance(t, tuple):
        raise Fault("TypeMismatch")
    return a in t


def unary(call):
    def one(x):
        numbers(x)
        return call(x)
    return one


def signed(x):
    return whole(-x) if is_whole(x) else Fix(-x)


def size(x):
    return whole(abs(int(x))) if is_whole(x) else Fix(abs(x))


def kept(x):
    return int(x) if is_whole(x) else x


def written(x):
    if isinstance(x, tuple):
        raise Fault("TypeMismatch")
    return x if isinstance(x, str) else text(x)


CALLS |= {
    "Add": add,
    "Neg": unary(signed), "Plus": unary(kept), "Abs": unary(size),
    "Not": lambda x: not x,
    "Eq": lambda a, b: a == b, "Ne": lambda a, b: a != b,
    "Lt": ordered(lambda a, b: a < b), "Le": ordered(lambda a, b: a <= b),
    "Gt": ordered(lambda a, b: a > b), "Ge": ordered(lambda a, b: a >= b),
    "In": among, "NotIn": lambda a, t: not among(a, t),
    "Index": lambda a, i: python(lambda: a[i]),
    "Min": lambda *v: tuples_alone(min, *v), "Max": lambda *v: tuples_alone(max, *v),
    "Sum": lambda *v: tuples_alone(total, *v),
    "Len": lambda x: python(lambda: len(x)),
    "Round": rounded,
    "Int": unary(lambda x: whole(math.trunc(x))),
    "Fixed": unary(lambda x: fix(exact(x))),
    "Nroot": root,
    "Any": lambda *v: tuples_alone(any, *v), "All": lambda *v: tuples_alone(all, *v),
    "Tuple": lambda *v: tuples_alone(tuple, *v),
    "Str": written,
    "Range": numbered,
}


def wanted(op, operands):
    try:
        return text(fixed_points(CALLS[op](*operands)))
    except Fault as fault:
        return f"fault {fault}"


def rows_of(source, *lines):
    return [(op, operands, source) for op, operands in lines]


def crossed(source, ops, lefts, rights):
    return [(op, (a, b), source) for op in ops for a in lefts for b in rights]


def tables():
    fr, de, it, py = "fractions", "decimal", "int", "python"
    whole_rows = crossed(it, ("FloorDiv", "Rem"), (7, -7, 0, MOST, LEAST), (2, -2, 3, -3, 0, -1))
    whole_rows += crossed(it, ("Add", "Sub", "Mul"), (MOST, LEAST, -1, True), (1, -1, 2, LEAST))
    whole_rows += crossed(fr, ("Div",), (1, -1, 2, 7, MOST, 10**10), (2, -3, 7, 16, 0))
    whole_rows += crossed(fr, ("Div",), (1, 3, -5), (2 * 10**9, -2 * 10**9))
    whole_rows += crossed(it, ("Pow",), (2, -2, 3, 10, 0, 1, -1), (0, 1, 2, 62, 63, 64))
    whole_rows += crossed(it, ("Pow",), (0, 1, -1, 2), (MOST, MOST - 1))
    powers = crossed(de, ("Pow",), (2, -3, 0, 10**11), (-1, -2, d("2.0"), d("0.5"), d("-1.0")))
    powers += crossed(de, ("Pow",), (d("1.5"), d("-0.3"), d("0.0"), d("1.000000001")), (0, 3, -2, 10_000, 10_001))
    powers += crossed(de, ("Pow",), (d("1.1"), d("9999999999.5")), (2, d("2.0"), d("2.5"), True))
    fixes = (d("0.5"), d("-7.5"), d("0.000000001"), d("10000000000.0"))
    mixed = crossed(fr, ("Add", "Sub", "Mul", "Div", "FloorDiv", "Rem"), fixes, (d("2.0"), d("-0.3"), 3, 0, d("0.0"), 10**11))
    mixed += crossed(fr, ("Add", "Mul", "Rem"), (-7, False, 10**18), (d("2.5"), d("-2.5"), d("0.0")))
    signs = [(op, (v,), fr) for op in ("Neg", "Plus", "Abs", "Int", "Fixed", "Round")
             for v in (5, -5, True, LEAST, d("2.5"), d("-2.5"), d("-3.5"), d("10000000000.0"), None, "a")]
    signs += [("Not", (v,), py) for v in (None, True, 0, 7, d("0.0"), d("0.1"), "", "a", (), (0,))]
    signs += [("Fixed", (v,), fr) for v in (10**10, 10**10 + 1, -(10**10), -(10**10) - 1)]
    places = [("Round", (x, n), de) for x in (d("0.125"), d("-0.125"), d("0.375"), d("2.5"), d("9999999999.999999999"))
              for n in (0, 1, 2, 8, 9)]
    places += rows_of(de, ("Round", (d("1.5"), -1)), ("Round", (d("1.5"), 10)), ("Round", (15, -1)), ("Round", (15, 3)),
                      ("Round", (True, 3)), ("Round", (15, d("1.0"))), ("Round", ("a", 1)), ("Round", (d("0.5"), True)))
    places += rows_of(fr, ("Round", (d("0.5"),)), ("Round", (d("1.5"),)), ("Round", (d("-0.5"),)), ("Round", (d("-1.5"),)))
    roots = [("Nroot", (x, n), de) for x, n in (
        (2, 2), (4, 2), (27, 3), (d("0.5"), 2), (0, 5), (1, 7), (10**10, 2), (10**10, 10), (d("0.000000001"), 3),
        (-1, 2), (-8, 3), (2, 0), (2, -1), (2, 10_001), (2, 2**32), (2, 2**32 + 2), (10**11, 0), (2, d("2.0")), ("a", 2), (2, None))]
    kinds = (1, d("1.0"), True, "a", "b", (1, 2), None, (), "")
    compared = crossed(py, ("Eq", "Lt"), kinds, (1, d("1.5"), "a", (1, 2), None, True))
    compared += crossed(py, ("Ne", "Le", "Gt", "Ge"), (2, "b", (1, 2), d("2.0")), (2, "ab", (1, 2, 0), (2,), d("2.5")))
    pairs = (((1, 2), (1, 3)), ((2,), (1, 5, 5)), ((1,), (1, 0)), ((None, 1), (None, 2)), ((None,), ("a",)), (("a", 1), ("a", "b")),
             (((1, 2), 3), ((1, 2), d("3.0"))), ((), ()), (((),), ((1,),)), ((True, "x"), (1, "y")), ((1, (2, "a")), (1, (2, 3))))
    compared += [(op, pair, py) for op in ("Eq", "Lt", "Ge") for pair in pairs]
    compared += crossed(py, ("Lt", "Eq"), (10**18, LEAST), (d("10000000000.0"), d("-0.5")))
    picked = [(op, (1, (d("1.0"), 2)), py) for op in ("In", "NotIn")]
    picked += [("In", (a, t), py) for a in (1, "a", None, (1,)) for t in ((), (1, "a"), (True,), (None, (d("1.0"),)))]
    picked += [("Index", (t, i), py) for t in ((10, "x", None), "abc", (), "") for i in (0, 2, 3, -1, -3, -4, True, MOST, LEAST)]
    picked += [("Index", ((1,), i), py) for i in (d("0.0"), "a", None)]
    best = [(op, (t,), py) for op in ("Min", "Max") for t in (
        (3, 1, 2), (1, True, d("1.0")), (d("1.0"), 1), ("b", "a", "ab"), (), (None,), (1, "a"), ((1, 2), (1,)), (2, d("2.5"), 2), 5)]
    best += [(op, t, py) for op in ("Min", "Max") for t in ((1, 2), (2, d("1.5"), 7), ("b", "a"), (1, "a"), (True, 1), (None, None))]
    best += [("Sum", (t,), fr) for t in ((), (1, 2, 3), (d("0.1"), 2), (True, True), (MOST, 1), (MOST, 1, "a"), ("a",), (1, None), (10**11, d("0.5")), 3)]
    best += [("Len", (v,), py) for v in ((), (1, 2), "", "abc", 5, None)]
    best += [(op, (t,), py) for op in ("Any", "All") for t in ((), (0, "", ()), (0, 1), (1, "a", (0,)), (None, d("0.1")), 7)]
    best += [("Tuple", t, py) for t in ((), ((1, 2),), ((),), (5,))]
    best += [("Str", (v,), py) for v in (None, True, -12, d("-0.5"), d("12.0"), d("0.000000001"), "a\"b", (1,), LEAST)]
    ranges = [("Range", t, py) for t in (
        (0,), (3,), (-2,), (2, 5), (5, 2), (-2, 2), (0, 10, 3), (10, 0, -3), (0, 9, 3), (9, 0, -3), (1, 2, 5), (5, 5, 1), (0, -1, 2),
        (0, 5, 0), (0, 0, 0), (10**12,), (0, 10**6), (0, -(10**6), -1), (LEAST, MOST), (MOST, LEAST, LEAST), (LEAST, MOST, MOST), (MOST - 1, MOST),
        (LEAST, LEAST + 2), (True,), (True, 3), (d("3.0"),), ("a", 2), (1, 2, None), (0, 10, d("2.0")))]
    joined = crossed(py, ("Add",), ("ab", (1, 2), (), "", 1), ("c", "", (3,), None, ()))
    return {"whole numbers": whole_rows, "decimal numbers": mixed, "powers": powers, "one number": signs, "numbers at so many decimals": places,
            "roots": roots, "comparisons": compared, "items and subscripts": picked, "tuples as a whole": best, "ranges": ranges,
            "what is put together": joined}


SIGNS = {"Add": "+", "Sub": "-", "Mul": "*", "Div": "/", "FloorDiv": "//", "Rem": "%", "Pow": "**", "Eq": "==", "Ne": "!=", "Lt": "<",
         "Le": "<=", "Gt": ">", "Ge": ">=", "In": "in", "NotIn": "not in"}
FRONTS = {"Neg": "-", "Plus": "+", "Not": "not "}


def formula(op, names):
    """What applies an operator or a builtin to these names."""
    if op in SIGNS:
        return f" {SIGNS[op]} ".join(names)
    if op in FRONTS:
        return f"{FRONTS[op]}{names[0]}"
    if op == "Index":
        return f"{names[0]}[{names[1]}]"
    return f"{op.lower()}({', '.join(names)})"


def commands(rows):
    """Commands with what each answers. The operands are a reference, since an argument that is whole is no decimal number."""
    defined = set()
    for op, operands, _ in rows:
        cells = f"{op}{len(operands)}"
        yield f"ref x = {text(tuple(operands))}", "ok"
        if cells not in defined:
            defined.add(cells)
            yield f"cells {cells}() = {formula(op, [f'x[{at}]' for at in range(len(operands))])}", "ok"
            yield f"allow {cells}", "ok"
        want = wanted(op, operands)
        yield f"eval {cells}()", f"{want} at Main.{cells}() line 1" if want.startswith("fault ") else f"= {want} runs 1"


def without_repeats(rows):
    """The rows, each once by what it is written as."""
    return list({(op, text(tuple(operands))): (op, operands, source) for op, operands, source in reversed(rows)}.values())[::-1]


def compare(program, name, rows):
    """How many of these rows the program answers otherwise."""
    asked = list(commands(rows))
    script = "".join(f"{command}\n" for command, _ in asked)
    run = subprocess.run([program, "run"], input=script, capture_output=True, text=True, timeout=60)
    answers = run.stdout.splitlines()
    if run.returncode != 0 or len(answers) != len(asked):
        print(f"{name}: status {run.returncode}, {len(answers)} answers to {len(asked)} commands", file=sys.stderr)
        return 1
    wrong = [(command, answer, want) for (command, want), answer in zip(asked, answers) if answer != want]
    for command, answer, want in wrong:
        print(f"{name}: {command}\nwanted: {want}\ntold:   {answer}", file=sys.stderr)
    return len(wrong)


def main():
    asked = argparse.ArgumentParser()
    asked.add_argument("--mx", default=PROGRAM)
    program = asked.parse_args().mx
    if not os.access(program, os.X_OK):
        print(f"{program} is not built", file=sys.stderr)
        return 1
    count = wrong = 0
    for name, rows in tables().items():
        rows = without_repeats(rows)
        count += len(rows)
        wrong += compare(program, name, rows)
    print(f"operators: {count} rows, {wrong} answered otherwise")
    return 1 if wrong else 0


if __name__ == "__main__":
    sys.exit(main())
