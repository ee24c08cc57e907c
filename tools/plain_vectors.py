#!/usr/bin/env python3
"""Rows for the plain projections: months and present values of both products for some policies.

    tools/plain_vectors.py      writes crates/mx_plain_rows/stdin and crates/mx_plain_rows/stdout

Nothing here stands on the engine. Each step is computed exactly with Python's `fractions` and then rounded half to even
at 9 decimals by Python's `round`; a root is the greatest number whose rounded power is at most the radicand.
"""
import pathlib
from fractions import Fraction

UNIT = 10**9
HOME = pathlib.Path(__file__).resolve().parent.parent / "crates" / "mx_plain_rows"


class Fault(Exception):
    pass


def fix(x):
    """The decimal number nearest to x, half to even."""
    raw = round(Fraction(x) * UNIT)
    if abs(raw) > 10**19:
        raise Fault("Overflow")
    return Fraction(raw, UNIT)


def raw(x):
    return int(x * UNIT)


def over(x, y):
    if y == 0:
        raise Fault("ZeroDivision")
    return fix(x / y)


def power(x, n):
    product = Fraction(1)
    for _ in range(n):
        product = fix(product * x)
    return product


def root(x, n):
    if x < 0:
        raise Fault("Domain")
    low, high = 0, max(raw(x), UNIT) + 1
    while high - low > 1:
        middle = (low + high) // 2
        try:
            fits = power(Fraction(middle, UNIT), n) <= x
        except Fault:
            fits = False
        low, high = (middle, high) if fits else (low, middle)
    return Fraction(low, UNIT)


def total(numbers):
    result = Fraction(0)
    for number in numbers:
        result = fix(result + number)
    return result


class Policy:
    """The formulas of both products; the numbers and rates are raw."""

    def __init__(self, term, count, assured, acq, maint, inflation, mort, disc):
        self.term = term
        self.count, self.assured, self.acq, self.maint, self.inflation = (Fraction(x, UNIT) for x in (count, assured, acq, maint, inflation))
        self.mort = [Fraction(x, UNIT) for x in mort]
        self.disc = [Fraction(x, UNIT) for x in disc]
        self.months = range(12 * term + 1)

    def base(self):
        self.death_rate = [over(self.mort[t // 12], Fraction(12)) for t in self.months]
        lapse = [over(max(fix(Fraction(1, 10) - fix(Fraction(2, 100) * (t // 12))), Fraction(2, 100)), Fraction(12)) for t in self.months]
        infl = root(fix(1 + self.inflation), 12)
        roots = {}
        self.n, self.deaths, self.lapses, self.matured, self.expenses, self.factor = [], [], [], [], [], []
        price, factor, left = Fraction(1), Fraction(1), None
        for t in self.months:
            if t == 0:
                number, matured = self.count, Fraction(0)
            else:
                matured = left if t == 12 * self.term else Fraction(0)
                number = fix(left - matured)
                price = fix(price * infl)
                year = (t - 1) // 12
                if year not in roots:
                    roots[year] = root(fix(1 + self.disc[year]), 12)
                factor = over(factor, roots[year])
            death = fix(number * self.death_rate[t])
            lapsed = fix(fix(number - death) * lapse[t])
            maint = fix(over(fix(number * self.maint), Fraction(12)) * price)
            self.n.append(number)
            self.matured.append(matured)
            self.deaths.append(death)
            self.lapses.append(lapsed)
            self.expenses.append(fix(fix(self.acq * self.count) + maint) if t == 0 else maint)
            self.factor.append(factor)
            left = fix(fix(number - lapsed) - death)

    def worth(self, column):
        return total(fix(x * d) for x, d in zip(column, self.factor))


def less(first, *others):
    for other in others:
        first = fix(first - other)
    return first


def term(policy, loading):
    p = policy
    p.base()
    loading = Fraction(loading, UNIT)
    claims = [fix(p.assured * x) for x in p.deaths]
    net = over(p.worth(claims), p.worth(p.n))
    charged = fix(fix(1 + loading) * net)
    premium = Fraction(round(charged * 100), 100)
    premiums = [fix(premium * x) for x in p.n]
    commissions = [x if t < 12 else Fraction(0) for t, x in enumerate(premiums)]
    flow = [less(*xs) for xs in zip(premiums, claims, p.expenses, commissions)]
    rows = list(zip(p.n, premiums, claims, p.expenses, commissions, flow))
    worths = [p.worth(x) for x in (p.n, premiums, claims, p.expenses, commissions)]
    return rows, [*worths, less(*worths[1:])]


def savings(policy, single, load, fee_rate, inv_rate):
    p = policy
    p.base()
    single, load, fee_rate, inv_rate = (Fraction(x, UNIT) for x in (single, load, fee_rate, inv_rate))
    kept = fix(1 - load)
    inv = fix(root(fix(1 + inv_rate), 12) - 1)
    av = Fraction(0)
    rows = []
    for t in p.months:
        paid = single if t == 0 else Fraction(0)
        start = fix(av + fix(paid * kept))
        fee = fix(start * fee_rate)
        coi = fix(max(fix(p.assured - start), Fraction(0)) * p.death_rate[t])
        put = less(start, fee, coi)
        end = fix(put + fix(put * inv))
        premium = fix(paid * p.n[t])
        claim = fix(max(p.assured, start) * p.deaths[t])
        surrender = fix(end * p.lapses[t])
        maturity = fix(av * p.matured[t])
        commission = fix(premium * Fraction(5, 100))
        parts = [premium, claim, surrender, maturity, p.expenses[t], commission]
        rows.append([p.n[t], av, *parts, less(*parts)])
        av = end
    columns = list(zip(*rows))
    worths = [p.worth(x) for x in columns[2:8]]
    return rows, [p.worth(columns[0]), Fraction(0), *worths, less(*worths)]


def mort(age, years):
    return [500_000 + 20_000 * (age + y - 20) ** 2 for y in range(years + 1)]


def disc(first, step, years):
    return [first + step * y for y in range(years + 1)]


U = UNIT
# term, count, assured, acquisition, maintenance, inflation, loading; age; first rate of interest and its step
TERMS = [
    (10, U, 100_000 * U, 300 * U, 60 * U, 10_000_000, 500_000_000, 30, 10_000_000, 100_000),
    (1, U, 1, 0, 0, 0, 0, 20, 0, 0),
    (2, 1000 * U, 250_000 * U, 123_456_789_012, 45_678_901_234, 25_000_000, 333_333_333, 57, 31_234_567, -7_654_321),
    (5, -7 * U, 40_000 * U, 5 * U, 99 * U, -15_000_000, -250_000_000, 80, -5_000_000, 2_000_000),
    (25, 12_345_678_901, 9_999_999_999, 7, 11, 1, 2, 41, 3, 1),
    (80, 3 * U, 75_000 * U, 900 * U, 24 * U, 20_000_000, 100_000_000, 20, 40_000_000, -250_000),
]
# term, count, assured, acquisition, maintenance, inflation, premium, load, fee, interest; age; rates of interest
SAVINGS = [
    (10, 100 * U, 500_000 * U, 300 * U, 60 * U, 10_000_000, 450_000 * U, 50_000_000, 500_000, 20_000_000, 40, 10_000_000, 100_000),
    (1, U, 0, 0, 0, 0, U, 0, 0, 0, 20, 0, 0),
    (3, 17 * U, 10_000 * U, 50 * U, 12_500_000_000, 30_000_000, 20_000 * U, 12_345_678, 987_654, 54_321_098, 66, 22_222_222, 3_333_333),
    (6, 2_500_000_001, 300_000 * U, 1, 2, -20_000_000, 1_000 * U, 1_000_000_000, 2_000_000, -30_000_000, 90, 15_000_000, -4_000_000),
    (20, 40 * U, 123_456_789_123, 77 * U, 36 * U, 18_000_000, 98_765_432_109, 31_415_926, 271_828, 45_000_000, 35, 25_000_000, 500_000),
    (80, U, 60_000 * U, 400 * U, 20 * U, 15_000_000, 50_000 * U, 40_000_000, 300_000, 25_000_000, 20, 30_000_000, -100_000),
]
# faults: the same numbers, and what is wrong
TERM_FAULTS = [
    ("ZeroDivision", (10, 0, 100_000 * U, 300 * U, 60 * U, 10_000_000, 500_000_000, 30, 10_000_000, 100_000)),
    ("Domain", (10, U, 100_000 * U, 300 * U, 60 * U, -2 * U, 500_000_000, 30, 10_000_000, 100_000)),
    ("Domain", (3, U, 100_000 * U, 300 * U, 60 * U, 10_000_000, 500_000_000, 30, 10_000_000, -900_000_000)),
    ("Overflow", (3, U, 100_000 * U, 300 * U, 60 * U, 10_000_000, 500_000_000, 30, -1_000_000_000, 100_000)),
    ("Overflow", (1, 9_000_000_000 * U, 9 * U, 0, 9_000_000_000 * U, 10_000_000, 500_000_000, 30, 10_000_000, 100_000)),
]


def term_of(numbers):
    years, count, assured, acq, maint, inflation, loading, age, first, step = numbers
    return term(Policy(years, count, assured, acq, maint, inflation, mort(age, years), disc(first, step, years)), loading)


def savings_of(numbers):
    years, count, assured, acq, maint, inflation, single, load, fee, inv, age, first, step = numbers
    return savings(Policy(years, count, assured, acq, maint, inflation, mort(age, years), disc(first, step, years)), single, load, fee, inv)


def chosen(policy, at):
    """The months whose rows are held: more of the sample."""
    last = 12 * policy[0]
    months = [0, 1, 11, 12, 13, last - 1, last] if at == 0 else [0, last - 1, last]
    return sorted(set(months))


def listed(numbers):
    return " ".join(str(x) for x in numbers)


def rated(policy):
    """A policy with the number of its rates of mortality and of interest behind its term."""
    return (policy[0], policy[0] + 1, policy[0] + 1, *policy[1:])


def rows_of(product, policies, of):
    for at, policy in enumerate(policies):
        values, pv = of(policy)
        months = chosen(policy, at)
        rows = [f"{month} {listed(map(raw, values[month]))}" for month in months]
        yield f"{product} {listed(rated(policy))} at {listed(months)}", [*rows, f"pv {listed(map(raw, pv))}"]


def fault_of(policy):
    try:
        term_of(policy)
    except Fault as fault:
        return str(fault)
    raise AssertionError(policy)


def faults():
    for wanted, policy in TERM_FAULTS:
        assert fault_of(policy) == wanted, (wanted, policy)
        yield f"term {listed(rated(policy))} at", [wanted]


def refused():
    years, *term_numbers = TERMS[0]
    for other in (0, 9, 11, 81, 2**32 - 1):
        yield f"term {listed((other, years + 1, years + 1, *term_numbers))} at", ["BadPolicy"]
    yield f"term {listed((years, years, years + 1, *term_numbers))} at", ["BadPolicy"]
    years, *savings_numbers = SAVINGS[0]
    yield f"savings {listed((years, years + 1, years, *savings_numbers))} at", ["BadPolicy"]


def written():
    """The rows, with their answers."""
    yield "# term, rates of mortality and of interest, count, assured, acquisition, maintenance, inflation, loading, age, interest and its step", []
    yield from rows_of("term", TERMS, term_of)
    yield "# term, rates of mortality and of interest, count, assured, acquisition, maintenance, inflation, premium, load, fee, yield, age, interest and its step", []
    yield from rows_of("savings", SAVINGS, savings_of)
    yield "# a fault of a step is told", []
    yield from faults()
    yield "# a term that is none, and rates that are too many or too few for it", []
    yield from refused()


def main():
    with open(HOME / "stdin", "w") as rows, open(HOME / "stdout", "w") as answers:
        for row, told in written():
            print(row, file=rows)
            print(row, *told, sep="\n", file=answers)


main()
