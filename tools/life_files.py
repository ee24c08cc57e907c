#!/usr/bin/env python3
"""Writes crates/mx_life/src/files.rt: the files of the two sample projects, as literals.

The tables are computed by their formulas with Python's `decimal`, and each line of the other files is written out below.

    tools/life_files.py            writes the file
    tools/life_files.py --check    ends with 1 where the file is not what it would write
    tools/life_files.py --sums     prints name, size and CRC-32 of each file, which a test holds
"""
import pathlib
import sys
import zlib
from decimal import Decimal

TARGET = pathlib.Path(__file__).resolve().parent.parent / "crates" / "mx_life" / "src" / "files.rt"

BASE = """\
proj_len() = 12 * policy_term + 1
duration(t) = t // 12
age(t) = age_at_entry + duration(t)
mort_rate(t) = mort[age(t), "rate"]
mort_rate_mth(t) = mort_rate(t) / 12
lapse_rate(t) = max(0.1 - 0.02 * duration(t), 0.02)
lapse_rate_mth(t) = lapse_rate(t) / 12
pols_if_init() = fixed(policy_count)
pols_if(t) = pols_if_init() if t == 0 else pols_if(t - 1) - pols_lapse(t - 1) - pols_death(t - 1) - pols_maturity(t)
pols_death(t) = pols_if(t) * mort_rate_mth(t)
pols_lapse(t) = (pols_if(t) - pols_death(t)) * lapse_rate_mth(t)
pols_maturity(t) = pols_if(t - 1) - pols_lapse(t - 1) - pols_death(t - 1) if t == 12 * policy_term else 0.0
inflation_mth() = nroot(1 + inflation_rate, 12)
inflation_factor(t) = 1.0 if t == 0 else inflation_factor(t - 1) * inflation_mth()
disc_rate(t) = disc[duration(t), "zero"]
disc_mth(t) = nroot(1 + disc_rate(t), 12)
disc_factor(t) = 1.0 if t == 0 else disc_factor(t - 1) / disc_mth(t - 1)
maint(t) = pols_if(t) * expense_maint / 12 * inflation_factor(t)
expenses(t) = expense_acq * pols_if_init() + maint(t) if t == 0 else maint(t)
pv_pols_if() = sum(pols_if(t) * disc_factor(t) for t in range(proj_len()))
pv_premiums() = sum(premiums(t) * disc_factor(t) for t in range(proj_len()))
pv_claims() = sum(claims(t) * disc_factor(t) for t in range(proj_len()))
pv_expenses() = sum(expenses(t) * disc_factor(t) for t in range(proj_len()))
pv_commissions() = sum(commissions(t) * disc_factor(t) for t in range(proj_len()))
"""

TERM = """\
claims(t) = sum_assured * pols_death(t)
net_premium_pp() = pv_claims() / pv_pols_if()
premium_pp() = round((1 + loading_prem) * net_premium_pp(), 2)
premiums(t) = premium_pp() * pols_if(t)
commissions(t) = premiums(t) if duration(t) == 0 else 0.0
net_cf(t) = premiums(t) - claims(t) - expenses(t) - commissions(t)
pv_net_cf() = pv_premiums() - pv_claims() - pv_expenses() - pv_commissions()
result_names() = ("pols_if", "premiums", "claims", "expenses", "commissions", "net_cf")
result_cf(t) = (pols_if(t), premiums(t), claims(t), expenses(t), commissions(t), net_cf(t))
result_pv() = (pv_pols_if(), pv_premiums(), pv_claims(), pv_expenses(), pv_commissions(), pv_net_cf())
policy() = ("term", policy_term, policy_count, sum_assured, expense_acq, expense_maint, inflation_rate, loading_prem)
"""

SAVINGS = """\
premium_pp(t) = fixed(single_premium) if t == 0 else 0.0
av_pp(t) = 0.0 if t == 0 else av_end_pp(t - 1)
av_in_pp(t) = av_pp(t) + premium_pp(t) * (1 - load_prem_rate)
fee_pp(t) = av_in_pp(t) * fee_rate
coi_pp(t) = max(sum_assured - av_in_pp(t), 0.0) * mort_rate_mth(t)
inv_mth() = nroot(1 + inv_rate, 12) - 1
inv_pp(t) = (av_in_pp(t) - fee_pp(t) - coi_pp(t)) * inv_mth()
av_end_pp(t) = av_in_pp(t) - fee_pp(t) - coi_pp(t) + inv_pp(t)
premiums(t) = premium_pp(t) * pols_if(t)
claims(t) = max(sum_assured, av_in_pp(t)) * pols_death(t)
surrenders(t) = av_end_pp(t) * pols_lapse(t)
maturities(t) = av_pp(t) * pols_maturity(t)
commissions(t) = premiums(t) * 0.05
net_cf(t) = premiums(t) - claims(t) - surrenders(t) - maturities(t) - expenses(t) - commissions(t)
pv_surrenders() = sum(surrenders(t) * disc_factor(t) for t in range(proj_len()))
pv_maturities() = sum(maturities(t) * disc_factor(t) for t in range(proj_len()))
pv_net_cf() = pv_premiums() - pv_claims() - pv_surrenders() - pv_maturities() - pv_expenses() - pv_commissions()
result_names() = ("pols_if", "av_pp", "premiums", "claims", "surrenders", "maturities", "expenses", "commissions", "net_cf")
result_cf(t) = (pols_if(t), av_pp(t), premiums(t), claims(t), surrenders(t), maturities(t), expenses(t), commissions(t), net_cf(t))
result_pv() = (pv_pols_if(), 0.0, pv_premiums(), pv_claims(), pv_surrenders(), pv_maturities(), pv_expenses(), pv_commissions(), pv_net_cf())
policy() = ("savings", policy_term, policy_count, sum_assured, expense_acq, expense_maint, inflation_rate, single_premium, load_prem_rate, fee_rate, inv_rate)
"""

REFS = """\
ref Base.mort = table mort
ref Base.disc = table disc
ref Base.expense_acq = 300
ref Base.expense_maint = 60
ref Base.inflation_rate = 0.01
"""

TERM_REFS = """\
age_at_entry = 30
policy_term = 10
sum_assured = 100000
policy_count = 1
loading_prem = 0.5
"""

SAVINGS_REFS = """\
age_at_entry = 40
policy_term = 10
sum_assured = 500000
single_premium = 450000
policy_count = 100
load_prem_rate = 0.05
fee_rate = 0.0005
inv_rate = 0.02
"""


def begun(word, lines):
    return "".join(f"{word}{line}\n" for line in lines.splitlines())


def table(header, rows):
    """Each raw rate is a whole number of 10^-9."""
    text = header + "\n"
    for key, raw in rows:
        text += f"{key},{(Decimal(raw) / 10**9).normalize():f}\n"
    return text


def model(product):
    return f"mx project 1\nspace Base\nspace {product}\nbases {product}: Base\ntable mort\ntable disc\n"


MORT = table("age,rate", [(a, 500000 + 20000 * (a - 20) ** 2) for a in range(20, 101)])
DISC = table("year,zero", [(y, 10000000 + 100000 * y) for y in range(81)])
PARAMS = "params {}(age_at_entry, policy_term, sum_assured, {}policy_count=1)\n"

# the constants of the crate, with the names of their files
SHARED = [
    ("TABLE_MORT", "table_mort.csv", MORT),
    ("TABLE_DISC", "table_disc.csv", DISC),
    ("SPACE_BASE", "space_Base.mx", begun("cells Base.", BASE)),
]


def own(product, formulas, more, refs):
    word = product.upper()
    return [
        (f"{word}_MODEL", "model.mx", model(product)),
        (f"{word}_SPACE", f"space_{product}.mx", begun(f"cells {product}.", formulas) + PARAMS.format(product, more)),
        (f"{word}_REFS", "refs.mx", REFS + begun(f"ref {product}.", refs)),
    ]


OWN = {
    "term_s": own("Term", TERM, "", TERM_REFS),
    "savings_s": own("Savings", SAVINGS, "single_premium, ", SAVINGS_REFS),
}


def files(sample):
    """The files of a sample in the order in which a project is read."""
    model_file, space, refs = ((name, text) for _, name, text in OWN[sample])
    shared = [(name, text) for _, name, text in SHARED]
    return [model_file, *shared, space, refs, ("inputs.mx", "")]


def literal(name, text):
    lines = [line.replace("\\", "\\\\").replace('"', '\\"') + "\\n" for line in text.splitlines()]
    body = "".join(f"\\\n    {line}" for line in lines)
    return f'pub const {name}: &\'static [u8] = b"{body}";\n'


def written():
    head = "//! The files of the samples. tools/life_files.py writes them, each line with its end.\n"
    parts = SHARED + OWN["term_s"] + OWN["savings_s"]
    return head + "".join("\n" + literal(name, text) for name, _, text in parts)


def main(words):
    if words == ["--sums"]:
        for sample in OWN:
            for name, text in files(sample):
                print(f"{sample} {name} {len(text)} {zlib.crc32(text.encode())}")
        return 0
    if words == ["--check"]:
        return 0 if TARGET.read_text() == written() else 1
    TARGET.write_text(written())
    return 0


if __name__ == "__main__":
    sys.exit(main(sys.argv[1:]))
