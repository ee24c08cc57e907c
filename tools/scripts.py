#!/usr/bin/env python3
"""Runs scripts through `mx run`, and compares what it writes with their answers, byte for byte.

    tools/scripts.py [--mx PATH]      through the program, which is crates/mx_cli/out/mx_cli as `rt ci` builds it, or another one

The scripts are the examples of docs/USER-GUIDE.md, the files of examples/ and of tests/scripts/, and those that are made here: they
come to a limit, end by a fault outside, or are long. In a page a script is a block marked `mx`, with the block marked `answer` behind
it. The answer to NAME.txt stands in NAME.answer. No answer is taken from the program: they are worked by hand from the rules.

A block marked `csv` and a name is a file for the scripts behind it, up to the next heading. They run in a folder of these files alone.
The files of examples/ and tests/scripts/ run at the top of the repository.
"""
import argparse
import os
import pathlib
import re
import resource
import socket
import string
import subprocess
import sys
import tempfile

TOP = pathlib.Path(__file__).resolve().parent.parent
PROGRAM = TOP / "crates" / "mx_cli" / "out" / "mx_cli"
PART = re.compile(rb"^```(?P<kind>\w*) ?(?P<name>\S*)\n(?P<text>.*?)^```$|^#+ ", re.M | re.S)
USAGE = b"usage: mx MODE ARGUMENTS\n"
SECONDS = 60  # what a script takes at most


def of_page(page):
    """The scripts of a page: where each stands, the script, its answer and its files."""
    found, files, script = [], {}, None
    for part in PART.finditer(page.read_bytes()):
        kind, text = part["kind"], part["text"]
        if (script is None) == (kind == b"answer"):
            sys.exit(f"{page}: a script without its answer, or an answer without its script")
        if kind is None:
            files = {}
        elif kind == b"csv":
            files = files | {part["name"].decode(): text}
        elif kind == b"mx":
            script = text
        elif kind == b"answer":
            found.append((f"{page.relative_to(TOP)}, script {len(found) + 1}", script, text, files))
            script = None
    if not found or script is not None:
        sys.exit(f"{page}: a script without its answer")
    return found


def of_files(folder):
    scripts = sorted(folder.glob("*.txt"))
    if not scripts:
        sys.exit(f"{folder}: no script")
    return [(str(path.relative_to(TOP)), path.read_bytes(), path.with_suffix(".answer").read_bytes(), None) for path in scripts]


def accepted(edits, behind=""):
    return "ok\n" * edits + behind


def deep_spaces(names):
    """Spaces A, A.A and so on, up to a path of so many names."""
    return "".join(f"space {'.'.join('A' * depth)}\n" for depth in range(1, names + 1))


def chain_of_bases(spaces):
    """So many spaces, each with the one before as its base."""
    made = "".join(f"space s{at}\nbases s{at}: s{at - 1}\n" for at in range(1, spaces))
    return f"space s0\n{made}"


def doubled_paths():
    """Spaces of which each has two children with the space before as their base, and so twice as many paths. The last has one such
    child."""
    lines = ["space A"]
    for base, space in zip(string.ascii_uppercase, string.ascii_uppercase[1:14]):
        lines.append(f"space {space}")
        for child in "X" if space == "N" else "XY":
            lines += [f"space {space}.{child}", f"bases {space}.{child}: {base}"]
    return "\n".join([*lines, "order N.X", ""])


def in_parentheses(depth):
    return f"cells c() = {'(' * depth}1{')' * depth}\neval c()\n"


def tuples(depth):
    """None in so many tuples of one item."""
    return f"{'(' * depth}None{',)' * depth}"


def reference(literal):
    return f"ref k = {literal}\ncells c() = k\nallow c\neval c()\n"


def blocks(depth, line):
    """A definition with so many blocks in one another, each opened by this line, and `pass` on the line of the last."""
    return "def f():\n" + "\n".join(f"{' ' * level}{line}" for level in range(1, depth + 1)) + " pass\n"


def edits_beside(edits):
    """A long projection, then so many edits that nothing of it rests on, and the projection again."""
    projection = "limit 100000\nspace S\nparams S(x)\ncells S.f(t) = x if t == 0 else f(t - 1)\neval S[1].f(99990)\n"
    return projection + "".join(f"cells z() = {2 + at % 2}\n" for at in range(edits)) + "held\neval S[1].f(99990)\n"


CHAIN = "cells f(n) = 0 if n == 0 else f(n - 1)\neval f(5000)\nlimit 100001\nlimit 100000\neval f(99999)\neval f(150000)\n"
CHAIN_ANSWER = "ok\ntoo deep at Main.f(0)\nrefused: BadLimit\nok\n= 0 runs 100000\n= 0 runs 50001\n"


def made():
    """Scripts at the limits of a model, of a formula and of chains, and long ones."""
    comments = f"{'#' * 40_000}\n" * 2
    scripts = (
        ("a path has 64 names at most", deep_spaces(65), accepted(64, "refused: TooMany Depth\n")),
        ("a space has 64 layers at most", chain_of_bases(65), accepted(128, "refused: TooMany Layers\n")),
        ("a model has 20,000 static paths at most", doubled_paths(), accepted(63, "refused: TooMany Paths\norder N.X\n")),
        ("a name has 64 bytes at most", f"space {'a' * 64}\nspace {'a' * 65}", "ok\nrefused: BadName\n"),
        ("64 parentheses may be open", in_parentheses(64), "ok\n= 1 runs 1\n"),
        ("65 parentheses are too many", in_parentheses(65), "line 1: formula: too nested at 69\nno such node\n"),
        ("a formula with all its lines has 65,536 bytes at most", f"cells c() = 1\n{comments}", "line 1: formula: too long\n"),
        ("a literal opens 64 brackets", reference(tuples(64)), f"ok\nok\nok\n= {tuples(64)} runs 1\n"),
        ("a literal of 65 brackets", f"ref k = {tuples(65)}", "line 1: formula: too nested at 64\n"),
        ("8 loops in one another", blocks(8, "for i in t:"), "ok\n"),
        ("9 loops in one another", blocks(9, "for i in t:"), "line 1: formula: too many loops\n"),
        ("what a loop goes over is outside it", blocks(8, "for i in f(x for x in t):"), "ok\n"),
        ("63 blocks are printed in 64", blocks(63, "if a:"), "ok\n"),
        ("64 blocks are printed in too many", blocks(64, "if a:"), "line 1: formula: prints too long\n"),
        ("each sign is printed with two spaces", f"cells f()=a{'+a' * 17_000}\n", "line 1: formula: prints too long\n"),
        ("an address has 63 brackets inside it", f"clear space A[{'(' * 63}", "line 1: bad form at 77\n"),
        ("an address has 64 brackets inside it", f"clear space A[{'(' * 64}", "line 1: formula: too nested at 77\n"),
        ("65 brackets behind cells", f"clear cells x {'(' * 65}", "line 1: formula: too nested at 78\n"),
        ("no bracket is counted behind a path", f"space {'(' * 65}", "line 1: bad form at 6\n"),
        # A recursion over the stack of the program ends here without an answer.
        ("a chain of 100,000 nodes is answered", CHAIN, CHAIN_ANSWER),
        # An edit that looks at everything that is held takes far too long here.
        ("10,000 edits beside a long projection touch nothing of it", edits_beside(10_000),
         accepted(4, "= 1 runs 99992\n") + accepted(10_000, "held 99992\n= 1 runs 0\n")),
    )
    return [(name, script.encode(), answer.encode(), {}) for name, script, answer in scripts]


def table(columns, records, field=b"1"):
    """A file with so many columns, and so many records of such fields behind their keys."""
    head = b",".join(b"c%d" % at for at in range(columns))
    return b"\n".join([head, *(b"%d" % key + (b"," + field) * (columns - 1) for key in range(records)), b""])


def padded(size):
    """A file of so many bytes: a small table with empty lines behind it."""
    return table(2, 1).ljust(size, b"\n")


def made_tables():
    """Tables and files at their limits, and files as other programs write them."""
    script = b"table t t.csv\nref t = table t\ncells c() = t[0, 'c1']\neval c()\n"
    answer = b"ok\nok\nok\n= 1 runs 1\n"
    missing = b"refused: NoSuchMember\nok\nfault NoName at Main.c() line 1\n"
    longest, longer = "/".join(["a" * 63] * 3 + ["b" * 63]), "/".join(["a" * 63] * 4) + "b"
    files = (
        ("a table has 120 columns at most", table(120, 1), answer),
        ("a table of 121 columns is too big before all else", table(121, 1, b"x"), b"refused: too big\n" + missing),
        ("a table has 10,000 records at most", table(2, 10_000), answer),
        ("a table of 10,001 records is too big before all else", table(1, 10_001), b"refused: too big\n" + missing),
        ("a table of both at their limits", table(120, 10_000), answer),
        ("a file has 67,108,864 bytes at most", padded(67_108_864), answer),
        ("a file of a byte more is too big", padded(67_108_865), b"refused: too big t.csv\n" + missing),
        ("a file as Windows ends its lines", table(2, 3).replace(b"\n", b"\r\n"), answer),
        ("a file whose lines end with CR", table(2, 3).replace(b"\n", b"\r"), answer),
        ("a file with a byte order mark, as a spreadsheet saves it", b"\xef\xbb\xbf" + table(2, 3).replace(b"\n", b"\r\n"), answer),
        ("a file whose last line has no end", table(2, 3).rstrip(b"\n"), answer),
        ("fields in quotes, and empty lines", b'\n"c0","c1"\n\n"0","1"\n\n', answer),
        ("semicolons part no fields", table(2, 3).replace(b",", b";"), b"refused: bad row 0\n" + missing),
        ("tabs part no fields", table(2, 3).replace(b",", b"\t"), b"refused: bad row 0\n" + missing),
        ("a name with a line end in it", b'c0,"c\n1"\n0,1\n', b"refused: bad row 0\n" + missing),
        ("text in 16 bits", table(2, 3).decode().encode("utf-16"), b"refused: bad row 0\n" + missing),
    )
    names = (
        ("the name of a file has 255 bytes at most", f"table t {longest}\n", b"ok\n", {longest: table(2, 1)}),
        ("the name of a file of 256 bytes", f"table t {longer}\n", b"line 1: bad form at 8\n", {longer: table(2, 1)}),
    )
    assert [len(longest), len(longer)] == [255, 256]
    return [(name, script, said, {"t.csv": file}) for name, file, said in files] + [
        (name, script.encode(), said, given) for name, script, said, given in names
    ]


FIB, FIB_ANSWER = of_page(TOP / "tests" / "scripts" / "first.md")[0][1:3]


def run(program, *words, **streams):
    done = subprocess.run([program, *words], timeout=SECONDS, **streams)
    return done.returncode, done.stdout


def on_bytes(*words, script=FIB, folder=TOP):
    return lambda program: run(program, *words, input=script, stdout=subprocess.PIPE, cwd=folder)


def put(folder, name, text):
    path = folder / name
    path.parent.mkdir(parents=True, exist_ok=True)
    path.write_bytes(text)


def beside(files, script):
    """A run of a script in a folder with these files alone, or at the top of the repository."""
    def ended(program):
        with tempfile.TemporaryDirectory() as folder:
            for name, text in files.items():
                put(pathlib.Path(folder), name, text)
            return on_bytes("run", script=script, folder=folder)(program)
    return on_bytes("run", script=script) if files is None else ended


def barred(bar, script):
    """A run in a folder with a table `t.csv`, and with something that bars the way to a file."""
    def ended(program):
        with tempfile.TemporaryDirectory() as name:
            folder = pathlib.Path(name)
            put(folder, "t.csv", table(2, 1))
            bar(folder)
            return on_bytes("run", script=script, folder=folder)(program)
    return ended


def cut_off(script):
    """A run whose first read gives the script, and whose next one fails: the other side went away with a byte unread."""
    def ended(program):
        here, there = socket.socketpair()
        with here:
            with there:
                there.sendall(script)
                here.sendall(b"?")
            return run(program, "run", stdin=here, stdout=subprocess.PIPE)
    return ended


def unreadable(program):
    """A run whose first read fails: its input is a folder."""
    folder = os.open(TOP, os.O_RDONLY)
    try:
        return run(program, "run", stdin=folder, stdout=subprocess.PIPE)
    finally:
        os.close(folder)


def with_room(size):
    """A run whose output takes so many bytes, and then fails."""
    def limited():
        resource.setrlimit(resource.RLIMIT_FSIZE, (size, size))

    def ended(program):
        with tempfile.TemporaryFile() as out:
            status, _ = run(program, "run", input=FIB, stdout=out, preexec_fn=limited, restore_signals=False)
            out.seek(0)
            return status, out.read()
    return ended


def ends():
    """Runs with their status and what they write: other words, limits of a line and of a script, and faults outside."""
    line = f"eval f(1)\n{' ' * 65_527}eval f(1)".encode()
    longer = line.replace(b"\n", b"\n ")
    script = f"{'#' * 65_535}\n".encode() * 256
    missing = b"no such node\n"
    tables, linked = b"table t t.csv\ntable t u.csv\neval f(1)\n", b"table t t.csv\ntable t v/t.csv\n"
    return (
        ("no word", on_bytes(), 2, USAGE),
        ("a word too many", on_bytes("run", "now"), 2, USAGE),
        ("another word", on_bytes("--help"), 2, USAGE),
        ("a line up to its limit", on_bytes("run", script=line), 0, missing * 2),
        ("a line past its limit", on_bytes("run", script=longer), 6, missing),
        ("a script up to its limit", on_bytes("run", script=script), 0, b""),
        ("a script past its limit", on_bytes("run", script=script + b"\n"), 6, b""),
        ("the second read fails", cut_off(FIB), 3, FIB_ANSWER),
        ("the second read fails within a line", cut_off(b"cells f(n) = n"), 3, b""),
        ("the first read fails", unreadable, 3, b""),
        ("the first write fails", with_room(0), 4, b""),
        ("the second write fails", with_room(3), 4, b"ok\n"),
        ("a write takes a part, and the next one fails", with_room(4), 4, b"ok\n="),
        ("a folder in the place of a file", barred(lambda folder: (folder / "u.csv").mkdir(), tables), 3, b"ok\n"),
        ("a link in the place of a file", barred(lambda folder: (folder / "u.csv").symlink_to("t.csv"), tables), 3, b"ok\n"),
        ("a link on the way to a file", barred(lambda folder: (folder / "v").symlink_to("."), linked), 3, b"ok\n"),
        ("a pipe in the place of a file", barred(lambda folder: os.mkfifo(folder / "u.csv"), tables), 3, b"ok\n"),
    )


def first_difference(written, answer):
    lines = list(zip(written.splitlines() + [None], answer.splitlines() + [None]))
    at = next((at for at, (line, wanted) in enumerate(lines) if line != wanted), 0)
    return f"line {at + 1} of what it writes is {lines[at][0]}, and not {lines[at][1]}"


def main():
    asked = argparse.ArgumentParser()
    asked.add_argument("--mx", default=PROGRAM, type=pathlib.Path)
    program = asked.parse_args().mx.resolve()
    if not os.access(program, os.X_OK):
        print(f"{program} is not built", file=sys.stderr)
        return 1
    groups = {
        "the guide": of_page(TOP / "docs" / "USER-GUIDE.md"),
        "examples": of_files(TOP / "examples"),
        "tests/scripts": [script for page in sorted((TOP / "tests" / "scripts").glob("*.md")) for script in of_page(page)]
        + of_files(TOP / "tests" / "scripts"),
        "limits": made() + made_tables(),
    }
    rows = [(name, beside(files, script), 0, answer) for scripts in groups.values() for name, script, answer, files in scripts]
    faults = 0
    for name, ended, status, answer in (*rows, *ends()):
        found, written = ended(program)
        if found != status or written != answer:
            faults += 1
            print(f"scripts: {name}: status {found}, wanted {status}; {first_difference(written, answer)}", file=sys.stderr)
    told = ", ".join(f"{len(scripts)} of {group}" for group, scripts in groups.items())
    print(f"scripts: {told}, {len(ends())} ends of runs; {faults} answered otherwise")
    return 1 if faults else 0


if __name__ == "__main__":
    sys.exit(main())
