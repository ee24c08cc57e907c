#!/usr/bin/env python3
"""The wrong bodies that the prover must refuse and that the gate does not try: tools/wrong_bodies/CRATE/NAME.edit.

    tools/wrong_bodies.py [CRATE..]     tries those of these crates, of all where none is named, and tells how many were refused
    tools/wrong_bodies.py --list        lists them by crate, behind those that the gate tries
    tools/wrong_bodies.py --check       whether each, also each of the gate's, can be applied still; no proofs, a moment

An edit has the form that `rt ci` reads in crates/CRATE/must-fail: a line `file: PATH`, then pairs of lines `old: TEXT` and `new: TEXT`,
where TEXT of `old:` stands in that file once. A line `above: NAME` names a crate above, whose theorems pin what the edit turns where
its own crate proves it all the same. They are tried by `rt ci CRATE..` in a copy of the crates that has these edits and no others, so
proofs and edits that the machine has kept are used again. What is new costs: with one edit the crate's whole proof, with several that
proof and up to a minute each. So this runs before a release and where a crate changes, and not in the gate; there, `--check` sees that none rots.
The status is 1 where one was not refused, or could not be applied.
"""
import argparse
import os
import re
import shutil
import subprocess
import sys
import tempfile

TOP = os.path.dirname(os.path.dirname(os.path.abspath(__file__)))
CRATES = os.path.join(TOP, "crates")
KEPT = os.path.join(TOP, "tools", "wrong_bodies")
NAME = re.compile(r"[A-Za-z0-9_-][A-Za-z0-9_.-]*\.edit")
ABOVE = re.compile(r"^above: (\w+)$", re.M)
UNPROVED = re.compile(r"rt: (\w+) NOT PROVED(: its library)?")
TOLD = re.compile(r"rt: must-fail (\w+/[\w.-]+\.edit): (refused, as it must be)?")


def text_of(file):
    with open(file, encoding="utf-8") as f:
        return f.read()


def edits_in(folder):
    """The edits of a folder by their names, and its other files, which no one reads."""
    names = sorted(os.listdir(folder)) if os.path.isdir(folder) else []
    return [it for it in names if NAME.fullmatch(it)], [it for it in names if not NAME.fullmatch(it)]


def by_crate(folders):
    found = {crate: edits_in(folders[crate])[0] for crate in sorted(folders)}
    return {crate: names for crate, names in found.items() if names}


def kept_edits():
    """The edits of tools/wrong_bodies by crate."""
    return by_crate({crate: os.path.join(KEPT, crate) for crate in os.listdir(KEPT)})


def gate_edits():
    """The edits that the gate tries by crate."""
    return by_crate({crate: os.path.join(CRATES, crate, "must-fail") for crate in os.listdir(CRATES)})


def why_not(crate, file):
    """Why an edit cannot be applied to its crate, or None."""
    path, old, pairs, texts, was = "", None, 0, {}, {}
    for line in text_of(file).splitlines():
        if line.startswith("file: "):
            path = line[len("file: ") :].strip()
            whole = os.path.join(CRATES, crate, path)
            if os.path.normpath(path) != path or not path.startswith(("src/", "specs/", "proofs/")) or not os.path.isfile(whole):
                return f"there is no file {path} of src/, specs/ or proofs/"
            if path not in texts:
                texts[path] = was[path] = text_of(whole)
        elif line.startswith("old: "):
            old = line[len("old: ") :]
        elif line.startswith("new:"):
            if not path or not old:
                return "a line 'new:' stands before any 'file:' or 'old:'"
            times = texts[path].count(old)
            if times != 1:
                return f"'{old.strip()}' stands in {path} {times} times, and not once"
            texts[path] = texts[path].replace(old, line[len("new:") :].removeprefix(" "))
            old, pairs = None, pairs + 1
        elif line.startswith("above: "):
            if not os.path.isdir(os.path.join(CRATES, line[len("above: ") :].strip())):
                return "there is no crate of the name behind 'above:'"
        elif line.strip():
            return f"a line begins with none of 'file: ', 'old: ' and 'new:': {line.strip()[:60]}"
    if not pairs or old:
        return "it has no pair of 'old:' and 'new:', or half of one"
    return "it changes nothing" if texts == was else None


def check():
    """Tells which edits cannot be applied, and returns the status."""
    wrong, count, at_gate = [], 0, gate_edits()
    with open(os.path.join(TOP, "crates.txt"), encoding="utf-8") as f:
        listed = {line.partition(":")[0].split()[0] for line in f if line.partition("#")[0].strip()}
    places = [(crate, os.path.join(CRATES, crate, "must-fail")) for crate in sorted(os.listdir(CRATES))]
    places += [(crate, os.path.join(KEPT, crate)) for crate in sorted(os.listdir(KEPT))]
    for crate, folder in places:
        names, others = edits_in(folder)
        wrong += [f"{os.path.relpath(os.path.join(folder, it), TOP)}: no edit by its name" for it in others]
        for name in names:
            file, count = os.path.join(folder, name), count + 1
            is_twice = folder.startswith(KEPT) and name in at_gate.get(crate, [])
            why = "no crate of that name" if crate not in listed else "the gate tries it too" if is_twice else why_not(crate, file)
            if why:
                wrong.append(f"{os.path.relpath(file, TOP)}: {why}")
    for it in wrong:
        print(f"wrong_bodies: {it}", file=sys.stderr)
    if not wrong:
        print(f"wrong_bodies: {count} can be applied, {sum(map(len, at_gate.values()))} of them are tried by the gate")
    return 1 if wrong else 0


def copy_of_crates(room, chosen):
    """Writes the crates to a folder, with these edits and no others."""

    def left_out(at, names):
        return [it for it in names if it in ("out", "must-fail") and os.path.dirname(at) == CRATES]

    shutil.copytree(CRATES, os.path.join(room, "crates"), ignore=left_out)
    for name in ("crates.txt", "HANDLES"):
        shutil.copy(os.path.join(TOP, name), room)
    for crate, names in chosen.items():
        folder = os.path.join(room, "crates", crate, "must-fail")
        os.mkdir(folder)
        for name in names:
            shutil.copy(os.path.join(KEPT, crate, name), folder)


def lines_of_run(room, crates):
    """The lines of `rt ci` over some crates in a folder; those that `rt` says itself are printed as it says them."""
    environment = {name: value for name, value in os.environ.items() if name != "CI"}
    how = {"cwd": room, "env": environment, "stdout": subprocess.PIPE, "stderr": subprocess.STDOUT}
    with subprocess.Popen(["rt", "ci", *crates], encoding="utf-8", errors="replace", **how) as run:
        for line in run.stdout:
            if line.startswith("rt: "):
                print(line, end="", flush=True)
            yield line


def refused_by_own(chosen):
    """Those of these edits that their own crates refuse."""
    with tempfile.TemporaryDirectory(prefix="wrong-bodies-") as room:
        copy_of_crates(room, chosen)
        told = [TOLD.match(line) for line in lines_of_run(room, chosen)]
    return {it[1] for it in told if it and it[2]}


def apply_edit(room, crate, name):
    """Makes an edit in a copy of the crates."""
    path, old = "", ""
    for line in text_of(os.path.join(KEPT, crate, name)).splitlines():
        if line.startswith("file: "):
            path = os.path.join(room, "crates", crate, line[len("file: ") :].strip())
        elif line.startswith("old: "):
            old = line[len("old: ") :]
        elif line.startswith("new:"):
            text = text_of(path).replace(old, line[len("new:") :].removeprefix(" "))
            with open(path, "w", encoding="utf-8") as f:
                f.write(text)


def is_refused_above(crate, name, above):
    """Whether a crate above is not proved over the crate with this edit, which is proved itself."""
    with tempfile.TemporaryDirectory(prefix="wrong-bodies-") as room:
        copy_of_crates(room, {})
        apply_edit(room, crate, name)
        told = [UNPROVED.match(line) for line in lines_of_run(room, [above])]
    return [it.groups() for it in told if it] == [(above, None)]


def attempt(chosen):
    """Tries these edits, prints what `rt` says of them as it says it, and returns the status."""
    above = {(crate, name): ABOVE.search(text_of(os.path.join(KEPT, crate, name))) for crate, names in chosen.items() for name in names}
    own = {crate: [it for it in names if not above[crate, it]] for crate, names in chosen.items()}
    own = {crate: names for crate, names in own.items() if names}
    refused = refused_by_own(own) if own else set()
    refused |= {f"{crate}/{name}" for (crate, name), it in above.items() if it and is_refused_above(crate, name, it[1])}
    wanted = [f"{crate}/{name}" for crate, names in chosen.items() for name in names]
    lacking = [it for it in wanted if it not in refused]
    print(f"wrong_bodies: {len(wanted) - len(lacking)} of {len(wanted)} refused")
    for it in lacking:
        print(f"wrong_bodies: {it}: not refused, or not tried", file=sys.stderr)
    return 1 if lacking else 0


def main():
    parser = argparse.ArgumentParser(description=__doc__.splitlines()[0])
    parser.add_argument("crates", nargs="*", metavar="CRATE")
    parser.add_argument("--list", action="store_true")
    parser.add_argument("--check", action="store_true")
    args = parser.parse_args()
    if args.check:
        sys.exit(check())
    kept = kept_edits()
    if args.list:
        for where, edits in (("the gate", gate_edits()), ("tools/wrong_bodies", kept)):
            print(f"{where}: {sum(map(len, edits.values()))} in {len(edits)} crates")
            for crate, names in edits.items():
                print(f"  {crate}: {' '.join(name.removesuffix('.edit') for name in names)}")
        return
    unknown = [it for it in args.crates if it not in kept]
    if unknown:
        sys.exit(f"wrong_bodies: none of {unknown[0]}; --list tells which there are")
    sys.exit(attempt({crate: names for crate, names in kept.items() if not args.crates or crate in args.crates}))


main()
