#!/usr/bin/env python3
"""What the gate costs: where the processor minutes of a run of `rt ci` go.

    tools/gate_cost.py [--record FILE] [--anew] [CRATE..]     runs `rt ci` with these words, and tells what it took
    tools/gate_cost.py --attach PID [--record FILE]           the same of a run that is under way, by the process id of its `rt`
    tools/gate_cost.py --read FILE                            tells a record again
    tools/gate_cost.py --read FILE --markdown                 and fills the table of docs/GATE.md from it
    --on N         also how long the clock would be on N processors (again for each N; 2 and 4 where none is named)

Only `rt ci --anew` costs what a machine pays that has kept nothing; a run that takes over what earlier ones proved tells the rest. Twice a
second the processes that `rt` started are looked at: their command line tells the crate and the kind, and the system counts their processor time.

Proofs are the checks of crates; tests are proved apart. Wrong bodies have three parts: tries, the proof that the tries of a crate with
several begin with, and the check at their end. Programs are compiled by two compilers, and run. What is left over is `rt` itself, with all that
was too short to be seen. Times are those of processors: other work on the machine makes them grow too, though less than the clock. The
longest chain sums the proofs of crates of which each stands on the one before, and no number of processors makes the gate shorter. A processor
is idle that no task of the run takes: each takes one, or as many as it uses. The clock on N processors is reckoned by giving the
measured tasks to N lanes as `rt` does, those with the most lines behind them first, edits last, each on one processor.
"""
import argparse
import glob
import json
import os
import re
import subprocess
import sys
import time
from collections import defaultdict

TOP = os.path.dirname(os.path.dirname(os.path.abspath(__file__)))
PAGE = os.path.join(TOP, "docs", "GATE.md")
FIRST, LAST = "<!-- measured: tools/gate_cost.py --read FILE --markdown -->", "<!-- end of what was measured -->"
PAUSE, SPAN = 0.5, 10.0
TICKS = os.sysconf("SC_CLK_TCK")
# Each kind, what it is called, and the column of a crate's table that it counts in.
KINDS = {
    "proof": ("proofs of crates", "proof"),
    "tests": ("proofs of tests", "tests"),
    "try": ("wrong bodies: tries", "wrong bodies"),
    "seed": ("wrong bodies: the proof that several begin with", "wrong bodies"),
    "end": ("wrong bodies: the check at their end", "wrong bodies"),
    "build": ("programs and tests: compiled and linked", "programs"),
    "run": ("programs and tests: run", "programs"),
}
COLUMNS = ("proof", "tests", "wrong bodies", "programs")
REST = "rt itself, and what is left over"
MOST = 6
RUN = re.compile(r"/rt-run-\d+-[^/]*/bin/(\w+)$")


def crates_of(top):
    """The crates of a repository: those that each stands on, and its lines of code, by which `rt` puts them in order."""
    crates = {}
    with open(os.path.join(top, "crates.txt"), encoding="utf-8") as f:
        for line in f:
            head, colon, below = line.partition("#")[0].partition(":")
            if colon:
                crates[head.split()[0]] = {"below": below.split(), "lines": 0}
    for name, crate in crates.items():
        crate["below"] = [it for it in crate["below"] if it in crates]
        for file in glob.glob(os.path.join(top, "crates", name, "src", "**", "*.rt"), recursive=True):
            with open(file, "rb") as f:
                crate["lines"] += f.read().count(b"\n")
    return crates


class Process:
    """A line of /proc: who began it and when, and the processor seconds of it and of the children that it waited for."""

    def __init__(self, pid):
        with open(f"/proc/{pid}/stat", "rb") as f:
            fields = f.read().rpartition(b")")[2].split()
        self.pid, self.parent, self.began, self.has_ended = pid, int(fields[1]), int(fields[19]), fields[0] in (b"Z", b"X")
        self.own, self.waited = (sum(map(int, fields[at : at + 2])) / TICKS for at in (11, 13))


def processes():
    found = {}
    for name in os.listdir("/proc"):
        if name.isdigit():
            try:
                found[int(name)] = Process(int(name))
            except OSError:
                pass
    return found


def after(words, flag):
    return words[words.index(flag) + 1] if flag in words[:-1] else ""


class Task:
    """A command that `rt` began, with all that this began: what it is, and the processor seconds so far."""

    def __init__(self, process, at):
        self.pid, self.at, self.seconds, self.processes = process.pid, at, 0.0, 1
        self.kind, self.crate, self.is_told = None, None, False

    def tell(self, tried):
        """Finds the kind and the crate, once the command line is that of the command and no longer that of what leads to it. The
        rooms in which wrong bodies were tried tell a seed from the check at the end."""
        try:
            with open(f"/proc/{self.pid}/cmdline", "rb") as f:
                words = f.read().decode(errors="replace").split("\0")
            if os.path.basename(words[0]).startswith("python") or not words[0]:
                return
            self.is_told = True
            program = next((found for found in map(RUN.search, words) if found), None)
            if program:
                is_test = any(os.path.basename(it) == "rattle-test" for it in words)
                self.kind, self.crate = "run", re.sub("_tests$", "", program[1]) if is_test else program[1]
            elif os.path.basename(words[0]) == "rattle-link":
                self.kind, self.crate = "build", os.path.basename(os.readlink(f"/proc/{self.pid}/cwd"))
            elif os.path.basename(words[0]) == "rattle" and words[1] in ("check", "build"):
                self.crate = after(words, "--crate-name") or None
                self.kind = self.crate and self.kind_of(words, os.readlink(f"/proc/{self.pid}/cwd"), tried)
        except OSError:
            # It has ended, or it belongs to someone else.
            pass

    def kind_of(self, words, folder, tried):
        if os.path.basename(folder).startswith("rt-edit-"):
            room, name = os.path.split(after(words, "--incremental"))
            if name == "seed":
                return "end" if room in tried else "seed"
            tried.add(room)
            return "try"
        if "--crate-checked" in words:
            return "build"
        return "tests" if "--test" in words else "proof"

    def line(self, at):
        return {"what": "task", "kind": self.kind, "crate": self.crate, "from": round(self.at, 1), "to": round(at, 1), "seconds": round(self.seconds, 2)}


class Watch:
    """Looks at a run again and again, and notes what has ended and how long processors stood idle."""

    def __init__(self, root, processors, note):
        self.root, self.processors, self.note = root, processors, note
        self.start, self.last, self.tasks, self.tried = time.monotonic(), time.monotonic(), {}, set()
        self.own, self.waited, self.before, self.total = 0.0, None, 0.0, None
        self.span, self.idle = 0.0, 0.0

    def look(self):
        """Looks once, and tells whether the run is still there. A task takes a processor, or as many as it uses."""
        now, found = time.monotonic(), processes()
        passed = now - self.last
        root = found.get(self.root)
        if root is None or root.has_ended:
            return False
        children = defaultdict(list)
        for it in found.values():
            children[it.parent].append(it)
        if self.waited is None:
            self.own, self.waited, self.before = root.own, root.waited, root.own + root.waited
        new, used, lanes = {}, root.own - self.own, 0.0
        for child in children[self.root]:
            key = child.pid, child.began
            task = new[key] = self.tasks.pop(key, None) or Task(child, now - self.start)
            if not task.is_told:
                task.tell(self.tried)
            below = [child]
            for it in below:
                below += children[it.pid]
            seconds = max(task.seconds, sum(it.own + it.waited for it in below))
            more, task.seconds, task.processes = seconds - task.seconds, seconds, len(below)
            used, lanes = used + more * (not task.kind), lanes + max(passed, more) * bool(task.kind)
        self.end(self.tasks.values(), root.waited - self.waited, now)
        self.tasks, self.own, self.waited, self.last = new, root.own, root.waited, now
        self.total = root.own + root.waited - self.before + sum(it.seconds for it in new.values())
        self.span, self.idle = self.span + passed, self.idle + max(0.0, self.processors * passed - lanes - used)
        if self.span >= SPAN:
            self.flush()
        return True

    def end(self, gone, waited, now):
        """Notes the tasks that are gone. What `rt` has waited for since is theirs too, beyond what was seen of them."""
        told = [it for it in gone if it.kind]
        rest = max(0.0, waited - sum(it.seconds for it in gone)) / max(1, len(told))
        for task in told:
            task.seconds += min(rest, 2 * (now - self.last) * task.processes)
            self.note(task.line(now - self.start))

    def flush(self):
        under_way = sorted({f"{it.crate} ({KINDS[it.kind][1]})" for it in self.tasks.values() if it.kind})
        self.note({"what": "lanes", "seconds": round(self.span, 2), "idle": round(self.idle, 2), "under way": under_way})
        self.span, self.idle = 0.0, 0.0

    def stop(self, status=None, total=None):
        now = time.monotonic()
        self.end(self.tasks.values(), 0.0, now)
        self.tasks = {}
        self.flush()
        seconds = self.total or 0.0 if total is None else total
        self.note({"what": "end", "clock": round(now - self.start, 1), "seconds": round(seconds, 2), "status": status})


def watch(words, pid, note):
    """Runs `rt ci`, or watches a run, to its end, and returns its status."""
    child = None if pid else subprocess.Popen(["rt", "ci", *words], cwd=TOP)
    processors = len(os.sched_getaffinity(0))
    top = f"/proc/{pid}/cwd" if pid else TOP
    command = " ".join(["rt ci", *words]) if child else "rt ci, watched from some time on"
    note({"what": "run", "command": command, "processors": processors, "crates": crates_of(top)})
    seen, status, total = Watch(pid or child.pid, processors, note), None, None
    try:
        while seen.look():
            time.sleep(PAUSE)
            ended = child and os.wait4(child.pid, os.WNOHANG)
            if ended and ended[0]:
                status, total = os.waitstatus_to_exitcode(ended[1]), ended[2].ru_utime + ended[2].ru_stime
                break
    except KeyboardInterrupt:
        if child:
            child.wait()
        print("gate_cost: broken off; what was seen until then:")
    seen.stop(status, total)
    return 0 if pid else 1 if status is None else status


class Cost:
    """What a record tells."""

    def __init__(self, lines):
        self.run = next((it for it in lines if it["what"] == "run"), None)
        if self.run is None:
            sys.exit("gate_cost: this is no record of a run")
        self.end = next((it for it in lines if it["what"] == "end"), None)
        self.crates = self.run["crates"]
        self.lanes = [it for it in lines if it["what"] == "lanes"]
        self.times = defaultdict(lambda: defaultdict(list))
        for it in lines:
            if it["what"] == "task":
                self.times[it["crate"]][it["kind"]].append(it["seconds"])

    def of(self, crate, *kinds):
        return sum(sum(self.times[crate][it]) for it in kinds) if crate in self.times else 0.0

    def column(self, crate, column):
        return self.of(crate, *[it for it, (_, place) in KINDS.items() if place == column])

    def whole(self, crate):
        return self.of(crate, *KINDS)

    def by_kind(self):
        """Each kind with its seconds and how many tasks it had, then what is left over."""
        sums = [(label, sum(self.of(it, kind) for it in self.times), sum(len(it[kind]) for it in self.times.values())) for kind, (label, _) in KINDS.items()]
        rest = self.end["seconds"] - sum(it for _, it, _ in sums) if self.end else 0.0
        return [*sums, (REST, max(0.0, rest), 0)]

    def by_crate(self):
        return sorted(self.times, key=lambda it: (-self.whole(it), it))

    def chain(self):
        """The longest chain of crates by the time of their proofs, the lowest first."""
        best = {}

        def longest(name):
            if name not in best:
                under = max((longest(it) for it in self.crates[name]["below"]), default=(0.0, []))
                own = self.of(name, "proof")
                best[name] = under[0] + own, [*under[1], *([name] if own else [])]
            return best[name]

        return max((longest(it) for it in self.crates), default=(0.0, []))

    def below(self, name):
        """All crates that one stands on."""
        found, left = set(), [*self.crates[name]["below"]]
        while left:
            it = left.pop()
            if it not in found:
                found.add(it)
                left += self.crates[it]["below"]
        return found

    def tasks(self):
        """The measured tasks as `rt` has them: what each waits for, its lines and its seconds."""
        tasks, below = {}, {it: self.below(it) for it in self.crates}
        for name in sorted(self.crates, key=lambda it: len(below[it])):
            lines, waits = self.crates[name]["lines"], [(it, "proof") for it in below[name]]
            kinds = self.times.get(name, {})
            tasks[name, "proof"] = waits, lines, self.of(name, "proof", "build")
            tasks[name, "tests"] = waits, lines * bool(kinds.get("tests")), self.of(name, "tests")
            tries, first = kinds.get("try", []), [(name, "proof"), (name, "tests")]
            if kinds.get("seed"):
                tasks[name, "seed"] = waits, 0, self.of(name, "seed")
                first = [*first, (name, "seed")]
            for number, seconds in enumerate(tries):
                tasks[name, "edits", number] = first, lines, seconds
            if kinds.get("end"):
                tasks[name, "end"] = [(name, "edits", it) for it in range(len(tries))] + first, 0, self.of(name, "end")
        return tasks

    def clock_on(self, processors):
        """The seconds that the clock would take on so many processors, and the processor seconds that stay idle until the last proof or edit."""
        tasks = self.tasks()
        behind = dict.fromkeys(tasks, 0)
        for key in reversed([*tasks]):
            behind[key] += tasks[key][1]
            for it in tasks[key][0]:
                behind[it] = max(behind[it], behind[key])
        left = sorted(tasks, key=lambda it: (it[1] in ("edits", "seed"), -behind[it]))
        now, running, done = 0.0, {}, set()
        while left or running:
            for key in [it for it in left if done.issuperset(tasks[it][0])]:
                if len(running) < processors:
                    left.remove(key)
                    running[key] = now + tasks[key][2]
            now = min(running.values())
            ended = [it for it, at in running.items() if at <= now]
            done.update(ended)
            for it in ended:
                del running[it]
        idle = processors * now - sum(it for _, _, it in tasks.values())
        return now + sum(self.of(it, "run") for it in self.times), max(0.0, idle)

    def idle(self):
        """The seconds of processors that stood idle, of all, and who was under way meanwhile, those most in the way first."""
        whole, by = sum(it["seconds"] for it in self.lanes) * self.run["processors"], defaultdict(float)
        for it in self.lanes:
            for name in it["under way"] or ["none"]:
                by[name] += it["idle"] / max(1, len(it["under way"]))
        return sum(it["idle"] for it in self.lanes), whole, sorted(by.items(), key=lambda it: -it[1])


def minutes(seconds):
    return f"{seconds / 60:.1f}"


def head_of(cost):
    total = sum(it for _, it, _ in cost.by_kind())
    proved = sum(1 for it in cost.crates if cost.of(it, "proof"))
    told = f"{minutes(total)} processor minutes, {proved} of {len(cost.crates)} crates proved"
    if cost.end:
        told += f", {minutes(cost.end['clock'])} minutes of the clock on {cost.run['processors']} processors"
    return told


def chain_of(cost):
    seconds, chain = cost.chain()
    return minutes(seconds), ", ".join(f"{it} {minutes(cost.of(it, 'proof'))}" for it in chain)


def over(cost):
    """The crates that take too long, by their proof or that of their tests, and by all that they take."""
    parts = {"by one proof": lambda it: max(cost.of(it, "proof"), cost.of(it, "tests")), "by all that a crate takes": cost.whole}
    for what, of in parts.items():
        found = [f"{it} {minutes(of(it))}" for it in sorted(cost.times, key=lambda it: -of(it)) if of(it) > 60 * MOST]
        yield what, ", ".join(found) or "none"


def print_all(cost, on):
    status = "broken off" if not cost.end else "" if cost.end["status"] is None else f"status {cost.end['status']}"
    print(f"{cost.run['command']}: {head_of(cost)}{status and f' ({status})'}\n")
    kinds = cost.by_kind()
    total = sum(it for _, it, _ in kinds) or 1
    for label, seconds, count in kinds:
        print(f"{label:48}{minutes(seconds):>8}{100 * seconds / total:6.0f} %" + (f"{count:7}" if count else ""))
    print(f"\n{'':28}" + "".join(f"{it:>14}" for it in (*COLUMNS, "sum")))
    for name in cost.by_crate():
        row = [*(cost.column(name, it) for it in COLUMNS), cost.whole(name)]
        print(f"{name:28}" + "".join(f"{minutes(it):>14}" for it in row))
    for what, found in over(cost):
        print(f"\nover {MOST} minutes {what}: {found}")
    print("\nlongest chain, {} minutes: {}".format(*chain_of(cost)))
    idle, whole, by = cost.idle()
    meanwhile = ", ".join(f"{it} {minutes(much)}" for it, much in by[:8])
    print(f"\nidle: {minutes(idle)} of {minutes(whole)} minutes of processors; under way meanwhile: {meanwhile}")
    for number in on:
        clock, rest = cost.clock_on(number)
        print(f"on {number} processors: {minutes(clock)} minutes of the clock, {minutes(rest)} of processors idle")


def table(rows):
    head, *rest = [f"| {' | '.join(it)} |" for it in rows]
    return "\n".join([head, "|---" * len(rows[0]) + "|", *rest]) + "\n"


def markdown(cost, on):
    """What docs/GATE.md has between its two comment lines."""
    kinds = cost.by_kind()
    total = sum(it for _, it, _ in kinds) or 1
    rows = [("Kind", "Processor minutes", "Of all", "Tasks")]
    rows += [(label, minutes(it), f"{100 * it / total:.0f} %", str(count or "")) for label, it, count in kinds]
    crates = [("Crate", *map(str.capitalize, COLUMNS), "Sum")]
    shown = [it for it in cost.by_crate() if cost.whole(it) >= 60]
    rest = [it for it in cost.times if it not in shown]
    for label, names in [*((f"`{it}`", [it]) for it in shown), (f"the other {len(rest)}", rest)]:
        parts = [sum(cost.column(it, part) for it in names) for part in COLUMNS]
        crates.append((label, *map(minutes, [*parts, sum(map(cost.whole, names))])))
    idle, whole, _ = cost.idle()
    notes = [f"`{cost.run['command']}`: {head_of(cost)}.", "Longest chain, {} minutes: {}.".format(*chain_of(cost))]
    notes += [f"Over {MOST} minutes {what}: {found}." for what, found in over(cost)]
    notes += [f"Idle: {minutes(idle)} of {minutes(whole)} minutes of processors."]
    notes += ["Reckoned: " + ", ".join(f"{minutes(cost.clock_on(it)[0])} minutes of the clock on {it} processors" for it in on) + "."]
    return "\n".join([notes[0] + "\n", table(rows), table(crates), *(f"- {it}" for it in notes[1:])]) + "\n"


def fill(text):
    with open(PAGE, encoding="utf-8") as f:
        head, first, rest = f.read().partition(FIRST)
    _, last, tail = rest.partition(LAST)
    if not (first and last):
        sys.exit("gate_cost: docs/GATE.md has not the two lines between which the table stands")
    with open(PAGE, "w", encoding="utf-8") as f:
        f.write(f"{head}{first}\n\n{text}\n{last}{tail}")


def main():
    parser = argparse.ArgumentParser(description=__doc__.splitlines()[0])
    parser.add_argument("crates", nargs="*")
    parser.add_argument("--anew", action="store_true")
    parser.add_argument("--attach", type=int, metavar="PID")
    parser.add_argument("--read", metavar="FILE")
    parser.add_argument("--record", metavar="FILE")
    parser.add_argument("--markdown", action="store_true")
    parser.add_argument("--on", type=int, action="append", metavar="N")
    args = parser.parse_args()
    lines, status = [], 0
    if args.read:
        with open(args.read, encoding="utf-8") as f:
            lines = [json.loads(line) for line in f]
    else:
        with open(args.record or os.devnull, "w", encoding="utf-8") as f:

            def note(line):
                lines.append(line)
                f.write(json.dumps(line) + "\n")
                f.flush()

            status = watch(["--anew"] * args.anew + args.crates, args.attach, note)
    cost, on = Cost(lines), args.on or [2, 4]
    print_all(cost, on)
    if args.markdown:
        fill(markdown(cost, on))
    sys.exit(status)


main()
