"""Runs rows through `mx run` and compares what it writes with their answers.

A row is a command of scripts with its answer, whose lines are joined by `; `. An edit that is made answers `ok`, and how many nodes it
dropped, where there are some: the nodes are counted by `held` before and behind it. One word is no row, but gives the group a file:

    file NAME LINE; LINE    the lines of a file in the folder in which the program runs; it is there from the first row on

Three words stand for several commands:

    only NODE; NODE         `yes` where these nodes are held and no others
    ticks NODE              an evaluation; a fault or a ring with the number of runs that it began, which are the newly held nodes and those
                            that waited for one another, as many as the least limit under which the evaluation is not too deep
    repeat NUMBER COMMAND   the command so many times, with the number of the time in place of each `@`
"""
import itertools
import pathlib
import subprocess
import tempfile

PROGRAM = pathlib.Path(__file__).resolve().parent.parent / "crates" / "mx_cli" / "out" / "mx_cli"
EDITS = {"space", "unspace", "bases", "cells", "def", "uncells", "allow", "disallow", "ref", "unref", "params", "unparams", "global",
         "unglobal", "input", "uninput", "table"}
FIRST_LIMIT = 5_000
MOST_WAITING = 8  # no row has more runs that end without a value


def count_of(block):
    """The number in `held NUMBER`."""
    return int(block.split(" ")[1])


def edit(command):
    def told(before, answer, after):
        gone = count_of(before) - count_of(after)
        return f"{answer} {gone}" if gone else answer

    return ["held", command, "held"], told


def only(command):
    nodes = [node.strip() for node in command.removeprefix("only ").split(";")]

    def told(*blocks):
        for node, block in zip(nodes, blocks):
            if block != "held":
                return f"{node} is {block}"
        return "yes" if count_of(blocks[-1]) == len(nodes) else blocks[-1]

    return [*(f"held {node}" for node in nodes), "held"], told


def ticks(command, limit):
    evaluation = f"eval {command.removeprefix('ticks ')}"
    limits = range(1, min(limit, MOST_WAITING + 1))

    def told(before, answer, after, *blocks):
        if not answer.startswith(("fault ", "ring ")):
            return answer
        waiting = next((tried for tried, block in zip(limits, blocks[1::2]) if not block.startswith("too deep ")), limit)
        return f"{answer} runs {count_of(after) - count_of(before) + waiting}"

    probes = itertools.chain(*([f"limit {tried}", evaluation] for tried in limits))
    return ["held", evaluation, "held", *probes, f"limit {limit}"], told


def repeat(command):
    _, count, pattern = command.split(" ", 2)
    made = [edit(pattern.replace("@", str(number))) for number in range(1, int(count) + 1)]

    def told(*blocks):
        answers = [tell(*blocks[at * 3:at * 3 + 3]) for at, (_, tell) in enumerate(made)]
        return "; ".join(f"{len(list(same))} times {answer}" for answer, same in itertools.groupby(answers))

    return [asked for commands, _ in made for asked in commands], told


def apart(rows):
    """The files of a group by their names, and its rows."""
    files, asked = {}, []
    for command, answer in rows:
        word, _, rest = command.partition(" ")
        if word == "file":
            name, _, lines = rest.partition(" ")
            assert name not in files, f"the file {name} is given twice"
            files[name] = "".join(f"{line}\n" for line in lines.split("; ")) if lines else ""
        else:
            asked.append((command, answer))
    return files, asked


def commands_of(rows):
    """For each row the commands that it stands for, and what their blocks tell."""
    limit = FIRST_LIMIT
    for command, answer in rows:
        word, _, rest = command.partition(" ")
        if word == "limit" and answer == "ok":
            limit = int(rest)
        if word in EDITS:
            yield edit(command)
        elif word == "only":
            yield only(command)
        elif word == "ticks":
            yield ticks(command, limit)
        elif word == "repeat":
            yield repeat(command)
        else:
            yield [command], lambda block: block


def blocks_of(written):
    """The blocks of a transcript, with the lines of each joined."""
    lines = iter(written.splitlines())
    for line in lines:
        word, _, count = line.partition(" ")
        more = int(count) if word in ("reads", "succs") else 0
        yield "; ".join([line, *itertools.islice(lines, more)])


def run_beside(files, script, program):
    """A run of the program in a folder with these files alone."""
    with tempfile.TemporaryDirectory() as folder:
        for name, text in files.items():
            path = pathlib.Path(folder, name)
            path.parent.mkdir(parents=True, exist_ok=True)
            path.write_text(text)
        return subprocess.run([pathlib.Path(program).resolve(), "run"], input=script, cwd=folder, capture_output=True, text=True)


def difference(group, program=PROGRAM):
    """The first row that is answered otherwise, with its answer. None where all are answered alike."""
    files, rows = apart(group)
    asked = list(commands_of(rows))
    script = [command for commands, _ in asked for command in commands]
    run = run_beside(files, "".join(f"{command}\n" for command in script), program)
    if run.returncode != 0:
        return f"the program ended with status {run.returncode}"
    blocks = list(blocks_of(run.stdout))
    if len(blocks) != len(script):
        return f"the program wrote {len(blocks)} blocks for {len(script)} commands"
    lines = itertools.accumulate((command.count("\n") + 1 for command in script), initial=1)
    placed = iter([block.removeprefix(f"line {line}: ") for block, line in zip(blocks, lines)])
    for (command, answer), (commands, told) in zip(rows, asked):
        answered = told(*itertools.islice(placed, len(commands)))
        if answered != answer:
            return f"{command}\nwanted: {answer}\ntold:   {answered}"
    return None
