#!/usr/bin/env python3
"""Rows for what the engine does and no script asks for: bound forms and worlds that are put in.

    tools/engine_rows.py            writes crates/mx_engine_rows/stdin and crates/mx_engine_rows/stdout

The answers of tools/engine_rows.txt, which has the form of tools/rows/*.txt, are worked by hand. Beside the commands of scripts there
are

    bound NODE          the bound form of a node, or `none`
    replace EDIT        puts another world in: the new model with one edit made
"""
import pathlib

from rows import worked

FOLDER = pathlib.Path(__file__).resolve().parent
CRATE = FOLDER.parent / "crates" / "mx_engine_rows"


def plain(command, answer):
    """The rows that `only` and `repeat` stand for, or the row itself."""
    word, _, rest = command.partition(" ")
    if word == "only":
        nodes = [node.strip() for node in rest.split(";")]
        return [*((f"held {node}", "held") for node in nodes), ("held", f"held {len(nodes)}")]
    if word == "repeat":
        count, pattern = rest.split(" ", 1)
        return [(pattern.replace("@", str(number)), answer.split(" ", 2)[2]) for number in range(1, int(count) + 1)]
    return [(command, answer)]


def main():
    commands, answers = [], []
    for name, rows in worked(FOLDER / "engine_rows.txt"):
        commands.append(f"# {name}")
        answers.append(f"# {name}")
        for command, answer in [row for made in rows for row in plain(*made)]:
            commands.append(command)
            answers += answer.split("; ")
    (CRATE / "stdin").write_text("\n".join(commands) + "\n")
    (CRATE / "stdout").write_text("\n".join(answers) + "\n")


if __name__ == "__main__":
    main()
