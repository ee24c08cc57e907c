#!/usr/bin/env python3
"""Prints each command of a script beside what `mx run` answers to it.

    tools/beside.py SCRIPT [--mx PATH]     through the program, which is crates/mx_cli/out/mx_cli as `tools/build` makes it, or another one

The program runs once, on the whole script. A command stands there with the numbers of its lines and is followed by its block, indented.
Where a refusal tells a place or a line, a caret stands under it. Notes and empty lines between commands are left out, also those after a
definition, which belong to it, unless a refusal points there. What is no printable text is shown by its escape, such as `\\t` for a tab.

The status is that of the run: 0 where the script was read to its end, whatever its commands were answered. It is 1 where there is no
program or no script.
"""
import argparse
import decimal
import keyword
import os
import pathlib
import re
import subprocess
import sys

TOP = pathlib.Path(__file__).resolve().parent.parent
PROGRAM = TOP / "crates" / "mx_cli" / "out" / "mx_cli"

TAKES_LINES = {b"cells", b"def", b"params"}
ASKS = {b"eval", b"precedents", b"succs", b"held", b"uninput"}
LISTS = re.compile(rb"(?:reads|succs) (\d+)")  # the first line of a block that tells how many more it has
REFUSED = re.compile(rb"line \d+: (bad form|formula: .*?)(?: at (line )?(\d+))?")

NAME = rb"[A-Za-z_][A-Za-z_0-9]*"
NAMES = NAME + rb"(?: *\. *" + NAME + rb")*"
DEFINED = re.compile(rb"\w+ +" + NAMES + rb"(?:[ \n]|#[ -~]*)*")  # a sound head of a definition
REFERS = re.compile(rb"\w+ +" + NAMES + rb" *=(?!=) *")  # a sound head of a reference, with its `=`
LINKS = re.compile(rb"(?:to|abs|table)\b")  # a value that is no literal

# Nodes, whose tokens are spelled by a letter or mark each: `n` is a name, `v` a literal, `d` a number before its sign is seen.
WORDS = {b"None", b"True", b"False"}
TEXT = rb"\"(?:[ !#-[\]-~]|\\[\\\"'])*\"|'(?:[ -&(-[\]-~]|\\[\\\"'])*'"
NUMBER = rb"((?:0|[1-9]\d*)(?:\.\d{1,9})?)(?![A-Za-z_0-9.])"
TOKEN = re.compile(rb" +|#[ -~]*|" + NUMBER + rb"|" + NAME + rb"|" + TEXT + rb"|[()\[\],-]|\.(?!\d)")
TUPLE = re.compile(rb"(?<=[(\[,])\((?:v,(?:v(?:,v)*,?)?)?\)")
SEGMENT = rb"n(?:\[v(?:,v)*,?\])?"
NODE = re.compile(rb"(?:" + SEGMENT + rb"\.)*n(?:\((?:v(?:,v)*,?)?\)|\[v(?:,v)*,?\])")


class Command:
    """The lines of a command, without their ends, and the number of the first, counted from 1."""

    def __init__(self, number, line):
        self.number = number
        self.lines = [line]

    def text(self):
        return b"\n".join(self.lines)


def lines_of(script):
    lines = script.split(b"\n")
    if not lines[-1]:
        lines.pop()
    return [line.removesuffix(b"\r") for line in lines]


def commands_of(script):
    """The commands of a script, in order, as docs/SPECIFICATION.md parts them."""
    commands = []
    taking = False
    for number, line in enumerate(lines_of(script), start=1):
        if taking and (not line or line[:1] in b" #"):
            commands[-1].lines.append(line)
            continue
        told = line.lstrip(b" ")
        if not told or told.startswith(b"#"):
            taking = False
            continue
        commands.append(Command(number, line))
        taking = told.split(b" ", 1)[0] in TAKES_LINES
    return commands


def blocks_of(output):
    """The blocks of an output: a line each, and where it counts reads or succs, so many lines more."""
    lines = output.split(b"\n")[:-1]
    blocks, at = [], 0
    while at < len(lines):
        lists = LISTS.fullmatch(lines[at])
        end = at + 1 + (int(lists[1]) if lists else 0)
        blocks.append(lines[at:end])
        at = end
    return blocks


def kind_of(token):
    """The letter of a token of a node: `n` for a name, `v` for a literal but for its sign, a mark for itself, nothing for a space."""
    if token[:1] in b" #":
        return b""
    if token in WORDS:
        return b"v"
    if token[:1] in b"\"'0123456789":
        return b"v" if token[:1] in b"\"'" else b"d"
    return b"?" if keyword.iskeyword(token.decode()) else b"n" if re.match(NAME, token) else token


def is_node(text):
    """Whether a text is a node, as docs/SPECIFICATION.md has its grammar."""
    kinds, at = b"", 0
    while at < len(text):
        token = TOKEN.match(text, at)
        if not token or (token[1] and not is_small(token[1])):
            return False
        kinds, at = kinds + kind_of(token[0]), token.end()
    kinds = re.sub(rb"-?d", b"v", kinds)
    before = None
    while kinds != before:
        before, kinds = kinds, TUPLE.sub(b"v", kinds)
    return bool(NODE.fullmatch(kinds))


def is_small(number):
    return int(number) <= 2 ** 63 if number.isdigit() else decimal.Decimal(number.decode()) <= 10 ** 10


def node_length(text):
    """How many bytes stand in front of the first `=` outside of texts and brackets."""
    depth, quote, escaped = 0, None, False
    for at, byte in enumerate(text.decode("latin-1")):
        if quote:
            if escaped or byte == "\\":
                escaped = not escaped
            elif byte == quote:
                quote = None
        elif byte == "=" and depth == 0:
            return at
        elif byte in "\"'":
            quote = byte
        else:
            depth = max(0, depth + (byte in "([{") - (byte in ")]}"))
    return len(text)


def after_word(text, at):
    """Where the next word begins, after the one that begins here."""
    return re.compile(rb"[^ \n]* *").match(text, at).end()


def value_of(text, at):
    """Where the value of an input begins, or its node where that is what cannot be read."""
    length = node_length(text[at:])
    if at + length == len(text) or not is_node(text[at:at + length].rstrip(b" ")):
        return at
    return re.compile(rb" *").match(text, at + length + 1).end()


def start_of(text):
    """The byte of a command's text from which the places of its formula, node or value count. Places in front of it count from the
    text's first byte, and so do those of commands that have no such part."""
    lead = len(text) - len(text.lstrip(b" "))
    word = re.split(rb"[ \n]", text[lead:], maxsplit=1)[0]
    at = after_word(text, lead)
    if word in TAKES_LINES:
        opens = text.find(b"(", lead)
        end = len(text) if opens < 0 else opens
        return end if DEFINED.fullmatch(text, lead, end) else 0
    if word in (b"ref", b"global"):
        head = REFERS.match(text, lead)
        return head.end() if head and not LINKS.match(text, head.end()) else 0
    if word == b"input":
        return value_of(text, at)
    if word in ASKS:
        return at
    node = re.compile(rb"node\b *").match(text, at) if word == b"clear" else None
    return node.end() if node else 0


def place_of(text, refusal):
    """The line of the command, counted from 0, and the byte in it to which a refusal points, or None."""
    told = REFUSED.fullmatch(refusal)
    if not told or told[3] is None:
        return None
    start = 0 if told[1] == b"bad form" else start_of(text)
    if told[2]:
        line = text.count(b"\n", 0, start) + int(told[3]) - 1
        lines = text.split(b"\n")
        return (line, len(lines[line]) - len(lines[line].lstrip(b" "))) if line < len(lines) else None
    at = min(start + int(told[3]), len(text))
    return text.count(b"\n", 0, at), at - (text.rfind(b"\n", 0, at) + 1)


def shown(line):
    """A line as it is printed: what is no printable text by its escape."""
    text = line.decode(errors="backslashreplace")
    return "".join(char if char.isprintable() else char.encode("unicode_escape").decode() for char in text)


def last_line(command, place):
    """How many lines of a command are shown: all but notes and empty ones at its end, and the one to which a refusal points."""
    count = len(command.lines)
    while count > 1 and command.lines[count - 1].lstrip(b" ")[:1] in b"#":
        count -= 1
    return max(count, place[0] + 1) if place else count


def print_command(command, block, width):
    place = place_of(command.text(), block[0]) if block else None
    for at, line in enumerate(command.lines[:last_line(command, place)]):
        print(f"{command.number + at:{width}}  {shown(line)}".rstrip())
        if place and place[0] == at:
            print(" " * (width + 2 + len(shown(line[:place[1]]))) + "^")
    for line in block or [b"(no answer)"]:
        print(" " * (width + 6) + shown(line))


def main():
    asked = argparse.ArgumentParser(description="Prints each command of a script beside its answer.")
    asked.add_argument("script", type=pathlib.Path, metavar="SCRIPT")
    asked.add_argument("--mx", default=PROGRAM, metavar="PATH")
    words = asked.parse_args()
    sys.stdout.reconfigure(errors="backslashreplace")
    if not os.access(words.mx, os.X_OK) or os.path.isdir(words.mx):
        print(f"{words.mx} is not built: tools/build makes it, or give another with --mx", file=sys.stderr)
        return 1
    try:
        script = words.script.read_bytes()
    except OSError as fault:
        print(f"{words.script}: {fault.strerror}", file=sys.stderr)
        return 1
    done = subprocess.run([os.path.abspath(words.mx), "run"], input=script, stdout=subprocess.PIPE)
    commands, blocks = commands_of(script), blocks_of(done.stdout)
    width = len(str(commands[-1].number + len(commands[-1].lines) - 1)) if commands else 1
    for at, command in enumerate(commands):
        print_command(command, blocks[at] if at < len(blocks) else None, width)
    if len(blocks) > len(commands):
        print(f"{len(blocks) - len(commands)} blocks more than commands", file=sys.stderr)
        return 1
    if done.returncode:
        print(f"the run ended with status {done.returncode}", file=sys.stderr)
    return done.returncode


if __name__ == "__main__":
    sys.exit(main())
