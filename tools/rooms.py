#!/usr/bin/env python3
"""Which room each crate stands in.

    tools/rooms.py            ends with 1 where crates.txt, docs/ARCHITECTURE.md and the crates' own first lines differ

A section of crates.txt begins with a line `# room: NAME`. In docs/ARCHITECTURE.md a room is a heading of the section "Rooms" with
a table, whose first column names its crates. The head of a crate's root file has a line `//! Room: NAME.`
"""
import pathlib
import re
import sys

TOP = pathlib.Path(__file__).resolve().parent.parent


def rooms_of_list():
    """The rooms of crates.txt, with their crates in order."""
    rooms, room = {}, None
    for line in (TOP / "crates.txt").read_text().splitlines():
        if line.startswith("# room: "):
            room = line.removeprefix("# room: ")
            rooms[room] = []
        elif line and not line.startswith("#"):
            rooms.setdefault(room, []).append(line.partition(":")[0])
    return rooms


def rooms_of_page():
    """The rooms of docs/ARCHITECTURE.md, with their crates in order."""
    page = (TOP / "docs" / "ARCHITECTURE.md").read_text()
    section = re.search(r"^## Rooms\n(.*?)(?=^## |\Z)", page, re.M | re.S)[1]
    rooms = {}
    for part in section.split("\n### ")[1:]:
        name, _, text = part.partition("\n")
        cells = re.findall(r"^\| (`[^|]*`) \|", text, re.M)
        rooms[name.lower()] = re.findall(r"`(\w+)`", " ".join(cells))
    return rooms


def room_of(crate):
    """The room that the head of a crate's root file names."""
    folder = TOP / "crates" / crate / "src"
    root = folder / "main.rt" if (folder / "main.rt").is_file() else folder / "lib.rt"
    found = re.search(r"^//! Room: (.*)\.$", root.read_text(), re.M)
    return found and found[1]


def main():
    listed, told = rooms_of_list(), rooms_of_page()
    troubles = []
    if list(listed) != list(told):
        troubles.append(f"the rooms of crates.txt are {list(listed)}, those of docs/ARCHITECTURE.md {list(told)}")
    for room, crates in listed.items():
        for crate in sorted({*crates} ^ {*told.get(room, [])}):
            troubles.append(f"{crate}: only one of crates.txt and docs/ARCHITECTURE.md has it in the room {room}")
        for crate in crates:
            if room_of(crate) != room:
                troubles.append(f"{crate}: crates.txt has it in the room {room}, its root file says {room_of(crate)}")
    for trouble in troubles:
        print(trouble, file=sys.stderr)
    return 1 if troubles else 0


if __name__ == "__main__":
    sys.exit(main())
