#!/usr/bin/env python3
"""Checks docs/COMMANDS.md and README.md against what the gate plays, so that no example of theirs can go stale.

usage: check-commands.py [--where]

- Each example of docs/COMMANDS.md, written `LINE -> REPLY` with a link to its row, stands in that row of crates/w16rows/data, and so does each
  block of the form ```row. The file is one that the program w16rows plays in the gate.
- docs/COMMANDS.md has a row of a table for each command that the language knows, with as many arguments, and for no other.
- A block of README.md after <!-- FILE --> is the file's text, one after <!-- FILE, its first lines --> is what it begins with, and one after
  <!-- code of FILE --> is a part of it, which may leave out lines of imports.

With --where it prints the row of each example too. It ends with 1 where something differs, and says what.
"""
import re
import sys
from pathlib import Path

TOP = Path(__file__).resolve().parent.parent
DATA = TOP / "crates/w16rows/data"
TABLE = TOP / "crates/w16_machine/specs/Rows.antt"
COMMANDS = TOP / "docs/COMMANDS.md"
README = TOP / "README.md"

faults = []


def fault(text):
    faults.append(text)


def rows_of(path):
    """The rows of a file: by name, the lines of the script with their replies, as the file has them."""
    rows, lines = {}, None
    for line in path.read_text().splitlines():
        named = re.fullmatch(r"\[(.*)\]", line)
        if named:
            if named[1] in rows:
                fault(f"{path.name} has two rows of the name '{named[1]}'")
            lines = rows.setdefault(named[1], [])
        elif lines is not None and line and not line.startswith("#"):
            lines.append(line)
    return rows


def played():
    """The files of rows that the gate plays, by name."""
    return {name: rows_of(DATA / name) for name in (TOP / "crates/w16rows/args").read_text().split()}


def without_count(line):
    """A line of a row without how often it comes."""
    return re.sub(r"^\d+ times: ", "", line)


def blocks_of(text):
    """The fenced blocks of a page: what stands in the line before, the word after the fence, the line's number, and the lines."""
    blocks, before, opened = [], "", None
    for number, line in enumerate(text.splitlines(), 1):
        if opened is not None:
            if line.strip() == "```":
                blocks.append(opened)
                opened = None
            else:
                opened[3].append(line)
        elif line.startswith("```"):
            opened = (before, line[3:].strip(), number, [])
        elif line.strip():
            before = line.strip()
    return blocks


def stands_in(lines, block):
    """Whether the lines of a block stand in a row, one after another."""
    count = len(block)
    return any(lines[at:at + count] == block for at in range(len(lines) - count + 1))


def check_examples(text, files, where):
    """Checks the examples of the tables, and answers how many there are."""
    link = r'`([^`]+ -> [^`]+)` \(\[row\]\(\.\./crates/w16rows/data/([a-z-]+\.txt) "([^"]+)"\)\)'
    found = 0
    for number, line in enumerate(text.splitlines(), 1):
        matches = re.findall(link, line)
        if line.count(" -> ") != len(matches) and line.startswith("|"):
            fault(f"COMMANDS.md:{number}: an example has no link to its row")
        for example, file, name in matches:
            found += 1
            if where:
                print(f"{example}: {file}, {name}")
            check_row(f"COMMANDS.md:{number}", files, file, name, [example])
    return found


def check_row(place, files, file, name, block):
    """Checks that lines stand in a row of a file that the gate plays."""
    if file not in files:
        fault(f"{place}: the gate plays no {file}")
    elif name not in files[file]:
        fault(f"{place}: {file} has no row '{name}'")
    elif not stands_in([without_count(line) for line in files[file][name]], block):
        said = block[0] if len(block) == 1 else "\n    ".join(["these lines:"] + block)
        fault(f"{place}: the row '{name}' of {file} hasn't {said}")


def check_blocks(text, files):
    """Checks the blocks of rows, and answers how many there are."""
    found = 0
    for before, word, number, lines in blocks_of(text):
        if word != "row":
            continue
        found += 1
        named = re.fullmatch(r"<!-- ([a-z-]+\.txt): (.*) -->", before)
        if named is None:
            fault(f"COMMANDS.md:{number}: no row is named before the block")
        else:
            check_row(f"COMMANDS.md:{number}", files, named[1], named[2], lines)
    return found


def check_names(text):
    """Checks that each command has one row, whose first cell begins with its name, and answers how many there are."""
    table = re.findall(r'^row_of .* = row \w+ \(codes "(\w+)"\) (.*)$', TABLE.read_text(), re.M)
    known = [name for name, _ in table]
    told = re.findall(r"^\| `([A-Z]\w*)[^`]*` \|", text.split("\n## Flags\n")[0], re.M)
    for name in known:
        if told.count(name) != 1:
            fault(f"COMMANDS.md: {name} has {told.count(name)} rows of a table")
    rows = dict(re.findall(r"^\| `([A-Z]\w*)((?: [A-Z]+)*)` \|", text, re.M))
    for name, columns in table:
        if name in rows and len(rows[name].split()) != columns.count("∷"):
            fault(f"COMMANDS.md: {name} takes another number of arguments")
    for name in told:
        if name not in known:
            fault(f"COMMANDS.md: {name} is no command of Rows.antt")
    return len(known)


def is_code_of(has, block):
    """Whether a block is a part of a file, from which lines of imports may be missing."""
    return stands_in([line for line in has if not line.startswith("use ") or line in block], block)


def check_readme():
    """Checks the blocks of README.md that are files, and answers how many there are."""
    found = 0
    for before, _, number, lines in blocks_of(README.read_text()):
        named = re.fullmatch(r"<!-- (code of )?(\S+?)(, its first lines)? -->", before)
        if named is None:
            continue
        found += 1
        path = TOP / named[2]
        if not path.is_file():
            fault(f"README.md:{number}: there is no {named[2]}")
            continue
        has = path.read_text().splitlines()
        if named[1]:
            same = is_code_of(has, lines)
        elif named[3]:
            same = has[:len(lines)] == lines
        else:
            same = has == lines
        if not same:
            at = next((i for i, pair in enumerate(zip(lines, has)) if pair[0] != pair[1]), min(len(lines), len(has)))
            near = "" if named[1] else f", from line {at + 1} on"
            fault(f"README.md:{number}: the block isn't what {named[2]} has{near}")
    return found


def main():
    words = sys.argv[1:]
    if words not in ([], ["--where"]):
        sys.exit(__doc__.strip())
    text = COMMANDS.read_text()
    files = played()
    counts = check_examples(text, files, bool(words)), check_blocks(text, files), check_names(text), check_readme()
    for it, name in zip(counts, ("examples in tables", "blocks of rows", "commands", "blocks of README.md")):
        if not it:
            fault(f"there are no {name}")
    for it in faults:
        print(f"check-commands: {it}")
    print("check-commands: {} examples, {} blocks of rows, {} commands, {} blocks of README.md, {} faults".format(*counts, len(faults)))
    return 1 if faults else 0


if __name__ == "__main__":
    sys.exit(main())
