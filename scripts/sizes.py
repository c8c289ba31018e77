#!/usr/bin/env python3
"""Says whether the repository keeps its bounds on size, and ends with status 1 where it doesn't.

  scripts/sizes.py

Run it at the top of the repository. The bounds: characters of src/, specs/ and proofs/ in all, columns of a line there,
must-fail edits in all and in each crate.
"""
import pathlib
import sys

CHARACTERS, COLUMNS, EDITS, EDITS_OF_CRATE = 7_400_000, 300, 260, 12
EDITS_OF_LARGE_CRATE = 20
LARGE_CRATES = {"w16_arena", "w16_global", "w16_kernel", "w16_local", "w16_loader", "w16_ne"}


def sources(crate):
    """Returns the files of a crate that the gate proves."""
    parts = [crate / part for part in ("src", "specs", "proofs")]
    return [it for part in parts for it in sorted(part.rglob("*")) if it.suffix in (".rt", ".antt")]


def main():
    crates = sorted(it for it in pathlib.Path("crates").iterdir() if (it / "src").is_dir())
    faults, characters, edits = [], 0, 0
    for crate in crates:
        for file in sources(crate):
            text = file.read_text(encoding="utf-8")
            characters += len(text)
            long = [number for number, line in enumerate(text.split("\n"), 1) if len(line) > COLUMNS]
            faults += [f"{file}:{number}: a line of over {COLUMNS} columns" for number in long]
        count = len(list(crate.glob("must-fail/*.edit")))
        most = EDITS_OF_LARGE_CRATE if crate.name in LARGE_CRATES else EDITS_OF_CRATE
        if count > most:
            faults.append(f"{crate.name}: {count} must-fail edits, at most {most}")
        edits += count
    if characters > CHARACTERS:
        faults.append(f"{characters} characters, at most {CHARACTERS}")
    if edits > EDITS:
        faults.append(f"{edits} must-fail edits, at most {EDITS}")
    print(f"{characters} characters of {CHARACTERS}, {edits} must-fail edits of {EDITS}")
    print("\n".join(faults), end="\n" if faults else "")
    return 1 if faults else 0


sys.exit(main())
