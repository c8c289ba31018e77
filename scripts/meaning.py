#!/usr/bin/env python3
"""Says which definitions the machine's meaning needs, and ends with status 1 where they don't stand in pages of their own.

  scripts/meaning.py

The definitions are those that `AnyCommand` of `w16_loading`, and `Step` and `Run` of `w16_machine`, lead to, down to std's. It prints how many lines of them
each page of specs/ has, without comments and imports, and the total: these lines have to be believed. It finds fault where a page of
w16_model, w16_loading or w16_machine has other definitions beside them, where one imports a page that has none of them, and where
scripts/meaning.txt hasn't these pages, each with the number of its definitions.
"""
import pathlib
import re
import sys

TOP = pathlib.Path(__file__).resolve().parent.parent
LIST = TOP / "scripts/meaning.txt"
ROOTS = [("w16_loading.specs.Families", "AnyCommand")] + [("w16_machine.specs.Machine", name) for name in ("Step", "Run")]
APART = ("w16_model", "w16_loading", "w16_machine")
# A pair that `AnyCommand` of w16_loading has taken the place of. It goes with the next change of w16_model, which has all crates proved again.
UNUSED = {("w16_model.specs.Commands", "AnyCommand")}
# How lines begin that go on with a definition.
GOES_ON = " ])}"
# A name, or several with points between them.
WORD = re.compile(r"[^\s(){}\[\],;:λ|.=]+(?:\.[^\s(){}\[\],;:λ|.=]+)*")
# Where variables, fields and labels get their names, which are no references: after λ, in brackets, in a case, by let, in a record.
BINDERS = (r"λ ([^.]*)\.", r"[({]([\w ]+) :", r"\|? ?([^|\[\]↦]*) ↦", r"let (\w+) =", r"^ *(?:pub )?(\w+) :", r"[{;]\s*(\w+) = ", r"^ *(\w+) = ")


class Page:
    """The imports of a page, its definitions with their lines, and the types of its constructors."""

    def __init__(self, file):
        self.imports, self.definitions, self.constructors = {}, {}, {}
        name = None
        for line in file.read_text(encoding="utf-8").splitlines():
            if re.match(r"(pub )?use ", line):
                self.add_import(line.split("use ", 1)[1])
            elif line.strip() and not line.lstrip().startswith("--") and not line.startswith("pub mod "):
                if line[0] not in GOES_ON:
                    name = re.match(r"(?:(?:pub|abbrev|unfoldable|data|record) )*(\S+)", line)[1]
                self.definitions.setdefault(name, []).append(line)
                constructor = re.match(r"  (\w+) :", line)
                if constructor:
                    self.constructors[constructor[1]] = name

    def add_import(self, text):
        base, _, names = text.partition(".{")
        for it in names.rstrip("}").split(", ") if names else [base]:
            path, _, other = it.partition(" as ")
            path = self.whole(f"{base}.{path}" if names else path)
            self.imports[other or path.split(".")[-1]] = path

    def whole(self, path):
        """A path with its first name replaced by what that was imported as."""
        first, point, rest = path.partition(".")
        return self.imports.get(first, first) + point + rest


def clauses(lines):
    """The text of each clause of a definition."""
    starts = [at for at, line in enumerate(lines) if line[0] not in GOES_ON] + [len(lines)]
    return ["\n".join(lines[start:end]) for start, end in zip(starts, starts[1:])]


def references(lines):
    """The names that a definition speaks of."""
    for clause in clauses(lines):
        bound = {word for it in BINDERS for found in re.findall(it, clause, re.M) for word in WORD.findall(found)}
        head = re.match(r"(?!(?:pub )?(?:record|data) )(.*?) =( |$)", clause.split("\n")[0])
        bound |= set(WORD.findall(head[1])) if head else set()
        yield from (word for word in WORD.findall(clause) if word[0].isupper() or word.split(".")[0] not in bound)


def needed(pages):
    """All definitions that the roots lead to, each with its page."""
    found, left = set(), list(ROOTS)
    while left:
        module, name = left.pop()
        if module not in pages:
            # It may be a constructor, whose path has its type.
            outer, _, inner = module.rpartition(".")
            left += [(outer, inner)] if outer in pages else []
            continue
        page = pages[module]
        name = page.constructors.get(name, name)
        if name in page.definitions and (module, name) not in found:
            found.add((module, name))
            for word in references(page.definitions[name]):
                outer, _, inner = page.whole(word).removeprefix("Rattle.").rpartition(".")
                left.append((outer or module, inner))
    return found


def main():
    files = sorted((TOP / "crates").glob("*/specs/*.antt"))
    pages = {".".join(file.relative_to(TOP / "crates").with_suffix("").parts): Page(file) for file in files}
    found = needed(pages)
    of_meaning = {module for module, _ in found}
    listed, faults, lines = [], [], 0
    for module in sorted(of_meaning):
        definitions = pages[module].definitions
        names = [name for name in definitions if (module, name) in found]
        count = sum(len(definitions[name]) for name in names)
        lines += count
        listed.append(f"{module} {len(names)}")
        print(f"{module}: {count} lines")
        if module.split(".")[0] in APART:
            imported = {".".join(path.split(".")[1:4]) for path in pages[module].imports.values()}
            faults += [f"{module} has {name}, which the meaning doesn't need" for name in definitions if name not in names and (module, name) not in UNUSED]
            faults += [f"{module} imports {it}, which has none of the meaning" for it in sorted(imported & set(pages) - of_meaning)]
    if not LIST.is_file() or LIST.read_text().splitlines() != listed:
        faults += [f"{LIST.name} isn't these lines:", *listed]
    for it in faults:
        print(f"meaning: {it}")
    print(f"meaning: {lines} lines in {len(listed)} pages have to be believed")
    return 1 if faults else 0


sys.exit(main())
