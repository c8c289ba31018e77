#!/usr/bin/env python3
"""Checks README.md and the pages of docs/ against the tree.

usage: check-docs.py [PAGE...]

- A name in backticks is one that the tree has: a word of a source, a file or a folder. Lines of scripts, commands of a shell and numbers aren't names.
- A link leads to a file, and to a heading of it where it names one.
- A block after <!-- code of FILE --> has paragraphs of that file, in its order; lines of imports may be missing.
- No page has an absolute path of a machine.
- Words that this repository says otherwise don't stand in its pages ("after" for "behind", "that many" for "so many" and so on).

It ends with 1 where something is wrong, and says what. With PAGE only these pages are checked.
"""
import re
import subprocess
import sys
from pathlib import Path

TOP = Path(__file__).resolve().parent.parent
SOURCES = (".rt", ".antt", ".h", ".c", ".py", ".sh", ".edit", "")
# What stands in backticks and is no name of the tree: words of the language and of the toolchain, flags of tools, and what is printed.
OTHERS = set(
    """rt ok end free fixed moveable discardable bytes fault ptr u8 u16 u32 u64 i32 usize bool str None Some Ok Err true false NE MZ LF CR FFFF
    clap jq gcc valgrind memmove memset memcpy malloc serde_json thiserror arrayvec bitflags byteorder hex memchr indexmap slab std
    main lo hi h k n N DIR FILE NAME SCRIPT""".split()
)
WORDS = {
    r"\bbehind\b": "after",
    r"\bso many\b": "that many, or n",
    r"\bas many as so\b": "that many",
    r"\btells?\b": "says, says which, shows",
    r"\btold\b": "said, stated, known",
    r"\bbut for\b": "except",
    r"\bwhom\b": "a plainer word",
    r"\banew\b": "again",
}
# These are written apart, and may use the words above.
WORDS_NOT_CHECKED = {"CONTRIBUTING.md"}

faults = []


def fault(page, number, text):
    faults.append(f"{page.name}:{number}: {text}")


def tracked():
    listed = subprocess.run(["git", "ls-files"], cwd=TOP, check=True, capture_output=True, text=True).stdout
    return listed.splitlines()


def words_of_sources(files):
    """Each word of the sources, and of the names of files and folders."""
    words = set()
    for name in files:
        path = TOP / name
        words.update(re.findall(r"\w+", name))
        words.update(re.split(r"[/.]", name))
        if name.startswith("docs/") or name == "README.md" or path.suffix not in SOURCES or not path.is_file():
            continue
        text = path.read_text(errors="replace")
        words.update(re.findall(r"\w+", text))
        words.update(re.findall(r"[\w-]+", text))
    return words


def is_path(name, files, folders):
    """Whether a file or folder has this path, from the top or from a folder on."""
    name = name.rstrip("/")
    return any(it == name or it.endswith("/" + name) or Path(it).with_suffix("").as_posix().endswith("/" + name) for it in files) or any(
        it == name or it.endswith("/" + name) for it in folders
    )


def check_name(page, number, name, words, files, folders):
    """Checks what stands in backticks, if it is a name."""
    name = name.removeprefix("./")
    # What a build makes isn't in the tree.
    if name in OTHERS or re.search(r"\bout(/|$)", name) or not re.fullmatch(r"[\w./:<>*-]*[A-Za-z_][\w./:<>*-]*", name):
        return
    if re.fullmatch(r"(0x)?[0-9a-fA-F]+|r[0-9N]+(\.lo|\.hi)?|-{1,2}[\w-]+", name) or name.endswith("..") or "N" == name:
        return
    if "*" in name or "<" in name or "NAME" in name or name in files:
        return
    if "/" in name or re.search(r"\.(rt|antt|txt|py|sh|md|h|c|out|edit)$", name):
        if not is_path(name, files, folders):
            fault(page, number, f"there is no `{name}`")
        return
    for part in re.split(r"::|\.", name):
        if part and part not in words:
            fault(page, number, f"no source has `{name}`")
            return


def anchor_of(heading):
    """The anchor of a heading, as it is rendered."""
    return re.sub(r"[^\w\- ]", "", heading.replace("`", "").strip().lower()).replace(" ", "-")


def anchors_in(text):
    """The anchors of a page: of equal ones the second has a -1 and so on."""
    anchors, counts = set(), {}
    for it in map(anchor_of, re.findall(r"^#+ (.*)$", text, re.M)):
        anchors.add(f"{it}-{counts[it]}" if it in counts else it)
        counts[it] = counts.get(it, 0) + 1
    return anchors


def check_link(page, number, target):
    """Checks that a link leads somewhere."""
    if re.match(r"https?:", target):
        return
    file, _, anchor = target.partition("#")
    path = (page.parent / file).resolve() if file else page
    if not path.exists():
        fault(page, number, f"the link {target} leads nowhere")
    elif anchor and anchor not in anchors_in(path.read_text()):
        fault(page, number, f"no heading is #{anchor}")


def stands_at(lines, paragraph, start):
    """Where a paragraph ends among the lines, from a line on, or none."""
    count = len(paragraph)
    return next((at + count for at in range(start, len(lines) - count + 1) if lines[at:at + count] == paragraph), None)


def check_code(page, number, file, block):
    """Checks that a block has paragraphs of a file, in its order."""
    path = TOP / file
    if not path.is_file():
        return fault(page, number, f"there is no {file}")
    lines = [line for line in path.read_text().splitlines() if not line.startswith("use ") or line in block]
    at = 0
    for paragraph in "\n".join(block).split("\n\n"):
        at = stands_at(lines, paragraph.splitlines(), at)
        if at is None:
            return fault(page, number, f"{file} hasn't, or not at this place: {paragraph.splitlines()[0]}")


def check_page(page, words, files, folders):
    fenced, before, block = False, "", []
    for number, line in enumerate(page.read_text().splitlines(), 1):
        if line.startswith("```"):
            named = re.fullmatch(r"<!-- code of (\S+) -->", before)
            if fenced and named:
                check_code(page, number, named[1], block)
            fenced, block = not fenced, []
            continue
        if fenced:
            block.append(line)
        else:
            before = line
        for found in re.findall(r"(?<![\w.])/(?:home|root|tmp|work|opt|mnt)/\S*", line):
            fault(page, number, f"an absolute path: {found}")
        if fenced:
            continue
        for target in re.findall(r"\]\(([^)\s]+)(?: \"[^\"]*\")?\)", line):
            check_link(page, number, target)
        for name in re.findall(r"`([^`]+)`", line):
            check_name(page, number, name, words, files, folders)
        if page.name not in WORDS_NOT_CHECKED:
            plain = re.sub(r"`[^`]*`|\"[^\"]*\"", "", line)
            for word, better in WORDS.items():
                for found in re.findall(word, plain, re.I):
                    fault(page, number, f"'{found}': rather {better}")


def main():
    pages = [Path(it).resolve() for it in sys.argv[1:]] or [TOP / "README.md", *sorted((TOP / "docs").glob("*.md"))]
    files = tracked()
    folders = {parent.as_posix() for it in files for parent in Path(it).parents}
    words = words_of_sources(files)
    for page in pages:
        check_page(page, words, files, folders)
    for it in faults:
        print(f"check-docs: {it}")
    count = sum(len(page.read_text().split()) for page in pages)
    print(f"check-docs: {len(pages)} pages, {count} words, {len(faults)} faults")
    return 1 if faults else 0


if __name__ == "__main__":
    sys.exit(main())
