#!/usr/bin/env python3
"""Tests README.md, CONTRIBUTING.md and docs/: each name between backticks exists, each path and each section that is named leads somewhere.
Prints what does not, and last 'N passed, M failed'. Called by tests/commands/run: tests/texts/documents.py [PAGE]..."""

from __future__ import annotations

from collections.abc import Iterator
import itertools
import os
import pathlib
import re
import sys

sys.dont_write_bytecode = True
TOP = pathlib.Path(__file__).resolve().parents[2]
sys.path.insert(0, str(TOP))

from tests.lib.counting import report_faults

# of the pages of docs/, as wc -w counts them
MOST_WORDS = 17000

# words between backticks that stand in no source: of the kit, of other programs, and placeholders
OTHER_WORDS = set(
    """
rt ci man black pyflakes3 python3-pyflakes memmove hercules telnet valgrind PATH ulimit expand awk sed sh python3 tr S4 Gn Xn Kaddress
""".split()
)

SOURCES = (
    "crates/*/src/**/*.rt",
    "tests/programs/*/src/**/*.rt-unproved",
    "crates/*/specs/**/*.antt",
    "crates/*/proofs/**/*",
    "crates/*/data/**/script",
    "examples/*/*/script",
    "bin/*",
    "bin/lib/*",
    "bin/lib/gathjumli/*",
    "examples/run",
    "tests/transcripts/run.py",
    "crates.txt",
)
OTHER_FOLDERS = ("", "bin/lib/", "bin/lib/gathjumli/", "tests/transcripts/")
PATH = re.compile(r"(?<![\w/.`-])(?:docs|bin|examples|crates|tests|\.ci)/[\w./*-]*[\w*]")
SECTION = re.compile(r'(docs/[A-Z_]+\.md),\s+"([^"]+)"')
TEXTS = (
    "crates/*/src/**/*.rt",
    "crates/*/specs/**/*.antt",
    "crates/*/data/*.txt",
    "tests/transcripts/*.txt",
    "bin/*",
    "bin/lib/*",
    "bin/lib/gathjumli/*",
    "docs/man/*",
)
CLAUSES = re.compile(r"((?:`[^`]+`(?:, |: )?)+) \(((?:`\w+`(?:, )?)+)\)")
LINK = re.compile(r"\]\(([^)#:]+)(?:#[^)]*)?\)")
WORD = re.compile(r"\.?\w+(?:-\w+)*")


def words_of(text: str) -> set[str]:
    return set(WORD.findall(text)) | set(re.findall(r"\w+", text))


def corpus() -> tuple:
    """The words of all sources, those of each crate by itself, and the names of all files."""
    words, crates, files = set(), {}, set()
    for pattern in SOURCES:
        for path in TOP.glob(pattern):
            if not path.is_file():
                continue
            try:
                found = words_of(path.read_text())
            except UnicodeDecodeError:
                continue
            words |= found
            place = path.relative_to(TOP).parts
            if place[0] == "crates" and len(place) > 1:
                crates.setdefault(place[1], set()).update(found)
            elif place[:2] == ("tests", "programs") and len(place) > 2:
                crates.setdefault(place[2], set()).update(found)
    for top, (folder, folders, names) in (
        (top, found)
        for top in (TOP / "crates", TOP / "tests/programs", TOP / "tests")
        for found in os.walk(top)
    ):
        # what a build makes is none of the repository's, and may be gone when it is looked at
        folders[:] = [name for name in folders if name != "out"]
        files |= {os.path.relpath(os.path.join(folder, name), top) for name in folders + names}
    words |= {part for file in files for part in words_of(file)} | {
        path.name for path in TOP.glob("examples/*/*")
    }
    return words, crates, files


WORDS, CRATES, FILES = corpus()


def definitions(path: pathlib.Path) -> dict:
    """The texts of the definitions of a module, by their names."""
    found, text = {}, path.read_text()
    heads = list(re.finditer(r"^ *(?:abbrev pub|unfoldable pub|pub record) (\w+)", text, re.M))
    for head, end in zip(heads, [*(head.start() for head in heads[1:]), len(text)]):
        found[head[1]] = text[head.start() : end]
    return found


def fields(path: pathlib.Path, names: set) -> set:
    """The fields of the records of a module that these names are, or are defined by."""
    known, cited, reached = definitions(path), set(names), set()
    while new := cited & known.keys() - reached:
        reached |= new
        cited |= {word for name in new for word in re.findall(r"\w+", known[name])}
    return {word for name in reached for word in re.findall(r"^ +pub (\w+) :", known[name], re.M)}


def contracts() -> object:
    """Of each function and type, the words of the files that have one of this name, and the fields of the records that these
    cite in a clause."""
    found = {}
    for path in [
        *TOP.glob("crates/*/src/**/*.rt"),
        *TOP.glob("tests/programs/*/src/**/*.rt-unproved"),
    ]:
        text = path.read_text()
        words = words_of(text)
        clauses = set(re.findall(r"\w+", " ".join(re.findall(r"ensures.*?\}\n", text, re.S))))
        uses = r"^ghost use Rattle\.(\w+)\.specs\.(\w+)\.\{(.*)\};"
        for crate, module, names in re.findall(uses, text, re.M):
            specs = TOP / f"crates/{crate}/specs/{module}.antt"
            if specs.is_file():
                words |= fields(specs, set(re.findall(r"\w+", names)) & clauses)
        for name in set(re.findall(r"\b(?:fn|struct|enum|trait|type) (\w+)", text)):
            found.setdefault(name, []).append(words)
    return found


CONTRACTS = contracts()


def exists(path: str) -> bool:
    """Whether a path leads somewhere: NAME, VOLUME and USER stand for any name."""
    pattern = re.sub(r"\b(NAME|VOLUME|USER)\b", "*", path.rstrip("/"))
    return any(True for _ in TOP.glob(pattern))


def in_crates(path: str) -> bool:
    """Whether a path within a crate is that of some file or folder."""
    path = path.rstrip("/")
    return any(
        file.split("/", 1)[-1] == path or file.endswith("/" + path) or file == path
        for file in FILES
    )


def unknown(name: str) -> object:
    """What of a name between backticks is nowhere, or None."""
    if re.fullmatch(r"[\w.-]+(?:/[\w.*-]+)+/?", name):
        return (
            None
            if exists(name) or in_crates(name) or name.split("/")[0] in ("out", "crates")
            else name
        )
    if re.fullmatch(r"rattle-kit-\w+ logic [0-9a-f]+", name):
        return None
    if re.fullmatch(r"\w+\.(rt|antt|txt|sh|py|awk)", name):
        found = any(file.endswith("/" + name) for file in FILES) or any(
            map(exists, (f"{folder}{name}" for folder in OTHER_FOLDERS))
        )
        return None if found else name
    scope = WORDS
    parts = name.split("::")
    if len(parts) > 1 and parts[0] in CRATES:
        scope = CRATES[parts[0]]
        name = "::".join(parts[1:])
    for word in re.findall(r"[\w-]*\w", name):
        if word in scope or word in OTHER_WORDS or re.fullmatch(r"\w|h+|[0-9A-F]+|\d+[KM]", word):
            continue
        if all(
            part in scope or part in OTHER_WORDS or re.fullmatch(r"\w|[0-9A-F]+", part)
            for part in re.findall(r"\w+", word)
        ):
            continue
        return word
    return None


def prose(text: str) -> str:
    """A text without its fenced and indented examples; each line keeps its number."""
    lines, fenced = [], False
    for line in text.split("\n"):
        if line.startswith("```"):
            fenced = not fenced
            line = ""
        lines.append("" if fenced or line.startswith("    ") else line)
    return "\n".join(lines)


def faults_of(path: str) -> Iterator:
    text = prose(path.read_text())
    for number, line in enumerate(text.split("\n"), 1):
        # if people come from is no name of ours: what is here is the last column
        ours = line.rsplit(" | ", 1)[-1] if path.name == "COMING_FROM.md" else line
        names = re.findall(r"`([^`]+)`", ours)
        if line.count("`") % 2:
            yield number, "a backtick has no partner in its line"
        for name in names:
            word = unknown(name)
            if word is not None:
                yield number, f"`{name}`: {word} is nowhere"
        for named in PATH.findall(re.sub(r"`[^`]*`", lambda found: found.group()[1:-1], line)):
            if not exists(named) and not named.startswith("crates/*/out"):
                yield number, f"{named} leads nowhere"
        if path.name == "PROMISES.md":
            yield from ((number, fault) for fault in lost_clauses(line))
        for link in LINK.findall(line):
            if not (path.parent / link).exists():
                yield number, f"{link} leads nowhere"
    yield from lost_sections(text)


def lost_sections(text: str) -> Iterator:
    """The sections that a text names and that are nowhere: a heading, or a paragraph or line that begins so."""
    for page, title in SECTION.findall(" ".join(text.split())):
        if not (TOP / page).exists():
            yield 0, f"{page} is not there"
        elif not re.search(
            r"^(#+ |\*\*|`)" + re.escape(title) + r"\b", (TOP / page).read_text(), re.M
        ):
            yield 0, f'{page} has no section "{title}"'


def lost_clauses(line: bytes) -> Iterator:
    """Of a line of docs/PROMISES.md: the clauses in brackets that no file has which has the function or type before them."""
    for names, clauses in CLAUSES.findall(line.rsplit(" | ", 1)[-1]):
        name = re.findall(r"\w+", names)[-1]
        files = CONTRACTS.get(name, [])
        for clause in re.findall(r"`(\w+)`", clauses):
            if files and not any(clause in words for words in files):
                yield f"{name} has no clause {clause}"


def lost_sections_of_sources() -> Iterator:
    for pattern in TEXTS:
        for path in filter(pathlib.Path.is_file, TOP.glob(pattern)):
            text = re.sub(r"^\s*(//[/!]?|--|#)", "", path.read_text(errors="replace"), flags=re.M)
            for _, fault in lost_sections(text.replace("\\-", "-")):
                yield path, fault


def unnamed_crates() -> list[str]:
    named = words_of((TOP / "docs/ARCHITECTURE.md").read_text())
    return [
        path.name
        for path in sorted((TOP / "crates").iterdir())
        if path.is_dir() and path.name not in named
    ]


def lost_example() -> Iterator:
    """How the first screen of README.md differs from the example that it shows: the script, and the effect of it."""
    rows = [
        line[4:].split(" |  ")
        for line in (TOP / "README.md").read_text().splitlines()
        if " |" in line and line.startswith("    ")
    ]
    columns = [
        [cell.strip(" |") for cell in column]
        for column in itertools.zip_longest(*rows, fillvalue="")
    ]
    shown = ["\n".join(filter(None, column)) + "\n" for column in columns]
    for name, text in itertools.zip_longest(("script", "transcript"), shown, fillvalue=""):
        if text != (TOP / "examples/users/same-program" / name).read_text():
            yield f"README.md shows another {name} than that of examples/users/same-program"


def lost_bodies() -> Iterator:
    """The wrong bodies (docs/PLANTED.md) of which a text is nowhere, or more than once."""
    for edit in sorted(TOP.glob("crates/*/planted/*.edit")) + sorted(
        TOP.glob("crates/*/must-fail/*.edit")
    ):
        texts, path, old = {}, None, ""
        for kind, _, text in (line.partition(": ") for line in edit.read_text().splitlines()):
            if kind == "file":
                path = edit.parents[1] / text.strip()
            elif kind == "old":
                old = text
            elif kind == "new":
                there = texts.setdefault(path, path.read_text() if path.is_file() else "")
                if there.count(old) != 1:
                    yield f"{edit}: its old text stands {there.count(old)} times"
                    break
                texts[path] = there.replace(old, text)


def main(pages: object) -> int:
    """The pages that are named, or all of them and what else there is to look at."""
    faults = {}
    for path in map(
        pathlib.Path,
        pages or [TOP / "README.md", TOP / "CONTRIBUTING.md", *sorted((TOP / "docs").glob("*.md"))],
    ):
        faults[path.name] = [f"{path}:{number}: {fault}" for number, fault in faults_of(path)]
    if not pages:
        faults["sections"] = [f"{path}: {fault}" for path, fault in lost_sections_of_sources()]
        faults["crates"] = [
            f"docs/ARCHITECTURE.md does not name {name}" for name in unnamed_crates()
        ]
        faults["bodies"] = list(lost_bodies())
        faults["example"] = list(lost_example())
        words = sum(len(path.read_text().split()) for path in (TOP / "docs").glob("*.md"))
        faults["words"] = (
            [f"the pages of docs/ have {words} words, and {MOST_WORDS} are the most"]
            if words > MOST_WORDS
            else []
        )
    places = {
        name: [text.replace(f"{TOP}/", "") for text in texts] for name, texts in faults.items()
    }
    return report_faults(places)


if __name__ == "__main__":
    sys.exit(main(sys.argv[1:]))
