"""Definitions and clauses of the repository: the names that a text uses, and where each is defined."""
from __future__ import annotations

from typing import Any
from types import ModuleType
import os
import re


WORD = re.compile(r"[^\W\d][\w'-]*(?:\.[\w'-]+)*")
IMPORT = re.compile(
    r"^\s*(?:ghost |pub )*use (Rattle[\w.]*)(?:\.\{(.*?)\}| as (\w+));?\s*$", re.M | re.S
)
KEYWORDS = {"abbrev", "pub", "record", "data", "unfoldable", "opaque"}
# the end of a declaration: a brace at its own column, or a semicolon
DECLARATION = r"^((?:///[^\n]*\n|#\[[^\n]*\n)*)((?:pub(?:\([a-z]+\))? )?(?:struct|enum) {}\b(?:[^;{{]*;|[^{{]*\{{.*?^\}}))"


def read(path: Any) -> Any:
    with open(path, encoding="utf-8") as file:
        return file.read()


def bare(text: str) -> Any:
    """A text of definitions without its comments."""
    return re.sub(r"--.*", "", text)


def imports(text: str) -> tuple:
    """What a text names of other modules: the names as they are used, each with its module and its name there, and modules by a name."""
    names, modules = {}, {}
    for module, listed, alias in IMPORT.findall(text):
        if alias:
            modules[alias] = module
        for item in filter(None, map(str.strip, listed.split(","))):
            name, _, used = item.partition(" as ")
            names[used.strip() or name] = (module, name)
    return names, modules


class Definition:
    """A definition, with the comment above it; `within` is the line of the module with parameters in which it is."""

    def __init__(self, place: Any, name: str, text: str, within: Any = None) -> None:
        self.place, self.name, self.text, self.within = place, name, text, within

    def words(self) -> list:
        return WORD.findall(bare(f"{self.within or ''}\n{self.text}"))


class Module:
    """A file of definitions."""

    def __init__(self, path: Any, place: Any) -> None:
        text = read(path)
        self.path, self.place, self.found = path, place, {}
        self.names, self.modules = imports(text)
        self._take(text.split("\n"), 0, None)

    def _take(self, lines: Any, indent: Any, within: Any) -> None:
        """Cuts lines into definitions: each begins at a line of this indent that no other of its name appears before."""
        comment, current, at = [], None, 0
        while at < len(lines):
            line = lines[at]
            at += 1
            depth = len(line) - len(line.lstrip())
            if not line.strip():
                comment = []
            elif depth == indent and line.lstrip().startswith("--"):
                comment.append(line)
            elif depth > indent:
                if current:
                    current.text += "\n" + line
            elif re.match(r"\s*(pub )?(use|mod) ", line):
                current, comment = None, []
            elif re.match(r"\s*module _", line):
                head = [line]
                while not head[-1].rstrip().endswith("where"):
                    head.append(lines[at])
                    at += 1
                inner = at
                while at < len(lines) and (
                    not lines[at].strip() or lines[at].startswith(" " * (indent + 1))
                ):
                    at += 1
                self._take(lines[inner:at], indent + 2, "\n".join(head))
                current, comment = None, []
            else:
                words = [word for word in line.split() if word not in KEYWORDS]
                if current is None or words[0] != current.name:
                    current = Definition(self.place, words[0], "\n".join([*comment, line]), within)
                    self.found.setdefault(current.name, current)
                else:
                    current.text += "\n" + "\n".join([*comment, line])
                comment = []
        for item in list(self.found.values()):
            if re.search(r"^\s*(pub )?data ", item.text, re.M):
                for name in re.findall(r"^\s+(\w+)(?: \w+)* :", item.text, re.M):
                    self.found.setdefault(name, item)


class House:
    """All definitions of the repository, by the names of their modules."""

    def __init__(self, top: Any) -> None:
        self.top, self.read = top, {}

    def module(self, name: Any) -> Any:
        """The module of this name, or None where it is none of the repository's."""
        if name not in self.read:
            parts = name.split(".")
            path = os.path.join(self.top, "crates", *parts[1:]) + ".antt"
            self.read[name] = (
                Module(path, os.path.relpath(path, self.top)) if os.path.isfile(path) else None
            )
        return self.read[name]

    def find(self, module: Any, name: Any) -> Any:
        """The definition of a name of a module, or None where it is none of the repository's."""
        if ".specs.declared." in module:
            return self.declared(module, name)
        there = self.module(module)
        if there is None:
            return None
        if name in there.found:
            return there.found[name]
        return self.find(*there.names[name]) if name in there.names else None

    def declared(self, module: ModuleType, name: str) -> Any:
        """The declaration of a type in Rust, by the module that rattle makes of it."""
        _, crate, _, _, *parts = module.split(".")
        parts = parts[:-1] if parts[-1] == "TheVariants" else parts
        folder = os.path.join(self.top, "crates", crate, "src")
        path = (
            os.path.join(folder, *parts[:-1]) + ".rt"
            if parts[:-1]
            else os.path.join(folder, "lib.rt")
        )
        key = (path, parts[-1])
        if key not in self.read:
            # the crate's root names types that stand in a module of it
            self.read[key] = self.of_rust(path, parts[-1]) or self.type_in(crate, parts[-1])
        return self.read[key]

    def of_rust(self, path: Any, name: Any) -> Any:
        """The declaration of a type, or of one that contracts see as another value this alone."""
        if not os.path.isfile(path):
            return None
        text = read(path)
        found = re.search(DECLARATION.format(name), text, re.M | re.S)
        if not found:
            return None
        comment = "".join(line + "\n" for line in found[1].split("\n") if line.startswith("///"))
        item = Definition(os.path.relpath(path, self.top), name, comment + found[2])
        model = re.search(r"^impl(?:<[^{]*?>)? Model for " + name + r"\b.*?^\}", text, re.M | re.S)
        if model:
            value = re.search(r"ghost Value = \{ (.*?) \};", model[0], re.S)[1]
            item.text = (
                f"{comment}{found[2].split(chr(10))[0].rstrip(' {;')}: contracts see {value}"
            )
        item.imported = imports(text + (model[0] if model else ""))
        item.types = {} if model else self.types_of(text, path)
        return item

    def types_of(self, text: str, path: str) -> Any:
        """The types that a file of Rust names of its own crate and of others: the file of each is looked for when it is needed."""
        crate = os.path.relpath(path, self.top).split(os.sep)[1]
        types = {
            name: crate
            for name in re.findall(r"^(?:pub(?:\([a-z]+\))? )?(?:struct|enum) (\w+)", text, re.M)
        }
        for place, listed, single in re.findall(
            r"^use (\w+)(?:::\w+)*::(?:\{([^}]*)\}|(\w+));", text, re.M
        ):
            for name in filter(None, map(str.strip, (listed or single).split(","))):
                types[name] = crate if place == "crate" else place
        return types

    def type_in(self, crate: str, name: str) -> Any:
        """The declaration of a type of a crate, wherever it is there."""
        key = (crate, "type", name)
        if key not in self.read:
            self.read[key] = None
            folder = os.path.join(self.top, "crates", crate, "src")
            for at, _, files in sorted(os.walk(folder)):
                for file in sorted(files):
                    path = os.path.join(at, file)
                    if re.search(rf"^pub (?:struct|enum) {name}\b", read(path), re.M):
                        same = self.read.setdefault((path, name), None) or self.of_rust(path, name)
                        self.read[path, name] = self.read[key] = same
        return self.read[key]

    def below(self, item: Any) -> Any:
        """The definitions that one names, in the order in which it names them."""
        if item.place.endswith(".antt"):
            module = self.of_file(item.place)
            local, (names, modules) = module.found, (module.names, module.modules)
        else:
            local, (names, modules) = {}, item.imported
        found = []
        for word in item.words():
            head, _, rest = word.partition(".")
            there = None
            if head in modules and rest:
                there = self.find(modules[head], rest.split(".")[0])
            elif head in names:
                there = self.find(*names[head])
            elif head in local:
                there = local[head]
            elif not item.place.endswith(".antt") and head in item.types:
                there = self.type_in(item.types[head], head)
            if there is not None and there is not item and there not in found:
                found.append(there)
        return found

    def cited(self, tops: Any) -> Any:
        """All that these definitions stand on, a file of definitions or a type at a time, each after those that it names; those of a
        file stand as they stand there."""
        below, units, waiting = {}, {}, list(tops)
        while waiting:
            item = waiting.pop()
            if id(item) not in below:
                below[id(item)] = self.below(item)
                units.setdefault(self.unit(item), []).append(item)
                waiting += below[id(item)]
        order, seen = [], set()

        def visit(unit: Any) -> None:
            if unit in seen:
                return
            seen.add(unit)
            for other in (
                entry for item in self.in_order(units[unit]) for entry in below[id(item)]
            ):
                visit(self.unit(other))
            order.extend(self.in_order(units[unit]))

        for top in tops:
            visit(self.unit(top))
        return order

    @staticmethod
    def unit(item: Any) -> Any:
        return item.place if item.place.endswith(".antt") else (item.place, item.name)

    def in_order(self, items: Any) -> Any:
        """Definitions of one file as they stand there."""
        if not items[0].place.endswith(".antt"):
            return items
        return [
            fromkey
            for fromkey in dict.fromkeys(self.of_file(items[0].place).found.values())
            if fromkey in items
        ]

    def of_file(self, place: Any) -> Any:
        return self.module("Rattle." + place[len("crates/") : -len(".antt")].replace(os.sep, "."))
