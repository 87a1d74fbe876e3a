"""Checks the documents against the sources, and prints a line for each finding.

A row of docs/CLAIMS.md is a line of a table: a promise has four columns (plain words, clauses, edits, tests), and a
law has two (plain words, clauses). The column of clauses gives `crate::path::function`, and after it each `clause`.
A table of README.md has rows of the second kind. A clause without a name in the source goes by `ensures`, and a row
of the `main` of a program, which has no clause, names the function alone."""

import os
import re
import sys

ROOT = os.path.dirname(os.path.dirname(os.path.abspath(__file__)))
LAW = "law"

MODULE = re.compile(r"^pub mod (\w+);")
EXPORT = re.compile(r"^pub use (\w+(?:::\w+)*)::(?:\{([^}]*)\}|(\w+));", re.MULTILINE)
TYPE = re.compile(r"^pub (?:struct|enum|trait) (\w+)")
BLOCK = re.compile(r"^(?:pub (trait)|impl(?:<[^>]*>)?(?: (\w+)(?:<[^>]*>)? for)?) (\w+)")
FUNCTION = re.compile(r"^( *)(pub |pub\([a-z]+\) )?(?:const )?(?:unsafe )?fn (\w+)")
ENSURES = re.compile(r"^ +ensures(?: (\w+))? \{")
NAMES = re.compile(r"`([^`]+)`")


def read(*path):
    with open(os.path.join(ROOT, *path), encoding="utf-8") as file:
        return file.read()


class Crate:
    """What a crate's src/ and must-fail/ hold: its tests, its edits, and the clauses of its functions."""

    def __init__(self, name):
        self.name = name
        self.tests = set()
        self.types = {}  # each public type: the path of its module
        self.functions = []  # (path of the module, type or None, trait or None, name, is it public, its clauses)
        self.public = {()}  # the paths of the modules that other crates can name
        self.exports = {}  # the items that the root gives other crates: the path of the module
        source = os.path.join(ROOT, "crates", name, "src")
        for folder, _, files in sorted(os.walk(source)):
            for file in sorted(files):
                self.read_file(os.path.relpath(os.path.join(folder, file), source))
        edits = os.path.join(ROOT, "crates", name, "must-fail")
        self.edits = {e[: -len(".edit")] for e in os.listdir(edits)} if os.path.isdir(edits) else set()

    def read_file(self, file):
        """Takes in one file: its modules, types, functions and tests."""
        module = () if file in ("lib.rt", "main.rt") else tuple(file[: -len(".rt")].split(os.sep))
        text = read("crates", self.name, "src", file)
        for path, several, one in EXPORT.findall(text) if not module else []:
            for item in (several or one).split(","):
                self.exports[item.strip()] = tuple(path.split("::"))
        owner, trait, header, is_test = None, None, None, False
        for line in text.splitlines():
            if found := MODULE.match(line):
                self.public.add((*module, found[1]))
            if found := TYPE.match(line):
                self.types[found[1]] = module
            if found := BLOCK.match(line):
                owner, trait = found[3], found[3] if found[1] else found[2]
            if line == "}":
                owner, trait = None, None
            if found := FUNCTION.match(line):
                header = []
                is_public = found[2] == "pub " or trait is not None or file == "main.rt" and found[3] == "main"
                if is_test:
                    self.tests.add(found[3])
                elif owner or not found[1]:
                    self.functions.append((module, owner, trait, found[3], is_public, header))
            if (clause := ENSURES.match(line)) and header is not None:
                header.append(clause[1] or "ensures")
            if line.strip() in ("{", "{}") or found and line.endswith(("{", "{}")):
                header = None
            is_test = line.strip() == "#[test]"

    def paths_of(self, module, item):
        """The paths by which other crates name this item of the module, the shortest first."""
        exported = self.exports.get(item)
        paths = [(item,)] if not module or exported and module[: len(exported)] == exported else []
        if module and all(module[:n] in self.public for n in range(len(module) + 1)):
            paths.append((*module, item))
        return ["::".join((self.name, *path)) for path in paths]

    def calls(self):
        """Each public function: its paths, the shortest first, its clauses, and those that a trait gives it."""
        of_trait = {(trait, name): clauses for _, owner, trait, name, _, clauses in self.functions if trait and owner == trait}
        for module, owner, trait, name, is_public, clauses in self.functions:
            if owner is None:
                paths = self.paths_of(module, name)
            else:
                paths = [f"{path}::{name}" for path in self.paths_of(self.types.get(owner, ("",)), owner)]
            given = of_trait.get((trait, name), []) if trait and owner != trait else []
            if is_public and paths:
                yield paths, clauses, given


def rows(document):
    """The rows of a document's tables that name a function: (number of the line, the names of each column)."""
    for number, line in enumerate(read(document).splitlines(), 1):
        columns = [NAMES.findall(column) for column in line.strip().strip("|").split("|")]
        if line.startswith("|") and len(columns) > 1 and any("::" in name for name in columns[1]):
            yield number, columns


class Check:
    def __init__(self):
        names = re.findall(r"^(\w+)[^:#\n]*:", read("crates.txt"), re.MULTILINE)
        self.crates = {name: Crate(name) for name in names}
        self.findings = 0
        self.clauses = {}  # each path of a public function: its clauses
        self.shortest = {}  # each path of a public function: its shortest path
        self.wanted = []  # (shortest path, clause): each that needs a row
        self.given = set()  # (shortest path, clause): each that has one in docs/CLAIMS.md
        for crate in self.crates.values():
            for paths, clauses, given in crate.calls():
                self.wanted += [(paths[0], clause) for clause in clauses if clause not in given]
                for path in paths:
                    self.clauses.setdefault(path, []).extend(clauses + given)
                    self.shortest[path] = paths[0]

    def finding(self, text):
        self.findings += 1
        print(text)

    def clauses_of_row(self, where, names):
        """The functions and clauses that a row names, each of which must be there."""
        path, found = None, []
        for name, following in zip(names, names[1:] + ["::"]):
            if "::" in name:
                path = name
                if path not in self.clauses:
                    self.finding(f"{where}: there is no public function `{path}`")
                elif "::" in following and self.clauses[path]:
                    self.finding(f"{where}: no clause of `{path}` is named")
            elif name not in self.clauses.get(path, [name]):
                self.finding(f"{where}: `{path}` has no clause `{name}`")
            else:
                found.append((self.shortest.get(path), name))
        return found

    def check_rows(self, document):
        """Each row names what is there. The answer is what the rows name: clauses, and edits with their crate."""
        clauses, edits = set(), set()
        for number, columns in rows(document):
            where = f"{document}:{number}"
            found = self.clauses_of_row(where, columns[1])
            clauses |= set(found)
            if document == "docs/CLAIMS.md":
                for path, clause in found:
                    if (len(columns) == 2) != (clause == LAW):
                        self.finding(f"{where}: `{path}` `{clause}` is in a table of the other kind")
            named = [path.split("::")[0] for path in columns[1] if "::" in path]
            crates = [self.crates[name] for name in dict.fromkeys(named) if name in self.crates]
            for edit in columns[2] if len(columns) == 4 else []:
                edits |= {(crate.name, edit) for crate in crates}
                if not any(edit in crate.edits for crate in crates):
                    self.finding(f"{where}: there is no edit `{edit}`")
            for test in columns[3] if len(columns) == 4 else []:
                if not any(test in crate.tests for crate in crates):
                    self.finding(f"{where}: there is no test `{test}`")
        return clauses, edits

    def check_claims(self):
        clauses, edits = self.check_rows("docs/CLAIMS.md")
        for path, clause in sorted(set(self.wanted) - clauses):
            self.finding(f"docs/CLAIMS.md: no row has `{path}` `{clause}`")
        for crate in self.crates.values():
            for edit in sorted(crate.edits):
                if (crate.name, edit) not in edits:
                    self.finding(f"docs/CLAIMS.md: no row has the edit `{edit}` of {crate.name}")

    def check_architecture(self):
        laws = {path.split("::")[-2] for path, clause in self.wanted if clause == LAW and path.count("::") > 1}
        text = read("docs/ARCHITECTURE.md")
        for name in [*self.crates, *sorted(laws)]:
            if f"`{name}`" not in text:
                self.finding(f"docs/ARCHITECTURE.md: `{name}` is not named")

    def check_examples(self):
        whole = read("crates/first_use/src/lib.rt").split("\n#[cfg(test)]")[0]
        if f"```rust\n{whole}```\n" not in read("README.md"):
            self.finding("README.md: the example is not crates/first_use/src/lib.rt, letter by letter, up to its tests")
        last = read("crates/shared_use/src/lib.rt").split("\n#[cfg(test)]")[0].split("\n\n")[-1]
        if f"```rust\n{last}```\n" not in read("README.md"):
            self.finding("README.md: the example is not the last item of crates/shared_use/src/lib.rt, letter by letter")


if __name__ == "__main__":
    check = Check()
    check.check_claims()
    check.check_rows("README.md")
    check.check_architecture()
    check.check_examples()
    print(f"claims: {check.findings} findings")
    sys.exit(1 if check.findings else 0)
