#!/usr/bin/env python3
"""Counts what a reader has to believe: `bench/believe.py [--all] [CRATE::CALL ..]`, by default `atomld::run`.

A contract names definitions, and these name others. Of each call's contract all definitions are counted that it names so,
through all crates: those of `specs/` folders, with their lines (comments and blank lines aside) and their files. What the
kit's libraries have isn't counted, nor are the types that the code declares. Prints the three numbers of each crate, the
largest first, and of all together; with `--all` each definition too. Several calls are counted as one.
"""
import argparse
import collections
import pathlib
import re
import sys

CRATES = pathlib.Path(__file__).resolve().parent.parent / "crates"

USE = re.compile(r"^\s*(?:pub |ghost )*use Rattle\.([\w.]+?)(?:\.\{([^}]*)\}| as (\w+));?\s*$")
HEAD = re.compile(r"^(?:  )?(?:unfoldable |abbrev |pub |private )*(?:(record|data) )?([^\s:({]+)(?=[\s:({])")
WORD = re.compile(r"[A-Za-z_][\w'-]*(?:\.[A-Za-z_][\w'-]*)*")
KEYWORDS = {"use", "infixl", "infixr", "infix", "module", "mutual", "where", "open", "import", "pub"}
SYMBOL = re.compile(r"[^\s\w(){}\[\],.;\"'λ→]+")


class Definition:
    """A definition of a `specs/` folder: where it stands, and its lines."""

    def __init__(self, crate, path, name):
        self.crate, self.path, self.name = crate, path, name
        self.lines = []


class SpecFile:
    """The definitions of one file, and what it brings in: of a name the module and its name there, or a whole module."""

    def __init__(self, crate, module, path):
        self.crate, self.module, self.path = crate, module, path
        self.names, self.modules, self.given_out, self.definitions = {}, {}, {}, {}
        current = None
        for line in path.read_text(encoding="utf-8").splitlines():
            bare = line.split("--")[0].rstrip()
            if not bare:
                continue
            if (use := USE.match(bare)) is not None:
                self.bring(use, bare)
                continue
            head = HEAD.match(bare)
            if head is not None and head[2] not in KEYWORDS and not bare.startswith("    "):
                # A clause of a definition begins with its name, as its type does; fields and parts of cases are deeper.
                name = head[2]
                top = not bare.startswith("  ") or re.match(r"  (?:unfoldable |abbrev )+", bare)
                if top and (head[1] or re.match(r"(?:  )?(?:unfoldable |abbrev |pub )*\S+ :", bare)):
                    current = self.definitions.setdefault(name, Definition(crate, path, name))
            if current is not None:
                current.lines.append(bare)

    def bring(self, use, line):
        module, names, alias = use[1], use[2], use[3]
        if alias:
            self.modules[alias] = module
            return
        for item in re.findall(r"[^,{}]+", names):
            there, _, here = item.strip().partition(" as ")
            self.names[here.strip() or there.strip()] = (module, there.strip())
            if line.lstrip().startswith("pub"):
                self.given_out[here.strip() or there.strip()] = (module, there.strip())


def spec_files():
    """All files of definitions, by the name under which they are brought in."""
    files = {}
    for path in sorted(CRATES.glob("*/specs/**/*.antt")):
        parts = path.relative_to(CRATES).with_suffix("").parts
        module = ".".join(parts)
        files[module] = SpecFile(parts[0], module, path)
    return files


def words_of(lines):
    """The names and the operators' signs that some lines have."""
    text = " ".join(lines)
    return set(WORD.findall(text)) | {sign for sign in SYMBOL.findall(text)}


def found(files, module, name, depth=0):
    """The definition that a module gives under a name, its own or one that it gives out."""
    file = files.get(module)
    if file is None or depth > 5:
        return None
    if name in file.definitions:
        return file.definitions[name]
    if name in file.given_out:
        return found(files, *file.given_out[name], depth + 1)
    return None


def meant(files, file, word):
    """The definitions that a word of a file may mean."""
    first, _, rest = word.partition(".")
    if first in file.modules and rest:
        return [found(files, file.modules[first], rest.split(".")[0])]
    if first in file.definitions:
        return [file.definitions[first]]
    if first in file.names:
        return [found(files, *file.names[first])]
    # an operator is named by its signs
    sides = "◌" + word + "◌"
    if sides in file.definitions:
        return [file.definitions[sides]]
    if sides in file.names:
        return [found(files, *file.names[sides])]
    return []


class Contract:
    """The clauses of a call, and the names that its file brings in."""

    def __init__(self, crate, call):
        self.names, self.modules, self.definitions, self.given_out, self.lines = {}, {}, {}, {}, []
        for path in sorted((CRATES / crate / "src").glob("**/*.rt")):
            text = path.read_text(encoding="utf-8")
            at = re.search(rf"^[ \t]*pub fn {call}\b", text, re.MULTILINE)
            if at is None:
                continue
            for line in text.splitlines():
                if (use := USE.match(line)) is not None:
                    SpecFile.bring(self, use, line)
            body = re.compile(r"^[ \t]*\{\}?[ \t]*$", re.MULTILINE).search(text, at.end())
            self.lines = [line for line in text[at.end():body.start()].splitlines() if not line.strip().startswith("//")]
            return
        sys.exit(f"no public call {crate}::{call}")


def believed(files, calls):
    """The definitions that the contracts of some calls name, and those that these name."""
    by_path = {file.path: file for file in files.values()}
    waiting, seen = [], {}
    for call in calls:
        crate, _, name = call.rpartition("::")
        contract = Contract(crate, name)
        waiting += [d for word in words_of(contract.lines) for d in meant(files, contract, word)]
    while waiting:
        definition = waiting.pop()
        if definition is None or (definition.path, definition.name) in seen:
            continue
        seen[definition.path, definition.name] = definition
        file = by_path[definition.path]
        waiting += [d for word in words_of(definition.lines) for d in meant(files, file, word)]
    return list(seen.values())


def main():
    arguments = argparse.ArgumentParser(description=__doc__, formatter_class=argparse.RawDescriptionHelpFormatter)
    arguments.add_argument("calls", nargs="*", default=["atomld::run"], metavar="CRATE::CALL")
    arguments.add_argument("--all", action="store_true", help="print each definition with its lines")
    given = arguments.parse_args()
    definitions = believed(spec_files(), given.calls)
    crates = collections.defaultdict(list)
    for definition in definitions:
        crates[definition.crate].append(definition)
    rows = [(crate, len(of), sum(len(d.lines) for d in of), len({d.path for d in of})) for crate, of in crates.items()]
    print(f"{'crate':<16} {'definitions':>11} {'lines':>6} {'files':>6}")
    for crate, count, lines, paths in sorted(rows, key=lambda row: (-row[2], row[0])):
        print(f"{crate:<16} {count:>11} {lines:>6} {paths:>6}")
        if given.all:
            for d in sorted(crates[crate], key=lambda d: (-len(d.lines), d.name)):
                print(f"    {len(d.lines):>4}  {d.name}  ({d.path.relative_to(CRATES)})")
    print(f"{'all':<16} {sum(r[1] for r in rows):>11} {sum(r[2] for r in rows):>6} {sum(r[3] for r in rows):>6}")


if __name__ == "__main__":
    main()
