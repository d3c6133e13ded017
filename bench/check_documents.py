#!/usr/bin/env python3
"""Checks the documents against the source: `bench/check_documents.py [PROGRAM]`.

Of README.md, docs/*.md and docs/atomld.1:

- README.md and docs/ARCHITECTURE.md keep their limits of lines.
- A word in backquotes that is spelled like a name or a file stands in the source, or is one of the headers or other programs.
- `crate::call` names what the crate has, and the clauses behind it, as in `crate::call`: `clause`, are in its contract.
- Each law of a crate (a public function that does nothing) stands in docs/PROMISES.md; no law or clause stands there twice,
  or in another document.
- docs/ARCHITECTURE.md has a line for each crate, which stands on crates of its group and of those before it alone.
- The options of README.md and docs/atomld.1 are those that the link has, and the manual page has each rule, feature and limit
  that its messages may name and that the code tells; man and, where it is there, mandoc have nothing to say of it.
- The sessions of README.md (```console) are what the program prints: by default the one that `(cd crates/atomld && rt run)`
  builds. They want clang and llvm-objdump.

Prints each fault with its place, and ends with status 1 if there is any.
"""
import os
import pathlib
import re
import shutil
import subprocess
import sys
import tempfile

TOP = pathlib.Path(__file__).resolve().parent.parent
README = TOP / "README.md"
MANUAL = TOP / "docs/atomld.1"
PROMISES = TOP / "docs/PROMISES.md"
ARCHITECTURE = TOP / "docs/ARCHITECTURE.md"
LIMITS = {README: 160, ARCHITECTURE: 200}

QUOTED = re.compile(r"`([^`\n]+)`")
LINK = re.compile(r"\]\(([\w./-]+)\)")
NAME = re.compile(r"^(?:[A-Za-z]\w*::)*([A-Za-z]\w*)$")
PATH = re.compile(r"^[\w./-]+\.(?:rt|antt|py|sh|md|tsv|edit|txt|1)$")
WORD = re.compile(r"[A-Za-z_][A-Za-z0-9_]*")
COMMENT = re.compile(r"(^|\s)(//|--|#(?!\[|!)).*$", re.MULTILINE)
# Names of the system's headers and of other programs, which the code needn't hold.
OUTSIDE = re.compile(
    r"^([nr]_\w+|[A-Z][A-Z0-9_]+|\w+_command(_64)?|section_64|nlist_64|relocation_info|mach_header_64|dyld_\w+|fat_arch|"
    r"fat_header|ar_hdr|\w+_t|rt|cp|sh|xxd|fsync|nfat_arch|ar_\w+|fixups_version|symbols_format|seg_count|page_size|"
    r"page_count|segment_offset|pointer_format|indexmap|prfm|max_valid_pointer|high8|bind|lib_ordinal|weak_import|Abort|"
    r"Wait|perf|ArcSlice|unwind_info_section_header)$")
# A name with its crate, and the clauses that are named behind it.
CALL = re.compile(r"`([a-z]\w*)((?:::\w+)+)`((?:(?:: |, | and )`\w+`)*)")
FUNCTION = re.compile(r"^[ \t]*(pub(?:\([a-z]+\))? )?(?:const )?fn (\w+)", re.MULTILINE)
BODY = re.compile(r"^[ \t]*\{(\})?[ \t]*$|;[ \t]*$", re.MULTILINE)
EXPORTS = re.compile(r"^pub (?:use [^;]*;|(?:fn|struct|enum|trait|mod) \w+)", re.MULTILINE)
CLAUSE = re.compile(r"\bensures\s+(\w+)\s*\{")
TYPE = re.compile(r"^(?:pub )?(?:struct|enum|trait|type) (\w+)|^impl(?:<[^{]*?>)? (?:[\w<>', ]+ for )?(\w+)", re.MULTILINE)

# Options whose values stand attached.
ATTACHED = ("-L", "-F", "-l", "-weak-l")
# What crates tell, but no link yet: objects with unwind entries are refused before it.
NO_LINK = {"ehframe", "personalities", "wildcard"}

faults = []


def fault(document, line, text):
    faults.append(f"{document.relative_to(TOP)}:{line}: {text}")


def texts():
    """The documents of prose."""
    return [README, *sorted((TOP / "docs").glob("*.md"))]


def crates():
    return sorted(path.name for path in (TOP / "crates").iterdir() if (path / "src").is_dir())


def exported_by(text):
    """The names that the root of a library offers."""
    return {word for names in EXPORTS.findall(text) for word in WORD.findall(names)}


class Crate:
    """What a crate's sources have: its words, its types, and the functions with their clauses."""

    def __init__(self, name):
        self.words, self.types, self.functions, self.laws = {name}, set(), {}, set()
        folder = TOP / "crates" / name
        library = folder / "src/lib.rt"
        # what other crates may name, or None of a program
        self.exported = exported_by(library.read_text()) if library.exists() else None
        for path in [*folder.rglob("*.rt"), *folder.rglob("*.antt")]:
            if "out" in path.parts:
                continue
            text = path.read_text()
            self.words.update(WORD.findall(COMMENT.sub("", text)))
            if path.suffix == ".rt":
                self.read(text)

    def read(self, text):
        types = [(found.start(), found.group(1) or found.group(2)) for found in TYPE.finditer(text)]
        self.types.update(name for _, name in types)
        starts = list(FUNCTION.finditer(text))
        for found, after in zip(starts, [*starts[1:], None]):
            part = text[found.start() : after.start() if after else len(text)]
            body = BODY.search(part)
            contract = part[: body.start()] if body else part
            owner = None
            if found.group().startswith(" "):
                owner = next((name for start, name in reversed(types) if start < found.start()), None)
            clauses = set(CLAUSE.findall(contract))
            self.functions.setdefault((owner, found.group(2)), set()).update(clauses)
            if found.group(1) == "pub " and owner is None and body and body.group(1) and "ensures" in contract:
                self.laws.add(found.group(2))

    def clauses_of(self, path):
        """The clauses of a function by its path in the crate, or None where the crate has no such thing."""
        *owners, name = path
        if owners:
            return self.functions.get((owners[-1], name))
        found = [clauses for (_, function), clauses in self.functions.items() if function == name]
        return set().union(*found) if found else None

    def has(self, path):
        return all(part in self.words for part in path)


def check_limits():
    for document, limit in LIMITS.items():
        count = len(document.read_text().splitlines())
        if count > limit:
            fault(document, count, f"has {count} lines, more than {limit}")


def words_of_the_source():
    """All words of the sources, the scripts and the lists of crates, and the names of files and folders."""
    words = set()
    for path in TOP.rglob("*"):
        if ".git" in path.parts or "out" in path.parts:
            continue
        words.add(path.stem)
        if path.suffix in {".rt", ".antt", ".py", ".sh", ".txt"} and path.is_file():
            words.update(WORD.findall(COMMENT.sub("", path.read_text(errors="replace"))))
    return words


def is_there(path, folder):
    """Whether a file of a document is there: by its path from the top, from the document, or from some folder."""
    return (TOP / path).exists() or (folder / path).exists() or any(TOP.rglob(path))


def check_names(words):
    for document in texts():
        for number, line in enumerate(document.read_text().splitlines(), 1):
            for linked in LINK.findall(line):
                if not (document.parent / linked).exists():
                    fault(document, number, f"no file {linked}")
            for quoted in QUOTED.findall(line):
                if PATH.match(quoted):
                    if "NAME" not in quoted and not is_there(quoted, document.parent):
                        fault(document, number, f"no file {quoted}")
                    continue
                found = NAME.match(quoted.split("(")[0].split("<")[0])
                name = found.group(1) if found else ""
                if name and not name.endswith("_") and name not in words and not OUTSIDE.match(name):
                    fault(document, number, f"no {quoted} in the source")


def check_calls(sources):
    """Names with their crates, and promises, each of which stands once."""
    promised = {}
    laws = {(crate, law) for crate, source in sources.items() if "_tests" not in crate for law in source.laws}
    names = {law for _, law in laws}
    for document in texts():
        for number, line in enumerate(document.read_text().splitlines(), 1):
            for crate, path, listed in CALL.findall(line):
                if crate not in sources:
                    continue
                path = path.split("::")[1:]
                clauses = sources[crate].clauses_of(path)
                shown = "::".join([crate, *path])
                exported = sources[crate].exported
                if clauses is None and not sources[crate].has(path):
                    fault(document, number, f"{crate} has no {shown}")
                elif exported is not None and path[0] not in exported:
                    fault(document, number, f"{crate} doesn't offer {shown}")
                for clause in QUOTED.findall(listed):
                    if clauses is None or clause not in clauses:
                        fault(document, number, f"{shown} has no clause {clause}")
                is_law = len(path) == 1 and (crate, path[0]) in laws
                if document == PROMISES:
                    for promise in [(shown, clause) for clause in QUOTED.findall(listed)] or [(shown, None)]:
                        if promise in promised:
                            fault(document, number, f"{shown} {promise[1] or ''} stands in line {promised[promise]} already")
                        promised[promise] = number
                elif listed or is_law:
                    fault(document, number, f"{shown} {listed} is a promise: it belongs to {PROMISES.name}")
            if document != PROMISES:
                for name in QUOTED.findall(line):
                    if name in names:
                        fault(document, number, f"{name} is a law: it belongs to {PROMISES.name}")
    shown = {promise[0] for promise in promised}
    for crate, law in sorted(laws):
        if f"{crate}::{law}" not in shown:
            fault(PROMISES, 1, f"the law {crate}::{law} isn't there")


def check_crates():
    """Each crate has a line, and stands on crates of its group and of those before it."""
    groups, group = {}, 0
    for line in ARCHITECTURE.read_text().splitlines():
        group += line.startswith("| **")
        if group and line.startswith("| `"):
            for crate in QUOTED.findall(line.split("|")[1]):
                groups.setdefault(crate, group)
    for line in (TOP / "crates.txt").read_text().splitlines():
        crate, found, below = line.partition(":")
        if not found or crate.startswith("#"):
            continue
        if crate not in groups:
            fault(ARCHITECTURE, 1, f"has no line for {crate}")
        for name in below.split():
            if groups.get(name, 0) > groups.get(crate, 0):
                fault(ARCHITECTURE, 1, f"{crate} stands on {name}, which is of a later group")


def options_of_the_link():
    """The words of the options that the link has, by the tables of `mo_cmd` and the rows that `link_engine` reads."""
    rows = re.findall(r"^number (\w+) = (\d+)$", (TOP / "crates/mo_cmd/specs/Parts.antt").read_text(), re.MULTILINE)
    rows = {name: int(number) for name, number in rows}
    linked = re.search(r"LINKED: Rows = Rows::(\w+)", (TOP / "crates/link_engine/src/words.rt").read_text()).group(1)
    since = dict(re.findall(r"^since (?:option\.)?(\w+) = (\w+)$", (TOP / "crates/mo_cmd/specs/Parts.antt").read_text(), re.MULTILINE))
    names = re.findall(r'^name_of option\.(\w+) = codes "(-[^"]*)"$', (TOP / "crates/mo_cmd/specs/Options.antt").read_text(), re.MULTILINE)
    every = {word for _, word in names}
    return {word for option, word in names if rows[since.get(option, since["_"])] <= rows[linked]}, every


def check_options():
    linked, every = options_of_the_link()
    manual = MANUAL.read_text()
    options = manual[manual.index(".Sh OPTIONS") : manual.index(".Sh FILES")]
    shown = set()
    for item in re.findall(r"^\.It (?:Fl .*|Xo\n(?:.*\n)*?\.Xc)$", options, re.MULTILINE):
        # a list of options stands behind one `Fl`, else each has its own
        shown.update(f"-{name}" for name in re.findall(r"\bFl ([A-Za-z_-]+)|, ([a-z_]+)", item) for name in name if name)
    rows = [line for line in README.read_text().splitlines() if line.startswith("| `-")]
    told = {word.split(" ")[0] for row in rows for word in QUOTED.findall(row.split("|")[1])}
    for document, words in ((MANUAL, shown), (README, told)):
        # a value may stand attached
        words = {word if word in every else next((stem for stem in ATTACHED if word.startswith(stem)), word) for word in words}
        for word in sorted(linked - words):
            fault(document, 1, f"the option {word} isn't there")
        for word in sorted(words - linked):
            fault(document, 1, f"the link doesn't have the option {word}")


def check_manual():
    manual = MANUAL.read_text()
    words = set(re.findall(r"[a-z][a-z0-9]+", manual))
    code = "\n".join(path.read_text() for crate in crates() if crate != "mo_types" and not crate.endswith("_tests")
                     for path in (TOP / "crates" / crate / "src").rglob("*.rt"))
    shows = re.findall(r"(\w+)::(\w+) => \"(\w+)\",", (TOP / "crates/mo_types/src/cause.rt").read_text())
    for kind, variant, text in shows:
        is_told = re.search(rf"\b{kind}::{variant}\b", code) and text not in NO_LINK
        if is_told and text not in words and kind != "UsageRule":
            fault(MANUAL, 1, f"{kind} {text} isn't there")
    for words in (["mandoc", "-Tlint", str(MANUAL)], ["man", "-l", "--warnings", str(MANUAL)]):
        if shutil.which(words[0]):
            ran = subprocess.run(words, capture_output=True, text=True, env={**os.environ, "MANPAGER": "cat"})
            said = ran.stderr + (ran.stdout if words[0] == "mandoc" else "")
            for line in said.splitlines():
                # whether other pages are there isn't this one's fault
                if "mandoc.db" not in line:
                    fault(MANUAL, 1, line)


def sessions():
    """The sessions of README.md: the line at which each begins, and its lines."""
    found, inside = [], False
    for number, line in enumerate(README.read_text().splitlines(), 1):
        if line == "```console":
            found.append((number + 1, []))
            inside = True
        elif line == "```":
            inside = False
        elif inside:
            found[-1][1].append(line)
    return found


def run_sessions(program):
    """Runs the commands of all sessions one after the other in one folder, which has the examples beside it."""
    for tool in ("clang", "llvm-objdump"):
        if not shutil.which(tool):
            print(f"{tool} isn't there: the sessions aren't run")
            return
    with tempfile.TemporaryDirectory() as folder:
        shutil.copytree(TOP / "examples", f"{folder}/examples")
        os.mkdir(f"{folder}/bin")
        os.symlink(program.resolve(), f"{folder}/bin/atomld")
        known = {**os.environ, "PATH": f"{folder}/bin:{os.environ['PATH']}"}
        for start, lines in sessions():
            at = 0
            while at < len(lines):
                command, line, wanted, at = lines[at].removeprefix("$ "), start + at, [], at + 1
                while at < len(lines) and not lines[at].startswith("$ "):
                    wanted, at = wanted + [lines[at]], at + 1
                ran = subprocess.run(["bash", "-c", command], cwd=folder, env=known, text=True,
                                     stdout=subprocess.PIPE, stderr=subprocess.STDOUT)
                if ran.stdout.splitlines() != wanted:
                    fault(README, line, f"{command}\n  printed\n{ran.stdout}  in place of\n" + "\n".join(wanted))


def main():
    program = pathlib.Path(sys.argv[1]) if len(sys.argv) > 1 else TOP / "crates/atomld/out/atomld"
    check_limits()
    check_names(words_of_the_source())
    check_calls({name: Crate(name) for name in crates()})
    check_crates()
    check_options()
    check_manual()
    if program.exists():
        run_sessions(program)
    else:
        fault(README, 1, "the sessions weren't run: build the program first, by (cd crates/atomld && rt run)")
    print("\n".join(faults) if faults else "the documents agree with the source")
    sys.exit(1 if faults else 0)


main()
