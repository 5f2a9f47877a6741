#!/usr/bin/env python3
"""Checks that what the documents name is there by that name.

    scripts/check_documents.py [FOLDER]

FOLDER is the top of the repository, this one where none is given. Of README.md and the other documents at the top, in docs/ and in
samples/ it is checked that

- a call (`crate::call`, `crate::Type::method`) is one that its crate exports;
- a clause (`crate::call`, clause `name`) is one of that call's contract, and what stands in brackets after it (`field`, `Record.field`)
  a field of a definition;
- a law (law `name`, law `name` of `crate`) is a call that its crate exports;
- a file (`crates/NAME/src/lib.rt`, `Ran.antt`, `Cut.antt` of `subpage`) and a link's target stand on disk, an anchor is a heading, and
  a script knows the words that it is called with;
- an edit of a row (| `crate` | `edit` | ..) stands in its crate's must-fail/, the clause of that row is there, and each edit has a row;
- a row of definitions (| .. | `name`, .. | `crate` File, .. | ..) names files of the crate's specs/ that have these names;
- any other name in quotes that is written as names of code are stands somewhere in the code;
- README.md has at most 150 lines of at most 120 characters.

It prints a line for each that is not so, and ends with 0 where there is none, else with 1.
"""

from __future__ import annotations

import argparse
import re
import sys
from dataclasses import dataclass, field
from functools import cached_property
from pathlib import Path
from typing import Iterator, NamedTuple

MOST_LINES, MOST_CHARACTERS = 150, 120
SPAN = re.compile(r"`([^`\n]+)`")
WORD = re.compile(r"\w+")
FOLDERS = r"crates|docs|scripts|samples|\.ci|src|specs|proofs|must-fail|\.\.?"
PATH = re.compile(rf"(?:{FOLDERS})(?:/[\w.*-]+)+/?|\w+\.(?:rt|antt|py|sh|md|svg)")
COMMANDED = re.compile(r"(?<![\w/.-])(?:\./try\b|(?:\./)?(?:crates|docs|scripts|samples)/[\w./-]*\w)")
ITEM = re.compile(r"\s*(?:[-*]|\d+\.) ")
CALL = re.compile(r"\w+(?:::\w+)+")
NAME = re.compile(r"\w+(?:\.\w+)*")
LINK = re.compile(r"\]\(([^)\s#]*)(?:#([^)\s]*))?\)")
# Names that stand for others in a path: NAME, IN.dat, PROGRAM.
PLACEHOLDER = re.compile(r"\b[A-Z]{2,}\b")
# Names of other programs and of the kernel, which are no names of this repository.
OUTSIDE = ("ring_buffer", "trace_entries", "buffer_subbuf_size_kb", "sched_vcpu_pack", "ma_", "mm_page_", "hrtimer_", "tcp_", "inet_sock_", "writeback_")


class Finding(NamedTuple):
    document: str
    line: int
    what: str


@dataclass(frozen=True)
class Function:
    """A function of a crate, the type and the trait that it belongs to, and the names of its clauses."""

    name: str
    owners: frozenset[str]
    clauses: frozenset[str]


def functions_in(text: str) -> Iterator[Function]:
    """The functions of a source file. It is laid out, so that a block's last bracket stands at the beginning of a line."""
    owners: frozenset[str] = frozenset()
    starts: list[tuple[int, str, frozenset[str]]] = []
    for match in re.finditer(r"^(?:(?:pub )?(?:unsafe )?(impl|trait)\b([^{;]*)\{|\})|\bfn (\w+)|^    ghost (\w+) =", text, re.M):
        if name := match[3] or match[4]:
            starts.append((match.start(), name, owners))
        else:
            owners = owners_of(match[2]) if match[1] else frozenset()
    for (start, name, of), end in zip(starts, [start for start, *_ in starts[1:]] + [len(text)]):
        clauses = re.findall(r"^\s+(?:ensures|requires)\*?\s+(\w+)\s*\{", text[start:end], re.M)
        yield Function(name, of, frozenset(clauses))


def owners_of(head: str) -> frozenset[str]:
    """The type that an `impl` is of, and its trait, or the name of a trait."""
    while (shorter := re.sub(r"<[^<>]*>", "", head)) != head:
        head = shorter
    bare = re.split(r"\bwhere\b|:(?!:)", head)[0]
    return frozenset(words[-1] for part in bare.split(" for ") if (words := WORD.findall(part)))


@dataclass
class Crate:
    """What a crate has, by its name."""

    folder: Path
    functions: list[Function] = field(init=False)
    exported: set[str] = field(init=False)
    public_modules: set[str] = field(init=False)

    def __post_init__(self) -> None:
        sources = sorted((self.folder / "src").rglob("*.rt"))
        self.functions = [function for file in sources for function in functions_in(file.read_text())]
        root = next((file.read_text() for file in sources if file.name in ("lib.rt", "main.rt") and file.parent.name == "src"), "")
        uses = re.findall(r"^pub use ([^;]*);", root, re.M)
        self.exported = {word for use in uses for word in WORD.findall(use.split("::")[-1])}
        self.exported |= {word for use in uses for part in re.findall(r"\{([^}]*)\}", use) for word in WORD.findall(part)}
        self.exported |= set(re.findall(r"^pub (?:fn|struct|enum|trait|const|mod) (\w+)", root, re.M))
        self.public_modules = set(re.findall(r"^pub mod (\w+);", root, re.M))
        for module in self.public_modules:
            public = self.folder / "src" / f"{module}.rt"
            self.exported |= set(re.findall(r"^pub (?:fn|struct|enum|trait|const) (\w+)", public.read_text(), re.M)) if public.exists() else set()

    def named(self, *path: str) -> list[Function]:
        """The functions that a call means: an exported one, or a method of an exported type or trait."""
        *owners, name = path
        if not owners and name in self.exported:
            return [it for it in self.functions if it.name == name and not it.owners] or [it for it in self.functions if it.name == name]
        if owners and owners[-1] in self.public_modules:
            return [it for it in self.functions if it.name == name and not it.owners]
        wanted = [it for it in self.functions if it.name == name and it.owners & self.exported]
        return [it for it in wanted if owners[-1] in it.owners] if owners else wanted

    def clauses(self, functions: list[Function]) -> set[str]:
        """The clauses of these functions, and of a trait's methods of their names, which an `impl` takes over."""
        names = {it.name for it in functions}
        return {clause for it in self.functions if it.name in names for clause in it.clauses}

    def has(self, *path: str) -> bool:
        """Whether the crate exports this call, or has this type or variant."""
        is_type = path[-1][0].isupper() and path[-1] in self.words
        return bool(self.named(*path)) or len(path) == 1 and path[0] in self.exported or is_type

    @cached_property
    def words(self) -> set[str]:
        return {word for kind in ("rt", "antt") for file in self.folder.rglob(f"*.{kind}") for word in WORD.findall(file.read_text())}

    def has_specs(self, file: str) -> bool:
        return any((self.folder / "specs").rglob(file))


class Repository:
    def __init__(self, top: Path):
        self.top = top
        names = re.findall(r"^(\w+)[^:#\n]*:", (top / "crates.txt").read_text(), re.M)
        self.crates = {name: Crate(top / "crates" / name) for name in names}

    @cached_property
    def words(self) -> set[str]:
        """Each word of code and of scripts."""
        found = {word for crate in self.crates.values() for word in crate.words} | set(self.crates)
        files = [file for folder in ("scripts", "samples") for file in (self.top / folder).rglob("*") if file.suffix in (".py", ".sh", ".md", ".c", "")]
        edits = [file.stem for file in self.top.glob("crates/*/must-fail/*.edit")]
        return found | set(edits) | {word for file in files if file.is_file() and file.name != Path(__file__).name for word in WORD.findall(file.read_text())}

    @cached_property
    def records(self) -> dict[str, set[str]]:
        """The fields of each record of the definitions."""
        found: dict[str, set[str]] = {}
        for file in self.top.glob("crates/*/specs/**/*.antt"):
            for record in re.finditer(r"^pub record (\w+).*\n((?:[ \t]+.*\n|\n)*)", file.read_text() + "\n", re.M):
                found.setdefault(record[1], set()).update(re.findall(r"^\s+(?:pub )?(\w+) :", record[2], re.M))
        return found

    def documents(self) -> list[Path]:
        found = [*self.top.glob("*.md"), *self.top.glob("docs/*.md"), *self.top.glob("samples/*.md")]
        return sorted(found)

    def stands(self, path: str, beside: Path) -> bool:
        """Whether a path, in which some names may stand for others, is there, from the top, from a document, or as a name anywhere."""
        pattern = PLACEHOLDER.sub("*", path.removeprefix("./")).strip("/")
        if re.match("src/|specs/|proofs/|must-fail/", pattern):
            return any(self.top.glob(f"crates/*/{pattern}"))
        if "/" in pattern:
            return any(any(folder.glob(pattern)) for folder in (self.top, beside))
        if any(any(folder.glob(pattern)) for folder in (self.top, beside)):
            return True
        return any(any(self.top.glob(f"{folder}/**/{pattern}")) for folder in ("crates", "docs", "scripts", "samples"))


class Document:
    """A document, and what is wrong in it."""

    def __init__(self, repository: Repository, file: Path):
        self.repository, self.file = repository, file
        self.name = str(file.relative_to(repository.top))
        self.text = file.read_text()
        self.found: list[Finding] = []

    def wrong(self, at: int, what: str) -> None:
        self.found.append(Finding(self.name, self.text.count("\n", 0, at) + 1, what))

    def check(self) -> list[Finding]:
        self.check_links()
        at, fenced = 0, False
        for block in re.split(r"(\n(?:\s*\n|(?=\s*[-|*] )|(?=\s*\d+\. )|(?=```)))", self.text):
            fenced ^= block.startswith("```")
            if fenced or block.startswith("    ") and not ITEM.match(block):
                self.check_commands(at, block)
            else:
                self.check_block(at, block)
            at += len(block)
        return self.found

    def check_commands(self, at: int, block: str) -> None:
        """The files that the commands of an example name."""
        for path in COMMANDED.finditer(block):
            if "/out" not in path[0] and not self.repository.stands(path[0], self.file.parent):
                self.wrong(at + path.start(), f"no file {path[0]}")

    # Links

    def check_links(self) -> None:
        for link in LINK.finditer(self.text):
            if re.match(r"\w+:", link[1]):
                continue
            target = (self.file.parent / link[1]).resolve() if link[1] else self.file
            if not target.exists():
                self.wrong(link.start(), f"no file {link[1]}")
            elif link[2] and link[2] not in anchors(target.read_text()):
                self.wrong(link.start(), f"no heading #{link[2]} in {target.name}")

    # Names in a paragraph, an item or a row

    def check_block(self, at: int, block: str) -> None:
        cells = [cell.strip() for cell in block.strip().strip("|").split(" | ")]
        if block.lstrip().startswith("|") and len(cells) > 2:
            self.check_row(at, cells)
        cited: list[Function] | None = None
        laws: list[str] = []
        before, end = "", 0
        for span in SPAN.finditer(block):
            text, between = span[1], block[end : span.start()]
            joins = re.fullmatch(r"\s*(?:,|and|, and)\s*", between) is not None
            role = "clause" if re.search(r"\bclauses?\s*$", between) or joins and before == "clause" else None
            role = "law" if re.search(r"\blaws?\s*$", between) or joins and before == "law" and "::" not in text else role
            role = "field" if before == "clause" and re.fullmatch(r"\s*\(", between) or joins and before == "field" else role
            place = at + span.start()
            if role == "clause" and NAME.fullmatch(text):
                self.check_clause(place, text, cited)
            elif role == "field" and NAME.fullmatch(text) and not text.endswith(".antt"):
                self.check_field(place, text)
            elif role == "law":
                laws = laws + [text] if before == "law" else [text]
                if not re.match(r"[^`|;.(]*\bof\s+`", block[span.end() :].split("`", 2)[0] + "`"):
                    self.check_law(place, text, None)
            elif laws and before == "law" and re.fullmatch(r"\s*of\s*", between):
                for law in laws:
                    self.check_law(place, law, text)
            else:
                role, cited = None, self.check_span(place, text, cited, block[span.end() :])
            before, end = role or "", span.end()

    def check_span(self, at: int, text: str, cited: list[Function] | None, rest: str) -> list[Function] | None:
        """Checks a name by its form; gives the call that clauses after it are of."""
        crates = self.repository.crates
        if CALL.fullmatch(text) and text.split("::")[0] not in ("std", "core"):
            return self.check_call(at, text)
        first = text.split()[0]
        if of := re.match(r"\s+of\s+`(\w+)`", rest):
            if text.endswith(".antt") and of[1] in crates:
                if not crates[of[1]].has_specs(text):
                    self.wrong(at, f"no {text} in crates/{of[1]}/specs")
                return cited
        if PATH.fullmatch(first):
            if not self.repository.stands(first, self.file.parent) and "/out/" not in first:
                self.wrong(at, f"no file {first}")
            elif first.startswith("scripts/"):
                self.check_words(at, self.repository.top / first, text.split()[1:])
        elif NAME.fullmatch(text):
            self.check_name(at, text)
        return cited

    def check_words(self, at: int, script: Path, words: list[str]) -> None:
        """The words that a script of this repository is called with, but for names of files and values."""
        text = script.read_text() if script.is_file() else ""
        for word in words:
            if re.fullmatch(r"(?:--)?[a-z][a-z-]*", word) and not re.search(rf"\b{re.escape(word.lstrip('-'))}\b", text):
                self.wrong(at, f"no {word} in {script.name}")

    def check_call(self, at: int, text: str) -> list[Function] | None:
        first, *path = text.split("::")
        crates = self.repository.crates
        if first in crates:
            if not crates[first].has(*path):
                self.wrong(at, f"no call {text}: {first} exports no such name")
                return None
            return crates[first].named(*path)
        found = [it for crate in crates.values() for it in crate.functions if first in it.owners and it.name == path[-1]]
        if not found and not any(first in crate.words and path[-1] in crate.words for crate in crates.values()):
            self.wrong(at, f"no call {text}")
        return found or None

    def check_clause(self, at: int, name: str, cited: list[Function] | None) -> None:
        if cited is not None and not any(name in function.clauses for function in cited):
            called = cited[0].name if cited else "that call"
            self.wrong(at, f"no clause {name} of {called}")

    def check_field(self, at: int, text: str) -> None:
        records = self.repository.records
        record, _, name = text.rpartition(".")
        if record and record not in records:
            self.wrong(at, f"no record {record} in the definitions")
        elif name not in (records[record] if record else set().union(*records.values())):
            self.wrong(at, f"no field {text} in the definitions")

    def check_law(self, at: int, name: str, crate: str | None) -> None:
        if crate is not None and crate not in self.repository.crates:
            self.wrong(at, f"no crate {crate}, of law {name}")
            return
        among = [self.repository.crates[crate]] if crate else list(self.repository.crates.values())
        if not any(name in it.exported and it.named(name) for it in among):
            self.wrong(at, f"no law {name}" + (f" of {crate}" if crate else ""))

    def check_name(self, at: int, text: str) -> None:
        """A name that is written as names of code are: with a low line, or with a capital inside."""
        record, _, name = text.partition(".")
        if name and record in self.repository.records and not text.endswith(".antt"):
            self.check_field(at, text)
        for word in text.split("."):
            is_of_code = "_" in word.strip("_") or re.search(r"[a-z][A-Z]", word)
            if is_of_code and word not in self.repository.words and not word.startswith(OUTSIDE):
                self.wrong(at, f"no {text} anywhere in the code")

    # Rows of tables

    def check_row(self, at: int, cells: list[str]) -> None:
        crates = self.repository.crates
        first = SPAN.fullmatch(cells[0])
        edit = SPAN.fullmatch(cells[1])
        if first and first[1] in crates and edit and self.name == "docs/TESTING.md":
            self.check_edit(at, crates[first[1]], edit[1], cells[-1] if len(cells) > 3 else "")
        where = re.match(r"`(\w+)`(.*)", cells[2]) if self.name == "docs/DEFINITIONS.md" else None
        if where and where[1] in crates:
            self.check_definitions(at, cells[1], cells[2])

    def check_edit(self, at: int, crate: Crate, edit: str, clauses: str) -> None:
        if not (crate.folder / "must-fail" / f"{edit}.edit").exists():
            self.wrong(at, f"no {edit}.edit in crates/{crate.folder.name}/must-fail")
        called = None
        for span in SPAN.finditer(clauses):
            path = re.fullmatch(r"(?:(\w+)::)?(\w+)?(?:\.(\w+))?", span[1])
            if not path:
                continue
            called = path[2] or called
            among = [it for it in crate.functions if it.name == called and (path[1] is None or path[1] in it.owners)]
            if not among:
                self.wrong(at, f"no {span[1]} in crates/{crate.folder.name}/src")
            elif path[3] and path[3] not in crate.clauses(among):
                self.wrong(at, f"no clause {span[1]} in crates/{crate.folder.name}/src")

    def check_definitions(self, at: int, names: str, where: str) -> None:
        words: set[str] = set()
        for name, files in re.findall(r"`([a-z]\w*)`([^`]*)", where):
            crate = self.repository.crates.get(name)
            if not crate:
                self.wrong(at, f"no crate {name}")
                continue
            words |= crate.exported
            for file in re.findall(r"\b[A-Z]\w*", files) or ["*"]:
                specs = list((crate.folder / "specs").rglob(f"{file}.antt"))
                words |= {word for it in specs for word in WORD.findall(it.read_text())}
                if not specs:
                    self.wrong(at, f"no {file}.antt in crates/{name}/specs")
        for span in SPAN.finditer(names):
            for word in span[1].split(".") if NAME.fullmatch(span[1]) else []:
                if ("_" in word or word[0].isupper()) and word not in words:
                    self.wrong(at, f"no {word} in the specs that are named beside it")


def anchors(text: str) -> set[str]:
    """The anchors of a document's headings."""
    headings = re.findall(r"^#+ (.*)$", text, re.M)
    return {re.sub(r"[^\w\- ]", "", heading.lower()).strip().replace(" ", "-") for heading in headings}


def size_of(readme: Path) -> list[Finding]:
    lines = readme.read_text().splitlines()
    found = [Finding("README.md", len(lines), f"{len(lines)} lines, more than {MOST_LINES}")] if len(lines) > MOST_LINES else []
    long = [(number, line) for number, line in enumerate(lines, 1) if len(line) > MOST_CHARACTERS]
    return found + [Finding("README.md", number, f"{len(line)} characters, more than {MOST_CHARACTERS}") for number, line in long]


def edits_without_a_row(top: Path) -> list[Finding]:
    testing = (top / "docs/TESTING.md").read_text()
    edits = [(edit.parent.parent.name, edit.stem) for edit in sorted(top.glob("crates/*/must-fail/*.edit"))]
    missing = [(crate, edit) for crate, edit in edits if f"| `{crate}` | `{edit}` |" not in testing]
    return [Finding("docs/TESTING.md", 1, f"no row for the edit {edit} of {crate}") for crate, edit in missing]


def check(top: Path) -> bool:
    repository = Repository(top)
    documents = repository.documents()
    found = [it for file in documents for it in Document(repository, file).check()]
    found += size_of(top / "README.md") + edits_without_a_row(top)
    for document, line, what in found:
        print(f"{document}:{line}: {what}")
    if not found:
        print(f"{len(documents)} documents: what they name is there")
    return not found


def main() -> None:
    parser = argparse.ArgumentParser(description=__doc__, formatter_class=argparse.RawDescriptionHelpFormatter)
    parser.add_argument("folder", nargs="?", type=Path, default=Path(__file__).parent.parent, metavar="FOLDER")
    sys.exit(0 if check(parser.parse_args().folder.resolve()) else 1)


if __name__ == "__main__":
    main()
