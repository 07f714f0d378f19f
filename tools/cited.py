#!/usr/bin/env python3
"""Nine documents (DOCUMENTS) cite only what exists, and all of what they should; links of README.md and docs/ lead somewhere.

    tools/cited.py [ROOT] [--self-test]

Names in backticks are defined in crates/ or include/enfysgar.h (a method as `Type::method`, a variant as `Enum::Variant` or alone), paths exist, and a name stands in the
file that is named with it. In docs/PROMISES.md each field of the three demands and each theorem marked PROMISE is cited; in each document of APART each must-fail edit of
its crates, in docs/WRONG_PROGRAMS.md each other one. With --self-test mistakes are then planted one by one, in memory, and each of them must be noticed."""

import re
import sys
from collections import defaultdict
from functools import lru_cache
from fnmatch import fnmatchcase
from pathlib import Path

DOCUMENTS = ["PROMISES", "RULES", "DECISIONS", "WRONG_PROGRAMS", "WRONG_ROWS", "WRONG_RESCUE", "WRONG_TIDES", "WRONG_COMPARE", "WRONG_CALLS"]
APART = {"WRONG_ROWS": ("rows/", "row_bytes/", "row_places/", "nutation/"), "WRONG_RESCUE": ("rescue/", "rescue_lines/", "rescue_records/"), "WRONG_TIDES": ("binary64/", "tide/", "schwiderski/"),
         "WRONG_COMPARE": ("files/", "compare/", "promises/compare_")}
# words in backticks that are no names of ours: keywords, the C library's, the kit's, what the program writes, placeholders
NO_NAMES = {"requires", "match", "fmod", "rem", "must-fail", "RT_JOBS", "refused", "count", "_", "returns", "returns-in-Err-clause-refusal", "Result", "Option", "Ok", "Err",
            "From", "Model"}
# folders that are made or installed, and not kept
MADE = ("target/", "build/", "share/")

NAME = r"[^\W\d][\w′]*(?:-[\w′]+)*"
CITED = re.compile(r"`([^`\n]+)`|(?<![\w/.*-])((?:crates|docs|tests|tools|include|examples|bench|packaging|\.ci)/[\w*./-]*[\w*/])")
LINK = re.compile(r"\]\(([^)#:]+)\)")
SHAPED = re.compile(r"[a-z]\w*[A-Z]|\w-\w|_|[A-Z][a-z]")  # camelCase, kebab-case, snake_case, Capital: a name even inside an expression


class Tree:
    """What there is: the names that each file of crates/ defines, the crates, the edits, and what has to be cited."""

    def __init__(self, root):
        self.root = root
        self.defined = {}
        self.promised = {}
        for path in sorted(p for p in root.glob("crates/**/*.antt") if "out" not in p.parts):
            self.defined[path.relative_to(root).as_posix()] = self.of_antt(path.read_text(encoding="utf-8"))
        for path in sorted(p for p in root.glob("crates/**/*.rt") if "out" not in p.parts):
            self.defined[path.relative_to(root).as_posix()] = self.of_rt(path.read_text(encoding="utf-8"))
        header = (root / "include/enfysgar.h").read_text(encoding="utf-8")
        self.crates = set(re.findall(r"^(\w+)(?: staticlib)?:", (root / "crates.txt").read_text(encoding="utf-8"), re.M))
        self.names = set().union(*self.defined.values()) | self.crates | set(re.findall(r"\b(?:enfys|ENFYS)_\w+", header))
        self.edits = {f"{p.parts[-3]}/{p.stem}" for p in root.glob("crates/*/must-fail/*.edit")}
        self.labels = {edit.split("/")[1] for edit in self.edits}
        for path in sorted(root.glob("crates/*/proofs/*.antt")):
            text = path.read_text(encoding="utf-8")
            for name in re.findall(rf"^-- PROMISE\..*\n(?:--.*\n)*(?:(?:pub|abbrev|unfoldable) )*({NAME}) :", text, re.M):
                self.promised[name] = path.relative_to(root).as_posix()
        self.fields = {}
        for path in sorted(root.glob("crates/promises/specs/*.antt")):
            for body in re.findall(r"^pub record .*\n((?:  .*\n|\n)*)", path.read_text(encoding="utf-8"), re.M):
                self.fields.update((name, path.relative_to(root).as_posix()) for name in re.findall(rf"^  pub ({NAME}) :", body, re.M))

    @staticmethod
    def of_antt(text):
        names = set(re.findall(rf"^\s*(?:\w+ )*?(?:record|data) ({NAME})", text, re.M))
        for several in re.findall(rf"^\s*(?:(?:pub|abbrev|unfoldable) )*({NAME}(?: {NAME})*) :", text, re.M):
            names.update([] if several.startswith("let ") else several.split())
        return names

    @staticmethod
    def of_rt(text):
        names = set(re.findall(r"^\s*(?:pub )?(?:ghost )?(?:extern \"C\" )?(?:fn|const|static|struct|enum) (\w+)", text, re.M))
        for enum, body in re.findall(r"\benum (\w+) \{(.*?)\n\}", text, re.S):
            variants = re.findall(r"^\s*([A-Z]\w*)", body, re.M)
            names.update(variants, (f"{enum}::{variant}" for variant in variants))
        for of, body in re.findall(r"^impl\b(?:[^\n]* for|<[^>\n]*>)? (\w+)[^\n]*\{\n(.*?)^\}", text, re.M | re.S):
            names.update(f"{of}::{method}" for method in re.findall(r"^    (?:pub )?fn (\w+)", body, re.M))
        return names

    @lru_cache(maxsize=None)
    def exists(self, path):
        return any(self.root.glob(path.rstrip("/"))) if path and not path.startswith("/") else False

    def in_crate(self, crate, name):
        return any(name in names for file, names in self.defined.items() if file.startswith(f"crates/{crate}/") and file.endswith(".rt"))


class Document:
    """One document: its citations (kind, place, text), and what is wrong with them."""

    def __init__(self, tree, name, text):
        self.tree, self.name, self.text = tree, name, text
        self.citations, self.wrong = [], []
        self.cited = defaultdict(set)
        self.section_crates = []
        self.spans = []  # (start, end, name or path) of what stands in backticks, for names that are given with their file
        self.of_edits = name == "WRONG_PROGRAMS" or name in APART
        self.labels = self.label_places() if self.of_edits else {}
        place = 0
        for line in text.splitlines(keepends=True):
            if line.startswith("#"):
                self.section_crates = []
            if not line.startswith("    "):  # an indented line is a command
                for found in CITED.finditer(line):
                    self.one(place + found.start(found.lastindex), found.group(found.lastindex))
            place += len(line)
        self.with_files()
        if name == "PROMISES":
            self.tables()

    def complain(self, place, words):
        self.wrong.append(f"docs/{self.name}.md:{self.text.count(chr(10), 0, place) + 1}: {words}")

    def cite(self, kind, place, text, there):
        self.citations.append((kind, place, text))
        self.cited[kind].add(text)
        if not there:
            self.complain(place, f"{text}: no such {kind}")

    def one(self, place, text):
        """A citation: a path, an edit, a name, or an expression with names in it."""
        tree = self.tree
        edit = re.fullmatch(r"(\w+)/([\w*]+)", text)
        if text.startswith(MADE):
            pass
        elif place in self.labels:
            label = f"{self.labels[place]}/{text}"
            self.cite("edit", place, text, label in tree.edits)
            self.cited["edit"].add(label)
        elif self.of_edits and edit and not tree.exists(edit.group(1)):
            self.cite("edit", place, text, text in tree.edits or "*" in text and any(fnmatchcase(e, text) for e in tree.edits))
        elif self.of_edits and text in tree.labels:  # a label in a sentence that names its crate
            self.cite("edit", place, text, True)
        elif "/" in text and " " not in text:
            self.cite("path", place, text, self.path(re.sub(r"\b(NAME|LABEL)\b", "*", text)))
            self.spans.append((place, place + len(text), text))
        elif "*" in text and " " not in text:
            self.cite("name", place, text, any(fnmatchcase(n, text) for n in tree.names))
        else:
            alone = re.match(rf"(?:\w+::)?{NAME}(?=$| : )", text)  # the whole, or what has its type after it
            for word in re.finditer(rf"(?<!\w)(?:(\w+)::)?({NAME})", text):
                if word.group() in NO_NAMES or not (alone and word.start() == 0 or SHAPED.search(word.group())):
                    continue
                there = word.group() in tree.names or bool(word.group(1)) and tree.in_crate(*word.groups())
                self.cite("name", place + word.start(), word.group(), there)
            self.spans.append((place, place + len(text), text))

    def path(self, text):
        """Whether a path is there: from the root, or (specs/X.antt) in a crate that the section named before, or where none was named, in any."""
        crate = re.match(r"crates/(\w+)", text)
        if crate:
            self.section_crates.append(crate.group(1))
        if self.tree.exists(text):
            return True
        inside = re.match(r"(specs|proofs|src)\b", text)
        return bool(inside) and any(self.tree.exists(f"crates/{c}/{text}") for c in self.section_crates or ["*"])

    def with_files(self):
        """`name` in `file`, `name`, `file`: the name stands in that file."""
        for (a, b, name), (c, _, file) in zip(self.spans, self.spans[1:]):
            if re.fullmatch(r"`(?:,| in|, in)\s+`?", self.text[b:c]) and file in self.tree.defined:
                first = re.match(NAME, name)
                if first and "/" not in name and first.group() not in self.tree.defined[file]:
                    self.complain(a, f"{first.group()}: not in {file}")

    def rows(self):
        """The rows of the tables: the header's cells, and (place, text) of each cell."""
        header, place = None, 0
        for line in self.text.splitlines(keepends=True):
            if not line.startswith("|"):
                header = None
            elif header is None:
                header = [cell.strip() for cell in line.strip().strip("|").split("|")]
            elif not line.startswith("|--"):
                cells, at = [], place + 1
                for cell in line.strip()[1:-1].split("|"):
                    cells.append((at, cell))
                    at += len(cell) + 1
                yield header, cells
            place += len(line)

    def label_places(self):
        """Where a bare label of an edit stands: the first column, headed Edit, under a heading that names one crate."""
        places, headings = {}, [(found.start(), found.group(1)) for found in re.finditer(r"^#+ (.*)$", self.text, re.M)]
        for header, cells in self.rows():
            place, cell = cells[0]
            label = re.fullmatch(r"\s*`(\w+)`\s*", cell)
            if header[0] == "Edit" and label:
                places[place + label.start(1)] = next(heading for at, heading in reversed(headings) if at < place)
        return places

    def tables(self):
        """Rows with a file: the names that are proved or defined stand in it, and each file has one of the row's names. Statements are fields of the demands."""
        files = []
        for header, cells in self.rows():
            if header[-1] != "File":
                continue
            row = dict(zip(header, cells))
            place, cell = row["File"]
            above, files = files, []
            for word in re.finditer(r"[^\s,]+", cell):
                path, before = word.group(), files[-1] if files else ""
                if path == "same":
                    files += above
                    continue
                options = [path] + ([f"{before.rsplit('/', 1)[0]}/{path}", "/".join(before.split("/")[:2]) + "/" + path] if before else [])
                files.append(next((o for o in options if o in self.tree.defined), path))
                if files[-1] not in self.tree.defined:
                    self.complain(place + word.start(), f"{path}: no such file")
                elif files[-1] != path:
                    self.cite("path", place + word.start(), path, True)
            inside = set().union(*(self.tree.defined.get(f, set()) for f in files))
            named = set()
            for column, (place, cell) in row.items():
                same = column != "Statement" and "the same names" in cell and "Statement" in row
                for found in re.finditer(rf"`({NAME})`", row["Statement"][1] if same else cell):
                    named.add(found.group(1))
                    if column == "Statement" and re.fullmatch(r"[\s,]*", re.sub(r"`[^`]*`", "", cell)):
                        if found.group(1) not in self.tree.fields:
                            self.complain(place + found.start(), f"{found.group(1)}: no field of the demands")
                    elif column in ("Proved from", "Theorem", "The definition's list") and found.group(1) in self.tree.names - inside:
                        self.complain(place, f"{found.group(1)}: not in {', '.join(files)}")
            for file in files:
                if file in self.tree.defined and named <= self.tree.names and not named & self.tree.defined[file]:
                    self.complain(row["File"][0], f"{file}: has none of the names of its row")


def check(tree, name, text):
    """A document, with what it should cite and does not among what is wrong."""
    document = Document(tree, name, text)
    if name == "PROMISES":
        for kind, needed in (("field", tree.fields), ("promise", tree.promised)):
            document.wrong += [f"docs/{name}.md: {kind} {n} of {file} is not cited" for n, file in needed.items() if n not in document.cited["name"]]
    if document.of_edits:
        needed = {e for e in tree.edits if next((d for d, crates in APART.items() if e.startswith(crates)), "WRONG_PROGRAMS") == name}
        document.wrong += [f"docs/{name}.md: edit {e} is not cited" for e in sorted(needed - document.cited["edit"])]
    return document


def links(root):
    """The links of README.md and the documents that lead nowhere."""
    for path in [root / "README.md", *sorted(root.glob("docs/*.md"))]:
        for number, line in enumerate(path.read_text(encoding="utf-8").splitlines(), 1):
            yield from (f"{path.relative_to(root)}:{number}: {link}: leads nowhere" for link in LINK.findall(line) if not (path.parent / link).exists())


def self_test(tree, documents):
    """Plants mistakes: each citation misspelt; in each row of docs/PROMISES.md another file, and a statement that is no field; a field, a promise and an edit that no
    document cites. Returns the number of mistakes, and those that were not noticed."""
    planted = []
    for name, document in documents.items():
        for kind, place, text in document.citations:
            last = place + max(i for i, c in enumerate(text) if c.isalnum())
            planted.append((name, f"{kind} {text}, misspelt", last, last, "q"))
    for header, cells in documents["PROMISES"].rows():
        for column, (place, cell) in zip(header, cells):
            if column == "File":
                planted.append(("PROMISES", f"{cell.strip()}, another file", place, place + len(cell), "crates/instants/specs/Lib.antt"))
            if column == "Statement" and not re.search(r"\w", re.sub(r"`[^`]*`", "", cell)):
                planted.append(("PROMISES", f"{cell.strip()}, another name", place, place + len(cell), "`first_refusal`"))
    missed = []
    for name, words, start, end, instead in planted:
        document = documents[name]
        if not set(check(tree, name, document.text[:start] + instead + document.text[end:]).wrong) - set(document.wrong):
            missed.append(f"docs/{name}.md: {words}")
    tree.fields["planted-field"] = tree.promised["planted-promise"] = "planted"
    edits = [("WRONG_PROGRAMS", "planted/edit"), *((name, f"{crates[0]}planted") for name, crates in APART.items())]
    tree.edits |= {edit for _, edit in edits}
    for name, new in [("PROMISES", "planted-field"), ("PROMISES", "planted-promise"), *edits]:
        planted.append(new)
        if not any(new in words for words in check(tree, name, documents[name].text).wrong):
            missed.append(f"docs/{name}.md: {new}, not cited")
    return len(planted), missed


def main():
    roots = [a for a in sys.argv[1:] if a != "--self-test"]
    root = Path(roots[0]) if roots else Path(__file__).resolve().parent.parent
    tree = Tree(root)
    documents = {name: check(tree, name, (root / "docs" / f"{name}.md").read_text(encoding="utf-8")) for name in DOCUMENTS}
    wrong = [words for document in documents.values() for words in document.wrong] + list(links(root))
    for words in wrong:
        print(words)
    number = {kind: len(set().union(*(d.cited[kind] for d in documents.values()))) for kind in ("name", "path", "edit")}
    if not wrong:
        print(f"cited: {number['name']} names and {number['path']} paths in docs/, {len(tree.edits)} edits, all there")
    missed = []
    if "--self-test" in sys.argv:
        count, missed = self_test(tree, documents)
        for words in missed:
            print(f"cited: not noticed: {words}")
        if not missed:
            print(f"cited: {count} planted mistakes, all noticed")
    sys.exit(1 if wrong or missed else 0)


main()
