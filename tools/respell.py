#!/usr/bin/env python3
"""Brings the repository's own definitions and laws to snake case: dayMicros becomes day_micros, there-and-back there_and_back.

usage: respell.py [--names FILE] [--list] [ROOT]    (ROOT is the top of the repository, here if it is left out)

Run once, after the kit's port.py. A name turns if a file of crates/*/specs or crates/*/proofs declares it and it begins with a small letter;
types, records, facts and their constructors keep theirs, as does what Rattle's library declares. It turns whole words: in .antt and .rt files
everywhere but in prose, in documents only between backticks. --names writes the table; with a FILE that is there, the table is read.
"""

import glob
import os
import re
import sys

WORD = re.compile(r"[^\s(){}\[\].;,@\"«»`:|]+")
DECLARED = re.compile(r"^\s*(?:(?:pattern|unfoldable|abbrev|pub) )*([^\s(){}.;,@\"«»:]+)(?: \{[^}]*\})? :(?:\s|$)", re.M)
# laws that would fall together with a definition, and were turned before: they get the ending that the library gives them
LAWS = ["entry_length", "in_both", "is_digit", "read_back"]


def snake(name):
    name = name.replace("-", "_")
    name = re.sub(r"([a-z0-9])([A-Z])", r"\1_\2", name)
    return re.sub(r"[A-Z](?![A-Z])", lambda m: m[0].lower(), name)


def read(path):
    with open(path, encoding="utf-8", newline="") as f:
        return f.read()


def without_prose(text, comment):
    """The parts of a text: (is code, part). Comments are prose but for what is between backticks."""
    out, at = [], 0
    for m in re.finditer(re.escape(comment) + r"[^\n]*", text):
        if comment == "--" and m.start() and text[m.start() - 1] not in " \n\t":
            continue
        out.append((True, text[at : m.start()]))
        for k, part in enumerate(m[0].split("`")):
            out.append((k % 2 == 1, ("`" if k else "") + part))
        at = m.end()
    out.append((True, text[at:]))
    return out


def own_names(root):
    found, kept = set(), set()
    for path in glob.glob(os.path.join(root, "crates/*/specs/*.antt")) + glob.glob(os.path.join(root, "crates/*/proofs/*.antt")):
        text = re.sub(r"(?m)(?:^|(?<=\s))--[^\n]*", "", read(path))
        found.update(DECLARED.findall(text))
        # a `use` of what is not ours
        for line in re.findall(r"(?m)^\s*(?:pub )?use ([^\n]*)", text):
            if not line.startswith("Rattle.") or line.startswith("Rattle.std.") or line.startswith("Rattle.core."):
                kept.update(WORD.findall(line))
    return {n for n in found if re.match(r"[a-z]", n) and re.search(r"[-A-Z]", n)} - {"use"}, kept


def turn_words(text, table):
    return WORD.sub(lambda m: word(m[0], table), text)


def word(it, table):
    if it in table:
        return table[it]
    # a name in an operator's or a quote's company, as 'name' or name'
    core = it.strip("'*,")
    return it.replace(core, table[core]) if core in table else it


def main(argv):
    names = None
    if "--names" in argv:
        k = argv.index("--names")
        names = argv[k + 1]
        argv = argv[:k] + argv[k + 2 :]
    only_list = "--list" in argv
    root = next((a for a in argv if not a.startswith("--")), ".")
    if names and os.path.exists(names):
        table = dict(line.split("\t") for line in read(names).splitlines() if line)
    else:
        own, kept = own_names(root)
        table = {n: snake(n) for n in sorted(own) if n not in kept}
        # a law that would have its function's name
        for n in [n for n in table if "-" in n and any(m != n and table[m] == table[n] for m in table)]:
            table[n] += "_lem"
        for n in sorted(own & kept):
            print("left: the library has it too:", n)
        if names:
            with open(names, "w", encoding="utf-8") as f:
                f.writelines(f"{a}\t{b}\n" for a, b in table.items())
    if only_list:
        for a, b in table.items():
            print(a, b)
        return 0
    turned = 0
    before = re.compile(r"(?<![\w.'-])(" + "|".join(LAWS) + r")(?![\w.'-])")
    for path in sorted(glob.glob(os.path.join(root, "crates/*/proofs/**/*.antt"), recursive=True)):
        text = read(path)
        new = "".join(before.sub(r"\1_lem", part) if code else part for code, part in without_prose(text, "--"))
        if new != text:
            with open(path, "w", encoding="utf-8", newline="") as f:
                f.write(new)
    for path in sorted(glob.glob(os.path.join(root, "crates/*/**/*.antt"), recursive=True) + glob.glob(os.path.join(root, "crates/*/src/*.rt"))):
        text = read(path)
        new = "".join(turn_words(part, table) if code else part for code, part in without_prose(text, "//" if path.endswith(".rt") else "--"))
        if new != text:
            turned += 1
            with open(path, "w", encoding="utf-8", newline="") as f:
                f.write(new)
    # documents also have names that port.py has turned
    declared = set()
    for path in glob.glob(os.path.join(root, "crates/*/specs/*.antt")) + glob.glob(os.path.join(root, "crates/*/proofs/*.antt")):
        declared.update(DECLARED.findall(read(path)))

    def of_document(m):
        new = word(m[0], table)
        if new == m[0] and re.match(r"[a-z]", new) and re.search(r"[-A-Z]", new):
            law = snake(new) + "_lem"
            new = law if "-" in new and law in declared else snake(new) if snake(new) in declared else new
        return new

    for path in sorted(glob.glob(os.path.join(root, "docs/*.md")) + glob.glob(os.path.join(root, "*.md"))):
        text = read(path)
        parts = text.split("`")
        new = "`".join(WORD.sub(of_document, p) if k % 2 else p for k, p in enumerate(parts))
        if new != text:
            turned += 1
            with open(path, "w", encoding="utf-8", newline="") as f:
                f.write(new)
    print("turned:", len(table), "names,", turned, "files")
    return 0


if __name__ == "__main__":
    sys.exit(main(sys.argv[1:]))
