#!/usr/bin/env python3
"""No loop and no recursion on the way from a day number to its date.

    tools/direct.py [ROOT] [--self-test]              reads crates/*/src
    tools/direct.py --compiled [ROOT] [--self-test]   reads what the compiler made of the library crates (crates/*/out, after `make archive`)

Starts from the functions that take a day to its date (STARTS) and follows every call. A loop, a function that reaches itself, and a call that leads to no function of ours
are printed with the way to them, and the status is 1. In the source the functions to start from have to be those whose contract cites a definition of DEFINITIONS. The
source is read by the few forms of the language that we use; where it has another (an import of everything, a trait, a path that has two meanings), that is printed too.
What a function does not call by name counts as called as well: the calls of its closures, functions that are given to others, methods of ours by their name alone, and
where it has a `?`, each `from` of ours that `?` may ask. Of the library the source is not read; in the compiled form its functions are followed like ours.

With --self-test loops, recursions and other changes are planted in a copy, one by one, and each has to be answered as it should be."""

import json
import re
import shutil
import sys
import tempfile
from functools import cache
from pathlib import Path

DEFINITIONS = {"date_of", "date_after"}
EXPORTED = ["enfys_date_of_day", "enfys_day_to_year", "enfys_day_to_month", "enfys_day_to_day_of_month", "enfys_day_refusal"]
LIBRARY_STARTS = {"calendar::date_after", "calendar::date_of"}
STARTS = LIBRARY_STARTS | {f"enfysgar::calendar_calls::{name}" for name in EXPORTED}

LOOPS = {"while", "loop", "for"}
NO_CALLS = LOOPS | {"if", "else", "match", "return", "break", "let", "in", "as", "mut", "ref"}  # words that may stand before a parenthesis
# the language's own functions and methods; `from` of a number takes another number, and what is ours besides is followed
NUMBERS = {f"{kind}{bits}" for kind in "ui" for bits in (8, 16, 32, 64, "size")}
BUILT_IN = {f"{number}::{f}" for number in NUMBERS for f in ("count_ones", "leading_zeros", "trailing_zeros", "from")}
BUILT_IN |= {f"f{bits}::{f}" for bits in (32, 64) for f in ("to_bits", "from_bits")} | {"Ok", "Err", "Some", ".len", ".ok_or", ".map_or"}
TRAITS = {"From", "Iterator", "Model"}  # those that we implement: `from` is found by its type, the others' functions as methods
TOKEN = re.compile(
    r"""(?P<left_out>\s+|//[^\n]*|/\*.*?\*/)
    |b?r(?P<marks>\#*)".*?"(?P=marks)|b?"(?:\\.|[^"\\])*"|b'(?:\\.|[^'\\])+'|'[^\W\d]\w*  # bytes, and labels
    |(?P<name>[^\W\d]\w*)|::|\d\w*|.""",
    re.X | re.S,
)
CLOSES = {"(": ")", "[": "]", "{": "}"}


class Unread(Exception):
    """A form of the language that is not read here."""


class File:
    """The words of a source file, where each begins, and for each bracket the place of its other half."""

    def __init__(self, root, path):
        self.path, self.text, self.shown = path, path.read_text(encoding="utf-8"), path.relative_to(root).as_posix()
        found = list(TOKEN.finditer(self.text))
        if any(t.group().startswith("/*") and "/*" in t.group()[2:] for t in found):
            raise Unread(f"{self.shown}: a comment in a comment")
        found = [t for t in found if t.lastgroup != "left_out"]
        self.words = [t.group() for t in found] + [""]
        self.names = [t.lastgroup == "name" for t in found] + [False]
        self.starts = [t.start() for t in found] + [len(self.text)]
        self.other, opened = {}, []
        for place, word in enumerate(self.words):
            if word in CLOSES:
                opened.append(place)
            elif word in CLOSES.values():
                if not opened or CLOSES[self.words[opened[-1]]] != word:
                    raise Unread(f"{self.where(place)}: a bracket without its other half")
                self.other[opened.pop()] = place
        if opened:
            raise Unread(f"{self.where(opened[-1])}: a bracket without its other half")

    def where(self, place):
        return f"{self.shown}:{self.text.count(chr(10), 0, self.starts[place]) + 1}"

    def to(self, place, ends):
        """The place of the first of some words from a place on, groups in brackets passed over."""
        while self.words[place] not in ends:
            if not self.words[place]:
                raise Unread(f"{self.shown}: {' or '.join(ends)} is missing at the end")
            place = self.other.get(place, place) + 1
        return place


class Function:
    """A function: its file, its module and its type if it has one, the words of its contract, its text up to the body, and the places of the body."""

    def __init__(self, file, module, of_type, contract, head, body):
        self.file, self.module, self.of_type, self.contract, self.head, self.body = file, module, of_type, contract, head, body


class Program:
    """The functions of all crates by their paths, and what each name means in each module and type."""

    def __init__(self, root):
        self.root = root
        self.functions, self.methods, self.of_types = {}, {}, []
        self.froms = {}  # by type: the paths of its functions `from`
        self.values = set()  # what is written like a call and makes a struct or an enum
        self.meaning = {}  # by module or type: name -> path, or for an import the list of names that it is written as
        self.crates = re.findall(r"^(\w+)(?: staticlib)?:", (root / "crates.txt").read_text(encoding="utf-8"), re.M)
        for crate in self.crates:
            for name in ("lib.rt", "main.rt"):
                if (root / "crates" / crate / "src" / name).exists():
                    self.module((crate,), root / "crates" / crate / "src" / name)
        for file, at, trait, path, group in self.of_types:  # when all names are known
            of_type = self.type_of(at, path)
            if of_type is None or (of_type[0] in NUMBERS and not trait):
                raise Unread(f"{file.where(group)}: {'::'.join(path)} is no type of ours")
            self.items(file, at, group + 1, file.other[group], of_type, trait)

    def module(self, at, path):
        file = File(self.root, path)
        self.items(file, at, 0, len(file.words) - 1)

    def name(self, file, at, name, meaning):
        if self.meaning.setdefault(at, {}).setdefault(name, meaning) != meaning or at + (name,) in self.functions:
            raise Unread(f"{file.shown}: {name} has two meanings")

    def type_of(self, module, path, of_type=None):
        """The path of a type of ours, or of a number; None for another."""
        found = self.find(module, path, of_type)
        return found or (tuple(path) if len(path) == 1 and path[0] in NUMBERS else None)

    def named(self, file, place):
        """The names of a path, the place after it, and its words with what stands in < and >, which may be types, lifetimes and constants."""
        words, names, start = file.words, [], place
        while file.names[place]:
            names, place = names + [words[place]], place + 1
            if words[place] == "<":
                place = self.parameters(file, place)
            if words[place] != "::":
                return names, place, "".join(words[start:place]).replace("::", ".")
            place += 1
        raise Unread(f"{file.where(place)}: {words[place]} is not read here")

    def parameters(self, file, place):
        """The place after < .. >."""
        depth = 0
        while True:
            word = file.words[place]
            depth += (word == "<") - (word == ">" and file.words[place - 1] != "-")
            place = file.other.get(place, place) + 1
            if not word or depth == 0:
                return place

    def implemented(self, file, at, place, group):
        """The functions of a type, or those of a trait for it, which are read when all names are known."""
        trait = ""
        if file.words[place] == "<":
            place = self.parameters(file, place)
        path, place, words = self.named(file, place)
        if file.words[place] == "for":
            if path[-1] not in TRAITS:
                raise Unread(f"{file.where(group)}: impl of {path[-1]} is not read here")
            trait = words if path[-1] == "From" else path[-1]
            path, place, _ = self.named(file, place + 1)
        if place != group:
            raise Unread(f"{file.where(place)}: {file.words[place]} is not read here")
        self.of_types.append((file, at, trait, path, group))

    def items(self, file, at, place, end, of_type=None, trait=""):
        """The items of a module, or the functions of a type."""
        words = file.words
        while place < end:
            word, after = words[place], words[place + 1]
            if word == "#" and after == "!":
                place = file.other[place + 2]
            elif word == "#" or (word == "pub" and after == "("):
                place = file.other[place + 1]
            elif word in ("const", "static") and after != "fn":
                self.name(file, of_type or at, after, (of_type or at) + (after,))
                place = file.to(place, [";"])
            elif word == "ghost" or (word == "type" and trait):
                place = file.to(place, [";"])
            elif word == "use":
                place = self.imports(file, at, place + 1, [])
            elif word == "mod":
                self.name(file, at, after, at + (after,))
                if words[place + 2] == "{":
                    self.items(file, at + (after,), place + 3, file.other[place + 2])
                else:
                    folder = file.path.parent if file.path.stem in ("lib", "main", "mod") else file.path.with_suffix("")
                    options = [folder / f"{after}.rt", folder / after / "mod.rt"]
                    self.module(at + (after,), next((o for o in options if o.exists()), options[0]))
                place = file.to(place, [";", "{"])
                place = file.other.get(place, place)
            elif word == "impl":
                group = file.to(place, ["{"])
                self.implemented(file, at, place + 1, group)
                place = file.other[group]
            elif word in ("struct", "enum"):
                self.name(file, at, after, at + (after,))
                if words[place + 2] == "(":
                    self.values.add(at + (after,))
                place = file.to(place, [";", "{"])
                last = file.other.get(place, place)
                while word == "enum" and place < last - 1:
                    if words[place] in ("{", ","):
                        self.name(file, at + (after,), words[place + 1], at + (after, words[place + 1]))
                        self.values.add(at + (after, words[place + 1]))
                    place = file.other.get(place + 1, place + 1)
                place = last
            elif word == "fn":
                place = self.function(file, at, place + 1, of_type, trait)
            elif word not in ("pub", "const", "extern", '"C"'):
                raise Unread(f"{file.where(place)}: {word} is not read here")
            place += 1

    def imports(self, file, at, place, path):
        """An import, or one of a group; the place where it ends."""
        words, outer = file.words, path
        while words[place] not in ("}", ",", ";"):
            if words[place] == "{":
                end = file.other[place]
                while place < end:
                    place = self.imports(file, at, place + 1, path)
                return place + 1
            if words[place] == "*":
                raise Unread(f"{file.where(place)}: an import of everything")
            if words[place] == "as":
                self.name(file, at, words[place + 1], path)
                return place + 2
            if words[place] != "::":
                path = path + [words[place]]
            place += 1
        if path != outer:
            self.name(file, at, path[-1], path)
        return place

    def function(self, file, at, place, of_type, trait):
        """A function: what stands before its body is its parameters and its contract. The place where it ends."""
        name, contract, start = file.words[place], set(), file.starts[place]
        inside = of_type + (trait,) if trait.startswith("From") else of_type or at
        key = inside + (name,)
        self.name(file, inside, name, key)
        place = file.to(place, ["{"])
        while {"requires", "ensures", "ghost"} & set(file.words[place - 2 : place]):
            contract.update(file.words[place : file.other[place]])
            place = file.to(file.other[place] + 1, ["{"])
        self.functions[key] = Function(file, at, of_type, contract, file.text[start : file.starts[place] + 1], range(place + 1, file.other[place]))
        if inside != (of_type or at):
            self.froms.setdefault(of_type, []).append(key)
        elif of_type:
            self.methods.setdefault(name, []).append(key)
        return file.other[place]

    def find(self, module, path, of_type=None):
        """The path of what some names with :: between them mean in a module, and in a function of a type; None if they mean nothing of ours."""
        first, *rest = path
        if first == "crate":
            return self.follow(module[:1], rest)
        if first in ("self", "super"):
            outer = module[:-1] if first == "super" else module
            return self.find(outer, rest) if rest[:1] == ["super"] else self.follow(outer, rest)
        if first == "Self" and of_type:
            return self.follow(of_type, rest)
        if first in self.meaning.get(module, {}):
            return self.follow(module, path)
        return self.follow((first,), rest) if first in self.crates else None

    def follow(self, at, path):
        """The same from a module or a type on; an import is gone through."""
        for name in path:
            meaning = self.meaning.get(at, {}).get(name)
            if isinstance(meaning, list):
                first, *rest = meaning
                meaning = self.find(at, meaning) if first != name else self.follow((first,), rest) if first in self.crates else None
            if meaning is None:
                return None
            at = meaning
        return at

    def calls(self, function):
        """For each call of a body its place, its words, and the paths of the functions that it may call; None where it is not followed."""
        words, names = function.file.words, function.file.names
        own = set(re.findall(r"(\w+)\s*:(?!:)", function.head)) | {words[p + 1 + (words[p + 1] == "mut")] for p in function.body if words[p] == "let"}
        for place in function.body:
            word, after = words[place], words[place + 1]
            is_name = names[place] and word not in NO_CALLS
            if word == "fn" or (word in (")", "]") and after == "(") or (word == "::" and after == "<") or (is_name and after == "!" and words[place + 2] in CLOSES):
                yield place, word + after, None
            if word == "?":
                here = {*words[function.body[0] : place], *re.findall(r"\w+", function.head)}
                yield place, word, [key for of_type, keys in self.froms.items() if of_type[0] not in NUMBERS or of_type[0] in here for key in keys]
            if not is_name or after in ("::", ":"):
                continue
            first = place
            while words[first - 1] == "::":
                first -= 2
            path = words[first : place + 1 : 2]
            if words[first - 1] == ".":
                shown, found = "." + word, self.methods.get(word)
                if after != "(":
                    continue  # a field
            else:
                key = self.find(function.module, path, function.of_type)
                shown, found = "::".join(path), [key] if key in self.functions else [] if key in self.values else None
                if word == "from" and len(path) > 1:
                    found = self.froms.get(self.type_of(function.module, path[:-1], function.of_type), found)
                if after != "(" and (len(path) == 1 or key) and not found:
                    continue  # a value, a type or a word of the language
                if path[0] in own and len(path) == 1:  # the function's own: a value, or what is not followed where it is called
                    if after != "(":
                        continue
                    found = None
            if shown in BUILT_IN and path[0] not in self.meaning.get(function.module, {}):
                found = found or []
            yield place, shown, found

    def get(self, name):
        """The loops and the calls of a function, each with its place; None if there is no such function."""
        function = self.functions.get(tuple(name.split("::")))
        if function is None:
            return None
        file = function.file
        loops = [(file.where(p), file.words[p]) for p in function.body if file.words[p] in LOOPS]
        return loops, [(file.where(p), words, found and ["::".join(k) for k in found]) for p, words, found in self.calls(function)]

    def starts(self):
        return {"::".join(key) for key, function in self.functions.items() if DEFINITIONS & function.contract}


@cache
def library(crate):
    """What the compiler made of a crate of the kit."""
    path = Path(shutil.which("rt") or "bin/rt").resolve().parent.parent / f"rlibs/{crate}.rlib/toolchain/mir.json"
    return dict(json.loads(path.read_text(encoding="utf-8"))) if path.exists() else {}


class Compiled:
    """The functions of what the compiler made, and of the kit's crates."""

    def __init__(self, programs):
        self.made = dict(pair for program in programs for pair in program)

    def get(self, name):
        """The loops and the calls of a function; None if there is no such function."""
        made = self.made.get(name) or library(name.split("::")[0]).get(name)
        if made is None:
            return None
        words = [word if isinstance(word, dict) else {word: None} for word in made["body"]]
        impls = {impl["name"]: impl["methods"] for impl in made["generics"]["impls"]}
        callees = [callee for word in words for callee in self.callees(word, impls)]
        return [("compiled", "loop") for word in words if "Loop" in word], [("compiled", callee or "call", callee and [callee]) for callee in callees]

    def callees(self, word, impls):
        """The functions that a word calls; None for what is not followed. A function that is given an impl may call each method of it."""
        if "Call" not in word:
            return [None] if "CallV" in word else []
        head = word["Call"][0]
        if "Fn" in head:
            return [head["Fn"][0], *self.given(head["Fn"][1].get("dicts", []), impls)]
        if "Method" in head and "Given" in head["Method"][0]:
            return self.given(head["Method"][2].get("dicts", []), impls)  # one of those that whoever calls this function gave
        return [None]

    def given(self, dicts, impls):
        for one in dicts:
            if "Impl" in one:
                yield from impls.get(one["Impl"][0], [None])
                yield from self.given(one["Impl"][2], impls)
            elif "Given" not in one:
                yield None


def walk(functions, starts):
    """The functions that are reached from some, and what is wrong with them."""
    reached, wrong = [], []

    def visit(name, way):
        reached.append(name)
        way = [*way, name]
        loops, calls = functions.get(name)
        wrong.extend(f"{where}: a loop, `{word}`: {' > '.join(way)}" for where, word in loops)
        for where, words, found in calls:
            for callee in [None] if found is None else found:
                if callee is None or functions.get(callee) is None:
                    wrong.append(f"{where}: `{words}` is no function of ours: {' > '.join(way)}")
                elif callee in way:
                    wrong.append(f"{where}: a recursion: {' > '.join([*way, callee])}")
                elif callee not in reached:
                    visit(callee, way)

    for name in sorted(starts):
        if name not in reached:
            visit(name, [])
    return reached, wrong


def check_source(root):
    try:
        program = Program(root)
    except Unread as form:
        return [], [str(form)]
    starts = program.starts()
    wrong = [f"{name}: no such function, or its contract cites none of {', '.join(sorted(DEFINITIONS))}" for name in sorted(STARTS - starts)]
    wrong += [f"{name}: its contract cites {' or '.join(sorted(DEFINITIONS))}, and it is not in STARTS of tools/direct.py" for name in sorted(starts - STARTS)]
    reached, more = walk(program, starts)
    return reached, wrong + more


def check_compiled(programs):
    functions = Compiled(programs)
    reached, wrong = walk(functions, LIBRARY_STARTS & set(functions.made))
    return reached, wrong + [f"{name}: no such function" for name in sorted(LIBRARY_STARTS - set(functions.made))]


COUNTED = "pub fn counted(n: u64) -> u64 { let mut k = n; while 365 < k { k = k - 365; } k }"
NEITHER = """// while true {}
/* loop {} */ let of = b"for i in 0..9 {}"; let or = br#"" loop {} "#; let date_of = 1; let k = u64::count_ones(3); if !(k == 3) {}"""
DEEP = "calendar::date_after > calendar::year_day > instants::counted"


def plants(program, reached):
    """What is planted in the source: in words, what has to be said of it ("" for nothing), and the changes: file, text, text instead (of no text: at the end)."""

    def first(name, words):
        """Words as the first of a function's body."""
        function = program.functions[tuple(name.split("::"))]
        return function.file.path, function.head, function.head + words

    def last(crate, words):
        return program.root / "crates" / crate / "src" / "lib.rt", "", "\n" + words + "\n"

    def below(call, *added):
        """A call in year_day, which date_after calls, so that what is called is two calls below; counting by a loop stands in instants."""
        return [first("calendar::year_day", f"let k = {call};"), last("instants", COUNTED), *(last("calendar", words) for words in added)]

    for name in reached:
        itself = ("Self::" if program.functions[tuple(name.split("::"))].of_type else "") + name.rsplit("::", 1)[-1]
        for loop in ("while true {}", "loop {}", "for i in 0..9 {}", "'a: loop {}"):
            yield f"{loop} in {name}", "a loop", [first(name, loop)]
        yield f"{name} calls itself", f"{name} > {name}", [first(name, f"{itself}(0);")]
        for call in ("std::num::wrapping_add_u64(1, 2);", f"({itself})(0);", f"{itself}::<>(0);", "counted!(0);"):
            yield f"{call} in {name}", "is no function of ours", [first(name, call)]
        yield f"neither a loop nor a recursion in {name}", "", [first(name, NEITHER)]
        if name in STARTS:
            path, head, _ = first(name, "")
            yield f"no {name}", f"{name}: no such function", [(path, head, "other" + head)]
            uncited = head
            for definition in DEFINITIONS:
                uncited = uncited.replace(definition, "other")
            yield f"another contract of {name}", f"{name}: no such function, or its contract", [(path, head, uncited)]
    yield "a loop two calls deep", DEEP, below("instants::counted(n)")
    yield "the same by another name", DEEP, below("years_of(n)", "use instants::{counted as years_of, moment,};")
    yield "the same by another name of its crate", DEEP, below("u64::counted(n)", "use instants as u64;")
    yield "the same in a module", "a loop", below("inner::counted(n)", f"mod inner {{ {COUNTED} }}")
    yield "the same in a module that is named as a crate", "a loop", below("counted(n)", f"mod clock {{ {COUNTED} }}", "use clock::counted;")
    yield "the same of a type", "a loop", below("YearDay::counted(n)", f"impl YearDay {{ {COUNTED} }}")
    yield "the same as a method", "a loop", below("p.counted()", f"impl YearDay {{ {COUNTED} }}")
    yield "a type of that name too", "counted has two meanings", below("counted(n)", "use instants::counted;", "struct counted {}")
    yield "an import of everything", "an import of everything", below("counted(n)", "use instants::*;")
    held = "struct Held<'a, const N: u64> { s: &'a [u8] }"
    yield "types with lifetimes", "a loop", below("p.counted()", held, f"impl<'a, const N: u64> Held<'a, N> {{ {COUNTED} }}")
    yield "types that are not ours", "Held is no type of ours", below("p.counted()", f"impl<'a> Held<'a> {{ {COUNTED} }}")
    yield "a number as a type of ours", "u64 is no type of ours", below("p.counted()", f"impl u64 {{ {COUNTED} }}")
    yield "the same of an iterator", "a loop", below("p.next()", held, "impl<'a> Iterator for Held<'a> { type Item = u64; fn next(&mut self) -> u64 { instants::counted(1) } }")
    yield "the same in a closure", DEEP, below("Some(n).map_or(0, |k| instants::counted(k))")
    yield "the same given by its name", DEEP, below("Some(n).map_or(0, instants::counted)")
    yield "the same given by one name", "a loop", below("Some(n).map_or(0, counted)", "use instants::counted;")
    yield "the same of a generic function", "a loop", below("of_any::of_any(n, n)", "mod of_any { fn of_any<T: Drop, const N: u64>(t: T, n: u64) -> u64 { instants::counted(n) } }")
    yield "a static, and a value of that name", "", below("{ let counted = COUNTED; counted + n }", "static COUNTED: u64 = 1;", "use instants::counted;")
    yield "a closure that is called", "`counted` is no function of ours", below("{ let counted = |k: u64| k; counted(n) }", "use instants::counted;")
    yield "a method that takes a closure", "`.map` is no function of ours", below("Some(n).map(|k| k)")
    yield "a function of the library given by its name", "`std::other` is no function of ours", below("Some(n).map_or(0, std::other)")
    yield "the same by `?`", "calendar::date_of > instants::refusal::Refusal::From<YearDay>::from", below("n", "impl From<YearDay> for Refusal { fn from(p: YearDay) -> Refusal { while true {} } }")
    yield "the same by `from`", "calendar::leap > u64::From<YearDay>::from", below("n", "impl From<YearDay> for u64 { fn from(p: YearDay) -> u64 { while true {} } }")
    yield "`from` given by its name", "calendar::year_day > u16::From<YearDay>::from", below("p.map_or(0, u16::from)", "impl From<YearDay> for u16 { fn from(p: YearDay) -> u16 { while true {} } }")
    yield "an operator of ours", "impl of Add is not read here", below("n", "impl std::ops::Add for YearDay { fn add(self, p: YearDay) -> YearDay { while true {} } }")
    yield "a trait of ours", "trait is not read here", below("p.counted()", "trait Counted { fn counted(self) -> u64; }")
    yield "a type by another name", "type is not read here", below("n", "type Other = YearDay;")
    yield "a comment in a comment", "a comment in a comment", [first("calendar::year_day", '/* /* */ b" */ while true {} let b = b"x";')]
    yield "a recursion of two functions", "a recursion: calendar::date_after > calendar::twelfths", [first("calendar::twelfths", "crate::date_after(e);")]
    yield "a recursion of two crates", "a recursion: calendar::date_of > instants::day_index", [first("instants::day_index", "calendar::date_of(day);")]
    unlisted = "fn year_of(day: i64) -> u64 ensures { result ≡ year_of (date_of day) } { 0 }"
    yield "a function that is not listed", "calendar::year_of: its contract", [last("calendar", unlisted)]
    yield "a constant one", "calendar::year_of: its contract", [last("calendar", f"pub const {unlisted}")]
    yield "a loop that no date needs", "", [first("calendar::years", "while true {}"), last("instants", COUNTED)]


def planted_in_source(root, reached):
    """Each plant, and whether what was said of it is what has to be."""
    with tempfile.TemporaryDirectory() as folder:
        for source in (root / "crates.txt", *root.glob("crates/*/src/**/*.rt")):
            place = Path(folder) / source.relative_to(root)
            place.parent.mkdir(parents=True, exist_ok=True)
            place.write_bytes(source.read_bytes())
        for what, said, changes in plants(Program(root), reached):
            copies = {source: source.read_text(encoding="utf-8") for source, _, _ in changes}
            for source, old, new in changes:
                copies[source] = copies[source].replace(old, new, 1) if old else copies[source] + new
            for source, text in copies.items():
                (Path(folder) / source.relative_to(root)).write_text(text, encoding="utf-8")
            wrong = check_source(Path(folder))[1]
            yield what, any(said in words for words in wrong) if said else not wrong
            for source in copies:
                (Path(folder) / source.relative_to(root)).write_bytes(source.read_bytes())


def planted_in_compiled(programs, reached):
    ours = Compiled(programs).made
    programs = [*programs, [[name, library(name.split("::")[0])[name]] for name in reached if name not in ours]]

    def changed(name, words, other=None, methods=None):
        """The programs with words before a function's body, or with another name of it, or with an impl that has these methods."""

        def one(at, made):
            generics = {**made["generics"], "impls": [{**impl, "methods": methods or impl["methods"]} for impl in made["generics"]["impls"]]}
            return [other or at, {**made, "body": words + made["body"], "generics": generics}]

        return [[one(at, made) if at == name else [at, made] for at, made in program] for program in programs]

    for name in reached:
        for said, words in (
            ("a loop", ["Seq", "Block", "Loop"]),
            ("a recursion", ["Seq", {"Call": [{"Fn": [name, {}]}, [], {}]}]),
            ("is no function of ours", ["Seq", {"Call": [{"Fn": ["core::other", {}]}, [], {}]}]),
            ("is no function of ours", ["Seq", {"Call": [{"Opd": {}}, [], {}]}]),
            ("is no function of ours", ["Seq", {"CallV": [{}, {}, [], {}]}]),
            ("is no function of ours", ["Seq", {"Call": [{"Fn": ["calendar::leap", {"dicts": [{"Impl": ["other", [], []]}]}]}, [], {}]}]),
        ):
            yield f"{words} in {name}", any(said in wrong for wrong in check_compiled(changed(name, words))[1])
        if name in LIBRARY_STARTS:
            yield f"no {name}", f"{name}: no such function" in check_compiled(changed(name, [], "other"))[1]
    itself = "calendar::date_of"
    yield f"{itself} by an impl that it gives", any("a recursion" in wrong for wrong in check_compiled(changed(itself, [], methods=[itself]))[1])


def main():
    arguments = [a for a in sys.argv[1:] if not a.startswith("--")]
    root = Path(arguments[0]) if arguments else Path(__file__).resolve().parent.parent
    of_compiled = "--compiled" in sys.argv
    if of_compiled:
        found = sorted(root.glob("crates/*/out/rlib/*.rlib/toolchain/mir.json"))
        given, check, planted = [json.loads(path.read_text(encoding="utf-8")) for path in found], check_compiled, planted_in_compiled
    else:
        given, check, planted = root, check_source, planted_in_source
    reached, wrong = check(given)
    answers = dict(planted(given, reached)) if "--self-test" in sys.argv and not wrong else {}
    wrong += [f"planted, and not answered right: {what}" for what, right in answers.items() if not right]
    for words in wrong:
        print(f"direct: {words}")
    if not wrong:
        starts = LIBRARY_STARTS if of_compiled else STARTS
        of = "compiled, " if of_compiled else ""
        print(f"direct: {of}{len(starts)} functions from a day to its date and the {len(reached) - len(starts)} that they reach, no loop and no recursion")
    if answers and not wrong:
        print(f"direct: {len(answers)} planted changes, each answered right")
    sys.exit(1 if wrong else 0)


main()
