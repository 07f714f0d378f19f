#!/usr/bin/env python3
"""Tests the tool tools/rows (or what ROWS names), and that the library reads what it makes, through the example examples/nutation_rows.c.

Texts and bytes, good, refused and damaged, are held against a second implementation of the tool's rules (tests/rows_rules.py); the refusals of bytes against the library's
as well. Afterwards the same answers are held against rules with a mistake in them, each of which has to show up: a comparison that cannot fail shows nothing."""

import importlib.machinery
import importlib.util
import io
import os
import re
import resource
import stat
import subprocess
import sys
import tempfile
from concurrent.futures import ThreadPoolExecutor

sys.dont_write_bytecode = True
import example
from example import ROOT
from rows_rules import BYTES_MISTAKES, GOOD, RNG, ROW, TEXT_MISTAKES, damaged_bytes, damaged_text, of_bytes, of_text, packed, rows, tables_by_hand, text_of, texts_by_hand

TOOL = os.environ.get("ROWS", os.path.join(ROOT, "tools/rows"))
EXAMPLE = example.build("nutation_rows", flags=())
BUILT_IN = os.path.join(ROOT, "examples/built_in_rows.txt")
DEFINED = os.path.join(ROOT, "crates/rows/specs/BuiltIn.antt")


def fail(what, got, want):
    shown = [x if len(x) <= 300 else x[:300] + " .." for x in map(repr, (what, got, want))]
    print(f"rows: FAILED\n  input    {shown[0]}\n  gave     {shown[1]}\n  expected {shown[2]}", file=sys.stderr)
    sys.exit(1)


# Running the tool and the example.

def run(*arguments, data=b"", **more):
    return subprocess.run([TOOL, *arguments], input=data, stdout=subprocess.PIPE, stderr=subprocess.PIPE, timeout=30, check=False, **more)


def said_once(done, what, want):
    """A refusal: status 1, nothing on standard output, and one line on standard error with what is wanted in it."""
    if (done.returncode, done.stdout) != (1, b"") or done.stderr.count(b"\n") != 1 or want.encode() not in done.stderr or b"Traceback" in done.stderr:
        fail(what, (done.returncode, done.stdout, done.stderr), (1, b"", want))


def program_on_text(text):
    """The tool, as a program, on a text."""
    want, done = of_text(text), run("pack", data=text)
    if isinstance(want, int):
        end = "," if b", the end: " in done.stderr else ":"
        said_once(done, text, f": standard input: line {want}{end}")
    elif (done.returncode, done.stdout, done.stderr) != (0, want, b""):
        fail(text, done, want)


def program_on_bytes(data):
    """The tool, as a program, on bytes: text that it makes the same bytes of, or the refusal."""
    want, done = of_bytes(data), run("print", data=data)
    if want:
        said_once(done, data, f"rows: standard input: refused {want}, ")
    elif done.returncode != 0 or done.stderr or run("pack", data=done.stdout).stdout != data:
        fail(data, done, "text that packs to the same bytes")


def loaded():
    """The tool as a module, for many inputs."""
    loader = importlib.machinery.SourceFileLoader("rows_tool", TOOL)
    module = importlib.util.module_from_spec(importlib.util.spec_from_loader("rows_tool", loader))
    loader.exec_module(module)
    return module


def answer_to_text(module, text):
    try:
        return module.pack(io.BytesIO(text))
    except module.Refused as why:
        return int(str(why).removeprefix("line ").partition(":")[0].partition(",")[0])


def answer_to_bytes(module, data):
    try:
        text = module.unpack(io.BytesIO(data))
    except module.Refused as why:
        return int(str(why).removeprefix("refused ").partition(",")[0])
    if module.pack(io.BytesIO(text)) != data:
        fail(data, text, "text that packs to the same bytes")
    return 0


def example(path, day, micros):
    return subprocess.run([EXAMPLE, path, str(day), str(micros)], stdout=subprocess.PIPE, stderr=subprocess.PIPE, timeout=30, check=False)


def library_on_bytes(job):
    """The refusal number of the library, and what the two lines of the example say."""
    path, data, day, micros = job
    with open(path, "wb") as file:
        file.write(data)
    done = example(path, day, micros)
    lines = [line[15:] for line in done.stdout.decode().splitlines()]
    if len(lines) != 2 or done.stderr:
        fail(data, done, "two lines")
    refused = lines[0].startswith("refused ")
    if done.returncode != (1 if refused else 0):
        fail(data, done, "the status of the answer")
    return int(lines[0].split()[1].rstrip(":")) if refused else 0, lines


def expect(what, got, want):
    if got != want:
        fail(what, got, want)


def messages():
    """What is said of each refusal of a text, whose last line has it."""
    for line, why in (
        (b"50001 1 2", "3 fields, "),
        (b"50001 1 2 3 4", "5 fields, "),
        (b"5.0 1 2 3", "the day '5.0' is not a whole number"),
        (b"15019 1 2 3", "the day '15019' is outside 15020 to 88433"),
        (b"50000 1 2 3", "the day 50000 is not after 50000, "),
        (b"50001 1e2 2 3", "XC '1e2' is not a decimal number"),
        (b"50001 1 -1000.01 3", "XS '-1000.01' is outside -1000.00 to 1000.00"),
        (b"50001 1 2 0.00", "uncertainty '0.00' is outside 0.01 to 1000.00"),
        (b"50001 1.001 2 3", "XC '1.001' has more than two decimals"),
        (b"50001 1 2 3\r", "it ends with a carriage return"),
        (b"#" * 70000, "it is longer than 65536 bytes"),
    ):
        said_once(run("pack", data=b"# a\n" + ROW + line), line, f"rows: standard input: line 3: {why}")
    said_once(run("pack", data=b"".join(b"%d 1 2 3\n" % (20000 + i) for i in range(201))), "201 rows", "line 201: it is row 201, ")
    said_once(run("pack", data=ROW), "one row", "line 2, the end: 1 row, ")


def output_files(folder):
    """A file is replaced whole or stays as it is, with its permissions, and nothing is left beside it."""
    path, link, pipe = (os.path.join(folder, name) for name in ("table.rows", "link", "pipe"))

    def state():
        with open(path, "rb") as file:
            return file.read(), stat.S_IMODE(os.stat(path).st_mode), sorted(os.listdir(folder))

    expect("a new file", run("pack", "-o", path, data=GOOD, preexec_fn=lambda: os.umask(0o027)).returncode, 0)
    expect("a new file", state(), (of_text(GOOD), 0o640, ["table.rows"]))
    os.chmod(path, 0o604)
    os.symlink("table.rows", link)
    os.mkfifo(pipe)
    beside = ["link", "pipe", "table.rows"]
    other = ROW + b"50001 7 8 9\n"
    expect("a file replaced", run("pack", "-", "-o", link, data=other).returncode, 0)
    expect("a file replaced, by its link", (state(), os.path.islink(link)), ((of_text(other), 0o604, beside), True))
    expect("standard output by name", (run("pack", "-o", "-", data=GOOD, cwd=folder).stdout, sorted(os.listdir(folder))), (of_text(GOOD), beside))
    if os.geteuid() == 0:
        os.chown(path, 65534, 65533)
        expect("a file of others, replaced", run("pack", "-o", path, data=other).returncode, 0)
        expect("its owner and group", (os.stat(path).st_uid, os.stat(path).st_gid, state()), (65534, 65533, (of_text(other), 0o604, beside)))
    said_once(run("pack", "-o", path, data=GOOD + ROW), "a refused text", "line 3")
    said_once(run("print", "-o", path, data=GOOD), "refused bytes", "refused 21")
    said_once(run("pack", "-o", path, data=GOOD, preexec_fn=lambda: resource.setrlimit(resource.RLIMIT_FSIZE, (10, 10))), "a full disk", path)
    said_once(run("pack", "-o", pipe, data=GOOD), "a pipe", "it is not a file")
    said_once(run("pack", "-o", folder, data=GOOD), "a folder", "it is not a file")
    said_once(run("pack", "-o", os.path.join(folder, "none", "x"), data=GOOD), "a folder that is not there", "No such file")
    expect("files after refusals", state(), (of_text(other), 0o604, beside))
    expect("bytes of a named file", run("print", path).stdout, run("print", data=of_text(other)).stdout)
    expect("text to a file", (run("print", path, "-o", path).returncode, run("pack", path).stdout), (0, of_text(other)))
    said_once(run("pack", os.path.join(folder, "none")), "no file", "No such file")
    said_once(run("print", folder), "a folder", "Is a directory")
    with open("/dev/full", "wb") as full:
        done = subprocess.run([TOOL, "pack"], input=GOOD, stdout=full, stderr=subprocess.PIPE, check=False)
    expect("a full standard output", (done.returncode, done.stderr), (1, os.path.basename(TOOL).encode() + b": standard output: No space left on device\n"))
    for redirect, text in ((">&-", ": standard output: "), ("<&-", ": standard input: ")):
        done = subprocess.run(["sh", "-c", f'exec "$0" pack {redirect}', TOOL], stdin=subprocess.DEVNULL if "<" in redirect else None, input=None if "<" in redirect else GOOD,
                              stdout=subprocess.PIPE, stderr=subprocess.PIPE, check=False)
        said_once(done, redirect, text)
    done = subprocess.run(["sh", "-c", 'exec "$0" pack 2>&-', TOOL], input=ROW, stdout=subprocess.PIPE, check=False)
    expect("a closed standard error", (done.returncode, done.stdout), (1, b""))
    for arguments in ([], ["pack", "a", "b"], ["unpack"], ["print", "-x"], ["pack", "-o"], ["pac"]):
        done = run(*arguments)
        expect(arguments, (done.returncode, done.stdout, b"usage: " in done.stderr), (2, b"", True))
    done = run("--help")
    expect("--help", (done.returncode, b"usage: " in done.stdout, done.stderr), (0, True, b""))


def example_program(folder):
    """What the example says of files that are no rows, and of arguments that are none."""
    path = os.path.join(folder, "some")
    for data in (b"", b"\x00", b"\x00\x23\x01", packed(rows(200)) + b"\x00", packed(rows(200)) * 30):
        number, lines = library_on_bytes((path, data, 50000, 0))
        expect(data, (number, "cut or too long" in lines[0]), (21, True))
    for bad in (os.path.join(folder, "none"), folder):
        done = example(bad, 50000, 0)
        expect(bad, (done.returncode, done.stdout, done.stderr.count(b"\n")), (1, b"", 1))
    for arguments in ([], [path], [path, "50000"], [path, "50000", "0", "0"], [path, "", "0"], [path, "x", "0"], [path, "50000", "-1"], [path, "50000", " 1"], [path, "5e4", "0"],
                      [path, str(2**63), "0"], [path, "50000", str(2**64)], [path, "50000", ""], [path, "+50000", "0"], [path, "50000", "0x1"]):
        done = subprocess.run([EXAMPLE, *arguments], stdout=subprocess.PIPE, stderr=subprocess.PIPE, check=False)
        expect(arguments, (done.returncode, done.stdout, done.stderr), (2, b"", b"usage: nutation_rows FILE DAY MICROS\n"))
    for day, micros, number in ((-2**63, 2**64 - 1, 8), (15019, 0, 8), (88434, 0, 8), (50000, 86_400_000_000, 9), (88433, 86_399_999_999, 0)):
        expect((day, micros), library_on_bytes((path, packed(rows(5)), day, micros))[0], number)


def editions(folder, pool):
    """The built-in rows, packed by the tool, give what the built-in edition gives; with a hundredth more in the last row's XC they do not."""
    with open(DEFINED, encoding="utf-8") as file:
        defined = re.findall(r"\brow (\d+) \(([+−]) (\d+)\) \(([+−]) (\d+)\) (\d+)$", file.read(), re.M)
    data = run("pack", BUILT_IN).stdout
    expect("the built-in rows as text", data, packed([(int(day), int(a + xc), int(b + xs), int(u)) for day, a, xc, b, xs, u in ([x.replace("−", "-") for x in row] for row in defined)]))
    changed = data[:-9] + bytes([data[-9] + 1]) + data[-8:]
    instants = [(day, RNG.randrange(86_400_000_000)) for day in [45699, 45700, 56292, 56293, *(RNG.randint(15020, 88433) for _ in range(50)), *(RNG.randint(45700, 56293) for _ in range(50))]]
    jobs = [(os.path.join(folder, f"edition{i}"), table, *at) for i, (at, table) in enumerate((at, table) for at in instants for table in (data, changed))]
    answers = list(pool.map(library_on_bytes, jobs))
    for job, (number, lines) in zip(jobs[::2], answers[::2]):
        expect(("the built-in rows", *job[2:]), (number, lines[0]), (0, lines[1]))
    expect("a hundredth more", any(lines[0] != lines[1] for _, lines in answers[1::2]), True)
    return len(instants)


def main():
    module = loaded()
    by_hand = list(texts_by_hand())
    texts = by_hand + [text_of(rows()) for _ in range(300)] + [damaged_text() for _ in range(4000)]
    tables = [*tables_by_hand(), *(packed(rows()) for _ in range(50)), *(damaged_bytes() for _ in range(500))]

    with ThreadPoolExecutor(os.cpu_count()) as pool, tempfile.TemporaryDirectory() as folder:
        list(pool.map(program_on_text, by_hand[:40] + RNG.sample(texts[40:], 25)))
        list(pool.map(program_on_bytes, tables[:12] + RNG.sample(tables[12:], 12)))
        messages()
        output_files(tempfile.mkdtemp(dir=folder))
        example_program(folder)
        same = editions(folder, pool)
        library = [number for number, _ in pool.map(library_on_bytes, [(os.path.join(folder, f"table{i}"), data, 50000, 0) for i, data in enumerate(tables)])]

    text_answers = [answer_to_text(module, text) for text in texts]
    for text, got in zip(texts, text_answers):
        expect(text, got, of_text(text))
    for data, number in zip(tables, library):
        expect(data, (answer_to_bytes(module, data), number), (of_bytes(data),) * 2)

    for mistake in TEXT_MISTAKES:
        if all(of_text(text, mistake) == got for text, got in zip(texts, text_answers)):
            sys.exit(f"rows: this test does not notice the mistake '{mistake}' in texts")
    for mistake in BYTES_MISTAKES:
        if all(of_bytes(data, mistake) == got for data, got in zip(tables, library)):
            sys.exit(f"rows: this test does not notice the mistake '{mistake}' in bytes")
    refused = sum(isinstance(answer, int) for answer in text_answers)
    kinds = {number: library.count(number) for number in (0, 21, 22, 23, 24)}
    if min(*kinds.values(), refused, len(texts) - refused) < 20:
        sys.exit(f"rows: too few inputs of a kind: texts refused {refused}, bytes {kinds}")
    print(f"rows: {len(texts)} texts ({refused} refused) and {len(tables)} tables ({', '.join(f'{n} by {k}' for k, n in kinds.items() if k)} refused, as the library refuses them) compared, "
          f"the built-in rows at {same} instants")
    print(f"rows: {len(TEXT_MISTAKES) + len(BYTES_MISTAKES)} mistakes of the rules noticed")


main()
