#!/usr/bin/env python3
"""Runs the example compare_records on pairs of record files, good and refused ones, and compares its table, what it says and its
status with rules of our own. It is built with the sanitizers and the archive target/staticlib/libenfysgar.a, or what ARCHIVE names.

Afterwards the same answers are held against rules with a mistake in them, each of which has to show up."""

import datetime
import os
import signal
import struct
import subprocess
import sys
import tempfile
from concurrent.futures import ThreadPoolExecutor

import example
from example import ENVIRONMENT, first_difference, from_a_slow_pipe
from rescue_rules import DAY_MICROS, FIRST_DAY, HEAD, LAST_DAY, MARK, RECORD, RNG, damaged, sealed

PROGRAM = example.build("compare_records")
MOST = 2184 * RECORD
TROUBLE = 2
NOON = FIRST_DAY * DAY_MICROS + DAY_MICROS // 2

MEANING = {
    8: "a day outside 1900-01-01..2100-12-31", 9: "microseconds that are no time of day", 10: "clock words of different days",
    13: "a length field that is not 30", 14: "a version that is not 1", 15: "byte 3 of a record is not 0",
    16: "a damaged record: its words do not add up to 0", 27: "not a file of at most 2184 whole records of 30 bytes",
    28: "a record that is not later than the one before it",
}


# The rules.

def read(record, mistake=None):
    """The refusal of a record, its instant in microseconds, and its numbers."""
    length, version, zero, day, time, *numbers = struct.unpack(">HBBIQiiiH", record)
    micros, mark = time % MARK, time // MARK
    tests = [(14, version != 1), (13, length != RECORD), (15, zero != 0), (16, sum(struct.unpack(">15H", record)) % 65536 != 0),
             (8, not FIRST_DAY <= day <= LAST_DAY), (9, micros >= DAY_MICROS), (10, mark != day % 8)]
    if mistake == "13 before 14":
        tests[:2] = tests[1::-1]
    return next((number for number, wrong in tests if wrong), 0), day * DAY_MICROS + micros, tuple(numbers[:3])


def refusal(data, mistake=None):
    """The refusal of a file and the record that is to blame, counted from 1; (0, None) for a file that is accepted."""
    most = MOST + RECORD if mistake == "a record too many" else MOST
    if len(data) % RECORD and mistake != "a rest ignored" or len(data) > most:
        return 27, None
    found = [read(data[at:at + RECORD], mistake) for at in range(0, len(data) - RECORD + 1, RECORD)]
    unread = [(number, i + 1) for i, (number, _, _) in enumerate(found) if number]
    falling = [(28, i + 1) for i in range(1, len(found))
               if found[i][1] < found[i - 1][1] or found[i][1] == found[i - 1][1] and mistake != "equal instants"]
    if mistake == "the last that does not read":
        unread.reverse()
    return next(iter(falling + unread if mistake == "the order first" else unread + falling), (0, None))


def differences(first, second, mistake=None):
    """Side, instant and differences of each entry."""
    a, b = ({at: numbers for _, at, numbers in (read(data[i:i + RECORD]) for i in range(0, len(data), RECORD))} for data in (first, second))
    found = []
    for at in sorted(a.keys() | b.keys()):
        if at in a and at in b:
            by = tuple(y - x for x, y in zip(a[at], b[at]))
            if mistake == "first minus second":
                by = tuple(-x for x in by)
            if mistake == "32 bits":
                by = tuple((x + 2**31) % 2**32 - 2**31 for x in by)
            if any(by[:1] if mistake == "UT1 alone" else by) or mistake == "equal numbers":
                found.append((3, at, by))
        else:
            found.append(((1 if at in a else 2) if mistake != "sides exchanged" else (2 if at in a else 1), at, None))
    if mistake == "file by file":
        found.sort(key=lambda entry: entry[0] == 2)
    return found


def line(side, at, by, mistake=None):
    day, micros = divmod(at, DAY_MICROS)
    date = datetime.date(1858, 11, 17) + datetime.timedelta(days=day + (mistake == "the next day"))
    second, part = divmod(micros, 1_000_000)
    time = datetime.time(second // 3600, second // 60 % 60, second % 60, part if mistake != "whole seconds" else 0)
    numbers = [str(x) for x in by] if by else ["0" if mistake == "zeros" else "-"] * 3
    return (f"{date.isoformat()} {time.isoformat('microseconds')} {['first only', 'second only', 'both'][side - 1]:<11} "
            f"{numbers[0]:>11} {numbers[1]:>14} {numbers[2]:>17}\n")


def expected(names, first, second, mistake=None):
    """Status, standard output and standard error."""
    said = []
    for name, data in zip(names, (first, second)):
        number, record = refusal(data, mistake)
        place = f" (record {record - (mistake == 'records from 0')}, at byte {RECORD * (record - 1)})" if record else ""
        if number:
            said.append(f"compare_records: {name}: refused {number}: {MEANING[number]}{place}\n")
    if mistake == "one refusal alone":
        said = said[:1]
    if said:
        return (1 if mistake == "refused is different" else TROUBLE), b"", "".join(said).encode()
    found = differences(first[:len(first) // RECORD * RECORD], second[:len(second) // RECORD * RECORD], mistake)
    if not found:
        return 0, b"no difference\n", b""
    sides = [sum(entry[0] == side for entry in found) for side in (1, 2, 3)]
    text = [f"{'date and time (TT)':<26} in file     {'UT1, ns':>11} day length, ps rate, 1e-20 rad/s\n", *(line(*entry, mistake) for entry in found),
            f"{len(found)} instant{'s'[len(found) == 1:]}: {sides[0]} in the first file only, {sides[1]} in the second only, {sides[2]} in both; "
            "differences are second minus first\n"]
    return (0 if mistake == "status 0" else 1), "".join(text).encode(), b""


MISTAKES = ["13 before 14", "a record too many", "a rest ignored", "equal instants", "the last that does not read", "the order first",
            "first minus second", "32 bits", "UT1 alone", "equal numbers", "sides exchanged", "file by file", "the next day", "whole seconds", "zeros",
            "records from 0", "one refusal alone", "refused is different", "status 0"]


# The files.

def record(at, numbers):
    day, micros = divmod(at, DAY_MICROS)
    return sealed(HEAD + struct.pack(">IQiii", day, micros + day % 8 * MARK, *numbers))


def number():
    return RNG.choice([-2**31, 2**31 - 1, 0, RNG.randint(-3, 3), RNG.randint(-2**31, 2**31 - 1)])


def pair(count, only=1, changed=1, equal=1):
    """Two accepted files with some of so many instants in one file only, in both with other numbers, and in both; the weights say how many."""
    at = RNG.choice([FIRST_DAY, RNG.randint(FIRST_DAY, LAST_DAY - 8000)]) * DAY_MICROS - 1
    files = [], []
    for _ in range(count):
        at += RNG.choice([1, DAY_MICROS - at % DAY_MICROS, DAY_MICROS, 2**32, RNG.randint(1, 3 * DAY_MICROS)])
        numbers = number(), number(), number()
        kind = RNG.choices(["only", "changed", "equal"], [only, changed, equal])[0]
        if kind == "only":
            RNG.choice(files).append(record(at, numbers))
            continue
        files[0].append(record(at, numbers))
        if kind == "changed":
            places = RNG.choice([(0,), (1,), (2,), (0, 1, 2)])
            numbers = tuple(number() if i in places else x for i, x in enumerate(numbers))
        files[1].append(record(at, numbers))
    return tuple(b"".join(file) for file in files)


def spoilt(data):
    """A file with something wrong."""
    parts = [data[at:at + RECORD] for at in range(0, len(data), RECORD)]
    i, kind = RNG.randrange(len(parts)), RNG.randrange(6)
    if kind == 0:
        return data[:-RNG.randrange(1, RECORD)]
    if kind == 1:
        parts.insert(i, parts[i])
    if kind == 2:
        parts.append(parts[RNG.randrange(len(parts) - 1)])
    if kind in (3, 5):
        parts[i] = damaged()[:RECORD].ljust(RECORD, b"\1")
    if kind in (4, 5):
        wrong = bytearray(parts[RNG.randrange(len(parts))])
        wrong[RNG.randrange(4)] ^= 1 << RNG.randrange(8)
        parts[RNG.randrange(len(parts))] = bytes(wrong)
    return b"".join(parts)


def pairs():
    first, last = record(FIRST_DAY * DAY_MICROS, (0, 0, 0)), record((LAST_DAY + 1) * DAY_MICROS - 1, (1, 2, 3))
    wrong = first[:2] + b"\2" + first[3:]
    yield from [(b"", b""), (b"", first), (first, b""), (first, first), (first, last), (first + last, last), (first + last, first), (last + first, first),
                (first, first + first), (first[:29], b"\0"), (wrong + last[:3], wrong), (first + wrong, last + first), (first[:1] + b"\1\2" + first[3:], b"")]
    yield record(NOON, (-2**31, 2**31 - 1, 5)), record(NOON, (2**31 - 1, -2**31, 5))
    for count in (1, 2, 3, 5, 9, 30):
        for weights in ((1, 1, 1), (1, 0, 0), (0, 1, 0), (0, 0, 1), (1, 1, 30)):
            for _ in range(4):
                yield pair(count, *weights)
    for _ in range(160):
        one, two = pair(RNG.randint(6, 14), 1, 3, 4)
        yield (spoilt(one) if RNG.randrange(3) else one), (spoilt(two) if RNG.randrange(3) else two)
    long = pair(2186, 0, 1, 3)
    for length in (MOST - RECORD, MOST, MOST + 1, MOST + RECORD, 65_536, 2186 * RECORD):
        yield long[0][:length], long[1][:MOST]
        yield long[0][:MOST], long[1][:length]
    yield tuple(file[:MOST] for file in pair(4600, 1, 0, 0))
    yield long[0][:MOST], bytes(400_000)
    yield long[0][:MOST - RECORD] + long[0][-40 * RECORD:][:RECORD], long[1][:MOST - RECORD] + long[1][:RECORD]


# The program.

def fail(what, got, want):
    example.fail("compare_records", what, got, want)


def run(arguments, **more):
    return subprocess.run([PROGRAM, *arguments], stdout=more.pop("stdout", subprocess.PIPE), stderr=subprocess.PIPE, timeout=60, env=ENVIRONMENT,
                          check=False, **more)


def compare(what, names, files, done):
    status, *texts = expected(names, *files)
    what += f", files of {len(files[0])} and {len(files[1])} bytes"
    for name, got, want in zip(("output", "error"), (done.stdout, done.stderr), texts):
        if got != want:
            at = first_difference(got, want)
            fail(f"{what}, from byte {at} of standard {name} on", got[at:], want[at:])
    if done.returncode != status:
        fail(what, b"status %d" % done.returncode, b"status %d" % status)


def answer(files):
    """What it prints and says of two files, one of which may be standard input; compared with the rules."""
    with tempfile.TemporaryDirectory() as folder:
        names = [os.path.join(folder, name) for name in ("first", "second")]
        for name, data in zip(names, files):
            with open(name, "wb") as file:
                file.write(data)
        done = run(names)
        compare("two files", names, files, done)
        for i in (0, 1):
            arguments, called = list(names), list(names)
            arguments[i], called[i] = "-", "standard input"
            compare("standard input", called, files, run(arguments, input=files[i]))
        compare("a file twice", [names[0]] * 2, [files[0]] * 2, run([names[0]] * 2))
    return names, (done.returncode, done.stdout, done.stderr)


def from_pipes(folder):
    """Standard input that comes in parts, and is longer than what is read of it."""
    first = os.path.join(folder, "first")
    count = 0
    for files in (pair(2184, 0, 1, 4), pair(700, 1, 1, 1), (pair(3)[0], bytes(300_000))):
        with open(first, "wb") as file:
            file.write(files[0])
        for name, called in (("-", "standard input"), ("/dev/stdin", "/dev/stdin")):
            compare("a slow pipe", [first, called], files, from_a_slow_pipe([PROGRAM, first, name], files[1], RNG))
            count += 1
    return count


def shell(redirect, arguments):
    return subprocess.run(["sh", "-c", f'exec "$0" "$@" {redirect}', PROGRAM, *arguments], stdout=subprocess.PIPE, stderr=subprocess.PIPE, env=ENVIRONMENT,
                          check=False)


def troubles(folder):
    """Wrong usage, what cannot be read and what cannot be written: a status, a message, and nothing on standard output."""
    missing, one, two = (os.path.join(folder, name) for name in ("missing", "one", "two"))
    for name, data in zip((one, two), pair(2184, 1, 1, 1)):
        with open(name, "wb") as file:
            file.write(data)
    wrong = [(["usage"], []), (["usage"], [one]), (["usage"], [one, two, one]), (["usage"], ["-", "-"]), ([missing], [missing, one]),
             ([missing], [one, missing]), ([missing, folder], [missing, folder]), ([folder], [one, folder]), ([missing], [missing, "-"])]
    cases = [(said, run(arguments, stdin=subprocess.DEVNULL)) for said, arguments in wrong]
    cases += [(["standard input"], shell("<&-", ["-", one])), (["standard input"], shell("<&-", [one, "-"])),
              (["standard input"], shell("<" + folder, [one, "-"]))]
    # a table that cannot be written, the one line for equal files, and both outputs at once
    for redirect in (">/dev/full", ">&-"):
        cases += [(["standard output"], shell(redirect, arguments)) for arguments in ([one, two], [one, one])]
    for said, done in cases:
        starts = ["usage: compare_records FILE FILE" if name == "usage" else f"compare_records: {name}: " for name in said]
        lines = done.stderr.decode().splitlines()
        if done.returncode != TROUBLE or done.stdout or len(lines) != len(starts) or not all(map(str.startswith, lines, starts)):
            fail(f"trouble with {said}, status {done.returncode}", done.stdout + done.stderr, "\n".join(starts).encode())
    for redirect in (">&- 2>&-", ">/dev/full 2>/dev/full"):
        if shell(redirect, [one, two]).returncode != TROUBLE:
            fail(redirect, b"another status", b"status 2")
    return len(cases) + 2 + unread_pipe(one, two)


def unread_pipe(one, two):
    """A pipe that nobody reads: a failed write where SIGPIPE is ignored, else the end by it."""
    for ignored in (True, False):
        reading, writing = os.pipe()
        os.close(reading)
        done = run([one, two], stdout=writing, restore_signals=not ignored)
        os.close(writing)
        want = TROUBLE if ignored else -signal.SIGPIPE
        if done.returncode != want or ignored and not done.stderr.startswith(b"compare_records: standard output: "):
            fail("a pipe that nobody reads", b"status %d, " % done.returncode + done.stderr, b"status %d" % want)
    return 2


def main():
    files = list(pairs())
    with ThreadPoolExecutor(os.cpu_count()) as pool:
        answers = list(pool.map(answer, files))
    with tempfile.TemporaryDirectory() as folder:
        piped, wrong = from_pipes(folder), troubles(folder)
    for mistake in MISTAKES:
        if all(expected(names, *given, mistake) == got for given, (names, got) in zip(files, answers)):
            sys.exit(f"compare_records: this test does not notice the mistake '{mistake}'")
    statuses = [got[0] for _, got in answers]
    entries = sum(max(got[1].count(b"\n") - 2, 0) for _, got in answers)
    seen = {refusal(data)[0] for given in files for data in given}
    if seen != {0, *MEANING}:
        sys.exit(f"compare_records: of the refusals {sorted(MEANING)} only {sorted(seen)} came up")
    print(f"compare_records: {len(files)} pairs of files compared ({statuses.count(0)} without difference, {statuses.count(1)} with {entries} entries, "
          f"{statuses.count(TROUBLE)} refused), {piped} slow pipes, {wrong} troubles")
    print(f"compare_records: {len(MISTAKES)} mistakes of the rules noticed")


main()
