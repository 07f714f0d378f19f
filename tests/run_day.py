#!/usr/bin/env python3
"""Feeds the program run_day some thousand lines, good, refused and damaged, and compares what it
writes with a second implementation of its rule. The program is target/bin/run_day or what PROGRAM
names; the corrections come from the library's calls, through tests/expected_runs.c.

Afterwards the same answers are held against rules with a mistake in them, each of which has to
show up: a comparison that cannot fail shows nothing."""

import datetime
import os
import random
import re
import subprocess
import sys
import time
from concurrent.futures import ThreadPoolExecutor

HERE = os.path.dirname(os.path.abspath(__file__))
ROOT = os.path.dirname(HERE)
PROGRAM = os.environ.get("PROGRAM", os.path.join(ROOT, "target/bin/run_day"))
ARCHIVE = os.environ.get("ARCHIVE", os.path.join(ROOT, "target/staticlib/libenfysgar.a"))
BUILD = os.path.join(os.environ.get("BUILD", os.path.join(ROOT, "build")), "tests")
BAD = b"bad line\n"
NOT_WRITTEN = b"run_day: the answer could not be written\n"
EPOCH = datetime.date(1858, 11, 17)  # day number 0
LAST_DAY = 88433
DAY_MICROS = 86_400_000_000
RNG = random.Random(20260725)


# The rule.

def parse(data, pattern=rb"(\d{1,10}) (\d{1,10}) (\d{1,10}) (\d{1,10}) (\d{1,10})\n"):
    """The five numbers of the first line, or None for a bad line."""
    found = re.match(pattern, data)
    return [int(x) for x in found.groups()] if found else None


def refusal(year, month, day, count, step, mistake=None):
    """The refusal number, and the day number of the start."""
    if not 1900 <= year <= (2101 if mistake == "year 2101" else 2100):
        return 1, None
    if not 1 <= month <= 12:
        return 2, None
    try:
        start = (datetime.date(year, month, day) - EPOCH).days
    except (ValueError, OverflowError):
        return 3, None
    if not 1 <= count <= (97 if mistake == "count 97" else 96):
        return (18, start) if mistake == "step before count" and not 1 <= step <= 86400 else (17, start)
    if not 1 <= step <= 86400:
        return 18, start
    if start + (count - 1) * step // 86400 > LAST_DAY and mistake != "last instant not tested":
        return 8, start
    return 0, start


def expected(data, runs, mistake=None):
    """What the program has to write; `runs` has the records of each accepted line."""
    if mistake == "eleven digits":
        numbers = parse(data, rb"(\d{1,11}) (\d{1,11}) (\d{1,11}) (\d{1,11}) (\d{1,11})\n")
    elif mistake == "any white space":
        numbers = parse(data, rb"(\d{1,10})\s+(\d{1,10})\s+(\d{1,10})\s+(\d{1,10})\s+(\d{1,10})\n")
    elif mistake == "the end for a newline":
        numbers = parse(data + b"\n")
    elif mistake == "no leading zeros":
        numbers = parse(data) if re.match(rb"([1-9]\d*|0)( ([1-9]\d*|0))*\n", data) else None
    else:
        numbers = parse(data)
    if numbers is None:
        return BAD
    number, start = refusal(*numbers, mistake)
    if number:
        return b"refused %d\n" % number
    run = runs.get((start, numbers[3], numbers[4]), b"a run that no correct rule has")
    if mistake == "first corrections in all":
        run = b"".join(run[k:k + 16] + run[16:28] + run[k + 28:k + 30] for k in range(0, len(run), 30))
    return run


MISTAKES = ["year 2101", "count 97", "step before count", "last instant not tested", "eleven digits",
            "any white space", "the end for a newline", "no leading zeros", "first corrections in all"]


def expected_runs(inputs):
    """The records of every accepted line, from the library by way of tests/expected_runs.c."""
    helper = os.path.join(BUILD, "expected_runs")
    os.makedirs(BUILD, exist_ok=True)
    sources = [os.path.join(HERE, name) for name in ("expected_runs.c", "model_time.c", "model_record.c")]
    subprocess.run(["cc", "-std=c11", "-O2", "-Wall", "-Wextra", "-Werror", "-o", helper, *sources, ARCHIVE, "-lm"],
                   check=True)
    wanted = set()
    for data in inputs:
        numbers = parse(data)
        if numbers:
            number, start = refusal(*numbers)
            if number == 0:
                wanted.add((start, numbers[3], numbers[4]))
    wanted = sorted(wanted)
    text = "".join(f"{start} {count} {step * 1_000_000}\n" for start, count, step in wanted)
    output = subprocess.run([helper], input=text.encode(), stdout=subprocess.PIPE, check=True).stdout
    runs, at = {}, 0
    for key in wanted:
        runs[key] = output[at:at + 30 * key[1]]
        at += 30 * key[1]
    assert at == len(output)
    return runs


# The inputs.

def date():
    kind = RNG.randrange(6)
    if kind == 0:
        return RNG.choice([(1900, 1, 1), (2100, 12, 31), (2000, 2, 29), (2007, 12, 31), (2100, 12, 30), (1999, 12, 31)])
    if kind == 1:  # near the end of the range
        return datetime.date.fromordinal(EPOCH.toordinal() + LAST_DAY - RNG.randrange(97)).timetuple()[:3]
    return datetime.date.fromordinal(EPOCH.toordinal() + RNG.randint(15020, LAST_DAY)).timetuple()[:3]


def good():
    count = RNG.choice([1, 2, 95, 96, RNG.randint(1, 96)])
    step = RNG.choice([1, 900, 3600, 86399, 86400, RNG.randint(1, 86400)])
    return [*date(), count, step]


def line(numbers):
    return b" ".join(b"%d" % x for x in numbers) + b"\n"


def with_zeros():
    return b" ".join((b"%d" % x).rjust(RNG.randint(1, 10), b"0") for x in good()) + b"\n"


def refused():
    numbers = good()
    for _ in range(RNG.randint(1, 3)):
        place = RNG.randrange(5)
        numbers[place] = RNG.choice([
            [0, 1, 1899, 2101, 9999999999], [0, 13, 14, 4294967297], [0, 29, 30, 31, 32, 4294967297],
            [0, 97, 98, 256, 257, 4294967297], [0, 86401, 86400000000 % 10**10, 4294968196, 9999999999]][place])
    return line(numbers)


def damaged():
    data = bytearray(RNG.choice([line(good()), with_zeros(), refused()]))
    for _ in range(RNG.choice([1, 1, 1, 2, 3])):
        at = RNG.randrange(len(data))
        kind = RNG.randrange(5)
        byte = RNG.choice([9, 10, 13, 32, 32, 43, 45, 46, 47, 48, 57, 58, 0, 255, 0xB2, RNG.randrange(256)])
        if kind == 0:
            data[at] = byte
        elif kind == 1:
            data.insert(at, byte)
        elif kind == 2 and len(data) > 1:
            del data[at]
        elif kind == 3:
            del data[at:]
            data.append(10)
        else:
            data[at:at] = data[at:at + RNG.randint(1, 6)]
    return bytes(data)


BY_HAND = [
    b"2007 12 31 96 900\n", b"2007 12 31 97 900\n", b"2007 12 31 0 0\n", b"2007 12 31 1 0\n", b"2100 12 31 96 900\n",
    b"2100 12 31 2 86400\n", b"2100 12 30 2 86400\n", b"2100 12 31 1 86400\n", b"1900 02 29 1 1\n", b"2100 2 29 1 1\n",
    b"1899 12 31 1 1\n", b"2101 1 1 1 1\n", b"2000 13 1 1 1\n", b"2000 0 1 1 1\n", b"2000 2 30 1 1\n", b"2000 2 29 1 1\n",
    b"0000002000 0000000002 0000000029 0000000001 0000000001\n", b"00000002000 2 29 1 1\n", b"2000 2 29 1 00000000001\n",
    b"9999999999 9999999999 9999999999 9999999999 9999999999\n", b"99999999999 1 1 1 1\n", b"0 0 0 0 0\n",
    b"", b"\n", b"\n\n", b" \n", b"2000\n", b"2000 2 29 1\n", b"2000 2 29 1 1", b"2000 2 29 1 1 \n", b" 2000 2 29 1 1\n",
    b"2000  2 29 1 1\n", b"2000\t2 29 1 1\n", b"2000 2 29 1 1\r\n", b"2000 2 29 1 1 1\n", b"+2000 2 29 1 1\n",
    b"2000 2 29 1 -1\n", b"2000 2 29 1 1.0\n", b"2000,2,29,1,1\n", b"2000 2 29 1 1\n2000 2 29 1 1\n", b"\n2000 2 29 1 1\n",
    b"2000 2 29 1 1\n\xff\x00\x01", b"2000 2 29 1 1\nx", b"\x00\n", b"2000 2 29 1 1\x00\n", b"2000 2 29 1\n1\n", b"a b c d e\n",
    b"0x7d0 2 29 1 1\n", b"2000 2 29 1 1e0\n", b"\xef\xbb\xbf2000 2 29 1 1\n", "\uff12000 2 29 1 1\n".encode(),
    b"1" * 54 + b"\n", b"1" * 55 + b"\n", b"1" * 63 + b"\n", b"1" * 64 + b"\n", b"1" * 65 + b"\n", b"2000 2 29 1 1" + b" " * 60 + b"\n",
    b"0" * 100_000 + b"2000 2 29 1 1\n", b" " * 1_000_000, b"1" * 5_000_000 + b"\n", bytes(range(256)) * 4000,
    b"2000 2 29 1 1\n" + bytes(range(256)) * 4000,
]


def inputs():
    found = list(BY_HAND)
    found += [line(good()) for _ in range(900)]
    found += [with_zeros() for _ in range(300)]
    found += [refused() for _ in range(900)]
    found += [damaged() for _ in range(1500)]
    found += [RNG.randbytes(RNG.choice([1, 10, 55, 56, 100, 5000])) for _ in range(200)]
    found += [line(good()) + RNG.randbytes(RNG.randint(1, 100)) for _ in range(200)]
    found += [line(good())[:-1] for _ in range(100)]
    return found


# Running the program.

def answer(data):
    done = subprocess.run([PROGRAM], input=data, stdout=subprocess.PIPE, stderr=subprocess.PIPE, timeout=20, check=False)
    if done.returncode != 0 or done.stderr:
        fail(data, done.stdout, b"status 0 and nothing on standard error",
             f" (status {done.returncode}, standard error {done.stderr!r})")
    return done.stdout


def answer_of_pipe(parts):
    """The answer to parts written one after the other to a pipe that stays open."""
    with subprocess.Popen([PROGRAM], stdin=subprocess.PIPE, stdout=subprocess.PIPE) as program:
        try:
            for part in parts:
                program.stdin.write(part)
                program.stdin.flush()
                time.sleep(0.002)
        except BrokenPipeError:
            pass
        try:
            program.wait(10)
        except subprocess.TimeoutExpired:
            program.kill()
            fail(b"".join(parts), b"nothing within ten seconds", b"an answer", " (the pipe was left open)")
        output = program.stdout.read()
        try:
            program.stdin.close()
        except BrokenPipeError:
            pass
        return output


def answer_without_input():
    """The answer where standard input is closed, and where it is empty."""
    closed = subprocess.run(["sh", "-c", 'exec "$0" <&-', PROGRAM], stdout=subprocess.PIPE, check=False).stdout
    with open(os.devnull, "rb") as nothing:
        return closed, subprocess.run([PROGRAM], stdin=nothing, stdout=subprocess.PIPE, check=False).stdout


def answers_not_written(data):
    """The status and standard error where standard output is full, is closed, or is a pipe that nobody reads, with SIGPIPE ignored and not; and what they should be, which is one thing."""
    for redirect in (">/dev/full", ">&-"):
        yield subprocess.run(["sh", "-c", f'exec "$0" {redirect}', PROGRAM], input=data, stderr=subprocess.PIPE, check=False), (0, NOT_WRITTEN)
    for ignored in (True, False):
        reading, writing = os.pipe()
        os.close(reading)
        # Python itself ignores SIGPIPE, and hands that on unless signals are restored
        done = subprocess.run([PROGRAM], input=data, stdout=writing, stderr=subprocess.PIPE, restore_signals=not ignored, check=False)
        os.close(writing)
        yield done, (0, NOT_WRITTEN)


def fail(data, got, want, more=""):
    shown = [x if len(x) <= 120 else x[:120] + b" .. (%d bytes)" % len(x) for x in (data, got, want)]
    print(f"run_day: FAILED\n  input    {shown[0]!r}\n  gave     {shown[1]!r}{more}\n  expected {shown[2]!r}", file=sys.stderr)
    os._exit(1)


def main():
    if not os.access(PROGRAM, os.X_OK):
        sys.exit(f"run_day: no program at {PROGRAM}: run 'make program' first")
    all_inputs = inputs()
    runs = expected_runs(all_inputs)
    with ThreadPoolExecutor(os.cpu_count()) as pool:
        outputs = list(pool.map(answer, all_inputs))
    kinds = {}
    for data, got in zip(all_inputs, outputs):
        want = expected(data, runs)
        if got != want:
            fail(data, got, want)
        kind = want.decode().strip() if want[:1] in b"br" else "a run"
        kinds[kind] = kinds.get(kind, 0) + 1

    day = b"2007 12 31 96 900\n"
    for parts in ([day], [bytes([x]) for x in day], [day + b"more"], [b"\n"], [b"x" * 5000], [b"2007 12 ", b"31 97 900\n2007"]):
        want = expected(b"".join(parts), runs)
        got = answer_of_pipe(parts)
        if got != want:
            fail(b"".join(parts), got, want, " (from a pipe left open)")
    for got in answer_without_input():
        if got != BAD:
            fail(b"no input", got, BAD)
    unwritten = 0
    for data in (day, b"2007 12 31 97 900\n", b"\n"):
        for done, (status, said) in answers_not_written(data):
            unwritten += 1
            if done.returncode != status or done.stderr != said:
                fail(data, done.stderr, said, f" on standard error, status {done.returncode} where {status} should be (output that cannot be written)")

    for mistake in MISTAKES:
        if all(expected(data, runs, mistake) == got for data, got in zip(all_inputs, outputs)):
            sys.exit(f"run_day: this test does not notice the mistake '{mistake}'")
    few = [kind for kind in ["a run", "bad line", *(f"refused {n}" for n in (1, 2, 3, 8, 17, 18))] if kinds.get(kind, 0) < 20]
    if few:
        sys.exit(f"run_day: too few inputs are answered by {few}")
    print(f"run_day: {len(all_inputs) + 8} inputs compared "
          f"({', '.join(f'{n} {kind}' for kind, n in sorted(kinds.items()))}), {unwritten} answers that could not be written")
    print(f"run_day: {len(MISTAKES)} mistakes of the rule noticed")


main()
