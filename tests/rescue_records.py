#!/usr/bin/env python3
"""Feeds the program rescue_records some six hundred inputs, of no byte to more than it takes, and compares what it writes to standard
output and to standard error with a walk of our own (tests/rescue_rules.py). The program is target/bin/rescue_records or what
PROGRAM names.

Afterwards the same answers are held against rules with a mistake in them, each of which has to show up."""

import os
import subprocess
import sys
import time
from concurrent.futures import ThreadPoolExecutor

import rescue_rules
from rescue_rules import MOST, RECORD, RNG, TEXT_MISTAKES, WALK_MISTAKES, damaged, overlapping, pieces, record, records, text, walk

ROOT = os.path.dirname(os.path.dirname(os.path.abspath(__file__)))
PROGRAM = os.environ.get("PROGRAM", os.path.join(ROOT, "target/bin/rescue_records"))
REFUSED = b"refused 25\n"
NOT_WRITTEN = b"rescue_records: the answer could not be written\n"
NOT_READ = b"rescue_records: the input was not read to its end\n"


def expected(data, mistake=None):
    """Standard output and standard error."""
    most = {"one byte fewer": MOST - 1, "one byte more": MOST + 1}.get(mistake, MOST)
    if len(data) > most:
        return (walk(data[:MOST])[0] if mistake == "records beside a refusal" else b""), REFUSED
    kept, ranges = walk(data, mistake)
    return kept, text(kept, ranges, mistake)


MISTAKES = [*WALK_MISTAKES, *TEXT_MISTAKES, "one byte fewer", "one byte more", "records beside a refusal"]


def inputs():
    found = [b"", b"\x00", b"\n", record(), record()[:29], record() + b"\x00", b"\x00" + record(), records(2), records(96)]
    found += [record() + bytes(gap) + record() for gap in range(41)]
    found += [record()[:cut] + record() + record()[cut:] for cut in range(31)]
    found += [bytes(size) for size in range(0, 100, 7)] + [RNG.randbytes(size) for size in range(0, 100, 9)]
    found += [overlapping() + tail for tail in (b"", b"\x00", record()) for _ in range(10)]
    found += [record() + damaged() + record() for _ in range(60)]
    found += [pieces(RNG.choice([60, 300, 2000])) for _ in range(300)]
    found += [pieces(30_000, good=20), pieces(60_000, good=60)]
    # the longest input, longer ones, and lengths around those that the program may read at once
    alternating = b"".join(b"\x00" + record() for _ in range(2200))
    for size in (4095, 4096, 4097, 32_768, MOST - 31, MOST - 30, MOST - 16, MOST - 1, MOST, MOST + 1, MOST + 2, MOST + 30, 2 * MOST, 200_000):
        found += [bytes(size), RNG.randbytes(size), records(size // RECORD + 1)[:size], pieces(size)[:size]]
        found += [bytes(max(size - RECORD, 0)) + record(), (alternating * 3)[:size]]
    found += [bytes(3_000_000), b"\xff" * (1 << 20)]
    return found


# Running the program.

def fail(data, got, want, more=""):
    shown = [x if len(x) <= 160 else x[:160] + b" .. (%d bytes)" % len(x) for x in (data, got, want)]
    print(f"rescue_records: FAILED{more}\n  input    {shown[0]!r}\n  gave     {shown[1]!r}\n  expected {shown[2]!r}", file=sys.stderr)
    os._exit(1)


def compare(data, status, got, more=""):
    want = expected(data)
    if status != 0:
        fail(data, got[1], want[1], f" (status {status}){more}")
    for place, name in ((0, "output"), (1, "error")):
        if got[place] != want[place]:
            at = next((i for i, (x, y) in enumerate(zip(got[place], want[place])) if x != y), 0)
            fail(data, got[place][at:], want[place][at:], f" (standard {name}, shown from byte {at} on){more}")


def answer(data):
    done = subprocess.run([PROGRAM], input=data, stdout=subprocess.PIPE, stderr=subprocess.PIPE, timeout=60, check=False)
    compare(data, done.returncode, (done.stdout, done.stderr))
    return done.stdout, done.stderr


def slow_pipes():
    """Inputs that come in parts, the last of them some time before the pipe is closed."""
    mixed, clean = pieces(3000), records(500)
    cases = [[bytes([x]) for x in record()], [record()[:7], record()[7:] + b"\x00"], [mixed[at:at + 511] for at in range(0, len(mixed), 511)],
             [clean[at:at + 4000] for at in range(0, len(clean), 4000)], [b"", record()], [bytes(MOST), b"\x00"], [bytes(MOST - 1), b"\x00"]]
    for parts in cases:
        data = b"".join(parts)
        with subprocess.Popen([PROGRAM], stdin=subprocess.PIPE, stdout=subprocess.PIPE, stderr=subprocess.PIPE) as program:
            try:
                for part in parts:
                    program.stdin.write(part)
                    program.stdin.flush()
                    time.sleep(0.002)
                time.sleep(0.01)
                program.stdin.close()
            except BrokenPipeError:
                pass
            got = program.stdout.read(), program.stderr.read()
            compare(data, program.wait(20), got, " (from a slow pipe)")
    return len(cases)


def no_input():
    """Standard input that cannot be read, which is said first: it is closed, or a folder; or that is empty, or a file that can be sought in."""
    for redirect in ("<&-", "</"):
        done = subprocess.run(["sh", "-c", f'exec "$0" {redirect}', PROGRAM], stdout=subprocess.PIPE, stderr=subprocess.PIPE, check=False)
        if not done.stderr.startswith(NOT_READ):
            fail(b"", done.stderr, NOT_READ, f" ({redirect})")
        compare(b"", done.returncode, (done.stdout, done.stderr[len(NOT_READ):]), f" ({redirect})")
    with open(os.devnull, "rb") as nothing, open(__file__, "rb") as this:
        for file in (nothing, this):
            done = subprocess.run([PROGRAM], stdin=file, stdout=subprocess.PIPE, stderr=subprocess.PIPE, check=False)
            with open(file.name, "rb") as again:
                compare(again.read(), done.returncode, (done.stdout, done.stderr), f" ({file.name})")
    return 4


def said_so(data, said):
    """Whether all lines are there, and behind them that the answer could not be written."""
    return said == expected(data)[1] + NOT_WRITTEN


def not_written():
    """Records that cannot be written, because standard output is full, closed, or a pipe that nobody reads; and ranges that cannot."""
    count = 0
    for data in (record(), records(2184), pieces(3000, good=20)):
        for redirect in (">/dev/full", ">&-"):
            done = subprocess.run(["sh", "-c", f'exec "$0" {redirect}', PROGRAM], input=data, stderr=subprocess.PIPE, check=False)
            if done.returncode != 0 or not said_so(data, done.stderr):
                fail(data, done.stderr, NOT_WRITTEN, f" (status {done.returncode}, {redirect})")
        for ignored in (True, False):
            reading, writing = os.pipe()
            os.close(reading)
            # Python itself ignores SIGPIPE, and hands that on unless signals are restored
            done = subprocess.run([PROGRAM], input=data, stdout=writing, stderr=subprocess.PIPE, restore_signals=not ignored, check=False)
            os.close(writing)
            if done.returncode != 0 or not said_so(data, done.stderr):
                fail(data, done.stderr, NOT_WRITTEN, f" (status {done.returncode}, a pipe that nobody reads)")
        count += 4
    # no record is nothing to write
    for redirect in (">/dev/full", ">&-"):
        done = subprocess.run(["sh", "-c", f'exec "$0" {redirect}', PROGRAM], input=bytes(40), stderr=subprocess.PIPE, check=False)
        compare(bytes(40), done.returncode, (b"", done.stderr), f" ({redirect}, and no record)")
    # where standard error is lost, the records are not; with both lost it still ends
    for data in (record(), pieces(3000), bytes(100), bytes(MOST + 1), b""):
        for redirect in ("2>/dev/full", "2>&-"):
            done = subprocess.run(["sh", "-c", f'exec "$0" {redirect}', PROGRAM], input=data, stdout=subprocess.PIPE, check=False)
            if done.returncode != 0 or done.stdout != expected(data)[0]:
                fail(data, done.stdout, expected(data)[0], f" (status {done.returncode}, {redirect})")
        for redirect in (">&- 2>&-", ">/dev/full 2>/dev/full"):
            done = subprocess.run(["sh", "-c", f'exec "$0" {redirect}', PROGRAM], input=data, check=False)
            if done.returncode != 0:
                fail(data, b"status %d" % done.returncode, b"status 0", f" ({redirect})")
        count += 4
    return count


def main():
    if not os.access(PROGRAM, os.X_OK):
        sys.exit(f"rescue_records: no program at {PROGRAM}: run 'make program' first")
    rescue_rules.self_test()
    all_inputs = inputs()
    with ThreadPoolExecutor(os.cpu_count()) as pool:
        answers = list(pool.map(answer, all_inputs))
    piped, others, unwritten = slow_pipes(), no_input(), not_written()
    for mistake in MISTAKES:
        if all(expected(data, mistake) == got for data, got in zip(all_inputs, answers)):
            sys.exit(f"rescue_records: this test does not notice the mistake '{mistake}'")
    refused = sum(got[1] == REFUSED for got in answers)
    kept = sum(len(got[0]) // RECORD for got in answers)
    print(f"rescue_records: {len(all_inputs) + piped + others} inputs compared ({kept} records kept, {refused} inputs refused), "
          f"{unwritten} answers that could not be written")
    print(f"rescue_records: {len(MISTAKES)} mistakes of the rule noticed")


main()
