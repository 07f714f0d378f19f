#!/usr/bin/env python3
"""Runs the example rescue_image on images of up to several megabytes, with damaged sectors and with records across the ends of its
windows, and compares what it keeps and says with one walk over the whole image (tests/rescue_rules.py). The example is built
with the sanitizers and the archive target/staticlib/libenfysgar.a, or what ARCHIVE names.

Afterwards the same answers are held against walks with a mistake in them, each of which has to show up."""

import os
import resource
import subprocess
import sys
import tempfile
from concurrent.futures import ThreadPoolExecutor

import example
import rescue_rules
from example import ENVIRONMENT, first_difference, from_a_slow_pipe
from rescue_rules import MOST, RECORD, RNG, TEXT_MISTAKES, WALK_MISTAKES, overlapping, pieces, record, records, text, walk

PROGRAM = example.build("rescue_image")
PLAIN = example.build("rescue_image", "_plain", ())
MEMORY = 24 << 20  # for all of the program; the image that it gets then is longer


# The images.

def sectors(image, size, kind):
    """An image with some of its sectors damaged."""
    found = []
    for at in range(0, len(image), size):
        sector = image[at:at + size]
        if RNG.randrange(12) == 0:
            if kind == "zeros":
                sector = bytes(len(sector))
            elif kind == "noise":
                sector = RNG.randbytes(len(sector))
            elif kind == "shifted":
                by = RNG.randint(1, 40)
                sector = RNG.choice([sector[by:], bytes(by) + sector, sector[by:] + sector[:by]])
            elif kind == "twice":
                sector += sector
            else:
                sector = b""
        found.append(sector)
    return b"".join(found)


def across(step):
    """Records that begin `step` bytes before the end of the first window, and others near the ends of those behind it."""
    image = bytearray(RNG.choice([bytes, RNG.randbytes])(4 * MOST))
    what = record() if step % 2 else overlapping()
    image[MOST - step:MOST - step + len(what)] = what
    for window in (2, 3):
        at = window * MOST - RNG.randint(0, 120)
        image[at:at + RECORD] = record()
    return bytes(image)


def around(size):
    """Images of this size: zeros, noise, records from the start, records up to the end, and pieces."""
    yield bytes(size)
    yield RNG.randbytes(size)
    yield records(size // RECORD + 1)[:size]
    yield (bytes(size % RECORD) + records(size // RECORD))[-size:] if size else b""
    yield pieces(size)[:size]


def images():
    for size in (0, 1, 29, 30, 31, 59, 60, 61):
        yield from around(size)
    for size in (MOST, 2 * MOST, 3 * MOST):
        for more in (-31, -30, -29, -1, 0, 1, 29, 30, 31):
            yield from around(size + more)
    for size in (2 * MOST - 29, 2 * MOST - 28, 2 * MOST - 58):  # where later windows can end
        yield from around(size)
    for step in range(64):
        yield across(step)
    disk = records(120_000)
    for size in (512, 4096):
        for kind in ("zeros", "noise", "shifted", "twice", "lost"):
            yield sectors(disk, size, kind)
    yield pieces(3_000_000, good=20)
    yield b"".join(record() + bytes(RNG.randrange(4)) for _ in range(60_000))


# The program.

def fail(what, got, want):
    example.fail("rescue_image", what, got, want)


def run(arguments, **more):
    return subprocess.run([PROGRAM, *arguments], stdout=more.pop("stdout", subprocess.PIPE), stderr=subprocess.PIPE, timeout=60,
                          env=ENVIRONMENT, check=False, **more)


def answer(image):
    """What it keeps and says, compared with one walk."""
    with tempfile.TemporaryDirectory() as folder:
        source, kept = os.path.join(folder, "image"), os.path.join(folder, "records")
        with open(source, "wb") as file:
            file.write(image)
        done = run([source, kept])
        with open(kept, "rb") as file:
            got = file.read(), done.stdout
    compare(f"an image of {len(image)} bytes", image, got, done)
    return got


def compare(what, image, got, done):
    want = walk(image)
    if done.returncode != 0 or done.stderr:
        fail(what, done.stderr, b"status 0 and nothing on standard error")
    if got[1] != text(*want):
        at = first_difference(got[1], text(*want))
        fail(what + f", from byte {at} of standard output on", got[1][at:], text(*want)[at:])
    if got[0] != want[0]:
        fail(what + f", byte {first_difference(got[0], want[0])} of the records", got[0], want[0])


def from_a_pipe(folder):
    """From a pipe that is written to in small parts, from standard input, and with little memory."""
    kept = os.path.join(folder, "kept")
    image = pieces(150_000, good=20)
    for name in ("-", "/dev/stdin"):
        done = from_a_slow_pipe([PROGRAM, name, kept], image, RNG)
        with open(kept, "rb") as file:
            compare(f"a pipe, as {name}", image, (file.read(), done.stdout), done)
    image = (pieces(100_000) + bytes(4096)) * (2 * MEMORY // 104_096)
    done = subprocess.run([PLAIN, "-", kept], input=image, stdout=subprocess.PIPE, stderr=subprocess.PIPE, check=False,
                          preexec_fn=lambda: resource.setrlimit(resource.RLIMIT_AS, (MEMORY, MEMORY)))
    with open(kept, "rb") as file:
        compare(f"{len(image)} bytes with {MEMORY} bytes of memory", image, (file.read(), done.stdout), done)
    return 3


def troubles(folder):
    """What cannot be read or written, and wrong usage: a status and a message."""
    image, kept, good = os.path.join(folder, "image"), os.path.join(folder, "kept"), records(5000)
    with open(image, "wb") as file:
        file.write(good)
    with open("/dev/full", "wb") as full:
        cases = [
            (1, [os.path.join(folder, "missing"), kept], {}), (1, [folder, kept], {}), (1, [image, folder], {}),
            (1, [image, os.path.join(folder, "missing", "kept")], {}), (1, [image, "/dev/full"], {}), (1, [image, image], {}),
            (1, [image, kept], {"stdout": full}), (2, [], {}), (2, [image], {}), (2, [image, kept, kept], {}),
        ]
        for status, arguments, more in cases:
            done = run(arguments, **more)
            start = b"rescue_image: " if status == 1 else b"usage: rescue_image "
            if done.returncode != status or not done.stderr.startswith(start) or done.stderr.count(b"\n") != 1:
                fail(f"arguments {arguments}, status {done.returncode} where {status} should be", done.stderr, start + b"..")
    with open(image, "rb") as file:
        if file.read() != good:
            fail("the image itself given as RECORDS", b"a changed image", b"the same image")
    with open(image, "wb") as file:  # a single record is written where the file is closed
        file.write(record())
    if run([image, "/dev/full"]).returncode != 1:
        fail("one record, and a full disk", b"status 0", b"status 1")
    return len(cases) + 1


# Mistakes that a program with windows can make.

def in_windows(image, mistake):
    kept, ranges, at = b"", [], 0
    while True:
        window = image[at:at + MOST]
        part, passed = walk(window)
        last = len(window) < MOST
        decided = len(window)
        if not last and mistake != "each window by itself" and passed and sum(passed[-1]) == len(window):
            decided = max(passed[-1][0], len(window) - (28 if mistake == "a place too late" else 29))
        if not last and mistake == "always 29 bytes back":
            decided = len(window) - 29
        for start, length in passed:
            length = min(length, decided - start) if mistake != "undecided bytes passed twice" else length
            if length <= 0:
                continue
            if ranges and sum(ranges[-1]) == at + start and mistake != "ranges not joined":
                ranges[-1] = (ranges[-1][0], ranges[-1][1] + length)
            else:
                ranges.append((at + start, length))
        kept += part
        at += decided
        if last:
            return kept, ranges


WINDOW_MISTAKES = ["each window by itself", "a place too late", "always 29 bytes back", "ranges not joined",
                   "undecided bytes passed twice"]


def noticed(found, mistake):
    for image, got in found:
        if mistake in WINDOW_MISTAKES:
            want = in_windows(image, mistake)
        else:
            want = walk(image, mistake)
        if got != (want[0], text(*want, mistake)):
            return True
    return False


def main():
    rescue_rules.self_test()
    found = list(images())
    assert all(in_windows(image, None) == walk(image) for image in found[-80:-10])
    with ThreadPoolExecutor(os.cpu_count()) as pool:
        found = list(zip(found, pool.map(answer, found)))
    with tempfile.TemporaryDirectory() as folder:
        piped, unwritten = from_a_pipe(folder), troubles(folder)
    for mistake in [*WINDOW_MISTAKES, *WALK_MISTAKES, *TEXT_MISTAKES]:
        if not noticed(found, mistake):
            sys.exit(f"rescue_image: this test does not notice the mistake '{mistake}'")
    kept = sum(len(got[0]) // RECORD for _, got in found)
    print(f"rescue_image: {len(found)} images compared with one walk ({sum(len(image) for image, _ in found)} bytes, {kept} records "
          f"kept), {piped} pipes, {unwritten} troubles")
    print(f"rescue_image: {len(WINDOW_MISTAKES) + len(WALK_MISTAKES) + len(TEXT_MISTAKES)} mistakes of the rule noticed")


main()
