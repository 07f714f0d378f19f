"""What the tests of the examples share: where things are, and an example built with the archive target/staticlib/libenfysgar.a, or what
ARCHIVE names."""

import os
import subprocess
import sys
import time

ROOT = os.path.dirname(os.path.dirname(os.path.abspath(__file__)))
ARCHIVE = os.environ.get("ARCHIVE", os.path.join(ROOT, "target/staticlib/libenfysgar.a"))
BUILD = os.path.join(os.environ.get("BUILD", os.path.join(ROOT, "build")), "tests")
ENVIRONMENT = dict(os.environ, ASAN_OPTIONS="detect_leaks=0", LC_ALL="C")
SANITIZED = ("-g", "-fsanitize=address,undefined", "-fno-sanitize-recover")


def build(example, suffix="", flags=SANITIZED):
    """Builds examples/EXAMPLE.c; the path of the program."""
    if not os.path.exists(ARCHIVE):
        sys.exit(f"{example}: no archive at {ARCHIVE}: run 'make archive' first")
    os.makedirs(BUILD, exist_ok=True)
    program = os.path.join(BUILD, example + suffix)
    subprocess.run(["cc", "-std=c11", "-O2", "-Wall", "-Wextra", "-Werror", *flags, "-I", os.path.join(ROOT, "include"), "-o", program,
                    os.path.join(ROOT, f"examples/{example}.c"), ARCHIVE], check=True)
    return program


def fail(example, what, got, want):
    shown = [x if len(x) <= 200 else x[:200] + b" .. (%d bytes)" % len(x) for x in (got, want)]
    print(f"{example}: FAILED\n  where    {what}\n  gave     {shown[0]!r}\n  expected {shown[1]!r}", file=sys.stderr)
    os._exit(1)


def first_difference(a, b):
    return next((i for i, (x, y) in enumerate(zip(a, b)) if x != y), min(len(a), len(b)))


def from_a_slow_pipe(arguments, data, rng):
    """Runs a program whose standard input comes in parts of some bytes."""
    with subprocess.Popen(arguments, stdin=subprocess.PIPE, stdout=subprocess.PIPE, stderr=subprocess.PIPE, env=ENVIRONMENT, bufsize=0) as program:
        at = 0
        try:
            while at < len(data):
                at += program.stdin.write(data[at:at + rng.choice([1, 7, 4096, 30_000])])
                time.sleep(0.001)
        except BrokenPipeError:  # it has read what it wanted
            pass
        program.stdin.close()
        output, said = program.stdout.read(), program.stderr.read()
        program.wait(20)
    return subprocess.CompletedProcess(arguments, program.returncode, output, said)
