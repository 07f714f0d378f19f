"""The rescue of records a second time, for the tests of rescue_image and rescue_records: what reads as a record, the walk over
all bytes at once, what the programs say about it, and bytes to try it on."""

import random
import struct

RECORD = 30
MOST = 65_536
HEAD = bytes([0, RECORD, 1, 0])
FIRST_DAY, LAST_DAY = 15020, 88433
DAY_MICROS = 86_400_000_000
MARK = 2**37
RNG = random.Random(20261117)


# The rule.

def reads(data, at, mistake=None):
    """Whether the 30 bytes from this place on are a record."""
    if at + RECORD > len(data) or data[at:at + 4] != HEAD:
        return False
    if sum(struct.unpack_from(">15H", data, at)) % 65536 and mistake != "any sum":
        return False
    day, time = struct.unpack_from(">IQ", data, at + 4)
    if time // MARK != day % 8 and mistake != "any mark":
        return False
    return FIRST_DAY <= day <= LAST_DAY and time % MARK < DAY_MICROS


def walk(data, mistake=None):
    """The kept records, and the passed ranges as (start, length). Looks from head to head: nothing else can be a record."""
    records, ranges, passed, at = [], [], 0, 0  # bytes from `passed` on belong to no record so far
    while 0 <= (at := data.find(HEAD, at)) <= len(data) - RECORD:
        if mistake == "30 bytes at a time" and (at - passed) % RECORD:
            at += 1
        elif reads(data, at, mistake):
            ranges.append((passed, at - passed))
            records.append(data[at:at + RECORD])
            at = passed = at + RECORD - (mistake == "records overlap")
        else:
            at += 1
    ranges.append((passed, len(data) - passed))
    ranges = [(start, length) for start, length in ranges if length > 0]
    if mistake == "the last bytes are not passed" and ranges and sum(ranges[-1]) == len(data):
        ranges.pop()
    return b"".join(records), ranges


def walk_by_places(data):
    """The same as the rule is written, place by place."""
    records, ranges, at = b"", [], 0
    while at < len(data):
        if reads(data, at):
            records += data[at:at + RECORD]
            at += RECORD
            continue
        if ranges and sum(ranges[-1]) == at:
            ranges[-1] = (ranges[-1][0], ranges[-1][1] + 1)
        else:
            ranges.append((at, 1))
        at += 1
    return records, ranges


def text(records, ranges, mistake=None):
    """The line of each range, and that of the totals."""
    passed = sum(length for _, length in ranges)
    if mistake == "places from 1":
        ranges = [(start + 1, length) for start, length in ranges]
    if mistake == "totals in records":
        passed //= RECORD
    lines = [f"passed {length} bytes at {start}\n" for start, length in ranges]
    return ("".join(lines) + f"kept {len(records) // RECORD} records, passed {passed} bytes in {len(ranges)} ranges\n").encode()


WALK_MISTAKES = ["any sum", "any mark", "30 bytes at a time", "records overlap", "the last bytes are not passed"]
TEXT_MISTAKES = ["places from 1", "totals in records"]


# Bytes to try.

def sealed(front):
    """28 bytes and the word that makes their sum right."""
    return front + struct.pack(">H", -sum(struct.unpack(">14H", front)) % 65536)


def record(day=None, micros=None):
    day = RNG.choice([FIRST_DAY, LAST_DAY, RNG.randint(FIRST_DAY, LAST_DAY)]) if day is None else day
    micros = RNG.choice([0, DAY_MICROS - 1, RNG.randrange(DAY_MICROS)]) if micros is None else micros
    numbers = RNG.randbytes(12) if RNG.randrange(4) else bytes(12)
    return sealed(HEAD + struct.pack(">IQ", day, micros + day % 8 * MARK) + numbers)


def records(count):
    return b"".join(record() for _ in range(count))


def overlapping():
    """Two records of which the second begins inside the first; the first one's sum is made right in its time word."""
    apart = RNG.randrange(16, RECORD)
    second = record()
    first = bytearray(record(micros=RNG.randrange(DAY_MICROS - 65536))[:apart] + second[:RECORD - apart])
    first[14:16] = bytes(2)
    first[14:16] = struct.pack(">H", -sum(struct.unpack(">15H", first)) % 65536)
    return bytes(first[:apart]) + second if reads(bytes(first), 0) else overlapping()


def damaged():
    """A record that does not read, or only by luck: a byte changed, bytes lost, or clock words that are not accepted."""
    data = bytearray(record())
    kind = RNG.randrange(5)
    if kind == 0:
        data[RNG.randrange(RECORD)] ^= 1 << RNG.randrange(8)
    elif kind == 1:
        at = RNG.randrange(RECORD)
        del data[at:at + RNG.randint(1, 12)]
    elif kind == 2:
        data[11] ^= 32 << RNG.randrange(3)
        data = sealed(bytes(data[:28]))
    elif kind == 3:
        data = record(day=RNG.choice([FIRST_DAY - 1, LAST_DAY + 1]))
    else:
        data = record(micros=DAY_MICROS + RNG.randrange(2))
    return bytes(data)


def pieces(length, good=4):
    """About so many bytes of records, damaged ones, gaps and noise; `good` is the part of good records."""
    found, size = [], 0
    while size < length:
        kind = RNG.randrange(6 + good)
        if kind == 0:
            piece = RNG.randbytes(RNG.randint(0, 70))
        elif kind == 1:
            piece = bytes(RNG.randint(0, 40))
        elif kind == 2:
            piece = record()[:RNG.randrange(RECORD)]
        elif kind == 3:
            piece = overlapping()
        elif kind in (4, 5):
            piece = damaged()
        else:
            piece = record()
        found.append(piece)
        size += len(piece)
    return b"".join(found)


def self_test():
    """The two walks agree."""
    for _ in range(200):
        data = pieces(RNG.choice([40, 200, 1500]))
        assert walk(data) == walk_by_places(data)
