"""For tests/rows.py: the rules of tools/rows a second time, with mistakes that can be planted in them, and the inputs that it is tried with."""

import random
import struct
from decimal import Decimal

DIGITS = b"0123456789"
RNG = random.Random(20261116)


# The rules.

def whole_number(digits):
    """Any number with more than ten digits is as good as another."""
    return int(digits.lstrip(b"0")[:11] or b"0")


def hundredths(field, mistake):
    """A decimal as hundredths, or None."""
    if mistake == "a number of Python's":
        try:
            return round(float(field.decode()) * 100)
        except (ValueError, OverflowError):
            return None
    sign, digits = (field[:1], field[1:]) if field[:1] in (b"+", b"-") else (b"", field)
    whole, point, decimals = digits.partition(b".")
    if not whole or not all(x in DIGITS for x in whole + decimals) or bool(point) != bool(decimals):
        return None
    if len(decimals) > 2 and mistake != "finer decimals rounded":
        return None
    if mistake == "a product of floats":
        return int(min(float(field), 1e9) * 100)
    if mistake == "decimals as a number":
        return (whole_number(whole) * 100 + whole_number(decimals)) * (-1 if sign == b"-" else 1)
    if mistake == "the sign of the whole part":
        return whole_number(whole) * (-100 if sign == b"-" else 100) + int(decimals.ljust(2, b"0"))
    return int(round(Decimal((sign + digits).decode()) * 100))


# rules with other limits: the number (day, XC, XS, uncertainty), the least and the most that are accepted
LIMITS = [(15020, 88433), (-100000, 100000), (-100000, 100000), (1, 100000)]
OTHER_LIMITS = {"day 15019": (0, 15019, 88433), "day 88434": (0, 15020, 88434), "XC 1000.01": (1, -100000, 100001), "XC -1000.01": (1, -100001, 100000),
                "XS 1000.01": (2, -100000, 100001), "XS -1000.01": (2, -100001, 100000), "uncertainty 0": (3, 0, 100000), "uncertainty 1000.01": (3, 1, 100001),
                "any sign of the uncertainty": (3, -100000, 100000)}


def in_limits(number, x, mistake):
    low, high = LIMITS[number]
    if mistake in OTHER_LIMITS and OTHER_LIMITS[mistake][0] == number:
        _, low, high = OTHER_LIMITS[mistake]
    return low <= x <= high


def packed(rows):
    return struct.pack(">HB", 3 + 16 * len(rows), 1) + b"".join(struct.pack(">Iiii", *row) for row in rows)


def of_text(text, mistake=None):
    """The bytes, or the number of the line that is refused."""
    lines = text.split(b"\n")
    if not lines[-1]:
        lines.pop()
    rows = []
    for number, line in enumerate(lines, 1):
        if len(line) > 65536 - (number < len(lines) or text.endswith(b"\n")):
            return number
        if mistake == "carriage returns":
            line = line.rstrip(b"\r")
        if line.startswith(b"#") or mistake == "comments after blanks" and line.lstrip(b" \t").startswith(b"#"):
            continue
        if not line.strip(b" \t"):
            if mistake == "a blank line ends the table":
                break
            continue
        if mistake == "rows are counted, not lines":
            number = len(rows) + 1
        if mistake == "comments behind rows":
            line = line.partition(b"#")[0]
        fields = [x for x in line.replace(b"\t", b" ").split(b" ") if x]
        if mistake == "commas":
            fields = line.replace(b",", b" ").split()
        if mistake == "more fields":
            fields = fields[:4]
        if len(fields) != 4:
            return number
        values = [whole_number(fields[0]) if all(x in DIGITS for x in fields[0]) else 0, *(hundredths(x, mistake) for x in fields[1:])]
        if any(x is None or not in_limits(k, x, mistake) for k, x in enumerate(values)):
            return number
        if rows and (values[0] < rows[-1][0] or values[0] == rows[-1][0] and mistake != "equal days"):
            return number
        if len(rows) == (201 if mistake == "201 rows" else 200):
            return number
        rows.append(values)
    return packed(rows) if len(rows) >= (1 if mistake == "one row" else 2) else len(lines) + 1


def of_bytes(data, mistake=None):
    """The refusal number."""
    count, rest = divmod(len(data) - 3, 16)
    if len(data) < 3 or data[0] * 256 + data[1] != len(data) and mistake != "any length field":
        return 21
    if rest and mistake != "bytes behind the rows" or not (1 if mistake == "one row" else 2) <= count <= (201 if mistake == "201 rows" else 200):
        return 21
    if data[2] != 1 and mistake != "any version":
        return 22
    rows = [struct.unpack_from("<I3i" if mistake == "the low byte first" else ">I3i", data, 3 + 16 * i) for i in range(count)]
    size = any(not in_limits(k, x, mistake) for row in rows for k, x in enumerate(row) if k)
    if size and mistake == "24 before 23":
        return 24
    if any(not in_limits(0, row[0], mistake) for row in rows):
        return 23
    if any(b[0] < a[0] or b[0] == a[0] and mistake != "equal days" for a, b in zip(rows, rows[1:])):
        return 23
    return 24 if size else 0


TEXT_MISTAKES = [*OTHER_LIMITS, "a number of Python's", "finer decimals rounded", "a product of floats", "decimals as a number", "the sign of the whole part", "carriage returns",
                 "comments after blanks", "a blank line ends the table", "rows are counted, not lines", "comments behind rows", "commas", "more fields", "equal days", "201 rows", "one row"]
BYTES_MISTAKES = [*OTHER_LIMITS, "any length field", "bytes behind the rows", "any version", "the low byte first", "24 before 23", "equal days", "201 rows", "one row"]


# The inputs.

GOOD = b"15020 -1000.00 1000 0.01\n88433\t1000 -1000.00\t1000.00\n"
ROW = b"50000 1 2 3\n"
WRONG_FIELDS = [
    b"", b"1.", b".5", b"1.234", b"1.000", b"0.001", b"1e2", b"1E2", b"inf", b"nan", b"-inf", b"1_0", b"0x10", b"1,5", b"--1", b"+-1",
    b"- 1", b"1-", b"1.2.3", b"1000.01", b"-1000.01", b"1001", b"-1001", b"99999999999999999999999999", b"9" * 5000, b"\xc2\xb2",
    "\uff11".encode(), b"\xff", b"\x00", b"1\x0b", b"1\x0c", b"1\r", b"x", b"#", b"1.5#",
]
RIGHT_FIELDS = [
    b"0", b"-0", b"+0.00", b"-0.00", b"0.1", b"-0.13", b"0.29", b"-0.29", b"1.15", b"12.5", b"12.05", b"+7.25", b"000000000012.50",
    b"999.99", b"1000", b"1000.0", b"-1000", b"-999.99", b"0.57",
]


def texts_by_hand():
    yield from (GOOD, GOOD[:-1], b"# a comment\n\n" + GOOD, b"#\n \t \n#\xff\x00\r\n" + GOOD, GOOD.replace(b"\n", b"\n\n# 1 2 3\n"), b"  " + GOOD, b"\t" + GOOD.replace(b"\n", b" \t\n"))
    yield from (b"", b"\n", b"#\n", ROW, ROW + b"#\n", ROW + ROW, GOOD + ROW, ROW + b"\n49999 1 2 3\n", b"# a\n" + ROW + b"50001 1 2\n", ROW + b"50001 1 2 3 4\n", ROW + b"50001 1 2 3 # 4\n")
    yield from (GOOD.replace(b"\n", b"\r\n"), b"#\r\n" + GOOD, b"\r\n" + GOOD, b"\xef\xbb\xbf" + GOOD, b" # a comment\n" + GOOD, ROW + b"\n50001 1 2 3\n", ROW + b"50001,1,2,3\n", GOOD + b"\x00")
    yield from (ROW + b"#" * 65535 + b"\n50001 1 2 3\n", ROW + b"#" * 65536 + b"\n50001 1 2 3\n", ROW + b"50001 1 2 3\n" + b"#" * 65536, ROW + b"50001 1 2 3\n" + b" " * 65537, b"#" * 200000)
    for count in (199, 200, 201, 202):
        yield b"".join(b"%d 1 2 3\n" % (20000 + 5 * i) for i in range(count))
    for day in (b"15019", b"15020", b"88433", b"88434", b"0", b"-50000", b"+50000", b"50000.0", b"50000.", b"5e4", b"050000", b"5_0000", b"50000D0", b"9" * 5000, "5000\uff10".encode()):
        yield b"# a\n" + (day + b" 1 2 3\n89000 1 2 3\n" if day > b"6" and day < b"9" else day + b" 1 2 3\n60000 1 2 3\n")
        yield b"15020 1 2 3\n" + day + b" 1 2 3\n"
    for field in WRONG_FIELDS + RIGHT_FIELDS:
        for place in (1, 2, 3):
            fields = [b"50001", b"1", b"2", b"3"]
            fields[place] = field
            yield ROW + b"\n" + b" ".join(fields) + b"\n60000 4 5 6\n"


def decimal(x):
    text = f"{abs(x) // 100}.{abs(x) % 100:02}"
    if RNG.random() < 0.3:
        text = text.rstrip("0").rstrip(".")
    return (("-" if x < 0 else RNG.choice(["", "", "+"])) + text).encode()


def rows(count=None):
    count = count or RNG.choice([2, 3, 30, 199, 200, RNG.randint(2, 200)])
    days = sorted(RNG.sample(range(15020, 88434), count))
    sizes = [-100000, 100000, 0, 1, -1]
    return [(day, *(RNG.choice([*sizes, RNG.randint(-100000, 100000)]) for _ in range(2)), RNG.choice([1, 100000, RNG.randint(1, 100000)])) for day in days]


def text_of(table):
    blank = [b" ", b"  ", b"\t", b" \t "]
    lines = []
    for day, *numbers in table:
        lines += [b"# comment"] * (RNG.random() < 0.1) + [b""] * (RNG.random() < 0.1)
        lines.append(RNG.choice(blank).join([b"%d" % day, *map(decimal, numbers)]))
    return b"\n".join(lines) + b"\n"


def damaged_text():
    data = bytearray(text_of(rows(RNG.randint(2, 8))))
    for _ in range(RNG.choice([1, 1, 2])):
        at, kind = RNG.randrange(len(data)), RNG.randrange(3)
        byte = RNG.choice(b"\t\n\r +-.,0123456789eE_#x\x00\xff\xb2")
        if kind == 0:
            data[at] = byte
        elif kind == 1:
            data.insert(at, byte)
        elif len(data) > 1:
            del data[at]
    return bytes(data)


def tables_by_hand():
    yield from (b"", b"\x00", b"\x00\x02", b"\x00\x03\x01", packed([]), packed(rows(1)), packed(rows(201)), packed(rows(2)) + b"\x00")
    yield from (packed(rows(2))[:2] + bytes([version]) + packed(rows(2))[3:] for version in (0, 2, 3, 128, 255))
    for number, limits in enumerate(LIMITS):
        for x in (limits[0] - 1, limits[0], limits[1], limits[1] + 1):
            table = [list(row) for row in rows(3)]
            table[0 if x < 50000 else 2][number] = x
            yield packed(table)
    table = rows(4)
    yield packed([table[0], (table[1][0], 0, 0, 0), table[3], table[2]])  # 24 in a row before that of 23
    yield packed([table[0], (table[0][0], 0, 0, 1)])


def damaged_bytes():
    table = rows(RNG.choice([2, 3, 5, 200]))
    data = bytearray(packed(table))
    for _ in range(RNG.choice([1, 1, 2])):
        kind, row, place = RNG.randrange(7), RNG.randrange(len(table)), RNG.randrange(4)
        at = 3 + 16 * row + 4 * place
        if kind == 0:
            data[RNG.randrange(len(data))] ^= 1 << RNG.randrange(8)
        elif kind == 1:
            data[at:at + 4] = struct.pack(">i", RNG.choice([0, 1, -1, 15019, 15020, 88433, 88434, 100000, 100001, -100000, -100001, -2**31, 2**31 - 1, RNG.randint(-110000, 110000)]))
        elif kind == 2:  # the day of the row before
            data[3 + 16 * row:7 + 16 * row] = data[3 + 16 * max(row - 1, 0):7 + 16 * max(row - 1, 0)]
        elif kind == 3:
            data[RNG.randrange(3)] = RNG.randrange(5)
        elif kind == 4:
            return bytes(data[:RNG.randrange(len(data) + 1)])
        elif kind == 5:
            return bytes(data + RNG.randbytes(RNG.randint(1, 40)))
        else:  # a row or a byte more or fewer, and the field that goes with it
            data = data[:3 + 16 * RNG.randint(0, len(table))] if RNG.random() < 0.5 else data + RNG.choice([b"\x00", struct.pack(">Iiii", 88433, 1, 1, 1)])
            data[:2] = struct.pack(">H", len(data))
            return bytes(data)
    return bytes(data)
