#!/usr/bin/env python3
"""Small named cases, each with a readable dump and the printed verdict beside it, and a matrix text.

    python3 tools/samples.py DIR           make the samples in DIR
    python3 tools/samples.py --check DIR   make them again in memory and compare

NAME.case holds the bytes of the case, NAME.hex the same bytes in hexadecimal, one field
a line with a comment after the number sign, and NAME.txt what `verdict` prints for it.
The dumps of soundings and best-trial end with a comment that gives each tank's depth.
NAME.mtx holds coefficients as a Matrix Market text, and NAME.rows the same coefficients
as the examples print them, a row a line.
"""

import sys

import families
import reference
import stored
from families import encode, one, square


# ---------------------------------------------------------------- the cases


def eight_tanks():
    """Eight rows, largest coefficients away from the diagonal, met after some rounds."""
    answer = [120_050, -4_075, 88_825, 9_999, 300_000, -650, 0, 71_250]
    rows = []
    for i in range(8):
        coefficients = [(37 * (i + 1) * (j + 2) + 11 * i * i + 5 * j) % 201 - 100 for j in range(8)]
        coefficients[(i + 3) % 8] += 700
        total = sum(a * y for a, y in zip(coefficients, answer))
        tolerances = [int(j == 5 and i % 3 == 2) for j in range(8)]
        rows.append((coefficients, tolerances, (total + 40) // 100, i % 2 + 1))
    return encode(2, 4, rows)


def later_round():
    """Three nearly dependent rows without tolerances: the first trials are off."""
    coefficients = [[3_001, 1_000, 2_002], [2_999, 1_001, 2_000], [6_007, 2_010, 3_990]]
    return square(coefficients, families.products(coefficients, [4_321, -765, 2_468]), rounds=8)


def no_factor():
    """The first row is not met but has a factor; the second has a residual and no reach."""
    rows = [([4, 0, 1], [1, 0, 0], 11, 0), ([0, 3, 0], [0, 9, 9], 1, 0), ([1, 1, 5], [0, 1, 0], 2, 1)]
    return encode(1, 0, rows, [20, 0, 0])


def spoiled():
    """A case of two rows whose second row is cut short."""
    return square([[2, 1], [1, 3]], [5, 10])[:-9]


def soundings():
    """Three tanks with answers inside the table; tank 1 holds exactly the entry for 200 centimetres."""
    rows = [([1, 4, -2], 500, 1), ([6, 0, 0], 1_320, 0), ([2, -7, 40], 2_100, 1)]
    return encode(1, 3, [(coefficients, [0, 0, 0], b, f) for coefficients, b, f in rows])


def best_trial():
    """Two nearly dependent rows, five rounds and none met: the second has the least factor, 11, the last 239."""
    return square([[30_700, 12_800], [3_600, 1_500]], [7_556_310, 885_620], f=10, rounds=5)


WITH_DEPTHS = ("soundings", "best-trial")
SAMPLES = {
    "one-tank": lambda: one(3, 1, 0, 1, e=1),
    "negative-answer": lambda: families.PRINTED,
    "two-tanks-exchange": lambda: square([[0, 1], [1, 0]], [5, 7]),
    "later-round": later_round,
    "unmet": lambda: one(2, 4, 1, 0, rounds=0, trial=1),
    "no-factor": no_factor,
    "eight-tanks": eight_tanks,
    "spoiled": spoiled,
    "soundings": soundings,
    "best-trial": best_trial,
    "half": lambda: one(2, 1, 0, 1),
}

# column after column: the rows are (-420, 0, 435), (1850, -2210, 1835) and (95, 310, 102)
THREE_TANKS = b"""\
%%MatrixMarket matrix array integer general
% levers of tanks 1 to 3 in centimetres; rows: to starboard, forward, upward
3 3
-420
1850
95
0
-2210
310
435
1835
102
"""
MATRICES = {"three-tanks": THREE_TANKS}


# ---------------------------------------------------------------- the readable dump


def plain(figures):
    return " ".join(str(figure) for figure in figures)


def figures_of(value, names):
    """The figures of a whole value, without looking at their limits."""
    figures, place = [], 0
    for name in names:
        width, signed, _, _ = reference.FIGURES[name]
        figures.append(int.from_bytes(value[place:place + width], "big", signed=signed))
        place += width
    return figures


def groups(value, names):
    """The value in hexadecimal, a space between figures."""
    parts, place = [], 0
    for name in names:
        width = reference.FIGURES[name].width
        parts.append(value[place:place + width].hex().upper())
        place += width
    return " ".join(part for part in parts if part)


def comment(tag, value, names, row):
    """What a whole field holds, in one line."""
    figures = figures_of(value, names)
    if tag == 0x01:
        return "head: n {}, e {}, K {}".format(*figures)
    if tag == 0x03:
        return f"trial: {plain(figures)}"
    if tag == 0xFF:
        return "end"
    n = len(names) // 2 - 1
    return (f"row {row}: A {plain(figures[:n])}, E {plain(figures[n:2 * n])}, "
            f"b {figures[2 * n]}, f {figures[2 * n + 1]}")


def dump(data):
    """One line for each field; a field cut short is shown as far as it goes."""
    n, lines, place, row = data[3], [], 0, 0
    names = {0x01: ["n", "e", "K"], 0x02: reference.row_names(n), 0x03: ["Y"] * n, 0xFF: []}
    while place < len(data):
        tag, length = data[place], int.from_bytes(data[place + 1:place + 3], "big")
        value = data[place + 3:place + 3 + length]
        row += tag == 0x02
        text = comment(tag, value, names[tag], row)
        if len(value) < length:
            text = f"cut short: {length - len(value)} of {length} bytes are missing"
        start = f"{tag:02X} {length:04X} {groups(value, names[tag])}".rstrip()
        lines.append(f"{start}  # {text}\n")
        place += 3 + length
    return "".join(lines)


def depths_comment(data):
    """The depths of a case whose answers are inside the table, in one line."""
    outcome, buffer = reference.call_soundings(data, reference.LEAST_DEPTHS_BUFFER)
    assert outcome.kind == reference.COUNT
    depths = [int.from_bytes(buffer[i:i + 2], "big") for i in range(0, outcome.number, 2)]
    return f"# depths in centimetres: {plain(depths)}\n"


def printed_rows(text):
    """The coefficients of a sound matrix text, a row a line."""
    outcome, coefficients = reference.call_read_matrix(text, reference.LEAST_PLACES, 0)
    assert outcome.kind == reference.COUNT
    return "".join(f"{plain(row)}\n" for row in reference.in_rows(coefficients, outcome.number))


# ---------------------------------------------------------------- writing and comparing


def make_files():
    files = {}
    for name, make in SAMPLES.items():
        data = make()
        files[f"{name}.case"] = data
        text = dump(data) + (depths_comment(data) if name in WITH_DEPTHS else "")
        files[f"{name}.hex"] = text.encode("ascii")
        files[f"{name}.txt"] = reference.verdict_text(data).encode("ascii")
    for name, text in MATRICES.items():
        files[f"{name}.mtx"] = text
        files[f"{name}.rows"] = printed_rows(text).encode("ascii")
    return files


if __name__ == "__main__":
    sys.exit(stored.main("samples", make_files, sys.argv[1:]))
