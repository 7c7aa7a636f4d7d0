"""Calls of the soundings for the test vectors, made alike on every run.

Each family is a function without arguments that returns a list of pairs: the input bytes
and the length of the buffer for the depths, as in families.py. A figure is an answer in
units of 1/D tonnes; it is inside the table if it is from 0 to 520 × D.
"""

import families
import reference
from families import (
    ANSWER, END, RIGHT, Stream, away_from_zero, encode, number, rounding_by, with_rounds,
)

SHORT = (0, 1, 15)
LONG = (16, 17, 128, 180, 400)
DEPTHS = (0, 1, 2, 10, 50, 100, 101, 199, 200, 201, 300, 390, 398, 399, 400)
NEGATIVE = (-1, -2, -520, -32_769, -ANSWER)
# far above the table; 1,000 times the first four lies next to what 32 bits hold, signed or not
LARGE = (2 ** 31 // 1_000, 2 ** 31 // 1_000 + 1, 2 ** 32 // 1_000, 2 ** 32 // 1_000 + 1, ANSWER - 1, ANSWER)


# ---------------------------------------------------------------- figures and cases that hold them


def most(e):
    """The greatest figure inside the table: exactly 520,000 kilograms."""
    return 520 * 10 ** e


def least_figure(h, e):
    """The least figure that reaches depth h: exactly its entry where D allows that."""
    return -(-reference.TABLE[h] * 10 ** e // 1_000)


def holding_rows(e, figures, shift=0):
    """Rows that these figures solve exactly; each row has one tank, the first has tank 1 + shift."""
    n, rows = len(figures), []
    for i in range(n):
        tank = (i + shift) % n
        coefficients = [10 ** e if j == tank else 0 for j in range(n)]
        rows.append([coefficients, [0] * n, figures[tank], 0])
    return rows


def holding(e, figures, rounds, shift=0):
    """A case whose answer, brought for K 0 and worked out otherwise, is exactly these figures."""
    return encode(e, rounds, holding_rows(e, figures, shift), figures)


def inside(stream, n, e):
    """Figures inside the table, its first and last entry among them now and then."""
    return [stream.one_of((0, most(e), *stream.list(6, 0, most(e)))) for _ in range(n)]


def with_long_buffers(inputs):
    return families.with_buffers(inputs, LONG)


def inputs_of(make):
    """The inputs of a family of families.py, each once."""
    return list(dict.fromkeys(data for data, _ in make()))


# ---------------------------------------------------------------- buffers, and the paper's trials


def one_of_each_refusal():
    """Cases refused with 2 to 10 where the buffer is long enough; their figures are outside the table."""
    data = holding(1, [-1, 5_201], 0)
    return [
        data[:-1], data[:6] + b"\x07" + data[7:], data[:8] + b"\x00" + data[9:], data[:20],
        holding(1, [-1, ANSWER + 1], 0), data + b"\x00", families.square([[1, 1], [1, 1]], [-1, -2]),
        holding(0, [-1, ANSWER + 1], 1), data, holding(1, [5_201, 7], 0), holding(1, [7, -1], 3),
    ]


def buffer_lengths():
    """Every length beside sound cases of 1 to 8 tanks, also exactly 2n bytes, and beside every refusal."""
    stream, calls = Stream(31), []
    for n in range(1, 9):
        for rounds in (0, 2):
            data = holding(n % 4, inside(stream, n, n % 4), rounds)
            lengths = sorted({*SHORT, *LONG, 2 * n - 1, 2 * n, 2 * n + 1})
            calls += [(data, length) for length in lengths]
    return calls + [(data, length) for data in one_of_each_refusal() for length in SHORT + LONG]


def edge_trials():
    """The trials of "Trials at the edges"."""
    return [(data, length) for data in inputs_of(families.edge_trials) for length in (15, 16)]


# ---------------------------------------------------------------- the table


def one_tank_figures(e):
    """At, below and above chosen entries, the last one among them; far outside on both sides."""
    figures = {*NEGATIVE, *LARGE, -most(e), most(e) + 10, 2 * most(e), 10 * most(e)}
    for h in DEPTHS:
        figures |= {least_figure(h, e) + k for k in (-1, 0, 1)}
    return sorted(figures)


def one_tank():
    inputs = []
    for e in range(4):
        for figure in one_tank_figures(e):
            inputs += [holding(e, [figure], 0), holding(e, [figure], 1 + abs(figure) % 8)]
    return with_long_buffers(inputs)


def depth_figures(e):
    """The least figure that reaches each depth, and the one below; where D is 1,000 the one above too."""
    steps = (-1, 0, 1) if e == 3 else (-1, 0)
    figures = {least_figure(h, e) + k for h in range(401) for k in steps}
    return sorted(figure for figure in figures if 0 <= figure <= most(e))


def every_depth():
    """The whole table for each D, eight tanks a case, brought and worked out in turn."""
    inputs = []
    for e in range(4):
        figures = depth_figures(e)
        cases = -(-len(figures) // 8)
        for i in range(cases):
            inputs.append(holding(e, figures[i::cases], i % 2, i % 7))
    return with_long_buffers(inputs)


# ---------------------------------------------------------------- figures outside the table


def outside_places():
    """One tank outside, below zero or above the table, in each place of 1 to 8 tanks."""
    stream, inputs = Stream(32), []
    for e in range(4):
        for n in range(1, 9):
            for place in range(n):
                for k, figure in enumerate((-1, most(e) + 1)):
                    figures = inside(stream, n, e)
                    figures[place] = figure
                    inputs.append(holding(e, figures, (n + place + k) % 3, place))
    return with_long_buffers(inputs)


def several_outside():
    stream, inputs = Stream(33), []
    for n in range(2, 9):
        for e in range(4):
            inputs.append(holding(e, [-1] * n, n % 2))
            inputs.append(holding(e, [most(e) + 1] * n, n % 2))
            inputs.append(holding(e, [-1] + inside(stream, n - 2, e) + [most(e) + 1], n % 2))
            inputs.append(holding(e, [most(e) + 1, -ANSWER] + inside(stream, n - 2, e), 1 - n % 2))
            inputs.append(holding(e, [stream.one_of((-1, ANSWER)) for _ in range(n - 1)] + [0], 1 - n % 2))
    return with_long_buffers(inputs)


# ---------------------------------------------------------------- met and unmet, rounds


def verdicts():
    """Trials brought and worked out, met or not, with a factor or none, inside and outside the table."""
    stream, inputs = Stream(34), []
    for n in range(1, 9):
        for e in range(4):
            for tolerance, f, off in ((0, 0, 1), (1, 0, 1), (1, 0, 2_000_000), (0, 3, 3), (0, 3, 4), (2, 9, 0)):
                figures = inside(stream, n, e)
                if stream.between(0, 2) == 0:
                    figures[stream.between(0, n - 1)] = stream.one_of((-1, most(e) + 1))
                rows = holding_rows(e, figures, stream.between(0, 7))
                for row in rows:
                    row[1], row[2], row[3] = [tolerance] * n, row[2] - stream.one_of((0, off)), f
                rounds = stream.one_of((0, 0, 1, 3))
                inputs.append(encode(e, rounds, rows, figures))
    return with_long_buffers(inputs)


def planted():
    """Every n, e and K with full rows, around figures inside the table."""
    stream, inputs = Stream(35), []
    for n in range(1, 9):
        for e in range(4):
            for rounds in range(9):
                figures = stream.list(n, 0, most(e))
                size, spread = stream.one_of(((9, 1), (999, 3), (30_000, 0)))
                rows = families.planted_rows(stream, n, e, size, figures, spread)
                inputs.append(encode(e, rounds, rows, figures))
    return with_long_buffers(inputs)


def demanding(stream):
    """Rows close to proportional around figures inside the table or a little outside, 8 rounds."""
    n, e, noise = stream.between(2, 3), stream.between(1, 3), stream.one_of((1, 2, 5))
    base = stream.list(n, -32_000, 32_000)
    tilts = stream.list(n, -16, 16)
    coefficients = [[a * tilt // 16 + stream.between(-noise, noise) for a in base] for tilt in tilts]
    tonnes = stream.list(n, *stream.one_of(((0, 520), (-20, 540))))
    return families.square(coefficients, families.products(coefficients, tonnes), 0,
                           stream.one_of((0, 0, 1)), e=e, rounds=8)


def depths_of(case, trial):
    """The bytes of a trial's depths, or none for refusal 10."""
    try:
        return reference.depth_bytes(reference.Finished(case, trial, case.rounds))
    except reference.Refused:
        return b""


def ending(data):
    """The refusal, by the last trial 10 or 0; the rounds used, or 0 for 8 and 9; the last trial's depths."""
    trials, number = families.rounds_of(data)
    if number:
        return number, 0, b""
    depths = depths_of(reference.take_case(data), trials[-1])
    return 0 if depths else 10, len(trials), depths


@rounding_by(away_from_zero)
def later_rounds():
    """Ended by each round from 1 to 8; a last trial inside the table has other depths than the one before."""
    stream, inputs = Stream(36), []
    wanted = {(0, r): 6 for r in range(1, 9)} | {(10, r): 3 for r in range(1, 9)} | {(9, 0): 20, (8, 0): 5}
    for _ in range(2_000):
        data = demanding(stream)
        refusal, used, depths = ending(data)
        fewer = with_rounds(data, max(used - 1, 1))
        if wanted[refusal, used] == 0 or refusal == 0 and used > 1 and ending(fewer)[2] == depths:
            continue
        wanted[refusal, used] -= 1
        inputs += [data, fewer, with_rounds(data, max(used, 1))]
    return with_long_buffers(list(dict.fromkeys(inputs)))


# ---------------------------------------------------------------- the trial kept where none is met


def wavering(stream):
    """Rows close to proportional, solved by tonnes inside the table but for a little on the right sides."""
    n, e, noise = stream.between(1, 8), stream.between(0, 3), stream.one_of((1, 2, 5))
    base, tonnes, rows = stream.list(n, -32_000, 32_000), stream.list(n, 0, 520), []
    f = stream.one_of((0, 1, 1, 1))
    for _ in range(n):
        tilt = stream.between(-16, 16)
        coefficients = [a * tilt // 16 + stream.between(-noise, noise) for a in base]
        b = sum(a * y for a, y in zip(coefficients, tonnes)) + stream.between(-noise, noise)
        rows.append((coefficients, [0] * n, b, f))
    return encode(e, stream.between(2, 8), rows)


def kept_and_last(data):
    """How the depths of the trial kept and of the last one differ where no trial is met, or nothing."""
    trials, number = families.rounds_of(data)
    if number or trials[-1].judgement.met:
        return ""
    case = reference.take_case(data)
    kept, last = (depths_of(case, trial) for trial in (reference.kept_trial(trials), trials[-1]))
    if kept == last:
        return ""
    return "both inside, differing" if kept and last else "last outside" if kept else "kept outside"


def looked_for(stream, wanted):
    """Cases in which the depths of the trial kept and of the last one differ, as many of each kind as are wanted."""
    inputs, wanted = [], dict(wanted)
    while any(wanted.values()):
        data = wavering(stream)
        kind = kept_and_last(data)
        if wanted.get(kind):
            wanted[kind] -= 1
            inputs.append(data)
    return with_long_buffers(inputs)


@rounding_by(away_from_zero)
def best_trials():
    """The depths are those of the trial kept: the last one has others, or only one of the two is inside."""
    return looked_for(Stream(37), {"both inside, differing": 40, "last outside": 12, "kept outside": 12})


def more_best_trials():
    """A few more, for those of the cases above that a half to the even number took from their kind."""
    return looked_for(Stream(39), {"last outside": 4, "kept outside": 4})


# ---------------------------------------------------------------- answers on a half


def halfway(e, doubles, size):
    """A case with one tank a row; the answers before rounding are half of these."""
    n, d = len(doubles), 10 ** e
    rows = [([2 * d * size * (i == j) for j in range(n)], [0] * n, size * double, 0)
            for i, double in enumerate(doubles)]
    return encode(e, 1, rows)


def even_halves():
    """Half a unit beside both ends of the table, and answers whose other neighbour has another depth."""
    stream, inputs = Stream(38), []
    for e in range(4):
        inputs += [halfway(e, [double], 1 + e) for double in (-3, -1, 1, 2 * most(e) - 1, 2 * most(e) + 1)]
    for n in range(1, 9):
        for e in (0, 1, 2):
            data = halfway(e, [2 * stream.between(0, most(e) - 1) + 1 for _ in range(n)], stream.between(-9, -1))
            inputs += [data] if families.half_shows(data, reference.call_soundings) else []
    return with_long_buffers(inputs)


# ---------------------------------------------------------------- refusals before 10


def eight():
    """A row without coefficients in each place, and two equal rows, where other figures would be negative."""
    inputs = []
    for n in range(1, 9):
        for place in range(n):
            rows = holding_rows(n % 4, [-1] * n)
            rows[place][0] = [0] * n
            inputs += [encode(n % 4, 0, rows, [0] * (n - 1) + [7]), encode(n % 4, 1 + place, rows)]
        if n > 1:
            rows = holding_rows(0, [-1] * n)
            inputs.append(encode(0, 8, rows[:-1] + rows[:1]))
    return with_long_buffers(inputs)


def nine():
    """A correction or an answer figure past its limit in each place, the other figures negative."""
    inputs = []
    for n in (1, 2, 3, 8):
        for place in range(n):
            for k, figure in enumerate((ANSWER + 1, -ANSWER - 1, 2 * ANSWER + 1, -2 * ANSWER - 1)):
                figures = [-1] * n
                figures[place] = figure
                inputs.append(holding((k + place) % 4, figures, 1 + place, place))
    return with_long_buffers(inputs + [families.one(1, RIGHT)] + inputs_of(families.outside))


def to_spoil():
    """Sound cases with figures outside the table: brought by one and by two tanks, and worked out."""
    return [holding(3, [520_001], 0), holding(2, [-1, 52_001], 0), holding(1, [-7, 5], 2)]


def cuts():
    return with_long_buffers([data[:k] for data in to_spoil() for k in range(len(data) + 1)])


def changed_heads():
    """Every tag and length of a field replaced, and bytes after the end."""
    inputs = []
    for data in to_spoil():
        for start in families.field_starts(data):
            due = int.from_bytes(data[start + 1:start + 3], "big")
            for tag in sorted({0x00, 0x01, 0x02, 0x03, 0x05, 0x11, 0xFF} - {data[start]}):
                inputs.append(data[:start] + bytes([tag]) + data[start + 1:])
            for length in sorted({0, due + 1, due + 4, due + 256, max(due - 1, 2)} - {due}):
                inputs.append(data[:start + 1] + number(length, 2) + data[start + 3:])
        inputs += [data + tail for tail in (b"\x00", b"\xff", END, b"\x10\x00\x03")]
    return with_long_buffers(inputs)


def spoiled_rows(n, rounds):
    """Each figure of each row past its limits."""
    inputs = []
    figures = ((0, [-32_768] * n), (1, [32_768] * n), (2, RIGHT + 1), (2, -RIGHT - 1), (3, RIGHT + 1))
    for row in range(n):
        for which, figure in figures:
            rows = holding_rows(0, [-1] * n)
            rows[row][which] = figure
            inputs.append(encode(0, rounds, rows, [-1] * n))
    return inputs


def spoiled_figures():
    """Figures past their limits in the head, the rows and the trial, where the answer would be outside too."""
    inputs = []
    for rounds in (0, 2):
        for n in (1, 2, 3):
            data = holding(0, [-1] * n, rounds)
            for head in ((0, 0, rounds), (9, 0, rounds), (n, 4, rounds), (n, 0, 9)):
                inputs.append(data[:3] + bytes(head) + data[6:])
            inputs += spoiled_rows(n, rounds)
    for place in range(8):
        for figure in (ANSWER + 1, -ANSWER - 1, 2 ** 31 - 1, -2 ** 31):
            figures = [521] * 8
            figures[place] = figure
            inputs.append(encode(0, 0, holding_rows(0, [1] * 8), figures))
    return with_long_buffers(inputs)


def precedence():
    """Two faults in one input, also beside a buffer of 15 bytes."""
    inputs = inputs_of(families.precedence) + inputs_of(families.misplaced_fields)
    return [(data, length) for data in inputs for length in (15, 16)]


FAMILIES = [
    ("buffer lengths", buffer_lengths), ("edge trials", edge_trials), ("one tank", one_tank),
    ("every depth", every_depth), ("outside, each place", outside_places),
    ("several outside", several_outside), ("verdicts", verdicts), ("planted", planted),
    ("later rounds", later_rounds), ("refusal 8", eight), ("refusal 9", nine), ("cuts", cuts),
    ("changed heads", changed_heads), ("spoiled figures", spoiled_figures), ("precedence", precedence),
    ("best trials", best_trials), ("more best trials", more_best_trials), ("even halves", even_halves),
]


def all_calls():
    """(family name, input, buffer length) of every call, in a fixed order."""
    return families.named(FAMILIES)
