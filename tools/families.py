"""Families of inputs for the test vectors, made alike on every run and every machine.

Each family is a function without arguments that returns a list of pairs: the input
bytes and the length of the result buffer. Figures outside their limits are encoded on
purpose, so the encoder here checks nothing and is not the writer of reference.py.
"""

import math
from contextlib import contextmanager
from fractions import Fraction

import reference

BUFFERS = (0, 1, 179, 180, 181, 400)
ENOUGH = (180, 181, 400)
MASK = (1 << 64) - 1
END = b"\xff\x00\x00"
COEFFICIENT, TOLERANCE, RIGHT, ANSWER = 32_767, 32_767, 1_000_000_000, 10_000_000


class Stream:
    """xorshift64*: fixed shifts and one multiplication, so it never drifts."""

    def __init__(self, seed):
        self.state = (seed * 0x9E3779B97F4A7C15 + 0xD1B54A32D192ED03) & MASK or 1

    def next(self):
        x = self.state
        x ^= x >> 12
        x ^= (x << 25) & MASK
        x ^= x >> 27
        self.state = x
        return ((x * 0x2545F4914F6CDD1D) & MASK) >> 16

    def between(self, lowest, highest):
        return lowest + self.next() % (highest - lowest + 1)

    def one_of(self, values):
        return values[self.next() % len(values)]

    def list(self, count, lowest, highest):
        return [self.between(lowest, highest) for _ in range(count)]


# ---------------------------------------------------------------- encoding without checks


def number(figure, width):
    return (figure % (1 << (8 * width))).to_bytes(width, "big")


def numbers(figures, width):
    return b"".join(number(figure, width) for figure in figures)


def field(tag, value):
    return bytes([tag]) + number(len(value), 2) + value


def head_field(n, e, rounds):
    return field(0x01, bytes([n, e, rounds]))


def row_field(row):
    coefficients, tolerances, right_side, right_tolerance = row
    return field(0x02, numbers(coefficients, 2) + numbers(tolerances, 2)
                 + number(right_side, 4) + number(right_tolerance, 4))


def trial_field(trial):
    return field(0x03, numbers(trial, 4))


def encode(e, rounds, rows, trial=()):
    """rows: (coefficients, tolerances, right side, right tolerance) of each row."""
    parts = [head_field(len(rows), e, rounds)] + [row_field(row) for row in rows]
    return b"".join(parts + ([trial_field(trial)] if rounds == 0 else []) + [END])


def one(a, b, tolerance=0, f=0, e=0, rounds=1, trial=0):
    """A case of one row."""
    return encode(e, rounds, [([a], [tolerance], b, f)], [trial])


def square(coefficients, right_sides, tolerance=0, f=0, e=0, rounds=1, trial=()):
    """A case with the same tolerances everywhere."""
    n = len(coefficients)
    rows = [(row, [tolerance] * n, b, f) for row, b in zip(coefficients, right_sides)]
    return encode(e, rounds, rows, trial)


def products(coefficients, answer):
    return [sum(a * y for a, y in zip(row, answer)) for row in coefficients]


def with_rounds(data, rounds):
    """The same case with another K above 0 in its head."""
    return data[:5] + bytes([rounds]) + data[6:]


def with_buffers(inputs, enough=ENOUGH):
    """Gives each input a buffer that is long enough, the lengths in turn."""
    return [(data, enough[i % len(enough)]) for i, data in enumerate(inputs)]


def finished(data):
    """("met" or "unmet", rounds used) or ("correction"/"answer"/"refused", number)."""
    try:
        result = reference.work(data, reference.LEAST_RESULT_BUFFER)
    except reference.Refused as refused:
        return refused.place or "refused", refused.number
    return "met" if result.trial.judgement.met else "unmet", result.rounds_used


# ---------------------------------------------------------------- the rule before, and which inputs it chose


def away_from_zero(p, q):
    """rnd as it was before document 02's "Halves to the even number": a half goes away from zero."""
    nearest = (2 * abs(p) + abs(q)) // (2 * abs(q))
    return nearest if (p < 0) == (q < 0) else -nearest


@contextmanager
def rounding_by(rule):
    """Another rule for rnd, while in use.

    Families that looked for their cases before that change stand under away_from_zero, so that they
    find the same inputs as then. Results always follow the rule of reference.py.
    """
    today, reference.rnd = reference.rnd, rule
    try:
        yield
    finally:
        reference.rnd = today


# ---------------------------------------------------------------- sample cases to spoil


PRINTED = bytes.fromhex("010003010101 02000C0005 0000 FFFFFFFE 00000000 FF0000")


def small_sample():
    """Two rows with a trial, every field present, 58 bytes."""
    rows = [([300, -2], [5, 0], -70_000, 9), ([-1, 32_000], [1, 32_767], 1_000_000, 0)]
    return encode(2, 0, rows, [-1234, 500])


def longest_sample():
    """Eight rows with a trial: 388 bytes."""
    stream = Stream(88)
    rows = [(stream.list(8, -COEFFICIENT, COEFFICIENT), stream.list(8, 0, TOLERANCE),
             stream.between(-RIGHT, RIGHT), stream.between(0, RIGHT)) for _ in range(8)]
    return encode(3, 0, rows, stream.list(8, -ANSWER, ANSWER))


def field_starts(data):
    """Where the fields of a well-formed case start."""
    starts, place = [], 0
    while place < len(data):
        starts.append(place)
        place += 3 + int.from_bytes(data[place + 1:place + 3], "big")
    return starts


# ---------------------------------------------------------------- the paper's trials, and buffers


def edge_trials():
    exchange = square([[0, 1], [1, 0]], [5, 7])
    inputs = [
        PRINTED,
        one(3, 1, 0, 1, e=1), one(3, 1, 0, 0, e=1), one(3, 1, 1, 0, e=1), one(3, -1, 0, 1, e=1),
        one(2, 1, 0, 1), one(2, 4, 1, 0, rounds=0, trial=1), one(2, 1, 5, 0, rounds=0, trial=0),
        exchange, square([[2, 1], [1, 3]], [5, 10]), square([[1, 1], [1, 1]], [0, 0]),
        square([[1, 1], [1, 1]], [3, 4]), one(1, RIGHT), b"",
        longest_sample(), head_field(9, 0, 1), encode(0, 1, [([1] * 9, [0] * 9, 1, 0)] * 9)[:389],
        one(-32_768, 1), square([[32_767, 1], [32_766, 1]], [1, 1]),
    ]
    return [(data, length) for data in inputs for length in (179, 180)]


def buffer_lengths():
    stream = Stream(1)
    inputs = [PRINTED, b"", PRINTED[:-1], PRINTED + b"\x00", one(0, 1), one(1, RIGHT)]
    inputs += [encode(1, stream.between(0, 8), shaped_rows(stream, n, 99), stream.list(n, -99, 99))
               for n in range(1, 9)]
    inputs += [longest_sample(), longest_sample() + b"\xff", one(1, 2, rounds=9)]
    return [(data, length) for data in inputs for length in BUFFERS]


# ---------------------------------------------------------------- every n, e and K


def shaped_rows(stream, n, size, tolerance=2, f=2):
    return [(stream.list(n, -size, size), stream.list(n, 0, tolerance),
             stream.between(-size, size), stream.between(0, f)) for _ in range(n)]


def planted_rows(stream, n, e, size, answer, spread):
    """Rows that the planted answer solves up to a right side off by at most spread."""
    rows = []
    for coefficients, tolerances, _, f in shaped_rows(stream, n, size, spread, spread):
        total = sum(a * y for a, y in zip(coefficients, answer))
        b = total // 10 ** e + stream.between(-spread, spread)
        rows.append((coefficients, tolerances, max(-RIGHT, min(RIGHT, b)), f))
    return rows


def every_shape():
    stream, inputs = Stream(2), []
    sizes = ((9, 50, 1), (999, 20_000, 3), (COEFFICIENT, 90_000, 0), (300, 9_000_000, 40))
    for n in range(1, 9):
        for e in range(4):
            for rounds in range(9):
                for size, reach, spread in sizes[:4 if n < 6 else 3]:
                    answer = stream.list(n, -reach, reach)
                    rows = planted_rows(stream, n, e, size, answer, spread)
                    trial = [max(-ANSWER, min(ANSWER, y + stream.between(-1, 1))) for y in answer]
                    inputs.append(encode(e, rounds, rows, trial))
    return with_buffers(inputs)


# ---------------------------------------------------------------- limits of every figure


def at_limits(name):
    """Both limits of a figure, one past each, and the ends of its encoding."""
    figure = reference.FIGURES[name]
    bits = 8 * figure.width
    ends = (-(1 << (bits - 1)), (1 << (bits - 1)) - 1) if figure.signed else (0, (1 << bits) - 1)
    values = {figure.lowest, figure.highest, figure.lowest - 1, figure.highest + 1, figure.highest - 1, 0, 1}
    values |= {-1, *ends} if figure.signed else {1 << (bits - 1), *ends}
    return sorted(value for value in values if ends[0] <= value <= ends[1])


def head_limits():
    inputs = []
    for n in at_limits("n"):
        count = n if 1 <= n <= 8 else 2
        for rounds in (0, 1):
            data = encode(0, rounds, [([i == j for j in range(count)], [0] * count, 3, 0)
                                      for i in range(count)], [3] * count)
            inputs.append(data[:3] + bytes([n]) + data[4:])
    for e in at_limits("e") + [2]:
        inputs += [one(7, 22, 1, 1, e=e), one(-7, 22, 1, 1, e=e, rounds=0, trial=-3)]
    for rounds in at_limits("K") + [2, 5]:
        inputs += [one(7, 22, 0, 1, rounds=rounds), one(7, 21, 0, 1, e=3, rounds=rounds)]
    return inputs


def figure_limits():
    """Each figure of a row and of the trial at its limits, in each place of small cases."""
    inputs = []
    for n in (1, 2, 3, 8):
        for name in "AEbfY":
            places = [(i, j) for i in {0, n - 1} for j in ({0, n - 1} if name in "AE" else {0})]
            for i, j in sorted(places):
                for value in at_limits(name):
                    inputs += [limited(n, name, i, j, value, 0), limited(n, name, i, j, value, 1)]
    return [data for data in inputs if data]


def limited(n, name, i, j, value, rounds):
    """A diagonal case where one figure takes the value; nothing for a trial that is not due."""
    if name == "Y" and rounds > 0 or n == 8 and rounds == 0 and name != "Y":
        return b""
    rows = [[[4 if c == r else 0 for c in range(n)], [1] * n, 9 + r, 2] for r in range(n)]
    trial = [2] * n
    if name in "AE":
        rows[i]["AE".index(name)][j] = value
    elif name in "bf":
        rows[i]["AEbf".index(name)] = value
    else:
        trial[i] = value
    return encode(0, rounds, rows, trial)


def limits():
    return with_buffers(head_limits() + figure_limits())


# ---------------------------------------------------------------- spoiled bytes


def cuts():
    samples = [PRINTED, small_sample(), longest_sample()]
    return with_buffers([data[:k] for data in samples for k in range(len(data) + 1)])


def changed():
    inputs = []
    for data in (PRINTED, small_sample()):
        for k, byte in enumerate(data):
            values = {byte ^ 0xFF, byte ^ 0x80, (byte + 1) % 256, (byte - 1) % 256, 0, 0xFF} - {byte}
            inputs += [data[:k] + bytes([value]) + data[k + 1:] for value in sorted(values)]
    longest = longest_sample()
    for start in field_starts(longest):
        for k in range(start, start + 3):
            inputs.append(longest[:k] + bytes([longest[k] ^ 0x01]) + longest[k + 1:])
    return with_buffers(inputs)


def inserted_and_removed():
    inputs = []
    for data in (PRINTED, small_sample()):
        for k in range(len(data) + 1):
            inputs += [data[:k] + bytes([byte]) + data[k:] for byte in (0x00, 0xFF)]
            inputs.append(data[:k] + data[k + 1:])
    return with_buffers(inputs)


def appended():
    inputs = []
    for data in (PRINTED, small_sample(), one(0, 1), one(1, RIGHT), longest_sample()):
        for tail in (b"\x00", b"\xff", END, b"\x03\x00", PRINTED[:12], bytes(11)):
            inputs.append(data + tail)
    inputs += [PRINTED + PRINTED, small_sample() + PRINTED, PRINTED + bytes(400 - len(PRINTED))]
    longest = longest_sample()
    inputs += [longest, longest + b"\x01", longest[:-3] + b"\x00" + END, longest[:6] + bytes(383)]
    return with_buffers(inputs)


def tags_and_lengths():
    """Every tag and length of a small case replaced, with and without bytes enough."""
    inputs = []
    for data in (PRINTED, small_sample()):
        for start in field_starts(data):
            for tag in (0x00, 0x01, 0x02, 0x03, 0x04, 0x05, 0x10, 0x13, 0xFE, 0xFF):
                inputs.append(data[:start] + bytes([tag]) + data[start + 1:])
            due = int.from_bytes(data[start + 1:start + 3], "big")
            for length in (0, 1, 3, 4, 8, 12, 16, due + 1, due + 4, due + 256, 0xFF00, 0xFFFF):
                inputs.append(data[:start + 1] + number(length, 2) + data[start + 3:])
            if due > 0:
                inputs.append(data[:start + 1] + number(due - 1, 2) + data[start + 3:])
    return with_buffers(inputs)


def misplaced_fields():
    """Fields left out, doubled, exchanged or present where they are not due."""
    inputs = []
    for data in (PRINTED, small_sample()):
        starts = field_starts(data) + [len(data)]
        parts = [data[a:b] for a, b in zip(starts, starts[1:])]
        for k, part in enumerate(parts):
            inputs.append(b"".join(parts[:k] + parts[k + 1:]))
            inputs.append(b"".join(parts[:k] + [part, part] + parts[k + 1:]))
            inputs.append(b"".join(parts[:k]) + END)
            if k:
                inputs.append(b"".join(parts[:k - 1] + [part, parts[k - 1]] + parts[k + 1:]))
    one_row = ([5], [0], -2, 0)
    inputs.append(head_field(1, 0, 1) + row_field(one_row) + trial_field([1]) + END)
    inputs.append(head_field(1, 0, 0) + row_field(one_row) + END)
    inputs.append(head_field(2, 0, 1) + row_field(one_row) * 2 + END)
    return with_buffers(inputs)


def precedence():
    """Two faults at once: the one that the order reaches first decides."""
    row, bad = ([5, 6], [0, 0], 7, 0), ([5, -32_768], [0, 0], 7, 0)
    good, wrong = row_field(row), row_field(bad)
    inputs = [
        head_field(9, 4, 9) + b"\x07", head_field(2, 0, 1)[:-1] + b"\x09", b"\x02\x00", b"\x07\x00",
        b"\x07\x00\x04", b"\x01\x00\x04\x09", b"\x01\x00\x03\x09", b"\x01\x00\x03\x09\x00",
        head_field(2, 0, 1) + wrong + b"\x07" + good[1:] + END,
        head_field(2, 0, 1) + b"\x07" + good[1:] + wrong + END,
        head_field(2, 0, 1) + wrong[:-1], head_field(2, 0, 1) + good + wrong[:9],
        head_field(2, 0, 1) + b"\x02\x00\x11" + wrong[3:], head_field(2, 0, 1) + b"\x03\x00\x11",
        head_field(2, 0, 1) + good + good + b"\xff\x00\x01",
        head_field(2, 0, 1) + good + good + b"\xff\x00",
        head_field(2, 0, 1) + good + good + b"\xfe\x00\x01\x00",
        head_field(2, 0, 1) + good + wrong + END + b"\x00",
        square([[1, 1], [1, 1]], [1, 1]) + b"\x00", square([[1, 1], [1, 1]], [RIGHT, -RIGHT], e=3),
        one(0, RIGHT, e=3), one(0, RIGHT + 1), one(1, RIGHT) + b"\xff", one(1, RIGHT)[:-1],
        head_field(2, 0, 0) + good + good + trial_field([1, ANSWER + 1])[:-1],
        head_field(2, 0, 0) + good + good + trial_field([1, ANSWER + 1]) + END + END,
        head_field(2, 0, 0) + good + good + trial_field([1]) + END,
        head_field(2, 0, 0) + wrong + good + trial_field([1, 2]),
    ]
    return [(data, length) for data in inputs for length in (179, 180)]


# ---------------------------------------------------------------- elimination


def singular():
    stream, inputs = Stream(3), []
    for n in range(1, 9):
        zero = [[0] * n for _ in range(n)]
        inputs.append(square(zero, [0] * n, rounds=stream.between(1, 8)))
        for step in range(n):
            rows = shaped_rows(stream, n, 200)
            for coefficients, _, _, _ in rows:
                coefficients[step] = 0
            inputs.append(encode(stream.between(0, 3), stream.between(1, 8), rows))
        for _ in range(6):
            rows = shaped_rows(stream, n, stream.one_of((3, 40, COEFFICIENT)))
            source = stream.between(0, n - 1)
            target = (source + stream.between(1, n)) % n
            factor = stream.one_of((1, -1, 0))
            rows[target] = ([factor * a for a in rows[source][0]], *rows[target][1:])
            inputs.append(encode(stream.between(0, 3), stream.between(1, 8), rows))
        inputs.append(square(zero, [5] * n, 1, 1, rounds=0, trial=[1] * n))
    return with_buffers(inputs)


@rounding_by(away_from_zero)
def nearly_singular():
    """Small or zero determinants: refusal 8 without cause, and no refusal 8 with cause."""
    stream = Stream(4)
    inputs = [square([[32_767, 1], [32_766, 1]], [1, 1], rounds=k) for k in (1, 8)]
    inputs += [square([[32_767, -1], [-32_766, 1]], [1, 1]), square([[32_766, 1], [32_767, 1]], [1, 1])]
    wanted = {"refused": 30, "met": 20, "unmet": 20, "correction": 15, "answer": 15}
    for _ in range(6000):
        a, c = stream.between(1, COEFFICIENT), stream.between(1, COEFFICIENT)
        b = stream.between(1, COEFFICIENT)
        d = min(COEFFICIENT, b * c // a + stream.between(0, 1))
        rows = [([a, -b], [0, 0], stream.between(-99, 99), stream.between(0, 1)),
                ([-c, d], [0, 0], stream.between(-99, 99), stream.between(0, 1))]
        data = encode(stream.between(0, 1), stream.between(1, 8), rows)
        kind = finished(data)[0]
        if wanted[kind] > 0:
            wanted[kind] -= 1
            inputs.append(data)
    for k in range(1, 33):
        inputs.append(square([[3 * k, 5 * k + 1], [2 * k, 3 * k]], [k, 7], f=1, rounds=3))
        # determinant 0, yet for a large second column no pivot of the rounded elimination is 0
        inputs.append(square([[3 * k, 30 * k], [7 * k, 70 * k]], [k, -k], 1, 9, rounds=2))
        inputs.append(square([[3, 300 * k, 1], [7, 700 * k, 2], [k, 100 * k * k % 9999, 5]], [1, 2, 3], f=1))
    return with_buffers(inputs)


def pivot_ties():
    stream = Stream(5)
    inputs = []
    for first, second in ((2, 2), (2, -2), (-2, 2), (-2, -2), (0, 0)):
        for b in ([1, 2], [-7, 5]):
            inputs.append(square([[first, 1], [second, 3]], b, 1, 0, rounds=2))
            inputs.append(square([[1, 4, 7], [first, 2, -9], [second, -5, 3]], b + [11], 0, 1, e=2, rounds=1))
            inputs.append(square([[first, 4, 7], [1, 2, -9], [second, -5, 3]], b + [11], 0, 1, e=2, rounds=3))
    for n in range(2, 9):
        for _ in range(12):
            top = stream.one_of((1, 3, 100, COEFFICIENT))
            coefficients = [[stream.one_of((-top, top)) for _ in range(n)] for _ in range(n)]
            b = stream.list(n, -50 * top, 50 * top)
            inputs.append(square(coefficients, b, stream.between(0, 1), stream.between(0, 3),
                                 e=stream.between(0, 3), rounds=stream.between(1, 4)))
    return with_buffers(inputs)


def shuffled(stream, values):
    values = list(values)
    for i in range(len(values) - 1, 0, -1):
        j = stream.between(0, i)
        values[i], values[j] = values[j], values[i]
    return values


def row_orders():
    """Permuted triangular cases with a tolerance of its own in each row."""
    stream, inputs = Stream(6), []
    for n in range(2, 9):
        for _ in range(10):
            rows = []
            for i in shuffled(stream, range(n)):
                coefficients = [stream.between(-9, 9) if j > i else 0 for j in range(n)]
                coefficients[i] = stream.one_of((-40, 7, 13))
                rows.append((coefficients, [stream.between(0, 1) * i] * n,
                             stream.between(-900, 900), stream.between(0, 1) * (i + 1)))
            inputs.append(encode(stream.between(0, 3), stream.between(1, 3), rows))
    return with_buffers(inputs)


def halves():
    """Rounded divisions that fall on a half, in each of the four places that round."""
    inputs = []
    for a, b in ((2, 1), (2, -1), (-2, 1), (-2, -1), (4, 2), (6, -3), (2, 3), (-2, 5), (10, 5)):
        for rounds in (1, 2, 3, 8):
            inputs += [one(a, b, 0, 0, rounds=rounds), one(a, b, 1, 0, rounds=rounds)]
    for top in (512, -512):  # the update: M is 32 times an odd number, W 256 times an odd one
        for low in (1, -1, 3, -3, 5, -255):
            for side in (1, -1, 3, -7, 201):
                inputs.append(square([[top, side], [low, 2]], [100 * side, 77], f=2, e=1, rounds=1))
    for side in (1, -1, 3, -3, 5, 77, -101):  # the multiplier: W(2,2) is 32,768 and W(3,2) is odd
        for low in (0, 1, -1, 100):
            for diagonal in (128, -128):
                coefficients = [[256, side, 5], [0, diagonal, 9_001], [1, low, 3]]
                inputs.append(square(coefficients, [9, -1, 4_000], f=1, e=3, rounds=1))
    for ratio in (2, -2):  # the residual: M is 8,192 and z odd
        for b in (1, -1, 3, -5, 999):
            inputs.append(square([[ratio, 1], [1, 5]], [b, 100], f=0, rounds=1))
            inputs.append(square([[ratio, 1], [1, 5]], [b, -100], f=1, rounds=4))
    return with_buffers(inputs)


def odd(stream, most):
    """An odd number on either side of zero."""
    return 2 * stream.between(-most, most - 1) + 1


def on_halves(stream, n):
    """A case with halves in its multipliers, in the forward pass and, as chance has it, in its entries' losses.

    Signs aside: W(1,1) is 65,536 and W(i,1) 256, so that M(i,1) is 64, z(1) / 256 on a half, and W(i,2) odd;
    W(2,2) is 32,768, so that M(i,2) comes from a half, and W(2,j) 4,096 times an odd number. The rows below
    are so close to multiples of the second that the last pivots are small: the answer shows one more or less.
    Where n is even the last tank has a row of its own, with its correction on a half.
    """
    e, alone = stream.between(0, 3), n % 2 == 0
    d, later = 10 ** e, n - 2 - alone
    first, second, last = (stream.one_of((1, -1)) * size for size in (256, 128, stream.between(1, 9)))
    large = [16 * odd(stream, 250) for _ in range(later)]
    rows = [([first, odd(stream, 60), *stream.list(later, -99, 99)], (128 >> e) * odd(stream, 9)),
            ([0, second, *large], stream.between(-99, 99))]
    for _ in range(later):
        low = stream.between(-99, 99)
        beside = [low * a // second + stream.between(-1, 1) for a in large]
        rows.append(([stream.one_of((1, -1)), low, *beside], stream.between(-20_000 // d, 20_000 // d)))
    if alone:
        rows = [(row + [0], b) for row, b in rows] + [([0] * (n - 1) + [2 * d * last], last * odd(stream, 9))]
    f = stream.one_of((0, 1, 1, 90_000))
    return encode(e, stream.one_of((1, 1, 2)), [(row, [0] * n, b, f) for row, b in shuffled(stream, rows)])


def half_shows(data, call=reference.call):
    """Whether the call leaves a count of bytes, and other ones than when a half went away from zero."""
    today = call(data, reference.LEAST_RESULT_BUFFER)
    with rounding_by(away_from_zero):
        before = call(data, reference.LEAST_RESULT_BUFFER)
    return today[0].kind == reference.COUNT and today != before


def even_halves():
    """Halves in every place that rounds, odd and even quotients on both sides of zero; each case shows one."""
    stream, inputs = Stream(16), []
    for n in range(3, 9):
        drawn = [on_halves(stream, n) for _ in range(30)]
        inputs += [data for data in drawn if half_shows(data)][:15]
    return with_buffers(inputs)


def growth():
    """The largest working numbers and residuals that the limits allow."""
    stream, inputs = Stream(7), []
    for n in (2, 5, 7, 8):
        for top in (COEFFICIENT, -COEFFICIENT):
            for e in (0, 3):
                rows = [[top if i == j or j == n - 1 else (-top if j < i else 0)
                         for j in range(n)] for i in range(n)]
                for b in (RIGHT, -RIGHT, RIGHT // 900):
                    inputs.append(square(rows, [b] * n, 1, 5, e=e, rounds=2))
                inputs.append(square(rows, [RIGHT * (-1) ** i for i in range(n)], 0, 5, e=e, rounds=1))
    for n in range(1, 9):
        for _ in range(10):
            coefficients = [[stream.one_of((-COEFFICIENT, COEFFICIENT, COEFFICIENT - 1)) for _ in range(n)]
                            for _ in range(n)]
            b = [stream.one_of((-RIGHT, RIGHT, RIGHT // 7, 0)) for _ in range(n)]
            inputs.append(square(coefficients, b, stream.one_of((0, TOLERANCE)), stream.one_of((0, RIGHT)),
                                 e=stream.between(0, 3), rounds=stream.between(1, 8)))
    return with_buffers(inputs)


# ---------------------------------------------------------------- rounds and refusal 9


def demanding(stream):
    """Rows close to proportional and a planted answer: refinement has work to do."""
    n = stream.one_of((2, 2, 3, 3, 4, 5, 6, 7, 8))
    size, noise = stream.one_of((50, 500, 5000, 30_000)), stream.one_of((1, 2, 5, 20, 100))
    base = stream.list(n, -size, size)
    coefficients = []
    for _ in range(n):
        tilt = stream.between(-16, 16)
        row = [a * tilt // 16 + stream.between(-noise, noise) for a in base]
        coefficients.append([max(-COEFFICIENT, min(COEFFICIENT, a)) for a in row])
    reach = stream.one_of((100, 10_000, 1_000_000))
    e = stream.between(0, 2)
    answer = [y * 10 ** e for y in stream.list(n, -reach // 10 ** e, reach // 10 ** e)]
    b = [total // 10 ** e for total in products(coefficients, answer)]
    b = [max(-RIGHT, min(RIGHT, figure)) for figure in b]
    tolerance = stream.one_of((0, 0, 0, 1))
    return square(coefficients, b, tolerance, stream.one_of((0, 0, 1, 10)), e=e, rounds=8)


@rounding_by(away_from_zero)
def later_rounds():
    """Met at each round from 1 to 8, the same unmet with one round less, refused later on."""
    stream, inputs = Stream(9), []
    wanted = {("met", r): 14 for r in range(1, 9)}
    wanted |= {("unmet", 8): 40, ("correction", 9): 30, ("answer", 9): 30, ("refused", 8): 10}
    for _ in range(20_000):
        if not any(wanted.values()):
            break
        data = demanding(stream)
        kind = finished(data)
        if wanted[kind] == 0:
            continue
        wanted[kind] -= 1
        inputs.append(data)
        if kind[0] == "met":
            inputs.append(with_rounds(data, kind[1]))
            inputs += [with_rounds(data, kind[1] - 1)] if kind[1] > 1 else []
        elif kind[0] != "refused":
            inputs += [with_rounds(data, stream.between(1, 7)) for _ in range(2)]
    return with_buffers(inputs)


def outside():
    """Refusal 9 by a correction and by an answer figure, and the figures that just pass."""
    inputs = []
    for side in (1, -1):
        for a in (1, -1):
            for b in (ANSWER - 1, ANSWER, ANSWER + 1, 2 * ANSWER, 2 * ANSWER + 1, RIGHT):
                inputs += [one(a, side * b), one(a, side * b, 0, RIGHT, rounds=3)]
        inputs += [one(2, side * (2 * ANSWER + 1)), one(2, side * (2 * ANSWER - 1)),
                   one(3, side * (3 * ANSWER + 1)), one(3, side * (3 * ANSWER + 2))]
        for first in (5, ANSWER, ANSWER + 1, 2 * ANSWER, 2 * ANSWER + 1):
            for second in (-5, -ANSWER, -ANSWER - 1, -2 * ANSWER, -2 * ANSWER - 1):
                inputs.append(square([[1, 0], [0, 1]], [side * first, side * second], 1, 1, rounds=2))
        inputs.append(square([[1, 3], [0, 1]], [0, side * 6_666_667], rounds=2))
        inputs.append(square([[1, 2], [0, 1]], [0, side * ANSWER], rounds=2))
        inputs.append(square([[1, 1], [0, 1]], [0, side * ANSWER], rounds=2))
    # the second round corrects -10,000,000 or 10,000,000 by exactly twice that, which passes
    for b in ([0, 234_375], [1, -234_375], [0, 234_374], [0, -234_374], [0, 234_376], [-38, -234_394]):
        for rounds in (1, 2, 3):
            inputs.append(square([[20_736, 2_271], [10_098, 1_106]], b, rounds=rounds))
    return with_buffers(inputs)


# ---------------------------------------------------------------- judgement of brought trials


def exact_row(residual, reach, n, place):
    """A row for e 3 and trial 9,999,999 in one place that has exactly this residual and reach."""
    y = ANSWER - 1
    a = residual % 1000 - (1000 if residual > 0 else 0)
    tolerance = -reach % 1000
    coefficients, tolerances = [0] * n, [0] * n
    coefficients[place], tolerances[place] = a, tolerance
    return coefficients, tolerances, (residual + a * y) // 1000, (reach - tolerance * y) // 1000


def exact_case(pairs, place=0):
    n = len(pairs)
    rows = [exact_row(residual, reach, n, place) for residual, reach in pairs]
    trial = [0] * n
    trial[place] = ANSWER - 1
    return encode(3, 0, rows, trial)


def neighbour(u, v, most):
    """p / q with q at most the given number and |u × q − p × v| = 1 (u and v without common factor)."""
    q = pow(u, -1, v)
    q += (most - q) // v * v
    return (u * q - 1) // v, q


def close_factors():
    """Factors that are equal, or differ so little that cross products pass 64 bits."""
    stream, inputs = Stream(10), []
    low, high = 10 ** 10, 9 * 10 ** 11
    for _ in range(60):
        v = stream.between(low, high // 3)
        u = stream.between(low, high // 3)
        while Fraction(u, v).denominator != v:
            u += 1
        p, q = neighbour(u, v, high)
        pairs = [(u, v), (2 * u, 2 * v), (p if p < high else u, q if p < high else v), (u - 1, v)]
        shift = stream.between(0, 3)
        pairs = pairs[shift:] + pairs[:shift]
        pairs = [(stream.one_of((1, -1)) * r, t) for r, t in pairs]
        inputs.append(exact_case(pairs[:stream.between(2, 4)], stream.between(0, 1)))
    golden = [365_435_296_162, 591_286_729_879, 956_722_026_041]
    for r, t in ((0, 1), (1, 0), (1, 2), (2, 1)):
        for other in ((golden[1], golden[0]), (golden[1] + 1, golden[0]), (golden[0], golden[1])):
            inputs.append(exact_case([(golden[r], golden[t]), other]))
            inputs.append(exact_case([other, (-golden[r], golden[t]), other]))
    return with_buffers(inputs)


def boundaries():
    """|R| equal to T, one below and one above, on both sides of zero; halves of the same."""
    stream, inputs = Stream(11), []
    for _ in range(25):
        reach = stream.between(10 ** 10, 9 * 10 ** 11)
        for residual in (reach, reach + 1, reach - 1):
            inputs.append(exact_case([(residual, reach), (-residual, reach)], stream.between(0, 1)))
    for n in range(1, 5):
        for _ in range(12):
            trial = stream.list(n, -9, 9)
            rows = shaped_rows(stream, n, 9, 2, 4)
            total = products([row[0] for row in rows], trial)
            rows = [(a, t, s + stream.one_of((1, -1)) * (f + sum(x * abs(y) for x, y in zip(t, trial))), f)
                    for (a, t, _, f), s in zip(rows, total)]
            inputs.append(encode(0, 0, rows, trial))
            rows[-1] = (*rows[-1][:2], rows[-1][2] + stream.one_of((1, -1)), rows[-1][3])
            inputs.append(encode(0, 0, rows, trial))
    return with_buffers(inputs)


def zero_reaches():
    """Rows without reach, with and without a residual, among rows that have one."""
    stream, inputs = Stream(12), []
    for n in range(1, 9):
        for _ in range(14):
            rows, trial = [], stream.list(n, -20, 20)
            trial[stream.between(0, n - 1)] = 0
            for i in range(n):
                coefficients = stream.list(n, -50, 50)
                total = sum(a * y for a, y in zip(coefficients, trial))
                kind = stream.between(0, 3)
                tolerances = [stream.between(0, 9) if kind > 1 or trial[j] == 0 else 0 for j in range(n)]
                b = total + (0 if kind in (0, 3) else stream.between(-90, 90))
                rows.append((coefficients, tolerances, b, stream.between(0, 5) if kind > 1 else 0))
            inputs.append(encode(0, 0, rows, trial))
        zero = [([0] * n, [9] * n, b, 0) for b in range(n)]
        inputs += [encode(2, 0, zero, [0] * n), encode(2, 0, zero[:-1] + [([1] * n, [0] * n, 0, 0)], [0] * n)]
    inputs += [one(a, b, 0, 0, e=e, rounds=k) for a, b in ((3, 1), (-3, 1), (7, -9), (7, 14))
               for e in range(4) for k in (1, 2)]
    return with_buffers(inputs)


def equal_factors():
    """The greatest factor in several rows, as multiples of one fraction and with either sign."""
    stream, inputs = Stream(13), []
    for n in range(2, 9):
        for _ in range(10):
            u, v = stream.between(0, 12), stream.between(1, 9)
            rows, trial = [], [stream.between(1, 9)] + stream.list(n - 1, -9, 9)
            for i in range(n):
                times = stream.between(1, 7)
                residual = stream.one_of((1, -1)) * times * (u if stream.between(0, 2) else u // 2)
                coefficients = stream.list(n, -9, 9)
                total = sum(a * y for a, y in zip(coefficients, trial))
                rows.append((coefficients, [0] * n, total + residual, times * v))
            inputs.append(encode(0, 0, rows, trial))
    return with_buffers(inputs)


def extremes():
    """Trials, coefficients and tolerances at their limits: the largest residuals and reaches."""
    stream, inputs = Stream(14), []
    for n in range(1, 9):
        for side in (1, -1):
            full = [COEFFICIENT] * n
            rows = [(full, [TOLERANCE] * n, -side * RIGHT, RIGHT)] * n
            inputs.append(encode(3, 0, rows, [side * ANSWER] * n))
            inputs.append(encode(3, 0, [(full, [0] * n, -side * RIGHT, 0)] * n, [side * ANSWER] * n))
        for _ in range(6):
            rows = [(stream.list(n, -COEFFICIENT, COEFFICIENT), stream.list(n, 0, TOLERANCE),
                     stream.one_of((RIGHT, -RIGHT)), stream.one_of((0, 1, RIGHT))) for _ in range(n)]
            trial = [stream.one_of((ANSWER, -ANSWER, 0, 1, -1)) for _ in range(n)]
            inputs.append(encode(stream.between(0, 3), 0, rows, trial))
    return with_buffers(inputs)


def signs():
    """Every sign of coefficient, right side and answer, in one and two unknowns."""
    inputs = []
    figures = (0, 1, -1, 4, -4, 9, -9, 10, -10, 99, -99, 100, -100, 999, -999, 1000, -1001, 12_345, -12_345)
    for e in range(4):
        for y in figures:
            inputs.append(one(3, 1, 2, 0, e=e, rounds=0, trial=y))
            inputs.append(encode(e, 0, [([1, -1], [3, 1], y, 0), ([-2, 5], [0, 7], -y, 1)], [y, -y]))
    for a in (5, -5, 7, -7):
        for b in (2, -2, 38, -38, 1_000_003, -1_000_003):
            for e in range(4):
                inputs.append(one(a, b, 0, 1, e=e))
    return with_buffers(inputs)


# ---------------------------------------------------------------- which trial is kept


def rounds_of(data):
    """The trials of the rounds as far as they come, and the refusal that ends them or 0."""
    trials = []
    try:
        for trial in reference.trials_of(reference.take_case(data)):
            trials.append(trial)
    except reference.Refused as refused:
        return trials, refused.number
    return trials, 0


def different_figures(trials):
    """Whether the rows that decide these trials differ in |R| or T."""
    judged = [(trial.judgement, trial.judgement.decides - 1) for trial in trials]
    return len({(abs(judgement.residuals[row]), judgement.reaches[row]) for judgement, row in judged}) > 1


def place_kind(trials, best, none):
    """Where the least factor is, or that there is none; the first and the last of equals may differ."""
    if len(trials) == 1:
        return "one round"
    if len(best) == 1:
        place = {0: "the first", len(trials) - 1: "the last"}.get(best[0], "a middle")
        return f"best in {place} round alone"
    alike = "alike" if trials[best[0]].answer == trials[best[-1]].answer else "differing"
    return f"no factor in any round, {alike}" if none else f"best in several rounds, {alike}"


def unmet_kinds(trials):
    """The kinds under which the trials of all rounds are counted if none is met."""
    ranks = [reference.rank(trial) for trial in trials]
    least = min(ranks)
    best = [i for i, rank in enumerate(ranks) if rank == least]
    without = [i for i, (none, _) in enumerate(ranks) if none]
    found = ["no trial met", f"kept from round {best[0] + 1}", place_kind(trials, best, least[0])]
    if ranks[-1] > least:
        found.append("an earlier round better than the last")
    if without and without[-1] == len(trials) - 1 and not least[0]:
        found.append("kept with a factor, last without")
    if without and without[0] < best[0]:
        found.append("kept with a factor, an earlier one without")
    if not least[0] and different_figures([trials[i] for i in best]):
        found.append("least factor from different figures")
    return found


def trial_kinds(data):
    """The kinds under which the trials of a sound case with rounds are counted."""
    trials, number = rounds_of(data)
    if number:
        return [f"refusal {number} after trials"] if trials else []
    if not trials[-1].judgement.met:
        return unmet_kinds(trials)
    differing = len({reference.rank(trial) for trial in trials[:-1]}) > 1
    return ["met after trials that rank differently"] if differing else []


def crowded(stream, n):
    """Rows close to proportional, with right sides that hardly any answer solves."""
    size, noise = stream.one_of((50, 900, 9_000, 30_000)), stream.one_of((1, 3, 20))
    base, answer = stream.list(n, -size, size), stream.list(n, -300, 300)
    e, rows = stream.one_of((0, 0, 1, 2, 3)), []
    for _ in range(n):
        tilt = stream.between(-16, 16)
        row = [a * tilt // 16 + stream.between(-noise, noise) for a in base]
        b = sum(a * y for a, y in zip(row, answer)) // 10 ** e + stream.between(-noise, noise)
        rows.append((row, stream.list(n, 0, stream.between(0, 1)), b, stream.one_of((0, 1, 1, 2))))
    return encode(e, stream.between(2, 8), rows)


def steep(stream, n):
    """Two tanks so alike that the second pivot is mostly rounding: rounds overshoot, circle or grow."""
    rows = [[[stream.between(1, 99) * (i == j) for j in range(n)], stream.list(n, 0, stream.between(0, 1)),
             stream.between(-999, 999), stream.between(1, 2)] for i in range(n)]
    first = stream.between(0, n - 1)
    second = (first + stream.between(1, n - 1)) % n
    a, b, c = stream.list(2, 9_000, COEFFICIENT) + stream.list(1, 1, 9_000)
    size = stream.one_of((10, 1_000, 100_000, 5_000_000))
    for row, left, right in ((first, a, b), (second, c, b * c // a + stream.between(0, 1))):
        rows[row][0] = [left * (j == first) + right * (j == second) for j in range(n)]
        rows[row][1][first] = stream.one_of((0, 0, 1, left // 50))
        rows[row][2] = stream.between(-size, size)
    return encode(stream.between(0, 3), stream.between(2, 8), rows)


def halving(stream, n):
    """One tank a row, some answers on a half: the first round's figure stays.

    When a half went away from zero, such an answer went up and down between two figures.
    """
    rows = []
    for i in range(n):
        half, tolerances = stream.between(1, 9), [0] * n
        tolerances[stream.between(0, n - 1)] = stream.one_of((0, 1, 2))
        b = half * stream.one_of((1, 1, 1, -1, 3, 5, -7)) + stream.one_of((0, 0, stream.between(-half, half)))
        rows.append(([2 * half * (i == j) for j in range(n)], tolerances, b, stream.one_of((0, 0, 1, 2))))
    return encode(0, stream.between(2, 8), rows)


def narrow(stream, n):
    """Small answers and one tolerance a row: a row has no reach while that tank's figure is zero."""
    most, rows = stream.one_of((3, 9, 30)), []
    base = stream.list(n, -most, most)
    for _ in range(n):
        tilt, tolerances = stream.one_of((1, -1, 2, 0, 0)), [0] * n
        tolerances[stream.between(0, n - 1)] = stream.one_of((1, 1, 2, 5))
        row = [tilt * a + stream.between(-3, 3) for a in base]
        rows.append((row, tolerances, stream.between(-most, most), stream.one_of((0, 0, 0, 1))))
    return encode(0, stream.between(2, 8), rows)


def balanced(stream, n):
    """One tank's figure is on a half, and a row that decides hangs on it: the figure is 0 and stays.

    When a half went away from zero it went from 1 to 0 and back, with equal or nearly equal factors.
    """
    rows = [[[2 * (i == j) for j in range(n)], [0] * n, stream.one_of((1, -3, 8)), 9] for i in range(n)]
    first = stream.between(0, n - 1)
    second = (first + stream.between(1, n - 1)) % n
    factor, f, tolerance = stream.between(2, 5), stream.between(1, 4), stream.between(1, 3)
    lean, large = stream.one_of((0, 0, -1, 1)) - tolerance * factor, stream.between(200, 999)
    rows[first] = [[40 * (j == first) for j in range(n)], [0] * n, 20, 20]
    rows[second] = [[lean * (j == first) + large * (j == second) for j in range(n)],
                    [tolerance * (j == first) for j in range(n)],
                    f * factor + large * stream.between(-99, 99), f]
    return encode(0, stream.between(2, 8), rows)


# how many cases of each kind are looked for with each n
WANTED_TRIALS = {
    "best in the first round alone": 8, "best in a middle round alone": 8, "best in the last round alone": 7,
    "best in several rounds, differing": 6, "best in several rounds, alike": 4,
    "no factor in any round, differing": 5, "no factor in any round, alike": 3,
    "kept with a factor, last without": 5, "kept with a factor, an earlier one without": 5,
    "least factor from different figures": 4, "kept from round 7": 1, "kept from round 8": 1,
    "met after trials that rank differently": 5, "refusal 9 after trials": 5,
}


def looked_for(stream, n, wanted, draws, makers):
    """Cases with these kinds of trials, as many as are wanted or as the draws bring."""
    inputs, wanted = [], dict(wanted)
    for k in range(draws):
        data = makers[k % len(makers)](stream, n)
        due = [kind for kind in trial_kinds(data) if wanted.get(kind)]
        if due:
            inputs.append(data)
        for kind in due:
            wanted[kind] -= 1
    return inputs


@rounding_by(away_from_zero)
def best_trials():
    """Every kind of ranking for each n, as far as chance finds it, and some of the cases with one round."""
    stream, inputs = Stream(15), []
    for n in range(1, 9):
        makers = (halving, narrow, crowded, steep, balanced)[:5 if n > 1 else 3]
        inputs += looked_for(stream, n, WANTED_TRIALS, 1_800, makers)
        inputs += [with_rounds(data, 1) for data in inputs[-3:]]
    return with_buffers(inputs)


# ---------------------------------------------------------------- trials in turn


def overshooting(stream):
    """Two rows of two tanks whose second pivot is rounded to about half: every correction is twice too large.

    Of each row its two coefficients and its right side; those of the second have a common divisor now and then.
    """
    while True:
        a, b = stream.list(2, 9_000, COEFFICIENT)
        times = stream.between(1, 5)
        c = times * stream.between(1, 9_000 // times)
        d = times * (b * c // a // times + stream.between(0, 1))
        pivot = 256 * d - reference.loss(reference.multiplier(c, a), 256 * b)
        if pivot and abs(Fraction(256 * (a * d - b * c), a * pivot) - 2) <= Fraction(1, 4):
            right = stream.between(-5 * a, 5 * a)
            return (a, b, right), (c, d, times * (c * right // a // times + stream.between(0, 1)))


def alternating_rows(stream, n):
    """Rows in which two tanks go to and fro between two trials or a few, and which tanks and rows those are."""
    first = stream.between(0, n - 2)
    pair = (first, stream.between(first + 1, n - 1))
    rows = [[[stream.between(1, 99) * (i == j) for j in range(n)], [0] * n, stream.between(-999, 999), 99]
            for i in range(n)]
    for i, (left, beside, right) in zip(pair, overshooting(stream)):
        rows[i] = [[left * (j == pair[0]) + beside * (j == pair[1]) for j in range(n)], [0] * n, right, 0]
    return rows, pair


def alternating(stream, n):
    """One tolerance in each of the two rows: no reach where that tank's figure comes to zero."""
    rows, pair = alternating_rows(stream, n)
    for i in pair:
        rows[i][1][stream.one_of(pair)], rows[i][3] = stream.between(1, 50), stream.one_of((0, 0, 1))
    return encode(0, stream.between(2, 8), rows)


def matching(trials, row, tank):
    """A tolerance for this tank and an f by which the row's factor is the same above 1 in both trials, or zeros.

    The larger residual has to be where the tank's figure is larger.
    """
    sizes = [(abs(trial.answer[tank]), abs(trial.judgement.residuals[row])) for trial in trials]
    (p, r), (q, s) = sorted(sizes)
    common = math.gcd(r, s)
    if not (p < q and 0 < r < s and common > q - p):
        return 0, 0
    tolerance = (s - r) // common
    f = (q - p) * (r // common) - tolerance * p
    return (tolerance, f) if f >= 0 and tolerance <= TOLERANCE else (0, 0)


def equal_in_turn(stream, n):
    """One of the two rows decides, with equal factors of different figures in the trials that come in turn."""
    rows, pair = alternating_rows(stream, n)
    row, tank = stream.one_of(pair), stream.one_of(pair)
    trials, _ = rounds_of(encode(0, 8, rows))
    rows[pair[0]][3] = rows[pair[1]][3] = RIGHT
    if len(trials) == 8:
        rows[row][1][tank], rows[row][3] = matching(trials[-2:], row, tank)
    return encode(0, stream.between(2, 8), rows)


# how many cases of each kind are looked for with each n from 2 on; one tank stays where the first round puts it
WANTED_IN_TURN = {
    "best in several rounds, differing": 4, "least factor from different figures": 4,
    "kept with a factor, last without": 5, "kept with a factor, an earlier one without": 2,
}


def trials_in_turn():
    """Answers and factors that come and go in turn, as answers on a half brought them under the rule before."""
    stream, inputs = Stream(17), []
    for n in range(2, 9):
        inputs += looked_for(stream, n, WANTED_IN_TURN, 900, (alternating, equal_in_turn))
    return with_buffers(inputs)


FAMILIES = [
    ("edge trials", edge_trials), ("buffer lengths", buffer_lengths), ("every shape", every_shape),
    ("limits", limits), ("cuts", cuts), ("changed bytes", changed),
    ("inserted, removed", inserted_and_removed), ("appended", appended),
    ("tags and lengths", tags_and_lengths), ("misplaced fields", misplaced_fields),
    ("precedence", precedence), ("singular", singular), ("nearly singular", nearly_singular),
    ("pivot ties", pivot_ties), ("row orders", row_orders), ("halves", halves), ("growth", growth),
    ("later rounds", later_rounds), ("outside", outside), ("close factors", close_factors),
    ("boundaries", boundaries), ("zero reaches", zero_reaches), ("equal factors", equal_factors),
    ("extremes", extremes), ("signs", signs), ("best trials", best_trials),
    ("even halves", even_halves), ("trials in turn", trials_in_turn),
]


def named(families):
    """(family name, input, buffer length) of every call, in a fixed order."""
    return [(name, data, length) for name, make in families for data, length in make()]


def all_families():
    """Every vector."""
    return named(FAMILIES)
