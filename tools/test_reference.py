#!/usr/bin/env python3
"""Tests of the reference against the papers and against exact reasoning of their own.

    python3 tools/test_reference.py
"""

import itertools
import math
import os
import re
import subprocess
import sys
import unittest
from collections import Counter
from fractions import Fraction
from unittest import mock

HERE = os.path.dirname(os.path.abspath(__file__))
sys.path.insert(0, HERE)

import families  # noqa: E402
import matrix_calls  # noqa: E402
import reference  # noqa: E402
import samples  # noqa: E402
import sounding_calls  # noqa: E402
import vectors  # noqa: E402
import write_calls  # noqa: E402
from families import END, Stream, encode, head_field, one, row_field, square, trial_field  # noqa: E402
from reference import COUNT, REFUSAL, Outcome  # noqa: E402
from sounding_calls import holding  # noqa: E402

INPUTS = families.all_families()
CALLS = sounding_calls.all_calls()
MATRIX_READS = matrix_calls.all_reads()
MATRIX_WRITES = matrix_calls.all_writes()
# what every place of a list holds before a stored call: both bytes are A5
PLACE_FILL = -0x5A5B


# ---------------------------------------------------------------- independent definitions


def nearest(value):
    """The nearest whole number to a fraction, of two equally near the even one, by looking at neighbours."""
    below = value.numerator // value.denominator
    candidates = [below, below + 1]
    least = min(abs(value - c) for c in candidates)
    near = [c for c in candidates if abs(value - c) == least]
    return near[0] if len(near) == 1 else next(c for c in near if c % 2 == 0)


def determinant(rows):
    """By permutations, whole numbers only."""
    total = 0
    for order in itertools.permutations(range(len(rows))):
        inversions = sum(a > b for a, b in itertools.combinations(order, 2))
        product = (-1) ** inversions
        for i, j in enumerate(order):
            product *= rows[i][j]
        total += product
    return total


def step_by_step_elimination(case):
    """W, M and the order as dictionaries that count from 1, in the paper's words; None for 8."""
    n = case.n
    span = range(1, n + 1)
    w = {(i, j): 256 * case.coefficients[i - 1][j - 1] for i in span for j in span}
    m, order = {}, {i: i for i in span}
    for k in span:
        largest = max(abs(w[i, k]) for i in range(k, n + 1))
        if largest == 0:
            return None
        p = min(i for i in range(k, n + 1) if abs(w[i, k]) == largest)
        for j in span:
            w[k, j], w[p, j] = w[p, j], w[k, j]
        for j in range(1, k):
            m[k, j], m[p, j] = m[p, j], m[k, j]
        order[k], order[p] = order[p], order[k]
        for i in range(k + 1, n + 1):
            m[i, k] = nearest(Fraction(16_384 * w[i, k], w[k, k]))
            for j in range(k + 1, n + 1):
                w[i, j] = w[i, j] - nearest(Fraction(m[i, k] * w[k, j], 16_384))
    return w, m, order


def step_by_step_round(case, steps, y):
    """One round on an answer that counts from 1; None for refusal 9."""
    n, (w, m, order) = case.n, steps
    span = range(1, n + 1)
    r = {i: 10 ** case.e * case.right_sides[i - 1]
         - sum(case.coefficients[i - 1][j - 1] * y[j] for j in span) for i in span}
    z = {i: r[order[i]] for i in span}
    for i in span:
        for j in range(1, i):
            z[i] = z[i] - nearest(Fraction(m[i, j] * z[j], 16_384))
    d = {}
    for i in range(n, 0, -1):
        total = 256 * z[i] - sum(w[i, j] * d[j] for j in range(i + 1, n + 1))
        d[i] = nearest(Fraction(total, w[i, i]))
        if not -20_000_000 <= d[i] <= 20_000_000:
            return None
    new = {i: y[i] + d[i] for i in span}
    return new if all(-10_000_000 <= new[i] <= 10_000_000 for i in span) else None


def above(pair, other):
    """Whether |R| / T of one pair is above the other's, by cross products: T 0 is above every other."""
    return pair[0] * other[1] > other[0] * pair[1]


def worst_pair(case, answer):
    """|R| and T of a row that no other row is above, 0 and 1 standing for 0 and 0."""
    worst = (0, 1)
    for a, e, b, f in zip(case.coefficients, case.tolerances, case.right_sides, case.right_tolerances):
        residual = abs(10 ** case.e * b - sum(a[j] * answer[j] for j in range(case.n)))
        reach = 10 ** case.e * f + sum(e[j] * abs(answer[j]) for j in range(case.n))
        if residual > 0 and above((residual, reach), worst):
            worst = (residual, reach)
    return worst


def every_row_feasible(case, answer):
    if case.n > 5:  # the boxes have too many corners
        return not above(worst_pair(case, answer), (1, 1))
    return all(feasible(case, i, answer, Fraction(1)) for i in range(case.n))


def step_by_step(case):
    """(answer, rounds used), or 8 or 9, by the functions above."""
    steps = step_by_step_elimination(case)
    if steps is None:
        return 8
    y, kept, least = {i: 0 for i in range(1, case.n + 1)}, None, None
    for used in range(1, case.rounds + 1):
        y = step_by_step_round(case, steps, y)
        if y is None:
            return 9
        answer = [y[i] for i in range(1, case.n + 1)]
        if every_row_feasible(case, answer):
            return answer, used
        worst = worst_pair(case, answer)
        if kept is None or above(least, worst):
            kept, least = answer, worst
    return kept, case.rounds


def misses(case, i, answer, limit):
    """Left side less right side of a row at every corner of the box of changes under the limit."""
    sizes = [limit * t for t in case.tolerances[i]] + [limit * case.right_tolerances[i]]
    for corner in itertools.product(*[(-size, size) if size else (size,) for size in sizes]):
        left = sum((a + c) * y for a, c, y in zip(case.coefficients[i], corner, answer))
        yield left - 10 ** case.e * (case.right_sides[i] + corner[-1])


def feasible(case, i, answer, limit):
    """Whether changes under the limit solve the row: a linear form takes 0 on the box."""
    values = list(misses(case, i, answer, limit))
    return min(values) <= 0 <= max(values)


def depth_by_root(figure, e):
    """The greatest h with (h + 450)² at most the kilograms and 450²; D divides 1,000."""
    return math.isqrt(figure * (1_000 // 10 ** e) + 450 ** 2) - 450


def depths_or_refusal(record, e):
    """What soundings give for a record's answer: the depths, or 10."""
    kilograms = [Fraction(figure, 10 ** e) * 1_000 for figure in record.answer]
    if any(not 0 <= k <= 520_000 for k in kilograms):
        return 10
    return [depth_by_root(figure, e) for figure in record.answer]


MATRIX_LINE = "%%MatrixMarket matrix array integer general\n"


def matrix_size(rest):
    """n and the text behind the size line, byte for byte; none where the size line is not one."""
    if not rest.startswith(MATRIX_LINE):
        return None
    rest = rest[len(MATRIX_LINE):]
    while rest[:1] == "%":
        while rest[:1] not in ("\n", ""):
            rest = rest[1:]
        rest = rest[1:]
    digit, blank, rest = rest[:1], rest[1:2], rest[1:].lstrip(" ")
    if digit not in tuple("12345678") or blank != " " or rest[:2] != digit + "\n":
        return None
    return int(digit), rest[2:]


def matrix_entry(rest):
    """An entry and the text behind its line; none where there is no entry."""
    sign = -1 if rest[:1] == "-" else 1
    rest = rest.removeprefix("-")
    value, count = 0, 0
    while rest[:1] in tuple("0123456789"):
        value, count, rest = 10 * value + ord(rest[0]) - ord("0"), count + 1, rest[1:]
    if count not in range(1, 6) or value > 32_767 or rest[:1] != "\n":
        return None
    return sign * value, rest[1:]


def matrix_or_refusal(text):
    """n and the entries by row and column, counted from 1; or 11 or 12."""
    found = matrix_size(text.decode("latin-1"))
    if found is None:
        return 11
    (n, rest), entries = found, {}
    for column, row in itertools.product(range(1, n + 1), repeat=2):
        found = matrix_entry(rest)
        if found is None:
            return 12
        entries[row, column], rest = found
    return 12 if rest else (n, entries)


def matrix_written(n, coefficients):
    """The text of the writer, built up entry by entry in rows and columns counted from 1."""
    text = MATRIX_LINE + chr(48 + n) + " " + chr(48 + n) + "\n"
    for column, row in itertools.product(range(1, n + 1), repeat=2):
        entry = coefficients[n * (row - 1) + column - 1]
        figures = ""
        left = abs(entry)
        while left or not figures:
            left, last = divmod(left, 10)
            figures = chr(48 + last) + figures
        text += ("-" if entry < 0 else "") + figures + "\n"
    return text.encode("ascii")


def text_or_refusal(n, coefficients, length):
    """The text of the writer in a buffer of this length; or 1, 6 or 4."""
    if length < 496:
        return 1
    if n not in range(1, 9):
        return 6
    if len(coefficients) != n * n:
        return 4
    return 6 if max(map(abs, coefficients)) > 32_767 else matrix_written(n, coefficients)


def small_case(stream, n, size, rounds=0):
    rows = families.shaped_rows(stream, n, size, 2, 2)
    data = encode(stream.between(0, 1), rounds, rows, stream.list(n, -size, size))
    return reference.read_case(data)


def finished_record(data):
    outcome, buffer = reference.call(data, 180)
    assert outcome.kind == COUNT, outcome
    return reference.read_record(buffer[:outcome.number])


# ---------------------------------------------------------------- tests


class Rounding(unittest.TestCase):
    def test_against_fractions(self):
        for q in [q for q in range(-24, 25) if q]:
            for p in range(-80, 81):
                self.assertEqual(reference.rnd(p, q), nearest(Fraction(p, q)), (p, q))

    def test_large(self):
        stream = Stream(101)
        for _ in range(3000):
            q = stream.between(1, 2 ** 33) * stream.one_of((1, -1))
            p = (stream.between(0, 2 ** 29) * q) // 2 * stream.one_of((1, -1)) + stream.between(-1, 1)
            self.assertEqual(reference.rnd(p, q), nearest(Fraction(p, q)), (p, q))

    def test_halves_on_both_sides(self):
        halves, even = (-7, -5, -3, -1, 1, 3, 5, 7), [-4, -2, -2, 0, 0, 2, 2, 4]
        self.assertEqual([reference.rnd(p, 2) for p in halves], even)
        self.assertEqual([reference.rnd(-p, -2) for p in halves], even)
        self.assertEqual([reference.rnd(-p, 2) for p in halves], even[::-1])
        self.assertEqual([reference.rnd(p, -2) for p in halves], even[::-1])

    def test_halves_of_any_divisor(self):
        """A half lies between a whole number and the next one, of which one is even."""
        for half in (1, 2, 3, 7, 128, 8_192, 16_384, 2 ** 31, 2 ** 40 + 1):
            for whole in (*range(-6, 7), -20_000_000, -19_999_999, 19_999_998, 19_999_999, 2 ** 29 - 1):
                p, q = (2 * whole + 1) * half, 2 * half
                even = whole if whole % 2 == 0 else whole + 1
                self.assertEqual((reference.rnd(p, q), reference.rnd(-p, -q)), (even, even))
                self.assertEqual((reference.rnd(p - 1, q), reference.rnd(p + 1, q)), (whole, whole + 1))

    def test_as_floating_figures_are_rounded(self):
        """"The operators' other programs round as IEEE 754 does by default": quarters have no error there."""
        for p in range(-400, 401):
            for q in (1, 2, 4):
                self.assertEqual(reference.rnd(p, q), round(p / q))

    def test_stored_halves_in_each_place(self):
        """At least 50 finished cases for each place, with odd and even quotients and on both sides of zero."""
        found = Counter(kind for _, data, length in INPUTS for kind in vectors.kinds(data, length))
        places = ("multiplier", "entry's loss", "forward pass", "correction")
        for place, parity, side in itertools.product(places, ("odd", "even"), ("above", "below")):
            kind = f"half in {place}, {parity}, {side} zero"
            self.assertGreaterEqual(found[kind], 50, kind)

    def test_even_halves_show(self):
        """Each case made for them has another record than with the rule before."""
        made = [data for family, data, _ in INPUTS if family == "even halves"]
        self.assertTrue(all(families.half_shows(data) for data in made))
        self.assertEqual({data[3] for data in made}, set(range(3, 9)))


class PaperTrials(unittest.TestCase):
    """Every trial of "Trials at the edges" with every figure that the paper gives."""

    def check(self, data, **expected):
        record = finished_record(data)
        for name, value in expected.items():
            self.assertEqual(getattr(record, name), value, name)

    def refused(self, data, number, length=180):
        outcome, buffer = reference.call(data, length)
        self.assertEqual(outcome, Outcome(REFUSAL, number))
        self.assertEqual(buffer, b"\xa5" * length)

    def test_printed_case(self):
        data = bytes.fromhex("01 0003 01 01 01 02 000C 0005 0000 FFFFFFFE 00000000 FF 0000")
        outcome, buffer = reference.call(data, 200)
        record = bytes.fromhex("10 0003 01 00 01 11 0004 FFFFFFFC 12 0010" + "00" * 16
                               + "13 0002 00 01 FF 0000")
        self.assertEqual(outcome, Outcome(COUNT, 40))
        self.assertEqual(buffer, record + b"\xa5" * 160)
        text = "met row 0 rounds 1\nanswer 1 -0.4\nrow 1 residual 0 reach 0\nfactor row 1\n"
        self.assertEqual(reference.verdict_text(data), text)

    def test_a3_b1(self):
        self.check(one(3, 1, 0, 1, e=1), answer=[3], residuals=[1], reaches=[10], met=1, none=0)
        self.check(one(3, 1, 0, 0, e=1), met=0, first_unmet=1, none=1, decides=1, answer=[3], residuals=[1])
        self.check(one(3, 1, 1, 0, e=1), reaches=[3], met=1, answer=[3], residuals=[1])
        self.check(one(3, -1, 0, 1, e=1), answer=[-3], residuals=[-1], reaches=[10], met=1)

    def test_a2(self):
        self.check(one(2, 1, 0, 1), answer=[0], residuals=[1], reaches=[1], met=1, rounds_used=1)
        self.check(one(2, 4, 1, 0, rounds=0, trial=1), residuals=[2], reaches=[1], met=0, none=0, decides=1,
                   first_unmet=1, rounds_used=0)
        self.assertEqual(reference.factor(2, 1), 2)
        self.check(one(2, 1, 5, 0, rounds=0, trial=0), met=0, none=1, decides=1, residuals=[1], reaches=[0])

    def test_two_tanks(self):
        self.check(square([[0, 1], [1, 0]], [5, 7]), answer=[7, 5], met=1, none=0, decides=1, first_unmet=0)
        self.check(square([[2, 1], [1, 3]], [5, 10]), answer=[1, 3], met=1)

    def test_refusals(self):
        for b in ([0, 0], [3, 4], [-1, 1]):
            self.refused(square([[1, 1], [1, 1]], b), 8)
        self.refused(one(1, 1_000_000_000), 9)
        self.refused(families.PRINTED, 1, 179)
        self.assertEqual(reference.call(families.PRINTED, 180)[0], Outcome(COUNT, 40))
        self.refused(b"", 2)
        self.refused(b"", 1, 179)
        self.assertEqual(reference.call(families.longest_sample(), 180)[0], Outcome(COUNT, 180))
        self.refused(encode(0, 1, [([1] * 9, [0] * 9, 1, 0)] * 9), 6)
        self.refused(one(-32_768, 1), 6)


class Reading(unittest.TestCase):
    def test_order_at_each_field(self):
        good = row_field(([5, 6], [0, 0], 7, 0))
        bad = row_field(([5, -32_768], [0, 0], 7, 0))
        head = head_field(2, 0, 1)
        expected = [
            (b"\x09\x00", 2), (b"\x09\x00\x00", 3), (b"\x01\x00\x02\x09", 4), (b"\x01\x00\x03\x09", 5),
            (head_field(0, 0, 1), 6), (head_field(1, 4, 1), 6), (head_field(1, 0, 9), 6), (head, 2),
            (head + b"\x02\x00", 2), (head + b"\x03\x00\x00", 3), (head + b"\x02\x00\x0f" + bad[3:], 4),
            (head + bad[:-1], 5), (head + bad, 6), (head + good, 2), (head + good + END, 3),
            (head + good + good, 2), (head + good + good + b"\xff\x00", 2),
            (head + good + good + b"\xff\x00\x01\x00", 4),
            (head + good + good + b"\x03\x00\x08" + bytes(8), 3),
            (head + good + good + END + b"\x00", 7),
            (head_field(2, 0, 0) + good + good + END, 3),
            (head_field(2, 0, 0) + good + good + trial_field([0, 10_000_001]) + END, 6),
            (head_field(2, 0, 0) + good + good + trial_field([0, -10_000_001]) + b"\x00", 6),
        ]
        for data, number in expected:
            self.assertEqual(reference.read_case(data), number, data.hex())

    def test_every_cut_is_refused_with_2_or_5(self):
        for data in (families.PRINTED, families.small_sample(), families.longest_sample()):
            starts = families.field_starts(data)
            for length in range(len(data)):
                inside = min(length - start for start in starts if start <= length)
                self.assertEqual(reference.read_case(data[:length]), 2 if inside < 3 else 5)

    def test_longest(self):
        self.assertEqual(len(families.longest_sample()), 388)
        self.assertEqual(reference.read_case(families.longest_sample() + b"\x00"), 7)

    def test_longer_inputs_are_refused_alike_after_389_bytes(self):
        for _, data, _ in INPUTS:
            if len(data) > 389:
                self.assertEqual(reference.read_case(data), reference.read_case(data[:389]))


class Writing(unittest.TestCase):
    def test_round_trip_of_every_readable_input(self):
        for _, data, _ in INPUTS:
            case = reference.read_case(data)
            if isinstance(case, int):
                continue
            buffer = bytearray(b"\x5a" * 390)
            outcome = reference.write_case(
                case.n, case.e, case.rounds, sum(case.coefficients, []), sum(case.tolerances, []),
                case.right_sides, case.right_tolerances, case.trial, buffer)
            self.assertEqual(outcome, Outcome(COUNT, len(data)))
            self.assertEqual(bytes(buffer), data + b"\x5a" * (390 - len(data)))

    def test_what_is_written_is_read(self):
        for n, e, rounds, lists, length in write_calls.all_calls():
            buffer = bytearray(length)
            outcome = reference.write_case(n, e, rounds, *lists, buffer)
            if outcome.kind == REFUSAL:
                self.assertEqual(buffer, bytes(length))
                continue
            case = reference.read_case(bytes(buffer[:outcome.number]))
            self.assertEqual(case[:3], (n, e, rounds))
            self.assertEqual([sum(case.coefficients, []), sum(case.tolerances, []), *case[5:]], lists)

    def test_order_of_refusals(self):
        good = [[1, 0, 0, 1], [0] * 4, [1, 1], [0, 0], []]
        wrong_figure = [[-32_768, 0, 0, 1]] + good[1:]
        wrong_count = wrong_figure[:3] + [[0], []]
        for head, lists, length, number in (
            ((9, 0, 1), wrong_count, 387, 1), ((9, 0, 1), wrong_count, 388, 6),
            ((0, 0, 1), wrong_count, 388, 6),
            ((2, 4, 1), good, 388, 6), ((2, 0, 9), good, 388, 6), ((-1, 0, 1), good, 388, 6),
            ((2, 0, 1), wrong_count, 388, 4), ((2, 0, 0), good, 388, 4), ((2, 0, 1), wrong_figure, 388, 6),
            ((2, 0, 1), good[:4] + [[0, 0]], 388, 4), ((2, 0, 1), good, 0, 1),
        ):
            outcome = reference.write_case(*head, *lists, bytearray(length))
            self.assertEqual(outcome, Outcome(REFUSAL, number), (head, lists, length))
        self.assertEqual(reference.write_case(2, 0, 1, *good, bytearray(388)), Outcome(COUNT, 47))


class Steps(unittest.TestCase):
    def test_against_the_steps_counted_from_one(self):
        checked = 0
        for family, data, _ in INPUTS:
            case = reference.read_case(data)
            if isinstance(case, int) or case.rounds == 0 or family == "every shape":
                continue
            if case.n > 5 and family not in ("best trials", "even halves", "trials in turn"):
                continue
            expected = step_by_step(case)
            try:
                result = reference.work_out(case)
                found = result.trial.answer, result.rounds_used
            except reference.Refused as refused:
                found = refused.number
            self.assertEqual(found, expected, data.hex())
            checked += 1
        self.assertGreater(checked, 1000)

    def test_eight_rows_against_the_steps_counted_from_one(self):
        for n in (6, 7, 8):
            for seed in range(4):
                stream = Stream(300 + 10 * n + seed)
                case = small_case(stream, n, 900, rounds=2)
                case = case._replace(right_sides=stream.list(n, -10 ** 6, 10 ** 6), right_tolerances=[0] * n)
                case = case._replace(tolerances=[[0] * n for _ in range(n)])
                result = reference.work_out(case)
                self.assertEqual((result.trial.answer, result.rounds_used), step_by_step(case))

    def test_pivot_is_uppermost_of_equals(self):
        self.assertEqual(reference.pivot_row([[0, 0], [-3, 0], [3, 0]], 0), 1)
        self.assertEqual(reference.pivot_row([[3, 0], [-3, 0], [3, 0]], 0), 0)
        self.assertEqual(reference.pivot_row([[9, 1], [9, -2], [9, 2]], 1), 1)

    def test_triangular_cases_are_close_after_one_round(self):
        stream = Stream(103)
        for _ in range(200):
            n = stream.between(1, 8)
            rows = [[stream.between(-99, 99) if j > i else 0 for j in range(n)] for i in range(n)]
            for i in range(n):
                rows[i][i] = stream.between(1, 99) * stream.one_of((1, -1))
            data = square(rows, stream.list(n, -99, 99), e=stream.between(0, 3))
            if reference.call(data, 180)[0] != Outcome(REFUSAL, 9):
                for i, residual in enumerate(finished_record(data).residuals):
                    self.assertLessEqual(2 * abs(residual), abs(rows[i][i]))

    def test_nine_by_answer_and_by_correction(self):
        for b, place in ((10_000_001, "answer"), (20_000_000, "answer"), (20_000_001, "correction")):
            for side in (1, -1):
                with self.assertRaises(reference.Refused) as raised:
                    reference.work(one(1, side * b), 180)
                self.assertEqual((raised.exception.number, raised.exception.place), (9, place))
        self.assertEqual(finished_record(one(1, -10_000_000)).answer, [-10_000_000])

    def test_a_correction_at_its_limit_passes(self):
        data = square([[20_736, 2_271], [10_098, 1_106]], [0, 234_375], rounds=2)
        answers = [trial.answer for trial in reference.trials_of(reference.read_case(data))]
        self.assertEqual(answers, [[-1_095_197, 10_000_000], [1_095_197, -10_000_000]])
        self.assertEqual(reference.call(data, 180)[0], Outcome(COUNT, 60))


def trial_of(figure, *pairs):
    """A trial that brings this figure and has rows with these residuals and reaches."""
    row_residuals, row_reaches = (list(figures) for figures in zip(*pairs))
    unmet = reference.first_unmet_row(row_residuals, row_reaches)
    none, decides = reference.deciding([reference.factor(*pair) for pair in pairs])
    judgement = reference.Judgement(unmet == 0, unmet, row_residuals, row_reaches, none, decides)
    return reference.Trial([figure], judgement)


# least numbers of the stored cases' kinds
KINDS_DUE = {
    "no trial met": 300, "an earlier round better than the last": 150, "one round": 20,
    "best in the first round alone": 20, "best in a middle round alone": 20, "best in the last round alone": 20,
    "best in several rounds, differing": 20, "best in several rounds, alike": 20,
    "least factor from different figures": 20,
    "no factor in any round, differing": 20, "no factor in any round, alike": 20,
    "kept with a factor, last without": 20, "kept with a factor, an earlier one without": 20,
    "met after trials that rank differently": 20, "refusal 9 after trials": 20,
} | {f"kept from round {r}": 4 for r in range(1, 9)}


class KeptTrials(unittest.TestCase):
    """Document 02, "Keep the best trial"."""

    def kept(self, *trials):
        """The figure of the trial kept of these."""
        return reference.kept_trial([trial_of(k, *pairs) for k, pairs in enumerate(trials, 1)]).answer[0]

    def rounds(self, data):
        """Answer and factor of every trial."""
        trials, _ = families.rounds_of(data)
        return [(trial.answer, reference.trial_factor(trial)) for trial in trials]

    def check(self, data, answer, rounds_used, **expected):
        record = finished_record(data)
        self.assertEqual((record.answer, record.rounds_used), (answer, rounds_used))
        for name, value in expected.items():
            self.assertEqual(getattr(record, name), value, name)

    def test_the_least_factor_wherever_it_is(self):
        three, two, five = [(3, 1), (0, 0)], [(-4, 9), (-8, 4)], [(5, 2), (5, 1)]
        for order in itertools.permutations([three, two, five]):
            self.assertEqual(self.kept(*order), order.index(two) + 1)

    def test_the_row_that_decides_ranks_a_trial(self):
        # not the first unmet row, not the greatest residual, not the sum of the rows
        self.assertEqual(self.kept([(2, 1), (9, 1)], [(4, 1), (4, 1)]), 2)
        self.assertEqual(self.kept([(500, 100), (0, 1)], [(6, 1), (0, 1)]), 1)
        self.assertEqual(self.kept([(5, 1), (0, 1)], [(4, 1), (4, 1)]), 2)

    def test_the_earliest_of_equals(self):
        self.assertEqual(self.kept([(5, 1)], [(6, 2)], [(-9, 3)], [(3, 1)]), 2)
        self.assertEqual(self.kept([(3, 1)], [(6, 2)]), 1)

    def test_without_a_factor_behind_all_others(self):
        none, large = [(0, 5), (1, 0)], [(10 ** 12, 1), (0, 0)]
        self.assertEqual(self.kept(none, large), 2)
        self.assertEqual(self.kept(large, none), 1)
        self.assertEqual(self.kept(none, [(-7, 0), (1, 1)], none), 1)
        self.assertEqual(self.kept(none, large, none, [(3, 1), (1, 1)], none), 4)

    def test_factors_that_only_exact_fractions_tell_apart(self):
        r, s, t = 956_722_026_041, 591_286_729_879, 365_435_296_162
        self.assertEqual(r * t - s * s, 1)
        self.assertEqual(self.kept([(r, s)], [(s, t)]), 2)
        self.assertEqual(self.kept([(s, t)], [(r, s)]), 1)

    def test_an_earlier_round_is_better(self):
        data = samples.best_trial()
        found = [([61, 443], 1321), ([46, 480], 11), ([50, 471], 749), ([49, 474], 1519), ([49, 473], 239)]
        self.assertEqual(self.rounds(data), found)
        for rounds, answer in ((1, [61, 443]), (2, [46, 480]), (3, [46, 480]), (5, [46, 480])):
            self.check(families.with_rounds(data, rounds), answer, rounds, met=0, first_unmet=1)
        self.check(data, [46, 480], 5, residuals=[110, 20], reaches=[10, 10], none=0, decides=1)

    def test_one_tank_on_a_half(self):
        """The first round takes the even figure; what is left is half a coefficient, and corrects nothing."""
        for rounds in range(1, 9):
            self.check(one(6, 9, 0, 1, rounds=rounds), [2], rounds, residuals=[-3], reaches=[1])
            self.check(one(6, 9, 1, 0, rounds=rounds), [2], rounds, residuals=[-3], reaches=[2])
            self.check(one(6, 15, 1, 0, rounds=rounds), [2], rounds, none=0, residuals=[3], reaches=[2])
            self.check(one(6, -15, 0, 1, rounds=rounds), [-2], rounds, none=0, residuals=[-3], reaches=[1])
            self.check(one(6, 3, 1, 0, rounds=rounds), [0], rounds, none=1, residuals=[3], reaches=[0])
            self.check(one(6, 3, 0, 2, rounds=rounds), [0], rounds, none=0, residuals=[3], reaches=[2])
        self.assertEqual(self.rounds(one(6, 9, 0, 1, rounds=3)), [([2], 3)] * 3)
        self.assertEqual(self.rounds(one(6, 3, 1, 0, rounds=3)), [([0], None)] * 3)

    def test_one_tank_stays(self):
        stream = Stream(113)
        for _ in range(300):
            a, b = stream.between(1, 99) * stream.one_of((1, -1)), stream.between(-999, 999)
            answers = [answer for answer, _ in self.rounds(one(a, b, e=stream.between(0, 3), rounds=8))]
            self.assertEqual(answers, answers[:1] * len(answers))

    def test_first_trials_without_a_factor(self):
        data = encode(0, 4, [([4, 1], [1, 0], 9, 0), ([-1, 1], [0, 0], 6, 0)])
        self.assertEqual(self.rounds(data), [([1, 6], None)] + [([1, 7], 2)] * 3)
        for rounds, answer, none in ((1, [1, 6], 1), (2, [1, 7], 0), (4, [1, 7], 0)):
            self.check(families.with_rounds(data, rounds), answer, rounds, none=none)
        data = encode(0, 4, [([2, 3], [1, 0], 0, 0), ([4, -1], [0, 1], 3, 0)])
        self.assertEqual(self.rounds(data), [([0, -1], None), ([1, 0], None), ([1, -1], 2), ([1, 0], None)])
        for rounds, answer, none in ((1, [0, -1], 1), (2, [0, -1], 1), (3, [1, -1], 0), (4, [1, -1], 0)):
            self.check(families.with_rounds(data, rounds), answer, rounds, none=none)

    def test_a_factor_that_comes_and_goes(self):
        """Two trials in turn: the second tank's figure goes from 1 to 0 and back, and with it every reach."""
        data = encode(0, 4, [([2, 1], [0, 1], 1, 0), ([4, -1], [0, 1], 1, 0)])
        self.assertEqual(self.rounds(data), [([0, 1], 2), ([0, 0], None)] * 2)
        for rounds in (1, 2, 3, 4):
            self.check(families.with_rounds(data, rounds), [0, 1], rounds, residuals=[0, 2], reaches=[1, 1])

    def test_a_trial_that_is_met_ends_the_work(self):
        data = square([[11_900, 13_700], [3_300, 3_800]], [8_830_700, 2_449_200], f=1, rounds=8)
        found = [([179, 489], 1300), ([236, 440], 5700), ([253, 425], 2500), ([260, 419], 3600)]
        self.assertEqual(self.rounds(data), found + [([262, 417], 0)])
        self.check(data, [262, 417], 5, met=1, first_unmet=0)
        self.check(families.with_rounds(data, 4), [179, 489], 4, met=0)

    def test_refusal_9_after_a_good_trial(self):
        data = square([[20_736, 2_271], [10_098, 1_106]], [0, 234_375], f=1, rounds=3)
        self.assertEqual([factor for _, factor in self.rounds(data)], [466_319, 935_069])
        self.assertEqual(reference.call(data, 180), (Outcome(REFUSAL, 9), b"\xa5" * 180))
        self.assertEqual(reference.call_soundings(data, 16), (Outcome(REFUSAL, 9), b"\xa5" * 16))
        self.check(families.with_rounds(data, 2), [-1_095_197, 10_000_000], 2)

    def test_depths_of_the_trial_kept(self):
        outcome, buffer = reference.call_soundings(samples.best_trial(), 16)
        self.assertEqual(outcome, Outcome(COUNT, 4))
        due = b"".join(depth_by_root(figure, 0).to_bytes(2, "big") for figure in (46, 480))
        self.assertEqual(buffer, due + b"\xa5" * 12)

    def test_stored_cases_of_every_kind(self):
        stored = {data for _, data, length in INPUTS if length >= 180}
        worked = [data for data in sorted(stored) if getattr(reference.read_case(data), "rounds", 0)]
        found = Counter(kind for data in worked for kind in families.trial_kinds(data))
        for kind, least in KINDS_DUE.items():
            self.assertGreaterEqual(found[kind], least, kind)
        unmet = [data for name, data, _ in INPUTS if name == "best trials"
                 and "no trial met" in families.trial_kinds(data)]
        self.assertGreaterEqual(len(set(unmet)), 300)
        self.assertEqual({data[3] for data in unmet}, set(range(1, 9)))
        self.assertEqual({data[5] for data in unmet}, set(range(1, 9)))

    def test_stored_soundings_of_every_kind(self):
        found = Counter(sounding_calls.kept_and_last(data) for name, data, _ in CALLS
                        if name in ("best trials", "more best trials"))
        self.assertGreaterEqual(found["both inside, differing"], 30)
        self.assertGreaterEqual(min(found["last outside"], found["kept outside"]), 10)


class Determinants(unittest.TestCase):
    def test_refusal_8_with_determinant_1(self):
        rows = [[32_767, 1], [32_766, 1]]
        self.assertEqual(determinant(rows), 1)
        self.assertEqual(reference.call(square(rows, [1, 1]), 180)[0], Outcome(REFUSAL, 8))

    def test_determinant_0_without_refusal_8(self):
        rows = [[96, 960], [224, 2_240]]
        self.assertEqual(determinant(rows), 0)
        self.assertNotEqual(reference.call(square(rows, [0, 0]), 180)[0], Outcome(REFUSAL, 8))

    def test_equal_rows_always_give_refusal_8(self):
        stream = Stream(104)
        for _ in range(300):
            a, b = stream.list(2, -32_767, 32_767)
            self.assertEqual(reference.call(square([[a, b], [a, b]], [1, 1]), 180)[0], Outcome(REFUSAL, 8))
            self.assertEqual(determinant([[a, b], [a, b]]), 0)

    def test_vectors_hold_both_kinds(self):
        found = set()
        for _, data, length in INPUTS:
            case = reference.read_case(data)
            if length >= 180 and not isinstance(case, int) and case.rounds and case.n < 4:
                eight = reference.call(data, length)[0] == Outcome(REFUSAL, 8)
                found.add((eight, determinant(case.coefficients) == 0))
        self.assertEqual(found, set(itertools.product((False, True), repeat=2)))


class Judging(unittest.TestCase):
    def check_rows(self, case, answer):
        judgement = reference.judge(case, answer)
        unmet = [i + 1 for i in range(case.n) if not feasible(case, i, answer, Fraction(1))]
        self.assertEqual(judgement.first_unmet, unmet[0] if unmet else 0)
        self.assertEqual(judgement.met, not unmet)
        factors = []
        for i in range(case.n):
            factor = reference.factor(judgement.residuals[i], judgement.reaches[i])
            factors.append(factor)
            if factor is None:
                self.assertFalse(feasible(case, i, answer, Fraction(10 ** 15)))
                continue
            self.assertTrue(feasible(case, i, answer, factor))
            if factor > 0:
                self.assertFalse(feasible(case, i, answer, factor * Fraction(10 ** 15 - 1, 10 ** 15)))
        self.check_deciding(judgement, factors)

    def check_deciding(self, judgement, factors):
        row = judgement.decides - 1
        if judgement.none:
            self.assertIsNone(factors[row])
            self.assertNotIn(None, factors[:row])
            return
        u, v = factors[row].numerator, factors[row].denominator
        for i, factor in enumerate(factors):
            s, t = factor.numerator, factor.denominator
            self.assertTrue(u * t > s * v if i < row else u * t >= s * v)

    def test_one_row_exhaustively(self):
        ranges = (range(-2, 3), range(3), range(-2, 3), range(2), range(-2, 3), range(2))
        for a, tolerance, b, f, y, e in itertools.product(*ranges):
            self.check_rows(reference.Case(1, e, 0, [[a]], [[tolerance]], [b], [f], [y]), [y])

    def test_small_cases(self):
        stream = Stream(105)
        for _ in range(600):
            n = stream.between(2, 4)
            self.check_rows(small_case(stream, n, stream.one_of((2, 9))), stream.list(n, -3, 3))

    def test_whole_changes_found_by_search_imply_met(self):
        """Changes as whole numerators over q, searched one by one as the third demand states them."""
        stream = Stream(106)
        for _ in range(60):
            case = small_case(stream, 1, 6)
            (a,), (tolerance,) = case.coefficients[0], case.tolerances[0]
            b, f, y, d = case.right_sides[0], case.right_tolerances[0], case.trial[0], 10 ** case.e
            q = d * f + tolerance * abs(y) or 1
            exists = any(
                (q * a + change) * y == d * (q * b + other)
                for change in range(-q * tolerance, q * tolerance + 1)
                for other in range(-q * f, q * f + 1))
            self.assertEqual(reference.judge(case, case.trial).met, exists)

    def test_errors_named_in_the_paper(self):
        self.assertEqual(reference.reaches(reference.Case(1, 0, 0, [[1]], [[2]], [0], [0], [-3]), [-3]), [6])
        self.assertFalse(reference.row_is_met(1, 0))
        self.assertTrue(reference.row_is_met(0, 0))
        self.assertEqual(reference.factor(0, 0), 0)
        self.assertIsNone(reference.factor(-1, 0))
        record = finished_record(encode(0, 1, [([0, 1], [0, 0], 5, 0), ([2, 0], [0, 0], 7, 0)]))
        self.assertEqual((record.answer, record.residuals, record.first_unmet), ([4, 5], [0, -1], 2))


class Soundings(unittest.TestCase):
    def depths(self, data, length=16):
        """The depths, with the bytes beyond them as they were."""
        outcome, buffer = reference.call_soundings(data, length, 0x5A)
        self.assertEqual(outcome.kind, COUNT, outcome)
        self.assertEqual(buffer[outcome.number:], b"\x5a" * (length - outcome.number))
        self.assertEqual(outcome.number, 2 * data[3])
        return [int.from_bytes(buffer[i:i + 2], "big") for i in range(0, outcome.number, 2)]

    def refused(self, data, number, length=16):
        outcome, buffer = reference.call_soundings(data, length, 0x5A)
        self.assertEqual(outcome, Outcome(REFUSAL, number))
        self.assertEqual(buffer, b"\x5a" * length)

    def both_ways(self, e, figure):
        """A tank with this answer, brought and worked out."""
        return [holding(e, [figure], 0), holding(e, [figure], 1)]

    def test_table(self):
        self.assertEqual(len(reference.TABLE), 401)
        self.assertEqual(reference.TABLE[:3] + reference.TABLE[-2:], [0, 901, 1_804, 518_301, 520_000])
        total = 0
        for h, entry in enumerate(reference.TABLE):
            self.assertEqual(entry, total)
            total += 901 + 2 * h

    def test_depths_against_roots(self):
        for e in range(4):
            near = {y + k for y in sounding_calls.depth_figures(e) for k in (-1, 0, 1)} | set(range(5_201))
            for figure in sorted(near & set(range(520 * 10 ** e + 1))):
                self.assertEqual(reference.depth(figure, 10 ** e), depth_by_root(figure, e), (figure, e))

    def test_at_below_and_above_an_entry(self):
        steps = {0: 100, 1: 10, 2: 10, 3: 1}
        for e, step in steps.items():
            exact = [h for h in range(401) if reference.TABLE[h] * 10 ** e % 1_000 == 0]
            self.assertEqual(exact, list(range(0, 401, step)))
            for h in exact:
                figure = reference.TABLE[h] * 10 ** e // 1_000
                self.assertEqual(self.depths(holding(e, [figure], h % 2)), [h])
                if h > 0:
                    self.assertLess(self.depths(holding(e, [figure - 1], h % 2))[0], h)
                if h == 400:
                    self.refused(holding(e, [figure + 1], h % 2), 10)
                elif e > 0:
                    self.assertEqual(self.depths(holding(e, [figure + 1], h % 2)), [h])

    def test_kilograms_one_by_one(self):
        for h in range(1, 400):
            around = [reference.TABLE[h] + k for k in (-1, 0, 1)]
            self.assertEqual(self.depths(holding(3, around, 0)), [h - 1, h, h])

    def test_ends_of_the_table(self):
        for e in range(4):
            top = 520 * 10 ** e
            for figure, h in ((0, 0), (top - 1, 399), (top, 400)):
                for data in self.both_ways(e, figure):
                    self.assertEqual(self.depths(data), [h])
            for figure in (-1, -top, -10_000_000, top + 1, 4_294_968, 10_000_000):
                for data in self.both_ways(e, figure):
                    self.refused(data, 10)

    def test_tanks_in_their_order(self):
        figures = [90_181, 0, 520_000, 1_804, 1_803, 220_000, 99_999, 901]
        expected = [91, 0, 400, 2, 1, 200, 99, 1]
        for rounds in (0, 1, 5):
            for shift in range(8):
                self.assertEqual(self.depths(holding(3, figures, rounds, shift), 17), expected)

    def test_sample(self):
        self.assertEqual(self.depths(samples.soundings()), [200, 99, 61])
        self.assertEqual(finished_record(samples.soundings()).answer, [2_200, 994, 589])

    def test_answers_on_a_half(self):
        """The even figure's depth; half a unit outside the table is inside, since its ends are even."""
        for e in range(4):
            for double, figure in ((-1, 0), (1, 0), (3, 2), (1_040 * 10 ** e - 1, 520 * 10 ** e),
                                   (1_040 * 10 ** e + 1, 520 * 10 ** e)):
                self.assertEqual(self.depths(sounding_calls.halfway(e, [double], 1)), [depth_by_root(figure, e)])
            for double in (-3, 1_040 * 10 ** e + 3):
                self.refused(sounding_calls.halfway(e, [double], 1), 10)

    def test_one_tank_outside_leaves_every_byte(self):
        for n in range(1, 9):
            for place, figure, rounds in itertools.product(range(n), (-1, 521), (0, 2)):
                figures = [7] * n
                figures[place] = figure
                for length in (16, 17, 40):
                    self.refused(holding(0, figures, rounds), 10, length)

    def test_order_of_refusals(self):
        numbers = [2, 3, 4, 5, 6, 7, 8, 9, 10, 10, 10]
        for data, number in zip(sounding_calls.one_of_each_refusal(), numbers, strict=True):
            self.refused(data, number)
            self.refused(data, number, 180)
            for length in (0, 1, 4, 15):
                self.refused(data, 1, length)
        for length in (0, 2, 15):
            self.refused(holding(0, [1], 0), 1, length)
        for _, data, _ in INPUTS[::7]:
            self.refused(data, 1, 15)

    def test_same_answer_as_the_record(self):
        found = set()
        for _, data, _ in INPUTS[::5] + CALLS:
            outcome, buffer = reference.call(data, 180)
            if outcome.kind == REFUSAL:
                expected = outcome.number
            else:
                expected = depths_or_refusal(reference.read_record(buffer[:outcome.number]), data[4])
            if isinstance(expected, int):
                self.refused(data, expected)
                found.add(expected)
            else:
                self.assertEqual(self.depths(data, 20), expected)
        self.assertEqual(found, set(range(2, 11)))

    def test_calls_hold_every_edge(self):
        found = {kind for _, data, length in CALLS for kind in vectors.sounding_kinds(data, length)}
        edges = ("0 kilograms", "520,000 kilograms", "an entry exactly", "one unit below an entry",
                 "one unit above an entry", "depth 0", "depth 200", "depth 399", "depth 400", "negative",
                 "one unit above the table", "several outside", "only later tanks outside", "count")
        due = {f"{edge}, D {10 ** e}" for edge in edges for e in range(4)}
        due |= {f"refusal {number}" for number in range(1, 11)} | {f"count, n {n}" for n in range(1, 9)}
        for kind, came, verdict in itertools.product(
                ("count", "refusal 10"), ("brought", "worked out"), ("met", "unmet")):
            due.add(f"{kind}, {came}, {verdict}")
        self.assertEqual(due - found, set())
        self.assertGreaterEqual(len(CALLS), 700)


class MatrixReading(unittest.TestCase):
    """Document 02, "Matrix Market files": reading."""

    def read(self, text, places=66):
        """The coefficients, with the places past n × n as they were."""
        before = [7 * i - 99 for i in range(places)]
        coefficients = list(before)
        outcome = reference.read_matrix(text, coefficients)
        self.assertEqual(outcome.kind, COUNT, text)
        count = outcome.number ** 2
        self.assertEqual(coefficients[count:], before[count:])
        return coefficients[:count]

    def refused(self, text, number, places=64):
        before = [7 * i - 99 for i in range(places)]
        coefficients = list(before)
        self.assertEqual(reference.read_matrix(text, coefficients), Outcome(REFUSAL, number), text)
        self.assertEqual(coefficients, before)

    def lines(self, *lines):
        """The coefficients of these lines behind the first one."""
        return self.read(matrix_calls.joined(reference.FIRST_LINE, *lines))

    def lines_refused(self, number, *lines):
        self.refused(matrix_calls.joined(reference.FIRST_LINE, *lines), number)

    def test_column_after_column(self):
        text = b"%%MatrixMarket matrix array integer general\n% hull\n2 2\n1\n30\n-2\n0\n"
        self.assertEqual(self.read(text), [1, -2, 30, 0])
        text = b"%%MatrixMarket matrix array integer general\n3 3\n1\n4\n7\n2\n5\n8\n3\n6\n9\n"
        self.assertEqual(self.read(text), list(range(1, 10)))

    def test_first_line(self):
        self.assertEqual(reference.FIRST_LINE.decode("ascii") + "\n", MATRIX_LINE)
        for line in matrix_calls.OTHER_FIRST_LINES:
            self.refused(matrix_calls.joined(line, b"1 1", b"5"), 11)
        for end in (b"", b" ", b"\r", b"\r\n", b"\x00"):
            self.refused(reference.FIRST_LINE + end, 11)

    def test_comments(self):
        for line in matrix_calls.COMMENTS:
            self.assertEqual(self.lines(line, b"1 1", b"5"), [5])
            self.assertEqual(self.lines(b"%", line, line, b"1 1", b"5"), [5])
            self.refused(matrix_calls.joined(reference.FIRST_LINE) + line, 11)
            self.lines_refused(11, line)
            self.lines_refused(12, b"1 1", line, b"5")
            self.lines_refused(12, b"1 1", b"5", line)
        for line in matrix_calls.NO_COMMENTS:
            self.lines_refused(11, line, b"1 1", b"5")

    def test_size_line(self):
        for n in range(1, 9):
            for spaces in (1, 2, 3, 77):
                size = b"%d" % n + b" " * spaces + b"%d" % n
                self.assertEqual(self.lines(size, *[b"-3"] * n ** 2), [-3] * n ** 2)
                self.refused(matrix_calls.joined(reference.FIRST_LINE) + size, 11)
        for rows, columns in itertools.product(range(12), repeat=2):
            if rows != columns or rows not in range(1, 9):
                self.lines_refused(11, b"%d %d" % (rows, columns), *[b"5"] * (rows * columns))
        for line in matrix_calls.WRONG_SIZES:
            self.lines_refused(11, line, *[b"5"] * 4)

    def test_entries(self):
        for line in matrix_calls.GOOD_ENTRIES:
            self.assertEqual(self.lines(b"1 1", line), [int(line)])
            self.assertEqual(self.lines(b"2 2", b"8", line, b"9", line), [8, 9, int(line), int(line)])
        for line in matrix_calls.BAD_ENTRIES:
            for place in range(4):
                entries = [b"8"] * 4
                entries[place] = line
                self.lines_refused(12, b"2 2", *entries)

    def test_figures_over_their_range(self):
        for figure in range(-100_001, 100_002, 7):
            text = matrix_calls.text_of(1, [b"%d" % figure])
            if abs(figure) <= 32_767:
                self.assertEqual(self.read(text), [figure])
            else:
                self.refused(text, 12)

    def test_ends(self):
        for n in range(1, 9):
            entries = [b"1"] * n ** 2
            text = matrix_calls.text_of(n, entries)
            self.refused(text[:-1], 12)
            self.refused(text[:-2], 12)
            self.lines_refused(12, matrix_calls.size_line(n), *entries[1:])
            self.lines_refused(12, matrix_calls.size_line(n), *entries, b"1")
            for byte in range(256):
                self.refused(text + bytes([byte]), 12)

    def test_every_cut(self):
        for n in range(1, 9):
            head = matrix_calls.text_of(n, [], b"% office", b"%")
            text = matrix_calls.text_of(n, matrix_calls.distinct(n), b"% office", b"%")
            for end in range(len(text)):
                self.refused(text[:end], 11 if end < len(head) else 12)
            self.assertEqual(len(self.read(text)), n * n)

    def test_list_lengths(self):
        for n in range(1, 9):
            text = matrix_calls.text_of(n, matrix_calls.distinct(n))
            for places in range(64):
                self.refused(text, 1, places)
            for places in range(64, 82):
                self.assertEqual(len(self.read(text, places)), n * n)

    def test_order_of_refusals(self):
        wrong_first, wrong_size = b"", matrix_calls.joined(reference.FIRST_LINE, b"9 9", b"+1")
        wrong_entry = matrix_calls.text_of(1, [b"+1"], b"%")
        for text, number in ((wrong_first, 11), (wrong_size, 11), (wrong_entry, 12), (wrong_entry + b"%", 12)):
            self.refused(text, number)
            self.refused(text, 1, 63)
        for text, places in matrix_calls.precedence():
            wrong = text.startswith(b"%%m") or b"9 9" in text or b"3 3 " in text
            self.refused(text, 1 if places < 64 else 11 if wrong else 12, places)

    def test_how_much_wider_than_the_writer(self):
        """Comment lines, further spaces, leading zeros and a minus before a zero read the same."""
        stream, wider = Stream(111), 0
        for n in range(1, 9):
            for _ in range(40):
                text = matrix_calls.wide(stream, n)
                coefficients = self.read(text)
                lines = [line for line in text.split(b"\n")[1:-1] if not line.startswith(b"%")]
                self.assertEqual(lines[0].split(), [b"%d" % n] * 2)
                narrow = [(b"-" if int(line) < 0 else b"") + (line.lstrip(b"-0") or b"0") for line in lines[1:]]
                same = matrix_calls.text_of(n, narrow)
                self.assertEqual(matrix_written(n, coefficients), same)
                self.assertEqual(self.read(same), coefficients)
                wider += text != same
        self.assertGreater(wider, 250)

    def test_what_is_read_can_be_a_case(self):
        for _, text, _ in MATRIX_READS:
            coefficients = [0] * 64
            outcome = reference.read_matrix(text, coefficients)
            if outcome.kind == COUNT:
                n = outcome.number
                lists = [coefficients[:n * n], [0] * (n * n), [0] * n, [0] * n, []]
                self.assertEqual(reference.write_case(n, 0, 1, *lists, bytearray(388)).kind, COUNT)

    def test_against_the_text_byte_for_byte(self):
        found = Counter()
        for _, text, places in MATRIX_READS:
            expected = 1 if places < 64 else matrix_or_refusal(text)
            if isinstance(expected, int):
                self.refused(text, expected, places)
                found[expected] += 1
                continue
            n, entries = expected
            rows = [entries[row, column] for row in range(1, n + 1) for column in range(1, n + 1)]
            self.assertEqual(self.read(text, places), rows)
            found[f"n {n}"] += 1
        self.assertGreaterEqual(len(MATRIX_READS), 800)
        self.assertEqual(set(found), {1, 11, 12, *(f"n {n}" for n in range(1, 9))})
        self.assertGreaterEqual(min(found[11], found[12]), 300)
        self.assertGreaterEqual(min(found.values()), 15)


class MatrixWriting(unittest.TestCase):
    """Document 02, "Matrix Market files": writing."""

    def write(self, n, coefficients, length=496):
        """The text, with the bytes beyond it as they were."""
        outcome, buffer = reference.call_write_matrix(n, coefficients, length, 0x5A)
        self.assertEqual(outcome.kind, COUNT, outcome)
        self.assertEqual(buffer[outcome.number:], b"\x5a" * (length - outcome.number))
        return buffer[:outcome.number]

    def refused(self, n, coefficients, length, number):
        outcome, buffer = reference.call_write_matrix(n, coefficients, length, 0x5A)
        self.assertEqual((outcome, buffer), (Outcome(REFUSAL, number), b"\x5a" * length))

    def test_text(self):
        text = b"%%MatrixMarket matrix array integer general\n2 2\n1\n30\n-2\n0\n"
        self.assertEqual(self.write(2, [1, -2, 30, 0], 600), text)
        self.assertEqual(self.write(1, [-32_767]), matrix_calls.text_of(1, [b"-32767"]))

    def test_longest(self):
        self.assertEqual(len(self.write(8, [-32_767] * 64)), 496)
        self.assertEqual(len(self.write(8, [-10_000] * 64)), 496)
        self.assertEqual(len(self.write(8, [-10_000] * 63 + [32_767])), 495)
        self.assertEqual(max(len(self.write(n, [-32_767] * (n * n))) for n in range(1, 9)), 496)
        self.assertEqual(len(self.write(1, [0])), 50)

    def test_figures_over_their_range(self):
        for figure in range(-32_767, 32_768, 3):
            self.assertEqual(self.write(1, [figure]), matrix_written(1, [figure]))

    def test_round_trip(self):
        stream = Stream(112)
        for n in range(1, 9):
            for size in (0, 1, 9, 10, 999, 32_767):
                coefficients = stream.list(n * n, -size, size)
                given = list(range(64, 64 + 70))
                text = self.write(n, coefficients, 700)
                self.assertEqual(reference.read_matrix(text, given), Outcome(COUNT, n))
                self.assertEqual(given, coefficients + list(range(64 + n * n, 64 + 70)))

    def test_order_of_refusals(self):
        for n, coefficients, length, number in (
            (9, [-32_768], 495, 1), (2, [1] * 4, 495, 1), (1, [1], 0, 1),
            (9, [-32_768], 496, 6), (9, [1] * 81, 496, 6), (0, [], 496, 6), (0, [1], 496, 6), (-1, [1], 496, 6),
            (256, [], 496, 6), (2 ** 32, [], 496, 6), (2 ** 63, [], 496, 6),
            (2, [-32_768], 496, 4), (2, [1] * 5, 496, 4), (2, [], 496, 4), (1, [], 496, 4),
            (8, [1] * 63, 496, 4), (2, [1, 1, 1, -32_768], 496, 6), (2, [32_768, 1, 1, 1], 496, 6),
        ):
            self.refused(n, coefficients, length, number)

    def test_against_the_text_built_up(self):
        found = Counter()
        for n, coefficients, length in MATRIX_WRITES:
            expected = text_or_refusal(n, coefficients, length)
            if isinstance(expected, int):
                self.refused(n, coefficients, length, expected)
                found[expected] += 1
                continue
            self.assertEqual(self.write(n, coefficients, length), expected)
            found[f"n {n}"] += 1
        self.assertGreaterEqual(len(MATRIX_WRITES), 200)
        self.assertEqual(set(found), {1, 4, 6, *(f"n {n}" for n in range(1, 9))})
        self.assertGreaterEqual(min(found.values()), 10)


class Changes(unittest.TestCase):
    def test_every_record(self):
        met_rows = 0
        for _, data, length in INPUTS:
            outcome, buffer = reference.call(data, length)
            if outcome.kind == REFUSAL:
                continue
            case, record = reference.read_case(data), reference.read_record(buffer[:outcome.number])
            for row in range(1, case.n + 1):
                residual, reach = record.residuals[row - 1], record.reaches[row - 1]
                changes = reference.row_changes(case, record, row)
                if reference.row_is_met(residual, reach):
                    self.assertTrue(reference.met_row_changes_hold(case, record, row))
                    met_rows += 1
                elif reach > 0:
                    self.assertTrue(reference.solve_row(case, record, row, changes))
                    self.assertFalse(reference.keep_tolerances(case, row, changes))
                    limit = reference.factor(residual, reach)
                    self.assertTrue(reference.keep_tolerances(case, row, changes, limit))
        self.assertGreater(met_rows, 5000)

    def test_a_wrong_sign_is_noticed(self):
        data = encode(0, 0, [([2, 3], [1, 1], 4, 1), ([0, 1], [0, 0], 0, 9)], [-5, 5])
        case, record = reference.read_case(data), finished_record(data)
        self.assertTrue(reference.met_row_changes_hold(case, record, 1))
        with mock.patch.object(reference, "sign", lambda figure: 1):
            self.assertFalse(reference.met_row_changes_hold(case, record, 1))


class Printing(unittest.TestCase):
    def test_answers(self):
        expected = {
            (0, 0): "0", (-4, 1): "-0.4", (4, 1): "0.4", (0, 1): "0.0", (-10, 1): "-1.0", (-1, 3): "-0.001",
            (-999, 3): "-0.999", (1000, 3): "1.000", (-1001, 3): "-1.001", (1205, 2): "12.05", (-7, 0): "-7",
            (10_000_000, 3): "10000.000", (-10_000_000, 0): "-10000000", (-50, 2): "-0.50", (5, 2): "0.05",
        }
        for (figure, e), text in expected.items():
            self.assertEqual(reference.answer_text(figure, e), text)
            self.assertEqual(Fraction(text), Fraction(figure, 10 ** e))

    def test_forms(self):
        data = encode(2, 0, [([1, 0], [0, 0], -1, 0), ([0, 1], [1, 0], 1, 0)], [-5, 5])
        text = ("unmet row 1 rounds 0\nanswer 1 -0.05\nanswer 2 0.05\nrow 1 residual -95 reach 0\n"
                "row 2 residual 95 reach 5\nfactor none row 1\n")
        self.assertEqual(reference.verdict_text(data), text)
        self.assertEqual(reference.verdict_text(b""), "refused 2\n")

    def test_longest_text(self):
        row = ([32_767] * 8, [0] * 8, -1_000_000_000, 0)
        rows = [([0] * 8, [32_767] * 8, 0, 1_000_000_000)] + [row] * 7
        data = encode(3, 0, rows, [10_000_000] * 8)
        self.assertIn("row 8 residual -3621360000000 reach 0\n", reference.verdict_text(data))
        self.assertLessEqual(max(len(reference.verdict_text(d)) for _, d, _ in INPUTS[::7]), 599)

    def test_command(self):
        for data in (families.PRINTED, b"", families.longest_sample() + bytes(5000)):
            command = [sys.executable, os.path.join(HERE, "reference.py"), "verdict"]
            done = subprocess.run(command, input=data, capture_output=True, check=True)
            self.assertEqual(done.stdout.decode("ascii"), reference.verdict_text(data))


class Stored:
    """A stored file, taken from its front."""

    def __init__(self, content):
        self.rest = content

    def take(self, count):
        taken, self.rest = self.rest[:count], self.rest[count:]
        assert len(taken) == count
        return taken

    def number(self, count=2):
        return int.from_bytes(self.take(count), "big")

    def sized(self):
        return self.take(self.number())

    def figures(self, width, signed):
        parts = [self.take(width) for _ in range(self.number(1))]
        return [int.from_bytes(part, "big", signed=signed) for part in parts]

    def outcome(self):
        """Whether it is a refusal, its number, and the bytes that a count leaves."""
        refused, number = self.number(1) == 1, self.number()
        return refused, number, b"" if refused else self.take(number)


class StoredForms(unittest.TestCase):
    @classmethod
    def setUpClass(cls):
        cls.files = vectors.make_files()

    def each(self, name, check, least, end=b"\xff\xff"):
        """Checks every item of a file, up to its end mark."""
        stored, items = Stored(self.files[name]), 0
        while stored.rest[:2] != end[:2]:
            check(stored)
            items += 1
        self.assertEqual(stored.rest, end)
        self.assertGreaterEqual(items, least)

    def agrees(self, outcome, buffer, stored):
        refused, number, front = stored.outcome()
        self.assertEqual((outcome.kind == REFUSAL, outcome.number), (refused, number))
        self.assertEqual(bytes(buffer), front + b"\xa5" * (len(buffer) - len(front)))

    def check_call(self, stored, call):
        data = stored.sized()
        self.assertLessEqual(len(data), 400)
        length = stored.number()
        self.assertLessEqual(length, 512)
        outcome, buffer = call(data, length)
        self.assertEqual(len(buffer), length)
        self.agrees(outcome, buffer, stored)

    def check_vector(self, stored):
        self.check_call(stored, reference.call)

    def check_soundings(self, stored):
        self.check_call(stored, reference.call_soundings)

    def check_text(self, stored):
        data = stored.sized()
        self.assertLessEqual(len(data), 389)
        self.assertEqual(stored.sized().decode("ascii"), reference.verdict_text(data))

    def check_write(self, stored):
        head = stored.take(3)
        kinds = ((2, True), (2, False), (4, True), (4, False), (4, True))
        lists = [stored.figures(width, signed) for width, signed in kinds]
        buffer = bytearray(b"\xa5" * stored.number())
        self.agrees(reference.write_case(*head, *lists, buffer), buffer, stored)

    def check_matrix_read(self, stored):
        text = stored.sized()
        self.assertLessEqual(len(text), 600)
        places = stored.number()
        self.assertLessEqual(places, 80)
        outcome, coefficients = reference.call_read_matrix(text, places, PLACE_FILL)
        refused, number = stored.number(1) == 1, stored.number()
        self.assertEqual((outcome.kind == REFUSAL, outcome.number), (refused, number))
        count = 0 if refused else number ** 2
        due = [int.from_bytes(stored.take(2), "big", signed=True) for _ in range(count)]
        self.assertEqual(coefficients, due + [PLACE_FILL] * (places - count))

    def check_matrix_write(self, stored):
        n, coefficients = stored.number(), stored.figures(2, True)
        self.agrees(*reference.call_write_matrix(n, coefficients, stored.number()), stored)

    def test_vectors_parse(self):
        self.each("vectors.bin", self.check_vector, 3000)

    def test_texts_parse(self):
        self.each("texts.bin", self.check_text, 400)

    def test_writes_parse(self):
        self.each("writes.bin", self.check_write, 300, b"\xff\xff\xff")

    def test_soundings_parse(self):
        self.each("soundings.bin", self.check_soundings, 700)

    def test_matrix_reads_parse(self):
        self.each("matrix_reads.bin", self.check_matrix_read, 800)

    def test_matrix_writes_parse(self):
        self.each("matrix_writes.bin", self.check_matrix_write, 200)

    def test_sizes(self):
        self.assertLess(sum(len(content) for content in self.files.values()), 2_400_000)

    def test_samples_parse(self):
        for name, content in samples.make_files().items():
            if name.endswith(".hex"):
                lines = content.decode("ascii").splitlines()
                data = bytes.fromhex("".join(line.split("#")[0] for line in lines))
                self.assertEqual(data, samples.SAMPLES[name[:-4]]())


def results(inputs):
    return [(reference.call(data, length), reference.verdict_text(data)) for data, length in inputs]


def depths_left(inputs):
    return [reference.call_soundings(data, length) for data, length in inputs]


def matrices_read(inputs):
    return [reference.call_read_matrix(text, places, PLACE_FILL) for _, text, places in inputs]


def matrices_written(calls):
    return [reference.call_write_matrix(*call) for call in calls]


class Caught:
    """Each mistake put into the reference changes at least one result of the inputs."""

    @classmethod
    def setUpClass(cls):
        cls.right = cls.results(cls.inputs)

    def caught(self, name, wrong, least=3):
        with mock.patch.object(reference, name, wrong):
            found = self.results(self.inputs)
        differing = sum(a != b for a, b in zip(self.right, found))
        self.assertGreaterEqual(differing, least, name)


def toward_zero(p, q):
    """Rounds to the nearest whole number, a half toward zero."""
    size = (2 * abs(p) + abs(q) - 1) // (2 * abs(q))
    return size if (p < 0) == (q < 0) else -size


def to_odd(p, q):
    """Rounds to the nearest whole number, a half to the odd neighbour."""
    return toward_zero(p, q) if abs(p) // abs(q) % 2 else families.away_from_zero(p, q)


def even_above_zero(p, q):
    """Rounds to the nearest whole number, a half to the even neighbour above zero and away from zero below."""
    return RIGHT_RULE(p, q) if (p < 0) == (q < 0) else families.away_from_zero(p, q)


def upward(p, q):
    """"Rounding by adding half and dividing downward": a half goes up, on both sides of zero."""
    return (2 * p + q) // (2 * q)


RIGHT_RULE = reference.rnd
WRONG_RULES = (families.away_from_zero, toward_zero, to_odd, even_above_zero, upward)


def within(name, part, wrong):
    """The function of this name in the reference, with a part of it wrong inside it and right elsewhere."""
    right = getattr(reference, name)

    def changed(*arguments):
        with mock.patch.object(reference, part, wrong):
            return right(*arguments)

    return changed


class Mistakes(Caught, unittest.TestCase):
    """Mistakes in records and printed verdicts, over the vectors."""

    results = staticmethod(results)
    inputs = [(data, length) for family, data, length in INPUTS
              if length >= 180 and (len(data) < 160 or family == "even halves")]

    def test_rounding(self):
        for rule in WRONG_RULES:
            self.caught("rnd", rule, 50)
        self.caught("rnd", lambda p, q: reference.sign(p) * reference.sign(q) * (abs(p) // abs(q)))

    def test_rounding_in_each_place(self):
        for rule in WRONG_RULES:
            def wrong_loss(m, figure):
                return rule(m * figure, 16_384)

            self.caught("multiplier", lambda entry, pivot: rule(16_384 * entry, pivot), 10)
            self.caught("clear_below", within("clear_below", "loss", wrong_loss), 10)
            self.caught("forward", within("forward", "loss", wrong_loss), 10)
            self.caught("backward", within("backward", "rnd", rule), 10)

    def test_pivot(self):
        def lowest(working, k):
            return max(range(k, len(working)), key=lambda i: (abs(working[i][k]), i))

        def greatest(working, k):
            return max(range(k, len(working)), key=lambda i: working[i][k])

        self.caught("pivot_row", lowest)
        self.caught("pivot_row", greatest)

    def test_multipliers_left_behind(self):
        def wrong(elimination, k, other):
            for rows in (elimination.working, elimination.permutation):
                rows[k], rows[other] = rows[other], rows[k]

        self.caught("exchange", wrong)

    def test_judging(self):
        self.caught("row_is_met", lambda residual, reach: abs(residual) < reach)
        self.caught("row_is_met", lambda residual, reach: abs(residual) <= reach or reach == 0)
        self.caught("row_is_met", lambda residual, reach: residual <= reach)
        self.caught("factor", lambda r, t: Fraction(abs(r), t) if t else Fraction(0))
        self.caught("factor", lambda r, t: Fraction(abs(r), t) if t else None)
        self.caught("factor", lambda r, t: Fraction(r, t) if t else (None if r else Fraction(0)))

    def test_close_factors(self):
        def coarse(r, t):
            return Fraction(abs(r) * 2 ** 52 // t, 2 ** 52) if t else (None if r else Fraction(0))

        self.caught("factor", coarse)

    def test_deciding(self):
        right = reference.deciding

        def last(factors):
            none, row = right(factors[::-1])
            return none, len(factors) + 1 - row

        self.caught("deciding", last)

    def test_reach(self):
        def signed(case, answer):
            return [abs(10 ** case.e * f + sum(t * y for t, y in zip(row, answer)))
                    for f, row in zip(case.right_tolerances, case.tolerances)]

        def unscaled(case, answer):
            return [f + sum(t * abs(y) for t, y in zip(row, answer))
                    for f, row in zip(case.right_tolerances, case.tolerances)]

        self.caught("reaches", signed)
        self.caught("reaches", unscaled)

    def test_order_of_judgement(self):
        right = reference.work_out

        def exchanged(case):
            result = right(case)
            order = reference.eliminate(case.coefficients).permutation
            moved = case._replace(**{name: [getattr(case, name)[i] for i in order] for name in (
                "coefficients", "tolerances", "right_sides", "right_tolerances")})
            answer = result.trial.answer
            return result._replace(trial=reference.Trial(answer, reference.judge(moved, answer)))

        self.caught("work_out", exchanged)

    def test_limits(self):
        self.caught("CORRECTION_LIMIT", 19_999_999, least=1)
        self.caught("ANSWER_LIMIT", 9_999_999)
        self.caught("ANSWER_LIMIT", 10_000_001)

    def test_which_trial_is_kept(self):
        right = reference.rank

        def first_unmet(trial):
            judgement, row = trial.judgement, trial.judgement.first_unmet - 1
            return right(trial_of(0, (judgement.residuals[row], judgement.reaches[row])))

        def none_first(trial):
            none, found = right(trial)
            return -none, found

        self.caught("kept_trial", lambda trials: trials[0])
        self.caught("kept_trial", lambda trials: trials[-1])
        self.caught("best_trial", lambda trials: min(trials[::-1], key=right))
        self.caught("best_trial", lambda trials: max(trials, key=right))
        self.caught("best_trial", lambda trials: trials[-1] if right(trials[0])[0] else min(trials, key=right))
        self.caught("rank", first_unmet)
        self.caught("rank", none_first)
        self.caught("rank", lambda trial: max(abs(residual) for residual in trial.judgement.residuals))
        self.caught("rank", lambda trial: right(trial)[::-1])

    def test_rounds_used(self):
        def own_round(case):
            trials = list(reference.trials_of(case))
            kept = reference.kept_trial(trials)
            return reference.Finished(case, kept, trials.index(kept) + 1)

        def stopped(case):
            trials, number = families.rounds_of(reference.case_bytes(case))
            if not trials:
                raise reference.Refused(number)
            return reference.Finished(case, reference.kept_trial(trials), len(trials))

        self.caught("work_out", own_round)
        self.caught("work_out", stopped)

    def test_sign_of_an_answer(self):
        def wrong(figure, e):
            whole = (figure > 0) * figure // 10 ** e or -(-figure // 10 ** e)
            return f"{whole}.{abs(figure) % 10 ** e:0{e}d}" if e else f"{whole}"

        self.caught("answer_text", wrong)


class SoundingMistakes(Caught, unittest.TestCase):
    """Mistakes in depths, over the calls of the soundings."""

    results = staticmethod(depths_left)
    inputs = [(data, length) for name, data, length in CALLS if len(data) < 90 or name == "every depth"]

    def test_depth(self):
        right = reference.depth

        def strictly_below(figure, d):
            return max(h for h, entry in enumerate(reference.TABLE) if entry * d < figure * 1_000 or h == 0)

        self.caught("depth", strictly_below)
        self.caught("depth", lambda figure, d: right(figure, 1 if figure <= 520 else d))
        self.caught("depth", lambda figure, d: right(figure // d * d, d))
        self.caught("depth", lambda figure, d: min(right(figure, d), 255))
        self.caught("depth", lambda figure, d: right(min(figure + 1, 520 * d), d))

    def test_rounding(self):
        for rule in WRONG_RULES:
            self.caught("rnd", rule)

    def test_table(self):
        for h in (1, 57, 200, 399):
            for wrong in (-1, 1):
                self.caught("TABLE", [entry + wrong * (i == h) for i, entry in enumerate(reference.TABLE)], 1)
        self.caught("TABLE", reference.TABLE[:400])
        self.caught("TABLE", reference.TABLE + [521_701])

    def test_outside(self):
        self.caught("outside_table", lambda figure, d: figure < 0 or figure * 1_000 >= 520_000 * d)
        self.caught("outside_table", lambda figure, d: figure < 0 or figure > 520 * d + 1)
        self.caught("outside_table", lambda figure, d: figure < 0 or figure > 520_000)
        self.caught("outside_table", lambda figure, d: figure < 0 or figure * 1_000 % 2 ** 32 > 520_000 * d)
        self.caught("outside_table", lambda figure, d: not 0 < figure <= 520 * d)

    def test_buffer(self):
        for least in (14, 15, 17, 180):
            self.caught("LEAST_DEPTHS_BUFFER", least)

    def test_answer(self):
        right = reference.depth_bytes

        def turned(result):
            left = right(result)
            return b"".join(left[i:i + 2] for i in range(len(left) - 2, -1, -2))

        def met_only(result):
            if not result.trial.judgement.met:
                raise reference.Refused(10)
            return right(result)

        self.caught("depth_bytes", turned)
        self.caught("depth_bytes", met_only)
        self.caught("kept_trial", lambda trials: trials[0])
        self.caught("kept_trial", lambda trials: trials[-1])


def with_limits(name, lowest, highest):
    """The limits of the figures, of which one has others."""
    return reference.FIGURES | {name: reference.FIGURES[name]._replace(lowest=lowest, highest=highest)}


class MatrixReadingMistakes(Caught, unittest.TestCase):
    """Mistakes in reading Matrix Market files, over the stored calls."""

    results = staticmethod(matrices_read)
    inputs = MATRIX_READS

    def forms(self, name, *wrong):
        for form in wrong:
            self.caught(name, re.compile(form))

    def test_order_of_the_entries(self):
        self.caught("transposed", lambda figures, n: figures)
        self.caught("transposed", lambda figures, n: figures[::-1])

    def test_entries(self):
        self.forms("ENTRY_LINE", rb"-?[0-9]{1,6}", rb"-?[0-9]{1,4}", rb"[-+]?[0-9]{1,5}", rb"[0-9]{1,5}",
                   rb" *-?[0-9]{1,5}", rb"-?[0-9]{1,5} *", rb"-?[0-9]{1,5}\r?", rb"-?(0|[1-9][0-9]{0,4})",
                   rb"(?!-0+$)-?[0-9]{1,5}", rb"-?[0-9]{1,5}|-?0+[0-9]{1,5}")
        for lowest, highest in ((-32_768, 32_767), (-32_767, 32_768), (-32_766, 32_767), (-32_767, 32_766)):
            self.caught("FIGURES", with_limits("A", lowest, highest))

    def test_wrapped_figures(self):
        def wrapped(line):
            if not reference.ENTRY_LINE.fullmatch(line):
                raise reference.Refused(12)
            return (int(line) + 2 ** 15) % 2 ** 16 - 2 ** 15

        self.caught("take_entry", wrapped)

    def test_size_line(self):
        self.forms("SIZE_LINE", rb"([0-9]) ([0-9])", rb"([0-9]) *([0-9])", rb" *([0-9]) +([0-9])",
                   rb"([0-9]) +([0-9]) *", rb"([0-9])[ \t]+([0-9])", rb"([0-9]) +([0-9])\r?",
                   rb"0?([0-9]) +0?([0-9])", rb"([0-9]) +([0-9]).*")
        for lowest, highest in ((0, 8), (1, 9), (2, 8), (1, 7)):
            self.caught("FIGURES", with_limits("n", lowest, highest), 1)

    def test_first_line(self):
        for line in (reference.FIRST_LINE.lower(), reference.FIRST_LINE.replace(b"array", b"coordinate")):
            self.caught("FIRST_LINE", line)

    def test_comments(self):
        self.caught("is_comment", lambda line: False)
        self.caught("is_comment", lambda line: line.strip().startswith(b"%"))
        self.caught("is_comment", lambda line: line.startswith((b"%", b"#")))
        self.caught("is_comment", lambda line: line.startswith(b"%") or not line)
        self.caught("is_comment", lambda line: line.startswith(b"% "))
        self.caught("is_comment", lambda line: line.startswith(b"%") and not line.endswith(b"\r"))

    def test_lines(self):
        right = reference.split_lines

        def unended(text):
            lines, rest = right(text)
            return (lines + [rest], b"") if rest else (lines, rest)

        def carriage_returns(text):
            return right(text.replace(b"\r\n", b"\n"))

        def blank_lines(text):
            lines, rest = right(text)
            return [line for line in lines if line], rest

        self.caught("split_lines", unended)
        self.caught("split_lines", carriage_returns)
        self.caught("split_lines", blank_lines)
        self.caught("split_lines", lambda text: right(text.rstrip(b"\0")))
        self.caught("split_lines", lambda text: right(text.rstrip() + b"\n"))

    def test_ends(self):
        right = reference.take_entries
        self.caught("take_entries", lambda lines, rest, n: right(lines, b"", n))
        self.caught("take_entries", lambda lines, rest, n: right(lines[:n * n], rest, n))
        self.caught("take_entries", lambda lines, rest, n: right(
            [line for line in lines if not line.startswith(b"%")], rest, n))
        self.caught("take_entries", lambda lines, rest, n: right(
            lines + [b"0"] * (n * n - len(lines)), rest, n))

    def test_numbers(self):
        right = reference.take_size

        def twelve(line):
            try:
                return right(line)
            except reference.Refused:
                raise reference.Refused(12) from None

        self.caught("take_size", twelve)

    def test_list(self):
        for least in (0, 1, 63, 65):
            self.caught("LEAST_PLACES", least)

    def test_text_before_list(self):
        right = reference.read_matrix

        def text_first(text, coefficients):
            outcome = right(text, [0] * 64)
            return outcome if outcome.kind == REFUSAL else right(text, coefficients)

        self.caught("read_matrix", text_first)

    def test_places_changed(self):
        right = reference.read_matrix

        def stored_at_once(text, coefficients):
            for i, line in enumerate(text.split(b"\n")[2:len(coefficients)]):
                if not reference.ENTRY_LINE.fullmatch(line):
                    break
                coefficients[i] = int(line)
            return right(text, coefficients)

        def cleared(text, coefficients):
            outcome = right(text, coefficients)
            if outcome.kind == COUNT:
                coefficients[outcome.number ** 2:64] = [0] * (64 - outcome.number ** 2)
            return outcome

        self.caught("read_matrix", stored_at_once)
        self.caught("read_matrix", cleared)


class MatrixWritingMistakes(Caught, unittest.TestCase):
    """Mistakes in writing Matrix Market files, over the stored calls."""

    results = staticmethod(matrices_written)
    inputs = MATRIX_WRITES

    def test_text(self):
        right = reference.matrix_text
        self.caught("transposed", lambda figures, n: figures)
        self.caught("FIRST_LINE", reference.FIRST_LINE + b"\n%")
        self.caught("matrix_text", lambda n, figures: right(n, [abs(figure) for figure in figures]))
        self.caught("matrix_text", lambda n, figures: right(n, figures)[:-1])
        for old, new in ((b"-", b"-0"), (b"\n0\n", b"\n-0\n"), (b"\n0\n", b"\n\n"), (b"\n", b"\r\n"),
                         (b"2 2", b"2  2"), (b"\n7\n", b"\n07\n"), (b"\n7\n", b"\n+7\n")):
            self.caught("matrix_text", lambda n, figures: right(n, figures).replace(old, new))

    def test_checks(self):
        right = reference.writer_refusal
        for least in (388, 494, 495, 497):
            self.caught("LEAST_MATRIX_BUFFER", least)
        for name, lowest, highest in (("A", -32_768, 32_767), ("A", -32_767, 32_766), ("A", -32_766, 32_767),
                                      ("n", 0, 8), ("n", 1, 9), ("n", 1, 255), ("n", 2, 8), ("n", 1, 7)):
            self.caught("FIGURES", with_limits(name, lowest, highest), 1)
        self.caught("writer_refusal", lambda head, lists, due, *others: right(
            head, [lists[0][:due[0]]], due, *others))

    def test_order_of_checks(self):
        right = reference.writer_refusal

        def count_first(head, lists, due, length, least):
            wrong = length >= least and len(lists[0]) != due[0]
            return 4 if wrong else right(head, lists, due, length, least)

        def figures_first(head, lists, due, length, least):
            wrong = length >= least and -32_768 in lists[0]
            return 6 if wrong else right(head, lists, due, length, least)

        def buffer_last(head, lists, due, length, least):
            return right(head, lists, due, least, least) or right(head, lists, due, length, least)

        for wrong in (count_first, figures_first, buffer_last):
            self.caught("writer_refusal", wrong)


if __name__ == "__main__":
    unittest.main()
