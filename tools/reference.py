#!/usr/bin/env python3
"""Reference for the papers "Ballast case, trial answer and verdict" and "Later changes to the base".

Reads a case, takes its trial answer or works one out by rounded elimination with
refinement, judges it exactly and writes a record, or gives the tanks' depths for it; also
writes cases, prints verdicts, and reads and writes Matrix Market files. Whole numbers and
fractions.Fraction only, no floating arithmetic. Lists count from 0 here; every row or tank
number that leaves a function counts from 1. Quotations in the comments are the papers' own
words.

Command:  python3 tools/reference.py verdict < case
"""

import re
import sys
from collections import namedtuple
from fractions import Fraction
from itertools import dropwhile

# "at most 180" / "The result buffer is shorter than 180 bytes."
LEAST_RESULT_BUFFER = 180
# "Depths go, two bytes each, into a buffer of at least 16 bytes"
LEAST_DEPTHS_BUFFER = 16
# "The longest case has 388 bytes." / "It refuses with 1 a buffer shorter than 388 bytes"
LONGEST_CASE = 388
# "The program `verdict` reads at most 389 bytes of standard input"
MOST_INPUT = LONGEST_CASE + 1
# "In writing a text buffer under 496 bytes, and in reading a list under 64 places, is refusal 1"
LEAST_MATRIX_BUFFER = 496
LEAST_PLACES = 64
# "starting at 256 × A"
WORKING_SCALE = 256
# "M = rnd(16,384 × W(i,k) / W(k,k))"
MULTIPLIER_SCALE = 16_384
# "A correction is outside ±20,000,000"
CORRECTION_LIMIT = 20_000_000
# "or a new answer figure is outside ±10,000,000"
ANSWER_LIMIT = 10_000_000

# "Numbers are big-endian, signed ones in two's complement." (width, signed, lowest, highest)
Figure = namedtuple("Figure", "width signed lowest highest")
FIGURES = {
    "n": Figure(1, False, 1, 8),  # "n is 1 to 8."
    "e": Figure(1, False, 0, 3),  # "The exponent e is 0 to 3"
    "K": Figure(1, False, 0, 8),  # "rounds K: 0 to 8"
    "A": Figure(2, True, -32_767, 32_767),  # "coefficient A: −32,767 to 32,767"
    "E": Figure(2, False, 0, 32_767),  # "its tolerance E: 0 to 32,767"
    "b": Figure(4, True, -1_000_000_000, 1_000_000_000),  # "right side b: ..."
    "f": Figure(4, False, 0, 1_000_000_000),  # "its tolerance f: 0 to 1,000,000,000"
    "Y": Figure(4, True, -10_000_000, 10_000_000),  # "trial figure Y: ..."
}

# "A case is a square set of n moment equations over n tanks." (lists of rows for A and E)
Case = namedtuple(
    "Case", "n e rounds coefficients tolerances right_sides right_tolerances trial"
)
# "Every outcome says whether its number is a count or a refusal."
Outcome = namedtuple("Outcome", "kind number")
COUNT, REFUSAL = "count", "refusal"
# "with their earlier multipliers and their place in the order" (permutation: z(i) = R(order(i)))
Elimination = namedtuple("Elimination", "working multipliers permutation")
# "judges it exactly": none is 0 or 1 and decides is a row, as in field 13
Judgement = namedtuple("Judgement", "met first_unmet residuals reaches none decides")
# "The new Y is judged." (an answer together with its judgement)
Trial = namedtuple("Trial", "answer judgement")
# "the trial brought or, for K above 0, the one kept from the steps"
Finished = namedtuple("Finished", "case trial rounds_used")
# "a(j) for the coefficients and c for the right side, over one whole denominator q above zero"
Changes = namedtuple("Changes", "coefficients right_side denominator")
# "A record is: 10 ... 11 ... 12 ... 13 ... FF" (the figures of its fields)
Record = namedtuple("Record", "met first_unmet rounds_used answer residuals reaches none decides")


# "Any refusal, the writer's too, returns its number and changes no byte."
class Refused(Exception):
    """Ends the work with a refusal; place says, for 9, which limit was passed."""

    def __init__(self, number, place=""):
        super().__init__(number)
        self.number = number
        self.place = place


# ---------------------------------------------------------------- reading a case


# "A figure of the value, taken from its front, is outside its limits."
def within_limits(name, figure):
    return FIGURES[name].lowest <= figure <= FIGURES[name].highest


# "fields are taken from the front, and at each field 2 to 6 in turn" (here 2 to 5)
def take_field(data, start, tag, length):
    if len(data) - start < 3:
        raise Refused(2)
    if data[start] != tag:
        raise Refused(3)
    if int.from_bytes(data[start + 1:start + 3], "big") != length:
        raise Refused(4)
    end = start + 3 + length
    if end > len(data):
        raise Refused(5)
    return data[start + 3:end], end


# "A figure of the value, taken from its front, is outside its limits." (refusal 6)
def take_figures(value, names):
    figures = []
    place = 0
    for name in names:
        width = FIGURES[name].width
        figure = int.from_bytes(value[place:place + width], "big", signed=FIGURES[name].signed)
        if not within_limits(name, figure):
            raise Refused(6)
        figures.append(figure)
        place += width
    return figures


# "n coefficients of 2 bytes, n tolerances of 2 bytes (unsigned), b (4 bytes), f (4 bytes, unsigned)"
def row_names(n):
    return ["A"] * n + ["E"] * n + ["b", "f"]


# "A case is, in this order: 01 ... 02 ... 03, ... present exactly if K is 0 ... FF"
def take_case(data):
    value, place = take_field(data, 0, 0x01, 3)
    n, e, rounds = take_figures(value, ["n", "e", "K"])
    rows = []
    for _ in range(n):
        value, place = take_field(data, place, 0x02, 4 * n + 8)
        rows.append(take_figures(value, row_names(n)))
    trial = []
    if rounds == 0:
        value, place = take_field(data, place, 0x03, 4 * n)
        trial = take_figures(value, ["Y"] * n)
    value, place = take_field(data, place, 0xFF, 0)
    if place < len(data):
        raise Refused(7)
    return Case(
        n, e, rounds,
        [row[:n] for row in rows], [row[n:2 * n] for row in rows],
        [row[2 * n] for row in rows], [row[2 * n + 1] for row in rows], trial,
    )


# "The product reads a case": a Case, or the number of a refusal from 2 to 7
def read_case(data):
    try:
        return take_case(data)
    except Refused as refused:
        return refused.number


# ---------------------------------------------------------------- writing a case


# "Fields: one byte tag, two bytes length, then the value."
def field(tag, value):
    return bytes([tag]) + len(value).to_bytes(2, "big") + value


# "Numbers are big-endian, signed ones in two's complement."
def figure_bytes(name, figure):
    return figure.to_bytes(FIGURES[name].width, "big", signed=FIGURES[name].signed)


# "A case has one encoding."
def case_bytes(case):
    parts = [field(0x01, bytes([case.n, case.e, case.rounds]))]
    for i in range(case.n):
        figures = (case.coefficients[i] + case.tolerances[i]
                   + [case.right_sides[i], case.right_tolerances[i]])
        pairs = zip(row_names(case.n), figures, strict=True)
        parts.append(field(0x02, b"".join(figure_bytes(name, figure) for name, figure in pairs)))
    if case.rounds == 0:
        parts.append(field(0x03, b"".join(figure_bytes("Y", figure) for figure in case.trial)))
    parts.append(field(0xFF, b""))
    return b"".join(parts)


# "a list whose count is not the one due (n × n for the first two, n for the others, none ...)"
def counts_due(n, rounds):
    return [n * n, n * n, n, n, n if rounds == 0 else 0]


# "refuses with 1 a buffer ...; then with 6 an n, e or K ...; then with 4 ...; then with 6 any other"
def writer_refusal(head, lists, due, buffer_length, least):
    if buffer_length < least:
        return 1
    if not all(within_limits(name, figure) for name, figure in zip("neK", head)):
        return 6
    if [len(figures) for figures in lists] != due:
        return 4
    for name, figures in zip("AEbfY", lists):
        if not all(within_limits(name, figure) for figure in figures):
            return 6
    return 0


# "two lists row after row"
def in_rows(figures, n):
    return [list(figures[i * n:(i + 1) * n]) for i in range(n)]


# "Bytes beyond the case stay untouched." (what is written, at the buffer's front, and its length)
def put(buffer, written):
    buffer[:len(written)] = written
    return Outcome(COUNT, len(written))


# "The writer takes n, e, K, ... and a buffer, and returns the case's length."
def write_case(n, e, rounds, coefficients, tolerances, right_sides, right_tolerances, trial, buffer):
    lists = [coefficients, tolerances, right_sides, right_tolerances, trial]
    number = writer_refusal((n, e, rounds), lists, counts_due(n, rounds), len(buffer), LONGEST_CASE)
    if number:
        return Outcome(REFUSAL, number)
    return put(buffer, case_bytes(Case(
        n, e, rounds, in_rows(coefficients, n), in_rows(tolerances, n),
        list(right_sides), list(right_tolerances), list(trial),
    )))


# ---------------------------------------------------------------- the steps


# "rnd(p/q) is the nearest whole number to p/q" / "From now rnd takes a half to the even neighbour everywhere."
def rnd(p, q):
    whole, rest = divmod(abs(p), abs(q))
    past_half, on_half = 2 * rest > abs(q), 2 * rest == abs(q)
    nearest = whole + 1 if past_half or on_half and whole % 2 == 1 else whole
    return nearest if (p < 0) == (q < 0) else -nearest


# "the entry of column k, rows k to n, that is largest in absolute value, the uppermost of equals"
def pivot_row(working, k):
    best = k
    for i in range(k + 1, len(working)):
        if abs(working[i][k]) > abs(working[best][k]):
            best = i
    return best


# "the two rows are exchanged, with their earlier multipliers and their place in the order"
def exchange(elimination, k, other):
    for rows in elimination:
        rows[k], rows[other] = rows[other], rows[k]


# "For each row i below, M = rnd(16,384 × W(i,k) / W(k,k))"
def multiplier(entry, pivot):
    return rnd(MULTIPLIER_SCALE * entry, pivot)


# "loses rnd(M × W(k,j) / 16,384)" and "z(i) loses rnd(M(i,j) × z(j) / 16,384)"
def loss(m, figure):
    return rnd(m * figure, MULTIPLIER_SCALE)


# "each W(i,j) with j above k loses rnd(M × W(k,j) / 16,384)"
def clear_below(elimination, k):
    working, multipliers, _ = elimination
    n = len(working)
    for i in range(k + 1, n):
        multipliers[i][k] = multiplier(working[i][k], working[k][k])
        for j in range(k + 1, n):
            working[i][j] -= loss(multipliers[i][k], working[k][j])


# "At step k = 1 to n the pivot is ... Where all are zero the elimination ends there ... with refusal 8."
def eliminate(coefficients):
    n = len(coefficients)
    working = [[WORKING_SCALE * figure for figure in row] for row in coefficients]
    elimination = Elimination(working, [[0] * n for _ in range(n)], list(range(n)))
    for k in range(n):
        row = pivot_row(working, k)
        if working[row][k] == 0:
            raise Refused(8)
        exchange(elimination, k, row)
        clear_below(elimination, k)
    return elimination


# "From the top, z(i) loses rnd(M(i,j) × z(j) / 16,384) for j = 1 to i − 1 in turn."
def forward(multipliers, z):
    z = list(z)
    for i in range(len(z)):
        for j in range(i):
            z[i] -= loss(multipliers[i][j], z[j])
    return z


# "From the bottom, d(i) = rnd((256 × z(i) − sum over j above i of W(i,j) × d(j)) / W(i,i))"
def backward(working, z):
    n = len(z)
    d = [0] * n
    for i in reversed(range(n)):
        known = sum(working[i][j] * d[j] for j in range(i + 1, n))
        d[i] = rnd(WORKING_SCALE * z[i] - known, working[i][i])
        if abs(d[i]) > CORRECTION_LIMIT:  # "its limit is checked as soon as it is formed"
            raise Refused(9, "correction")
    return d


# "Put the residuals in the elimination's row order as z."
def corrections(elimination, row_residuals):
    z = [row_residuals[row] for row in elimination.permutation]
    return backward(elimination.working, forward(elimination.multipliers, z))


# "Then Y gains d, tank 1 first, each limit checked in turn."
def gain(answer, d):
    gained = []
    for figure, change in zip(answer, d, strict=True):
        if abs(figure + change) > ANSWER_LIMIT:
            raise Refused(9, "answer")
        gained.append(figure + change)
    return gained


# "Y starts at zero. A round: ... The new Y is judged. The first that is met ends the work" (trial by trial)
def trials_of(case):
    elimination = eliminate(case.coefficients)
    answer = [0] * case.n
    for _ in range(case.rounds):
        answer = gain(answer, corrections(elimination, residuals(case, answer)))
        judgement = judge(case, answer)
        yield Trial(answer, judgement)
        if judgement.met:
            break


# "The recorded factor is |R| / T of the row in field 13 ...; there is none where that field says none."
def trial_factor(trial):
    row = trial.judgement.decides - 1
    return factor(trial.judgement.residuals[row], trial.judgement.reaches[row])


# "trials without a factor rank behind all others" (less is better)
def rank(trial):
    found = trial_factor(trial)
    return (1, 0) if found is None else (0, found)


# "the one with the least factor ... and the earliest of equals is taken" (as min does)
def best_trial(trials):
    return min(trials, key=rank)


# "The first that is met ends the work" / "Where ... no trial of its rounds is met, the answer kept ..."
def kept_trial(trials):
    return trials[-1] if trials[-1].judgement.met else best_trial(trials)


# "Rounds used is then K." (a trial that is met has its own round)
def work_out(case):
    trials = list(trials_of(case))
    return Finished(case, kept_trial(trials), len(trials))


# "finds a trial answer by rounded elimination with refinement (or takes the trial that the case brings)"
def finish(case):
    if case.rounds == 0:
        return Finished(case, Trial(case.trial, judge(case, case.trial)), 0)
    return work_out(case)


# ---------------------------------------------------------------- judgement


# "D is 10 to the power e"
def scale(case):
    return 10 ** case.e


# "the residual of each row is R = D × b − sum of A × Y"
def residuals(case, answer):
    return [
        scale(case) * b - sum(a * y for a, y in zip(row, answer, strict=True))
        for b, row in zip(case.right_sides, case.coefficients, strict=True)
    ]


# "The reach of a row is T = D × f + sum of E × |Y|."
def reaches(case, answer):
    return [
        scale(case) * f + sum(tolerance * abs(y) for tolerance, y in zip(row, answer, strict=True))
        for f, row in zip(case.right_tolerances, case.tolerances, strict=True)
    ]


# "A row is met exactly if |R| is at most T."
def row_is_met(residual, reach):
    return abs(residual) <= reach


# "The factor of a row is |R| / T; it is 0 where both are zero, and there is none where only T is zero."
def factor(residual, reach):
    if reach == 0:
        return Fraction(0) if residual == 0 else None
    return Fraction(abs(residual), reach)


# "If some row has none, the first such row decides ... Otherwise the first row with the greatest factor"
def deciding(factors):
    for i, row_factor in enumerate(factors):
        if row_factor is None:
            return 1, i + 1
    return 0, factors.index(max(factors)) + 1


# "the first unmet row or 0"
def first_unmet_row(row_residuals, row_reaches):
    for i, (residual, reach) in enumerate(zip(row_residuals, row_reaches, strict=True)):
        if not row_is_met(residual, reach):
            return i + 1
    return 0


# "A trial is judged alike whoever proposed it." (in the case's own row order)
def judge(case, answer):
    row_residuals = residuals(case, answer)
    row_reaches = reaches(case, answer)
    unmet = first_unmet_row(row_residuals, row_reaches)
    factors = [factor(r, t) for r, t in zip(row_residuals, row_reaches, strict=True)]
    none, decides = deciding(factors)
    return Judgement(unmet == 0, unmet, row_residuals, row_reaches, none, decides)


# ---------------------------------------------------------------- the record and the call


# "residual (8 bytes, signed) and reach (8 bytes, unsigned) of each row"
def pair_bytes(residual, reach):
    return residual.to_bytes(8, "big", signed=True) + reach.to_bytes(8, "big")


# "A record is: 10, length 3 ... 11, length 4n ... 12, length 16n ... 13, length 2 ... FF, length 0."
def record_bytes(finished):
    answer, judgement = finished.trial
    head = bytes([int(judgement.met), judgement.first_unmet, finished.rounds_used])
    pairs = zip(judgement.residuals, judgement.reaches, strict=True)
    return b"".join([
        field(0x10, head),
        field(0x11, b"".join(figure_bytes("Y", figure) for figure in answer)),
        field(0x12, b"".join(pair_bytes(residual, reach) for residual, reach in pairs)),
        field(0x13, bytes([judgement.none, judgement.decides])),
        field(0xFF, b""),
    ])


# "Refusals 8 and 9 come only when the whole case has been read and K is at least 1."
def work(data, buffer_length, least=LEAST_RESULT_BUFFER):
    if buffer_length < least:
        raise Refused(1)
    return finish(take_case(data))


# "Any refusal ... returns its number and changes no byte." (the bytes made of a finished case are left)
def leave(data, buffer, least, made_of):
    try:
        return put(buffer, made_of(work(data, len(buffer), least)))
    except Refused as refused:
        return Outcome(REFUSAL, refused.number)


# "the call that takes a case and a result buffer and leaves the record" (changes buffer in place)
def judge_case(data, buffer):
    return leave(data, buffer, LEAST_RESULT_BUFFER, record_bytes)


# "The result buffer beyond the record stays as it was." (outcome, and the buffer afterwards)
def call(data, buffer_length, fill=0xA5, function=judge_case):
    buffer = bytearray([fill]) * buffer_length
    outcome = function(data, buffer)
    return outcome, bytes(buffer)


# "The recorded answer, R and T are those of fields 11 and 12" (the figures of a record's bytes)
def read_record(record):
    n = (len(record) - 20) // 20
    head, place = take_field(record, 0, 0x10, 3)
    value, place = take_field(record, place, 0x11, 4 * n)
    answer = [int.from_bytes(value[4 * i:4 * i + 4], "big", signed=True) for i in range(n)]
    value, place = take_field(record, place, 0x12, 16 * n)
    pairs = [value[16 * i:16 * i + 16] for i in range(n)]
    last, place = take_field(record, place, 0x13, 2)
    take_field(record, place, 0xFF, 0)
    return Record(
        *head, answer,
        [int.from_bytes(pair[:8], "big", signed=True) for pair in pairs],
        [int.from_bytes(pair[8:], "big") for pair in pairs], *last,
    )


# ---------------------------------------------------------------- soundings


# "the reference tank: 401 entries, depth h from 0 to 400 centimetres, entry 900 × h + h × h kilograms"
TABLE = [900 * h + h * h for h in range(401)]


# "not above Y × 1,000 / D kilograms" (both sides times D)
def not_above(entry, figure, d):
    return entry * d <= figure * 1_000


# "when an answer is negative or above the entry for 400"
def outside_table(figure, d):
    return figure < 0 or figure * 1_000 > TABLE[-1] * d


# "each tank's greatest depth whose entry is not above Y × 1,000 / D kilograms"
def depth(figure, d):
    return max(h for h, entry in enumerate(TABLE) if not_above(entry, figure, d))


# "It refuses, with 10 and after 1 to 9" / "Depths go, two bytes each, into a buffer"
def depth_bytes(finished):
    d, answer = scale(finished.case), finished.trial.answer
    if any(outside_table(figure, d) for figure in answer):
        raise Refused(10)
    return b"".join(depth(figure, d).to_bytes(2, "big") for figure in answer)


# "For a case, work out its answer as before, write no record, and give each tank's greatest depth"
def soundings(data, buffer):
    return leave(data, buffer, LEAST_DEPTHS_BUFFER, depth_bytes)


# "bytes beyond the depths stay as they were" (outcome, and the buffer afterwards)
def call_soundings(data, buffer_length, fill=0xA5):
    return call(data, buffer_length, fill, soundings)


# ---------------------------------------------------------------- Matrix Market files


# "Read and write the array form, `%%MatrixMarket matrix array integer general`: after exactly that line"
FIRST_LINE = b"%%MatrixMarket matrix array integer general"
# "a size line with rows and columns, one digit each with spaces between"
SIZE_LINE = re.compile(rb"([0-9]) +([0-9])")
# "an optional minus and one to five digits"
ENTRY_LINE = re.compile(rb"-?[0-9]{1,5}")


# "one entry a line, column after column" / "The list is row after row" (either order from the other)
def transposed(figures, n):
    return [figures[j * n + i] for i in range(n) for j in range(n)]


# "A line feed ends every line." (the lines, without it, and what stands behind the last line feed)
def split_lines(text):
    *lines, rest = text.split(b"\n")
    return lines, rest


# "comment lines starting with a percent sign"
def is_comment(line):
    return line.startswith(b"%")


# "with 11 ... a size line that is ... not so formed or ended, or not n and n with n from 1 to 8"
def take_size(line):
    size = SIZE_LINE.fullmatch(line)
    if not size or size[1] != size[2] or not within_limits("n", int(size[1])):
        raise Refused(11)
    return int(size[1])


# "with 12 the first entry that is malformed, out of limits or missing"
def take_entry(line):
    if not ENTRY_LINE.fullmatch(line) or not within_limits("A", int(line)):
        raise Refused(12)
    return int(line)


# "with 12 the first entry that is ... missing, or anything after the last"
def take_entries(lines, rest, n):
    entries = [take_entry(line) for line in lines[:n * n]]
    if len(lines) != n * n or rest:
        raise Refused(12)
    return entries


# "Reading refuses with 11 a wrong first line, or a size line that is missing ..., and then with 12 ..."
def take_matrix(text):
    lines, rest = split_lines(text)
    if lines[:1] != [FIRST_LINE]:
        raise Refused(11)
    lines = list(dropwhile(is_comment, lines[1:]))
    if not lines:
        raise Refused(11)
    n = take_size(lines[0])
    return n, take_entries(lines[1:], rest, n)


# "The list is row after row, places past n × n stay, and reading returns n." (changes the list in place)
def read_matrix(text, coefficients):
    if len(coefficients) < LEAST_PLACES:
        return Outcome(REFUSAL, 1)
    try:
        n, entries = take_matrix(text)
    except Refused as refused:
        return Outcome(REFUSAL, refused.number)
    coefficients[:n * n] = transposed(entries, n)
    return Outcome(COUNT, n)


# "places past n × n stay" (outcome, and the list afterwards)
def call_read_matrix(text, places, fill):
    coefficients = [fill] * places
    outcome = read_matrix(text, coefficients)
    return outcome, coefficients


# "no comments, single spaces, no leading zeros and a minus only below zero"
def matrix_text(n, coefficients):
    lines = [FIRST_LINE, b"%d %d" % (n, n), *(b"%d" % entry for entry in transposed(coefficients, n))]
    return b"".join(line + b"\n" for line in lines)


# "Writing returns the text's length" / "in writing the case writer's 6, 4 and 6 then apply in their order"
def write_matrix(n, coefficients, buffer):
    number = writer_refusal((n,), [coefficients], [n * n], len(buffer), LEAST_MATRIX_BUFFER)
    if number:
        return Outcome(REFUSAL, number)
    return put(buffer, matrix_text(n, coefficients))


# "leaves the bytes beyond it" (outcome, and the buffer afterwards)
def call_write_matrix(n, coefficients, buffer_length, fill=0xA5):
    buffer = bytearray([fill]) * buffer_length
    outcome = write_matrix(n, coefficients, buffer)
    return outcome, bytes(buffer)


# ---------------------------------------------------------------- the changes a record yields


# "the sign turned where Y is negative and no change where Y is zero"
def sign(figure):
    return (figure > 0) - (figure < 0)


# "a coefficient changes by E × R / T, ...; the right side by −f × R / T. All are zero where T is zero."
def row_changes(case, record, row):
    i = row - 1
    residual, reach = record.residuals[i], record.reaches[i]
    if reach == 0:
        return Changes([0] * case.n, 0, 1)
    pairs = zip(case.tolerances[i], record.answer, strict=True)
    changed = [tolerance * residual * sign(y) for tolerance, y in pairs]
    return Changes(changed, -case.right_tolerances[i] * residual, reach)


# "They keep the tolerances if each |a(j)| is at most q × E(j) and |c| at most q × f"
def keep_tolerances(case, row, changes, limit=Fraction(1)):
    i, q = row - 1, changes.denominator
    pairs = zip(changes.coefficients, case.tolerances[i], strict=True)
    coefficients_keep = all(abs(Fraction(a, q)) <= limit * tolerance for a, tolerance in pairs)
    right_side_keeps = abs(Fraction(changes.right_side, q)) <= limit * case.right_tolerances[i]
    return coefficients_keep and right_side_keeps


# "they solve the row if the sum of (q × A(j) + a(j)) × Y(j) equals D × (q × b + c)"
def solve_row(case, record, row, changes):
    i, q = row - 1, changes.denominator
    changed = [a + Fraction(da, q) for a, da in zip(case.coefficients[i], changes.coefficients)]
    left = sum((a * y for a, y in zip(changed, record.answer, strict=True)), Fraction(0))
    return left == scale(case) * (case.right_sides[i] + Fraction(changes.right_side, q))


# "The changes that a record of "met" yields, by its own R and T" (for one row that is met)
def met_row_changes_hold(case, record, row):
    changes = row_changes(case, record, row)
    return keep_tolerances(case, row, changes) and solve_row(case, record, row, changes)


# ---------------------------------------------------------------- the printed verdict


# "An answer has a minus exactly if Y is negative, then the whole tonnes, and for e above 0 a point ..."
def answer_text(figure, e):
    minus = "-" if figure < 0 else ""
    whole, part = divmod(abs(figure), 10 ** e)
    return f"{minus}{whole}.{part:0{e}d}" if e > 0 else f"{minus}{whole}"


# "The lines give the verdict, then every tank's answer and then every row by number, then the factor"
def finished_text(finished):
    answer, judgement = finished.trial
    verdict = "met" if judgement.met else "unmet"
    lines = [f"{verdict} row {judgement.first_unmet} rounds {finished.rounds_used}"]
    for i, figure in enumerate(answer):
        lines.append(f"answer {i + 1} {answer_text(figure, finished.case.e)}")
    for i, (residual, reach) in enumerate(zip(judgement.residuals, judgement.reaches, strict=True)):
        lines.append(f"row {i + 1} residual {residual} reach {reach}")
    none = "none " if judgement.none else ""
    lines.append(f"factor {none}row {judgement.decides}")
    return "".join(line + "\n" for line in lines)


# "For a refusal it prints `refused`, a space and the number. A line feed ends every line."
def verdict_text(data):
    try:
        return finished_text(work(data[:MOST_INPUT], LEAST_RESULT_BUFFER))
    except Refused as refused:
        return f"refused {refused.number}\n"


# "The program `verdict` reads at most 389 bytes of standard input"
def main(arguments):
    if arguments != ["verdict"]:
        sys.stderr.write("usage: python3 tools/reference.py verdict < case\n")
        return 2
    text = verdict_text(sys.stdin.buffer.read(MOST_INPUT))
    sys.stdout.buffer.write(text.encode("ascii"))
    return 0


if __name__ == "__main__":
    sys.exit(main(sys.argv[1:]))
