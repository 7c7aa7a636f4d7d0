#!/usr/bin/env python3
"""Test vectors from the reference: results, printed verdicts, written cases, soundings, Matrix Market files.

    python3 tools/vectors.py DIR           make the six files in DIR
    python3 tools/vectors.py --check DIR   make them again in memory and compare
    python3 tools/vectors.py --stats       print how many vectors there are of each kind

All numbers are big-endian. Six files, each a stream of items without padding.

vectors.bin, one item for each call that takes a case and a result buffer:
    2 bytes  length of the input (0 to 400; FFFF ends the stream, nothing follows)
    then     the input
    2 bytes  length of the result buffer (0, 1, 179, 180, 181 or 400)
    1 byte   kind: 0 a count, 1 a refusal
    2 bytes  the number: the count (40 to 180) or the refusal (1 to 9)
    then     for a count exactly that many bytes, the record
  The buffer holds A5 in every byte before the call. Afterwards the record is at its
  front and every byte beyond the record, or for a refusal every byte, is still A5.

texts.bin, one item for each input of the program `verdict`:
    2 bytes  length of the input (0 to 389; FFFF ends the stream, nothing follows)
    then     the input
    2 bytes  length of the printed text (at most 599)
    then     the text, its last line feed included

writes.bin, one item for each call of the case writer:
    3 bytes  n, e, K (FF FF FF ends the stream, nothing follows; no call starts FF FF)
    then     five lists, each 1 byte count (at most 80) and its figures:
             coefficients (2 bytes, two's complement), tolerances (2 bytes, unsigned),
             right sides (4 bytes, two's complement), their tolerances (4 bytes, unsigned),
             trial (4 bytes, two's complement)
    2 bytes  length of the buffer (0, 1, 180, 387, 388, 389, 400 or 512)
    1 byte   kind: 0 a count, 1 a refusal
    2 bytes  the number: the count (24 to 388) or the refusal (1, 4 or 6)
    then     for a count exactly that many bytes, the case
  The buffer holds A5 in every byte before the call, as above.

soundings.bin, one item for each call that takes a case and a buffer for the depths, in
the form of vectors.bin:
    2 bytes  length of the input (0 to 400; FFFF ends the stream, nothing follows)
    then     the input
    2 bytes  length of the buffer (0 to 17, 128, 180 or 400)
    1 byte   kind: 0 a count, 1 a refusal
    2 bytes  the number: the count (2 to 16) or the refusal (1 to 10)
    then     for a count exactly that many bytes, the depths (2 bytes each)
  The buffer holds A5 in every byte before the call, as above.

matrix_reads.bin, one item for each call that reads a Matrix Market file into a list:
    2 bytes  length of the text (0 to 600; FFFF ends the stream, nothing follows)
    then     the text
    2 bytes  how many places the list has (0, 1, 63, 64, 65 or 80)
    1 byte   kind: 0 a count, 1 a refusal
    2 bytes  the number: n (1 to 8) or the refusal (1, 11 or 12)
    then     for a count n × n coefficients (2 bytes, two's complement), row after row
  Every place of the list holds A5A5 before the call, and so does every place past n × n,
  or for a refusal every place, after it.

matrix_writes.bin, one item for each call that writes a Matrix Market file:
    2 bytes  n (FFFF ends the stream, nothing follows)
    then     1 byte count (at most 80) and the coefficients (2 bytes, two's complement)
    2 bytes  length of the buffer (0, 1, 50, 495, 496, 497 or 512)
    1 byte   kind: 0 a count, 1 a refusal
    2 bytes  the number: the count (50 to 496) or the refusal (1, 4 or 6)
    then     for a count exactly that many bytes, the text
  The buffer holds A5 in every byte before the call, as above.
"""

import sys
from collections import Counter

import families
import matrix_calls
import reference
import sounding_calls
import stored
import write_calls

END_MARK = b"\xff\xff"
FILL = 0xA5
TEXTS_PER_FAMILY = 28
WIDTHS = (2, 2, 4, 4, 4)


def short(number):
    return number.to_bytes(2, "big")


# ---------------------------------------------------------------- the six files


def as_many(count):
    return count


def coefficient_bytes(n):
    """How many bytes n × n coefficients have."""
    return 2 * n * n


def outcome_bytes(outcome, buffer, bytes_left=as_many):
    """Kind, number and, for a count, the bytes that it leaves at the buffer's front."""
    beyond = bytes_left(outcome.number) if outcome.kind == reference.COUNT else 0
    assert buffer[beyond:] == bytes([FILL]) * (len(buffer) - beyond)
    kind = 0 if outcome.kind == reference.COUNT else 1
    return bytes([kind]) + short(outcome.number) + buffer[:beyond]


def make_calls(call, inputs, bytes_left=as_many):
    """An item for each input and buffer length, with what the call leaves."""
    parts = []
    for _, data, length in inputs:
        outcome, buffer = call(data, length, FILL)
        parts.append(short(len(data)) + data + short(length) + outcome_bytes(outcome, buffer, bytes_left))
    return b"".join(parts) + END_MARK


def text_inputs(inputs):
    """Inputs spread evenly over each family, and the whole family of signs."""
    chosen = []
    for name, _ in families.FAMILIES:
        fitting = [data for family, data, _ in inputs if family == name and len(data) <= 389]
        count = len(fitting) if name == "signs" else min(len(fitting), TEXTS_PER_FAMILY)
        chosen += [fitting[i * len(fitting) // count] for i in range(count)]
    return chosen


def make_texts(inputs):
    parts = []
    for data in text_inputs(inputs):
        text = reference.verdict_text(data).encode("ascii")
        parts.append(short(len(data)) + data + short(len(text)) + text)
    return b"".join(parts) + END_MARK


def written(call):
    """The writer's outcome for a call, and the buffer afterwards."""
    n, e, rounds, lists, length = call
    buffer = bytearray([FILL]) * length
    outcome = reference.write_case(n, e, rounds, *lists, buffer)
    return outcome, bytes(buffer)


def list_bytes(figures, width):
    """A count in one byte, and the figures."""
    assert len(figures) <= 80
    return bytes([len(figures)]) + families.numbers(figures, width)


def make_writes():
    parts = []
    for call in write_calls.all_calls():
        n, e, rounds, lists, length = call
        head = bytes([n, e, rounds])
        assert head[:2] != END_MARK
        given = [list_bytes(figures, width) for figures, width in zip(lists, WIDTHS, strict=True)]
        parts.append(head + b"".join(given) + short(length) + outcome_bytes(*written(call)))
    return b"".join(parts) + END_MARK + b"\xff"


def read_to_bytes(text, places, fill):
    """The outcome of reading for a text, and the list afterwards as bytes, each of which was filled before."""
    assert len(text) <= 600 and places <= 80
    filled = int.from_bytes(bytes([fill, fill]), "big", signed=True)
    outcome, coefficients = reference.call_read_matrix(text, places, filled)
    return outcome, families.numbers(coefficients, 2)


def make_matrix_writes():
    parts = []
    for n, coefficients, length in matrix_calls.all_writes():
        assert short(n) != END_MARK
        outcome, buffer = reference.call_write_matrix(n, coefficients, length, FILL)
        given = short(n) + list_bytes(coefficients, 2) + short(length)
        parts.append(given + outcome_bytes(outcome, buffer))
    return b"".join(parts) + END_MARK


def make_files():
    inputs = families.all_families()
    return {
        "vectors.bin": make_calls(reference.call, inputs),
        "texts.bin": make_texts(inputs),
        "writes.bin": make_writes(),
        "soundings.bin": make_calls(reference.call_soundings, sounding_calls.all_calls()),
        "matrix_reads.bin": make_calls(read_to_bytes, matrix_calls.all_reads(), coefficient_bytes),
        "matrix_writes.bin": make_matrix_writes(),
    }


# ---------------------------------------------------------------- how many of each kind


# the four places that round, by the function of reference.py that calls rnd or, for a loss, that calls loss
PLACES = {"multiplier": "multiplier", "clear_below": "entry's loss", "forward": "forward pass", "backward": "correction"}


class Halves:
    """Notes, while in use, where p/q falls on a half, whether |p| div |q| is odd or even, and the side of zero."""

    def __init__(self):
        self.places = set()
        self.plain = reference.rnd

    def rnd(self, p, q):
        whole, rest = divmod(abs(p), abs(q))
        if 2 * rest == abs(q):
            frame = sys._getframe(1)
            frame = frame.f_back if frame.f_code.co_name == "loss" else frame
            parity, side = "odd" if whole % 2 else "even", "above" if (p < 0) == (q < 0) else "below"
            self.places.add(f"half in {PLACES[frame.f_code.co_name]}, {parity}, {side} zero")
        return self.plain(p, q)

    def __enter__(self):
        reference.rnd = self.rnd
        return self

    def __exit__(self, *_):
        reference.rnd = self.plain


def judgement_kinds(result):
    """The kinds under which a finished case is counted."""
    case, (_, judgement), used = result
    verdict = "met" if judgement.met else "unmet, none" if judgement.none else "unmet, factor"
    worked = f"{verdict.split(',')[0]}, rounds used {used}" if case.rounds else f"brought, {verdict}"
    found = ["count", f"n {case.n}", f"e {case.e}", f"K {case.rounds}", verdict, worked,
             f"deciding row {judgement.decides}", f"first unmet row {judgement.first_unmet}"]
    pairs = list(zip(judgement.residuals, judgement.reaches, strict=True))
    factors = [reference.factor(residual, reach) for residual, reach in pairs]
    if not judgement.none and factors.count(max(factors)) > 1:
        found.append("greatest factor in several rows")
    if (0, 0) in pairs:
        found.append("a row without residual and reach")
    if any(abs(residual) == reach > 0 for residual, reach in pairs):
        found.append("a row with residual equal to reach")
    return found


def kinds(data, length):
    """The kinds under which one vector is counted."""
    with Halves() as halves:
        try:
            result = reference.work(data, length)
        except reference.Refused as refused:
            by = f" by {refused.place}" if refused.place else ""
            before = families.trial_kinds(data) if refused.number == 9 else []
            return [f"refusal {refused.number}{by}", *before]
    found = judgement_kinds(result) + sorted(halves.places)
    coefficients = result.case.coefficients
    if result.case.rounds and reference.eliminate(coefficients).permutation != list(range(result.case.n)):
        found.append("rows exchanged")
    return found + (families.trial_kinds(data) if result.case.rounds else [])


def outcome_kind(outcome):
    return "count" if outcome.kind == reference.COUNT else f"refusal {outcome.number}"


def write_kinds():
    return Counter(outcome_kind(written(call)[0]) for call in write_calls.all_calls())


def figure_kinds(figure, d):
    """The kinds under which one answer figure inside the table is counted."""
    units = {k: (figure + k) * 1_000 for k in (-1, 0, 1)}
    entries = {entry * d for entry in reference.TABLE}
    found = [f"depth {h}" for h in (0, 1, 200, 399, 400) if reference.depth(figure, d) == h]
    found += ["0 kilograms"] if figure == 0 else []
    found += ["520,000 kilograms"] if units[0] == reference.TABLE[-1] * d else []
    found += ["an entry exactly"] if units[0] in entries else []
    found += ["one unit below an entry"] if units[1] in entries else []
    found += ["one unit above an entry"] if units[-1] in entries else []
    return [f"{kind}, D {d}" for kind in found]


def outside_kinds(answer, d):
    """The kinds under which an answer is counted of which some figure is outside the table."""
    places = [i for i, figure in enumerate(answer) if reference.outside_table(figure, d)]
    found = ["negative"] if any(figure < 0 for figure in answer) else []
    found += ["one unit above the table"] if 520 * d + 1 in answer else []
    found += ["several outside"] if len(places) > 1 else []
    found += ["only later tanks outside"] if places[0] > 0 else []
    return [f"{kind}, D {d}" for kind in found]


def sounding_kinds(data, length):
    """The kinds under which one call of the soundings is counted."""
    try:
        result = reference.work(data, length, reference.LEAST_DEPTHS_BUFFER)
    except reference.Refused as refused:
        return [f"refusal {refused.number}"]
    case, (answer, judgement), _ = result
    d = reference.scale(case)
    came = "worked out" if case.rounds else "brought"
    verdict = "met" if judgement.met else "unmet"
    other = sounding_calls.kept_and_last(data) if case.rounds else ""
    apart = [f"kept and last trial, {other}"] if other else []
    if any(reference.outside_table(figure, d) for figure in answer):
        return ["refusal 10", f"refusal 10, {came}, {verdict}", *outside_kinds(answer, d), *apart]
    found = sorted({kind for figure in answer for kind in figure_kinds(figure, d)})
    return ["count", f"count, {came}, {verdict}", f"count, n {case.n}", f"count, D {d}", *found, *apart]


def matrix_read_kinds(text, places):
    """The kinds under which one call of reading a matrix is counted."""
    outcome, coefficients = reference.call_read_matrix(text, places, 0)
    kind = outcome_kind(outcome)
    if outcome.kind == reference.REFUSAL:
        return [kind]
    n = outcome.number
    wider = text != reference.matrix_text(n, coefficients[:n * n])
    return [kind, f"{kind}, n {n}", f"{kind}, {'wider than' if wider else 'as'} the writer's text"]


def matrix_write_kinds():
    found = Counter()
    for n, coefficients, length in matrix_calls.all_writes():
        outcome, _ = reference.call_write_matrix(n, coefficients, length, FILL)
        kind = outcome_kind(outcome)
        found.update([kind] if outcome.kind == reference.REFUSAL else [kind, f"{kind}, n {n}"])
    return found


def print_counts(title, counts):
    print(title)
    for kind, count in sorted(counts.items()):
        print(f"  {kind:44}{count:7}")


def print_calls(title, inputs, kinds_of):
    """How many calls there are of each family and, by a function that gives a call's kinds, of each kind."""
    counts = Counter()
    for _, data, length in inputs:
        counts.update(kinds_of(data, length))
    print_counts(f"{title}, {len(inputs)}, by family", Counter(name for name, _, _ in inputs))
    print_counts(f"{title} by kind", counts)


def print_stats():
    inputs = families.all_families()
    texts = [reference.verdict_text(data) for data in text_inputs(inputs)]
    print_calls("vectors", inputs, kinds)
    print_calls("calls of the soundings", sounding_calls.all_calls(), sounding_kinds)
    print_counts(f"texts, {len(texts)}, by first word", Counter(text.split()[0] for text in texts))
    print_counts(f"calls of the writer, {len(write_calls.all_calls())}", write_kinds())
    print_calls("calls of reading a matrix", matrix_calls.all_reads(), matrix_read_kinds)
    print_counts(f"calls of writing a matrix, {len(matrix_calls.all_writes())}", matrix_write_kinds())
    return 0


def main(arguments):
    if arguments == ["--stats"]:
        return print_stats()
    return stored.main("vectors", make_files, arguments, " | --stats")


if __name__ == "__main__":
    sys.exit(main(sys.argv[1:]))
