"""Calls of the case writer for the test vectors, made alike on every run.

A call is (n, e, K, five lists, buffer length). Counts go up to 80 and every figure fits
its width in the stored form, whether or not it is within its limits. No call has both
n 255 and e 255, so that two bytes FF can mark the end of the stored calls.
"""

import reference
from families import ANSWER, COEFFICIENT, RIGHT, TOLERANCE, Stream, at_limits

NAMES = "AEbfY"
SHORT = (0, 1, 180, 387)
LONG = (388, 389, 400, 512)


def plain_call(n, e, rounds, buffer_length=388):
    """A call that is accepted: a diagonal case with small figures."""
    diagonal = [i + 2 if i == j else 0 for i in range(n) for j in range(n)]
    trial = [-3 * i for i in range(n)] if rounds == 0 else []
    lists = [diagonal, [1] * (n * n), [7 - i for i in range(n)], [2] * n, trial]
    return n, e, rounds, lists, buffer_length


def random_calls():
    """Accepted calls for every n and K, with figures over their whole ranges."""
    stream, calls = Stream(21), []
    for n in range(1, 9):
        for rounds in range(9):
            lists = [
                stream.list(n * n, -COEFFICIENT, COEFFICIENT), stream.list(n * n, 0, TOLERANCE),
                stream.list(n, -RIGHT, RIGHT), stream.list(n, 0, RIGHT),
                stream.list(n if rounds == 0 else 0, -ANSWER, ANSWER),
            ]
            calls.append((n, stream.between(0, 3), rounds, lists, stream.one_of(LONG)))
    return calls


def shape_calls():
    """Every e, and n, e and K at and past their limits, with long and short buffers."""
    calls = [plain_call(n, e, rounds, LONG[e]) for n in (1, 4, 8) for e in range(4) for rounds in (0, 1, 8)]
    for length in SHORT + LONG:
        calls += [plain_call(3, 1, 0, length), plain_call(8, 1, 0, length), plain_call(2, 4, 9, length)]
    for n in at_limits("n") + [10, 64, 200]:
        _, e, rounds, lists, length = plain_call(min(n, 8), 0, 0)
        calls += [(n, e, rounds, lists, length), (n, e, rounds, [[]] * 5, length)]
    calls.append((9, 0, 1, [[1] * 80, [0] * 80, [1] * 9, [0] * 9, []], 388))
    for e in at_limits("e"):
        calls += [plain_call(2, e, 0), plain_call(1, e, 3)]
    for rounds in at_limits("K"):
        calls += [plain_call(2, 0, rounds), plain_call(1, 3, rounds)]
    return calls


def resized(figures, count):
    return (figures * (count + 1) if figures else [0] * count)[:count]


def count_calls():
    """Each list shorter and longer than due, also a trial where none is due and none where one is."""
    calls = []
    for n, rounds in ((1, 0), (1, 2), (3, 0), (3, 8), (8, 0), (8, 1)):
        for which in range(5):
            due = reference.counts_due(n, rounds)[which]
            for count in sorted({0, 1, due - 1, due + 1, due + n, n, n * n, 80} - {due, -1}):
                _, e, _, lists, length = plain_call(n, 2, rounds)
                lists[which] = resized(lists[which], count)
                calls.append((n, e, rounds, lists, length))
    return calls


def figure_calls():
    """Each figure at its limits and past them, in the first and the last place of its list."""
    calls = []
    for n, rounds in ((1, 0), (2, 0), (2, 1), (8, 0)):
        for which, name in enumerate(NAMES):
            due = reference.counts_due(n, rounds)[which]
            for place in sorted({0, due - 1}) if due else ():
                for value in at_limits(name):
                    _, e, _, lists, length = plain_call(n, 3, rounds)
                    lists[which][place] = value
                    calls.append((n, e, rounds, lists, length))
    return calls


def precedence_calls():
    """Several faults in one call: 1 before 6 of the head, before 4, before 6 of a figure."""
    calls = []
    for faults in range(1, 16):
        for rounds in (0, 4):
            _, e, _, lists, _ = plain_call(2, 0, rounds)
            lists[0][3] = -32_768 if faults & 1 else 1
            lists[2][0] = RIGHT + 1 if faults & 1 else 1
            if faults & 2:
                lists[faults % 5] = lists[faults % 5] + [0]
            head = (9, e) if faults & 4 and rounds else (2, 4) if faults & 4 else (2, e)
            calls.append((*head, rounds, lists, 387 if faults & 8 else 388))
    for trial in ([ANSWER + 1], [0], [0, 0]):
        n, e, rounds, lists, length = plain_call(2, 0, 1)
        calls.append((n, e, rounds, lists[:4] + [trial], length))
    return calls


def all_calls():
    """Every call, in a fixed order."""
    return random_calls() + shape_calls() + count_calls() + figure_calls() + precedence_calls()
