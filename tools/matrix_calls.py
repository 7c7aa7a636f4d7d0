"""Calls of the reading and writing of Matrix Market files for the test vectors, made alike on every run.

Each family of reading is a function without arguments that returns a list of pairs: the
text, of at most 600 bytes, and how many places the list has, as in families.py. A text is
put together from its lines, right or wrong, so the writer of reference.py has no part in
it. A call of writing is (n, coefficients, buffer length); counts go up to 80, and no n is
65,535, so that two bytes FF can mark the end of the stored calls.
"""

import families
import reference
from families import COEFFICIENT, Stream

FIRST = reference.FIRST_LINE
SHORT_LISTS = (0, 1, 63)
LONG_LISTS = (64, 65, 80)
SHORT_BUFFERS = (0, 1, 495)
LONG_BUFFERS = (496, 497, 512)
# the rows differ from the columns, and so do the entries' lengths
SMALL = (b"5", b"-17", b"20300", b"0")


# ---------------------------------------------------------------- texts


def joined(*lines):
    """Every line with its line feed."""
    return b"".join(line + b"\n" for line in lines)


def size_line(n):
    return b"%d %d" % (n, n)


def text_of(n, entries, *comments):
    """The first line, comments, the size line, and the entries as they are."""
    return joined(FIRST, *comments, size_line(n), *entries)


def digits(figures):
    return [b"%d" % figure for figure in figures]


def of_every_length(stream, count):
    """Figures of one to four digits on both sides of zero, zeros among them."""
    return [stream.between(-9, 9) * 10 ** stream.between(0, 3) for _ in range(count)]


def distinct(n):
    """Entries of which no two are equal, below zero in turn."""
    return digits((-1) ** k * (100 * k + n) for k in range(n * n))


def two_tanks():
    """Two tanks and a comment, every kind of line present."""
    return text_of(2, SMALL, b"% hull 7")


def with_long_lists(texts):
    return families.with_buffers(texts, LONG_LISTS)


def replaced(text, place, *parts):
    """One text for each part, which stands where one byte stood."""
    return [text[:place] + part + text[place + 1:] for part in parts]


def inserted(text, place, *parts):
    return [text[:place] + part + text[place:] for part in parts]


# ---------------------------------------------------------------- texts that are read


def every_size():
    """Each n with figures over their whole range, at their limits, and of every length."""
    stream, texts = Stream(41), []
    for n in range(1, 9):
        count = n * n
        texts += [text_of(n, digits(stream.list(count, -COEFFICIENT, COEFFICIENT))) for _ in range(4)]
        texts.append(text_of(n, digits(of_every_length(stream, count))))
        texts += [text_of(n, digits([figure] * count)) for figure in (COEFFICIENT, -COEFFICIENT, 0, -1)]
        texts.append(text_of(n, distinct(n)))
    return with_long_lists(texts)


def list_lengths():
    """Every length beside texts that are read and texts that are refused with 11 and 12."""
    texts = [text_of(n, distinct(n)) for n in (1, 2, 5, 8)]
    texts += [b"", FIRST, joined(FIRST), joined(FIRST, b"9 9"), text_of(2, SMALL[:3]), two_tanks() + b"\n"]
    return [(text, places) for text in texts for places in SHORT_LISTS + LONG_LISTS]


def zeros_before(stream, entry):
    """The entry with further zeros before its digits, up to five digits; a zero may get a minus."""
    minus, figures = (b"-", entry[1:]) if entry[:1] == b"-" else (b"", entry)
    if figures == b"0":
        minus = stream.one_of((b"", b"-"))
    return minus + b"0" * stream.between(0, 5 - len(figures)) + figures


def comment(stream):
    """A comment line of any bytes but a line feed."""
    size = stream.one_of((0, 1, 2, 7, 20))
    return b"%" + bytes(byte for byte in stream.list(size, 0, 255) if byte != 0x0A)


def wide(stream, n):
    """A text that is read, here and there with comments, spaces, zeros before digits, a minus before a zero."""
    entries = digits(stream.one_of((0, stream.between(-99, 99), stream.between(-COEFFICIENT, COEFFICIENT)))
                     for _ in range(n * n))
    comments = [comment(stream) for _ in range(stream.between(0, 3))]
    size = b"%d" % n + b" " * stream.between(1, 6) + b"%d" % n
    return joined(FIRST, *comments, size, *(zeros_before(stream, entry) for entry in entries))


def wide_forms():
    stream = Stream(42)
    return with_long_lists([wide(stream, n) for n in range(1, 9) for _ in range(6)])


# ---------------------------------------------------------------- the first line


def first_lines():
    """The first line with each byte changed, in the other case, removed and doubled."""
    texts = []
    for place, byte in enumerate(FIRST):
        other = bytes([byte]).swapcase()
        kept = bytes([byte])
        lines = replaced(FIRST, place, other if other != kept else b"_", b"", kept + kept)
        texts += [joined(line, size_line(2), *SMALL) for line in lines]
    return with_long_lists(texts)


OTHER_FIRST_LINES = (
    b"", b"%", b"%%", b"%%MatrixMarket", b"%%MatrixMarket matrix array", b"% a comment first", b"2 2",
    b"%%MatrixMarket matrix array real general", b"%%MatrixMarket matrix array double general",
    b"%%MatrixMarket matrix array complex general", b"%%MatrixMarket matrix array pattern general",
    b"%%MatrixMarket matrix array unsigned-integer general",
    b"%%MatrixMarket matrix coordinate integer general", b"%%MatrixMarket matrix coordinate real general",
    b"%%MatrixMarket matrix coordinate pattern symmetric", b"%%MatrixMarket matrix array integer symmetric",
    b"%%MatrixMarket matrix array integer skew-symmetric", b"%%MatrixMarket matrix array complex hermitian",
    b"%%MatrixMarket vector array integer general", b"%%MatrixMarket  matrix array integer general",
    b"%%MatrixMarket\tmatrix\tarray\tinteger\tgeneral", b"%%matrixmarket matrix array integer general",
    b"%%MATRIXMARKET MATRIX ARRAY INTEGER GENERAL", b"%%MatrixMarket matrix integer array general",
    b"%MatrixMarket matrix array integer general", b"%%%MatrixMarket matrix array integer general",
    b"\xef\xbb\xbf" + FIRST, b" " + FIRST, b"\n" + FIRST, b"%\n" + FIRST, FIRST + b" ", FIRST + b"\t",
    FIRST + b"\r", FIRST + b"\x00", FIRST + b"\xff", FIRST + b"%", FIRST + b" % exported", FIRST[::-1],
)


def other_first_lines():
    """Other forms of the format, lines close to the one that is due, and texts without any such line."""
    texts = [joined(line, size_line(2), *SMALL) for line in OTHER_FIRST_LINES]
    texts += [joined(line, b"% as exported", size_line(1), b"7") for line in OTHER_FIRST_LINES[::3]]
    texts += [b"", b"\n", b"%", b"%\n", b"\r\n", b"\x00", b"\xff" * 64, bytes(600), b"%" * 600, FIRST,
              FIRST[:-1], FIRST + b"1 1\n7\n", FIRST + b"\r1 1\r7\r", families.PRINTED]
    return with_long_lists(texts)


# ---------------------------------------------------------------- comments


COMMENTS = (
    b"%", b"%%", b"%%%%%%%%", b"% ", b"%\t", b"%2 2", b"% 50% of 3%", b"% a\rb", b"% ends in CR\r", b"%\r",
    b"%\x00", b"%\xff\xfe", b"% \xe2\x88\x92\xc2\xb11", b"%-1", FIRST, FIRST + b" again", b"%" + b"x" * 300,
    b"%" + b"% " * 200,
)
NO_COMMENTS = (
    b"", b" ", b" %", b"\t% tab", b"\r", b"\r%", b"#", b"# 1", b"!", b"//", b"\x00%", b"\xff%", b"x", b"-%",
)


def comment_lines():
    """Every kind of comment alone, before and behind others, and beside lines that are none."""
    kinds = [(line,) for line in COMMENTS] + [(b"%",) * count for count in (2, 3, 50, 260)]
    kinds += [(b"% office", line, b"%") for line in COMMENTS[:12]]
    kinds += [(line,) for line in NO_COMMENTS] + [(b"%", line, b"%") for line in NO_COMMENTS]
    return with_long_lists([text_of(2, SMALL, *lines) for lines in kinds])


def comments_elsewhere():
    """A comment in every place, also behind the size line; one that ends the text and is not ended."""
    texts = []
    for n in (1, 2):
        lines = [FIRST, b"% office", size_line(n), *distinct(n)]
        for place in range(1, len(lines) + 1):
            for line in (b"%", b"% entry", b"%1"):
                texts += [joined(*lines[:place], line, *lines[place:]), joined(*lines[:place]) + line]
    return with_long_lists(texts)


# ---------------------------------------------------------------- size lines


def digit_pairs():
    """Every pair of digits, with as many entries as it asks for."""
    texts = []
    for rows in range(10):
        for columns in range(10):
            entries = digits(range(rows * columns))
            texts.append(joined(FIRST, b"%d %d" % (rows, columns), *entries))
    return with_long_lists(texts)


SPACED = (b"2  2", b"2   2", b"2" + b" " * 40 + b"2", b"2" + b" " * 400 + b"2")
WRONG_SIZES = (
    b"", b" ", b"2", b"2 ", b" 2", b"22", b"2 2 ", b" 2 2", b"2 2  ", b"  2 2", b"\t2 2", b"2 2\t", b"2\t2",
    b"2 \t2", b"2\t 2", b"2\x002", b"2\x0b2", b"2\x0c2", b"2\r2", b"2\xa02", b"2\xc2\xa02", b"2 2\r",
    b"\r2 2", b"2 \r2", b"2,2", b"2x2", b"2;2", b"2-2", b"2_2", b"2 2 4", b"2 2 2", b"2 2 % hull", b"2 2%",
    b"%2 2\r2 2", b"02 2", b"2 02", b"02 02", b"12 2", b"2 12", b"10 10", b"16 16", b"20 2", b"2 20",
    b"+2 2", b"2 +2", b"-2 -2", b"2 -2", b"2. 2.", b"2.0 2.0", b"n n", b"a a", b"/ /", b": :", b"2 /",
    b": 2", b"0 0", b"9 9", b"\x02 \x02", b"\xb2 \xb2", b"\xff \xff", b"\x00 \x00",
    b"\xef\xbc\x92 \xef\xbc\x92", b"two two", b"0x2 0x2", b"2 2\x00", b"\x002 2", b"2 2\xff", b"2 2/",
    b"2 3", b"3 2",
)


def size_lines():
    """Spaces of every kind, sizes that are none, and a size line that is missing or not ended."""
    lines = SPACED + WRONG_SIZES
    texts = [joined(FIRST, line, *SMALL) for line in lines]
    texts += [joined(FIRST, b"% office", line, *SMALL) for line in lines[::4]]
    texts += [joined(FIRST, size_line(n).replace(b" ", b""), *distinct(n)) for n in range(1, 9)]
    texts += [joined(FIRST, line) for line in (b"2 2", b"9 9", b"2", b"")]
    texts += [joined(FIRST, *SMALL), joined(FIRST, b"%", *SMALL), joined(FIRST), joined(FIRST, b"%")]
    for line in (b"1 1", b"2 2", b"1", b"1 ", b"1  ", b"9 9"):
        texts += [joined(FIRST) + line, joined(FIRST, b"% office") + line, joined(FIRST) + line + b"\r7"]
    return with_long_lists(texts)


# ---------------------------------------------------------------- entries


GOOD_ENTRIES = (
    b"0", b"-0", b"00", b"00000", b"-00000", b"7", b"-7", b"007", b"00007", b"-0007", b"-00007", b"9",
    b"10", b"09999", b"32766", b"32767", b"-32766", b"-32767", b"10000", b"29999",
)
BAD_ENTRIES = (
    b"32768", b"-32768", b"32769", b"-32769", b"40000", b"65535", b"65536", b"98303", b"99999", b"-99999",
    b"000000", b"-000000", b"000007", b"-000007", b"032767", b"-032767", b"100000", b"-100000",
    b"4294967297", b"1" * 40, b"0" * 40, b"", b"-", b"--", b"--1", b"-+1", b"+", b"+1", b"+0", b"1-",
    b"1-1", b" ", b" 1", b"1 ", b"\t1", b"1\t", b"- 1", b"1 2", b"\r", b"1\r", b"\r1", b"1.", b"1.0", b".1",
    b"1,0", b"1e0", b"1E2", b"0x1", b"1_0", b"1'0", b"a", b"1a", b"a1", b"O", b"/", b":", b"1/", b"1:",
    b"/1", b":1", b"-/", b"-:", b"\x00", b"1\x00", b"\x001", b"\xff", b"1\xff", b"\xff1", b"\x01", b"\xb9",
    b"\xe2\x88\x921", b"%", b"%1", b"1%", b"(1)", b"nan", b"1 % hull",
)


def with_entry(n, place, entry):
    entries = distinct(n)
    entries[place] = entry
    return text_of(n, entries)


def entry_forms():
    """Each form in the only place and in the first, the last or a middle one; some in every place of three."""
    places = ((2, 0), (2, 3), (3, 4))
    texts = [with_entry(n, place, entry) for entry in GOOD_ENTRIES for n, place in places]
    texts += [with_entry(1, 0, entry) for entry in GOOD_ENTRIES + BAD_ENTRIES]
    texts += [with_entry(*places[i % 3], entry) for i, entry in enumerate(BAD_ENTRIES)]
    texts += [with_entry(3, i, entry) for i in range(9) for entry in (b"-32768", b"+1", b"000007", b"1\r")]
    texts += [with_entry(8, i, entry) for i in (0, 7, 8, 56, 63) for entry in (b"32768", b"", b"-32767")]
    return with_long_lists(texts)


# ---------------------------------------------------------------- ends


TAILS = (
    b"\n", b"\n\n", b" ", b" \n", b"\r", b"\r\n", b"\t", b"0", b"0\n", b"-", b"-\n", b"7", b"7\n", b"%",
    b"%\n", b"% end\n", b"\x00", b"\x00\n", b"\x00\x00", b"\x1a", b"\x1a\n", b"\x04", b"\xff", b"\xff\n", b"x",
    b"end\n", b"/", b":", b"2 2\n",
)


def ends():
    """The last line feed missing, bytes behind it, and bytes in its place."""
    one, two, eight = (text_of(n, distinct(n)) for n in (1, 2, 8))
    texts = [one[:-1], two[:-1], eight[:-1], one + one, two + two]
    texts += [two + tail for tail in TAILS] + [one[:-1] + tail for tail in TAILS]
    return with_long_lists(texts + [eight + tail for tail in TAILS[::4]])


def counts():
    """Entries missing and too many, and several in one line."""
    texts = []
    for n in range(1, 9):
        entries = distinct(n)
        wrong = {0, 1, n - 1, n, n * n - n, n * n - 2, n * n - 1} & set(range(n * n))
        for count in sorted(wrong):
            texts.append(text_of(n, entries[:count]))
        texts += [text_of(n, entries + entries[:more]) for more in (1, n)]
        texts.append(text_of(n, entries[:-2] + [b" ".join(entries[-2:])]))
        texts.append(text_of(n, [b" ".join(entries[i * n:(i + 1) * n]) for i in range(n)]))
    return with_long_lists(texts)


def cuts():
    """A text of two tanks cut at every byte, one of one tank behind its first line, the longest at its end."""
    one, longest = (text_of(n, digits([-COEFFICIENT] * (n * n))) for n in (1, 8))
    texts = [two_tanks()[:end] for end in range(len(two_tanks()) + 1)]
    texts += [one[:end] for end in range(len(FIRST), len(one) + 1)]
    texts += [longest[:end] for end in range(len(longest) - 16, len(longest))]
    return with_long_lists(texts)


# ---------------------------------------------------------------- lines spoiled where they stand


def line_ends():
    """Carriage returns, blank lines, spaces and tabs at one line, at all of them, and from one on."""
    lines = two_tanks().split(b"\n")[:-1]
    others = (b"\r\n", b"\r", b"\n\r", b"\n\n", b" \n", b"\n ", b"\t\n", b"\x00")
    texts = [two_tanks().replace(b"\n", end) for end in others]
    for place in range(len(lines)):
        before, line, after = lines[:place], lines[place], lines[place + 1:]
        texts += [joined(*before, line + end, *after) for end in (b"\r", b" ", b"\t", b"\n\r")]
        texts += [joined(*before, start + line, *after) for start in (b"\r", b" ", b"\n")]
        texts += [joined(*before, *after), joined(*before, line, line, *after)]
        texts.append(joined(*before) + line + joined(*after))
        texts.append(joined(*before) + joined(line, *after).replace(b"\n", b"\r\n"))
    return with_long_lists(texts)


def spoiled():
    """Each byte behind the first line changed, removed, or with another before it."""
    text, texts = text_of(2, SMALL, b"%"), []
    for place in range(len(FIRST), len(text)):
        texts += replaced(text, place, b"", b"\n", b"%", b" ", b"0", b"-")
        texts += inserted(text, place, b"\n", b" ", b"0", b"9")
    return with_long_lists(list(dict.fromkeys(texts)))


def wide_spoiled():
    """Texts of the wide forms with one byte changed to another that stands in texts."""
    stream, texts = Stream(43), []
    for n in range(1, 9):
        for _ in range(4):
            text = wide(stream, n)
            place = stream.between(len(FIRST), len(text) - 1)
            texts += replaced(text, place, bytes([stream.one_of(b"\n% 0123456789-")]))
    return with_long_lists(texts)


# ---------------------------------------------------------------- several faults


def precedence():
    """Every set of faults: an end, an entry, the size line, the first line and a short list."""
    calls = []
    for faults in range(1, 32):
        for n, wrong_size, wrong_entry, tail in ((1, b"9 9", b"+1", b"\n"), (3, b"3 3 ", b"32768", b"%\n")):
            first = FIRST.lower() if faults & 8 else FIRST
            size = wrong_size if faults & 4 else size_line(n)
            entries = distinct(n)
            entries[n // 2] = wrong_entry if faults & 2 else entries[n // 2]
            text = joined(first, b"% office", size, *entries) + (tail if faults & 1 else b"")
            calls.append((text, 63 if faults & 16 else 64))
    return calls


def two_entries():
    """An entry that is refused behind others that could be stored, and several that are refused."""
    texts = []
    for place in range(0, 16, 3):
        entries = distinct(4)
        entries[place] = b"40000"
        texts.append(text_of(4, entries))
        texts.append(text_of(4, entries[:place + 1]))
        texts.append(text_of(4, entries[:place] + [b"x"] * (16 - place)))
    return with_long_lists(texts)


READ_FAMILIES = [
    ("every size", every_size), ("list lengths", list_lengths), ("wide forms", wide_forms),
    ("first lines", first_lines), ("other first lines", other_first_lines), ("comments", comment_lines),
    ("comments elsewhere", comments_elsewhere), ("digit pairs", digit_pairs), ("size lines", size_lines),
    ("entries", entry_forms), ("ends", ends), ("counts", counts), ("cuts", cuts), ("line ends", line_ends),
    ("spoiled", spoiled), ("wide forms, spoiled", wide_spoiled), ("precedence", precedence),
    ("two entries", two_entries),
]


def all_reads():
    """(family name, text, places) of every call of reading, in a fixed order."""
    return families.named(READ_FAMILIES)


# ---------------------------------------------------------------- calls of writing


def accepted(n):
    """Coefficients that are accepted for an n from 1 to 8, of one to four digits, below zero in turn."""
    return [(-1) ** k * (7 ** (k % 5) + k) for k in range(n * n)]


def with_long_buffers(calls):
    return [(*call, length) for call, length in families.with_buffers(calls, LONG_BUFFERS)]


def random_writes():
    """Each n with figures over their whole range, and of every length."""
    stream, calls = Stream(44), []
    for n in range(1, 9):
        for _ in range(4):
            calls.append((n, stream.list(n * n, -COEFFICIENT, COEFFICIENT)))
        calls.append((n, of_every_length(stream, n * n)))
        calls += [(n, [figure] * (n * n)) for figure in (COEFFICIENT, -COEFFICIENT, 0, -1, 9)]
    return with_long_buffers(calls)


def figure_writes():
    """Every length of a figure on both sides of zero; -32,768 in the first, a middle and the last place."""
    sizes = [10 ** k + step for k in range(5) for step in (-1, 0, 1)] + [COEFFICIENT - 1, COEFFICIENT]
    calls = [(1, [sign * size]) for size in sizes for sign in (1, -1)] + [(1, [-COEFFICIENT - 1])]
    for n in range(2, 9):
        for place in sorted({0, n - 1, n, n * n // 2, n * n - 1}):
            coefficients = accepted(n)
            coefficients[place] = -COEFFICIENT - 1
            calls.append((n, coefficients))
    return with_long_buffers(calls)


def count_writes():
    """Lists shorter and longer than due, also with a figure outside its limits."""
    calls = []
    for n in range(1, 9):
        due = n * n
        wrong = {0, 1, n, 2 * n, due - n, due - 1, due + 1, due + n, (n + 1) ** 2, 64, 80} - {due}
        calls += [(n, [n] * count) for count in sorted(wrong) if count <= 80]
        calls += [(n, [-COEFFICIENT - 1] * count) for count in (due - 1, due + 1)]
    return with_long_buffers(calls)


def size_writes():
    """n outside its limits beside lists of every kind, also as many as n times n or its low bits ask for."""
    calls = []
    for n in (0, 9, 10, 16, 64, 255, 256, 257, 1_000, 4_096, 32_767, 32_768, 65_534):
        asked = {0, 1, 64, 80, n * n % 256, n * n % 65_536}
        calls += [(n, [5] * count) for count in sorted(asked) if count <= 80]
        calls.append((n, [-COEFFICIENT - 1] * 4))
    return with_long_buffers(calls)


def buffer_writes():
    """Every length beside each n, the shortest text and the longest."""
    lengths = SHORT_BUFFERS + LONG_BUFFERS
    calls = [(n, accepted(n), length) for n in range(1, 9) for length in lengths]
    calls += [(8, [-COEFFICIENT] * 64, length) for length in lengths]
    return calls + [(1, [0], length) for length in (50, *lengths)]


def precedence_writes():
    """Every set of faults: a figure, the count, n and a short buffer."""
    calls = []
    for faults in range(1, 16):
        for n, wrong in ((2, 10), (8, 0)):
            coefficients = accepted(n)
            coefficients[-1] = -COEFFICIENT - 1 if faults & 1 else 0
            coefficients = coefficients + [0] if faults & 2 else coefficients
            calls.append((wrong if faults & 4 else n, coefficients, 495 if faults & 8 else 496))
    return calls


def all_writes():
    """Every call of writing, in a fixed order."""
    return (random_writes() + figure_writes() + count_writes() + size_writes() + buffer_writes()
            + precedence_writes())
