#!/usr/bin/env python3
"""Brings the names of definitions, lemmas, fields and constructors to Rattle's spelling: words in snake case, types with capitals.

usage: tools/snake_names.py [--list]      at the top of a checkout, once, behind the toolchain's own port script

A name that an .antt file of this repository declares is turned: `rowSums` and `row-sums` become `row_sums`. A dash stays only beside a sign, as in
`nat_abs-*ℤ`. Names that begin with a capital, functions of src/, strings and the names that the checker makes keep their spelling. In comments and
pages a name is turned only between backticks. --list prints what would be turned, and which names would fall together.
"""

import collections
import os
import re
import sys

NAME = r"[^\s(){}\[\],;.:`\"@]+"
DECLARATION = re.compile(rf"^\s*(?:(?:pub|abbrev|unfoldable|opaque) )*({NAME}) +(?:[({{]|:)")
HOLDER = re.compile(rf"^\s*(?:(?:pub|abbrev|unfoldable|opaque) )*(?:record|data) ({NAME})")
ALIAS = re.compile(rf"({NAME}) as ({NAME})")
MADE = re.compile(r"^(?:lts|tie|goal|given)$")
# names that would fall together with a parameter, a local or a function of src/ that the same clauses name, or with another name
OTHERWISE = {
    "allInside": "all_are_inside",
    "afterSize": "behind_size",
    "answerAt": "answer_place",
    "atSize": "at_size_line",
    "isGreater": "is_greater_order",
    "rowRoom": "room_of_row",
    "beginsWith": "begins_by",
    "coefficientsFine": "coefficients_are_fine",
    "firstUnmet": "first_unmet_row",
    "headFine": "head_is_fine",
    "isDigit": "is_digit_byte",
    "lastBit": "last_bit_of",
    "nothingSaid": "nothing_said_yet",
    "readMatrix": "matrix_reading",
    "reducedEntry": "reduced_entry_of",
    "referenceTank": "reference_tank_entries",
    "roundsUp": "is_rounded_up",
    "sumAbove": "sum_above_row",
    "tanksFine": "tanks_are_fine",
    "trialCount": "trial_count_due",
    "writeMatrix": "matrix_writing",
}
LEMMAS = """after-head in-turn at-size is-greater after-rows after-sign answer-room be-bytes eight-tanks head-status is-reference-tank longest-record not-above printed-case printed-record
printed-text recorded-answer recorded-rounds reference-entry right-tolerance right-sides size-line trial-count trial-figures two-tanks""".split()


def files(root):
    for folder, dirs, names in os.walk(os.path.join(root, "crates")):
        dirs[:] = sorted(d for d in dirs if d not in ("out", "data"))
        for name in sorted(names):
            if name.endswith((".antt", ".rt", ".edit")):
                yield os.path.join(folder, name)


def pages(root):
    yield os.path.join(root, "README.md")
    for folder in ("docs", os.path.join("docs", "landings")):
        for name in sorted(os.listdir(os.path.join(root, folder))):
            if name.endswith(".md"):
                yield os.path.join(root, folder, name)


def word(part):
    if not part or part[0].isupper():
        return part
    part = re.sub(r"(?<=[a-z0-9])(?=[A-Z])", "_", part)
    part = re.sub(r"(?<=[a-z])(?=[ℤℕ])", "_", part)
    return "".join(c.lower() if c.isascii() else c for c in part)


def plain(part):
    return re.fullmatch(r"[A-Za-z0-9_ℤℕ₀-₉']+", part) is not None


def turned(name):
    if name in OTHERWISE:
        return OTHERWISE[name]
    if name in LEMMAS:
        return name.replace("-", "_") + "_lem"
    if name[0].isupper() and "-" not in name:
        return name
    parts = [word(p) for p in name.split("-")]
    out = parts[0]
    for before, part in zip(parts, parts[1:]):
        out += ("_" if plain(before) and plain(part) and before[-1] not in "ℤℕ" or plain(before) and plain(part) and part[0].islower() else "-") + part
    return out


def code_of(line, mark):
    """The line without its comment, and the comment."""
    at = line.find(mark)
    while at > 0 and line[at - 1] not in " \t":
        at = line.find(mark, at + 1)
    return (line, "") if at < 0 else (line[:at], line[at:])


def declared(root):
    found = {}
    for path in files(root):
        if not path.endswith((".antt", ".rt")):
            continue
        for line in open(path, encoding="utf-8"):
            code = code_of(line, "--" if path.endswith(".antt") else "//")[0]
            if path.endswith(".antt"):
                for m in (DECLARATION.match(code), HOLDER.match(code)):
                    if m and (" : " in code or code.rstrip().endswith(":") or HOLDER.match(code)):
                        found.setdefault(m.group(1), set()).add(path)
            if re.match(r"\s*(?:pub )?(?:ghost )?use ", code):
                for m in ALIAS.finditer(code):
                    found.setdefault(m.group(2), set()).add(path)
    return {n: p for n, p in found.items() if turned(n) != n and not n.startswith("_") and "◌" not in n}


def fields_of(root):
    """The fields of this repository's records."""
    found = set()
    for path in files(root):
        inside = False
        for line in open(path, encoding="utf-8"):
            if not path.endswith(".antt"):
                break
            code = code_of(line, "--")[0]
            if code.strip() and not code[0].isspace():
                inside = HOLDER.match(code) is not None
            elif inside and DECLARATION.match(code):
                found.add(DECLARATION.match(code).group(1))
    return found


def turn_code(code, names, fields):
    """Each declared name of the code, but for what stands between quotes; behind a point only fields, and names of a module."""
    out, before, last = [], "", ""
    for m in re.finditer(rf'"(?:[^"\\]|\\.)*"|{NAME}|.', code, re.S):
        t = m.group(0)
        of_module = last[:1].isupper() and not MADE.match(last)
        if t in names and (before != "." or t in fields or of_module):
            out.append(names[t])
        else:
            out.append(t)
        if re.fullmatch(NAME, t):
            last = t
        before = t
    return "".join(out)


def turn_ticks(text, names, fields):
    return re.sub(r"`([^`\n]+)`", lambda m: "`" + turn_code(m.group(1), names, fields) + "`", text)


def turn_file(path, names, fields):
    text = open(path, encoding="utf-8").read()
    if path.endswith(".md"):
        return text, turn_ticks(text, names, fields)
    mark = "--" if path.endswith(".antt") else "//"
    lines = []
    for line in text.split("\n"):
        if path.endswith(".edit"):
            head, colon, rest = line.partition(":")
            if head in ("old", "new"):
                lines.append(head + colon + turn_code(rest, names, fields))
            else:
                lines.append(turn_ticks(line, names, fields) if line.startswith("#") else line)
            continue
        code, comment = code_of(line, mark)
        lines.append(turn_code(code, names, fields) + turn_ticks(comment, names, fields))
    return text, "\n".join(lines)


def together(root, names):
    """What would fall together: two old names in one new one, and a new name that an identifier of src/ has."""
    by_new = collections.defaultdict(set)
    for old, new in names.items():
        by_new[new].add(old)
    rust, others = collections.defaultdict(set), collections.defaultdict(set)
    for path in files(root):
        for line in open(path, encoding="utf-8"):
            if path.endswith(".rt"):
                code = code_of(line, "//")[0]
                for t in re.findall(r"\b[a-z_][a-z0-9_]*\b", code):
                    rust[t].add(path)
            elif path.endswith(".antt"):
                for t in re.findall(NAME, code_of(line, "--")[0]):
                    others[t].add(path)
    for new, olds in sorted(by_new.items()):
        if len(olds) > 1:
            yield f"two: {new} of {' '.join(sorted(olds))}"
        if new in rust:
            yield f"src: {new} of {' '.join(sorted(olds))}: {' '.join(sorted(rust[new]))}"
        if new in others and new not in names:
            yield f"other: {new} of {' '.join(sorted(olds))}: {' '.join(sorted(others[new])[:6])}"


def main(argv):
    names = {n: turned(n) for n in declared(".")}
    if argv == ["--list"]:
        for old, new in sorted(names.items()):
            print(old, new)
        print("\n".join(together(".", names)))
        return 0
    fields = fields_of(".")
    for path in [*files("."), *pages(".")]:
        old, new = turn_file(path, names, fields)
        if new != old:
            with open(path, "w", encoding="utf-8") as f:
                f.write(new)
    return 0


if __name__ == "__main__":
    sys.exit(main(sys.argv[1:]))
