"""Files that a tool makes and the repository stores: written, or compared with what is stored, so that they cannot drift."""
import os
import sys


def write(directory, files):
    os.makedirs(directory, exist_ok=True)
    for name, content in files.items():
        with open(os.path.join(directory, name), "wb") as file:
            file.write(content)
        print(f"{name}: {len(content)} bytes")
    return 0


def difference(name, expected, stored):
    """What differs, in one line, or nothing."""
    if expected == stored:
        return ""
    pairs = enumerate(zip(expected, stored))
    place = next((i for i, (a, b) in pairs if a != b), min(len(expected), len(stored)))
    return f"{name}: differs at byte {place}; {len(expected)} bytes made, {len(stored)} stored"


def differences(directory, files):
    found = [f"{name}: not due" for name in sorted(set(os.listdir(directory)) - set(files))]
    for name, expected in files.items():
        path = os.path.join(directory, name)
        if not os.path.exists(path):
            found.append(f"{name}: missing")
            continue
        with open(path, "rb") as file:
            found.append(difference(name, expected, file.read()))
    return [message for message in found if message]


def check(tool, directory, files):
    messages = differences(directory, files)
    for message in messages:
        sys.stderr.write(f"{tool}: {message}\n")
    print(f"{tool}: differences found" if messages else f"{tool}: all files agree")
    return 1 if messages else 0


def main(tool, make_files, arguments, others=""):
    """`DIR` writes, `--check DIR` compares. Others are the tool's own arguments, for the line that says how it is called."""
    if len(arguments) == 2 and arguments[0] == "--check":
        return check(tool, arguments[1], make_files())
    if len(arguments) == 1 and not arguments[0].startswith("-"):
        return write(arguments[0], make_files())
    sys.stderr.write(f"usage: python3 tools/{tool}.py DIR | --check DIR{others}\n")
    return 2
