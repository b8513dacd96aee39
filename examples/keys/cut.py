#!/usr/bin/env python3
"""Cuts a history of independent keys into one history for each key.

    python3 cut.py FOLDER < history.edn

Each line has one operation, as Jepsen and jeprun write them, whose value is `[KEY VALUE]`. In the history of its key the value is
VALUE. Operations of the nemesis are left out. For each key the file and the key are printed. Keys are told apart by their text, so
`[1]` and `(1)` are two here.
"""

import pathlib
import sys

MARK = ":value ["


def end_of(text, start):
    """The place behind the element that begins at a place."""
    depth, in_string, place = 0, False, start
    while place < len(text):
        letter = text[place]
        if in_string:
            place += letter == "\\"
            in_string = letter != '"'
        elif letter == '"':
            in_string = True
        elif letter in "([{":
            depth += 1
        elif letter in ")]}" and depth:
            depth -= 1
        elif letter in ")]}, \t" and not depth:
            break
        place += 1
    return place


def cut(line):
    """The key of an operation, and the operation without it."""
    start = line.index(MARK) + len(MARK)
    end = end_of(line, start)
    value = end + len(line[end:]) - len(line[end:].lstrip(", \t"))
    close = end_of(line, value)
    return line[start:end], line[: start - 1] + line[value:close] + line[close:].lstrip()[1:]


def main():
    folder = pathlib.Path(sys.argv[1])
    folder.mkdir(parents=True, exist_ok=True)
    parts = {}
    for line in sys.stdin:
        if line.strip() and ":process :nemesis" not in line:
            key, operation = cut(line)
            parts.setdefault(key, []).append(operation)
    for number, (key, operations) in enumerate(parts.items()):
        file = folder / f"{number:06}.edn"
        file.write_text("".join(operations), encoding="utf-8")
        print(file, key)


if __name__ == "__main__":
    main()
