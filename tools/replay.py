"""Replays the steps of a nemesis, by docs/timeline.md and docs/formats.md: for `tools/bars` and `tools/plots`.

A record is a dictionary. `process` is None for the nemesis; of its records one that asks has `step`, a tuple as `("begin", 1, TEXT)`, and
`place`; one that answers has `answer`, the place and the code; `plain` is the label of one that is neither.
"""

import re

TOKEN = re.compile(r'"(?:[^"\\]|\\.)*"|[\[\](){}]|[^\s\[\](){}",]+')


def in_words(text):
    """A text of EDN in words: keywords by their names, strings by their characters, and what is in vectors and lists."""
    tokens = TOKEN.findall(text)[::-1]

    def taken():
        """The words of the next element, and whether it is a vector or a list."""
        token = tokens.pop()
        if token[0] == ":":
            return token[1:], False
        if token[0] == '"':
            return token[1:-1], False
        if token not in "[({":
            return token, False
        elements, end = [], {"[": "]", "(": ")", "{": "}"}[token]
        if token == "{":
            whole = []
            while tokens[-1] != end:
                whole.append(tokens.pop())
            return "{" + " ".join(whole) + tokens.pop(), False
        while tokens[-1] != end:
            elements.append(taken())
        tokens.pop()
        if not elements:
            return token + end, True
        said = elements[0][0]
        for before, after in zip(elements, elements[1:]):
            said += (", " if before[1] and after[1] else " ") + after[0]
        return said, True

    return taken()[0]


def step_in_words(step):
    if step[0] == "begin":
        return f"begin {step[1]}: {in_words(step[2])}"
    return f"withdraw {step[1]}" if step[0] == "withdraw" else step[0].replace("-", " ")


def replayed(history):
    """The label of each record of the nemesis, and the shades: from which record to which, and the label."""
    lines, past, active, future, waiting, shades, opened = [], [], [], [], None, [], {}
    for index, record in enumerate(history):
        if record["process"] is not None:
            continue
        step, answer, before = record.get("step"), record.get("answer"), active
        if step:
            waiting = (record["place"], step)
            lines.append((index, step_in_words(step)))
            continue
        if not answer or not waiting or answer[0] != waiting[0]:
            waiting = None
            lines.append((index, record["plain"]))
            continue
        step, waiting = waiting[1], None
        lines.append((index, step_in_words(step) + (f": refused, code {answer[1]}" if answer[1] else ": done")))
        if not answer[1]:
            past, active, future = after(step, past, active, future)
        for fault in active:
            if fault[0] not in [other[0] for other in before]:
                opened[fault[0]] = len(shades)
                shades.append([index, None, f"{fault[0]}: {in_words(fault[1])}"])
        for fault in before:
            if fault[0] not in [other[0] for other in active]:
                shades[opened.pop(fault[0])][1] = index
    return lines, shades


def after(step, past, active, future):
    """The lists of active faults of the past, the latest first, the one now, and those undone, after a step that was done."""
    ids = [fault[0] for fault in active]
    if step[0] == "undo" and past:
        return past[1:], past[0], [active, *future]
    if step[0] == "redo" and future:
        return [active, *past], future[0], future[1:]
    if step[0] == "begin" and step[1] not in ids:
        return [active, *past], [*active, step[1:]], []
    if step[0] == "withdraw" and step[1] in ids:
        return [active, *past], [fault for fault in active if fault[0] != step[1]], []
    if step[0] == "withdraw-all" and active:
        return [active, *past], [], []
    return past, active, future
