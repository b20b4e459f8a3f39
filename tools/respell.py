#!/usr/bin/env python3
"""Respells the repository's own definitions and lemmas as today's Rattle spells names: words in snake case (`startsFrom` is `starts_from`).

usage: python3 tools/respell.py           at the top of the repository, once, straight after port.py: crates/, in code, comments and edits
       python3 tools/respell.py FILE ..   the same names in these files (pages)
       python3 tools/respell.py --map     prints each old name and its new one

Types, modules, functions of src/, texts in quotes and the file names stay. Where the plain new name is one of src/ in the crates that use the definition,
or another lemma's, OTHER has a name that says what the definition gives.
"""

import os
import re
import sys

# old name: new name, where the plain one falls together with another
OTHER = {
    "columnAt": "column_at_step",
    "countAt": "row_count_at",
    "startsFrom": "starts_counted_from",
    "addsOwn": "adds_own_rows",
    "workLength": "work_length_for",
    "textHead": "head_of_text",
    "readLists": "lists_read_from",
    "readSteps": "steps_read_from",
    "readPlan": "plan_read_from",
    "readNumber": "number_read_from",
    "readRows": "rows_read_from",
    "readList": "list_read_from",
    "readKey": "key_read_from",
    "readMark": "mark_read_from",
    "readPeak": "peak_read_from",
    "planBytes": "bytes_of_plan",
    "inField": "within_field",
    "siblingKey": "sibling_key_of",
    "fallsAt": "falls_at_place",
    "rowFault": "fault_of_row",
    "rowsFault": "fault_of_rows",
    "stepFault": "fault_of_step",
    "firstFault": "first_fault_among",
    "truePeak": "true_peak_of",
    "isDigit": "is_decimal_digit",
    "isDecimal": "is_decimal_number",
    "stepsAnswer": "answer_of_steps",
    "butLast": "update_but_last",
    "rowsIn": "rows_in_factor",
    "heldIn": "held_in_order",
    "roomIn": "room_in_state",
    "columnLists": "lists_of_columns",
    "nextRow": "next_row_of",
    "listAt": "list_of_plan_at",
    "handedOn": "handed_on_call",
    "strayStep": "stray_step_of",
    "standsIn": "stands_in_front",
}
# no names: bytes in hexadecimal, and words of the C side
KEPT = {"x0A", "xAC"}
# no name is begun inside a path of a type or a module, whose parts are in camel case, nor behind a letter
TOKEN = re.compile(r"(?<![\w'₀-₉])([a-z][a-z0-9]*(?:[A-Z][a-z0-9]*)+)(?![\w])")
QUOTED = re.compile(r'"(?:[^"\\]|\\.)*"')


def snake(name):
    if name in KEPT:
        return name
    if name in OTHER:
        return OTHER[name]
    return re.sub(r"([a-z0-9])([A-Z])", lambda m: m[1] + "_" + m[2].lower(), name)


def respell(text, quotes):
    """The text with each name respelled; what stands in quotes stays where quotes is true."""
    out, at = [], 0
    for q in QUOTED.finditer(text) if quotes else ():
        out += [TOKEN.sub(lambda m: snake(m[1]), text[at : q.start()]), q[0]]
        at = q.end()
    return "".join(out) + TOKEN.sub(lambda m: snake(m[1]), text[at:])


def files():
    for folder, dirs, names in os.walk("crates"):
        dirs[:] = sorted(d for d in dirs if d != "out")
        for n in sorted(names):
            if n.endswith((".rt", ".antt", ".edit")):
                yield os.path.join(folder, n)


def turn(path, quotes):
    with open(path, encoding="utf-8") as f:
        old = f.read()
    new = respell(old, quotes)
    if new != old:
        with open(path, "w", encoding="utf-8") as f:
            f.write(new)


def show():
    found = set()
    for path in files():
        with open(path, encoding="utf-8") as f:
            found |= {m[1] for m in TOKEN.finditer(QUOTED.sub("", f.read()))}
    for name in sorted(found):
        print(name, snake(name))


def main(argv):
    if argv == ["--map"]:
        show()
        return 0
    if argv and argv[0].startswith("-"):
        print(__doc__)
        return 2
    for path in argv:
        turn(path, False)
    if not argv:
        for path in files():
            turn(path, path.endswith(".rt"))
    return 0


if __name__ == "__main__":
    raise SystemExit(main(sys.argv[1:]))
