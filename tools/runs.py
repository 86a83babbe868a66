#!/usr/bin/env python3
"""Writes crates/runs_rules/stdin and crates/runs_rules/stdout: the runs of the rules' Examples and FurtherRuns, and those on both sides of each
line of document 01. What is expected is that of the rules' files, or is said here; no resolver is asked."""
import re, struct

FILL = 165
runs = []


def form(rows, count=None, mark=b"WNT\x01\x00\x00"):
    count = len(rows) if count is None else count
    return mark + struct.pack("<H", count) + b"".join(struct.pack("<BBHIII", *r) for r in rows)


def total(buffer):
    """the sum that the programs print"""
    sum = 0
    for b in buffer:
        sum = (sum * 31 + b) % 2**32
    return sum


def run(name, data, room, number, place, out=None):
    """number and place of a refusal, or 0 and the rows `out`"""
    share = 8 + 64 * ((len(data) - 8) // 16)
    buffer = bytes([FILL]) * room
    if number == 0:
        new = form(out)
        buffer = new + bytes(share - len(new)) + buffer[share:]
    elif number > 5:
        buffer = bytes(share) + buffer[share:]
    runs.append((name, data, room, number, place, total(buffer), out))


def rows_run(name, rows, number, place=0, out=None, spare=1):
    run(name, form(rows), 8 + 64 * len(rows) + spare, number, place if number else len(out), out)


def raws(text):
    return [tuple(map(int, r.split())) for r in re.findall(r"raw((?: \d+){6})", text)]


def root(rows):
    return [(7, 0, 0, 0, 0, 0)] + rows + [(8, 0, 0, 0, 0, 0)]


def whole(text):
    return root(raws(text)) if "root" in text else raws(text)


specs = "crates/rules/specs/"
for file, name in (("Examples", "P"), ("FurtherRuns", "F")):
    text = open(specs + file + ".antt").read()
    text = text[text.index("cases =") :]
    for i, (given, wanted) in enumerate(re.findall(r"record \{\s*input = (.*?);\s*expected = (.*?);?\s*\}", text, re.S)):
        if not raws(given) or "nested" in given or "++" in given:
            continue
        m = re.match(r"refusal (\d+) (\d+)", wanted)
        if m:
            rows_run(name + str(i + 1), whole(given), int(m[1]), int(m[2]))
        else:
            rows_run(name + str(i + 1), whole(given), 0, out=whole(wanted))


def nested(n):
    return [] if n == 0 else [(1, 6, 0, 0, 0, 0), (2, 11, 0, 0, 0, 0), (7, 0, 0, 0, 0, 0)] + nested(n - 1) + [(8, 0, 0, 0, 0, 0)]


empty = root([])
type_ = [(1, 12, 0, 0, 0, 0), (2, 9, 0, 0, 0, 0)]
many = root(type_ * 509 + type_ + [(3, 9, 0, 0, 0, 0)])
assert len(many) == 1023
rows_run("1023 rows", many, 0, out=many, spare=0)
rows_run("1024 rows", root(type_ * 511), 2)
rows_run("32 scopes", root(nested(31)), 0, out=root(nested(31)))
rows_run("33 scopes", root(nested(32)), 5, 96)
rows_run("just room", empty, 0, out=empty, spare=0)
rows_run("a byte short", empty, 3, spare=-1)
rows_run("no last CLOSE", empty[:1], 4, 1)
run("no input", b"", 136, 1, 0)
run("7 bytes", form(empty)[:7], 136, 1, 0)
run("no rows", form([]), 136, 2, 0)
run("version 2", form(empty, mark=b"WNT\x02\x00\x00"), 136, 1, 0)
run("rule set 1", form(empty, mark=b"WNT\x01\x00\x01"), 136, 1, 0)
run("a byte more", form(empty) + b"\0", 136, 2, 0)
run("a row less", form(empty, 3), 200, 2, 0)

with open("crates/runs_rules/stdin", "wb") as f:
    for name, data, room, *_ in runs:
        f.write(name.encode().ljust(16) + struct.pack("<II", len(data), room) + data)
with open("crates/runs_rules/stdout", "w") as f:
    for name, _, _, number, place, sum, _ in runs:
        f.write(f"{name.ljust(16)} {number} {place} {sum}\n")
