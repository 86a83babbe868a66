#!/usr/bin/env python3
"""Writes bindings/rust/tests/data/both-versions and its answers beside it: the runs of tools/runs.py as forms of both versions in working areas
that are lent, both sides of each line of version 2, and conversions. What is expected is said here; no resolver is asked."""
import struct
from runs import FILL, empty, form, nested, root, runs, total, type_

HEADER = {1: 8, 2: 16}
SLOTS = {1: 1024, 2: 16384}
lines = []


def second(data, rules=0, count=None):
    """a form of version 1 as one of version 2"""
    count = struct.unpack("<H", data[6:8])[0] if count is None else count
    return b"WNT\x02\x00" + bytes([rules]) + struct.pack("<I", count) + bytes(6) + data[8:]


def left(lent, version):
    """how many elements of the areas lie beyond the sizes of the version"""
    return 7 * max(0, SLOTS[lent] - SLOTS[version])


def add(name, data, room, lent, to, number, place, buffer, left=0):
    words = struct.pack("<IIII", len(data), room, lent, to)
    lines.append((name.encode().ljust(16) + words + data, f"{name.ljust(16)} {number} {place} {total(buffer)} {left}\n"))


def resolve(name, data, room, number, place, out=None, version=1, lent=None, of=None, rules=0):
    """`of` is the version by whose sizes the areas are zeroed, where that is not the form's; an output repeats the rule set"""
    share = HEADER[version] + 64 * ((len(data) - HEADER[version]) // 16)
    buffer = bytes([FILL]) * room
    if number == 0:
        new = form(out) if version == 1 else second(form(out), rules)
        buffer = new + bytes(share - len(new)) + buffer[share:]
    elif number > 5:
        buffer = bytes(share) + buffer[share:]
    lent = version if lent is None else lent
    add(name, data, room, lent, 0, number, place, buffer, left(lent, version if of is None else of))


def convert(name, data, to, number, place, new=b"", room=None):
    room = len(data) + 9 if room is None else room
    buffer = bytes([FILL]) * room
    add("c: " + name, data, room, 0, to, number, place, new + buffer[len(new) :])


# those that are short and say the same here: of version 2's bytes and of 33 scopes there is more below
for name, data, room, number, place, _, out in runs:
    if len(data) > 4096 or name == "version 2":
        continue
    resolve(name, data, room, number, place, out, of=1)
    if data[:6] == b"WNT\x01\x00\x00" and len(data) >= 8 and number != 5:
        resolve("2: " + name, second(data), room + 8, number, place, out, version=2)

deepest = root(nested(63))
two = second(form(empty))
resolve("2: 33 scopes", second(form(root(nested(32)))), 9000, 0, len(root(nested(32))), root(nested(32)), version=2)
resolve("2: 64 scopes", second(form(deepest)), 17000, 0, len(deepest), deepest, version=2)
resolve("2: 65 scopes", second(form(root(nested(64)))), 17000, 5, 192, version=2)
resolve("2: 15 bytes", two[:15], 200, 1, 0, version=2, of=1)
for at in range(10, 16):
    resolve(f"2: byte {at}", two[:at] + b"\1" + two[at + 1 :], 200, 1, 0, version=2, of=1)
resolve("2: rule set 1", second(form(empty), rules=1), 200, 0, 2, empty, version=2, rules=1)
resolve("2: rule set 2", second(form(empty), rules=2), 200, 1, 0, version=2, of=1)
resolve("version 3", b"WNT\x03" + form(empty)[4:], 200, 1, 0, lent=2, of=1)
resolve("2: 16,384 rows", second(form(empty), count=16384), 200, 2, 0, version=2)
resolve("2: 65,538 rows", second(form(empty), count=65538), 200, 2, 0, version=2)
resolve("2: areas of 1", two, 200, 3, 0, version=2, lent=1)
resolve("2: 2 before 3", second(form(empty), count=3), 200, 2, 0, version=2, lent=1)
resolve("1: areas of 2", form(empty), 136, 0, 2, empty, lent=2)

convert("1 to 2", form(empty), 2, 0, 2, two)
convert("2 to 1", two, 1, 0, 2, form(empty))
convert("1 to 1", form(empty), 1, 0, 2, form(empty))
convert("2 to 2", two, 2, 0, 2, two)
convert("just room", form(empty), 2, 0, 2, two, room=48)
convert("a byte short", form(empty), 2, 3, 0, room=47)
convert("to version 3", two, 3, 1, 0)
convert("no form", two[:15], 1, 1, 0)
convert("a row less", form(empty, 3), 2, 2, 0)
convert("no CLOSE", form(empty[:1]), 2, 4, 1)
convert("rule set 1", second(form(empty), rules=1), 1, 1, 0)
convert("and to 2", second(form(empty), rules=1), 2, 0, 2, second(form(empty), rules=1))
convert("33 back", second(form(root(nested(32)))), 1, 5, 96)
many = root(type_ * 511)
convert("1,024 back", second(form(many)), 1, 2, 0)

with open("bindings/rust/tests/data/both-versions", "wb") as f:
    f.write(b"".join(line[0] for line in lines))
with open("bindings/rust/tests/data/both-versions.answers", "w") as f:
    f.write("".join(line[1] for line in lines))
