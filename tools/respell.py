#!/usr/bin/env python3
"""Spells the repository's own definitions and lemmas as today's Rattle does: words in snake case, types and modules in camel case.

usage: tools/respell.py [--table] [FOLDER]

A name that begins with a small letter loses its humps and its dashes, as 'rowAt' becomes 'row_at' and 'read-right' 'read_right'.
What turns: each word with a hump in an .antt file, in a clause or a 'ghost use' of an .rt file and in the code spans of pages; each word with a
dash that an .antt file of the repository declares. A lemma that would have the name of a definition or of a function gets '_lem'.
What stays: quoted text, what Rattle names (behind a dot, 'invariant-..', 'decreases-..'), and names of Rust. Two names that would
fall together all the same stop the script, before it writes a file. --table prints the table and writes nothing.
"""
import collections
import os
import re
import sys

WORD = re.compile(r'[^\s(){}.;,@"«»\[\]`]+')
DECLARED = re.compile(r'(?m)^ *(?:(?:pub|abbrev|unfoldable|data|record|ruleset|axiom|infix[lr]? \d+) +)*([^\s(){}.;,@"«»]+)(?: \{[^{}\n]*\})*(?: \([^()\n]*\))* (?::|=)(?= |$)')
FIELDS = re.compile(r'(?m)^( *)(?:pub +)?record [^\n]*\bwhere\n((?:\1 +[^\n]*\n|\s*\n| *--[^\n]*\n)*)')
FIELD = re.compile(r'(?m)^ *(?:pub +)?([^\s(){}.;,@"«»]+) :(?= )')
HUMP = re.compile(r'[a-z0-9₀-₉][A-Z]')
USE = re.compile(r"\buse ([^\s;{]+)\.\{([^}]*)\}")
# A dot behind a name that begins with a small letter: what follows is a name that Rattle makes.
MADE_HEAD = re.compile(r"(?:^|[\s(){},;\"])(?:[\w'·-]+\.)*([a-z_][\w'-]*)\.\Z")
# A name that a file gives to a module of the repository, but not to one that Rattle makes.
ALIAS = re.compile(r"(?m)^use Rattle[^\s]*\.(?!Tie\b|Goals\b|Given\b|Statement\b|Met\b)[A-Z]\w* as (\w+)$")
MADE = re.compile(r"(invariant|decreases|ghost)-")
# A name that is spelled otherwise, since the plain spelling is taken.
FAR = {"no-scope": "no_such_scope"}
# What follows a lemma that would have the name of a definition or of a function.
LEMMA = "_lem"


def texts(top, endings):
    for folder, dirs, files in os.walk(top):
        dirs[:] = sorted(d for d in dirs if d not in ("out", "target", ".git"))
        for name in sorted(files):
            if name.endswith(endings):
                yield os.path.join(folder, name)


def read(path):
    with open(path, encoding="utf-8") as f:
        return f.read()


def in_snake_case(name):
    if name in FAR:
        return FAR[name]
    words = re.sub(r"(?<=[a-z0-9₀-₉])([A-Z])(?![A-Z])", lambda m: "_" + m[1].lower(), name)
    words = re.sub(r"(?<=[a-z0-9₀-₉])([A-Z]+)", lambda m: "_" + m[1].lower(), words)
    return re.sub(r"(?<=\w)-(?=\w)", "_", words)


def is_small(name):
    first = name.lstrip("◌")[:1]
    return first.islower() and first.isascii()


def declared(top):
    names, fields = set(), set()
    for path in texts(os.path.join(top, "crates"), ".antt"):
        text = read(path)
        names |= {m[1] for m in DECLARED.finditer(text)}
        for block in FIELDS.finditer(text):
            found = {m[1] for m in FIELD.finditer(block[2])}
            fields |= found
            names |= found
    return {n for n in names if not MADE.match(n)}, fields


def functions(top):
    """The names with a dash of a lemma whose crate has a function of that name."""
    found = set()
    crates = os.path.join(top, "crates")
    for crate in sorted(os.listdir(crates)):
        called = set()
        for path in texts(os.path.join(crates, crate), ".rt"):
            called |= set(re.findall(r"\bfn (\w+)", read(path)))
        for path in texts(os.path.join(crates, crate), ".antt"):
            found |= {m[1] for m in DECLARED.finditer(read(path)) if in_snake_case(m[1]) in called}
    return found


def borrowed(top):
    """The names that are imported from what is not the repository's own."""
    own = set(os.listdir(os.path.join(top, "crates")))
    found = set()
    for path in texts(os.path.join(top, "crates"), (".antt", ".rt")):
        for use in USE.finditer(read(path)):
            steps = use[1].split(".")
            if steps[0] != "Rattle" or len(steps) < 2 or steps[1] not in own:
                found |= {item.strip().split(" as ")[0] for item in use[2].split(",")}
    return found


def table(top):
    names, fields = declared(top)
    names -= borrowed(top)
    words = set()
    for path in texts(os.path.join(top, "crates"), (".antt", ".rt")):
        words |= set(WORD.findall(read(path)))
    turned = {w: in_snake_case(w) for w in words if is_small(w) and HUMP.search(w) and not re.search(r'[:|/=<>\'"&!?*+]', w)}
    turned |= {n: in_snake_case(n) for n in names if is_small(n) and "-" in n and re.fullmatch(r"[\w'◌₀-₉-]+", n)}
    turned = {old: new for old, new in turned.items() if old != new}
    humps = {new for old, new in turned.items() if HUMP.search(old)}
    parts = {part for new in humps if "◌" in new for part in new.split("◌") if part}
    taken = {new for new in humps | names if "_" in new} | parts
    beside = functions(top)
    for old, new in list(turned.items()):
        if not HUMP.search(old) and (new in taken or old in beside):
            turned[old] = new + LEMMA
    for new in humps & names:
        turned[new] = new + LEMMA
    return turned, fields, words


def meetings(turned, words):
    by_new = collections.defaultdict(set)
    for old, new in turned.items():
        by_new[new].add(old)
    for new, olds in sorted(by_new.items()):
        if len(olds) > 1:
            yield f"{new}: {' '.join(sorted(olds))}"
        elif new in words and new.endswith(LEMMA):
            yield f"{new}: {' '.join(olds)}, and there is a word {new} already"


def turn_words(text, turned, fields, kind):
    aliases = set(ALIAS.findall(text)) if kind == "antt" else set()

    def one(m):
        word = m[0]
        new = turned.get(word)
        if new is None or kind != "antt" and "-" not in word and not HUMP.search(word):
            return word
        made = MADE_HEAD.search(text, max(0, m.start() - 80), m.start())
        if kind != "md" and not HUMP.search(word) and word not in fields and made and made[1] not in aliases:
            return word
        return new

    return WORD.sub(one, text)


def outside_quotes(text, turn):
    parts = re.split(r'(b?"(?:\\.|[^"\\\n])*"|b?\'(?:\\.|[^\'\\\n])\'(?!\w))', text)
    return "".join(p if i % 2 else turn(p) for i, p in enumerate(parts))


def spans(text, turn):
    return re.sub(r"(`+)(?:[^\n`])+\1|^(```+)[^\n]*\n.*?^\2", lambda m: turn(m[0]), text, flags=re.S | re.M)


def main(argv):
    top = next((a for a in argv if not a.startswith("--")), ".")
    turned, fields, words = table(top)
    if "--table" in argv:
        print("\n".join(f"{old}\t{new}" for old, new in sorted(turned.items())))
    met = list(meetings(turned, words))
    if met:
        print("\n".join(met), file=sys.stderr)
        print(f"respell: {len(met)} names fall together", file=sys.stderr)
        return 1
    if "--table" in argv:
        return 0
    n = 0
    for path in [*texts(os.path.join(top, "crates"), (".antt", ".rt")), *texts(os.path.join(top, "docs"), ".md"), os.path.join(top, "README.md"), os.path.join(top, "CHANGELOG.md")]:
        if not os.path.exists(path):
            continue
        old = read(path)
        kind = path.rpartition(".")[2]
        turn = lambda t: turn_words(t, turned, fields, kind)
        new = spans(old, turn) if path.endswith(".md") else outside_quotes(old, turn) if path.endswith(".rt") else turn(old)
        if new != old:
            n += 1
            with open(path, "w", encoding="utf-8") as f:
                f.write(new)
    print(f"respell: {len(turned)} names, {n} files")
    return 0


if __name__ == "__main__":
    raise SystemExit(main(sys.argv[1:]))
