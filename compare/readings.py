#!/usr/bin/env python3
"""Holds what `wnt show` says of every reference to a second reading of the same rows, written from docs/RULES.md; and what a walked
name of an input means to what its number means in the output. The forms are those that `compare --samples FOLDER` writes. From the
repository's root, after `rt run -- --version` in crates/wnt:

    python3 compare/readings.py FOLDER"""
import glob
import os
import re
import struct
import subprocess
import sys

FIELD, DECL, REF, OUTER, OPEN, CLOSE = 1, 2, 3, 5, 7, 8
HERE_ONLY = {4, 5, 24}
EXPORT = 22
FRESH = 2147483648
SAID = re.compile(r"(outward|looked up|counting): (?:row (\d+) declares [a-z ]+ (\d+)[^,;]*, (?:here|(\d+) scopes? out))?")
ROW = re.compile(r" *\d+  ")
THROUGH = re.compile(r"through it: row (\d+)")


class Form:
    """rows, with the scope and the field of each; a scope is its name, the scope around it and its declarations in order"""

    def __init__(self, path):
        with open(path, "rb") as f:
            data = f.read()
        self.rows = [struct.unpack_from("<BBHIII", data, 8 + 16 * i) for i in range((len(data) - 8) // 16)]
        self.scope, self.field = [], []
        scope, field, fields = None, None, []
        for i, (code, b, _, x, _, _) in enumerate(self.rows):
            if code == OPEN:
                fields.append(field)
                scope, field = {"name": x, "around": scope, "declared": []}, None
            if code == FIELD:
                field = i
            if code == DECL:
                number = sum(space == b for space, _, _, _ in scope["declared"])
                scope["declared"].append((b, x, i, number))
            self.scope.append(scope)
            self.field.append(field)
            if code == CLOSE:
                scope, field = scope["around"], fields.pop()

    def meaning(self, i):
        """how the reference in row i is read, and the row, number and distance of what it means"""
        code, space, e, x, y, _ = self.rows[i]
        scope, out = self.scope[i], 0
        if code == OUTER:
            scope, out = named(scope, x) if e % 2 else further(scope, x)
            return "looked up" if e else "counting", declared(scope, out, space, y, e // 2)
        if y > 0:
            space = 6 if space < 7 else 10
        if e == 0:
            return "counting", declared(scope, 0, space, x, False)
        if not self.is_walked(i):
            return "looked up", declared(scope, 0, space, x, True)
        while scope and not declared(scope, out, space, x, True):
            scope, out = scope["around"], out + 1
        return "outward", declared(scope, out, space, x, True)

    def is_walked(self, i):
        code, _, e, _, y, _ = self.rows[i]
        return code == REF and e == 1 and y == 0 and self.rows[self.field[i]][1] not in HERE_ONLY

    def is_ascribed(self, i):
        """whether row i is the reference of the type that is ascribed to an export: the first of two"""
        field = self.field[i]
        references = [j for j in range(field, len(self.rows)) if self.field[j] == field and self.rows[j][0] == REF]
        return self.rows[field][1:3] == (EXPORT, 1) and len(references) == 2 and i == references[0]

    def is_inserted(self, i):
        """whether row i belongs to a field that the resolver inserted"""
        field = self.field[i]
        return field is not None and self.rows[field + 1][0] == DECL and self.rows[field + 1][3] >= FRESH

    def originals(self, code):
        """the rows of that code but those of inserted fields"""
        return [i for i, row in enumerate(self.rows) if row[0] == code and not self.is_inserted(i)]

    def followed(self, i):
        """what the reference in row i means, through an inserted outer alias"""
        found = self.meaning(i)[1]
        if found and self.is_inserted(found[0]) and self.rows[found[0] + 1][0] == OUTER:
            return self.meaning(found[0] + 1)[1]
        return found


def declared(scope, out, space, key, is_name):
    """the declaration of that name, or with that number, in a scope that is `out` out"""
    for each, name, row, number in scope["declared"] if scope else []:
        if each == space and key == (name if is_name else number):
            return row, number, out
    return None


def further(scope, count):
    for _ in range(count):
        scope = scope and scope["around"]
    return scope, count


def named(scope, name):
    out = 0
    while scope and scope["name"] != name:
        scope, out = scope["around"], out + 1
    return scope, out


def said(path):
    """what `wnt show` says of each row of a form"""
    text = subprocess.run(["tools/wnt", "show", path], capture_output=True, text=True, check=True).stdout
    return [line for line in text.splitlines() if ROW.match(line)]


def check_said(form, lines):
    """how many references the form has, and the rows of which something else is said"""
    references = [i for i, row in enumerate(form.rows) if row[0] in (REF, OUTER)]
    wrong = []
    for i in references:
        how, row, number, out = SAID.search(lines[i]).groups()
        found = (int(row), int(number), int(out or 0)) if row else None
        through = THROUGH.search(lines[i])
        end = int(through.group(1)) if through else found and found[0]
        after = form.followed(i)
        ascribed = ", the ascribed type" in lines[i]
        if (how, found) != form.meaning(i) or end != (after and after[0]) or ascribed != form.is_ascribed(i):
            wrong.append(i)
    return len(references), wrong


def check_agree(form, output):
    """how many walked names the form has, and the rows of those whose number means another declaration"""
    declarations, new_declarations = form.originals(DECL), output.originals(DECL)
    walked, wrong = 0, []
    for i, j in zip(form.originals(REF), output.originals(REF)):
        if form.is_walked(i):
            walked += 1
            before, after = form.meaning(i)[1], output.followed(j)
            if declarations.index(before[0]) != new_declarations.index(after[0]):
                wrong.append(i)
    return walked, wrong


def main(folder):
    forms = references = names = differences = 0
    for path in glob.glob(os.path.join(folder, "*-resolved.wnt")):
        before = path.replace("-resolved", "")
        form, output = Form(before), Form(path)
        checks = [check_said(form, said(before)), check_said(output, said(path)), check_agree(form, output)]
        for _, wrong in checks:
            differences += len(wrong)
            if wrong:
                print("rows", wrong, "of", before, "or of what it resolves to")
        forms += 1
        references += checks[0][0] + checks[1][0]
        names += checks[2][0]
    print(f"{forms} forms and their outputs, {references} references, {names} walked names: {differences} differences")
    return 1 if differences else 0


if __name__ == "__main__":
    sys.exit(main(sys.argv[1]))
