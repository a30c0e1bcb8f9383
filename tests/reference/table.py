"""Compares the instruction table of the language reference: table.py REFERENCE DEFINITIONS CASES

Each instruction counts twice: number, name, forms of the arguments and prices are those of its row in the definitions; and for each return code but 0
that the reference names, and for no other, there is a case code-NAME-CODE.
"""
import os
import re
import sys

LETTERS = {"R": 1, "X": 2, "D": 4, "N": 8}  # of the reference, as the definitions number the forms
MULTIPLIERS = {"one": "", "by_registers": "·N", "by_cells": "·S"}


def read(path):
    with open(path, encoding="utf-8") as f:
        return f.read()


# The definitions: `rows` is a list of applications of `row` or of an abbreviation that comes down to it or to a record.


def atoms(tokens):
    """The tokens with each bracketed part as a list."""
    stack = [[]]
    for token in tokens:
        if token in "({":
            stack.append([])
        elif token in ")}":
            part = stack.pop()
            stack[-1].append(part)
        else:
            stack[-1].append(token)
    return stack[0]


def parse(text):
    return atoms(re.findall(r'"[^"]*"|[(){};=]|[^\s(){};="]+', text))


def split(parts, mark):
    found = [[]]
    for part in parts:
        if part == mark:
            found.append([])
        else:
            found[-1].append(part)
    return found


class Definitions:
    def __init__(self, text):
        text = re.sub(r"^\s*--.*$", "", text, flags=re.M)
        blocks = re.split(r"^abbrev (?:pub )?(\w+) :", text, flags=re.M)
        self.equations = {}
        for name, block in zip(blocks[1::2], blocks[2::2]):
            match = re.search(rf"^{name}((?: \w+)*) =(.*?)(?=^\S|\Z)", block, flags=re.M | re.S)
            if match:
                self.equations[name] = (match.group(1).split(), match.group(2))

    def value(self, part, given):
        """A number, a string or a name, with parameters and abbreviations replaced."""
        while isinstance(part, str) and (part in given or part in self.equations):
            part = given[part] if part in given else parse(self.equations[part][1])[0]
        return part

    def numbers(self, part, given):
        items = split(self.value(part, given), "∷") if part != "[]" else [["[]"]]
        if items[-1] != ["[]"]:
            raise ValueError(f"no list: {part}")
        return [int(self.value(item[0], given)) for item in items[:-1]]

    def row(self, parts, given):
        """(name, forms, prices, multiplier) of an application."""
        head, arguments = parts[0], parts[1:]
        if head == "record":
            fields = {field[0]: field[2:] for field in split(arguments[0], ";")}
            name = self.value(fields["name"][-1], given)
            multiplier = self.value(fields["multiplier"][0], given)
            lists = [self.numbers(given.get(f[0], f) if len(f) == 1 and isinstance(f[0], str) else f, given) for f in (fields["forms"], fields["prices"])]
            return name.strip('"'), lists[0], lists[1], multiplier
        parameters, body = self.equations[head]
        values = [self.closed(argument, given) for argument in arguments]
        return self.row(parse(body), dict(zip(parameters, values)))

    def closed(self, part, given):
        """An argument without the caller's parameters."""
        if isinstance(part, list):
            return [self.closed(p, given) for p in part]
        return given.get(part, part)

    def rows(self):
        items = split(parse(self.equations["rows"][1]), "∷")
        if items[-1] != ["[]"]:
            raise ValueError("the rows do not end with []")
        return [self.row(item, {}) for item in items[:-1]]


# The reference: a line for each instruction, | number | `NAME` | forms | price | codes | effect |


def reference_rows(text):
    for line in text.split("\n"):
        match = re.fullmatch(r"\| (\d+) \| `(\w+)` \| ([RXDN, ]+|none) \| ([\d /]+)(·[NS])? \| ([\d ]+) \| [^|]+ \|", line)
        if match:
            number, name, forms, prices, multiplier, codes = match.groups()
            forms = [] if forms == "none" else [sum(LETTERS[letter] for letter in place) for place in forms.split(", ")]
            yield int(number), name, forms, [int(p) for p in prices.split(" / ")], multiplier or "", [int(c) for c in codes.split()]


def main():
    reference, definitions, cases = sys.argv[1:]
    found = list(reference_rows(read(reference)))
    wanted = [(i, n, f, p, MULTIPLIERS[m]) for i, (n, f, p, m) in enumerate(Definitions(read(definitions)).rows(), 1)]
    named = {name for name in os.listdir(cases) if re.fullmatch(r"code-\w+-\d", name)}
    passed = failed = 0
    for i in range(max(len(found), len(wanted), 1)):
        have = found[i] if i < len(found) else None
        want = wanted[i] if i < len(wanted) else None
        if have is not None and want is not None and have[:5] == want:
            passed += 1
        else:
            failed += 1
            print(f"row {i + 1}\n  reference:   {have[:5] if have else 'none'}\n  definitions: {want or 'none'}")
        name = (have or want or (0, "none"))[1]
        told = {f"code-{name}-{code}" for code in (have[5] if have else []) if code}
        there = {case for case in named if case.split("-")[1] == name}
        if have and told == there and 0 in have[5]:
            passed += 1
        else:
            failed += 1
            print(f"{name}: codes of the reference {sorted(told)}, cases {sorted(there)}")
    print(f"{passed} passed, {failed} failed")
    sys.exit(1 if failed else 0)


main()
