#!/usr/bin/env python3
"""Spells the names of this repository's own definitions and lemmas as today's Rattle does: words in snake case.

usage: snake_case.py [FOLDER]   rewrites crates/ (and with --pages README.md and docs/) of FOLDER (.) in place; run it once, behind port.py

- A name in lower camel case, wherever it stands in a .antt file, a clause or a `ghost use`, becomes snake case: accountAfter, account_after.
- Of a lemma's name a dash stays where it joins two names (CONTRACT_STYLE.md, "Names"), so before the name of a definition, and
  becomes `_` elsewhere: length-take stays, run-keeps becomes run_keeps. Names that Rattle makes (proofs/F/) keep theirs.
- Functions of src/, exported names and strings are no lower camel case and stay. Names that fall together stop it.
"""
import collections
import pathlib
import re
import sys

# Lemmas whose name would be that of the definition that they are about.
OTHER = {"price-table": "price_table_lem", "known-wrong": "known_wrong_lem", "is-empty": "is_empty_there"}
FIRST = {"is_digit": "is_digit_lem", "all_pass": "all_pass_lem"}
# A module whose name would be that of a module that Rattle makes.
MOVED = ("machine", "specs", "Contracts", "CallContracts")
BEFORE, AFTER = r"(?<![\w'\-ℕℤ◌·])", r"(?![\w'\-ℕℤ◌·])"
NAME = re.compile(BEFORE + r"[A-Za-z_][\w'\-ℕℤ]*" + AFTER)
SIGNATURE = re.compile(r"^\s*(?:(?:abbrev|unfoldable|pub|record|data|ruleset) )*([a-z_][^\s:;(){}]*) :", re.M)
CAMEL = re.compile(r"^[a-z][a-z0-9_'-]*[A-Z]")
IMPORT = re.compile(r"use Rattle\.std[\w.]*\.\{([^}]*)\}")


def snake(name):
    name = re.sub(r"([A-Z]+)([A-Z][a-z])", r"\1_\2", name)
    return re.sub(r"([a-z0-9])([A-Z])", r"\1_\2", name).lower()


def files(top, *endings):
    for p in sorted((top / "crates").rglob("*")):
        if p.suffix in endings and "out" not in p.parts:
            yield p


def declared(top):
    """The names declared in specs/ and in the lemma files of proofs/; and the words that are imported from std."""
    own, library = set(), set()
    for p in files(top, ".antt", ".rt"):
        text = p.read_text(encoding="utf-8")
        for names in IMPORT.findall(text):
            library |= {n.split(" as ")[0].strip() for n in names.split(",")}
        inside = p.relative_to(top).parts
        if p.suffix == ".antt" and (inside[2] == "specs" or len(inside) == 4):
            own |= set(SIGNATURE.findall(text))
    return own, library


def dashes(name, words):
    parts = name.split("-")
    made = parts[0]
    for part in parts[1:]:
        made += ("-" if part in words else "_") + part
    return made


def renamed(top):
    own, library = declared(top)
    words = {snake(n) for n in own if "-" not in n} | {n for n in library if re.match(r"^[a-z][a-z0-9_]*$", n) and "-" not in n}
    table = {}
    for p in files(top, ".antt", ".rt"):
        for m in NAME.finditer(p.read_text(encoding="utf-8")):
            n = m.group(0)
            if n in table or n in library:
                continue
            if CAMEL.match(n) or ("-" in n and n in own):
                new = OTHER.get(n) or (dashes(snake(n), words) if n in own else snake(n))
                if new != n:
                    table[n] = new
    return table


def stands(name, text, where):
    """Whether a name has a meaning of its own in a file: of a parameter or a field in .rt, of anything but a path or a field in .antt."""
    if str(where).endswith(".rt"):
        return re.search(r"\b" + re.escape(name) + r":", text)
    code = re.sub(r"--( .*)?$", "", text, flags=re.M)
    return re.search(r"(?<![\w'\-.])" + re.escape(name) + r"(?![\w'\-.])", code)


def turn(text, table, fall, where):
    there = {m.group(0) for m in NAME.finditer(text)}
    for n in there & table.keys():
        if stands(table[n], text, where):
            fall.append(f"{where}: {n} would be {table[n]}, which stands there too")

    def other(piece):
        return NAME.sub(lambda m: table.get(m.group(0), m.group(0)), piece)

    # Quoted text and characters stay.
    pieces = re.split(r"""("(?:[^"\\\n]|\\.)*"|\bb'(?:[^'\\\n]|\\.)')""", text)
    return "".join(p if i % 2 else other(p) for i, p in enumerate(pieces))


def move_module(top):
    crate, folder, old, new = MOVED
    inside = top / "crates" / crate / folder
    (inside / f"{old}.antt").rename(inside / f"{new}.antt")
    for p in files(top, ".antt", ".rt"):
        text = p.read_text(encoding="utf-8")
        made = text.replace(f"Rattle.{crate}.{folder}.{old}.", f"Rattle.{crate}.{folder}.{new}.")
        if p == inside / "Lib.antt":
            made = re.sub(rf"^pub mod {old}$", f"pub mod {new}", made, flags=re.M)
        if made != text:
            p.write_text(made, encoding="utf-8")


def main(argv):
    pages = "--pages" in argv
    rest = [a for a in argv if a != "--pages"]
    top = pathlib.Path(rest[0] if rest else ".").resolve()
    table = renamed(top)
    fall, made = [], {}
    groups = collections.defaultdict(list)
    for n, new in table.items():
        groups[new].append(n)
    fall += [f"{' and '.join(sorted(g))} would both be {new}" for new, g in groups.items() if len(g) > 1]
    for p in files(top, ".antt", ".rt"):
        text = p.read_text(encoding="utf-8")
        if p.suffix == ".antt":
            for n, new in FIRST.items():
                text = re.sub(r"(?<![\w'\-.])" + n + r"(?![\w'\-.])", new, text)
        made[p] = turn(text, table, fall, p.relative_to(top))
    if fall:
        print("\n".join(fall))
        return 1
    for p, text in made.items():
        if text != p.read_text(encoding="utf-8"):
            p.write_text(text, encoding="utf-8")
    move_module(top)
    if pages:
        for p in [top / "README.md", *sorted((top / "docs").rglob("*.md"))]:
            text = p.read_text(encoding="utf-8")
            p.write_text(re.sub(r"`[^`\n]+`", lambda m: turn(m.group(0), table, [], p), text), encoding="utf-8")
    print(f"{len(table)} names")
    return 0


if __name__ == "__main__":
    raise SystemExit(main(sys.argv[1:]))
