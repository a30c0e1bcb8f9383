"""Compares the functions that the crate tak_c exports with their declarations: names, order, types, constness, lengths of slices, result; with the
calls of the crate tak behind them, whose parameters and clauses they state word for word; and the header's constants with those of the Rust package,
by which tests/model reads records and endings, with the source's, and with the numbers that docs/CALLS.md has beside them, or the order in which it has them.

A function in one form: its name, its result, and of each parameter the name, what it is ("" a number, "in" a pointer that the call reads
through, "out" one that it may write through) and the type of the number. A slice is two parameters, a pointer and its length.
"""
import glob
import re
import sys

EXPORTS = "crates/tak_c/src/*.rt"
SOURCES = "crates/tak/src/*.rt"
LIMITS = "crates/model/src/lib.rt"
HEADER = "include/tak.h"
PAGE = "docs/CALLS.md"
PACKAGE = "callers/rust/src/raw.rs"
RUST = ("callers/**/*.rs", "tests/**/*.rs", "bench/**/*.rs")

# The one parameter whose name differs: contracts have another use for the word `record`.
RENAMED = {"fields": "record"}
# The constants of the source whose names differ: the limits of `Record`.
LIMIT_NAMES = {
    "MIN_BITS": "MIN_K",
    "MAX_BITS": "MAX_K",
    "MAX_REGISTERS": "MAX_N",
    "MAX_CELLS": "MAX_S",
    "MAX_INSTRUCTIONS": "MAX_T",
    "MAX_TEXT": "MAX_TEXT_LENGTH",
    "MAX_INPUT": "MAX_INPUT_LENGTH",
    "MAX_GRANT": "MAX_GRANT",
    "MAX_GRANTED": "MAX_GRANTED",
}
C_TYPES = {f"{sign}int{bits}_t": f"{letter}{bits}" for sign, letter in (("u", "u"), ("", "i")) for bits in (8, 16, 32, 64)}
C_TYPES |= {"size_t": "usize", "void": "nothing"}


def read(path):
    with open(path, encoding="utf-8") as f:
        return f.read()


def split(parameters):
    """A list of parameters at its commas."""
    return [part.strip() for part in parameters.split(",") if part.strip()]


def source_parameters(parameters):
    parts = [re.fullmatch(r"(\w+): (&mut |&)?(\[(\w+)\]|\w+)", part) for part in split(parameters)]
    slices = sum(1 for part in parts if part[4])
    for part in parts:
        name, way = RENAMED.get(part[1], part[1]), {"&mut ": "out", "&": "in", None: ""}[part[2]]
        if part[4]:
            yield name, way, part[4]
            yield (f"{name}_length" if slices > 1 else "length"), "", "usize"
        else:
            yield name, way, part[3]


def of_source(text):
    """The functions that Rattle source exports."""
    found = re.findall(r'#\[unsafe\(no_mangle\)\]\npub extern "C" fn (\w+)\(([^)]*)\)(?: -> (\w+))?\n', text)
    if len(found) != len(re.findall(r'no_mangle|extern "C" fn', re.sub(r"//.*", "", text))) / 2:
        raise ValueError("an exported function in another form")
    return {name: (result or "nothing", list(source_parameters(parameters))) for name, parameters, result in found}


def statements(text):
    """What each public function tak_.. of Rattle source states: its parameters, result and clauses, as one line; and its body, without blanks."""
    found = re.findall(r'^pub (?:extern "C" )?fn (tak_\w+)(\(.*?)^\{\n(.*?)^\}$', text, re.M | re.S)
    return {name: (" ".join(stated.split()), "".join(body.split()).replace(",)", ")")) for name, stated, body in found}


def other_statements(exports, source):
    """A line for each exported function that states something else than the call of the crate tak behind it, or does something else than call it."""
    here, there = statements(exports), statements(source)
    if not here or here.keys() != there.keys():
        return [f"exported are {sorted(here)}, and the crate tak has {sorted(there)}"]
    wrong = [f"{name} states something else than the crate tak's" for name in here if here[name][0] != there[name][0]]
    for name, (stated, body) in here.items():
        names = ",".join(re.findall(r"(\w+):", stated[: stated.index(")")]))
        if body != f"tak::{name}({names})":
            wrong.append(f"{name} is not just the call of the crate tak's")
    return wrong


def c_parameter(text):
    part = re.fullmatch(r"(const )?(\w+) (\*?)(\w+)", text)
    if not part or part[1] and not part[3]:
        raise ValueError(f"a parameter in another form: {text}")
    return part[4], ("in" if part[1] else "out") if part[3] else "", C_TYPES.get(part[2], part[2])


def of_header(text):
    """The functions that a C header declares."""
    text = re.sub(r"/\*.*?\*/", "", text, flags=re.S)
    text = re.sub(r"^#.*$", "", text, flags=re.M)
    found = re.findall(r"^(\w+) (\w+)\(([^()]*)\);$", text, re.M)
    if len(found) != text.count("("):
        raise ValueError("a declaration in another form")
    return {
        name: (C_TYPES.get(result, result), [c_parameter(" ".join(part.split())) for part in split(parameters)])
        for result, name, parameters in found
    }


def rust_parameter(text):
    part = re.fullmatch(r"(\w+): (\*const |\*mut )?(\w+)", text)
    if not part:
        raise ValueError(f"a parameter in another form: {text}")
    return part[1], {"*const ": "in", "*mut ": "out", None: ""}[part[2]], part[3]


def of_rust(text):
    """The functions tak_.. that the `extern` blocks of a Rust file declare."""
    functions = {}
    for block in re.findall(r'extern "C" \{\n(.*?)^\}', re.sub(r"//.*", "", text), re.S | re.M):
        found = re.findall(r"fn (\w+)\(([^()]*)\)(?: -> (\w+))?;", block)
        if len(found) != len(re.findall(r"\bfn\b", block)):
            raise ValueError("a declaration in another form")
        for name, parameters, result in found:
            if name.startswith("tak_"):
                functions[name] = (result or "nothing", [rust_parameter(part) for part in split(parameters)])
    return functions


def header_constants(text):
    """The constants that a C header defines, without their TAK_ and without the version."""
    text = re.sub(r"/\*.*?\*/", "", text, flags=re.S)
    defined = re.findall(r"^#define TAK_(\w+) (?:UINT64_C\()?(\d+)\)? *$", text, re.M)
    constants = {name: int(value) for name, value in defined if not name.startswith("VERSION_")}
    for body in re.findall(r"enum \{(.*?)\}", text, re.S):
        following = 0
        for name, value in re.findall(r"TAK_(\w+)(?: = (\d+))?", body):
            following = int(value or following)
            constants[name] = following
            following += 1
    return constants


def rust_constants(text):
    """The constants of the Rust package under the header's names: those of its module `refusal` begin with REFUSED_ there."""
    constants, prefix = {}, ""
    for module, name, value in re.findall(r"^pub mod (\w+) \{$|^ *pub const (\w+): \w+ = (\d+);$|^\}$", text, re.M):
        if name:
            constants[prefix + name] = int(value)
        else:
            prefix = "REFUSED_" if module == "refusal" else ""
    return constants


def source_constants(source, limits):
    """The constants of the crate tak (positions of a record, its length, the refusal of its own) and the limits, under the header's names."""
    numbers = [
        {name: int(value.replace("_", "")) for name, value in re.findall(r"^ *(?:pub )?const (\w+): \w+ = ([\d_]+);$", text, re.M)}
        for text in (source, limits)
    ]
    return numbers[0] | {name: numbers[1][limit] for limit, name in LIMIT_NAMES.items()}


def other_constants(header, package, source):
    """A line for each constant that is not the same in the header and the Rust package, or in the header and the source."""
    here, there = header_constants(header), rust_constants(package)
    wrong = [f"TAK_{name} is {here.get(name)}, in Rust {there.get(name)}" for name in sorted(here.keys() | there.keys()) if here.get(name) != there.get(name)]
    return wrong + [f"TAK_{name} is {here.get(name)}, in the source {value}" for name, value in source.items() if here.get(name) != value]


def page_constants(page):
    """The constants of the page's tables of endings and of stacks, with the numbers beside them."""
    endings = re.findall(r"^\| `TAK_(\w+)` \| (\d+) \| ", page, re.M)
    stacks = [(name, value.replace(",", "")) for value, name in re.findall(r"\| ([\d,]+) \| `TAK_(\w+_STACK)` \|$", page, re.M)]
    return {name: int(value) for name, value in endings + stacks}


def other_on_page(header, page):
    """A line for each ending or stack that the page has otherwise than the header, or not at all."""
    endings = re.search(r"enum \{\s*TAK_FAILED[^}]*\}", header)[0]
    here = {name: value for name, value in header_constants(header).items() if name.endswith("_STACK")} | header_constants(endings)
    there = page_constants(page)
    return [f"TAK_{name} is {here.get(name)}, on the page {there.get(name)}" for name in sorted(here.keys() | there.keys()) if here.get(name) != there.get(name)]


def other_positions(header, page):
    """A line if the page's table of the record's numbers does not have the header's positions in their order."""
    here = list(header_constants(re.search(r"enum \{\s*TAK_K,[^}]*\}", header)[0]))
    table = page[page.index("\n| position |") :].strip().split("\n\n")[0]
    there = [name for row in table.splitlines() for name in re.findall(r"`TAK_(\w+)`", row.split(" | ")[0])]
    return [] if here == there else [f"the record's numbers are {' '.join(here)}, on the page {' '.join(there)}"]


def differences(exported, declared):
    """A line for each function that is not the same in both."""
    wrong = [f"{name} is declared and not exported" for name in sorted(declared.keys() - exported.keys())]
    wrong += [f"{name} is exported and not declared" for name in sorted(exported.keys() - declared.keys())]
    for name in sorted(exported.keys() & declared.keys()):
        (result, wanted), (declared_result, got) = exported[name], declared[name]
        if result != declared_result:
            wrong.append(f"{name} gives {result} and is declared to give {declared_result}")
        if wanted != got:
            at = next((i for i, (w, g) in enumerate(zip(wanted, got)) if w != g), min(len(wanted), len(got)))
            shown = [" ".join(word for word in side[at] if word) if at < len(side) else "nothing" for side in (wanted, got)]
            wrong.append(f"{name}: parameter {at + 1} is '{shown[0]}' and is declared as '{shown[1]}'")
    return wrong


def replaced(text, old, new, behind=""):
    """The text with the first `old` after `behind` replaced, which must be there."""
    start = text.index(behind) if behind else 0
    at = text.index(old, start)
    return text[:at] + new + text[at + len(old) :]


def altered_headers(text):
    """Headers that must be found wrong, with what was done."""
    for name in ("tak_load", "tak_start"):
        behind = f"uint32_t {name}("
        five = "uint32_t k, uint32_t n, uint32_t s, uint32_t b, uint32_t t"
        letters = "knsbt"
        for i in range(5):
            for j in range(i):
                order = list(letters)
                order[i], order[j] = order[j], order[i]
                other = ", ".join(f"uint32_t {letter}" for letter in order)
                yield f"{name} with {letters[j]} and {letters[i]} exchanged", replaced(text, five, other, behind)
    yield "a length missing", replaced(text, ", size_t image_length", "", "tak_start(")
    yield "a length before its pointer", replaced(text, "const uint8_t *text, size_t text_length", "size_t text_length, const uint8_t *text")
    registers, cells = (f"int32_t *{name}, size_t {name}_length" for name in ("registers", "cells"))
    between = ",\n                   "
    yield "two slices exchanged", replaced(text, registers + between + cells, cells + between + registers, "tak_grant(")
    yield "a const missing", replaced(text, "const uint32_t *image", "uint32_t *image", "tak_grant(")
    yield "a const too many", replaced(text, "int32_t *cells", "const int32_t *cells", "tak_grant(")
    yield "a pointer missing", replaced(text, "uint64_t *spent", "uint64_t spent")
    yield "another width", replaced(text, "uint64_t cycles", "uint32_t cycles")
    yield "another sign", replaced(text, "int32_t value", "uint32_t value")
    yield "another type behind a pointer", replaced(text, "int32_t *output", "int64_t *output")
    yield "another result", replaced(text, "uint32_t tak_decimal", "int32_t tak_decimal")
    yield "no result", replaced(text, "uint32_t tak_decimal", "void tak_decimal")
    yield "a parameter too many", replaced(text, "uint64_t *count)", "uint64_t *count, uint64_t *more)")
    yield "the last parameter missing", replaced(text, ", uint64_t *count)", ")")
    yield "another name of a parameter", replaced(text, "uint64_t *values", "uint64_t *written")
    yield "another name of a function", replaced(text, "tak_decimal(", "tak_decimals(")
    decimal = text[text.index("uint32_t tak_decimal(") :].split("\n")[0]
    yield "a function missing", replaced(text, decimal, "")
    yield "a function too many", replaced(text, decimal, f"{decimal}\nuint32_t tak_more(uint32_t k);")


def altered_rust(text):
    right, wrong = (",\n        ".join(f"{letter}: u32" for letter in order) for order in ("nsb", "bsn"))
    yield "Rust with n and b exchanged", replaced(text, right, wrong, "fn tak_start(")
    yield "Rust with a pointer that may not be written through", replaced(text, "*mut i32", "*const i32", "fn tak_grant(")
    yield "Rust with a length missing", replaced(text, "        image_length: usize,\n", "", "fn tak_start(")
    yield "Rust with a function missing", re.sub(r"    fn tak_decimal\(.*\n", "", text)


def altered_sources(text):
    right, wrong = (",\n    ".join(f"{letter}: u32" for letter in order) for order in ("nsb", "bsn"))
    for name in ("tak_load", "tak_start"):
        yield f"{name} with n and b exchanged in the source", replaced(text, right, wrong, f"fn {name}(")
    yield "a slice that may be written in the source", replaced(text, "image: &[u32]", "image: &mut [u32]", "fn tak_start(")
    yield "a function that is exported no longer", replaced(text, '#[unsafe(no_mangle)]\npub extern "C" fn tak_decimal', "fn tak_decimal")


def altered_statements(text):
    yield "a clause without its old buffer", replaced(text, "tak_decimal value bytes.old", "tak_decimal value bytes.new")
    yield "a clause less", re.sub(r"    ensures \{ tak_decimal .*\n", "", text)
    yield "two arguments exchanged", replaced(text, "tak::tak_load(k, n, s", "tak::tak_load(k, s, n")
    yield "another call behind it", replaced(text, "tak::tak_decimal(value, bytes, count)", "tak::tak_decimal(value + 1, bytes, count)")
    yield "a parameter with another name", text.replace("image: &[u32]", "picture: &[u32]").replace("image.now", "picture.now")
    yield "a call less", text[: text.rindex("// Writes a value")]


def altered_constants(text):
    yield "IAR and IRCR exchanged", text.replace("TAK_IAR,", "TAK_#,").replace("TAK_IRCR,", "TAK_IAR,").replace("TAK_#,", "TAK_IRCR,")
    yield "a field missing", re.sub(r"    TAK_PLACE,.*\n", "", text)
    yield "the last field missing", re.sub(r"    TAK_DEEPEST .*\n", "", text)
    yield "another ending", replaced(text, "TAK_PAUSED = 3", "TAK_PAUSED = 4")
    yield "another length", replaced(text, "TAK_DECIMAL_LENGTH 11", "TAK_DECIMAL_LENGTH 10")
    yield "another limit", replaced(text, "TAK_MAX_GRANT UINT64_C(1000000000)", "TAK_MAX_GRANT UINT64_C(100000000)")
    yield "another bound of a stack", replaced(text, "TAK_GRANT_STACK 1536", "TAK_GRANT_STACK 1535")
    yield "another refusal", replaced(text, "TAK_REFUSED_CYCLES = 17", "TAK_REFUSED_CYCLES = 16")
    yield "a length and its refusal exchanged", replaced(text, "TAK_RECORD_LENGTH 12", "TAK_RECORD_LENGTH 100")
    yield "a constant missing", re.sub(r"#define TAK_RECORD_LENGTH.*\n", "", text)
    yield "a refusal missing", re.sub(r"    TAK_REFUSED_IMAGE = 10,\n", "", text)


def main():
    exports, source = ("".join(read(path) for path in sorted(glob.glob(pattern))) for pattern in (EXPORTS, SOURCES))
    header = read(HEADER)
    rust = {path: read(path) for pattern in RUST for path in sorted(glob.glob(pattern, recursive=True))}
    exported = of_source(exports)
    in_rust = {path: of_rust(text) for path, text in rust.items()}
    in_rust = {path: functions for path, functions in in_rust.items() if functions}
    passed, wrong = 0, []

    def count(lines):
        nonlocal passed
        wrong.extend(lines)
        passed += 0 if lines else 1

    def found(what, lines):
        count([] if lines else [f"not found wrong: {what}"])

    count([] if exported else ["the crate exports nothing"])
    count([f"{HEADER}: {line}" for line in differences(exported, of_header(header))])
    count([] if in_rust else ["no Rust file declares the functions"])
    for path, functions in in_rust.items():
        count([f"{path}: {line}" for line in differences(exported, functions)])
    count([f"crates/tak_c: {line}" for line in other_statements(exports, source)])
    numbers = source_constants(source, read(LIMITS))
    count([f"{HEADER}: {line}" for line in other_constants(header, rust[PACKAGE], numbers)])
    page = read(PAGE)
    count([f"{HEADER}: {line}" for line in other_on_page(header, page)])
    count([f"{HEADER}: {line}" for line in other_positions(header, page)])
    if not wrong:  # each alteration makes something wrong of what is right
        for name, value in page_constants(page).items():
            for old in (f"`TAK_{name}` | {value} |", f"| {value:,} | `TAK_{name}` |"):
                if old in page:
                    found(f"{name} with another number on the page", other_on_page(header, page.replace(old, old.replace(f"{value:,}", "7"))))
        for what, text in altered_constants(header):
            found(what, other_constants(text, rust[PACKAGE], {}))
        found("the last row of the record's table missing", other_positions(header, re.sub(r"\| `TAK_DEEPEST`.*\n", "", page)))
        found("two rows of the record's table exchanged", other_positions(header, re.sub(r"(\| `TAK_GRANTED`.*\n)(.*\n)", r"\2\1", page)))
        for name, value in numbers.items():
            found(f"{name} of the source, one more", other_constants(header, rust[PACKAGE], numbers | {name: value + 1}))
        for what, text in altered_headers(header):
            found(what, differences(exported, of_header(text)))
        for path in in_rust:
            for what, text in altered_rust(rust[path]):
                found(f"{what} ({path})", differences(exported, of_rust(text)))
        for what, text in altered_sources(exports):
            found(what, differences(of_source(text), of_header(header)))
        for what, text in altered_statements(exports):
            found(what, other_statements(text, source))
    for line in wrong:
        print(f"header: {line}")
    print(f"{passed} passed, {len(wrong)} failed")
    return 1 if wrong else 0


if __name__ == "__main__":
    sys.exit(main())
