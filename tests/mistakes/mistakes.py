"""Runs what docs/TCL.md, "Common mistakes" and "Choosing S", says and compares what takrun prints: mistakes.py TCL.MD TAKRUN EXAMPLES

Of a row's first column: code parted by "then" are the lines of one text, "or" parts texts, behind "the input being" stand inputs. What the page
says in other words stands in OTHERS, each with its words, which the page must have. So does the script by which a caller of takrun sees a
good run, which is tried on runs of an example.
"""
import os
import re
import shutil
import subprocess
import sys
import tempfile

PARAMETERS = "8 4 4 2 8"
LOOP = "SET R1 10\nADD R0 R1 R0\nDEC R1 1\nJMPNEQ {} R1 R2\nOUT R0"
# Words of the page, parameters, text, input, and the lines that are printed: each stands among the words as code.
OTHERS = (
    ("| nine lines; comments and empty lines count, at the end too | `REFUSED 8 0` |", PARAMETERS, "NOP\n# 1\n\n" * 3, "", ["REFUSED 8 0"]),
    ("| a byte-order mark in front of the text | `REFUSED 11 0` |", PARAMETERS, "\ufeffNOP", "", ["REFUSED 11 0"]),
    ("In front of `tak.par` it is `REFUSED 1 0`", "\ufeff" + PARAMETERS, "NOP", "", ["REFUSED 1 0"]),
    ("in front of the input of `IN R0` it is `FAILED 1 0 51`", PARAMETERS, "IN R0", "\ufeff5", ["FAILED 1 0 51"]),
    ("| `8 4 4 2 8 # small` or `8,4,4,2,8` in `tak.par` | `REFUSED 1 0` |", "8 4 4 2 8 # small", "NOP", "", ["REFUSED 1 0"]),
    ("| `8 4 4 2 8 # small` or `8,4,4,2,8` in `tak.par` | `REFUSED 1 0` |", "8,4,4,2,8", "NOP", "", ["REFUSED 1 0"]),
    ("| `takrun` in a folder without `tak.par` | `REFUSED 1 0` |", None, "NOP", "", ["REFUSED 1 0"]),
    ("| `JMP 8` as the first of 8 lines, to the line behind the last | `FAILED 1 0 4` |", PARAMETERS, "JMP 8" + "\nNOP" * 7, "", ["FAILED 1 0 4"]),
    ("With T = 9 it is `ENDED 0 8 4`", "8 4 4 2 9", "JMP 8" + "\nNOP" * 7, "", ["ENDED 0 8 4"]),
    ("`JMP 3` in its place goes to the first empty cell: `0` and `ENDED 0 3 55`", PARAMETERS, "OUT R0\nJMP 3\nOUT R0", "", ["0", "ENDED 0 3 55"]),
    (
        "`IN R0` then `JMPEQ 4 R0 R2` then `ADD R1 R0 R1` then `JMP 0` then `OUT R1`, the input being `5 7 0`: `12` and `ENDED 0 5 238`",
        PARAMETERS,
        "IN R0\nJMPEQ 4 R0 R2\nADD R1 R0 R1\nJMP 0\nOUT R1",
        "5 7 0",
        ["12", "ENDED 0 5 238"],
    ),
    ("`SET R0 5` then `SET R1 2` then `ADD R0 2 R0` prints `REFUSED 13 2`", PARAMETERS, "SET R0 5\nSET R1 2\nADD R0 2 R0", "", ["REFUSED 13 2"]),
    ("with `JMPNEQ 2 R1 R2` prints `10` and `ENDED 0 5 266`", PARAMETERS, LOOP.format(2), "", ["10", "ENDED 0 5 266"]),
    ("instead of `55` and `ENDED 0 5 302`", PARAMETERS, LOOP.format(1), "", ["55", "ENDED 0 5 302"]),
    ("until the sum is above 127: `FAILED 1 2 436`", PARAMETERS, "# 0\n" + LOOP.format(1), "", ["FAILED 1 2 436"]),
    ("With `JMPNEQ 2 R1 R2` it prints `55` and `ENDED 0 6 303`", PARAMETERS, "# 0\n" + LOOP.format(2), "", ["55", "ENDED 0 6 303"]),
)
# Words of "Choosing S", parameters and input of the example print, and the last line: the example's own if none.
STACKS = (
    ("With `30 6 22 0 64` in `tak.par` takrun prints the same lines as before", "30 6 22 0 64", "10", None),
    ("with `30 6 21 0 64` the last one is `FAILED 1 34 1352`, the PUSH in line 34", "30 6 21 0 64", "10", "FAILED 1 34 1352"),
    ("the figure is 2001, and S = 2002 is enough for every input", "30 6 2002 0 64", "1000", "ENDED 0 44 239303"),
    ("the figure is 2001, and S = 2002 is enough for every input", "30 6 2001 0 64", "1000", "FAILED 1 34 116192"),
)
LEFT_OUT = 5  # rows of the tables in other words: those of OTHERS
EMPTY_LINE = ", an empty line, "
INPUTS = ", the input being "


def read(path):
    with open(path, encoding="utf-8") as f:
        return f.read()


def rows(text):
    """The first two columns of the section's tables."""
    section = text[text.index("\n## Common mistakes\n") :].split("\n## ")[1]
    if f"with `{PARAMETERS}` in `tak.par`" not in section:
        raise ValueError("other parameters")
    columns = [line.split(" | ") for line in section.splitlines() if line.startswith("| ")]
    return [(column[0].removeprefix("| "), column[1]) for column in columns if column[0] != "| written"]


def programs(written):
    """The texts with their inputs; none if the row has other words."""
    if not re.search(r"`[^`]*`$", written):
        return []
    pieces = re.split(r"`([^`]*)`", written)[1:]
    texts, inputs, to_inputs = [pieces[0]], [], False
    for gap, code in zip(pieces[1::2], pieces[2::2]):
        if gap == INPUTS:
            to_inputs = True
            inputs.append(code)
        elif gap in (" or ", ", or "):
            (inputs if to_inputs else texts).append(code)
        elif gap in (" then ", ", then ", EMPTY_LINE) and not to_inputs:
            texts[-1] += ("\n\n" if gap == EMPTY_LINE else "\n") + code
        else:
            return []
    return [(text, given) for text in texts for given in inputs or [""]]


def printed_lines(printed):
    """The lines: all code of the column."""
    return "".join(f"{line}\n" for line in re.findall(r"`([^`]*)`", printed))


def run(takrun, text, given, parameters=PARAMETERS):
    with tempfile.TemporaryDirectory() as folder:
        for name, content in (("tak.par", parameters), ("tak.tcl", text), ("tak.in", given)):
            if content is not None:
                with open(os.path.join(folder, name), "w", encoding="utf-8") as f:
                    f.write(content + "\n")
        return subprocess.run([takrun], cwd=folder, stdout=subprocess.PIPE, timeout=60, check=True).stdout.decode()


def other_words(page, takrun):
    """A line for each of OTHERS that is not so."""
    for words, parameters, text, given, printed in OTHERS:
        got = run(takrun, text, given, parameters)
        wanted = "".join(f"{line}\n" for line in printed)
        if words not in page or any(f"`{line}`" not in words for line in printed) or got != wanted:
            yield f"the page has not, or takrun prints {got!r} for: {words}"
        else:
            yield None


def stacks(page, examples, takrun):
    """A line for each of STACKS that is not so."""
    example = os.path.join(examples, "print")
    text, usual = read(os.path.join(example, "tak.tcl")).removesuffix("\n"), read(os.path.join(example, "expected"))
    for words, parameters, given, last in STACKS:
        got = run(takrun, text, given, parameters)
        right = got.splitlines()[-1] == last if last else got == usual
        yield None if words in page and right else f"the page has not, or takrun prints {got[-40:]!r} for: {words}"


def script(page, example, takrun, given=None):
    """What the page's script says of a run of the example, with this input if one is given."""
    lines = re.search(r"^    (\S*/takrun) > result\n    (.*)$", page, re.M)
    with tempfile.TemporaryDirectory() as folder:
        for name in ("tak.par", "tak.tcl", "tak.in"):
            shutil.copy(os.path.join(example, name), folder)
        if given is not None:
            with open(os.path.join(folder, "tak.in"), "w", encoding="utf-8") as f:
                f.write(given)
        command = f"{takrun} > result\n{lines[2]}"
        return subprocess.run(["sh", "-c", command], cwd=folder, stdout=subprocess.PIPE, timeout=60, check=True).stdout.decode()


def scripts(page, examples, takrun):
    """A line for each run of which the script does not say what it should."""
    example = os.path.join(examples, "articles")
    runs = (
        ("a good run", takrun, None, "good\n"),
        ("an empty input", takrun, "", "not good: FAILED 3 25 88\n"),
        ("an output that is cut off within its last line", "printf '5120\\nENDED 0 53 1'", None, "not good: ENDED 0 53 1\n"),
        ("no output", "true", None, "not good: \n"),
    )
    for what, program, given, wanted in runs:
        got = script(page, example, program, given)
        yield None if got == wanted else f"the script says {got!r} of {what}"
    told = "In `examples/articles` this prints `good`, and with an empty `tak.in` there `not good: FAILED 3 25 88`."
    yield None if told in page else "what the script prints does not stand on the page"


def main():
    page, takrun, examples = read(sys.argv[1]), os.path.abspath(sys.argv[2]), sys.argv[3]
    passed, wrong, left_out = 0, [], []
    for said in [*other_words(page, takrun), *stacks(page, examples, takrun), *scripts(page, examples, takrun)]:
        passed += said is None
        wrong += [said] if said else []
    for written, printed in rows(page):
        tried = programs(written)
        if not tried:
            left_out.append(written)
        for text, given in tried:
            got = run(takrun, text, given)
            if got == printed_lines(printed):
                passed += 1
            else:
                wrong.append(f"{text!r} with the input {given!r} prints {got!r} instead of {printed}")
    if len(left_out) > LEFT_OUT:
        wrong.append(f"{len(left_out)} rows are not run: {left_out}")
    for line in wrong:
        print(f"mistakes: {line}")
    print(f"{passed} passed, {len(wrong)} failed")
    return 1 if wrong else 0


if __name__ == "__main__":
    sys.exit(main())
