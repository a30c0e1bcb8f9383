"""What the program `replay` must print, by the second machine of tests/definitions.

`expected.py --write` writes crates/replay/stdin and stdout; without it, both are compared with what is stored. The cases of vectors.py, loads.py and
runs.py have to reach every refusal of every call, every ending, every instruction with each of its return codes, and all that a grant can show of
the record's `deepest`.
"""
import os
import sys

import cases
import loads
import runs
import vectors
from deepest import SHOWN
from model import NAMES

STORED = os.path.join(os.path.dirname(os.path.abspath(__file__)), "..", "..", "crates", "replay")
ONE_CODE = "PUSH POP NOT AND OR XOR NAND NOR NEG ABS ADD SUB MUL INC DEC JMP JMPEQ JMPNEQ JMPLT JMPGT JMPLE JMPGE SKIP".split()
CODES = {
    **dict.fromkeys(NAMES, (0,)), **dict.fromkeys(ONE_CODE, (0, 1)), "IN": (0, 1, 2, 3), "DIV": (0, 1, 2), "MOD": (0, 2), "JMPT": (0, 1, 2), "JMPF": (0, 1, 2),
    "DIVR": (0, 1, 2),
}
REFUSALS = {"load": (*range(9), 11, 12, 13, 14, 19), "start": (*range(7), 9, 10), "grant": (*range(7), 9, 10, 15, 16, 17)}
ANSWERS = {**CODES, **REFUSALS, "ending": range(5), "deepest": SHOWN}
REACHED = {(name, code) for name, codes in ANSWERS.items() for code in codes}


def worked_out():
    """Input and output. The first cases have an input that runs on over those behind them, the last one a text of blanks that does."""
    listed = loads.cases() + runs.cases()
    cases.SEEN.clear()
    lines = vectors.vectors()
    last = cases.case((8, 2, 4, 2, 1), b" " * 65537, [])
    text = "".join(lines).encode() + b"".join(part for c in listed for part in cases.spelled(c)) + cases.spelled(last)[0].rstrip() + b"\n"
    output = "".join(map(vectors.printed, lines)) + "".join(map(cases.printed, listed + [last]))
    for c in runs.long_cases():
        before, behind = cases.spelled(c)
        output = cases.printed(c, (b"\n" + behind + text).ljust(cases.BUFFER)) + output
        text = before + behind + text
    if len(text) + 65537 > cases.BUFFER:
        raise ValueError("the last text does not fit into the program's buffer")
    return text, output.encode()


def main():
    failed = 0
    for name, content in zip(("stdin", "stdout"), worked_out()):
        path = os.path.join(STORED, name)
        if "--write" in sys.argv:
            with open(path, "wb") as f:
                f.write(content)
        with open(path, "rb") as f:
            if f.read() != content:
                print(f"crates/replay/{name} is not what expected.py makes")
                failed += 1
    for name, number in sorted(REACHED - cases.SEEN, key=str):
        print(f"no case reaches {name} {number}")
    for name, number in sorted(cases.SEEN - REACHED, key=str):
        print(f"{name} {number} is not among those to be reached")
    failed += cases.SEEN != REACHED
    print(f"{3 - failed} passed, {failed} failed")
    sys.exit(1 if failed else 0)


main()
