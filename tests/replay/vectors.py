"""Vectors: pairs of values, and what every operation makes of them, by the second machine of tests/definitions."""
import random

from model import Failure, Machine, read_number

# In the order of the program; those of WITH_CODE print their return code too.
WITH_CODE = ("NEG", "ABS", "ADD", "SUB", "MUL", "DIV", "MOD", "NOT", "AND", "OR", "XOR", "NAND", "NOR")
NAMES = WITH_CODE[:7] + ("DIVR", "CMPEQ", "CMPNEQ", "CMPLT", "CMPGT", "CMPLE", "CMPGE") + WITH_CODE[7:] + (
    "RNOT", "RAND", "ROR", "RXOR", "RNAND", "RNOR", "RSL", "RSR", "ASR")


def vectors():
    """Pairs of edges for K = 8 and 30, random pairs for every K, and odd spellings."""
    rng = random.Random(3)
    lines = []
    for k, small in ((8, (-65, -10, -1, 0, 1, 13, 63)), (30, (-1, 0, 3))):
        m = 2 ** (k - 1)
        edges = (-m, -m + 1, -m // 2, *small, m // 2, m - 1)
        lines += [f"{k} {x} {y}" for x in edges for y in edges]
    for k in range(8, 31):
        m = 2 ** (k - 1)
        for _ in range(3):
            lines.append(f"{k} {rng.randrange(-m, m)} {rng.choice((rng.randrange(-m, m), rng.randrange(-20, 20)))}")
    lines += ["8 +7 -000000000000000000000000000003", "00008\t-0\r+0", "8 128 -129", "8 127 -128", "8 1e1 --1", "8 + -",
              "9 " + "9" * 400 + " -" + "0" * 400 + "256", "31 5 5", "7 5 5", "x 5 5", "8 1,2 3"]
    rng.shuffle(lines)
    return ["vector " + line + rng.choice(("\n", " \n", "\r\n", "\t \n")) for line in lines]


def number(word, m):
    """As the program takes it: 0 for what is no number, 1 for what is outside -M..M-1."""
    value = read_number(word)
    if value is None:
        return 0
    return value if -m <= value < m else 1


def results(k, x, y):
    machine = Machine((k, 1, 1, 0, 1), b"", {"iar": 0, "ircr": 0, "shr": -1, "place": 0}, [0], [0])
    for name in NAMES:
        # a DIVR has both values of its division, or the code of the first
        parts = ("DIV", "MOD") if name == "DIVR" else (name,)
        try:
            code, values = 0, [machine.result(part, [x, y]) for part in parts]
        except Failure as failure:
            code, values = failure.args[0], [0] * len(parts)
        if name in WITH_CODE or name == "DIVR":
            yield code
        yield from values


def printed(line):
    _, k, x, y = line.encode().split()
    k = int(k) if k.isdigit() and 8 <= int(k) <= 30 else 8
    m = 2 ** (k - 1)
    return "".join(f"{n} " for n in results(k, number(x, m), number(y, m))) + "\n"
