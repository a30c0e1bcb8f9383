"""Cases of start and of lists of grants."""
import itertools
import random

from cases import FIELDS, IMAGE, START, State, accepted, allow, case, cell, field, inside, limit, register, word
from model import BY_MODE, DIRECT, NAMES, REGISTER, SPECIAL, places, price, read_line

MOST = 10**15  # that may be granted
WIDE = 2**64 - 1
# What IN reads with K = 8: all codes, odd blanks, and places in the middle of a token.
INPUTS = (
    b"", b" \t\r\n", b"\n\t\r 5\r\n", b"5\t-6\r\n+7", b"127 128", b"-128 -129", b"+127 +128", b"-0 +0 0", b"0000000000000000000000127 -00000000128", b"9" * 90,
    b"1 " + b"0" * 90 + b"1", b"4294967297", b"-18446744073709551617", b"-", b"+ 5", b"--5", b"5-", b"5,6", b"0x5", b"5e1", b"5\x006", b"\x0c5", b"5\xa06", b"\xb2", b"128x",
    b"+" + b"9" * 30 + b"x",
)
OFTEN = (
    "SET SET SET OUT OUT PUSH POP IN ADD SUB JMPLT JMPNEQ JMP JMPT INC DEC MOV MOV CMPLT CMPEQ SETT AND NOT RSR ASR RSL DIV MOD DIVR MUL DUMP_REG SKIP"
).split()


def joined(lines):
    return "\n".join(lines).encode()


def cost(p, line):
    return price(read_line(p, line.encode()), p[1], p[2])


def edge(rng, k):
    m = limit(k)
    return rng.choice((0, -1, 0, -1, 1, 2, m - 1, -m, m - 2, 1 - m, m // 2, -m // 2, rng.randint(-9, 9), rng.randrange(-m, m)))


# EVERY INSTRUCTION
def form_lines(p, name):
    """Lines that have each form of each place at least once; jumps also to the first target that there is not."""
    forms = [sorted(place) for place in places(name)]
    for i in range(max(map(len, forms), default=1)):
        spellings = [inside(p, form[i % len(form)]) for form in forms]
        turns = (0, 1, 1) if name == "DIVR" else (0, 1, 2)  # DIVR's targets are two registers
        yield " ".join([name] + [words[(i + turn) % len(words)] for turn, words in zip(turns, spellings)])
    if name.startswith("JMP"):
        yield " ".join([name, str(p[4]), "R0", "R1"][: 1 + len(forms)])


def tried(rng, p, at):
    """Changes before a step of the cell `at`: where it stands, the stack, the place, some values."""
    k, n, s, b, _ = p
    changes = [field("iar", at), field("ircr", 0)]
    if rng.random() < 0.5:
        shr = rng.choice((b - 1, b, s - 2, s - 1))
        changes += [field("shr", shr), field("deepest", shr), field("place", rng.choice((0, 2, 4, 9, 11)))]
    values = [register(i, rng.choice((0, -1, -limit(k), limit(k) - 1, edge(rng, k)))) for i in range(n)]
    return changes + rng.sample(values, 2) + [cell(rng.randrange(s), edge(rng, k))]


def instruction_case(rng, p, lines):
    """Each line once, and again for each code that a search finds for its instruction, by grants of its cost."""
    c = case(p, joined(lines), [START], b"7 1x 128 -9")
    state, codes = State(c), set()
    state.call(START)
    for at, line in enumerate(lines):
        for turn in range(60):
            group = tried(rng, p, at) + [allow(cost(p, line), rng.choice((6, 9)))]
            before = state.record, list(state.registers), list(state.data)
            code = line.split()[0], [state.call(call) for call in group][-1][0][8]
            if code in codes and turn:
                state.record, state.registers, state.data = before
            else:
                codes.add(code)
                c[5].extend(group)
    return c


def instruction_cases(rng):
    p = (8, 3, 6, 2, 40)
    lines = [line for name in NAMES for line in form_lines(p, name)]
    for i in range(0, len(lines), p[4]):
        yield instruction_case(rng, p, lines[i : i + p[4]])
    below = (8, 3, 6, 0, 40)  # SHR may be -1
    text = b"OUT SHR\nMOV SHR R0\nJMP SHR\nCMPLT SHR R0 R1\nPUSH SHR\nPOP R2\nPOP R2"
    yield case(below, text, [START] + [call for at in range(7) for call in (field("iar", at), field("ircr", 0), allow(51))])


def short_cases():
    """One line for each price, with one cycle too little and then one more."""
    p = (8, 3, 6, 2, 40)
    lines = {}
    for name, choose in itertools.product(NAMES, (min, max)):
        line = " ".join([name] + [inside(p, choose(place))[-1] for place in places(name)])
        line = "DIVR R0 R1 R2" if name == "DIVR" else line
        lines.setdefault((name if name in BY_MODE or not places(name) else "", cost(p, line)), line)
    calls = [START]
    for at, line in enumerate(lines.values()):
        calls += [field("iar", at), field("ircr", 0), field("spent", 0), field("granted", 0), allow(cost(p, line) - 1), allow(1)]
    yield case(p, joined(lines.values()), calls, b"1 2 3 4 5 6 7 8 9")


def arithmetic_cases():
    """The ends of the range, reached and passed."""
    pairs = ((127, 1), (127, -1), (-128, -1), (-128, 1), (64, 2), (64, -2), (-13, 10), (13, -10), (5, 0))
    for name in ("ADD", "SUB", "MUL", "DIV", "MOD", "DIVR"):
        p, line = (8, 3, 1, 0, 1), name + " R0 R1 R2"
        steps = [[register(0, x), register(1, y), field("iar", 0), field("ircr", 0), allow(cost(p, line), 0)] for x, y in pairs]
        yield case(p, line.encode(), [START] + [call for step in steps for call in step])


def division_cases():
    """DIVR with each kind of divisor, its own arguments among them, SHR being -1; just enough cycles and one too few; the ends of the range."""
    lines = ("DIVR R0 R1 R2", "DIVR R2 R1 R0", "DIVR R0 R0 R2", "DIVR R0 R1 R1", "DIVR R0 SHR R2", "DIVR R0 IRCR R1", "DIVR R1 IAR R0")
    calls = [START]
    for at in range(len(lines)):
        for x, y in ((-13, 10), (-128, -1), (0, 5), (5, 0)):
            calls += [register(0, x), register(1, y), field("iar", at), field("ircr", 0), allow(31, 0)]
    yield case((8, 3, 1, 0, len(lines)), joined(lines), calls + [START, register(0, 100), register(1, 7), allow(30), allow(1)])
    for k in (9, 30):
        m = limit(k)
        pairs = ((m - 1, -m), (m - 1, 12), (1 - m, 12), (-m, -1))
        yield case((k, 3, 1, 0, 4), b"DIVR R0 R1 R2\n" * 4, [START] + [call for x, y in pairs for call in (register(0, x), register(1, y), allow(31))])
    boxes = b"IN R1\nIN R0\nDIVR R0 R1 R2\nOUT R2\nOUT R0\nJMP 1"
    yield case((12, 3, 1, 0, 6), boxes, [START, allow(235), allow(0, 5), allow(10**9)], b"12 100 -100 11 2047 -2048")


# INPUT AND OUTPUT
def input_cases():
    for given in INPUTS:
        yield case((8, 2, 3, 1, 3), b"IN R0\nIN DM0\nIN R1", [START, allow(1000)], given)
    for k in (9, 30):
        m = limit(k)
        for number in (m - 1, m, -m, -m - 1):
            yield case((k, 2, 3, 1, 3), b"IN R0\nOUT R0", [START, allow(102)], b"%d" % number)
    for place in (0, 2, 4, 8):
        yield case((8, 2, 3, 1, 2), b"IN R0", [START, field("place", place), allow(51)], b" -12  34")


def output_cases():
    """A program that writes 1 + N + S + 1 values, with just enough room for each step and with one too little."""
    p = (8, 2, 3, 1, 6)
    text = b"SET DM0 -5\nOUT DM0\nDUMP_REG\nDUMP_DATA_MEM\nOUT SHR\nOUT R1"
    for rooms in ((0, 1, 1, 2, 2, 3, 0, 1, 1), (2, 4, 2), (3, 4, 8), (5, 1), (7,), (8,), (100,)):
        yield case(p, text, [START, allow(600, rooms[0])] + [allow(0, room) for room in rooms[1:]])
    yield case((8, 16, 64, 0, 2), b"DUMP_DATA_MEM\nDUMP_REG", [START, cell(63, -128), allow(10**9, 63), allow(0, 64), allow(0, 15), allow(0, 16)])


# LISTS OF GRANTS
def list_cases():
    marked = b"SET R0 13\nSET R1 -10\nDIV R0 R1 R1\nOUT R1"
    p = (8, 2, 4, 2, 6)
    for cycles in ((52, 50, 1), (10**9, 0), (0, 11, 0, 10, 1, 29, 1, 50, 1), (103,), (102, 1), (52, 10**9 + 1, 50, WIDE, 1, 10**9)):
        yield case(p, marked, [START] + [allow(n) for n in cycles])
    yield case(p, marked, [START, allow(52), START, allow(103)])
    yield case(p, marked, [allow(103), register(0, 3), allow(30), allow(51)])  # no start
    yield case(p, b"SET R0 0\nDIV R0 R0 R1\nOUT R1", [START, allow(40), allow(1), allow(0), allow(500)])
    yield case(p, b"NOP\nJMP 0", [START, allow(99), allow(2), allow(3)])
    yield case((8, 1, 1, 0, 1), b"", [START, allow(0), allow(5)])
    for b in (0, 1):
        yield case((8, 1, 1, b, 1), b"PUSH SHR", [START, allow(8), allow(8)])
    yield case(p, b"PUSH SHR\nPUSH IAR\nPOP R0\nPOP DM0\nPOP R1", [START, allow(16), allow(8), allow(12), allow(8)])
    yield case(p, b"PUSH R0\nCLEAR_DATA_MEM\nCLEAR_REG\nPOP R1\nPOP R0", [START, register(0, 9), allow(100)])
    for t in (1, 2, 3):
        yield case((8, 1, 1, 0, t), b"SKIP\n" * t, [START] + [call for at in range(t) for call in (field("iar", at), field("ircr", 0), allow(4))])
    for target in (0, 3, 4, -1, 127):
        yield case((8, 1, 2, 0, 4), b"JMP %d\n\n\nJMP R0" % target, [START, allow(4), field("iar", 3), field("ircr", 0), register(0, target), allow(4)])


def stack_cases():
    """`deepest`: PUSH raises it, POP, a failing PUSH and a refused grant leave it, start begins it anew; it may stand above all that a call reaches."""
    text = b"PUSH R0\nPUSH SHR\nPOP R1\nPOP R1\n" + b"PUSH R1\n" * 5
    for b in (0, 1, 2, 3, 4):
        for cycles in ((8,) * 9, (100,), (16, 10**9 + 1, 16, 24, 7, 1, 0, 8)):
            yield case((8, 2, 4, b, 9), text, [START, *map(allow, cycles), START, allow(8)])
    for b in (0, 2):
        for deepest in range(b - 2, 5):
            yield case((8, 2, 4, b, 9), text, [START, field("deepest", deepest), *map(allow, (0, 8, 16, 16, 100))])
    both = b"PUSH R0\nPOP R1\nJMP 0"  # one cell up and down, from each SHR
    for shr in range(-1, 4):
        calls = [START]
        for deepest in range(shr - 1, 5):
            calls += [field("iar", 0), field("ircr", 0), field("shr", shr), field("deepest", deepest), allow(8), allow(32)]
        yield case((8, 2, 4, 0, 3), both, calls)


def look_cases():
    """Failed, ended, paused and output full, wherever several of them hold."""
    calls = [START]
    for iar, ircr, cycles, room in itertools.product((0, 2, 3), (0, 1), (50, 51), (0, 1)):
        calls += [field("iar", iar), field("ircr", ircr), field("granted", 0), field("spent", 0), allow(cycles, room)]
    yield case((8, 1, 2, 0, 3), b"OUT R0\nJMP 5", calls)


# REFUSALS
def parameter_cases():
    """Each parameter at both sides of its limits: in load and start, and in a record."""
    good = dict(zip("knsbt", (14, 2, 4, 2, 1)))
    changes = [
        {"k": 0}, {"k": 7}, {"k": 8}, {"k": 30}, {"k": 31}, {"k": 2**32 - 1}, {"n": 0}, {"n": 1}, {"n": 3}, {"n": 256}, {"n": 257}, {"n": 2**32 - 1},
        {"s": 0}, {"s": 0, "b": 0}, {"s": 1}, {"s": 2}, {"s": 3}, {"s": 5}, {"s": 4096}, {"s": 4097}, {"k": 13, "s": 4095}, {"k": 13, "s": 4096},
        {"k": 8, "s": 127}, {"k": 8, "s": 128}, {"b": 0}, {"b": 1}, {"b": 4}, {"b": 5}, {"b": 2**32 - 1}, {"t": 0}, {"t": 2}, {"t": 4096}, {"t": 4097},
        {"t": 2**32 - 1}, {"k": 13, "t": 4095}, {"k": 13, "t": 4096}, {"k": 8, "t": 127}, {"k": 8, "t": 128}, {"k": 7, "n": 0, "s": 0, "b": 9, "t": 0},
        {"n": 0, "s": 0, "b": 9, "t": 0}, {"s": 0, "b": 9, "t": 0}, {"b": 9, "t": 0},
    ]
    calls = [START]
    for change in changes:
        yield case(tuple({**good, **change}.values()), b"PUSH DM1", [IMAGE, START], b"", 0, 4, 2, 4)
        calls += [field(name, value) for name, value in {**good, **change}.items()] + [allow(0)]
    yield case(tuple(good.values()), b"PUSH DM1", calls)


def length_cases():
    p = (8, 2, 3, 1, 2)
    for words, registers, cells in ((7, 2, 3), (9, 1, 3), (0, 2, 3), (8, 1, 3), (8, 3, 3), (8, 2, 2), (8, 2, 4), (8, 0, 3), (8, 2, 0)):
        calls = [START] + [field(name, value) for name, value in zip(FIELDS, p)] + [allow(60)]
        yield case(p, b"OUT R0", calls, b"", 0, words, registers, cells)
    calls = [START, field("n", 3), field("s", 4), field("k", 8), field("b", 1), field("t", 2), allow(60)]  # a record whose parameters fit the slices
    yield case(p, b"OUT R0", calls, b"", 0, 8, 3, 4)


def image_cases():
    """Refusal 10, in start and between grants."""
    p = (8, 2, 4, 2, 3)
    for at, kind, content in ((0, 0, 0), (0, 0, 55), (0, 0, 56), (1, 1, 2), (1, 2, 2), (2, 3, 127), (2, 3, 128), (3, 0, 1), (8, 0, 44), (11, 3, 0)):
        yield case(p, b"SET R0 13\nSET R1 -10", [word(at, kind, content), START])
    for at, kind, content in ((1, 1, 256), (2, 3, 2**30 - 128), (2, 3, 2**30 - 129), (4, 0, 0)):
        yield case(p, b"SET R0 13\nSET R1 -10", [START, allow(11), word(at, kind, content), allow(11)])
    for at in (1, 3):
        yield case(p, b"DIVR R0 R1 R1", [START, register(1, 3), word(at, 1, 2 - at // 2), START, allow(31), word(at, 1, at // 2), allow(31)])
    yield case(p, b"OUT DM1", [START, field("b", 1), allow(60), field("b", 2), allow(60)])
    yield case((9, 2, 4, 2, 3), b"SET R0 200", [START, field("k", 8), allow(60), field("k", 9), allow(60)])
    yield case(p, b"X", [START, allow(9)])


def record_cases():
    """Refusal 15: each field and each value at both sides of its bounds."""
    k, n, s, b, t = p = (8, 2, 4, 2, 3)
    m = limit(k)
    values = {
        "iar": (t - 1, t, t + 1, 2**32 - 1), "ircr": (1, 2, 3, 4, 2**32 - 1), "shr": (b - 2, b - 1, s - 1, s, -1, -(2**63), 2**31, 2**63 - 1),
        "place": (2, 3, 4, WIDE), "spent": (100, 101, WIDE, 49), "granted": (100, 99, MOST, MOST + 1, WIDE),
        "deepest": (b - 1, b, s - 1, s, -1, -(2**63), b - 2**32, b + 2**32, 2**63 - 1),
    }
    good = {"iar": 0, "ircr": 0, "shr": b, "place": 0, "granted": 100, "spent": 100, "deepest": s - 1}
    calls = [START]
    for name, tested in values.items():
        for value in tested:
            calls += [field(f, v) for f, v in {**good, name: value}.items()] + [allow(0)]
    yield case(p, b"OUT SHR\nOUT IAR\nOUT R0", calls, b"1 2")
    calls = [START]
    for kind, index in ((3, 0), (3, n - 1), (4, 0), (4, s - 1)):
        for value in (m - 1, m, -m, -m - 1) + ((2**31 - 1, -(2**31)) if index else ()):
            calls += [(kind, index, value), allow(0)]
        calls += [(kind, index, 3)]
    yield case(p, b"OUT R0", calls)
    for wide in (29, 30):
        m = limit(wide)
        yield case((wide, 1, 1, 0, 1), b"OUT R0", [START, *(call for value in (m, -m - 1, m - 1, -m) for call in (register(0, value), allow(0)))])
    yield case((8, 1, 3, 0, 1), b"POP R0", [START, field("shr", -2), allow(9), field("shr", -1), allow(9), field("ircr", 0), field("shr", 2), field("deepest", 2), allow(9)])
    yield case((8, 1, 3, 3, 1), b"PUSH R0", [START, field("shr", 1), allow(9), field("shr", 3), allow(9), field("shr", 2), allow(9)])


def cycle_cases():
    """Refusal 17, both ways, and which of two refusals is given."""
    p, text = (8, 2, 4, 2, 3), b"OUT R0\nOUT R0\nOUT R0"
    yield case(p, text, [START] + [allow(cycles, 0) for cycles in (10**9, 10**9 + 1, 2**32, 2**63, WIDE)])
    for left, cycles in ((0, 0), (0, 1), (51, 51), (51, 52), (10**9, 10**9), (10**9 - 1, 10**9), (10**9 + 1, 10**9 + 1)):
        yield case(p, text, [START, field("granted", MOST - left), field("spent", MOST - left), allow(cycles, 1)])
    faults = (field("ircr", 4), word(0, 0, 99), field("n", 1), field("t", 4), field("b", 5), field("k", 31))
    yield case(p, text, [START, *(call for fault in faults for call in (fault, allow(10**9 + 1)))])


def long_cases():
    """Refusal 16, and the last places of the longest input: both inputs run on over the cases behind them."""
    for more in (65535, 65536):
        calls = [START, allow(51)] + [call for place in (65536, 65537, 65538) for call in (field("place", place), allow(51))]
        calls += [field("place", 65530), allow(10**9 + 1), allow(10**9)]
        yield case((30, 1, 1, 0, 6), b"IN R0\nJMP 0", calls, b"8", more)


# RANDOM CASES
def random_parameters(rng):
    k = rng.choice((8, 8, 8, 9, 12, 30))
    n, s, t = rng.choice((1, 2, 3, 4, 16)), rng.choice((1, 2, 3, 5, 8, 64)), rng.choice((6, 8, 12, 16, 64))
    return k, n, s, rng.randint(0, s), t


def random_word(rng, p, name, form):
    k, n, _, b, t = p
    if form == REGISTER:
        return f"R{rng.randrange(min(n, 3))}" if rng.random() < 0.7 else f"R{rng.randrange(n)}"
    if form == SPECIAL:
        return rng.choice(("IAR", "IRCR", "SHR"))
    if form == DIRECT:
        return f"DM{rng.randrange(b)}"
    return str(rng.randrange(t)) if name.startswith("JMP") and rng.random() < 0.9 else str(edge(rng, k) if rng.random() < 0.5 else rng.randint(-3, 3))


def random_line(rng, p):
    name = rng.choice(OFTEN if rng.random() < 0.6 else NAMES)
    words = [name]
    for place in places(name):
        forms = sorted(place - ({DIRECT} if p[3] == 0 else set()) - ({SPECIAL} if rng.random() < 0.8 else set()))
        words.append(random_word(rng, p, name, rng.choice(forms)))
    return " ".join(words)


def random_input(rng, k):
    odd = ("1x", "+", "9" * 12, "-0", "+3", "-", "007")
    words = [str(rng.choice((edge(rng, k), rng.randint(-9, 9)))) if rng.random() < 0.9 else rng.choice(odd) for _ in range(rng.randrange(8))]
    return "".join(rng.choice((" ", "\n", "\t ", "\r\n", "")) + w + rng.choice((" ", "\n")) for w in words).encode()


def changed(rng, p):
    """Changes within the bounds of a record and memory, or just outside them."""
    k, n, s, b, t = p
    m = limit(k)
    if rng.random() < 0.4:
        kind, slots = rng.choice(((3, n), (4, s)))
        return [(kind, rng.randrange(slots), rng.choice((edge(rng, k), edge(rng, k), m, -m - 1)))]
    values = {"iar": (0, t - 1, t, t + 1), "ircr": (0, 0, 1, 3, 4), "shr": (b - 2, b - 1, s - 1, s), "place": (0, 1, 2), "spent": (0, WIDE)}
    values["deepest"] = values["shr"]
    name = rng.choice(list(values))
    raised = [field("deepest", s - 1)] if name == "shr" else []  # above the SHR that there was
    return raised + [field(name, rng.choice(values[name]))]


def random_case(rng):
    p = random_parameters(rng)
    calls = [START]
    for _ in range(rng.randint(2, 7)):
        if rng.random() < 0.35:
            calls += changed(rng, p)
        calls.append(allow(rng.choice((0, 1, 5, 20, 52, 100, 150, 300, 600)), rng.choice((0, 1, 2, 3, 8, 17))))
    return case(p, joined(accepted(p, lambda: random_line(rng, p)) for _ in range(rng.randint(min(p[4], 12) // 2, min(p[4], 24)))), calls, random_input(rng, p[0]))


def cases():
    rng = random.Random(5)
    listed = [*instruction_cases(rng), *short_cases(), *arithmetic_cases(), *division_cases(), *input_cases(), *output_cases(), *list_cases(), *stack_cases()]
    listed += [*look_cases(), *parameter_cases(), *length_cases(), *image_cases(), *record_cases(), *cycle_cases()]
    return listed + [random_case(rng) for _ in range(12)]
