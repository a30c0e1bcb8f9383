"""Cases of load, the decoder, the prices and the image check."""
import random

from cases import IMAGE, TOP, accepted, case, inside, limit, outside, word
from model import DIRECT, NAMES, NUMBER, REGISTER, SPECIAL, places

FORMS = (REGISTER, SPECIAL, DIRECT, NUMBER)
NARROW = (8, 3, 5, 2, 1)
PATTERNS = sorted({tuple(map(tuple, map(sorted, places(name)))): name for name in NAMES}.values())  # one instruction for each list of places
ODD_WORDS = b"R DM X1 DMR0 RR0 R-1 DM+1 R1. R0x1 1a + -- +-1 1- 1_0 1e1 IARX SHR0 R0\x10 \xff \x00 R0\x00 \x0b1 R\xb2 [ IAR\x7f".split(b" ")
ODD_NAMES = (
    b"_ -1 R0 NOP\x00 \xffNOP NO\xd0 CLEAR-REG CLEAR_REGS CLEAR_RE CLEAR\x7fREG DUMP_DATA_MEN CLEAR ADDD AD JMPX JMPEQQ CMP CMPLTE MOVE I jMP\x10 NOP:"
).split(b" ")
# Each is a text by itself, with K = 8, N = 3, B = 2 and T = 4.
SPELLINGS = (
    b"", b"\n\n", b"\n\n\n\n", b"\n\n\n\n\n", b" \t\r,\n", b"NOP\nNOP\nNOP\nNOP\n", b"NOP\nNOP\nNOP\nNOP\n ", b"X\nNOP\nNOP\nNOP\nNOP", b"NOP\nNOP\nNOP\nX\n",
    b"IN R3\nX", b"IN 1\nX", b"IN\nIN R3", b"SET R0 13\r\nSET R1 -10\r\nDIV R0 R1 R1\r\nOUT R1\r\n", b"Set r2 -0\nsEt dM1 +0\nset Dm0,1", b",SET,,R0,\t,13,,",
    b"mov iar r0\nmov Ircr r1\nmov sHR dm1", b"MOV R0 IRCR", b"MOV R256 R0", b"MOV R258 R0", b"POP SHR", b"OUT IAR\nPUSH SHR",
    b"SET R" + b"0" * 300 + b" -" + b"0" * 300 + b"128", b"SET R0 " + b"9" * 90, b"SET R" + b"9" * 90 + b" 1", b"SET R0 4294967296", b"SET R0 18446744073709551616",
    b"SET R4294967296 1", b"SET DM18446744073709551616 1", b"SET R0 1073741824", b"SET R0 -1073741824", b"SET R0 127\nSET R0 -128\nSET R0 +127\nSET R0 -0", b"SET R0 +128",
    b"SET R0 -129", b"NOP;", b"NOP//", b"SET R0 13# 14", b"SET R0 1/2", b"SET/R0 1", b";;\n/#\n#/\n", b"NOP ;\x00\xff\x0c,", b"NOP\\", b"NOP x", b"NOP \x0c", b"\xa0NOP",
    b"SET R0 1\x00", b"SET\x00R0 1", b"\xef\xbb\xbfNOP", b"SET R0 \xd9\xa1", b"SET X Y Z", b"SET IAR 128", b"SET R3 X", b"ADD R3 IAR IAR", b"ADD IAR IAR IAR", b"JMPEQ 128 DM0 R0",
    b"JMPEQ DM0 128 R0", b"SET R 0 1", b"SET R0 - 1", b"CLEAR_REG\nclear_data_mem\nDump_Reg\ndUMP_dATA_mEM", b"CLEAR REG",
    # DIVR with one register for both targets: what its line has before, faulty lines before and behind it, the divisor's register.
    b"DIVR R0 R1 R0", b"divr r00, R1, R000", b"DIVR R2 R2 R2", b"DIVR R1 SHR R1", b"DIVR R0 R0 R2\nDIVR R0 R2 R2\nDIVR R2 IAR R0", b"DIVR R0 R3 R0", b"DIVR R3 R0 R3",
    b"DIVR IAR R0 IAR", b"DIVR R0 DM0 R0", b"DIVR R0 R1 R0 R0", b"DIVRR R0 R1 R0", b"NOP\nNOP\nNOP\nDIVR R2 R0 R2", b"DIVR R0 R1 R0\nX", b"X\nDIVR R0 R1 R0",
    b"NOP\nDIVR R0 R1 R0\nSET R3 1", b"SET R3 1\nDIVR R0 R1 R0", b"DIVR R0 R1 R0\n\n\n\n\n",
)


def usual(name):
    """A line's arguments with the first form of each place; DIVR's targets are two registers."""
    arguments = [("R1" if REGISTER in place else "7") for place in places(name)]
    return arguments[:2] + ["R0"] if name == "DIVR" else arguments


def with_argument(name, i, argument):
    arguments = usual(name)
    arguments[i] = argument
    if name == "DIVR" and arguments[0] == arguments[2]:
        arguments[2] = "R1"
    return " ".join([name] + arguments)


def shown(p, lines):
    """Cases with so many of the lines as fit, and their images."""
    t = p[4]
    return [case(p, "\n".join(lines[i : i + t]).encode(), [IMAGE]) for i in range(0, len(lines), t)]


def accepted_cases(rng):
    """Each instruction with wide parameters; each form of each place at both ends of its limits."""
    wide, narrow = (30, 256, 4096, 4096, 18), (8, 3, 5, 2, 18)
    lines = [accepted(wide, lambda: " ".join([name] + [rng.choice(inside(wide, rng.choice(sorted(place)))) for place in places(name)])) for name in NAMES]
    forms = [(name, i, form) for name in PATTERNS for i, place in enumerate(places(name)) for form in sorted(place)]
    ends = [with_argument(name, i, argument) for name, i, form in forms for argument in inside(narrow, form)]
    return shown(wide, lines) + shown(narrow, ends)


def refused_lines(rng):
    """11, 12, 13 and 14 at each place, by each form and each limit."""
    for name in PATTERNS:
        yield " ".join([name] + usual(name) + ["X"])
        if places(name):
            yield " ".join([name] + usual(name)[1:])
        for i, place in enumerate(places(name)):
            for form in FORMS:
                for argument in outside(NARROW, form) if form in place else [rng.choice(inside(NARROW, form))]:
                    yield with_argument(name, i, argument)
    for odd in ODD_WORDS:
        yield rng.choice(("SET %s 1", "SET R0 %s", "ADD R0 R0 %s", "JMP %s", "MOV %s DM0")) % odd.decode("latin-1")
    for odd in ODD_NAMES:
        yield odd.decode("latin-1") + rng.choice(("", " R0", " 1 2", ";"))


def size_cases():
    """Image slices of other lengths, and more lines than cells: the image stays."""
    for words in (0, 7, 9):
        yield case((8, 2, 4, 2, 2), b"NOP\nX\nNOP", [IMAGE], words=words)
    yield case((8, 2, 4, 2, 2), b"NOP\nX\nNOP", [IMAGE])
    yield case((8, 2, 4, 3, 64), b"\n" * 64, [IMAGE])


def odd_words(p):
    """Kind and content of words at and behind every limit."""
    _, n, _, b, _ = p
    m = limit(p[0])
    words = [(0, 0), (0, 1), (0, 44), (0, 54), (0, 55), (0, 56), (0, TOP - 1)]
    words += [(1, c) for c in (0, n - 1, n, 255, 256, 257, 258, 259, TOP - 1)] + [(2, c) for c in (0, b - 1, b, TOP - 1)]
    return words + [(3, c) for c in (0, 10, m - 1, m, TOP - m, TOP - m - 1, TOP // 2 - 1, TOP // 2, TOP - 1)]


def damaged_cases(rng):
    """Odd words at each word of a cell, one after the other; then words in and between empty cells."""
    p = (8, 3, 5, 2, 2)
    for name in PATTERNS:
        calls = [call for i in range(4) for call in (word(i, *rng.choice(odd_words(p))), IMAGE)]
        yield case(p, " ".join([name] + usual(name)).encode(), calls)
    first, absent, head = [(1, 2), (1, 3), (2, 1), (2, 2), (0, 1), (3, TOP - 10)], [(0, 1), (1, 0), (2, 0), (3, 0)], [(0, 7), (0, 55), (0, 56), (0, 0)]
    for at, given in ((2, odd_words(p)), (1, first), (3, absent), (0, head)):
        yield case(p, b"SET R0 13", [call for odd in given for call in (word(at, *odd), IMAGE)])
    read = [call for register in (255, 256, 258, 259) for call in (word(1, 1, register), IMAGE)]
    yield case((8, 256, 4, 2, 1), b"NEG R0 R0", read + [word(1, 1, 0), word(2, 1, 256), IMAGE])
    both = [word(1, 1, 2), word(3, 1, 1), word(2, 1, 2), word(1, 1, 1), word(0, 0, 25), word(0, 0, 55), word(1, 1, 256), word(3, 1, 256), word(1, 1, 0)]
    yield case(p, b"DIVR R0 R1 R2", [IMAGE] + [call for change in both for call in (change, IMAGE)])
    yield case((8, 2, 4, 0, 3), b"NOP", [word(8, 0, 44), IMAGE, word(4, 0, 44), IMAGE, word(0, 0, 0), IMAGE])


def random_argument(rng, p, place):
    form = rng.choice(sorted(place))
    argument = rng.choice(inside(p, form))
    if rng.random() < 0.8:
        return argument
    number = "-00" + argument[1:] if argument[0] == "-" else "+0" + argument
    return {REGISTER: argument.replace("R", "R0"), SPECIAL: argument, DIRECT: argument.replace("DM", "DM00"), NUMBER: number}[form]


def random_line(rng, p):
    name = rng.choice(NAMES)
    words = [name] + [random_argument(rng, p, place) for place in places(name)]
    line = "".join(word + rng.choice((" ", " ", " ", ",", ", ", "\t", "\r")) for word in words)
    line = rng.choice(("", "", "", " ", "\t", ",")) + line + rng.choice(("", "", "", "", ";", "# 1", "/ x", "\r"))
    return rng.choice((str.upper, str.upper, str.lower, str.title))(line)


def random_case(rng):
    k, n, s = rng.choice((8, rng.randint(8, 30))), rng.choice((1, 2, 255, 256)), rng.randint(1, 127)
    p = (k, n, s, rng.randint(1, s), 8)
    return case(p, "\n".join(accepted(p, lambda: random_line(rng, p)) for _ in range(8)).encode() + rng.choice((b"", b"\n")), [IMAGE])


def cases():
    rng = random.Random(4)
    listed = accepted_cases(rng) + [case(NARROW, line.encode("latin-1"), []) for line in refused_lines(rng)]
    listed += [*size_cases(), *damaged_cases(rng), *(case((8, 3, 5, 2, 4), text, [IMAGE]) for text in SPELLINGS)]
    return listed + [random_case(rng) for _ in range(6)]
