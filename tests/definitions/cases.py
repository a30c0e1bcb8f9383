"""cases.py SEED COUNT SPECS: an antt module that states, for random calls, that the definitions give what model.py gives."""

import pathlib
import random
import re
import sys

from deepest import SHOWN, shown
from model import (
    DIRECT, FIELDS, NAMES, NUMBER, REGISTER, SPECIAL, fresh_record, grant, load, places, price, read_line, start_refusal, write_decimal,
)

ENDINGS = ["Failed", "Ended", "Paused", "OutputFull"]
ODD_ARGUMENTS = "R DM R-1 R+1 X1 D1 1a + - R256 R258 RR0 12- iarx \x80".split()
OFTEN = "SET SET SET OUT OUT PUSH POP IN ADD SUB JMPLT JMPNEQ INC DEC MOV RSR ASR RSL DIV MOD DIVR MUL DUMP_REG".split()
SEEN = set()  # of SHOWN
# DIVR with each kind of divisor, its own arguments among them; with B = 0 and an empty stack SHR is -1.
DIVISIONS = ("DIVR R0 R1 R2", "DIVR R0 R0 R1", "DIVR R0 R1 R1", "DIVR R0 SHR R1", "DIVR R0 IRCR R1", "DIVR R0 IAR R1")
# Each is a text by itself: 19, what comes before it in its line, and other faulty lines before and behind it.
TARGETS = (
    "DIVR R0 R1 R0", "DIVR r00 R1 R0", "DIVR R0 R0 R0", "DIVR R2 SHR R02", "DIVR R0 R9 R0", "DIVR R9 R0 R9", "DIVR IAR R0 IAR", "DIVR R0 DM0 R0", "DIVR R0 R1 R0 R0",
    "DIVR R0 R0 R1", "DIVR R0 R1 R1", "NOP\nDIVR R0 R1 R0\nFOO", "NOP\nDIVR R0 R9 R1\nDIVR R0 R1 R0", "DIVR R0 R1 R2\nDIVR R1 R0 R1\nDIVR R2 R0 R2",
)

rnd = random.Random(int(sys.argv[1]))


def chance(p):
    return rnd.random() < p


# What antt reads.
def integer(x):
    return "pos %d" % x if x >= 0 else "negsuc %d" % (-x - 1)


def integers(xs):
    return "(" + "".join(integer(x) + " ∷ " for x in xs) + "[])"


def naturals(xs):
    return "(" + "".join("%d ∷ " % x for x in xs) + "[])"


def parameters_term(p):
    return "record { k = %d; n = %d; s = %d; b = %d; t = %d }" % tuple(p)


def record_term(r):
    rest = "; ".join("%s = %s" % (f, integer(r[f]) if f in ("shr", "deepest") else r[f]) for f in FIELDS[5:])
    return "record { parameters = %s; %s }" % (parameters_term([r[f] for f in "knsbt"]), rest)


# Random calls.
def random_parameters():
    k, n, s, t = rnd.choice([8, 8, 8, 9, 12, 30]), rnd.randint(1, 4), rnd.randint(1, 5), rnd.randint(1, 12)
    b = rnd.randint(0, s)
    k = rnd.choice([0, 7, 31]) if chance(0.03) else k
    n = rnd.choice([0, 256, 257]) if chance(0.02) else n
    s = rnd.choice([0, 127, 128, 4097]) if chance(0.02) else s
    b = s + 1 if chance(0.02) else b
    t = rnd.choice([0, 128, 4097]) if chance(0.02) else t
    return k, n, s, b, t


def spelled(v):
    digits = "0" * (rnd.randint(1, 3) if chance(0.1) else 0) + str(abs(v))
    return ("-" if v < 0 or (v == 0 and chance(0.1)) else "+" if chance(0.1) else "") + digits


def random_number(p):
    m = 2 ** (max(p[0], 1) - 1)
    near = [0, 1, -1, 2, -2, m - 1, -m, m // 2, -m // 2]
    return rnd.choice(near + [rnd.randint(-m, m - 1), rnd.randint(-20, 20), m if chance(0.3) else 3, -m - 1 if chance(0.3) else 4])


def random_argument(p, place):
    if chance(0.02):
        return rnd.choice(ODD_ARGUMENTS)
    form = rnd.choice(sorted(place) if chance(0.98) else [REGISTER, SPECIAL, DIRECT, NUMBER])
    if form == REGISTER:
        return "R" + ("0" if chance(0.1) else "") + str(rnd.randrange(max(p[1], 1)) if chance(0.98) else p[1])
    if form == SPECIAL:
        return rnd.choice(["IAR", "IRCR", "SHR", "iar", "Shr"])
    if form == DIRECT:
        return "DM" + str(rnd.randrange(max(p[3], 1)) if chance(0.98) else p[3])
    return spelled(rnd.randrange(p[4] + 1)) if chance(0.4) else spelled(random_number(p))


def random_line(p, name):
    words = [name] + [random_argument(p, place) for place in places(name)]
    words = words + ["R0"] if chance(0.01) else words[:-1] if chance(0.02) else words
    if chance(0.01):
        words[:1] = ["FOO"]
    line = "".join((rnd.choice([" ", ", ", "\t", ",", " \r"]) if i else rnd.choice(["", " "])) + w for i, w in enumerate(words))
    line = line.lower() if chance(0.2) else line
    return line + rnd.choice(["#x", " // c", "; R0", " ,", "\r"]) if chance(0.1) else line


def random_text(p, name):
    """A program of many instructions, or of one, repeated: every instruction has its turn."""
    count = rnd.randint(1, min(p[4], 12) + (1 if chance(0.03) else 0)) if p[4] else 1
    count = 0 if chance(0.02) else count
    names = [name] * count if chance(0.5) else [rnd.choice(NAMES if chance(0.6) else OFTEN) for _ in range(count)]
    lines = [random_line(p, name).encode("latin-1") for name in names]
    if chance(0.9):
        lines = [line if not isinstance(read_line(p, line), int) else mended(p, name) for line, name in zip(lines, names)]
    return b"\n".join(lines) + (b"\n" if chance(0.3) else b"")


def mended(p, name):
    """A right line of this instruction, or an empty one."""
    for _ in range(20):
        line = random_line(p, name).encode("latin-1")
        if not isinstance(read_line(p, line), int):
            return line
    return b""


def random_input():
    words = [spelled(rnd.randint(-130, 130)) if chance(0.8) else rnd.choice(["1x", "+", "9" * 12, "-0"]) for _ in range(rnd.randint(0, 6))]
    return "".join(rnd.choice([" ", "\n", "\t ", "\r\n"]) + w for w in words).encode()


def damaged(image):
    image = list(image)
    if image and chance(0.1):
        for _ in range(rnd.randint(1, 2)):
            i = rnd.randrange(len(image))
            image[i] = rnd.choice([image[i] ^ 2 ** rnd.randrange(32), 0, rnd.randrange(2**32), rnd.choice(image)])
    return image


def random_record(p, text):
    """The fresh record and memory, or any other."""
    k, n, s, b, t = p
    m = 2 ** (k - 1)
    record = fresh_record(p)
    registers, data = [0] * n, [0] * s
    if chance(0.7):
        granted = 10**15 - 60 if chance(0.05) else 100
        shr = rnd.randint(b - 1, s - 1)
        record.update(iar=rnd.randrange(min(t, 3)), shr=shr, place=rnd.randint(0, len(text)))
        record.update(granted=granted, spent=granted - rnd.choice([0, 50, 100]), deepest=rnd.randint(shr, s - 1))
        registers, data = [random_value(m) for _ in registers], [random_value(m) for _ in data]
    if chance(0.08):
        odd = [("iar", t), ("iar", t + 1), ("ircr", 1), ("ircr", 3), ("ircr", 4), ("shr", b - 2), ("shr", s), ("place", len(text) + 1)]
        odd += [("spent", record["granted"] + 1), ("deepest", record["shr"] - 1), ("deepest", s)]
        field, value = rnd.choice(odd)
        record[field] = value
    if chance(0.02):
        record["granted"] = record["spent"] = 10**15 + rnd.randint(0, 1)
    if chance(0.03):
        rnd.choice([registers, data])[0] = rnd.choice([m, -m - 1])
    return record, registers, data


def random_value(m):
    return rnd.choice([0, -1, 0, -1, 1, m - 1, -m, rnd.randint(-m, m - 1), rnd.randint(-m, m - 1), rnd.randint(-9, 9)])


def flat(record):
    return [record[f] for f in FIELDS]


def call_start(p, image):
    registers, data = [rnd.randint(-9, 9)] * (p[1] + chance(0.03)), [rnd.randint(-9, 9)] * (p[2] + chance(0.03))
    refusal = start_refusal(p, image, registers, data)
    left = flat(fresh_record(p)) + [0] * (p[1] + p[2])
    said = [refusal] + ([0] * len(FIELDS) + registers + data if refusal else left)
    return "starts (%s) %s %s %s" % (parameters_term(p), naturals(image), integers(registers), integers(data)), integers(said)


def random_cycles():
    return rnd.choice([0, 1, 5, 30, 52, 60, 150, 400, 1000, 5000]) if chance(0.97) else 10**9 + 1


def call_grants(image, text, record, registers, data, amounts):
    for cycles in amounts:
        out = [9] * rnd.choice([0, 1, 3, 6, 12])
        outcome, after, values, spent, registers2, data2, out2 = grant(record, image, text, registers, data, cycles, out)
        SEEN.update(shown(image, record, outcome, after))
        number = [0, outcome] if isinstance(outcome, int) else [ENDINGS.index(outcome) + 1]
        said = number + flat(after) + [values, spent] + registers2 + data2 + out2
        yield "grants %s %s (%s) %s %s %d %s" % (
            naturals(image), naturals(text), record_term(record), integers(registers), integers(data), cycles, integers(out),
        ), integers(said)
        record, registers, data = after, registers2, data2


def call_stack(turn):
    """Grants to a program of PUSH and POP; by turns, `deepest` at each side of each of its bounds and between them, and B at both of its own."""
    s, t = rnd.randint(2, 5), rnd.randint(4, 12)
    b = (0, rnd.randint(0, s), s)[turn // 5 % 3]
    p = (8, rnd.randint(1, 2), s, b, t)
    lines = [mended(p, name) for name in ["PUSH", "POP"] + rnd.choices(("PUSH", "POP"), k=t - 2)]
    image = load(p, b"\n".join(lines), [0] * (4 * t))[1]
    fresh = turn < 15
    shr = b - 1 if fresh else rnd.randint(b - 1, max(b - 1, s - 3))
    deepest = (shr - 1, shr, (shr + s) // 2, s - 1, s)[turn % 5]
    push, pop = (price(read_line(p, line), p[1], s) for line in lines[:2])
    amounts = [push + pop] if fresh else [push, pop]
    record = {**fresh_record(p), "shr": shr, "deepest": deepest}
    return call_grants(image, b"", record, [3] * p[1], [5] * s, amounts + rnd.choices((0, 8, 16, 24, 40, 60), k=2))


def call_division(at, x, y):
    """A step of DIVR on two values, with just enough cycles, and with one too few and then one more."""
    p = (8, 3, 2, 0, len(DIVISIONS))
    image = load(p, "\n".join(DIVISIONS).encode(), [0] * (4 * p[4]))[1]
    record = {**fresh_record(p), "iar": at}
    return call_grants(image, b"", record, [x, y, 77], [5] * p[2], [31] if at % 2 else [30, 1])


def call_targets(text):
    """A load, and a start and a grant over an image whose DIVR has one register for both targets."""
    p = (8, 3, 2, 1, 4)
    reply, image = load(p, text.encode(), [7] * (4 * p[4]))
    yield "loads (%s) %s %s" % (parameters_term(p), naturals(text.encode()), naturals([7] * (4 * p[4]))), integers(list(reply) + image)
    if reply[0] == 0:
        image[3] = image[1]
        yield call_start(p, image)
        yield from call_grants(image, b"", fresh_record(p), [6] * p[1], [5] * p[2], [31])


def call_decimal():
    z = rnd.choice([0, 9, 10, -1, -10, 2**31 - 1, -(2**31), rnd.randint(-(2**31), 2**31 - 1), rnd.randint(-2000, 2000)])
    old = [rnd.randrange(256) for _ in range(rnd.choice([0, 9, 10, 11, 12, 14]))]
    reply, written = write_decimal(z, old)
    return "spells (%s) %s" % (integer(z), naturals(old)), integers(list(reply) + written)


def calls(count):
    for i in range(count):
        p = random_parameters()
        text = random_text(p, NAMES[i % len(NAMES)])
        old = [7] * (4 * p[4] if p[4] < 20 and chance(0.97) else 5)
        if i % 5 == 0:
            yield call_decimal()
        reply, image = load(p, text, old)
        yield "loads (%s) %s %s" % (parameters_term(p), naturals(text), naturals(old)), integers(list(reply) + image)
        if reply[0] == 0:
            image = damaged(image)
            yield call_start(p, image)
            text = random_input()
            yield from call_grants(image, text, *random_record(p, text), [random_cycles() for _ in range(rnd.randint(1, 3))])
    for turn in range(30):
        yield from call_stack(turn)
    for at in range(len(DIVISIONS)):
        for x, y in ((13, -10), (-13, 10), (-128, -1), (0, 5), (random_value(128), 0), (random_value(128), random_value(128))):
            yield from call_division(at, x, y)
    for text in TARGETS:
        yield from call_targets(text)


HEAD = """
abbrev ending : Ending → ℕ
ending Failed = 1
ending Ended = 2
ending Paused = 3
ending OutputFull = 4

abbrev outcome : Outcome → List ℤ
outcome (Refused k) = pos 0 ∷ pos k ∷ []
outcome (Stopped e) = pos (ending e) ∷ []

flat : Record → List ℤ
flat r =
    pos r.parameters.k ∷ pos r.parameters.n ∷ pos r.parameters.s ∷ pos r.parameters.b ∷ pos r.parameters.t
    ∷ pos r.iar ∷ pos r.ircr ∷ r.shr ∷ pos r.place ∷ pos r.granted ∷ pos r.spent
    ∷ r.deepest ∷ []

loads : Parameters → List ℕ → List ℕ → List ℤ
loads p text old =
    let r = load_reply p text old in
    map pos (((load_numbers r).refusal ∷ (load_numbers r).lines ∷ (load_numbers r).line ∷ []) ++ image_after p text old r)

starts : Parameters → List ℕ → List ℤ → List ℤ → List ℤ
starts p image registers cells =
    let x = started (environment_of p image []) (as_memory registers cells) in
    (pos x.reply.refusal ∷ flat x.reply.rec) ++ x.memory.registers ++ x.memory.cells

spells : ℤ → List ℕ → List ℤ
spells z old = let x = spelled z old in map pos ((x.reply.refusal ∷ x.reply.count ∷ []) ++ x.bytes)

grants : List ℕ → List ℕ → Record → List ℤ → List ℤ → ℕ → List ℤ → List ℤ
grants image input r registers cells cycles slice =
    let x = granted (environment_of r.parameters image input) (as_held r registers cells) (as_call cycles slice) in
    outcome x.reply.outcome ++ flat x.reply.rec ++ (pos x.reply.values ∷ pos x.reply.cycles ∷ [])
    ++ x.memory.registers ++ x.memory.cells ++ x.slice
"""

USES = """use Rattle.std.specs.Prelude.{ℕ, ◌≡◌, List, [], ◌∷◌, ◌++◌, map, ℤ, pos, negsuc}
use mathlib.Core.Bool.{xor}
use Rattle.std.proofs.Common.{refl}
use Rattle.model.specs.declared.Parameters.{Parameters}
use Rattle.model.specs.declared.Record.{Record}
use Rattle.model.specs.declared.Ending.{Ending}
use Rattle.model.specs.declared.Ending.TheVariants.{Failed, Ended, Paused, OutputFull}
use Rattle.model.specs.Grants.{Outcome, Refused, Stopped}
use Rattle.model.specs.Load.{image_after}
use Rattle.model.specs.Step.{environment_of, as_memory}
use Rattle.model.specs.Calls.{as_held, as_call}"""


def main():
    opened = []
    lines = [USES]
    for path in sorted(pathlib.Path(sys.argv[3]).glob("*.antt")):
        names = re.findall(r"^ *unfoldable pub (\S+) :", path.read_text(encoding="utf-8"), re.M)
        if names:
            lines.append("use Rattle.model.specs.%s.{%s}" % (path.stem, ", ".join(names)))
            opened += names
    lines.append(HEAD)
    for i, (computed, said) in enumerate(calls(int(sys.argv[2]))):
        lines.append("case%d : %s ≡ %s" % (i, computed, said))
        lines.append("unfolding flat loads starts spells grants xor %s" % " ".join(opened))
        lines.append("case%d = refl\n" % i)
    if SEEN != SHOWN:
        sys.exit("no grant shows `deepest` " + ", ".join(sorted(SHOWN - SEEN)))
    print("\n".join(lines))


main()
