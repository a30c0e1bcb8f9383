"""Cases of calls: how the program `replay` reads them, and what it must print, by the second machine of tests/definitions."""
import functools
import os
import sys

sys.path.insert(0, os.path.join(os.path.dirname(os.path.abspath(__file__)), "..", "definitions"))
import model
from deepest import shown
from model import DIRECT, FIELDS, NUMBER, REGISTER, SPECIAL, decode, fresh_record, grant, image_fits, load, parameter_refusal, price, read_line, start_refusal

ENDINGS = ["Failed", "Ended", "Paused", "OutputFull"]
BUFFER = 131072  # of the program; what is read stands before blanks
WORDS, REGISTERS, CELLS, ROOM = 256, 32, 64, 64  # of its arrays
MARK = 77  # in the register, data and output slices before a call
TOP = 2**30
START, IMAGE = (0, 0, 0), (6, 0, 0)
SEEN = set()  # (call, refusal), ("ending", number), (instruction, return code) and ("deepest", what it was seen to do)


def watched(step):
    """Steps that are noted with their return codes."""

    def noted(machine, cell):
        step(machine, cell)
        SEEN.add((cell[0], machine.ircr))

    return noted


def remembered(decode):
    """Decoding that keeps its answers: a case's cells are decoded in each of its calls."""
    known = functools.cache(lambda parameters, words: decode(parameters, list(words)))
    return lambda parameters, words: known(parameters, tuple(words))


model.Machine.step = watched(model.Machine.step)
model.decode = remembered(model.decode)


def limit(k):
    return 2 ** (k - 1)


def signed(value, bits):
    value %= 2**bits
    return value if value < 2 ** (bits - 1) else value - 2**bits


def allow(cycles, room=8):
    """A grant."""
    return (1, room, cycles)


def field(name, value):
    return (2, FIELDS.index(name), value)


def register(index, value):
    return (3, index, value)


def cell(index, value):
    return (4, index, value)


def word(index, kind, content):
    return (5, index, kind * TOP + content)


def case(p, text, calls, given=b"", more=0, words=None, registers=None, cells=None):
    """Parameters, lengths of the slices, text, input, how far it reaches beyond its own bytes, and calls."""
    lengths = (4 * p[4] if words is None else words, p[1] if registers is None else registers, p[2] if cells is None else cells)
    lengths = tuple(min(n, most) for n, most in zip(lengths, (WORDS, REGISTERS, CELLS)))
    return p, lengths, text, given, more, list(calls)


def inside(p, form):
    """Spellings of a form, at both ends of its limits."""
    m = limit(p[0])
    return {REGISTER: ["R0", f"R{p[1] - 1}"], SPECIAL: ["IAR", "IRCR", "SHR"], DIRECT: ["DM0", f"DM{p[3] - 1}"], NUMBER: ["0", f"{m - 1}", f"{-m}"]}[form]


def outside(p, form):
    m = limit(p[0])
    return {REGISTER: [f"R{p[1]}"], SPECIAL: [], DIRECT: [f"DM{p[3]}"], NUMBER: [f"{m}", f"{-m - 1}"]}[form]


def accepted(p, make):
    """The first line of those that `make` makes that load accepts: DIVR may get one register for both targets."""
    return next(line for line in iter(make, None) if not isinstance(read_line(p, line.encode()), int))


def cell_reply(p, words):
    decoded = decode(p, words)
    if not decoded:
        return ("-",) if decoded is None else ("!",)
    return price(decoded, p[1], p[2]), {"OUT": 1, "DUMP_REG": p[1], "DUMP_DATA_MEM": p[2]}.get(decoded[0], 0)


class State:
    """What a case's calls have left, and the lines that each call prints."""

    def __init__(self, c, tail=b""):
        self.p, (words, registers, cells), text, given, more, _ = c
        self.input = (given + tail)[: len(given) + more]
        self.loaded, self.image = load(self.p, text, [7] * words)
        SEEN.add(("load", self.loaded[0]))
        self.record = fresh_record(self.p)
        self.registers, self.data = [MARK] * registers, [MARK] * cells

    def call(self, call):
        kind, index, value = call
        if kind == 0:
            return self.start()
        if kind == 1:
            return self.grant(index, value)
        if kind == 6:
            return self.show()
        if kind == 2:
            name = FIELDS[index]
            self.record = {**self.record, name: signed(value, 64) if name in ("shr", "deepest") else value % 2 ** (64 if index > 7 else 32)}
            return []
        slots = {3: self.registers, 4: self.data}.get(kind, self.image)
        if index < len(slots):
            slots[index] = value % 2**32 if slots is self.image else signed(value, 32)
        return []

    def start(self):
        refusal = start_refusal(self.p, self.image, self.registers, self.data)
        SEEN.add(("start", refusal))
        if refusal:
            self.record = dict.fromkeys(FIELDS, 0)
        else:
            self.record, self.registers, self.data = fresh_record(self.p), [0] * len(self.registers), [0] * len(self.data)
        return [(refusal, *self.record.values()), self.registers, self.data]

    def grant(self, room, cycles):
        done = grant(self.record, self.image, self.input, self.registers, self.data, cycles % 2**64, [MARK] * min(room, ROOM))
        outcome, after, values, spent, registers, data, out = done
        SEEN.update(("deepest", what) for what in shown(self.image, self.record, outcome, after))
        self.record = after
        self.registers, self.data = list(registers), list(data)
        number = [outcome, 0] if isinstance(outcome, int) else [0, ENDINGS.index(outcome) + 1]
        SEEN.update({("grant", number[0]), ("ending", number[1])})
        return [(*number, *self.record.values(), values, spent), self.registers, self.data, out]

    def show(self):
        lines = [[part for word in self.image for part in divmod(word, TOP)]]
        if parameter_refusal(*self.p) == 0 and len(self.image) == 4 * self.p[4]:
            lines.append([part for i in range(0, len(self.image), 4) for part in cell_reply(self.p, self.image[i : i + 4])])
            lines.append([int(image_fits(self.p, self.image))])
        return lines


def spelled(c):
    """What stands before a case's calls, and the calls: the changes stand on the line of the call behind them."""
    p, lengths, text, given, more, calls = c
    header = "calls " + " ".join(map(str, (*p, *lengths, len(text), len(given), more, len(calls)))) + "\n"
    return header.encode() + text + given + b"\n", "".join("%d %d %d" % call + (" " if 2 <= call[0] <= 5 else "\n") for call in calls).encode()


def printed(c, tail=b""):
    state = State(c, tail)
    lines = [state.loaded]
    for call in c[5]:
        lines += [tuple(line) for line in state.call(call)]
    return "".join("".join(f"{v} " for v in line) + "\n" for line in lines)
