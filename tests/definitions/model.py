"""The TAK machine, written from documents 003, 01 and 02 and not from the definitions of crates/model/specs, which are compared with it."""

NAMES = (
    "CLEAR_REG CLEAR_DATA_MEM DUMP_REG DUMP_DATA_MEM IN OUT MOV SET PUSH POP SETT SETF NOT AND OR XOR NAND NOR NEG ABS ADD SUB MUL DIV MOD"
    " INC DEC CMPEQ CMPNEQ CMPLT CMPGT CMPLE CMPGE JMP JMPT JMPF JMPEQ JMPNEQ JMPLT JMPGT JMPLE JMPGE SKIP NOP RNOT RAND ROR RXOR RNAND RNOR"
    " RSL ASL RSR ASR DIVR"
).split()
REGISTER, SPECIAL, DIRECT, NUMBER = "register", "special", "direct", "number"
SPECIALS = {"IAR": 256, "IRCR": 257, "SHR": 258}
FIELDS = "k n s b t iar ircr shr place granted spent deepest".split()
DIGITS = b"0123456789"
BLANKS = b" \t\r\n"


def places(name):
    """The addressing modes of each argument, as 003 lists them; special registers wherever a register is only read."""
    written, read = {REGISTER}, {REGISTER, SPECIAL}
    if name in ("CLEAR_REG", "CLEAR_DATA_MEM", "DUMP_REG", "DUMP_DATA_MEM", "SKIP", "NOP"):
        return []
    if name in ("IN", "POP"):
        return [written | {DIRECT}]
    if name in ("OUT", "PUSH"):
        return [read | {DIRECT}]
    if name == "MOV":
        return [read | {DIRECT}, written | {DIRECT}]
    if name == "SET":
        return [written | {DIRECT}, {NUMBER}]
    if name in ("SETT", "SETF", "RSL", "ASL", "RSR", "ASR"):
        return [written]
    if name in ("NOT", "NEG", "ABS", "RNOT"):
        return [read, written]
    if name in ("INC", "DEC"):
        return [written, {NUMBER}]
    if name.startswith("JMP"):
        compared = {"JMP": 0, "JMPT": 1, "JMPF": 1}.get(name, 2)
        return [read | {NUMBER}] + [read] * compared
    if name == "DIVR":
        return [written, read, written]
    return [read, read, written]


PRICES = {
    1: "SETT SETF NOT NEG ABS RNOT RSL ASL RSR ASR NOP",
    2: "AND OR XOR NAND NOR RAND ROR RXOR RNAND RNOR",
    3: "CMPEQ CMPNEQ CMPLT CMPGT CMPLE CMPGE",
    4: "ADD SUB JMP SKIP",
    6: "JMPT JMPF JMPEQ JMPNEQ",
    7: "JMPLT JMPGT",
    9: "JMPLE JMPGE",
    10: "MUL",
    14: "INC DEC",
    30: "DIV MOD",
    31: "DIVR",
}
BY_MODE = {"IN": (51, 55), "OUT": (51, 55), "SET": (11, 16), "PUSH": (8, 12), "POP": (8, 12), "MOV": (2, 6, 10)}


def price(cell, registers, cells):
    name, arguments = cell
    sized = {"CLEAR_REG": registers, "CLEAR_DATA_MEM": 5 * cells, "DUMP_REG": 51 * registers, "DUMP_DATA_MEM": 51 * cells}
    if name in sized:
        return sized[name]
    if name in BY_MODE:
        return BY_MODE[name][[kind for kind, _ in arguments].count(DIRECT)]
    return next(p for p, names in PRICES.items() if name in names.split())


def parameter_refusal(k, n, s, b, t):
    if not 8 <= k <= 30:
        return 1
    if not 1 <= n <= 256:
        return 2
    if not (1 <= s <= 4096 and s <= 2 ** (k - 1) - 1):
        return 3
    if not 0 <= b <= s:
        return 4
    if not (1 <= t <= 4096 and t <= 2 ** (k - 1) - 1):
        return 5
    return 0


def upper(word):
    return bytes(c - 32 if 97 <= c <= 122 else c for c in word)


def digits_only(word):
    return len(word) > 0 and all(c in DIGITS for c in word)


def read_number(word):
    """None where the word is no number."""
    sign, rest = (word[:1], word[1:]) if word[:1] in (b"+", b"-") else (b"", word)
    if not digits_only(rest):
        return None
    return -int(rest) if sign == b"-" else int(rest)


def read_argument(word):
    capitals = upper(word)
    for name, number in SPECIALS.items():
        if capitals == name.encode():
            return (SPECIAL, number)
    for prefix, kind in ((b"R", REGISTER), (b"DM", DIRECT)):
        if capitals.startswith(prefix):
            rest = capitals[len(prefix) :]
            return (kind, int(rest)) if digits_only(rest) else None
    value = read_number(word)
    return None if value is None else (NUMBER, value)


def read_line(parameters, line):
    """(name, arguments), or the number of the fault."""
    k, n, _, b, _ = parameters
    for mark in b"/#;":
        line = line.split(bytes([mark]))[0]
    for separator in b"\t\r,":
        line = line.replace(bytes([separator]), b" ")
    words = [w for w in line.split(b" ") if w]
    if not words:
        return ("NOP", [])
    name = upper(words[0]).decode("latin-1")
    if name not in NAMES:
        return 11
    if len(words) - 1 != len(places(name)):
        return 12
    arguments = []
    for word, place in zip(words[1:], places(name)):
        argument = read_argument(word)
        if argument is None or argument[0] not in place:
            return 13
        kind, value = argument
        outside = {REGISTER: value >= n, DIRECT: value >= b, NUMBER: not -(2 ** (k - 1)) <= value < 2 ** (k - 1), SPECIAL: False}
        if outside[kind]:
            return 14
        arguments.append(argument)
    if name == "DIVR" and arguments[0] == arguments[2]:
        return 19
    return (name, arguments)


def cell_words(cell):
    name, arguments = cell
    kinds = {REGISTER: 1, SPECIAL: 1, DIRECT: 2, NUMBER: 3}
    words = [NAMES.index(name) + 1] + [kinds[kind] * 2**30 + value % 2**30 for kind, value in arguments]
    return words + [0] * (4 - len(words))


def load(parameters, text, old):
    """(refusal, lines, index), image."""
    cells = parameters[4]
    refusal = parameter_refusal(*parameters)
    if refusal:
        return (refusal, 0, 0), old
    if len(old) != 4 * cells:
        return (6, 0, 0), old
    if len(text) > 65536:
        return (7, 0, 0), old
    lines = text.split(b"\n")
    if lines[-1] == b"":
        lines.pop()
    if len(lines) > cells:
        return (8, 0, 0), old
    image = []
    for index, line in enumerate(lines):
        cell = read_line(parameters, line)
        if isinstance(cell, int):
            return (cell, 0, index), old
        image += cell_words(cell)
    return (0, len(lines), 0), image + [0] * (4 * cells - len(image))


def decode(parameters, words):
    """The instruction of four words; None if empty, False if no line yields them: a line is spelled and read back."""
    if words == [0, 0, 0, 0]:
        return None
    if not 1 <= words[0] <= len(NAMES):
        return False
    spelled = [NAMES[words[0] - 1]]
    for word in words[1 : 1 + len(places(spelled[0]))]:
        kind, content = divmod(word, 2**30)
        if kind not in (1, 2, 3):
            return False
        names = {number: name for name, number in SPECIALS.items()}
        number = content if content < 2**29 else content - 2**30
        spelled.append({1: names.get(content, "R%d" % content), 2: "DM%d" % content, 3: "%d" % number}[kind])
    cell = read_line(parameters, " ".join(spelled).encode())
    return cell if not isinstance(cell, int) and cell_words(cell) == words else False


def image_fits(parameters, image):
    cells = [decode(parameters, image[i : i + 4]) for i in range(0, len(image), 4)]
    full = len(cells)
    while full and cells[full - 1] is None:
        full -= 1
    return all(cells[:full])


def start_refusal(parameters, image, registers, data):
    _, n, s, _, t = parameters
    refusal = parameter_refusal(*parameters)
    if refusal:
        return refusal
    if len(image) != 4 * t:
        return 6
    if len(registers) != n or len(data) != s:
        return 9
    return 0 if image_fits(parameters, image) else 10


def fresh_record(parameters):
    """All 0 but SHR and the greatest SHR reached since start, which are B-1."""
    below = parameters[3] - 1
    return {**dict.fromkeys(FIELDS, 0), **dict(zip("knsbt", parameters)), "shr": below, "deepest": below}


class Failure(Exception):
    """A step's return code other than 0."""


class Machine:
    """The state of a run, changed by steps; a failing step changes IRCR alone."""

    def __init__(self, parameters, text, record, registers, data):
        self.k, self.n, self.s, self.b, self.t = parameters
        self.text = text
        self.iar, self.ircr, self.shr, self.place = record["iar"], record["ircr"], record["shr"], record["place"]
        self.registers, self.data = list(registers), list(data)
        self.out = []

    def value(self, argument):
        kind, v = argument
        if kind == NUMBER:
            return v
        if kind == DIRECT:
            return self.data[v]
        if kind == REGISTER:
            return self.registers[v]
        return {256: self.iar, 257: self.ircr, 258: self.shr}[v]

    def put(self, argument, v):
        (self.registers if argument[0] == REGISTER else self.data)[argument[1]] = v

    def in_range(self, v):
        if not -(2 ** (self.k - 1)) <= v < 2 ** (self.k - 1):
            raise Failure(1)
        return v

    def signed(self, bits):
        bits %= 2**self.k
        return bits if bits < 2 ** (self.k - 1) else bits - 2**self.k

    def target(self, v):
        if not 0 <= v < self.t:
            raise Failure(1)
        return v

    def step(self, cell):
        try:
            self.iar = self.run(*cell)
            self.ircr = 0
        except Failure as failure:
            self.ircr = failure.args[0]

    def read_input(self):
        first = self.place
        while first < len(self.text) and self.text[first] in BLANKS:
            first += 1
        last = first
        while last < len(self.text) and self.text[last] not in BLANKS:
            last += 1
        if first == last:
            raise Failure(3)
        number = read_number(self.text[first:last])
        if number is None:
            raise Failure(1)
        if not -(2 ** (self.k - 1)) <= number < 2 ** (self.k - 1):
            raise Failure(2)
        self.place = last
        return number

    def run(self, name, args):
        """The next IAR, or Failure before anything has changed."""
        follow = self.iar + 1
        values = [self.value(a) for a in args]
        if name == "CLEAR_REG":
            self.registers = [0] * self.n
        elif name == "CLEAR_DATA_MEM":
            self.data = [0] * self.s
        elif name == "DUMP_REG":
            self.out += self.registers
        elif name == "DUMP_DATA_MEM":
            self.out += self.data
        elif name == "IN":
            self.put(args[0], self.read_input())
        elif name == "OUT":
            self.out.append(values[0])
        elif name == "PUSH":
            if self.shr + 1 == self.s:
                raise Failure(1)
            self.shr += 1
            self.data[self.shr] = self.value(args[0])
        elif name == "POP":
            if self.shr == self.b - 1:
                raise Failure(1)
            self.put(args[0], self.data[self.shr])
            self.shr -= 1
        elif name == "SKIP":
            return self.target(self.iar + 2)
        elif name == "NOP":
            pass
        elif name == "DIVR":
            quotient, remainder = self.result("DIV", values), self.result("MOD", values)
            self.put(args[2], quotient)
            self.put(args[0], remainder)
        elif name.startswith("JMP"):
            return self.target(values[0]) if self.taken(name, values) else follow
        else:
            self.put(self.written(name, args), self.result(name, values))
        return follow

    def written(self, name, args):
        return args[0] if name in ("SET", "SETT", "SETF", "INC", "DEC", "RSL", "ASL", "RSR", "ASR") else args[-1]

    def taken(self, name, values):
        if name == "JMP":
            return True
        if name in ("JMPT", "JMPF"):
            if values[1] not in (0, -1):
                raise Failure(2)
            return values[1] == (-1 if name == "JMPT" else 0)
        return self.compares(name[3:], values[1], values[2])

    def compares(self, name, x, y):
        return {"EQ": x == y, "NEQ": x != y, "LT": x < y, "GT": x > y, "LE": x <= y, "GE": x >= y}[name]

    def result(self, name, values):
        x, y = (values + [0, 0])[:2]
        if name in ("MOV", "SET"):
            return x if name == "MOV" else y
        if name in ("SETT", "SETF"):
            return -1 if name == "SETT" else 0
        if name.startswith("CMP"):
            return -1 if self.compares(name[3:], x, y) else 0
        if name in ("NOT", "AND", "OR", "XOR", "NAND", "NOR"):
            if x not in (0, -1) or (name != "NOT" and y not in (0, -1)):
                raise Failure(1)
        if name in ("DIV", "MOD"):
            if y == 0:
                raise Failure(2)
            quotient = abs(x) // abs(y) * (1 if (x < 0) == (y < 0) else -1)
            return self.in_range(quotient if name == "DIV" else x - quotient * y)
        # Python's integers are two's complement of any width, so on values of K bits their bit operations are those on K bits
        exact = {
            "NOT": ~x, "AND": x & y, "OR": x | y, "XOR": x ^ y, "NAND": ~(x & y), "NOR": ~(x | y),
            "RNOT": ~x, "RAND": x & y, "ROR": x | y, "RXOR": x ^ y, "RNAND": ~(x & y), "RNOR": ~(x | y),
            "NEG": -x, "ABS": abs(x), "ADD": x + y, "SUB": x - y, "MUL": x * y, "INC": x + y, "DEC": x - y,
            "RSL": self.signed(2 * x), "ASL": self.signed(2 * x), "RSR": self.signed(x % 2**self.k // 2), "ASR": x >> 1,
        }
        return self.in_range(exact[name])


def grant_refusal(record, image, text, registers, data, cycles):
    parameters = tuple(record[f] for f in "knsbt")
    k, _, s, b, t = parameters
    refusal = start_refusal(parameters, image, registers, data)
    if refusal:
        return refusal
    fits = (
        record["iar"] <= t
        and record["ircr"] <= 3
        and b - 1 <= record["shr"] <= s - 1
        and record["shr"] <= record["deepest"] <= s - 1
        and record["spent"] <= record["granted"] <= 10**15
        and record["place"] <= len(text)
        and all(-(2 ** (k - 1)) <= v < 2 ** (k - 1) for v in registers + data)
    )
    if not fits:
        return 15
    if len(text) > 65536:
        return 16
    return 17 if cycles > 10**9 or record["granted"] + cycles > 10**15 else 0


def grant(record, image, text, registers, data, cycles, out):
    """(refusal or ending, record, values, cycles, registers, data, out)."""
    refusal = grant_refusal(record, image, text, registers, data, cycles)
    if refusal:
        return refusal, record, 0, 0, registers, data, out
    parameters = tuple(record[f] for f in "knsbt")
    machine = Machine(parameters, text, record, registers, data)
    granted, spent, deepest = record["granted"] + cycles, record["spent"], record["deepest"]
    while True:
        cell = decode(parameters, image[4 * machine.iar : 4 * machine.iar + 4]) if machine.iar < machine.t else None
        if machine.ircr:
            ending = "Failed"
            break
        if cell is None:
            ending = "Ended"
            break
        cost = price(cell, machine.n, machine.s)
        if granted - spent < cost:
            ending = "Paused"
            break
        values = {"OUT": 1, "DUMP_REG": machine.n, "DUMP_DATA_MEM": machine.s}.get(cell[0], 0)
        if len(out) - len(machine.out) < values:
            ending = "OutputFull"
            break
        machine.step(cell)
        spent += cost
        deepest = max(deepest, machine.shr)
    state = {"iar": machine.iar, "ircr": machine.ircr, "shr": machine.shr, "place": machine.place}
    after = {**record, **state, "granted": granted, "spent": spent, "deepest": deepest}
    wrote = machine.out
    return ending, after, len(wrote), spent - record["spent"], machine.registers, machine.data, wrote + out[len(wrote) :]


def write_decimal(value, old):
    """(refusal, count), bytes."""
    if len(old) < 11:
        return (18, 0), old
    spelled = list(b"%d" % value)
    return (0, len(spelled)), spelled + old[len(spelled) :]
