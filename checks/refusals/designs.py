"""Designs of every kind of statement by a seed, and what damages a file."""

import random

GATES = ("AND", "OR", "XOR", "NAND", "NOR", "XNOR")
UNARY = ("BUF", "NOT", "BUFZ", "BUFT")
PAIRS = ("%add", "%sub", "%mul", "%div", "%div/s", "%mod", "%and", "%or", "%xor", "%nand", "%xnor", "%blend")
LETTERS = "dhbost"


class Design:
    """A design as it is written: declarations, then threads."""

    def __init__(self, seed):
        self.rng = random.Random(seed)
        self.lines = [":vpi_time_precision - 9;", 'S_0 .scope module, "top" "top" 1 1;', " .timescale -9 -9;"]
        self.variables, self.values, self.events, self.code = [], [], [], []

    def pick(self, items):
        return self.rng.choice(items)

    def label(self, letter):
        return f"{letter}_{len(self.lines)}"

    def width(self):
        return self.pick((1, 1, 4, 8, 32, 33, 64, 100, 128))

    def variable(self, width):
        label = self.label("v")
        self.lines.append(f'{label} .var{self.pick(("", "", "/s"))} "{label}", {width - 1} 0;')
        self.variables.append((label, width))
        self.values.append((label, width))

    def port(self, width):
        fits = [label for label, w in self.values if w == width]
        if fits and self.rng.random() < 0.9:
            return self.pick(fits)
        return "C4<" + "".join(self.pick("01xz") for _ in range(width)) + ">"

    def functor(self):
        label, (source, width) = self.label("g"), self.pick(self.values)
        other = self.port(width)
        kind = self.rng.randrange(8)
        if kind == 0:
            text, width = f".cmp/{self.pick(('eq', 'ne', 'eeq', 'gt', 'ge.s'))} {width}, {source}, {other}", 1
        elif kind == 1:
            text = f".arith/{self.pick(('sum', 'sub', 'mult', 'div', 'mod.s'))} {width}, {source}, {other}"
        elif kind == 2:
            text, width = f".reduce/{self.pick(('and', 'or', 'xor', 'nor'))} {source}", 1
        elif kind == 3:
            base = self.rng.randrange(width)
            text, width = f".part {source}, {base}, {width - base}", width - base
        elif kind == 4:
            text = f".delay {width} ({self.rng.randrange(4)}, {self.rng.randrange(4)}, 1) {source}"
        elif kind == 5:
            text = f".resolv {self.pick(('tri', 'tri0', 'triand'))}, {source}, {other}"
        elif kind == 6:
            text = f".functor {self.pick(UNARY)} {width} [{self.rng.randrange(8)} 6], {source}, C4<>, C4<>, C4<>"
        else:
            text = f".functor {self.pick(GATES)} {width}, {source}, {other}, C4<>, C4<>"
        self.lines.append(f"{label} {text};")
        self.values.append((label, width))
        self.lines.append(f'n{label} .net "{label}", {width - 1} 0, {label};')

    def event(self):
        label, (source, _) = self.label("E"), self.pick(self.values)
        if self.events and self.rng.random() < 0.3:
            self.lines.append(f"{label} .event/or {', '.join(self.events[:3])};")
            return
        kind = self.pick(("posedge", "negedge", "edge", "anyedge"))
        self.lines.append(f"{label} .event {kind}, {source};")
        self.events.append(label)

    def number(self, width):
        lo, hi = self.rng.getrandbits(32), self.pick((0, 0, self.rng.getrandbits(32)))
        return f"{lo}, {hi}, {width}"

    def statement(self):
        target, width = self.pick(self.variables)
        kind = self.rng.randrange(7)
        if kind == 0:
            shown = self.pick(self.values)[0]
            spec = f"%{self.pick(('', '0', '7'))}{self.pick(LETTERS)}"
            task = self.pick(("$display", "$display", "$write", "$strobe", "$monitor"))
            return [f'%vpi_call 1 1 "{task}", "{spec} %0t\\n", {shown}, $time {{0 0 0}}']
        if kind == 1:
            return [f"%delay {self.rng.randrange(5)}, 0"]
        if kind == 2 and self.events:
            return [f"%wait {self.pick(self.events)}"]
        if kind == 3:
            return [f"%pushi/vec4 {self.number(width)}", f"%assign/vec4 {target}, {self.rng.randrange(300)}"]
        if kind == 4:
            return [f"%pushi/vec4 {self.number(width)}", f"%force/vec4 {target}", f"%release/reg {target}, 0, {width}"]
        if kind == 5:
            other = self.port(width)
            load = f"%load/vec4 {other}" if not other.startswith("C4") else f"%pushi/vec4 {self.number(width)}"
            return [f"%load/vec4 {target}", load, self.pick(PAIRS), f"%store/vec4 {target}, 0, {width}"]
        return [f"%pushi/vec4 {self.number(width)}", f"%store/vec4 {target}, 0, {width}"]

    def thread(self):
        label = self.label("T")
        self.lines.append(f"{label} ;")
        for _ in range(self.rng.randrange(3, 12)):
            self.lines += [f" {op};" for op in self.statement()]
        self.lines.append(f" %jmp {label};" if self.rng.random() < 0.5 else " %end;")
        self.lines.append(f" .thread {label};")

    def whole(self):
        for width in {self.width() for _ in range(4)}:
            self.variable(width)
            self.variable(width)
        for _ in range(self.rng.randrange(2, 10)):
            self.functor()
        for _ in range(self.rng.randrange(3)):
            self.event()
        self.lines += ["T_d ;", ' %vpi_call 1 1 "$dumpvars" {0 0 0};', " %delay 40, 0;", ' %vpi_call 1 1 "$finish" {0 0 0};', " %end;", " .thread T_d;"]
        for _ in range(self.rng.randrange(1, 5)):
            self.thread()
        return "".join(line + "\n" for line in self.lines).encode()


def design(seed):
    """A file of which each statement is spelled and linked, the same one for the same seed."""
    return Design(seed).whole()


def flip(rng, data):
    at = rng.randrange(len(data))
    data[at] ^= 1 << rng.randrange(8)


def overwrite(rng, data):
    data[rng.randrange(len(data))] = rng.choice(b'0123456789;"%.,<>{}xz_ \n')


def cut(rng, data):
    at = rng.randrange(len(data))
    del data[at : at + rng.choice((1, 2, 10, 100))]


def cut_end(rng, data):
    del data[rng.randrange(len(data)) :]


def double(rng, data):
    at = rng.randrange(len(data))
    data[at:at] = data[at : at + rng.choice((1, 2, 10, 100))]


def number(rng, data):
    at = rng.randrange(len(data))
    while at < len(data) and not 48 <= data[at] < 58:
        at += 1
    data[at : at + 1] = rng.choice((b"0", b"127", b"128", b"129", b"4294967295", b"4294967296", b"18446744073709551615", b"18446744073709551616"))


def statements(rng, data):
    """Doubles, drops or exchanges statements."""
    lines = bytes(data).splitlines(keepends=True)
    one, other = rng.randrange(len(lines)), rng.randrange(len(lines))
    how = rng.randrange(3)
    if how == 0:
        lines.insert(other, lines[one])
    elif how == 1:
        del lines[one]
    else:
        lines[one], lines[other] = lines[other], lines[one]
    data[:] = b"".join(lines)


DAMAGE = (flip, overwrite, cut, cut_end, double, number, statements, statements, statements, number)


def damaged(rng, data):
    """A file with one to four damages."""
    data = bytearray(data)
    for _ in range(rng.randrange(1, 5)):
        if data:
            rng.choice(DAMAGE)(rng, data)
    return bytes(data)


WORDS = (
    ".scope .var .net .functor .event .event/or .thread .resolv .part .concat .array .timescale module posedge AND tri S_0 v_0 T_0 E_0 "
    '%jmp %end %delay %wait %fork %join %add %pushi/vec4 %store/vec4 %load/vec4 %vpi_call "$display" "%d" $time C4<01xz> C4<> 4\'b01 '
    "0 1 2 7 31 128 4294967295 - , , , ; ; ; { } [ ] ( ) < > & * + ="
).split()


def soup(rng):
    """A text of words of the profile, in any order."""
    return "".join(rng.choice(WORDS) + rng.choice((" ", " ", "\n", "")) for _ in range(rng.randrange(200))).encode()


def noise(rng):
    """Bytes, all alike or all that print."""
    count = rng.choice((rng.randrange(20), rng.randrange(4000)))
    return rng.randbytes(count) if rng.random() < 0.5 else bytes(rng.randrange(32, 127) for _ in range(count))
