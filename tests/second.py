#!/usr/bin/env python3
"""A second program for scripts and bench files, written from docs/REFERENCE.md
alone. It shares nothing with the first one.

    second.py script [--run]    reads a script on standard input
    second.py listing           reads a bench file on standard input

With --run a script also has the calls `rows N` and `run`; without it those
lines are unread, as any other line that is no call.
"""

import re
import sys

NO, LOST, YES = 0, 1, 2
WORD = ("no", "lost", "yes")

MAX_LINES = 64
MAX_ROWS = 4352
ALL_CELLS = 278_528
BENCH_CELLS = 61_440
MAX_SCRIPT = 1_048_576
MAX_BENCH = 16_384
MAX_RULE = 4_096
MAX_LEVEL = 32

CONST, NAME, NOT, AND, OR = range(5)
NEXT, UNTIL, WEAK = range(5, 8)
YESTERDAY, WEAK_YESTERDAY, SINCE, WEAK_SINCE = range(8, 12)
ONE_LINE = (NOT, NEXT, YESTERDAY, WEAK_YESTERDAY)
TWO_LINES = (AND, OR, UNTIL, WEAK, SINCE, WEAK_SINCE)
PAST = (YESTERDAY, WEAK_YESTERDAY, SINCE, WEAK_SINCE)


class Refused(Exception):
    def __init__(self, number, place=None):
        super().__init__(number, place)
        self.number = number
        self.place = place


# ---------------------------------------------------------------- recordings


class Tape:
    """A tape, or with lost masks a gapped tape."""

    def __init__(self, c, u, v, masks, lost=None):
        slices = [masks] if lost is None else [masks, lost]
        if not (1 <= c <= 32 and 0 <= u <= 256 and 1 <= v <= 64):
            raise Refused(10)
        for part in slices:
            if len(part) != u + v or any(mask >> c for mask in part):
                raise Refused(10)
        self.c, self.u, self.v = c, u, v
        self.masks, self.lost = masks, lost
        self.two_valued = lost is None

    def value(self, signal, t):
        if t >= self.u:
            t = self.u + (t - self.u) % self.v
        if self.lost is not None and self.lost[t] >> signal & 1:
            return LOST
        return YES if self.masks[t] >> signal & 1 else NO


class Wheel:
    def __init__(self, teeth, gap, start):
        if not (2 <= teeth <= 64 and 1 <= gap < teeth and start < teeth):
            raise Refused(11)
        self.teeth, self.gap, self.start = teeth, gap, start
        self.c, self.u, self.v = 2, 0, teeth
        self.two_valued = True

    def value(self, signal, t):
        tooth = (t + self.start) % self.teeth
        if signal == 0:
            return YES if tooth < self.teeth - self.gap else NO
        return YES if tooth == 0 else NO


# --------------------------------------------------------------------- sheet


def check_line(lines, code, left, right):
    """The refusals of writing (code, left, right) after these lines."""
    own = len(lines)
    if code > 11:
        raise Refused(1)
    if code == CONST:
        good = left <= 1 and right == 0
    elif code == NAME:
        good = left <= 31 and right == 0
    elif code in ONE_LINE:
        good = left < own and right == 0
    else:
        good = left < own and right < own
    if not good or left > 255 or right > 255:
        raise Refused(2)
    if own >= MAX_LINES:
        raise Refused(3)


def operands(line):
    code, left, right = line
    if code in ONE_LINE:
        return (left,)
    if code in TWO_LINES:
        return (left, right)
    return ()


def past_count(lines):
    return sum(code in PAST for code, _, _ in lines)


def judged_rows(lines, recording):
    """How many samples a judgement lists: a number of the format only, no
    evaluation below rests on it."""
    return recording.u + past_count(lines) * recording.v + recording.v


def has_signals(lines, recording):
    return all(code != NAME or left < recording.c for code, left, _ in lines)


# ---------------------------------------------------------------- evaluation
#
# Every line is evaluated on one long stretch of samples 0 to T - 1, from line 0
# upward. Past T a line is taken to repeat its last v samples for ever.
#
# Why the stretch is long enough: the result is kept only if in each line the
# last v samples equal the v samples before them; else the stretch is made
# longer. Suppose that, and take the lines upward: let the operands be right
# below T and have period v from T - 2v on.
# - A constant is right; a signal has period v from u on, and T - 2v >= u.
# - not, and, or: sample by sample of the operands, so with their period.
# - X, U, W at t speak of the operands from t on only, so they have period v from
#   T - 2v on too; below T they are right by the reasons given at `ahead`,
#   `until` and `always`.
# - Y, Z, S, B at t + 1 depend on the operands at t and t + 1 and on the line's
#   own parts at t. They are right below T. For S and B the parts (the since, and
#   the and of all left so far) are both compared over the two last cycles, so
#   the next cycle starts from where the last one did and is the same again.
# So the comparison itself shows that all is settled; no count of past lines has
# to be trusted. `cycles` is only the first guess.


def ahead(row, v):
    return row[1:] + [row[len(row) - v]]


def until(left, right, v):
    """At T - v: d from T - v to T - 1 is enough, since right at d + v is right at
    d and more of left stands before it. At T it is the same again. Below: d = t
    gives right at t; every other d has left at t, and the rest is the until at
    t + 1."""
    size = len(left)
    value, held = NO, YES
    for d in range(size - v, size):
        value = max(value, min(right[d], held))
        held = min(held, left[d])
    row = [NO] * size
    for t in range(size - 1, -1, -1):
        step = left[t] if left[t] < value else value
        value = right[t] if right[t] > step else step
        row[t] = value
    return row


def always(left, v):
    """The greatest value at most left at every sample from t: from T on that is
    the least of one cycle."""
    size = len(left)
    value = min(left[size - v:])
    row = [NO] * size
    for t in range(size - 1, -1, -1):
        if left[t] < value:
            value = left[t]
        row[t] = value
    return row


def since(left, right):
    """d = t gives right at t; every d below t has left at t, and the rest is the
    since at t - 1."""
    row = []
    value = NO
    for hold, begin in zip(left, right):
        step = hold if hold < value else value
        value = begin if begin > step else step
        row.append(value)
    return row


def so_far(left):
    row = []
    value = YES
    for hold in left:
        if hold < value:
            value = hold
        row.append(value)
    return row


def stretch(lines, recording, cycles):
    """The rows of all lines on u + cycles x v samples, or None if one of them has
    not settled there."""
    v = recording.v
    size = recording.u + cycles * v

    def settled(row):
        return row[size - v:] == row[size - 2 * v:size - v]

    table = []
    signals = {}
    for code, left, right in lines:
        if code == CONST:
            row = [YES if left else NO] * size
        elif code == NAME:
            if left not in signals:
                signals[left] = [recording.value(left, t) for t in range(size)]
            row = signals[left]
        else:
            p = table[left]
            q = table[right]
            if code == NOT:
                row = [YES - x for x in p]
            elif code == AND:
                row = list(map(min, p, q))
            elif code == OR:
                row = list(map(max, p, q))
            elif code == NEXT:
                row = ahead(p, v)
            elif code == UNTIL:
                row = until(p, q, v)
            elif code == WEAK:
                row = list(map(max, until(p, q, v), always(p, v)))
            elif code == YESTERDAY:
                row = [NO] + p[:-1]
            elif code == WEAK_YESTERDAY:
                row = [YES] + p[:-1]
            elif code == SINCE:
                row = since(p, q)
            else:
                begun, kept = since(p, q), so_far(p)
                if not (settled(begun) and settled(kept)):
                    return None
                row = list(map(max, begun, kept))
        if not settled(row):
            return None
        table.append(row)
    return table


def valuation(lines, recording, least=0):
    """table[k][t] is line k at sample t, for at least `least` samples; past its
    end every row repeats its last v values."""
    cycles = past_count(lines) + 3
    while recording.u + cycles * recording.v < least:
        cycles += 1
    while True:
        table = stretch(lines, recording, cycles)
        if table is not None:
            return table
        cycles *= 2


def judge(lines, recording, cells):
    """The verdict, the table and the number of samples to list."""
    if not has_signals(lines, recording):
        raise Refused(5)
    rows = judged_rows(lines, recording)
    if cells < len(lines) * rows:
        raise Refused(6)
    table = valuation(lines, recording, rows)
    return table[-1][0], table, rows


# ------------------------------------------------------------------- machine


class Machine:
    """gates: (kind, a, b); variables: (kind, a, b, start); pairs: (from, to).
    var_lines[j] is the line that variable j was made for."""

    def __init__(self):
        self.gates = [("const", 0, None)]
        self.variables = []
        self.pairs = []
        self.root = 0
        self.var_lines = []

    def tables(self):
        def text(*fields):
            return " ".join("-" if x is None else str(x) for x in fields)

        out = ["gate kind a b"]
        out += [text(i, *gate) for i, gate in enumerate(self.gates)]
        out.append("var kind a b start")
        out += [text(i, *variable) for i, variable in enumerate(self.variables)]
        out.append("fair from to")
        out += [text(i, *pair) for i, pair in enumerate(self.pairs)]
        out += ["root", str(self.root)]
        return out


def signs(lines):
    """The set of signs, +1 and -1, of every line."""
    found = [set() for _ in lines]
    found[-1].add(+1)
    for k in range(len(lines) - 1, -1, -1):
        for low in operands(lines[k]):
            for sign in found[k]:
                found[low].add(-sign if lines[k][0] == NOT else sign)
    return found


def translate(lines):
    machine = Machine()
    machine.gates = []
    gate_of = {}

    def gate(kind, a, b=None):
        machine.gates.append((kind, a, b))
        return len(machine.gates) - 1

    def variable(line, kind, a, b=None, start=None):
        machine.variables.append((kind, a, b, start))
        machine.var_lines.append(line)

    for k, ((code, left, right), sign) in enumerate(zip(lines, signs(lines))):
        if not sign:
            continue
        new = len(machine.variables)
        if code == CONST:
            own = gate("const", left)
        elif code == NAME:
            own = gate("sig", left)
        else:
            p = gate_of[left]
            q = gate_of[right] if code in TWO_LINES else None
            if code == NOT:
                own = gate("not", p)
            elif code == AND:
                own = gate("and", p, q)
            elif code == OR:
                own = gate("or", p, q)
            elif code == NEXT:
                own = gate("var", new)
                variable(k, "next", p)
            elif code in (UNTIL, WEAK):
                own = gate("var", new)
                variable(k, "until", p, q)
                if code == UNTIL and +1 in sign:
                    machine.pairs.append((own, q))
                if code == WEAK and -1 in sign:
                    machine.pairs.append((p, own))
            elif code in (YESTERDAY, WEAK_YESTERDAY):
                own = gate("var", new)
                variable(k, "back", p, None, 0 if code == YESTERDAY else 1)
            else:
                memory = gate("var", new)
                kept = gate("and", p, memory)
                own = gate("or", q, kept)
                variable(k, "back", own, None, 0 if code == SINCE else 1)
        gate_of[k] = own
    machine.root = gate_of[len(lines) - 1]
    return machine


# ---------------------------------------------------------------------- runs


def machine_row(machine, lines, table, t):
    """What the variables are at t if the lines have the values of the table."""
    row = 0
    for j, k in enumerate(machine.var_lines):
        if lines[k][0] in (SINCE, WEAK_SINCE):
            bit = machine.variables[j][3] if t == 0 else table[k][t - 1] == YES
        else:
            bit = table[k][t] == YES
        if bit:
            row |= 1 << j
    return row


def gates_at(machine, recording, row, t):
    values = []
    for kind, a, b in machine.gates:
        if kind == "const":
            bit = a == 1
        elif kind == "sig":
            bit = recording.value(a, t) == YES
        elif kind == "var":
            bit = row >> a & 1 == 1
        elif kind == "not":
            bit = not values[a]
        elif kind == "and":
            bit = values[a] and values[b]
        else:
            bit = values[a] or values[b]
        values.append(bit)
    return values


def accepts(machine, recording, back, rows):
    """Walks the lasso once. Since back >= u and v divides n - back, a position
    past n - 1 has the row, the signals and so the gates and the successor of the
    one that it comes back to: to walk 0 to n - 1 is to walk them all, and the
    positions met infinitely often are back to n - 1."""
    n = len(rows)
    gates = [gates_at(machine, recording, rows[t], t) for t in range(n)]
    if not gates[0][machine.root]:
        return False
    for j, (kind, a, b, start) in enumerate(machine.variables):
        own = [row >> j & 1 == 1 for row in rows]
        if kind == "back" and own[0] != (start == 1):
            return False
        for t in range(n):
            after = t + 1 if t + 1 < n else back
            here = gates[t]
            if kind == "next":
                kept = own[t] == gates[after][a]
            elif kind == "until":
                kept = own[t] == (here[b] or (here[a] and own[after]))
            else:
                kept = own[after] == here[a]
            if not kept:
                return False
    return all(
        any(not gates[t][come] or gates[t][go] for t in range(back, n))
        for come, go in machine.pairs
    )


def check_run(machine, recording, back, rows):
    n = len(rows)
    if any(kind == "sig" and a >= recording.c for kind, a, _ in machine.gates):
        raise Refused(5)
    if n == 0 or n > MAX_ROWS or back >= n or back < recording.u:
        raise Refused(8)
    if (n - back) % recording.v != 0:
        raise Refused(8)
    if any(row >> len(machine.variables) for row in rows):
        raise Refused(9)
    return accepts(machine, recording, back, rows)


# ------------------------------------------------------------------- scripts

# call: least and greatest number of numbers after it
SHAPES = {
    b"write": (3, 3),
    b"strike": (0, 0),
    b"seal": (0, 0),
    b"reopen": (0, 0),
    b"translate": (0, 0),
    b"tape": (3, None),
    b"gapped": (3, None),
    b"wheel": (3, 3),
    b"cells": (1, 1),
    b"judge": (0, 0),
    b"check": (1, None),
}
RUN_SHAPES = {b"rows": (1, 1), b"run": (0, 0)}

ON_DRAFT = ("write", "strike", "seal")
ON_SEALED = ("reopen", "translate", "judge", "run")
NEED_RECORDING = ("judge", "check", "run")
NEED_TWO_VALUED = ("check", "run")


def number(word):
    """The number, or for one of over 40 digits some number past every type."""
    digits = word.lstrip(b"0")
    return 10**40 if len(digits) > 40 else int(digits or b"0")


class Session:
    """The state of one script. `answer` makes one call and gives its answer."""

    def __init__(self, with_run=False):
        self.shapes = {**SHAPES, **RUN_SHAPES} if with_run else SHAPES
        self.lines = []
        self.sealed = False
        self.machine = Machine()
        self.recording = None
        self.cells = ALL_CELLS
        self.rows = MAX_ROWS

    def answer(self, index, line):
        """The lines printed for the line of this number, as a list."""
        words = line.split(b" ")
        call, rest = words[0], words[1:]
        least, most = self.shapes.get(call, (None, None))
        if (
            least is None
            or len(rest) < least
            or (most is not None and len(rest) > most)
            or not all(word.isdigit() for word in rest)
        ):
            return [f"unread: {index}"]
        name = call.decode()
        if name in ON_DRAFT and self.sealed:
            return [f"{name}: not while sealed"]
        if name in ON_SEALED and not self.sealed:
            return [f"{name}: not while draft"]
        if name in NEED_RECORDING and self.recording is None:
            return [f"{name}: no recording"]
        if name in NEED_TWO_VALUED and not self.recording.two_valued:
            return [f"{name}: not two-valued"]
        try:
            first, *more = getattr(self, "do_" + name)(*map(number, rest))
        except Refused as refusal:
            return [f"{name}: refused {refusal.number}"]
        return [f"{name}:{first}", *more]

    def do_write(self, code, left, right):
        check_line(self.lines, code, left, right)
        self.lines.append((code, left, right))
        return [f" line {len(self.lines) - 1}"]

    def do_strike(self):
        if not self.lines:
            raise Refused(4)
        self.lines.pop()
        return [" done"]

    def do_seal(self):
        if not self.lines:
            raise Refused(4)
        self.sealed = True
        return [" done"]

    def do_reopen(self):
        self.sealed = False
        return [" done"]

    def do_translate(self):
        self.machine = translate(self.lines)
        return ["", *self.machine.tables()]

    def do_tape(self, c, u, v, *masks):
        self.recording = Tape(c, u, v, masks)
        return [" done"]

    def do_gapped(self, c, u, v, *numbers):
        half = (len(numbers) + 1) // 2
        self.recording = Tape(c, u, v, numbers[:half], numbers[half:])
        return [" done"]

    def do_wheel(self, teeth, gap, start):
        self.recording = Wheel(teeth, gap, start)
        return [" done"]

    def do_cells(self, count):
        self.cells = min(count, ALL_CELLS)
        return [" done"]

    def do_rows(self, count):
        self.rows = min(count, MAX_ROWS)
        return [" done"]

    def do_judge(self):
        verdict, table, rows = judge(self.lines, self.recording, self.cells)
        columns = [[WORD[x] for x in row[:rows]] for row in table]
        return [" " + WORD[verdict], *map(" ".join, zip(*columns))]

    def do_check(self, back, *rows):
        good = check_run(self.machine, self.recording, back, rows)
        return [" yes" if good else " no"]

    def do_run(self):
        if not has_signals(self.lines, self.recording):
            raise Refused(5)
        rows = judged_rows(self.lines, self.recording)
        if self.cells < len(self.lines) * rows:
            raise Refused(6)
        if self.rows < rows:
            raise Refused(7)
        verdict, table, _ = judge(self.lines, self.recording, self.cells)
        machine = translate(self.lines)
        back = rows - self.recording.v
        return [
            f" {rows} {back} {WORD[verdict]}",
            *(str(machine_row(machine, self.lines, table, t)) for t in range(rows)),
        ]


def script(data, with_run=False):
    if len(data) > MAX_SCRIPT:
        return b"unread: too long\n"
    lines = data.split(b"\n")
    if lines[-1] == b"":
        lines.pop()
    session = Session(with_run)
    out = []
    for index, line in enumerate(lines):
        out += session.answer(index, line)
    return "".join(line + "\n" for line in out).encode()


# ----------------------------------------------------------------- rule text

PREFIXES = b"!XYZFGOH"
PAIR_CODES = {
    b"&": AND,
    b"|": OR,
    b">": OR,
    b"U": UNTIL,
    b"W": WEAK,
    b"S": SINCE,
    b"B": WEAK_SINCE,
}
PREFIX_CODES = {b"!": NOT, b"X": NEXT, b"Y": YESTERDAY, b"Z": WEAK_YESTERDAY}
# the constant that is written after the unit, the code, and whether it is left
PREFIX_FORMS = {
    b"F": (1, UNTIL, True),
    b"G": (0, WEAK, False),
    b"O": (1, SINCE, True),
    b"H": (0, WEAK_SINCE, False),
}


def read_names(line):
    names = line.split(b" ")
    if not 1 <= len(names) <= 32 or len(set(names)) != len(names):
        raise Refused(18)
    if not all(re.fullmatch(rb"[a-z]{1,8}", name) for name in names):
        raise Refused(18)
    return names


class RuleReader:
    def __init__(self, text, names, lines):
        self.text, self.names, self.lines = text, names, list(lines)
        self.place = 0
        self.level = 0

    def write(self, place, code, left, right=0):
        if len(self.lines) >= MAX_LINES:
            raise Refused(3, place)
        self.lines.append((code, left, right))
        return len(self.lines) - 1

    def look(self):
        """The next byte; there has to be one."""
        if self.place >= len(self.text):
            raise Refused(13, len(self.text))
        return self.text[self.place:self.place + 1]

    def take(self, allowed):
        """The next byte, which has to be one of these, and its place."""
        byte, place = self.look(), self.place
        if byte not in allowed:
            raise Refused(12, place)
        self.place += 1
        return byte, place

    def descend(self):
        if self.level == MAX_LEVEL:
            raise Refused(15, self.place)
        self.level += 1
        self.place += 1

    def unit(self):
        """Reads a unit and gives its line."""
        byte, place = self.look(), self.place
        if byte in (b"0", b"1"):
            self.place += 1
            return self.write(place, CONST, int(byte))
        if b"a" <= byte <= b"z":
            name = re.compile(rb"[a-z]+").match(self.text, place).group()
            if name not in self.names:
                raise Refused(14, place)
            self.place += len(name)
            return self.write(place, NAME, self.names.index(name))
        if byte in PREFIXES:
            self.descend()
            line = self.prefix(byte, place, self.unit())
        elif byte == b"(":
            self.descend()
            line = self.pair()
        else:
            raise Refused(12, place)
        self.level -= 1
        return line

    def prefix(self, byte, place, line):
        if byte in PREFIX_CODES:
            return self.write(place, PREFIX_CODES[byte], line)
        value, code, constant_left = PREFIX_FORMS[byte]
        constant = self.write(place, CONST, value)
        if constant_left:
            return self.write(place, code, constant, line)
        return self.write(place, code, line, constant)

    def pair(self):
        left = self.unit()
        byte, place = self.take(PAIR_CODES)
        right = self.unit()
        self.take((b")",))
        if byte == b">":
            left = self.write(place, NOT, left)
        return self.write(place, PAIR_CODES[byte], left, right)


def read_rule(text, names, lines=()):
    """The lines, and after them those of the rule."""
    if len(text) > MAX_RULE:
        raise Refused(17, MAX_RULE)
    reader = RuleReader(text, names, lines)
    reader.unit()
    if reader.place < len(text):
        raise Refused(16, reader.place)
    return reader.lines


# ---------------------------------------------------------------- bench file


def read_bench(data):
    """The gapped tape, the rule text and the names of a bench file."""
    if len(data) > MAX_BENCH:
        raise Refused(19, 0)
    ended = data.split(b"\n")
    unended = ended.pop()
    total = len(ended) + (1 if unended else 0)

    def line(index):
        if index >= len(ended):
            raise Refused(19, index)
        return ended[index]

    if line(0) != b"stem cycle rule":
        raise Refused(19, 0)
    head = re.fullmatch(rb"([0-9]{1,3}) ([0-9]{1,3}) (.*)", line(1), re.DOTALL)
    if head is None:
        raise Refused(19, 1)
    u, v, rule = int(head[1]), int(head[2]), head[3]
    names = read_names(line(2))
    masks, lost = [], []
    for index in range(3, u + v + 3):
        fields = line(index).split(b" ")
        if len(fields) != len(names) or any(x not in (b"0", b"1", b"?") for x in fields):
            raise Refused(19, index)
        masks.append(sum(1 << i for i, x in enumerate(fields) if x == b"1"))
        lost.append(sum(1 << i for i, x in enumerate(fields) if x == b"?"))
    if total > u + v + 3:
        raise Refused(19, u + v + 3)
    return Tape(len(names), u, v, masks, lost), rule, names


def listing(data):
    try:
        tape, rule, names = read_bench(data)
        lines = read_rule(rule, names)
        verdict, _, _ = judge(lines, tape, BENCH_CELLS)
        out = translate(lines).tables() + ["verdict", WORD[verdict]]
    except Refused as refusal:
        place = "-" if refusal.place is None else refusal.place
        out = ["number place", f"{refusal.number} {place}"]
    return "".join(line + "\n" for line in out).encode()


def main(args):
    data_in, data_out = sys.stdin.buffer, sys.stdout.buffer
    if args == ["script"] or args == ["script", "--run"]:
        data_out.write(script(data_in.read(), "--run" in args))
    elif args == ["listing"]:
        data_out.write(listing(data_in.read()))
    else:
        sys.stderr.write(__doc__)
        return 2
    return 0


if __name__ == "__main__":
    sys.exit(main(sys.argv[1:]))
