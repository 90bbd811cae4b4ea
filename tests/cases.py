"""Makes the cases of tests/compare: scripts and bench files, fixed and random.

A fixed case is (name, input, output or None): an output that is given here
stands in docs/REFERENCE.md or follows from it at a glance. A random case is
(input, output of the second program).
"""

import random

import second

HUGE = ("9" * 30, "1" + "0" * 29, 2**64, 2**64 - 1, 2**63, 2**32, 2**32 - 1, 65536, 256)


def text(lines):
    return "".join(line + "\n" for line in lines).encode()


# ------------------------------------------------------------------- damage

STRAY = [bytes([b]) for b in b" \n\r\t\x00\xff-+.?0123456789()!&|>UWSBXYZFGOHazAZ"]


def damage(rng, data, times):
    """Some bytes or lines changed, added or taken away."""
    for _ in range(times):
        at = rng.randrange(len(data) + 1)
        kind = rng.randrange(8)
        if kind == 0:
            data = data[:at] + data[at + 1:]
        elif kind == 1:
            data = data[:at] + rng.choice(STRAY) + data[at:]
        elif kind == 2:
            data = data[:at] + rng.choice(STRAY) + data[at + 1:]
        elif kind == 3:
            data = data[:at] + data[at + 1:at + 2] + data[at:at + 1] + data[at + 2:]
        elif kind == 4 and rng.random() < 0.3:
            data = data[:at]
        else:
            lines = data.split(b"\n")
            i, j = rng.randrange(len(lines)), rng.randrange(len(lines))
            if kind == 5:
                del lines[i]
            elif kind == 6:
                lines.insert(j, lines[i])
            else:
                lines[i], lines[j] = lines[j], lines[i]
            data = b"\n".join(lines)
    return data


# ------------------------------------------------------------------- scripts

JUNK = (
    "", " ", "  ", "\t", "#", "judge ", " judge", "Judge", "JUDGE", "judge 1", "judge\r",
    "judge\t", "judg", "judged", "write", "write 1", "write 1 0", "write 1 0 0 0",
    "write  1 0 0", "write 1  0 0", "write 1 0 0 ", " write 1 0 0", "write\t1 0 0",
    "write,1,0,0", "write -1 0 0", "write +1 0 0", "write 0x1 0 0", "write 1 0 a",
    "write 1.0 0 0", "write 1 0 0\r", "write 1 0 \u0661", "write 1 0 \u00b2", "write 1_0 0 0",
    "strike 0", "strike ", "seal 1", "sealed", "sea", "reopen 0", "re open", "translate:",
    "translate 0", "tape", "tape 1", "tape 1 0", "tape 1 0 ", "tape 1 0 1 ", "tape 1 0 1 1 ",
    "tape 1 0 1  1", "tape 1 0 1 x", "tape 1 0 1 1 -", "gapped", "gapped 1 0", "gapped 1 0 1 1 ?",
    "gapped 1 0 1 1 1 ", "wheel", "wheel 4 1", "wheel 4 1 0 0", "wheel 4 1 0 ", "wheel 4 1 x",
    "cells", "cells ", "cells 1 2", "cells x", "cells -1", "check", "check ", "check x",
    "check 0 x", "check 0  1", "check 0 1 ", "check -1 0", "unread: 0", "write: line 0", "\x00",
    "seal\x00", "\u00e9", "rows", "rows x", "rows 1 2", "run 1", "run ", "runs",
)

STYLES = (
    #  0  1  2  3  4  5  6  7  8  9 10 11
    (1, 4, 3, 3, 3, 3, 3, 3, 3, 3, 3, 3),
    (1, 4, 3, 1, 1, 1, 8, 8, 0, 0, 0, 0),
    (1, 4, 3, 1, 1, 1, 0, 0, 3, 3, 8, 8),
    (1, 4, 2, 0, 0, 2, 5, 5, 1, 1, 3, 3),
    (2, 4, 3, 6, 6, 4, 0, 0, 0, 0, 0, 0),
    (0, 4, 0, 1, 1, 1, 4, 4, 2, 2, 4, 4),
)

DENSITIES = (0.0, 0.05, 0.3, 0.5, 0.7, 0.95, 1.0)


class Script:
    """A script under way. Its calls are made on a session of the second program
    at once, so that the next ones can be chosen by where it stands."""

    def __init__(self, rng, run, budget):
        self.rng, self.run, self.budget = rng, run, budget
        self.session = second.Session(run)
        self.calls = []
        self.answers = []
        self.style = rng.choice(STYLES)
        self.signals = rng.choice((1, 2, 2, 2, 3, 4, 32))
        self.translated = None

    def call(self, *words):
        line = " ".join(map(str, words))
        raw = line.encode()
        before = self.session.machine
        self.answers += self.session.answer(len(self.calls), raw)
        if self.session.machine is not before:
            self.translated = list(self.session.lines)
        self.calls.append(raw)

    def number(self, value):
        if self.rng.random() < 0.03:
            return "0" * self.rng.choice((1, 2, 5, 30)) + str(value)
        return value

    def chance(self, p):
        return self.rng.random() < p

    # lines

    def good_line(self):
        rng, own = self.rng, len(self.session.lines)
        code = rng.choices(range(12), self.style)[0]
        if own == 0 and code > 1:
            code = 1
        if code == 0:
            return [0, rng.randrange(2), 0]
        if code == 1:
            top = 32 if self.chance(0.004) else self.signals
            return [1, rng.randrange(top), 0]

        def lower():
            if self.chance(0.4):
                return own - 1
            return rng.randrange(max(0, own - 5) if self.chance(0.6) else 0, own)

        return [code, lower(), 0 if code in second.ONE_LINE else lower()]

    def bad_line(self):
        rng, own = self.rng, len(self.session.lines)
        line = self.good_line()
        field = rng.randrange(3)
        if field == 0:
            line[0] = rng.choice((0, 1, 2, 10, 11, 12, 13, 255, *HUGE))
        else:
            near = (0, 1, 2, max(own - 1, 0), own, own + 1, 30, 31, 32, 63, 64, 255)
            line[field] = rng.choice(near if self.chance(0.7) else HUGE)
        if self.chance(0.2):
            line[rng.randrange(3)] = rng.choice(HUGE)
        return line

    def write(self, line):
        self.call("write", *map(self.number, line))

    def draft(self):
        if self.session.sealed:
            self.call("reopen")

    def sealed(self):
        if not self.session.sealed:
            if not self.session.lines:
                self.write(self.good_line())
            self.call("seal")

    # recordings

    def masks(self, c, count):
        dense = [self.rng.choice(DENSITIES) for _ in range(min(c, 4))]
        return [
            sum(1 << i for i in range(c) if self.rng.random() < dense[i % 4])
            for _ in range(count)
        ]

    def tape_numbers(self, sizes=None):
        """c, u, v and the slices of a tape that is taken."""
        rng = self.rng
        c = self.signals if self.chance(0.8) else rng.choice((1, 2, 31, 32))
        u, v = sizes or (rng.choice((0, 0, 1, 2, 3, 5, 9)), rng.choice((1, 1, 2, 2, 3, 4, 6)))
        gapped = self.chance(0.4)
        slices = [self.masks(c, u + v) for _ in range(2 if gapped else 1)]
        if gapped and self.chance(0.3):
            slices[1] = [mask & slices[0][t] for t, mask in enumerate(slices[1])]
        return c, u, v, slices

    def tape(self, c, u, v, slices):
        numbers = [c, u, v, *(mask for part in slices for mask in part)]
        self.call("tape" if len(slices) == 1 else "gapped", *map(self.number, numbers))

    def good_recording(self):
        rng = self.rng
        if self.chance(0.15):
            teeth = rng.choice((2, 3, 4, 5, 8))
            gap = rng.choice((1, teeth - 1, rng.randrange(1, teeth)))
            self.call("wheel", *map(self.number, (teeth, gap, rng.randrange(teeth))))
        else:
            self.tape(*self.tape_numbers())

    def affordable(self):
        """Whether the judgement that is at hand is small enough."""
        session = self.session
        if not session.lines or session.recording is None:
            return True
        cost = len(session.lines) * second.judged_rows(session.lines, session.recording)
        if cost > self.budget:
            return False
        self.budget -= cost
        return True


# Parts of a script.


def part_junk(m):
    for _ in range(m.rng.randint(1, 3)):
        m.call(m.rng.choice(JUNK))
    if not m.run and m.chance(0.2):
        m.call(m.rng.choice(("run", "rows 3", "rows 0")))


def part_writes(m):
    if m.chance(0.9):
        m.draft()
    for _ in range(m.rng.randint(1, 12)):
        m.write(m.good_line())


def part_bad_writes(m):
    if m.chance(0.9):
        m.draft()
    for _ in range(m.rng.randint(1, 6)):
        m.write(m.bad_line())


def part_strikes(m):
    if m.chance(0.9):
        m.draft()
    top = len(m.session.lines) + 2 if m.chance(0.2) else 6
    for _ in range(m.rng.randint(1, top)):
        m.call("strike")


def part_forms(m):
    for _ in range(m.rng.randint(1, 5)):
        m.call(m.rng.choice(("seal", "reopen", "translate", "strike", "seal")))


def part_fill(m):
    m.draft()
    while len(m.session.lines) < 64:
        m.write(m.good_line())
    for _ in range(m.rng.randint(1, 3)):
        m.write(m.good_line() if m.chance(0.6) else m.bad_line())
    for _ in range(m.rng.choice((0, 1, 20, 50))):
        m.call("strike")


def part_recording(m):
    m.good_recording()


def part_bad_tapes(m):
    rng = m.rng
    for _ in range(rng.randint(1, 4)):
        c, u, v, slices = m.tape_numbers()
        kind = rng.randrange(11)
        if kind == 0:
            c = rng.choice((0, 0, 33, 33, 64, 255, *HUGE))
            if c == 0:
                slices = [[0] * (u + v) for _ in slices]
        elif kind == 1:
            u = rng.choice((257, 1000, *HUGE))
            if u == 257:
                slices = [m.masks(c, u + v) for _ in slices]
        elif kind == 2:
            v = rng.choice((0, 65))
            slices = [m.masks(c, u + v) for _ in slices]
        elif kind == 3:
            v = rng.choice(HUGE)
        elif kind == 4:
            slices[-1].pop()
        elif kind == 5:
            slices[rng.randrange(len(slices))].append(0)
        elif kind == 6:
            for part in slices:
                part.pop()
        elif kind == 7:
            for part in slices:
                part.append(0)
        elif kind == 8:
            part = rng.choice(slices)
            part[rng.randrange(len(part))] |= 1 << rng.choice((c, c, 31, 32, 63, 64))
        elif kind == 9:
            part = rng.choice(slices)
            part[rng.randrange(len(part))] = rng.choice(HUGE)
        else:
            slices = [[] for _ in slices]
        m.tape(c, u, v, slices)


def part_limit_tapes(m):
    u, v = m.rng.choice(((256, 1), (0, 64), (256, 64), (255, 63), (257, 1), (0, 65), (0, 1)))
    m.tape(*m.tape_numbers((u, v)))
    if m.chance(0.5):
        m.sealed()
        if m.affordable():
            m.call("judge")


def part_wheels(m):
    rng = m.rng
    for _ in range(rng.randint(1, 4)):
        teeth = rng.choice((2, 3, 60, 63, 64))
        start = rng.choice((0, 1, teeth - 1))
        numbers = [teeth, rng.choice((1, 2, teeth - 1)), start]
        if m.chance(0.5):
            field = rng.randrange(3)
            numbers[field] = rng.choice((0, 1, 2, teeth, teeth + 1, 64, 65, *HUGE))
        m.call("wheel", *map(m.number, numbers))


def part_cells(m):
    m.call("cells", m.number(m.rng.choice((0, 1, 100, second.ALL_CELLS, *HUGE))))
    if m.run and m.chance(0.5):
        m.call("rows", m.number(m.rng.choice((0, 1, 5, 4351, 4352, 4353, *HUGE))))


def part_judge(m):
    rng, session = m.rng, m.session
    if m.chance(0.95):
        m.sealed()
    if session.recording is None and m.chance(0.9) or m.chance(0.3):
        m.good_recording()
    if not m.affordable():
        m.call("cells", rng.choice((0, 10)))
        m.call("judge")
        m.call("cells", second.ALL_CELLS)
        return
    judges = ("judge", "run", "run") if m.run else ("judge",)
    edge = session.recording is not None and m.chance(0.15)
    if edge:
        rows = second.judged_rows(session.lines, session.recording)
        need = len(session.lines) * rows
        m.call("cells", need - 1)
        m.call(rng.choice(judges))
        m.call("cells", need)
        if m.run:
            m.call("rows", rows - 1)
            m.call("run")
            m.call("rows", rows)
    elif session.cells < second.ALL_CELLS and m.chance(0.9):
        m.call("cells", second.ALL_CELLS)
    if m.run and not edge and m.chance(0.8):
        m.call("rows", 4352)
    m.call(rng.choice(judges))
    if m.chance(0.3):
        m.good_recording()
        if m.affordable():
            m.call("judge")


def run_rows(m, lines, back, n):
    """Rows of a run, by the second program's own valuation of these lines."""
    session = m.session
    known = [
        (0, 0, 0) if code == 1 and left >= session.recording.c else (code, left, right)
        for code, left, right in lines
    ]
    table = second.valuation(known, session.recording, n)
    return [second.machine_row(session.machine, known, table, t) for t in range(n)]


def part_check(m):
    rng, session = m.rng, m.session
    if m.chance(0.9):
        m.sealed()
    recording = session.recording
    if recording is None and m.chance(0.9) or m.chance(0.3):
        m.good_recording()
    recording = session.recording
    if recording is not None and not recording.two_valued and m.chance(0.8):
        c, u, v, slices = m.tape_numbers()
        m.tape(c, u, v, slices[:1])
        recording = session.recording
    if session.sealed and m.chance(0.9):
        m.call("translate")
    if recording is None or m.translated is None:
        m.call("check", *(rng.randrange(3) for _ in range(rng.randint(1, 4))))
        return
    if not recording.two_valued:
        m.call("check", 0, *m.masks(2, 3))
        return
    lines = m.translated
    past = second.past_count(lines)
    if past > 12 or recording.u + recording.v > 40:
        past = min(past, 2)
        if not m.affordable():
            return
    u, v = recording.u, recording.v
    for _ in range(rng.randint(1, 5)):
        back = u + rng.choice((0, past, past, past, past + 1, rng.randint(0, past + 2))) * v
        n = back + rng.choice((1, 1, 1, 2, 3)) * v
        used = list(lines)
        if m.chance(0.5):
            # other solutions of the same equations: U as W and W as U
            p = rng.choice((0.2, 0.5, 1.0))
            used = [
                (13 - code, left, right) if code in (6, 7) and m.chance(p) else (code, left, right)
                for code, left, right in lines
            ]
        rows = run_rows(m, used, back, n)
        if m.chance(0.6):
            back, rows = damaged_run(m, back, rows)
        m.call("check", m.number(back), *map(m.number, rows))


def damaged_run(m, back, rows):
    rng, session = m.rng, m.session
    count = len(session.machine.variables)
    rows = list(rows)
    for _ in range(rng.choice((1, 1, 1, 2))):
        kind = rng.randrange(10)
        at = rng.randrange(len(rows)) if rows else None
        if kind in (0, 1, 2) and count and rows:
            rows[at] ^= 1 << rng.randrange(count)
        elif kind == 3 and rows:
            rows[at] |= 1 << rng.choice((count, count, count + 1, 63, 64))
        elif kind == 4 and rows:
            rows[at] = int(rng.choice(HUGE))
        elif kind == 5:
            back = rng.choice((0, max(back - 1, 0), back + 1, len(rows), len(rows) + 1))
        elif kind == 6:
            back = int(rng.choice(HUGE))
        elif kind == 7 and rows:
            rows.pop(at)
        elif kind == 8:
            rows.append(rng.randrange(1 << min(count, 64)))
        elif kind == 9 and rng.random() < 0.3:
            rows = []
    return back, rows


def part_guess(m):
    """Random rows against a machine of few variables."""
    rng, session = m.rng, m.session
    m.draft()
    while session.lines:
        m.call("strike")
    for line in ([1, 0, 0], [1, rng.randrange(m.signals), 0]):
        m.write(line)
    for _ in range(rng.randint(1, 3)):
        m.write(m.good_line())
    m.call("seal")
    m.call("translate")
    c, u, v, slices = m.tape_numbers((rng.randrange(2), rng.randint(1, 2)))
    m.tape(c, u, v, slices[:1])
    variables = 1 << len(session.machine.variables)
    for _ in range(rng.randint(4, 16)):
        rows = [rng.randrange(variables) for _ in range(u + v * rng.randint(1, 2))]
        m.call("check", u, *rows)


def part_fair(m):
    """A right side that comes in the stem only, and all solutions that there are
    of the equations of one U or W under some X and !."""
    rng, session = m.rng, m.session
    m.draft()
    while session.lines:
        m.call("strike")
    for line in ([1, 0, 0], [1, 1, 0], [rng.choice((6, 7)), 0, 1]):
        m.write(line)
    for _ in range(rng.randint(1, 5)):
        m.write([rng.choice((2, 5, 5)), len(session.lines) - 1, 0])
    m.call("seal")
    m.call("translate")
    u, v = rng.randint(1, 4), rng.randint(1, 3)
    stem = [rng.randrange(4) for _ in range(u)]
    cycle = [rng.choice((1, 1, 1, 1, 1, 0, 2)) for _ in range(v)]
    m.tape(2, u, v, [stem + cycle])
    lines = list(session.lines)
    for code in (6, 7):
        lines[2] = (code, 0, 1)
        back = u + rng.randrange(2) * v
        rows = run_rows(m, lines, back, back + v * rng.randint(1, 2))
        m.call("check", back, *rows)


PARTS = (
    (part_junk, 3),
    (part_writes, 10),
    (part_bad_writes, 4),
    (part_strikes, 4),
    (part_forms, 3),
    (part_fill, 1),
    (part_recording, 2),
    (part_bad_tapes, 3),
    (part_limit_tapes, 1),
    (part_wheels, 2),
    (part_cells, 1),
    (part_judge, 9),
    (part_check, 9),
    (part_guess, 2),
    (part_fair, 2),
)


def random_script(rng, run):
    m = Script(rng, run, 500_000 if rng.random() < 0.04 else 40_000)
    goal = rng.choice((30, 60, 100, 150, 200, 250, 300))
    parts, weights = zip(*PARTS)
    while len(m.calls) < goal:
        rng.choices(parts, weights)[0](m)
    data = b"\n".join(m.calls) + b"\n"
    if rng.random() < 0.2:
        data = damage(rng, data, rng.choice((1, 2, 5, 20)))
        if rng.random() < 0.3:
            data = data.rstrip(b"\n")
        return data, second.script(data, run)
    if rng.random() < 0.2 and m.calls[-1]:
        data = data[:-1]
    return data, text(m.answers)


def ask(lines, *calls):
    """The calls that write a sheet, seal it and go on."""
    return text([f"write {c} {a} {b}" for c, a, b in lines] + ["seal", *calls])


def wrote(count, *answers):
    return text([f"write: line {i}" for i in range(count)] + ["seal: done", *answers])


CRANK, OIL = (1, 0, 0), (1, 1, 0)
U, W, NOT_2 = (6, 0, 1), (7, 0, 1), (2, 2, 0)
TWO_SIGS = ["gate kind a b", "0 sig 0 -", "1 sig 1 -", "2 var 0 -"]
UNTIL_01 = ["var kind a b start", "0 until 0 1 -", "fair from to"]


def fixed_scripts():
    full = [f"write {c} {a} {b}" for c, a, b in [(1, 0, 0)] + [(3, 0, 0)] * 63]
    past = [(8 + k % 4, k - 1, 0 if k % 4 < 2 else max(k - 2, 0)) for k in range(1, 64)]
    late = [(1, 31, 0), *past]
    tape_320 = " ".join(str((t * 2654435761) % 2**32) for t in range(320))
    lost_320 = " ".join(str((t * 40503 * t) % 2**32) for t in range(320))
    x_chain = [(1, 0, 0)] + [(5, k, 0) for k in range(63)]
    cases = [
        (
            "until yes",
            ask([CRANK, OIL, U], "tape 2 1 2 1 2 0", "judge"),
            wrote(3, "tape: done", "judge: yes", "yes no yes", "no yes yes", "no no no"),
        ),
        (
            "until no",
            ask([CRANK, OIL, U], "tape 2 0 1 1", "judge"),
            wrote(3, "tape: done", "judge: no", "yes no no"),
        ),
        (
            "weak until yes",
            ask([CRANK, OIL, W], "tape 2 0 1 1", "judge"),
            wrote(3, "tape: done", "judge: yes", "yes no yes"),
        ),
        (
            "not weak until: a pair",
            ask([CRANK, OIL, W, NOT_2], "translate"),
            wrote(4, "translate:", *TWO_SIGS, "3 not 2 -", *UNTIL_01, "0 0 2", "root", "3"),
        ),
        (
            "not until: no pair",
            ask([CRANK, OIL, U, NOT_2], "translate"),
            wrote(4, "translate:", *TWO_SIGS, "3 not 2 -", *UNTIL_01, "root", "3"),
        ),
        (
            "until: a pair",
            ask([CRANK, OIL, U], "translate"),
            wrote(3, "translate:", *TWO_SIGS, *UNTIL_01, "0 2 1", "root", "2"),
        ),
        (
            "weak until: no pair",
            ask([CRANK, OIL, W], "translate"),
            wrote(3, "translate:", *TWO_SIGS, *UNTIL_01, "root", "2"),
        ),
        (
            "both signs",
            ask([CRANK, OIL, U, NOT_2, (4, 2, 3)], "translate"),
            wrote(
                5, "translate:", *TWO_SIGS, "3 not 2 -", "4 or 2 3", *UNTIL_01, "0 2 1", "root", "4"
            ),
        ),
        (
            "next of weak until",
            ask([CRANK, OIL, W, (5, 2, 0)], "translate", "tape 2 1 2 1 2 0", "judge", "check 1 3 1 0"),
            None,
        ),
        (
            "yesterday",
            ask([CRANK, (8, 0, 0)], "tape 1 0 1 1", "judge", "translate", "check 0 1", "check 1 0 1"),
            wrote(
                2, "tape: done", "judge: no", "yes no", "yes yes", "translate:", "gate kind a b",
                "0 sig 0 -", "1 var 0 -", "var kind a b start", "0 back 0 - 0", "fair from to",
                "root", "1", "check: no", "check: no",
            ),
        ),
        (
            "yesterday, weak",
            ask([CRANK, (9, 0, 0)], "tape 1 0 1 1", "judge", "translate", "check 0 1", "check 1 0 1"),
            wrote(
                2, "tape: done", "judge: yes", "yes yes", "yes yes", "translate:", "gate kind a b",
                "0 sig 0 -", "1 var 0 -", "var kind a b start", "0 back 0 - 1", "fair from to",
                "root", "1", "check: yes", "check: no",
            ),
        ),
        (
            "fairness",
            ask(
                [CRANK, OIL, U], "translate", "tape 2 0 1 1", "check 0 1", "check 0 0",
                "reopen", "strike", "write 7 0 1", "seal", "translate", "check 0 1", "check 0 0",
            ),
            None,
        ),
        (
            "fairness past the stem",
            ask(
                [CRANK, OIL, U, (5, 2, 0)], "translate", "tape 2 1 1 2 1", "check 1 3 3", "check 1 1 0",
                "check 2 3 3 3", "tape 2 1 1 2 3", "check 1 3 3", "tape 2 1 1 0 2", "check 1 2 3",
            ),
            None,
        ),
        (
            "lost",
            ask(
                [CRANK, OIL, U, W, (2, 0, 0), (3, 0, 4), (4, 0, 4), (10, 0, 1), (11, 0, 1)],
                "gapped 2 1 2 1 2 0 0 1 2", "judge", "gapped 2 0 1 0 1", "judge",
                "gapped 2 0 1 1 1", "judge", "gapped 2 0 1 2 3", "judge", "check 0 0", "judge",
            ),
            None,
        ),
        (
            "line 63",
            text([*full, "write 3 0 0", "write 3 64 0", "write 12 0 0", "seal", "translate"]),
            None,
        ),
        (
            "signal 31",
            text(["write 1 31 0", "write 1 32 0", "write 1 255 0", "write 1 256 0"]),
            text(["write: line 0", "write: refused 2", "write: refused 2", "write: refused 2"]),
        ),
        (
            "order of refusals",
            ask(
                [(1, 2, 0), (5, 0, 0)], "judge", "check 0 0", "tape 2 1 1 0 0", "cells 3", "judge",
                "tape 3 1 1 0 0", "judge", "cells 4", "judge", "check 0 9", "translate",
                "tape 2 1 1 0 0", "check 0 9", "tape 3 1 1 0 0", "check 0 9", "check 2 0 9",
                "check 1 0 2", "check 1 0 0", "gapped 3 0 1 0 0", "check 0 9",
                "reopen", "judge", "judge 1",
            ),
            None,
        ),
        (
            "wheel",
            ask(
                [CRANK, OIL, (2, 0, 0), (8, 2, 0), (3, 3, 0), (2, 4, 0), (4, 5, 1), (7, 6, 6)],
                "wheel 60 2 0", "judge", "wheel 60 2 59", "judge", "wheel 64 63 63", "judge",
                "wheel 2 1 1", "judge", "wheel 65 1 0", "wheel 1 1 0", "wheel 2 0 0", "wheel 2 2 0",
                "wheel 2 1 2", "wheel 64 64 0", "judge",
            ),
            None,
        ),
        ("empty", b"", b""),
        ("one line end", b"\n", b"unread: 0\n"),
        ("unended", b"seal\nwrite 0 1 0", b"seal: refused 4\nwrite: line 0\n"),
        ("junk", text(JUNK), None),
        (
            "runs",
            ask(
                [CRANK, OIL, U, (10, 2, 0), (5, 3, 0), (1, 2, 0), (3, 3, 4)], "run", "translate",
                "tape 2 1 2 1 2 0", "rows 0", "cells 0", "run", "tape 3 1 2 1 2 0", "run", "cells 35",
                "run", "rows 4", "run", "rows 5", "run", "check 3 5 3 2 1 0", "check 3 5 3 2 0 0", "cells 34", "run",
                "cells 35", "gapped 3 0 1 0 0", "run", "wheel 2 1 0", "run", "reopen", "run",
            ),
            None,
        ),
        (
            "new machine",
            text(["check 0 0", "wheel 2 1 0", "check 0 0 0", "check 0 0 1", "check 0"]),
            text(["check: no recording", "wheel: done", "check: no", "check: refused 9", "check: refused 8"]),
        ),
        (
            "tape with no masks",
            text(["tape 1 0 1", "gapped 1 0 1", "tape 1 0 0", "check 0", "seal", "judge"]),
            None,
        ),
        (
            "limits of judge",
            ask(late, f"tape 32 256 64 {tape_320}", "judge", "cells 278527", "judge"),
            None,
        ),
        (
            "limits of judge, gapped",
            ask(late, f"gapped 32 256 64 {tape_320} {lost_320}", "cells 5", "cells 278529", "judge"),
            None,
        ),
        (
            "limits of check",
            ask(
                x_chain, "translate", "tape 1 256 64 " + " ".join(str(t % 3 % 2) for t in range(320)),
                "check 256 " + " ".join(["0"] * 4352), "check 256 " + " ".join(["0"] * 4353),
                "check 4288 " + " ".join(["0"] * 4352), "check 4289 " + " ".join(["0"] * 4352),
                "check 4288 " + " ".join([str(2**63 - 1)] * 4352),
                "check 4288 " + " ".join([str(2**63)] * 4352),
                "check 255 " + " ".join(["0"] * 319),
            ),
            None,
        ),
        (
            "rows of check",
            text(
                [
                    "write 0 1 0", "seal", "translate", "tape 1 0 1 0",
                    *("check " + back + " 0" * n for back in "01" for n in (1, 2, 4351, 4352, 4353)),
                ]
            ),
            None,
        ),
        ("zeros", b"cells " + b"0" * (2**20 - 8) + b"5\n", b"cells: done\n"),
        ("zeros, too long", b"cells " + b"0" * (2**20 - 7) + b"5\n", b"unread: too long\n"),
        ("longest line", b"wheel 2 1 0\ncheck 0" + b" 0" * (2**19 - 10) + b"\n", None),
    ]
    return cases


# --------------------------------------------------------------- bench files

HEAD = b"stem cycle rule\n"
NAMES = ("crank", "oil", "hot", "a", "ab", "b", "abcdefgh", "x", "u", "w", "stem", "rule", "zz")


def atom(rng, names):
    return str(rng.randrange(2)) if rng.random() < 0.1 else rng.choice(names)


def sized_rule(rng, names, n, past=None, level=0):
    """A rule of n lines; with `past`, so many of codes 8 to 11 (less than n)."""

    def own(signs, p):
        return rng.choice([s for s in signs if p is None or (s in "YZSBOH") == p])

    if n == 1:
        return atom(rng, names)
    past_here = None if past is None else rng.random() < past / (n - 1)
    left = past if past is None else past - past_here
    deep = 0.0 if level > 24 else 0.35
    forms = ["!XYZ"]
    if n >= 3 and (left is None or left < n - 2):
        forms += ["FGOH", "&|UWSB"] + (["&|UWSB"] * 3 if rng.random() > deep else [])
    if n >= 4 and not past_here and (left is None or left < n - 3):
        forms += [">"]
    form = rng.choice(forms)
    if form in ("!XYZ", "FGOH"):
        rest = n - 1 if form == "!XYZ" else n - 2
        return own(form, past_here) + sized_rule(rng, names, rest, left, level + 1)
    rest = n - 2 if form == ">" else n - 1
    half = rng.randint(1, rest - 1)
    if level > 8 or past is not None:
        half = rest // 2
    if left is None:
        parts = (None, None)
    else:
        low, high = max(0, left - (rest - half - 1)), min(half - 1, left)
        first = rng.randint(low, high)
        parts = (first, left - first)
    a = sized_rule(rng, names, half, parts[0], level + 1)
    b = sized_rule(rng, names, rest - half, parts[1], level + 1)
    return f"({a}{own(form, past_here)}{b})"


def deep_rule(rng, names, levels):
    """A rule of so many levels, with as few lines as chance has it."""
    front, back = "", ""
    brackets = rng.choice((0.0, 0.3, 1.0))
    signs = rng.choice(("!XYZ", "!", "!XYZFGOH"))
    for _ in range(levels):
        if rng.random() < brackets:
            op = rng.choice("&|>UWSB")
            if rng.random() < 0.5:
                front, back = front + "(", op + atom(rng, names) + ")" + back
            else:
                front, back = front + "(" + atom(rng, names) + op, ")" + back
        else:
            front += rng.choice(signs)
    return front + atom(rng, names) + back


def some_names(rng, count):
    pool = list(NAMES)
    rng.shuffle(pool)
    names = pool[:count]
    while len(names) < count:
        name = "".join(rng.choice("abcdxyz") for _ in range(rng.randint(1, 8)))
        if name not in names:
            names.append(name)
    return names


def samples(rng, c, count):
    lost = rng.choice((0.0, 0.0, 0.05, 0.3, 1.0))
    dense = [rng.choice(DENSITIES) for _ in range(c)]
    return [
        " ".join(
            "?" if rng.random() < lost else "1" if rng.random() < dense[i] else "0"
            for i in range(c)
        )
        for _ in range(count)
    ]


def bench(u, v, rule, names, rows):
    head = f"{u} {v} ".encode() + (rule if isinstance(rule, bytes) else rule.encode())
    return HEAD + head + b"\n" + text([" ".join(names), *rows])


def small_sizes(rng):
    return rng.choice((0, 0, 1, 2, 4, 7)), rng.choice((1, 1, 2, 3, 5))


def plain_file(rng):
    names = some_names(rng, rng.choice((1, 2, 2, 3, 5)))
    u, v = small_sizes(rng)
    rule = sized_rule(rng, names, rng.choice((1, 2, 3, 5, 8, 12, 20, 40)))
    rows = samples(rng, len(names), u + v)
    width = rng.choice((1, 1, 1, 2, 3))
    return bench(f"{u:0{width}}", f"{v:0{width}}", rule, names, rows)


def file_bad_rule(rng):
    names = some_names(rng, rng.choice((1, 2, 3)))
    u, v = small_sizes(rng)
    rule = sized_rule(rng, names, rng.choice((1, 2, 4, 8, 16, 30))).encode()
    rule = damage(rng, rule, rng.choice((1, 1, 2, 4))).replace(b"\n", rng.choice((b"", b" ")))
    if rng.random() < 0.3:
        stray = rng.choice((b"crank", b"oil", b"nobody", b"abcdefghi", b"2", b"9", b")", b"(", b"!"))
        at = rng.randrange(len(rule) + 1)
        rule = rule[:at] + stray + rule[at:]
    return bench(u, v, rule, names, samples(rng, len(names), u + v))


def file_byte(rng):
    """One byte, any at all, where a unit, an operator, a bracket or nothing may
    stand."""
    signs = b"()!&|>UWSBXYZFGOH0123456789abcdz ?\t\r"
    byte = bytes([rng.choice(signs) if rng.random() < 0.7 else rng.randrange(256)])
    byte = byte.replace(b"\n", b"\x0b")
    front, back = rng.choice(
        (
            (b"", b""), (b"", b"a"), (b"(", b"&b)"), (b"(", b"a&b)"), (b"(a", b"b)"), (b"(a&", b")"),
            (b"(a&", b"b)"), (b"(a&b", b""), (b"(a&b)", b""), (b"a", b""), (b"!", b""), (b"G", b"b"),
            (b"0", b""), (b"(1", b"a)"), (b"(a&0", b")"), (b"(a", b"&b)"),
        )
    )
    return bench(0, 1, front + byte + back, ["a", "b", "ab"], samples(rng, 3, 1))


def file_damaged(rng):
    return damage(rng, plain_file(rng), rng.choice((1, 1, 2, 3)))


def file_lines(rng):
    """Lines too few or too many, unended, or of a wrong shape."""
    names = some_names(rng, rng.choice((1, 2, 3)))
    u, v = small_sizes(rng)
    rows = samples(rng, len(names), u + v)
    kind = rng.choice((*range(16), 8, 9))
    at = rng.randrange(len(rows))
    stem, cycle = str(u), str(v)
    if kind == 0:
        rows.pop()
    elif kind == 1:
        rows.append(rng.choice(("", " ", rows[0])))
    elif kind == 2:
        rows[at] += rng.choice((" ", " 0", "0", " 2", "\r", " x"))
    elif kind == 3:
        rows[at] = rows[at][:-1]
    elif kind == 4:
        rows[at] = rows[at][1:]
    elif kind == 5:
        rows[at] = ""
    elif kind == 6:
        place = rng.randrange(len(names)) * 2
        rows[at] = rows[at][:place] + rng.choice("2xX-\t ") + rows[at][place + 1:]
    elif kind == 7:
        place = rng.randrange(len(names)) * 2
        rows[at] = rows[at][:place] + "?" + rows[at][place + 1:]
    elif kind == 8:
        names = rng.choice(
            (
                [""], ["a", ""], ["", "a"], ["a", "", "b"], ["A"], ["a1"], ["abcdefghi"], ["a", "a"],
                ["ab", "b", "ab"], ["a\tb"], ["a\r"], ["\u00e9"], ["abcdefgh"], ["a-b"],
            )
        )
    elif kind == 9:
        stem = rng.choice(("", "0000", "-1", "+1", "x", " 1", "1 ", "1x", "0x1", "1.", "\u0661"))
    elif kind == 10:
        cycle = rng.choice(("", "0001", "-1", "x", " 1", "1\t", "1x"))
    elif kind == 11:
        return bench(stem, cycle, "", names, rows)
    elif kind == 12:
        return HEAD + rng.choice((b"", b"\n", b"1\n", b"1 1\n", b"1  1 a\n", b"1\t1 a\na\n0\n0\n"))
    data = bench(stem, cycle, sized_rule(rng, names, rng.choice((1, 3, 6))), names, rows)
    if kind == 13:
        data = data[:-1]
    elif kind == 14:
        data += rng.choice((b"\n", b"0", b" ", b"0 0", b"\n\n", b"\x00"))
    elif kind == 15:
        data = data[:rng.randrange(len(data) + 1)]
    return data


def file_levels(rng):
    names = some_names(rng, 2)
    u, v = small_sizes(rng)
    rule = deep_rule(rng, names, rng.choice((30, 31, 32, 32, 33, 33, 34, 60)))
    return bench(u, v, rule, names, samples(rng, 2, u + v))


def file_sheet(rng):
    """Sheets of 63 to 66 lines, and of more."""
    names = some_names(rng, rng.choice((1, 3)))
    u, v = small_sizes(rng)
    rule = sized_rule(rng, names, rng.choice((63, 64, 64, 65, 65, 66, 70, 90)))
    if rng.random() < 0.2:
        rule += rng.choice((")", "&", "a", "2", " "))
    return bench(u, v, rule, names, samples(rng, len(names), u + v))


def file_cells(rng):
    """Sheets near 61,440 cells."""
    names = some_names(rng, rng.choice((1, 2)))
    lines, past, u, v = rng.choice(
        (
            (60, 15, 0, 64), (60, 15, 1, 64), (64, 14, 0, 64), (64, 14, 1, 64), (64, 20, 256, 64),
            (40, 19, 256, 64), (40, 20, 192, 64), (40, 20, 193, 64), (64, 14, 15, 63), (64, 14, 16, 63),
            (48, 19, 0, 64), (48, 19, 1, 64), (64, 40, 256, 1), (30, 0, 256, 64),
            (62, 14, 256, 49), (62, 14, 255, 49),
        )
    )
    rule = sized_rule(rng, names, lines, past)
    return bench(u, v, rule, names, samples(rng, len(names), u + v))


def file_tapes(rng):
    """Stems and cycles at their ranges and past them."""
    u, v = rng.choice(
        ((256, 64), (257, 64), (256, 65), (257, 1), (0, 64), (0, 65), (0, 1), (0, 0), (1, 0), (256, 0),
         (999, 1), (999, 999), (998, 0), (0, 999), (256, 1))
    )
    names = some_names(rng, rng.choice((1, 1, 3)))
    rows = samples(rng, len(names), u + v)
    if rng.random() < 0.2:
        rows.pop() if rows and rng.random() < 0.5 else rows.append(rows[-1] if rows else "0")
    return bench(u, v, sized_rule(rng, names, rng.choice((1, 3, 10))), names, rows)


def file_names(rng):
    count = rng.choice((31, 32, 32, 33, 40))
    names = some_names(rng, count)
    if rng.random() < 0.3:
        names[rng.randrange(count)] = rng.choice(("abcdefgh", "abcdefghi", "a", names[0]))
    u, v = small_sizes(rng)
    rule = sized_rule(rng, names, rng.choice((1, 5, 20)))
    return bench(u, v, rule, names, samples(rng, count, u + v))


def file_rule_length(rng):
    names = some_names(rng, 2)
    u, v = small_sizes(rng)
    size = rng.choice((4095, 4096, 4096, 4097, 4097, 4098, 6000))
    head = sized_rule(rng, names, rng.choice((1, 3, 8)))
    fill = rng.choice(("a", "!", "(", ")", "0", " ", "b", "&", "(0&"))
    rule = (head if rng.random() < 0.6 else "") + fill * size
    rows = samples(rng, 2, u + v)
    if rng.random() < 0.1:
        rows.pop()
    return bench(u, v, rule[:size], names, rows)


def file_length(rng):
    """Files of 16,384 bytes, and one more or less."""
    size = rng.choice((16383, 16384, 16384, 16385, 16385))
    names = ["n" + "abcdefghijklmnopqrstuvwxyz"[i % 26] + "nmo"[i // 26] for i in range(32)]
    u, v = rng.choice(((250, 1), (187, 64), (200, 50)))
    rule = sized_rule(rng, names, rng.choice((1, 4, 10)))
    rows = samples(rng, 32, u + v)
    data = bench(u, v, rule, names, rows)
    i = 0
    while len(data) < size and len(names[-1]) < 8:
        longer = names[i % 32] + "q"
        rule = "".join(longer if w == names[i % 32] else w for w in split_rule(rule))
        names[i % 32] = longer
        data = bench(u, v, rule, names, rows)
        i += 1
    if len(data) < size:
        data = bench(u, v, rule + "q" * (size - len(data)), names, rows)
    if len(data) > size:
        data = data[:size]
    return data


def split_rule(rule):
    """The rule in tokens."""
    words, word = [], ""
    for sign in rule:
        if sign.islower():
            word += sign
            continue
        words += [word, sign] if word else [sign]
        word = ""
    return words + [word] if word else words


FILES = (
    (plain_file, 40),
    (file_bad_rule, 18),
    (file_byte, 12),
    (file_damaged, 10),
    (file_lines, 10),
    (file_levels, 5),
    (file_sheet, 5),
    (file_cells, 3),
    (file_tapes, 3),
    (file_names, 3),
    (file_rule_length, 3),
    (file_length, 3),
)


def random_file(rng):
    makers, weights = zip(*FILES)
    data = rng.choices(makers, weights)[0](rng)
    return data, second.listing(data)


def refusal(number, place="-"):
    return f"number place\n{number} {place}\n".encode()


def fixed_files():
    past_14 = sized_rule(random.Random(1), ["a"], 64, 14)

    def ruled(rule):
        return bench(1, 2, rule, ["crank", "oil"], ["1 0", "0 1", "0 0"])

    example = ruled("(crankUoil)")
    answer = text(
        [*TWO_SIGS, *UNTIL_01, "0 2 1", "root", "2", "verdict", "yes"]
    )
    rng = random.Random(1)
    s64, s63, s62 = (sized_rule(rng, ["crank", "oil"], lines) for lines in (64, 63, 62))
    faults = (
        ("crank&oil", 16, 5),
        ("", 13, 0),
        ("(", 13, 1),
        ("(crank", 13, 6),
        ("(crank&", 13, 7),
        ("(crank&oil", 13, 10),
        ("!", 13, 1),
        (" crank", 12, 0),
        ("crank ", 16, 5),
        ("(crank &oil)", 12, 6),
        ("(crank)", 12, 6),
        ("(crankoil)", 14, 1),
        ("(crank&oil&", 12, 10),
        ("(crank&oil(", 12, 10),
        ("((crank&oil)&", 13, 13),
        ("(0crank", 12, 2),
        ("(0nobody", 12, 2),
        ("2", 12, 0),
        ("02", 16, 1),
        ("(0&9)", 12, 3),
        ("fuel", 14, 0),
        ("!fuel", 14, 1),
        ("crankoiloil", 14, 0),
        ("!" * 33, 15, 32),
        ("!" * 32 + "(", 15, 32),
        ("!" * 32, 13, 32),
        ("!" * 32 + ")", 12, 32),
        ("(" * 33, 15, 32),
        ("x" * 4096, 14, 0),
        ("x" * 4097, 17, 4096),
        ("U", 12, 0),
        (")", 12, 0),
        ("u", 14, 0),
        ("Crank", 12, 0),
        ("F" * 32 + "0", 3, 0),
        ("F" * 32 + "0)", 3, 0),
        ("F" * 31 + "(0&0))", 3, 0),
        ("F" * 31 + "!0)", 16, 33),
        (f"({s64}&crank)", 3, len(s64) + 2),
        (f"({s64}&1)", 3, len(s64) + 2),
        (f"({s64}&2)", 12, len(s64) + 2),
        (f"({s64}&fuel)", 14, len(s64) + 2),
        (f"({s64}&crank", 3, len(s64) + 2),
        (f"({s64}&", 13, len(s64) + 2),
        (f"!{s64})", 3, 0),
        (f"F{s64})", 3, 0),
        (f"(crank&H{s62})", 3, 7),
        (f"(crank&H{s63})", 3, 7),
        (f"{s64})", 16, len(s64)),
        (f"({s63}&crank)", 3, len(s63) + 1),
        (f"({s63}&crank", 13, len(s63) + 7),
        (f"({s63}>crank", 13, len(s63) + 7),
        (f"({s63}>crank>", 12, len(s63) + 7),
        (f"({s63}>crank)", 3, len(s63) + 1),
        (f"({s63}&crank&", 12, len(s63) + 7),
        (f"({s63}&!crank)", 3, len(s63) + 2),
        (f"({s62}>crank)", 3, len(s62) + 1),
        (f"({s62}&Fcrank)", 3, len(s62) + 2),
    )
    cases = [
        ("the example", example, answer),
        ("empty", b"", refusal(19, 0)),
        ("unended first line", HEAD[:-1], refusal(19, 0)),
        ("no line 1", HEAD, refusal(19, 1)),
        ("no line 2", HEAD + b"0 1 a\n", refusal(19, 2)),
        ("line 2 unended", HEAD + b"0 1 a\nA", refusal(19, 2)),
        ("line 2 bad", HEAD + b"0 1 a\nA\n", refusal(18)),
        ("line 2 empty", HEAD + b"0 1 a\n\n", refusal(18)),
        ("no line 3", HEAD + b"0 1 a\na\n", refusal(19, 3)),
        ("line 3 unended", HEAD + b"0 1 a\na\n0", refusal(19, 3)),
        ("an extra line", HEAD + b"0 1 a\na\n0\n\n", refusal(19, 4)),
        ("an extra line, unended", HEAD + b"0 1 a\na\n0\n0", refusal(19, 4)),
        ("cycle 0", HEAD + b"0 0 a\na\n", refusal(10)),
        ("cycle 0, an extra line", HEAD + b"0 0 a\na\n0\n", refusal(19, 3)),
        ("stem 999", bench(999, 1, "a", ["a"], ["0"] * 1000), refusal(10)),
        ("stem 999, one line short", bench(999, 1, "a", ["a"], ["0"] * 999), refusal(19, 1002)),
        ("stem 257, bad rule", bench(257, 1, "2", ["a"], ["0"] * 258), refusal(10)),
        ("no rule, no space", HEAD + b"0 1\na\n0\n", refusal(19, 1)),
        ("no rule", HEAD + b"0 1 \na\n0\n", refusal(13, 0)),
        ("leading zeros", example.replace(b"1 2 (", b"001 02 ("), answer),
        ("too many digits", example.replace(b"1 2 (", b"0001 2 ("), refusal(19, 1)),
        ("lost", bench(0, 1, "(aW0)", ["a"], ["?"]), None),
        ("lost, all columns", bench(1, 1, "F(a&(b|c))", ["a", "b", "c"], ["? ? ?", "? 1 ?"]), None),
        ("cells", bench(1, 64, past_14, ["a"], ["1"] * 65), refusal(6)),
        ("cells enough", bench(0, 64, past_14, ["a"], ["1"] * 64), None),
        ("too long", HEAD + b"0 1 " + b"a" * 16365, refusal(19, 0)),
        ("long enough", HEAD + b"0 1 " + b"a" * 16364, refusal(19, 1)),
    ]
    many = [f"n{chr(97 + i % 26)}{chr(97 + i // 26)}" for i in range(33)]
    for names, good in (
        (["abcdefgh"], True), (["abcdefghi"], False), (["a", "a"], False), (["a", "b", "a"], False),
        (["a", "aa", "aaa"], True), (["ab", "b", "abb"], True), ([""], False), (["a", ""], False),
        (["", "a"], False), (["a", "", "b"], False), (["A"], False), (["a1"], False),
        (["a\tb"], False), (["a\r"], False), (many[:32], True), (many, False),
    ):
        data = bench(0, 1, names[-1], names, [" ".join("1" * len(names))])
        cases.append((f"names {' '.join(names)[:40]!r}", data, None if good else refusal(18)))
    for rule, number, place in faults:
        cases.append((f"rule {rule[:40]!r}", ruled(rule), refusal(number, place)))
    for byte in (0, 9, 13, *range(32, 128), 0xC3, 0xFF):
        for front, back in ((b"", b""), (b"(oil", b"oil)"), (b"(oil&oil", b""), (b"oil", b"")):
            rule = front + bytes([byte]) + back
            cases.append((f"rule {rule!r}", ruled(rule), None))
    for rule in (
        "X(crankWoil)", "!(crankWoil)", "!(crankUoil)", "(crankWoil)", "Fcrank", "Goil", "Ocrank",
        "Hoil", "(crank>oil)", "(crankSoil)", "(crankBoil)", "Ycrank", "Zcrank", "0", "1", "oil",
        "(!crank|Xoil)", "G(crank>Foil)", "!!crank", "((crankUoil)&!(crankUoil))",
        "!" * 32 + "crank", "F" * 31 + "crank", "F" * 31 + "!crank",
    ):
        cases.append((f"rule {rule[:40]!r}", ruled(rule), None))
    return cases
