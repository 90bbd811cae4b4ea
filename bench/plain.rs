//! The same work in plain safe Rust: the same lines, recordings, cells, machine and passes, written as a Rust programmer
//! would write them. No unsafe code, no crates.
#![forbid(unsafe_code)]

// ---- the sheet

#[derive(Clone, Copy)]
pub enum Line {
    Const(bool),
    Signal(u8),
    Not(u8),
    And(u8, u8),
    Or(u8, u8),
    Next(u8),
    Until(u8, u8),
    WeakUntil(u8, u8),
    Previous(u8),
    WeakPrevious(u8),
    Since(u8, u8),
    WeakSince(u8, u8),
}

impl Line {
    fn named(code: u8, left: u8, right: u8) -> Option<Line> {
        Some(match code {
            0 => Line::Const(left == 1),
            1 => Line::Signal(left),
            2 => Line::Not(left),
            3 => Line::And(left, right),
            4 => Line::Or(left, right),
            5 => Line::Next(left),
            6 => Line::Until(left, right),
            7 => Line::WeakUntil(left, right),
            8 => Line::Previous(left),
            9 => Line::WeakPrevious(left),
            10 => Line::Since(left, right),
            11 => Line::WeakSince(left, right),
            _ => return None,
        })
    }

    fn looks_back(self) -> bool {
        matches!(
            self,
            Line::Previous(_) | Line::WeakPrevious(_) | Line::Since(_, _) | Line::WeakSince(_, _)
        )
    }

    fn has_variable(self) -> bool {
        self.looks_back() || matches!(self, Line::Next(_) | Line::Until(_, _) | Line::WeakUntil(_, _))
    }
}

/// The lines of three bytes each: code, left, right.
pub fn sheet(bytes: &[u8]) -> Option<Vec<Line>> {
    bytes.chunks_exact(3).map(|line| Line::named(line[0], line[1], line[2])).collect()
}

// ---- truth kinds and recordings

pub trait Truth: Copy {
    const NO: Self;
    const YES: Self;
    fn and(self, other: Self) -> Self;
    fn or(self, other: Self) -> Self;
    fn not(self) -> Self;
    fn byte(self) -> u8;
}

impl Truth for bool {
    const NO: bool = false;
    const YES: bool = true;

    fn and(self, other: bool) -> bool {
        self & other
    }

    fn or(self, other: bool) -> bool {
        self | other
    }

    fn not(self) -> bool {
        !self
    }

    fn byte(self) -> u8 {
        self as u8
    }
}

#[derive(Clone, Copy, PartialEq, Eq, PartialOrd, Ord)]
pub enum Ternary {
    No,
    Lost,
    Yes,
}

impl Truth for Ternary {
    const NO: Ternary = Ternary::No;
    const YES: Ternary = Ternary::Yes;

    fn and(self, other: Ternary) -> Ternary {
        self.min(other)
    }

    fn or(self, other: Ternary) -> Ternary {
        self.max(other)
    }

    fn not(self) -> Ternary {
        match self {
            Ternary::No => Ternary::Yes,
            Ternary::Lost => Ternary::Lost,
            Ternary::Yes => Ternary::No,
        }
    }

    fn byte(self) -> u8 {
        self as u8
    }
}

pub trait Recording {
    type Truth: Truth;
    fn stem(&self) -> usize;
    fn cycle(&self) -> usize;
    fn value(&self, signal: u8, sample: usize) -> Option<Self::Truth>;
}

fn place(stem: usize, cycle: usize, sample: usize) -> usize {
    if sample < stem {
        sample
    } else {
        stem + (sample - stem) % cycle
    }
}

pub struct Tape {
    pub signals: u32,
    pub stem: usize,
    pub cycle: usize,
    pub masks: Vec<u32>,
}

impl Recording for Tape {
    type Truth = bool;

    fn stem(&self) -> usize {
        self.stem
    }

    fn cycle(&self) -> usize {
        self.cycle
    }

    fn value(&self, signal: u8, sample: usize) -> Option<bool> {
        if signal as u32 >= self.signals {
            return None;
        }
        Some(self.masks[place(self.stem, self.cycle, sample)] >> signal & 1 == 1)
    }
}

pub struct GappedTape {
    pub tape: Tape,
    pub lost: Vec<u32>,
}

impl Recording for GappedTape {
    type Truth = Ternary;

    fn stem(&self) -> usize {
        self.tape.stem
    }

    fn cycle(&self) -> usize {
        self.tape.cycle
    }

    fn value(&self, signal: u8, sample: usize) -> Option<Ternary> {
        if signal as u32 >= self.tape.signals {
            return None;
        }
        let at = place(self.tape.stem, self.tape.cycle, sample);
        Some(if self.lost[at] >> signal & 1 == 1 {
            Ternary::Lost
        } else if self.tape.masks[at] >> signal & 1 == 1 {
            Ternary::Yes
        } else {
            Ternary::No
        })
    }
}

// ---- judging

/// How many samples are judged, and the one that comes after the last.
pub fn extent(lines: &[Line], stem: usize, cycle: usize) -> (usize, usize) {
    let back = lines.iter().filter(|line| line.looks_back()).count();
    let steady = stem + back * cycle;
    (steady + cycle, steady)
}

/// Cell t * L + k is set to the value of line k at sample t.
pub fn judge<R: Recording>(lines: &[Line], recording: &R, cells: &mut [R::Truth]) -> Option<R::Truth> {
    for line in lines {
        if let Line::Signal(signal) = *line {
            recording.value(signal, 0)?;
        }
    }
    let width = lines.len();
    let (samples, steady) = extent(lines, recording.stem(), recording.cycle());
    let cells = cells.get_mut(..width * samples)?;
    for (k, line) in lines.iter().enumerate() {
        match *line {
            Line::Const(bit) => {
                let value = if bit { R::Truth::YES } else { R::Truth::NO };
                for row in cells.chunks_exact_mut(width) {
                    row[k] = value;
                }
            }
            Line::Signal(signal) => {
                for (t, row) in cells.chunks_exact_mut(width).enumerate() {
                    row[k] = recording.value(signal, t)?;
                }
            }
            Line::Not(a) => {
                for row in cells.chunks_exact_mut(width) {
                    row[k] = row[a as usize].not();
                }
            }
            Line::And(a, b) => {
                for row in cells.chunks_exact_mut(width) {
                    row[k] = row[a as usize].and(row[b as usize]);
                }
            }
            Line::Or(a, b) => {
                for row in cells.chunks_exact_mut(width) {
                    row[k] = row[a as usize].or(row[b as usize]);
                }
            }
            Line::Next(a) => {
                for t in 0..samples {
                    let next = if t + 1 < samples { t + 1 } else { steady };
                    cells[t * width + k] = cells[next * width + a as usize];
                }
            }
            Line::Until(a, b) => until(cells, width, steady, k, a, b, R::Truth::NO),
            Line::WeakUntil(a, b) => until(cells, width, steady, k, a, b, R::Truth::YES),
            Line::Previous(a) => previous(cells, width, k, a, R::Truth::NO),
            Line::WeakPrevious(a) => previous(cells, width, k, a, R::Truth::YES),
            Line::Since(a, b) => since(cells, width, k, a, b, R::Truth::NO),
            Line::WeakSince(a, b) => since(cells, width, k, a, b, R::Truth::YES),
        }
    }
    Some(cells[width - 1])
}

fn until<T: Truth>(cells: &mut [T], width: usize, steady: usize, k: usize, a: u8, b: u8, start: T) {
    let (a, b) = (a as usize, b as usize);
    let mut held = start;
    for row in cells[steady * width..].chunks_exact(width).rev() {
        held = row[b].or(row[a].and(held));
    }
    for row in cells.chunks_exact_mut(width).rev() {
        held = row[b].or(row[a].and(held));
        row[k] = held;
    }
}

fn previous<T: Truth>(cells: &mut [T], width: usize, k: usize, a: u8, start: T) {
    let mut held = start;
    for row in cells.chunks_exact_mut(width) {
        row[k] = held;
        held = row[a as usize];
    }
}

fn since<T: Truth>(cells: &mut [T], width: usize, k: usize, a: u8, b: u8, start: T) {
    let mut held = start;
    for row in cells.chunks_exact_mut(width) {
        held = row[b as usize].or(row[a as usize].and(held));
        row[k] = held;
    }
}

// ---- the machine

#[derive(Clone, Copy)]
pub enum Gate {
    Const(bool),
    Signal(u8),
    Var(u8),
    Not(u8),
    And(u8, u8),
    Or(u8, u8),
}

#[derive(Clone, Copy)]
pub enum Variable {
    Next(u8),
    Until(u8, u8),
    Back(u8, bool),
}

#[derive(Clone, Copy)]
pub struct Pair {
    pub from: u8,
    pub to: u8,
}

#[derive(Default)]
pub struct Machine {
    pub gates: Vec<Gate>,
    pub variables: Vec<Variable>,
    pub pairs: Vec<Pair>,
    pub root: u8,
}

#[derive(Clone, Copy, Default)]
pub struct Signs {
    plus: bool,
    minus: bool,
}

impl Signs {
    fn used(self) -> bool {
        self.plus | self.minus
    }

    fn turned(self) -> Signs {
        Signs { plus: self.minus, minus: self.plus }
    }

    fn give(&mut self, more: Signs) {
        self.plus |= more.plus;
        self.minus |= more.minus;
    }
}

pub fn signs(lines: &[Line]) -> [Signs; 64] {
    let mut signs = [Signs::default(); 64];
    signs[lines.len() - 1].plus = true;
    for (k, line) in lines.iter().enumerate().rev() {
        let own = signs[k];
        match *line {
            Line::Const(_) | Line::Signal(_) => {}
            Line::Not(a) => signs[a as usize].give(own.turned()),
            Line::Next(a) | Line::Previous(a) | Line::WeakPrevious(a) => signs[a as usize].give(own),
            Line::And(a, b)
            | Line::Or(a, b)
            | Line::Until(a, b)
            | Line::WeakUntil(a, b)
            | Line::Since(a, b)
            | Line::WeakSince(a, b) => {
                signs[a as usize].give(own);
                signs[b as usize].give(own);
            }
        }
    }
    signs
}

impl Machine {
    fn held(&mut self, variable: Variable) {
        self.gates.push(Gate::Var(self.variables.len() as u8));
        self.variables.push(variable);
    }

    fn since(&mut self, left: u8, right: u8, start: bool) {
        let first = self.gates.len() as u8;
        self.gates.push(Gate::Var(self.variables.len() as u8));
        self.gates.push(Gate::And(left, first));
        self.gates.push(Gate::Or(right, first + 1));
        self.variables.push(Variable::Back(first + 2, start));
    }

    /// Fills the machine anew; its room is kept.
    pub fn translate(&mut self, lines: &[Line]) {
        let signs = signs(lines);
        let mut places = [0u8; 64];
        self.gates.clear();
        self.variables.clear();
        self.pairs.clear();
        for (k, line) in lines.iter().enumerate() {
            if !signs[k].used() {
                continue;
            }
            let at = |a: u8| places[a as usize];
            match *line {
                Line::Const(bit) => self.gates.push(Gate::Const(bit)),
                Line::Signal(signal) => self.gates.push(Gate::Signal(signal)),
                Line::Not(a) => self.gates.push(Gate::Not(at(a))),
                Line::And(a, b) => self.gates.push(Gate::And(at(a), at(b))),
                Line::Or(a, b) => self.gates.push(Gate::Or(at(a), at(b))),
                Line::Next(a) => self.held(Variable::Next(at(a))),
                Line::Until(a, b) => {
                    self.held(Variable::Until(at(a), at(b)));
                    if signs[k].plus {
                        self.pairs.push(Pair { from: self.gates.len() as u8 - 1, to: at(b) });
                    }
                }
                Line::WeakUntil(a, b) => {
                    self.held(Variable::Until(at(a), at(b)));
                    if signs[k].minus {
                        self.pairs.push(Pair { from: at(a), to: self.gates.len() as u8 - 1 });
                    }
                }
                Line::Previous(a) => self.held(Variable::Back(at(a), false)),
                Line::WeakPrevious(a) => self.held(Variable::Back(at(a), true)),
                Line::Since(a, b) => self.since(at(a), at(b), false),
                Line::WeakSince(a, b) => self.since(at(a), at(b), true),
            }
            places[k] = self.gates.len() as u8 - 1;
        }
        self.root = places[lines.len() - 1];
    }

    fn evaluate(&self, tape: &Tape, sample: usize, row: u64, values: &mut [bool; 192]) -> Option<()> {
        for (k, gate) in self.gates.iter().enumerate() {
            values[k] = match *gate {
                Gate::Const(bit) => bit,
                Gate::Signal(signal) => tape.value(signal, sample)?,
                Gate::Var(j) => row >> j & 1 == 1,
                Gate::Not(a) => !values[a as usize],
                Gate::And(a, b) => values[a as usize] & values[b as usize],
                Gate::Or(a, b) => values[a as usize] | values[b as usize],
            };
        }
        Some(())
    }

    /// Whether the rows, after the last of which comes row `back`, are an accepting run.
    pub fn check(&self, tape: &Tape, rows: &[u64], back: usize) -> Option<bool> {
        for gate in &self.gates {
            if let Gate::Signal(signal) = *gate {
                tape.value(signal, 0)?;
            }
        }
        let n = rows.len();
        if n == 0 || n > 4352 || back >= n || back < tape.stem || (n - back) % tape.cycle != 0 {
            return None;
        }
        let limit = 1u128 << self.variables.len();
        if rows.iter().any(|row| *row as u128 >= limit) {
            return None;
        }
        let bit = |row: u64, j: usize| row >> j & 1 == 1;
        let mut here = [false; 192];
        let mut there = [false; 192];
        self.evaluate(tape, 0, rows[0], &mut here)?;
        if !here[self.root as usize] {
            return Some(false);
        }
        for (j, variable) in self.variables.iter().enumerate() {
            if let Variable::Back(_, start) = *variable {
                if bit(rows[0], j) != start {
                    return Some(false);
                }
            }
        }
        let mut met = [false; 64];
        for (i, &row) in rows.iter().enumerate() {
            if back <= i {
                for (pair, met) in self.pairs.iter().zip(&mut met) {
                    *met |= !here[pair.from as usize] | here[pair.to as usize];
                }
            }
            let after = if i + 1 < n { i + 1 } else { back };
            let next = rows[after];
            self.evaluate(tape, after, next, &mut there)?;
            let keeps = self.variables.iter().enumerate().all(|(j, variable)| match *variable {
                Variable::Next(a) => bit(row, j) == there[a as usize],
                Variable::Until(a, b) => bit(row, j) == (here[b as usize] | (here[a as usize] & bit(next, j))),
                Variable::Back(a, _) => bit(next, j) == here[a as usize],
            });
            if !keeps {
                return Some(false);
            }
            std::mem::swap(&mut here, &mut there);
        }
        Some(met.iter().zip(&self.pairs).all(|(met, _)| *met))
    }
}

/// The rows that show the values of the lines at the samples judged, and then again and again from sample `steady`.
pub fn rows(lines: &[Line], cells: &[bool], samples: usize, steady: usize, count: usize) -> Vec<u64> {
    let signs = signs(lines);
    let width = lines.len();
    (0..count)
        .map(|t| {
            let wrapped = |t: usize| if t < samples { t } else { steady + (t - steady) % (samples - steady) };
            let mut row = 0;
            let mut name = 0;
            for (k, line) in lines.iter().enumerate() {
                if !signs[k].used() || !line.has_variable() {
                    continue;
                }
                let shown = match *line {
                    Line::Since(_, _) | Line::WeakSince(_, _) if t == 0 => matches!(*line, Line::WeakSince(_, _)),
                    Line::Since(_, _) | Line::WeakSince(_, _) => cells[wrapped(t - 1) * width + k],
                    _ => cells[wrapped(t) * width + k],
                };
                row |= (shown as u64) << name;
                name += 1;
            }
            row
        })
        .collect()
}

// ---- checksums

const START: u64 = 0xcbf2_9ce4_8422_2325;

fn more(sum: u64, byte: u8) -> u64 {
    (sum ^ byte as u64).wrapping_mul(0x0100_0000_01b3)
}

pub fn of_cells<T: Truth>(cells: &[T]) -> u64 {
    cells.iter().fold(START, |sum, cell| more(sum, cell.byte()))
}

pub fn of_machine(machine: &Machine) -> u64 {
    let three = |sum, (a, b, c)| more(more(more(sum, a), b), c);
    let gates = machine.gates.iter().map(|gate| match *gate {
        Gate::Const(bit) => (0, bit as u8, 0),
        Gate::Signal(a) => (1, a, 0),
        Gate::Var(a) => (2, a, 0),
        Gate::Not(a) => (3, a, 0),
        Gate::And(a, b) => (4, a, b),
        Gate::Or(a, b) => (5, a, b),
    });
    let variables = machine.variables.iter().map(|variable| match *variable {
        Variable::Next(a) => (6, a, 0),
        Variable::Until(a, b) => (7, a, b),
        Variable::Back(a, start) => (8, a, start as u8),
    });
    let pairs = machine.pairs.iter().map(|pair| (9, pair.from, pair.to));
    more(gates.chain(variables).chain(pairs).fold(START, three), machine.root)
}
