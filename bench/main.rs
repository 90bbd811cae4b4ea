//! Measures the proved library beside plain safe Rust: both do the same work on the same inputs in one run, by turns, and
//! have to come to the same checksums. Prints a Markdown table.
//!
//!     main                            the table
//!     main --inputs                   what is worked on
//!     main --works                    the names of the works
//!     main --one WORK SIDE ROUNDS     one side (ours or rust) of one work, alone, for an instruction count

#[path = "plain.rs"]
mod plain;

use std::hint::black_box;
use std::time::{Duration, Instant};

/// The functions of libfigures.a. A slice is a pointer and then a length.
mod ours {
    unsafe extern "C" {
        pub fn figures_judge_two(
            lines: *const u8, lines_length: usize, signals: u32, stem: u32, cycle: u32, masks: *const u32,
            masks_length: usize, cells: usize, rounds: u32,
        ) -> u64;
        pub fn figures_judge_three(
            lines: *const u8, lines_length: usize, signals: u32, stem: u32, cycle: u32, masks: *const u32,
            masks_length: usize, lost: *const u32, lost_length: usize, cells: usize, rounds: u32,
        ) -> u64;
        pub fn figures_translate(lines: *const u8, lines_length: usize, rounds: u32) -> u64;
        pub fn figures_check(
            lines: *const u8, lines_length: usize, signals: u32, stem: u32, cycle: u32, masks: *const u32,
            masks_length: usize, rows: *const u64, rows_length: usize, back: usize, rounds: u32,
        ) -> u64;
    }
}

/// What a sheet is judged on, and rows that are an accepting run.
struct Input {
    about: &'static str,
    lines: Vec<u8>,
    signals: u32,
    stem: u32,
    cycle: u32,
    masks: Vec<u32>,
    lost: Vec<u32>,
    samples: usize,
    rows: Vec<u64>,
    back: usize,
}

/// Numbers from a seed.
struct Numbers(u64);

impl Numbers {
    fn next(&mut self) -> u64 {
        self.0 = self.0.wrapping_add(0x9e37_79b9_7f4a_7c15);
        let mut x = self.0;
        x = (x ^ (x >> 30)).wrapping_mul(0xbf58_476d_1ce4_e5b9);
        x = (x ^ (x >> 27)).wrapping_mul(0x94d0_49bb_1331_11eb);
        x ^ (x >> 31)
    }

    fn below(&mut self, limit: usize) -> usize {
        (self.next() % limit as u64) as usize
    }
}

/// The lines of these codes. A signal is one of `signals`; left is one of the `near` last lines, right any lower one.
fn sheet(codes: &[u8], near: usize, signals: u32, numbers: &mut Numbers) -> Vec<u8> {
    let mut bytes = Vec::new();
    for (k, &code) in codes.iter().enumerate() {
        let left = match code {
            0 => numbers.below(2),
            1 => numbers.below(signals as usize),
            _ => k - 1 - numbers.below(k.min(near)),
        };
        let right = match code {
            3 | 4 | 6 | 7 | 10 | 11 => numbers.below(k),
            _ => 0,
        };
        bytes.extend([code, left as u8, right as u8]);
    }
    bytes
}

fn shuffled(mut codes: Vec<u8>, numbers: &mut Numbers) -> Vec<u8> {
    for i in (1..codes.len()).rev() {
        codes.swap(i, numbers.below(i + 1));
    }
    codes
}

impl Input {
    /// Of the first seed with which the rule holds at sample 0, so that its run is accepting.
    fn new(about: &'static str, codes: impl Fn(&mut Numbers) -> Vec<u8>, near: usize, [signals, stem, cycle]: [u32; 3]) -> Input {
        for seed in 1.. {
            let numbers = &mut Numbers(seed);
            let codes = codes(numbers);
            let lines = sheet(&codes, near, signals, numbers);
            let masks: Vec<u32> = (0..stem + cycle).map(|_| numbers.next() as u32 & ((1 << signals) - 1)).collect();
            let lost = masks.iter().map(|_| (numbers.next() & numbers.next() & numbers.next()) as u32 & ((1 << signals) - 1)).collect();
            let plain_lines = plain::sheet(&lines).unwrap();
            let (samples, steady) = plain::extent(&plain_lines, stem as usize, cycle as usize);
            let tape = plain::Tape { signals, stem: stem as usize, cycle: cycle as usize, masks: masks.clone() };
            let mut cells = vec![false; plain_lines.len() * samples];
            if plain::judge(&plain_lines, &tape, &mut cells) == Some(true) {
                let rows = plain::rows(&plain_lines, &cells, samples, steady, 4352);
                let back = rows.len() - cycle as usize;
                return Input { about, lines, signals, stem, cycle, masks, lost, samples, rows, back };
            }
        }
        unreachable!()
    }

    fn cells(&self) -> usize {
        self.lines.len() / 3 * self.samples
    }

    fn tape(&self) -> plain::Tape {
        plain::Tape { signals: self.signals, stem: self.stem as usize, cycle: self.cycle as usize, masks: self.masks.clone() }
    }
}

#[derive(Clone, Copy)]
enum Kind {
    JudgeTwo,
    JudgeThree,
    Translate,
    Check,
}

struct Work<'a> {
    name: &'static str,
    kind: Kind,
    input: &'a Input,
    rounds: u32,
}

#[derive(Clone, Copy, PartialEq)]
enum Side {
    Ours,
    Rust,
}

impl Work<'_> {
    fn run(&self, side: Side, rounds: u32) -> u64 {
        match side {
            Side::Ours => self.ours(rounds),
            Side::Rust => self.rust(rounds),
        }
    }

    fn ours(&self, rounds: u32) -> u64 {
        let i = self.input;
        let (lines, length) = (i.lines.as_ptr(), i.lines.len());
        // each pointer comes with the length of its own vector, and nothing is written to
        unsafe {
            match self.kind {
                Kind::JudgeTwo => ours::figures_judge_two(
                    lines, length, i.signals, i.stem, i.cycle, i.masks.as_ptr(), i.masks.len(), i.cells(), rounds,
                ),
                Kind::JudgeThree => ours::figures_judge_three(
                    lines, length, i.signals, i.stem, i.cycle, i.masks.as_ptr(), i.masks.len(), i.lost.as_ptr(),
                    i.lost.len(), i.cells(), rounds,
                ),
                Kind::Translate => ours::figures_translate(lines, length, rounds),
                Kind::Check => ours::figures_check(
                    lines, length, i.signals, i.stem, i.cycle, i.masks.as_ptr(), i.masks.len(), i.rows.as_ptr(),
                    i.rows.len(), i.back, rounds,
                ),
            }
        }
    }

    fn rust(&self, rounds: u32) -> u64 {
        let i = self.input;
        let lines = plain::sheet(&i.lines).unwrap();
        match self.kind {
            Kind::JudgeTwo => {
                let tape = i.tape();
                let mut cells = vec![false; i.cells()];
                for _ in 0..rounds {
                    black_box(plain::judge(black_box(&lines), black_box(&tape), &mut cells));
                }
                plain::of_cells(&cells)
            }
            Kind::JudgeThree => {
                let tape = plain::GappedTape { tape: i.tape(), lost: i.lost.clone() };
                let mut cells = vec![plain::Ternary::No; i.cells()];
                for _ in 0..rounds {
                    black_box(plain::judge(black_box(&lines), black_box(&tape), &mut cells));
                }
                plain::of_cells(&cells)
            }
            Kind::Translate => {
                let mut machine = plain::Machine::default();
                for _ in 0..rounds {
                    machine.translate(black_box(&lines));
                }
                plain::of_machine(&machine)
            }
            Kind::Check => {
                let tape = i.tape();
                let mut machine = plain::Machine::default();
                machine.translate(&lines);
                let accepted = (0..rounds).filter(|_| machine.check(black_box(&tape), black_box(&i.rows), i.back) == Some(true));
                accepted.count() as u64
            }
        }
    }

    /// The best time of a round of each side, in microseconds, taken by turns; the time of no round is taken off.
    fn measure(&self) -> [f64; 2] {
        assert_eq!(self.run(Side::Ours, 2), self.run(Side::Rust, 2), "{}", self.name);
        let mut best = [[Duration::MAX; 2]; 2];
        for _ in 0..100 {
            for (s, side) in [Side::Ours, Side::Rust].into_iter().enumerate() {
                for (r, rounds) in [0, self.rounds].into_iter().enumerate() {
                    let start = Instant::now();
                    black_box(self.run(side, rounds));
                    best[s][r] = best[s][r].min(start.elapsed());
                }
            }
        }
        best.map(|[none, all]| all.saturating_sub(none).as_secs_f64() * 1e6 / self.rounds as f64)
    }
}

fn main() {
    let mixed = |numbers: &mut Numbers| -> Vec<u8> {
        let others = (0..31).map(|i| 8 + i % 4).chain((0..27).map(|i| 2 + i % 6)).collect();
        [0, 0, 1, 1, 1, 1].into_iter().chain(shuffled(others, numbers)).collect()
    };
    let past = Input::new(
        "signal 0, and 63 lines that look back",
        |numbers| std::iter::once(1).chain((1..64).map(|_| 8 + numbers.below(4) as u8)).collect(),
        3,
        [1, 256, 64],
    );
    let all = Input::new(
        "all kinds: two constants, four signals, 31 lines that look back, and 27 of the six other codes",
        mixed,
        3,
        [4, 256, 64],
    );
    let used = Input::new("the same kinds, and each line's left operand is the line before it", mixed, 1, [4, 256, 64]);
    let small = Input::new("two signals, Y, !, U, S, | and W", |_| vec![1, 1, 8, 2, 6, 10, 4, 7], 3, [2, 32, 32]);
    let works = [
        Work { name: "judging two values, 64 lines that look back, N = 4,352", kind: Kind::JudgeTwo, input: &past, rounds: 8 },
        Work { name: "judging three values, 64 lines that look back, N = 4,352", kind: Kind::JudgeThree, input: &past, rounds: 8 },
        Work { name: "judging two values, 64 lines of all kinds, N = 2,304", kind: Kind::JudgeTwo, input: &all, rounds: 12 },
        Work { name: "judging three values, 64 lines of all kinds, N = 2,304", kind: Kind::JudgeThree, input: &all, rounds: 12 },
        Work { name: "judging two values, 8 lines, N = 128", kind: Kind::JudgeTwo, input: &small, rounds: 1_000 },
        Work { name: "judging three values, 8 lines, N = 128", kind: Kind::JudgeThree, input: &small, rounds: 1_000 },
        Work { name: "translating 64 lines of all kinds", kind: Kind::Translate, input: &used, rounds: 2_000 },
        Work { name: "checking a run of 4,352 rows, 64 lines of all kinds", kind: Kind::Check, input: &used, rounds: 2 },
    ];

    let arguments: Vec<String> = std::env::args().skip(1).collect();
    match arguments.iter().map(String::as_str).collect::<Vec<_>>()[..] {
        [] => {
            println!("| work | ours, µs | plain Rust, µs | ours / Rust |");
            println!("|---|---|---|---|");
            for work in &works {
                let [ours, rust] = work.measure();
                println!("| {} | {ours:.2} | {rust:.2} | {:.2} |", work.name, ours / rust);
            }
        }
        ["--inputs"] => {
            for input in [&past, &all, &used, &small] {
                let mut machine = plain::Machine::default();
                machine.translate(&plain::sheet(&input.lines).unwrap());
                println!(
                    "- {} lines ({}); signals {}, stem {}, cycle {}, N {}; gates {}, variables {}, pairs {}",
                    input.lines.len() / 3, input.about, input.signals, input.stem, input.cycle, input.samples,
                    machine.gates.len(), machine.variables.len(), machine.pairs.len(),
                );
                let codes: Vec<String> = input.lines.chunks(3).map(|l| format!("{} {} {}", l[0], l[1], l[2])).collect();
                println!("  {}", codes.join(", "));
            }
        }
        ["--works"] => works.iter().for_each(|work| println!("{}", work.name)),
        ["--one", work, side, rounds] => {
            let work: usize = work.parse().expect("a work");
            let side = if side == "ours" { Side::Ours } else { Side::Rust };
            println!("{:x}", works[work].run(side, rounds.parse().expect("rounds")));
        }
        _ => panic!("no such arguments"),
    }
}
