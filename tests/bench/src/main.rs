//! The time of each call, beside the plain program and beside the second
//! implementation in the same run:
//!
//!     bench [SECONDS]
//!
//! Prints a table of microseconds a call and the ratios library to plain
//! program and library to second implementation. Answers and output slices
//! of all three are compared before they are timed. The argument is the time
//! for each line of the table; without one it is half a second. A line that
//! misses its goal is marked; nothing fails for being slow.

use differential::{direct, MAX_LISTING};
use reference::diagrams::parity;
use reference::host::{self, record_bytes, Answer, Call};
use reference::random::{job_like, job_of_size, listing, setting_of, stair, Rng, Style, Wish};
use reference::{map_job, Label, Record};
use std::hint::black_box;
use std::process::ExitCode;
use std::time::{Duration, Instant};

/// The goals of docs/BENCHMARKS.md: library to plain program, at most, for
/// light and for the other calls.
const LIGHT_GOAL: f64 = 1.5;
const GOAL: f64 = 2.0;
/// Library to second implementation, at most.
const SECOND_GOAL: f64 = 1.5;
/// A chain to the rest after one round, at most.
const CHAIN_GOAL: f64 = 4.0;
/// A library's time up to here, in seconds, misses no goal.
const SHORT: f64 = 1e-6;

/// Seconds for one call of each, the least of many short stretches. They are
/// timed by turns, so that what else the machine does meets all of them.
fn time(limit: Duration, calls: &mut [&mut dyn FnMut(); 3]) -> [f64; 3] {
    fn stretch(call: &mut dyn FnMut(), count: u32) -> f64 {
        let began = Instant::now();
        for _ in 0..count {
            call();
        }
        began.elapsed().as_secs_f64()
    }
    // As many calls as take about two milliseconds.
    let counts = calls.each_mut().map(|call| {
        let mut count = 1;
        while stretch(call, count) < 2e-3 {
            count *= 2;
        }
        count
    });
    let began = Instant::now();
    let mut best = [f64::MAX; 3];
    while began.elapsed() < limit || best[0] == f64::MAX {
        for ((call, best), count) in calls.iter_mut().zip(&mut best).zip(counts) {
            *best = best.min(stretch(call, count) / f64::from(count));
        }
    }
    best
}

/// The output slices of a call, as long as the call says.
struct Slices {
    record: Vec<u8>,
    cells: Vec<u8>,
    first_rounds: Vec<u8>,
    text: Vec<u8>,
}

impl Slices {
    fn new(call: &Call) -> Slices {
        let (record, cells, first_rounds, text) = match *call {
            Call::Map { record, cells, .. } | Call::Load { record, cells, .. } => {
                (record, cells, 0, 0)
            }
            Call::Walk { .. } => (0, 0, 0, 0),
            Call::Light { first_rounds, .. } => (0, 0, first_rounds, 0),
            Call::Print { text, .. } => (0, 0, 0, text),
        };
        let slice = |length: usize| vec![0xa5; length];
        Slices {
            record: slice(record),
            cells: slice(cells),
            first_rounds: slice(first_rounds),
            text: slice(text),
        }
    }

    /// The answer with the slices that the call has.
    fn answer(self, call: &Call, word: u64) -> Answer {
        let outputs = match call {
            Call::Map { .. } | Call::Load { .. } => vec![self.record, self.cells],
            Call::Walk { .. } => vec![],
            Call::Light { .. } => vec![self.first_rounds],
            Call::Print { .. } => vec![self.text],
        };
        Answer { word, outputs }
    }
}

/// The library.
fn library(call: &Call, to: &mut Slices) -> u64 {
    match *black_box(call) {
        Call::Map { text, .. } => direct::map(text, &mut to.record, &mut to.cells),
        Call::Load { text, .. } => direct::load(text, &mut to.record, &mut to.cells),
        Call::Walk {
            text,
            setting,
            output,
        } => direct::walk(text, setting, output),
        Call::Light {
            record,
            cells,
            setting,
            ..
        } => direct::light(record, cells, setting, &mut to.first_rounds),
        Call::Print { record, cells, .. } => direct::print(record, cells, &mut to.text),
    }
}

/// The plain program.
fn plain_program(call: &Call, to: &mut Slices) -> u64 {
    match *black_box(call) {
        Call::Map { text, .. } => plain::map(text, &mut to.record, &mut to.cells),
        Call::Load { text, .. } => plain::load(text, &mut to.record, &mut to.cells),
        Call::Walk {
            text,
            setting,
            output,
        } => plain::walk(text, setting, output),
        Call::Light {
            record,
            cells,
            setting,
            ..
        } => plain::light(record, cells, setting, &mut to.first_rounds),
        Call::Print { record, cells, .. } => plain::print(record, cells, &mut to.text),
    }
}

/// The second implementation, without the copies that the comparison of whole
/// slices needs.
fn second(call: &Call) {
    match *black_box(call) {
        Call::Map { text, cells, .. } => {
            let _ = black_box(reference::map(text, cells));
        }
        Call::Load { text, cells, .. } => {
            let _ = black_box(reference::load(text, cells));
        }
        Call::Walk {
            text,
            setting,
            output,
        } => {
            let _ = black_box(reference::walk(text, setting, output as usize));
        }
        Call::Light {
            record,
            cells,
            setting,
            first_rounds,
        } => {
            if let Some(record) = host::record_of(record) {
                // The second implementation counts numbers, of two bytes each.
                let room = first_rounds / 2;
                let _ = black_box(reference::light(&record, cells, setting, room));
            }
        }
        Call::Print {
            record,
            cells,
            text,
        } => {
            if let Some(record) = host::record_of(record) {
                let _ = black_box(reference::print(&record, cells, text));
            }
        }
    }
}

struct Bench {
    limit: Duration,
    failed: bool,
    missed: u32,
    /// Name and library's time of each line.
    lines: Vec<(String, f64)>,
}

impl Bench {
    /// One line of the table.
    fn line(&mut self, name: &str, call: Call) {
        let due = host::answer(&call);
        for (who, make) in [
            ("library", library as fn(&Call, &mut Slices) -> u64),
            ("plain program", plain_program),
        ] {
            let mut slices = Slices::new(&call);
            let word = make(&call, &mut slices);
            let had = slices.answer(&call, word);
            if had != due {
                println!("{name}: {who} answers {:#x} for {:#x}", had.word, due.word);
                self.failed = true;
            }
        }
        let (mut one, mut other) = (Slices::new(&call), Slices::new(&call));
        let [library, plain, second] = time(
            self.limit,
            &mut [
                &mut || {
                    black_box(library(&call, &mut one));
                },
                &mut || {
                    black_box(plain_program(&call, &mut other));
                },
                &mut || second(&call),
            ],
        );
        let goal = match call {
            Call::Light { .. } => LIGHT_GOAL,
            _ => GOAL,
        };
        let missed = library > SHORT && (library / plain > goal || library / second > SECOND_GOAL);
        println!(
            "{name:<46}{:>10.2}{:>10.2}{:>10.2}{:>9.2}{:>9.2}{}",
            library * 1e6,
            plain * 1e6,
            second * 1e6,
            library / plain,
            library / second,
            self.mark(missed)
        );
        self.lines.push((String::from(name), library));
    }

    fn map(&mut self, name: &str, text: &[u8]) {
        let size = reference::map(text, usize::MAX).map_or(128 * 128, |(_, cells)| cells.len());
        let call = Call::Map {
            text,
            record: host::RECORD_BYTES,
            cells: size,
        };
        self.line(&format!("map, {name}"), call);
    }

    fn walk(&mut self, name: &str, text: &[u8], setting: &[u8]) {
        let call = Call::Walk {
            text,
            setting,
            output: 0,
        };
        self.line(&format!("walk, {name}"), call);
    }

    fn light(&mut self, name: &str, head: &Record, cells: &[u8]) {
        let call = Call::Light {
            record: &record_bytes(head),
            cells,
            setting: &vec![0; usize::from(head.switches)],
            first_rounds: 2 * usize::from(head.rows + head.columns),
        };
        self.line(&format!("light, {name}"), call);
    }

    /// Print, and load of what it prints.
    fn print_and_load(&mut self, name: &str, head: &Record, cells: &[u8]) {
        let text = listing(head, cells);
        assert!(!text.is_empty() && text.len() <= MAX_LISTING);
        let call = Call::Print {
            record: &record_bytes(head),
            cells,
            text: text.len(),
        };
        self.line(&format!("print, {name}"), call);
        let call = Call::Load {
            text: &text,
            record: host::RECORD_BYTES,
            cells: cells.len(),
        };
        self.line(&format!("load, {name}"), call);
    }

    /// Counts a goal that was missed and says so.
    fn mark(&mut self, missed: bool) -> &'static str {
        self.missed += u32::from(missed);
        if missed {
            "  missed"
        } else {
            ""
        }
    }

    fn library_time(&self, name: &str) -> f64 {
        let line = self.lines.iter().find(|line| line.0 == name);
        line.map_or(f64::NAN, |line| line.1)
    }

    /// A chain beside a crossbar at rest with the same other cells.
    fn chains(&mut self, others: &str, chains: &[&str], rest: &str) {
        let longest = chains
            .iter()
            .map(|name| self.library_time(name))
            .fold(0.0, f64::max);
        let ratio = longest / self.library_time(rest);
        println!(
            "a chain takes {ratio:.1} times the rest after one round, the other cells being {others}{}",
            self.mark(ratio > CHAIN_GOAL)
        );
    }
}

/// A job with so many nodes and two outputs.
fn job_with_nodes(nodes: usize) -> reference::Job {
    let wish = Wish {
        switches: 64.min(nodes),
        nodes,
        outputs: 2,
        style: Style::NoB,
        most_wires: 128,
    };
    job_like(&mut Rng::new(7), wish)
}

fn jobs(bench: &mut Bench, largest: &reference::Job) {
    let none = job_with_nodes(0).text();
    let few = job_with_nodes(16).text();
    let text = largest.text();
    // The same size at random, with 32 outputs.
    let wish = Wish {
        switches: 64,
        nodes: 254,
        outputs: 32,
        style: Style::NoB,
        most_wires: 128,
    };
    let random = job_like(&mut Rng::new(5), wish).text();
    // 127 nodes, all `b`: as many rows and columns.
    let wish = Wish {
        nodes: 127,
        style: Style::AllB,
        ..wish
    };
    let both = job_like(&mut Rng::new(6), wish).text();
    // The last line is at fault.
    let mut late = text.clone();
    late.pop();
    // A walk that passes every switch.
    let deep = parity(64).diagram;
    let deep = deep.text(&deep.labels_two_colours());
    let one = setting_of(1, 64);

    bench.map("no node", &none);
    bench.map("16 nodes", &few);
    bench.map("254 nodes, 128 by 128", &text);
    bench.map("254 nodes at random, 32 outputs", &random);
    bench.map("all b, 128 by 128", &both);
    bench.map("refused at the last line", &late);
    bench.walk("no node", &none, &[]);
    bench.walk("254 nodes", &text, &one);
    bench.walk("64 switches deep", &deep, &one);
}

/// The chain from the last wires to the first.
fn turned(chain: &[u8]) -> Vec<u8> {
    let mut cells = vec![0; 128 * 128];
    for row in 0..128 {
        for column in 0..128 {
            if chain[row * 128 + column] != 0 {
                let other = if row == 0 { 0 } else { 128 - row };
                cells[other * 128 + 127 - column] = 1;
            }
        }
    }
    cells
}

/// The cells that are on, and in place of off ones cells that do not pass.
fn among(cells: &[u8]) -> Vec<u8> {
    let code = |&code: &u8| if code == 0 { 128 } else { 129 };
    cells.iter().map(code).collect()
}

/// Crossbars of 128 by 128 with 64 switches.
fn crossbars(bench: &mut Bench, (job_head, mapped): &(Record, Vec<u8>)) {
    let head = Record {
        rows: 128,
        columns: 128,
        switches: 64,
        outputs: 32,
        outs: [127; 32],
    };
    let (_, chain) = stair(128, 128);
    // The first half of the chain alone.
    let mut half = chain.clone();
    half[64 * 128..].fill(0);
    let mut rest = vec![0; 128 * 128];
    rest[..128].fill(1);
    let dark = vec![0; 128 * 128];
    bench.light("at rest after one round", &head, &rest);
    bench.light(
        "the same among cells that do not pass",
        &head,
        &among(&rest),
    );
    bench.light("a chain through all wires", &head, &chain);
    bench.light("the chain in falling order", &head, &turned(&chain));
    bench.light(
        "the chain among cells that do not pass",
        &head,
        &among(&chain),
    );
    bench.light("a chain through half of the wires", &head, &half);
    bench.light("no cell on", &head, &dark);
    bench.light("every cell on", &head, &[1; 128 * 128]);
    bench.light("the largest job's crossbar", job_head, mapped);
    // Every cell filled with the longest form, the largest job's listing, and
    // outputs alone.
    bench.print_and_load("every cell filled", &head, &[128; 128 * 128]);
    bench.print_and_load("the largest job's crossbar", job_head, mapped);
    bench.print_and_load("no cell", &head, &dark);
}

fn main() -> ExitCode {
    let seconds = std::env::args().nth(1).and_then(|word| word.parse().ok());
    let mut bench = Bench {
        limit: Duration::from_secs_f64(seconds.unwrap_or(0.5)),
        failed: false,
        missed: 0,
        lines: Vec::new(),
    };
    // 254 nodes, 128 rows and 128 columns.
    let Some(mut largest) = job_of_size(128, 127) else {
        return ExitCode::FAILURE;
    };
    largest.one = Label::B;

    println!(
        "{:<46}{:>10}{:>10}{:>10}{:>9}{:>9}",
        "microseconds a call", "library", "plain", "second", "/ plain", "/ second"
    );
    jobs(&mut bench, &largest);
    crossbars(&mut bench, &map_job(&largest));
    bench.chains(
        "off",
        &[
            "light, a chain through all wires",
            "light, the chain in falling order",
        ],
        "light, at rest after one round",
    );
    bench.chains(
        "cells that do not pass",
        &["light, the chain among cells that do not pass"],
        "light, the same among cells that do not pass",
    );
    println!("{} missed", bench.missed);
    if bench.failed {
        ExitCode::FAILURE
    } else {
        ExitCode::SUCCESS
    }
}
