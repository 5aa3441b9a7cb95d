//! Readings: the lamp, the walk and arithmetic agree.

use crate::run::Run;
use reference::diagrams::{functions as all_functions, large_functions as all_large, Function};
use reference::host::{number_bytes, record_bytes, Answer, Call};
use reference::random::*;
use reference::{light, map_job, no, random, reading, walk_job, yes, Job, Record};

thread_local! {
    /// The functions, built once for each thread.
    static SMALL: Vec<Function> = all_functions();
    static LARGE: Vec<Function> = all_large();
}

/// One chunk for each function.
pub fn function_count() -> u64 {
    SMALL.with(Vec::len) as u64
}

/// The crossbar of a job, from the call itself.
fn mapped(run: &mut Run, job: &Job) -> (Record, Vec<u8>) {
    let text = job.text();
    run.map(&text, 72, job.rows() * job.columns());
    map_job(job)
}

/// One setting: the first rounds as they must be, every output read off them,
/// and the walk of some outputs.
fn one_setting(
    run: &mut Run,
    job: &Job,
    text: &[u8],
    crossbar: (&Record, &[u8]),
    setting: &[u8],
    due: &[u8],
    walks: std::ops::Range<usize>,
) {
    let (record, cells) = crossbar;
    let wires = job.rows() + job.columns();
    let (rounds, first_rounds) = match light(record, cells, setting, wires) {
        Ok(answer) => answer,
        Err(refusal) => return run.fault(format!("{refusal:?}\n")),
    };
    for (output, &value) in due.iter().enumerate() {
        let had = reading(&first_rounds, record.outs[output]);
        run.demand(had == value, || {
            format!("output {output} reads {had} under {setting:?}\n")
        });
    }
    run.compare(
        &Call::Light {
            record: &record_bytes(record),
            cells,
            setting,
            first_rounds: 2 * wires,
        },
        &Answer {
            word: u64::from(rounds),
            outputs: vec![number_bytes(&first_rounds)],
        },
    );
    for output in walks {
        run.compare(
            &Call::Walk {
                text,
                setting,
                output: output as u32,
            },
            &Answer {
                word: u64::from(due[output]),
                outputs: Vec::new(),
            },
        );
    }
}

/// A function with every labelling under these settings.
fn one_function(
    run: &mut Run,
    function: &Function,
    settings: impl Fn(&mut Run, u16) -> Vec<Vec<u8>>,
) {
    for labels in function.diagram.labellings() {
        let job = function.diagram.job(&labels);
        let text = job.text();
        if job.rows() > 128 || job.columns() > 128 {
            let line = 3 + job.nodes.len() + job.outs.len();
            let answer = run.map(&text, 72, 16_384);
            run.known_refusal(&answer, 11, line as u32);
            continue;
        }
        let (record, cells) = mapped(run, &job);
        for (turn, setting) in settings(run, job.switches).iter().enumerate() {
            if run.leaves_out() {
                continue;
            }
            let due = (function.truth)(setting);
            // All outputs are walked when there are few settings, one by
            // turns when there are many.
            let walks = if job.switches <= 6 {
                0..due.len()
            } else {
                let one = turn % due.len();
                one..one + 1
            };
            one_setting(run, &job, &text, (&record, &cells), setting, &due, walks);
        }
    }
}

/// Adders, comparators, multipliers and others under every setting, with
/// their truth from arithmetic.
pub fn functions(run: &mut Run) {
    SMALL.with(|list| {
        one_function(run, &list[run.chunk as usize], |_, switches| {
            (0..1u64 << switches)
                .map(|number| setting_of(number, switches))
                .collect()
        });
    });
}

/// Those with too many switches for every setting.
pub fn large_functions(run: &mut Run) {
    LARGE.with(|list| {
        let function = &list[run.chunk as usize % list.len()];
        one_function(run, function, |run, switches| {
            (0..run.times(50))
                .map(|_| setting(&mut run.rng, switches))
                .collect()
        });
    });
}

/// Random jobs of up to 12 switches under every setting.
pub fn readings(run: &mut Run) {
    for turn in 0..run.times(6) {
        let most = match turn {
            0 => 12,
            1 => 9,
            _ => 6,
        };
        let job = small_job(&mut run.rng, most);
        let text = job.text();
        let (record, cells) = mapped(run, &job);
        for number in 0..1u64 << job.switches {
            if run.leaves_out() {
                continue;
            }
            let setting = setting_of(number, job.switches);
            let due: Vec<u8> = (0..job.outs.len())
                .map(|output| walk_job(&job, &setting, output).unwrap_or(9))
                .collect();
            let walks = if job.switches <= 4 {
                0..due.len()
            } else {
                let one = number as usize % due.len();
                one..one + 1
            };
            one_setting(run, &job, &text, (&record, &cells), &setting, &due, walks);
        }
    }
}

/// A crossbar with a setting, and what light must answer.
struct Lamp {
    record: Vec<u8>,
    cells: Vec<u8>,
    setting: Vec<u8>,
    rounds: u64,
    first_rounds: Vec<u16>,
}

impl Lamp {
    fn check(&self, run: &mut Run) {
        let length = 2 * self.first_rounds.len();
        let answer = run.light(&self.record, &self.cells, &self.setting, length);
        run.known_light(&answer, self.rounds, &self.first_rounds);
    }
}

/// A chain through wires in any order: each step conducts under the setting
/// and no other cell does. So one wire is lit in each round.
fn snake(rng: &mut Rng, rows: u16, columns: u16, switches: u16) -> Lamp {
    let setting = setting(rng, switches);
    let width = usize::from(columns);
    let literal = |rng: &mut Rng, conducts: bool| {
        if switches == 0 || (conducts && rng.once_in(4)) {
            return u8::from(conducts);
        }
        if !conducts && rng.once_in(3) {
            return 0;
        }
        let switch = rng.below(usize::from(switches)) as u16;
        if (setting[usize::from(switch)] == 1) == conducts {
            yes(switch)
        } else {
            no(switch)
        }
    };
    let mut cells: Vec<u8> = (0..usize::from(rows) * width)
        .map(|_| literal(rng, false))
        .collect();
    let mut rows_left: Vec<usize> = (1..usize::from(rows)).collect();
    let mut columns_left: Vec<usize> = (0..width).collect();
    let mut first_rounds = vec![0; usize::from(rows) + width];
    first_rounds[0] = 1;
    let (mut row, mut steps) = (0, 0);
    while !columns_left.is_empty() {
        let column = columns_left.remove(rng.below(columns_left.len()));
        cells[row * width + column] = literal(rng, true);
        steps += 1;
        first_rounds[usize::from(rows) + column] = steps + 1;
        if rows_left.is_empty() {
            break;
        }
        row = rows_left.remove(rng.below(rows_left.len()));
        cells[row * width + column] = literal(rng, true);
        steps += 1;
        first_rounds[row] = steps + 1;
    }
    let mut outs = [0; 32];
    for out in &mut outs {
        *out = rng.below(usize::from(rows)) as u16;
    }
    let record = Record {
        rows,
        columns,
        switches,
        outputs: 32,
        outs,
    };
    Lamp {
        record: record_bytes(&record),
        cells,
        setting,
        rounds: u64::from(steps),
        first_rounds,
    }
}

/// Crossbars that need many rounds, or few with many cells.
pub fn lamp(run: &mut Run) {
    for _ in 0..run.times(20) {
        let most = run.rng.pick(&[2, 5, 20, 60]).unwrap_or(5);
        let rows = run.rng.from_to(1, most) as u16;
        let columns = run.rng.from_to(0, most) as u16;
        let switches = run.rng.pick(&[0, 1, 5, 63, 64]).unwrap_or(0);
        snake(&mut run.rng, rows, columns, switches).check(run);
        let (record, cells) = stair(rows, columns);
        let length = 2 * usize::from(rows + columns);
        let answer = run.light(&record_bytes(&record), &cells, &[], length);
        let due = stair_first_rounds(rows, columns);
        let last = due.iter().copied().max().unwrap_or(1);
        run.known_light(&answer, u64::from(last - 1), &due);
    }
    // The largest: a chain through all 256 wires, all cells on, one round.
    let switches = run.rng.pick(&[0, 64]).unwrap_or(0);
    let mut lamp = snake(&mut run.rng, 128, 128, switches);
    lamp.check(run);
    run.demand(lamp.rounds == 255, || format!("{} rounds\n", lamp.rounds));
    lamp.cells = vec![1; 16_384];
    lamp.rounds = 2;
    lamp.first_rounds[..128].fill(3);
    lamp.first_rounds[128..].fill(2);
    lamp.first_rounds[0] = 1;
    lamp.check(run);
    lamp.cells[128..].fill(0);
    lamp.rounds = 1;
    lamp.first_rounds[1..128].fill(0);
    lamp.check(run);
    for _ in 0..run.times(10) {
        let (record, cells) = crossbar(&mut run.rng);
        let other = random::setting(&mut run.rng, record.switches);
        let length = 2 * usize::from(record.rows + record.columns);
        run.light(&record_bytes(&record), &cells, &other, length);
    }
}
