//! Random jobs, crossbars and texts, right and damaged.

use crate::run::Run;
use reference::host::{numbers_of, record_bytes, record_of};
use reference::random::*;
use reference::reading;

/// Valid jobs of all sizes through every call.
pub fn jobs(run: &mut Run) {
    for _ in 0..run.times(50) {
        let job = job(&mut run.rng);
        let text = job.text();
        let need = job.rows() * job.columns();
        let more = run.rng.below(50);
        let mapped = run.map(&text, 72, need);
        run.demand(mapped.number() == 0, || format!("refused: {mapped:?}\n"));
        run.map(&text, 72 + more, need + more);
        let (record, cells) = (mapped.output(0), mapped.output(1));

        // Printed and loaded again it is the same crossbar.
        let room = listing(&record_of(record).unwrap(), cells).len();
        let printed = run.print(record, cells, room);
        let loaded = run.load(printed.output(0), 72, need);
        run.demand(loaded == mapped, || {
            format!("{loaded:?} is not {mapped:?}\n")
        });

        for _ in 0..4 {
            let setting = setting(&mut run.rng, job.switches);
            let need = 2 * (job.rows() + job.columns());
            let length = need + run.rng.below(5);
            let lit = run.light(record, cells, &setting, length);
            let output = run.rng.below(job.outs.len());
            let walked = run.walk(&text, &setting, output as u32);
            let row = numbers_of(record)[4 + output];
            let value = reading(&numbers_of(lit.output(0)), row);
            run.demand(u64::from(value) == walked.value(), || {
                format!("output {output} under {setting:?} of\n{text:?}\n")
            });
        }
    }
}

/// Crossbars that no job need give: print, load and light.
pub fn crossbars(run: &mut Run) {
    for _ in 0..run.times(40) {
        let (record, cells) = crossbar(&mut run.rng);
        let bytes = record_bytes(&record);
        let text = listing(&record, &cells);
        let more = run.rng.below(20);
        let printed = run.print(&bytes, &cells, text.len() + more);
        run.known(&printed, text.len() as u64, &[&text]);
        let loaded = run.load(&text, 72 + more, cells.len() + more);
        run.known(&loaded, cells.len() as u64, &[&bytes, &cells]);
        // Zeros past the cells are right.
        let mut longer = cells.clone();
        longer.resize(cells.len() + more, 0);
        run.print(&bytes, &longer, text.len());
        for _ in 0..5 {
            let setting = setting(&mut run.rng, record.switches);
            let need = 2 * usize::from(record.rows + record.columns);
            run.light(&bytes, &cells, &setting, need);
            run.light(&bytes, &longer, &setting, need + more);
        }
    }
}

/// A refused job: map and walk say the same, whatever the other slices are.
fn refused_job(run: &mut Run, damaged: &Damaged, switches: u16) {
    let due = damaged.expected;
    let record = run.rng.below(100);
    let cells = run.rng.below(300);
    let answer = run.map(&damaged.text, record, cells);
    run.known_refusal(&answer, due.number, due.line);
    let setting = any_setting(&mut run.rng, switches);
    let output = run.rng.below(40) as u32;
    let answer = run.walk(&damaged.text, &setting, output);
    run.known_refusal(&answer, due.number, due.line);
}

/// Each ground, 1 to 10, alone in a job.
pub fn grounds(run: &mut Run) {
    for _ in 0..run.times(40) {
        let job = job(&mut run.rng);
        for ground in 1..=10 {
            if let Some(damaged) = damaged_job(&mut run.rng, &job, ground) {
                refused_job(run, &damaged, job.switches);
            }
        }
    }
}

/// Two grounds in a job, on one line or on two.
pub fn two_grounds(run: &mut Run) {
    for _ in 0..run.times(5) {
        let job = job(&mut run.rng);
        for first in 1..=10 {
            for second in 1..=10 {
                if run.leaves_out() {
                    continue;
                }
                let damaged = twice_damaged_job(&mut run.rng, &job, first, second);
                if let Some(damaged) = damaged {
                    refused_job(run, &damaged, job.switches);
                }
            }
        }
    }
}

/// Jobs of too many rows or columns, alone and beside other grounds.
pub fn too_wide(run: &mut Run) {
    for _ in 0..run.times(30) {
        let job = job_too_wide(&mut run.rng);
        let line = 3 + job.nodes.len() + job.outs.len();
        let wide = Damaged {
            text: job.text(),
            expected: reference::Refusal {
                number: 11,
                line: line as u32,
            },
        };
        refused_job(run, &wide, job.switches);
        let ground = run.rng.from_to(1, 10) as u32;
        if let Some(damaged) = damaged_job(&mut run.rng, &job, ground) {
            refused_job(run, &damaged, job.switches);
        }
    }
}

/// Listings with one ground or two.
pub fn listings(run: &mut Run) {
    let grounds = [1, 2, 3, 10, 12];
    for _ in 0..run.times(12) {
        let (record, cells) = any_crossbar(&mut run.rng);
        for first in grounds {
            for second in [0, 1, 2, 3, 10, 12] {
                if run.leaves_out() {
                    continue;
                }
                let damaged = match second {
                    0 => damaged_listing(&mut run.rng, &record, &cells, first),
                    _ => twice_damaged_listing(&mut run.rng, &record, &cells, first, second),
                };
                let Some(damaged) = damaged else { continue };
                let due = damaged.expected;
                let record_length = run.rng.below(100);
                let cells_length = run.rng.below(cells.len() + 10);
                let answer = run.load(&damaged.text, record_length, cells_length);
                run.known_refusal(&answer, due.number, due.line);
            }
        }
    }
}

/// A length that may fit or not. By 2 it is one number of light too short or
/// too long.
fn length(rng: &mut Rng, need: usize) -> usize {
    match rng.below(9) {
        0 => rng.below(need + 1),
        1 => need.saturating_sub(1),
        2 => need.saturating_sub(2),
        3 => need + 1,
        4 => need + 2,
        5 => need + rng.below(100),
        _ => need,
    }
}

/// Everything drawn without a plan, with buffers that fit or not.
pub fn anything(run: &mut Run) {
    for _ in 0..run.times(60) {
        let text = any_job_text(&mut run.rng);
        let (need, switches) = match reference::read_job(&text) {
            Ok(job) => (job.rows() * job.columns(), job.switches),
            Err(_) => (100, 3),
        };
        let record = length(&mut run.rng, 72);
        let cells = length(&mut run.rng, need);
        run.map(&text, record, cells);
        let setting = any_setting(&mut run.rng, switches);
        let output = run.rng.below(34) as u32;
        run.walk(&text, &setting, output);

        let text = any_listing_text(&mut run.rng);
        let need = match reference::load(&text, usize::MAX) {
            Ok((_, cells)) => cells.len(),
            Err(_) => 100,
        };
        let record = length(&mut run.rng, 72);
        let cells = length(&mut run.rng, need);
        run.load(&text, record, cells);

        let (record, cells) = any_record(&mut run.rng);
        let bytes = record_bytes(&record);
        let setting = any_setting(&mut run.rng, record.switches);
        let wires = usize::from(record.rows.min(300)) + usize::from(record.columns.min(300));
        let first_rounds = length(&mut run.rng, 2 * wires);
        run.light(&bytes, &cells, &setting, first_rounds);
        let need = listing(&record, &cells).len();
        let text = length(&mut run.rng, need);
        run.print(&bytes, &cells, text);

        // Bytes that mean nothing.
        let many = run.rng.below(200);
        let noise: Vec<u8> = (0..many).map(|_| run.rng.below(256) as u8).collect();
        run.map(&noise, 80, 80);
        run.walk(&noise, &noise, noise.len() as u32);
        run.load(&noise, 80, 80);
        run.light(&noise, &noise, &noise, many);
        let mut record = noise.clone();
        record.resize(72, 0);
        run.print(&record, &noise, 80);
    }
}
