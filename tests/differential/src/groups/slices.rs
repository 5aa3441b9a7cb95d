//! Records, settings and buffers of all kinds.

use super::sheets::{A, A_LISTING, E, F, G};
use crate::run::Run;
use differential::{MAX_FIRST_ROUNDS_BYTES, MAX_LISTING};
use reference::diagrams::{HALF_ADDER, PARITY_OF_THREE, STATIC_CROSSBAR};
use reference::host::{numbers_of, record_bytes, record_of};
use reference::random::*;
use reference::{map_job, Record};

/// Light and print with this record and these cells.
fn both(run: &mut Run, record: &[u8], cells: &[u8], switches: u16) {
    if run.leaves_out() {
        return;
    }
    let setting = any_setting(&mut run.rng, switches);
    let rooms = [0, 1, 6, 7, 80, 81, MAX_FIRST_ROUNDS_BYTES, 599, 600];
    let room = run.rng.pick(&rooms).unwrap_or(0);
    run.light(record, cells, &setting, room);
    let room = run.rng.pick(&[0, 20, 60, 400, 3000]).unwrap_or(0);
    run.print(record, cells, room);
}

/// Each clause of ground 12 broken, every number of a record replaced, every
/// byte replaced, and records of other lengths.
pub fn records(run: &mut Run) {
    for _ in 0..run.times(20) {
        let (record, cells) = any_crossbar(&mut run.rng);
        for kind in 0..RECORD_DAMAGES {
            let damaged = damaged_record(&mut run.rng, &record, &cells, kind);
            if let Some((damaged, cells)) = damaged {
                let bytes = record_bytes(&damaged);
                let setting = any_setting(&mut run.rng, damaged.switches.min(70));
                let answer = run.light(&bytes, &cells, &setting, MAX_FIRST_ROUNDS_BYTES);
                run.known_refusal(&answer, 12, 0);
                let answer = run.print(&bytes, &cells, 500);
                run.known_refusal(&answer, 12, 0);
            }
        }
    }
    let numbers = [
        0, 1, 2, 3, 7, 31, 32, 33, 63, 64, 65, 127, 128, 129, 255, 256, 257, 258, 260, 288, 320,
        384, 512, 32768, 65280, 65535,
    ];
    for _ in 0..run.times(4) {
        let (record, cells) = small_crossbar(run);
        let bytes = record_bytes(&record);
        for place in 0..36 {
            for number in numbers {
                let mut changed = bytes.clone();
                changed[2 * place..2 * place + 2].copy_from_slice(&u16::to_le_bytes(number));
                both(run, &changed, &cells, record.switches);
            }
            for byte in [0, 1, 2, 3, 64, 128, 255] {
                for half in 0..2 {
                    let mut changed = bytes.clone();
                    changed[2 * place + half] = byte;
                    both(run, &changed, &cells, record.switches);
                }
            }
        }
        for place in 0..cells.len() {
            for code in 0..=255 {
                let mut changed = cells.clone();
                changed[place] = code;
                if code < 8 || run.rng.once_in(20) || code / 2 == 1 + record.switches as u8 {
                    both(run, &bytes, &changed, record.switches);
                }
            }
        }
        for length in (0..=80).chain([143, 144, 145]) {
            let mut changed = bytes.clone();
            changed.resize(length, 0);
            both(run, &changed, &cells, record.switches);
        }
        for length in 0..cells.len() + 4 {
            let mut changed = cells.clone();
            changed.resize(length, 0);
            both(run, &bytes, &changed, record.switches);
        }
        record_slices(run, &record, &cells);
    }
}

/// Zeros past a record are taken as if they were not there; another byte there
/// is ground 12, and so is a record cut short.
fn record_slices(run: &mut Run, record: &Record, cells: &[u8]) {
    let bytes = record_bytes(record);
    let setting = setting(&mut run.rng, record.switches);
    let first_rounds = 2 * usize::from(record.rows + record.columns);
    let text = listing(record, cells);
    let lit = run.light(&bytes, cells, &setting, first_rounds);
    for more in [1, 2, 56, 72, 300] {
        let mut longer = bytes.clone();
        longer.resize(bytes.len() + more, 0);
        let answer = run.light(&longer, cells, &setting, first_rounds);
        run.known_light(&answer, lit.word, &numbers_of(lit.output(0)));
        let answer = run.print(&longer, cells, text.len());
        run.known(&answer, text.len() as u64, &[&text]);
        let mut refused = vec![bytes[..bytes.len().saturating_sub(more)].to_vec()];
        for place in [bytes.len(), longer.len() - 1] {
            let mut damaged = longer.clone();
            damaged[place] = run.rng.from_to(1, 255) as u8;
            refused.push(damaged);
        }
        for slice in refused {
            let answer = run.light(&slice, cells, &setting, first_rounds);
            run.known_refusal(&answer, 12, 0);
            let answer = run.print(&slice, cells, text.len());
            run.known_refusal(&answer, 12, 0);
        }
    }
}

/// A valid crossbar of few cells.
fn small_crossbar(run: &mut Run) -> (Record, Vec<u8>) {
    loop {
        let (record, cells) = any_crossbar(&mut run.rng);
        if cells.len() <= 40 {
            return (record, cells);
        }
    }
}

/// Every length of every buffer from 0 to past the need.
pub fn small_buffers(run: &mut Run) {
    let mut jobs: Vec<Vec<u8>> = Vec::new();
    let mut listings: Vec<Vec<u8>> = Vec::new();
    if run.chunk == 0 {
        jobs.extend([A, E, F, G].iter().map(|text| text.as_bytes().to_vec()));
        for text in [A_LISTING, HALF_ADDER, STATIC_CROSSBAR, PARITY_OF_THREE] {
            listings.push(text.as_bytes().to_vec());
        }
    }
    for _ in 0..run.times(3) {
        let wish = Wish {
            switches: run.rng.below(5),
            nodes: run.rng.below(7),
            outputs: run.rng.from_to(1, 4),
            style: run.rng.pick(&STYLES).unwrap_or(Style::Mixed),
            most_wires: 128,
        };
        let job = job_like(&mut run.rng, wish);
        jobs.push(job.text());
        let ground = run.rng.from_to(1, 10) as u32;
        if let Some(damaged) = damaged_job(&mut run.rng, &job, ground) {
            jobs.push(damaged.text);
        }
        let (record, cells) = map_job(&job);
        listings.push(listing(&record, &cells));
        let (record, cells) = small_crossbar(run);
        listings.push(listing(&record, &cells));
        let ground = run.rng.pick(&[1, 2, 3, 10, 12]).unwrap_or(1);
        if let Some(damaged) = damaged_listing(&mut run.rng, &record, &cells, ground) {
            listings.push(damaged.text);
        }
    }
    for (text, is_job) in jobs
        .iter()
        .map(|text| (text, true))
        .chain(listings.iter().map(|text| (text, false)))
    {
        let made = if is_job {
            reference::map(text, usize::MAX)
        } else {
            reference::load(text, usize::MAX)
        };
        let need = made.as_ref().map_or(10, |(_, cells)| cells.len());
        let read = if is_job { Run::map } else { Run::load };
        for record in 0..=75 {
            if !run.leaves_out() {
                read(run, text, record, need);
                read(run, text, record, need.saturating_sub(1));
            }
        }
        for cells in 0..=need + 3 {
            if !run.leaves_out() {
                read(run, text, 72, cells);
                read(run, text, 71, cells);
                read(run, text, 100, cells);
            }
        }
        let Ok((record, cells)) = made else { continue };
        let bytes = record_bytes(&record);
        let setting = setting(&mut run.rng, record.switches);
        for length in 0..2 * usize::from(record.rows + record.columns) + 6 {
            if !run.leaves_out() {
                run.light(&bytes, &cells, &setting, length);
            }
        }
        for room in 0..listing(&record, &cells).len() + 4 {
            if !run.leaves_out() {
                run.print(&bytes, &cells, room);
            }
        }
    }
}

/// Need - 1, need and need + 1 at the largest sizes.
pub fn large_buffers(run: &mut Run) {
    for turn in 0..run.times(4) {
        let text = match turn % 4 {
            0 => job_of_size(128, 127).map(|mut job| {
                job.one = reference::Label::B;
                job.text()
            }),
            1 => job_of_size(128, run.rng.below(128)).map(|job| job.text()),
            2 => job_of_size(run.rng.from_to(3, 128), 128).map(|job| job.text()),
            _ => {
                let wish = Wish {
                    switches: 64,
                    nodes: 254,
                    outputs: 32,
                    style: run.rng.pick(&STYLES).unwrap_or(Style::Mixed),
                    most_wires: 128,
                };
                Some(job_like(&mut run.rng, wish).text())
            }
        };
        let Some(text) = text else { continue };
        let Ok((record, cells)) = reference::map(&text, usize::MAX) else {
            continue;
        };
        around(run, &record, &cells, Some(&text));
        // The same size with other cells, up to all of them filled.
        let one_in = run.rng.pick(&[1, 2, 10]).unwrap_or(1);
        let full: Vec<u8> = cells
            .iter()
            .map(|_| match run.rng.below(one_in) {
                0 => run.rng.from_to(0, 1 + 2 * usize::from(record.switches)) as u8,
                _ => 0,
            })
            .collect();
        around(run, &record, &full, None);
    }
    // The longest listing that there is.
    let record = Record {
        rows: 128,
        columns: 128,
        switches: 64,
        outputs: 32,
        outs: [127; 32],
    };
    let cells = [128; 128 * 128];
    around(run, &record, &cells, None);
    let longest = listing(&record, &cells).len();
    run.demand(longest <= MAX_LISTING, || {
        format!("a listing of {longest} bytes\n")
    });
    let bytes = record_bytes(&record);
    let answer = run.print(&bytes, &cells, MAX_LISTING);
    run.demand(answer.value() == longest as u64, || format!("{answer:?}\n"));
    // The most wires that there are.
    let setting = setting(&mut run.rng, record.switches);
    let answer = run.light(&bytes, &cells, &setting, MAX_FIRST_ROUNDS_BYTES);
    run.demand(answer.number() == 0, || format!("refused: {answer:?}\n"));
    let answer = run.light(&bytes, &cells, &setting, MAX_FIRST_ROUNDS_BYTES - 1);
    run.known_refusal(&answer, 14, 0);
}

/// Lengths around the need of light's numbers: one byte and one number less
/// and more, one byte a wire, and the ends.
fn lengths_around(first_rounds: usize) -> [usize; 10] {
    [
        first_rounds - 2,
        first_rounds - 1,
        first_rounds,
        first_rounds + 1,
        first_rounds + 2,
        first_rounds / 2,
        0,
        1,
        first_rounds + 300,
        first_rounds + 301,
    ]
}

/// Each buffer one too short, just right and one too long.
fn around(run: &mut Run, record: &Record, cells: &[u8], job: Option<&[u8]>) {
    let bytes = record_bytes(record);
    let text = listing(record, cells);
    let need = cells.len();
    for (record_length, cells_length) in [
        (72, need.saturating_sub(1)),
        (72, need),
        (72, need + 1),
        (71, need),
        (73, need),
        (71, need.saturating_sub(1)),
        (0, need),
        (72, 0),
        (300, need + 300),
    ] {
        if let Some(job) = job {
            run.map(job, record_length, cells_length);
        }
        run.load(&text, record_length, cells_length);
    }
    let setting = setting(&mut run.rng, record.switches);
    let first_rounds = 2 * usize::from(record.rows + record.columns);
    for length in lengths_around(first_rounds) {
        run.light(&bytes, cells, &setting, length);
    }
    for length in [text.len() - 1, text.len(), text.len() + 1, 0, 1] {
        run.print(&bytes, cells, length);
    }
    // Cells one too short, and one more that is 0 or is not.
    let mut longer = cells.to_vec();
    longer.push(0);
    run.print(&bytes, &longer, text.len());
    run.light(&bytes, &longer, &setting, first_rounds);
    longer[need] = 1;
    run.print(&bytes, &longer, text.len());
    run.light(&bytes, &longer, &setting, first_rounds);
    if need > 0 {
        run.print(&bytes, &cells[..need - 1], text.len());
        run.light(&bytes, &cells[..need - 1], &setting, first_rounds);
    }
}

/// Settings of every length with every wrong byte, and output numbers.
pub fn settings(run: &mut Run) {
    for _ in 0..run.times(12) {
        let switches = match run.rng.below(4) {
            0 => 0,
            1 => 64,
            _ => run.rng.from_to(1, 9),
        };
        let wish = Wish {
            switches,
            nodes: run.rng.below(20),
            outputs: run.rng.from_to(1, 32),
            style: run.rng.pick(&STYLES).unwrap_or(Style::Mixed),
            most_wires: 128,
        };
        let job = job_like(&mut run.rng, wish);
        let text = job.text();
        let (record, cells) = map_job(&job);
        let record = record_bytes(&record);
        let first_rounds = 2 * (job.rows() + job.columns());
        let outputs = job.outs.len() as u32;
        for length in 0..=70 {
            if run.leaves_out() {
                continue;
            }
            let setting: Vec<u8> = (0..length).map(|_| run.rng.below(2) as u8).collect();
            run.walk(&text, &setting, outputs - 1);
            run.light(&record, &cells, &setting, first_rounds);
        }
        for place in 0..switches {
            for byte in [2, 3, b'0', b'1', 127, 128, 254, 255] {
                if run.leaves_out() {
                    continue;
                }
                let mut setting = setting(&mut run.rng, job.switches);
                setting[place] = byte;
                let answer = run.walk(&text, &setting, 0);
                run.known_refusal(&answer, 13, 0);
                let answer = run.light(&record, &cells, &setting, first_rounds);
                run.known_refusal(&answer, 13, 0);
            }
        }
        let right = setting(&mut run.rng, job.switches);
        for output in (0..40).chain([255, 256, 257, 65535, 65536, u32::MAX - 1, u32::MAX]) {
            if run.leaves_out() {
                continue;
            }
            let answer = run.walk(&text, &right, output);
            if output >= outputs {
                run.known_refusal(&answer, 13, 0);
            }
        }
    }
}

/// Several grounds at once, of which the first in order is told.
pub fn order(run: &mut Run) {
    for _ in 0..run.times(40) {
        let job = job(&mut run.rng);
        let text = job.text();
        let (record, cells) = map_job(&job);
        let bytes = record_bytes(&record);
        let first_rounds = 2 * (job.rows() + job.columns());
        let wrong = damaged_setting(&mut run.rng, job.switches);

        // 13 before 14, 12 before both.
        for length in [first_rounds - 1, first_rounds - 2] {
            let answer = run.light(&bytes, &cells, &wrong, length);
            run.known_refusal(&answer, 13, 0);
        }
        let kind = run.rng.below(RECORD_DAMAGES);
        if let Some((record, cells)) = damaged_record(&mut run.rng, &record, &cells, kind) {
            let bytes = record_bytes(&record);
            let answer = run.light(&bytes, &cells, &wrong, 0);
            run.known_refusal(&answer, 12, 0);
            let answer = run.print(&bytes, &cells, 0);
            run.known_refusal(&answer, 12, 0);
        }
        let answer = run.light(&bytes[..71], &cells, &wrong, 0);
        run.known_refusal(&answer, 12, 0);

        // 10 before 14 and 13; 11 before both, and 10 before 11.
        let mut tail = text.clone();
        tail.push(b'\n');
        let line = 4 + (job.nodes.len() + job.outs.len()) as u32;
        let answer = run.map(&tail, 0, 0);
        run.known_refusal(&answer, 10, line);
        let answer = run.walk(&tail, &wrong, 99);
        run.known_refusal(&answer, 10, line);
        let wide = job_too_wide(&mut run.rng);
        let mut text = wide.text();
        let line = 3 + (wide.nodes.len() + wide.outs.len()) as u32;
        let answer = run.map(&text, 0, 0);
        run.known_refusal(&answer, 11, line);
        let answer = run.walk(&text, &[7; 70], 99);
        run.known_refusal(&answer, 11, line);
        text.push(b' ');
        let answer = run.map(&text, 0, 0);
        run.known_refusal(&answer, 10, line + 1);

        // In a listing 12 before 10, 10 before 14.
        let mut text = listing(&record, &cells);
        text.push(b'(');
        let answer = run.load(&text, 0, 0);
        let lines = text.iter().filter(|&&byte| byte == b'\n').count() as u32;
        run.known_refusal(&answer, 10, lines + 1);
        if let Some(damaged) = damaged_listing(&mut run.rng, &record, &cells, 12) {
            let mut text = damaged.text;
            text.extend_from_slice(b"more\n");
            let answer = run.load(&text, 0, 0);
            run.known_refusal(&answer, 12, damaged.expected.line);
        }
        let same = record_of(&bytes) == Some(record);
        run.demand(same, || format!("{record:?}\n"));
    }
}
