//! The plain program beside the second implementation: the number and every
//! byte of every output slice, over right and damaged inputs and over slices
//! that are too short, as long as due, and longer.

use reference::host::{answer, record_bytes, Answer, Call};
use reference::random::*;
use reference::Record;

/// Makes the call with output slices that held other bytes before.
fn made(call: &Call) -> Answer {
    let slices = |lengths: &[usize]| -> Vec<Vec<u8>> {
        lengths.iter().map(|&length| vec![0xa5; length]).collect()
    };
    let mut outputs = match *call {
        Call::Map { record, cells, .. } | Call::Load { record, cells, .. } => {
            slices(&[record, cells])
        }
        Call::Walk { .. } => slices(&[]),
        Call::Light { first_rounds, .. } => slices(&[first_rounds]),
        Call::Print { text, .. } => slices(&[text]),
    };
    let word = match (call, outputs.as_mut_slice()) {
        (Call::Map { text, .. }, [record, cells]) => plain::map(text, record, cells),
        (Call::Load { text, .. }, [record, cells]) => plain::load(text, record, cells),
        (
            Call::Walk {
                text,
                setting,
                output,
            },
            _,
        ) => plain::walk(text, setting, *output),
        (
            Call::Light {
                record,
                cells,
                setting,
                ..
            },
            [first_rounds],
        ) => plain::light(record, cells, setting, first_rounds),
        (Call::Print { record, cells, .. }, [text]) => plain::print(record, cells, text),
        _ => unreachable!(),
    };
    Answer { word, outputs }
}

/// Compares one call; gives back the number of refusal.
fn same(call: Call) -> usize {
    let due = answer(&call);
    let had = made(&call);
    assert!(due == had, "{call:?}\ndue {due:?}\nhad {had:?}");
    due.number() as usize
}

/// A length around the one that is due.
fn near(rng: &mut Rng, due: usize) -> usize {
    match rng.below(6) {
        0 => due.saturating_sub(1),
        1 => due + rng.below(40),
        2 => rng.from_to(0, due),
        _ => due,
    }
}

#[test]
fn map_and_walk() {
    let mut rng = Rng::new(1);
    let mut met = [0; 16];
    for _ in 0..6000 {
        let text = any_job_text(&mut rng);
        let due = reference::map(&text, usize::MAX).map_or(9, |(_, cells)| cells.len());
        met[same(Call::Map {
            text: &text,
            record: near(&mut rng, 72),
            cells: near(&mut rng, due),
        })] += 1;
        let switches = reference::read_job(&text).map_or(3, |job| job.switches);
        met[same(Call::Walk {
            text: &text,
            setting: &any_setting(&mut rng, switches),
            output: rng.below(3) as u32,
        })] += 1;
    }
    for ground in (0..=11).chain(13..=14) {
        assert!(met[ground] > 20, "{ground} {met:?}");
    }
}

#[test]
fn load() {
    let mut rng = Rng::new(2);
    let mut met = [0; 16];
    for _ in 0..3000 {
        let text = any_listing_text(&mut rng);
        let due = reference::load(&text, usize::MAX).map_or(9, |(_, cells)| cells.len());
        met[same(Call::Load {
            text: &text,
            record: near(&mut rng, 72),
            cells: near(&mut rng, due),
        })] += 1;
    }
    for ground in [0, 1, 2, 3, 10, 12, 14] {
        assert!(met[ground] > 20, "{ground} {met:?}");
    }
}

fn light_and_print(rng: &mut Rng, record: &Record, cells: &[u8], met: &mut [usize; 16]) {
    let mut bytes = record_bytes(record);
    if rng.once_in(8) {
        bytes.resize(near(rng, bytes.len()), 0);
    }
    if rng.once_in(30) {
        bytes.push(rng.below(3) as u8);
    }
    let bytes = &bytes;
    // Two bytes for each wire.
    let due = 2 * (usize::from(record.rows) + usize::from(record.columns));
    met[same(Call::Light {
        record: bytes,
        cells,
        setting: &any_setting(rng, record.switches),
        first_rounds: near(rng, due),
    })] += 1;
    let due = reference::print(record, cells, usize::MAX).map_or(50, |text| text.len());
    met[same(Call::Print {
        record: bytes,
        cells,
        text: near(rng, due),
    })] += 1;
}

#[test]
fn records() {
    let mut rng = Rng::new(3);
    let mut met = [0; 16];
    for _ in 0..2500 {
        let (record, cells) = any_record(&mut rng);
        light_and_print(&mut rng, &record, &cells, &mut met);
    }
    for (rows, columns) in [(1, 0), (1, 1), (1, 128), (128, 0), (128, 1), (128, 128)] {
        let (record, cells) = stair(rows, columns);
        for _ in 0..20 {
            light_and_print(&mut rng, &record, &cells, &mut met);
        }
    }
    for ground in [0, 12, 13, 14] {
        assert!(met[ground] > 20, "{ground} {met:?}");
    }
}
