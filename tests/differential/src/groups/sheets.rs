//! The job sheets of document 01 with the answers that it gives, and the
//! limits of sizes.

use crate::run::Run;
use reference::diagrams::{HALF_ADDER, STATIC_CROSSBAR};
use reference::host::{numbers_of, record_bytes, record_of};
use reference::random::{job_of_size, setting_of};
use reference::{reading, Job, Label, Record};

pub const A: &str = "\
(job 2 2 1)
(one h)
(node 2 1 (0 1) v)
(node 3 0 (0 2) h)
(out 0 3)
(end)
";

pub const A_LISTING: &str = "\
(crossbar 2 1 2 1)
(cell 0 0 (yes 1))
(cell 1 0 (yes 0))
(out 0 1)
(end)
";

pub const E: &str = "\
(job 2 2 1)
(one h)
(node 2 1 (0 1) v)
(node 3 0 (2 1) b)
(out 0 3)
(end)
";

pub const F: &str = "\
(job 2 2 1)
(one h)
(node 2 1 (0 1) v)
(node 3 0 (2 1) h)
(out 0 3)
(end)
";

pub const G: &str = "\
(job 0 0 2)
(one h)
(out 0 0)
(out 1 1)
(end)
";

/// A record's bytes from its numbers.
fn record(rows: u16, columns: u16, switches: u16, out_rows: &[u16]) -> Vec<u8> {
    let mut outs = [0; 32];
    outs[..out_rows.len()].copy_from_slice(out_rows);
    record_bytes(&Record {
        rows,
        columns,
        switches,
        outputs: out_rows.len() as u16,
        outs,
    })
}

/// Sheets A to I and the line on sizes below them.
pub fn sheets(run: &mut Run) {
    // A, with buffers that just fit and longer ones.
    let a_record = record(2, 1, 2, &[1]);
    for more in [0, 1, 9, 300] {
        let answer = run.map(A.as_bytes(), 72 + more, 2 + more);
        run.known(&answer, 2, &[&a_record, &[4, 2]]);
        let answer = run.load(A_LISTING.as_bytes(), 72 + more, 2 + more);
        run.known(&answer, 2, &[&a_record, &[4, 2]]);
        let answer = run.print(&a_record, &[4, 2], A_LISTING.len() + more);
        run.known(&answer, A_LISTING.len() as u64, &[A_LISTING.as_bytes()]);
    }
    // B, C, D and the setting that is left.
    for (setting, rounds, first_rounds, value) in [
        ([1, 1], 2, [1, 3, 2], 1),
        ([1, 0], 0, [1, 0, 0], 0),
        ([0, 1], 1, [1, 0, 2], 0),
        ([0, 0], 0, [1, 0, 0], 0),
    ] {
        for length in 0..6 {
            let answer = run.light(&a_record, &[4, 2], &setting, length);
            run.known_refusal(&answer, 14, 0);
        }
        for length in [6, 7, 8, 9, 206, 207] {
            let answer = run.light(&a_record, &[4, 2], &setting, length);
            run.known_light(&answer, rounds, &first_rounds);
        }
        let answer = run.walk(A.as_bytes(), &setting, 0);
        run.known(&answer, value, &[]);
        let answer = run.walk(A.as_bytes(), &setting, 1);
        run.known_refusal(&answer, 13, 0);
    }
    // E.
    let e_record = record(2, 2, 2, &[1]);
    let answer = run.map(E.as_bytes(), 72, 4);
    run.known(&answer, 4, &[&e_record, &[4, 2, 3, 1]]);
    for (setting, rounds, first_rounds) in [
        ([0, 0], 0, [1, 0, 0, 0]),
        ([0, 1], 3, [1, 3, 2, 4]),
        ([1, 0], 2, [1, 3, 0, 2]),
        ([1, 1], 2, [1, 3, 2, 2]),
    ] {
        let answer = run.light(&e_record, &[4, 2, 3, 1], &setting, 8);
        run.known_light(&answer, rounds, &first_rounds);
        let answer = run.walk(E.as_bytes(), &setting, 0);
        run.known(&answer, u64::from(setting[0] | setting[1]), &[]);
    }
    // F.
    for room in [0, 1, 4, 100] {
        let answer = run.map(F.as_bytes(), room, room);
        run.known_refusal(&answer, 9, 4);
    }
    let answer = run.walk(F.as_bytes(), &[0, 0], 0);
    run.known_refusal(&answer, 9, 4);
    // G.
    let g_record = record(2, 0, 0, &[1, 0]);
    let answer = run.map(G.as_bytes(), 72, 0);
    run.known(&answer, 0, &[&g_record, &[]]);
    let answer = run.light(&g_record, &[], &[], 4);
    run.known_light(&answer, 0, &[1, 0]);
    for output in 0..2 {
        let answer = run.walk(G.as_bytes(), &[], output);
        run.known(&answer, u64::from(output), &[]);
    }
    // H.
    let h_record = record(3, 2, 0, &[0, 1, 2]);
    let answer = run.load(STATIC_CROSSBAR.as_bytes(), 72, 6);
    run.known(&answer, 6, &[&h_record, &[1, 0, 0, 0, 1, 0]]);
    let answer = run.light(&h_record, &[1, 0, 0, 0, 1, 0], &[], 10);
    run.known_light(&answer, 2, &[1, 0, 3, 2, 0]);
    run.known(&answer, 2, &[&[1, 0, 0, 0, 3, 0, 2, 0, 0, 0]]);
    // I.
    let i_record = record(3, 2, 2, &[2, 1]);
    let i_cells = [4, 5, 2, 0, 3, 2];
    let answer = run.load(HALF_ADDER.as_bytes(), 72, 6);
    run.known(&answer, 6, &[&i_record, &i_cells]);
    for number in 0..4 {
        let setting = setting_of(number, 2);
        let sum = setting[0] + setting[1];
        let answer = run.light(&i_record, &i_cells, &setting, 10);
        let numbers = numbers_of(answer.output(0));
        let readings = (reading(&numbers, 2), reading(&numbers, 1));
        run.demand(readings == (sum % 2, sum / 2), || {
            format!("half adder under {setting:?}: {numbers:?}\n")
        });
    }
    // Empty text.
    let answer = run.map(b"", 72, 9);
    run.known_refusal(&answer, 1, 1);
    let answer = run.load(b"", 72, 9);
    run.known_refusal(&answer, 1, 1);
    let answer = run.walk(b"", b"", 0);
    run.known_refusal(&answer, 1, 1);
    // The document's own words on lines: K = 0 is 2.
    let answer = run.map(b"(job 0 0 0)\n(one h)\n(end)\n", 72, 9);
    run.known_refusal(&answer, 2, 1);
}

/// Jobs at the limits, and every first line near to them.
pub fn sizes(run: &mut Run) {
    let edges = [1, 2, 3, 5, 31, 63, 64, 65, 100, 126, 127, 128, 129, 130];
    for (place, rows) in edges.into_iter().enumerate() {
        if place as u64 % 8 != run.chunk {
            continue;
        }
        for columns in [0, 1, 2, 3, 64, 65, 126, 127, 128, 129, 130] {
            for kind in 0..3 {
                let Some(mut job) = job_of_size(rows, columns) else {
                    continue;
                };
                match kind {
                    1 => job.outs.push(0),
                    2 => job.one = Label::B,
                    _ => {}
                }
                if !run.leaves_out() {
                    one_size(run, &job);
                }
            }
        }
    }
    match run.chunk {
        6 => job_heads(run),
        7 => listing_heads(run),
        _ => {}
    }
}

/// A job of a given size: accepted with all that follows, or 11.
fn one_size(run: &mut Run, job: &Job) {
    let text = job.text();
    let (rows, columns) = (job.rows(), job.columns());
    let answer = run.map(&text, 72, rows * columns);
    let setting = setting_of(0x5555_5555_5555_5555, job.switches);
    run.walk(&text, &setting, 0);
    if rows > 128 || columns > 128 {
        let line = 3 + job.nodes.len() + job.outs.len();
        run.known_refusal(&answer, 11, line as u32);
        return;
    }
    run.known(
        &answer,
        (rows * columns) as u64,
        &[&answer.outputs[0], &answer.outputs[1]],
    );
    let sizes = record_of(answer.output(0)).map(|r| (r.rows, r.columns));
    run.demand(sizes == Some((rows as u16, columns as u16)), || {
        format!("{rows} rows and {columns} columns, had {sizes:?}\n")
    });
    let first_rounds = 2 * (rows + columns);
    run.light(answer.output(0), answer.output(1), &setting, first_rounds);
    // The same with one more node in the first line is another size.
    let head = format!("(job 64 {} ", job.nodes.len());
    let more = format!("(job 64 {} ", job.nodes.len() + 1);
    let text = String::from_utf8_lossy(&text).replacen(&head, &more, 1);
    let answer = run.map(text.as_bytes(), 72, rows * columns);
    if job.nodes.len() == 254 {
        run.known_refusal(&answer, 2, 1);
    } else {
        run.known_refusal(&answer, 1, 3 + job.nodes.len() as u32);
    }
}

/// Numbers near to a limit of some first line, and such that would be right
/// if only their low byte or low two bytes were kept.
const FIGURES: [u32; 40] = [
    0, 1, 2, 3, 9, 10, 31, 32, 33, 34, 63, 64, 65, 66, 99, 100, 127, 128, 129, 130, 253, 254, 255,
    256, 257, 258, 259, 288, 289, 320, 512, 999, 1000, 9999, 10000, 65535, 65536, 65537, 65538,
    99999,
];

/// First lines of a job before lines that fit one of them.
fn job_heads(run: &mut Run) {
    for v in FIGURES {
        for k in [0u32, 1, 2, 32, 33, 256, 257, 65537] {
            for n in [0, 1] {
                if run.leaves_out() {
                    continue;
                }
                let mut text = format!("(job {v} {n} {k})\n(one h)\n");
                if n == 1 {
                    text += &format!("(node 2 {} (0 1) b)\n", v.saturating_sub(1));
                }
                for j in 0..k.min(40) {
                    text += &format!("(out {j} {n})\n");
                }
                text += "(end)\n";
                run.map(text.as_bytes(), 72, 8);
                let setting = vec![1; v.min(80) as usize];
                run.walk(text.as_bytes(), &setting, 0);
                run.walk(text.as_bytes(), &setting, k.wrapping_sub(1));
                run.walk(text.as_bytes(), &setting, k);
            }
        }
    }
    for n in FIGURES {
        for v in [0, 1, 64, 65] {
            let text = format!("(job {v} {n} 1)\n(one b)\n(out 0 1)\n(end)\n");
            run.map(text.as_bytes(), 72, 8);
        }
    }
}

/// First lines of a listing, likewise.
fn listing_heads(run: &mut Run) {
    for first in FIGURES {
        for second in FIGURES {
            for kind in 0..6 {
                if run.leaves_out() {
                    continue;
                }
                let (r, c, v, k) = match kind {
                    0 => (first, second, 0, 1),
                    1 => (first, 0, second, 1),
                    2 => (first, 1, 1, second),
                    3 => (1, first, second, 1),
                    4 => (2, first, 64, second),
                    _ => (128, 128, first, second),
                };
                let mut text = format!("(crossbar {r} {c} {v} {k})\n");
                for j in 0..k.min(40) {
                    text += &format!("(out {j} {})\n", r.saturating_sub(1));
                }
                text += "(end)\n";
                let room = (r * c).min(16_400) as usize;
                let answer = run.load(text.as_bytes(), 72, room);
                if answer.number() == 0 {
                    run.print(answer.output(0), answer.output(1), text.len());
                    let setting = vec![0; v as usize];
                    let first_rounds = 2 * (r + c) as usize;
                    run.light(answer.output(0), answer.output(1), &setting, first_rounds);
                }
            }
        }
    }
}
