//! Small texts with every small damage.

use super::sheets::{A, A_LISTING, E, F, G};
use crate::run::Run;
use reference::diagrams::{HALF_ADDER, PARITY_OF_THREE, STATIC_CROSSBAR};

/// A job with every kind of line and label.
const EVERY_KIND: &str = "\
(job 3 4 2)
(one h)
(node 2 2 (0 1) v)
(node 3 1 (2 0) h)
(node 4 1 (2 1) b)
(node 5 0 (4 3) v)
(out 0 4)
(out 1 0)
(end)
";

/// A job with figures of two digits.
const TWO_DIGITS: &str = "\
(job 12 3 3)
(one b)
(node 2 11 (1 0) b)
(node 3 10 (2 1) v)
(node 4 9 (3 0) h)
(out 0 4)
(out 1 1)
(out 2 2)
(end)
";

/// A listing with every kind of line.
const EVERY_CELL: &str = "\
(crossbar 12 11 64 2)
(cell 0 0 (yes 1))
(cell 0 10 (on))
(cell 1 1 (no 0))
(cell 10 0 (no 63))
(cell 11 10 (yes 63))
(out 0 11)
(out 1 1)
(end)
";

/// The smallest texts there are.
const LEAST_JOB: &str = "(job 0 0 1)\n(one h)\n(out 0 1)\n(end)\n";
const LEAST_LISTING: &str = "(crossbar 1 0 0 1)\n(out 0 0)\n(end)\n";

const JOBS: [&str; 7] = [A, E, F, G, EVERY_KIND, TWO_DIGITS, LEAST_JOB];
const LISTINGS: [&str; 6] = [
    A_LISTING,
    HALF_ADDER,
    STATIC_CROSSBAR,
    PARITY_OF_THREE,
    EVERY_CELL,
    LEAST_LISTING,
];

/// A text that may be a job or a listing goes to every call that reads one.
fn read(run: &mut Run, text: &[u8], is_job: bool, turn: usize) {
    if run.leaves_out() {
        return;
    }
    // Now and then the buffers do not fit.
    let record = if turn % 11 < 1 { turn % 75 } else { 72 };
    let cells = if turn % 13 < 1 { turn % 5 } else { 140 };
    if is_job {
        run.map(text, record, cells);
        let setting = [1; 12];
        run.walk(text, &setting[..[2, 3, 0, 12][turn % 4]], turn as u32 % 3);
    } else {
        run.load(text, record, cells);
    }
}

/// Each text with whether it is a job.
fn all() -> impl Iterator<Item = (&'static [u8], bool)> {
    let jobs = JOBS.iter().map(|text| (text.as_bytes(), true));
    let listings = LISTINGS.iter().map(|text| (text.as_bytes(), false));
    jobs.chain(listings)
}

/// Every shorter text, and each with a line feed put at its end.
pub fn truncations(run: &mut Run) {
    for (place, (text, is_job)) in all().enumerate() {
        if place as u64 % 2 != run.chunk {
            continue;
        }
        for length in 0..=text.len() {
            let mut short = text[..length].to_vec();
            read(run, &short, is_job, length);
            short.push(b'\n');
            read(run, &short, is_job, length + 1);
            // The first bytes left out in place of the last.
            read(run, &text[length..], is_job, length + 2);
        }
    }
}

/// Every byte replaced by others, left out, or with others put before it.
pub fn bytes(run: &mut Run) {
    let some = b"\0\t\n\r ()-+.,;'\"0123456789:/`abehnostuvxyz@AHVB{}~\x7f\x80\xa0\xb0\xff";
    for (number, (text, is_job)) in all().enumerate() {
        // The sheet A's texts are given every other byte there is.
        let every = text == A.as_bytes() || text == A_LISTING.as_bytes();
        for place in 0..=text.len() {
            if (place + number) as u64 % 16 != run.chunk {
                continue;
            }
            let mut without = text.to_vec();
            if place < text.len() {
                without.remove(place);
                read(run, &without, is_job, place);
            }
            for value in 0..=255u8 {
                if !every && !some.contains(&value) {
                    continue;
                }
                let mut damaged = text.to_vec();
                damaged.insert(place, value);
                read(run, &damaged, is_job, usize::from(value) + place);
                if place < text.len() {
                    damaged.remove(place + 1);
                    read(run, &damaged, is_job, usize::from(value) + place + 1);
                }
            }
        }
    }
}

/// Where the figures of a text stand.
fn figure_places(text: &[u8]) -> Vec<std::ops::Range<usize>> {
    let mut places = Vec::new();
    let mut at = 0;
    while at < text.len() {
        let digits = text[at..]
            .iter()
            .take_while(|byte| byte.is_ascii_digit())
            .count();
        if digits > 0 {
            places.push(at..at + digits);
        }
        at += digits.max(1);
    }
    places
}

/// Every figure replaced by others, one at a time and two at a time.
pub fn figures(run: &mut Run) {
    let others = [
        "",
        "0",
        "1",
        "2",
        "3",
        "4",
        "5",
        "6",
        "7",
        "10",
        "11",
        "12",
        "13",
        "31",
        "32",
        "33",
        "63",
        "64",
        "65",
        "127",
        "128",
        "129",
        "254",
        "255",
        "256",
        "257",
        "258",
        "259",
        "260",
        "300",
        "512",
        "999",
        "1000",
        "9999",
        "10000",
        "65535",
        "65536",
        "65537",
        "65538",
        "65539",
        "65540",
        "99999",
        "00",
        "01",
        "000",
        "007",
        "00000",
        "00001",
        "100000",
        "000000",
        "000001",
        "65536000",
        "4294967296",
        "4294967297",
        "18446744073709551616",
        "18446744073709551617",
        "-1",
        "-0",
        "+1",
        "1.",
        "1 ",
        " 1",
        "1_0",
        "0x1",
        "1e1",
        "a",
        "(1)",
        "1 1",
    ];
    let few = [
        "0", "1", "2", "3", "4", "12", "64", "65", "128", "257", "65537", "01", "100000",
    ];
    for (number, (text, is_job)) in all().enumerate() {
        if number as u64 % 4 != run.chunk {
            continue;
        }
        let places = figure_places(text);
        let mut turn = 0;
        let put = |text: &[u8], place: &std::ops::Range<usize>, figure: &str| {
            let mut damaged = text[..place.start].to_vec();
            damaged.extend_from_slice(figure.as_bytes());
            damaged.extend_from_slice(&text[place.end..]);
            damaged
        };
        for (first, place) in places.iter().enumerate() {
            for figure in others {
                turn += 1;
                read(run, &put(text, place, figure), is_job, turn);
            }
            for later in places.iter().skip(first + 1) {
                for figure in few {
                    for other in few.iter().step_by(3) {
                        turn += 1;
                        // The later one first, so that the places still fit.
                        let damaged = put(&put(text, later, other), place, figure);
                        read(run, &damaged, is_job, turn);
                    }
                }
            }
        }
    }
}

/// Every line left out, doubled, exchanged with another, or replaced by a
/// line of some other form.
pub fn lines(run: &mut Run) {
    let forms = [
        "",
        " ",
        "()",
        "(",
        "(end)",
        "(end) ",
        "(END)",
        "(one h)",
        "(one v)",
        "(one b)",
        "(one ?)",
        "(lot 0)",
        "(job 2 2 1)",
        "(raw 2 2 1)",
        "(crossbar 2 1 2 1)",
        "(node 2 1 (0 1) v)",
        "(node 2 1 (1 0) b)",
        "(node 3 0 (0 2) h)",
        "(node 3 0 (0 2) v)",
        "(node 3 0 (2 2) b)",
        "(node 4 0 (0 1) b)",
        "(node 3 1 (0 1) b)",
        "(node 2 0 (0 1) h)",
        "(node 2 0 (0 0) b)",
        "(node 2 0 (1 1) b)",
        "(out 0 0)",
        "(out 0 1)",
        "(out 0 2)",
        "(out 1 1)",
        "(out 1 0)",
        "(out 0 5)",
        "(out 0 6)",
        "(cell 0 0 (on))",
        "(cell 0 0 (off))",
        "(cell 0 0 (yes 0))",
        "(cell 1 0 (no 1))",
        "(cell 1 1 (yes 2))",
        "(cell 1 1 (no 64))",
        "(cell 0 1 (no))",
        "(cell 0 1 (on 0))",
        "(cell 0 1 on)",
        "(cell 0 1 (yes))",
        "(set 0 0)",
        "(reads 0 0)",
        "(rounds 0)",
        "(refused 1 1)",
    ];
    for (number, (text, is_job)) in all().enumerate() {
        if number as u64 % 2 != run.chunk {
            continue;
        }
        let lines: Vec<&[u8]> = text.split_inclusive(|&byte| byte == b'\n').collect();
        let mut turn = 0;
        for place in 0..lines.len() {
            let mut dropped = lines.clone();
            dropped.remove(place);
            read(run, &dropped.concat(), is_job, turn);
            for other in 0..lines.len() {
                turn += 1;
                let mut changed = lines.clone();
                changed.swap(place, other);
                read(run, &changed.concat(), is_job, turn);
                let mut changed = lines.clone();
                changed.insert(other, lines[place]);
                read(run, &changed.concat(), is_job, turn);
                changed = lines.clone();
                changed[other] = lines[place];
                read(run, &changed.concat(), is_job, turn);
                changed.truncate(other);
                read(run, &changed.concat(), is_job, turn);
            }
            for form in forms {
                turn += 1;
                let line = format!("{form}\n");
                let mut changed = lines.clone();
                changed[place] = line.as_bytes();
                read(run, &changed.concat(), is_job, turn);
                changed = lines.clone();
                changed.insert(place, line.as_bytes());
                read(run, &changed.concat(), is_job, turn);
                changed = lines.clone();
                changed.insert(place + 1, form.as_bytes());
                read(run, &changed.concat(), is_job, turn);
            }
        }
    }
}
