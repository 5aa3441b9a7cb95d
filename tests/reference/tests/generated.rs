//! Seeded jobs, crossbars and damaged copies of them.

use reference::host::{record_bytes, Call};
use reference::random::*;
use reference::*;
use std::collections::VecDeque;

/// The codes of the cells that conduct under a setting, not by the function
/// that light uses: on, and for each switch `yes` when it is 1 and `no` when it
/// is 0.
fn conducting(setting: &[u8]) -> [bool; 256] {
    let mut codes = [false; 256];
    codes[1] = true;
    for (switch, &value) in setting.iter().enumerate() {
        codes[3 + 2 * switch - usize::from(value)] = true;
    }
    codes
}

/// The cells of a wire, each with the wire that it joins this one to.
fn cells_of(wire: usize, rows: usize, columns: usize, cells: &[u8]) -> Vec<(usize, u8)> {
    if wire < rows {
        (0..columns)
            .map(|column| (rows + column, cells[wire * columns + column]))
            .collect()
    } else {
        (0..rows)
            .map(|row| (row, cells[row * columns + wire - rows]))
            .collect()
    }
}

/// Document 01, "What an output reads", by another way than rounds: for each
/// wire the least count of conducting cells of a chain from row 0, by a search
/// that goes from each wire over its cells, the nearest wires first.
fn shortest_chains(record: &Record, cells: &[u8], setting: &[u8]) -> Vec<Option<u32>> {
    let conducting = conducting(setting);
    let rows = usize::from(record.rows);
    let columns = usize::from(record.columns);
    let mut chains = vec![None; rows + columns];
    chains[0] = Some(0);
    let mut queue = VecDeque::from([(0, 0)]);
    while let Some((wire, length)) = queue.pop_front() {
        for (other, code) in cells_of(wire, rows, columns, cells) {
            if chains[other].is_none() && conducting[usize::from(code)] {
                chains[other] = Some(length + 1);
                queue.push_back((other, length + 1));
            }
        }
    }
    chains
}

/// Req 01: a wire's number less 1 is the least count of conducting cells of
/// any chain to it, and a wire that no chain comes to has 0. The largest number
/// is the count of rounds plus 1.
fn check_light(record: &Record, cells: &[u8], setting: &[u8]) -> (u32, Vec<u16>) {
    let chains = shortest_chains(record, cells, setting);
    let (rounds, first_rounds) = light(record, cells, setting, chains.len()).unwrap();
    let less_one: Vec<Option<u32>> = first_rounds
        .iter()
        .map(|&number| u32::from(number).checked_sub(1))
        .collect();
    assert_eq!(less_one, chains);
    let largest = first_rounds.iter().copied().max().map(u32::from);
    assert_eq!(largest, Some(rounds + 1));
    (rounds, first_rounds)
}

/// Req 01 for the host: two bytes a number, low first, then zeros to the end
/// of the slice.
fn check_host_light(record: &Record, cells: &[u8], setting: &[u8], more: usize) {
    let (rounds, first_rounds) = light(record, cells, setting, usize::MAX).unwrap();
    let mut due = Vec::new();
    for number in first_rounds {
        due.push((number % 256) as u8);
        due.push((number / 256) as u8);
    }
    due.resize(due.len() + more, 0);
    let answer = host::answer(&Call::Light {
        record: &record_bytes(record),
        cells,
        setting,
        first_rounds: due.len(),
    });
    assert_eq!(answer.word, u64::from(rounds));
    assert_eq!(answer.outputs, [due]);
}

#[test]
fn jobs_are_accepted_and_agree() {
    let mut rng = Rng::new(1);
    let (mut full, mut widest, mut longest, mut dark) = (0, 0, 0, 0);
    for _ in 0..1500 {
        let job = job(&mut rng);
        let text = job.text();
        assert_eq!(read_job(&text).as_ref(), Ok(&job));
        let table = node_table(&text);
        for (index, node) in job.nodes.iter().enumerate() {
            let due = [node.switch, node.low, node.high, node.label.code()];
            assert_eq!(table[index], due);
        }
        assert!(table[job.nodes.len()..]
            .iter()
            .all(|entry| *entry == [0; 4]));

        let (record, cells) = map(&text, job.rows() * job.columns()).unwrap();
        let edges = job.nodes.iter().flat_map(|node| [node.low, node.high]);
        let edges = edges.filter(|&child| child != 0).count();
        let both = job
            .nodes
            .iter()
            .filter(|node| node.label == Label::B)
            .count();
        let both = both + usize::from(job.one == Label::B);
        let filled = cells.iter().filter(|&&code| code != OFF).count();
        assert_eq!(filled, edges + both);

        let listing = print(&record, &cells, usize::MAX).unwrap();
        assert_eq!(map_program(&text), listing);
        assert_eq!(load(&listing, cells.len()), Ok((record, cells.clone())));

        for _ in 0..4 {
            let setting = setting(&mut rng, job.switches);
            let (rounds, first_rounds) = check_light(&record, &cells, &setting);
            let mut reads = String::new();
            for (output, &row) in record.outs[..job.outs.len()].iter().enumerate() {
                let value = reading(&first_rounds, row);
                assert_eq!(walk_job(&job, &setting, output), Ok(value));
                reads += &format!("(reads {output} {value})\n");
                dark += usize::from(value == 0);
            }
            assert_eq!(
                walk(&text, &setting, 0),
                Ok(reading(&first_rounds, record.outs[0]))
            );
            let printed = format!("(rounds {rounds})\n{reads}(end)\n");
            let input = light_input(&setting, &listing);
            assert_eq!(light_program(&input), printed.as_bytes());
            longest = longest.max(rounds);
        }
        full += usize::from(job.nodes.len() == 254);
        widest = widest.max(job.rows()).max(job.columns());
    }
    // The generator comes to the limits, not only near to them.
    assert!(full > 0);
    assert_eq!(widest, 128);
    assert!(longest > 20);
    assert!(dark > 0);
}

#[test]
fn small_jobs_under_every_setting() {
    let mut rng = Rng::new(2);
    for _ in 0..400 {
        let job = small_job(&mut rng, 8);
        let (record, cells) = map(&job.text(), usize::MAX).unwrap();
        for number in 0..1 << job.switches {
            let setting = setting_of(number, job.switches);
            let (_, first_rounds) = check_light(&record, &cells, &setting);
            for (output, &row) in record.outs[..job.outs.len()].iter().enumerate() {
                let value = reading(&first_rounds, row);
                assert_eq!(walk_job(&job, &setting, output), Ok(value));
            }
        }
    }
}

#[test]
fn crossbars_print_load_and_light() {
    let mut rng = Rng::new(3);
    for _ in 0..800 {
        let (record, cells) = crossbar(&mut rng);
        let listing = print(&record, &cells, usize::MAX).unwrap();
        assert_eq!(load(&listing, cells.len()), Ok((record, cells.clone())));
        let lines = listing.iter().filter(|&&byte| byte == b'\n').count();
        let filled = cells.iter().filter(|&&code| code != OFF).count();
        assert_eq!(lines, 2 + filled + usize::from(record.outputs));
        let setting = setting(&mut rng, record.switches);
        check_light(&record, &cells, &setting);
        check_host_light(&record, &cells, &setting, rng.below(5));
        let wrong = damaged_setting(&mut rng, record.switches);
        let due = Err(Refusal {
            number: 13,
            line: 0,
        });
        assert_eq!(light(&record, &cells, &wrong, usize::MAX), due);
    }
}

#[test]
fn each_ground_alone() {
    let mut rng = Rng::new(4);
    let mut met = [0; 16];
    for _ in 0..700 {
        let job = job(&mut rng);
        for ground in 1..=10 {
            let Some(damaged) = damaged_job(&mut rng, &job, ground) else {
                continue;
            };
            met[ground as usize] += 1;
            let text = String::from_utf8_lossy(&damaged.text).to_string();
            assert_eq!(damaged.expected.number, ground);
            assert_eq!(read_job(&damaged.text), Err(damaged.expected), "{text}");
            assert_eq!(node_table(&damaged.text), [[0; 4]; 254]);
        }
    }
    for _ in 0..100 {
        let job = job_too_wide(&mut rng);
        let line = 3 + job.nodes.len() + job.outs.len();
        let due = Refusal {
            number: 11,
            line: line as u32,
        };
        assert_eq!(read_job(&job.text()), Err(due));
    }
    assert!(met[1..=10].iter().all(|&count| count > 100), "{met:?}");
}

#[test]
fn two_grounds_at_once() {
    let mut rng = Rng::new(5);
    let mut pairs = 0;
    for _ in 0..120 {
        let job = job(&mut rng);
        for first in 1..=10 {
            for second in 1..=10 {
                let Some(damaged) = twice_damaged_job(&mut rng, &job, first, second) else {
                    continue;
                };
                pairs += 1;
                let text = String::from_utf8_lossy(&damaged.text).to_string();
                let due = Err(damaged.expected);
                assert_eq!(read_job(&damaged.text), due, "{first} {second}\n{text}");
            }
        }
    }
    assert!(pairs > 6000, "{pairs}");
    // With a job that is too wide, any other ground comes first.
    for _ in 0..20 {
        let job = job_too_wide(&mut rng);
        for ground in 1..=10 {
            if let Some(damaged) = damaged_job(&mut rng, &job, ground) {
                assert_eq!(read_job(&damaged.text), Err(damaged.expected));
            }
        }
    }
}

#[test]
fn damaged_listings() {
    let mut rng = Rng::new(6);
    let grounds = [1, 2, 3, 10, 12];
    for _ in 0..300 {
        let (record, cells) = crossbar(&mut rng);
        for ground in grounds {
            if let Some(damaged) = damaged_listing(&mut rng, &record, &cells, ground) {
                let text = String::from_utf8_lossy(&damaged.text).to_string();
                assert_eq!(damaged.expected.number, ground);
                assert_eq!(load(&damaged.text, 0), Err(damaged.expected), "{text}");
            }
            for other in grounds {
                if let Some(damaged) =
                    twice_damaged_listing(&mut rng, &record, &cells, ground, other)
                {
                    let text = String::from_utf8_lossy(&damaged.text).to_string();
                    assert_eq!(load(&damaged.text, 0), Err(damaged.expected), "{text}");
                }
            }
        }
    }
}

#[test]
fn damaged_records() {
    let mut rng = Rng::new(8);
    let due = Refusal {
        number: 12,
        line: 0,
    };
    let mut met = [0; RECORD_DAMAGES];
    for _ in 0..300 {
        let (record, cells) = crossbar(&mut rng);
        let setting = setting(&mut rng, record.switches);
        for (kind, count) in met.iter_mut().enumerate() {
            if let Some((record, cells)) = damaged_record(&mut rng, &record, &cells, kind) {
                assert_eq!(
                    light(&record, &cells, &setting, usize::MAX),
                    Err(due),
                    "{kind}"
                );
                assert_eq!(print(&record, &cells, usize::MAX), Err(due), "{kind}");
                *count += 1;
            }
        }
    }
    assert!(met.iter().all(|&count| count > 0), "{met:?}");
}

#[test]
fn any_bytes_are_answered() {
    // Nothing panics; an accepted text is exactly what its job prints; a
    // truncated text is refused where its lines end.
    let mut rng = Rng::new(9);
    for _ in 0..1500 {
        let job = job(&mut rng);
        let text = job.text();
        let short = truncated(&mut rng, &text);
        let feeds = short.iter().filter(|&&byte| byte == b'\n').count() as u32;
        let due = Refusal {
            number: 1,
            line: feeds + 1,
        };
        assert_eq!(read_job(&short), Err(due));
        for damaged in [replaced(&mut rng, &text), shuffled(&mut rng, &text)] {
            if let Ok(read) = read_job(&damaged) {
                assert_eq!(read.text(), damaged);
                assert!(map(&damaged, usize::MAX).is_ok());
            }
            map_program(&damaged);
            light_program(&damaged);
        }
        let (record, cells) = map(&text, usize::MAX).unwrap();
        let listing = listing(&record, &cells);
        for damaged in [replaced(&mut rng, &listing), shuffled(&mut rng, &listing)] {
            if let Ok((record, cells)) = load(&damaged, usize::MAX) {
                assert_eq!(print(&record, &cells, usize::MAX).unwrap(), damaged);
            }
            let setting = setting(&mut rng, record.switches);
            let input = light_input(&setting, &damaged);
            light_program(&input);
            light_program(&replaced(&mut rng, &input));
        }
    }
    for length in 0..200 {
        let bytes: Vec<u8> = (0..length).map(|_| rng.below(256) as u8).collect();
        assert!(read_job(&bytes).is_err());
        assert!(load(&bytes, 9).is_err());
        light_program(&bytes);
        let record = Record {
            rows: rng.draw() as u16,
            columns: rng.draw() as u16,
            switches: rng.draw() as u16,
            outputs: rng.draw() as u16,
            outs: [rng.draw() as u16; 32],
        };
        let _ = light(&record, &bytes, &bytes, length);
        let _ = print(&record, &bytes, length);
    }
}

#[test]
fn anything_is_answered() {
    let mut rng = Rng::new(10);
    let (mut accepted, mut loaded, mut lit) = (0, 0, 0);
    let mut seen = [0; 16];
    for _ in 0..2000 {
        let text = any_job_text(&mut rng);
        match map(&text, rng.from_to(0, 40_000)) {
            Ok((record, cells)) => {
                accepted += 1;
                let listing = print(&record, &cells, usize::MAX).unwrap();
                assert_eq!(map_program(&text), listing);
            }
            Err(refusal) => seen[refusal.number as usize] += 1,
        }
        let text = any_listing_text(&mut rng);
        match load(&text, usize::MAX) {
            Ok((record, cells)) => {
                loaded += 1;
                assert_eq!(print(&record, &cells, text.len()).unwrap(), text);
            }
            Err(refusal) => seen[refusal.number as usize] += 1,
        }
        let (record, cells) = any_record(&mut rng);
        let setting = any_setting(&mut rng, record.switches);
        match light(&record, &cells, &setting, rng.from_to(0, 1000)) {
            Ok(_) => lit += 1,
            Err(refusal) => seen[refusal.number as usize] += 1,
        }
        let answer = light_program(&any_light_input(&mut rng));
        assert!(answer.ends_with(b")\n"));
    }
    // All numbers come but 15, which cannot.
    assert!(accepted > 400 && loaded > 400 && lit > 400);
    assert!(seen[1..15].iter().all(|&count| count > 0), "{seen:?}");
    assert_eq!(seen[15], 0);
}

#[test]
fn the_same_seed_gives_the_same_texts() {
    let first: Vec<Job> = (0..20).map(|seed| job(&mut Rng::new(seed))).collect();
    let second: Vec<Job> = (0..20).map(|seed| job(&mut Rng::new(seed))).collect();
    assert_eq!(first, second);
}

#[test]
fn jobs_of_given_sizes() {
    let mut made = 0;
    for rows in 1..=129 {
        for columns in [0, 1, 2, 3, 5, 64, 125, 126, 127, 128, 129] {
            let Some(job) = job_of_size(rows, columns) else {
                continue;
            };
            assert_eq!((job.rows(), job.columns()), (rows, columns));
            let fits = rows <= 128 && columns <= 128;
            match read_job(&job.text()) {
                Ok(read) => assert!(fits && read == job),
                Err(refusal) => assert!(!fits && refusal.number == 11),
            }
            made += 1;
        }
    }
    assert!(made > 1200, "{made}");
}
