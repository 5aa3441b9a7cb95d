//! The job sheets of document 01, A to I and the lines on sizes. What light
//! answers is in the terms of Req 01.

use reference::host::{record_bytes, Answer, Call};
use reference::random::{job_of_size, light_input};
use reference::*;

const A: &str = "\
(job 2 2 1)
(one h)
(node 2 1 (0 1) v)
(node 3 0 (0 2) h)
(out 0 3)
(end)
";

const A_LISTING: &str = "\
(crossbar 2 1 2 1)
(cell 0 0 (yes 1))
(cell 1 0 (yes 0))
(out 0 1)
(end)
";

const E: &str = "\
(job 2 2 1)
(one h)
(node 2 1 (0 1) v)
(node 3 0 (2 1) b)
(out 0 3)
(end)
";

const F: &str = "\
(job 2 2 1)
(one h)
(node 2 1 (0 1) v)
(node 3 0 (2 1) h)
(out 0 3)
(end)
";

const G: &str = "\
(job 0 0 2)
(one h)
(out 0 0)
(out 1 1)
(end)
";

fn refusal(number: u32, line: u32) -> Refusal {
    Refusal { number, line }
}

fn outs(rows: &[u16]) -> [u16; 32] {
    let mut all = [0; 32];
    all[..rows.len()].copy_from_slice(rows);
    all
}

#[test]
fn sheet_a() {
    let (record, cells) = map(A.as_bytes(), 2).unwrap();
    let due = Record {
        rows: 2,
        columns: 1,
        switches: 2,
        outputs: 1,
        outs: outs(&[1]),
    };
    assert_eq!(record, due);
    assert_eq!(cells, [4, 2]);
    let text = print(&record, &cells, A_LISTING.len()).unwrap();
    assert_eq!(text, A_LISTING.as_bytes());
    assert_eq!(map_program(A.as_bytes()), A_LISTING.as_bytes());
    assert_eq!(load(A_LISTING.as_bytes(), 2), Ok((record, cells)));
    let table = node_table(A.as_bytes());
    assert_eq!(table[0], [1, 0, 1, 2]);
    assert_eq!(table[1], [0, 0, 2, 1]);
    assert!(table[2..].iter().all(|entry| *entry == [0; 4]));
}

#[test]
fn sheets_b_c_d() {
    let (record, cells) = map(A.as_bytes(), 2).unwrap();
    // Rows 0 and 1, then column 0.
    for (setting, rounds, first_rounds, value) in [
        ([1, 1], 2, [1, 3, 2], 1),
        ([1, 0], 0, [1, 0, 0], 0),
        ([0, 1], 1, [1, 0, 2], 0),
        ([0, 0], 0, [1, 0, 0], 0),
    ] {
        let answer = light(&record, &cells, &setting, 3);
        assert_eq!(answer, Ok((rounds, first_rounds.to_vec())));
        assert_eq!(reading(&first_rounds, record.outs[0]), value);
        assert_eq!(walk(A.as_bytes(), &setting, 0), Ok(value));
        let input = light_input(&setting, A_LISTING.as_bytes());
        let printed = format!("(rounds {rounds})\n(reads 0 {value})\n(end)\n");
        assert_eq!(light_program(&input), printed.as_bytes());
    }
    let input = format!("(set 1 1)\n{A_LISTING}");
    let printed = "(rounds 2)\n(reads 0 1)\n(end)\n";
    assert_eq!(light_program(input.as_bytes()), printed.as_bytes());
}

#[test]
fn sheet_e() {
    let (record, cells) = map(E.as_bytes(), 4).unwrap();
    assert_eq!((record.rows, record.columns), (2, 2));
    assert_eq!(cells, [yes(1), yes(0), no(0), ON]);
    assert_eq!(cells, [4, 2, 3, 1]);
    assert_eq!(record.outs, outs(&[1]));
    // Rows 0 and 1, then columns 0 and 1.
    for (setting, rounds, first_rounds) in [
        ([0, 0], 0, [1, 0, 0, 0]),
        ([0, 1], 3, [1, 3, 2, 4]),
        ([1, 0], 2, [1, 3, 0, 2]),
        ([1, 1], 2, [1, 3, 2, 2]),
    ] {
        let answer = light(&record, &cells, &setting, 4);
        assert_eq!(answer, Ok((rounds, first_rounds.to_vec())));
        let or = setting[0] | setting[1];
        assert_eq!(reading(&first_rounds, record.outs[0]), or);
        assert_eq!(walk(E.as_bytes(), &setting, 0), Ok(or));
    }
}

#[test]
fn sheet_f() {
    assert_eq!(read_job(F.as_bytes()), Err(refusal(9, 4)));
    assert_eq!(map(F.as_bytes(), 99), Err(refusal(9, 4)));
    assert_eq!(walk(F.as_bytes(), &[0, 0], 0), Err(refusal(9, 4)));
    assert_eq!(map_program(F.as_bytes()), b"(refused 9 4)\n");
    assert_eq!(node_table(F.as_bytes()), [[0; 4]; 254]);
}

#[test]
fn sheet_g() {
    let (record, cells) = map(G.as_bytes(), 0).unwrap();
    let due = Record {
        rows: 2,
        columns: 0,
        switches: 0,
        outputs: 2,
        outs: outs(&[1, 0]),
    };
    assert_eq!(record, due);
    assert!(cells.is_empty());
    assert_eq!(light(&record, &cells, &[], 2), Ok((0, vec![1, 0])));
    assert_eq!(reading(&[1, 0], record.outs[0]), 0);
    assert_eq!(reading(&[1, 0], record.outs[1]), 1);
    assert_eq!(walk(G.as_bytes(), &[], 0), Ok(0));
    assert_eq!(walk(G.as_bytes(), &[], 1), Ok(1));
    let listing = "(crossbar 2 0 0 2)\n(out 0 1)\n(out 1 0)\n(end)\n";
    assert_eq!(map_program(G.as_bytes()), listing.as_bytes());
    let input = format!("(set)\n{listing}");
    let printed = "(rounds 0)\n(reads 0 0)\n(reads 1 1)\n(end)\n";
    assert_eq!(light_program(input.as_bytes()), printed.as_bytes());
}

#[test]
fn sheet_h() {
    let text = diagrams::STATIC_CROSSBAR.as_bytes();
    let (record, cells) = load(text, 6).unwrap();
    assert_eq!(cells, [1, 0, 0, 0, 1, 0]);
    // Rows 0, 1, 2, then columns 0 and 1.
    assert_eq!(light(&record, &cells, &[], 5), Ok((2, vec![1, 0, 3, 2, 0])));
    let call = Call::Light {
        record: &record_bytes(&record),
        cells: &cells,
        setting: &[],
        first_rounds: 10,
    };
    let due = Answer {
        word: 2,
        outputs: vec![vec![1, 0, 0, 0, 3, 0, 2, 0, 0, 0]],
    };
    assert_eq!(host::answer(&call), due);
}

#[test]
fn sheet_i() {
    let text = diagrams::HALF_ADDER.as_bytes();
    let (record, cells) = load(text, 6).unwrap();
    assert_eq!(cells, [yes(1), no(1), yes(0), OFF, no(0), yes(0)]);
    for a in 0..2u8 {
        for b in 0..2u8 {
            let (_, first_rounds) = light(&record, &cells, &[a, b], 5).unwrap();
            assert_eq!(reading(&first_rounds, 2), (a + b) % 2);
            assert_eq!(reading(&first_rounds, 1), (a + b) / 2);
            let answer = light_program(&light_input(&[a, b], text));
            let answer = String::from_utf8(answer).unwrap();
            let reads = format!("(reads 0 {})\n(reads 1 {})\n", (a + b) % 2, (a + b) / 2);
            assert!(answer.contains(&reads));
        }
    }
}

#[test]
fn nodes_254_and_255() {
    let job = job_of_size(128, 127).unwrap();
    assert_eq!(job.nodes.len(), 254);
    let text = job.text();
    assert_eq!(read_job(&text), Ok(job));
    let (record, cells) = map(&text, 128 * 127).unwrap();
    assert_eq!((record.rows, record.columns), (128, 127));
    assert_eq!(cells.len(), 128 * 127);
    assert_eq!(map(&text, 128 * 127 - 1), Err(refusal(14, 0)));

    let text = String::from_utf8(text).unwrap();
    let more = text.replacen("(job 64 254 1)", "(job 64 255 1)", 1);
    assert_eq!(read_job(more.as_bytes()), Err(refusal(2, 1)));
    assert_eq!(map_program(more.as_bytes()), b"(refused 2 1)\n");
}

#[test]
fn rows_128_and_129() {
    let fits = job_of_size(128, 2).unwrap();
    assert_eq!((fits.rows(), fits.columns()), (128, 2));
    assert_eq!(map(&fits.text(), 256).unwrap().0.rows, 128);

    let more = job_of_size(129, 2).unwrap();
    let end = 2 + more.nodes.len() as u32 + 1 + 1;
    assert_eq!(read_job(&more.text()), Err(refusal(11, end)));
    assert_eq!(map(&more.text(), 0), Err(refusal(11, end)));
    assert_eq!(walk(&more.text(), &[9], 9), Err(refusal(11, end)));
    assert_eq!(node_table(&more.text()), [[0; 4]; 254]);

    // The last row without cells counts as well.
    let mut zero = fits.clone();
    zero.outs.push(0);
    assert_eq!(read_job(&zero.text()), Err(refusal(11, end)));
    let mut zero = job_of_size(127, 2).unwrap();
    zero.outs.push(0);
    assert_eq!(map(&zero.text(), 256).unwrap().0.outs[1], 127);
}

#[test]
fn columns_128_and_129() {
    let fits = job_of_size(3, 128).unwrap();
    assert_eq!((fits.rows(), fits.columns()), (3, 128));
    assert_eq!(map(&fits.text(), 3 * 128).unwrap().0.columns, 128);

    let more = job_of_size(3, 129).unwrap();
    let end = 2 + more.nodes.len() as u32 + 1 + 1;
    assert_eq!(read_job(&more.text()), Err(refusal(11, end)));

    // Terminal 1's column counts as well.
    let mut both = fits.clone();
    both.one = Label::B;
    assert_eq!(read_job(&both.text()), Err(refusal(11, end - 1)));
}

#[test]
fn outputs_0_1_32_33() {
    assert_eq!(
        read_job(b"(job 0 0 0)\n(one h)\n(end)\n"),
        Err(refusal(2, 1))
    );
    assert!(read_job(b"(job 0 0 1)\n(one h)\n(out 0 1)\n(end)\n").is_ok());
    let mut job = Job {
        switches: 0,
        one: Label::B,
        nodes: Vec::new(),
        outs: vec![1; 32],
    };
    assert_eq!(read_job(&job.text()), Ok(job.clone()));
    job.outs.push(1);
    assert_eq!(read_job(&job.text()), Err(refusal(2, 1)));
}

#[test]
fn switches_64_and_65() {
    let text = "(job 64 1 1)\n(one h)\n(node 2 63 (0 1) b)\n(out 0 2)\n(end)\n";
    let (record, cells) = map(text.as_bytes(), 2).unwrap();
    assert_eq!(cells, [yes(63), ON]);
    assert_eq!(cells, [128, 1]);
    let mut setting = [0; 64];
    assert_eq!(light(&record, &cells, &setting, 3), Ok((0, vec![1, 0, 0])));
    setting[63] = 1;
    assert_eq!(light(&record, &cells, &setting, 3), Ok((2, vec![1, 3, 2])));
    let text = text.replacen("(job 64", "(job 65", 1);
    assert_eq!(read_job(text.as_bytes()), Err(refusal(2, 1)));
}

#[test]
fn empty_text() {
    assert_eq!(read_job(b""), Err(refusal(1, 1)));
    assert_eq!(map(b"", 9), Err(refusal(1, 1)));
    assert_eq!(walk(b"", b"", 0), Err(refusal(1, 1)));
    assert_eq!(load(b"", 9), Err(refusal(1, 1)));
    assert_eq!(map_program(b""), b"(refused 1 1)\n");
    assert_eq!(light_program(b""), b"(refused 1 1)\n");
    assert_eq!(light_program(b"(set)\n"), b"(refused 1 2)\n");
    assert_eq!(node_table(b""), [[0; 4]; 254]);
}

#[test]
fn rows_and_columns_add_up() {
    // "Placement": R plus C equal N + 1, plus the number of `b` labels, plus
    // 1 if an output names 0.
    let mut rng = random::Rng::new(7);
    for _ in 0..300 {
        let job = random::job(&mut rng);
        let mut sum = job.nodes.len() + 1;
        sum += job
            .nodes
            .iter()
            .filter(|node| node.label == Label::B)
            .count();
        sum += usize::from(job.one == Label::B);
        sum += usize::from(job.outs.contains(&0));
        assert_eq!(job.rows() + job.columns(), sum);
    }
}

#[test]
fn input_of_65535_bytes_and_more() {
    // A text of the greatest length is read; one byte more is not.
    let mut input = A.as_bytes().to_vec();
    input.resize(65_535, b'\n');
    assert_eq!(map_program(&input), b"(refused 10 7)\n");
    input.push(b'\n');
    assert_eq!(map_program(&input), b"(refused 14 0)\n");
    let mut input = format!("(set 1 1)\n{A_LISTING}").into_bytes();
    input.resize(65_535, b' ');
    assert_eq!(light_program(&input), b"(refused 10 7)\n");
    input.push(b' ');
    assert_eq!(light_program(&input), b"(refused 14 0)\n");
    assert_eq!(map_program(&[0; 65_535]), b"(refused 1 1)\n");
    assert_eq!(map_program(&[0; 65_536]), b"(refused 14 0)\n");
}
