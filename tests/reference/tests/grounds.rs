//! Each ground of document 01, "Grounds for sending a job back", with its
//! number and line, and the order of the grounds.

use reference::host::{record_bytes, Answer, Call};
use reference::*;

const GOOD: &str = "\
(job 3 4 2)
(one h)
(node 2 2 (0 1) v)
(node 3 1 (2 0) h)
(node 4 1 (2 1) b)
(node 5 0 (4 3) v)
(out 0 4)
(out 1 0)
(end)
";

const LISTING: &str = "\
(crossbar 3 3 2 2)
(cell 0 0 (yes 1))
(cell 0 2 (on))
(cell 1 1 (no 0))
(cell 2 0 (no 1))
(out 0 2)
(out 1 1)
(end)
";

fn refusal(number: u32, line: u32) -> Refusal {
    Refusal { number, line }
}

/// GOOD with one line, counted from 1, put in place of another.
fn with(line: usize, new: &str) -> String {
    exchange(GOOD, &[(line, new)])
}

/// A text with lines exchanged. An empty line given as `-` is dropped.
fn exchange(text: &str, changes: &[(usize, &str)]) -> String {
    let mut lines: Vec<String> = text.lines().map(String::from).collect();
    for (line, new) in changes {
        lines[line - 1] = new.to_string();
    }
    lines
        .iter()
        .filter(|line| *line != "-")
        .map(|line| format!("{line}\n"))
        .collect()
}

fn job_refused(text: &str, number: u32, line: u32) {
    let due = refusal(number, line);
    assert_eq!(read_job(text.as_bytes()), Err(due), "{text}");
    assert_eq!(map(text.as_bytes(), 99_999), Err(due), "{text}");
    assert_eq!(map(text.as_bytes(), 0), Err(due), "{text}");
    assert_eq!(walk(text.as_bytes(), &[0, 0, 0], 0), Err(due), "{text}");
    assert_eq!(walk(text.as_bytes(), &[7], 99), Err(due), "{text}");
    assert_eq!(node_table(text.as_bytes()), [[0; 4]; 254], "{text}");
    let printed = format!("(refused {number} {line})\n");
    assert_eq!(map_program(text.as_bytes()), printed.as_bytes(), "{text}");
}

fn load_refused(text: &str, number: u32, line: u32) {
    let due = refusal(number, line);
    assert_eq!(load(text.as_bytes(), 99_999), Err(due), "{text}");
    assert_eq!(load(text.as_bytes(), 0), Err(due), "{text}");
    // In the second program lines count over the whole input, and a listing's
    // refusal comes before a wrong number of figures in the set line.
    for set in ["(set 0 1)", "(set)", "(set 0 0 0 0 1)"] {
        let input = format!("{set}\n{text}");
        let printed = format!("(refused {number} {})\n", line + 1);
        assert_eq!(
            light_program(input.as_bytes()),
            printed.as_bytes(),
            "{input}"
        );
    }
}

#[test]
fn the_good_texts_pass() {
    let job = read_job(GOOD.as_bytes()).unwrap();
    assert_eq!(job.text(), GOOD.as_bytes());
    let (record, cells) = map(GOOD.as_bytes(), 12).unwrap();
    assert_eq!((record.rows, record.columns), (4, 3));
    // Rows: terminal 1, node 3, node 4, the last one. Columns: nodes 2, 4, 5.
    assert_eq!(
        cells,
        [
            yes(2),
            yes(1),
            OFF,
            no(1),
            OFF,
            yes(0),
            no(1),
            ON,
            no(0),
            OFF,
            OFF,
            OFF
        ]
    );
    assert_eq!(record.outs[..3], [2, 3, 0]);
    let (record, cells) = load(LISTING.as_bytes(), 9).unwrap();
    assert_eq!(cells, [4, 0, 1, 0, 3, 0, 5, 0, 0]);
    assert_eq!(print(&record, &cells, 999).unwrap(), LISTING.as_bytes());
}

#[test]
fn ground_1_forms() {
    for bad in [
        "",
        "-",
        "(job 3 4)",
        "(job 3 4 2 1)",
        "(job 3 4 2",
        "job 3 4 2)",
        " (job 3 4 2)",
        "(job 3 4 2) ",
        "(job  3 4 2)",
        "(job 3 4 2 )",
        "( job 3 4 2)",
        "(job 03 4 2)",
        "(job 3 4 000002)",
        "(job 100000 4 2)",
        "(job -3 4 2)",
        "(job +3 4 2)",
        "(job 3 4 x)",
        "(Job 3 4 2)",
        "(job\t3 4 2)",
        "(job 3 4 2)\r",
        "(one h)",
        "(end)",
        "(job 3 4 00)",
        "(job 3 4 2)(one h)",
        "(job 3 4 2)\0",
        "(crossbar 3 4 2 1)",
        "(job 3 4  )",
        "(job   )",
    ] {
        job_refused(&with(1, bad), 1, 1);
    }
    for bad in [
        "",
        "-",
        "(one)",
        "(one )",
        "(one x)",
        "(one H)",
        "(one hh)",
        "(one h )",
        "(one 1)",
        "(one h b)",
        "(one h",
        "(two h)",
    ] {
        job_refused(&with(2, bad), 1, 2);
    }
    for bad in [
        "",
        "(node 3 1 (2 0))",
        "(node 3 1 2 0 h)",
        "(node 3 1 (2 0)h)",
        "(node 3 1(2 0) h)",
        "(node 3 1 (2  0) h)",
        "(node 3 1 ( 2 0) h)",
        "(node 3 1 (2 0 ) h)",
        "(node 3 1 (2) h)",
        "(node 3 1 (2 0 0) h)",
        "(node 3 1 (2 0) h) ",
        "(node 3 1 (02 0) h)",
        "(out 0 4)",
        "(end)",
        "(node 3 1 (2 0) x)",
        "(node 3 1 (2 0) h",
        "(node 03 1 (2 0) h)",
        "(node 3 1 (2 0) B)",
        "(node 3 100000 (2 0) h)",
        "(node 3 1 (2 -1) h)",
        "(node 3 1 ((2 0)) h)",
    ] {
        job_refused(&with(4, bad), 1, 4);
    }
    for bad in [
        "",
        "(out 0)",
        "(out 0 4 1)",
        "(out 0 04)",
        "(out 0 4",
        "(end)",
        "(out 00 4)",
    ] {
        job_refused(&with(7, bad), 1, 7);
    }
    for bad in [
        "",
        "(end",
        "end)",
        "(End)",
        "(end) ",
        "(end)x",
        "(end)\r",
        "(end 0)",
        "(out 2 0)",
    ] {
        job_refused(&with(9, bad), 1, 9);
    }
    // A line more or less.
    job_refused(&with(6, "-"), 1, 6);
    job_refused(&with(8, "-"), 1, 8);
    job_refused(&with(9, "-"), 1, 9);
    job_refused(&with(6, "(node 5 0 (4 3) v)\n(node 6 0 (0 3) v)"), 1, 7);
    job_refused(&with(8, "(out 1 0)\n(out 2 0)"), 1, 9);
}

#[test]
fn ground_1_missing_line_feed_and_truncation() {
    for length in 0..GOOD.len() {
        let text = &GOOD[..length];
        let feeds = text.matches('\n').count() as u32;
        job_refused(text, 1, feeds + 1);
    }
    for length in 0..LISTING.len() {
        let text = &LISTING[..length];
        let feeds = text.matches('\n').count() as u32;
        load_refused(text, 1, feeds + 1);
    }
}

#[test]
fn ground_2() {
    for bad in [
        "(job 65 4 2)",
        "(job 99999 4 2)",
        "(job 3 255 2)",
        "(job 3 99999 2)",
        "(job 3 4 0)",
        "(job 3 4 33)",
        "(job 3 4 99999)",
        "(job 65 255 33)",
    ] {
        job_refused(&with(1, bad), 2, 1);
    }
    for bad in [
        "(crossbar 0 3 2 2)",
        "(crossbar 129 3 2 2)",
        "(crossbar 3 129 2 2)",
        "(crossbar 3 3 65 2)",
        "(crossbar 3 3 2 0)",
        "(crossbar 3 3 2 33)",
        "(crossbar 99999 3 2 2)",
    ] {
        load_refused(&exchange(LISTING, &[(1, bad)]), 2, 1);
    }
}

#[test]
fn ground_3() {
    for bad in [
        "(node 2 1 (2 0) h)",
        "(node 4 1 (2 0) h)",
        "(node 0 1 (2 0) h)",
        "(node 99999 1 (2 0) h)",
    ] {
        job_refused(&with(4, bad), 3, 4);
    }
    job_refused(&with(3, "(node 1 2 (0 1) v)"), 3, 3);
    job_refused(&with(3, "(node 3 2 (0 1) v)"), 3, 3);
    job_refused(&with(7, "(out 1 4)"), 3, 7);
    job_refused(&with(8, "(out 0 0)"), 3, 8);
    job_refused(&with(8, "(out 2 0)"), 3, 8);
    load_refused(&exchange(LISTING, &[(6, "(out 1 2)")]), 3, 6);
    load_refused(&exchange(LISTING, &[(7, "(out 0 1)")]), 3, 7);
    load_refused(&exchange(LISTING, &[(7, "(out 2 1)")]), 3, 7);
}

#[test]
fn ground_4() {
    job_refused(&with(3, "(node 2 3 (0 1) v)"), 4, 3);
    job_refused(&with(4, "(node 3 99999 (2 0) h)"), 4, 4);
    let none = "(job 0 1 1)\n(one h)\n(node 2 0 (0 1) b)\n(out 0 2)\n(end)\n";
    job_refused(none, 4, 3);
}

#[test]
fn ground_5() {
    job_refused(&with(3, "(node 2 2 (0 2) v)"), 5, 3);
    job_refused(&with(3, "(node 2 2 (2 0) v)"), 5, 3);
    job_refused(&with(4, "(node 3 1 (2 4) h)"), 5, 4);
    job_refused(&with(4, "(node 3 1 (99999 2) h)"), 5, 4);
    job_refused(&with(7, "(out 0 6)"), 5, 7);
    job_refused(&with(8, "(out 1 99999)"), 5, 8);
}

#[test]
fn ground_6() {
    job_refused(&with(4, "(node 3 2 (2 0) h)"), 6, 4);
    job_refused(&with(4, "(node 3 2 (0 2) h)"), 6, 4);
    job_refused(&with(6, "(node 5 1 (4 3) v)"), 6, 6);
    job_refused(&with(6, "(node 5 1 (2 3) h)"), 6, 6);
    job_refused(&with(6, "(node 5 2 (0 3) v)"), 6, 6);
}

#[test]
fn ground_7() {
    job_refused(&with(3, "(node 2 2 (0 0) v)"), 7, 3);
    job_refused(&with(3, "(node 2 2 (1 1) v)"), 7, 3);
    job_refused(&with(4, "(node 3 1 (2 2) h)"), 7, 4);
}

#[test]
fn ground_8() {
    job_refused(&with(4, "(node 3 2 (0 1) v)"), 8, 4);
    job_refused(&with(4, "(node 3 2 (0 1) b)"), 8, 4);
    job_refused(&with(5, "(node 4 1 (2 0) b)"), 8, 5);
    // Turned about, or on another switch, it is another node.
    assert!(read_job(with(5, "(node 4 1 (0 2) b)").as_bytes()).is_ok());
    assert!(read_job(with(5, "(node 4 2 (1 0) b)").as_bytes()).is_ok());
}

#[test]
fn ground_9() {
    job_refused(&with(2, "(one v)"), 9, 2);
    // Terminal 1 counts as a child, terminal 0 does not.
    job_refused(&with(3, "(node 2 2 (0 1) h)"), 9, 3);
    job_refused(&with(4, "(node 3 1 (2 0) v)"), 9, 4);
    job_refused(&with(5, "(node 4 1 (2 1) h)"), 9, 5);
    job_refused(&with(5, "(node 4 1 (2 1) v)"), 9, 5);
    job_refused(&with(6, "(node 5 0 (4 3) h)"), 9, 6);
    job_refused(&with(7, "(out 0 2)"), 9, 7);
    job_refused(&with(8, "(out 1 5)"), 9, 8);
    assert!(read_job(with(6, "(node 5 0 (4 3) b)").as_bytes()).is_ok());
    assert!(read_job(with(6, "(node 5 0 (4 0) h)").as_bytes()).is_ok());
    assert!(read_job(with(7, "(out 0 1)").as_bytes()).is_ok());
    // Two `b` may meet, and a `b` terminal 1 lets a node be `h`.
    let both = exchange(
        GOOD,
        &[
            (2, "(one b)"),
            (3, "(node 2 2 (0 1) h)"),
            (4, "(node 3 1 (2 0) b)"),
        ],
    );
    assert!(read_job(both.as_bytes()).is_ok());
}

#[test]
fn ground_10() {
    for tail in [
        "\n",
        " ",
        "x",
        "(end)\n",
        "(end)",
        "\0",
        "\n\n\n",
        "(out 2 0)\n",
    ] {
        job_refused(&format!("{GOOD}{tail}"), 10, 10);
        load_refused(&format!("{LISTING}{tail}"), 10, 9);
    }
}

#[test]
fn ground_11_and_its_order() {
    let wide = random::job_of_size(129, 2).unwrap();
    let text = String::from_utf8(wide.text()).unwrap();
    let end = text.matches('\n').count() as u32;
    job_refused(&text, 11, end);
    // 10 comes before 11, and any faulty line before both.
    job_refused(&format!("{text}\n"), 10, end + 1);
    job_refused(&text.replacen("(out 0 1)", "(out 0 2)", 1), 9, end - 1);
    job_refused(&text.replacen("(out 0 1)", "(out 1 1)", 1), 3, end - 1);
    job_refused(&text.replacen("(end)", "(end", 1), 1, end);
}

#[test]
fn ground_12_in_a_listing() {
    for (line, bad) in [
        (2, "(cell 3 0 (yes 1))"),
        (2, "(cell 0 3 (yes 1))"),
        (2, "(cell 99999 0 (on))"),
        (2, "(cell 0 0 (yes 2))"),
        (2, "(cell 0 0 (no 2))"),
        (2, "(cell 0 0 (no 99999))"),
        (3, "(cell 0 0 (on))"),
        (4, "(cell 0 1 (no 0))"),
        (4, "(cell 0 2 (no 0))"),
        (5, "(cell 1 0 (no 1))"),
        (5, "(cell 1 1 (no 1))"),
        (5, "(cell 3 0 (no 1))"),
        (6, "(out 0 3)"),
        (7, "(out 1 99999)"),
    ] {
        load_refused(&exchange(LISTING, &[(line, bad)]), 12, line as u32);
    }
    // A cell where none can follow, or none can be.
    let last = exchange(LISTING, &[(5, "(cell 2 2 (on))\n(cell 2 2 (on))")]);
    load_refused(&last, 12, 6);
    load_refused(
        "(crossbar 1 0 0 1)\n(cell 0 0 (on))\n(out 0 0)\n(end)\n",
        12,
        2,
    );
    load_refused(
        "(crossbar 1 1 0 1)\n(cell 0 0 (yes 0))\n(out 0 0)\n(end)\n",
        12,
        2,
    );
}

#[test]
fn ground_1_in_a_listing() {
    for (line, bad) in [
        (1, ""),
        (1, "(crossbar 3 3 2)"),
        (1, "(crossbar 03 3 2 2)"),
        (1, "(job 3 3 2)"),
        (2, "(cell 0 0 (off))"),
        (2, "(cell 0 0 on)"),
        (2, "(cell 0 0 (on 1))"),
        (2, "(cell 0 0 (yes))"),
        (2, "(cell 0 0 (yes 01))"),
        (2, "(cell 0 0 (yes 100000))"),
        (2, "(cell 0 0  (on))"),
        (2, "(end)"),
        (6, "(end)"),
        (6, "-"),
        (7, "(end)"),
        (7, "(cell 2 2 (on))"),
        (8, "(out 2 0)"),
        (8, "(cell 2 2 (on))"),
    ] {
        let number = if (line, bad) == (6, "-") { 3 } else { 1 };
        load_refused(&exchange(LISTING, &[(line, bad)]), number, line as u32);
    }
    load_refused(&exchange(LISTING, &[(7, "-")]), 1, 7);
    load_refused(&exchange(LISTING, &[(8, "-")]), 1, 8);
}

#[test]
fn ground_12_in_a_record() {
    let (good, cells) = load(LISTING.as_bytes(), 9).unwrap();
    let setting = [0, 1];
    let due = refusal(12, 0);
    let refused = |record: &Record, cells: &[u8]| {
        assert_eq!(light(record, cells, &setting, 99), Err(due), "{record:?}");
        assert_eq!(print(record, cells, 999), Err(due), "{record:?}");
        // 12 comes before 13 and 14.
        assert_eq!(light(record, cells, &[9], 0), Err(due), "{record:?}");
        assert_eq!(print(record, cells, 0), Err(due), "{record:?}");
    };
    assert!(light(&good, &cells, &setting, 6).is_ok());

    for rows in [0, 129, 65_535] {
        refused(&Record { rows, ..good }, &cells);
        refused(&Record { rows, ..good }, &[0; 40_000]);
    }
    for columns in [129, 65_535] {
        refused(&Record { columns, ..good }, &[0; 40_000]);
    }
    for switches in [65, 255, 65_535] {
        refused(&Record { switches, ..good }, &cells);
    }
    refused(
        &Record {
            outputs: 33,
            ..good
        },
        &cells,
    );
    refused(
        &Record {
            outputs: 65_535,
            ..good
        },
        &cells,
    );
    refused(
        &Record {
            outputs: 0,
            outs: [0; 32],
            ..good
        },
        &cells,
    );

    // The slice: too short, or not 0 past R times C.
    refused(&good, &cells[..8]);
    refused(&good, &[]);
    let mut longer = cells.clone();
    longer.extend([0, 0, 0]);
    assert_eq!(
        light(&good, &longer, &setting, 9),
        light(&good, &cells, &setting, 9)
    );
    assert_eq!(print(&good, &longer, 999), print(&good, &cells, 999));
    longer[11] = 1;
    refused(&good, &longer);

    // Codes above 1 + 2V.
    let mut codes = cells.clone();
    codes[8] = 5;
    assert!(print(&good, &codes, 999).is_ok());
    codes[8] = 6;
    refused(&good, &codes);
    codes[8] = 255;
    refused(&good, &codes);

    // Output rows: used below R, unused 0.
    let mut record = good;
    record.outs[1] = 3;
    refused(&record, &cells);
    record = good;
    record.outs[2] = 1;
    refused(&record, &cells);
    record = good;
    record.outs[31] = 1;
    refused(&record, &cells);
}

#[test]
fn ground_13() {
    let due = refusal(13, 0);
    let (record, cells) = load(LISTING.as_bytes(), 9).unwrap();
    let settings: [&[u8]; 6] = [&[], &[0], &[0, 0, 0, 0], &[0, 2, 0], &[0, 0, 255], b"011"];
    for setting in settings {
        assert_eq!(walk(GOOD.as_bytes(), setting, 0), Err(due));
    }
    let settings: [&[u8]; 5] = [&[], &[0], &[0, 0, 0], &[0, 2], b"01"];
    for setting in settings {
        assert_eq!(light(&record, &cells, setting, 6), Err(due));
        // 13 comes before 14.
        assert_eq!(light(&record, &cells, setting, 0), Err(due));
    }
    assert_eq!(walk(GOOD.as_bytes(), &[0, 0, 0], 2), Err(due));
    assert_eq!(walk(GOOD.as_bytes(), &[0, 0, 0], usize::MAX), Err(due));
    assert_eq!(walk(GOOD.as_bytes(), &[0, 0, 0], 1), Ok(0));
    for set in ["(set)", "(set 0)", "(set 0 1 0)"] {
        let input = format!("{set}\n{LISTING}");
        assert_eq!(light_program(input.as_bytes()), b"(refused 13 0)\n");
    }
    let full = format!("(set{})\n{LISTING}", " 1".repeat(64));
    assert_eq!(light_program(full.as_bytes()), b"(refused 13 0)\n");
}

#[test]
fn ground_14() {
    let due = refusal(14, 0);
    assert_eq!(map(GOOD.as_bytes(), 11), Err(due));
    assert!(map(GOOD.as_bytes(), 12).is_ok());
    assert_eq!(load(LISTING.as_bytes(), 8), Err(due));
    let (record, cells) = load(LISTING.as_bytes(), 9).unwrap();
    assert_eq!(light(&record, &cells, &[0, 1], 5), Err(due));
    assert!(light(&record, &cells, &[0, 1], 6).is_ok());
    assert_eq!(print(&record, &cells, LISTING.len() - 1), Err(due));
    assert!(print(&record, &cells, LISTING.len()).is_ok());
}

/// Light as the host calls it, on LISTING's crossbar with such a record.
fn host_light(record: &[u8], setting: &[u8], first_rounds: usize) -> Answer {
    let (_, cells) = load(LISTING.as_bytes(), 9).unwrap();
    host::answer(&Call::Light {
        record,
        cells: &cells,
        setting,
        first_rounds,
    })
}

#[test]
fn light_at_the_host() {
    let (record, _) = load(LISTING.as_bytes(), 9).unwrap();
    let record = record_bytes(&record);
    // Rows 0 to 2 and columns 0 to 2 take 12 bytes. An answer has every byte
    // of the slice, so what the slice held before does not matter.
    let refused = |record: &[u8], setting: &[u8], length: usize, number: u32| {
        let answer = host_light(record, setting, length);
        assert_eq!(answer.word, host::refusal_word(refusal(number, 0)));
        assert_eq!(answer.outputs, [vec![0; length]]);
    };
    for length in 0..12 {
        refused(&record, &[0, 1], length, 14);
    }
    // 13 comes before 14, and 12 before both.
    for length in (0..16).chain([99]) {
        refused(&record, &[0, 2], length, 13);
        refused(&record, &[0], length, 13);
        refused(&record[..71], &[0, 1], length, 12);
        refused(&record[..71], &[0, 2], length, 12);
    }

    // A cell joins row 1 and column 1, but no chain from row 0 comes to them.
    let due = [1, 0, 0, 0, 0, 0, 2, 0, 0, 0, 2, 0];
    for length in [12, 13, 14, 15, 511, 512, 513] {
        let answer = host_light(&record, &[0, 1], length);
        assert_eq!(answer.word, 1);
        let mut whole = due.to_vec();
        whole.resize(length, 0);
        assert_eq!(answer.outputs, [whole]);
    }
}

#[test]
fn numbers_above_255_take_both_bytes() {
    // Only the last of 256 wires can have one: a column, after 255 rounds.
    let (record, cells) = random::stair(128, 128);
    let answer = host::answer(&Call::Light {
        record: &record_bytes(&record),
        cells: &cells,
        setting: &[],
        first_rounds: 513,
    });
    assert_eq!(answer.word, 255);
    assert_eq!(answer.output(0)[508..], [254, 0, 0, 1, 0]);
    assert_eq!(answer.output(0)[254..256], [255, 0]);
}

#[test]
fn ground_15_never_comes() {
    // Each round before the last adds a wire, so R + C - 1 rounds are enough;
    // the stair needs all of them.
    for (rows, columns) in [
        (1, 0),
        (1, 1),
        (2, 1),
        (2, 2),
        (3, 3),
        (4, 3),
        (128, 128),
        (128, 127),
    ] {
        let (record, cells) = random::stair(rows, columns);
        let wires = usize::from(rows + columns);
        let (rounds, first_rounds) = light(&record, &cells, &[], wires).unwrap();
        assert_eq!(rounds as usize, wires - 1);
        assert_eq!(first_rounds, random::stair_first_rounds(rows, columns));
        let mut rising = first_rounds.clone();
        rising.sort();
        assert!(rising.into_iter().eq(1..=rows + columns));
    }
}

#[test]
fn the_set_line() {
    for bad in [
        "",
        "(set",
        "set 0 1)",
        "(set )",
        "(set 0 1 )",
        "(set  0 1)",
        "(set 0  1)",
        "(set 0 2)",
        "(set 0 01)",
        "(set 00 1)",
        "(set 01)",
        "(set 0 1) ",
        " (set 0 1)",
        "(set 0 1)\r",
        "(Set 0 1)",
        "(set 0 x)",
        "(set 0 10)",
        "(set0 1)",
        "(set 0 1))",
        "(set\t0 1)",
        "(set 0 100000)",
        "(set(0 1)",
    ] {
        let input = format!("{bad}\n{LISTING}");
        assert_eq!(light_program(input.as_bytes()), b"(refused 1 1)\n", "{bad}");
    }
    let more = format!("(set{})\n{LISTING}", " 1".repeat(65));
    assert_eq!(light_program(more.as_bytes()), b"(refused 1 1)\n");
    // A bad set line comes before a bad listing.
    assert_eq!(light_program(b"(set 2)\nx\n"), b"(refused 1 1)\n");
    assert_eq!(light_program(b"(set 1)\nx\n"), b"(refused 1 2)\n");
    assert_eq!(light_program(LISTING.as_bytes()), b"(refused 1 1)\n");
    assert_eq!(light_program(b"(set)"), b"(refused 1 1)\n");
}

#[test]
fn the_lowest_number_in_a_line() {
    // Line 4 is node 3 on switch 1 over node 2, a `v` on switch 2.
    job_refused(&with(4, "(node 4 3 (9 9) h)"), 3, 4);
    job_refused(&with(4, "(node 3 3 (9 9) h)"), 4, 4);
    job_refused(&with(4, "(node 3 2 (9 9) h)"), 5, 4);
    job_refused(&with(4, "(node 3 2 (2 2) v)"), 6, 4);
    job_refused(&with(4, "(node 3 2 (1 1) h)"), 7, 4);
    job_refused(&with(4, "(node 3 2 (0 1) h)"), 8, 4);
    job_refused(&with(4, "(node 3 1 (0 1) h)"), 9, 4);
    job_refused(&with(4, "(node 4 3 (9 9) x)"), 1, 4);
    job_refused(&with(1, "(job 65 4 02)"), 1, 1);
    job_refused(&with(7, "(out 1 6)"), 3, 7);
    job_refused(&with(7, "(out 1 2)"), 3, 7);
    load_refused(&exchange(LISTING, &[(6, "(out 1 3)")]), 3, 6);
}

#[test]
fn the_first_faulty_line() {
    job_refused(&exchange(GOOD, &[(3, "(node 2 2 (0 1) h)"), (4, "")]), 9, 3);
    job_refused(
        &exchange(GOOD, &[(2, "(one v)"), (3, "(node 9 9 (9 9) h)")]),
        9,
        2,
    );
    job_refused(&exchange(GOOD, &[(1, "(job 3 4 0)"), (2, "")]), 2, 1);
    job_refused(
        &exchange(GOOD, &[(6, "(node 5 0 (4 4) v)"), (7, "(out 1 4)")]),
        7,
        6,
    );
    job_refused(
        &exchange(GOOD, &[(8, "(out 1 2)"), (9, "(end)\n(end)")]),
        9,
        8,
    );
    load_refused(
        &exchange(LISTING, &[(5, "(cell 0 0 (on))"), (6, "(out 1 2)")]),
        12,
        5,
    );
    load_refused(&exchange(LISTING, &[(7, "(out 1 3)"), (8, "(end")]), 12, 7);
    load_refused(
        &exchange(LISTING, &[(7, "(out 1 3)"), (8, "(end)\n(end)")]),
        12,
        7,
    );
}
