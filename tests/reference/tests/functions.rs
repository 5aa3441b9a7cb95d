//! Real functions: under every setting the lamp, the walk and arithmetic
//! agree (document 01, "What an output reads").

use reference::diagrams::*;
use reference::random::{setting_of, Rng};
use reference::*;

/// Tries one function with one labelling under every setting. Returns whether
/// the job was accepted; ground 11 is the only refusal there can be.
fn agrees(function: &Function, labels: &Labels) -> bool {
    let name = &function.name;
    let text = function.diagram.text(labels);
    let job = match read_job(&text) {
        Ok(job) => job,
        Err(refusal) => {
            let job = function.diagram.job(labels);
            assert!(
                job.rows() > 128 || job.columns() > 128,
                "{name}: {refusal:?}"
            );
            let line = 3 + job.nodes.len() + job.outs.len();
            let due = Refusal {
                number: 11,
                line: line as u32,
            };
            assert_eq!(refusal, due, "{name}");
            return false;
        }
    };
    let (record, cells) = map(&text, usize::MAX).unwrap();
    let room = usize::from(record.rows + record.columns);
    for number in 0..1u64 << job.switches {
        let setting = setting_of(number, job.switches);
        let due = (function.truth)(&setting);
        let (rounds, first_rounds) = light(&record, &cells, &setting, room).unwrap();
        assert!(rounds < u32::from(record.rows + record.columns));
        assert_eq!(due.len(), job.outs.len(), "{name}");
        for (output, &value) in due.iter().enumerate() {
            let lamp = reading(&first_rounds, record.outs[output]);
            assert_eq!(lamp, value, "{name} lamp {output} {setting:?}");
            // The text is read anew only now and then.
            let walked = if number % 64 == 0 {
                walk(&text, &setting, output)
            } else {
                walk_job(&job, &setting, output)
            };
            assert_eq!(walked, Ok(value), "{name} walk {output} {setting:?}");
        }
    }
    true
}

#[test]
fn every_function_with_every_labelling() {
    for function in functions() {
        let mut accepted = 0;
        for labels in function.diagram.labellings() {
            accepted += usize::from(agrees(&function, &labels));
        }
        assert!(accepted > 0, "{} never fits", function.name);
    }
}

#[test]
fn large_functions_under_some_settings() {
    let mut rng = Rng::new(11);
    for function in large_functions() {
        let name = &function.name;
        let mut accepted = 0;
        for labels in function.diagram.labellings() {
            let job = function.diagram.job(&labels);
            let text = job.text();
            let Ok((record, cells)) = map(&text, usize::MAX) else {
                assert!(job.rows() > 128 || job.columns() > 128, "{name}");
                continue;
            };
            accepted += 1;
            for _ in 0..40 {
                let setting = random::setting(&mut rng, job.switches);
                let (_, first_rounds) = light(&record, &cells, &setting, usize::MAX).unwrap();
                for (output, value) in (function.truth)(&setting).into_iter().enumerate() {
                    let lamp = reading(&first_rounds, record.outs[output]);
                    assert_eq!(lamp, value, "{name} lamp {output}");
                    assert_eq!(walk_job(&job, &setting, output), Ok(value), "{name}");
                }
            }
        }
        assert!(accepted > 0, "{name} never fits");
    }
}

#[test]
fn two_colours_save_wires() {
    for function in functions() {
        let all_b = function.diagram.job(&function.diagram.labels_all_b());
        let colours = function.diagram.job(&function.diagram.labels_two_colours());
        let before = all_b.rows() + all_b.columns();
        let after = colours.rows() + colours.columns();
        assert!(after < before, "{}", function.name);
    }
}

#[test]
fn diagrams_are_reduced() {
    for function in functions() {
        let nodes = &function.diagram.nodes;
        for (index, node) in nodes.iter().enumerate() {
            assert!(node.1 != node.2);
            assert!(!nodes[..index].contains(node));
        }
    }
    // Known sizes: parity has two nodes a switch but for the two outputs at
    // the top, majority of 3 four, the one of document 003 three.
    assert_eq!(parity(5).diagram.nodes.len(), 10);
    assert_eq!(majority(3).diagram.nodes.len(), 4);
    assert_eq!(and_or().diagram.nodes.len(), 3);
    assert_eq!(multiplexer(3).diagram.nodes.len(), 15);
    assert_eq!(decoder(5).diagram.outs.len(), 32);
}

#[test]
fn document_003_and_or_c() {
    // f = (a and b) or c: node 2 is c, node 3 is b or c, node 4 is f.
    let text = "\
(job 3 3 1)
(one b)
(node 2 2 (0 1) h)
(node 3 1 (2 1) v)
(node 4 0 (2 3) b)
(out 0 4)
(end)
";
    let (record, cells) = map(text.as_bytes(), 9).unwrap();
    assert_eq!((record.rows, record.columns), (3, 3));
    // Rows: terminal 1, node 2, node 4. Columns: terminal 1, nodes 3 and 4.
    assert_eq!(
        cells,
        [ON, yes(1), OFF, yes(2), no(1), no(0), OFF, yes(0), ON]
    );
    for number in 0..8 {
        let setting = setting_of(number, 3);
        let due = setting[0] & setting[1] | setting[2];
        let (_, first_rounds) = light(&record, &cells, &setting, 6).unwrap();
        assert_eq!(reading(&first_rounds, record.outs[0]), due);
        assert_eq!(walk(text.as_bytes(), &setting, 0), Ok(due));
    }
}

/// The readings of a listing under a setting.
fn readings(text: &str, setting: &[u8]) -> Vec<u8> {
    let (record, cells) = load(text.as_bytes(), usize::MAX).unwrap();
    assert_eq!(print(&record, &cells, text.len()).unwrap(), text.as_bytes());
    let (_, first_rounds) = light(&record, &cells, setting, usize::MAX).unwrap();
    let outs = &record.outs[..usize::from(record.outputs)];
    outs.iter()
        .map(|&row| reading(&first_rounds, row))
        .collect()
}

#[test]
fn document_004_listings() {
    assert_eq!(readings(STATIC_CROSSBAR, &[]), [1, 0, 1]);
    for number in 0..4 {
        let setting = setting_of(number, 2);
        let sum = setting[0] + setting[1];
        assert_eq!(readings(HALF_ADDER, &setting), [sum % 2, sum / 2]);
    }
    for number in 0..8 {
        let setting = setting_of(number, 3);
        let ones = setting[0] + setting[1] + setting[2];
        assert_eq!(readings(PARITY_OF_THREE, &setting), [ones % 2]);
    }
}
