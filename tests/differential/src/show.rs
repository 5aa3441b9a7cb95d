//! A case in words that can be pasted.

use reference::host::{self, Answer, Call};
use reference::random::{light_input, listing};
use std::fmt::Display;
use std::sync::atomic::{AtomicU32, Ordering};

/// Bytes as an argument of the shell's printf.
fn quoted(bytes: &[u8]) -> String {
    let mut text = String::from("'");
    for &byte in bytes {
        match byte {
            b'\n' => text += "\\n",
            b'\\' => text += "\\\\",
            b'%' => text += "%%",
            b'\'' => text += "\\047",
            b' '..=b'~' => text.push(byte as char),
            _ => text += &format!("\\{byte:03o}"),
        }
    }
    text + "'"
}

/// Bytes that are too long to be shown go to a file.
fn kept(bytes: &[u8]) -> String {
    static WRITTEN: AtomicU32 = AtomicU32::new(0);
    let number = WRITTEN.fetch_add(1, Ordering::Relaxed);
    let name = format!("crossbar-case-{}-{number}", std::process::id());
    let path = std::env::temp_dir().join(name);
    match std::fs::write(&path, bytes) {
        Ok(()) => path.display().to_string(),
        Err(error) => format!("(a file that could not be written: {error})"),
    }
}

/// A line for the shell that gives these bytes to a program.
pub fn pasted(bytes: &[u8], program: &str) -> String {
    if bytes.len() <= 20_000 {
        format!("  printf {} | target/bin/{program}\n", quoted(bytes))
    } else {
        format!("  target/bin/{program} < {}\n", kept(bytes))
    }
}

/// Numbers one by one, with runs drawn together.
fn runs<T: PartialEq + Display>(numbers: &[T]) -> String {
    let parts: Vec<String> = numbers
        .chunk_by(|one, next| one == next)
        .map(|run| match run {
            [one] => format!("{one}"),
            _ => format!("{} x{}", run[0], run.len()),
        })
        .collect();
    parts.join(", ")
}

/// Small slices byte by byte, those that are too long as a file.
fn numbers(bytes: &[u8]) -> String {
    let text = runs(bytes);
    if text.len() > 4000 {
        return format!("the bytes of {}", kept(bytes));
    }
    text
}

/// The byte of a slice of first rounds that is no part of a number.
fn odd_byte(bytes: &[u8]) -> Option<u8> {
    let [byte] = bytes.chunks_exact(2).remainder() else {
        return None;
    };
    Some(*byte)
}

/// A slice of first rounds, as numbers.
fn first_rounds(bytes: &[u8]) -> String {
    let text = runs(&host::numbers_of(bytes));
    if text.len() > 4000 {
        return format!("the bytes of {}", kept(bytes));
    }
    match odd_byte(bytes) {
        Some(byte) => format!("[{text}] and a byte {byte}"),
        None => format!("[{text}]"),
    }
}

/// What light answers, with its numbers.
pub fn light(answer: &Answer) -> String {
    format!("{}, {}", word(answer), first_rounds(answer.output(0)))
}

/// The call with its slices.
pub fn call(call: &Call) -> String {
    match *call {
        Call::Map {
            text,
            record,
            cells,
        } => format!(
            "crossbar_map, {} bytes of text, record of {record}, cells of {cells}\n{}",
            text.len(),
            pasted(text, "map_main")
        ),
        Call::Walk {
            text,
            setting,
            output,
        } => format!(
            "crossbar_walk, {} bytes of text, setting [{}], output {output}\n{}",
            text.len(),
            numbers(setting),
            pasted(text, "map_main")
        ),
        Call::Load {
            text,
            record,
            cells,
        } => format!(
            "crossbar_load, {} bytes of text, record of {record}, cells of {cells}\n{}",
            text.len(),
            pasted(&light_input(&[], text), "light_main")
        ),
        Call::Light {
            record,
            cells,
            setting,
            first_rounds,
        } => format!(
            "crossbar_light, setting [{}], first rounds of {first_rounds} bytes\n{}",
            numbers(setting),
            crossbar(record, cells, setting)
        ),
        Call::Print {
            record,
            cells,
            text,
        } => format!(
            "crossbar_print, text of {text}\n{}",
            crossbar(record, cells, &[])
        ),
    }
}

/// A crossbar as input of the second program, when it has a listing, and as
/// the bytes of its record and cells.
fn crossbar(record: &[u8], cells: &[u8], setting: &[u8]) -> String {
    let mut text = format!(
        "  record of {} [{}]\n  cells of {} [{}]\n",
        record.len(),
        numbers(record),
        cells.len(),
        numbers(cells)
    );
    if let Some(record) = host::record_of(record) {
        let listing = listing(&record, cells);
        if !listing.is_empty() {
            text += &pasted(&light_input(setting, &listing), "light_main");
        }
    }
    text
}

/// The answer's number with its line or value.
fn word(answer: &Answer) -> String {
    match answer.number() {
        0 => format!("value {}", answer.value()),
        number => format!("refused {number} {}", answer.value()),
    }
}

/// Where two answers to a call differ.
pub fn difference(call: &Call, due: &Answer, had: &Answer) -> String {
    if let Call::Light { .. } = call {
        return light_difference(due, had);
    }
    let mut text = format!("  due: {}; had: {}\n", word(due), word(had));
    for (index, (due, had)) in due.outputs.iter().zip(&had.outputs).enumerate() {
        text += &output_difference(index, "bytes", due, had);
    }
    text
}

/// Where two output slices differ.
fn output_difference<T>(index: usize, units: &str, due: &[T], had: &[T]) -> String
where
    T: PartialEq + Display,
{
    let wrong: Vec<usize> = (0..due.len().min(had.len()))
        .filter(|&at| due[at] != had[at])
        .collect();
    let Some(&at) = wrong.first() else {
        return String::new();
    };
    format!(
        "  output {index}: {} of {} {units} differ, first at {at}: due {}, had {}\n",
        wrong.len(),
        due.len(),
        due[at],
        had[at]
    )
}

/// Where two answers of light differ: in numbers, not in their bytes.
fn light_difference(due: &Answer, had: &Answer) -> String {
    let mut text = format!("  due: {}\n  had: {}\n", light(due), light(had));
    let (due, had) = (due.output(0), had.output(0));
    text += &output_difference(0, "numbers", &host::numbers_of(due), &host::numbers_of(had));
    text
}
