//! The five calls of include/crossbar.h: numbers and byte slices in, one
//! number and whole buffers out. The header says how the answers of document
//! 01 and of Req 01 stand in them.

use crate::{Record, Refusal};

/// The header's CROSSBAR_RECORD_BYTES: 36 numbers of two bytes each.
pub const RECORD_BYTES: usize = 72;

/// One call with its input slices and the lengths of its output slices.
#[derive(Clone, Copy, Debug)]
pub enum Call<'a> {
    Map {
        text: &'a [u8],
        record: usize,
        cells: usize,
    },
    Walk {
        text: &'a [u8],
        setting: &'a [u8],
        output: u32,
    },
    Light {
        record: &'a [u8],
        cells: &'a [u8],
        setting: &'a [u8],
        first_rounds: usize,
    },
    Print {
        record: &'a [u8],
        cells: &'a [u8],
        text: usize,
    },
    Load {
        text: &'a [u8],
        record: usize,
        cells: usize,
    },
}

/// What a call gives: its number and every byte of its output slices, in the
/// order of the header's parameters.
#[derive(Clone, Debug, PartialEq, Eq)]
pub struct Answer {
    pub word: u64,
    pub outputs: Vec<Vec<u8>>,
}

impl Answer {
    /// The header's CROSSBAR_NUMBER: 0 where nothing is refused.
    pub fn number(&self) -> u32 {
        (self.word >> 56) as u32
    }

    /// The header's CROSSBAR_VALUE and CROSSBAR_LINE.
    pub fn value(&self) -> u64 {
        self.word & ((1 << 56) - 1)
    }

    /// One output slice; an empty one where there is none.
    pub fn output(&self, index: usize) -> &[u8] {
        self.outputs.get(index).map_or(&[], Vec::as_slice)
    }
}

/// The header's second paragraph: the number in the highest byte, then the
/// line.
pub fn refusal_word(refusal: Refusal) -> u64 {
    u64::from(refusal.number) << 56 | u64::from(refusal.line)
}

/// Numbers of two bytes each, low byte first: so the header has a record, and
/// Req 01 the host's first rounds.
pub fn number_bytes(numbers: &[u16]) -> Vec<u8> {
    numbers
        .iter()
        .flat_map(|number| number.to_le_bytes())
        .collect()
}

/// The way back. A last odd byte is no number.
pub fn numbers_of(bytes: &[u8]) -> Vec<u16> {
    bytes
        .chunks_exact(2)
        .map(|pair| match *pair {
            [low, high] => u16::from_le_bytes([low, high]),
            _ => 0,
        })
        .collect()
}

/// The header on a record: R, C, V, K and 32 output rows.
pub fn record_bytes(record: &Record) -> Vec<u8> {
    let head = [record.rows, record.columns, record.switches, record.outputs];
    [number_bytes(&head), number_bytes(&record.outs)].concat()
}

/// The way back. Nothing when the slice is shorter than a record or has a byte
/// other than 0 past it.
pub fn record_of(bytes: &[u8]) -> Option<Record> {
    let (record, past) = bytes.split_at_checked(RECORD_BYTES)?;
    if past.iter().any(|&byte| byte != 0) {
        return None;
    }
    match *numbers_of(record).as_slice() {
        [rows, columns, switches, outputs, ref rest @ ..] => Some(Record {
            rows,
            columns,
            switches,
            outputs,
            outs: rest.try_into().ok()?,
        }),
        _ => None,
    }
}

/// A whole buffer: the answer's bytes, then zeros.
fn filled(mut bytes: Vec<u8>, length: usize) -> Vec<u8> {
    bytes.resize(length, 0);
    bytes
}

/// A refusal: its number and line, and zeros in every buffer.
fn refused(refusal: Refusal, lengths: &[usize]) -> Answer {
    Answer {
        word: refusal_word(refusal),
        outputs: lengths.iter().map(|&length| vec![0; length]).collect(),
    }
}

/// A refusal of this number with line 0.
fn without_line(number: u32) -> Refusal {
    Refusal { number, line: 0 }
}

/// The record and cells of map and load, once the cells fit: 14 for a record
/// slice too short as well.
fn crossbar_answer(
    made: Result<(Record, Vec<u8>), Refusal>,
    record_length: usize,
    cells_length: usize,
) -> Answer {
    let lengths = [record_length, cells_length];
    match made {
        Err(refusal) => refused(refusal, &lengths),
        Ok(_) if record_length < RECORD_BYTES => refused(without_line(14), &lengths),
        Ok((record, cells)) => Answer {
            word: cells.len() as u64,
            outputs: vec![
                filled(record_bytes(&record), record_length),
                filled(cells, cells_length),
            ],
        },
    }
}

/// The answer that document 01 and the header give for a call.
pub fn answer(call: &Call) -> Answer {
    match *call {
        Call::Map {
            text,
            record,
            cells,
        } => crossbar_answer(crate::map(text, cells), record, cells),
        Call::Load {
            text,
            record,
            cells,
        } => crossbar_answer(crate::load(text, cells), record, cells),
        Call::Walk {
            text,
            setting,
            output,
        } => match crate::walk(text, setting, output as usize) {
            Err(refusal) => refused(refusal, &[]),
            Ok(value) => Answer {
                word: u64::from(value),
                outputs: Vec::new(),
            },
        },
        Call::Light {
            record,
            cells,
            setting,
            first_rounds,
        } => {
            // Two bytes a number; a last odd byte has room for none.
            let room = first_rounds / 2;
            let lit = match record_of(record) {
                None => Err(without_line(12)),
                Some(record) => crate::light(&record, cells, setting, room),
            };
            match lit {
                Err(refusal) => refused(refusal, &[first_rounds]),
                Ok((rounds, numbers)) => Answer {
                    word: u64::from(rounds),
                    outputs: vec![filled(number_bytes(&numbers), first_rounds)],
                },
            }
        }
        Call::Print {
            record,
            cells,
            text,
        } => {
            let printed = match record_of(record) {
                None => Err(without_line(12)),
                Some(record) => crate::print(&record, cells, text),
            };
            match printed {
                Err(refusal) => refused(refusal, &[text]),
                Ok(bytes) => Answer {
                    word: bytes.len() as u64,
                    outputs: vec![filled(bytes, text)],
                },
            }
        }
    }
}
