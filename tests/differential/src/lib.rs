//! The library under test behind safe calls. Each slice is lent with exactly
//! its length, between memory that nobody may touch on one side and marked
//! bytes on the other, so that a step outside of it is seen.

#![deny(unsafe_op_in_unsafe_fn)]

pub mod crash;
mod fence;
pub mod show;

use fence::Fence;
use reference::host::{Answer, Call};

extern "C" {
    fn crossbar_map(
        text: *const u8,
        text_length: usize,
        record: *mut u8,
        record_length: usize,
        cells: *mut u8,
        cells_length: usize,
    ) -> u64;
    fn crossbar_walk(
        text: *const u8,
        text_length: usize,
        setting: *const u8,
        setting_length: usize,
        output: u32,
    ) -> u64;
    fn crossbar_light(
        record: *const u8,
        record_length: usize,
        cells: *const u8,
        cells_length: usize,
        setting: *const u8,
        setting_length: usize,
        first_rounds: *mut u8,
        first_rounds_length: usize,
    ) -> u64;
    fn crossbar_print(
        record: *const u8,
        record_length: usize,
        cells: *const u8,
        cells_length: usize,
        text: *mut u8,
        text_length: usize,
    ) -> u64;
    fn crossbar_load(
        text: *const u8,
        text_length: usize,
        record: *mut u8,
        record_length: usize,
        cells: *mut u8,
        cells_length: usize,
    ) -> u64;
}

/// The header's CROSSBAR_MAX_LISTING: always enough for a listing.
pub const MAX_LISTING: usize = 393_728;

/// The header's CROSSBAR_MAX_FIRST_ROUNDS_BYTES: always enough for what light gives,
/// two bytes for each of 128 rows and 128 columns.
pub const MAX_FIRST_ROUNDS_BYTES: usize = 512;

/// The calls themselves, on slices that the caller owns. For measuring time;
/// the tests go through a `Lender`.
pub mod direct {
    /// Value: R times C.
    pub fn map(text: &[u8], record: &mut [u8], cells: &mut [u8]) -> u64 {
        // Safety: each pointer comes with the length of its own slice, and
        // the two slices to be written are apart from all others.
        unsafe {
            super::crossbar_map(
                text.as_ptr(),
                text.len(),
                record.as_mut_ptr(),
                record.len(),
                cells.as_mut_ptr(),
                cells.len(),
            )
        }
    }

    /// Value: the diagram's value.
    pub fn walk(text: &[u8], setting: &[u8], output: u32) -> u64 {
        // Safety: as for map.
        unsafe {
            super::crossbar_walk(
                text.as_ptr(),
                text.len(),
                setting.as_ptr(),
                setting.len(),
                output,
            )
        }
    }

    /// Value: the count of rounds.
    pub fn light(record: &[u8], cells: &[u8], setting: &[u8], first_rounds: &mut [u8]) -> u64 {
        // Safety: as for map.
        unsafe {
            super::crossbar_light(
                record.as_ptr(),
                record.len(),
                cells.as_ptr(),
                cells.len(),
                setting.as_ptr(),
                setting.len(),
                first_rounds.as_mut_ptr(),
                first_rounds.len(),
            )
        }
    }

    /// Value: the text's length.
    pub fn print(record: &[u8], cells: &[u8], text: &mut [u8]) -> u64 {
        // Safety: as for map.
        unsafe {
            super::crossbar_print(
                record.as_ptr(),
                record.len(),
                cells.as_ptr(),
                cells.len(),
                text.as_mut_ptr(),
                text.len(),
            )
        }
    }

    /// Value: R times C.
    pub fn load(text: &[u8], record: &mut [u8], cells: &mut [u8]) -> u64 {
        // Safety: as for map.
        unsafe {
            super::crossbar_load(
                text.as_ptr(),
                text.len(),
                record.as_mut_ptr(),
                record.len(),
                cells.as_mut_ptr(),
                cells.len(),
            )
        }
    }
}

/// The memory that calls are lent, one for each thread.
pub struct Lender {
    inputs: [Fence; 3],
    outputs: [Fence; 2],
    /// How many calls were made; sides and earlier contents go by it.
    turn: u64,
}

impl Default for Lender {
    fn default() -> Lender {
        Lender::new()
    }
}

impl Lender {
    /// Room for every text and buffer of the tests.
    pub fn new() -> Lender {
        const ROOM: usize = 1 << 20;
        Lender {
            inputs: [Fence::new(ROOM), Fence::new(ROOM), Fence::new(ROOM)],
            outputs: [Fence::new(ROOM), Fence::new(ROOM)],
            turn: 0,
        }
    }

    /// Makes the call. The answer has every byte of every output slice; the
    /// error says which memory was touched that was not lent for it.
    pub fn call(&mut self, call: &Call) -> Result<Answer, String> {
        self.turn += 1;
        let turn = self.turn;
        let mut inputs: [&[u8]; 3] = [&[]; 3];
        let mut lengths: &[usize] = &[];
        let two_lengths;
        match *call {
            Call::Map {
                text,
                record,
                cells,
            }
            | Call::Load {
                text,
                record,
                cells,
            } => {
                inputs[0] = text;
                two_lengths = [record, cells];
                lengths = &two_lengths;
            }
            Call::Walk { text, setting, .. } => {
                inputs[0] = text;
                inputs[1] = setting;
            }
            Call::Light {
                record,
                cells,
                setting,
                first_rounds,
            } => {
                inputs = [record, cells, setting];
                two_lengths = [first_rounds, 0];
                lengths = &two_lengths[..1];
            }
            Call::Print {
                record,
                cells,
                text,
            } => {
                inputs[0] = record;
                inputs[1] = cells;
                two_lengths = [text, 0];
                lengths = &two_lengths[..1];
            }
        }

        let mut read = [(std::ptr::null(), 0); 3];
        for (index, bytes) in inputs.iter().enumerate() {
            let pointer = self.inputs[index].lend(bytes, turn + index as u64);
            read[index] = (pointer.cast_const(), bytes.len());
        }
        let mut written = [(std::ptr::null_mut(), 0); 2];
        for (index, &length) in lengths.iter().enumerate() {
            let pointer = self.outputs[index].lend_junk(length, turn + index as u64);
            written[index] = (pointer, length);
        }

        crash::enter(call);
        let [a, b, c] = read;
        let [y, z] = written;
        // Safety: each pointer is good for its length, a pointer that is null
        // has length 0, and no two slices overlap.
        let word = unsafe {
            match *call {
                Call::Map { .. } => crossbar_map(a.0, a.1, y.0, y.1, z.0, z.1),
                Call::Load { .. } => crossbar_load(a.0, a.1, y.0, y.1, z.0, z.1),
                Call::Walk { output, .. } => crossbar_walk(a.0, a.1, b.0, b.1, output),
                Call::Light { .. } => crossbar_light(a.0, a.1, b.0, b.1, c.0, c.1, y.0, y.1),
                Call::Print { .. } => crossbar_print(a.0, a.1, b.0, b.1, y.0, y.1),
            }
        };

        crash::leave();

        for (index, bytes) in inputs.iter().enumerate() {
            if self.inputs[index].lent() != *bytes {
                return Err(format!("input slice {index} was changed"));
            }
            if !self.inputs[index].marks_stand() {
                return Err(format!("bytes beside input slice {index} were changed"));
            }
        }
        let mut outputs = Vec::new();
        for (index, _) in lengths.iter().enumerate() {
            if !self.outputs[index].marks_stand() {
                return Err(format!("bytes beside output slice {index} were changed"));
            }
            outputs.push(self.outputs[index].lent().to_vec());
        }
        Ok(Answer { word, outputs })
    }
}
