//! The record: R, C, V, K and 32 output rows, two bytes each, low byte first.

use crate::{refused, Refused, MOST_OUTPUTS, MOST_SWITCHES, MOST_WIRES};

/// Bytes of a record.
pub const BYTES: usize = 72;

/// The sizes of a crossbar.
#[derive(Clone, Copy)]
pub struct Sizes {
    pub rows: usize,
    pub columns: usize,
    pub switches: usize,
    pub outputs: usize,
}

impl Sizes {
    /// Writes the record; the bytes past it are 0.
    pub fn write(&self, outs: &[u8], record: &mut [u8]) {
        let (head, past) = record.split_at_mut(BYTES);
        head.fill(0);
        past.fill(0);
        let sizes = [self.rows, self.columns, self.switches, self.outputs];
        for (pair, size) in head.chunks_exact_mut(2).zip(sizes) {
            pair[0] = size as u8;
        }
        for (pair, &row) in head[8..].chunks_exact_mut(2).zip(outs) {
            pair[0] = row;
        }
    }
}

/// A record that ground 12 has nothing against, with its cells.
pub struct Crossbar<'a> {
    pub sizes: Sizes,
    /// R times C of them.
    pub cells: &'a [u8],
    pub outs: [u16; 32],
}

/// Ground 12 on a record and its cells.
pub fn check<'a>(record: &[u8], cells: &'a [u8]) -> Result<Crossbar<'a>, Refused> {
    found(record, cells).ok_or(refused(12, 0))
}

fn found<'a>(record: &[u8], cells: &'a [u8]) -> Option<Crossbar<'a>> {
    let (record, past_record) = record.split_first_chunk::<BYTES>()?;
    let number = |place: usize| u16::from_le_bytes([record[2 * place], record[2 * place + 1]]);
    let sizes = Sizes {
        rows: usize::from(number(0)),
        columns: usize::from(number(1)),
        switches: usize::from(number(2)),
        outputs: usize::from(number(3)),
    };
    let most = MOST_WIRES as usize;
    let right = (1..=most).contains(&sizes.rows)
        && sizes.columns <= most
        && sizes.switches <= MOST_SWITCHES as usize
        && (1..=MOST_OUTPUTS as usize).contains(&sizes.outputs);
    if !right {
        return None;
    }
    let mut outs = [0; 32];
    for (place, out) in outs.iter_mut().enumerate() {
        *out = number(4 + place);
    }
    let (used, unused) = outs.split_at(sizes.outputs);
    let rows = sizes.rows as u16;
    if used.iter().any(|&row| row >= rows) || unused.iter().any(|&row| row != 0) {
        return None;
    }
    let (cells, past) = cells.split_at_checked(sizes.rows * sizes.columns)?;
    // Every byte is looked at, so that the loops have one way out.
    let most = cells.iter().fold(0, |most, &code| code.max(most));
    let any = |bytes: &[u8]| bytes.iter().fold(0, |any, &byte| any | byte) != 0;
    if any(past_record) || any(past) {
        return None;
    }
    if usize::from(most) > 1 + 2 * sizes.switches {
        return None;
    }
    Some(Crossbar { sizes, cells, outs })
}

/// Ground 13: V bytes, each 0 or 1.
pub fn setting_is_right(setting: &[u8], switches: usize) -> bool {
    setting.len() == switches && setting.iter().fold(0, |any, &byte| any | byte) <= 1
}
