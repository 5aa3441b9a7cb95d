//! Light.

use crate::record::{check, setting_is_right, Crossbar};
use crate::{refused, Refused, MOST_WIRES};

/// Which codes conduct under a setting: 1 or 0.
fn conducting(setting: &[u8]) -> [u8; 256] {
    let mut on = [0; 256];
    on[1] = 1;
    for (pair, &byte) in on[2..].chunks_exact_mut(2).zip(setting) {
        pair[0] = byte;
        pair[1] = 1 - byte;
    }
    on
}

/// A wire's first round as the answer has it, low byte first: 0 if the wire is
/// dark, otherwise 1 plus the round in which it was first lit.
type FirstRound = [u8; 2];

const DARK: FirstRound = [0; 2];

/// Record, cells and setting in; a first round for each wire out. Value: the
/// count of rounds.
pub fn light(record: &[u8], cells: &[u8], setting: &[u8], first_rounds: &mut [u8]) -> u64 {
    // Zeros are both what a refusal leaves and dark wires, where the rounds
    // begin.
    first_rounds.fill(0);
    lit(record, cells, setting, first_rounds).unwrap_or_else(|refusal| refusal)
}

fn lit(
    record: &[u8],
    cells: &[u8],
    setting: &[u8],
    first_rounds: &mut [u8],
) -> Result<u64, Refused> {
    let crossbar = check(record, cells)?;
    if !setting_is_right(setting, crossbar.sizes.switches) {
        return Err(refused(13, 0));
    }
    let count = crossbar.sizes.rows + crossbar.sizes.columns;
    let (wires, _) = first_rounds.as_chunks_mut();
    let Some(wires) = wires.get_mut(..count) else {
        return Err(refused(14, 0));
    };
    let (rows, columns) = wires.split_at_mut(crossbar.sizes.rows);
    Ok(rounds(&crossbar, &conducting(setting), rows, columns))
}

/// The wires in the order in which they are lit.
struct Queue {
    wires: [u8; 2 * MOST_WIRES as usize],
    length: usize,
    /// What a wire that is lit now gets.
    now: FirstRound,
}

impl Queue {
    #[inline(always)]
    fn push(&mut self, wire: usize) {
        self.wires[self.length % self.wires.len()] = wire as u8;
        self.length += 1;
    }
}

/// The next eight wires are lit. All eight are looked at, so that they are
/// compared at once.
#[inline(always)]
fn all_lit(wires: &[FirstRound]) -> bool {
    wires
        .first_chunk::<8>()
        .is_some_and(|wires| wires.iter().fold(true, |all, &wire| all & (wire != DARK)))
}

/// Rounds until all wires are lit or one adds nothing. Rows are lit in even
/// rounds and columns in odd ones, so a round goes over wires of one kind.
/// Each round lights a wire at least, so ground 15 is never met.
fn rounds(
    crossbar: &Crossbar,
    on: &[u8; 256],
    rows: &mut [FirstRound],
    columns: &mut [FirstRound],
) -> u64 {
    let mut queue = Queue {
        wires: [0; 2 * MOST_WIRES as usize],
        length: 1,
        now: 1u16.to_le_bytes(),
    };
    rows[0] = queue.now;
    let count = rows.len() + columns.len();
    let (mut next, mut rounds) = (0, 0u16);
    while queue.length < count {
        let end = queue.length;
        queue.now = (rounds + 2).to_le_bytes();
        while next < end {
            let wire = usize::from(queue.wires[next]);
            if rounds % 2 == 0 {
                let width = columns.len();
                let codes = &crossbar.cells[wire * width..][..width];
                from_row(codes, on, columns, &mut queue);
            } else {
                from_column(crossbar.cells, wire, on, (rows, columns.len()), &mut queue);
            }
            next += 1;
        }
        if queue.length == end {
            break;
        }
        rounds += 1;
    }
    u64::from(rounds)
}

/// Lights the columns that a cell of a row joins to it. Eight cells are passed
/// at once where all are off or all their columns lit.
#[inline(always)]
fn from_row(codes: &[u8], on: &[u8; 256], columns: &mut [FirstRound], queue: &mut Queue) {
    let (blocks, rest) = codes.as_chunks::<8>();
    for (block, codes) in blocks.iter().enumerate() {
        let first = 8 * block;
        let off = u64::from_ne_bytes(*codes) == 0;
        if off || all_lit(&columns[first..]) {
            continue;
        }
        for (place, &code) in codes.iter().enumerate() {
            join(code, first + place, on, columns, queue);
        }
    }
    for (place, &code) in rest.iter().enumerate() {
        join(code, 8 * blocks.len() + place, on, columns, queue);
    }
}

/// Lights the rows that a cell of a column joins to it, in the same way.
#[inline(always)]
fn from_column(
    cells: &[u8],
    column: usize,
    on: &[u8; 256],
    (rows, width): (&mut [FirstRound], usize),
    queue: &mut Queue,
) {
    let blocks = rows.len() / 8;
    for block in 0..blocks {
        let first = 8 * block;
        if all_lit(&rows[first..]) {
            continue;
        }
        let cells = &cells[first * width..][..8 * width];
        let code = |place: usize| cells[place * width + column];
        if (0..8).fold(0, |any, place| any | code(place)) == 0 {
            continue;
        }
        for place in 0..8 {
            join(code(place), first + place, on, rows, queue);
        }
    }
    for row in 8 * blocks..rows.len() {
        join(cells[row * width + column], row, on, rows, queue);
    }
}

#[inline(always)]
fn join(code: u8, wire: usize, on: &[u8; 256], lit: &mut [FirstRound], queue: &mut Queue) {
    if on[usize::from(code)] != 0 && lit[wire] == DARK {
        lit[wire] = queue.now;
        queue.push(wire);
    }
}
