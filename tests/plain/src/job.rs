//! Map and walk.

use crate::reader::Reader;
use crate::record::{self, setting_is_right, Sizes};
use crate::{refused, settle, Refused, MOST_NODES, MOST_OUTPUTS, MOST_SWITCHES, MOST_WIRES};

const ROW: u8 = 1;
const COLUMN: u8 = 2;
const BOTH: u8 = 3;

/// What is known of an id. Ids go up to 255, so a byte holds one.
#[derive(Clone, Copy)]
struct Node {
    /// How many switches from its own on: 64 less the switch, and 0 for a
    /// terminal. So ground 6 needs no case for terminals, and a node without a
    /// line is zeros.
    height: u8,
    low: u8,
    high: u8,
    /// 1 `h`, 2 `v`, 3 `b`; 0 for terminal 0.
    label: u8,
    row: u8,
    column: u8,
}

const TERMINAL: Node = Node {
    height: 0,
    low: 0,
    high: 0,
    label: 0,
    row: 0,
    column: 0,
};

impl Node {
    fn switch(&self) -> u8 {
        MOST_SWITCHES as u8 - self.height
    }
}

/// A job that grounds 1 to 11 have nothing against.
struct Job {
    /// By id.
    nodes: [Node; 256],
    count: usize,
    /// The ids that the outputs name.
    outs: [u8; 32],
    sizes: Sizes,
}

/// The ids of the nodes so far, found by switch and children.
struct Index {
    places: [u8; 512],
}

impl Index {
    /// Ground 8: is there an earlier node like this one? If not, it is
    /// entered.
    #[inline(always)]
    fn has(&mut self, nodes: &[Node; 256], node: &Node, id: u8) -> bool {
        let key = u32::from_le_bytes([node.height, node.low, node.high, 0]);
        let mut place = (key.wrapping_mul(0x9e37_79b1) >> 23) as usize;
        loop {
            let other = self.places[place % 512];
            if other == 0 {
                self.places[place % 512] = id;
                return false;
            }
            let earlier = &nodes[usize::from(other)];
            if (earlier.height, earlier.low, earlier.high) == (node.height, node.low, node.high) {
                return true;
            }
            place += 1;
        }
    }
}

/// `(node I X (L H) T)`.
#[inline(always)]
fn node_line(reader: &mut Reader) -> Option<(u32, u32, u32, u32, u8)> {
    reader.word(b"(node ")?;
    let id = reader.figure_then(b" ")?;
    let switch = reader.figure_then(b" (")?;
    let low = reader.figure_then(b" ")?;
    let high = reader.figure_then(b") ")?;
    let label = reader.label()?;
    reader.word(b")\n")?;
    Some((id, switch, low, high, label))
}

/// The node lines. Rows and columns are handed out on the way.
#[inline(never)]
fn read_nodes(reader: &mut Reader, job: &mut Job) -> Result<(), Refused> {
    let mut index = Index { places: [0; 512] };
    let switches = job.sizes.switches as u32;
    for due in 2..job.count as u32 + 2 {
        let line = due as usize + 1;
        let (id, switch, low, high, label) = node_line(reader).ok_or(refused(1, line))?;
        if id != due {
            return Err(refused(3, line));
        }
        if switch >= switches {
            return Err(refused(4, line));
        }
        if low >= id || high >= id {
            return Err(refused(5, line));
        }
        let mut node = Node {
            height: (MOST_SWITCHES - switch) as u8,
            low: low as u8,
            high: high as u8,
            label,
            ..TERMINAL
        };
        let below = job.nodes[usize::from(node.low)];
        let above = job.nodes[usize::from(node.high)];
        if below.height >= node.height || above.height >= node.height {
            return Err(refused(6, line));
        }
        if low == high {
            return Err(refused(7, line));
        }
        if index.has(&job.nodes, &node, id as u8) {
            return Err(refused(8, line));
        }
        if label != BOTH && (below.label == label || above.label == label) {
            return Err(refused(9, line));
        }
        node.row = job.sizes.rows as u8;
        node.column = job.sizes.columns as u8;
        job.sizes.rows += usize::from(label & ROW);
        job.sizes.columns += usize::from(label & COLUMN) / 2;
        job.nodes[id as usize % 256] = node;
    }
    Ok(())
}

/// `(out J I)`.
#[inline(always)]
fn out_line(reader: &mut Reader) -> Option<(u32, u32)> {
    reader.word(b"(out ")?;
    Some((reader.figure_then(b" ")?, reader.figure_then(b")\n")?))
}

/// `(job V N K)`.
fn job_line(reader: &mut Reader) -> Option<(u32, u32, u32)> {
    reader.word(b"(job ")?;
    let switches = reader.figure_then(b" ")?;
    let nodes = reader.figure_then(b" ")?;
    Some((switches, nodes, reader.figure_then(b")\n")?))
}

/// `(one T)`.
fn one_line(reader: &mut Reader) -> Option<u8> {
    reader.word(b"(one ")?;
    let label = reader.label()?;
    reader.word(b")\n")?;
    Some(label)
}

const NO_JOB: Job = Job {
    nodes: [TERMINAL; 256],
    count: 0,
    outs: [0; 32],
    sizes: Sizes {
        rows: 1,
        columns: 0,
        switches: 0,
        outputs: 0,
    },
};

/// Grounds 1 to 11. The job is filled where it stands.
fn read(text: &[u8], job: &mut Job) -> Result<(), Refused> {
    let mut reader = Reader::new(text);
    let (switches, nodes, outputs) = job_line(&mut reader).ok_or(refused(1, 1))?;
    if switches > MOST_SWITCHES || nodes > MOST_NODES || !(1..=MOST_OUTPUTS).contains(&outputs) {
        return Err(refused(2, 1));
    }
    let one = one_line(&mut reader).ok_or(refused(1, 2))?;
    if one == COLUMN {
        return Err(refused(9, 2));
    }
    job.count = nodes as usize;
    job.sizes.columns = usize::from(one == BOTH);
    job.sizes.switches = switches as usize;
    job.sizes.outputs = outputs as usize;
    job.nodes[1].label = one;
    if nodes > 0 {
        read_nodes(&mut reader, job)?;
    }
    let mut zero = false;
    for (due, out) in job.outs.iter_mut().take(outputs as usize).enumerate() {
        let line = 3 + job.count + due;
        let (number, id) = out_line(&mut reader).ok_or(refused(1, line))?;
        if number != due as u32 {
            return Err(refused(3, line));
        }
        if id > nodes + 1 {
            return Err(refused(5, line));
        }
        if job.nodes[id as usize % 256].label == COLUMN {
            return Err(refused(9, line));
        }
        zero |= id == 0;
        *out = id as u8;
    }
    let line = 3 + job.count + job.sizes.outputs;
    reader.word(b"(end)\n").ok_or(refused(1, line))?;
    if !reader.at_end() {
        return Err(refused(10, line + 1));
    }
    job.sizes.rows += usize::from(zero);
    let most = MOST_WIRES as usize;
    if job.sizes.rows > most || job.sizes.columns > most {
        return Err(refused(11, line));
    }
    Ok(())
}

/// The cells of a job, into R times C bytes that are 0.
fn place(job: &Job, cells: &mut [u8]) {
    let width = job.sizes.columns;
    let one = job.nodes[1];
    if one.label == BOTH {
        cells[0] = 1;
    }
    for parent in &job.nodes[2..job.count + 2] {
        if parent.label == BOTH {
            cells[usize::from(parent.row) * width + usize::from(parent.column)] = 1;
        }
        let yes = 2 + 2 * parent.switch();
        for (child, code) in [(parent.low, yes + 1), (parent.high, yes)] {
            if child == 0 {
                continue;
            }
            let child = &job.nodes[usize::from(child)];
            let at_row_of_parent = parent.label & ROW != 0 && child.label & COLUMN != 0;
            let (row, column) = if at_row_of_parent {
                (parent.row, child.column)
            } else {
                (child.row, parent.column)
            };
            cells[usize::from(row) * width + usize::from(column)] = code;
        }
    }
}

/// Job text in; record and cells out. Value: R times C.
pub fn map(text: &[u8], record: &mut [u8], cells: &mut [u8]) -> u64 {
    settle(mapped(text, record, cells), record, cells)
}

fn mapped(text: &[u8], record: &mut [u8], cells: &mut [u8]) -> Result<u64, Refused> {
    let mut job = NO_JOB;
    read(text, &mut job)?;
    let size = job.sizes.rows * job.sizes.columns;
    if record.len() < record::BYTES || cells.len() < size {
        return Err(refused(14, 0));
    }
    cells.fill(0);
    place(&job, &mut cells[..size]);
    let mut outs = [0; 32];
    for (row, &id) in outs.iter_mut().zip(&job.outs[..job.sizes.outputs]) {
        *row = match id {
            0 => job.sizes.rows as u8 - 1,
            _ => job.nodes[usize::from(id)].row,
        };
    }
    job.sizes.write(&outs, record);
    Ok(size as u64)
}

/// Job text, setting and output number in. Value: the diagram's value.
pub fn walk(text: &[u8], setting: &[u8], output: u32) -> u64 {
    walked(text, setting, output).unwrap_or_else(|refusal| refusal)
}

fn walked(text: &[u8], setting: &[u8], output: u32) -> Result<u64, Refused> {
    let mut job = NO_JOB;
    read(text, &mut job)?;
    if !setting_is_right(setting, job.sizes.switches) || output as usize >= job.sizes.outputs {
        return Err(refused(13, 0));
    }
    let mut id = job.outs[output as usize];
    while id > 1 {
        let node = &job.nodes[usize::from(id)];
        id = match setting[usize::from(node.switch())] {
            0 => node.low,
            _ => node.high,
        };
    }
    Ok(u64::from(id))
}
