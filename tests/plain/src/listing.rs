//! Print and load.

use crate::reader::Reader;
use crate::record::{self, check, Crossbar, Sizes};
use crate::{refused, settle, Refused, MOST_OUTPUTS, MOST_SWITCHES, MOST_WIRES};

/// `(crossbar R C V K)`.
fn size_line(reader: &mut Reader) -> Option<[u32; 4]> {
    reader.word(b"(crossbar ")?;
    let rows = reader.figure_then(b" ")?;
    let columns = reader.figure_then(b" ")?;
    let switches = reader.figure_then(b" ")?;
    Some([rows, columns, switches, reader.figure_then(b")\n")?])
}

/// `(cell r c (on))`, `(cell r c (yes x))` or `(cell r c (no x))`: row,
/// column, the code of its kind for switch 0, and the switch.
#[inline(always)]
fn cell_line(reader: &mut Reader) -> Option<(u32, u32, u32, u32)> {
    reader.word(b"(cell ")?;
    let row = reader.figure_then(b" ")?;
    let column = reader.figure_then(b" (")?;
    let (code, switch) = match reader.byte()? {
        b'y' => {
            reader.word(b"es ")?;
            (2, reader.figure_then(b"))\n")?)
        }
        b'n' => {
            reader.word(b"o ")?;
            (3, reader.figure_then(b"))\n")?)
        }
        b'o' => {
            reader.word(b"n))\n")?;
            (1, 0)
        }
        _ => return None,
    };
    Some((row, column, code, switch))
}

/// `(out J r)`.
#[inline(always)]
fn out_line(reader: &mut Reader) -> Option<(u32, u32)> {
    reader.word(b"(out ")?;
    Some((reader.figure_then(b" ")?, reader.figure_then(b")\n")?))
}

/// The cell lines, written on the way as far as there is room: the line that
/// comes after them, or a refusal.
fn load_cells(reader: &mut Reader, sizes: &Sizes, cells: &mut [u8]) -> Result<usize, Refused> {
    let mut line = 2;
    let mut next = 0;
    loop {
        let before = *reader;
        let Some((row, column, code, switch)) = cell_line(reader) else {
            *reader = before;
            return Ok(line);
        };
        let (row, column, switch) = (row as usize, column as usize, switch as usize);
        let place = row * sizes.columns + column;
        let right = row < sizes.rows
            && column < sizes.columns
            && place >= next
            && (switch < sizes.switches || code == 1);
        if !right {
            return Err(refused(12, line));
        }
        next = place + 1;
        if let Some(cell) = cells.get_mut(place) {
            *cell = code as u8 + 2 * switch as u8;
        }
        line += 1;
    }
}

/// Listing text in; record and cells out. Value: R times C.
pub fn load(text: &[u8], record: &mut [u8], cells: &mut [u8]) -> u64 {
    settle(loaded(text, record, cells), record, cells)
}

fn loaded(text: &[u8], record: &mut [u8], cells: &mut [u8]) -> Result<u64, Refused> {
    let mut reader = Reader::new(text);
    let [rows, columns, switches, outputs] = size_line(&mut reader).ok_or(refused(1, 1))?;
    let right = (1..=MOST_WIRES).contains(&rows)
        && columns <= MOST_WIRES
        && switches <= MOST_SWITCHES
        && (1..=MOST_OUTPUTS).contains(&outputs);
    if !right {
        return Err(refused(2, 1));
    }
    let sizes = Sizes {
        rows: rows as usize,
        columns: columns as usize,
        switches: switches as usize,
        outputs: outputs as usize,
    };
    cells.fill(0);
    let first = load_cells(&mut reader, &sizes, cells)?;
    let mut outs = [0; 32];
    for (due, out) in outs.iter_mut().take(sizes.outputs).enumerate() {
        let line = first + due;
        let (number, row) = out_line(&mut reader).ok_or(refused(1, line))?;
        if number != due as u32 {
            return Err(refused(3, line));
        }
        if row >= rows {
            return Err(refused(12, line));
        }
        *out = row as u8;
    }
    let line = first + sizes.outputs;
    reader.word(b"(end)\n").ok_or(refused(1, line))?;
    if !reader.at_end() {
        return Err(refused(10, line + 1));
    }
    let size = sizes.rows * sizes.columns;
    if record.len() < record::BYTES || cells.len() < size {
        return Err(refused(14, 0));
    }
    sizes.write(&outs, record);
    Ok(size as u64)
}

/// A text that grows in a lent slice.
struct Writer<'a> {
    text: &'a mut [u8],
    at: usize,
    /// Holds a line for which the slice may have no room.
    spare: [u8; LINE],
}

/// No line is longer: `(crossbar 128 128 64 32)` and its line feed are 25.
const LINE: usize = 32;

impl Writer<'_> {
    /// Where the next line is written.
    #[inline(always)]
    fn line(&mut self) -> Line<'_> {
        let rest = &mut self.text[self.at..];
        Line {
            room: rest.first_chunk_mut().unwrap_or(&mut self.spare),
            length: 0,
        }
    }

    /// Takes the line that was written, or nothing where there is no room for
    /// it.
    #[inline(always)]
    fn take(&mut self, length: usize) -> Option<()> {
        let rest = &mut self.text[self.at..];
        if rest.len() < LINE {
            let room = rest.get_mut(..length)?;
            room.copy_from_slice(&self.spare[..length]);
        }
        self.at += length;
        Some(())
    }
}

/// One line as it is written.
struct Line<'a> {
    room: &'a mut [u8; LINE],
    length: usize,
}

impl Line<'_> {
    #[inline(always)]
    fn word<const M: usize>(mut self, word: &[u8; M]) -> Self {
        self.room[self.length..self.length + M].copy_from_slice(word);
        self.length += M;
        self
    }

    /// A figure of at most three digits.
    #[inline(always)]
    fn figure(mut self, value: usize) -> Self {
        let value = value as u32;
        let digit = |value: u32| [b'0' + (value % 10) as u8];
        if value >= 100 {
            self = self.word(&digit(value / 100));
        }
        if value >= 10 {
            self = self.word(&digit(value / 10));
        }
        self.word(&digit(value))
    }
}

/// Record and cells in; listing text out. Value: the text's length.
pub fn print(record: &[u8], cells: &[u8], text: &mut [u8]) -> u64 {
    let length = match check(record, cells) {
        Ok(crossbar) => printed(&crossbar, text).ok_or(refused(14, 0)),
        Err(refusal) => Err(refusal),
    };
    match length {
        Ok(length) => {
            text[length..].fill(0);
            length as u64
        }
        Err(refusal) => {
            text.fill(0);
            refusal
        }
    }
}

fn printed(crossbar: &Crossbar, text: &mut [u8]) -> Option<usize> {
    let Crossbar { sizes, cells, outs } = crossbar;
    let mut writer = Writer {
        text,
        at: 0,
        spare: [0; LINE],
    };
    let line = writer.line().word(b"(crossbar ");
    let line = line.figure(sizes.rows).word(b" ").figure(sizes.columns);
    let line = line.word(b" ").figure(sizes.switches);
    let line = line.word(b" ").figure(sizes.outputs).word(b")\n");
    let length = line.length;
    writer.take(length)?;
    for (row, codes) in cells.chunks_exact(sizes.columns.max(1)).enumerate() {
        print_row(&mut writer, row, codes)?;
    }
    for (number, &row) in outs[..sizes.outputs].iter().enumerate() {
        let line = writer.line().word(b"(out ").figure(number);
        let line = line.word(b" ").figure(usize::from(row)).word(b")\n");
        let length = line.length;
        writer.take(length)?;
    }
    let length = writer.line().word(b"(end)\n").length;
    writer.take(length)?;
    Some(writer.at)
}

/// The cells of a row. Eight off cells are left out at once.
fn print_row(writer: &mut Writer, row: usize, codes: &[u8]) -> Option<()> {
    let (blocks, rest) = codes.as_chunks::<8>();
    for (block, codes) in blocks.iter().enumerate() {
        if u64::from_ne_bytes(*codes) != 0 {
            print_cells(writer, row, 8 * block, codes)?;
        }
    }
    print_cells(writer, row, 8 * blocks.len(), rest)
}

/// The cells that are not off, from column `first` on.
#[inline(never)]
fn print_cells(writer: &mut Writer, row: usize, first: usize, codes: &[u8]) -> Option<()> {
    for (place, &code) in codes.iter().enumerate() {
        if code == 0 {
            continue;
        }
        let line = writer.line().word(b"(cell ").figure(row);
        let line = line.word(b" ").figure(first + place);
        let switch = usize::from(code / 2).wrapping_sub(1);
        let line = match (code, code % 2) {
            (1, _) => line.word(b" (on))\n"),
            (_, 0) => line.word(b" (yes ").figure(switch).word(b"))\n"),
            _ => line.word(b" (no ").figure(switch).word(b"))\n"),
        };
        let length = line.length;
        writer.take(length)?;
    }
    Some(())
}
