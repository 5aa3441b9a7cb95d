//! A second implementation of the crossbar mapper and its lamp test, written
//! from document 01, Req 01 of document 02 and a list of readings of both,
//! without the definitions of the first one. It is meant to be compared with
//! the first one, so it is literal and plain: every function follows one
//! paragraph of document 01 or the request, which its comment names, and
//! nothing is done for speed.
//!
//! A refusal is an `Err`. An output buffer is represented by its length, the
//! argument `room`; an answer holds exactly the bytes due, for light the
//! numbers due, and in a buffer that is longer those past the answer are 0
//! ("Listing", last sentence). No function here panics, whatever bytes and
//! numbers it is given.

#![forbid(unsafe_code)]

pub mod diagrams;
pub mod host;
pub mod random;

// ---------------------------------------------------------------------------
// Limits
// ---------------------------------------------------------------------------

/// "Job text", item 1: V is 0 to 64.
pub const MOST_SWITCHES: u32 = 64;
/// "Job text", item 1: N is 0 to 254.
pub const MOST_NODES: u32 = 254;
/// "Job text", item 1: K is 1 to 32.
pub const MOST_OUTPUTS: u32 = 32;
/// "Listing": R is 1 to 128, C is 0 to 128. Ground 11 has the same limit.
pub const MOST_WIRES: u32 = 128;
/// "Two programs": input above 65,535 bytes is refused.
pub const MOST_INPUT: usize = 65_535;

// ---------------------------------------------------------------------------
// Answers
// ---------------------------------------------------------------------------

/// "Grounds for sending a job back": a refusal is its number and a line.
#[derive(Clone, Copy, Debug, PartialEq, Eq)]
pub struct Refusal {
    pub number: u32,
    pub line: u32,
}

/// "Placement", last sentence: the crossbar record holds R, C, V, K and 32
/// output rows, the unused ones 0.
#[derive(Clone, Copy, Debug, PartialEq, Eq)]
pub struct Record {
    pub rows: u16,
    pub columns: u16,
    pub switches: u16,
    pub outputs: u16,
    pub outs: [u16; 32],
}

/// "Job text", the paragraph on ids and labels: `h` a row, `v` a column, `b`
/// both.
#[derive(Clone, Copy, Debug, PartialEq, Eq)]
pub enum Label {
    H,
    V,
    B,
}

impl Label {
    /// "Job text": T is 1 for `h`, 2 for `v`, 3 for `b`.
    pub fn code(self) -> u16 {
        match self {
            Label::H => 1,
            Label::V => 2,
            Label::B => 3,
        }
    }

    /// "Job text": the way back from the number to the label.
    pub fn from_code(code: u32) -> Option<Label> {
        match code {
            1 => Some(Label::H),
            2 => Some(Label::V),
            3 => Some(Label::B),
            _ => None,
        }
    }

    /// "Job text": the letter that stands in a line.
    pub fn letter(self) -> char {
        match self {
            Label::H => 'h',
            Label::V => 'v',
            Label::B => 'b',
        }
    }

    /// "Placement": nodes labelled `h` or `b` take rows.
    pub fn has_row(self) -> bool {
        self == Label::H || self == Label::B
    }

    /// "Placement": columns go to `v` and `b`.
    pub fn has_column(self) -> bool {
        self == Label::V || self == Label::B
    }

    /// Ground 9, its last clause: both `h` or both `v`.
    pub fn clashes(self, other: Label) -> bool {
        self == other && self != Label::B
    }
}

/// "Job text", item 3: one node line without its id.
#[derive(Clone, Copy, Debug, PartialEq, Eq)]
pub struct Node {
    pub switch: u16,
    pub low: u16,
    pub high: u16,
    pub label: Label,
}

/// "Job text": what the lines of a job say. Node line I is `nodes[I - 2]`.
#[derive(Clone, Debug, PartialEq, Eq)]
pub struct Job {
    pub switches: u16,
    pub one: Label,
    pub nodes: Vec<Node>,
    pub outs: Vec<u16>,
}

// ---------------------------------------------------------------------------
// Lines and forms
// ---------------------------------------------------------------------------

/// "Job text", first paragraph: lines, each ended by a line feed.
struct Lines<'a> {
    text: &'a [u8],
    /// Where the next line starts.
    at: usize,
    /// The number of the line taken last; 0 before the first.
    number: u32,
}

impl<'a> Lines<'a> {
    /// "Grounds", opening: the first line is line 1.
    fn new(text: &'a [u8]) -> Lines<'a> {
        Lines {
            text,
            at: 0,
            number: 0,
        }
    }

    /// "Job text", first sentence, and ground 1: the next line without its
    /// line feed. Bytes that no line feed ends are not a line, so the line is
    /// missing.
    fn next(&mut self) -> Result<&'a [u8], Refusal> {
        self.number += 1;
        let rest = self.text.get(self.at..).unwrap_or(&[]);
        match rest.iter().position(|&byte| byte == b'\n') {
            Some(length) => {
                self.at += length + 1;
                Ok(rest.get(..length).unwrap_or(&[]))
            }
            None => Err(self.refuse(1)),
        }
    }

    /// "Grounds", opening: a refusal at the line taken last.
    fn refuse(&self, number: u32) -> Refusal {
        Refusal {
            number,
            line: self.number,
        }
    }

    /// Ground 1: the figures and labels of the next line, which must be the
    /// form given.
    fn next_form<const M: usize>(&mut self, form: &str) -> Result<[u32; M], Refusal> {
        let line = self.next()?;
        match match_form(line, form) {
            Some(items) => Ok(items),
            None => Err(self.refuse(1)),
        }
    }

    /// Ground 10: bytes follow `(end)`; the line is the one after it.
    fn nothing_follows(&self) -> Result<(), Refusal> {
        if self.at < self.text.len() {
            Err(Refusal {
                number: 10,
                line: self.number + 1,
            })
        } else {
            Ok(())
        }
    }
}

/// "Job text", first paragraph: compares a line with a form. In the form `#`
/// stands for a figure and `@` for a label, every other byte for itself. The
/// answer lists the figures and the numbers of the labels from left to right,
/// or is nothing when the line is not the form.
fn match_form<const M: usize>(line: &[u8], form: &str) -> Option<[u32; M]> {
    let mut items: Vec<u32> = Vec::new();
    let mut rest = line;
    for due in form.bytes() {
        match due {
            b'#' => {
                let digits = rest.iter().take_while(|byte| byte.is_ascii_digit()).count();
                items.push(figure(rest.get(..digits)?)?);
                rest = rest.get(digits..)?;
            }
            b'@' => {
                let label = match *rest.first()? {
                    b'h' => Label::H,
                    b'v' => Label::V,
                    b'b' => Label::B,
                    _ => return None,
                };
                items.push(u32::from(label.code()));
                rest = rest.get(1..)?;
            }
            _ => {
                if *rest.first()? != due {
                    return None;
                }
                rest = rest.get(1..)?;
            }
        }
    }
    if !rest.is_empty() {
        return None;
    }
    items.try_into().ok()
}

/// "Job text", first paragraph: figures are decimal, no leading zero, at most
/// 5 digits.
fn figure(digits: &[u8]) -> Option<u32> {
    if digits.is_empty() || digits.len() > 5 {
        return None;
    }
    if digits.len() > 1 && digits.first() == Some(&b'0') {
        return None;
    }
    let mut value = 0;
    for &digit in digits {
        value = value * 10 + u32::from(digit.checked_sub(b'0')?);
    }
    Some(value)
}

// ---------------------------------------------------------------------------
// The job
// ---------------------------------------------------------------------------

/// "Job text", items 1 to 5, and "Grounds" 1 to 10 and then 11: the job, or
/// the first refusal. Within a line the checks stand in the order of their
/// numbers.
pub fn read_job(text: &[u8]) -> Result<Job, Refusal> {
    let mut lines = Lines::new(text);

    // Item 1, `(job V N K)`.
    let [v, n, k] = lines.next_form("(job # # #)")?;
    if v > MOST_SWITCHES || n > MOST_NODES || k == 0 || k > MOST_OUTPUTS {
        return Err(lines.refuse(2));
    }

    // Item 2, `(one T)`.
    let [t] = lines.next_form("(one @)")?;
    let one = Label::from_code(t).ok_or(lines.refuse(1))?;
    if one == Label::V {
        return Err(lines.refuse(9));
    }

    let mut job = Job {
        switches: v as u16,
        one,
        nodes: Vec::new(),
        outs: Vec::new(),
    };

    // Item 3, N lines `(node I X (L H) T)`.
    for due in 2..n + 2 {
        let [i, x, l, h, t] = lines.next_form("(node # # (# #) @)")?;
        let label = Label::from_code(t).ok_or(lines.refuse(1))?;
        if i != due {
            return Err(lines.refuse(3));
        }
        if x >= v {
            return Err(lines.refuse(4));
        }
        if l >= i || h >= i {
            return Err(lines.refuse(5));
        }
        let node = Node {
            switch: x as u16,
            low: l as u16,
            high: h as u16,
            label,
        };
        for child in [node.low, node.high] {
            if let Some(below) = job.node(child) {
                if below.switch <= node.switch {
                    return Err(lines.refuse(6));
                }
            }
        }
        if node.low == node.high {
            return Err(lines.refuse(7));
        }
        for earlier in &job.nodes {
            if earlier.switch == node.switch && earlier.low == node.low && earlier.high == node.high
            {
                return Err(lines.refuse(8));
            }
        }
        for child in [node.low, node.high] {
            if let Some(below) = job.label(child) {
                if below.clashes(node.label) {
                    return Err(lines.refuse(9));
                }
            }
        }
        job.nodes.push(node);
    }

    // Item 4, K lines `(out J I)`.
    for due in 0..k {
        let [j, i] = lines.next_form("(out # #)")?;
        if j != due {
            return Err(lines.refuse(3));
        }
        if i > n + 1 {
            return Err(lines.refuse(5));
        }
        if job.label(i as u16) == Some(Label::V) {
            return Err(lines.refuse(9));
        }
        job.outs.push(i as u16);
    }

    // Item 5, `(end)`.
    let [] = lines.next_form("(end)")?;

    lines.nothing_follows()?;
    if job.rows() > MOST_WIRES as usize || job.columns() > MOST_WIRES as usize {
        return Err(lines.refuse(11));
    }
    Ok(job)
}

impl Job {
    /// "Job text": ids 0 and 1 are the terminals, the others are nodes.
    pub fn node(&self, id: u16) -> Option<&Node> {
        if id < 2 {
            return None;
        }
        self.nodes.get(usize::from(id) - 2)
    }

    /// "Job text": the label of terminal 1 or of a node. Terminal 0 has none.
    pub fn label(&self, id: u16) -> Option<Label> {
        if id == 1 {
            return Some(self.one);
        }
        self.node(id).map(|node| node.label)
    }

    /// "Job text": the lines of this job, as they must stand.
    pub fn text(&self) -> Vec<u8> {
        let mut text = format!(
            "(job {} {} {})\n(one {})\n",
            self.switches,
            self.nodes.len(),
            self.outs.len(),
            self.one.letter()
        );
        for (index, node) in self.nodes.iter().enumerate() {
            text += &format!(
                "(node {} {} ({} {}) {})\n",
                index + 2,
                node.switch,
                node.low,
                node.high,
                node.label.letter()
            );
        }
        for (index, id) in self.outs.iter().enumerate() {
            text += &format!("(out {index} {id})\n");
        }
        text += "(end)\n";
        text.into_bytes()
    }

    /// "Placement", first paragraph: does any output name 0?
    pub fn names_zero(&self) -> bool {
        self.outs.contains(&0)
    }

    /// "Placement", first paragraph: R. Terminal 1's row, a row for each `h`
    /// or `b` node, and the last row without cells if an output names 0.
    pub fn rows(&self) -> usize {
        let mut rows = 1;
        for node in &self.nodes {
            if node.label.has_row() {
                rows += 1;
            }
        }
        if self.names_zero() {
            rows += 1;
        }
        rows
    }

    /// "Placement", first paragraph: C. A column for a `b` terminal 1 and one
    /// for each `v` or `b` node.
    pub fn columns(&self) -> usize {
        let mut columns = 0;
        if self.one == Label::B {
            columns += 1;
        }
        for node in &self.nodes {
            if node.label.has_column() {
                columns += 1;
            }
        }
        columns
    }

    /// "Placement", first paragraph: the row of terminal 1 or of a node, if
    /// it has one. Terminal 0 has no wire.
    pub fn row_of(&self, id: u16) -> Option<usize> {
        if id == 1 {
            return Some(0);
        }
        if !self.label(id)?.has_row() {
            return None;
        }
        let mut row = 1;
        for earlier in 2..id {
            if self.label(earlier)?.has_row() {
                row += 1;
            }
        }
        Some(row)
    }

    /// "Placement", first paragraph: the column of terminal 1 or of a node,
    /// if it has one.
    pub fn column_of(&self, id: u16) -> Option<usize> {
        if !self.label(id)?.has_column() {
            return None;
        }
        let mut column = 0;
        for earlier in 1..id {
            if self.label(earlier)?.has_column() {
                column += 1;
            }
        }
        Some(column)
    }

    /// "What an output reads": the row of the id that the output names, or
    /// for id 0 the last row without cells.
    pub fn output_row(&self, id: u16) -> Option<usize> {
        if id == 0 {
            return self.rows().checked_sub(1);
        }
        self.row_of(id)
    }
}

/// "Job text", the paragraph on the lent table: 254 entries of X, L, H and T;
/// entries without a line are zeros, and after a refusal all are zeros.
pub fn node_table(text: &[u8]) -> [[u16; 4]; 254] {
    let mut table = [[0; 4]; 254];
    if let Ok(job) = read_job(text) {
        for (entry, node) in table.iter_mut().zip(&job.nodes) {
            *entry = [node.switch, node.low, node.high, node.label.code()];
        }
    }
    table
}

// ---------------------------------------------------------------------------
// Walk
// ---------------------------------------------------------------------------

/// "The services", walk, and "Grounds", opening: grounds 1 to 10, then 11,
/// then 13.
pub fn walk(text: &[u8], setting: &[u8], output: usize) -> Result<u8, Refusal> {
    let job = read_job(text)?;
    walk_job(&job, setting, output)
}

/// "Job text", on the diagram walk, "What an output reads", and ground 13:
/// from the id that the output names to the child its switch selects, until a
/// terminal.
pub fn walk_job(job: &Job, setting: &[u8], output: usize) -> Result<u8, Refusal> {
    let refused = Refusal {
        number: 13,
        line: 0,
    };
    if !setting_is_right(setting, job.switches) {
        return Err(refused);
    }
    let mut id = *job.outs.get(output).ok_or(refused)?;
    while let Some(node) = job.node(id) {
        let child = match setting.get(usize::from(node.switch)) {
            Some(1) => node.high,
            _ => node.low,
        };
        // Children always have lower ids; a job that was read keeps to that.
        if child >= id {
            return Ok(0);
        }
        id = child;
    }
    Ok(u8::from(id == 1))
}

/// Ground 13, and "Job text", last sentence: V bytes, each 0 or 1.
pub fn setting_is_right(setting: &[u8], switches: u16) -> bool {
    setting.len() == usize::from(switches) && setting.iter().all(|&byte| byte <= 1)
}

// ---------------------------------------------------------------------------
// Map
// ---------------------------------------------------------------------------

/// "The services", map, and "Grounds", opening: grounds 1 to 10, then 11,
/// then 14. The cells are exactly R times C bytes.
pub fn map(text: &[u8], room: usize) -> Result<(Record, Vec<u8>), Refusal> {
    let job = read_job(text)?;
    if room < job.rows() * job.columns() {
        return Err(Refusal {
            number: 14,
            line: 0,
        });
    }
    Ok(map_job(&job))
}

/// "Placement": the record and the cells of a job.
pub fn map_job(job: &Job) -> (Record, Vec<u8>) {
    let columns = job.columns();
    let mut cells = vec![0; job.rows() * columns];
    let mut put = |row: usize, column: usize, code: u8| {
        if let Some(cell) = cells.get_mut(row * columns + column) {
            *cell = code;
        }
    };

    // A `b` label has an on cell where its own row and column meet.
    for id in 1..job.nodes.len() as u16 + 2 {
        if job.label(id) == Some(Label::B) {
            if let (Some(row), Some(column)) = (job.row_of(id), job.column_of(id)) {
                put(row, column, ON);
            }
        }
    }

    // The edge from parent to child is `no X` for L and `yes X` for H. It
    // stands at the parent's row and child's column if both exist, otherwise
    // at the child's row and parent's column. Edges to 0 have no cell.
    for (index, node) in job.nodes.iter().enumerate() {
        let parent = index as u16 + 2;
        let edges = [(node.low, no(node.switch)), (node.high, yes(node.switch))];
        for (child, code) in edges {
            if child == 0 {
                continue;
            }
            if let (Some(row), Some(column)) = (job.row_of(parent), job.column_of(child)) {
                put(row, column, code);
            } else if let (Some(row), Some(column)) = (job.row_of(child), job.column_of(parent)) {
                put(row, column, code);
            }
        }
    }

    let mut outs = [0; 32];
    for (entry, &id) in outs.iter_mut().zip(&job.outs) {
        *entry = job.output_row(id).unwrap_or(0) as u16;
    }
    let record = Record {
        rows: job.rows() as u16,
        columns: columns as u16,
        switches: job.switches,
        outputs: job.outs.len() as u16,
        outs,
    };
    (record, cells)
}

/// "Placement", second paragraph: cell code off 0.
pub const OFF: u8 = 0;
/// "Placement", second paragraph: cell code on 1.
pub const ON: u8 = 1;

/// "Placement", second paragraph: yes x is 2 + 2x.
pub fn yes(switch: u16) -> u8 {
    (2 + 2 * u32::from(switch)) as u8
}

/// "Placement", second paragraph: no x is 3 + 2x.
pub fn no(switch: u16) -> u8 {
    (3 + 2 * u32::from(switch)) as u8
}

// ---------------------------------------------------------------------------
// Light
// ---------------------------------------------------------------------------

/// Ground 12, for a record and its cells: the used part of the cells, or the
/// refusal at line 0.
fn check_record<'a>(record: &Record, cells: &'a [u8]) -> Result<&'a [u8], Refusal> {
    let refused = Refusal {
        number: 12,
        line: 0,
    };
    let most_wires = MOST_WIRES as u16;

    // A size out of range.
    if record.rows == 0 || record.rows > most_wires || record.columns > most_wires {
        return Err(refused);
    }
    if u32::from(record.switches) > MOST_SWITCHES {
        return Err(refused);
    }
    if record.outputs == 0 || u32::from(record.outputs) > MOST_OUTPUTS {
        return Err(refused);
    }

    // A cell slice shorter than R times C, or with a byte past it other than 0.
    let size = usize::from(record.rows) * usize::from(record.columns);
    let used = cells.get(..size).ok_or(refused)?;
    let past = cells.get(size..).ok_or(refused)?;
    if past.iter().any(|&byte| byte != 0) {
        return Err(refused);
    }

    // A code above 1 + 2V.
    if used
        .iter()
        .any(|&code| u16::from(code) > 1 + 2 * record.switches)
    {
        return Err(refused);
    }

    // An output row not below R, or an unused output row other than 0.
    for (index, &row) in record.outs.iter().enumerate() {
        if index < usize::from(record.outputs) {
            if row >= record.rows {
                return Err(refused);
            }
        } else if row != 0 {
            return Err(refused);
        }
    }
    Ok(used)
}

/// "What an output reads": on conducts always, off never, `yes x` when switch
/// x is 1, `no x` when it is 0.
pub fn conducts(code: u8, setting: &[u8]) -> bool {
    match code {
        0 => false,
        1 => true,
        _ => {
            let switch = usize::from((code - 2) / 2);
            // Even codes are `yes`, odd ones `no`.
            let wanted = 1 - code % 2;
            setting.get(switch) == Some(&wanted)
        }
    }
}

/// "Conduction": one round. It keeps every lit wire and adds each wire that a
/// conducting cell joins to a wire lit before the round.
fn one_round(lit: &[u8], rows: usize, columns: usize, cells: &[u8], setting: &[u8]) -> Vec<u8> {
    let mut after = lit.to_vec();
    for row in 0..rows {
        for column in 0..columns {
            let code = cells.get(row * columns + column).copied().unwrap_or(OFF);
            if !conducts(code, setting) {
                continue;
            }
            if lit.get(row) == Some(&1) {
                if let Some(wire) = after.get_mut(rows + column) {
                    *wire = 1;
                }
            }
            if lit.get(rows + column) == Some(&1) {
                if let Some(wire) = after.get_mut(row) {
                    *wire = 1;
                }
            }
        }
    }
    after
}

/// "Conduction": the sets of lit wires after 0, 1, .. and t rounds, where t is
/// the count of rounds; and ground 15.
fn lit_sets(
    rows: usize,
    columns: usize,
    cells: &[u8],
    setting: &[u8],
) -> Result<Vec<Vec<u8>>, Refusal> {
    // Before round 1 only row 0 is lit.
    let mut lit = vec![0; rows + columns];
    if let Some(first) = lit.first_mut() {
        *first = 1;
    }
    let mut sets = Vec::new();
    loop {
        let after = one_round(&lit, rows, columns, cells, setting);
        let at_rest = after == lit;
        sets.push(lit);
        // The least t with the sets after t and t + 1 rounds equal.
        if at_rest {
            return Ok(sets);
        }
        // Ground 15: a further round adds a wire after R + C - 1 rounds. The
        // sets after 0 to t rounds are t + 1.
        if sets.len() >= rows + columns {
            return Err(Refusal {
                number: 15,
                line: 0,
            });
        }
        lit = after;
    }
}

/// Req 01: 0 if the wire is dark, otherwise 1 plus the round in which it was
/// first lit, that is the least t with the wire in the set after t rounds.
fn first_round(sets: &[Vec<u8>], wire: usize) -> u16 {
    match sets.iter().position(|lit| lit.get(wire) == Some(&1)) {
        Some(round) => 1 + round as u16,
        None => 0,
    }
}

/// Req 01, last sentence: an output reads 1 exactly when the number of its row
/// is not 0.
pub fn reading(first_rounds: &[u16], row: u16) -> u8 {
    let number = first_rounds.get(usize::from(row)).copied().unwrap_or(0);
    u8::from(number != 0)
}

/// "The services", light, "Conduction", and Req 01; grounds 12, 13, 14 and 15
/// in that order. The answer is the count of rounds and one number a wire, rows
/// then columns, exactly R + C numbers; `room` counts numbers too.
pub fn light(
    record: &Record,
    cells: &[u8],
    setting: &[u8],
    room: usize,
) -> Result<(u32, Vec<u16>), Refusal> {
    let cells = check_record(record, cells)?;
    if !setting_is_right(setting, record.switches) {
        return Err(Refusal {
            number: 13,
            line: 0,
        });
    }
    let rows = usize::from(record.rows);
    let columns = usize::from(record.columns);
    if room < rows + columns {
        return Err(Refusal {
            number: 14,
            line: 0,
        });
    }
    let sets = lit_sets(rows, columns, cells, setting)?;
    let rounds = sets.len().saturating_sub(1) as u32;
    let first_rounds = (0..rows + columns)
        .map(|wire| first_round(&sets, wire))
        .collect();
    Ok((rounds, first_rounds))
}

// ---------------------------------------------------------------------------
// Print and load
// ---------------------------------------------------------------------------

/// "Listing", and grounds 12 and 14: the listing text of a crossbar.
pub fn print(record: &Record, cells: &[u8], room: usize) -> Result<Vec<u8>, Refusal> {
    let cells = check_record(record, cells)?;
    let mut text = format!(
        "(crossbar {} {} {} {})\n",
        record.rows, record.columns, record.switches, record.outputs
    );
    let columns = usize::from(record.columns);
    for row in 0..usize::from(record.rows) {
        for column in 0..columns {
            let code = cells.get(row * columns + column).copied().unwrap_or(OFF);
            if code == OFF {
                continue;
            }
            let what = if code == ON {
                String::from("on")
            } else if code % 2 == 0 {
                format!("yes {}", (code - 2) / 2)
            } else {
                format!("no {}", (code - 3) / 2)
            };
            text += &format!("(cell {row} {column} ({what}))\n");
        }
    }
    for (index, row) in record.outs.iter().enumerate() {
        if index < usize::from(record.outputs) {
            text += &format!("(out {index} {row})\n");
        }
    }
    text += "(end)\n";
    if room < text.len() {
        return Err(Refusal {
            number: 14,
            line: 0,
        });
    }
    Ok(text.into_bytes())
}

/// "Listing", the three forms of a cell line: row, column, code and whether
/// the switch it names is below V. Nothing when the line is not a cell form.
fn match_cell(line: &[u8], switches: u32) -> Option<(u32, u32, u8, bool)> {
    if let Some([row, column]) = match_form(line, "(cell # # (on))") {
        return Some((row, column, ON, true));
    }
    if let Some([row, column, switch]) = match_form(line, "(cell # # (yes #))") {
        return Some((row, column, yes(switch as u16), switch < switches));
    }
    if let Some([row, column, switch]) = match_form(line, "(cell # # (no #))") {
        return Some((row, column, no(switch as u16), switch < switches));
    }
    None
}

/// "Listing", and "Grounds" 1, 2, 3 and 12 by line, then 10: the crossbar of
/// a listing that starts at the next line.
fn read_listing(lines: &mut Lines) -> Result<(Record, Vec<u8>), Refusal> {
    let [r, c, v, k] = lines.next_form("(crossbar # # # #)")?;
    if r == 0 || r > MOST_WIRES || c > MOST_WIRES {
        return Err(lines.refuse(2));
    }
    if v > MOST_SWITCHES || k == 0 || k > MOST_OUTPUTS {
        return Err(lines.refuse(2));
    }

    let mut record = Record {
        rows: r as u16,
        columns: c as u16,
        switches: v as u16,
        outputs: k as u16,
        outs: [0; 32],
    };
    let mut cells = vec![OFF; r as usize * c as usize];

    // Each cell not off, in row order and then column order. The first line
    // that is no cell form must be the first output line.
    let mut before: Option<(u32, u32)> = None;
    let mut line = lines.next()?;
    while let Some((row, column, code, switch_fits)) = match_cell(line, v) {
        if row >= r || column >= c || !switch_fits {
            return Err(lines.refuse(12));
        }
        if let Some(place) = before {
            if (row, column) <= place {
                return Err(lines.refuse(12));
            }
        }
        before = Some((row, column));
        if let Some(cell) = cells.get_mut(row as usize * c as usize + column as usize) {
            *cell = code;
        }
        line = lines.next()?;
    }

    // `(out J r)` for each output.
    for due in 0..k {
        if due > 0 {
            line = lines.next()?;
        }
        let [j, row] = match_form(line, "(out # #)").ok_or(lines.refuse(1))?;
        if j != due {
            return Err(lines.refuse(3));
        }
        if row >= r {
            return Err(lines.refuse(12));
        }
        if let Some(entry) = record.outs.get_mut(due as usize) {
            *entry = row as u16;
        }
    }

    let [] = lines.next_form("(end)")?;
    lines.nothing_follows()?;
    Ok((record, cells))
}

/// "The services", load, and "Grounds": the listing's refusals by line, then
/// 10, then 14. The cells are exactly R times C bytes.
pub fn load(text: &[u8], room: usize) -> Result<(Record, Vec<u8>), Refusal> {
    let (record, cells) = read_listing(&mut Lines::new(text))?;
    if room < cells.len() {
        return Err(Refusal {
            number: 14,
            line: 0,
        });
    }
    Ok((record, cells))
}

// ---------------------------------------------------------------------------
// The two programs
// ---------------------------------------------------------------------------

/// "Two programs": the line `(refused n line)`.
fn refused_line(refusal: Refusal) -> Vec<u8> {
    format!("(refused {} {})\n", refusal.number, refusal.line).into_bytes()
}

/// "Two programs", last sentence: input above 65,535 bytes is 14 at line 0.
fn check_input(input: &[u8]) -> Result<(), Refusal> {
    if input.len() > MOST_INPUT {
        return Err(Refusal {
            number: 14,
            line: 0,
        });
    }
    Ok(())
}

/// "Two programs", the first: all bytes of standard input in, all bytes of
/// standard output out.
pub fn map_program(input: &[u8]) -> Vec<u8> {
    map_answer(input).unwrap_or_else(refused_line)
}

/// "Two programs", the first: the listing of the job.
fn map_answer(input: &[u8]) -> Result<Vec<u8>, Refusal> {
    check_input(input)?;
    let (record, cells) = map(input, usize::MAX)?;
    print(&record, &cells, usize::MAX)
}

/// "Two programs", the second: all bytes of standard input in, all bytes of
/// standard output out.
pub fn light_program(input: &[u8]) -> Vec<u8> {
    light_answer(input).unwrap_or_else(refused_line)
}

/// "Two programs", the second: a set line, then a listing, with lines counted
/// over the whole input. A set line with the wrong number of figures is 13
/// at line 0 after the listing has passed.
fn light_answer(input: &[u8]) -> Result<Vec<u8>, Refusal> {
    check_input(input)?;
    let mut lines = Lines::new(input);
    let line = lines.next()?;
    let setting = match_set(line).ok_or(lines.refuse(1))?;
    let (record, cells) = read_listing(&mut lines)?;
    let (rounds, first_rounds) = light(&record, &cells, &setting, usize::MAX)?;

    let mut answer = format!("(rounds {rounds})\n");
    for (index, &row) in record.outs.iter().enumerate() {
        if index < usize::from(record.outputs) {
            let value = reading(&first_rounds, row);
            answer += &format!("(reads {index} {value})\n");
        }
    }
    answer += "(end)\n";
    Ok(answer.into_bytes())
}

/// "Two programs", on the set line: `(set`, then up to 64 figures, each 0 or
/// 1 and each after one blank, then `)`.
fn match_set(line: &[u8]) -> Option<Vec<u8>> {
    let inside = line.strip_prefix(b"(set")?.strip_suffix(b")")?;
    let mut setting = Vec::new();
    for pair in inside.chunks(2) {
        match pair {
            b" 0" => setting.push(0),
            b" 1" => setting.push(1),
            _ => return None,
        }
    }
    if setting.len() > MOST_SWITCHES as usize {
        return None;
    }
    Some(setting)
}
