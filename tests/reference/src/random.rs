//! Seeded jobs, crossbars, settings and damaged copies of them. Where a
//! damage has a known answer by document 01, "Grounds for sending a job
//! back", the answer comes with it.

use crate::{map_job, print, Job, Label, Node, Record, Refusal};

// ---------------------------------------------------------------------------
// Numbers
// ---------------------------------------------------------------------------

/// Splitmix64: the same seed gives the same numbers everywhere.
#[derive(Clone, Debug)]
pub struct Rng {
    state: u64,
}

impl Rng {
    /// The numbers of one seed.
    pub fn new(seed: u64) -> Rng {
        Rng { state: seed }
    }

    /// The next 64 bits.
    pub fn draw(&mut self) -> u64 {
        self.state = self.state.wrapping_add(0x9e37_79b9_7f4a_7c15);
        let mut z = self.state;
        z = (z ^ (z >> 30)).wrapping_mul(0xbf58_476d_1ce4_e5b9);
        z = (z ^ (z >> 27)).wrapping_mul(0x94d0_49bb_1331_11eb);
        z ^ (z >> 31)
    }

    /// A number below the limit; 0 when the limit is 0.
    pub fn below(&mut self, limit: usize) -> usize {
        if limit == 0 {
            return 0;
        }
        (self.draw() % limit as u64) as usize
    }

    /// A number from the first to the last, both included.
    pub fn from_to(&mut self, first: usize, last: usize) -> usize {
        first + self.below((last + 1).saturating_sub(first))
    }

    /// True once in so many times.
    pub fn once_in(&mut self, times: usize) -> bool {
        self.below(times) == 0
    }

    /// One element, if there is any.
    pub fn pick<T: Copy>(&mut self, list: &[T]) -> Option<T> {
        let index = self.below(list.len());
        list.get(index).copied()
    }
}

// ---------------------------------------------------------------------------
// Jobs
// ---------------------------------------------------------------------------

/// How a random job gets its labels.
#[derive(Clone, Copy, Debug, PartialEq, Eq)]
pub enum Style {
    /// Every label `b`.
    AllB,
    /// No label `b`, terminal 1 included.
    NoB,
    /// All three, in even parts.
    Mixed,
    /// Mostly `h` with some others.
    MostlyH,
    /// Mostly `v` with some others.
    MostlyV,
    /// `h` and `v` with `b` here and there.
    FewB,
}

pub const STYLES: [Style; 6] = [
    Style::AllB,
    Style::NoB,
    Style::Mixed,
    Style::MostlyH,
    Style::MostlyV,
    Style::FewB,
];

impl Style {
    /// The label of the next node.
    fn label(self, rng: &mut Rng) -> Label {
        let throw = rng.below(12);
        match self {
            Style::AllB => Label::B,
            Style::NoB if throw < 6 => Label::H,
            Style::NoB => Label::V,
            Style::Mixed if throw < 4 => Label::H,
            Style::Mixed if throw < 8 => Label::V,
            Style::Mixed => Label::B,
            Style::MostlyH if throw < 10 => Label::H,
            Style::MostlyH if throw < 11 => Label::V,
            Style::MostlyH => Label::B,
            Style::MostlyV if throw < 10 => Label::V,
            Style::MostlyV if throw < 11 => Label::H,
            Style::MostlyV => Label::B,
            Style::FewB if throw == 0 => Label::B,
            Style::FewB if throw < 6 => Label::H,
            Style::FewB => Label::V,
        }
    }

    /// The label of terminal 1, never `v` by ground 9.
    fn one(self, rng: &mut Rng) -> Label {
        match self {
            Style::AllB => Label::B,
            Style::NoB => Label::H,
            _ if rng.once_in(2) => Label::H,
            _ => Label::B,
        }
    }
}

/// What a random job should come near to. The job may have fewer nodes when
/// no further node fits.
#[derive(Clone, Copy, Debug, PartialEq, Eq)]
pub struct Wish {
    pub switches: usize,
    pub nodes: usize,
    pub outputs: usize,
    pub style: Style,
    /// Rows and columns stay within this number.
    pub most_wires: usize,
}

/// A wish of any size.
pub fn wish(rng: &mut Rng) -> Wish {
    let switches = match rng.below(4) {
        0 => rng.from_to(0, 3),
        1 => rng.from_to(1, 8),
        2 => 64,
        _ => rng.from_to(0, 64),
    };
    let nodes = match rng.below(5) {
        0 => rng.from_to(0, 3),
        1 => rng.from_to(1, 12),
        2 => rng.from_to(4, 60),
        3 => 254,
        _ => rng.from_to(0, 254),
    };
    let outputs = match rng.below(3) {
        0 => 1,
        1 => rng.from_to(1, 5),
        _ => rng.from_to(1, 32),
    };
    let style = rng.pick(&STYLES).unwrap_or(Style::Mixed);
    Wish {
        switches,
        nodes,
        outputs,
        style,
        most_wires: 128,
    }
}

/// A valid job of any size and kind of labels.
pub fn job(rng: &mut Rng) -> Job {
    let wish = wish(rng);
    job_like(rng, wish)
}

/// A valid job with few switches, for trying all settings.
pub fn small_job(rng: &mut Rng, most_switches: usize) -> Job {
    let mut wish = wish(rng);
    wish.switches = rng.from_to(0, most_switches);
    wish.nodes = wish.nodes.min(rng.from_to(0, 40));
    job_like(rng, wish)
}

/// A job that breaks ground 11 and no other: R or C exceeds 128.
pub fn job_too_wide(rng: &mut Rng) -> Job {
    loop {
        let style = rng.pick(&STYLES).unwrap_or(Style::AllB);
        let wish = Wish {
            switches: rng.from_to(40, 64),
            nodes: rng.from_to(129, 254),
            outputs: rng.from_to(1, 32),
            style,
            most_wires: usize::MAX,
        };
        let job = job_like(rng, wish);
        if job.rows() > 128 || job.columns() > 128 {
            return job;
        }
    }
}

/// Document 01, "Job text" and grounds 3 to 9: a job near to the wish that
/// breaks none of them. Ground 11 is kept when `most_wires` is at most 128.
pub fn job_like(rng: &mut Rng, wish: Wish) -> Job {
    let mut job = Job {
        switches: wish.switches as u16,
        one: wish.style.one(rng),
        nodes: Vec::new(),
        outs: Vec::new(),
    };
    // One row is left free when an output may name 0.
    let may_name_zero = rng.once_in(2);
    let row_limit = wish.most_wires.saturating_sub(usize::from(may_name_zero));
    let column_limit = wish.most_wires;
    let (mut rows, mut columns) = (job.rows(), job.columns());
    // Switches fall as ids rise, or come as they come.
    let drifting = !rng.once_in(4);

    while job.nodes.len() < wish.nodes {
        let mut found = None;
        for attempt in 0..40 {
            let label = if attempt < 20 || wish.style == Style::AllB {
                wish.style.label(rng)
            } else if wish.style == Style::NoB || rng.once_in(2) {
                rng.pick(&[Label::H, Label::V]).unwrap_or(Label::H)
            } else {
                Label::B
            };
            if label.has_row() && rows >= row_limit {
                continue;
            }
            if label.has_column() && columns >= column_limit {
                continue;
            }
            let switch = random_switch(rng, &job, wish, drifting);
            if let Some(node) = random_node(rng, &job, switch, label) {
                found = Some(node);
                break;
            }
        }
        let Some(node) = found else { break };
        rows += usize::from(node.label.has_row());
        columns += usize::from(node.label.has_column());
        job.nodes.push(node);
    }

    // Outputs: any id with a row, or 0; the highest ids more often.
    let mut named: Vec<u16> = vec![1];
    for id in 2..job.nodes.len() as u16 + 2 {
        if job.label(id).is_some_and(Label::has_row) {
            named.push(id);
        }
    }
    for _ in 0..wish.outputs.clamp(1, 32) {
        let recent = named.get(named.len().saturating_sub(4)..).unwrap_or(&[]);
        let id = match rng.below(6) {
            0 if may_name_zero => Some(0),
            0..=2 => rng.pick(&named),
            _ => rng.pick(recent),
        };
        job.outs.push(id.unwrap_or(1));
    }
    job
}

/// A switch below V for the next node, when there is one.
fn random_switch(rng: &mut Rng, job: &Job, wish: Wish, drifting: bool) -> Option<u16> {
    if wish.switches == 0 {
        return None;
    }
    if !drifting || rng.once_in(5) {
        return Some(rng.below(wish.switches) as u16);
    }
    let place = wish.switches * job.nodes.len() / wish.nodes.max(1);
    let level = wish.switches.saturating_sub(1 + place);
    let shift = rng.below(3);
    Some(level.saturating_sub(shift) as u16)
}

/// A node with this switch and label that breaks none of grounds 4 to 9.
fn random_node(rng: &mut Rng, job: &Job, switch: Option<u16>, label: Label) -> Option<Node> {
    let switch = switch?;
    let mut children: Vec<u16> = vec![0];
    for id in 1..job.nodes.len() as u16 + 2 {
        let above = job.node(id).is_none_or(|node| node.switch > switch);
        let fits = job.label(id).is_some_and(|below| !below.clashes(label));
        if above && fits {
            children.push(id);
        }
    }
    for _ in 0..8 {
        let recent = children
            .get(children.len().saturating_sub(6)..)
            .unwrap_or(&[]);
        let for_low = if rng.once_in(2) { recent } else { &children };
        let for_high = if rng.once_in(2) { recent } else { &children };
        let low = rng.pick(for_low)?;
        let high = rng.pick(for_high)?;
        let known = job
            .nodes
            .iter()
            .any(|node| node.switch == switch && node.low == low && node.high == high);
        if low != high && !known {
            return Some(Node {
                switch,
                low,
                high,
                label,
            });
        }
    }
    None
}

/// A valid job of exactly so many rows and columns, as far as 254 nodes
/// allow; terminal 1 is `h`, no label is `b` and output 0 names 1. Nothing
/// when the numbers cannot be met.
pub fn job_of_size(rows: usize, columns: usize) -> Option<Job> {
    let rows_of_nodes = rows.checked_sub(1)?;
    let mut job = Job {
        switches: 64,
        one: Label::H,
        nodes: Vec::new(),
        outs: vec![1],
    };
    // Columns: `v` nodes over the terminals, two for each switch, from the
    // last switch on; more of them over an `h` node made later.
    let mut switch = 64;
    let mut turned = false;
    for _ in 0..columns.min(127) {
        if !turned {
            switch -= 1;
        }
        let (low, high) = if turned { (1, 0) } else { (0, 1) };
        job.nodes.push(Node {
            switch,
            low,
            high,
            label: Label::V,
        });
        turned = !turned;
    }
    // Rows: `h` nodes over a `v` node of a greater switch and over 0 or one
    // more such node.
    let mut left = rows_of_nodes;
    for upper in (0..63u16).rev() {
        let below: Vec<u16> = (2..job.nodes.len() as u16 + 2)
            .filter(|&id| {
                job.node(id)
                    .is_some_and(|node| node.label == Label::V && node.switch > upper)
            })
            .collect();
        for &first in &below {
            for second in std::iter::once(0).chain(below.iter().copied()) {
                if left > 0 && first != second {
                    job.nodes.push(Node {
                        switch: upper,
                        low: first,
                        high: second,
                        label: Label::H,
                    });
                    left -= 1;
                }
            }
        }
    }
    // The columns still due stand on switch 0 over an `h` node.
    let first_row = (2..job.nodes.len() as u16 + 2).find(|&id| {
        job.node(id)
            .is_some_and(|node| node.label == Label::H && node.switch > 0)
    });
    for turn in 0..columns.saturating_sub(127) {
        let top = first_row?;
        let (low, high) = match turn {
            0 => (0, top),
            1 => (top, 0),
            2 => (1, top),
            3 => (top, 1),
            _ => return None,
        };
        job.nodes.push(Node {
            switch: 0,
            low,
            high,
            label: Label::V,
        });
    }
    if left > 0 || job.nodes.len() > 254 {
        return None;
    }
    Some(job)
}

// ---------------------------------------------------------------------------
// Settings
// ---------------------------------------------------------------------------

/// V bytes of 0 or 1.
pub fn setting(rng: &mut Rng, switches: u16) -> Vec<u8> {
    (0..switches).map(|_| rng.below(2) as u8).collect()
}

/// The setting whose switch i is bit i of the number.
pub fn setting_of(number: u64, switches: u16) -> Vec<u8> {
    (0..switches)
        .map(|bit| (number.checked_shr(u32::from(bit)).unwrap_or(0) & 1) as u8)
        .collect()
}

/// Ground 13: a setting of another length or with a byte above 1.
pub fn damaged_setting(rng: &mut Rng, switches: u16) -> Vec<u8> {
    let mut bytes = setting(rng, switches);
    match rng.below(3) {
        0 if !bytes.is_empty() => {
            bytes.pop();
        }
        1 if !bytes.is_empty() => {
            let place = rng.below(bytes.len());
            if let Some(byte) = bytes.get_mut(place) {
                *byte = rng.from_to(2, 255) as u8;
            }
        }
        _ => {
            for _ in 0..rng.from_to(1, 4) {
                bytes.push(rng.below(2) as u8);
            }
        }
    }
    bytes
}

// ---------------------------------------------------------------------------
// Damage to any text
// ---------------------------------------------------------------------------

/// The first part of a text, shorter than the whole.
pub fn truncated(rng: &mut Rng, text: &[u8]) -> Vec<u8> {
    let length = rng.below(text.len());
    text.get(..length).unwrap_or(&[]).to_vec()
}

/// A text with one to three bytes replaced: by a byte that often stands in a
/// text, or by any byte.
pub fn replaced(rng: &mut Rng, text: &[u8]) -> Vec<u8> {
    let mut bytes = text.to_vec();
    for _ in 0..rng.from_to(1, 3) {
        let place = rng.below(bytes.len());
        let byte = random_byte(rng);
        if let Some(old) = bytes.get_mut(place) {
            *old = byte;
        }
    }
    bytes
}

/// A byte that often stands in a text, or any byte.
fn random_byte(rng: &mut Rng) -> u8 {
    if rng.once_in(4) {
        return rng.below(256) as u8;
    }
    rng.pick(b"0123456789012345678901() \n\nhvbonesutyr\t\r\0")
        .unwrap_or(b' ')
}

/// A text with bytes put in or taken out, or with lines doubled, dropped or
/// exchanged.
pub fn shuffled(rng: &mut Rng, text: &[u8]) -> Vec<u8> {
    let mut bytes = text.to_vec();
    let mut lines: Vec<Vec<u8>> = text
        .split_inclusive(|&byte| byte == b'\n')
        .map(<[u8]>::to_vec)
        .collect();
    let first = rng.below(lines.len());
    let second = rng.below(lines.len());
    match rng.below(5) {
        0 => {
            bytes.insert(rng.below(bytes.len() + 1), random_byte(rng));
            return bytes;
        }
        1 if !bytes.is_empty() => {
            bytes.remove(rng.below(bytes.len()));
            return bytes;
        }
        2 if !lines.is_empty() => {
            lines.remove(first);
        }
        3 if !lines.is_empty() => lines.swap(first, second),
        _ => {
            let line = lines.get(first).cloned().unwrap_or_default();
            lines.insert(second.min(lines.len()), line);
        }
    }
    lines.concat()
}

// ---------------------------------------------------------------------------
// Damage to a line
// ---------------------------------------------------------------------------

/// A damaged text and the refusal that document 01 gives for it.
#[derive(Clone, Debug, PartialEq, Eq)]
pub struct Damaged {
    pub text: Vec<u8>,
    pub expected: Refusal,
}

/// Ground 1: a line that is no form at all, made from a right one. It still
/// has no line feed in it.
fn spoiled_line(rng: &mut Rng, line: &str) -> Vec<u8> {
    let digit = line.find(|letter: char| letter.is_ascii_digit());
    let blank = line.find(' ');
    let mut spoiled = line.to_string();
    match rng.below(16) {
        0 => {
            spoiled.remove(0);
        }
        1 => {
            spoiled.pop();
        }
        2 if blank.is_some() => spoiled = line.replacen(' ', "  ", 1),
        3 if blank.is_some() => spoiled = line.replacen(' ', "\t", 1),
        4 if blank.is_some() => spoiled = line.replacen(' ', "", 1),
        5 => {
            spoiled.pop();
            spoiled += " )";
        }
        6 => spoiled = line.replacen('(', "( ", 1),
        7 => spoiled += " ",
        8 => spoiled += "\r",
        9 => spoiled += "\0",
        10 => spoiled.insert(0, ' '),
        11 => spoiled.clear(),
        12 => spoiled = line.to_uppercase(),
        13 => {
            if let Some(place) = digit {
                spoiled.insert(place, '0');
            } else {
                spoiled += "0";
            }
        }
        14 => {
            if let Some(place) = digit {
                spoiled.insert_str(
                    place,
                    rng.pick(&["-", "+", "10000", "99999", "a"]).unwrap_or("-"),
                );
                // Digits put before a figure of five digits or before any
                // other figure make six digits or more.
            } else {
                spoiled += ")";
            }
        }
        _ => {
            let mut bytes = line.as_bytes().to_vec();
            bytes.push(rng.from_to(128, 255) as u8);
            return bytes;
        }
    }
    spoiled.into_bytes()
}

/// A figure from the first to 99999, often near to the first.
fn figure_from(rng: &mut Rng, first: u32) -> u32 {
    let last = match rng.below(3) {
        0 => first,
        1 => first.saturating_add(10),
        _ => 99_999,
    };
    rng.from_to(first as usize, last.clamp(first, 99_999) as usize) as u32
}

/// A figure other than the one given.
fn other_figure(rng: &mut Rng, figure: u32) -> u32 {
    match rng.below(4) {
        0 if figure > 0 => figure - 1,
        1 if figure > 0 => rng.below(figure as usize) as u32,
        2 => figure + 1,
        _ => figure_from(rng, figure + 1),
    }
}

/// Lines joined to a text, then the bytes that follow the last line.
fn join(lines: &[Vec<u8>], tail: &[u8]) -> Vec<u8> {
    let mut text = Vec::new();
    for line in lines {
        text.extend_from_slice(line);
        text.push(b'\n');
    }
    text.extend_from_slice(tail);
    text
}

/// Ground 10: some bytes after `(end)`.
fn random_tail(rng: &mut Rng) -> Vec<u8> {
    let tails: [&[u8]; 7] = [b"\n", b" ", b"(end)\n", b"\0", b"(end)", b"\n\n\n", b"\r\n"];
    rng.pick(&tails).unwrap_or(b"\n").to_vec()
}

// ---------------------------------------------------------------------------
// Damage to a job
// ---------------------------------------------------------------------------

/// The figures of a job's lines, free to be wrong.
#[derive(Clone, Debug)]
struct JobDraft {
    head: [u32; 3],
    one: Label,
    nodes: Vec<[u32; 4]>,
    labels: Vec<Label>,
    outs: Vec<[u32; 2]>,
    /// Lines, counted from 0, that stand as these bytes.
    raw: Vec<(usize, Vec<u8>)>,
    tail: Vec<u8>,
}

impl JobDraft {
    /// The lines of a job, not yet damaged.
    fn new(job: &Job) -> JobDraft {
        let nodes = job.nodes.iter().enumerate().map(|(index, node)| {
            [
                index as u32 + 2,
                u32::from(node.switch),
                u32::from(node.low),
                u32::from(node.high),
            ]
        });
        let outs = job.outs.iter().enumerate();
        JobDraft {
            head: [
                u32::from(job.switches),
                job.nodes.len() as u32,
                job.outs.len() as u32,
            ],
            one: job.one,
            nodes: nodes.collect(),
            labels: job.nodes.iter().map(|node| node.label).collect(),
            outs: outs.map(|(j, &id)| [j as u32, u32::from(id)]).collect(),
            raw: Vec::new(),
            tail: Vec::new(),
        }
    }

    /// The number of lines, `(end)` included.
    fn count(&self) -> usize {
        2 + self.nodes.len() + self.outs.len() + 1
    }

    /// The line as its figures give it.
    fn plain_line(&self, place: usize) -> String {
        if place == 0 {
            let [v, n, k] = self.head;
            return format!("(job {v} {n} {k})");
        }
        if place == 1 {
            return format!("(one {})", self.one.letter());
        }
        let index = place - 2;
        if let (Some([i, x, l, h]), Some(label)) = (self.nodes.get(index), self.labels.get(index)) {
            return format!("(node {i} {x} ({l} {h}) {})", label.letter());
        }
        match self.outs.get(index.wrapping_sub(self.nodes.len())) {
            Some([j, i]) => format!("(out {j} {i})"),
            None => String::from("(end)"),
        }
    }

    /// The whole text, damage included.
    fn text(&self) -> Vec<u8> {
        let mut lines: Vec<Vec<u8>> = Vec::new();
        for place in 0..self.count() {
            let raw = self.raw.iter().find(|(at, _)| *at == place);
            lines.push(match raw {
                Some((_, bytes)) => bytes.clone(),
                None => self.plain_line(place).into_bytes(),
            });
        }
        join(&lines, &self.tail)
    }

    /// The label of terminal 1 or of a node line.
    fn label(&self, id: u32) -> Option<Label> {
        match id {
            0 => None,
            1 => Some(self.one),
            _ => self.labels.get(id as usize - 2).copied(),
        }
    }

    /// Makes the line, counted from 0, break this ground and none of a lower
    /// number, when it broke none of a lower number and this can be done.
    fn harm(&mut self, rng: &mut Rng, place: usize, ground: u32) -> bool {
        if ground == 1 {
            let line = spoiled_line(rng, &self.plain_line(place));
            self.raw.insert(0, (place, line));
            return true;
        }
        if place == 0 {
            return ground == 2 && self.harm_head(rng);
        }
        if place == 1 {
            self.one = Label::V;
            return ground == 9;
        }
        let index = place - 2;
        if index < self.nodes.len() {
            return self.harm_node(rng, index, ground).is_some();
        }
        let index = index - self.nodes.len();
        self.harm_out(rng, index, ground).is_some()
    }

    /// Ground 2 on the first line.
    fn harm_head(&mut self, rng: &mut Rng) -> bool {
        let [v, n, k] = &mut self.head;
        match rng.below(4) {
            0 => *v = figure_from(rng, 65),
            1 => *n = figure_from(rng, 255),
            2 => *k = figure_from(rng, 33),
            _ => *k = 0,
        }
        true
    }

    /// Grounds 3 to 9 on a node line.
    fn harm_node(&mut self, rng: &mut Rng, index: usize, ground: u32) -> Option<()> {
        let switches = self.head[0];
        let [i, x, l, h] = *self.nodes.get(index)?;
        let due = index as u32 + 2;
        let mut node = [i, x, l, h];
        match ground {
            3 => node[0] = other_figure(rng, due),
            4 => node[1] = figure_from(rng, switches),
            5 => node[rng.from_to(2, 3)] = figure_from(rng, due),
            6 => {
                let child = rng.pick(&[l, h])?.checked_sub(2)?;
                let below = self.nodes.get(child as usize)?[1];
                if below >= switches || child as usize >= index {
                    return None;
                }
                node[1] = rng.from_to(below as usize, switches as usize - 1) as u32;
            }
            7 if rng.once_in(2) => node[2] = h,
            7 => node[3] = l,
            8 => {
                let earlier = rng.below(index);
                if earlier >= index {
                    return None;
                }
                let [_, x, l, h] = *self.nodes.get(earlier)?;
                node = [i, x, l, h];
            }
            9 => {
                let below = self.label(rng.pick(&[l, h])?)?;
                if below == Label::B {
                    return None;
                }
                *self.labels.get_mut(index)? = below;
            }
            _ => return None,
        }
        *self.nodes.get_mut(index)? = node;
        Some(())
    }

    /// Grounds 3, 5 and 9 on an output line.
    fn harm_out(&mut self, rng: &mut Rng, index: usize, ground: u32) -> Option<()> {
        let highest = self.nodes.len() as u32 + 1;
        let columns: Vec<u32> = (2..=highest)
            .filter(|&id| self.label(id) == Some(Label::V))
            .collect();
        let out = self.outs.get_mut(index)?;
        match ground {
            3 => out[0] = other_figure(rng, index as u32),
            5 => out[1] = figure_from(rng, highest + 1),
            9 => out[1] = rng.pick(&columns)?,
            _ => return None,
        }
        Some(())
    }
}

/// A valid job's text with one ground broken, 1 to 10, and the answer due.
/// Nothing when the job has no place for this ground.
pub fn damaged_job(rng: &mut Rng, job: &Job, ground: u32) -> Option<Damaged> {
    for _ in 0..200 {
        let mut draft = JobDraft::new(job);
        if let Some(expected) = harm_job(rng, &mut draft, ground) {
            return Some(Damaged {
                text: draft.text(),
                expected,
            });
        }
    }
    None
}

/// One ground somewhere in the draft.
fn harm_job(rng: &mut Rng, draft: &mut JobDraft, ground: u32) -> Option<Refusal> {
    if ground == 10 {
        draft.tail = random_tail(rng);
        return Some(Refusal {
            number: 10,
            line: draft.count() as u32 + 1,
        });
    }
    let place = harm_place(rng, draft.count(), ground);
    if draft.harm(rng, place, ground) {
        return Some(Refusal {
            number: ground,
            line: place as u32 + 1,
        });
    }
    None
}

/// A line, counted from 0; ground 2 has the first line only.
fn harm_place(rng: &mut Rng, count: usize, ground: u32) -> usize {
    if ground == 2 {
        0
    } else {
        rng.below(count)
    }
}

/// A valid job's text with two grounds broken, each 1 to 10, on one line or
/// on two, and the answer due: the first faulty line decides, and in it the
/// lowest number.
pub fn twice_damaged_job(rng: &mut Rng, job: &Job, first: u32, second: u32) -> Option<Damaged> {
    // On one line the lower number is done last, as it then certainly stands.
    let (low, high) = (first.min(second), first.max(second));
    for _ in 0..200 {
        let mut draft = JobDraft::new(job);
        let Some(one) = harm_job(rng, &mut draft, high) else {
            continue;
        };
        let same_line = low != 2 && one.number != 10 && rng.once_in(2);
        let other = if same_line {
            if !draft.harm(rng, one.line as usize - 1, low) {
                continue;
            }
            Refusal {
                number: low,
                line: one.line,
            }
        } else {
            match harm_job(rng, &mut draft, low) {
                Some(other) => other,
                None => continue,
            }
        };
        let one_decides = (one.line, one.number) < (other.line, other.number);
        return Some(Damaged {
            text: draft.text(),
            expected: if one_decides { one } else { other },
        });
    }
    None
}

// ---------------------------------------------------------------------------
// Crossbars
// ---------------------------------------------------------------------------

/// A crossbar that need not come from a job: sizes, cells and output rows are
/// anything that ground 12 allows.
pub fn crossbar(rng: &mut Rng) -> (Record, Vec<u8>) {
    let (most_rows, most_columns) = match rng.below(4) {
        0 => (3, 3),
        1 => (10, 10),
        2 => (30, 30),
        _ => (128, 128),
    };
    let rows = rng.from_to(1, most_rows);
    let columns = rng.from_to(0, most_columns);
    let switches = match rng.below(3) {
        0 => rng.from_to(0, 3),
        1 => 64,
        _ => rng.from_to(0, 64),
    };
    let outputs = rng.from_to(1, 32);
    let mut outs = [0; 32];
    for out in outs.iter_mut().take(outputs) {
        *out = rng.below(rows) as u16;
    }
    // Sparse crossbars need many rounds, full ones few.
    let sparse = rng.pick(&[1, 2, 5, rows.max(columns), 2 * rows.max(columns)]);
    let mut cells = vec![0; rows * columns];
    for cell in &mut cells {
        if rng.once_in(sparse.unwrap_or(1).max(1)) {
            *cell = rng.from_to(0, 1 + 2 * switches) as u8;
        }
    }
    let record = Record {
        rows: rows as u16,
        columns: columns as u16,
        switches: switches as u16,
        outputs: outputs as u16,
        outs,
    };
    (record, cells)
}

/// A crossbar whose lit wires come one in a round, as many rounds as rows and
/// columns allow: on cells down a stair.
pub fn stair(rows: u16, columns: u16) -> (Record, Vec<u8>) {
    let record = Record {
        rows,
        columns,
        switches: 0,
        outputs: 1,
        outs: [0; 32],
    };
    let width = usize::from(columns);
    let mut cells = vec![0; usize::from(rows) * width];
    for row in 0..usize::from(rows) {
        for column in [Some(row), row.checked_sub(1)].into_iter().flatten() {
            if column < width {
                if let Some(cell) = cells.get_mut(row * width + column) {
                    *cell = 1;
                }
            }
        }
    }
    (record, cells)
}

/// Req 01 on a stair: row i is the wire 2i of the chain from row 0 and column
/// j the wire 2j + 1; the chain ends where there is no next row or column.
pub fn stair_first_rounds(rows: u16, columns: u16) -> Vec<u16> {
    let on_rows = (0..rows).map(|row| if row <= columns { 2 * row + 1 } else { 0 });
    let on_columns = (0..columns).map(|column| if column < rows { 2 * column + 2 } else { 0 });
    on_rows.chain(on_columns).collect()
}

/// How many kinds of damage `damaged_record` knows.
pub const RECORD_DAMAGES: usize = 12;

/// Ground 12 on a record: the clause of this number, 0 to 11, broken. Nothing
/// when this record has no place for it.
pub fn damaged_record(
    rng: &mut Rng,
    record: &Record,
    cells: &[u8],
    kind: usize,
) -> Option<(Record, Vec<u8>)> {
    let mut record = *record;
    let mut cells = cells.to_vec();
    let outputs = usize::from(record.outputs);
    let above = |rng: &mut Rng, most: usize| {
        let last = rng.pick(&[most + 1, most + 9, 65_535]).unwrap_or(65_535);
        rng.from_to(most + 1, last) as u16
    };
    match kind {
        0 => record.rows = 0,
        1 => record.rows = above(rng, 128),
        2 => record.columns = above(rng, 128),
        3 => record.switches = above(rng, 64),
        4 => record.outputs = 0,
        5 => record.outputs = above(rng, 32),
        6 => {
            cells.pop()?;
        }
        7 => {
            cells.resize(cells.len() + rng.below(5), 0);
            cells.push(rng.from_to(1, 255) as u8);
            cells.resize(cells.len() + rng.below(5), 0);
        }
        8 => {
            let place = rng.below(cells.len());
            let least = 2 + 2 * usize::from(record.switches);
            let last = rng.pick(&[least, 255]).unwrap_or(255);
            *cells.get_mut(place)? = rng.from_to(least, last) as u8;
        }
        9 => {
            let place = rng.below(outputs);
            *record.outs.get_mut(place)? = above(rng, usize::from(record.rows) - 1);
        }
        10 => {
            let place = rng.from_to(outputs, 31);
            if outputs > 31 {
                return None;
            }
            *record.outs.get_mut(place)? = rng.from_to(1, usize::from(record.rows)) as u16;
        }
        11 => {
            record.outs = [record.rows; 32];
        }
        _ => return None,
    }
    Some((record, cells))
}

/// The figures of a listing's lines, free to be wrong.
#[derive(Clone, Debug)]
struct ListingDraft {
    head: [u32; 4],
    /// Row, column and code; a code stands for on, yes and no as in a cell.
    cells: Vec<[u32; 3]>,
    outs: Vec<[u32; 2]>,
    raw: Vec<(usize, Vec<u8>)>,
    tail: Vec<u8>,
}

impl ListingDraft {
    /// The lines of a listing, not yet damaged.
    fn new(record: &Record, cells: &[u8]) -> ListingDraft {
        let columns = usize::from(record.columns).max(1);
        let mut list = Vec::new();
        for (place, &code) in cells.iter().enumerate() {
            if code != 0 {
                let row = (place / columns) as u32;
                let column = (place % columns) as u32;
                list.push([row, column, u32::from(code)]);
            }
        }
        let outs = record.outs.iter().take(usize::from(record.outputs));
        ListingDraft {
            head: [
                u32::from(record.rows),
                u32::from(record.columns),
                u32::from(record.switches),
                u32::from(record.outputs),
            ],
            cells: list,
            outs: outs
                .enumerate()
                .map(|(j, &row)| [j as u32, u32::from(row)])
                .collect(),
            raw: Vec::new(),
            tail: Vec::new(),
        }
    }

    /// The number of lines, `(end)` included.
    fn count(&self) -> usize {
        1 + self.cells.len() + self.outs.len() + 1
    }

    /// The line as its figures give it.
    fn plain_line(&self, place: usize) -> String {
        if place == 0 {
            let [r, c, v, k] = self.head;
            return format!("(crossbar {r} {c} {v} {k})");
        }
        let index = place - 1;
        if let Some([row, column, code]) = self.cells.get(index) {
            return match code {
                0 | 1 => format!("(cell {row} {column} (on))"),
                code if code % 2 == 0 => format!("(cell {row} {column} (yes {}))", code / 2 - 1),
                code => format!("(cell {row} {column} (no {}))", code / 2 - 1),
            };
        }
        match self.outs.get(index.wrapping_sub(self.cells.len())) {
            Some([j, row]) => format!("(out {j} {row})"),
            None => String::from("(end)"),
        }
    }

    /// The whole text, damage included.
    fn text(&self) -> Vec<u8> {
        let mut lines: Vec<Vec<u8>> = Vec::new();
        for place in 0..self.count() {
            let raw = self.raw.iter().find(|(at, _)| *at == place);
            lines.push(match raw {
                Some((_, bytes)) => bytes.clone(),
                None => self.plain_line(place).into_bytes(),
            });
        }
        join(&lines, &self.tail)
    }

    /// As for a job: the line, counted from 0, breaks this ground and none of
    /// a lower number.
    fn harm(&mut self, rng: &mut Rng, place: usize, ground: u32) -> bool {
        if ground == 1 {
            let line = spoiled_line(rng, &self.plain_line(place));
            self.raw.insert(0, (place, line));
            return true;
        }
        if place == 0 {
            return ground == 2 && self.harm_head(rng);
        }
        let index = place - 1;
        if index < self.cells.len() {
            return ground == 12 && self.harm_cell(rng, index).is_some();
        }
        let index = index - self.cells.len();
        self.harm_out(rng, index, ground).is_some()
    }

    /// Ground 2 on the first line.
    fn harm_head(&mut self, rng: &mut Rng) -> bool {
        let [r, c, v, k] = &mut self.head;
        match rng.below(6) {
            0 => *r = 0,
            1 => *r = figure_from(rng, 129),
            2 => *c = figure_from(rng, 129),
            3 => *v = figure_from(rng, 65),
            4 => *k = figure_from(rng, 33),
            _ => *k = 0,
        }
        true
    }

    /// Ground 12 on a cell line: outside R and C, not after the cell before
    /// it, or a switch not below V.
    fn harm_cell(&mut self, rng: &mut Rng, index: usize) -> Option<()> {
        let [r, c, v, _] = self.head;
        let before = index
            .checked_sub(1)
            .and_then(|earlier| self.cells.get(earlier).copied());
        let cell = self.cells.get_mut(index)?;
        match rng.below(4) {
            0 => cell[0] = figure_from(rng, r),
            1 => cell[1] = figure_from(rng, c),
            2 => {
                let switch = figure_from(rng, v);
                cell[2] = 2 + 2 * switch + rng.below(2) as u32;
            }
            _ => {
                let [row, column, _] = before?;
                cell[0] = rng.from_to(0, row as usize) as u32;
                if cell[0] == row {
                    cell[1] = rng.from_to(0, column as usize) as u32;
                }
            }
        }
        Some(())
    }

    /// Grounds 3 and 12 on an output line.
    fn harm_out(&mut self, rng: &mut Rng, index: usize, ground: u32) -> Option<()> {
        let rows = self.head[0];
        let out = self.outs.get_mut(index)?;
        match ground {
            3 => out[0] = other_figure(rng, index as u32),
            12 => out[1] = figure_from(rng, rows),
            _ => return None,
        }
        Some(())
    }
}

/// One ground somewhere in the draft.
fn harm_listing(rng: &mut Rng, draft: &mut ListingDraft, ground: u32) -> Option<Refusal> {
    if ground == 10 {
        draft.tail = random_tail(rng);
        return Some(Refusal {
            number: 10,
            line: draft.count() as u32 + 1,
        });
    }
    let place = harm_place(rng, draft.count(), ground);
    if draft.harm(rng, place, ground) {
        return Some(Refusal {
            number: ground,
            line: place as u32 + 1,
        });
    }
    None
}

/// A valid crossbar's listing with one ground broken, 1, 2, 3, 10 or 12, and
/// the answer due.
pub fn damaged_listing(
    rng: &mut Rng,
    record: &Record,
    cells: &[u8],
    ground: u32,
) -> Option<Damaged> {
    for _ in 0..200 {
        let mut draft = ListingDraft::new(record, cells);
        if let Some(expected) = harm_listing(rng, &mut draft, ground) {
            return Some(Damaged {
                text: draft.text(),
                expected,
            });
        }
    }
    None
}

/// A valid crossbar's listing with two grounds broken and the answer due.
/// Ground 10 is told only when no line is faulty, though 12 is the greater
/// number.
pub fn twice_damaged_listing(
    rng: &mut Rng,
    record: &Record,
    cells: &[u8],
    first: u32,
    second: u32,
) -> Option<Damaged> {
    let (low, high) = (first.min(second), first.max(second));
    for _ in 0..200 {
        let mut draft = ListingDraft::new(record, cells);
        let Some(one) = harm_listing(rng, &mut draft, high) else {
            continue;
        };
        let Some(other) = harm_listing(rng, &mut draft, low) else {
            continue;
        };
        let one_decides = (one.line, one.number) < (other.line, other.number);
        return Some(Damaged {
            text: draft.text(),
            expected: if one_decides { one } else { other },
        });
    }
    None
}

/// The listing of a crossbar, from `print`, or nothing when it is refused.
pub fn listing(record: &Record, cells: &[u8]) -> Vec<u8> {
    print(record, cells, usize::MAX).unwrap_or_default()
}

/// "Two programs": the set line and a listing, as the second program reads
/// them.
pub fn light_input(setting: &[u8], listing: &[u8]) -> Vec<u8> {
    let mut input = b"(set".to_vec();
    for byte in setting {
        input.extend_from_slice(format!(" {byte}").as_bytes());
    }
    input.extend_from_slice(b")\n");
    input.extend_from_slice(listing);
    input
}

// ---------------------------------------------------------------------------
// Anything
// ---------------------------------------------------------------------------

/// A job text of any kind, right or damaged, without the answer due.
pub fn any_job_text(rng: &mut Rng) -> Vec<u8> {
    if rng.once_in(20) {
        return job_too_wide(rng).text();
    }
    let job = job(rng);
    let text = job.text();
    let first = rng.from_to(1, 10) as u32;
    let second = rng.from_to(1, 10) as u32;
    match rng.below(10) {
        0..=3 => text,
        4 => truncated(rng, &text),
        5 => replaced(rng, &text),
        6 => shuffled(rng, &text),
        7 | 8 => damaged_job(rng, &job, first).map_or(text, |damaged| damaged.text),
        _ => twice_damaged_job(rng, &job, first, second).map_or(text, |damaged| damaged.text),
    }
}

/// A valid crossbar: of a job, or free.
pub fn any_crossbar(rng: &mut Rng) -> (Record, Vec<u8>) {
    if rng.once_in(2) {
        let job = job(rng);
        return map_job(&job);
    }
    crossbar(rng)
}

/// A listing of any kind, right or damaged, without the answer due.
pub fn any_listing_text(rng: &mut Rng) -> Vec<u8> {
    let (record, cells) = any_crossbar(rng);
    let text = listing(&record, &cells);
    let grounds = [1, 2, 3, 10, 12];
    let first = rng.pick(&grounds).unwrap_or(1);
    let second = rng.pick(&grounds).unwrap_or(1);
    match rng.below(10) {
        0..=3 => text,
        4 => truncated(rng, &text),
        5 => replaced(rng, &text),
        6 => shuffled(rng, &text),
        7 | 8 => damaged_listing(rng, &record, &cells, first).map_or(text, |damaged| damaged.text),
        _ => twice_damaged_listing(rng, &record, &cells, first, second)
            .map_or(text, |damaged| damaged.text),
    }
}

/// A record and cells of any kind, right or damaged.
pub fn any_record(rng: &mut Rng) -> (Record, Vec<u8>) {
    let (record, mut cells) = any_crossbar(rng);
    match rng.below(4) {
        0 => {
            let kind = rng.below(RECORD_DAMAGES);
            damaged_record(rng, &record, &cells, kind).unwrap_or((record, cells))
        }
        1 => {
            // Zeros past the cells are right.
            cells.resize(cells.len() + rng.below(40), 0);
            (record, cells)
        }
        _ => (record, cells),
    }
}

/// A setting for so many switches, sometimes a wrong one.
pub fn any_setting(rng: &mut Rng, switches: u16) -> Vec<u8> {
    if rng.once_in(6) {
        return damaged_setting(rng, switches.min(80));
    }
    setting(rng, switches.min(80))
}

/// Input of the second program of any kind, right or damaged.
pub fn any_light_input(rng: &mut Rng) -> Vec<u8> {
    if rng.once_in(4) {
        let switches = rng.from_to(0, 66) as u16;
        let bytes = any_setting(rng, switches);
        return light_input(&bytes, &any_listing_text(rng));
    }
    let (record, cells) = any_crossbar(rng);
    let bytes = any_setting(rng, record.switches);
    let input = light_input(&bytes, &listing(&record, &cells));
    match rng.below(6) {
        0 => truncated(rng, &input),
        1 => replaced(rng, &input),
        2 => shuffled(rng, &input),
        _ => input,
    }
}
