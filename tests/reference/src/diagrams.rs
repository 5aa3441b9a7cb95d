//! Job texts of real functions. A small builder of reduced ordered decision
//! diagrams (document 003, section II, takes such diagrams as its input), the
//! choice of labels, and a list of functions with their truth from
//! arithmetic. Choosing labels is not a service of document 01; it is done
//! here only to have jobs.

use crate::{Job, Label, Node};
use std::collections::HashMap;

// ---------------------------------------------------------------------------
// The builder
// ---------------------------------------------------------------------------

/// A growing set of nodes. Ids 0 and 1 are the terminals, as in document 01,
/// "Job text"; a child is made before its parent, so it has the lower id.
pub struct Builder {
    /// Switch, low child and high child of the nodes from id 2 on.
    nodes: Vec<(u16, usize, usize)>,
    /// The unique table: ground 8 forbids two nodes with the same entries.
    unique: HashMap<(u16, usize, usize), usize>,
}

impl Default for Builder {
    fn default() -> Builder {
        Builder::new()
    }
}

impl Builder {
    /// Terminals only.
    pub fn new() -> Builder {
        Builder {
            nodes: Vec::new(),
            unique: HashMap::new(),
        }
    }

    /// Document 01, grounds 7 and 8: no node with equal children, and no two
    /// nodes with the same switch and children.
    pub fn make(&mut self, switch: u16, low: usize, high: usize) -> usize {
        if low == high {
            return low;
        }
        if let Some(&id) = self.unique.get(&(switch, low, high)) {
            return id;
        }
        self.nodes.push((switch, low, high));
        let id = self.nodes.len() + 1;
        self.unique.insert((switch, low, high), id);
        id
    }

    /// The function that is 1 when the switch is 1.
    pub fn switch(&mut self, switch: u16) -> usize {
        self.make(switch, 0, 1)
    }

    /// The top switch of an id; terminals stand below every switch.
    fn top(&self, id: usize) -> u32 {
        match id.checked_sub(2).and_then(|index| self.nodes.get(index)) {
            Some(node) => u32::from(node.0),
            None => u32::MAX,
        }
    }

    /// The two halves of a function when one switch is fixed to 0 and to 1.
    fn halves(&self, id: usize, switch: u32) -> (usize, usize) {
        if self.top(id) != switch {
            return (id, id);
        }
        match id.checked_sub(2).and_then(|index| self.nodes.get(index)) {
            Some(node) => (node.1, node.2),
            None => (id, id),
        }
    }

    /// The function that joins two others by an operation on their values.
    pub fn apply(&mut self, op: fn(bool, bool) -> bool, first: usize, second: usize) -> usize {
        let mut known = HashMap::new();
        self.apply_known(op, first, second, &mut known)
    }

    /// The same, with the pairs that were joined before.
    fn apply_known(
        &mut self,
        op: fn(bool, bool) -> bool,
        first: usize,
        second: usize,
        known: &mut HashMap<(usize, usize), usize>,
    ) -> usize {
        if first < 2 && second < 2 {
            return usize::from(op(first == 1, second == 1));
        }
        if let Some(&id) = known.get(&(first, second)) {
            return id;
        }
        let switch = self.top(first).min(self.top(second));
        let (first_low, first_high) = self.halves(first, switch);
        let (second_low, second_high) = self.halves(second, switch);
        let low = self.apply_known(op, first_low, second_low, known);
        let high = self.apply_known(op, first_high, second_high, known);
        let id = self.make(switch as u16, low, high);
        known.insert((first, second), id);
        id
    }

    /// Both.
    pub fn and(&mut self, first: usize, second: usize) -> usize {
        self.apply(|a, b| a && b, first, second)
    }

    /// Either or both.
    pub fn or(&mut self, first: usize, second: usize) -> usize {
        self.apply(|a, b| a || b, first, second)
    }

    /// One but not both.
    pub fn xor(&mut self, first: usize, second: usize) -> usize {
        self.apply(|a, b| a != b, first, second)
    }

    /// The other value.
    pub fn not(&mut self, function: usize) -> usize {
        self.apply(|a, b| a != b, function, 1)
    }

    /// The second function where the first is 1, the third elsewhere.
    pub fn choose(&mut self, which: usize, when_one: usize, when_zero: usize) -> usize {
        let not_which = self.not(which);
        let left = self.and(which, when_one);
        let right = self.and(not_which, when_zero);
        self.or(left, right)
    }

    /// Sum and carry of three functions.
    pub fn full_add(&mut self, a: usize, b: usize, c: usize) -> (usize, usize) {
        let a_xor_b = self.xor(a, b);
        let sum = self.xor(a_xor_b, c);
        let both = self.and(a, b);
        let passed = self.and(a_xor_b, c);
        let carry = self.or(both, passed);
        (sum, carry)
    }

    /// The nodes that the outputs need, renumbered in rising order from 2.
    pub fn diagram(&self, switches: u16, outs: &[usize]) -> Diagram {
        let mut needed = vec![false; self.nodes.len() + 2];
        for &out in outs {
            if let Some(mark) = needed.get_mut(out) {
                *mark = true;
            }
        }
        for (index, node) in self.nodes.iter().enumerate().rev() {
            if needed.get(index + 2) == Some(&true) {
                for child in [node.1, node.2] {
                    if let Some(mark) = needed.get_mut(child) {
                        *mark = true;
                    }
                }
            }
        }
        let mut number = HashMap::from([(0, 0), (1, 1)]);
        let mut nodes = Vec::new();
        for (index, node) in self.nodes.iter().enumerate() {
            if needed.get(index + 2) == Some(&true) {
                let low = number.get(&node.1).copied().unwrap_or(0);
                let high = number.get(&node.2).copied().unwrap_or(0);
                nodes.push((node.0, low, high));
                number.insert(index + 2, nodes.len() as u16 + 1);
            }
        }
        let outs = outs
            .iter()
            .map(|out| number.get(out).copied().unwrap_or(0))
            .collect();
        Diagram {
            switches,
            nodes,
            outs,
        }
    }
}

// ---------------------------------------------------------------------------
// Diagrams and labels
// ---------------------------------------------------------------------------

/// A job without labels: switch, L and H of the nodes from id 2 on, and the
/// ids that the outputs name.
#[derive(Clone, Debug, PartialEq, Eq)]
pub struct Diagram {
    pub switches: u16,
    pub nodes: Vec<(u16, u16, u16)>,
    pub outs: Vec<u16>,
}

/// The label of terminal 1 and those of the nodes from id 2 on.
#[derive(Clone, Debug, PartialEq, Eq)]
pub struct Labels {
    pub one: Label,
    pub nodes: Vec<Label>,
}

impl Diagram {
    /// Every label `b`: always allowed by ground 9.
    pub fn labels_all_b(&self) -> Labels {
        Labels {
            one: Label::B,
            nodes: vec![Label::B; self.nodes.len()],
        }
    }

    /// In rising id: the wished label if ground 9 allows it beside the
    /// children, else the other one, else `b`. Terminal 1 has the label given
    /// as `one`.
    pub fn labels_in_turn(&self, one: Label, wish: Label) -> Labels {
        let other = if wish == Label::H { Label::V } else { Label::H };
        let mut labels = Labels {
            one,
            nodes: Vec::new(),
        };
        for (index, node) in self.nodes.iter().enumerate() {
            let id = index as u16 + 2;
            let mut taken = Label::B;
            for label in [other, wish] {
                let output_fits = label != Label::V || !self.outs.contains(&id);
                let children_fit = [node.1, node.2].iter().all(|&child| {
                    label_of(&labels, child).is_none_or(|below| !below.clashes(label))
                });
                if output_fits && children_fit {
                    taken = label;
                }
            }
            labels.nodes.push(taken);
        }
        labels
    }

    /// Two colours, document 003's sections V and VI in a simple form: from
    /// terminal 1, labelled `h`, outwards, each next wire of the other kind,
    /// and `b` where two neighbours do not agree or an output would be `v`.
    pub fn labels_two_colours(&self) -> Labels {
        let count = self.nodes.len() + 2;
        let mut neighbours: Vec<Vec<usize>> = vec![Vec::new(); count];
        for (index, node) in self.nodes.iter().enumerate() {
            for child in [usize::from(node.1), usize::from(node.2)] {
                if child == 0 {
                    continue;
                }
                if let Some(list) = neighbours.get_mut(index + 2) {
                    list.push(child);
                }
                if let Some(list) = neighbours.get_mut(child) {
                    list.push(index + 2);
                }
            }
        }
        let mut chosen: Vec<Option<Label>> = vec![None; count];
        let mut queue: Vec<usize> = Vec::new();
        for start in 1..count {
            // Most ids are reached from terminal 1; the others start anew.
            queue.push(start);
            let mut next = 0;
            while let Some(&id) = queue.get(next) {
                next += 1;
                if chosen.get(id).copied().flatten().is_some() {
                    continue;
                }
                let near: Vec<Label> = neighbours
                    .get(id)
                    .map(|list| {
                        list.iter()
                            .filter_map(|&other| chosen.get(other).copied().flatten())
                            .collect()
                    })
                    .unwrap_or_default();
                let near_h = near.contains(&Label::H);
                let near_v = near.contains(&Label::V);
                let needs_row = id == 1 || self.outs.contains(&(id as u16));
                let label = if !near_h {
                    if near_v || needs_row || id % 2 == 0 {
                        Label::H
                    } else {
                        Label::V
                    }
                } else if !near_v && !needs_row {
                    Label::V
                } else {
                    Label::B
                };
                if let Some(place) = chosen.get_mut(id) {
                    *place = Some(label);
                }
                if let Some(list) = neighbours.get(id) {
                    queue.extend(list);
                }
            }
            queue.clear();
        }
        let mut labels = Labels {
            one: Label::B,
            nodes: Vec::new(),
        };
        for (id, label) in chosen.iter().enumerate() {
            let label = label.unwrap_or(Label::B);
            match id {
                0 => {}
                1 => labels.one = label,
                _ => labels.nodes.push(label),
            }
        }
        labels
    }

    /// The labellings that every function is tried with.
    pub fn labellings(&self) -> Vec<Labels> {
        vec![
            self.labels_all_b(),
            self.labels_two_colours(),
            self.labels_in_turn(Label::H, Label::H),
            self.labels_in_turn(Label::H, Label::V),
            self.labels_in_turn(Label::B, Label::H),
            self.labels_in_turn(Label::B, Label::V),
        ]
    }

    /// The job with the labels given; a missing label is `b`.
    pub fn job(&self, labels: &Labels) -> Job {
        let mut nodes = Vec::new();
        for (index, node) in self.nodes.iter().enumerate() {
            nodes.push(Node {
                switch: node.0,
                low: node.1,
                high: node.2,
                label: labels.nodes.get(index).copied().unwrap_or(Label::B),
            });
        }
        Job {
            switches: self.switches,
            one: labels.one,
            nodes,
            outs: self.outs.clone(),
        }
    }

    /// Document 01, "Job text": the lines of the job with the labels given.
    pub fn text(&self, labels: &Labels) -> Vec<u8> {
        self.job(labels).text()
    }
}

/// The label of an id among labels given so far; terminal 0 has none.
fn label_of(labels: &Labels, id: u16) -> Option<Label> {
    match id {
        0 => None,
        1 => Some(labels.one),
        _ => labels.nodes.get(usize::from(id) - 2).copied(),
    }
}

// ---------------------------------------------------------------------------
// Functions
// ---------------------------------------------------------------------------

/// A function with its diagram and, apart from that, its truth: from a
/// setting, switch 0 first, to one value for each output.
pub struct Function {
    pub name: String,
    pub diagram: Diagram,
    pub truth: Truth,
}

/// From a setting to one value for each output.
pub type Truth = Box<dyn Fn(&[u8]) -> Vec<u8>>;

/// The bits of a number, lowest first.
fn bits(number: u32, count: usize) -> Vec<u8> {
    (0..count).map(|bit| (number >> bit & 1) as u8).collect()
}

/// The number whose bit i is the switch `places[i]`.
fn number(setting: &[u8], places: &[u16]) -> u32 {
    let mut value = 0;
    for (bit, &place) in places.iter().enumerate() {
        let byte = setting.get(usize::from(place)).copied().unwrap_or(0);
        value |= u32::from(byte) << bit;
    }
    value
}

/// The switches of two numbers, lowest bit first, woven into one another with
/// the highest bits on top or the lowest.
fn woven(count: u16, high_on_top: bool) -> (Vec<u16>, Vec<u16>) {
    let level = |bit: u16| {
        if high_on_top {
            count - 1 - bit
        } else {
            bit
        }
    };
    let first = (0..count).map(|bit| 2 * level(bit)).collect();
    let second = (0..count).map(|bit| 2 * level(bit) + 1).collect();
    (first, second)
}

/// a + b, with a carry in on the last switch if wished: the sum bits from the
/// lowest on, then the carry.
pub fn adder(count: u16, high_on_top: bool, carry_in: bool) -> Function {
    let (first, second) = woven(count, high_on_top);
    let mut builder = Builder::new();
    let mut carry = if carry_in {
        builder.switch(2 * count)
    } else {
        0
    };
    let mut outs = Vec::new();
    for (&a, &b) in first.iter().zip(&second) {
        let a = builder.switch(a);
        let b = builder.switch(b);
        let (sum, next) = builder.full_add(a, b, carry);
        outs.push(sum);
        carry = next;
    }
    outs.push(carry);
    let switches = 2 * count + u16::from(carry_in);
    Function {
        name: format!("adder {count} {high_on_top} {carry_in}"),
        diagram: builder.diagram(switches, &outs),
        truth: Box::new(move |setting| {
            let mut total = number(setting, &first) + number(setting, &second);
            if carry_in {
                total += number(setting, &[2 * count]);
            }
            bits(total, usize::from(count) + 1)
        }),
    }
}

/// a < b, a = b, a > b.
pub fn comparator(count: u16, high_on_top: bool) -> Function {
    let (first, second) = woven(count, high_on_top);
    let mut builder = Builder::new();
    let (mut less, mut equal, mut greater) = (0, 1, 0);
    for (&a, &b) in first.iter().zip(&second) {
        let a = builder.switch(a);
        let b = builder.switch(b);
        let differ = builder.xor(a, b);
        less = builder.choose(differ, b, less);
        greater = builder.choose(differ, a, greater);
        let same = builder.not(differ);
        equal = builder.and(equal, same);
    }
    Function {
        name: format!("comparator {count} {high_on_top}"),
        diagram: builder.diagram(2 * count, &[less, equal, greater]),
        truth: Box::new(move |setting| {
            let a = number(setting, &first);
            let b = number(setting, &second);
            vec![u8::from(a < b), u8::from(a == b), u8::from(a > b)]
        }),
    }
}

/// Is the number of ones odd, and is it even?
pub fn parity(count: u16) -> Function {
    let mut builder = Builder::new();
    let mut odd = 0;
    for switch in (0..count).rev() {
        let value = builder.switch(switch);
        odd = builder.xor(odd, value);
    }
    let even = builder.not(odd);
    Function {
        name: format!("parity {count}"),
        diagram: builder.diagram(count, &[odd, even]),
        truth: Box::new(|setting| {
            let ones: u32 = setting.iter().map(|&byte| u32::from(byte)).sum();
            vec![(ones % 2) as u8, ((ones + 1) % 2) as u8]
        }),
    }
}

/// Are more than half of the switches 1?
pub fn majority(count: u16) -> Function {
    let mut builder = Builder::new();
    // at_least[k]: at least k of the switches taken so far are 1.
    let mut at_least = vec![0; usize::from(count) + 2];
    if let Some(first) = at_least.first_mut() {
        *first = 1;
    }
    for switch in (0..count).rev() {
        let value = builder.switch(switch);
        let before = at_least.clone();
        for k in 1..at_least.len() {
            let with = before.get(k - 1).copied().unwrap_or(0);
            let without = before.get(k).copied().unwrap_or(0);
            let joined = builder.choose(value, with, without);
            if let Some(place) = at_least.get_mut(k) {
                *place = joined;
            }
        }
    }
    let needed = usize::from(count) / 2 + 1;
    let out = at_least.get(needed).copied().unwrap_or(0);
    Function {
        name: format!("majority {count}"),
        diagram: builder.diagram(count, &[out]),
        truth: Box::new(move |setting| {
            let ones: usize = setting.iter().map(|&byte| usize::from(byte)).sum();
            vec![u8::from(2 * ones > usize::from(count))]
        }),
    }
}

/// Selecting switches first, then the data: the datum that is selected.
pub fn multiplexer(selects: u16) -> Function {
    let count = 1u16 << selects;
    let mut builder = Builder::new();
    let mut level: Vec<usize> = (0..count)
        .map(|place| builder.switch(selects + place))
        .collect();
    // Switch 0 is the lowest bit of the number that selects.
    for select in 0..selects {
        let which = builder.switch(select);
        let mut joined = Vec::new();
        for pair in level.chunks(2) {
            if let [when_zero, when_one] = *pair {
                joined.push(builder.choose(which, when_one, when_zero));
            }
        }
        level = joined;
    }
    let out = level.first().copied().unwrap_or(0);
    let places: Vec<u16> = (0..selects).collect();
    Function {
        name: format!("multiplexer {selects}"),
        diagram: builder.diagram(selects + count, &[out]),
        truth: Box::new(move |setting| {
            let selected = number(setting, &places) as u16 + selects;
            vec![number(setting, &[selected]) as u8]
        }),
    }
}

/// One output for each number; the output of the number set is 1.
pub fn decoder(count: u16) -> Function {
    let mut builder = Builder::new();
    let mut outs = Vec::new();
    for value in 0..1u32 << count {
        outs.push(minterm(&mut builder, value, count));
    }
    let places: Vec<u16> = (0..count).collect();
    Function {
        name: format!("decoder {count}"),
        diagram: builder.diagram(count, &outs),
        truth: Box::new(move |setting| {
            let set = number(setting, &places);
            (0..1u32 << count)
                .map(|value| u8::from(value == set))
                .collect()
        }),
    }
}

/// The function that is 1 for one number only, switch 0 the lowest bit.
fn minterm(builder: &mut Builder, value: u32, count: u16) -> usize {
    let mut term = 1;
    for switch in (0..count).rev() {
        let mut literal = builder.switch(switch);
        if value >> switch & 1 == 0 {
            literal = builder.not(literal);
        }
        term = builder.and(literal, term);
    }
    term
}

/// a times b: the product's bits from the lowest on.
pub fn multiplier(first_count: u16, second_count: u16) -> Function {
    let first: Vec<u16> = (0..first_count).collect();
    let second: Vec<u16> = (first_count..first_count + second_count).collect();
    let length = usize::from(first_count + second_count);
    let mut builder = Builder::new();
    let mut total = vec![0; length];
    for (shift, &b) in second.iter().enumerate() {
        let b = builder.switch(b);
        let mut carry = 0;
        for (place, sum) in total.iter_mut().enumerate().skip(shift) {
            let part = match first.get(place - shift) {
                Some(&a) => {
                    let a = builder.switch(a);
                    builder.and(a, b)
                }
                None => 0,
            };
            let (next_sum, next_carry) = builder.full_add(*sum, part, carry);
            *sum = next_sum;
            carry = next_carry;
        }
    }
    Function {
        name: format!("multiplier {first_count} {second_count}"),
        diagram: builder.diagram(first_count + second_count, &total),
        truth: Box::new(move |setting| {
            bits(number(setting, &first) * number(setting, &second), length)
        }),
    }
}

/// The digits, 0 to F, that light each of the seven segments a to g.
const SEGMENTS: [&str; 7] = [
    "02356789ACEF",
    "01234789AD",
    "013456789ABD",
    "0235689BCDE",
    "0268ABCDEF",
    "045689ABCEF",
    "2345689ABDEF",
];

/// The segments of each digit as a byte, segment a the lowest bit.
const DIGITS: [u8; 16] = [
    0x3f, 0x06, 0x5b, 0x4f, 0x66, 0x6d, 0x7d, 0x07, 0x7f, 0x6f, 0x77, 0x7c, 0x39, 0x5e, 0x79, 0x71,
];

/// Four switches, lowest bit first, to the segments a to g. Without the
/// letters the display is dark above 9.
pub fn seven_segments(with_letters: bool) -> Function {
    let mut builder = Builder::new();
    let mut outs = Vec::new();
    for digits in SEGMENTS {
        let mut out = 0;
        for digit in digits.chars() {
            let value = digit.to_digit(16).unwrap_or(0);
            if value < 10 || with_letters {
                let term = minterm(&mut builder, value, 4);
                out = builder.or(out, term);
            }
        }
        outs.push(out);
    }
    Function {
        name: format!("seven segments {with_letters}"),
        diagram: builder.diagram(4, &outs),
        truth: Box::new(move |setting| {
            let digit = number(setting, &[0, 1, 2, 3]) as usize;
            let mut lit = DIGITS.get(digit).copied().unwrap_or(0);
            if digit > 9 && !with_letters {
                lit = 0;
            }
            bits(u32::from(lit), 7)
        }),
    }
}

/// Document 003, figure 2: f = (a and b) or c, with a, b, c the switches 0,
/// 1, 2.
pub fn and_or() -> Function {
    let mut builder = Builder::new();
    let a = builder.switch(0);
    let b = builder.switch(1);
    let c = builder.switch(2);
    let both = builder.and(a, b);
    let out = builder.or(both, c);
    Function {
        name: String::from("(a and b) or c"),
        diagram: builder.diagram(3, &[out]),
        truth: Box::new(|setting| match *setting {
            [a, b, c] => vec![a & b | c],
            _ => Vec::new(),
        }),
    }
}

/// Terminals alone and beside a switch: outputs 0, 1, x, not x, 0, 1, x.
pub fn constants(switches: u16) -> Function {
    let mut builder = Builder::new();
    let last = switches.checked_sub(1);
    let mut outs = vec![0, 1];
    if let Some(switch) = last {
        let value = builder.switch(switch);
        let other = builder.not(value);
        outs.extend([value, other, 0, 1, value]);
    }
    Function {
        name: format!("constants {switches}"),
        diagram: builder.diagram(switches, &outs),
        truth: Box::new(move |setting| match last {
            Some(switch) => {
                let value = number(setting, &[switch]) as u8;
                vec![0, 1, value, 1 - value, 0, 1, value]
            }
            None => vec![0, 1],
        }),
    }
}

/// The bit whose place is the number of ones, a function without a good order
/// of switches: place 0 reads 0, place i reads switch i - 1.
pub fn weighted_bit(count: u16) -> Function {
    let mut builder = Builder::new();
    let mut out = 0;
    for value in 0..1u32 << count {
        let ones = value.count_ones();
        if ones > 0 && value >> (ones - 1) & 1 == 1 {
            let term = minterm(&mut builder, value, count);
            out = builder.or(out, term);
        }
    }
    Function {
        name: format!("weighted bit {count}"),
        diagram: builder.diagram(count, &[out]),
        truth: Box::new(|setting| {
            let ones: usize = setting.iter().map(|&byte| usize::from(byte)).sum();
            let place = ones.checked_sub(1);
            vec![place.and_then(|i| setting.get(i).copied()).unwrap_or(0)]
        }),
    }
}

/// Every function, up to 12 switches each.
pub fn functions() -> Vec<Function> {
    let mut list = vec![and_or(), seven_segments(true), seven_segments(false)];
    for count in 0..4 {
        list.push(constants(count));
    }
    for count in 1..=6 {
        list.push(adder(count, true, false));
        list.push(comparator(count, true));
    }
    for count in 1..=4 {
        list.push(adder(count, false, false));
        list.push(comparator(count, false));
    }
    for count in 1..=5 {
        list.push(adder(count, true, true));
    }
    for count in 1..=12 {
        list.push(parity(count));
    }
    for count in 1..=11 {
        list.push(majority(count));
    }
    for selects in 1..=3 {
        list.push(multiplexer(selects));
    }
    for count in 1..=5 {
        list.push(decoder(count));
    }
    for (first, second) in [
        (1, 1),
        (1, 2),
        (2, 1),
        (2, 2),
        (2, 3),
        (3, 2),
        (3, 3),
        (4, 4),
    ] {
        list.push(multiplier(first, second));
    }
    for count in 1..=7 {
        list.push(weighted_bit(count));
    }
    list
}

/// Functions near to the limits of document 01, too many switches for trying
/// every setting.
pub fn large_functions() -> Vec<Function> {
    vec![
        parity(63),
        parity(64),
        comparator(21, true),
        adder(20, true, false),
        adder(16, true, true),
        majority(21),
        multiplexer(4),
        multiplexer(5),
    ]
}

// ---------------------------------------------------------------------------
// Listings
// ---------------------------------------------------------------------------

/// Document 004, example 1.2.2, job sheet I: A is switch 0 and B switch 1;
/// output 0 is the sum on row 2, output 1 the carry on row 1.
pub const HALF_ADDER: &str = "\
(crossbar 3 2 2 2)
(cell 0 0 (yes 1))
(cell 0 1 (no 1))
(cell 1 0 (yes 0))
(cell 2 0 (no 0))
(cell 2 1 (yes 0))
(out 0 2)
(out 1 1)
(end)
";

/// Document 004, example 1.2.1, job sheet H: on at rows 0 and 2 of column 0;
/// an output on each row.
pub const STATIC_CROSSBAR: &str = "\
(crossbar 3 2 0 3)
(cell 0 0 (on))
(cell 2 0 (on))
(out 0 0)
(out 1 1)
(out 2 2)
(end)
";

/// Document 004, example 1.3.2: the parity of three switches A, B, C, which
/// are 0, 1, 2, on the top row.
pub const PARITY_OF_THREE: &str = "\
(crossbar 3 3 3 1)
(cell 0 0 (no 1))
(cell 0 1 (no 0))
(cell 0 2 (yes 1))
(cell 1 0 (no 2))
(cell 1 1 (on))
(cell 1 2 (yes 2))
(cell 2 0 (yes 1))
(cell 2 1 (yes 0))
(cell 2 2 (no 1))
(out 0 2)
(end)
";
