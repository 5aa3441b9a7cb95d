//! One stretch of cases: makes each call, compares the whole answer, counts.

use differential::{show, Lender};
use reference::host::{self, Answer, Call};
use reference::random::Rng;
use reference::Refusal;

/// The state of one thread.
pub struct Run {
    lender: Lender,
    pub rng: Rng,
    pub seed: u64,
    pub group: &'static str,
    pub chunk: u64,
    /// A small part of the cases only.
    pub sample: bool,
    /// Numbers the cases that a sample takes or leaves.
    met: u64,
    pub cases: u64,
    pub faults: Vec<String>,
}

impl Run {
    pub fn new(sample: bool) -> Run {
        Run {
            lender: Lender::new(),
            rng: Rng::new(0),
            seed: 0,
            group: "",
            chunk: 0,
            sample,
            met: 0,
            cases: 0,
            faults: Vec::new(),
        }
    }

    /// Starts a stretch. What it draws depends on the seed, the group and the
    /// chunk alone.
    pub fn start(&mut self, seed: u64, group: &'static str, chunk: u64) {
        let mut mixed = Rng::new(seed);
        let mut state = mixed.draw();
        for byte in group.bytes() {
            state = Rng::new(state ^ u64::from(byte)).draw();
        }
        self.rng = Rng::new(state.wrapping_add(chunk.wrapping_mul(0x1234_5678_9abc_def1)));
        self.seed = seed;
        self.group = group;
        self.chunk = chunk;
        self.met = 0;
        self.cases = 0;
        self.faults.clear();
    }

    /// How often a random part is to be done.
    pub fn times(&self, full: usize) -> usize {
        if self.sample {
            full.div_ceil(100)
        } else {
            full
        }
    }

    /// In a sample most cases of an enumeration are left out.
    pub fn leaves_out(&mut self) -> bool {
        self.met += 1;
        self.sample && self.met % 97 != 1
    }

    /// Notes a fault.
    pub fn fault(&mut self, what: String) {
        self.faults.push(format!(
            "{} (seed {}, chunk {}, case {}): {what}",
            self.group, self.seed, self.chunk, self.cases
        ));
    }

    /// Notes a fault unless this holds.
    pub fn demand(&mut self, holds: bool, what: impl FnOnce() -> String) {
        if !holds {
            let what = what();
            self.fault(what);
        }
    }

    /// Makes the call and compares the whole answer with this one.
    pub fn compare(&mut self, call: &Call, due: &Answer) {
        self.cases += 1;
        match self.lender.call(call) {
            Ok(had) if had == *due => {}
            Ok(had) => self.fault(show::call(call) + &show::difference(call, due, &had)),
            Err(touched) => self.fault(format!("{}  {touched}\n", show::call(call))),
        }
    }

    /// Makes the call and compares it with the second implementation, whose
    /// answer is given back.
    pub fn check(&mut self, call: &Call) -> Answer {
        let due = host::answer(call);
        self.compare(call, &due);
        due
    }

    pub fn map(&mut self, text: &[u8], record: usize, cells: usize) -> Answer {
        self.check(&Call::Map {
            text,
            record,
            cells,
        })
    }

    pub fn walk(&mut self, text: &[u8], setting: &[u8], output: u32) -> Answer {
        self.check(&Call::Walk {
            text,
            setting,
            output,
        })
    }

    pub fn light(
        &mut self,
        record: &[u8],
        cells: &[u8],
        setting: &[u8],
        first_rounds: usize,
    ) -> Answer {
        self.check(&Call::Light {
            record,
            cells,
            setting,
            first_rounds,
        })
    }

    pub fn print(&mut self, record: &[u8], cells: &[u8], text: usize) -> Answer {
        self.check(&Call::Print {
            record,
            cells,
            text,
        })
    }

    pub fn load(&mut self, text: &[u8], record: usize, cells: usize) -> Answer {
        self.check(&Call::Load {
            text,
            record,
            cells,
        })
    }

    /// An answer that is known apart from both implementations: the number,
    /// and what each output slice starts with before its zeros.
    pub fn known(&mut self, answer: &Answer, word: u64, outputs: &[&[u8]]) {
        self.demand(is(answer, word, outputs), || {
            format!("known answer {word}, had {answer:?}\n")
        });
    }

    /// The same for light: the count of rounds and the number of each wire.
    pub fn known_light(&mut self, answer: &Answer, rounds: u64, first_rounds: &[u16]) {
        let bytes = host::number_bytes(first_rounds);
        self.demand(is(answer, rounds, &[&bytes]), || {
            let had = show::light(answer);
            format!("known: value {rounds}, {first_rounds:?}; had: {had}\n")
        });
    }

    /// A refusal that is known apart from both implementations.
    pub fn known_refusal(&mut self, answer: &Answer, number: u32, line: u32) {
        let word = host::refusal_word(Refusal { number, line });
        let none: &[u8] = &[];
        self.known(answer, word, &vec![none; answer.outputs.len()]);
    }
}

/// Has the answer this number, and does each output slice hold these bytes and
/// then zeros?
fn is(answer: &Answer, word: u64, outputs: &[&[u8]]) -> bool {
    let mut pairs = answer.outputs.iter().zip(outputs);
    answer.word == word
        && answer.outputs.len() == outputs.len()
        && pairs.all(|(had, due)| {
            had.starts_with(due) && had[due.len()..].iter().all(|&byte| byte == 0)
        })
}
