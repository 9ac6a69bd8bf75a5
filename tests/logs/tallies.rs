//! How often what occurs in logs and their judgements, and how often it must.
use crate::model::log::{Fault, Judgement};
use crate::occurred::Tally;
use crate::SEAM;

/// How often what must occur at least, for the comparison to mean something. The replies and refusals are those of recorded logs.
const FLOORS: [(&str, usize); 54] = [
    ("logs", 2_000),
    ("accepted", 100),
    ("0", 100),
    ("differs", 100),
    ("cut", 100),
    ("opened otherwise", 100),
    ("other signatures", 100),
    ("beyond the window", 20),
    ("beyond the window, accepted", 5),
    ("beyond the window, wrong there", 5),
    ("beyond the window, wrong near", 5),
    ("entry above 65535", 1),
    ("f = 1", 20),
    ("f = 2", 20),
    ("f = 3", 20),
    ("f = 4", 20),
    ("f = 5", 20),
    ("STAMP", 300),
    ("CARD", 300),
    ("PREPARED, stored in 1", 100),
    ("PREPARED, stored in 2", 100),
    ("PREPARED, stored in 16", 30),
    ("PREPARED, stored in another", 30),
    ("PREPARED, not stored", 100),
    ("WRITTEN, stored in 1", 100),
    ("WRITTEN, stored in 2", 100),
    ("WRITTEN, stored in 16", 20),
    ("WRITTEN, stored in another", 20),
    ("WRITTEN, not stored", 200),
    ("refused 2", 20),
    ("refused 3", 20),
    ("refused 4", 20),
    ("refused 5", 20),
    ("refused 6", 20),
    ("refused 7", 20),
    ("refused 8", 20),
    ("refused 9", 20),
    ("refused 10", 20),
    ("refused 11", 10),
    ("refused 13", 10),
    ("refused 14", 10),
    ("refused 15", 200),
    ("refused 19", 10),
    ("refused 20", 20),
    ("refused 23", 200),
    ("taken", 30),
    ("refused 21", 20),
    ("refused 22", 10),
    ("longest message", 1),
    ("longest verdicts", 1),
    ("longest order", 1),
    ("unlogged message", 1),
    ("unlogged verdicts", 1),
    ("unlogged order", 1),
];

/// What must be said so often on standard error, with an N for each number.
const SAID: usize = 10;
const SAYINGS: [&str; 14] = [
    "the head has N bytes, and not N",
    "the head is refused with N",
    "entry N: it is cut short",
    "entry N: it opens with N, and not with N or N",
    "entry N: a correct replica refuses this message with N; the log has a reply of N bytes",
    "entry N: a correct replica refuses this message with N; the log has refusal N",
    "entry N: a correct replica answers this message with N bytes; the log has refusal N",
    "entry N: a correct replica answers this message with N bytes; the log has a reply of N bytes",
    "entry N: a correct replica answers this message with N bytes; the log has a reply of N bytes, and byte N is the first that differs",
    "entry N: a correct replica takes this order; the log has refusal N",
    "entry N: a correct replica takes this order; the log has a reply of N bytes",
    "entry N: a correct replica refuses this order with N; the log has refusal N",
    "entry N: a correct replica refuses this order with N; the log has a reply of N bytes",
    "entry N: a correct replica refuses this order with N; the log has it taken",
];

/// Such a place is near the seam.
const NEAR: usize = 4_000;

/// With an N for each number.
fn without_numbers(line: &str) -> String {
    let mut text = String::new();
    for letter in line.trim_end().chars() {
        match letter {
            '0'..='9' if text.ends_with('N') => (),
            '0'..='9' => text.push('N'),
            _ => text.push(letter),
        }
    }
    text
}

#[derive(Default)]
pub struct Tallies {
    pub occurred: Tally,
    said: Tally,
}

impl Tallies {
    /// A judgement of a log of so many bytes.
    pub fn count(&mut self, judgement: &Judgement, length: usize) {
        self.occurred.count("logs");
        let row = match judgement {
            Judgement::Accepted => "accepted",
            Judgement::ShortHead(_) | Judgement::RefusedHead(_) => "0",
            Judgement::WrongEntry { fault, .. } => match fault {
                Fault::OpensWith(_) => "opened otherwise",
                Fault::Cut => "cut",
                Fault::Differs(_) => "differs",
            },
        };
        self.occurred.count(row);
        self.said.count(without_numbers(&judgement.said()));
        if length > SEAM {
            self.count_long(judgement);
        }
    }

    fn count_long(&mut self, judgement: &Judgement) {
        self.occurred.count("beyond the window");
        match judgement {
            Judgement::Accepted => self.occurred.count("beyond the window, accepted"),
            Judgement::WrongEntry { number, start, .. } => {
                if *start >= SEAM {
                    self.occurred.count("beyond the window, wrong there");
                }
                if start.abs_diff(SEAM) < NEAR {
                    self.occurred.count("beyond the window, wrong near");
                }
                if *number > 65_535 {
                    self.occurred.count("entry above 65535");
                }
            }
            _ => (),
        }
    }

    /// What occurred too seldom.
    pub fn shortfalls(&self) -> Vec<String> {
        let sayings = SAYINGS.map(|saying| (saying, SAID));
        [
            self.occurred.shortfalls(&FLOORS),
            self.said.shortfalls(&sayings),
        ]
        .concat()
    }
}
