//! What the replicas of a script are handed.
use crate::model::log::{Call, Log};
use crate::model::script::{all_genuine, lent, unhex, Output};
use std::collections::BTreeMap;

/// A replica as it is set up, with an empty log, and what it is handed from then on.
pub struct Run {
    pub log: Log,
    pub calls: Vec<Call>,
}

/// The runs of the replicas of a script.
#[derive(Default)]
struct Reader<'a> {
    present: BTreeMap<u8, Run>,
    ended: Vec<Run>,
    /// What was sent, which lines name by its number.
    sent: Vec<&'a Vec<u8>>,
}

impl<'a> Reader<'a> {
    /// `None` where a line calls nobody.
    fn read(&mut self, line: &str, output: &'a Output) -> Option<()> {
        if let Output::Sent(_, message) = output {
            self.sent.push(message);
        }
        let words: Vec<&str> = lent(line)?.0.split(' ').collect();
        match (&words[..], output) {
            (_, Output::Unread) => (),
            (_, Output::New) => {
                self.end_all();
                self.sent.clear();
            }
            (["replica", f, id, key], Output::Ready) => {
                let log = Log {
                    f: f.parse().ok()?,
                    id: id.parse().ok()?,
                    key: unhex(key)?,
                    entries: Vec::new(),
                };
                let calls = Vec::new();
                let before = self.present.insert(log.id, Run { log, calls });
                self.ended.extend(before);
            }
            (["to-replica", id, message, verdicts], _) => {
                let message = self.message(message)?;
                let verdicts = match *verdicts {
                    "+" => all_genuine(&message),
                    _ => unhex(verdicts)?,
                };
                self.hand(id, Call::Message { message, verdicts })?;
            }
            (["order", id, order], _) => self.hand(id, Call::Order(unhex(order)?))?,
            _ => (),
        }
        Some(())
    }

    fn message(&self, word: &str) -> Option<Vec<u8>> {
        let Some(number) = word.strip_prefix('@') else {
            return unhex(word);
        };
        let place = number.parse::<usize>().ok()?.checked_sub(1)?;
        Some(self.sent.get(place)?.to_vec())
    }

    fn hand(&mut self, id: &str, call: Call) -> Option<()> {
        self.present.get_mut(&id.parse().ok()?)?.calls.push(call);
        Some(())
    }

    fn end_all(&mut self) {
        let present = std::mem::take(&mut self.present);
        self.ended.extend(present.into_values());
    }
}

/// What the replicas of a script with these lines and answers are handed, each from its set-up on. A replica is not restored here:
/// its disk stays as it is.
pub fn runs(lines: &[String], answers: &[Output]) -> Vec<Run> {
    let mut reader = Reader::default();
    for (line, output) in lines.iter().zip(answers) {
        reader.read(line, output);
    }
    reader.end_all();
    reader.ended
}
