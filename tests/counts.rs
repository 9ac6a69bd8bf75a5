//! Document 02, #107: how many messages an operation has sent by its end, counted in the lines of a script and what they print.
use crate::model::message::{quorum, Message, Timestamp, CARD};
use crate::model::script::{lent, unhex, Output};
use crate::tally::{MISCOUNTED, SENT};
use std::collections::BTreeMap;

/// From its beginning on.
#[derive(Clone)]
struct Operation {
    is_write: bool,
    sent: usize,
    /// The timestamps of the CARDs that it took.
    cards: Vec<Timestamp>,
}

#[derive(Clone)]
struct Client {
    quorum: usize,
    operation: Option<Operation>,
}

impl Client {
    fn begin(&mut self, is_write: bool) {
        self.operation = Some(Operation {
            is_write,
            sent: 1,
            cards: Vec::new(),
        });
    }

    /// A reply was taken with this output. If that ends the operation: its row of the tally.
    fn take(&mut self, reply: &Message, output: &Output) -> Option<&'static str> {
        let operation = self.operation.as_mut()?;
        if reply.kind == CARD {
            operation.cards.push(reply.prepared_timestamp());
        }
        match output {
            Output::Sent(..) => operation.sent += 1,
            Output::Done(_) | Output::Ended => {
                let operation = self.operation.take()?;
                return Some(operation.row(output, self.quorum));
            }
            _ => (),
        }
        None
    }
}

impl Operation {
    fn row(&self, end: &Output, quorum: usize) -> &'static str {
        let same = self.cards.windows(2).all(|pair| pair[0] == pair[1]);
        let (row, sent) = match (end, self.is_write) {
            (Output::Ended, _) => (SENT[3], 1),
            (_, true) => (SENT[0], 3),
            (_, false) if same => (SENT[1], 1),
            (_, false) => (SENT[2], 2),
        };
        let cards = if self.is_write { 0 } else { quorum };
        if self.sent == sent && self.cards.len() == cards {
            row
        } else {
            MISCOUNTED
        }
    }
}

#[derive(Default)]
struct Counter {
    clients: BTreeMap<u8, Client>,
    kept: BTreeMap<u8, Client>,
    sent: Vec<Vec<u8>>,
}

impl Counter {
    /// A line and its output. If they end an operation: its row.
    fn count(&mut self, line: &str, output: &Output) -> Option<&'static str> {
        if let Output::Sent(_, message) = output {
            self.sent.push(message.clone());
        }
        let words: Vec<&str> = lent(line)?.0.split(' ').collect();
        match (&words[..], output) {
            (_, Output::New) => *self = Counter::default(),
            (["client", f, id, _], Output::Ready) => {
                let client = Client {
                    quorum: quorum(f.parse().ok()?),
                    operation: None,
                };
                self.clients.insert(id.parse().ok()?, client);
            }
            (["keep", "client", id], Output::Kept) => {
                let id = id.parse().ok()?;
                self.kept.insert(id, self.clients.get(&id)?.clone());
            }
            (["restore", "client", id], Output::Restored) => {
                let id = id.parse().ok()?;
                self.clients.insert(id, self.kept.get(&id)?.clone());
            }
            ([begins @ ("write" | "read"), id, ..], Output::Sent(..)) => {
                self.client(id)?.begin(*begins == "write");
            }
            (["to-client", _, _, _], Output::Refused(_) | Output::Unread) => (),
            (["to-client", id, reply, _], _) => {
                let reply = Message::decode(&self.message(reply)?).ok()?;
                return self.client(id)?.take(&reply, output);
            }
            _ => (),
        }
        None
    }

    fn client(&mut self, id: &str) -> Option<&mut Client> {
        self.clients.get_mut(&id.parse().ok()?)
    }

    /// In hex, or by the number under which it was sent.
    fn message(&self, word: &str) -> Option<Vec<u8>> {
        let Some(number) = word.strip_prefix('@') else {
            return unhex(word);
        };
        let place = number.parse::<usize>().ok()?.checked_sub(1)?;
        self.sent.get(place).cloned()
    }
}

/// The rows of the operations that came to an end.
pub fn ends<'a>(played: impl Iterator<Item = (&'a String, &'a Output)>) -> Vec<&'static str> {
    let mut counter = Counter::default();
    played
        .filter_map(|(line, output)| counter.count(line, output))
        .collect()
}
