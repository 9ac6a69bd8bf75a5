//! Plays a script by the model: what the proved program has to print, line by line.
use super::client::Client;
use super::message::{bits_of, Answer, Done, Message, Refusal, Timestamp, WrittenProof};
use super::replica::{Register, Replica};
use super::viewer::Viewer;
use std::collections::BTreeMap;
use std::fmt;
use std::str::FromStr;

/// A script may name the first messages alone by their number.
pub const KEPT_MESSAGES: usize = 200;
/// The longest key, order and written proof that a line may have, and the most verdicts on such a proof.
pub const LONGEST_KEY: usize = 64;
pub const LONGEST_ORDER: usize = 2048;
pub const LONGEST_PROOF: usize = 2048;
pub const MOST_VERDICTS: usize = 400;
/// The output that a call is lent if its line does not say.
pub const FULL_OUTPUT: usize = 1600;

/// What a script line prints.
#[derive(Clone, Debug, PartialEq)]
pub enum Output {
    New,
    Ready,
    Sent(usize, Vec<u8>),
    Counted,
    Done(Done),
    Ended,
    Taken,
    Refused(Refusal),
    Kept,
    Restored,
    Comment(String),
    Unread,
}

impl fmt::Display for Output {
    fn fmt(&self, to: &mut fmt::Formatter) -> fmt::Result {
        match self {
            Output::New => write!(to, "new"),
            Output::Ready => write!(to, "ready"),
            Output::Sent(number, message) => write!(to, "sent {number} {}", hex(message)),
            Output::Counted => write!(to, "counted"),
            Output::Done(done) => write!(to, "done {done}"),
            Output::Ended => write!(to, "ended"),
            Output::Taken => write!(to, "taken"),
            Output::Refused(refusal) => write!(to, "refused {refusal}"),
            Output::Kept => write!(to, "kept"),
            Output::Restored => write!(to, "restored"),
            Output::Comment(line) => write!(to, "{line}"),
            Output::Unread => write!(to, "unread"),
        }
    }
}

/// Also as the run player prints it.
impl fmt::Display for Done {
    fn fmt(&self, to: &mut fmt::Formatter) -> fmt::Result {
        let Timestamp { count, client } = self.timestamp;
        let signers = bits_of(&self.signers);
        write!(to, "{count}.{client} {} {signers:04X}", hex(&self.card))
    }
}

/// Capital hex, `-` for no bytes.
pub fn hex(bytes: &[u8]) -> String {
    const DIGITS: &[u8; 16] = b"0123456789ABCDEF";
    if bytes.is_empty() {
        return "-".to_string();
    }
    let digits = bytes.iter().flat_map(|byte| [byte >> 4, byte & 15]);
    digits
        .map(|digit| DIGITS[usize::from(digit)] as char)
        .collect()
}

pub fn unhex(word: &str) -> Option<Vec<u8>> {
    if word == "-" {
        return Some(Vec::new());
    }
    if word.is_empty() {
        return None;
    }
    let value = |digit: u8| match digit {
        b'0'..=b'9' => Some(digit - b'0'),
        b'A'..=b'F' => Some(digit - b'A' + 10),
        _ => None,
    };
    let pairs = word.as_bytes().chunks(2);
    pairs
        .map(|pair| Some(value(*pair.first()?)? << 4 | value(*pair.get(1)?)?))
        .collect()
}

fn unhex_up_to(longest: usize, word: &str) -> Option<Vec<u8>> {
    unhex(word).filter(|bytes| bytes.len() <= longest)
}

/// A decimal number, of digits alone.
fn number<T: FromStr>(word: &str) -> Option<T> {
    let digits = word.bytes().all(|byte| byte.is_ascii_digit());
    word.parse().ok().filter(|_| digits)
}

/// One verdict 1 per signature; a single one for a message that cannot be laid out.
pub fn all_genuine(message: &[u8]) -> Vec<u8> {
    vec![1; Message::decode(message).map_or(1, |message| message.signatures())]
}

/// One verdict 1 per entry of a written proof; none for bytes that cannot be laid out.
pub fn genuine_entries(proof: &[u8]) -> Vec<u8> {
    vec![1; WrittenProof::decode(proof).map_or(0, |proof| proof.entries.len())]
}

/// A written proof and its verdicts: `+` is one verdict 1 per entry.
fn handing(proof: &str, verdicts: &str) -> Option<(Vec<u8>, Vec<u8>)> {
    let proof = unhex_up_to(LONGEST_PROOF, proof)?;
    let verdicts = if verdicts == "+" {
        genuine_entries(&proof)
    } else {
        unhex_up_to(MOST_VERDICTS, verdicts)?
    };
    Some((proof, verdicts))
}

/// What is printed for a call that has nothing to send.
fn taken(answer: Result<(), Refusal>) -> Output {
    match answer {
        Ok(()) => Output::Taken,
        Err(refusal) => Output::Refused(refusal),
    }
}

/// The call of a line and the length of the output that it is lent: `lent N CALL` says it.
pub fn lent(line: &str) -> Option<(&str, usize)> {
    let Some(words) = line.strip_prefix("lent ") else {
        return Some((line, FULL_OUTPUT));
    };
    let (room, call) = words.split_once(' ')?;
    let room = number(room).filter(|room| *room <= FULL_OUTPUT)?;
    Some((call, room))
}

/// Parties by number, and the records of some that were kept aside.
struct Parties<T> {
    present: BTreeMap<u8, T>,
    kept: BTreeMap<u8, T>,
}

impl<T> Default for Parties<T> {
    fn default() -> Parties<T> {
        Parties {
            present: BTreeMap::new(),
            kept: BTreeMap::new(),
        }
    }
}

impl<T: Clone> Parties<T> {
    fn set_up(&mut self, id: u8, party: Result<T, Refusal>) -> Output {
        match party {
            Ok(party) => {
                self.present.insert(id, party);
                Output::Ready
            }
            Err(refusal) => Output::Refused(refusal),
        }
    }

    fn get(&mut self, id: &str) -> Option<&mut T> {
        self.present.get_mut(&number(id)?)
    }

    fn keep(&mut self, id: &str) -> Option<Output> {
        let id = number(id)?;
        self.kept.insert(id, self.present.get(&id)?.clone());
        Some(Output::Kept)
    }

    fn restore(&mut self, id: &str) -> Option<Output> {
        let id = number(id)?;
        self.present.insert(id, self.kept.get(&id)?.clone());
        Some(Output::Restored)
    }
}

#[derive(Default)]
pub struct Player {
    replicas: Parties<Replica>,
    clients: Parties<Client>,
    viewers: Parties<Viewer>,
    sent: Vec<Vec<u8>>,
}

impl Player {
    pub fn play(&mut self, line: &str) -> Output {
        if line.starts_with("# ") {
            return Output::Comment(line.to_string());
        }
        let words: Vec<&str> = line.split(' ').collect();
        let output = match self.arrange(&words) {
            None => lent(line).and_then(|(call, room)| self.call(call, room)),
            output => output,
        };
        output.unwrap_or(Output::Unread)
    }

    /// Everything but the calls that are lent an output.
    fn arrange(&mut self, words: &[&str]) -> Option<Output> {
        match *words {
            ["new"] => {
                *self = Player::default();
                Some(Output::New)
            }
            ["replica", f, id, key] => {
                let (f, id, key) = (number(f)?, number(id)?, unhex_up_to(LONGEST_KEY, key)?);
                Some(self.replicas.set_up(id, Replica::new(f, id, &key)))
            }
            ["client", f, id, nonce] => {
                let (f, id, nonce) = (number(f)?, number(id)?, number(nonce)?);
                Some(self.clients.set_up(id, Client::new(f, id, nonce)))
            }
            ["viewer", f, id, nonce] => {
                let (f, id, nonce) = (number(f)?, number(id)?, number(nonce)?);
                Some(self.viewers.set_up(id, Viewer::new(f, id, nonce)))
            }
            ["keep", "replica", id] => self.replicas.keep(id),
            ["keep", "client", id] => self.clients.keep(id),
            ["keep", "viewer", id] => self.viewers.keep(id),
            ["restore", "replica", id] => self.replicas.restore(id),
            ["restore", "client", id] => self.clients.restore(id),
            ["restore", "viewer", id] => self.viewers.restore(id),
            ["order", id, order] => {
                let order = unhex_up_to(LONGEST_ORDER, order)?;
                Some(taken(self.replicas.get(id)?.take_order(&order)))
            }
            ["hand", id, register, proof, verdicts] => {
                let register = number(register)?;
                let (proof, verdicts) = handing(proof, verdicts)?;
                let client = self.clients.get(id)?;
                Some(taken(client.take_proof(register, &proof, &verdicts)))
            }
            _ => None,
        }
    }

    /// The four calls of document 01, and the two of a viewing client.
    fn call(&mut self, call: &str, room: usize) -> Option<Output> {
        let words: Vec<&str> = call.split(' ').collect();
        let answer = match *words {
            ["write", id, register, card] => {
                let (register, card) = (number(register)?, unhex(card)?);
                self.clients.get(id)?.begin_write(register, &card, room)
            }
            ["read", id, register] => self.clients.get(id)?.begin_read(number(register)?, room),
            ["view", id, register] => self.viewers.get(id)?.begin_view(number(register)?, room),
            ["to-replica", id, message, verdicts] => {
                let (message, verdicts) = self.delivery(message, verdicts)?;
                self.replicas.get(id)?.receive(&message, &verdicts, room)
            }
            ["to-client", id, message, verdicts] => {
                let (message, verdicts) = self.delivery(message, verdicts)?;
                self.clients.get(id)?.receive(&message, &verdicts, room)
            }
            ["to-viewer", id, message, verdicts] => {
                let (message, verdicts) = self.delivery(message, verdicts)?;
                self.viewers.get(id)?.receive(&message, &verdicts, room)
            }
            _ => return None,
        };
        Some(self.output(answer))
    }

    fn delivery(&self, message: &str, verdicts: &str) -> Option<(Vec<u8>, Vec<u8>)> {
        let message = self.message(message)?;
        let verdicts = if verdicts == "+" {
            all_genuine(&message)
        } else {
            unhex(verdicts)?
        };
        Some((message, verdicts))
    }

    fn message(&self, word: &str) -> Option<Vec<u8>> {
        let Some(digits) = word.strip_prefix('@') else {
            return unhex(word);
        };
        let place = number::<usize>(digits)?.checked_sub(1)?;
        self.sent.iter().take(KEPT_MESSAGES).nth(place).cloned()
    }

    fn output(&mut self, answer: Result<Answer, Refusal>) -> Output {
        match answer {
            Ok(Answer::Sent(message)) => {
                self.sent.push(message.clone());
                Output::Sent(self.sent.len(), message)
            }
            Ok(Answer::Counted) => Output::Counted,
            Ok(Answer::Done(done)) => Output::Done(done),
            Ok(Answer::Ended) => Output::Ended,
            Err(refusal) => Output::Refused(refusal),
        }
    }

    pub fn replica(&self, id: u8) -> Option<&Replica> {
        self.replicas.present.get(&id)
    }

    pub fn client(&self, id: u8) -> Option<&Client> {
        self.clients.present.get(&id)
    }

    pub fn viewer(&self, id: u8) -> Option<&Viewer> {
        self.viewers.present.get(&id)
    }

    /// What the replicas hold in a register.
    pub fn held(&self, register: u8) -> Vec<Timestamp> {
        let replicas = self.replicas.present.values();
        replicas
            .filter_map(|replica| replica.registers.get(&register))
            .map(Register::timestamp)
            .collect()
    }

    /// The line with a message named by its number written out in hex.
    pub fn spelled_out(&self, line: &str) -> String {
        let spell = |word: &str| {
            let number: Option<usize> = word.strip_prefix('@').and_then(number);
            let sent = number.and_then(|number| self.sent.get(number.wrapping_sub(1)));
            sent.map_or(word.to_string(), |message| hex(message))
        };
        line.split(' ').map(spell).collect::<Vec<_>>().join(" ")
    }
}
