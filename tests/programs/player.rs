//! The model of the run player: four replicas and four clients, f = 1, first nonce 1, register 1, all verdicts 1. There are no
//! orders, so the replicas have the zero key.
use crate::model::client::Client;
use crate::model::message::{Answer, Done, Message, Refusal, LONGEST_MESSAGE};
use crate::model::order::ZERO_KEY;
use crate::model::replica::Replica;
use std::fmt;

pub const HEADER: &str = "holders 4 desks 4";
pub const MOST_LINES: usize = 100;
pub const PARTIES: u8 = 4;
pub const MOST_PAIRS: usize = 17;
const REGISTER: u8 = 1;

/// What a line prints behind its number.
pub enum Said {
    Sent(usize),
    Taken,
    Done(Done),
    Ended,
    Refused(Refusal),
    Unread,
}

impl fmt::Display for Said {
    fn fmt(&self, to: &mut fmt::Formatter) -> fmt::Result {
        match self {
            Said::Sent(number) => write!(to, "sent {number}"),
            Said::Taken => write!(to, "taken"),
            Said::Done(done) => write!(to, "done {done}"),
            Said::Ended => write!(to, "ended"),
            Said::Refused(refusal) => write!(to, "refused {refusal}"),
            Said::Unread => write!(to, "unread"),
        }
    }
}

pub struct Player {
    replicas: Vec<Replica>,
    clients: Vec<Client>,
    sent: Vec<Vec<u8>>,
}

/// A party's index: it is 1 to 4.
fn party(word: &[u8]) -> Option<usize> {
    match *word {
        [digit @ b'1'..=b'4'] => Some(usize::from(digit - b'1')),
        _ => None,
    }
}

/// 1 to 17 pairs of capital hex digits.
fn card(word: &[u8]) -> Option<Vec<u8>> {
    let value = |digit: u8| match digit {
        b'0'..=b'9' => Some(digit - b'0'),
        b'A'..=b'F' => Some(digit - b'A' + 10),
        _ => None,
    };
    let pairs = word.chunks(2);
    if !(1..=MOST_PAIRS).contains(&pairs.len()) {
        return None;
    }
    pairs
        .map(|pair| match *pair {
            [high, low] => Some(value(high)? * 16 + value(low)?),
            _ => None,
        })
        .collect()
}

impl Player {
    pub fn new() -> Player {
        let replica = |id| Replica::new(1, id, &ZERO_KEY).expect("a replica's number");
        let client = |id| Client::new(1, id, 1).expect("a client's number");
        Player {
            replicas: (1..=PARTIES).map(replica).collect(),
            clients: (1..=PARTIES).map(client).collect(),
            sent: Vec::new(),
        }
    }

    /// The message of a number without a leading zero.
    fn message(&self, word: &[u8]) -> Option<Vec<u8>> {
        if word.first() == Some(&b'0') || !word.iter().all(u8::is_ascii_digit) {
            return None;
        }
        let number: usize = std::str::from_utf8(word).ok()?.parse().ok()?;
        self.sent.get(number.checked_sub(1)?).cloned()
    }

    /// `None` for a line of another form, or with an unsent message.
    fn answer(&mut self, line: &[u8]) -> Option<Result<Answer, Refusal>> {
        let words: Vec<&[u8]> = line.split(|&byte| byte == b' ').collect();
        let genuine = |message: &[u8]| {
            let message = Message::decode(message).expect("a message that was sent");
            vec![1; message.signatures()]
        };
        Some(match *words {
            [b"w", id, digits] => {
                let card = card(digits)?;
                self.clients[party(id)?].begin_write(REGISTER, &card, LONGEST_MESSAGE)
            }
            [b"r", id] => self.clients[party(id)?].begin_read(REGISTER, LONGEST_MESSAGE),
            [b"h", id, number] => {
                let message = self.message(number)?;
                let verdicts = genuine(&message);
                self.replicas[party(id)?].receive(&message, &verdicts, LONGEST_MESSAGE)
            }
            [b"d", id, number] => {
                let message = self.message(number)?;
                let verdicts = genuine(&message);
                self.clients[party(id)?].receive(&message, &verdicts, LONGEST_MESSAGE)
            }
            _ => return None,
        })
    }

    pub fn play(&mut self, line: &[u8]) -> Said {
        match self.answer(line) {
            Some(Ok(Answer::Sent(message))) => {
                self.sent.push(message);
                Said::Sent(self.sent.len())
            }
            Some(Ok(Answer::Counted)) => Said::Taken,
            Some(Ok(Answer::Done(done))) => Said::Done(done),
            Some(Ok(Answer::Ended)) => Said::Ended,
            Some(Err(refusal)) => Said::Refused(refusal),
            None => Said::Unread,
        }
    }
}

/// The lines that are played: they end at LF, and the last one may lack it.
pub fn played(input: &[u8]) -> Vec<&[u8]> {
    let mut lines: Vec<&[u8]> = input.split(|&byte| byte == b'\n').collect();
    if lines.last().is_some_and(|last| last.is_empty()) {
        lines.pop();
    }
    lines.truncate(MOST_LINES);
    lines
}

/// What must be printed for an input.
pub fn printed(input: &[u8]) -> Vec<String> {
    let mut player = Player::new();
    let mut printed = vec![HEADER.to_string()];
    for (at, line) in played(input).into_iter().enumerate() {
        printed.push(format!("{} {}", at + 1, player.play(line)));
    }
    printed
}
