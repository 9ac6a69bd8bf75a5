//! A replica's log and its judge (document 02, #110): whether a fresh replica, set up as the head says, would have given each of
//! these answers.
use super::lms::KEY_LENGTH;
use super::message::{Answer, Refusal, LONGEST_MESSAGE};
use super::replica::Replica;
use std::fmt;

/// f, the replica's number and the office's key.
pub const HEAD_LENGTH: usize = 2 + KEY_LENGTH;
/// A call with more bytes or verdicts is not logged.
pub const LONGEST_LOGGED: usize = u16::MAX as usize;
/// So many bytes at the end of a reply are not compared.
pub const SIGNATURE_LENGTH: usize = 64;

/// The bytes that entries open with, and the one that a reply does.
const MESSAGE: u8 = 0;
const ORDER: u8 = 1;
const REPLY: u8 = 0;

/// What a replica received.
#[derive(Clone)]
pub enum Call {
    Message { message: Vec<u8>, verdicts: Vec<u8> },
    Order(Vec<u8>),
}

impl Call {
    pub fn is_order(&self) -> bool {
        matches!(self, Call::Order(_))
    }

    /// Whether a correct replica logs it.
    pub fn is_logged(&self) -> bool {
        match self {
            Call::Message { message, verdicts } => {
                message.len().max(verdicts.len()) <= LONGEST_LOGGED
            }
            Call::Order(order) => order.len() <= LONGEST_LOGGED,
        }
    }

    /// What a replica gives for it. No output is too short.
    pub fn make(&self, replica: &mut Replica) -> Given {
        let given = match self {
            Call::Message { message, verdicts } => replica
                .receive(message, verdicts, LONGEST_MESSAGE)
                .map(sent),
            Call::Order(order) => replica.take_order(order).map(|()| Vec::new()),
        };
        given.map_or_else(Given::Refusal, Given::Reply)
    }
}

fn sent(answer: Answer) -> Vec<u8> {
    match answer {
        Answer::Sent(reply) => reply,
        other => unreachable!("a replica sends a message, and not {other:?}"),
    }
}

/// What a replica gave.
#[derive(Clone, PartialEq)]
pub enum Given {
    /// Of no bytes for an order that was taken.
    Reply(Vec<u8>),
    Refusal(Refusal),
}

impl Given {
    /// Whether a correct replica that gives the other may have this in its log.
    fn passes_for(&self, other: &Given) -> bool {
        match (self, other) {
            (Given::Reply(one), Given::Reply(other)) => {
                one.len() == other.len() && compared(one) == compared(other)
            }
            _ => self == other,
        }
    }
}

/// All of a reply but its signature.
fn compared(reply: &[u8]) -> &[u8] {
    &reply[..reply.len().saturating_sub(SIGNATURE_LENGTH)]
}

#[derive(Clone)]
pub struct Entry {
    pub call: Call,
    pub given: Given,
}

/// A part of an entry, by its name.
pub type Part = (&'static str, Vec<u8>);

fn length(bytes: &[u8]) -> Part {
    let length = u16::try_from(bytes.len()).expect("no more than is logged");
    ("length", length.to_be_bytes().to_vec())
}

impl Entry {
    /// Its parts, as they follow each other.
    pub fn parts(&self) -> Vec<Part> {
        let mut parts = match &self.call {
            Call::Message { message, verdicts } => vec![
                ("opening byte", vec![MESSAGE]),
                length(message),
                ("message", message.clone()),
                length(verdicts),
                ("verdicts", verdicts.clone()),
            ],
            Call::Order(order) => vec![
                ("opening byte", vec![ORDER]),
                length(order),
                ("order", order.clone()),
            ],
        };
        match &self.given {
            Given::Reply(reply) => {
                let (compared, signature) = reply.split_at(compared(reply).len());
                parts.extend([
                    ("reply's byte", vec![REPLY]),
                    length(reply),
                    ("reply", compared.to_vec()),
                    ("signature", signature.to_vec()),
                ]);
            }
            Given::Refusal(refusal) => parts.push(("refusal", vec![*refusal])),
        }
        parts
    }

    pub fn encode(&self) -> Vec<u8> {
        let parts = self.parts().into_iter();
        parts.flat_map(|(_, bytes)| bytes).collect()
    }
}

#[derive(Clone)]
pub struct Log {
    pub f: u8,
    pub id: u8,
    pub key: Vec<u8>,
    pub entries: Vec<Entry>,
}

impl Log {
    pub fn encode(&self) -> Vec<u8> {
        let mut bytes = [&[self.f, self.id], &self.key[..]].concat();
        bytes.extend(self.entries.iter().flat_map(Entry::encode));
        bytes
    }

    /// Where the entries begin, and where the last one ends.
    pub fn places(&self) -> Vec<usize> {
        let mut place = HEAD_LENGTH;
        let mut places = vec![place];
        for entry in &self.entries {
            place += entry.encode().len();
            places.push(place);
        }
        places
    }
}

/// Where a log and a correct replica part.
pub struct Difference {
    pub is_order: bool,
    pub correct: Given,
    pub logged: Given,
}

impl Difference {
    /// Of two replies of one length the first byte that differs, from 1.
    fn byte(&self) -> Option<usize> {
        match (&self.correct, &self.logged) {
            (Given::Reply(correct), Given::Reply(logged)) if correct.len() == logged.len() => {
                let mut pairs = correct.iter().zip(logged);
                pairs
                    .position(|(correct, logged)| correct != logged)
                    .map(|at| at + 1)
            }
            _ => None,
        }
    }
}

impl fmt::Display for Difference {
    fn fmt(&self, to: &mut fmt::Formatter) -> fmt::Result {
        let call = if self.is_order { "order" } else { "message" };
        write!(to, "a correct replica ")?;
        match &self.correct {
            Given::Refusal(refusal) => write!(to, "refuses this {call} with {refusal}"),
            Given::Reply(_) if self.is_order => write!(to, "takes this order"),
            Given::Reply(reply) => write!(to, "answers this message with {} bytes", reply.len()),
        }?;
        write!(to, "; the log has ")?;
        match &self.logged {
            Given::Refusal(refusal) => write!(to, "refusal {refusal}"),
            Given::Reply(reply) if self.is_order && reply.is_empty() => write!(to, "it taken"),
            Given::Reply(reply) => write!(to, "a reply of {} bytes", reply.len()),
        }?;
        match self.byte() {
            Some(byte) => write!(to, ", and byte {byte} is the first that differs"),
            None => Ok(()),
        }
    }
}

/// Why an entry is wrong.
pub enum Fault {
    OpensWith(u8),
    Cut,
    Differs(Difference),
}

impl fmt::Display for Fault {
    fn fmt(&self, to: &mut fmt::Formatter) -> fmt::Result {
        match self {
            Fault::OpensWith(byte) => write!(to, "it opens with {byte}, and not with 0 or 1"),
            Fault::Cut => write!(to, "it is cut short"),
            Fault::Differs(difference) => write!(to, "{difference}"),
        }
    }
}

pub enum Judgement {
    Accepted,
    /// The head has so many bytes alone.
    ShortHead(usize),
    RefusedHead(Refusal),
    WrongEntry {
        /// From 1.
        number: usize,
        /// Its first byte's place in the log.
        start: usize,
        fault: Fault,
    },
}

impl Judgement {
    /// What the program prints.
    pub fn printed(&self) -> String {
        match self {
            Judgement::Accepted => "accepted\n".to_string(),
            Judgement::ShortHead(_) | Judgement::RefusedHead(_) => "0\n".to_string(),
            Judgement::WrongEntry { number, .. } => format!("{number}\n"),
        }
    }

    /// What it says on standard error.
    pub fn said(&self) -> String {
        match self {
            Judgement::Accepted => String::new(),
            Judgement::ShortHead(length) => {
                format!("the head has {length} bytes, and not {HEAD_LENGTH}\n")
            }
            Judgement::RefusedHead(refusal) => format!("the head is refused with {refusal}\n"),
            Judgement::WrongEntry { number, fault, .. } => format!("entry {number}: {fault}\n"),
        }
    }
}

/// What is left of a log. Its methods answer `None` where that is too short.
struct Reader<'a>(&'a [u8]);

impl Reader<'_> {
    fn bytes(&mut self, number: usize) -> Option<&[u8]> {
        let (taken, rest) = self.0.split_at_checked(number)?;
        self.0 = rest;
        Some(taken)
    }

    fn byte(&mut self) -> Option<u8> {
        self.bytes(1).map(|bytes| bytes[0])
    }

    /// A length, and so many bytes.
    fn counted(&mut self) -> Option<Vec<u8>> {
        let length = [self.byte()?, self.byte()?];
        let bytes = self.bytes(u16::from_be_bytes(length).into())?;
        Some(bytes.to_vec())
    }

    /// An entry that opens with one of its two bytes.
    fn entry(&mut self) -> Option<Entry> {
        let call = match self.byte()? {
            MESSAGE => Call::Message {
                message: self.counted()?,
                verdicts: self.counted()?,
            },
            _ => Call::Order(self.counted()?),
        };
        let given = match self.byte()? {
            REPLY => Given::Reply(self.counted()?),
            refusal => Given::Refusal(refusal),
        };
        Some(Entry { call, given })
    }

    /// Judges the next entry, by a replica that was handed all before.
    fn judge(&mut self, replica: &mut Replica) -> Result<(), Fault> {
        match self.0[0] {
            MESSAGE | ORDER => (),
            other => return Err(Fault::OpensWith(other)),
        }
        let Entry { call, given } = self.entry().ok_or(Fault::Cut)?;
        let correct = call.make(replica);
        if given.passes_for(&correct) {
            return Ok(());
        }
        Err(Fault::Differs(Difference {
            is_order: call.is_order(),
            correct,
            logged: given,
        }))
    }
}

pub fn judge(log: &[u8]) -> Judgement {
    let Some((head, entries)) = log.split_at_checked(HEAD_LENGTH) else {
        return Judgement::ShortHead(log.len());
    };
    let mut replica = match Replica::new(head[0], head[1], &head[2..]) {
        Ok(replica) => replica,
        Err(refusal) => return Judgement::RefusedHead(refusal),
    };
    let mut rest = Reader(entries);
    let mut number = 0;
    while !rest.0.is_empty() {
        number += 1;
        let start = log.len() - rest.0.len();
        if let Err(fault) = rest.judge(&mut replica) {
            return Judgement::WrongEntry {
                number,
                start,
                fault,
            };
        }
    }
    Judgement::Accepted
}
