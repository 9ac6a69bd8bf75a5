//! Messages, their parts, and the tests 1 to 11, 14, 19, 20 and 23, which need no register's record.
use super::card::{keeps_table, STARTING_CARD};
use super::sha256::sha256;
use std::collections::BTreeSet;
use std::ops::RangeInclusive;

pub type Digest = [u8; 32];
/// A seal of document 01.
pub type Signature = [u8; 64];
/// The number of a test under "Turned down".
pub type Refusal = u8;

pub const LONGEST_MESSAGE: usize = 1580;
/// The numbers of the clients that write (desks), which timestamps name.
pub const WRITERS: RangeInclusive<u8> = 1..=64;
/// The numbers of the viewing clients (viewing desks of document 02).
pub const VIEWERS: RangeInclusive<u8> = 65..=96;
/// The numbers of all clients, which senders and addressed clients have.
pub const CLIENTS: RangeInclusive<u8> = 1..=96;
/// The numbers of the registers (sets of document 02).
pub const REGISTERS: RangeInclusive<u8> = 1..=16;
/// The fault bounds f (the allowance).
pub const FAULT_BOUNDS: RangeInclusive<u8> = 1..=5;

pub const READ_TIMESTAMP: u8 = 1; // READ-STAMP
pub const PREPARE: u8 = 2;
pub const WRITE: u8 = 3;
pub const READ: u8 = 4;
pub const TIMESTAMP: u8 = 5; // STAMP
pub const PREPARED: u8 = 6;
pub const WRITTEN: u8 = 7;
pub const CARD: u8 = 8;

/// The names of the kinds, from 1.
pub const KIND_NAMES: [&str; 8] = [
    "READ-STAMP",
    "PREPARE",
    "WRITE",
    "READ",
    "STAMP",
    "PREPARED",
    "WRITTEN",
    "CARD",
];

pub fn replicas(f: u8) -> u8 {
    3 * f + 1
}

pub fn quorum(f: u8) -> usize {
    2 * usize::from(f) + 1
}

/// A set of replicas as document 02 shows it: 16 bits, replica 1 lowest.
pub fn bits_of(replicas: &BTreeSet<u8>) -> u16 {
    replicas.iter().map(|replica| 1 << (replica - 1)).sum()
}

/// A stamp of document 01. The derived order compares counts first, then clients.
#[derive(Clone, Copy, PartialEq, Eq, PartialOrd, Ord, Debug)]
pub struct Timestamp {
    pub count: u32,
    pub client: u8,
}

impl Timestamp {
    pub const START: Timestamp = Timestamp {
        count: 0,
        client: 0,
    };

    pub fn successor(self, client: u8) -> Option<Timestamp> {
        let count = self.count.checked_add(1)?;
        Some(Timestamp { count, client })
    }

    pub fn in_range(self) -> bool {
        self.count != 0 && WRITERS.contains(&self.client)
    }
}

#[derive(Clone, PartialEq, Debug)]
pub struct Entry {
    pub replica: u8,
    pub signature: Signature,
}

#[derive(Clone, PartialEq, Debug)]
pub struct PreparedProof {
    pub timestamp: Timestamp,
    pub digest: Digest,
    pub entries: Vec<Entry>,
}

impl PreparedProof {
    /// The replicas that vouch for it.
    pub fn signers(&self) -> BTreeSet<u8> {
        self.entries.iter().map(|entry| entry.replica).collect()
    }
}

#[derive(Clone, PartialEq, Debug)]
pub struct WrittenProof {
    pub timestamp: Timestamp,
    pub entries: Vec<Entry>,
}

impl WrittenProof {
    /// Test 4, of a proof by itself. There is no 2: its number of entries alone says how long it is.
    pub fn decode(bytes: &[u8]) -> Result<WrittenProof, Refusal> {
        let mut reader = Reader(bytes);
        let proof = reader.written().ok_or(4)?;
        refuse_if(4, !reader.0.is_empty())?;
        Ok(proof)
    }

    pub fn encode(&self) -> Vec<u8> {
        let mut out = Vec::new();
        self.put(&mut out);
        out
    }

    fn put(&self, out: &mut Vec<u8>) {
        put_timestamp(out, self.timestamp);
        put_entries(out, &self.entries);
    }

    /// Tests 4, 20, 7 and 9 to 11 of a proof that is handed over for a register, with a verdict per entry (document 02, #106).
    pub fn check(
        bytes: &[u8],
        register: u8,
        verdicts: &[u8],
        f: u8,
    ) -> Result<WrittenProof, Refusal> {
        let proof = WrittenProof::decode(bytes)?;
        check_register(register)?;
        check_verdicts(verdicts, proof.entries.len())?;
        refuse_if(9, !is_quorum(&proof.entries, f))?;
        refuse_if(10, verdicts.contains(&0))?;
        refuse_if(11, !proof.timestamp.in_range())?;
        Ok(proof)
    }
}

#[derive(Clone, PartialEq, Debug)]
pub struct Message {
    pub kind: u8,
    pub sender: u8,
    pub nonce: Option<u64>,
    pub timestamp: Option<Timestamp>,
    pub digest: Option<Digest>,
    pub card: Option<Vec<u8>>,
    pub prepared: Option<PreparedProof>,
    pub written: Option<WrittenProof>,
    /// The client that a reply is for (desk addressed).
    pub addressed: Option<u8>,
    /// The register that the message is for (set).
    pub register: Option<u8>,
    pub signature: Signature,
}

/// What an operation shows when it is done.
#[derive(Clone, Debug, PartialEq)]
pub struct Done {
    pub timestamp: Timestamp,
    pub card: Vec<u8>,
    /// Of the card's prepared proof; none at 0.0.
    pub signers: BTreeSet<u8>,
}

/// What a party answers to a call that is not refused.
#[derive(Debug)]
pub enum Answer {
    Sent(Vec<u8>),
    Counted,
    Done(Done),
    Ended,
}

pub fn refuse_if(refusal: Refusal, broken: bool) -> Result<(), Refusal> {
    if broken {
        Err(refusal)
    } else {
        Ok(())
    }
}

/// Test 1, for an output of `room` bytes.
pub fn check_room(room: usize) -> Result<(), Refusal> {
    refuse_if(1, room < LONGEST_MESSAGE)
}

/// Test 20.
pub fn check_register(register: u8) -> Result<(), Refusal> {
    refuse_if(20, !REGISTERS.contains(&register))
}

/// Test 7, for so many signatures.
fn check_verdicts(verdicts: &[u8], signatures: usize) -> Result<(), Refusal> {
    let judged = |&verdict: &u8| verdict <= 1;
    refuse_if(
        7,
        verdicts.len() != signatures || !verdicts.iter().all(judged),
    )
}

/// The bits that a kind must have and those that it may have.
fn bits_of_kind(kind: u8) -> (u16, u16) {
    match kind {
        READ_TIMESTAMP | READ => (0b10_0000_0111, 0),
        PREPARE => (0b10_0001_1011, 0b00_1100_0000),
        WRITE => (0b10_0110_0011, 0),
        TIMESTAMP => (0b11_0000_0111, 0b00_0100_0000),
        PREPARED => (0b10_0001_1011, 0),
        WRITTEN => (0b10_0000_1011, 0),
        CARD => (0b11_0010_0111, 0b00_0100_0000),
        _ => (u16::MAX, 0),
    }
}

struct Reader<'a>(&'a [u8]);

impl Reader<'_> {
    fn bytes<const N: usize>(&mut self) -> Option<[u8; N]> {
        let (taken, rest) = self.0.split_first_chunk()?;
        self.0 = rest;
        Some(*taken)
    }

    fn byte(&mut self) -> Option<u8> {
        self.bytes().map(|[byte]| byte)
    }

    fn timestamp(&mut self) -> Option<Timestamp> {
        let count = u32::from_be_bytes(self.bytes()?);
        Some(Timestamp {
            count,
            client: self.byte()?,
        })
    }

    fn card(&mut self) -> Option<Vec<u8>> {
        let length = self.byte()?;
        (0..length).map(|_| self.byte()).collect()
    }

    fn entries(&mut self) -> Option<Vec<Entry>> {
        let number = self.byte()?;
        (0..number)
            .map(|_| {
                Some(Entry {
                    replica: self.byte()?,
                    signature: self.bytes()?,
                })
            })
            .collect()
    }

    fn prepared(&mut self) -> Option<PreparedProof> {
        Some(PreparedProof {
            timestamp: self.timestamp()?,
            digest: self.bytes()?,
            entries: self.entries()?,
        })
    }

    fn written(&mut self) -> Option<WrittenProof> {
        Some(WrittenProof {
            timestamp: self.timestamp()?,
            entries: self.entries()?,
        })
    }

    /// A field that is read only if its bit is set: `None` if it is cut, `Some(None)` if it is missing.
    fn field<T>(&mut self, present: bool, read: fn(&mut Self) -> Option<T>) -> Option<Option<T>> {
        if present {
            read(self).map(Some)
        } else {
            Some(None)
        }
    }

    fn message(&mut self, map: u16) -> Option<Message> {
        let has = |bit: u32| map >> bit & 1 == 1;
        Some(Message {
            kind: self.byte()?,
            sender: self.byte()?,
            nonce: self.field(has(2), Self::bytes)?.map(u64::from_be_bytes),
            timestamp: self.field(has(3), Self::timestamp)?,
            digest: self.field(has(4), Self::bytes)?,
            card: self.field(has(5), Self::card)?,
            prepared: self.field(has(6), Self::prepared)?,
            written: self.field(has(7), Self::written)?,
            addressed: self.field(has(8), Self::byte)?,
            register: self.field(has(9), Self::byte)?,
            signature: self.bytes()?,
        })
    }
}

fn put_timestamp(out: &mut Vec<u8>, timestamp: Timestamp) {
    out.extend(timestamp.count.to_be_bytes());
    out.push(timestamp.client);
}

fn put_entries(out: &mut Vec<u8>, entries: &[Entry]) {
    out.push(entries.len() as u8);
    for entry in entries {
        out.push(entry.replica);
        out.extend(entry.signature);
    }
}

impl Message {
    /// A message with no field but kind, sender and register, and with zeros for its signature, as parties send it.
    pub fn new(kind: u8, sender: u8, register: u8) -> Message {
        Message {
            kind,
            sender,
            nonce: None,
            timestamp: None,
            digest: None,
            card: None,
            prepared: None,
            written: None,
            addressed: None,
            register: Some(register),
            signature: [0; 64],
        }
    }

    /// Tests 2 to 4: the bit map and the fields' own lengths.
    pub fn decode(bytes: &[u8]) -> Result<Message, Refusal> {
        refuse_if(2, bytes.len() > LONGEST_MESSAGE)?;
        Message::decode_any_length(bytes)
    }

    /// The same of a message that may be longer than the longest.
    pub fn decode_any_length(bytes: &[u8]) -> Result<Message, Refusal> {
        refuse_if(2, bytes.len() < 2)?;
        let map = u16::from_be_bytes([bytes[0], bytes[1]]);
        refuse_if(3, map & 0b11 != 0b11 || map >> 10 != 0)?;
        let mut reader = Reader(&bytes[2..]);
        let message = reader.message(map).ok_or(4)?;
        refuse_if(4, !reader.0.is_empty())?;
        Ok(message)
    }

    pub fn encode(&self) -> Vec<u8> {
        let mut out = self.bits().to_be_bytes().to_vec();
        out.extend([self.kind, self.sender]);
        out.extend(self.nonce.iter().flat_map(|nonce| nonce.to_be_bytes()));
        if let Some(timestamp) = self.timestamp {
            put_timestamp(&mut out, timestamp);
        }
        out.extend(self.digest.iter().flatten());
        if let Some(card) = &self.card {
            out.push(card.len() as u8);
            out.extend(card);
        }
        if let Some(proof) = &self.prepared {
            put_timestamp(&mut out, proof.timestamp);
            out.extend(proof.digest);
            put_entries(&mut out, &proof.entries);
        }
        if let Some(proof) = &self.written {
            proof.put(&mut out);
        }
        out.extend(self.addressed);
        out.extend(self.register);
        out.extend(self.signature);
        out
    }

    fn bits(&self) -> u16 {
        let optional = [
            self.nonce.is_some(),
            self.timestamp.is_some(),
            self.digest.is_some(),
            self.card.is_some(),
            self.prepared.is_some(),
            self.written.is_some(),
            self.addressed.is_some(),
            self.register.is_some(),
        ];
        let set = optional
            .into_iter()
            .enumerate()
            .filter(|(_, present)| *present);
        0b11 | set.map(|(at, _)| 0b100 << at).sum::<u16>()
    }

    /// The entries of each proof that is there.
    fn quorums(&self) -> impl Iterator<Item = &Vec<Entry>> {
        let prepared = self.prepared.iter().map(|proof| &proof.entries);
        prepared.chain(self.written.iter().map(|proof| &proof.entries))
    }

    fn timestamps(&self) -> impl Iterator<Item = Timestamp> + '_ {
        let prepared = self.prepared.iter().map(|proof| proof.timestamp);
        let written = self.written.iter().map(|proof| proof.timestamp);
        self.timestamp.into_iter().chain(prepared).chain(written)
    }

    /// How many verdicts (marks) belong to the message: its own, then one per entry.
    pub fn signatures(&self) -> usize {
        1 + self.quorums().map(Vec::len).sum::<usize>()
    }

    /// The timestamp of the prepared proof; a missing one means 0.0.
    pub fn prepared_timestamp(&self) -> Timestamp {
        self.prepared
            .as_ref()
            .map_or(Timestamp::START, |proof| proof.timestamp)
    }

    /// The register that it is for, of a message that has passed 5.
    pub fn register(&self) -> u8 {
        self.register.expect("a field of every kind")
    }

    fn has_bits_of_kind(&self) -> bool {
        let (required, optional) = bits_of_kind(self.kind);
        self.bits() & !optional == required
    }

    /// Test 14, for a message that has passed 5.
    pub fn check_card(&self) -> Result<(), Refusal> {
        let Some(card) = &self.card else {
            return Ok(());
        };
        let fits_proof = match &self.prepared {
            Some(proof) => sha256(card) == proof.digest,
            None => *card == STARTING_CARD,
        };
        refuse_if(14, !keeps_table(card) || !fits_proof)
    }
}

fn is_quorum(entries: &[Entry], f: u8) -> bool {
    let rising = entries
        .windows(2)
        .all(|pair| pair[0].replica < pair[1].replica);
    let in_range = entries
        .iter()
        .all(|entry| (1..=replicas(f)).contains(&entry.replica));
    entries.len() == quorum(f) && rising && in_range
}

/// Who is handed a message.
#[derive(Clone, Copy, PartialEq)]
pub enum Receiver {
    Replica,
    /// A client of either kind.
    Client,
}

impl Receiver {
    fn kinds(self) -> RangeInclusive<u8> {
        match self {
            Receiver::Replica => READ_TIMESTAMP..=READ,
            Receiver::Client => TIMESTAMP..=CARD,
        }
    }

    fn senders(self, f: u8) -> RangeInclusive<u8> {
        match self {
            Receiver::Replica => CLIENTS,
            Receiver::Client => 1..=replicas(f),
        }
    }

    /// Tests 2 to 5.
    pub fn read(self, bytes: &[u8]) -> Result<Message, Refusal> {
        let message = Message::decode(bytes)?;
        let fits = self.kinds().contains(&message.kind) && message.has_bits_of_kind();
        refuse_if(5, !fits)?;
        Ok(message)
    }

    /// Tests 2 to 11, with 19 and 20 behind 6 and 23 behind 8. At a client nobody is withdrawn.
    pub fn check(
        self,
        bytes: &[u8],
        verdicts: &[u8],
        f: u8,
        withdrawn: &BTreeSet<u8>,
    ) -> Result<Message, Refusal> {
        let message = self.read(bytes)?;
        refuse_if(6, !self.senders(f).contains(&message.sender))?;
        let views = self == Receiver::Replica && VIEWERS.contains(&message.sender);
        refuse_if(19, views && message.kind != READ)?;
        check_register(message.register())?;
        check_verdicts(verdicts, message.signatures())?;
        refuse_if(8, verdicts[0] == 0)?;
        refuse_if(23, withdrawn.contains(&message.sender))?;
        refuse_if(9, message.quorums().any(|entries| !is_quorum(entries, f)))?;
        refuse_if(10, verdicts[1..].contains(&0))?;
        refuse_if(
            11,
            message.timestamps().any(|timestamp| !timestamp.in_range()),
        )?;
        Ok(message)
    }
}
