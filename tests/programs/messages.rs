//! Messages for the program `messages`: two at a time for the later card, and the first by itself for its fields and signatures.
use crate::cards::{damaged_card, good_card};
use crate::forge::trimmed;
use crate::model::message::*;
use crate::model::random::Random;
use crate::program::{hex, Failure, Line, Program, HUGE_BUFFER};
use crate::tally::Tally;

const PAIRS: usize = 10_000;

pub const FLOORS: [(&str, usize); 23] = [
    ("first later", 1_000),
    ("second later", 1_000),
    ("tie", 500),
    ("first without a card", 300),
    ("second without a card", 300),
    ("empty card chosen", 50),
    ("refused 2", 50),
    ("refused 3", 50),
    ("refused 4", 300),
    ("refused 5", 1_000),
    ("read READ-STAMP", 50),
    ("read PREPARE", 50),
    ("read WRITE", 1_000),
    ("read READ", 50),
    ("read STAMP", 50),
    ("read PREPARED", 50),
    ("read WRITTEN", 50),
    ("read CARD", 1_000),
    ("signatures of both proofs", 50),
    ("entries shown for register 1", 500),
    ("entries shown for another", 500),
    ("longest message read", 10),
    ("one byte longer", 20),
];

/// Few timestamps, so that many are equal, and numbers at which another byte decides.
pub fn timestamp(random: &mut Random) -> Timestamp {
    let any = random.number() as u32;
    Timestamp {
        count: random.pick(&[0, 1, 1, 2, 255, 256, 65_535, 65_536, u32::MAX, any]),
        client: random.pick(&[0, 1, 2, 2, 64, 255]),
    }
}

fn entries(random: &mut Random, number: usize) -> Vec<Entry> {
    let entry = |_| Entry {
        replica: random.byte(),
        signature: random.bytes(),
    };
    (0..number).map(entry).collect()
}

fn entry_number(random: &mut Random) -> usize {
    random.pick(&[0, 1, 3, 3, 3, 5, 11])
}

fn card(random: &mut Random) -> Vec<u8> {
    match random.below(4) {
        0 => damaged_card(random).1,
        1 => {
            let length = random.pick(&[0, 1, 2, 17, 18, 40]);
            random.some_bytes(length)
        }
        _ => good_card(random),
    }
}

fn prepared(random: &mut Random) -> PreparedProof {
    let number = entry_number(random);
    PreparedProof {
        timestamp: timestamp(random),
        digest: random.bytes(),
        entries: entries(random, number),
    }
}

fn written(random: &mut Random) -> WrittenProof {
    let number = entry_number(random);
    WrittenProof {
        timestamp: timestamp(random),
        entries: entries(random, number),
    }
}

/// Any: the reader does not ask whether there is such a register.
fn register(random: &mut Random) -> u8 {
    let any = random.byte();
    random.pick(&[1, 2, 16, 0, 17, any])
}

/// A message with just the bits of a kind that carries a card, or sometimes of another.
fn of_kind(random: &mut Random) -> Message {
    let kind = if random.percent(80) {
        random.pick(&[WRITE, CARD])
    } else {
        random.pick(&[READ_TIMESTAMP, PREPARE, READ, TIMESTAMP, PREPARED, WRITTEN])
    };
    let shows_proof = kind == WRITE || random.percent(75);
    trimmed(Message {
        nonce: Some(random.number()),
        timestamp: Some(timestamp(random)),
        digest: Some(random.bytes()),
        card: Some(card(random)),
        prepared: Some(prepared(random)).filter(|_| shows_proof),
        written: Some(written(random)).filter(|_| random.percent(50)),
        addressed: Some(random.byte()),
        signature: random.bytes(),
        ..Message::new(kind, random.byte(), register(random))
    })
}

/// Puts a field into a message or takes it out, so that the bits may be no kind's.
fn change_field(random: &mut Random, message: &mut Message) {
    fn toggle<T>(field: &mut Option<T>, new: T) {
        *field = match field {
            Some(_) => None,
            None => Some(new),
        };
    }
    match random.below(9) {
        0 => message.kind = random.byte(),
        1 => toggle(&mut message.nonce, random.number()),
        2 => toggle(&mut message.timestamp, timestamp(random)),
        3 => toggle(&mut message.digest, random.bytes()),
        4 => toggle(&mut message.card, card(random)),
        5 => toggle(&mut message.prepared, prepared(random)),
        6 => toggle(&mut message.written, written(random)),
        7 => toggle(&mut message.addressed, random.byte()),
        _ => toggle(&mut message.register, register(random)),
    }
}

/// A PREPARE of the longest length; it may lie about its number of entries.
fn longest(random: &mut Random) -> Vec<u8> {
    let message = Message {
        timestamp: Some(timestamp(random)),
        digest: Some(random.bytes()),
        prepared: Some(PreparedProof {
            entries: entries(random, 11),
            ..prepared(random)
        }),
        written: Some(WrittenProof {
            entries: entries(random, 11),
            ..written(random)
        }),
        signature: random.bytes(),
        ..Message::new(PREPARE, random.byte(), register(random))
    };
    message.encode()
}

fn damage(random: &mut Random, bytes: &mut Vec<u8>) {
    match random.below(6) {
        0 => {
            let bit = random.below(16);
            bytes[1 - bit / 8] ^= 1 << (bit % 8);
        }
        1 => bytes.truncate(random.below(bytes.len())),
        2 => {
            let more = random.pick(&[1, 1, 2, 64, 2_000]);
            bytes.extend(random.some_bytes(more));
        }
        3 => bytes.truncate(random.below(4)),
        _ => {
            let at = random.below(bytes.len().min(80));
            bytes[at] = random.byte();
        }
    }
}

fn message(random: &mut Random, tally: &mut Tally) -> Vec<u8> {
    if random.percent(1) {
        let mut bytes = longest(random);
        if random.percent(50) {
            bytes.push(random.byte());
            tally.count("one byte longer");
        }
        return bytes;
    }
    let mut message = of_kind(random);
    if random.percent(15) {
        change_field(random, &mut message);
    }
    let mut bytes = message.encode();
    if random.percent(15) {
        damage(random, &mut bytes);
    }
    bytes
}

/// Gives the second message the first one's timestamp, or one beside it, if both carry a proof.
fn tie(random: &mut Random, first: &[u8], second: &mut Vec<u8>) {
    let (Ok(first), Ok(mut tied)) = (Message::decode(first), Message::decode(second)) else {
        return;
    };
    let (Some(first), Some(proof)) = (first.prepared, tied.prepared.as_mut()) else {
        return;
    };
    proof.timestamp = first.timestamp;
    match random.below(4) {
        0 => proof.timestamp.count ^= 1,
        1 => proof.timestamp.client ^= 1,
        _ => {}
    }
    *second = tied.encode();
}

/// The card of a message that passes 2 to 4, with its proof's timestamp.
fn card_part(bytes: &[u8]) -> Option<(Timestamp, Vec<u8>)> {
    let message = Message::decode(bytes).ok()?;
    Some((message.prepared_timestamp(), message.card?))
}

/// The card of the message whose proof is later, the first on a tie; none where one of them lacks a card.
fn later_card(first: &[u8], second: &[u8], tally: &mut Tally) -> Vec<u8> {
    let Some((first, card)) = card_part(first) else {
        tally.count("first without a card");
        return Vec::new();
    };
    let Some((second, other)) = card_part(second) else {
        tally.count("second without a card");
        return Vec::new();
    };
    tally.count(match first.cmp(&second) {
        std::cmp::Ordering::Less => "second later",
        std::cmp::Ordering::Equal => "tie",
        std::cmp::Ordering::Greater => "first later",
    });
    let chosen = if second > first { other } else { card };
    if chosen.is_empty() {
        tally.count("empty card chosen");
    }
    chosen
}

fn stamp(timestamp: Timestamp) -> String {
    format!("{}.{}", timestamp.count, timestamp.client)
}

fn proof(timestamp: Timestamp, entries: &[Entry]) -> String {
    format!("{} entries {}", stamp(timestamp), entries.len())
}

/// The fields of a message that passes 2 to 5.
fn fields(message: &Message) -> String {
    let named = |name: &str, value: Option<String>| {
        value.map_or(String::new(), |value| format!(" {name} {value}"))
    };
    let prepared = message.prepared.as_ref();
    let written = message.written.as_ref();
    [
        KIND_NAMES[usize::from(message.kind) - 1].to_string(),
        format!(" sender {}", message.sender),
        named("nonce", message.nonce.map(|nonce| nonce.to_string())),
        named("timestamp", message.timestamp.map(stamp)),
        named("digest", message.digest.map(|digest| hex(&digest))),
        named("card", message.card.as_deref().map(hex)),
        named(
            "prepared",
            prepared.map(|prepared| proof(prepared.timestamp, &prepared.entries)),
        ),
        named(
            "written",
            written.map(|written| proof(written.timestamp, &written.entries)),
        ),
        named("addressed", message.addressed.map(|id| id.to_string())),
        named("register", message.register.map(|id| id.to_string())),
    ]
    .concat()
}

fn reading(bytes: &[u8], receiver: Receiver, tally: &mut Tally) -> String {
    match receiver.read(bytes) {
        Ok(message) => {
            tally.count(format!(
                "read {}",
                KIND_NAMES[usize::from(message.kind) - 1]
            ));
            if bytes.len() == LONGEST_MESSAGE {
                tally.count("longest message read");
            }
            fields(&message)
        }
        Err(refusal) => {
            tally.count(format!("refused {refusal}"));
            format!("refused {refusal}")
        }
    }
}

/// A signature: whose it is, and what it covers, all bytes of its message that stand before it.
fn signature(party: &str, message: &Message) -> String {
    let bytes = message.encode();
    let covered = hex(&bytes[..bytes.len() - 64]);
    format!(" {party} {} over {covered}", message.sender)
}

/// The signatures of the entries: each is that of its replica's PREPARED or WRITTEN for the register of this message.
pub fn entry_signatures(message: &Message) -> Vec<String> {
    let register = message.register();
    let prepared = message.prepared.iter().flat_map(|proof| {
        proof.entries.iter().map(|entry| Message {
            timestamp: Some(proof.timestamp),
            digest: Some(proof.digest),
            ..Message::new(PREPARED, entry.replica, register)
        })
    });
    let written = message.written.iter().flat_map(|proof| {
        proof.entries.iter().map(|entry| Message {
            timestamp: Some(proof.timestamp),
            ..Message::new(WRITTEN, entry.replica, register)
        })
    });
    let signed = prepared.chain(written);
    signed.map(|reply| signature("replica", &reply)).collect()
}

/// The signatures of a message that passes 2 to 5, and that there is no further one.
fn signatures(bytes: &[u8], receiver: Receiver, tally: &mut Tally) -> String {
    let message = match receiver.read(bytes) {
        Ok(message) => message,
        Err(refusal) => return format!("signatures 0 refused {refusal}"),
    };
    if message.prepared.is_some() && message.written.is_some() {
        tally.count("signatures of both proofs");
    }
    let sender = match receiver {
        Receiver::Replica => "client",
        Receiver::Client => "replica",
    };
    let own = signature(sender, &message);
    let others = entry_signatures(&message);
    match (others.is_empty(), message.register()) {
        (true, _) => {}
        (false, 1) => tally.count("entries shown for register 1"),
        (false, _) => tally.count("entries shown for another"),
    }
    format!(
        "signatures {}{own}{} nothing",
        1 + others.len(),
        others.concat()
    )
}

/// The party that takes the kind, most of the time.
pub fn receiver(random: &mut Random, kind: Option<u8>) -> Receiver {
    let takes = kind.is_some_and(|kind| kind <= READ);
    if takes != random.percent(10) {
        Receiver::Replica
    } else {
        Receiver::Client
    }
}

pub fn letter(receiver: Receiver) -> char {
    match receiver {
        Receiver::Replica => 'h',
        Receiver::Client => 'd',
    }
}

/// What a party reads, and the signatures.
fn reading_lines(random: &mut Random, bytes: &[u8], tally: &mut Tally) -> [Line; 2] {
    let receiver = receiver(random, bytes.get(2).copied());
    let letter = letter(receiver);
    let read = Line {
        text: format!("{letter} {}", hex(bytes)).into_bytes(),
        expected: reading(bytes, receiver, tally),
    };
    let signed = Line {
        text: format!("s {letter} {}", hex(bytes)).into_bytes(),
        expected: signatures(bytes, receiver, tally),
    };
    [read, signed]
}

/// A pair's line, and two for its first message.
fn lines(random: &mut Random, tally: &mut Tally) -> [Line; 3] {
    let first = message(random, tally);
    let mut second = message(random, tally);
    if random.percent(50) {
        tie(random, &first, &mut second);
    }
    let card = later_card(&first, &second, tally);
    let pair = Line {
        text: format!("l {} {}", hex(&first), hex(&second)).into_bytes(),
        expected: format!("later card {}", hex(&card)),
    };
    let [read, signed] = reading_lines(random, &first, tally);
    [pair, read, signed]
}

pub fn compare(program: &Program, random: &mut Random, tally: &mut Tally) -> Result<(), Failure> {
    let lines: Vec<Line> = (0..PAIRS).flat_map(|_| lines(random, tally)).collect();
    program.must_answer(&lines, HUGE_BUFFER)?;
    program.must_say_rest(HUGE_BUFFER)
}
