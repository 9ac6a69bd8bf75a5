//! Cards, sound messages, and messages and written proofs with defects: what damage and faulty parties hand over.
use crate::model::card::{FIELDS, STARTING_CARD};
use crate::model::message::*;
use crate::model::random::Random;
use crate::model::sha256::sha256;

/// A script takes messages up to this length.
const LONGEST_SCRIPTED: usize = 4000;
/// Proofs are forged with up to so many entries: more than fit into the longest message.
const MOST_ENTRIES: usize = 24;

/// What a party is handed.
pub struct Delivery {
    pub message: Vec<u8>,
    pub verdicts: Vec<u8>,
}

/// A written proof that a client is handed for a register.
pub struct Handing {
    pub register: u8,
    pub proof: Vec<u8>,
    pub verdicts: Vec<u8>,
}

/// The length of an output that a call is lent: around the shortest that is taken, or much too short.
pub fn room(random: &mut Random) -> usize {
    let near = 1560 + random.below(41);
    let any = random.below(1601);
    let tiny = random.below(4);
    random.pick(&[1580, 1580, 1580, 1579, near, near, near, near, any, tiny])
}

/// Mostly 1 or 2, so that registers meet; the last one too.
pub fn good_register(random: &mut Random) -> u8 {
    let any = 1 + random.below(16) as u8;
    random.pick(&[1, 1, 1, 1, 2, 2, 2, 2, 16, any])
}

/// None of the registers: mostly a number beside them.
pub fn bad_register(random: &mut Random) -> u8 {
    let above = 17 + random.below(239) as u8;
    random.pick(&[0, 0, 17, 17, 255, above])
}

/// A card with these bits: all values in their ranges, except that the field of bit `wrong.0` has the value `wrong.1`.
fn card_of(random: &mut Random, map: u16, wrong: Option<(usize, u32)>) -> Vec<u8> {
    let mut card = map.to_be_bytes().to_vec();
    for (bit, (length, smallest, largest)) in FIELDS.into_iter().enumerate() {
        if map >> bit & 1 == 0 {
            continue;
        }
        let between = smallest + random.below((largest - smallest) as usize + 1) as u32;
        let good = random.pick(&[smallest, largest, between, between]);
        let value = wrong
            .filter(|wrong| wrong.0 == bit)
            .map_or(good, |wrong| wrong.1);
        card.extend(&value.to_be_bytes()[4 - length..]);
    }
    card
}

/// Any bits but 0 and 1, which go together.
fn good_map(random: &mut Random) -> u16 {
    u16::from(random.byte() & 0x7c) | random.pick(&[0b00, 0b11])
}

pub fn good_card(random: &mut Random) -> Vec<u8> {
    let map = good_map(random);
    card_of(random, map, None)
}

/// Most of these break the table, by one value, by their bits or by their length.
pub fn bad_card(random: &mut Random) -> Vec<u8> {
    let map = good_map(random);
    let mut card = card_of(random, map, None);
    match random.below(8) {
        0..=3 => {
            let bit = random.below(6);
            let with_bit = if bit < 2 { 0b11 } else { 1 << bit };
            let (_, smallest, largest) = FIELDS[bit];
            let outside = random.pick(&[smallest.wrapping_sub(1), largest + 1]);
            card = card_of(random, map | with_bit, Some((bit, outside)));
        }
        4 => {
            let single = random.pick(&[0b01, 0b10]);
            card = card_of(random, map & !0b11 | single, None);
        }
        5 => {
            let unused = 1 << random.pick(&[7, 8, 9, 12, 15]);
            card = card_of(random, map | unused, None);
        }
        6 => card.truncate(random.below(card.len())),
        _ => {
            let more = random.pick(&[1, 1, 2, 16, 41]);
            card.extend(random.some_bytes(more));
        }
    }
    card
}

/// So many of these, in the order in which they stand.
pub fn some_of<T>(random: &mut Random, mut all: Vec<T>, number: usize) -> Vec<T> {
    while all.len() > number {
        all.remove(random.below(all.len()));
    }
    all
}

/// Entries of these replicas, with signatures of the forger's making.
pub fn entries_of(random: &mut Random, ids: impl IntoIterator<Item = u8>) -> Vec<Entry> {
    ids.into_iter()
        .map(|replica| Entry {
            replica,
            signature: random.bytes(),
        })
        .collect()
}

/// So many replicas, in rising order.
pub fn some_replicas(random: &mut Random, number: usize, f: u8) -> Vec<u8> {
    some_of(random, (1..=replicas(f)).collect(), number)
}

/// Their entries.
pub fn entries(random: &mut Random, number: usize, f: u8) -> Vec<Entry> {
    let ids = some_replicas(random, number, f);
    entries_of(random, ids)
}

pub fn prepared_proof(
    random: &mut Random,
    timestamp: Timestamp,
    digest: Digest,
    f: u8,
) -> PreparedProof {
    PreparedProof {
        timestamp,
        digest,
        entries: entries(random, quorum(f), f),
    }
}

pub fn written_proof(random: &mut Random, timestamp: Timestamp, f: u8) -> WrittenProof {
    WrittenProof {
        timestamp,
        entries: entries(random, quorum(f), f),
    }
}

/// The message with just the fields that its kind has.
pub fn trimmed(full: Message) -> Message {
    let of = |kinds: &[u8]| kinds.contains(&full.kind);
    Message {
        nonce: full
            .nonce
            .filter(|_| of(&[READ_TIMESTAMP, READ, TIMESTAMP, CARD])),
        timestamp: full.timestamp.filter(|_| of(&[PREPARE, PREPARED, WRITTEN])),
        digest: full.digest.filter(|_| of(&[PREPARE, PREPARED])),
        card: full.card.filter(|_| of(&[WRITE, CARD])),
        prepared: full
            .prepared
            .filter(|_| of(&[PREPARE, WRITE, TIMESTAMP, CARD])),
        written: full.written.filter(|_| of(&[PREPARE])),
        addressed: full.addressed.filter(|_| of(&[TIMESTAMP, CARD])),
        ..full
    }
}

/// Some writer's, early or late.
fn some_timestamp(random: &mut Random) -> Timestamp {
    Timestamp {
        count: random.pick(&[1, 2, 255, u32::MAX - 1]),
        client: random.pick(&[1, 2, 63, 64]),
    }
}

/// A message that breaks none of 2 to 14, but for its sender's number and its register.
pub fn sound(random: &mut Random, kind: u8, sender: u8, register: u8, f: u8) -> Message {
    let shows = kind == WRITE || random.percent(60);
    let card = if shows {
        good_card(random)
    } else {
        STARTING_CARD.to_vec()
    };
    let shown = some_timestamp(random);
    let written = some_timestamp(random);
    let proof = prepared_proof(random, shown, sha256(&card), f);
    let client = if kind == PREPARE {
        sender
    } else {
        shown.client
    };
    let count = if shows { shown.count + 1 } else { 1 };
    trimmed(Message {
        nonce: Some(random.number()),
        timestamp: Some(Timestamp { count, client }),
        digest: Some(random.bytes()),
        card: Some(card),
        prepared: Some(proof).filter(|_| shows),
        written: Some(written_proof(random, written, f)).filter(|_| random.percent(50)),
        addressed: Some(random.pick(&[1, 64, 65, 96])),
        signature: random.bytes(),
        ..Message::new(kind, sender, register)
    })
}

/// Puts a defect into a field, or answers false where the message has nothing of that sort.
type Spoiler = fn(&mut Random, &mut Message, u8) -> bool;

/// Those that need a proof or a card stand more than once, as many messages have none.
const SPOILERS: [Spoiler; 21] = [
    spoil_kind,
    drop_field,
    add_field,
    spoil_sender,
    change_sender,
    spoil_entries,
    spoil_entries,
    lengthen_proofs,
    lengthen_proofs,
    lengthen_proofs,
    spoil_timestamp,
    spoil_timestamp,
    change_timestamp,
    raise_to_last_count,
    spoil_card,
    spoil_card,
    change_digest,
    change_nonce,
    change_addressed,
    spoil_register,
    change_register,
];

/// Of a written proof by itself.
const PROOF_SPOILERS: [Spoiler; 7] = [
    spoil_entries,
    lengthen_proofs,
    spoil_timestamp,
    spoil_timestamp,
    spoil_register,
    spoil_register,
    change_register,
];

fn spoil_kind(random: &mut Random, message: &mut Message, _: u8) -> bool {
    message.kind = random.pick(&[0, 1, 2, 3, 4, 5, 6, 7, 8, 9, 255]);
    true
}

fn drop_field(random: &mut Random, message: &mut Message, _: u8) -> bool {
    match random.below(8) {
        0 => message.nonce.take().is_some(),
        1 => message.timestamp.take().is_some(),
        2 => message.digest.take().is_some(),
        3 => message.card.take().is_some(),
        4 => message.prepared.take().is_some(),
        5 => message.written.take().is_some(),
        6 => message.addressed.take().is_some(),
        _ => message.register.take().is_some(),
    }
}

fn add_field(random: &mut Random, message: &mut Message, f: u8) -> bool {
    let timestamp = Timestamp {
        count: 1,
        client: message.sender,
    };
    match random.below(8) {
        0 => message.nonce = Some(1),
        1 => message.timestamp = Some(timestamp),
        2 => message.digest = Some(random.bytes()),
        3 => message.card = Some(good_card(random)),
        4 => {
            let digest = message
                .card
                .as_ref()
                .map_or(random.bytes(), |card| sha256(card));
            message.prepared = Some(prepared_proof(random, timestamp, digest, f));
        }
        5 => message.written = Some(written_proof(random, timestamp, f)),
        6 => message.addressed = Some(1),
        _ => message.register = Some(1),
    }
    true
}

fn spoil_sender(random: &mut Random, message: &mut Message, f: u8) -> bool {
    message.sender = random.pick(&[0, 97, replicas(f) + 1, 255]);
    true
}

fn change_sender(random: &mut Random, message: &mut Message, f: u8) -> bool {
    message.sender = random.pick(&[1, 2, replicas(f), 64, 65, 96]);
    true
}

/// The entries of each proof that is there.
fn quorums(message: &mut Message) -> Vec<&mut Vec<Entry>> {
    let prepared = message.prepared.iter_mut().map(|proof| &mut proof.entries);
    prepared
        .chain(message.written.iter_mut().map(|proof| &mut proof.entries))
        .collect()
}

fn spoil_entries(random: &mut Random, message: &mut Message, f: u8) -> bool {
    let mut quorums = quorums(message);
    if quorums.is_empty() {
        return false;
    }
    let at = random.below(quorums.len());
    let entries = &mut quorums[at];
    if entries.len() < 2 {
        return false;
    }
    let at = random.below(entries.len() - 1);
    let last = entries.len() - 1;
    match random.below(8) {
        0 => drop(entries.remove(at)),
        1 => **entries = self::entries(random, quorum(f) + 1, f),
        2 => entries.swap(at, at + 1),
        3 => entries[at].replica = entries[at + 1].replica,
        4 => entries[0].replica = 0,
        5 => entries[last].replica = replicas(f) + 1,
        6 => entries[last].replica = random.pick(&[17, 255]),
        _ => entries.clear(),
    }
    true
}

/// Proofs of any number of entries, most often about as many as the longest message has room for.
fn lengthen_proofs(random: &mut Random, message: &mut Message, _: u8) -> bool {
    let any = random.below(MOST_ENTRIES + 1);
    let mut left = random.pick(&[any, 20, 21, 22, 22, 23, 23, 24]);
    let mut quorums = quorums(message);
    if quorums.is_empty() {
        return false;
    }
    if random.percent(30) {
        quorums.swap_remove(random.below(quorums.len()));
    }
    while let Some(entries) = quorums.pop() {
        let part = random.below(left + 1);
        let number = if quorums.is_empty() {
            left
        } else {
            random.pick(&[11, 11, part]).min(left)
        };
        left -= number;
        *entries = rising(random, number as u8);
    }
    true
}

/// Entries of replicas 1 to `number`, whether or not there are so many.
pub fn rising(random: &mut Random, number: u8) -> Vec<Entry> {
    entries_of(random, 1..=number)
}

fn spoil_timestamp(random: &mut Random, message: &mut Message, _: u8) -> bool {
    let prepared = message
        .prepared
        .iter_mut()
        .map(|proof| &mut proof.timestamp);
    let written = message.written.iter_mut().map(|proof| &mut proof.timestamp);
    let mut all: Vec<_> = message
        .timestamp
        .iter_mut()
        .chain(prepared)
        .chain(written)
        .collect();
    if all.is_empty() {
        return false;
    }
    let at = random.below(all.len());
    match random.below(6) {
        0 => *all[at] = Timestamp::START,
        1 => all[at].count = 0,
        2 => all[at].client = 0,
        3 => all[at].client = 65,
        4 => all[at].client = 96,
        _ => all[at].client = 255,
    }
    true
}

fn change_timestamp(random: &mut Random, message: &mut Message, _: u8) -> bool {
    let Some(timestamp) = &mut message.timestamp else {
        return false;
    };
    match random.below(4) {
        0 => timestamp.count = timestamp.count.saturating_add(1),
        1 => timestamp.count = timestamp.count.saturating_sub(1),
        2 => timestamp.count ^= 1 << random.below(32),
        _ => timestamp.client = random.pick(&[1, 2, 63, 64]),
    }
    true
}

fn raise_to_last_count(_: &mut Random, message: &mut Message, _: u8) -> bool {
    let Some(proof) = &mut message.prepared else {
        return false;
    };
    proof.timestamp.count = u32::MAX;
    true
}

/// A bad card with its own digest breaks the table alone, a good one without it the digest alone.
fn spoil_card(random: &mut Random, message: &mut Message, _: u8) -> bool {
    if message.card.is_none() {
        return false;
    }
    let bad = random.percent(70);
    let card = if bad {
        bad_card(random)
    } else {
        good_card(random)
    };
    if let (true, Some(proof)) = (bad && random.percent(80), &mut message.prepared) {
        proof.digest = sha256(&card);
    }
    message.card = Some(card);
    true
}

fn change_digest(random: &mut Random, message: &mut Message, _: u8) -> bool {
    let flipped =
        |random: &mut Random, digest: &mut Digest| digest[random.below(32)] ^= 1 << random.below(8);
    match (&mut message.digest, &mut message.prepared) {
        (Some(digest), _) => flipped(random, digest),
        (None, Some(proof)) => flipped(random, &mut proof.digest),
        (None, None) => return false,
    }
    true
}

fn change_nonce(random: &mut Random, message: &mut Message, _: u8) -> bool {
    let Some(nonce) = message.nonce else {
        return false;
    };
    let flipped = nonce ^ 1 << random.below(64);
    message.nonce = Some(random.pick(&[
        nonce.wrapping_add(1),
        nonce.wrapping_sub(1),
        flipped,
        0,
        u64::MAX,
    ]));
    true
}

fn change_addressed(random: &mut Random, message: &mut Message, _: u8) -> bool {
    if message.addressed.is_none() {
        return false;
    }
    message.addressed = Some(random.pick(&[0, 1, 2, 64, 65, 66, 96, 97, 255]));
    true
}

fn spoil_register(random: &mut Random, message: &mut Message, _: u8) -> bool {
    message.register = Some(bad_register(random));
    true
}

fn change_register(random: &mut Random, message: &mut Message, _: u8) -> bool {
    message.register = Some(good_register(random));
    true
}

fn spoil_verdicts(random: &mut Random, verdicts: &mut Vec<u8>) {
    let at = random.below(verdicts.len() + 1);
    match (random.below(10), verdicts.get_mut(at)) {
        (0, _) => verdicts.push(1),
        (1, _) => drop(verdicts.pop()),
        (2, _) => verdicts.clear(),
        (3, _) => verdicts.resize(verdicts.len() + random.pick(&[2, 65, 300]), 1),
        (4, Some(verdict)) => *verdict = random.pick(&[2, 3, 128, 255]),
        (5, _) => verdicts.iter_mut().take(1).for_each(|own| *own = 0),
        (_, Some(verdict)) => *verdict = 0,
        (_, None) => verdicts.push(0),
    }
    verdicts.truncate(400);
}

fn spoil_bytes(random: &mut Random, bytes: &mut Vec<u8>) {
    let at = random.below(bytes.len() + 1);
    match (random.below(9), bytes.get_mut(at)) {
        (0 | 1, Some(byte)) => *byte ^= 1 << random.below(8),
        (2, _) => bytes.truncate(at),
        (3, _) => drop(bytes.pop()),
        (4, _) => bytes.push(random.byte()),
        (5, _) => bytes.insert(at, random.byte()),
        (6, _) => bytes
            .iter_mut()
            .take(2)
            .for_each(|byte| *byte ^= 1 << random.below(8)),
        (7, _) => bytes
            .iter_mut()
            .take(1)
            .for_each(|byte| *byte ^= 4 << random.below(6)),
        _ => bytes.resize(random.pick(&[0, 1, 2, 68, 69, 1580, 1581]), 0),
    }
    bytes.truncate(LONGEST_SCRIPTED);
}

pub fn whole(message: &Message) -> Delivery {
    Delivery {
        message: message.encode(),
        verdicts: vec![1; message.signatures()],
    }
}

/// A message's written proof by itself, which comes without the message's own verdict.
fn written_alone(message: &Message) -> Delivery {
    let proof = message.written.as_ref().expect("a written proof");
    Delivery {
        message: proof.encode(),
        verdicts: vec![1; proof.entries.len()],
    }
}

/// What is handed over of the message, with one to three defects, so that the order of the tests shows.
fn with_defects(
    random: &mut Random,
    message: &mut Message,
    f: u8,
    spoilers: &[Spoiler],
    handed: fn(&Message) -> Delivery,
) -> Delivery {
    let mut of_sort = [0; 3];
    for _ in 0..1 + random.weighted(&[60, 30, 10]) {
        of_sort[random.weighted(&[66, 21, 13])] += 1;
    }
    let [fields, verdicts, bytes] = of_sort;
    for _ in 0..fields {
        while !random.pick(spoilers)(random, message, f) {}
    }
    let mut delivery = handed(message);
    for _ in 0..verdicts {
        spoil_verdicts(random, &mut delivery.verdicts);
    }
    for _ in 0..bytes {
        spoil_bytes(random, &mut delivery.message);
    }
    delivery.message.truncate(LONGEST_SCRIPTED);
    delivery
}

/// The message with defects.
pub fn spoiled(random: &mut Random, mut message: Message, f: u8) -> Delivery {
    with_defects(random, &mut message, f, &SPOILERS, whole)
}

/// The written proof with defects, of which another register may be one.
pub fn spoiled_handing(random: &mut Random, register: u8, proof: WrittenProof, f: u8) -> Handing {
    let mut shown = Message {
        written: Some(proof),
        ..Message::new(PREPARE, 1, register)
    };
    let delivery = with_defects(random, &mut shown, f, &PROOF_SPOILERS, written_alone);
    Handing {
        register: shown.register(),
        proof: delivery.message,
        verdicts: delivery.verdicts,
    }
}

/// Bytes that were never a message, some with a bit map that passes test 3.
pub fn garbage(random: &mut Random) -> Delivery {
    let any = random.below(200);
    let length = random.pick(&[
        0, 1, 2, 3, 67, 68, 69, 70, any, any, any, 1579, 1580, 1581, 2000,
    ]);
    let mut message = random.some_bytes(length);
    if length >= 2 && random.percent(60) {
        message[0] &= 3;
        message[1] |= 3;
    }
    let verdicts = random.pick(&[vec![], vec![1], vec![0], vec![1, 1]]);
    Delivery { message, verdicts }
}
