//! What is wrong with a log, or only different: other bytes, other answers, other entries, another head.
use crate::forge::{good_register, sound, whole, Delivery};
use crate::model::log::{Call, Entry, Given, Log, HEAD_LENGTH, LONGEST_LOGGED, SIGNATURE_LENGTH};
use crate::model::message::{replicas, READ, READ_TIMESTAMP};
use crate::model::random::Random;
use crate::model::replica::Replica;
use crate::{SEAM, WINDOW};
use std::ops::Range;
use Change::{Answer, Other, Part};

/// A key opens with two codes of four bytes.
const CODES: usize = 8;

#[derive(Clone, Copy)]
pub enum Change {
    /// A bit or a byte of a part with the change's name.
    Part,
    /// Of an entry of that sort the answer.
    Answer(fn(&Entry) -> bool, fn(&mut Random, &Given) -> Given),
    /// None where the log has nothing of that sort.
    Other(fn(&mut Random, &Log) -> Option<Vec<u8>>),
}

pub const CHANGES: [(&str, Change); 32] = [
    ("opening byte", Part),
    ("length", Part),
    ("message", Part),
    ("verdicts", Part),
    ("order", Part),
    ("reply's byte", Part),
    ("reply", Part),
    ("signature", Part),
    ("refusal", Part),
    ("register of a reply", Answer(answered, other_register)),
    ("length of a reply", Answer(answered, other_length)),
    ("no reply", Answer(answered, nothing)),
    ("refusal for a reply", Answer(answered, some_refusal)),
    ("reply for a refusal", Answer(refused, some_reply)),
    ("no reply for a refusal", Answer(refused, nothing)),
    ("taken order answered", Answer(taken, some_reply)),
    ("taken order refused", Answer(taken, some_refusal)),
    ("refused order answered", Answer(not_taken, some_reply)),
    ("refused order taken", Answer(not_taken, nothing)),
    ("order refused otherwise", Answer(not_taken, some_refusal)),
    ("refusal 1", Answer(any, |_, _| Given::Refusal(1))),
    ("swapped", Other(swapped)),
    ("inserted", Other(inserted)),
    ("dropped", Other(dropped)),
    ("repeated", Other(repeated)),
    ("cut", Other(cut)),
    ("cut between parts", Other(cut_between_parts)),
    ("cut head", Other(cut_head)),
    ("f", Other(other_f)),
    ("number", Other(other_number)),
    ("key", Other(other_key)),
    ("codes of the key", Other(other_codes)),
];

/// The bytes of the changed log; none where the log has nothing of that sort.
pub fn changed(random: &mut Random, log: &Log, (name, change): (&str, Change)) -> Option<Vec<u8>> {
    match change {
        Part => in_part(random, log, name),
        Answer(sort, answer) => {
            let at = some_entry(random, log, sort)?;
            let mut log = log.clone();
            log.entries[at].given = answer(random, &log.entries[at].given);
            Some(log.encode())
        }
        Other(make) => make(random, log),
    }
}

fn is_refused(entry: &Entry) -> bool {
    matches!(entry.given, Given::Refusal(_))
}

/// A message, as the next; the two behind it are orders.
fn answered(entry: &Entry) -> bool {
    !entry.call.is_order() && !is_refused(entry)
}

fn refused(entry: &Entry) -> bool {
    !entry.call.is_order() && is_refused(entry)
}

fn taken(entry: &Entry) -> bool {
    entry.call.is_order() && !is_refused(entry)
}

fn not_taken(entry: &Entry) -> bool {
    entry.call.is_order() && is_refused(entry)
}

/// An entry of that sort. In a log beyond the window most often one of those next to the seam.
fn some_entry(random: &mut Random, log: &Log, sort: impl Fn(&Entry) -> bool) -> Option<usize> {
    let all = 0..log.entries.len();
    let fitting: Vec<usize> = all.filter(|&at| sort(&log.entries[at])).collect();
    let last = fitting.len().checked_sub(1)?;
    let places = log.places();
    if places[log.entries.len()] <= SEAM || random.percent(40) {
        return Some(random.pick(&fitting));
    }
    let behind = fitting.partition_point(|&at| places[at + 1] <= SEAM);
    let at = behind.saturating_sub(random.below(2));
    Some(fitting[at.min(last)])
}

/// The parts of an entry, and where they stand.
fn parts(log: &Log, at: usize) -> Vec<(&'static str, Range<usize>)> {
    let mut end = log.places()[at];
    let place = |(name, bytes): (&'static str, Vec<u8>)| {
        let start = end;
        end += bytes.len();
        (name, start..end)
    };
    log.entries[at].parts().into_iter().map(place).collect()
}

fn in_part(random: &mut Random, log: &Log, name: &str) -> Option<Vec<u8>> {
    let fits = |(part, bytes): &(&str, Vec<u8>)| *part == name && !bytes.is_empty();
    let at = some_entry(random, log, |entry| entry.parts().iter().any(fits))?;
    let mut parts = parts(log, at);
    parts.retain(|(part, range)| *part == name && !range.is_empty());
    let (_, range) = random.pick(&parts);
    let mut bytes = log.encode();
    spoil(random, &mut bytes[range]);
    Some(bytes)
}

/// Changes a bit, or a byte to any.
fn spoil(random: &mut Random, part: &mut [u8]) {
    let at = random.below(part.len());
    let flipped = part[at] ^ 1 << random.below(8);
    let any = random.byte();
    part[at] = random.pick(&[flipped, any]);
}

fn nothing(_: &mut Random, _: &Given) -> Given {
    Given::Reply(Vec::new())
}

fn some_refusal(random: &mut Random, _: &Given) -> Given {
    let known = 2 + random.below(22) as u8;
    let any = 1 + random.below(255) as u8;
    Given::Refusal(random.pick(&[known, known, known, any]))
}

fn some_reply(random: &mut Random, _: &Given) -> Given {
    let any = 1 + random.below(200);
    let lengths = [1, 3, 63, 64, 65, any, any, any, 1580, LONGEST_LOGGED];
    let length = random.pick(&lengths);
    Given::Reply(random.some_bytes(length))
}

/// The byte before the signature.
fn other_register(random: &mut Random, given: &Given) -> Given {
    let mut given = given.clone();
    if let Given::Reply(reply) = &mut given {
        let at = reply.len() - SIGNATURE_LENGTH - 1;
        spoil(random, &mut reply[at..=at]);
    }
    given
}

fn other_length(random: &mut Random, given: &Given) -> Given {
    let mut given = given.clone();
    if let Given::Reply(reply) = &mut given {
        match random.below(4) {
            0 => drop(reply.pop()),
            1 => reply.push(random.byte()),
            2 => reply.truncate(random.below(reply.len())),
            _ => reply.insert(random.below(reply.len()), random.byte()),
        }
    }
    given
}

fn any(_: &Entry) -> bool {
    true
}

fn swapped(random: &mut Random, log: &Log) -> Option<Vec<u8>> {
    let mut log = log.clone();
    let one = some_entry(random, &log, any)?;
    let number = log.entries.len();
    let far = random.below(number);
    let other = random.pick(&[(one + 1) % number, far]);
    log.entries.swap(one, other);
    Some(log.encode())
}

/// A sound request, with the answer of a replica that has received nothing yet.
fn inserted(random: &mut Random, log: &Log) -> Option<Vec<u8>> {
    let mut log = log.clone();
    let at = some_entry(random, &log, any)?;
    let kind = READ_TIMESTAMP + random.below(usize::from(READ)) as u8;
    let sender = random.pick(&[1, 2, 3, 64]);
    let register = good_register(random);
    let Delivery { message, verdicts } = whole(&sound(random, kind, sender, register, log.f));
    let call = Call::Message { message, verdicts };
    let given = call.make(&mut Replica::new(log.f, log.id, &log.key).ok()?);
    log.entries.insert(at, Entry { call, given });
    Some(log.encode())
}

fn dropped(random: &mut Random, log: &Log) -> Option<Vec<u8>> {
    let mut log = log.clone();
    log.entries.remove(some_entry(random, &log, any)?);
    Some(log.encode())
}

/// An entry once more, at once or anywhere.
fn repeated(random: &mut Random, log: &Log) -> Option<Vec<u8>> {
    let mut log = log.clone();
    let at = some_entry(random, &log, any)?;
    let far = random.below(log.entries.len() + 1);
    let again = log.entries[at].clone();
    log.entries.insert(random.pick(&[at + 1, far]), again);
    Some(log.encode())
}

/// Behind the head, or at its end; beyond the window half of the time close to its seam.
fn cut(random: &mut Random, log: &Log) -> Option<Vec<u8>> {
    let mut bytes = log.encode();
    let anywhere = HEAD_LENGTH + random.below(bytes.len() - HEAD_LENGTH + 1);
    let close = random.pick(&[SEAM, SEAM, WINDOW]) - 3 + random.below(7);
    let is_close = close < bytes.len() && random.percent(50);
    bytes.truncate(if is_close { close } else { anywhere });
    Some(bytes)
}

/// Where a part begins, or behind its first byte.
fn cut_between_parts(random: &mut Random, log: &Log) -> Option<Vec<u8>> {
    let at = some_entry(random, log, any)?;
    let (_, part) = random.pick(&parts(log, at));
    let mut bytes = log.encode();
    bytes.truncate(part.start + random.below(2));
    Some(bytes)
}

fn cut_head(random: &mut Random, log: &Log) -> Option<Vec<u8>> {
    let mut bytes = log.encode();
    let any = random.below(HEAD_LENGTH);
    bytes.truncate(random.pick(&[0, 1, 2, HEAD_LENGTH - 1, any, any, any]));
    Some(bytes)
}

fn other_f(random: &mut Random, log: &Log) -> Option<Vec<u8>> {
    let f = random.pick(&[0, 1, 2, 3, 4, 5, 6, 255]);
    Some(Log { f, ..log.clone() }.encode())
}

fn other_number(random: &mut Random, log: &Log) -> Option<Vec<u8>> {
    let n = replicas(log.f);
    let any = 1 + random.below(n.into()) as u8;
    let id = random.pick(&[0, 1, n, n + 1, 255, any, any, any]);
    Some(Log { id, ..log.clone() }.encode())
}

fn other_key(random: &mut Random, log: &Log) -> Option<Vec<u8>> {
    let mut log = log.clone();
    spoil(random, &mut log.key[CODES..]);
    Some(log.encode())
}

fn other_codes(random: &mut Random, log: &Log) -> Option<Vec<u8>> {
    let mut log = log.clone();
    spoil(random, &mut log.key[..CODES]);
    Some(log.encode())
}
