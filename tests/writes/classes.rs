//! Which WRITEs occurred, and whether each sort of them did often enough.
use super::answers::Observed;
use super::heaps::WAYS;
use crate::model::message::{Message, PreparedProof, Timestamp};
use crate::occurred::Tally;
use std::cmp::Ordering;

/// Each sort must occur at least once in so many pairs.
const ONE_IN: usize = 200;

/// A pair: its timestamps or registers; how many of its WRITEs are stored, each if it comes first; the entries of its proofs; its
/// cards; its senders; its replica's f; where no other pair is in the heap.
const TIMESTAMPS: [&str; 2] = ["one timestamp", "two timestamps"];
const ELSEWHERE: &str = "two registers";
const STORED: [&str; 3] = ["none stored", "one stored", "both stored"];
const ENTRIES: [&str; 3] = ["same entries", "other signatures", "other signers"];
const CARDS: [&str; 2] = ["same card", "other card"];
const SENDERS: [&str; 2] = ["same sender", "other sender"];
const FAULT_BOUND: [&str; 5] = ["f = 1", "f = 2", "f = 3", "f = 4", "f = 5"];
const ALONE: &str = "alone";
/// A WRITE: its timestamp beside the held one; where 0.0 is held; where it is stored with a card shorter than the held one.
const BESIDE: [&str; 5] = ["earlier", "held", "held count", "next count", "later count"];
const AT_START: &str = "at 0.0";
const SHORTER: &str = "shorter card";
/// A WRITE that comes twice behind the other one of its pair, by whether it is stored.
const TWICE: [&str; 2] = ["twice, not stored", "twice, stored"];

/// All that must occur.
fn wanted() -> Vec<String> {
    // of one timestamp both are stored or none
    let both_or_none = [STORED[0], STORED[2]];
    [
        together(&[&TIMESTAMPS[..1], &both_or_none, &ENTRIES, &CARDS]),
        together(&[&TIMESTAMPS[1..], &STORED, &ENTRIES, &CARDS]),
        together(&[&[ELSEWHERE], &TIMESTAMPS, &STORED]),
        together(&[&SENDERS]),
        together(&[&FAULT_BOUND]),
        together(&[&BESIDE]),
        together(&[&TWICE]),
        together(&[&[ALONE, AT_START, SHORTER]]),
    ]
    .concat()
}

/// A word of each list, in all ways.
fn together(lists: &[&[&str]]) -> Vec<String> {
    let mut names = vec![Vec::new()];
    for list in lists {
        for name in std::mem::take(&mut names) {
            names.extend(list.iter().map(|word| [&name[..], &[*word]].concat()));
        }
    }
    names.iter().map(|name| name.join(", ")).collect()
}

fn proof(write: &Message) -> &PreparedProof {
    write.prepared.as_ref().expect("a WRITE's proof")
}

fn class(one: &Message, other: &Message, stored: &str) -> String {
    let [proof, other_proof] = [one, other].map(proof);
    let timestamps = TIMESTAMPS[usize::from(proof.timestamp != other_proof.timestamp)];
    if one.register != other.register {
        return [ELSEWHERE, timestamps, stored].join(", ");
    }
    let entries = if proof.entries == other_proof.entries {
        ENTRIES[0]
    } else if proof.signers() == other_proof.signers() {
        ENTRIES[1]
    } else {
        ENTRIES[2]
    };
    let cards = CARDS[usize::from(one.card != other.card)];
    [timestamps, stored, entries, cards].join(", ")
}

fn beside(timestamp: Timestamp, held: Timestamp) -> &'static str {
    match timestamp.cmp(&held) {
        Ordering::Less => BESIDE[0],
        Ordering::Equal => BESIDE[1],
        Ordering::Greater => match timestamp.count - held.count {
            0 => BESIDE[2],
            1 => BESIDE[3],
            _ => BESIDE[4],
        },
    }
}

#[derive(Default)]
pub struct Classes {
    pub pairs: usize,
    pub occurred: Tally,
}

impl Classes {
    pub fn count(&mut self, observed: &Observed) {
        for pair in &observed.heap.pairs {
            self.count_pair(observed, pair);
            for write in pair {
                self.count_write(observed, write);
            }
            if let Some((way, _)) = observed.twice {
                self.count_twice(observed, WAYS[way].map(|at| &pair[at]));
            }
        }
    }

    fn count_pair(&mut self, observed: &Observed, pair: &[Message; 2]) {
        let stored = pair
            .iter()
            .filter(|write| observed.is_stored(write))
            .count();
        let [one, other] = pair;
        self.pairs += 1;
        self.occurred.count(class(one, other, STORED[stored]));
        self.occurred
            .count(SENDERS[usize::from(one.sender != other.sender)]);
        self.occurred
            .count(FAULT_BOUND[usize::from(observed.heap.f - 1)]);
        if observed.heap.pairs.len() == 1 {
            self.occurred.count(ALONE);
        }
    }

    fn count_write(&mut self, observed: &Observed, write: &Message) {
        let held = observed.held(write.register());
        let timestamp = held.prepared_timestamp();
        self.occurred
            .count(beside(write.prepared_timestamp(), timestamp));
        if timestamp == Timestamp::START {
            self.occurred.count(AT_START);
        }
        let length = |message: &Message| message.card.as_ref().map(Vec::len);
        if observed.is_stored(write) && length(write) < length(&held) {
            self.occurred.count(SHORTER);
        }
    }

    fn count_twice(&mut self, observed: &Observed, [former, latter]: [&Message; 2]) {
        let is_behind = former.register == latter.register
            && former.prepared_timestamp() >= latter.prepared_timestamp();
        let stored = observed.is_stored(latter) && !is_behind;
        self.occurred.count(TWICE[usize::from(stored)]);
    }

    /// What occurred too seldom.
    pub fn shortfalls(&self) -> Vec<String> {
        let wanted = wanted();
        let floors = wanted
            .iter()
            .map(|name| (name.as_str(), self.pairs / ONE_IN));
        self.occurred.shortfalls(&Vec::from_iter(floors))
    }
}
