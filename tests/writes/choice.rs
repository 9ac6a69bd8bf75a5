//! Pairs of WRITEs that a replica takes, each pair for registers of its own, with timestamps around the held ones.
use crate::forge::{entries_of, good_card, some_replicas};
use crate::model::card::STARTING_CARD;
use crate::model::message::*;
use crate::model::random::Random;
use crate::model::replica::Replica;
use crate::model::sha256::sha256;

/// Percentages: registers that were written before; proofs with the held one's entries; second WRITEs for another register;
/// timestamps later than the held one.
const WRITTEN_BEFORE: usize = 85;
const HELD_ENTRIES: usize = 20;
const ELSEWHERE: usize = 15;
const LATER: usize = 40;

/// What is made until it is another than this.
fn other_than<T: PartialEq>(this: &T, mut make: impl FnMut() -> T) -> T {
    loop {
        let other = make();
        if other != *this {
            return other;
        }
    }
}

/// A timestamp beside the held one or far from it: later or not, as it is wanted and there is one.
fn timestamp_near(random: &mut Random, held: Timestamp, later: bool) -> Timestamp {
    let Timestamp { count, client } = held;
    let any_client = random.pick(&Vec::from_iter(WRITERS));
    let any_count = random.number() as u32;
    let near = [
        (count, client),
        (count, client.saturating_sub(1)),
        (count, client + 1),
        (count, any_client),
        (count.saturating_sub(1), any_client),
        (count.saturating_add(1), any_client),
        (count.saturating_add(1), 1),
        (any_count, any_client),
        (1, any_client),
        (u32::MAX, any_client),
    ];
    let near = near.map(|(count, client)| Timestamp { count, client });
    let near = near.into_iter().filter(|near| near.in_range());
    let (wanted, others): (Vec<_>, Vec<_>) = near.partition(|near| (*near > held) == later);
    random.pick(if wanted.is_empty() { &others } else { &wanted })
}

/// A writer that no order has named at this replica.
pub fn served_client(random: &mut Random, replica: &Replica) -> u8 {
    let served = WRITERS.filter(|client| !replica.withdrawn.contains(client));
    random.pick(&Vec::from_iter(served))
}

pub struct Chooser<'a> {
    random: &'a mut Random,
    replica: &'a Replica,
    /// The registers that no pair has yet.
    free: Vec<u8>,
}

impl<'a> Chooser<'a> {
    pub fn new(random: &'a mut Random, replica: &'a Replica) -> Chooser<'a> {
        Chooser {
            random,
            replica,
            free: REGISTERS.collect(),
        }
    }

    /// Of the second each part is the first one's or another.
    pub fn pair(&mut self) -> [Message; 2] {
        let first = self.first();
        let second = self.second(&first);
        [first, second]
    }

    fn first(&mut self) -> Message {
        let register = self.register();
        let timestamp = self.timestamp(register);
        let record = &self.replica.registers[&register];
        let any_card = good_card(self.random);
        let starting_card = STARTING_CARD.to_vec();
        let card = self
            .random
            .pick(&[record.card(), starting_card, any_card.clone(), any_card]);
        let entries = match &record.held {
            Some(held) if self.random.percent(HELD_ENTRIES) => held.proof.entries.clone(),
            _ => {
                let signers = self.signers();
                entries_of(self.random, signers)
            }
        };
        self.write(register, timestamp, card, entries)
    }

    fn second(&mut self, first: &Message) -> Message {
        let proof = first.prepared.as_ref().expect("a WRITE's proof");
        let card = first.card.as_ref().expect("a WRITE's card");
        let register = match self.random.percent(ELSEWHERE) {
            true => self.register(),
            false => first.register(),
        };
        let timestamp = match self.random.percent(50) {
            true => proof.timestamp,
            false => self.timestamp(register),
        };
        let card = match self.random.percent(50) {
            true => card.clone(),
            false => other_than(card, || good_card(self.random)),
        };
        let signers = Vec::from_iter(proof.signers());
        let entries = match self.random.below(3) {
            0 => proof.entries.clone(),
            1 => entries_of(self.random, signers),
            _ => {
                let others = other_than(&signers, || self.signers());
                entries_of(self.random, others)
            }
        };
        let second = self.write(register, timestamp, card, entries);
        let sender = self.random.pick(&[first.sender, second.sender]);
        Message { sender, ..second }
    }

    fn write(
        &mut self,
        register: u8,
        timestamp: Timestamp,
        card: Vec<u8>,
        entries: Vec<Entry>,
    ) -> Message {
        let sender = served_client(self.random, self.replica);
        let proof = PreparedProof {
            timestamp,
            digest: sha256(&card),
            entries,
        };
        Message {
            card: Some(card),
            prepared: Some(proof),
            signature: self.random.bytes(),
            ..Message::new(WRITE, sender, register)
        }
    }

    /// A free register, which then is not.
    fn register(&mut self) -> u8 {
        let is_written = |register: &&u8| self.replica.registers[register].held.is_some();
        let written = Vec::from_iter(self.free.iter().filter(is_written).copied());
        let register = match !written.is_empty() && self.random.percent(WRITTEN_BEFORE) {
            true => self.random.pick(&written),
            false => self.random.pick(&self.free),
        };
        self.free.retain(|free| *free != register);
        register
    }

    fn timestamp(&mut self, register: u8) -> Timestamp {
        let held = self.replica.registers[&register].timestamp();
        let later = self.random.percent(LATER);
        timestamp_near(self.random, held, later)
    }

    /// A quorum.
    fn signers(&mut self) -> Vec<u8> {
        let f = self.replica.f;
        some_replicas(self.random, quorum(f), f)
    }
}
