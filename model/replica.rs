//! The model of a replica (a holder of document 01): sixteen registers, and above them the replica that keeps them and takes
//! orders.
use super::card::STARTING_CARD;
use super::message::*;
use super::order::{check_key, check_order};
use std::collections::{BTreeMap, BTreeSet};

/// What a replica prepared last for a client (a line of document 01).
#[derive(Clone, PartialEq)]
pub struct Slot {
    pub timestamp: Timestamp,
    pub digest: Digest,
}

#[derive(Clone)]
pub struct Held {
    pub card: Vec<u8>,
    pub proof: PreparedProof,
}

/// A register's own record.
#[derive(Clone)]
pub struct Register {
    /// `None` stands for 0.0 with the starting card.
    pub held: Option<Held>,
    pub written: Timestamp,
    /// By client; an unused slot is missing.
    pub slots: BTreeMap<u8, Slot>,
}

impl Register {
    fn new() -> Register {
        Register {
            held: None,
            written: Timestamp::START,
            slots: BTreeMap::new(),
        }
    }

    /// The held timestamp.
    pub fn timestamp(&self) -> Timestamp {
        self.held
            .as_ref()
            .map_or(Timestamp::START, |held| held.proof.timestamp)
    }

    /// The held card.
    pub fn card(&self) -> Vec<u8> {
        self.held
            .as_ref()
            .map_or(STARTING_CARD.to_vec(), |held| held.card.clone())
    }

    /// The replicas that vouch for the held card; none at 0.0.
    pub fn signers(&self) -> BTreeSet<u8> {
        self.held
            .as_ref()
            .map_or_else(BTreeSet::new, |held| held.proof.signers())
    }

    /// The reply of replica `id` to a request that has passed 1 to 11 and 23.
    fn answer(&mut self, id: u8, request: Message) -> Result<Message, Refusal> {
        let register = request.register();
        let reply = |kind| Message::new(kind, id, register);
        match request.kind {
            READ_TIMESTAMP => Ok(self.show(&request, reply(TIMESTAMP))),
            PREPARE => self.prepare(&request, reply(PREPARED)),
            WRITE => self.write(request, reply(WRITTEN)),
            _ => Ok(Message {
                card: Some(self.card()),
                ..self.show(&request, reply(CARD))
            }),
        }
    }

    fn show(&self, request: &Message, reply: Message) -> Message {
        Message {
            nonce: request.nonce,
            addressed: Some(request.sender),
            prepared: self.held.as_ref().map(|held| held.proof.clone()),
            ..reply
        }
    }

    /// The written proof may be any client's: test 12 fell away with #106 of document 02.
    fn prepare(&mut self, request: &Message, reply: Message) -> Result<Message, Refusal> {
        let client = request.sender;
        let shown = request
            .written
            .as_ref()
            .map_or(Timestamp::START, |proof| proof.timestamp);
        refuse_if(
            13,
            request.prepared_timestamp().successor(client) != request.timestamp,
        )?;
        let new = Slot {
            timestamp: request.timestamp.unwrap(),
            digest: request.digest.unwrap(),
        };
        let written = self.written.max(shown);
        refuse_if(15, !self.takes(client, &new, written))?;
        self.written = written;
        self.slots.insert(client, new.clone());
        Ok(Message {
            timestamp: Some(new.timestamp),
            digest: Some(new.digest),
            ..reply
        })
    }

    fn takes(&self, client: u8, new: &Slot, written: Timestamp) -> bool {
        match self.slots.get(&client) {
            None => true,
            Some(old) => old == new || old.timestamp <= written && old.timestamp < new.timestamp,
        }
    }

    fn write(&mut self, request: Message, reply: Message) -> Result<Message, Refusal> {
        request.check_card()?;
        let timestamp = request.prepared_timestamp();
        let is_later = timestamp > self.timestamp();
        if let (true, Some(card), Some(proof)) = (is_later, request.card, request.prepared) {
            self.held = Some(Held { card, proof });
        }
        Ok(Message {
            timestamp: Some(timestamp),
            ..reply
        })
    }
}

#[derive(Clone)]
pub struct Replica {
    pub f: u8,
    id: u8,
    /// All sixteen, by number.
    pub registers: BTreeMap<u8, Register>,
    /// The clients that orders have named, for every register.
    pub withdrawn: BTreeSet<u8>,
    /// The office's.
    key: Vec<u8>,
}

impl Replica {
    pub fn new(f: u8, id: u8, key: &[u8]) -> Result<Replica, Refusal> {
        refuse_if(16, !FAULT_BOUNDS.contains(&f))?;
        refuse_if(16, !(1..=replicas(f)).contains(&id))?;
        check_key(key)?;
        Ok(Replica {
            f,
            id,
            registers: REGISTERS
                .map(|register| (register, Register::new()))
                .collect(),
            withdrawn: BTreeSet::new(),
            key: key.to_vec(),
        })
    }

    pub fn take_order(&mut self, order: &[u8]) -> Result<(), Refusal> {
        let client = check_order(&self.key, order)?;
        self.withdrawn.insert(client);
        Ok(())
    }

    pub fn receive(
        &mut self,
        bytes: &[u8],
        verdicts: &[u8],
        room: usize,
    ) -> Result<Answer, Refusal> {
        check_room(room)?;
        let request = Receiver::Replica.check(bytes, verdicts, self.f, &self.withdrawn)?;
        let register = self.registers.get_mut(&request.register());
        let register = register.expect("a number that has passed 20");
        let reply = register.answer(self.id, request)?;
        Ok(Answer::Sent(reply.encode()))
    }
}
