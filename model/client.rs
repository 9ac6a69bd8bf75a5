//! The model of a client (a desk of document 01).
use super::asker::{latest, Asker, Shown};
use super::card::keeps_table;
use super::message::*;
use super::sha256::sha256;
use std::collections::{BTreeMap, BTreeSet};

#[derive(Clone)]
enum Phase {
    Idle,
    /// The replies are kept in the order in which they came.
    ReadTimestamps {
        card: Vec<u8>,
        replies: Vec<Shown>,
    },
    Prepare {
        card: Vec<u8>,
        timestamp: Timestamp,
        replies: BTreeMap<u8, Signature>,
    },
    Write {
        done: Done,
        replies: BTreeMap<u8, Signature>,
    },
    Read {
        replies: Vec<Shown>,
    },
    WriteBack {
        done: Done,
        counted: BTreeSet<u8>,
    },
}

/// What PREPAREs for a register show.
#[derive(Clone)]
struct Written {
    proof: WrittenProof,
    /// Of the client's own last finished write, and not handed to it.
    is_own: bool,
}

#[derive(Clone)]
pub struct Client {
    asker: Asker,
    /// By register.
    written: BTreeMap<u8, Written>,
    phase: Phase,
}

/// The map keeps the replicas in rising order.
fn entries(replies: BTreeMap<u8, Signature>) -> Vec<Entry> {
    replies
        .into_iter()
        .map(|(replica, signature)| Entry { replica, signature })
        .collect()
}

impl Client {
    pub fn new(f: u8, id: u8, first_nonce: u64) -> Result<Client, Refusal> {
        Ok(Client {
            asker: Asker::new(f, id, WRITERS, first_nonce)?,
            written: BTreeMap::new(),
            phase: Phase::Idle,
        })
    }

    pub fn begin_write(
        &mut self,
        register: u8,
        card: &[u8],
        room: usize,
    ) -> Result<Answer, Refusal> {
        check_room(room)?;
        check_register(register)?;
        refuse_if(14, !keeps_table(card))?;
        self.begin(register)?;
        self.phase = Phase::ReadTimestamps {
            card: card.to_vec(),
            replies: Vec::new(),
        };
        Ok(self.asker.ask(READ_TIMESTAMP))
    }

    pub fn begin_read(&mut self, register: u8, room: usize) -> Result<Answer, Refusal> {
        check_room(room)?;
        check_register(register)?;
        self.begin(register)?;
        self.phase = Phase::Read {
            replies: Vec::new(),
        };
        Ok(self.asker.ask(READ))
    }

    fn begin(&mut self, register: u8) -> Result<(), Refusal> {
        self.asker.begin(register, self.is_busy())
    }

    fn is_busy(&self) -> bool {
        !matches!(self.phase, Phase::Idle)
    }

    /// Takes a written proof, of any client, to show until a write of its own has given it one (document 02, #106). The last
    /// one counts, not the latest, and no nonce is used.
    pub fn take_proof(
        &mut self,
        register: u8,
        proof: &[u8],
        verdicts: &[u8],
    ) -> Result<(), Refusal> {
        let proof = WrittenProof::check(proof, register, verdicts, self.asker.f)?;
        let known = self.written.get(&register);
        let has_own = known.is_some_and(|written| written.is_own);
        refuse_if(17, self.is_busy() || has_own)?;
        let handed = Written {
            proof,
            is_own: false,
        };
        self.written.insert(register, handed);
        Ok(())
    }

    pub fn receive(
        &mut self,
        bytes: &[u8],
        verdicts: &[u8],
        room: usize,
    ) -> Result<Answer, Refusal> {
        let reply = self.asker.check_reply(bytes, verdicts, room)?;
        refuse_if(18, !self.awaits(&reply))?;
        Ok(self.take(reply))
    }

    /// Test 18, but for the register.
    fn awaits(&self, reply: &Message) -> bool {
        let sender = reply.sender;
        match &self.phase {
            Phase::Idle => false,
            Phase::ReadTimestamps { replies, .. } => self.asker.awaits(TIMESTAMP, replies, reply),
            Phase::Prepare {
                card,
                timestamp,
                replies,
            } => {
                reply.kind == PREPARED
                    && reply.timestamp == Some(*timestamp)
                    && reply.digest == Some(sha256(card))
                    && !replies.contains_key(&sender)
            }
            Phase::Write { done, replies } => {
                reply.kind == WRITTEN
                    && reply.timestamp == Some(done.timestamp)
                    && !replies.contains_key(&sender)
            }
            Phase::Read { replies } => self.asker.awaits(CARD, replies, reply),
            Phase::WriteBack { done, counted } => {
                reply.kind == WRITTEN
                    && reply.timestamp == Some(done.timestamp)
                    && !counted.contains(&sender)
            }
        }
    }

    /// Takes an awaited reply; a quorum of them ends the phase.
    fn take(&mut self, reply: Message) -> Answer {
        let quorum = quorum(self.asker.f);
        let full = match &mut self.phase {
            Phase::Idle => unreachable!("an idle client awaits nothing"),
            Phase::ReadTimestamps { replies, .. } | Phase::Read { replies } => {
                replies.push(Shown::new(reply));
                replies.len() == quorum
            }
            Phase::Prepare { replies, .. } | Phase::Write { replies, .. } => {
                replies.insert(reply.sender, reply.signature);
                replies.len() == quorum
            }
            Phase::WriteBack { counted, .. } => {
                counted.insert(reply.sender);
                counted.len() == quorum
            }
        };
        if full {
            self.finish_phase()
        } else {
            Answer::Counted
        }
    }

    fn finish_phase(&mut self) -> Answer {
        match std::mem::replace(&mut self.phase, Phase::Idle) {
            Phase::Idle => unreachable!("an idle client has no quorum"),
            Phase::ReadTimestamps { card, replies } => self.send_prepare(card, latest(replies)),
            Phase::Prepare {
                card,
                timestamp,
                replies,
            } => {
                let proof = PreparedProof {
                    timestamp,
                    digest: sha256(&card),
                    entries: entries(replies),
                };
                let done = Done {
                    timestamp,
                    card,
                    signers: proof.signers(),
                };
                let answer = self.send_write(&done.card, proof);
                self.phase = Phase::Write {
                    done,
                    replies: BTreeMap::new(),
                };
                answer
            }
            Phase::Write { done, replies } => {
                let proof = WrittenProof {
                    timestamp: done.timestamp,
                    entries: entries(replies),
                };
                let own = Written {
                    proof,
                    is_own: true,
                };
                self.written.insert(self.asker.register, own);
                Answer::Done(done)
            }
            Phase::Read { replies } => self.finish_read(replies),
            Phase::WriteBack { done, .. } => Answer::Done(done),
        }
    }

    fn request(&self, kind: u8) -> Message {
        Message::new(kind, self.asker.id, self.asker.register)
    }

    fn send_prepare(&mut self, card: Vec<u8>, latest: Shown) -> Answer {
        let Some(timestamp) = latest.timestamp().successor(self.asker.id) else {
            return Answer::Ended;
        };
        let written = self.written.get(&self.asker.register);
        let request = Message {
            timestamp: Some(timestamp),
            digest: Some(sha256(&card)),
            prepared: latest.proof,
            written: written.map(|written| written.proof.clone()),
            ..self.request(PREPARE)
        };
        self.phase = Phase::Prepare {
            card,
            timestamp,
            replies: BTreeMap::new(),
        };
        Answer::Sent(request.encode())
    }

    fn send_write(&self, card: &[u8], proof: PreparedProof) -> Answer {
        let request = Message {
            card: Some(card.to_vec()),
            prepared: Some(proof),
            ..self.request(WRITE)
        };
        Answer::Sent(request.encode())
    }

    fn finish_read(&mut self, replies: Vec<Shown>) -> Answer {
        let largest = replies
            .iter()
            .map(Shown::timestamp)
            .max()
            .expect("a quorum of replies");
        let showed = replies.iter().filter(|reply| reply.timestamp() == largest);
        let counted: BTreeSet<u8> = showed.map(|reply| reply.replica).collect();
        let best = latest(replies);
        let done = best.done();
        match best.proof {
            Some(proof) if counted.len() < quorum(self.asker.f) => {
                let answer = self.send_write(&done.card, proof);
                self.phase = Phase::WriteBack { done, counted };
                answer
            }
            // Without a proof all showed 0.0.
            _ => Answer::Done(done),
        }
    }
}
