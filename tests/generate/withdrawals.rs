//! Runs with true verdicts in which lying clients are withdrawn, and the count of document 02, #108: how many timestamps of such
//! a client have a genuine prepared proof beyond what the correct replicas held when the last of them withdrew it.
use super::*;
use crate::tally::{AHEAD, PAST_NEXT, SURFACED, TOO_FAR};

/// What a PREPARED says, or without a digest a WRITTEN. They sort by register, then by timestamp.
#[derive(Clone, Copy, PartialEq, Eq, PartialOrd, Ord)]
struct Said {
    register: u8,
    timestamp: Timestamp,
    digest: Option<Digest>,
}

/// The replicas, and what a signing box with true verdicts has to know of them.
struct Replicas {
    f: u8,
    /// A quorum. The signatures of the others, which the script never calls, are there for the asking.
    correct: Vec<u8>,
    /// What was sent, and by which correct replicas.
    sent: BTreeMap<Said, BTreeSet<u8>>,
}

impl Replicas {
    fn note(&mut self, reply: &Message) {
        // STAMPs and CARDs have none
        let Some(timestamp) = reply.timestamp else {
            return;
        };
        let said = Said {
            register: reply.register(),
            timestamp,
            digest: reply.digest,
        };
        self.sent.entry(said).or_default().insert(reply.sender);
    }

    /// Whose genuine signatures can be had.
    fn signers(&self, said: &Said) -> Vec<u8> {
        let sent = self.sent.get(said);
        let has_sent = |id: &u8| sent.is_some_and(|sent| sent.contains(id));
        (1..=replicas(self.f))
            .filter(|id| !self.correct.contains(id) || has_sent(id))
            .collect()
    }

    fn can_prove(&self, said: &Said) -> bool {
        self.signers(said).len() >= quorum(self.f)
    }

    /// What PREPAREDs of a register say, or WRITTENs, the latest last.
    fn said(&self, kind: u8, register: u8) -> impl Iterator<Item = Said> + '_ {
        let said = self.sent.keys().copied();
        said.filter(move |said| said.register == register)
            .filter(move |said| said.digest.is_some() == (kind == PREPARED))
    }

    /// A request, which its client signed itself, with the verdicts on its proofs.
    fn judged(&self, request: &Message) -> Delivery {
        let register = request.register();
        let mut verdicts = vec![1];
        let mut judge = |timestamp, digest, entries: &[Entry]| {
            let signers = self.signers(&Said {
                register,
                timestamp,
                digest,
            });
            let verdict = |entry: &Entry| u8::from(signers.contains(&entry.replica));
            verdicts.extend(entries.iter().map(verdict));
        };
        if let Some(proof) = &request.prepared {
            judge(proof.timestamp, Some(proof.digest), &proof.entries);
        }
        if let Some(proof) = &request.written {
            judge(proof.timestamp, None, &proof.entries);
        }
        Delivery {
            message: request.encode(),
            verdicts,
        }
    }
}

/// A run of correct replicas with clients that all may lie.
pub struct Withdrawal<'a> {
    random: &'a mut Random,
    script: &'a mut Script,
    office: &'a Office,
    /// Of the office's keys the one that all replicas have.
    key: usize,
    replicas: Replicas,
    /// Of the correct replicas as many as a proof needs beside the faulty ones.
    favoured: Vec<u8>,
    registers: Vec<u8>,
    clients: Vec<u8>,
    /// The clients that orders are against: not the last one.
    accused: Vec<u8>,
    /// By their digests: few, so that timestamps are prepared at a quorum.
    cards: BTreeMap<Digest, Vec<u8>>,
    /// By client and register: what the correct replicas held when the last of them withdrew the client, in falling order.
    held: BTreeMap<(u8, u8), Vec<Timestamp>>,
}

impl<'a> Withdrawal<'a> {
    pub fn new(random: &'a mut Random, script: &'a mut Script, office: &'a Office) -> Self {
        let f = 1 + random.weighted(&[65, 25, 4, 3, 3]) as u8;
        let correct = some_of(random, (1..=replicas(f)).collect(), quorum(f));
        let favoured = some_of(random, correct.clone(), usize::from(f) + 1);
        let number = random.pick(&[1, 2, 3, 3]);
        let mut registers = BTreeSet::new();
        while registers.len() < number {
            registers.insert(good_register(random));
        }
        let clients = random.pick(&WRITER_IDS).to_vec();
        let accused = clients[..random.pick(&[1, 1, 1, 2])].to_vec();
        let cards = [good_card(random), good_card(random)];
        Withdrawal {
            key: random.below(KEYS),
            replicas: Replicas {
                f,
                correct,
                sent: BTreeMap::new(),
            },
            favoured,
            registers: registers.into_iter().collect(),
            clients,
            accused,
            cards: cards.map(|card| (sha256(&card), card)).into(),
            held: BTreeMap::new(),
            random,
            script,
            office,
        }
    }

    pub fn play(mut self) {
        let Replicas { f, correct, .. } = &self.replicas;
        let key = hex(&self.office.key(self.key));
        self.script.add("new".to_string());
        for id in correct {
            self.script.add(format!("replica {f} {id} {key}"));
        }
        let registers = self.registers.len();
        self.act(7 * registers, 12 * registers);
        // mostly nothing comes between the orders, and the accused clients stay as far ahead as they are
        let longest_pause = self.random.pick(&[0, 0, 2]);
        for (id, order) in self.orders() {
            if self.script.is_full() {
                break;
            }
            self.script.hand_order(id, &order);
            self.note_withdrawn();
            self.act(0, longest_pause);
        }
        self.act(4 * registers, 7 * registers);
        self.count();
    }

    /// Orders against the accused clients, with the replicas that are handed them: one or two against each, in any order. A replica
    /// may get one twice, and now and then one gets none.
    fn orders(&mut self) -> Vec<(u8, Vec<u8>)> {
        let mut handed = Vec::new();
        for &client in &self.accused {
            let orders: Vec<Vec<u8>> = (0..1 + self.random.below(2))
                .map(|_| self.office.order(self.random, self.key, client))
                .collect();
            let missed = usize::from(self.random.percent(8));
            let correct = self.replicas.correct.clone();
            let number = correct.len() - missed;
            let mut ids = some_of(self.random, correct, number);
            if self.random.percent(30) {
                ids.push(self.random.pick(&ids));
            }
            for id in ids {
                let at = self.random.below(handed.len() + 1);
                handed.insert(at, (id, self.random.pick(&orders)));
            }
        }
        handed
    }

    /// Keeps what the correct replicas hold if the last of them has withdrawn a client just now.
    fn note_withdrawn(&mut self) {
        let player = &self.script.player;
        for &client in &self.accused {
            let withdrawn = |&id: &u8| {
                let replica = player.replica(id);
                replica.is_some_and(|replica| replica.withdrawn.contains(&client))
            };
            if !self.replicas.correct.iter().all(withdrawn) {
                continue;
            }
            for &register in &self.registers {
                // of all that are set up, which are the correct ones
                let mut held = player.held(register);
                held.sort_by(|one, other| other.cmp(one));
                self.held.entry((client, register)).or_insert(held);
            }
        }
    }

    /// Hands over requests, so many at least and at most, each to some correct replicas.
    fn act(&mut self, least: usize, most: usize) {
        for _ in 0..least + self.random.below(most - least + 1) {
            let register = self.random.pick(&self.registers);
            let request = match self.random.weighted(&[55, 40, 5]) {
                0 => self.prepare(register),
                1 => self.write(register),
                _ => first_read(self.random.pick(&self.clients), register),
            };
            for id in self.receivers() {
                if self.script.is_full() {
                    return;
                }
                self.hand(id, &request);
            }
        }
    }

    /// Most often the favoured ones, so that the others stay behind.
    fn receivers(&mut self) -> Vec<u8> {
        if self.random.percent(65) {
            return self.favoured.clone();
        }
        let correct = self.replicas.correct.clone();
        let number = 1 + self.random.below(correct.len());
        some_of(self.random, correct, number)
    }

    fn hand(&mut self, id: u8, request: &Message) {
        let Delivery { message, verdicts } = self.replicas.judged(request);
        let call = Party::Replica(id).call();
        let line = format!("{call} {id} {} {}", hex(&message), hex(&verdicts));
        if let Output::Sent(_, reply) = self.script.add(line) {
            let reply = Message::decode(reply).expect("a replica sends whole messages");
            self.replicas.note(&reply);
        }
    }

    /// Most often an accused client's, which wants to get ahead: the next timestamp, whether or not the last one is written.
    fn prepare(&mut self, register: u8) -> Message {
        let sender = match self.random.below(5) {
            0 => self.random.pick(&self.clients),
            _ => self.random.pick(&self.accused),
        };
        let prepared = self.prepared_proof(register);
        let written = self.written_proof(register);
        let digests = self.cards.keys().copied().collect();
        let request = Message {
            digest: late(self.random, digests),
            prepared: prepared.filter(|_| self.random.percent(95)),
            written: written.filter(|_| self.random.percent(80)),
            ..Message::new(PREPARE, sender, register)
        };
        Message {
            timestamp: request.prepared_timestamp().successor(sender),
            ..request
        }
    }

    /// Most often by the client that no order is against, whoever's the timestamp is. Before anything is prepared a PREPARE.
    fn write(&mut self, register: u8) -> Message {
        let Some(proof) = self.prepared_proof(register) else {
            return self.prepare(register);
        };
        let sender = match self.random.below(2) {
            0 => self.random.pick(&self.clients),
            _ => self.clients[self.clients.len() - 1],
        };
        Message {
            card: Some(self.cards[&proof.digest].clone()),
            prepared: Some(proof),
            ..Message::new(WRITE, sender, register)
        }
    }

    /// A proof that can be had, or now and then of what too few have prepared.
    fn prepared_proof(&mut self, register: u8) -> Option<PreparedProof> {
        let forges = self.random.percent(10);
        let said = self.replicas.said(PREPARED, register);
        let said = said.filter(|said| forges || self.replicas.can_prove(said));
        let said = late(self.random, said.collect())?;
        Some(PreparedProof {
            timestamp: said.timestamp,
            digest: said.digest?,
            entries: self.entries(&said),
        })
    }

    /// The same, where a forged one says that what is prepared is written.
    fn written_proof(&mut self, register: u8) -> Option<WrittenProof> {
        let forges = self.random.percent(15);
        let kind = if forges { PREPARED } else { WRITTEN };
        let said = self.replicas.said(kind, register);
        let said = said.map(|said| Said {
            digest: None,
            ..said
        });
        let said = said.filter(|said| forges || self.replicas.can_prove(said));
        let said = late(self.random, said.collect())?;
        Some(WrittenProof {
            timestamp: said.timestamp,
            entries: self.entries(&said),
        })
    }

    /// A quorum of genuine ones if there is one, else some that will be found out.
    fn entries(&mut self, said: &Said) -> Vec<Entry> {
        let quorum = quorum(self.replicas.f);
        if !self.replicas.can_prove(said) {
            return entries(self.random, quorum, self.replicas.f);
        }
        let signers = some_of(self.random, self.replicas.signers(said), quorum);
        entries_of(self.random, signers)
    }

    /// The timestamps of a client above this one that have a genuine prepared proof by now, whoever gathers it.
    fn proved_above(&self, held: Timestamp, client: u8, register: u8) -> BTreeSet<Timestamp> {
        let said = self.replicas.said(PREPARED, register);
        said.filter(|said| said.timestamp.client == client && said.timestamp > held)
            .filter(|said| self.replicas.can_prove(said))
            .map(|said| said.timestamp)
            .collect()
    }

    /// The rows of each register and each client that was withdrawn everywhere.
    fn count(&mut self) {
        for (&(client, register), held) in &self.held {
            let above = |at: usize| self.proved_above(held[at], client, register);
            // the first stands at 0
            let f = usize::from(self.replicas.f);
            let ahead = above(f);
            let held_now = self.script.player.held(register);
            let surfaced = |one: &Timestamp| !held.contains(one) && held_now.contains(one);
            let rows = [
                (AHEAD[0], ahead.is_empty()),
                (AHEAD[1], ahead.len() == 1),
                (TOO_FAR, ahead.len() > 1),
                (PAST_NEXT, above(f + 1).len() > 1),
                (SURFACED, ahead.len() == 1 && ahead.iter().all(surfaced)),
            ];
            self.script.note_those(ORDER, rows);
        }
    }
}

/// Most often the last, so that things go on.
fn late<T: Copy>(random: &mut Random, all: Vec<T>) -> Option<T> {
    let last = *all.last()?;
    let any = random.pick(&all);
    Some(random.pick(&[last, last, last, any]))
}
