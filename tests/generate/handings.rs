//! Clients that are made again, and written proofs that clients are handed (document 02, #106).
use super::*;
use crate::model::script::{genuine_entries, LONGEST_PROOF, MOST_VERDICTS};
use crate::tally::{
    ANOTHERS, BEFORE_17, BUSY, FREED, HAND, HAS_OWN, MADE_AGAIN, NEWER, OLDER, UNBLOCKED, USED_UP,
};
use std::ops::RangeInclusive;

/// A written proof of so many entries has 2,021 bytes, and one more would be too long for a line.
const MOST_ENTRIES: u8 = 31;

/// A written proof, and the register for which its entries were signed or it was shown.
#[derive(Clone)]
pub struct Written {
    pub register: u8,
    pub proof: WrittenProof,
}

/// Hands client 1 these bytes as a written proof.
fn hand_bytes(script: &mut Script, register: u8, proof: &[u8], verdicts: &str) {
    script.add(format!("{HAND} 1 {register} {} {verdicts}", hex(proof)));
}

/// Written proofs for each number of a register, with each client's number in the timestamp, cut at each length, and with each
/// number of entries that a line has room for; then the longest words that it may have, and longer ones.
pub fn every_handing(random: &mut Random) -> Script {
    let mut script = Script::default();
    script.add("client 1 1 1".to_string());
    let timestamp = Timestamp {
        count: 1,
        client: 2,
    };
    let whole = written_proof(random, timestamp, 1).encode();
    for byte in 0..=u8::MAX {
        hand_bytes(&mut script, byte, &whole, "+");
        let mut of_client = whole.clone();
        of_client[4] = byte;
        hand_bytes(&mut script, 1, &of_client, "+");
    }
    for length in 0..whole.len() {
        hand_bytes(&mut script, 1, &whole[..length], "+");
    }
    for f in FAULT_BOUNDS {
        script.add(format!("client {f} 1 1"));
        for number in 0..=MOST_ENTRIES {
            let entries = rising(random, number);
            let proof = WrittenProof { timestamp, entries };
            hand_bytes(&mut script, 16, &proof.encode(), "+");
        }
    }
    for length in [LONGEST_PROOF, LONGEST_PROOF + 1] {
        hand_bytes(&mut script, 1, &vec![0; length], "+");
    }
    for number in [MOST_VERDICTS, MOST_VERDICTS + 1] {
        hand_bytes(&mut script, 1, &whole, &hex(&vec![1; number]));
    }
    script
}

/// Replies from a quorum, f = 1, to an operation of client 1.
fn hand_replies(script: &mut Script, kind: u8, nonce: u64, shown: Option<&PreparedProof>) {
    for replica in 1..=3 {
        let reply = Message {
            nonce: Some(nonce),
            card: (kind == CARD).then(|| STARTING_CARD.to_vec()),
            prepared: shown.cloned(),
            addressed: Some(1),
            ..Message::new(kind, replica, 1)
        };
        script.add(format!("to-client 1 {} +", hex(&reply.encode())));
    }
}

/// A handed proof outlasts a read and a write that ends: the next write shows it.
pub fn outlasting(random: &mut Random) -> Script {
    let mut script = Script::default();
    script.add("client 1 1 1".to_string());
    let last = Timestamp {
        count: u32::MAX,
        client: 2,
    };
    let written = written_proof(random, last, 1);
    let prepared = prepared_proof(random, last, sha256(&STARTING_CARD), 1);
    hand_bytes(&mut script, 1, &written.encode(), "+");
    script.add("read 1 1".to_string());
    hand_replies(&mut script, CARD, 1, None);
    script.add("write 1 1 0000".to_string());
    hand_replies(&mut script, TIMESTAMP, 2, Some(&prepared));
    script.add("write 1 1 0000".to_string());
    hand_replies(&mut script, TIMESTAMP, 3, None);
    script
}

impl Mail {
    /// Whether a client sent it or gets it.
    fn is_of(&self, client: u8) -> bool {
        match self.to {
            Party::Replica(_) => self.message.sender == client,
            Party::Client(id) => id == client,
        }
    }
}

impl Run<'_> {
    /// A laptop is replaced in mid-write, and another client writes since: the new one is handed a proof of that, and writes.
    pub fn replace_laptop(&mut self) {
        // the writers stand first
        let (replaced, other) = (0, 1);
        let writes = |client: &ClientView| !is_viewer(client.id);
        if !self.clients.get(other).is_some_and(writes) {
            return;
        }
        let register = good_register(self.random);
        let n = usize::from(replicas(self.f));
        // READ-STAMP and its replies, then PREPARE to some replicas or all
        let steps = 2 * n + self.random.below(2 * n);
        self.write(replaced, register, steps);
        let above = self.nonce_above(replaced);
        self.make_again(replaced, above);
        for _ in 0..1 + self.random.below(3) {
            self.write(other, register, usize::MAX);
        }
        if let Some(written) = self.known_proof(&(register..=register)) {
            self.hand_for(replaced, written, register);
        }
        self.write(replaced, register, usize::MAX);
    }

    /// Begins a write, and delivers so many of the messages that its client sends and gets, as they were sent.
    fn write(&mut self, at: usize, register: u8, steps: usize) {
        let id = self.clients[at].id;
        let card = hex(&good_card(self.random));
        self.play_line(
            Party::Client(id),
            format!("write {id} {register} {card}"),
            &[],
        );
        for _ in 0..steps {
            let next = self.mail.iter().position(|mail| mail.is_of(id));
            let Some(next) = next.filter(|_| !self.script.is_full()) else {
                return;
            };
            let Mail { to, message, .. } = self.mail.remove(next);
            let delivery = self.judged(&message);
            self.hand(to, delivery, None);
        }
    }

    /// A nonce above that of the client's last operation, if there is one.
    fn nonce_above(&mut self, at: usize) -> u64 {
        let more = 1 + self.random.below(3) as u64;
        self.clients[at].nonce.saturating_add(more)
    }

    /// Sets a busy client up again under its number.
    fn make_again(&mut self, at: usize, first_nonce: u64) {
        let ClientView { id, nonce, .. } = self.clients[at];
        let line = format!("client {} {id} {first_nonce}", self.f);
        let is_made = *self.script.add(line) == Output::Ready;
        if is_made {
            self.note_fresh(id);
        }
        let rows = [
            (MADE_AGAIN[0], first_nonce > nonce),
            (MADE_AGAIN[1], is_made && first_nonce <= nonce),
            (MADE_AGAIN[2], !is_made),
        ];
        self.script.note_those("client", rows);
    }

    fn busy_writer(&mut self) -> Option<usize> {
        let busy = self.clients_that_are(true).into_iter();
        let busy: Vec<usize> = busy.filter(|&at| !is_viewer(self.clients[at].id)).collect();
        (!busy.is_empty()).then(|| self.random.pick(&busy))
    }

    /// Where there are defects, not always with a nonce above those used.
    pub fn make_some_again(&mut self) {
        let Some(at) = self.busy_writer() else {
            return self.begin();
        };
        let used = self.clients[at].nonce;
        let above = self.nonce_above(at);
        let first_nonce = match self.random.below(100) {
            0..=29 if self.style.defects > 0 => 0,
            30..=42 if self.style.defects > 0 => used,
            43..=54 if self.style.defects > 0 => used - 1,
            _ => above,
        };
        self.make_again(at, first_nonce);
    }

    pub fn hand_proof_to_busy(&mut self) {
        if let Some(at) = self.busy_writer() {
            self.hand_proof(at);
        }
    }

    /// Hands a writer a written proof, with defects now and then.
    pub fn hand_proof(&mut self, at: usize) {
        let Some(written) = self.proof_to_hand(REGISTERS) else {
            return;
        };
        if self.style.defects == 0 || self.random.percent(50) {
            return self.hand_written(at, written);
        }
        let Written {
            register, proof, ..
        } = written;
        let handing = spoiled_handing(self.random, register, proof, self.f);
        self.play_handing(at, handing);
    }

    /// A proof of one of these registers; where there are defects, a forged one now and then.
    fn proof_to_hand(&mut self, registers: RangeInclusive<u8>) -> Option<Written> {
        let known = self.known_proof(&registers);
        let forges = known.is_none() || self.random.percent(15);
        if self.style.defects == 0 || !forges {
            return known;
        }
        let some = good_register(self.random);
        Some(Written {
            register: some.clamp(*registers.start(), *registers.end()),
            proof: self.some_written_proof(),
        })
    }

    /// A proof that is known already, or one that WRITTENs give, early or late.
    fn known_proof(&mut self, registers: &RangeInclusive<u8>) -> Option<Written> {
        let fits = |written: &&Written| registers.contains(&written.register);
        let known: Vec<&Written> = self.written.iter().filter(fits).collect();
        if known.is_empty() || self.random.percent(50) {
            return self.gathered_proof(registers);
        }
        Some(self.random.pick(&known).clone())
    }

    /// A proof of WRITTENs that a quorum or more have sent. The signing box knows it from then on.
    fn gathered_proof(&mut self, registers: &RangeInclusive<u8>) -> Option<Written> {
        let quorum = quorum(self.f);
        let said = self.said_written.iter();
        let full: Vec<_> = said
            .filter(|((register, _), said)| registers.contains(register) && said.len() >= quorum)
            .collect();
        if full.is_empty() {
            return None;
        }
        let (&(register, timestamp), said) = self.random.pick(&full);
        let said: Vec<Entry> = said
            .iter()
            .map(|(&replica, &signature)| Entry { replica, signature })
            .collect();
        let entries = some_of(self.random, said, quorum);
        let gathered = Written {
            register,
            proof: WrittenProof { timestamp, entries },
        };
        self.written.push(gathered.clone());
        Some(gathered)
    }

    /// Hands over a proof as it is, now and then for another register. Some that are taken are followed by another.
    fn hand_written(&mut self, at: usize, written: Written) {
        let elsewhere = self.style.defects > 0 && self.random.percent(40);
        let register = if elsewhere {
            REGISTERS.end() + 1 - written.register
        } else {
            written.register
        };
        let answer = self.hand_for(at, written, register);
        if answer != Output::Taken || self.random.percent(60) {
            return;
        }
        if let Some(next) = self.proof_to_hand(register..=register) {
            self.hand_written(at, next);
        }
    }

    /// Hands over a proof with the verdicts of the signing box.
    fn hand_for(&mut self, at: usize, written: Written, register: u8) -> Output {
        let verdicts = self.written_verdicts(Some(register), &written.proof);
        let is_foreign = verdicts.contains(&0);
        let handing = Handing {
            register,
            proof: written.proof.encode(),
            verdicts,
        };
        let answer = self.play_handing(at, handing);
        let rows = [(FOREIGN, is_foreign && answer == Output::Refused(10))];
        self.script.note_those(HAND, rows);
        answer
    }

    /// Hands over a proof of any bytes.
    fn play_handing(&mut self, at: usize, handing: Handing) -> Output {
        let Handing {
            register,
            proof,
            verdicts,
        } = handing;
        let verdicts = self.verdicts_word(&verdicts, genuine_entries(&proof));
        let id = self.clients[at].id;
        let line = format!("{HAND} {id} {register} {} {verdicts}", hex(&proof));
        let answer = self.script.add(line).clone();
        match (&answer, WrittenProof::decode(&proof)) {
            (Output::Taken, Ok(proof)) => self.note_handed(at, register, proof.timestamp),
            (Output::Refused(refusal), _) => self.note_not_handed(at, register, *refusal),
            _ => (),
        }
        answer
    }

    fn note_handed(&mut self, at: usize, register: u8, timestamp: Timestamp) {
        let client = &mut self.clients[at];
        let earlier = client.handed.insert(register, timestamp);
        let rows = [
            (NEWER, earlier.is_some_and(|earlier| earlier < timestamp)),
            (OLDER, earlier.is_some_and(|earlier| earlier > timestamp)),
            (USED_UP, client.is_used_up()),
        ];
        self.script.note_those(HAND, rows);
    }

    fn note_not_handed(&mut self, at: usize, register: u8, refusal: Refusal) {
        let client = &self.clients[at];
        let has_own = client.wrote.contains(&register);
        let rows = [
            (BUSY, refusal == 17 && client.busy),
            (HAS_OWN, refusal == 17 && !client.busy && has_own),
            (BEFORE_17, refusal != 17 && (client.busy || has_own)),
        ];
        self.script.note_those(HAND, rows);
    }

    /// What a PREPARE with a written proof counts for if a replica takes it.
    pub fn proof_rows(&self, replica: u8, message: &[u8]) -> Option<[(&'static str, bool); 4]> {
        if message.get(2) != Some(&PREPARE) {
            return None;
        }
        let request = Message::decode(message).ok()?;
        let is_anothers = request.written.as_ref()?.timestamp.client != request.sender;
        let is_unblocked = is_anothers && self.is_blocked(replica, &request);
        let is_handed = self.handed_prepares.contains(covered(message));
        Some([
            (HANDED, is_handed),
            (ANOTHERS, is_anothers),
            (UNBLOCKED, is_unblocked),
            (FREED, is_unblocked && is_handed),
        ])
    }

    /// Whether a PREPARE would be refused with 15 if it showed no written proof.
    fn is_blocked(&self, replica: u8, request: &Message) -> bool {
        let Delivery { message, verdicts } = whole(&Message {
            written: None,
            ..request.clone()
        });
        let replica = self.script.player.replica(replica).cloned();
        let answer =
            replica.map(|mut replica| replica.receive(&message, &verdicts, LONGEST_MESSAGE));
        matches!(answer, Some(Err(15)))
    }
}
