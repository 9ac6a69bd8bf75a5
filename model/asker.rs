//! What clients and viewing clients share: number and nonces, the tests of a reply, and replies that show what a replica holds.
use super::message::*;
use std::collections::BTreeSet;
use std::ops::RangeInclusive;

/// What a replica showed in a TIMESTAMP or a CARD.
#[derive(Clone)]
pub struct Shown {
    pub replica: u8,
    pub proof: Option<PreparedProof>,
    pub card: Vec<u8>,
}

impl Shown {
    pub fn new(reply: Message) -> Shown {
        Shown {
            replica: reply.sender,
            proof: reply.prepared,
            card: reply.card.unwrap_or_default(),
        }
    }

    pub fn timestamp(&self) -> Timestamp {
        self.proof
            .as_ref()
            .map_or(Timestamp::START, |proof| proof.timestamp)
    }

    /// What an operation shows whose best reply this is.
    pub fn done(&self) -> Done {
        Done {
            timestamp: self.timestamp(),
            card: self.card.clone(),
            signers: self
                .proof
                .as_ref()
                .map_or_else(BTreeSet::new, PreparedProof::signers),
        }
    }
}

/// The first of the replies with the largest timestamp.
pub fn latest(replies: Vec<Shown>) -> Shown {
    let later = |best: Shown, next: Shown| {
        if next.timestamp() > best.timestamp() {
            next
        } else {
            best
        }
    };
    replies
        .into_iter()
        .reduce(later)
        .expect("a quorum of replies")
}

#[derive(Clone)]
pub struct Asker {
    pub f: u8,
    pub id: u8,
    /// The nonce of the next operation; `None` after 2^64 - 1 was used.
    next_nonce: Option<u64>,
    /// The nonce of the operation begun last.
    nonce: u64,
    /// Its register; 0 before the first.
    pub register: u8,
}

impl Asker {
    /// Test 16, for a party with one of these numbers.
    pub fn new(f: u8, id: u8, ids: RangeInclusive<u8>, first_nonce: u64) -> Result<Asker, Refusal> {
        let in_range = FAULT_BOUNDS.contains(&f) && ids.contains(&id) && first_nonce != 0;
        refuse_if(16, !in_range)?;
        Ok(Asker {
            f,
            id,
            next_nonce: Some(first_nonce),
            nonce: 0,
            register: 0,
        })
    }

    /// Test 17, and the nonce of the operation that begins. Nonces and operations are counted over all registers.
    pub fn begin(&mut self, register: u8, busy: bool) -> Result<(), Refusal> {
        refuse_if(17, busy)?;
        self.nonce = self.next_nonce.ok_or(17)?;
        self.next_nonce = self.nonce.checked_add(1);
        self.register = register;
        Ok(())
    }

    pub fn ask(&self, kind: u8) -> Answer {
        let question = Message {
            nonce: Some(self.nonce),
            ..Message::new(kind, self.id, self.register)
        };
        Answer::Sent(question.encode())
    }

    /// Tests 1 to 11, with 20, then 14, and of 18 that the reply is for the register of the operation begun last: an idle
    /// party awaits none, for whichever register.
    pub fn check_reply(
        &self,
        bytes: &[u8],
        verdicts: &[u8],
        room: usize,
    ) -> Result<Message, Refusal> {
        check_room(room)?;
        let reply = Receiver::Client.check(bytes, verdicts, self.f, &BTreeSet::new())?;
        reply.check_card()?;
        refuse_if(18, reply.register() != self.register)?;
        Ok(reply)
    }

    /// Of test 18: whether a reply for this register is awaited from its replica in this kind, after these replies.
    pub fn awaits(&self, kind: u8, replies: &[Shown], reply: &Message) -> bool {
        reply.kind == kind
            && reply.nonce == Some(self.nonce)
            && reply.addressed == Some(self.id)
            && replies
                .iter()
                .all(|earlier| earlier.replica != reply.sender)
    }
}
