//! The steps that are measured, and the replicas that take them, with their banks of sixteen registers: the proved one, through
//! its Rust wrapper, and the plain one. All at f = 5, with a card of 17 bytes and proofs of 11 entries.
use crate::plain_sha256::sha256;
use crate::{bank, plain_bank};
use std::hint::black_box;
use std::ops::RangeInclusive;

const F: u8 = 5;
pub const QUORUM: u8 = 2 * F + 1;
pub const OUTPUT: usize = bank::LONGEST_MESSAGE;
const REGISTERS: u8 = bank::REGISTERS as u8;

/// A card with all fields, 17 bytes, each as large as it may be: one bit more is a bad card.
pub const CARD: [u8; 17] = [
    0x00, 0x7f, 0x23, 0x28, 0x23, 0x28, 0x01, 0x5e, 0x01, 0x5e, 0x00, 0x1e, 0x84, 0x80, 0x04, 0x25,
    0x80,
];

/// A key of the office under which there is no order.
const ZERO_KEY: [u8; bank::KEY] = {
    let mut key = [0; bank::KEY];
    [key[3], key[7]] = [5, 4];
    key
};

/// A replica of either kind.
pub trait Served {
    fn made(key: &[u8]) -> Self;
    /// Takes an order that is genuine under its key. The plain replica checks none: `orders` times that.
    fn withdraw(&mut self, order: &[u8]);
    fn hand(&mut self, request: &Request, out: &mut [u8]) -> Result<usize, u8>;
    /// Of each register's held proof, replica r as bit r - 1.
    fn held_signers(&self) -> [u16; bank::REGISTERS];
}

impl Served for bank::Bank {
    fn made(key: &[u8]) -> Self {
        bank::Bank::fresh(F, bank::ReplicaId(1), key).unwrap()
    }

    fn withdraw(&mut self, order: &[u8]) {
        assert_eq!(self.take_order(order), bank::Taking::Taken);
    }

    #[inline(always)]
    fn hand(&mut self, request: &Request, out: &mut [u8]) -> Result<usize, u8> {
        match self.step(&request.message, &request.verdicts, out) {
            bank::Answer::Send(length) => Ok(length),
            bank::Answer::Refused(number) => Err(number),
        }
    }

    fn held_signers(&self) -> [u16; bank::REGISTERS] {
        self.registers()
            .each_ref()
            .map(|register| register.held.signers.0)
    }
}

impl Served for plain_bank::Bank {
    fn made(_: &[u8]) -> Self {
        plain_bank::Bank::fresh(F, 1).unwrap()
    }

    fn withdraw(&mut self, order: &[u8]) {
        self.withdrawn |= 1 << order[2];
    }

    #[inline(always)]
    fn hand(&mut self, request: &Request, out: &mut [u8]) -> Result<usize, u8> {
        self.step(&request.message, &request.verdicts, out)
    }

    fn held_signers(&self) -> [u16; bank::REGISTERS] {
        self.registers()
            .each_ref()
            .map(plain_bank::Register::signers)
    }
}

/// A message with a verdict for each signature.
#[derive(Clone, Debug)]
pub struct Request {
    pub message: Vec<u8>,
    pub verdicts: Vec<u8>,
}

impl Request {
    /// Makes it a request for a register: that is the byte before the signature.
    #[inline(always)]
    pub fn set_register(&mut self, register: u8) {
        let at = self.message.len() - 65;
        self.message[at] = register;
    }
}

/// A message for register 1 with `entries` entries in its proofs, and all signatures genuine.
pub fn request(map: u16, kind: u8, sender: u8, fields: &[&[u8]], entries: u8) -> Request {
    let parts: [&[u8]; 5] = [
        &map.to_be_bytes(),
        &[kind, sender],
        &fields.concat(),
        &[1],
        &[0; 64],
    ];
    Request {
        message: parts.concat(),
        verdicts: vec![1; 1 + usize::from(entries)],
    }
}

pub fn timestamp(count: u32, client: u8) -> Vec<u8> {
    [&count.to_be_bytes()[..], &[client]].concat()
}

/// The replicas that sign: the last ones, as a set.
const SIGNERS: RangeInclusive<u8> = F + 1..=3 * F + 1;
const SIGNER_SET: u16 = u16::MAX << F;

/// A quorum of entries behind their number.
fn entries() -> Vec<u8> {
    let mut bytes = vec![QUORUM];
    for id in SIGNERS {
        bytes.push(id);
        bytes.extend([id ^ 0x5a; 64]);
    }
    bytes
}

pub fn prepared_proof(count: u32, client: u8, digest: [u8; 32]) -> Vec<u8> {
    [timestamp(count, client), digest.to_vec(), entries()].concat()
}

pub fn written_proof(count: u32, client: u8) -> Vec<u8> {
    [timestamp(count, client), entries()].concat()
}

pub fn read_stamp(client: u8) -> Request {
    request(0x207, 1, client, &[&7u64.to_be_bytes()], 0)
}

pub fn read(client: u8) -> Request {
    request(0x207, 4, client, &[&7u64.to_be_bytes()], 0)
}

pub fn write(count: u32, client: u8, card: &[u8]) -> Request {
    let proof = prepared_proof(count, client, sha256(card));
    let fields: [&[u8]; 3] = [&[card.len() as u8], card, &proof];
    request(0x263, 3, client, &fields, QUORUM)
}

/// A PREPARE with both proofs, as a client's second and later writes send it.
fn prepare(count: u32) -> Request {
    let digest = sha256(&CARD);
    let fields: [&[u8]; 4] = [
        &timestamp(count, 1),
        &digest,
        &prepared_proof(count - 1, 1, digest),
        &written_proof(count - 1, 1),
    ];
    request(0x2db, 2, 1, &fields, 2 * QUORUM)
}

/// Where the timestamps' counts stand in a WRITE of the card, and in a PREPARE with both proofs.
const WRITE_COUNT: usize = 4 + 1 + CARD.len();
const PREPARE_COUNTS: [usize; 3] = [4, 41, 41 + 38 + 65 * QUORUM as usize];

/// A request that is handed again and again, for one register after the other, to a replica which has taken those of `before`
/// for each: no side has a register at hand that the other has to fetch.
pub struct Step {
    pub name: &'static str,
    before: Vec<Request>,
    request: Request,
    /// Where the counts stand that rise by one with each step.
    rising: Vec<usize>,
    /// The number of the refusal that must come; none where a message must be sent.
    refused: Option<u8>,
}

pub fn all() -> Vec<Step> {
    let held = write(1, 1, &CARD);
    let step = |name, request: &Request| Step {
        name,
        before: vec![held.clone(), prepare(2)],
        request: request.clone(),
        rising: Vec::new(),
        refused: None,
    };
    let mut unknown_bit = read(1);
    unknown_bit.message[0] |= 0x80;
    let mut not_genuine = held.clone();
    not_genuine.verdicts[usize::from(QUORUM)] = 0;
    vec![
        Step {
            rising: vec![WRITE_COUNT],
            ..step("WRITE, stored", &held)
        },
        step("WRITE, not stored", &held),
        step("READ", &read(1)),
        step("READ-STAMP", &read_stamp(1)),
        Step {
            rising: PREPARE_COUNTS.to_vec(),
            ..step("PREPARE, new slot", &prepare(2))
        },
        step("PREPARE, again", &prepare(2)),
        Step {
            refused: Some(3),
            ..step("refused 3", &unknown_bit)
        },
        Step {
            refused: Some(10),
            ..step("WRITE, refused 10", &not_genuine)
        },
    ]
}

/// A replica that takes a step again and again.
pub struct Taking<'a, R> {
    step: &'a Step,
    replica: R,
    request: Request,
    register: u8,
    out: [u8; OUTPUT],
}

impl<'a, R: Served> Taking<'a, R> {
    pub fn new(step: &'a Step) -> Self {
        let mut replica = R::made(&ZERO_KEY);
        let mut out = [0; OUTPUT];
        for request in &step.before {
            let mut request = request.clone();
            for register in 1..=REGISTERS {
                request.set_register(register);
                replica.hand(&request, &mut out).unwrap();
            }
        }
        assert_eq!(replica.held_signers(), [SIGNER_SET; bank::REGISTERS]);
        Taking {
            step,
            replica,
            request: step.request.clone(),
            register: REGISTERS,
            out,
        }
    }

    #[inline(always)]
    pub fn again(&mut self) {
        for &at in &self.step.rising {
            raise(&mut self.request.message[at..at + 4]);
        }
        self.register = self.register % REGISTERS + 1;
        self.request.set_register(self.register);
        let answer = measured_step(
            &mut self.replica,
            black_box(&self.request),
            black_box(&mut self.out),
        );
        assert_eq!(answer.err(), self.step.refused);
    }
}

#[inline(always)]
fn raise(count: &mut [u8]) {
    let raised = 1 + u32::from_be_bytes((&*count).try_into().unwrap());
    count.copy_from_slice(&raised.to_be_bytes());
}

/// A function of its own, so that callgrind can count what it executes and nothing else.
#[inline(never)]
fn measured_step<R: Served>(
    replica: &mut R,
    request: &Request,
    out: &mut [u8],
) -> Result<usize, u8> {
    replica.hand(request, out)
}
