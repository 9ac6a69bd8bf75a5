//! A plain Rust replica with its sixteen registers, to measure the proved one by: slices and fixed arrays, no heap. It finds
//! the register and changes it in place.
use crate::plain_sha256::sha256;
use std::ops::RangeInclusive;

const LONGEST_MESSAGE: usize = 1_580;
const SIGNATURE: usize = 64;
const ENTRY: usize = 1 + SIGNATURE;
const MOST_ENTRIES: usize = 11;
/// Clients 1 to 96; those above 64 only read.
const CLIENTS: u8 = 96;
const WRITERS: u8 = 64;
const REGISTERS: usize = 16;
const READ: u8 = 4;

/// The length of a sent message, or the refusal's number.
pub type Answer = Result<usize, u8>;

/// Count and client as one number, so that order is the number's.
#[derive(Clone, Copy, PartialEq, Eq, PartialOrd, Ord)]
struct Timestamp(u64);

impl Timestamp {
    const START: Timestamp = Timestamp(0);

    fn new(count: u32, client: u8) -> Timestamp {
        Timestamp(u64::from(count) << 8 | u64::from(client))
    }

    fn read(bytes: &[u8; 5]) -> Timestamp {
        let [count @ .., client] = *bytes;
        Timestamp::new(u32::from_be_bytes(count), client)
    }

    fn count(self) -> u32 {
        (self.0 >> 8) as u32
    }

    fn client(self) -> u8 {
        self.0 as u8
    }

    fn is_issued(self) -> bool {
        self.count() != 0 && (1..=WRITERS).contains(&self.client())
    }
}

const NO_DIGEST: &[u8; 32] = &[0; 32];

#[derive(Clone, Copy)]
struct Proof<'a> {
    timestamp: Timestamp,
    digest: &'a [u8; 32],
    entries: &'a [u8],
}

/// The fields that a request can have.
struct Request<'a> {
    map: u16,
    kind: u8,
    sender: u8,
    nonce: [u8; 8],
    timestamp: Timestamp,
    digest: &'a [u8; 32],
    card: &'a [u8],
    prepared: Option<Proof<'a>>,
    written: Option<Proof<'a>>,
    register: u8,
}

/// Takes bytes from the front of what is left of a message.
struct Reader<'a>(&'a [u8]);

impl<'a> Reader<'a> {
    fn take(&mut self, count: usize) -> Result<&'a [u8], u8> {
        let (part, rest) = self.0.split_at_checked(count).ok_or(4)?;
        self.0 = rest;
        Ok(part)
    }

    fn array<const N: usize>(&mut self) -> Result<&'a [u8; N], u8> {
        let (part, rest) = self.0.split_first_chunk().ok_or(4)?;
        self.0 = rest;
        Ok(part)
    }

    fn byte(&mut self) -> Result<u8, u8> {
        let [byte] = self.array()?;
        Ok(*byte)
    }

    fn timestamp(&mut self) -> Result<Timestamp, u8> {
        self.array().map(Timestamp::read)
    }

    /// Whether a number of two bytes is there, and in a range.
    fn number_in(&mut self, range: RangeInclusive<u16>) -> bool {
        let in_range = |&number| range.contains(&u16::from_be_bytes(number));
        self.array().is_ok_and(in_range)
    }

    fn entries(&mut self) -> Result<&'a [u8], u8> {
        let count = self.byte()?;
        self.take(ENTRY * usize::from(count))
    }
}

fn read(message: &[u8]) -> Result<Request<'_>, u8> {
    if message.len() < 2 || message.len() > LONGEST_MESSAGE {
        return Err(2);
    }
    let map = u16::from_be_bytes([message[0], message[1]]);
    if map & 3 != 3 || map >= 1 << 10 {
        return Err(3);
    }
    let has = |bit: u32| map >> bit & 1 == 1;
    let mut rest = Reader(&message[2..]);
    let mut request = Request {
        map,
        kind: rest.byte()?,
        sender: rest.byte()?,
        nonce: [0; 8],
        timestamp: Timestamp::START,
        digest: NO_DIGEST,
        card: &[],
        prepared: None,
        written: None,
        register: 0,
    };
    if has(2) {
        request.nonce = *rest.array()?;
    }
    if has(3) {
        request.timestamp = rest.timestamp()?;
    }
    if has(4) {
        request.digest = rest.array()?;
    }
    if has(5) {
        let length = rest.byte()?;
        request.card = rest.take(usize::from(length))?;
    }
    if has(6) {
        request.prepared = Some(Proof {
            timestamp: rest.timestamp()?,
            digest: rest.array()?,
            entries: rest.entries()?,
        });
    }
    if has(7) {
        request.written = Some(Proof {
            timestamp: rest.timestamp()?,
            digest: NO_DIGEST,
            entries: rest.entries()?,
        });
    }
    if has(8) {
        rest.byte()?;
    }
    if has(9) {
        request.register = rest.byte()?;
    }
    if rest.0.len() != SIGNATURE {
        return Err(4);
    }
    let fits = match request.kind {
        1 | 4 => map == 0x207,
        2 => map & !0xc0 == 0x21b,
        3 => map == 0x263,
        _ => false,
    };
    if !fits {
        return Err(5);
    }
    if !(1..=CLIENTS).contains(&request.sender) {
        return Err(6);
    }
    if request.sender > WRITERS && request.kind != READ {
        return Err(19);
    }
    if !(1..=REGISTERS).contains(&usize::from(request.register)) {
        return Err(20);
    }
    Ok(request)
}

/// Tests 7 to 11. Gives the signers of the prepared proof.
fn check(request: &Request, f: u8, withdrawn: u128, verdicts: &[u8]) -> Result<u16, u8> {
    let proofs = || request.prepared.iter().chain(&request.written);
    let signatures = 1 + proofs().map(|p| p.entries.len() / ENTRY).sum::<usize>();
    // the bits that some verdict has, and those that all have
    let (mut some, mut all) = (0, 1);
    for verdict in verdicts {
        some |= verdict;
        all &= verdict;
    }
    if verdicts.len() != signatures || some > 1 {
        return Err(7);
    }
    if verdicts[0] == 0 {
        return Err(8);
    }
    if withdrawn >> request.sender & 1 == 1 {
        return Err(23);
    }
    let prepared = request.prepared.map_or(Some(0), |p| signers(p.entries, f));
    let written = request.written.map_or(Some(0), |p| signers(p.entries, f));
    let (Some(signers), Some(_)) = (prepared, written) else {
        return Err(9);
    };
    if all == 0 {
        return Err(10);
    }
    let issued = request.map & 8 == 0 || request.timestamp.is_issued();
    if !issued || !proofs().all(|p| p.timestamp.is_issued()) {
        return Err(11);
    }
    Ok(signers)
}

/// The signers of a quorum, replica r as bit r - 1: they rise, and of those that do only the last can be too large.
fn signers(entries: &[u8], f: u8) -> Option<u16> {
    // replica r as bit r, modulo 32
    let (mut last, mut signers) = (0, 0u32);
    let good = entries.len() == ENTRY * usize::from(2 * f + 1)
        && entries.chunks_exact(ENTRY).all(|entry| {
            let rises = last < entry[0];
            last = entry[0];
            signers |= 1u32.wrapping_shl(last.into());
            rises
        })
        && last <= 3 * f + 1;
    good.then_some((signers >> 1) as u16)
}

/// Whether the bytes are a card that keeps its table. Written out, since a loop over a table takes 12 ns more.
fn keeps_table(card: &[u8]) -> bool {
    let Some((&[0, map], fields)) = card.split_first_chunk() else {
        return false;
    };
    let has = |bit: u32| map >> bit & 1 == 1;
    let mut rest = Reader(fields);
    has(0) == has(1)
        && !has(7)
        && (!has(0) || rest.number_in(4_000..=9_000))
        && (!has(1) || rest.number_in(4_000..=9_000))
        && (!has(2) || rest.number_in(150..=350))
        && (!has(3) || rest.number_in(150..=350))
        && (!has(4)
            || rest
                .array()
                .is_ok_and(|&km| u32::from_be_bytes(km) <= 2_000_000))
        && (!has(5) || rest.byte().is_ok_and(|state| (1..=4).contains(&state)))
        && (!has(6) || rest.take(2).is_ok())
        && rest.0.is_empty()
}

/// Writes a reply into the front of the output.
struct Writer<'a> {
    out: &'a mut [u8],
    length: usize,
}

impl<'a> Writer<'a> {
    fn new(out: &'a mut [u8], map: u16, kind: u8, sender: u8) -> Writer<'a> {
        let mut writer = Writer { out, length: 0 };
        writer.put(&map.to_be_bytes());
        writer.put(&[kind, sender]);
        writer
    }

    fn put(&mut self, bytes: &[u8]) {
        self.out[self.length..][..bytes.len()].copy_from_slice(bytes);
        self.length += bytes.len();
    }

    #[inline(always)]
    fn timestamp(&mut self, timestamp: Timestamp) {
        self.put(&timestamp.count().to_be_bytes());
        self.put(&[timestamp.client()]);
    }

    /// The message ends with the register and the signature's zeros.
    fn sealed(mut self, register: u8) -> Answer {
        self.put(&[register]);
        self.put(&[0; SIGNATURE]);
        Ok(self.length)
    }
}

pub struct Register {
    counts: [u32; 64],
    digests: [[u8; 32]; 64],
    written: Timestamp,
    timestamp: Timestamp,
    card_length: u8,
    card: [u8; 17],
    digest: [u8; 32],
    signers: u16,
    entry_count: u8,
    entries: [u8; ENTRY * MOST_ENTRIES],
}

pub struct Bank {
    f: u8,
    id: u8,
    registers: [Register; REGISTERS],
    /// Client c is bit c.
    pub withdrawn: u128,
}

impl Bank {
    pub fn fresh(f: u8, id: u8) -> Option<Bank> {
        let good = (1..=5).contains(&f) && (1..=3 * f + 1).contains(&id);
        good.then_some(Bank {
            f,
            id,
            registers: [const { Register::FRESH }; REGISTERS],
            withdrawn: 0,
        })
    }

    pub fn registers(&self) -> &[Register; REGISTERS] {
        &self.registers
    }

    pub fn step(&mut self, message: &[u8], verdicts: &[u8], out: &mut [u8]) -> Answer {
        if out.len() < LONGEST_MESSAGE {
            return Err(1);
        }
        let request = read(message)?;
        let signers = check(&request, self.f, self.withdrawn, verdicts)?;
        let register = &mut self.registers[usize::from(request.register) - 1];
        match request.kind {
            1 => register.read_stamp(self.id, &request, out),
            2 => register.prepare(self.id, &request, out),
            3 => register.write(self.id, &request, signers, out),
            _ => register.read(self.id, &request, out),
        }
    }
}

impl Register {
    const FRESH: Register = Register {
        counts: [0; 64],
        digests: [[0; 32]; 64],
        written: Timestamp::START,
        timestamp: Timestamp::START,
        card_length: 2,
        card: [0; 17],
        digest: [0; 32],
        signers: 0,
        entry_count: 0,
        entries: [0; ENTRY * MOST_ENTRIES],
    };

    pub fn signers(&self) -> u16 {
        self.signers
    }

    #[inline(always)]
    fn put_proof(&self, reply: &mut Writer) {
        if self.timestamp > Timestamp::START {
            reply.timestamp(self.timestamp);
            reply.put(&self.digest);
            reply.put(&[self.entry_count]);
            reply.put(&self.entries[..ENTRY * usize::from(self.entry_count)]);
        }
    }

    fn proof_bit(&self) -> u16 {
        u16::from(self.timestamp > Timestamp::START) << 6
    }

    fn read_stamp(&self, id: u8, request: &Request, out: &mut [u8]) -> Answer {
        let mut reply = Writer::new(out, 0x307 | self.proof_bit(), 5, id);
        reply.put(&request.nonce);
        self.put_proof(&mut reply);
        reply.put(&[request.sender]);
        reply.sealed(request.register)
    }

    fn prepare(&mut self, id: u8, request: &Request, out: &mut [u8]) -> Answer {
        let client = request.sender;
        let shown = request.prepared.map_or(Timestamp::START, |p| p.timestamp);
        let successor = shown.count().checked_add(1).ok_or(13)?;
        let new = request.timestamp;
        if new != Timestamp::new(successor, client) {
            return Err(13);
        }
        let last = request.written.map_or(Timestamp::START, |p| p.timestamp);
        let written = self.written.max(last);
        let at = usize::from(client) - 1;
        let slot = Timestamp::new(self.counts[at], client);
        if slot != new || self.digests[at] != *request.digest {
            if slot.count() != 0 && (slot > written || slot >= new) {
                return Err(15);
            }
            self.counts[at] = new.count();
            self.digests[at] = *request.digest;
        }
        self.written = written;
        let mut reply = Writer::new(out, 0x21b, 6, id);
        reply.timestamp(new);
        reply.put(request.digest);
        reply.sealed(request.register)
    }

    fn write(&mut self, id: u8, request: &Request, signers: u16, out: &mut [u8]) -> Answer {
        let proof = request.prepared.ok_or(5)?;
        let card = request.card;
        if !keeps_table(card) || sha256(card) != *proof.digest {
            return Err(14);
        }
        if proof.timestamp > self.timestamp {
            self.timestamp = proof.timestamp;
            self.card_length = card.len() as u8;
            self.card = [0; 17];
            self.card[..card.len()].copy_from_slice(card);
            self.digest = *proof.digest;
            self.signers = signers;
            self.entry_count = (proof.entries.len() / ENTRY) as u8;
            self.entries[..proof.entries.len()].copy_from_slice(proof.entries);
        }
        let mut reply = Writer::new(out, 0x20b, 7, id);
        reply.timestamp(proof.timestamp);
        reply.sealed(request.register)
    }

    fn read(&self, id: u8, request: &Request, out: &mut [u8]) -> Answer {
        let mut reply = Writer::new(out, 0x327 | self.proof_bit(), 8, id);
        reply.put(&request.nonce);
        reply.put(&[self.card_length]);
        reply.put(&self.card[..usize::from(self.card_length)]);
        self.put_proof(&mut reply);
        reply.put(&[request.sender]);
        reply.sealed(request.register)
    }
}
