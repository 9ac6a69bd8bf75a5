//! A replica's bank of sixteen registers, over the static library of the crate `bank`. Safe: nothing that a caller can pass
//! breaks a promise. Link it with `-L native=target/staticlib -l static=bank`, after `rust/staticlib bank`.
use std::mem::{align_of, offset_of, size_of};

/// The longest message, and the shortest output that is not refused.
pub const LONGEST_MESSAGE: usize = 1_580;

/// How many registers a replica keeps: 1 to this.
pub const REGISTERS: usize = 16;

/// How long the office's public key is.
pub const KEY: usize = 56;

/// A replica's number.
#[repr(C)]
#[derive(Clone, Copy, Debug, PartialEq, Eq)]
pub struct ReplicaId(pub u8);

/// How a call ended.
#[derive(Clone, Copy, Debug, PartialEq, Eq)]
pub enum Answer {
    /// A message of so many bytes stands in front of the output.
    Send(usize),
    /// The refusal's number. Record and output are as they were.
    Refused(u8),
}

/// How a call ended that sends nothing.
#[derive(Clone, Copy, Debug, PartialEq, Eq)]
pub enum Taking {
    Taken,
    /// The refusal's number. The record is as it was.
    Refused(u8),
}

/// A replica's record, 49,488 bytes. It is not `Copy`: of one replica there is one record, which its steps change.
#[derive(Debug, PartialEq, Eq)]
pub struct Bank {
    record: Record,
}

impl Bank {
    /// Replica `id` for the fault bound `f`, as it is set up; none if a number is out of range or the office's public key
    /// is of another length or other type codes (refusal 16).
    pub fn fresh(f: u8, id: ReplicaId, key: &[u8]) -> Option<Bank> {
        // SAFETY: the function takes numbers and bytes of any value and returns a struct in C's layout. The pointer comes
        // from a reference, points to as many bytes as the length says, and is not kept.
        let made = unsafe { bank_fresh(f, id, key.as_ptr(), key.len()) };
        made.good.then_some(Bank { record: made.bank })
    }

    /// What each register has, register 1 first.
    pub fn registers(&self) -> &[Register; REGISTERS] {
        &self.record.registers
    }

    /// The clients that orders have withdrawn.
    pub fn withdrawn(&self) -> &ClientSet {
        &self.record.withdrawn
    }

    /// The replica is handed a message with a verdict for each signature; the reply goes to `out`.
    pub fn step(&mut self, message: &[u8], verdicts: &[u8], out: &mut [u8]) -> Answer {
        // SAFETY: the function has no precondition: it takes records and bytes of any value and slices of any length.
        // Each pointer comes from a reference, so it is not null and is aligned, and it points to as many bytes as the
        // length beside it says. `self` and `out` are exclusive, so they overlap neither each other nor the two shared
        // slices, which are only read and may overlap. None is kept after the call.
        let answer = unsafe {
            bank_step(
                &mut self.record,
                message.as_ptr(),
                message.len(),
                verdicts.as_ptr(),
                verdicts.len(),
                out.as_mut_ptr(),
                out.len(),
            )
        };
        if answer.sent {
            Answer::Send(answer.number)
        } else {
            // a refusal's number is a `u8` of the library, widened
            Answer::Refused(answer.number as u8)
        }
    }

    /// The replica is handed a withdrawal order.
    pub fn take_order(&mut self, order: &[u8]) -> Taking {
        // SAFETY: as for `step`: `self` is exclusive, the order is only read, and neither is kept.
        let answer = unsafe { bank_take_order(&mut self.record, order.as_ptr(), order.len()) };
        if answer.taken {
            Taking::Taken
        } else {
            Taking::Refused(answer.number)
        }
    }
}

// The structs of the library, which are `#[repr(C)]` there too, with the same fields in the same order. All fields are
// numbers and arrays of numbers, so every value of their bytes is a value of the struct.

#[repr(C)]
#[derive(Clone, Debug, PartialEq, Eq)]
pub struct Timestamp {
    pub count: u32,
    pub client: u8,
}

/// What was prepared last for each client, client 1 first, a count of 0 for nothing; and the written timestamp.
#[repr(C)]
#[derive(Clone, Debug, PartialEq, Eq)]
pub struct Slots {
    pub counts: [u32; 64],
    pub digests: [u8; 2048],
    pub written: Timestamp,
}

/// Replica r is bit r - 1.
#[repr(C)]
#[derive(Clone, Debug, PartialEq, Eq)]
pub struct ReplicaSet(pub u16);

/// Client c of 1 to 64 is bit c - 1 of `writers`, client c of 65 to 96 bit c - 65 of `viewers`.
#[repr(C)]
#[derive(Clone, Debug, PartialEq, Eq)]
pub struct ClientSet {
    pub writers: u64,
    pub viewers: u32,
}

/// What is held: at timestamp 0.0 the starting card, with no signers and no entries. Behind a card and entries stand zeros.
#[repr(C)]
#[derive(Clone, Debug, PartialEq, Eq)]
pub struct Held {
    pub timestamp: Timestamp,
    pub card_length: u8,
    pub card: [u8; 17],
    pub digest: [u8; 32],
    pub signers: ReplicaSet,
    pub entry_count: u8,
    pub entries: [u8; 715],
}

/// One register's own record.
#[repr(C)]
#[derive(Clone, Debug, PartialEq, Eq)]
pub struct Register {
    pub slots: Slots,
    pub held: Held,
}

#[repr(C)]
#[derive(Debug, PartialEq, Eq)]
struct Record {
    f: u8,
    id: ReplicaId,
    registers: [Register; REGISTERS],
    withdrawn: ClientSet,
    key: [u8; KEY],
}

#[repr(C)]
struct MadeBank {
    good: bool,
    bank: Record,
}

#[repr(C)]
struct NumberedAnswer {
    sent: bool,
    number: usize,
}

#[repr(C)]
struct NumberedTaking {
    taken: bool,
    number: u8,
}

// C's layout on x86-64: a field that moved or grew does not compile.
const _: () = {
    assert!(size_of::<Timestamp>() == 8);
    assert!(offset_of!(Slots, digests) == 256);
    assert!(offset_of!(Slots, written) == 2_304);
    assert!(offset_of!(Held, card_length) == 8);
    assert!(offset_of!(Held, card) == 9);
    assert!(offset_of!(Held, digest) == 26);
    assert!(offset_of!(Held, signers) == 58);
    assert!(offset_of!(Held, entry_count) == 60);
    assert!(offset_of!(Held, entries) == 61);
    assert!(size_of::<Held>() == 776);
    assert!(offset_of!(Register, held) == 2_312);
    assert!(size_of::<Register>() == 3_088);
    assert!(offset_of!(Record, registers) == 4);
    assert!(offset_of!(ClientSet, viewers) == 8 && size_of::<ClientSet>() == 16);
    assert!(offset_of!(Record, withdrawn) == 49_416);
    assert!(offset_of!(Record, key) == 49_432);
    assert!(size_of::<Record>() == 49_488 && align_of::<Record>() == 8);
    assert!(offset_of!(MadeBank, bank) == 8);
    assert!(offset_of!(NumberedAnswer, number) == 8);
    assert!(offset_of!(NumberedTaking, number) == 1);
};

extern "C" {
    // A slice crosses as its pointer and its length.
    fn bank_fresh(f: u8, id: ReplicaId, key: *const u8, key_length: usize) -> MadeBank;

    fn bank_step(
        bank: *mut Record,
        message: *const u8,
        message_length: usize,
        verdicts: *const u8,
        verdicts_length: usize,
        out: *mut u8,
        out_length: usize,
    ) -> NumberedAnswer;

    fn bank_take_order(bank: *mut Record, order: *const u8, order_length: usize) -> NumberedTaking;
}
