//! How often each call had each answer, and whether that is often enough.
use crate::generate::{Finished, Script};
use crate::model::message::{Done, Message, Timestamp, CARD, KIND_NAMES, LONGEST_MESSAGE, VIEWERS};
use crate::model::script::{lent, unhex, Output};
use std::cmp::Ordering;
use std::collections::{BTreeMap, BTreeSet};
use std::ops::RangeInclusive;

/// Rows beside the answers: outputs on both sides of test 1; answered messages of the largest length; messages that are too
/// long (2) or almost (9) by the entries of one proof or of two.
const LENT: [&str; 2] = ["lent 1579", "lent 1580"];
const LONGEST: &str = "longest";
const LONG: [&str; 2] = ["long, 2", "long, 9"];
const BOTH_LONG: [&str; 2] = ["both, 2", "both, 9"];

/// Views that are done while some replica holds a smaller timestamp than they show, the same, or a larger one.
const HELD: [&str; 3] = ["held less", "held same", "held more"];
const DONE: &str = "done";
const TAKEN: &str = "taken";

/// What a script calls an order, and handing a client a written proof.
pub const ORDER: &str = "order";
pub const HAND: &str = "hand";

/// Operations that are done: with other signers than the replicas that were counted, or that showed the card; with CARDs of the
/// timestamp that others signed than the first one; with a signer above 8; at 0.0, after a proof.
const SIGNERS: [&str; 4] = ["unheard", "tie", "above 8", "back at 0.0"];
/// Operations at their end, by the messages that they sent, as document 02, #107, counts them; and with another count, which
/// cannot occur.
pub const SENT: [&str; 4] = ["3, write", "1, read", "2, read", "1, ended"];
pub const MISCOUNTED: &str = "miscounted";
/// WRITEs of the held timestamp that others signed than the held proof.
pub const RIVAL: &str = "rival";
/// WRITEs of a timestamp that the replica holds with another card in another register.
pub const TWIN: &str = "twin";
/// Messages, and written proofs that are handed over, refused with 10 for a proof of another register.
pub const FOREIGN: &str = "foreign";
/// Replies refused with 18 for their register alone.
pub const ELSEWHERE: &str = "elsewhere";
/// PREPAREs of clients that have finished writes of other registers: with their own written proof of this one, or with none.
pub const OWN_PROOF: &str = "own proof";
pub const NO_PROOF: &str = "no proof";
/// PREPAREs that show a written proof handed to their client, as sent and as taken by a replica.
pub const HANDED: &str = "handed";
/// PREPAREs taken with another client's written proof; those of them that would be refused with 15 without it; and those of these
/// whose client was handed it.
pub const ANOTHERS: &str = "another's";
pub const UNBLOCKED: &str = "unblocked";
pub const FREED: &str = "freed";
/// Busy clients that are made again: with a nonce above those used, with another, or refused for nonce 0.
pub const MADE_AGAIN: [&str; 3] = ["nonce above", "nonce used", "16, nonce 0"];
/// Written proofs refused with 17 because the client is busy, or for its own one alone; refused before 17, of such a client.
pub const BUSY: &str = "17, busy";
pub const HAS_OWN: &str = "17, own";
pub const BEFORE_17: &str = "before 17";
/// Taken in place of one with an earlier timestamp, or with a later one; by a client whose nonces are used up.
pub const NEWER: &str = "newer";
pub const OLDER: &str = "older";
pub const USED_UP: &str = "used up";
/// Set-ups refused with 16 for the key alone.
pub const BAD_KEY: &str = "16, key";
/// Orders taken against a client that is withdrawn already, or against a viewing client.
pub const AGAIN: &str = "again";
pub const SCREEN: &str = "a viewer's";
/// Registers, once for each client that all correct replicas have withdrawn, by how many of its timestamps ever have a genuine
/// prepared proof and are above the (f + 1)th that these replicas held then (document 02, #108); more than one cannot occur.
pub const AHEAD: [&str; 2] = ["none ahead", "one ahead"];
pub const TOO_FAR: &str = "more ahead";
/// Those with two or more above the (f + 2)th, which would be too small a bound; and those whose one above the (f + 1)th no correct
/// replica held then, and one holds at the end.
pub const PAST_NEXT: &str = "past f + 2";
pub const SURFACED: &str = "surfaced";
/// Requests refused with 23, by kind, and those of viewing clients.
const SHUT_OUT: [&str; 5] = [
    "23, R-STAMP",
    "23, PREPARE",
    "23, WRITE",
    "23, READ",
    "23, viewer",
];
/// Withdrawn clients' messages: refused with 8, before 23, or with 23 although 9, 10 or 11 would refuse them too.
pub const FORGED: &str = "8, not 23";
pub const UNPROVED: &str = "23, not 9";
/// Refused with 20 for the number beside the registers, below or above, or not refused for the last one.
const REGISTER: [&str; 3] = ["register 0", "register 17", "register 16"];

/// What beginning a read or a view can answer.
const BEGIN_READ: [&str; 6] = [
    "READ",
    LENT[0],
    LENT[1],
    REGISTER[0],
    REGISTER[1],
    REGISTER[2],
];

/// What a line is: the set-up, keeping and restoring of a party, or a call.
struct Column {
    name: &'static str,
    is_call: bool,
    rows: &'static [&'static str],
    refusals: &'static [u8],
}

/// All that can occur, by documents 01 and 02: a refusal that a column does not have, as 12, must not.
const COLUMNS: [Column; 11] = [
    Column {
        name: "replica",
        is_call: false,
        rows: &["ready", "kept", "restored", BAD_KEY],
        refusals: &[16],
    },
    Column {
        name: "client",
        is_call: false,
        rows: &[
            "ready",
            "kept",
            "restored",
            MADE_AGAIN[0],
            MADE_AGAIN[1],
            MADE_AGAIN[2],
        ],
        refusals: &[16],
    },
    Column {
        name: "viewer",
        is_call: false,
        rows: &["ready", "kept", "restored"],
        refusals: &[16],
    },
    Column {
        name: "write",
        is_call: true,
        rows: &[
            "READ-STAMP",
            LENT[0],
            LENT[1],
            REGISTER[0],
            REGISTER[1],
            REGISTER[2],
        ],
        refusals: &[1, 14, 17, 20],
    },
    Column {
        name: "read",
        is_call: true,
        rows: &BEGIN_READ,
        refusals: &[1, 17, 20],
    },
    Column {
        name: "view",
        is_call: true,
        rows: &BEGIN_READ,
        refusals: &[1, 17, 20],
    },
    Column {
        name: ORDER,
        is_call: true,
        rows: &[
            TAKEN, AGAIN, SCREEN, AHEAD[0], AHEAD[1], PAST_NEXT, SURFACED,
        ],
        refusals: &[21, 22],
    },
    Column {
        name: HAND,
        is_call: true,
        rows: &[
            TAKEN,
            NEWER,
            OLDER,
            USED_UP,
            BUSY,
            HAS_OWN,
            BEFORE_17,
            FOREIGN,
            REGISTER[0],
            REGISTER[1],
            REGISTER[2],
        ],
        refusals: &[4, 7, 9, 10, 11, 17, 20],
    },
    Column {
        name: "to-replica",
        is_call: true,
        rows: &[
            "STAMP",
            "PREPARED",
            "WRITTEN",
            "CARD",
            LENT[0],
            LENT[1],
            LONGEST,
            LONG[0],
            LONG[1],
            BOTH_LONG[0],
            BOTH_LONG[1],
            RIVAL,
            TWIN,
            FOREIGN,
            SHUT_OUT[0],
            SHUT_OUT[1],
            SHUT_OUT[2],
            SHUT_OUT[3],
            SHUT_OUT[4],
            FORGED,
            UNPROVED,
            HANDED,
            ANOTHERS,
            UNBLOCKED,
            FREED,
            REGISTER[0],
            REGISTER[1],
            REGISTER[2],
        ],
        refusals: &[1, 2, 3, 4, 5, 6, 7, 8, 9, 10, 11, 13, 14, 15, 19, 20, 23],
    },
    Column {
        name: "to-client",
        is_call: true,
        rows: &[
            "PREPARE",
            "WRITE",
            "counted",
            DONE,
            SIGNERS[0],
            SIGNERS[1],
            SIGNERS[2],
            SIGNERS[3],
            SENT[0],
            SENT[1],
            SENT[2],
            SENT[3],
            "ended",
            LENT[0],
            LENT[1],
            LONG[0],
            LONG[1],
            FOREIGN,
            ELSEWHERE,
            OWN_PROOF,
            NO_PROOF,
            HANDED,
            REGISTER[0],
            REGISTER[1],
            REGISTER[2],
        ],
        refusals: &[1, 2, 3, 4, 5, 6, 7, 8, 9, 10, 11, 14, 18, 20],
    },
    Column {
        name: "to-viewer",
        is_call: true,
        rows: &[
            "counted",
            DONE,
            HELD[0],
            HELD[1],
            HELD[2],
            SIGNERS[0],
            SIGNERS[1],
            SIGNERS[2],
            SIGNERS[3],
            LENT[0],
            LENT[1],
            LONG[0],
            LONG[1],
            FOREIGN,
            ELSEWHERE,
            REGISTER[0],
            REGISTER[1],
            REGISTER[2],
        ],
        refusals: &[1, 2, 3, 4, 5, 6, 7, 8, 9, 10, 11, 14, 18, 20],
    },
];

/// Each must occur at least once in so many calls, and a finished operation more often.
const ONE_IN: usize = 5_000;
const DONE_IN: usize = 500;
/// The bytes of a proof's entry.
const ENTRY: usize = 65;
/// The numbers of all tests.
const REFUSALS: RangeInclusive<u8> = 1..=23;

fn refusal_row(refusal: u8) -> String {
    format!("refused {refusal}")
}

/// The rows of the table, in the order in which it is printed.
fn rows() -> Vec<String> {
    let names =
        |names: &[&str]| -> Vec<String> { names.iter().map(|name| name.to_string()).collect() };
    [
        names(&["ready", "kept", "restored"]),
        names(&MADE_AGAIN),
        names(&KIND_NAMES),
        names(&["counted", DONE]),
        names(&HELD),
        names(&SIGNERS),
        names(&SENT),
        names(&[MISCOUNTED, "ended", TAKEN, AGAIN, SCREEN]),
        names(&AHEAD),
        names(&[TOO_FAR, PAST_NEXT, SURFACED]),
        names(&[NEWER, OLDER, USED_UP]),
        REFUSALS.map(refusal_row).collect(),
        names(&[BUSY, HAS_OWN, BEFORE_17]),
        names(&[BAD_KEY, FORGED, UNPROVED]),
        names(&SHUT_OUT),
        names(&LENT),
        names(&[LONGEST]),
        names(&LONG),
        names(&BOTH_LONG),
        names(&[RIVAL, TWIN, FOREIGN, ELSEWHERE, OWN_PROOF, NO_PROOF]),
        names(&[HANDED, ANOTHERS, UNBLOCKED, FREED]),
        names(&REGISTER),
    ]
    .concat()
}

/// The message that a call delivers in hex.
fn delivered(call: &str) -> Option<Vec<u8>> {
    unhex(call.strip_prefix("to-")?.split(' ').nth(2)?)
}

/// The register that a call is for: of a beginning, or of a message in hex that has passed 2 to 4.
fn register(call: &str) -> Option<u8> {
    let mut words = call.split(' ');
    let is_delivery = words.next()?.starts_with("to-");
    let word = words.nth(1)?;
    if !is_delivery {
        return word.parse().ok();
    }
    // The byte before the signature.
    let at = word.len().checked_sub(2 * 65)?;
    u8::from_str_radix(word.get(at..at + 2)?, 16).ok()
}

/// Which of the rows of `SIGNERS` an operation has.
fn signers_rows(finished: &Finished) -> [bool; SIGNERS.len()] {
    let Done {
        timestamp, signers, ..
    } = &finished.done;
    let shows = |reply: &&Message| reply.kind == CARD && reply.prepared_timestamp() == *timestamp;
    let showed = || finished.counted.iter().filter(shows);
    let counted_ids: BTreeSet<u8> = finished.counted.iter().map(|reply| reply.sender).collect();
    let showed_ids: BTreeSet<u8> = showed().map(|reply| reply.sender).collect();
    let mut proofs = showed().filter_map(|reply| reply.prepared.as_ref());
    [
        !signers.is_empty() && *signers != counted_ids && *signers != showed_ids,
        proofs.any(|proof| proof.signers() != *signers),
        signers.iter().any(|&replica| replica > 8),
        signers.is_empty() && finished.had_proof,
    ]
}

impl Column {
    /// Whom a line is about, or which call it is.
    fn of(call: &str) -> Option<&'static Column> {
        let mut words = call.split(' ');
        let name = match words.next()? {
            "keep" | "restore" => words.next()?,
            word => word,
        };
        Column::named(name)
    }

    fn named(name: &str) -> Option<&'static Column> {
        COLUMNS.iter().find(|column| column.name == name)
    }

    /// Whether this can occur, and must.
    fn has(&self, row: &str) -> bool {
        let refusals = self.refusals.iter().map(|&refusal| refusal_row(refusal));
        self.rows.contains(&row) || refusals.into_iter().any(|refusal| refusal == row)
    }
}

#[derive(Default)]
pub struct Tally {
    /// Of parties that were set up.
    pub calls: usize,
    accepted: usize,
    occurred: BTreeMap<(&'static str, String), usize>,
}

impl Tally {
    pub fn count_script(&mut self, script: &Script) {
        for (line, output) in script.lines.iter().zip(&script.expected) {
            self.count(line, output);
        }
        for finished in &script.finished {
            self.count_finished(finished);
        }
        self.count_noted(script);
    }

    pub fn count(&mut self, line: &str, output: &Output) {
        let row = match output {
            Output::Refused(refusal) => refusal_row(*refusal),
            Output::Sent(_, message) => KIND_NAMES[usize::from(message[2]) - 1].to_string(),
            Output::Done(..) => DONE.to_string(),
            Output::Comment(_) | Output::New | Output::Unread => return,
            other => other.to_string(),
        };
        let (call, room) = lent(line).expect("an answered line");
        let column = Column::of(call).expect("a line about a party");
        self.note(column, &row);
        if column.is_call {
            self.calls += 1;
            self.accepted += usize::from(!matches!(output, Output::Refused(_)));
            self.note_output(column, room);
            self.note_message(column, call, output);
            self.note_register(column, call, output);
            self.note_shut_out(column, call, output);
        }
    }

    /// Clients' operations at their end, by their rows.
    pub fn count_ends(&mut self, rows: Vec<&'static str>) {
        let column = Column::named("to-client").expect("a column's name");
        for row in rows {
            self.note(column, row);
        }
    }

    pub fn count_noted(&mut self, script: &Script) {
        for (&(name, row), &times) in &script.noted {
            let column = Column::named(name).expect("a column's name");
            self.note_times(column, row, times);
        }
    }

    fn count_finished(&mut self, finished: &Finished) {
        let name = if finished.is_view {
            "to-viewer"
        } else {
            "to-client"
        };
        let column = Column::named(name).expect("a column's name");
        if finished.is_view {
            self.note_held(column, finished);
        }
        for (row, occurred) in SIGNERS.into_iter().zip(signers_rows(finished)) {
            self.note_times(column, row, occurred.into());
        }
    }

    fn note_held(&mut self, column: &Column, view: &Finished) {
        let row = |held: &Timestamp| match held.cmp(&view.done.timestamp) {
            Ordering::Less => HELD[0],
            Ordering::Equal => HELD[1],
            Ordering::Greater => HELD[2],
        };
        let rows: BTreeSet<&str> = view.held.iter().map(row).collect();
        for row in rows {
            self.note(column, row);
        }
    }

    fn note(&mut self, column: &Column, row: &str) {
        self.note_times(column, row, 1);
    }

    fn note_times(&mut self, column: &Column, row: &str, times: usize) {
        let key = (column.name, row.to_string());
        *self.occurred.entry(key).or_default() += times;
    }

    fn note_output(&mut self, column: &Column, room: usize) {
        if let Some(row) = (room + 1)
            .checked_sub(LONGEST_MESSAGE)
            .and_then(|at| LENT.get(at))
        {
            self.note(column, row);
        }
    }

    fn note_message(&mut self, column: &Column, call: &str, output: &Output) {
        let least = 2 * (LONGEST_MESSAGE - 3 * ENTRY);
        if call.len() < least {
            return;
        }
        let Some(bytes) = delivered(call) else {
            return;
        };
        let at = match output {
            Output::Sent(..) if bytes.len() == LONGEST_MESSAGE => {
                return self.note(column, LONGEST)
            }
            Output::Refused(2) => 0,
            Output::Refused(9) => 1,
            _ => return,
        };
        if let Ok(message) = Message::decode_any_length(&bytes) {
            let both = message.prepared.is_some() && message.written.is_some();
            self.note(column, if both { BOTH_LONG[at] } else { LONG[at] });
        }
    }

    fn note_register(&mut self, column: &Column, call: &str, output: &Output) {
        let row = match (output, register(call)) {
            (Output::Refused(20), Some(0)) => REGISTER[0],
            (Output::Refused(20), Some(17)) => REGISTER[1],
            (Output::Refused(_), _) => return,
            (_, Some(16)) => REGISTER[2],
            _ => return,
        };
        self.note(column, row);
    }

    fn note_shut_out(&mut self, column: &Column, call: &str, output: &Output) {
        let (Output::Refused(23), Some(message)) = (output, delivered(call)) else {
            return;
        };
        let kind = usize::from(message[2]);
        self.note(column, SHUT_OUT[kind - 1]);
        if VIEWERS.contains(&message[3]) {
            self.note(column, SHUT_OUT[4]);
        }
    }

    fn times(&self, column: &Column, row: &str) -> usize {
        let key = (column.name, row.to_string());
        self.occurred.get(&key).copied().unwrap_or(0)
    }

    pub fn print(&self) {
        print!("{:12}", "");
        for column in &COLUMNS {
            print!("{:>11}", column.name);
        }
        println!();
        for row in rows() {
            print!("{row:12}");
            for column in &COLUMNS {
                match self.times(column, &row) {
                    0 => print!("{:>11}", "-"),
                    times => print!("{times:11}"),
                }
            }
            println!();
        }
        println!("{} calls, {} accepted", self.calls, self.accepted);
    }

    /// What occurred too seldom for the comparison to mean much, and what cannot occur.
    pub fn faults(&self) -> Vec<String> {
        let names = COLUMNS.iter().map(|column| column.name);
        let mut faults: Vec<String> = names.flat_map(|name| self.faults_of(name)).collect();
        if 3 * self.accepted < self.calls {
            faults.push(format!(
                "too seldom: {} of {} calls accepted, wanted a third",
                self.accepted, self.calls
            ));
        }
        faults
    }

    /// The same of a single column.
    pub fn faults_of(&self, name: &str) -> Vec<String> {
        let column = Column::named(name).expect("a column's name");
        let mut faults = self.impossible(column);
        for row in rows() {
            let times = self.times(column, &row);
            let one_in = if row == DONE { DONE_IN } else { ONE_IN };
            let least = self.calls / one_in;
            if column.has(&row) && times < least {
                faults.push(format!(
                    "too seldom: {}, {row}: {times} times, wanted at least {least}",
                    column.name
                ));
            }
        }
        faults
    }

    fn impossible(&self, column: &Column) -> Vec<String> {
        let others = REFUSALS.filter(|refusal| !column.refusals.contains(refusal));
        others
            .map(refusal_row)
            .chain([MISCOUNTED, TOO_FAR].map(String::from))
            .filter(|row| self.times(column, row) > 0)
            .map(|row| format!("impossible: {}, {row}", column.name))
            .collect()
    }
}
