//! Logs as correct replicas write them, of what scripts of random runs hand to replicas.
use crate::calls::Run;
use crate::model::log::{Call, Entry, Given, Log, HEAD_LENGTH, LONGEST_LOGGED, SIGNATURE_LENGTH};
use crate::model::message::{Timestamp, KIND_NAMES, LONGEST_MESSAGE, PREPARED, WRITTEN};
use crate::model::random::Random;
use crate::model::replica::{Register, Replica, Slot};
use crate::occurred::Tally;
use crate::{SEAM, WINDOW};
use std::cmp::Ordering;
use std::collections::BTreeMap;

/// More entries than two bytes can count.
const MANY: usize = 70_000;
/// So many entries of the shortest calls follow each of a run.
const SHORTEST: usize = 100;
/// One message in so many is stretched, and of the fewer orders one in five.
const STRETCHED_IN: usize = 200;
/// What an entry has beside message and verdicts, if the message is refused.
const BESIDE: usize = 6;
/// What it has beside these, if the message is answered, and the longest reply.
const BESIDE_REPLY: usize = 8 + LONGEST_MESSAGE;

/// The parts of a call that are logged with their length.
fn lengths(call: &Call) -> Vec<(&'static str, usize)> {
    match call {
        Call::Message { message, verdicts } => {
            vec![("message", message.len()), ("verdicts", verdicts.len())]
        }
        Call::Order(order) => vec![("order", order.len())],
    }
}

/// A correct replica, its log, and what occurs.
struct Recorder<'a> {
    random: &'a mut Random,
    tally: &'a mut Tally,
    replica: Replica,
    log: Log,
    /// The log's bytes.
    size: usize,
    /// Where an entry is made to begin.
    seam: Option<usize>,
}

impl<'a> Recorder<'a> {
    fn new(random: &'a mut Random, tally: &'a mut Tally, log: &Log) -> Recorder<'a> {
        tally.count(format!("f = {}", log.f));
        let replica = Replica::new(log.f, log.id, &log.key);
        Recorder {
            random,
            tally,
            replica: replica.expect("it was set up in a script"),
            log: log.clone(),
            size: HEAD_LENGTH,
            seam: None,
        }
    }

    /// What the replica holds and what it has prepared, by register.
    fn records(&self) -> Vec<(Timestamp, BTreeMap<u8, Slot>)> {
        let record = |register: &Register| (register.timestamp(), register.slots.clone());
        self.replica.registers.values().map(record).collect()
    }

    /// Makes a call, and now and then stretched before that.
    fn hand_twice(&mut self, call: &Call) {
        let one_in = if call.is_order() { 5 } else { STRETCHED_IN };
        if self.random.below(one_in) == 0 {
            let longer = stretched(self.random, call);
            self.hand(longer);
        }
        self.hand(call.clone());
    }

    /// Makes a call. If its entry may come near the seam, it is made to begin there, and the next seam is a window behind or a
    /// little less.
    fn hand(&mut self, call: Call) {
        let lengths = lengths(&call).into_iter().map(|(_, length)| length);
        let end = self.size + lengths.sum::<usize>() + BESIDE_REPLY;
        if let Some(seam) = self.seam.filter(|seam| end + BESIDE > *seam) {
            self.fill_up_to(seam);
            self.seam = Some(seam + WINDOW - self.random.below(12));
        }
        self.make(call);
    }

    /// Zeros in place of messages are refused.
    fn fill_up_to(&mut self, place: usize) {
        while let Some(zeros) = place.checked_sub(self.size + BESIDE) {
            // what is left for another one is no less than it takes
            let is_too_long = zeros > LONGEST_LOGGED;
            let length = if is_too_long {
                LONGEST_LOGGED / 2
            } else {
                zeros
            };
            self.make(Call::Message {
                message: vec![0; length],
                verdicts: Vec::new(),
            });
        }
    }

    /// Makes a call and logs it, unless it is too long for that.
    fn make(&mut self, call: Call) {
        let before = self.records();
        let mut given = call.make(&mut self.replica);
        self.note_lengths(&call);
        let changed = self.records() != before;
        self.note(&given, changed);
        if !call.is_logged() {
            return;
        }
        if let Given::Reply(reply) = &mut given {
            sign(self.random, reply);
        }
        let entry = Entry { call, given };
        self.size += entry.encode().len();
        self.log.entries.push(entry);
    }

    fn note(&mut self, given: &Given, changed: bool) {
        let row = match given {
            Given::Refusal(refusal) => format!("refused {refusal}"),
            Given::Reply(reply) if reply.is_empty() => "taken".to_string(),
            Given::Reply(reply) => {
                let kind = KIND_NAMES[usize::from(reply[2]) - 1];
                let register = match reply[reply.len() - SIGNATURE_LENGTH - 1] {
                    register @ (1 | 2 | 16) => register.to_string(),
                    _ => "another".to_string(),
                };
                match reply[2] {
                    WRITTEN | PREPARED if changed => format!("{kind}, stored in {register}"),
                    WRITTEN | PREPARED => format!("{kind}, not stored"),
                    _ => kind.to_string(),
                }
            }
        };
        self.tally.count(row);
    }

    fn note_lengths(&mut self, call: &Call) {
        for (name, length) in lengths(call) {
            match length.cmp(&LONGEST_LOGGED) {
                Ordering::Less => (),
                Ordering::Equal => self.tally.count(format!("longest {name}")),
                Ordering::Greater => self.tally.count(format!("unlogged {name}")),
            }
        }
    }
}

/// The call with one part or both of another length, most often the longest that is logged or a longer one.
fn stretched(random: &mut Random, call: &Call) -> Call {
    let mut call = call.clone();
    for _ in 0..1 + random.below(2) {
        let (part, with) = match &mut call {
            Call::Message { message, .. } if random.percent(50) => (message, 0),
            Call::Message { verdicts, .. } => (verdicts, 1),
            Call::Order(order) => (order, 0),
        };
        let any = random.below(LONGEST_LOGGED);
        // the last two bytes of the last length are those of the part's own
        let lengths = [
            any,
            LONGEST_LOGGED,
            LONGEST_LOGGED,
            LONGEST_LOGGED + 1,
            LONGEST_LOGGED + 1 + part.len(),
        ];
        part.resize(random.pick(&lengths), with);
    }
    call
}

/// Puts any bytes in the place of a reply's signature. A taken order has none.
pub fn sign(random: &mut Random, reply: &mut [u8]) {
    let start = reply.len().saturating_sub(SIGNATURE_LENGTH);
    reply[start..].fill_with(|| random.byte());
}

/// The log of a run.
pub fn record(random: &mut Random, tally: &mut Tally, run: &Run) -> Log {
    let mut recorder = Recorder::new(random, tally, &run.log);
    for call in &run.calls {
        recorder.hand_twice(call);
    }
    recorder.log
}

/// A replica's empty log, and over and over the calls of all runs with its f.
fn circle<'a>(random: &mut Random, runs: &'a [Run]) -> (&'a Log, impl Iterator<Item = &'a Call>) {
    let called: Vec<&Run> = runs.iter().filter(|run| !run.calls.is_empty()).collect();
    let log = &random.pick(&called).log;
    let calls = called.into_iter().filter(|run| run.log.f == log.f);
    let calls: Vec<&Call> = calls.flat_map(|run| &run.calls).collect();
    let first = random.below(calls.len());
    (log, calls.into_iter().cycle().skip(first))
}

/// A log beyond the window with an entry that begins at a place; and its entries up to there.
pub fn record_long(
    random: &mut Random,
    tally: &mut Tally,
    runs: &[Run],
    place: usize,
) -> (Log, Log) {
    let (log, calls) = circle(random, runs);
    let least = SEAM + 1 + random.below(2 * WINDOW);
    let mut recorder = Recorder::new(random, tally, log);
    recorder.seam = Some(place);
    for call in calls {
        if recorder.size >= least {
            break;
        }
        recorder.hand_twice(call);
    }
    let long = recorder.log;
    let mut up_to_seam = long.clone();
    let number = long.places().partition_point(|&begins| begins < place);
    up_to_seam.entries.truncate(number);
    (long, up_to_seam)
}

/// Such a call is refused.
fn shortest(random: &mut Random) -> Call {
    let message = vec![0; random.below(3)];
    let verdicts = vec![1; random.below(2)];
    random.pick(&[
        Call::Order(Vec::new()),
        Call::Order(vec![0]),
        Call::Message { message, verdicts },
    ])
}

/// A log of very many entries, which are not counted: in the tally there would hardly be others.
pub fn record_many(random: &mut Random, runs: &[Run]) -> Log {
    let (log, calls) = circle(random, runs);
    let mut uncounted = Tally::default();
    let mut recorder = Recorder::new(random, &mut uncounted, log);
    for call in calls {
        if recorder.log.entries.len() > MANY {
            break;
        }
        recorder.hand(call.clone());
        for _ in 0..SHORTEST {
            let call = shortest(recorder.random);
            recorder.hand(call);
        }
    }
    recorder.log
}
