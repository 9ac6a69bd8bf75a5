//! Compares the static library of the crate `bank`, through its Rust wrapper, with the model: whatever scripts of random runs
//! hand to replicas, and after each call the sixteen registers and the withdrawn clients.
//!
//! `library [SEED [CALLS]]`
mod arguments;
mod forge;
mod generate;
#[allow(dead_code)] // the other comparisons use more of it
#[path = "../model/mod.rs"]
mod model;
mod office;
#[allow(dead_code)] // the comparison of scripts uses more of it
mod tally;
#[path = "../rust/bank.rs"]
mod wrapper;

use generate::Script;
use model::message::{bits_of, Message, Timestamp, VIEWERS};
use model::random;
use model::replica;
use model::script::{self, unhex, Output, Player};
use office::Office;
use std::collections::{BTreeMap, BTreeSet};
use std::process::ExitCode;
use tally::{Tally, ORDER};
use wrapper::{Answer, Bank, ClientSet, Register, ReplicaId, Taking, LONGEST_MESSAGE};

const UNTOUCHED: u8 = 165;

/// What is compared of a script, as it calls it.
const TO_REPLICA: &str = "to-replica";
const CALLS: [&str; 2] = [TO_REPLICA, ORDER];

/// One action in so many is an order: fewer than in the comparison of scripts, of which half as many do.
const ORDER_IN: usize = 600;

// A line that does not say how much it lends lends enough.
const _: () = assert!(script::FULL_OUTPUT >= LONGEST_MESSAGE);

/// A message with its verdicts, and the length of the output.
#[derive(Clone)]
struct Request {
    message: Vec<u8>,
    verdicts: Vec<u8>,
    room: usize,
}

/// What was handed to a replica.
#[derive(Clone)]
enum Call {
    Request(Request),
    Order(Vec<u8>),
}

impl Call {
    /// The register that alone may change.
    fn register(&self) -> Option<u8> {
        match self {
            Call::Request(request) => Message::decode(&request.message).ok()?.register,
            Call::Order(_) => None,
        }
    }
}

/// What a call gives, but for the number that a script gives to a message.
#[derive(PartialEq)]
enum Given {
    Sent(Vec<u8>),
    Taken,
    Refused(u8),
}

impl Given {
    /// What the model answered to such a call.
    fn of(output: &Output) -> Option<Given> {
        match output {
            Output::Sent(_, message) => Some(Given::Sent(message.clone())),
            Output::Taken => Some(Given::Taken),
            Output::Refused(refusal) => Some(Given::Refused(*refusal)),
            _ => None,
        }
    }
}

/// A replica of the library, with all that was handed to it: a record is not copied, so a disk is restored by playing
/// its calls again.
struct Server {
    f: u8,
    id: u8,
    key: Vec<u8>,
    bank: Bank,
    calls: Vec<Call>,
}

impl Server {
    fn set_up(f: u8, id: u8, key: Vec<u8>) -> Option<Server> {
        Some(Server {
            f,
            id,
            bank: Bank::fresh(f, ReplicaId(id), &key)?,
            key,
            calls: Vec::new(),
        })
    }

    fn copy(&self) -> Option<Server> {
        let mut copy = Server::set_up(self.f, self.id, self.key.clone())?;
        for call in &self.calls {
            // what it gave then was compared when it was called
            copy.call(call.clone())?;
        }
        Some(copy)
    }

    /// What a call gives; `None` where the output has another byte than it should.
    fn call(&mut self, call: Call) -> Option<Given> {
        let given = match &call {
            Call::Request(request) => self.hand_over(request),
            Call::Order(order) => Some(match self.bank.take_order(order) {
                Taking::Taken => Given::Taken,
                Taking::Refused(refusal) => Given::Refused(refusal),
            }),
        };
        self.calls.push(call);
        given
    }

    fn hand_over(&mut self, request: &Request) -> Option<Given> {
        let mut out = vec![UNTOUCHED; request.room];
        let answer = self
            .bank
            .step(&request.message, &request.verdicts, &mut out);
        let length = match answer {
            Answer::Send(length) => length,
            Answer::Refused(_) => 0,
        };
        let behind = out.get(length..)?;
        if behind.iter().any(|byte| *byte != UNTOUCHED) {
            return None;
        }
        out.truncate(length);
        Some(match answer {
            Answer::Send(_) => Given::Sent(out),
            Answer::Refused(refusal) => Given::Refused(refusal),
        })
    }

    /// Whether it answers as expected, leaves each register and the withdrawn clients as the model's replica has them, and all
    /// registers but the message's as they were.
    fn answers_alike(&mut self, call: Call, expected: &Output, model: &replica::Replica) -> bool {
        let before = self.bank.registers().clone();
        let asked = call.register();
        let given = self.call(call);
        let same_answer = given.is_some() && given == Given::of(expected);
        let mut registers = (1..).zip(self.bank.registers().iter().zip(&before));
        same_answer
            && *self.bank.withdrawn() == client_set(&model.withdrawn)
            && registers.all(|(id, (after, before))| {
                *after == record(&model.registers[&id]) && (asked == Some(id) || after == before)
            })
    }
}

/// A register of the model as the library keeps it.
fn record(register: &replica::Register) -> Register {
    let mut slots = wrapper::Slots {
        counts: [0; 64],
        digests: [0; 2048],
        written: timestamp(register.written),
    };
    for (client, slot) in &register.slots {
        let at = usize::from(client - 1);
        slots.counts[at] = slot.timestamp.count;
        slots.digests[32 * at..][..32].copy_from_slice(&slot.digest);
    }
    let proof = register.held.as_ref().map(|held| &held.proof);
    let entries = proof.map_or(&[][..], |proof| &proof.entries);
    let entries: Vec<u8> = entries
        .iter()
        .flat_map(|entry| [entry.replica].into_iter().chain(entry.signature))
        .collect();
    let card = register.card();
    let held = wrapper::Held {
        timestamp: timestamp(register.timestamp()),
        card_length: card.len() as u8,
        card: with_zeros(&card),
        digest: proof.map_or([0; 32], |proof| proof.digest),
        signers: wrapper::ReplicaSet(bits_of(&register.signers())),
        entry_count: (entries.len() / 65) as u8,
        entries: with_zeros(&entries),
    };
    Register { slots, held }
}

/// Clients of the model as the library keeps them.
fn client_set(clients: &BTreeSet<u8>) -> ClientSet {
    let mut set = ClientSet {
        writers: 0,
        viewers: 0,
    };
    for &client in clients {
        if VIEWERS.contains(&client) {
            set.viewers |= 1 << (client - VIEWERS.start());
        } else {
            set.writers |= 1 << (client - 1);
        }
    }
    set
}

fn timestamp(Timestamp { count, client }: Timestamp) -> wrapper::Timestamp {
    wrapper::Timestamp { count, client }
}

fn with_zeros<const N: usize>(bytes: &[u8]) -> [u8; N] {
    let mut array = [0; N];
    array[..bytes.len()].copy_from_slice(bytes);
    array
}

#[derive(Default)]
struct Library {
    servers: BTreeMap<u8, Server>,
    kept: BTreeMap<u8, Server>,
}

impl Library {
    fn set_up(&mut self, f: u8, id: u8, key: Vec<u8>) -> Output {
        let Some(server) = Server::set_up(f, id, key) else {
            return Output::Refused(16);
        };
        self.servers.insert(id, server);
        Output::Ready
    }

    /// Whether the library does what the model does with a line about a replica, whose messages are spelled out. The model
    /// has played it.
    fn agrees(&mut self, line: &str, expected: &Output, model: &Player) -> Option<bool> {
        let (call, room) = script::lent(line)?;
        let words: Vec<&str> = call.split(' ').collect();
        match *words {
            ["new"] => *self = Library::default(),
            ["replica", f, id, key] => {
                let (f, id, key) = (f.parse().ok()?, id.parse().ok()?, unhex(key)?);
                return Some(self.set_up(f, id, key) == *expected);
            }
            ["keep", "replica", id] => {
                let id = id.parse().ok()?;
                self.kept.insert(id, self.servers.get(&id)?.copy()?);
            }
            ["restore", "replica", id] => {
                let id = id.parse().ok()?;
                self.servers.insert(id, self.kept.get(&id)?.copy()?);
            }
            [ORDER, id, order] => {
                let order = Call::Order(unhex(order)?);
                return self.answers_alike(id, order, expected, model);
            }
            [TO_REPLICA, id, message, verdicts] => {
                let message = unhex(message)?;
                let verdicts = match verdicts {
                    "+" => script::all_genuine(&message),
                    _ => unhex(verdicts)?,
                };
                let request = Call::Request(Request {
                    message,
                    verdicts,
                    room,
                });
                return self.answers_alike(id, request, expected, model);
            }
            _ => {}
        }
        Some(true)
    }

    fn answers_alike(
        &mut self,
        id: &str,
        call: Call,
        expected: &Output,
        model: &Player,
    ) -> Option<bool> {
        let id = id.parse().ok()?;
        let server = self.servers.get_mut(&id)?;
        Some(server.answers_alike(call, expected, model.replica(id)?))
    }
}

/// The first line of a script at which the library and the model part. Counts the calls before it.
fn compare(script: &Script, tally: &mut Tally) -> Result<(), String> {
    let mut model = Player::default();
    let mut library = Library::default();
    for (line, expected) in script.lines.iter().zip(&script.expected) {
        let spelled = model.spelled_out(line);
        model.play(line);
        if *expected == Output::Unread {
            continue;
        }
        if library.agrees(&spelled, expected, &model) != Some(true) {
            return Err(format!("{spelled}\nmust give {expected}, and leave the sixteen registers and the withdrawn clients that the model has"));
        }
        if CALLS.iter().any(|call| line.contains(call)) {
            tally.count(line, expected);
        }
    }
    tally.count_noted(script);
    Ok(())
}

/// Compares on scripts until so many calls were made, and tells what occurred.
fn compare_scripts(seed: u64, calls: usize) -> Result<Tally, String> {
    let mut random = random::Random::new(seed);
    let mut tally = Tally::default();
    let office = Office::new(&mut random, ORDER_IN);
    for script in generate::fixed(&mut random, &office) {
        compare(&script, &mut tally)?;
    }
    while tally.calls < calls {
        compare(&generate::script(&mut random, &office), &mut tally)?;
    }
    Ok(tally)
}

fn main() -> ExitCode {
    let words: Vec<String> = std::env::args().skip(1).collect();
    let (seed, calls) = arguments::seed_and_number(&words, arguments::CALLS);
    let tally = match compare_scripts(seed, calls) {
        Ok(tally) => tally,
        Err(difference) => {
            println!("A difference, seed {seed}:\n{difference}");
            return ExitCode::FAILURE;
        }
    };
    let faults = CALLS.map(|call| tally.faults_of(call)).concat();
    for fault in &faults {
        println!("{fault}");
    }
    if !faults.is_empty() {
        return ExitCode::FAILURE;
    }
    println!(
        "{} calls of the static library compared, seed {seed}: all equal",
        tally.calls
    );
    ExitCode::SUCCESS
}
