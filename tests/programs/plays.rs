//! Scripts for the program `player`, steered so that operations finish.
use crate::cards::{damaged_card, good_card};
use crate::model::message::{quorum, Done};
use crate::model::random::Random;
use crate::odd::{ODD_INPUTS, ODD_LINES};
use crate::player::{printed, Player, Said, MOST_LINES, PARTIES};
use crate::program::{hex, Failure, Program};
use crate::tally::Tally;
use std::collections::{BTreeMap, BTreeSet};

const SCRIPTS: usize = 2_000;

/// Of each kind of odd input.
const INPUTS: usize = 30;

pub const FLOORS: [(&str, usize); 37] = [
    ("sent", 40_000),
    ("taken", 20_000),
    ("done: read", 1_500),
    ("done: write", 1_500),
    ("written back", 150),
    ("signed by others than were heard", 1_000),
    ("signed by nobody", 500),
    ("refused 5", 500),
    ("refused 14", 300),
    ("refused 15", 10),
    ("refused 17", 500),
    ("refused 18", 2_000),
    ("unread", 5_000),
    ("empty input", 10),
    ("input of 100 lines", 20),
    ("input of more lines", 200),
    ("input that ends without LF", 300),
    ("unsent message", 100),
    ("empty line", 200),
    ("leading zero", 200),
    ("large number", 200),
    ("sign or letter in a number", 200),
    ("small hex", 200),
    ("17 pairs", 200),
    ("18 pairs", 200),
    ("half a pair", 200),
    ("no such party", 200),
    ("other letter", 200),
    ("words lacking or more", 200),
    ("other space", 200),
    ("CR, NUL or another byte", 200),
    ("overlong line", 200),
    ("bytes of any value", INPUTS),
    ("bytes of the grammar", INPUTS),
    ("one line without end", INPUTS),
    ("empty lines", INPUTS),
    ("one line many times", INPUTS),
];

#[derive(Clone, Copy)]
enum Operation {
    Read,
    Write,
}

impl Operation {
    fn name(self) -> &'static str {
        match self {
            Operation::Read => "read",
            Operation::Write => "write",
        }
    }
}

#[derive(Clone, Copy)]
enum Party {
    Replica(u8),
    Client(u8),
}

/// A message's number, and whom it reaches.
#[derive(Clone, Copy)]
struct Delivery {
    to: Party,
    message: usize,
}

enum Step {
    Begin(u8, Operation, Vec<u8>),
    Deliver(Delivery),
    Odd(&'static str, Vec<u8>),
}

impl Step {
    fn line(&self) -> Vec<u8> {
        match self {
            Step::Begin(id, Operation::Read, _) => format!("r {id}").into_bytes(),
            Step::Begin(id, Operation::Write, card) => format!("w {id} {}", hex(card)).into_bytes(),
            Step::Deliver(Delivery { to, message }) => match to {
                Party::Replica(id) => format!("h {id} {message}").into_bytes(),
                Party::Client(id) => format!("d {id} {message}").into_bytes(),
            },
            Step::Odd(_, line) => line.clone(),
        }
    }
}

/// A script that is being written, played by the model as it grows.
struct Writer {
    player: Player,
    input: Vec<u8>,
    /// How many of the clients begin something: few of them finish more.
    active: u8,
    /// What each client has begun and not finished.
    begun: [Option<Operation>; PARTIES as usize],
    /// The client of whose operation a message is part.
    clients: BTreeMap<usize, u8>,
    /// The replica that sent a reply.
    senders: BTreeMap<usize, u8>,
    /// The replicas whose replies to its last message each client has taken.
    heard: [BTreeSet<u8>; PARTIES as usize],
    under_way: Vec<Delivery>,
    arrived: Vec<Delivery>,
}

impl Writer {
    fn new(random: &mut Random) -> Writer {
        Writer {
            player: Player::new(),
            input: Vec::new(),
            active: 1 + random.below(PARTIES.into()) as u8,
            begun: [None; PARTIES as usize],
            clients: BTreeMap::new(),
            senders: BTreeMap::new(),
            heard: Default::default(),
            under_way: Vec::new(),
            arrived: Vec::new(),
        }
    }

    fn begun(&mut self, client: u8) -> &mut Option<Operation> {
        &mut self.begun[usize::from(client - 1)]
    }

    fn heard(&mut self, client: u8) -> &mut BTreeSet<u8> {
        &mut self.heard[usize::from(client - 1)]
    }

    /// A client takes a reply.
    fn hear(&mut self, client: u8, reply: usize) {
        let sender = self.senders.get(&reply).copied();
        self.heard(client).extend(sender);
    }

    fn begin(&self, random: &mut Random, client: u8) -> Step {
        let operation = random.pick(&[Operation::Read, Operation::Write, Operation::Write]);
        let card = if random.percent(10) {
            damaged_card(random).1
        } else {
            good_card(random)
        };
        Step::Begin(client, operation, card)
    }

    fn begin_idle(&self, random: &mut Random) -> Option<Step> {
        let active = self.begun.iter().take(self.active.into());
        let idle: Vec<u8> = (1..)
            .zip(active)
            .filter(|(_, begun)| begun.is_none())
            .map(|(client, _)| client)
            .collect();
        if idle.is_empty() {
            return None;
        }
        let client = random.pick(&idle);
        Some(self.begin(random, client))
    }

    /// Any message to anyone, sometimes one that was not sent.
    fn stray(&self, random: &mut Random) -> Step {
        let id = 1 + random.below(PARTIES.into()) as u8;
        Step::Deliver(Delivery {
            to: random.pick(&[Party::Replica(id), Party::Client(id)]),
            message: 1 + random.below(self.clients.len() + 1),
        })
    }

    /// One of the messages that were sent first.
    fn arrival(&mut self, random: &mut Random) -> Option<Step> {
        let at = random.below(self.under_way.len().clamp(1, 5));
        let delivery = *self.under_way.get(at)?;
        self.under_way.remove(at);
        self.arrived.push(delivery);
        Some(Step::Deliver(delivery))
    }

    /// A message that has arrived arrives again.
    fn repeat(&self, random: &mut Random) -> Option<Step> {
        let at = random.below(self.arrived.len().max(1));
        self.arrived.get(at).copied().map(Step::Deliver)
    }

    fn step(&mut self, random: &mut Random) -> Step {
        let step = match random.below(100) {
            0..=6 => {
                let (name, line) = random.pick(&ODD_LINES);
                Some(Step::Odd(name, line(random)))
            }
            7..=9 => None,
            10..=12 => {
                let client = 1 + random.below(PARTIES.into()) as u8;
                Some(self.begin(random, client))
            }
            13..=17 => self.repeat(random),
            18..=23 => self.begin_idle(random),
            _ => self.arrival(random).or_else(|| self.begin_idle(random)),
        };
        step.unwrap_or_else(|| self.stray(random))
    }

    /// What is still under way for a client that needs no more of it: most of that is lost.
    fn lose(&mut self, random: &mut Random, client: u8) {
        let clients = &self.clients;
        self.under_way.retain(|delivery| {
            clients.get(&delivery.message) != Some(&client) || random.percent(30)
        });
    }

    /// A request goes to all replicas, in any order; some are lost.
    fn request(&mut self, random: &mut Random, client: u8, message: usize) {
        self.lose(random, client);
        self.heard(client).clear();
        self.clients.insert(message, client);
        let mut ids: Vec<u8> = (1..=PARTIES).collect();
        while !ids.is_empty() {
            let to = Party::Replica(ids.swap_remove(random.below(ids.len())));
            if !random.percent(6) {
                self.under_way.push(Delivery { to, message });
            }
        }
    }

    fn reply(&mut self, random: &mut Random, request: usize, message: usize) {
        let Some(&client) = self.clients.get(&request) else {
            return;
        };
        self.clients.insert(message, client);
        let to = Party::Client(client);
        if !random.percent(3) {
            self.under_way.push(Delivery { to, message });
        }
    }

    /// What the step sets under way, and what of it is worth counting.
    fn follow(&mut self, random: &mut Random, step: Step, said: Said, tally: &mut Tally) {
        match (step, said) {
            (Step::Begin(client, operation, _), Said::Sent(message)) => {
                *self.begun(client) = Some(operation);
                self.request(random, client, message);
            }
            (Step::Deliver(Delivery { to, message }), said) => {
                self.arrived(random, to, message, said, tally);
            }
            (Step::Odd(name, _), _) => tally.count(name),
            _ => {}
        }
    }

    fn arrived(
        &mut self,
        random: &mut Random,
        to: Party,
        message: usize,
        said: Said,
        tally: &mut Tally,
    ) {
        match (to, said) {
            (Party::Replica(id), Said::Sent(reply)) => {
                self.senders.insert(reply, id);
                self.reply(random, message, reply);
            }
            (Party::Client(client), Said::Taken) => self.hear(client, message),
            (Party::Client(client), Said::Sent(request)) => {
                if matches!(self.begun(client), Some(Operation::Read)) {
                    tally.count("written back");
                }
                self.request(random, client, request);
            }
            (Party::Client(client), Said::Done(done)) => {
                if let Some(operation) = self.begun(client).take() {
                    tally.count(format!("done: {}", operation.name()));
                }
                self.hear(client, message);
                count_signers(&done, self.heard(client), tally);
                self.lose(random, client);
            }
            (_, Said::Unread) => tally.count("unsent message"),
            _ => {}
        }
    }

    fn write(&mut self, random: &mut Random, tally: &mut Tally) {
        let step = self.step(random);
        let line = step.line();
        self.input.extend(&line);
        self.input.push(b'\n');
        let said = self.player.play(&line);
        self.follow(random, step, said, tally);
    }
}

/// In a write-back fewer than a quorum are heard.
fn count_signers(done: &Done, heard: &BTreeSet<u8>, tally: &mut Tally) {
    if done.signers.is_empty() {
        tally.count("signed by nobody");
    } else if heard.len() == quorum(1) && *heard != done.signers {
        tally.count("signed by others than were heard");
    }
}

fn lines(random: &mut Random) -> usize {
    match random.below(100) {
        0..=2 => 0,
        3..=9 => 1 + random.below(30),
        10..=14 => MOST_LINES,
        15..=34 => MOST_LINES + 1 + random.below(30),
        _ => 60 + random.below(40),
    }
}

/// A script. The lines behind the 100th are like the others, and must not be played.
fn script(random: &mut Random, tally: &mut Tally) -> Vec<u8> {
    let lines = lines(random);
    let mut writer = Writer::new(random);
    let mut unplayed = Tally::default();
    for at in 0..lines {
        let counts = if at < MOST_LINES {
            &mut *tally
        } else {
            &mut unplayed
        };
        writer.write(random, counts);
    }
    count_lines(lines, tally);
    let mut input = writer.input;
    if random.percent(30) && input.pop().is_some() {
        tally.count("input that ends without LF");
    }
    input
}

fn count_lines(lines: usize, tally: &mut Tally) {
    match lines {
        0 => tally.count("empty input"),
        MOST_LINES => tally.count("input of 100 lines"),
        _ if lines > MOST_LINES => tally.count("input of more lines"),
        _ => {}
    }
}

/// Counts a printed line by what stands behind its number.
fn count_printed(line: &str, tally: &mut Tally) {
    let words: Vec<&str> = line.split(' ').skip(1).collect();
    match *words {
        ["refused", refusal] => tally.count(format!("refused {refusal}")),
        ["done", ..] => {}
        [word, ..] => tally.count(word),
        [] => {}
    }
}

/// The first lines of a script, to be read and played again.
fn up_to(input: &[u8], lines: usize) -> String {
    let lines = input.split(|&byte| byte == b'\n').take(lines);
    let shown: Vec<String> = lines.map(|line| line.escape_ascii().to_string()).collect();
    shown.join("\n")
}

fn compare_input(program: &Program, input: &[u8], expected: &[String]) -> Result<(), Failure> {
    match program.difference(input, expected)? {
        Some(difference) => Err(Failure::Differs(up_to(input, difference.at), difference)),
        None => Ok(()),
    }
}

pub fn compare(program: &Program, random: &mut Random, tally: &mut Tally) -> Result<(), Failure> {
    for _ in 0..SCRIPTS {
        let input = script(random, tally);
        let expected = printed(&input);
        for line in &expected[1..] {
            count_printed(line, tally);
        }
        compare_input(program, &input, &expected)?;
    }
    for (name, input) in ODD_INPUTS {
        for _ in 0..INPUTS {
            let input = input(random);
            compare_input(program, &input, &printed(&input))?;
            tally.count(name);
        }
    }
    Ok(())
}
