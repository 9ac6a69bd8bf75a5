//! Messages with verdicts for the program `messages`: what tests 2 to 11, with 19 and 20, make of them.
use crate::forge::{bad_register, good_register, sound, spoiled, whole, Delivery};
use crate::messages::{letter, receiver};
use crate::model::message::*;
use crate::model::random::Random;
use crate::program::{hex, Failure, Line, Program, HUGE_BUFFER};
use crate::tally::Tally;
use std::collections::BTreeSet;

const LINES: usize = 12_000;
/// The program has room for so many.
const MOST_VERDICTS: usize = 64;

pub const FLOORS: [(&str, usize); 25] = [
    ("replica: accepted", 1_000),
    ("replica: refused 2", 20),
    ("replica: refused 3", 50),
    ("replica: refused 4", 100),
    ("replica: refused 5", 500),
    ("replica: refused 6", 500),
    ("replica: refused 7", 100),
    ("replica: refused 8", 30),
    ("replica: refused 9", 30),
    ("replica: refused 10", 5),
    ("replica: refused 11", 30),
    ("replica: refused 19", 300),
    ("replica: refused 20", 300),
    ("client: accepted", 1_000),
    ("client: refused 2", 20),
    ("client: refused 3", 50),
    ("client: refused 4", 100),
    ("client: refused 5", 500),
    ("client: refused 6", 500),
    ("client: refused 7", 100),
    ("client: refused 8", 30),
    ("client: refused 9", 20),
    ("client: refused 10", 5),
    ("client: refused 11", 50),
    ("client: refused 20", 300),
];

/// Mostly a number that sends such messages, or one beside; some are any.
fn sender(random: &mut Random, kind: u8, f: u8) -> u8 {
    let any = random.byte();
    let n = replicas(f);
    if kind <= READ {
        random.pick(&[0, 1, 2, 63, 64, 64, 64, 65, 96, 97, any, any])
    } else {
        random.pick(&[0, 1, 2, 3, n, n, n, n + 1, any])
    }
}

fn delivery(random: &mut Random, f: u8) -> Delivery {
    let kind = 1 + random.below(KIND_NAMES.len()) as u8;
    let sender = sender(random, kind, f);
    let register = if random.percent(15) {
        bad_register(random)
    } else {
        good_register(random)
    };
    let message = sound(random, kind, sender, register, f);
    let mut delivery = if random.percent(55) {
        spoiled(random, message, f)
    } else {
        whole(&message)
    };
    delivery.verdicts.truncate(MOST_VERDICTS);
    delivery
}

fn judgement(receiver: Receiver, delivery: &Delivery, f: u8, tally: &mut Tally) -> String {
    let nobody = BTreeSet::new();
    let said = match receiver.check(&delivery.message, &delivery.verdicts, f, &nobody) {
        Ok(_) => "accepted".to_string(),
        Err(refusal) => format!("refused {refusal}"),
    };
    let by = match receiver {
        Receiver::Replica => "replica",
        Receiver::Client => "client",
    };
    tally.count(format!("{by}: {said}"));
    said
}

fn line(random: &mut Random, tally: &mut Tally) -> Line {
    let f = random.pick(&[1, 1, 1, 2, 3, 4, 5]);
    let delivery = delivery(random, f);
    let receiver = receiver(random, delivery.message.get(2).copied());
    let letter = letter(receiver);
    let message = hex(&delivery.message);
    let verdicts = hex(&delivery.verdicts);
    Line {
        text: format!("{letter}{f} {message} {verdicts}").into_bytes(),
        expected: judgement(receiver, &delivery, f, tally),
    }
}

pub fn compare(program: &Program, random: &mut Random, tally: &mut Tally) -> Result<(), Failure> {
    let lines: Vec<Line> = (0..LINES).map(|_| line(random, tally)).collect();
    program.must_answer(&lines, HUGE_BUFFER)
}
