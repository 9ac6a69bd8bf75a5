//! Cards for the program `cards`: good ones, damaged ones, and lines that are no hex.
use crate::model::card::{keeps_table, FIELDS};
use crate::model::random::Random;
use crate::program::{hex, Failure, Line, Program};
use crate::tally::Tally;

const LINES: usize = 20_000;
const ROOM: usize = 65_536;

pub const FLOORS: [(&str, usize); 18] = [
    ("good", 6_000),
    ("good with bit 0", 1_000),
    ("good with bit 1", 1_000),
    ("good with bit 2", 1_000),
    ("good with bit 3", 1_000),
    ("good with bit 4", 1_000),
    ("good with bit 5", 1_000),
    ("good with bit 6", 1_000),
    ("refused after value below", 300),
    ("refused after value above", 300),
    ("refused after bits 0 and 1 apart", 300),
    ("refused after unused bit", 300),
    ("refused after bit changed", 300),
    ("refused after byte changed", 100),
    ("refused after cut", 300),
    ("refused after bytes behind", 300),
    ("refused after any bytes", 300),
    ("unread", 300),
];

/// A name, and a card with such a defect. Most of them break the table: a changed bit or byte may leave a good card.
type Damage = (&'static str, fn(&mut Random) -> Vec<u8>);

const DAMAGES: [Damage; 9] = [
    ("value below", value_below),
    ("value above", value_above),
    ("bits 0 and 1 apart", bits_apart),
    ("unused bit", unused_bit),
    ("bit changed", bit_changed),
    ("byte changed", byte_changed),
    ("cut", cut),
    ("bytes behind", bytes_behind),
    ("any bytes", any_bytes),
];

/// Bits 0 and 1 go together.
fn good_map(random: &mut Random) -> u16 {
    u16::from(random.byte() & 0b111_1100) | random.pick(&[0b00, 0b11])
}

fn good_value(random: &mut Random, bit: usize) -> u32 {
    let (_, smallest, largest) = FIELDS[bit];
    let between = smallest + random.below((largest - smallest) as usize + 1) as u32;
    random.pick(&[smallest, largest, between, between, between])
}

/// A card with the fields of a map, a value for each bit.
fn card_of(map: u16, mut value: impl FnMut(usize) -> u32) -> Vec<u8> {
    let mut card = map.to_be_bytes().to_vec();
    for (bit, (length, ..)) in FIELDS.into_iter().enumerate() {
        if map >> bit & 1 == 1 {
            card.extend(&value(bit).to_be_bytes()[4 - length..]);
        }
    }
    card
}

pub fn good_card(random: &mut Random) -> Vec<u8> {
    let map = good_map(random);
    card_of(map, |bit| good_value(random, bit))
}

/// A card whose field of some bit has the value that the ends of its range give.
fn with_value(random: &mut Random, outside: fn(u32, u32) -> u32) -> Vec<u8> {
    let wrong = random.below(6);
    let bits = if wrong < 2 { 0b11 } else { 1 << wrong };
    let map = good_map(random) | bits;
    card_of(map, |bit| {
        let (_, smallest, largest) = FIELDS[bit];
        if bit == wrong {
            outside(smallest, largest)
        } else {
            good_value(random, bit)
        }
    })
}

fn value_below(random: &mut Random) -> Vec<u8> {
    with_value(random, |smallest, _| smallest.wrapping_sub(1))
}

fn value_above(random: &mut Random) -> Vec<u8> {
    with_value(random, |_, largest| largest + 1)
}

fn bits_apart(random: &mut Random) -> Vec<u8> {
    let map = good_map(random) & !0b11 | random.pick(&[0b01, 0b10]);
    card_of(map, |bit| good_value(random, bit))
}

fn unused_bit(random: &mut Random) -> Vec<u8> {
    let map = good_map(random) | 1 << (7 + random.below(9));
    card_of(map, |bit| good_value(random, bit))
}

fn bit_changed(random: &mut Random) -> Vec<u8> {
    let mut card = good_card(random);
    let bit = random.below(16);
    card[1 - bit / 8] ^= 1 << (bit % 8);
    card
}

fn byte_changed(random: &mut Random) -> Vec<u8> {
    let mut card = good_card(random);
    let at = random.below(card.len());
    card[at] = random.byte();
    card
}

fn cut(random: &mut Random) -> Vec<u8> {
    let mut card = good_card(random);
    card.truncate(random.below(card.len()));
    card
}

fn bytes_behind(random: &mut Random) -> Vec<u8> {
    let mut card = good_card(random);
    let more = 1 + random.below(20);
    card.extend(random.some_bytes(more));
    card
}

fn any_bytes(random: &mut Random) -> Vec<u8> {
    let length = random.below(21);
    random.some_bytes(length)
}

/// A damaged card, with the name of its damage.
pub fn damaged_card(random: &mut Random) -> (&'static str, Vec<u8>) {
    let (name, damage) = random.pick(&DAMAGES);
    (name, damage(random))
}

fn number(bytes: &[u8]) -> u32 {
    bytes
        .iter()
        .fold(0, |value, &byte| value * 256 + u32::from(byte))
}

/// The fields of a card that keeps its table, by bit.
fn fields(card: &[u8]) -> Option<Vec<(usize, u32)>> {
    if !keeps_table(card) {
        return None;
    }
    let (map, mut rest) = card.split_at(2);
    let mut fields = Vec::new();
    for (bit, (length, ..)) in FIELDS.into_iter().enumerate() {
        if number(map) >> bit & 1 == 1 {
            let (field, behind) = rest.split_at(length);
            fields.push((bit, number(field)));
            rest = behind;
        }
    }
    Some(fields)
}

/// What must be printed for a card that `origin` tells of.
fn answer(card: &[u8], origin: &str, tally: &mut Tally) -> String {
    let Some(fields) = fields(card) else {
        tally.count(format!("refused after {origin}"));
        return "refused 14".to_string();
    };
    tally.count("good");
    let mut line = "good".to_string();
    for (bit, value) in fields {
        tally.count(format!("good with bit {bit}"));
        line += &format!(" {bit}={value}");
    }
    line
}

/// Capital hex, or small.
fn digits(random: &mut Random, bytes: &[u8]) -> Vec<u8> {
    let mut digits = hex(bytes).into_bytes();
    if random.percent(10) {
        digits.make_ascii_lowercase();
    }
    digits
}

/// A digit is lacking, or another byte stands among them.
fn spoil(random: &mut Random, digits: &mut Vec<u8>) {
    if digits.is_empty() || random.percent(50) {
        digits.push(random.pick(b"0F"));
    } else {
        let at = random.below(digits.len());
        digits[at] = random.pick(b"gG@`/: x\0\r\xff");
    }
}

fn line(random: &mut Random, tally: &mut Tally) -> Line {
    let (origin, card) = if random.percent(50) {
        damaged_card(random)
    } else {
        ("no damage", good_card(random))
    };
    let mut text = digits(random, &card);
    let expected = if random.percent(4) {
        spoil(random, &mut text);
        tally.count("unread");
        "unread".to_string()
    } else {
        answer(&card, origin, tally)
    };
    Line { text, expected }
}

pub fn compare(program: &Program, random: &mut Random, tally: &mut Tally) -> Result<(), Failure> {
    let lines: Vec<Line> = (0..LINES).map(|_| line(random, tally)).collect();
    program.must_answer(&lines, ROOM)?;
    program.must_say_rest(ROOM)
}
