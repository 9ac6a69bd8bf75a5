//! Lines that the player's grammar does not have, or hardly has; and inputs that are no scripts.
use crate::model::random::Random;
use crate::program::hex;

/// A name, and such a line or input.
type Odd = (&'static str, fn(&mut Random) -> Vec<u8>);

pub const ODD_LINES: [Odd; 14] = [
    ("empty line", |_| Vec::new()),
    ("leading zero", |random| {
        let letter = random.pick(&['h', 'd']);
        format!("{letter} 1 0{}", random.below(12)).into_bytes()
    }),
    ("large number", |random| {
        let number = random.pick(&["0", "100", "101", "256", "18446744073709551617"]);
        format!("h 2 {number}").into_bytes()
    }),
    ("sign or letter in a number", |random| {
        let number = random.pick(&["+1", "-1", "1x", "0x1", "1.", "", "\u{661}"]);
        format!("d 3 {number}").into_bytes()
    }),
    ("small hex", |random| {
        let digits = random.pick(&["00031c201c1f", "00031C201c1F", "00031C201C1f"]);
        format!("w 1 {digits}").into_bytes()
    }),
    ("17 pairs", |random| pairs(random, 17)),
    ("18 pairs", |random| pairs(random, 18)),
    ("half a pair", |random| {
        let digits = random.pick(&["", "0", "000", "00031C201C1"]);
        format!("w 2 {digits}").into_bytes()
    }),
    ("no such party", |random| {
        let id = random.pick(&["0", "5", "9", "01", "11", "", "a"]);
        random
            .pick(&[
                format!("r {id}"),
                format!("w {id} 0000"),
                format!("h {id} 1"),
            ])
            .into_bytes()
    }),
    ("other letter", |random| {
        let letter = random.pick(&["W", "R", "H", "D", "x", "", "rr"]);
        format!("{letter} 1 1").into_bytes()
    }),
    ("words lacking or more", |random| {
        let line = random.pick(&["r", "w 1", "h 1", "d", "r 1 1", "w 1 0000 0000", "h 1 1 1"]);
        line.as_bytes().to_vec()
    }),
    ("other space", |random| {
        let line = random.pick(&[
            "r  1",
            " r 1",
            "r 1 ",
            "r\t1",
            "h 1  1",
            "h 1 1 ",
            "w 1  0000",
        ]);
        line.as_bytes().to_vec()
    }),
    ("CR, NUL or another byte", |random| {
        let mut line = random
            .pick(&["r 1", "h 1 1", "w 1 0000"])
            .as_bytes()
            .to_vec();
        let at = random.below(line.len());
        let at = random.pick(&[at, line.len()]);
        line.insert(at, random.pick(b"\r\0\xff\x80"));
        line
    }),
    ("overlong line", overlong),
];

/// Whole inputs, up to three million bytes.
pub const ODD_INPUTS: [Odd; 5] = [
    ("bytes of any value", |random| {
        let length = length(random);
        random.some_bytes(length)
    }),
    ("bytes of the grammar", |random| {
        let length = length(random);
        let mut byte = || random.pick(b"rwhd 1234\n0AF");
        (0..length).map(|_| byte()).collect()
    }),
    ("one line without end", |random| {
        vec![random.pick(b"r1 \0"); length(random)]
    }),
    ("empty lines", |random| {
        vec![b'\n'; random.pick(&[1, 99, 100, 101, 4_096, 9_000])]
    }),
    ("one line many times", |random| {
        let line = random.pick(&["r 1\n", "w 2 0000\n", "h 1 1\n", "r 1\r\n"]);
        line.repeat(random.pick(&[99, 100, 101, 200, 300_000]))
            .into_bytes()
    }),
];

/// Around the sizes of the pieces in which an input may be read, and far above.
fn length(random: &mut Random) -> usize {
    random.pick(&[
        1, 39, 40, 3_999, 4_000, 4_095, 4_096, 4_097, 20_000, 3_000_000,
    ])
}

fn pairs(random: &mut Random, number: usize) -> Vec<u8> {
    let bytes = random.some_bytes(number);
    format!("w {} {}", 1 + random.below(4), hex(&bytes)).into_bytes()
}

/// Longer than a line of the grammar, and than a piece in which the input may be read.
fn overlong(random: &mut Random) -> Vec<u8> {
    let begin = random.pick(&["r 1", "h 1 1", "w 1 00031C201C1F", "w 1 "]);
    let fill = random.pick(b" 0A1x\0");
    let length = random.pick(&[38, 39, 40, 41, 100, 4_095, 4_096, 4_097, 9_000]);
    let mut line = begin.as_bytes().to_vec();
    line.resize(length, fill);
    line
}
