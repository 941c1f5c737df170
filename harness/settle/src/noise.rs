//! Files of which nothing is known: bytes, words without order, and design files with bytes changed.

use compare::random::Random;

const WORDS: [&str; 39] = [
    "kelvin",
    "celsius",
    "ambient",
    "strand",
    "quencher",
    "reporter",
    "scaffold",
    "blocked",
    "ring",
    "energy",
    "pair",
    "penalty",
    "dg",
    "ds",
    "seq",
    "-",
    "#",
    "a",
    "a*",
    "b",
    "b**",
    "*",
    "310.15",
    "0.6",
    "-16",
    "1e3",
    "100nM",
    "5\u{b5}M",
    "0x3ff0000000000000",
    "acgt",
    "1",
    "0",
    "\u{e9}",
    "\"",
    "\\",
    "\u{0}",
    "\u{7f}",
    "-0.0",
    "9e999",
];

/// Any bytes, or bytes that stand in design files.
pub fn bytes(random: &mut Random) -> Vec<u8> {
    let length = random.below(200);
    match random.once_in(2) {
        true => (0..length).map(|_| random.bits() as u8).collect(),
        false => (0..length)
            .map(|_| random.pick(b"kelvinambtsrdquchpofgy ...--**##\n\n\t\r 0123456789xe\xff\x00"))
            .collect(),
    }
}

/// Words of design files in any order.
pub fn words(random: &mut Random) -> Vec<u8> {
    let mut text = vec![];
    for _ in 0..random.below(60) {
        text.extend(random.pick(&WORDS).as_bytes());
        text.push(random.pick(b"   \n\n\t"));
    }
    text
}

/// A text with some bytes changed, put in, taken out or said twice.
pub fn changed(random: &mut Random, text: &[u8]) -> Vec<u8> {
    let mut text = text.to_vec();
    for _ in 0..random.within(1..=4) {
        if text.is_empty() {
            return text;
        }
        let at = random.below(text.len());
        let end = at + random.below((text.len() - at).min(20)) + 1;
        match random.below(6) {
            0 => text[at] = random.bits() as u8,
            1 => text.insert(at, random.pick(b"\x00\xff\n\r #-*.e0")),
            2 => {
                text.drain(at..end);
            }
            3 => {
                let part = text[at..end].to_vec();
                text.splice(at..at, part);
            }
            4 => text.truncate(at),
            _ => text[at] ^= 1 << random.below(8),
        }
    }
    text
}
