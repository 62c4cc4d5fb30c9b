//! Lines that the console refuses before they reach the board: refusals 8 to 11.

use crate::dice::Dice;

const VERBS: [(&str, u32); 8] = [
    ("open", 5),
    ("book", 2),
    ("step", 1),
    ("drive", 2),
    ("collect", 1),
    ("drop", 1),
    ("back", 1),
    ("show", 1),
];

const NO_VERBS: [&[u8]; 16] = [
    b"",
    b"stop",
    b"Open",
    b"BOOK",
    b"steps",
    b"ste",
    b"row",
    b"stage",
    b" step",
    b"step ",
    b"step\r",
    b"\xef\xbb\xbfstep",
    b"\x00",
    b"\xff\xfe",
    b"drive 1",
    b"ok",
];

const NO_FIGURES: [&[u8]; 20] = [
    b"",
    b"00",
    b"01",
    b"-1",
    b"+1",
    b" 1",
    b"1 ",
    b"1\r",
    b"x",
    b"1x",
    b"0x1",
    b"1.0",
    b"4294967296",
    b"9999999999",
    b"10000000000",
    b"00000000000",
    b"1\x00",
    b"\xff",
    b"\xd9\xa3",
    b"18446744073709551617",
];

const FIGURES: [&[u8]; 7] = [
    b"0",
    b"1",
    b"7",
    b"16",
    b"256",
    b"4294967295",
    b"1000000000",
];

/// Adds one bad line, with its LF.
pub fn line(dice: &mut Dice, text: &mut Vec<u8>) {
    match dice.below(100) {
        0..25 => no_verb(dice, text),
        25..50 => field_count(dice, text),
        50..80 => no_figure(dice, text),
        80..92 => odd_bytes(dice, text),
        _ => too_long(dice, text),
    }
    text.push(b'\n');
}

fn figure(dice: &mut Dice, text: &mut Vec<u8>) {
    text.push(b'\t');
    text.extend(dice.one_of(&FIGURES));
}

fn no_verb(dice: &mut Dice, text: &mut Vec<u8>) {
    text.extend(dice.one_of(&NO_VERBS));
    for _ in 0..dice.below(4) {
        figure(dice, text);
    }
}

fn field_count(dice: &mut Dice, text: &mut Vec<u8>) {
    let (verb, count) = VERBS[dice.below(8) as usize];
    text.extend(verb.as_bytes());
    let given = loop {
        let given = dice.below(8);
        if given != count {
            break given;
        }
    };
    for _ in 0..given {
        if dice.percent(20) {
            text.push(b'\t');
            text.extend(dice.one_of(&NO_FIGURES[..12]));
        } else {
            figure(dice, text);
        }
    }
}

fn no_figure(dice: &mut Dice, text: &mut Vec<u8>) {
    let (verb, count) = VERBS[dice.below(8) as usize];
    text.extend(verb.as_bytes());
    let wrong = dice.below(count);
    for place in 0..count {
        if place == wrong || dice.percent(10) {
            text.push(b'\t');
            text.extend(dice.one_of(&NO_FIGURES));
        } else {
            figure(dice, text);
        }
    }
}

fn push_bytes(dice: &mut Dice, count: u32, text: &mut Vec<u8>) {
    for _ in 0..count {
        let byte = dice.below(256) as u8;
        text.push(if byte == b'\n' { b'\t' } else { byte });
    }
}

fn odd_bytes(dice: &mut Dice, text: &mut Vec<u8>) {
    let count = dice.below(80);
    push_bytes(dice, count, text);
}

/// Around the limit, and far beyond it.
fn too_long(dice: &mut Dice, text: &mut Vec<u8>) {
    match dice.below(8) {
        0 => text.extend([b'x'; 79]),
        1 => text.extend([b'x'; 80]),
        2 => {
            text.extend(b"show");
            text.extend([b'\t'; 75]);
        }
        3 => {
            text.extend(b"step\t");
            text.extend([b'0'; 75]);
        }
        4 if dice.percent(10) => {
            let count = dice.within((1_000, 20_000));
            push_bytes(dice, count, text);
        }
        _ => {
            let count = dice.within((70, 200));
            push_bytes(dice, count, text);
        }
    }
}
