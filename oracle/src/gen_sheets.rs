//! Makes texts with sheets: good ones of generated scripts, then changed.

use crate::gen;
use crate::random::Random;
use crate::read::{self, Rules};
use crate::sheet::Sheet;
use crate::{answers, hex, BATCH};
use std::io::{self, BufWriter, Write};

/// f32 patterns: NaN, infinities, zeros, subnormals, about 1 and about 2^-23.
const FLOATS: &[u32] = &[
    0x7FC00000, 0xFFC00000, 0x7F800001, 0x7F800000, 0xFF800000, 0x00000000, 0x80000000,
    0x00000001, 0x80000001, 0x007FFFFF, 0x807FFFFF, 0x00800000, 0x80800000, 0x34000000,
    0x33FFFFFF, 0x34000001, 0xB4000000, 0x3F800000, 0x3F800001, 0x3F7FFFFF, 0xBF800000,
    0x7F7FFFFF, 0xFF7FFFFF, 0x3F000000,
];

/// Writes `count` lines `TEXTHEX TAB SHEETHEX`.
pub fn run(seed: u64, count: u64) {
    let mut out = BufWriter::new(io::stdout().lock());
    let indexes: Vec<String> = (0..count).map(|index| index.to_string()).collect();
    let line = |index: &str| {
        let (text, sheet) = case(&mut Random::new(seed, index.parse().expect("an index")));
        format!("{}\t{}", hex::write(&text), hex::write(&sheet))
    };
    for batch in indexes.chunks(BATCH) {
        for line in answers(batch, &line) {
            writeln!(out, "{line}").expect("output");
        }
    }
}

fn case(random: &mut Random) -> (Vec<u8>, Vec<u8>) {
    match random.below(100) {
        0..=4 => return nested(random),
        5..=19 => return track(random),
        20 if random.chance(10) => return large(random),
        _ => {}
    }
    let (mut text, mut sheet) = good(random);
    match random.below(20) {
        0..=4 => {}
        5..=8 => put_floats(random, &mut sheet),
        9..=11 => put_part(random, &mut sheet, text.len()),
        12..=13 => put_start(random, &mut sheet, text.len()),
        14..=18 => put_bytes(random, &mut sheet.bytes),
        _ => change_text(random, &mut text),
    }
    (text, sheet.bytes)
}

/// A generated script that the Rust reads, and its sheet: noise may be in it.
fn good(random: &mut Random) -> (Vec<u8>, Sheet) {
    loop {
        let text = gen::right(random);
        if let Ok(tree) = read::read(&text, Rules::Text) {
            let sheet = read::encoded(&text, &tree);
            return (text, sheet);
        }
    }
}

fn float(random: &mut Random) -> u32 {
    if random.chance(85) { random.pick(FLOATS) } else { random.next() as u32 }
}

fn put_floats(random: &mut Random, sheet: &mut Sheet) {
    for _ in 0..random.between(1, 4) {
        if sheet.floats.is_empty() {
            return;
        }
        let at = random.pick(&sheet.floats);
        sheet.bytes[at..at + 4].copy_from_slice(&float(random).to_be_bytes());
    }
}

/// Moves the start of a node to the last place of the text, to its end, past it, or elsewhere.
fn put_start(random: &mut Random, sheet: &mut Sheet, text: usize) {
    if sheet.starts.is_empty() {
        return;
    }
    let at = random.pick(&sheet.starts);
    let inside = random.below(text + 1);
    let start = random.pick(&[0, text - 1, text - 1, text, text, text + 1, 65_535, inside]);
    sheet.bytes[at..at + 2].copy_from_slice(&(start as u16).to_be_bytes());
}

/// Moves a name to, or past, the text's end, or elsewhere.
fn put_part(random: &mut Random, sheet: &mut Sheet, text: usize) {
    if sheet.parts.is_empty() {
        return;
    }
    let at = random.pick(&sheet.parts);
    let inside = random.below(text + 1);
    let (start, length) = random.pick(&[
        (text, 0), (text, 1), (text - 1, 1), (text - 1, 2), (0, text), (0, text + 1), (1, text),
        (65_535, 0), (0, 65_535), (65_535, 65_535), (inside, 0), (inside, text - inside),
        (inside, text - inside + 1), (inside, 1), (0, 1),
    ]);
    sheet.bytes[at..at + 2].copy_from_slice(&(start as u16).to_be_bytes());
    sheet.bytes[at + 2..at + 4].copy_from_slice(&(length as u16).to_be_bytes());
}

fn put_bytes(random: &mut Random, bytes: &mut Vec<u8>) {
    for _ in 0..random.pick(&[1, 1, 1, 2]) {
        if bytes.is_empty() {
            return;
        }
        let at = random.below(bytes.len());
        match random.below(8) {
            0 | 1 => bytes[at] = random.pick(&[0, 1, 2, 3, 4, 5, 6, 9, 14, 15, 255]),
            2 => bytes[at] = random.below(256) as u8,
            3 => bytes[at] ^= 1,
            4 => drop(bytes.remove(at)),
            5 => bytes.insert(at, bytes[at]),
            6 => bytes.truncate(at),
            _ => bytes.push(random.pick(&[0, 1, 14])),
        }
    }
}

fn change_text(random: &mut Random, text: &mut Vec<u8>) {
    let at = random.below(text.len());
    match random.below(6) {
        0 => text.truncate(at),
        1 => text[at] = random.pick(&[0, 8, 9, 10, 11, 12, 13, 31, 127, 128, 255]),
        2 => text[at] = random.below(256) as u8,
        3 => text.insert(at, random.pick(b"\t\n\r \x0b\x7f")),
        4 => drop(text.remove(at)),
        _ if random.chance(90) => text.push(random.pick(b"\x00a\x80")),
        _ => text.resize(random.pick(&[16_384, 16_385]), b' '),
    }
}

/// 15 to 18 containers, one in the other, some with a second child.
fn nested(random: &mut Random) -> (Vec<u8>, Vec<u8>) {
    let depth = random.pick(&[15, 16, 16, 17, 17, 18]);
    let mut bytes = vec![0, 1];
    let mut later = 0;
    for level in 0..depth {
        let second = level + 1 < depth && random.chance(10);
        later += second as usize;
        bytes.extend(container(random));
        bytes.extend([0, (level + 1 < depth) as u8 + second as u8]);
    }
    for _ in 0..later {
        bytes.extend([14, 0, 0, 0x3F, 0x80, 0, 0, random.pick(&[0, 0, 0, 1, 2])]);
    }
    (b"p".to_vec(), bytes)
}

/// A container's record without its count of nodes.
fn container(random: &mut Random) -> Vec<u8> {
    match random.below(6) {
        0 => vec![3, 0, 0],
        1 => vec![4, 0, 0],
        2 => vec![5, 0, 0, random.pick(&[0, 1])],
        3 => vec![6, 0, 0, 0, 0],
        4 => vec![6, 0, 0, 1, 2, 1, 0x7F, 0xC0, 0, 0],
        _ => {
            let rows = random.pick(&[0, 1, 1, 1, 1, 1]);
            vec![6, 0, 0, 1, 0, 0, 0, 0, 1, 0, 0, 0, rows, random.pick(&[0, 4, 8]), 0]
        }
    }
}

/// A track whose times lie close together, or are no numbers.
fn track(random: &mut Random) -> (Vec<u8>, Vec<u8>) {
    let text = b"p linear Linear ease".to_vec();
    let mut bytes = vec![0, 1, 2, 0, 0, 0, 0, 0, 1, 0];
    let count = random.pick(&[0, 1, 2, 2, 2, 2, 3, 3, 4, 5]);
    bytes.push(count);
    let mut time = float(random);
    for _ in 0..count {
        bytes.push(random.below(2) as u8);
        bytes.extend(time.to_be_bytes());
        bytes.extend(random.pick(&[[0, 0, 0, 0, 0], [0, 0x7F, 0xC0, 0, 0]]));
        bytes.extend(random.pick(&[
            &[0][..], &[0], &[0], &[0], &[1, 0, 0, 0, 2, 0, 6], &[1, 0, 1, 0, 9, 0, 6],
            &[1, 0, 0, 0, 9, 0, 6], &[1, 0, 1, 0, 16, 0, 4], &[1, 2, 0, 0, 0, 1],
        ]));
        time = next_time(random, time);
    }
    bytes.extend(random.pick(&[&[0][..], &[1, 0], &[1, 2], &[1, 3], &[1, 4, 0, 0, 0, 9], &[1, 5]]));
    (text, bytes)
}

fn next_time(random: &mut Random, time: u32) -> u32 {
    let value = f32::from_bits(time);
    match random.below(8) {
        0 => time,
        1 => time.wrapping_add(random.between(1, 3) as u32),
        2 => time.wrapping_sub(random.between(1, 3) as u32),
        3 => (value + f32::EPSILON).to_bits(),
        4 => (value + f32::EPSILON / 2.0).to_bits(),
        5 => (value + random.pick(&[0.5, 1.0, 100.0])).to_bits(),
        _ => float(random),
    }
}

/// 65,533 to 65,537 bytes of labels, with a few `at` to make up the length.
fn large(random: &mut Random) -> (Vec<u8>, Vec<u8>) {
    let size: usize = random.pick(&[65_533, 65_534, 65_535, 65_535, 65_536, 65_537]);
    let eights = (size - 2) % 7;
    let sevens = (size - 2 - 8 * eights) / 7;
    let mut bytes = ((eights + sevens) as u16).to_be_bytes().to_vec();
    bytes.extend([14, 0, 0, 0, 0, 0, 0, 0].repeat(eights));
    bytes.extend([13, 0, 0, 0, 0, 0, 1].repeat(sevens));
    assert_eq!(bytes.len(), size);
    (b"p".to_vec(), bytes)
}
