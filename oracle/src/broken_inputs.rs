//! Session files that are broken or refused, of every kind.

use crate::card::{Access, Geometry};
use crate::host::{push_access, push_opening, Host};
use crate::inputs::{Case, Group};
use crate::rng::Rng;
use crate::session_player::LONGEST;

pub fn files(seed: u64, all: &mut Vec<Case>) {
    cuts(all);
    changed_bytes(all);
    wrong_fields(all);
    openings(all);
    lengths(all);
    late_breaks(seed, all);
    noise(seed, all);
}

fn add(all: &mut Vec<Case>, name: String, bytes: Vec<u8>) {
    all.push(Case::new(format!("broken-{name}"), bytes));
}

fn words(words: &[u16]) -> Vec<u8> {
    words.iter().flat_map(|w| w.to_le_bytes()).collect()
}

fn opening(c: u16, h: u16, s: u16, mode: u16) -> Vec<u8> {
    let mut out = Vec::new();
    push_opening(&mut out, [c, h, s, mode]);
    out
}

fn write(space: u8, width: u8, address: u16, value: u16) -> Vec<u8> {
    let mut out = Vec::new();
    push_access(&mut out, &Access { space, width, write: true, address, value });
    out
}

fn read(space: u8, width: u8, address: u16) -> Vec<u8> {
    let mut out = Vec::new();
    push_access(&mut out, &Access { space, width, write: false, address, value: 0 });
    out
}

/// A small good file in each mode.
fn good(mode: u16) -> Vec<u8> {
    let space = if mode == 1 { 3 } else { 1 };
    let parts = [
        opening(4, 2, 4, mode),
        write(space, 1, 7, 0xFF),
        read(space, 1, 7),
        write(space, 2, 0, 0x1234),
        read(space, 2, 0),
        write(space, 1, 7, 3),
        read(space, 1, 1),
    ];
    parts.concat()
}

/// Cut at every place, the empty file and the whole one included.
fn cuts(all: &mut Vec<Case>) {
    let whole = good(1);
    for end in 0..=whole.len() {
        add(all, format!("cut-{end}"), whole[..end].to_vec());
    }
}

/// Every byte of a good file changed.
fn changed_bytes(all: &mut Vec<Case>) {
    let whole = good(0);
    for at in 0..whole.len() {
        let mut values = vec![0x00, 0x02, 0x03, 0x08, 0x0C, 0xFF, whole[at] ^ 1];
        values.sort();
        values.dedup();
        for value in values {
            if whole[at] != value {
                let mut bytes = whole.clone();
                bytes[at] = value;
                add(all, format!("byte-{at}-{value:02X}"), bytes);
            }
        }
    }
}

/// One record of every wrong sort after a good start, and more good records after it.
fn wrong_fields(all: &mut Vec<Case>) {
    let w = |length: u16, kind: u16, body: &[u8]| [words(&[length, kind]), body.to_vec()].concat();
    let body = [3, 1, 7, 0, 3, 0, 0, 0, 0, 0, 0, 0];
    let mut wrong: Vec<(String, Vec<u8>)> = Vec::new();
    for kind in [0, 1, 2, 3, 4, 5, 0x100, 0x102, 0x203, 0xFFFF] {
        for length in [0, 1, 3, 4, 7, 8, 9, 10, 11, 12, 16, 0x108, 0x10A, 0xFFFF] {
            wrong.push((format!("kind{kind}-length{length}"), w(length, kind, &body)));
        }
    }
    for space in [4, 5, 128, 255] {
        wrong.push((format!("space{space}-read"), read(space, 1, 7)));
        wrong.push((format!("space{space}-write"), write(space, 2, 0, 7)));
    }
    for width in [0, 3, 4, 128, 255] {
        wrong.push((format!("width{width}-read"), read(3, width, 7)));
        wrong.push((format!("width{width}-write"), write(3, width, 7, 7)));
    }
    for value in [256, 257, 0x1234, 0xFF00, 0xFFFF] {
        wrong.push((format!("value{value}"), write(3, 1, 7, value)));
        wrong.push((format!("value{value}-nowhere"), write(0, 1, 0xFFFF, value)));
    }
    wrong.push(("second-opening".into(), opening(4, 2, 4, 1)));
    wrong.push(("second-bad-opening".into(), opening(0, 0, 0, 9)));
    for (name, record) in wrong {
        let start = [good(1), record.clone()].concat();
        add(all, format!("after-{name}"), [start, read(3, 1, 7)].concat());
        if record.len() % 3 == 0 {
            add(all, format!("first-{name}"), [record, good(1)].concat());
        }
    }
}

/// C, H, S and mode at and beyond every limit.
const OPENINGS: [(u16, u16, u16, u16); 36] = [
    (32, 1, 1, 0),
    (33, 1, 1, 0),
    (1, 16, 2, 1),
    (1, 17, 1, 0),
    (1, 1, 32, 1),
    (1, 1, 33, 1),
    (0, 1, 1, 0),
    (1, 0, 1, 0),
    (1, 1, 0, 0),
    (1, 1, 1, 2),
    (1, 1, 1, 255),
    (1, 1, 1, 256),
    (1, 1, 1, 257),
    (1, 257, 1, 0),
    (257, 1, 1, 0),
    (1, 1, 257, 0),
    (1, 1, 256, 1),
    (65535, 65535, 65535, 0),
    (65535, 1, 1, 0),
    (65535, 16, 255, 1),
    (1, 256, 1, 0),
    (256, 256, 256, 0),
    (32768, 2, 1, 0),
    (16384, 4, 1, 0),
    (4096, 16, 1, 0),
    (2, 16, 1, 1),
    (1, 1, 1, 0),
    (1, 1, 1, 1),
    (3, 2, 6, 0),
    (8, 2, 2, 1),
    (11, 3, 1, 1),
    (4, 2, 4, 65535),
    (0, 0, 0, 0),
    (65535, 0, 1, 0),
    (1, 16, 255, 0),
    (257, 16, 15, 0),
];

/// Each such opening alone, and with a good and a broken record after it.
fn openings(all: &mut Vec<Case>) {
    for (c, h, s, mode) in OPENINGS {
        let start = opening(c, h, s, mode);
        let name = format!("open-{c}-{h}-{s}-{mode}");
        add(all, name.clone(), start.clone());
        let space = if mode == 1 { 3 } else { 1 };
        add(all, format!("{name}-read"), [start.clone(), read(space, 1, 7)].concat());
        add(all, format!("{name}-broken"), [start, vec![9, 9, 9]].concat());
    }
}

/// Files of the greatest length and beyond, of good and bad content.
fn lengths(all: &mut Vec<Case>) {
    let full = filled(2, 4092);
    assert_eq!(full.len(), LONGEST);
    add(all, "full".into(), full.clone());
    for more in [1, 4, 8, 7_232, 32_768, 70_000] {
        add(all, format!("long-by-{more}"), [full.clone(), vec![8; more]].concat());
    }
    for size in [LONGEST - 1, LONGEST - 2, LONGEST - 7] {
        add(all, format!("full-cut-{size}"), full[..size].to_vec());
    }
    for size in [4, LONGEST, LONGEST + 1, 40_000] {
        add(all, format!("zeros-{size}"), vec![0; size]);
    }
    let refused = [opening(33, 1, 1, 0), full[12..].to_vec()].concat();
    add(all, "full-refused".into(), refused.clone());
    add(all, "long-refused".into(), [refused, vec![0]].concat());
}

fn filled(writes: usize, reads: usize) -> Vec<u8> {
    let mut bytes = opening(4, 2, 4, 1);
    for _ in 0..writes {
        bytes.extend(write(3, 1, 7, 0xEC));
    }
    for _ in 0..reads {
        bytes.extend(read(3, 2, 0));
    }
    bytes
}

/// A long wandering broken late.
fn late_breaks(seed: u64, all: &mut Vec<Case>) {
    for number in 0..40 {
        let mut host =
            Host::session(Group::LateBreaks.seed(seed, number), Geometry::new(4, 2, 4), 0);
        host.limit = 2_000 + 700 * number;
        host.wander();
        let mut bytes = host.out;
        match number % 4 {
            0 => bytes.extend(vec![0; 1 + number % 7]),
            1 => bytes.extend(opening(4, 2, 4, 0)),
            2 => bytes.truncate(bytes.len() - 1 - number % 8),
            _ => bytes.extend([read(4, 1, 0), read(1, 1, 7)].concat()),
        }
        add(all, format!("late-{number}"), bytes);
    }
}

/// Bytes at random, and records at random that are mostly good.
fn noise(seed: u64, all: &mut Vec<Case>) {
    for number in 0..30 {
        let mut rng = Rng::new(Group::Noise.seed(seed, number));
        let size = rng.below(60);
        add(all, format!("noise-{number}"), (0..size).map(|_| rng.byte()).collect());
        let mut bytes = opening(4, 2, 4, (number % 2) as u16);
        for _ in 0..rng.below(200) {
            bytes.extend(some_record(&mut rng));
        }
        add(all, format!("records-{number}"), bytes);
    }
}

fn some_record(rng: &mut Rng) -> Vec<u8> {
    let faulty = rng.percent(1);
    let space = rng.below(if faulty { 6 } else { 4 }) as u8;
    let width = if faulty { rng.below(4) as u8 } else { 1 + rng.below(2) as u8 };
    let address = rng.below(0x20) as u16;
    let value = rng.next() as u16 & if width == 1 && !faulty { 0xFF } else { 0xFFFF };
    if rng.flip() {
        write(space, width, address, value)
    } else {
        read(space, width, address)
    }
}
