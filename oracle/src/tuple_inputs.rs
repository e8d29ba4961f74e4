//! Trial inputs of the tuple reader and writer: chains to be read, lists to be written.

use crate::host::Host;
use crate::inputs::{Case, Group};
use crate::rng::Rng;
use crate::trial_inputs::{finish, small};
use crate::trial_kinds as kinds;

fn lend_tuples(host: &mut Host, tuples: usize, bodies: usize) {
    host.record(&[kinds::LEND, 0, 0, 0, tuples as u16, bodies as u16]);
}

/// Chains to be read: good ones, ones that end badly, short lists, wrong lengths.
pub fn chains(seed: u64, all: &mut Vec<Case>) {
    let mut host = small(3, 0);
    host.bytes_record(kinds::TUPLE_BYTES, 0, &[0x18, 0x02, 0xDF, 0x01, 0x14, 0x00, 0xFF]);
    for (tuples, places) in
        [(256, 127), (256, 126), (255, 127), (257, 126), (256, 256), (256, 257), (0, 0)]
    {
        lend_tuples(&mut host, tuples, 0);
        host.record(&[kinds::READ_CHAIN, places, 0xAA, 0x1234, 0x5678]);
    }
    finish("chain-sample".into(), host, all);
    sheet(all);
    edges(all);
    for number in 0..120 {
        let mut rng = Rng::new(Group::Chains.seed(seed, number));
        let mut host = small(4, 0);
        for _ in 0..12 {
            let chain = some_chain(&mut rng);
            host.bytes_record(kinds::TUPLE_BYTES, 0, &chain);
            host.bytes_record(kinds::BODY_BYTES, 0, &chain);
            let tuples = rng.pick(&[256, 256, 256, 256, 255, 257]);
            let bodies = rng.pick(&[256, 256, 256, 256, 255, 257]);
            lend_tuples(&mut host, tuples, bodies);
            let (places, code) = (rng.pick(&[127, 127, 128, 256, 126]), rng.byte() as u16);
            host.record(&[kinds::READ_CHAIN, places, code, rng.next() as u16, rng.next() as u16]);
            host.record(&[kinds::WRITE_BACK]);
            host.record(&[kinds::READ_CHAIN, 127]);
        }
        finish(format!("chain-{number}"), host, all);
    }
}

/// Data sheet 002, "CIS informations".
#[rustfmt::skip]
const SHEET: [u8; 156] = [
    0x01, 0x04, 0xDF, 0x4A, 0x01, 0xFF, 0x1C, 0x04, 0x02, 0xD9, 0x01, 0xFF, 0x18, 0x02, 0xDF, 0x01,
    0x20, 0x04, 0x07, 0x00, 0x00, 0x00, 0x15, 0x15, 0x04, 0x01, 0x48, 0x49, 0x54, 0x41, 0x43, 0x48,
    0x49, 0x00, 0x46, 0x4C, 0x41, 0x53, 0x48, 0x00, 0x35, 0x2E, 0x30, 0x00, 0xFF, 0x21, 0x02, 0x04,
    0x01, 0x22, 0x02, 0x01, 0x01, 0x22, 0x03, 0x02, 0x0C, 0x0F, 0x1A, 0x05, 0x01, 0x03, 0x00, 0x02,
    0x0F, 0x1B, 0x08, 0xC0, 0x40, 0xA1, 0x01, 0x55, 0x08, 0x00, 0x20, 0x1B, 0x06, 0x00, 0x01, 0x21,
    0xB5, 0x1E, 0x4D, 0x1B, 0x0A, 0xC1, 0x41, 0x99, 0x01, 0x55, 0x64, 0xF0, 0xFF, 0xFF, 0x20, 0x1B,
    0x06, 0x01, 0x01, 0x21, 0xB5, 0x1E, 0x4D, 0x1B, 0x0F, 0xC2, 0x41, 0x99, 0x01, 0x55, 0xEA, 0x61,
    0xF0, 0x01, 0x07, 0xF6, 0x03, 0x01, 0xEE, 0x20, 0x1B, 0x06, 0x02, 0x01, 0x21, 0xB5, 0x1E, 0x4D,
    0x1B, 0x0F, 0xC3, 0x41, 0x99, 0x01, 0x55, 0xEA, 0x61, 0x70, 0x01, 0x07, 0x76, 0x03, 0x01, 0xEE,
    0x20, 0x1B, 0x06, 0x03, 0x01, 0x21, 0xB5, 0x1E, 0x4D, 0x14, 0x00, 0xFF,
];

/// The sheet's chain, written back and read into lists of several lengths; then one tuple that is both
/// bad and too long, and 257 bytes to fill.
fn sheet(all: &mut Vec<Case>) {
    let mut host = small(7, 0);
    host.bytes_record(kinds::TUPLE_BYTES, 0, &SHEET);
    host.bytes_record(kinds::BODY_BYTES, 0, &SHEET);
    lend_tuples(&mut host, 256, 256);
    host.record(&[kinds::WRITE_BACK]);
    for places in [0, 126, 127, 200] {
        host.record(&[kinds::READ_CHAIN, places, 0xAA, 111, 222]);
    }
    lend_tuples(&mut host, 256, 300);
    host.record(&[kinds::LAST_ENTRY, 0, 0xFF, 0, 300]);
    host.record(&[kinds::WRITE_LIST, 1]);
    lend_tuples(&mut host, 257, 300);
    host.record(&[kinds::LAST_ENTRY, 0, 0x14]);
    host.record(&[kinds::WRITE_LIST, 1]);
    finish("chain-sheet".into(), host, all);
}

/// End marks at places all over a chain of nulls, and links short and long of a first and of a second tuple.
fn edges(all: &mut Vec<Case>) {
    let mut host = small(6, 0);
    lend_tuples(&mut host, 256, 256);
    host.bytes_record(kinds::TUPLE_BYTES, 0, &[0; 256]);
    for place in (0..=256).rev().step_by(15) {
        host.record(&[kinds::TUPLE_BYTES, place, 1, 0xFF]);
        host.record(&[kinds::READ_CHAIN, 127, 0x55]);
    }
    host.bytes_record(kinds::TUPLE_BYTES, 0, &[0xFF; 256]);
    for start in [0, 2, 100, 250, 252, 253, 254, 255] {
        let mut chain = [0x14, 0].repeat(start / 2);
        chain.resize(start, 0);
        host.bytes_record(kinds::TUPLE_BYTES, 0, &chain);
        for past in 0..5 {
            let link = (256 - start + past).saturating_sub(4) as u16;
            host.record(&[kinds::TUPLE_BYTES, start as u16, 2, 0x21 | link.min(255) << 8]);
            for last in [0xFF, 0x00, 0x21] {
                host.record(&[kinds::TUPLE_BYTES, 255, 1, last]);
                host.record(&[kinds::READ_CHAIN, 128, 0x66, 0xFFFF, 0xFFFF]);
            }
        }
        host.bytes_record(kinds::TUPLE_BYTES, 0, &[0xFF; 256]);
    }
    full_chain(&mut host);
    finish("chain-edges".into(), host, all);
}

/// 127 empty tuples and the end mark, into lists about that long.
fn full_chain(host: &mut Host) {
    let chain = [&[0x40, 0].repeat(127)[..], &[0xFF, 0xFF]].concat();
    host.bytes_record(kinds::TUPLE_BYTES, 0, &chain);
    host.bytes_record(kinds::BODY_BYTES, 0, &chain);
    for places in [126, 127, 128, 129, 256] {
        host.record(&[kinds::READ_CHAIN, places, 0x77, 1, 2]);
    }
    host.record(&[kinds::WRITE_BACK]);
}

/// 256 bytes: tuples of some length, perhaps nulls, an end mark or none.
fn some_chain(rng: &mut Rng) -> Vec<u8> {
    let longest = rng.pick(&[1, 2, 5, 20, 90]);
    let nulls = rng.pick(&[0, 0, 20, 100]);
    let target = rng.pick(&[0, 10, 100, 200, 253, 254, 255, 256]);
    let mut bytes = Vec::new();
    while bytes.len() + 2 <= target {
        if rng.percent(nulls) {
            bytes.push(0);
            continue;
        }
        let space = target - bytes.len() - 2;
        let length = rng.below(longest.min(space + 1));
        bytes.extend([1 + rng.below(254) as u8, length as u8]);
        bytes.extend((0..length).map(|_| rng.byte()));
    }
    end_chain(rng, bytes)
}

fn end_chain(rng: &mut Rng, mut bytes: Vec<u8>) -> Vec<u8> {
    let end = bytes.len();
    match rng.below(8) {
        0 => bytes.extend([0x21, 0xFF]),
        1 if end < 255 => bytes.extend([0x21, (254 - end) as u8]),
        2 if end < 254 => bytes.extend([0x21, (255 - end) as u8]),
        3 if end < 253 => bytes.extend([0x21, (253 - end) as u8]),
        4 => bytes.resize(256.max(end), 0),
        _ => {}
    }
    let tail = rng.pick(&[0xFF, 0xFF, 0x00, 0x77]);
    if bytes.len() < 256 && rng.percent(80) {
        bytes.push(0xFF);
    }
    bytes.resize(256, tail);
    bytes
}

/// Lists to be written, and read back.
pub fn lists(seed: u64, all: &mut Vec<Case>) {
    for number in 0..80 {
        let mut rng = Rng::new(Group::Lists.seed(seed, number));
        let mut host = small(5, 0);
        let bodies: Vec<u8> = (0..1024).map(|_| rng.byte()).collect();
        host.bytes_record(kinds::BODY_BYTES, 0, &bodies);
        for _ in 0..20 {
            one_list(&mut host, &mut rng);
        }
        finish(format!("list-{number}"), host, all);
    }
}

fn one_list(host: &mut Host, rng: &mut Rng) {
    let bodies = rng.pick(&[0, 10, 256, 300, 1024]);
    let count = rng.pick(&[0, 1, 2, 5, 40, 85, 127, 128, 256]);
    let longest = (253usize.saturating_sub(2 * count) / count.max(1)).min(bodies);
    let length = rng.below(longest + 1);
    let code = 1 + rng.below(254) as u16;
    let mut first = (code, rng.below(bodies + 1 - length) as u16, length as u16);
    let mut last = filling(rng, count, length, bodies);
    match rng.below(8) {
        0 => first = spoiled(rng, bodies),
        1..=3 => last = spoiled(rng, bodies),
        _ => {}
    }
    host.record(&[kinds::LAST_ENTRY, 0, last.0, last.1, last.2]);
    let tuples = rng.pick(&[256, 256, 256, 256, 255, 0, 512]);
    lend_tuples(host, tuples, bodies);
    host.record(&[kinds::WRITE_LIST, count as u16, first.0, first.1, first.2]);
    lend_tuples(host, 256, bodies);
    host.record(&[kinds::READ_CHAIN, 127, 0xAB, 0xCDEF, 0x0123]);
}

/// A last entry such that all take 253 to 257 bytes, where that can be.
fn filling(rng: &mut Rng, count: usize, length: usize, bodies: usize) -> (u16, u16, u16) {
    let used = count.saturating_sub(1) * (2 + length);
    let target: usize = rng.pick(&[253, 254, 255, 256, 257]);
    let last = target.saturating_sub(used + 2).min(bodies);
    (0x41, rng.below(bodies + 1 - last) as u16, last as u16)
}

/// An entry that is faulty or nearly: its code, its length, a body at or over the end.
fn spoiled(rng: &mut Rng, bodies: usize) -> (u16, u16, u16) {
    let end = bodies as u16;
    rng.pick(&[
        (0x00, 0, 0),
        (0xFF, 0, 0),
        (0x21, end, 0),
        (0x21, end + 1, 0),
        (0x21, end, 1),
        (0x21, end.saturating_sub(2), 2),
        (0x21, end.saturating_sub(2), 3),
        (0x21, 0, end),
        (0x21, 1, end),
        (0x21, 0xFFFF, 0xFFFF),
        (0x21, 0xFFFF, 1),
        (0x21, 1, 0xFFFF),
        (0x21, 0, 253),
        (0x21, 0, 254),
        (0x21, 0, 256),
        (0x21, 7, 300),
    ])
}
