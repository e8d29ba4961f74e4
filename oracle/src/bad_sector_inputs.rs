//! Trial inputs of the number of bad sectors: worked out at the opening, lowered, set from outside, kept
//! and shown in Identify.

use crate::card::Access;
use crate::field_inputs::some_bad;
use crate::host::{Host, Style};
use crate::inputs::{bring, geometry, Case, Group, State};
use crate::trial_inputs::{finish, open_over_marks, probe, small};
use crate::trial_kinds as kinds;

pub fn bad_sectors(seed: u64, all: &mut Vec<Case>) {
    openings(seed, all);
    runs(seed, all);
    outside(seed, all);
    all_marks(seed, all);
    large(seed, all);
    limits(seed, all);
    totals(seed, all);
    kept(seed, all);
    drops(seed, all);
    integrity_bytes(seed, all);
    set_since(seed, all);
    wanderings(seed, all);
}

// ---------------------------------------------------------------- what they share

/// Sets the marks that are not so yet.
pub fn set_marks(host: &mut Host, mark: impl Fn(usize) -> u8) {
    for at in 0..host.marks.len() {
        if host.marks[at] != mark(at) {
            host.set_mark(at, mark(at));
        }
    }
}

pub fn open_over(host: &mut Host, mark: impl Fn(usize) -> u8) {
    set_marks(host, mark);
    host.reopen();
}

/// Identify read whole, word by word.
pub fn whole(host: &mut Host) {
    host.put(7, 0xEC);
    host.rest_of_sector(Style::Words);
}

/// Of Identify words 128 to 130 and 255 alone are read; the others count as moved.
pub fn glance(host: &mut Host) {
    host.put(7, 0xEC);
    host.set_field(21, 128);
    host.transfer(3, Style::Words);
    host.set_field(21, 255);
    host.transfer(1, Style::Words);
}

/// A command over sectors to its end; of each sector of data the last word alone is moved. C5H gets a
/// block of 4.
fn run(host: &mut Host, opcode: u8, first: usize, count: u8, lba: bool) {
    if opcode == 0xC5 {
        host.set_field(27, 4);
    }
    host.name_sector(first, lba);
    host.put(2, count);
    host.put(7, opcode);
    while host.card.running() && !host.full {
        host.set_field(21, 255);
        host.transfer(1, Style::Words);
    }
}

// ---------------------------------------------------------------- opened

/// Openings over marks of 0, 1 and 2; one above 2 is refused, and the all-zero card has 0 bad
/// sectors.
fn openings(seed: u64, all: &mut Vec<Case>) {
    let patterns: [fn(usize) -> u8; 9] = [
        |_| 0,
        |at| (at == 0) as u8,
        |at| 2 * (at == 31) as u8,
        |at| (at % 3) as u8,
        |at| if at == 7 { 3 } else { 1 },
        |_| 1,
        |_| 2,
        |at| if at == 31 { 255 } else { (at % 2) as u8 },
        |at| 1 + (at % 2) as u8,
    ];
    for mode in 0..2 {
        let mut host = small(Group::BadOpenings.seed(seed, mode), mode as u16);
        for pattern in patterns {
            open_over(&mut host, pattern);
            probe(&mut host);
            if !host.card.well_made() {
                host.set_field(26, 7);
                probe(&mut host);
            }
            whole(&mut host);
        }
        finish(format!("bad-open-{mode}"), host, all);
    }
}

// ---------------------------------------------------------------- lowered

/// Writes and Erases over runs of mixed marks: to a good end, a mark of 2, the end of the card, and past
/// it, where an Erase leaves the number.
fn runs(seed: u64, all: &mut Vec<Case>) {
    let mut number = 0;
    for opcode in [0x30, 0x31, 0xC0, 0xC5] {
        for lba in [false, true] {
            for mode in 0..2 {
                number += 1;
                let mut host = small(Group::BadRuns.seed(seed, number), mode);
                runs_of(&mut host, opcode, lba);
                let way = if lba { "lba" } else { "chs" };
                finish(format!("bad-run-{opcode:02X}-{way}-{mode}"), host, all);
            }
        }
    }
}

fn runs_of(host: &mut Host, opcode: u8, lba: bool) {
    const MARKS: [u8; 8] = [0, 1, 1, 0, 2, 1, 0, 1];
    open_over(host, |at| MARKS[at % 8]);
    whole(host);
    let runs = [(1, 1), (0, 1), (1, 1), (4, 1), (2, 3), (5, 2), (8, 8), (29, 5), (29, 3), (0, 0)];
    for (first, count) in runs {
        run(host, opcode, first, count, lba);
        // As the last Identify left it, unless a write has gone through the buffer.
        host.put(7, 0xE4);
        host.set_field(21, 128);
        host.transfer(3, Style::Words);
        glance(host);
    }
    for reading in [0x20, 0x40, 0x70] {
        run(host, reading, 12, 2, lba);
        run(host, reading, 13, 2, lba);
        glance(host);
    }
    host.record(&[kinds::SHOW]);
    // One sector byte by byte: the number falls with the last byte, whichever half that is.
    let opcodes = if opcode == 0xC0 { [0x30, 0x30] } else { [opcode; 2] };
    for (style, opcode) in [Style::Bytes, Style::OddEven].into_iter().zip(opcodes) {
        host.name_sector(13, lba);
        host.set_mark(13, 1);
        host.put(2, 1);
        host.put(7, opcode);
        host.rest_of_sector(style);
    }
    whole(host);
}

/// Marks changed from outside: a number that is too high, and one that falls though it never had
/// them, to 0 and no further.
fn outside(seed: u64, all: &mut Vec<Case>) {
    let mut number = 0;
    for opcode in [0x30, 0xC0, 0xC5] {
        for mode in 0..2 {
            number += 1;
            let mut host = small(Group::BadOutside.seed(seed, number), mode);
            open_over(&mut host, |at| (at % 6 == 1) as u8);
            for at in [7, 13] {
                host.set_mark(at, 0);
                glance(&mut host);
                run(&mut host, opcode, at, 1, true);
                glance(&mut host);
            }
            run(&mut host, opcode, 1, 1, false);
            host.set_mark(3, 2);
            run(&mut host, opcode, 3, 1, false);
            for mark in [1, 3, 127, 128, 255, 1, 4, 254, 1] {
                host.set_mark(8, mark);
                glance(&mut host);
                run(&mut host, opcode, 8, 1, mark % 2 == 0);
                glance(&mut host);
            }
            run(&mut host, opcode, 3, 1, true);
            run(&mut host, opcode, 0, 0, true);
            run(&mut host, opcode, 0, 32, true);
            whole(&mut host);
            finish(format!("bad-outside-{opcode:02X}-{mode}"), host, all);
        }
    }
}

/// Marks of every value above 2, put in after the opening and cleared in one run, twice.
fn all_marks(seed: u64, all: &mut Vec<Case>) {
    for (number, opcode) in [0x30, 0xC0].into_iter().enumerate() {
        let g = geometry((600, 1, 1));
        let seed = Group::BadOutside.seed(seed, 10 + number);
        let mut host = Host::trial(seed, g, number as u16);
        open_over(&mut host, |at| (at >= 300) as u8);
        for round in 0..2 {
            for mark in 3..=255 {
                host.set_mark(mark as usize, mark);
            }
            glance(&mut host);
            run(&mut host, opcode, round, 0, true);
            glance(&mut host);
        }
        finish(format!("bad-marks-{opcode:02X}"), host, all);
    }
}

/// Cards of 256 sectors and more, all of them marked, to the last.
fn large(seed: u64, all: &mut Vec<Case>) {
    let cards = [(257, 1, 1), (4, 16, 16), (256, 1, 1), (1, 4, 255)];
    for (number, g) in cards.into_iter().enumerate() {
        for (k, opcode) in [0x30, 0xC0, 0xC5].into_iter().enumerate() {
            let seed = Group::BadLarge.seed(seed, 3 * number + k);
            let mut host = Host::trial(seed, geometry(g), (number % 2) as u16);
            let n = host.marks.len();
            open_over(&mut host, |at| if at == n - 1 { 2 } else { 1 });
            whole(&mut host);
            for first in [0, 1] {
                run(&mut host, opcode, first, 1, true);
                glance(&mut host);
            }
            for first in (2..n).step_by(256) {
                // All that remain, or 256 by Count 0.
                let count = (n - first).min(256) as u8;
                run(&mut host, opcode, first, count, number % 2 == 0);
                glance(&mut host);
            }
            host.set_mark(n - 1, 1);
            run(&mut host, opcode, n - 1, 1, true);
            whole(&mut host);
            finish(format!("bad-large-{}-{}-{}-{opcode:02X}", g.0, g.1, g.2), host, all);
        }
    }
}

// ---------------------------------------------------------------- set

/// Numbers at and about N in every map: 12 above N, whatever the access and the card's state.
fn limits(seed: u64, all: &mut Vec<Case>) {
    let mut number = 0;
    for map in 0..5u8 {
        for state in [State::Idle, State::In, State::OutLow, State::Hold, State::Sreset] {
            if (map, state) == (4, State::Sreset) {
                continue;
            }
            number += 1;
            let mut host = small(Group::BadLimits.seed(seed, number), (map == 4) as u16);
            for bad in [32, 33, 0, 65535, 31, 288] {
                bring(&mut host, map, state);
                host.set_field(26, bad);
                every_access(&mut host);
                host.set_field(26, bad.min(32));
                probe(&mut host);
            }
            bring(&mut host, map, State::Idle);
            glance(&mut host);
            finish(format!("bad-limit-map{map}-{state:?}"), host, all);
        }
    }
}

fn every_access(host: &mut Host) {
    for space in [0, 1, 2, 3, 9] {
        for address in [0x000, 0x007, 0x1F7, 0x200] {
            for (width, write) in [(1, false), (1, true), (2, false)] {
                let value = write as u16;
                host.access(Access { space, width, write, address, value });
            }
        }
    }
}

/// The number is bounded by N: not by the current capacity, which 91H makes 30, and by N as it is,
/// though the store has another length then.
fn totals(seed: u64, all: &mut Vec<Case>) {
    for mode in 0..2 {
        let mut host = small(Group::BadLimits.seed(seed, 100 + mode), mode as u16);
        host.put(2, 5);
        host.put(6, 2);
        host.put(7, 0x91);
        for bad in [29, 30, 31, 32, 33] {
            host.set_field(26, bad);
            probe(&mut host);
            glance(&mut host);
        }
        for (c, h, s) in [(1, 2, 4), (257, 1, 255), (65535, 1, 1), (254, 1, 255)] {
            for (field, value) in (1..).zip([c, h, s, c, h, s]) {
                host.set_field(field, value);
            }
            let n = c * h * s;
            for bad in [0, n - 1, n, n.saturating_add(1), 65535] {
                host.set_field(26, bad);
                probe(&mut host);
            }
        }
        for (field, value) in (1..).zip([4, 2, 4, 4, 2, 4]) {
            host.set_field(field, value);
        }
        for bad in [65535, 33, 32] {
            host.set_field(26, bad);
            whole(&mut host);
        }
        run(&mut host, 0x30, 0, 1, true);
        host.set_mark(0, 1);
        run(&mut host, 0x30, 0, 1, true);
        glance(&mut host);
        finish(format!("bad-total-{mode}"), host, all);
    }
}

// ---------------------------------------------------------------- kept

/// Does one of the things that leave the number.
fn keep(host: &mut Host, which: usize) {
    match which {
        0 if host.true_ide() => host.silent_space(),
        0 => {
            host.option(0x80);
            host.option_read();
            host.option(0);
        }
        1 | 2 => {
            host.put(0xE, 4);
            host.get(7);
            if which == 2 && !host.true_ide() {
                host.option(0xC0);
                host.option(0x40);
            }
            host.put(0xE, 0);
        }
        3 => drop(host.put(7, 0x90)),
        4 | 5 => {
            // S 7, H 2, or S 0.
            host.put(2, [7, 0][which - 4]);
            host.put(6, 1);
            host.put(7, 0x91);
        }
        6 => host.change_map(),
        7 => host.sense(),
        8 => run(host, 0x10, 5, 1, true),
        9 => run(host, 0x70, 5, 1, true),
        10 => run(host, 0xE4, 5, 1, true),
        11 => run(host, 0xE8, 5, 1, true),
        12 => run(host, 0x20, 5, 2, true),
        13 => run(host, 0x40, 4, 9, true),
        14 => drop(host.put(7, 0xFF)),
        15 => run(host, 0xC0, 3, 200, true),
        _ => host.refused(),
    }
}

const KEEPERS: usize = 17;

/// Each of them with as many bad sectors as the card says, fewer and more; then Identify.
fn kept(seed: u64, all: &mut Vec<Case>) {
    for which in 0..KEEPERS {
        for mode in 0..2 {
            let seed = Group::BadKept.seed(seed, 2 * which + mode);
            let mut host = small(seed, mode as u16);
            open_over(&mut host, |at| [0, 0, 0, 1, 0, 1, 0, 0, 2][at % 9]);
            for changes in [&[] as &[(usize, u8)], &[(3, 0)], &[(10, 1), (11, 200), (20, 2)]] {
                for &(at, mark) in changes {
                    host.set_mark(at, mark);
                }
                glance(&mut host);
                keep(&mut host, which);
                whole(&mut host);
            }
            finish(format!("bad-kept-{which}-{mode}"), host, all);
        }
    }
}

/// Writes broken off before their last byte by commands and resets: the number stays.
fn drops(seed: u64, all: &mut Vec<Case>) {
    for mode in 0..2 {
        let mut host = small(Group::BadDrops.seed(seed, mode), mode as u16);
        open_over(&mut host, |at| (at % 3 == 0) as u8);
        for mark in [1, 77] {
            host.set_mark(6, mark);
            for words in [0, 1, 255] {
                for way in 0..7 {
                    host.name_sector(6, way % 2 == 0);
                    host.put(2, 2);
                    host.put(7, 0x30);
                    host.set_field(21, words);
                    host.data_byte(0);
                    drop_by(&mut host, way);
                    glance(&mut host);
                }
            }
            // From now on there are more bad sectors than the card says.
            host.set_mark(7, mark);
            host.set_mark(8, mark);
        }
        run(&mut host, 0x30, 6, 2, true);
        glance(&mut host);
        // An Erase that breaks a write off takes the sectors that were left to be written.
        host.set_mark(6, 1);
        host.name_sector(5, true);
        host.put(2, 4);
        host.put(7, 0x30);
        host.rest_of_sector(Style::Words);
        host.put(7, 0xC0);
        glance(&mut host);
        finish(format!("bad-drop-{mode}"), host, all);
    }
}

fn drop_by(host: &mut Host, way: usize) {
    match way {
        0 | 1 => keep(host, way),
        2 => keep(host, 2),
        _ => drop(host.put(7, [0x10, 0x30, 0x90, 0x20][way - 3])),
    }
    if host.card.running() {
        host.put(7, 0x10);
    }
}

// ---------------------------------------------------------------- shown

/// Numbers of 0 to 255, and so every integrity byte; then numbers of two bytes.
fn integrity_bytes(seed: u64, all: &mut Vec<Case>) {
    for mode in 0..2 {
        let g = geometry(if mode == 0 { (255, 1, 1) } else { (4, 16, 16) });
        let mut host = Host::trial(Group::BadShown.seed(seed, mode), g, mode as u16);
        for bad in 0..=255 {
            host.set_field(26, bad);
            glance(&mut host);
        }
        for bad in [256, 257, 511, 512, 513, 0x300, 0x3FF, 0x400, 0x401] {
            host.set_field(26, bad);
            glance(&mut host);
        }
        finish(format!("bad-integrity-{mode}"), host, all);
    }
}

/// Word 129 is the number as it is when ECH is written, whatever it is when the word is read.
fn set_since(seed: u64, all: &mut Vec<Case>) {
    for mode in 0..2 {
        let mut host = small(Group::BadShown.seed(seed, 10 + mode), mode as u16);
        open_over(&mut host, |at| (at % 4) as u8 / 2);
        for bad in [3, 0, 32, 31] {
            host.put(7, 0xEC);
            host.set_field(26, bad);
            host.rest_of_sector(Style::Words);
            host.put(7, 0xE4);
            host.set_field(21, 128);
            host.transfer(3, Style::Words);
        }
        host.whole_identify();
        finish(format!("bad-since-{mode}"), host, all);
    }
}

// ---------------------------------------------------------------- wanderings

/// All of this in any order.
fn wanderings(seed: u64, all: &mut Vec<Case>) {
    let cards = [(4, 2, 4), (257, 1, 1), (3, 3, 40), (1, 1, 1), (16, 16, 1)];
    for number in 0..30 {
        let g = geometry(cards[number % cards.len()]);
        let seed = Group::BadWanderings.seed(seed, number);
        let mut host = Host::trial(seed, g, (number % 2) as u16);
        open_over_marks(&mut host);
        while !host.full {
            step(&mut host);
        }
        finish(format!("bad-wander-{number}"), host, all);
    }
}

fn step(host: &mut Host) {
    let n = host.marks.len();
    let (at, lba) = (host.rng.below(n), host.rng.flip());
    let map = if host.true_ide() { 4 } else { host.rng.below(4) as u8 };
    bring(host, map, State::Idle);
    match host.rng.below(16) {
        0..=3 => {
            let (opcode, count) = (host.rng.pick(&[0x30, 0x31]), host.rng.pick(&[1, 2, 5, 40]));
            run(host, opcode, at, count, lba);
        }
        4 | 5 => {
            // As far as the end, sometimes, if 255 sectors get there.
            let count = host.rng.pick(&[1, 3, 8, 0, (n - at).min(255) as u8]);
            run(host, 0xC0, at, count, lba);
        }
        6..=8 => {
            let any = host.rng.byte();
            let mark = host.rng.pick(&[0, 1, 1, 2, any]);
            host.set_mark(at, mark);
        }
        9 => {
            let bad = some_bad(host);
            host.set_field(26, bad);
            probe(host);
            host.random_access();
            host.set_field(26, bad.min(n as u16));
        }
        10 => {
            let which = host.rng.below(KEEPERS);
            keep(host, which);
        }
        11 => {
            let marks = host.marks.clone();
            open_over(host, |at| marks[at].min(2));
        }
        12 => host.chapter(),
        13 if host.rng.percent(20) => host.whole_identify(),
        _ => glance(host),
    }
}
