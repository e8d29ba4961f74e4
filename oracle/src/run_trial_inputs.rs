//! Trial inputs of runs of Verify and Erase about the end: 256 sectors, marks, card values set field by
//! field, the line.

use crate::bad_sector_inputs::{glance, open_over, set_marks};
use crate::host::Host;
use crate::inputs::{geometry, Case, Group};
use crate::run_session_inputs::{
    begin, end, lengths, parameters, peek, smaller_capacity, step, try_run, RUN_OPCODES,
};
use crate::trial_inputs::{finish, open_over_marks, small, sprinkle};
use crate::trial_kinds as kinds;

pub fn runs(seed: u64, all: &mut Vec<Case>) {
    counts(seed, all);
    marks(seed, all);
    every_mark(seed, all);
    fields(seed, all);
    lines(seed, all);
    wanderings(seed, all);
}

/// Cards of about 256 sectors, and of more.
const CARDS: [(u16, u16, u16); 7] =
    [(256, 1, 1), (4, 16, 4), (255, 1, 1), (257, 1, 1), (3, 3, 40), (2, 2, 255), (600, 1, 1)];

// ---------------------------------------------------------------- 256 sectors

/// Runs of 256 sectors and of fewer, by the default geometry, by 16 heads and 16 sectors (a current
/// capacity of 256 or 512, if 91H takes them) and by any smaller capacity.
fn counts(seed: u64, all: &mut Vec<Case>) {
    let mut number = 0;
    for g in CARDS {
        for opcode in RUN_OPCODES {
            number += 1;
            let seed = Group::RunCounts.seed(seed, number);
            let mut host = Host::trial(seed, geometry(g), (number % 2) as u16);
            counts_by(&mut host, opcode);
            parameters(&mut host, 16, 16);
            counts_by(&mut host, opcode);
            smaller_capacity(&mut host);
            counts_by(&mut host, opcode);
            finish(format!("run-count-{}-{}-{}-{opcode:02X}", g.0, g.1, g.2), host, all);
        }
    }
}

/// From sectors where 255, 256 and 257 remain, from the first ones and from the last. The longest run
/// comes first: one that is past the end leaves what was filled.
fn counts_by(host: &mut Host, opcode: u8) {
    for lba in [false, true] {
        let end = end(host, lba);
        let remaining = [1, 2, 255, 256, 257, end - 1, end];
        let mut firsts: Vec<usize> = remaining.iter().filter_map(|&r| end.checked_sub(r)).collect();
        firsts.sort();
        firsts.dedup();
        for first in firsts.into_iter().filter(|&first| first < end) {
            for at in [first, end - 1] {
                let value = host.rng.byte() as u16;
                host.fill_sector(at, value, 3);
            }
            for sectors in lengths(end - first).into_iter().rev().take(5) {
                begin(host, opcode, first, sectors, lba);
                host.sense();
                peek(host, end - 1);
            }
            peek(host, first);
        }
        host.record(&[kinds::SHOW]);
    }
}

// ---------------------------------------------------------------- marks

/// A mark on a run's first sector, on the second and on the last, in runs past the end and in runs that
/// fit; by the default geometry and by one of 30 sectors.
fn marks(seed: u64, all: &mut Vec<Case>) {
    let mut number = 0;
    for opcode in RUN_OPCODES {
        for mark in [1, 2, 3, 255] {
            for (way, heads, track) in [("default", 2, 4), ("smaller", 3, 5)] {
                number += 1;
                let mut host = small(Group::RunMarks.seed(seed, number), (number / 2 % 2) as u16);
                parameters(&mut host, heads, track);
                for lba in [false, true] {
                    marked_runs(&mut host, opcode, mark, lba);
                }
                finish(format!("run-mark-{mark}-{opcode:02X}-{way}"), host, all);
            }
        }
    }
}

fn marked_runs(host: &mut Host, opcode: u8, mark: u8, lba: bool) {
    let end = end(host, lba);
    for (first, at) in [(0, 0), (0, 1), (0, end - 1), (end - 4, end - 4), (end - 4, end - 2)] {
        for (turn, sectors) in lengths(end - first).into_iter().rev().enumerate() {
            set_marks(host, |i| if i == at { mark } else { 0 });
            // The number of bad sectors is right, or 0, or too high.
            host.set_field(26, [1, 0, 3][turn % 3]);
            host.fill_sector(at, 0x11 * turn as u16, 5);
            try_run(host, opcode, first, sectors, lba);
        }
        host.record(&[kinds::SHOW]);
        glance(host);
    }
}

/// Marks of every value on the first sector of a run and on its last, past the end and not.
fn every_mark(seed: u64, all: &mut Vec<Case>) {
    let mut number = 0;
    for opcode in [0xC0, 0x40] {
        for at in [29, 31] {
            number += 1;
            let mut host = small(Group::RunEveryMark.seed(seed, number), (number % 2) as u16);
            host.set_field(26, 32);
            // The registers stay, so that the command is just given again.
            begin(&mut host, opcode, 29, 4, at == 29);
            for mark in 0..=255 {
                host.set_mark(at, mark);
                host.put(7, opcode);
                host.get(1);
            }
            host.record(&[kinds::SHOW]);
            for mark in 0..=255 {
                host.set_mark(at, mark);
                begin(&mut host, opcode, 29, 3, at == 31);
                host.get(1);
            }
            finish(format!("run-every-mark-{opcode:02X}-{at}"), host, all);
        }
    }
}

// ---------------------------------------------------------------- fields

/// Card values that no access leaves so before a run: bits 7 and 5 of Drive/Head, what an error end
/// sets, the buffer, the number of bad sectors, the current geometry.
fn fields(seed: u64, all: &mut Vec<Case>) {
    let mut number = 0;
    for opcode in RUN_OPCODES {
        for mode in 0..2 {
            number += 1;
            let mut host = small(Group::RunFields.seed(seed, number), mode);
            open_over(&mut host, |at| (at % 5 == 3) as u8);
            for round in 0..80 {
                set_fields(&mut host);
                host.put(7, opcode);
                host.look();
                host.sense();
                if round % 8 == 7 {
                    host.record(&[kinds::SHOW]);
                    glance(&mut host);
                }
            }
            finish(format!("run-field-{opcode:02X}-{mode}"), host, all);
        }
    }
}

fn set_fields(host: &mut Host) {
    let (h, s) = host.rng.pick(&[(2, 4), (3, 5), (1, 31), (16, 1), (1, 7), (2, 11)]);
    for (field, value) in [(4, 32 / (h * s)), (5, h), (6, s)] {
        host.set_field(field, value);
    }
    let lba = host.rng.flip();
    let end = end(host, lba);
    let first = end - 1 - host.rng.below(end.min(5));
    let sectors = host.rng.pick(&lengths(end - first));
    host.name_sector(first, lba);
    host.put(2, sectors as u8);
    let head = host.card.head as u16 | host.rng.pick(&[0, 0x20, 0x80, 0xA0]);
    let status = host.rng.pick(&[0x50, 0x51, 0x71]);
    let [error, code] = [0; 2].map(|_| host.rng.byte() as u16);
    let [mark, mask] = [0; 2].map(|_| host.rng.below(2) as u16);
    let bad = host.rng.below(33) as u16;
    let fields =
        [(18, head), (12, status), (13, error), (19, code), (11, mark), (10, mask), (26, bad)];
    for (field, value) in fields {
        host.set_field(field, value);
    }
    let bytes = [0; 8].map(|_| host.rng.byte());
    host.set_buffer(0, &bytes);
}

// ---------------------------------------------------------------- the line

/// The line at the ends of runs past the end, of runs that fit and of bad starts: masked and not,
/// Status read or not.
fn lines(seed: u64, all: &mut Vec<Case>) {
    let mut number = 0;
    for opcode in RUN_OPCODES {
        for mode in 0..2 {
            number += 1;
            let mut host = small(Group::RunLines.seed(seed, number), mode);
            for (first, sectors) in [(30, 3), (30, 2), (32, 3), (0, 256), (31, 255)] {
                for (mask, reading) in [(0, false), (0, true), (2, false), (2, true)] {
                    host.put(0xE, mask);
                    begin(&mut host, opcode, first, sectors, reading ^ (mask == 0));
                    host.get(0xE);
                    if reading {
                        host.get(7);
                    }
                    host.put(0xE, mask ^ 2);
                    host.refused();
                    host.put(0xE, mask);
                }
            }
            finish(format!("run-line-{opcode:02X}-{mode}"), host, all);
        }
    }
}

// ---------------------------------------------------------------- wanderings

/// Runs of any length from anywhere about the end, over marks that come and go.
fn wanderings(seed: u64, all: &mut Vec<Case>) {
    let small = [(4, 2, 4), (5, 9, 11), (1, 1, 1)];
    let cards: Vec<(u16, u16, u16)> = CARDS.into_iter().chain(small).collect();
    for number in 0..40 {
        let seed = Group::RunTrialWanderings.seed(seed, number);
        let map = (number % 5) as u8;
        let mut host = Host::trial(seed, geometry(cards[number % 10]), (map == 4) as u16);
        open_over_marks(&mut host);
        host.go_to(map);
        while !host.full {
            sprinkle(&mut host);
            for _ in 0..host.rng.below(6) {
                step(&mut host);
            }
            if host.rng.percent(10) {
                host.record(&[kinds::SHOW]);
                glance(&mut host);
            }
        }
        finish(format!("run-wander-{number}"), host, all);
    }
}
