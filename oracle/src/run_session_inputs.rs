//! Sessions of runs about the end of the card: Verify and Erase, which end before their first sector if
//! they are past it, and reads and writes, which do not.

use crate::host::{Host, Style};
use crate::inputs::{bring, geometry, Case, Group, State};
use crate::session_inputs::{finish, host_in, stepped, SMALL};

pub fn runs(seed: u64, all: &mut Vec<Case>) {
    about_the_end(seed, all);
    with_data(seed, all);
    stepped(("run-wander", Group::RunWanderings, 30), seed, step, all);
}

// ---------------------------------------------------------------- what they share

/// Erase and both opcodes of Verify.
pub const RUN_OPCODES: [u8; 3] = [0xC0, 0x40, 0x41];

/// The end that a run is measured by: N in LBA, the current capacity in CHS.
pub fn end(host: &Host, lba: bool) -> usize {
    let of = if lba { host.card.default } else { host.card.current };
    of.sectors() as usize
}

/// The lengths to be tried of a run where so many sectors remain.
pub fn lengths(remain: usize) -> Vec<usize> {
    let mut all = vec![1, remain - 1, remain, remain + 1, remain + 2, 2 * remain + 1, 256];
    all.retain(|sectors| (1..=256).contains(sectors));
    all.sort();
    all.dedup();
    all
}

/// Ends a transfer, if one runs, so that registers take what is written.
pub fn end_transfer(host: &mut Host) {
    if host.card.running() {
        host.put(7, 0x10);
    }
}

/// A command over so many sectors, 256 by Count 0.
pub fn begin(host: &mut Host, opcode: u8, first: usize, sectors: usize, lba: bool) {
    end_transfer(host);
    host.name_sector(first, lba);
    give(host, opcode, sectors);
}

/// A command over so many sectors from where the registers stand.
pub fn give(host: &mut Host, opcode: u8, sectors: usize) {
    host.put(2, sectors as u8);
    host.put(7, opcode);
}

/// A run, all registers after it, the code, and what 03H leaves.
pub fn try_run(host: &mut Host, opcode: u8, first: usize, sectors: usize, lba: bool) {
    begin(host, opcode, first, sectors, lba);
    host.look();
    host.sense();
    host.get(2);
}

/// A transfer past the end, broken off by a run of the sectors that are left of it.
pub fn break_off(host: &mut Host, transfer: u8, opcode: u8, sectors: usize, lba: bool) {
    let first = end(host, lba) - 1;
    begin(host, transfer, first, sectors, lba);
    let words = host.rng.below(4);
    host.transfer(words, Style::Words);
    host.data_byte(0);
    host.put(7, opcode);
    host.look();
    host.sense();
}

/// The first words of a sector.
pub fn peek(host: &mut Host, at: usize) {
    begin(host, 0x20, at, 1, true);
    host.transfer(2, Style::Words);
}

/// The first words of the buffer.
fn peek_buffer(host: &mut Host) {
    host.put(7, 0xE4);
    host.transfer(3, Style::Words);
}

/// 91H with H heads and S sectors.
pub fn parameters(host: &mut Host, h: u8, s: u8) {
    end_transfer(host);
    host.put(2, s);
    host.put(6, h - 1);
    host.put(7, 0x91);
}

/// 91H that makes the current capacity less than N, if any does.
pub fn smaller_capacity(host: &mut Host) {
    let n = end(host, true);
    let all = (1..=16).flat_map(|h| (1..=255).map(move |s| (h, s)));
    let smaller = |&(h, s): &(u8, u8)| {
        let track = h as usize * s as usize;
        track < n && !n.is_multiple_of(track)
    };
    let tracks: Vec<(u8, u8)> = all.filter(smaller).collect();
    if !tracks.is_empty() {
        let (h, s) = host.rng.pick(&tracks);
        parameters(host, h, s);
    }
}

// ---------------------------------------------------------------- about the end

/// Runs from the first sector, from the last ones and from one between, by the default geometry and by
/// a smaller one. Those past the end come first, so that a sector that they erase is seen.
fn about_the_end(seed: u64, all: &mut Vec<Case>) {
    let mut number = 0;
    for g in SMALL {
        for opcode in RUN_OPCODES {
            number += 1;
            let map = (number % 5) as u8;
            let mut host = host_in(map, geometry(g), Group::Runs.seed(seed, number));
            host.put(7, 0xE8);
            host.transfer(3, Style::Words);
            for past in [true, false] {
                // A hold gives the default geometry back.
                host.put(0xE, 4);
                host.put(0xE, 0);
                runs_by(&mut host, opcode, past);
                smaller_capacity(&mut host);
                runs_by(&mut host, opcode, past);
            }
            finish(format!("run-{}-{}-{}-{opcode:02X}", g.0, g.1, g.2), host, all);
        }
    }
}

/// By the present geometry, in CHS and LBA: the runs past the end, or those that fit.
fn runs_by(host: &mut Host, opcode: u8, past: bool) {
    for lba in [false, true] {
        let end = end(host, lba);
        let between = host.rng.below(end);
        let mut firsts = vec![between, end - 1, end.saturating_sub(2), end.saturating_sub(3), 0];
        firsts.sort();
        firsts.dedup();
        for first in firsts.into_iter().rev() {
            for sectors in lengths(end - first).into_iter().filter(|&s| past == (s > end - first)) {
                try_run(host, opcode, first, sectors, lba);
            }
            peek_buffer(host);
            peek(host, first);
            peek(host, end - 1);
        }
        if past {
            for transfer in [0x20, 0x30] {
                break_off(host, transfer, opcode, 2, lba);
            }
        }
    }
}

// ---------------------------------------------------------------- with data

/// Reads and writes past the end move the sectors that are there first; an Erase past the end leaves
/// what was written.
fn with_data(seed: u64, all: &mut Vec<Case>) {
    for (number, g) in SMALL.into_iter().enumerate() {
        let seed = Group::RunData.seed(seed, number);
        let mut host = host_in((number % 5) as u8, geometry(g), seed);
        if number % 2 == 1 {
            smaller_capacity(&mut host);
        }
        for (opcode, lba) in [(0x30, true), (0x20, false), (0x31, false), (0x21, true)] {
            let first = end(&host, lba).saturating_sub(2);
            let sectors = host.rng.pick(&[3, 4, 255, 256]);
            begin(&mut host, opcode, first, sectors, lba);
            while host.card.running() && !host.full {
                host.rest_of_sector(Style::Words);
                host.look();
            }
            host.sense();
            try_run(&mut host, 0xC0, first, sectors, lba);
            peek(&mut host, first);
        }
        finish(format!("run-data-{}-{}-{}", g.0, g.1, g.2), host, all);
    }
}

// ---------------------------------------------------------------- wanderings

/// Something about the end: mostly a run of any length.
pub fn step(host: &mut Host) {
    let (lba, opcode) = (host.rng.flip(), host.rng.pick(&[0xC0, 0xC0, 0x40, 0x41]));
    let end = end(host, lba);
    let first = end.saturating_sub(host.rng.below(10));
    let about = (end - first + host.rng.below(6)).saturating_sub(2).clamp(1, 256);
    let sectors = match host.rng.below(6) {
        0 => 1 + host.rng.below(256),
        1 => 256,
        _ => about,
    };
    match host.rng.below(14) {
        0..=5 => try_run(host, opcode, first, sectors, lba),
        6 => {
            host.aim();
            give(host, opcode, sectors);
            host.look();
        }
        7 => {
            let transfer = host.rng.pick(&[0x20, 0x30]);
            break_off(host, transfer, opcode, sectors, lba);
        }
        8 => smaller_capacity(host),
        9 => {
            let map = if host.true_ide() { 4 } else { host.rng.below(4) as u8 };
            bring(host, map, State::Idle);
        }
        10 => peek_buffer(host),
        11 if host.rng.percent(30) => host.write_and_read(),
        12 if host.rng.percent(30) => host.chapter(),
        _ => peek(host, first.min(end - 1)),
    }
}
