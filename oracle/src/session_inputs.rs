//! The sessions of the comparison, from a seed.

use crate::block_session_inputs;
use crate::broken_inputs;
use crate::card::{Access, Geometry};
use crate::host::{Host, Style, STYLES};
use crate::inputs::{bring, geometry, Case, Group, State};
use crate::run_session_inputs;
use crate::stray::EDGES;

/// Geometries of at most 32 sectors.
pub const SMALL: [(u16, u16, u16); 12] = [
    (4, 2, 4),
    (1, 1, 1),
    (32, 1, 1),
    (1, 1, 32),
    (1, 16, 2),
    (2, 16, 1),
    (3, 3, 3),
    (5, 2, 3),
    (7, 1, 4),
    (2, 2, 7),
    (31, 1, 1),
    (1, 4, 8),
];

const LONG: usize = 600;
const SHORT: usize = 300;

/// All sessions of a seed; those that one rule alone is seen in come first, so that a small change is
/// found soon.
pub fn sessions(seed: u64) -> Vec<Case> {
    let mut all = Vec::new();
    broken_inputs::files(seed, &mut all);
    opcodes(seed, &mut all);
    block_session_inputs::blocks(seed, &mut all);
    sweeps(seed, &mut all);
    transfers(seed, &mut all);
    addresses(seed, &mut all);
    parameters(seed, &mut all);
    identities(seed, &mut all);
    run_session_inputs::runs(seed, &mut all);
    wanderings(seed, &mut all);
    all
}

pub fn finish(name: String, host: Host, all: &mut Vec<Case>) {
    all.push(Case::new(name, host.out));
}

/// A host in one of the five maps; 4 is True IDE.
pub fn host_in(map: u8, g: Geometry, seed: u64) -> Host {
    let mut host = Host::session(seed, g, (map == 4) as u16);
    host.go_to(map);
    host
}

// ---------------------------------------------------------------- groups

/// Every opcode in every map, idle and in both directions.
fn opcodes(seed: u64, all: &mut Vec<Case>) {
    for map in 0..5u8 {
        for (k, state) in [State::Idle, State::In, State::Out].into_iter().enumerate() {
            for quarter in 0..4usize {
                let number = 16 * map as usize + 4 * k + quarter;
                let mut host =
                    host_in(map, geometry(SMALL[number % 12]), Group::Opcodes.seed(seed, number));
                for opcode in 64 * quarter..64 * quarter + 64 {
                    one_opcode(&mut host, map, state, opcode as u8);
                }
                finish(format!("opcodes-map{map}-{state:?}-{quarter}"), host, all);
            }
        }
    }
}

fn one_opcode(host: &mut Host, map: u8, state: State, opcode: u8) {
    bring(host, map, state);
    if state == State::Idle && host.rng.flip() {
        host.aim();
    }
    host.put(7, opcode);
    for offset in [7, 1, 2, 3, 6, 0xF] {
        host.get(offset);
    }
    host.transfer(3, Style::Mixed);
    host.sense();
}

const STATES: [State; 9] = [
    State::Idle,
    State::In,
    State::Out,
    State::InLow,
    State::InHigh,
    State::OutLow,
    State::OutHigh,
    State::Hold,
    State::Sreset,
];

/// Can the state be reached in the map?
fn possible(map: u8, state: State) -> bool {
    match state {
        State::InHigh | State::OutHigh => map < 2,
        State::Sreset => map < 4,
        _ => true,
    }
}

/// Every edge address of every space in every map and state.
fn sweeps(seed: u64, all: &mut Vec<Case>) {
    let mut number = 0;
    for map in 0..5u8 {
        for state in STATES.into_iter().filter(|&s| possible(map, s)) {
            for space in 0..4u8 {
                number += 1;
                let mut host = host_in(map, geometry((4, 2, 4)), Group::Sweeps.seed(seed, number));
                sweep(&mut host, map, state, space);
                finish(format!("sweep-map{map}-{state:?}-space{space}"), host, all);
            }
        }
    }
}

fn sweep(host: &mut Host, map: u8, state: State, space: u8) {
    for address in EDGES {
        for (width, write) in [(1, false), (1, true), (2, false), (2, true)] {
            bring(host, map, state);
            let value = match (write, width) {
                (false, _) => 0,
                (true, 1) => host.rng.pick(&[0, 1, 2, 3, 4, 0x7F, 0x83, 0xEC, 0xE8]),
                _ => host.rng.next() as u16,
            };
            host.access(Access { space, width, write, address, value });
        }
    }
}

/// Every map and style, without accesses between and with some: (map, style, noise), from number 1.
pub fn ways() -> impl Iterator<Item = (usize, (u8, Style, usize))> {
    let styles =
        |map| STYLES.into_iter().flat_map(move |style| [(map, style, 0), (map, style, 20)]);
    (1..).zip((0..5).flat_map(styles))
}

/// Whole transfers in every map and style, read back.
fn transfers(seed: u64, all: &mut Vec<Case>) {
    for (number, (map, style, noise)) in ways() {
        let g = geometry(SMALL[number % 12]);
        let mut host = host_in(map, g, Group::Transfers.seed(seed, number));
        whole_transfers(&mut host, map, style, noise);
        finish(format!("transfer-map{map}-{style:?}-{noise}"), host, all);
    }
}

fn whole_transfers(host: &mut Host, map: u8, style: Style, noise: usize) {
    let n = host.card.default.sectors() as usize;
    let count = n.min(2);
    let first = host.rng.below(n + 1 - count);
    for opcode in [0x30, 0x20, 0xE8, 0xE4, 0xEC, 0x31, 0x21] {
        host.name_sector(first, opcode % 2 == 1);
        host.put(2, count as u8);
        host.put(7, opcode);
        host.look();
        host.noise = noise;
        while host.card.running() && !host.full {
            host.rest_of_sector(style);
            host.look();
        }
        host.noise = 0;
        if map < 4 && host.card.option() != map {
            host.go_to(map);
        }
    }
}

/// Every command with an address at every limit, in CHS and LBA.
fn addresses(seed: u64, all: &mut Vec<Case>) {
    let mut number = 0;
    for g in SMALL {
        for opcode in [0x20, 0x30, 0x40, 0xC0, 0x70, 0x7F] {
            number += 1;
            let map = (number % 5) as u8;
            let mut host = host_in(map, geometry(g), Group::Addresses.seed(seed, number));
            all_chs(&mut host, opcode);
            all_lba(&mut host, opcode);
            finish(format!("address-{}-{}-{}-{opcode:02X}", g.0, g.1, g.2), host, all);
        }
    }
}

pub fn all_chs(host: &mut Host, opcode: u8) {
    let g = host.card.current;
    for c in [0, g.c - 1, g.c, 0x100] {
        for h in [0, g.h - 1, g.h, 15] {
            for s in [0, 1, g.s, g.s + 1, 255] {
                host.set_chs(c, h as u8, s as u8);
                try_address(host, opcode);
            }
        }
    }
}

pub fn all_lba(host: &mut Host, opcode: u8) {
    let n = host.card.default.sectors() as u32;
    for lba in [0, n - 1, n, n + 1, 0xFF, 0x100, 0xFFFF, 0x1_0000, 0x100_0000, 0xFFF_FFFF] {
        host.set_lba(lba);
        try_address(host, opcode);
    }
}

fn try_address(host: &mut Host, opcode: u8) {
    let count = host.rng.pick(&[1, 2, 0, 200]);
    host.put(2, count);
    host.put(7, opcode);
    for offset in [7, 1, 2, 3, 4, 5, 6] {
        host.get(offset);
    }
    host.sense();
}

/// 91H with many counts and nibbles, on several geometries.
fn parameters(seed: u64, all: &mut Vec<Case>) {
    for (number, g) in SMALL.into_iter().enumerate() {
        for round in 0..2 {
            let map = ((number + round) % 5) as u8;
            let mut host =
                host_in(map, geometry(g), Group::Parameters.seed(seed, 2 * number + round));
            while !host.full {
                host.parameters_story();
                if host.rng.percent(10) {
                    host.write_and_read();
                }
            }
            finish(format!("parameters-{}-{}-{}-{round}", g.0, g.1, g.2), host, all);
        }
    }
}

/// Identify read whole on several geometries, at power-on and after what changes its words.
fn identities(seed: u64, all: &mut Vec<Case>) {
    for (number, g) in SMALL.into_iter().enumerate() {
        let map = (number % 5) as u8;
        let mut host = host_in(map, geometry(g), Group::Identities.seed(seed, number));
        host.identities_story();
        finish(format!("identify-{}-{}-{}", g.0, g.1, g.2), host, all);
    }
}

/// Sessions of steps, so many, in every map and over every small geometry.
pub fn stepped(
    (name, group, count): (&str, Group, usize),
    seed: u64,
    step: fn(&mut Host),
    all: &mut Vec<Case>,
) {
    for number in 0..count {
        let g = geometry(SMALL[number % 12]);
        let mut host = host_in((number % 5) as u8, g, group.seed(seed, number));
        while !host.full {
            step(&mut host);
        }
        finish(format!("{name}-{number}"), host, all);
    }
}

fn wanderings(seed: u64, all: &mut Vec<Case>) {
    for number in 0..LONG + SHORT {
        let g = geometry(SMALL[number % 12]);
        let mode = (number % 5 == 4) as u16;
        let mut host = Host::session(Group::Wanderings.seed(seed, number), g, mode);
        if number >= LONG {
            host.limit = 200 + host.rng.below(3000);
        }
        if mode == 0 {
            host.go_to((number % 4) as u8);
        }
        host.wander();
        let kind = if number < LONG { "long" } else { "short" };
        finish(format!("wander-{kind}-{number}"), host, all);
    }
}
