//! Trial inputs whose card values are set field by field: not well made, or as no command leaves them.

use crate::card::{Access, Card};
use crate::host::{Host, Style};
use crate::inputs::{bring, geometry, Case, Group, State};
use crate::maps::Mode;
use crate::trial_inputs::{finish, open_over_marks, probe, small};
use crate::trial_kinds as kinds;

// ---------------------------------------------------------------- one condition broken

/// Fields and their new values.
type Fields = &'static [(u16, u16)];

/// Cards in a map and a state, and fields that break one condition when all are set.
const CONDITIONS: [(&str, u8, State, Fields); 38] = [
    ("default-h", 0, State::Idle, &[(2, 17), (4, 34)]),
    ("default-h-65535", 0, State::Idle, &[(2, 65535)]),
    ("default-s", 0, State::Idle, &[(1, 1), (2, 1), (3, 256), (4, 32)]),
    ("default-n", 0, State::Idle, &[(1, 300), (2, 16), (3, 255), (5, 16), (6, 255), (4, 300)]),
    ("zero-c", 0, State::Idle, &[(1, 0)]),
    ("zero-h", 0, State::Idle, &[(2, 0)]),
    ("zero-s", 0, State::Idle, &[(3, 0)]),
    ("current-h-0", 0, State::Idle, &[(5, 0)]),
    ("current-h-17", 0, State::Idle, &[(5, 17), (6, 1), (4, 1)]),
    ("current-h-257", 0, State::Idle, &[(1, 130), (5, 257), (6, 4), (4, 1)]),
    ("current-s-0", 0, State::Idle, &[(6, 0)]),
    ("current-s-256", 0, State::Idle, &[(1, 64), (5, 1), (6, 256), (4, 2)]),
    ("current-s-257", 4, State::Idle, &[(1, 64), (5, 1), (6, 257), (4, 1)]),
    ("current-c-3", 0, State::Idle, &[(4, 3)]),
    ("current-c-5", 4, State::Idle, &[(4, 5)]),
    ("current-c-0", 0, State::Idle, &[(4, 0), (5, 16), (6, 3)]),
    ("index-4", 0, State::Idle, &[(7, 4)]),
    ("index-63", 1, State::Idle, &[(7, 0x7F)]),
    ("sreset-ide", 4, State::Idle, &[(8, 1)]),
    ("ide-sreset", 0, State::Sreset, &[(23, 1)]),
    ("no-transfer-58", 0, State::In, &[(24, 0)]),
    ("transfer-58", 0, State::Idle, &[(24, 1)]),
    ("out-58", 4, State::Idle, &[(24, 2), (12, 0x50)]),
    ("transfer-50", 0, State::In, &[(12, 0x50)]),
    ("transfer-51", 0, State::Out, &[(12, 0x51)]),
    ("idle-58", 0, State::Idle, &[(12, 0x58)]),
    ("idle-80", 4, State::Idle, &[(12, 0x80)]),
    ("in-sreset", 0, State::In, &[(8, 1)]),
    ("out-sreset", 1, State::Out, &[(8, 1)]),
    ("in-hold", 0, State::In, &[(9, 1)]),
    ("out-hold", 4, State::Out, &[(9, 1)]),
    ("words-256", 0, State::InLow, &[(21, 256)]),
    ("words-65535", 4, State::Out, &[(21, 65535)]),
    ("bad-33", 0, State::Idle, &[(26, 33)]),
    ("bad-288", 1, State::InLow, &[(26, 288)]),
    ("bad-65535", 4, State::Out, &[(26, 65535)]),
    ("bad-hold", 4, State::Hold, &[(26, 32), (26, 33)]),
    ("bad-sreset", 2, State::Sreset, &[(26, 32), (26, 34)]),
];

/// For each condition: a good card, the fields that break just that, an access.
pub fn conditions(seed: u64, all: &mut Vec<Case>) {
    for (number, (name, map, state, fields)) in CONDITIONS.into_iter().enumerate() {
        let mut host = small(Group::Conditions.seed(seed, number), (map == 4) as u16);
        bring(&mut host, map, state);
        broken_and_mended(&mut host, fields);
        finish(format!("condition-{name}"), host, all);
    }
    sector_conditions(seed, all);
}

/// Breaks fields one after the other with accesses between, then goes on with a good card.
fn broken_and_mended(host: &mut Host, fields: &[(u16, u16)]) {
    let whole = host.card.clone();
    probe(host);
    for &(field, value) in fields {
        host.set_field(field, value);
        probe(host);
    }
    host.access(Access { space: 9, width: 9, write: true, address: 0xFFFF, value: 0xFFFF });
    host.access(Access { space: 0, width: 1, write: true, address: 0x200, value: 1 });
    host.record(&[kinds::SHOW]);
    mend(host, &whole, fields);
    probe(host);
    host.look();
    host.transfer(3, Style::Words);
}

fn mend(host: &mut Host, whole: &Card, fields: &[(u16, u16)]) {
    for &(field, _) in fields {
        let value = match field {
            1 => whole.default.c,
            2 => whole.default.h,
            3 => whole.default.s,
            4 => whole.current.c,
            5 => whole.current.h,
            6 => whole.current.s,
            7 => whole.setting as u16,
            8 => whole.sreset as u16,
            9 => whole.hold as u16,
            12 => whole.status as u16,
            14 => whole.count as u16,
            15 => whole.sector as u16,
            16 => whole.cyl_low as u16,
            17 => whole.cyl_high as u16,
            18 => whole.head as u16,
            20 => whole.half as u16,
            21 => whole.words,
            23 => (whole.mode == Mode::TrueIde) as u16,
            24 => whole.phase as u16,
            25 => whole.sectors as u16,
            26 => whole.bad,
            27 => whole.block,
            28 => whole.stride,
            29 => whole.place,
            _ => whole.left,
        };
        host.set_field(field, value);
    }
}

/// The conditions on a running sector transfer, in CHS and LBA, reading and writing.
fn sector_conditions(seed: u64, all: &mut Vec<Case>) {
    let breaks: [(&str, &[(u16, u16)]); 12] = [
        ("sector-0", &[(15, 0)]),
        ("sector-5", &[(15, 5)]),
        ("sector-32", &[(15, 32)]),
        ("head", &[(18, 0x02)]),
        ("head-lba", &[(18, 0x41)]),
        ("cylinder-4", &[(16, 4)]),
        ("cylinder-high", &[(17, 1)]),
        ("left-0", &[(22, 0), (14, 0)]),
        ("left-257", &[(22, 257), (14, 1)]),
        ("left-512", &[(14, 0), (22, 512)]),
        ("left-256", &[(22, 256), (14, 0)]),
        ("count", &[(14, 9)]),
    ];
    for (number, (name, fields)) in breaks.into_iter().enumerate() {
        for (k, opcode) in [0x20, 0x30, 0xE8, 0xEC].into_iter().enumerate() {
            let mut host =
                small(Group::SectorConditions.seed(seed, 4 * number + k), (k % 2) as u16);
            host.name_sector(5, (number + k) % 2 == 0);
            host.put(2, 3);
            host.put(7, opcode);
            broken_and_mended(&mut host, fields);
            host.rest_of_sector(Style::Words);
            finish(format!("condition-{name}-{opcode:02X}"), host, all);
        }
    }
}

// ---------------------------------------------------------------- fields at random

/// Random values in random fields; what stays well made goes on, the rest gets 12.
pub fn breaks(seed: u64, all: &mut Vec<Case>) {
    for number in 0..120 {
        let g = geometry([(4, 2, 4), (300, 1, 2), (3, 3, 40)][number % 3]);
        let mut host = Host::trial(Group::Breaks.seed(seed, number), g, (number % 2) as u16);
        open_over_marks(&mut host);
        for _ in 0..60 {
            prepare(&mut host);
            let whole = host.card.clone();
            let field = 1 + host.rng.below(29) as u16;
            let value = some_value(&mut host, field);
            host.set_field(field, value);
            poke(&mut host);
            if !host.card.well_made() || host.card.default != g {
                set_back(&mut host, &whole);
            }
        }
        finish(format!("break-{number}"), host, all);
    }
}

/// Well-made cards that no command has left so: transfers set up by hand, a buffer set by hand.
pub fn made_up(seed: u64, all: &mut Vec<Case>) {
    for number in 0..60 {
        let g = geometry([(4, 2, 4), (300, 1, 2), (3, 3, 40)][number % 3]);
        let mut host = Host::trial(Group::MadeUp.seed(seed, number), g, (number % 2) as u16);
        open_over_marks(&mut host);
        for _ in 0..12 {
            make_up(&mut host);
            host.look();
            let (words, style) =
                (host.rng.pick(&[1, 2, 255, 256]), host.rng.pick(&[Style::Words, Style::Mixed]));
            host.transfer(words, style);
            host.look();
            host.record(&[kinds::SHOW]);
        }
        finish(format!("made-{number}"), host, all);
    }
}

fn make_up(host: &mut Host) {
    if host.card.hold || host.card.sreset {
        return host.change_map();
    }
    let (lba, n) = (host.rng.flip(), host.marks.len());
    let i = host.rng.below(n);
    host.put(7, 0x10);
    host.name_sector(i, lba);
    let bytes: Vec<u8> = (0..8).map(|_| host.rng.byte()).collect();
    let place = host.rng.pick(&[0, 6, 100, 504, 508, 511, 512]);
    host.set_buffer(place, &bytes);
    let left = host.rng.pick(&[1, 2, 3, 255, 256]);
    let (phase, sectors) = (1 + host.rng.below(2) as u16, host.rng.flip() as u16);
    let words = host.rng.pick(&[0, 1, 3, 127, 254, 255]);
    let half = host.rng.below(3) as u16;
    let high = host.rng.pick(&[0, 0x20, 0x80, 0xA0]);
    let head = host.card.head as u16 | high;
    let block = host.rng.pick(&[0, 1, 2, 4, 8, 16]);
    let stride = if host.rng.flip() { block.max(1) } else { 1 };
    let in_block = host.rng.below(stride as usize) as u16;
    for (field, value) in [
        (24, phase),
        (25, sectors),
        (20, half),
        (21, words),
        (22, left),
        (27, block),
        (28, stride),
        (29, in_block),
        (14, left),
        (12, 0x58),
        (18, head),
    ] {
        host.set_field(field, value);
        if host.rng.percent(20) {
            probe(host);
        }
    }
}

/// Some command, begun and perhaps moved a little.
fn prepare(host: &mut Host) {
    if host.card.sreset {
        host.option(0);
    }
    if host.card.hold && host.rng.flip() {
        host.put(0xE, 0);
    }
    if host.card.block == 0 && host.rng.percent(40) {
        host.new_block();
    }
    if host.rng.percent(70) {
        host.aim();
        let (count, opcode) = (
            host.rng.pick(&[1, 2, 3, 0]),
            host.rng.pick(&[0x20, 0x30, 0xE8, 0xEC, 0x40, 0x91, 0xC4, 0xC5]),
        );
        host.put(2, count);
        host.put(7, opcode);
    }
    let words = host.rng.pick(&[0, 1, 3, 254, 255]);
    host.transfer(words, Style::Words);
    if host.card.running() && host.rng.flip() {
        host.data_byte(0);
    }
}

fn some_value(host: &mut Host, field: u16) -> u16 {
    let any = host.rng.next() as u16;
    let near = host.rng.below(6) as u16;
    match field {
        12 => host.rng.pick(&[0x50, 0x51, 0x58, 0x71, 0x80, any]),
        19 => host.rng.pick(&[0x00, 0x03, 0x11, 0x20, 0x21, 0x2F]),
        20 | 23 | 24 | 25 => near % 4,
        21 => host.rng.pick(&[0, 1, 254, 255, 256, any]),
        22 => host.rng.pick(&[0, 1, 2, 255, 256, 257, any]),
        26 => some_bad(host),
        27 | 28 => host.rng.pick(&[0, 1, 2, 3, 4, 8, 16, 17, 0x101, 0x104, any]),
        29 => host.rng.pick(&[0, 1, 2, 3, 7, 15, 16, 0x100, any]),
        1 | 4 => host.rng.pick(&[near, any, 4, 300]),
        2 | 3 | 5 | 6 => host.rng.pick(&[near, near, 16, 17, 255, 256, any]),
        _ => host.rng.pick(&[near, any]),
    }
}

/// A number of bad sectors: small, about N, above it.
pub fn some_bad(host: &mut Host) -> u16 {
    let (n, any) = (host.marks.len() as u16, host.rng.next() as u16);
    let (few, some) = (host.rng.below(4) as u16, host.rng.below(n as usize) as u16);
    host.rng.pick(&[0, few, some, n - 1, n, n + 1, any, 65535])
}

/// A few accesses of every sort.
fn poke(host: &mut Host) {
    probe(host);
    for _ in 0..3 {
        match host.rng.below(4) {
            0 => host.random_access(),
            1 if host.card.running() => host.one_word(Style::Mixed),
            2 => host.disturb(),
            _ => probe(host),
        }
    }
}

/// Gives every settable field its former value.
fn set_back(host: &mut Host, whole: &Card) {
    let fields = (1..=9).chain([12]).chain(14..=18).chain(23..=25).chain(20..=22).chain(26..=29);
    let fields: Vec<(u16, u16)> = fields.map(|f| (f, 0)).collect();
    mend(host, whole, &fields);
}
