//! The trial inputs of the comparison, from a seed.

use crate::bad_sector_inputs;
use crate::block_field_inputs;
use crate::block_trial_inputs;
use crate::card::{Access, Geometry};
use crate::changed_mark_inputs;
use crate::field_inputs;
use crate::host::{Host, Style};
use crate::inputs::{geometry, Case, Group};
use crate::run_trial_inputs;
use crate::trial_kinds as kinds;
use crate::tuple_inputs;

/// Geometries of some hundred sectors: many cylinders, many heads, long tracks, and small ones.
const LARGE: [(u16, u16, u16); 10] = [
    (600, 1, 1),
    (300, 1, 2),
    (2, 2, 255),
    (37, 16, 1),
    (5, 9, 11),
    (1000, 1, 1),
    (4, 2, 4),
    (1, 16, 63),
    (257, 1, 1),
    (3, 3, 40),
];

/// Cylinders of cards with H 1, S 1 and no marks whose integrity byte is 0, 1 or 255. At power-on
/// Identify's other bytes give 2,630 + 4 + 5·(the two bytes of C): for 190 and 445 (1 + 189) a
/// multiple of 256, for 241 one less, for 139 one more. For 487 they give 2,630 + 1,210 = 15·256 in one
/// track of 255. With marks every byte comes up (`bad_sector_inputs`).
const FULL_SUMS: [u16; 5] = [190, 445, 487, 241, 139];

/// All trials of a seed, as the sessions in this order.
pub fn trials(seed: u64) -> Vec<Case> {
    let mut all = Vec::new();
    openings(&mut all);
    lent_lengths(seed, &mut all);
    tuple_inputs::chains(seed, &mut all);
    tuple_inputs::lists(seed, &mut all);
    field_inputs::conditions(seed, &mut all);
    block_field_inputs::fields(seed, &mut all);
    block_trial_inputs::blocks(seed, &mut all);
    marks(seed, &mut all);
    carries(seed, &mut all);
    lines(seed, &mut all);
    identities(seed, &mut all);
    bad_sector_inputs::bad_sectors(seed, &mut all);
    changed_mark_inputs::changed_marks(seed, &mut all);
    run_trial_inputs::runs(seed, &mut all);
    wanderings(seed, &mut all);
    field_inputs::breaks(seed, &mut all);
    field_inputs::made_up(seed, &mut all);
    oddities(seed, &mut all);
    all
}

/// The host has written a trial of this name.
pub fn finish(name: String, host: Host, all: &mut Vec<Case>) {
    all.push(Case::new(format!("trial-{name}"), host.out));
}

/// A host at a card of 32 sectors.
pub fn small(seed: u64, mode: u16) -> Host {
    Host::trial(seed, Geometry::new(4, 2, 4), mode)
}

/// A status read through the map of the card's opening.
pub fn probe(host: &mut Host) {
    let (space, address) = if host.true_ide() { (3, 7) } else { (1, 7) };
    host.access(Access { space, width: 1, write: false, address, value: 0 });
}

/// Records of no kind, places and fields that are not there, a tail that is no record.
fn oddities(seed: u64, all: &mut Vec<Case>) {
    all.push(Case::new("trial-empty".into(), Vec::new()));
    all.push(Case::new("trial-no-record".into(), vec![3; 15]));
    let mut host = small(Group::Oddities.seed(seed, 0), 1);
    host.record(&[kinds::LEND, 0xFFFF, 0xFFFF, 0xFFFF, 0xFFFF, 0xFFFF, 0xFFFF]);
    for kind in [0, 15, 16, 255, 256, 257, 0xFFFF] {
        host.record(&[kind, 3, 1, 0, 7, 0, 1, 0]);
    }
    for place in [0, 255, 256, 505, 511, 512, 1020, 1023, 1024, 0xFFFF] {
        host.record(&[kinds::MARK, place, 0x1FE]);
        host.record(&[kinds::FILL, place, 0x1FE, 0xFFFF]);
        host.record(&[kinds::TUPLE_BYTES, place, 9, 0x0201, 0x0403, 0x0605, 0x0807, 0x0A09]);
        host.record(&[kinds::BODY_BYTES, place, 5, 0x0201, 0x0403, 0x0605, 0x0807, 0x0A09]);
        host.record(&[kinds::LAST_ENTRY, place, 0x1234, 0x5678, 0x9ABC]);
        host.record(&[kinds::BUFFER_BYTES, place, 7, 0x0201, 0x0403, 0x0605, 0x0807, 0x0A09]);
        for count in [0, 1, 256, 257, 0xFFFF] {
            host.record(&[kinds::READ_CHAIN, count, 0x1FE, place, place]);
            host.record(&[kinds::WRITE_LIST, count, 0x1FE, place, place]);
        }
        host.record(&[kinds::WRITE_BACK]);
        host.record(&[kinds::SHOW]);
    }
    host.lend_right(Geometry::new(4, 2, 4));
    for field in 0..33 {
        for value in [0x1FF, 0, 1, 2, 3, 0x8000, 0xFFFF] {
            host.record(&[kinds::BREAK, field, value]);
            host.record(&[kinds::ACCESS, 3, 1, 0, 0x16, 0, 0, 0]);
            host.record(&[kinds::OPEN, 4, 2, 4, 1]);
        }
    }
    host.record(&[kinds::ACCESS, 0x103, 0x101, 0x100, 7, 0xE8, 0, 9]);
    host.record(&[kinds::ACCESS, 3, 2, 1, 0, 0xFFF0, 300, 5]);
    host.record(&[kinds::ACCESS, 3, 1, 1, 3, 0xFE, 4, 1]);
    host.record(&[kinds::ACCESS, 3, 1, 1, 3, 0x1FE, 4, 1]);
    host.out.extend([7; 9]);
    finish("oddities".into(), host, all);
}

// ---------------------------------------------------------------- openings and lengths

/// Refusals 1, 2, 3, 5, 4 of the opening, each alone and before the next.
fn openings(all: &mut Vec<Case>) {
    let mut host = small(1, 0);
    let right = (32 * 512, 32, 256);
    for (store, marks, tuples) in wrong_triples(right) {
        for (c, mode) in [(4, 0), (4, 1), (4, 2), (0, 0)] {
            for mark in [0, 1, 2, 3, 255] {
                host.set_mark(31, mark);
                host.lend(store, marks, tuples);
                host.record(&[kinds::OPEN, c, 2, 4, mode]);
            }
        }
    }
    finish("openings".into(), host, all);
    limits(all);
}

/// Each right length and one beside it.
fn wrong_triples(right: (usize, usize, usize)) -> Vec<(usize, usize, usize)> {
    let mut triples = Vec::new();
    for store in [right.0, right.0 - 1, right.0 + 512] {
        for marks in [right.1, right.1 - 1, right.1 + 1] {
            for tuples in [right.2, right.2 - 1, right.2 + 1] {
                triples.push((store, marks, tuples));
            }
        }
    }
    triples
}

fn limits(all: &mut Vec<Case>) {
    let mut host = small(2, 0);
    for c in [0, 1, 2, 257, 65535] {
        for h in [0, 1, 16, 17, 256, 257] {
            for s in [0, 1, 255, 256, 257, 65535] {
                for mode in [0, 1, 2, 256] {
                    let n = c as usize * h as usize * s as usize;
                    host.lend(512 * n.min(1024), n.min(1024), 256);
                    host.record(&[kinds::OPEN, c, h, s, mode]);
                }
            }
        }
    }
    finish("limits".into(), host, all);
}

/// Wrong lengths at an access, with reasons for later refusals present as well.
fn lent_lengths(seed: u64, all: &mut Vec<Case>) {
    for mode in 0..2 {
        let mut host = small(Group::LentLengths.seed(seed, mode), mode as u16);
        for (store, marks, tuples) in wrong_triples((32 * 512, 32, 256)) {
            host.lend(store, marks, tuples);
            for address in [7, 0x0B] {
                for space in [0, 1, 3, 9] {
                    // Not through the host's own card, which always gets the right lengths.
                    host.record(&[kinds::ACCESS, space, 1, 0, address, 0, 1, 0]);
                    host.record(&[kinds::ACCESS, space, 1, 1, address, 0xEC, 1, 0]);
                }
            }
        }
        finish(format!("lengths-{mode}"), host, all);
    }
}

// ---------------------------------------------------------------- marks, carries, the line

/// Every sector command over marks 0, 1, 2 and above.
fn marks(seed: u64, all: &mut Vec<Case>) {
    let mut number = 0;
    for opcode in [0x20, 0x30, 0x40, 0xC0, 0x21, 0x31, 0x41] {
        for mark in [1, 2, 3, 255] {
            for mode in 0..2 {
                number += 1;
                let mut host = small(Group::Marks.seed(seed, number), mode);
                for i in 0..6 {
                    host.fill_sector(i, 0x11 * i as u16, 3);
                }
                host.set_mark(2, mark);
                marked(&mut host, opcode);
                finish(format!("mark-{mark}-{opcode:02X}-{mode}"), host, all);
            }
        }
    }
}

fn marked(host: &mut Host, opcode: u8) {
    for (first, lba) in [(2, false), (2, true), (0, false), (1, true)] {
        host.name_sector(first, lba);
        host.put(2, 4);
        host.put(7, opcode);
        while host.card.running() && !host.full {
            host.rest_of_sector(Style::Words);
        }
        host.look();
        host.sense();
        host.record(&[kinds::SHOW]);
        host.put(7, 0xE4);
        host.transfer(4, Style::Mixed);
        // Ends the transfer, so that the next address is taken.
        host.put(7, 0x10);
    }
}

/// Runs over sector 255 of large cards in LBA and CHS, their last sector alone, and a run past the end,
/// which 40H and C0H end before its first sector; 20H and 30H do not.
fn carries(seed: u64, all: &mut Vec<Case>) {
    for (number, g) in LARGE.into_iter().enumerate() {
        let g = geometry(g);
        let mut host = Host::trial(Group::Carries.seed(seed, number), g, (number % 2) as u16);
        for opcode in [0x40, 0xC0, 0x70, 0x20, 0x30] {
            for lba in [true, false] {
                carry(&mut host, opcode, lba);
            }
        }
        host.record(&[kinds::SHOW]);
        finish(format!("carry-{number}"), host, all);
    }
}

fn carry(host: &mut Host, opcode: u8, lba: bool) {
    let n = host.card.default.sectors() as usize;
    for (first, count) in [(254, 4), (0, 0), (n.saturating_sub(2), 5), (n - 1, 1), (n, 1)] {
        host.name_sector(first, lba);
        host.put(2, count);
        host.put(7, opcode);
        for _ in 0..3 {
            if host.card.running() && host.accesses < 2500 {
                host.rest_of_sector(Style::Words);
            }
        }
        host.look();
        host.sense();
    }
}

/// The interrupt line: every command, masked and not, Status read or not.
fn lines(seed: u64, all: &mut Vec<Case>) {
    for (number, opcode) in
        [0x20, 0x30, 0x40, 0xC0, 0xEC, 0xE4, 0xE8, 0x91, 0x90, 0x10, 0x70, 0x03, 0xFF, 0xC6]
            .into_iter()
            .enumerate()
    {
        for mode in 0..2 {
            let mut host = small(Group::Lines.seed(seed, 2 * number + mode), mode as u16);
            for mask in [0, 2] {
                for reading in [false, true] {
                    one_line(&mut host, opcode, mask, reading);
                }
            }
            finish(format!("line-{opcode:02X}-{mode}"), host, all);
        }
    }
}

fn one_line(host: &mut Host, opcode: u8, mask: u8, reading: bool) {
    host.put(0xE, mask);
    host.name_sector(29, true);
    host.put(2, 2);
    host.put(7, opcode);
    for _ in 0..3 {
        host.get(0xE);
        if reading {
            host.get(7);
        }
        host.put(0xE, mask ^ 2);
        host.put(0xE, mask);
        host.rest_of_sector(Style::Words);
    }
    host.put(0xE, mask ^ 2);
    host.refused();
    host.put(7, opcode);
    host.put(0xE, 4 | mask);
    host.set_field(11, 1);
    host.get(0xE);
    host.put(7, opcode);
    host.get(7);
    host.put(0xE, mask);
}

// ---------------------------------------------------------------- Identify

/// Identify on large cards, whose numbers take two bytes, and where its integrity byte is near 0.
fn identities(seed: u64, all: &mut Vec<Case>) {
    let full = FULL_SUMS.map(|c| (c, 1, 1));
    for (number, g) in LARGE.into_iter().chain(full).enumerate() {
        let seed = Group::TrialIdentities.seed(seed, number);
        let mut host = Host::trial(seed, geometry(g), (number % 2) as u16);
        host.identities_story();
        finish(format!("identify-{}-{}-{}", g.0, g.1, g.2), host, all);
    }
}

// ---------------------------------------------------------------- wanderings

/// Wanderings over large cards with marks.
fn wanderings(seed: u64, all: &mut Vec<Case>) {
    for number in 0..120 {
        let g = geometry(LARGE[number % LARGE.len()]);
        let mut host =
            Host::trial(Group::TrialWanderings.seed(seed, number), g, (number % 3 == 2) as u16);
        host.steady = number % 4 != 0;
        if number % 5 != 0 {
            open_over_marks(&mut host);
        }
        while !host.full {
            sprinkle(&mut host);
            for _ in 0..1 + host.rng.below(8) {
                host.chapter();
            }
        }
        finish(format!("wander-{number}"), host, all);
    }
}

/// Sets up to 24 marks of 1 and 2, and opens the card over them.
pub fn open_over_marks(host: &mut Host) {
    for _ in 0..host.rng.below(25) {
        let (at, mark) = (host.rng.below(host.marks.len()), host.rng.pick(&[1, 1, 2]));
        host.set_mark(at, mark);
    }
    host.reopen();
}

/// Sets some marks, near the end and anywhere, and fills a sector.
pub fn sprinkle(host: &mut Host) {
    let n = host.marks.len();
    for _ in 0..host.rng.below(4) {
        let near = n - 1 - host.rng.below(n.min(4));
        let at = if host.rng.flip() { near } else { host.rng.below(n) };
        let mark = host.rng.pick(&[0, 1, 1, 2, 2, 3, 200]);
        host.set_mark(at, mark);
    }
    let (at, first) = (host.rng.below(n), host.rng.byte() as u16);
    host.fill_sector(at, first, 7);
}
