//! Trial inputs of blocks of several sectors: the interrupt mark once per block, marks of sectors at
//! every place of a block, every Count of C6H, transfers ended in the middle.

use crate::bad_sector_inputs::{glance, set_marks};
use crate::block_session_inputs::{forget, sector_counts, set_block, step, BLOCK_OPCODES};
use crate::blocks::BLOCKS;
use crate::host::{Host, Style};
use crate::inputs::{geometry, Case, Group};
use crate::run_session_inputs::{begin, end, smaller_capacity};
use crate::trial_inputs::{finish, open_over_marks, probe, small, sprinkle};
use crate::trial_kinds as kinds;

pub fn blocks(seed: u64, all: &mut Vec<Case>) {
    marks_set(seed, all);
    faults(seed, all);
    past_the_end(seed, all);
    lines(seed, all);
    table(seed, all);
    stops(seed, all);
    resets(seed, all);
    wanderings(seed, all);
}

// ---------------------------------------------------------------- what they share

/// The last word of the present sector, the others count as moved.
pub fn last_word(host: &mut Host, style: Style) {
    if host.card.running() && !host.full {
        host.set_field(21, 255);
        host.one_word(style);
    }
}

/// A host in one of the five maps; 4 is True IDE.
fn host_in(map: usize, g: (u16, u16, u16), seed: u64) -> Host {
    let mut host = Host::trial(seed, geometry(g), (map == 4) as u16);
    host.go_to(map as u8);
    host
}

/// How a host looks at the card after a sector.
#[derive(Clone, Copy, PartialEq, Eq, Debug)]
enum Looks {
    Never,
    /// Status after each sector.
    Status,
    /// Status after every third sector.
    Seldom,
    /// Alternate Status after each sector, something refused, and Status after every second.
    Both,
}

const LOOKS: [Looks; 4] = [Looks::Never, Looks::Status, Looks::Seldom, Looks::Both];

fn look_by(host: &mut Host, looks: Looks, sector: usize) {
    match looks {
        Looks::Never => {}
        Looks::Status => drop(host.get(7)),
        Looks::Seldom if sector % 3 == 2 => drop(host.get(7)),
        Looks::Seldom => {}
        Looks::Both => {
            host.get(0xE);
            host.refused();
            if sector % 2 == 1 {
                host.get(7);
            }
        }
    }
}

/// A running transfer to its end, of each sector the last word alone.
fn to_the_end(host: &mut Host, looks: Looks) {
    let mut sector = 0;
    look_by(host, looks, sector);
    while host.card.running() && !host.full {
        last_word(host, Style::Words);
        sector += 1;
        look_by(host, looks, sector);
    }
}

// ---------------------------------------------------------------- the mark once per block

/// Commands over every count of sectors, by every block; 20H and 30H set the mark at each sector. They
/// start at sectors that no block of the card starts at.
fn marks_set(seed: u64, all: &mut Vec<Case>) {
    let mut number = 0;
    for block in BLOCKS {
        for opcode in [0xC4, 0xC5, 0x20, 0x30] {
            for looks in LOOKS {
                number += 1;
                let plain = opcode < 0xC0;
                if plain && !matches!(looks, Looks::Status | Looks::Seldom) {
                    continue;
                }
                let seed = Group::BlockMarks.seed(seed, number);
                let mut host = host_in(number % 5, (300, 1, 1), seed);
                set_block(&mut host, block);
                for (turn, sectors) in sector_counts(block as usize).into_iter().enumerate() {
                    if sectors > 40 && (plain || looks == Looks::Both) {
                        continue;
                    }
                    begin(&mut host, opcode, 3 + turn, sectors, turn % 2 == 0);
                    to_the_end(&mut host, looks);
                }
                finish(format!("block-mark-{block}-{opcode:02X}-{looks:?}"), host, all);
            }
        }
    }
}

// ---------------------------------------------------------------- marks of sectors

/// A mark at every place of the first block, of the second and of a partial last one.
fn faults(seed: u64, all: &mut Vec<Case>) {
    let mut number = 0;
    for block in BLOCKS {
        for opcode in BLOCK_OPCODES {
            for mark in [1, 2, 200] {
                number += 1;
                let seed = Group::BlockFaults.seed(seed, number);
                let mut host = host_in(number % 5, (5, 2, 5), seed);
                set_block(&mut host, block);
                let stops = (opcode == 0xC4) == (mark != 2);
                faults_of(&mut host, opcode, mark, if stops { 2 } else { 1 });
                finish(format!("block-fault-{block}-{opcode:02X}-{mark}"), host, all);
            }
        }
    }
}

/// In LBA and CHS, if there are two ways.
fn faults_of(host: &mut Host, opcode: u8, mark: u8, ways: usize) {
    let block = host.card.block as usize;
    let sectors = 2 * block + block.div_ceil(2) + 1;
    for turn in 0..ways * sectors {
        let (bad, lba) = (turn / ways, turn % 2 == 0);
        let first = 2 + turn % 3;
        set_marks(host, |at| if at == first + bad { mark } else { 0 });
        host.set_field(26, (turn % 3) as u16);
        // Every third ends in the block of the bad sector or before it.
        let sectors = if turn % 3 == 2 { bad + 1 + turn / 6 % 2 } else { sectors };
        begin(host, opcode, first, sectors, lba);
        to_the_end(host, [Looks::Never, Looks::Status, Looks::Seldom][turn % 3]);
        host.get(7);
        host.put(7, 0x03);
    }
    host.record(&[kinds::SHOW]);
    glance(host);
}

// ---------------------------------------------------------------- past the end

/// C4H and C5H past the end, at every place of a block, by the default geometry and by a smaller one.
fn past_the_end(seed: u64, all: &mut Vec<Case>) {
    let mut number = 0;
    for block in BLOCKS.map(usize::from) {
        for opcode in BLOCK_OPCODES {
            number += 1;
            let seed = Group::BlockTrialEnds.seed(seed, number);
            let mut host = host_in(number % 5, (5, 2, 5), seed);
            for smaller in [false, true] {
                if smaller {
                    smaller_capacity(&mut host);
                }
                set_block(&mut host, block as u8);
                for inside in [0, 1, 2, block - 1, block, block + 1, 2 * block - 1] {
                    ends_after(&mut host, opcode, inside);
                }
            }
            finish(format!("block-past-{block}-{opcode:02X}"), host, all);
        }
    }
}

/// So many sectors up to the end, and one, two or a block past it.
fn ends_after(host: &mut Host, opcode: u8, inside: usize) {
    let block = host.card.block as usize;
    for (turn, past) in [1, 2, block].into_iter().enumerate() {
        let lba = (inside + turn).is_multiple_of(2);
        let first = end(host, lba).saturating_sub(inside);
        begin(host, opcode, first, inside + past, lba);
        to_the_end(host, LOOKS[turn]);
        host.get(7);
        host.put(7, 0x03);
    }
}

// ---------------------------------------------------------------- the line

/// The line in blocks whose sectors move whole: masked and not, by every style.
fn lines(seed: u64, all: &mut Vec<Case>) {
    let styles = [Style::Words, Style::Bytes, Style::OddEven, Style::Mixed];
    let mut number = 0;
    for (block, sectors) in [(2, 5), (4, 6), (1, 2), (8, 3)] {
        for opcode in BLOCK_OPCODES {
            number += 1;
            let mut host = host_in(number % 5, (4, 2, 4), Group::BlockLines.seed(seed, number));
            set_block(&mut host, block);
            for (turn, style) in styles.into_iter().enumerate() {
                host.put(0xE, 2 * (turn as u8 % 2));
                begin(&mut host, opcode, 7 + turn, sectors, turn % 2 == 0);
                one_line(&mut host, style);
            }
            finish(format!("block-line-{block}-{opcode:02X}"), host, all);
        }
    }
}

/// Of each sector the last words; the mask comes and goes, and Status is read at times.
fn one_line(host: &mut Host, style: Style) {
    let mask = 2 * host.card.mask as u8;
    let mut sector = 0;
    while host.card.running() && !host.full {
        host.put(0xE, mask ^ 2);
        host.get(0xE);
        host.put(0xE, mask);
        if sector % 3 == 1 {
            host.get(7);
        }
        host.refused();
        host.set_field(21, 252);
        host.rest_of_sector(style);
        sector += 1;
    }
    host.put(0xE, mask ^ 2);
    host.get(7);
    host.put(0xE, 0);
}

// ---------------------------------------------------------------- C6H

/// Every Count over every old block, the interrupt mark set and clear, masked and not; good and bad
/// addresses, in an idle card and in a transfer.
fn table(seed: u64, all: &mut Vec<Case>) {
    for (number, old) in [0, 1, 2, 4, 8, 16].into_iter().enumerate() {
        let mut host = small(Group::BlockTable.seed(seed, number), (number % 2) as u16);
        for count in 0..=255 {
            let turn = count as usize + number;
            host.set_field(27, old);
            host.set_field(11, (turn % 2) as u16);
            host.set_field(10, (turn / 2 % 2) as u16);
            if turn.is_multiple_of(5) {
                host.name_sector([3, 31, 32, 200][turn % 4], turn.is_multiple_of(2));
            }
            host.put(2, count);
            if turn % 7 == 3 {
                // Count is in the registers when this transfer is dropped.
                host.put(7, [0x20, 0x30, 0xC4, 0xC5, 0xE8][turn % 5]);
            }
            host.put(7, 0xC6);
            host.put(7, [0xC4, 0xC5][turn % 2]);
            if turn.is_multiple_of(3) {
                host.put(7, 0x03);
            }
            if host.card.running() {
                host.put(7, 0x10);
            }
        }
        finish(format!("block-table-{old}"), host, all);
    }
}

// ---------------------------------------------------------------- ended in the middle

/// What a transfer is ended with.
const ENDERS: [u8; 18] = [
    0xC4, 0xC5, 0xC6, 0x20, 0x30, 0x40, 0xC0, 0xEC, 0xE4, 0xE8, 0x91, 0x90, 0x10, 0x70, 0x03, 0xFF,
    0x21, 0x31,
];

/// A command, the block, and the sectors left where it is ended, which C6H takes as a block or refuses.
const STOPPED: [(u8, u8, usize); 6] =
    [(0xC4, 4, 8), (0xC5, 4, 8), (0xC4, 8, 5), (0xC5, 8, 5), (0x20, 8, 16), (0x30, 8, 6)];

/// C4H, C5H, 20H and 30H ended by a command at every place of a block, and C4H or C5H afterwards, which
/// begins a block of its own.
fn stops(seed: u64, all: &mut Vec<Case>) {
    for (number, (opcode, block, left)) in STOPPED.into_iter().enumerate() {
        let mut host = small(Group::BlockStops.seed(seed, number), (number % 2) as u16);
        for (turn, ender) in ENDERS.into_iter().enumerate() {
            set_block(&mut host, block);
            let moved = 1 + turn % 6;
            begin(&mut host, opcode, 1 + turn % 4, moved + left, turn % 2 == 0);
            for _ in 0..moved {
                last_word(&mut host, Style::Words);
            }
            if turn % 3 == 0 {
                host.data_byte(0);
            }
            host.put(7, ender);
            last_word(&mut host, Style::Words);
            host.get(7);
            begin(&mut host, BLOCK_OPCODES[turn % 2], 20, 6, turn % 3 == 0);
            to_the_end(&mut host, Looks::Status);
        }
        finish(format!("block-stop-{number}-{opcode:02X}"), host, all);
    }
}

/// Both resets at every place of a block and in an idle card, and another opening; then C4H and C5H.
fn resets(seed: u64, all: &mut Vec<Case>) {
    for map in 0..5u8 {
        let seed = Group::BlockStops.seed(seed, 20 + map as usize);
        let mut host = host_in(map as usize, (4, 2, 4), seed);
        for turn in 0..30 {
            set_block(&mut host, BLOCKS[turn % 5]);
            if turn % 6 > 0 {
                begin(&mut host, BLOCK_OPCODES[turn % 2], turn % 9, 7, turn % 4 < 2);
                (1..turn % 6).for_each(|_| last_word(&mut host, Style::Words));
            }
            one_reset(&mut host, map, turn);
            begin(&mut host, BLOCK_OPCODES[turn / 2 % 2], 3, 2, true);
            to_the_end(&mut host, Looks::Never);
            probe(&mut host);
        }
        finish(format!("block-reset-map{map}"), host, all);
    }
}

fn one_reset(host: &mut Host, map: u8, turn: usize) {
    match turn % 4 {
        0 => {
            host.reopen();
            host.go_to(map);
        }
        1 if map < 4 => {
            host.option(0x80 | map);
            host.option_read();
            host.option(map);
        }
        2 if map < 4 => {
            host.put(0xE, 4);
            host.option(0x80 | map);
            host.option(map);
        }
        _ => {
            host.put(0xE, 6);
            host.put(7, 0xC6);
            host.get(7);
            host.put(0xE, 2);
        }
    }
}

// ---------------------------------------------------------------- wanderings

/// Blocks in any order, over marks that come and go.
fn wanderings(seed: u64, all: &mut Vec<Case>) {
    let cards = [(4, 2, 4), (257, 1, 1), (3, 3, 40), (5, 9, 11), (1, 1, 40)];
    for number in 0..40 {
        let seed = Group::BlockTrialWanderings.seed(seed, number);
        let mut host = host_in(number % 5, cards[number / 5 % 5], seed);
        open_over_marks(&mut host);
        host.go_to((number % 5) as u8);
        while !host.full {
            sprinkle(&mut host);
            for _ in 0..host.rng.below(4) {
                step(&mut host);
            }
            wander_block(&mut host);
        }
        finish(format!("block-wander-{number}"), host, all);
    }
}

/// A command over some sectors, to its end or nearly.
fn wander_block(host: &mut Host) {
    if host.card.hold || host.card.sreset {
        return forget(host);
    }
    if host.card.block == 0 || host.rng.percent(20) {
        let block = host.rng.pick(&[1, 2, 2, 4, 4, 8, 16]);
        set_block(host, block);
    }
    let opcode = host.rng.pick(&[0xC4, 0xC5, 0xC4, 0xC5, 0x20, 0x30]);
    let (first, lba) = (host.rng.below(host.marks.len() + 1), host.rng.flip());
    let sectors = host.rng.pick(&[1, 2, 3, 5, 7, 8, 9, 12, 16, 17, 33]);
    begin(host, opcode, first, sectors, lba);
    let moved = host.rng.below(sectors + 2);
    for sector in 0..moved {
        last_word(host, Style::Mixed);
        let looks = host.rng.pick(&LOOKS);
        look_by(host, looks, sector);
    }
    host.get(0xE);
}
