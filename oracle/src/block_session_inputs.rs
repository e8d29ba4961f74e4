//! Sessions of blocks of several sectors: C6H, C4H and C5H, and what keeps or forgets the block. A
//! session shows whether there is a block, not how long it is.

use crate::blocks::BLOCKS;
use crate::host::{Host, Style, STYLES};
use crate::inputs::{geometry, Case, Group};
use crate::run_session_inputs::{begin, end, end_transfer, give, peek, smaller_capacity};
use crate::session_inputs::{all_chs, all_lba, finish, host_in, stepped, ways, SMALL};

pub fn blocks(seed: u64, all: &mut Vec<Case>) {
    counts(seed, all);
    fits(seed, all);
    transfers(seed, all);
    past_the_end(seed, all);
    addresses(seed, all);
    between(seed, all);
    set_inside(seed, all);
    resets(seed, all);
    identities(seed, all);
    stepped(("block-wander", Group::BlockWanderings, 60), seed, step, all);
}

// ---------------------------------------------------------------- what they share

pub const BLOCK_OPCODES: [u8; 2] = [0xC4, 0xC5];

/// C6H with this Count; a transfer that runs is ended first, so that Count is taken.
pub fn set_block(host: &mut Host, count: u8) {
    end_transfer(host);
    host.put(2, count);
    host.put(7, 0xC6);
}

/// Counts below a block, at it and above, multiples and not; 256 last.
pub fn sector_counts(block: usize) -> Vec<usize> {
    let mut all = vec![1, 2, 3, block - 1, block, block + 1, 2 * block - 1, 2 * block];
    all.extend([2 * block + 1, 3 * block, 4 * block + block / 2, 256]);
    all.retain(|&sectors| sectors > 0);
    all.sort();
    all.dedup();
    all
}

/// A hold, entered and left; the block is forgotten.
pub fn forget(host: &mut Host) {
    host.put(0xE, 4);
    host.put(0xE, 0);
}

/// This block, or none.
fn have(host: &mut Host, block: u8) {
    match block {
        _ if host.card.block == block.into() => {}
        0 => forget(host),
        _ => set_block(host, block),
    }
}

/// A running transfer to its end, with all registers after each sector.
fn move_all(host: &mut Host, style: Style) {
    while host.card.running() && !host.full {
        host.rest_of_sector(style);
        host.look();
    }
}

/// Moves so many whole sectors of a running transfer.
fn move_sectors(host: &mut Host, sectors: usize) {
    for _ in 0..sectors {
        host.rest_of_sector(Style::Words);
    }
}

/// Is there a block? C4H or C5H over what the registers name says it.
fn ask(host: &mut Host, opcode: u8) {
    host.put(7, opcode);
    for offset in [7, 1, 2, 0xF] {
        host.get(offset);
    }
    host.transfer(2, Style::Words);
}

// ---------------------------------------------------------------- C6H

/// Every Count over every old block, and over none, with good and bad addresses in the registers.
fn counts(seed: u64, all: &mut Vec<Case>) {
    let mut number = 0;
    for old in [0, 1, 2, 4, 8, 16] {
        for (name, head, sector) in [("good", 0x40, 1), ("head", 0x0F, 1), ("lba", 0x40, 200)] {
            number += 1;
            let seed = Group::BlockCounts.seed(seed, number);
            let mut host = host_in((number % 5) as u8, geometry((4, 2, 4)), seed);
            for count in 0..=255 {
                have(&mut host, old);
                host.put(3, sector);
                host.put(6, head);
                set_block(&mut host, count);
                for offset in [7, 1, 2] {
                    host.get(offset);
                }
                host.put(7, 0x03);
                host.get(1);
                host.put(7, BLOCK_OPCODES[count as usize % 2]);
                host.get(7);
                end_transfer(&mut host);
            }
            finish(format!("block-count-{old}-{name}"), host, all);
        }
    }
}

/// Identify before C6H and after it, with every block.
fn identities(seed: u64, all: &mut Vec<Case>) {
    for map in 0..5u8 {
        let seed = Group::BlockIdentities.seed(seed, map as usize);
        let mut host = host_in(map, geometry(SMALL[map as usize]), seed);
        for count in [0, 16, 8, 3, 4, 2, 1] {
            set_block(&mut host, count);
            host.whole_identify();
        }
        forget(&mut host);
        host.put(7, 0xEC);
        host.transfer(60, Style::Words);
        finish(format!("block-identify-{map}"), host, all);
    }
}

// ---------------------------------------------------------------- transfers

/// Every number of sectors by every block, begun and broken off.
fn fits(seed: u64, all: &mut Vec<Case>) {
    for map in 0..5u8 {
        let seed = Group::BlockFits.seed(seed, map as usize);
        let mut host = host_in(map, geometry((4, 2, 4)), seed);
        for block in BLOCKS {
            set_block(&mut host, block);
            for (turn, sectors) in sector_counts(block as usize).into_iter().enumerate() {
                for opcode in BLOCK_OPCODES {
                    begin(&mut host, opcode, 3 + turn, sectors, turn % 2 == 0);
                    for offset in [7, 2, 0xF] {
                        host.get(offset);
                    }
                    host.transfer(2, Style::Mixed);
                }
            }
        }
        finish(format!("block-fit-map{map}"), host, all);
    }
}

/// Blocks and counts of whole transfers; as bytes these take twice as many records.
const BY_WORDS: [(u8, usize); 10] =
    [(4, 5), (2, 4), (1, 3), (16, 5), (4, 4), (2, 5), (8, 5), (4, 3), (2, 2), (1, 1)];
const BY_BYTES: [(u8, usize); 5] = [(2, 3), (4, 3), (2, 2), (1, 2), (16, 3)];

/// Whole transfers in every map and style, written and read back, with accesses between and without.
fn transfers(seed: u64, all: &mut Vec<Case>) {
    for (number, (map, style, noise)) in ways() {
        let seed = Group::BlockTransfers.seed(seed, number);
        let mut host = host_in(map, geometry((4, 2, 4)), seed);
        let (block, sectors) = match style {
            Style::Words => BY_WORDS[number % 10],
            _ => BY_BYTES[(number + map as usize) % 5],
        };
        written_and_read(&mut host, block, sectors, style, noise);
        finish(format!("block-transfer-map{map}-{style:?}-{noise}"), host, all);
    }
}

fn written_and_read(host: &mut Host, block: u8, sectors: usize, style: Style, noise: usize) {
    set_block(host, block);
    let first = host.rng.below(32 - sectors);
    for (opcode, lba) in [(0xC5, true), (0xC4, false)] {
        begin(host, opcode, first, sectors, lba);
        host.look();
        for offset in 1..=6 {
            let value = host.rng.byte();
            host.put(offset, value);
        }
        host.noise = noise;
        move_all(host, style);
        host.noise = 0;
    }
}

/// (block, sectors up to the end, sectors): past the end at every place of a block.
const PAST: [(u8, usize, usize); 14] = [
    (4, 4, 8),
    (2, 2, 4),
    (4, 1, 4),
    (8, 3, 256),
    (4, 3, 4),
    (2, 1, 2),
    (2, 2, 3),
    (4, 4, 6),
    (4, 1, 3),
    (8, 2, 5),
    (4, 1, 2),
    (16, 3, 4),
    (16, 2, 200),
    (1, 2, 5),
];

/// C5H and C4H past the end in LBA and CHS, by the default geometry and by a smaller one.
fn past_the_end(seed: u64, all: &mut Vec<Case>) {
    for (number, (block, inside, sectors)) in PAST.into_iter().enumerate() {
        for lba in [false, true] {
            let way = if lba { "lba" } else { "chs" };
            let seed = Group::BlockEnds.seed(seed, 2 * number + lba as usize);
            let mut host = host_in((number % 5) as u8, geometry(SMALL[number % 8]), seed);
            if number % 2 == 1 {
                smaller_capacity(&mut host);
            }
            set_block(&mut host, block);
            let first = end(&host, lba).saturating_sub(inside);
            for opcode in [0xC5, 0xC4, 0x20] {
                begin(&mut host, opcode, first, sectors, lba);
                move_all(&mut host, Style::Words);
                host.sense();
                host.get(2);
            }
            finish(format!("block-past-{block}-{inside}-{sectors}-{way}"), host, all);
        }
    }
}

/// Every address at a limit, without a block and with one.
fn addresses(seed: u64, all: &mut Vec<Case>) {
    let mut number = 0;
    for g in SMALL {
        for opcode in BLOCK_OPCODES {
            number += 1;
            let map = (number % 5) as u8;
            let mut host = host_in(map, geometry(g), Group::BlockAddresses.seed(seed, number));
            all_chs(&mut host, opcode);
            all_lba(&mut host, opcode);
            let block = BLOCKS[number % 5];
            set_block(&mut host, block);
            all_chs(&mut host, opcode);
            all_lba(&mut host, opcode);
            finish(format!("block-address-{}-{}-{}-{opcode:02X}", g.0, g.1, g.2), host, all);
        }
    }
}

// ---------------------------------------------------------------- kept and forgotten

/// Commands that may come between, by opcode, Count and sector in LBA.
const COMMANDS: [(u8, u8, u32); 31] = [
    (0x20, 2, 3),
    (0x21, 2, 32),
    (0x30, 1, 3),
    (0x31, 1, 32),
    (0xC4, 2, 3),
    (0xC4, 2, 32),
    (0xC5, 2, 3),
    (0xC5, 2, 32),
    (0x40, 2, 3),
    (0x41, 2, 31),
    (0xC0, 2, 3),
    (0xC0, 2, 31),
    (0xEC, 1, 3),
    (0xE4, 1, 3),
    (0xE8, 1, 3),
    (0x91, 5, 3),
    (0x91, 0, 3),
    (0x90, 1, 3),
    (0x10, 1, 3),
    (0x1F, 1, 3),
    (0x70, 1, 3),
    (0x7F, 1, 32),
    (0x03, 1, 3),
    (0x00, 1, 3),
    (0xC7, 1, 3),
    (0xFF, 1, 3),
    (0xC6, 0, 3),
    (0xC6, 3, 3),
    (0xC6, 32, 3),
    (0xC6, 255, 3),
    (0xC6, 2, 32),
];

/// Commands, map changes and masks between C6H and C4H or C5H; at first idle, then in the middle of a
/// transfer.
fn between(seed: u64, all: &mut Vec<Case>) {
    for map in 0..5u8 {
        for running in [false, true] {
            let number = 2 * map as usize + running as usize;
            let mut host =
                host_in(map, geometry((4, 2, 4)), Group::BlockBetween.seed(seed, number));
            for (turn, (opcode, count, lba)) in COMMANDS.into_iter().enumerate() {
                set_block(&mut host, BLOCKS[turn % 5]);
                host.put(2, count);
                // A transfer starts at a sector that the card has.
                host.set_lba(if running { lba.min(31) } else { lba });
                if running {
                    begin_some(&mut host, turn);
                }
                host.put(7, opcode);
                host.look();
                host.transfer(2, Style::Mixed);
                end_transfer(&mut host);
                use_block(&mut host, BLOCK_OPCODES[turn / 2 % 2]);
                use_block(&mut host, BLOCK_OPCODES[(turn / 2 + 1) % 2]);
            }
            other_between(&mut host);
            let way = if running { "running" } else { "idle" };
            finish(format!("block-between-map{map}-{way}"), host, all);
        }
    }
}

/// Some transfer, begun and moved a little, over what the registers name.
fn begin_some(host: &mut Host, turn: usize) {
    host.put(7, [0xC4, 0xC5, 0x20, 0xE8][turn % 4]);
    host.transfer(1, Style::Words);
    if turn % 8 < 4 {
        host.data_byte(0);
    }
}

/// C6H in C4H and C5H after a sector, the sectors left being a block or not.
fn set_inside(seed: u64, all: &mut Vec<Case>) {
    for map in 0..5u8 {
        let seed = Group::BlockBetween.seed(seed, 10 + map as usize);
        let mut host = host_in(map, geometry((4, 2, 4)), seed);
        for (turn, left) in [2, 3, 8, 7].into_iter().enumerate() {
            let opcode = BLOCK_OPCODES[(turn / 2 + turn + map as usize) % 2];
            set_block(&mut host, [4, 1][turn % 2]);
            begin(&mut host, opcode, 5, 1 + left, turn < 2);
            move_sectors(&mut host, 1);
            host.put(7, 0xC6);
            host.look();
            host.sense();
            BLOCK_OPCODES.into_iter().for_each(|opcode| use_block(&mut host, opcode));
        }
        finish(format!("block-set-map{map}"), host, all);
    }
}

/// A map change, a mask, and something refused.
fn other_between(host: &mut Host) {
    for opcode in BLOCK_OPCODES {
        set_block(host, 4);
        host.change_map();
        host.put(0xE, 2);
        host.put(0xE, 0);
        host.refused();
        use_block(host, opcode);
        // In the middle of the transfer.
        host.change_map();
        host.transfer(2, Style::Words);
        host.put(0xE, 2);
        host.transfer(2, Style::Words);
    }
}

/// C4H or C5H at a good sector, and its first words.
fn use_block(host: &mut Host, opcode: u8) {
    end_transfer(host);
    host.set_lba(3);
    host.put(2, 3);
    ask(host, opcode);
}

/// Resets entered in an idle card, at the first sector of a block and inside of it; then C4H and C5H.
fn resets(seed: u64, all: &mut Vec<Case>) {
    for map in 0..5u8 {
        for opcode in BLOCK_OPCODES {
            let number = 2 * map as usize + (opcode - 0xC4) as usize;
            let mut host = host_in(map, geometry((4, 2, 4)), Group::BlockResets.seed(seed, number));
            for by_sreset in [false, true] {
                for sectors in [None, Some(0), Some(1), Some(2)] {
                    set_block(&mut host, [2, 4][number % 2]);
                    if let Some(sectors) = sectors {
                        begin(&mut host, opcode, 5, 4, sectors == 1);
                        move_sectors(&mut host, sectors);
                        host.data_byte(0);
                    }
                    reset(&mut host, by_sreset);
                    host.look();
                    ask(&mut host, opcode);
                    ask(&mut host, opcode ^ 1);
                    host.sense();
                    ask(&mut host, 0x20);
                    (5..8).for_each(|at| peek(&mut host, at));
                }
            }
            finish(format!("block-reset-map{map}-{opcode:02X}"), host, all);
        }
    }
}

/// SRESET, where there is one, or a hold, with accesses in it.
fn reset(host: &mut Host, by_sreset: bool) {
    if by_sreset && !host.true_ide() {
        let map = host.card.option();
        host.option(0x80 | map);
        host.put(7, 0xC4);
        host.option_read();
        host.option(map);
        return;
    }
    host.put(0xE, 4);
    for opcode in [0xC6, 0xC4, 0xC5] {
        host.put(2, 4);
        host.put(7, opcode);
        host.get(7);
    }
    host.put(0xE, 0);
}

// ---------------------------------------------------------------- wanderings

/// Up to three sectors of a running transfer, in some style.
fn move_some(host: &mut Host) {
    let (moved, style) = (host.rng.below(4), host.rng.pick(&STYLES));
    host.noise = host.rng.pick(&[0, 0, 10]);
    for _ in 0..moved {
        host.rest_of_sector(style);
    }
    host.noise = 0;
}

/// Something about blocks, mostly.
pub fn step(host: &mut Host) {
    let (lba, opcode) = (host.rng.flip(), host.rng.pick(&BLOCK_OPCODES));
    let end = end(host, lba);
    let first = end.saturating_sub(host.rng.below(10));
    match host.rng.below(12) {
        0 | 1 => {
            end_transfer(host);
            host.new_block();
            host.look();
        }
        2..=5 => {
            let sectors = host.rng.pick(&[1, 2, 3, 4, 5, 8, 9, 16, 17, 256]);
            begin(host, opcode, first, sectors, lba);
            move_some(host);
        }
        6 => {
            let words = host.rng.below(6);
            host.transfer(words, Style::Mixed);
            host.disturb();
        }
        7 => {
            let command = host.rng.pick(&COMMANDS);
            host.put(7, command.0);
            host.look();
        }
        8 if host.rng.percent(40) => {
            let by_sreset = host.rng.flip();
            reset(host, by_sreset);
        }
        9 => give(host, opcode, first),
        10 => host.chapter(),
        _ => {
            let style = host.rng.pick(&STYLES);
            host.rest_of_sector(style);
            host.look();
        }
    }
}
