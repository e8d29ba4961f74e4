//! 02's request One, checked on this program: blocks of several sectors.

use crate::block_session_inputs::{forget, set_block};
use crate::blocks::BLOCKS;
use crate::card::{Access, Geometry};
use crate::host::{Host, Style};
use crate::run_session_inputs::begin;
use crate::selftest::told;

pub fn checks() -> Vec<bool> {
    vec![
        sheet_example(),
        marks_of_a_command(),
        where_marks_are_set(),
        settings(),
        settings_inside(),
        without_block(),
        kept_and_forgotten(),
        as_single_sectors(),
        most_sectors(),
        well_made(),
    ]
}

fn opened(c: u16, h: u16, s: u16) -> Host {
    Host::trial(1, Geometry::new(c, h, s), 1)
}

/// Status, Error, Count and Sector Number, and the code by 03H.
fn left(host: &mut Host) -> [u16; 5] {
    let [status, error, count, sector] = [7, 1, 2, 3].map(|offset| host.get(offset));
    host.put(7, 3);
    [status, error, count, sector, host.get(1)]
}

/// Block 4, Count 8 from sector 9, whose third sector fails: two sectors are done, Count is 6, the
/// address is the third sector's, and the mark is set.
fn sheet_example() -> bool {
    let good = [(0xC4, 1, 2, [0x51, 0x40, 6, 11, 0x11]), (0xC5, 2, 3, [0x71, 0x04, 6, 11, 0x03])]
        .into_iter()
        .all(|(opcode, mark, moved, expected)| {
            let mut host = opened(4, 2, 4);
            host.set_mark(11, mark);
            set_block(&mut host, 4);
            begin(&mut host, opcode, 9, 8, true);
            host.get(7);
            for _ in 0..moved {
                host.rest_of_sector(Style::Words);
            }
            host.card.mark && !host.card.running() && left(&mut host) == expected
        });
    told("block 4, Count 8, the third sector fails", good)
}

/// After how many sectors of a command the mark is set, Status being read after each.
fn marked_after(host: &mut Host, opcode: u8, sectors: usize) -> Vec<usize> {
    begin(host, opcode, 1, sectors, true);
    let mut marked = Vec::new();
    for moved in 0..=sectors {
        if host.card.mark {
            marked.push(moved);
        }
        host.get(7);
        if host.card.running() {
            host.set_field(21, 255);
            host.transfer(1, Style::Words);
        }
    }
    marked
}

/// A whole command of n sectors sets the mark as often as there are blocks, a partial one counted.
fn marks_of_a_command() -> bool {
    let good = BLOCKS.into_iter().all(|block| {
        let lengths = [1, 2, 3, 4, 5, 7, 8, 9, 15, 16, 17, 31, 32, 33, 100, 255, 256];
        lengths.into_iter().all(|sectors: usize| {
            [0xC4, 0xC5].into_iter().all(|opcode| {
                let mut host = opened(257, 1, 1);
                set_block(&mut host, block);
                let marks = marked_after(&mut host, opcode, sectors).len();
                marks == sectors.div_ceil(block as usize) && host.card.status == 0x50
            })
        })
    });
    told("as many marks as blocks", good)
}

/// Seven sectors by 4: reading before sectors 0 and 4; writing before sector 4 and at the end. 20H and
/// 30H at each sector.
fn where_marks_are_set() -> bool {
    let mut host = opened(4, 2, 4);
    set_block(&mut host, 4);
    let good = marked_after(&mut host, 0xC4, 7) == [0, 4]
        && marked_after(&mut host, 0xC5, 7) == [4, 7]
        && marked_after(&mut host, 0x20, 3) == [0, 1, 2]
        && marked_after(&mut host, 0x30, 3) == [1, 2, 3];
    told("where the mark is set", good)
}

/// C6H with every Count, over none and over every block; Count stays.
fn settings() -> bool {
    let good = [0, 1, 2, 4, 8, 16].into_iter().all(|old| {
        (0..=255).all(|count: u8| {
            let mut host = opened(4, 2, 4);
            host.set_field(27, old);
            host.set_lba(200);
            set_block(&mut host, count);
            let taken = BLOCKS.contains(&count);
            let block = if taken { count.into() } else { old };
            let end = if taken { [0x50, 0, 0] } else { [0x51, 0x04, 0x20] };
            let [status, error, code] = end;
            host.card.mark
                && host.card.block == block
                && left(&mut host) == [status, error, count as u16, 200, code]
        })
    });
    told("C6H with every Count", good)
}

/// C6H in a running C4H or C5H goes by the sectors left, and ends the transfer.
fn settings_inside() -> bool {
    let cases = [(8, 0x50, 0, 8, 0), (5, 0x51, 0x04, 4, 0x20)];
    let good = [0xC4, 0xC5].into_iter().all(|opcode| {
        cases.into_iter().all(|(count, status, error, block, code)| {
            let mut host = opened(4, 2, 4);
            set_block(&mut host, 4);
            begin(&mut host, opcode, 9, 3 + count, true);
            for _ in 0..3 {
                host.rest_of_sector(Style::Words);
            }
            host.put(7, 0xC6);
            !host.card.running()
                && host.card.mark
                && host.card.block == block
                && left(&mut host) == [status, error, count as u16, 12, code]
        })
    });
    told("C6H in C4H and C5H", good)
}

/// ABRT with 20H, whatever the address; the registers stay.
fn without_block() -> bool {
    let mut host = opened(4, 2, 4);
    let good = [0xC4, 0xC5].into_iter().all(|opcode| {
        [0, 31, 32, 200].into_iter().all(|sector: usize| {
            begin(&mut host, opcode, sector, 256, true);
            left(&mut host) == [0x51, 0x04, 0, sector as u16, 0x20]
        })
    });
    told("C4H and C5H without a block", good)
}

/// 90H, 91H, 03H and a refused C6H keep the block; both resets forget it when they are left.
fn kept_and_forgotten() -> bool {
    let mut host = Host::trial(1, Geometry::new(4, 2, 4), 0);
    let mut blocks = Vec::new();
    set_block(&mut host, 8);
    for opcode in [0x90, 0x91, 0x03, 0xC6, 0xC4, 0x20] {
        host.put(2, 3);
        host.put(7, opcode);
        blocks.push(host.card.block);
    }
    host.put(0xE, 4);
    blocks.push(host.card.block);
    host.put(0xE, 0);
    blocks.push(host.card.block);
    set_block(&mut host, 16);
    host.option(0x80);
    blocks.push(host.card.block);
    host.option(0);
    blocks.push(host.card.block);
    told("what keeps the block and what forgets it", blocks == [8, 8, 8, 8, 8, 8, 8, 0, 16, 0])
}

/// Data, sectors, registers and ends are those of 20H and 30H, past the end and over marks too.
fn as_single_sectors() -> bool {
    let runs = [(3, 5), (28, 9), (9, 4), (14, 3), (32, 2), (19, 17), (0, 256)];
    let good = BLOCKS.into_iter().all(|block| {
        [(0xC4, 0x20), (0xC5, 0x30)].into_iter().all(|(by_block, single)| {
            let both = [by_block, single].map(|opcode| {
                let mut host = opened(4, 2, 4);
                set_block(&mut host, block);
                runs.map(|(first, sectors)| seen(&mut host, opcode, first, sectors))
            });
            both[0] == both[1]
        })
    });
    told("C4H and C5H beside 20H and 30H", good)
}

/// What a host sees of a command, the interrupt mark apart: the registers after each sector, the first
/// word of each, and the store, the marks and the buffer at its end.
fn seen(host: &mut Host, opcode: u8, first: usize, sectors: usize) -> (Vec<u16>, Vec<u8>) {
    for (at, mark) in [(11, 1), (16, 2), (21, 200)] {
        host.set_mark(at, mark);
    }
    begin(host, opcode, first, sectors, first.is_multiple_of(2));
    let mut registers = Vec::new();
    loop {
        registers.extend([1, 2, 3, 4, 5, 6, 7, 0xE, 0xF].map(|offset| host.get(offset)));
        if !host.card.running() {
            break;
        }
        host.set_field(21, 254);
        registers.push(host.get_word(0));
        host.set_field(21, 255);
        host.transfer(1, Style::Words);
    }
    registers.push(host.card.code as u16);
    let bytes = [&host.store[..], &host.marks, &host.card.buffer].concat();
    (registers, bytes)
}

/// Words 47, 59 and 255: before C6H, after it, and with three bad sectors.
fn most_sectors() -> bool {
    let mut host = opened(4, 2, 4);
    let words = |host: &mut Host| {
        host.put(7, 0xEC);
        let words: Vec<u16> = (0..256).map(|_| host.get_word(0)).collect();
        [words[47], words[59], words[255]]
    };
    let plain = [0x0010, 0, 0x46A5];
    let before = words(&mut host) == plain;
    set_block(&mut host, 8);
    let after = words(&mut host) == plain;
    forget(&mut host);
    for at in [3, 9, 30] {
        host.set_mark(at, 1 + (at % 2) as u8);
    }
    host.reopen();
    told("Identify, word 47", before && after && words(&mut host) == [0x0010, 0, 0x43A5])
}

/// Blocks, strides and places in a transfer of sectors: refusal 12, or none.
fn well_made() -> bool {
    let cards = [
        (0, 1, 0, 0),
        (4, 1, 0, 0),
        (4, 4, 3, 0),
        (16, 16, 15, 0),
        (1, 1, 0, 0),
        (0, 1, 1, 12),
        (4, 4, 4, 12),
        (4, 1, 1, 12),
        (0, 4, 0, 12),
        (4, 2, 0, 12),
        (0, 0, 0, 12),
        (3, 3, 0, 12),
        (3, 1, 0, 12),
        (32, 32, 0, 12),
        (0x104, 1, 0, 12),
        (0x104, 0x104, 0, 12),
        (4, 0x104, 0, 12),
        (4, 0x101, 0, 12),
        (0, 0x100, 0, 12),
        (4, 4, 0x100, 12),
        (0, 1, 0x100, 12),
    ];
    let mut host = opened(4, 2, 4);
    begin(&mut host, 0x20, 3, 9, true);
    let good = cards.into_iter().all(|(block, stride, place, number)| {
        for (field, value) in [(27, block), (28, stride), (29, place)] {
            host.set_field(field, value);
        }
        let status = Access { space: 3, width: 1, write: false, address: 7, value: 0 };
        host.access(status).number == number
    });
    told("blocks, strides and places that are well made", good)
}
