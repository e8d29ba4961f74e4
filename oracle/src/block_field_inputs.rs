//! Trial inputs whose block, stride and place are set field by field: not well made, or as no command
//! leaves them.

use crate::block_session_inputs::set_block;
use crate::block_trial_inputs::last_word;
use crate::blocks::BLOCKS;
use crate::host::{Host, Style};
use crate::inputs::{bring, Case, Group, State};
use crate::run_session_inputs::begin;
use crate::trial_inputs::{finish, probe, small};
use crate::trial_kinds as kinds;

pub fn fields(seed: u64, all: &mut Vec<Case>) {
    block_values(seed, all);
    strides_and_places(seed, all);
    above_a_byte(seed, all);
    what_moves(seed, all);
    by_hand(seed, all);
}

// ---------------------------------------------------------------- the block

/// Above a byte: the low byte would fit, or not; or the high byte would.
const HIGH_BLOCKS: [u16; 10] =
    [0x100, 0x101, 0x102, 0x103, 0x104, 0x108, 0x110, 0x400, 0x1000, 0xFF10];

/// Every block of a byte and some above, in an idle card, in transfers of the buffer and of sectors, in
/// both resets.
fn block_values(seed: u64, all: &mut Vec<Case>) {
    let opcodes = [0x10, 0xE4, 0xEC, 0xE8, 0x20, 0x30, 0xC4, 0xC5];
    for (number, opcode) in opcodes.into_iter().enumerate() {
        let mut host = small(Group::BlockFields.seed(seed, number), (number % 2) as u16);
        host.set_field(27, 2);
        host.put(2, 2);
        host.put(7, opcode);
        every_block(&mut host);
        finish(format!("block-value-{opcode:02X}"), host, all);
    }
    for (number, state) in [State::Hold, State::Sreset].into_iter().enumerate() {
        let mut host = small(Group::BlockFields.seed(seed, 10 + number), 0);
        bring(&mut host, 1, state);
        every_block(&mut host);
        finish(format!("block-value-{state:?}"), host, all);
    }
}

/// The stride follows the block in a C4H, so that the block alone is wrong.
fn every_block(host: &mut Host) {
    let follows = host.card.stride > 1;
    for block in (0..=255).chain(HIGH_BLOCKS).chain([2]) {
        host.set_field(27, block);
        if follows {
            host.set_field(28, block);
        }
        probe(host);
    }
    host.transfer(3, Style::Words);
}

// ---------------------------------------------------------------- stride and place

/// Strides and places in transfers of sectors, in both directions.
fn strides_and_places(seed: u64, all: &mut Vec<Case>) {
    for (number, opcode) in [0x20, 0x30, 0xC4, 0xC5].into_iter().enumerate() {
        for mode in 0..2 {
            let seed = Group::BlockFields.seed(seed, 20 + 2 * number + mode);
            let mut host = small(seed, mode as u16);
            set_block(&mut host, 4);
            begin(&mut host, opcode, 5, 9, mode == 0);
            for block in [0, 1, 2, 4, 8, 16, 3, 17, 255] {
                host.set_field(27, block);
                for stride in strides(block) {
                    host.set_field(28, stride);
                    places(&mut host, stride);
                }
            }
            for (field, value) in [(27, 4), (28, 4), (29, 3)] {
                host.set_field(field, value);
            }
            (0..4).for_each(|_| last_word(&mut host, Style::Words));
            finish(format!("block-stride-{opcode:02X}-{mode}"), host, all);
        }
    }
}

fn strides(block: u16) -> Vec<u16> {
    let mut all = vec![0, 1, 2, 3, 4, 16, 255, 0x101, block, block + 1, block + 0x100];
    all.sort();
    all.dedup();
    all
}

fn places(host: &mut Host, stride: u16) {
    for place in [0, 1, stride.wrapping_sub(1), stride, stride + 1, 255, 0x100] {
        host.set_field(29, place);
        probe(host);
    }
}

/// A block, a stride and a place, of which one or more are above 255.
const ABOVE: [(u16, u16, u16); 26] = [
    (0x104, 1, 0),
    (0x104, 4, 0),
    (0x104, 4, 3),
    (0x104, 0x104, 0),
    (0x104, 0x104, 0x103),
    (0x101, 0x101, 0x100),
    (0x100, 1, 0),
    (0x1000, 0x1000, 0),
    (0xFFFF, 0xFFFF, 0xFFFE),
    (4, 0x104, 0),
    (4, 0x104, 3),
    (4, 0x104, 0x100),
    (4, 0x101, 0),
    (4, 0x400, 0),
    (1, 0x101, 0),
    (16, 0xFF10, 15),
    (0, 0x100, 0),
    (0, 0x101, 0),
    (0, 0x104, 0),
    (4, 4, 0x100),
    (4, 4, 0x103),
    (4, 4, 0x104),
    (4, 1, 0x100),
    (0, 1, 0x100),
    (16, 16, 0xFF0F),
    (16, 16, 0xFFFF),
];

/// Numbers above a byte in transfers of sectors; in an idle card and in transfers of the buffer, where
/// the block alone is looked at. Then a good card goes on.
fn above_a_byte(seed: u64, all: &mut Vec<Case>) {
    let opcodes = [0x10, 0xE4, 0xE8, 0x20, 0x30, 0xC4, 0xC5];
    for (number, opcode) in opcodes.into_iter().enumerate() {
        let mut host = small(Group::BlockFields.seed(seed, 50 + number), (number % 2) as u16);
        set_block(&mut host, 4);
        begin(&mut host, opcode, 5, 9, number % 2 == 1);
        for (block, stride, place) in ABOVE {
            for (field, value) in [(27, block), (28, stride), (29, place)] {
                host.set_field(field, value);
            }
            probe(&mut host);
            host.transfer(1, Style::Words);
            host.put(2, 9);
        }
        for (field, value) in [(27, 4), (28, 4), (29, 2)] {
            host.set_field(field, value);
        }
        (0..3).for_each(|_| last_word(&mut host, Style::Words));
        finish(format!("block-above-{opcode:02X}"), host, all);
    }
}

/// Fields and their values, one after the other.
const STEPS: [(u16, u16); 26] = [
    (28, 4),
    (29, 2),
    (25, 0),
    (28, 4),
    (29, 1),
    (25, 1),
    (22, 2),
    (28, 4),
    (29, 3),
    (25, 1),
    (25, 2),
    (24, 2),
    (25, 1),
    (24, 1),
    (25, 0),
    (25, 1),
    (22, 2),
    (14, 2),
    (29, 1),
    (28, 4),
    (24, 0),
    (28, 4),
    (29, 2),
    (25, 1),
    (24, 2),
    (12, 0x58),
];

/// 28 and 29 do nothing to an idle card and in a transfer of the buffer; 25 and 24 turn one sort of
/// transfer into the other.
fn what_moves(seed: u64, all: &mut Vec<Case>) {
    for (number, opcode) in [0x10, 0xE4, 0xE8, 0x20, 0x30, 0xC4, 0xC5].into_iter().enumerate() {
        let mut host = small(Group::BlockFields.seed(seed, 40 + number), (number % 2) as u16);
        set_block(&mut host, 4);
        begin(&mut host, opcode, 6, 2, number % 2 == 0);
        for (field, value) in STEPS {
            host.set_field(field, value);
            probe(&mut host);
        }
        host.transfer(2, Style::Words);
        host.record(&[kinds::SHOW]);
        finish(format!("block-moves-{opcode:02X}"), host, all);
    }
}

// ---------------------------------------------------------------- by hand

/// Transfers made by hand, from every place of a block and with any number of sectors left: the mark is
/// set when the place comes round to 0.
fn by_hand(seed: u64, all: &mut Vec<Case>) {
    for (number, block) in BLOCKS.into_iter().enumerate() {
        for phase in 1..=2 {
            let seed = Group::BlockHands.seed(seed, 2 * number + phase);
            let mut host = small(seed, (phase % 2) as u16);
            for place in 0..block as u16 {
                for left in [1, 2, block as u16, 255, 256] {
                    one_by_hand(&mut host, phase as u16, block as u16, place, left);
                }
            }
            finish(format!("block-hand-{block}-{phase}"), host, all);
        }
    }
}

fn one_by_hand(host: &mut Host, phase: u16, block: u16, place: u16, left: u16) {
    host.put(7, 0x10);
    host.name_sector((left % 29) as usize, place.is_multiple_of(2));
    host.get(7);
    let fields = [(24, phase), (25, 1), (22, left), (14, left), (27, block), (28, block)];
    for (field, value) in fields.into_iter().chain([(29, place), (12, 0x58)]) {
        host.set_field(field, value);
    }
    for sector in 0..3 {
        last_word(host, Style::Words);
        if sector == 1 {
            host.get(7);
        }
    }
}
