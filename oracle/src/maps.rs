//! The register maps of 01: which place an address of a space names.

use crate::mutants::{on, Change};

#[derive(Clone, Copy, PartialEq, Eq, Debug)]
pub enum Mode {
    PcCard,
    TrueIde,
}

/// What an address stands for.
#[derive(Clone, Copy, PartialEq, Eq, Debug)]
pub enum Place {
    Tuple(usize),
    Option,
    /// An offset of the register file, 0..F without A, B, C.
    Register(u8),
}

pub const ATTRIBUTE: u8 = 0;
pub const MEMORY: u8 = 1;
pub const IO: u8 = 2;
pub const TRUE_IDE: u8 = 3;

/// The place of an address, or refusal 7 (the space is silent) or 6 (nothing there).
pub fn find(mode: Mode, index: u8, space: u8, address: u16) -> Result<Place, u8> {
    if !answers(mode, index, space) {
        return Err(7);
    }
    let place = match space {
        ATTRIBUTE => attribute(address),
        MEMORY => memory(address).map(Place::Register),
        IO => io(index, address).map(Place::Register),
        _ => pair(address, 0x000, 0x016).map(Place::Register),
    };
    place.ok_or(6)
}

/// Does the space answer in this mode, at this index?
pub fn answers(mode: Mode, index: u8, space: u8) -> bool {
    let pc = mode == Mode::PcCard;
    match space {
        ATTRIBUTE => pc || on(Change::AttributeInIde),
        MEMORY => pc && index == 0,
        IO => pc && (1..=3).contains(&index),
        TRUE_IDE => !pc,
        _ => false,
    }
}

fn attribute(address: u16) -> Option<Place> {
    match address {
        0x200 => Some(Place::Option),
        0x000..=0x1FE if address.is_multiple_of(2) => Some(Place::Tuple(address as usize / 2)),
        _ => None,
    }
}

fn memory(address: u16) -> Option<u8> {
    match address {
        0x000..=0x3FF => low_bits(address),
        0x400..=0x7FF if on(Change::WindowByLowBits) => low_bits(address),
        0x400..=0x7FF => Some(8 + (address % 2) as u8),
        _ => None,
    }
}

fn io(index: u8, address: u16) -> Option<u8> {
    match index {
        1 if address <= 0x7FF => low_bits(address),
        2 if on(Change::HighLinesIgnored) => pair(address & 0x3FF, 0x1F0, 0x3F6),
        2 => pair(address, 0x1F0, 0x3F6),
        3 => pair(address, 0x170, 0x376),
        _ => None,
    }
}

/// Register file by the low four bits; A, B and C name nothing.
fn low_bits(address: u16) -> Option<u8> {
    match (address & 15) as u8 {
        0xA..=0xC => None,
        offset => Some(offset),
    }
}

/// Eight registers from `first`, offsets E and F from `control`.
fn pair(address: u16, first: u16, control: u16) -> Option<u8> {
    if (first..first + 8).contains(&address) {
        Some((address - first) as u8)
    } else if (control..control + 2).contains(&address) {
        Some(0xE + (address - control) as u8)
    } else {
        None
    }
}
