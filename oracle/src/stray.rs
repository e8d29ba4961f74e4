//! Accesses beside a command: what leaves a transfer running, what is refused, any access at all.

use crate::card::{Access, Half, Phase};
use crate::host::{Form, Host};

/// Addresses at and around the ends of every map.
pub const EDGES: [u16; 74] = [
    0x000, 0x001, 0x002, 0x003, 0x004, 0x005, 0x006, 0x007, 0x008, 0x009, 0x00A, 0x00B, 0x00C,
    0x00D, 0x00E, 0x00F, 0x010, 0x014, 0x015, 0x016, 0x017, 0x018, 0x019, 0x16F, 0x170, 0x171,
    0x172, 0x173, 0x174, 0x175, 0x176, 0x177, 0x178, 0x1EF, 0x1F0, 0x1F1, 0x1F2, 0x1F3, 0x1F4,
    0x1F5, 0x1F6, 0x1F7, 0x1F8, 0x1FE, 0x1FF, 0x200, 0x201, 0x202, 0x204, 0x375, 0x376, 0x377,
    0x378, 0x3F0, 0x3F5, 0x3F6, 0x3F7, 0x3F8, 0x3FE, 0x3FF, 0x400, 0x401, 0x402, 0x5F0, 0x5F7,
    0x7F6, 0x7FD, 0x7FE, 0x7FF, 0x800, 0x808, 0x9F0, 0x8000, 0xFFFF,
];

impl Host {
    /// Something that leaves a running transfer running.
    pub fn disturb(&mut self) {
        match self.rng.below(12) {
            0 | 1 => drop(self.get(7)),
            2 => drop(self.get(0xE)),
            3 => self.read_some_register(),
            4 | 5 => self.write_some_register(),
            6 => self.against(),
            7 | 8 => self.refused(),
            9 => self.change_map(),
            10 => self.look_at_attributes(),
            _ => {
                let value = self.rng.byte() & !4;
                self.put(0xE, value);
            }
        }
    }

    /// Where something stands that is neither data nor Status nor Device Control.
    fn some_register(&mut self) -> u8 {
        let wide = self.wide_map() && self.rng.percent(15);
        if wide {
            0xD
        } else {
            self.rng.pick(&[1, 2, 3, 4, 5, 6, 0xF])
        }
    }

    fn read_some_register(&mut self) {
        let offset = self.some_register();
        self.get(offset);
    }

    /// While DRQ is set these have no effect.
    fn write_some_register(&mut self) {
        let offset = self.some_register();
        let value = self.rng.byte();
        self.put(offset, value);
    }

    /// A data access against the direction, or with no transfer at all.
    pub fn against(&mut self) {
        let write = match self.card.phase {
            Phase::In => true,
            Phase::Out => false,
            Phase::Idle => self.rng.flip(),
        };
        let wide = self.wide_map();
        let (offset, width) = match self.rng.below(3) {
            0 if wide => (9, 1),
            1 => (0, 2),
            _ => (if wide { 8 } else { 0 }, 1),
        };
        let (space, address) = self.at(offset);
        let value = if width == 1 { self.rng.byte() as u16 } else { self.rng.next() as u16 };
        self.access(Access { space, width, write, address, value: if write { value } else { 0 } });
    }

    /// An access that is refused, whatever the card's state.
    pub fn refused(&mut self) {
        match self.rng.below(6) {
            0 => self.misplaced_word(),
            1 | 2 if self.card.half != Half::Nothing => self.half_again(),
            3 => self.silent_space(),
            4 if !self.true_ide() => {
                let value = self.rng.byte() | 4;
                self.option(value);
            }
            5 if self.form == Form::Trial => self.odd_form(),
            _ => self.hole(),
        }
    }

    fn misplaced_word(&mut self) {
        let wide = self.wide_map();
        let offset =
            if wide { self.rng.pick(&[1, 9, 0xD, 7, 0xF]) } else { self.rng.pick(&[1, 7, 0xE]) };
        let (space, address) = self.at(offset);
        let (write, value) =
            if self.rng.flip() { (true, self.rng.next() as u16) } else { (false, 0) };
        self.access(Access { space, width: 2, write, address, value });
    }

    /// Refusal 11.
    pub fn half_again(&mut self) {
        let odd = self.card.half == Half::High && self.wide_map() && self.rng.flip();
        let (offset, width) = if odd { (9, 1) } else { (0, 2) };
        let (space, address) = self.at(offset);
        let write = self.card.phase == Phase::Out;
        let value = if write { self.rng.byte() as u16 } else { 0 };
        self.access(Access { space, width, write, address, value });
    }

    pub fn silent_space(&mut self) {
        let spaces: &[u8] = match (self.true_ide(), self.card.index()) {
            (true, _) => &[0, 1, 2],
            (_, 0) => &[2, 3],
            _ => &[1, 3],
        };
        let space = self.rng.pick(spaces);
        self.anywhere(space);
    }

    /// No register there.
    fn hole(&mut self) {
        let space = if self.true_ide() { 3 } else { self.rng.pick(&[0, 1, 2]) };
        let address = match space {
            0 => self.rng.pick(&[0x001, 0x1FF, 0x202, 0x204, 0x208, 0xFFFE]),
            3 => self.rng.pick(&[0x008, 0x009, 0x00E, 0x015, 0x018, 0x107]),
            _ => self.rng.pick(&[0x00A, 0x00B, 0x3FC, 0x800, 0x1F8, 0x16F, 0x5F0, 0x7F6, 0x570]),
        };
        self.simple(space, address);
    }

    /// An access that no session can hold: a space, width or byte value out of bounds.
    fn odd_form(&mut self) {
        let (space, address) = self.at(3);
        let mut a = Access { space, width: 1, write: true, address, value: 0x55 };
        match self.rng.below(3) {
            0 => a.space = 4 + self.rng.below(252) as u8,
            1 => a.width = self.rng.pick(&[0, 3, 4, 255]),
            _ => a.value = 0x100 + self.rng.below(0xFF00) as u16,
        }
        a.write = a.value > 0xFF || self.rng.flip();
        self.access(a);
    }

    /// An access of any form to an address at an edge.
    pub fn anywhere(&mut self, space: u8) {
        let address = self.rng.pick(&EDGES);
        self.simple(space, address);
    }

    pub fn simple(&mut self, space: u8, address: u16) {
        let width = 1 + self.rng.below(2) as u8;
        let write = self.rng.flip();
        let value = if width == 1 { self.some_byte() as u16 } else { self.rng.next() as u16 };
        self.access(Access { space, width, write, address, value: if write { value } else { 0 } });
    }

    /// Any byte; sometimes one that says something of blocks, as a Count or as a command.
    fn some_byte(&mut self) -> u8 {
        if self.rng.percent(15) {
            self.rng.pick(&[1, 2, 4, 8, 16, 0xC4, 0xC5, 0xC6])
        } else {
            self.rng.byte()
        }
    }

    /// Any access at all, even one that ends a transfer.
    pub fn random_access(&mut self) {
        let space = self.rng.below(4) as u8;
        if self.rng.percent(10) {
            let address = self.rng.next() as u16;
            return self.simple(space, address);
        }
        self.anywhere(space);
    }

    pub fn change_map(&mut self) {
        if self.true_ide() {
            return self.refused();
        }
        let value = self.rng.below(4) as u8 | if self.rng.percent(20) { 0x40 } else { 0 };
        self.option(value);
    }

    fn look_at_attributes(&mut self) {
        let address = self.rng.pick(&[0x000, 0x002, 0x0FE, 0x1FC, 0x1FE, 0x200, 0x200, 0x200]);
        self.access(Access { space: 0, width: 1, write: false, address, value: 0 });
    }
}
