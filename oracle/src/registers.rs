//! The register file: reads and writes, the two resets, and the data register.

use crate::block_cover::{self, Since};
use crate::card::{bad_sectors, moves, touch, Access, Card, Half, Lent, Moves, Phase, Touch, IDLE};
use crate::cover;
use crate::maps::Place;
use crate::mutants::{on, Change};
use crate::points::Kept;

impl Card {
    pub fn read(&mut self, place: Place, a: &Access, lent: &mut Lent) -> u16 {
        match place {
            Place::Tuple(i) => lent.tuples[i] as u16,
            Place::Option => self.option() as u16,
            Place::Register(offset) => self.read_register(offset, a, lent),
        }
    }

    pub fn write(&mut self, place: Place, a: &Access, lent: &mut Lent) {
        match place {
            Place::Tuple(_) => {}
            Place::Option => self.write_option(a.value as u8, lent),
            Place::Register(offset) => self.write_register(offset, a, lent),
        }
    }

    /// The Configuration Option Register reads as last written.
    pub fn option(&self) -> u8 {
        (self.sreset as u8) << 7 | self.setting
    }

    fn read_register(&mut self, offset: u8, a: &Access, lent: &mut Lent) -> u16 {
        cover::register(self, offset, a);
        if offset == 7 || offset == 0xE && on(Change::AlternateStatusClears) {
            self.mark = false;
        }
        if self.hold {
            return if a.width == 2 && !on(Change::HeldWordByte) { 0x8080 } else { 0x80 };
        }
        if let Some(touch) = touch(offset, a.width) {
            return self.read_data(touch, lent);
        }
        self.register(offset) as u16
    }

    fn register(&self, offset: u8) -> u8 {
        match offset {
            2 if on(Change::CountByBlock) => self.count.wrapping_add(self.place as u8),
            2 => self.count,
            3 => self.sector,
            4 => self.cyl_low,
            5 => self.cyl_high,
            6 => self.head | 0xA0,
            7 | 0xE if self.shows_between() => IDLE,
            7 | 0xE => self.status,
            0xF => self.drive_address(),
            _ => self.error,
        }
    }

    fn drive_address(&self) -> u8 {
        let writing = self.phase == Phase::Out && (self.sectors || !on(Change::BufferWriteGate));
        let writing = writing && !(on(Change::BlockWriteGate) && self.in_blocks());
        let drive_1 = self.head & 0x10 != 0;
        let head = (!self.head & 0x0F) << 2;
        let drive = if drive_1 { 0x01 } else { 0x02 };
        let gate = if writing { 0 } else { 0x40 };
        gate | head | drive
    }

    fn write_register(&mut self, offset: u8, a: &Access, lent: &mut Lent) {
        cover::register(self, offset, a);
        let value = a.value as u8;
        if offset == 0xE {
            return self.write_control(value, lent);
        }
        if self.hold {
            return;
        }
        if let Some(touch) = touch(offset, a.width) {
            return self.write_data(touch, a.value, lent);
        }
        match offset {
            7 => self.command(value, lent),
            2..=6 if !self.running() || on(Change::WritesWithDrq) => {
                self.set_register(offset, value)
            }
            _ => {}
        }
    }

    fn set_register(&mut self, offset: u8, value: u8) {
        match offset {
            2 => self.count = value,
            3 => self.sector = value,
            4 => self.cyl_low = value,
            5 => self.cyl_high = value,
            _ => self.head = value & 0x5F,
        }
    }
}

// ---------------------------------------------------------------- resets

impl Card {
    /// Entering a reset: the transfer ends with Status 50H, the mark is cleared. The number of
    /// bad sectors stays.
    fn enter_reset(&mut self) {
        if self.running() {
            self.status = IDLE;
        }
        self.stop_transfer();
        self.mark = false;
        if on(Change::EntryForgetsBlock) {
            self.block = 0;
        }
        if on(Change::ResetClearsBad) {
            self.bad = 0;
        }
    }

    fn write_option(&mut self, value: u8, lent: &Lent) {
        let setting = value & 0x7F;
        cover::option_write(self, value);
        match (self.sreset, value & 0x80 != 0) {
            (false, true) => {
                self.keep_bad(Kept::SresetEntered, lent);
                self.keep_dropped(Kept::DroppedBySreset, lent);
                self.enter_reset();
                self.sreset = true;
                self.setting = setting;
            }
            (true, false) => self.leave_sreset(setting, lent),
            _ => {
                block_cover::came(self, Since::Map);
                self.setting = setting;
            }
        }
        if on(Change::MapForgetsBlock) {
            self.block = 0;
        }
        if on(Change::MapEndsTransfer) && self.running() {
            self.enter_reset();
        }
    }

    fn leave_sreset(&mut self, setting: u8, lent: &Lent) {
        self.keep_bad(Kept::SresetLeft, lent);
        block_cover::forgets(self, Since::Sreset);
        let (hold, buffer, block) = (self.hold, self.buffer, self.block);
        self.power_on(if on(Change::SresetForgetsIndex) { 0 } else { setting });
        self.hold = hold && on(Change::SresetLeavesHold);
        if on(Change::SresetKeepsBlock) {
            self.block = block;
        }
        if on(Change::SresetLeavesBuffer) {
            self.buffer = buffer;
        }
        if on(Change::SresetClearsBad) {
            self.bad = 0;
        }
        if on(Change::SresetRecounts) {
            self.bad = bad_sectors(lent.marks);
        }
    }

    fn write_control(&mut self, value: u8, lent: &Lent) {
        cover::control_write(self, value);
        match (self.hold, value & 4 != 0) {
            (false, true) => {
                self.keep_bad(Kept::HoldEntered, lent);
                self.keep_dropped(Kept::DroppedByHold, lent);
                self.enter_reset();
                self.hold = true;
            }
            (true, false) => self.leave_hold(lent),
            _ => block_cover::came(self, Since::Mask),
        }
        self.mask = value & 2 != 0;
        if on(Change::MaskForgetsBlock) {
            self.block = 0;
        }
    }

    fn leave_hold(&mut self, lent: &Lent) {
        self.keep_bad(Kept::HoldLeft, lent);
        block_cover::forgets(self, Since::Hold);
        let (code, current, block) = (self.code, self.current, self.block);
        self.power_on_registers();
        self.hold = false;
        if on(Change::HoldKeepsBlock) {
            self.block = block;
        }
        if on(Change::HoldLeavesCode) {
            self.code = code;
        }
        if on(Change::HoldLeavesGeometry) {
            self.current = current;
        }
        if on(Change::HoldClearsBuffer) {
            self.buffer = [0; 512];
        }
        if on(Change::HoldClearsBad) {
            self.bad = 0;
        }
        if on(Change::HoldRecounts) {
            self.bad = bad_sectors(lent.marks);
        }
    }
}

// ---------------------------------------------------------------- data

impl Card {
    fn read_data(&mut self, touch: Touch, lent: &mut Lent) -> u16 {
        if self.phase != Phase::In {
            cover::no_transfer(false, self.phase, touch);
            return if touch == Touch::Word { 0xFFFF } else { 0xFF };
        }
        let Some(what) = moves(self.half, touch) else {
            return 0;
        };
        let at = 2 * self.words as usize;
        let (low, high) = (self.buffer[at] as u16, self.buffer[at + 1] as u16);
        self.moved(what, lent);
        match what {
            Moves::Low => low,
            Moves::High => high,
            Moves::Both => high << 8 | low,
        }
    }

    fn write_data(&mut self, touch: Touch, value: u16, lent: &mut Lent) {
        if self.phase != Phase::Out {
            return cover::no_transfer(true, self.phase, touch);
        }
        let Some(what) = moves(self.half, touch) else {
            return;
        };
        let at = 2 * self.words as usize;
        let [low, high] = value.to_le_bytes();
        match what {
            Moves::Low => self.buffer[at] = low,
            Moves::High => self.buffer[at + 1] = low,
            Moves::Both => self.buffer[at..at + 2].copy_from_slice(&[low, high]),
        }
        self.moved(what, lent);
    }

    /// Keeps account of what has moved; the second half of word 255 ends the sector.
    fn moved(&mut self, what: Moves, lent: &mut Lent) {
        let whole = what == Moves::Both || self.half != Half::Nothing;
        if !whole {
            self.half = if what == Moves::Low { Half::Low } else { Half::High };
            return;
        }
        self.half = Half::Nothing;
        self.word_shown(lent);
        self.words += 1;
        if self.words == 256 {
            self.words = 0;
            self.sector_moved(lent);
        }
    }
}
