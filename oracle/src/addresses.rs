//! Addresses: the sector that the registers name, how many remain from there, and the next one.

use crate::card::Card;
use crate::cover;
use crate::mutants::{on, Change};

/// A good address: its sector, and how many sectors remain from there, that one among them.
#[derive(Clone, Copy)]
pub struct Located {
    pub at: usize,
    pub remain: usize,
}

impl Card {
    pub fn cylinder(&self) -> u16 {
        u16::from_le_bytes([self.cyl_low, self.cyl_high])
    }

    fn set_cylinder(&mut self, c: u16) {
        [self.cyl_low, self.cyl_high] = c.to_le_bytes();
    }

    fn lba_number(&self) -> u32 {
        u32::from_le_bytes([self.sector, self.cyl_low, self.cyl_high, self.head & 0x0F])
    }

    /// The sector that the registers name and how many remain, or the code of the address error.
    pub fn locate(&self) -> Result<Located, u8> {
        let at = if self.lba() { self.locate_lba()? } else { self.locate_chs()? };
        Ok(Located { at, remain: self.remain(at) })
    }

    fn locate_lba(&self) -> Result<usize, u8> {
        let of = if on(Change::LbaByCurrent) { self.current } else { self.default };
        let lba = self.lba_number();
        if (lba as u64) < of.sectors() {
            Ok(lba as usize)
        } else {
            Err(0x2F)
        }
    }

    fn locate_chs(&self) -> Result<usize, u8> {
        let g = if on(Change::ChsByDefault) { self.default } else { self.current };
        let (c, h, s) = (self.cylinder(), (self.head & 0x0F) as u16, self.sector as u16);
        if on(Change::CylinderFirst) && c >= g.c {
            return Err(0x2F);
        }
        if h >= g.h || s < 1 || s > g.s {
            return Err(0x21);
        }
        if c >= g.c {
            return Err(0x2F);
        }
        Ok((c as usize * g.h as usize + h as usize) * g.s as usize + s as usize - 1)
    }

    /// "how many sectors remain from there to the end of the current capacity (CHS) or of the card
    /// (LBA)", that one among them.
    fn remain(&self, at: usize) -> usize {
        let of = match self.lba() {
            true if on(Change::LbaRemainsByCurrent) => self.current,
            true => self.default,
            false if on(Change::ChsRemainsByTotal) => self.default,
            false => self.current,
        };
        let remain = (of.sectors() as usize).saturating_sub(at);
        match remain {
            _ if on(Change::StartNotAmongRemaining) => remain - 1,
            _ if on(Change::OneMoreRemains) => remain + 1,
            _ if on(Change::RemainInByte) => remain & 0xFF,
            _ => remain,
        }
    }

    /// The next address: LBA by one; CHS advances sector, head, cylinder.
    pub fn advance(&mut self) {
        if self.lba() {
            let next = self.lba_number() + 1;
            cover::lba_carry(next);
            let [sector, low, high, head] = next.to_le_bytes();
            self.sector = sector;
            if !on(Change::NoLbaCarry) {
                (self.cyl_low, self.cyl_high) = (low, high);
            }
            self.head = self.head & 0xF0 | head & 0x0F;
            return;
        }
        if (self.sector as u16) < self.current.s {
            self.sector += 1;
            return;
        }
        self.sector = 1;
        self.advance_track();
    }

    fn advance_track(&mut self) {
        let h = (self.head & 0x0F) as u16;
        if h + 1 < self.current.h {
            self.head += 1;
            return;
        }
        self.head &= if on(Change::CylinderClearsDrive) { 0xE0 } else { 0xF0 };
        let high = self.cyl_high;
        self.set_cylinder(self.cylinder().wrapping_add(1));
        cover::cylinder_carry(high, self.cyl_high);
        if on(Change::NoCylinderCarry) {
            self.cyl_high = high;
        }
    }
}
