//! Identify: its words, by 01 and by what 02 adds to them.

use crate::card::{bad_sectors, Card, Geometry, Lent};
use crate::commands::Row;
use crate::cover;
use crate::mutants::{on, Change};

impl Card {
    pub fn identify(&mut self, lent: &Lent) {
        let bad = if on(Change::IdentifyRecounts) { bad_sectors(lent.marks) } else { self.bad };
        for (i, word) in self.identify_words(bad).into_iter().enumerate() {
            self.buffer[2 * i..2 * i + 2].copy_from_slice(&word.to_le_bytes());
        }
        self.offer(true);
        self.trace.identity = true;
        cover::identify();
    }

    pub fn identify_was_read(&mut self) {
        cover::identified(self);
        self.trace.shown = Some(self.current);
        self.good_read(Row::Identify);
    }

    fn identify_words(&self, bad: u16) -> [u16; 256] {
        let mut w = self.plain_words(self.current, bad);
        let summed = if on(Change::IntegrityByDefault) {
            self.plain_words(self.default, bad)
        } else if on(Change::IntegrityWithoutBad) {
            self.plain_words(self.current, 0)
        } else if on(Change::IntegrityWithoutMost) {
            let mut without = w;
            without[47] = 0;
            without
        } else {
            w
        };
        w[255] = integrity(&summed[..255]);
        w
    }

    /// The words of 01 for this current geometry and those of 02: word 47, the most sectors of a
    /// block, and 129 for so many bad sectors; word 255 is still 0.
    fn plain_words(&self, now: Geometry, bad: u16) -> [u16; 256] {
        let mut w = [0u16; 256];
        let all = self.default;
        let n = all.sectors() as u32;
        let capacity = now.sectors() as u32;
        let high = |x: u32| (x >> 16) as u16;
        let low = |x: u32| x as u16;
        w[0] = 0x848A;
        (w[1], w[3], w[6]) = (all.c, all.h, all.s);
        (w[7], w[8]) = if on(Change::TotalSwapped) { (low(n), high(n)) } else { (high(n), low(n)) };
        for blank in (10..=19).chain(23..=46) {
            w[blank] = 0x2020;
        }
        w[47] = match self.block {
            _ if on(Change::MostIsZero) => 0,
            block if on(Change::MostIsBlock) => block,
            _ if on(Change::MostFlagged) => 0x8010,
            _ => 0x0010,
        };
        if on(Change::BlockInWord59) {
            w[59] = self.block;
        }
        w[49] = 0x0200;
        w[53] = 1;
        (w[54], w[55], w[56]) = (now.c, now.h, now.s);
        (w[57], w[58]) = if on(Change::CapacityIsTotal) {
            (low(n), high(n))
        } else {
            (low(capacity), high(capacity))
        };
        (w[60], w[61]) = (low(n), high(n));
        w[if on(Change::BadInWord128) { 128 } else { 129 }] = match bad {
            _ if on(Change::BadByLowByte) => bad & 0xFF,
            _ if on(Change::BadSwapped) => bad.swap_bytes(),
            _ => bad,
        };
        w
    }
}

/// Word 255 after these words: "low byte A5H, and the high byte such that all 512 bytes, summed
/// with wrap-around in eight bits, give 0". So the high byte fills the sum up to a multiple of 256.
fn integrity(words: &[u16]) -> u16 {
    const LOW: u8 = 0xA5;
    let bytes = words.iter().flat_map(|word| word.to_le_bytes());
    let first = on(Change::IntegrityWithoutFirst) as usize;
    let low = if on(Change::IntegrityWithoutLow) { 0 } else { LOW };
    let sum: u32 = bytes.skip(first).chain([low]).map(u32::from).sum();
    let high = match sum.next_multiple_of(256) - sum {
        _ if on(Change::IntegrityIsSum) => sum as u8,
        0 if on(Change::IntegrityNeverZero) => 0xFF,
        fill => fill as u8,
    };
    u16::from_le_bytes(if on(Change::IntegritySwapped) { [high, LOW] } else { [LOW, high] })
}
