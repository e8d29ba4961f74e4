//! Blocks of several sectors, by 02's request One: C6H sets the block, C4H and C5H go by it. Data,
//! sectors and error places are those of 20H and 30H; the interrupt mark is set once per block.

use crate::block_cover;
use crate::card::{Card, Lent, Phase, FAILED, FAULT};
use crate::commands::{Row, ABRT, IDNF, UNC};
use crate::mutants::{on, Change};

/// "a block of 1, 2, 4, 8 or 16 sectors".
pub const BLOCKS: [u8; 5] = [1, 2, 4, 8, 16];

/// The sectors left and the address registers at an error that is told late.
#[derive(Clone, Copy, Debug)]
pub struct Late {
    left: u16,
    address: [u8; 4],
}

fn taken(count: u8) -> bool {
    match count {
        0 => on(Change::BlockOfNone),
        1 => !on(Change::NoBlockOf1),
        3 => on(Change::BlockOf3),
        16 => !on(Change::NoBlockOf16),
        32 => on(Change::BlockOf32),
        255 => on(Change::BlockOf255),
        _ => BLOCKS.contains(&count),
    }
}

// ---------------------------------------------------------------- the commands

impl Card {
    /// C6H: "other counts, 0 included, give ABRT with 20H and keep the old block", or none.
    pub fn set_multiple(&mut self) {
        block_cover::set(self);
        if let Some(code) = self.locate().err().filter(|_| on(Change::SetTestsAddress)) {
            return self.fail(Row::SetMultiple, FAILED, IDNF, code);
        }
        let first = self.trace.started.filter(|_| on(Change::SetByFirstCount));
        let count = first.map_or(self.count, |sectors| sectors as u8);
        if !taken(count) {
            if on(Change::RefusedSetForgets) {
                self.block = 0;
            }
            let code = if on(Change::RefusedSetCode21) { 0x21 } else { 0x20 };
            return self.fail(Row::SetMultiple, FAILED, ABRT, code);
        }
        self.block = count.into();
        self.good(Row::SetMultiple);
        if on(Change::SetUnmarked) {
            self.mark = false;
        }
        if on(Change::SetClearsCount) {
            self.count = 0;
        }
    }

    /// C4H or C5H: "before the first good C6H give the same", whatever the address.
    pub fn block_command(&mut self, row: Row, lent: &mut Lent) {
        block_cover::begun(self, row);
        let address_first = match row {
            Row::ReadMultiple => on(Change::ReadAddressFirst),
            _ => on(Change::WriteAddressFirst),
        };
        let other = address_first && self.locate().is_err() || on(Change::NoBlockIsOne);
        if self.block == 0 && !other {
            self.fail(row, FAILED, ABRT, 0x20);
            if on(Change::NoBlockClearsCount) {
                self.count = 0;
            }
            return;
        }
        self.sector_command(row, lent);
    }
}

// ---------------------------------------------------------------- the mark

impl Card {
    /// A transfer of sectors begins: "once per block", which for 20H and 30H is once per sector.
    pub fn begin_block(&mut self, row: Row) {
        self.trace.multiple = row.by_blocks();
        let by_block = match row {
            Row::Read => on(Change::ReadByBlock),
            Row::Write => on(Change::WriteByBlock),
            _ => true,
        };
        self.stride = if by_block { self.block.max(1) } else { 1 };
        let at = self.locate().map_or(0, |found| found.at);
        self.place = match self.stride {
            stride if on(Change::BlocksFromZero) => (at % stride as usize) as u16,
            stride if on(Change::PlaceOutlives) => self.trace.place % stride,
            _ => 0,
        };
    }

    /// One more sector of the running block has moved; after its last one a new block begins.
    pub fn next_in_block(&mut self) {
        let next = self.place.saturating_add(1);
        self.place = if next < self.stride { next } else { 0 };
        if self.place > 0 && on(Change::InsideClearsMark) {
            self.mark = false;
        }
    }

    /// The present sector sets the mark: it is the first of its block, which may be partial.
    pub fn marks_block(&self) -> bool {
        let first = self.place == 0;
        if !self.in_blocks() {
            return first;
        }
        let last = !self.more_in_block();
        let partial = self.left < self.stride;
        match self.trace.done {
            _ if on(Change::EverySectorMarks) => true,
            _ if on(Change::LastSectorMarks) => last,
            _ if on(Change::PartialUnmarked) => first && !partial,
            1.. if on(Change::LaterBlockUnmarked) => false,
            1.. if on(Change::BlocksFromEnd) => self.left.is_multiple_of(self.stride),
            _ => first,
        }
    }

    /// C4H or C5H runs; for the coverage table and the small changes alone. A transfer made by hand
    /// goes by its stride.
    pub fn in_blocks(&self) -> bool {
        self.trace.multiple || self.stride > 1
    }

    pub fn reading(&self) -> Row {
        if self.in_blocks() {
            Row::ReadMultiple
        } else {
            Row::Read
        }
    }

    pub fn writing(&self) -> Row {
        if self.in_blocks() {
            Row::WriteMultiple
        } else {
            Row::Write
        }
    }
}

// ---------------------------------------------------------------- well made

impl Card {
    pub fn moves_sectors(&self) -> bool {
        self.running() && self.sectors
    }

    /// "Well-made cards have none or one of these", idle or not.
    pub fn block_fits(&self) -> bool {
        let unbound = on(Change::IdleBlockIgnored) && !self.moves_sectors();
        none_or_block(looked_at(self.block, Change::BlockByLowByte)) || unbound
    }

    /// "and one while C4H or C5H runs"; a 20H or 30H, of stride 1, wants none.
    pub fn stride_fits(&self) -> bool {
        let stride = looked_at(self.stride, Change::StrideByLowByte);
        let one = stride == 1 && (self.block == 0 || !on(Change::StrideIsBlock));
        !self.moves_sectors() || one || stride == self.block
    }

    /// "with fewer sectors of the running block moved than that", whatever is left.
    pub fn place_fits(&self) -> bool {
        let most = if on(Change::PlaceByBlock) { self.block.max(1) } else { self.stride };
        let tied = on(Change::PlaceTiedToLeft) && self.place.saturating_add(self.left) > 256;
        let place = looked_at(self.place, Change::PlaceByLowByte);
        !self.moves_sectors() || place < most && !tied
    }
}

/// A card can have this block; 0 is none.
pub fn none_or_block(block: u16) -> bool {
    block == 0 || BLOCKS.map(u16::from).contains(&block)
}

/// A number as a condition sees it: whole, or with a small change its low byte alone.
fn looked_at(number: u16, low_byte: Change) -> u16 {
    if on(low_byte) {
        number & 0xFF
    } else {
        number
    }
}

// ---------------------------------------------------------------- small changes

impl Card {
    /// The sectors that a running C4H or C5H had at its start; only a small change looks back.
    pub fn sectors_at_start(&self) -> Option<u16> {
        let runs = self.moves_sectors() && self.in_blocks();
        runs.then(|| self.left.saturating_add(self.trace.done))
    }

    /// A sector of the block that begins can't be read; only a small change looks ahead.
    pub fn bad_ahead(&self, at: usize, lent: &Lent) -> bool {
        let sectors = self.stride.min(self.left) as usize;
        let mut ahead = lent.marks.iter().skip(at).take(sectors);
        on(Change::BlockTestedAhead) && self.place == 0 && ahead.any(|mark| !matches!(mark, 0 | 2))
    }

    /// A fault inside a block that a small change passes over.
    pub fn passed_over(&self) -> bool {
        self.place > 0 && on(Change::InsideFaultPassed)
    }

    /// Stores the sectors of a block at its last byte, as a small change has it.
    pub fn store_block(&mut self, at: usize, bytes: &[u8; 512], lent: &mut Lent) {
        self.trace.waiting.push((at, *bytes));
        if self.more_in_block() {
            return;
        }
        for (at, bytes) in self.trace.waiting.drain(..) {
            lent.store[512 * at..512 * at + 512].copy_from_slice(&bytes);
        }
    }

    /// Another sector of the block comes after the present one.
    fn more_in_block(&self) -> bool {
        self.place.saturating_add(1) < self.stride && self.left > 1
    }

    /// An error at the present sector that a small change puts off to the end of the block.
    pub fn put_off(&mut self) -> bool {
        if !on(Change::RestOfBlockMoves) || !self.more_in_block() {
            return false;
        }
        self.trace.late.get_or_insert(Late {
            left: self.left,
            address: [self.sector, self.cyl_low, self.cyl_high, self.head],
        });
        true
    }

    /// After an error that was put off the block's other sectors move and are lost; the last one ends
    /// the command.
    pub fn ends_late(&mut self) -> bool {
        let Some(late) = self.trace.late else {
            return false;
        };
        if self.more_in_block() {
            self.left -= 1;
            self.count = self.left as u8;
            self.advance();
            self.next_in_block();
            return true;
        }
        self.count = late.left as u8;
        [self.sector, self.cyl_low, self.cyl_high, self.head] = late.address;
        match self.phase {
            Phase::In => self.fail(self.reading(), FAILED, UNC, 0x11),
            _ => self.fail(self.writing(), FAULT, ABRT, 0x03),
        }
        true
    }

    /// Status as a small change shows it between two blocks.
    pub fn shows_between(&self) -> bool {
        let between = self.place == 0 && self.words == 0 && self.trace.done > 0;
        on(Change::BetweenBlocksIdle) && between && self.stride > 1
    }
}
