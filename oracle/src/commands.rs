//! The commands of 01's table, and what follows the last byte of a sector.

use crate::addresses::Located;
use crate::block_cover;
use crate::card::{bad_sectors, Card, Geometry, Lent, Phase, DATA, FAILED, FAULT, IDLE};
use crate::cover;
use crate::mutants::{on, Change};
use crate::points::Kept;
use crate::run_cover;

pub const ABRT: u8 = 0x04;
pub const IDNF: u8 = 0x10;
pub const UNC: u8 = 0x40;

/// The rows of the command table.
#[derive(Clone, Copy, PartialEq, Eq, Hash, Debug)]
pub enum Row {
    Read,
    Write,
    ReadMultiple,
    WriteMultiple,
    Verify,
    Erase,
    Identify,
    ReadBuffer,
    WriteBuffer,
    SetMultiple,
    Parameters,
    Diagnose,
    Recalibrate,
    Seek,
    Sense,
    Other,
}

impl Row {
    /// Does the command look at the address registers?
    pub fn addressed(self) -> bool {
        self.reads() || self.writes() || matches!(self, Row::Verify | Row::Erase | Row::Seek)
    }

    /// Does it read sectors, moving data?
    pub fn reads(self) -> bool {
        matches!(self, Row::Read | Row::ReadMultiple)
    }

    /// Does it write sectors, moving data?
    pub fn writes(self) -> bool {
        matches!(self, Row::Write | Row::WriteMultiple)
    }

    /// Does it go by the block that C6H has set?
    pub fn by_blocks(self) -> bool {
        matches!(self, Row::ReadMultiple | Row::WriteMultiple)
    }
}

pub fn row(opcode: u8) -> Row {
    match opcode {
        0x20 | 0x21 => Row::Read,
        0x30 | 0x31 => Row::Write,
        0xC4 => Row::ReadMultiple,
        0xC5 => Row::WriteMultiple,
        0xC6 => Row::SetMultiple,
        0x40 | 0x41 => Row::Verify,
        0xC0 => Row::Erase,
        0xEC => Row::Identify,
        0xE4 => Row::ReadBuffer,
        0xE8 => Row::WriteBuffer,
        0x91 => Row::Parameters,
        0x90 => Row::Diagnose,
        0x10..=0x1F => Row::Recalibrate,
        0x70..=0x7F => Row::Seek,
        0x03 => Row::Sense,
        _ => Row::Other,
    }
}

impl Card {
    /// A Command write outside a hold.
    pub fn command(&mut self, opcode: u8, lent: &mut Lent) {
        let row = row(opcode);
        cover::command(self, opcode, row);
        if on(Change::DropStores) && self.phase == Phase::Out && self.sectors {
            self.store_buffer(lent);
        }
        if on(Change::SetInTransferLost) && row == Row::SetMultiple && self.running() {
            return;
        }
        self.keep_dropped(Kept::Dropped, lent);
        if on(Change::DropLowersBad) && self.would_clear(lent) {
            self.lower_bad();
        }
        self.mark = false;
        self.trace.started = self.sectors_at_start();
        self.trace.begin(self.phase);
        self.stop_transfer();
        self.carry_out(row, lent);
        block_cover::commanded(self, row);
    }

    fn carry_out(&mut self, row: Row, lent: &mut Lent) {
        if row == Row::Sense {
            return self.sense();
        }
        if row != Row::Recalibrate || !on(Change::RecalibrateLeavesError) {
            self.error = 0;
        }
        self.code = 0;
        match row {
            Row::Read | Row::Write | Row::Verify | Row::Erase => self.sector_command(row, lent),
            Row::ReadMultiple | Row::WriteMultiple => self.block_command(row, lent),
            Row::SetMultiple => self.set_multiple(),
            Row::Identify => self.identify(lent),
            Row::ReadBuffer => self.offer(true),
            Row::WriteBuffer => self.ask(),
            Row::Parameters => self.parameters(lent),
            Row::Diagnose => self.diagnose(lent),
            Row::Seek => self.seek(),
            Row::Recalibrate => self.good(row),
            Row::Other | Row::Sense => self.fail(row, FAILED, ABRT, 0x20),
        }
    }

    /// A command's good end that is not the good end of reading data.
    pub fn good(&mut self, row: Row) {
        self.end(row, 0, 0);
        self.status = IDLE;
        self.mark = true;
    }

    pub fn fail(&mut self, row: Row, status: u8, error: u8, code: u8) {
        let unmarked = self.place > 0 && on(Change::InsideErrorUnmarked);
        if on(Change::ErrorForgetsBlock) {
            self.block = 0;
        }
        self.error = error;
        self.code = code;
        self.end(row, error, code);
        self.status = status;
        self.mark |= !unmarked;
    }

    fn end(&mut self, row: Row, error: u8, code: u8) {
        cover::end(row, self.lba(), error, code);
        cover::lowered(row, self.trace.lowered, error, code);
        run_cover::ended(row, self.lba(), self.trace.done, error, code);
        block_cover::ended(self, row, error, code);
        self.trace.lowered = 0;
        self.trace.done = 0;
        self.stop_transfer();
    }

    /// The buffer becomes ready for the host to read, and this may set the mark.
    pub fn offer(&mut self, marks: bool) {
        self.trace.identity = false;
        self.phase = Phase::In;
        self.words = 0;
        self.status = DATA;
        self.mark |= marks;
    }

    /// The host is asked for the buffer's content.
    fn ask(&mut self) {
        self.phase = Phase::Out;
        self.words = 0;
        self.status = DATA;
    }

    fn sense(&mut self) {
        self.error = self.code;
        cover::sense(self.code);
        if on(Change::SenseClearsCode) {
            self.code = 0;
        }
        let status = self.status;
        self.stop_transfer();
        self.status = if on(Change::SenseLeavesStatus) { status } else { IDLE };
        self.mark = true;
        cover::end(Row::Sense, false, 0, 0);
    }

    fn diagnose(&mut self, lent: &Lent) {
        self.keep_bad(Kept::Diagnose, lent);
        self.count = 1;
        self.sector = 1;
        self.cyl_low = 0;
        self.cyl_high = 0;
        self.head &= if on(Change::DiagnoseLeavesLba) { 0x40 } else { 0 };
        if on(Change::DiagnoseForgetsBlock) {
            self.block = 0;
        }
        if on(Change::DiagnoseForgetsGeometry) {
            self.current = self.default;
        }
        if on(Change::DiagnoseClearsBad) {
            self.bad = 0;
        }
        if on(Change::DiagnoseRecounts) {
            self.bad = bad_sectors(lent.marks);
        }
        self.good(Row::Diagnose);
        self.error = 1;
    }

    fn parameters(&mut self, lent: &Lent) {
        let s = self.count as u16;
        let h = (self.head & 0x0F) as u16 + 1;
        let track = (h * s) as u64;
        let all = if on(Change::ParametersByCurrent) { self.current } else { self.default };
        if s == 0 || track > all.sectors() {
            self.keep_bad(Kept::ParametersRefused, lent);
            return self.fail(Row::Parameters, FAILED, ABRT, 0x21);
        }
        self.keep_bad(Kept::Parameters, lent);
        if on(Change::ParametersRecount) {
            self.bad = bad_sectors(lent.marks);
        }
        if on(Change::ParametersForgetBlock) {
            self.block = 0;
        }
        let c = (self.default.sectors() / track) as u16;
        self.current = Geometry::new(c, h, s);
        self.good(Row::Parameters);
    }

    fn seek(&mut self) {
        let test = if self.lba() { self.locate().map(|_| ()) } else { self.track() };
        match test {
            Ok(()) => self.good(Row::Seek),
            Err(code) => self.fail(Row::Seek, FAILED, IDNF, code),
        }
    }

    /// Seek's test in CHS: head and cylinder only.
    fn track(&self) -> Result<(), u8> {
        if on(Change::SeekBySector) {
            return self.locate().map(|_| ());
        }
        if (self.head & 0x0F) as u16 >= self.current.h {
            Err(0x21)
        } else if self.cylinder() >= self.current.c {
            Err(0x2F)
        } else {
            Ok(())
        }
    }
}

// ---------------------------------------------------------------- sector commands

impl Card {
    pub fn sector_command(&mut self, row: Row, lent: &mut Lent) {
        self.left = match self.count {
            0 if on(Change::CountZeroIsOne) => 1,
            0 => 256,
            n if on(Change::CountInBlocks) && row.by_blocks() => n as u16 * self.block,
            n => n as u16,
        };
        run_cover::begun(self, row, lent.marks);
        if self.runs_past(row, lent) {
            return self.end_past(row, lent);
        }
        match row {
            _ if row.reads() => self.read_first(row, lent),
            _ if row.writes() => self.ask_first(row, lent),
            _ => while self.quiet_sector(row, lent) {},
        }
    }

    fn read_first(&mut self, row: Row, lent: &mut Lent) {
        self.begin_block(row);
        if on(Change::ReadForgetsBlock) && row == Row::Read {
            self.block = 0;
        }
        self.read_sector(lent);
    }

    /// Makes the present sector ready to be read, or ends in error.
    fn read_sector(&mut self, lent: &mut Lent) {
        let Some(at) = self.sound(self.reading(), lent) else {
            return;
        };
        self.buffer.copy_from_slice(&lent.store[512 * at..512 * at + 512]);
        self.sectors = true;
        block_cover::asked(self, self.reading());
        self.offer(self.marks_block());
    }

    fn ask_first(&mut self, row: Row, lent: &Lent) {
        self.begin_block(row);
        self.mark |= on(Change::FirstBlockMarks) && row == Row::WriteMultiple;
        self.trace.given = self.then(lent);
        self.trace.first = true;
        self.ask_sector(lent);
    }

    /// Asks for the present sector of a write, if there is such a sector.
    fn ask_sector(&mut self, lent: &Lent) {
        match self.locate() {
            Err(code) => self.fail(self.writing(), FAILED, IDNF, code),
            Ok(_) => {
                self.sectors = true;
                block_cover::asked(self, self.writing());
                self.ask();
                self.trace.asked = self.then(lent);
                if on(Change::BadLoweredEarly) && self.would_clear(lent) {
                    self.lower_bad();
                }
            }
        }
    }

    /// One sector of Verify or Erase; true if there is more to do.
    fn quiet_sector(&mut self, row: Row, lent: &mut Lent) -> bool {
        let done = match row {
            Row::Erase => self.erase_sector(lent),
            _ => self.sound(row, lent).is_some(),
        };
        done && !self.one_done(row)
    }

    fn erase_sector(&mut self, lent: &mut Lent) -> bool {
        let at = match self.locate() {
            Ok(found) => found.at,
            Err(code) => {
                self.fail(Row::Erase, FAILED, IDNF, code);
                return false;
            }
        };
        if on(Change::EraseByBuffer) {
            self.buffer = [0xFF; 512];
        }
        self.put_sector(Row::Erase, at, &[0xFF; 512], lent)
    }

    /// The present sector's place if its address and then its mark let it be read.
    fn sound(&mut self, row: Row, lent: &Lent) -> Option<usize> {
        match self.locate() {
            Err(code) => self.fail(row, FAILED, IDNF, code),
            Ok(Located { at, .. }) => {
                cover::mark(row, lent.marks[at]);
                let bad = match lent.marks[at] {
                    0 => false,
                    2 => on(Change::MarkTwoUnreadable),
                    1 => true,
                    _ => !on(Change::MarkAboveSound),
                };
                if !bad && !self.bad_ahead(at, lent) || self.passed_over() || self.put_off() {
                    return Some(at);
                }
                self.keep_bad(Kept::Unreadable, lent);
                self.unreadable(row);
            }
        }
        None
    }

    fn unreadable(&mut self, row: Row) {
        if on(Change::FailedReadClears) {
            self.buffer = [0; 512];
        }
        if on(Change::UnreadableRaisesBad) {
            self.bad = self.bad.saturating_add(1);
        }
        self.fail(row, FAILED, UNC, 0x11);
    }

    /// Stores one sector and sets its mark to 0, or ends with a write fault.
    fn put_sector(&mut self, row: Row, at: usize, bytes: &[u8; 512], lent: &mut Lent) -> bool {
        let mark = lent.marks[at];
        cover::mark(row, mark);
        cover::stored(row, mark, self.bad, lent.marks);
        cover::changed(&self.trace, at, mark);
        let [faulting, clearing] = self.deciding(at, mark);
        if faulting == 2 && self.put_off() {
            return true;
        }
        if faulting == 2 && !self.passed_over() {
            if on(Change::FaultLowersBad) {
                self.lower_bad();
            }
            self.fail(row, FAULT, ABRT, 0x03);
            return false;
        }
        if on(Change::BlockStoredWhole) {
            self.store_block(at, bytes, lent);
        } else {
            lent.store[512 * at..512 * at + 512].copy_from_slice(bytes);
        }
        self.cleared(row, clearing);
        if !on(Change::WriteLeavesMark) {
            lent.marks[at] = 0;
        }
        true
    }

    /// The marks that decide the write fault and the number of bad sectors: for both the one that
    /// stands there when the sector is stored, "a write's mark at its last byte".
    fn deciding(&self, at: usize, mark: u8) -> [u8; 2] {
        let [given, asked] = [&self.trace.given, &self.trace.asked]
            .map(|then| then.marks.get(at).copied().unwrap_or(mark));
        if on(Change::BadByAskedMark) {
            [mark, asked]
        } else if on(Change::FaultByAskedMark) {
            [asked, mark]
        } else if on(Change::WriteByGivenMark) {
            [given; 2]
        } else {
            [mark; 2]
        }
    }

    /// Counts one sector as done. At the last one the command ends well and this is
    /// true; else the registers name the next sector.
    fn one_done(&mut self, row: Row) -> bool {
        self.left = self.left.saturating_sub(1);
        self.trace.done = self.trace.done.saturating_add(1);
        self.count = self.left as u8;
        if self.left == 0 {
            self.good_sectors(row);
            return true;
        }
        self.advance();
        false
    }

    fn good_sectors(&mut self, row: Row) {
        if on(Change::EndNamesNext) {
            self.advance();
        }
        if on(Change::EndForgetsBlock) && row.by_blocks() {
            self.block = 0;
        }
        if self.leaves_mark(row) {
            self.good_read(row);
        } else {
            self.good(row);
        }
    }

    /// "except a good end of reading data".
    fn leaves_mark(&self, row: Row) -> bool {
        match row {
            Row::Read => !on(Change::ReadEndMarks),
            Row::ReadMultiple => !on(Change::BlockReadEndMarks),
            Row::WriteMultiple => on(Change::BlockWriteEndUnmarked),
            Row::Verify => on(Change::VerifyEndUnmarked),
            _ => false,
        }
    }

    /// The good end of reading data leaves the mark as it is.
    pub fn good_read(&mut self, row: Row) {
        self.end(row, 0, 0);
        self.status = IDLE;
    }
}

// ---------------------------------------------------------------- the last byte

impl Card {
    /// All 512 bytes of the present sector or buffer have moved.
    pub fn sector_moved(&mut self, lent: &mut Lent) {
        block_cover::moved(self);
        if self.ends_late() {
            return;
        }
        match (self.phase, self.sectors) {
            (Phase::In, true) => self.sector_was_read(lent),
            (Phase::Out, true) => self.sector_was_written(lent),
            (Phase::In, false) if self.trace.identity => self.identify_was_read(),
            (Phase::In, false) => self.good_read(Row::ReadBuffer),
            _ => self.good(Row::WriteBuffer),
        }
    }

    fn sector_was_read(&mut self, lent: &mut Lent) {
        if !self.one_done(self.reading()) {
            self.next_in_block();
            self.read_sector(lent);
        }
    }

    fn sector_was_written(&mut self, lent: &mut Lent) {
        if self.store_buffer(lent) && !self.one_done(self.writing()) {
            self.trace.first = false;
            self.next_in_block();
            // The first sector of a second or later block is asked for; an error end sets the mark
            // as well.
            let marks = self.marks_block() && !on(Change::SecondSectorUnmarked);
            self.ask_sector(lent);
            self.mark |= marks;
        }
    }

    fn store_buffer(&mut self, lent: &mut Lent) -> bool {
        let bytes = self.buffer;
        match self.locate() {
            Ok(found) => self.put_sector(self.writing(), found.at, &bytes, lent),
            Err(_) => false,
        }
    }
}
