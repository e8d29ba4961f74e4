//! Runs of Verify and Erase, by 02's request Six: one past the end ends before its first sector.

use crate::addresses::Located;
use crate::card::{Card, Lent, FAILED, FAULT};
use crate::commands::{Row, ABRT, IDNF};
use crate::mutants::{on, Change};
use crate::points::Kept;

impl Card {
    /// "a run past the end": of more sectors than remain from a good start, whatever their marks.
    /// A bad start has none that remain; it ends the command as before.
    pub fn runs_past(&self, row: Row, lent: &Lent) -> bool {
        if !looks_at_remaining(row) {
            return false;
        }
        let sectors = match self.count {
            0 if on(Change::RunOfNone) => 0,
            _ => self.left as usize,
        };
        match self.locate() {
            Ok(start) => sectors > start.remain && !met_first(start, lent),
            Err(_) => on(Change::RunBeforeStart) && sectors as u64 > self.current.sectors(),
        }
    }

    /// "ends before its first sector with IDNF, 2FH, the registers unchanged": no sector, no mark,
    /// neither the number of bad sectors nor the buffer changes.
    pub fn end_past(&mut self, row: Row, lent: &mut Lent) {
        let marked =
            self.locate().is_ok_and(|start| marks_from(start, lent.marks).any(|mark| mark != 0));
        if row == Row::Erase && marked {
            self.keep_bad(Kept::ErasePast, lent);
        }
        let sectors = self.left as usize;
        let status = if on(Change::PastFaults) { FAULT } else { FAILED };
        let error = if on(Change::PastAborts) { ABRT } else { IDNF };
        let code = if on(Change::PastCode21) { 0x21 } else { 0x2F };
        self.fail(row, status, error, code);
        if let Ok(start) = self.locate() {
            self.change_registers(start, sectors);
            if row == Row::Erase {
                self.change_sectors(start, lent);
            }
        }
    }

    /// What small changes do to the registers and the buffer at that end.
    fn change_registers(&mut self, start: Located, sectors: usize) {
        if on(Change::PastUnmarked) {
            self.mark = false;
        }
        if on(Change::PastCountsNone) {
            self.count = 0;
        }
        if on(Change::PastCountsRest) {
            self.count = (sectors - start.remain) as u8;
        }
        if on(Change::PastNamesEnd) {
            (0..start.remain).for_each(|_| self.advance());
        }
        if on(Change::PastCutsHead) {
            self.head &= 0x5F;
        }
        if on(Change::PastFillsBuffer) {
            self.buffer = [0xFF; 512];
        }
    }

    /// What small changes do to the sectors of such an Erase.
    fn change_sectors(&mut self, start: Located, lent: &mut Lent) {
        let Located { at, remain } = start;
        if on(Change::PastErases) {
            lent.store[512 * at..512 * (at + remain)].fill(0xFF);
        }
        if on(Change::PastErasesFirst) {
            lent.store[512 * at..512 * at + 512].fill(0xFF);
        }
        if on(Change::PastClearsMarks) {
            lent.marks[at..at + remain].fill(0);
        }
        if on(Change::PastLowersBad) {
            self.lower_bad();
        }
    }
}

/// "Erase and Verify use it"; reads and writes keep 01's rule.
fn looks_at_remaining(row: Row) -> bool {
    match row {
        Row::Verify => !on(Change::VerifyRunUntested),
        Row::Erase => !on(Change::EraseRunUntested),
        Row::Read => on(Change::ReadRunTested),
        Row::Write => on(Change::WriteRunTested),
        Row::ReadMultiple | Row::WriteMultiple => on(Change::BlockRunTested),
        _ => false,
    }
}

/// The marks of the sectors that remain.
pub fn marks_from(start: Located, marks: &[u8]) -> impl Iterator<Item = u8> + '_ {
    marks.iter().skip(start.at).take(start.remain).copied()
}

/// A mark that a small change lets be met before the run is tested; the run then goes by 01's rule.
fn met_first(start: Located, lent: &Lent) -> bool {
    let mut marks = marks_from(start, lent.marks);
    let first = marks.next();
    on(Change::StartMarkBeforeRun) && first != Some(0)
        || on(Change::LaterMarkBeforeRun) && marks.any(|mark| mark != 0)
}
