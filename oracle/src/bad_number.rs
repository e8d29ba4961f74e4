//! The number of bad sectors, by 02's request Eight: what lowers it, and what keeps it.

use crate::block_cover;
use crate::card::{Card, Lent, Phase, Then};
use crate::commands::Row;
use crate::cover;
use crate::mutants::{on, Change};
use crate::points::Kept;

impl Card {
    /// A stored sector's mark, not yet 0: "writes and Erase can lower it". The stored mark decides;
    /// a sound sector's leaves it.
    pub fn cleared(&mut self, row: Row, mark: u8) {
        let lowers = match mark {
            0 => on(Change::SoundLowersBad),
            3.. => !on(Change::AboveLeavesBad),
            _ => true,
        };
        let left = match row {
            Row::Erase => on(Change::EraseLeavesBad),
            _ => on(Change::WriteLeavesBad) || on(Change::BadLoweredEarly),
        };
        if lowers && !left {
            self.lower_bad();
        }
    }

    /// "never below 0".
    pub fn lower_bad(&mut self) {
        self.trace.kept = None;
        self.trace.lowered += (self.bad > 0) as u16;
        self.bad = match self.bad {
            0 if on(Change::BadWraps) => u16::MAX,
            bad => bad.saturating_sub(1),
        };
    }

    /// The last byte of the sector that is being written would turn its mark into 0.
    pub fn would_clear(&self, lent: &Lent) -> bool {
        let writing = self.phase == Phase::Out && self.sectors;
        writing && self.locate().is_ok_and(|found| !matches!(lent.marks[found.at], 0 | 2))
    }

    /// The marks and the number as they are.
    pub fn then(&self, lent: &Lent) -> Then {
        Then { marks: lent.marks.to_vec(), bad: self.bad }
    }

    /// What keeps the number is about to be done; for the coverage table alone.
    pub fn keep_bad(&mut self, what: Kept, lent: &Lent) {
        cover::kept(what, self.bad, lent.marks);
        self.trace.kept = Some(what).filter(|what| what.shown());
    }

    /// The same of a write that is broken off where its last byte would lower it.
    pub fn keep_dropped(&mut self, what: Kept, lent: &Lent) {
        if self.would_clear(lent) {
            self.keep_bad(what, lent);
        }
    }

    /// The present word has moved; of Identify's words 47 and 129 the coverage table is told.
    pub fn word_shown(&mut self, lent: &Lent) {
        if self.phase != Phase::In || !self.trace.identity {
            return;
        }
        if self.words == 47 {
            block_cover::most_shown(self);
        }
        if self.words == 129 {
            cover::bad_shown(self, lent.marks);
            self.trace.told = Some(u16::from_le_bytes([self.buffer[258], self.buffer[259]]));
            self.trace.kept = None;
        }
    }
}
