//! What makes a card value well made; one that is not gets refusal 12.

use crate::card::{Card, DATA, FAILED, FAULT, IDLE};
use crate::cover;
use crate::maps::Mode;
use crate::mutants::{on, Change};

/// 01's list of what makes a card well made, and what 02 adds to it.
#[derive(Clone, Copy, PartialEq, Eq, Debug)]
pub enum Condition {
    /// The geometry fits the limits.
    Default,
    /// Current H is 1..16.
    Heads,
    /// Current S is 1..255.
    Track,
    /// Current C is N div (H·S), at least 1.
    Cylinders,
    /// The map index is 0..3.
    Index,
    /// SRESET is not set in mode 1.
    Sreset,
    /// Status is 58H exactly in a transfer.
    Status,
    /// No transfer in a held reset.
    Held,
    /// Words moved are 0..255.
    Words,
    /// A sector transfer's address and count.
    Sectors,
    /// The number of bad sectors is at most N.
    Bad,
    /// The block is none, 1, 2, 4, 8 or 16.
    Block,
    /// A sector transfer's stride is 1 or the block.
    Stride,
    /// Fewer sectors of the running block have moved than the stride.
    Place,
}

const CONDITIONS: [Condition; 14] = [
    Condition::Default,
    Condition::Heads,
    Condition::Track,
    Condition::Cylinders,
    Condition::Index,
    Condition::Sreset,
    Condition::Status,
    Condition::Held,
    Condition::Words,
    Condition::Sectors,
    Condition::Bad,
    Condition::Block,
    Condition::Stride,
    Condition::Place,
];

/// Conditions that a small change does not look at.
const IGNORED: [(Condition, Change); 6] = [
    (Condition::Status, Change::StatusIgnored),
    (Condition::Sectors, Change::SectorsIgnored),
    (Condition::Bad, Change::BadIgnored),
    (Condition::Block, Change::BlockIgnored),
    (Condition::Stride, Change::StrideIgnored),
    (Condition::Place, Change::PlaceIgnored),
];

impl Card {
    fn holds(&self, condition: Condition) -> bool {
        match condition {
            Condition::Default => self.default.fits(),
            Condition::Heads => (1..=16).contains(&self.current.h),
            Condition::Track => (1..=255).contains(&self.current.s),
            Condition::Cylinders => self.current_c_agrees(),
            Condition::Index => self.index() <= 3,
            Condition::Sreset => !(self.sreset && self.mode == Mode::TrueIde),
            Condition::Status => self.status_agrees(),
            Condition::Held => !self.running() || !(self.sreset || self.hold),
            Condition::Words => !self.running() || self.words <= 255,
            Condition::Sectors => self.sectors_agree(),
            Condition::Bad => self.bad_fits(),
            Condition::Block => self.block_fits(),
            Condition::Stride => self.stride_fits(),
            Condition::Place => self.place_fits(),
        }
    }

    pub fn well_made(&self) -> bool {
        if CONDITIONS.into_iter().all(|c| self.holds(c)) {
            return true;
        }
        let broken: Vec<Condition> = CONDITIONS.into_iter().filter(|&c| !self.holds(c)).collect();
        if let [only] = broken[..] {
            cover::condition(only, self);
        }
        IGNORED.into_iter().any(|(only, change)| broken == [only] && on(change))
    }

    fn current_c_agrees(&self) -> bool {
        let track = self.current.h as u64 * self.current.s as u64;
        // A track of no sectors breaks the conditions on H and S, not this one.
        track == 0 || {
            let c = self.default.sectors() / track;
            c >= 1 && c == self.current.c as u64
        }
    }

    fn status_agrees(&self) -> bool {
        match self.running() {
            true => self.status == DATA,
            false => matches!(self.status, IDLE | FAILED | FAULT),
        }
    }

    fn sectors_agree(&self) -> bool {
        !(self.running() && self.sectors)
            || (self.locate().is_ok()
                && (1..=256).contains(&self.left)
                && self.left % 256 == self.count as u16)
    }

    /// "at most N", whatever the marks and the current geometry are.
    fn bad_fits(&self) -> bool {
        let of = if on(Change::BadByCurrent) { self.current } else { self.default };
        let bad = self.bad as u64 + on(Change::BadBelowTotal) as u64;
        bad <= of.sectors()
    }
}
