//! Runs of Verify and Erase in the coverage table: their points by name, what reaches them, and the
//! rows of the table.

use crate::addresses::Located;
use crate::card::Card;
use crate::commands::Row;
use crate::cover::{ending, hit, hit_all, sort, By};
use crate::cover_table::{by, can_end, row, Reached, PHASES};
use crate::names::named;
use crate::points::{sector_commands, Ending, Mark, Point};
use crate::runs::marks_from;

named! {
    /// How far a run from a good start goes, beside what remains.
    Length {
        Short: "short of the end",
        ToEnd: "to the end",
        All: "from the first sector to the end",
        Last: "the last sector alone",
        OnePast: "one past the end",
        FarPast: "two or more past it",
        AllPast: "past it from the first sector",
        LastPast: "past it from the last sector",
        MostShort: "256, short of the end",
        MostToEnd: "256, to the end",
        MostAll: "256, from the first sector to the end",
        MostOnePast: "256, one past it",
        MostPast: "256, past it",
        Between: "past the current capacity, inside the card",
        SmallerToEnd: "to the end, current capacity below N",
        SmallerOnePast: "one past it, current capacity below N",
    }
}

impl Length {
    /// Takes a card of 255 sectors or more.
    fn large(self) -> bool {
        matches!(
            self,
            Length::MostShort | Length::MostToEnd | Length::MostAll | Length::MostOnePast
        )
    }
}

named! {
    /// The first sector of a run past the end whose mark is not 0: the run's first, or a later one.
    Marked {
        First: "first",
        Later: "later",
    }
}

// ---------------------------------------------------------------- what reaches them

/// A sector command begins; of Verify and Erase the run is told.
pub fn begun(card: &Card, command: Row, marks: &[u8]) {
    if !matches!(command, Row::Verify | Row::Erase) {
        return;
    }
    match card.locate() {
        Err(code) => bad_start(card, command, code),
        Ok(start) => {
            length(card, command, start);
            if card.left as usize > start.remain {
                past(card, command, start, marks);
            }
        }
    }
}

/// "A bad start", told of a run that is longer than the card.
fn bad_start(card: &Card, command: Row, code: u8) {
    if card.left as u64 > card.default.sectors() {
        hit(Point::BadStart(command, ending(0x10, code), card.lba()));
    }
}

fn length(card: &Card, command: Row, start: Located) {
    let (sectors, remain) = (card.left as usize, start.remain);
    let (capacity, n) = (card.current.sectors() as usize, card.default.sectors() as usize);
    let end = start.at + sectors;
    let smaller = capacity < n;
    let (most, from_first) = (sectors == 256, start.at == 0);
    hit_all(
        |length| Point::Length(command, length, card.lba()),
        [
            (Length::Short, sectors < remain),
            (Length::ToEnd, sectors == remain),
            (Length::All, sectors == remain && from_first && remain > 1),
            (Length::Last, sectors == remain && remain == 1),
            (Length::OnePast, sectors == remain + 1),
            (Length::FarPast, sectors > remain + 1),
            (Length::AllPast, sectors > remain && from_first && remain > 1),
            (Length::LastPast, sectors > remain && remain == 1),
            (Length::MostShort, most && sectors < remain),
            (Length::MostToEnd, most && sectors == remain),
            (Length::MostAll, most && sectors == remain && from_first),
            (Length::MostOnePast, most && sectors == remain + 1),
            (Length::MostPast, most && sectors > remain + 1),
            (Length::Between, capacity < end && end <= n),
            (Length::SmallerToEnd, smaller && sectors == remain),
            (Length::SmallerOnePast, smaller && sectors == remain + 1),
        ],
    );
}

fn past(card: &Card, command: Row, start: Located, marks: &[u8]) {
    let mut marks = marks_from(start, marks).enumerate();
    if let Some((before, mark)) = marks.find(|&(_, mark)| mark != 0) {
        let marked = if before == 0 { Marked::First } else { Marked::Later };
        hit(Point::PastMark(command, marked, sort(mark), card.lba()));
    }
    if let Some(phase) = card.trace.dropped {
        hit(Point::PastDrop(command, phase));
    }
    hit(Point::PastLine(command, card.mask));
}

/// A command ends in error after so many sectors. The table has no row for a bad address in a run of
/// Verify or Erase then, so that none can come up unseen.
pub fn ended(command: Row, lba: bool, done: u16, error: u8, code: u8) {
    if done > 0 && error != 0 {
        hit(Point::Midway(command, ending(error, code), lba));
    }
}

// ---------------------------------------------------------------- the rows

const RUNS: [(Row, &str); 2] = [(Row::Verify, "verify"), (Row::Erase, "erase")];

/// Commands in CHS and LBA, with what the table says of them.
fn both_ways(commands: &[(Row, &str)]) -> Vec<(Row, bool, String)> {
    let ways = |&(command, name): &(Row, &str)| {
        [(command, false, format!("{name} CHS")), (command, true, format!("{name} LBA"))]
    };
    commands.iter().flat_map(ways).collect()
}

pub fn lengths() -> Vec<Reached> {
    let mut rows = Vec::new();
    for (command, lba, name) in both_ways(&RUNS) {
        for &(length, says) in Length::TABLE {
            let point = Point::Length(command, length, lba);
            rows.push(row(point, format!("{name} {says}"), by(length.large())));
        }
    }
    rows
}

pub fn bad_starts() -> Vec<Reached> {
    let mut rows = Vec::new();
    for (command, lba, name) in both_ways(&RUNS) {
        for (ending, says) in [(Ending::Idnf21, "21"), (Ending::Idnf2F, "2F")] {
            if can_end(command, ending, lba) {
                let point = Point::BadStart(command, ending, lba);
                rows.push(row(point, format!("{name} {says}"), By::Sessions));
            }
        }
    }
    rows
}

pub fn past_marks() -> Vec<Reached> {
    let mut rows = Vec::new();
    for (command, lba, name) in both_ways(&RUNS) {
        for &(marked, sector) in Marked::TABLE {
            for &(mark, says) in Mark::TABLE.iter().filter(|(mark, _)| *mark != Mark::Zero) {
                let point = Point::PastMark(command, marked, mark, lba);
                rows.push(row(point, format!("{name} {sector} {says}"), By::Trials));
            }
        }
    }
    rows
}

/// In a transfer that it drops; with the line up, and masked.
pub fn past_states() -> Vec<Reached> {
    let mut rows = Vec::new();
    for (command, name) in RUNS {
        for (phase, during) in PHASES {
            let point = Point::PastDrop(command, phase);
            rows.push(row(point, format!("{name} {during}"), By::Sessions));
        }
        for (masked, line) in [(false, "line up"), (true, "masked")] {
            let point = Point::PastLine(command, masked);
            rows.push(row(point, format!("{name}, {line}"), By::Trials));
        }
    }
    rows
}

pub fn midway() -> Vec<Reached> {
    let mut rows = Vec::new();
    for (command, lba, name) in both_ways(sector_commands()) {
        for &(ending, says) in Ending::TABLE.iter().filter(|(ending, _)| stops(command, *ending)) {
            let point = Point::Midway(command, ending, lba);
            rows.push(row(point, format!("{name} {says}"), by(ending != Ending::Idnf2F)));
        }
    }
    rows
}

/// Can a sector command end so in error after its first sector? The next address has a good head
/// and a good sector number; in a run of Verify or Erase that fits it is good.
pub fn stops(command: Row, ending: Ending) -> bool {
    match ending {
        Ending::Idnf2F => command.reads() || command.writes(),
        Ending::Unc | Ending::Dwf => can_end(command, ending, true),
        _ => false,
    }
}
