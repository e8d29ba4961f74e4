//! The rows of the coverage table for blocks of several sectors.

use crate::block_cover::{Failing, Fit, Moving, Refused, Since, Spot, Stand, Start, Stop};
use crate::blocks::BLOCKS;
use crate::commands::Row;
use crate::cover::By;
use crate::cover_table::{by, can_end, row, Reached};
use crate::points::{Ending, Point, Unmade, COMMANDS, MAPS};

const BY_BLOCKS: [(Row, &str); 2] = [(Row::ReadMultiple, "C4H"), (Row::WriteMultiple, "C5H")];

fn sizes() -> impl Iterator<Item = u16> {
    [0].into_iter().chain(BLOCKS.map(u16::from))
}

fn size(block: u16) -> String {
    match block {
        0 => "none".into(),
        _ => block.to_string(),
    }
}

// ---------------------------------------------------------------- C6H

pub fn counts() -> Vec<Reached> {
    (0..=255).map(|i| row(Point::SetCount(i), format!("{i:02X}"), By::Sessions)).collect()
}

pub fn settings() -> Vec<Reached> {
    let mut rows = Vec::new();
    for old in sizes() {
        for new in BLOCKS {
            let says = format!("{} to {new}", size(old));
            rows.push(row(Point::SetBlock(old, new), says, By::Sessions));
        }
        for &(refused, count) in Refused::TABLE {
            let says = format!("{}: Count {count}", size(old));
            rows.push(row(Point::SetRefused(old, refused), says, By::Sessions));
        }
    }
    for (taken, name) in [(true, "taken"), (false, "refused")] {
        for &(start, says) in Start::TABLE {
            let point = Point::SetAddress(taken, start);
            rows.push(row(point, format!("{name}, address {says}"), By::Sessions));
        }
    }
    rows
}

/// Sessions and trials have to reach each of these.
pub fn set_inside() -> Vec<Reached> {
    let mut rows = Vec::new();
    for (command, name) in BY_BLOCKS {
        for (taken, says) in [(true, "taken"), (false, "refused")] {
            let point = Point::SetInside(command, taken);
            rows.push(row(point, format!("{name}, {says}, by sessions"), By::Sessions));
            rows.push(row(point, format!("{name}, {says}, by trials"), By::Trials));
        }
    }
    rows
}

/// Identify's word 47, by the block.
pub fn most() -> Vec<Reached> {
    sizes().map(|block| row(Point::Most(block), size(block), By::Sessions)).collect()
}

// ---------------------------------------------------------------- C4H and C5H

pub fn without() -> Vec<Reached> {
    let mut rows = Vec::new();
    for (command, name) in BY_BLOCKS {
        for (lba, way) in [(false, "CHS"), (true, "LBA")] {
            for &(start, says) in Start::TABLE.iter().filter(|(s, _)| !lba || *s != Start::Bad21) {
                let point = Point::NoBlock(command, start, lba);
                rows.push(row(point, format!("{name} {way} {says}"), By::Sessions));
            }
        }
    }
    rows
}

/// Those begun, or those done.
fn fits(point: fn(Row, u16, Fit) -> Point, by: By) -> Vec<Reached> {
    let mut rows = Vec::new();
    for (command, name) in BY_BLOCKS {
        for block in BLOCKS.map(u16::from) {
            for &(fit, says) in Fit::TABLE {
                let in_parts = matches!(fit, Fit::Below | Fit::Partial);
                if block > 1 || !in_parts {
                    let says = format!("{name} by {block}: {says}");
                    rows.push(row(point(command, block, fit), says, by));
                }
            }
        }
    }
    rows
}

pub fn begun() -> Vec<Reached> {
    fits(Point::Blocks, By::Sessions)
}

pub fn done() -> Vec<Reached> {
    fits(Point::BlocksDone, By::Trials)
}

/// What has come between C6H and C4H or C5H, or has made it forgotten.
pub fn after() -> Vec<Reached> {
    let mut all = vec![(Since::Map, "a map change".to_string()), (Since::Mask, "a mask".into())];
    for (command, name) in COMMANDS {
        let good = command != Row::Other && command != Row::SetMultiple;
        let bad =
            Ending::TABLE.iter().any(|&(e, _)| e != Ending::Good && can_end(command, e, true));
        let bad = bad || matches!(command, Row::Other | Row::SetMultiple | Row::Parameters);
        for (failed, end, can) in [(false, "", good), (true, " with an error", bad)] {
            if can {
                all.push((Since::Command(command, failed), format!("{name}{end}")));
            }
        }
    }
    all.extend([(Since::Hold, "a hold".into()), (Since::Sreset, "SRESET".into())]);
    let mut rows = Vec::new();
    for (command, name) in BY_BLOCKS {
        for (since, says) in &all {
            let point = Point::After(*since, command);
            rows.push(row(point, format!("{name} after {says}"), By::Sessions));
        }
    }
    rows
}

// ---------------------------------------------------------------- sectors

const MARKED: [(bool, &str); 2] = [(false, "mark clear"), (true, "mark set")];

pub fn sectors() -> Vec<Reached> {
    let mut rows = Vec::new();
    for (command, name) in BY_BLOCKS {
        for &(spot, says) in Spot::TABLE {
            for (marked, mark) in MARKED {
                // The Command write has cleared the mark before the first block.
                if !marked || !matches!(spot, Spot::First | Spot::FirstPartial) {
                    let point = Point::BlockSector(command, spot, marked);
                    rows.push(row(point, format!("{name} {says}, {mark}"), By::Trials));
                }
            }
        }
        for (masked, line) in [(false, "line up"), (true, "masked")] {
            let point = Point::BlockLine(command, masked);
            rows.push(row(point, format!("{name} later block, {line}"), By::Trials));
        }
    }
    for (command, name) in [(Row::Read, "read"), (Row::Write, "write")] {
        for block in sizes().skip(2) {
            for (marked, mark) in MARKED {
                let point = Point::PlainSector(command, block, marked);
                rows.push(row(
                    point,
                    format!("{name} beside a block of {block}, {mark}"),
                    By::Trials,
                ));
            }
        }
    }
    rows
}

pub fn errors() -> Vec<Reached> {
    let mut rows = Vec::new();
    for (command, name) in BY_BLOCKS {
        for &(ending, says) in Ending::TABLE {
            if !can_end(command, ending, true) || matches!(ending, Ending::Good | Ending::Abrt20) {
                continue;
            }
            for &(failing, sector) in Failing::TABLE {
                for (lba, way) in [(false, "CHS"), (true, "LBA")] {
                    let point = Point::BlockError(command, ending, failing, lba);
                    let says = format!("{name} {way} {says}: {sector}");
                    rows.push(row(point, says, by(ending != Ending::Idnf2F)));
                }
            }
        }
    }
    rows
}

/// Every place of every block where a mark ends the command.
pub fn faults() -> Vec<Reached> {
    let mut rows = Vec::new();
    for (command, name) in BY_BLOCKS {
        for block in BLOCKS.map(u16::from) {
            for place in 0..block {
                let point = Point::BlockFault(command, block, place);
                rows.push(row(point, format!("{name} by {block} at {place}"), By::Trials));
            }
        }
    }
    rows
}

// ---------------------------------------------------------------- accesses beside the data

pub fn states() -> Vec<Reached> {
    let mut rows = Vec::new();
    for (command, name) in BY_BLOCKS {
        for map in MAPS {
            let point = Point::BlockMap(command, map);
            rows.push(row(point, format!("{name} sector moved, {map:?}"), By::Sessions));
        }
        for &(stop, by) in Stop::TABLE {
            for (inside, place) in [(false, "first sector of a block"), (true, "inside a block")] {
                let point = Point::BlockStop(command, stop, inside);
                rows.push(row(point, format!("{name} ended by {by}, {place}"), By::Sessions));
            }
        }
        for (offset, read) in [(7, "Status"), (0xE, "Alternate Status"), (0xF, "Drive Address")] {
            for &(stand, place) in Stand::TABLE {
                let point = Point::BlockLook(command, offset, stand);
                rows.push(row(point, format!("{name} {read} {place}"), By::Sessions));
            }
        }
        for offset in 1..=6 {
            let point = Point::BlockBusy(command, offset);
            rows.push(row(point, format!("{name} write to {offset}"), By::Sessions));
        }
        let says = format!("{name} with more than 256 of place and sectors left");
        rows.push(row(Point::Untied(command), says, By::Trials));
    }
    rows
}

// ---------------------------------------------------------------- card values

pub fn unmade() -> Vec<Reached> {
    use Unmade::*;
    let mut rows = Vec::new();
    for &(how, says) in Unmade::TABLE {
        for &(moving, what) in Moving::TABLE {
            let sectors = matches!(moving, Moving::SectorsIn | Moving::SectorsOut);
            let can = match how {
                BlockBetween | BlockAbove | BlockLowFits => true,
                StrideWithoutBlock | StrideUnlikeBlock | StrideLowFits => sectors,
                PlaceAtStride | PlaceAboveStride | PlaceLowFits => sectors,
                _ => false,
            };
            if can {
                rows.push(row(
                    Point::UnmadeBlock(how, moving),
                    format!("{says}, {what}"),
                    By::Trials,
                ));
            }
        }
    }
    rows
}
