//! Blocks of several sectors in the coverage table: their points by name and what reaches them. The
//! rows are in `block_table`.

use crate::blocks::{none_or_block, BLOCKS};
use crate::card::{Card, Half, Phase};
use crate::commands::Row;
use crate::cover::{ending, hit, map};
use crate::names::named;
use crate::points::{Ending, Point, Unmade};
use crate::well_made::Condition;

named! {
    /// A Count that C6H does not take.
    Refused {
        Zero: "0",
        Between: "3, 5..7, 9..15",
        Double: "32, 64, 128",
        Above: "another above 16",
    }
}

named! {
    /// The address in the registers at a C4H or C5H without a block, or at a C6H.
    Start {
        Good: "good",
        Bad21: "21",
        Bad2F: "2F",
    }
}

named! {
    /// The sectors of a C4H or C5H beside the block.
    Fit {
        Below: "fewer",
        One: "just one block",
        Whole: "whole blocks",
        Partial: "a partial last block",
        Most: "256",
    }
}

named! {
    /// A sector that becomes ready or is asked for, in a block of more than one: the first of a block,
    /// which is the command's first or a later one, whole or partial; or inside of it.
    Spot {
        First: "first block",
        FirstPartial: "first block, partial",
        Later: "later block",
        LaterPartial: "later block, partial",
        Inside: "inside a block",
        InsidePartial: "inside a partial block",
    }
}

named! {
    /// A sector that ends the command in error after others, in a block of more than one.
    Failing {
        First: "first of a block",
        Middle: "middle",
        Last: "last",
        PartialFirst: "first of a partial block",
        PartialMiddle: "middle of a partial block",
        PartialLast: "last of a partial block",
    }
}

named! {
    /// What ends a transfer of C4H or C5H.
    Stop {
        Command: "a command",
        Hold: "a hold",
        Sreset: "SRESET",
    }
}

named! {
    /// Where a transfer of C4H or C5H stands: inside a block of more than one sector, between two.
    Stand {
        Inside: "inside a block",
        Between: "between two blocks",
    }
}

named! {
    /// What a card moves whose block, stride or place is not well made.
    Moving {
        Idle: "idle",
        BufferIn: "buffer in",
        BufferOut: "buffer out",
        SectorsIn: "sectors in",
        SectorsOut: "sectors out",
    }
}

/// What has come since the block was set, or since it was forgotten.
#[derive(Clone, Copy, PartialEq, Eq, Hash, Debug)]
pub enum Since {
    /// A command other than a good C6H, with its error or without.
    Command(Row, bool),
    Map,
    Mask,
    Hold,
    Sreset,
}

// ---------------------------------------------------------------- commands

/// C6H is to be carried out.
pub fn set(card: &Card) {
    let (old, count) = (card.block, card.count);
    hit(Point::SetCount(count));
    hit(Point::SetAddress(BLOCKS.contains(&count), start(card)));
    hit(match count {
        _ if BLOCKS.contains(&count) => Point::SetBlock(old, count),
        0 => Point::SetRefused(old, Refused::Zero),
        3..=15 => Point::SetRefused(old, Refused::Between),
        32 | 64 | 128 => Point::SetRefused(old, Refused::Double),
        _ => Point::SetRefused(old, Refused::Above),
    });
}

/// C6H is to end a transfer, if one runs.
pub fn set_inside(card: &Card) {
    if card.moves_sectors() && card.in_blocks() && card.trace.done > 0 {
        hit(Point::SetInside(moving_row(card), BLOCKS.contains(&card.count)));
    }
}

fn start(card: &Card) -> Start {
    match card.locate() {
        Ok(_) => Start::Good,
        Err(0x21) => Start::Bad21,
        Err(_) => Start::Bad2F,
    }
}

/// C4H or C5H is to be carried out.
pub fn begun(card: &Card, row: Row) {
    for &since in &card.trace.since {
        hit(Point::After(since, row));
    }
    if card.block == 0 {
        hit(Point::NoBlock(row, start(card), card.lba()));
    } else {
        hit(Point::Blocks(row, card.block, fit(card.block, card.count)));
    }
}

fn fit(block: u16, count: u8) -> Fit {
    match count as u16 {
        0 => Fit::Most,
        count if count < block => Fit::Below,
        count if count == block => Fit::One,
        count if count.is_multiple_of(block) => Fit::Whole,
        _ => Fit::Partial,
    }
}

/// A command has been carried out, or has begun to move data.
pub fn commanded(card: &mut Card, row: Row) {
    let failed = card.error != 0 && !matches!(row, Row::Sense | Row::Diagnose);
    if row == Row::SetMultiple && !failed {
        card.trace.since.clear();
    } else {
        came(card, Since::Command(row, failed));
    }
}

pub fn came(card: &mut Card, since: Since) {
    if card.block != 0 && !card.trace.since.contains(&since) {
        card.trace.since.push(since);
    }
}

/// A reset is to be left that forgets a block.
pub fn forgets(card: &mut Card, reset: Since) {
    if card.block != 0 {
        card.trace.since = vec![reset];
    }
}

// ---------------------------------------------------------------- sectors

/// A sector becomes ready or is asked for; the mark is as before.
pub fn asked(card: &Card, row: Row) {
    if !card.in_blocks() {
        if card.block > 1 && card.trace.done > 0 {
            hit(Point::PlainSector(row, card.block, card.mark));
        }
        return;
    }
    if card.stride < 2 {
        return;
    }
    let partial = card.place.saturating_add(card.left) < card.stride;
    let spot = match (card.place, card.trace.done, partial) {
        (0, 0, false) => Spot::First,
        (0, 0, true) => Spot::FirstPartial,
        (0, _, false) => Spot::Later,
        (0, _, true) => Spot::LaterPartial,
        (_, _, false) => Spot::Inside,
        (_, _, true) => Spot::InsidePartial,
    };
    hit(Point::BlockSector(row, spot, card.mark));
    if matches!(spot, Spot::Later | Spot::LaterPartial) {
        hit(Point::BlockLine(row, card.mask));
    }
}

/// A command ends; its transfer, if one runs, is still there.
pub fn ended(card: &Card, row: Row, error: u8, code: u8) {
    if !row.by_blocks() || card.stride == 0 {
        return;
    }
    let ending = ending(error, code);
    if ending == Ending::Good {
        let sectors = card.trace.done as u8;
        return hit(Point::BlocksDone(row, card.stride, fit(card.stride, sectors)));
    }
    if matches!(ending, Ending::Unc | Ending::Dwf) {
        hit(Point::BlockFault(row, card.stride, card.place));
    }
    if card.stride > 1 && card.trace.done > 0 {
        hit(Point::BlockError(row, ending, failing(card), card.lba()));
    }
}

fn failing(card: &Card) -> Failing {
    let (place, stride) = (card.place, card.stride);
    match (place, place.saturating_add(card.left) < stride) {
        (0, false) => Failing::First,
        (0, true) => Failing::PartialFirst,
        (_, true) if card.left == 1 => Failing::PartialLast,
        (_, true) => Failing::PartialMiddle,
        _ if place.saturating_add(1) == stride => Failing::Last,
        _ => Failing::Middle,
    }
}

/// A sector's last byte has moved.
pub fn moved(card: &Card) {
    if card.moves_sectors() && card.in_blocks() {
        hit(Point::BlockMap(moving_row(card), map(card)));
        if card.place.saturating_add(card.left) > 256 {
            hit(Point::Untied(moving_row(card)));
        }
    }
}

fn moving_row(card: &Card) -> Row {
    if card.phase == Phase::In {
        card.reading()
    } else {
        card.writing()
    }
}

/// A running transfer is to be ended from outside.
pub fn stopped(card: &Card, by: Stop) {
    if card.moves_sectors() && card.stride > 1 {
        hit(Point::BlockStop(moving_row(card), by, card.place > 0));
    }
}

/// A register is reached.
pub fn register(card: &Card, offset: u8, write: bool) {
    if !card.moves_sectors() || !card.in_blocks() {
        return;
    }
    let row = moving_row(card);
    let fresh = card.words == 0 && card.half == Half::Nothing;
    let stand = match card.place {
        0 if card.trace.done > 0 && fresh => Some(Stand::Between),
        0 => None,
        _ => Some(Stand::Inside),
    };
    match (offset, stand) {
        (1..=6, _) if write => hit(Point::BlockBusy(row, offset)),
        (7 | 0xE | 0xF, Some(stand)) if !write && card.stride > 1 => {
            hit(Point::BlockLook(row, offset, stand))
        }
        _ => {}
    }
}

/// Identify's word 47 was read.
pub fn most_shown(card: &Card) {
    hit(Point::Most(card.block));
}

// ---------------------------------------------------------------- card values

/// How the condition on the block, the stride or the place fails.
pub fn fault(card: &Card, only: Condition) -> Unmade {
    let (block, stride, place) = (card.block, card.stride, card.place);
    let low = |number: u16| Some(number & 0xFF).filter(|_| number > 0xFF);
    match only {
        Condition::Block if low(block).is_some_and(none_or_block) => Unmade::BlockLowFits,
        Condition::Block if block > 16 => Unmade::BlockAbove,
        Condition::Block => Unmade::BlockBetween,
        Condition::Stride if low(stride).is_some_and(|low| low == 1 || low == block) => {
            Unmade::StrideLowFits
        }
        Condition::Stride if block == 0 => Unmade::StrideWithoutBlock,
        Condition::Stride => Unmade::StrideUnlikeBlock,
        _ if low(place).is_some_and(|low| low < stride) => Unmade::PlaceLowFits,
        _ if place == stride => Unmade::PlaceAtStride,
        _ => Unmade::PlaceAboveStride,
    }
}

/// Just a condition on the block, the stride or the place fails.
pub fn unmade(card: &Card, only: Condition, how: Unmade) {
    if matches!(only, Condition::Block | Condition::Stride | Condition::Place) {
        let moving = match (card.phase, card.sectors) {
            (Phase::Idle, _) => Moving::Idle,
            (Phase::In, false) => Moving::BufferIn,
            (Phase::Out, false) => Moving::BufferOut,
            (Phase::In, true) => Moving::SectorsIn,
            (Phase::Out, true) => Moving::SectorsOut,
        };
        hit(Point::UnmadeBlock(how, moving));
    }
}
