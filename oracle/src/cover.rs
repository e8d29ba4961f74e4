//! Which points the played inputs reach, counted apart for sessions and trials.

use std::cell::{Cell, RefCell};
use std::cmp::Ordering;
use std::collections::HashMap;

use crate::block_cover::{self, Stop};
use crate::card::{bad_sectors, Access, Card, Geometry, Half, Phase, Then, Touch, Trace};
use crate::commands::Row;
use crate::maps::{Mode, Place};
use crate::points::*;
use crate::well_made::Condition;

/// Who reaches a point.
#[derive(Clone, Copy, PartialEq, Eq, Debug)]
pub enum By {
    Sessions,
    Trials,
}

thread_local! {
    /// For whom this thread counts, if it does.
    static FOR: Cell<Option<By>> = const { Cell::new(None) };
    /// How often each point was reached by sessions and by trials.
    static COUNTS: RefCell<HashMap<Point, [u64; 2]>> = RefCell::default();
}

pub fn count_for(by: Option<By>) {
    FOR.set(by);
}

pub fn counts(point: Point) -> [u64; 2] {
    COUNTS.with_borrow(|counts| counts.get(&point).copied().unwrap_or_default())
}

/// Every point that was reached at all.
pub fn reached() -> Vec<Point> {
    COUNTS.with_borrow(|counts| counts.keys().copied().collect())
}

pub fn hit(point: Point) {
    if let Some(by) = FOR.get() {
        COUNTS.with_borrow_mut(|counts| counts.entry(point).or_default()[by as usize] += 1);
    }
}

// ---------------------------------------------------------------- commands

pub fn command(card: &Card, opcode: u8, row: Row) {
    hit(Point::Opcode(opcode));
    block_cover::stopped(card, Stop::Command);
    if row == Row::SetMultiple {
        block_cover::set_inside(card);
    }
    if card.running() {
        hit(Point::Drop(row, card.phase));
    }
}

pub fn end(row: Row, lba: bool, error: u8, code: u8) {
    hit(Point::End(row, ending(error, code), lba && row.addressed()));
}

pub fn ending(error: u8, code: u8) -> Ending {
    match (error, code) {
        (0x10, 0x21) => Ending::Idnf21,
        (0x10, _) => Ending::Idnf2F,
        (0x40, _) => Ending::Unc,
        (0x04, 0x03) => Ending::Dwf,
        (0x04, 0x20) => Ending::Abrt20,
        (0x04, _) => Ending::Abrt21,
        _ => Ending::Good,
    }
}

pub fn sense(code: u8) {
    if CODES.contains(&code) {
        hit(Point::Sense(code));
    }
}

pub fn identify() {
    hit(Point::Identify(Identity::Begun));
}

/// Identify was read to its last word.
pub fn identified(card: &Card) {
    let (whole, anew) = match card.current == card.default {
        true => (Identity::Default, Identity::DefaultAnew),
        false => (Identity::Changed, Identity::ChangedAnew),
    };
    hit(Point::Identify(whole));
    if card.trace.shown.is_some_and(|before| before != card.current) {
        hit(Point::Identify(anew));
    }
    hit(Point::Integrity(card.buffer[511]));
}

pub fn mark(row: Row, mark: u8) {
    hit(Point::Mark(row, sort(mark)));
}

pub fn sort(mark: u8) -> Mark {
    match mark {
        0 => Mark::Zero,
        1 => Mark::One,
        2 => Mark::Two,
        _ => Mark::Above,
    }
}

pub fn lba_carry(next: u32) {
    if next.is_multiple_of(256) {
        hit(Point::Carry(Carry::LbaByte));
    }
}

pub fn cylinder_carry(before: u8, after: u8) {
    if before != after {
        hit(Point::Carry(Carry::CylinderHigh));
    }
}

// ---------------------------------------------------------------- the number of bad sectors

/// Those of the points that are met.
pub fn hit_all<T, const K: usize>(point: impl Fn(T) -> Point, met: [(T, bool); K]) {
    for (what, _) in met.into_iter().filter(|(_, met)| *met) {
        hit(point(what));
    }
}

/// A card was opened over these marks.
pub fn opened(marks: &[u8]) {
    let (one, two) = (marks.contains(&1), marks.contains(&2));
    let (n, bad) = (marks.len(), bad_sectors(marks) as usize);
    hit_all(
        Point::Opened,
        [
            (Opened::NoneBad, bad == 0),
            (Opened::Ones, one && !two),
            (Opened::Twos, two && !one),
            (Opened::Both, one && two),
            (Opened::Many, bad > 255),
            (Opened::All, bad == n && n >= 32),
        ],
    );
}

/// A sector is to be stored; the mark is its own, the number that before.
pub fn stored(row: Row, mark: u8, bad: u16, marks: &[u8]) {
    hit(Point::Stored(
        row,
        match (mark, bad) {
            (0, 0) => Stored::SoundAtZero,
            (0, _) => Stored::Sound,
            (1, 0) => Stored::OneAtZero,
            (1, _) => Stored::One,
            (2, 0) => Stored::TwoAtZero,
            (2, _) => Stored::Two,
            (_, 0) => Stored::AboveAtZero,
            _ => Stored::Above,
        },
    ));
    if matches!(mark, 0 | 2) || bad == 0 {
        return;
    }
    let there = bad_sectors(marks);
    hit_all(
        |what| Point::Stored(row, what),
        [
            (Stored::ToZero, bad == 1),
            (Stored::Borrow, bad == 256),
            (Stored::TooLow, bad < there),
            (Stored::TooHigh, bad > there),
        ],
    );
}

/// A sector is to be stored; the mark is its own. A write's may be another than when the sector was
/// asked for, and that another than when the command was given.
pub fn changed(trace: &Trace, at: usize, mark: u8) {
    let (given, asked) = (&trace.given, &trace.asked);
    let Some(&when_asked) = asked.marks.get(at) else {
        return;
    };
    let on_its_way = if trace.first { Changed::First } else { Changed::Later };
    changed_since(on_its_way, asked, at, mark);
    changed_since(Changed::Ahead, given, at, when_asked);
}

fn changed_since(when: Changed, then: &Then, at: usize, mark: u8) {
    let Some((from, to)) = then.marks.get(at).map(|&before| (sort(before), sort(mark))) else {
        return;
    };
    if from != to {
        let there = bad_sectors(&then.marks);
        let number = match then.bad.cmp(&there) {
            Ordering::Equal => Number::Right,
            Ordering::Less => Number::TooLow,
            Ordering::Greater => Number::TooHigh,
        };
        hit(Point::Changed(when, from, to, number));
    }
}

/// A command ends that has lowered the number so often.
pub fn lowered(row: Row, times: u16, error: u8, code: u8) {
    if times > 0 && (row.writes() || row == Row::Erase) {
        hit(Point::Lowered(row, ending(error, code)));
    }
}

/// What keeps the number is to be done.
pub fn kept(what: Kept, bad: u16, marks: &[u8]) {
    if bad != 0 {
        hit(Point::Kept(what, bad == bad_sectors(marks)));
    }
}

/// Identify's word 129 was read.
pub fn bad_shown(card: &Card, marks: &[u8]) {
    let shown = u16::from_le_bytes([card.buffer[258], card.buffer[259]]);
    let there = bad_sectors(marks);
    let ide = card.mode == Mode::TrueIde;
    hit_all(
        Point::Shown,
        [
            (Shown::Zero, shown == 0),
            (Shown::Byte, (1..=255).contains(&shown)),
            (Shown::Word, shown > 255),
            (Shown::All, shown as u64 == card.default.sectors()),
            (Shown::True, shown != 0 && shown == there),
            (Shown::TooLow, shown < there),
            (Shown::TooHigh, shown > there),
            (Shown::PcCard, shown != 0 && !ide),
            (Shown::TrueIde, shown != 0 && ide),
            (Shown::Lower, card.trace.told.is_some_and(|before| shown < before)),
            (Shown::SetSince, shown != card.bad),
        ],
    );
    if let Some(what) = card.trace.kept.filter(|_| shown != 0) {
        hit(Point::KeptShown(what));
    }
}

// ---------------------------------------------------------------- accesses

pub fn map(card: &Card) -> Map {
    match card.mode {
        Mode::TrueIde => Map::TrueIde,
        Mode::PcCard => Map::Index(card.index()),
    }
}

/// The address of an access was looked up.
pub fn seek(card: &Card, a: &Access, found: &Result<Place, u8>) {
    hit(match found {
        Err(7) => Point::Silent(silent(card.mode, a.space)),
        Err(_) if a.space == 0 && a.address > 0x200 => Point::Hole(Hole::AboveAttribute),
        Err(_) if a.space == 0 => Point::Hole(Hole::OddAttribute),
        Err(_) => Point::NoRegister(map(card)),
        Ok(Place::Tuple(_)) if a.write => Point::Hole(Hole::TupleWrite),
        Ok(Place::Register(_)) => return,
        Ok(_) if a.width != 1 => return,
        Ok(Place::Tuple(_)) => Point::Attribute(Attribute::TupleRead, card.index()),
        Ok(Place::Option) if a.write => Point::Attribute(Attribute::OptionWrite, card.index()),
        Ok(Place::Option) => Point::Attribute(Attribute::OptionRead, card.index()),
    });
}

fn silent(mode: Mode, space: u8) -> Silent {
    match (mode, space) {
        (Mode::TrueIde, 0) => Silent::AttributeInIde,
        (Mode::TrueIde, 1) => Silent::MemoryInIde,
        (Mode::TrueIde, 2) => Silent::IoInIde,
        (Mode::PcCard, 1) => Silent::MemoryByIndex,
        (Mode::PcCard, 2) => Silent::IoByIndex,
        (Mode::PcCard, 3) => Silent::IdeInPcCard,
        _ => Silent::NoSpace,
    }
}

/// A register is reached.
pub fn register(card: &Card, offset: u8, a: &Access) {
    let write = a.write;
    hit(Point::Register { map: map(card), offset, write, word: a.width == 2 });
    block_cover::register(card, offset, write);
    if card.hold {
        hit(Point::Held { offset, write });
    } else if card.running() && write {
        hit(Point::Busy { offset, phase: card.phase });
    }
}

pub fn bad_form(fault: BadForm) {
    hit(Point::BadForm(fault));
}

pub fn half(write: bool, moved: Half, touch: Touch) {
    hit(Point::Half { write, moved, touch });
}

pub fn no_transfer(write: bool, phase: Phase, touch: Touch) {
    hit(Point::Against { write, running: phase != Phase::Idle, touch });
}

pub fn answer(number: u8, up: bool, masked: bool) {
    refusal(number);
    hit(Point::Line(match (masked, up) {
        (true, _) => Line::Masked,
        (_, true) => Line::Up,
        _ => Line::Down,
    }));
}

pub fn refusal(number: u8) {
    hit(Point::Answer(number));
}

pub fn control_write(card: &Card, value: u8) {
    if value & 4 != 0 {
        block_cover::stopped(card, Stop::Hold);
    }
    hit(Point::Control(match (card.hold, value & 4 != 0, card.phase) {
        (false, true, Phase::Idle) => Control::HoldIdle,
        (false, true, Phase::In) => Control::HoldInDataIn,
        (false, true, Phase::Out) => Control::HoldInDataOut,
        (true, true, _) => Control::HoldAgain,
        (true, false, _) => Control::Leave,
        (false, false, Phase::Idle) => Control::MaskIdle,
        (false, false, Phase::In) => Control::MaskInDataIn,
        (false, false, Phase::Out) => Control::MaskInDataOut,
    }));
}

pub fn option_write(card: &Card, value: u8) {
    if value & 0x80 != 0 {
        block_cover::stopped(card, Stop::Sreset);
    }
    hit(Point::Setting(match (card.sreset, value & 0x80 != 0, card.phase) {
        (false, true, _) if card.hold => Setting::SresetInHold,
        (false, true, Phase::Idle) => Setting::SresetIdle,
        (false, true, Phase::In) => Setting::SresetInDataIn,
        (false, true, Phase::Out) => Setting::SresetInDataOut,
        (true, true, _) => Setting::SresetAgain,
        (true, false, _) if card.hold => Setting::LeaveInHold,
        (true, false, _) => Setting::Leave,
        (false, false, _) if card.hold => Setting::MapInHold,
        (false, false, Phase::Idle) => Setting::MapIdle,
        (false, false, Phase::In) => Setting::MapInDataIn,
        (false, false, Phase::Out) => Setting::MapInDataOut,
    }));
}

// ---------------------------------------------------------------- files, openings, card values

pub fn broken(why: Break) {
    hit(Point::Break(why));
}

/// The limits that an opening of a session breaks, if any.
pub fn opening(g: Geometry, mode: u16) {
    let limits = [
        (Limit::NoCylinder, g.c == 0),
        (Limit::NoHead, g.h == 0),
        (Limit::ManyHeads, g.h > 16),
        (Limit::NoSector, g.s == 0),
        (Limit::LongTrack, g.s > 255),
        (Limit::Mode, mode > 1),
        (Limit::TooLarge, g.sectors() > 65_535),
        (Limit::TooLargeForSession, g.fits() && g.sectors() > 32),
    ];
    for (limit, broken) in limits {
        if broken {
            hit(Point::Limit(limit));
        }
    }
}

/// Just this condition of the well-made list fails.
pub fn condition(only: Condition, card: &Card) {
    let how = match only {
        Condition::Default if card.default.h > 16 => Unmade::DefaultHeads,
        Condition::Default if card.default.s > 255 => Unmade::DefaultTrack,
        Condition::Default => Unmade::DefaultTotal,
        Condition::Heads if card.current.h > 16 => Unmade::ManyHeads,
        Condition::Heads => Unmade::NoHead,
        Condition::Track if card.current.s > 255 => Unmade::LongTrack,
        Condition::Track => Unmade::NoSector,
        Condition::Cylinders if card.current.c == 0 => Unmade::NoCylinder,
        Condition::Cylinders => Unmade::Cylinders,
        Condition::Index => Unmade::Index,
        Condition::Sreset => Unmade::SresetInIde,
        Condition::Status if card.running() => Unmade::TransferWithout58,
        Condition::Status if card.status == 0x58 => Unmade::IdleWith58,
        Condition::Status => Unmade::OtherStatus,
        Condition::Held if card.hold => Unmade::TransferInHold,
        Condition::Held => Unmade::TransferInSreset,
        Condition::Words => Unmade::Words,
        Condition::Sectors => transfer_fault(card),
        Condition::Bad if card.bad as u64 == card.default.sectors() + 1 => Unmade::BadOneAbove,
        Condition::Bad => Unmade::BadAbove,
        Condition::Block | Condition::Stride | Condition::Place => block_cover::fault(card, only),
    };
    hit(Point::Unmade(how));
    block_cover::unmade(card, only, how);
}

fn transfer_fault(card: &Card) -> Unmade {
    match (card.locate().is_err(), card.left) {
        (true, _) if card.lba() => Unmade::BadLba,
        (true, _) => Unmade::BadChs,
        (_, 0) => Unmade::NoneLeft,
        (_, 257..) => Unmade::ManyLeft,
        _ => Unmade::LeftUnlikeCount,
    }
}

// ---------------------------------------------------------------- tuples

/// The reader's or the writer's answer: the number of a refusal, if it refused.
pub fn tuples(writer: bool, refused: Option<u8>) {
    hit(Point::Tuples(match (writer, refused) {
        (false, None) => Tuples::Read,
        (false, Some(5)) => Tuples::ReadLength,
        (false, Some(16)) => Tuples::ReadPlaces,
        (false, Some(_)) => Tuples::ReadBadChain,
        (true, None) => Tuples::Written,
        (true, Some(5)) => Tuples::WriteLength,
        (true, Some(15)) => Tuples::WriteBadEntry,
        (true, Some(_)) => Tuples::WriteTooLong,
    }));
    refusal(refused.unwrap_or(0));
}

pub fn entry(code: u8, length: u16, end: usize, inside: bool) {
    hit(Point::Entry(match (code, inside) {
        (0, _) => Listed::Code00,
        (0xFF, _) => Listed::CodeFF,
        (_, false) if end > 65_535 => Listed::EndTooLarge,
        (_, false) => Listed::BodyOutside,
        (_, true) if length > 255 => Listed::BodyTooLong,
        _ => Listed::Good,
    }));
}

/// A chain's reader stands at a place.
pub fn chain(buffer: &[u8], at: usize) {
    let byte = |i: usize| buffer.get(i).map(|&b| b as usize);
    hit(Point::Chain(match (byte(at), byte(at + 1)) {
        (None, _) => Chain::NoByteLeft,
        (Some(0xFF), _) if at == 255 => Chain::EndAtLast,
        (Some(0xFF), _) => Chain::End,
        (Some(0), _) => Chain::Null,
        (Some(_), None) => Chain::CodeAtLast,
        (Some(_), Some(link)) if at + 2 + link == 256 => Chain::BodyToLast,
        (Some(_), Some(link)) if at + 2 + link > 256 => Chain::BodyPastLast,
        _ => return,
    }));
}

/// A chain was read into a list of so many places.
pub fn places(places: usize, entries: usize) {
    if entries < places {
        hit(Point::Chain(Chain::PlacesLeftOver));
    }
    if entries == 127 {
        hit(Point::Chain(Chain::MostEntries));
    }
}
