//! The card as one mutable device: its parts, opening, power-on, what is refused.

use crate::block_cover::Since;
use crate::blocks::Late;
use crate::cover;
use crate::maps::{self, Mode, Place};
use crate::mutants::{on, Change};
use crate::points::{BadForm, Kept};

#[derive(Clone, Copy, PartialEq, Eq, Debug)]
pub struct Geometry {
    pub c: u16,
    pub h: u16,
    pub s: u16,
}

impl Geometry {
    pub fn new(c: u16, h: u16, s: u16) -> Geometry {
        Geometry { c, h, s }
    }

    /// C·H·S, the true product.
    pub fn sectors(self) -> u64 {
        self.c as u64 * self.h as u64 * self.s as u64
    }

    pub fn fits(self) -> bool {
        self.c >= 1
            && (1..=16).contains(&self.h)
            && (1..=255).contains(&self.s)
            && self.sectors() <= 65_535
    }
}

#[derive(Clone, Copy, PartialEq, Eq, Hash, Debug)]
pub enum Phase {
    Idle,
    In,
    Out,
}

/// What of the present word has moved.
#[derive(Clone, Copy, PartialEq, Eq, Hash, Debug)]
pub enum Half {
    Nothing,
    Low,
    High,
}

/// How the data register is touched: a byte at 0 or 8, a byte at 9, a word.
#[derive(Clone, Copy, PartialEq, Eq, Hash, Debug)]
pub enum Touch {
    Even,
    Odd,
    Word,
}

/// Which bytes of the present word move.
#[derive(Clone, Copy, PartialEq, Eq, Debug)]
pub enum Moves {
    Low,
    High,
    Both,
}

pub struct Lent<'a> {
    pub store: &'a mut [u8],
    pub marks: &'a mut [u8],
    pub tuples: &'a [u8],
}

#[derive(Clone, Copy, PartialEq, Eq, Debug)]
pub struct Access {
    pub space: u8,
    pub width: u8,
    pub write: bool,
    pub address: u16,
    pub value: u16,
}

#[derive(Clone, Copy, PartialEq, Eq, Debug)]
pub struct Answer {
    pub number: u8,
    pub value: u16,
    pub line: bool,
}

#[derive(Clone, Debug)]
pub struct Card {
    pub mode: Mode,
    pub default: Geometry,
    pub current: Geometry,
    /// Bits 6..0 of the Configuration Option Register; bit 7 is `sreset`.
    pub setting: u8,
    pub sreset: bool,
    /// Device Control bits 2 and 1.
    pub hold: bool,
    pub mask: bool,
    /// The interrupt mark.
    pub mark: bool,
    pub status: u8,
    pub error: u8,
    pub count: u8,
    pub sector: u8,
    pub cyl_low: u8,
    pub cyl_high: u8,
    /// Drive/Head as stored: bits 6 and 4..0.
    pub head: u8,
    /// The extended error code.
    pub code: u8,
    pub buffer: [u8; 512],
    /// The number of bad sectors, those whose mark is not 0, as the card keeps it.
    pub bad: u16,
    pub phase: Phase,
    /// The running transfer moves sectors, not the buffer alone.
    pub sectors: bool,
    pub left: u16,
    /// The block that C6H has set; 0 is none.
    pub block: u16,
    /// Of a running sector transfer: the sectors from one setting of the mark to the next, and how many
    /// of them have moved. Both are 0 when none runs.
    pub stride: u16,
    pub place: u16,
    pub words: u16,
    pub half: Half,
    pub trace: Trace,
}

/// What the coverage table and the small changes alone ask of a card.
#[derive(Clone, Default, Debug)]
pub struct Trace {
    /// The buffer on its way to the host is Identify's.
    pub identity: bool,
    /// The current geometry when Identify was last read to its end.
    pub shown: Option<Geometry>,
    /// Word 129 when it was last read.
    pub told: Option<u16>,
    /// What has kept the number of bad sectors since it was last lowered or read.
    pub kept: Option<Kept>,
    /// How often the present command has lowered it.
    pub lowered: u16,
    /// How many sectors the present command has done.
    pub done: u16,
    /// The transfer that the present command has dropped, if one ran.
    pub dropped: Option<Phase>,
    /// A write that runs: when its command was given.
    pub given: Then,
    /// The same: when its present sector was asked for, and whether that is the command's first.
    pub asked: Then,
    pub first: bool,
    /// The running transfer is that of C4H or C5H.
    pub multiple: bool,
    /// The C4H or C5H that the present command has dropped: the sectors at its start.
    pub started: Option<u16>,
    /// The place in its block where the last transfer ended.
    pub place: u16,
    /// What has come since the block was set or forgotten.
    pub since: Vec<Since>,
    /// Sectors of a block that a small change has not stored yet.
    pub waiting: Vec<(usize, [u8; 512])>,
    /// An error that a small change tells at the end of its block.
    pub late: Option<Late>,
}

impl Trace {
    /// A command begins in this phase.
    pub fn begin(&mut self, phase: Phase) {
        self.lowered = 0;
        self.done = 0;
        self.dropped = Some(phase).filter(|&phase| phase != Phase::Idle);
    }
}

/// The marks and the number of bad sectors as they were once; no marks, if it is not known.
#[derive(Clone, Default, Debug)]
pub struct Then {
    pub marks: Vec<u8>,
    pub bad: u16,
}

pub const IDLE: u8 = 0x50;
pub const DATA: u8 = 0x58;
pub const FAILED: u8 = 0x51;
pub const FAULT: u8 = 0x71;

impl Card {
    /// The all-zero card, as a refused opening gives it.
    pub fn zero() -> Card {
        let none = Geometry::new(0, 0, 0);
        Card {
            mode: Mode::PcCard,
            default: none,
            current: none,
            setting: 0,
            sreset: false,
            hold: false,
            mask: false,
            mark: false,
            status: 0,
            error: 0,
            count: 0,
            sector: 0,
            cyl_low: 0,
            cyl_high: 0,
            head: 0,
            code: 0,
            buffer: [0; 512],
            bad: 0,
            phase: Phase::Idle,
            sectors: false,
            left: 0,
            block: 0,
            stride: 0,
            place: 0,
            words: 0,
            half: Half::Nothing,
            trace: Trace::default(),
        }
    }

    /// Opens a card: the answer, and the card (all zero if refused).
    pub fn open(geometry: Geometry, mode: u16, lent: &Lent) -> (Answer, Card) {
        let number = opening_refusal(geometry, mode, lent);
        let mut card = Card::zero();
        if number == 0 {
            card.mode = if mode == 1 { Mode::TrueIde } else { Mode::PcCard };
            card.default = geometry;
            card.power_on(0);
            card.bad = opening_bad(lent.marks);
            card.block = on(Change::OpeningSetsBlock) as u16;
            cover::opened(lent.marks);
        } else {
            cover::refusal(number);
        }
        (Answer { number, value: 0, line: false }, card)
    }

    /// Power-on, with the map setting given. "resets keep it": the number of bad sectors stays.
    pub fn power_on(&mut self, setting: u8) {
        self.power_on_registers();
        self.buffer = [0; 512];
        self.hold = false;
        self.mask = false;
        self.sreset = false;
        self.setting = setting;
    }

    /// The power-on registers, code 00H and default geometry; no transfer, no mark, no block.
    pub fn power_on_registers(&mut self) {
        self.stop_transfer();
        self.status = IDLE;
        self.error = 1;
        self.count = 1;
        self.sector = 1;
        self.cyl_low = 0;
        self.cyl_high = 0;
        self.head = 0;
        self.code = 0;
        self.current = self.default;
        self.mark = false;
        self.block = 0;
    }

    pub fn stop_transfer(&mut self) {
        if self.sectors {
            self.trace.place = self.place;
        }
        self.phase = Phase::Idle;
        self.sectors = false;
        self.left = 0;
        (self.stride, self.place) = (0, 0);
        self.words = 0;
        self.trace.multiple = false;
        self.trace.waiting.clear();
        self.trace.late = None;
        self.trace.given = Then::default();
        self.trace.asked = Then::default();
        if !on(Change::HalfOutlives) {
            self.half = Half::Nothing;
        }
    }

    pub fn running(&self) -> bool {
        self.phase != Phase::Idle
    }

    pub fn index(&self) -> u8 {
        self.setting & if on(Change::IndexOfSevenBits) { 0x7F } else { 0x3F }
    }

    pub fn lba(&self) -> bool {
        self.head & 0x40 != 0
    }

    /// The line is up: mark set, bit 1 clear.
    pub fn line(&self) -> bool {
        self.mark && (!self.mask || on(Change::MaskedLineUp))
    }

    /// One access.
    pub fn access(&mut self, lent: &mut Lent, a: &Access) -> Answer {
        let mut answer = Answer { number: 0, value: 0, line: false };
        match self.admit(lent, a) {
            Err(number) => answer.number = number,
            Ok(place) if a.write => self.write(place, a, lent),
            Ok(place) => answer.value = self.read(place, a, lent),
        }
        answer.line = self.line() && (answer.number == 0 || !on(Change::RefusedLineDown));
        cover::answer(answer.number, answer.line, self.mark && self.mask);
        answer
    }
}

fn opening_refusal(geometry: Geometry, mode: u16, lent: &Lent) -> u8 {
    if !geometry.fits() || mode > 1 {
        return 1;
    }
    let wrong = wrong_length(geometry, lent);
    if wrong != 0 {
        return wrong;
    }
    if lent.marks.iter().any(|&m| m > 2) {
        return 4;
    }
    0
}

/// How many sectors are bad: their marks are not 0.
pub fn bad_sectors(marks: &[u8]) -> u16 {
    marks.iter().filter(|&&mark| mark != 0).count() as u16
}

/// "the number of marks that are not 0, worked out at opening".
fn opening_bad(marks: &[u8]) -> u16 {
    let twos = marks.iter().filter(|&&mark| mark == 2).count() as u16;
    let bad = bad_sectors(marks);
    if on(Change::OpeningOmitsTwo) {
        bad - twos
    } else if on(Change::OpeningDoublesTwo) {
        bad + twos
    } else if on(Change::OpeningCountsInByte) {
        bad & 0xFF
    } else {
        bad
    }
}

/// 2, 3 or 5 if a lent part has the wrong length, else 0.
fn wrong_length(geometry: Geometry, lent: &Lent) -> u8 {
    let n = geometry.sectors() as usize;
    if lent.store.len() != 512 * n {
        2
    } else if lent.marks.len() != n && !on(Change::MarksLengthIgnored) {
        3
    } else if lent.tuples.len() != 256 {
        5
    } else {
        0
    }
}

// ---------------------------------------------------------------- refusals

impl Card {
    /// The place an access goes to, or the first refusal that applies.
    fn admit(&self, lent: &Lent, a: &Access) -> Result<Place, u8> {
        if !self.well_made() {
            return Err(12);
        }
        let wrong = wrong_length(self.default, lent);
        if wrong != 0 {
            return Err(wrong);
        }
        let spared =
            a.space == maps::ATTRIBUTE && (a.address == 0x200 || on(Change::SresetSparesAttribute));
        if self.sreset && !spared {
            return Err(8);
        }
        let place = self.place(a)?;
        self.form(place, a)?;
        match place {
            Place::Option if a.write && a.value & 0x3F > 3 => Err(10),
            Place::Register(offset) => self.half_free(offset, a).map(|()| place),
            _ => Ok(place),
        }
    }

    /// Refusals 7 and 6.
    fn place(&self, a: &Access) -> Result<Place, u8> {
        let found = maps::find(self.mode, self.index(), a.space, a.address);
        cover::seek(self, a, &found);
        match found? {
            Place::Tuple(_) if a.write => Err(6),
            place => Ok(place),
        }
    }

    /// Refusal 9: the width, a misplaced word, a byte write above 255.
    fn form(&self, place: Place, a: &Access) -> Result<(), u8> {
        let data = matches!(place, Place::Register(0 | 8))
            || on(Change::WordAtOption) && place == Place::Option;
        let fault = match a.width {
            1 if a.write && a.value > 255 => BadForm::ByteValue,
            1 => return Ok(()),
            2 if data => return Ok(()),
            2 => BadForm::Word,
            _ => BadForm::Width,
        };
        cover::bad_form(fault);
        Err(9)
    }

    /// Refusal 11, given in the running transfer's direction only.
    fn half_free(&self, offset: u8, a: &Access) -> Result<(), u8> {
        let Some(touch) = touch(offset, a.width) else {
            return Ok(());
        };
        if !self.runs(a.write) {
            return Ok(());
        }
        cover::half(a.write, self.half, touch);
        moves(self.half, touch).map(|_| ()).ok_or(11)
    }

    /// A transfer runs that way.
    fn runs(&self, write: bool) -> bool {
        match self.phase {
            Phase::Idle => false,
            Phase::In => !write,
            Phase::Out => write,
        }
    }
}

/// How an access touches the data register, if it does.
pub fn touch(offset: u8, width: u8) -> Option<Touch> {
    match (offset, width) {
        (0 | 8, 1) => Some(Touch::Even),
        (9, _) => Some(Touch::Odd),
        (0 | 8, _) => Some(Touch::Word),
        _ => None,
    }
}

/// What a touch moves, given what has moved; none is refusal 11.
pub fn moves(half: Half, touch: Touch) -> Option<Moves> {
    match (half, touch) {
        (Half::Nothing, Touch::Even) => Some(Moves::Low),
        (Half::Nothing, Touch::Odd) => Some(Moves::High),
        (Half::Nothing, Touch::Word) => Some(Moves::Both),
        (Half::Low, Touch::Odd) if on(Change::OddAfterLowRefused) => None,
        (Half::Low, Touch::Even | Touch::Odd) => Some(Moves::High),
        (Half::High, Touch::Even) => Some(Moves::Low),
        (_, Touch::Word) if on(Change::WordAfterHalf) => Some(Moves::Both),
        (Half::High, Touch::Odd) | (_, Touch::Word) => None,
    }
}
