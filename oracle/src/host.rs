//! A scripted host: it writes the records of a session or a trial, and follows along on a card of its
//! own so that it knows where the card stands.

use crate::card::{Access, Answer, Card, Geometry, Half, Lent, Phase};
use crate::maps::{Mode, ATTRIBUTE, IO, MEMORY, TRUE_IDE};
use crate::rng::Rng;
use crate::session_player;
use crate::trial_kinds as kinds;
use crate::trial_player;

#[derive(Clone, Copy, PartialEq, Eq, Debug)]
pub enum Form {
    Session,
    Trial,
}

/// How a word of data is moved.
#[derive(Clone, Copy, PartialEq, Eq, Debug)]
pub enum Style {
    Words,
    Bytes,
    EvenOdd,
    OddEven,
    Mixed,
}

pub const STYLES: [Style; 5] =
    [Style::Words, Style::Bytes, Style::EvenOdd, Style::OddEven, Style::Mixed];

/// The access record of a trial that may still grow.
#[derive(Clone, Copy)]
struct Last {
    at: usize,
    access: Access,
    times: u16,
    step: u16,
}

pub struct Host {
    pub rng: Rng,
    pub out: Vec<u8>,
    pub card: Card,
    pub marks: Vec<u8>,
    pub store: Vec<u8>,
    pub tuples: Vec<u8>,
    pub form: Form,
    /// The geometry and mode of the opening.
    opened: (Geometry, u16),
    pub limit: usize,
    /// No record more fits.
    pub full: bool,
    pub accesses: usize,
    /// One address per register, and data that grows evenly.
    pub steady: bool,
    /// Of 1,000 moved halves so many are followed by a disturbance.
    pub noise: usize,
    datum: u16,
    stride: u16,
    last: Option<Last>,
}

const FULL_TRIAL: usize = 65_536;
const MOST_TRIAL_ACCESSES: usize = 3_000;

impl Host {
    /// A host at a card just opened; the opening is written.
    pub fn new(form: Form, seed: u64, g: Geometry, mode: u16, limit: usize) -> Host {
        let n = g.sectors() as usize;
        let mut host = Host {
            rng: Rng::new(seed),
            out: Vec::new(),
            card: Card::zero(),
            marks: vec![0; n],
            store: vec![0; 512 * n],
            tuples: vec![0xFF; 256],
            form,
            opened: (g, mode),
            limit,
            full: false,
            accesses: 0,
            steady: form == Form::Trial,
            noise: 0,
            datum: 0,
            stride: 1,
            last: None,
        };
        host.open(g, mode);
        host
    }

    pub fn session(seed: u64, g: Geometry, mode: u16) -> Host {
        Host::new(Form::Session, seed, g, mode, session_player::LONGEST)
    }

    pub fn trial(seed: u64, g: Geometry, mode: u16) -> Host {
        Host::new(Form::Trial, seed, g, mode, FULL_TRIAL)
    }

    fn open(&mut self, g: Geometry, mode: u16) {
        if self.form == Form::Session {
            push_opening(&mut self.out, [g.c, g.h, g.s, mode]);
        } else {
            self.lend_right(g);
            self.record(&[kinds::OPEN, g.c, g.h, g.s, mode]);
        }
        self.open_own(g, mode);
        self.stride = self.rng.next() as u16 | 1;
    }

    fn open_own(&mut self, g: Geometry, mode: u16) {
        let lent = Lent { store: &mut self.store, marks: &mut self.marks, tuples: &self.tuples };
        self.card = Card::open(g, mode, &lent).1;
    }

    /// The same opening once more, over the marks as they are (trials only).
    pub fn reopen(&mut self) {
        let (g, mode) = self.opened;
        self.record(&[kinds::OPEN, g.c, g.h, g.s, mode]);
        self.open_own(g, mode);
    }

    /// Lends what the geometry wants.
    pub fn lend_right(&mut self, g: Geometry) {
        let n = g.sectors() as usize;
        self.lend(512 * n, n, 256);
    }

    pub fn lend(&mut self, store: usize, marks: usize, tuples: usize) {
        let (low, high) = (store as u16, (store >> 16) as u16);
        self.record(&[kinds::LEND, marks as u16, low, high, tuples as u16, 256]);
    }

    /// One record of a trial.
    pub fn record(&mut self, words: &[u16]) {
        if self.out.len() + 16 > self.limit {
            self.full = true;
            return;
        }
        let mut all = [0u16; 8];
        all[..words.len()].copy_from_slice(words);
        for word in all {
            self.out.extend_from_slice(&word.to_le_bytes());
        }
        self.last = None;
    }

    /// Sets a mark in the lent marks (trials only).
    pub fn set_mark(&mut self, at: usize, mark: u8) {
        self.record(&[kinds::MARK, at as u16, mark as u16]);
        self.marks[at] = mark;
    }

    pub fn fill_sector(&mut self, at: usize, first: u16, step: u16) {
        self.record(&[kinds::FILL, at as u16, first, step]);
        for k in 0..512 {
            self.store[512 * at + k] = (first as usize + k * step as usize) as u8;
        }
    }

    /// Sets a field of the card value (trials only).
    pub fn set_field(&mut self, field: u16, value: u16) {
        self.record(&[kinds::BREAK, field, value]);
        trial_player::set_field(&mut self.card, field, value);
    }

    /// Sets bytes of a row, eight with each record of the kind that sets them (trials only).
    pub fn bytes_record(&mut self, kind: u16, place: usize, bytes: &[u8]) {
        for (k, part) in bytes.chunks(8).enumerate() {
            let mut words = [kind, (place + 8 * k) as u16, part.len() as u16, 0, 0, 0, 0];
            for (i, &byte) in part.iter().enumerate() {
                words[3 + i / 2] |= (byte as u16) << (8 * (i % 2));
            }
            self.record(&words);
        }
    }

    /// Sets bytes of the card's buffer (trials only).
    pub fn set_buffer(&mut self, place: usize, bytes: &[u8]) {
        self.bytes_record(kinds::BUFFER_BYTES, place, bytes);
        trial_player::put_all(&mut self.card.buffer, place, bytes);
    }

    /// Writes down an access and does it.
    pub fn access(&mut self, a: Access) -> Answer {
        let fits = match self.form {
            Form::Session => self.session_record(&a),
            Form::Trial => self.trial_record(&a),
        };
        if !fits {
            self.full = true;
            return Answer { number: 0, value: 0, line: false };
        }
        self.accesses += 1;
        let mut lent =
            Lent { store: &mut self.store, marks: &mut self.marks, tuples: &self.tuples };
        self.card.access(&mut lent, &a)
    }

    fn session_record(&mut self, a: &Access) -> bool {
        let length = if a.write { 10 } else { 8 };
        if self.full || self.out.len() + length > self.limit {
            return false;
        }
        push_access(&mut self.out, a);
        true
    }

    fn trial_record(&mut self, a: &Access) -> bool {
        if self.full || self.accesses >= MOST_TRIAL_ACCESSES {
            return false;
        }
        if self.grow(a) {
            return true;
        }
        let at = self.out.len();
        let (space, width) = (a.space as u16, a.width as u16);
        self.record(&[kinds::ACCESS, space, width, a.write as u16, a.address, a.value, 1, 0]);
        self.last = Some(Last { at, access: *a, times: 1, step: 0 });
        !self.full
    }

    /// Takes the access into the last record if it is the next of that row.
    fn grow(&mut self, a: &Access) -> bool {
        let Some(mut last) = self.last else {
            return false;
        };
        if last.times == 1 && a.write {
            last.step = a.value.wrapping_sub(last.access.value);
            if a.width != 2 {
                last.step %= 256;
            }
        }
        let value = trial_player::next_value(&last.access, last.step);
        let next = Access { value: if a.write { value } else { a.value }, ..last.access };
        if next != *a || last.times == 256 {
            return false;
        }
        last.access = next;
        last.times += 1;
        self.out[last.at + 12..last.at + 14].copy_from_slice(&last.times.to_le_bytes());
        self.out[last.at + 14..last.at + 16].copy_from_slice(&last.step.to_le_bytes());
        self.last = Some(last);
        true
    }
}

/// Appends an opening (C, H, S, mode) as a record of a session file.
pub fn push_opening(out: &mut Vec<u8>, fields: [u16; 4]) {
    for word in [12, 1].into_iter().chain(fields) {
        out.extend_from_slice(&u16::to_le_bytes(word));
    }
}

/// Appends an access as a record of a session file.
pub fn push_access(out: &mut Vec<u8>, a: &Access) {
    let (length, kind) = if a.write { (10u16, 2u16) } else { (8, 3) };
    out.extend_from_slice(&length.to_le_bytes());
    out.extend_from_slice(&kind.to_le_bytes());
    out.extend_from_slice(&[a.space, a.width]);
    out.extend_from_slice(&a.address.to_le_bytes());
    if a.write {
        out.extend_from_slice(&a.value.to_le_bytes());
    }
}

// ---------------------------------------------------------------- registers through the present map

impl Host {
    pub fn true_ide(&self) -> bool {
        self.card.mode == Mode::TrueIde
    }

    /// Does the present map have offsets 8, 9 and D?
    pub fn wide_map(&self) -> bool {
        !self.true_ide() && self.card.index() < 2
    }

    /// An address of a register in the present map.
    pub fn at(&mut self, offset: u8) -> (u8, u16) {
        let o = offset as u16;
        if self.true_ide() {
            return (TRUE_IDE, if o < 8 { o } else { 0x16 + o - 0xE });
        }
        match self.card.index() {
            0 => (MEMORY, self.memory_address(o)),
            1 => (IO, o + 16 * self.alias(128)),
            2 => (IO, if o < 8 { 0x1F0 + o } else { 0x3F6 + o - 0xE }),
            _ => (IO, if o < 8 { 0x170 + o } else { 0x376 + o - 0xE }),
        }
    }

    fn alias(&mut self, of: usize) -> u16 {
        if self.steady {
            0
        } else {
            self.rng.below(of) as u16
        }
    }

    fn memory_address(&mut self, o: u16) -> u16 {
        let window = (o == 8 || o == 9) && self.rng.flip() && !self.steady;
        if window {
            0x400 + o - 8 + 2 * self.alias(512)
        } else {
            o + 16 * self.alias(64)
        }
    }

    /// A byte write to a register.
    pub fn put(&mut self, offset: u8, value: u8) -> Answer {
        let (space, address) = self.at(offset);
        self.access(Access { space, width: 1, write: true, address, value: value as u16 })
    }

    /// A byte read of a register.
    pub fn get(&mut self, offset: u8) -> u16 {
        let (space, address) = self.at(offset);
        self.access(Access { space, width: 1, write: false, address, value: 0 }).value
    }

    pub fn put_word(&mut self, offset: u8, value: u16) -> Answer {
        let (space, address) = self.at(offset);
        self.access(Access { space, width: 2, write: true, address, value })
    }

    pub fn get_word(&mut self, offset: u8) -> u16 {
        let (space, address) = self.at(offset);
        self.access(Access { space, width: 2, write: false, address, value: 0 }).value
    }

    pub fn option(&mut self, value: u8) -> Answer {
        let value = value as u16;
        self.access(Access { space: ATTRIBUTE, width: 1, write: true, address: 0x200, value })
    }

    pub fn option_read(&mut self) -> u16 {
        let a = Access { space: ATTRIBUTE, width: 1, write: false, address: 0x200, value: 0 };
        self.access(a).value
    }

    /// Goes to a map; 4 is True IDE and stays.
    pub fn go_to(&mut self, map: u8) {
        if map < 4 {
            self.option(map);
        }
    }

    /// Offset 0, or 8 where there is one.
    fn even(&mut self) -> u8 {
        if self.wide_map() && !self.steady && self.rng.flip() {
            8
        } else {
            0
        }
    }
}

// ---------------------------------------------------------------- data

impl Host {
    fn next_datum(&mut self) -> u16 {
        if self.steady {
            self.datum = self.datum.wrapping_add(self.stride);
            self.datum
        } else {
            self.rng.next() as u16
        }
    }

    /// A byte of data at an offset, in the transfer's direction.
    pub fn data_byte(&mut self, offset: u8) {
        if self.card.phase == Phase::Out {
            let value = self.next_datum() as u8;
            self.put(offset, value);
        } else {
            self.get(offset);
        }
        self.disturb_some();
    }

    fn data_word(&mut self) {
        let offset = self.even();
        if self.card.phase == Phase::Out {
            let value = self.next_datum();
            self.put_word(offset, value);
        } else {
            self.get_word(offset);
        }
        self.disturb_some();
    }

    fn disturb_some(&mut self) {
        if self.noise > 0 && self.rng.below(1000) < self.noise {
            self.disturb();
        }
    }

    /// Moves one word, or the half that is missing.
    pub fn one_word(&mut self, style: Style) {
        if self.card.half != Half::Nothing {
            return self.other_half(style);
        }
        let style = if style == Style::Mixed { self.rng.pick(&STYLES[..4]) } else { style };
        match style {
            Style::Words | Style::Mixed => return self.data_word(),
            Style::Bytes => self.data_byte(0),
            Style::EvenOdd => {
                let even = self.even();
                self.data_byte(even)
            }
            Style::OddEven => {
                let odd = if self.wide_map() { 9 } else { 0 };
                self.data_byte(odd)
            }
        }
        if self.card.half != Half::Nothing {
            self.other_half(style);
        }
    }

    fn other_half(&mut self, style: Style) {
        let odd = self.card.half == Half::Low && self.wide_map();
        let odd = odd && (style == Style::EvenOdd || style == Style::Mixed && self.rng.flip());
        let offset = if odd { 9 } else { self.even() };
        self.data_byte(offset);
    }

    /// Moves words while the transfer runs.
    pub fn transfer(&mut self, words: usize, style: Style) {
        for _ in 0..words {
            if !self.card.running() || self.full {
                return;
            }
            self.one_word(style);
        }
    }

    /// Moves the rest of the present sector or buffer.
    pub fn rest_of_sector(&mut self, style: Style) {
        let words = 256 - self.card.words.min(256) as usize;
        self.transfer(words, style);
    }
}

// ---------------------------------------------------------------- registers of an address

impl Host {
    pub fn set_chs(&mut self, c: u16, h: u8, s: u8) {
        let high_bits = self.rng.byte() & 0xB0;
        self.put(3, s);
        self.put(4, c as u8);
        self.put(5, (c >> 8) as u8);
        self.put(6, high_bits | h & 0x0F);
    }

    pub fn set_lba(&mut self, lba: u32) {
        let [sector, low, high, head] = lba.to_le_bytes();
        let high_bits = self.rng.byte() & 0xB0;
        self.put(3, sector);
        self.put(4, low);
        self.put(5, high);
        self.put(6, 0x40 | high_bits | head & 0x0F);
    }

    /// Names sector `i`, in LBA or by the current geometry.
    pub fn name_sector(&mut self, i: usize, lba: bool) {
        if lba {
            return self.set_lba(i as u32);
        }
        let (h, s) = (self.card.current.h as usize, self.card.current.s as usize);
        let (track, sector) = (i / s, i % s + 1);
        self.set_chs((track / h) as u16, (track % h) as u8, sector as u8);
    }

    /// Reads every register but the data.
    pub fn look(&mut self) {
        for offset in [1, 2, 3, 4, 5, 6, 7, 0xE, 0xF] {
            self.get(offset);
        }
    }

    /// The code, by 03H.
    pub fn sense(&mut self) {
        self.put(7, 0x03);
        self.get(1);
        self.get(7);
    }
}
