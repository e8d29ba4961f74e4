//! Plays a trial input (TRIAL.md): what no session file shows.

use std::fmt::Write;

use crate::card::{Access, Answer, Card, Geometry, Half, Lent, Phase};
use crate::maps::Mode;
use crate::trial_kinds as kinds;
use crate::tuples::{self, Entry};

pub const STORE: usize = 524_288;
pub const MARKS: usize = 1_024;
pub const TUPLES: usize = 512;
pub const BODIES: usize = 1_024;
/// No list has more places.
const PLACES: usize = 256;

pub struct Bench {
    card: Card,
    store: Vec<u8>,
    marks: Vec<u8>,
    tuples: Vec<u8>,
    bodies: Vec<u8>,
    /// The last entry of a list to be written.
    last: Entry,
    lent: Lengths,
    text: String,
}

#[derive(Default)]
struct Lengths {
    store: usize,
    marks: usize,
    tuples: usize,
    bodies: usize,
}

/// The text for a trial input.
pub fn play(input: &[u8]) -> String {
    let mut bench = Bench {
        card: Card::zero(),
        store: vec![0; STORE],
        marks: vec![0; MARKS],
        tuples: vec![0xFF; TUPLES],
        bodies: vec![0; BODIES],
        last: Entry::default(),
        lent: Lengths::default(),
        text: String::new(),
    };
    for record in input.chunks_exact(16) {
        bench.step(record);
    }
    bench.show();
    bench.text
}

pub fn words(record: &[u8]) -> [u16; 8] {
    std::array::from_fn(|i| u16::from_le_bytes([record[2 * i], record[2 * i + 1]]))
}

impl Bench {
    fn step(&mut self, record: &[u8]) {
        let w = words(record);
        let (place, bytes) = (w[1] as usize, &record[6..6 + w[2].min(8) as usize]);
        match w[0] {
            kinds::OPEN => self.open(&w),
            kinds::MARK => put(&mut self.marks, place, w[2] as u8),
            kinds::ACCESS => self.accesses(&w),
            kinds::BREAK => set_field(&mut self.card, w[1], w[2]),
            kinds::FILL => self.fill(&w),
            kinds::READ_CHAIN => self.read_chain(place, entry(&w)),
            kinds::WRITE_LIST => self.write_list(place, entry(&w)),
            kinds::LEND => self.lend(&w),
            kinds::TUPLE_BYTES => put_all(&mut self.tuples, place, bytes),
            kinds::BODY_BYTES => put_all(&mut self.bodies, place, bytes),
            kinds::LAST_ENTRY => self.last = entry(&w),
            kinds::SHOW => self.show(),
            kinds::BUFFER_BYTES => put_all(&mut self.card.buffer, place, bytes),
            kinds::WRITE_BACK => self.write_back(),
            _ => {}
        }
    }

    fn lend(&mut self, w: &[u16; 8]) {
        let store = w[2] as usize | (w[3] as usize) << 16;
        self.lent = Lengths {
            store: store.min(STORE),
            marks: (w[1] as usize).min(MARKS),
            tuples: (w[4] as usize).min(TUPLES),
            bodies: (w[5] as usize).min(BODIES),
        };
    }

    fn open(&mut self, w: &[u16; 8]) {
        let lent = Lent {
            store: &mut self.store[..self.lent.store],
            marks: &mut self.marks[..self.lent.marks],
            tuples: &self.tuples[..self.lent.tuples],
        };
        let (answer, card) = Card::open(Geometry::new(w[1], w[2], w[3]), w[4], &lent);
        self.card = card;
        self.answer(answer);
    }

    fn accesses(&mut self, w: &[u16; 8]) {
        let mut access = Access {
            space: w[1] as u8,
            width: w[2] as u8,
            write: w[3] != 0,
            address: w[4],
            value: w[5],
        };
        for _ in 0..w[6].clamp(1, 256) {
            let mut lent = Lent {
                store: &mut self.store[..self.lent.store],
                marks: &mut self.marks[..self.lent.marks],
                tuples: &self.tuples[..self.lent.tuples],
            };
            let answer = self.card.access(&mut lent, &access);
            self.answer(answer);
            access.value = next_value(&access, w[7]);
        }
    }

    fn fill(&mut self, w: &[u16; 8]) {
        let at = 512 * w[1] as usize;
        if at < STORE {
            for (k, byte) in self.store[at..at + 512].iter_mut().enumerate() {
                *byte = (w[2] as usize + k * w[3] as usize) as u8;
            }
        }
    }

    /// A list whose places all hold one entry is read into; its first places are shown.
    fn read_chain(&mut self, places: usize, held: Entry) {
        let mut list = vec![held; PLACES];
        let lent = &mut list[..places.min(PLACES)];
        let result = tuples::read(&self.tuples[..self.lent.tuples], lent);
        self.outcome('R', result);
        self.text.push('\n');
        let entries = result.unwrap_or(0) as usize;
        for e in &list[..(entries + 2).min(PLACES)] {
            let _ = writeln!(self.text, "E {:02X} {:04X} {:04X}", e.code, e.start, e.length);
        }
    }

    /// A list of one entry many times, and the last entry, is written.
    fn write_list(&mut self, places: usize, first: Entry) {
        let mut list = vec![first; places.min(PLACES)];
        if let Some(end) = list.last_mut() {
            *end = self.last;
        }
        let buffer = &mut self.tuples[..self.lent.tuples];
        let result = tuples::write(&list, &self.bodies[..self.lent.bodies], buffer);
        self.written(result.map(|()| 0));
    }

    /// The chain in the bodies is read, and its list written over the same bytes.
    fn write_back(&mut self) {
        let bodies = &self.bodies[..self.lent.bodies];
        let buffer = &mut self.tuples[..self.lent.tuples];
        let mut list = [Entry::default(); 127];
        let read = tuples::read(bodies, &mut list);
        let result = read.and_then(|n| tuples::write(&list[..n as usize], bodies, buffer));
        self.written(result.map(|()| 0));
    }

    fn written(&mut self, result: Result<u16, u8>) {
        self.outcome('W', result);
        let buffer = &self.tuples[..self.lent.tuples];
        let _ = writeln!(self.text, " {:04X}", sum(buffer));
        hex_line('T', buffer, &mut self.text);
    }

    fn outcome(&mut self, letter: char, result: Result<u16, u8>) {
        let (number, value) = match result {
            Ok(value) => (0, value),
            Err(number) => (number, 0),
        };
        let _ = write!(self.text, "{letter} {number:02X} {value:04X}");
    }

    fn show(&mut self) {
        let _ = writeln!(
            self.text,
            "S {:04X} {:04X} {:04X}",
            sum(&self.store[..self.lent.store]),
            sum(&self.card.buffer),
            sum(&self.tuples[..self.lent.tuples]),
        );
        hex_line('M', &self.marks[..self.lent.marks], &mut self.text);
    }

    /// The A line.
    fn answer(&mut self, a: Answer) {
        let k = &self.card;
        let text = &mut self.text;
        let _ = write!(text, "A {:02X} {:04X} {}", a.number, a.value, a.line as u8);
        let control = (k.hold as u8) << 2 | (k.mask as u8) << 1;
        let registers = [
            k.status,
            k.error,
            k.count,
            k.sector,
            k.cyl_low,
            k.cyl_high,
            k.head,
            k.option(),
            control,
            k.code,
        ];
        for byte in registers {
            let _ = write!(text, " {byte:02X}");
        }
        let now = k.current;
        let _ = write!(text, " {} {:04X} {:04X} {:04X}", k.mark as u8, now.c, now.h, now.s);
        let (phase, half) = (k.phase as u8, k.half as u8);
        let _ = write!(text, " {phase} {half} {:04X} {:04X} {:04X}", k.words, k.left, k.bad);
        let _ = writeln!(text, " {:04X} {:04X} {:04X}", k.block, k.stride, k.place);
    }
}

fn entry(w: &[u16; 8]) -> Entry {
    Entry { code: w[2] as u8, start: w[3], length: w[4] }
}

pub fn next_value(a: &Access, step: u16) -> u16 {
    let next = a.value.wrapping_add(step);
    if a.width == 2 {
        next
    } else {
        next % 256
    }
}

fn put(row: &mut [u8], place: usize, value: u8) {
    if let Some(cell) = row.get_mut(place) {
        *cell = value;
    }
}

pub fn put_all(row: &mut [u8], place: usize, bytes: &[u8]) {
    for (k, &byte) in bytes.iter().enumerate() {
        put(row, place + k, byte);
    }
}

/// Sets one field of a card value (kind 4).
pub fn set_field(k: &mut Card, field: u16, value: u16) {
    let byte = value as u8;
    let bit = value & 1 == 1;
    match field {
        1 => k.default.c = value,
        2 => k.default.h = value,
        3 => k.default.s = value,
        4 => k.current.c = value,
        5 => k.current.h = value,
        6 => k.current.s = value,
        7 => k.setting = byte & 0x7F,
        8 => k.sreset = bit,
        9 => k.hold = bit,
        10 => k.mask = bit,
        11 => k.mark = bit,
        12 => k.status = byte,
        13 => k.error = byte,
        14 => k.count = byte,
        15 => k.sector = byte,
        16 => k.cyl_low = byte,
        17 => k.cyl_high = byte,
        18 => k.head = byte,
        19 => k.code = byte,
        23 => set_mode(k, value),
        24 => set_phase(k, value),
        26 => k.bad = value,
        27 => k.block = value,
        20..=25 | 28 | 29 if k.phase != Phase::Idle => set_transfer_field(k, field, value),
        _ => {}
    }
}

fn set_mode(k: &mut Card, value: u16) {
    match value {
        0 => k.mode = Mode::PcCard,
        1 => k.mode = Mode::TrueIde,
        _ => {}
    }
}

/// A transfer that runs goes on, or turns round.
fn set_phase(k: &mut Card, value: u16) {
    match value {
        0 => k.stop_transfer(),
        1 => k.phase = Phase::In,
        2 => k.phase = Phase::Out,
        _ => {}
    }
}

fn set_transfer_field(k: &mut Card, field: u16, value: u16) {
    match (field, value) {
        (20, 0) => k.half = Half::Nothing,
        (20, 1) => k.half = Half::Low,
        (20, 2) => k.half = Half::High,
        (21, _) => k.words = value,
        (22, _) if k.sectors => k.left = value,
        (25, 0) => (k.sectors, k.left, k.stride, k.place) = (false, 0, 0, 0),
        (25, 1) if !k.sectors => (k.sectors, k.left, k.stride, k.place) = (true, 0, 1, 0),
        (28, _) if k.sectors => k.stride = value,
        (29, _) if k.sectors => k.place = value,
        _ => {}
    }
}

fn sum(bytes: &[u8]) -> u32 {
    bytes.iter().fold(0, |sum, &b| (31 * sum + b as u32 + 1) % 65_521)
}

fn hex_line(letter: char, bytes: &[u8], text: &mut String) {
    let _ = write!(text, "{letter} ");
    for byte in bytes {
        let _ = write!(text, "{byte:02X}");
    }
    text.push('\n');
}
