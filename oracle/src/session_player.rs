//! The session file, and the text that `cardrun` prints for it.

use std::fmt::Write;

use crate::card::{Access, Card, Geometry, Lent};
use crate::cover;
use crate::mutants::{on, Change};
use crate::points::Break;

/// Bytes of a file that is run.
pub const LONGEST: usize = 32_768;
const MOST_SECTORS: u64 = 32;

/// A sound record.
pub enum Record {
    Opening([u16; 4]),
    Access(Access),
}

/// Everything `cardrun` prints for a file.
pub fn play(file: &[u8]) -> String {
    let mut text = String::from("n op answer value\n");
    if file.len() > LONGEST {
        bad(if on(Change::LongAtLength) { file.len() } else { LONGEST }, Break::TooLong, &mut text);
    } else {
        run(file, &mut text);
    }
    text
}

fn run(file: &[u8], text: &mut String) {
    let fields = match record(file, true) {
        Ok((Record::Opening(fields), _)) => fields,
        Ok(_) => return,
        Err(why) => return bad(0, why, text),
    };
    let g = Geometry::new(fields[0], fields[1], fields[2]);
    let n = if g.sectors() > MOST_SECTORS { 0 } else { g.sectors() as usize };
    let (mut store, mut marks) = (vec![0; 512 * n], vec![0; n]);
    let mut lent = Lent { store: &mut store, marks: &mut marks, tuples: &[0xFF; 256] };
    cover::opening(g, fields[3]);
    let card = if n == 0 { None } else { Some(Card::open(g, fields[3], &lent)) };
    match card {
        Some((answer, card)) if answer.number == 0 => steps(file, card, &mut lent, text),
        Some((answer, _)) => refused(answer.number, text),
        None => {
            cover::refusal(1);
            refused(1, text)
        }
    }
}

fn refused(number: u8, text: &mut String) {
    let _ = writeln!(text, "open {number}");
}

fn bad(place: usize, why: Break, text: &mut String) {
    cover::broken(why);
    cover::refusal(17);
    let _ = writeln!(text, "bad {place}");
}

/// The records after the opening.
fn steps(file: &[u8], mut card: Card, lent: &mut Lent, text: &mut String) {
    let mut place = 12;
    let mut number = 0u64;
    while place < file.len() {
        let (access, length) = match record(&file[place..], false) {
            Ok((Record::Access(access), length)) => (access, length),
            Ok((Record::Opening(_), length)) => {
                place += length;
                continue;
            }
            Err(why) => {
                return bad(if on(Change::BrokenAtKind) { place + 2 } else { place }, why, text)
            }
        };
        let answer = card.access(lent, &access);
        if answer.number == 0 || !on(Change::RefusedUncounted) {
            number += 1;
        }
        let value = match (answer.number, access.write) {
            (0, true) => access.value,
            (0, false) => answer.value,
            (_, write) => {
                if write && on(Change::RefusedValue) {
                    access.value
                } else {
                    0
                }
            }
        };
        let letter = if access.write { 'W' } else { 'R' };
        let _ = writeln!(text, "{number} {letter} {} {value:04X}", answer.number);
        place += length;
    }
}

fn word(bytes: &[u8], at: usize) -> u16 {
    u16::from_le_bytes([bytes[at], bytes[at + 1]])
}

/// The record that begins here, and its length; or what is broken about it.
pub fn record(rest: &[u8], first: bool) -> Result<(Record, usize), Break> {
    if rest.is_empty() {
        return Err(Break::Empty);
    }
    if rest.len() < 4 {
        return Err(Break::HeadCut);
    }
    let (length, kind) = (word(rest, 0) as usize, word(rest, 2));
    let (right, wrong_length, cut) = match kind {
        1 => (12, Break::OpeningLength, Break::OpeningCut),
        2 => (10, Break::WriteLength, Break::WriteCut),
        3 => (8, Break::ReadLength, Break::ReadCut),
        _ => return Err(Break::Kind),
    };
    match (first, kind) {
        (true, 2 | 3) => return Err(Break::OpeningMissing),
        (false, 1) if !on(Change::SecondOpeningPassed) => return Err(Break::SecondOpening),
        _ => {}
    }
    if length != right {
        return Err(wrong_length);
    }
    if rest.len() < length {
        return Err(cut);
    }
    let body = &rest[4..length];
    let record = match kind {
        1 => Record::Opening([word(body, 0), word(body, 2), word(body, 4), word(body, 6)]),
        _ => Record::Access(access(body, kind == 2)?),
    };
    Ok((record, length))
}

fn access(body: &[u8], write: bool) -> Result<Access, Break> {
    let (space, width, address) = (body[0], body[1], word(body, 2));
    let value = if write { word(body, 4) } else { 0 };
    if space > 3 {
        return Err(if write { Break::WriteSpace } else { Break::ReadSpace });
    }
    if !(1..=2).contains(&width) {
        return Err(if write { Break::WriteWidth } else { Break::ReadWidth });
    }
    if width == 1 && value > 255 && !on(Change::LargeByteTaken) {
        return Err(Break::ByteValue);
    }
    Ok(Access { space, width, write, address, value })
}
