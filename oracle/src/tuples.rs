//! The tuple reader and writer of 01.

use crate::cover;
use crate::mutants::{on, Change};

#[derive(Clone, Copy, PartialEq, Eq, Debug, Default)]
pub struct Entry {
    pub code: u8,
    pub start: u16,
    pub length: u16,
}

/// Reads the chain into the list; the number of entries, or the refusal.
pub fn read(buffer: &[u8], list: &mut [Entry]) -> Result<u16, u8> {
    let found = check_read(buffer, list.len());
    cover::tuples(false, found.as_ref().err().copied());
    let entries = found?;
    cover::places(list.len(), entries.len());
    list[..entries.len()].copy_from_slice(&entries);
    if on(Change::ReaderClearsRest) {
        list[entries.len()..].fill(Entry::default());
    }
    Ok(entries.len() as u16)
}

/// Checks 5, 16, 13, in this order.
fn check_read(buffer: &[u8], places: usize) -> Result<Vec<Entry>, u8> {
    if buffer.len() != 256 {
        return Err(5);
    }
    if places < 127 {
        return Err(if on(Change::ReaderChainFirst) && walk(buffer).is_none() { 13 } else { 16 });
    }
    walk(buffer).ok_or(13)
}

fn walk(buffer: &[u8]) -> Option<Vec<Entry>> {
    let mut entries = Vec::new();
    let mut at = 0;
    loop {
        cover::chain(buffer, at);
        match *buffer.get(at)? {
            0xFF => return Some(entries),
            0x00 => at += 1,
            code => {
                let length = *buffer.get(at + 1)? as usize;
                let start = at + 2;
                if start + length > 256 {
                    return None;
                }
                entries.push(Entry { code, start: start as u16, length: length as u16 });
                at = start + length;
            }
        }
    }
}

/// Writes the list's tuples, then FFH to the end.
pub fn write(list: &[Entry], bodies: &[u8], buffer: &mut [u8]) -> Result<(), u8> {
    let checked = check_write(list, bodies, buffer.len());
    cover::tuples(true, checked.err());
    checked?;
    if !on(Change::WriterLeavesRest) {
        buffer.fill(0xFF);
    }
    let mut at = 0;
    for entry in list {
        let (start, length) = (entry.start as usize, entry.length as usize);
        buffer[at] = entry.code;
        buffer[at + 1] = entry.length as u8;
        buffer[at + 2..at + 2 + length].copy_from_slice(&bodies[start..start + length]);
        at += 2 + length;
    }
    Ok(())
}

/// Checks 5, 15, 14, in this order.
fn check_write(list: &[Entry], bodies: &[u8], buffer: usize) -> Result<(), u8> {
    if buffer != 256 {
        return Err(5);
    }
    let total: usize = list.iter().map(|e| 2 + e.length as usize).sum();
    if on(Change::WriterLengthFirst) && total > 255 {
        return Err(14);
    }
    if list.iter().any(|e| !can_be_written(e, bodies.len())) {
        return Err(15);
    }
    if total > 255 && !(on(Change::WriterFull) && total == 256) {
        return Err(14);
    }
    Ok(())
}

fn can_be_written(e: &Entry, bodies: usize) -> bool {
    let end = e.start as usize + e.length as usize;
    let inside = end <= bodies && !(on(Change::EmptyBodyRefused) && e.start as usize == bodies);
    cover::entry(e.code, e.length, end, inside);
    e.code != 0 && e.code != 0xFF && inside
}
