//! 02's request Six, checked on this program: runs of Verify and Erase about the end of the card.

use crate::card::{bad_sectors, Geometry};
use crate::host::{Host, Style};
use crate::run_session_inputs::{begin, give, parameters, RUN_OPCODES};
use crate::selftest::told;

pub fn checks() -> Vec<bool> {
    vec![lba_end(), chs_end(), most_sectors(), marks(), bad_starts(), reads_and_writes()]
}

fn opened(c: u16, h: u16, s: u16) -> Host {
    Host::trial(1, Geometry::new(c, h, s), 1)
}

/// What a command leaves: Status, Error, Count, Sector Number, both bytes of the cylinder, the LBA bit
/// and head, and the code by 03H.
type Left = [u16; 7];

fn left(host: &mut Host) -> Left {
    let [status, error, count, sector, low, high, head] =
        [7, 1, 2, 3, 4, 5, 6].map(|offset| host.get(offset));
    host.put(7, 3);
    [status, error, count, sector, high << 8 | low, head & 0x4F, host.get(1)]
}

fn good(count: u16, sector: u16, cylinder: u16, head: u16) -> Left {
    [0x50, 0, count, sector, cylinder, head, 0]
}

fn failed(count: u16, sector: u16, cylinder: u16, head: u16, code: u16) -> Left {
    [0x51, 0x10, count, sector, cylinder, head, code]
}

/// A run from a sector in LBA or CHS that leaves this, as `leaves_here` has it.
fn leaves(
    host: &mut Host,
    run: (u8, usize, usize, bool),
    expected: Left,
    changed: &[usize],
) -> bool {
    let (opcode, first, sectors, lba) = run;
    host.name_sector(first, lba);
    leaves_here(host, opcode, sectors, expected, changed)
}

/// A run from where the registers stand that leaves this and, if it is an Erase, just these sectors FFH
/// and their marks 0; the number of bad sectors falls by those marks, the interrupt mark is set, and the
/// buffer stays.
fn leaves_here(
    host: &mut Host,
    opcode: u8,
    sectors: usize,
    expected: Left,
    changed: &[usize],
) -> bool {
    let (mut store, mut marks) = (host.store.clone(), host.marks.clone());
    let (buffer, bad) = (host.card.buffer, host.card.bad);
    for &at in changed.iter().filter(|_| opcode == 0xC0) {
        store[512 * at..512 * at + 512].fill(0xFF);
        marks[at] = 0;
    }
    let healed = bad_sectors(&host.marks) - bad_sectors(&marks);
    give(host, opcode, sectors);
    let ended = host.card.mark && host.card.buffer == buffer && host.card.bad == bad - healed;
    ended && host.store == store && host.marks == marks && left(host) == expected
}

/// N is 32: LBA 30 has room for two sectors.
fn lba_end() -> bool {
    let good = RUN_OPCODES.into_iter().all(|opcode| {
        let mut host = opened(4, 2, 4);
        leaves(&mut host, (opcode, 30, 3, true), failed(3, 30, 0, 0x40, 0x2F), &[])
            && leaves(&mut host, (opcode, 0, 33, true), failed(33, 0, 0, 0x40, 0x2F), &[])
            && leaves(&mut host, (opcode, 31, 256, true), failed(0, 31, 0, 0x40, 0x2F), &[])
            && leaves(&mut host, (opcode, 30, 2, true), good(0, 31, 0, 0x40), &[30, 31])
            && leaves(&mut host, (opcode, 31, 1, true), good(0, 31, 0, 0x40), &[31])
            && leaves(&mut host, (opcode, 0, 32, true), good(0, 31, 0, 0x40), &sectors(0, 32))
    });
    told("runs to the end of the card and past it, LBA", good)
}

/// The sectors from one on.
fn sectors(first: usize, count: usize) -> Vec<usize> {
    (first..first + count).collect()
}

/// Sample 8's geometry has 30 of the 32 sectors: (1,2,4) is 28, and two remain from there.
fn chs_end() -> bool {
    let good = RUN_OPCODES.into_iter().all(|opcode| {
        let mut host = opened(4, 2, 4);
        parameters(&mut host, 3, 5);
        leaves(&mut host, (opcode, 28, 3, false), failed(3, 4, 1, 2, 0x2F), &[])
            && leaves(&mut host, (opcode, 0, 31, false), failed(31, 1, 0, 0, 0x2F), &[])
            && leaves(&mut host, (opcode, 28, 5, true), failed(5, 28, 0, 0x40, 0x2F), &[])
            && leaves(&mut host, (opcode, 28, 2, false), good(0, 5, 1, 2), &[28, 29])
            && leaves(&mut host, (opcode, 0, 30, false), good(0, 5, 1, 2), &sectors(0, 30))
            && leaves(&mut host, (opcode, 28, 4, true), good(0, 31, 0, 0x40), &sectors(28, 4))
    });
    told("runs to the end of the current capacity and past it, CHS", good)
}

/// Count 0: 256 sectors just fit from the first sector if N is 256, and from the second if it is 257.
fn most_sectors() -> bool {
    let lba = RUN_OPCODES.into_iter().all(|opcode| {
        let (mut even, mut odd) = (opened(256, 1, 1), opened(257, 1, 1));
        leaves(&mut even, (opcode, 1, 256, true), failed(0, 1, 0, 0x40, 0x2F), &[])
            && leaves(&mut even, (opcode, 0, 256, true), good(0, 255, 0, 0x40), &sectors(0, 256))
            && leaves(&mut odd, (opcode, 2, 256, true), failed(0, 2, 0, 0x40, 0x2F), &[])
            && leaves(&mut odd, (opcode, 1, 256, true), good(0, 0, 1, 0x40), &sectors(1, 256))
    });
    let chs = RUN_OPCODES.into_iter().all(|opcode| {
        let (mut even, mut odd) = (opened(256, 1, 1), opened(257, 1, 1));
        leaves(&mut even, (opcode, 1, 256, false), failed(0, 1, 1, 0, 0x2F), &[])
            && leaves(&mut even, (opcode, 0, 256, false), good(0, 1, 255, 0), &sectors(0, 256))
            && leaves(&mut odd, (opcode, 256, 2, false), failed(2, 1, 256, 0, 0x2F), &[])
            && leaves(&mut odd, (opcode, 1, 256, false), good(0, 1, 256, 0), &sectors(1, 256))
    });
    told("runs of 256 sectors", lba && chs)
}

/// Marks of a run past the end are not looked at; one of a run that fits ends it there.
fn marks() -> bool {
    let mut host = opened(4, 2, 4);
    for (at, mark) in [(29, 1), (30, 2), (31, 200)] {
        host.set_mark(at, mark);
    }
    host.set_field(26, 3);
    let past = [28, 29, 30, 31].into_iter().all(|first| {
        let expected = failed(5, first as u16, 0, 0x40, 0x2F);
        RUN_OPCODES
            .into_iter()
            .all(|opcode| leaves(&mut host, (opcode, first, 5, true), expected, &[]))
    });
    let unreadable = [0x51, 0x40, 2, 29, 0, 0x40, 0x11];
    let fault = [0x71, 0x04, 2, 30, 0, 0x40, 0x03];
    let good = past
        && leaves(&mut host, (0x40, 28, 3, true), unreadable, &[])
        && leaves(&mut host, (0xC0, 28, 4, true), fault, &[28, 29])
        && leaves(&mut host, (0xC0, 31, 1, true), good(0, 31, 0, 0x40), &[31]);
    told("marks in runs past the end and in runs that fit", good)
}

/// A bad start comes before the run.
fn bad_starts() -> bool {
    let mut host = opened(4, 2, 4);
    host.set_mark(0, 1);
    host.set_mark(31, 2);
    host.set_field(26, 2);
    let good = RUN_OPCODES.into_iter().all(|opcode| {
        [1, 33, 256].into_iter().all(|sectors: usize| {
            let count = sectors as u16 % 256;
            let mut chs = |c, h, s, code| {
                host.set_chs(c, h, s);
                let expected = failed(count, s as u16, c, h as u16, code);
                leaves_here(&mut host, opcode, sectors, expected, &[])
            };
            chs(0, 0, 0, 0x21)
                && chs(3, 2, 1, 0x21)
                && chs(4, 1, 5, 0x21)
                && chs(4, 0, 1, 0x2F)
                && chs(256, 0, 1, 0x2F)
                && leaves(
                    &mut host,
                    (opcode, 32, sectors, true),
                    failed(count, 32, 0, 0x40, 0x2F),
                    &[],
                )
        })
    });
    told("bad starts of runs that are too long as well", good)
}

/// Reads and writes keep 01's rule: a sector is moved before the run leaves the card.
fn reads_and_writes() -> bool {
    let good = [0x20, 0x21, 0x30, 0x31].into_iter().all(|opcode| {
        let mut host = opened(4, 2, 4);
        begin(&mut host, opcode, 31, 256, true);
        let begun = host.get(7) == 0x58;
        host.rest_of_sector(Style::Words);
        begun && left(&mut host) == failed(255, 32, 0, 0x40, 0x2F)
    });
    told("reads and writes past the end", good)
}
