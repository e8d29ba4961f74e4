//! Trial inputs that change marks while a write's data are on their way: "a write's mark at its last
//! byte", so the mark that stands there then decides the write fault and the number of bad sectors.

use crate::bad_sector_inputs::{glance, open_over, set_marks, whole};
use crate::card::{bad_sectors, Half};
use crate::host::{Host, Style};
use crate::inputs::{Case, Group};
use crate::points::Number;
use crate::trial_inputs::{finish, small};

pub fn changed_marks(seed: u64, all: &mut Vec<Case>) {
    on_the_way(seed, all);
    whole_sectors(seed, all);
    mixed(seed, all);
}

/// Marks of every sort; the last counts as 1.
const MARKS: [u8; 4] = [0, 1, 2, 200];

/// A write of some sectors, and the change of one's mark while it or one before it is at hand.
#[derive(Clone, Copy)]
struct Plan {
    first: usize,
    count: usize,
    /// The sector at hand and the changed one, from 0 at the command's first.
    hand: usize,
    changed: usize,
    from: u8,
    to: u8,
}

/// The changes of a sector's mark, without a change of none.
fn changes() -> impl Iterator<Item = (u8, u8)> {
    let all = MARKS.into_iter().flat_map(|from| MARKS.map(|to| (from, to)));
    all.filter(|(from, to)| from != to)
}

/// Goes to the sector at hand; of those before it the last word alone is moved.
fn begin(host: &mut Host, plan: &Plan) {
    let lba = host.rng.flip();
    host.name_sector(plan.first, lba);
    host.put(2, plan.count as u8);
    host.set_field(27, 2);
    let opcode = host.rng.pick(&[0x30, 0xC5]);
    host.put(7, opcode);
    for _ in 0..plan.hand {
        last_word(host, Style::Words);
    }
}

/// Moves the last word of the present sector, the others count as moved.
fn last_word(host: &mut Host, style: Style) {
    if host.card.running() && !host.full {
        host.set_field(21, 255);
        host.one_word(style);
    }
}

/// Moves the last words of all sectors that are left.
fn last_words(host: &mut Host, style: Style) {
    while host.card.running() && !host.full {
        last_word(host, style);
    }
}

// ---------------------------------------------------------------- one change

/// (sectors, the one at hand, the changed one): on its way, and ahead.
const ON_ITS_WAY: [(usize, usize, usize); 4] = [(1, 0, 0), (3, 0, 0), (3, 1, 1), (3, 2, 2)];
const AHEAD: [(usize, usize, usize); 4] = [(2, 0, 1), (4, 0, 2), (4, 1, 2), (4, 1, 3)];

/// Every change, with a number of bad sectors that is right, 0 though there are some, and too high.
fn on_the_way(seed: u64, all: &mut Vec<Case>) {
    let mut case = 0;
    for (name, places) in [("way", ON_ITS_WAY), ("ahead", AHEAD)] {
        for (number, _) in Number::TABLE {
            for mode in 0..2 {
                case += 1;
                let mut host = small(Group::BadOnTheWay.seed(seed, case), mode);
                open_over(&mut host, beside);
                for (k, (from, to)) in changes().enumerate() {
                    for (i, (count, hand, changed)) in places.into_iter().enumerate() {
                        let first = (5 * k + i) % 24;
                        let plan = Plan { first, count, hand, changed, from, to };
                        one_change(&mut host, &plan, *number, 4 * k + i + case);
                    }
                }
                whole(&mut host);
                finish(format!("bad-{name}-{number:?}-{mode}"), host, all);
            }
        }
    }
}

/// The marks of sectors that no command names.
fn beside(at: usize) -> u8 {
    match at {
        29 => 1,
        30 => 2,
        _ => 0,
    }
}

fn one_change(host: &mut Host, plan: &Plan, number: Number, turn: usize) {
    let changed = plan.first + plan.changed;
    // The other sectors of the command can be written, and some of them are bad.
    set_marks(host, |at| match at {
        _ if at == changed => plan.from,
        _ if (plan.first..plan.first + plan.count).contains(&at) => ((at + turn) % 2) as u8,
        _ => beside(at),
    });
    let there = bad_sectors(&host.marks);
    let bad = match number {
        Number::Right => there,
        Number::TooLow => 0,
        Number::TooHigh => there + 2,
    };
    host.set_field(26, bad);
    begin(host, plan);
    move_some(host, turn % 6);
    host.set_mark(changed, plan.to);
    if host.card.half != Half::Nothing {
        host.data_byte(0);
    }
    let style = host.rng.pick(&[Style::Words, Style::Bytes, Style::OddEven]);
    last_words(host, style);
    glance(host);
}

/// What has moved of the sector at hand when a mark is changed: nothing, a byte, words, words and a
/// byte, all but the last word, all but the last byte.
fn move_some(host: &mut Host, how: usize) {
    match how {
        0 => {}
        1 => host.data_byte(0),
        2 => host.transfer(2, Style::Words),
        3 => {
            host.transfer(1, Style::Bytes);
            host.data_byte(0);
        }
        4 => host.set_field(21, 255),
        _ => {
            host.set_field(21, 255);
            host.data_byte(if host.wide_map() { 9 } else { 0 });
        }
    }
}

// ---------------------------------------------------------------- whole sectors

/// Sectors moved word by word, over marks that an opening has counted; no field of the card is set
/// from outside.
fn whole_sectors(seed: u64, all: &mut Vec<Case>) {
    for (number, (from, to)) in changes().filter(|&(from, _)| from <= 2).enumerate() {
        let mut host = small(Group::BadWhole.seed(seed, number), (number % 2) as u16);
        open_over(&mut host, |at| match at {
            8 | 12 | 16 => from,
            _ => (at % 5 == 0) as u8,
        });
        // In the first sector, in the second, and in the first for the second.
        for (first, count, words) in [(8, 1, 100), (11, 2, 300), (15, 2, 10)] {
            write_whole(&mut host, first, count, words, to);
            whole(&mut host);
        }
        finish(format!("bad-whole-{from}-{to}"), host, all);
    }
}

/// Moves so many words of a write and a byte, changes the last sector's mark, moves the rest.
fn write_whole(host: &mut Host, first: usize, count: usize, words: usize, mark: u8) {
    host.name_sector(first, first.is_multiple_of(2));
    host.put(2, count as u8);
    host.put(7, 0x30);
    host.transfer(words, Style::Words);
    host.data_byte(0);
    host.set_mark(first + count - 1, mark);
    host.transfer(256 * count - words, Style::Words);
}

// ---------------------------------------------------------------- many changes

/// Writes with any changes of any marks between any words.
fn mixed(seed: u64, all: &mut Vec<Case>) {
    for number in 0..8 {
        let mut host = small(Group::BadMixed.seed(seed, number), (number % 2) as u16);
        for round in 0..60 {
            if round % 10 == 0 {
                let marks: Vec<u8> = host.marks.iter().map(|&mark| mark.min(2)).collect();
                open_over(&mut host, |at| marks[at]);
            }
            mixed_write(&mut host);
            glance(&mut host);
        }
        finish(format!("bad-mixed-{number}"), host, all);
    }
}

fn mixed_write(host: &mut Host) {
    let (first, lba) = (host.rng.below(host.marks.len()), host.rng.flip());
    let (opcode, count) = (host.rng.pick(&[0x30, 0x31]), host.rng.pick(&[1, 2, 4]));
    host.name_sector(first, lba);
    host.put(2, count);
    host.put(7, opcode);
    while host.card.running() && !host.full {
        let (words, style) = (host.rng.below(3), host.rng.pick(&[Style::Words, Style::Mixed]));
        host.transfer(words, style);
        for _ in 0..host.rng.below(3) {
            // Among the sectors of the command, the one before it and the one after it.
            let at = first + host.rng.below(count as usize + 2);
            let (at, any) = (at.saturating_sub(1).min(host.marks.len() - 1), host.rng.byte());
            let mark = host.rng.pick(&[0, 0, 1, 1, 2, any]);
            host.set_mark(at, mark);
        }
        last_word(host, style);
    }
}
