//! 01's sample session, its thirteen samples, the old model's errors, Identify's integrity word, the
//! number of bad sectors, (`run_selftest`) runs past the end and (`block_selftest`) blocks of several
//! sectors, checked on this program.

use crate::block_selftest;
use crate::card::{Access, Geometry};
use crate::host::{push_access, push_opening, Host, Style};
use crate::run_selftest;
use crate::session_player;
use crate::trial_player;
use crate::tuples::{self, Entry};

/// A session being written down together with the text it should give.
struct Talk {
    file: Vec<u8>,
    text: String,
    number: usize,
    space: u8,
}

impl Talk {
    /// C 4, H 2, S 4; True IDE is space 3, memory space 1.
    fn new(space: u8) -> Talk {
        let mode = (space == 3) as u16;
        let mut file = Vec::new();
        push_opening(&mut file, [4, 2, 4, mode]);
        Talk { file, text: "n op answer value\n".into(), number: 0, space }
    }

    fn access(&mut self, write: bool, width: u8, address: u16, value: u16) {
        let a = Access { space: self.space, width, write, address, value };
        push_access(&mut self.file, &a);
        self.number += 1;
        let letter = if write { 'W' } else { 'R' };
        self.text.push_str(&format!("{} {letter} 0 {value:04X}\n", self.number));
    }

    fn put(&mut self, address: u16, value: u16) {
        self.access(true, 1, address, value);
    }

    /// Reads a byte that should have this value.
    fn get(&mut self, address: u16, value: u16) {
        self.access(false, 1, address, value);
    }

    fn put_word(&mut self, value: u16) {
        self.access(true, 2, 0, value);
    }

    fn get_word(&mut self, value: u16) {
        self.access(false, 2, 0, value);
    }

    fn registers(&mut self, count: u16, sector: u16, cylinder: u16, head: u16) {
        let values = [count, sector, cylinder & 0xFF, cylinder >> 8, head];
        for (address, value) in (2..).zip(values) {
            self.put(address, value);
        }
    }

    fn chs(&mut self, count: u16, c: u16, h: u16, s: u16) {
        self.registers(count, s, c, h);
    }

    fn lba(&mut self, count: u16, lba: u16) {
        self.registers(count, lba, 0, 0x40);
    }

    /// Status and Error, and the code by 03H.
    fn ended(&mut self, status: u16, error: u16, code: u16) {
        self.get(7, status);
        self.get(1, error);
        self.put(7, 3);
        self.get(1, code);
    }

    fn check(&self, name: &str) -> bool {
        let got = session_player::play(&self.file);
        told(name, got == self.text)
    }
}

pub fn told(name: &str, good: bool) -> bool {
    println!("{} {name}", if good { "good" } else { "BAD " });
    good
}

pub fn run() -> bool {
    let mut checks = vec![
        sample_session(),
        ends(),
        chs_is_31(),
        bad_addresses(),
        lba_limits(),
        read_past_the_end(),
        verify_all(),
        new_geometry(),
        refused_geometry(),
        memory_addresses(),
        halves_swapped(),
        tuple_sample(),
        drive_address(),
        identify_halves(),
        integrity_words(),
        integrity_sums(),
        bad_shown(),
        bad_to_zero(),
        bad_in_mid_write(),
        bad_limit(),
        sense_twice(),
        alternate_status(),
    ];
    checks.extend(run_selftest::checks());
    checks.extend(block_selftest::checks());
    let passed = checks.iter().filter(|&&c| c).count();
    println!("{passed} passed, {} failed", checks.len() - passed);
    passed == checks.len()
}

fn sample_session() -> bool {
    let mut t = Talk::new(3);
    t.put(7, 0xFF);
    t.get(7, 0x51);
    t.get(1, 4);
    t.put(7, 3);
    t.get(1, 0x20);
    let text = "n op answer value\n1 W 0 00FF\n2 R 0 0051\n3 R 0 0004\n4 W 0 0003\n5 R 0 0020\n";
    t.check("the sample session") && t.text == text
}

/// Files that say nothing: empty, too long, refused, an opening alone.
fn ends() -> bool {
    let head = "n op answer value\n";
    let opening = Talk::new(3).file;
    let mut refused = opening.clone();
    refused[4] = 5;
    let good = session_player::play(&[]) == format!("{head}bad 0\n")
        && session_player::play(&[0; 40_000]) == format!("{head}bad 32768\n")
        && session_player::play(&refused) == format!("{head}open 1\n")
        && session_player::play(&opening) == head
        && session_player::play(&[opening, vec![8]].concat()) == format!("{head}bad 12\n");
    told("files without accesses", good)
}

/// Writes sector `lba` with words that count up, and reads it at a CHS address.
fn same_sector(t: &mut Talk, lba: u16, c: u16, h: u16, s: u16) {
    t.lba(1, lba);
    t.put(7, 0x30);
    (0..256).for_each(|i| t.put_word(0x1100 + i));
    t.chs(1, c, h, s);
    t.put(7, 0x20);
    (0..256).for_each(|i| t.get_word(0x1100 + i));
    t.get(7, 0x50);
}

fn chs_is_31() -> bool {
    let mut t = Talk::new(3);
    same_sector(&mut t, 31, 3, 1, 4);
    t.check("1: CHS (3,1,4) is 31")
}

fn bad_addresses() -> bool {
    let mut t = Talk::new(3);
    for (c, h, s, code) in [(0, 0, 0, 0x21), (4, 0, 1, 0x2F), (4, 2, 1, 0x21)] {
        t.chs(1, c, h, s);
        t.put(7, 0x40);
        t.ended(0x51, 0x10, code);
    }
    t.check("2, 3, 4: bad CHS addresses")
}

fn lba_limits() -> bool {
    let mut t = Talk::new(3);
    t.lba(1, 31);
    t.put(7, 0x40);
    t.ended(0x50, 0, 0);
    t.lba(1, 32);
    t.put(7, 0x40);
    t.ended(0x51, 0x10, 0x2F);
    t.check("5: LBA 31 and 32")
}

fn read_past_the_end() -> bool {
    let mut t = Talk::new(3);
    t.lba(3, 30);
    t.put(7, 0x20);
    (0..511).for_each(|_| t.get_word(0));
    t.get(7, 0x58);
    t.get_word(0);
    t.get(2, 1);
    t.get(3, 32);
    t.get(6, 0xE0);
    t.ended(0x51, 0x10, 0x2F);
    t.check("6: a read past the end")
}

fn verify_all() -> bool {
    let mut t = Talk::new(3);
    t.lba(0, 0);
    t.put(7, 0x40);
    for (address, value) in (2..).zip([0, 0, 0, 0, 0xE0]) {
        t.get(address, value);
    }
    t.ended(0x51, 0x10, 0x2F);
    t.check("7: Verify of 256 sectors, past the end")
}

fn new_geometry() -> bool {
    let mut t = Talk::new(3);
    t.registers(5, 1, 0, 2);
    t.put(7, 0x91);
    t.get(7, 0x50);
    same_sector(&mut t, 29, 1, 2, 5);
    t.lba(1, 30);
    t.put(7, 0x40);
    t.ended(0x50, 0, 0);
    t.put(7, 0xEC);
    // As at power-on, but words 54..57 give 40: in all 2,744, which lacks 48H to 11·256.
    for word in identify([2, 3, 5, 30, 0], 0x48A5) {
        t.get_word(word);
    }
    t.check("8: 91H with Count 5, nibble 2")
}

/// Identify for the default C 4, H 2, S 4, with words 54..58 and 255 as given.
fn identify(now: [u16; 5], integrity: u16) -> Vec<u16> {
    let mut w = vec![0; 256];
    (w[0], w[1], w[3], w[6], w[8]) = (0x848A, 4, 2, 4, 32);
    for i in [10..20, 23..27, 27..47].into_iter().flatten() {
        w[i] = 0x2020;
    }
    (w[47], w[49], w[53], w[60]) = (0x0010, 0x0200, 1, 32);
    w[54..59].copy_from_slice(&now);
    w[255] = integrity;
    w
}

fn refused_geometry() -> bool {
    let mut t = Talk::new(3);
    t.registers(33, 1, 0, 0);
    t.put(7, 0x91);
    t.ended(0x51, 0x04, 0x21);
    t.check("9: 91H with Count 33")
}

fn memory_addresses() -> bool {
    let mut t = Talk::new(1);
    t.get(0x3F7, 0x50);
    t.put(7, 0xE8);
    t.put(0x401, 0x22);
    t.put(0x400, 0x11);
    t.put(7, 0xE4);
    t.get_word(0x2211);
    t.check("10: memory 3F7H and 401H")
}

fn halves_swapped() -> bool {
    let mut t = Talk::new(1);
    t.put(7, 0xE8);
    t.put(9, 0x22);
    t.put(8, 0x11);
    t.put(7, 0xE4);
    t.get(0, 0x11);
    t.get(0, 0x22);
    t.check("11: 22H at 9, then 11H at 8")
}

fn tuple_sample() -> bool {
    let mut buffer = [0xFF; 256];
    buffer[..7].copy_from_slice(&[0x18, 0x02, 0xDF, 0x01, 0x14, 0x00, 0xFF]);
    let mut list = [Entry::default(); 127];
    let count = tuples::read(&buffer, &mut list);
    let first = Entry { code: 0x18, start: 2, length: 2 };
    let second = Entry { code: 0x14, start: 6, length: 0 };
    let mut written = [0; 256];
    let back = tuples::write(&list[..2], &buffer, &mut written);
    let good =
        count == Ok(2) && list[..2] == [first, second] && back == Ok(()) && written == buffer;
    told("12: the tuple chain", good)
}

fn drive_address() -> bool {
    let mut t = Talk::new(3);
    t.get(0x17, 0x7E);
    t.check("13: Drive Address at power-on")
}

fn identify_halves() -> bool {
    let mut t = Talk::new(3);
    t.put(7, 0xEC);
    // Word 0 gives 270; 1, 3, 6, 8 give 42; the 34 words 2020H 2,176; 47, 49, 53 give 19; 54..57
    // give 42; 60 gives 32; A5H is 165: in all 2,746, which lacks 46H to 11·256.
    for word in identify([4, 2, 4, 32, 0], 0x46A5) {
        t.get_word(word);
    }
    t.get(7, 0x50);
    t.check("Identify, words 7 and 8 high half first")
}

/// The words of Identify as a host reads them, after a 91H (Count, nibble) if there is one.
fn identified(g: Geometry, parameters: Option<(u8, u8)>) -> Vec<u16> {
    let mut host = Host::trial(1, g, 1);
    if let Some((count, nibble)) = parameters {
        host.put(2, count);
        host.put(6, nibble);
        host.put(7, 0x91);
    }
    host.put(7, 0xEC);
    (0..256).map(|_| host.get_word(0)).collect()
}

/// C 4, H 2, S 4 as above; C 190, H 1, S 1, whose other bytes give 3,584 = 14·256.
fn integrity_words() -> bool {
    let last = |c, h, s| identified(Geometry::new(c, h, s), None)[255];
    told("Identify, the integrity word", last(4, 2, 4) == 0x46A5 && last(190, 1, 1) == 0x00A5)
}

/// At power-on and after 91H, taken or not.
fn integrity_sums() -> bool {
    let cards = [(4, 2, 4), (1, 1, 1), (190, 1, 1), (1000, 1, 1), (2, 2, 255), (1, 16, 63)];
    let changes = [None, Some((1, 0)), Some((5, 2)), Some((63, 15)), Some((255, 1))];
    let zero = |words: Vec<u16>| {
        let bytes: Vec<u8> = words.into_iter().flat_map(u16::to_le_bytes).collect();
        bytes[510] == 0xA5 && bytes.into_iter().fold(0, u8::wrapping_add) == 0
    };
    let good = cards.into_iter().all(|(c, h, s)| {
        changes.into_iter().all(|change| zero(identified(Geometry::new(c, h, s), change)))
    });
    told("Identify, 512 bytes that give 0", good)
}

/// A host at C 4, H 2, S 4 in True IDE mode, opened over these marks.
fn marked(marks: &[(usize, u8)]) -> Host {
    let mut host = Host::trial(1, Geometry::new(4, 2, 4), 1);
    for &(at, mark) in marks {
        host.set_mark(at, mark);
    }
    host.reopen();
    host
}

/// Words 129 and 255 of Identify.
fn bad_words(host: &mut Host) -> [u16; 2] {
    host.put(7, 0xEC);
    let words: Vec<u16> = (0..256).map(|_| host.get_word(0)).collect();
    [words[129], words[255]]
}

/// A command at one sector by LBA, with its data if it wants any.
fn at_sector(host: &mut Host, opcode: u8, lba: u32) {
    host.set_lba(lba);
    host.put(2, 1);
    host.put(7, opcode);
    host.rest_of_sector(Style::Words);
}

/// Three marks make 3 of word 129, and 43H of 46H in word 255; one written leaves 2 and 44H, a sound
/// and a faulty sector leave that, and Erase leaves 1 and 45H, which a hold and 90H leave.
fn bad_shown() -> bool {
    let mut host = marked(&[(3, 1), (9, 2), (30, 1)]);
    let mut words = vec![bad_words(&mut host)];
    for (opcode, lba) in [(0x30, 3), (0x30, 0), (0x30, 9), (0xC0, 30), (0xC0, 9)] {
        at_sector(&mut host, opcode, lba);
        words.push(bad_words(&mut host));
    }
    host.put(0xE, 4);
    host.put(0xE, 0);
    host.put(7, 0x90);
    words.push(bad_words(&mut host));
    let (two, one) = ([2, 0x44A5], [1, 0x45A5]);
    let good = words == [[3, 0x43A5], two, two, two, one, one, one];
    told("Identify, the number of bad sectors", good && bad_words(&mut marked(&[])) == [0, 0x46A5])
}

/// Marks from outside take off a number that never had them, to 0 and no further; a mark cleared from
/// outside is not missed.
fn bad_to_zero() -> bool {
    let mut host = marked(&[(3, 1), (4, 1), (5, 2)]);
    host.set_mark(5, 0);
    let mut numbers = vec![host.card.bad];
    for (opcode, mark) in [(0x30, 200), (0xC0, 3), (0x30, 0), (0xC0, 1), (0x30, 255)] {
        host.set_mark(12, mark);
        at_sector(&mut host, opcode, 12);
        numbers.push(host.card.bad);
    }
    told("the number of bad sectors falls to 0 and no further", numbers == [3, 2, 1, 1, 0, 0])
}

/// A mark changed in mid-write decides at the last byte: Status and the number of bad sectors after it.
fn bad_in_mid_write() -> bool {
    let mut host = marked(&[(3, 1), (9, 2)]);
    let mut ends = Vec::new();
    for (lba, mark) in [(3, 0), (9, 0), (0, 200), (1, 2), (2, 1)] {
        host.set_lba(lba);
        host.put(2, 1);
        host.put(7, 0x30);
        host.transfer(10, Style::Words);
        host.set_mark(lba as usize, mark);
        host.rest_of_sector(Style::Words);
        ends.push((host.get(7), host.card.bad));
    }
    let good = ends == [(0x50, 2), (0x50, 2), (0x50, 1), (0x71, 1), (0x50, 0)];
    told("the mark at a write's last byte decides", good)
}

/// At most N, which is 32.
fn bad_limit() -> bool {
    let mut host = marked(&[]);
    let mut number = |bad| {
        host.set_field(26, bad);
        host.access(Access { space: 3, width: 1, write: false, address: 7, value: 0 }).number
    };
    let numbers = [0, 1, 31, 32, 33, 65535, 32].map(&mut number);
    told("more than N bad sectors are refusal 12", numbers == [0, 0, 0, 0, 12, 12, 0])
}

fn sense_twice() -> bool {
    let mut t = Talk::new(3);
    t.put(7, 0xFF);
    t.ended(0x51, 0x04, 0x20);
    t.ended(0x50, 0x20, 0x20);
    t.check("a second 03H says the same")
}

/// The line is up after a command, still up after Alternate Status, down after Status.
fn alternate_status() -> bool {
    let record = |words: [u16; 8]| words.map(u16::to_le_bytes).concat();
    let input = [
        record([8, 32, 32 * 512, 0, 256, 0, 0, 0]),
        record([1, 4, 2, 4, 1, 0, 0, 0]),
        record([3, 3, 1, 1, 7, 0x10, 1, 0]),
        record([3, 3, 1, 0, 0x16, 0, 1, 0]),
        record([3, 3, 1, 0, 7, 0, 1, 0]),
    ];
    let text = trial_player::play(&input.concat());
    let lines: Vec<&str> = text.lines().map(|l| &l[..l.len().min(11)]).collect();
    let good = lines[..4] == ["A 00 0000 0", "A 00 0000 1", "A 00 0050 1", "A 00 0050 0"];
    told("Alternate Status leaves the mark", good)
}
