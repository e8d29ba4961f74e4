//! What a host does: whole commands, broken-off ones, resets, long wanderings.

use crate::card::{Access, Geometry, Half};
use crate::commands::row;
use crate::host::{Host, Style, STYLES};

const COMMANDS: [u8; 19] = [
    0x20, 0x21, 0x30, 0x31, 0x40, 0x41, 0xC0, 0xEC, 0xE4, 0xE8, 0x91, 0x90, 0x10, 0x70, 0x03, 0xFF,
    0xC4, 0xC5, 0xC6,
];

// ---------------------------------------------------------------- resets

impl Host {
    /// Device Control bit 2 set, things done in the hold, bit 2 cleared.
    fn hold(&mut self) {
        let bits = self.rng.byte();
        self.put(0xE, bits | 4);
        for _ in 0..self.rng.below(6) {
            self.in_hold();
        }
        if self.rng.percent(12) {
            self.sreset();
        }
        if self.card.hold {
            let other = self.rng.byte();
            self.put(0xE, other & !4);
        }
        self.look_sometimes();
    }

    fn in_hold(&mut self) {
        let offsets: &[u8] = if self.wide_map() {
            &[0, 1, 2, 3, 4, 5, 6, 7, 8, 9, 0xD, 0xE, 0xF]
        } else {
            &[0, 1, 2, 3, 4, 5, 6, 7, 0xE, 0xF]
        };
        let offset = self.rng.pick(offsets);
        let value = self.rng.byte();
        match self.rng.below(8) {
            0 | 1 => drop(self.get(offset)),
            2 | 3 if offset != 0xE => drop(self.put(offset, value)),
            4 => drop(self.get_word(0)),
            5 => self.change_map(),
            6 => {
                let command = self.rng.pick(&COMMANDS);
                self.put(7, command);
            }
            _ => drop(self.put(0xE, value | 4)),
        }
    }

    /// SRESET set, accesses while it holds, cleared with some index.
    fn sreset(&mut self) {
        if self.true_ide() {
            return self.silent_space();
        }
        let index = self.rng.below(4) as u8;
        self.option(0x80 | index);
        for _ in 0..self.rng.below(6) {
            self.in_sreset();
        }
        let value = self.rng.below(4) as u8 | if self.rng.flip() { 0x40 } else { 0 };
        self.option(value);
        self.look_sometimes();
    }

    fn in_sreset(&mut self) {
        let value = self.rng.byte();
        match self.rng.below(6) {
            0 => drop(self.option_read()),
            1 => drop(self.option(0x80 | value & 0x43)),
            2 => drop(self.option(value | 4)),
            3 => drop(self.access(Access {
                space: 0,
                width: 2,
                write: false,
                address: 0x200,
                value: 0,
            })),
            4 => drop(self.get(7)),
            _ => match self.rng.below(4) as u8 {
                0 => self.simple(0, 2 * value as u16),
                space => self.anywhere(space),
            },
        }
    }

    fn look_sometimes(&mut self) {
        if self.rng.flip() {
            self.look();
        }
    }
}

// ---------------------------------------------------------------- commands

impl Host {
    /// Sets the address registers: mostly a good sector, often near the end, sometimes bad.
    pub fn aim(&mut self) {
        let lba = self.rng.flip();
        let n = self.card.default.sectors() as usize;
        let end = if lba { n } else { self.card.current.sectors() as usize };
        let i = match self.rng.below(10) {
            0..=4 => self.rng.below(n),
            5..=7 => end.saturating_sub(self.rng.below(4)),
            8 => 0,
            _ => end + self.rng.below(3),
        };
        if self.rng.percent(88) {
            return self.name_sector(i, lba);
        }
        self.aim_badly(lba);
    }

    fn aim_badly(&mut self, lba: bool) {
        let g = self.card.current;
        if lba {
            let any = self.rng.next() as u32 & 0x0FFF_FFFF;
            let lba = self.rng.pick(&[any, any & 0xFFFF, any & 0x1FF, 0x0100_0000, 0x0001_0000]);
            return self.set_lba(lba);
        }
        let c = self.rng.pick(&[0, g.c - 1, g.c, g.c.wrapping_add(1), 0x100, 0xFFFF]);
        let h = self.rng.pick(&[0, g.h as u8 - 1, g.h as u8, 15]);
        let s = self.rng.pick(&[0, 1, g.s as u8, (g.s + 1) as u8, 255]);
        self.set_chs(c, h, s);
    }

    /// A count: small for data, anything for a command without.
    fn some_count(&mut self, data: bool) -> u8 {
        match self.rng.below(10) {
            0..=3 => 1,
            4 | 5 => 2,
            6 => 3,
            7 => 0,
            8 if data => 4,
            8 => 33,
            _ => self.rng.byte(),
        }
    }

    /// One sector command, moved whole or in part, ended or left to what comes.
    fn sector_story(&mut self, opcode: u8) {
        self.aim();
        let data = row(opcode).reads() || row(opcode).writes();
        let count = self.some_count(data);
        self.put(2, count);
        self.put(7, opcode);
        if self.rng.percent(40) {
            self.look();
        }
        self.move_some(3);
        self.after();
    }

    /// C6H, mostly with a block that it takes.
    pub fn new_block(&mut self) {
        let any = self.rng.byte();
        let count = self.rng.pick(&[1, 2, 2, 4, 4, 8, 16, 0, 3, any]);
        self.put(2, count);
        self.put(7, 0xC6);
    }

    /// C4H or C5H, mostly with a block.
    fn block_story(&mut self) {
        if self.card.block == 0 && self.rng.percent(80) || self.rng.percent(20) {
            self.new_block();
            self.after();
        }
        let opcode = self.rng.pick(&[0xC4, 0xC5]);
        self.sector_story(opcode);
    }

    /// Moves a running transfer whole, or in part and then breaks it off.
    fn move_some(&mut self, sectors: usize) {
        let style = self.rng.pick(&STYLES);
        self.noise = self.rng.pick(&[0, 0, 5, 30, 100]);
        match self.rng.below(10) {
            0..=5 => {
                for _ in 0..sectors {
                    self.rest_of_sector(style);
                    self.look_after_sector();
                }
            }
            6 => self.nearly(style),
            _ => {
                let words = self.rng.below(40);
                self.transfer(words, style);
                self.half_moved();
                self.break_off();
            }
        }
        self.noise = 0;
    }

    fn look_after_sector(&mut self) {
        if self.rng.percent(30) {
            self.look();
        } else {
            self.get(0xE);
        }
    }

    /// All of a sector but its last byte or word, then a break.
    fn nearly(&mut self, style: Style) {
        if self.rng.flip() {
            self.rest_of_sector(style);
        }
        while self.card.running() && self.card.words < 255 && !self.full {
            self.one_word(style);
        }
        self.half_moved();
        if self.rng.flip() {
            self.break_off();
        } else {
            self.transfer(1, style);
            self.look();
        }
    }

    /// Half a word, then what is refused after it.
    fn half_moved(&mut self) {
        if !self.card.running() || self.rng.flip() || self.card.half != Half::Nothing {
            return;
        }
        let offset = if self.wide_map() { self.rng.pick(&[0, 8, 9]) } else { 0 };
        self.data_byte(offset);
        self.half_again_maybe();
    }

    fn half_again_maybe(&mut self) {
        if self.card.half != Half::Nothing && self.rng.flip() {
            self.half_again();
        }
    }

    /// Ends a transfer by a command or a reset, or leaves it running.
    fn break_off(&mut self) {
        match self.rng.below(10) {
            0 | 1 => self.hold(),
            2 => self.sreset(),
            3..=7 => {
                let command = self.rng.pick(&COMMANDS);
                self.put(7, command);
                self.look();
            }
            8 => self.show_buffer(),
            _ => {}
        }
    }

    /// E4H, the first words or all of it.
    fn show_buffer(&mut self) {
        self.put(7, 0xE4);
        let words = self.rng.pick(&[4, 40, 256]);
        let style = self.rng.pick(&STYLES);
        self.transfer(words, style);
    }

    /// What a host may do after a command.
    fn after(&mut self) {
        match self.rng.below(8) {
            0 | 1 => self.look(),
            2 => self.sense(),
            3 => {
                self.sense();
                self.sense();
            }
            4 => self.show_buffer(),
            5 => drop(self.get(7)),
            _ => {}
        }
    }

    /// Writes a sector and reads it back through another address form.
    pub fn write_and_read(&mut self) {
        let capacity = self.card.current.sectors() as usize;
        let i = self.rng.below(capacity);
        let lba = self.rng.flip();
        for (opcode, lba) in [(0x30, lba), (0x20, !lba)] {
            self.name_sector(i, lba);
            self.put(2, 1);
            let opcode = opcode | self.rng.below(2) as u8;
            self.put(7, opcode);
            let style = self.rng.pick(&STYLES);
            self.rest_of_sector(style);
            self.look_after_sector();
        }
    }

    /// 91H, often with a geometry that it takes.
    fn new_parameters(&mut self) {
        let n = self.card.default.sectors() as usize;
        let count = match self.rng.below(6) {
            0 => 0,
            1 => self.rng.byte(),
            _ => 1 + self.rng.below(n.min(255)) as u8,
        };
        let most = if self.rng.flip() { 16 } else { 4 };
        let nibble = self.rng.below(most) as u8;
        let bits = self.rng.byte() & 0xF0;
        self.put(2, count);
        self.put(6, bits | nibble);
        self.put(7, 0x91);
    }

    /// 91H, and what it changes: Identify, CHS at the end.
    pub fn parameters_story(&mut self) {
        self.new_parameters();
        self.look();
        if self.rng.percent(30) {
            self.sense();
        }
        if self.rng.percent(30) {
            self.put(7, 0xEC);
            let style = self.rng.pick(&[Style::Words, Style::Mixed]);
            self.transfer(62, style);
        }
        let g = self.card.current;
        self.ends_of_card(g);
        if self.rng.flip() {
            self.perhaps_another_geometry();
            self.ends_of_card(g);
        }
        if self.rng.percent(40) {
            self.beyond_capacity();
        }
    }

    /// The last LBA, which CHS may not reach, then 91H with one track for the whole card.
    fn beyond_capacity(&mut self) {
        let n = self.card.default.sectors() as u32;
        self.set_lba(n - 1);
        let (count, opcode) =
            (self.rng.pick(&[1, 2]), self.rng.pick(&[0x20, 0x30, 0x40, 0xC0, 0x70]));
        self.put(2, count);
        self.put(7, opcode);
        self.look();
        self.one_track();
        self.look();
    }

    /// 91H with one track for the whole card, or as long a one as there is.
    fn one_track(&mut self) {
        let n = self.card.default.sectors();
        self.put(6, 0);
        self.put(2, n.min(255) as u8);
        self.put(7, 0x91);
    }

    /// What may or may not change the geometry: commands and resets.
    fn perhaps_another_geometry(&mut self) {
        match self.rng.below(6) {
            0 => self.hold(),
            1 => self.sreset(),
            2 => self.change_map(),
            3 => self.sense(),
            4 => drop(self.put(7, 0x10)),
            _ => drop(self.put(7, 0x90)),
        }
    }

    /// A command at a geometry's last sector.
    fn ends_of_card(&mut self, g: Geometry) {
        self.set_chs(g.c - 1, g.h as u8 - 1, g.s as u8);
        let count = self.rng.pick(&[1, 2, 0]);
        self.put(2, count);
        let opcode = self.rng.pick(&[0x40, 0xC0, 0x41, 0x70, 0x20, 0x30]);
        self.put(7, opcode);
        self.look();
    }

    /// Identify, whole or in part.
    fn identify_story(&mut self) {
        self.put(7, 0xEC);
        self.noise = self.rng.pick(&[0, 0, 10]);
        if self.rng.flip() {
            let style = self.rng.pick(&STYLES);
            self.rest_of_sector(style);
        } else {
            self.move_some(1);
        }
        self.noise = 0;
        self.after();
    }

    /// Identify to its last word.
    pub fn whole_identify(&mut self) {
        self.put(7, 0xEC);
        let style = self.rng.pick(&STYLES);
        self.rest_of_sector(style);
    }

    /// Identify at one geometry after another; the buffer keeps it as it was when ECH was written.
    pub fn identities_story(&mut self) {
        self.whole_identify();
        self.one_track();
        self.show_buffer();
        self.whole_identify();
        self.hold();
        while !self.full {
            self.whole_identify();
            self.new_parameters();
            self.show_buffer();
            self.whole_identify();
            self.perhaps_another_geometry();
        }
    }

    /// E8H, then E4H.
    fn buffer_story(&mut self) {
        self.put(7, 0xE8);
        if self.rng.flip() {
            self.get(0xF);
        }
        self.move_some(1);
        if self.rng.percent(70) {
            self.show_buffer();
        }
        self.after();
    }

    fn small_command(&mut self) {
        let any = self.rng.byte();
        let seek = 0x70 | any & 15;
        let nothing = 0x10 | any & 15;
        let opcode = self.rng.pick(&[0x03, 0x03, 0x90, seek, seek, nothing, any]);
        if opcode == seek {
            self.aim();
        }
        self.put(7, opcode);
        self.move_some(1);
        self.after();
    }

    /// One chapter of a wandering.
    pub fn chapter(&mut self) {
        match self.rng.below(22) {
            0..=2 => {
                let opcode = 0x20 | self.rng.below(2) as u8;
                self.sector_story(opcode)
            }
            3..=5 => {
                let opcode = 0x30 | self.rng.below(2) as u8;
                self.sector_story(opcode)
            }
            6 => {
                let opcode = 0x40 | self.rng.below(2) as u8;
                self.sector_story(opcode)
            }
            7 => self.sector_story(0xC0),
            8 | 9 => self.write_and_read(),
            10 => self.parameters_story(),
            11 => self.identify_story(),
            12 => self.buffer_story(),
            13 => self.small_command(),
            14 => self.change_map(),
            15 => self.hold(),
            16 => self.sreset(),
            17 => self.disturb(),
            18 => self.against(),
            19 | 20 => self.block_story(),
            _ => self.random_access(),
        }
    }

    pub fn wander(&mut self) {
        while !self.full {
            self.chapter();
        }
    }
}
