//! The points that an input can reach, by name, and what the coverage table says of each.

use crate::block_cover::{Failing, Fit, Moving, Refused, Since, Spot, Stand, Start, Stop};
use crate::card::{Half, Phase, Touch};
use crate::commands::Row;
use crate::names::named;
use crate::run_cover::{Length, Marked};

/// One point. Each group of the table has its own sort.
#[derive(Clone, Copy, PartialEq, Eq, Hash, Debug)]
pub enum Point {
    /// A Command write with this opcode.
    Opcode(u8),
    /// A command while a transfer of this phase runs.
    Drop(Row, Phase),
    /// A command's end; in LBA, if it has an address.
    End(Row, Ending, bool),
    /// A sector command's end in error after sectors were done; in LBA, or not.
    Midway(Row, Ending, bool),
    /// A run of Verify or Erase from a good start; in LBA, or not.
    Length(Row, Length, bool),
    /// A bad start of a run longer than the card; in LBA, or not.
    BadStart(Row, Ending, bool),
    /// The first mark that is not 0 in a run past the end; in LBA, or not.
    PastMark(Row, Marked, Mark, bool),
    /// A run past the end while a transfer of this phase runs.
    PastDrop(Row, Phase),
    /// The line at a run past the end; true, if it is masked.
    PastLine(Row, bool),
    /// A C6H with this Count.
    SetCount(u8),
    /// A C6H that is taken: the old block and the new one.
    SetBlock(u16, u8),
    /// A C6H that is refused, by the old block.
    SetRefused(u16, Refused),
    /// A C6H, taken or not, by the address in the registers.
    SetAddress(bool, Start),
    /// A C6H, taken or not, in C4H or C5H after sectors have moved.
    SetInside(Row, bool),
    /// C4H or C5H without a block; in LBA, or not.
    NoBlock(Row, Start, bool),
    /// C4H or C5H begun with this block, and done to a good end.
    Blocks(Row, u16, Fit),
    BlocksDone(Row, u16, Fit),
    /// C4H or C5H after something that has kept the block, or forgotten it.
    After(Since, Row),
    /// A sector of a block, and whether the interrupt mark was set before.
    BlockSector(Row, Spot, bool),
    /// The line at the first sector of a later block; true, if it is masked.
    BlockLine(Row, bool),
    /// A second or later sector of 20H or 30H beside this block, and the mark before.
    PlainSector(Row, u16, bool),
    /// C4H or C5H ends in error after sectors were done; in LBA, or not.
    BlockError(Row, Ending, Failing, bool),
    /// A mark ends C4H or C5H with this block at this place in it.
    BlockFault(Row, u16, u16),
    /// A sector of C4H or C5H moved through this map.
    BlockMap(Row, Map),
    /// C4H or C5H ended from outside; true, if inside a block.
    BlockStop(Row, Stop, bool),
    /// This register read in C4H or C5H, and written.
    BlockLook(Row, u8, Stand),
    BlockBusy(Row, u8),
    /// A place and a number of sectors left that no command gives together.
    Untied(Row),
    /// Identify's word 47 read with this block.
    Most(u16),
    /// A block, stride or place that alone is not well made.
    UnmadeBlock(Unmade, Moving),
    /// This code told by 03H.
    Sense(u8),
    Identify(Identity),
    /// The high byte of word 255, as it was read.
    Integrity(u8),
    /// An opening, by the bad sectors that it counts.
    Opened(Opened),
    /// A sector to be stored, by its mark and the number of bad sectors.
    Stored(Row, Stored),
    /// A write's sector to be stored whose mark is another than before, by the number of bad sectors
    /// before.
    Changed(Changed, Mark, Mark, Number),
    /// The end of a command that has lowered the number of bad sectors.
    Lowered(Row, Ending),
    /// A number of bad sectors that is not 0 and is kept; true, if it is right.
    Kept(Kept, bool),
    /// Word 129 read after that.
    KeptShown(Kept),
    /// Word 129 as it was read.
    Shown(Shown),
    /// A register reached, by its offset.
    Register {
        map: Map,
        offset: u8,
        write: bool,
        word: bool,
    },
    /// An access to attribute memory at this index.
    Attribute(Attribute, u8),
    /// Data that moves, or is refused, after this half of the word has moved.
    Half {
        write: bool,
        moved: Half,
        touch: Touch,
    },
    /// A data access with no transfer that way: none runs, or one runs the other way.
    Against {
        write: bool,
        running: bool,
        touch: Touch,
    },
    /// An answer's number.
    Answer(u8),
    Silent(Silent),
    Hole(Hole),
    /// An address without a register.
    NoRegister(Map),
    BadForm(BadForm),
    Control(Control),
    Setting(Setting),
    /// A register reached in a Device Control hold.
    Held {
        offset: u8,
        write: bool,
    },
    /// A register written in a transfer of this phase.
    Busy {
        offset: u8,
        phase: Phase,
    },
    Break(Break),
    Limit(Limit),
    Unmade(Unmade),
    Line(Line),
    /// A mark met by a sector command.
    Mark(Row, Mark),
    Carry(Carry),
    Tuples(Tuples),
    Chain(Chain),
    Entry(Listed),
}

/// A register map: that of an index, or True IDE's.
#[derive(Clone, Copy, PartialEq, Eq, Hash, Debug)]
pub enum Map {
    Index(u8),
    TrueIde,
}

pub const MAPS: [Map; 5] =
    [Map::Index(0), Map::Index(1), Map::Index(2), Map::Index(3), Map::TrueIde];

/// The commands as the table says them.
pub const COMMANDS: [(Row, &str); 16] = [
    (Row::Read, "read"),
    (Row::Write, "write"),
    (Row::ReadMultiple, "C4H"),
    (Row::WriteMultiple, "C5H"),
    (Row::Verify, "verify"),
    (Row::Erase, "erase"),
    (Row::Identify, "identify"),
    (Row::ReadBuffer, "E4H"),
    (Row::WriteBuffer, "E8H"),
    (Row::SetMultiple, "C6H"),
    (Row::Parameters, "91H"),
    (Row::Diagnose, "90H"),
    (Row::Recalibrate, "1XH"),
    (Row::Seek, "7XH"),
    (Row::Sense, "03H"),
    (Row::Other, "others"),
];

/// Those of them that go over sectors.
pub fn sector_commands() -> &'static [(Row, &'static str)] {
    &COMMANDS[..6]
}

/// The codes that 01 gives.
pub const CODES: [u8; 6] = [0x00, 0x20, 0x21, 0x2F, 0x03, 0x11];

named! {
    /// How a command ends: the bit of Error or Status, and the code.
    Ending {
        Good: "good",
        Idnf21: "IDNF 21",
        Idnf2F: "IDNF 2F",
        Unc: "UNC 11",
        Dwf: "DWF 03",
        Abrt20: "ABRT 20",
        Abrt21: "ABRT 21",
    }
}

named! {
    /// An Identify: begun, or read to its integrity word. Anew: the last one read so far showed
    /// another current geometry.
    Identity {
        Begun: "begun",
        Default: "whole, default geometry",
        Changed: "whole, changed by 91H",
        ChangedAnew: "whole anew, 91H between",
        DefaultAnew: "whole anew, default again",
    }
}

named! {
    /// The bad sectors that an opening counts.
    Opened {
        NoneBad: "none",
        Ones: "of mark 1",
        Twos: "of mark 2",
        Both: "of marks 1 and 2",
        Many: "more than 255",
        All: "all of 32 or more",
    }
}

named! {
    /// The mark of a sector to be stored, and the number of bad sectors before: 0, or not.
    Stored {
        Sound: "mark 0",
        One: "mark 1",
        Two: "mark 2",
        Above: "mark above 2",
        SoundAtZero: "mark 0, number 0",
        OneAtZero: "mark 1, number 0",
        TwoAtZero: "mark 2, number 0",
        AboveAtZero: "mark above 2, number 0",
        ToZero: "number from 1 to 0",
        Borrow: "number from 256 to 255",
        TooLow: "a number too low for the marks",
        TooHigh: "a number too high for the marks",
    }
}

named! {
    /// When the mark of a write's sector was changed: the command's first sector on its way, a later
    /// one on its way, a later one before it was asked for.
    Changed {
        First: "first",
        Later: "later",
        Ahead: "ahead",
    }
}

named! {
    /// The number of bad sectors beside the marks.
    Number {
        Right: "right",
        TooLow: "too low",
        TooHigh: "too high",
    }
}

named! {
    /// What keeps the number of bad sectors.
    Kept {
        SresetEntered: "SRESET entered",
        SresetLeft: "SRESET left",
        HoldEntered: "hold entered",
        HoldLeft: "hold left",
        Diagnose: "90H",
        Parameters: "91H",
        ParametersRefused: "91H with ABRT",
        Dropped: "write dropped",
        DroppedBySreset: "write dropped by SRESET",
        DroppedByHold: "write dropped by a hold",
        Unreadable: "UNC",
        ErasePast: "Erase past the end",
    }
}

impl Kept {
    /// Can an Identify come next? In a reset it can't.
    pub fn shown(self) -> bool {
        let reset = [Kept::SresetEntered, Kept::HoldEntered];
        let dropped = [Kept::DroppedBySreset, Kept::DroppedByHold];
        !reset.contains(&self) && !dropped.contains(&self)
    }
}

named! {
    /// Word 129 as it is read: its value, the lent marks, the mode, the last time, the number now.
    Shown {
        Zero: "0",
        Byte: "1..255",
        Word: "above 255",
        All: "N",
        True: "as many as there are",
        TooLow: "fewer than there are",
        TooHigh: "more than there are",
        PcCard: "not 0 in PC Card mode",
        TrueIde: "not 0 in True IDE mode",
        Lower: "lower than the last time",
        SetSince: "set since ECH",
    }
}

named! {
    /// An access that attribute memory takes.
    Attribute {
        TupleRead: "tuple read",
        OptionRead: "option read",
        OptionWrite: "option write",
    }
}

named! {
    /// Refusal 7: the space that does not answer.
    Silent {
        AttributeInIde: "attribute in mode 1",
        MemoryInIde: "memory in mode 1",
        IoInIde: "I/O in mode 1",
        MemoryByIndex: "memory at index 1..3",
        IoByIndex: "I/O at index 0",
        IdeInPcCard: "True IDE in mode 0",
        NoSpace: "another space",
    }
}

named! {
    /// Refusal 6 in attribute memory.
    Hole {
        OddAttribute: "odd attribute",
        AboveAttribute: "attribute above 200H",
        TupleWrite: "tuple write",
    }
}

named! {
    /// Refusal 9: what is wrong with the access.
    BadForm {
        Width: "width",
        ByteValue: "byte value",
        Word: "word",
    }
}

named! {
    /// A Device Control write, by the hold before and after it.
    Control {
        HoldIdle: "hold idle",
        HoldInDataIn: "hold in data in",
        HoldInDataOut: "hold in data out",
        HoldAgain: "hold again",
        Leave: "leave",
        MaskIdle: "mask idle",
        MaskInDataIn: "mask in data in",
        MaskInDataOut: "mask in data out",
    }
}

named! {
    /// A Configuration Option write, by SRESET before and after it.
    Setting {
        SresetIdle: "SRESET idle",
        SresetInDataIn: "SRESET in data in",
        SresetInDataOut: "SRESET in data out",
        SresetInHold: "SRESET in a hold",
        SresetAgain: "SRESET again",
        Leave: "leave",
        LeaveInHold: "leave in a hold",
        MapIdle: "map idle",
        MapInDataIn: "map in data in",
        MapInDataOut: "map in data out",
        MapInHold: "map in a hold",
    }
}

named! {
    /// How a session file can be broken.
    Break {
        Empty: "empty",
        TooLong: "too long",
        HeadCut: "head cut",
        Kind: "kind",
        OpeningMissing: "opening missing",
        SecondOpening: "second opening",
        OpeningLength: "opening's length",
        WriteLength: "write's length",
        ReadLength: "read's length",
        OpeningCut: "opening cut",
        WriteCut: "write cut",
        ReadCut: "read cut",
        WriteSpace: "write's space",
        ReadSpace: "read's space",
        WriteWidth: "write's width",
        ReadWidth: "read's width",
        ByteValue: "byte value",
    }
}

named! {
    /// A limit that an opening of a session breaks.
    Limit {
        NoCylinder: "C 0",
        NoHead: "H 0",
        ManyHeads: "H above 16",
        NoSector: "S 0",
        LongTrack: "S above 255",
        Mode: "mode",
        TooLarge: "N above 65535",
        TooLargeForSession: "N above 32",
    }
}

named! {
    /// The only condition of the well-made list that a card breaks, and how.
    Unmade {
        DefaultHeads: "default H above 16",
        DefaultTrack: "default S above 255",
        DefaultTotal: "N above 65535",
        NoHead: "current H 0",
        ManyHeads: "current H above 16",
        NoSector: "current S 0",
        LongTrack: "current S above 255",
        Cylinders: "current C disagrees",
        NoCylinder: "current C 0",
        Index: "index above 3",
        SresetInIde: "SRESET in mode 1",
        TransferWithout58: "transfer without 58H",
        IdleWith58: "58H without transfer",
        OtherStatus: "another Status",
        TransferInSreset: "transfer in SRESET",
        TransferInHold: "transfer in a hold",
        Words: "words above 255",
        BadChs: "bad CHS in a transfer",
        BadLba: "bad LBA in a transfer",
        NoneLeft: "0 sectors left",
        ManyLeft: "257 or more left",
        LeftUnlikeCount: "left unlike Count",
        BadOneAbove: "N + 1 bad sectors",
        BadAbove: "more than N + 1 bad sectors",
        BlockBetween: "a block of 3, 5..7 or 9..15",
        BlockAbove: "a block above 16",
        BlockLowFits: "a block above 255 with a low byte that fits",
        StrideWithoutBlock: "a stride without a block",
        StrideUnlikeBlock: "a stride unlike the block",
        StrideLowFits: "a stride above 255 with a low byte that fits",
        PlaceAtStride: "a place at the stride",
        PlaceAboveStride: "a place above the stride",
        PlaceLowFits: "a place above 255 with a low byte that fits",
    }
}

named! {
    /// The interrupt line in an answer; masked is down with the mark set.
    Line {
        Down: "down",
        Up: "up",
        Masked: "masked",
    }
}

named! {
    /// A sector's mark.
    Mark {
        Zero: "0",
        One: "1",
        Two: "2",
        Above: "above 2",
    }
}

named! {
    /// A carry of the next address.
    Carry {
        LbaByte: "out of the low LBA byte",
        CylinderHigh: "into Cylinder High",
    }
}

named! {
    /// What the tuple reader and writer answer.
    Tuples {
        Read: "read",
        ReadLength: "read 5",
        ReadPlaces: "read 16",
        ReadBadChain: "read 13",
        Written: "written",
        WriteLength: "write 5",
        WriteBadEntry: "write 15",
        WriteTooLong: "write 14",
    }
}

named! {
    /// What a chain's reader meets.
    Chain {
        Null: "null tuple",
        NoByteLeft: "no byte is left",
        End: "end mark",
        EndAtLast: "end mark at byte 255",
        CodeAtLast: "code at byte 255",
        BodyToLast: "body to byte 255",
        BodyPastLast: "body past byte 255",
        PlacesLeftOver: "places left over",
        MostEntries: "127 entries",
    }
}

named! {
    /// An entry that is to be written.
    Listed {
        Good: "good",
        Code00: "code 00H",
        CodeFF: "code FFH",
        BodyOutside: "body outside",
        BodyTooLong: "longer than 255",
        EndTooLarge: "end above 65535",
    }
}
