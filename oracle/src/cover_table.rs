//! The coverage table: every point that has to be reached, by whom, and whether it was.

use crate::block_table;
use crate::card::{Half, Phase, Touch};
use crate::commands::Row;
use crate::cover::{self, By};
use crate::points::*;
use crate::run_cover;

struct Group {
    title: &'static str,
    rows: Vec<Reached>,
}

/// A row: the point, what is said of it, and who has to reach it.
pub struct Reached {
    point: Point,
    says: String,
    by: By,
}

pub fn row(point: Point, says: impl Into<String>, by: By) -> Reached {
    Reached { point, says: says.into(), by }
}

/// Who has to reach a point: trials, where they alone can.
pub fn by(trials_alone: bool) -> By {
    if trials_alone {
        By::Trials
    } else {
        By::Sessions
    }
}

/// The rows of a table of names.
fn named<T: Copy>(table: &[(T, &str)], point: fn(T) -> Point, by: fn(T) -> By) -> Vec<Reached> {
    table.iter().map(|&(name, says)| row(point(name), says, by(name))).collect()
}

fn by_sessions<T: Copy>(table: &[(T, &str)], point: fn(T) -> Point) -> Vec<Reached> {
    named(table, point, |_| By::Sessions)
}

fn by_trials<T: Copy>(table: &[(T, &str)], point: fn(T) -> Point) -> Vec<Reached> {
    named(table, point, |_| By::Trials)
}

fn groups() -> Vec<Group> {
    let parts = [of_commands(), of_bad_sectors(), of_accesses(), of_files_and_cards(), of_tuples()];
    parts.into_iter().flatten().collect()
}

fn group(title: &'static str, rows: Vec<Reached>) -> Group {
    Group { title, rows }
}

fn of_commands() -> Vec<Group> {
    vec![
        group("Command writes by opcode", opcodes()),
        group("Commands that drop a transfer", drops()),
        group("Command ends", ends()),
        group("Command ends in error after sectors were done", run_cover::midway()),
        group("Runs of Verify and Erase, by the sectors that remain", run_cover::lengths()),
        group("Bad starts of runs longer than the card", run_cover::bad_starts()),
        group("Marks in runs past the end, by the first that is not 0", run_cover::past_marks()),
        group("Runs past the end", run_cover::past_states()),
        group("C6H by Count", block_table::counts()),
        group("C6H by the old block and the address", block_table::settings()),
        group("C6H in C4H and C5H after sectors have moved", block_table::set_inside()),
        group("C4H and C5H without a block", block_table::without()),
        group("C4H and C5H begun, by block and sectors", block_table::begun()),
        group("C4H and C5H done, by block and sectors", block_table::done()),
        group("C4H and C5H after what keeps or forgets the block", block_table::after()),
        group("Sectors of a block, by the mark before", block_table::sectors()),
        group("Errors in a block after sectors were done", block_table::errors()),
        group("Marks in a block, by place", block_table::faults()),
        group("Accesses in C4H and C5H", block_table::states()),
        group("Codes told by 03H", codes()),
        group("Identify", by_sessions(Identity::TABLE, Point::Identify)),
        group("Identify's word 47, by the block", block_table::most()),
        group("Identify's integrity byte", integrity_bytes()),
    ]
}

fn of_bad_sectors() -> Vec<Group> {
    vec![
        group(
            "Openings, by the bad sectors counted",
            named(Opened::TABLE, Point::Opened, |what| by(what != Opened::NoneBad)),
        ),
        group("Sectors to be stored, by mark and number of bad sectors", stored()),
        group("Marks changed in a write, by sector, mark and number of bad sectors", changed()),
        group("Ends of commands that lowered the number of bad sectors", lowered()),
        group("A number of bad sectors that is kept", kept()),
        group("Identify's word 129 after that", kept_and_shown()),
        group(
            "Identify's word 129",
            named(Shown::TABLE, Point::Shown, |what| by(what != Shown::Zero)),
        ),
    ]
}

fn of_accesses() -> Vec<Group> {
    vec![
        group("Registers by map (r, w: byte read, write; R, W: word)", registers()),
        group("Attribute memory by index", attribute()),
        group("Half words (moved before, then touched)", halves()),
        group("Data accesses with no transfer that way", against()),
        group("Answers and refusals", answers()),
        group(
            "Refusal 7",
            named(Silent::TABLE, Point::Silent, |space| by(space == Silent::NoSpace)),
        ),
        group("Refusal 6", holes()),
        group(
            "Refusal 9",
            named(BadForm::TABLE, Point::BadForm, |fault| by(fault != BadForm::Word)),
        ),
        group("Device Control writes", by_sessions(Control::TABLE, Point::Control)),
        group("Configuration Option writes", by_sessions(Setting::TABLE, Point::Setting)),
        group("Registers in a Device Control hold", held()),
        group("Register writes in a transfer", busy()),
    ]
}

fn of_files_and_cards() -> Vec<Group> {
    vec![
        group("Breaks of a session file", by_sessions(Break::TABLE, Point::Break)),
        group("Limits an opening breaks", by_sessions(Limit::TABLE, Point::Limit)),
        group(
            "Just one condition of the well-made list fails",
            by_trials(Unmade::TABLE, Point::Unmade),
        ),
        group("Just a block, stride or place fails", block_table::unmade()),
        group("The line", by_trials(Line::TABLE, Point::Line)),
        group("Marks met", marks()),
        group("Carries", by_trials(Carry::TABLE, Point::Carry)),
    ]
}

fn of_tuples() -> Vec<Group> {
    vec![
        group("Tuple reader and writer", by_trials(Tuples::TABLE, Point::Tuples)),
        group("Chains read", by_trials(Chain::TABLE, Point::Chain)),
        group("Entries to be written", by_trials(Listed::TABLE, Point::Entry)),
    ]
}

// ---------------------------------------------------------------- commands

fn opcodes() -> Vec<Reached> {
    (0..=255).map(|i| row(Point::Opcode(i), format!("{i:02X}"), By::Sessions)).collect()
}

pub const PHASES: [(Phase, &str); 2] = [(Phase::In, "in data in"), (Phase::Out, "in data out")];

fn drops() -> Vec<Reached> {
    let mut rows = Vec::new();
    for (command, name) in COMMANDS {
        for (phase, during) in PHASES {
            let point = Point::Drop(command, phase);
            rows.push(row(point, format!("{name} {during}"), By::Sessions));
        }
    }
    rows
}

fn ends() -> Vec<Reached> {
    let mut rows = Vec::new();
    for (command, name) in COMMANDS {
        for &(ending, says) in Ending::TABLE {
            for lba in [false, true] {
                if !can_end(command, ending, lba) {
                    continue;
                }
                let way = if command.addressed() { [" CHS", " LBA"][lba as usize] } else { "" };
                let marked = matches!(ending, Ending::Unc | Ending::Dwf);
                let point = Point::End(command, ending, lba);
                rows.push(row(point, format!("{name}{way} {says}"), by(marked)));
            }
        }
    }
    rows
}

/// Is there such an end at all?
pub fn can_end(command: Row, ending: Ending, lba: bool) -> bool {
    let addressed = command.addressed();
    match ending {
        Ending::Good => (addressed || !lba) && command != Row::Other,
        Ending::Idnf21 => addressed && !lba,
        Ending::Idnf2F => addressed,
        Ending::Unc => command.reads() || command == Row::Verify,
        Ending::Dwf => command.writes() || command == Row::Erase,
        Ending::Abrt20 => match command {
            Row::Other | Row::SetMultiple => !lba,
            _ => command.by_blocks(),
        },
        Ending::Abrt21 => command == Row::Parameters && !lba,
    }
}

fn codes() -> Vec<Reached> {
    let marked = |code| matches!(code, 0x03 | 0x11);
    let told = |code| row(Point::Sense(code), format!("{code:02X}"), by(marked(code)));
    CODES.into_iter().map(told).collect()
}

/// Trials alone have marks and cards of more than 32 sectors; without either the byte is 16H..B1H.
fn integrity_bytes() -> Vec<Reached> {
    (0..=255).map(|i| row(Point::Integrity(i), format!("{i:02X}"), By::Trials)).collect()
}

/// The commands that store sectors.
const STORING: [(Row, &str); 3] =
    [(Row::Write, "write"), (Row::WriteMultiple, "C5H"), (Row::Erase, "erase")];

fn stored() -> Vec<Reached> {
    let mut rows = Vec::new();
    for (command, name) in STORING {
        for &(what, says) in Stored::TABLE {
            let point = Point::Stored(command, what);
            rows.push(row(point, format!("{name}: {says}"), by(what != Stored::SoundAtZero)));
        }
    }
    rows
}

fn changed() -> Vec<Reached> {
    let mut rows = Vec::new();
    for &(when, sector) in Changed::TABLE {
        for &(from, was) in Mark::TABLE {
            for &(to, is) in Mark::TABLE.iter().filter(|&&(to, _)| to != from) {
                for &(number, kept) in Number::TABLE {
                    let point = Point::Changed(when, from, to, number);
                    let says = format!("{sector} {was} to {is}, {kept}");
                    rows.push(row(point, says, By::Trials));
                }
            }
        }
    }
    rows
}

fn lowered() -> Vec<Reached> {
    let mut rows = Vec::new();
    for (command, name) in STORING {
        for &(ending, says) in Ending::TABLE {
            if ending == Ending::Good || run_cover::stops(command, ending) {
                let point = Point::Lowered(command, ending);
                rows.push(row(point, format!("{name} {says}"), By::Trials));
            }
        }
    }
    rows
}

fn kept() -> Vec<Reached> {
    let mut rows = Vec::new();
    for &(what, says) in Kept::TABLE {
        for (right, kept) in [(true, "right"), (false, "wrong")] {
            rows.push(row(Point::Kept(what, right), format!("{says}, {kept}"), By::Trials));
        }
    }
    rows
}

fn kept_and_shown() -> Vec<Reached> {
    let shown = Kept::TABLE.iter().filter(|(what, _)| what.shown());
    shown.map(|&(what, says)| row(Point::KeptShown(what), says, By::Trials)).collect()
}

fn marks() -> Vec<Reached> {
    let mut rows = Vec::new();
    for &(command, name) in sector_commands() {
        for &(mark, says) in Mark::TABLE {
            rows.push(row(Point::Mark(command, mark), format!("{name} at {says}"), By::Trials));
        }
    }
    rows
}

// ---------------------------------------------------------------- registers

/// The offsets that have a register in some map.
fn offsets() -> impl Iterator<Item = u8> {
    (0..16).filter(|offset| !(0xA..=0xC).contains(offset))
}

fn registers() -> Vec<Reached> {
    let mut rows = Vec::new();
    for map in MAPS {
        let wide = matches!(map, Map::Index(0 | 1));
        let name = match map {
            Map::Index(index) => index.to_string(),
            Map::TrueIde => "IDE".into(),
        };
        for offset in offsets().filter(|offset| wide || !matches!(offset, 8 | 9 | 0xD)) {
            for (letter, write, word) in
                [("r", false, false), ("R", false, true), ("w", true, false), ("W", true, true)]
            {
                if word && !matches!(offset, 0 | 8) {
                    continue;
                }
                let point = Point::Register { map, offset, write, word };
                rows.push(row(point, format!("{name} {letter} {offset:X}"), By::Sessions));
            }
        }
    }
    rows
}

fn attribute() -> Vec<Reached> {
    let mut rows = Vec::new();
    for &(what, says) in Attribute::TABLE {
        for i in 0..4 {
            rows.push(row(Point::Attribute(what, i), format!("{says} at {i}"), By::Sessions));
        }
    }
    rows
}

fn holes() -> Vec<Reached> {
    let mut rows = by_sessions(Hole::TABLE, Point::Hole);
    for map in MAPS {
        let says = match map {
            Map::Index(index) => format!("index {index}"),
            Map::TrueIde => "True IDE".into(),
        };
        rows.push(row(Point::NoRegister(map), says, By::Sessions));
    }
    rows
}

fn held() -> Vec<Reached> {
    let mut rows = Vec::new();
    for offset in offsets() {
        for (write, way) in [(false, "read"), (true, "write")] {
            let point = Point::Held { offset, write };
            rows.push(row(point, format!("{way} {offset:X}"), By::Sessions));
        }
    }
    rows
}

fn busy() -> Vec<Reached> {
    let mut rows = Vec::new();
    for offset in offsets() {
        for (phase, during) in PHASES {
            let point = Point::Busy { offset, phase };
            rows.push(row(point, format!("{offset:X} {during}"), By::Sessions));
        }
    }
    rows
}

fn answers() -> Vec<Reached> {
    let in_sessions = |number| matches!(number, 0 | 1 | 6..=11 | 17);
    let told =
        |number: u8| row(Point::Answer(number), number.to_string(), by(!in_sessions(number)));
    (0..18).map(told).collect()
}

// ---------------------------------------------------------------- data

/// A row for each way, state of the card and touch of the data register.
fn touches<S: Copy>(
    ways: [&str; 2],
    states: &[(S, &str)],
    point: fn(bool, S, Touch) -> Point,
) -> Vec<Reached> {
    let touches = [(Touch::Even, "byte at 0, 8"), (Touch::Odd, "byte at 9"), (Touch::Word, "word")];
    let mut rows = Vec::new();
    for (write, way) in [false, true].into_iter().zip(ways) {
        for &(state, stands) in states {
            for (touch, how) in touches {
                let says = format!("{way} {stands}, {how}");
                rows.push(row(point(write, state, touch), says, By::Sessions));
            }
        }
    }
    rows
}

fn halves() -> Vec<Reached> {
    let moved = [(Half::Nothing, "nothing"), (Half::Low, "low"), (Half::High, "high")];
    touches(["in:", "out:"], &moved, |write, moved, touch| Point::Half { write, moved, touch })
}

fn against() -> Vec<Reached> {
    let states = [(false, "idle"), (true, "in the other")];
    touches(["read", "write"], &states, |write, running, touch| Point::Against {
        write,
        running,
        touch,
    })
}

// ---------------------------------------------------------------- what is printed

/// Prints the table; the numbers of rows reached and missed, of those that sessions and trials (as far
/// as they were played) have to reach.
pub fn print(played: [bool; 2]) -> (usize, usize) {
    let (mut reached, mut missed, mut known) = (0, Vec::new(), Vec::new());
    println!("Coverage, sessions/trials:");
    for group in groups() {
        print_group(&group);
        for row in group.rows {
            known.push(row.point);
            if !played[row.by as usize] {
                continue;
            }
            if cover::counts(row.point)[row.by as usize] > 0 {
                reached += 1;
            } else {
                missed.push(format!("{}: {}", group.title, row.says));
            }
        }
    }
    for row in &missed {
        println!("never reached: {row}");
    }
    let strange: Vec<Point> =
        cover::reached().into_iter().filter(|point| !known.contains(point)).collect();
    assert!(strange.is_empty(), "points that the table does not have: {strange:?}");
    (reached, missed.len())
}

fn print_group(group: &Group) {
    println!("{}", group.title);
    let mut line = String::new();
    for row in &group.rows {
        let [sessions, trials] = cover::counts(row.point);
        let cell = format!("{} {sessions}/{trials}", row.says);
        if !line.is_empty() && line.len() + cell.len() > 100 {
            println!("  {line}");
            line.clear();
        }
        if !line.is_empty() {
            line.push_str(" | ");
        }
        line.push_str(&cell);
    }
    println!("  {line}");
}
