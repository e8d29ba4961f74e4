//! What the inputs of the comparison share: a case, its seed, and a card brought into a state.

use crate::card::{Geometry, Half, Phase};
use crate::commands::row;
use crate::host::Host;

pub struct Case {
    pub name: String,
    pub bytes: Vec<u8>,
}

impl Case {
    pub fn new(name: String, bytes: Vec<u8>) -> Case {
        Case { name, bytes }
    }
}

pub fn geometry(g: (u16, u16, u16)) -> Geometry {
    Geometry::new(g.0, g.1, g.2)
}

/// The groups of inputs that take seeds. The numbers stay, or a group's inputs would be others.
#[derive(Clone, Copy)]
pub enum Group {
    Opcodes = 1,
    Sweeps = 2,
    Transfers = 3,
    Addresses = 4,
    Parameters = 5,
    Wanderings = 6,
    LateBreaks = 7,
    Noise = 8,
    Identities = 9,
    Oddities = 19,
    LentLengths = 20,
    Conditions = 21,
    SectorConditions = 22,
    Marks = 23,
    Carries = 24,
    Lines = 25,
    TrialWanderings = 26,
    Breaks = 27,
    Chains = 28,
    Lists = 29,
    MadeUp = 30,
    TrialIdentities = 31,
    BadOpenings = 32,
    BadRuns = 33,
    BadOutside = 34,
    BadLarge = 35,
    BadLimits = 36,
    BadKept = 37,
    BadDrops = 38,
    BadShown = 39,
    BadWanderings = 40,
    BadOnTheWay = 41,
    BadWhole = 42,
    BadMixed = 43,
    Runs = 44,
    RunData = 45,
    RunWanderings = 46,
    RunCounts = 47,
    RunMarks = 48,
    RunEveryMark = 49,
    RunFields = 50,
    RunLines = 51,
    RunTrialWanderings = 52,
    BlockCounts = 53,
    BlockTransfers = 54,
    BlockEnds = 55,
    BlockAddresses = 56,
    BlockBetween = 57,
    BlockResets = 58,
    BlockIdentities = 59,
    BlockWanderings = 60,
    BlockMarks = 61,
    BlockFaults = 62,
    BlockLines = 63,
    BlockTable = 64,
    BlockFields = 65,
    BlockHands = 66,
    BlockStops = 67,
    BlockTrialWanderings = 68,
    BlockTrialEnds = 69,
    BlockFits = 70,
}

impl Group {
    /// A seed of its own for each input of the group.
    pub fn seed(self, seed: u64, number: usize) -> u64 {
        seed.wrapping_mul(1_000_003) ^ (self as u64) << 40 ^ (number as u64) << 4
    }
}

/// What the card is kept in while something is tried on it.
#[derive(Clone, Copy, PartialEq, Eq, Debug)]
pub enum State {
    Idle,
    In,
    Out,
    InLow,
    InHigh,
    OutLow,
    OutHigh,
    Hold,
    Sreset,
}

fn in_state(host: &Host, state: State) -> bool {
    let k = &host.card;
    let transfer = (k.phase, k.half);
    let free = !k.hold && !k.sreset;
    match state {
        State::Idle => free && !k.running(),
        State::In => transfer == (Phase::In, Half::Nothing),
        State::Out => transfer == (Phase::Out, Half::Nothing),
        State::InLow => transfer == (Phase::In, Half::Low),
        State::InHigh => transfer == (Phase::In, Half::High),
        State::OutLow => transfer == (Phase::Out, Half::Low),
        State::OutHigh => transfer == (Phase::Out, Half::High),
        State::Hold => k.hold && !k.sreset,
        State::Sreset => k.sreset,
    }
}

/// Brings the card into a map and a state, if it isn't there.
pub fn bring(host: &mut Host, map: u8, state: State) {
    if state == State::Sreset {
        if !host.card.sreset {
            host.option(0x80 | map & 3);
        }
        return;
    }
    if map < 4 && host.card.option() != map {
        host.option(map);
    }
    if in_state(host, state) {
        return;
    }
    if host.card.hold {
        host.put(0xE, 0);
    }
    match state {
        State::Hold => drop(host.put(0xE, 4)),
        State::Idle => drop(host.put(7, 0x10)),
        _ => begin(host, state),
    }
}

/// Begins a transfer and moves half a word if the state wants it.
fn begin(host: &mut Host, state: State) {
    let writing = matches!(state, State::Out | State::OutLow | State::OutHigh);
    let opcodes: &[u8] = if writing { &[0x30, 0xE8, 0xC5] } else { &[0x20, 0xEC, 0xE4, 0xC4] };
    let opcode = host.rng.pick(opcodes);
    host.put(7, 0x90);
    if row(opcode).by_blocks() {
        host.put(2, 4);
        host.put(7, 0xC6);
    }
    host.put(7, opcode);
    match state {
        State::InLow | State::OutLow => host.data_byte(0),
        State::InHigh | State::OutHigh if host.wide_map() => host.data_byte(9),
        _ => {}
    }
}
