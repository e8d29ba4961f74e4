//! Runs other programs on every generated input and compares what they print.

use std::io::{Read, Write};
use std::process::{Child, Command, Stdio};
use std::sync::atomic::{AtomicUsize, Ordering::Relaxed};
use std::sync::mpsc;
use std::sync::Mutex;
use std::thread;
use std::time::Duration;

use crate::cover::{self, By};
use crate::cover_table;
use crate::inputs::Case;
use crate::mutants::{switch, Change};
use crate::session_inputs;
use crate::session_player;
use crate::trial_inputs;
use crate::trial_player;

const PATIENCE: Duration = Duration::from_secs(60);
const SHOWN: usize = 10;

type Player = fn(&[u8]) -> String;

/// Inputs of one sort, with what this program prints for them.
struct Suite {
    cases: Vec<Case>,
    texts: Vec<String>,
    play: Player,
}

impl Suite {
    fn sessions(seed: u64) -> Suite {
        Suite::new(session_inputs::sessions(seed), session_player::play, By::Sessions)
    }

    fn trials(seed: u64) -> Suite {
        Suite::new(trial_inputs::trials(seed), trial_player::play, By::Trials)
    }

    fn new(cases: Vec<Case>, play: Player, by: By) -> Suite {
        cover::count_for(Some(by));
        let texts = cases.iter().map(|c| play(&c.bytes)).collect();
        cover::count_for(None);
        Suite { cases, texts, play }
    }

    /// Answers to accesses in all texts.
    fn accesses(&self) -> usize {
        let is_access = |l: &&str| l.starts_with("A ") || l.contains(" R ") || l.contains(" W ");
        self.texts.iter().map(|t| t.lines().filter(is_access).count()).sum()
    }
}

/// `oracle compare CARDRUN [TRIAL]`: true if nothing differs and everything is reached.
pub fn compare(seed: u64, cardrun: Option<&str>, trial: Option<&str>) -> bool {
    let mut totals = (0, 0);
    let mut add = |name, suite: Suite, program| {
        let (passed, failed) = run_suite(name, &suite, program);
        totals = (totals.0 + passed, totals.1 + failed);
    };
    if let Some(program) = cardrun {
        add("sessions", Suite::sessions(seed), program);
    }
    if let Some(program) = trial {
        add("trials", Suite::trials(seed), program);
    }
    let (reached, missed) = cover_table::print([cardrun.is_some(), trial.is_some()]);
    println!("coverage: {reached} rows reached, {missed} missed");
    println!("{} passed, {} failed", totals.0 + reached, totals.1 + missed);
    totals.1 + missed == 0
}

/// The table alone, with no other program.
pub fn coverage(seed: u64) -> bool {
    for (name, suite) in [("sessions", Suite::sessions(seed)), ("trials", Suite::trials(seed))] {
        println!("{}: {}, {} accesses", name, suite.cases.len(), suite.accesses());
    }
    let (reached, missed) = cover_table::print([true, true]);
    println!("{reached} passed, {missed} failed");
    missed == 0
}

// ---------------------------------------------------------------- one suite

fn run_suite(name: &str, suite: &Suite, program: &str) -> (usize, usize) {
    let faults = on_two_threads(suite.cases.len(), |i| {
        one(program, &suite.cases[i], &suite.texts[i]).err().map(|why| (i, why))
    });
    let faults: Vec<(usize, String)> = faults.into_iter().flatten().collect();
    for (i, why) in faults.iter().take(SHOWN) {
        println!("{}: {why}", suite.cases[*i].name);
    }
    if faults.len() > SHOWN {
        println!("... and {} more", faults.len() - SHOWN);
    }
    let passed = suite.cases.len() - faults.len();
    println!(
        "{name}: {}, {} accesses, {} differ",
        suite.cases.len(),
        suite.accesses(),
        faults.len()
    );
    (passed, faults.len())
}

/// What `work` gives for each number below `count`, in that order.
fn on_two_threads<T: Send>(count: usize, work: impl Fn(usize) -> T + Sync) -> Vec<T> {
    let next = AtomicUsize::new(0);
    let done = Mutex::new(Vec::new());
    thread::scope(|scope| {
        for _ in 0..2 {
            scope.spawn(|| loop {
                let i = next.fetch_add(1, Relaxed);
                if i >= count {
                    return;
                }
                let given = work(i);
                done.lock().unwrap().push((i, given));
            });
        }
    });
    let mut done = done.into_inner().unwrap();
    done.sort_by_key(|&(i, _)| i);
    done.into_iter().map(|(_, given)| given).collect()
}

fn one(program: &str, case: &Case, expected: &str) -> Result<(), String> {
    let got = run(program, &case.bytes)?;
    if got == expected.as_bytes() {
        return Ok(());
    }
    Err(difference(case, expected, &String::from_utf8_lossy(&got)))
}

/// The command's words: those of ORACLE_LAUNCHER, one on a line, then the program.
fn words(program: &str) -> Vec<String> {
    let launcher = std::env::var("ORACLE_LAUNCHER").unwrap_or_default();
    launcher.lines().filter(|word| !word.is_empty()).chain([program]).map(String::from).collect()
}

/// What a program prints for an input.
fn run(program: &str, input: &[u8]) -> Result<Vec<u8>, String> {
    let words = words(program);
    let mut command = Command::new(&words[0]);
    command.args(&words[1..]);
    command.stdin(Stdio::piped()).stdout(Stdio::piped()).stderr(Stdio::null());
    let mut child = command.spawn().map_err(|e| format!("can't run {}: {e}", words[0]))?;
    let mut stdin = child.stdin.take().ok_or("no standard input")?;
    let mut stdout = child.stdout.take().ok_or("no standard output")?;
    let (sender, receiver) = mpsc::channel();
    thread::scope(|scope| {
        // A program may stop reading early, so a failed write says nothing.
        scope.spawn(move || drop(stdin.write_all(input)));
        scope.spawn(move || {
            let mut bytes = Vec::new();
            let _ = stdout.read_to_end(&mut bytes);
            let _ = sender.send(bytes);
        });
        let got = receiver.recv_timeout(PATIENCE);
        if got.is_err() {
            let _ = child.kill();
        }
        let ended = ended(&mut child);
        let late = |_| format!("no answer in {} seconds", PATIENCE.as_secs());
        got.map_err(late).and_then(|bytes| ended.map(|()| bytes))
    })
}

fn ended(child: &mut Child) -> Result<(), String> {
    let status = child.wait().map_err(|e| e.to_string())?;
    match status.code() {
        Some(_) => Ok(()),
        None => Err(format!("ended by a signal: {status}")),
    }
}

// ---------------------------------------------------------------- telling a difference

fn difference(case: &Case, expected: &str, got: &str) -> String {
    let (want, have): (Vec<&str>, Vec<&str>) =
        (expected.split('\n').collect(), got.split('\n').collect());
    let at = (0..).find(|&i| want.get(i) != have.get(i)).unwrap_or(0);
    let line = |of: &[&str]| match of.get(at) {
        Some(l) => format!("\"{}\"", l.chars().take(120).collect::<String>()),
        None => "the end".to_string(),
    };
    let mut text = format!("line {} should be {} and is {}", at + 1, line(&want), line(&have));
    if case.name.starts_with("trial-") {
        text.push_str(&trial_records(&case.bytes, at));
    } else {
        text.push_str(&session_records(&case.bytes, at));
    }
    text
}

/// The accesses up to the one of a line.
fn session_records(bytes: &[u8], line: usize) -> String {
    let near = line.saturating_sub(3)..line;
    let told =
        near.filter_map(|n| Some(format!("\n    access {}: {}", n + 1, record_at(bytes, n)?)));
    told.collect()
}

/// The records up to the one that prints a line.
fn trial_records(bytes: &[u8], line: usize) -> String {
    let records = bytes.len() / 16;
    let printed = |k: usize| trial_player::play(&bytes[..16 * k]).lines().count() - 2;
    let (mut low, mut high) = (0, records);
    while low < high {
        let middle = (low + high) / 2;
        (low, high) = if printed(middle) > line { (low, middle) } else { (middle + 1, high) };
    }
    let near = low.saturating_sub(3)..low.min(records);
    let told = near.map(|k| {
        let words = trial_player::words(&bytes[16 * k..16 * k + 16]).map(|w| format!("{w:04X}"));
        format!("\n    record {k}: {}", words.join(" "))
    });
    told.collect()
}

/// An access of a session in words, the first being number 0.
fn record_at(bytes: &[u8], number: usize) -> Option<String> {
    let mut place = 12;
    for _ in 0..number {
        place += session_player::record(bytes.get(place..)?, false).ok()?.1;
    }
    let session_player::Record::Access(a) =
        session_player::record(bytes.get(place..)?, false).ok()?.0
    else {
        return None;
    };
    let space = ["attribute", "memory", "I/O", "True IDE"][a.space as usize];
    let width = if a.width == 1 { "byte" } else { "word" };
    Some(match a.write {
        true => format!("{width} write of {:04X}H to {space} {:03X}H", a.value, a.address),
        false => format!("{width} read of {space} {:03X}H", a.address),
    })
}

// ---------------------------------------------------------------- mutants

/// `oracle mutants`: each small change of this program has to be found.
pub fn mutants(seed: u64) -> bool {
    let suites = [Suite::sessions(seed), Suite::trials(seed)];
    let order = in_turns(&suites);
    let found = on_two_threads(Change::TABLE.len(), |i| find(Change::TABLE[i].0, &order));
    for (f, (change, says)) in found.iter().zip(Change::TABLE) {
        let by = f.as_deref().unwrap_or("NOT FOUND");
        println!("{change:?}: {says}: {by}");
    }
    let passed = found.iter().flatten().count();
    println!("{passed} passed, {} failed", found.len() - passed);
    passed == found.len()
}

/// The inputs of all suites in turns, so that a change which one suite alone shows is found soon.
fn in_turns(suites: &[Suite]) -> Vec<(&Suite, usize)> {
    let most = suites.iter().map(|suite| suite.cases.len()).max().unwrap_or(0);
    let turn = |i| suites.iter().filter(move |suite| i < suite.cases.len()).map(move |s| (s, i));
    (0..most).flat_map(turn).collect()
}

/// The first input that tells a changed program from this one.
fn find(change: Change, order: &[(&Suite, usize)]) -> Option<String> {
    switch(Some(change));
    let told =
        |&&(suite, i): &&(&Suite, usize)| (suite.play)(&suite.cases[i].bytes) != suite.texts[i];
    let by = order.iter().find(told).map(|&(suite, i)| suite.cases[i].name.clone());
    switch(None);
    by
}

// ---------------------------------------------------------------- files

/// `oracle gen SEED DIR`: every input and what it should print, as files.
pub fn write_files(seed: u64, dir: &str) -> std::io::Result<usize> {
    std::fs::create_dir_all(dir)?;
    let mut count = 0;
    for suite in [Suite::sessions(seed), Suite::trials(seed)] {
        for (case, text) in suite.cases.iter().zip(&suite.texts) {
            std::fs::write(format!("{dir}/{}.bin", case.name), &case.bytes)?;
            std::fs::write(format!("{dir}/{}.txt", case.name), text)?;
            count += 1;
        }
    }
    Ok(count)
}
