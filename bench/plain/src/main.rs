//! Runs, replays and audits machine texts, without a proof. It takes the words of `l4run run`, `replay` and `audit`,
//! and where it does what they ask for prints the same bytes and ends with the same status.

mod audit;
mod context;
mod lists;
mod machine;
mod processors;
mod told;
mod trace;
mod words;

use machine::Machine;
use processors::{Entry, Processors};
use std::io::Read;
use std::process::ExitCode;
use told::Output;

const DEFAULT_TURNS: u64 = 100_000;
const MOST_TURNS: u64 = 1_000_000;
const MOST_CPUS: u64 = 16;

const FAULT: u8 = 1;
const USAGE: u8 = 2;
const SPENT: u8 = 3;

/// What ends the program, with its status.
struct Stop {
    status: u8,
    why: String,
}

fn fault(why: impl Into<String>) -> Stop {
    Stop { status: FAULT, why: why.into() }
}

/// What `l4run` may do, and this program does not.
fn not_done(why: impl Into<String>) -> Stop {
    Stop { status: USAGE, why: format!("not done here: {}", why.into()) }
}

/// The words of a command line: those that stand alone, and the options.
#[derive(Default)]
struct Asked {
    names: Vec<String>,
    turns: Option<u64>,
    schedule: Option<String>,
    report: bool,
}

impl Asked {
    fn of(words: impl Iterator<Item = String>) -> Result<Asked, Stop> {
        let mut asked = Asked::default();
        let mut options = Vec::new();
        let mut words = words;
        while let Some(word) = words.next() {
            if word.starts_with("--") {
                if options.contains(&word) {
                    return Err(not_done("an option that is given twice"));
                }
                options.push(word.clone());
            }
            match word.as_str() {
                "--report" => asked.report = true,
                "--turns" => {
                    let turns = words.next().and_then(|turns| turns.parse().ok());
                    asked.turns = Some(turns.ok_or_else(|| not_done("--turns without a number"))?);
                }
                "--schedule" => {
                    asked.schedule = Some(words.next().ok_or_else(|| not_done("--schedule without a list"))?)
                }
                other if other.starts_with('-') => return Err(not_done(other)),
                _ => asked.names.push(word),
            }
        }
        Ok(asked)
    }
}

fn main() -> ExitCode {
    match ended(std::env::args().skip(1)) {
        Ok(status) => ExitCode::from(status),
        Err(stop) => {
            eprintln!("plain: {}", stop.why);
            ExitCode::from(stop.status)
        }
    }
}

fn ended(mut words: impl Iterator<Item = String>) -> Result<u8, Stop> {
    let command = words.next().unwrap_or_default();
    let asked = Asked::of(words)?;
    let names: Vec<&str> = asked.names.iter().map(String::as_str).collect();
    match (command.as_str(), &names[..], &asked.schedule) {
        ("run", [file], None) => run(file, asked.turns.unwrap_or(DEFAULT_TURNS), asked.report),
        ("replay", [file], Some(list)) if asked.turns.is_none() => replay(file, list, asked.report),
        ("audit", [file, trace], None) if asked.turns.is_none() => audit(file, trace, asked.report),
        _ => Err(not_done("run FILE [--turns N], replay FILE --schedule LIST, audit FILE TRACE, each with [--report]")),
    }
}

/// The bytes of a file, or where its name is `-` those of the standard input.
fn read(file: &str) -> Result<Vec<u8>, Stop> {
    let mut bytes = Vec::new();
    let found = match file {
        "-" => std::io::stdin().read_to_end(&mut bytes).map(|_| bytes),
        _ => std::fs::read(file),
    };
    found.map_err(|_| fault(format!("cannot read {file}")))
}

fn machine_of(text: &[u8]) -> Result<Machine, Stop> {
    if machine::has_second_scripts(text) {
        return Err(not_done("scripts of version 2"));
    }
    Machine::read(text).map_err(|machine::Fault(line)| fault(format!("line {line}")))
}

fn run(file: &str, turns: u64, is_report: bool) -> Result<u8, Stop> {
    let machine = machine_of(&read(file)?)?;
    if machine.cpus != 1 {
        return Err(not_done("a run of several processors"));
    }
    if !(1..=MOST_TURNS).contains(&turns) {
        return Err(fault("turns out of range"));
    }
    told(&machine, is_report, |processors| processors.run(turns))
}

fn replay(file: &str, list: &str, is_report: bool) -> Result<u8, Stop> {
    let text = read(file)?;
    let in_file = list.strip_prefix('@').map(read).transpose()?;
    let machine = machine_of(&text)?;
    let entries = match in_file {
        Some(list) => {
            let lines: Vec<&[u8]> = list.split(|&byte| byte == b'\n').filter(|line| !line.starts_with(b";")).collect();
            entries(&machine, lines.join(&b'\n').trim_ascii(), |item| entry(item.trim_ascii()))?
        }
        None => entries(&machine, list.as_bytes(), entry)?,
    };
    told(&machine, is_report, |processors| entries.into_iter().for_each(|entry| processors.take(entry)))
}

/// Lets processors work, and prints what they tell or their report.
fn told(machine: &Machine, is_report: bool, work: impl FnOnce(&mut Processors)) -> Result<u8, Stop> {
    let mut processors = Processors::new(machine, (!is_report).then(|| Output::new(machine)));
    work(&mut processors);
    let is_quiet = processors.is_at_rest();
    if is_report {
        let mut output = Output::new(machine);
        processors.report(&mut output, is_quiet);
        finish(output)?;
    } else if let Some(trace) = processors.into_trace() {
        finish(trace)?;
    }
    Ok(if is_quiet { 0 } else { SPENT })
}

fn audit(file: &str, trace: &str, is_report: bool) -> Result<u8, Stop> {
    let (text, trace) = (read(file)?, read(trace)?);
    let machine = machine_of(&text)?;
    let world = audit::audit(&machine, &trace).map_err(|found| match found {
        audit::Fault::Line(line) => fault(format!("trace line {line}")),
        audit::Fault::Step(step) => fault(format!("refused at step {step}")),
    })?;
    let mut output = Output::new(&machine);
    world.passed(&mut output);
    if is_report {
        world.report(&mut output);
    }
    finish(output)?;
    Ok(0)
}

fn finish(output: Output) -> Result<(), Stop> {
    output.finish().map_err(|_| fault("cannot write"))
}

/// The entries of a list, each of processors that the machine has.
fn entries(machine: &Machine, list: &[u8], entry: impl Fn(&[u8]) -> Option<Entry>) -> Result<Vec<Entry>, Stop> {
    if list.is_empty() {
        return Ok(Vec::new());
    }
    let mut entries = Vec::new();
    for (place, item) in list.split(|&byte| byte == b',').enumerate() {
        let found = entry(item).filter(|entry| entry.cpus().iter().all(|&cpu| cpu < machine.cpus));
        entries.push(found.ok_or_else(|| fault(format!("schedule item {}", place + 1)))?);
    }
    Ok(entries)
}

fn entry(item: &[u8]) -> Option<Entry> {
    match item {
        [b't', tick @ ..] => Some(match at_colon(tick) {
            Some((cpu, clock)) => Entry::TickTo { cpu: processor(cpu)?, clock: number(clock, 1, words::LAST_CLOCK)? },
            None => Entry::Tick { cpu: processor(tick)? },
        }),
        [b'c', cpu @ ..] => Some(Entry::OwnTurn { cpu: processor(cpu)? }),
        _ => Some(match at_colon(item) {
            Some((cpu, poster)) => Entry::TakeLetter { cpu: processor(cpu)?, poster: processor(poster)? },
            None => Entry::Turn { cpu: processor(item)? },
        }),
    }
}

/// What stands before a colon and behind it.
fn at_colon(item: &[u8]) -> Option<(&[u8], &[u8])> {
    let colon = item.iter().position(|&byte| byte == b':')?;
    Some((&item[..colon], &item[colon + 1..]))
}

fn processor(word: &[u8]) -> Option<usize> {
    number(word, 0, MOST_CPUS - 1).map(|cpu| cpu as usize)
}

fn number(word: &[u8], least: u64, most: u64) -> Option<u64> {
    words::decimal(word).filter(|number| (least..=most).contains(number))
}
