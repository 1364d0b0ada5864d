//! Tests and benchmark of the SABRE buffer manager from the side of its host.

mod bench;
mod bytes;
mod calls;
mod cases;
mod compare;
mod damage;
mod lengths;
mod lent;
mod model;
mod old;
mod pairs;
mod plain;
mod player;
mod random;
#[cfg(feature = "library")]
mod sabre;
mod scenario;
mod stack;
mod states;
mod stored;
mod ties;
mod waits;

use std::io::{Read, Write};

#[cfg(not(feature = "library"))]
use plain::PLAIN as MANAGER;
#[cfg(feature = "library")]
use sabre::LIBRARY as MANAGER;

const SEED: u64 = 1;

const USAGE: &str = "\
host [all]              every test below with its default size
host cases              session S, M1 to M11, borders, fills, the begin order, late clocks, old areas
                        and the refusals
host compare [N [SEED]] N random calls, model against manager, and who waits after ticks
host pairs [N [SEED]]   N pairs of runs that differ in higher calls and in borders
host damage [N [SEED]]  N damaged areas, new and old
host lengths [SEED]     short, long and unaligned areas and lists
host stack              the stack that each call needs
host bench              the time that each call needs
host record N SEED FILE [wide]
                        N random records for the player in FILE, its output in FILE.out
host play [FILE]        what the player prints for FILE, or for standard input
host stored FILE..      what crates/sessions prints for its files
host clauses FILE..     the clauses of sound that the areas of those files break";

fn number(args: &[String], at: usize, default: u64) -> Result<u64, String> {
    match args.get(at) {
        None => Ok(default),
        Some(text) => text.parse().map_err(|_| format!("{text} is no number\n{USAGE}")),
    }
}

fn all() -> Result<(), String> {
    cases::play_cases(&MANAGER)?;
    lengths::lengths(&MANAGER, SEED)?;
    stack::stack(&MANAGER)?;
    damage::damage_areas(&MANAGER, damage::AREAS, SEED)?;
    pairs::pairs(&MANAGER, pairs::PAIRS, SEED)?;
    compare::compare(&MANAGER, compare::CALLS, SEED)?;
    println!("all passed");
    Ok(())
}

fn play(file: Option<&String>) -> Result<(), String> {
    let mut input = Vec::new();
    match file {
        Some(file) => {
            input = std::fs::read(file).map_err(|fault| format!("play: {file}: {fault}"))?;
        }
        None => {
            let read = std::io::stdin().read_to_end(&mut input);
            read.map_err(|fault| format!("play: {fault}"))?;
        }
    }
    let written = std::io::stdout().write_all(player::play(&input).as_bytes());
    written.map_err(|fault| format!("play: {fault}"))
}

fn run(args: &[String]) -> Result<(), String> {
    match args.first().map_or("all", String::as_str) {
        "all" => all(),
        "cases" => cases::play_cases(&MANAGER),
        "compare" => {
            compare::compare(&MANAGER, number(args, 1, compare::CALLS)?, number(args, 2, SEED)?)
        }
        "pairs" => pairs::pairs(&MANAGER, number(args, 1, pairs::PAIRS)?, number(args, 2, SEED)?),
        "damage" => {
            damage::damage_areas(&MANAGER, number(args, 1, damage::AREAS)?, number(args, 2, SEED)?)
        }
        "lengths" => lengths::lengths(&MANAGER, number(args, 1, SEED)?),
        "stack" => stack::stack(&MANAGER),
        "bench" => bench::bench(&MANAGER),
        "record" => match args {
            [_, _, _, file, rest @ ..] if rest.is_empty() || rest == ["wide"] => {
                player::record(number(args, 1, 0)?, number(args, 2, SEED)?, file, !rest.is_empty())
            }
            _ => Err(USAGE.to_string()),
        },
        "play" => play(args.get(1)),
        "stored" => stored::print(&args[1..]),
        "clauses" => stored::clauses(&args[1..]),
        _ => Err(USAGE.to_string()),
    }
}

fn main() {
    let args: Vec<String> = std::env::args().skip(1).collect();
    if let Err(text) = run(&args) {
        eprintln!("FAILED: {text}");
        std::process::exit(1);
    }
}
