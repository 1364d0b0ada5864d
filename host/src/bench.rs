//! Time for each call as a ratio to src/plain.rs, which has limits, and to src/bytes.rs and to copying
//! 65,536 bytes, which have none, in the same run.

use crate::bytes::BYTES;
use crate::calls::*;
use crate::model::State;
use crate::plain::PLAIN;
use crate::states::{calls_on, more_states, states, tries};
use std::hint::black_box;
use std::time::Instant;

const ROUNDS: usize = 15;
const REPEATS: usize = 41;
const COPIES: usize = 8;

/// Bytes at a fixed alignment, so that all lines of the table are measured alike.
#[repr(C, align(4096))]
struct Aligned([u8; SIZE]);

impl Aligned {
    fn new() -> Box<Aligned> {
        Box::new(Aligned([0; SIZE]))
    }
}

fn median(mut times: Vec<f64>) -> f64 {
    times.sort_by(|one, other| one.total_cmp(other));
    times[times.len() / 2]
}

fn copy(from: &[u8], to: &mut [u8]) {
    assert!(from.len() == SIZE && to.len() == SIZE);
    unsafe {
        std::ptr::copy_nonoverlapping(black_box(from.as_ptr()), black_box(to.as_mut_ptr()), SIZE);
    }
    black_box(to);
}

fn time_copy(from: &[u8], to: &mut [u8]) -> f64 {
    let begun = Instant::now();
    for _ in 0..COPIES {
        copy(from, to);
    }
    begun.elapsed().as_nanos() as f64 / COPIES as f64
}

/// One call on a fresh copy of the area, which lies warm in the cache.
fn time_call(manager: &Manager, from: &[u8], area: &mut [u8], call: &Call) -> f64 {
    copy(from, area);
    let mut list = [0; LIST];
    let list = &mut list[..call.list_length()];
    let mut answer = [0; 4];
    let begun = Instant::now();
    black_box(manager.bare(black_box(area), black_box(list), black_box(call), black_box(&mut answer)));
    begun.elapsed().as_nanos() as f64
}

/// The most times plain Rust that a call may take. A start that is accepted has no limit, since it comes
/// once; a tick that tries rows has a higher one.
fn limit(state: &State, call: &Call) -> Option<f64> {
    match (call, tries(state, call)) {
        (Call::Start { slots: 1..=64, delay: 1..=255 }, _) => None,
        (_, 0) => Some(2.5),
        (_, 1..=4) => Some(4.5),
        _ => Some(7.0),
    }
}

/// One line of the table.
struct Entry {
    state: String,
    sort: String,
    call: Call,
    area: Vec<u8>,
    limit: Option<f64>,
    /// Of each round: copy, call, plain and bytes in nanoseconds.
    rounds: Vec<[f64; 4]>,
}

impl Entry {
    /// The managers must do the same, so that their times can be compared.
    fn check(&self, manager: &Manager) -> Result<(), String> {
        let [one, plain, bytes] = [manager, &PLAIN, &BYTES].map(|manager| {
            let mut area = self.area.clone();
            let mut list = vec![0; self.call.list_length()];
            let outcome = manager.call(&mut area, &mut list, &self.call);
            (outcome, area, list)
        });
        for (name, other) in [(PLAIN.name, plain), (BYTES.name, bytes)] {
            if one != other {
                let part = if one.0 != other.0 { "answer" } else { "bytes" };
                let (state, sort, manager) = (&self.state, &self.sort, manager.name);
                return Err(format!("bench: {state}, {sort}: {manager} and {name} differ in the {part}"));
            }
        }
        Ok(())
    }

    fn round(&mut self, manager: &Manager, from: &mut [u8], area: &mut [u8]) {
        from.copy_from_slice(&self.area);
        let mut times = [const { Vec::new() }; 4];
        for _ in 0..REPEATS {
            times[0].push(time_copy(from, area));
            times[1].push(time_call(manager, from, area, &self.call));
            times[2].push(time_call(&PLAIN, from, area, &self.call));
            times[3].push(time_call(&BYTES, from, area, &self.call));
        }
        self.rounds.push(times.map(median));
    }

    fn median_of(&self, number: impl Fn(&[f64; 4]) -> f64) -> f64 {
        median(self.rounds.iter().map(number).collect())
    }
}

fn entries() -> Vec<Entry> {
    let mut all = states();
    // Two sorts occur only with dormant slots; a tick is longest where all rows are late or wait, or each
    // try takes a row; and borders are set where no row has begun.
    let names = ["dormant", "late", "fresh", "in vain", "served", "kill hit", "kill miss"];
    let more = more_states();
    assert!(names.len() == more.len());
    all.extend(names.into_iter().zip(more).map(|(name, (_, state))| (name, state)));
    let mut list = Vec::new();
    let mut old = Vec::new();
    for (name, state) in all {
        for (sort, call) in calls_on(&state) {
            match name {
                "dormant" if !sort.contains("dormant") && !sort.contains("slot by b") => continue,
                "late" | "in vain" | "served" | "kill hit" | "kill miss" if call != TICK => continue,
                "fresh" if sort != "borders" => continue,
                _ => {}
            }
            // In the last 32-bit layout: a full state, and begin and borders where they are accepted.
            let in_old = match (name, call) {
                (_, Call::Start { .. }) => false,
                ("full" | "fresh", _) | ("half", Call::Begin { .. }) => true,
                _ => false,
            };
            let limit = limit(&state, &call);
            let entry = |state: String, sort: String, area: Vec<u8>| Entry {
                state,
                sort,
                call,
                area,
                limit,
                rounds: Vec::new(),
            };
            if in_old {
                old.push(entry(format!("old {name}"), sort.clone(), state.old_bytes().unwrap()));
            }
            list.push(entry(name.to_string(), sort, state.bytes()));
        }
    }
    list.append(&mut old);
    list
}

pub fn bench(manager: &Manager) -> Result<(), String> {
    println!(
        "bench: {}, medians of {ROUNDS} rounds of {REPEATS} repeats; a copy is one of 65,536 bytes",
        manager.name
    );
    let mut list = entries();
    for entry in &list {
        entry.check(manager)?;
    }
    let (mut from, mut area) = (Aligned::new(), Aligned::new());
    for _ in 0..ROUNDS {
        for entry in &mut list {
            entry.round(manager, &mut from.0, &mut area.0);
        }
    }
    println!(
        "  {:<9} {:<25} {:>8} {:>8} {:>9} {:>9} {:>7} {:>8} {:>8} {:>8}  limit",
        "state", "call", "copy ns", "call ns", "plain ns", "bytes ns", "copies", "plain in", "times", "times"
    );
    println!(
        "  {:<9} {:<25} {:>8} {:>8} {:>9} {:>9} {:>7} {:>8} {:>8} {:>8}",
        "", "", "", "", "", "", "", "copies", "plain", "bytes"
    );
    let mut failed = Vec::new();
    for entry in &list {
        let times_plain = entry.median_of(|times| times[1] / times[2]);
        let verdict = match entry.limit {
            None => "none".to_string(),
            Some(limit) if times_plain <= limit => format!("{limit} pass"),
            Some(limit) => {
                failed.push(format!("{}, {}: {times_plain:.2}, limit {limit}", entry.state, entry.sort));
                format!("{limit} FAIL")
            }
        };
        println!(
            "  {:<9} {:<25} {:>8.0} {:>8.0} {:>9.0} {:>9.0} {:>7.2} {:>8.2} {:>8.2} {:>8.2}  {verdict}",
            entry.state,
            entry.sort,
            entry.median_of(|times| times[0]),
            entry.median_of(|times| times[1]),
            entry.median_of(|times| times[2]),
            entry.median_of(|times| times[3]),
            entry.median_of(|times| times[1] / times[0]),
            entry.median_of(|times| times[2] / times[0]),
            times_plain,
            entry.median_of(|times| times[1] / times[3])
        );
    }
    println!("  limit: how many times plain each line may take; times bytes and copies have none");
    if failed.is_empty() {
        Ok(())
    } else {
        Err(format!("bench: over the limit of times plain: {}", failed.join("; ")))
    }
}
