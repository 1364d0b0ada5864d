//! Random runs through the model and the manager, compared after each call.

use crate::calls::*;
use crate::lent::{difference, Lent};
use crate::model::{self, list_after, Condition, Layout, Row, RowId, State, Tally, EVENTS, SHORT};
use crate::old::OldAreas;
use crate::random::Random;
use crate::scenario::{wild, wild_wide, Scenario, KIND_TICK};
use crate::waits;

pub const CALLS: u64 = 1_000_000;

const LEVELS: &[u64] = &[0, 1, 2, 3];

/// The rows of all levels that are not free, the first begun first, by the calls that were accepted.
#[derive(Default)]
struct Begun(Vec<RowId>);

impl Begun {
    fn note(&mut self, call: &Call) {
        match *call {
            Call::Start { .. } => self.0.clear(),
            Call::Begin { level, row, .. } => self.0.push((level.into(), row.into())),
            Call::End { level, row } => self.0.retain(|id| *id != (level.into(), row.into())),
            _ => {}
        }
    }

    /// Each level's begin order is that of its own rows.
    fn judge(&self, state: &State) -> Result<(), String> {
        for level in 0..4 {
            let of_level: Vec<u64> =
                self.0.iter().filter(|row| row.0 == level).map(|row| row.1).collect();
            if state.order[&level] != of_level {
                let order = &state.order[&level];
                return Err(format!("T-06: level {level}: order {order:?}, begun {of_level:?}"));
            }
        }
        Ok(())
    }
}

/// What is counted over all runs.
struct Counted {
    tally: Tally,
    old: OldAreas,
}

/// The lent area, which holds these bytes, and the model's state.
struct Run<'a> {
    manager: &'a Manager,
    lent: Lent,
    bytes: Vec<u8>,
    state: State,
    begun: Begun,
}

impl Run<'_> {
    /// A call on the area, whatever stands in it.
    fn call_on_any(&mut self, call: &Call, counted: &mut Counted) -> Result<(), String> {
        let expected = model::call(&mut self.bytes, call, &mut counted.tally);
        check(self.manager, &mut self.lent, &self.bytes, call, &expected)
    }

    fn put(&mut self, bytes: Vec<u8>) {
        self.lent.area()[..SIZE].copy_from_slice(&bytes);
        self.bytes = bytes;
    }

    /// Writes the area in the old layout, if that has room for the state.
    fn make_old(&mut self) {
        if let Some(bytes) = self.state.old_bytes() {
            self.put(bytes);
        }
    }

    /// Moves the state on to a late clock, unless it is past it. Gives whether deadlines must then be wide.
    fn leap(&mut self, random: &mut Random) -> bool {
        let clock = match random.below(7) {
            0..=2 => OLD_LAST_CLOCK - random.below(8),
            3..=5 => SHORT - random.below(8),
            _ => LAST_CLOCK - random.between(4, 60),
        };
        if clock > self.state.clock {
            self.state.later(clock - self.state.clock);
            self.put(self.state.bytes());
        }
        self.state.clock > OLD_LAST_CLOCK
    }

    /// One call on both sides. The area holds the model's bytes before it, new or old, and must after it;
    /// so what is judged of an accepted call is judged of both.
    fn step(&mut self, call: &Call, counted: &mut Counted) -> Result<(), String> {
        let old = Layout::of(&self.bytes) == Layout::Old;
        let before = matches!(call, Call::Tick { .. }).then(|| self.state.clone());
        let expected = self.state.call(call, &mut counted.tally);
        let changed = expected.status == 0 && !call.asks();
        if changed {
            self.bytes = self.state.bytes();
        }
        check(self.manager, &mut self.lent, &self.bytes, call, &expected)?;
        if old {
            counted.old.note(call, &expected);
        }
        match before {
            Some(before) if changed => {
                waits::judge(&before, expected.answer[1], &self.state, &mut counted.tally)?
            }
            _ => {}
        }
        if expected.status == 0 {
            self.begun.note(call);
        }
        self.begun.judge(&self.state)
    }
}

/// One call of each kind on the state's area in the old layout, if that has room for it. Gives their
/// number.
fn each_kind_on_old(
    manager: &Manager,
    random: &mut Random,
    scenario: &Scenario,
    state: &State,
    counted: &mut Counted,
) -> Result<u64, String> {
    let Some(old) = state.old_bytes() else { return Ok(0) };
    for kind in 0..KINDS.len() {
        let call = scenario.call_of_kind(random, kind, state, LEVELS);
        let mut lent = Lent::new(random.below(16) as usize, SIZE + random.below(9) as usize, 0x6B);
        lent.area()[..SIZE].copy_from_slice(&old);
        let mut bytes = old.clone();
        let expected = model::call(&mut bytes, &call, &mut counted.tally);
        check(manager, &mut lent, &bytes, &call, &expected).map_err(|text| format!("old area: {text}"))?;
        counted.old.note(&call, &expected);
    }
    Ok(KINDS.len() as u64)
}

/// Makes the call and compares outcome, area, list and guards.
pub fn check(
    manager: &Manager,
    lent: &mut Lent,
    bytes: &[u8],
    call: &Call,
    expected: &Outcome,
) -> Result<(), String> {
    lent.renew_list(call);
    let list = list_after(call, expected, lent.list());
    let got = lent.call(manager, call);
    if got != *expected {
        return Err(format!("{call:?}: {got:?} instead of {expected:?}"));
    }
    if lent.state_bytes() != bytes {
        let text = difference(lent.state_bytes(), bytes);
        return Err(format!("{call:?}, {}: {text}", expected.lines().join("; ")));
    }
    if lent.list() != list {
        let text = difference(lent.list(), &list);
        return Err(format!("{call:?}, {}: in the list {text}", expected.lines().join("; ")));
    }
    lent.guards().map_err(|text| format!("{call:?}: {text}"))
}

/// Ends the best live row, if it does not wait and another does. So the best one waits more often.
fn best_ends(state: &State) -> Option<Call> {
    let waits = |row: &Row| matches!(row.condition, Condition::Waiting { .. });
    let best = waits::best_live(state)?;
    let others = !waits(&state.rows[&best]) && state.rows.values().any(waits);
    others.then_some(Call::End { level: best.0 as u32, row: best.1 as u32 })
}

/// A call on a short area or on a damaged one, which must be refused with 1 and alter nothing.
fn refused_area(
    run: &Run,
    random: &mut Random,
    scenario: &Scenario,
    counted: &mut Counted,
) -> Result<(), String> {
    let mut call = scenario.call(random, &run.state, LEVELS);
    let mut lent;
    if random.percent(50) {
        let length = random.pick(&[0, 1, 40, 72, 100, 512, 6_656, 55_808, 65_528, 65_535]);
        lent = Lent::new(random.below(8) as usize, length, 0x5A);
        lent.area().copy_from_slice(&run.bytes[..length]);
    } else {
        lent = Lent::new(random.below(8) as usize, SIZE, 0x5A);
        lent.area().copy_from_slice(&run.bytes);
        loop {
            let at = random.below(SIZE as u64) as usize;
            lent.area()[at] ^= 1 << random.below(8);
            if model::read_either(lent.area()).is_err() {
                break;
            }
        }
        if let Call::Start { .. } = call {
            call = scenario.call_of_kind(random, KIND_TICK, &run.state, LEVELS);
        }
    }
    let before = lent.state_bytes().to_vec();
    let mut copy = before.clone();
    let expected = model::call(&mut copy, &call, &mut counted.tally);
    assert!(expected == Outcome::refused(1) && copy == before);
    check(run.manager, &mut lent, &before, &call, &expected)?;
    if Layout::of(&run.bytes) == Layout::Old {
        counted.old.note(&call, &expected);
    }
    Ok(())
}

fn run(
    manager: &Manager,
    seed: u64,
    number: u64,
    most: u64,
    counted: &mut Counted,
) -> Result<u64, String> {
    let mut random = Random::new(seed, number);
    let random = &mut random;
    let mut scenario = Scenario::random(random);
    scenario.wide = random.percent(30);
    let mut made = 0;
    let at_call = |made: u64, text: String| {
        format!("seed {seed}, run {number}, call {made}: {text}")
    };

    // Before the start: whatever stood there.
    let lent = Lent::random(random);
    let bytes = lent.state_bytes().to_vec();
    let mut run = Run { manager, lent, bytes, state: State::fresh(1, 1), begun: Begun::default() };
    for _ in 0..random.below(3) {
        let call = scenario.call(random, &run.state, LEVELS);
        made += 1;
        run.call_on_any(&call, counted).map_err(|text| at_call(made, text))?;
    }
    if random.percent(15) {
        let call = Call::Start { slots: wild(random), delay: wild_wide(random) };
        made += 1;
        run.call_on_any(&call, counted).map_err(|text| at_call(made, text))?;
    }

    if random.percent(12) {
        run.state = scenario.late_start(random);
        run.put(run.state.bytes());
    } else {
        let call = Call::Start { slots: scenario.slots, delay: scenario.delay };
        made += 1;
        run.step(&call, counted).map_err(|text| at_call(made, text))?;
    }
    // In some runs the best live row ends now and then.
    let clears = random.percent(25);
    // In some it leaps to late clocks.
    let leaps = random.percent(20);
    // Among 100 calls, those that get the area in the old layout, where that has room for it.
    let old = random.pick(&[0, 30, 100]);
    for _ in 0..scenario.length.min(most) {
        // At the last clock little happens.
        if run.state.clock == LAST_CLOCK && random.one_in(60) {
            break;
        }
        made += 1;
        if leaps && random.one_in(80) {
            scenario.wide |= run.leap(random);
        }
        if random.percent(old) {
            run.make_old();
        }
        let done = if random.one_in(120) {
            refused_area(&run, random, &scenario, counted)
        } else {
            let ends = if clears && random.one_in(8) { best_ends(&run.state) } else { None };
            let call = ends.unwrap_or_else(|| scenario.call(random, &run.state, LEVELS));
            run.step(&call, counted)
        };
        done.map_err(|text| at_call(made, text))?;
        if random.one_in(200) {
            made += each_kind_on_old(manager, random, &scenario, &run.state, counted)
                .map_err(|text| at_call(made, text))?;
        }
        // The model keeps itself sound.
        if random.one_in(200) {
            match model::read_either(&run.bytes) {
                Ok(read) if read == run.state => {}
                other => return Err(at_call(made, format!("the model is unsound: {other:?}"))),
            }
        }
    }
    Ok(made)
}

/// Prints how often each thing occurred, and adds the names of those that never did.
pub fn print_counts(title: &str, names: &[(String, u64)], missing: &mut Vec<String>) {
    println!("  {title}");
    for (name, times) in names {
        println!("    {times:>9}  {name}");
        if *times == 0 {
            missing.push(name.clone());
        }
    }
}

pub fn compare(manager: &Manager, calls: u64, seed: u64) -> Result<(), String> {
    println!("compare: {calls} calls, seed {seed}, model against {}", manager.name);
    let mut counted = Counted { tally: Tally::with_ties(), old: OldAreas::new() };
    let mut made = 0;
    let mut runs = 0;
    while made < calls {
        made += run(manager, seed, runs, calls - made, &mut counted)
            .map_err(|text| format!("compare: {text}"))?;
        runs += 1;
    }
    let tally = counted.tally;
    println!("  {made} calls in {runs} runs agree in status, answer, area and list");
    let mut missing = Vec::new();
    let mut list =
        |title: &str, names: &[(String, u64)]| print_counts(title, names, &mut missing);
    let named = |names: &[&str], times: &[u64]| -> Vec<(String, u64)> {
        names.iter().zip(times).map(|(name, times)| (name.to_string(), *times)).collect()
    };
    list("calls", &named(&KINDS, &tally.kinds));
    list("words", &named(&WORDS, &tally.words));
    // 16 is not used, and 18 is the player's.
    let refusals: Vec<(String, u64)> = (1..=21)
        .filter(|number| ![16, 18].contains(number))
        .map(|number| (format!("refusal {number}"), tally.refusals[number]))
        .collect();
    list("refusals", &refusals);
    let events: Vec<(String, u64)> =
        EVENTS.iter().map(|event| (event.to_string(), tally.of(event))).collect();
    list("steps", &events);
    let cases: Vec<(String, u64)> =
        waits::CASES.iter().map(|case| (case.to_string(), tally.of(case))).collect();
    list("T-05: rows that wait after a tick, and the best live row that waited before it", &cases);
    list("T-07: areas of the last 32-bit layout", counted.old.counts());
    missing.extend(tally.ties.unwrap().print());
    if missing.is_empty() {
        Ok(())
    } else {
        Err(format!("compare: seed {seed}: these never occurred: {}", missing.join("; ")))
    }
}
