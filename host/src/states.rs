//! An empty, a half-full and a full state, and calls of every sort on them, for the benchmark and
//! the measure of the stack.

use crate::calls::*;
use crate::model::{self, Cause, Condition, Holding, Mode, Pin, Row, RowId, Slot, State, Tally};

/// The rows of each level that are not free began in the falling order of their numbers.
fn ordered(mut state: State) -> State {
    let begun: Vec<RowId> =
        state.rows.iter().filter(|(_, row)| **row != Row::FREE).map(|(id, _)| *id).collect();
    for id in begun.into_iter().rev() {
        state.joins(id);
    }
    state
}

/// A state with so many filled slots and live rows. Slots are held by rows of several levels, the
/// last slots by high levels alone; every eighth slot has a write pin, others have read pins.
fn filled(slots: u64, filled: u64, rows: u64) -> State {
    let mut state = State::fresh(slots, 3);
    state.begun = true;
    state.clock = 1000;
    let clock = state.clock;
    for level in 0..4 {
        for number in 0..rows {
            state.rows.insert(
                (level, number),
                Row { condition: Condition::Idle, deadline: 5000 + 10 * ((number * 3) % 8) },
            );
        }
    }
    for slot in 0..filled {
        let lowest = match (filled - 1 - slot) * 64 / filled {
            0..=3 => 3,
            4..=8 => 2,
            9..=17 => 1,
            _ => 0,
        };
        let page = 1024 * (slot % 4) + 16 * slot;
        let dirty = slot % 3 == 0;
        state.filled.insert(slot, Slot { page, arrival: 900, dirty, lowest, touch: clock - slot % 5 });
        let mut writer = false;
        for level in lowest..4 {
            for number in 0..rows {
                if (slot + number + level) % 4 == 3 {
                    continue;
                }
                let pin = if slot % 8 == 7 {
                    if !writer && state.allowed(level, page, Mode::Write) {
                        writer = true;
                        Pin::Write
                    } else {
                        Pin::None
                    }
                } else if (slot + number) % 2 == 0 && state.allowed(level, page, Mode::Read) {
                    Pin::Read
                } else {
                    Pin::None
                };
                let touch = clock - 5 - (slot * 7 + number) % 11;
                state.holdings.insert((slot, (level, number)), Holding { pin, arrival: 950, touch });
            }
        }
    }
    // One row of each level waits for a page, one fetches.
    for level in 0..4 {
        if rows < 3 {
            break;
        }
        let waiting = (level, rows - 1);
        let page = state.filled[&(filled / 3)].page;
        let mode = if state.allowed(level, page, Mode::Read) { Mode::Read } else { Mode::Write };
        state.rows.get_mut(&waiting).unwrap().condition = Condition::Waiting { page, mode };
        let fetching = (level, rows - 2);
        let place = state
            .holdings
            .iter()
            .find(|((_, row), holding)| *row == fetching && holding.pin == Pin::Read)
            .map(|(key, _)| *key);
        if let Some(key) = place {
            state.holdings.get_mut(&key).unwrap().arrival = clock + 2;
            state.rows.get_mut(&fetching).unwrap().condition = Condition::Fetching { due: clock + 2 };
        }
    }
    ordered(state)
}

pub fn states() -> Vec<(&'static str, State)> {
    let mut empty = State::fresh(64, 3);
    empty.begun = true;
    empty.rows.insert((0, 0), Row { condition: Condition::Idle, deadline: 5000 });
    let empty = ordered(empty);
    let list = vec![("empty", empty), ("half", filled(64, 32, 4)), ("full", filled(64, 64, 8))];
    for (name, state) in &list {
        let broken = state.broken();
        assert!(broken.is_empty(), "the {name} state is unsound: {broken:?}");
        assert!(model::read(&state.bytes()).as_ref() == Ok(state));
    }
    list
}

/// The rows whose turn comes in a tick, those taken before it included; 0 in any other call.
pub fn tries(state: &State, call: &Call) -> u64 {
    let mut tally = Tally::default();
    let outcome = state.clone().call(call, &mut tally);
    outcome.fills.len() as u64
        + tally.of("tick: a waiting row tried in vain")
        + tally.of("tick: a waiting row killed on the way")
}

/// The sort of an outcome, as a line of the table.
fn sort(call: &Call, outcome: &Outcome, tally: &Tally) -> String {
    let kind = KINDS[call.kind()];
    if outcome.status != 0 {
        return format!("{kind}: refused {}", outcome.status);
    }
    match call {
        Call::Tick { .. } => {
            let parts = [
                (outcome.fills.len() as u64, "filled"),
                (tally.of("tick: a waiting row tried in vain"), "in vain"),
            ];
            let parts: Vec<String> = parts
                .iter()
                .filter(|(number, _)| *number > 0)
                .map(|(number, end)| format!("{number} {end}"))
                .collect();
            if parts.is_empty() { kind.to_string() } else { format!("{kind}: {}", parts.join(", ")) }
        }
        Call::Request { .. } => {
            let found = |events: &[&str]| events.iter().any(|event| tally.of(event) > 0);
            let path = if found(&["step 1: wait"]) {
                "wait, conflict".to_string()
            } else if found(&["choice g"]) {
                "wait, no slot".to_string()
            } else if found(&["step 1: ready", "step 1: fetch"]) {
                let kills = found(&["killed as taken"]);
                if kills { "hit, kills" } else { "hit" }.to_string()
            } else if found(&["step 2: ready", "step 2: fetch"]) {
                "hit, dormant".to_string()
            } else if let Some(step) = ["a", "b", "c", "d", "e", "f"]
                .iter()
                .find(|step| tally.of(&format!("choice {step}")) > 0)
            {
                format!("slot by {step}")
            } else {
                "hidden page".to_string()
            };
            format!("{kind}: {path}")
        }
        Call::Look { .. } | Call::View { .. } => {
            format!("{kind}: {}", WORDS[outcome.answer[0] as usize])
        }
        _ => kind.to_string(),
    }
}

/// Calls on a state, one for each sort of outcome found on it.
pub fn calls_on(state: &State) -> Vec<(String, Call)> {
    let mut tries = vec![
        Call::Start { slots: 64, delay: 3 },
        Call::Start { slots: 65, delay: 3 },
        TICK,
        Call::Tick { list: LIST - 1 },
        Call::Borders { first: 3900, second: 4000, third: 4090 },
    ];
    let mut pages: Vec<u32> = state.filled.values().map(|slot| slot.page as u32).collect();
    pages.extend([999, 1999, 2999, 3999]);
    for level in 0..4 {
        tries.push(Call::Count { level });
        for row in 0..8 {
            tries.push(Call::Begin { level, row, deadline: 9000 });
            tries.push(Call::End { level, row });
            tries.push(Call::Look { level, row });
            for page in &pages {
                tries.push(Call::Unpin { level, row, page: *page });
                for mode in 0..2 {
                    tries.push(Call::Request { level, row, page: *page, mode });
                }
            }
        }
        for page in &pages {
            tries.push(Call::View { level, page: *page });
        }
    }
    let mut list: Vec<(String, Call)> = Vec::new();
    for call in tries {
        let mut tally = Tally::default();
        let outcome = state.clone().call(&call, &mut tally);
        let name = sort(&call, &outcome, &tally);
        // Refusals that look at the row, at the page, at the begun mark and at the list are enough.
        if outcome.status != 0 && !matches!((call.kind(), outcome.status), (0, 2) | (1, 8) | (2, 11) | (2, 13) | (3, 15) | (5, 21) | (9, 20)) {
            continue;
        }
        if !list.iter().any(|(other, _)| *other == name) {
            list.push((name, call));
        }
    }
    list.sort_by_key(|(_, call)| call.kind());
    list
}

/// A state in which all 32 rows wait, each for a page of its own that is in no slot. Every slot is
/// held by every row and pinned by the best one, so that no row can be filled; or every slot is
/// dormant and dirty, so that each can.
fn all_wait(dormant: bool) -> State {
    let mut state = State::fresh(64, 3);
    state.begun = true;
    state.clock = 1000;
    for slot in 0..64 {
        let touch = 990 - slot % 7;
        state.filled.insert(slot, Slot { page: slot, arrival: 900, dirty: true, lowest: 0, touch });
    }
    for level in 0..4 {
        for number in 0..8 {
            let condition = Condition::Waiting { page: 900 + 8 * level + number, mode: Mode::Read };
            let id = (level, number);
            state.rows.insert(id, Row { condition, deadline: 5000 + 10 * ((number * 3) % 8) });
            for slot in 0..64 {
                let pin = if id == (0, 0) { Pin::Read } else { Pin::None };
                if !dormant {
                    state.holdings.insert((slot, id), Holding { pin, arrival: 950, touch: 980 });
                }
            }
        }
    }
    ordered(state)
}

/// A state with 16 slots, each with a write pin of a row of level 2 or 3 and held by no other. The rows
/// of levels 0 and 1 wait: each to write the page of a slot of its own, or each to read a page that is
/// in no slot. So each try of a tick takes a row.
fn all_kill(hit: bool) -> State {
    let mut state = State::fresh(16, 3);
    state.begun = true;
    state.clock = 1000;
    for slot in 0..16 {
        let (level, number) = (slot / 8, slot % 8);
        let deadline = 5000 + 10 * ((number * 3) % 8);
        let holder = (level + 2, number);
        let page = 1024 * holder.0 + 16 * number;
        state.filled.insert(slot, Slot { page, arrival: 900, dirty: false, lowest: holder.0, touch: 980 });
        state.rows.insert(holder, Row { condition: Condition::Idle, deadline });
        state.holdings.insert((slot, holder), Holding { pin: Pin::Write, arrival: 950, touch: 980 });
        let (page, mode) = if hit { (page, Mode::Write) } else { (900 + slot, Mode::Read) };
        state.rows.insert((level, number), Row { condition: Condition::Waiting { page, mode }, deadline });
    }
    let state = ordered(state);
    let mut after = state.clone();
    let mut tally = Tally::default();
    let filled = after.call(&TICK, &mut tally).fills.len();
    let taken = |row: &&Row| row.condition == Condition::Killed(Cause::Taken);
    let taken = after.rows.values().filter(taken).count();
    let chosen = if hit { 0 } else { 16 };
    assert!(filled == 16 && taken == 16 && tally.of("choice d") == chosen);
    state
}

/// States in which a sort occurs that these lack: a dormant slot, a last tick for all, no begin yet,
/// all rows wait, each try takes a row.
pub fn more_states() -> Vec<(&'static str, State)> {
    let (_, full) = states().pop().unwrap();
    let mut dormant = full.clone();
    for slot in [3, 9, 27] {
        dormant.holdings.retain(|(number, _), _| *number != slot);
    }
    for (id, row) in full.rows.iter() {
        if matches!(row.condition, Condition::Fetching { .. }) && dormant.held_by(*id).iter().all(|(_, holding)| holding.arrival <= dormant.clock) {
            dormant.rows.get_mut(id).unwrap().condition = Condition::Idle;
        }
    }
    let mut last = full;
    for row in last.rows.values_mut() {
        row.deadline = last.clock;
    }
    let fresh = State::fresh(64, 3);
    let list = vec![
        ("full, three dormant", dormant),
        ("full, all late next", last),
        ("fresh", fresh),
        ("all wait in vain", all_wait(false)),
        ("all wait, dormant slots", all_wait(true)),
        ("each try takes a row, its page is in a slot", all_kill(true)),
        ("each try takes a row, its page is in none", all_kill(false)),
    ];
    for (name, state) in &list {
        let broken = state.broken();
        assert!(broken.is_empty(), "the state {name} is unsound: {broken:?}");
    }
    list
}
