//! Damaged areas, new ones and those of the last 32-bit layout. Unsound ones must be refused with 1,
//! whatever list a tick is lent, and left as they are, and so the list; sound ones must be answered as the
//! model answers them.

use crate::calls::*;
use crate::compare::check;
use crate::lent::Lent;
use crate::model::{
    self, holding_at, place_at, row_at, set_word, slot_at, word, Layout, State, Tally, BEGUN_AT,
    BORDERS_AT, CLOCK_AT, HEADER_END, HOLDINGS_AT, ORDER_AT, ROWS_AT, SHORT, SLOTS_AT, TAIL_AT,
    VERSION_AT,
};
use crate::random::Random;
use crate::scenario::{made_up, wild_wide, Scenario, KIND_BORDERS, KIND_TICK};
use crate::waits;
use std::collections::BTreeMap;

pub const AREAS: u64 = 120_000;

const LEVELS: &[u64] = &[0, 1, 2, 3];

/// A number that lies at a border, or near something in the state.
fn number(random: &mut Random, state: &State) -> u64 {
    let clock = state.clock;
    match random.below(12) {
        0..=2 => random.below(6),
        3..=5 => {
            let near = [
                clock.wrapping_sub(1),
                clock,
                clock + 1,
                clock + state.delay - 1,
                clock + state.delay,
                clock + state.delay + 1,
            ];
            random.pick(&near)
        }
        6 => random.pick(&[0, 1, 63, 64, 65, 255, 256, 1023, 1024, 2048, 3072, 4095, 4096]),
        7 => wild_wide(random),
        8 => random.next(),
        9 => random.pick(&[
            SHORT,
            SHORT + 1,
            SHORT + 1 + clock % SHORT,
            1 << 63,
            (1 << 63) + clock % SHORT,
            u64::MAX,
            u64::MAX - 1,
            u64::MAX - state.delay,
            u64::MAX - clock,
        ]),
        10 => (random.between(1, 255) << 32) | random.below(5),
        _ => {
            let pages: Vec<u64> = state.filled.values().map(|slot| slot.page).collect();
            if pages.is_empty() {
                random.below(4096)
            } else {
                random.pick(&pages)
            }
        }
    }
}

fn some_row(random: &mut Random, state: &State) -> (u64, u64) {
    let live: Vec<(u64, u64)> =
        state.rows.iter().filter(|(_, row)| row.live()).map(|(id, _)| *id).collect();
    if live.is_empty() || random.percent(25) {
        (random.below(4), random.below(8))
    } else {
        random.pick(&live)
    }
}

fn some_slot(random: &mut Random, state: &State) -> u64 {
    let filled: Vec<u64> = state.filled.keys().copied().collect();
    if filled.is_empty() || random.percent(25) {
        random.below(64)
    } else {
        random.pick(&filled)
    }
}

fn some_holding(random: &mut Random, state: &State) -> (u64, (u64, u64)) {
    let held: Vec<(u64, (u64, u64))> = state.holdings.keys().copied().collect();
    if held.is_empty() || random.percent(25) {
        (some_slot(random, state), some_row(random, state))
    } else {
        random.pick(&held)
    }
}

fn swap(bytes: &mut [u8], one: usize, other: usize, length: usize) {
    for at in 0..length {
        bytes.swap(one + at, other + at);
    }
}

fn near_number(random: &mut Random, old: u64) -> u64 {
    match random.below(4) {
        0 => old.wrapping_add(1),
        1 => old.wrapping_sub(1),
        2 => old ^ (1 << random.below(64)),
        _ => old ^ (1 << random.below(3)),
    }
}

/// Changes the places of a level's rows.
fn damage_order(random: &mut Random, bytes: &mut [u8], state: &State) {
    let level = some_row(random, state).0;
    let at = |number: u64| place_at((level, number));
    let places: Vec<u64> = (0..8).map(|number| word(bytes, at(number))).collect();
    let last = *places.iter().max().unwrap();
    let (placed, others): (Vec<u64>, Vec<u64>) =
        (0..8).partition(|number| places[*number as usize] != 0);
    let one = if placed.is_empty() { random.below(8) } else { random.pick(&placed) };
    let other = if placed.is_empty() { random.below(8) } else { random.pick(&placed) };
    match random.below(10) {
        // a place for a row that has none, the next one or any
        0 if !others.is_empty() => {
            let place = if random.percent(50) { last + 1 } else { random.between(1, 8) };
            set_word(bytes, at(random.pick(&others)), place);
        }
        // none for a row that has one; those after it close up or do not
        1 => {
            let left = places[one as usize];
            set_word(bytes, at(one), 0);
            if random.percent(50) {
                for number in placed.iter().filter(|number| places[**number as usize] > left) {
                    set_word(bytes, at(*number), places[*number as usize] - 1);
                }
            }
        }
        // the place of another
        2 => set_word(bytes, at(one), places[other as usize]),
        // a place left out, those after it one further
        3 => {
            let from = places[one as usize];
            for number in placed.iter().filter(|number| places[**number as usize] >= from) {
                set_word(bytes, at(*number), places[*number as usize] + 1);
            }
        }
        // a place above 8, or one that is right by its lower bytes alone
        4 => {
            let place = places[one as usize];
            let far = [9, 10, 255, 256 + place, (1 << 32) + place, (1 << 63) + place, u64::MAX];
            set_word(bytes, at(one), random.pick(&far));
        }
        // another order of the same rows
        5 => swap(bytes, at(one), at(other), 8),
        6 => {
            let shuffled = random.shuffled(placed.clone());
            for (number, from) in placed.iter().zip(shuffled) {
                set_word(bytes, at(*number), places[from as usize]);
            }
        }
        // the order of another level, or places that go on from it
        7 => swap(bytes, at(0), place_at((random.below(4), 0)), 64),
        8 => {
            let further = random.between(1, 8);
            for number in &placed {
                set_word(bytes, at(*number), places[*number as usize] + further);
            }
        }
        _ => {
            let near = near_number(random, places[one as usize]);
            set_word(bytes, at(one), near);
        }
    }
}

/// Changes the clock, to others that a layout has or has not.
fn damage_clock(random: &mut Random, bytes: &mut [u8], state: &State) {
    let clocks = [
        0,
        OLD_LAST_CLOCK,
        OLD_LAST_CLOCK + 1,
        SHORT,
        SHORT + 1,
        SHORT + 1 + state.clock % SHORT,
        LAST_CLOCK,
        LAST_CLOCK + 1,
        (1 << 63) + state.clock % SHORT,
        u64::MAX - state.delay,
        u64::MAX,
    ];
    set_word(bytes, CLOCK_AT, random.pick(&clocks));
}

/// Moves every tick on by one number, so that nothing but a range can be broken; or one deadline alone.
fn damage_ticks(random: &mut Random, bytes: &mut [u8], state: &State) {
    if random.percent(30) {
        let row = row_at(some_row(random, state));
        let deadline = random.pick(&[SHORT, SHORT + 1, SHORT + 1 + state.clock, 1 << 40, 1 << 63, u64::MAX]);
        return set_word(bytes, row + 24, deadline);
    }
    let last = random.pick(&[OLD_LAST_CLOCK, SHORT, LAST_CLOCK, LAST_CLOCK]);
    let to = last - 2 + random.below(5);
    let mut moved = state.clone();
    moved.later(to.saturating_sub(state.clock));
    let version = word(bytes, VERSION_AT);
    bytes.copy_from_slice(&moved.bytes());
    set_word(bytes, VERSION_AT, version);
}

/// Changes something in the bytes.
fn damage(random: &mut Random, bytes: &mut [u8], state: &State) {
    match random.below(31) {
        // single bytes anywhere
        0 => bytes[random.below(SIZE as u64) as usize] = random.next() as u8,
        1 => bytes[random.below(SIZE as u64) as usize] ^= 1 << random.below(8),
        // the header
        2 => {
            let end = random.pick(&[ORDER_AT, HEADER_END]) as u64;
            bytes[random.below(end) as usize] ^= 1 << random.below(8);
        }
        3 => {
            let at = random.pick(&[0, 8, 16, 24, 32, 32, 40, 48, 56, 64]);
            let value = if random.percent(50) {
                number(random, state)
            } else {
                near_number(random, word(bytes, at))
            };
            set_word(bytes, at, value);
        }
        4 => match random.below(4) {
            0 => set_word(bytes, 16, random.pick(&[0, 1, 64, 65, 256, (1 << 32) + 1])),
            1 => set_word(bytes, 24, random.pick(&[0, 1, 255, 256, 511, (1 << 32) + 1])),
            2 => damage_clock(random, bytes, state),
            _ => damage_ticks(random, bytes, state),
        },
        // unused bytes, the first and the last of them often
        5 => {
            let (first, last) =
                random.pick(&[(HEADER_END as u64, 511), (TAIL_AT as u64, 65_535)]);
            let any = random.between(first, last);
            let at = random.pick(&[first, last, last - 7, any, any, any]);
            bytes[at as usize] ^= 1 << random.below(8);
        }
        // one field of a row, a slot, a holding
        6..=8 => {
            let at = row_at(some_row(random, state)) + random.pick(&[0, 0, 8, 8, 16, 24, 24, 32, 56]);
            let value = if random.percent(60) {
                number(random, state)
            } else {
                near_number(random, word(bytes, at))
            };
            set_word(bytes, at, value);
        }
        9..=11 => {
            let at = slot_at(some_slot(random, state))
                + random.pick(&[0, 8, 8, 16, 16, 24, 24, 32, 32, 40, 40, 48, 56]);
            let value = if random.percent(60) {
                number(random, state)
            } else {
                near_number(random, word(bytes, at))
            };
            set_word(bytes, at, value);
        }
        12..=15 => {
            let (slot, row) = some_holding(random, state);
            let at = holding_at(slot, row) + random.pick(&[0, 0, 8, 8, 16]);
            let value = if random.percent(60) {
                number(random, state)
            } else {
                near_number(random, word(bytes, at))
            };
            set_word(bytes, at, value);
        }
        // whole holdings, slots and rows moved, doubled or removed
        16 => {
            let (one, other) = (some_holding(random, state), some_holding(random, state));
            swap(bytes, holding_at(one.0, one.1), holding_at(other.0, other.1), 24);
        }
        17 => {
            let (one, other) = (some_holding(random, state), some_holding(random, state));
            let from = holding_at(one.0, one.1);
            bytes.copy_within(from..from + 24, holding_at(other.0, other.1));
        }
        18 => {
            let (one, other) = (some_slot(random, state), some_slot(random, state));
            swap(bytes, slot_at(one), slot_at(other), 64);
        }
        19 => {
            let (one, other) = (some_slot(random, state), some_slot(random, state));
            if random.percent(50) {
                bytes.copy_within(slot_at(one)..slot_at(one) + 64, slot_at(other));
            } else {
                let page = word(bytes, slot_at(one) + 8);
                set_word(bytes, slot_at(other) + 8, page);
            }
        }
        20 => {
            let (one, other) = (some_row(random, state), some_row(random, state));
            if random.percent(50) {
                swap(bytes, row_at(one), row_at(other), 64);
            } else {
                bytes.copy_within(row_at(one)..row_at(one) + 64, row_at(other));
            }
        }
        21 => match random.below(3) {
            0 => {
                let at = row_at(some_row(random, state));
                bytes[at..at + 64].fill(0);
                if random.percent(50) {
                    set_word(bytes, at, random.pick(&[1, 2, 4, 5, 6]));
                }
            }
            1 => {
                let at = slot_at(some_slot(random, state));
                bytes[at..at + 64].fill(0);
            }
            _ => {
                let (slot, row) = some_holding(random, state);
                let at = holding_at(slot, row);
                bytes[at..at + 24].fill(0);
            }
        },
        // a holding or a slot put where none was
        22 => {
            let at = holding_at(some_slot(random, state), some_row(random, state));
            set_word(bytes, at, random.between(1, 3));
            let arrival = if random.percent(70) { 0 } else { number(random, state) };
            set_word(bytes, at + 8, arrival);
            set_word(bytes, at + 16, 0);
        }
        // borders: one moved, to another or near a page, two exchanged
        23 => {
            let place = |number: u64| BORDERS_AT + 8 * number as usize;
            let at = place(random.below(3));
            let value = match random.below(4) {
                0 => word(bytes, place(random.below(3))),
                1 => number(random, state),
                2 => random.pick(&[0, 4095, 4096, 4097, 8192, (1 << 32) + 1024, 1 << 63]),
                _ => word(bytes, slot_at(some_slot(random, state)) + 8).wrapping_add(random.below(2)),
            };
            if random.percent(70) {
                set_word(bytes, at, value);
            } else {
                swap(bytes, at, place(random.below(3)), 8);
            }
        }
        // not begun, over rows and slots, rows alone, slots alone or nothing
        24 => {
            set_word(bytes, BEGUN_AT, 0);
            let (rows, slots) = (random.percent(50), random.percent(50));
            if !rows {
                bytes[ORDER_AT..HEADER_END].fill(0);
                bytes[ROWS_AT..SLOTS_AT].fill(0);
            }
            if !slots {
                bytes[SLOTS_AT..HOLDINGS_AT].fill(0);
            }
            if !rows || !slots {
                bytes[HOLDINGS_AT..TAIL_AT].fill(0);
            }
        }
        // versions 1 and 2 of the layout, which have no order, and version 1 no borders and no begun mark;
        // other versions, some of them right by their lower bytes; the other layout that is taken
        25 => match random.below(4) {
            0 => {
                let (version, from) = random.pick(&[(1, BORDERS_AT), (2, ORDER_AT)]);
                set_word(bytes, VERSION_AT, version);
                bytes[from..HEADER_END].fill(0);
            }
            1 => {
                let version = word(bytes, VERSION_AT);
                set_word(bytes, VERSION_AT, if version == 3 { 4 } else { 3 });
            }
            _ => {
                let right = random.pick(&[3, 4]);
                let upper = random.pick(&[1 << 8, 1 << 32, 1 << 63]);
                let other = random.pick(&[0, 1, 2, 5, 6, 7, 12, right + upper, u64::MAX]);
                set_word(bytes, VERSION_AT, other);
            }
        },
        26..=29 => damage_order(random, bytes, state),
        // a row whose numbers belong to another condition
        _ => {
            let at = row_at(some_row(random, state));
            let condition = random.below(6);
            set_word(bytes, at, condition);
            let due = random.pick(&[0, state.clock, state.clock + 1, state.clock + state.delay]);
            let page = number(random, state);
            set_word(bytes, at + 8, if condition == 3 { page } else { due });
            if random.percent(30) {
                set_word(bytes, at + 16, random.below(3));
            }
            if random.percent(30) {
                let deadline = (state.clock + random.below(3)).saturating_sub(1);
                set_word(bytes, at + 24, deadline);
            }
        }
    }
}

/// A call that shows as much as possible of a state: half of them on what is there.
fn some_call(random: &mut Random, scenario: &Scenario, state: &State) -> Call {
    let kind = random.pick(&[0, 1, 2, 2, 2, 3, 4, KIND_TICK, KIND_TICK, KIND_TICK, 6, 7, 8, KIND_BORDERS]);
    scenario.call_of_kind(random, kind, state, LEVELS)
}

#[derive(Default)]
struct Found {
    sound: u64,
    accepted: u64,
    unsound: u64,
    /// Of old areas: refused with 1, taken over, left by a look, view or count, left by another refusal.
    old: [u64; 4],
    /// Ticks on unsound areas, with a list that is too short and with one that is not.
    ticks: [u64; 2],
    /// Ticks on sound areas that are refused by 21, and ticks that filled something.
    short: u64,
    filled: u64,
    started: u64,
    /// By the layout that the area names.
    alone: [BTreeMap<&'static str, u64>; 2],
}

fn one_area(
    manager: &Manager,
    random: &mut Random,
    scenario: &Scenario,
    state: &State,
    times: u64,
    found: &mut Found,
    tally: &mut Tally,
) -> Result<(), String> {
    let mut lent = Lent::new(random.below(8) as usize, SIZE + random.below(9) as usize, 0xC3);
    let old = if random.percent(50) { state.old_bytes() } else { None };
    lent.area()[..SIZE].copy_from_slice(&old.unwrap_or_else(|| state.bytes()));
    for _ in 0..times {
        damage(random, &mut lent.area()[..SIZE], state);
    }
    call_on(manager, random, scenario, state, &mut lent, found, tally)
}

/// A random call on the lent area, which is the state's own or a damaged one.
fn call_on(
    manager: &Manager,
    random: &mut Random,
    scenario: &Scenario,
    state: &State,
    lent: &mut Lent,
    found: &mut Found,
    tally: &mut Tally,
) -> Result<(), String> {
    let read = model::read_either(lent.state_bytes());
    let old = Layout::of(lent.state_bytes()) == Layout::Old;
    let call = some_call(random, scenario, read.as_ref().unwrap_or(state));
    let before = lent.state_bytes().to_vec();
    let mut bytes = before.clone();
    let expected = match &read {
        Ok(sound) => {
            found.sound += 1;
            let mut next = sound.clone();
            let expected = next.call(&call, tally);
            found.short += (expected.status == 21) as u64;
            found.filled += !expected.fills.is_empty() as u64;
            if old && !matches!(call, Call::Start { .. }) {
                found.old[if expected.status != 0 { 3 } else { 1 + call.asks() as usize }] += 1;
            }
            found.accepted += (expected.status == 0) as u64;
            if expected.status == 0 && !call.asks() {
                bytes = next.bytes();
                if let Err(broken) = model::read(&bytes) {
                    return Err(format!("{call:?}: the model leaves an unsound area: {broken:?}"));
                }
                if let Call::Tick { .. } = call {
                    waits::judge(sound, expected.answer[1], &next, tally)?;
                }
            }
            expected
        }
        Err(broken) => {
            if broken.len() == 1 {
                let alone = &mut found.alone[old as usize];
                *alone.entry(broken.first().unwrap()).or_insert(0) += 1;
            }
            let expected = model::call(&mut bytes, &call, tally);
            match call {
                Call::Start { .. } => found.started += 1,
                _ => {
                    found.unsound += 1;
                    found.old[0] += old as u64;
                    if let Call::Tick { list } = call {
                        found.ticks[(list >= LIST) as usize] += 1;
                    }
                    if expected != Outcome::refused(1) || bytes != before {
                        return Err(format!("{call:?}: the model takes an unsound area"));
                    }
                }
            }
            expected
        }
    };
    check(manager, lent, &bytes, &call, &expected).map_err(|text| match read {
        Ok(_) => format!("sound area: {text}"),
        Err(broken) => format!("area that breaks {broken:?}: {text}"),
    })
}

/// Changes each byte of a new and of an old area in turn. The area is another one for each word of the
/// header, and then every 256 bytes.
fn sweep(manager: &Manager, seed: u64, found: &mut Found, tally: &mut Tally) -> Result<(), String> {
    let random = &mut Random::new(seed, u64::MAX);
    let mut scenario = Scenario::random(random);
    let mut state = State::fresh(1, 1);
    for at in 0..SIZE {
        if at % 256 == 0 || at < HEADER_END && at % 8 == 0 {
            scenario = Scenario::random(random);
            state = State::fresh(scenario.slots.into(), scenario.delay);
            for _ in 0..random.below(200) {
                let call = scenario.call(random, &state, LEVELS);
                state.call(&call, &mut Tally::default());
            }
        }
        for bytes in [state.bytes(), state.old_bytes().unwrap()] {
            let mut lent = Lent::new(random.below(8) as usize, SIZE, 0x3C);
            lent.area().copy_from_slice(&bytes);
            lent.area()[at] ^= random.between(1, 255) as u8;
            call_on(manager, random, &scenario, &state, &mut lent, found, tally)
                .map_err(|text| format!("damage: seed {seed}, byte {at}: {text}"))?;
        }
    }
    Ok(())
}

pub fn damage_areas(manager: &Manager, areas: u64, seed: u64) -> Result<(), String> {
    println!(
        "damage: each byte in turn, new and old, and {areas} areas, seed {seed}, model against {}",
        manager.name
    );
    let mut found = Found::default();
    let mut tally = Tally::default();
    sweep(manager, seed, &mut found, &mut tally)?;
    let mut made = 0;
    let mut run = 0;
    while made < areas {
        let random = &mut Random::new(seed, run);
        let mut scenario = Scenario::random(random);
        scenario.wide = random.percent(50);
        let mut state = State::fresh(scenario.slots.into(), scenario.delay);
        for step in 0..scenario.length.min(400) {
            let call = scenario.call(random, &state, LEVELS);
            state.call(&call, &mut Tally::default());
            if step % 3 != 0 || made >= areas {
                continue;
            }
            made += 1;
            // Reached areas and made-up ones, most of them damaged in one place.
            let times = random.pick(&[0, 1, 1, 1, 1, 1, 2, 3]);
            let given = if random.percent(40) { made_up(random) } else { state.clone() };
            one_area(manager, random, &scenario, &given, times, &mut found, &mut tally).map_err(
                |text| format!("damage: seed {seed}, run {run}, area {made}: {text}"),
            )?;
        }
        run += 1;
    }
    println!(
        "  {} unsound areas refused and left alone, {} started anew, {} sound areas ({} calls accepted) agree",
        found.unsound, found.started, found.sound, found.accepted
    );
    println!(
        "  ticks: {} refused by 1 with a short list and {} with a long one, {} refused by 21, {} filled something",
        found.ticks[0], found.ticks[1], found.short, found.filled
    );
    let (waiting, best) = waits::judged(&tally);
    println!("  T-05 holds of {waiting} rows that wait after a tick and of {best} that waited as the best");
    println!(
        "  old areas: {} refused by 1, {} taken over, {} answered from and left, {} left by other refusals",
        found.old[0], found.old[1], found.old[2], found.old[3]
    );
    let mut missing = Vec::new();
    for (layout, alone) in [Layout::New, Layout::Old].into_iter().zip(&found.alone) {
        let which = if layout == Layout::New { "new" } else { "old" };
        println!("  how often each clause of soundness was the only one named as broken in {which} areas");
        for clause in layout.clauses() {
            let times = alone.get(clause).copied().unwrap_or(0);
            println!("    {times:>9}  {clause}");
            if times == 0 {
                missing.push(format!("{clause} ({which})"));
            }
        }
    }
    if !missing.is_empty() {
        return Err(format!(
            "damage: seed {seed}: these were never the only one named: {}",
            missing.join("; ")
        ));
    }
    if found.ticks.contains(&0) || found.short == 0 || found.filled == 0 {
        return Err(format!("damage: seed {seed}: a sort of tick never occurred"));
    }
    if found.old.contains(&0) {
        return Err(format!("damage: seed {seed}: a sort of call on old areas never occurred"));
    }
    if waiting == 0 || best == 0 {
        return Err(format!("damage: seed {seed}: nothing was judged by T-05"));
    }
    Ok(())
}
