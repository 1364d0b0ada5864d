//! Short, long and unaligned areas and lists, starts on any former content, and areas and lists between
//! pages of memory that may not be touched.

use crate::calls::*;
use crate::compare::check;
use crate::lent::Lent;
use crate::model::{self, list_after, word, State, Tally, CLOCK_AT};
use crate::random::Random;
use crate::scenario::Scenario;
use crate::states::more_states;

const LEVELS: &[u64] = &[0, 1, 2, 3];

/// One call of each kind, then one of each with numbers out of range.
fn every_call() -> Vec<Call> {
    let mut calls = Vec::new();
    for wild in [0, u32::MAX] {
        let n = |tame: u32| tame | wild;
        // Such a delay is right by its lower half.
        let wide = |tame: u64| tame + (u64::from(wild) << 32);
        calls.extend([
            Call::Start { slots: n(4), delay: wide(2) },
            Call::Begin { level: n(1), row: n(2), deadline: wide(50) },
            Call::Request { level: n(1), row: n(0), page: n(1024), mode: n(0) },
            Call::Unpin { level: n(1), row: n(0), page: n(1024) },
            Call::End { level: n(1), row: n(0) },
            Call::Tick { list: if wild == 0 { LIST } else { LIST - 1 } },
            Call::Look { level: n(1), row: n(0) },
            Call::View { level: n(1), page: n(1024) },
            Call::Count { level: n(1) },
            Call::Borders { first: n(100), second: n(100), third: n(4096) },
        ]);
    }
    calls
}

/// The states' areas, new and then, where there is room for them, old.
fn both_layouts(states: &[State]) -> Vec<Vec<u8>> {
    let new = states.iter().map(State::bytes);
    new.chain(states.iter().filter_map(State::old_bytes)).collect()
}

/// A state that a random run reaches.
fn reached(seed: u64, slots: u64) -> State {
    let random = &mut Random::new(seed, slots);
    let scenario = Scenario::with_slots(slots, random);
    let mut state = State::fresh(slots, scenario.delay);
    for _ in 0..300 {
        let call = scenario.call(random, &state, LEVELS);
        if !matches!(call, Call::Start { .. }) {
            state.call(&call, &mut Tally::default());
        }
    }
    state
}

fn compare_on(manager: &Manager, lent: &mut Lent, call: &Call) -> Result<(), String> {
    let mut bytes = lent.state_bytes().to_vec();
    let expected = model::call(&mut bytes, call, &mut Tally::default());
    check(manager, lent, &bytes, call, &expected)
}

pub fn lengths(manager: &Manager, seed: u64) -> Result<(), String> {
    println!("lengths: {}, seed {seed}", manager.name);
    let random = &mut Random::new(seed, 0);
    let reached = [State::fresh(4, 2), reached(seed, 3), reached(seed, 64)];
    let sound = both_layouts(&reached);
    let mut made = 0;

    // Short areas: refusal 1 for every call, every byte as before.
    for length in [0, 1, 2, 7, 8, 40, 71, 72, 100, 327, 328, 511, 512, 4_096, 32_768, 65_528, 65_534, 65_535] {
        for area in &sound {
            for call in every_call() {
                for offset in [0, 1] {
                    let mut lent = Lent::new(offset, length, 0xA7);
                    lent.area().copy_from_slice(&area[..length]);
                    let before = lent.state_bytes().to_vec();
                    check(manager, &mut lent, &before, &call, &Outcome::refused(1))
                        .map_err(|text| format!("lengths: {length} bytes: {text}"))?;
                    made += 1;
                }
            }
        }
    }
    println!("  {made} calls on short areas refused");

    // Long areas at any address: as on 65,536 bytes, the rest untouched.
    made = 0;
    for length in [SIZE, SIZE + 1, SIZE + 8, SIZE + 1000, 2 * SIZE, 1 << 20] {
        for offset in 0..16 {
            for area in &sound {
                for call in every_call() {
                    // Past the area stand other bytes each time, so that none can matter.
                    let mut lent = Lent::new(offset, length, random.next() as u8);
                    lent.area()[..SIZE].copy_from_slice(area);
                    compare_on(manager, &mut lent, &call).map_err(|text| {
                        format!("lengths: {length} bytes at offset {offset}: {text}")
                    })?;
                    made += 1;
                    if length > 2 * SIZE && made % 4 != 0 {
                        break;
                    }
                }
            }
        }
    }
    println!("  {made} calls on long and unaligned areas agree");

    // A start takes any former content.
    made = 0;
    for round in 0..400 {
        let mut lent = Lent::random(random);
        match round % 5 {
            0 => random.fill(&mut lent.area()[..SIZE]),
            1 => {
                let byte = random.next() as u8;
                lent.area()[..SIZE].fill(byte);
            }
            2 => lent.area()[..SIZE].copy_from_slice(&sound[round % sound.len()]),
            3 => {
                let half = random.below(SIZE as u64) as usize;
                lent.area()[..half].copy_from_slice(&sound[round % sound.len()][..half]);
            }
            _ => {}
        }
        let slots = random.between(0, 66) as u32;
        let delay = random.between(0, 257) + random.pick(&[0, 0, 0, 1 << 32, 1 << 63]);
        for call in [Call::Start { slots, delay }, Call::Start { slots: slots.clamp(1, 64), delay: delay.clamp(1, 255) }] {
            compare_on(manager, &mut lent, &call)
                .map_err(|text| format!("lengths: start, round {round}: {text}"))?;
            made += 1;
        }
        let fresh = lent.state_bytes();
        if model::read(fresh) != Ok(State::fresh(slots.clamp(1, 64).into(), delay.clamp(1, 255))) {
            return Err(format!("lengths: start, round {round}: the area is not fresh"));
        }
    }
    println!("  {made} starts on any former content agree");

    // The answer: four numbers written, nothing around them.
    let mut numbers = [0x5A5A_5A5A_5A5A_5A5A_u64; 12];
    let (before, rest) = numbers.split_at_mut(4);
    let (answer, after) = rest.split_at_mut(4);
    let mut bytes = reached[1].bytes();
    let mut list = [0; LIST];
    (manager.tick)(&mut bytes, &mut list, answer.try_into().unwrap());
    (manager.count)(&bytes, 2, answer.try_into().unwrap());
    (manager.tick)(&mut bytes, &mut list[..255], answer.try_into().unwrap());
    if answer != [0, 21, 0, 0] {
        return Err(format!("lengths: answer {answer:?} for a short list"));
    }
    (manager.tick)(&mut bytes[..100], &mut list, answer.try_into().unwrap());
    if before.iter().chain(after.iter()).any(|number| *number != 0x5A5A_5A5A_5A5A_5A5A) {
        return Err("lengths: numbers beside the answer were written".to_string());
    }
    if answer != [0, 1, 0, 0] {
        return Err(format!("lengths: answer {answer:?} for a short area"));
    }

    lists(manager, seed)?;

    #[cfg(target_os = "linux")]
    {
        fenced::fenced(manager, &sound)?;
        fenced::fenced_lists(manager, &both_layouts(&ticking(seed)))?;
    }
    Ok(())
}

/// States for ticks: none waits, some wait and all wait; and the last clock, and that of old areas.
fn ticking(seed: u64) -> Vec<State> {
    let mut list = vec![State::fresh(4, 2), reached(seed, 3), reached(seed, 64)];
    list.extend(more_states().into_iter().map(|(_, state)| state));
    for clock in [LAST_CLOCK, OLD_LAST_CLOCK] {
        let mut last = State::fresh(4, 2);
        last.clock = clock;
        list.push(last);
    }
    list
}

/// Ticks with lists of every length up to 255, refused by 21 also at the last clock, and with longer
/// ones at any address, whose bytes past 256 are left alone.
fn lists(manager: &Manager, seed: u64) -> Result<(), String> {
    let (mut short, mut long, mut filled) = (0, 0, 0);
    for area in both_layouts(&ticking(seed)) {
        let mut lent = Lent::new(5, SIZE, 0x77);
        lent.area().copy_from_slice(&area);
        for length in 0..LIST {
            let before = lent.state_bytes().to_vec();
            check(manager, &mut lent, &before, &Call::Tick { list: length }, &Outcome::refused(21))
                .map_err(|text| format!("lengths: list of {length} bytes: {text}"))?;
            short += 1;
        }
        // Each is lent at several addresses.
        for length in (LIST..LIST + 20).chain([511, 512, 1000, 4096, SIZE, 1 << 20]) {
            for _ in 0..if length > 2000 { 2 } else { 12 } {
                lent.area().copy_from_slice(&area);
                compare_on(manager, &mut lent, &Call::Tick { list: length })
                    .map_err(|text| format!("lengths: list of {length} bytes: {text}"))?;
                long += 1;
                filled += (lent.list()[..LIST].iter().any(|byte| *byte != 0)
                    && word(&area, CLOCK_AT) < LAST_CLOCK) as u64;
            }
        }
    }
    if filled < long / 10 {
        return Err(format!("lengths: {filled} of {long} ticks filled something"));
    }
    println!("  {short} ticks with short lists refused, {long} with long and unaligned ones agree");
    Ok(())
}

/// Areas that begin or end at memory without access, and areas that may only be read. A byte
/// touched outside ends the program with a fault.
#[cfg(target_os = "linux")]
mod fenced {
    use super::*;
    use std::ffi::c_void;

    extern "C" {
        fn mmap(at: *mut c_void, length: usize, access: i32, flags: i32, file: i32, offset: i64) -> *mut c_void;
        fn mprotect(at: *mut c_void, length: usize, access: i32) -> i32;
        fn munmap(at: *mut c_void, length: usize) -> i32;
    }

    const NO_ACCESS: i32 = 0;
    const READ_ONLY: i32 = 1;
    const READ_WRITE: i32 = 3;
    const PRIVATE_ANONYMOUS: i32 = 0x22;
    const FENCE: usize = 65_536;

    /// `SIZE` bytes between two stretches without access. A list, too, is taken from them.
    struct Field(*mut u8);

    impl Field {
        fn new() -> Field {
            unsafe {
                let base = mmap(std::ptr::null_mut(), SIZE + 2 * FENCE, NO_ACCESS, PRIVATE_ANONYMOUS, -1, 0);
                assert!(base as isize != -1, "no memory for a fenced area");
                let field = Field((base as *mut u8).add(FENCE));
                field.allow(READ_WRITE);
                field
            }
        }

        fn allow(&self, access: i32) {
            let done = unsafe { mprotect(self.0 as *mut c_void, SIZE, access) };
            assert!(done == 0, "the access of a fenced area cannot be set");
        }

        /// The last `length` bytes, which end at the fence.
        fn last(&mut self, length: usize) -> &mut [u8] {
            unsafe { std::slice::from_raw_parts_mut(self.0.add(SIZE - length), length) }
        }

        /// The first `length` bytes, which begin at the fence.
        fn first(&mut self, length: usize) -> &mut [u8] {
            unsafe { std::slice::from_raw_parts_mut(self.0, length) }
        }

        fn read_only(&self) -> &[u8] {
            unsafe { std::slice::from_raw_parts(self.0, SIZE) }
        }
    }

    impl Drop for Field {
        fn drop(&mut self) {
            unsafe {
                munmap(self.0.sub(FENCE) as *mut c_void, SIZE + 2 * FENCE);
            }
        }
    }

    pub fn fenced(manager: &Manager, sound: &[Vec<u8>]) -> Result<(), String> {
        let mut field = Field::new();
        let mut made = 0;
        for length in [0, 1, 39, 71, 100, 327, 511, 4_096, 65_535, SIZE] {
            for bytes in sound {
                for call in every_call() {
                    for last in [false, true] {
                        let mut expected_bytes = bytes[..length].to_vec();
                        let expected =
                            model::call(&mut expected_bytes, &call, &mut Tally::default());
                        let area = if last { field.last(length) } else { field.first(length) };
                        area.copy_from_slice(&bytes[..length]);
                        let got = manager.call(area, &mut vec![0; call.list_length()], &call);
                        if got != expected || area != expected_bytes {
                            return Err(format!(
                                "lengths: fenced area of {length} bytes: {call:?}: {got:?} instead of {expected:?}, or other bytes"
                            ));
                        }
                        made += 1;
                    }
                }
            }
        }
        for bytes in sound {
            field.first(SIZE).copy_from_slice(bytes);
            field.allow(READ_ONLY);
            for call in every_call() {
                if call.asks() {
                    let expected = model::call(&mut bytes.clone(), &call, &mut Tally::default());
                    let got = manager.ask(field.read_only(), &call);
                    if got != expected {
                        return Err(format!(
                            "lengths: area that may only be read: {call:?}: {got:?} instead of {expected:?}"
                        ));
                    }
                    made += 1;
                }
            }
            field.allow(READ_WRITE);
        }
        println!("  {made} calls on fenced areas agree");
        Ok(())
    }

    /// Ticks with lists that begin or end at memory without access.
    pub fn fenced_lists(manager: &Manager, areas: &[Vec<u8>]) -> Result<(), String> {
        let mut field = Field::new();
        let mut made = 0;
        for length in [0, 1, 7, 8, 100, 248, 255, LIST, LIST + 1, 300, 4_096, SIZE] {
            let call = Call::Tick { list: length };
            for area in areas {
                for last in [false, true] {
                    let mut area = area.clone();
                    let mut expected_area = area.clone();
                    let expected = model::call(&mut expected_area, &call, &mut Tally::default());
                    let list = if last { field.last(length) } else { field.first(length) };
                    list.fill(0xB6);
                    let expected_list = list_after(&call, &expected, list);
                    let got = manager.call(&mut area, list, &call);
                    if got != expected || area != expected_area || list != expected_list {
                        return Err(format!(
                            "lengths: fenced list of {length} bytes: {got:?} instead of {expected:?}, or other bytes"
                        ));
                    }
                    made += 1;
                }
            }
        }
        println!("  {made} ticks with fenced lists agree");
        Ok(())
    }
}
