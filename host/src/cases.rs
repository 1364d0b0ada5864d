//! Session S, M1 to M11, the borders, the fills of ticks, the begin order, late clocks, areas of the last
//! 32-bit layout and the examples of the refusals of documents 01 and 02 (T-01, T-02, T-04, T-06, T-07),
//! call by call. 16 is not used, and 18 is the player's.

use crate::calls::*;
use crate::compare::check;
use crate::lent::{difference, Lent};
use crate::model::{
    self, set_word, word, Cause, Condition, Holding, Mode, Pin, Row, RowId, Slot, State, Tally,
    BEGUN_AT, BORDERS_AT, HEADER_END, ORDER_AT, SHORT,
};

/// A call and the player's lines for it, with `; ` between them; without a bar, no slot and no page to
/// write back.
type Step = (Call, &'static str);

struct Case {
    name: &'static str,
    /// The slots, delay and clock with which the case begins, if not by its own start.
    fresh: Option<[u64; 3]>,
    steps: Vec<Step>,
}

impl Case {
    /// The state before its first step, if that is not its own start.
    fn first_state(&self) -> Option<State> {
        self.fresh.map(|[slots, delay, clock]| {
            let mut state = State::fresh(slots, delay);
            state.clock = clock;
            state
        })
    }
}

fn start(slots: u32, delay: u64) -> Call {
    Call::Start { slots, delay }
}

fn begin(level: u32, row: u32, deadline: u64) -> Call {
    Call::Begin { level, row, deadline }
}

fn read(level: u32, row: u32, page: u32) -> Call {
    Call::Request { level, row, page, mode: 0 }
}

fn write(level: u32, row: u32, page: u32) -> Call {
    Call::Request { level, row, page, mode: 1 }
}

fn unpin(level: u32, row: u32, page: u32) -> Call {
    Call::Unpin { level, row, page }
}

fn end(level: u32, row: u32) -> Call {
    Call::End { level, row }
}

fn look(level: u32, row: u32) -> Call {
    Call::Look { level, row }
}

fn view(level: u32, page: u32) -> Call {
    Call::View { level, page }
}

fn count(level: u32) -> Call {
    Call::Count { level }
}

fn borders(first: u32, second: u32, third: u32) -> Call {
    Call::Borders { first, second, third }
}

fn tick_with(list: usize) -> Call {
    Call::Tick { list }
}

/// Whether the outcome is as a step says.
fn as_said(outcome: &Outcome, said: &str) -> Result<(), String> {
    let wanted: Vec<String> = said
        .split("; ")
        .map(|line| if line.contains('|') { line.to_string() } else { format!("{line} | - -") })
        .collect();
    if outcome.lines() == wanted {
        Ok(())
    } else {
        Err(format!("{} instead of {}", outcome.lines().join("; "), wanted.join("; ")))
    }
}

/// The pages on both sides of each border, by the access that their classes allow. Classes 1 and 2
/// have two pages at least.
fn both_sides(name: &'static str, set: bool, first: u32, second: u32, third: u32) -> Case {
    let mut steps = vec![(start(6, 1), "started 0")];
    if set {
        steps.push((borders(first, second, third), "borders 0"));
    }
    for level in 0..4 {
        steps.extend([0, 1].map(|row| (begin(level, row, 9), "begun 0")));
    }
    steps.extend([
        (read(0, 0, first), "refused 13"),
        (write(1, 0, first - 1), "refused 14"),
        (read(1, 0, second), "refused 13"),
        (write(2, 0, second - 1), "refused 14"),
        (read(2, 0, third), "refused 13"),
        (write(3, 0, third - 1), "refused 14"),
        (read(0, 0, first - 1), "fetch 1 | 0 -"),
        (write(1, 0, first), "fetch 1 | 1 -"),
        (read(1, 1, second - 1), "fetch 1 | 2 -"),
        (write(2, 0, second), "fetch 1 | 3 -"),
        (read(2, 1, third - 1), "fetch 1 | 4 -"),
        (write(3, 0, third), "fetch 1 | 5 -"),
    ]);
    Case { name, fresh: None, steps }
}

fn cases() -> Vec<Case> {
    let case = |name, steps: Vec<Step>| Case { name, fresh: None, steps };
    let late = |name, fresh, steps: Vec<Step>| Case { name, fresh: Some(fresh), steps };
    vec![
        case(
            "session S",
            vec![
                (start(1, 1), "started 0"),
                (begin(1, 0, 100), "begun 0"),
                (write(1, 0, 1024), "fetch 1 | 0 -"),
                (TICK, "clock 1"),
                (begin(0, 0, 90), "begun 0"),
                (count(0), "open 1"),
                (read(0, 0, 7), "fetch 2 | 0 1024"),
                (look(1, 0), "taken 0"),
                (view(1, 7), "read 2"),
                (count(1), "open 0"),
                (read(1, 0, 1024), "refused 10"),
            ],
        ),
        case("M1 64 slots", vec![(start(64, 1), "started 0"), (count(0), "open 64")]),
        case("M1 65 slots", vec![(start(1, 1), "started 0"), (start(65, 1), "refused 2"), (count(0), "open 1")]),
        case("M2 delay 255", vec![(start(1, 255), "started 0"), (begin(0, 0, 9), "begun 0"), (read(0, 0, 7), "fetch 255 | 0 -")]),
        case("M2 delay 256", vec![(start(1, 1), "started 0"), (start(1, 256), "refused 3")]),
        case(
            "M3",
            vec![
                (start(2, 1), "started 0"),
                (begin(1, 0, 9), "begun 0"),
                (read(1, 0, 2048), "refused 13"),
                (read(1, 0, 1023), "fetch 1 | 0 -"),
            ],
        ),
        case(
            "M4",
            vec![
                (start(2, 1), "started 0"),
                (begin(1, 0, 9), "begun 0"),
                (write(1, 0, 1023), "refused 14"),
                (write(1, 0, 4095), "fetch 1 | 0 -"),
            ],
        ),
        case(
            "M5",
            vec![
                (start(1, 1), "started 0"),
                (begin(0, 0, 1), "begun 0"),
                (look(0, 0), "idle 0"),
                (TICK, "clock 1"),
                (look(0, 0), "idle 0"),
                (TICK, "clock 2"),
                (look(0, 0), "late 0"),
            ],
        ),
        m6("M6 row 2 begun first", 2, 3, "clock 3; fill 3 | 0 -"),
        m6("M6 row 3 begun first", 3, 2, "clock 3; fill 2 | 0 -"),
        case(
            "M7",
            vec![
                (start(1, 1), "started 0"),
                (begin(0, 0, 50), "begun 0"),
                (begin(0, 1, 40), "begun 0"),
                (read(0, 0, 7), "fetch 1 | 0 -"),
                (TICK, "clock 1"),
                (unpin(0, 0, 7), "unpinned 0"),
                (view(0, 7), "active 1"),
                (read(0, 1, 8), "fetch 2 | 0 -"),
                (look(0, 0), "idle 0"),
                (view(0, 7), "unseen 0"),
            ],
        ),
        case(
            "M8 level 0 fetches",
            vec![
                (start(2, 1), "started 0"),
                (begin(0, 0, 50), "begun 0"),
                (begin(0, 1, 50), "begun 0"),
                (begin(3, 0, 50), "begun 0"),
                (read(0, 0, 7), "fetch 1 | 0 -"),
                (TICK, "clock 1"),
                (end(0, 0), "ended 0"),
                (view(3, 7), "dormant 1"),
                (view(2, 7), "unseen 0"),
                (count(3), "open 2"),
                (read(0, 1, 7), "fetch 2 | 0 -"),
            ],
        ),
        case(
            "M8 level 3 is ready",
            vec![
                (start(2, 1), "started 0"),
                (begin(0, 0, 50), "begun 0"),
                (begin(0, 1, 50), "begun 0"),
                (begin(3, 0, 50), "begun 0"),
                (read(0, 0, 7), "fetch 1 | 0 -"),
                (TICK, "clock 1"),
                (end(0, 0), "ended 0"),
                (read(3, 0, 7), "ready 0 | 0 -"),
            ],
        ),
        case(
            "M9",
            vec![
                (start(2, 1), "started 0"),
                (begin(3, 0, 50), "begun 0"),
                (begin(0, 0, 60), "begun 0"),
                (read(3, 0, 7), "fetch 1 | 0 -"),
                (TICK, "clock 1"),
                (write(0, 0, 7), "fetch 2 | 0 -"),
                (look(3, 0), "taken 0"),
                (view(3, 7), "write 2"),
            ],
        ),
        case(
            "M10",
            vec![
                (start(1, 1), "started 0"),
                (begin(0, 0, 50), "begun 0"),
                (read(0, 0, 7), "fetch 1 | 0 -"),
                (TICK, "clock 1"),
                (read(0, 0, 8), "wait 0"),
                (unpin(0, 0, 7), "refused 11"),
            ],
        ),
        case(
            "M11",
            vec![
                (start(2, 1), "started 0"),
                (begin(1, 0, 50), "begun 0"),
                (begin(2, 0, 50), "begun 0"),
                (begin(0, 0, 50), "begun 0"),
                (read(1, 0, 1024), "fetch 1 | 0 -"),
                (read(2, 0, 2048), "fetch 1 | 1 -"),
                (TICK, "clock 1"),
                (unpin(1, 0, 1024), "unpinned 0"),
                (read(0, 0, 7), "fetch 2 | 1 -"),
                (look(2, 0), "taken 0"),
                (look(1, 0), "idle 0"),
                (view(1, 1024), "active 1"),
            ],
        ),
        case("refusal 2", vec![(start(65, 1), "refused 2"), (start(0, 256), "refused 2")]),
        case(
            "refusal 3",
            vec![
                (start(64, 256), "refused 3"),
                (start(64, 0), "refused 3"),
                (start(64, SHORT), "refused 3"),
                // 0, 1 and 255 by their lower halves
                (start(64, 1 << 32), "refused 3"),
                (start(64, (1 << 32) + 1), "refused 3"),
                (start(64, (1 << 63) + 255), "refused 3"),
                (start(64, u64::MAX), "refused 3"),
                (start(65, (1 << 32) + 1), "refused 2"),
                (start(1, 255), "started 0"),
                (start(64, (1 << 32) + 1), "refused 3"),
                (count(0), "open 1"),
            ],
        ),
        case(
            "refusals 4 to 7",
            vec![
                (start(1, 1), "started 0"),
                (TICK, "clock 1"),
                (begin(4, 8, 0), "refused 4"),
                (begin(3, 8, 0), "refused 5"),
                (Call::Request { level: 4, row: 8, page: 4096, mode: 2 }, "refused 4"),
                (Call::Request { level: 0, row: 8, page: 4096, mode: 2 }, "refused 5"),
                (Call::Request { level: 0, row: 0, page: 4096, mode: 2 }, "refused 6"),
                (Call::Request { level: 0, row: 0, page: 4095, mode: 2 }, "refused 7"),
                (view(0, 4096), "refused 6"),
                (view(4, 4096), "refused 4"),
                (count(4), "refused 4"),
                (look(0, 8), "refused 5"),
            ],
        ),
        case(
            "refusal 8",
            vec![
                (start(1, 1), "started 0"),
                (begin(0, 0, 5), "begun 0"),
                (begin(0, 0, 5), "refused 8"),
                (TICK, "clock 1"),
                (begin(0, 0, 0), "refused 8"),
            ],
        ),
        case(
            "refusal 9",
            vec![
                (start(1, 1), "started 0"),
                (end(0, 0), "refused 9"),
                (read(0, 0, 7), "refused 9"),
                (unpin(0, 0, 7), "refused 9"),
            ],
        ),
        case(
            "refusal 10",
            vec![
                (start(1, 1), "started 0"),
                (begin(0, 0, 1), "begun 0"),
                (TICK, "clock 1"),
                (TICK, "clock 2"),
                (read(0, 0, 7), "refused 10"),
                (unpin(0, 0, 7), "refused 10"),
                (begin(0, 0, 9), "refused 8"),
                (end(0, 0), "ended 0"),
            ],
        ),
        case(
            "refusal 11",
            vec![
                (start(2, 1), "started 0"),
                (begin(0, 0, 9), "begun 0"),
                (read(0, 0, 7), "fetch 1 | 0 -"),
                (read(0, 0, 8), "refused 11"),
                (unpin(0, 0, 7), "refused 11"),
                (read(0, 0, 1024), "refused 11"),
            ],
        ),
        case(
            "refusal 12",
            vec![
                (start(1, 1), "started 0"),
                (begin(0, 0, 0), "begun 0"),
                (TICK, "clock 1"),
                (begin(0, 1, 0), "refused 12"),
                (begin(0, 1, 1), "begun 0"),
                (look(0, 0), "late 0"),
                (look(0, 1), "idle 0"),
            ],
        ),
        case(
            "refusal 13",
            vec![(start(1, 1), "started 0"), (begin(1, 0, 9), "begun 0"), (read(1, 0, 2048), "refused 13")],
        ),
        case(
            "refusal 14",
            vec![(start(1, 1), "started 0"), (begin(1, 0, 9), "begun 0"), (write(1, 0, 1023), "refused 14")],
        ),
        case(
            "refusal 15",
            vec![
                (start(1, 1), "started 0"),
                (begin(0, 0, 9), "begun 0"),
                (unpin(0, 0, 7), "refused 15"),
                (read(0, 0, 7), "fetch 1 | 0 -"),
                (TICK, "clock 1"),
                (unpin(0, 0, 7), "unpinned 0"),
                (unpin(0, 0, 7), "refused 15"),
            ],
        ),
        late(
            "refusal 17",
            [1, 1, 8_999_999_999_999_999_998],
            vec![
                (TICK, "clock 8999999999999999999"),
                (begin(0, 0, u64::MAX), "begun 0"),
                (begin(0, 2, 9_000_000_000_000_000_001), "begun 0"),
                (TICK, "clock 9000000000000000000"),
                (TICK, "refused 17"),
                (read(0, 0, 7), "fetch 9000000000000000001 | 0 -"),
                (TICK, "refused 17"),
                (look(0, 0), "fetch 9000000000000000001"),
                (view(3, 7), "read 9000000000000000001"),
                (begin(0, 1, SHORT), "refused 12"),
                (begin(0, 1, 8_999_999_999_999_999_999), "refused 12"),
                (begin(0, 1, 9_000_000_000_000_000_000), "begun 0"),
                (read(0, 2, 8), "fetch 9000000000000000001 | 0 -"),
                (look(0, 0), "taken 0"),
                (start(1, 1), "started 0"),
                (TICK, "clock 1"),
            ],
        ),
        case(
            "refusal 21",
            vec![
                (start(1, 1), "started 0"),
                (tick_with(0), "refused 21"),
                (tick_with(255), "refused 21"),
                (tick_with(256), "clock 1"),
                (tick_with(257), "clock 2"),
            ],
        ),
        case(
            "refusal 21 leaves fetching, waiting and late rows",
            vec![
                (start(1, 1), "started 0"),
                (begin(0, 0, 1), "begun 0"),
                (begin(0, 1, 9), "begun 0"),
                (read(0, 0, 7), "fetch 1 | 0 -"),
                (read(0, 1, 8), "wait 0"),
                (tick_with(255), "refused 21"),
                (look(0, 0), "fetch 1"),
                (TICK, "clock 1"),
                (tick_with(0), "refused 21"),
                (look(0, 0), "idle 0"),
                (look(0, 1), "wait 0"),
                (TICK, "clock 2; fill 1 | 0 -"),
                (look(0, 0), "late 0"),
                (look(0, 1), "fetch 3"),
            ],
        ),
        late(
            "refusal 21 comes before 17",
            [1, 1, LAST_CLOCK],
            vec![
                (tick_with(255), "refused 21"),
                (tick_with(0), "refused 21"),
                (tick_with(256), "refused 17"),
                (tick_with(1000), "refused 17"),
            ],
        ),
        case(
            "refusal 19",
            vec![
                (start(1, 1), "started 0"),
                (borders(2048, 1024, 3072), "refused 19"),
                (borders(1024, 3072, 2048), "refused 19"),
                (borders(1, 0, 0), "refused 19"),
                (borders(0, 0, 4097), "refused 19"),
                (borders(0, 4097, 4097), "refused 19"),
                (borders(4097, 4097, 4097), "refused 19"),
                (borders(4097, 0, 0), "refused 19"),
                (borders(0, 65_536, 65_536), "refused 19"),
                (borders(0, 0, u32::MAX), "refused 19"),
                (borders(u32::MAX, u32::MAX, u32::MAX), "refused 19"),
                (begin(0, 0, 9), "begun 0"),
                (borders(1, 0, 0), "refused 19"),
                (borders(0, 0, 4097), "refused 19"),
                (read(0, 0, 1024), "refused 13"),
                (read(0, 0, 1023), "fetch 1 | 0 -"),
            ],
        ),
        case(
            "refusal 20",
            vec![
                (start(1, 1), "started 0"),
                (begin(0, 0, 9), "begun 0"),
                (borders(0, 0, 0), "refused 20"),
                (borders(1024, 2048, 3072), "refused 20"),
                (read(0, 0, 7), "fetch 1 | 0 -"),
                (borders(0, 0, 0), "refused 20"),
            ],
        ),
        case(
            "refusal 20 where the row has ended",
            vec![
                (start(1, 1), "started 0"),
                (begin(3, 7, 9), "begun 0"),
                (end(3, 7), "ended 0"),
                (borders(0, 0, 0), "refused 20"),
                (TICK, "clock 1"),
                (borders(0, 0, 0), "refused 20"),
                (start(1, 1), "started 0"),
                (borders(0, 0, 0), "borders 0"),
                (begin(0, 0, 9), "begun 0"),
                (read(0, 0, 0), "refused 13"),
            ],
        ),
        case(
            "refusal 20 where the row is late",
            vec![
                (start(1, 1), "started 0"),
                (begin(0, 0, 0), "begun 0"),
                (TICK, "clock 1"),
                (look(0, 0), "late 0"),
                (borders(0, 0, 0), "refused 20"),
            ],
        ),
        both_sides("borders until set", false, 1024, 2048, 3072),
        both_sides("borders with classes of two pages", true, 2, 4, 6),
        both_sides("borders of a small hospital", true, 3900, 4000, 4095),
        case(
            "borders with classes of one page",
            vec![
                (start(4, 1), "started 0"),
                (borders(1, 2, 3), "borders 0"),
                (begin(0, 0, 9), "begun 0"),
                (begin(1, 0, 9), "begun 0"),
                (begin(2, 0, 9), "begun 0"),
                (begin(3, 0, 9), "begun 0"),
                (read(0, 0, 1), "refused 13"),
                (write(1, 0, 0), "refused 14"),
                (read(1, 0, 2), "refused 13"),
                (write(2, 0, 1), "refused 14"),
                (read(2, 0, 3), "refused 13"),
                (write(3, 0, 2), "refused 14"),
                (read(0, 0, 0), "fetch 1 | 0 -"),
                (read(1, 0, 1), "fetch 1 | 1 -"),
                (read(2, 0, 2), "fetch 1 | 2 -"),
                (write(3, 0, 3), "fetch 1 | 3 -"),
            ],
        ),
        case(
            "borders with class 0 empty",
            vec![
                (start(2, 1), "started 0"),
                (borders(0, 2000, 3000), "borders 0"),
                (begin(0, 0, 9), "begun 0"),
                (begin(1, 0, 9), "begun 0"),
                (begin(1, 1, 9), "begun 0"),
                (read(0, 0, 0), "refused 13"),
                (write(1, 0, 0), "fetch 1 | 0 -"),
                (read(1, 1, 1999), "fetch 1 | 1 -"),
            ],
        ),
        case(
            "borders with class 1 empty",
            vec![
                (start(3, 1), "started 0"),
                (borders(100, 100, 300), "borders 0"),
                (begin(1, 0, 9), "begun 0"),
                (begin(1, 1, 9), "begun 0"),
                (begin(2, 0, 9), "begun 0"),
                (write(1, 0, 99), "refused 14"),
                (read(1, 0, 100), "refused 13"),
                (read(1, 0, 99), "fetch 1 | 0 -"),
                (write(1, 1, 100), "fetch 1 | 1 -"),
                (write(2, 0, 299), "fetch 1 | 2 -"),
            ],
        ),
        case(
            "borders with class 2 empty",
            vec![
                (start(3, 1), "started 0"),
                (borders(100, 200, 200), "borders 0"),
                (begin(1, 0, 9), "begun 0"),
                (begin(2, 0, 9), "begun 0"),
                (begin(3, 0, 9), "begun 0"),
                (write(2, 0, 199), "refused 14"),
                (read(2, 0, 200), "refused 13"),
                (read(1, 0, 199), "fetch 1 | 0 -"),
                (write(3, 0, 200), "fetch 1 | 1 -"),
                (write(2, 0, 4095), "fetch 1 | 2 -"),
            ],
        ),
        case(
            "borders with class 3 empty",
            vec![
                (start(2, 1), "started 0"),
                (borders(100, 200, 4096), "borders 0"),
                (begin(2, 0, 9), "begun 0"),
                (begin(3, 0, 9), "begun 0"),
                (write(3, 0, 4095), "refused 14"),
                (read(2, 0, 4095), "fetch 1 | 0 -"),
                (read(3, 0, 0), "fetch 1 | 1 -"),
            ],
        ),
        case(
            "borders 0 0 0",
            vec![
                (start(3, 1), "started 0"),
                (borders(0, 0, 0), "borders 0"),
                (begin(0, 0, 9), "begun 0"),
                (begin(2, 0, 9), "begun 0"),
                (begin(3, 0, 9), "begun 0"),
                (read(0, 0, 0), "refused 13"),
                (read(2, 0, 0), "refused 13"),
                (read(2, 0, 4095), "refused 13"),
                (write(0, 0, 0), "fetch 1 | 0 -"),
                (write(2, 0, 1), "fetch 1 | 1 -"),
                (write(3, 0, 4095), "fetch 1 | 2 -"),
            ],
        ),
        case(
            "borders 4096 4096 4096",
            vec![
                (start(3, 1), "started 0"),
                (borders(4096, 4096, 4096), "borders 0"),
                (begin(0, 0, 9), "begun 0"),
                (begin(0, 1, 9), "begun 0"),
                (begin(1, 0, 9), "begun 0"),
                (begin(3, 0, 9), "begun 0"),
                (write(1, 0, 4095), "refused 14"),
                (write(3, 0, 4095), "refused 14"),
                (write(3, 0, 0), "refused 14"),
                (read(0, 0, 4095), "fetch 1 | 0 -"),
                (write(0, 1, 0), "fetch 1 | 1 -"),
                (read(3, 0, 1), "fetch 1 | 2 -"),
            ],
        ),
        case(
            "borders set twice",
            vec![
                (start(1, 1), "started 0"),
                (borders(0, 0, 0), "borders 0"),
                (view(0, 0), "unseen 0"),
                (TICK, "clock 1"),
                (borders(100, 200, 300), "borders 0"),
                (borders(300, 200, 100), "refused 19"),
                (begin(0, 0, 9), "begun 0"),
                (read(0, 0, 100), "refused 13"),
                (read(0, 0, 99), "fetch 2 | 0 -"),
            ],
        ),
        case(
            "borders after a refused begin",
            vec![
                (start(1, 1), "started 0"),
                (begin(4, 0, 9), "refused 4"),
                (begin(0, 8, 9), "refused 5"),
                (TICK, "clock 1"),
                (begin(0, 0, 0), "refused 12"),
                (borders(0, 0, 0), "borders 0"),
                (begin(0, 0, 9), "begun 0"),
                (read(0, 0, 0), "refused 13"),
            ],
        ),
        case(
            "a refused start leaves the borders",
            vec![
                (start(1, 1), "started 0"),
                (borders(0, 0, 0), "borders 0"),
                (start(65, 1), "refused 2"),
                (start(1, 0), "refused 3"),
                (begin(0, 0, 9), "begun 0"),
                (start(65, 1), "refused 2"),
                (borders(0, 0, 0), "refused 20"),
                (read(0, 0, 0), "refused 13"),
            ],
        ),
        case(
            "a start sets the borders back",
            vec![
                (start(1, 1), "started 0"),
                (borders(0, 0, 0), "borders 0"),
                (start(1, 1), "started 0"),
                (begin(0, 0, 9), "begun 0"),
                (read(0, 0, 1024), "refused 13"),
                (read(0, 0, 1023), "fetch 1 | 0 -"),
            ],
        ),
        late(
            "borders at the last clock",
            [1, 1, LAST_CLOCK],
            vec![
                (TICK, "refused 17"),
                (borders(4096, 4096, 4096), "borders 0"),
                (begin(0, 0, u64::MAX), "begun 0"),
                (read(0, 0, 4095), "fetch 9000000000000000001 | 0 -"),
            ],
        ),
        // A clock for years.
        late(
            "clock 4,000,000,000 is passed",
            [1, 1, 3_999_999_999],
            vec![
                (begin(0, 0, 4_000_000_001), "begun 0"),
                (begin(0, 1, SHORT), "begun 0"),
                (read(0, 0, 7), "fetch 4000000000 | 0 -"),
                (TICK, "clock 4000000000"),
                (look(0, 0), "idle 0"),
                (write(0, 0, 7), "ready 0 | 0 -"),
                (begin(0, 2, 3_999_999_999), "refused 12"),
                (TICK, "clock 4000000001"),
                (look(0, 0), "idle 0"),
                (view(0, 7), "write 4000000000"),
                (TICK, "clock 4000000002"),
                (look(0, 0), "late 0"),
                (view(3, 7), "dormant 4000000000"),
                (read(0, 1, 8), "fetch 4000000003 | 0 7"),
                (begin(0, 2, 4_000_000_001), "refused 12"),
                (begin(0, 2, 4_000_000_002), "begun 0"),
            ],
        ),
        late(
            "2^32 is passed",
            [1, 1, SHORT - 1],
            vec![
                (begin(0, 0, 1 << 32), "begun 0"),
                (begin(0, 1, SHORT), "begun 0"),
                (begin(0, 2, 1), "refused 12"),
                (read(0, 1, 7), "fetch 4294967295 | 0 -"),
                (TICK, "clock 4294967295"),
                (look(0, 1), "idle 0"),
                (begin(0, 2, 0), "refused 12"),
                (unpin(0, 1, 7), "unpinned 0"),
                // Row 1 is better, but not by the lower halves of the deadlines.
                (read(0, 0, 8), "wait 0"),
                (TICK, "clock 4294967296; fill 0 | 0 -"),
                (look(0, 1), "late 0"),
                (look(0, 0), "fetch 4294967297"),
                (TICK, "clock 4294967297"),
                (look(0, 0), "late 0"),
                (view(3, 8), "dormant 4294967297"),
                (begin(0, 2, 1), "refused 12"),
                (begin(0, 2, 1 << 32), "refused 12"),
                (begin(0, 2, (1 << 32) + 1), "begun 0"),
                (read(0, 2, 8), "fetch 4294967298 | 0 -"),
            ],
        ),
        case(
            "deadlines of 2^32 or more",
            vec![
                (start(1, 1), "started 0"),
                (begin(0, 0, (1 << 32) + 5), "begun 0"),
                (begin(0, 1, 6), "begun 0"),
                (begin(0, 2, u64::MAX), "begun 0"),
                (begin(0, 3, 1 << 63), "begun 0"),
                (read(0, 2, 5), "fetch 1 | 0 -"),
                (TICK, "clock 1"),
                (read(0, 3, 6), "fetch 2 | 0 -"),
                (look(0, 2), "taken 0"),
                (TICK, "clock 2"),
                (read(0, 0, 7), "fetch 3 | 0 -"),
                (look(0, 3), "taken 0"),
                (TICK, "clock 3"),
                (read(0, 1, 8), "fetch 4 | 0 -"),
                (look(0, 0), "taken 0"),
                (begin(0, 4, (1 << 32) + 2), "begun 0"),
                (TICK, "clock 4"),
                (look(0, 4), "idle 0"),
                (read(0, 4, 9), "wait 0"),
                (TICK, "clock 5"),
                (TICK, "clock 6"),
                (look(0, 1), "idle 0"),
                (TICK, "clock 7; fill 4 | 0 -"),
                (look(0, 1), "late 0"),
                (look(0, 4), "fetch 8"),
            ],
        ),
        late(
            "a dormant slot by the touch, across 2^32",
            [2, 1, SHORT],
            vec![
                (begin(0, 0, u64::MAX), "begun 0"),
                (begin(0, 1, u64::MAX), "begun 0"),
                (read(0, 0, 7), "fetch 4294967296 | 0 -"),
                (read(0, 1, 8), "fetch 4294967296 | 1 -"),
                (TICK, "clock 4294967296"),
                (read(0, 0, 7), "ready 0 | 0 -"),
                (end(0, 0), "ended 0"),
                (end(0, 1), "ended 0"),
                (begin(0, 2, u64::MAX), "begun 0"),
                (read(0, 2, 9), "fetch 4294967297 | 1 -"),
            ],
        ),
        late(
            "a held slot by the touch, across 2^32",
            [2, 1, SHORT],
            vec![
                (begin(0, 0, u64::MAX), "begun 0"),
                (read(0, 0, 9), "fetch 4294967296 | 0 -"),
                (TICK, "clock 4294967296"),
                (read(0, 0, 8), "fetch 4294967297 | 1 -"),
                (TICK, "clock 4294967297"),
                (unpin(0, 0, 9), "unpinned 0"),
                (unpin(0, 0, 8), "unpinned 0"),
                (read(0, 0, 7), "fetch 4294967298 | 0 -"),
            ],
        ),
        late(
            "the longest delay at the last clock",
            [1, 255, LAST_CLOCK - 1],
            vec![
                (begin(3, 7, u64::MAX), "begun 0"),
                (TICK, "clock 9000000000000000000"),
                (write(3, 7, 4095), "fetch 9000000000000000255 | 0 -"),
                (view(3, 4095), "write 9000000000000000255"),
                (end(3, 7), "ended 0"),
                (view(3, 4095), "dormant 9000000000000000255"),
            ],
        ),
        // Points that the readings settle.
        case(
            "a look answered fetch names no slot",
            vec![
                (start(1, 3), "started 0"),
                (begin(0, 0, 9), "begun 0"),
                (read(0, 0, 7), "fetch 3 | 0 -"),
                (look(0, 0), "fetch 3"),
            ],
        ),
        case(
            "due and late on one tick leaves the page dirty",
            vec![
                (start(1, 1), "started 0"),
                (begin(0, 0, 0), "begun 0"),
                (write(0, 0, 7), "fetch 1 | 0 -"),
                (TICK, "clock 1"),
                (look(0, 0), "late 0"),
                (begin(0, 1, 9), "begun 0"),
                (read(0, 1, 8), "fetch 2 | 0 7"),
            ],
        ),
        case(
            "a fetch due at its row's deadline is delivered, and the row is late one tick on",
            vec![
                (start(1, 1), "started 0"),
                (begin(0, 0, 1), "begun 0"),
                (write(0, 0, 7), "fetch 1 | 0 -"),
                (TICK, "clock 1"),
                (look(0, 0), "idle 0"),
                (view(0, 7), "write 1"),
                (unpin(0, 0, 7), "unpinned 0"),
                (TICK, "clock 2"),
                (look(0, 0), "late 0"),
                (view(0, 7), "unseen 0"),
                (view(3, 7), "dormant 1"),
            ],
        ),
        case(
            "fetching and waiting rows are live at their deadlines",
            vec![
                (start(1, 2), "started 0"),
                (begin(0, 0, 1), "begun 0"),
                (begin(0, 1, 2), "begun 0"),
                (read(0, 0, 7), "fetch 2 | 0 -"),
                (read(0, 1, 8), "wait 0"),
                (TICK, "clock 1"),
                (look(0, 0), "fetch 2"),
                (look(0, 1), "wait 0"),
                (TICK, "clock 2; fill 1 | 0 -"),
                (look(0, 0), "late 0"),
                (look(0, 1), "fetch 4"),
                (TICK, "clock 3"),
                (look(0, 1), "late 0"),
            ],
        ),
        case(
            "a waiting row is late one tick after its deadline, and is not tried then",
            vec![
                (start(1, 1), "started 0"),
                (begin(0, 0, 1), "begun 0"),
                (begin(1, 0, 1), "begun 0"),
                (read(0, 0, 7), "fetch 1 | 0 -"),
                (read(1, 0, 8), "wait 0"),
                (TICK, "clock 1"),
                (look(1, 0), "wait 0"),
                (TICK, "clock 2"),
                (look(0, 0), "late 0"),
                (look(1, 0), "late 0"),
                (view(3, 7), "dormant 1"),
            ],
        ),
        case(
            "an end while fetching leaves a dormant page that arrives later, and a clean one",
            vec![
                (start(1, 3), "started 0"),
                (begin(0, 0, 9), "begun 0"),
                (begin(3, 0, 9), "begun 0"),
                (write(0, 0, 7), "fetch 3 | 0 -"),
                (end(0, 0), "ended 0"),
                (view(3, 7), "dormant 3"),
                (TICK, "clock 1"),
                (read(3, 0, 7), "fetch 3 | 0 -"),
                (begin(0, 0, 9), "begun 0"),
                (read(0, 0, 8), "fetch 4 | 0 -"),
                (look(3, 0), "taken 0"),
            ],
        ),
        case(
            "a row's own unpinned slot can be taken",
            vec![
                (start(1, 1), "started 0"),
                (begin(0, 0, 9), "begun 0"),
                (write(0, 0, 7), "fetch 1 | 0 -"),
                (TICK, "clock 1"),
                (unpin(0, 0, 7), "unpinned 0"),
                (read(0, 0, 8), "fetch 2 | 0 7"),
            ],
        ),
        // What ticks fill.
        case(
            "two rows wait for one slot, and the better one has it",
            vec![
                (start(1, 1), "started 0"),
                (begin(0, 0, 10), "begun 0"),
                (begin(0, 1, 30), "begun 0"),
                (begin(0, 2, 20), "begun 0"),
                (read(0, 0, 7), "fetch 1 | 0 -"),
                (read(0, 1, 8), "wait 0"),
                (read(0, 2, 9), "wait 0"),
                (end(0, 0), "ended 0"),
                (TICK, "clock 1; fill 2 | 0 -"),
                (look(0, 2), "fetch 2"),
                (look(0, 1), "wait 0"),
                (TICK, "clock 2"),
                (look(0, 2), "idle 0"),
                (look(0, 1), "wait 0"),
                (unpin(0, 2, 9), "unpinned 0"),
                (TICK, "clock 3"),
                (look(0, 1), "wait 0"),
                (end(0, 2), "ended 0"),
                (TICK, "clock 4; fill 1 | 0 -"),
            ],
        ),
        case(
            "a better row's try kills a worse waiting row by its pin, and it is not tried",
            vec![
                (start(2, 1), "started 0"),
                (begin(0, 0, 10), "begun 0"),
                (begin(0, 1, 20), "begun 0"),
                (begin(0, 2, 30), "begun 0"),
                (read(0, 0, 8), "fetch 1 | 0 -"),
                (TICK, "clock 1"),
                (read(0, 2, 8), "ready 0 | 0 -"),
                (write(0, 0, 7), "fetch 2 | 1 -"),
                (TICK, "clock 2"),
                (read(0, 2, 7), "wait 0"),
                (write(0, 1, 8), "wait 0"),
                (end(0, 0), "ended 0"),
                (TICK, "clock 3; fill 1 | 0 -"),
                (look(0, 1), "idle 0"),
                (look(0, 2), "taken 0"),
                (view(0, 8), "write 1"),
                (view(3, 7), "dormant 2"),
            ],
        ),
        case(
            "a better row's try kills a worse waiting row by its slot",
            vec![
                (start(1, 1), "started 0"),
                (begin(0, 0, 10), "begun 0"),
                (begin(0, 1, 20), "begun 0"),
                (begin(0, 2, 30), "begun 0"),
                (read(0, 0, 7), "fetch 1 | 0 -"),
                (TICK, "clock 1"),
                (read(0, 1, 9), "wait 0"),
                (read(0, 2, 7), "ready 0 | 0 -"),
                (read(0, 2, 8), "wait 0"),
                (end(0, 0), "ended 0"),
                (TICK, "clock 2; fill 1 | 0 -"),
                (look(0, 1), "fetch 3"),
                (look(0, 2), "taken 0"),
            ],
        ),
        case(
            "best priority first: level, then deadline, then begin order",
            vec![
                (start(8, 1), "started 0"),
                (begin(0, 7, 5), "begun 0"),
                (write(0, 7, 0), "fetch 1 | 0 -"),
                (begin(3, 0, 10), "begun 0"),
                (begin(1, 2, 40), "begun 0"),
                (begin(1, 1, 40), "begun 0"),
                (begin(1, 0, 50), "begun 0"),
                (begin(0, 6, 60), "begun 0"),
                (read(3, 0, 0), "wait 0"),
                (read(1, 2, 0), "wait 0"),
                (read(1, 1, 0), "wait 0"),
                (read(1, 0, 0), "wait 0"),
                (read(0, 6, 0), "wait 0"),
                (TICK, "clock 1"),
                (end(0, 7), "ended 0"),
                // Level 0 does not see the page, which is then due at 3 for all.
                (TICK, "clock 2; fill 6 | 0 -; fill 10 | 0 -; fill 9 | 0 -; fill 8 | 0 -; fill 24 | 0 -"),
                (look(0, 6), "fetch 3"),
                (look(1, 0), "fetch 3"),
                (look(3, 0), "fetch 3"),
            ],
        ),
        case(
            "a wait is ready at once by a seen page, and at level 3 by a dormant one",
            vec![
                (start(2, 2), "started 0"),
                (begin(0, 0, 20), "begun 0"),
                (begin(0, 1, 30), "begun 0"),
                (begin(3, 0, 10), "begun 0"),
                (write(0, 0, 7), "fetch 2 | 0 -"),
                (read(0, 1, 7), "wait 0"),
                (TICK, "clock 1"),
                (TICK, "clock 2"),
                (look(0, 1), "wait 0"),
                (unpin(0, 0, 7), "unpinned 0"),
                (TICK, "clock 3; fill 1 | 0 -"),
                (look(0, 1), "idle 0"),
                (write(0, 0, 7), "ready 0 | 0 -"),
                (look(0, 1), "taken 0"),
                (read(3, 0, 7), "wait 0"),
                (end(0, 0), "ended 0"),
                (view(3, 7), "dormant 2"),
                (TICK, "clock 4; fill 24 | 0 -"),
                (look(3, 0), "idle 0"),
            ],
        ),
        case(
            "a row is filled with the page that an earlier fill wrote back",
            vec![
                (start(2, 1), "started 0"),
                (begin(0, 0, 10), "begun 0"),
                (begin(0, 1, 20), "begun 0"),
                (begin(0, 2, 30), "begun 0"),
                (begin(0, 3, 40), "begun 0"),
                (write(0, 0, 7), "fetch 1 | 0 -"),
                (TICK, "clock 1"),
                (read(0, 0, 8), "fetch 2 | 1 -"),
                (TICK, "clock 2"),
                (read(0, 3, 8), "ready 0 | 1 -"),
                (unpin(0, 3, 8), "unpinned 0"),
                (read(0, 1, 9), "wait 0"),
                (read(0, 2, 7), "wait 0"),
                (end(0, 0), "ended 0"),
                (TICK, "clock 3; fill 1 | 0 7; fill 2 | 1 -"),
                (view(0, 7), "read 4"),
                (look(0, 3), "idle 0"),
                (view(0, 8), "unseen 0"),
            ],
        ),
        case(
            "a try in vain leaves the row, and a worse row can be filled after it",
            vec![
                (start(2, 1), "started 0"),
                (begin(0, 0, 10), "begun 0"),
                (begin(0, 1, 20), "begun 0"),
                (begin(0, 2, 30), "begun 0"),
                (write(0, 0, 7), "fetch 1 | 0 -"),
                (TICK, "clock 1"),
                (write(0, 0, 8), "fetch 2 | 1 -"),
                (TICK, "clock 2"),
                (read(0, 1, 7), "wait 0"),
                (read(0, 2, 8), "wait 0"),
                (unpin(0, 0, 8), "unpinned 0"),
                (TICK, "clock 3; fill 2 | 1 -"),
                (look(0, 1), "wait 0"),
                (look(0, 2), "idle 0"),
            ],
        ),
        // Equal deadlines: who began earlier.
        case(
            "step 1: a row waits for a larger number that began earlier",
            vec![
                (start(2, 1), "started 0"),
                (begin(0, 5, 50), "begun 0"),
                (begin(0, 1, 50), "begun 0"),
                (write(0, 5, 7), "fetch 1 | 0 -"),
                (TICK, "clock 1"),
                (read(0, 1, 7), "wait 0"),
                (TICK, "clock 2"),
                (look(0, 5), "idle 0"),
                (look(0, 1), "wait 0"),
            ],
        ),
        case(
            "step 1: a row kills a smaller number that began later",
            vec![
                (start(2, 1), "started 0"),
                (begin(0, 5, 50), "begun 0"),
                (begin(0, 1, 50), "begun 0"),
                (write(0, 1, 7), "fetch 1 | 0 -"),
                (TICK, "clock 1"),
                (write(0, 5, 7), "ready 0 | 0 -"),
                (look(0, 1), "taken 0"),
            ],
        ),
        case(
            "step 1: a row kills a larger number that began later",
            vec![
                (start(2, 1), "started 0"),
                (begin(0, 1, 50), "begun 0"),
                (begin(0, 5, 50), "begun 0"),
                (write(0, 5, 7), "fetch 1 | 0 -"),
                (TICK, "clock 1"),
                (write(0, 1, 7), "ready 0 | 0 -"),
                (look(0, 5), "taken 0"),
            ],
        ),
        case(
            "choice e: the slot of a smaller number that began later",
            vec![
                (start(1, 1), "started 0"),
                (begin(0, 3, 50), "begun 0"),
                (begin(0, 2, 50), "begun 0"),
                (read(0, 2, 7), "fetch 1 | 0 -"),
                (TICK, "clock 1"),
                (unpin(0, 2, 7), "unpinned 0"),
                (read(0, 3, 8), "fetch 2 | 0 -"),
                (look(0, 2), "idle 0"),
                (view(0, 7), "unseen 0"),
            ],
        ),
        case(
            "choice e: not the slot of a larger number that began earlier",
            vec![
                (start(1, 1), "started 0"),
                (begin(0, 3, 50), "begun 0"),
                (begin(0, 2, 50), "begun 0"),
                (read(0, 3, 7), "fetch 1 | 0 -"),
                (TICK, "clock 1"),
                (unpin(0, 3, 7), "unpinned 0"),
                (read(0, 2, 8), "wait 0"),
                (view(0, 7), "active 1"),
            ],
        ),
        which_slot("choice c: the slot of the row begun last, a smaller number", 1, [4, 1], true),
        which_slot("choice c: the slot of the row begun last, a larger number", 1, [1, 4], true),
        which_slot("choice d: the slot of the row begun last, a smaller number", 1, [4, 1], false),
        which_slot("choice d: the slot of the row begun last, a larger number", 1, [1, 4], false),
        which_slot("choice e: the slot of the row begun last, a smaller number", 0, [4, 1], true),
        which_slot("choice e: the slot of the row begun last, a larger number", 0, [1, 4], true),
        which_slot("choice f: the slot of the row begun last, a smaller number", 0, [4, 1], false),
        which_slot("choice f: the slot of the row begun last, a larger number", 0, [1, 4], false),
        case(
            "the best holder of a slot is the one begun first, and keeps it",
            vec![
                (start(2, 1), "started 0"),
                (begin(1, 4, 50), "begun 0"),
                (begin(1, 2, 50), "begun 0"),
                (begin(1, 1, 50), "begun 0"),
                (begin(0, 0, 90), "begun 0"),
                (read(1, 4, 7), "fetch 1 | 0 -"),
                (read(1, 2, 8), "fetch 1 | 1 -"),
                (TICK, "clock 1"),
                (read(1, 1, 7), "ready 0 | 0 -"),
                (read(0, 0, 9), "fetch 2 | 1 -"),
                (look(1, 4), "idle 0"),
                (look(1, 2), "taken 0"),
                (look(1, 1), "idle 0"),
            ],
        ),
        case(
            "the best holder of a slot is the one begun first, not the smallest number",
            vec![
                (start(2, 1), "started 0"),
                (begin(1, 2, 50), "begun 0"),
                (begin(1, 4, 50), "begun 0"),
                (begin(1, 1, 50), "begun 0"),
                (begin(0, 0, 90), "begun 0"),
                (read(1, 4, 7), "fetch 1 | 0 -"),
                (read(1, 2, 8), "fetch 1 | 1 -"),
                (TICK, "clock 1"),
                (read(1, 1, 7), "ready 0 | 0 -"),
                (read(0, 0, 9), "fetch 2 | 0 -"),
                (look(1, 4), "taken 0"),
                (look(1, 2), "idle 0"),
                (look(1, 1), "taken 0"),
            ],
        ),
        case(
            "a tick tries the row begun first, a larger number, and the other waits on",
            vec![
                (start(1, 1), "started 0"),
                (begin(0, 0, 10), "begun 0"),
                (begin(0, 5, 30), "begun 0"),
                (begin(0, 1, 30), "begun 0"),
                (read(0, 0, 7), "fetch 1 | 0 -"),
                (read(0, 1, 8), "wait 0"),
                (read(0, 5, 9), "wait 0"),
                (end(0, 0), "ended 0"),
                (TICK, "clock 1; fill 5 | 0 -"),
                (look(0, 5), "fetch 2"),
                (look(0, 1), "wait 0"),
            ],
        ),
        case(
            "a row that ends and begins again comes last",
            vec![
                (start(1, 1), "started 0"),
                (begin(0, 2, 50), "begun 0"),
                (begin(0, 3, 50), "begun 0"),
                (end(0, 2), "ended 0"),
                (begin(0, 2, 50), "begun 0"),
                (read(0, 3, 7), "fetch 1 | 0 -"),
                (TICK, "clock 1"),
                (read(0, 2, 8), "wait 0"),
            ],
        ),
        case(
            "a killed row that ends and begins again comes last",
            vec![
                (start(1, 1), "started 0"),
                (begin(0, 2, 0), "begun 0"),
                (begin(0, 3, 50), "begun 0"),
                (TICK, "clock 1"),
                (look(0, 2), "late 0"),
                (end(0, 2), "ended 0"),
                (begin(0, 2, 50), "begun 0"),
                (read(0, 3, 7), "fetch 2 | 0 -"),
                (TICK, "clock 2"),
                (read(0, 2, 8), "wait 0"),
            ],
        ),
        case(
            "begins and ends of another level do not matter",
            vec![
                (start(1, 1), "started 0"),
                (begin(1, 0, 50), "begun 0"),
                (begin(0, 3, 50), "begun 0"),
                (begin(1, 3, 50), "begun 0"),
                (begin(1, 2, 50), "begun 0"),
                (end(1, 3), "ended 0"),
                (begin(0, 2, 50), "begun 0"),
                (begin(1, 3, 50), "begun 0"),
                (end(1, 0), "ended 0"),
                (read(0, 2, 7), "fetch 1 | 0 -"),
                (TICK, "clock 1"),
                (read(0, 3, 8), "fetch 2 | 0 -"),
                (look(0, 2), "taken 0"),
                (end(0, 3), "ended 0"),
                (end(0, 2), "ended 0"),
                // Of level 1 row 2 began before row 3.
                (read(1, 3, 9), "fetch 2 | 0 -"),
                (TICK, "clock 2"),
                (read(1, 2, 10), "fetch 3 | 0 -"),
                (look(1, 3), "taken 0"),
            ],
        ),
    ]
}

/// The row begun first pins 7, and the other waits for 8 until it has ended; then from the start again,
/// the other pins 7 and is taken.
fn m6(name: &'static str, first: u32, second: u32, filled: &'static str) -> Case {
    let begins = [
        (start(1, 1), "started 0"),
        (begin(0, first, 50), "begun 0"),
        (begin(0, second, 50), "begun 0"),
    ];
    let mut steps = begins.to_vec();
    steps.extend([
        (read(0, first, 7), "fetch 1 | 0 -"),
        (TICK, "clock 1"),
        (read(0, second, 8), "wait 0"),
        (look(0, first), "idle 0"),
        (look(0, second), "wait 0"),
        (TICK, "clock 2"),
        (look(0, second), "wait 0"),
        (end(0, first), "ended 0"),
        (TICK, filled),
        (look(0, second), "fetch 4"),
    ]);
    steps.extend(begins);
    steps.extend([
        (read(0, second, 7), "fetch 1 | 0 -"),
        (TICK, "clock 1"),
        (read(0, first, 8), "fetch 2 | 0 -"),
        (look(0, second), "taken 0"),
    ]);
    Case { name, fresh: None, steps }
}

/// Two rows of a level with equal deadlines, begun in this turn, hold a slot each, and row 0 of level 0
/// takes the slot of the second. Its page is the larger one, and its touch is no earlier.
fn which_slot(name: &'static str, level: u32, rows: [u32; 2], unpinned: bool) -> Case {
    let [first, second] = rows;
    let mut steps = vec![
        (start(2, 1), "started 0"),
        (begin(level, first, 50), "begun 0"),
        (begin(level, second, 50), "begun 0"),
        (begin(0, 0, 40), "begun 0"),
        (read(level, first, 7), "fetch 1 | 0 -"),
        (read(level, second, 8), "fetch 1 | 1 -"),
        (TICK, "clock 1"),
    ];
    if unpinned {
        steps.extend([(unpin(level, first, 7), "unpinned 0"), (unpin(level, second, 8), "unpinned 0")]);
    }
    steps.extend([
        (read(0, 0, 9), "fetch 2 | 1 -"),
        (look(level, first), "idle 0"),
        (look(level, second), if unpinned { "idle 0" } else { "taken 0" }),
        (view(level, 8), "unseen 0"),
    ]);
    Case { name, fresh: None, steps }
}

/// Calls, and after them the places of docs/LAYOUT.md: those rows, of all levels, that have one.
fn orders() -> Vec<(&'static str, Vec<Call>, Vec<(RowId, u64)>)> {
    let three = [start(1, 1), begin(0, 5, 9), begin(0, 2, 9), begin(0, 7, 3)];
    let after = |calls: &[Call]| [&three[..], calls].concat();
    let eight: Vec<Call> = [3, 0, 7, 1, 6, 2, 5, 4].map(|row| begin(2, row, 50)).to_vec();
    vec![
        ("a fresh start", vec![start(64, 1)], vec![]),
        ("a begin has the last place", three.to_vec(), vec![((0, 2), 2), ((0, 5), 1), ((0, 7), 3)]),
        (
            "a refused begin has none",
            after(&[begin(0, 2, 9), begin(0, 8, 9), begin(4, 1, 9), TICK, begin(0, 1, 0)]),
            vec![((0, 2), 2), ((0, 5), 1), ((0, 7), 3)],
        ),
        ("the first ends", after(&[end(0, 5)]), vec![((0, 2), 1), ((0, 7), 2)]),
        ("one between ends", after(&[end(0, 2)]), vec![((0, 5), 1), ((0, 7), 2)]),
        ("the last ends", after(&[end(0, 7)]), vec![((0, 2), 2), ((0, 5), 1)]),
        ("a refused end", after(&[end(0, 6), end(0, 8)]), vec![((0, 2), 2), ((0, 5), 1), ((0, 7), 3)]),
        (
            "one ends and begins again",
            after(&[end(0, 5), begin(0, 5, 9)]),
            vec![((0, 2), 1), ((0, 5), 3), ((0, 7), 2)],
        ),
        ("all end", after(&[end(0, 2), end(0, 7), end(0, 5)]), vec![]),
        ("a start", after(&[start(1, 1)]), vec![]),
        ("a refused start", after(&[start(65, 1)]), vec![((0, 2), 2), ((0, 5), 1), ((0, 7), 3)]),
        (
            "a row killed as late keeps its place",
            vec![start(1, 1), begin(3, 4, 0), begin(3, 1, 9), TICK, begin(3, 0, 9)],
            vec![((3, 0), 3), ((3, 1), 2), ((3, 4), 1)],
        ),
        (
            "a row killed as late ends",
            vec![start(1, 1), begin(3, 4, 0), begin(3, 1, 9), TICK, begin(3, 0, 9), end(3, 4)],
            vec![((3, 0), 2), ((3, 1), 1)],
        ),
        (
            "a row killed as taken keeps its place",
            vec![start(1, 1), begin(0, 6, 9), begin(0, 3, 5), begin(0, 1, 9), read(0, 6, 7), read(0, 3, 8)],
            vec![((0, 1), 3), ((0, 3), 2), ((0, 6), 1)],
        ),
        (
            "a row killed as taken ends",
            vec![
                start(1, 1),
                begin(0, 6, 9),
                begin(0, 3, 5),
                begin(0, 1, 9),
                read(0, 6, 7),
                read(0, 3, 8),
                end(0, 6),
            ],
            vec![((0, 1), 2), ((0, 3), 1)],
        ),
        (
            "fetching and waiting rows, ticks, unpins and questions",
            after(&[
                read(0, 5, 7),
                read(0, 2, 8),
                TICK,
                unpin(0, 5, 7),
                TICK,
                look(0, 5),
                view(0, 7),
                count(0),
            ]),
            vec![((0, 2), 2), ((0, 5), 1), ((0, 7), 3)],
        ),
        (
            "two levels",
            vec![
                start(1, 1),
                begin(1, 4, 9),
                begin(0, 6, 9),
                begin(1, 0, 9),
                begin(0, 4, 9),
                begin(1, 6, 9),
            ],
            vec![((0, 4), 2), ((0, 6), 1), ((1, 0), 2), ((1, 4), 1), ((1, 6), 3)],
        ),
        (
            "an end beside another level",
            vec![
                start(1, 1),
                begin(1, 4, 9),
                begin(0, 4, 9),
                begin(1, 0, 9),
                begin(0, 6, 9),
                end(0, 4),
                begin(2, 4, 9),
            ],
            vec![((0, 6), 1), ((1, 0), 2), ((1, 4), 1), ((2, 4), 1)],
        ),
        (
            "eight of a level",
            [&[start(1, 1)], &eight[..]].concat(),
            vec![
                ((2, 0), 2),
                ((2, 1), 4),
                ((2, 2), 6),
                ((2, 3), 1),
                ((2, 4), 8),
                ((2, 5), 7),
                ((2, 6), 5),
                ((2, 7), 3),
            ],
        ),
        (
            "eight of a level, two end and one begins again",
            [&[start(1, 1)], &eight[..], &[end(2, 0), end(2, 6), begin(2, 6, 60)]].concat(),
            vec![
                ((2, 1), 3),
                ((2, 2), 4),
                ((2, 3), 1),
                ((2, 4), 6),
                ((2, 5), 5),
                ((2, 6), 7),
                ((2, 7), 2),
            ],
        ),
    ]
}

/// The places in these bytes, but those that are 0.
fn places_in(bytes: &[u8]) -> Vec<(RowId, u64)> {
    (0..32)
        .map(|row| ((row / 8, row % 8), word(bytes, 72 + 8 * row as usize)))
        .filter(|(_, place)| *place != 0)
        .collect()
}

/// Makes the calls, and reads the places in the area.
fn play_order(manager: &Manager, calls: &[Call], places: &[(RowId, u64)]) -> Result<u64, String> {
    let mut lent = Lent::new(1, SIZE, 0xEE);
    let mut state = State::fresh(1, 1);
    for call in calls {
        lent.renew_list(call);
        let (got, expected) = (lent.call(manager, call), state.call(call, &mut Tally::default()));
        if got != expected {
            return Err(format!("{call:?}: {got:?} instead of {expected:?}"));
        }
    }
    for (whose, found) in [("", places_in(lent.state_bytes())), ("model: ", places_in(&state.bytes()))] {
        if found != places {
            return Err(format!("{whose}{found:?} instead of {places:?}"));
        }
    }
    Ok(calls.len() as u64)
}

/// Calls, and the entries that the last one, a tick, must put into its list, byte by byte.
fn lists() -> Vec<(&'static str, Vec<Call>, Vec<[u8; ENTRY]>)> {
    // A row of level 0 keeps slot 0. In slot 1 a row of level 2 has written page 2,500, the waits come,
    // and it ends.
    let after_write = |waits: &[Call], tick: Call| {
        let mut calls =
            vec![start(2, 1), begin(0, 0, 9), read(0, 0, 7), begin(2, 4, 40), write(2, 4, 2500), TICK];
        calls.extend(waits);
        calls.extend([end(2, 4), tick]);
        calls
    };
    let one = [begin(2, 5, 50), read(2, 5, 3000)];
    let three = [
        begin(3, 6, 8),
        read(3, 6, 3000),
        begin(2, 5, 50),
        read(2, 5, 3000),
        begin(2, 3, 49),
        read(2, 3, 3000),
    ];
    vec![
        ("nothing waits", vec![start(1, 1), TICK], vec![]),
        ("a page is written back", after_write(&one, TICK), vec![[2, 5, 1, 2, 0x0B, 0xB8, 0x09, 0xC4]]),
        ("a longer list", after_write(&one, tick_with(300)), vec![[2, 5, 1, 2, 0x0B, 0xB8, 0x09, 0xC4]]),
        (
            "three entries, the first with a page written back",
            after_write(&three, TICK),
            vec![
                [2, 3, 1, 2, 0x0B, 0xB8, 0x09, 0xC4],
                [2, 5, 1, 1, 0x0B, 0xB8, 0, 0],
                [3, 6, 1, 1, 0x0B, 0xB8, 0, 0],
            ],
        ),
        (
            "page 0 is written back",
            vec![
                start(1, 1),
                begin(0, 0, 9),
                write(0, 0, 0),
                TICK,
                begin(1, 7, 9),
                write(1, 7, 4095),
                end(0, 0),
                TICK,
            ],
            vec![[1, 7, 0, 2, 0x0F, 0xFF, 0, 0]],
        ),
        (
            "page 0 comes in, and none is written back",
            vec![
                start(1, 1),
                begin(0, 0, 9),
                read(0, 0, 4),
                begin(3, 1, 9),
                read(3, 1, 0),
                end(0, 0),
                TICK,
            ],
            vec![[3, 1, 0, 1, 0, 0, 0, 0]],
        ),
    ]
}

/// Makes the calls, and compares the list of the last with the entries, the rest of its 256 bytes with
/// zero and bytes past them with those before.
fn play_list(manager: &Manager, calls: &[Call], entries: &[[u8; ENTRY]]) -> Result<u64, String> {
    let mut lent = Lent::new(1, SIZE, 0xEE);
    let mut state = State::fresh(1, 1);
    let mut before = Vec::new();
    for call in calls {
        lent.renew_list(call);
        before = lent.list().to_vec();
        let (got, expected) = (lent.call(manager, call), state.call(call, &mut Tally::default()));
        if got.status != 0 || got != expected {
            return Err(format!("{call:?}: {got:?} instead of {expected:?}"));
        }
    }
    let mut wanted = entries.concat();
    wanted.resize(LIST, 0);
    wanted.extend(&before[LIST..]);
    if lent.list() != wanted {
        return Err(difference(lent.list(), &wanted));
    }
    Ok(calls.len() as u64)
}

fn idle(deadline: u64) -> Row {
    Row { condition: Condition::Idle, deadline }
}

fn put(state: &mut State, id: RowId, row: Row) {
    state.joins(id);
    state.rows.insert(id, row);
}

/// The bytes with another word.
fn with(mut bytes: Vec<u8>, at: usize, value: u64) -> Vec<u8> {
    set_word(&mut bytes, at, value);
    bytes
}

/// Areas by their names, and whether they are sound. The same holds of them in the old layout.
fn areas() -> Vec<(&'static str, Vec<u8>, bool)> {
    let begun = |change: &dyn Fn(&mut State)| {
        let mut state = State::fresh(64, 1);
        state.clock = 5;
        state.begun = true;
        change(&mut state);
        state
    };
    let before = |change: &dyn Fn(&mut State)| {
        let mut state = begun(change);
        state.begun = false;
        state.bytes()
    };
    let bordered = |first, second, third| {
        before(&|state: &mut State| state.borders = [first, second, third])
    };
    let dormant = |state: &mut State| {
        state.filled.insert(63, Slot { page: 7, arrival: 5, dirty: false, lowest: 0, touch: 5 });
    };
    let killed = |cause| Row { condition: Condition::Killed(cause), deadline: 0 };
    // A row of that level that pins page 7, under those borders.
    let pinned = |level, pin, first, second, third| {
        begun(&|state: &mut State| {
            dormant(state);
            state.borders = [first, second, third];
            put(state, (level, 0), idle(9));
            state.holdings.insert((63, (level, 0)), Holding { pin, arrival: 5, touch: 5 });
        })
        .bytes()
    };
    // A row of that level that waits for page 7.
    let waiting = |level, mode, first, second, third| {
        begun(&|state: &mut State| {
            state.borders = [first, second, third];
            let condition = Condition::Waiting { page: 7, mode };
            put(state, (level, 0), Row { condition, deadline: 9 });
        })
        .bytes()
    };
    let deadline = |deadline| {
        begun(&|state: &mut State| put(state, (0, 0), idle(deadline))).bytes()
    };
    // Idle rows 0, 1 and so on of level 1, with these places.
    let placed = |places: &[u64]| {
        let mut state = begun(&|_: &mut State| {});
        for number in 0..places.len() as u64 {
            put(&mut state, (1, number), idle(9));
        }
        let mut bytes = state.bytes();
        for (number, place) in places.iter().enumerate() {
            set_word(&mut bytes, 72 + 8 * (8 + number), *place);
        }
        bytes
    };
    let one = |row: Row| begun(&|state: &mut State| put(state, (0, 0), row)).bytes();
    let one_waits = Row { condition: Condition::Waiting { page: 7, mode: Mode::Read }, deadline: 9 };
    let two_levels = begun(&|state: &mut State| {
        put(state, (0, 6), idle(9));
        put(state, (1, 6), idle(9));
    })
    .bytes();
    let after_ends = with(begun(&|_: &mut State| {}).bytes(), ORDER_AT, 1);
    let none = |_: &mut State| {};
    vec![
        ("a deadline below the clock", deadline(4), false),
        ("a deadline at the clock", deadline(5), true),
        ("order: 1", placed(&[1]), true),
        ("order: 1 2", placed(&[1, 2]), true),
        ("order: 2 1", placed(&[2, 1]), true),
        ("order: 3 1 2", placed(&[3, 1, 2]), true),
        ("order: 8 7 6 5 4 3 2 1", placed(&[8, 7, 6, 5, 4, 3, 2, 1]), true),
        ("order: a late row", one(killed(Cause::Late)), true),
        ("order: a taken row", one(killed(Cause::Taken)), true),
        ("order: a free row has the next place", with(placed(&[2, 1]), 72 + 8 * 10, 3), false),
        ("order: a free row has the last of eight", with(placed(&[7, 6, 5, 4, 3, 2, 1]), 72 + 8 * 15, 8), false),
        ("order: a free row has a taken place", with(placed(&[2, 1]), 72 + 8 * 10, 2), false),
        ("order: a free row of another level has a place", with(placed(&[2, 1]), 72, 1), false),
        ("order: every row free and a place", after_ends.clone(), false),
        ("order: nothing begun and a place", with(after_ends, BEGUN_AT, 0), false),
        ("order: an idle row has none", placed(&[0]), false),
        ("order: a waiting row has none", with(one(one_waits), 72, 0), false),
        ("order: a late row has none", with(one(killed(Cause::Late)), 72, 0), false),
        ("order: a taken row has none", with(one(killed(Cause::Taken)), 72, 0), false),
        ("order: one of two has none", placed(&[1, 0]), false),
        ("order: the last of eight has none", placed(&[1, 2, 3, 4, 5, 6, 7, 0]), false),
        ("order: place 1 twice", placed(&[1, 1]), false),
        ("order: place 2 twice", placed(&[2, 1, 2]), false),
        ("order: place 2 twice, and no third", placed(&[1, 2, 2]), false),
        ("order: place 1 twice, and no second", placed(&[1, 1, 3]), false),
        ("order: from 2 on", placed(&[2]), false),
        ("order: 1 3", placed(&[1, 3]), false),
        ("order: 3 1", placed(&[3, 1]), false),
        ("order: place 8 of one row", placed(&[8]), false),
        ("order: place 9", placed(&[9]), false),
        ("order: place 9 of the last of eight", placed(&[1, 2, 3, 4, 5, 6, 7, 9]), false),
        ("order: place 257", placed(&[257]), false),
        ("order: a place above 32 bits", placed(&[(1 << 32) + 1]), false),
        ("order: the largest word", placed(&[u64::MAX]), false),
        ("order: each level from 1", two_levels.clone(), true),
        ("order: counted over two levels", with(two_levels, 72 + 8 * 14, 2), false),
        ("borders 0 0 0", bordered(0, 0, 0), true),
        ("borders 4096 4096 4096", bordered(4096, 4096, 4096), true),
        ("borders 0 0 4097", bordered(0, 0, 4097), false),
        ("borders 4097 4097 4097", bordered(4097, 4097, 4097), false),
        ("borders 1 0 0", bordered(1, 0, 0), false),
        ("borders 0 1 0", bordered(0, 1, 0), false),
        ("a border above 32 bits", bordered(0, 0, 1 << 32), false),
        ("begun and every row free", begun(&none).bytes(), true),
        ("a begun mark of 2", with(begun(&none).bytes(), BEGUN_AT, 2), false),
        ("a begun mark above 32 bits", with(begun(&none).bytes(), BEGUN_AT, 1 << 32), false),
        ("a word after the order", with(begun(&none).bytes(), HEADER_END, 1), false),
        ("not begun after ticks", before(&none), true),
        (
            "not begun and an idle row",
            before(&|state: &mut State| put(state, (0, 0), idle(9))),
            false,
        ),
        (
            "not begun and a killed row",
            before(&|state: &mut State| put(state, (3, 7), killed(Cause::Taken))),
            false,
        ),
        ("not begun and a filled slot", before(&dormant), false),
        ("begun and a dormant slot", begun(&dormant).bytes(), true),
        ("level 0 reads class 0", pinned(0, Pin::Read, 8, 8, 8), true),
        ("level 0 reads class 1", pinned(0, Pin::Read, 7, 8, 8), false),
        ("level 1 reads class 1", pinned(1, Pin::Read, 7, 8, 8), true),
        ("level 1 reads class 2", pinned(1, Pin::Read, 7, 7, 8), false),
        ("level 2 reads class 2", pinned(2, Pin::Read, 7, 7, 8), true),
        ("level 2 reads class 3", pinned(2, Pin::Read, 7, 7, 7), false),
        ("level 2 holds class 3", pinned(2, Pin::None, 7, 7, 7), true),
        ("level 1 writes class 0", pinned(1, Pin::Write, 8, 8, 8), false),
        ("level 1 writes class 1", pinned(1, Pin::Write, 7, 8, 8), true),
        ("level 2 writes class 1", pinned(2, Pin::Write, 7, 8, 8), false),
        ("level 2 writes class 2", pinned(2, Pin::Write, 7, 7, 8), true),
        ("level 3 writes class 2", pinned(3, Pin::Write, 7, 7, 8), false),
        ("level 3 writes class 3", pinned(3, Pin::Write, 7, 7, 7), true),
        ("level 0 waits to read class 0", waiting(0, Mode::Read, 8, 8, 8), true),
        ("level 0 waits to read class 1", waiting(0, Mode::Read, 7, 8, 8), false),
        ("level 3 waits to write class 2", waiting(3, Mode::Write, 7, 7, 8), false),
        ("level 3 waits to write class 3", waiting(3, Mode::Write, 7, 7, 7), true),
    ]
}

/// Areas of other versions and with ticks at the ends of their ranges; whether they are sound under their
/// own version and, if they are new, whether the same words are under version 3.
fn versions() -> Vec<(String, Vec<u8>, bool, Option<bool>)> {
    let fresh = State::fresh(64, 1).bytes();
    // Two rows begun, the second with the smaller number.
    let mut rows = State::fresh(64, 1);
    rows.begun = true;
    put(&mut rows, (1, 1), idle(9));
    put(&mut rows, (1, 0), idle(9));
    let rows = rows.bytes();
    let mut version_1 = with(fresh.clone(), 8, 1);
    version_1[BORDERS_AT..HEADER_END].fill(0);
    let mut version_2 = with(rows.clone(), 8, 2);
    version_2[ORDER_AT..HEADER_END].fill(0);
    let mut list = vec![
        ("version 1 of the layout".to_string(), version_1.clone(), false, None),
        ("the words of version 1".to_string(), with(version_1, 8, 4), true, Some(true)),
        ("version 1 and borders".to_string(), with(fresh.clone(), 8, 1), false, None),
        ("version 2 of the layout, nothing begun".to_string(), with(fresh.clone(), 8, 2), false, None),
        ("version 2 of the layout, two rows".to_string(), version_2.clone(), false, None),
        ("version 2 and places".to_string(), with(rows.clone(), 8, 2), false, None),
        ("two rows of version 2".to_string(), with(version_2, 8, 4), false, Some(false)),
    ];
    let far = [0, 5, 6, 7, 256 + 3, 256 + 4, (1 << 32) + 3, (1 << 32) + 4, (1 << 63) + 3, (1 << 63) + 4, u64::MAX];
    for version in far {
        for bytes in [&fresh, &rows] {
            list.push((format!("version {version}"), with(bytes.clone(), 8, version), false, None));
        }
    }
    // A mark that is right by half alone.
    for old in [3, 4] {
        let name = format!("no mark, version {old}");
        list.push((name, with(with(fresh.clone(), 8, old), 0, 0x4552_4253), false, None));
    }
    // Clocks, with no row and with one that has the largest deadline of the old layout.
    let clocks = [
        (0, true, true),
        (OLD_LAST_CLOCK, true, true),
        (OLD_LAST_CLOCK + 1, true, false),
        (SHORT, true, false),
        (SHORT + 1, true, false),
        (SHORT + 6, true, false),
        (LAST_CLOCK, true, false),
        (LAST_CLOCK + 1, false, false),
        (1 << 63, false, false),
        (u64::MAX - 1, false, false),
        (u64::MAX, false, false),
    ];
    for (clock, new, old) in clocks {
        list.push((format!("clock {clock}"), with(fresh.clone(), 32, clock), new, Some(old)));
        let row = with(with(rows.clone(), 536 + 64 * 8, u64::MAX), 536 + 64 * 9, clock);
        list.push((format!("clock {clock}, deadlines"), with(row, 32, clock), new, Some(false)));
    }
    for (deadline, new, old) in [
        (0, true, true),
        (SHORT, true, true),
        (SHORT + 1, true, false),
        (SHORT + 10, true, false),
        (1 << 63, true, false),
        (u64::MAX, true, false),
    ] {
        // Row 0 of level 1.
        let bytes = with(rows.clone(), 512 + 64 * 8 + 24, deadline);
        list.push((format!("a deadline of {deadline}"), bytes, new, Some(old)));
    }
    // At each clock a page in slot 2 that row 0 of level 0 reads and that has just come, and a page in
    // slot 3 that row 1 fetches; then the ticks one or more off.
    for clock in [5, OLD_LAST_CLOCK, OLD_LAST_CLOCK + 1, SHORT, LAST_CLOCK] {
        let mut state = State::fresh(64, 2);
        state.begun = true;
        state.clock = clock;
        put(&mut state, (0, 0), idle(clock));
        put(&mut state, (0, 1), Row { condition: Condition::Fetching { due: clock + 2 }, deadline: clock + 1 });
        for (slot, row, arrival) in [(2, 0, clock), (3, 1, clock + 2)] {
            state.filled.insert(slot, Slot { page: slot, arrival, dirty: false, lowest: 0, touch: clock });
            state.holdings.insert((slot, (0, row)), Holding { pin: Pin::Read, arrival, touch: clock });
        }
        let right = state.bytes();
        list.push((format!("ticks at clock {clock}"), right.clone(), true, Some(clock <= OLD_LAST_CLOCK)));
        let words = [
            ("a due tick", 512 + 64 + 8, clock + 2),
            ("the arrival of slot 2", 2_560 + 64 * 2 + 16, clock),
            ("the touch of slot 2", 2_560 + 64 * 2 + 40, clock),
            ("the arrival of slot 3", 2_560 + 64 * 3 + 16, clock + 2),
            ("the arrival of a holding of row 0", 6_656 + 24 * (32 * 2) + 8, clock),
            ("the touch of a holding of row 0", 6_656 + 24 * (32 * 2) + 16, clock),
            ("the arrival of a holding of row 1", 6_656 + 24 * (32 * 3 + 1) + 8, clock + 2),
        ];
        for (name, at, value) in words {
            assert!(word(&right, at) == value);
            for wrong in [value + 1, value + 3, value + (1 << 32), value ^ (1 << 63), u64::MAX] {
                let bytes = with(right.clone(), at, wrong);
                list.push((format!("{name} of {wrong} at clock {clock}"), bytes, false, Some(false)));
            }
        }
    }
    list
}

/// The words of an area of the last 32-bit layout, the others being zero: clock 5, 3 slots, delay 2. Row 0
/// of level 0 is idle and writes page 7 in slot 0; row 1 fetches page 8 in slot 1 until 7; row 3 is late.
/// Row 0 of level 1 waits to write page 1,030, row 6 of level 2 is idle. Page 6 is dormant and dirty in
/// slot 2.
const OLD_WORDS: &[(usize, u64)] = &[
    (0, u64::from_le_bytes(*b"SABREBUF")), (8, 3), (16, 3), (24, 2), (32, 5),
    (40, 1024), (48, 2048), (56, 3072), (64, 1),
    // places: rows 0, 1 and 3 of level 0, row 0 of level 1, row 6 of level 2
    (72, 1), (80, 2), (96, 3), (136, 1), (248, 1),
    (512, 1), (536, 9),
    (576, 2), (584, 7), (600, 4_294_967_295),
    (704, 4),
    (1_024, 3), (1_032, 1_030), (1_040, 1), (1_048, 8),
    (1_920, 1), (1_944, 50),
    (2_560, 1), (2_568, 7), (2_576, 4), (2_600, 5),
    (2_624, 1), (2_632, 8), (2_640, 7), (2_664, 5),
    (2_688, 1), (2_696, 6), (2_704, 3), (2_712, 1), (2_720, 1), (2_728, 4),
    (6_656, 3), (6_664, 4), (6_672, 5),
    (7_448, 2), (7_456, 7), (7_464, 5),
];

/// An old area of the last old clock on which nothing has begun.
const OLD_LATE_WORDS: &[(usize, u64)] = &[
    (0, u64::from_le_bytes(*b"SABREBUF")), (8, 3), (16, 1), (24, 1), (32, 4_000_000_000),
    (40, 1024), (48, 2048), (56, 3072),
];

/// What a call leaves of an old area: every byte as before, or these words changed.
type Left = Option<Vec<(usize, u64)>>;

/// The words of old areas, calls on them, each on the area itself, the player's lines and what is left.
/// Where the area is new after it, the version is among the words.
fn old_calls() -> Vec<(&'static [(usize, u64)], Vec<(Call, &'static str, Left)>)> {
    let left = |words: &[(usize, u64)]| Some([&[(8, 4)], words].concat());
    let on_words = vec![
        (look(0, 0), "idle 0", None),
        (look(0, 1), "fetch 7", None),
        (look(0, 3), "late 0", None),
        (look(1, 0), "wait 0", None),
        (look(3, 7), "none 0", None),
        (view(0, 7), "write 4", None),
        (view(3, 8), "read 7", None),
        (view(3, 6), "dormant 3", None),
        (view(2, 6), "unseen 0", None),
        (count(0), "open 1", None),
        // refused
        (start(65, 1), "refused 2", None),
        (start(1, 256), "refused 3", None),
        (start(1, (1 << 32) + 1), "refused 3", None),
        (look(4, 0), "refused 4", None),
        (look(0, 8), "refused 5", None),
        (view(0, 4096), "refused 6", None),
        (Call::Request { level: 0, row: 0, page: 7, mode: 2 }, "refused 7", None),
        (begin(0, 0, 9), "refused 8", None),
        (begin(0, 3, 9), "refused 8", None),
        (end(0, 4), "refused 9", None),
        (read(0, 3, 7), "refused 10", None),
        (read(0, 1, 7), "refused 11", None),
        (unpin(1, 0, 1030), "refused 11", None),
        (begin(0, 4, 4), "refused 12", None),
        (read(0, 0, 1024), "refused 13", None),
        (write(2, 6, 7), "refused 14", None),
        (unpin(0, 0, 8), "refused 15", None),
        (borders(1, 0, 0), "refused 19", None),
        (borders(1, 2, 3), "refused 20", None),
        (tick_with(255), "refused 21", None),
        // accepted
        (begin(0, 4, 9), "begun 0", left(&[(104, 4), (768, 1), (792, 9)])),
        (begin(0, 4, 1 << 32), "begun 0", left(&[(104, 4), (768, 1), (792, 1 << 32)])),
        (begin(3, 7, u64::MAX), "begun 0", left(&[(320, 1), (2_496, 1), (2_520, u64::MAX)])),
        (read(0, 0, 7), "ready 0 | 0 -", left(&[])),
        (
            read(0, 0, 3),
            "fetch 7 | 2 6",
            left(&[
                (512, 2), (520, 7),
                (2_696, 3), (2_704, 7), (2_712, 0), (2_720, 0), (2_728, 5),
                (8_192, 2), (8_200, 7), (8_208, 5),
            ]),
        ),
        (read(2, 6, 7), "wait 0", left(&[(1_920, 3), (1_928, 7)])),
        (unpin(0, 0, 7), "unpinned 0", left(&[(2_584, 1), (6_656, 1)])),
        (
            end(0, 0),
            "ended 0",
            left(&[
                (72, 0), (80, 1), (96, 2), (512, 0), (536, 0), (2_584, 1),
                (6_656, 0), (6_664, 0), (6_672, 0),
            ]),
        ),
        (end(0, 3), "ended 0", left(&[(96, 0), (704, 0)])),
        (
            TICK,
            "clock 6; fill 8 | 2 6",
            left(&[
                (32, 6), (1_024, 2), (1_032, 8), (1_040, 0),
                (2_696, 1_030), (2_704, 8), (2_712, 0), (2_728, 6),
                (8_384, 3), (8_392, 8), (8_400, 6),
            ]),
        ),
    ];
    let on_late = vec![
        (count(3), "open 1", None),
        (look(0, 0), "none 0", None),
        (view(0, 7), "unseen 0", None),
        (begin(0, 0, 3_999_999_999), "refused 12", None),
        (borders(0, 0, 4097), "refused 19", None),
        (tick_with(255), "refused 21", None),
        (borders(1, 2, 3), "borders 0", left(&[(40, 1), (48, 2), (56, 3)])),
        (TICK, "clock 4000000001", left(&[(32, 4_000_000_001)])),
        (
            begin(0, 0, 4_000_000_000),
            "begun 0",
            left(&[(64, 1), (72, 1), (512, 1), (536, 4_000_000_000)]),
        ),
        (start(64, 255), "started 0", left(&[(16, 64), (24, 255), (32, 0)])),
        (start(64, 256), "refused 3", None),
    ];
    vec![(OLD_WORDS, on_words), (OLD_LATE_WORDS, on_late)]
}

fn area_of(words: &[(usize, u64)]) -> Vec<u8> {
    words.iter().fold(vec![0; SIZE], |bytes, (at, value)| with(bytes, *at, *value))
}

/// Makes a call on an old area, and compares what it leaves.
fn play_old(manager: &Manager, area: &[u8], call: &Call, line: &str, left: &Left) -> Result<(), String> {
    let wanted = left.iter().flatten().fold(area.to_vec(), |bytes, (at, value)| with(bytes, *at, *value));
    let mut bytes = area.to_vec();
    let expected = model::call(&mut bytes, call, &mut Tally::default());
    as_said(&expected, line).map_err(|text| format!("model: {text}"))?;
    if bytes != wanted {
        return Err(format!("model: {}", difference(&bytes, &wanted)));
    }
    let mut lent = Lent::new(6, SIZE + 3, 0xEE);
    lent.area()[..SIZE].copy_from_slice(area);
    check(manager, &mut lent, &wanted, call, &expected)
}

/// Calls on an area that is sound or not.
fn play_area(manager: &Manager, area: &[u8], sound: bool) -> Result<u64, String> {
    let calls = [
        look(0, 0),
        borders(1, 0, 0),
        borders(1, 2, 3),
        TICK,
        tick_with(255),
        begin(1, 7, 50),
        begin(1, 7, u64::MAX),
        end(1, 0),
        read(1, 0, 7),
        unpin(0, 0, 7),
        view(3, 7),
        count(3),
    ];
    for call in calls {
        let mut lent = Lent::new(0, SIZE, 0xEE);
        lent.area().copy_from_slice(area);
        let mut bytes = area.to_vec();
        let expected = model::call(&mut bytes, &call, &mut Tally::default());
        if (expected == Outcome::refused(1)) == sound {
            return Err(format!("model: {expected:?}"));
        }
        check(manager, &mut lent, &bytes, &call, &expected)?;
    }
    Ok(calls.len() as u64)
}

/// Plays a case. If `old`, the area is written in the old layout before each call, where that has room
/// for it.
fn play_case(manager: &Manager, case: &Case, old: bool) -> Result<u64, String> {
    let mut lent = Lent::new(3, SIZE + 5, 0xEE);
    if let Some(state) = case.first_state() {
        lent.area()[..SIZE].copy_from_slice(&state.bytes());
    }
    for (number, (call, line)) in case.steps.iter().enumerate() {
        let fault = |text: String| format!("step {}: {text}", number + 1);
        let state = model::read(lent.state_bytes()).ok().filter(|_| old);
        if let Some(bytes) = state.and_then(|state| state.old_bytes()) {
            lent.area()[..SIZE].copy_from_slice(&bytes);
        }
        let mut bytes = lent.state_bytes().to_vec();
        let expected = model::call(&mut bytes, call, &mut Tally::default());
        as_said(&expected, line).map_err(|text| fault(format!("model: {text}")))?;
        check(manager, &mut lent, &bytes, call, &expected).map_err(fault)?;
    }
    Ok(case.steps.len() as u64)
}

/// Plays every case through a manager and through the model.
pub fn play_cases(manager: &Manager) -> Result<(), String> {
    println!(
        "cases: session S, M1 to M11, the borders, fills, the begin order, late clocks, old areas, the refusals; {}",
        manager.name
    );
    let mut made = 0;
    for case in cases() {
        for old in [false, true] {
            made += play_case(manager, &case, old).map_err(|text| {
                format!("cases: {}{}: {text}", case.name, if old { ", old areas" } else { "" })
            })?;
        }
    }
    // Refusal 1: an area of 100 bytes.
    let mut lent = Lent::new(0, 100, 0xEE);
    let before = lent.state_bytes().to_vec();
    let short = [start(1, 1), start(65, 256), begin(4, 8, 0), TICK, tick_with(255), count(9), borders(1, 0, 0)];
    for call in short {
        check(manager, &mut lent, &before, &call, &Outcome::refused(1))
            .map_err(|text| format!("cases: refusal 1: {text}"))?;
        let got = model::call(&mut before.clone(), &call, &mut Tally::default());
        if got != Outcome::refused(1) {
            return Err(format!("cases: refusal 1: model: {got:?}"));
        }
        made += 1;
    }
    let twins = areas().into_iter().map(|(name, area, sound)| (name.to_string(), area, sound, Some(sound)));
    for (name, area, new, old) in twins.chain(versions()) {
        made += play_area(manager, &area, new).map_err(|text| format!("cases: {name}: {text}"))?;
        if let Some(sound) = old {
            made += play_area(manager, &with(area, 8, 3), sound)
                .map_err(|text| format!("cases: {name}, version 3: {text}"))?;
        }
    }
    for (words, calls) in old_calls() {
        let area = area_of(words);
        for (call, line, left) in calls {
            play_old(manager, &area, &call, line, &left)
                .map_err(|text| format!("cases: old area at clock {}, {call:?}: {text}", word(&area, 32)))?;
            made += 1;
        }
    }
    for (name, calls, entries) in lists() {
        made += play_list(manager, &calls, &entries)
            .map_err(|text| format!("cases: list, {name}: {text}"))?;
    }
    for (name, calls, places) in orders() {
        made += play_order(manager, &calls, &places)
            .map_err(|text| format!("cases: order, {name}: {text}"))?;
    }
    println!("  {made} calls as documents 01 and 02 (T-01, T-02, T-04, T-06, T-07) say");
    Ok(())
}

#[cfg(test)]
mod tests {
    use super::*;
    use crate::model::Layout;
    use crate::waits;

    /// The model alone, on states, against the lines of the documents.
    fn play_model(name: &str) {
        let case = cases().into_iter().find(|case| case.name == name).unwrap();
        let mut state = case.first_state().unwrap_or(State::fresh(1, 1));
        for (number, (call, line)) in case.steps.iter().enumerate() {
            let before = state.clone();
            let outcome = state.call(call, &mut Tally::default());
            let said = as_said(&outcome, line);
            assert!(said.is_ok(), "{name}, step {}: {said:?}", number + 1);
            assert!(state.broken().is_empty(), "{name}, step {}", number + 1);
            if outcome.status == 0 && matches!(call, Call::Tick { .. }) {
                let judged =
                    waits::judge(&before, outcome.answer[1], &state, &mut Tally::default());
                assert_eq!(judged, Ok(()), "{name}, step {}", number + 1);
            }
            assert_eq!(model::read(&state.bytes()), Ok(state.clone()));
            if let Some(old) = state.old_bytes() {
                assert_eq!(model::read_either(&old), Ok(state.clone()));
                assert!(model::read(&old).is_err());
                assert!(model::read_as(Layout::Old, &state.bytes()).is_err());
            }
            if outcome.status != 0 {
                assert!(state == before, "{name}, step {}: a refused call changed the state", number + 1);
            }
        }
    }

    macro_rules! played {
        ($($test:ident: $($name:literal),+;)*) => {
            $(#[test] fn $test() { $(play_model($name);)+ })*
        };
    }

    played! {
        session_s: "session S";
        m1: "M1 64 slots", "M1 65 slots";
        m2: "M2 delay 255", "M2 delay 256";
        m3: "M3";
        m4: "M4";
        m5: "M5";
        m6: "M6 row 2 begun first", "M6 row 3 begun first";
        m7: "M7";
        m8: "M8 level 0 fetches", "M8 level 3 is ready";
        m9: "M9";
        m10: "M10";
        m11: "M11";
        refusal_2: "refusal 2";
        refusal_3: "refusal 3";
        refusals_4_to_7: "refusals 4 to 7";
        refusal_8: "refusal 8";
        refusal_9: "refusal 9";
        refusal_10: "refusal 10";
        refusal_11: "refusal 11";
        refusal_12: "refusal 12";
        refusal_13: "refusal 13";
        refusal_14: "refusal 14";
        refusal_15: "refusal 15";
        refusal_17: "refusal 17";
        refusal_19: "refusal 19";
        refusal_20:
            "refusal 20",
            "refusal 20 where the row has ended",
            "refusal 20 where the row is late";
        refusal_21:
            "refusal 21",
            "refusal 21 leaves fetching, waiting and late rows",
            "refusal 21 comes before 17";
        both_sides_of_a_border:
            "borders until set",
            "borders with classes of two pages",
            "borders of a small hospital",
            "borders with classes of one page";
        equal_borders:
            "borders with class 0 empty",
            "borders with class 1 empty",
            "borders with class 2 empty",
            "borders with class 3 empty",
            "borders 0 0 0",
            "borders 4096 4096 4096";
        when_borders_are_set:
            "borders set twice",
            "borders after a refused begin",
            "a refused start leaves the borders",
            "a start sets the borders back",
            "borders at the last clock";
        late_clocks:
            "clock 4,000,000,000 is passed",
            "2^32 is passed",
            "deadlines of 2^32 or more",
            "a dormant slot by the touch, across 2^32",
            "a held slot by the touch, across 2^32",
            "the longest delay at the last clock";
        readings:
            "a look answered fetch names no slot",
            "due and late on one tick leaves the page dirty",
            "a fetch due at its row's deadline is delivered, and the row is late one tick on",
            "fetching and waiting rows are live at their deadlines",
            "a waiting row is late one tick after its deadline, and is not tried then",
            "an end while fetching leaves a dormant page that arrives later, and a clean one",
            "a row's own unpinned slot can be taken";
        fills:
            "two rows wait for one slot, and the better one has it",
            "a better row's try kills a worse waiting row by its pin, and it is not tried",
            "a better row's try kills a worse waiting row by its slot",
            "best priority first: level, then deadline, then begin order",
            "a wait is ready at once by a seen page, and at level 3 by a dormant one",
            "a row is filled with the page that an earlier fill wrote back",
            "a try in vain leaves the row, and a worse row can be filled after it";
        equal_deadlines:
            "step 1: a row waits for a larger number that began earlier",
            "step 1: a row kills a smaller number that began later",
            "step 1: a row kills a larger number that began later",
            "choice e: the slot of a smaller number that began later",
            "choice e: not the slot of a larger number that began earlier",
            "choice c: the slot of the row begun last, a smaller number",
            "choice c: the slot of the row begun last, a larger number",
            "choice d: the slot of the row begun last, a smaller number",
            "choice d: the slot of the row begun last, a larger number",
            "choice e: the slot of the row begun last, a smaller number",
            "choice e: the slot of the row begun last, a larger number",
            "choice f: the slot of the row begun last, a smaller number",
            "choice f: the slot of the row begun last, a larger number",
            "the best holder of a slot is the one begun first, and keeps it",
            "the best holder of a slot is the one begun first, not the smallest number",
            "a tick tries the row begun first, a larger number, and the other waits on",
            "a row that ends and begins again comes last",
            "a killed row that ends and begins again comes last",
            "begins and ends of another level do not matter";
    }

    /// Those too that stand in no list above.
    #[test]
    fn all_cases() {
        cases().iter().for_each(|case| play_model(case.name));
    }

    #[test]
    fn places_row_by_row() {
        for (name, calls, places) in orders() {
            let mut state = State::fresh(1, 1);
            for call in calls {
                state.call(&call, &mut Tally::default());
            }
            assert_eq!(places_in(&state.bytes()), places, "{name}");
            assert_eq!(model::read(&state.bytes()), Ok(state), "{name}");
        }
    }

    /// Each way to break an order is named by itself.
    #[test]
    fn broken_orders() {
        let named = |name: &str| -> Vec<&'static str> {
            let areas = areas();
            let (_, bytes, _) = areas.iter().find(|(other, ..)| *other == name).unwrap();
            model::read(bytes).unwrap_err().into_iter().collect()
        };
        for (clause, names) in [
            (
                model::ORDER_FREE,
                &[
                    "order: a free row has the next place",
                    "order: a free row has the last of eight",
                    "order: a free row of another level has a place",
                    "order: every row free and a place",
                    "order: nothing begun and a place",
                ][..],
            ),
            (
                model::ORDER_NONE,
                &[
                    "order: an idle row has none",
                    "order: a waiting row has none",
                    "order: a late row has none",
                    "order: a taken row has none",
                    "order: one of two has none",
                    "order: the last of eight has none",
                ],
            ),
            (
                model::PLACE_TWICE,
                &[
                    "order: place 1 twice",
                    "order: place 2 twice",
                    "order: place 2 twice, and no third",
                ],
            ),
            (
                model::PLACE_GAP,
                &[
                    "order: from 2 on",
                    "order: 1 3",
                    "order: 3 1",
                    "order: place 8 of one row",
                    "order: counted over two levels",
                ],
            ),
            (
                model::PLACE_RANGE,
                &[
                    "order: place 9",
                    "order: place 9 of the last of eight",
                    "order: place 257",
                    "order: a place above 32 bits",
                    "order: the largest word",
                ],
            ),
        ] {
            for name in names {
                assert_eq!(named(name), [clause], "{name}");
            }
        }
        let both = [model::PLACE_GAP, model::PLACE_TWICE];
        assert_eq!(named("order: place 1 twice, and no second"), both);
        let both = [model::ORDER_FREE, model::PLACE_TWICE];
        assert_eq!(named("order: a free row has a taken place"), both);
        // A state may name a row again, an area may not.
        let mut state = State::fresh(1, 1);
        state.call(&begin(0, 0, 9), &mut Tally::default());
        state.joins((0, 0));
        assert_eq!(state.broken().into_iter().collect::<Vec<_>>(), [model::ORDER_AGAIN]);
    }

    /// What versions and late ticks break is named by itself.
    #[test]
    fn versions_and_late_ticks() {
        let named = |name: &str, version: u64| -> Vec<&'static str> {
            let versions = versions();
            let (_, bytes, ..) = versions.iter().find(|(other, ..)| other == name).unwrap();
            let bytes = if version == 3 { with(bytes.clone(), 8, 3) } else { bytes.clone() };
            model::read_either(&bytes).unwrap_err().into_iter().collect()
        };
        for name in ["version 2 of the layout, nothing begun", "version 0", "version 5", "version 4294967299"] {
            assert_eq!(named(name, 4), [model::VERSION], "{name}");
        }
        assert_eq!(named("two rows of version 2", 4), [model::ORDER_NONE]);
        assert_eq!(named("two rows of version 2", 3), [model::ORDER_NONE]);
        assert_eq!(named("clock 9000000000000000001", 4), [model::CLOCK_RANGE]);
        for name in ["clock 4000000001", "clock 4294967296", "clock 9000000000000000000"] {
            assert_eq!(named(name, 3), [model::OLD_CLOCK], "{name}");
        }
        assert_eq!(named("a deadline of 4294967296", 3), [model::OLD_DEADLINE]);
        assert_eq!(named("a deadline of 18446744073709551615", 3), [model::OLD_DEADLINE]);
        let due = ["a due tick of 4294967303 at clock 5", "a due tick of 18446744073709551615 at clock 5"];
        assert_eq!(named(due[0], 3), [model::OLD_DUE]);
        assert_eq!(named(due[1], 4), [model::FETCH_PIN]);
    }

    /// No area is sound in both layouts, and a state that the old one has no room for has no old bytes.
    #[test]
    fn layouts() {
        for (name, area, new, _) in versions() {
            let old = with(area.clone(), 8, 3);
            let read = [&area, &old].map(|area| {
                [Layout::New, Layout::Old].map(|layout| model::read_as(layout, area).ok())
            });
            assert_eq!(read[0][0].is_some(), new, "{name}");
            assert!(read[0][1].is_none() && read[1][0].is_none(), "{name}");
            if let Some(state) = &read[0][0] {
                assert_eq!(state.bytes(), area, "{name}");
                assert_eq!(state.old_bytes(), read[1][1].as_ref().map(|_| old), "{name}");
                assert_eq!(read[1][1].as_ref().unwrap_or(state), state, "{name}");
            }
        }
        for (words, calls) in old_calls() {
            let state = model::read_as(Layout::Old, &area_of(words)).unwrap();
            assert_eq!(state.old_bytes(), Some(area_of(words)));
            assert_eq!(state.bytes(), with(area_of(words), 8, 4));
            for (call, _, left) in calls {
                // Calls that may change something, and no others, make the area new.
                let outcome = state.clone().call(&call, &mut Tally::default());
                assert_eq!(left.is_some(), outcome.status == 0 && !call.asks(), "{call:?}");
            }
        }
    }

    #[test]
    fn lists_byte_by_byte() {
        for (name, calls, entries) in lists() {
            let mut state = State::fresh(1, 1);
            let (last, calls) = calls.split_last().unwrap();
            for call in calls {
                state.call(call, &mut Tally::default());
            }
            let outcome = state.call(last, &mut Tally::default());
            let Call::Tick { list: length } = *last else { panic!("{name}") };
            let list = model::list_after(last, &outcome, &vec![0xA5; length]);
            let mut wanted = entries.concat();
            wanted.resize(LIST, 0);
            wanted.resize(length, 0xA5);
            assert_eq!(list, wanted, "{name}");
        }
    }

    #[test]
    fn places_are_as_the_layout_says() {
        let mut state = State::fresh(1, 1);
        for call in [begin(0, 0, 9), begin(3, 7, 9), begin(0, 1, 9), begin(2, 0, 9)] {
            state.call(&call, &mut Tally::default());
        }
        let bytes = state.bytes();
        let mut expected = vec![0; 440];
        for (at, place) in [(72, 1), (80, 2), (200, 1), (320, 1)] {
            expected[at - 72] = place;
        }
        assert_eq!(bytes[72..512], expected);
    }

    #[test]
    fn m9_uses_the_same_slot() {
        let mut state = State::fresh(2, 1);
        let mut slots = Vec::new();
        for call in [begin(3, 0, 50), begin(0, 0, 60), read(3, 0, 7), TICK, write(0, 0, 7)] {
            let outcome = state.call(&call, &mut Tally::default());
            slots.extend((outcome.answer[2] != 0).then_some(outcome.answer[2]));
        }
        assert_eq!(slots, [1, 1]);
        assert_eq!(state.filled.len(), 1);
    }

    #[test]
    fn refusal_1() {
        for length in [0, 1, 100, 65_535] {
            let mut area = State::fresh(1, 1).bytes();
            area.truncate(length);
            for call in [start(1, 1), start(65, 256), TICK, tick_with(0), count(4), begin(4, 8, 0), borders(1, 0, 0)] {
                assert_eq!(model::call(&mut area, &call, &mut Tally::default()), Outcome::refused(1));
            }
        }
        // An unsound area is refused by every call but start.
        let mut area = vec![0; SIZE];
        assert_eq!(model::call(&mut area, &TICK, &mut Tally::default()), Outcome::refused(1));
        assert_eq!(model::call(&mut area, &tick_with(255), &mut Tally::default()), Outcome::refused(1));
        assert_eq!(area, vec![0; SIZE]);
        assert_eq!(model::call(&mut area, &start(1, 1), &mut Tally::default()), Outcome::said(STARTED, 0));
        assert_eq!(area, State::fresh(1, 1).bytes());
    }

    #[test]
    fn the_manager_agrees() {
        play_cases(&crate::MANAGER).unwrap();
        play_cases(&crate::plain::PLAIN).unwrap();
    }

    #[test]
    fn a_fresh_area_is_as_the_layout_says() {
        let bytes = State::fresh(64, 255).bytes();
        assert_eq!(bytes.len(), 65_536);
        assert_eq!(&bytes[..8], b"SABREBUF");
        let mut expected = vec![0; 65_536];
        expected[..8].copy_from_slice(b"SABREBUF");
        expected[8] = 4;
        expected[16] = 64;
        expected[24] = 255;
        expected[41] = 4;
        expected[49] = 8;
        expected[57] = 12;
        assert_eq!(bytes, expected);
        expected[8] = 3;
        assert_eq!(State::fresh(64, 255).old_bytes(), Some(expected));
    }
}
