//! T-05 of document 02: which rows wait after an accepted tick, and what becomes of the best live row.
//! It is judged by that text. What is better, conflicts and is seen is said here again, so that the
//! model's own choices are judged too.

use crate::model::{Cause, Condition, Mode, Pin, RowId, State, Tally};

const WAITS: &str = "waits after an accepted tick";
const PINNED_BELOW: &str = "waits: a row of lower level pins the page, no better one of its own";
const PINNED_BESIDE: &str =
    "waits: a better row of its own level pins the page, none of lower level";
const KEPT_BELOW: &str = "waits: a slot is kept by a row of lower level alone";
const KEPT_BESIDE: &str = "waits: a slot is kept by a better row of its own level alone";
const KEPT_ITSELF: &str = "waits: a slot is kept by a pin of its own alone";
const KEPT_EACH_WAY: &str = "waits: slots are kept in each of the three ways alone";
const BEST_IDLE: &str = "the best row waited: idle";
const BEST_FETCHING: &str = "the best row waited: fetching";
const BEST_LATE: &str = "the best row waited: late";
const BEST_PINS_ALL: &str = "the best row waited: waits on and pins every slot";

/// All that is noted here. A good random run has them all.
pub const CASES: &[&str] = &[
    WAITS,
    PINNED_BELOW,
    PINNED_BESIDE,
    KEPT_BELOW,
    KEPT_BESIDE,
    KEPT_ITSELF,
    KEPT_EACH_WAY,
    BEST_IDLE,
    BEST_FETCHING,
    BEST_LATE,
    BEST_PINS_ALL,
];

/// Of two rows of a level, the one that its begin order names first began earlier.
fn began_earlier(state: &State, one: RowId, other: RowId) -> bool {
    let mut order = state.order[&one.0].iter();
    order.find(|number| **number == one.1 || **number == other.1) == Some(&one.1)
}

/// The better row has the lower level, at one level the earlier deadline, then the earlier begin.
fn outranks(state: &State, one: RowId, other: RowId) -> bool {
    let (first, second) = (state.rows[&one].deadline, state.rows[&other].deadline);
    if one.0 != other.0 {
        one.0 < other.0
    } else if first != second {
        first < second
    } else {
        one != other && began_earlier(state, one, other)
    }
}

/// The mode's pin and a pin of another row: either is write, and a holding without a pin is none.
fn in_conflict(pin: Pin, mode: Mode) -> bool {
    match pin {
        Pin::None => false,
        Pin::Read => mode == Mode::Write,
        Pin::Write => true,
    }
}

/// A view of the page as the level would be answered unseen.
fn unseen(state: &State, level: u64, page: u64) -> bool {
    let mut slots = state.filled.iter().filter(|(_, slot)| slot.page == page);
    slots.all(|(number, _)| {
        let holders = state.holders(*number);
        let held = holders.iter().any(|(row, _)| row.0 <= level);
        let dormant = holders.is_empty();
        !held && !(dormant && level == 3)
    })
}

/// Who keeps a page or a slot from a row that waits.
#[derive(Clone, Copy, Default, PartialEq, Eq)]
struct Kept {
    by_lower_level: bool,
    by_own_level: bool,
    by_itself: bool,
}

const BELOW: Kept = Kept { by_lower_level: true, by_own_level: false, by_itself: false };
const BESIDE: Kept = Kept { by_lower_level: false, by_own_level: true, by_itself: false };
const ITSELF: Kept = Kept { by_lower_level: false, by_own_level: false, by_itself: true };

/// Better rows that the row sees pin the page in conflict with the mode.
fn page_kept(state: &State, me: RowId, page: u64, mode: Mode) -> Kept {
    let mut kept = Kept::default();
    for (number, slot) in &state.filled {
        if slot.page != page {
            continue;
        }
        for (row, holding) in state.holders(*number) {
            let seen = row.0 <= me.0;
            if row != me && seen && outranks(state, row, me) && in_conflict(holding.pin, mode) {
                kept.by_lower_level |= row.0 < me.0;
                kept.by_own_level |= row.0 == me.0;
            }
        }
    }
    kept
}

/// The slot is held by a row of lower level or by a better row of the row's own, or the row pins it.
fn slot_kept(state: &State, me: RowId, slot: u64) -> Kept {
    let mut kept = Kept::default();
    for (row, holding) in state.holders(slot) {
        if row == me {
            kept.by_itself |= holding.pin == Pin::Read || holding.pin == Pin::Write;
        } else if row.0 < me.0 {
            kept.by_lower_level = true;
        } else if row.0 == me.0 && outranks(state, row, me) {
            kept.by_own_level = true;
        }
    }
    kept
}

/// Each row that waits after a tick has a reason.
fn judge_waiting(after: &State, tally: &mut Tally) -> Result<(), String> {
    for (id, row) in &after.rows {
        let Condition::Waiting { page, mode } = row.condition else { continue };
        tally.note(WAITS);
        let by = page_kept(after, *id, page, mode);
        if by != Kept::default() {
            if by == BELOW {
                tally.note(PINNED_BELOW);
            } else if by == BESIDE {
                tally.note(PINNED_BESIDE);
            }
            continue;
        }
        if !unseen(after, id.0, page) {
            return Err(format!(
                "row {id:?} waits for page {page}, which it sees and no better row pins in conflict"
            ));
        }
        let slots: Vec<Kept> = (0..after.slots).map(|slot| slot_kept(after, *id, slot)).collect();
        if let Some(slot) = slots.iter().position(|kept| *kept == Kept::default()) {
            return Err(format!(
                "row {id:?} waits for page {page}, and slot {slot} is not kept from it"
            ));
        }
        let ways = [BELOW, BESIDE, ITSELF].map(|way| slots.contains(&way));
        for (found, case) in ways.iter().zip([KEPT_BELOW, KEPT_BESIDE, KEPT_ITSELF]) {
            if *found {
                tally.note(case);
            }
        }
        if ways == [true; 3] {
            tally.note(KEPT_EACH_WAY);
        }
    }
    Ok(())
}

/// The live row that outranks every other live row.
pub fn best_live(state: &State) -> Option<RowId> {
    let live: Vec<RowId> =
        state.rows.iter().filter(|(_, row)| row.live()).map(|(id, _)| *id).collect();
    live.iter()
        .copied()
        .find(|one| live.iter().all(|other| other == one || outranks(state, *one, *other)))
}

/// What becomes of the best live row if it waits before the tick. The clock is the one told.
fn judge_best(before: &State, clock: u64, after: &State, tally: &mut Tally) -> Result<(), String> {
    let Some(best) = best_live(before) else { return Ok(()) };
    let row = before.rows[&best];
    if !matches!(row.condition, Condition::Waiting { .. }) {
        return Ok(());
    }
    let pinned = |slot| {
        matches!(
            after.holdings.get(&(slot, best)).map(|holding| holding.pin),
            Some(Pin::Read | Pin::Write)
        )
    };
    let left = after.rows[&best].condition;
    tally.note(match left {
        Condition::Idle => BEST_IDLE,
        Condition::Fetching { .. } => BEST_FETCHING,
        Condition::Killed(Cause::Late) if row.deadline < clock => BEST_LATE,
        Condition::Waiting { .. } if (0..after.slots).all(pinned) => BEST_PINS_ALL,
        _ => {
            return Err(format!(
                "row {best:?}, {row:?}, was the best before the tick to {clock}, and is {left:?}"
            ))
        }
    });
    Ok(())
}

/// T-05 for an accepted tick that told this clock.
pub fn judge(before: &State, clock: u64, after: &State, tally: &mut Tally) -> Result<(), String> {
    judge_waiting(after, tally).map_err(|text| format!("T-05: {text}"))?;
    judge_best(before, clock, after, tally).map_err(|text| format!("T-05: {text}"))
}

/// How many rows were judged since they waited after a tick, and how many as the best before it.
pub fn judged(tally: &Tally) -> (u64, u64) {
    let best = [BEST_IDLE, BEST_FETCHING, BEST_LATE, BEST_PINS_ALL];
    (tally.of(WAITS), best.iter().map(|case| tally.of(case)).sum())
}

#[cfg(test)]
mod tests {
    use super::*;
    use crate::model::{Holding, Row, Slot};

    const CLOCK: u64 = 5;

    /// So many slots, with these pages from slot 0 on, all arrived and nobody's.
    fn state(slots: u64, pages: &[u64]) -> State {
        let mut state = State::fresh(slots, 1);
        state.clock = CLOCK;
        state.begun = true;
        for (number, page) in (0..).zip(pages) {
            let slot = Slot { page: *page, arrival: 1, dirty: false, lowest: 0, touch: CLOCK };
            state.filled.insert(number, slot);
        }
        state
    }

    /// An idle row with these holdings, begun after those of its level that are there.
    fn idle(mut state: State, id: RowId, deadline: u64, held: &[(u64, Pin)]) -> State {
        if state.rows[&id] == Row::FREE {
            state.joins(id);
        }
        state.rows.insert(id, Row { condition: Condition::Idle, deadline });
        for (slot, pin) in held {
            state.holdings.insert((*slot, id), Holding { pin: *pin, arrival: 1, touch: 1 });
        }
        state
    }

    /// A waiting row with these holdings.
    fn waiting(
        state: State,
        id: RowId,
        deadline: u64,
        held: &[(u64, Pin)],
        page: u64,
        mode: Mode,
    ) -> State {
        let mut state = idle(state, id, deadline, held);
        state.rows.get_mut(&id).unwrap().condition = Condition::Waiting { page, mode };
        state
    }

    /// The same, with the row begun before the others of its level.
    fn begun_first(mut state: State, id: RowId) -> State {
        let order = state.order.get_mut(&id.0).unwrap();
        order.retain(|number| *number != id.1);
        order.insert(0, id.1);
        state
    }

    /// What is noted of a sound state's waiting rows.
    fn noted(state: &State) -> Vec<&'static str> {
        let broken = state.broken();
        assert!(broken.is_empty(), "{broken:?}");
        let mut tally = Tally::default();
        judge_waiting(state, &mut tally).unwrap();
        assert_eq!(tally.events.remove(WAITS), Some(1));
        tally.events.keys().copied().collect()
    }

    /// What is reported of a sound state's waiting rows.
    fn reported(state: &State) -> String {
        let broken = state.broken();
        assert!(broken.is_empty(), "{broken:?}");
        judge_waiting(state, &mut Tally::default()).unwrap_err()
    }

    const SEES: &str = "which it sees";

    fn not_kept(slot: u64) -> String {
        format!("slot {slot} is not kept")
    }

    // A better row pins the page. Row 1 of level 0 waits for page 7, which is in slot 0 of 2. The other
    // row began first.

    fn behind(other: RowId, deadline: u64, pin: Pin, mode: Mode) -> State {
        waiting(idle(state(2, &[7]), other, deadline, &[(0, pin)]), (0, 1), 20, &[], 7, mode)
    }

    #[test]
    fn a_better_row_of_the_own_level_pins() {
        assert_eq!(noted(&behind((0, 0), 10, Pin::Read, Mode::Write)), [PINNED_BESIDE]);
        assert_eq!(noted(&behind((0, 0), 10, Pin::Write, Mode::Read)), [PINNED_BESIDE]);
        assert_eq!(noted(&behind((0, 0), 10, Pin::Write, Mode::Write)), [PINNED_BESIDE]);
        assert_eq!(noted(&behind((0, 7), 19, Pin::Write, Mode::Write)), [PINNED_BESIDE]);
        assert_eq!(noted(&behind((0, 0), 20, Pin::Write, Mode::Write)), [PINNED_BESIDE]);
        assert_eq!(noted(&behind((0, 7), 20, Pin::Write, Mode::Write)), [PINNED_BESIDE]);
    }

    #[test]
    fn a_row_of_lower_level_pins() {
        let state = idle(state(2, &[1024]), (0, 7), 90, &[(0, Pin::Write)]);
        let reads = waiting(state.clone(), (1, 0), 10, &[], 1024, Mode::Read);
        assert_eq!(noted(&reads), [PINNED_BELOW]);
        assert_eq!(noted(&waiting(state, (1, 0), 10, &[], 1024, Mode::Write)), [PINNED_BELOW]);
    }

    #[test]
    fn a_pin_that_does_not_conflict() {
        assert!(reported(&behind((0, 0), 10, Pin::Read, Mode::Read)).contains(SEES));
        assert!(reported(&behind((0, 0), 10, Pin::None, Mode::Write)).contains(SEES));
    }

    #[test]
    fn a_worse_pinner() {
        assert!(reported(&behind((0, 0), 21, Pin::Write, Mode::Write)).contains(SEES));
        for number in [0, 2] {
            let later = begun_first(behind((0, number), 20, Pin::Write, Mode::Write), (0, 1));
            assert!(reported(&later).contains(SEES));
        }
    }

    #[test]
    fn killed_rows_and_other_levels_stand_beside_the_order() {
        // Row 5 began before both and is killed; row 0 of level 1 began before all.
        let mut state = behind((0, 7), 20, Pin::Write, Mode::Write);
        state.rows.insert((0, 5), Row { condition: LATE, deadline: 0 });
        let state = begun_first(idle(state, (1, 0), 20, &[]), (0, 5));
        assert_eq!(noted(&state), [PINNED_BESIDE]);
        assert!(reported(&begun_first(state, (0, 1))).contains(SEES));
    }

    #[test]
    fn a_pinner_of_a_higher_level() {
        // The page is seen by row 0, which has no pin.
        let seen = behind((0, 0), 10, Pin::None, Mode::Write);
        assert!(reported(&idle(seen, (1, 0), 6, &[(0, Pin::Read)])).contains(SEES));
        // The page is unseen, and slot 0 is held by level 1 alone.
        let hidden = behind((1, 0), 6, Pin::Read, Mode::Write);
        assert!(reported(&hidden).contains(&not_kept(0)));
    }

    #[test]
    fn a_pin_of_its_own() {
        let state = waiting(state(1, &[7]), (0, 1), 20, &[(0, Pin::Read)], 7, Mode::Write);
        assert!(reported(&state).contains(SEES));
    }

    #[test]
    fn a_pin_on_another_page() {
        let state = idle(state(2, &[7, 8]), (0, 0), 10, &[(0, Pin::None), (1, Pin::Write)]);
        assert!(reported(&waiting(state, (0, 1), 20, &[], 7, Mode::Write)).contains(SEES));
    }

    // Every slot is kept. Row 1 of level 1 waits for page 10, its deadline is 20; slots 0, 1 and 2 have
    // the pages 7, 8 and 9.

    /// With the holding of slot 0, of slot 1, and the row's own of slot 2.
    fn kept(first: (RowId, u64, Pin), second: (RowId, u64, Pin), own: Option<Pin>) -> State {
        let mut full = state(3, &[7, 8, 9]);
        for (slot, (id, deadline, pin)) in [(0, first), (1, second)] {
            full = idle(full, id, deadline, &[(slot, pin)]);
        }
        let own: Vec<(u64, Pin)> = own.iter().map(|pin| (2, *pin)).collect();
        waiting(full, (1, 1), 20, &own, 10, Mode::Read)
    }

    const LOWER: (RowId, u64, Pin) = ((0, 7), 90, Pin::None);
    const BETTER: (RowId, u64, Pin) = ((1, 0), 20, Pin::None);

    #[test]
    fn every_slot_is_kept() {
        let all = [KEPT_BESIDE, KEPT_ITSELF, KEPT_BELOW, KEPT_EACH_WAY];
        assert_eq!(noted(&kept(LOWER, BETTER, Some(Pin::Read))), all);
        // Others that hold them beside do not count.
        let mut worse = kept(LOWER, BETTER, Some(Pin::Read));
        for slot in 0..3 {
            worse = idle(worse, (1, 2), 20, &[(slot, Pin::Read)]);
            worse = idle(worse, (3, 0), 6, &[(slot, Pin::Read)]);
        }
        assert_eq!(noted(&worse), all);
    }

    #[test]
    fn some_slot_is_not_kept() {
        let full = kept(LOWER, BETTER, Some(Pin::Read));
        // a dormant slot, an empty one, one more than those that are filled
        for slot in 0..3 {
            let mut dormant = full.clone();
            dormant.holdings.retain(|(number, _), _| *number != slot);
            assert!(reported(&dormant).contains(&not_kept(slot)));
            dormant.filled.remove(&slot);
            assert!(reported(&dormant).contains(&not_kept(slot)));
        }
        let mut more = full;
        more.slots = 4;
        assert!(reported(&more).contains(&not_kept(3)));
    }

    #[test]
    fn a_worse_holder_of_the_own_level() {
        for pin in [Pin::None, Pin::Read] {
            let later = kept(LOWER, ((1, 0), 21, pin), Some(Pin::Read));
            assert!(reported(&later).contains(&not_kept(1)));
            for number in [0, 2] {
                let earlier = kept(LOWER, ((1, number), 20, pin), Some(Pin::Read));
                assert!(noted(&earlier).contains(&KEPT_BESIDE));
                assert!(reported(&begun_first(earlier, (1, 1))).contains(&not_kept(1)));
            }
        }
    }

    #[test]
    fn a_holder_of_a_higher_level() {
        for pin in [Pin::None, Pin::Read] {
            let above = kept(((2, 0), 6, pin), BETTER, Some(Pin::Read));
            assert!(reported(&above).contains(&not_kept(0)));
        }
    }

    #[test]
    fn an_own_holding_without_a_pin() {
        assert!(reported(&kept(LOWER, BETTER, Some(Pin::None))).contains(&not_kept(2)));
        assert!(reported(&kept(LOWER, BETTER, None)).contains(&not_kept(2)));
    }

    #[test]
    fn a_page_that_is_seen() {
        // Each of the three pages is seen by level 1, and no pin on it conflicts.
        for page in 7..10 {
            let mut seen = kept(LOWER, BETTER, Some(Pin::Read));
            seen.rows.get_mut(&(1, 1)).unwrap().condition =
                Condition::Waiting { page, mode: Mode::Read };
            assert!(reported(&seen).contains(SEES));
        }
    }

    #[test]
    fn a_dormant_page() {
        // Level 3 sees it, level 0 does not.
        let dormant = state(1, &[7]);
        let third = waiting(dormant.clone(), (3, 0), 9, &[], 7, Mode::Read);
        assert!(reported(&third).contains(SEES));
        let desk = waiting(dormant, (0, 0), 9, &[], 7, Mode::Read);
        assert!(reported(&desk).contains(&not_kept(0)));
    }

    // The best live row. Row 1 of level 0 waits for page 9 before the tick, its deadline is 20.

    fn before() -> State {
        let full = idle(state(2, &[7, 8]), (0, 2), 30, &[(0, Pin::Read), (1, Pin::Read)]);
        let full = idle(full, (1, 0), 6, &[]);
        waiting(full, (0, 1), 20, &[], 9, Mode::Read)
    }

    /// The row's condition and holdings after the tick.
    fn after(condition: Condition, held: &[(u64, Pin)]) -> State {
        let mut state = idle(before(), (0, 1), 20, held);
        state.clock += 1;
        state.rows.get_mut(&(0, 1)).unwrap().condition = condition;
        state
    }

    fn best_noted(before: &State, clock: u64, after: &State) -> Vec<&'static str> {
        let mut tally = Tally::default();
        judge_best(before, clock, after, &mut tally).unwrap();
        tally.events.keys().copied().collect()
    }

    fn best_reported(before: &State, clock: u64, after: &State) {
        let found = judge_best(before, clock, after, &mut Tally::default());
        assert!(found.unwrap_err().contains("was the best before the tick"));
    }

    const STILL: Condition = Condition::Waiting { page: 9, mode: Mode::Read };
    const LATE: Condition = Condition::Killed(Cause::Late);
    const PINNED: (u64, Pin) = (0, Pin::Read);

    #[test]
    fn the_best_row_is_served() {
        assert_eq!(best_noted(&before(), 6, &after(Condition::Idle, &[])), [BEST_IDLE]);
        let fetching = after(Condition::Fetching { due: 7 }, &[]);
        assert_eq!(best_noted(&before(), 6, &fetching), [BEST_FETCHING]);
    }

    #[test]
    fn the_best_row_is_late() {
        assert_eq!(best_noted(&before(), 21, &after(LATE, &[])), [BEST_LATE]);
        best_reported(&before(), 20, &after(LATE, &[]));
    }

    #[test]
    fn the_best_row_pins_every_slot() {
        for pin in [Pin::Read, Pin::Write] {
            let pins = after(STILL, &[PINNED, (1, pin)]);
            assert_eq!(best_noted(&before(), 6, &pins), [BEST_PINS_ALL]);
        }
        best_reported(&before(), 6, &after(STILL, &[]));
        best_reported(&before(), 6, &after(STILL, &[PINNED]));
        best_reported(&before(), 6, &after(STILL, &[PINNED, (1, Pin::None)]));
        let mut third = after(STILL, &[PINNED, (1, Pin::Read)]);
        third.slots = 3;
        best_reported(&before(), 6, &third);
    }

    #[test]
    fn the_best_row_is_taken_or_free() {
        best_reported(&before(), 6, &after(Condition::Killed(Cause::Taken), &[]));
        best_reported(&before(), 21, &after(Condition::Killed(Cause::Taken), &[]));
        best_reported(&before(), 6, &after(Condition::Free, &[]));
    }

    #[test]
    fn only_the_best_row_that_waits_is_judged() {
        let left = after(Condition::Killed(Cause::Taken), &[]);
        // a better row lives
        let second = idle(before(), (0, 7), 19, &[]);
        assert!(best_noted(&second, 6, &left).is_empty());
        let second = idle(before(), (0, 7), 20, &[]);
        assert!(best_noted(&begun_first(second, (0, 7)), 6, &left).is_empty());
        // one of equal deadline that began later is not better
        best_reported(&idle(before(), (0, 0), 20, &[]), 6, &left);
        // the best row is idle
        let served = idle(before(), (0, 1), 20, &[]);
        assert!(best_noted(&served, 6, &left).is_empty());
        // rows that are not live have no rank
        let mut killed = before();
        killed.rows.insert((0, 0), Row { condition: LATE, deadline: 0 });
        best_reported(&begun_first(killed, (0, 0)), 6, &left);
    }
}
