//! How often the begin order decided between rows with equal level and deadline, and how often their
//! numbers, which decide nothing (T-06), would have decided otherwise.

use crate::model::{Choice, Pin, RowId, State, Tally};
use std::cmp::Reverse;
use std::collections::BTreeSet;

const STEP_1_WAITS: usize = 0;
const STEP_1_KILLS: usize = 1;
/// With choices d, e and f after it.
const C_SLOT: usize = 2;
const E_NONE_BETTER: usize = 6;
const F_NONE_BETTER: usize = 7;
const G_BETTER: usize = 8;
const BEST_HOLDER: usize = 9;
const TURNS: usize = 10;
const SERVED: usize = 11;

/// Where such rows meet. A good random run has all of them, both ways.
pub const WHERE: [&str; 12] = [
    "step 1: the row waits, for one that began earlier",
    "step 1: the row goes on, and kills one that began later",
    "choice c: which slot",
    "choice d: which slot",
    "choice e: which slot",
    "choice f: which slot",
    "choice e: no holder is better than the requester",
    "choice f: no holder is better than the requester",
    "choice g: in every slot left a holder is better than the requester",
    "choices c to f: who is the best holder of a slot",
    "tick: whose turn it is",
    "tick: which rows are served",
];

/// By the places of `WHERE`: how often the begin order decided, and how often of these the numbers
/// would have decided otherwise.
#[derive(Clone, Copy, Default)]
pub struct Ties(pub [[u64; 2]; WHERE.len()]);

impl Ties {
    fn note(&mut self, place: usize, otherwise: bool) {
        self.0[place][0] += 1;
        self.0[place][1] += otherwise as u64;
    }

    /// How often it decided at all, and how often the numbers would have decided otherwise.
    pub fn sum(&self) -> [u64; 2] {
        [0, 1].map(|at| self.0.iter().map(|times| times[at]).sum())
    }

    /// Prints the counts, and gives the names of those that are 0.
    pub fn print(&self) -> Vec<String> {
        println!("  equal level and deadline: decided by the begin order, of these otherwise by row number");
        let mut missing = Vec::new();
        for (name, [decided, otherwise]) in WHERE.iter().zip(self.0) {
            println!("    {decided:>9} {otherwise:>9}  {name}");
            if decided == 0 {
                missing.push(format!("{name}, by the begin order"));
            }
            if otherwise == 0 {
                missing.push(format!("{name}, otherwise by row number"));
            }
        }
        missing
    }
}

/// Level and deadline.
fn rank(state: &State, row: RowId) -> (u64, u64) {
    (row.0, state.rows[&row].deadline)
}

/// Two rows between which level and deadline do not decide.
fn equal(state: &State, one: RowId, other: RowId) -> bool {
    one != other && rank(state, one) == rank(state, other)
}

/// The same state, but that the rows of each level began in the order of their numbers.
fn by_number(state: &State) -> State {
    let mut other = state.clone();
    other.order.values_mut().for_each(|order| order.sort_unstable());
    other
}

/// Step 1, before it is known whether the row waits. The others have conflicting pins.
pub fn note_step_1(state: &State, me: RowId, others: &[RowId], tally: &mut Tally) {
    let Some(ties) = &mut tally.ties else { return };
    if others.iter().any(|row| rank(state, *row) < rank(state, me)) {
        return;
    }
    let equals: Vec<RowId> =
        others.iter().copied().filter(|row| equal(state, *row, me)).collect();
    if equals.is_empty() {
        return;
    }
    let waits = equals.iter().any(|row| state.better(*row, me));
    let by_number = equals.iter().any(|row| row.1 < me.1);
    ties.note(if waits { STEP_1_WAITS } else { STEP_1_KILLS }, waits != by_number);
}

/// The slots among which c, d, e or f takes one.
pub fn note_slots(state: &State, slots: &[u64], step: char, tally: &mut Tally) {
    let Some(ties) = &mut tally.ties else { return };
    let rank_of = |slot: &u64| rank(state, state.best_holder(*slot));
    let worst = slots.iter().map(rank_of).max().unwrap();
    let left: Vec<u64> = slots.iter().copied().filter(|slot| rank_of(slot) == worst).collect();
    if left.len() == 1 {
        return;
    }
    let other = by_number(state);
    let best: BTreeSet<RowId> = left.iter().map(|slot| state.best_holder(*slot)).collect();
    let [taken, taken_by_number] =
        [state, &other].map(|state| state.worst_of(slots.to_vec(), step, &mut Tally::default()));
    let otherwise = taken != taken_by_number;
    // Where the best holder is one row, the order may have decided that it is.
    if best.len() > 1 || otherwise {
        let place = ['c', 'd', 'e', 'f'].iter().position(|letter| *letter == step).unwrap();
        ties.note(C_SLOT + place, otherwise);
    }
    let shared: Vec<u64> = left
        .into_iter()
        .filter(|slot| {
            let best = state.best_holder(*slot);
            state.holders(*slot).iter().any(|(row, _)| equal(state, *row, best))
        })
        .collect();
    if !shared.is_empty() {
        let otherwise = shared.iter().any(|slot| state.best_holder(*slot) != other.best_holder(*slot));
        ties.note(BEST_HOLDER, otherwise);
    }
}

/// What e, f and g found of holders that are better than the requester.
pub fn note_choice(state: &State, me: RowId, choice: Choice, tally: &mut Tally) {
    let Some(ties) = &mut tally.ties else { return };
    match choice {
        Choice::Slot(slot, step @ ('e' | 'f')) => {
            let holders = state.holders(slot);
            let equals: Vec<RowId> =
                holders.iter().map(|(row, _)| *row).filter(|row| equal(state, *row, me)).collect();
            if !equals.is_empty() {
                let place = if step == 'e' { E_NONE_BETTER } else { F_NONE_BETTER };
                ties.note(place, equals.iter().any(|row| row.1 < me.1));
            }
        }
        Choice::Nowhere => {
            // Whether a slot would do, if rows with the requester's deadline were not better.
            let would_do = |slot: u64| {
                state.holders(slot).iter().all(|(row, holding)| {
                    rank(state, *row) >= rank(state, me) && (*row != me || holding.pin == Pin::None)
                })
            };
            if (0..state.slots).any(would_do) {
                let chosen = by_number(state).choose(me, &mut Tally::default());
                ties.note(G_BETTER, chosen != Choice::Nowhere);
            }
        }
        Choice::Slot(..) => {}
    }
}

/// The waiting rows in the turn in which a tick tries them.
pub fn note_turns(state: &State, turns: &[RowId], tally: &mut Tally) {
    let Some(ties) = &mut tally.ties else { return };
    if !turns.windows(2).any(|pair| equal(state, pair[0], pair[1])) {
        return;
    }
    let mut numbered = turns.to_vec();
    numbered.sort_by_key(|row| (rank(state, *row), row.1));
    let mut turned = turns.to_vec();
    turned.sort_by_key(|row| (rank(state, *row), Reverse(state.priority(*row))));
    ties.note(TURNS, numbered != turns);
    let left = |turns: &[RowId]| {
        let mut after = state.clone();
        after.try_in_turn(turns, &mut Tally::default());
        after.rows
    };
    let rows = left(turns);
    let otherwise = left(&numbered) != rows;
    if otherwise || left(&turned) != rows {
        ties.note(SERVED, otherwise);
    }
}
