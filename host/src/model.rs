//! A model of documents 01 and 02 (T-01, T-02, T-04, T-06, T-07), written from their text with maps and
//! lists. It is meant to be read beside the documents, not to be fast.

use crate::calls::*;
use crate::ties;
use std::collections::{BTreeMap, BTreeSet};

/// Level and row number.
pub type RowId = (u64, u64);

#[derive(Clone, Copy, Debug, PartialEq, Eq)]
pub enum Mode {
    Read,
    Write,
}

/// In order of strength.
#[derive(Clone, Copy, Debug, PartialEq, Eq, PartialOrd, Ord)]
pub enum Pin {
    None,
    Read,
    Write,
}

#[derive(Clone, Copy, Debug, PartialEq, Eq)]
pub enum Cause {
    Late,
    Taken,
}

#[derive(Clone, Copy, Debug, PartialEq, Eq)]
pub enum Condition {
    Free,
    Idle,
    Fetching { due: u64 },
    Waiting { page: u64, mode: Mode },
    Killed(Cause),
}

/// The deadline is 0 in a row that is not live.
#[derive(Clone, Copy, Debug, PartialEq, Eq)]
pub struct Row {
    pub condition: Condition,
    pub deadline: u64,
}

#[derive(Clone, Copy, Debug, PartialEq, Eq)]
pub struct Slot {
    pub page: u64,
    pub arrival: u64,
    pub dirty: bool,
    pub lowest: u64,
    pub touch: u64,
}

#[derive(Clone, Copy, Debug, PartialEq, Eq)]
pub struct Holding {
    pub pin: Pin,
    pub arrival: u64,
    pub touch: u64,
}

#[derive(Clone, Debug, PartialEq, Eq)]
pub struct State {
    pub slots: u64,
    pub delay: u64,
    pub clock: u64,
    /// The first, the second and the third.
    pub borders: [u64; 3],
    /// A row has begun since start.
    pub begun: bool,
    pub rows: BTreeMap<RowId, Row>,
    /// The begin order of each level: the numbers of its rows that are not free, the first begun first.
    pub order: BTreeMap<u64, Vec<u64>>,
    /// The filled slots.
    pub filled: BTreeMap<u64, Slot>,
    pub holdings: BTreeMap<(u64, RowId), Holding>,
}

/// The largest 32-bit number, the last tick that the last 32-bit layout has room for.
pub const SHORT: u64 = u32::MAX as u64;

/// The borders until others are set.
pub const FIRST_BORDERS: [u64; 3] = [1024, 2048, 3072];

/// Class 0 lies below the first border, class 1 below the second, class 2 below the third, class 3
/// at or above it.
fn class(borders: [u64; 3], page: u64) -> u64 {
    let [first, second, third] = borders;
    if page < first {
        0
    } else if page < second {
        1
    } else if page < third {
        2
    } else {
        3
    }
}

fn allowed(borders: [u64; 3], level: u64, page: u64, mode: Mode) -> bool {
    match mode {
        Mode::Read => level >= class(borders, page),
        Mode::Write => level <= class(borders, page),
    }
}

fn fall(borders: [u64; 3]) -> bool {
    let [first, second, third] = borders;
    first > second || second > third
}

fn exceed(borders: [u64; 3]) -> bool {
    borders.iter().any(|border| *border > 4096)
}

/// A priority as it would be by the lower half of the deadline.
fn low_deadline((level, deadline, before): (u64, u64, usize)) -> (u64, u64, usize) {
    (level, deadline & SHORT, before)
}

/// Two pins of different rows conflict if either is write.
fn conflict(one: Pin, other: Pin) -> bool {
    one != Pin::None && other != Pin::None && (one == Pin::Write || other == Pin::Write)
}

/// A deadline is missed when it has passed: the clock is above it.
fn missed(deadline: u64, clock: u64) -> bool {
    clock > deadline
}

fn pin_of(mode: Mode) -> Pin {
    match mode {
        Mode::Read => Pin::Read,
        Mode::Write => Pin::Write,
    }
}

impl Row {
    pub const FREE: Row = Row { condition: Condition::Free, deadline: 0 };

    pub fn live(&self) -> bool {
        matches!(
            self.condition,
            Condition::Idle | Condition::Fetching { .. } | Condition::Waiting { .. }
        )
    }
}

/// Of the refusals that apply the smallest number is given, but 21 stands between 1 and 17.
fn given(found: &BTreeSet<u32>) -> Option<u32> {
    found.iter().copied().min_by_key(|number| if *number == 21 { (1, 21) } else { (*number, 0) })
}

/// How often each thing happened.
#[derive(Clone, Default)]
pub struct Tally {
    pub kinds: [u64; 10],
    pub words: [u64; 20],
    pub refusals: [u64; 22],
    pub events: BTreeMap<&'static str, u64>,
    /// Nothing where they are not counted, which takes time.
    pub ties: Option<ties::Ties>,
}

impl Tally {
    pub fn with_ties() -> Tally {
        Tally { ties: Some(ties::Ties::default()), ..Tally::default() }
    }

    pub fn note(&mut self, event: &'static str) {
        *self.events.entry(event).or_insert(0) += 1;
    }

    pub fn outcome(&mut self, call: &Call, outcome: &Outcome) {
        self.kinds[call.kind()] += 1;
        self.words[outcome.answer[0] as usize] += 1;
        if outcome.status != 0 {
            self.refusals[outcome.status as usize] += 1;
        }
    }

    pub fn of(&self, event: &str) -> u64 {
        self.events.get(event).copied().unwrap_or(0)
    }
}

/// Everything that the model notes of borders, begins, ends, requests, kills and ticks. A good random
/// run has them all.
pub const EVENTS: &[&str] = &[
    "borders: set in place of 1,024, 2,048 and 3,072",
    "borders: set in place of others",
    "borders: set after a tick",
    "borders: an empty class",
    "borders: every page in one class",
    "borders: refused 19 after a begin",
    "borders: refused 20 with every row free",
    "begin: the first, under set borders",
    "begin: the deadline is the clock",
    "begin: a deadline of 2^32 or more",
    "begin: after a row of a larger number of its level",
    "begin: the last of eight",
    "end: the first in the order, before others",
    "end: between others in the order",
    "end: the last in the order, after others",
    "end: a killed row before others in the order",
    "request: refused 13 by set borders alone",
    "request: refused 14 by set borders alone",
    "request: let in by set borders alone",
    "step 1: ready",
    "step 1: fetch",
    "step 1: wait",
    "step 1: kills a seen row",
    "step 1: kills a hidden row",
    "step 1: waits or not, by the lower halves of deadlines otherwise",
    "step 1: own holding",
    "step 1: own pin made stronger",
    "step 2: ready",
    "step 2: fetch",
    "step 3: hidden page, no kill",
    "step 3: hidden page, kills",
    "step 3: dormant page below level 3",
    "step 3: page in no slot",
    "choice a",
    "choice b",
    "choice c",
    "choice d",
    "choice e",
    "choice f",
    "choice g",
    "b decided by lowest level",
    "b decided by dirty mark",
    "b decided by touch",
    "b decided by touch, by its lower half otherwise",
    "b decided by slot number",
    "c decided by priority",
    "c decided by touch",
    "c decided by page",
    "d decided by priority",
    "d decided by touch",
    "d decided by page",
    "e decided by priority",
    "e decided by touch",
    "e decided by page",
    "f decided by priority",
    "f decided by touch",
    "f decided by page",
    "c to f decided by touch, by its lower half otherwise",
    "c to f decided by priority, by the lower halves of deadlines otherwise",
    "e takes the requester's own slot",
    "f takes a slot that the requester holds",
    "chosen slot: a pinning row of a higher level killed in e or f",
    "chosen slot: a holder keeps its row",
    "write-back of a page dirty before",
    "write-back of a page made dirty by the kill",
    "killed as late",
    "killed as taken",
    "killed fetching",
    "killed waiting",
    "killed with several holdings",
    "tick: due and late at once",
    "tick: a row is live at its deadline",
    "tick: due at the deadline and delivered",
    "an unarrived write pin goes",
    "tick: from clock 4,000,000,000 on",
    "tick: from below 2^32 on",
    "tick: to the last clock",
    "tick: refused 21 at the last clock",
    "tick: due at 2^32 or later and delivered",
    "tick: late with a deadline of 2^32 or more",
    "tick: a waiting row made ready",
    "tick: a waiting row made fetching",
    "tick: a waiting row tried in vain",
    "tick: a waiting row killed on the way",
    "tick: a waiting row filled at its deadline",
    "tick: a fill with a page written back",
    "tick: a fill by a page that an earlier fill brought in",
    "tick: two or more fills",
    "tick: fills of two levels or more",
    "tick: a fill before one of a smaller row number of its level",
    "tick: a fill after a try in vain",
];

#[derive(Clone, Copy, PartialEq, Eq)]
pub enum Choice {
    Slot(u64, char),
    Nowhere,
}

impl State {
    pub fn fresh(slots: u64, delay: u64) -> State {
        let mut rows = BTreeMap::new();
        for level in 0..4 {
            for number in 0..8 {
                rows.insert((level, number), Row::FREE);
            }
        }
        State {
            slots,
            delay,
            clock: 0,
            borders: FIRST_BORDERS,
            begun: false,
            rows,
            order: (0..4).map(|level| (level, Vec::new())).collect(),
            filled: BTreeMap::new(),
            holdings: BTreeMap::new(),
        }
    }

    // What is where.

    pub fn slot_of(&self, page: u64) -> Option<u64> {
        self.filled.iter().find(|(_, slot)| slot.page == page).map(|(number, _)| *number)
    }

    pub fn holders(&self, slot: u64) -> Vec<(RowId, Holding)> {
        self.holdings
            .range((slot, (0, 0))..=(slot, (3, 7)))
            .map(|(key, holding)| (key.1, *holding))
            .collect()
    }

    pub fn every_row_free(&self) -> bool {
        self.rows.values().all(|row| *row == Row::FREE)
    }

    pub fn held_by(&self, row: RowId) -> Vec<(u64, Holding)> {
        self.holdings
            .iter()
            .filter(|(key, _)| key.1 == row)
            .map(|(key, holding)| (key.0, *holding))
            .collect()
    }

    pub fn allowed(&self, level: u64, page: u64, mode: Mode) -> bool {
        allowed(self.borders, level, page, mode)
    }

    /// How many rows stand before this one in its level's begin order.
    fn before(&self, row: RowId) -> usize {
        self.order[&row.0].iter().position(|number| *number == row.1).unwrap()
    }

    /// Level, then deadline, then who began earlier; smaller is better.
    pub fn priority(&self, row: RowId) -> (u64, u64, usize) {
        (row.0, self.rows[&row].deadline, self.before(row))
    }

    pub fn better(&self, one: RowId, other: RowId) -> bool {
        self.priority(one) < self.priority(other)
    }

    /// The row comes last in its level's begin order.
    pub fn joins(&mut self, row: RowId) {
        self.order.get_mut(&row.0).unwrap().push(row.1);
    }

    /// The row leaves its level's begin order, which closes up.
    fn leaves(&mut self, row: RowId) {
        self.order.get_mut(&row.0).unwrap().retain(|number| *number != row.1);
    }

    // The refusals of a call on a sound area, all that apply. Numbers 1 and 18 are found elsewhere.

    fn refusals(&self, call: &Call) -> BTreeSet<u32> {
        let mut found = BTreeSet::new();
        let mut refuse = |number: u32, applies: bool| {
            if applies {
                found.insert(number);
            }
        };
        if let Call::Start { slots, delay } = *call {
            refuse(2, !(1..=64).contains(&slots));
            refuse(3, !(1..=255).contains(&delay));
        }
        let level = call.level().map(u64::from);
        let number = call.row().map(u64::from);
        let page = call.page().map(u64::from);
        refuse(4, level.is_some_and(|level| level > 3));
        refuse(5, number.is_some_and(|number| number > 7));
        refuse(6, page.is_some_and(|page| page > 4095));
        if let Call::Request { mode, .. } = *call {
            refuse(7, mode != 0 && mode != 1);
        }
        if let (Some(level), Some(number)) = (level, number) {
            if let Some(row) = self.rows.get(&(level, number)) {
                let free = row.condition == Condition::Free;
                let killed = matches!(row.condition, Condition::Killed(_));
                let fetching = matches!(row.condition, Condition::Fetching { .. });
                let waiting = matches!(row.condition, Condition::Waiting { .. });
                match *call {
                    Call::Begin { .. } => refuse(8, !free),
                    Call::Request { .. } => {
                        refuse(9, free);
                        refuse(10, killed);
                        refuse(11, fetching || waiting);
                    }
                    Call::Unpin { .. } => {
                        refuse(9, free);
                        refuse(10, killed);
                        refuse(11, fetching || waiting);
                        let pinned = self.held_by((level, number)).iter().any(|(slot, holding)| {
                            holding.pin != Pin::None && Some(self.filled[slot].page) == page
                        });
                        refuse(15, !pinned);
                    }
                    Call::End { .. } => refuse(9, free),
                    _ => {}
                }
            }
        }
        if let Call::Begin { deadline, .. } = *call {
            refuse(12, missed(deadline, self.clock));
        }
        if let Call::Request { level, page, mode, .. } = *call {
            let (level, page) = (u64::from(level), u64::from(page));
            refuse(13, mode == 0 && !self.allowed(level, page, Mode::Read));
            refuse(14, mode == 1 && !self.allowed(level, page, Mode::Write));
        }
        if let Call::Tick { list } = *call {
            refuse(21, list < LIST);
            refuse(17, self.clock == LAST_CLOCK);
        }
        if let Call::Borders { first, second, third } = *call {
            let borders = [first, second, third].map(u64::from);
            refuse(19, fall(borders) || exceed(borders));
            refuse(20, self.begun);
        }
        found
    }

    // The calls.

    /// A call on this state, which must be sound.
    pub fn call(&mut self, call: &Call, tally: &mut Tally) -> Outcome {
        let found = self.refusals(call);
        let refusal = given(&found);
        self.note_borders(call, refusal, tally);
        if found.contains(&17) && found.contains(&21) {
            tally.note("tick: refused 21 at the last clock");
        }
        let outcome = match refusal {
            Some(number) => Outcome::refused(number),
            None => self.accepted(call, tally),
        };
        tally.outcome(call, &outcome);
        outcome
    }

    /// Notes what borders have to do with a call, before it is made.
    fn note_borders(&self, call: &Call, refusal: Option<u32>, tally: &mut Tally) {
        match (*call, refusal) {
            (Call::Borders { first, second, third }, None) => {
                tally.note(if self.borders == FIRST_BORDERS {
                    "borders: set in place of 1,024, 2,048 and 3,072"
                } else {
                    "borders: set in place of others"
                });
                if self.clock > 0 {
                    tally.note("borders: set after a tick");
                }
                let ends = [0, first, second, third, 4096];
                match ends.windows(2).filter(|pair| pair[0] == pair[1]).count() {
                    0 => {}
                    3 => tally.note("borders: every page in one class"),
                    _ => tally.note("borders: an empty class"),
                }
            }
            (Call::Borders { .. }, Some(19)) if self.begun => {
                tally.note("borders: refused 19 after a begin");
            }
            (Call::Borders { .. }, Some(20)) if self.every_row_free() => {
                tally.note("borders: refused 20 with every row free");
            }
            (Call::Begin { .. }, None) if !self.begun && self.borders != FIRST_BORDERS => {
                tally.note("begin: the first, under set borders");
            }
            (Call::Request { level, page, mode, .. }, None | Some(13 | 14)) => {
                let mode = if mode == 0 { Mode::Read } else { Mode::Write };
                let before = allowed(FIRST_BORDERS, level.into(), page.into(), mode);
                match refusal {
                    Some(13) if before => tally.note("request: refused 13 by set borders alone"),
                    Some(14) if before => tally.note("request: refused 14 by set borders alone"),
                    None if !before => tally.note("request: let in by set borders alone"),
                    _ => {}
                }
            }
            _ => {}
        }
    }

    fn accepted(&mut self, call: &Call, tally: &mut Tally) -> Outcome {
        let id = |level: u32, row: u32| (u64::from(level), u64::from(row));
        match *call {
            Call::Start { slots, delay } => {
                *self = State::fresh(slots.into(), delay);
                Outcome::said(STARTED, 0)
            }
            Call::Begin { level, row, deadline } => {
                if deadline == self.clock {
                    tally.note("begin: the deadline is the clock");
                }
                if deadline > SHORT {
                    tally.note("begin: a deadline of 2^32 or more");
                }
                let row = id(level, row);
                self.note_begin(row, tally);
                self.rows.insert(row, Row { condition: Condition::Idle, deadline });
                self.joins(row);
                self.begun = true;
                Outcome::said(BEGUN, 0)
            }
            Call::Request { level, row, page, mode } => {
                let mode = if mode == 0 { Mode::Read } else { Mode::Write };
                self.request(id(level, row), page.into(), mode, tally)
            }
            Call::Unpin { level, row, page } => {
                let slot = self.slot_of(page.into()).unwrap();
                let row = id(level, row);
                let holding = self.holdings[&(slot, row)];
                self.pin_goes(slot, holding, tally);
                self.holdings.get_mut(&(slot, row)).unwrap().pin = Pin::None;
                Outcome::said(UNPINNED, 0)
            }
            Call::End { level, row } => {
                let row = id(level, row);
                self.note_end(row, tally);
                self.drop_all(row, tally);
                self.rows.insert(row, Row::FREE);
                self.leaves(row);
                Outcome::said(ENDED, 0)
            }
            Call::Tick { .. } => self.tick(tally),
            Call::Look { level, row } => self.look(id(level, row)),
            Call::View { level, page } => self.view(level.into(), page.into()),
            Call::Count { level } => {
                Outcome::said(OPEN, (0..self.slots).filter(|s| self.open(level.into(), *s)).count() as u64)
            }
            Call::Borders { first, second, third } => {
                self.borders = [first, second, third].map(u64::from);
                Outcome::said(BORDERS, 0)
            }
        }
    }

    /// Notes what a begin has to do with the begin order, before it is made.
    fn note_begin(&self, row: RowId, tally: &mut Tally) {
        let order = &self.order[&row.0];
        if order.iter().any(|number| *number > row.1) {
            tally.note("begin: after a row of a larger number of its level");
        }
        if order.len() == 7 {
            tally.note("begin: the last of eight");
        }
    }

    /// Notes what an end has to do with the begin order, before it is made.
    fn note_end(&self, row: RowId, tally: &mut Tally) {
        let before = self.before(row);
        let after = self.order[&row.0].len() - before - 1;
        match (before, after) {
            (0, 0) => {}
            (0, _) => tally.note("end: the first in the order, before others"),
            (_, 0) => tally.note("end: the last in the order, after others"),
            _ => tally.note("end: between others in the order"),
        }
        if after > 0 && matches!(self.rows[&row].condition, Condition::Killed(_)) {
            tally.note("end: a killed row before others in the order");
        }
    }

    fn tick(&mut self, tally: &mut Tally) -> Outcome {
        match self.clock {
            OLD_LAST_CLOCK => tally.note("tick: from clock 4,000,000,000 on"),
            SHORT => tally.note("tick: from below 2^32 on"),
            _ => {}
        }
        self.clock += 1;
        let clock = self.clock;
        if clock == LAST_CLOCK {
            tally.note("tick: to the last clock");
        }
        let mut arrived = BTreeSet::new();
        for (id, row) in &mut self.rows {
            if let Condition::Fetching { due } = row.condition {
                if due <= clock {
                    if due > SHORT {
                        tally.note("tick: due at 2^32 or later and delivered");
                    }
                    row.condition = Condition::Idle;
                    arrived.insert(*id);
                }
            }
        }
        let late: Vec<RowId> = self
            .rows
            .iter()
            .filter(|(_, row)| row.live() && missed(row.deadline, clock))
            .map(|(id, _)| *id)
            .collect();
        for id in late {
            if arrived.contains(&id) {
                tally.note("tick: due and late at once");
            }
            if self.rows[&id].deadline > SHORT {
                tally.note("tick: late with a deadline of 2^32 or more");
            }
            self.kill(id, Cause::Late, tally);
        }
        for (id, row) in &self.rows {
            if row.live() && row.deadline == clock {
                tally.note("tick: a row is live at its deadline");
                if arrived.contains(id) {
                    tally.note("tick: due at the deadline and delivered");
                }
            }
        }
        // After the three steps each waiting row is tried a single time, best priority first.
        let turns = self.waiting_rows();
        ties::note_turns(self, &turns, tally);
        let mut outcome = Outcome::said(CLOCK, clock);
        outcome.fills = self.try_in_turn(&turns, tally);
        outcome
    }

    /// The waiting rows, best priority first.
    pub fn waiting_rows(&self) -> Vec<RowId> {
        let mut waiting: Vec<RowId> = self
            .rows
            .iter()
            .filter(|(_, row)| matches!(row.condition, Condition::Waiting { .. }))
            .map(|(id, _)| *id)
            .collect();
        waiting.sort_by_key(|id| self.priority(*id));
        waiting
    }

    /// Tries the waiting rows, skipping those killed on the way.
    pub fn try_in_turn(&mut self, waiting: &[RowId], tally: &mut Tally) -> Vec<Fill> {
        let mut fills: Vec<Fill> = Vec::new();
        let mut in_vain = false;
        for id in waiting.iter().copied() {
            let Condition::Waiting { page, mode } = self.rows[&id].condition else {
                tally.note("tick: a waiting row killed on the way");
                continue;
            };
            let tried = self.request(id, page, mode, tally);
            tally.note(match tried.answer[0] {
                READY => "tick: a waiting row made ready",
                FETCH => "tick: a waiting row made fetching",
                _ => "tick: a waiting row tried in vain",
            });
            if tried.answer[0] == WAIT {
                in_vain = true;
                continue;
            }
            let (slot, back) = (tried.answer[2] - 1, tried.answer[3].checked_sub(1));
            let fill = Fill { level: id.0, row: id.1, slot, page, back };
            self.note_fill(&fill, &fills, tally);
            if in_vain {
                tally.note("tick: a fill after a try in vain");
            }
            fills.push(fill);
        }
        if fills.len() > 1 {
            tally.note("tick: two or more fills");
        }
        if fills.iter().any(|fill| fill.level != fills[0].level) {
            tally.note("tick: fills of two levels or more");
        }
        fills
    }

    /// Notes a fill, before the earlier ones of its tick are joined by it.
    fn note_fill(&self, fill: &Fill, earlier: &[Fill], tally: &mut Tally) {
        if self.rows[&(fill.level, fill.row)].deadline == self.clock {
            tally.note("tick: a waiting row filled at its deadline");
        }
        if fill.back.is_some() {
            tally.note("tick: a fill with a page written back");
        }
        if self.filled[&fill.slot].arrival == self.clock + self.delay
            && earlier.iter().any(|other| other.page == fill.page)
        {
            tally.note("tick: a fill by a page that an earlier fill brought in");
        }
        if earlier.iter().any(|other| other.level == fill.level && other.row > fill.row) {
            tally.note("tick: a fill before one of a smaller row number of its level");
        }
    }

    fn look(&self, id: RowId) -> Outcome {
        match self.rows[&id].condition {
            Condition::Free => Outcome::said(NONE, 0),
            Condition::Idle => Outcome::said(IDLE, 0),
            Condition::Fetching { due } => Outcome::said(FETCH, due),
            Condition::Waiting { .. } => Outcome::said(WAIT, 0),
            Condition::Killed(Cause::Late) => Outcome::said(LATE, 0),
            Condition::Killed(Cause::Taken) => Outcome::said(TAKEN, 0),
        }
    }

    fn view(&self, level: u64, page: u64) -> Outcome {
        let Some(slot) = self.slot_of(page) else {
            return Outcome::said(UNSEEN, 0);
        };
        let holders = self.holders(slot);
        let seen: Vec<Holding> =
            holders.iter().filter(|(row, _)| row.0 <= level).map(|(_, holding)| *holding).collect();
        if let Some(pin) = seen.iter().map(|holding| holding.pin).max() {
            let arrival = seen.iter().map(|holding| holding.arrival).min().unwrap();
            let word = match pin {
                Pin::None => ACTIVE,
                Pin::Read => READ,
                Pin::Write => WRITE,
            };
            Outcome::said(word, arrival)
        } else if level == 3 {
            // Level 3 sees every holding, so this page has none.
            Outcome::said(DORMANT, self.filled[&slot].arrival)
        } else {
            Outcome::said(UNSEEN, 0)
        }
    }

    fn open(&self, level: u64, slot: u64) -> bool {
        self.holders(slot).iter().all(|(row, _)| row.0 > level)
    }

    // Letting go.

    fn pin_goes(&mut self, slot: u64, holding: Holding, tally: &mut Tally) {
        if holding.pin == Pin::Write {
            if holding.arrival <= self.clock {
                self.filled.get_mut(&slot).unwrap().dirty = true;
            } else {
                tally.note("an unarrived write pin goes");
            }
        }
    }

    fn drop_all(&mut self, id: RowId, tally: &mut Tally) {
        for (slot, holding) in self.held_by(id) {
            self.pin_goes(slot, holding, tally);
            self.holdings.remove(&(slot, id));
        }
    }

    fn kill(&mut self, id: RowId, cause: Cause, tally: &mut Tally) {
        tally.note(match cause {
            Cause::Late => "killed as late",
            Cause::Taken => "killed as taken",
        });
        match self.rows[&id].condition {
            Condition::Fetching { .. } => tally.note("killed fetching"),
            Condition::Waiting { .. } => tally.note("killed waiting"),
            _ => {}
        }
        if self.held_by(id).len() > 1 {
            tally.note("killed with several holdings");
        }
        self.drop_all(id, tally);
        self.rows.insert(id, Row { condition: Condition::Killed(cause), deadline: 0 });
    }

    // A request, or the try of a waiting row's stored one: steps 1 to 4.

    fn request(&mut self, me: RowId, page: u64, mode: Mode, tally: &mut Tally) -> Outcome {
        let Some(slot) = self.slot_of(page) else {
            tally.note("step 3: page in no slot");
            return self.request_elsewhere(me, page, mode, tally);
        };
        let level = me.0;
        let holders = self.holders(slot);
        let seen: Vec<(RowId, Holding)> =
            holders.iter().filter(|(row, _)| row.0 <= level).copied().collect();
        let conflicting: Vec<RowId> = holders
            .iter()
            .filter(|(row, holding)| *row != me && conflict(holding.pin, pin_of(mode)))
            .map(|(row, _)| *row)
            .collect();
        let arrival;
        if !seen.is_empty() {
            ties::note_step_1(self, me, &conflicting, tally);
            self.note_deadlines(me, &conflicting, tally);
            if conflicting.iter().any(|row| row.0 <= level && self.better(*row, me)) {
                tally.note("step 1: wait");
                return self.wait(me, page, mode);
            }
            arrival = seen.iter().map(|(_, holding)| holding.arrival).min().unwrap();
            tally.note(if arrival <= self.clock { "step 1: ready" } else { "step 1: fetch" });
            for row in &conflicting {
                tally.note(if row.0 <= level {
                    "step 1: kills a seen row"
                } else {
                    "step 1: kills a hidden row"
                });
            }
            if let Some((_, own)) = seen.iter().find(|(row, _)| *row == me) {
                tally.note("step 1: own holding");
                if own.pin != Pin::None && own.pin < pin_of(mode) {
                    tally.note("step 1: own pin made stronger");
                }
            }
        } else if level == 3 {
            // Nothing seen at level 3: the page is dormant.
            arrival = self.filled[&slot].arrival;
            tally.note(if arrival <= self.clock { "step 2: ready" } else { "step 2: fetch" });
        } else {
            arrival = self.clock + self.delay;
            tally.note(if holders.is_empty() {
                "step 3: dormant page below level 3"
            } else if conflicting.is_empty() {
                "step 3: hidden page, no kill"
            } else {
                "step 3: hidden page, kills"
            });
        }
        for row in conflicting {
            self.kill(row, Cause::Taken, tally);
        }
        self.grant(me, slot, mode, arrival, None)
    }

    /// Notes whether the lower halves of deadlines would decide step 1 otherwise.
    fn note_deadlines(&self, me: RowId, conflicting: &[RowId], tally: &mut Tally) {
        let low = |row: RowId| low_deadline(self.priority(row));
        let seen = || conflicting.iter().filter(|row| row.0 <= me.0);
        if seen().any(|row| self.better(*row, me)) != seen().any(|row| low(*row) < low(me)) {
            tally.note("step 1: waits or not, by the lower halves of deadlines otherwise");
        }
    }

    fn wait(&mut self, me: RowId, page: u64, mode: Mode) -> Outcome {
        self.rows.get_mut(&me).unwrap().condition = Condition::Waiting { page, mode };
        Outcome::said(WAIT, 0)
    }

    fn grant(&mut self, me: RowId, slot: u64, mode: Mode, arrival: u64, back: Option<u64>) -> Outcome {
        let clock = self.clock;
        let holding =
            self.holdings.entry((slot, me)).or_insert(Holding { pin: Pin::None, arrival, touch: clock });
        holding.pin = holding.pin.max(pin_of(mode));
        holding.touch = clock;
        let place = self.filled.get_mut(&slot).unwrap();
        place.lowest = place.lowest.min(me.0);
        place.touch = place.touch.max(clock);
        let row = self.rows.get_mut(&me).unwrap();
        let mut outcome;
        if arrival <= clock {
            row.condition = Condition::Idle;
            outcome = Outcome::said(READY, 0);
        } else {
            row.condition = Condition::Fetching { due: arrival };
            outcome = Outcome::said(FETCH, arrival);
        }
        outcome.answer[2] = slot + 1;
        outcome.answer[3] = back.map_or(0, |page| page + 1);
        outcome
    }

    /// Step 3 for a page in no slot.
    fn request_elsewhere(&mut self, me: RowId, page: u64, mode: Mode, tally: &mut Tally) -> Outcome {
        let choice = self.choose(me, tally);
        ties::note_choice(self, me, choice, tally);
        let (slot, step) = match choice {
            Choice::Slot(slot, step) => (slot, step),
            Choice::Nowhere => return self.wait(me, page, mode),
        };
        let dirty_before = self.filled.get(&slot).is_some_and(|slot| slot.dirty);
        for (row, holding) in self.holders(slot) {
            if holding.pin != Pin::None {
                if matches!(step, 'e' | 'f') && row.0 > me.0 {
                    tally.note("chosen slot: a pinning row of a higher level killed in e or f");
                }
                self.kill(row, Cause::Taken, tally);
            }
        }
        for (row, _) in self.holders(slot) {
            if row == me {
                tally.note(match step {
                    'e' => "e takes the requester's own slot",
                    _ => "f takes a slot that the requester holds",
                });
            } else {
                tally.note("chosen slot: a holder keeps its row");
            }
            self.holdings.remove(&(slot, row));
        }
        let back = self.filled.get(&slot).filter(|slot| slot.dirty).map(|slot| slot.page);
        if back.is_some() {
            tally.note(if dirty_before {
                "write-back of a page dirty before"
            } else {
                "write-back of a page made dirty by the kill"
            });
        }
        let arrival = self.clock + self.delay;
        self.filled.insert(
            slot,
            Slot { page, arrival, dirty: false, lowest: me.0, touch: self.clock },
        );
        self.grant(me, slot, mode, arrival, back)
    }

    // Choosing a slot.

    pub fn choose(&self, me: RowId, tally: &mut Tally) -> Choice {
        let level = me.0;

        // a. empty, lowest slot number
        if let Some(slot) = (0..self.slots).find(|slot| !self.filled.contains_key(slot)) {
            tally.note("choice a");
            return Choice::Slot(slot, 'a');
        }

        // b. dormant: lowest level first, clean before dirty, least touch, slot number
        let dormant: Vec<u64> = (0..self.slots).filter(|s| self.holders(*s).is_empty()).collect();
        if !dormant.is_empty() {
            tally.note("choice b");
            return Choice::Slot(self.best_dormant(dormant, tally), 'b');
        }

        // c and d. held only above the requester's level, at the highest number M of a best holder
        let above: Vec<u64> =
            (0..self.slots).filter(|s| self.holders(*s).iter().all(|(row, _)| row.0 > level)).collect();
        if let Some(m) = above.iter().map(|slot| self.best_holder(*slot).0).max() {
            let at_m: Vec<u64> =
                above.into_iter().filter(|slot| self.best_holder(*slot).0 == m).collect();
            let pinned_by_m = |slot: &u64| {
                self.holders(*slot).iter().any(|(row, holding)| row.0 == m && holding.pin != Pin::None)
            };
            let (pinned, unpinned): (Vec<u64>, Vec<u64>) = at_m.into_iter().partition(pinned_by_m);
            if !unpinned.is_empty() {
                tally.note("choice c");
                return Choice::Slot(self.worst_held(unpinned, 'c', tally), 'c');
            }
            tally.note("choice d");
            return Choice::Slot(self.worst_held(pinned, 'd', tally), 'd');
        }

        // e and f. seen holders all of the requester's level, none better than the requester
        let mut without_pin = Vec::new();
        let mut with_pin = Vec::new();
        for slot in 0..self.slots {
            let holders = self.holders(slot);
            let seen: Vec<&(RowId, Holding)> =
                holders.iter().filter(|(row, _)| row.0 <= level).collect();
            if !seen.iter().all(|(row, _)| row.0 == level && !self.better(*row, me)) {
                continue;
            }
            let pins: Vec<RowId> = seen
                .iter()
                .filter(|(_, holding)| holding.pin != Pin::None)
                .map(|(row, _)| *row)
                .collect();
            if pins.is_empty() {
                without_pin.push(slot);
            } else if !pins.contains(&me) {
                with_pin.push(slot);
            }
        }
        if !without_pin.is_empty() {
            tally.note("choice e");
            return Choice::Slot(self.worst_held(without_pin, 'e', tally), 'e');
        }
        if !with_pin.is_empty() {
            tally.note("choice f");
            return Choice::Slot(self.worst_held(with_pin, 'f', tally), 'f');
        }

        // g. none
        tally.note("choice g");
        Choice::Nowhere
    }

    pub fn best_holder(&self, slot: u64) -> RowId {
        let holders = self.holders(slot);
        holders.iter().map(|(row, _)| *row).min_by_key(|row| self.priority(*row)).unwrap()
    }

    fn best_dormant(&self, mut slots: Vec<u64>, tally: &mut Tally) -> u64 {
        let keep = |slots: Vec<u64>, key: &dyn Fn(&Slot) -> u64| -> Vec<u64> {
            let least = slots.iter().map(|slot| key(&self.filled[slot])).min().unwrap();
            slots.into_iter().filter(|slot| key(&self.filled[slot]) == least).collect()
        };
        let several = slots.len() > 1;
        slots = keep(slots, &|slot| slot.lowest);
        if several && slots.len() == 1 {
            tally.note("b decided by lowest level");
            return slots[0];
        }
        let several = slots.len() > 1;
        slots = keep(slots, &|slot| slot.dirty as u64);
        if several && slots.len() == 1 {
            tally.note("b decided by dirty mark");
            return slots[0];
        }
        let several = slots.len() > 1;
        let by_lower_half = keep(slots.clone(), &|slot| slot.touch & SHORT);
        slots = keep(slots, &|slot| slot.touch);
        if several && slots != by_lower_half {
            tally.note("b decided by touch, by its lower half otherwise");
        }
        if several && slots.len() == 1 {
            tally.note("b decided by touch");
            return slots[0];
        }
        if slots.len() > 1 {
            tally.note("b decided by slot number");
        }
        slots.into_iter().min().unwrap()
    }

    fn worst_held(&self, slots: Vec<u64>, step: char, tally: &mut Tally) -> u64 {
        ties::note_slots(self, &slots, step, tally);
        self.worst_of(slots, step, tally)
    }

    /// Of several in c to f: the worst best holder, then the earliest latest touch by holders of
    /// that best holder's level, then the smaller page.
    pub fn worst_of(&self, mut slots: Vec<u64>, step: char, tally: &mut Tally) -> u64 {
        if slots.len() == 1 {
            return slots[0];
        }
        let worst = slots.iter().map(|slot| self.priority(self.best_holder(*slot))).max().unwrap();
        let low = |slot: &u64| low_deadline(self.priority(self.best_holder(*slot)));
        if slots.iter().map(low).max().unwrap() != low_deadline(worst) {
            tally.note("c to f decided by priority, by the lower halves of deadlines otherwise");
        }
        slots.retain(|slot| self.priority(self.best_holder(*slot)) == worst);
        if slots.len() == 1 {
            tally.note(match step {
                'c' => "c decided by priority",
                'd' => "d decided by priority",
                'e' => "e decided by priority",
                _ => "f decided by priority",
            });
            return slots[0];
        }
        let latest = |slot: &u64| {
            let level = self.best_holder(*slot).0;
            self.holders(*slot)
                .iter()
                .filter(|(row, _)| row.0 == level)
                .map(|(_, holding)| holding.touch)
                .max()
                .unwrap()
        };
        let earliest = slots.iter().map(latest).min().unwrap();
        if slots.iter().map(|slot| latest(slot) & SHORT).min().unwrap() != earliest & SHORT {
            tally.note("c to f decided by touch, by its lower half otherwise");
        }
        slots.retain(|slot| latest(slot) == earliest);
        if slots.len() == 1 {
            tally.note(match step {
                'c' => "c decided by touch",
                'd' => "d decided by touch",
                'e' => "e decided by touch",
                _ => "f decided by touch",
            });
            return slots[0];
        }
        tally.note(match step {
            'c' => "c decided by page",
            'd' => "d decided by page",
            'e' => "e decided by page",
            _ => "f decided by page",
        });
        slots.into_iter().min_by_key(|slot| self.filled[slot].page).unwrap()
    }
}

// The bytes of docs/LAYOUT.md.

/// The layouts that a call takes.
#[derive(Clone, Copy, Debug, PartialEq, Eq)]
pub enum Layout {
    New,
    /// The last 32-bit layout.
    Old,
}

impl Layout {
    pub fn version(self) -> u64 {
        match self {
            Layout::New => 4,
            Layout::Old => 3,
        }
    }

    /// The layout that an area is judged by: the old one if the area says so.
    pub fn of(area: &[u8]) -> Layout {
        if area.len() >= SIZE && word(area, VERSION_AT) == Layout::Old.version() {
            Layout::Old
        } else {
            Layout::New
        }
    }
}

pub const VERSION_AT: usize = 8;
pub const CLOCK_AT: usize = 32;
pub const BORDERS_AT: usize = 40;
pub const BEGUN_AT: usize = 64;
pub const ORDER_AT: usize = 72;
pub const HEADER_END: usize = 328;
pub const ROWS_AT: usize = 512;
pub const SLOTS_AT: usize = 2_560;
pub const HOLDINGS_AT: usize = 6_656;
pub const TAIL_AT: usize = 55_808;

/// Where the place of a row in its level's begin order stands.
pub fn place_at(row: RowId) -> usize {
    ORDER_AT + 8 * (8 * row.0 + row.1) as usize
}

pub fn row_at(row: RowId) -> usize {
    ROWS_AT + 64 * (8 * row.0 + row.1) as usize
}

pub fn slot_at(slot: u64) -> usize {
    SLOTS_AT + 64 * slot as usize
}

pub fn holding_at(slot: u64, row: RowId) -> usize {
    HOLDINGS_AT + 24 * (32 * slot + 8 * row.0 + row.1) as usize
}

pub fn word(bytes: &[u8], at: usize) -> u64 {
    u64::from_le_bytes(bytes[at..at + 8].try_into().unwrap())
}

pub fn set_word(bytes: &mut [u8], at: usize, value: u64) {
    bytes[at..at + 8].copy_from_slice(&value.to_le_bytes());
}

fn mode_number(mode: Mode) -> u64 {
    match mode {
        Mode::Read => 0,
        Mode::Write => 1,
    }
}

impl State {
    /// The 65,536 bytes of this state.
    pub fn bytes(&self) -> Vec<u8> {
        self.written(Layout::New)
    }

    /// Its bytes in the last 32-bit layout, if that has room for it.
    pub fn old_bytes(&self) -> Option<Vec<u8>> {
        self.fits_old().then(|| self.written(Layout::Old))
    }

    pub fn fits_old(&self) -> bool {
        let short = |tick: u64| tick <= SHORT;
        self.clock <= OLD_LAST_CLOCK
            && self.rows.values().all(|row| {
                let due = if let Condition::Fetching { due } = row.condition { due } else { 0 };
                short(row.deadline) && short(due)
            })
            && self.filled.values().all(|slot| short(slot.arrival) && short(slot.touch))
            && self.holdings.values().all(|holding| short(holding.arrival) && short(holding.touch))
    }

    /// The same state so many ticks later: every tick in it is moved on, deadlines as far as they go.
    pub fn later(&mut self, further: u64) {
        self.clock += further;
        for row in self.rows.values_mut() {
            if let Condition::Fetching { due } = &mut row.condition {
                *due += further;
            }
            if row.live() {
                row.deadline = row.deadline.saturating_add(further);
            }
        }
        for slot in self.filled.values_mut() {
            slot.arrival += further;
            slot.touch += further;
        }
        for holding in self.holdings.values_mut() {
            holding.arrival += further;
            holding.touch += further;
        }
    }

    fn written(&self, layout: Layout) -> Vec<u8> {
        let mut bytes = vec![0; SIZE];
        bytes[0..8].copy_from_slice(b"SABREBUF");
        set_word(&mut bytes, VERSION_AT, layout.version());
        set_word(&mut bytes, 16, self.slots);
        set_word(&mut bytes, 24, self.delay);
        set_word(&mut bytes, CLOCK_AT, self.clock);
        for (at, border) in self.borders.iter().enumerate() {
            set_word(&mut bytes, BORDERS_AT + 8 * at, *border);
        }
        set_word(&mut bytes, BEGUN_AT, self.begun as u64);
        for (level, order) in &self.order {
            for (place, number) in (1..).zip(order) {
                set_word(&mut bytes, place_at((*level, *number)), place);
            }
        }
        for (id, row) in &self.rows {
            let at = row_at(*id);
            let (condition, number, mode) = match row.condition {
                Condition::Free => (0, 0, 0),
                Condition::Idle => (1, 0, 0),
                Condition::Fetching { due } => (2, due, 0),
                Condition::Waiting { page, mode } => (3, page, mode_number(mode)),
                Condition::Killed(Cause::Late) => (4, 0, 0),
                Condition::Killed(Cause::Taken) => (5, 0, 0),
            };
            set_word(&mut bytes, at, condition);
            set_word(&mut bytes, at + 8, number);
            set_word(&mut bytes, at + 16, mode);
            set_word(&mut bytes, at + 24, row.deadline);
        }
        for (number, slot) in &self.filled {
            let at = slot_at(*number);
            set_word(&mut bytes, at, 1);
            set_word(&mut bytes, at + 8, slot.page);
            set_word(&mut bytes, at + 16, slot.arrival);
            set_word(&mut bytes, at + 24, slot.dirty as u64);
            set_word(&mut bytes, at + 32, slot.lowest);
            set_word(&mut bytes, at + 40, slot.touch);
        }
        for ((slot, row), holding) in &self.holdings {
            let at = holding_at(*slot, *row);
            let pin = match holding.pin {
                Pin::None => 1,
                Pin::Read => 2,
                Pin::Write => 3,
            };
            set_word(&mut bytes, at, pin);
            set_word(&mut bytes, at + 8, holding.arrival);
            set_word(&mut bytes, at + 16, holding.touch);
        }
        bytes
    }
}

// Sound means: the clauses, each by a name.

pub const LENGTH: &str = "length";
pub const MARK: &str = "mark";
pub const VERSION: &str = "version";
pub const UNUSED_HEADER: &str = "unused bytes after the order";
pub const UNUSED_ROW: &str = "unused bytes of a row";
pub const UNUSED_SLOT: &str = "unused bytes of a slot";
pub const UNUSED_TAIL: &str = "unused bytes at the end";
pub const SLOTS_RANGE: &str = "slots 1 to 64";
pub const DELAY_RANGE: &str = "delay 1 to 255";
pub const CLOCK_RANGE: &str = "clock at most 9,000,000,000,000,000,000";
pub const BORDER_RANGE: &str = "borders at most 4,096";
pub const BEGUN_RANGE: &str = "the begun mark";
pub const PLACE_RANGE: &str = "order: a place above 8";
pub const CONDITION_RANGE: &str = "a row's condition";
pub const WAIT_PAGE_RANGE: &str = "a waiting row's page";
pub const WAIT_MODE_RANGE: &str = "a waiting row's mode";
pub const ROW_ZERO: &str = "a free or killed row is zero but for its mark";
pub const ROW_SPARE: &str = "an idle or fetching row's other words are zero";
pub const FILLED_RANGE: &str = "a slot's mark";
pub const PAGE_RANGE: &str = "a slot's page";
pub const DIRTY_RANGE: &str = "a slot's dirty mark";
pub const LOWEST_RANGE: &str = "a slot's lowest level";
pub const SLOT_ZERO: &str = "an empty slot is zero";
pub const PIN_RANGE: &str = "a holding's pin";
pub const HOLDING_ZERO: &str = "an empty holding is zero";
pub const BORDERS_FALL: &str = "the borders do not fall";
pub const ORDER_FREE: &str = "order: a free row has a place";
pub const ORDER_NONE: &str = "order: a row that is not free has none";
pub const ORDER_AGAIN: &str = "order: a row is named again";
pub const PLACE_TWICE: &str = "order: one place twice";
pub const PLACE_GAP: &str = "order: a gap";
pub const ROWS_BEFORE: &str = "before a begin every row is free";
pub const SLOTS_BEFORE: &str = "before a begin every slot is empty";
pub const PAST_EMPTY: &str = "slots past the number started with are empty";
pub const ONE_SLOT: &str = "no page in two slots";
pub const LIVE_HOLDER: &str = "holdings only of live rows";
pub const FILLED_HOLDING: &str = "holdings only in filled slots";
pub const ACCESS: &str = "no pin against the access rule";
pub const CONFLICT: &str = "no conflicting pins";
pub const ARRIVAL_LEAST: &str = "a holding's arrival at least its slot's";
pub const ARRIVAL_MOST: &str = "a holding's arrival at most clock + delay";
pub const TOUCH_MOST: &str = "a holding's touch at most its slot's";
pub const SLOT_TOUCH: &str = "a slot's touch at most the clock";
pub const HOLDER_LEVEL: &str = "a holder's level at least the slot's lowest";
pub const SLOT_ARRIVAL: &str = "a slot's arrival at most clock + delay";
pub const DEADLINE: &str = "live rows' deadlines at or above the clock";
pub const FETCH_DUE: &str = "a fetching row's due tick above the clock";
pub const FETCH_PIN: &str = "a fetching row pins a page that arrives when due";
pub const FETCH_OTHERS: &str = "a fetching row's other holdings have arrived";
pub const ARRIVED: &str = "holdings of idle and waiting rows have arrived";
pub const WAIT_ALLOWED: &str = "a waiting row's mode is allowed for its page";

// Those of the last 32-bit layout alone.
pub const OLD_CLOCK: &str = "version 3: clock at most 4,000,000,000";
pub const OLD_DUE: &str = "version 3: a due tick is a 32-bit number";
pub const OLD_DEADLINE: &str = "version 3: a deadline is a 32-bit number";

/// All clauses of a new area but the length. In the bytes a row has one place, so no area breaks
/// `ORDER_AGAIN`.
pub const CLAUSES: &[&str] = &[
    MARK, VERSION, UNUSED_HEADER, UNUSED_ROW, UNUSED_SLOT, UNUSED_TAIL, SLOTS_RANGE, DELAY_RANGE,
    CLOCK_RANGE, BORDER_RANGE, BEGUN_RANGE, PLACE_RANGE, CONDITION_RANGE, WAIT_PAGE_RANGE,
    WAIT_MODE_RANGE, ROW_ZERO, ROW_SPARE, FILLED_RANGE, PAGE_RANGE, DIRTY_RANGE,
    LOWEST_RANGE, SLOT_ZERO, PIN_RANGE, HOLDING_ZERO, BORDERS_FALL, ORDER_FREE, ORDER_NONE,
    PLACE_TWICE, PLACE_GAP, ROWS_BEFORE, SLOTS_BEFORE, PAST_EMPTY, ONE_SLOT, LIVE_HOLDER,
    FILLED_HOLDING, ACCESS, CONFLICT, ARRIVAL_LEAST, ARRIVAL_MOST, TOUCH_MOST, SLOT_TOUCH,
    HOLDER_LEVEL, SLOT_ARRIVAL, DEADLINE, FETCH_DUE, FETCH_PIN, FETCH_OTHERS, ARRIVED, WAIT_ALLOWED,
];

/// Those of an old area alone. A fetching row's due tick is the arrival of a holding, so one that breaks
/// `OLD_DUE` always breaks another clause too.
pub const OLD_CLAUSES: &[&str] = &[OLD_CLOCK, OLD_DEADLINE];

impl Layout {
    /// The clauses that an area of this layout can break. An area is judged by the version that it names.
    pub fn clauses(self) -> Vec<&'static str> {
        match self {
            Layout::New => CLAUSES.to_vec(),
            Layout::Old => CLAUSES
                .iter()
                .chain(OLD_CLAUSES)
                .copied()
                .filter(|clause| ![VERSION, CLOCK_RANGE].contains(clause))
                .collect(),
        }
    }
}

type Broken = BTreeSet<&'static str>;

/// The state of a sound new area, or the clauses that the area breaks. If numbers are out of range,
/// only those are named.
pub fn read(area: &[u8]) -> Result<State, Broken> {
    read_as(Layout::New, area)
}

/// The same for an area that a call other than start takes, new or old.
pub fn read_either(area: &[u8]) -> Result<State, Broken> {
    read_as(Layout::of(area), area)
}

pub fn read_as(layout: Layout, area: &[u8]) -> Result<State, Broken> {
    if area.len() < SIZE {
        return Err(Broken::from([LENGTH]));
    }
    let bytes = &area[..SIZE];
    let state = name(bytes, layout)?;
    let mut broken = state.broken();
    broken.extend(strange_bytes(bytes, &state, layout));
    if broken.is_empty() {
        Ok(state)
    } else {
        Err(broken)
    }
}

/// The state that the words name, if its numbers can be named at all.
fn name(bytes: &[u8], layout: Layout) -> Result<State, Broken> {
    let old = layout == Layout::Old;
    let mut broken = Broken::new();
    let mut state = State::fresh(word(bytes, 16), word(bytes, 24));
    state.clock = word(bytes, CLOCK_AT);
    state.borders = [0, 1, 2].map(|at| word(bytes, BORDERS_AT + 8 * at));
    state.begun = word(bytes, BEGUN_AT) == 1;
    if !(1..=64).contains(&state.slots) {
        broken.insert(SLOTS_RANGE);
    }
    if !(1..=255).contains(&state.delay) {
        broken.insert(DELAY_RANGE);
    }
    if old && state.clock > OLD_LAST_CLOCK {
        broken.insert(OLD_CLOCK);
    } else if state.clock > LAST_CLOCK {
        broken.insert(CLOCK_RANGE);
    }
    if exceed(state.borders) {
        broken.insert(BORDER_RANGE);
    }
    if word(bytes, BEGUN_AT) > 1 {
        broken.insert(BEGUN_RANGE);
    }
    for (level, order) in &mut state.order {
        let places = places(bytes, *level);
        if places.iter().any(|place| *place > 8) {
            broken.insert(PLACE_RANGE);
        }
        // By rising place; 0 is none.
        order.extend((0..8).filter(|number| places[*number as usize] != 0));
        order.sort_by_key(|number| places[*number as usize]);
    }
    for (id, row) in &mut state.rows {
        let at = row_at(*id);
        let number = word(bytes, at + 8);
        row.condition = match word(bytes, at) {
            0 => Condition::Free,
            1 => Condition::Idle,
            2 => {
                if old && number > SHORT {
                    broken.insert(OLD_DUE);
                }
                Condition::Fetching { due: number }
            }
            3 => {
                if number > 4095 {
                    broken.insert(WAIT_PAGE_RANGE);
                }
                let mode = match word(bytes, at + 16) {
                    0 => Mode::Read,
                    1 => Mode::Write,
                    _ => {
                        broken.insert(WAIT_MODE_RANGE);
                        Mode::Read
                    }
                };
                Condition::Waiting { page: number, mode }
            }
            4 => Condition::Killed(Cause::Late),
            5 => Condition::Killed(Cause::Taken),
            _ => {
                broken.insert(CONDITION_RANGE);
                Condition::Free
            }
        };
        if row.live() {
            row.deadline = word(bytes, at + 24);
            if old && row.deadline > SHORT {
                broken.insert(OLD_DEADLINE);
            }
        }
    }
    for number in 0..64 {
        let at = slot_at(number);
        match word(bytes, at) {
            0 => continue,
            1 => {}
            _ => {
                broken.insert(FILLED_RANGE);
            }
        }
        let slot = Slot {
            page: word(bytes, at + 8),
            arrival: word(bytes, at + 16),
            dirty: word(bytes, at + 24) == 1,
            lowest: word(bytes, at + 32),
            touch: word(bytes, at + 40),
        };
        if slot.page > 4095 {
            broken.insert(PAGE_RANGE);
        }
        if word(bytes, at + 24) > 1 {
            broken.insert(DIRTY_RANGE);
        }
        if slot.lowest > 3 {
            broken.insert(LOWEST_RANGE);
        }
        state.filled.insert(number, slot);
    }
    for slot in 0..64 {
        for level in 0..4 {
            for number in 0..8 {
                let row = (level, number);
                let at = holding_at(slot, row);
                let pin = match word(bytes, at) {
                    0 => continue,
                    1 => Pin::None,
                    2 => Pin::Read,
                    3 => Pin::Write,
                    _ => {
                        broken.insert(PIN_RANGE);
                        Pin::None
                    }
                };
                let holding =
                    Holding { pin, arrival: word(bytes, at + 8), touch: word(bytes, at + 16) };
                state.holdings.insert((slot, row), holding);
            }
        }
    }
    if broken.is_empty() {
        Ok(state)
    } else {
        Err(broken)
    }
}

/// The places of a level's rows, as they stand in the bytes.
fn places(bytes: &[u8], level: u64) -> [u64; 8] {
    std::array::from_fn(|number| word(bytes, place_at((level, number as u64))))
}

/// Why a level's places are not those of an order, from 1 up, each once. 0 is none.
fn strange_places(places: [u64; 8]) -> Broken {
    let mut broken = Broken::new();
    for (number, place) in places.iter().enumerate().filter(|(_, place)| **place != 0) {
        if places[..number].contains(place) {
            broken.insert(PLACE_TWICE);
        }
        if *place > 1 && !places.contains(&(place - 1)) {
            broken.insert(PLACE_GAP);
        }
    }
    broken
}

/// Names each part whose bytes are not those of the state.
fn strange_bytes(bytes: &[u8], state: &State, layout: Layout) -> Broken {
    let right = state.written(layout);
    let mut broken = Broken::new();
    if bytes == right {
        return broken;
    }
    for at in (0..SIZE).step_by(8) {
        if word(bytes, at) == word(&right, at) {
            continue;
        }
        broken.insert(if at < VERSION_AT {
            MARK
        } else if at < 16 {
            VERSION
        } else if (ORDER_AT..HEADER_END).contains(&at) {
            let level = (at - ORDER_AT) as u64 / 64;
            broken.extend(strange_places(places(bytes, level)));
            continue;
        } else if at < ROWS_AT {
            UNUSED_HEADER
        } else if at < SLOTS_AT {
            let row = (at - ROWS_AT) as u64 / 64;
            if (at - ROWS_AT) % 64 >= 32 {
                UNUSED_ROW
            } else if state.rows[&(row / 8, row % 8)].live() {
                ROW_SPARE
            } else {
                ROW_ZERO
            }
        } else if at < HOLDINGS_AT {
            if (at - SLOTS_AT) % 64 >= 48 {
                UNUSED_SLOT
            } else {
                SLOT_ZERO
            }
        } else if at < TAIL_AT {
            HOLDING_ZERO
        } else {
            UNUSED_TAIL
        });
    }
    broken
}

impl State {
    /// The clauses of soundness that this state breaks. Its numbers can be named.
    pub fn broken(&self) -> Broken {
        let mut broken = Broken::new();
        let mut need = |clause: &'static str, holds: bool| {
            if !holds {
                broken.insert(clause);
            }
        };
        need(BORDERS_FALL, !fall(self.borders));
        for (id, row) in &self.rows {
            let times = self.order[&id.0].iter().filter(|number| **number == id.1).count();
            let free = row.condition == Condition::Free;
            need(ORDER_FREE, !free || times == 0);
            need(ORDER_NONE, free || times > 0);
            need(ORDER_AGAIN, times < 2);
        }
        need(ROWS_BEFORE, self.begun || self.every_row_free());
        need(SLOTS_BEFORE, self.begun || self.filled.is_empty());
        let last_arrival = self.clock + self.delay;
        let mut pages = BTreeSet::new();
        for (number, slot) in &self.filled {
            need(PAST_EMPTY, *number < self.slots);
            need(ONE_SLOT, pages.insert(slot.page));
            need(SLOT_ARRIVAL, slot.arrival <= last_arrival);
            need(SLOT_TOUCH, slot.touch <= self.clock);
        }
        for ((number, row), holding) in &self.holdings {
            need(LIVE_HOLDER, self.rows[row].live());
            need(ARRIVAL_MOST, holding.arrival <= last_arrival);
            let Some(slot) = self.filled.get(number) else {
                need(FILLED_HOLDING, false);
                continue;
            };
            need(
                ACCESS,
                match holding.pin {
                    Pin::None => true,
                    Pin::Read => self.allowed(row.0, slot.page, Mode::Read),
                    Pin::Write => self.allowed(row.0, slot.page, Mode::Write),
                },
            );
            need(ARRIVAL_LEAST, holding.arrival >= slot.arrival);
            need(TOUCH_MOST, holding.touch <= slot.touch);
            need(HOLDER_LEVEL, row.0 >= slot.lowest);
            for (other, second) in self.holders(*number) {
                need(CONFLICT, other == *row || !conflict(holding.pin, second.pin));
            }
        }
        for (id, row) in &self.rows {
            if row.live() {
                need(DEADLINE, !missed(row.deadline, self.clock));
            }
            let held = self.held_by(*id);
            let ahead = held.iter().filter(|(_, holding)| holding.arrival > self.clock).count();
            match row.condition {
                Condition::Fetching { due } => {
                    need(FETCH_DUE, due > self.clock);
                    need(
                        FETCH_PIN,
                        held.iter().any(|(_, holding)| {
                            holding.pin != Pin::None && holding.arrival == due
                        }),
                    );
                    need(FETCH_OTHERS, ahead <= 1);
                }
                Condition::Idle => need(ARRIVED, ahead == 0),
                Condition::Waiting { page, mode } => {
                    need(ARRIVED, ahead == 0);
                    need(WAIT_ALLOWED, self.allowed(id.0, page, mode));
                }
                Condition::Free | Condition::Killed(_) => {}
            }
        }
        broken
    }
}

// The list of a tick.

/// Level, row, slot, back flag, page, page written back or 0.
fn entry(fill: &Fill) -> [u8; ENTRY] {
    let byte = |number: u64| u8::try_from(number).unwrap();
    let pair = |number: u64| u16::try_from(number).unwrap().to_be_bytes();
    let flag = if fill.back.is_some() { 2 } else { 1 };
    let (page, back) = (pair(fill.page), pair(fill.back.unwrap_or(0)));
    let (level, row, slot) = (byte(fill.level), byte(fill.row), byte(fill.slot));
    [level, row, slot, flag, page[0], page[1], back[0], back[1]]
}

/// What the call leaves of these bytes of a list.
pub fn list_after(call: &Call, outcome: &Outcome, before: &[u8]) -> Vec<u8> {
    let mut list = before.to_vec();
    if outcome.status == 0 && matches!(call, Call::Tick { .. }) {
        list[..LIST].fill(0);
        for (place, fill) in list.chunks_mut(ENTRY).zip(&outcome.fills) {
            place.copy_from_slice(&entry(fill));
        }
    }
    list
}

/// A call on a lent area, sound or not, new or old. An accepted call that may change something leaves
/// a new area. `list_after` has what becomes of a list.
pub fn call(area: &mut [u8], call: &Call, tally: &mut Tally) -> Outcome {
    if area.len() < SIZE {
        let outcome = Outcome::refused(1);
        tally.outcome(call, &outcome);
        return outcome;
    }
    let mut state = match (read_either(area), call) {
        (Ok(state), _) => state,
        // A start takes any area; the state before it does not matter.
        (Err(_), Call::Start { .. }) => State::fresh(1, 1),
        (Err(_), _) => {
            let outcome = Outcome::refused(1);
            tally.outcome(call, &outcome);
            return outcome;
        }
    };
    let outcome = state.call(call, tally);
    if outcome.status == 0 && !call.asks() {
        area[..SIZE].copy_from_slice(&state.bytes());
    }
    outcome
}
