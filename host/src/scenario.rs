//! Random calls that fit the state they meet, with wild numbers among them.

use crate::calls::*;
use crate::model::{
    Cause, Condition, Holding, Mode, Pin, Row, RowId, Slot, State, FIRST_BORDERS, SHORT,
};
use crate::random::Random;

const WILD: &[u32] = &[
    0, 1, 2, 3, 4, 5, 7, 8, 9, 15, 31, 32, 63, 64, 65, 127, 128, 255, 256, 257, 511, 512, 1023,
    1024, 1025, 2047, 2048, 3071, 3072, 4094, 4095, 4096, 4097, 8191, 32_767, 32_768, 65_535,
    65_536, 65_537, 1 << 24, (1 << 31) - 1, 1 << 31, (1 << 31) + 1, 3_999_999_999, 4_000_000_000,
    4_000_000_001, u32::MAX - 256, u32::MAX - 7, u32::MAX - 1, u32::MAX,
];

pub fn wild(random: &mut Random) -> u32 {
    if random.one_in(5) {
        random.next() as u32
    } else {
        random.pick(WILD)
    }
}

const WIDE: &[u64] = &[
    SHORT - 1, SHORT, SHORT + 1, SHORT + 2, SHORT + 256, SHORT + 257, 1 << 33, (1 << 40) + 3,
    LAST_CLOCK - 1, LAST_CLOCK, LAST_CLOCK + 1, (1 << 63) - 1, 1 << 63, (1 << 63) + 1,
    u64::MAX - 256, u64::MAX - 7, u64::MAX - 1, u64::MAX,
];

pub fn wild_wide(random: &mut Random) -> u64 {
    match random.below(5) {
        0 => random.next(),
        1 => wild(random).into(),
        _ => random.pick(WIDE),
    }
}

/// Places in `KINDS`.
const KIND_UNPIN: usize = 3;
const KIND_END: usize = 4;
pub const KIND_TICK: usize = 5;
pub const KIND_BORDERS: usize = 9;

/// The length of the list of a tick: most often just enough, now and then too short or longer.
fn list_length(random: &mut Random) -> usize {
    let length = match random.below(20) {
        0 => random.below(LIST as u64),
        1 => random.pick(&[0, 1, 7, 8, 248, 254, 255]),
        2..=3 => random.between(LIST as u64 + 1, LIST as u64 + 16),
        4 => random.between(LIST as u64, 2000),
        _ => LIST as u64,
    };
    length as usize
}

/// Borders that do not fall and are at most 4,096.
fn some_borders(random: &mut Random) -> [u64; 3] {
    match random.below(8) {
        0..=2 => FIRST_BORDERS,
        3..=4 => random.pick(&[
            // one class empty
            [0, 2048, 3072],
            [2048, 2048, 3072],
            [1024, 3072, 3072],
            [1024, 2048, 4096],
            // every page in one class
            [0, 0, 0],
            [0, 0, 4096],
            [0, 4096, 4096],
            [4096, 4096, 4096],
            // classes of one page
            [1, 2, 3],
            [4093, 4094, 4095],
        ]),
        _ => {
            let most = random.pick(&[200, 4096, 4096]);
            let mut borders = [0; 3].map(|_| random.below(most + 1));
            borders.sort_unstable();
            borders
        }
    }
}

/// What one run is made of.
pub struct Scenario {
    pub slots: u32,
    pub delay: u64,
    /// The borders that are set most often.
    pub borders: [u64; 3],
    pub pages: Vec<u32>,
    pub length: u64,
    /// Row numbers below this are used.
    rows: u64,
    /// Deadlines lie this far ahead.
    span: u64,
    /// Among 100 begins, those with the deadline of a live row of the same level, if there is one.
    equal: u64,
    /// Writes among 100 requests.
    writes: u64,
    /// Weights of the calls, in the order of `KINDS`.
    weights: [u64; 10],
    /// For so many ticks most calls but unpins are those of one level, the highest first, and rows of
    /// lower levels end; 0 if not. So higher levels come to hold slots that lower ones then take.
    focus: u64,
    /// Calls that set borders, among 100 calls while every row is free, as before a begin.
    early: u64,
    /// One number in so many is wild; 0 for none.
    wild: u64,
    /// Deadlines and delays may be 2^32 or more.
    pub wide: bool,
}

impl Scenario {
    pub fn random(random: &mut Random) -> Scenario {
        let slots = match random.below(100) {
            0..=17 => 1,
            18..=37 => 2,
            38..=57 => 3,
            58..=73 => 5,
            74..=85 => 8,
            86..=93 => 64,
            _ => random.between(1, 64),
        };
        Scenario::with_slots(slots, random)
    }

    pub fn with_slots(slots: u64, random: &mut Random) -> Scenario {
        let delay = random.pick(&[1, 1, 1, 2, 2, 3, 4, 7, 20, 255]);
        let borders = some_borders(random);
        let ends = [0, borders[0], borders[1], borders[2], 4096];
        let extra = random.pick(&[1, 2, 3, slots / 2 + 1, slots + 1]);
        let number = (slots + extra).max(2);
        let spread = random.pick(&[1, 2, 4, 4, 4]);
        let first = random.below(4 - spread + 1);
        let mut pages = Vec::new();
        let border = random.percent(30);
        for place in 0..number {
            let class = (first + random.below(spread)) as usize;
            let (low, width) = (ends[class], ends[class + 1] - ends[class]);
            let page = if place >= width {
                random.below(4096)
            } else if border && random.percent(40) {
                random.pick(&[low, low + width - 1])
            } else {
                low + place
            };
            pages.push(page as u32);
        }
        let full = slots > 16;
        let busy = random.below(4);
        let weights = [
            1,
            if full { 12 } else { 14 },
            if full { 70 } else { 45 },
            random.pick(&[5, 25, 60]),
            random.pick(&[1, 2, 6]),
            random.pick(&[4, 10, 20]),
            if busy == 0 { 1 } else { 5 },
            if busy == 0 { 1 } else { 6 },
            if busy == 0 { 1 } else { 4 },
            1,
        ];
        let scenario = Scenario {
            slots: slots as u32,
            delay,
            borders,
            pages,
            length: if full { random.between(800, 4000) } else { random.between(60, 700) },
            rows: random.pick(&[1, 2, 3, 8, 8]),
            span: if full {
                random.pick(&[30, 300, 3000])
            } else {
                random.pick(&[4, 12, 40, 200, 1000])
            },
            equal: random.pick(&[0, 30, 60, 90]),
            writes: random.pick(&[5, 30, 50]),
            weights,
            focus: if full { 0 } else { random.pick(&[0, 0, 2, 5, 12]) },
            early: random.pick(&[0, 20, 50, 80]),
            wild: random.pick(&[0, 30, 100]),
            wide: false,
        };
        if (2..=8).contains(&slots) && random.percent(60) {
            scenario.of_rivals(random)
        } else {
            scenario
        }
    }

    /// The same with many live rows of equal deadline at a level, which often let go of their pins.
    fn of_rivals(mut self, random: &mut Random) -> Scenario {
        self.delay = random.pick(&[1, 1, 2]);
        self.rows = random.pick(&[3, 5, 8]);
        self.span = random.pick(&[40, 200, 1000]);
        self.equal = 95;
        self.weights[KIND_UNPIN] = random.pick(&[10, 40, 80]);
        self.weights[KIND_END] = random.pick(&[3, 8]);
        self.weights[KIND_TICK] = 12;
        self.focus = random.pick(&[0, 3, 6, 12]);
        self
    }

    fn wild_here(&self, random: &mut Random) -> bool {
        self.wild != 0 && random.one_in(self.wild)
    }

    fn tame(&self, random: &mut Random, number: u64) -> u32 {
        if self.wild_here(random) {
            wild(random)
        } else {
            number as u32
        }
    }

    fn tame_wide(&self, random: &mut Random, number: u64) -> u64 {
        if !self.wide {
            self.tame(random, number).into()
        } else if self.wild_here(random) {
            wild_wide(random)
        } else {
            number
        }
    }

    fn deadline(&self, random: &mut Random, state: &State, level: u64) -> u64 {
        let clock = state.clock;
        let equals: Vec<u64> = state
            .rows
            .iter()
            .filter(|(id, row)| id.0 == level && row.live())
            .map(|(_, row)| row.deadline)
            .collect();
        if !equals.is_empty() && random.percent(self.equal) {
            return random.pick(&equals);
        }
        let deadline = match random.below(20) {
            0 => clock.saturating_sub(random.between(1, 3)),
            1..=7 => (clock / self.span + 1) * self.span + self.span / 2,
            8 if self.wide => match random.below(3) {
                0 => u64::MAX - random.below(4),
                1 => SHORT - 1 + random.below(4),
                // An early one by its lower half.
                _ => (clock | SHORT) + 1 + random.below(self.span),
            },
            8 => SHORT - random.below(4),
            _ => clock + random.below(self.span),
        };
        if self.wide {
            deadline
        } else {
            deadline.min(SHORT)
        }
    }

    /// A row of one of the levels that fits, most of the time.
    fn row(
        &self,
        random: &mut Random,
        state: &State,
        levels: &[u64],
        share: u64,
        fits: impl Fn(&Row) -> bool,
    ) -> RowId {
        if random.percent(share) {
            let list: Vec<RowId> = state
                .rows
                .iter()
                .filter(|(id, row)| levels.contains(&id.0) && id.1 < self.rows && fits(row))
                .map(|(id, _)| *id)
                .collect();
            if !list.is_empty() {
                return random.pick(&list);
            }
        }
        (random.pick(levels), random.below(self.rows))
    }

    pub fn page(&self, random: &mut Random, state: &State) -> u64 {
        let list: Vec<u64> = match random.below(10) {
            0..=2 => state.filled.values().map(|slot| slot.page).collect(),
            3..=5 => self
                .pages
                .iter()
                .map(|page| u64::from(*page))
                .filter(|page| state.slot_of(*page).is_none())
                .collect(),
            _ => Vec::new(),
        };
        if list.is_empty() {
            random.pick(&self.pages).into()
        } else {
            random.pick(&list)
        }
    }

    /// A random call by one of these levels, or one of the server's.
    pub fn call(&self, random: &mut Random, state: &State, levels: &[u64]) -> Call {
        if state.every_row_free() && random.percent(self.early) {
            return self.call_of_kind(random, KIND_BORDERS, state, levels);
        }
        let mut at = random.below(self.weights.iter().sum());
        let mut kind = 0;
        while at >= self.weights[kind] {
            at -= self.weights[kind];
            kind += 1;
        }
        let mut levels = levels;
        let level;
        if self.focus != 0 {
            let last = levels.len() as u64 - 1;
            level = levels[(last - state.clock / self.focus % (last + 1)) as usize];
            let lower: Vec<RowId> = state
                .rows
                .iter()
                .filter(|(id, row)| levels.contains(&id.0) && id.0 < level && **row != Row::FREE)
                .map(|(id, _)| *id)
                .collect();
            if !lower.is_empty() && random.percent(15) {
                let (level, row) = random.pick(&lower);
                return Call::End { level: level as u32, row: row as u32 };
            }
            if kind != KIND_UNPIN && random.percent(85) {
                levels = std::slice::from_ref(&level);
            }
        }
        if random.percent(90) {
            kind = self.useful(random, kind, state, levels);
        }
        self.call_of_kind(random, kind, state, levels)
    }

    /// Another kind where the one drawn could only be refused.
    fn useful(&self, random: &mut Random, kind: usize, state: &State, levels: &[u64]) -> usize {
        let some = |fits: &dyn Fn(&Row) -> bool| {
            state.rows.iter().any(|(id, row)| levels.contains(&id.0) && id.1 < self.rows && fits(row))
        };
        let free = some(&|row| row.condition == Condition::Free);
        let idle = some(&|row| row.condition == Condition::Idle);
        let killed = some(&|row| matches!(row.condition, Condition::Killed(_)));
        let fits = match kind {
            1 => free,
            2 => idle,
            3 => state.holdings.iter().any(|((_, id), holding)| {
                levels.contains(&id.0)
                    && holding.pin != Pin::None
                    && state.rows[id].condition == Condition::Idle
            }),
            _ => true,
        };
        if fits {
            return kind;
        }
        let mut others = vec![KIND_TICK];
        if free {
            others.extend([1, 1]);
        }
        if idle {
            others.extend([2, 2, 2, 2]);
        }
        if killed {
            others.extend([4, 4]);
        }
        random.pick(&others)
    }

    pub fn call_of_kind(
        &self,
        random: &mut Random,
        kind: usize,
        state: &State,
        levels: &[u64],
    ) -> Call {
        let free = |row: &Row| row.condition == Condition::Free;
        let idle = |row: &Row| row.condition == Condition::Idle;
        let killed = |row: &Row| matches!(row.condition, Condition::Killed(_));
        match kind {
            0 => {
                let (mut slots, mut delay) = (self.slots, self.delay);
                match random.below(20) {
                    0 => {}
                    1 if self.wide => (slots, delay) = (wild(random), wild_wide(random)),
                    1 => (slots, delay) = (wild(random), wild(random).into()),
                    2..=10 => slots = random.pick(&[0, 65, 66, 256, 257, 1 << 16, u32::MAX]),
                    11..=15 if self.wide => {
                        let lower = random.pick(&[0, 1, 2, 255]);
                        delay = (random.pick(&[1, 2, 1 << 31, SHORT]) << 32) + lower;
                    }
                    _ => delay = random.pick(&[0, 256, 257, 511, 512, 1 << 16, SHORT]),
                }
                Call::Start { slots, delay }
            }
            1 => {
                let (level, row) = self.row(random, state, levels, 90, free);
                let deadline = self.deadline(random, state, level);
                Call::Begin {
                    level: self.tame(random, level),
                    row: self.tame(random, row),
                    deadline: self.tame_wide(random, deadline),
                }
            }
            2 => {
                let (level, row) = self.row(random, state, levels, 93, idle);
                let page = self.page(random, state);
                let mut mode = random.percent(self.writes) as u64;
                if random.percent(94) {
                    let wanted = if mode == 0 { Mode::Read } else { Mode::Write };
                    if !state.allowed(level, page, wanted) {
                        mode = 1 - mode;
                    }
                }
                Call::Request {
                    level: self.tame(random, level),
                    row: self.tame(random, row),
                    page: self.tame(random, page),
                    mode: self.tame(random, mode),
                }
            }
            3 => {
                let pinned: Vec<(RowId, u64)> = if random.percent(85) {
                    state
                        .holdings
                        .iter()
                        .filter(|((_, row), holding)| {
                            holding.pin != Pin::None
                                && levels.contains(&row.0)
                                && state.rows[row].condition == Condition::Idle
                        })
                        .map(|((slot, row), _)| (*row, state.filled[slot].page))
                        .collect()
                } else {
                    Vec::new()
                };
                let ((level, row), page) = if pinned.is_empty() {
                    (self.row(random, state, levels, 80, idle), self.page(random, state))
                } else {
                    random.pick(&pinned)
                };
                Call::Unpin {
                    level: self.tame(random, level),
                    row: self.tame(random, row),
                    page: self.tame(random, page),
                }
            }
            4 => {
                let (level, row) = if random.percent(60) {
                    self.row(random, state, levels, 95, killed)
                } else {
                    self.row(random, state, levels, 80, |row: &Row| !free(row))
                };
                Call::End { level: self.tame(random, level), row: self.tame(random, row) }
            }
            KIND_TICK => Call::Tick { list: list_length(random) },
            6 => {
                let (level, row) = self.row(random, state, levels, 70, |row: &Row| !free(row));
                Call::Look { level: self.tame(random, level), row: self.tame(random, row) }
            }
            7 => {
                let level = random.pick(levels);
                let page = self.page(random, state);
                Call::View { level: self.tame(random, level), page: self.tame(random, page) }
            }
            8 => {
                let level = random.pick(levels);
                Call::Count { level: self.tame(random, level) }
            }
            _ => {
                let mut borders = if random.percent(50) { self.borders } else { some_borders(random) };
                match random.below(12) {
                    0 => borders.swap(0, 1),
                    1 => borders.swap(1, 2),
                    2 => borders[2] = random.pick(&[4097, 4098, 8192, 65_535]),
                    _ => {}
                }
                let [first, second, third] = borders.map(|border| self.tame(random, border));
                Call::Borders { first, second, third }
            }
        }
    }

    /// A fresh state near the clock's end, near the end of the old clock or near 2^32.
    pub fn late_start(&mut self, random: &mut Random) -> State {
        let mut state = State::fresh(self.slots.into(), self.delay);
        state.clock = match random.below(3) {
            0 => LAST_CLOCK - random.below(30),
            1 => OLD_LAST_CLOCK - random.below(30),
            _ => SHORT - random.below(30),
        };
        self.wide |= state.clock > OLD_LAST_CLOCK;
        state
    }
}

/// A sound state made up field by field, most often one that no run reaches.
pub fn made_up(random: &mut Random) -> State {
    let slots = random.pick(&[1, 1, 2, 2, 3, 5, 8, 20, 64]);
    let delay = random.pick(&[1, 2, 3, 9, 255]);
    let mut state = State::fresh(slots, delay);
    state.clock = match random.below(20) {
        0..=1 => 0,
        2 => LAST_CLOCK - random.below(3),
        3 => random.below(LAST_CLOCK + 1),
        4 => OLD_LAST_CLOCK - 1 + random.below(3),
        5 => random.below(OLD_LAST_CLOCK + 1),
        6 => SHORT - 2 + random.below(6),
        _ => random.below(40),
    };
    state.borders = some_borders(random);
    if random.one_in(12) {
        return state;
    }
    state.begun = true;
    let clock = state.clock;
    let number = random.pick(&[slots, slots, slots, slots / 2]);
    let few_pages = random.percent(50);
    while (state.filled.len() as u64) < number {
        let page = if few_pages {
            1024 * random.below(4) + random.below(slots)
        } else {
            random.below(4096)
        };
        if state.slot_of(page).is_some() {
            continue;
        }
        let arrival = match random.below(4) {
            0 => clock + random.below(delay + 1),
            1 => clock,
            _ => clock - random.below(clock.min(6) + 1),
        };
        let slot = Slot {
            page,
            arrival,
            dirty: random.percent(40),
            lowest: random.pick(&[0, 0, 0, 1, 2, 3]),
            touch: clock - random.below(clock.min(4) + 1),
        };
        let place = loop {
            let place = random.below(slots);
            if !state.filled.contains_key(&place) {
                break place;
            }
        };
        state.filled.insert(place, slot);
    }
    let density = random.pick(&[3, 10, 30, 70]);
    let most_live = random.percent(60);
    let span = random.pick(&[2, 5, 100]);
    let ids: Vec<RowId> = state.rows.keys().copied().collect();
    for id in ids {
        let deadline = match random.below(60) {
            0..=1 => SHORT - random.below(3),
            2 => u64::MAX - random.below(3),
            _ => clock + random.below(span),
        };
        let deadline = deadline.max(clock);
        let mut row = Row { condition: Condition::Idle, deadline };
        match random.below(if most_live { 30 } else { 60 }) {
            0..=9 => {}
            10..=19 => row.condition = Condition::Fetching { due: clock + random.between(1, delay) },
            20..=27 => {
                let page = if random.percent(70) && !state.filled.is_empty() {
                    let pages: Vec<u64> = state.filled.values().map(|slot| slot.page).collect();
                    random.pick(&pages)
                } else {
                    random.below(4096)
                };
                let mode = if state.allowed(id.0, page, Mode::Read) { Mode::Read } else { Mode::Write };
                let mode = match random.below(2) {
                    0 if state.allowed(id.0, page, Mode::Write) => Mode::Write,
                    _ => mode,
                };
                row.condition = Condition::Waiting { page, mode };
            }
            28 => row = Row { condition: Condition::Killed(Cause::Late), deadline: 0 },
            29 => row = Row { condition: Condition::Killed(Cause::Taken), deadline: 0 },
            _ => row = Row::FREE,
        }
        if let Condition::Fetching { due } = row.condition {
            let free_to_pin: Vec<u64> = state
                .filled
                .iter()
                .filter(|(number, slot)| {
                    slot.arrival <= due
                        && slot.lowest <= id.0
                        && pins_left(&state, **number, id, slot.page).is_some()
                })
                .map(|(number, _)| *number)
                .collect();
            if free_to_pin.is_empty() {
                row.condition = Condition::Idle;
            } else {
                let number = random.pick(&free_to_pin);
                let slot = state.filled[&number];
                let pins = pins_left(&state, number, id, slot.page).unwrap();
                let touch = slot.touch - random.below(slot.touch.min(3) + 1);
                let pin = random.pick(&pins);
                state.holdings.insert((number, id), Holding { pin, arrival: due, touch });
            }
        }
        state.rows.insert(id, row);
        if !row.live() {
            continue;
        }
        let places: Vec<(u64, Slot)> = state.filled.iter().map(|(n, s)| (*n, *s)).collect();
        for (number, slot) in places {
            if !random.percent(density)
                || slot.arrival > clock
                || slot.lowest > id.0
                || state.holdings.contains_key(&(number, id))
            {
                continue;
            }
            let pin = match pins_left(&state, number, id, slot.page) {
                Some(pins) if random.percent(50) => random.pick(&pins),
                _ => Pin::None,
            };
            let arrival = slot.arrival + random.below((clock - slot.arrival).min(5) + 1);
            let touch = slot.touch - random.below(slot.touch.min(3) + 1);
            state.holdings.insert((number, id), Holding { pin, arrival, touch });
        }
    }
    let begun: Vec<RowId> =
        state.rows.iter().filter(|(_, row)| **row != Row::FREE).map(|(id, _)| *id).collect();
    for id in random.shuffled(begun) {
        state.joins(id);
    }
    state
}

/// The pins that a row may still take on a slot.
fn pins_left(state: &State, slot: u64, id: RowId, page: u64) -> Option<Vec<Pin>> {
    let pins: Vec<Pin> = state.holders(slot).iter().map(|(_, holding)| holding.pin).collect();
    let mut left = Vec::new();
    if state.allowed(id.0, page, Mode::Read) && !pins.contains(&Pin::Write) {
        left.push(Pin::Read);
    }
    if state.allowed(id.0, page, Mode::Write) && pins.iter().all(|pin| *pin == Pin::None) {
        left.push(Pin::Write);
    }
    (!left.is_empty()).then_some(left)
}
