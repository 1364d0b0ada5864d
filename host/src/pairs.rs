//! Demand 3 over pairs of runs: the calls of levels up to L and the ticks, with the lengths of their
//! lists, are the same in both, the calls of higher levels and the borders set are not. Where both runs
//! end with the same borders, what levels up to L are told must be the same. What the ticks put into
//! the lists is the server's, and is not compared. Begins and ends above L differ, too, and the begin
//! orders of levels up to L must be the same in both areas (T-06). In some pairs the areas of either run
//! are written in the last 32-bit layout before some of its calls, as if the server's software had been
//! exchanged, and some pairs begin at a late clock (T-07).

use crate::calls::*;
use crate::lent::{difference as difference_of, Lent};
use crate::model::{place_at, set_word, Condition, Layout, State, Tally, CLOCK_AT, VERSION_AT};
use crate::random::Random;
use crate::scenario::Scenario;

pub const PAIRS: u64 = 1_000;

/// A tick, or a call made by level L or below. Starts and borders are never kept.
fn kept(call: &Call, most: u64) -> bool {
    match call {
        Call::Tick { .. } => true,
        _ => call.level().is_some_and(|level| u64::from(level) <= most),
    }
}

/// A start that would be accepted, which neither run may have.
fn restart(call: &Call) -> bool {
    matches!(call, Call::Start { slots: 1..=64, delay: 1..=255 })
}

/// What levels up to L are told.
#[derive(PartialEq, Debug)]
enum Told {
    Answer(Call, (u32, u64, u64)),
    /// A row's delivery and its tick.
    Delivery((u64, u64), u64),
    /// A look, view or count made afterwards.
    After(Call, (u32, u64, u64)),
}

struct Side<'a> {
    manager: &'a Manager,
    lent: Lent,
    /// Tells when the area is written in the old layout: before so many calls of 100.
    random: Random,
    old: u64,
    /// Calls that got an old area: those that left it old and those that left it new.
    on_old: [u64; 2],
    /// Guides the choice of calls; the answers are the manager's.
    state: State,
    most: u64,
    /// Rows up to L whose look would be fetch or wait, by the answers they got.
    pending: Vec<(u64, u64)>,
    clock: u64,
    /// What they were told since it was last compared.
    told: Vec<Told>,
    /// What the last tick put into its list.
    fills: Vec<Fill>,
    /// Rows up to L that a tick turned from wait to fetch or to idle.
    filled: [u64; 2],
    /// Kept ticks that were refused by 21.
    short: u64,
    /// Calls that are not kept, borders apart: all, and those accepted.
    higher: [u64; 2],
    /// Begins and ends among those accepted.
    higher_rows: [u64; 2],
    borders: [u64; 2],
    /// Kept requests in which the begin order decided, and those in which row numbers would have
    /// decided otherwise.
    by_order: [u64; 2],
}

impl<'a> Side<'a> {
    fn new(
        manager: &'a Manager,
        random: &mut Random,
        fresh: &State,
        most: u64,
        old: u64,
    ) -> Side<'a> {
        let mut lent = Lent::random(random);
        lent.call(manager, &Call::Start { slots: fresh.slots as u32, delay: fresh.delay });
        set_word(lent.area(), CLOCK_AT, fresh.clock);
        Side {
            manager,
            lent,
            random: Random::new(random.next(), 0),
            old,
            on_old: [0; 2],
            state: fresh.clone(),
            most,
            pending: Vec::new(),
            clock: fresh.clock,
            told: Vec::new(),
            fills: Vec::new(),
            filled: [0; 2],
            short: 0,
            higher: [0; 2],
            higher_rows: [0; 2],
            borders: [0; 2],
            by_order: [0; 2],
        }
    }

    fn layout(&self) -> Layout {
        Layout::of(self.lent.state_bytes())
    }

    /// Writes the area in the old layout, now and then. The words are the same.
    fn make_old(&mut self) {
        if self.random.percent(self.old) && self.state.fits_old() {
            set_word(self.lent.area(), VERSION_AT, Layout::Old.version());
        }
    }

    fn ask(&mut self, call: Call) -> Outcome {
        let old = self.layout() == Layout::Old;
        self.lent.renew_list(&call);
        let outcome = self.lent.call(self.manager, &call);
        if old {
            self.on_old[(self.layout() == Layout::New) as usize] += 1;
        }
        outcome
    }

    fn look(&mut self, row: (u64, u64)) -> Outcome {
        self.ask(Call::Look { level: row.0 as u32, row: row.1 as u32 })
    }

    fn make(&mut self, call: &Call) {
        let counted = kept(call, self.most) && matches!(call, Call::Request { .. });
        let mut tally = if counted { Tally::with_ties() } else { Tally::default() };
        self.make_old();
        self.state.call(call, &mut tally);
        if !kept(call, self.most) {
            let outcome = self.ask(*call);
            let accepted = (outcome.status == 0) as u64;
            let calls = match call {
                Call::Borders { .. } => &mut self.borders,
                _ => &mut self.higher,
            };
            calls[0] += 1;
            calls[1] += accepted;
            self.higher_rows[0] += accepted * matches!(call, Call::Begin { .. }) as u64;
            self.higher_rows[1] += accepted * matches!(call, Call::End { .. }) as u64;
            return;
        }
        if let Some(ties) = tally.ties {
            for (times, ties) in self.by_order.iter_mut().zip(ties.sum()) {
                *times += (ties > 0) as u64;
            }
        }
        let tick = matches!(call, Call::Tick { .. });
        let mut fetching_or_waiting = Vec::new();
        if tick {
            for row in self.pending.clone() {
                let word = self.look(row).answer[0];
                if matches!(word, FETCH | WAIT) {
                    fetching_or_waiting.push((row, word));
                }
            }
        }
        let outcome = self.ask(*call);
        self.told.push(Told::Answer(*call, outcome.told()));
        self.short += (outcome.status == 21) as u64;
        if tick && outcome.status == 0 {
            self.clock = outcome.answer[1];
            for (row, before) in fetching_or_waiting {
                let word = self.look(row).answer[0];
                if word == IDLE {
                    self.told.push(Told::Delivery(row, self.clock));
                    self.pending.retain(|other| *other != row);
                }
                if before == WAIT && matches!(word, FETCH | IDLE) {
                    self.filled[(word == IDLE) as usize] += 1;
                }
            }
            self.fills = outcome.fills.clone();
        }
        if let Call::Request { level, row, .. } = *call {
            let row = (level.into(), row.into());
            if outcome.status == 0 {
                self.pending.retain(|other| *other != row);
            }
            match outcome.answer[0] {
                READY => self.told.push(Told::Delivery(row, self.clock)),
                FETCH | WAIT => self.pending.push(row),
                _ => {}
            }
        }
    }

    /// Sets the borders that both runs are to end with, unless it is too late or not needed.
    fn aim(&mut self, borders: [u64; 3]) {
        if !self.state.begun && self.state.borders != borders {
            let [first, second, third] = borders.map(|border| border as u32);
            self.make(&Call::Borders { first, second, third });
        }
    }

    /// Makes a call, after the borders aimed at if the run may begin with it, most of the time.
    fn make_aimed(&mut self, random: &mut Random, call: &Call, borders: [u64; 3]) {
        if matches!(call, Call::Begin { .. }) && random.percent(95) {
            self.aim(borders);
        }
        self.make(call);
    }

    /// Every look, some views and every count that levels up to L can make now.
    fn afterwards(&mut self, pages: &[u32]) {
        for level in 0..=self.most as u32 {
            for row in 0..8 {
                self.after(Call::Look { level, row });
            }
            for page in pages {
                self.after(Call::View { level, page: *page });
            }
            self.after(Call::Count { level });
        }
    }

    fn after(&mut self, call: Call) {
        self.make_old();
        let outcome = self.ask(call);
        self.told.push(Told::After(call, outcome.told()));
    }
}

/// Whether two live rows of one level up to L have one deadline.
fn equals(state: &State, most: u64) -> bool {
    let live: Vec<(u64, u64)> = state
        .rows
        .iter()
        .filter(|(id, row)| id.0 <= most && row.live())
        .map(|(id, row)| (id.0, row.deadline))
        .collect();
    live.iter().enumerate().any(|(at, one)| live[..at].contains(one))
}

/// A call that is not kept: by a higher level, by a level above 3, a refused start, or borders.
fn higher_call(random: &mut Random, scenario: &Scenario, state: &State, most: u64) -> Call {
    let levels: Vec<u64> = if most == 3 { vec![4, 5] } else { (most + 1..4).collect() };
    loop {
        // A killed row is of no use, so it is often begun again.
        let killed: Vec<(u64, u64)> = state
            .rows
            .iter()
            .filter(|(id, row)| id.0 > most && matches!(row.condition, Condition::Killed(_)))
            .map(|(id, _)| *id)
            .collect();
        if !killed.is_empty() && random.percent(15) {
            let (level, row) = random.pick(&killed);
            return Call::End { level: level as u32, row: row as u32 };
        }
        let call = scenario.call(random, state, &levels);
        if !kept(&call, most) && !restart(&call) {
            return call;
        }
    }
}

/// In what the two runs differed after a kept call.
const DIFFERENCES: [&str; 7] = [
    "areas",
    "layouts of the areas",
    "slots of pages",
    "borders",
    "whether a row has begun",
    "the last tick's fills",
    "the begin order of a higher level",
];

#[derive(Default)]
struct Found {
    compared: u64,
    /// Pairs that ended with other borders, and those of them that were told something else.
    apart: u64,
    apart_told: u64,
    kept: u64,
    higher: [u64; 2],
    higher_rows: [u64; 2],
    borders: [u64; 2],
    by_order: [u64; 2],
    /// Kept calls after which two live rows of a level up to L had one deadline.
    equal: u64,
    deliveries: u64,
    waits: u64,
    killed: u64,
    after: u64,
    /// Kept calls after which the runs differed, as `DIFFERENCES` has them, and pairs with such.
    differed: [u64; DIFFERENCES.len()],
    pairs_differed: [u64; DIFFERENCES.len()],
    filled: [u64; 2],
    short: u64,
    /// Pairs that began at a late clock.
    late: u64,
    /// Pairs in which areas were written in the old layout, and the calls that got them.
    old: u64,
    on_old: [u64; 2],
}

fn pair(manager: &Manager, seed: u64, number: u64, found: &mut Found) -> Result<(), String> {
    let mut random = Random::new(seed, number);
    let random = &mut random;
    let most = random.pick(&[0, 0, 1, 1, 1, 2, 2, 2, 2, 3]);
    let slots = random.pick(&[1, 1, 2, 2, 2, 3, 3, 3, 5, 5, 8, 16]);
    let mut scenario = Scenario::with_slots(slots, random);
    scenario.wide = random.percent(30);
    let borders = scenario.borders;
    let mut pages = scenario.pages.clone();
    pages.truncate(8);
    pages.push(random.below(4096) as u32);
    let low: Vec<u64> = (0..=most).collect();
    let [old_first, old_second] = random.pick(&[[0, 0], [0, 0], [20, 20], [60, 0], [0, 60], [100, 100]]);
    let late = random.percent(15);
    let fresh = if late {
        scenario.late_start(random)
    } else {
        State::fresh(slots, scenario.delay)
    };
    let mut first = Side::new(manager, random, &fresh, most, old_first);
    let mut second = Side::new(manager, random, &fresh, most, old_second);
    let first_share = random.pick(&[20, 50, 80]);
    // How the second run's higher calls come from the first's: all gone, all new, or some of each.
    let (removed, changed, added) = random.pick(&[(100, 0, 0), (100, 0, 60), (30, 30, 20), (10, 5, 5)]);
    let ask_often = random.pick(&[10, 40, 100]);
    // So many steps pass before a level up to L begins.
    let opening = random.pick(&[0, 0, 10, 40]);
    let mut kept_calls = 0;
    let mut made = 0;
    let mut differed = [0; DIFFERENCES.len()];
    let mut equal = 0;
    let mut difference = None;
    let mut told = Vec::new();
    let length = random.between(40, 220);
    while kept_calls < length {
        made += 1;
        if random.percent(first_share) {
            let call = higher_call(random, &scenario, &first.state, most);
            first.make_aimed(random, &call, borders);
            if !random.percent(removed) {
                let call = if random.percent(changed) {
                    higher_call(random, &scenario, &second.state, most)
                } else {
                    call
                };
                second.make_aimed(random, &call, borders);
            }
        } else {
            if random.percent(added) {
                for _ in 0..random.between(1, 6) {
                    let call = higher_call(random, &scenario, &second.state, most);
                    second.make_aimed(random, &call, borders);
                }
            }
            let call = scenario.call(random, &first.state, &low);
            if !kept(&call, most) {
                if !restart(&call) {
                    let side = if random.percent(50) { &mut first } else { &mut second };
                    side.make(&call);
                }
                continue;
            }
            if made <= opening && matches!(call, Call::Begin { .. }) {
                continue;
            }
            kept_calls += 1;
            first.make_aimed(random, &call, borders);
            second.make_aimed(random, &call, borders);
            if kept_calls == length && random.percent(95) {
                first.aim(borders);
                second.aim(borders);
            }
            if random.one_in(ask_often) || kept_calls == length {
                first.afterwards(&pages);
                second.afterwards(&pages);
            }
            let (one, other) = (std::mem::take(&mut first.told), std::mem::take(&mut second.told));
            if difference.is_none() && one != other {
                let text = match one.iter().zip(&other).find(|(a, b)| a != b) {
                    Some((a, b)) => format!("{a:?} in one run, {b:?} in the other"),
                    None => format!("{one:?} in one run, {other:?} in the other"),
                };
                difference = Some(format!("step {made}, kept call {kept_calls}: {text}"));
            }
            // The runs up to here are a pair too.
            if first.state.borders == second.state.borders {
                if let Some(text) = difference {
                    return Err(format!("seed {seed}, pair {number}, level {most}, {text}"));
                }
            }
            told.extend(one);
            let own = place_at((0, 0))..place_at((most, 7)) + 8;
            let (one, other) = (&first.lent.state_bytes()[own.clone()], &second.lent.state_bytes()[own]);
            if one != other {
                return Err(format!(
                    "seed {seed}, pair {number}, level {most}, step {made}, kept call {kept_calls}: the begin orders up to the level are not the same: {}",
                    difference_of(one, other)
                ));
            }
            equal += equals(&first.state, most) as u64;
            let places = |state: &State| -> Vec<Option<u64>> {
                scenario.pages.iter().map(|page| state.slot_of((*page).into())).collect()
            };
            let now = [
                first.lent.state_bytes()[16..] != second.lent.state_bytes()[16..],
                first.layout() != second.layout(),
                places(&first.state) != places(&second.state),
                first.state.borders != second.state.borders,
                first.state.begun != second.state.begun,
                first.fills != second.fills,
                first.state.order != second.state.order,
            ];
            for (times, now) in differed.iter_mut().zip(now) {
                *times += now as u64;
            }
        }
    }
    first.lent.guards()?;
    second.lent.guards()?;
    if first.state.borders != second.state.borders {
        found.apart += 1;
        found.apart_told += difference.is_some() as u64;
        return Ok(());
    }
    found.compared += 1;
    found.late += late as u64;
    found.old += (old_first + old_second > 0) as u64;
    found.kept += kept_calls;
    found.equal += equal;
    for side in [&first, &second] {
        for at in 0..2 {
            found.higher[at] += side.higher[at];
            found.higher_rows[at] += side.higher_rows[at];
            found.borders[at] += side.borders[at];
            found.by_order[at] += side.by_order[at];
            found.filled[at] += side.filled[at];
            found.on_old[at] += side.on_old[at];
        }
        found.short += side.short;
    }
    for at in 0..DIFFERENCES.len() {
        found.differed[at] += differed[at];
        found.pairs_differed[at] += (differed[at] > 0) as u64;
    }
    for told in &told {
        match told {
            Told::Answer(_, (_, word, _)) => found.waits += (*word == WAIT) as u64,
            Told::Delivery(..) => found.deliveries += 1,
            Told::After(_, (_, word, _)) => {
                found.after += 1;
                found.killed += (*word == TAKEN) as u64;
            }
        }
    }
    Ok(())
}

pub fn pairs(manager: &Manager, number: u64, seed: u64) -> Result<(), String> {
    println!("pairs: {number} pairs of runs, seed {seed}, {}", manager.name);
    let mut found = Found::default();
    for at in 0..number {
        pair(manager, seed, at, &mut found).map_err(|text| format!("pairs: {text}"))?;
    }
    println!(
        "  {} pairs ended with the same borders; {} did not, {} of these were told something else",
        found.compared, found.apart, found.apart_told
    );
    println!(
        "  {} kept calls answered alike, beside {} higher calls ({} accepted) and {} of borders ({} accepted)",
        found.kept, found.higher[0], found.higher[1], found.borders[0], found.borders[1]
    );
    println!(
        "  {} deliveries, {} waits, {} looks, views and counts afterwards ({} of them taken)",
        found.deliveries, found.waits, found.after, found.killed
    );
    println!(
        "  {} waits turned to fetch by a tick and {} to idle; {} ticks refused by 21",
        found.filled[0], found.filled[1], found.short
    );
    println!(
        "  {} begins and {} ends of higher levels accepted; {} kept calls left live rows of equal level and deadline",
        found.higher_rows[0], found.higher_rows[1], found.equal
    );
    println!(
        "  the begin order decided in {} kept requests, in {} of them otherwise than row numbers",
        found.by_order[0], found.by_order[1]
    );
    println!(
        "  {} pairs began at a late clock; in {} areas of the last 32-bit layout were lent: {} calls left them old, {} new",
        found.late, found.old, found.on_old[0], found.on_old[1]
    );
    for (at, name) in DIFFERENCES.iter().enumerate() {
        println!(
            "  after {} kept calls, in {} pairs, the two runs differed in {name}",
            found.differed[at], found.pairs_differed[at]
        );
    }
    let little = found.compared < number * 3 / 4
        || found.deliveries == 0
        || found.waits == 0
        || found.filled.contains(&0)
        || found.short == 0
        || found.higher_rows.contains(&0)
        || found.by_order.contains(&0)
        || found.late == 0
        || found.on_old.contains(&0)
        || found.equal < found.kept / 10
        || found.pairs_differed.iter().any(|pairs| *pairs < number / 20);
    if number >= 100 && little {
        return Err(format!("pairs: seed {seed}: the runs say nothing"));
    }
    Ok(())
}
