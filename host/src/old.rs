//! How often an area of the last 32-bit layout was taken over, answered from and left, or left by a
//! refusal (T-07).

use crate::calls::*;
use crate::model::SHORT;

const REQUEST_WORDS: [(u64, &str); 3] = [
    (READY, "request: takes it over, ready"),
    (FETCH, "request: takes it over, fetch"),
    (WAIT, "request: takes it over, wait"),
];
const FILLS: &str = "tick: takes it over and fills rows";
const LAST: &str = "tick: takes it over at clock 4,000,000,000";
const WIDE_BEGIN: &str = "begin: takes it over with a deadline of 2^32 or more";

/// What an accepted call of this kind does with it.
fn accepted(kind: usize) -> String {
    match KINDS[kind] {
        "start" => "start: begins anew in its place".to_string(),
        asks @ ("look" | "view" | "count") => format!("{asks}: answers and leaves it"),
        other => format!("{other}: takes it over"),
    }
}

fn refused(number: u32) -> String {
    format!("refusal {number}: leaves it")
}

/// What became of them, and how often. A good run has each.
pub struct OldAreas(Vec<(String, u64)>);

impl OldAreas {
    pub fn new() -> OldAreas {
        // 16 is not used, 17 is above the old clock, and 18 is the player's.
        let refusals = (1..=21).filter(|number| !(16..=18).contains(number)).map(refused);
        let special = REQUEST_WORDS.iter().map(|(_, name)| *name).chain([FILLS, LAST, WIDE_BEGIN]);
        let names = (0..KINDS.len()).map(accepted).chain(special.map(str::to_string)).chain(refusals);
        OldAreas(names.map(|name| (name, 0)).collect())
    }

    fn add(&mut self, name: &str) {
        let place = self.0.iter().position(|(other, _)| other == name);
        self.0[place.unwrap_or_else(|| panic!("an old area: {name}"))].1 += 1;
    }

    /// Notes a call on an old area, sound or refused with 1.
    pub fn note(&mut self, call: &Call, outcome: &Outcome) {
        if outcome.status != 0 {
            return self.add(&refused(outcome.status));
        }
        self.add(&accepted(call.kind()));
        match *call {
            Call::Request { .. } => {
                let (_, name) = REQUEST_WORDS.iter().find(|(word, _)| *word == outcome.answer[0]).unwrap();
                self.add(name);
            }
            Call::Tick { .. } => {
                if !outcome.fills.is_empty() {
                    self.add(FILLS);
                }
                if outcome.answer[1] == OLD_LAST_CLOCK + 1 {
                    self.add(LAST);
                }
            }
            Call::Begin { deadline, .. } if deadline > SHORT => self.add(WIDE_BEGIN),
            _ => {}
        }
    }

    pub fn counts(&self) -> &[(String, u64)] {
        &self.0
    }
}
