//! The ten calls, their answers and the words, as numbers.

/// The bytes of the area that the server lends.
pub const SIZE: usize = 65_536;
/// The bytes of the list that it lends to a tick, and those of an entry.
pub const LIST: usize = 256;
pub const ENTRY: usize = 8;
pub const LAST_CLOCK: u64 = 9_000_000_000_000_000_000;
/// The last clock of the last 32-bit layout.
pub const OLD_LAST_CLOCK: u64 = 4_000_000_000;

pub const REFUSED: u64 = 0;
pub const STARTED: u64 = 1;
pub const BEGUN: u64 = 2;
pub const READY: u64 = 3;
pub const FETCH: u64 = 4;
pub const WAIT: u64 = 5;
pub const UNPINNED: u64 = 6;
pub const ENDED: u64 = 7;
pub const CLOCK: u64 = 8;
pub const NONE: u64 = 9;
pub const IDLE: u64 = 10;
pub const LATE: u64 = 11;
pub const TAKEN: u64 = 12;
pub const UNSEEN: u64 = 13;
pub const ACTIVE: u64 = 14;
pub const READ: u64 = 15;
pub const WRITE: u64 = 16;
pub const DORMANT: u64 = 17;
pub const OPEN: u64 = 18;
pub const BORDERS: u64 = 19;

/// The words that a call answers. Number 20, `fill`, is the player's alone.
pub const WORDS: [&str; 20] = [
    "refused", "started", "begun", "ready", "fetch", "wait", "unpinned", "ended", "clock", "none",
    "idle", "late", "taken", "unseen", "active", "read", "write", "dormant", "open",
    "borders",
];

#[derive(Clone, Copy, Debug, PartialEq, Eq)]
pub enum Call {
    Start { slots: u32, delay: u64 },
    Begin { level: u32, row: u32, deadline: u64 },
    Request { level: u32, row: u32, page: u32, mode: u32 },
    Unpin { level: u32, row: u32, page: u32 },
    End { level: u32, row: u32 },
    /// With the length of the list that is lent.
    Tick { list: usize },
    Look { level: u32, row: u32 },
    View { level: u32, page: u32 },
    Count { level: u32 },
    Borders { first: u32, second: u32, third: u32 },
}

/// A tick with a list that is just long enough, as the player makes it.
pub const TICK: Call = Call::Tick { list: LIST };

pub const KINDS: [&str; 10] =
    ["start", "begin", "request", "unpin", "end", "tick", "look", "view", "count", "borders"];

impl Call {
    /// The call's place in `KINDS`.
    pub fn kind(&self) -> usize {
        match self {
            Call::Start { .. } => 0,
            Call::Begin { .. } => 1,
            Call::Request { .. } => 2,
            Call::Unpin { .. } => 3,
            Call::End { .. } => 4,
            Call::Tick { .. } => 5,
            Call::Look { .. } => 6,
            Call::View { .. } => 7,
            Call::Count { .. } => 8,
            Call::Borders { .. } => 9,
        }
    }

    pub fn level(&self) -> Option<u32> {
        match *self {
            Call::Start { .. } | Call::Borders { .. } | Call::Tick { .. } => None,
            Call::Begin { level, .. }
            | Call::Request { level, .. }
            | Call::Unpin { level, .. }
            | Call::End { level, .. }
            | Call::Look { level, .. }
            | Call::View { level, .. }
            | Call::Count { level } => Some(level),
        }
    }

    pub fn row(&self) -> Option<u32> {
        match *self {
            Call::Begin { row, .. }
            | Call::Request { row, .. }
            | Call::Unpin { row, .. }
            | Call::End { row, .. }
            | Call::Look { row, .. } => Some(row),
            _ => None,
        }
    }

    /// Look, view and count, which change nothing.
    pub fn asks(&self) -> bool {
        matches!(self, Call::Look { .. } | Call::View { .. } | Call::Count { .. })
    }

    /// The length of the list that is lent, 0 where none is.
    pub fn list_length(&self) -> usize {
        if let Call::Tick { list } = *self { list } else { 0 }
    }

    pub fn page(&self) -> Option<u32> {
        match *self {
            Call::Request { page, .. } | Call::Unpin { page, .. } | Call::View { page, .. } => {
                Some(page)
            }
            _ => None,
        }
    }
}

/// What the server is told of a waiting row that a tick has made ready or fetching.
#[derive(Clone, Copy, Debug, PartialEq, Eq)]
pub struct Fill {
    pub level: u64,
    pub row: u64,
    pub slot: u64,
    pub page: u64,
    /// The page to write back.
    pub back: Option<u64>,
}

impl Fill {
    /// The player's line without the record number.
    pub fn line(&self) -> String {
        let back = self.back.map_or("-".to_string(), |page| page.to_string());
        format!("fill {} | {} {}", 8 * self.level + self.row, self.slot, back)
    }
}

/// The entries that a list begins with, up to the first without a flag.
fn fills_in(list: &[u8]) -> Vec<Fill> {
    let pair = |entry: &[u8], at: usize| u64::from(entry[at]) << 8 | u64::from(entry[at + 1]);
    list[..LIST.min(list.len())]
        .chunks_exact(ENTRY)
        .take_while(|entry| entry[3] != 0)
        .map(|entry| Fill {
            level: entry[0].into(),
            row: entry[1].into(),
            slot: entry[2].into(),
            page: pair(entry, 4),
            back: (entry[3] != 1).then(|| pair(entry, 6)),
        })
        .collect()
}

/// What a call returns: the status, and word, value, slot + 1 or 0, page to write back + 1 or 0; and
/// what an accepted tick put into its list.
#[derive(Clone, Debug, PartialEq, Eq)]
pub struct Outcome {
    pub status: u32,
    pub answer: [u64; 4],
    pub fills: Vec<Fill>,
}

impl Outcome {
    pub fn said(word: u64, value: u64) -> Outcome {
        Outcome { status: 0, answer: [word, value, 0, 0], fills: Vec::new() }
    }

    pub fn refused(number: u32) -> Outcome {
        Outcome { status: number, answer: [REFUSED, number as u64, 0, 0], fills: Vec::new() }
    }

    /// Word and value: what a level is told.
    pub fn told(&self) -> (u32, u64, u64) {
        (self.status, self.answer[0], self.answer[1])
    }

    /// The player's lines without the record number: one, and one for each fill.
    pub fn lines(&self) -> Vec<String> {
        let word = WORDS.get(self.answer[0] as usize).copied().unwrap_or("?");
        let place = |n: u64| if n == 0 { "-".to_string() } else { (n - 1).to_string() };
        let (slot, back) = (place(self.answer[2]), place(self.answer[3]));
        let mut lines = vec![format!("{word} {} | {slot} {back}", self.answer[1])];
        lines.extend(self.fills.iter().map(Fill::line));
        lines
    }
}

/// One implementation of the ten calls over lent bytes. A tick has the area and the list.
pub struct Manager {
    pub name: &'static str,
    pub start: fn(&mut [u8], u32, u64, &mut [u64; 4]) -> u32,
    pub begin: fn(&mut [u8], u32, u32, u64, &mut [u64; 4]) -> u32,
    pub request: fn(&mut [u8], u32, u32, u32, u32, &mut [u64; 4]) -> u32,
    pub unpin: fn(&mut [u8], u32, u32, u32, &mut [u64; 4]) -> u32,
    pub end: fn(&mut [u8], u32, u32, &mut [u64; 4]) -> u32,
    pub tick: fn(&mut [u8], &mut [u8], &mut [u64; 4]) -> u32,
    pub look: fn(&[u8], u32, u32, &mut [u64; 4]) -> u32,
    pub view: fn(&[u8], u32, u32, &mut [u64; 4]) -> u32,
    pub count: fn(&[u8], u32, &mut [u64; 4]) -> u32,
    pub borders: fn(&mut [u8], u32, u32, u32, &mut [u64; 4]) -> u32,
}

/// What the answer holds before a call; every call must write all four numbers.
const STALE: u64 = 0xDEAD_BEEF_0BAD_F00D;

impl Manager {
    /// The call alone. The list is lent to a tick, and has the length that the call names.
    pub fn bare(&self, area: &mut [u8], list: &mut [u8], call: &Call, answer: &mut [u64; 4]) -> u32 {
        match *call {
            Call::Start { slots, delay } => (self.start)(area, slots, delay, answer),
            Call::Begin { level, row, deadline } => (self.begin)(area, level, row, deadline, answer),
            Call::Request { level, row, page, mode } => {
                (self.request)(area, level, row, page, mode, answer)
            }
            Call::Unpin { level, row, page } => (self.unpin)(area, level, row, page, answer),
            Call::End { level, row } => (self.end)(area, level, row, answer),
            Call::Tick { list: length } => {
                assert!(list.len() == length, "a list of {} bytes for {call:?}", list.len());
                (self.tick)(area, list, answer)
            }
            Call::Borders { first, second, third } => {
                (self.borders)(area, first, second, third, answer)
            }
            Call::Look { level, row } => (self.look)(area, level, row, answer),
            Call::View { level, page } => (self.view)(area, level, page, answer),
            Call::Count { level } => (self.count)(area, level, answer),
        }
    }

    pub fn call(&self, area: &mut [u8], list: &mut [u8], call: &Call) -> Outcome {
        let mut answer = [STALE; 4];
        let status = self.bare(area, list, call, &mut answer);
        let filled = status == 0 && matches!(call, Call::Tick { .. });
        Outcome { status, answer, fills: if filled { fills_in(list) } else { Vec::new() } }
    }

    /// The three calls that change nothing.
    pub fn ask(&self, area: &[u8], call: &Call) -> Outcome {
        let mut answer = [STALE; 4];
        let status = match *call {
            Call::Look { level, row } => (self.look)(area, level, row, &mut answer),
            Call::View { level, page } => (self.view)(area, level, page, &mut answer),
            Call::Count { level } => (self.count)(area, level, &mut answer),
            _ => panic!("{call:?} may change the area"),
        };
        Outcome { status, answer, fills: Vec::new() }
    }
}
