//! The player of documents 01 and 02 (T-02, T-04, T-07), played by the model, and random records for it.

use crate::calls::*;
use crate::compare::print_counts;
use crate::model::{self, State, Tally};
use crate::random::Random;
use crate::scenario::Scenario;

pub const HEADER: &str = "call word value | slot back";
/// The bytes of a record, and those of a wide one.
pub const RECORD: usize = 12;
pub const WIDE_RECORD: usize = 16;

/// Kinds of the player's records, by their byte.
const START: u8 = 0;
const BEGIN: u8 = 1;
const REQUEST: u8 = 2;
const UNPIN: u8 = 3;
const END: u8 = 4;
// Kind 5 is a bad record.
const KIND_TICK: u8 = 6;
const LOOK: u8 = 7;
const VIEW: u8 = 8;
const COUNT: u8 = 9;
const BORDERS: u8 = 10;

/// The bytes of the record that begins with this mark.
fn width_of(input: &[u8]) -> Option<usize> {
    match input {
        [0xC3, 0x5A, ..] => Some(RECORD),
        [0xC3, 0x5B, ..] => Some(WIDE_RECORD),
        _ => None,
    }
}

/// The first record of the input and its call, or nothing for a wrong mark, another kind or a cut record.
fn first_of(input: &[u8]) -> Option<(usize, Call)> {
    let width = width_of(input)?;
    Some((width, call_of(input.get(..width)?)?))
}

/// The call of a record that is not cut.
fn call_of(record: &[u8]) -> Option<Call> {
    let (level, row, mode) = (record[3].into(), record[4].into(), record[5].into());
    let page = u16::from_be_bytes([record[6], record[7]]).into();
    let value = record[8..].iter().fold(0, |value, byte| value << 8 | u64::from(*byte));
    Some(match record[2] {
        START => Call::Start { slots: page, delay: value },
        BEGIN => Call::Begin { level, row, deadline: value },
        REQUEST => Call::Request { level, row, page, mode },
        UNPIN => Call::Unpin { level, row, page },
        END => Call::End { level, row },
        // The player lends a list that is just long enough.
        KIND_TICK => TICK,
        LOOK => Call::Look { level, row },
        VIEW => Call::View { level, page },
        COUNT => Call::Count { level },
        BORDERS => {
            let halves = value as u32;
            Call::Borders { first: page, second: halves >> 16, third: halves & 0xFFFF }
        }
        _ => return None,
    })
}

/// The header and the lines of each record, answered by `call`. Refusal 18 ends them.
fn lines(mut input: &[u8], mut started: bool, mut call: impl FnMut(&Call) -> Outcome) -> String {
    let mut output = format!("{HEADER}\n");
    let mut number = 0;
    while !input.is_empty() {
        number += 1;
        let taken =
            first_of(input).filter(|(_, call)| started || matches!(call, Call::Start { .. }));
        let outcome = taken.map_or(Outcome::refused(18), |(_, taken)| call(&taken));
        for line in outcome.lines() {
            output += &format!("{number} {line}\n");
        }
        let Some((width, _)) = taken else { break };
        input = &input[width..];
        started |= outcome.status == 0;
    }
    output
}

/// What the player prints for these bytes on its input.
pub fn play(input: &[u8]) -> String {
    play_counted(input, &mut Tally::default())
}

fn play_counted(input: &[u8], tally: &mut Tally) -> String {
    let mut state = State::fresh(1, 1);
    lines(input, false, |call| state.call(call, tally))
}

/// What it would print with this area, which counts as started or not.
pub fn play_on(area: &mut [u8], started: bool, input: &[u8]) -> String {
    lines(input, started, |call| model::call(area, call, &mut Tally::default()))
}

/// The record of a call, a wide one if `unused` is as long. Fields that its kind does not use come from
/// `unused`. Nothing if a number does not fit its field, or if a tick's list is not the player's.
pub fn record_of(call: &Call, unused: &[u8]) -> Option<Vec<u8>> {
    let mut record = unused.to_vec();
    let width = record.len();
    record[0] = 0xC3;
    record[1] = match width {
        RECORD => 0x5A,
        WIDE_RECORD => 0x5B,
        _ => panic!("a record of {width} bytes"),
    };
    record[2] = match call {
        Call::Start { .. } => START,
        Call::Begin { .. } => BEGIN,
        Call::Request { .. } => REQUEST,
        Call::Unpin { .. } => UNPIN,
        Call::End { .. } => END,
        Call::Tick { list: LIST } => KIND_TICK,
        Call::Tick { .. } => return None,
        Call::Look { .. } => LOOK,
        Call::View { .. } => VIEW,
        Call::Count { .. } => COUNT,
        Call::Borders { .. } => BORDERS,
    };
    if let Some(level) = call.level() {
        record[3] = level.try_into().ok()?;
    }
    if let Some(row) = call.row() {
        record[4] = row.try_into().ok()?;
    }
    let half = |number: u32| u16::try_from(number).ok().map(u16::to_be_bytes);
    if let Some(page) = call.page() {
        record[6..8].copy_from_slice(&half(page)?);
    }
    match *call {
        Call::Start { slots, delay } => {
            record[6..8].copy_from_slice(&half(slots)?);
            put_value(&mut record, delay)?;
        }
        Call::Begin { deadline, .. } => put_value(&mut record, deadline)?,
        Call::Borders { first, second, third } => {
            record[6..8].copy_from_slice(&half(first)?);
            record[width - 4..width - 2].copy_from_slice(&half(second)?);
            record[width - 2..].copy_from_slice(&half(third)?);
        }
        Call::Request { mode, .. } => record[5] = mode.try_into().ok()?,
        _ => {}
    }
    Some(record)
}

/// Puts all of a value into a record, if it fits.
fn put_value(record: &mut [u8], value: u64) -> Option<()> {
    if record.len() == RECORD {
        record[8..].copy_from_slice(&u32::try_from(value).ok()?.to_be_bytes());
    } else {
        record[8..].copy_from_slice(&value.to_be_bytes());
    }
    Some(())
}

/// A long random run of so many records, half of them wide or none. It is started again now and then, so
/// that it meets several numbers of slots.
pub fn random_records(number: u64, seed: u64, wide: bool) -> Vec<u8> {
    let random = &mut Random::new(seed, 0);
    let mut bytes = Vec::new();
    let mut put = |random: &mut Random, call: &Call| -> bool {
        let width = if wide && random.percent(50) { WIDE_RECORD } else { RECORD };
        let mut unused = vec![0; width];
        if random.percent(50) {
            random.fill(&mut unused);
        }
        let record = record_of(call, &unused);
        let made = record.is_some();
        bytes.extend(record.unwrap_or_default());
        made
    };
    let mut made = 0;
    let mut first = true;
    while made < number {
        let mut scenario = Scenario::random(random);
        scenario.wide = wide;
        if first {
            // A refused start does not end the run.
            made += put(random, &Call::Start { slots: 65, delay: 1 }) as u64;
            first = false;
        }
        let start = Call::Start { slots: scenario.slots, delay: scenario.delay };
        let mut state = State::fresh(1, 1);
        state.call(&start, &mut Tally::default());
        if made < number {
            made += put(random, &start) as u64;
        }
        for _ in 0..scenario.length {
            if made >= number {
                break;
            }
            let call = scenario.call(random, &state, &[0, 1, 2, 3]);
            if put(random, &call) {
                state.call(&call, &mut Tally::default());
                made += 1;
            }
        }
    }
    bytes
}

pub fn record(number: u64, seed: u64, file: &str, wide: bool) -> Result<(), String> {
    let bytes = random_records(number, seed, wide);
    let mut tally = Tally::with_ties();
    let output = play_counted(&bytes, &mut tally);
    let fills: Vec<&str> = output.lines().filter(|line| line.contains(" fill ")).collect();
    let backs = fills.iter().filter(|line| !line.ends_with(" -")).count();
    let counted = format!("{} fills, {backs} of them with a page to write back", fills.len());
    let expected = format!("{file}.out");
    let fault = |name: &str, fault: std::io::Error| format!("record: {name}: {fault}");
    std::fs::write(file, &bytes).map_err(|error| fault(file, error))?;
    std::fs::write(&expected, &output).map_err(|error| fault(&expected, error))?;
    let sort = if wide { " of 12 and of 16 bytes" } else { "" };
    println!("record: {number} records{sort}, seed {seed}, in {file}; what the player prints in {expected}");
    println!("  {counted}");
    let mut missing = Vec::new();
    let words: Vec<(String, u64)> =
        WORDS.iter().zip(tally.words).map(|(word, times)| (word.to_string(), times)).collect();
    print_counts("words", &words, &mut missing);
    // The player's area is sound and long enough, its lists are, and the clock does not come to its end.
    let refusals: Vec<(String, u64)> = (2..=15)
        .chain([19, 20])
        .map(|number| (format!("refusal {number}"), tally.refusals[number]))
        .collect();
    print_counts("refusals", &refusals, &mut missing);
    if wide {
        let event = "begin: a deadline of 2^32 or more";
        print_counts("T-07", &[(event.to_string(), tally.of(event))], &mut missing);
    }
    missing.extend(tally.ties.unwrap().print());
    if fills.is_empty() || backs == 0 {
        missing.push("fills with and without a page to write back".to_string());
    }
    if missing.is_empty() {
        Ok(())
    } else {
        Err(format!("record: seed {seed}: these never occurred: {}", missing.join("; ")))
    }
}

#[cfg(test)]
mod tests {
    use super::*;

    pub fn session_s() -> Vec<Call> {
        vec![
            Call::Start { slots: 1, delay: 1 },
            Call::Begin { level: 1, row: 0, deadline: 100 },
            Call::Request { level: 1, row: 0, page: 1024, mode: 1 },
            TICK,
            Call::Begin { level: 0, row: 0, deadline: 90 },
            Call::Count { level: 0 },
            Call::Request { level: 0, row: 0, page: 7, mode: 0 },
            Call::Look { level: 1, row: 0 },
            Call::View { level: 1, page: 7 },
            Call::Count { level: 1 },
            Call::Request { level: 1, row: 0, page: 1024, mode: 0 },
        ]
    }

    fn records(calls: &[Call], unused: u8) -> Vec<u8> {
        calls.iter().flat_map(|call| record_of(call, &[unused; RECORD]).unwrap()).collect()
    }

    fn wide_records(calls: &[Call], unused: u8) -> Vec<u8> {
        calls.iter().flat_map(|call| record_of(call, &[unused; WIDE_RECORD]).unwrap()).collect()
    }

    /// Every second record wide.
    fn mixed_records(calls: &[Call], unused: u8) -> Vec<u8> {
        let one = |(at, call)| record_of(call, &vec![unused; [RECORD, WIDE_RECORD][at % 2]]).unwrap();
        calls.iter().enumerate().flat_map(one).collect()
    }

    /// The calls are printed so, whatever the records' widths and their unused fields.
    fn printed(calls: &[Call], expected: &str) {
        for unused in [0, 0xFF] {
            for records in [records, wide_records, mixed_records] {
                assert_eq!(play(&records(calls, unused)), expected);
            }
        }
    }

    fn after_header(bytes: &[u8]) -> String {
        play(bytes).split_once('\n').unwrap().1.to_string()
    }

    const S: &str = "call word value | slot back
1 started 0 | - -
2 begun 0 | - -
3 fetch 1 | 0 -
4 clock 1 | - -
5 begun 0 | - -
6 open 1 | - -
7 fetch 2 | 0 1024
8 taken 0 | - -
9 read 2 | - -
10 open 0 | - -
11 refused 10 | - -
";

    #[test]
    fn session_s_whole() {
        printed(&session_s(), S);
    }

    #[test]
    fn empty_input() {
        assert_eq!(play(&[]), "call word value | slot back\n");
    }

    #[test]
    fn refusal_18() {
        let last = "1 refused 18 | - -\n";
        for (records, mark) in [(records as fn(&[Call], u8) -> Vec<u8>, 0x5A), (wide_records, 0x5B)] {
            let start = &records(&[Call::Start { slots: 1, delay: 1 }], 0)[..];
            // cut record
            for length in 1..start.len() {
                assert_eq!(after_header(&start[..length]), last);
                assert_eq!(
                    after_header(&[start, &start[..length]].concat()),
                    "1 started 0 | - -\n2 refused 18 | - -\n"
                );
            }
            // wrong mark
            for wrong in [[mark, 0xC3], [0xC3, 0x59], [0xC3, 0x5C], [0xC2, mark], [0, 0]] {
                assert_eq!(after_header(&[&wrong[..], &start[2..], start].concat()), last);
            }
            // other kind
            for kind in [5, 11, 255] {
                assert_eq!(after_header(&[&[0xC3, mark, kind][..], &start[3..], start].concat()), last);
                assert_eq!(
                    after_header(&[start, &[0xC3, mark, kind], &start[3..], start].concat()),
                    "1 started 0 | - -\n2 refused 18 | - -\n"
                );
            }
            // another kind before an accepted start, even after a refused one
            let tick = &records(&[TICK], 0)[..];
            assert_eq!(after_header(&[tick, start].concat()), last);
            let borders = &records(&[Call::Borders { first: 1, second: 2, third: 3 }], 0)[..];
            assert_eq!(after_header(&[borders, start].concat()), last);
            let bad_start = &records(&[Call::Start { slots: 65, delay: 1 }], 0)[..];
            assert_eq!(
                after_header(&[bad_start, tick, start].concat()),
                "1 refused 2 | - -\n2 refused 18 | - -\n"
            );
            assert_eq!(
                after_header(&[bad_start, start, tick].concat()),
                "1 refused 2 | - -\n2 started 0 | - -\n3 clock 1 | - -\n"
            );
            // its line is the last of the run
            assert_eq!(
                after_header(&[start, tick, &start[..3]].concat()),
                "1 started 0 | - -\n2 clock 1 | - -\n3 refused 18 | - -\n"
            );
        }
        // ahead of all others: a bad record with numbers out of range
        assert_eq!(after_header(&[0xC3, 0x5A, 99, 9, 9, 9, 255, 255, 0, 0, 0, 0]), last);
        assert_eq!(after_header(&[[0xC3, 0x5B, 99, 9], [9, 9, 255, 255], [255; 4], [0; 4]].concat()), last);
    }

    /// The mark tells the width: the same bytes after another mark are a cut record, or one too long.
    #[test]
    fn marks_tell_the_width() {
        let start = Call::Start { slots: 1, delay: 1 };
        let mut cut = records(&[start], 0);
        cut[1] = 0x5B;
        assert_eq!(after_header(&cut), "1 refused 18 | - -\n");
        // As a record of 12 bytes its delay is the upper half, 0; four bytes are left over.
        let mut long = wide_records(&[start], 0);
        long[1] = 0x5A;
        assert_eq!(after_header(&long), "1 refused 3 | - -\n2 refused 18 | - -\n");
    }

    /// Delay and deadline have all eight bytes, and in short records four.
    #[test]
    fn wide_values() {
        let two_32 = 1_u64 << 32;
        let calls = [
            Call::Start { slots: 2, delay: two_32 + 1 },
            Call::Start { slots: 2, delay: two_32 },
            Call::Start { slots: 2, delay: u64::MAX },
            Call::Start { slots: 65, delay: two_32 + 1 },
            Call::Start { slots: 2, delay: 2 },
            Call::Begin { level: 0, row: 0, deadline: two_32 },
            TICK,
            // 0 by the lower half
            Call::Begin { level: 0, row: 1, deadline: two_32 },
            Call::Begin { level: 0, row: 2, deadline: u64::MAX },
            Call::Begin { level: 0, row: 3, deadline: 0 },
            Call::Begin { level: 0, row: 3, deadline: two_32 - 1 },
            TICK,
            Call::Look { level: 0, row: 1 },
            // Row 3 is the best, then row 0, which began before row 1.
            Call::Request { level: 0, row: 1, page: 7, mode: 1 },
            Call::Request { level: 0, row: 2, page: 7, mode: 0 },
            Call::Request { level: 0, row: 0, page: 7, mode: 0 },
            Call::Look { level: 0, row: 1 },
            Call::Request { level: 0, row: 3, page: 7, mode: 1 },
            Call::Look { level: 0, row: 0 },
        ];
        let answers = [
            "refused 3 | -",
            "refused 3 | -",
            "refused 3 | -",
            "refused 2 | -",
            "started 0 | -",
            "begun 0 | -",
            "clock 1 | -",
            "begun 0 | -",
            "begun 0 | -",
            "refused 12 | -",
            "begun 0 | -",
            "clock 2 | -",
            "idle 0 | -",
            "fetch 4 | 0",
            "wait 0 | -",
            "fetch 4 | 0",
            "taken 0 | -",
            "fetch 4 | 0",
            "taken 0 | -",
        ];
        let mut expected = format!("{HEADER}\n");
        for (at, answer) in answers.iter().enumerate() {
            expected += &format!("{} {answer} -\n", at + 1);
        }
        assert_eq!(play(&wide_records(&calls, 0)), expected);
        assert_eq!(play(&wide_records(&calls, 0xFF)), expected);
        for call in calls {
            let fits = match call {
                Call::Start { delay, .. } => delay < two_32,
                Call::Begin { deadline, .. } => deadline < two_32,
                _ => true,
            };
            assert_eq!(record_of(&call, &[0; RECORD]).is_some(), fits);
        }
        let start = [&[0xC3, 0x5B, 0, 9, 9, 9, 0, 2][..], &[0, 0, 0, 1, 0, 0, 0, 1]].concat();
        assert_eq!(first_of(&start), Some((16, Call::Start { slots: 2, delay: two_32 + 1 })));
        assert_eq!(record_of(&Call::Start { slots: 2, delay: two_32 + 1 }, &start), Some(start));
        let begin = [&[0xC3, 0x5B, 1, 3, 7, 9, 9, 9][..], &[1, 2, 3, 4, 5, 6, 7, 8]].concat();
        let call = Call::Begin { level: 3, row: 7, deadline: 0x0102_0304_0506_0708 };
        assert_eq!(first_of(&begin), Some((16, call)));
        assert_eq!(record_of(&call, &begin), Some(begin));
    }

    #[test]
    fn kind_10() {
        let record = [0xC3, 0x5A, 10, 7, 8, 9, 0x01, 0x02, 0x03, 0x04, 0x05, 0x06];
        // The upper four bytes of a wide value are not used.
        let wide = [&[0xC3, 0x5B, 10, 7, 8, 9, 0x01, 0x02][..], &[0xFF, 0xFE, 0xFD, 0xFC], &record[8..]].concat();
        let call = Call::Borders { first: 0x0102, second: 0x0304, third: 0x0506 };
        assert_eq!(first_of(&record), Some((12, call)));
        assert_eq!(first_of(&wide), Some((16, call)));
        assert_eq!(record_of(&call, &record), Some(record.to_vec()));
        assert_eq!(record_of(&call, &wide), Some(wide.clone()));
        let above = Call::Borders { first: 1, second: 1 << 16, third: 0 };
        assert_eq!(record_of(&above, &record), None);
        assert_eq!(record_of(&above, &wide), None);
        let calls = [
            Call::Start { slots: 2, delay: 1 },
            Call::Borders { first: 0, second: 4096, third: 4096 },
            Call::Borders { first: 0, second: 4096, third: 4097 },
            Call::Begin { level: 0, row: 0, deadline: 9 },
            Call::Borders { first: 0, second: 0, third: 0 },
            Call::Borders { first: 65_535, second: 0, third: 0 },
            Call::Request { level: 0, row: 0, page: 0, mode: 0 },
        ];
        let answers =
            ["started 0", "borders 0", "refused 19", "begun 0", "refused 20", "refused 19", "refused 13"];
        let mut expected = format!("{HEADER}\n");
        for (at, answer) in answers.iter().enumerate() {
            expected += &format!("{} {answer} | - -\n", at + 1);
        }
        printed(&calls, &expected);
    }

    #[test]
    fn fill_lines() {
        let request = |level, row, page, mode| Call::Request { level, row, page, mode };
        let calls = [
            Call::Start { slots: 2, delay: 3 },
            Call::Begin { level: 0, row: 1, deadline: 50 },
            request(0, 1, 7, 1),
            request(0, 1, 8, 0),
            TICK,
            TICK,
            TICK,
            request(0, 1, 8, 0),
            Call::Begin { level: 1, row: 2, deadline: 60 },
            Call::Begin { level: 3, row: 7, deadline: 55 },
            request(1, 2, 9, 0),
            request(3, 7, 8, 0),
            request(3, 7, 7, 0),
            Call::End { level: 0, row: 1 },
            TICK,
            Call::Look { level: 1, row: 2 },
            Call::Look { level: 3, row: 7 },
        ];
        // Row 1 of level 0 holds both slots. Level 1 waits for a slot; level 3 shares the fetch of
        // page 8 and so cannot request 7. After the end page 7 is dormant and dirty.
        let expected = "call word value | slot back
1 started 0 | - -
2 begun 0 | - -
3 fetch 3 | 0 -
4 refused 11 | - -
5 clock 1 | - -
6 clock 2 | - -
7 clock 3 | - -
8 fetch 6 | 1 -
9 begun 0 | - -
10 begun 0 | - -
11 wait 0 | - -
12 fetch 6 | 1 -
13 refused 11 | - -
14 ended 0 | - -
15 clock 4 | - -
15 fill 10 | 0 7
16 fetch 7 | - -
17 fetch 6 | - -
";
        printed(&calls, expected);
        assert_eq!(record_of(&Call::Tick { list: 255 }, &[0; RECORD]), None);
        assert_eq!(record_of(&Call::Tick { list: 257 }, &[0; WIDE_RECORD]), None);
    }

    #[test]
    fn records_play_through() {
        for wide in [false, true] {
            let bytes = random_records(4000, 5, wide);
            let output = play(&bytes);
            if wide {
                assert!((4000 * RECORD + 1..4000 * WIDE_RECORD).contains(&bytes.len()));
            } else {
                assert_eq!(bytes.len(), 4000 * RECORD);
            }
            let fills = output.lines().filter(|line| line.contains(" fill ")).count();
            assert_eq!(output.lines().count(), 4001 + fills);
            assert!(fills > 0);
            assert!(!output.contains("refused 18"));
            for answer in [" borders 0 ", " refused 19 ", " refused 20 "] {
                assert!(output.contains(answer), "{answer}");
            }
            // The manager says the same, with the fills that it puts into the lists.
            let (mut area, mut list) = (vec![0; SIZE], [0; LIST]);
            let said = lines(&bytes, false, |call| {
                crate::MANAGER.call(&mut area, &mut list[..call.list_length()], call)
            });
            assert_eq!(said, output);
        }
    }
}
