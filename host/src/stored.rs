//! The stored files of crates/sessions: areas, given by their words, and records to play on each.
//! docs/RECORDED.md has the form.

use crate::calls::SIZE;
use crate::model::{self, set_word, word, CLAUSES, LENGTH, OLD_CLAUSES};
use crate::player::play_on;
use std::collections::BTreeMap;
use std::path::Path;

/// The bytes of pairs that are no word of an area: it is played on, not started or started.
const PLAY: usize = SIZE;
const PLAY_STARTED: usize = SIZE + 1;

struct Area {
    started: bool,
    bytes: Vec<u8>,
}

struct Stored {
    areas: Vec<Area>,
    records: Vec<u8>,
}

/// A number of pairs, the pairs, and records.
fn parse(file: &[u8]) -> Option<Stored> {
    let number = usize::try_from(word(file.get(..8)?, 0)).ok()?;
    let end = number.checked_mul(16)?.checked_add(8)?;
    let records = file.get(end..)?.to_vec();
    let mut areas = Vec::new();
    let mut bytes = vec![0; SIZE];
    for pair in file[8..end].chunks(16) {
        let at = usize::try_from(word(pair, 0)).ok()?;
        let value = word(pair, 8);
        if at == PLAY || at == PLAY_STARTED {
            let mut lent = std::mem::replace(&mut bytes, vec![0; SIZE]);
            lent.truncate(usize::try_from(value).ok().filter(|length| *length <= SIZE)?);
            areas.push(Area { started: at == PLAY_STARTED, bytes: lent });
        } else if at + 8 <= SIZE {
            set_word(&mut bytes, at, value);
        } else {
            return None;
        }
    }
    Some(Stored { areas, records })
}

fn load(file: &str) -> Result<Stored, String> {
    let bytes = std::fs::read(file).map_err(|fault| format!("{file}: {fault}"))?;
    parse(&bytes).ok_or(format!("{file}: not in the form of docs/RECORDED.md"))
}

/// Prints what crates/sessions must print for the files, by the model alone.
pub fn print(files: &[String]) -> Result<(), String> {
    for file in files {
        let stored = load(file)?;
        println!("{}", Path::new(file).file_name().unwrap_or_default().to_string_lossy());
        for mut area in stored.areas {
            print!("{}", play_on(&mut area.bytes, area.started, &stored.records));
        }
    }
    Ok(())
}

/// Fails unless each clause of sound is the only one that some area of the files breaks.
pub fn clauses(files: &[String]) -> Result<(), String> {
    let mut alone: BTreeMap<&str, u64> = BTreeMap::new();
    let (mut sound, mut unsound) = (0, 0);
    for file in files {
        for area in load(file)?.areas.into_iter().filter(|area| area.started) {
            match model::read_either(&area.bytes) {
                Ok(_) => sound += 1,
                Err(broken) => {
                    unsound += 1;
                    if broken.len() == 1 {
                        *alone.entry(broken.first().unwrap()).or_insert(0) += 1;
                    }
                }
            }
        }
    }
    println!("clauses: {sound} sound areas, {unsound} unsound ones");
    println!("  how many break a clause of sound, and no other");
    let mut missing = Vec::new();
    for clause in std::iter::once(&LENGTH).chain(CLAUSES).chain(OLD_CLAUSES) {
        let times = alone.get(clause).copied().unwrap_or(0);
        println!("    {times:>3}  {clause}");
        if times == 0 {
            missing.push(*clause);
        }
    }
    if missing.is_empty() {
        Ok(())
    } else {
        Err(format!("clauses: no area breaks these and no other: {}", missing.join("; ")))
    }
}

#[cfg(test)]
mod tests {
    use super::*;
    use crate::calls::Call;
    use crate::player::{record_of, RECORD, WIDE_RECORD};

    /// A fresh area, the same without its last byte, one of the old layout, zeros that are not started,
    /// zeros that are. The records begin a row, count and begin it again.
    fn file() -> Vec<u8> {
        let mark = u64::from_le_bytes(*b"SABREBUF");
        let fresh = |version| {
            [(0, mark), (8, version), (16, 2), (24, 1), (40, 1024), (48, 2048), (56, 3072)]
        };
        let play = |length| [(PLAY_STARTED as u64, length)];
        let whole = SIZE as u64;
        let mut pairs = [&fresh(4)[..], &play(whole), &fresh(4), &play(whole - 1)].concat();
        pairs.extend([&fresh(3)[..], &play(whole)].concat());
        pairs.extend([(PLAY as u64, whole), (PLAY_STARTED as u64, whole)]);
        let words = pairs.iter().flat_map(|(at, value)| [*at, *value]);
        let words = std::iter::once(pairs.len() as u64).chain(words);
        let mut file: Vec<u8> = words.flat_map(u64::to_le_bytes).collect();
        let begin = Call::Begin { level: 0, row: 0, deadline: 1 << 32 };
        file.extend(record_of(&begin, &[0; WIDE_RECORD]).unwrap());
        file.extend(record_of(&Call::Count { level: 0 }, &[0; RECORD]).unwrap());
        file.extend(record_of(&begin, &[0; WIDE_RECORD]).unwrap());
        file
    }

    #[test]
    fn areas_are_played_each_anew() {
        let stored = parse(&file()).unwrap();
        let said: Vec<String> = stored
            .areas
            .into_iter()
            .map(|mut area| play_on(&mut area.bytes, area.started, &stored.records))
            .map(|text| text.split_once('\n').unwrap().1.to_string())
            .collect();
        let answers = |answers: &[&str]| -> String {
            (1..).zip(answers).map(|(at, answer)| format!("{at} {answer} | - -\n")).collect()
        };
        let sound = answers(&["begun 0", "open 2", "refused 8"]);
        let unsound = answers(&["refused 1"; 3]);
        let bad = answers(&["refused 18"]);
        assert_eq!(said, [sound.clone(), unsound.clone(), sound, bad, unsound]);
    }

    #[test]
    fn a_cut_file_is_no_stored_one() {
        let file = file();
        assert!(parse(&file[..7]).is_none());
        assert!(parse(&file[..100]).is_none());
        assert!(parse(&file[..file.len() - RECORD - 2 * WIDE_RECORD]).is_some());
    }
}
