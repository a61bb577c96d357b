//! The program (01, "The text and the program"): what `boxplan` prints for an input.

use crate::calls::{Record, turn};
use crate::enumeration::combinations;
use crate::tables::{Catalogue, Settings};
use crate::text::{Declared, ENTRY_NUMBERS, SLOT_NUMBERS, declared, read};

/// "takes root 0, cargo, cycles forbidden, objectives 0 1 2"
const SETTINGS: Settings = Settings {
    root: 0,
    mode: 1,
    cycles: 0,
    objectives: &[0, 1, 2],
};
/// "prints the header [...], then at most eight plans"
const HEADER: &[u8] = b"plan,package,version\r\n";
const PLANS: usize = 8;

/// What `boxplan` prints when its standard input holds `text`.
pub fn boxplan(text: &[u8]) -> Vec<u8> {
    match with_catalogue(text, plans) {
        Ok(output) => output,
        // "it prints only the record `refusal` and a record with its number"
        Err(refusal) => format!("refusal\r\n{refusal}\r\n").into_bytes(),
    }
}

/// How many tables [`boxplan`] would try for this text; 0 if it is refused before that.
pub fn text_combinations(text: &[u8]) -> u64 {
    with_catalogue(text, |catalogue| Ok(combinations(catalogue))).unwrap_or(0)
}

/// Reads the text and hands its catalogue on; an error is a refusal's number.
fn with_catalogue<T>(text: &[u8], work: impl Fn(&Catalogue) -> Result<T, u8>) -> Result<T, u8> {
    let mut entries = [0; ENTRY_NUMBERS];
    let mut slots = [0; SLOT_NUMBERS];
    let answer = read(text, &mut entries, &mut slots);
    if answer.refusal != 0 {
        return Err(answer.refusal);
    }
    work(&Catalogue {
        entries: &entries[..5 * answer.entries],
        slots: &slots[..4 * answer.slots],
        text,
    })
}

/// The header and the plans; an error is the number of "a refusal before any plan".
fn plans(catalogue: &Catalogue) -> Result<Vec<u8>, u8> {
    let entries = declared(catalogue.text).ok_or(12)?;
    let mut record = Record::default();
    let mut buffer = vec![0; catalogue.slots.len() / 4];
    let mut output = HEADER.to_vec();
    for plan in 1..=PLANS {
        let answer = turn(catalogue, &SETTINGS, &mut record, &mut buffer);
        match answer.refusal {
            0 => output.extend(members(plan, answer.set, &entries)),
            refusal if plan == 1 => return Err(refusal),
            // "11 after a plan just ends the output"
            _ => break,
        }
    }
    Ok(output)
}

/// "Records are plan number from 1, package, version; members rise by entry number."
fn members(plan: usize, set: u64, entries: &[Declared]) -> Vec<u8> {
    let mut lines = Vec::new();
    for (number, entry) in entries.iter().enumerate() {
        if set >> number & 1 == 1 {
            lines.extend(plan.to_string().bytes());
            lines.push(b',');
            lines.extend(entry.package);
            lines.push(b',');
            lines.extend(entry.version);
            lines.extend(b"\r\n");
        }
    }
    lines
}
