//! What differs between the sheets that are stored and those that were planned.

use super::Stored;
use crate::lent::tables::Entry;
use crate::outcome::TABLES;

/// A line for each sheet that is stored and was not planned, and for whatever differs on one that
/// was. A sheet whose bytes differ has no answer that could be compared.
pub fn differences(expected: &[Stored], found: &[Stored]) -> Vec<String> {
    let mut lines = Vec::new();
    for sheet in expected {
        if find(found, &sheet.name).is_none() {
            lines.push(format!("{}: stored, and there is no such sheet", sheet.name));
        }
    }
    for sheet in found {
        let whats = match find(expected, &sheet.name) {
            None => vec!["not stored".to_string()],
            Some(stored) => of_sheet(stored, sheet),
        };
        lines.extend(whats.iter().map(|what| format!("{}: {what}", sheet.name)));
    }
    lines
}

/// How many of the planned sheets are stored and are as they are stored.
pub fn agreeing(expected: &[Stored], found: &[Stored]) -> usize {
    found.iter().filter(|sheet| find(expected, &sheet.name) == Some(sheet)).count()
}

fn find<'a>(sheets: &'a [Stored], name: &str) -> Option<&'a Stored> {
    sheets.iter().find(|sheet| sheet.name == name)
}

fn of_sheet(expected: &Stored, found: &Stored) -> Vec<String> {
    let sheet = |stored: &Stored| format!("{}, {:016x}", stored.bytes, stored.checksum);
    if (expected.bytes, expected.checksum) != (found.bytes, found.checksum) {
        let (expected, found) = (sheet(expected), sheet(found));
        return vec![format!("another sheet, bytes and checksum: {expected} stored, now {found}")];
    }
    let (expected, found) = (&expected.outcome, &found.outcome);
    let mut whats = Vec::new();
    if expected.word != found.word {
        whats.push(format!("word: expected {}, found {}", expected.word, found.word));
    }
    let tables = expected.tables.iter().zip(&found.tables);
    whats.extend(TABLES.iter().zip(tables).filter_map(|(name, (expected, found))| {
        of_table(expected, found).map(|what| format!("{name}{what}"))
    }));
    whats
}

fn of_table(expected: &[Entry], found: &[Entry]) -> Option<String> {
    if expected.len() != found.len() {
        let (expected, found) = (expected.len(), found.len());
        return Some(format!(": expected {expected} entries, found {found}"));
    }
    let differs = |index: &usize| expected[*index] != found[*index];
    let mut differing = (0..found.len()).filter(differs);
    let first = differing.next()?;
    let (expected, found) = (print(expected[first]), print(found[first]));
    let more = match differing.count() {
        0 => String::new(),
        count => format!(", and {count} more"),
    };
    Some(format!(", entry {first}: expected {expected}, found {found}{more}"))
}

fn print(entry: Entry) -> String {
    entry.map_or("no change".to_string(), |value| value.to_string())
}

#[cfg(test)]
mod tests {
    use super::*;
    use crate::outcome::Outcome;

    fn sheets() -> Vec<Stored> {
        let tables = [vec![Some(3), Some(4), None], vec![Some(9), None], vec![Some(9), Some(12)]];
        let outcome = Outcome { word: 1, tables };
        ["one", "two"].map(|name| Stored::new(name, name.as_bytes(), outcome.clone())).into()
    }

    /// The lines after a change of the sheets that are stored.
    fn after(change: impl FnOnce(&mut Vec<Stored>)) -> (Vec<String>, usize) {
        let (mut expected, found) = (sheets(), sheets());
        change(&mut expected);
        (differences(&expected, &found), agreeing(&expected, &found))
    }

    fn one(line: &str) -> (Vec<String>, usize) {
        (vec![line.to_string()], 1)
    }

    #[test]
    fn the_same_sheets_have_no_difference() {
        assert_eq!(after(|_| ()), (Vec::new(), 2));
        assert_eq!(after(|sheets| sheets.reverse()), (Vec::new(), 2));
    }

    #[test]
    fn every_part_of_an_outcome_counts() {
        let word = after(|sheets| sheets[1].outcome.word = 3);
        assert_eq!(word, one("two: word: expected 3, found 1"));
        let place = after(|sheets| sheets[0].outcome.tables[0][1] = Some(5));
        assert_eq!(place, one("one: places, entry 1: expected 5, found 4"));
        let spare = after(|sheets| sheets[0].outcome.tables[0][2] = Some(0));
        assert_eq!(spare, one("one: places, entry 2: expected 0, found no change"));
        let load = after(|sheets| sheets[1].outcome.tables[1][0] = None);
        assert_eq!(load, one("two: loads, entry 0: expected no change, found 9"));
        let answer = after(|sheets| sheets[1].outcome.tables[2] = vec![Some(8), Some(13)]);
        assert_eq!(answer, one("two: answer, entry 0: expected 8, found 9, and 1 more"));
        let short = after(|sheets| sheets[1].outcome.tables[2].truncate(1));
        assert_eq!(short, one("two: answer: expected 1 entries, found 2"));
    }

    #[test]
    fn every_sheet_counts() {
        assert_eq!(after(|sheets| drop(sheets.remove(0))), one("one: not stored"));
        let more = after(|sheets| sheets.push(Stored::new("three", b"", Outcome::default())));
        assert_eq!(more, (vec!["three: stored, and there is no such sheet".to_string()], 2));
    }

    #[test]
    fn another_sheet_is_told_from_another_answer() {
        let (lines, agreeing) = after(|sheets| {
            sheets[0].checksum ^= 1;
            sheets[0].outcome.word = 3;
        });
        assert!(lines.len() == 1 && lines[0].starts_with("one: another sheet"), "{lines:?}");
        assert_eq!(agreeing, 1);
        let (lines, _) = after(|sheets| sheets[1].bytes += 1);
        assert!(lines.len() == 1 && lines[0].starts_with("two: another sheet"), "{lines:?}");
    }
}
