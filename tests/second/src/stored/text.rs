//! Prints and reads the text.

use super::Stored;
use crate::lent::tables::Entry;
use crate::outcome::{Outcome, TABLES};

/// The tables as the text has them, by their places in `TABLES`.
const ORDER: [usize; 3] = [2, 1, 0];
/// A table goes on in a new line behind this column.
const COLUMN: usize = 110;

/// The sheets below a comment.
pub fn print(comment: &str, sheets: &[Stored]) -> String {
    let comment = comment.lines().map(|line| format!("# {line}").trim_end().to_string() + "\n");
    let comment: String = comment.collect();
    sheets.iter().fold(comment, |text, sheet| text + "\n" + &print_sheet(sheet))
}

fn print_sheet(Stored { name, bytes, checksum, outcome }: &Stored) -> String {
    let Outcome { word, tables } = outcome;
    let mut text =
        format!("sheet: {name}\nbytes: {bytes}, checksum {checksum:016x}\nword: {word}\n");
    for table in ORDER {
        text += &print_table(TABLES[table], &tables[table]);
    }
    text
}

fn print_table(name: &str, entries: &[Entry]) -> String {
    let (mut text, mut line) = (String::new(), format!("{name}:"));
    for run in entries.chunk_by(|one, next| one.is_none() && next.is_none()) {
        if line.len() > COLUMN {
            text += &(line + "\n");
            line = format!("{name}:");
        }
        line += &match run[0] {
            Some(value) => format!(" {value}"),
            None => format!(" -{}", run.len()),
        };
    }
    text + &line + "\n"
}

/// The sheets of a text, or its first line that is not in the form.
pub fn parse(text: &str) -> Result<Vec<Stored>, String> {
    let mut sheets = Vec::new();
    for (number, line) in text.lines().enumerate() {
        if !line.is_empty() && !line.starts_with('#') {
            let taken = take(line, &mut sheets);
            taken.ok_or_else(|| format!("line {}: `{line}`", number + 1))?;
        }
    }
    Ok(sheets)
}

/// Takes a line to the sheets, if it has a place there.
fn take(line: &str, sheets: &mut Vec<Stored>) -> Option<()> {
    let (key, value) = line.split_once(": ")?;
    if key == "sheet" {
        let is_new = sheets.iter().all(|sheet| sheet.name != value);
        sheets.push(Stored { name: value.to_string(), ..Stored::default() });
        return is_new.then_some(());
    }
    let sheet = sheets.last_mut()?;
    match key {
        "bytes" => {
            let (bytes, checksum) = value.split_once(", checksum ")?;
            sheet.bytes = bytes.parse().ok()?;
            sheet.checksum = u64::from_str_radix(checksum, 16).ok()?;
        }
        "word" => sheet.outcome.word = value.parse().ok()?,
        _ => {
            let table = TABLES.iter().position(|&name| name == key)?;
            take_entries(value, &mut sheet.outcome.tables[table])?;
        }
    }
    Some(())
}

fn take_entries(text: &str, table: &mut Vec<Entry>) -> Option<()> {
    for word in text.split(' ') {
        match word.strip_prefix('-') {
            Some(count) => table.resize(table.len() + count.parse::<u16>().ok()? as usize, None),
            None => table.push(Some(word.parse().ok()?)),
        }
    }
    Some(())
}

#[cfg(test)]
mod tests {
    use super::*;

    fn sheets() -> Vec<Stored> {
        let places = (0..520).map(|job| (job < 512).then_some(job % 64)).collect();
        let tables = [places, vec![Some(470), None, None, Some(0)], vec![Some(u64::MAX), None]];
        let plan = Stored::new("a plan", b"sheet", Outcome { word: 1, tables });
        let tables = [vec![None; 520], vec![None; 72], vec![Some(0), Some(1), Some(2)]];
        vec![plan, Stored::new("a none: 1", b"", Outcome { word: 3 << 40, tables })]
    }

    #[test]
    fn sheets_are_read_as_they_are_printed() {
        let text = print("One.\n\nTwo.", &sheets());
        assert!(text.starts_with("# One.\n#\n# Two.\n\nsheet: a plan\n"));
        assert!(text.lines().all(|line| line.len() <= 120));
        assert!(text.contains("\nloads: 470 -2 0\n") && text.contains("\nplaces: -520\n"));
        assert_eq!(parse(&text), Ok(sheets()));
    }

    #[test]
    fn a_line_out_of_form_is_named() {
        let text = print("", &sheets());
        for (old, new) in [
            ("word: 1", "word: one"),
            ("word: 1", "word 1"),
            ("word: 1", "number: 1"),
            ("checksum ", "checksum x"),
            ("bytes: 5, ", "bytes: 5 "),
            ("loads: 470", "loads:  470"),
            ("loads: 470", "loads: 47O"),
            ("-520", "-many"),
            ("sheet: a plan", ""),
            ("sheet: a none: 1", "sheet: a plan"),
        ] {
            let damaged = text.replacen(old, new, 1);
            assert_ne!(damaged, text);
            let refused = parse(&damaged).expect_err(new);
            assert!(refused.starts_with("line "), "{refused}");
        }
    }
}
