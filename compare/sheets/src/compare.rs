//! Holds a sheet program against `rules` on every tape of `plans`, byte by byte.

use crate::answer::sheet_text;
use crate::plans::{self, Made};
use crate::tally::Tally;
use crate::{rules, run, tables};
use std::fs;
use std::path::{Path, PathBuf};

/// Fewer tapes than these compare too little.
const LEAST: usize = 1_500;

/// Of the sheets that differ this many are printed.
const SHOWN: usize = 10;

/// How the program under test is handed its tapes.
#[derive(Clone, Copy, PartialEq)]
pub enum Way {
    /// each after its u32 length, in one run; a line `.` ends each sheet
    Stream,
    /// each in a run of its own
    Single,
}

/// Compares on the tapes of `plans`, and gives the line that says so.
pub fn compare(way: Way, command: &[&str]) -> Result<String, String> {
    let mut tally = Tally::new();
    let tapes = plans::all(&mut tally);
    let wrong = tally.report();
    let (ours, theirs) = std::thread::scope(|scope| {
        let ours = scope.spawn(|| tapes.iter().map(|tape| sheet_text(&tape.bytes, rules::sheet)).collect::<Vec<_>>());
        let theirs = sheets_of(way, command, &tapes);
        (ours.join().expect("the rules do not panic"), theirs)
    });
    let theirs = theirs?;
    let twins: Vec<String> = tapes.iter().map(|tape| sheet_text(&tape.bytes, tables::sheet)).collect();
    let differ = differences("the tables", &tapes, &ours, &twins) + differences("the program", &tapes, &ours, &theirs);
    for reason in &wrong {
        println!("NOT AS MEANT: {reason}");
    }
    if differ + wrong.len() > 0 || tapes.len() < LEAST {
        let count = tapes.len();
        return Err(format!(
            "{count} tapes (at least {LEAST}), {differ} sheets differ, {} counts are wrong",
            wrong.len()
        ));
    }
    let actions: usize = ours.iter().map(|sheet| sheet.lines().count().saturating_sub(2)).sum();
    Ok(format!("{} tapes with {actions} actions compared, 0 sheets differ", tapes.len()))
}

/// Prints the first differing line of each sheet that differs, and counts them.
fn differences(whose: &str, tapes: &[Made], ours: &[String], theirs: &[String]) -> usize {
    let mut differ = 0;
    for (place, (tape, (ours, theirs))) in (1..).zip(tapes.iter().zip(ours.iter().zip(theirs))) {
        if ours == theirs {
            continue;
        }
        differ += 1;
        if differ <= SHOWN {
            let (line, our, their) = first_difference(ours, theirs);
            println!("DIFFERS: tape {place} ({}), line {line}: {whose} {their:?}, from the log {our:?}", tape.plan);
        }
    }
    differ
}

/// The number of the first line that differs, and that line of both, newline included.
fn first_difference<'s>(ours: &'s str, theirs: &'s str) -> (usize, &'s str, &'s str) {
    let (mut our, mut their) = (ours.split_inclusive('\n'), theirs.split_inclusive('\n'));
    let mut line = 1;
    loop {
        match (our.next(), their.next()) {
            (Some(a), Some(b)) if a == b => line += 1,
            (a, b) => return (line, a.unwrap_or(""), b.unwrap_or("")),
        }
    }
}

fn sheets_of(way: Way, command: &[&str], tapes: &[Made]) -> Result<Vec<String>, String> {
    if way == Way::Single {
        return tapes.iter().map(|tape| run(command, &tape.bytes)).collect();
    }
    let sheets = sheets_in(&run(command, &stream(tapes))?);
    if sheets.len() != tapes.len() {
        return Err(format!("{} sheets for {} tapes", sheets.len(), tapes.len()));
    }
    Ok(sheets)
}

fn stream(tapes: &[Made]) -> Vec<u8> {
    let mut out = Vec::new();
    for tape in tapes {
        out.extend((tape.bytes.len() as u32).to_le_bytes());
        out.extend(&tape.bytes);
    }
    out
}

/// The sheets in the answer to a stream. What follows the last `.` is a sheet too, so that it is missed by none.
fn sheets_in(answer: &str) -> Vec<String> {
    let mut sheets = vec![String::new()];
    for line in answer.split_inclusive('\n') {
        if line == ".\n" {
            sheets.push(String::new());
        } else {
            sheets.last_mut().expect("there is always one").push_str(line);
        }
    }
    if sheets.last().is_some_and(String::is_empty) {
        sheets.pop();
    }
    sheets
}

/// The sheets of a stream, each with its `.`, or why the stream is none.
pub fn answer_stream(mut stream: &[u8], sheet: fn(&[u8]) -> String) -> Result<String, String> {
    let mut out = String::new();
    while !stream.is_empty() {
        let (length, rest) = stream.split_first_chunk().ok_or("the stream ends within a length")?;
        let length = u32::from_le_bytes(*length) as usize;
        let (tape, rest) = rest.split_at_checked(length).ok_or("the stream ends within a tape")?;
        out += &sheet(tape);
        out += ".\n";
        stream = rest;
    }
    Ok(out)
}

/// The files NAME.tape in the folder.
pub fn tapes_in(folder: &Path) -> Result<Vec<PathBuf>, String> {
    let files = fs::read_dir(folder).map_err(|error| format!("{}: {error}", folder.display()))?;
    let paths = files.filter_map(|entry| Some(entry.ok()?.path()));
    let mut tapes: Vec<PathBuf> = paths.filter(|path| path.extension().is_some_and(|end| end == "tape")).collect();
    tapes.sort();
    Ok(tapes)
}

/// Checks each NAME.tape in the folder against its NAME.sheet, both ways, and gives the line that says so.
pub fn vectors(folder: &Path) -> Result<String, String> {
    let tapes = tapes_in(folder)?;
    let mut failed = 0;
    for path in &tapes {
        let read = |path: &Path| fs::read(path).map_err(|error| format!("{}: {error}", path.display()));
        let tape = read(path)?;
        let meant = String::from_utf8_lossy(&read(&path.with_extension("sheet"))?).into_owned();
        for (whose, sheet) in [("log", rules::sheet as fn(&_) -> _), ("tables", tables::sheet)] {
            let ours = sheet_text(&tape, sheet);
            if ours != meant {
                failed += 1;
                let (line, our, their) = first_difference(&ours, &meant);
                println!("DIFFERS: {}, line {line}: meant {their:?}, from the {whose} {our:?}", path.display());
            }
        }
    }
    if failed > 0 || tapes.is_empty() {
        return Err(format!("{} vectors, {failed} sheets differ", tapes.len()));
    }
    Ok(format!("{} vectors, 0 sheets differ", tapes.len()))
}

#[cfg(test)]
mod tests {
    use super::*;

    #[test]
    fn a_stream_is_answered_sheet_by_sheet() {
        let tapes = [vec![], vec![0, 0, 0], vec![9]].map(|bytes| Made { plan: "by hand", bytes });
        let answer = answer_stream(&stream(&tapes), |tape| format!("{} bytes\n", tape.len())).unwrap();
        assert_eq!(answer, "0 bytes\n.\n3 bytes\n.\n1 bytes\n.\n");
        assert_eq!(sheets_in(&answer), ["0 bytes\n", "3 bytes\n", "1 bytes\n"]);
        assert_eq!(sheets_in("a\n.\nb\n"), ["a\n", "b\n"]);
        assert!(answer_stream(&[1, 0, 0], |_| String::new()).is_err());
        assert!(answer_stream(&[1, 0, 0, 0], |_| String::new()).is_err());
    }

    #[test]
    fn the_first_difference_is_found() {
        assert_eq!(first_difference("a\nb\nc\n", "a\nx\nc\n"), (2, "b\n", "x\n"));
        assert_eq!(first_difference("a\n", "a"), (1, "a\n", "a"));
        assert_eq!(first_difference("a\n", "a\nb\n"), (2, "", "b\n"));
    }
}
