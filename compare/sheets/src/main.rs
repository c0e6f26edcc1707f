//! The sheet of a tape from document 01's log rule, and the comparison of a sheet program with it.

use sheets::answer::sheet_text;
use sheets::compare::{answer_stream, compare, vectors, Way};
use sheets::tally::Tally;
use sheets::{plans, rules, tables};
use std::io::{Read, Write};
use std::path::Path;
use std::process::ExitCode;

const USAGE: &str = "usage: sheets sheet [--tables] < TAPE
       sheets stream [--tables] < TAPES       each tape after its u32 length; a line `.` ends each sheet
       sheets vectors FOLDER                  checks each NAME.tape against its NAME.sheet
       sheets tape NUMBER > TAPE              the tape that a comparison gives this number
       sheets compare [--stream|--single] COMMAND WORD..
                                              compares the command's sheets, as a stream or one run a tape";

fn main() -> ExitCode {
    let words: Vec<String> = std::env::args().skip(1).collect();
    let words: Vec<&str> = words.iter().map(String::as_str).collect();
    let done = match words[..] {
        ["sheet"] => input().map(|tape| from_the_log(&tape).into()),
        ["sheet", "--tables"] => input().map(|tape| from_the_tables(&tape).into()),
        ["stream"] => input().and_then(|stream| answer_stream(&stream, from_the_log)).map(String::into),
        ["stream", "--tables"] => input().and_then(|stream| answer_stream(&stream, from_the_tables)).map(String::into),
        ["vectors", folder] => vectors(Path::new(folder)).map(said),
        ["tape", number] => tape(number),
        ["compare", "--single", ref command @ ..] if !command.is_empty() => compare(Way::Single, command).map(said),
        ["compare", "--stream", ref command @ ..] if !command.is_empty() => compare(Way::Stream, command).map(said),
        ["compare", ref command @ ..] if !command.is_empty() => compare(Way::Stream, command).map(said),
        _ => {
            eprintln!("{USAGE}");
            return ExitCode::from(2);
        }
    };
    match done.and_then(|bytes| std::io::stdout().write_all(&bytes).map_err(|error| error.to_string())) {
        Ok(()) => ExitCode::SUCCESS,
        Err(reason) => {
            eprintln!("sheets: FAILED: {reason}");
            ExitCode::FAILURE
        }
    }
}

fn input() -> Result<Vec<u8>, String> {
    let mut bytes = Vec::new();
    std::io::stdin().read_to_end(&mut bytes).map_err(|error| error.to_string())?;
    Ok(bytes)
}

fn from_the_log(tape: &[u8]) -> String {
    sheet_text(tape, rules::sheet)
}

fn from_the_tables(tape: &[u8]) -> String {
    sheet_text(tape, tables::sheet)
}

fn tape(number: &str) -> Result<Vec<u8>, String> {
    let tapes = plans::all(&mut Tally::new());
    let place = number.parse().ok().and_then(|number: usize| number.checked_sub(1));
    let tape = place.and_then(|place| tapes.into_iter().nth(place));
    tape.map(|tape| tape.bytes).ok_or(format!("no tape has the number {number}"))
}

fn said(line: String) -> Vec<u8> {
    format!("sheets: {line}\n").into()
}
