//! The sheets of document 01, of the vectors and of every tape that the plans make.

use sheets::answer::sheet_text;
use sheets::compare::{compare, vectors, Way};
use sheets::{plans, rules, tables, tally::Tally};
use std::io::Write;
use std::path::Path;

/// Says what was done, also where cargo keeps back what passing tests print.
fn say(line: &str) {
    writeln!(std::io::stderr(), "{line}").expect("the line is written");
}

const OWN_PROGRAM: &str = env!("CARGO_BIN_EXE_sheets");

#[test]
fn the_sheet_of_document_01() {
    let manifest = "22 00 0A 00 05 00 00 00 00 00 02 64 00 01 01 00 00 00 00 65 00 04 00 00 00 00 00 01 65 00 01 00 \
                    00 00 00 00";
    let actions = [vec![1], vec![7, 0, 0x64], vec![9, 0, 0x65, 0, 1, 0, 1], vec![9, 0, 0x65, 0, 1, 0, 2]];
    let mut tape = vec![1];
    tape.extend(manifest.split_whitespace().map(|byte| u8::from_str_radix(byte, 16).unwrap()));
    tape.extend([4, 0]);
    for mut action in actions {
        action.resize(12, 0);
        tape.extend(action);
    }
    let sheet = "answers 4\n1 1 0 0 0\n2 7 0 0 1\n3 9 0 1 0\n4 9 8 - -\nend apps 1 running 1 lent 0\n";
    assert_eq!(sheet_text(&tape, rules::sheet), sheet);
    assert_eq!(sheet_text(&tape, tables::sheet), sheet);
    say("document 01's tape has document 01's sheet");
}

#[test]
fn the_vectors() {
    let folder = Path::new(env!("CARGO_MANIFEST_DIR")).join("../../vectors/base");
    say(&vectors(&folder).unwrap());
}

#[test]
fn the_same_tapes_in_every_run() {
    let tapes = plans::all(&mut Tally::new());
    let again = plans::all(&mut Tally::new());
    assert!(tapes.len() == again.len() && tapes.iter().zip(&again).all(|(one, two)| one.bytes == two.bytes));
    assert!(tapes.iter().all(|tape| tape.bytes.len() <= 57_412));
    say(&format!("{} tapes are the same when made again", tapes.len()));
}

#[test]
fn the_comparison_with_the_tables_as_a_program() {
    say(&compare(Way::Stream, &[OWN_PROGRAM, "stream", "--tables"]).unwrap());
}

#[test]
fn a_program_that_answers_one_tape_only_fails() {
    let reason = compare(Way::Stream, &[OWN_PROGRAM, "sheet"]).unwrap_err();
    say(&format!("a program that is no stream fails: {reason}"));
}
