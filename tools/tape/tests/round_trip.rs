//! Every good tape has a story that packs to it: those of the vectors, of the plans that compare sheets, the example.

use sheets::answer::sheet_text;
use sheets::compare::tapes_in;
use sheets::tape::Tape;
use sheets::{plans, rules, tally::Tally};
use std::io::Write;
use std::path::{Path, PathBuf};
use tape::explain::explain;
use tape::show::show;
use tape::story::pack;

/// Says what was done, also where cargo keeps back what passing tests print.
fn say(line: &str) {
    writeln!(std::io::stderr(), "{line}").expect("the line is written");
}

fn in_the_tree(path: &str) -> PathBuf {
    Path::new(env!("CARGO_MANIFEST_DIR")).join("../..").join(path)
}

/// Checks a tape both ways; whether it is a good one.
fn goes_round(bytes: &[u8]) -> bool {
    let sheet = sheet_text(bytes, rules::sheet);
    assert!(explain(bytes, &sheet).is_ok());
    let Ok(tape) = Tape::read(bytes) else { return false };
    let story = show(&tape);
    let packed = pack(&story).unwrap();
    assert_eq!(packed.bytes(), bytes);
    assert_eq!(show(&packed), story);
    true
}

#[test]
fn the_vectors_go_round() {
    let tapes = tapes_in(&in_the_tree("vectors/base")).unwrap();
    let good = tapes.iter().filter(|path| goes_round(&std::fs::read(path).unwrap())).count();
    assert!(good > 0);
    say(&format!("{} vectors, {good} good tapes: each is packed again from its story", tapes.len()));
}

#[test]
fn made_tapes_go_round() {
    let tapes = plans::all(&mut Tally::new());
    let good = tapes.iter().filter(|tape| goes_round(&tape.bytes)).count();
    assert!(good > 1_500);
    say(&format!("{} made tapes, {good} good ones: each is packed again from its story", tapes.len()));
}

#[test]
fn the_example_is_explained() {
    let story = std::fs::read_to_string(in_the_tree("examples/sampler.story")).unwrap();
    let tape = pack(&story).unwrap().bytes();
    assert!(goes_round(&tape));
    let text = explain(&tape, &sheet_text(&tape, rules::sheet)).unwrap();
    let after = |action: &str| -> Vec<&str> {
        let lines: Vec<&str> = text.lines().map(str::trim).collect();
        lines.windows(2).filter(|pair| pair[0].ends_with(action)).map(|pair| pair[1]).collect()
    };
    assert_eq!(
        after("read provider 101 uri 1 by instance 1"),
        ["done on ground 1 (its app owns the provider): the value read is 0"]
    );
    assert_eq!(
        after("read provider 101 uri 1 by instance 2"),
        [
            "REFUSED 11: not permitted",
            "done on ground 3 (a loan to this instance): the value read is 0",
            "REFUSED 11: not permitted"
        ]
    );
    assert!(text.ends_with("at the end: 1 app, 1 running instance, no loans\n"));
    say(&format!("the example is explained in {} lines", text.lines().count()));
}
