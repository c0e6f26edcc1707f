//! A sheet in words: each action by name, then what came back. A refusal is in capitals and has no value, so that a
//! stored 0 and a refusal never look alike.

use crate::show::sentence;
use sheets::manifest::Manifest;
use sheets::tape::{code, Action, Tape};

/// What document 01's table says of each refusal from 1.
const REFUSALS: [&str; 15] = [
    "state not valid",
    "malformed action: not twelve bytes, code, unused field, image or operations",
    "malformed manifest",
    "already there: app, component, definition, grant or group",
    "no such app",
    "no such component, or a provider to start, or no provider to use",
    "no such running instance",
    "no such resource",
    "permission undefined, or group not 1 to 15",
    "cannot be granted: not listed, or not dangerous",
    "not permitted",
    "nothing to take back",
    "in use: an instance runs",
    "part of the image",
    "no room",
];

/// What each ground says, from 1.
const GROUNDS: [&str; 4] = [
    "its app owns the provider",
    "the provider is exported and its permission is 0 or held",
    "a loan to this instance",
    "a loan to its app",
];

/// The tape and its sheet in words, or the line of the sheet that is wrong and what was expected there.
pub fn explain(tape: &[u8], sheet: &str) -> Result<String, String> {
    match (Tape::read(tape), sheet) {
        (Err(damage), "tape refused\n") => Ok(format!("tape REFUSED: {damage}\n")),
        (Err(damage), _) => Err(format!("sheet line 1: expected `tape refused` alone ({damage})")),
        (Ok(tape), _) => explain_answers(&tape, sheet),
    }
}

fn explain_answers(tape: &Tape, sheet: &str) -> Result<String, String> {
    let mut lines = (1..).zip(sheet.lines());
    let mut next = |what: &str| lines.next().ok_or(format!("sheet: expected {what}, and it ends"));
    let head = format!("answers {}", tape.actions.len());
    demand(next(&head)?, &head)?;
    let mut out = format!("{}, {}\n", count(tape.manifests.len(), "manifest"), count(tape.actions.len(), "action"));
    for (place, action) in (1..).zip(&tape.actions) {
        let (number, line) = next(&format!("the answer to action {place}"))?;
        let came_back = came_back(place, action, line).map_err(|what| wrong(number, line, &what))?;
        out += &format!("{place:4}  {}\n      {came_back}\n", sentence(action) + &named(tape, action));
    }
    let (number, line) = next("the end line")?;
    out += &end(line).ok_or_else(|| wrong(number, line, "`end apps N running N lent N`"))?;
    match lines.next() {
        Some((number, line)) => Err(wrong(number, line, "nothing after the end line")),
        None => Ok(out),
    }
}

fn demand((number, line): (usize, &str), meant: &str) -> Result<(), String> {
    if line == meant {
        Ok(())
    } else {
        Err(wrong(number, line, &format!("`{meant}`")))
    }
}

fn wrong(number: usize, line: &str, what: &str) -> String {
    format!("sheet line {number}: expected {what}, not `{line}`")
}

/// The app that an install brings, for a reader who has not the manifests in mind.
fn named(tape: &Tape, action: &Action) -> String {
    let bytes = tape.manifests.get(usize::from(action.b)).filter(|_| action.code == code::INSTALL);
    match bytes.and_then(|bytes| Manifest::read(bytes)) {
        Some(manifest) => format!(" (app {})", manifest.app),
        None => String::new(),
    }
}

/// The answer in words, or the form that the line should have.
fn came_back(place: usize, action: &Action, line: &str) -> Result<String, String> {
    let begin = format!("{place} {} ", action.code);
    let words: Vec<&str> = line.strip_prefix(&begin).map_or(Vec::new(), |rest| rest.split(' ').collect());
    let form = format!("`{begin}0` with a ground and a value, or `{begin}REFUSAL - -`");
    match words[..] {
        ["0", ground, value] => {
            let done = decimal(ground).zip(decimal(value)).and_then(|(ground, value)| done(action.code, ground, value));
            done.ok_or(form)
        }
        [refusal, "-", "-"] => {
            let number = decimal(refusal).filter(|number| (1..=15).contains(number)).ok_or(form)?;
            Ok(format!("REFUSED {number}: {}", REFUSALS[number as usize - 1]))
        }
        _ => Err(form),
    }
}

/// A number as a sheet writes it.
fn decimal(word: &str) -> Option<u32> {
    word.parse().ok().filter(|number: &u32| number.to_string() == word)
}

/// What a done action brought back, where the ground and the value are such as the action can have.
fn done(code: u8, ground: u32, value: u32) -> Option<String> {
    match (code, ground, value) {
        (code::READ | code::WRITE, 1..=4, _) => {
            let what = if code == code::READ { "read" } else { "written" };
            let meaning = GROUNDS[ground as usize - 1];
            Some(format!("done on ground {ground} ({meaning}): the value {what} is {value}"))
        }
        (code::START, 0, 1..=64) => Some(format!("done: it runs as instance {value}")),
        (code::ASK, 0, 0) => Some("done: no, it is not held (value 0)".to_string()),
        (code::ASK, 0, 1) => Some("done: yes, it is held (value 1)".to_string()),
        (code::READ | code::WRITE | code::START | code::ASK, ..) => None,
        (_, 0, 0) if code::ALL.contains(&code) => Some("done".to_string()),
        _ => None,
    }
}

fn end(line: &str) -> Option<String> {
    let words: Vec<&str> = line.split(' ').collect();
    let ["end", "apps", apps, "running", running, "lent", lent] = words[..] else { return None };
    let apps = count(decimal(apps)? as usize, "app");
    let running = count(decimal(running)? as usize, "running instance");
    let lent = count(decimal(lent)? as usize, "loan");
    Some(format!("at the end: {apps}, {running}, {lent}\n"))
}

fn count(number: usize, what: &str) -> String {
    match number {
        0 => format!("no {what}s"),
        1 => format!("1 {what}"),
        _ => format!("{number} {what}s"),
    }
}

#[cfg(test)]
mod tests {
    use super::*;

    /// A read of a tape without manifests, and one line that answers it.
    fn read_answered(line: &str) -> Result<String, String> {
        let tape = Tape { manifests: vec![], actions: vec![Action { code: code::READ, ..Action::default() }] };
        explain(&tape.bytes(), &format!("answers 1\n{line}\nend apps 0 running 0 lent 0\n"))
    }

    #[test]
    fn a_stored_zero_is_no_refusal() {
        for refusal in 1..=15 {
            let text = read_answered(&format!("1 9 {refusal} - -")).unwrap();
            assert!(text.contains(&format!("REFUSED {refusal}: ")) && !text.contains("value"));
        }
        for ground in 1..=4 {
            let text = read_answered(&format!("1 9 0 {ground} 0")).unwrap();
            assert!(text.contains("the value read is 0") && !text.contains("REFUSED"));
        }
    }

    #[test]
    fn a_line_of_another_form_is_no_answer() {
        let lines = ["1 9 0 - -", "1 9 11 0 0", "1 9 11 - 0", "1 9 0 0 0", "1 9 0 5 0", "1 9 16 - -", "1 9 00 1 0"];
        for line in lines.into_iter().chain(["2 9 0 1 0", "1 10 0 1 0", "1 9 0 1", "1 9 0 1 4294967296", ""]) {
            let reason = read_answered(line).unwrap_err();
            assert!(reason.starts_with("sheet line 2: expected `1 9 0` with a ground"), "{line}: {reason}");
        }
    }

    #[test]
    fn a_sheet_is_neither_short_nor_long() {
        let tape = [0, 0, 0];
        assert_eq!(
            explain(&tape, "answers 0\nend apps 1 running 2 lent 0\n").unwrap(),
            "no manifests, no actions\nat the end: 1 app, 2 running instances, no loans\n"
        );
        for sheet in ["", "tape refused\n", "answers 1\n", "answers 0\n", "answers 0\nend apps 0\n"] {
            assert!(explain(&tape, sheet).unwrap_err().contains("expected"));
        }
        assert!(explain(&tape, "answers 0\nend apps 0 running 0 lent 0\nmore\n").is_err());
        assert_eq!(explain(&tape[..2], "tape refused\n").unwrap(), "tape REFUSED: it is cut\n");
        assert!(explain(&tape[..2], "answers 0\nend apps 0 running 0 lent 0\n").is_err());
    }
}
