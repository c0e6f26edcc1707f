//! What comes back for an action, and the sheet that lists it: document 01, "Numbers that come back" and "The tape and
//! the answer sheet".

use crate::tape::Tape;
use std::fmt::Write;

#[derive(Clone, Copy, PartialEq, Eq, PartialOrd, Ord, Debug)]
pub enum Refusal {
    MalformedAction = 2,
    MalformedManifest = 3,
    AlreadyThere = 4,
    NoApp = 5,
    NoComponent = 6,
    NoInstance = 7,
    NoResource = 8,
    Undefined = 9,
    CannotBeGranted = 10,
    NotPermitted = 11,
    NothingToTakeBack = 12,
    InUse = 13,
    PartOfTheImage = 14,
    NoRoom = 15,
}

/// What a done action brings back. The ground is 0 for all but read and write.
#[derive(Clone, Copy, Default, PartialEq, Eq, Debug)]
pub struct Done {
    pub ground: u8,
    pub value: u32,
}

pub type Answer = Result<Done, Refusal>;

/// The number of an answer in document 01's table.
pub fn number(answer: Answer) -> u8 {
    match answer {
        Ok(_) => 0,
        Err(refusal) => refusal as u8,
    }
}

#[derive(Clone, PartialEq, Eq, Debug)]
pub struct Sheet {
    /// the code of each action and its answer
    pub answers: Vec<(u8, Answer)>,
    pub apps: usize,
    pub running: usize,
    pub lent: usize,
}

impl Sheet {
    fn text(&self) -> String {
        let mut out = format!("answers {}\n", self.answers.len());
        for (place, (code, answer)) in (1..).zip(&self.answers) {
            match answer {
                Ok(Done { ground, value }) => writeln!(out, "{place} {code} 0 {ground} {value}"),
                Err(refusal) => writeln!(out, "{place} {code} {} - -", *refusal as u8),
            }
            .expect("a String takes every line");
        }
        out + &format!("end apps {} running {} lent {}\n", self.apps, self.running, self.lent)
    }
}

/// The text of a tape's sheet, by one of the two ways to make it.
pub fn sheet_text(bytes: &[u8], sheet: fn(&Tape) -> Sheet) -> String {
    match Tape::read(bytes) {
        Ok(tape) => sheet(&tape).text(),
        Err(_) => "tape refused\n".to_string(),
    }
}
