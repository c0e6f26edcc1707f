//! How often each answer, ground, overlap and situation occurs on the tapes, and whether that is often enough.

use crate::answer::{number, Done};
use crate::situations::{Step, SITUATIONS};
use crate::tables::{operations, Refusals, Tables};
use crate::tape::{code, Action, Damage};
use std::collections::{BTreeMap, HashMap};

/// Each pair of action and answer, and each ground, occurs at least this often.
const LEAST: usize = 20;

/// Each overlap and each situation occurs at least this often.
const LEAST_OVERLAP: usize = 10;

/// The name of each action from code 1, and the answers that can occur to it on a tape.
const ACTIONS: [(&str, &[u8]); 14] = [
    ("install", &[0, 2, 3, 4, 15]),
    ("uninstall", &[0, 2, 5, 13, 14]),
    ("grant", &[0, 2, 4, 5, 9, 10]),
    ("revoke", &[0, 2, 5, 9, 12]),
    ("grant group", &[0, 2, 4, 5, 9, 10]),
    ("revoke group", &[0, 2, 5, 9, 12]),
    ("start", &[0, 2, 6, 7, 11, 15]),
    ("stop", &[0, 2, 7]),
    ("read", &[0, 2, 6, 7, 8, 11]),
    ("write", &[0, 2, 6, 7, 8, 11]),
    ("lend to instance", &[0, 2, 6, 7, 8, 11, 15]),
    ("lend to app", &[0, 2, 5, 6, 7, 8, 11, 15]),
    ("withdraw", &[0, 2, 6, 7, 8, 11]),
    ("ask", &[0, 2, 5, 9]),
];

/// Refusals that meet in one action, where the first is the answer: they differ only where the order is wrong.
const OVERLAPS: &[(u8, &[u8])] = &[
    (code::INSTALL, &[4, 15]),
    (code::UNINSTALL, &[13, 14]),
    (code::GRANT, &[5, 9]),
    (code::GRANT, &[9, 10]),
    (code::REVOKE, &[5, 9]),
    (code::REVOKE, &[9, 12]),
    (code::GRANT_GROUP, &[4, 10]),
    (code::GRANT_GROUP, &[5, 9]),
    (code::GRANT_GROUP, &[9, 10]),
    (code::REVOKE_GROUP, &[5, 9]),
    (code::REVOKE_GROUP, &[9, 12]),
    (code::START, &[6, 7]),
    (code::START, &[6, 15]),
    (code::START, &[7, 15]),
    (code::START, &[11, 15]),
    (code::READ, &[6, 7]),
    (code::READ, &[7, 8]),
    (code::READ, &[8, 11]),
    (code::WRITE, &[6, 7]),
    (code::WRITE, &[7, 8]),
    (code::WRITE, &[8, 11]),
    (code::LEND_TO_INSTANCE, &[6, 7]),
    (code::LEND_TO_INSTANCE, &[7, 8]),
    (code::LEND_TO_INSTANCE, &[7, 11]),
    (code::LEND_TO_INSTANCE, &[8, 11]),
    (code::LEND_TO_INSTANCE, &[11, 15]),
    (code::LEND_TO_APP, &[5, 6]),
    (code::LEND_TO_APP, &[5, 6, 7]),
    (code::LEND_TO_APP, &[5, 7]),
    (code::LEND_TO_APP, &[5, 8]),
    (code::LEND_TO_APP, &[5, 11]),
    (code::LEND_TO_APP, &[6, 7]),
    (code::LEND_TO_APP, &[7, 8]),
    (code::LEND_TO_APP, &[8, 11]),
    (code::LEND_TO_APP, &[11, 15]),
    (code::WITHDRAW, &[6, 7]),
    (code::WITHDRAW, &[7, 8]),
    (code::WITHDRAW, &[8, 11]),
    (code::ASK, &[5, 9]),
];

const DAMAGES: [Damage; 5] =
    [Damage::Cut, Damage::LeftOver, Damage::ManifestCount, Damage::ManifestLength, Damage::ActionCount];

#[derive(Default)]
pub struct Tally {
    /// by code and answer
    answers: BTreeMap<(u8, u8), usize>,
    /// by code (read or write) and ground
    grounds: BTreeMap<(u8, u8), usize>,
    overlaps: Vec<usize>,
    situations: Vec<usize>,
    damages: [usize; 5],
    /// by code, refusals that apply, and ground
    likes: HashMap<(u8, u16, u8), usize>,
}

impl Tally {
    pub fn new() -> Tally {
        Tally { overlaps: vec![0; OVERLAPS.len()], situations: vec![0; SITUATIONS.len()], ..Tally::default() }
    }

    pub fn count(&mut self, step: &Step) {
        let action = step.action;
        *self.answers.entry((action.code, number(step.answer))).or_default() += 1;
        *self.likes.entry(like(step.before, action, step.refusals)).or_default() += 1;
        if let Ok(Done { ground: ground @ 1.., .. }) = step.answer {
            *self.grounds.entry((action.code, ground)).or_default() += 1;
        }
        for (count, (code, numbers)) in self.overlaps.iter_mut().zip(OVERLAPS) {
            let meet = action.code == *code && numbers.iter().all(|&number| step.refusals.has(number));
            *count += usize::from(meet && number(step.answer) == numbers[0]);
        }
        for (count, (_, occurs)) in self.situations.iter_mut().zip(SITUATIONS) {
            *count += usize::from(occurs(step));
        }
    }

    pub fn count_damage(&mut self, damage: Damage) {
        for (count, named) in self.damages.iter_mut().zip(DAMAGES) {
            *count += usize::from(named == damage);
        }
    }

    pub fn seen(&self, tables: &Tables, action: &Action, refusals: Refusals) -> usize {
        self.likes.get(&like(tables, action, refusals)).copied().unwrap_or(0)
    }

    /// Prints the counts, and says what occurs too rarely or should not occur at all.
    pub fn report(&self) -> Vec<String> {
        let mut wrong = Vec::new();
        self.report_answers(&mut wrong);
        let grounds = [(code::READ, "read"), (code::WRITE, "write")];
        for (code, name) in grounds {
            let counts: Vec<usize> = (1..=4).map(|g| self.grounds.get(&(code, g)).copied().unwrap_or(0)).collect();
            println!("{name:5} on ground 1 {:6}, 2 {:6}, 3 {:6}, 4 {:6}", counts[0], counts[1], counts[2], counts[3]);
            wrong.extend(counts.iter().any(|&count| count < LEAST).then(|| format!("a ground of {name} is too rare")));
        }
        for (&count, (code, numbers)) in self.overlaps.iter().zip(OVERLAPS) {
            let numbers: Vec<String> = numbers.iter().map(u8::to_string).collect();
            line(&mut wrong, count, &format!("{}: {}", name(*code), numbers.join(" with ")));
        }
        for (&count, (name, _)) in self.situations.iter().zip(SITUATIONS) {
            line(&mut wrong, count, name);
        }
        for (count, damage) in self.damages.into_iter().zip(DAMAGES) {
            line(&mut wrong, count, &format!("tape refused: {damage}"));
        }
        wrong
    }

    fn report_answers(&self, wrong: &mut Vec<String>) {
        let heads: String = (0..=15).filter(|&n| n != 1).map(|n| format!("{n:>6}")).collect();
        println!("{:17}{heads}", "answers");
        for code in code::ALL {
            let (name, can_occur) = ACTIONS[usize::from(code) - 1];
            let mut row = format!("{name:17}");
            for answer in (0..=15).filter(|&n| n != 1) {
                let count = self.answers.get(&(code, answer)).copied().unwrap_or(0);
                let can = can_occur.contains(&answer);
                row += &if can { format!("{count:>6}") } else { format!("{:>6}", "") };
                wrong.extend((can && count < LEAST).then(|| format!("{name} {answer} is too rare")));
                wrong.extend((!can && count > 0).then(|| format!("{name} {answer} cannot occur")));
            }
            println!("{row}");
        }
        let unknown: usize =
            self.answers.iter().filter(|((code, _), _)| !code::ALL.contains(code)).map(|(_, n)| n).sum();
        println!("{:23}{unknown:6}", "other codes");
        wrong.extend((unknown < LEAST).then(|| "other codes are too rare".to_string()));
    }
}

fn line(wrong: &mut Vec<String>, count: usize, name: &str) {
    println!("{count:8}  {name}");
    wrong.extend((count < LEAST_OVERLAP).then(|| format!("too rare: {name}")));
}

fn name(code: u8) -> &'static str {
    ACTIONS[usize::from(code) - 1].0
}

/// What two actions share that are alike: the code, the refusals that apply and the ground of a read or write.
fn like(tables: &Tables, action: &Action, refusals: Refusals) -> (u8, u16, u8) {
    let uses = matches!(action.code, code::READ | code::WRITE);
    let ground = if uses { tables.ground_of(action, operations(action)) } else { 0 };
    (action.code, refusals.bits(), ground)
}
