//! The situations that the tapes must reach, beside every answer: full tables, used numbers, definers that leave and
//! return, loans widened, narrowed and handed on.

use crate::answer::{Answer, Done, Refusal};
use crate::manifest::{Manifest, DANGEROUS, SIGNATURE, SIGNATURE_OR_SYSTEM};
use crate::tables::{
    handed, operations, Loan, Refusals, Tables, MOST_APPS, MOST_COMPONENTS, MOST_LOANS, MOST_RESOURCES, MOST_RUNNING,
};
use crate::tape::{code, Action, BOTH, READ, WRITE};

/// One action of a tape with the state on both sides of it.
pub struct Step<'s> {
    pub manifests: &'s [Option<Manifest>],
    pub earlier: &'s [(Action, Answer)],
    pub before: &'s Tables,
    pub action: &'s Action,
    pub refusals: Refusals,
    pub answer: Answer,
    pub after: &'s Tables,
}

type Occurs = fn(&Step) -> bool;

pub const SITUATIONS: &[(&str, Occurs)] = &[
    ("the 16th app", |s| s.done(code::INSTALL) && s.after.apps.len() == MOST_APPS),
    ("the 64th component", |s| s.done(code::INSTALL) && s.reaches(|t| t.components.len(), MOST_COMPONENTS)),
    ("the 128th resource", |s| s.done(code::INSTALL) && s.reaches(|t| t.resources.len(), MOST_RESOURCES)),
    ("the 64th instance", |s| s.reaches(|t| t.running.len(), MOST_RUNNING)),
    ("the 128th loan", |s| s.reaches(|t| t.loans.len(), MOST_LOANS)),
    ("no room for the app alone", |s| s.no_room_for() == [true, false, false]),
    ("no room for its components alone", |s| s.no_room_for() == [false, true, false]),
    ("no room for its resources alone", |s| s.no_room_for() == [false, false, true]),
    ("no room by one component", |s| s.no_room_for()[1] && s.components_after() == MOST_COMPONENTS + 1),
    ("no room by one resource", |s| s.no_room_for()[2] && s.resources_after() == MOST_RESOURCES + 1),
    ("a used number is given to a new instance", |s| s.started().is_some_and(|number| s.was_stopped(number))),
    ("read refused: the loan was to an earlier instance", |s| s.refused(code::READ) && s.was_lent_to_the_number()),
    ("a loan is widened", |s| s.widens() && s.before.loans != s.after.loans),
    ("a loan is widened in a full table", |s| s.widens() && s.is_full() && s.before.loans != s.after.loans),
    ("a lend brings nothing new", |s| s.widens() && s.before.loans == s.after.loans),
    ("a new loan soon after a withdrawal, no room before", |s| s.lends() && s.is_after_a_withdrawal_from_full()),
    ("a lend rests on ground 3", |s| s.lends() && s.grounds().contains(&3)),
    ("a lend rests on ground 4", |s| s.lends() && s.grounds().contains(&4)),
    ("a lend of both rests on two grounds", |s| s.lends() && s.action.a == BOTH && s.grounds()[0] != s.grounds()[1]),
    ("an instance lends to itself", |s| s.done(code::LEND_TO_INSTANCE) && s.action.e == s.action.c.into()),
    ("instance and app of one number have loans", |s| s.lends() && s.has_a_loan_of_the_other_kind()),
    ("a withdrawal narrows a loan", |s| s.done(code::WITHDRAW) && s.narrows()),
    ("a withdrawal ends a loan", |s| s.done(code::WITHDRAW) && s.ended() > 0),
    ("a withdrawal changes nothing", |s| s.done(code::WITHDRAW) && s.before.loans == s.after.loans),
    ("a withdrawal on ground 2", |s| s.done(code::WITHDRAW) && s.grounds().contains(&2)),
    ("a withdrawal refused: the ground is a loan", |s| s.refused(code::WITHDRAW) && s.has_loan_grounds()),
    ("a stop ends loans", |s| s.done(code::STOP) && s.ended() > 0),
    ("an uninstall ends loans to the app", |s| s.done(code::UNINSTALL) && s.ended_to_app() > 0),
    ("an uninstall ends loans on its resources", |s| s.done(code::UNINSTALL) && s.ended() > s.ended_to_app()),
    ("a loan rests on twenty others in a row", |s| s.lends() && s.chain() >= 20),
    ("a use rests on a loan whose giver stopped", |s| s.giver().is_some_and(|giver| !s.runs(giver))),
    ("a use rests on a loan whose giver has lost its ground", |s| s.giver().is_some_and(|giver| s.lost_ground(giver))),
    ("the value read is 0", |s| s.done(code::READ) && s.value() == 0),
    ("the value written is 0", |s| s.done(code::WRITE) && s.value() == 0),
    ("a value read was written on this tape", |s| s.done(code::READ) && s.was_written() && s.value() != 0),
    ("a first value is back after a new install", |s| s.done(code::READ) && s.was_written_before_an_uninstall()),
    ("an uninstall takes other apps' grants", |s| s.done(code::UNINSTALL) && s.takes_grants_of_others()),
    ("ask 0: the grant left with the definer, who is back", |s| s.grant_left() && s.definer_now() == s.definer_then()),
    ("ask 0: the grant left, another app defines anew", |s| s.grant_left() && s.definer_now() != s.definer_then()),
    ("ask 0: dangerous of group 0, not granted", |s| s.asked(0, DANGEROUS) && s.lists() && s.group() == Some(0)),
    ("ask 1: dangerous, by the group alone", |s| s.asked(1, DANGEROUS) && !s.has_grant()),
    ("ask 1: dangerous, by the grant alone", |s| s.asked(1, DANGEROUS) && s.has_grant() && !s.has_group()),
    ("ask 1: signature", |s| s.asked(1, SIGNATURE)),
    ("ask 0: signature, for an image app", |s| s.asked(0, SIGNATURE) && s.lists() && s.is_image()),
    ("ask 1: signature/system, by the image", |s| s.asked(1, SIGNATURE_OR_SYSTEM) && !s.has_signer()),
    ("ask 1: signature/system, by the signer", |s| s.asked(1, SIGNATURE_OR_SYSTEM) && !s.is_image()),
    ("ask 0: not listed", |s| s.done(code::ASK) && !s.lists()),
    ("ask 0: the definer itself", |s| s.done(code::ASK) && s.value() == 0 && s.is_the_definer()),
    ("revoke refused: held by the group alone", |s| {
        s.is_refused(code::REVOKE, Refusal::NothingToTakeBack) && s.holds()
    }),
    ("an instance or permission at eight bits", |s| s.names_at(255)),
    ("an instance or permission at six bits", |s| s.names_at(63)),
    ("a place at eight bits", |s| s.names_a_place_at_eight_bits()),
    ("a receiver at sixteen bits", |s| s.names_a_receiver_at_sixteen_bits()),
    ("start refused: a service by the person", |s| s.person_starts_no_activity()),
    ("read refused: the permission is undefined", |s| s.refused(code::READ) && s.guard_is_undefined()),
];

impl Step<'_> {
    fn done(&self, code: u8) -> bool {
        self.action.code == code && self.answer.is_ok()
    }

    fn is_refused(&self, code: u8, refusal: Refusal) -> bool {
        self.action.code == code && self.answer == Err(refusal)
    }

    fn refused(&self, code: u8) -> bool {
        self.is_refused(code, Refusal::NotPermitted)
    }

    fn value(&self) -> u32 {
        self.answer.map_or(0, |Done { value, .. }| value)
    }

    fn reaches(&self, count: fn(&Tables) -> usize, most: usize) -> bool {
        count(self.before) < most && count(self.after) == most
    }

    /// Which limits an install would pass that is refused for them: apps, components, resources.
    fn no_room_for(&self) -> [bool; 3] {
        if !self.is_refused(code::INSTALL, Refusal::NoRoom) {
            return [false; 3];
        }
        [
            self.before.apps.len() == MOST_APPS,
            self.components_after() > MOST_COMPONENTS,
            self.resources_after() > MOST_RESOURCES,
        ]
    }

    fn manifest(&self, install: &Action) -> Option<&Manifest> {
        handed(self.manifests, install)
    }

    /// The components that there would be after the install.
    fn components_after(&self) -> usize {
        self.before.components.len() + self.manifest(self.action).map_or(0, |manifest| manifest.components.len())
    }

    fn resources_after(&self) -> usize {
        self.before.resources.len() + self.manifest(self.action).map_or(0, |manifest| manifest.resources.len())
    }

    fn earlier_done(&self, code: u8) -> impl DoubleEndedIterator<Item = (usize, &Action)> {
        let done = self.earlier.iter().enumerate().filter(move |(_, (a, answer))| a.code == code && answer.is_ok());
        done.map(|(place, (action, _))| (place, action))
    }

    fn started(&self) -> Option<u16> {
        self.done(code::START).then_some(self.value() as u16)
    }

    fn was_stopped(&self, number: u16) -> bool {
        self.earlier_done(code::STOP).any(|(_, stop)| stop.c == number)
    }

    fn was_lent_to_the_number(&self) -> bool {
        let lend = |lend: &Action| lend.e == self.action.c.into() && self.is_on_the_same(lend) && lend.a & READ != 0;
        let lent = self.earlier_done(code::LEND_TO_INSTANCE).find(|(_, action)| lend(action));
        let stopped = self.earlier_done(code::STOP).rfind(|(_, stop)| stop.c == self.action.c);
        lent.zip(stopped).is_some_and(|((lent, _), (stopped, _))| lent < stopped)
    }

    fn is_on_the_same(&self, other: &Action) -> bool {
        (other.b, other.d) == (self.action.b, self.action.d)
    }

    fn lends(&self) -> bool {
        self.done(code::LEND_TO_INSTANCE) || self.done(code::LEND_TO_APP)
    }

    fn widens(&self) -> bool {
        self.lends() && self.before.loans.len() == self.after.loans.len()
    }

    fn is_full(&self) -> bool {
        self.before.loans.len() == MOST_LOANS
    }

    fn is_after_a_withdrawal_from_full(&self) -> bool {
        let before = self.earlier.iter().rev().take_while(|(action, _)| action.code != code::WITHDRAW);
        let refused = |(action, answer): &(Action, Answer)| {
            matches!(action.code, code::LEND_TO_INSTANCE | code::LEND_TO_APP) && *answer == Err(Refusal::NoRoom)
        };
        !self.widens() && before.count() < 8 && self.earlier.iter().any(refused)
    }

    /// The grounds of the operations asked by a lend or withdraw, 0 for one that has none.
    fn grounds(&self) -> Vec<u8> {
        let asked = [READ, WRITE].into_iter().filter(|operation| self.action.a & operation != 0);
        asked.map(|operation| self.before.ground_of(self.action, operation)).collect()
    }

    fn has_loan_grounds(&self) -> bool {
        self.grounds().iter().all(|ground| *ground >= 3)
    }

    fn has_a_loan_of_the_other_kind(&self) -> bool {
        let other =
            |loan: &&Loan| (loan.provider, loan.uri, loan.receiver) == (self.action.b, self.action.d, self.action.e);
        self.after.loans.iter().filter(other).count() == 2
    }

    fn narrows(&self) -> bool {
        let same =
            |a: &Loan, b: &Loan| (a.to_app, a.receiver, a.provider, a.uri) == (b.to_app, b.receiver, b.provider, b.uri);
        let narrower =
            |now: &Loan| self.before.loans.iter().any(|loan| same(loan, now) && loan.operations > now.operations);
        self.after.loans.iter().any(narrower)
    }

    fn ended(&self) -> usize {
        self.before.loans.len().saturating_sub(self.after.loans.len())
    }

    fn ended_to_app(&self) -> usize {
        self.before.loans.iter().filter(|loan| loan.to_app && loan.receiver == self.action.b.into()).count()
    }

    /// How many lends in a row brought the giver what it lends on.
    fn chain(&self) -> usize {
        let (mut giver, mut end, mut links) = (self.action.c, self.earlier.len(), 0);
        let brings = |lend: &Action, to: u16| self.is_on_the_same(lend) && lend.e == to.into() && lend.c != to;
        while let Some((place, lend)) =
            self.earlier_done(code::LEND_TO_INSTANCE).rfind(|(place, lend)| *place < end && brings(lend, giver))
        {
            (giver, end, links) = (lend.c, place, links + 1);
        }
        links
    }

    /// The giver of the loan that a done read or write rests on.
    fn giver(&self) -> Option<u16> {
        let (code, receiver) = match self.answer.ok()?.ground {
            3 => (code::LEND_TO_INSTANCE, self.action.c),
            4 => (code::LEND_TO_APP, self.before.running(self.action.c)?.app),
            _ => return None,
        };
        let operation = operations(self.action);
        let gave = |lend: &Action| self.is_on_the_same(lend) && lend.e == receiver.into() && lend.a & operation != 0;
        self.earlier_done(code).rfind(|(_, lend)| gave(lend)).map(|(_, lend)| lend.c)
    }

    fn runs(&self, instance: u16) -> bool {
        self.before.running(instance).is_some()
    }

    fn lost_ground(&self, giver: u16) -> bool {
        let its_use = Action { c: giver, ..*self.action };
        self.runs(giver) && self.before.ground_of(&its_use, operations(self.action)) == 0
    }

    fn was_written(&self) -> bool {
        self.earlier_done(code::WRITE).any(|(_, write)| self.is_on_the_same(write))
    }

    fn was_written_before_an_uninstall(&self) -> bool {
        let written = self.earlier_done(code::WRITE).rfind(|(_, write)| self.is_on_the_same(write));
        let owner = self.before.component(self.action.b).map(|component| component.app);
        let left = self.earlier_done(code::UNINSTALL).rfind(|(_, uninstall)| Some(uninstall.b) == owner);
        written.zip(left).is_some_and(|((written, _), (left, _))| written < left)
    }

    fn takes_grants_of_others(&self) -> bool {
        let count = |tables: &Tables| -> usize {
            tables.apps.iter().filter(|app| app.number != self.action.b).map(|app| app.grants.len()).sum()
        };
        count(self.after) < count(self.before)
    }

    /// The place of the latest grant of what is asked.
    fn granted(&self) -> Option<usize> {
        let same = |grant: &Action| (grant.b, grant.c) == (self.action.b, self.action.c);
        self.earlier_done(code::GRANT).rfind(|(_, grant)| same(grant)).map(|(place, _)| place)
    }

    /// Whether a dangerous permission is not held that was granted, while nobody took the grant and the app stayed.
    fn grant_left(&self) -> bool {
        let Some(granted) = self.granted().filter(|_| self.asked(0, DANGEROUS)) else { return false };
        let revokes = |revoke: &Action| (revoke.b, revoke.c) == (self.action.b, self.action.c);
        let revoked = self.earlier_done(code::REVOKE).any(|(place, revoke)| place > granted && revokes(revoke));
        let left = self.earlier_done(code::UNINSTALL).any(|(place, app)| place > granted && app.b == self.action.b);
        !revoked && !left
    }

    fn definer_now(&self) -> Option<u16> {
        self.before.definer(self.action.c)
    }

    /// The definer of the permission asked when it was granted.
    fn definer_then(&self) -> Option<u16> {
        let granted = self.granted()?;
        let installs = self.earlier_done(code::INSTALL).filter(|(place, _)| *place < granted);
        let mut manifests = installs.rev().filter_map(|(_, install)| self.manifest(install));
        manifests.find(|manifest| manifest.define(self.action.c).is_some()).map(|manifest| manifest.app)
    }

    fn definition(&self) -> Option<(u8, u8, u32)> {
        self.before.definition(self.action.c)
    }

    fn asked(&self, value: u32, level: u8) -> bool {
        self.done(code::ASK) && self.value() == value && self.definition().is_some_and(|defined| defined.0 == level)
    }

    fn group(&self) -> Option<u8> {
        self.definition().map(|(_, group, _)| group)
    }

    fn lists(&self) -> bool {
        let listed = |used: &u8| u16::from(*used) == self.action.c;
        self.before.app(self.action.b).is_some_and(|app| app.uses.iter().any(listed))
    }

    fn has_grant(&self) -> bool {
        self.before.app(self.action.b).is_some_and(|app| app.grants.contains(&self.action.c))
    }

    fn has_group(&self) -> bool {
        let group = self.group().map(u16::from);
        self.before.app(self.action.b).is_some_and(|app| app.groups.iter().any(|granted| Some(*granted) == group))
    }

    fn has_signer(&self) -> bool {
        self.before.app(self.action.b).map(|app| app.signer) == self.definition().map(|(_, _, signer)| signer)
    }

    fn is_image(&self) -> bool {
        self.before.app(self.action.b).is_some_and(|app| app.image)
    }

    fn is_the_definer(&self) -> bool {
        let defined = |define: u8| u16::from(define) == self.action.c;
        self.before.definitions.iter().any(|row| row.app == self.action.b && defined(row.row.permission))
    }

    fn holds(&self) -> bool {
        self.before.app(self.action.b).is_some_and(|app| self.before.holds(app, self.action.c))
    }

    /// Whether a refusal is due to a number that would be right with these bits alone.
    fn names_at(&self, bits: u16) -> bool {
        let low = self.action.c & bits;
        self.action.c != low
            && match self.answer {
                Err(Refusal::NoInstance) => self.runs(low),
                Err(Refusal::Undefined) => self.before.definition(low).is_some(),
                _ => false,
            }
    }

    fn names_a_place_at_eight_bits(&self) -> bool {
        let low = Action { b: self.action.b & 255, ..*self.action };
        let refused = self.is_refused(code::INSTALL, Refusal::MalformedManifest);
        refused && self.action.b > 255 && self.manifest(&low).is_some()
    }

    fn names_a_receiver_at_sixteen_bits(&self) -> bool {
        let low = self.action.e as u16;
        self.action.e > 65_535
            && match self.action.code {
                code::LEND_TO_INSTANCE => self.answer == Err(Refusal::NoInstance) && self.runs(low),
                code::LEND_TO_APP => self.answer == Err(Refusal::NoApp) && self.before.app(low).is_some(),
                _ => false,
            }
    }

    fn person_starts_no_activity(&self) -> bool {
        let exported = self.before.component(self.action.b).is_some_and(|component| component.row.exported == 1);
        self.refused(code::START) && self.action.c == 0 && exported
    }

    fn guard_is_undefined(&self) -> bool {
        let guard = self.before.component(self.action.b).filter(|row| row.row.exported == 1).map(|row| row.row.read);
        guard.is_some_and(|guard| guard != 0 && self.before.definition(guard.into()).is_none())
    }
}
