//! One tape in the making. The fields of the next action are chosen with an eye on the state, so that most name things
//! that are there, and some just miss.

use crate::answer::Answer;
use crate::manifest::{Manifest, PROVIDER};
use crate::random::Random;
use crate::situations::Step;
use crate::tables::{handed, Tables};
use crate::tally::Tally;
use crate::tape::{code, Action, Tape, MOST_ACTIONS};
use crate::worlds::GROUPS;

/// In place of a code: a record that is malformed.
pub const DAMAGED: u8 = 0;

pub struct Maker<'t> {
    pub random: &'t mut Random,
    pub tables: Tables,
    tally: &'t mut Tally,
    manifests: Vec<Vec<u8>>,
    good: Vec<Option<Manifest>>,
    answered: Vec<(Action, Answer)>,
}

impl<'t> Maker<'t> {
    pub fn new(random: &'t mut Random, tally: &'t mut Tally, manifests: Vec<Vec<u8>>) -> Maker<'t> {
        let good = manifests.iter().map(|bytes| Manifest::read(bytes)).collect();
        Maker { random, tables: Tables::default(), tally, manifests, good, answered: Vec::new() }
    }

    pub fn tape(self) -> Tape {
        let actions = self.answered.into_iter().map(|(action, _)| action).collect();
        Tape { manifests: self.manifests, actions }
    }

    /// Puts the action on the tape, where it has room.
    pub fn act(&mut self, action: Action) {
        if self.answered.len() == MOST_ACTIONS {
            return;
        }
        let before = self.tables.clone();
        let manifest = handed(&self.good, &action);
        let refusals = before.refusals(&action, manifest);
        let answer = self.tables.step(&action, manifest);
        self.tally.count(&Step {
            manifests: &self.good,
            earlier: &self.answered,
            before: &before,
            action: &action,
            refusals,
            answer,
            after: &self.tables,
        });
        self.answered.push((action, answer));
    }

    pub fn is_done(&self, action: &Action) -> bool {
        self.tables.refusals(action, handed(&self.good, action)).smallest().is_none()
    }

    /// How often the like of the action was put on a tape so far.
    pub fn seen(&self, action: &Action) -> usize {
        self.tally.seen(&self.tables, action, self.tables.refusals(action, handed(&self.good, action)))
    }

    pub fn uninstall_definer(&mut self, permission: u16) {
        let definer = self.tables.definer(permission).unwrap_or(0);
        self.act(Action { code: code::UNINSTALL, b: definer, ..Action::default() });
    }

    /// Installs the first manifest that defines the permission and is not refused, from a place by chance on.
    pub fn install_definer(&mut self, permission: u16) {
        let first = self.random.below(self.good.len());
        let places = (0..self.good.len()).map(|place| (first + place) % self.good.len());
        let defines = |place: &usize| self.good[*place].as_ref().is_some_and(|m| m.define(permission).is_some());
        let install = |b: usize| Action { code: code::INSTALL, b: b as u16, ..Action::default() };
        let mut installs = places.filter(defines).map(install);
        if let Some(install) = installs.find(|install| self.is_done(install)) {
            self.act(install);
        }
    }

    /// An action of the code.
    pub fn candidate(&mut self, code: u8) -> Action {
        let app = self.app();
        let of = Action { code, ..Action::default() };
        match code {
            code::INSTALL => Action { a: self.random.chance(12).into(), b: self.place(), ..of },
            code::UNINSTALL => Action { b: app, ..of },
            code::GRANT | code::REVOKE | code::ASK => Action { b: app, c: self.permission(app), ..of },
            code::GRANT_GROUP | code::REVOKE_GROUP => Action { b: app, c: self.group(), ..of },
            code::START => Action { b: self.component(), c: self.caller(), ..of },
            code::STOP => Action { c: self.instance(), ..of },
            code::READ | code::WRITE | code::WITHDRAW => self.with_resource(of),
            code::LEND_TO_INSTANCE | code::LEND_TO_APP => self.with_resource(of),
            _ => self.damaged(),
        }
    }

    fn with_resource(&mut self, of: Action) -> Action {
        let (provider, uri) = self.resource();
        let action = Action { b: provider, c: self.instance(), d: uri, ..of };
        let operations = self.random.within(1, 3) as u8;
        match of.code {
            code::READ => action,
            code::WRITE => Action { e: self.value(), ..action },
            code::WITHDRAW => Action { a: operations, ..action },
            code::LEND_TO_APP => Action { a: operations, e: self.receiver(true), ..action },
            _ => Action { a: operations, e: self.receiver(false), ..action },
        }
    }

    /// A record that is malformed by one field.
    fn damaged(&mut self) -> Action {
        let code = self.random.within(1, 14) as u8;
        let good = self.candidate(code);
        let one = self.random.pick(&[1, 2, 4, 255]);
        let broken = match self.random.below(7) {
            0 => Action { code: self.random.pick(&[0, 15, 16, 128, 255]), ..good },
            1 | 2 => Action { a: one, ..good },
            3 => Action { a: 0, ..good },
            4 => Action { b: one.into(), ..good },
            5 => Action { d: one.into(), ..good },
            _ => Action { e: u32::from(one) << 8, ..good },
        };
        let both = [broken, Action { c: one.into(), e: one.into(), ..broken }];
        let is_malformed = |action: &Action| self.tables.refusals(action, None).has(2);
        both.into_iter().find(is_malformed).unwrap_or(Action { code: 200, ..good })
    }

    /// A number that would be `number` at a lesser width, or is nobody's.
    fn near_miss(&mut self, number: u16) -> u16 {
        self.random.pick(&[0, number ^ 0x100, number ^ 0x8000, number.wrapping_add(64), 65_535])
    }

    fn place(&mut self) -> u16 {
        let place = self.random.below(self.manifests.len()) as u16;
        match self.random.below(100) {
            0..=1 => self.near_miss(place),
            2..=3 => self.manifests.len() as u16,
            _ => place,
        }
    }

    fn app(&mut self) -> u16 {
        let there: Vec<u16> = self.tables.apps.iter().map(|app| app.number).collect();
        let app = self.random.pick_or(&there, 1);
        match self.random.below(100) {
            0..=3 => self.near_miss(app),
            4..=8 => self.random.within(1, 20) as u16,
            _ => app,
        }
    }

    fn permission(&mut self, app: u16) -> u16 {
        let listed: Vec<u8> = self.tables.app(app).map_or(Vec::new(), |app| app.uses.clone());
        let permission = self.random.pick_or(&listed, 3).into();
        match self.random.below(100) {
            0..=3 => self.near_miss(permission),
            4..=13 => self.random.below(66) as u16,
            14..=24 => {
                let defined: Vec<u8> =
                    self.tables.definitions.iter().map(|definition| definition.row.permission).collect();
                self.random.pick_or(&defined, 5).into()
            }
            _ => permission,
        }
    }

    fn group(&mut self) -> u16 {
        let group = self.random.pick(&GROUPS).into();
        match self.random.below(100) {
            0..=2 => self.near_miss(group),
            3..=7 => self.random.within(5, 17) as u16,
            _ => group,
        }
    }

    fn component(&mut self) -> u16 {
        let any_kind = self.random.chance(6);
        let rows = self.tables.components.iter().map(|component| component.row);
        let there: Vec<u16> = rows.filter(|row| any_kind || row.kind != PROVIDER).map(|row| row.number).collect();
        let component = self.random.pick_or(&there, 65);
        if self.random.chance(5) {
            self.near_miss(component)
        } else {
            component
        }
    }

    fn caller(&mut self) -> u16 {
        if self.random.chance(40) {
            0
        } else {
            self.instance()
        }
    }

    fn instance(&mut self) -> u16 {
        let running: Vec<u16> = self.tables.running.iter().map(|running| running.number).collect();
        let instance = self.random.pick_or(&running, 1);
        match self.random.below(100) {
            0..=3 => self.near_miss(instance),
            4..=6 => self.random.within(1, 66) as u16,
            _ => instance,
        }
    }

    fn resource(&mut self) -> (u16, u16) {
        let there: Vec<(u16, u16)> = self.tables.resources.iter().map(|r| (r.row.provider, r.row.uri)).collect();
        let (provider, uri) = self.random.pick_or(&there, (65, 1));
        match self.random.below(100) {
            0..=2 => (self.near_miss(provider), uri),
            3..=5 => (self.component(), uri),
            6..=8 => (provider, self.near_miss(uri)),
            9..=12 => (provider, self.random.within(0, 41) as u16),
            _ => (provider, uri),
        }
    }

    fn receiver(&mut self, is_app: bool) -> u32 {
        let number: u32 = if is_app { self.app() } else { self.instance() }.into();
        if self.random.chance(4) {
            number + 65_536
        } else {
            number
        }
    }

    fn value(&mut self) -> u32 {
        let any = self.random.bits() as u32;
        self.random.pick(&[0, 1, u32::MAX, any])
    }
}
