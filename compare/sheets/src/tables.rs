//! The twin that keeps the state in tables. For an action it gathers every refusal that applies and answers the
//! smallest: document 01, "Conditions and effects". It steers the making of tapes and shows which refusals meet.

use crate::answer::{Answer, Done, Refusal, Sheet};
use crate::manifest::{Component, Define, Manifest, Resource, ACTIVITY, PROVIDER};
use crate::tape::{code, Action, Tape};

pub const MOST_APPS: usize = 16;
pub const MOST_COMPONENTS: usize = 64;
pub const MOST_RESOURCES: usize = 128;
pub const MOST_RUNNING: usize = 64;
pub const MOST_LOANS: usize = 128;

#[derive(Clone)]
pub struct App {
    pub number: u16,
    pub signer: u32,
    pub image: bool,
    pub uses: Vec<u8>,
    pub grants: Vec<u16>,
    pub groups: Vec<u16>,
}

/// A row of a table and the number of the app that it belongs to.
#[derive(Clone)]
pub struct Owned<T> {
    pub app: u16,
    pub row: T,
}

/// A running instance and the app that it belongs to.
#[derive(Clone)]
pub struct Running {
    pub number: u16,
    pub app: u16,
}

#[derive(Clone, PartialEq)]
pub struct Loan {
    pub to_app: bool,
    pub receiver: u32,
    pub provider: u16,
    pub uri: u16,
    pub operations: u8,
}

impl Loan {
    fn is_on(&self, action: &Action) -> bool {
        (self.provider, self.uri) == (action.b, action.d)
    }

    /// Whether a lend of this action widens the loan.
    fn is_of(&self, action: &Action) -> bool {
        self.is_on(action) && self.receiver == action.e && self.to_app == (action.code == code::LEND_TO_APP)
    }
}

#[derive(Clone, Default)]
pub struct Tables {
    pub apps: Vec<App>,
    pub definitions: Vec<Owned<Define>>,
    pub components: Vec<Owned<Component>>,
    pub resources: Vec<Owned<Resource>>,
    pub running: Vec<Running>,
    pub loans: Vec<Loan>,
}

/// The refusals that apply to one action, a bit for each number.
#[derive(Clone, Copy, Default, PartialEq)]
pub struct Refusals(u16);

impl Refusals {
    fn add_if(&mut self, condition: bool, refusal: Refusal) {
        self.0 |= u16::from(condition) << refusal as u8;
    }

    pub fn has(self, number: u8) -> bool {
        self.0 >> number & 1 == 1
    }

    pub fn bits(self) -> u16 {
        self.0
    }

    pub fn smallest(self) -> Option<Refusal> {
        ALL.into_iter().find(|&refusal| self.has(refusal as u8))
    }
}

const ALL: [Refusal; 14] = [
    Refusal::MalformedAction,
    Refusal::MalformedManifest,
    Refusal::AlreadyThere,
    Refusal::NoApp,
    Refusal::NoComponent,
    Refusal::NoInstance,
    Refusal::NoResource,
    Refusal::Undefined,
    Refusal::CannotBeGranted,
    Refusal::NotPermitted,
    Refusal::NothingToTakeBack,
    Refusal::InUse,
    Refusal::PartOfTheImage,
    Refusal::NoRoom,
];

/// The fields listed for each code from 1, in the order a, b, c, d, e.
const LISTED: [[bool; 5]; 14] = {
    const Y: bool = true;
    const N: bool = false;
    [
        [Y, Y, N, N, N],
        [N, Y, N, N, N],
        [N, Y, Y, N, N],
        [N, Y, Y, N, N],
        [N, Y, Y, N, N],
        [N, Y, Y, N, N],
        [N, Y, Y, N, N],
        [N, N, Y, N, N],
        [N, Y, Y, Y, N],
        [N, Y, Y, Y, Y],
        [Y, Y, Y, Y, Y],
        [Y, Y, Y, Y, Y],
        [Y, Y, Y, Y, N],
        [N, Y, Y, N, N],
    ]
};

/// Level and group of permission 0 and the built-in ones.
const BUILT_IN: [Option<(u8, u8)>; 9] = [
    None,
    Some((0, 0)),
    Some((0, 0)),
    Some((1, 1)),
    Some((1, 2)),
    Some((1, 2)),
    Some((1, 3)),
    Some((2, 0)),
    Some((3, 0)),
];

pub fn sheet(tape: &Tape) -> Sheet {
    let manifests: Vec<Option<Manifest>> = tape.manifests.iter().map(|bytes| Manifest::read(bytes)).collect();
    let mut tables = Tables::default();
    let step = |action: &Action| (action.code, tables.step(action, handed(&manifests, action)));
    let answers = tape.actions.iter().map(step).collect();
    Sheet { answers, apps: tables.apps.len(), running: tables.running.len(), lent: tables.loans.len() }
}

/// The manifest that the action is handed, where it is a good one.
pub fn handed<'m>(manifests: &'m [Option<Manifest>], action: &Action) -> Option<&'m Manifest> {
    manifests.get(usize::from(action.b))?.as_ref()
}

impl Tables {
    pub fn step(&mut self, action: &Action, manifest: Option<&Manifest>) -> Answer {
        match self.refusals(action, manifest).smallest() {
            Some(refusal) => Err(refusal),
            None => Ok(self.act(action, manifest)),
        }
    }

    /// Every refusal that applies to the action.
    pub fn refusals(&self, action: &Action, manifest: Option<&Manifest>) -> Refusals {
        let mut found = Refusals::default();
        if is_malformed(action) {
            found.add_if(true, Refusal::MalformedAction);
            return found;
        }
        match action.code {
            code::INSTALL => self.refusals_of_install(&mut found, manifest),
            code::UNINSTALL => {
                found.add_if(self.app(action.b).is_none(), Refusal::NoApp);
                found.add_if(self.running.iter().any(|running| running.app == action.b), Refusal::InUse);
                found.add_if(self.app(action.b).is_some_and(|app| app.image), Refusal::PartOfTheImage);
            }
            code::GRANT | code::REVOKE => self.refusals_of_grant(&mut found, action),
            code::GRANT_GROUP | code::REVOKE_GROUP => self.refusals_of_group(&mut found, action),
            code::START => self.refusals_of_start(&mut found, action),
            code::STOP => found.add_if(self.running(action.c).is_none(), Refusal::NoInstance),
            code::ASK => {
                found.add_if(self.app(action.b).is_none(), Refusal::NoApp);
                found.add_if(self.definition(action.c).is_none(), Refusal::Undefined);
            }
            _ => self.refusals_of_use(&mut found, action),
        }
        found
    }

    fn refusals_of_install(&self, found: &mut Refusals, manifest: Option<&Manifest>) {
        found.add_if(manifest.is_none(), Refusal::MalformedManifest);
        let Some(m) = manifest else { return };
        let clashes = self.app(m.app).is_some()
            || m.components.iter().any(|component| self.component(component.number).is_some())
            || m.defines.iter().any(|define| self.definition(define.permission.into()).is_some());
        found.add_if(clashes, Refusal::AlreadyThere);
        let passes = self.apps.len() + 1 > MOST_APPS
            || self.components.len() + m.components.len() > MOST_COMPONENTS
            || self.resources.len() + m.resources.len() > MOST_RESOURCES;
        found.add_if(passes, Refusal::NoRoom);
    }

    fn refusals_of_grant(&self, found: &mut Refusals, action: &Action) {
        let definition = self.definition(action.c);
        found.add_if(self.app(action.b).is_none(), Refusal::NoApp);
        found.add_if(definition.is_none(), Refusal::Undefined);
        let Some(app) = self.app(action.b) else { return };
        let granted = app.grants.contains(&action.c);
        if action.code == code::REVOKE {
            return found.add_if(!granted, Refusal::NothingToTakeBack);
        }
        found.add_if(granted, Refusal::AlreadyThere);
        let listed = app.uses.iter().any(|&used| u16::from(used) == action.c);
        let dangerous = definition.is_some_and(|(level, ..)| level == 1);
        found.add_if(!listed || !dangerous, Refusal::CannotBeGranted);
    }

    fn refusals_of_group(&self, found: &mut Refusals, action: &Action) {
        found.add_if(self.app(action.b).is_none(), Refusal::NoApp);
        found.add_if(action.c == 0 || action.c > 15, Refusal::Undefined);
        let Some(app) = self.app(action.b) else { return };
        let granted = app.groups.contains(&action.c);
        if action.code == code::REVOKE_GROUP {
            return found.add_if(!granted, Refusal::NothingToTakeBack);
        }
        found.add_if(granted, Refusal::AlreadyThere);
        let listed = app.uses.iter().filter_map(|&used| self.definition(used.into()));
        let of_group = listed.filter(|&(level, group, _)| level == 1 && u16::from(group) == action.c);
        found.add_if(of_group.count() == 0, Refusal::CannotBeGranted);
    }

    fn refusals_of_start(&self, found: &mut Refusals, action: &Action) {
        let component = self.component(action.b).filter(|component| component.row.kind != PROVIDER);
        let caller = self.running(action.c);
        found.add_if(component.is_none(), Refusal::NoComponent);
        found.add_if(action.c != 0 && caller.is_none(), Refusal::NoInstance);
        found.add_if(self.running.len() == MOST_RUNNING, Refusal::NoRoom);
        let Some(Owned { app: owner, row: component }) = component else { return };
        if action.c == 0 {
            let may = component.exported == 1 && component.kind == ACTIVITY;
            found.add_if(!may, Refusal::NotPermitted);
        } else if let Some(caller) = caller {
            let may = component.exported == 1 && self.meets(caller.app, component.start);
            found.add_if(caller.app != *owner && !may, Refusal::NotPermitted);
        }
    }

    /// The refusals of read, write, lend and withdraw, which all name a provider, an instance and a URI.
    fn refusals_of_use(&self, found: &mut Refusals, action: &Action) {
        let lends = matches!(action.code, code::LEND_TO_INSTANCE | code::LEND_TO_APP);
        let app_is_missing = !self.apps.iter().any(|app| u32::from(app.number) == action.e);
        let instance_is_missing = !self.running.iter().any(|running| u32::from(running.number) == action.e);
        let provider = self.component(action.b).filter(|component| component.row.kind == PROVIDER);
        let instance = self.running(action.c);
        found.add_if(action.code == code::LEND_TO_APP && app_is_missing, Refusal::NoApp);
        found.add_if(provider.is_none(), Refusal::NoComponent);
        found.add_if(instance.is_none(), Refusal::NoInstance);
        found.add_if(action.code == code::LEND_TO_INSTANCE && instance_is_missing, Refusal::NoInstance);
        found.add_if(self.resource(action.b, action.d).is_none(), Refusal::NoResource);
        let full = self.loans.len() == MOST_LOANS && !self.loans.iter().any(|loan| loan.is_of(action));
        found.add_if(lends && full, Refusal::NoRoom);
        let (Some(provider), Some(instance)) = (provider, instance) else { return };
        found.add_if(lends && provider.row.shares == 0, Refusal::NotPermitted);
        let last = if action.code == code::WITHDRAW { 2 } else { 4 };
        let has_a_ground = |operation| (1..=last).contains(&self.ground(provider, instance, action.d, operation));
        let permitted = (0..2).all(|bit| operations(action) >> bit & 1 == 0 || has_a_ground(1 << bit));
        found.add_if(!permitted, Refusal::NotPermitted);
    }

    pub fn app(&self, number: u16) -> Option<&App> {
        self.apps.iter().find(|app| app.number == number)
    }

    pub fn component(&self, number: u16) -> Option<&Owned<Component>> {
        self.components.iter().find(|component| component.row.number == number)
    }

    pub fn running(&self, number: u16) -> Option<&Running> {
        self.running.iter().find(|running| running.number == number)
    }

    pub fn resource(&self, provider: u16, uri: u16) -> Option<&Resource> {
        let row = |owned: &Owned<Resource>| (owned.row.provider, owned.row.uri) == (provider, uri);
        self.resources.iter().find(|owned| row(owned)).map(|owned| &owned.row)
    }

    /// Level, group and the definer's signer.
    pub fn definition(&self, permission: u16) -> Option<(u8, u8, u32)> {
        if let Some(built_in) = BUILT_IN.get(usize::from(permission)) {
            return built_in.map(|(level, group)| (level, group, 1));
        }
        let found = self.defined(permission)?;
        Some((found.row.level, found.row.group, self.app(found.app)?.signer))
    }

    fn defined(&self, permission: u16) -> Option<&Owned<Define>> {
        self.definitions.iter().find(|definition| u16::from(definition.row.permission) == permission)
    }

    /// The app that defines the permission.
    pub fn definer(&self, permission: u16) -> Option<u16> {
        self.defined(permission).map(|definition| definition.app)
    }

    pub fn holds(&self, app: &App, permission: u16) -> bool {
        let Some((level, group, signer)) = self.definition(permission) else { return false };
        let listed = app.uses.iter().any(|&used| u16::from(used) == permission);
        let met = match level {
            0 => true,
            1 => app.grants.contains(&permission) || app.groups.contains(&group.into()),
            2 => app.signer == signer,
            _ => app.signer == signer || app.image,
        };
        listed && met
    }

    /// Whether the app meets a component's permission.
    fn meets(&self, app: u16, permission: u8) -> bool {
        permission == 0 || self.app(app).is_some_and(|app| self.holds(app, permission.into()))
    }

    /// The first ground of the operation, 0 for none. Loans are on resources that are there, so the resource table is
    /// not asked.
    fn ground(&self, provider: &Owned<Component>, instance: &Running, uri: u16, operation: u8) -> u8 {
        let needed = [provider.row.read, provider.row.write][usize::from(operation) - 1];
        let lent = |to_app: bool, receiver: u16| {
            self.loans.iter().any(|loan| {
                (loan.to_app, loan.receiver) == (to_app, receiver.into())
                    && (loan.provider, loan.uri) == (provider.row.number, uri)
                    && loan.operations & operation != 0
            })
        };
        let grounds = [
            provider.app == instance.app,
            provider.row.exported == 1 && self.meets(instance.app, needed),
            lent(false, instance.number),
            lent(true, instance.app),
        ];
        (1..).zip(grounds).find(|&(_, applies)| applies).map_or(0, |(ground, _)| ground)
    }

    /// The ground of a use of the action's resource by its instance, 0 for none.
    pub fn ground_of(&self, action: &Action, operation: u8) -> u8 {
        let both = self.component(action.b).zip(self.running(action.c));
        both.map_or(0, |(provider, instance)| self.ground(provider, instance, action.d, operation))
    }

    /// Makes the change of an action that nothing refuses.
    fn act(&mut self, action: &Action, manifest: Option<&Manifest>) -> Done {
        let mut done = Done::default();
        match action.code {
            code::INSTALL => self.install(action.a == 1, manifest.expect("an install is not refused")),
            code::UNINSTALL => self.uninstall(action.b),
            code::GRANT => self.app_mut(action.b).grants.push(action.c),
            code::REVOKE => self.app_mut(action.b).grants.retain(|&permission| permission != action.c),
            code::GRANT_GROUP => self.app_mut(action.b).groups.push(action.c),
            code::REVOKE_GROUP => self.app_mut(action.b).groups.retain(|&group| group != action.c),
            code::START => done.value = self.start(action.b).into(),
            code::STOP => self.stop(action.c),
            code::READ | code::WRITE => done = self.read_or_write(action),
            code::LEND_TO_INSTANCE | code::LEND_TO_APP => self.lend(action),
            code::WITHDRAW => self.withdraw(action),
            _ => done.value = self.app(action.b).is_some_and(|app| self.holds(app, action.c)).into(),
        }
        done
    }

    fn app_mut(&mut self, number: u16) -> &mut App {
        self.apps.iter_mut().find(|app| app.number == number).expect("the app is there")
    }

    fn install(&mut self, image: bool, manifest: &Manifest) {
        let number = manifest.app;
        self.apps.push(App {
            number,
            signer: manifest.signer,
            image,
            uses: manifest.uses.clone(),
            grants: Vec::new(),
            groups: Vec::new(),
        });
        self.definitions.extend(manifest.defines.iter().map(|&row| Owned { app: number, row }));
        self.components.extend(manifest.components.iter().map(|&row| Owned { app: number, row }));
        self.resources.extend(manifest.resources.iter().map(|&row| Owned { app: number, row }));
    }

    fn uninstall(&mut self, number: u16) {
        let providers: Vec<u16> =
            self.components.iter().filter(|row| row.app == number).map(|row| row.row.number).collect();
        let gone: Vec<u16> =
            self.definitions.iter().filter(|row| row.app == number).map(|row| row.row.permission.into()).collect();
        self.apps.retain(|app| app.number != number);
        for app in &mut self.apps {
            app.grants.retain(|permission| !gone.contains(permission));
        }
        self.definitions.retain(|row| row.app != number);
        self.components.retain(|row| row.app != number);
        self.resources.retain(|row| row.app != number);
        self.loans.retain(|loan| !providers.contains(&loan.provider));
        self.loans.retain(|loan| !(loan.to_app && loan.receiver == u32::from(number)));
    }

    fn start(&mut self, component: u16) -> u16 {
        let number = (1..).find(|&number| self.running(number).is_none()).expect("a number is free");
        let app = self.component(component).expect("the component is there").app;
        self.running.push(Running { number, app });
        number
    }

    fn stop(&mut self, number: u16) {
        self.running.retain(|running| running.number != number);
        self.loans.retain(|loan| loan.to_app || loan.receiver != u32::from(number));
    }

    fn read_or_write(&mut self, action: &Action) -> Done {
        let ground = self.ground_of(action, operations(action));
        let same = |owned: &&mut Owned<Resource>| (owned.row.provider, owned.row.uri) == (action.b, action.d);
        let stored = &mut self.resources.iter_mut().find(same).expect("the resource is there").row.first;
        if action.code == code::WRITE {
            *stored = action.e;
        }
        Done { ground, value: *stored }
    }

    fn lend(&mut self, action: &Action) {
        match self.loans.iter_mut().find(|loan| loan.is_of(action)) {
            Some(loan) => loan.operations |= action.a,
            None => self.loans.push(Loan {
                to_app: action.code == code::LEND_TO_APP,
                receiver: action.e,
                provider: action.b,
                uri: action.d,
                operations: action.a,
            }),
        }
    }

    fn withdraw(&mut self, action: &Action) {
        for loan in self.loans.iter_mut().filter(|loan| loan.is_on(action)) {
            loan.operations &= !action.a;
        }
        self.loans.retain(|loan| loan.operations != 0);
    }
}

fn is_malformed(action: &Action) -> bool {
    let Some(listed) = LISTED.get(usize::from(action.code).wrapping_sub(1)) else { return true };
    let fields = [action.a.into(), action.b.into(), action.c.into(), action.d.into(), action.e];
    let unused = listed.iter().zip(fields).any(|(listed, field)| !listed && field != 0);
    unused
        || match action.code {
            code::INSTALL => action.a > 1,
            code::LEND_TO_INSTANCE..=code::WITHDRAW => action.a == 0 || action.a > 3,
            _ => false,
        }
}

/// The operations that the action wants: 1 for a read, 2 for a write, the ones asked for lend and withdraw.
pub fn operations(action: &Action) -> u8 {
    match action.code {
        code::READ => 1,
        code::WRITE => 2,
        _ => action.a,
    }
}
