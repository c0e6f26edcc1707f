//! What was done so far, and every question about it answered by walking back to the action that decides it:
//! document 01, "The log rule". Nothing is kept but the log.

use crate::manifest::{Component, Manifest, DANGEROUS, NORMAL, SIGNATURE, SIGNATURE_OR_SYSTEM};
use crate::tape::{code, Action, READ, WRITE};

const MOST_RUNNING: u16 = 64;

/// An action that was done, with the manifest if it was an install, and the value that came back.
#[derive(Clone, Copy)]
pub struct Entry<'t> {
    pub action: Action,
    pub manifest: Option<&'t Manifest>,
    pub value: u32,
}

impl Entry<'_> {
    fn uninstalls(&self, app: u16) -> bool {
        self.action.code == code::UNINSTALL && self.action.b == app
    }
}

/// The done actions before the one in question, oldest first.
#[derive(Clone, Copy)]
pub struct Log<'l>(pub &'l [Entry<'l>]);

/// An app while it is there.
#[derive(Clone, Copy)]
pub struct App<'l> {
    pub manifest: &'l Manifest,
    pub image: bool,
}

#[derive(Clone, Copy)]
pub struct Definition {
    pub level: u8,
    pub group: u8,
    signer: u32,
}

/// The receiver of a loan.
#[derive(Clone, Copy, PartialEq)]
pub enum Receiver {
    Instance(u16),
    App(u16),
}

/// A provider and a URI.
pub type Resource = (u16, u16);

const PLATFORM: u32 = 1;

/// Level and group of the built-in permissions 1 to 8.
const BUILT_IN: [(u8, u8); 8] = [
    (NORMAL, 0),
    (NORMAL, 0),
    (DANGEROUS, 1),
    (DANGEROUS, 2),
    (DANGEROUS, 2),
    (DANGEROUS, 3),
    (SIGNATURE, 0),
    (SIGNATURE_OR_SYSTEM, 0),
];

impl<'l> Log<'l> {
    /// Each entry with the log before it, the newest first.
    fn back(self) -> impl Iterator<Item = (Log<'l>, &'l Entry<'l>)> {
        self.0.iter().enumerate().rev().map(move |(place, entry)| (Log(&self.0[..place]), entry))
    }

    /// The app of the latest install whose manifest has what is sought, where it was not uninstalled since. An earlier
    /// install with the same cannot be there: this one would not have been done.
    fn latest(self, sought: impl Fn(&Manifest) -> bool) -> Option<App<'l>> {
        let place = self.0.iter().rposition(|entry| entry.manifest.is_some_and(&sought))?;
        self.installed_at(place)
    }

    fn installed_at(self, place: usize) -> Option<App<'l>> {
        let install = &self.0[place];
        let manifest = install.manifest?;
        let left = self.0[place + 1..].iter().any(|entry| entry.uninstalls(manifest.app));
        (!left).then_some(App { manifest, image: install.action.a == 1 })
    }

    pub fn app(self, number: u16) -> Option<App<'l>> {
        self.latest(|manifest| manifest.app == number)
    }

    pub fn apps(self) -> impl Iterator<Item = App<'l>> {
        (0..self.0.len()).filter_map(move |place| self.installed_at(place))
    }

    /// A component and the app that it belongs to.
    pub fn component(self, number: u16) -> Option<(App<'l>, &'l Component)> {
        let app = self.latest(|manifest| manifest.component(number).is_some())?;
        Some((app, app.manifest.component(number)?))
    }

    pub fn has_resource(self, (provider, uri): Resource) -> bool {
        self.component(provider).is_some_and(|(app, _)| app.manifest.resource(provider, uri).is_some())
    }

    pub fn value(self, (provider, uri): Resource) -> Option<u32> {
        self.back().find_map(|(_, Entry { action, manifest, .. })| match action.code {
            code::WRITE if (action.b, action.d) == (provider, uri) => Some(action.e),
            code::INSTALL => manifest.and_then(|m| m.resource(provider, uri)).map(|resource| resource.first),
            _ => None,
        })
    }

    pub fn definition(self, permission: u16) -> Option<Definition> {
        if let 1..=8 = permission {
            let (level, group) = BUILT_IN[usize::from(permission) - 1];
            return Some(Definition { level, group, signer: PLATFORM });
        }
        let definer = self.latest(|manifest| manifest.define(permission).is_some())?.manifest;
        let define = definer.define(permission)?;
        Some(Definition { level: define.level, group: define.group, signer: definer.signer })
    }

    /// The component that the instance runs.
    fn runs(self, instance: u16) -> Option<u16> {
        self.back()
            .find_map(|(_, Entry { action, value, .. })| match action.code {
                code::START if *value == u32::from(instance) => Some(Some(action.b)),
                code::STOP if action.c == instance => Some(None),
                _ => None,
            })
            .flatten()
    }

    /// The app that the running instance belongs to.
    pub fn app_of(self, instance: u16) -> Option<App<'l>> {
        self.component(self.runs(instance)?).map(|(app, _)| app)
    }

    /// The numbers of the running instances.
    pub fn running(self) -> impl Iterator<Item = u16> + 'l {
        (1..=MOST_RUNNING).filter(move |&instance| self.runs(instance).is_some())
    }

    pub fn lowest_free_number(self) -> Option<u16> {
        (1..=MOST_RUNNING).find(|&instance| self.runs(instance).is_none())
    }

    pub fn is_granted(self, app: u16, permission: u16) -> bool {
        let decides = |(before, Entry { action, .. }): (Log, &Entry)| match action.code {
            code::GRANT if (action.b, action.c) == (app, permission) => Some(true),
            code::REVOKE if (action.b, action.c) == (app, permission) => Some(false),
            code::UNINSTALL if action.b == app => Some(false),
            code::UNINSTALL if before.app(action.b)?.manifest.define(permission).is_some() => Some(false),
            _ => None,
        };
        self.back().find_map(decides).unwrap_or(false)
    }

    pub fn is_group_granted(self, app: u16, group: u16) -> bool {
        let decides = |(_, Entry { action, .. }): (Log, &Entry)| match action.code {
            code::GRANT_GROUP if (action.b, action.c) == (app, group) => Some(true),
            code::REVOKE_GROUP if (action.b, action.c) == (app, group) => Some(false),
            code::UNINSTALL if action.b == app => Some(false),
            _ => None,
        };
        self.back().find_map(decides).unwrap_or(false)
    }

    pub fn holds(self, app: App, permission: u16) -> bool {
        let Some(definition) = self.definition(permission) else { return false };
        let number = app.manifest.app;
        let meets_the_level = match definition.level {
            NORMAL => true,
            DANGEROUS => self.is_granted(number, permission) || self.is_group_granted(number, definition.group.into()),
            SIGNATURE => app.manifest.signer == definition.signer,
            _ => app.manifest.signer == definition.signer || app.image,
        };
        app.manifest.lists(permission) && meets_the_level
    }

    /// Whether this one operation is lent to the receiver on the resource.
    fn is_lent(self, receiver: Receiver, resource: Resource, operation: u8) -> bool {
        let decides = |(before, entry): (Log, &Entry)| {
            let action = &entry.action;
            let on_it = (action.b, action.d) == resource && action.a & operation != 0;
            match action.code {
                code::LEND_TO_INSTANCE | code::LEND_TO_APP if on_it && receiver_of(action) == receiver => Some(true),
                code::WITHDRAW if on_it => Some(false),
                code::STOP if receiver == Receiver::Instance(action.c) => Some(false),
                code::UNINSTALL if receiver == Receiver::App(action.b) => Some(false),
                code::UNINSTALL if before.app(action.b)?.manifest.has_provider(resource.0) => Some(false),
                _ => None,
            }
        };
        self.back().find_map(decides).unwrap_or(false)
    }

    pub fn has_loan(self, receiver: Receiver, resource: Resource) -> bool {
        [READ, WRITE].iter().any(|&operation| self.is_lent(receiver, resource, operation))
    }

    /// The count of receiver and resource pairs with an operation lent, each pair taken at its latest lend.
    pub fn loans(self) -> usize {
        let pair = |entry: &Entry| loan_of(&entry.action);
        let is_latest = |place: usize| !self.0[place + 1..].iter().any(|later| pair(later) == pair(&self.0[place]));
        let lends = self.0.iter().enumerate().filter_map(|(place, entry)| Some((place, pair(entry)?)));
        lends.filter(|&(place, (receiver, on))| is_latest(place) && self.has_loan(receiver, on)).count()
    }

    /// The first ground of the instance's app for the operation on the resource.
    pub fn ground(self, instance: u16, resource: Resource, operation: u8) -> Option<u8> {
        let app = self.app_of(instance)?;
        let (owner, provider) = self.component(resource.0)?;
        let permission = if operation == READ { provider.read } else { provider.write };
        if owner.manifest.app == app.manifest.app {
            Some(1)
        } else if provider.exported == 1 && (permission == 0 || self.holds(app, permission.into())) {
            Some(2)
        } else if self.is_lent(Receiver::Instance(instance), resource, operation) {
            Some(3)
        } else if self.is_lent(Receiver::App(app.manifest.app), resource, operation) {
            Some(4)
        } else {
            None
        }
    }

    /// The ground for each operation asked.
    pub fn grounds(self, instance: u16, resource: Resource, operations: u8) -> impl Iterator<Item = Option<u8>> + 'l {
        let asked = [READ, WRITE].into_iter().filter(move |operation| operations & operation != 0);
        asked.map(move |operation| self.ground(instance, resource, operation))
    }
}

/// The receiver that a lend names. A number past u16 is nobody's, as 0 is.
pub fn receiver_of(lend: &Action) -> Receiver {
    let number = u16::try_from(lend.e).unwrap_or(0);
    if lend.code == code::LEND_TO_APP {
        Receiver::App(number)
    } else {
        Receiver::Instance(number)
    }
}

fn loan_of(action: &Action) -> Option<(Receiver, Resource)> {
    let lends = matches!(action.code, code::LEND_TO_INSTANCE | code::LEND_TO_APP);
    lends.then(|| (receiver_of(action), (action.b, action.d)))
}
