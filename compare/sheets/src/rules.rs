//! The answer to each action from the log alone, refusals in rising order: document 01, "Conditions and effects" and
//! "Numbers that come back".

use crate::answer::{Answer, Done, Refusal, Sheet};
use crate::log::{receiver_of, App, Entry, Log, Receiver, Resource};
use crate::manifest::{Component, Manifest, ACTIVITY, DANGEROUS, PROVIDER};
use crate::tape::{code, Action, Tape, BOTH, READ, WRITE};

const MOST_APPS: usize = 16;
const MOST_COMPONENTS: usize = 64;
const MOST_RESOURCES: usize = 128;
const MOST_LOANS: usize = 128;

pub fn sheet(tape: &Tape) -> Sheet {
    let manifests: Vec<Option<Manifest>> = tape.manifests.iter().map(|bytes| Manifest::read(bytes)).collect();
    let mut log = Vec::new();
    let mut answers = Vec::new();
    for &action in &tape.actions {
        let handed = manifests.get(usize::from(action.b)).and_then(Option::as_ref);
        let handed = handed.filter(|_| action.code == code::INSTALL);
        let answer = answer(Log(&log), &action, handed);
        answers.push((action.code, answer));
        if let Ok(done) = answer {
            log.push(Entry { action, manifest: handed, value: done.value });
        }
    }
    let log = Log(&log);
    Sheet { answers, apps: log.apps().count(), running: log.running().count(), lent: log.loans() }
}

/// The answer to the action, given the manifest that an install is handed, where that is a good one.
fn answer(log: Log, action: &Action, manifest: Option<&Manifest>) -> Answer {
    demand(is_well_formed(action), Refusal::MalformedAction)?;
    match action.code {
        code::INSTALL => install(log, manifest),
        code::UNINSTALL => uninstall(log, action.b),
        code::GRANT => grant(log, action.b, action.c),
        code::REVOKE => revoke(log, action.b, action.c),
        code::GRANT_GROUP => grant_group(log, action.b, action.c),
        code::REVOKE_GROUP => revoke_group(log, action.b, action.c),
        code::START => start(log, action.b, action.c),
        code::STOP => log.app_of(action.c).map(|_| done(0)).ok_or(Refusal::NoInstance),
        code::READ | code::WRITE => read_or_write(log, action),
        code::LEND_TO_INSTANCE | code::LEND_TO_APP => lend(log, action),
        code::WITHDRAW => withdraw(log, action),
        _ => ask(log, action.b, action.c),
    }
}

fn demand(condition: bool, refusal: Refusal) -> Result<(), Refusal> {
    if condition {
        Ok(())
    } else {
        Err(refusal)
    }
}

fn done(value: u32) -> Done {
    Done { ground: 0, value }
}

/// Whether the record is not malformed: its code, unused fields, image and operations.
pub fn is_well_formed(&Action { code, a, b, c, d, e }: &Action) -> bool {
    match code {
        code::INSTALL => a <= 1 && (c, d, e) == (0, 0, 0),
        code::UNINSTALL => (a, c, d, e) == (0, 0, 0, 0),
        code::GRANT..=code::START | code::ASK => (a, d, e) == (0, 0, 0),
        code::STOP => (a, b, d, e) == (0, 0, 0, 0),
        code::READ => (a, e) == (0, 0),
        code::WRITE => a == 0,
        code::LEND_TO_INSTANCE | code::LEND_TO_APP => (READ..=BOTH).contains(&a),
        code::WITHDRAW => (READ..=BOTH).contains(&a) && e == 0,
        _ => false,
    }
}

fn install(log: Log, manifest: Option<&Manifest>) -> Answer {
    let manifest = manifest.ok_or(Refusal::MalformedManifest)?;
    let is_new = log.app(manifest.app).is_none()
        && manifest.components.iter().all(|component| log.component(component.number).is_none())
        && manifest.defines.iter().all(|define| log.definition(define.permission.into()).is_none());
    demand(is_new, Refusal::AlreadyThere)?;
    let after =
        |count: fn(&Manifest) -> usize| log.apps().map(|app| count(app.manifest)).sum::<usize>() + count(manifest);
    let fits = after(|_| 1) <= MOST_APPS
        && after(|manifest| manifest.components.len()) <= MOST_COMPONENTS
        && after(|manifest| manifest.resources.len()) <= MOST_RESOURCES;
    demand(fits, Refusal::NoRoom)?;
    Ok(done(0))
}

fn uninstall(log: Log, number: u16) -> Answer {
    let app = log.app(number).ok_or(Refusal::NoApp)?;
    let mut running = log.running().filter_map(|instance| log.app_of(instance));
    demand(!running.any(|app| app.manifest.app == number), Refusal::InUse)?;
    demand(!app.image, Refusal::PartOfTheImage)?;
    Ok(done(0))
}

fn grant(log: Log, number: u16, permission: u16) -> Answer {
    demand(!log.is_granted(number, permission), Refusal::AlreadyThere)?;
    let app = log.app(number).ok_or(Refusal::NoApp)?;
    let definition = log.definition(permission).ok_or(Refusal::Undefined)?;
    demand(app.manifest.lists(permission) && definition.level == DANGEROUS, Refusal::CannotBeGranted)?;
    Ok(done(0))
}

fn revoke(log: Log, number: u16, permission: u16) -> Answer {
    log.app(number).ok_or(Refusal::NoApp)?;
    log.definition(permission).ok_or(Refusal::Undefined)?;
    demand(log.is_granted(number, permission), Refusal::NothingToTakeBack)?;
    Ok(done(0))
}

fn is_group(group: u16) -> bool {
    (1..=15).contains(&group)
}

fn grant_group(log: Log, number: u16, group: u16) -> Answer {
    demand(!log.is_group_granted(number, group), Refusal::AlreadyThere)?;
    let app = log.app(number).ok_or(Refusal::NoApp)?;
    demand(is_group(group), Refusal::Undefined)?;
    let mut listed = app.manifest.uses.iter().filter_map(|&permission| log.definition(permission.into()));
    let lists_one = listed.any(|defined| defined.level == DANGEROUS && u16::from(defined.group) == group);
    demand(lists_one, Refusal::CannotBeGranted)?;
    Ok(done(0))
}

fn revoke_group(log: Log, number: u16, group: u16) -> Answer {
    log.app(number).ok_or(Refusal::NoApp)?;
    demand(is_group(group), Refusal::Undefined)?;
    demand(log.is_group_granted(number, group), Refusal::NothingToTakeBack)?;
    Ok(done(0))
}

fn start(log: Log, component: u16, caller: u16) -> Answer {
    let found = log.component(component).filter(|(_, component)| component.kind != PROVIDER);
    let (owner, component) = found.ok_or(Refusal::NoComponent)?;
    let permitted = if caller == 0 {
        component.exported == 1 && component.kind == ACTIVITY
    } else {
        let app = log.app_of(caller).ok_or(Refusal::NoInstance)?;
        let may = component.start == 0 || log.holds(app, component.start.into());
        app.manifest.app == owner.manifest.app || component.exported == 1 && may
    };
    demand(permitted, Refusal::NotPermitted)?;
    log.lowest_free_number().map(|number| done(number.into())).ok_or(Refusal::NoRoom)
}

/// The provider that an action names (6), once the instance runs (7) and the resource is there (8).
fn provider<'l>(log: Log<'l>, action: &Action) -> Result<&'l Component, Refusal> {
    let (_, provider) = provider_alone(log, action.b)?;
    log.app_of(action.c).ok_or(Refusal::NoInstance)?;
    demand(log.has_resource(resource(action)), Refusal::NoResource)?;
    Ok(provider)
}

fn provider_alone<'l>(log: Log<'l>, number: u16) -> Result<(App<'l>, &'l Component), Refusal> {
    log.component(number).filter(|(_, component)| component.kind == PROVIDER).ok_or(Refusal::NoComponent)
}

fn resource(action: &Action) -> Resource {
    (action.b, action.d)
}

fn read_or_write(log: Log, action: &Action) -> Answer {
    provider(log, action)?;
    let operation = if action.code == code::READ { READ } else { WRITE };
    let ground = log.ground(action.c, resource(action), operation).ok_or(Refusal::NotPermitted)?;
    let stored = log.value(resource(action)).expect("a resource has its first value");
    Ok(Done { ground, value: if operation == READ { stored } else { action.e } })
}

fn lend(log: Log, action: &Action) -> Answer {
    let receiver = receiver_of(action);
    if let Receiver::App(number) = receiver {
        log.app(number).ok_or(Refusal::NoApp)?;
    }
    provider_alone(log, action.b)?;
    if let Receiver::Instance(number) = receiver {
        log.app_of(number).ok_or(Refusal::NoInstance)?;
    }
    let provider = provider(log, action)?;
    let mut grounds = log.grounds(action.c, resource(action), action.a);
    demand(provider.shares == 1 && grounds.all(|ground| ground.is_some()), Refusal::NotPermitted)?;
    demand(log.has_loan(receiver, resource(action)) || log.loans() < MOST_LOANS, Refusal::NoRoom)?;
    Ok(done(0))
}

fn withdraw(log: Log, action: &Action) -> Answer {
    provider(log, action)?;
    let mut grounds = log.grounds(action.c, resource(action), action.a);
    demand(grounds.all(|ground| matches!(ground, Some(1 | 2))), Refusal::NotPermitted)?;
    Ok(done(0))
}

fn ask(log: Log, number: u16, permission: u16) -> Answer {
    let app = log.app(number).ok_or(Refusal::NoApp)?;
    log.definition(permission).ok_or(Refusal::Undefined)?;
    Ok(done(log.holds(app, permission).into()))
}
