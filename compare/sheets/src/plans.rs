//! The tapes that are compared, by plans: each fills some tables, then mixes actions. Of several next actions the one
//! is often taken whose like was seen least, so that every answer occurs.

use crate::maker::{Maker, DAMAGED};
use crate::random::Random;
use crate::tables::{App, Loan, Tables, MOST_APPS, MOST_LOANS, MOST_RUNNING};
use crate::tally::Tally;
use crate::tape::{code, Action, Tape, BOTH, MOST_ACTIONS, MOST_MANIFESTS, MOST_MANIFEST_BYTES, READ, WRITE};
use crate::worlds::{manifests, Shape};

/// A tape's bytes and the plan that it was made by. No tape is longer than the longest good one and a byte, so that a
/// program which reads that much has seen all it needs.
pub struct Made {
    pub plan: &'static str,
    pub bytes: Vec<u8>,
}

const SEED: u64 = 20_160_601;

/// Codes, each as often as it is to be chosen.
type Mix = &'static [(u8, usize)];

/// A name, how many tapes, the shape of their manifests, how many more of these are broken, what fills the tables, and
/// the mix after that with its least and most actions.
struct Plan(&'static str, usize, Shape, usize, fn(&mut Maker), Mix, (usize, usize));

const EVEN: Mix = &[
    (code::INSTALL, 6),
    (code::UNINSTALL, 5),
    (code::GRANT, 6),
    (code::REVOKE, 4),
    (code::GRANT_GROUP, 5),
    (code::REVOKE_GROUP, 4),
    (code::START, 10),
    (code::STOP, 5),
    (code::READ, 10),
    (code::WRITE, 8),
    (code::LEND_TO_INSTANCE, 10),
    (code::LEND_TO_APP, 9),
    (code::WITHDRAW, 6),
    (code::ASK, 8),
    (DAMAGED, 3),
];

const PERMISSIONS: Mix = &[
    (code::INSTALL, 14),
    (code::UNINSTALL, 10),
    (code::GRANT, 14),
    (code::REVOKE, 5),
    (code::GRANT_GROUP, 10),
    (code::REVOKE_GROUP, 4),
    (code::START, 3),
    (code::STOP, 4),
    (code::READ, 2),
    (code::ASK, 16),
];

const LOANS: Mix = &[
    (code::START, 6),
    (code::STOP, 3),
    (code::READ, 10),
    (code::WRITE, 8),
    (code::LEND_TO_INSTANCE, 18),
    (code::LEND_TO_APP, 14),
    (code::WITHDRAW, 5),
    (code::GRANT, 2),
    (code::REVOKE, 2),
    (code::UNINSTALL, 1),
];

const INSTALLS: Mix =
    &[(code::INSTALL, 20), (code::UNINSTALL, 8), (code::START, 3), (code::STOP, 3), (code::READ, 4), (code::ASK, 3)];

const STARTS: Mix = &[
    (code::START, 24),
    (code::STOP, 8),
    (code::LEND_TO_INSTANCE, 8),
    (code::READ, 8),
    (code::WRITE, 4),
    (code::UNINSTALL, 3),
    (code::WITHDRAW, 2),
];

const RECORDS: Mix = &[(DAMAGED, 10), (code::INSTALL, 2), (code::START, 2), (code::READ, 2), (code::ASK, 2)];

const MIXED: Shape = Shape {
    apps: 7,
    again: 5,
    defines: &[0, 1, 2, 3],
    components: &[1, 2, 3, 4, 5, 6],
    resources: &[0, 1, 2, 3, 4, 6],
    clashes: 8,
};
const SMALL_APPS: Shape =
    Shape { apps: 20, again: 8, defines: &[0, 1], components: &[0, 1, 2, 3], resources: &[0, 1, 2, 4], clashes: 4 };
const MANY_COMPONENTS: Shape = Shape { apps: 7, again: 1, components: &[16, 16, 16, 15, 1], clashes: 0, ..MIXED };
const MANY_RESOURCES: Shape =
    Shape { apps: 7, again: 1, components: &[3, 4], resources: &[32, 32, 32, 31, 1], clashes: 0, ..MIXED };
const DEFINERS: Shape =
    Shape { apps: 6, again: 10, defines: &[1, 2, 3], components: &[0, 1, 2, 3], clashes: 30, ..MIXED };
const RETURNERS: Shape =
    Shape { apps: 8, again: 16, defines: &[1, 2, 3], components: &[0, 0, 1], clashes: 60, ..MIXED };
const LENDERS: Shape =
    Shape { apps: 5, again: 0, components: &[4, 6, 8], resources: &[4, 6, 8, 10], clashes: 0, ..MIXED };

const PLANS: &[Plan] = &[
    Plan("mixed", 520, MIXED, 1, install_some, EVEN, (20, 220)),
    Plan("definers", 200, DEFINERS, 0, install_some, PERMISSIONS, (30, 200)),
    Plan("returning definers", 80, RETURNERS, 0, bring_definers_back, PERMISSIONS, (20, 60)),
    Plan("apps", 90, SMALL_APPS, 0, fill_apps, INSTALLS, (20, 60)),
    Plan("components", 70, MANY_COMPONENTS, 0, fill_apps, INSTALLS, (20, 60)),
    Plan("resources", 70, MANY_RESOURCES, 0, fill_apps, INSTALLS, (20, 60)),
    Plan("instances", 110, LENDERS, 0, fill_running, STARTS, (30, 120)),
    Plan("used numbers", 60, LENDERS, 0, use_numbers_again, STARTS, (20, 60)),
    Plan("loans", 110, LENDERS, 0, fill_loans, LOANS, (30, 120)),
    Plan("chains", 110, LENDERS, 0, lend_on, LOANS, (30, 120)),
    Plan("damaged manifests", 90, MIXED, 12, install_some, INSTALLS, (20, 60)),
    Plan("damaged records", 70, MIXED, 2, install_some, RECORDS, (20, 60)),
    Plan("long", 12, MIXED, 20, install_some, EVEN, (900, 1_400)),
    Plan("longest", 4, LENDERS, 0, fill_loans, EVEN, (2_048, 2_048)),
];

/// Damaged tapes of each kind.
const EACH_DAMAGE: usize = 20;

pub fn all(tally: &mut Tally) -> Vec<Made> {
    let mut random = Random::new(SEED);
    let mut made = Vec::new();
    for &Plan(plan, tapes, shape, broken, fill, codes, (least, most)) in PLANS {
        for _ in 0..tapes {
            let manifests = manifests(&mut random, shape, broken);
            let mut maker = Maker::new(&mut random, tally, manifests);
            fill(&mut maker);
            for _ in 0..maker.random.within(least, most) {
                mix(&mut maker, codes);
            }
            made.push(Made { plan, bytes: maker.tape().bytes() });
        }
    }
    let good: Vec<Vec<u8>> = made.iter().map(|made| made.bytes.clone()).collect();
    made.extend(damaged_tapes(&mut random, tally, &good));
    made
}

/// One action, of six that the mix brings: the first that is done, or the one whose like was seen least.
fn mix(maker: &mut Maker, codes: Mix) {
    let candidates: Vec<Action> = (0..6)
        .map(|_| {
            let code = weighted(maker.random, codes);
            maker.candidate(code)
        })
        .collect();
    let done = candidates.iter().find(|action| maker.is_done(action));
    let rarest = candidates.iter().min_by_key(|action| maker.seen(action));
    let chosen = if maker.random.chance(50) { done.or(rarest) } else { rarest };
    maker.act(*chosen.expect("there are six"));
}

fn weighted(random: &mut Random, codes: Mix) -> u8 {
    let mut at = random.below(codes.iter().map(|(_, weight)| weight).sum());
    for &(code, weight) in codes {
        if at < weight {
            return code;
        }
        at -= weight;
    }
    unreachable!("the weights add up to more")
}

/// Does actions of the code that are done, until enough is there or many did not help.
fn until(maker: &mut Maker, code: u8, enough: impl Fn(&Tables) -> bool) {
    for _ in 0..1_500 {
        if enough(&maker.tables) {
            return;
        }
        let action = maker.candidate(code);
        if maker.is_done(&action) {
            maker.act(action);
        }
    }
}

fn install_each(maker: &mut Maker, count: usize, image: usize) {
    for b in 0..count as u16 {
        let a = maker.random.chance(image).into();
        maker.act(Action { code: code::INSTALL, a, b, ..Action::default() });
    }
}

fn install_some(maker: &mut Maker) {
    let count = maker.random.within(2, 6);
    install_each(maker, count, 25);
}

fn fill_apps(maker: &mut Maker) {
    install_each(maker, 4, 10);
    until(maker, code::INSTALL, |tables| tables.apps.len() == MOST_APPS);
}

fn fill_running(maker: &mut Maker) {
    install_each(maker, LENDERS.apps, 20);
    until(maker, code::START, |tables| tables.running.len() == MOST_RUNNING);
}

fn fill_loans(maker: &mut Maker) {
    install_each(maker, LENDERS.apps, 10);
    until(maker, code::START, |tables| tables.running.len() >= 12);
    until(maker, code::LEND_TO_APP, |tables| tables.loans.len() >= 20);
    until(maker, code::LEND_TO_INSTANCE, |tables| tables.loans.len() == MOST_LOANS);
}

/// Where an app has an individual grant: the definer leaves, whoever may defines the permission anew, the app asks.
fn bring_definers_back(maker: &mut Maker) {
    install_each(maker, 5, 0);
    for _ in 0..6 {
        until(maker, code::GRANT, |tables| tables.apps.iter().map(|app| app.grants.len()).sum::<usize>() >= 5);
        let grants_of = |app: &App| app.grants.iter().map(|&permission| (app.number, permission)).collect::<Vec<_>>();
        let grants = maker.tables.apps.iter().flat_map(grants_of);
        let defined: Vec<(u16, u16)> = grants.filter(|&(_, p)| maker.tables.definer(p).is_some()).collect();
        let (app, permission) = maker.random.pick_or(&defined, (1, 3));
        maker.uninstall_definer(permission);
        maker.install_definer(permission);
        maker.act(Action { code: code::ASK, b: app, c: permission, ..Action::default() });
    }
}

/// A borrower stops, its number is given to another instance, and that one tries what was lent.
fn use_numbers_again(maker: &mut Maker) {
    install_each(maker, LENDERS.apps, 10);
    for _ in 0..6 {
        until(maker, code::START, |tables| tables.running.len() >= 8);
        until(maker, code::LEND_TO_INSTANCE, |tables| tables.loans.len() >= 12);
        let lends: Vec<Action> = maker.tables.loans.iter().filter(|loan| !loan.to_app).map(borrow).collect();
        let read = maker.random.pick_or(&lends, Action::default());
        maker.act(Action { code: code::STOP, c: read.c, ..Action::default() });
        until(maker, code::START, |tables| tables.running(read.c).is_some());
        maker.act(read);
        maker.act(Action { code: code::WRITE, e: 7, ..read });
        maker.act(Action { code: code::LEND_TO_INSTANCE, a: READ, e: 1, ..read });
    }
}

/// The read that a loan to an instance permits.
fn borrow(loan: &Loan) -> Action {
    Action { code: code::READ, b: loan.provider, c: loan.receiver as u16, d: loan.uri, ..Action::default() }
}

/// Lends one resource on from instance to instance: each giver is the receiver before it.
fn lend_on(maker: &mut Maker) {
    install_each(maker, LENDERS.apps, 10);
    let long = maker.random.within(3, 60);
    until(maker, code::START, |tables| tables.running.len() >= long);
    let Some((provider, uri, first)) = first_giver(maker) else { return };
    let running = maker.tables.running.iter().map(|running| running.number);
    let chain: Vec<u16> = [first].into_iter().chain(running.filter(|&number| number != first)).collect();
    for pair in chain.windows(2) {
        let a = maker.random.pick(&[READ, WRITE, BOTH, BOTH, BOTH]);
        let lend = Action { code: code::LEND_TO_INSTANCE, a, b: provider, c: pair[0], d: uri, e: pair[1].into() };
        maker.act(lend);
    }
}

/// A resource of a sharing provider, and an instance that may read and write it.
fn first_giver(maker: &mut Maker) -> Option<(u16, u16, u16)> {
    (0..200).find_map(|_| {
        let lend = maker.candidate(code::LEND_TO_INSTANCE);
        let both = Action { a: BOTH, ..lend };
        maker.is_done(&both).then_some((both.b, both.d, both.c))
    })
}

fn damaged_tapes(random: &mut Random, tally: &mut Tally, good: &[Vec<u8>]) -> Vec<Made> {
    let mut made = Vec::new();
    for _ in 0..EACH_DAMAGE {
        for damage in DAMAGE {
            let place = random.below(good.len());
            let bytes = damage(random, good[place].clone());
            tally.count_damage(Tape::read(&bytes).expect_err("the tape is damaged"));
            made.push(Made { plan: "damaged tapes", bytes });
        }
    }
    made
}

type Break = fn(&mut Random, Vec<u8>) -> Vec<u8>;

const DAMAGE: &[Break] = &[
    |r, tape| tape[..r.below(tape.len())].to_vec(),
    |_, tape| tape[..tape.len() - 1].to_vec(),
    |r, tape| [tape, vec![0; r.pick(&[1, 2, 12])]].concat(),
    |r, _| many(r.pick(&[33, 34, 255]), 0, 3),
    |r, _| many(1, r.pick(&[1_025, 1_026, 65_535 / 2]), 3),
    |r, _| many(2, 30, r.pick(&[2_049, 2_050, 2_304])),
    |r, _| [many(1, 9, 0)[..12].to_vec(), r.pick(&[[0, 9], [1, 8], [255, 255]]).to_vec()].concat(),
    |_, _| [many(MOST_MANIFESTS, MOST_MANIFEST_BYTES, MOST_ACTIONS), vec![0]].concat(),
];

/// A tape with that many manifests of that many bytes, and that many asks.
fn many(count: usize, length: usize, actions: usize) -> Vec<u8> {
    let ask = Action { code: code::ASK, b: 1, c: 1, ..Action::default() };
    Tape { manifests: vec![vec![1; length]; count], actions: vec![ask; actions] }.bytes()
}
