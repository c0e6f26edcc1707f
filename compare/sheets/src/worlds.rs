//! The manifests of a tape: apps whose components, permissions and definitions touch each other.

use crate::manifest::{Component, Define, Manifest, Resource, DANGEROUS, PROVIDER};
use crate::random::Random;
use std::collections::{BTreeMap, BTreeSet};

/// The groups that permissions are defined in: few, so that they meet, and the last one.
pub const GROUPS: [u8; 6] = [0, 1, 2, 3, 4, 15];

/// How many manifests a tape has, and the counts of entries that each section is given by chance.
#[derive(Clone, Copy)]
pub struct Shape {
    pub apps: usize,
    /// manifests that an app has beside its first one
    pub again: usize,
    pub defines: &'static [usize],
    pub components: &'static [usize],
    pub resources: &'static [usize],
    /// how many of a hundred definitions and components are numbered as another app's may be
    pub clashes: usize,
}

/// Manifests of the shape as bytes, and after them so many of the same with one thing broken.
pub fn manifests(r: &mut Random, shape: Shape, broken: usize) -> Vec<Vec<u8>> {
    let again: Vec<usize> = (0..shape.again).map(|_| r.within(1, shape.apps)).collect();
    let apps = (1..=shape.apps).chain(again);
    let mut all: Vec<Vec<u8>> = apps.map(|app| manifest(r, shape, app).bytes()).collect();
    let good = all.len();
    for _ in 0..broken {
        let place = r.below(good);
        all.push(damaged(r, all[place].clone()));
    }
    all
}

/// Every fourth app has a number whose low byte is another app's.
fn app_number(app: usize) -> u16 {
    (if app.is_multiple_of(4) { 256 + app / 4 } else { app }) as u16
}

fn manifest(r: &mut Random, shape: Shape, app: usize) -> Manifest {
    let components = components(r, shape, app);
    let resources = resources(r, shape, &components);
    Manifest {
        app: app_number(app),
        signer: r.pick(&[1, 5, 5, 6, 65_541]),
        uses: uses(r, shape),
        defines: defines(r, shape, app),
        components,
        resources,
    }
}

/// The permission that an app defines at a place of its own.
fn own_permission(app: usize, place: usize) -> u8 {
    (16 + (app * 3 + place) % 48) as u8
}

fn some_permission(r: &mut Random, shape: Shape) -> u8 {
    match r.below(100) {
        0..=44 => r.within(1, 8) as u8,
        45..=92 => own_permission(r.within(1, shape.apps), r.below(3)),
        _ => r.within(1, 63) as u8,
    }
}

fn uses(r: &mut Random, shape: Shape) -> Vec<u8> {
    let all: BTreeSet<u8> = (0..r.below(20)).map(|_| some_permission(r, shape)).collect();
    all.into_iter().collect()
}

fn defines(r: &mut Random, shape: Shape, app: usize) -> Vec<Define> {
    let count = r.pick(shape.defines);
    let permission = |r: &mut Random, place| {
        let definer = if r.chance(shape.clashes) { r.within(1, shape.apps) } else { app };
        own_permission(definer, place)
    };
    let all: BTreeSet<u8> = (0..count).map(|place| permission(r, place)).collect();
    all.into_iter().map(|permission| define(r, permission)).collect()
}

fn define(r: &mut Random, permission: u8) -> Define {
    let level = r.pick(&[0, 1, 1, 1, 2, 3]);
    Define { permission, level, group: if level == DANGEROUS { r.pick(&GROUPS) } else { 0 } }
}

fn components(r: &mut Random, shape: Shape, app: usize) -> Vec<Component> {
    let count = r.pick(shape.components);
    let mut all = BTreeMap::new();
    while all.len() < count {
        let owner = if r.chance(shape.clashes) { r.within(1, shape.apps) } else { app };
        let number = (owner * 64 + r.within(1, 20)) as u16;
        all.insert(number, component(r, shape, number));
    }
    all.into_values().collect()
}

fn component(r: &mut Random, shape: Shape, number: u16) -> Component {
    let kind = r.pick(&[1, 1, 1, 2, 3, 4, 4, 4, 4]);
    let component = Component { number, kind, exported: r.chance(65).into(), ..Component::default() };
    if kind == PROVIDER {
        let (read, write) = (guard(r, shape), guard(r, shape));
        Component { shares: r.chance(75).into(), read, write, ..component }
    } else {
        Component { start: guard(r, shape), ..component }
    }
}

fn guard(r: &mut Random, shape: Shape) -> u8 {
    if r.chance(30) {
        0
    } else {
        some_permission(r, shape)
    }
}

fn resources(r: &mut Random, shape: Shape, components: &[Component]) -> Vec<Resource> {
    let providers: Vec<u16> = components.iter().filter(|c| c.kind == PROVIDER).map(|c| c.number).collect();
    let count = if providers.is_empty() { 0 } else { r.pick(shape.resources) };
    let mut all = BTreeSet::new();
    while all.len() < count {
        all.insert((r.pick(&providers), r.within(1, 40) as u16));
    }
    let first = |r: &mut Random| if r.chance(40) { 0 } else { r.bits() as u32 };
    all.into_iter().map(|(provider, uri)| Resource { provider, uri, first: first(r) }).collect()
}

/// The bytes of a manifest with one thing broken: mostly a byte changed, else cut, grown or made of chance.
fn damaged(r: &mut Random, mut bytes: Vec<u8>) -> Vec<u8> {
    match r.below(10) {
        0 => bytes.truncate(r.below(bytes.len())),
        1 => bytes.extend((0..r.within(1, 9)).map(|_| 0)),
        2 => bytes = (0..r.within(0, 1_024)).map(|_| r.bits() as u8).collect(),
        3 => bytes.resize(r.pick(&[475, 1_023, 1_024]), 0),
        _ => {
            let place = r.below(bytes.len());
            bytes[place] = r.pick(&[0, 1, 2, 15, 16, 33, 63, 64, 255]);
        }
    }
    bytes
}
