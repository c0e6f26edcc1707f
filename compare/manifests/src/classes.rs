//! The manifests that are compared, in classes: good ones, one class for each rule and the ways to break it just past
//! its edge, and bytes that were damaged, cut or made by chance.

use crate::random::Random;
use manifests::manifest::{Component, Manifest, Resource, PROVIDER};
use std::ops::RangeInclusive;

#[derive(Clone, Copy, PartialEq)]
pub enum Meant {
    Good,
    Bad,
    /// some are good and some are not
    Both,
    /// nothing is known of them
    Any,
}

pub struct Class {
    pub name: &'static str,
    pub meant: Meant,
    pub manifests: Vec<Vec<u8>>,
}

/// The manifest on document 01's tape.
const SAMPLER: &[u8] = include_bytes!("../../../examples/sampler.manifest");

/// How many manifests a class has that is made by chance.
const EACH: usize = 160;

type Make = fn(&mut Random) -> Manifest;
type Change = fn(&mut Random, &mut Manifest);

pub fn all() -> Vec<Class> {
    let mut r = Random::new(1);
    let mut classes = vec![
        Class { name: "any", meant: Meant::Good, manifests: (0..3000).map(|_| r.good().bytes()).collect() },
        Class { name: "each count", meant: Meant::Good, manifests: each_count(&mut r) },
    ];
    for (name, make) in GOOD {
        classes.push(Class { name, meant: Meant::Good, manifests: repeat(|| make(&mut r).bytes()) });
    }
    for (meant, changes) in [(Meant::Good, EDGES), (Meant::Bad, BROKEN)] {
        for (name, change) in changes {
            classes.push(Class { name, meant, manifests: repeat(|| changed(&mut r, *change).bytes()) });
        }
    }
    for (name, make) in TOO_MANY {
        classes.push(Class { name, meant: Meant::Bad, manifests: repeat(|| make(&mut r).bytes()) });
    }
    classes.extend(on_bytes(&mut r));
    classes
}

fn repeat(make: impl FnMut() -> Vec<u8>) -> Vec<Vec<u8>> {
    std::iter::repeat_with(make).take(EACH).collect()
}

fn changed(r: &mut Random, change: Change) -> Manifest {
    let mut m = r.rich();
    change(r, &mut m);
    m
}

const GOOD: &[(&str, Make)] = &[
    ("no entries", |r| r.sized([0; 4])),
    ("fullest", |r| r.sized([32, 16, 16, 32])),
    ("only uses", |r| some(r, [32, 0, 0, 0])),
    ("only defines", |r| some(r, [0, 16, 0, 0])),
    ("only components", |r| some(r, [0, 0, 16, 0])),
    ("provider and resources", |r| some(r, [0, 0, 1, 32])),
    ("each section filled", Random::rich),
];

const TOO_MANY: &[(&str, Make)] = &[
    ("33 uses", |r| r.sized([33, 2, 2, 2])),
    ("17 defines", |r| r.sized([2, 17, 2, 2])),
    ("17 components", |r| r.sized([2, 2, 17, 2])),
    ("33 resources", |r| r.sized([2, 2, 2, 33])),
];

/// Good manifests with each count of each section.
fn each_count(r: &mut Random) -> Vec<Vec<u8>> {
    let mut all = Vec::new();
    for (section, most) in [32, 16, 16, 32].into_iter().enumerate() {
        for count in 0..=most {
            let mut counts = [1, 1, 1, 1];
            counts[section] = count;
            if counts[2] == 0 {
                counts[3] = 0;
            }
            all.push(r.sized(counts).bytes());
        }
    }
    all
}

/// A good manifest with at most these counts, and at least one entry where a count is not 0.
fn some(r: &mut Random, most: [usize; 4]) -> Manifest {
    let counts = most.map(|most| r.within(most.min(1)..=most));
    r.sized(counts)
}

/// Changes of a manifest that has two or more entries in each section, whose first component is no provider and whose
/// last one is a provider. These go up to an edge.
const EDGES: &[(&str, Change)] = &[
    ("app 1, 256, 65,535", |r, m| m.app = r.pick(&[1, 256, 65_535])),
    ("signer of one byte, or highest", |r, m| m.signer = r.pick(&[1, 1 << 8, 1 << 16, 1 << 24, u32::MAX])),
    ("used permissions 1 and 63", |_, m| set_ends(&mut m.uses, |p| p, 1, 63)),
    ("used permissions one apart", |r, m| m.uses = (1..=r.byte(2..=32)).collect()),
    ("defined permissions 16 and 63", |_, m| set_ends(&mut m.defines, |d| &mut d.permission, 16, 63)),
    ("level 1 with group 0 or 15", |r, m| set_level(r, m, 1, &[0, 15])),
    ("level 0, 2 or 3 with group 0", |r, m| {
        let level = r.pick(&[0, 2, 3]);
        set_level(r, m, level, &[0]);
    }),
    ("component numbers 1 and 65,535", |_, m| {
        let last = m.components.len() - 1;
        renumber(m, 0, 1);
        renumber(m, last, 65_535);
    }),
    ("component numbers one apart", |r, m| {
        m.components.drain(1..m.components.len() - 1);
        let low = r.pick(&[1, 255, 256, 511, 65_534]);
        renumber(m, 0, low);
        keep_to_last_provider(m);
        renumber(m, 1, low + 1);
    }),
    ("exported 0 and 1", |_, m| (m.components[0].exported, last(m).exported) = (0, 1)),
    ("permission 63 to start", |_, m| m.components[0].start = 63),
    ("permission 63 to read and write", |_, m| (last(m).read, last(m).write) = (63, 63)),
    ("provider that shares", |_, m| last(m).shares = 1),
    ("URIs 1 and 65,535", |_, m| set_ends(&mut m.resources, |resource| &mut resource.uri, 1, 65_535)),
    ("URIs one apart", |r, m| {
        let low = r.pick(&[1, 255, 256, 511, 65_534]);
        one_provider(m, &[low, low + 1]);
    }),
    ("first value lowest, highest", |r, m| m.resources[0].first = r.pick(&[0, u32::MAX])),
    ("next provider with a lower URI", |r, m| two_providers(r, m, false)),
];

/// Changes as above that break one rule.
const BROKEN: &[(&str, Change)] = &[
    ("app 0", |_, m| m.app = 0),
    ("signer 0", |_, m| m.signer = 0),
    ("used permission 0", |_, m| m.uses[0] = 0),
    ("used permission above 63", |r, m| *m.uses.last_mut().unwrap() = above(r, 63)),
    ("used permissions equal", |r, m| {
        let at = pair(r, &m.uses);
        m.uses[at + 1] = m.uses[at];
    }),
    ("used permissions fall", |r, m| swap(r, &mut m.uses)),
    ("defined permission below 16", |r, m| m.defines[0].permission = r.pick(&[0, 1, 8, 15])),
    ("defined permission above 63", |r, m| m.defines.last_mut().unwrap().permission = above(r, 63)),
    ("defined permissions equal", |r, m| {
        let at = pair(r, &m.defines);
        m.defines[at + 1].permission = m.defines[at].permission;
    }),
    ("defined permissions fall", |r, m| swap(r, &mut m.defines)),
    ("level above 3", |r, m| {
        let level = above(r, 3);
        set_level(r, m, level, &[0]);
    }),
    ("group above 15", |r, m| {
        let group = above(r, 15);
        set_level(r, m, 1, &[group]);
    }),
    ("group of level 0", |r, m| set_level(r, m, 0, &[1, 2, 15])),
    ("group of level 2", |r, m| set_level(r, m, 2, &[1, 2, 15])),
    ("group of level 3", |r, m| set_level(r, m, 3, &[1, 2, 15])),
    ("component number 0", |_, m| m.components[0].number = 0),
    ("component numbers equal", |r, m| {
        let at = pair(r, &m.components);
        renumber(m, at + 1, m.components[at].number);
    }),
    ("component numbers fall", |r, m| swap(r, &mut m.components)),
    ("kind 0", |_, m| m.components[0].kind = 0),
    ("kind above 4", |r, m| m.components[0].kind = above(r, 4)),
    ("exported above 1", |r, m| any(r, &mut m.components).exported = above(r, 1)),
    ("shares above 1", |r, m| last(m).shares = above(r, 1)),
    ("permission above 63 to start", |r, m| m.components[0].start = above(r, 63)),
    ("permission above 63 to read", |r, m| last(m).read = above(r, 63)),
    ("permission above 63 to write", |r, m| last(m).write = above(r, 63)),
    ("provider with start permission", |r, m| last(m).start = r.byte(1..=63)),
    ("no provider, and shares", |_, m| m.components[0].shares = 1),
    ("no provider, with read permission", |r, m| m.components[0].read = r.byte(1..=63)),
    ("no provider, with write permission", |r, m| m.components[0].write = r.byte(1..=63)),
    ("URI 0", |_, m| m.resources[0].uri = 0),
    ("resources equal", |r, m| {
        let at = pair(r, &m.resources);
        m.resources[at + 1] = m.resources[at];
    }),
    ("URIs fall", |r, m| {
        one_provider(m, &[1, 2, 255, 256, 65_535]);
        swap(r, &mut m.resources);
    }),
    ("resources' providers fall", |r, m| two_providers(r, m, true)),
    ("resource of a missing component", |r, m| {
        let missing = std::iter::repeat_with(|| r.number()).find(|n| m.components.iter().all(|c| c.number != *n));
        give_resource(r, m, missing.unwrap());
    }),
    ("resource of component 0", |r, m| give_resource(r, m, 0)),
    ("resource of an activity", |r, m| resource_of_kind(r, m, 1)),
    ("resource of a service", |r, m| resource_of_kind(r, m, 2)),
    ("resource of a receiver", |r, m| resource_of_kind(r, m, 3)),
    ("resources and no components", |_, m| m.components.clear()),
];

/// A byte above `most`: just above it, the highest, or between.
fn above(r: &mut Random, most: u8) -> u8 {
    let between = r.byte(most as usize + 1..=255);
    r.pick(&[most + 1, between, 255])
}

fn any<'a, T>(r: &mut Random, entries: &'a mut [T]) -> &'a mut T {
    let at = r.within(0..=entries.len() - 1);
    &mut entries[at]
}

/// The place of the first of two neighbours.
fn pair<T>(r: &mut Random, entries: &[T]) -> usize {
    r.within(0..=entries.len() - 2)
}

fn swap<T>(r: &mut Random, entries: &mut [T]) {
    let at = pair(r, entries);
    entries.swap(at, at + 1);
}

fn set_ends<T, N>(entries: &mut [T], field: fn(&mut T) -> &mut N, low: N, high: N) {
    *field(&mut entries[0]) = low;
    *field(entries.last_mut().unwrap()) = high;
}

fn last(m: &mut Manifest) -> &mut Component {
    m.components.last_mut().unwrap()
}

fn set_level(r: &mut Random, m: &mut Manifest, level: u8, groups: &[u8]) {
    let group = r.pick(groups);
    let define = any(r, &mut m.defines);
    (define.level, define.group) = (level, group);
}

/// Gives a component another number, and its resources with it.
fn renumber(m: &mut Manifest, place: usize, number: u16) {
    let old = std::mem::replace(&mut m.components[place].number, number);
    for resource in m.resources.iter_mut().filter(|resource| resource.provider == old) {
        resource.provider = number;
    }
    m.resources.sort_by_key(key);
    m.resources.dedup_by_key(|resource| key(resource));
}

fn key(resource: &Resource) -> (u16, u16) {
    (resource.provider, resource.uri)
}

fn keep_to_last_provider(m: &mut Manifest) {
    let number = last(m).number;
    m.resources.retain(|resource| resource.provider == number);
}

/// Leaves these resources, all of the last provider.
fn one_provider(m: &mut Manifest, uris: &[u16]) {
    let provider = last(m).number;
    m.resources = uris.iter().map(|&uri| Resource { provider, uri, first: 0 }).collect();
}

/// Leaves two resources of two providers, the one with the lower URI last, and the providers in falling order if told.
fn two_providers(r: &mut Random, m: &mut Manifest, falling: bool) {
    let first = &mut m.components[0];
    (first.kind, first.start) = (PROVIDER, 0);
    let mut providers = [first.number, last(m).number];
    if falling {
        providers.reverse();
    }
    let uri = r.within(1..=65_534) as u16;
    let uris = if falling { [uri, uri + 1] } else { [uri + 1, uri] };
    m.resources = (0..2).map(|i| Resource { provider: providers[i], uri: uris[i], first: 0 }).collect();
}

/// Gives one of the resources, in its order, to this provider.
fn give_resource(r: &mut Random, m: &mut Manifest, provider: u16) {
    any(r, &mut m.resources).provider = provider;
    m.resources.sort_by_key(key);
}

fn resource_of_kind(r: &mut Random, m: &mut Manifest, kind: u8) {
    m.components[0].kind = kind;
    give_resource(r, m, m.components[0].number);
}

/// The classes that are made of bytes.
fn on_bytes(r: &mut Random) -> Vec<Class> {
    let mut bases = vec![SAMPLER.to_vec(), r.sized([32, 16, 16, 32]).bytes()];
    bases.extend((0..6).map(|_| r.rich().bytes()));
    let class = |name, meant, manifests| Class { name, meant, manifests };
    vec![
        class("a byte more", Meant::Bad, repeat(|| with(&r.good().bytes(), &[r.byte(0..=255)]))),
        class("a resource more than counted", Meant::Bad, repeat(|| with(&r.good().bytes(), &r.bytes(8)))),
        class("one resource counted too many", Meant::Bad, repeat(|| counted_too_many(r))),
        class("one byte damaged", Meant::Both, bases.iter().flat_map(|good| damaged(good)).collect()),
        class("two bytes damaged", Meant::Both, repeat(|| damaged_twice(r, &bases))),
        class("cut", Meant::Bad, bases.iter().flat_map(|good| (0..good.len()).map(|n| good[..n].to_vec())).collect()),
        class("random bytes", Meant::Any, (0..1000).map(|_| random_bytes(r, 0..=600, 255)).collect()),
        class("random bits", Meant::Both, (0..1000).map(|_| random_bytes(r, 10..=20, 1)).collect()),
        class("no bytes", Meant::Bad, vec![Vec::new()]),
        class("60,000 bytes", Meant::Bad, long(r, 60_000)),
        class("65,535 bytes", Meant::Bad, long(r, 65_535)),
    ]
}

fn with(bytes: &[u8], more: &[u8]) -> Vec<u8> {
    [bytes, more].concat()
}

fn counted_too_many(r: &mut Random) -> Vec<u8> {
    let m = r.rich();
    let mut bytes = m.bytes();
    let count = bytes.len() - 8 * m.resources.len() - 1;
    bytes[count] += 1;
    bytes
}

/// Each byte by itself set to values near its own and near the rules' edges.
fn damaged(good: &[u8]) -> Vec<Vec<u8>> {
    let mut all = Vec::new();
    for at in 0..good.len() {
        let own = good[at];
        for value in [own.wrapping_add(1), own.wrapping_sub(1), own ^ 0x80, 0, 2, 16, 64, 255] {
            if value != own {
                let mut bytes = good.to_vec();
                bytes[at] = value;
                all.push(bytes);
            }
        }
    }
    all
}

fn damaged_twice(r: &mut Random, bases: &[Vec<u8>]) -> Vec<u8> {
    let mut bytes = bases[r.within(0..=bases.len() - 1)].clone();
    for _ in 0..2 {
        *any(r, &mut bytes) = r.byte(0..=63);
    }
    bytes
}

fn random_bytes(r: &mut Random, lengths: RangeInclusive<usize>, highest: usize) -> Vec<u8> {
    let length = r.within(lengths);
    (0..length).map(|_| r.byte(0..=highest)).collect()
}

fn long(r: &mut Random, length: usize) -> Vec<Vec<u8>> {
    let mut after_good = r.good().bytes();
    after_good.resize(length, 0);
    vec![after_good, vec![0; length], vec![1; length], r.bytes(length)]
}
