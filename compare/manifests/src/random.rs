//! Numbers and good manifests by chance, the same in every run.

use manifests::manifest::{Component, Define, Manifest, Resource, DANGEROUS, PROVIDER};
use std::collections::BTreeSet;
use std::ops::RangeInclusive;

pub struct Random(u64);

impl Random {
    pub fn new(seed: u64) -> Random {
        Random(seed)
    }

    /// splitmix64
    fn next(&mut self) -> u64 {
        self.0 = self.0.wrapping_add(0x9E37_79B9_7F4A_7C15);
        let z = (self.0 ^ (self.0 >> 30)).wrapping_mul(0xBF58_476D_1CE4_E5B9);
        let z = (z ^ (z >> 27)).wrapping_mul(0x94D0_49BB_1331_11EB);
        z ^ (z >> 31)
    }

    pub fn within(&mut self, range: RangeInclusive<usize>) -> usize {
        range.start() + (self.next() % (range.end() - range.start() + 1) as u64) as usize
    }

    pub fn byte(&mut self, range: RangeInclusive<usize>) -> u8 {
        self.within(range) as u8
    }

    pub fn bytes(&mut self, length: usize) -> Vec<u8> {
        (0..length).map(|_| self.byte(0..=255)).collect()
    }

    pub fn pick<T: Copy>(&mut self, from: &[T]) -> T {
        from[self.within(0..=from.len() - 1)]
    }

    /// A number u16 that is not zero. Half of them are small, so that neighbours and equals occur.
    pub fn number(&mut self) -> u16 {
        let most = self.pick(&[40, 65_535]);
        self.within(1..=most) as u16
    }

    fn rising<T: Ord>(&mut self, count: usize, mut entry: impl FnMut(&mut Self) -> T) -> Vec<T> {
        let mut all = BTreeSet::new();
        while all.len() < count {
            all.insert(entry(self));
        }
        all.into_iter().collect()
    }

    fn define(&mut self, permission: u8) -> Define {
        let level = self.byte(0..=3);
        Define { permission, level, group: if level == DANGEROUS { self.byte(0..=15) } else { 0 } }
    }

    fn component(&mut self, number: u16, kind: u8) -> Component {
        let exported = self.byte(0..=1);
        if kind == PROVIDER {
            Component {
                number,
                kind,
                exported,
                shares: self.byte(0..=1),
                start: 0,
                read: self.byte(0..=63),
                write: self.byte(0..=63),
            }
        } else {
            Component { number, kind, exported, shares: 0, start: self.byte(0..=63), read: 0, write: 0 }
        }
    }

    /// A good manifest with these counts of uses, defines, components and resources. Where there are resources the
    /// last component is a provider, and where there are two components the first is none.
    pub fn sized(&mut self, [uses, defines, components, resources]: [usize; 4]) -> Manifest {
        let mut m =
            Manifest { app: self.number(), signer: self.within(1..=u32::MAX as usize) as u32, ..Manifest::default() };
        m.uses = self.rising(uses, |r| r.byte(1..=63));
        m.defines = self.rising(defines, |r| r.byte(16..=63)).into_iter().map(|p| self.define(p)).collect();
        let numbers = self.rising(components, Random::number);
        for (place, number) in numbers.into_iter().enumerate() {
            let kind = match place + 1 {
                last if last == components && resources > 0 => PROVIDER,
                1 => self.byte(1..=3),
                _ => self.byte(1..=4),
            };
            m.components.push(self.component(number, kind));
        }
        let providers: Vec<u16> = m.components.iter().filter(|c| c.kind == PROVIDER).map(|c| c.number).collect();
        for (provider, uri) in self.rising(resources, |r| (r.pick(&providers), r.number())) {
            m.resources.push(Resource { provider, uri, first: self.next() as u32 });
        }
        m
    }

    /// A good manifest of any counts.
    pub fn good(&mut self) -> Manifest {
        let components = self.within(0..=16);
        let resources = if components == 0 { 0 } else { self.within(0..=32) };
        let counts = [self.within(0..=32), self.within(0..=16), components, resources];
        self.sized(counts)
    }

    /// A good manifest with at least two entries in each section, so that each rule can be broken in it.
    pub fn rich(&mut self) -> Manifest {
        let counts = [self.within(2..=32), self.within(2..=16), self.within(2..=16), self.within(2..=32)];
        self.sized(counts)
    }
}

#[cfg(test)]
mod tests {
    use super::*;

    #[test]
    fn the_fullest_has_474_bytes() {
        assert_eq!(Random::new(2).sized([32, 16, 16, 32]).bytes().len(), 474);
    }
}
