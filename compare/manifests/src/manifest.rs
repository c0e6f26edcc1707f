//! A manifest and its bytes, and when it is a good one: document 01, "The manifest, in sections".

pub const NORMAL: u8 = 0;
pub const DANGEROUS: u8 = 1;
pub const SIGNATURE: u8 = 2;
pub const SIGNATURE_OR_SYSTEM: u8 = 3;

pub const ACTIVITY: u8 = 1;
pub const SERVICE: u8 = 2;
pub const RECEIVER: u8 = 3;
pub const PROVIDER: u8 = 4;

pub const MOST_USES: usize = 32;
pub const MOST_DEFINES: usize = 16;
pub const MOST_COMPONENTS: usize = 16;
pub const MOST_RESOURCES: usize = 32;

#[derive(Clone, Default, PartialEq, Debug)]
pub struct Manifest {
    pub app: u16,
    pub signer: u32,
    pub uses: Vec<u8>,
    pub defines: Vec<Define>,
    pub components: Vec<Component>,
    pub resources: Vec<Resource>,
}

#[derive(Clone, Copy, PartialEq, Debug)]
pub struct Define {
    pub permission: u8,
    pub level: u8,
    pub group: u8,
}

#[derive(Clone, Copy, Default, PartialEq, Debug)]
pub struct Component {
    pub number: u16,
    pub kind: u8,
    pub exported: u8,
    pub shares: u8,
    pub start: u8,
    pub read: u8,
    pub write: u8,
}

#[derive(Clone, Copy, PartialEq, Debug)]
pub struct Resource {
    pub provider: u16,
    pub uri: u16,
    pub first: u32,
}

impl Manifest {
    /// The manifest that the bytes form, where it is a good one.
    pub fn read(bytes: &[u8]) -> Option<Manifest> {
        let mut input = Input(bytes);
        let manifest = Manifest {
            app: input.u16()?,
            signer: input.u32()?,
            uses: input.section(MOST_USES, Input::u8)?,
            defines: input.section(MOST_DEFINES, Input::define)?,
            components: input.section(MOST_COMPONENTS, Input::component)?,
            resources: input.section(MOST_RESOURCES, Input::resource)?,
        };
        (input.0.is_empty() && manifest.is_good()).then_some(manifest)
    }

    fn is_good(&self) -> bool {
        self.app != 0
            && self.signer != 0
            && rises(&self.uses, |&permission| permission)
            && rises(&self.defines, |define| define.permission)
            && rises(&self.components, |component| component.number)
            && rises(&self.resources, |resource| (resource.provider, resource.uri))
            && self.uses.iter().all(|permission| (1..=63).contains(permission))
            && self.defines.iter().all(Define::is_good)
            && self.components.iter().all(Component::is_good)
            && self.resources.iter().all(|resource| resource.uri != 0 && self.has_provider(resource.provider))
    }

    pub fn bytes(&self) -> Vec<u8> {
        let mut out = self.app.to_le_bytes().to_vec();
        out.extend(self.signer.to_le_bytes());
        out.push(self.uses.len() as u8);
        out.extend(&self.uses);
        out.push(self.defines.len() as u8);
        for d in &self.defines {
            out.extend([d.permission, d.level, d.group]);
        }
        out.push(self.components.len() as u8);
        for c in &self.components {
            out.extend(c.number.to_le_bytes());
            out.extend([c.kind, c.exported, c.shares, c.start, c.read, c.write]);
        }
        out.push(self.resources.len() as u8);
        for r in &self.resources {
            out.extend(r.provider.to_le_bytes());
            out.extend(r.uri.to_le_bytes());
            out.extend(r.first.to_le_bytes());
        }
        out
    }

    pub fn lists(&self, permission: u16) -> bool {
        self.uses.iter().any(|&used| u16::from(used) == permission)
    }

    pub fn define(&self, permission: u16) -> Option<&Define> {
        self.defines.iter().find(|define| u16::from(define.permission) == permission)
    }

    pub fn component(&self, number: u16) -> Option<&Component> {
        self.components.iter().find(|component| component.number == number)
    }

    pub fn has_provider(&self, number: u16) -> bool {
        self.component(number).is_some_and(|component| component.kind == PROVIDER)
    }

    pub fn resource(&self, provider: u16, uri: u16) -> Option<&Resource> {
        self.resources.iter().find(|resource| (resource.provider, resource.uri) == (provider, uri))
    }
}

impl Define {
    fn is_good(&self) -> bool {
        (16..=63).contains(&self.permission)
            && self.level <= SIGNATURE_OR_SYSTEM
            && self.group <= 15
            && (self.group == 0 || self.level == DANGEROUS)
    }
}

impl Component {
    fn is_good(&self) -> bool {
        let other_fields =
            if self.kind == PROVIDER { self.start == 0 } else { (self.shares, self.read, self.write) == (0, 0, 0) };
        self.number != 0
            && (ACTIVITY..=PROVIDER).contains(&self.kind)
            && self.exported <= 1
            && self.shares <= 1
            && [self.start, self.read, self.write].iter().all(|&permission| permission <= 63)
            && other_fields
    }
}

fn rises<T, K: PartialOrd>(entries: &[T], key: impl Fn(&T) -> K) -> bool {
    entries.windows(2).all(|pair| key(&pair[0]) < key(&pair[1]))
}

struct Input<'a>(&'a [u8]);

impl Input<'_> {
    fn take<const N: usize>(&mut self) -> Option<[u8; N]> {
        let (taken, rest) = self.0.split_first_chunk()?;
        self.0 = rest;
        Some(*taken)
    }

    fn u8(&mut self) -> Option<u8> {
        self.take().map(u8::from_le_bytes)
    }

    fn u16(&mut self) -> Option<u16> {
        self.take().map(u16::from_le_bytes)
    }

    fn u32(&mut self) -> Option<u32> {
        self.take().map(u32::from_le_bytes)
    }

    fn section<T>(&mut self, most: usize, entry: impl Fn(&mut Self) -> Option<T>) -> Option<Vec<T>> {
        let count = self.u8().filter(|&count| usize::from(count) <= most)?;
        (0..count).map(|_| entry(self)).collect()
    }

    fn define(&mut self) -> Option<Define> {
        let [permission, level, group] = self.take()?;
        Some(Define { permission, level, group })
    }

    fn component(&mut self) -> Option<Component> {
        let number = self.u16()?;
        let [kind, exported, shares, start, read, write] = self.take()?;
        Some(Component { number, kind, exported, shares, start, read, write })
    }

    fn resource(&mut self) -> Option<Resource> {
        Some(Resource { provider: self.u16()?, uri: self.u16()?, first: self.u32()? })
    }
}

#[cfg(test)]
mod tests {
    use super::*;

    /// The manifest on document 01's tape: an activity, 100, and a provider, 101, with one resource.
    const SAMPLER: &[u8; 34] = include_bytes!("../../../examples/sampler.manifest");

    #[test]
    fn the_sampler_is_good() {
        let sampler = Manifest {
            app: 10,
            signer: 5,
            components: vec![
                Component { number: 100, kind: ACTIVITY, exported: 1, ..Component::default() },
                Component { number: 101, kind: PROVIDER, ..Component::default() },
            ],
            resources: vec![Resource { provider: 101, uri: 1, first: 0 }],
            ..Manifest::default()
        };
        assert_eq!(sampler.bytes(), SAMPLER);
        assert_eq!(Manifest::read(SAMPLER), Some(sampler));
    }

    #[test]
    fn fewer_or_more_bytes_are_not() {
        assert!((0..34).all(|length| Manifest::read(&SAMPLER[..length]).is_none()));
        assert!(Manifest::read(&[&SAMPLER[..], &[0]].concat()).is_none());
    }

    #[test]
    fn a_broken_rule_is_seen() {
        let broken = [
            (0, 0),    // app 0
            (2, 0),    // signer 0
            (11, 0),   // no kind
            (11, 5),   // no kind
            (12, 2),   // exported 2
            (13, 1),   // an activity that shares
            (14, 64),  // permission 64
            (15, 1),   // an activity with a read permission
            (17, 100), // the same component twice
            (19, 3),   // a resource without its provider
            (22, 1),   // a provider with a start permission
            (26, 100), // a resource of an activity
            (28, 0),   // URI 0
        ];
        for (place, byte) in broken {
            let mut bytes = *SAMPLER;
            bytes[place] = byte;
            assert!(Manifest::read(&bytes).is_none(), "byte {place} is {byte}");
        }
    }
}
