//! A tape, its manifests' bytes and its action records: document 01, "Action records" and "The tape and the answer
//! sheet".

use std::fmt;

pub const MOST_MANIFESTS: usize = 32;
pub const MOST_MANIFEST_BYTES: usize = 1_024;
pub const MOST_ACTIONS: usize = 2_048;
pub const RECORD_BYTES: usize = 12;

pub const READ: u8 = 1;
pub const WRITE: u8 = 2;
pub const BOTH: u8 = 3;

/// The codes of the actions.
pub mod code {
    pub const INSTALL: u8 = 1;
    pub const UNINSTALL: u8 = 2;
    pub const GRANT: u8 = 3;
    pub const REVOKE: u8 = 4;
    pub const GRANT_GROUP: u8 = 5;
    pub const REVOKE_GROUP: u8 = 6;
    pub const START: u8 = 7;
    pub const STOP: u8 = 8;
    pub const READ: u8 = 9;
    pub const WRITE: u8 = 10;
    pub const LEND_TO_INSTANCE: u8 = 11;
    pub const LEND_TO_APP: u8 = 12;
    pub const WITHDRAW: u8 = 13;
    pub const ASK: u8 = 14;
    pub const ALL: std::ops::RangeInclusive<u8> = INSTALL..=ASK;
}

#[derive(Clone, Copy, Default, PartialEq, Eq, Debug)]
pub struct Action {
    pub code: u8,
    pub a: u8,
    pub b: u16,
    pub c: u16,
    pub d: u16,
    pub e: u32,
}

impl Action {
    pub fn read(record: [u8; RECORD_BYTES]) -> Action {
        let [code, a, b0, b1, c0, c1, d0, d1, e0, e1, e2, e3] = record;
        Action {
            code,
            a,
            b: u16::from_le_bytes([b0, b1]),
            c: u16::from_le_bytes([c0, c1]),
            d: u16::from_le_bytes([d0, d1]),
            e: u32::from_le_bytes([e0, e1, e2, e3]),
        }
    }

    pub fn bytes(self) -> [u8; RECORD_BYTES] {
        let [b0, b1] = self.b.to_le_bytes();
        let [c0, c1] = self.c.to_le_bytes();
        let [d0, d1] = self.d.to_le_bytes();
        let [e0, e1, e2, e3] = self.e.to_le_bytes();
        [self.code, self.a, b0, b1, c0, c1, d0, d1, e0, e1, e2, e3]
    }
}

/// A tape that is not refused.
#[derive(Clone, Default, PartialEq, Eq, Debug)]
pub struct Tape {
    pub manifests: Vec<Vec<u8>>,
    pub actions: Vec<Action>,
}

/// Why a tape is refused.
#[derive(Clone, Copy, PartialEq, Eq, Debug)]
pub enum Damage {
    Cut,
    LeftOver,
    ManifestCount,
    ManifestLength,
    ActionCount,
}

impl Tape {
    pub fn read(bytes: &[u8]) -> Result<Tape, Damage> {
        let mut rest = bytes;
        let [count] = take(&mut rest)?;
        if usize::from(count) > MOST_MANIFESTS {
            return Err(Damage::ManifestCount);
        }
        let manifests = (0..count).map(|_| manifest(&mut rest)).collect::<Result<_, _>>()?;
        let count = u16::from_le_bytes(take(&mut rest)?);
        if usize::from(count) > MOST_ACTIONS {
            return Err(Damage::ActionCount);
        }
        let actions = (0..count).map(|_| take(&mut rest).map(Action::read)).collect::<Result<_, _>>()?;
        if rest.is_empty() {
            Ok(Tape { manifests, actions })
        } else {
            Err(Damage::LeftOver)
        }
    }

    /// The tape's bytes. Counts and lengths past their most are kept as far as their bytes can say them, so that a
    /// damaged tape can be made too.
    pub fn bytes(&self) -> Vec<u8> {
        let mut out = vec![self.manifests.len() as u8];
        for manifest in &self.manifests {
            out.extend((manifest.len() as u16).to_le_bytes());
            out.extend(manifest);
        }
        out.extend((self.actions.len() as u16).to_le_bytes());
        out.extend(self.actions.iter().flat_map(|action| action.bytes()));
        out
    }
}

fn take<const N: usize>(rest: &mut &[u8]) -> Result<[u8; N], Damage> {
    let (head, tail) = rest.split_first_chunk().ok_or(Damage::Cut)?;
    *rest = tail;
    Ok(*head)
}

fn manifest(rest: &mut &[u8]) -> Result<Vec<u8>, Damage> {
    let length = usize::from(u16::from_le_bytes(take(rest)?));
    if length > MOST_MANIFEST_BYTES {
        return Err(Damage::ManifestLength);
    }
    let (head, tail) = rest.split_at_checked(length).ok_or(Damage::Cut)?;
    *rest = tail;
    Ok(head.to_vec())
}

impl fmt::Display for Damage {
    fn fmt(&self, f: &mut fmt::Formatter) -> fmt::Result {
        match self {
            Damage::Cut => write!(f, "it is cut"),
            Damage::LeftOver => write!(f, "bytes are left over"),
            Damage::ManifestCount => write!(f, "more than {MOST_MANIFESTS} manifests"),
            Damage::ManifestLength => write!(f, "a manifest of more than {MOST_MANIFEST_BYTES} bytes"),
            Damage::ActionCount => write!(f, "more than {MOST_ACTIONS} actions"),
        }
    }
}

#[cfg(test)]
mod tests {
    use super::*;

    #[test]
    fn the_longest_tape_has_57411_bytes() {
        let tape = Tape { manifests: vec![vec![0; 1_024]; 32], actions: vec![Action::default(); 2_048] };
        assert_eq!(tape.bytes().len(), 57_411);
        assert_eq!(Tape::read(&tape.bytes()), Ok(tape));
    }

    #[test]
    fn damage_is_named() {
        assert_eq!(Tape::read(&[]), Err(Damage::Cut));
        assert_eq!(Tape::read(&[0, 0, 0]), Ok(Tape::default()));
        assert_eq!(Tape::read(&[0, 0, 0, 0]), Err(Damage::LeftOver));
        assert_eq!(Tape::read(&[0, 1, 0, 1]), Err(Damage::Cut));
        assert_eq!(Tape::read(&[33]), Err(Damage::ManifestCount));
        assert_eq!(Tape::read(&[1, 1, 4]), Err(Damage::ManifestLength));
        assert_eq!(Tape::read(&[0, 1, 8]), Err(Damage::ActionCount));
    }
}
