//! Record values: cards and items.
use crate::words::number;
use std::fmt::{self, Display, Formatter};

/// What every record kind offers.
pub trait Record: Copy + Display + Sized {
    const NUMBER: u8;

    fn to_bytes(self) -> [u8; 12];
    fn from_bytes(bytes: [u8; 12]) -> Option<Self>;
    fn parse(word: &[u8]) -> Option<Self>;
}

fn small(word: &[u8], most: u64) -> Option<u64> {
    number(word).filter(|n| *n <= most)
}

fn split(word: &[u8]) -> Vec<&[u8]> {
    word.split(|b| *b == b':').collect()
}

#[derive(Clone, Copy, Debug, PartialEq, Eq)]
pub enum Unit {
    Millimetre,
    Centimetre,
    Metre,
    Inch,
}

const UNITS: [(Unit, &str); 4] = [
    (Unit::Millimetre, "mm"),
    (Unit::Centimetre, "cm"),
    (Unit::Metre, "m"),
    (Unit::Inch, "inch"),
];

#[derive(Clone, Copy, Debug)]
pub struct Card {
    pub revision: u32,
    pub unit: Unit,
    pub mass: u32,
}

impl Display for Card {
    fn fmt(&self, f: &mut Formatter<'_>) -> fmt::Result {
        write!(
            f,
            "{}:{}:{}",
            self.revision, UNITS[self.unit as usize].1, self.mass
        )
    }
}

impl Record for Card {
    const NUMBER: u8 = 1;

    fn to_bytes(self) -> [u8; 12] {
        let mut bytes = [0; 12];
        bytes[..4].copy_from_slice(&self.revision.to_be_bytes());
        bytes[4] = self.unit as u8;
        bytes[8..].copy_from_slice(&self.mass.to_be_bytes());
        bytes
    }

    fn from_bytes([a, b, c, d, unit, z1, z2, z3, e, f, g, h]: [u8; 12]) -> Option<Card> {
        let (unit, _) = *UNITS.get(usize::from(unit))?;
        (z1 | z2 | z3 == 0).then_some(Card {
            revision: u32::from_be_bytes([a, b, c, d]),
            unit,
            mass: u32::from_be_bytes([e, f, g, h]),
        })
    }

    fn parse(word: &[u8]) -> Option<Card> {
        let [revision, unit, mass] = split(word)[..] else {
            return None;
        };
        let (unit, _) = *UNITS.iter().find(|(_, text)| text.as_bytes() == unit)?;
        let most = u64::from(u32::MAX);
        Some(Card {
            revision: small(revision, most)? as u32,
            unit,
            mass: small(mass, most)? as u32,
        })
    }
}

#[derive(Clone, Copy, Debug)]
pub enum Item {
    Withdrawn,
    Solid { shape: u32 },
    SubAssembly { record: u16, count: u16 },
}

impl Display for Item {
    fn fmt(&self, f: &mut Formatter<'_>) -> fmt::Result {
        match self {
            Item::Withdrawn => f.write_str("withdrawn"),
            Item::Solid { shape } => write!(f, "solid:{shape}"),
            Item::SubAssembly { record, count } => write!(f, "sub:{record}:{}", count.max(&1)),
        }
    }
}

impl Record for Item {
    const NUMBER: u8 = 2;

    fn to_bytes(self) -> [u8; 12] {
        let (tag, data) = match self {
            Item::Withdrawn => (0, 0),
            Item::Solid { shape } => (1, shape),
            Item::SubAssembly { record, count } => {
                (2, u32::from(record) << 16 | u32::from(count.max(1)))
            }
        };
        let mut bytes = [0; 12];
        bytes[0] = tag;
        bytes[4..8].copy_from_slice(&data.to_be_bytes());
        bytes
    }

    fn from_bytes(bytes: [u8; 12]) -> Option<Item> {
        let [tag, 0, 0, 0, a, b, c, d, 0, 0, 0, 0] = bytes else {
            return None;
        };
        let data = u32::from_be_bytes([a, b, c, d]);
        match tag {
            0 if data == 0 => Some(Item::Withdrawn),
            1 => Some(Item::Solid { shape: data }),
            2 if data as u16 != 0 => Some(Item::SubAssembly {
                record: (data >> 16) as u16,
                count: data as u16,
            }),
            _ => None,
        }
    }

    fn parse(word: &[u8]) -> Option<Item> {
        match split(word)[..] {
            [b"withdrawn"] => Some(Item::Withdrawn),
            [b"solid", shape] => Some(Item::Solid {
                shape: small(shape, u64::from(u32::MAX))? as u32,
            }),
            [b"sub", record, count] => {
                let count = small(count, 65_535).filter(|n| *n > 0)?;
                Some(Item::SubAssembly {
                    record: small(record, 65_535)? as u16,
                    count: count as u16,
                })
            }
            _ => None,
        }
    }
}
