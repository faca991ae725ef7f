//! Stamps: whole ones, and those of volume and page.
use crate::words::number;
use std::cmp::Ordering;
use std::fmt::{self, Display, Formatter};

/// What every stamp kind offers.
pub trait Stamp: Copy + Display + Sized {
    const NUMBER: u8;
    const LEAST: Self;

    fn compare(self, other: Self) -> Ordering;
    fn pick(self, upper: Option<Self>) -> Option<Self>;
    fn to_bytes(self) -> [u8; 8];
    fn from_bytes(bytes: [u8; 8]) -> Option<Self>;
    fn parse(word: &[u8]) -> Option<Self>;

    fn is_before(self, other: Self) -> bool {
        self.compare(other) == Ordering::Less
    }

    fn is_same(self, other: Self) -> bool {
        self.compare(other) == Ordering::Equal
    }

    /// The later of two; of two that are the same, the first.
    fn later(self, other: Self) -> Self {
        if self.is_before(other) {
            other
        } else {
            self
        }
    }
}

/// The earlier of a bound and a stamp; of two that are the same, the bound.
pub fn earlier<S: Stamp>(bound: Option<S>, stamp: S) -> S {
    match bound {
        Some(bound) if !stamp.is_before(bound) => bound,
        _ => stamp,
    }
}

const LAST_PLACE: u64 = (1 << 62) - 1;

#[derive(Clone, Copy, Debug)]
pub struct Whole(pub u64);

impl Whole {
    fn counted(self) -> u64 {
        self.0.min(LAST_PLACE)
    }
}

impl Display for Whole {
    fn fmt(&self, f: &mut Formatter<'_>) -> fmt::Result {
        self.counted().fmt(f)
    }
}

impl Stamp for Whole {
    const NUMBER: u8 = 1;
    const LEAST: Whole = Whole(0);

    fn compare(self, other: Whole) -> Ordering {
        self.counted().cmp(&other.counted())
    }

    fn pick(self, upper: Option<Whole>) -> Option<Whole> {
        let lower = self.counted();
        match upper.map(Whole::counted) {
            Some(upper) if upper > lower + 1 => Some(Whole(lower + (upper - lower) / 2)),
            Some(_) => None,
            None if lower < LAST_PLACE => Some(Whole((lower + 65_536).min(LAST_PLACE))),
            None => None,
        }
    }

    fn to_bytes(self) -> [u8; 8] {
        self.counted().to_be_bytes()
    }

    fn from_bytes(bytes: [u8; 8]) -> Option<Whole> {
        let place = u64::from_be_bytes(bytes);
        (place <= LAST_PLACE).then_some(Whole(place))
    }

    fn parse(word: &[u8]) -> Option<Whole> {
        number(word).filter(|n| *n <= LAST_PLACE).map(Whole)
    }
}

const LAST_PAGE: u32 = 9_999;

#[derive(Clone, Copy, Debug)]
pub struct VolumePage {
    pub volume: u32,
    pub page: u32,
}

impl VolumePage {
    fn counted(self) -> (u32, u32) {
        (self.volume.min(LAST_PAGE), self.page.min(LAST_PAGE))
    }

    fn next(self) -> Option<VolumePage> {
        match self.counted() {
            (volume, page) if page < LAST_PAGE => Some(VolumePage {
                volume,
                page: page + 1,
            }),
            (volume, _) if volume < LAST_PAGE => Some(VolumePage {
                volume: volume + 1,
                page: 0,
            }),
            _ => None,
        }
    }
}

impl Display for VolumePage {
    fn fmt(&self, f: &mut Formatter<'_>) -> fmt::Result {
        let (volume, page) = self.counted();
        write!(f, "{volume}/{page}")
    }
}

impl Stamp for VolumePage {
    const NUMBER: u8 = 2;
    const LEAST: VolumePage = VolumePage { volume: 0, page: 0 };

    fn compare(self, other: VolumePage) -> Ordering {
        self.counted().cmp(&other.counted())
    }

    fn pick(self, upper: Option<VolumePage>) -> Option<VolumePage> {
        match upper {
            Some(upper) => self.next().filter(|next| next.is_before(upper)),
            None => match self.counted() {
                (volume, _) if volume < LAST_PAGE => Some(VolumePage {
                    volume: volume + 1,
                    page: 0,
                }),
                _ => self.next(),
            },
        }
    }

    fn to_bytes(self) -> [u8; 8] {
        let (volume, page) = self.counted();
        (u64::from(volume) << 32 | u64::from(page)).to_be_bytes()
    }

    fn from_bytes(bytes: [u8; 8]) -> Option<VolumePage> {
        let both = u64::from_be_bytes(bytes);
        let (volume, page) = ((both >> 32) as u32, both as u32);
        (volume <= LAST_PAGE && page <= LAST_PAGE).then_some(VolumePage { volume, page })
    }

    fn parse(word: &[u8]) -> Option<VolumePage> {
        let slash = word.iter().position(|b| *b == b'/')?;
        let part = |word| {
            number(word)
                .filter(|n| *n <= u64::from(LAST_PAGE))
                .map(|n| n as u32)
        };
        Some(VolumePage {
            volume: part(&word[..slash])?,
            page: part(&word[slash + 1..])?,
        })
    }
}
