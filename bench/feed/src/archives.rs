//! Archives by chance: those of schedules, sound and damaged.
use crate::chance::Chance;
use crate::schedules::schedule;
use twin::run::run;

/// The bytes that a schedule's last `archive` printed.
fn laid_down(seed: u64, steps: usize) -> Vec<u8> {
    let (printout, _) = run(schedule(seed, steps).as_bytes());
    let mut bytes = Vec::new();
    let mut within = false;
    for line in printout.lines() {
        if line.starts_with("archive: ") {
            bytes.clear();
            within = true;
        } else if let (true, Some(digits)) = (within, line.strip_prefix("  ")) {
            let byte = |two: &[u8]| {
                u8::from_str_radix(std::str::from_utf8(two).unwrap_or("0"), 16).unwrap_or(0)
            };
            bytes.extend(digits.as_bytes().chunks(2).map(byte));
        } else {
            within = false;
        }
    }
    bytes
}

/// Some archives, each damaged in many ways.
pub struct Archives {
    chance: Chance,
    sound: Vec<Vec<u8>>,
}

impl Archives {
    pub fn new(seed: u64) -> Archives {
        let sound = (0..60)
            .map(|i| laid_down(seed * 1000 + i, 10 + 4 * i as usize))
            .filter(|bytes| !bytes.is_empty())
            .collect();
        Archives {
            chance: Chance::new(seed),
            sound,
        }
    }

    /// The next archive: sound, or with a byte or two changed, cut, lengthened, or with two parts swapped.
    pub fn next(&mut self) -> Vec<u8> {
        let c = &mut self.chance;
        let mut bytes = c.one_of(&self.sound).clone();
        let n = bytes.len();
        match c.below(8) {
            0 => (),
            1 => bytes.truncate(c.below(n + 1)),
            2 => bytes.extend((0..1 + c.below(20)).map(|i| (i % 3) as u8)),
            3 => {
                let (from, to) = (c.below(n), c.below(n));
                bytes.swap(from, to);
            }
            4 => {
                // a field of 4 bytes, one more or one less
                let at = 4 * c.below(n / 4);
                let more = if c.once_in(2) { 1u8 } else { 255 };
                bytes[at + 3] = bytes[at + 3].wrapping_add(more);
            }
            _ => {
                for _ in 0..1 + c.below(2) {
                    let at = c.below(n);
                    let bit = 1u8 << c.below(8);
                    bytes[at] = if c.once_in(3) {
                        c.below(256) as u8
                    } else {
                        bytes[at] ^ bit
                    };
                }
            }
        }
        bytes
    }
}
