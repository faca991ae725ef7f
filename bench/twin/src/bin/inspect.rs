//! Inspects an archive from standard input by the two kinds in its heading.
use std::io::{self, Read, Write};
use twin::archive::{inspect, Fault};
use twin::record::{Card, Item};
use twin::stamp::{VolumePage, Whole};

const MOST: u64 = 65_536;

fn by_kinds(bytes: &[u8]) -> Result<usize, Fault> {
    match bytes {
        [_, _, _, _, 1, 1, ..] => inspect::<Whole, Card>(bytes),
        [_, _, _, _, 1, 2, ..] => inspect::<Whole, Item>(bytes),
        [_, _, _, _, 2, 1, ..] => inspect::<VolumePage, Card>(bytes),
        [_, _, _, _, 2, 2, ..] => inspect::<VolumePage, Item>(bytes),
        _ => Err(Fault {
            number: 14,
            place: Some(0),
        }),
    }
}

fn main() -> io::Result<()> {
    let mut bytes = Vec::new();
    io::stdin().lock().take(MOST + 1).read_to_end(&mut bytes)?;
    let line = if bytes.len() as u64 > MOST {
        "too long\n".to_string()
    } else {
        match by_kinds(&bytes) {
            Ok(jobs) => format!("sound {jobs}\n"),
            Err(Fault { number, place }) => format!("fault {number} {}\n", place.unwrap_or(0)),
        }
    };
    io::stdout().write_all(line.as_bytes())
}
