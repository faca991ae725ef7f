//! The archive: laid down, inspected, played.
use crate::record::Record;
use crate::register::Registrar;
use crate::stamp::Stamp;

/// A fault: its number, and its place, if it stands at one.
#[derive(Clone, Copy, Debug, PartialEq, Eq)]
pub struct Fault {
    pub number: u8,
    pub place: Option<usize>,
}

fn fault<T>(number: u8, place: usize) -> Result<T, Fault> {
    Err(Fault {
        number,
        place: Some(place),
    })
}

const MARK: [u8; 4] = [0x41, 0x53, 0x4a, 0x31];
const HEADING: usize = 12;
const PAIR: usize = 8;
const VALUE: usize = 12;
const FRONT: usize = 16;
const LOOK: usize = 22;
const PUT: usize = 14;
const NAMED: usize = 16;

fn block_length(looks: usize, puts: usize) -> usize {
    FRONT + LOOK * looks + PUT * puts
}

/// The archive of a registrar's opening values and journal.
pub fn write<S: Stamp, R: Record>(registrar: &Registrar<S, R>) -> Vec<u8> {
    let jobs = registrar.journal();
    let (n, j) = (registrar.opening.len(), jobs.len());
    let mut pairs: Vec<(usize, usize)> = vec![(HEADING + PAIR * (j + 1), VALUE * n)];
    let mut blocks = Vec::new();
    for (head, entries) in jobs {
        let looks = entries.iter().filter(|entry| entry.seen).count();
        let puts = entries.iter().filter(|entry| entry.put).count();
        let (from, length) = pairs[pairs.len() - 1];
        pairs.push((from + length, block_length(looks, puts)));
        blocks.extend(head.stamp.to_bytes());
        blocks.extend(head.ticket.to_be_bytes());
        blocks.extend([looks as u8, puts as u8, 0, 0]);
        for entry in entries.iter().filter(|entry| entry.seen) {
            blocks.extend((entry.record as u16).to_be_bytes());
            blocks.extend(entry.noted.to_bytes());
            blocks.extend(entry.saw.to_bytes());
        }
        for entry in entries.iter().filter(|entry| entry.put) {
            blocks.extend((entry.record as u16).to_be_bytes());
            blocks.extend(entry.wrote.to_bytes());
        }
    }
    let mut bytes = Vec::with_capacity(pairs[0].0 + pairs[0].1 + blocks.len());
    bytes.extend(MARK);
    bytes.extend([S::NUMBER, R::NUMBER]);
    bytes.extend((n as u16).to_be_bytes());
    bytes.extend((j as u32).to_be_bytes());
    for (from, length) in pairs {
        bytes.extend((from as u32).to_be_bytes());
        bytes.extend((length as u32).to_be_bytes());
    }
    bytes.extend(registrar.opening.iter().flat_map(|value| value.to_bytes()));
    bytes.extend(blocks);
    bytes
}

fn form<const N: usize>(bytes: &[u8], at: usize) -> [u8; N] {
    let mut form = [0; N];
    form.copy_from_slice(&bytes[at..at + N]);
    form
}

fn four(bytes: &[u8], at: usize) -> usize {
    u32::from_be_bytes(form(bytes, at)) as usize
}

fn two(bytes: &[u8], at: usize) -> usize {
    usize::from(u16::from_be_bytes(form(bytes, at)))
}

/// A block that was checked: where it starts, and its numbers of looks and puts.
#[derive(Clone, Copy)]
struct Block {
    at: usize,
    looks: usize,
    puts: usize,
}

impl Block {
    fn looks(self) -> impl Iterator<Item = usize> {
        (0..self.looks).map(move |i| self.at + FRONT + LOOK * i)
    }

    fn puts(self) -> impl Iterator<Item = usize> {
        (0..self.puts).map(move |i| self.at + FRONT + LOOK * self.looks + PUT * i)
    }
}

/// What the heading states, once heading, directory, opening values and blocks are right.
struct Checked {
    records: usize,
    jobs: usize,
    blocks: Vec<Block>,
}

impl Checked {
    fn opening(&self) -> usize {
        HEADING + PAIR * (self.jobs + 1)
    }
}

fn twice(records: &[usize]) -> bool {
    records
        .iter()
        .enumerate()
        .any(|(i, record)| records[..i].contains(record))
}

/// A block but for its values, behind a block of a stamp; its stamp too.
fn block<S: Stamp>(bytes: &[u8], at: usize, length: usize, low: S, n: usize) -> Option<(Block, S)> {
    if length < FRONT {
        return None;
    }
    let stamp = S::from_bytes(form(bytes, at))?;
    let [looks, puts, 0, 0] = form(bytes, at + 12) else {
        return None;
    };
    let block = Block {
        at,
        looks: usize::from(looks),
        puts: usize::from(puts),
    };
    let right = S::LEAST.is_before(stamp)
        && !stamp.is_before(low)
        && four(bytes, at + 8) >= 1
        && block.looks <= NAMED
        && block.puts <= NAMED
        && length == block_length(block.looks, block.puts);
    if !right {
        return None;
    }
    let seen: Vec<usize> = block.looks().map(|look| two(bytes, look)).collect();
    let put: Vec<usize> = block.puts().map(|put| two(bytes, put)).collect();
    let named = seen.len() + put.iter().filter(|record| !seen.contains(record)).count();
    let names = seen.iter().chain(&put).all(|record| *record < n)
        && !twice(&seen)
        && !twice(&put)
        && named <= NAMED;
    let noted = block
        .looks()
        .all(|look| S::from_bytes(form(bytes, look + 2)).is_some());
    (names && noted).then_some((block, stamp))
}

fn check<S: Stamp, R: Record>(bytes: &[u8]) -> Result<Checked, Fault> {
    let heading =
        bytes.len() >= HEADING && bytes[..4] == MARK && bytes[4..6] == [S::NUMBER, R::NUMBER];
    if !heading {
        return fault(14, 0);
    }
    let (records, jobs) = (two(bytes, 6), four(bytes, 8));
    if !(1..=1024).contains(&records) || jobs > 4096 {
        return fault(14, 0);
    }
    let mut from = HEADING + PAIR * (jobs + 1);
    let mut parts = Vec::with_capacity(jobs + 1);
    for i in 0..=jobs {
        let at = HEADING + PAIR * i;
        let whole = bytes.len() >= at + PAIR;
        if !whole || four(bytes, at) != from {
            return fault(15, at);
        }
        let length = four(bytes, at + 4);
        let end = from + length;
        let wrong = end > bytes.len()
            || i == 0 && length != VALUE * records
            || i == jobs && end != bytes.len();
        if wrong {
            return fault(15, at);
        }
        parts.push((from, length));
        from = end;
    }
    for i in 0..records {
        let at = parts[0].0 + VALUE * i;
        if R::from_bytes(form(bytes, at)).is_none() {
            return fault(17, at);
        }
    }
    let mut low = S::LEAST;
    let mut blocks = Vec::with_capacity(jobs);
    for (at, length) in &parts[1..] {
        let Some((block, stamp)) = block(bytes, *at, *length, low, records) else {
            return fault(16, *at);
        };
        let values = block
            .looks()
            .map(|look| look + 10)
            .chain(block.puts().map(|put| put + 2));
        for value in values {
            if R::from_bytes(form(bytes, value)).is_none() {
                return fault(17, value);
            }
        }
        low = stamp;
        blocks.push(block);
    }
    Ok(Checked {
        records,
        jobs,
        blocks,
    })
}

/// The number of jobs of a sound archive, or the first fault.
pub fn inspect<S: Stamp, R: Record>(bytes: &[u8]) -> Result<usize, Fault> {
    let archive = check::<S, R>(bytes)?;
    let least = S::LEAST.to_bytes();
    let mut standing: Vec<([u8; 8], [u8; 12])> = (0..archive.records)
        .map(|i| (least, form(bytes, archive.opening() + VALUE * i)))
        .collect();
    for block in &archive.blocks {
        for look in block.looks() {
            if standing[two(bytes, look)] != (form(bytes, look + 2), form(bytes, look + 10)) {
                return fault(19, look);
            }
        }
        let stamp = form(bytes, block.at);
        for put in block.puts() {
            standing[two(bytes, put)] = (stamp, form(bytes, put + 2));
        }
    }
    Ok(archive.jobs)
}

/// The values after the first jobs, so many of them, in a space for them.
pub fn play<S: Stamp, R: Record>(bytes: &[u8], jobs: usize, space: &mut [R]) -> Result<(), Fault> {
    let archive = check::<S, R>(bytes)?;
    if space.len() != archive.records || jobs > archive.jobs {
        return Err(Fault {
            number: 18,
            place: None,
        });
    }
    let value = |at| R::from_bytes(form(bytes, at));
    for (i, place) in space.iter_mut().enumerate() {
        *place = value(archive.opening() + VALUE * i).unwrap_or(*place);
    }
    for block in &archive.blocks[..jobs] {
        for put in block.puts() {
            let place = &mut space[two(bytes, put)];
            *place = value(put + 2).unwrap_or(*place);
        }
    }
    Ok(())
}
