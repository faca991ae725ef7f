//! The registrar and the jobs at their stations.
pub use crate::job::{Entry, Job};
use crate::stamp::{earlier, Stamp};
use std::collections::VecDeque;

/// A refused call answers this number.
pub type Refused = u8;

const WAITING: usize = 16;
const OUTCOMES: usize = 32;

#[derive(Clone, Copy, PartialEq, Eq)]
pub enum Verdict<S> {
    Accepted(S),
    Overtaken,
    Gone,
    NoPlace,
}

#[derive(Clone, Copy)]
pub struct Outcome<S> {
    pub ticket: u32,
    pub verdict: Verdict<S>,
}

/// The latest write stamps of a record, at most four, the oldest first.
#[derive(Clone, Copy)]
pub struct Versions<S> {
    stamps: [S; 4],
    count: usize,
}

impl<S: Stamp> Versions<S> {
    fn first() -> Versions<S> {
        Versions {
            stamps: [S::LEAST; 4],
            count: 1,
        }
    }

    pub fn list(&self) -> &[S] {
        &self.stamps[..self.count]
    }

    pub fn last(&self) -> S {
        self.stamps[self.count - 1]
    }

    fn push(&mut self, stamp: S) {
        if self.count == 4 {
            self.stamps.copy_within(1.., 0);
        } else {
            self.count += 1;
        }
        self.stamps[self.count - 1] = stamp;
    }

    /// What follows a stamp in the list, if anything; nothing at all where the stamp is not there.
    fn behind(&self, noted: S) -> Option<Option<S>> {
        let list = self.list();
        let place = list.iter().rposition(|version| version.is_same(noted))?;
        Some(list.get(place + 1).copied())
    }
}

#[derive(Clone, Copy)]
pub struct Row<S, R> {
    pub value: R,
    pub read: S,
    pub versions: Versions<S>,
    pub first: Option<S>,
}

#[derive(Clone, Copy)]
pub struct Shown<S, R> {
    pub value: R,
    pub write: S,
    pub read: S,
    pub first: Option<S>,
}

pub struct Image<S, R> {
    pub number: u32,
    pub rows: Vec<Shown<S, R>>,
    pub outcomes: Vec<Outcome<S>>,
}

struct Submission<S, R> {
    ticket: u32,
    job: Job<S, R>,
}

/// An accepted job: its sheet lies where it was first written, so that entering a job moves small heads only.
#[derive(Clone, Copy)]
pub struct Head<S> {
    pub stamp: S,
    pub ticket: u32,
    place: usize,
}

pub struct Registrar<S, R> {
    pub opening: Vec<R>,
    pub rows: Vec<Row<S, R>>,
    pub cycle: u32,
    tickets: u32,
    waiting: VecDeque<Submission<S, R>>,
    outcomes: Vec<Outcome<S>>,
    places: usize,
    heads: Vec<Head<S>>,
    sheets: Vec<Vec<Entry<S, R>>>,
}

impl<S: Stamp, R: Copy> Registrar<S, R> {
    pub fn found(values: Vec<R>, places: usize) -> Result<Registrar<S, R>, Refused> {
        if !(1..=1024).contains(&values.len()) || !(1..=4096).contains(&places) {
            return Err(1);
        }
        let row = |value: &R| Row {
            value: *value,
            read: S::LEAST,
            versions: Versions::first(),
            first: None,
        };
        Ok(Registrar {
            rows: values.iter().map(row).collect(),
            opening: values,
            cycle: 0,
            tickets: 0,
            waiting: VecDeque::with_capacity(WAITING),
            outcomes: Vec::with_capacity(OUTCOMES),
            places,
            heads: Vec::with_capacity(places),
            sheets: Vec::with_capacity(places),
        })
    }

    pub fn publish(&mut self) -> Result<Image<S, R>, Refused> {
        self.cycle = self.cycle.checked_add(1).ok_or(13u8)?;
        let rows = self
            .rows
            .iter_mut()
            .map(|row| Shown {
                value: row.value,
                write: row.versions.last(),
                read: row.read,
                first: row.first.take(),
            })
            .collect();
        Ok(Image {
            number: self.cycle,
            rows,
            outcomes: std::mem::take(&mut self.outcomes),
        })
    }

    /// The ticket of a job, which is over then; a refusal leaves it.
    pub fn submit(&mut self, job: &Job<S, R>) -> Result<u32, Refused> {
        if !job.live {
            return Err(2);
        }
        if job.is_beyond(self.rows.len()) {
            return Err(5);
        }
        if self.waiting.len() >= WAITING {
            return Err(8);
        }
        self.tickets = self.tickets.checked_add(1).ok_or(13u8)?;
        self.waiting.push_back(Submission {
            ticket: self.tickets,
            job: job.clone(),
        });
        Ok(self.tickets)
    }

    fn verdict(&self, job: &Job<S, R>) -> Verdict<S> {
        let row = |entry: &Entry<S, R>| &self.rows[entry.record];
        if job
            .sheet
            .iter()
            .any(|entry| entry.put && !entry.noted.is_same(row(entry).versions.last()))
        {
            return Verdict::Overtaken;
        }
        let mut upper = job.upper;
        for entry in job.sheet.iter().filter(|entry| entry.open) {
            match row(entry).versions.behind(entry.noted) {
                None => return Verdict::Gone,
                Some(None) => (),
                Some(Some(next)) => upper = Some(earlier(upper, next)),
            }
        }
        let lower = job
            .sheet
            .iter()
            .filter(|entry| entry.put)
            .fold(job.lower, |lower, entry| {
                lower
                    .later(row(entry).read)
                    .later(row(entry).versions.last())
            });
        lower
            .pick(upper)
            .map_or(Verdict::NoPlace, Verdict::Accepted)
    }

    pub fn decide(&mut self) -> Result<Outcome<S>, Refused> {
        let Some(oldest) = self.waiting.front() else {
            return Err(9);
        };
        if oldest.job.is_beyond(self.rows.len()) {
            return Err(5);
        }
        if self.heads.len() >= self.places {
            return Err(10);
        }
        if self.outcomes.len() >= OUTCOMES {
            return Err(11);
        }
        let verdict = self.verdict(&oldest.job);
        let Some(Submission { ticket, job }) = self.waiting.pop_front() else {
            return Err(9);
        };
        let outcome = Outcome { ticket, verdict };
        self.outcomes.push(outcome);
        if let Verdict::Accepted(stamp) = verdict {
            for entry in &job.sheet {
                let row = &mut self.rows[entry.record];
                if entry.seen {
                    row.read = row.read.later(stamp);
                }
                if entry.put {
                    row.value = entry.wrote;
                    row.versions.push(stamp);
                    row.first = row.first.or(Some(stamp));
                }
            }
            let behind = self
                .heads
                .partition_point(|head| !stamp.is_before(head.stamp));
            self.heads.insert(
                behind,
                Head {
                    stamp,
                    ticket,
                    place: self.sheets.len(),
                },
            );
            self.sheets.push(job.sheet);
        }
        Ok(outcome)
    }

    /// The accepted jobs in final order, each with the entries of its sheet.
    pub fn journal(&self) -> impl ExactSizeIterator<Item = (Head<S>, &[Entry<S, R>])> {
        self.heads
            .iter()
            .map(|head| (*head, &self.sheets[head.place][..]))
    }
}

/// The verdict on a ticket, if the image has it.
pub fn settle<S: Stamp, R>(image: &Image<S, R>, ticket: u32) -> Result<Verdict<S>, Refused> {
    let found = image
        .outcomes
        .iter()
        .find(|outcome| outcome.ticket == ticket);
    found.map(|outcome| outcome.verdict).ok_or(12)
}
