//! A desk that carries out the commands of a schedule on one register.
use crate::record::Record;
use crate::register::{settle, Image, Job, Refused, Registrar, Shown};
use crate::stamp::Stamp;
use crate::words::{name, number, printed};
use std::collections::HashMap;
use std::fmt::{self, Display, Write};

/// Why a line is no call.
pub type Reason = String;

pub fn wrong<T>(reason: &str) -> Result<T, Reason> {
    Err(reason.to_string())
}

pub(crate) enum Holding<S, R> {
    Job(Job<S, R>),
    Ticket(u32),
}

pub struct Desk<S, R> {
    pub(crate) registrar: Registrar<S, R>,
    /// The image of each number; that of number 0 was never published.
    pub(crate) images: Vec<Image<S, R>>,
    pub(crate) holdings: HashMap<String, Holding<S, R>>,
    pub(crate) calls: u64,
    pub(crate) refused: u64,
}

/// A desk whose kinds are not seen.
pub trait Drive {
    fn carry_out(&mut self, words: &[&[u8]], out: &mut String) -> Result<(), Reason>;
    fn close(&self, out: &mut String);
}

fn called(word: &[u8]) -> Result<&str, Reason> {
    name(word).ok_or_else(|| "expected a name of letters and digits".to_string())
}

pub(crate) fn numbered(word: &[u8]) -> Result<u64, Reason> {
    number(word).ok_or_else(|| "expected a number".to_string())
}

fn valued<R: Record>(word: &[u8]) -> Result<R, Reason> {
    R::parse(word).ok_or_else(|| "expected a value of the register's record kind".to_string())
}

pub(crate) fn place(n: u64) -> usize {
    usize::try_from(n).unwrap_or(usize::MAX)
}

impl<S: Stamp, R: Record> Desk<S, R> {
    /// A desk with a new register, unless the founding is refused.
    pub fn found(values: &[&[u8]], places: u64) -> Result<Result<Desk<S, R>, Refused>, Reason> {
        let values: Vec<R> = values
            .iter()
            .map(|word| valued(word))
            .collect::<Result<_, _>>()?;
        Ok(Registrar::found(values, place(places)).map(|registrar| {
            let shown = |value: &R| Shown {
                value: *value,
                write: S::LEAST,
                read: S::LEAST,
                first: None,
            };
            let rows = registrar.opening.iter().map(shown).collect();
            Desk {
                images: vec![Image {
                    number: 0,
                    rows,
                    outcomes: vec![],
                }],
                registrar,
                holdings: HashMap::new(),
                calls: 1,
                refused: 0,
            }
        }))
    }

    fn image(&self, word: &[u8]) -> Result<&Image<S, R>, Reason> {
        let image = self.images.get(place(numbered(word)?));
        image.ok_or_else(|| "no image of this number was published".to_string())
    }

    fn job(&self, name: &str) -> Result<&Job<S, R>, Reason> {
        match self.holdings.get(name) {
            Some(Holding::Job(job)) => Ok(job),
            _ => Err(format!("no job of this name: {name}")),
        }
    }

    fn ticket(&self, name: &str) -> Result<u32, Reason> {
        match self.holdings.get(name) {
            Some(Holding::Ticket(ticket)) => Ok(*ticket),
            _ => Err(format!("no ticket of this name: {name}")),
        }
    }

    /// A job, taken out so that it can work at an image of the desk.
    fn at_work<A>(
        &mut self,
        name: &str,
        at: Option<&[u8]>,
        work: impl FnOnce(&mut Job<S, R>, &Image<S, R>) -> A,
    ) -> Result<A, Reason> {
        let own = self.job(name)?.image;
        let number = match at {
            Some(word) => place(numbered(word)?),
            None => own as usize,
        };
        let Desk {
            images, holdings, ..
        } = self;
        let Some(image) = images.get(number) else {
            return wrong("no image of this number was published");
        };
        match holdings.get_mut(name) {
            Some(Holding::Job(job)) => Ok(work(job, image)),
            _ => wrong("no job of this name"),
        }
    }

    /// Counts a call and prints its answer.
    fn answer<A: Display>(
        &mut self,
        out: &mut String,
        call: fmt::Arguments<'_>,
        answer: Result<A, Refused>,
    ) {
        self.calls += 1;
        self.refused += u64::from(answer.is_err());
        let _ = match answer {
            Ok(answer) => writeln!(out, "{call}: {answer}"),
            Err(number) => writeln!(out, "{call}: refused {number}"),
        };
    }

    fn on_job(&mut self, words: &[&[u8]], out: &mut String) -> Result<(), Reason> {
        match *words {
            [b"open", job, image] => {
                let job = called(job)?;
                let opened = Job::open(self.image(image)?);
                if self.holdings.contains_key(job) {
                    return Err(format!("a job or ticket of this name stands: {job}"));
                }
                let answer = opened.map(|opened| {
                    self.holdings.insert(job.to_string(), Holding::Job(opened));
                    "live"
                });
                self.answer(out, format_args!("open {job}"), answer);
            }
            [b"look", job, record] => self.look(out, job, record, None)?,
            [b"look", job, record, b"at", image] => self.look(out, job, record, Some(image))?,
            [b"put", job, record, value] => self.put(out, job, record, value, None)?,
            [b"put", job, record, value, b"at", image] => {
                self.put(out, job, record, value, Some(image))?
            }
            [b"tune", job, image] => {
                let job = called(job)?;
                let answer = self.at_work(job, Some(image), |job, image| job.tune(image))?;
                let answer = answer.map(|live| if live { "live" } else { "shut" });
                self.answer(out, format_args!("tune {job}"), answer);
            }
            [b"submit", job] => {
                let job = called(job)?;
                self.job(job)?;
                let Desk {
                    registrar,
                    holdings,
                    ..
                } = self;
                let answer = match holdings.get(job) {
                    Some(Holding::Job(job)) => registrar.submit(job),
                    _ => return wrong("no job of this name"),
                };
                let answer = answer.map(|ticket| {
                    holdings.insert(job.to_string(), Holding::Ticket(ticket));
                    format!("ticket {ticket}")
                });
                self.answer(out, format_args!("submit {job}"), answer);
            }
            [b"drop", job] => {
                let job = called(job)?;
                self.job(job)?;
                self.holdings.remove(job);
                let _ = writeln!(out, "drop {job}: done");
            }
            [b"settle", ticket, image] => {
                let job = called(ticket)?;
                let answer = settle(self.image(image)?, self.ticket(job)?);
                if answer.is_ok() {
                    self.holdings.remove(job);
                }
                self.answer(out, format_args!("settle {job}"), answer);
            }
            [b"waive", ticket] => {
                let job = called(ticket)?;
                self.ticket(job)?;
                self.holdings.remove(job);
                self.answer(out, format_args!("waive {job}"), Ok("done"));
            }
            _ => return wrong("expected a command; an empty input prints them all"),
        }
        Ok(())
    }

    fn look(
        &mut self,
        out: &mut String,
        job: &[u8],
        record: &[u8],
        at: Option<&[u8]>,
    ) -> Result<(), Reason> {
        let job = called(job)?;
        let n = place(numbered(record)?);
        let answer = self.at_work(job, at, |job, image| job.look(image, n))?;
        self.answer(out, format_args!("look {job} {}", printed(record)), answer);
        Ok(())
    }

    fn put(
        &mut self,
        out: &mut String,
        job: &[u8],
        record: &[u8],
        value: &[u8],
        at: Option<&[u8]>,
    ) -> Result<(), Reason> {
        let job = called(job)?;
        let n = place(numbered(record)?);
        let value: R = valued(value)?;
        let answer = self.at_work(job, at, |job, image| job.put(image, n, value))?;
        self.answer(
            out,
            format_args!("put {job} {}", printed(record)),
            answer.map(|()| "done"),
        );
        Ok(())
    }
}

impl<S: Stamp, R: Record> Drive for Desk<S, R> {
    fn carry_out(&mut self, words: &[&[u8]], out: &mut String) -> Result<(), Reason> {
        match *words {
            [b"publish"] => {
                let answer = self.registrar.publish().map(|image| {
                    let number = image.number;
                    self.images.push(image);
                    format!("image {number}")
                });
                self.answer(out, format_args!("publish"), answer);
            }
            [b"decide"] => {
                let answer = self.registrar.decide();
                let answer =
                    answer.map(|outcome| format!("ticket {} {}", outcome.ticket, outcome.verdict));
                self.answer(out, format_args!("decide"), answer);
            }
            [b"row", record] => {
                let row = self.registrar.rows.get(place(numbered(record)?));
                Self::show_row(out, printed(record), row.ok_or("no record of this number")?);
            }
            [b"job", job] => {
                let job = called(job)?;
                Self::show_job(out, job, self.job(job)?);
            }
            [b"journal"] => self.show_journal(out),
            [b"image", image] => Self::show_image(out, self.image(image)?),
            [b"archive"] => self.show_archive(out),
            [b"inspect"] => self.show_inspected(out),
            [b"play", jobs] => self.show_played(out, jobs)?,
            [b"found", ..] => return wrong("found stands once"),
            _ => self.on_job(words, out)?,
        }
        Ok(())
    }

    fn close(&self, out: &mut String) {
        let _ = writeln!(
            out,
            "run: {} calls, {} refused, {} jobs in the journal",
            self.calls,
            self.refused,
            self.registrar.journal().len()
        );
    }
}
