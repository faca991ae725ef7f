//! What the commands that show print.
use crate::archive;
use crate::desk::{numbered, place, Desk, Reason};
use crate::record::Record;
use crate::register::{Entry, Image, Job, Row, Verdict};
use crate::stamp::Stamp;
use crate::words::{hex, printed};
use std::fmt::{self, Display, Formatter, Write};

struct OrNone<T>(Option<T>);

impl<T: Display> Display for OrNone<T> {
    fn fmt(&self, f: &mut Formatter<'_>) -> fmt::Result {
        match &self.0 {
            Some(x) => x.fmt(f),
            None => f.write_str("none"),
        }
    }
}

impl<S: Display> Display for Verdict<S> {
    fn fmt(&self, f: &mut Formatter<'_>) -> fmt::Result {
        match self {
            Verdict::Accepted(stamp) => write!(f, "accepted {stamp}"),
            Verdict::Overtaken => f.write_str("overtaken"),
            Verdict::Gone => f.write_str("gone"),
            Verdict::NoPlace => f.write_str("no place"),
        }
    }
}

impl<S: Stamp, R: Record> Desk<S, R> {
    pub(crate) fn show_row(out: &mut String, record: &str, row: &Row<S, R>) {
        let _ = write!(
            out,
            "row {record}: {} read {} versions",
            row.value, row.read
        );
        for version in row.versions.list() {
            let _ = write!(out, " {version}");
        }
        let _ = writeln!(out, " first {}", OrNone(row.first));
    }

    pub(crate) fn show_job(out: &mut String, name: &str, job: &Job<S, R>) {
        let state = if job.live { "live" } else { "shut" };
        let _ = writeln!(
            out,
            "job {name}: image {} {state} lower {} upper {}",
            job.image,
            job.lower,
            OrNone(job.upper)
        );
        for (
            i,
            Entry {
                record,
                noted,
                saw,
                wrote,
                seen,
                put,
                open,
            },
        ) in job.sheet.iter().enumerate()
        {
            let _ = write!(
                out,
                "  entry {i}: record {record} noted {noted} seen {saw} put {wrote}"
            );
            for (flag, word) in [(seen, "seen"), (put, "put"), (open, "open")] {
                if *flag {
                    let _ = write!(out, " {word}");
                }
            }
            out.push('\n');
        }
    }

    pub(crate) fn show_journal(&self, out: &mut String) {
        let jobs = self.registrar.journal();
        let _ = writeln!(out, "journal: {} jobs", jobs.len());
        for (head, entries) in jobs {
            let _ = write!(out, "  {} ticket {} looks", head.stamp, head.ticket);
            for entry in entries.iter().filter(|entry| entry.seen) {
                let _ = write!(out, " {}@{}={}", entry.record, entry.noted, entry.saw);
            }
            out.push_str(" puts");
            for entry in entries.iter().filter(|entry| entry.put) {
                let _ = write!(out, " {}={}", entry.record, entry.wrote);
            }
            out.push('\n');
        }
    }

    pub(crate) fn show_image(out: &mut String, image: &Image<S, R>) {
        let _ = writeln!(
            out,
            "image {}: {} records, {} outcomes",
            image.number,
            image.rows.len(),
            image.outcomes.len()
        );
        for (i, row) in image.rows.iter().enumerate() {
            let _ = writeln!(
                out,
                "  {i}: {} write {} read {} first {}",
                row.value,
                row.write,
                row.read,
                OrNone(row.first)
            );
        }
        for outcome in &image.outcomes {
            let _ = writeln!(
                out,
                "  outcome: ticket {} {}",
                outcome.ticket, outcome.verdict
            );
        }
    }

    pub(crate) fn show_archive(&self, out: &mut String) {
        let bytes = archive::write(&self.registrar);
        let _ = writeln!(out, "archive: {} bytes", bytes.len());
        for line in bytes.chunks(32) {
            let _ = writeln!(out, "  {}", hex(line));
        }
    }

    pub(crate) fn show_inspected(&self, out: &mut String) {
        let _ = match archive::inspect::<S, R>(&archive::write(&self.registrar)) {
            Ok(jobs) => writeln!(out, "inspect: sound {jobs}"),
            Err(fault) => writeln!(
                out,
                "inspect: fault {} {}",
                fault.number,
                fault.place.unwrap_or(0)
            ),
        };
    }

    pub(crate) fn show_played(&self, out: &mut String, word: &[u8]) -> Result<(), Reason> {
        let jobs = place(numbered(word)?);
        let mut values = self.registrar.opening.clone();
        let _ = match archive::play::<S, R>(&archive::write(&self.registrar), jobs, &mut values) {
            Ok(()) => {
                let _ = writeln!(out, "play {}: {} values", printed(word), values.len());
                values
                    .iter()
                    .enumerate()
                    .try_for_each(|(i, value)| writeln!(out, "  {i}: {value}"))
            }
            Err(fault) => writeln!(out, "play {}: refused {}", printed(word), fault.number),
        };
        Ok(())
    }
}
