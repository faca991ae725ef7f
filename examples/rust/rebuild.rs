//! Rebuilds the assembly at a place of an archive: the C example again, in plain Rust over the same library.
//!
//!     rebuild M < archive

use archive_c::{Answer, Kinds};
use std::io::{Read, Write};
use std::process::ExitCode;

/// The library's functions, as include/bozhirka.h declares them. Only this module is unsafe.
mod archive_c {
    use std::ffi::c_uchar;

    /// The most bytes of an archive that is accepted.
    pub const LONGEST: u64 = 2_469_908;

    #[repr(C)]
    #[derive(Clone, Copy)]
    pub struct Answer {
        pub number: c_uchar,
        pub place: usize,
    }

    #[repr(C)]
    pub struct Inspected {
        answer: Answer,
        jobs: usize,
    }

    #[repr(C)]
    pub struct Kinds {
        answer: Answer,
        pub stamp_kind: u8,
        pub record_kind: u8,
        pub records: usize,
        pub jobs: usize,
    }

    #[repr(C)]
    pub struct Job {
        answer: Answer,
        pub stamp: [u8; 8],
        pub ticket: u32,
        pub looks: usize,
        pub puts: usize,
    }

    #[repr(C)]
    pub struct Look {
        answer: Answer,
        pub number: usize,
        pub stamp: [u8; 8],
        pub value: [u8; 12],
    }

    #[repr(C)]
    pub struct Put {
        answer: Answer,
        pub number: usize,
        pub value: [u8; 12],
    }

    extern "C" {
        fn bozhirka_inspect(bytes: *const u8, length: usize) -> Inspected;
        fn bozhirka_read_sizes(bytes: *const u8, length: usize) -> Kinds;
        fn bozhirka_play(
            bytes: *const u8,
            length: usize,
            jobs: usize,
            space: *mut u8,
            space_length: usize,
        ) -> Answer;
        fn bozhirka_read_job(bytes: *const u8, length: usize, k: usize) -> Job;
        fn bozhirka_read_look(bytes: *const u8, length: usize, k: usize, i: usize) -> Look;
        fn bozhirka_read_put(bytes: *const u8, length: usize, k: usize, i: usize) -> Put;
    }

    fn answered<T>(answer: Answer, told: T) -> Result<T, Answer> {
        if answer.number == 0 {
            Ok(told)
        } else {
            Err(answer)
        }
    }

    // A slice's pointer is never null, and points to so many bytes; a `&mut` slice overlaps no other. That is all
    // that the library asks of its caller.

    pub fn inspect(bytes: &[u8]) -> Result<usize, Answer> {
        let told = unsafe { bozhirka_inspect(bytes.as_ptr(), bytes.len()) };
        answered(told.answer, told.jobs)
    }

    pub fn sizes(bytes: &[u8]) -> Result<Kinds, Answer> {
        let told = unsafe { bozhirka_read_sizes(bytes.as_ptr(), bytes.len()) };
        answered(told.answer, told)
    }

    pub fn play(bytes: &[u8], jobs: usize, space: &mut [u8]) -> Result<(), Answer> {
        let answer = unsafe {
            bozhirka_play(
                bytes.as_ptr(),
                bytes.len(),
                jobs,
                space.as_mut_ptr(),
                space.len(),
            )
        };
        answered(answer, ())
    }

    pub fn job(bytes: &[u8], k: usize) -> Result<Job, Answer> {
        let told = unsafe { bozhirka_read_job(bytes.as_ptr(), bytes.len(), k) };
        answered(told.answer, told)
    }

    pub fn look(bytes: &[u8], k: usize, i: usize) -> Result<Look, Answer> {
        let told = unsafe { bozhirka_read_look(bytes.as_ptr(), bytes.len(), k, i) };
        answered(told.answer, told)
    }

    pub fn put(bytes: &[u8], k: usize, i: usize) -> Result<Put, Answer> {
        let told = unsafe { bozhirka_read_put(bytes.as_ptr(), bytes.len(), k, i) };
        answered(told.answer, told)
    }
}

/// The number in the bytes of a form, high byte first.
fn number(form: &[u8]) -> u64 {
    form.iter().fold(0, |n, byte| n << 8 | u64::from(*byte))
}

fn stamp_text(kind: u8, form: &[u8; 8]) -> String {
    match kind {
        1 => number(form).to_string(),
        _ => format!("{}/{}", number(&form[..4]), number(&form[4..])),
    }
}

fn value_text(kind: u8, form: &[u8]) -> String {
    match (kind, form[0]) {
        (1, _) => {
            let unit = ["mm", "cm", "m", "inch"][usize::from(form[4])];
            format!("{}:{unit}:{}", number(&form[..4]), number(&form[8..]))
        }
        (_, 0) => "withdrawn".to_string(),
        (_, 1) => format!("solid:{}", number(&form[4..8])),
        _ => format!("sub:{}:{}", number(&form[4..6]), number(&form[6..8])),
    }
}

/// A job in a line, as a schedule's `journal` shows it.
fn job_text(bytes: &[u8], kinds: &Kinds, k: usize) -> Result<String, Answer> {
    let job = archive_c::job(bytes, k)?;
    let mut text = format!(
        "{} ticket {} looks",
        stamp_text(kinds.stamp_kind, &job.stamp),
        job.ticket
    );
    for i in 0..job.looks {
        let look = archive_c::look(bytes, k, i)?;
        let stamp = stamp_text(kinds.stamp_kind, &look.stamp);
        text += &format!(
            " {}@{stamp}={}",
            look.number,
            value_text(kinds.record_kind, &look.value)
        );
    }
    text += " puts";
    for i in 0..job.puts {
        let put = archive_c::put(bytes, k, i)?;
        text += &format!(
            " {}={}",
            put.number,
            value_text(kinds.record_kind, &put.value)
        );
    }
    Ok(text)
}

/// The lines that tell what stands after the first jobs, so many of them.
fn rebuilt(bytes: &[u8], jobs: usize) -> Result<String, Answer> {
    archive_c::inspect(bytes)?;
    let kinds = archive_c::sizes(bytes)?;
    let mut forms = vec![0; 12 * kinds.records];
    archive_c::play(bytes, jobs, &mut forms)?;
    let mut text = format!(
        "stamp kind {}, record kind {}, {} records, {jobs} of {} jobs\n",
        kinds.stamp_kind, kinds.record_kind, kinds.records, kinds.jobs
    );
    for k in 0..jobs {
        text += &format!("{}\n", job_text(bytes, &kinds, k)?);
    }
    for (x, form) in forms.chunks(12).enumerate() {
        text += &format!("{x}: {}\n", value_text(kinds.record_kind, form));
    }
    Ok(text)
}

fn main() -> ExitCode {
    let Some(jobs) = std::env::args().nth(1).and_then(|m| m.parse().ok()) else {
        eprintln!("usage: rebuild M < archive");
        return ExitCode::from(2);
    };
    let mut bytes = Vec::new();
    // one byte more than an archive may have, so that a longer one is seen to be too long
    if let Err(why) = std::io::stdin()
        .take(archive_c::LONGEST + 1)
        .read_to_end(&mut bytes)
    {
        eprintln!("rebuild: {why}");
        return ExitCode::from(2);
    }
    let (text, status) = match rebuilt(&bytes, jobs) {
        Ok(text) => (text, ExitCode::SUCCESS),
        Err(Answer { number: 18, .. }) => ("refused 18\n".to_string(), ExitCode::FAILURE),
        Err(answer) => (
            format!("refused {} at {}\n", answer.number, answer.place),
            ExitCode::FAILURE,
        ),
    };
    match std::io::stdout().write_all(text.as_bytes()) {
        Ok(()) => status,
        Err(_) => ExitCode::from(2),
    }
}
