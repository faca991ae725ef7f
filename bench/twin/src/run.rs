//! A schedule from its text to its printout.
use crate::desk::{wrong, Desk, Drive, Reason};
use crate::record::{Card, Item, Record};
use crate::stamp::{Stamp, VolumePage, Whole};
use crate::words::{hex, number, unhex};
use std::fmt::Write;

/// The register of a schedule, so far.
enum Register {
    NotFounded,
    Refused,
    Founded(Box<dyn Drive>),
}

fn stamp<S: Stamp>(word: &[u8]) -> Result<S, Reason> {
    S::parse(word).ok_or_else(|| "expected a stamp of this kind".to_string())
}

fn pick<S: Stamp>(lower: &[u8], upper: &[u8]) -> Result<String, Reason> {
    let lower: S = stamp(lower)?;
    let upper = if upper == b"none" {
        None
    } else {
        Some(stamp(upper)?)
    };
    Ok(lower
        .pick(upper)
        .map_or("none".to_string(), |stamp| stamp.to_string()))
}

fn stamp_form<S: Stamp>(word: &[u8]) -> Result<String, Reason> {
    stamp(word).map(|stamp: S| hex(&stamp.to_bytes()))
}

fn value_form<R: Record>(word: &[u8]) -> Result<String, Reason> {
    let value = R::parse(word).ok_or("expected a value of this kind")?;
    Ok(hex(&value.to_bytes()))
}

fn read_stamp<S: Stamp>(word: &[u8]) -> Result<String, Reason> {
    let bytes = unhex(word).ok_or("expected 16 hexadecimal digits in lower case")?;
    Ok(S::from_bytes(bytes).map_or("wrong".to_string(), |stamp| stamp.to_string()))
}

fn read_value<R: Record>(word: &[u8]) -> Result<String, Reason> {
    let bytes = unhex(word).ok_or("expected 24 hexadecimal digits in lower case")?;
    Ok(R::from_bytes(bytes).map_or("wrong".to_string(), |value| value.to_string()))
}

/// The answer of a command on kinds, if it is one.
fn on_kinds(words: &[&[u8]]) -> Option<Result<String, Reason>> {
    Some(match *words {
        [b"pick", b"whole", lower, upper] => pick::<Whole>(lower, upper),
        [b"pick", b"page", lower, upper] => pick::<VolumePage>(lower, upper),
        [b"form", b"whole", stamp] => stamp_form::<Whole>(stamp),
        [b"form", b"page", stamp] => stamp_form::<VolumePage>(stamp),
        [b"form", b"card", value] => value_form::<Card>(value),
        [b"form", b"item", value] => value_form::<Item>(value),
        [b"read", b"whole", digits] => read_stamp::<Whole>(digits),
        [b"read", b"page", digits] => read_stamp::<VolumePage>(digits),
        [b"read", b"card", digits] => read_value::<Card>(digits),
        [b"read", b"item", digits] => read_value::<Item>(digits),
        [b"pick" | b"form" | b"read", ..] => wrong("expected another form of this command"),
        _ => return None,
    })
}

fn founded<S: Stamp + 'static, R: Record + 'static>(
    places: u64,
    values: &[&[u8]],
    out: &mut String,
) -> Result<Register, Reason> {
    Ok(match Desk::<S, R>::found(values, places)? {
        Ok(desk) => {
            let _ = writeln!(out, "found: {} records", values.len());
            Register::Founded(Box::new(desk))
        }
        Err(refused) => {
            let _ = writeln!(out, "found: refused {refused}");
            Register::Refused
        }
    })
}

fn found(words: &[&[u8]], out: &mut String) -> Result<Register, Reason> {
    let [stamps, records, places, values @ ..] = words else {
        return wrong("expected found");
    };
    let places = number(places).ok_or("expected a number")?;
    match (*stamps, *records) {
        (b"whole", b"card") => founded::<Whole, Card>(places, values, out),
        (b"whole", b"item") => founded::<Whole, Item>(places, values, out),
        (b"page", b"card") => founded::<VolumePage, Card>(places, values, out),
        (b"page", b"item") => founded::<VolumePage, Item>(places, values, out),
        _ => wrong("expected a stamp kind and a record kind"),
    }
}

/// A schedule under way: its register, and what it has printed.
pub struct Session {
    register: Register,
    pub printout: String,
}

impl Session {
    pub fn new() -> Session {
        Session {
            register: Register::NotFounded,
            printout: String::new(),
        }
    }

    /// Carries out a line; or why it is no call.
    pub fn line(&mut self, text: &[u8]) -> Result<(), Reason> {
        let words: Vec<&[u8]> = text
            .split(|b| *b == b' ')
            .filter(|word| !word.is_empty())
            .collect();
        match words.first() {
            None => return Ok(()),
            Some(word) if word[0] == b'#' => return Ok(()),
            Some(_) => (),
        }
        let out = &mut self.printout;
        if let Some(answer) = on_kinds(&words) {
            let answer = answer?;
            for (i, word) in words.iter().enumerate() {
                let space = if i == 0 { "" } else { " " };
                let _ = write!(out, "{space}{}", String::from_utf8_lossy(word));
            }
            let _ = writeln!(out, ": {answer}");
            return Ok(());
        }
        match &mut self.register {
            Register::Founded(desk) => desk.carry_out(&words, out),
            Register::Refused => wrong("found was refused, so there is no register"),
            Register::NotFounded if words[0] == b"found" => {
                self.register = found(&words[1..], out)?;
                Ok(())
            }
            Register::NotFounded => wrong("expected found first"),
        }
    }

    /// The last line.
    pub fn close(&mut self) {
        match &self.register {
            Register::Founded(desk) => desk.close(&mut self.printout),
            Register::Refused => self
                .printout
                .push_str("run: 1 calls, 1 refused, 0 jobs in the journal\n"),
            Register::NotFounded => (),
        }
    }
}

impl Default for Session {
    fn default() -> Session {
        Session::new()
    }
}

/// The printout of a schedule, and whether it ran to its end.
pub fn run(input: &[u8]) -> (String, bool) {
    if input.is_empty() {
        return (
            "A schedule has one command to a line; docs/SCHEDULE.md lists them.\n".to_string(),
            true,
        );
    }
    let mut session = Session::new();
    for (i, text) in input.split(|b| *b == b'\n').enumerate() {
        if let Err(reason) = session.line(text) {
            let _ = writeln!(session.printout, "line {}: {reason}", i + 1);
            return (session.printout, false);
        }
    }
    session.close();
    (session.printout, true)
}
