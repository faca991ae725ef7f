//! Feeds one input to two programs, and reports where they answer otherwise.
//! feed schedules COUNT SEED OURS TWIN, feed archives COUNT SEED OURS TWIN, or feed one SEED STEPS, which
//! prints a schedule.
#![forbid(unsafe_code)]

mod archives;
mod chance;
mod schedules;

use archives::Archives;
use chance::Chance;
use schedules::schedule;
use std::error::Error;
use std::io::Write;
use std::process::{Command, ExitCode, Stdio};

/// What a program printed, and its exit status. The reason behind `line K: ` is for the reader, and is left out.
fn printout(program: &str, input: &[u8]) -> Result<(String, Option<i32>), Box<dyn Error>> {
    let mut child = Command::new(program)
        .stdin(Stdio::piped())
        .stdout(Stdio::piped())
        .spawn()?;
    let mut stdin = child.stdin.take().ok_or("no input")?;
    let input = input.to_vec();
    let writer = std::thread::spawn(move || stdin.write_all(&input));
    let output = child.wait_with_output()?;
    // a program that reads no further than it has to may close its input
    let _ = writer.join();
    let text = String::from_utf8_lossy(&output.stdout);
    let lines = text.lines().map(|line| {
        match line
            .strip_prefix("line ")
            .and_then(|rest| rest.split_once(": "))
        {
            Some((number, _)) => format!("line {number}:\n"),
            None => format!("{line}\n"),
        }
    });
    Ok((lines.collect(), output.status.code()))
}

fn compare(
    count: u64,
    ours: &str,
    twin: &str,
    mut next: impl FnMut(u64) -> Vec<u8>,
) -> Result<u64, Box<dyn Error>> {
    let mut differ = 0;
    for i in 0..count {
        let input = next(i);
        if printout(ours, &input)? != printout(twin, &input)? {
            differ += 1;
            let file = std::env::temp_dir().join(format!("differs-{i}"));
            std::fs::write(&file, &input)?;
            println!("input {i} differs; it lies in {}", file.display());
        }
    }
    println!("{count} inputs, {differ} differ");
    Ok(differ)
}

fn main() -> Result<ExitCode, Box<dyn Error>> {
    let arguments: Vec<String> = std::env::args().collect();
    let words: Vec<&str> = arguments.iter().skip(1).map(String::as_str).collect();
    let differ = match words[..] {
        ["schedules", count, seed, ours, twin] => {
            let seed: u64 = seed.parse()?;
            let mut chance = Chance::new(seed);
            compare(count.parse()?, ours, twin, |i| schedule(seed * 1_000_000 + i, 20 + chance.below(400)).into_bytes())?
        }
        ["archives", count, seed, ours, twin] => {
            let mut archives = Archives::new(seed.parse()?);
            compare(count.parse()?, ours, twin, |_| archives.next())?
        }
        ["one", seed, steps] => {
            print!("{}", schedule(seed.parse()?, steps.parse()?));
            0
        }
        _ => return Err("expected: schedules COUNT SEED OURS TWIN, archives COUNT SEED OURS TWIN, or one SEED STEPS".into()),
    };
    Ok(if differ == 0 {
        ExitCode::SUCCESS
    } else {
        ExitCode::FAILURE
    })
}
