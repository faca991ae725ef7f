//! One workload, so many rounds of it, for a clock outside: measure WORKLOAD ROUNDS. It prints a number that depends on
//! all that was done. `inspect` and `play` read an archive of whole stamps and cards from standard input.
use std::error::Error;
use std::io::{self, Read};
use twin::archive::{inspect, play};
use twin::record::{Card, Unit};
use twin::register::{Image, Job, Refused, Registrar, Verdict};
use twin::stamp::Whole;

type Register = Registrar<Whole, Card>;

const PLACES: usize = 4096;

fn card(revision: u32) -> Card {
    Card {
        revision,
        unit: Unit::Millimetre,
        mass: 250,
    }
}

fn founded(records: u32) -> Result<Register, Refused> {
    Registrar::found((0..records).map(card).collect(), PLACES)
}

/// Submits a job and decides it; the stamp, or 0.
fn decided(register: &mut Register, job: &Job<Whole, Card>) -> Result<u64, Refused> {
    register.submit(job)?;
    Ok(match register.decide()?.verdict {
        Verdict::Accepted(Whole(stamp)) => stamp,
        _ => 0,
    })
}

/// A job that looks at record 0 and puts it.
fn look_and_put(
    register: &mut Register,
    image: &Image<Whole, Card>,
    i: u32,
) -> Result<u64, Refused> {
    let mut job = Job::open(image)?;
    job.look(image, 0)?;
    job.put(image, 0, card(i))?;
    decided(register, &job)
}

/// A journal that fills in order: each job at the latest image.
fn fill(jobs: u32) -> Result<u64, Refused> {
    let mut register = founded(2)?;
    let mut sum = 0u64;
    for i in 0..jobs {
        let image = register.publish()?;
        sum = sum.wrapping_add(look_and_put(&mut register, &image, i)?);
    }
    Ok(sum)
}

/// Half the journal at later stamps, and then jobs that all stand before them.
fn shift() -> Result<u64, Refused> {
    let mut register = founded(2)?;
    let mut sum = 0u64;
    for i in 0..PLACES as u32 / 2 {
        let image = register.publish()?;
        sum = sum.wrapping_add(look_and_put(&mut register, &image, i)?);
    }
    let mut image = register.publish()?;
    for i in 0..PLACES as u32 / 2 {
        if i % 32 == 31 {
            image = register.publish()?;
        }
        let mut job = Job::open(&image)?;
        job.look(&image, 1)?;
        sum = sum.wrapping_add(decided(&mut register, &job)?);
    }
    Ok(sum)
}

/// Images of 1,024 records.
fn publish(rounds: u32) -> Result<u64, Refused> {
    let mut register = founded(1024)?;
    let mut sum = 0;
    for _ in 0..rounds {
        sum += u64::from(register.publish()?.number);
    }
    Ok(sum)
}

/// A full sheet tuned to image after image of 16 records; without tuning, the images alone.
fn tune(rounds: u32, tuned: bool) -> Result<u64, Refused> {
    let mut register = founded(16)?;
    let image = register.publish()?;
    let mut job = Job::open(&image)?;
    for record in 0..16 {
        job.look(&image, record)?;
    }
    let mut sum = 0;
    for _ in 0..rounds {
        let image = register.publish()?;
        if tuned {
            sum += u64::from(job.tune(&image)?);
        }
    }
    Ok(sum)
}

fn read() -> io::Result<Vec<u8>> {
    let mut bytes = Vec::new();
    io::stdin().lock().read_to_end(&mut bytes)?;
    Ok(bytes)
}

fn main() -> Result<(), Box<dyn Error>> {
    let arguments: Vec<String> = std::env::args().collect();
    let [_, workload, rounds] = &arguments[..] else {
        return Err("expected a workload and a number of rounds".into());
    };
    let rounds: u32 = rounds.parse()?;
    let refused = |number: Refused| format!("refused {number}");
    let mut sum = 0u64;
    match workload.as_str() {
        "fill" => {
            for _ in 0..rounds {
                sum = sum.wrapping_add(fill(PLACES as u32).map_err(refused)?);
            }
        }
        "shift" => {
            for _ in 0..rounds {
                sum = sum.wrapping_add(shift().map_err(refused)?);
            }
        }
        "publish" => sum = publish(rounds).map_err(refused)?,
        "tune" => sum = tune(rounds, true).map_err(refused)?,
        "untuned" => sum = tune(rounds, false).map_err(refused)?,
        "inspect" => {
            let bytes = read()?;
            for _ in 0..rounds {
                sum += inspect::<Whole, Card>(&bytes).map_or(0, |jobs| jobs as u64);
            }
        }
        "play" => {
            let bytes = read()?;
            let records = usize::from(u16::from_be_bytes([bytes[6], bytes[7]]));
            let jobs = u32::from_be_bytes([bytes[8], bytes[9], bytes[10], bytes[11]]) as usize;
            let mut values = vec![card(0); records];
            for _ in 0..rounds {
                play::<Whole, Card>(&bytes, jobs, &mut values)
                    .map_err(|fault| refused(fault.number))?;
                sum += u64::from(values[0].revision);
            }
        }
        _ => return Err("expected fill, shift, publish, tune, untuned, inspect or play".into()),
    }
    println!("{sum}");
    Ok(())
}
