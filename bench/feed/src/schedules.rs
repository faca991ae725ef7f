//! Schedules by chance: many stations, few records, old images, refused calls, and now and then a line that is no call.
use crate::chance::Chance;
use std::fmt::Write;
use twin::run::Session;

/// A schedule as it grows, and what the twin made of it so far.
struct Growing {
    text: String,
    session: Session,
    chance: Chance,
    pages: bool,
    items: bool,
    records: usize,
    images: usize,
    /// Each name that stands, and whether it stands for a job.
    names: Vec<(String, bool)>,
    made: usize,
}

impl Growing {
    /// Adds a line, and answers what the twin printed for it.
    fn add(&mut self, line: String) -> String {
        let before = self.session.printout.len();
        let ended = self.session.line(line.as_bytes()).is_err();
        let _ = writeln!(self.text, "{line}");
        let printed = self.session.printout[before..].to_string();
        if ended {
            "ended".to_string()
        } else {
            printed
        }
    }

    fn value(&mut self) -> String {
        let c = &mut self.chance;
        if self.items {
            match c.below(3) {
                0 => "withdrawn".to_string(),
                1 => format!("solid:{}", c.below(1000)),
                _ => format!("sub:{}:{}", c.below(70), 1 + c.below(9)),
            }
        } else {
            let unit = *c.one_of(&["mm", "cm", "m", "inch"]);
            format!("{}:{unit}:{}", c.below(100), c.below(5000))
        }
    }

    fn record(&mut self) -> usize {
        if self.chance.once_in(60) {
            self.records + self.chance.below(2)
        } else {
            self.chance.below(self.records)
        }
    }

    /// An image that was published, mostly a late one.
    fn image(&mut self) -> usize {
        if self.chance.once_in(80) || self.images == 0 {
            0
        } else if self.chance.once_in(3) {
            1 + self.chance.below(self.images)
        } else {
            self.images
        }
    }

    fn of_sort(&mut self, job: bool) -> Option<usize> {
        let places: Vec<usize> = (0..self.names.len())
            .filter(|i| self.names[*i].1 == job)
            .collect();
        (!places.is_empty()).then(|| *self.chance.one_of(&places))
    }

    fn open(&mut self) {
        let (name, image) = (format!("J{}", self.made), self.image());
        self.made += 1;
        let printed = self.add(format!("open {name} {image}"));
        if printed.ends_with("live\n") {
            self.names.push((name, true));
        }
    }

    fn on_job(&mut self) {
        let Some(i) = self.of_sort(true) else {
            return self.open();
        };
        let name = self.names[i].0.clone();
        let at = if self.chance.once_in(40) {
            format!(" at {}", self.image())
        } else {
            String::new()
        };
        match self.chance.below(20) {
            0..=6 => {
                let record = self.record();
                self.add(format!("look {name} {record}{at}"));
            }
            7..=12 => {
                let (record, value) = (self.record(), self.value());
                self.add(format!("put {name} {record} {value}{at}"));
            }
            13..=14 => {
                let image = self.image();
                self.add(format!("tune {name} {image}"));
            }
            15 => {
                self.add(format!("job {name}"));
            }
            16 if self.chance.once_in(3) => {
                self.add(format!("drop {name}"));
                self.names.remove(i);
            }
            _ => {
                let printed = self.add(format!("submit {name}"));
                if !printed.contains("refused") {
                    self.names[i].1 = false;
                }
            }
        }
    }

    fn on_ticket(&mut self) {
        let Some(i) = self.of_sort(false) else {
            return self.open();
        };
        let name = self.names[i].0.clone();
        if self.chance.once_in(10) {
            self.add(format!("waive {name}"));
            self.names.remove(i);
            return;
        }
        let image = self.image();
        let printed = self.add(format!("settle {name} {image}"));
        if !printed.contains("refused") {
            self.names.remove(i);
        }
    }

    fn show(&mut self) {
        let line = match self.chance.below(7) {
            0 => format!("row {}", self.chance.below(self.records)),
            1 => "journal".to_string(),
            2 => format!("image {}", self.image()),
            3 => "archive".to_string(),
            4 => "inspect".to_string(),
            5 => format!("play {}", self.chance.below(12)),
            _ => "publish".to_string(),
        };
        let printed = self.add(line);
        if printed.starts_with("publish: image") {
            self.images += 1;
        }
    }

    fn step(&mut self) {
        match self.chance.below(24) {
            0..=2 => self.open(),
            3..=13 => self.on_job(),
            14..=17 => {
                self.add("decide".to_string());
            }
            18..=19 => {
                if self
                    .add("publish".to_string())
                    .starts_with("publish: image")
                {
                    self.images += 1;
                }
            }
            20..=21 => self.on_ticket(),
            _ => self.show(),
        }
    }
}

const NO_CALLS: [&str; 10] = [
    "look Nobody 0",
    "found whole card 8 1:mm:1",
    "open J0 99999",
    "put J0 0 sub:1:0",
    "row 99999",
    "hello",
    "tune",
    "submit J0 J1",
    "decide now",
    "settle J0",
];

/// A schedule of so many steps.
pub fn schedule(seed: u64, steps: usize) -> String {
    let mut chance = Chance::new(seed);
    let (pages, items) = (chance.once_in(2), chance.once_in(2));
    let records = if chance.once_in(20) {
        1 + chance.below(60)
    } else {
        1 + chance.below(6)
    };
    let places = if chance.once_in(8) {
        1 + chance.below(6)
    } else {
        1 + chance.below(200)
    };
    let mut growing = Growing {
        text: String::new(),
        session: Session::new(),
        chance,
        pages,
        items,
        records,
        images: 0,
        names: Vec::new(),
        made: 0,
    };
    let mut founding = format!(
        "found {} {} {places}",
        if growing.pages { "page" } else { "whole" },
        if growing.items { "item" } else { "card" }
    );
    for _ in 0..records {
        let _ = write!(founding, " {}", growing.value());
    }
    growing.add(founding);
    growing.add("publish".to_string());
    growing.images = 1;
    for _ in 0..steps {
        growing.step();
    }
    if growing.chance.once_in(10) {
        let line = growing.chance.one_of(&NO_CALLS).to_string();
        growing.add(line);
        growing.step();
    }
    for line in ["journal", "archive", "inspect", "play 1"] {
        growing.add(line.to_string());
    }
    growing.text
}
