//! A job at its station, with its sheet.
use crate::register::{Image, Refused};
use crate::stamp::{earlier, Stamp};

const SHEET: usize = 16;

#[derive(Clone, Copy)]
pub struct Entry<S, R> {
    pub record: usize,
    pub noted: S,
    pub saw: R,
    pub wrote: R,
    pub seen: bool,
    pub put: bool,
    pub open: bool,
}

#[derive(Clone)]
pub struct Job<S, R> {
    pub image: u32,
    pub lower: S,
    pub upper: Option<S>,
    pub live: bool,
    pub sheet: Vec<Entry<S, R>>,
}

impl<S: Stamp, R: Copy> Job<S, R> {
    pub fn open(image: &Image<S, R>) -> Result<Job<S, R>, Refused> {
        if image.number == 0 {
            return Err(3);
        }
        Ok(Job {
            image: image.number,
            lower: S::LEAST,
            upper: None,
            live: true,
            sheet: Vec::with_capacity(SHEET),
        })
    }

    fn admit(&self, image: &Image<S, R>, record: usize) -> Result<(), Refused> {
        if !self.live {
            return Err(2);
        }
        if image.number != self.image {
            return Err(3);
        }
        if record >= image.rows.len() {
            return Err(5);
        }
        Ok(())
    }

    fn entry(&self, record: usize) -> Option<usize> {
        self.sheet.iter().position(|entry| entry.record == record)
    }

    pub fn look(&mut self, image: &Image<S, R>, record: usize) -> Result<R, Refused> {
        self.admit(image, record)?;
        if let Some(place) = self.entry(record) {
            let entry = self.sheet[place];
            return Ok(if entry.put { entry.wrote } else { entry.saw });
        }
        if self.sheet.len() >= SHEET {
            return Err(6);
        }
        let row = image.rows[record];
        let lower = self.lower.later(row.write);
        lower.pick(self.upper).ok_or(7u8)?;
        self.lower = lower;
        self.sheet.push(Entry {
            record,
            noted: row.write,
            saw: row.value,
            wrote: row.value,
            seen: true,
            put: false,
            open: true,
        });
        Ok(row.value)
    }

    pub fn put(&mut self, image: &Image<S, R>, record: usize, value: R) -> Result<(), Refused> {
        self.admit(image, record)?;
        let place = self.entry(record);
        if let Some(place) = place {
            if self.sheet[place].put {
                self.sheet[place].wrote = value;
                return Ok(());
            }
        } else if self.sheet.len() >= SHEET {
            return Err(6);
        }
        let row = image.rows[record];
        let lower = self.lower.later(row.write).later(row.read);
        lower.pick(self.upper).ok_or(7u8)?;
        self.lower = lower;
        match place {
            Some(place) => {
                let entry = &mut self.sheet[place];
                entry.wrote = value;
                entry.put = true;
            }
            None => self.sheet.push(Entry {
                record,
                noted: row.write,
                saw: value,
                wrote: value,
                seen: false,
                put: true,
                open: false,
            }),
        }
        Ok(())
    }

    /// Whether an entry's record is none of so many.
    pub fn is_beyond(&self, records: usize) -> bool {
        self.sheet.iter().any(|entry| entry.record >= records)
    }

    /// Whether the job is live at the next image.
    pub fn tune(&mut self, image: &Image<S, R>) -> Result<bool, Refused> {
        if !self.live {
            return Err(2);
        }
        if self.image.checked_add(1) != Some(image.number) {
            return Err(4);
        }
        if self.is_beyond(image.rows.len()) {
            return Err(5);
        }
        let first = |entry: &Entry<S, R>| image.rows[entry.record].first;
        if self
            .sheet
            .iter()
            .any(|entry| entry.put && first(entry).is_some())
        {
            self.live = false;
            return Ok(false);
        }
        let (mut lower, mut upper) = (self.lower, self.upper);
        for entry in &self.sheet {
            if entry.open {
                if let Some(first) = first(entry) {
                    upper = Some(earlier(upper, first));
                }
            }
            if entry.put {
                lower = lower.later(image.rows[entry.record].read);
            }
        }
        if lower.pick(upper).is_none() {
            self.live = false;
            return Ok(false);
        }
        for entry in &mut self.sheet {
            if entry.open && image.rows[entry.record].first.is_some() {
                entry.open = false;
            }
        }
        self.lower = lower;
        self.upper = upper;
        self.image = image.number;
        Ok(true)
    }
}
