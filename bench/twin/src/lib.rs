//! A second implementation of the register, its archive and the schedule program, in plain Rust, written from the
//! pages in `docs/` alone. It is there to be compared with, and nothing of it is proved or delivered.
#![forbid(unsafe_code)]

pub mod archive;
pub mod desk;
pub mod job;
pub mod record;
pub mod register;
pub mod run;
mod show;
pub mod stamp;
pub mod words;
