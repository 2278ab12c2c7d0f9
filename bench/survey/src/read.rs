//! The bytes of all files, up to the limit of a file.

use std::ffi::{OsStr, OsString};
use std::fs::File;
use std::io::{ErrorKind, Read};

/// The most bytes of a file.
const BYTE_LIMIT: u64 = 16_777_216;

/// Why the file of this number, from 1, is not read.
pub enum Refusal {
    Absent(usize),
    Failed(usize),
    TooBig(usize),
}

impl Refusal {
    pub fn line(&self) -> String {
        match self {
            Refusal::Absent(number) => format!("read {number} absent\n"),
            Refusal::Failed(number) => format!("read {number} failed\n"),
            Refusal::TooBig(number) => format!("read {number} too-big\n"),
        }
    }

    pub fn status(&self) -> u8 {
        match self {
            Refusal::Absent(_) | Refusal::Failed(_) => 5,
            Refusal::TooBig(_) => 11,
        }
    }
}

fn read(name: &OsStr, number: usize) -> Result<Vec<u8>, Refusal> {
    let mut file = File::open(name).map_err(|error| match error.kind() {
        ErrorKind::NotFound => Refusal::Absent(number),
        _ => Refusal::Failed(number),
    })?;
    let size = file.metadata().map_or(0, |about| about.len().min(BYTE_LIMIT));
    let mut bytes = Vec::with_capacity(size as usize + 1);
    file.by_ref().take(BYTE_LIMIT + 1).read_to_end(&mut bytes).map_err(|_| Refusal::Failed(number))?;
    if bytes.len() as u64 > BYTE_LIMIT {
        return Err(Refusal::TooBig(number));
    }
    Ok(bytes)
}

pub fn read_all(names: &[OsString]) -> Result<Vec<Vec<u8>>, Refusal> {
    names.iter().enumerate().map(|(place, name)| read(name, place + 1)).collect()
}
