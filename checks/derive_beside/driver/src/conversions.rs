//! How types of `converted` are converted.

use crate::converted::{Percent, Reader, Urgency};

impl From<u8> for Urgency {
    fn from(number: u8) -> Urgency {
        match number {
            0 => Urgency::Low,
            1 => Urgency::Usual,
            _ => Urgency::High,
        }
    }
}

impl From<Urgency> for u8 {
    fn from(urgency: Urgency) -> u8 {
        urgency as u8
    }
}

impl TryFrom<u8> for Percent {
    type Error = &'static str;

    fn try_from(number: u8) -> Result<Percent, &'static str> {
        if number > 100 {
            return Err("more than 100");
        }
        Ok(Percent { of_hundred: number })
    }
}

impl From<Percent> for u8 {
    fn from(percent: Percent) -> u8 {
        percent.of_hundred
    }
}

impl From<String> for Reader {
    fn from(name: String) -> Reader {
        Reader { name }
    }
}

impl From<Reader> for String {
    fn from(reader: Reader) -> String {
        reader.name
    }
}
