//! Numbers that the system's generator draws.

use super::column_count;
use crate::command_line::failure::{Failure, Outcome};
use dimkhoros::{EXPONENT, Instance, PLACES, Places};
use std::fs::File;
use std::io::Read;

/// The system's generator.
pub struct Generator(File);

impl Generator {
    /// Opens it.
    pub fn open() -> Outcome<Generator> {
        File::open("/dev/urandom").map(Generator).map_err(no_numbers)
    }

    /// A number below a bound that is not 0, each as likely as the others.
    pub fn below(&mut self, bound: u32) -> Outcome<u32> {
        let bound = u64::from(bound);
        // What lies above the last whole multiple of the bound is drawn again.
        let end = (1 << 32) / bound * bound;
        loop {
            let mut bytes = [0; 4];
            self.0.read_exact(&mut bytes).map_err(no_numbers)?;
            let number = u64::from(u32::from_be_bytes(bytes));
            if number < end {
                return Ok((number % bound) as u32);
            }
        }
    }

    /// A witness or nonce of a sheet, of which the library says of each value whether the domain has it.
    pub fn coordinates(&mut self, sheet: &Instance) -> Outcome<Places> {
        let mut places = [0; PLACES];
        for place in &mut places[..column_count(sheet)] {
            *place = self.coordinate(sheet)?;
        }
        Ok(places)
    }

    /// A value of the domain of a sheet.
    fn coordinate(&mut self, sheet: &Instance) -> Outcome<u32> {
        let header = sheet.values().header;
        let bound = if header.kind == EXPONENT { header.order } else { header.modulus };
        loop {
            let value = self.below(bound)?;
            if sheet.image(&[value; PLACES]).is_ok() {
                return Ok(value);
            }
        }
    }
}

/// Says that the generator gives no numbers.
fn no_numbers(error: std::io::Error) -> Failure {
    Failure::failed(format!("the system's generator gives no numbers: {error}"))
}
