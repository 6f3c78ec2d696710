//! The game's text, by a map of the images and by a plain search.

use std::collections::HashMap;
use std::iter::successors;

use dimkhoros_sys::{LONGEST_GAME, Places};

use super::arithmetic::Idiomatic;
use super::marker::{record_length, records, round};
use super::sheet::{Kind, load};
use super::text::Lines;

type Sheet = super::sheet::Sheet<Idiomatic>;

/// The most responses that are tried.
const MOST: u64 = 4096;

/// Puts the game's text at the start of text and answers its length. A map has the
/// smallest response of each image.
#[inline(never)]
pub fn game_by_map(sheet: &[u8], file: &[u8], text: &mut [u8; LONGEST_GAME]) -> usize {
    played(sheet, file, text, |lines, sheet, commitment| {
        let mut smallest = HashMap::new();
        for response in sheet.responses() {
            smallest.entry(sheet.image(&response)).or_insert(response);
        }
        lines.answers(sheet, commitment, |wanted| smallest.get(wanted));
    })
}

/// Puts the game's text at the start of text and answers its length, on sheets of one
/// row. The image of each response is made once, and for each challenge all of them
/// are looked at in turn.
#[inline(never)]
pub fn game_in_turn(sheet: &[u8], file: &[u8], text: &mut [u8; LONGEST_GAME]) -> usize {
    played(sheet, file, text, |lines, sheet, commitment| {
        let responses: Vec<Places> = sheet.responses().collect();
        let images: Vec<u32> = responses.iter().map(|response| sheet.image(response)[0]).collect();
        lines.answers(sheet, commitment, |wanted| {
            let first = images.iter().position(|image| *image == wanted[0])?;
            Some(&responses[first])
        });
    })
}

/// The lines that are written so far.
type Text<'a> = Lines<'a, LONGEST_GAME>;

/// Puts the line of a refusal at the start of text, or what `answers` puts there, and
/// answers the length.
#[inline]
fn played(
    sheet: &[u8],
    file: &[u8],
    text: &mut [u8; LONGEST_GAME],
    answers: impl FnOnce(&mut Text, &Sheet, &Places),
) -> usize {
    let mut lines = Lines::new(text);
    match prepared(sheet, file) {
        Ok((sheet, commitment)) => answers(&mut lines, &sheet, &commitment),
        Err(number) => lines.numbered(b"refused ", number),
    }
    lines.length
}

/// The sheet and the commitment of round 0, or the number of a refusal.
fn prepared(sheet: &[u8], file: &[u8]) -> Result<(Sheet, Places), u32> {
    let sheet = load::<Idiomatic>(sheet)?;
    let records = records(&sheet, file)?;
    let first = records.get(..record_length(&sheet)).ok_or(13u32)?;
    let commitment = round(&sheet, first).commitment;
    if !sheet.is_commitment(&commitment) {
        return Err(14);
    }
    if sheet.is_small() { Ok((sheet, commitment)) } else { Err(31) }
}

impl Sheet {
    /// Whether the sheet is small enough for the game.
    fn is_small(&self) -> bool {
        let responses = u64::from(self.slot_count()).checked_pow(self.columns as u32);
        let rows_fit = self.kind == Kind::Exponent || self.rows == 1;
        rows_fit && responses.is_some_and(|count| count <= MOST)
    }

    /// How many numbers a slot of a response is searched among.
    fn slot_count(&self) -> u32 {
        match self.kind {
            Kind::Exponent => self.order,
            Kind::Root => self.modulus,
        }
    }

    /// The responses in slot order, the first slot leading.
    fn responses(&self) -> impl Iterator<Item = Places> {
        let first = Some([0; 8]);
        successors(first, |last| self.following(*last)).filter(|response| self.is_domain(response))
    }

    /// The numbers that follow in slot order.
    fn following(&self, mut slots: Places) -> Option<Places> {
        for slot in slots[..self.columns].iter_mut().rev() {
            *slot += 1;
            if *slot < self.slot_count() {
                return Some(slots);
            }
            *slot = 0;
        }
        None
    }
}

impl Text<'_> {
    /// A line for each challenge that has a response, or `none`.
    #[inline]
    fn answers<'r>(
        &mut self,
        sheet: &Sheet,
        commitment: &Places,
        first: impl Fn(&Places) -> Option<&'r Places>,
    ) {
        for challenge in 0..sheet.challenges {
            if let Some(response) = first(&sheet.expected_image(commitment, challenge)) {
                self.answer(challenge, &response[..sheet.columns]);
            }
        }
        if self.length == 0 {
            self.word(b"none\n");
        }
    }

    /// A challenge and the slots of a response, with a space between them.
    fn answer(&mut self, challenge: u32, slots: &[u32]) {
        self.decimal(challenge);
        for slot in slots {
            self.word(b" ");
            self.decimal(*slot);
        }
        self.word(b"\n");
    }
}
