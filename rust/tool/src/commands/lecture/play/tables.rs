//! The tables of a small sheet: the commitment of each challenge and response, Peggy's answers, and what the extractor gives.

use crate::by_hand;
use crate::command_line::failure::{Failure, Outcome};
use crate::command_line::json::Json;
use crate::sheets::{self, column_count, notation, row_count, small};
use dimkhoros::{EXPONENT, Instance, Places, Round};
use std::collections::{BTreeMap, BTreeSet};

/// The most pairs of cells with one commitment that are stored.
const MOST_PAIRS: usize = 1 << 18;

/// The digits of a place in a list, as the script reads them.
const DIGITS: &[u8; 64] = b"ABCDEFGHIJKLMNOPQRSTUVWXYZabcdefghijklmnopqrstuvwxyz0123456789-_";

/// The tables of a sheet.
pub struct Tables<'a> {
    /// The sheet.
    pub sheet: &'a Instance,
    /// All responses, rising. They are all nonces too.
    pub responses: Vec<Places>,
    /// The commitments, a list for each challenge with one for each response.
    pub commitments: Vec<Vec<Places>>,
}

impl<'a> Tables<'a> {
    /// The tables of a sheet that is small. The library makes each round and judges it.
    pub fn of(sheet: &'a Instance) -> Outcome<Tables<'a>> {
        let responses = small::domain(sheet, small::MOST as usize).unwrap_or_default();
        let cell = |challenge: u32, response: &Places| -> Outcome<Places> {
            let commitment = sheet.simulate(challenge, response)?;
            let round = Round { commitment, challenge, response: *response };
            if sheet.judge(&round)?.is_accepted() {
                Ok(commitment)
            } else {
                Err(Failure::failed("a simulated round is not accepted"))
            }
        };
        let row = |challenge: u32| responses.iter().map(|r| cell(challenge, r)).collect();
        let commitments = (0..sheet.values().header.challenges).map(row).collect::<Outcome<_>>()?;
        Ok(Tables { sheet, responses, commitments })
    }

    /// How many challenges there are.
    pub fn challenges(&self) -> u32 {
        self.sheet.values().header.challenges
    }

    /// Why the pairs of cells are too many to store what the extractor gives for each, if several witnesses make that needed.
    pub fn too_many_pairs(&self, witnesses: &[Places]) -> Option<String> {
        let challenges = self.challenges() as usize;
        let pairs = self.responses.len() * witnesses.len() * (challenges * (challenges - 1) / 2);
        (witnesses.len() > 1 && pairs > MOST_PAIRS).then(|| {
            format!(
                "the sheet has {} witnesses and {pairs} pairs of rounds for the extractor, and more than {MOST_PAIRS} are too many: \
                 make it with a smaller K",
                witnesses.len()
            )
        })
    }

    /// The group elements that a class can name, rising: all commitments of the table, and all elements if they are few.
    pub fn elements(&self) -> Vec<Places> {
        let mut all: BTreeSet<Places> = self.commitments.iter().flatten().copied().collect();
        if row_count(self.sheet) == 1 {
            let others = small::elements(self.sheet).unwrap_or_default();
            all.extend(others.into_iter().map(|value| dimkhoros::places([value])));
        }
        all.into_iter().collect()
    }

    /// The data of the tables, by their names.
    pub fn data(
        &self,
        witness: Option<&Places>,
        witnesses: &[Places],
    ) -> Outcome<Vec<(&'static str, Json)>> {
        let (header, elements) = (self.sheet.values().header, self.elements());
        let by_column = |values: &Places| Json::from(notation::by_column(self.sheet, values));
        let index: BTreeMap<Places, usize> =
            elements.iter().enumerate().map(|(place, element)| (*element, place)).collect();
        let row = |row: &Vec<Places>| -> Json {
            packed(row.iter().map(|element| index[element]), elements.len())
        };
        let mut data = vec![
            ("challenges", header.challenges.into()),
            ("exponent", (header.kind == EXPONENT).into()),
            ("order", header.order.into()),
            ("modulus", header.modulus.into()),
            ("columns", column_count(self.sheet).into()),
            ("statement", notation::by_row(self.sheet, &self.sheet.values().statement).into()),
            ("elements", Json::List(elements.iter().map(|element| self.rows(element)).collect())),
            ("responses", Json::List(self.responses.iter().map(by_column).collect())),
            ("commitments", Json::List(self.commitments.iter().map(row).collect())),
            ("differences", self.differences()),
        ];
        if let Some(witness) = witness {
            data.push(("answers", self.answers(witness)?));
            data.push(("witnesses", Json::List(witnesses.iter().map(by_column).collect())));
            data.push(("pairs", self.pairs(witnesses)?));
        }
        Ok(data)
    }

    /// The values of an element, row by row.
    pub fn rows(&self, element: &Places) -> Json {
        Json::numbers(&element[..row_count(self.sheet)])
    }

    /// The place of a response.
    fn place(&self, response: &Places) -> usize {
        self.responses.binary_search(response).unwrap_or_default()
    }

    /// Peggy's response to each challenge, for each nonce.
    fn answers(&self, witness: &Places) -> Outcome<Json> {
        let answer = |challenge: u32, nonce: &Places| -> Outcome<usize> {
            let round = sheets::honest(self.sheet, witness, nonce, challenge)?;
            let place = self.place(&round.response);
            if self.commitments[challenge as usize][place] == round.commitment {
                Ok(place)
            } else {
                Err(Failure::failed("the honest and the simulated rounds differ"))
            }
        };
        let row = |challenge: u32| -> Outcome<Json> {
            let places = self.responses.iter().map(|nonce| answer(challenge, nonce));
            Ok(packed(places.collect::<Outcome<Vec<usize>>>()?.into_iter(), self.responses.len()))
        };
        Ok(Json::List((0..self.challenges()).map(row).collect::<Outcome<Vec<Json>>>()?))
    }

    /// For each difference c - c', from 1 - K on: itself and the numbers a and b of the extractor.
    fn differences(&self) -> Json {
        let (order, last) = (self.sheet.values().header.order, i64::from(self.challenges()) - 1);
        let entry = |difference: i64| {
            let numbers = by_hand::euclid(order, difference)
                .map_or([0; 3], |euclid| [difference, euclid.a, euclid.b]);
            let words = numbers.map(|number| Json::from(number.to_string().replace('-', "−")));
            Json::List(words.to_vec())
        };
        Json::List((-last..=last).map(entry).collect())
    }

    /// The places of the responses with which each commitment answers a challenge.
    fn answering(&self, challenge: usize) -> BTreeMap<Places, Vec<usize>> {
        let mut answering: BTreeMap<Places, Vec<usize>> = BTreeMap::new();
        for (place, commitment) in self.commitments[challenge].iter().enumerate() {
            answering.entry(*commitment).or_default().push(place);
        }
        answering
    }

    /// The place of the witness that the extractor gives for each two cells of one commitment, a list for each two challenges.
    /// If there is one witness, the extractor gives this, and the list is empty.
    fn pairs(&self, witnesses: &[Places]) -> Outcome<Json> {
        let mut lists = Vec::new();
        if witnesses.len() > 1 {
            let answering: Vec<_> =
                (0..self.commitments.len()).map(|challenge| self.answering(challenge)).collect();
            for first in 0..self.commitments.len() {
                for (second, partners) in answering.iter().enumerate().skip(first + 1) {
                    lists.push(self.pair([first, second], partners, witnesses)?);
                }
            }
        }
        Ok(Json::List(lists))
    }

    /// The witnesses of two challenges: for each response to the first, one for each response to the second on the same
    /// commitment.
    fn pair(
        &self,
        challenges: [usize; 2],
        partners: &BTreeMap<Places, Vec<usize>>,
        witnesses: &[Places],
    ) -> Outcome<Json> {
        let mut found = Vec::new();
        for (place, commitment) in self.commitments[challenges[0]].iter().enumerate() {
            let round = |challenge: usize, place: usize| Round {
                commitment: *commitment,
                challenge: challenge as u32,
                response: self.responses[place],
            };
            for partner in &partners[commitment] {
                let (one, other) = (round(challenges[0], place), round(challenges[1], *partner));
                let witness = self.sheet.extract(&one, &other)?;
                found.push(witnesses.binary_search(&witness).unwrap_or_default());
            }
        }
        Ok(packed(found.into_iter(), witnesses.len()))
    }
}

/// Places in a list of so many, each in the same number of digits.
pub fn packed(places: impl Iterator<Item = usize>, count: usize) -> Json {
    let width = width(count);
    let digits = |place: usize| {
        let digit = move |at: usize| DIGITS[(place >> (6 * at)) & 63] as char;
        (0..width).rev().map(digit)
    };
    Json::Text(places.flat_map(digits).collect())
}

/// How many digits a place in a list of so many has.
fn width(count: usize) -> usize {
    (1..6).find(|width| count <= 1 << (6 * width)).unwrap_or(6)
}
