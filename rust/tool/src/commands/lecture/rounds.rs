//! The rounds that a page shows. The library makes and judges each of them.

use crate::command_line::failure::{Failure, Outcome};
use crate::sheets::{column_count, honest};
use dimkhoros::{EXPONENT, Instance, PLACES, Places, Refusal, Round, Verdict, Verifier};

/// The simulator's round for a challenge and a response.
pub fn simulated(sheet: &Instance, challenge: u32, response: &Places) -> Result<Round, Refusal> {
    let commitment = sheet.simulate(challenge, response)?;
    Ok(Round { commitment, challenge, response: *response })
}

/// Vic's verdict on a round whose parts he is sent one by one.
pub fn judged(sheet: &Instance, round: &Round) -> Result<Verdict, Refusal> {
    let vic = Verifier::new().take_commitment(sheet, &round.commitment)?;
    let vic = vic.take_challenge(sheet, round.challenge)?;
    let (_, verdict) = vic.take_response(sheet, &round.response)?;
    Ok(verdict)
}

/// The nonce with which Peggy answers a challenge with this response: r - c·x, or r·x^(-c). It is what she would answer herself
/// with r as her nonce and the inverse of x as her witness, which is a witness of the inverse of z.
pub fn nonce(
    sheet: &Instance,
    challenge: u32,
    response: &Places,
    witness: &Places,
) -> Result<Places, Refusal> {
    let inverse = inverse(sheet, witness)?;
    let statement = sheet.simulate(1, &neutral(sheet))?;
    let turned = honest(&sheet.with_statement(&statement)?, &inverse, response, challenge)?;
    Ok(turned.response)
}

/// The neutral choice of coordinates, zeros or ones.
pub fn neutral(sheet: &Instance) -> Places {
    let value = u32::from(sheet.values().header.kind != EXPONENT);
    in_columns(sheet, |_| value)
}

/// The inverse of coordinates. Those of a root sheet are elements of its group, which the simulator inverts.
fn inverse(sheet: &Instance, coordinates: &Places) -> Result<Places, Refusal> {
    let header = sheet.values().header;
    if header.kind == EXPONENT {
        let negative =
            |column: usize| (header.order - coordinates[column] % header.order) % header.order;
        Ok(in_columns(sheet, negative))
    } else {
        sheet.with_statement(coordinates)?.simulate(1, &neutral(sheet))
    }
}

/// A value for each column.
pub fn in_columns(sheet: &Instance, value: impl Fn(usize) -> u32) -> Places {
    let mut places = [0; PLACES];
    for (column, place) in places.iter_mut().enumerate().take(column_count(sheet)) {
        *place = value(column);
    }
    places
}

/// An honest round with its nonce.
#[derive(Clone, Copy, Debug, PartialEq)]
pub struct Honest {
    /// The nonce.
    pub nonce: Places,
    /// The round.
    pub round: Round,
}

/// The honest and the simulated rounds of a challenge, both in the order of their responses.
pub struct Lists {
    /// The honest rounds.
    pub honest: Vec<Honest>,
    /// The simulated rounds.
    pub simulated: Vec<Round>,
}

impl Lists {
    /// All rounds: of all nonces, and of all responses.
    pub fn whole(
        sheet: &Instance,
        challenge: u32,
        witness: &Places,
        domain: &[Places],
    ) -> Outcome<Lists> {
        let of_nonce = |nonce: &Places| {
            honest(sheet, witness, nonce, challenge).map(|round| Honest { nonce: *nonce, round })
        };
        let mut honest = domain.iter().map(of_nonce).collect::<Result<Vec<Honest>, Refusal>>()?;
        honest.sort_by_key(|honest| (honest.round.response, honest.round.commitment));
        Lists::new(sheet, challenge, honest, domain)
    }

    /// The rounds of some responses, each with the nonce that leads to it.
    pub fn some(
        sheet: &Instance,
        challenge: u32,
        witness: &Places,
        responses: &[Places],
    ) -> Outcome<Lists> {
        let of_response = |response: &Places| {
            let nonce = nonce(sheet, challenge, response, witness)?;
            honest(sheet, witness, &nonce, challenge).map(|round| Honest { nonce, round })
        };
        let honest = responses.iter().map(of_response).collect::<Result<Vec<Honest>, Refusal>>()?;
        Lists::new(sheet, challenge, honest, responses)
    }

    /// Both lists, which have to have the same rounds.
    fn new(
        sheet: &Instance,
        challenge: u32,
        honest: Vec<Honest>,
        responses: &[Places],
    ) -> Outcome<Lists> {
        let of_response = |response| simulated(sheet, challenge, response);
        let simulated =
            responses.iter().map(of_response).collect::<Result<Vec<Round>, Refusal>>()?;
        if honest.iter().map(|honest| honest.round).eq(simulated.iter().copied()) {
            Ok(Lists { honest, simulated })
        } else {
            Err(Failure::failed("the honest and the simulated rounds differ"))
        }
    }
}

/// The coordinates of a sheet that are good to look at: these values where they are coordinates, in turn.
fn pleasing(sheet: &Instance, values: &[u32]) -> Places {
    let is_coordinate = |value: &&u32| sheet.image(&[**value; PLACES]).is_ok();
    let good: Vec<u32> = values.iter().filter(is_coordinate).copied().collect();
    in_columns(sheet, |column| good.get(column % good.len().max(1)).copied().unwrap_or(0))
}

/// The nonce where none is given.
pub fn default_nonce(sheet: &Instance) -> Places {
    pleasing(sheet, &[5, 3, 7, 2, 4, 6, 8, 9, 11, 13, 17, 19, 23, 29, 31, 37, 1, 0])
}

/// The response to simulate where none is given.
pub fn default_response(sheet: &Instance) -> Places {
    pleasing(sheet, &[8, 6, 4, 3, 9, 5, 7, 2, 11, 13, 17, 19, 23, 29, 31, 37, 1, 0])
}

/// The two challenges where none is given.
pub fn default_challenges(sheet: &Instance) -> [u32; 2] {
    let last = sheet.values().header.challenges - 1;
    [last.min(3), u32::from(last > 1)]
}

/// Responses that lie apart, rising, of a sheet with too many to list.
pub fn spread(sheet: &Instance, count: u32) -> Vec<Places> {
    let header = sheet.values().header;
    let all = if header.kind == EXPONENT { header.order } else { header.modulus };
    let near = |value: u32| {
        let coordinates = (value..all).take(512);
        let mut good = coordinates.filter(|value| sheet.image(&[*value; PLACES]).is_ok());
        good.next().unwrap_or(1)
    };
    let step = (all / (count + 1)).max(1);
    (0..count)
        .map(|place| {
            in_columns(sheet, |column| {
                near((place * step + 2 + column as u32 * (step / 8 + 1)) % all)
            })
        })
        .collect()
}
