//! The games of a team of two players, one of whom can cheat.

use super::games::check;
use crate::command_line::failure::Outcome;
use crate::command_line::json::Json;
use crate::commands::lecture::rounds;
use crate::sheets::{self, notation};
use dimkhoros::{Instance, Places, Refusal, Round, Team};

/// The most games.
const GAMES: u32 = 24;

/// A game: the players' parts of the witness, and what each of them chooses.
struct Game<'a> {
    sheet: &'a Instance,
    parts: [Places; 2],
    /// The sheets with the players' images as their statements.
    sheets: [Instance; 2],
    /// The nonces, or the response that a cheat prepares.
    choices: [Places; 2],
    /// The player who cheats, from 0, and the challenge that is prepared.
    cheat: Option<(usize, u32)>,
}

/// The games of a sheet with a witness. In a third of them nobody cheats.
pub fn games(sheet: &Instance, witness: &Places) -> Outcome<Json> {
    let challenges = sheet.values().header.challenges;
    let responses = sheets::small::domain(sheet, sheets::small::MOST as usize).unwrap_or_default();
    let count = super::game_count(challenges, GAMES) / 3 * 3;
    let parts = parts(sheet, witness, &responses)?;
    let game = |place: u32| -> Outcome<Json> {
        let part = parts[(place * 7 + 3) as usize % parts.len()];
        let choice = |step: u32| responses[(place * step + step) as usize % responses.len()];
        let player = (place % 3).checked_sub(1);
        let cheat = player.map(|player| (player as usize, (place * 3 + 1) % challenges));
        Game::new(sheet, witness, part, [choice(5), choice(11)], cheat)?.data()
    };
    Ok(Json::List((0..count.max(3)).map(game).collect::<Outcome<Vec<Json>>>()?))
}

/// The parts of the first player with which both players have something to prove, or all if there is no such part. With the
/// image 1 a cheat gets through with every challenge.
fn parts(sheet: &Instance, witness: &Places, all: &[Places]) -> Result<Vec<Places>, Refusal> {
    let one = sheet.simulate(0, &rounds::neutral(sheet))?;
    let mut good = Vec::new();
    for part in all {
        let image = sheet.image(part)?;
        let rest = rounds::nonce(&sheet.with_statement(&image)?, 1, witness, part)?;
        if image != one && sheet.image(&rest)? != one {
            good.push(*part);
        }
    }
    Ok(if good.is_empty() { all.to_vec() } else { good })
}

impl<'a> Game<'a> {
    /// The game in which the first player has this part of the witness and the second has the rest.
    fn new(
        sheet: &'a Instance,
        witness: &Places,
        part: Places,
        choices: [Places; 2],
        cheat: Option<(usize, u32)>,
    ) -> Result<Game<'a>, Refusal> {
        let first = sheet.with_statement(&sheet.image(&part)?)?;
        let rest = rounds::nonce(&first, 1, witness, &part)?;
        let second = sheet.with_statement(&sheet.image(&rest)?)?;
        Ok(Game { sheet, parts: [part, rest], sheets: [first, second], choices, cheat })
    }

    /// A player's round with a challenge.
    fn round(&self, player: usize, challenge: u32) -> Result<Round, Refusal> {
        let (sheet, choice) = (&self.sheets[player], &self.choices[player]);
        match self.cheat {
            Some((cheat, prepared)) if cheat == player => {
                let commitment = sheet.simulate(prepared, choice)?;
                Ok(Round { commitment, challenge, response: *choice })
            }
            _ => sheets::honest(sheet, &self.parts[player], choice, challenge),
        }
    }

    /// The joined round of the players' rounds.
    fn joined(&self, parts: &[Round; 2]) -> Result<Round, Refusal> {
        let images = [0, 1].map(|player| self.sheets[player].values().statement);
        let team = Team::new(self.sheet, &images)?;
        Ok(Round {
            commitment: team.join_commitments(&parts.map(|round| round.commitment))?,
            challenge: parts[0].challenge,
            response: team.join_responses(&parts.map(|round| round.response))?,
        })
    }

    /// The game with its rounds for every challenge.
    fn data(&self) -> Outcome<Json> {
        let by_row = |values: &Places| Json::from(notation::by_row(self.sheet, values));
        let first = [self.round(0, 0)?, self.round(1, 0)?];
        let whole = self.joined(&first)?;
        let challenges = 0..self.sheet.values().header.challenges;
        let answers = challenges.map(|challenge| self.answer(challenge));
        let images = self.sheets.iter().map(|sheet| by_row(&sheet.values().statement));
        let commitments = [first[0].commitment, first[1].commitment, whole.commitment];
        Ok(Json::Object(vec![
            ("cheat", self.cheat.map_or(0, |(player, _)| player + 1).into()),
            ("prepared", self.cheat.map(|(_, challenge)| challenge).into()),
            ("images", Json::List(images.collect())),
            ("commitments", Json::List(commitments.iter().map(by_row).collect())),
            ("answers", Json::List(answers.collect::<Outcome<Vec<Json>>>()?)),
        ]))
    }

    /// The responses of both players and of the whole to a challenge, and the checks of the three rounds.
    fn answer(&self, challenge: u32) -> Outcome<Json> {
        let parts = [self.round(0, challenge)?, self.round(1, challenge)?];
        let whole = self.joined(&parts)?;
        let by_column =
            |round: &Round| Json::from(notation::by_column(self.sheet, &round.response));
        let mut values: Vec<Json> = [parts[0], parts[1], whole].iter().map(by_column).collect();
        for (sheet, round) in
            self.sheets.iter().chain([self.sheet]).zip([parts[0], parts[1], whole])
        {
            values.push(check(sheet, &round)?);
        }
        Ok(Json::List(values))
    }
}
