//! What card 6 asks of a team, on small sheets, over all teams and rounds, through
//! one library alone.
//!
//! For every team whose images multiply to the statement, and all rounds of its
//! players with one challenge: where all are accepted under their own images, so is
//! the whole, and where exactly one is rejected, so is the whole, in the same row.
//! Where the players' rounds are honest, the whole is the round of a single Peggy
//! with the joined witness and the joined nonce.

use std::cell::Cell;

use crate::arithmetic::multiply;
use crate::demand_three::sheets::{exponent, root};
use crate::demand_three::{Small, choices};
use crate::groups::Group;
use crate::library::{Computed, Judgement, Library, PARTS, PLACES, Parts, Places, Round};
use crate::printing::hex;
use crate::sheets::Sheet;

/// Tries the card on every small sheet and answers the line to print. An error says
/// where it fails.
pub fn check(library: Library) -> Result<String, String> {
    let (mut teams, mut calls) = (0, 0);
    for (players, sheet) in small_sheets() {
        for images in all_images(&sheet, players) {
            let team = SmallTeam::new(library, &sheet, &images);
            team.check().map_err(|what| {
                let sheet = hex(&team.whole.bytes);
                format!("card 6 fails on sheet {sheet} with images {images:?}: {what}")
            })?;
            teams += 1;
            calls += team.all_calls();
        }
    }
    Ok(format!("card 6 holds for {teams} teams on small sheets over all rounds, {calls} calls"))
}

/// How many players teams have, and sheets of either kind, with one witness,
/// several and none, of one row and of two.
fn small_sheets() -> Vec<(usize, Sheet)> {
    vec![
        (2, exponent([7, 3, 3], 1, &[2], &[4])),
        (3, exponent([7, 3, 3], 1, &[2], &[4])),
        (2, exponent([11, 5, 3], 1, &[3], &[9])),
        (2, exponent([7, 3, 3], 1, &[1], &[2])),
        (2, exponent([5, 2, 2], 2, &[4, 1], &[4])),
        (2, exponent([3, 2, 2], 1, &[2, 1], &[2, 2])),
        (3, exponent([3, 2, 2], 2, &[2, 1, 2, 2], &[2, 1])),
        (2, root([5, 3, 3], &[3])),
        (3, root([5, 3, 2], &[2])),
        (2, root([7, 3, 2], &[1])),
        (2, root([7, 3, 2], &[3])),
        (2, root([4, 3, 2], &[3, 1])),
    ]
}

/// Every choice of one of each list.
fn tuples<T: Copy>(lists: &[Vec<T>]) -> Vec<Vec<T>> {
    let mut all = vec![Vec::new()];
    for list in lists {
        let longer = all.iter().flat_map(|tuple: &Vec<T>| {
            list.iter().map(move |value| {
                let mut tuple = tuple.clone();
                tuple.push(*value);
                tuple
            })
        });
        all = longer.collect();
    }
    all
}

/// The lists multiplied mod m, in the first places, with 0 beyond.
fn multiplied(lists: &[Places], used: u32, modulus: u32) -> Places {
    let mut product = [0; 8];
    for (place, value) in product.iter_mut().enumerate().take(used as usize) {
        *value = lists.iter().fold(1, |product, list| multiply(product, list[place], modulus));
    }
    product
}

/// Every s group elements of a sheet.
pub fn elements(sheet: &Sheet) -> Vec<Places> {
    let header = sheet.header;
    let group = Group::new(header.kind, header.modulus, header.order);
    let all: Vec<u32> = (1..header.modulus).filter(|v| group.is_element(*v)).collect();
    choices(&all, header.rows as usize)
}

/// All images of so many players that multiply to the statement.
fn all_images(sheet: &Sheet, players: usize) -> Vec<Vec<Places>> {
    let header = sheet.header;
    let mut images = tuples(&vec![elements(sheet); players]);
    images.retain(|images| multiplied(images, header.rows, header.modulus) == sheet.statement);
    images
}

/// A small sheet, and the sheet of each player.
struct SmallTeam {
    library: Library,
    calls: Cell<u64>,
    whole: Small,
    players: Vec<Small>,
}

impl SmallTeam {
    fn new(library: Library, sheet: &Sheet, images: &[Places]) -> SmallTeam {
        let player = |image: &Places| {
            let mut own = sheet.clone();
            own.statement = *image;
            Small::new(library, own)
        };
        SmallTeam {
            library,
            calls: Cell::new(0),
            whole: Small::new(library, sheet.clone()),
            players: images.iter().map(player).collect(),
        }
    }

    /// Counts so many calls.
    fn count(&self, calls: u64) {
        self.calls.set(self.calls.get() + calls);
    }

    /// How many calls there were, those of the players too.
    fn all_calls(&self) -> u64 {
        let smalls = self.players.iter().chain([&self.whole]);
        self.calls.get() + smalls.map(|small| small.calls.get()).sum::<u64>()
    }

    fn check(&self) -> Result<(), String> {
        for challenge in 0..self.whole.sheet.header.challenges {
            self.check_verdicts(challenge)?;
            self.check_single(challenge)?;
        }
        Ok(())
    }

    /// The verdict on the whole for all rounds of the players.
    fn check_verdicts(&self, challenge: u32) -> Result<(), String> {
        let lists: Vec<_> =
            self.players.iter().map(|player| self.judged(player, challenge)).collect();
        for rounds in tuples(&lists) {
            let parts: Vec<Round> = rounds.iter().map(|(round, _)| *round).collect();
            let rejected: Vec<Judgement> = rounds
                .iter()
                .map(|(_, verdict)| *verdict)
                .filter(|verdict| verdict.accepted == 0)
                .collect();
            let wanted = match rejected[..] {
                [] => Judgement { accepted: 1, ..Judgement::default() },
                [verdict] => verdict,
                _ => continue,
            };
            let verdict = self.joined(&parts).map(|whole| self.judge(&self.whole, &whole));
            if verdict != Ok(wanted) {
                return Err(format!("{parts:?}: {verdict:?}, not {wanted:?}"));
            }
        }
        Ok(())
    }

    /// All rounds of a player with this challenge, with their verdicts.
    fn judged(&self, player: &Small, challenge: u32) -> Vec<(Round, Judgement)> {
        let mut judged = Vec::new();
        for commitment in elements(&player.sheet) {
            for response in &player.domain {
                let round = Round { commitment, challenge, response: *response };
                judged.push((round, self.judge(player, &round)));
            }
        }
        judged
    }

    fn judge(&self, small: &Small, round: &Round) -> Judgement {
        self.count(1);
        self.library.judge(&small.bytes, round)
    }

    /// The whole that the team makes of its players' rounds.
    fn joined(&self, rounds: &[Round]) -> Result<Round, u32> {
        self.count(2);
        let images = flat(self.players.iter().map(|player| player.sheet.statement));
        let commitments = flat(rounds.iter().map(|round| round.commitment));
        let responses = flat(rounds.iter().map(|round| round.response));
        let (sheet, count) = (&self.whole.bytes, rounds.len() as u32);
        let t = self.library.team_commitment(sheet, count, &images, &commitments);
        let r = self.library.team_response(sheet, count, &images, &responses);
        Ok(Round { commitment: values(t)?, challenge: rounds[0].challenge, response: values(r)? })
    }

    /// The whole of honest rounds, for all parts of the witness and all nonces.
    fn check_single(&self, challenge: u32) -> Result<(), String> {
        let witnesses: Vec<_> = self.players.iter().map(|p| p.witnesses.clone()).collect();
        let nonces: Vec<_> = self.players.iter().map(|p| p.domain.clone()).collect();
        for xs in tuples(&witnesses) {
            let x = self.joined_slots(&xs);
            for ks in tuples(&nonces) {
                let honest = |p: usize| self.players[p].honest(&xs[p], challenge, &ks[p]);
                let parts: Result<Vec<Round>, u32> = (0..xs.len()).map(honest).collect();
                let whole = parts.and_then(|parts| self.joined(&parts));
                let single = self.whole.honest(&x, challenge, &self.joined_slots(&ks));
                if whole.is_err() || whole != single {
                    return Err(format!(
                        "parts {xs:?}, nonces {ks:?}, c {challenge}: {whole:?}, a single Peggy {single:?}"
                    ));
                }
            }
        }
        Ok(())
    }

    /// Slots joined by the domain's operation.
    fn joined_slots(&self, lists: &[Places]) -> Places {
        let header = self.whole.sheet.header;
        if header.kind == 2 {
            return multiplied(lists, header.columns, header.modulus);
        }
        let sum = |place: usize| lists.iter().map(|list| list[place]).sum::<u32>();
        std::array::from_fn(|place| sum(place) % header.order)
    }
}

/// Lists one behind the other. The places behind them hold a number that is
/// neither a group element nor a domain slot.
fn flat(lists: impl Iterator<Item = Places>) -> Parts {
    let mut parts = [u32::MAX; PARTS];
    for (row, list) in parts.chunks_mut(PLACES).zip(lists) {
        row.copy_from_slice(&list);
    }
    parts
}

/// The values of an answer, or its refusal.
fn values(answer: Computed) -> Result<Places, u32> {
    match answer.refusal {
        0 => Ok(answer.values),
        number => Err(number),
    }
}

#[cfg(test)]
mod tests {
    use std::collections::BTreeSet;

    use super::*;
    use crate::faults::Fault;
    use crate::library::Library::{Faulty, Judge};

    #[test]
    fn the_judge_meets_card_six() {
        assert_eq!(check(Judge).map(|_| ()), Ok(()));
    }

    #[test]
    fn impostors_do_not_meet_card_six() {
        for fault in [
            Fault::TeamLastCommitment,
            Fault::TeamFirstCommitment,
            Fault::TeamOnesBeyond,
            Fault::TeamPlayerBehind,
            Fault::TeamLastImage,
            Fault::TeamResponsesMultiplied,
            Fault::TeamResponsesModM,
            Fault::TeamRootsAdded,
            Fault::TeamLastResponse,
            Fault::TeamSlotsOfRows,
        ] {
            assert!(check(Faulty(fault)).is_err(), "{fault:?}");
        }
    }

    #[test]
    fn small_sheets_have_one_witness_or_several_or_none_in_either_kind() {
        let mut counts = BTreeSet::new();
        for (_, sheet) in small_sheets() {
            let kind = sheet.header.kind;
            let small = Small::new(Judge, sheet);
            assert_eq!(Judge.load(&small.bytes).refusal, 0);
            counts.insert((kind, small.witnesses.len().min(2)));
        }
        assert_eq!(counts.len(), 6, "{counts:?}");
    }
}
