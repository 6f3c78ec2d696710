//! Peggy as a team: players who each hold a part of the witness, and the combiner of their rounds.

use crate::{Instance, MOST_PLAYERS, PLACES, Places, Refusal};
use dimkhoros_sys::{self as sys, PARTS, Parts};

/// Two to eight players on a sheet, each with a part of the witness, by the images of their parts, which multiply to the sheet's
/// statement.
///
/// Each player proves a part with a [`Prover`](crate::Prover) of their own, on the sheet with the player's image as its statement
/// ([`Instance::with_statement`]), and all hear the same challenge. The team joins what they send to one round, which is judged by
/// the sheet itself. It is the round that a single Peggy sends for the joined witness and the joined nonce. Where all players'
/// rounds are accepted so is the whole, and where exactly one is rejected so is the whole: this is proved.
///
/// ```
/// use dimkhoros::{Prover, Round, Team, places};
/// # use dimkhoros::{Instance, Patterns, Plan};
/// # let plan = Plan { pattern: 1, modulus: 23, order: 11, challenges: 11, values: &[2], statement: &[13] };
/// # let instance = Instance::from_pattern(&Patterns::shipped(), &plan)?;
///
/// // 2^x = 13 modulo 23: 7 is 3 + 4, and the images of the parts are 8 and 16.
/// let images = [places([8]), places([16])];
/// let team = Team::new(&instance, &images)?;
/// let sheets = [instance.with_statement(&images[0])?, instance.with_statement(&images[1])?];
/// let (first, t0) = Prover::new().commit(&sheets[0], &places([2]))?;
/// let (second, t1) = Prover::new().commit(&sheets[1], &places([3]))?;
/// let commitment = team.join_commitments(&[t0, t1])?;
/// let (_, r0) = first.respond(&sheets[0], 3, &places([3]))?;
/// let (_, r1) = second.respond(&sheets[1], 3, &places([4]))?;
/// let response = team.join_responses(&[r0, r1])?;
/// assert_eq!((commitment, response), (places([9]), places([4])));
/// assert!(instance.judge(&Round { commitment, challenge: 3, response })?.is_accepted());
/// # Ok::<(), dimkhoros::Refusal>(())
/// ```
#[derive(Clone, Copy, Debug)]
pub struct Team<'a> {
    instance: &'a Instance,
    images: Parts,
    players: usize,
}

impl<'a> Team<'a> {
    /// Takes the players of these images together, or refuses them: with 27 where they are not 2 to 8, 11 where an image's value
    /// is no group element, and 28 where the images do not multiply to the statement.
    ///
    /// ```
    /// use dimkhoros::{Refusal, Team, places};
    /// # use dimkhoros::{Instance, Patterns, Plan};
    /// # let plan = Plan { pattern: 1, modulus: 23, order: 11, challenges: 11, values: &[2], statement: &[13] };
    /// # let instance = Instance::from_pattern(&Patterns::shipped(), &plan)?;
    ///
    /// let refusal = |images: &[_]| Team::new(&instance, images).err();
    /// assert_eq!(refusal(&[places([8]), places([16])]), None);
    /// assert_eq!(refusal(&[places([13])]), Some(Refusal::Team));
    /// assert_eq!(refusal(&[places([8]), places([5])]), Some(Refusal::Statement));
    /// assert_eq!(refusal(&[places([8]), places([8])]), Some(Refusal::Images));
    /// # Ok::<(), Refusal>(())
    /// ```
    pub fn new(instance: &'a Instance, images: &[Places]) -> Result<Team<'a>, Refusal> {
        let players = images.len();
        let images = parts(images);
        // No call of the library only tests a team: both joining calls do so. Ones are commitments on every sheet.
        let count = u32::try_from(players).unwrap_or(u32::MAX);
        let joined = sys::team_commitment(instance.bytes(), count, &images, &[1; PARTS]);
        Refusal::check(joined.refusal)?;
        Ok(Team { instance, images, players })
    }

    /// The sheet.
    ///
    /// ```
    /// use dimkhoros::{Team, places};
    /// # use dimkhoros::{Instance, Patterns, Plan};
    /// # let plan = Plan { pattern: 1, modulus: 23, order: 11, challenges: 11, values: &[2], statement: &[13] };
    /// # let instance = Instance::from_pattern(&Patterns::shipped(), &plan)?;
    ///
    /// let team = Team::new(&instance, &[places([8]), places([16])])?;
    /// assert_eq!(team.instance(), &instance);
    /// # Ok::<(), dimkhoros::Refusal>(())
    /// ```
    pub fn instance(&self) -> &'a Instance {
        self.instance
    }

    /// How many players the team has, 2 to 8.
    ///
    /// ```
    /// use dimkhoros::{Team, places};
    /// # use dimkhoros::{Instance, Patterns, Plan};
    /// # let plan = Plan { pattern: 1, modulus: 23, order: 11, challenges: 11, values: &[2], statement: &[13] };
    /// # let instance = Instance::from_pattern(&Patterns::shipped(), &plan)?;
    ///
    /// let team = Team::new(&instance, &[places([8]), places([6]), places([18])])?;
    /// assert_eq!(team.players(), 3);
    /// # Ok::<(), dimkhoros::Refusal>(())
    /// ```
    pub fn players(&self) -> usize {
        self.players
    }

    /// The players' commitments, in the order of their images, multiplied modulo m row by row; or refusal 14. Another number of
    /// commitments than of players is refused with 27.
    ///
    /// ```
    /// use dimkhoros::{Refusal, Team, places};
    /// # use dimkhoros::{Instance, Patterns, Plan};
    /// # let plan = Plan { pattern: 1, modulus: 23, order: 11, challenges: 11, values: &[2], statement: &[13] };
    /// # let instance = Instance::from_pattern(&Patterns::shipped(), &plan)?;
    ///
    /// let team = Team::new(&instance, &[places([8]), places([16])])?;
    /// assert_eq!(team.join_commitments(&[places([4]), places([8])]), Ok(places([9])));
    /// assert_eq!(team.join_commitments(&[places([4]), places([5])]), Err(Refusal::Commitment));
    /// assert_eq!(team.join_commitments(&[places([4])]), Err(Refusal::Team));
    /// # Ok::<(), Refusal>(())
    /// ```
    pub fn join_commitments(&self, commitments: &[Places]) -> Result<Places, Refusal> {
        self.joined(commitments, sys::team_commitment)
    }

    /// The players' responses, in the order of their images, joined column by column: added modulo q (exponent sheets) or
    /// multiplied modulo m (root sheets); or refusal 16. Another number of responses than of players is refused with 27.
    ///
    /// ```
    /// use dimkhoros::{Refusal, Team, places};
    /// # use dimkhoros::{Instance, Patterns, Plan};
    /// # let plan = Plan { pattern: 1, modulus: 23, order: 11, challenges: 11, values: &[2], statement: &[13] };
    /// # let instance = Instance::from_pattern(&Patterns::shipped(), &plan)?;
    ///
    /// let team = Team::new(&instance, &[places([8]), places([16])])?;
    /// assert_eq!(team.join_responses(&[places([10]), places([5])]), Ok(places([4])));
    /// assert_eq!(team.join_responses(&[places([10]), places([11])]), Err(Refusal::Coordinate));
    /// assert_eq!(team.join_responses(&[places([10]); 3]), Err(Refusal::Team));
    /// # Ok::<(), Refusal>(())
    /// ```
    pub fn join_responses(&self, responses: &[Places]) -> Result<Places, Refusal> {
        self.joined(responses, sys::team_response)
    }

    /// What one of the two calls makes of what the players bring.
    fn joined(
        &self,
        brought: &[Places],
        call: fn(&[u8], u32, &Parts, &Parts) -> sys::Computed,
    ) -> Result<Places, Refusal> {
        if brought.len() != self.players {
            return Err(Refusal::Team);
        }
        let count = self.players as u32;
        let joined = call(self.instance.bytes(), count, &self.images, &parts(brought));
        Refusal::check(joined.refusal)?;
        Ok(joined.values)
    }
}

/// What the first eight players bring, one behind the other, with zeros behind it.
fn parts(brought: &[Places]) -> Parts {
    let mut all = [0; PARTS];
    let kept = &brought[..brought.len().min(MOST_PLAYERS)];
    all[..kept.len() * PLACES].copy_from_slice(kept.as_flattened());
    all
}
