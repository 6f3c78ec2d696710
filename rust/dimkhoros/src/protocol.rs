//! Images, judging, simulating and extracting.

use crate::{Instance, Places, Refusal, Round, Rows, Verdict};
use dimkhoros_sys::{self as sys, Judgement};

impl Instance {
    /// The image [x] of a witness x: the statement z that x is a witness of. Refused with 16.
    ///
    /// It does not depend on the sheet's own statement. So a sheet for x is made with ones, which every group has, and then gets
    /// the image as its statement. The library's call is that of the commitment to the nonce x.
    ///
    /// ```
    /// use dimkhoros::{Instance, Patterns, Plan, Refusal, places};
    ///
    /// let plan = Plan { pattern: 1, modulus: 23, order: 11, challenges: 11, values: &[2], statement: &[1] };
    /// let ones = Instance::from_pattern(&Patterns::shipped(), &plan)?;
    /// let z = ones.image(&places([7]))?;
    /// assert_eq!(z, places([13]));
    /// let instance = ones.with_statement(&z)?;
    /// assert_eq!(instance.values().statement, z);
    /// assert_eq!(instance.image(&places([11])), Err(Refusal::Coordinate));
    /// # Ok::<(), Refusal>(())
    /// ```
    pub fn image(&self, witness: &Places) -> Result<Places, Refusal> {
        let answer = sys::prover_commit(self.bytes(), sys::prover_new(), witness);
        Refusal::check(answer.refusal)?;
        Ok(answer.values)
    }

    /// The verifier's verdict on a round, or a refusal 14 to 16.
    ///
    /// ```
    /// use dimkhoros::{places, Refusal, Round, Rows, Verdict};
    /// # use dimkhoros::{Instance, Patterns, Plan};
    /// # let plan = Plan { pattern: 1, modulus: 23, order: 11, challenges: 11, values: &[2], statement: &[13] };
    /// # let instance = Instance::from_pattern(&Patterns::shipped(), &plan)?;
    ///
    /// let round = Round { commitment: places([9]), challenge: 3, response: places([4]) };
    /// assert_eq!(instance.judge(&round), Ok(Verdict::Accepted));
    /// let rejected = Verdict::Rejected { rows: Rows::from_mask(1) };
    /// assert_eq!(instance.judge(&Round { challenge: 2, ..round }), Ok(rejected));
    /// assert_eq!(instance.judge(&Round { challenge: 11, ..round }), Err(Refusal::Challenge));
    /// # Ok::<(), Refusal>(())
    /// ```
    pub fn judge(&self, round: &Round) -> Result<Verdict, Refusal> {
        verdict(&sys::judge(self.bytes(), round))
    }

    /// The simulator: the one commitment with which the verifier accepts this challenge and response, or a refusal 15 or 16.
    ///
    /// No witness is needed for it. For one challenge, the simulated rounds over all responses are exactly the accepted
    /// rounds with that challenge, each met once, and so are the honest rounds of a witness over all nonces: this is proved.
    ///
    /// ```
    /// use dimkhoros::{places, Round};
    /// # use dimkhoros::{Instance, Patterns, Plan};
    /// # let plan = Plan { pattern: 1, modulus: 23, order: 11, challenges: 11, values: &[2], statement: &[13] };
    /// # let instance = Instance::from_pattern(&Patterns::shipped(), &plan)?;
    ///
    /// let response = places([0]);
    /// let commitment = instance.simulate(3, &response)?;
    /// assert_eq!(commitment, places([2]));
    /// assert!(instance.judge(&Round { commitment, challenge: 3, response })?.is_accepted());
    /// # Ok::<(), dimkhoros::Refusal>(())
    /// ```
    pub fn simulate(&self, challenge: u32, response: &Places) -> Result<Places, Refusal> {
        let computed = sys::simulate(self.bytes(), challenge, response);
        Refusal::check(computed.refusal)?;
        Ok(computed.values)
    }

    /// The extractor: the witness that two accepted rounds with one commitment and different challenges give away, or a
    /// refusal 14 to 16 or 18 to 20.
    ///
    /// The table carries it to the statement, and it is the same one with the rounds swapped: this is proved.
    ///
    /// ```
    /// use dimkhoros::{places, Refusal, Round};
    /// # use dimkhoros::{Instance, Patterns, Plan};
    /// # let plan = Plan { pattern: 1, modulus: 23, order: 11, challenges: 11, values: &[2], statement: &[13] };
    /// # let instance = Instance::from_pattern(&Patterns::shipped(), &plan)?;
    ///
    /// let first = Round { commitment: places([9]), challenge: 3, response: places([4]) };
    /// let second = Round { commitment: places([9]), challenge: 1, response: places([1]) };
    /// assert_eq!(instance.extract(&first, &second), Ok(places([7])));
    /// assert_eq!(instance.extract(&first, &first), Err(Refusal::ChallengesEqual));
    /// # Ok::<(), Refusal>(())
    /// ```
    pub fn extract(&self, first: &Round, second: &Round) -> Result<Places, Refusal> {
        let computed = sys::extract(self.bytes(), first, second);
        Refusal::check(computed.refusal)?;
        Ok(computed.values)
    }
}

/// The verdict of an answer, or its refusal.
pub(crate) fn verdict(answer: &Judgement) -> Result<Verdict, Refusal> {
    Refusal::check(answer.refusal)?;
    if answer.accepted == 1 {
        return Ok(Verdict::Accepted);
    }
    Ok(Verdict::Rejected { rows: Rows::from_mask(answer.rows) })
}
