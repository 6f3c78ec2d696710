//! The answers of the OR proof's calls as the vectors have them.

use super::Given;
use super::answers::{list, phase, rows, sizes, told};
use super::inputs::{Inputs, PROVER_PHASES};
use crate::calls::Call;
use crate::library::{Library, OrAnswer, OrExtracted, OrJudgement, OrSession};

/// What Peggy's session holds.
pub fn session(held: &OrSession) -> String {
    let [nonce, response, t0, t1] = [held.nonce, held.response, held.commitment0, held.commitment1]
        .map(|places| list(&places, 1));
    let (phase, side, challenge) = (phase(PROVER_PHASES, held.phase), held.side, held.challenge);
    format!(
        "phase={phase} side={side} nonce={nonce} challenge={challenge} response={response} \
         commitment0={t0} commitment1={t1}"
    )
}

impl Given {
    /// The rows and the columns of both sheets.
    fn both_sizes(&self) -> [(usize, usize); 2] {
        [sizes(&self.sheet), sizes(&self.second)]
    }

    /// Judging and extracting.
    pub fn or_round(
        &self,
        library: Library,
        call: Call,
        inputs: &mut Inputs,
    ) -> Result<String, String> {
        let (first, second) = (&self.sheet, &self.second);
        let round = inputs.or_round("")?;
        if call == Call::OrJudge {
            let judged = library.or_judge(first, second, &round);
            let OrJudgement { accepted, rows0, rows1, refusal } = judged;
            let clean = accepted == 0 && rows0 == 0 && rows1 == 0;
            let [rows0, rows1] = [rows0, rows1].map(|mask| match mask {
                0 => "-".to_string(),
                _ => rows(mask).join(","),
            });
            return Ok(told(refusal, clean, || match accepted {
                1 => "accepted".to_string(),
                _ => format!("rejected rows0={rows0} rows1={rows1}"),
            }));
        }
        let other = inputs.or_round("_2")?;
        let OrExtracted { values, side, refusal } =
            library.or_extract(first, second, &round, &other);
        let columns = self.both_sizes()[usize::from(side == 1)].1;
        let clean = values == [0; 8] && side == 0;
        Ok(told(refusal, clean, || format!("side={side} x={}", list(&values, columns))))
    }

    pub fn or_prover_step(
        &self,
        library: Library,
        call: Call,
        inputs: &mut Inputs,
    ) -> Result<String, String> {
        let (first, second) = (&self.sheet, &self.second);
        let [(s0, n0), (s1, n1)] = self.both_sizes();
        let given = inputs.or_prover()?;
        let answer = match call {
            Call::OrProverCommit => {
                let (known, nonce) = (inputs.number("known")?, inputs.brought("k")?);
                let (challenge, response) = (inputs.number("d")?, inputs.brought("r")?);
                library.or_prover_commit(first, second, given, known, &nonce, challenge, &response)
            }
            Call::OrProverRespond => {
                let (challenge, witness) = (inputs.number("c")?, inputs.brought("x")?);
                library.or_prover_respond(first, second, given, challenge, &witness)
            }
            _ => library.or_prover_drop(given),
        };
        let OrAnswer { session: next, values0, values1, challenge0, refusal } = answer;
        let nothing = values0 == [0; 8] && values1 == [0; 8] && challenge0 == 0;
        let clean = next == given && nothing;
        Ok(told(refusal, clean, || {
            let next = session(&next);
            match call {
                Call::OrProverCommit if challenge0 == 0 => {
                    format!("t0={} t1={} {next}", list(&values0, s0), list(&values1, s1))
                }
                Call::OrProverDrop if nothing => next,
                _ => {
                    let (r0, r1) = (list(&values0, n0), list(&values1, n1));
                    format!("c0={challenge0} r0={r0} r1={r1} {next}")
                }
            }
        }))
    }
}
