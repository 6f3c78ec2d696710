//! The answers of a team's calls as the vectors have them.

use super::Given;
use super::answers::{list, sizes, told};
use super::inputs::Inputs;
use crate::calls::Call;
use crate::library::{Computed, Library};

impl Given {
    pub fn team(
        &self,
        library: Library,
        call: Call,
        inputs: &mut Inputs,
    ) -> Result<String, String> {
        let (s, n) = sizes(&self.sheet);
        let (count, images) = (inputs.number("players")?, inputs.table("images")?);
        let (answer, name, used) = if call == Call::TeamCommitment {
            let parts = inputs.table("t")?;
            let answer = library.team_commitment(&self.sheet, count, &images, &parts);
            (answer, "t", s)
        } else {
            let parts = inputs.table("r")?;
            let answer = library.team_response(&self.sheet, count, &images, &parts);
            (answer, "r", n)
        };
        let Computed { values, refusal } = answer;
        Ok(told(refusal, values == [0; 8], || format!("{name}={}", list(&values, used))))
    }
}
