//! What a student reads.

use crate::sheets::levels;
use crate::sheets::notation::{self, counted};
use dimkhoros::Instance;

/// The README of a student's folder.
pub fn text(name: &str, sheet: &Instance, level: u8) -> String {
    let header = sheet.values().header;
    let challenges = header.challenges;
    let [last_nonce, last_challenge] = [header.order - 1, challenges - 1];
    let rounds = counted(levels::needed(challenges, level), "round");
    let line = notation::line(sheet);
    format!(
        "\
# {name}

Your sheet is in sheet.bin: {line}.
`dimkhoros show sheet.bin` shows it.

Hand in this folder with a file rounds.bin. It must have at least {rounds} (level {level},
K = {challenges}), and Vic must accept each.

    dimkhoros rounds make sheet.bin x=X k=NONCE c=CHALLENGE ... -o rounds.bin

X is the secret that your teacher gave you. For each round draw k from 0 to {last_nonce} and c from 0
to {last_challenge}, new each time. Such rounds are an exercise in computing: since you chose c yourself,
they do not show that you know x.

Before you hand it in, `dimkhoros reason .` says whether it passes, and why not.
These numbers are for learning. They protect nothing.
"
    )
}
