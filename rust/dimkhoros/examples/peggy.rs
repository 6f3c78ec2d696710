//! The box Peggy: peggy FOLDER. She proves, over standard input and output, that she knows the witness of a sheet, round after
//! round, until her input ends. FOLDER has sheet.bin, witness.txt and the stored session, session.bin. The steps are those of
//! docs/BOXES.md.

mod boxes;

use boxes::{Base, Failure, Line, random_below};
use dimkhoros::{
    Found, NoResponse, PLACES, Places, Prover, ProverPhase, ROOT, Refusal, STORED_PROVER,
};
use std::env;
use std::fs;
use std::io;
use std::path::Path;

/// The tests also build a Peggy without one of these two rules, and without both, and find what she gives away.
const ANSWER_FOUND_SESSION: bool = cfg!(answer_found_session);
const SEND_BEFORE_STORING: bool = cfg!(send_before_storing);

struct Peggy {
    base: Base,
    witness: Places,
}

impl Peggy {
    /// Reads the witness from its file, a line of the word `witness` and a number for each column.
    fn open(folder: String) -> Result<Peggy, Failure> {
        let base = Base::open("peggy", folder)?;
        let text = fs::read_to_string(Path::new(&base.folder).join("witness.txt"))?;
        let line = Line::read(text.lines().next().unwrap_or_default());
        if !line.is("witness", base.columns()) {
            return Err("there is no witness.txt for this sheet in the folder".into());
        }
        let mut witness = [0; PLACES];
        witness[..base.columns()].copy_from_slice(&line.numbers);
        Ok(Peggy { base, witness })
    }

    /// The commitment by which the lines on a session name it.
    fn commitment<'a>(&self, session: &'a Prover) -> &'a [u32] {
        &session.commitment()[..self.base.rows()]
    }

    /// Draws a nonce, place by place: any number below q (exponent sheets), or any number from 1 to m - 1 that is a group
    /// element (root sheets), which the library knows. The places that are not drawn yet hold 1, which no sheet refuses.
    fn draw_nonce(&self) -> io::Result<Places> {
        let header = self.base.header();
        let mut nonce = [1; PLACES];
        for place in 0..self.base.columns() {
            loop {
                nonce[place] = match header.kind {
                    ROOT => 1 + random_below(header.modulus - 1)?,
                    _ => random_below(header.order)?,
                };
                let trial = Prover::new().commit(&self.base.sheet, &nonce);
                if !trial.is_err_and(|refused| refused.refusal == Refusal::Coordinate) {
                    break;
                }
            }
        }
        Ok(nonce)
    }

    /// Steps 2 to 4: begins a session.
    fn begin(&self) -> Result<Prover, Failure> {
        let (session, _) = Prover::new().commit(&self.base.sheet, &self.draw_nonce()?)?;
        self.base.store(&session.to_stored())?;
        self.base.send("commitment", self.commitment(&session), &[])?;
        Ok(session)
    }

    /// Says the commitment of the session that waits for its challenge, or begins one.
    fn say_commitment(&self, session: Prover) -> Result<Prover, Failure> {
        if session.phase() != ProverPhase::Committed {
            return self.begin();
        }
        self.base.send("commitment", self.commitment(&session), &[])?;
        Ok(session)
    }

    /// Gives up a session that waits for its challenge, and with it the nonce.
    fn give_up(&self, session: Prover) -> Result<Prover, Failure> {
        if session.phase() != ProverPhase::Committed {
            return Ok(session);
        }
        let session = session.drop_session()?;
        self.store_dropped(&session)?;
        Ok(session)
    }

    /// Stores a session that was dropped, and says so.
    fn store_dropped(&self, session: &Prover) -> io::Result<()> {
        self.base.store(&session.to_stored())?;
        eprintln!("peggy drops a session");
        Ok(())
    }

    /// Reads the stored session back. One that holds a nonce is dropped.
    fn reopen(&self, stored: &[u8]) -> io::Result<Prover> {
        if let (true, Ok(session)) = (ANSWER_FOUND_SESSION, Prover::from_stored_with_nonce(stored))
        {
            return Ok(session);
        }
        let (session, found) = Prover::reopen(stored);
        match found {
            Found::Committed => self.store_dropped(&session)?,
            Found::Damaged => eprintln!("peggy finds no session: {found}"),
            _ => {}
        }
        Ok(session)
    }

    /// Step 1. If nothing is stored, Peggy never ran. If something is, a run of hers has ended, and she begins another session,
    /// since Vic may wait for her.
    fn start(&self) -> Result<Prover, Failure> {
        let Some(stored) = self.base.stored()? else {
            self.base.store(&Prover::new().to_stored())?;
            return Ok(Prover::new());
        };
        self.say_commitment(self.reopen(&stored)?)
    }

    /// Steps 6 to 8: answers a challenge, stores the session, whose nonce is gone, and only then sends the response.
    fn answer(&self, session: Prover, challenge: u32) -> Result<Prover, Failure> {
        let base = &self.base;
        let store = |stored: &[u8; STORED_PROVER]| {
            if SEND_BEFORE_STORING { Ok(()) } else { base.store(stored) }
        };
        match session.respond_after(&base.sheet, challenge, &self.witness, store) {
            Ok((session, response)) => {
                base.send("response", self.commitment(&session), &response[..base.columns()])?;
                if SEND_BEFORE_STORING {
                    base.store(&session.to_stored())?;
                }
                Ok(session)
            }
            Err(NoResponse::Refused(refused)) => {
                eprintln!("peggy does not answer: {}", refused.refusal.sentence());
                Ok(refused.session)
            }
            Err(NoResponse::NotStored { error, .. }) => Err(error.into()),
        }
    }

    /// Step 5: a challenge is answered only where it names the commitment of the session.
    fn take_line(&self, session: Prover, line: &Line) -> Result<Prover, Failure> {
        let rows = self.base.rows();
        let named = line.numbers.starts_with(self.commitment(&session));
        if line.is("ready", 0) {
            self.say_commitment(session)
        } else if line.is("challenge", rows + 1) && named {
            self.answer(session, line.numbers[rows])
        } else {
            eprintln!("peggy does not answer: this is not for her commitment");
            Ok(session)
        }
    }
}

fn main() -> Result<(), Failure> {
    let folder = env::args().nth(1).ok_or("usage: peggy FOLDER")?;
    let peggy = Peggy::open(folder)?;
    let mut session = peggy.start()?;
    while let Some(line) = peggy.base.hear()? {
        session = peggy.take_line(session, &line)?;
    }
    let _ = peggy.give_up(session)?;
    Ok(())
}
