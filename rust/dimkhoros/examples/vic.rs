//! The box Vic: vic FOLDER COUNT. He judges COUNT rounds of a Peggy, over standard input and output, and exits with 0 where
//! all are accepted and with 1 where one is not. FOLDER has sheet.bin and the stored session, session.bin. The steps are those
//! of docs/BOXES.md.

mod boxes;

use boxes::{Base, Failure, Line, random_below};
use dimkhoros::{PLACES, Places, Refused, Verdict, Verifier, VerifierPhase};
use std::env;
use std::process::ExitCode;

struct Vic {
    base: Base,
    rounds: u32,
    judged: u32,
    accepted: u32,
}

/// These numbers, with zeros behind them.
fn in_places(numbers: &[u32]) -> Places {
    let mut places = [0; PLACES];
    places[..numbers.len()].copy_from_slice(numbers);
    places
}

/// Says why a line is not taken.
fn say_refused(refused: &Refused<Verifier>) {
    eprintln!("vic does not take it: {}", refused.refusal.sentence());
}

/// Says the verdict, with the rows that differ where it is rejected.
fn say(verdict: Verdict) {
    let mut words = String::from("accepted");
    if let Verdict::Rejected { rows } = verdict {
        words =
            rows.into_iter().fold(String::from("rejected"), |words, row| format!("{words} {row}"));
    }
    eprintln!("vic says {words}");
}

impl Vic {
    /// The commitment by which the lines on a session name it.
    fn commitment<'a>(&self, session: &'a Verifier) -> &'a [u32] {
        &session.commitment()[..self.base.rows()]
    }

    /// Whether the session waits for a challenge or a response, and a line names its commitment.
    fn is_named(&self, session: &Verifier, line: &Line) -> bool {
        matches!(session.phase(), VerifierPhase::Holding | VerifierPhase::Asked)
            && line.numbers.starts_with(self.commitment(session))
    }

    /// Step 1: goes on with the session that is found, or with a new one, and says that he is ready.
    fn start(&self) -> Result<Verifier, Failure> {
        let session = match self.base.stored()? {
            None => Verifier::new(),
            Some(stored) => Verifier::from_stored(&stored).unwrap_or_else(|damaged| {
                eprintln!("vic finds no session: {damaged}");
                Verifier::new()
            }),
        };
        self.base.send("ready", &[], &[])?;
        Ok(session)
    }

    /// Step 2: takes a commitment into a session of its own, where it is not the one that the session holds.
    fn take_commitment(&self, session: Verifier, line: &Line) -> Result<Verifier, Failure> {
        if self.is_named(&session, line) {
            return self.ask(session);
        }
        match Verifier::new().take_commitment(&self.base.sheet, &in_places(&line.numbers)) {
            Ok(session) => {
                self.base.store(&session.to_stored())?;
                self.ask(session)
            }
            Err(refused) => {
                say_refused(&refused);
                Ok(session)
            }
        }
    }

    /// Steps 3 and 4: draws the one challenge on a commitment, stores it, and only then sends it.
    fn ask(&self, mut session: Verifier) -> Result<Verifier, Failure> {
        if session.phase() == VerifierPhase::Holding {
            let challenge = random_below(self.base.header().challenges)?;
            session = session.take_challenge(&self.base.sheet, challenge)?;
            self.base.store(&session.to_stored())?;
        }
        self.base.send("challenge", self.commitment(&session), &[session.challenge()])?;
        Ok(session)
    }

    /// Steps 6 and 7: judges a response, stores that it is judged, and only then says the verdict.
    fn judge(&mut self, session: Verifier, response: &[u32]) -> Result<Verifier, Failure> {
        let judged = session.take_response(&self.base.sheet, &in_places(response));
        let (session, verdict) = match judged {
            Ok(judged) => judged,
            Err(refused) => {
                say_refused(&refused);
                return Ok(refused.session);
            }
        };
        self.base.store(&session.to_stored())?;
        say(verdict);
        self.judged += 1;
        self.accepted += u32::from(verdict.is_accepted());
        if self.judged < self.rounds {
            self.base.send("ready", &[], &[])?;
        }
        Ok(session)
    }

    /// Steps 2 and 5: a response is judged only where it names the commitment of the session.
    fn take_line(&mut self, session: Verifier, line: &Line) -> Result<Verifier, Failure> {
        let (rows, columns) = (self.base.rows(), self.base.columns());
        if line.is("commitment", rows) {
            self.take_commitment(session, line)
        } else if line.is("response", rows + columns) && self.is_named(&session, line) {
            self.judge(session, &line.numbers[rows..])
        } else {
            eprintln!("vic does not take it: this is not for his commitment");
            Ok(session)
        }
    }
}

fn main() -> Result<ExitCode, Failure> {
    let arguments: Vec<String> = env::args().skip(1).collect();
    let [folder, count] = &arguments[..] else { return Err("usage: vic FOLDER COUNT".into()) };
    let base = Base::open("vic", folder.clone())?;
    let mut vic = Vic { base, rounds: count.parse()?, judged: 0, accepted: 0 };
    let mut session = vic.start()?;
    while vic.judged < vic.rounds {
        let Some(line) = vic.base.hear()? else { break };
        session = vic.take_line(session, &line)?;
    }
    Ok(if vic.accepted == vic.rounds { ExitCode::SUCCESS } else { ExitCode::FAILURE })
}
