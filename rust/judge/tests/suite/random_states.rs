//! Random calls on one session with saving and returning, against a model.

use std::collections::BTreeMap;

use judge::*;

use crate::naive::*;
use crate::random::small;
use crate::tools::*;

/// What a session is held against.
struct Model {
    state: Saved,
    saved: BTreeMap<u64, Saved>,
    answered: Vec<[u32; 8]>,
}

impl Model {
    fn new() -> Model {
        Model {
            state: Saved { phase: ProverPhase::New, nonce: [0; 8], commitment: [0; 8] },
            saved: BTreeMap::new(),
            answered: Vec::new(),
        }
    }

    /// The session is what the model says.
    fn fits(&self, session: &Prover) {
        let state =
            Saved { phase: session.phase, nonce: session.nonce, commitment: session.commitment };
        assert_eq!(state, self.state);
        for name in 0..8 {
            let saved = session.saved[name as usize];
            assert_eq!(saved.as_ref(), self.saved.get(&name));
        }
        assert_eq!(session.count, self.answered.len() as u64);
        let (used, rest) = session.answered.split_at(self.answered.len());
        assert_eq!(used, self.answered);
        assert!(rest.iter().all(|place| *place == [0; 8]));
    }
}

/// Eight places with 0 beyond the first `used`.
fn cut(values: &[u32; 8], used: u32) -> [u32; 8] {
    eight(&values[..used as usize])
}

/// A sheet with a witness, its bytes and the witness.
fn provable(shifts: &mut Shifts) -> (Vec<u8>, Sheet, [u32; 8]) {
    let (_, mut sheet) = small(shifts);
    let x = shifts.picks(&slots(&sheet));
    sheet.statement = slow_image(&sheet, &x);
    let mut bytes = vec![0; 400];
    let length = encode(&sheet, &mut bytes).unwrap();
    bytes.truncate(length);
    (bytes, sheet, x)
}

#[test]
fn no_commitment_gets_two_answers() {
    let mut shifts = Shifts(0x57A7_E013_57A7_E013);
    // How often each refusal of the two last calls and of responding was met.
    let mut met: BTreeMap<u32, u32> = BTreeMap::new();
    let mut most = 0;
    for _ in 0..400 {
        let (bytes, sheet, x) = provable(&mut shifts);
        let slots = slots(&sheet);
        let (mut session, mut model) = (Prover::new(), Model::new());
        let mut returned = false;
        // In three runs of four the name 7 keeps the new state.
        if shifts.below(4) > 0 {
            session = save(session, 7).1;
            model.saved.insert(7, model.state);
        }
        for _ in 0..120 {
            let before = session.clone();
            let refusal = match shifts.below(10) {
                0..=2 => {
                    let k = shifts.picks(&slots);
                    let (answer, next) = commit(&bytes, session, &k);
                    session = next;
                    if model.state.phase == ProverPhase::New {
                        let commitment = slow_image(&sheet, &k);
                        assert_eq!(answer, Ok(commitment));
                        model.state = Saved {
                            phase: ProverPhase::Committed,
                            nonce: cut(&k, sheet.columns),
                            commitment,
                        };
                        0
                    } else {
                        assert_eq!(answer, Err(21));
                        21
                    }
                }
                3..=5 => {
                    let c = shifts.below(sheet.challenges.into()) as u32;
                    let (answer, next) = respond(&bytes, session, c, &x);
                    session = next;
                    let expected = match model.state.phase {
                        ProverPhase::Committed => {
                            if model.answered.contains(&model.state.commitment) {
                                32
                            } else if model.answered.len() >= 64 {
                                33
                            } else {
                                0
                            }
                        }
                        _ => 21,
                    };
                    assert_eq!(answer.err().unwrap_or(0), expected);
                    if let Ok(r) = answer {
                        let t = model.state.commitment;
                        let verdict = judge(&bytes, &round(&t, c, &r));
                        assert_eq!(verdict, Verdict::Accepted);
                        model.answered.push(t);
                        model.state.phase = ProverPhase::Answered;
                        model.state.nonce = [0; 8];
                    }
                    expected
                }
                6 if shifts.below(4) == 0 => {
                    let (answer, next) = drop_session(session);
                    session = next;
                    match model.state.phase {
                        ProverPhase::New | ProverPhase::Committed => {
                            assert_eq!(answer, Ok(()));
                            model.state.phase = ProverPhase::Dropped;
                            model.state.nonce = [0; 8];
                            0
                        }
                        _ => {
                            assert_eq!(answer, Err(21));
                            21
                        }
                    }
                }
                6 | 7 => {
                    let name = [0, 1, 2, 3, 4, 5, 6, 8][shifts.below(8) as usize];
                    let (answer, next) = save(session, name);
                    session = next;
                    if name < 8 {
                        model.saved.insert(name, model.state);
                    }
                    assert_eq!(answer, if name < 8 { Ok(()) } else { Err(34) });
                    answer.err().unwrap_or(0)
                }
                _ => {
                    let name = match shifts.below(2) {
                        0 => 7,
                        _ => shifts.below(9),
                    };
                    let (answer, next) = return_to(session, name);
                    session = next;
                    match model.saved.get(&name) {
                        Some(state) => {
                            assert_eq!(answer, Ok(()));
                            model.state = *state;
                            returned = true;
                        }
                        None => assert_eq!(answer, Err(34)),
                    }
                    answer.err().unwrap_or(0)
                }
            };
            if refusal != 0 {
                assert_eq!(session, before);
            }
            *met.entry(refusal).or_default() += 1;
            model.fits(&session);
            // No commitment is listed twice, and without a return there is at
            // most one.
            let mut list = model.answered.clone();
            list.sort();
            list.dedup();
            assert_eq!(list.len(), model.answered.len());
            assert!(returned || list.len() <= 1);
            most = most.max(list.len());
        }
    }
    assert!([0, 21, 32, 34].iter().all(|number| met[number] > 500), "{met:?}");
    assert!(most > 5, "{most}");
}
