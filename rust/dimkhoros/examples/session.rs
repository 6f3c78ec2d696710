//! The box Peggy and the box Vic run the session of page A. In this program both boxes are one; only t, c and r pass over.

mod common;

use common::page_a;
use dimkhoros::{Prover, Refusal, Verifier, places};

fn main() -> Result<(), Refusal> {
    let instance = page_a()?;
    let witness = places([7]);

    let early = Verifier::new().take_challenge(&instance, 3).unwrap_err();
    println!("Vic asks before he has heard a commitment: {}", early.refusal);
    let vic = early.session;

    let (peggy, t) = Prover::new().commit(&instance, &places([5]))?;
    println!("Peggy commits to the nonce 5: t = {}", t[0]);

    let vic = vic.take_commitment(&instance, &t)?;
    println!("Vic hears t = {}", vic.commitment()[0]);

    let vic = vic.take_challenge(&instance, 3)?;
    let c = vic.challenge();
    println!("Vic asks c = {c}");

    let (peggy, r) = peggy.respond(&instance, c, &witness)?;
    println!("Peggy responds by the witness 7: r = {}", r[0]);

    let (_, verdict) = vic.take_response(&instance, &r)?;
    println!("Vic judges r = {}: {verdict}", r[0]);

    let again = peggy.respond(&instance, 1, &witness).unwrap_err();
    println!("Peggy is asked c = 1 on the same nonce: {}", again.refusal);
    Ok(())
}
