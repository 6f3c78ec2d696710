//! The extractor, saved states, a watch, the simulator, rounds that multiply, the OR proof and the game, for a lecture. Two
//! rounds on one nonce give the witness away, so that nobody can make such rounds without knowing it; a session that returns
//! to a saved state does not answer the same commitment again; a watch that is given the rounds of a term tells of a nonce
//! that was used twice; rounds can be simulated without the witness, so a round tells Vic nothing about it; rounds of two
//! sheets of one table multiply to rounds of a third; Peggy, who knows a witness of one of two sheets, simulates the other,
//! so a round does not tell which of the two she knows; and on a small sheet all responses are tried, to see which challenges
//! a commitment can answer.

mod common;

use common::page_a;
use dimkhoros::{
    EMPTY_FILE, Instance, LONGEST_GAME, MOST_REMEMBERED, OrProver, OrProverParts, OrRound, Pair,
    Pattern, Patterns, Places, Plan, Prover, ProverParts, Refusal, Round, RoundWriter, Side, Watch,
    game, places,
};

const WITNESS: Places = [7, 0, 0, 0, 0, 0, 0, 0];

/// The modulus of page A's sheet.
const MODULUS: u32 = 23;

/// The order of page A's sheet, and so the count of nonces and of responses. It is the challenge count too.
const ORDER: usize = 11;

/// The round of a committed session that answers this challenge, and the session after it.
fn answer(instance: &Instance, peggy: Prover, challenge: u32) -> Result<(Prover, Round), Refusal> {
    let commitment = *peggy.commitment();
    let (peggy, response) = peggy.respond(instance, challenge, &WITNESS)?;
    Ok((peggy, Round { commitment, challenge, response }))
}

/// A copy of a session answers this challenge and the round is shown.
fn answer_from_copy(
    instance: &Instance,
    parts: &ProverParts,
    challenge: u32,
) -> Result<Round, Refusal> {
    let copy = ProverParts { ..*parts };
    let (_, round) = answer(instance, Prover::from_parts(copy), challenge)?;
    let verdict = instance.judge(&round)?;
    let (t, r) = (round.commitment[0], round.response[0]);
    println!("one copy is asked {challenge}: t = {t}, c = {challenge}, r = {r}, {verdict}");
    Ok(round)
}

/// What no box may do: a session is copied, both copies answer, and the two rounds give the witness away.
fn show_extractor(instance: &Instance) -> Result<(), Refusal> {
    println!("\nThe extractor. A committed session is copied by hand, which no box may do.");
    let (peggy, _) = Prover::new().commit(instance, &places([5]))?;
    let parts = peggy.into_parts();
    let first = answer_from_copy(instance, &parts, 3)?;
    let second = answer_from_copy(instance, &parts, 1)?;
    let witness = instance.extract(&first, &second)?;
    println!("the two rounds give the witness away: x = {}", witness[0]);
    Ok(())
}

/// A session answers this challenge and the round is shown. The session goes on.
fn answer_and_go_on(instance: &Instance, peggy: Prover, challenge: u32) -> Result<Prover, Refusal> {
    let (peggy, round) = answer(instance, peggy, challenge)?;
    let (t, r, verdict) = (round.commitment[0], round.response[0], instance.judge(&round)?);
    println!("asked {challenge}: t = {t}, c = {challenge}, r = {r}, {verdict}");
    Ok(peggy)
}

/// A demonstrator returns to a committed state, whose commitment is not answered again, and goes on from the new one.
fn show_saved_states(instance: &Instance) -> Result<(), Refusal> {
    println!(
        "\nSaved states. A demonstrator saves the new session under 0 and, with the nonce 5, the committed one under 1."
    );
    let (peggy, _) = Prover::new().save(0)?.commit(instance, &places([5]))?;
    let peggy = answer_and_go_on(instance, peggy.save(1)?, 3)?;
    let Err(again) = peggy.return_to(1)?.respond(instance, 1, &WITNESS) else {
        println!("the commitment is answered again, which no session does");
        return Ok(());
    };
    println!("back to 1, with the same nonce, and asked 1: {}", again.refusal);
    let (peggy, _) = again.session.return_to(0)?.commit(instance, &places([6]))?;
    println!("back to 0, and committed to the nonce 6");
    let peggy = answer_and_go_on(instance, peggy, 1)?;
    println!("the session has answered {} commitments", peggy.answered());
    Ok(())
}

/// The rounds of a term, as t, c and r. The second is rejected. The nonce of the first comes again with the same challenge, then
/// with another.
const TERM: [[u32; 3]; 6] = [[9, 3, 4], [3, 3, 0], [9, 3, 4], [4, 9, 10], [9, 1, 1], [3, 4, 3]];

/// A watch is given the rounds one by one, and tells of a nonce that is used again.
fn show_watch(instance: &Instance) -> Result<(), Refusal> {
    println!(
        "\nA watch. It is given the rounds of a term one by one, and remembers the last {MOST_REMEMBERED} accepted ones."
    );
    let mut watch = Watch::open(instance);
    for [t, c, r] in TERM {
        let round = round_of([t, c, r]);
        let heard = watch.hear(instance, &round)?;
        print!("t = {t}, c = {c}, r = {r:2}, {}", heard.verdict);
        if let Some(reuse) = heard.reuse {
            let (back, x) = (reuse.back, reuse.witness[0]);
            print!("; the nonce was used {back} accepted rounds back: x = {x}");
        }
        println!();
    }
    Ok(())
}

/// For one challenge, the rounds that anybody can simulate are those that Peggy can make.
fn show_simulator(instance: &Instance, challenge: u32) -> Result<(), Refusal> {
    println!(
        "\nThe simulator. All rounds with c = {challenge}, simulated without x, and made by Peggy, who knows it."
    );
    let mut peggys = [0; ORDER];
    for nonce in 0..ORDER as u32 {
        let (peggy, _) = Prover::new().commit(instance, &places([nonce]))?;
        let (_, round) = answer(instance, peggy, challenge)?;
        peggys[round.response[0] as usize] = round.commitment[0];
    }
    let mut same = true;
    for (r, peggys) in (0..).zip(peggys) {
        let simulated = instance.simulate(challenge, &places([r]))?[0];
        println!("r = {r:2}: simulated t = {simulated:2}, Peggy's t = {peggys:2}");
        same = same && simulated == peggys;
    }
    let verdict = if same {
        "The rounds are the same, so none of them tells who made it."
    } else {
        "The rounds differ."
    };
    println!("{verdict}");
    Ok(())
}

/// A round of page A's table.
fn round_of([t, c, r]: [u32; 3]) -> Round {
    Round { commitment: places([t]), challenge: c, response: places([r]) }
}

/// Shows a round, and what it is.
fn show_round(sheet: &Instance, round: &Round, what: &str) -> Result<(), Refusal> {
    let (t, c, r) = (round.commitment[0], round.challenge, round.response[0]);
    let (z, verdict) = (sheet.values().statement[0], sheet.judge(round)?);
    println!("z = {z:2}: t = {t:2}, c = {c}, r = {r}, {verdict}{what}");
    Ok(())
}

/// The product of two rounds with one challenge: commitments are multiplied modulo m, and responses added modulo q.
fn multiplied(one: &Round, other: &Round) -> Round {
    let t = one.commitment[0] * other.commitment[0] % MODULUS;
    let r = (one.response[0] + other.response[0]) % ORDER as u32;
    round_of([t, one.challenge, r])
}

/// Rounds of two sheets with equal challenges multiply to rounds of a third, and two products give the sum of the witnesses.
fn show_products(instance: &Instance) -> Result<(), Refusal> {
    println!(
        "\nRounds that multiply. Of the same table are 2^y = 4 and, since 13 * 4 leaves 6, 2^w = 6 modulo 23."
    );
    let first = instance.with_statement(&places([13]))?;
    let second = instance.with_statement(&places([4]))?;
    let third = instance.with_statement(&places([13 * 4 % MODULUS]))?;
    let ones = [[9, 3, 4], [9, 1, 1]].map(round_of);
    let others = [[4, 3, 8], [4, 1, 4]].map(round_of);
    let products = [0, 1].map(|i| multiplied(&ones[i], &others[i]));
    for i in 0..2 {
        show_round(&first, &ones[i], "")?;
        show_round(&second, &others[i], "")?;
        show_round(&third, &products[i], ", the product")?;
    }
    let x = first.extract(&ones[0], &ones[1])?[0];
    let y = second.extract(&others[0], &others[1])?[0];
    let w = third.extract(&products[0], &products[1])?[0];
    println!(
        "the two products give w = {w}, the sum of x = {x} and y = {y}, which their factors give"
    );
    Ok(())
}

/// Who knows a witness of one side, and what is drawn: that side's nonce, and a challenge and a response to simulate the other.
struct Holder {
    knows: &'static str,
    side: Side,
    witness: u32,
    nonce: u32,
    challenge: u32,
    response: u32,
}

/// Two Peggys, who draw what leads to the same round where they are asked 4.
const HOLDERS: [Holder; 2] = [
    Holder { knows: "y = 2", side: Side::Second, witness: 2, nonce: 3, challenge: 6, response: 2 },
    Holder { knows: "x = 7", side: Side::First, witness: 7, nonce: 4, challenge: 9, response: 31 },
];

/// A root sheet, y^11 = 18 modulo 35, with page A's challenge count. The witness is 2.
fn roots() -> Result<Instance, Refusal> {
    let plan = Plan {
        pattern: Pattern::Root.number(),
        modulus: 35,
        order: 11,
        challenges: 11,
        values: &[],
        statement: &[18],
    };
    Instance::from_pattern(&Patterns::shipped(), &plan)
}

/// A copy of a session answers this challenge and the round is shown.
fn answer_either(
    pair: &Pair,
    peggy: &Holder,
    parts: &OrProverParts,
    challenge: u32,
) -> Result<OrRound, Refusal> {
    let copy = OrProver::from_parts(OrProverParts { ..*parts });
    let (_, round) = copy.respond(pair, challenge, &places([peggy.witness]))?;
    let verdict = pair.judge(&round)?;
    let (c0, count) = (round.challenge0, ORDER as u32);
    println!(
        "asked {challenge}: t0 = {}, t1 = {}, c0 = {c0}, c1 = {}, r0 = {}, r1 = {}, {verdict}",
        round.commitment0[0],
        round.commitment1[0],
        (challenge + count - c0) % count,
        round.response0[0],
        round.response1[0],
    );
    Ok(round)
}

/// Holders of either witness make the same round, and two rounds of one of them name the side.
fn show_or_proof(pair: &Pair) -> Result<(), Refusal> {
    println!(
        "\nThe OR proof. Peggy knows x with 2^x = 13 modulo 23, or y with y^11 = 18 modulo 35."
    );
    let mut made = Vec::new();
    for peggy in &HOLDERS {
        println!("Peggy knows {} and simulates {}.", peggy.knows, peggy.side.other());
        let (nonce, response) = (places([peggy.nonce]), places([peggy.response]));
        let (session, _) =
            OrProver::new().commit(pair, peggy.side, &nonce, peggy.challenge, &response)?;
        let parts = session.into_parts();
        let round = answer_either(pair, peggy, &parts, 4)?;
        made.push((peggy, parts, round));
    }
    let verdict = if made[0].2 == made[1].2 {
        "The rounds are the same, so none of them tells what she knows."
    } else {
        "The rounds differ."
    };
    println!("{verdict}");
    for (peggy, parts, first) in &made {
        println!("A copy of her who knows {} answers once more, which no box may do.", peggy.knows);
        let second = answer_either(pair, peggy, parts, 7)?;
        let witness = pair.extract(first, &second)?;
        let (side, value) = (witness.side, witness.values[0]);
        println!("the two rounds give away the witness of {side}: {value}");
    }
    Ok(())
}

/// A sheet whose statement has no witness: 1^x = 2 modulo 31.
fn claim() -> Result<Instance, Refusal> {
    let plan = Plan {
        pattern: Pattern::Schnorr.number(),
        modulus: 31,
        order: 15,
        challenges: 3,
        values: &[1],
        statement: &[2],
    };
    Instance::from_pattern(&Patterns::shipped(), &plan)
}

/// Shows which challenges a commitment can answer, of a file with one round, whose challenge and response are not tested.
fn show_answers(instance: &Instance, t: u32) -> Result<(), Refusal> {
    let mut buffer = [0; EMPTY_FILE + 12];
    let mut writer = RoundWriter::start(instance, 1, &mut buffer)?;
    writer.append(&Round { commitment: places([t]), challenge: 0, response: places([0]) })?;
    // The buffer is too large for a small stack.
    let mut text: Box<[u8; LONGEST_GAME]> =
        vec![0; LONGEST_GAME].try_into().expect("the length is the array's");
    print!("t = {t}:\n{}", game(instance.bytes(), writer.file().bytes(), &mut text));
    Ok(())
}

/// With a witness a commitment answers every challenge or none, without one it answers one at most.
fn show_game(instance: &Instance) -> Result<(), Refusal> {
    println!(
        "\nPeggy against Vic. All responses are tried: each challenge that t can answer, with the smallest response."
    );
    show_answers(instance, 9)?;
    println!("A claim without a witness: 1^x = 2 modulo 31, order 15, challenges 0 to 2.");
    let claim = claim()?;
    for t in [1, 16, 2] {
        show_answers(&claim, t)?;
    }
    Ok(())
}

fn main() -> Result<(), Refusal> {
    let instance = page_a()?;
    show_extractor(&instance)?;
    show_saved_states(&instance)?;
    show_watch(&instance)?;
    show_simulator(&instance, 3)?;
    show_products(&instance)?;
    let roots = roots()?;
    show_or_proof(&Pair::new(&instance, &roots)?)?;
    show_game(&instance)
}
