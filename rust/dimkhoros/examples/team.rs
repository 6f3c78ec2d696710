//! Peggy as a team. Three players each hold a part of the witness of page A. Each proves a part on the sheet with that part's
//! image as its statement, and a combiner, who knows none of the parts, joins their rounds to the one that Vic judges.

mod common;

use common::page_a;
use dimkhoros::{Instance, Places, Prover, Refusal, Round, Team, Verdict, Verifier, places};

/// A player's name, part and nonce. The parts make 7 modulo 11, the nonces 5.
struct Player {
    name: &'static str,
    part: u32,
    nonce: u32,
}

const PLAYERS: [Player; 3] = [
    Player { name: "Ada", part: 3, nonce: 2 },
    Player { name: "Bob", part: 9, nonce: 4 },
    Player { name: "Cy", part: 6, nonce: 10 },
];

/// The images of the parts, 2^3, 2^9 and 2^6 modulo 23, which are public.
const IMAGES: [u32; 3] = [8, 6, 18];

/// A verdict in a word.
fn word(verdict: Verdict) -> &'static str {
    if verdict.is_accepted() { "accepted" } else { "rejected" }
}

/// The players commit, the combiner multiplies, Vic asks, the players respond, the combiner joins, and Vic judges the whole. The
/// second player's response is raised by this much.
fn play(team: &Team, error: u32) -> Result<(), Refusal> {
    let instance = team.instance();
    let mut sessions = Vec::new();
    let mut commitments = Vec::new();
    for (player, image) in PLAYERS.iter().zip(IMAGES) {
        let sheet = instance.with_statement(&places([image]))?;
        let (session, commitment) = Prover::new().commit(&sheet, &places([player.nonce]))?;
        println!("{} has the image {image} and commits: t = {}", player.name, commitment[0]);
        sessions.push((player, sheet, session));
        commitments.push(commitment);
    }
    let commitment = team.join_commitments(&commitments)?;
    println!("the combiner multiplies: t = {}", commitment[0]);

    let vic = Verifier::new().take_commitment(instance, &commitment)?;
    let vic = vic.take_challenge(instance, 3)?;
    println!("Vic asks c = {}", vic.challenge());

    let mut responses = Vec::new();
    for (number, (player, sheet, session)) in sessions.into_iter().enumerate() {
        let (_, mut response) = session.respond(&sheet, vic.challenge(), &places([player.part]))?;
        if number == 1 {
            response[0] += error;
        }
        let round = Round { commitment: commitments[number], challenge: vic.challenge(), response };
        let verdict = word(sheet.judge(&round)?);
        println!(
            "{} responds: r = {}, which is {verdict} under the player's own image",
            player.name, response[0]
        );
        responses.push(response);
    }
    let response = team.join_responses(&responses)?;
    let (_, verdict) = vic.take_response(instance, &response)?;
    println!("the combiner joins: r = {}, and Vic says: {}", response[0], word(verdict));
    Ok(())
}

/// What a team of these images is refused with.
fn show_refusal(instance: &Instance, images: &[Places]) {
    match Team::new(instance, images) {
        Ok(team) => println!("a team of {}", team.players()),
        Err(refusal) => println!("{refusal}"),
    }
}

fn main() -> Result<(), Refusal> {
    let instance = page_a()?;
    let images = IMAGES.map(|image| places([image]));
    let team = Team::new(&instance, &images)?;
    println!("\nThree honest players.");
    play(&team, 0)?;

    println!(
        "\nA single Peggy with the joined witness, 7, and the joined nonce, 5, sends the same round."
    );
    let (peggy, commitment) = Prover::new().commit(&instance, &places([5]))?;
    let (_, response) = peggy.respond(&instance, 3, &places([7]))?;
    println!("t = {}, c = 3, r = {}", commitment[0], response[0]);

    println!("\nBob responds wrongly.");
    play(&team, 1)?;

    println!("\nTeams that are none.");
    show_refusal(&instance, &images[..1]);
    show_refusal(&instance, &[images[0], places([5])]);
    show_refusal(&instance, &images[..2]);
    Ok(())
}
