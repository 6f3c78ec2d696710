//! A ledger of committed values. A shop commits to a price and two counts, and computes the bill on the commitments: the sum of the
//! counts, and the price times the sum. Its customer checks the ledger without the values, and opens the bill alone.

use dimkhoros::{Base, Checked, Entries, Ledger, Line, Refusal};

/// What all lines share: 2^v · 3^b modulo 23 commits to v with the blinding number b.
const BASE: Base = Base { g: 2, h: 3, modulus: 23, order: 11, challenges: 11 };

/// The shop's entries: the price, the counts 1 and 3 with blinding numbers, and the bill's blinding number, nonce and challenge.
fn shop(price: u32, challenge: u32) -> Result<Entries, Refusal> {
    let mut entries = Entries::new();
    let price = entries.commitment(price, 1)?;
    let first = entries.commitment(1, 7)?;
    let second = entries.commitment(3, 8)?;
    let sum = entries.sum(first, second)?;
    entries.product(price, sum, 4, [1, 2, 3], challenge)?;
    Ok(entries)
}

/// The shop's ledger.
fn written(challenge: u32) -> Result<Ledger, Refusal> {
    Ledger::write(&BASE, &shop(2, challenge)?)
}

/// What is found of a ledger.
fn show_checked(checked: Result<Checked, Refusal>) {
    match checked {
        Ok(checked) => println!("the ledger is {checked}"),
        Err(refusal) => println!("{refusal}"),
    }
}

/// The lines as the customer sees them.
fn show_lines(ledger: &Ledger) -> Result<(), Refusal> {
    let commitments = ledger.commitments()?;
    for (number, line) in ledger.lines().enumerate() {
        let of = match line {
            Line::Sum { first, second } => format!(", the sum of lines {first} and {second}"),
            Line::Product {
                first, second, t: [t1, t2], challenge, response: [r1, r2, r3], ..
            } => {
                format!(
                    ", the product of lines {first} and {second} by t = ({t1}, {t2}), c = {challenge}, r = ({r1}, {r2}, {r3})"
                )
            }
            _ => String::new(),
        };
        println!("line {number}: commitment {}{of}", commitments[number]);
    }
    Ok(())
}

/// The commitment to a value: that of a ledger of one line.
fn commitment_to(value: u32, blinding: u32) -> Result<u32, Refusal> {
    let mut entries = Entries::new();
    entries.commitment(value, blinding)?;
    Ok(Ledger::write(&BASE, &entries)?.commitments()?[0])
}

/// A second challenge on the bill's nonce gives the price away, and what the bill opens to follows from an opening of the sum.
fn show_extracted() -> Result<(), Refusal> {
    let (first, second) = (written(3)?.product(4)?, written(5)?.product(4)?);
    let (Some(first), Some(second)) = (first, second) else {
        return Ok(());
    };
    let [a, alpha, delta, ..] = first.instance.extract(&first.round, &second.round)?;
    println!("the challenges 3 and 5 give ({a}, {alpha}, {delta}): the price is {a}");
    let (b, beta) = (4, 4);
    let (value, blinding) = (a * b % BASE.order, (a * beta + delta) % BASE.order);
    let opened = commitment_to(value, blinding)?;
    println!(
        "the sum opens to {b} with {beta}, so the bill opens to {value} with {blinding}: {opened}"
    );
    Ok(())
}

/// What is refused: a price of q, a line that is not above, a kind that is none, and a commitment outside the group.
fn show_refusals() -> Result<(), Refusal> {
    let ledger = written(3)?;
    show_checked(Ledger::write(&BASE, &shop(BASE.order, 3)?).and_then(|ledger| ledger.check()));
    show_checked(Entries::new().sum(0, 0).map(|_| Checked::Accepted));
    let mut lines: Vec<Line> = ledger.lines().collect();
    lines[3] = Line::Unknown { kind: 4 };
    show_checked(Ledger::from_lines(&BASE, &lines)?.check());
    show_checked(ledger.check());
    let mut lines: Vec<Line> = ledger.lines().collect();
    lines[0] = Line::Commitment { commitment: 5 };
    show_checked(Ledger::from_lines(&BASE, &lines)?.check());
    lines.resize(65, lines[0]);
    show_checked(Ledger::from_lines(&BASE, &lines).and_then(|ledger| ledger.check()));
    Ok(())
}

fn main() -> Result<(), Refusal> {
    let ledger = written(3)?;
    println!("A commitment to v with b is 2^v * 3^b modulo 23, order 11, challenges 0 to 10.");
    println!("\nThe shop hands the customer a ledger.");
    show_lines(&ledger)?;
    show_checked(ledger.check());
    println!("the shop opens the bill to 8 with 4: {}", commitment_to(8, 4)?);

    println!("\nA response is changed.");
    let (base, mut parts) = ledger.into_parts();
    parts.lines[4].response[2] ^= 1;
    show_checked(Ledger::from_parts(base, parts).check());

    println!("\nThe shop answers two challenges on one nonce.");
    show_extracted()?;

    println!("\nLedgers that are none.");
    show_refusals()
}
