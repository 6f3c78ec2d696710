//! What card 11 says of rounds that multiply, through one library alone: over all rounds
//! of small tables, and on tables made at random.
//!
//! Two sheets have one table and the statements z and z′. The second writer's sheet of
//! that table and z·z′ loads. Two rounds with one challenge are multiplied: the
//! commitments row by row mod m, the responses slot by slot by the domain's operation. If
//! both are accepted, the product is accepted for z·z′, and if one alone is rejected, it
//! is rejected in the same rows. Two rounds of each sheet with one commitment and the same
//! two challenges make two products that extract the two extracted witnesses, joined, with
//! 0 beyond n, which the table carries to z·z′. Places beyond s and n hold other numbers in
//! every round that is handed in.

mod all_rounds;
mod random_rounds;

use std::cell::Cell;

use crate::arithmetic::multiply;
use crate::library::{Computed, Header, Judgement, LONGEST_SHEET, Library, Places, Round};
use crate::printing::hex;
use crate::sheets::Sheet;

/// Tries the card in both ways and answers the line to print. An error says where it
/// fails.
pub fn check(library: Library) -> Result<String, String> {
    let met = tried(library, RIGHT)?;
    let [first, second] = met.extracted;
    Ok(format!(
        "card 11 holds for {} pairs of sheets on small tables over all rounds and {} random ones, {} calls: {} \
         products are accepted, {} rejected as one factor is, and {first} and {second} pairs of them extract in kinds 1 and 2",
        met.small, met.random, met.calls, met.accepted, met.rejected
    ))
}

/// Tries the card in both ways, with these ways to make a product.
fn tried(library: Library, ways: Ways) -> Result<Met, String> {
    let mut met = Met::default();
    all_rounds::check(library, ways, &mut met)?;
    random_rounds::check(library, ways, &mut met)?;
    Ok(met)
}

/// How often something was met.
#[derive(Debug, Default)]
struct Met {
    small: u64,
    random: u64,
    /// Products of two rounds that are judged.
    products: u64,
    /// Those of two accepted rounds.
    accepted: u64,
    /// Those of an accepted round and a rejected one.
    rejected: u64,
    /// Two products that extract, in kind 1 and in kind 2.
    extracted: [u64; 2],
    calls: u64,
}

/// What two lists of values make.
type Way = fn(&Header, &Places, &Places) -> Places;

/// How a product is made of two: of the statements, the commitments, the responses and
/// the extracted witnesses.
#[derive(Clone, Copy)]
struct Ways {
    statement: Way,
    commitment: Way,
    response: Way,
    witness: Way,
}

/// As the card says it.
const RIGHT: Ways =
    Ways { statement: multiplied, commitment: multiplied, response: joined, witness: joined };

/// The values multiplied row by row mod m, with 0 beyond s.
fn multiplied(header: &Header, one: &Places, other: &Places) -> Places {
    first(header.rows, |i| multiply(one[i], other[i], header.modulus))
}

/// The slots joined by the domain's operation, with 0 beyond n.
fn joined(header: &Header, one: &Places, other: &Places) -> Places {
    if header.kind == 2 {
        return multiplied(header, one, other);
    }
    let sum = |j: usize| (u64::from(one[j]) + u64::from(other[j])) % u64::from(header.order);
    first(header.columns, |j| sum(j) as u32)
}

/// So many values, with 0 beyond.
fn first(count: u32, value: impl Fn(usize) -> u32) -> Places {
    std::array::from_fn(|place| if place < count as usize { value(place) } else { 0 })
}

/// Two sheets of one table, and the sheet of the product of their statements.
struct Product {
    library: Library,
    ways: Ways,
    header: Header,
    factors: [Vec<u8>; 2],
    product: Vec<u8>,
    /// The statement z·z′.
    statement: Places,
    calls: Cell<u64>,
}

impl Product {
    /// The second writer writes the sheet of the product. An error says that it does not
    /// load as it is to.
    fn new(library: Library, ways: Ways, factors: [&Sheet; 2]) -> Result<Product, String> {
        let (header, entries) = (factors[0].header, factors[0].entries);
        let z = (ways.statement)(&header, &factors[0].statement, &factors[1].statement);
        let mut brought = z;
        brought[header.rows as usize..].fill(u32::MAX);
        let mut buffer = [0xee; LONGEST_SHEET];
        let written = library.encode(header, &entries, &brought, &mut buffer);
        let product = buffer.get(..written.length).unwrap_or_default().to_vec();
        let loaded = library.load(&product);
        let mut table = [0; 64];
        let refusal = library.entries(&product, &mut table);
        let is_right = written.refusal == 0
            && refusal == 0
            && (loaded.refusal, loaded.header) == (0, header)
            && loaded.statement == z
            && (header.kind == 2 || used(&header, &table) == used(&header, &entries));
        let sheets = Product {
            library,
            ways,
            header,
            factors: factors.map(Sheet::bytes),
            product,
            statement: z,
            calls: Cell::new(3),
        };
        if is_right {
            Ok(sheets)
        } else {
            Err(sheets.fails("the sheet of the product does not load as it is to"))
        }
    }

    /// What is told of these sheets.
    fn fails(&self, what: &str) -> String {
        let [one, other] = self.factors.each_ref().map(|sheet| hex(sheet));
        format!("card 11 fails on sheets {one} and {other}: {what}")
    }

    /// The round with other numbers beyond s and n.
    fn brought(&self, round: &Round) -> Round {
        self.calls.set(self.calls.get() + 1);
        let junk = u32::MAX - self.calls.get() as u32;
        let mut round = *round;
        round.commitment[self.header.rows as usize..].fill(junk);
        round.response[self.header.columns as usize..].fill(junk);
        round
    }

    fn judge(&self, sheet: &[u8], round: &Round) -> Judgement {
        self.library.judge(sheet, &self.brought(round))
    }

    fn extract(&self, sheet: &[u8], one: &Round, other: &Round) -> Computed {
        let (one, other) = (self.brought(one), self.brought(other));
        self.library.extract(sheet, &one, &other)
    }

    /// Whether the table carries these values to z·z′.
    fn is_witness(&self, values: &Places) -> bool {
        self.calls.set(self.calls.get() + 1);
        let image = self.library.simulate(&self.product, 0, values);
        (image.refusal, image.values) == (0, self.statement)
    }

    /// The product of two rounds.
    fn round(&self, [one, other]: [&Round; 2]) -> Round {
        let (header, ways) = (&self.header, self.ways);
        Round {
            commitment: (ways.commitment)(header, &one.commitment, &other.commitment),
            challenge: one.challenge,
            response: (ways.response)(header, &one.response, &other.response),
        }
    }

    /// Judges the product of a round of each sheet, with their verdicts. Nothing is said of
    /// two that are rejected.
    fn check_product(
        &self,
        rounds: [&Round; 2],
        verdicts: [Judgement; 2],
        met: &mut Met,
    ) -> Result<(), String> {
        let wanted = match verdicts.map(|verdict| verdict.accepted) {
            [1, _] => verdicts[1],
            [_, 1] => verdicts[0],
            _ => return Ok(()),
        };
        met.products += 1;
        met.accepted += u64::from(wanted.accepted);
        met.rejected += u64::from(wanted.refusal == 0 && wanted.accepted == 0);
        let verdict = self.judge(&self.product, &self.round(rounds));
        if verdict == wanted {
            Ok(())
        } else {
            Err(self.fails(&format!("the product of {rounds:?}: {verdict:?}, not {wanted:?}")))
        }
    }

    /// Extracts from the products of two accepted rounds of each sheet.
    fn check_extracted(&self, pairs: [&Pair; 2], met: &mut Met) -> Result<(), String> {
        let factors = [0, 1].map(|side| {
            let [one, other] = pairs[side];
            self.extract(&self.factors[side], one, other)
        });
        let products = [0, 1].map(|number| self.round(pairs.map(|pair| &pair[number])));
        let extracted = self.extract(&self.product, &products[0], &products[1]);
        let [x, y] = factors.map(|answer| answer.values);
        let wanted = Computed { refusal: 0, values: (self.ways.witness)(&self.header, &x, &y) };
        met.extracted[usize::from(self.header.kind == 2)] += 1;
        let is_right = factors.iter().all(|answer| answer.refusal == 0) && extracted == wanted;
        if is_right && self.is_witness(&extracted.values) {
            Ok(())
        } else {
            Err(self.fails(&format!(
                "the products of {pairs:?}: {extracted:?}, of the factors {factors:?}"
            )))
        }
    }
}

/// Two rounds of a sheet with one commitment and two challenges.
type Pair = [Round; 2];

/// The entries of a table.
fn used(header: &Header, entries: &[u32; 64]) -> Vec<u32> {
    let rows = entries.chunks(8).take(header.rows as usize);
    rows.flat_map(|row| &row[..header.columns as usize]).copied().collect()
}

#[cfg(test)]
mod tests {
    use super::*;
    use crate::faults::Fault;
    use crate::library::Library::{Faulty, Judge};

    #[test]
    fn the_judge_meets_the_card_and_all_is_met() {
        let met = tried(Judge, RIGHT).unwrap();
        assert_eq!(met.products, met.accepted + met.rejected);
        let [first, second] = met.extracted;
        let counts = [met.small, met.random, met.accepted, met.rejected, first, second];
        assert!(counts.iter().all(|times| *times > 200), "{met:?}");
    }

    #[test]
    fn impostors_do_not_meet_card_eleven() {
        for fault in [
            Fault::JudgeRowZero,
            Fault::JudgeRejectsAll,
            Fault::JudgeUnreadCommitment,
            Fault::JudgeUnreadResponse,
            Fault::ExtractTwenty,
            Fault::ExtractInverseModM,
            Fault::ExtractModM,
            Fault::ExtractUnsigned,
            Fault::ExtractWithoutStatement,
            Fault::ExtractBeyond,
            Fault::ExtractEightPlaces,
            Fault::UnreadEntry,
            Fault::UnreadStatement,
            Fault::OneMoreNeeded,
            Fault::LastStatement,
        ] {
            assert!(tried(Faulty(fault), RIGHT).is_err(), "{fault:?}");
        }
    }

    /// Each way is another than the card's.
    #[test]
    fn products_that_are_made_in_another_way_are_found() {
        let others = [
            Ways { statement: |_, z, _| *z, ..RIGHT },
            Ways { commitment: |header, t, _| multiplied(header, t, t), ..RIGHT },
            Ways { response: multiplied, ..RIGHT },
            Ways { response: |_, r, _| *r, ..RIGHT },
            Ways { witness: |_, x, _| *x, ..RIGHT },
            Ways { witness: multiplied, ..RIGHT },
        ];
        for (place, ways) in others.into_iter().enumerate() {
            let mut met = Met::default();
            assert!(all_rounds::check(Judge, ways, &mut met).is_err(), "{place}");
            assert!(random_rounds::check(Judge, ways, &mut met).is_err(), "{place}");
        }
    }
}
