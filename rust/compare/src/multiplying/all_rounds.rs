//! All rounds of sheets of small tables.

use super::{Met, Pair, Product, Ways};
use crate::demand_three::Small;
use crate::demand_three::sheets::{exponent, root};
use crate::library::{Judgement, Library, Places, Round};
use crate::sheets::Sheet;
use crate::whole_rounds::elements;

/// Tables of either kind with statements, of which each two are tried, and each with
/// itself: all that there are, with a witness and without, or some.
fn tables() -> Vec<(Sheet, Vec<Places>)> {
    let all = [
        exponent([7, 3, 3], 1, &[2], &[1]),
        exponent([7, 3, 3], 1, &[1], &[1]),
        exponent([11, 5, 3], 1, &[3], &[1]),
        // A composite order above a composite modulus.
        exponent([8, 10, 2], 1, &[3], &[1]),
        exponent([5, 2, 2], 2, &[4, 1], &[1]),
        exponent([3, 2, 2], 1, &[2, 1], &[1, 1]),
        exponent([3, 2, 2], 2, &[2, 1, 2, 2], &[1, 1]),
        root([5, 3, 3], &[1]),
        // Several roots, and none.
        root([7, 3, 2], &[1]),
        root([9, 3, 2], &[1]),
        root([4, 3, 2], &[1, 1]),
    ];
    let mut tables: Vec<_> = all
        .map(|sheet| {
            let statements = elements(&sheet);
            (sheet, statements)
        })
        .into();
    // Pages A and G.
    let some = |values: [u32; 2]| values.map(|z| [z, 0, 0, 0, 0, 0, 0, 0]).to_vec();
    tables.push((exponent([23, 11, 11], 1, &[2], &[13]), some([13, 4])));
    tables.push((root([35, 5, 5], &[32]), some([32, 33])));
    tables
}

/// Tries every two sheets of every table.
pub fn check(library: Library, ways: Ways, met: &mut Met) -> Result<(), String> {
    for (table, statements) in tables() {
        let sheets: Vec<Judged> =
            statements.iter().map(|z| Judged::new(library, &table, z)).collect();
        for one in &sheets {
            for other in &sheets {
                try_pair(library, ways, [one, other], met)?;
            }
        }
        met.calls += sheets.iter().map(|sheet| sheet.all().count() as u64).sum::<u64>();
    }
    Ok(())
}

/// A sheet, and its rounds of each challenge with their verdicts.
struct Judged {
    sheet: Sheet,
    rounds: Vec<Vec<(Round, Judgement)>>,
}

impl Judged {
    /// The sheet of this table and statement.
    fn new(library: Library, table: &Sheet, statement: &Places) -> Judged {
        let mut sheet = table.clone();
        sheet.statement = *statement;
        let small = Small::new(library, sheet.clone());
        let commitments = elements(&sheet);
        let judged = |challenge: u32| {
            let rounds = commitments.iter().flat_map(|t| {
                small.domain.iter().map(move |r| Round { commitment: *t, challenge, response: *r })
            });
            rounds.map(|round| (round, library.judge(&small.bytes, &round))).collect()
        };
        Judged { rounds: (0..sheet.header.challenges).map(judged).collect(), sheet }
    }

    fn all(&self) -> impl Iterator<Item = &(Round, Judgement)> {
        self.rounds.iter().flatten()
    }

    /// The accepted rounds of a challenge.
    fn accepted(&self, challenge: usize) -> impl Iterator<Item = &Round> {
        let rounds = self.rounds[challenge].iter();
        rounds.filter(|(_, verdict)| verdict.accepted == 1).map(|(round, _)| round)
    }

    /// Every two accepted rounds of these challenges that have one commitment.
    fn pairs(&self, [first, second]: [usize; 2]) -> Vec<Pair> {
        let mut pairs = Vec::new();
        for one in self.accepted(first) {
            let same = |other: &&Round| other.commitment == one.commitment;
            pairs.extend(self.accepted(second).filter(same).map(|other| [*one, *other]));
        }
        pairs
    }
}

/// Tries all rounds of two sheets.
fn try_pair(
    library: Library,
    ways: Ways,
    sheets: [&Judged; 2],
    met: &mut Met,
) -> Result<(), String> {
    let product = Product::new(library, ways, sheets.map(|judged| &judged.sheet))?;
    let [one, other] = sheets;
    for (rounds, others) in one.rounds.iter().zip(&other.rounds) {
        for (a, verdict) in rounds {
            for (b, other) in others {
                product.check_product([a, b], [*verdict, *other], met)?;
            }
        }
    }
    let count = one.rounds.len();
    let challenges = (0..count).flat_map(|c| (0..count).map(move |d| [c, d]));
    for two in challenges.filter(|[c, d]| c != d) {
        let (pairs, others) = (one.pairs(two), other.pairs(two));
        for (a, b) in pairs.iter().flat_map(|a| others.iter().map(move |b| (a, b))) {
            product.check_extracted([a, b], met)?;
        }
    }
    met.small += 1;
    met.calls += product.calls.get();
    Ok(())
}
