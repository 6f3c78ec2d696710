//! Random ledgers of each size: what is made is what the openings, the maker of sheets and
//! Peggy's session give, two challenges give the openings away, and a changed ledger is
//! rejected where the judging call rejects.

use super::{ACCEPTED, Both, of_entries, of_ledger};
use crate::arithmetic::{multiply, power};
use crate::groups::Group;
use crate::ledgers::{commitments, judged, line_numbers, line_uses, places, round, sheet};
use crate::library::lines::{COMMITMENT, PRODUCT, SUM};
use crate::library::{Base, Entries, Entry, Ledger, Library, Line, MOST_LINES, Places};
use crate::making::{ledger_base, ledger_entries, reject_line};
use crate::random::Random;

/// How many ledgers there are of each size.
const OF_SIZE: u64 = 4;

/// How often something was met.
#[derive(Debug, Default)]
pub struct Met {
    pub ledgers: u64,
    pub products: u64,
    pub extracted: u64,
    pub rejected: u64,
    /// Rejected ledgers in which a later line is rejected too.
    pub later: u64,
}

/// Tries all and answers what was met.
pub fn check(both: &mut Both) -> Result<String, String> {
    let Met { ledgers, products, extracted, rejected, later } = tried(both)?;
    Ok(format!(
        "{ledgers} random ones of 0 to 64 lines: {products} products are as Peggy makes them, {extracted} extract, \
         and {rejected} changed ledgers are rejected, {later} of them in several lines"
    ))
}

pub fn tried(both: &mut Both) -> Result<Met, String> {
    let mut met = Met::default();
    for seed in 0..OF_SIZE * (MOST_LINES as u64 + 1) {
        let random = &mut Random::new(seed);
        let group = Group::of_kind(random, 1);
        let mut base = ledger_base(random, &group);
        base.challenges = base.challenges.min(100);
        let of = ledger_entries(random, &group, &base, seed as usize % (MOST_LINES + 1));
        let held = both.expect_made(base, &of, 0)?;
        let made = Made { library: both.library, base, of, held, openings: openings(&base, &of) };
        made.is_right(&mut met)?;
        made.extracts(both, random, &mut met)?;
        made.is_rejected(both, random, &group, &mut met)?;
        met.ledgers += 1;
    }
    Ok(met)
}

/// A value with its blinding number.
type Opening = [u32; 2];

/// The sum mod q.
fn add(a: u32, b: u32, q: u32) -> u32 {
    ((u64::from(a) + u64::from(b)) % u64::from(q)) as u32
}

/// What each line opens to.
fn openings(base: &Base, of: &Entries) -> Vec<Opening> {
    let mut all: Vec<Opening> = Vec::new();
    let q = base.order;
    for entry in &of.entries[..of.count as usize] {
        let of = |number: u32| all[number as usize];
        all.push(match entry.kind {
            COMMITMENT => [entry.value, entry.blinding],
            SUM => {
                let [one, other] = [of(entry.first), of(entry.second)];
                [add(one[0], other[0], q), add(one[1], other[1], q)]
            }
            _ => {
                let value = multiply(of(entry.first)[0], of(entry.second)[0], q);
                [value, entry.blinding]
            }
        });
    }
    all
}

/// g^v h^ρ mod m.
fn committed(base: &Base, [value, blinding]: Opening) -> u32 {
    let m = base.modulus;
    multiply(power(base.g, value, m), power(base.h, blinding, m), m)
}

/// A ledger that a library made.
struct Made {
    library: Library,
    base: Base,
    of: Entries,
    held: Ledger,
    openings: Vec<Opening>,
}

impl Made {
    fn fails(&self, what: &str) -> String {
        of_entries(what, self.base, &self.of)
    }

    /// The products: their numbers, what they are made of, and their lines.
    fn products(&self) -> impl Iterator<Item = (usize, &Entry, &Line)> {
        let all = self.of.entries.iter().zip(&self.held.lines);
        let used = all.take(self.of.count as usize).enumerate();
        used.filter(|(_, (entry, _))| entry.kind == PRODUCT)
            .map(|(number, (entry, line))| (number, entry, line))
    }

    /// The sheet of a product, of what its lines open to.
    fn sheet(&self, number: usize) -> Vec<u8> {
        let line = &self.held.lines[number];
        let of = [line.first as usize, line.second as usize, number];
        let values = of.map(|number| committed(&self.base, self.openings[number]));
        sheet(self.library, &self.base, values)
    }

    /// The witness of a product.
    fn witness(&self, entry: &Entry) -> Places {
        let q = self.base.order;
        let [a, alpha] = self.openings[entry.first as usize];
        let [_, beta] = self.openings[entry.second as usize];
        let taken = multiply(a, beta, q);
        places(&[a, alpha, add(entry.blinding, q - taken, q)])
    }

    /// Every line commits to what it is to open to, has the kind and the lines that were asked
    /// for, and zeros elsewhere. Every product has Peggy's round.
    fn is_right(&self, met: &mut Met) -> Result<(), String> {
        let all = commitments(&self.base, &self.held);
        let mut opened = self.openings.iter().zip(&all);
        if !opened.all(|(opening, commitment)| committed(&self.base, *opening) == *commitment) {
            return Err(self.fails("a commitment is another"));
        }
        if !(0..MOST_LINES).all(|number| self.has_form(number)) {
            return Err(self.fails("a line has another number"));
        }
        let mut products = self.products();
        if !products.all(|(number, entry, line)| self.is_peggys(number, entry, line)) {
            return Err(self.fails("a round is not Peggy's"));
        }
        met.products += self.products().count() as u64;
        Ok(())
    }

    /// Whether a line has the kind and the lines that were asked for, and 0 in what is not used.
    fn has_form(&self, number: usize) -> bool {
        let (entry, line) = (&self.of.entries[number], &self.held.lines[number]);
        if number >= self.of.count as usize {
            return *line == Line::default();
        }
        let uses = line_uses(entry.kind);
        let mut unused = line_numbers(line).into_iter().zip(uses);
        let named = !uses[1] || (line.first, line.second) == (entry.first, entry.second);
        line.kind == entry.kind && named && unused.all(|(value, used)| used || value == 0)
    }

    /// Whether the round of a product is the one of Peggy's session on its sheet.
    fn is_peggys(&self, number: usize, entry: &Entry, line: &Line) -> bool {
        let (library, sheet) = (self.library, self.sheet(number));
        let (c, witness) = (entry.challenge, self.witness(entry));
        let committed = library.prover_commit(&sheet, library.prover_new(), &places(&entry.nonce));
        let answered = library.prover_respond(&sheet, committed.session, c, &witness);
        committed.values == places(&line.t)
            && answered.values == places(&line.response)
            && line.challenge == c
    }

    /// The same with another challenge in one product differs in that challenge and its
    /// response alone, and both rounds open the first factor and the product.
    fn extracts(&self, both: &mut Both, random: &mut Random, met: &mut Met) -> Result<(), String> {
        let products: Vec<_> = self.products().collect();
        let [.., _] = products[..] else {
            return Ok(());
        };
        let (number, entry, line) = products[random.place(products.len())];
        let (library, count, mut of) = (self.library, self.base.challenges, self.of);
        of.entries[number].challenge = (entry.challenge + random.between(1, count - 1)) % count;
        let other = both.written(self.base, &of)?.ledger;
        let (mut rest, second) = (other, other.lines[number]);
        rest.lines[number].challenge = line.challenge;
        rest.lines[number].response = line.response;
        if rest != self.held {
            return Err(self.fails("another challenge changes more"));
        }
        let sheet = self.sheet(number);
        for [one, other] in [[line, &second], [&second, line]] {
            let found = library.extract(&sheet, &round(one), &round(other));
            let [a, alpha, delta, ..] = found.values;
            if found.refusal != 0 || !self.opens(entry, number, [a, alpha, delta]) {
                return Err(self.fails("what is extracted opens nothing"));
            }
        }
        met.extracted += 1;
        Ok(())
    }

    /// Whether a with α opens the first factor, and ab mod q with aβ + δ mod q the product.
    fn opens(&self, entry: &Entry, number: usize, [a, alpha, delta]: [u32; 3]) -> bool {
        let (base, q) = (&self.base, self.base.order);
        let all = commitments(base, &self.held);
        let [b, beta] = self.openings[entry.second as usize];
        let opened = [multiply(a, b, q), add(multiply(a, beta, q), delta, q)];
        [a, alpha, delta].iter().all(|slot| *slot < q)
            && committed(base, [a, alpha]) == all[entry.first as usize]
            && committed(base, opened) == all[number]
    }

    /// A ledger with changed lines is rejected at the first product whose round the judging
    /// call rejects.
    fn is_rejected(
        &self,
        both: &mut Both,
        random: &mut Random,
        group: &Group,
        met: &mut Met,
    ) -> Result<(), String> {
        let (mut held, base) = (self.held, self.base);
        for _ in 0..random.between(1, 3) {
            reject_line(random, group, &base, &mut held);
        }
        let judged = judged(self.library, &base, &held);
        let mut wrong = judged.iter().filter(|(_, rows)| *rows != 0);
        let Some((first, _)) = wrong.next() else {
            return both.expect(base, &held, ACCEPTED);
        };
        let found = both.checked(base, &held)?;
        met.rejected += 1;
        met.later += u64::from(wrong.next().is_some());
        if (found.refusal, found.accepted, found.line) == (0, 0, *first) {
            Ok(())
        } else {
            Err(of_ledger("another line is rejected", base, &held))
        }
    }
}
