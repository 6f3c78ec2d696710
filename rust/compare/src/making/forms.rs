//! Cases of the maker of sheets from linear forms.

use crate::calls::Call;
use crate::cases::{Case, WriterCase, Writing};
use crate::damage::{faults, group_of_kind, spoil_sides};
use crate::groups::Group;
use crate::lent::Lent;
use crate::library::{Forms, Header};
use crate::random::Random;

/// A case of the maker.
pub fn linear(random: &mut Random) -> Box<dyn Case> {
    Box::new(case(random))
}

fn case(random: &mut Random) -> WriterCase {
    let numbers: Vec<u32> = made_numbers().collect();
    let wrong = random.once_in(2).then(|| random.pick(&numbers));
    let group = group_of_kind(random, 1, wrong.unwrap_or(0));
    let mut forms = right(random, &group);
    let needed = needed(&forms);
    if let Some(first) = wrong {
        for fault in faults(random, &numbers, first) {
            spoil(random, &group, &mut forms, fault);
        }
    }
    WriterCase { writing: Writing::Linear { forms }, lent: Lent::for_result(random, needed) }
}

/// The numbers that inputs can be spoilt with. The buffer is lent apart.
fn made_numbers() -> impl Iterator<Item = u32> {
    let numbers = Call::Linear.others().iter().copied();
    numbers.filter(|number| *number != 22)
}

/// The length of the sheet.
fn needed(forms: &Forms) -> usize {
    let header = forms.header;
    20 + 4 * (header.rows * header.columns + header.rows) as usize
}

/// Rows, generators and columns: eight of each, the same of each, or any.
fn sizes(random: &mut Random) -> [usize; 3] {
    match random.below(6) {
        0 => [8; 3],
        1 => [1 + random.below(8); 3],
        _ => [0; 3].map(|_| 1 + random.below(8)),
    }
}

/// Right inputs for a sheet of the group.
fn right(random: &mut Random, group: &Group) -> Forms {
    let [rows, count, columns] = sizes(random);
    let mut forms = Forms {
        header: Header {
            kind: 1,
            modulus: group.modulus,
            order: group.order,
            challenges: group.challenges(random),
            rows: rows as u32,
            columns: columns as u32,
        },
        generators: (0..count).map(|_| group.element(random)).collect(),
        coefficients: coefficients(random, group, rows * count * columns),
        statement: (0..rows).map(|_| group.element(random)).collect(),
    };
    if random.once_in(8) {
        unuse(&mut forms, random.place(count));
    }
    forms
}

/// Coefficients, now and then all 0, or 0 and 1 alone.
fn coefficients(random: &mut Random, group: &Group, count: usize) -> Vec<u32> {
    let most = random.below(16);
    let coefficient = |_| match most {
        0 => 0,
        1 => random.between(0, 1),
        _ => group.slot(random),
    };
    (0..count).map(coefficient).collect()
}

/// Makes every coefficient of a generator 0.
fn unuse(forms: &mut Forms, generator: usize) {
    let (count, columns) = (forms.generators.len(), forms.header.columns as usize);
    for (place, form) in forms.coefficients.chunks_mut(columns).enumerate() {
        if place % count == generator {
            form.fill(0);
        }
    }
}

/// Puts a fault with this number in. Faults with later numbers are there already.
fn spoil(random: &mut Random, group: &Group, forms: &mut Forms, number: u32) {
    match number {
        5 => forms.header.modulus = random.between(0, 2),
        6 => forms.header.order = random.between(0, 1),
        7 => {
            spoil_sides(random, &mut forms.header, u32::MAX);
            if random.once_in(2) {
                fit(forms);
            }
        }
        8 => forms.header.challenges = group.wrong_challenges(random),
        29 => spoil_counts(random, group, forms),
        30 => {
            let at = random.place(forms.coefficients.len());
            forms.coefficients[at] = group.no_slot(random);
        }
        10 => {
            let at = random.place(forms.generators.len());
            forms.generators[at] = group.other(random);
            if random.once_in(3) {
                unuse(forms, at);
            }
        }
        _ => {
            let at = random.place(forms.statement.len());
            forms.statement[at] = group.other(random);
        }
    }
}

/// Makes the lists as long as the header asks, if that is not too long.
fn fit(forms: &mut Forms) {
    let Header { rows, columns, .. } = forms.header;
    let sizes = [rows, columns].map(|size| size as usize);
    if sizes.iter().all(|size| *size <= 16) {
        let count = sizes[0] * forms.generators.len() * sizes[1];
        forms.coefficients.resize(count, 1);
        forms.statement.resize(sizes[0], 1);
    }
}

/// Makes the count of one list wrong. The coefficients of too many or too few
/// generators are now and then as many as these ask for.
fn spoil_counts(random: &mut Random, group: &Group, forms: &mut Forms) {
    match random.below(6) {
        0 | 1 => {
            let count = random.pick(&[0, 0, 9, 9, 10, 16, 256, 256 + forms.generators.len()]);
            let of_one = forms.coefficients.len() / forms.generators.len();
            forms.generators.resize_with(count, || group.element(random));
            if !random.once_in(3) && count <= 16 {
                let slot = || group.slot(random);
                forms.coefficients.resize_with(of_one * count, slot);
            }
        }
        2 | 3 => miscount(random, &mut forms.coefficients),
        _ => miscount(random, &mut forms.statement),
    }
}

/// Makes a list one or some longer or shorter. Those that are more are ones.
fn miscount(random: &mut Random, list: &mut Vec<u32>) {
    let count = list.len();
    let wrong = match random.below(8) {
        0..=2 => count - 1,
        3..=5 => count + 1,
        6 => random.below(count),
        _ => count + random.pick(&[2, 8, 64, 256, 65_536]),
    };
    list.resize(wrong, 1);
}

#[cfg(test)]
mod tests {
    use std::collections::BTreeMap;

    use super::*;
    use crate::arithmetic::least_divisor;
    use crate::library::Library::Judge;

    /// The numbers of the call, in their order.
    const NUMBERS: [u32; 9] = [5, 6, 7, 8, 29, 30, 10, 11, 22];

    /// What is given to the maker, and how long its buffer is.
    fn given(case: &WriterCase) -> (&Forms, usize) {
        match &case.writing {
            Writing::Linear { forms } => (forms, case.lent.to - case.lent.from),
            _ => unreachable!(),
        }
    }

    /// Whether a K is refused with an order of 2 or more.
    fn is_bad_count(header: &Header) -> bool {
        let most = least_divisor(header.order).min(65_536);
        !(2..=most).contains(&header.challenges)
    }

    /// Whether the number applies, for a case to which none applies that stands two
    /// before it or earlier.
    fn applies(forms: &Forms, length: usize, number: u32) -> bool {
        let header = &forms.header;
        let is_side = |side: u32| (1..=8).contains(&side);
        let is_element = |v: &u32| {
            let group = Group::new(1, header.modulus, header.order);
            group.is_element(*v)
        };
        let counts = [forms.generators.len(), forms.coefficients.len(), forms.statement.len()];
        match number {
            5 => header.modulus < 3,
            6 => header.order < 2,
            7 => ![header.rows, header.columns].into_iter().all(is_side),
            8 => header.order < 2 || is_bad_count(header),
            29 => {
                let [rows, columns] = [header.rows, header.columns].map(|side| side as usize);
                let wanted = [counts[0].clamp(1, 8), rows * counts[0] * columns, rows];
                counts != wanted
            }
            30 => forms.coefficients.iter().any(|c| *c >= header.order),
            10 => !forms.generators.iter().all(is_element),
            11 => !forms.statement.iter().all(is_element),
            _ => length < needed(forms),
        }
    }

    /// The first number that applies, 0 for none, and the number behind it where that
    /// applies too.
    fn first_two(forms: &Forms, length: usize) -> (u32, u32) {
        let first = NUMBERS.iter().position(|number| applies(forms, length, *number));
        let Some(first) = first else {
            return (0, 0);
        };
        let next = NUMBERS.get(first + 1).copied();
        let next = next.filter(|number| applies(forms, length, *number));
        (NUMBERS[first], next.unwrap_or(0))
    }

    #[test]
    fn the_first_number_that_applies_is_given_also_beside_the_next() {
        let mut met = BTreeMap::new();
        for seed in 0..8000 {
            let case = case(&mut Random::new(seed));
            let (forms, length) = given(&case);
            let (first, next) = first_two(forms, length);
            assert_eq!(case.run(Judge).answers[0].1.refusal(), first, "{case}");
            *met.entry((first, next)).or_insert(0) += 1;
        }
        for pair in NUMBERS.windows(2) {
            let times = met.get(&(pair[0], pair[1]));
            assert!(times > Some(&5), "{pair:?}: {met:?}");
            assert!(met.get(&(pair[0], 0)) > Some(&5), "{pair:?}: {met:?}");
        }
    }

    /// The rows, generators and columns.
    fn sizes_of(forms: &Forms) -> [usize; 3] {
        let Header { rows, columns, .. } = forms.header;
        [rows as usize, forms.generators.len(), columns as usize]
    }

    /// How many coefficients there are to be.
    fn wanted(forms: &Forms) -> usize {
        let sizes = sizes_of(forms).into_iter();
        sizes.fold(1, usize::saturating_mul)
    }

    /// Whether a table of right counts is another if generators and columns are exchanged.
    fn is_unsymmetric(forms: &Forms) -> bool {
        let ([_, count, columns], list) = (sizes_of(forms), &forms.coefficients);
        let exchanged = |at: usize| {
            let row = at - at % (count * columns);
            row + at % columns * count + at / columns % count
        };
        list.len() == wanted(forms) && (0..list.len()).any(|at| list[at] != list[exchanged(at)])
    }

    /// What stands out in the counts.
    fn of_counts(forms: &Forms) -> Vec<(bool, &'static str)> {
        let ([rows, count, columns], wanted) = (sizes_of(forms), wanted(forms));
        let (list, z) = (forms.coefficients.len(), forms.statement.len());
        let equal = rows == count && count == columns;
        let differ = rows != count && count != columns && rows != columns;
        vec![
            (differ, "different sizes"),
            (equal && is_unsymmetric(forms), "equal sizes"),
            (equal && rows == 8, "eight of each"),
            (count == 0, "no generator"),
            (count == 0 && list == 0, "no generator and no coefficient"),
            (count == 9 && list == wanted, "nine generators"),
            (list + 1 == wanted, "coefficients one short"),
            (list.checked_sub(1) == Some(wanted), "coefficients one long"),
            (z + 1 == rows, "statement one short"),
            (z == rows + 1, "statement one long"),
        ]
    }

    /// Whether a generator is no group element and no coefficient uses it.
    fn is_bad_and_unused(forms: &Forms, generator: usize) -> bool {
        let Header { modulus, order, .. } = forms.header;
        let [_, count, columns] = sizes_of(forms).map(|size| size.max(1));
        let used = forms.coefficients.chunks(columns).skip(generator);
        let group = Group::new(1, modulus.max(3), order.max(2));
        used.step_by(count).all(|form| form.iter().all(|c| *c == 0))
            && !group.is_element(forms.generators[generator])
    }

    /// What stands out in the values and the buffer.
    fn of_values(forms: &Forms, length: usize) -> Vec<(bool, &'static str)> {
        let Header { modulus, order, .. } = forms.header;
        let (list, needed) = (&forms.coefficients, needed_or_none(forms));
        let composite = |n: u32| n >= 2 && least_divisor(n) < n;
        let count = forms.generators.len().min(8);
        let unused = (0..count).any(|g| is_bad_and_unused(forms, g));
        vec![
            (list.iter().all(|c| *c == 0), "zeros"),
            (unused, "a bad one not used"),
            (list.iter().any(|c| *c == order.wrapping_sub(1)), "q - 1"),
            (list.contains(&order), "q"),
            (list.iter().any(|c| *c >= modulus), "an exponent of m or more"),
            (length == needed, "just fits"),
            (length + 1 == needed, "one byte short"),
            (composite(modulus) && composite(order), "composite"),
            (modulus.min(order) > 1 << 31, "wide"),
        ]
    }

    /// What stands out in a case.
    fn shapes(case: &WriterCase) -> Vec<&'static str> {
        let (forms, length) = given(case);
        let shapes = of_counts(forms).into_iter().chain(of_values(forms, length));
        let met = shapes.filter(|(met, _)| *met);
        met.map(|(_, name)| name).collect()
    }

    /// The length of the sheet, and 0 for rows or columns that no sheet has.
    fn needed_or_none(forms: &Forms) -> usize {
        match forms.header.rows.max(forms.header.columns) {
            0..=8 => needed(forms),
            _ => 0,
        }
    }

    #[test]
    fn counts_and_values_at_every_bound_are_met() {
        let mut met = BTreeMap::new();
        for seed in 0..8000 {
            let case = case(&mut Random::new(seed));
            let number = case.run(Judge).answers[0].1.refusal();
            for shape in shapes(&case) {
                *met.entry((number, shape)).or_insert(0) += 1;
            }
        }
        for wanted in [
            (0, "different sizes"),
            (0, "equal sizes"),
            (0, "eight of each"),
            (0, "zeros"),
            (10, "a bad one not used"),
            (29, "no generator"),
            (29, "no generator and no coefficient"),
            (29, "nine generators"),
            (29, "coefficients one short"),
            (29, "coefficients one long"),
            (29, "statement one short"),
            (29, "statement one long"),
            (0, "q - 1"),
            (30, "q"),
            (0, "an exponent of m or more"),
            (0, "just fits"),
            (22, "one byte short"),
            (0, "composite"),
            (0, "wide"),
        ] {
            assert!(met.get(&wanted) > Some(&10), "{wanted:?}: {met:#?}");
        }
    }
}
