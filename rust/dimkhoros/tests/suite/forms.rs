//! Sheets are made of linear forms, and bad plans are refused in their order.

use crate::pages::{MAURER, SCHNORR, made};
use dimkhoros::{Forms, Instance, LONGEST_SHEET, LinearPlan, Plan, Prover, Refusal, places};

/// A power modulo m, by multiplying as often as it says.
fn power(base: u32, exponent: u32, m: u32) -> u32 {
    (0..exponent).fold(1, |product, _| product * base % m)
}

/// Row i of the image of x by the paper's formula: the product over the generators of generator^(row i's form of x).
fn image_of_row(plan: &LinearPlan<'_>, i: usize, x: &[u32]) -> u32 {
    let (count, n) = (plan.generators.len(), plan.forms.columns as usize);
    let row = &plan.forms.coefficients[i * count * n..(i + 1) * count * n];
    let forms = row.chunks(n).map(|form| form.iter().zip(x).map(|(a, x)| a * x).sum::<u32>());
    let powers = plan.generators.iter().zip(forms);
    powers.fold(1, |product, (h, form)| {
        product * power(*h, form % plan.order, plan.modulus) % plan.modulus
    })
}

/// All lists of so many numbers below 11.
fn secrets(count: u32) -> impl Iterator<Item = Vec<u32>> {
    (0..11u32.pow(count))
        .map(move |all| (0..count).map(|place| all / 11u32.pow(place) % 11).collect())
}

#[test]
fn the_papers_example_has_its_entries_and_its_image_for_every_secret() {
    let instance = Instance::from_forms(&MAURER).unwrap();
    assert_eq!(instance.values().entries[0], places([3, 1, 2, 1]));
    assert_eq!(instance.values().entries[1], places([4, 2, 1, 3]));
    assert_eq!(instance.values().statement, places([1, 8]));
    assert_eq!(instance.image(&places([1, 2, 3, 4])), Ok(places([1, 8])));
    for x in secrets(4) {
        let image = [0, 1].map(|row| image_of_row(&MAURER, row, &x));
        assert_eq!(instance.image(&places([x[0], x[1], x[2], x[3]])), Ok(places(image)));
    }
}

#[test]
fn the_image_is_the_papers_formula_for_every_secret() {
    let coefficients: Vec<u32> = (0..24).map(|place| place * place % 11).collect();
    for (rows, columns, count) in [(3, 2, 4), (4, 2, 3), (2, 3, 4), (2, 2, 2), (1, 1, 8), (4, 3, 2)]
    {
        let all = (rows * columns) as usize * count;
        let forms = Forms { rows, columns, coefficients: &coefficients[..all] };
        let (generators, statement) =
            (&[2, 3, 4, 6, 8, 9, 12, 13][..count], &[1; 8][..rows as usize]);
        let plan = LinearPlan { generators, forms, statement, ..MAURER };
        let instance = Instance::from_forms(&plan).unwrap();
        for x in secrets(columns) {
            let mut given = [0; 8];
            given[..x.len()].copy_from_slice(&x);
            let image = instance.image(&given).unwrap();
            let formula = (0..rows as usize).map(|row| image_of_row(&plan, row, &x));
            assert!(image[..rows as usize].iter().copied().eq(formula), "{plan:?} of {x:?}");
        }
    }
}

#[test]
fn one_generator_in_each_form_makes_the_sheets_of_patterns() {
    let plan =
        LinearPlan { generators: &[2], forms: Forms::of(&[[[1]]]), statement: &[13], ..MAURER };
    assert_eq!(Instance::from_forms(&plan), made(&SCHNORR));
    let okamoto = Plan { pattern: 2, values: &[2, 3], statement: &[18], ..SCHNORR };
    let forms = Forms::of(&[[[1, 0], [0, 1]]]);
    let plan = LinearPlan { generators: &[2, 3], forms, statement: &[18], ..MAURER };
    assert_eq!(Instance::from_forms(&plan), made(&okamoto));
}

#[test]
fn eight_of_each_are_taken() {
    let generators = [2, 3, 4, 6, 8, 9, 12, 13];
    let forms = Forms::of(&[[[10; 8]; 8]; 8]);
    let plan = LinearPlan { generators: &generators, forms, statement: &[1; 8], ..MAURER };
    let instance = Instance::from_forms(&plan).unwrap();
    assert_eq!(instance.bytes().len(), LONGEST_SHEET);
    let product = generators.iter().fold(1, |product, h| product * power(*h, 10, 23) % 23);
    assert_eq!(instance.values().entries, [[product; 8]; 8]);
    assert!(Prover::new().commit(&instance, &[10; 8]).is_ok());
}

/// What a plan is refused with.
fn refusal(plan: LinearPlan<'_>) -> Refusal {
    Instance::from_forms(&plan).unwrap_err()
}

#[test]
fn wrong_counts_are_refused_with_29() {
    let Forms { coefficients, .. } = MAURER.forms;
    let one_long = [coefficients, &[0]].concat();
    for coefficients in [&coefficients[1..], &one_long, &[]] {
        let forms = Forms { coefficients, ..MAURER.forms };
        assert_eq!(refusal(LinearPlan { forms, ..MAURER }), Refusal::FormCounts);
    }
    for statement in [&[1][..], &[1, 8, 1], &[]] {
        assert_eq!(refusal(LinearPlan { statement, ..MAURER }), Refusal::FormCounts);
    }
    for generators in [&[2, 3][..], &[2, 3, 4, 6], &[]] {
        assert_eq!(refusal(LinearPlan { generators, ..MAURER }), Refusal::FormCounts);
    }
    let nine = LinearPlan { generators: &[2; 9], forms: Forms::of(&[[[1; 4]; 9]; 2]), ..MAURER };
    let none = LinearPlan { generators: &[], forms: Forms::of(&[[[1; 4]; 0]; 2]), ..MAURER };
    assert_eq!([nine, none].map(refusal), [Refusal::FormCounts; 2]);
}

#[test]
fn a_generator_is_refused_with_10_whether_it_is_used_or_not() {
    let unused = Forms::of(&[[[1, 0], [0, 1], [0, 0]], [[0, 0], [1, 1], [0, 0]]]);
    for generators in [[2, 3, 5], [2, 3, 0], [2, 3, 24], [5, 3, 4]] {
        let plan = LinearPlan { generators: &generators, ..MAURER };
        assert_eq!(refusal(plan), Refusal::Entry);
        assert_eq!(refusal(LinearPlan { forms: unused, ..plan }), Refusal::Entry);
    }
}

/// Each plan has two faults, and the first of them in the order 5, 6, 7, 8, 29, 30, 10, 11 is told.
#[test]
fn the_number_that_stands_first_is_given() {
    let plan = MAURER;
    let large = Forms::of(&[[[11; 4]; 3]; 2]);
    let (no_rows, nine_columns) = (Forms::of::<4, 3>(&[]), Forms::of(&[[[0; 9]; 3]; 2]));
    let given = [
        (LinearPlan { modulus: 2, order: 1, ..plan }, Refusal::Modulus),
        (LinearPlan { order: 1, forms: no_rows, ..plan }, Refusal::Order),
        (LinearPlan { forms: no_rows, challenges: 12, ..plan }, Refusal::Shape),
        (LinearPlan { forms: nine_columns, generators: &[], ..plan }, Refusal::Shape),
        (LinearPlan { challenges: 12, generators: &[], ..plan }, Refusal::Challenges),
        (LinearPlan { forms: large, statement: &[1], ..plan }, Refusal::FormCounts),
        (LinearPlan { forms: large, generators: &[5, 3, 4], ..plan }, Refusal::Coefficient),
        (LinearPlan { generators: &[5, 3, 4], statement: &[5, 5], ..plan }, Refusal::Entry),
        (LinearPlan { statement: &[1, 5], ..plan }, Refusal::Statement),
    ];
    for (plan, first) in given {
        assert_eq!(refusal(plan), first, "{plan:?}");
    }
}

#[test]
fn lists_of_any_length_are_taken() {
    let many = vec![2; 1 << 20];
    let forms = Forms { coefficients: &many, ..MAURER.forms };
    for plan in [
        LinearPlan { generators: &many, ..MAURER },
        LinearPlan { forms, ..MAURER },
        LinearPlan { statement: &many, ..MAURER },
    ] {
        assert_eq!(refusal(plan), Refusal::FormCounts);
    }
    let forms = Forms { rows: u32::MAX, columns: u32::MAX, ..MAURER.forms };
    assert_eq!(refusal(LinearPlan { forms, ..MAURER }), Refusal::Shape);
}
