//! Refusals 5 to 8, 29, 30, 10, 11 and 22 of the maker of linear forms.

use crate::linear_forms::*;

/// Mends one flaw.
type Mend = fn(&mut Plan);

/// Page A's plan with a change.
fn changed(change: impl FnOnce(&mut Plan)) -> u32 {
    let mut plan = one_form();
    change(&mut plan);
    plan.number()
}

/// A plan of ones with these counts, all of them right.
fn of_ones(rows: u32, columns: u32, generators: usize) -> Plan {
    // A count beyond 9 is refused before any other is looked at.
    let [s, n] = [rows, columns].map(|count| count.min(9) as usize);
    Plan {
        rows,
        columns,
        generators: vec![1; generators],
        coefficients: vec![1; s * generators * n],
        statement: vec![1; s],
        ..one_form()
    }
}

#[test]
fn every_refusal_in_order() {
    let mut plan = Plan {
        modulus: 2,
        order: 1,
        challenges: 1,
        rows: 9,
        columns: 0,
        generators: vec![],
        coefficients: vec![11, 11, 11],
        statement: vec![5, 5],
    };
    let mends: [(u32, Mend); 12] = [
        (5, |plan| plan.modulus = 23),
        (6, |plan| plan.order = 11),
        (7, |plan| plan.rows = 1),
        (7, |plan| plan.columns = 2),
        (8, |plan| plan.challenges = 12),
        (8, |plan| plan.challenges = 11),
        (29, |plan| plan.generators = vec![5]),
        (29, |plan| plan.coefficients = vec![10, 11]),
        (29, |plan| plan.statement = vec![5]),
        (30, |plan| plan.coefficients[1] = 1),
        (10, |plan| plan.generators[0] = 2),
        (11, |plan| plan.statement[0] = 13),
    ];
    for (number, mend) in mends {
        let mut buffer = [0xAA; 31];
        assert_eq!(plan.make(&mut buffer), Err(number));
        assert_eq!(buffer, [0xAA; 31]);
        mend(&mut plan);
    }
    for length in 0..32 {
        let mut buffer = vec![0xAA; length];
        assert_eq!(plan.make(&mut buffer), Err(22));
        assert_eq!(buffer, vec![0xAA; length]);
    }
    assert_eq!(plan.make(&mut [0; 32]), Ok(32));
}

#[test]
fn each_refusal_stands_before_its_neighbour() {
    // Each plan has the flaws of exactly two numbers.
    let five = |plan: &mut Plan| plan.modulus = 2;
    let six = |plan: &mut Plan| plan.order = 1;
    let seven = |plan: &mut Plan| plan.rows = 9;
    let eight = |plan: &mut Plan| plan.challenges = 12;
    let counts = |plan: &mut Plan| plan.coefficients.push(0);
    let coefficient = |plan: &mut Plan| plan.coefficients[0] = 11;
    let generator = |plan: &mut Plan| plan.generators[0] = 5;
    let statement = |plan: &mut Plan| plan.statement[0] = 5;
    let flaws: [(u32, Mend); 8] = [
        (5, five),
        (6, six),
        (7, seven),
        (8, eight),
        (29, counts),
        (30, coefficient),
        (10, generator),
        (11, statement),
    ];
    for (place, (number, flaw)) in flaws.iter().enumerate() {
        for (_, later) in &flaws[place..] {
            let both = |plan: &mut Plan| {
                later(plan);
                flaw(plan);
            };
            assert_eq!(changed(both), *number);
        }
        let mut plan = one_form();
        flaw(&mut plan);
        assert_eq!(plan.make(&mut []), Err(*number));
    }
}

#[test]
fn bounds_of_5_and_6() {
    // 1 is a group element for every modulus and order.
    let ones = |m: u32, q: u32| Plan { modulus: m, order: q, challenges: 2, ..of_ones(1, 1, 1) };
    for (m, number) in [(0, 5), (1, 5), (2, 5), (3, 0), (4, 0), (u32::MAX, 0)] {
        assert_eq!(ones(m, 11).number(), number);
    }
    for (q, number) in [(0, 6), (1, 6), (2, 0), (3, 0), (u32::MAX, 0)] {
        assert_eq!(ones(23, q).number(), number);
    }
}

#[test]
fn bounds_of_7() {
    for rows in 0..=10 {
        for columns in 0..=10 {
            let in_range = (1..=8).contains(&rows) && (1..=8).contains(&columns);
            let number = if in_range { 0 } else { 7 };
            assert_eq!(of_ones(rows, columns, 2).number(), number);
        }
    }
    // A number that only fits one byte once it is cut.
    for wide in [257, 264, 65_537, 1 << 31, u32::MAX] {
        assert_eq!(of_ones(wide, 1, 1).number(), 7);
        assert_eq!(of_ones(1, wide, 1).number(), 7);
    }
}

#[test]
fn bounds_of_8() {
    let ones = |q: u32, k: u32| {
        let plan = Plan { order: q, challenges: k, ..of_ones(1, 1, 1) };
        plan.number()
    };
    for q in 2..40_u32 {
        let smallest = (2..=q).find(|d| q % *d == 0).unwrap();
        for k in 0..45 {
            let good = 2 <= k && k <= smallest;
            assert_eq!(ones(q, k), if good { 0 } else { 8 });
        }
    }
    let prime = 4_294_967_291;
    assert_eq!(ones(prime, 65_536), 0);
    assert_eq!(ones(prime, 65_537), 8);
    assert_eq!(ones(prime, u32::MAX), 8);
}

#[test]
fn bounds_of_29() {
    for generators in 0..=17 {
        let good = (1..=8).contains(&generators);
        let number = if good { 0 } else { 29 };
        assert_eq!(of_ones(2, 3, generators).number(), number);
    }
    // Each count that is one or more off, up and down.
    for (s, n, g) in [(1, 1, 1), (2, 3, 4), (3, 2, 1), (8, 8, 8), (1, 8, 2)] {
        let plan = of_ones(s, n, g);
        let right = plan.coefficients.len();
        for count in [0, right - 1, right, right + 1, 2 * right, right + 256] {
            let mut other = plan.clone();
            other.coefficients = vec![1; count];
            assert_eq!(other.number(), if count == right { 0 } else { 29 });
        }
        let right = plan.statement.len();
        for count in [0, right - 1, right, right + 1, right + 8, right + 256] {
            let mut other = plan.clone();
            other.statement = vec![1; count];
            assert_eq!(other.number(), if count == right { 0 } else { 29 });
        }
    }
    // As many coefficients as entries, or as one row has, or as one generator.
    for count in [6, 12, 8, 4] {
        let mut plan = of_ones(2, 3, 4);
        plan.coefficients = vec![1; count];
        assert_eq!(plan.number(), 29);
    }
}

#[test]
fn bounds_of_30() {
    for (coefficient, number) in [(0, 0), (10, 0), (11, 30), (12, 30), (23, 30), (u32::MAX, 30)] {
        let plan = of_ones(2, 2, 2);
        for place in 0..8 {
            let mut other = plan.clone();
            other.coefficients[place] = coefficient;
            assert_eq!(other.number(), number);
        }
    }
    // A q above m.
    let mut plan = of_ones(1, 1, 1);
    plan.order = 59;
    plan.coefficients = vec![58];
    assert_eq!(plan.number(), 0);
    plan.coefficients = vec![59];
    assert_eq!(plan.number(), 30);
}

#[test]
fn bounds_of_10_and_11() {
    let elements = [1, 2, 3, 4, 6, 8, 9, 12, 13, 16, 18];
    for v in (0..50).chain([u32::MAX - 22, u32::MAX]) {
        let good = elements.contains(&v);
        for place in 0..3 {
            let mut plan = of_ones(3, 2, 3);
            plan.generators[place] = v;
            assert_eq!(plan.number(), if good { 0 } else { 10 });
            let mut plan = of_ones(3, 2, 3);
            plan.statement[place] = v;
            assert_eq!(plan.number(), if good { 0 } else { 11 });
        }
    }
}

#[test]
fn a_generator_is_tested_though_its_coefficients_are_0() {
    for generator in [0, 5, 22, 23, 24] {
        let refusal = changed(|plan| {
            plan.generators.push(generator);
            plan.coefficients.push(0);
        });
        assert_eq!(refusal, 10);
    }
    // The entry 5 · 14 is 1, which is an element, but no generator is one.
    let refusal = changed(|plan| {
        plan.generators = vec![5, 14];
        plan.coefficients = vec![1, 1];
    });
    assert_eq!(refusal, 10);
}
