//! Random plans of linear forms against the paper's formula.

use std::collections::BTreeSet;

use judge::*;

use crate::linear_forms::*;
use crate::naive::*;
use crate::tools::*;

/// The paper's formula in the slowest form: in row i, each generator to the
/// power of its linear form of the secret mod q.
fn slow_formula(plan: &Plan, x: &[u32; 8]) -> [u32; 8] {
    let (n, g) = (plan.columns as usize, plan.generators.len());
    let mut image = [0; 8];
    for (i, value) in image.iter_mut().enumerate().take(plan.rows as usize) {
        *value = 1;
        for (l, generator) in plan.generators.iter().enumerate() {
            let mut form = 0;
            for (j, slot) in x.iter().enumerate().take(n) {
                form += plan.coefficients[i * g * n + l * n + j] * slot;
            }
            let factor = slow_power(*generator, form % plan.order, plan.modulus);
            *value = *value * factor % plan.modulus;
        }
    }
    image
}

/// A sheet of kind 1 with the plan's numbers and nothing else.
fn header(plan: &Plan) -> Sheet {
    Sheet {
        kind: 1,
        modulus: plan.modulus,
        order: plan.order,
        challenges: plan.challenges,
        rows: plan.rows,
        columns: plan.columns,
        entries: [[0; 8]; 8],
        statement: [0; 8],
    }
}

/// A random plan that is refused by nothing, with a statement of any elements.
fn random_plan(shifts: &mut Shifts) -> Plan {
    let order = 2 + shifts.below(40) as u32;
    let most = (2..=order).find(|d| order % *d == 0).unwrap();
    let mut plan = Plan {
        modulus: 3 + shifts.below(80) as u32,
        order,
        challenges: 2 + shifts.below(u64::from(most) - 1) as u32,
        rows: 1 + shifts.below(8) as u32,
        columns: 1 + shifts.below(8) as u32,
        generators: vec![0; 1 + shifts.below(8) as usize],
        coefficients: Vec::new(),
        statement: Vec::new(),
    };
    let elements = elements(&header(&plan));
    let (s, n) = (plan.rows as usize, plan.columns as usize);
    for generator in &mut plan.generators {
        *generator = shifts.pick(&elements);
    }
    for _ in 0..s * plan.generators.len() * n {
        let coefficient = shifts.below(u64::from(order)) as u32;
        plan.coefficients.push(coefficient);
    }
    plan.statement = (0..s).map(|_| shifts.pick(&elements)).collect();
    plan
}

/// A random secret of a plan, with 0 beyond its columns.
fn secret(shifts: &mut Shifts, plan: &Plan) -> [u32; 8] {
    let slots = std::array::from_fn::<u32, 8, _>(|_| shifts.below(u64::from(plan.order)) as u32);
    eight(&slots[..plan.columns as usize])
}

#[test]
fn images_are_the_papers_formula() {
    let mut shifts = Shifts(0x11EA_4F04_11EA_4F04);
    for _ in 0..1500 {
        let plan = random_plan(&mut shifts);
        let sheet = plan.bytes();
        let loaded = load(&sheet).unwrap();
        let mut expected = header(&plan);
        expected.entries = loaded.entries;
        expected.statement = eight(&plan.statement);
        assert_eq!(loaded, expected);
        for _ in 0..4 {
            let x = secret(&mut shifts, &plan);
            assert_eq!(image(&sheet, &x), slow_formula(&plan, &x));
        }
    }
}

#[test]
fn a_secret_answers_for_the_formulas_statement() {
    let mut shifts = Shifts(0x5EC2_E75E_C2E7_5EC3);
    for _ in 0..800 {
        let mut plan = random_plan(&mut shifts);
        let x = secret(&mut shifts, &plan);
        let z = slow_formula(&plan, &x);
        plan.statement = z[..plan.rows as usize].to_vec();
        let sheet = plan.bytes();
        let k = secret(&mut shifts, &plan);
        let c = shifts.below(u64::from(plan.challenges)) as u32;
        let (t, session) = commit(&sheet, Prover::new(), &k);
        let (r, _) = respond(&sheet, session, c, &x);
        let (t, r) = (t.unwrap(), r.unwrap());
        assert_eq!(t, slow_formula(&plan, &k));
        assert_eq!(judge(&sheet, &round(&t, c, &r)), Verdict::Accepted);
    }
}

#[test]
fn the_sheet_needs_its_own_length_and_no_more() {
    let mut shifts = Shifts(0x1E46_7811_1E46_7811);
    for _ in 0..500 {
        let plan = random_plan(&mut shifts);
        let bytes = plan.bytes();
        let (s, n) = (plan.rows as usize, plan.columns as usize);
        assert_eq!(bytes.len(), 20 + 4 * (s * n + s));
        let mut buffer = vec![0xAA; bytes.len()];
        assert_eq!(plan.make(&mut buffer), Ok(bytes.len()));
        assert_eq!(buffer, bytes);
        let short = shifts.below(bytes.len() as u64) as usize;
        let mut buffer = vec![0xAA; short];
        assert_eq!(plan.make(&mut buffer), Err(22));
        assert_eq!(buffer, vec![0xAA; short]);
    }
}

/// The refusal of a plan by the slow rules, 0 where there is none.
fn slow_number(plan: &Plan, length: usize) -> u32 {
    let [s, n] = [plan.rows, plan.columns].map(|count| count as usize);
    let g = plan.generators.len();
    let stranger = |v: &u32| !slow_element(&header(plan), *v);
    let divides = |d: u32| plan.order % d == 0;
    if plan.modulus <= 2 {
        5
    } else if plan.order <= 1 {
        6
    } else if s == 0 || n == 0 || s > 8 || n > 8 {
        7
    } else if plan.challenges <= 1 || (2..plan.challenges).any(divides) {
        8
    } else if g == 0 || g > 8 || plan.coefficients.len() != s * g * n || plan.statement.len() != s {
        29
    } else if plan.coefficients.iter().any(|v| *v > plan.order - 1) {
        30
    } else if plan.generators.iter().any(stranger) {
        10
    } else if plan.statement.iter().any(stranger) {
        11
    } else if length < 20 + 4 * s * (n + 1) {
        22
    } else {
        0
    }
}

/// Changes one number or one count of a plan, often to one close by.
fn spoil(shifts: &mut Shifts, plan: &mut Plan) {
    let value = shifts.below(50) as u32;
    let list = match shifts.below(8) {
        0 => return plan.modulus = value % 8,
        1 => return plan.order = 1 + value % 4,
        2 => return plan.challenges = value % 16,
        3 => return plan.rows = value % 11,
        4 => return plan.columns = value % 11,
        5 => &mut plan.generators,
        6 => &mut plan.coefficients,
        _ => &mut plan.statement,
    };
    match shifts.below(6) {
        0 => list.push(value),
        1 => drop(list.pop()),
        _ if list.is_empty() => {}
        _ => {
            let at = shifts.below(list.len() as u64) as usize;
            list[at] = value;
        }
    }
}

#[test]
fn spoilt_plans_are_refused_by_the_slow_rules() {
    let mut shifts = Shifts(0x0DD0_F0A4_0DD0_F0A5);
    let mut met = BTreeSet::new();
    for _ in 0..6000 {
        let mut plan = random_plan(&mut shifts);
        for _ in 0..shifts.below(4) {
            spoil(&mut shifts, &mut plan);
        }
        let mut buffer = vec![0xAA; shifts.below(400) as usize];
        let answer = plan.make(&mut buffer);
        let number = slow_number(&plan, buffer.len());
        assert_eq!(answer.err().unwrap_or(0), number);
        let used = answer.unwrap_or(0);
        assert!(buffer[used..].iter().all(|byte| *byte == 0xAA));
        met.insert(number);
    }
    assert_eq!(Vec::from_iter(met), [0, 5, 6, 7, 8, 10, 11, 22, 29, 30]);
}

#[test]
fn no_numbers_make_it_panic() {
    let mut shifts = Shifts(0x7EA2_0FA2_7EA2_0FA3);
    for _ in 0..3000 {
        let mut list = |most: u64| -> Vec<u32> {
            let count = shifts.below(most);
            (0..count).map(|_| shifts.edge()).collect()
        };
        let [generators, coefficients, statement] = [list(10), list(30), list(5)];
        let plan = Plan {
            modulus: shifts.edge(),
            order: shifts.edge(),
            challenges: shifts.edge(),
            rows: shifts.edge() % 10,
            columns: shifts.edge(),
            generators,
            coefficients,
            statement,
        };
        let mut buffer = vec![0xAA; shifts.below(90) as usize];
        let before = buffer.clone();
        let answer = plan.make(&mut buffer);
        assert!(answer.is_ok() || buffer == before);
    }
}
