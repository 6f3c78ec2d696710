//! Sheets from linear forms, and the paper's example of them.

use judge::*;

use crate::tools::*;

/// What the maker of linear forms takes, without the buffer.
#[derive(Clone)]
pub struct Plan {
    pub modulus: u32,
    pub order: u32,
    pub challenges: u32,
    pub rows: u32,
    pub columns: u32,
    pub generators: Vec<u32>,
    pub coefficients: Vec<u32>,
    pub statement: Vec<u32>,
}

impl Plan {
    /// Makes the sheet in a lent buffer.
    pub fn make(&self, buffer: &mut [u8]) -> Written {
        linear::make(
            self.modulus,
            self.order,
            self.challenges,
            self.rows,
            self.columns,
            &self.generators,
            &self.coefficients,
            &self.statement,
            buffer,
        )
    }

    /// The bytes of the sheet. Those behind it in the buffer stay.
    pub fn bytes(&self) -> Vec<u8> {
        let mut buffer = [0xAA; 400];
        let length = self.make(&mut buffer).unwrap();
        assert!(buffer[length..].iter().all(|byte| *byte == 0xAA));
        buffer[..length].to_vec()
    }

    /// The refusal with room for any sheet, 0 where there is none.
    pub fn number(&self) -> u32 {
        let mut buffer = [0xAA; 400];
        let answer = self.make(&mut buffer);
        assert!(answer.is_ok() || buffer == [0xAA; 400]);
        answer.err().unwrap_or(0)
    }
}

/// Maurer's example: z_1 = h1^x3 · h2^x1 and z_2 = h1^x2 · h2^x4 · h3^x1.
pub fn maurers_example(statement: [u32; 2]) -> Plan {
    Plan {
        modulus: 23,
        order: 11,
        challenges: 11,
        rows: 2,
        columns: 4,
        generators: vec![2, 3, 4],
        coefficients: vec![
            0, 0, 1, 0, // h1 in z_1
            1, 0, 0, 0, // h2 in z_1
            0, 0, 0, 0, // h3 in z_1
            0, 1, 0, 0, // h1 in z_2
            0, 0, 0, 1, // h2 in z_2
            1, 0, 0, 0, // h3 in z_2
        ],
        statement: statement.to_vec(),
    }
}

/// One row, one column and one generator: page A's sheet.
pub fn one_form() -> Plan {
    Plan {
        modulus: 23,
        order: 11,
        challenges: 11,
        rows: 1,
        columns: 1,
        generators: vec![2],
        coefficients: vec![1],
        statement: vec![13],
    }
}

/// The image of a secret, as the commitment of the same nonce.
pub fn image(sheet: &[u8], secret: &[u32; 8]) -> [u32; 8] {
    commit(sheet, Prover::new(), secret).0.unwrap()
}

#[test]
fn maurers_example_byte_by_byte() {
    let table: [&[u32]; 2] = [&[3, 1, 2, 1], &[4, 2, 1, 3]];
    let expected = exponent(23, 11, 11, &table, &[13, 18]).bytes();
    assert_eq!(maurers_example([13, 18]).bytes(), expected);
    assert_eq!(expected.len(), 20 + 4 * 8 + 4 * 2);
}

#[test]
fn maurers_example_for_every_secret() {
    let sheet = maurers_example([1, 1]).bytes();
    let power = |h: u64, x: u32| (0..x).fold(1, |product, _| product * h % 23);
    let slots: Vec<u32> = (0..11).collect();
    for x in choices(&slots, 4) {
        let first = power(2, x[2]) * power(3, x[0]) % 23;
        let second = power(2, x[1]) * power(3, x[3]) * power(4, x[0]) % 23;
        let expected = eight(&[first as u32, second as u32]);
        assert_eq!(image(&sheet, &x), expected);
    }
}

#[test]
fn maurers_example_is_played_and_extracted() {
    let x = eight(&[3, 5, 7, 9]);
    let z = image(&maurers_example([1, 1]).bytes(), &x);
    let sheet = maurers_example([z[0], z[1]]).bytes();
    let [first, second] = [2, 10].map(|c| {
        let (t, session) = commit(&sheet, Prover::new(), &eight(&[10, 0, 4, 6]));
        let (r, _) = respond(&sheet, session, c, &x);
        round(&t.unwrap(), c, &r.unwrap())
    });
    assert_eq!(judge(&sheet, &first), Verdict::Accepted);
    assert_eq!(judge(&sheet, &second), Verdict::Accepted);
    assert_eq!(extract(&sheet, &first, &second), Ok(x));
}

#[test]
fn page_as_sheet_from_one_form() {
    assert_eq!(one_form().bytes(), page_a());
    // 2^3 is 8 and 2^0 is 1, whatever the generator.
    for (coefficient, entry) in [(3, 8), (0, 1), (10, 12)] {
        let mut plan = one_form();
        plan.coefficients = vec![coefficient];
        let expected = exponent(23, 11, 11, &[&[entry]], &[13]).bytes();
        assert_eq!(plan.bytes(), expected);
    }
}

#[test]
fn the_first_five_patterns_as_linear_forms() {
    // One generator for each public value, each digit a coefficient of 1.
    let forms: [(u64, u32, u32, &[u32]); 5] = [
        (1, 1, 1, &[1]),
        (2, 1, 2, &[1, 0, 0, 1]),
        (3, 2, 1, &[1, 0, 0, 1]),
        (4, 2, 1, &[1, 0, 0, 1]),
        (5, 2, 3, &[1, 0, 0, 0, 1, 0, 0, 0, 0, 0, 0, 0, 0, 0, 1, 1, 0, 0]),
    ];
    let (values, statement) = ([2, 3, 4], [12, 9]);
    for (pattern, rows, columns, coefficients) in forms {
        let count = coefficients.len() / (rows * columns) as usize;
        let plan = Plan {
            rows,
            columns,
            generators: values[..count].to_vec(),
            coefficients: coefficients.to_vec(),
            statement: statement[..rows as usize].to_vec(),
            ..one_form()
        };
        let mut buffer = [0; 80];
        let length = make(pattern, 23, 11, 11, &plan.generators, &plan.statement, &mut buffer);
        assert_eq!(plan.bytes(), buffer[..length.unwrap()]);
    }
}

#[test]
fn coefficients_go_by_row_then_generator_then_column() {
    // All eight places of two rows, two generators and two columns differ.
    let plan = Plan {
        rows: 2,
        columns: 2,
        generators: vec![2, 3],
        coefficients: vec![1, 2, 3, 4, 5, 6, 7, 8],
        statement: vec![1, 1],
        ..one_form()
    };
    let power = |h: u32, x: u32| (0..x).fold(1, |product, _| product * h % 23);
    let entry = |first: u32, second: u32| power(2, first) * power(3, second) % 23;
    let table: [&[u32]; 2] = [&[entry(1, 3), entry(2, 4)], &[entry(5, 7), entry(6, 8)]];
    let expected = exponent(23, 11, 11, &table, &[1, 1]).bytes();
    assert_eq!(plan.bytes(), expected);
}

#[test]
fn the_widest_plan() {
    // Eight rows, columns and generators, and 512 coefficients of 1.
    let generators = vec![2, 3, 4, 6, 8, 9, 12, 13];
    let entry = generators.iter().fold(1, |product, h| product * h % 23);
    let plan = Plan {
        rows: 8,
        columns: 8,
        generators,
        coefficients: vec![1; 512],
        statement: vec![1, 2, 3, 4, 6, 8, 9, 12],
        ..one_form()
    };
    let row = [entry; 8];
    let table = [&row[..]; 8];
    let expected = exponent(23, 11, 11, &table, &plan.statement).bytes();
    assert_eq!(plan.bytes(), expected);
    assert_eq!(expected.len(), 308);
}

#[test]
fn generators_of_1_and_the_same_generator_twice() {
    let plan = Plan { generators: vec![1, 2, 2], coefficients: vec![9, 10, 5], ..one_form() };
    // 2^15 is 2^4 mod 23, since 2^11 is 1.
    let expected = exponent(23, 11, 11, &[&[16]], &[13]).bytes();
    assert_eq!(plan.bytes(), expected);
}

/// The power mod 2^32 − 5, which is prime.
fn wide_power(h: u32, mut left: u128) -> u32 {
    let m = 4_294_967_291;
    let (mut result, mut square) = (1, u128::from(h));
    while left > 0 {
        if left % 2 == 1 {
            result = result * square % m;
        }
        square = square * square % m;
        left /= 2;
    }
    result as u32
}

#[test]
fn wide_numbers_follow_the_formula() {
    // 2^32 − 6 is 190 times the prime 22605091.
    let (m, q) = (4_294_967_291, 22_605_091);
    let generators = [2, 3, 5].map(|v| wide_power(v, 190));
    let coefficients: Vec<u32> = (0..12).map(|i| q - 1 - i * 1_000_003).collect();
    let plan = Plan {
        modulus: m,
        order: q,
        challenges: 65_536,
        rows: 2,
        columns: 2,
        generators: generators.to_vec(),
        coefficients: coefficients.clone(),
        statement: vec![1, generators[0]],
    };
    let sheet = plan.bytes();
    for x in [[q - 1, q - 1], [0, q - 1], [12_345_678, 7]] {
        let [first, second] = x.map(u128::from);
        let expected = [0, 1].map(|row: usize| {
            let mut product = 1;
            for (place, generator) in generators.iter().enumerate() {
                let form = &coefficients[(3 * row + place) * 2..][..2];
                let sum = u128::from(form[0]) * first + u128::from(form[1]) * second;
                let factor = u128::from(wide_power(*generator, sum % u128::from(q)));
                product = product * factor % u128::from(m);
            }
            product as u32
        });
        assert_eq!(image(&sheet, &eight(&x)), eight(&expected));
    }
}
