//! The extractor on two rounds with one commitment, step by step.

use super::page::{Section, Table};
use super::run;
use super::svg::{Anchor, Svg};
use super::text;
use crate::by_hand::{self, Column, Euclid, Steps};
use crate::command_line::failure::{Failure, Outcome};
use crate::sheets::{column_count, notation, row_count};
use dimkhoros::{EXPONENT, Instance, Places, Round};

/// The most lines of Euclid's algorithm that stand beside the steps.
const BESIDE: usize = 4;

/// The most rows and columns whose numbers leave room for Euclid's algorithm below them.
const LOW: usize = 4;

/// The longest line of a step, in characters, that is set large.
const LONG: usize = 54;

/// The most columns whose witness stands among the steps.
const FEW: usize = 2;

/// The sections on the extractor: the steps, and Euclid's algorithm and the columns where they are many. The index is that of
/// the letters of a side of two, else empty.
pub fn sections(
    heading: &str,
    index: &str,
    sheet: &Instance,
    rounds: &[Round; 2],
) -> Outcome<Vec<Section>> {
    let witness = sheet.extract(&rounds[0], &rounds[1])?;
    let steps = by_hand::steps(sheet, &rounds[0], &rounds[1]);
    let steps = steps.filter(|steps| steps.witness == witness);
    let steps =
        steps.ok_or(Failure::failed("the steps of the extractor end in another witness"))?;
    let id = if index.is_empty() { "extractor".to_string() } else { format!("extractor-{index}") };
    let table = euclid(&steps.euclid);
    let low = row_count(sheet).max(column_count(sheet)) <= LOW;
    let beside = low && steps.euclid.lines.len() <= BESIDE;
    let left = fork(&id, index, sheet, rounds) + if beside { &table } else { "" };
    let by_column = columns(index, &steps);
    let steps = list(index, sheet, &steps, &witness);
    let body = format!("<div class=\"two\">\n<div>\n{left}</div>\n{steps}</div>\n");
    let mut sections = vec![Section { id: id.clone(), heading: heading.to_string(), body }];
    if !beside {
        let heading = "The numbers $a$ and $b$ of the extractor".to_string();
        sections.push(Section { id: format!("{id}-euclid"), heading, body: table });
    }
    if column_count(sheet) > FEW {
        let heading = "The columns of the extractor's witness".to_string();
        sections.push(Section { id: format!("{id}-columns"), heading, body: by_column });
    }
    Ok(sections)
}

/// The size of the text in the fork.
const SIZE: f64 = 22.0;
/// The height of a line of text in it.
const LINE: f64 = 30.0;
/// Its width.
const WIDTH: f64 = 460.0;

/// The two rounds as a fork: one commitment, from which two challenges lead to two responses.
fn fork(id: &str, index: &str, sheet: &Instance, rounds: &[Round; 2]) -> String {
    let mut svg = Svg::new(WIDTH);
    let t = format!("$t{index} = {}$", notation::by_row(sheet, &rounds[0].commitment));
    let lines = text::wrap(&t, (WIDTH - 140.0) / (1.08 * SIZE));
    let box_height = LINE * lines.len() as f64 + 16.0;
    svg.rectangle((60.0, 2.0), (WIDTH - 120.0, box_height), "box");
    for (place, line) in lines.iter().enumerate() {
        let y = 10.0 + LINE * (place as f64 + 0.75);
        svg.text((WIDTH / 2.0, y), SIZE, Anchor::Middle, "strong", line);
    }
    let primes = [index.to_string(), format!("{index}'")];
    let tall: Vec<f64> = [115.0, 345.0]
        .iter()
        .zip(rounds)
        .zip(&primes)
        .map(|((x, round), prime)| branch(&mut svg, sheet, round, prime, (*x, box_height + 2.0)))
        .collect();
    let height = tall.into_iter().fold(0.0, f64::max) + 12.0;
    let told = |prime: &str, round: &Round| {
        let r = notation::by_column(sheet, &round.response);
        format!("the challenge c{prime} = {} has the response r{prime} = {r}", round.challenge)
    };
    let description = format!(
        "From {t}, {}, and {}.",
        told(&primes[0], &rounds[0]),
        told(&primes[1], &rounds[1])
    );
    svg.finish(height, &format!("{id}-fork"), "Two rounds with one commitment", &description)
}

/// Draws a challenge and its response below the commitment, and answers where they end. What stands behind the letters is given.
fn branch(svg: &mut Svg, sheet: &Instance, round: &Round, prime: &str, at: (f64, f64)) -> f64 {
    let (x, above) = at;
    let start = (if x < WIDTH / 2.0 { 190.0 } else { 270.0 }, above);
    svg.arrow(start, (x, above + 62.0), "message");
    let (shift, anchor) =
        if x < WIDTH / 2.0 { (-22.0, Anchor::End) } else { (22.0, Anchor::Start) };
    let beside = ((start.0 + x) / 2.0 + shift, above + 36.0);
    svg.prose(beside, SIZE, anchor, "", &format!("$c{prime} = {}$", round.challenge));
    let r = format!("$r{prime} = {}$", notation::by_column(sheet, &round.response));
    let lines = text::wrap(&r, 205.0 / SIZE);
    let height = LINE * lines.len() as f64 + 14.0;
    svg.rectangle((x - 105.0, above + 66.0), (210.0, height), "box");
    for (place, line) in lines.iter().enumerate() {
        let y = above + 73.0 + LINE * (place as f64 + 0.75);
        svg.text((x, y), SIZE, Anchor::Middle, "", line);
    }
    above + 66.0 + height
}

/// The steps as a list.
fn list(index: &str, sheet: &Instance, steps: &Steps, witness: &Places) -> String {
    let item = |words: &str, more: &str| {
        format!("<li>{}\n{more}</li>\n", text::html(&text::with_index(words, index)))
    };
    let step = |words: &str, lines: &[String]| item(words, &step_lines(index, lines));
    let exponent = sheet.values().header.kind == EXPONENT;
    let (quotient, witness_formula) = if exponent {
        ("r - r'", "$u = 0$, so $x = u · a + (r - r') · b = b · (r - r')$:")
    } else {
        ("r / r'", "$u = z$, so $x = u^a · (r / r')^b = z^a · (r / r')^b$:")
    };
    let divided = format!(
        "$[r] = t · z^c$ and $[r'] = t · z^{{c'}}$. Divide: $[{quotient}] = z^{{c - c'}}$."
    );
    let none = "$ℓ$ and $c - c'$ share no factor: $ℓ · a + (c - c') · b = 1$.";
    let back = "$[x] = [u]^a · [r / r']^b = z^{ℓ·a + (c - c')·b} = z$:".replace("r / r'", quotient);
    let items = [
        step(&divided, &division(sheet, steps)),
        step(none, &[bezout(&steps.euclid)]),
        match &steps.columns[..] {
            [only] => step(witness_formula, &only_column(sheet, steps, only)),
            several if several.len() <= FEW => item(witness_formula, &columns(index, steps)),
            _ => step(witness_formula, &[format!("$x = {}$", notation::by_column(sheet, witness))]),
        },
        step(&back, &image(sheet, witness)),
    ];
    format!("<ol>\n{}</ol>\n", items.concat())
}

/// Lines of a step.
fn step_lines(index: &str, lines: &[String]) -> String {
    let long = lines.iter().any(|line| line.chars().count() > LONG);
    let class = if long { "step long" } else { "step" };
    let line = |line: &String| {
        let line = text::html(&text::with_index(line, index));
        format!("<span class=\"{class}\">{line}</span>\n")
    };
    lines.iter().map(line).collect()
}

/// The divided checks with their numbers, where they are short.
fn division(sheet: &Instance, steps: &Steps) -> Vec<String> {
    let (header, z) = (sheet.values().header, sheet.values().statement);
    if row_count(sheet) > 1 || column_count(sheet) > 1 {
        return Vec::new();
    }
    let [r, second] = steps.rounds.map(|round| round.response[0]);
    let sign = if header.kind == EXPONENT { "-" } else { "/" };
    let difference = signed(steps.euclid.difference.into());
    vec![format!("$[{r} {sign} {second}] = {}^{{{difference}}} mod {}$", z[0], header.modulus)]
}

/// The equation of a and b with its numbers.
fn bezout(euclid: &Euclid) -> String {
    let Euclid { order, difference, a, b, .. } = euclid;
    let [d, a_factor, b_factor] = [difference, a, b].map(|value| factor((*value).into()));
    format!("${order} · {a_factor} + {d} · {b_factor} = 1$, so $a = {a}$ and $b = {b}$")
}

/// An integer with a proper minus sign.
fn signed(value: i128) -> String {
    value.to_string().replace('-', "−")
}

/// An integer as a factor, a negative one in brackets.
fn factor(value: i128) -> String {
    if value < 0 { format!("({})", signed(value)) } else { value.to_string() }
}

/// The witness column by column, as a table.
fn columns(index: &str, steps: &Steps) -> String {
    let head = match steps.columns.first() {
        Some(Column::Root { .. }) => vec!["column", "$r / r'$", "$z^a$", "$(r / r')^b$", "$x$"],
        _ => vec!["column", "$r - r'$", "$b · (r - r')$", "$x mod ℓ$"],
    };
    let mut rows = vec![head.iter().map(|cell| text::with_index(cell, index)).collect()];
    let row = |(place, column): (usize, &Column)| {
        let mut row = vec![(place + 1).to_string()];
        row.extend(cells(column));
        row
    };
    rows.extend(steps.columns.iter().enumerate().map(row));
    let caption =
        format!("Column by column, with $a = {}$ and $b = {}$", steps.euclid.a, steps.euclid.b);
    Table { class: "figures", caption, rows, strong: vec![] }.html()
}

/// The cells of a column of the witness.
fn cells(column: &Column) -> Vec<String> {
    match column {
        Column::Exponent { difference, product, witness } => {
            vec![signed((*difference).into()), signed(*product), witness.to_string()]
        }
        Column::Root { quotient, first, second, witness, .. } => vec![
            quotient.to_string(),
            format!("${}^{} = {}$", first.base, first.exponent, first.rest),
            format!("${quotient}^{} = {}$", second.exponent, second.rest),
            witness.to_string(),
        ],
    }
}

/// The witness of one column in lines.
fn only_column(sheet: &Instance, steps: &Steps, column: &Column) -> Vec<String> {
    match column {
        Column::Exponent { difference, product, witness } => vec![format!(
            "$x = {} · {} = {} = {witness} mod {}$",
            steps.euclid.b,
            factor((*difference).into()),
            signed(*product),
            sheet.values().header.order
        )],
        Column::Root { .. } => root_lines(sheet, steps, column),
    }
}

/// The lines of the one column of a root sheet. A negative power of z is a power of its inverse.
fn root_lines(sheet: &Instance, steps: &Steps, column: &Column) -> Vec<String> {
    let Column::Root { inverse, quotient, first, second, witness, .. } = column else {
        return Vec::new();
    };
    let (m, a, z) = (sheet.values().header.modulus, steps.euclid.a, sheet.values().statement[0]);
    let [r, second_r] = steps.rounds.map(|round| round.response[0]);
    let power = match first.exponent {
        1 => String::new(),
        exponent => format!("{}^{exponent} = ", first.base),
    };
    let inverted = if a < 0 { format!("{z}^{{{}}} = {power}", signed(a.into())) } else { power };
    let b = second.exponent;
    vec![
        format!("$r / r' = {r} · {second_r}^{{-1}} = {r} · {inverse} = {quotient} mod {m}$"),
        format!("$z^a = {inverted}{} mod {m}$", first.rest),
        format!("$(r / r')^b = {quotient}^{b} = {} mod {m}$", second.rest),
        format!("$x = {} · {} = {witness} mod {m}$", first.rest, second.rest),
    ]
}

/// The image of the witness, which is the statement.
fn image(sheet: &Instance, witness: &Places) -> Vec<String> {
    let z = sheet.values().statement;
    let x = notation::by_column(sheet, witness);
    let whole = format!("$[{}] = {} = z$", notation::bare(&x), notation::by_row(sheet, &z));
    if row_count(sheet) > 1 || column_count(sheet) > 2 {
        return vec![whole];
    }
    let product = run::product(&by_hand::row_powers(sheet, 0, witness));
    let modulus = sheet.values().header.modulus;
    vec![format!("$[{}] = {product} mod {modulus} = {} = z$", notation::bare(&x), z[0])]
}

/// Euclid's algorithm as a table.
fn euclid(euclid: &Euclid) -> String {
    let line = |line: &by_hand::Line| {
        let quotient = if line.quotient == 0 { String::new() } else { line.quotient.to_string() };
        vec![line.rest.to_string(), quotient, signed(line.a.into()), signed(line.b.into())]
    };
    let mut rows = vec![["rest", "quotient", "$a$", "$b$"].map(str::to_string).to_vec()];
    rows.extend(euclid.lines.iter().map(line));
    if euclid.lines.last().is_some_and(|last| last.b != euclid.b) {
        let step = "$b + ℓ$".to_string();
        rows.push(vec!["1".to_string(), step, signed(euclid.a.into()), signed(euclid.b.into())]);
    }
    let caption = format!(
        "Euclid's algorithm: each rest is ${} · a + {} · b$",
        euclid.order,
        factor(euclid.difference.into())
    );
    let class = if rows.len() > 10 { "figures dense" } else { "figures" };
    Table { class, caption, strong: vec![rows.len() - 1], rows }.html()
}
