//! Prose and formulas, set for HTML and for SVG.
//!
//! A formula is written as the tool prints it: `2^x1` is 2 to the power of x with the index 1, a letter alone is italic, a word
//! such as `mod` is not, `^{...}` raises and `_{...}` lowers several characters. In prose a formula stands between `$` signs.

/// A piece of a text.
#[derive(Clone, Debug, PartialEq)]
pub enum Piece {
    /// Upright characters.
    Plain(String),
    /// Italic characters.
    Italic(String),
    /// Raised pieces.
    Raised(Vec<Piece>),
    /// Lowered pieces.
    Lowered(Vec<Piece>),
}

/// The pieces of prose, in which formulas stand between `$` signs. Its apostrophes are curly.
pub fn prose(text: &str) -> Vec<Piece> {
    let parts = text.split('$').enumerate().filter(|(_, part)| !part.is_empty());
    let pieces = parts.map(|(place, part)| match place % 2 {
        0 => vec![Piece::Plain(part.replace('\'', "’"))],
        _ => formula(part),
    });
    pieces.flatten().collect()
}

/// The signs and words that a line may be broken before, and not behind.
const SIGNS: [&str; 6] = ["=", "·", "+", "-", "/", "mod"];

/// The pieces of a formula.
pub fn formula(text: &str) -> Vec<Piece> {
    let bound =
        |text: String, sign: &&str| text.replace(&format!("{sign} "), &format!("{sign}{UNBROKEN}"));
    let text = SIGNS.iter().fold(text.to_string(), bound);
    let mut pieces = Vec::new();
    let mut rest = text.as_str();
    while let Some(first) = rest.chars().next() {
        rest = match first {
            '^' | '_' => moved(rest, &mut pieces),
            _ if first.is_ascii_alphabetic() => word(rest, &mut pieces),
            _ => others(rest, &mut pieces),
        };
    }
    pieces
}

/// Takes `^` or `_` and what it raises or lowers: all in braces, or a number, or a name.
fn moved<'a>(text: &'a str, pieces: &mut Vec<Piece>) -> &'a str {
    let (sign, text) = text.split_at(1);
    let name = |other: char| other.is_ascii_alphanumeric() || other == '\'';
    let end = text.find(|other| !name(other)).unwrap_or(text.len());
    let braced = text.strip_prefix('{').and_then(|text| text.split_once('}'));
    let (inner, rest) = braced.unwrap_or(text.split_at(end));
    pieces.push(match sign {
        "^" => Piece::Raised(formula(inner)),
        _ => Piece::Lowered(formula(inner)),
    });
    rest
}

/// Takes a word, which is italic with its index where it is a single letter.
fn word<'a>(text: &'a str, pieces: &mut Vec<Piece>) -> &'a str {
    let end = text.find(|other: char| !other.is_ascii_alphabetic()).unwrap_or(text.len());
    if end > 1 {
        pieces.push(Piece::Plain(text[..end].to_string()));
        return &text[end..];
    }
    pieces.push(Piece::Italic(text[..1].to_string()));
    let rest = &text[1..];
    let end = rest.find(|other: char| !other.is_ascii_digit()).unwrap_or(rest.len());
    if end > 0 {
        pieces.push(Piece::Lowered(vec![Piece::Plain(rest[..end].to_string())]));
    }
    &rest[end..]
}

/// Takes numbers and signs up to the next word or power, with the proper minus sign and prime.
fn others<'a>(text: &'a str, pieces: &mut Vec<Piece>) -> &'a str {
    let ends = |other: char| matches!(other, '^' | '_') || other.is_ascii_alphabetic();
    let end = text.find(ends).unwrap_or(text.len());
    pieces.push(Piece::Plain(text[..end].replace('-', "−").replace('\'', "′")));
    &text[end..]
}

/// Prose in whose formulas the letters of a side of two have its index. An empty index changes nothing.
pub fn with_index(text: &str, index: &str) -> String {
    let mut parts: Vec<String> = text.split('$').map(str::to_string).collect();
    for formula in parts.iter_mut().skip(1).step_by(2) {
        *formula = formula_with_index(formula, index);
    }
    parts.join("$")
}

/// A formula whose letters of a side have its index, those that stand alone.
pub fn formula_with_index(formula: &str, index: &str) -> String {
    let characters: Vec<char> = formula.chars().collect();
    let alone = |place: usize| {
        let near = [place.checked_sub(1), place.checked_add(1)];
        let near = near.iter().flatten().filter_map(|place| characters.get(*place));
        near.into_iter().all(|near| !near.is_ascii_alphanumeric())
    };
    let indexed = |(place, letter): (usize, &char)| {
        if "tcrxzu".contains(*letter) && alone(place) {
            format!("{letter}{index}")
        } else {
            letter.to_string()
        }
    };
    characters.iter().enumerate().map(indexed).collect()
}

/// The text with the characters of the markup replaced.
pub fn escape(text: &str) -> String {
    let escaped = text.replace('&', "&amp;").replace('<', "&lt;").replace('>', "&gt;");
    escaped.replace('"', "&quot;").replace('\'', "&#39;")
}

/// Prose as HTML.
pub fn html(text: &str) -> String {
    pieces_html(&prose(text))
}

/// A formula as HTML.
pub fn formula_html(text: &str) -> String {
    pieces_html(&formula(text))
}

/// Pieces as HTML.
fn pieces_html(pieces: &[Piece]) -> String {
    let piece = |piece: &Piece| match piece {
        Piece::Plain(text) => escape(text),
        Piece::Italic(text) => format!("<i>{}</i>", escape(text)),
        Piece::Raised(inner) => format!("<sup>{}</sup>", pieces_html(inner)),
        Piece::Lowered(inner) => format!("<sub>{}</sub>", pieces_html(inner)),
    };
    pieces.iter().map(piece).collect()
}

/// Prose as plain characters, for descriptions.
pub fn plain(text: &str) -> String {
    text.replace('$', "").replace(['{', '}'], "").replace('-', "−")
}

/// Characters of one style on a line.
#[derive(Clone, Debug, PartialEq)]
pub struct Run {
    /// The characters.
    pub text: String,
    /// Whether they are italic.
    pub italic: bool,
    /// Their size, as a part of the line's.
    pub scale: f64,
    /// How far they stand above the line, as a part of the line's size.
    pub rise: f64,
}

/// How large raised and lowered characters are.
const SMALLER: f64 = 0.74;

/// The pieces one behind the other.
fn runs(pieces: &[Piece], scale: f64, rise: f64) -> Vec<Run> {
    let piece = |piece: &Piece| match piece {
        Piece::Plain(text) => vec![Run { text: text.clone(), italic: false, scale, rise }],
        Piece::Italic(text) => vec![Run { text: text.clone(), italic: true, scale, rise }],
        Piece::Raised(inner) => runs(inner, scale * SMALLER, rise + 0.36 * scale),
        Piece::Lowered(inner) => runs(inner, scale * SMALLER, rise - 0.2 * scale),
    };
    let mut joined: Vec<Run> = Vec::new();
    for run in pieces.iter().flat_map(piece) {
        match joined.last_mut() {
            Some(last) if last.is_like(&run) => last.text += &run.text,
            _ => joined.push(run),
        }
    }
    joined
}

impl Run {
    /// Whether two runs have the same style.
    fn is_like(&self, other: &Run) -> bool {
        (self.italic, self.scale, self.rise) == (other.italic, other.scale, other.rise)
    }
}

/// How wide runs are at the most, as a part of the line's size. Widths are those of a wide font.
pub fn width(runs: &[Run]) -> f64 {
    runs.iter().map(|run| run.scale * run.text.chars().map(character_width).sum::<f64>()).sum()
}

/// A space at which no line is broken.
const UNBROKEN: char = '\u{a0}';

/// Prose in which no line is broken within a formula.
pub fn unbroken(text: &str) -> String {
    let mut parts: Vec<String> = text.split('$').map(str::to_string).collect();
    for formula in parts.iter_mut().skip(1).step_by(2) {
        *formula = formula.replace(' ', &UNBROKEN.to_string());
    }
    parts.join("$")
}

/// How wide a space is at the most.
const SPACE: f64 = 0.33;

/// How wide a character is at the most.
fn character_width(character: char) -> f64 {
    match character {
        ' ' | UNBROKEN => SPACE,
        '·' | '.' | ',' | ';' | ':' | 'i' | 'j' | 'l' | '′' => 0.33,
        '(' | ')' | '[' | ']' | 'f' | 'r' | 't' | 's' => 0.47,
        '=' | '−' | '+' | '≠' | '→' | '←' | 'm' | 'w' | 'M' => 0.86,
        _ => 0.64,
    }
}

/// Prose in lines of at most this width, as a part of their size. It is broken at spaces.
pub fn wrap(text: &str, most: f64) -> Vec<Vec<Run>> {
    let mut lines: Vec<Vec<Run>> = Vec::new();
    for atom in atoms(&runs(&prose(text), 1.0, 0.0)) {
        match lines.last_mut() {
            Some(line) if width(line) + width(&atom) <= most + SPACE => line.extend(atom),
            _ => lines.push(atom),
        }
    }
    lines.into_iter().map(trimmed).collect()
}

/// A line without the space at its end.
fn trimmed(mut line: Vec<Run>) -> Vec<Run> {
    if let Some(last) = line.last_mut() {
        last.text.truncate(last.text.trim_end().len());
    }
    line
}

/// The runs in parts between which lines are broken. Each but the last ends in a space.
fn atoms(runs: &[Run]) -> Vec<Vec<Run>> {
    let mut atoms: Vec<Vec<Run>> = Vec::new();
    let mut ended = true;
    let parts =
        runs.iter().flat_map(|run| run.text.split_inclusive(' ').map(move |text| (run, text)));
    for (run, text) in parts {
        let part = Run { text: text.to_string(), ..run.clone() };
        match atoms.last_mut() {
            Some(atom) if !ended => atom.push(part),
            _ => atoms.push(vec![part]),
        }
        ended = text.ends_with(' ');
    }
    atoms
}
