//! Message diagrams: two parties, what they compute, and what they send each other.

use super::svg::{Anchor, Svg};
use super::text::{self, Run};

/// A message.
pub struct Message {
    /// Whether it goes from the left to the right.
    pub rightwards: bool,
    /// Its values, in prose. They stand on one line where they have room there.
    pub label: Vec<String>,
}

/// A row of a diagram: what the left party does, a message, and what the right party does, in prose.
#[derive(Default)]
pub struct Row {
    /// Beside the left party's line.
    pub left: Vec<String>,
    /// Between the lines.
    pub message: Option<Message>,
    /// Beside the right party's line.
    pub right: Vec<String>,
}

/// A diagram.
pub struct Diagram {
    /// Its name, which is its own on the page.
    pub id: String,
    /// Its title.
    pub title: String,
    /// The parties, each with what it knows.
    pub parties: [(String, String); 2],
    /// The rows, from above.
    pub rows: Vec<Row>,
    /// The verdict.
    pub verdict: String,
}

/// How large a diagram is set.
struct Measure {
    /// The size of the text.
    size: f64,
    /// The height of a line of text.
    line: f64,
    /// The space between rows.
    space: f64,
}

/// The measures to try in turn, until a diagram fits on a slide.
const MEASURES: [Measure; 4] = [
    Measure { size: 25.0, line: 35.0, space: 40.0 },
    Measure { size: 24.0, line: 33.0, space: 28.0 },
    Measure { size: 22.0, line: 30.0, space: 22.0 },
    Measure { size: 20.0, line: 27.0, space: 18.0 },
];
/// The height of a diagram that fits on a slide.
const FITTING: f64 = 580.0;
/// The width of a diagram.
const WIDTH: f64 = 1180.0;
/// The parties' lines.
const LIVES: [f64; 2] = [425.0, 755.0];
/// The space between a party's line and its text.
const ASIDE: f64 = 20.0;
/// The width of a box with a party's name.
const NAME: f64 = 156.0;
/// The height of the parties' names.
const NAMES: f64 = 52.0;

impl Diagram {
    /// The diagram as a picture.
    pub fn svg(&self) -> String {
        let [first, second, third, last] = MEASURES;
        let fits = |measure: &Measure| self.height(measure) <= FITTING;
        let measure = [first, second, third].into_iter().find(fits).unwrap_or(last);
        let mut svg = Svg::new(WIDTH);
        let height = self.height(&measure);
        self.names(&mut svg, &measure, height - 4.0);
        let mut above = NAMES;
        for row in self.sets(&measure) {
            above += row.height(&measure) + measure.space;
            row.draw(&mut svg, &measure, above);
        }
        verdict(&mut svg, &measure, above + 10.0, &self.verdict);
        svg.finish(height, &self.id, &self.title, &self.description())
    }

    /// How tall the diagram is in a measure.
    fn height(&self, measure: &Measure) -> f64 {
        let rows = self.sets(measure);
        let tall = rows.iter().map(|row| row.height(measure) + measure.space);
        NAMES + tall.sum::<f64>() + measure.line + 34.0
    }

    /// The rows in lines. What a party knows is a row of its own where it has no room beside its name.
    fn sets(&self, measure: &Measure) -> Vec<Set> {
        let [left, right] = [0, 1].map(|place| {
            let knows = &self.parties[place].1;
            if beside_name(knows, measure) { vec![] } else { vec![knows.clone()] }
        });
        let known = Row { left, message: None, right };
        let first = (known.left.len() + known.right.len() > 0).then(|| Set::new(&known, measure));
        first.into_iter().chain(self.rows.iter().map(|row| Set::new(row, measure))).collect()
    }

    /// Draws the parties' names over their lines, which end at this height, and what they know beside them where it has room.
    fn names(&self, svg: &mut Svg, measure: &Measure, end: f64) {
        for ((name, knows), place) in self.parties.iter().zip([0, 1]) {
            let (life, half) = (LIVES[place], NAME / 2.0);
            svg.line((life, NAMES), (life, end), "life");
            svg.rectangle((life - half, 2.0), (NAME, NAMES - 2.0), "box");
            svg.prose((life, 36.0), 25.0, Anchor::Middle, "strong", name);
            let (x, anchor) = match place {
                0 => (life - half - 14.0, Anchor::End),
                _ => (life + half + 14.0, Anchor::Start),
            };
            if beside_name(knows, measure) {
                svg.prose((x, 36.0), measure.size, anchor, "", knows);
            }
        }
    }

    /// What the diagram shows, in words.
    fn description(&self) -> String {
        let [left, right] = &self.parties;
        let mut told = format!("{}: {}. {}: {}. ", left.0, left.1, right.0, right.1);
        for row in &self.rows {
            told += &row.told(&left.0, &right.0);
        }
        told + &format!("{}: {}.", right.0, self.verdict)
    }
}

impl Row {
    /// The row in words, with the parties' names. Who sends comes first.
    fn told(&self, left: &str, right: &str) -> String {
        let by = |name: &str, lines: &[String]| match lines {
            [] => String::new(),
            _ => format!("{name}: {}. ", lines.join("; ")),
        };
        let [left_does, right_does] = [by(left, &self.left), by(right, &self.right)];
        match &self.message {
            Some(Message { rightwards: true, label }) => {
                format!("{left_does}{left} sends {right}: {}. {right_does}", label.join(", "))
            }
            Some(Message { label, .. }) => {
                format!("{right_does}{right} sends {left}: {}. {left_does}", label.join(", "))
            }
            None => left_does + &right_does,
        }
    }
}

/// A row whose texts are set in lines.
struct Set {
    left: Vec<Vec<Run>>,
    label: Vec<Vec<Run>>,
    rightwards: Option<bool>,
    right: Vec<Vec<Run>>,
}

impl Set {
    /// A row in lines.
    fn new(row: &Row, measure: &Measure) -> Set {
        let beside = (LIVES[0] - ASIDE) / measure.size;
        let between = (LIVES[1] - LIVES[0] - 30.0) / measure.size;
        let set = |words: &[String], most: f64| -> Vec<Vec<Run>> {
            words.iter().flat_map(|words| text::wrap(words, most)).collect()
        };
        let parts = row.message.as_ref().map_or(&[][..], |message| &message.label[..]);
        let joined = set(&[parts.join(", ")], between);
        let label = match joined.len() {
            1 => joined,
            _ => set(parts, between),
        };
        Set {
            left: set(&row.left, beside),
            label: if parts.is_empty() { vec![] } else { label },
            rightwards: row.message.as_ref().map(|message| message.rightwards),
            right: set(&row.right, beside),
        }
    }

    /// How tall the row is.
    fn height(&self, measure: &Measure) -> f64 {
        measure.line * self.left.len().max(self.right.len()).max(self.label.len()) as f64
    }

    /// Draws the row, which ends at this height.
    fn draw(&self, svg: &mut Svg, measure: &Measure, end: f64) {
        let middle = (LIVES[0] + LIVES[1]) / 2.0;
        column(svg, measure, (LIVES[0] - ASIDE, end), Anchor::End, &self.left);
        column(svg, measure, (LIVES[1] + ASIDE, end), Anchor::Start, &self.right);
        column(svg, measure, (middle, end - 5.0), Anchor::Middle, &self.label);
        let [left, right] = [(LIVES[0] + 3.0, end), (LIVES[1] - 3.0, end)];
        match self.rightwards {
            Some(true) => svg.arrow(left, right, "message"),
            Some(false) => svg.arrow(right, left, "message"),
            None => {}
        }
    }
}

/// Draws lines of text, of which the last stands at this point.
fn column(svg: &mut Svg, measure: &Measure, at: (f64, f64), anchor: Anchor, lines: &[Vec<Run>]) {
    for (place, line) in lines.iter().rev().enumerate() {
        let y = at.1 - 6.0 - measure.line * place as f64;
        svg.text((at.0, y), measure.size, anchor, "", line);
    }
}

/// Whether words have room beside a party's name.
fn beside_name(words: &str, measure: &Measure) -> bool {
    text::wrap(words, (LIVES[0] - NAME / 2.0 - 14.0) / measure.size).len() == 1
}

/// Draws the verdict in a box on the right.
fn verdict(svg: &mut Svg, measure: &Measure, above: f64, words: &str) {
    let line = text::wrap(words, f64::INFINITY).concat();
    let width = text::width(&line) * measure.size * 0.92 + 44.0;
    svg.rectangle((LIVES[1] + ASIDE, above), (width, measure.line + 10.0), "marked");
    let at =
        (LIVES[1] + ASIDE + width / 2.0, above + measure.line * 0.5 + measure.size * 0.36 + 5.0);
    svg.text(at, measure.size, Anchor::Middle, "strong", &line);
}
