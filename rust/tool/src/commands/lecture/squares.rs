//! Pictures of all rounds as squares of cells: two coordinates of the response, or challenges by responses.

use super::page::Section;
use super::rounds::{self, Lists};
use super::statement::note;
use super::svg::{Anchor, Svg};
use super::text;
use crate::sheets::{column_count, notation, small};
use dimkhoros::{Instance, Places, Round};

/// The width of a picture.
const WIDTH: f64 = 1180.0;
/// The most rows and columns of a square.
const MOST: usize = 13;
/// The size of the text.
const SIZE: f64 = 20.0;

/// A square of cells with a head for each row and column.
struct Square {
    /// What stands over it.
    title: String,
    /// The names of the rows' and of the columns' heads.
    axes: [String; 2],
    /// The heads of the rows.
    rows: Vec<String>,
    /// The heads of the columns.
    columns: Vec<String>,
    /// The cells, row by row, and whether they are marked.
    cells: Vec<(String, bool)>,
}

/// The height of a cell.
const TALL: f64 = 35.0;
/// The height of the title and the heads.
const HEAD: f64 = 94.0;

impl Square {
    /// The width that the widest of these words needs.
    fn needed(words: &[String]) -> f64 {
        let width = |words: &String| text::width(&text::wrap(words, f64::INFINITY).concat()) * SIZE;
        words.iter().map(width).fold(0.0, f64::max) + 14.0
    }

    /// The width of a cell that has room for each.
    fn cell(&self) -> f64 {
        let cells: Vec<String> = self.cells.iter().map(|(cell, _)| cell.clone()).collect();
        f64::max(Square::needed(&cells), Square::needed(&self.columns))
    }

    /// The width of the heads of the rows.
    fn side(&self) -> f64 {
        Square::needed(&self.rows) + 30.0
    }

    /// The width of the whole square with cells of this width.
    fn width(&self, cell: f64) -> f64 {
        self.side() + cell * self.columns.len() as f64
    }

    /// The height of the whole square.
    fn height(&self) -> f64 {
        HEAD + TALL * self.rows.len() as f64 + 6.0
    }

    /// Draws the square.
    fn draw(&self, svg: &mut Svg, left: f64, cell: f64) {
        let inner = left + self.side();
        let middle = inner + cell * self.columns.len() as f64 / 2.0;
        if !self.title.is_empty() {
            svg.prose((middle, 20.0), SIZE + 1.0, Anchor::Middle, "strong", &self.title);
        }
        svg.prose((middle, 52.0), SIZE, Anchor::Middle, "soft", &self.axes[1]);
        svg.prose((inner - 12.0, HEAD - 12.0), SIZE, Anchor::End, "soft", &self.axes[0]);
        for (column, head) in self.columns.iter().enumerate() {
            let x = inner + cell * (column as f64 + 0.5);
            svg.prose((x, HEAD - 12.0), SIZE, Anchor::Middle, "strong", head);
        }
        self.draw_rows(svg, inner);
        self.draw_cells(svg, inner, cell);
    }

    /// Draws the heads of the rows, left of the cells.
    fn draw_rows(&self, svg: &mut Svg, inner: f64) {
        for (row, head) in self.rows.iter().enumerate() {
            let y = HEAD + TALL * row as f64 + 24.0;
            svg.prose((inner - 12.0, y), SIZE, Anchor::End, "strong", head);
        }
    }

    /// Draws the cells, the marked ones last so that nothing covers their frames.
    fn draw_cells(&self, svg: &mut Svg, inner: f64, cell: f64) {
        let count = self.columns.len().max(1);
        let mut order: Vec<usize> = (0..self.cells.len()).collect();
        order.sort_by_key(|place| self.cells[*place].1);
        for place in order {
            let (words, marked) = &self.cells[place];
            let x = inner + cell * (place % count) as f64;
            let y = HEAD + TALL * (place / count) as f64;
            svg.rectangle((x, y), (cell, TALL), if *marked { "marked" } else { "cell" });
            let class = if *marked { "strong" } else { "" };
            svg.prose((x + cell / 2.0, y + 24.0), SIZE, Anchor::Middle, class, words);
        }
    }

    /// The square in words.
    fn told(&self) -> String {
        let count = self.columns.len().max(1);
        let row = |(head, cells): (&String, &[(String, bool)])| {
            let cells: Vec<&str> = cells.iter().map(|(cell, _)| cell.as_str()).collect();
            format!("{} {head}: {}", self.axes[0], cells.join(" "))
        };
        let rows: Vec<String> = self.rows.iter().zip(self.cells.chunks(count)).map(row).collect();
        format!("{}. {}.", self.title, rows.join("; "))
    }
}

/// The honest and the simulated rounds of a sheet with two columns, in two squares: none where they have no room.
pub fn picture(sheet: &Instance, run: &Round, lists: &Lists) -> Option<String> {
    let values = small::coordinates(sheet)?;
    if column_count(sheet) != 2 || values.len() > MOST {
        return None;
    }
    let heads: Vec<String> = values.iter().map(u32::to_string).collect();
    let square = |title: &str, rounds: &[Round]| Square {
        title: title.to_string(),
        axes: ["$r1$".to_string(), "$r2$".to_string()],
        rows: heads.clone(),
        columns: heads.clone(),
        cells: rounds
            .iter()
            .map(|round| (notation::by_row(sheet, &round.commitment), round == run))
            .collect(),
    };
    let honest: Vec<Round> = lists.honest.iter().map(|honest| honest.round).collect();
    let honest = square("$t$ of the honest rounds", &honest);
    let simulated = square("$t$ of the simulated rounds", &lists.simulated);
    let room = (WIDTH - 60.0) / 2.0;
    if honest.width(honest.cell()) > room {
        return None;
    }
    let cell = (room - honest.side()) / heads.len() as f64;
    let title = format!("Honest and simulated rounds with the challenge {}", run.challenge);
    Some(equal_squares(&honest, &simulated, cell, &title))
}

/// Two squares with a sign of equality between them.
fn equal_squares(left: &Square, right: &Square, cell: f64, title: &str) -> String {
    let mut svg = Svg::new(WIDTH);
    left.draw(&mut svg, 0.0, cell);
    right.draw(&mut svg, WIDTH - right.width(cell), cell);
    let height = HEAD + TALL * left.rows.len() as f64 / 2.0;
    // The heads of the right square's rows stand between the two.
    let middle = WIDTH / 2.0 + 18.0;
    for beside in [-5.0, 5.0] {
        svg.line((middle - 20.0, height + beside), (middle + 20.0, height + beside), "message");
    }
    let told = left.told() + " " + &right.told();
    svg.finish(left.height(), "rounds-picture-1", title, &told)
}

/// The section on challenges by responses, where the sheet is very small. The commitment of the run is marked.
pub fn grid(sheet: &Instance, commitment: &Places, known: bool) -> Option<Section> {
    let challenges = sheet.values().header.challenges;
    let responses = small::domain(sheet, 24)?;
    if challenges as usize > MOST {
        return None;
    }
    let mut cells = Vec::new();
    for challenge in 0..challenges {
        let row = responses.iter().map(|response| rounds::simulated(sheet, challenge, response));
        cells.extend(row.collect::<Result<Vec<Round>, _>>().ok()?);
    }
    let square = Square {
        title: String::new(),
        axes: ["$c$".to_string(), "response $r$".to_string()],
        rows: (0..challenges).map(|challenge| challenge.to_string()).collect(),
        columns: responses.iter().map(|response| notation::by_column(sheet, response)).collect(),
        cells: cells
            .iter()
            .map(|round| {
                (notation::by_row(sheet, &round.commitment), round.commitment == *commitment)
            })
            .collect(),
    };
    let narrow = square.cell();
    if square.width(narrow) > WIDTH {
        return None;
    }
    let cell = f64::min(72.0, (WIDTH - square.side()) / responses.len() as f64).max(narrow);
    let mut svg = Svg::new(WIDTH);
    square.draw(&mut svg, (WIDTH - square.width(cell)) / 2.0, cell);
    let picture =
        svg.finish(square.height(), "grid-picture", "All accepted rounds", &square.told());
    let t = notation::by_row(sheet, commitment);
    let body = picture + &note(&grid_words(&t, known));
    Some(Section {
        id: "grid".to_string(),
        heading: "All accepted rounds: the $t$ of each $c$ and $r$".to_string(),
        body,
    })
}

/// What is said below the grid.
fn grid_words(t: &str, known: bool) -> String {
    if known {
        format!(
            "The cells with $t = {t}$ are framed. There is one in every row at least: who knows a witness can answer every \
             challenge. Two of them in different rows give a witness away."
        )
    } else {
        format!(
            "The cells with $t = {t}$ are framed. They are in one row: without a witness each commitment answers at most one \
             challenge."
        )
    }
}
