//! Two lists of rounds side by side, each round joined with its like.

use super::page::Section;
use super::statement::note;
use super::svg::{Anchor, Svg};
use super::text::{self, Run};

/// The size of the text.
const SIZE: f64 = 21.0;
/// The height of a line of text in a row.
const LINE: f64 = 27.0;
/// The height of a row besides its lines.
const AIR: f64 = 9.0;
/// The height of the heads of the columns.
const HEAD: f64 = 70.0;
/// The most rows below each other.
const ROWS: usize = 12;
/// The height of the most rows, each of one line.
const FULL: f64 = ROWS as f64 * (LINE + AIR);
/// The height that a picture may fill.
const TALL: f64 = 505.0;
/// The width of a picture.
const WIDTH: f64 = 1180.0;
/// The space beside a block for the frame of a row.
const FRAME: f64 = 13.0;

/// A row of two lists as it is set: a choice, its round, the other list's round, its choice.
pub type Cells = [String; 4];

/// Two lists side by side, to be set.
pub struct Listing<'a> {
    /// The name of the first section.
    pub id: &'a str,
    /// The heading of the sections, in prose.
    pub heading: String,
    /// The heads of the columns, each in two lines.
    pub heads: [(&'a str, &'a str); 4],
    /// The rows, and whether each is the run's.
    pub rows: Vec<(Cells, bool)>,
    /// What stands below the last of them.
    pub words: String,
}

impl Listing<'_> {
    /// Whether each row has room on one line.
    pub fn fits(&self) -> bool {
        Block::natural(self).width() <= WIDTH - 2.0 * FRAME
    }

    /// Leaves out rows that are not the run's, where they have several lines, until the others have room on a slide. Two stay.
    pub fn shorten(&mut self) {
        let block = Block::of(self);
        let tall = self.rows.iter().map(|row| Set::new(&block, row).height()).fold(1.0, f64::max);
        let most = if self.fits() { self.rows.len() } else { ((FULL / tall) as usize).max(2) };
        let mut over = self.rows.len().saturating_sub(most);
        self.rows.retain(|(_, own)| {
            let kept = *own || over == 0;
            over -= usize::from(!kept);
            kept
        });
    }

    /// The lists in blocks, on as many slides as they need.
    pub fn sections(&self) -> Vec<Section> {
        let block = Block::of(self);
        let rows: Vec<Set> = self.rows.iter().map(|row| Set::new(&block, row)).collect();
        let across = if self.fits() {
            ((WIDTH + GAP) / (block.width() + GAP)).floor().max(1.0) as usize
        } else {
            1
        };
        let across = across.min(rows.len().div_ceil(ROWS)).clamp(1, 3);
        let slides = slides(&rows, across);
        let mut place = 0;
        let slide = |rows: &&[Set]| {
            place += 1;
            let words = if place == slides.len() { note(&self.words) } else { String::new() };
            let body = self.picture(&block, across, rows, place) + &words;
            self.section(place, slides.len(), body)
        };
        slides.iter().map(slide).collect()
    }

    /// The section of a place from 1 on, of so many.
    fn section(&self, place: usize, count: usize, body: String) -> Section {
        let id = if place == 1 { self.id.to_string() } else { format!("{}-{place}", self.id) };
        let part = if count > 1 { format!(", {place} of {count}") } else { String::new() };
        Section { id, heading: format!("{}{part}", self.heading), body }
    }

    /// The picture of a slide.
    fn picture(&self, block: &Block, across: usize, rows: &[Set], place: usize) -> String {
        let blocks: Vec<&[Set]> = rows.chunks(rows.len().div_ceil(across).max(1)).collect();
        let whole = across as f64 * (block.width() + GAP) - GAP;
        let tall = |rows: &&[Set]| rows.iter().map(Set::height).sum::<f64>();
        let height = HEAD + blocks.iter().map(tall).fold(0.0, f64::max) + 6.0;
        let larger = f64::min(1.2, TALL / height).max(1.0);
        let width = f64::max(whole + 2.0 * FRAME, WIDTH / larger);
        let mut svg = Svg::new(width);
        for (place, rows) in blocks.iter().enumerate() {
            let left = (width - whole) / 2.0 + place as f64 * (block.width() + GAP);
            block.draw(&mut svg, &self.heads, rows, left);
        }
        let told: Vec<String> = rows.iter().map(|row| self.told(row.cells)).collect();
        let id = format!("{}-picture-{place}", self.id);
        svg.finish(height, &id, &self.heading, &(told.join("; ") + "."))
    }

    /// A row in words.
    fn told(&self, cells: &Cells) -> String {
        let [first, made, other, second] = cells;
        let [left, _, _, right] = self.heads;
        format!("{} {first} makes {made}, {} {second} makes {other}", left.0, right.0)
    }
}

/// The rows of each slide: as many as so many blocks take, or as are not too tall where they have several lines.
fn slides<'a, 'b>(rows: &'a [Set<'b>], across: usize) -> Vec<&'a [Set<'b>]> {
    if rows.iter().all(|row| row.lines() == 1) {
        return rows.chunks(ROWS * across).collect();
    }
    let mut slides = Vec::new();
    let mut rest = rows;
    while !rest.is_empty() {
        let mut tall = 0.0;
        let fitting = rest.iter().take_while(|row| {
            tall += row.height();
            tall <= FULL
        });
        let (slide, others) = rest.split_at(fitting.count().max(1));
        slides.push(slide);
        rest = others;
    }
    slides
}

/// A row whose cells are set in lines.
struct Set<'a> {
    cells: &'a Cells,
    own: bool,
    set: [Vec<Vec<Run>>; 4],
}

impl Set<'_> {
    /// The cells of a row in the columns of a block.
    fn new<'a>(block: &Block, row: &'a (Cells, bool)) -> Set<'a> {
        let (cells, own) = row;
        let set = |column: usize| text::wrap(&cells[column], block.widths[column] / SIZE + 0.01);
        Set { cells, own: *own, set: [0, 1, 2, 3].map(set) }
    }

    /// How many lines the row has.
    fn lines(&self) -> usize {
        self.set.iter().map(Vec::len).max().unwrap_or(1)
    }

    /// How tall the row is.
    fn height(&self) -> f64 {
        LINE * self.lines() as f64 + AIR
    }
}

/// The widths of the columns of a block.
struct Block {
    widths: [f64; 4],
}

/// The space between blocks.
const GAP: f64 = 46.0;
/// The space for the arrow between a choice and its round.
const ARROW: f64 = 46.0;
/// The space for the two lines between equal rounds.
const JOIN: f64 = 54.0;

impl Block {
    /// The block in which all heads and cells have room on one line.
    fn natural(listing: &Listing<'_>) -> Block {
        let width = |words: &str| text::width(&text::wrap(words, f64::INFINITY).concat()) * SIZE;
        let column = |column: usize| {
            let (above, below) = listing.heads[column];
            let head = f64::max(width(above), width(below));
            listing.rows.iter().map(|(cells, _)| width(&cells[column])).fold(head, f64::max)
        };
        Block { widths: [0, 1, 2, 3].map(column) }
    }

    /// The block in which all heads and cells have room, in several lines where they are long.
    fn of(listing: &Listing<'_>) -> Block {
        let natural = Block::natural(listing);
        if listing.fits() {
            return natural;
        }
        let room = WIDTH - 2.0 * FRAME - 2.0 * ARROW - JOIN;
        let choice = |width: f64| f64::min(width, room * 0.2);
        let [first, _, _, second] = natural.widths;
        let round = (room - choice(first) - choice(second)) / 2.0;
        Block { widths: [choice(first), round, round, choice(second)] }
    }

    /// The width of the whole block.
    fn width(&self) -> f64 {
        self.widths.iter().sum::<f64>() + 2.0 * ARROW + JOIN
    }

    /// Where the columns begin in a block that begins at 0.
    fn starts(&self) -> [f64; 4] {
        let [nonce, honest, simulated, _] = self.widths;
        let second = nonce + ARROW;
        let third = second + honest + JOIN;
        [0.0, second, third, third + simulated + ARROW]
    }

    /// Where the middle of a column is in a block that begins at 0.
    fn middle(&self, column: usize) -> f64 {
        self.starts()[column] + self.widths[column] / 2.0
    }

    /// Draws a block with its heads.
    fn draw(&self, svg: &mut Svg, heads: &[(&str, &str); 4], rows: &[Set], left: f64) {
        self.draw_heads(svg, heads, left);
        let mut above = HEAD;
        for row in rows {
            self.draw_row(svg, row, (left, above));
            above += row.height();
        }
    }

    /// Draws the heads of the columns and the line below them.
    fn draw_heads(&self, svg: &mut Svg, heads: &[(&str, &str); 4], left: f64) {
        for (column, (above, below)) in heads.iter().enumerate() {
            let middle = left + self.middle(column);
            svg.prose((middle, 22.0), SIZE - 1.0, Anchor::Middle, "strong", above);
            svg.prose((middle, 49.0), SIZE, Anchor::Middle, "", below);
        }
        let line = [left - 12.0, left + self.width() + 12.0].map(|x| (x, HEAD - 8.0));
        svg.line(line[0], line[1], "rule");
    }

    /// Draws a row, that of the run with a frame.
    fn draw_row(&self, svg: &mut Svg, row: &Set, at: (f64, f64)) {
        let (left, above) = at;
        if row.own {
            let size = (self.width() + 24.0, row.height() - 2.0);
            svg.rectangle((left - 12.0, above + 1.0), size, "marked");
        }
        let middle = above + row.height() / 2.0;
        for column in 0..4 {
            self.draw_cell(svg, row, column, (left, middle));
        }
        self.draw_joins(svg, (left, middle));
    }

    /// Draws the arrows from the choices to their rounds, and the two lines between the rounds.
    fn draw_joins(&self, svg: &mut Svg, at: (f64, f64)) {
        let (left, middle) = at;
        let [_, second, third, fourth] = self.starts().map(|start| left + start);
        svg.arrow((second - ARROW + 10.0, middle), (second - 8.0, middle), "join");
        svg.arrow((fourth - 10.0, middle), (fourth - ARROW + 8.0, middle), "join");
        for y in [middle - 3.0, middle + 3.0] {
            svg.line((third - JOIN + 12.0, y), (third - 12.0, y), "join");
        }
    }

    /// Draws the lines of a cell about the middle of its row.
    fn draw_cell(&self, svg: &mut Svg, row: &Set, column: usize, at: (f64, f64)) {
        let lines = &row.set[column];
        let class = if row.own { "strong" } else { "" };
        let first = at.1 + 7.0 - LINE * (lines.len() as f64 - 1.0) / 2.0;
        for (place, line) in lines.iter().enumerate() {
            let point = (at.0 + self.middle(column), first + LINE * place as f64);
            svg.text(point, SIZE, Anchor::Middle, class, line);
        }
    }
}
