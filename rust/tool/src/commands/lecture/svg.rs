//! A small writer of pictures.

use super::text::{self, Run};

/// Where the text of a line stands with regard to its point.
#[derive(Clone, Copy, PartialEq)]
pub enum Anchor {
    /// It begins there.
    Start,
    /// Its middle is there.
    Middle,
    /// It ends there.
    End,
}

/// A picture that is being drawn. Its unit is a pixel of a slide of 1280 by 720.
pub struct Svg {
    width: f64,
    body: String,
}

impl Svg {
    /// An empty picture of this width.
    pub fn new(width: f64) -> Svg {
        Svg { width, body: String::new() }
    }

    /// A line of text.
    pub fn text(&mut self, at: (f64, f64), size: f64, anchor: Anchor, class: &str, line: &[Run]) {
        let anchor = match anchor {
            Anchor::Start => "start",
            Anchor::Middle => "middle",
            Anchor::End => "end",
        };
        self.body += &format!(
            "<text x=\"{}\" y=\"{}\" font-size=\"{}\" text-anchor=\"{anchor}\" class=\"{class}\">{}</text>\n",
            number(at.0),
            number(at.1),
            number(size),
            spans(line, size)
        );
    }

    /// Prose on one line.
    pub fn prose(&mut self, at: (f64, f64), size: f64, anchor: Anchor, class: &str, words: &str) {
        let line: Vec<Run> = text::wrap(words, f64::INFINITY).concat();
        self.text(at, size, anchor, class, &line);
    }

    /// A straight line.
    pub fn line(&mut self, from: (f64, f64), to: (f64, f64), class: &str) {
        self.body += &format!(
            "<line x1=\"{}\" y1=\"{}\" x2=\"{}\" y2=\"{}\" class=\"{class}\"/>\n",
            number(from.0),
            number(from.1),
            number(to.0),
            number(to.1)
        );
    }

    /// A line that ends in the head of an arrow.
    pub fn arrow(&mut self, from: (f64, f64), to: (f64, f64), class: &str) {
        let length = (to.0 - from.0).hypot(to.1 - from.1);
        let (along, up) = ((to.0 - from.0) / length, (to.1 - from.1) / length);
        let point = |back: f64, beside: f64| {
            let x = to.0 - back * along - beside * up;
            let y = to.1 - back * up + beside * along;
            format!("{},{}", number(x), number(y))
        };
        self.line(from, (to.0 - 10.0 * along, to.1 - 10.0 * up), class);
        let points = [point(0.0, 0.0), point(15.0, 6.5), point(15.0, -6.5)].join(" ");
        self.body += &format!("<polygon points=\"{points}\" class=\"head\"/>\n");
    }

    /// A rectangle with its upper left corner, width and height.
    pub fn rectangle(&mut self, at: (f64, f64), size: (f64, f64), class: &str) {
        self.body += &format!(
            "<rect x=\"{}\" y=\"{}\" width=\"{}\" height=\"{}\" class=\"{class}\"/>\n",
            number(at.0),
            number(at.1),
            number(size.0),
            number(size.1)
        );
    }

    /// The picture of this height, with a name that is its own on the page, a title and a description.
    pub fn finish(self, height: f64, id: &str, title: &str, description: &str) -> String {
        let (width, height) = (number(self.width), number(height));
        let (title, description) =
            (text::escape(&text::plain(title)), text::escape(&text::plain(description)));
        format!(
            "<svg viewBox=\"0 0 {width} {height}\" role=\"img\" \
             aria-labelledby=\"{id}-title {id}-description\">\n\
             <title id=\"{id}-title\">{title}</title>\n\
             <desc id=\"{id}-description\">{description}</desc>\n{}</svg>\n",
            self.body
        )
    }
}

/// The runs of a line, each with its own style.
fn spans(line: &[Run], size: f64) -> String {
    let mut rise = 0.0;
    let span = |run: &Run| {
        let shift = (rise - run.rise) * size;
        rise = run.rise;
        let text = text::escape(&run.text);
        if run.scale == 1.0 && !run.italic && shift == 0.0 {
            return text;
        }
        let mut style = String::new();
        if shift != 0.0 {
            style += &format!(" dy=\"{}\"", number(shift));
        }
        if run.scale != 1.0 {
            style += &format!(" font-size=\"{}\"", number(run.scale * size));
        }
        if run.italic {
            style += " class=\"i\"";
        }
        format!("<tspan{style}>{text}</tspan>")
    };
    line.iter().map(span).collect()
}

/// A number with at most two places.
fn number(value: f64) -> String {
    let rounded = (value * 100.0).round() / 100.0;
    // There is no negative zero on a page.
    format!("{}", rounded + 0.0)
}
