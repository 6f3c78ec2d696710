//! The frame of a page and its style sheet.

use super::text;

/// A section of a page, which is a slide and a sheet of paper.
pub struct Section {
    /// Its name, which is its own on the page.
    pub id: String,
    /// Its heading, in prose.
    pub heading: String,
    /// What stands below the heading, as HTML.
    pub body: String,
}

/// The whole page. The reminder is a line in prose above each section but the first. What plays stands below all sections.
pub fn page(title: &str, reminder: &str, sections: &[Section], play: &str) -> String {
    let body: String = sections
        .iter()
        .enumerate()
        .map(|(place, section)| section.html(place == 0, reminder))
        .collect();
    format!(
        "<!DOCTYPE html>\n<html lang=\"en\">\n<head>\n<meta charset=\"utf-8\" />\n\
         <meta name=\"viewport\" content=\"width=device-width, initial-scale=1\" />\n\
         <meta name=\"color-scheme\" content=\"light dark\" />\n\
         <title>{}</title>\n<style>\n{STYLE}</style>\n</head>\n<body>\n<main>\n{body}</main>\n{play}</body>\n</html>\n",
        text::escape(title)
    )
}

impl Section {
    /// The section as HTML, the first one with the page's heading.
    fn html(&self, first: bool, reminder: &str) -> String {
        let (id, heading) = (&self.id, text::html(&self.heading));
        let level = if first { "h1" } else { "h2" };
        let reminder = if first || reminder.is_empty() {
            String::new()
        } else {
            format!("<p class=\"reminder\">{}</p>\n", text::html(reminder))
        };
        format!(
            "<section id=\"{id}\" aria-labelledby=\"{id}-heading\">\n<header>\n\
             <{level} id=\"{id}-heading\">{heading}</{level}>\n{reminder}</header>\n{}</section>\n",
            self.body
        )
    }
}

/// A paragraph of prose of a class in the style sheet.
pub fn paragraph(class: &str, words: &str) -> String {
    format!("<p class=\"{class}\">{}</p>\n", text::html(words))
}

/// A table, in prose, whose first row and first column are heads.
#[derive(Default)]
pub struct Table<'a> {
    /// Its class in the style sheet.
    pub class: &'a str,
    /// What stands over it.
    pub caption: String,
    /// The rows.
    pub rows: Vec<Vec<String>>,
    /// The rows that are set in bold, by their places.
    pub strong: Vec<usize>,
}

impl Table<'_> {
    /// The table as HTML.
    pub fn html(&self) -> String {
        let lines: Vec<String> = (0..self.rows.len()).map(|place| self.row(place)).collect();
        let (head, body) = lines.split_at(lines.len().min(1));
        format!(
            "<table class=\"{}\">\n<caption>{}</caption>\n<thead>\n{}</thead>\n<tbody>\n{}</tbody>\n</table>\n",
            self.class,
            text::html(&text::unbroken(&self.caption)),
            head.concat(),
            body.concat()
        )
    }

    /// A row as HTML.
    fn row(&self, place: usize) -> String {
        let strong = if self.strong.contains(&place) { " class=\"strong\"" } else { "" };
        let cell = |(column, words): (usize, &String)| {
            let words = text::html(words);
            match (place, column) {
                (0, _) => format!("<th scope=\"col\">{words}</th>"),
                (_, 0) => format!("<th scope=\"row\">{words}</th>"),
                _ => format!("<td>{words}</td>"),
            }
        };
        let cells: String = self.rows[place].iter().enumerate().map(cell).collect();
        format!("<tr{strong}>{cells}</tr>\n")
    }
}

/// The style sheet. A slide is 64 rem wide and 36 rem high, and a rem has 20 pixels at 1280 by 720.
const STYLE: &str = "\
:root { color-scheme: light dark; --paper: #ffffff; --ink: #15181c; --soft: #4a5058; --rule: #8b929a;
  --accent: #0b4a85; --tint: #e8eff7; }
@media (prefers-color-scheme: dark) {
  :root { --paper: #14171a; --ink: #eef0f2; --soft: #bcc2c9; --rule: #7d858e; --accent: #a3cdf8; --tint: #22313f; }
}
* { box-sizing: border-box; }
html { font-size: clamp(15px, min(1.5625vw, 2.7778vh), 60px); scroll-snap-type: y proximity; background: var(--paper); }
body { margin: 0; color: var(--ink); background: var(--paper); font-size: 1.1rem; line-height: 1.42;
  font-family: \"STIX Two Text\", \"Libertinus Serif\", Charter, Cambria, \"Times New Roman\", \"DejaVu Serif Condensed\", serif;
  font-variant-numeric: lining-nums; font-stretch: semi-condensed; -webkit-text-size-adjust: 100%; }
section { width: 100%; max-width: 64rem; min-height: 100vh; margin: 0 auto; padding: 1.7rem 2.5rem 1.4rem; display: flex;
  flex-direction: column; scroll-snap-align: start; overflow-x: auto; }
header { display: flex; justify-content: space-between; align-items: baseline; gap: 2rem; padding-bottom: 0.5rem;
  margin-bottom: 1.1rem; border-bottom: 0.1rem solid var(--accent); }
h1, h2 { margin: 0; font-weight: 600; line-height: 1.2; color: var(--accent); }
h1 { font-size: 2rem; }
h2 { font-size: 1.55rem; }
.reminder { margin: 0; color: var(--soft); white-space: nowrap; }
p { margin: 0 0 0.7rem; max-width: 58rem; }
sup, sub { font-size: 0.76em; line-height: 0; }
sup { vertical-align: 0.48em; }
sub { vertical-align: -0.22em; }
.formula { margin: 0.9rem 0 1.6rem; font-size: 2.1rem; line-height: 1.5; }
.halves .formula { font-size: 1.75rem; margin: 0 0 0.8rem; }
.formula.long { margin: 0.2rem 0 1rem; font-size: 1.1rem; line-height: 1.4; }
.formula p { margin: 0; max-width: none; padding-left: 2em; text-indent: -2em; }
svg { display: block; width: 100%; height: auto; margin: auto 0; overflow: visible; }
svg text { fill: var(--ink); white-space: pre; }
svg .i, i { font-style: italic; }
svg .soft { fill: var(--soft); }
svg .accent { fill: var(--accent); }
svg .strong { font-weight: 700; }
svg .rule { stroke: var(--rule); stroke-width: 1; }
svg .life { stroke: var(--rule); stroke-width: 2; }
svg .message { stroke: var(--ink); stroke-width: 2.5; }
svg .join { stroke: var(--ink); stroke-width: 1.5; }
svg .dashed { stroke: var(--rule); stroke-width: 2; stroke-dasharray: 6 5; }
svg .head { fill: var(--ink); }
svg .box { fill: var(--paper); stroke: var(--ink); stroke-width: 2; }
svg .marked { fill: var(--tint); stroke: var(--accent); stroke-width: 3; }
svg .cell { fill: none; stroke: var(--rule); stroke-width: 1; }
.two { display: grid; grid-template-columns: 23rem minmax(0, 1fr); gap: 2.2rem; align-items: start; }
.halves { display: grid; grid-template-columns: repeat(2, minmax(0, 1fr)); gap: 2.2rem; align-items: start; }
ol { margin: 0; padding-left: 1.6rem; }
li { margin-bottom: 1.1rem; }
li::marker { font-weight: 700; color: var(--accent); }
.step { display: block; padding-left: 1.2rem; margin-top: 0.25rem; font-size: 1.3rem; }
.step.long { margin-top: 0.1rem; font-size: 1.05rem; }
table { border-collapse: collapse; margin: 0 0 0.8rem; }
section table { align-self: flex-start; }
section svg { flex: none; }
caption { text-align: left; padding-bottom: 0.35rem; color: var(--soft); }
th, td { padding: 0.22rem 0.9rem 0.22rem 0; text-align: left; vertical-align: baseline; border-bottom: 1px solid var(--rule); }
thead th { border-bottom: 0.1rem solid var(--ink); font-weight: 600; }
tbody th { font-weight: 400; }
.facts tbody th { font-weight: 600; }
.figures th, .figures td { text-align: right; padding: 0.2rem 0 0.2rem 1.3rem; }
.figures th:first-child, .figures td:first-child { padding-left: 0; }
.facts th { white-space: nowrap; padding-right: 2rem; }
.facts tbody th { width: 1%; }
.facts { font-size: 1.2rem; }
.two svg { margin: 0 0 1.4rem; }
.two .figures, .halves .figures { width: 100%; }
.dense { font-size: 1rem; }
.dense th, .dense td { padding-top: 0.05rem; padding-bottom: 0.05rem; }
.strong td, .strong th { font-weight: 700; }
.result { font-weight: 700; }
.facts.pair { font-size: 1.05rem; }
.side { margin: 0; color: var(--soft); }
.wide { width: 100%; }
.note { margin-top: auto; padding-top: 0.8rem; margin-bottom: 0; }
@media screen and (max-width: 48rem) {
  .two, .halves { grid-template-columns: 1fr; }
  header { display: block; }
  .reminder { white-space: normal; }
}
@page { size: A4 landscape; margin: 12mm; }
@media print {
  :root { color-scheme: light; --paper: #ffffff; --ink: #000000; --soft: #333333; --rule: #777777; --accent: #000000;
    --tint: #eeeeee; }
  html { font-size: 4.15mm; scroll-snap-type: none; }
  section { display: block; min-height: 0; max-width: none; padding: 0; overflow: visible; break-inside: avoid;
    break-after: page; }
  section:last-child { break-after: auto; }
  header { break-inside: avoid; break-after: avoid; }
  svg { margin: 0; max-height: 164mm; break-inside: avoid; }
  tr, li { break-inside: avoid; }
  .note { margin-top: 0; }
}
";
