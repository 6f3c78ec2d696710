//! Writes the list of what has to be believed to docs/THEOREMS.md.

use std::fs;

use believed::page::{self, BEGIN, END};
use believed::specs::{self, Specs};

fn main() {
    let path = specs::root().join("docs/THEOREMS.md");
    let text = specs::text_of(&path);
    let (before, rest) =
        text.split_once(BEGIN).expect("the page has the line that begins the list");
    let (_, after) = rest.split_once(END).expect("the page has the line that ends the list");
    let written = format!("{before}{BEGIN}{}{END}{after}", page::list(&Specs::read()));
    fs::write(&path, written).expect("the page is written");
}
