//! The pieces of the pages for callers are programs: those of this crate's README in a crate that names this one by its path as
//! the README says, and those of docs/C.md, each in braces of its own, in a program that is compiled as the page says.

use crate::cc;
use crate::pages::page_a;

use dimkhoros::{Found, Prover, Round, Verdict, places};
use dimkhoros_sys::ARCHIVE;
use std::env;
use std::fs;
use std::process::Command;

/// What the README leaves to its reader.
const RUST_FRAME: &str = "use dimkhoros::*;
use std::fs;

fn store(stored: &[u8; STORED_PROVER]) -> std::io::Result<()> {
    fs::write(\"session.bin\", stored)
}

fn main() -> Result<(), Box<dyn std::error::Error>> {
PIECES
    Ok(())
}
";

/// What docs/C.md leaves to its reader: page A's sheet and witness, and the box's folder.
const C_FRAME: &str = "#define _POSIX_C_SOURCE 200809L
#include \"dimkhoros_box.h\"

static const uint8_t sheet[] = {'H', 'O', 'M', 0, 1, 1, 0, 0, 0, 23, 0, 0, 0, 11,
                                0, 0, 0, 11, 1, 1, 0, 0, 0, 2, 0, 0, 0, 13};
static const size_t length = sizeof sheet;
static const uint32_t witness[8] = {7};

int main(int argc, char **argv) {
int folder = open(argc == 2 ? argv[1] : \".\", O_RDONLY | O_DIRECTORY);
uint32_t nonce[8], commitment[8], response[8];
{
PIECES
}
return 0;
}
";

/// The blocks of this language in a text, with something in between.
fn blocks(text: &str, language: &str, between: &str) -> String {
    let start = format!("```{language}\n");
    let ends = text.split(&start).skip(1);
    ends.filter_map(|block| block.split("```").next()).collect::<Vec<_>>().join(between)
}

#[test]
fn the_pieces_in_rust_run() {
    let readme = fs::read_to_string(cc::root().join("rust/dimkhoros/README.md")).unwrap();
    let folder = cc::scratch("readme");
    fs::create_dir_all(folder.join("src")).unwrap();
    let crate_path = env!("CARGO_MANIFEST_DIR");
    let dependencies =
        blocks(&readme, "toml", "").replace("/where/the/repository/is/rust/dimkhoros", crate_path);
    assert!(dependencies.contains(crate_path), "the README names this crate by another path");
    // The folder stands below a workspace, of which this crate is no part.
    let package = "[package]\nname = \"readme\"\nedition = \"2024\"\n\n[workspace]\n\n";
    fs::write(folder.join("Cargo.toml"), package.to_string() + &dependencies).unwrap();
    let program = RUST_FRAME.replace("PIECES", &blocks(&readme, "rs", ""));
    fs::write(folder.join("src/main.rs"), program).unwrap();
    let cargo = env::var_os("CARGO").unwrap_or_else(|| "cargo".into());
    let mut command = Command::new(cargo);
    command.args(["run", "--offline", "--quiet"]).current_dir(&folder);
    let printed = cc::succeed(&mut command);
    let expected = "8 the challenge count K must be 2 to 65536, and no number from 2 to K - 1 may divide the order or \
                    exponent\nsend 9\nsend 4\nthe session has answered\nrounds 1\n0 accepted\npass\nrejected 0 4 2\nrefused 12 length 9\n\
                    0 5\n1 1\n2 8\n3 4\n4 0\n5 7\n6 3\n7 10\n8 6\n9 2\n10 9\n";
    assert_eq!(printed, expected);
}

/// The words of the page's line that compiles a program in C, with these for the program and the archive.
fn compile_words(page: &str, program: &str) -> Vec<String> {
    let line = page.lines().find(|line| line.starts_with("    cc ")).unwrap();
    let word = |word: &str| match word {
        "program.c" => program.to_string(),
        "crates/dimkhoros/out/libdimkhoros.a" => ARCHIVE.to_string(),
        _ => word.to_string(),
    };
    line.split_whitespace().map(word).collect()
}

#[test]
fn the_pieces_in_c_run() {
    let page = fs::read_to_string(cc::root().join("docs/C.md")).unwrap();
    let source = cc::scratch("readme.c");
    let program = cc::scratch("readme.program");
    fs::write(&source, C_FRAME.replace("PIECES", &blocks(&page, "c", "}\n{\n"))).unwrap();
    let words = compile_words(&page, source.to_str().unwrap());
    let mut command = Command::new(&words[0]);
    command.args(&words[1..]).args(cc::STRICT).arg("-o").arg(&program).current_dir(cc::root());
    cc::succeed(&mut command);
    let folder = cc::scratch("readme-box");
    fs::create_dir_all(&folder).unwrap();
    let printed = cc::succeed(Command::new(program).arg(&folder));
    let lines: Vec<&str> = printed.lines().collect();
    let sent = |line: &str| places([line.strip_prefix("send ").unwrap().parse().unwrap()]);
    let round = Round { commitment: sent(lines[0]), challenge: 3, response: sent(lines[1]) };
    assert_eq!(page_a().judge(&round), Ok(Verdict::Accepted));
    let expected = [
        "21 the session's state does not allow the call, or what the session or watch holds does not fit this sheet",
        "the last challenge was answered",
        "accepted",
    ];
    assert_eq!(lines[2..], expected);
    let (_, found) = Prover::reopen(&fs::read(folder.join("session.bin")).unwrap());
    assert_eq!(found, Found::Answered);
}
