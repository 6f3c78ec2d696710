//! The instructions of a call, counted by valgrind, which runs this program
//! again for each row and side.

use std::env;
use std::process::Command;

/// The instructions of a call on each side: the difference of a run with eleven
/// calls and a run with one, divided by ten. The row is a table, inputs and a call.
pub fn instructions<const N: usize>(row: [usize; 3]) -> Result<[f64; N], String> {
    let [table, inputs, call] = row;
    let mut counts = [0.0; N];
    for (side, count) in counts.iter_mut().enumerate() {
        let few = collected([table, inputs, call, side, 1])?;
        let many = collected([table, inputs, call, side, 11])?;
        *count = (many - few) as f64 / 10.0;
    }
    Ok(counts)
}

/// The instructions of a whole run: of a row, a side and how many calls.
fn collected(run: [usize; 5]) -> Result<u64, String> {
    let program = env::current_exe().map_err(|error| error.to_string())?;
    let output = Command::new("valgrind")
        .args(["--tool=callgrind", "--callgrind-out-file=/dev/null"])
        .arg(program)
        .arg("run")
        .args(run.map(|number| number.to_string()))
        .output()
        .map_err(|error| format!("valgrind: {error}"))?;
    let report = String::from_utf8_lossy(&output.stderr);
    report
        .lines()
        .find_map(|line| line.split_once("Collected :"))
        .and_then(|(_, count)| count.trim().parse().ok())
        .ok_or_else(|| report.into_owned())
}
