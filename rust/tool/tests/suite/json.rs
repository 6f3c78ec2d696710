//! What `--json` prints is read by a JSON parser: Python's, if there is one.

use crate::desk::Desk;
use std::process::Command;

/// A folder with a sheet, rounds of all verdicts, a level and a pattern file.
fn desk(name: &str) -> Desk {
    let desk = Desk::new(name);
    let made = desk.print(
        "mkdir ben 'an\\na \"x\"' none && dimkhoros make schnorr m=23 q=11 h=2 x=7 -o ben/sheet.bin &&
         dimkhoros rounds make ben/sheet.bin x=7 k=5 c=3 x=7 k=5 c=1 t=9 c=1 r=2 t=5 c=0 r=0 -o ben/rounds.bin &&
         dimkhoros level 7 ben/level.bin && cp ben/* 'an\\na \"x\"' &&
         dimkhoros make root m=35 e=5 x=2 -o root.bin && dimkhoros patterns make schnorr 01/12 -o own.bin",
    );
    assert!(!made.contains("dimkhoros:"), "{made}");
    desk
}

/// Commands, each with an expression of what was read, `v`, that has to hold.
const READ: [(&str, &str); 12] = [
    (
        "show ben/sheet.bin",
        "v['z'] == [13] and v['table'] == [[2]] and [v[k] for k in 'mlKsn'] == [23, 11, 11, 1, 1]",
    ),
    ("show root.bin", "v['kind'] == 2 and v['table'] is None and v['z'] == [32]"),
    ("show own.bin", "[p['digits'] for p in v['patterns']] == [[[1]], [[0, 1], [1, 2]]]"),
    ("show ben/rounds.bin", "v['count'] == 4 and v['version'] == 1"),
    (
        "show ben/sheet.bin ben/rounds.bin",
        "[r['verdict'] for r in v['rounds']] == ['accepted'] * 2 + ['rejected', 'refused']",
    ),
    ("show ben", "v['level'] == 7 and v['sheet']['m'] == 23 and len(v['rounds']['rounds']) == 4"),
    (
        "rounds list ben/sheet.bin ben/rounds.bin",
        "v['rounds'][2]['rows'] == [0] and v['rounds'][3]['refusal'] == 14 and v['rounds'][0]['t'] == [9]",
    ),
    (
        "extract ben/sheet.bin ben/rounds.bin",
        "[(p['rounds'], p['x'], p['refusal']) for p in v] == [([0, 1], [7], None), ([0, 2], None, 20), ([1, 2], None, 19)]",
    ),
    ("extract ben/sheet.bin ben/rounds.bin 0 1", "v[0]['x'] == [7]"),
    ("extract ben/sheet.bin t=9 c=3 r=4 c=1 r=1", "v[0]['x'] == [7] and v[0]['rounds'] == [0, 1]"),
    (
        "mark ben 'an\\na \"x\"' none",
        "[m['result'] for m in v] == ['fail', 'fail', 'sheet'] and v[1]['folder'] == 'an\\\\na \"x\"' and v[0]['rejected'] == [2] and v[2]['refusal'] == 2",
    ),
    (
        "reason ben 2",
        "v['verdict'] == 'rejected' and v['line'] == 'rejected 0 4 2' and 'Vic rejects it' in v['words']",
    ),
];

#[test]
fn a_json_parser_reads_what_is_printed() {
    if Command::new("python3").arg("--version").output().is_err() {
        return;
    }
    let desk = desk("json");
    for (command, holds) in READ {
        let program = format!("import json, sys\nv = json.load(sys.stdin)\nassert {holds}, v\n");
        std::fs::write(desk.folder.join("read.py"), program).unwrap();
        let printed =
            desk.print(&format!("dimkhoros {command} --json 2>/dev/null | python3 read.py"));
        assert_eq!(printed, "", "{command}");
    }
    assert!(desk.print("dimkhoros mark --csv --json ben").ends_with("[2]\n"));
}
